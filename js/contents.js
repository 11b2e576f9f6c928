/**
 * Texts that telephones and banks know what to do with: access to a wireless network, a contact, an event, a place, an email, a short
 * message, a telephone number, a payment, and GS1 data as a link. python/qrproved/contents.py says what the table has, of which js/build
 * makes kinds.js. contents.d.ts describes each call.
 */
import { ContentError, EciError, Gs1Error } from './errors.js';
import { dataOf, fieldsOf } from './gs1.js';
import { encodedText } from './interpretation.js';
import { CONTENTS } from './kinds.js';

export { ContentError } from './errors.js';

const { errors: ERRORS, types: TYPES } = CONTENTS;
/** The kinds of contents, by the names of the calls, each with its fields. */
export const KINDS = CONTENTS.kinds;
const NAMED = /\{([a-z0-9]+)(?::([a-z]+))?\}/g;
const TIME = /^([0-9]{4})-([0-9]{2})-([0-9]{2})(?:T([0-9]{2}):([0-9]{2})(?::([0-9]{2}))?(?:Z|([+-])([0-9]{2}):([0-9]{2}))?)?$/;
const LINE_END = /\r\n|\r|\n/g;

/** How a payment is encoded by EPC069-12: at level M, and without a header for its character set, which its text names. */
export const PAYMENT = Object.freeze({ level: 'M', boost: false, eci: false });

function wrongOf(field, name, ...values) {
  return new ContentError(field, values.reduce((text, it) => text.replace('{}', () => it), ERRORS[name]));
}

function matches(pattern, text) {
  return new RegExp(`^(?:${pattern})$`, 'u').test(text);
}

const sizeOf = (text) => new TextEncoder().encode(text).length;

// ---- the fields

/** Returns a number with a decimal point, and without an exponent. */
function decimal(number) {
  const found = /^(-?)([0-9])(?:[.]([0-9]+))?e([+-][0-9]+)$/.exec(String(number));
  if (!found) return String(number);
  const [, sign, first, rest = '', power] = found, exponent = Number(power), digits = first + rest;
  return sign + (exponent < 0 ? `0.${'0'.repeat(-exponent - 1)}${digits}` : digits.padEnd(exponent + 1, '0'));
}

/** Returns a value as text. */
function shownOf(field, spec, value) {
  if (typeof value === 'string') return value;
  if (typeof value === 'number' && spec.numbers) return decimal(value);
  if (value instanceof Date && (spec.is === 'day' || spec.is === 'time')) {
    const text = Number.isNaN(value.getTime()) ? String(value) : value.toISOString();
    return spec.is === 'day' ? text.slice(0, 10) : text.replace(/[.][0-9]+Z$/, 'Z');
  }
  throw wrongOf(field, spec.is === 'number' ? 'number' : 'text');
}

function chosenOf(field, choices, value) {
  const found = Object.entries(choices).find(([name]) => name.toLowerCase() === value.toLowerCase());
  if (!found) {
    const [last, ...first] = Object.keys(choices).reverse();
    throw wrongOf(field, 'choice', `${first.reverse().join(', ')} or ${last}`);
  }
  return found[1];
}

/** Returns a value, checked by what the table says of its field, or null if it is empty. */
function oneOf(field, spec, given) {
  const value = shownOf(field, spec, given);
  if (value === '') return null;
  if (/\p{Surrogate}/u.test(value)) throw wrongOf(field, 'surrogate');
  if (spec.choices) return chosenOf(field, spec.choices, value);
  const [pattern, said] = TYPES[spec.is];
  if (!matches(pattern, value)) throw new ContentError(field, said);
  const count = [...value].length, size = sizeOf(value);
  if (count > (spec.most ?? count)) throw wrongOf(field, 'characters', count, spec.most);
  if (size > (spec.bytes ?? size)) throw wrongOf(field, 'bytes', size, spec.bytes);
  if (spec.range && !(spec.range[0] <= Number(value) && Number(value) <= spec.range[1])) throw wrongOf(field, 'range', ...spec.range);
  return value;
}

function flagOf(field, given) {
  if (typeof given !== 'boolean' && given !== 'true' && given !== 'false') throw wrongOf(field, 'flag');
  return given === true || given === 'true' ? 'true' : null;
}

/** Returns what a field has: a text, a list of texts, or null. */
function valueOf(name, spec, value) {
  if (value === undefined || value === null || value === '') return null;
  if (spec.is === 'flag') return flagOf(name, value);
  if (!spec.many) return oneOf(name, spec, value);
  const found = (Array.isArray(value) ? value : [value]).map((it) => oneOf(name, spec, it)).filter((it) => it !== null);
  return found.length ? found : null;
}

/** Returns the fields that are given, each as a text or as a list of texts. */
function checkedOf(kind, given) {
  const specs = Object.entries(KINDS[kind].fields).filter(([, spec]) => !spec.made), names = specs.map(([name]) => name), fields = {};
  if (given === null || typeof given !== 'object') throw new TypeError(`the fields are an object, as in { ${names[0]}: … }`);
  const other = Object.keys(given).find((it) => !names.includes(it));
  if (other !== undefined) throw new TypeError(`there is no field ${other}; there are ${names.join(', ')}`);
  for (const [name, spec] of specs) {
    const found = valueOf(name, spec, given[name]) ?? spec.default ?? null;
    if (found === null && spec.needed) throw wrongOf(name, 'missing');
    if (found !== null) fields[name] = found;
  }
  return fields;
}

// ---- the forms

/** Returns an address with its two parts percent-encoded. */
function addressOf(text) {
  const place = text.lastIndexOf('@');
  return `${encodeURIComponent(text.slice(0, place))}@${encodeURIComponent(text.slice(place + 1))}`;
}

const ESCAPERS = {
  escaped: (text) => text.replace(/([\\;,:"])/g, '\\$1'), // of Wi-Fi, as the wiki of zxing has it
  mecard: (text) => text.replace(/([\\;,:])/g, '\\$1'),
  text: (text) => text.replace(/([\\;,])/g, '\\$1').replace(LINE_END, '\\n'), // RFC 2426, 4; RFC 6350, 3.4; RFC 5545, 3.3.11
  uri: encodeURIComponent,
  lines: (text) => encodeURIComponent(text.replace(LINE_END, '\r\n')), // RFC 6068, 5
  address: addressOf,
  basic: (text) => text.replaceAll('-', ''),
  dialled: (text) => text.replace(/[ /]/g, '').replaceAll('#', '%23'), // RFC 3966, 3
  plain: (text) => text.replace(/[^0-9*#+]/g, ''),
};

/** Returns a piece of a form, once for each value of a field that has many. */
function writtenOf(piece, fields, specs) {
  const named = [...piece.matchAll(NAMED)];
  if (named.length === 0) return piece;
  const values = {};
  for (const [, name, escape] of named) {
    const texts = [fields[name] ?? []].flat().map((it) => (escape ? ESCAPERS[escape](it) : it));
    values[name] = texts.length && specs[name].joined !== undefined ? [texts.join(specs[name].joined)] : texts;
  }
  const most = Math.max(...Object.values(values).map((it) => it.length));
  return Array.from({ length: most }, (_, k) => piece.replace(NAMED, (all, name) => values[name][k] ?? '')).join('');
}

function filledOf(pieces, fields, specs) {
  return pieces.map((piece) => {
    if (typeof piece === 'string') return writtenOf(piece, fields, specs);
    const [first, between, inner] = piece, parts = inner.map((it) => writtenOf(it, fields, specs)).filter((it) => it !== '');
    return parts.length ? first + parts.join(between) : '';
  }).join('');
}

function namesIn(pieces) {
  return pieces.flatMap((piece) => (Array.isArray(piece) ? namesIn(piece[2]) : [...piece.matchAll(NAMED)].map((it) => it[1])));
}

/** Returns the text of a kind of content, with its fields by their names. */
export function contentText(kind, given) {
  if (!Object.hasOwn(KINDS, kind)) throw new TypeError(`there is no content ${kind}; there are ${Object.keys(KINDS).join(', ')}`);
  const table = KINDS[kind], { [table.form]: form = '', ...fields } = checkedOf(kind, given), pieces = table.forms[form], placed = namesIn(pieces);
  const other = form === '' ? undefined : Object.keys(fields).find((it) => !placed.includes(it) && !table.fields[it].everywhere);
  if (other !== undefined) throw wrongOf(other, 'place', form);
  COMPLETED[kind]?.(fields);
  const text = filledOf(pieces, fields, table.fields);
  return kind === 'payment' ? checkedPayment(text.replace(/\n+$/, ''), fields) : text;
}

// ---- what is no table

function completeWifi(fields) {
  const { password } = fields, security = fields.security ??= password ? 'WPA' : 'nopass';
  if (security === 'nopass') {
    if (password) throw wrongOf('password', 'open');
    return;
  }
  if (!password) throw wrongOf('password', 'missing');
  const [pattern, said] = CONTENTS.passwords[security];
  if (!matches(pattern, password)) throw new ContentError('password', said);
}

function completeContact(fields) {
  const hasParts = Boolean(fields.given || fields.family);
  const whole = ['prefix', 'given', 'additional', 'family', 'suffix'].map((it) => fields[it]).filter((it) => it).join(' ');
  const name = fields.name ?? (hasParts ? whole : fields.organization);
  if (name === undefined) throw wrongOf('name', 'name');
  fields.name = name;
  if (!hasParts) fields.family = name;
  fields.names = [fields.family, fields.given].filter((it) => it);
  if (fields.birthday) momentOf('birthday', fields.birthday);
}

/** Returns the kind of a time, and its text in iCalendar: a `day`, a time that has a `zone`, in UTC, or one that has `none`. */
function momentOf(field, text) {
  const found = TIME.exec(text), numbers = found.slice(1, 7).map((it) => Number(it ?? 0)), [year, month, ...others] = numbers;
  const given = Date.UTC(year, month - 1, ...others), [, , , , , , , sign, hours, minutes] = found;
  const read = new Date(given), isSame = [read.getUTCMonth() + 1, read.getUTCDate(), read.getUTCHours(), read.getUTCMinutes(), read.getUTCSeconds()]
    .every((it, k) => it === numbers[k + 1]);
  const ahead = sign ? (sign === '-' ? -1 : 1) * (60 * Number(hours) + Number(minutes)) : 0; // minutes
  const written = new Date(given - 60000 * ahead).toISOString();
  if (!isSame || (sign && !(Number(hours) < 24 && Number(minutes) < 60)) || written.length !== 24) throw wrongOf(field, 'time');
  const basic = written.slice(0, 19).replace(/[-:]/g, '');
  if (!text.includes('T')) return ['day', basic.slice(0, 8)];
  return sign || text.endsWith('Z') ? ['zone', `${basic}Z`] : ['none', basic];
}

/** Returns a number of 32 bits that differs for most texts, in hexadecimal (FNV-1a). */
function fingerprint(text) {
  return new TextEncoder().encode(text).reduce((number, byte) => Math.imul(number ^ byte, 0x01000193) >>> 0, 0x811C9DC5).toString(16).padStart(8, '0');
}

function completeEvent(fields) {
  const [kind, start] = momentOf('start', fields.start), { end } = fields;
  delete fields.start;
  delete fields.end;
  fields[kind === 'day' ? 'day' : 'start'] = start;
  if (end) {
    const [other, last] = momentOf('end', end);
    if (other !== kind) throw wrongOf('end', 'kinds');
    if (last <= start) throw wrongOf('end', 'order');
    fields[kind === 'day' ? 'last' : 'end'] = last;
  }
  if (fields.stamp) {
    const [other, stamp] = momentOf('stamp', fields.stamp);
    if (other !== 'zone') throw wrongOf('stamp', 'zone');
    fields.stamp = stamp;
  } else {
    fields.stamp = { day: `${start}T000000Z`, none: `${start}Z`, zone: start }[kind];
  }
  fields.uid ??= `${start}-${fingerprint(fields.summary + (fields.location ?? ''))}@qrproved`;
}

/**
 * Returns the remainder modulo 97 of a number: the text with its first four characters at the end, and letters as 10 to 35 (ISO/IEC
 * 7064, MOD 97-10).
 */
function mod97(text) {
  const digits = [...text.slice(4) + text.slice(0, 4)].map((it) => parseInt(it, 36)).join('');
  return [...digits].reduce((rest, digit) => (10 * rest + Number(digit)) % 97, 0);
}

function checkIban(iban) {
  const country = iban.slice(0, 2), count = iban.length;
  if (!Object.hasOwn(CONTENTS.ibans, country)) throw wrongOf('iban', 'country', country);
  if (count !== CONTENTS.ibans[country]) throw wrongOf('iban', 'iban', count, country, CONTENTS.ibans[country]);
  if (mod97(iban) !== 1) throw wrongOf('iban', 'mod97');
}

function completePayment(fields) {
  for (const name of ['iban', 'reference', 'bic']) {
    if (fields[name]) fields[name] = fields[name].replaceAll(' ', '').toUpperCase();
  }
  checkIban(fields.iban);
  if (fields.amount) {
    if (Number(fields.amount) === 0) throw new ContentError('amount', TYPES.amount[1]);
    fields.amount = `EUR${fields.amount}${/[.][0-9]$/.test(fields.amount) ? '0' : ''}`;
  }
  if (fields.reference) {
    if (!(fields.reference.length >= 5 && fields.reference.length <= 25)) throw new ContentError('reference', TYPES.reference[1]);
    if (mod97(fields.reference) !== 1) throw wrongOf('reference', 'mod97');
    if (fields.text) throw wrongOf('text', 'both');
  }
  fields.edition = fields.bic ? '001' : '002'; // which without a bank came with 002
}

/** Throws ContentError if a character is not in the character set, or if there are too many bytes; and returns the text. */
function checkedPayment(text, fields) {
  const free = ['name', 'text', 'information'].filter((it) => fields[it]), number = CONTENTS.payment.charsets[fields.charset];
  for (const name of free) {
    for (const letter of fields[name]) {
      try {
        encodedText(letter, number);
      } catch (error) {
        if (!(error instanceof EciError)) throw error;
        throw wrongOf(name, 'charset', letter, fields.charset);
      }
    }
  }
  const { length: count } = paymentBytes(text), { bytes: most } = CONTENTS.payment;
  if (count > most) {
    const lengths = free.map((it) => encodedText(fields[it], number).length);
    throw wrongOf(free[lengths.indexOf(Math.max(...lengths))], 'payment', count, most);
  }
  return text;
}

function completeLink(fields) {
  let found;
  try {
    found = fieldsOf(dataOf(fields.gs1));
  } catch (error) {
    if (!(error instanceof Gs1Error)) throw error;
    throw wrongOf('gs1', 'gs1', error.message);
  }
  const names = found.map(([name]) => name), twice = names.find((it, k) => names.indexOf(it) < k), key = names.find((it) => Object.hasOwn(CONTENTS.keys, it));
  if (twice !== undefined) throw wrongOf('gs1', 'twice', twice);
  if (key === undefined) throw wrongOf('gs1', 'key');
  const values = new Map(found), path = [key, ...CONTENTS.keys[key].filter((it) => values.has(it))];
  fields.path = path.map((it) => `${it}/${encodeURIComponent(values.get(it))}`);
  fields.query = found.filter(([name]) => !path.includes(name)).map(([name, value]) => `${name}=${encodeURIComponent(value)}`);
  fields.domain = fields.domain.replace(/\/+$/, '');
}

const COMPLETED = { wifi: completeWifi, contact: completeContact, event: completeEvent, payment: completePayment, link: completeLink };

// ---- the calls

export const wifi = (fields) => contentText('wifi', fields);
export const contact = (fields) => contentText('contact', fields);
export const event = (fields) => contentText('event', fields);
export const geo = (fields) => contentText('geo', fields);
export const mail = (fields) => contentText('mail', fields);
export const sms = (fields) => contentText('sms', fields);
export const tel = (fields) => contentText('tel', fields);
export const payment = (fields) => contentText('payment', fields);
export const link = (fields) => contentText('link', fields);

/** Returns the bytes of a payment in the character set that its third line names. */
export function paymentBytes(text) {
  return encodedText(text, CONTENTS.payment.charsets[text.split('\n')[2]]);
}

/** Whether the segments are a field that identifies something, and fields that may follow it. */
function isPath(segments) {
  const [key, ...others] = segments.filter((_, k) => k % 2 === 0);
  return segments.length % 2 === 0 && Object.hasOwn(CONTENTS.keys, key) && others.every((it) => CONTENTS.keys[key].includes(it));
}

function gtinOf(name, value) {
  return name === '01' && /^([0-9]{8}|[0-9]{12,13})$/.test(value) ? value.padStart(14, '0') : value;
}

/** Returns the GS1 data in the address of a page. */
export function gs1Of(address) {
  const checked = oneOf('link', { is: 'link' }, address);
  if (checked === null) throw wrongOf('link', 'missing');
  const [whole] = checked.split('#'), [before] = whole.split('?'), query = whole.slice(before.length + 1);
  const segments = before.replace(/^https?:\/\//, '').replace(/\/+$/, '').split('/').slice(1);
  const place = segments.findIndex((_, k) => isPath(segments.slice(k)));
  if (place < 0) throw wrongOf('link', 'link');
  const pairs = segments.slice(place).flatMap((it, k, all) => (k % 2 ? [] : [[it, all[k + 1]]]));
  for (const [name, ...values] of query.split(/[&;]/).map((it) => it.split('='))) {
    if (/^[0-9]{2,4}$/.test(name)) pairs.push([name, values.join('=')]);
  }
  try {
    const found = pairs.map(([name, value]) => [name, gtinOf(name, decodeURIComponent(value))]);
    const [begin, end] = found.some(([, value]) => /\([0-9]{2,4}\)/.test(value)) ? '[]' : '()';
    const text = found.map(([name, value]) => begin + name + end + value).join('');
    dataOf(text);
    return text;
  } catch (error) {
    if (error instanceof URIError) throw new ContentError('link', TYPES.link[1]);
    if (error instanceof Gs1Error) throw wrongOf('link', 'gs1', error.message);
    throw error;
  }
}
