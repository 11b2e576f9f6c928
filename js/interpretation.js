/**
 * What the bytes of a symbol mean as characters, and the bytes of a string: ECI headers (Extended Channel Interpretation; ISO/IEC
 * 18004:2015, 7.4.2).
 */
import { ECIS, INTERPRETATIONS, SHIFT_JIS_PAIRS } from './common.js';
import { EciError } from './errors.js';
import { quoted } from './gs1.js';

// The upper half of code page 437.
const CP437 = 'ÇüéâäàåçêëèïîìÄÅÉæÆôöòûùÿÖÜ¢£¥₧ƒáíóúñÑªº¿⌐¬½¼¡«»░▒▓│┤╡╢╖╕╣║╗╝╜╛┐└┴┬├─┼╞╟╚╔╩╦╠═╬╧╨╤╥╙╘╒╓╫╪┘┌█▄▌▐▀αßΓπΣσµτΦΘΩδ∞φε∩≡±≥≤⌠⌡÷≈°∙·√ⁿ²■\u00a0';
// The characters of Windows-1252 from 80 on that ISO/IEC 8859-1 has not; a space for none.
const CP1252 = '€ ‚ƒ„…†‡ˆ‰Š‹Œ Ž  ‘’“”•–—˜™š›œ žŸ';
// ISO/IEC 8859-16 from A1 on, which some engines do not have.
const LATIN10 = 'ĄąŁ€„Š§š©Ș«Ź\u00adźŻ°±ČłŽ”¶·žčș»ŒœŸżÀÁÂĂÄĆÆÇÈÉÊËÌÍÎÏĐŃÒÓÔŐÖŚŰÙÚÛÜĘȚßàáâăäćæçèéêëìíîïđńòóôőöśűùúûüęțÿ';
const LATIN5 = { 0xD0: 'Ğ', 0xDD: 'İ', 0xDE: 'Ş', 0xF0: 'ğ', 0xFD: 'ı', 0xFE: 'ş' }; // ISO/IEC 8859-9, where it is not 8859-1

/** Returns the characters of bytes by a function that returns the character of a byte, or undefined. */
function mapped(name, letter) {
  return (data) => Array.from(data, (byte) => {
    const found = byte < 128 ? String.fromCharCode(byte) : letter(byte);
    if (found === undefined) throw new TypeError(`byte ${byte.toString(16).toUpperCase()} is no character of ${name}`);
    return found;
  }).join('');
}

/** Returns the characters of bytes by the engine. */
function decoded(label) {
  return (data) => new TextDecoder(label, { fatal: true, ignoreBOM: true }).decode(data);
}

const CONTROLS = /[\x80-\x9f]/u, CONTROLS_AND_PRIVATE = /[\x80-\x9f\ue000-\uf8ff]/u;

/** Returns the characters of bytes by the engine, which has characters of the pattern `none` for bytes that are no characters. */
function decodedBut(label, none) {
  return (data) => {
    const text = decoded(label)(data);
    if (none.test(text)) throw new TypeError(`the bytes are no characters of ${label}`);
    return text;
  };
}

/**
 * Returns the characters of bytes of which those over 7F, with what belongs to them, are the pattern `others`. Only these are decoded by the
 * engine: that of Node exchanges three controls of ASCII in Shift JIS, and all have a character for a byte that stands alone.
 */
function decodedBeyond(label, others, ofOthers = decoded(label)) {
  const parts = new RegExp(`[\\0-\\x7f]+|((?:${others})+)|[^]`, 'g');
  return (data) => latin1(data).replace(parts, (part, bytes) => {
    if (bytes !== undefined) return ofOthers(Uint8Array.from(bytes, (it) => it.charCodeAt(0)));
    if (part.charCodeAt(0) > 0x7f) throw new TypeError(`byte ${part.charCodeAt(0).toString(16).toUpperCase()} is no character of ${label}`);
    return part;
  });
}

// For these the names of TextDecoder mean other sets, those of Windows, or there is none; some engines read windows-1252 as ISO 8859-1.
const cp437 = mapped('code page 437', (byte) => CP437[byte - 128]);
const latin1 = mapped('ISO 8859-1', (byte) => String.fromCharCode(byte));
const latin5 = mapped('ISO 8859-9', (byte) => LATIN5[byte] ?? String.fromCharCode(byte));
const isThai = (byte) => byte < 0xA1 || byte < 0xDB || (byte > 0xDE && byte < 0xFC);
const thai = mapped('ISO 8859-11', (byte) => (isThai(byte) ? String.fromCharCode(byte > 0xA0 ? byte + 0xD60 : byte) : undefined));
const cp1252 = mapped('Windows-1252', (byte) => (CP1252[byte - 128] === ' ' ? undefined : CP1252[byte - 128] ?? String.fromCharCode(byte)));
const latin10 = mapped('ISO 8859-16', (byte) => LATIN10[byte - 0xA1] ?? String.fromCharCode(byte));
const ascii = mapped('ASCII', () => undefined);
const shiftJis = decodedBeyond('shift_jis', '[\\x81-\\x9f\\xe0-\\xfc][\\x40-\\xfc]|[\\xa1-\\xdf]');
const big5 = decodedBeyond('big5', '[\\x81-\\xfe][\\x40-\\xfe]', decodedBut('big5', CONTROLS_AND_PRIVATE));
const gb18030 = decodedBeyond('gb18030', '[\\x81-\\xfe](?:[\\x40-\\xfe]|[0-9][\\x81-\\xfe][0-9])');
const korean = decodedBeyond('euc-kr', '[\\x81-\\xfe][\\x41-\\xfe]', decodedBut('euc-kr', CONTROLS_AND_PRIVATE));

// The sets that engines do not decode by themselves as their standards have them. Of Big5 and of Korean some engines have more characters
// than others: Node has those of KS X 1001, and browsers all Hangul.
const OWN = {
  cp437, latin1, latin5, thai, cp1252, latin10, ascii, big5, gb18030, shift_jis: shiftJis, 'euc-kr': korean,
  'windows-1250': decodedBut('windows-1250', CONTROLS), 'windows-1251': decodedBut('windows-1251', CONTROLS),
};
const CODECS = Object.fromEntries(Object.entries(ECIS).map(([number, [, name]]) => [number, OWN[name] ?? decoded(name)]));
const { BYTES, UTF_16 } = INTERPRETATIONS;
export const { UTF_8, SHIFT_JIS } = INTERPRETATIONS;
const PAIRS = [28, 29, 30, 32]; // sets of characters of several bytes, which are read and not written

function codecOf(number) {
  if (number === BYTES) throw new EciError(`ECI ${BYTES} means bytes, and no characters`);
  if (!Object.hasOwn(CODECS, number)) throw new EciError(`the characters of ECI ${number} are not known`);
  return CODECS[number];
}

/** Returns the characters of bytes that have this ECI, or none. */
function charactersOf(number, data) {
  if (number === null) return decoded('utf-8')(data);
  const codec = codecOf(number);
  try {
    return codec(data);
  } catch (error) {
    if (!(error instanceof RangeError)) throw error;
    throw new EciError(`this engine has no decoder for the characters of ECI ${number}`);
  }
}

/** Returns the characters: those without an ECI as UTF-8, or as those of another ECI, `first`. */
export function decodedText(data, ecis, first = null) {
  const begins = [0, ...ecis.map((it) => it.begin), data.length], numbers = [first, ...ecis.map((it) => it.number)];
  const parts = numbers.map((number, k) => [number, data.subarray(begins[k], begins[k + 1])]);
  return parts.filter(([, part]) => part.length > 0).map(([number, part]) => charactersOf(number, part)).join('');
}

/** Returns the numbers from one to another. */
const range = (first, last) => Array.from({ length: last - first + 1 }, (_, k) => first + k);

/** Returns the bytes of each character of a set of single bytes, by its decoder. */
function singleBytes(number) {
  const table = new Map();
  for (const byte of range(0, 255)) {
    try {
      table.set(charactersOf(number, Uint8Array.of(byte)), [byte]);
    } catch (error) {
      if (!(error instanceof TypeError)) throw error; // a byte that is no character
    }
  }
  return table;
}

// First bytes of the characters of JIS X 0208 in Shift JIS; between them are characters of one system or another.
const LEADS = [...range(0x81, 0x84), ...range(0x88, 0x9f), ...range(0xe0, 0xea)];
const TRAILS = [...range(0x40, 0x7e), ...range(0x80, 0xfc)];
/**
 * Returns the bytes of each character that every reader of Shift JIS has: ASCII, katakana of half width and the characters of JIS X
 * 0208. The engine decodes all pairs at once, with a line end after each.
 */
function shiftJisBytes() {
  const single = range(0, 0x7f).map((byte) => [String.fromCharCode(byte), [byte]]);
  const katakana = range(0xa1, 0xdf).map((byte) => [String.fromCharCode(0xfec0 + byte), [byte]]);
  const pairs = LEADS.flatMap((lead) => TRAILS.map((trail) => [lead, trail]));
  const characters = new TextDecoder('shift_jis').decode(Uint8Array.from(pairs.flatMap((pair) => [...pair, 0x0a]))).split('\n');
  const double = characters.map((character, k) => [character, pairs[k]]).filter(([it]) => /^[^\ufffd\ue000-\uf8ff]$/.test(it));
  const table = new Map([...single, ...katakana, ...double]);
  for (const both of SHIFT_JIS_PAIRS) {
    const bytes = table.get(both[0]) ?? table.get(both[1]);
    for (const character of both) table.set(character, bytes);
  }
  return table;
}

const tables = new Map(); // those that were needed before

function tableOf(number) {
  codecOf(number);
  if (PAIRS.includes(number)) throw new EciError(`the package reads the characters of ECI ${number} and does not write them`);
  if (!tables.has(number)) tables.set(number, number === SHIFT_JIS ? shiftJisBytes() : singleBytes(number));
  return tables.get(number);
}

/** Returns a character as it is shown in a message: as it is if it can be seen, and else as Python shows it. */
export function shown(character) {
  return character !== ' ' && /[\p{C}\p{Z}'\\]/u.test(character) ? quoted(character) : `'${character}'`;
}

/** Returns the bytes of a string in the character set of an ECI; throws EciError for the first that is not in it. */
export function encodedText(text, number) {
  if (number === UTF_8) return new TextEncoder().encode(text);
  if (number === UTF_16) return Uint8Array.from(Array.from({ length: text.length }, (_, k) => [text.charCodeAt(k) >> 8, text.charCodeAt(k) & 255]).flat());
  const table = tableOf(number);
  return Uint8Array.from([...text].flatMap((character, k) => {
    if (table.has(character)) return table.get(character);
    const [code, set] = [character.codePointAt(0), number === SHIFT_JIS ? 'Shift JIS' : `the characters of ECI ${number}`];
    throw new EciError(`${shown(character)} (U+${code.toString(16).toUpperCase().padStart(4, '0')}), character ${k + 1} of the text, is not in ${set}`);
  }));
}
