/** GS1 data, and their fields: values with their application identifiers (GS1 General Specifications, 3, 7.8 and 7.9). */
import { Gs1Error } from './errors.js';
import { GS1_DATA } from './identifiers.js';

// python/qrproved/_gs1.py says what the table has. js/build makes identifiers.js of it.
const PREDEFINED = new RegExp(`^(?:${GS1_DATA.predefined})`);
const [SET_82] = GS1_DATA.characters.X;
const [CHECK_CHARACTERS, WEIGHTS] = GS1_DATA.pair;
const SEPARATOR = '\x1d';

/** Returns a rule of the table: a function that returns what is said of a text which matches none of the patterns, or null. */
function ruleOf([patterns, said]) {
  const pattern = new RegExp(`^(?:${patterns.join('|')})$`);
  return (text) => (pattern.test(text) ? null : said.replace('{}', text));
}

/** All digits, weighted 3 and 1 in turn from the check digit's neighbour on to the left, sum to a multiple of 10. */
function checkFault(text) {
  const sum = [...text.slice(0, -1)].reverse().reduce((all, digit, k) => all + Number(digit) * (k % 2 ? 1 : 3), 0);
  const wanted = (10 - sum % 10) % 10;
  return Number(text.at(-1)) === wanted ? null : `its check digit is ${text.at(-1)}, and should be ${wanted}`;
}

function piecesFault(text) {
  const [piece, count] = [text.slice(0, 2), text.slice(2)];
  return Number(piece) > 0 && Number(piece) <= Number(count) ? null : `there is no piece ${piece} of ${count}`;
}

/**
 * The characters before the pair are numbered in set 82 from 0 on, and weighted from the pair's neighbour on to the left. Their sum
 * modulo 1021 is 32 times the number of the first check character plus that of the second.
 */
function pairFault(text) {
  const total = [...text.slice(0, -2)].reverse().reduce((all, it, k) => all + SET_82.indexOf(it) * WEIGHTS[k], 0) % 1021;
  const wanted = CHECK_CHARACTERS[Math.floor(total / 32)] + CHECK_CHARACTERS[total % 32];
  return text.slice(-2) === wanted ? null : `its check characters are ${text.slice(-2)}, and should be ${wanted}`;
}

const PART_RULES = {
  check: checkFault, pieces: piecesFault, pair: pairFault,
  ...Object.fromEntries(Object.entries(GS1_DATA.rules).map(([name, rule]) => [name, ruleOf(rule)])),
};

/** Returns a part of a value, as the table has it. */
function partOf(text) {
  const [, kind, least, most, rules] = /^([NXY])([0-9]+)(?:\.\.([0-9]+))?((?::[a-z]+)*)$/.exec(text), [set, name] = GS1_DATA.characters[kind];
  return { set, name, least: Number(least), most: Number(most ?? least), rules: rules.split(':').slice(1) };
}

const TABLE = GS1_DATA.identifiers.map(([pattern, ...parts]) => (
  { begins: new RegExp(`^(?:${pattern})`), is: new RegExp(`^(?:${pattern})$`), parts: parts.map(partOf) }));

const sum = (numbers) => numbers.reduce((all, it) => all + it, 0);

const ESCAPES = { '\t': '\\t', '\n': '\\n', '\r': '\\r', '\\': '\\\\' };

function escapeOf(code) {
  const [kind, width] = code < 0x100 ? ['x', 2] : code < 0x10000 ? ['u', 4] : ['U', 8];
  return `\\${kind}${code.toString(16).padStart(width, '0')}`;
}

/** Returns a text as it is shown in a message, as Python shows it. */
export function quoted(text) {
  const shown = text.replace(/[^ -[\]-~]/gu, (it) => ESCAPES[it] ?? escapeOf(it.codePointAt(0)));
  return shown.includes("'") && !shown.includes('"') ? `"${shown}"` : `'${shown.replaceAll("'", "\\'")}'`;
}

/** Returns what is wrong with a value; or null. */
function faultOf(value, parts) {
  const least = sum(parts.map((it) => it.least)), most = sum(parts.map((it) => it.most)), characters = [...value], { length: count } = characters;
  if (count < least || count > most) return `has ${least === most ? least : `${least} to ${most}`} characters, and not ${count}`;
  let at = 0;
  for (const { set, name, most: length, rules } of parts) {
    const own = characters.slice(at, at + length), other = own.find((it) => !set.includes(it));
    if (other !== undefined) return `${quoted(other)} is not ${name}`;
    const fault = rules.map((rule) => PART_RULES[rule](own.join(''))).find((it) => it !== null);
    if (fault) return fault;
    at += length;
  }
  return null;
}

/** Returns each application identifier with its value. */
export function fieldsOf(data) {
  let rest = Array.from(data, (byte) => String.fromCharCode(byte)).join('');
  if (rest === '') throw new Gs1Error('the data have no field');
  const found = [];
  while (rest !== '') {
    const { begins, parts } = TABLE.find((it) => it.begins.test(rest)) ?? {};
    if (!begins) throw new Gs1Error(`no application identifier that is known begins ${quoted(rest.slice(0, 4))}`);
    const [name] = begins.exec(rest);
    rest = rest.slice(name.length);
    const [value] = (PREDEFINED.test(name) ? rest.slice(0, sum(parts.map((it) => it.most))) : rest).split(SEPARATOR);
    const fault = faultOf(value, parts);
    if (fault) throw new Gs1Error(`(${name}) ${fault}`);
    found.push([name, value]);
    // (one more separator may come after a value of a predefined length, and after the last)
    rest = rest.slice(value.length).replace(/^\x1d/, '');
  }
  return found;
}

// The application identifiers of a text, by the sign with which it begins.
const WRITTEN = { '(': /\(([0-9]{2,4})\)/, '[': /\[([0-9]{2,4})\]/ };

/**
 * Returns the data of a text in which each application identifier is in parentheses or, as the first is, in brackets: the fields one
 * after the other, with a separator between a value of no predefined length and the next identifier.
 */
export function dataOf(text) {
  const [before, ...parts] = Object.hasOwn(WRITTEN, text.slice(0, 1)) ? text.split(WRITTEN[text[0]]) : [text];
  if (before !== '' || parts.length === 0) {
    throw new Gs1Error(`GS1 data begin with an application identifier, as (01) or [01], and not with ${quoted([...text].slice(0, 4).join(''))}`);
  }
  const fields = parts.filter((_, k) => k % 2 === 0).map((name, k) => [name, parts[2 * k + 1]]);
  const written = fields.map(([name, value]) => {
    const known = TABLE.find((it) => it.is.test(name));
    const fault = known ? faultOf(value, known.parts) : 'is no application identifier that is known';
    if (fault) throw new Gs1Error(`(${name}) ${fault}`);
    return name + value + (PREDEFINED.test(name) ? '' : SEPARATOR);
  });
  return new TextEncoder().encode(written.join('').replace(/\x1d$/, ''));
}
