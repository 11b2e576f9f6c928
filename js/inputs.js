/**
 * What is encoded: the bytes of an input, what they mean, and the settings of its symbol. The calls of the module, and those that make bytes of
 * texts, are passed as `calls`, since a module that only encodes has fewer of them.
 */
import { INTERPRETATIONS, LIMITS } from './common.js';
import { SettingsError } from './errors.js';
import { checked, chosen, named, whole } from './options.js';

const { SHIFT_JIS: KANJI, UTF_8: UNICODE } = INTERPRETATIONS;
export const LEVELS = ['L', 'M', 'Q', 'H'];
export const RULES = ['auto', 'bytes_only', 'with_kanji'];

// The options of a series and of a symbol, with their defaults.
export const OF_SERIES = { level: 'L', version: undefined, rule: undefined, eci: undefined };
const OF_SYMBOL = { ...OF_SERIES, version: 1, boost: true };

/** Returns the bytes of an input, and their interpretation. */
function inputOf(input, eci, rule, { mayHaveKanji, dataOf, encodedText }) {
  const isKanji = RULES[rule] === 'with_kanji', number = eci === undefined || eci === false ? null : whole('eci', eci, 0, LIMITS.ECI_MAX);
  if (input !== null && typeof input === 'object' && Object.hasOwn(input, 'gs1')) {
    if (number !== null) throw new TypeError('GS1 data have no ECI header');
    const data = checked(input.gs1);
    return { data: typeof data === 'string' ? dataOf(data) : data, interpretation: INTERPRETATIONS.GS1 };
  }
  if (isKanji && number !== null && !mayHaveKanji(number)) {
    throw new SettingsError(`kanji mode is for Shift JIS: beside the rule 'with_kanji' eci is ${KANJI} or false, and not ${number}`);
  }
  const data = checked(input);
  if (typeof data !== 'string') return { data, interpretation: number ?? INTERPRETATIONS.DEFAULT };
  const isMarked = eci === undefined && !isKanji && /[^\0-\x7f]/.test(data);
  return { data: encodedText(data, number ?? (isKanji ? KANJI : UNICODE)), interpretation: number ?? (isMarked ? UNICODE : INTERPRETATIONS.DEFAULT) };
}

function settings({ level, version, rule = 'auto' }) {
  return [whole('version', version, 1, LIMITS.VERSION_MAX), named('level', level, LEVELS), named('rule', rule, RULES)];
}

/**
 * Returns an input with its version, level and rule, as the module takes them. In GS1 data alphanumeric mode writes a % as %%, after which
 * zxing-cpp 1.4 loses bytes. So byte mode is their rule unless one is given.
 */
export function inputAsked(input, asked, calls) {
  const [version, level, rule] = settings(asked), { data, interpretation } = inputOf(input, asked.eci, rule, calls);
  const isBytes = asked.rule === undefined && interpretation === INTERPRETATIONS.GS1 && data.includes('%'.charCodeAt(0));
  return [{ data, interpretation }, version, level, isBytes ? RULES.indexOf('bytes_only') : rule];
}

/** Returns the symbol of an input. The options of `calls.others` are passed to `calls.encoded`. */
export function symbolAsked(input, options, calls) {
  const asked = chosen(options, { ...OF_SYMBOL, ...calls.others });
  if (typeof asked.boost !== 'boolean') throw new TypeError(`boost is true or false, and not of type ${typeof asked.boost}`);
  const symbol = calls.encoded(...inputAsked(input, asked, calls), asked.boost, asked);
  return { ...symbol, level: LEVELS[symbol.level] };
}
