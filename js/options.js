/** The options of calls: whether they are of their types and in their ranges; and what scanners may not read. */
import { LIMITS } from './common.js';
import { SettingsError } from './errors.js';

const { MARGIN_WANTED, MODULE_MIN } = LIMITS; // modules, and millimetres

/** Returns each option as it is given, or its default. An option of another name would do nothing, and so is refused. */
export function chosen(given, defaults) {
  if (given === null || typeof given !== 'object') throw new TypeError(`options are an object, as in { ${Object.keys(defaults)[0]}: … }`);
  const options = { ...defaults };
  for (const name of Object.keys(given)) {
    if (!Object.hasOwn(defaults, name)) throw new TypeError(`there is no option ${name}; there are ${Object.keys(defaults).join(', ')}`);
    if (given[name] !== undefined) options[name] = given[name];
  }
  return options;
}

export function whole(name, value, least, most) {
  if (typeof value !== 'number') throw new TypeError(`${name} is a number, and not of type ${typeof value}`);
  if (!Number.isInteger(value) || value < least || value > most) {
    throw new SettingsError(`${name} is a whole number from ${least} to ${most}, and not ${value}`);
  }
  return value;
}

/** Returns a length or a resolution. */
export function length(name, value) {
  if (typeof value !== 'number') throw new TypeError(`${name} is a number, and not of type ${typeof value}`);
  if (!(value > 0 && value <= LIMITS.SIZE_MAX)) throw new SettingsError(`${name} is more than 0 and at most ${LIMITS.SIZE_MAX}, and not ${value}`);
  return value;
}

const warned = new Set(); // each is said once

/** Warns of what scanners may not read: a margin, and the width of a module in millimetres. */
export function warn(quiet, margin, module) {
  if (quiet || (margin >= MARGIN_WANTED && module >= MODULE_MIN)) return;
  const faults = [
    ...(margin < MARGIN_WANTED ? [`a margin of ${margin} ${margin === 1 ? 'module' : 'modules'}: scanners need ${MARGIN_WANTED}`] : []),
    ...(module < MODULE_MIN ? [`modules of ${module.toPrecision(3)} mm: under ${MODULE_MIN} mm few scanners read them`] : []),
  ];
  for (const fault of faults.filter((it) => !warned.has(it))) {
    warned.add(fault);
    console.warn(`qrproved: ${fault} (quiet: true switches this off)`);
  }
}

/** Returns the place of a name in a list, in capitals or small letters. */
export function named(name, value, list) {
  if (typeof value !== 'string') throw new TypeError(`${name} is a string: ${list.join(', ')}`);
  const place = list.findIndex((it) => it.toLowerCase() === value.toLowerCase());
  if (place < 0) throw new SettingsError(`${name} is ${list.join(', ')}, and not ${value}`);
  return place;
}

/** Returns a string or bytes. */
export function checked(input) {
  if (input instanceof Uint8Array) return input;
  if (typeof input !== 'string') throw new TypeError('the input is a string, a Uint8Array, or { gs1: … } with one of these');
  if (/\p{Surrogate}/u.test(input)) throw new TypeError('the string has half a surrogate pair, which is no character');
  return input;
}
