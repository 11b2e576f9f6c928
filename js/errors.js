/** The refusals of the library: a class for each status of a call (include/qrproved.h). */
import { STATUSES } from './common.js';

const NAMES = Object.keys(STATUSES); // by their numbers

/** A refusal of the library. `status` is its number and `code` its name in C. */
export class QRError extends Error {
  constructor(message, code) {
    super(message);
    this.name = new.target.name;
    this.status = NAMES.indexOf(code);
    this.code = code;
  }
}

/** The input has no byte. */
export class EmptyError extends QRError {
  constructor(message = STATUSES.EMPTY) { super(message, 'EMPTY'); }
}

/** The input fits no version from the smallest allowed version on. */
export class TooLongError extends QRError {
  constructor(message = STATUSES.TOO_LONG) { super(message, 'TOO_LONG'); }
}

/** The input takes more than 16 symbols of the version. */
export class TooManyError extends QRError {
  constructor(message = STATUSES.TOO_MANY) { super(message, 'TOO_MANY'); }
}

/** The engine refused memory. */
export class OutOfMemoryError extends QRError {
  constructor(message = STATUSES.MEMORY) { super(message, 'MEMORY'); }
}

/**
 * A number is out of its range, a name is not known, settings exclude each other, symbols to draw have several sides, or a module to
 * mend is more than 2.
 */
export class SettingsError extends QRError {
  constructor(message = STATUSES.SETTINGS) { super(message, 'SETTINGS'); }
}

/** A buffer is too short. */
export class RoomError extends QRError {
  constructor(message = STATUSES.ROOM) { super(message, 'ROOM'); }
}

/** No version has this side. */
export class SideError extends QRError {
  constructor(message = STATUSES.SIDE) { super(message, 'SIDE'); }
}

/** The format information belongs to no level and mask, or is too damaged. */
export class FormatError extends QRError {
  constructor(message = STATUSES.FORMAT) { super(message, 'FORMAT'); }
}

/** A block does not match its error correction codewords, or is too damaged to be mended. */
export class CheckError extends QRError {
  constructor(message = STATUSES.CHECK) { super(message, 'CHECK'); }
}

/** The data codewords cannot be parsed. */
export class SegmentsError extends QRError {
  constructor(message = STATUSES.SEGMENTS) { super(message, 'SEGMENTS'); }
}

/** The text is no drawing of symbols. */
export class NoDrawingError extends QRError {
  constructor(message = STATUSES.NO_DRAWING) { super(message, 'NO_DRAWING'); }
}

/** The bytes are no GS1 data: a separator comes directly before another or before %. */
export class FieldsError extends QRError {
  constructor(message = STATUSES.FIELDS) { super(message, 'FIELDS'); }
}

/** The input fits, but no symbol of it may have a logo of this size. `largest` is the side of the largest that one may have, in modules. */
export class LogoError extends QRError {
  constructor(message = STATUSES.LOGO, largest = 0) {
    super(message, 'LOGO');
    this.largest = largest;
  }
}

/** No symbol is found in a picture, or several where one is wanted. It is no refusal of the library, which finds none in such a picture. */
export class PictureError extends Error {
  constructor(message) {
    super(message);
    this.name = 'PictureError';
  }
}

/**
 * The bytes of an ECI are not read as characters, or a character of a string is not in its character set. It is no refusal of the
 * library.
 */
export class EciError extends Error {
  constructor(message) {
    super(message);
    this.name = 'EciError';
  }
}

/** The data are no GS1 data: which field is wrong, and why. It is no refusal of the library. */
export class Gs1Error extends Error {
  constructor(message) {
    super(message);
    this.name = 'Gs1Error';
  }
}

/** A field of a content is wrong: `field` is its name, and `why` what is said of it. It is no refusal of the library. */
export class ContentError extends Error {
  constructor(field, why) {
    super(`${field} ${why}`);
    this.name = 'ContentError';
    this.field = field;
    this.why = why;
  }
}

/** Returns a number with commas between thousands. */
function counted(number) {
  return String(number).replace(/\B(?=(\d{3})+$)/g, ',');
}

/**
 * Returns the refusal of `count` bytes. `most` has the name of the characters of each mode, and how many of them the largest symbol of
 * this level holds.
 */
export function tooLong(count, level, most) {
  const [last, ...first] = most.map(([name, number]) => `${counted(number)} ${name}`).reverse();
  const holds = first.length ? `${first.reverse().join(', ')} or ${last}` : last;
  return new TooLongError(`the input has ${counted(count)} bytes and does not fit a symbol: version 40-${'LMQH'[level]} holds ${holds}`);
}

/** Returns the refusal of a series of `count` bytes. */
export function tooMany(count, version, level) {
  return new TooManyError(`the input has ${counted(count)} bytes and takes more than 16 symbols of version ${version}-${'LMQH'[level]}`);
}

/** Returns the refusal of a logo. `asked` says how large it is. */
export function noLogo(asked, largest) {
  const may = largest ? `a logo of at most ${largest} by ${largest} modules` : 'no logo';
  return new LogoError(`no symbol of the input may have a logo of ${asked}: one may have ${may}`, largest);
}

const CLASSES = {
  EMPTY: EmptyError, TOO_LONG: TooLongError, TOO_MANY: TooManyError, MEMORY: OutOfMemoryError, SETTINGS: SettingsError, ROOM: RoomError,
  SIDE: SideError, FORMAT: FormatError, CHECK: CheckError, SEGMENTS: SegmentsError, NO_DRAWING: NoDrawingError, FIELDS: FieldsError,
};

/** Returns the name of a status in C. */
export function nameOf(status) {
  return NAMES[status];
}

/** Throws the error of a status, and returns for 0. (The call that returns LOGO says more, by noLogo.) */
export function throwFor(status) {
  if (status) throw new CLASSES[NAMES[status]]();
}
