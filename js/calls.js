/**
 * The calls of the whole module, as include/qrproved.h states them. Those that each module has are in engine.js.
 */
import { DOCUMENTS, FORMATS, LIMITS } from './common.js';
import { MODULE_LIKELY, engineOf } from './engine.js';
import { nameOf, noLogo, throwFor, tooMany } from './errors.js';
import { base64 } from './module.js';

// The fields of the struct for label paper, of 4 bytes each.
const SHEET_FIELDS = ['width', 'height', 'left', 'top', 'across', 'down', 'columns', 'rows', 'first'];

const engine = engineOf(() => Uint8Array.from(atob(base64), (character) => character.charCodeAt(0))), { bytesAt, call, copied, put, run, struct, symbolIn, take, throwForInput, written } = engine;

/** Compiles the module before the first call, without blocking: older browsers refuse to compile it in a call. */
export const { load } = engine;
/** Whether kanji mode is allowed beside an ECI; encodes an input, of bytes and their interpretation; and draws squares as a text. */
export const { mayHaveKanji, encoded, drawn } = engine;

const ECI_SIZE = 16, FOUND_SIZE = 40;
const FNC1_FIRST = 1, FNC1_SECOND = 2;
// The last fields of the struct of mending, a byte each, and the offset of the first.
const COUNTS = ['level', 'mask', 'wrongFormatModules', 'wrongFormatLeast', 'changedMost', 'changedAllowed', 'spentMost', 'worstMisread', 'worstUnknown',
  'worstUnknownWrong'];
const COUNTS_AT = 28;
const SIDE_AT = 32, LOOKS_AT = 36; // in the struct of a square that was found
const CORNER_STEPS = 16; // of a pixel
const IMAGE_LIKELY = 4096; // bytes, and for PNG 3 for each module: room for every PNG file up to scale 8, which is then written in one run

/** Encodes an input as a symbol that may have a logo of so many modules. `asked` says how large it is. */
export function encodedForLogo(given, version, level, rule, logo, share, asked) {
  const { data, interpretation } = given;
  return run(() => {
    const from = put(data), to = take(LIMITS.SYMBOL_MAX), told = take(4), largest = take(1);
    const status = call('qrproved_encode_logo', BigInt(from), BigInt(data.length), version, level, rule, interpretation, logo, share, BigInt(to),
      BigInt(LIMITS.SYMBOL_MAX), BigInt(told), BigInt(largest));
    if (nameOf(status) === 'LOGO') throw noLogo(asked, bytesAt(largest, 1)[0]);
    throwForInput(status, given, level, rule);
    return { ...symbolIn(told, to), logo };
  });
}

export function encodedSeries({ data, interpretation }, version, level, rule) {
  return run(() => {
    const from = put(data), to = take(LIMITS.SERIES_MAX), told = take(2);
    const status = call('qrproved_encode_series', BigInt(from), BigInt(data.length), version, level, rule, interpretation, BigInt(to),
      BigInt(LIMITS.SERIES_MAX), BigInt(told));
    if (nameOf(status) === 'TOO_MANY') throw tooMany(data.length, version, level);
    throwFor(status);
    const [count, side] = bytesAt(told, 2);
    return { side, squares: Array.from({ length: count }, (_, k) => copied(to + k * side * side, side * side)) };
  });
}

/** Returns the modules of a symbol once more, under a mask. */
export function maskedOf(modules, side, mask) {
  return run(() => {
    const at = put(modules);
    throwFor(call('qrproved_set_mask', BigInt(at), BigInt(modules.length), side, mask));
    return copied(at, modules.length);
  });
}

/** Returns an application indicator as it is printed: two digits, or the letter whose code is 100 less. */
function applicationOf(number) {
  return number < 100 ? String(number).padStart(2, '0') : String.fromCharCode(number - 100);
}

/** Returns what the structs of reading and of mending share, with the bytes and the ECI headers; `version` is that field's offset. */
function content(at, bytes, headers, version) {
  const byte = (k) => at.getUint8(version + k), fnc1 = byte(5);
  const length = Number(at.getBigUint64(0, true)), count = Number(at.getBigUint64(8, true)), found = struct(headers, count * ECI_SIZE);
  const ecis = [];
  for (let k = 0; k < count; k++) {
    ecis.push({ begin: Number(found.getBigUint64(k * ECI_SIZE, true)), number: found.getUint32(k * ECI_SIZE + 8, true) });
  }
  return {
    data: copied(bytes, length),
    version: byte(0),
    header: byte(1) ? { position: byte(2), last: byte(3), parity: byte(4) } : null,
    ecis,
    gs1: fnc1 === FNC1_FIRST,
    application: fnc1 === FNC1_SECOND ? applicationOf(byte(6)) : null,
    kanji: byte(7) !== 0,
  };
}

/** Calls `name` with the modules and with buffers for the bytes, the ECI headers and a struct; returns the last three. */
function readBy(name, modules, side, size) {
  const from = put(modules), to = take(LIMITS.BYTES_MAX), headers = take(LIMITS.ECIS_MAX * ECI_SIZE), told = take(size);
  throwFor(call(name, BigInt(from), BigInt(modules.length), side, BigInt(to), BigInt(LIMITS.BYTES_MAX), BigInt(headers), BigInt(LIMITS.ECIS_MAX),
    BigInt(told)));
  return [struct(told, size), to, headers];
}

export function readOf(modules, side) {
  return run(() => content(...readBy('qrproved_read', modules, side, 24), 16));
}

export function mendedOf(modules, side) {
  return run(() => {
    const [at, to, headers] = readBy('qrproved_mend', modules, side, 40);
    const counts = Object.fromEntries(COUNTS.map((name, k) => [name, at.getUint8(COUNTS_AT + k)]));
    return { content: content(at, to, headers, 20), wrongModules: at.getUint32(16, true), ...counts };
  });
}

/** Returns what a text is the drawing of; or null. */
export function parsedOf(text) {
  return run(() => {
    const from = put(text), to = take(LIMITS.SERIES_MAX), told = take(4);
    const status = call('qrproved_parse_drawing', BigInt(from), BigInt(text.length), BigInt(to), BigInt(LIMITS.SERIES_MAX), BigInt(told));
    if (nameOf(status) === 'NO_DRAWING') return null;
    throwFor(status);
    const [drawing, margin, count, side] = bytesAt(told, 4);
    return { drawing, margin, squares: Array.from({ length: count }, (_, k) => copied(to + k * side * side, side * side)) };
  });
}

/** Returns a corner of a square that was found, in pixels. */
function cornerAt(at, corner) {
  return [0, 4].map((axis) => at.getUint32(8 * corner + axis, true) / CORNER_STEPS);
}

/** Returns the squares of a picture in grey, in the order in which they are found; with `unread` also those that cannot be mended. */
export function foundIn(grey, width, height, unread) {
  return run(() => {
    const room = LIMITS.FOUND_MAX * LIMITS.SYMBOL_MAX;
    const from = put(grey), to = take(room), structs = take(LIMITS.FOUND_MAX * FOUND_SIZE), told = take(8);
    throwFor(call('qrproved_find', BigInt(from), BigInt(grey.length), width, height, width, unread ? 1 : 0, BigInt(to), BigInt(room), BigInt(structs),
      BigInt(LIMITS.FOUND_MAX), BigInt(told)));
    return Array.from({ length: Number(struct(told, 8).getBigUint64(0, true)) }, (_, k) => {
      const at = struct(structs + k * FOUND_SIZE, FOUND_SIZE), side = at.getUint32(SIDE_AT, true);
      const [quarterTurns, isInverse, isMirrored, isRead] = [0, 1, 2, 3].map((byte) => at.getUint8(LOOKS_AT + byte));
      return {
        modules: copied(to + k * LIMITS.SYMBOL_MAX, side * side), side, corners: [0, 1, 2, 3].map((corner) => cornerAt(at, corner)), quarterTurns,
        isInverse: isInverse !== 0, isMirrored: isMirrored !== 0, isRead: isRead !== 0,
      };
    });
  });
}

/** Returns a document for print, as bytes. `kind` is a name in DOCUMENTS, and a module is so many micrometres wide. */
export function printed(modules, side, count, kind, margin, micrometres) {
  return run(() => {
    const given = [BigInt(put(modules)), BigInt(modules.length), side, count, DOCUMENTS[kind], margin, micrometres];
    return written('qrproved_document', given, MODULE_LIKELY * modules.length).slice();
  });
}

/** Returns a PDF document in two colours, as bytes: each is a number 0xRRGGBBAA. */
export function colouredPdf(modules, side, count, margin, micrometres, dark, light) {
  return run(() => {
    const given = [BigInt(put(modules)), BigInt(modules.length), side, count, margin, micrometres, dark, light];
    return written('qrproved_pdf', given, MODULE_LIKELY * modules.length).slice();
  });
}

/** Returns a PDF of sheets, as bytes. The lengths of the sheet are in micrometres. */
export function sheetsBy(modules, side, count, margin, micrometres, sheet) {
  return run(() => {
    const paper = take(SHEET_FIELDS.length * 4), at = struct(paper, SHEET_FIELDS.length * 4);
    SHEET_FIELDS.forEach((name, k) => at.setUint32(4 * k, sheet[name], true));
    const given = [BigInt(put(modules)), BigInt(modules.length), side, count, margin, micrometres, BigInt(paper)];
    return written('qrproved_sheets', given, MODULE_LIKELY * modules.length).slice();
  });
}

/** Returns in how many bytes there is room for most images, so that one call is enough: in formats other than PNG for all. */
function imageLikely(modules, side, format, scale, margin) {
  if (format === 'png') return IMAGE_LIKELY + 3 * modules.length;
  const rows = side + 2 * margin, pixels = rows * scale, line = Math.ceil(pixels / 8);
  return IMAGE_LIKELY + (format === 'zpl' ? rows * (2 * line + scale) : (pixels + 254) * (line + 1));
}

/** Returns a PNG file in two colours, as bytes: each is a number 0xRRGGBBAA. */
export function colouredPng(modules, side, scale, margin, pixelsAMetre, dark, light) {
  return run(() => {
    const given = [BigInt(put(modules)), BigInt(modules.length), side, scale, margin, pixelsAMetre, dark, light];
    return written('qrproved_png', given, imageLikely(modules, side, 'png', scale, margin)).slice();
  });
}

/** Returns the file of an image, as bytes. `format` is a name in FORMATS. */
export function imageOf(modules, side, format, scale, margin, pixelsAMetre, left, top) {
  return run(() => {
    const given = [BigInt(put(modules)), BigInt(modules.length), side, FORMATS[format], scale, margin, pixelsAMetre, left, top];
    return written('qrproved_image', given, imageLikely(modules, side, format, scale, margin)).slice();
  });
}
