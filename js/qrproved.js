/**
 * QR Code symbols (ISO/IEC 18004:2015, QR Code Model 2) by the library libqrproved as WebAssembly, whose calls are proved to meet
 * their contracts. README.md shows the calls; qrproved.d.ts describes each.
 */
import { colouredPdf, colouredPng, drawn, encodedSeries, foundIn, imageOf, maskedOf, mayHaveKanji, mendedOf, parsedOf, printed, readOf, sheetsBy } from './calls.js';
import { DARK, LIGHT, coloursOf, numbersOf } from './colours.js';
import { DOCUMENTS, GRADES, LABELS, LIMITS } from './common.js';
import { CheckError, Gs1Error, NoDrawingError, PictureError, SettingsError, SideError } from './errors.js';
import { dataOf, fieldsOf } from './gs1.js';
import { LEVELS, OF_SERIES, inputAsked, symbolAsked } from './inputs.js';
import { SHIFT_JIS, decodedText, encodedText } from './interpretation.js';
import { OF_LOGO, changedUnderLogo, drawnModules, encodedWithLogo, pictureBox, withPicture } from './logos.js';
import { chosen, length, named, warn, whole } from './options.js';
import { FREE_ACROSS, LINE, checkCaption, linesOf, paperOf, roomOf, roomOfLabel, withCaptions } from './papers.js';
import { undone } from './pasted.js';
import { cover, greysOf, pixelsOf } from './pictures.js';
import { COLOURS_OF_DRAWING, DRAWINGS, OF_SVG, PIXELS, PlainSymbol, dressed } from './symbol.js';

export { load } from './calls.js';
export { PAPERS } from './papers.js';
export {
  CheckError, EciError, EmptyError, FieldsError, FormatError, Gs1Error, LogoError, NoDrawingError, OutOfMemoryError, PictureError, QRError, RoomError, SegmentsError,
  SettingsError, SideError, TooLongError, TooManyError,
} from './errors.js';

const MM_OF_INCH = 25.4;
const DENSITY_MAX = 2 ** 31 - 1; // pixels a metre: a number in a PNG image has 31 bits

// The options of a document for print.
const OF_DOCUMENT = { margin: 4, mm: undefined, quiet: false };
// Label paper.
const SHEET = {
  width: undefined, height: undefined, columns: undefined, rows: undefined, left: 0, top: 0, across: 0, down: 0, first: 0, labelWidth: 0, labelHeight: 0,
};
// The options of an image for a receipt printer, and for a label printer.
const OF_RECEIPT = { scale: undefined, margin: 4, mm: undefined, dpi: LIMITS.DPI, fitMm: undefined, quiet: false };
const OF_LABEL = { ...OF_RECEIPT, x: 0, y: 0 };
const OF_PNG = { scale: undefined, margin: 4, mm: undefined, dpi: undefined, fitMm: undefined, quiet: false, ...COLOURS_OF_DRAWING };

export class QRSymbol extends PlainSymbol {
  #logo;

  constructor({ logo = null, ...symbol }) {
    super(symbol);
    this.#logo = logo;
  }

  get logo() {
    return this.#logo;
  }

  get logoBox() {
    if (this.logo === null) return null;
    const first = Math.floor((this.side - this.logo) / 2);
    return { row: first, column: first, side: this.logo };
  }

  get logoSpent() {
    return mend(changedUnderLogo(this, (module) => 1 - module)).spent;
  }

  svg(options = {}) {
    const { mm, logo, ...others } = chosen(options, { margin: 4, mm: undefined, ...OF_SVG, logo: undefined }), { margin, quiet } = others;
    const drawing = mm === undefined ? draw(this, { margin, type: 'SVG' }) : new TextDecoder().decode(documentFor([this], 'svg', { margin, mm, quiet }));
    const document = dressed(this, drawing, others, mm !== undefined);
    return logo === undefined ? document : withPicture(document, logo, pictureBox(this, margin));
  }

  toCanvas(canvas, options = {}) {
    const { logo, ...others } = chosen(options, { logo: undefined, scale: PIXELS, margin: 4, quiet: false, dark: undefined, light: undefined, inverse: undefined });
    const longest = logo === undefined ? 0 : Math.max(logo.width, logo.height);
    if (logo !== undefined && !(longest > 0)) throw new TypeError('the logo of a canvas is an image that is loaded, or another canvas');
    super.toCanvas(canvas, others, drawnModules(this));
    if (logo !== undefined) {
      const { first, side } = pictureBox(this, others.margin), { width, height } = logo, wide = others.scale * side;
      const [across, down] = [wide * width / longest, wide * height / longest], at = others.scale * first;
      canvas.getContext('2d').drawImage(logo, at + (wide - across) / 2, at + (wide - down) / 2, across, down);
    }
    return canvas;
  }

  text(options = {}) {
    return draw(this, chosen(options, { margin: 4, type: 'UTF8' }));
  }

  png(options = {}) {
    const asked = chosen(options, OF_PNG), { margin, quiet } = asked;
    const modules = this.side + 2 * whole('margin', margin, 0, LIMITS.MARGIN_MAX);
    const { scale = PIXELS, mm, dpi } = fitted(this, asked, margin), pixels = modules * whole('scale', scale, 1, LIMITS.SCALE_MAX);
    if (mm !== undefined && dpi !== undefined) {
      throw new TypeError('mm and dpi both say how large the image is: one of them is given, or fitMm and dpi for a printer');
    }
    const size = mm !== undefined ? length('mm', mm) : dpi !== undefined ? MM_OF_INCH * pixels / length('dpi', dpi) : null;
    const density = size === null ? 0 : 1000 * pixels / size;
    if (size !== null && !(density > 0.5 && density < DENSITY_MAX + 0.5)) {
      throw new SettingsError(`${pixels} pixels cannot be ${Number(size.toPrecision(3))} mm wide in a PNG image`);
    }
    warn(quiet, margin, (size ?? Infinity) / modules);
    const shown = drawnModules(this), numbers = numbersAsked(asked);
    return numbers === null ? imageOf(shown, this.side, 'png', scale, margin, Math.round(density), 0, 0)
      : colouredPng(shown, this.side, scale, margin, Math.round(density), ...numbers);
  }

  pdf(options = {}) {
    return documentFor([this], 'pdf', chosen(options, { ...OF_DOCUMENT, ...COLOURS_OF_DRAWING }));
  }

  eps(options = {}) {
    return documentFor([this], 'eps', chosen(options, OF_DOCUMENT));
  }

  pbm(options = {}) {
    const { dpi, ...others } = chosen(options, { scale: undefined, margin: 4, dpi: undefined, fitMm: undefined, quiet: false });
    if (dpi !== undefined && others.fitMm === undefined) throw new TypeError('a PBM bitmap has no size: dpi is only given beside fitMm');
    return this.#file('pbm', { dpi, ...others });
  }

  zpl(options = {}) {
    return this.#file('zpl', chosen(options, OF_LABEL));
  }

  tspl(options = {}) {
    return this.#file('tspl', chosen(options, OF_LABEL));
  }

  escpos(options = {}) {
    return this.#file('escpos', chosen(options, OF_RECEIPT));
  }

  printedSize(options) {
    const { mm, dpi, margin } = chosen(options, { mm: undefined, dpi: LIMITS.DPI, margin: 4 });
    return wholeDots(this, 'mm', mm, dpi, margin);
  }

  /** Returns the image in a format that cannot say how large it is. */
  #file(format, { margin, x = 0, y = 0, quiet, ...sizes }) {
    whole('margin', margin, 0, LIMITS.MARGIN_MAX);
    const { dots, module } = dotsOf(this, format, sizes, margin);
    warn(quiet, margin, format === 'pbm' && sizes.fitMm === undefined ? Infinity : module);
    const left = whole('x', x, 0, LIMITS.PLACE_MAX), top = whole('y', y, 0, LIMITS.PLACE_MAX);
    return imageOf(drawnModules(this), this.side, format, dots, margin, 0, left, top);
  }

  dataURL(options = {}) {
    const { type, scale, ...others } = chosen(options, { type: 'png', scale: 8, margin: 4, mm: undefined, quiet: false });
    if (named('type', type, ['png', 'svg']) === 1) return `data:image/svg+xml,${encodeURIComponent(this.svg(others))}`;
    return `data:image/png;base64,${btoa(Array.from(this.png({ scale, ...others }), (byte) => String.fromCharCode(byte)).join(''))}`;
  }

  toString() {
    return this.text();
  }

}

export class Content {
  constructor({ data, version, header, ecis, gs1, application, kanji }) {
    this.data = data;
    this.version = version;
    this.header = header;
    this.ecis = ecis;
    this.gs1 = gs1;
    this.application = application;
    this.kanji = kanji;
  }

  text() {
    // Kanji mode is for Shift JIS (ISO/IEC 18004:2015, 7.4.6), so the bytes in other modes are taken for it too.
    const isShiftJis = this.kanji && this.ecis.length === 0 && !this.gs1;
    return decodedText(this.data, this.ecis, isShiftJis ? SHIFT_JIS : null);
  }

  fields() {
    if (!this.gs1) throw new Gs1Error('the symbol does not say that its data are GS1 data');
    return fieldsOf(this.data);
  }

  toJSON() {
    return { ...this, data: [...this.data] };
  }
}

export class Mended {
  constructor({ content, level, wrongModules, mask, wrongFormatModules, wrongFormatLeast, changedMost, changedAllowed, spentMost, ...worst }) {
    this.content = new Content(content);
    this.level = LEVELS[level];
    this.wrongModules = wrongModules;
    this.mask = mask;
    this.wrongFormatModules = wrongFormatModules;
    this.wrongFormatLeast = wrongFormatLeast;
    this.changedMost = changedMost;
    this.changedAllowed = changedAllowed;
    this.spentMost = spentMost;
    this.worstMisread = worst.worstMisread;
    this.worstUnknown = worst.worstUnknown;
    this.worstUnknownWrong = worst.worstUnknownWrong;
  }

  get isSound() {
    return this.wrongModules === 0;
  }

  get spent() {
    return (this.worstMisread + this.worstUnknown) / this.changedAllowed;
  }

  get unused() {
    return this.scannable ? 1 - this.spent : 0;
  }

  get unusedGrade() {
    const left = 100 * (this.changedAllowed - this.worstMisread - this.worstUnknown);
    return (this.scannable && Object.keys(GRADES).find((grade) => left >= GRADES[grade] * this.changedAllowed)) || 'F';
  }

  get spentHere() {
    return this.spentMost / (2 * this.changedAllowed);
  }

  get scannable() {
    return this.worstMisread + this.worstUnknown <= this.changedAllowed && this.wrongFormatLeast <= LIMITS.WRONG_FORMAT_MAX;
  }
}

export class Found {
  constructor({ modules, side, corners, quarterTurns, isInverse, isMirrored, isRead }) {
    this.modules = modules;
    this.side = side;
    this.corners = corners;
    this.quarterTurns = quarterTurns;
    this.isInverse = isInverse;
    this.isMirrored = isMirrored;
    this.isRead = isRead;
  }

  read() {
    return read(this);
  }

  mend() {
    return mend(this);
  }
}

// The option of encode and encodeSeries that names a mask.
const OF_MASK = { mask: undefined };

/** Returns what draws a symbol once more under the mask that is asked for; without one each symbol stays as it is. */
function underMask({ mask }) {
  if (mask === undefined) return (symbol) => symbol;
  whole('mask', mask, 0, LIMITS.MASK_MAX);
  return (symbol) => ({ ...symbol, mask, modules: maskedOf(symbol.modules, symbol.side, mask) });
}

function encodedAsAsked(given, version, level, rule, boost, asked) {
  const under = underMask(asked);
  return under(encodedWithLogo(given, version, level, rule, boost, asked));
}

const CALLS = { encoded: encodedAsAsked, mayHaveKanji, dataOf, encodedText, others: { ...OF_MASK, ...OF_LOGO } };

export function encode(input, options = {}) {
  return new QRSymbol(symbolAsked(input, options, CALLS));
}

export function encodeSeries(input, options = {}) {
  const asked = chosen(options, { ...OF_SERIES, ...OF_MASK }), under = underMask(asked);
  if (asked.version === undefined) throw new TypeError('a series needs the version of its symbols, as in { version: 5 }');
  const [given, version, level, rule] = inputAsked(input, asked, CALLS), { side, squares } = encodedSeries(given, version, level, rule);
  return squares.map((modules) => new QRSymbol(under({ version, side, mask: null, level: LEVELS[level], modules })));
}

/** Returns the one symbol of a picture. If none can be mended, it is what looks most like one. */
function onlyIn(pixels) {
  const found = foundOf(pixels, true), read = found.filter((it) => it.isRead), symbols = read.length ? read : found.slice(0, 1);
  if (symbols.length > 1) throw new PictureError(`the picture shows ${symbols.length} symbols: find(picture) returns all of them`);
  if (symbols.length === 0) throw new PictureError(NO_SYMBOL);
  return symbols[0];
}

/** Returns a symbol or a square as it is, and of a picture its one symbol. */
function symbolOf(given) {
  const pixels = given instanceof PlainSymbol || given instanceof Found || given instanceof Uint8Array ? null : pixelsOf(given);
  return pixels === null ? given : onlyIn(pixels);
}

const OTHER_BYTES = 'a file of a picture is first drawn on a canvas, and for a drawing call parseDrawing(text)';

/** Returns the modules of a symbol or of a square, and their side. */
function squareOf(square) {
  const modules = square instanceof QRSymbol || square instanceof Found ? square.modules : square;
  if (!(modules instanceof Uint8Array)) {
    throw new TypeError(`a square is a QRSymbol, a Found, a picture, or a Uint8Array of its modules, row by row; ${OTHER_BYTES}`);
  }
  const side = Math.sqrt(modules.length);
  if (!(side >= 21 && side <= LIMITS.SIDE_MAX && side % 4 === 1)) {
    throw new SideError('a square has 21 times 21 modules, 25 times 25, and so on to 177 times 177,'
      + ` and not ${modules.length} in all; ${OTHER_BYTES}`);
  }
  return [modules, side];
}

export function read(square) {
  return new Content(readOf(...squareOf(symbolOf(square))));
}

export function mend(square) {
  const symbol = symbolOf(square), [modules, side] = squareOf(symbol), mended = new Mended(mendedOf(modules, side));
  if (symbol instanceof Found && !symbol.isRead) {
    throw new CheckError(`${mended.wrongModules} of its ${side * side} modules are wrong or not known, and in a picture fewer have to be`);
  }
  return mended;
}

export function parseDrawing(text) {
  if (typeof text !== 'string') throw new TypeError('a drawing is a string');
  for (const drawing of undone(text)) {
    const found = parsedOf(new TextEncoder().encode(drawing));
    if (found) return { type: DRAWINGS[found.drawing], margin: found.margin, squares: found.squares };
  }
  throw new NoDrawingError();
}

const NO_SYMBOL = 'no symbol is found in the picture';
const MANY = 16; // symbols of a picture, after which there may be more of them than one search finds
const SEARCHES = 32; // of a picture at most

/** Returns squares row by row. A square is in the row of another one if its upper edge is above the middle of the other. */
function inRows(squares) {
  const edges = (square, axis) => [Math.min, Math.max].map((of) => of(...square.corners.map((corner) => corner[axis]))), rows = [];
  let middle = 0;
  for (const square of [...squares].sort((one, other) => edges(one, 1)[0] - edges(other, 1)[0])) {
    const [top, bottom] = edges(square, 1);
    if (rows.length === 0 || top >= middle) {
      rows.push([]);
      middle = (top + bottom) / 2;
    }
    rows.at(-1).push(square);
  }
  return rows.flatMap((row) => row.sort((one, other) => edges(one, 0)[0] - edges(other, 0)[0]));
}

/**
 * Returns the squares of a grey picture, those that are read first, and row by row. A search finds some 40 symbols at most. So after one that
 * finds many, these are covered, and the picture is searched again.
 */
function searched(grey, width, height, unread) {
  const all = [];
  let squares = [];
  for (let search = 0; search < SEARCHES; search++) {
    squares = foundIn(grey, width, height, unread);
    const found = squares.filter((it) => it.isRead);
    all.push(...found);
    if (found.length < MANY) break;
    cover(grey, width, height, found);
  }
  return [...inRows(all), ...inRows(squares.filter((it) => !it.isRead))];
}

/** Returns the squares of RGBA pixels: those on a light ground, unless only on a dark one some are read. */
function foundOf(pixels, unread) {
  const { width, height } = pixels;
  whole('the width of a picture', width, 1, LIMITS.PICTURE_MAX);
  whole('the height of a picture', height, 1, LIMITS.PICTURE_MAX);
  let found = [];
  for (const grey of greysOf(pixels)) {
    const squares = searched(grey, width, height, unread), isRead = squares.some((it) => it.isRead);
    if (found.length === 0 || isRead) found = squares;
    if (isRead) break;
  }
  return found.map((it) => new Found(it));
}

export function find(picture, options = {}) {
  const { unread } = chosen(options, { unread: false }), pixels = pixelsOf(picture);
  if (typeof unread !== 'boolean') throw new TypeError(`unread is true or false, and not of type ${typeof unread}`);
  if (pixels === null) {
    throw new TypeError('a picture has width, height and, as its data, four bytes for each pixel, or is a canvas, an image, a video or a bitmap of a'
      + ' page: a file of an image is first drawn on a canvas, whose getImageData returns them');
  }
  return foundOf(pixels, unread);
}

export function parsePicture(picture) {
  const found = find(picture);
  if (found.length === 0) throw new PictureError(NO_SYMBOL);
  return found.map((it) => it.modules);
}

/** Returns one symbol or several as an array. */
function symbolsOf(symbols) {
  const list = Array.isArray(symbols) ? symbols : [symbols];
  if (!list.every((it) => it instanceof QRSymbol)) throw new TypeError('what is drawn is a QRSymbol, or an array of them');
  return list;
}

/** Returns the modules of symbols of one side, one after the other. */
function joined(list, most = LIMITS.COUNT_MAX) {
  whole('the number of symbols', list.length, 1, most);
  const { side } = list[0], modules = new Uint8Array(list.length * side * side);
  if (list.some((it) => it.side !== side)) throw new SettingsError('the symbols have one side');
  list.forEach((it, k) => modules.set(drawnModules(it), k * side * side));
  return modules;
}

export function draw(symbols, options = {}) {
  const { type, margin } = chosen(options, { type: 'UTF8', margin: 4 });
  const list = symbolsOf(symbols), drawing = named('type', type, DRAWINGS);
  whole('margin', margin, 0, LIMITS.MARGIN_MAX);
  return drawn(joined(list), list[0].side, list.length, drawing, margin);
}

/** Returns how wide a module is if so many are `mm` wide. */
function micrometresOf(mm, modules) {
  const micrometres = Math.round(1000 * length('mm', mm) / modules);
  if (micrometres >= 1 && micrometres <= LIMITS.MICROMETRES_MAX) return micrometres;
  throw new SettingsError(`a module is from 0.001 to ${LIMITS.MICROMETRES_MAX / 1000} mm wide, and ${modules} modules are not ${Number(mm.toPrecision(3))} mm wide`);
}

/** Returns a document for print with symbols of one side. */
/** Returns a document for print. Only PDF has colours. */
function documentFor(list, type, { margin, mm, quiet, ...others }) {
  whole('margin', margin, 0, LIMITS.MARGIN_MAX);
  const given = joined(list);
  const micrometres = mm === undefined ? LIMITS.MICROMETRES : micrometresOf(mm, list[0].side + 2 * margin);
  warn(quiet, margin, micrometres / 1000);
  const numbers = numbersAsked(others);
  return numbers === null ? printed(given, list[0].side, list.length, type, margin, micrometres)
    : colouredPdf(given, list[0].side, list.length, margin, micrometres, ...numbers);
}

/** Returns the two colours that a drawing is asked to have as numbers, or null for black on white. */
function numbersAsked({ dark = DARK, light = LIGHT, inverse = false }) {
  if (dark === DARK && light === LIGHT && inverse === false) return null;
  const colours = coloursOf({ dark, light, inverse });
  return colours.dark === DARK && colours.light === LIGHT ? null : numbersOf(colours);
}

export function documentOf(symbols, options = {}) {
  const { type, ...others } = chosen(options, { type: 'pdf', ...OF_DOCUMENT }), names = Object.keys(DOCUMENTS);
  return documentFor(symbolsOf(symbols), names[named('type', type, names)], others);
}

export function paper(name, options = {}) {
  const { first } = chosen(options, { first: 0 }), found = paperOf(name);
  return { ...found, first: whole('first', first, 0, found.columns * found.rows - 1) };
}

/** Returns the captions of so many symbols. */
function captionsOf(captions, count) {
  if (!Array.isArray(captions)) throw new TypeError('captions are an array of strings, one for each symbol');
  for (const it of captions) checkCaption(it);
  if (captions.length !== count) throw new SettingsError(`each symbol has a caption, which may be empty: there are ${count} and ${captions.length}`);
  return captions;
}

export function sheetsOf(symbols, sheet, options = {}) {
  const { margin, mm, quiet, captions } = chosen(options, { ...OF_DOCUMENT, captions: undefined }), list = symbolsOf(symbols);
  whole('margin', margin, 0, LIMITS.MARGIN_MAX);
  const modules = joined(list, LIMITS.LABELS_MAX);
  const { columns, rows, first, ...given } = chosen(sheet, SHEET);
  whole('columns', columns, 1, LIMITS.COLUMNS_MAX);
  whole('rows', rows, 1, LIMITS.COLUMNS_MAX);
  whole('first', first, 0, columns * rows - 1);
  const lengths = Object.fromEntries(Object.entries(given).map(([name, it]) => [name, it === 0 ? 0 : Math.round(1000 * length(name, it))]));
  if (Math.max(lengths.width, lengths.height) > LIMITS.PAPER_MAX) throw new SettingsError(`paper is at most ${LIMITS.PAPER_MAX / 1000} mm wide and high`);
  const wide = roomOf(lengths.width, lengths.left, columns, lengths.across, lengths.labelWidth);
  const high = roomOf(lengths.height, lengths.top, rows, lengths.down, lengths.labelHeight);
  const lines = captions === undefined ? [] : captionsOf(captions, list.length).map((it) => linesOf(it, wide - 2 * FREE_ACROSS));
  const most = lines.reduce((greatest, it) => Math.max(greatest, it.length), 0);
  const width = list[0].side + 2 * margin, least = captions === undefined ? Math.min(wide, high) : roomOfLabel(wide, high, most);
  const micrometres = mm === undefined ? Math.floor(Math.min(least, LIMITS.MICROMETRES_MAX * width) / width) : micrometresOf(mm, width);
  if (micrometres < 1 || micrometres * width > least) {
    const asked = mm === undefined ? `${width} modules` : `a symbol ${(micrometres * width / 1000).toFixed(3)} mm wide with its margin`;
    const caption = most ? ` and ${most} ${most > 1 ? 'lines' : 'line'} of a caption` : '';
    throw new SettingsError(`a place of the sheet is ${(Math.max(0, wide) / 1000).toFixed(3)} mm wide and ${(Math.max(0, high) / 1000).toFixed(3)} mm high, and has no room for ${asked}${caption}`);
  }
  warn(quiet, margin, micrometres / 1000);
  const size = micrometres * width, { left } = lengths;
  if (captions !== undefined) {
    lengths.left += Math.floor((wide - size) / 2);
    lengths.top += Math.floor((high - size - most * LINE) / 2);
  }
  const document = sheetsBy(modules, list[0].side, list.length, margin, micrometres, { ...lengths, columns, rows, first });
  if (most === 0) return document;
  const places = columns * rows, texts = lines.map((its, k) => {
    const place = (first + k) % places, middle = left + place % columns * lengths.across + Math.floor(wide / 2);
    const below = lengths.height - lengths.top - Math.floor(place / columns) * lengths.down - size;
    return { page: Math.floor((first + k) / places), middle, below, lines: its };
  });
  return withCaptions(document, texts);
}

/** Returns the most dots that a module can have if the symbol is at most so many millimetres wide, and how wide it then is. */
function wholeDots(symbol, name, mm, dpi, margin) {
  const modules = symbol.side + 2 * whole('margin', margin, 0, LIMITS.MARGIN_MAX), resolution = length('dpi', dpi);
  const scale = Math.min(Math.floor(length(name, mm) * resolution / MM_OF_INCH / modules + 1e-9), LIMITS.SCALE_MAX), width = MM_OF_INCH * modules / resolution;
  if (scale === 0) throw new SettingsError(`${modules} modules of one dot are ${width.toPrecision(3)} mm wide, and not ${Number(mm.toPrecision(3))}`);
  return { scale, mm: MM_OF_INCH * modules * scale / resolution };
}

/** Returns the scale and the resolution for whole dots, if there is a size of this name, which is the most that the symbol may be wide. */
function fitted(symbol, sizes, margin, name = 'fitMm') {
  if (sizes[name] === undefined) return sizes;
  const other = ['scale', 'mm', 'fitMm'].find((it) => it !== name && sizes[it] !== undefined);
  if (other) throw new TypeError(`${other} and ${name} both say how large the symbol is: one of them is given`);
  const dpi = sizes.dpi ?? LIMITS.DPI;
  return { scale: wholeDots(symbol, name, sizes[name], dpi, margin).scale, dpi };
}

/** Returns how many dots of a printer a module has on each side, and how wide it is in millimetres. */
function dotsOf(symbol, format, sizes, margin) {
  const { scale = format === 'pbm' ? PIXELS : LIMITS.DOTS, dpi = LIMITS.DPI } = fitted(symbol, sizes, margin, sizes.mm === undefined ? 'fitMm' : 'mm');
  const dots = whole('scale', scale, 1, LIMITS.SCALE_MAX);
  return { dots, module: MM_OF_INCH / length('dpi', dpi) * dots };
}

export function labels(symbols, options = {}) {
  const { type, margin, x, y, quiet, ...asked } = chosen(options, { type: 'zpl', ...OF_LABEL }), names = Object.keys(LABELS);
  const format = names[named('type', type, names)], [before, after] = LABELS[format].map((it) => new TextEncoder().encode(it));
  if ((x || y) && format === 'escpos') throw new TypeError('only in ZPL and TSPL a symbol has a place on a label, which x and y say');
  whole('margin', margin, 0, LIMITS.MARGIN_MAX);
  const left = whole('x', x, 0, LIMITS.PLACE_MAX), top = whole('y', y, 0, LIMITS.PLACE_MAX);
  const list = symbolsOf(symbols), sizes = list.map((it) => dotsOf(it, format, asked, margin));
  if (list.length) warn(quiet, margin, sizes.reduce((least, { module }) => Math.min(least, module), Infinity));
  const parts = list.flatMap((it, k) => [before, imageOf(drawnModules(it), it.side, format, sizes[k].dots, margin, 0, left, top), after]);
  const file = new Uint8Array(parts.reduce((sum, part) => sum + part.length, 0));
  parts.reduce((at, part) => (file.set(part, at), at + part.length), 0);
  return file;
}
