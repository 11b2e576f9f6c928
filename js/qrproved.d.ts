/**
 * QR Code symbols (ISO/IEC 18004:2015, QR Code Model 2) by a proved library: encode, read, mend, draw. A value of a wrong type,
 * or an option that does not exist, is a TypeError. A call that runs out of memory throws OutOfMemoryError.
 */

/** The level of error correction, by which about 7, 15, 25 or 30 % of a symbol's codewords can be restored. */
export type Level = 'L' | 'M' | 'Q' | 'H';

/**
 * Which modes the segments of an input may have. 'auto': numeric, alphanumeric and byte mode, mixed so that the number of bits is
 * least. 'bytes_only': the whole input in byte mode. 'with_kanji': the modes of 'auto', and kanji mode for the characters of JIS X 0208:
 * a string is encoded as Shift JIS, and of bytes each pair that is such a character in Shift JIS may have it.
 */
export type Rule = 'auto' | 'bytes_only' | 'with_kanji';

/**
 * The type of a drawing, as the command `qrencode -t` has it. 'ASCII': two # for a dark module and two spaces for a light one.
 * 'ASCIIi': the other way round. 'UTF8': half blocks, of which a filled half is light. 'SVG': a document, one unit for a module.
 */
export type Drawing = 'ASCII' | 'ASCIIi' | 'UTF8' | 'SVG';

/**
 * A text or bytes; or in place of them GS1 data, as a text like '(01)04012345678901(10)AB' or '[01]04012345678901[10]AB', or as bytes in
 * which the byte 1D separates fields, which are not looked at. A string is encoded in the character set of its ECI, and else as UTF-8;
 * under the rule 'with_kanji' as Shift JIS.
 */
export type Input = string | Uint8Array | { gs1: string | Uint8Array };

export interface Options {
  /** The least level of a symbol, and the level of a series. 'L' unless given; small letters are taken too. */
  level?: Level | Lowercase<Level>;
  /**
   * The smallest allowed version, from 1 to 40; 1 unless given. In a series the version of all symbols, which has to be given.
   */
  version?: number;
  /**
   * Unless it is given, GS1 data with a % have 'bytes_only', since zxing-cpp 1.4 misreads a % of GS1 data in alphanumeric mode, and all
   * other inputs 'auto'.
   */
  rule?: Rule;
  /**
   * The number of an ECI header, which says what the bytes mean as characters, from 0 to 999999; or false for none. Unless it is given,
   * a string with a character that is not ASCII has 26, for UTF-8, unless the rule is 'with_kanji', and bytes have none. GS1 data have
   * none, and kanji mode is for ECI 20 or none.
   */
  eci?: number | false;
}

/**
 * A symbol that encode or encodeSeries made. A margin is from 0 to 100 modules: 4 unless given, which a scanner needs. Each
 * drawing throws SettingsError if a value is out of its range. A margin under 4 modules and modules under 0.25 mm are warned of in the
 * console, each once, unless `quiet` is true.
 */
export class QRSymbol {
  private constructor();
  /** From 1 to 40. */
  readonly version: number;
  /** Modules on a side: 17 + 4 * version. */
  readonly side: number;
  /** From 0 to 7; null in a series. */
  readonly mask: number | null;
  /** May be higher than the level that was asked for. */
  readonly level: Level;
  /** side * side bytes, row by row from the top left, without a margin: 1 is dark, 0 is light. */
  readonly modules: Uint8Array;
  /** The modules on a side of the logo for which the symbol was encoded; or null. Drawings leave its place light. */
  readonly logo: number | null;
  /** The first row and column of the logo, and its side. A light ring around the picture belongs to the logo. */
  readonly logoBox: { row: number; column: number; side: number } | null;
  /** The share of the correction that the logo uses up at most, whatever it shows, in the block where it is most. */
  readonly logoSpent: number;
  /**
   * Returns whether a module is dark; both numbers are from 0 to side - 1, from the top left. Throws SettingsError for others.
   */
  dark(row: number, column: number): boolean;
  /**
   * Returns an SVG document, in which a module is one unit wide. `mm` is its width with the margin, in millimetres: a module has whole
   * micrometres, as in pdf. If `inline` is true, the document has no XML declaration, which HTML does not allow inside a page.
   * `title` is what the drawing is called by programs that read it aloud; it has then the role of an image. `className` is its class. `caption`
   * is a line of text below the symbol and its margin, which makes the drawing four modules higher. Throws
   * SettingsError for colours with a contrast under 3 (WCAG 2.1), and for an order of them that `inverse` does not say. `logo` is a PNG or SVG
   * file, which becomes a part of the document, in the place of the logo for which the symbol was encoded, within a light ring of one module.
   */
  svg(options?: Colours & { margin?: number; mm?: number; quiet?: boolean; inline?: boolean; title?: string; className?: string; caption?: string; logo?: Uint8Array }): string;
  /**
   * Draws the symbol on a canvas, which becomes as large as it, and returns the canvas. `scale` is the number of pixels of a module on a side,
   * 8 unless given. `logo` is an image that is loaded, or another canvas, which is drawn in the place of the logo, within a light ring of one
   * module.
   */
  toCanvas<Canvas extends { width: number; height: number; getContext(kind: '2d'): unknown }>(canvas: Canvas, options?: Colours & { scale?: number; margin?: number; quiet?: boolean; logo?: { readonly width: number; readonly height: number } }): Canvas;
  /** Returns a drawing as text, of type 'UTF8' unless given. */
  text(options?: { margin?: number; type?: Drawing }): string;
  /**
   * Returns a PNG image of one bit a pixel. `scale` is the number of pixels of a module on a side, from 1 to 100: 8 unless given.
   * `mm` is the width of the image with its margin, in millimetres; in its place, `dpi` is the number of pixels of an inch. `fitMm` stands in
   * place of `scale` and `mm`: it is the most that the image may be wide for a printer with `dpi` dots an inch, 203 unless given. A module
   * has as many whole pixels as fit, and printedSize says how wide the image is. Throws a TypeError for sizes that exclude each other, and
   * SettingsError for a size that PNG cannot say (less than one pixel a metre, or more than 2147483647), and for colours as svg does.
   */
  png(options?: Colours & { scale?: number; margin?: number; mm?: number; dpi?: number; fitMm?: number; quiet?: boolean }): Uint8Array;
  /**
   * Returns a PDF document with a page as large as the symbol with its margin. `mm` is its width, in millimetres; unless given, a module is
   * 1 mm wide. A module has whole micrometres, so the width may differ from `mm` by half a micrometre for each module. With `light: null`
   * no ground is drawn. Throws SettingsError for colours as svg does.
   */
  pdf(options?: Colours & { margin?: number; mm?: number; quiet?: boolean }): Uint8Array;
  /** Returns a document in Encapsulated PostScript, with the options of pdf but the colours. */
  eps(options?: { margin?: number; mm?: number; quiet?: boolean }): Uint8Array;
  /** Returns a raw bitmap of netpbm (P4), which does not say how large it is. `scale` is 8 unless given; `fitMm` and `dpi` are those of png. */
  pbm(options?: { scale?: number; margin?: number; dpi?: number; fitMm?: number; quiet?: boolean }): Uint8Array;
  /**
   * Returns a label in ZPL, the language of most label printers, with the symbol as an image. `scale` is the number of dots of a module on
   * a side, from 1 to 100: 4 unless given. In its place, `fitMm` is the most that the symbol may be wide with its margin; since a module has
   * whole dots, it may be narrower, and printedSize says how wide. `mm` is another name for it. `dpi` is the number of dots of an inch, 203 unless given. `x` and `y` are
   * how far the symbol is from the left and the upper edge of the label, in dots, from 0 to 32000. Throws a TypeError for both scale and fitMm,
   * and SettingsError if not even modules of one dot are narrow enough.
   */
  zpl(options?: { scale?: number; margin?: number; mm?: number; dpi?: number; fitMm?: number; x?: number; y?: number; quiet?: boolean }): Uint8Array;
  /** Returns the command BITMAP of TSPL, with the options of zpl. It goes between the commands SIZE, CLS and PRINT of a label. */
  tspl(options?: { scale?: number; margin?: number; mm?: number; dpi?: number; fitMm?: number; x?: number; y?: number; quiet?: boolean }): Uint8Array;
  /** Returns the command GS v 0 of ESC/POS, for receipt printers. The options are those of zpl, but for x and y. */
  escpos(options?: { scale?: number; margin?: number; mm?: number; dpi?: number; fitMm?: number; quiet?: boolean }): Uint8Array;
  /** Returns the most dots that a module can have on a side if the symbol is at most `mm` wide with its margin, and how wide it then is. */
  printedSize(options: { mm: number; dpi?: number; margin?: number }): { scale: number; mm: number };
  /** Returns a URL that contains the image, a PNG unless the type is 'svg'. */
  dataURL(options?: { type?: 'png' | 'svg'; scale?: number; margin?: number; mm?: number; quiet?: boolean }): string;
  /** Returns the drawing of type 'UTF8'. */
  toString(): string;
  /** What JSON.stringify writes: each row of modules as a string, in which '1' is dark. */
  toJSON(): { version: number; side: number; mask: number | null; level: Level; rows: string[] };
}

/** The colours of a drawing. */
export interface Colours {
  /** The colour of dark modules: #rgb, #rrggbb or a name of CSS 2.1. '#000000' unless given. */
  dark?: string;
  /** That of light modules and of the margin, or null for a transparent ground. '#ffffff' unless given. */
  light?: string | null;
  /** Whether dark modules may be lighter than the others, which many scanners do not read. */
  inverse?: boolean;
}

/** A mask that is chosen by hand. */
export interface MaskOption {
  /**
   * The number of the mask, from 0 to 7, in place of the one with the least penalty, which the standard asks for. Scanners may read the symbol
   * less well.
   */
  mask?: number;
}

/** A logo in the middle of a symbol. */
export interface LogoOptions {
  /**
   * Leaves place for a logo: its side in modules, or a number between 0 and 1 for a fraction of the symbol's side. The symbol has the least
   * version from `version` on with which, at some level from `level` on, the logo is allowed, and the highest such level, whatever `boost` is.
   * With the logo, whatever it shows, the library is proved to mend the symbol to exactly its content.
   */
  logo?: number;
  /** How much the logo may use up of what can be corrected in a block, from 0 to 0.75: 0.5 unless given. The rest is left for dirt and wear. */
  share?: number;
}

/** What a symbol of a series says about its series. */
export interface Header {
  /** From 0 to 15. */
  position: number;
  /** The number of symbols less 1, from 0 to 15. */
  last: number;
  /** The exclusive or of all bytes of the input, from 0 to 255. */
  parity: number;
}

/** An ECI header (Extended Channel Interpretation): from a byte of the data on, the bytes have this ECI. */
export interface Eci {
  /** The number of bytes before it. */
  begin: number;
  /** From 0 to 999999: 26 is UTF-8, 20 is Shift JIS, 3 is ISO/IEC 8859-1. */
  number: number;
}

/** What a symbol contains. */
export class Content {
  protected constructor();
  /** In GS1 data, and with an application indicator, the byte 1D separates fields. */
  readonly data: Uint8Array;
  readonly version: number;
  /** null unless it is a symbol of a series. */
  readonly header: Header | null;
  /** The ECI headers, which say what the bytes mean as characters. Bytes before the first of them have none. */
  readonly ecis: readonly Eci[];
  /** True for GS1 data: FNC1 in first position. */
  readonly gs1: boolean;
  /** The application indicator, two digits or a letter, of data with FNC1 in second position; else null. */
  readonly application: string | null;
  /** Whether a part of the data is in kanji mode, which is for Shift JIS. */
  readonly kanji: boolean;
  /**
   * Returns the data as text, each byte by the ECI in effect, and by UTF-8 where there is none. If `kanji` is true, and there is no ECI
   * header and the data are no GS1 data, all bytes are taken for Shift JIS. Throws EciError for an ECI whose characters are not known, or
   * that means bytes, and a TypeError for bytes that are no characters. A symbol of a series may begin or end within a character.
   */
  text(): string;
  /**
   * Returns the fields of GS1 data, each as its application identifier and its value. Throws Gs1Error if it is no GS1 data, for an
   * identifier that is not known, and for a value with a wrong length, character, check digit, pair of check characters, first digit,
   * date or piece number. A symbol of a series may begin or end within a value.
   */
  fields(): [identifier: string, value: string][];
  /** What JSON.stringify writes: the data as an array of numbers. */
  toJSON(): { data: number[]; version: number; header: Header | null; ecis: Eci[]; gs1: boolean; application: string | null; kanji: boolean };
}

/** What a damaged symbol contains, and its damage. */
export class Mended {
  private constructor();
  readonly content: Content;
  readonly level: Level;
  /** From 0 to 7. */
  readonly mask: number;
  /** The number of modules that are wrong or not known. */
  readonly wrongModules: number;
  /** The number of the 30 modules of format information that are wrong or not known. */
  readonly wrongFormatModules: number;
  /** Of the two copies of the format information, the number of modules that are wrong or not known in the copy with fewer of them. */
  readonly wrongFormatLeast: number;
  /** The number of wrong codewords in the block with the most; codewords with a module that is not known do not count. */
  readonly changedMost: number;
  /** The number of codewords that may be wrong in each block, from 2 to 15. */
  readonly changedAllowed: number;
  /**
   * The greatest e + 2w of a block, where e is the number of its codewords with a module that is not known, and w the number of its other
   * codewords that were misread. It is at most twice `changedAllowed`.
   */
  readonly spentMost: number;
  /** The w of the block that is worst for a scanner: of the first block with the greatest e + w. */
  readonly worstMisread: number;
  /** The e of this block. */
  readonly worstUnknown: number;
  /** How many of the codewords of `worstUnknown` are wrong if the modules that are not known are taken as dark. */
  readonly worstUnknownWrong: number;
  /** Whether every module is right. */
  readonly isSound: boolean;
  /**
   * The share of the correction that is spent for a scanner, in the block that is worst for it: (worstMisread + worstUnknown) /
   * changedAllowed. A scanner takes a codeword with a module that is not known for a wrong one, so the share may be above 1. Then scanners do
   * not read the symbol.
   */
  readonly spent: number;
  /**
   * The unused error correction of ISO/IEC 15415 in the block that is worst, from 0 to 1, where each module that is not known counts as
   * wrong. It is 0 if a scanner cannot read the symbol.
   */
  readonly unused: number;
  /** The grade of `unused`. It is that of one parameter of ISO/IEC 15415, and no grade of the symbol. */
  readonly unusedGrade: 'A' | 'B' | 'C' | 'D' | 'F';
  /** The share of the correction that is spent for `mend`, from 0 to 1: a codeword with a module that is not known counts half. */
  readonly spentHere: number;
  /**
   * Whether a scanner that takes what is not known for wrong can read the symbol: `spent` is at most 1, and `wrongFormatLeast` at most 3.
   * A scanner also has to find the symbol.
   */
  readonly scannable: boolean;
}

/**
 * Returns the symbol of an input, of the least version from `version` on that it fits. It has the highest level from `level` on that fits
 * this version; with `boost: false` it has `level`. Throws EmptyError if the input has no byte, TooLongError if it fits none of these
 * versions, and SettingsError if a value is out of its range. Throws EciError for a character that is not in the character set, and
 * for a string in a set that is not known; Gs1Error for a string that is no GS1 data, and FieldsError for such bytes. Throws LogoError if no
 * symbol of the input may have the logo.
 */
export function encode(input: Input, options?: Options & MaskOption & LogoOptions & { boost?: boolean }): QRSymbol;

/**
 * Returns the symbols of a series (structured append), all of one version and level: from 1 to 16. An input that fits one symbol is one
 * plain symbol. Each symbol has the ECI header, or says that its data are GS1 data. Throws as encode does, but TooManyError in place
 * of TooLongError, if the input takes more than 16 symbols.
 */
export function encodeSeries(input: Input, options: Options & MaskOption & { version: number }): QRSymbol[];

/**
 * Returns what a symbol contains, whose modules are given row by row: 0 is light, any other byte is dark. Corrects no errors.
 * Throws SideError if no version has so many modules, FormatError if the first copy of the format information belongs to no level
 * and mask, CheckError if a block does not match its error correction codewords, and SegmentsError if the data codewords cannot
 * be parsed. In place of the modules it takes a picture of one symbol; it throws PictureError if there is none, or if there are several.
 */
export function read(square: QRSymbol | Found | Uint8Array | Picture): Content;

/**
 * Returns what a damaged symbol contains, and its damage. A module is 0 for light, 1 for dark, and 2 if it is not known: its
 * codeword spends half as much of the correction as a wrong one. Throws as read does, but FormatError and CheckError only if
 * there is more damage than can be mended; and SettingsError for another module. Of a square in a picture at most one module in five may
 * be wrong or not known, or one in ten if the timing patterns are damaged, and of a block with modules that are not known
 * three of the codewords that correct it have to be left, since other squares that are no symbols can now and then be mended.
 */
export function mend(square: QRSymbol | Found | Uint8Array | Picture): Mended;

/** What a drawing shows. */
export interface Drawn {
  readonly type: Drawing;
  /** Light modules on each side of a square, from 0 to 255; 0 if they were lost with the spaces of the text. */
  readonly margin: number;
  /** The modules of 1 to 16 squares of one side, as read and mend take them. */
  readonly squares: Uint8Array[];
}

/**
 * Returns what a drawing shows, of any type: the text, once what pasting changes is undone, is the drawing of these squares and of
 * nothing else, as draw makes it. Undone are line ends of two characters, a byte order mark, no-break spaces, an indentation, lost spaces
 * at the ends of lines, empty lines between symbols or after each line, the size of an SVG document, and the margin of the half blocks of
 * qrencode 4.1.1. Throws NoDrawingError if it is no such drawing; whether a square is a symbol, read and mend say.
 */
export function parseDrawing(text: string): Drawn;

/** RGBA pixels, or in a page a canvas or what a canvas draws: an image, a video or a bitmap. */
export type Picture = Pixels
  | { readonly width: number; readonly height: number; getContext(kind: '2d'): unknown }
  | { readonly naturalWidth: number; readonly naturalHeight: number }
  | { readonly videoWidth: number; readonly videoHeight: number }
  | { readonly width: number; readonly height: number; close(): void };

/** RGBA pixels, row by row, as the method getImageData of a canvas's context returns them. */
export interface Pixels {
  readonly data: Uint8ClampedArray | Uint8Array;
  readonly width: number;
  readonly height: number;
}

/** A square that was found in a picture. */
export class Found {
  private constructor();
  /** Its modules, row by row: 0 is light, 1 is dark, 2 is not known. */
  readonly modules: Uint8Array;
  /** From 21 to 177. */
  readonly side: number;
  /**
   * The x and the y of each of the four corners, in pixels from the upper left corner of the picture: of the first module, and then clockwise
   * around the square.
   */
  readonly corners: readonly (readonly [x: number, y: number])[];
  /** By how many quarter turns the symbol is turned clockwise, to the nearest one: from 0 to 3. */
  readonly quarterTurns: number;
  /** Whether it is light on dark. */
  readonly isInverse: boolean;
  /** Whether its first row goes from the first corner to the last one, and not to the second. */
  readonly isMirrored: boolean;
  /**
   * Whether it can be mended, and at most one of its modules in five is wrong or not known, or one in ten if the timing patterns are
   * damaged, and enough of each block is left as a check. Only `unread: true` finds others.
   */
  readonly isRead: boolean;
  /** Returns what the symbol contains, as the function read does. */
  read(): Content;
  /** Returns what the symbol contains, and its damage, as the function mend does. */
  mend(): Mended;
}

/**
 * Returns the symbols of a picture, row by row from the upper left. They may be turned, tilted, mirrored, light on dark, in
 * shadow, blurred or small. All three finder patterns have to be seen. With `unread: true` squares that look like symbols and cannot be
 * mended are found too, after the others. What is transparent is taken for white, and if nothing is found, for black. Throws a TypeError
 * for what is no picture, and SettingsError for one that is more than 32,767 pixels wide or high.
 */
export function find(picture: Picture, options?: { unread?: boolean }): Found[];

/** Returns the modules of the symbols that find finds, as mend takes them. Throws as find does, and PictureError if there is no symbol. */
export function parsePicture(picture: Picture): Uint8Array[];

/**
 * Returns a document for print with 1 to 16 symbols of one side: a PDF has a page for each, an EPS or an SVG has them one below the other.
 * `type` is 'pdf' unless given, and `mm` the width of a symbol with its margin; unless given, a module is 1 mm wide.
 */
export function documentOf(symbols: QRSymbol | QRSymbol[], options?: { type?: 'pdf' | 'eps' | 'svg'; margin?: number; mm?: number; quiet?: boolean }): Uint8Array;

/** Label paper. Its lengths are in millimetres, to the nearest thousandth. */
export interface Sheet {
  /** The width of the paper. */
  width: number;
  height: number;
  /** How many places for symbols are side by side, from 1 to 100. */
  columns: number;
  /** How many are one below the other, from 1 to 100. */
  rows: number;
  /** How far the first place is from the left edge of the paper; 0 unless given. */
  left?: number;
  top?: number;
  /** How far the left edges of places side by side are from each other. */
  across?: number;
  /** How far the upper edges of places one below the other are. */
  down?: number;
  /** How wide a label is. Without it a label goes on to the next one, or to the edge of the paper. */
  labelWidth?: number;
  /** How high a label is. */
  labelHeight?: number;
  /** How many places of the first sheet stay free, as labels that are used up; 0 unless given. */
  first?: number;
}

/**
 * Returns a PDF with 1 to 10,000 symbols of one side on sheets of label paper, as many as they need. They follow one another in rows, from
 * the upper left place on. `mm` is the width of a symbol with its margin; unless given, symbols are as large as fits their places. Throws
 * SettingsError if symbols are larger than their places, or if a place is not on the paper.
 *
 * `captions` are a text for each symbol, which may be empty. A symbol is then in the middle of its label, with the lines of its caption below;
 * 2 mm of a label on its left and right and 1 mm above and below stay free. Without captions a symbol is in the upper left corner of its
 * place. Throws SettingsError for a character that the font Helvetica does not have.
 */
export function sheetsOf(symbols: QRSymbol | QRSymbol[], sheet: Sheet, options?: { margin?: number; mm?: number; quiet?: boolean; captions?: string[] }): Uint8Array;

/** The names of label paper. */
export const PAPERS: readonly string[];

/**
 * Returns the label paper of a name, such as 'Avery L7160' or 'l7160'; PAPERS has all names. `first` places of the first sheet stay free: 0
 * unless given. Throws SettingsError for another name.
 */
export function paper(name: string, options?: { first?: number }): Required<Sheet>;

/**
 * Returns a file for a printer with a label for each symbol, one after the other. There may be any number of them, of different sides.
 * `type` is 'zpl' unless given, and the other options are those of zpl; in ESC/POS there is no x and no y. In TSPL the commands CLS and
 * PRINT are around each symbol, and the printer has to know the size of its labels, by the command SIZE. ESC/POS has the symbols one below
 * the other.
 */
export function labels(symbols: QRSymbol | QRSymbol[], options?: {
  type?: 'zpl' | 'tspl' | 'escpos'; scale?: number; margin?: number; mm?: number; dpi?: number; fitMm?: number; x?: number; y?: number; quiet?: boolean;
}): Uint8Array;

/**
 * Returns the drawing of symbols of one side, at most 16, byte for byte as the command `qrencode` draws them: texts one after the
 * other, or one document with one below the other. The type is 'UTF8' and the margin 4 unless given. Throws SettingsError if
 * there are none or more than 16, if their sides differ, or if a value is out of its range.
 */
export function draw(symbols: QRSymbol | QRSymbol[], options?: { type?: Drawing; margin?: number }): string;

/**
 * Compiles the module before the first call, without blocking. Only older browsers need it: they refuse to compile it in a call.
 */
export function load(): Promise<void>;

/** A refusal of the library. */
export class QRError extends Error {
  protected constructor();
  /** The number of the status in C. */
  readonly status: number;
  /** The name of the status in C, as 'TOO_LONG'. */
  readonly code: string;
}
export class EmptyError extends QRError {}
export class TooLongError extends QRError {}
export class TooManyError extends QRError {}
export class OutOfMemoryError extends QRError {}
export class SettingsError extends QRError {}
/** A buffer is too short, which no call of this package meets. */
export class RoomError extends QRError {}
export class SideError extends QRError {}
export class FormatError extends QRError {}
/** No symbol is found in a picture, or several where one is wanted. It is no refusal of the library, which finds none in such a picture. */
export class PictureError extends Error {
  protected constructor();
}
/**
 * The bytes of an ECI are not read as characters, or a character of a string is not in its character set. It is no refusal of the
 * library.
 */
export class EciError extends Error {
  protected constructor();
}
/** The data are no GS1 data: which field is wrong, and why. It is no refusal of the library. */
export class Gs1Error extends Error {
  protected constructor();
}
export class CheckError extends QRError {}
export class SegmentsError extends QRError {}
export class NoDrawingError extends QRError {}
/** The bytes are no GS1 data: the byte 1D comes directly before another or before %. */
export class FieldsError extends QRError {}
/** The input fits, but no symbol of it may have a logo of this size. `largest` is the side of the largest that one may have, in modules. */
export class LogoError extends QRError {
  readonly largest: number;
}
