/** The page: draws each symbol as its text is typed, a sheet of labels, and what a drawing contains. */
import {
  CheckError, EciError, FormatError, Gs1Error, NoDrawingError, QRError, SideError, TooLongError, TooManyError, documentOf, draw,
  Found, PAPERS, encode, encodeSeries, find, labels, mend, paper, parseDrawing, read, sheetsOf,
} from '../out/npm/package/qrproved.js';
import { LIMITS } from '../out/npm/package/common.js';
import { PAPER_DATA } from '../out/npm/package/paper_data.js';
import { FREE_ACROSS, LINE, SYMBOL_MIN, checkCaption, linesOf, roomOf, roomOfLabel } from '../out/npm/package/papers.js';
import { ContentError, KINDS, PAYMENT, contentText } from '../out/npm/package/contents.js';
import { CameraError, Labels, squaresSeen } from './camera.js';
import { squaresInText } from './drawings.js';
import { zipOf } from './zip.js';

const on = (id) => document.getElementById(id);
const MOST_SHOWN = 200; // characters of a text in a name for screen readers
const MOST_MARKED = 40; // characters of a text below the mark of its symbol
const MODULE_LEAST = 0.25; // mm

/** Returns a new element with a text or with elements in it. */
function made(tag, ...inside) {
  const element = document.createElement(tag);
  element.append(...inside);
  return element;
}

/** Returns a figure of a symbol, which screen readers call by its text. */
function figureOf(svg, name, caption) {
  const figure = document.createElement('figure');
  figure.innerHTML = svg;
  figure.firstElementChild.setAttribute('role', 'img');
  figure.firstElementChild.setAttribute('aria-label', `QR Code symbol: ${name.slice(0, MOST_SHOWN)}`);
  if (caption) figure.append(made('figcaption', caption));
  return figure;
}

function say(element, text, kind = '') {
  element.textContent = text;
  element.className = kind;
}

/** Returns the image of a file; rejects for a file that is none. */
async function imageOf(file) {
  const image = new Image();
  image.src = await new Promise((resolve, reject) => {
    const reader = new FileReader();
    reader.addEventListener('load', () => resolve(reader.result));
    reader.addEventListener('error', () => reject(reader.error));
    reader.readAsDataURL(file);
  });
  await image.decode();
  return image;
}

/** Returns a number of a field, or null if it is out of range, which the field shows. */
function numberIn(id) {
  return on(id).validity.valid && on(id).value !== '' ? on(id).valueAsNumber : null;
}

// ---- one text

let symbols = []; // those that are shown
let content = null; // the text that the fields of a content make, or null for another kind of input
let fault = ''; // what is wrong with a field of it
let logo = null; // the bytes of the logo's file and its image, or null without a logo
let logoFault = ''; // why a file that was chosen is no logo
const LOGO_TYPES = ['image/png', 'image/svg+xml'];

function isContent(kind) {
  return Object.hasOwn(KINDS, kind);
}

/** Returns a field of a content in its label. */
function fieldOf(name, spec) {
  const field = document.createElement(spec.choices ? 'select' : spec.is === 'text' ? 'textarea' : 'input'), isFlag = spec.is === 'flag';
  Object.assign(field, { name, id: `field-${name}` });
  if (spec.choices) field.append(...(spec.default ? [] : [new Option('', '')]), ...Object.keys(spec.choices).map((it) => new Option(it, it)));
  else if (!isFlag) Object.assign(field, { spellcheck: false, autocomplete: 'off' });
  if (!spec.choices && spec.is !== 'text') field.type = isFlag ? 'checkbox' : 'text';
  const told = `${name}: ${spec.help}`, label = isFlag ? made('label', field, ` ${told}`) : made('label', told, field);
  label.className = isFlag ? 'wide tick' : 'wide';
  return label;
}

/** Makes the text of the fields that are filled in. It is kept beside the field for the text, which would change its line ends. */
function fill() {
  const values = {};
  for (const field of on('fields').querySelectorAll('[name]')) values[field.name] = field.type === 'checkbox' ? field.checked : field.value;
  [content, fault] = ['', ''];
  try {
    content = contentText(on('kind').value, values);
  } catch (error) {
    if (!(error instanceof ContentError)) throw error;
    fault = `No symbol: ${error.message}.`;
  }
  on('text').value = content;
}

/** Shows the fields of the kind of input that is chosen, if it is a content. */
function showFields() {
  const kind = on('kind').value, isFilled = isContent(kind);
  // (the page has payments in UTF-8 alone)
  const specs = isFilled ? Object.entries(KINDS[kind].fields).filter(([name, spec]) => !spec.made && name !== 'charset') : [];
  on('fields').replaceChildren(...specs.map(([name, spec]) => fieldOf(name, spec)));
  on('fields').hidden = !isFilled;
  on('text').readOnly = isFilled;
  [content, fault] = [null, ''];
  if (isFilled) fill();
}

/** Returns an input of a kind, and its rule, as encode takes them. */
function askedOf(text, kind) {
  const options = { kanji: { rule: 'with_kanji' }, payment: { eci: PAYMENT.eci } };
  return [kind === 'gs1' ? { gs1: text } : text, options[kind] ?? {}];
}

/** Returns whether an error says why a text has no symbol. */
function isRefusal(error) {
  return [QRError, TypeError, EciError, Gs1Error].some((kind) => error instanceof kind);
}

function lengthOf(length) {
  return `${length.toLocaleString('en')} ${length === 1 ? 'byte' : 'bytes'}`;
}

function sentenceOf(error, text) {
  const isText = on('kind').value === 'text', choice = on('level').value === 'L' ? 'a series' : 'a lower level, or a series';
  const has = isText ? `The text has ${lengthOf(new TextEncoder().encode(text).length)} and` : 'The input';
  if (error instanceof TooLongError) return `${has} does not fit one symbol at this level. Choose ${choice}.`;
  if (error instanceof TooManyError) return `${has} takes more than 16 symbols of this version. Choose a larger one.`;
  return `No symbol: ${error.message}.`;
}

function factsOf(margin) {
  const [{ version, side, mask, level }] = symbols, length = symbols.reduce((sum, it) => sum + read(it).data.length, 0);
  const what = symbols.length > 1 ? `${symbols.length} symbols of version ${version}-${level}` : `Version ${version}-${level}`;
  const facts = [what, `${side} × ${side} modules`, ...(mask === null ? [] : [`mask ${mask}`]), lengthOf(length)];
  const ofMargin = margin < 4 ? ['Scanners need a margin of 4 modules.'] : [];
  const warnings = on('warn').checked ? [...ofMargin, ...smallOf(numberIn('mm') / (side + 2 * margin))] : [];
  return [`${facts.join(', ')}.`, ...warnings].join(' ');
}

/** Returns what is to be said of the width of a module in millimetres; 0 is not known. */
function smallOf(module) {
  const isSmall = module > 0 && module < MODULE_LEAST;
  // rounded down, so that it is under the limit that is named
  return isSmall ? [`A module is ${(Math.floor(1000 * module) / 1000).toFixed(3)} mm wide: under ${MODULE_LEAST} mm few scanners read it.`] : [];
}

/** Returns what readers are told of the characters of a text; empty for ASCII and for GS1 data. */
function ofCharacters(text, kind) {
  if (kind === 'gs1' || kind === 'payment' || /^[\0-\x7f]*$/.test(text)) return '';
  return kind !== 'kanji' ? 'The symbol says by an ECI header that the text is UTF-8. Old scanners may show other letters: try yours.'
    : 'The text is in Shift JIS, and the symbol does not say so: scanners that do not expect it may show other letters.';
}

// The formats that the page saves: what a file is called, and its type.
const FORMATS = {
  svg: ['SVG', 'svg', 'image/svg+xml'],
  png: ['PNG', 'png', 'image/png'],
  pdf: ['PDF', 'pdf', 'application/pdf'],
  eps: ['EPS', 'eps', 'application/postscript'],
  pbm: ['PBM', 'pbm', 'image/x-portable-bitmap'],
  zpl: ['ZPL', 'zpl', 'application/octet-stream'],
  tspl: ['TSPL', 'tspl', 'application/octet-stream'],
  escpos: ['ESC/POS', 'bin', 'application/octet-stream'],
};
const PRINTERS = ['zpl', 'tspl', 'escpos'];

/** Returns whether a list of formats has a printer's chosen. */
function isForPrinter(id) {
  return PRINTERS.includes(on(id).value);
}

/** Returns the least and the greatest of numbers as a text: one of them if they are shown alike. */
function rangeOf(numbers) {
  const ends = [Math.min, Math.max].map((one) => Number(numbers.reduce((it, other) => one(it, other)).toFixed(3)));
  return ends[0] === ends[1] ? `${ends[0]}` : `${ends[0]} to ${ends[1]}`;
}

function shownLength(lengths) {
  return `${rangeOf(lengths)} mm`;
}

function dotsOf(scales) {
  return `${rangeOf(scales)} ${scales.every((it) => it === 1) ? 'dot' : 'dots'}`;
}

/** Returns how many dots of a printer a module of a symbol has if it is at most so wide, or without a width 4, and how wide it then is. */
function printedSizeOf(symbol, mm, dpi, margin) {
  if (mm !== null) return symbol.printedSize({ mm, dpi, margin });
  return { scale: 4, mm: 4 * (symbol.side + 2 * margin) * 25.4 / dpi };
}

/** Returns sentences that say how large the symbols are in the chosen format, and what scanners may not read. */
function factsOfFile(symbol, margin) {
  const modules = symbol.side + 2 * margin, mm = numberIn('mm');
  if (isForPrinter('format')) {
    const { scale, mm: width } = printedSizeOf(symbol, mm, numberIn('dpi'), margin);
    const told = `A module is ${dotsOf([scale])} wide, and the symbol with its margin ${shownLength([width])}.`;
    return [told, ...(on('warn').checked ? smallOf(width / modules) : [])].join(' ');
  }
  if (on('format').value === 'pbm') return `The image is ${modules * (numberIn('scale') ?? 8)} pixels wide. A PBM has no width in mm.`;
  // a module has whole micrometres
  return `The symbol with its margin is ${shownLength([mm === null ? modules : modules * Math.round(1000 * mm / modules) / 1000])} wide.`;
}

/** Shows how large the symbols are in the chosen format. */
function showFile() {
  const margin = numberIn('margin');
  on('dpi-name').hidden = !isForPrinter('format');
  on('save-file').textContent = `Download ${FORMATS[on('format').value][0]}`;
  on('save-file').disabled = symbols.length === 0;
  try {
    if (symbols.length === 0) say(on('file-facts'), '', 'wide');
    else if (isForPrinter('format') && numberIn('dpi') === null) throw new TypeError('A printer has from 1 to 100,000 dots an inch');
    else say(on('file-facts'), factsOfFile(symbols[0], margin), 'wide');
  } catch (error) {
    if (!isRefusal(error)) throw error;
    say(on('file-facts'), `${error.message}.`, 'wide fault');
    on('save-file').disabled = true;
  }
}

/** Takes the file that is chosen as the logo. */
async function takeLogo() {
  const [file] = on('logo').files;
  [logo, logoFault] = [null, ''];
  try {
    if (file && !LOGO_TYPES.includes(file.type)) throw new TypeError(file.type);
    const opened = file ? { bytes: new Uint8Array(await file.arrayBuffer()), image: await imageOf(file) } : null;
    // (another file may have been chosen since)
    if (on('logo').files[0] === file) logo = opened;
  } catch {
    logoFault = `${file.name} is no PNG or SVG file that this browser shows.`;
  }
  show();
}

function removeLogo() {
  on('logo').value = '';
  takeLogo();
}

/** Returns whether the symbol has a logo: neither a series has one, nor a payment, whose level is fixed. */
function hasLogo() {
  return logo !== null && !on('series').checked && on('kind').value !== 'payment';
}

/** Returns the options of svg that draw the logo. */
function drawnLogo() {
  return hasLogo() ? { logo: logo.bytes } : {};
}

/** Draws the symbol of the text that is in the field now. */
function show() {
  const text = content ?? on('text').value, version = Number(on('version').value), margin = numberIn('margin'), isPayment = on('kind').value === 'payment';
  const { level, boost } = isPayment ? PAYMENT : { level: on('level').value, boost: on('boost').checked };
  const [input, rule] = askedOf(text, on('kind').value);
  symbols = [];
  try {
    if (text === '') say(on('facts'), fault || 'Type a text.', fault && 'fault');
    else if (margin === null) say(on('facts'), 'The margin is a number from 0 to 100.', 'fault');
    else if (!on('mm').validity.valid) say(on('facts'), 'The width is a number from 1 to 1000.', 'fault');
    else if (hasLogo() && numberIn('logo-side') === null) say(on('facts'), 'The side of the logo is from 1 to 60 % of the symbol.', 'fault');
    else {
      const place = hasLogo() ? { logo: numberIn('logo-side') / 100 } : {};
      symbols = on('series').checked ? encodeSeries(input, { version, level, ...rule }) : [encode(input, { version, level, boost, ...place, ...rule })];
      const drawings = symbols.map((it) => it.svg({ margin, quiet: true, inline: true, ...drawnLogo() }));
      on('drawing').replaceChildren(...drawings.map((it, k) => figureOf(it, text, symbols.length > 1 ? `${k + 1} of ${symbols.length}` : '')));
      say(on('facts'), factsOf(margin));
    }
  } catch (error) {
    if (!isRefusal(error)) throw error;
    symbols = [];
    say(on('facts'), sentenceOf(error, text), 'fault');
  }
  if (symbols.length === 0) on('drawing').replaceChildren();
  if (logoFault) say(on('facts'), logoFault, 'fault');
  on('logo').disabled = on('series').checked || isPayment;
  on('logo-side').disabled = on('logo').disabled;
  on('logo-buttons').hidden = logo === null && !logoFault;
  on('letters').textContent = ofCharacters(text, on('kind').value);
  on('letters').hidden = on('letters').textContent === '';
  // with a logo the symbol has the highest level
  on('boost').disabled = on('series').checked || isPayment || hasLogo();
  on('level').disabled = isPayment;
  on('version-name').textContent = on('series').checked ? 'Version of each' : 'Version, at least';
  on('drawing').style.setProperty('--mm', `${numberIn('mm') ?? 60}mm`);
  on('drawing').classList.toggle('many', symbols.length > 1);
  for (const id of ['save-svg', 'save-png', 'copy', 'print-symbol']) on(id).disabled = symbols.length === 0;
  on('copy').disabled ||= symbols.length > 1;
  showFile();
}

/** Saves parts, of bytes or of text, as a file. */
function save(name, type, parts) {
  const link = document.createElement('a');
  link.href = URL.createObjectURL(new Blob(parts, { type }));
  link.download = name;
  link.click();
  setTimeout(() => URL.revokeObjectURL(link.href), 60000);
}

/** Returns the document of all symbols, one below the other, with the width that is wanted. */
function svgOf() {
  const mm = numberIn('mm'), margin = numberIn('margin');
  if (hasLogo()) return symbols[0].svg({ margin, mm: mm ?? undefined, quiet: true, ...drawnLogo() });
  return mm === null ? draw(symbols, { type: 'SVG', margin }) : new TextDecoder().decode(documentOf(symbols, { type: 'svg', margin, mm, quiet: true }));
}

function saveDocument() {
  save('symbol.svg', 'image/svg+xml', [svgOf()]);
}

/** Returns the image of the symbol with its logo as a PNG file. It is drawn on a canvas, which does not say how wide it is in mm. */
function pngWithLogo(scale, margin) {
  const canvas = document.createElement('canvas');
  symbols[0].toCanvas(canvas, { scale, margin, quiet: true, logo: logo.image });
  return Uint8Array.from(atob(canvas.toDataURL('image/png').split(',')[1]), (it) => it.charCodeAt(0));
}

function pngs() {
  const scale = numberIn('scale');
  if (scale === null) say(on('facts'), 'A module has from 1 to 100 pixels on a side.', 'fault');
  const margin = numberIn('margin'), mm = numberIn('mm') ?? undefined;
  if (scale === null) return [];
  return hasLogo() ? [pngWithLogo(scale, margin)] : symbols.map((it) => it.png({ scale, margin, mm, quiet: true }));
}

/** Saves a file of the symbols, or one of each of them. */
function saveFiles(format, files) {
  const [, ending, type] = FORMATS[format];
  files.forEach((file, k, all) => save(all.length > 1 ? `symbol-${k + 1}-of-${all.length}.${ending}` : `symbol.${ending}`, type, [file]));
}

function saveImages() {
  saveFiles('png', pngs());
}

/** Returns files of the symbols in the chosen format. */
function filesOf(type) {
  const margin = numberIn('margin'), mm = numberIn('mm') ?? undefined, scale = numberIn('scale') ?? 8;
  if (type === 'pbm') return symbols.map((it) => it.pbm({ scale, margin, quiet: true }));
  if (!PRINTERS.includes(type)) return [documentOf(symbols, { type, margin, mm, quiet: true })];
  const sizes = { margin, mm, dpi: numberIn('dpi'), quiet: true };
  return [labels(symbols, { type, ...sizes })];
}

function saveFile() {
  saveFiles(on('format').value, filesOf(on('format').value));
}

/**
 * Puts the image into the clipboard; where the browser lets no page do so, the SVG document as a text. A page that a server sends over
 * plain HTTP has no clipboard at all.
 */
async function copy() {
  const [png] = pngs();
  if (!png) return;
  try {
    await navigator.clipboard.write([new ClipboardItem({ 'image/png': new Blob([png], { type: 'image/png' }) })]);
    say(on('facts'), 'The image is in the clipboard.', 'good');
  } catch {
    try {
      await navigator.clipboard.writeText(svgOf());
      say(on('facts'), 'The SVG document is in the clipboard, as a text.', 'good');
    } catch {
      say(on('facts'), 'The browser does not let this page copy: download the image.', 'fault');
    }
  }
}

// ---- a sheet of labels

/*
 * A list may have thousands of lines. So only what is seen is drawn: the sheet consists of blocks, which are the sheets of label paper or some
 * rows of labels, and a block that is far from the window is empty. Lines are encoded in slices of time, those that are seen first.
 */
const FEW = 200; // labels, which are always drawn, and at once
const IN_BLOCK = 60; // labels of a block without label paper, at least
const NEAR = 1200; // pixels above and below the window, in which blocks are drawn
const SLICE = 25; // milliseconds, after which keys are looked at
const MM = 1000; // micrometres of a millimetre

let entries = new Map(); // what is known of each line: its text, its caption, and its symbol or the error that it has none
let settingsOfEntries = ''; // the settings by which they were encoded
let texts = []; // the lines as they are in the field, and the entry of each, or null for an empty line
let entriesOfTexts = [];
let lines = []; // those that are not empty, each with its number and its entry
let blocks = []; // each is an element with its labels, and is drawn or empty
let waiting = null; // the timer of the next slice

/** Returns the text of a line, and its caption: what stands after a tab, or the text. */
function partsOf(line) {
  const [text, ...caption] = line.split('\t');
  return [text, caption.length ? caption.join(' ') : text];
}

/** Returns the symbol of a line's text, as the fields of the sheet ask for it. */
function symbolOf(text, version = 1) {
  const [input, rule] = askedOf(text, on('sheet-kind').value);
  return encode(input, { version, level: on('sheet-level').value, boost: on('sheet-boost').checked, ...rule });
}

/** Encodes the line of an entry, unless that was done. */
function encodeLine(entry) {
  if (entry.symbol || entry.error) return;
  try {
    if (entry.text.trim() === '') throw new TypeError('it has no text before its tab');
    entry.symbol = symbolOf(entry.text);
  } catch (error) {
    if (!isRefusal(error)) throw error;
    entry.error = error;
  }
}

/** Returns what is known of a line, or null for an empty one. */
function entryOfLine(line) {
  if (line.trim() === '') return null;
  if (!entries.has(line)) {
    const [text, caption] = partsOf(line);
    entries.set(line, { text, caption: on('captions').checked ? caption : '' });
  }
  return entries.get(line);
}

/** Reads the lines. What is known of a line that was there before stays known, and only lines between the first and the last change are looked up. */
function readLines() {
  const settings = ['sheet-level', 'sheet-kind'].map((id) => on(id).value).concat(on('sheet-boost').checked, on('captions').checked).join(' ');
  const now = on('lines').value.split('\n'), most = Math.min(now.length, texts.length);
  if (settings !== settingsOfEntries || entries.size > 2 * now.length + FEW) {
    const before = settings === settingsOfEntries ? entries : new Map();
    entries = new Map(now.filter((it) => before.has(it)).map((it) => [it, before.get(it)]));
    [settingsOfEntries, texts, entriesOfTexts] = [settings, [], []];
    return readLines();
  }
  let first = 0, last = 0;
  while (first < most && now[first] === texts[first]) first += 1;
  while (last < most - first && now[now.length - 1 - last] === texts[texts.length - 1 - last]) last += 1;
  const changed = now.slice(first, now.length - last).map(entryOfLine);
  entriesOfTexts = [...entriesOfTexts.slice(0, first), ...changed, ...entriesOfTexts.slice(texts.length - last)];
  [texts, lines] = [now, []];
  entriesOfTexts.forEach((entry, k) => {
    if (entry) lines.push({ line: k + 1, entry });
  });
}

/** Returns the lines that are not encoded. */
function unknownLines() {
  return lines.filter(({ entry }) => !entry.symbol && !entry.error);
}

const SIZES = ['columns', 'rows', 'across', 'down', 'left', 'top']; // of label paper
const OPTIONAL_SIZES = { 'label-width': 'labelWidth', 'label-height': 'labelHeight' };

/** Returns the label paper that the fields describe, as sheetsOf takes it, or null if a size is out of range. */
function paperOfFields() {
  const sheet = Object.fromEntries(SIZES.map((id) => [id, numberIn(id)])), place = numberIn('place');
  const isWrong = Object.keys(OPTIONAL_SIZES).some((id) => !on(id).validity.valid);
  if (Object.values(sheet).includes(null) || isWrong || place === null || place > sheet.columns * sheet.rows) return null;
  for (const [id, name] of Object.entries(OPTIONAL_SIZES)) sheet[name] = numberIn(id) ?? 0;
  const [width, height] = PAPER_DATA.sizes[on('paper-size').value];
  return { width, height, ...sheet, first: place - 1 };
}

/** Returns what is wrong with the fields of label paper, if the paper has no place of this number or a size is out of range. */
function faultOfPaper() {
  const places = (numberIn('columns') ?? 0) * (numberIn('rows') ?? 0), place = numberIn('place');
  return places > 0 && (place === null || place > places) ? `The place of the first label is from 1 to ${places}` : 'A size of the label paper is out of range';
}

/** Returns how wide and high a label is, in micrometres. */
function labelOf(sheet) {
  const whole = (mm) => Math.round(MM * mm);
  return {
    wide: roomOf(whole(sheet.width), whole(sheet.left), sheet.columns, whole(sheet.across), whole(sheet.labelWidth)),
    high: roomOf(whole(sheet.height), whole(sheet.top), sheet.rows, whole(sheet.down), whole(sheet.labelHeight)),
  };
}

const WIDTH_LEAST = SYMBOL_MIN / MM; // mm of a symbol on a sheet

/** Returns the lines of the caption of an entry on labels that are so wide. */
function linesOnLabel(entry, wide) {
  if (entry.wide !== wide) [entry.wide, entry.lines] = [wide, linesOf(entry.caption, wide - 2 * FREE_ACROSS)];
  return entry.lines;
}

/** Returns how labels are laid out on label paper, as sheetsOf does it: how wide symbols are, in micrometres, and which labels have no room. */
function layoutOf(sheet, list, wanted) {
  const { wide, high } = labelOf(sheet), shown = [], crowded = [];
  let most = 0, narrow = 0;
  for (const it of list) {
    const { length } = linesOnLabel(it.entry, wide), room = roomOfLabel(wide, high, length);
    if (room < (length ? SYMBOL_MIN : MM)) crowded.push(it);
    else {
      shown.push(it);
      most = Math.max(most, length);
      narrow += Number(room < wanted);
    }
  }
  return { sheet, wide, high, shown, crowded, narrow, most, size: Math.min(wanted, roomOfLabel(wide, high, most)) };
}

/** Returns what is to be said of symbols for which label paper has not as much room as is wanted. */
function narrowOf({ narrow, size }, wanted) {
  if (narrow === 0) return [];
  const which = narrow === 1 ? '1 symbol with its caption does' : `${narrow} symbols with their captions do`;
  // rounded down, so that the width that is named fits
  return [`${which} not fit a label at ${wanted / MM} mm, so all are drawn ${Math.floor(size / 100) / 10} mm wide.`];
}

/** Returns a figure of a label. On label paper all of its lengths are those of the layout. */
function figureOfLabel(entry, layout) {
  const figure = figureOf(entry.symbol.svg({ inline: true }), entry.text, layout ? entry.lines.join('\n') : entry.caption);
  if (!layout) return figure;
  const { wide, high, size, most } = layout, top = (high - size - most * LINE) / 2, [svg, caption] = figure.children, mm = (length) => `${length / MM}mm`;
  Object.assign(figure.style, { width: mm(wide), height: mm(high) });
  Object.assign(svg.style, { left: mm((wide - size) / 2), top: mm(top), width: mm(size), height: mm(size) });
  if (caption) Object.assign(caption.style, { left: mm(FREE_ACROSS), top: mm(top + size), width: mm(wide - 2 * FREE_ACROSS) });
  return figure;
}

/** Draws the labels of a block. A figure that a block had before is taken anew. */
function drawBlock(block, before = new Map()) {
  if (block.isDrawn) return;
  block.isDrawn = true;
  if (!block.layout) block.element.style.minHeight = '';
  const { columns, rows, first } = block.layout?.sheet ?? {};
  block.list.forEach(({ entry }) => encodeLine(entry));
  block.figures = block.list.filter(({ entry }) => entry.symbol).map(({ entry }, k) => {
    const figure = before.get(entry)?.pop() ?? figureOfLabel(entry, block.layout), place = (block.at + k + first) % (columns * rows);
    if (block.layout) figure.style.gridArea = `${Math.floor(place / columns) + 1} / ${place % columns + 1}`;
    return [entry, figure];
  });
  block.element.replaceChildren(...block.figures.map(([, figure]) => figure));
}

/** Empties a block, which stays as high as it is. */
function emptyBlock(block) {
  if (!block.isDrawn) return;
  if (!block.layout) block.element.style.minHeight = `${block.element.offsetHeight}px`;
  [block.isDrawn, block.figures] = [false, []];
  block.element.replaceChildren();
}

const seen = new IntersectionObserver((changes) => {
  for (const { target, isIntersecting } of changes) {
    const block = blocks.find(({ element }) => element === target);
    if (block) (isIntersecting || lines.length <= FEW ? drawBlock : emptyBlock)(block);
  }
}, { rootMargin: `${NEAR}px 0px` });

/** Draws the blocks that are near the window, and all of a short list. */
function drawSeen(before) {
  if (on('labels').hidden) return;
  for (const block of blocks) {
    const { top, bottom } = lines.length <= FEW ? { top: 0, bottom: 0 } : block.element.getBoundingClientRect();
    if (top > innerHeight + NEAR) break;
    if (bottom >= -NEAR) drawBlock(block, before);
  }
}

const GAP = 4; // mm between labels without label paper
const BELOW = 5; // mm that a caption is high, as is guessed before it is drawn

/** Returns how many labels a block has, and how high it is in millimetres before it is drawn. Without label paper it has whole rows. */
function formOfBlocks(layout) {
  if (layout) return { length: layout.sheet.columns * layout.sheet.rows, heightOf: () => 0 };
  if (lines.length <= FEW) return { length: FEW, heightOf: () => 0 };
  const width = numberIn('width') ?? WIDTH_LEAST, inside = on('sheet').clientWidth * 25.4 / 96 - 10, columns = Math.max(1, Math.floor((inside + GAP) / (width + GAP)));
  return { length: columns * Math.ceil(IN_BLOCK / columns), heightOf: (count) => Math.ceil(count / columns) * (width + BELOW + GAP) - GAP };
}

/** Shows labels in blocks. A block whose labels and layout stay stays as it is drawn. */
function layOut(list, layout) {
  const { length, heightOf } = formOfBlocks(layout), form = layout ? JSON.stringify([layout.sheet, layout.size, layout.most]) : `${length} ${numberIn('width')}`;
  const before = blocks, starts = [], firstLength = layout ? length - layout.sheet.first : length, figures = new Map();
  for (let at = 0; at < list.length; at += at === 0 ? firstLength : length) starts.push(at);
  blocks = starts.map((at, k) => {
    const its = list.slice(at, starts[k + 1]), old = before[k];
    if (old && old.form === form && old.list.length === its.length && old.list.every(({ entry }, place) => entry === its[place].entry)) {
      old.list = its;
      return old;
    }
    const element = old?.element ?? document.createElement('div');
    for (const [entry, figure] of old?.form === form ? old.figures : []) figures.set(entry, [...figures.get(entry) ?? [], figure]);
    element.className = layout ? 'paper' : 'block';
    element.style.minHeight = `${heightOf(its.length)}mm`;
    if (layout) for (const name of SIZES.slice(2)) element.style.setProperty(`--${name}`, `${layout.sheet[name]}mm`);
    if (layout) for (const name of SIZES.slice(0, 2)) element.style.setProperty(`--${name}`, layout.sheet[name]);
    if (old?.isDrawn) element.replaceChildren();
    return { element, list: its, at, form, layout, isDrawn: false, figures: [] };
  });
  on('sheet').classList.toggle('on-paper', layout !== null);
  if (before.length !== blocks.length || blocks.some(({ element }, k) => element !== before[k].element) || on('sheet').children.length !== blocks.length) {
    seen.disconnect();
    on('sheet').replaceChildren(...blocks.map(({ element }) => element));
    if (lines.length > FEW) for (const { element } of blocks) seen.observe(element);
  }
  drawSeen(figures);
}

/** Encodes lines for a while, and goes on later. What is said of the sheet is said anew at the end, or after each slice. */
function encodeSlice() {
  waiting = null;
  const end = performance.now() + SLICE, rest = unknownLines();
  for (const { entry } of rest) {
    if (performance.now() > end) break;
    encodeLine(entry);
  }
  arrange();
}

/** Encodes all lines now. */
function encodeAll() {
  for (const { entry } of unknownLines()) encodeLine(entry);
  arrange();
}

/** Returns the PDF documents of label paper. Each has whole sheets, but for the last one. */
function documentsOf({ sheet, shown, size }) {
  const version = shown.reduce((greatest, { entry }) => Math.max(greatest, entry.symbol.version), 1), places = sheet.columns * sheet.rows, files = [];
  const most = Math.floor(LIMITS.LABELS_MAX / places) * places;
  for (let at = 0, { first } = sheet; at < shown.length; first = 0) {
    const list = shown.slice(at, at + most - first);
    const symbols = list.map(({ entry }) => (entry.symbol.version === version ? entry.symbol : symbolOf(entry.text, version)));
    // a module has whole micrometres
    const modules = symbols[0].side + 8, mm = Math.floor(size / modules) * modules / MM;
    files.push(sheetsOf(symbols, { ...sheet, first }, { mm, captions: list.map(({ entry }) => entry.caption), quiet: true }));
    at += list.length;
  }
  return files;
}

/** Returns an image of a symbol, as bytes. */
function imageOfLabel(symbol, format, mm) {
  return format === 'svg' ? new TextEncoder().encode(symbol.svg({ mm, quiet: true })) : symbol.png({ scale: numberIn('scale') ?? 8, mm, quiet: true });
}

/** Saves the images of all lines that fit a symbol, each named by its line, or a file for a printer with a label for each of them. */
function saveAll() {
  encodeAll();
  const format = on('sheet-format').value, [, ending, kind] = FORMATS[format], mm = numberIn('width') ?? undefined;
  if (format === 'pdf') {
    documentsOf(layout).forEach((file, k, all) => save(all.length > 1 ? `labels-${k + 1}-of-${all.length}.pdf` : 'labels.pdf', kind, [file]));
    return;
  }
  if (isForPrinter('sheet-format')) {
    const all = allLabels.map(({ entry }) => entry.symbol);
    save(`labels.${ending}`, kind, [labels(all, { type: format, mm, dpi: numberIn('sheet-dpi'), quiet: true })]);
    return;
  }
  const named = (line) => `${String(line).padStart(5, '0')}.${ending}`;
  const files = allLabels.map(({ line, entry }) => ({ name: named(line), content: imageOfLabel(entry.symbol, format, mm) }));
  save('labels.zip', 'application/zip', zipOf(files));
}

/** Returns a symbol of each side. */
function symbolsBySide(list) {
  return [...new Map(list.map(({ entry }) => [entry.symbol.side, entry.symbol])).values()];
}

/** Returns sentences that say how large the symbols of all labels are on a printer, and what scanners may not read. */
function factsOfPrinter(list, mm, dpi) {
  const all = symbolsBySide(list), sizes = all.map((it) => printedSizeOf(it, mm, dpi, 4));
  const modules = sizes.map((it, k) => it.mm / (all[k].side + 8)), narrowest = modules.reduce((least, it) => Math.min(least, it));
  const told = `Modules are ${dotsOf(sizes.map(({ scale }) => scale))} wide, and symbols with their margins ${shownLength(sizes.map((it) => it.mm))}.`;
  return [told, ...(on('sheet-warn').checked ? smallOf(narrowest) : [])].join(' ');
}

/** Returns why a caption cannot be in a PDF, or null. */
function faultInPdf({ line, entry }) {
  if (entry.faultInPdf === undefined) {
    try {
      checkCaption(entry.caption);
      entry.faultInPdf = null;
    } catch (error) {
      if (!isRefusal(error)) throw error;
      entry.faultInPdf = error;
    }
  }
  return entry.faultInPdf && new TypeError(`Line ${line}: ${entry.faultInPdf.message}. Print the sheet instead`);
}

/** Shows how large the symbols of all labels are in the chosen format, or why there is no file. */
function showSheetFile() {
  const isPrinter = isForPrinter('sheet-format'), isPdf = on('sheet-format').value === 'pdf', facts = on('sheet-file-facts'), width = numberIn('width'), dpi = numberIn('sheet-dpi');
  on('sheet-dpi-name').hidden = !isPrinter;
  facts.hidden = !isPrinter && !isPdf;
  on('save-zip').disabled = allLabels.length === 0;
  try {
    if (facts.hidden || allLabels.length === 0) say(facts, '', 'wide');
    else if (isPdf) {
      if (layout === null) throw new TypeError(on('paper').checked ? faultOfPaper() : 'A PDF has sheets of label paper: choose it above');
      if (layout.shown.length === 0) throw new TypeError('No label has room for its symbol and its caption');
      const faulty = layout.shown.map(faultInPdf).find((it) => it !== null);
      if (faulty) throw faulty;
      say(facts, 'Symbols are all of the version of the largest.', 'wide');
    } else if (dpi === null) throw new TypeError('A printer has from 1 to 100,000 dots an inch');
    else say(facts, factsOfPrinter(allLabels, width, dpi), 'wide');
  } catch (error) {
    if (!isRefusal(error)) throw error;
    say(facts, `${error.message}.`, 'wide fault');
    on('save-zip').disabled = true;
  }
}

const NAMED = 20; // lines, at most, in a sentence

/** Returns numbers of lines as a text. */
function shownLines(numbers) {
  return `${numbers.slice(0, NAMED).join(', ')}${numbers.length > NAMED ? ` and ${numbers.length - NAMED} more` : ''}`;
}

/** Returns why lines have no label, in sentences. */
function faultsOf(refused, crowded) {
  const isLong = ({ entry }) => entry.error instanceof TooLongError, long = refused.filter(isLong).map(({ line }) => line), rest = refused.filter((it) => !isLong(it));
  return [
    ...(long.length ? [`Too long at this level: line ${shownLines(long)}.`] : []),
    ...(crowded.length ? [`No room on a label for a symbol of ${WIDTH_LEAST} mm with its caption: line ${shownLines(crowded.map(({ line }) => line))}.`] : []),
    ...rest.slice(0, NAMED).map(({ line, entry }) => `Line ${line}: ${entry.error.message}.`),
    ...(rest.length > NAMED ? [`${rest.length - NAMED} more lines have no label.`] : []),
  ];
}

let allLabels = []; // the labels of all lines, also of those that label paper has no room for
let layout = null; // that of label paper, or null without it

/** Returns what is to be said of the narrowest modules of symbols, which are so wide or, without label paper, as wide as is wanted. */
function smallestOf(list, width) {
  return smallOf(symbolsBySide(list).reduce((least, { side }) => Math.min(least, width / (side + 8)), Infinity));
}

/** Shows the lines that were read: their labels, and what is to be said of them. */
function arrange() {
  const width = numberIn('width'), isOnPaper = on('paper').checked, sheet = isOnPaper ? paperOfFields() : null, isInRange = !isOnPaper || sheet !== null;
  // what is not encoded yet has a place, as if it will have a symbol
  const list = lines.filter(({ entry }) => !entry.error);
  layout = sheet === null || width === null ? null : layoutOf(sheet, list, width * MM);
  if (width !== null) on('sheet').style.setProperty('--width', `${width}mm`);
  const shown = layout?.shown ?? list;
  layOut(shown, layout);
  // drawing has encoded lines, some of which may be refused
  const unknown = unknownLines().length, refused = lines.filter(({ entry }) => entry.error);
  if (refused.length + list.length > lines.length) return arrange();
  const known = shown.filter(({ entry }) => entry.symbol);
  allLabels = list.filter(({ entry }) => entry.symbol);
  on('print-sheet').disabled = known.length === 0 || !isInRange;
  const warnings = [...(layout ? narrowOf(layout, width * MM) : []), ...(on('sheet-warn').checked ? smallestOf(known, layout ? layout.size / MM : width) : [])];
  const count = shown.length.toLocaleString('en'), facts = [`${count} ${shown.length === 1 ? 'label' : 'labels'}.`, ...warnings], faults = faultsOf(refused, layout?.crowded ?? []);
  const rest = unknown ? [`${unknown.toLocaleString('en')} lines are not encoded yet.`] : [];
  if (width === null) say(on('sheet-facts'), `A symbol is from ${WIDTH_LEAST} to 180 mm wide.`, 'wide fault');
  else if (!isInRange) say(on('sheet-facts'), `${faultOfPaper()}.`, 'wide fault');
  else say(on('sheet-facts'), [...facts, ...rest, ...faults].join(' '), faults.length ? 'wide fault' : 'wide');
  showSheetFile();
  clearTimeout(waiting);
  waiting = unknown ? setTimeout(encodeSlice, 0) : null;
}

/** Shows the sheet of the lines that are in the field now. Those of a short list are encoded at once. */
function showSheet() {
  readLines();
  if (lines.length <= FEW) for (const { entry } of lines) encodeLine(entry);
  on('paper-sizes').hidden = !on('paper').checked;
  arrange();
}

/** Puts the numbers of a label paper into the fields. */
function fillPaper() {
  const name = on('paper-name').value;
  if (name === '') return;
  const { width, ...sheet } = paper(name);
  for (const id of SIZES) on(id).value = sheet[id];
  on('paper-size').value = Object.keys(PAPER_DATA.sizes).find((it) => PAPER_DATA.sizes[it][0] === width);
  // a label that goes on to the next one is as wide as the fields for the columns say
  on('label-width').value = sheet.labelWidth === sheet.across ? '' : sheet.labelWidth;
  on('label-height').value = sheet.labelHeight === sheet.down ? '' : sheet.labelHeight;
  on('place').value = 1;
}

// All labels are on paper, and after it only what is seen.
window.addEventListener('beforeprint', () => {
  if (on('labels').hidden) return;
  encodeAll();
  for (const block of blocks) drawBlock(block);
});
window.addEventListener('afterprint', () => {
  if (lines.length <= FEW) return;
  blocks.forEach(emptyBlock);
  drawSeen();
});

// ---- a drawing that is pasted

const REASONS = [
  [CheckError, 'some block has more damage than can be mended.'],
  [FormatError, 'the format information is lost.'],
  [SideError, 'no symbol has as many modules on a side.'],
];

function textOf(content) {
  try {
    return content.text();
  } catch (error) {
    const bytes = Array.from(content.data, (byte) => byte.toString(16).padStart(2, '0')).join(' ');
    const characters = content.ecis.length ? 'characters of their ECI' : content.kanji && !content.gs1 ? 'Shift JIS' : 'UTF-8';
    return `${bytes} (${error instanceof EciError ? error.message : `bytes that are no ${characters}`})`;
  }
}

/** Returns the fields of GS1 data, one a line, or why they are none. */
function fieldsOfLabel(content) {
  try {
    return content.fields().map(([identifier, value]) => made('div', `(${identifier}) ${value}`));
  } catch (error) {
    if (!(error instanceof Gs1Error)) throw error;
    return [`Not as GS1 has them: ${error.message}.`];
  }
}

/** Returns rows that say how the bytes of a content are to be interpreted: none for most symbols. */
function interpretationOf(content) {
  const ecis = content.ecis.map(({ begin, number }) => (begin === 0 ? `${number}` : `${number} from byte ${begin} on`)).join(', ');
  return [
    ...(ecis ? [['ECI', [ecis]]] : []),
    ...(content.gs1 ? [['GS1 fields', fieldsOfLabel(content)]] : []),
    ...(content.application !== null ? [['Application', [content.application]]] : []),
  ];
}

/** Returns the damage of a symbol in words. */
function damageOf(found, modules) {
  const unknown = modules.filter((module) => module === 2).length, wrong = found.wrongModules - unknown;
  if (found.isSound) return 'None: every module is right.';
  const counts = [[wrong, 'wrong'], [unknown, 'not known']].filter(([count]) => count > 0);
  return `${counts.map(([count, what]) => `${count} ${count === 1 ? 'module is' : 'modules are'} ${what}`).join(', ')}.`;
}

/** Returns a share as percents, rounded up, as `qrproved check` does: of whole numbers, so that no fraction is lost. */
function percentOf(part, whole) {
  return Math.ceil(100 * part / whole);
}

/** Returns what a shop has to know of a label, as `qrproved check` says it, and how good that is. */
function verdictOf({ isSound, scannable, worstMisread, worstUnknown, changedAllowed }, { isMirrored }) {
  const wrong = worstMisread + worstUnknown, spent = `${percentOf(wrong, changedAllowed)} % of its correction spent`;
  if (isSound) return isMirrored ? ['Readable', ''] : ['Sound', 'good'];
  if (scannable) return [`Readable, ${spent}`, ''];
  return [`Read here, but scanners will not: ${wrong > changedAllowed ? spent : 'its format information is damaged too much'}`, 'fault'];
}

/** Returns how much of the correction is spent, for a scanner and here. */
function spentOf({ spent, spentMost, worstMisread, worstUnknown, changedAllowed }) {
  const meter = document.createElement('meter');
  Object.assign(meter, { min: 0, max: 1, low: 0.5, high: 0.75, optimum: 0, value: spent });
  meter.setAttribute('aria-label', 'Correction that is spent');
  const wrong = worstMisread + worstUnknown, count = `${wrong} ${wrong === 1 ? 'codeword is' : 'codewords are'} wrong${worstUnknown ? ' or not known' : ''}`;
  const scanner = `${percentOf(wrong, changedAllowed)} % for a scanner: in the most damaged block ${count}, and ${changedAllowed} may be.`;
  const here = `${percentOf(spentMost, 2 * changedAllowed)} % here, where a codeword that is not known counts half.`;
  return [[scanner, ...(spentMost < 2 * wrong ? [here] : [])].join(' '), meter];
}

/** Returns how a symbol of a picture looks other than most symbols. */
function looksOf({ isMirrored, isInverse }) {
  const looks = [...(isMirrored ? ['mirrored'] : []), ...(isInverse ? ['light on dark'] : [])];
  return looks.length ? [['Looks', [`It is ${looks.join(' and ')}, which not every scanner reads.`]]] : [];
}

/** Returns whether a square that cannot be read is that of a symbol with rows and columns exchanged. */
function isTransposed({ modules, side }) {
  try {
    mend(modules.map((_, place) => modules[place % side * side + Math.floor(place / side)]));
    return true;
  } catch (error) {
    if (!(error instanceof QRError)) throw error;
    return false;
  }
}

/** Returns what a square contains, as an element: a list, or a paragraph that says why it cannot be read. */
function contentOf(square) {
  const { modules } = square;
  try {
    const found = mend(square instanceof Found ? square : modules), { version, header } = found.content;
    const place = header ? `, ${header.position + 1} of ${header.last + 1} of a series` : '';
    const [verdict, kind] = verdictOf(found, square);
    const rows = [
      ['Verdict', [`${verdict}.`]],
      ['Contains', [textOf(found.content)]],
      ...interpretationOf(found.content),
      ['Symbol', [`Version ${version}-${found.level}, mask ${found.mask}${place}`]],
      ['Damage', [damageOf(found, modules)]],
      ['Spent', spentOf(found)],
      ...looksOf(square),
    ];
    const list = made('dl', ...rows.flatMap(([name, inside]) => [made('dt', name), made('dd', ...inside)]));
    list.className = kind;
    return list;
  } catch (error) {
    if (!(error instanceof QRError)) throw error;
    const [, reason] = REASONS.find(([kind]) => error instanceof kind) ?? [null, 'what it says cannot be parsed.'];
    // (of a picture a symbol that is mirrored is read)
    const isOther = !(square instanceof Found) && isTransposed(square);
    const paragraph = made('p', `Not readable: ${isOther ? 'the symbol is mirrored.' : reason}`);
    paragraph.className = 'fault';
    return paragraph;
  }
}

let shows = 0; // how often squares were shown

/** Says what each of several squares contains. */
function tellContents(squares) {
  say(on('found'), '');
  on('found').append(...squares.flatMap((square, k) => [...(squares.length > 1 ? [made('h2', `${k + 1} of ${squares.length}`)] : []), contentOf(square)]));
}

/** Shows squares that were found, and what each contains. */
function showSquares(squares) {
  shows += 1;
  const caption = (k) => (squares.length > 1 ? `${k + 1} of ${squares.length}` : '');
  on('found-drawing').replaceChildren(...squares.map((square, k) => figureOf(picture(square), 'what was found', caption(k))));
  on('found-drawing').classList.toggle('many', squares.length > 1);
  tellContents(squares);
}

/** Returns the squares of which a text is exactly the drawing; or null. */
function squaresOfDrawing(text) {
  try {
    return parseDrawing(text).squares.map((modules) => ({ modules, side: Math.sqrt(modules.length) }));
  } catch (error) {
    if (!(error instanceof NoDrawingError)) throw error;
    return null;
  }
}

function showFound() {
  closeCamera();
  const drawing = on('pasted').value, exact = squaresOfDrawing(drawing), squares = exact ?? squaresInText(drawing);
  showSquares(squares);
  if (!exact) on('found').append(made('p', 'Found by its look: the text is damaged, or another program drew it.'));
  if (drawing.trim() === '') say(on('found'), 'Paste a drawing.');
  else if (squares.length === 0) say(on('found'), 'There is no square with 21, 25, and so on to 177 modules on a side.', 'fault');
}

// ---- an image

const PIXELS_MAX = 4000; // on a side of an image; a larger one is made smaller
const SVG_PIXELS = 1600; // of the width of an SVG document, which may have no size

/** Returns an image element of an SVG document. */
async function imageOfDocument(file) {
  const image = new Image();
  image.src = `data:image/svg+xml,${encodeURIComponent(await file.text())}`;
  await image.decode();
  return image;
}

/** Returns the pixels of a file. */
async function pixelsOf(file) {
  const isDocument = file.type === 'image/svg+xml', image = await (isDocument ? imageOfDocument(file) : createImageBitmap(file));
  const size = [image.naturalWidth ?? image.width, image.naturalHeight ?? image.height].map((it) => it || SVG_PIXELS);
  const scale = Math.min(isDocument ? SVG_PIXELS / size[0] : 1, PIXELS_MAX / Math.max(...size));
  const [width, height] = size.map((it) => Math.max(1, Math.round(it * scale)));
  const context = Object.assign(document.createElement('canvas'), { width, height }).getContext('2d');
  context.drawImage(image, 0, 0, width, height);
  return context.getImageData(0, 0, width, height);
}

/** Shows what the symbols of an image contain, unless something else was shown while the file was opened. */
async function showImage(file) {
  if (!file) return;
  closeCamera();
  showSquares([]);
  const before = shows;
  // An SVG document that the library has drawn is parsed; others are read as images.
  const exact = file.type === 'image/svg+xml' ? squaresOfDrawing(await file.text()) : null;
  const pixels = exact ? null : await pixelsOf(file).catch(() => null);
  if (shows !== before) return;
  if (exact) return showSquares(exact);
  if (!pixels) return say(on('found'), 'Not readable: this browser cannot open the file as an image.', 'fault');
  const squares = find(pixels, { unread: true });
  if (squares.length === 0) return say(on('found'), 'Not readable: no symbol is found in the picture.', 'fault');
  return showSquares(squares);
}

/** Takes an image that is dropped or pasted, while labels are checked; and any other file that is dropped, to say that it is none. */
function takeImage(event, given) {
  const files = [...given?.files ?? []];
  const file = files.find((it) => it.type.startsWith('image/')) ?? (event.type === 'drop' ? files[0] : undefined);
  if (!file || on('check').hidden) return;
  event.preventDefault();
  showImage(file);
}

/** Returns a drawing of a square in which unknown modules are grey. */
function picture({ side, modules }) {
  const places = (wanted) => [...modules.keys()].filter((place) => modules[place] === wanted)
    .map((place) => `M${place % side + 2} ${Math.floor(place / side) + 2}h1v1h-1z`).join('');
  return `<svg xmlns="http://www.w3.org/2000/svg" viewBox="0 0 ${side + 4} ${side + 4}" shape-rendering="crispEdges">`
    + `<path d="${places(1)}"/><path fill="#c2410c" fill-opacity=".55" d="${places(2)}"/></svg>`;
}

/** Pastes the drawing of a label on which a spot is smudged and a corner is wrong. */
function pasteSample() {
  const lines = encode('Shelf 12, crate 7', { level: 'M', boost: false }).text({ type: 'ASCII' }).split('\n');
  const smudged = lines.map((line, row) => (row > 17 && row < 21 ? `${line.slice(0, 36)}??????${line.slice(42)}` : line));
  smudged[24] = `${smudged[24].slice(0, -10)}${smudged[24].slice(-10, -8) === '##' ? '  ' : '##'}        `;
  on('pasted').value = smudged.join('\n');
  showFound();
}

// ---- the camera

let scan = null; // what closes the camera, while it is open or the browser asks whether it may be
let scanned = []; // the best square of each label that the camera has seen lately

/** Marks the symbols of a frame, and writes below each what it contains. */
function mark(squares) {
  const { videoWidth: width, videoHeight: height } = on('film'), size = width / 32;
  const drawn = (tag, attributes, text) => {
    const element = document.createElementNS('http://www.w3.org/2000/svg', tag);
    for (const [name, value] of Object.entries(attributes)) element.setAttribute(name, value);
    element.textContent = text;
    return element;
  };
  on('marks').setAttribute('viewBox', `0 0 ${width} ${height}`);
  on('marks').replaceChildren(...squares.flatMap((square) => {
    const [xs, ys] = [0, 1].map((k) => square.corners.map((it) => it[k])), text = textOf(mend(square).content).slice(0, MOST_MARKED);
    const place = { x: Math.min(...xs), y: Math.min(Math.max(...ys) + 1.5 * size, height - size / 2), 'font-size': size };
    return [drawn('polygon', { points: square.corners.join(' ') }, ''), drawn('text', place, text)];
  }));
}

/** Closes the camera, for a fault if there is one. What it has seen stays. */
function closeCamera(fault = '') {
  if (!scan) return;
  scan.abort();
  scan = null;
  on('film').srcObject = null;
  on('camera').hidden = true;
  on('check').classList.remove('scanning');
  on('scan').textContent = 'Scan a printed label';
  showSquares(scanned);
  if (fault) on('found').append(Object.assign(made('p', fault), { className: 'fault' }));
  else if (scanned.length === 0) say(on('found'), 'The camera has seen no label that can be read.');
}

/** Opens the camera, and shows what is on labels until it is closed. */
async function openCamera() {
  const mine = new AbortController(), labels = new Labels();
  [scan, scanned] = [mine, []];
  on('scan').textContent = 'Close the camera';
  showSquares([]);
  mark([]);
  on('camera').hidden = false;
  on('check').classList.add('scanning');
  say(on('found'), 'Hold a label before the camera.');
  try {
    for await (const squares of squaresSeen(on('film'), mine.signal)) {
      if (mine.signal.aborted) return;
      const before = scanned;
      mark(squares);
      // what was seen last stays until another label is seen
      if (squares.length > 0) scanned = labels.take(squares, performance.now());
      if (scanned.length !== before.length || scanned.some((it, k) => it !== before[k])) tellContents(scanned);
    }
  } catch (error) {
    if (mine.signal.aborted) return;
    const isNone = error instanceof CameraError;
    closeCamera(isNone ? `No camera: ${error.message}. You can choose a photograph of the label instead.` : '');
    if (!isNone) throw error;
  }
}

// ---- the tabs

const TABS = [...document.querySelectorAll('[role=tab]')];

function choose(tab) {
  for (const it of TABS) {
    it.setAttribute('aria-selected', it === tab);
    it.tabIndex = it === tab ? 0 : -1;
    on(it.getAttribute('aria-controls')).hidden = it !== tab;
  }
  if (!on('labels').hidden) arrange();
  if (on('check').hidden) closeCamera();
}

for (const tab of TABS) {
  tab.addEventListener('click', () => choose(tab));
  tab.addEventListener('keydown', ({ key }) => {
    const at = TABS.indexOf(tab), places = { ArrowRight: (at + 1) % TABS.length, ArrowLeft: at - 1, Home: 0, End: -1 };
    if (!Object.hasOwn(places, key)) return;
    const next = TABS.at(places[key]);
    choose(next);
    next.focus();
  });
}

for (let version = 1; version <= 40; version++) {
  const side = 17 + 4 * version;
  on('version').append(new Option(`${version}, ${side} × ${side}`, version));
}
/**
 * Returns the text after the sign # of the address, as in index.html#text=Shelf%2012, which no server is told; or null. It goes on to the
 * end, since a text that is an address may have & and + itself.
 */
function textOfAddress() {
  const [, text] = /[#&]text=(.*)$/su.exec(location.hash) ?? [null, null];
  return text === null ? null : new URLSearchParams(`text=${text.replaceAll('&', '%26').replaceAll('+', '%2B')}`).get('text');
}

on('text').value = textOfAddress() ?? new URLSearchParams(location.search).get('text') ?? on('text').value;
window.addEventListener('hashchange', () => {
  if (isContent(on('kind').value)) on('kind').value = 'text';
  showFields();
  on('text').value = textOfAddress() ?? on('text').value;
  show();
});
on('kind').append(...Object.entries(KINDS).map(([kind, { help }]) => new Option(`${kind}: ${help}`, kind)));
showFields(); // a browser may have kept the kind of a page that is loaded again
on('kind').addEventListener('input', showFields);
on('fields').addEventListener('input', () => {
  fill();
  show();
});
for (const id of ['text', 'kind', 'level', 'version', 'margin', 'scale', 'mm', 'boost', 'series', 'warn']) on(id).addEventListener('input', show);
on('logo').addEventListener('change', takeLogo);
on('logo-side').addEventListener('input', show);
on('no-logo').addEventListener('click', removeLogo);
on('paper-name').append(...PAPERS.map((name) => new Option(name, name)));
on('paper-size').append(...Object.entries(PAPER_DATA.sizes).map(([name, [width, height]]) => new Option(`${name}, ${width} × ${height} mm`, name)));
on('paper-name').value = 'Avery 3475';
on('paper-name').addEventListener('input', () => {
  fillPaper();
  showSheet();
});
for (const id of ['paper-size', ...SIZES, ...Object.keys(OPTIONAL_SIZES)]) on(id).addEventListener('input', () => { on('paper-name').value = ''; });
for (const id of ['lines', 'sheet-kind', 'sheet-level', 'width', 'sheet-boost', 'sheet-warn', 'captions', 'paper', 'place', 'paper-size', ...SIZES, ...Object.keys(OPTIONAL_SIZES)]) {
  on(id).addEventListener('input', showSheet);
}
window.addEventListener('resize', () => {
  if (lines.length > FEW && !on('paper').checked) arrange();
  else drawSeen();
});
for (const form of document.forms) form.addEventListener('submit', (event) => event.preventDefault());
on('pasted').addEventListener('input', showFound);
on('paste-sample').addEventListener('click', pasteSample);
on('scan').addEventListener('click', () => (scan ? closeCamera() : openCamera()));
document.addEventListener('visibilitychange', () => {
  if (document.hidden) closeCamera();
});
on('image').addEventListener('change', () => showImage(on('image').files[0]));
// A browser would open a file that is dropped, or a link that no field takes as a text; some would do so in place of the page.
for (const kind of ['dragover', 'drop']) {
  document.addEventListener(kind, (event) => {
    const { types } = event.dataTransfer, isText = types.includes('text/plain') && !types.includes('Files');
    if (!isText || !event.target.closest?.('textarea, [type=number]')) event.preventDefault();
  });
}
document.addEventListener('drop', (event) => takeImage(event, event.dataTransfer));
document.addEventListener('paste', (event) => takeImage(event, event.clipboardData));
on('save-svg').addEventListener('click', saveDocument);
on('save-png').addEventListener('click', saveImages);
on('save-file').addEventListener('click', saveFile);
for (const id of ['format', 'dpi']) on(id).addEventListener('input', showFile);
for (const id of ['sheet-format', 'sheet-dpi']) on(id).addEventListener('input', showSheetFile);
on('save-zip').addEventListener('click', saveAll);
on('copy').addEventListener('click', copy);
for (const id of ['print-symbol', 'print-sheet']) on(id).addEventListener('click', () => print());
show();
showSheet();
showFound();
