/**
 * Label paper by its names, and what has room on a label: a symbol in the middle, and the lines of its caption below. Captions are in
 * Helvetica, which each reader of PDF has (ISO 32000-1, 9.6.2.2). They are added to the document that the library has drawn, as an update
 * after its end (ISO 32000-1, 7.5.6), so that its bytes stay as they are. All lengths are in micrometres, but for those of text, which are
 * in thousandths of a point. The package for Python has the same functions, and says what the table has, in _papers.py.
 */
import { SettingsError } from './errors.js';
import { shown } from './interpretation.js';
import { PAPER_DATA } from './paper_data.js';

const { sizes: SIZES, papers: LIST, high: HIGH } = PAPER_DATA;
export const { FREE_ACROSS, FREE_DOWN, SYMBOL_MIN, POINTS, LINE, BASE } = PAPER_DATA.label;
const WIDTHS = new Map(Object.entries(PAPER_DATA.widths).flatMap(([width, letters]) => [...letters].map((letter) => [letter, Number(width)])));
const WIDTH_OF_OTHERS = 1000; // of a character that Helvetica does not have
const CODES = new Map([...HIGH].map((letter, k) => [letter, 0x80 + k]).filter(([letter]) => letter !== ' '));

/** The names of label paper. */
export const PAPERS = LIST.flatMap(({ names }) => names);

const micrometres = (mm) => Math.floor(1000 * mm + 0.5);
const half = (length) => Math.floor(length / 2);

/** Returns a length on paper in thousandths of a point. */
function points(length) {
  return Math.floor((length * 72000 + 12700) / 25400);
}

function shownPoints(thousandths) {
  const number = Math.abs(thousandths);
  return `${thousandths < 0 ? '-' : ''}${Math.floor(number / 1000)}.${String(number % 1000).padStart(3, '0')}`;
}

const keyOf = (name) => name.toLowerCase().replace(/[^a-z0-9]/g, '');

/** Returns a label paper of the table as a sheet. Spaces, hyphens and capitals do not count, and the maker may be left out. */
export function paperOf(name) {
  if (typeof name !== 'string') throw new TypeError(`the name of a paper is a string, and not of type ${typeof name}`);
  const key = keyOf(name), found = LIST.find(({ names }) => names.some((it) => [it, it.split(' ')[1]].some((known) => keyOf(known) === key)));
  if (!found) throw new SettingsError(`there is no label paper ${name}; there are ${PAPERS.join(', ')}`);
  const [width, height] = SIZES[found.size], [columns, rows] = found.grid, [across, down] = [0, 1].map((k) => {
    const paper = micrometres(SIZES[found.size][k]), count = found.grid[k], label = micrometres(found.label[k]), gap = micrometres(found.gaps[k]);
    return { before: half(paper - count * label - (count - 1) * gap) / 1000, step: (label + gap) / 1000, label: label / 1000 };
  });
  return {
    width, height, columns, rows, left: across.before, top: down.before, across: across.step, down: down.step, labelWidth: across.label, labelHeight: down.label,
  };
}

/**
 * Returns how long a place may be, of so many that begin `before` behind the edge and `step` behind one another: up to the next one, and
 * up to the other edge, or as long as a label.
 */
export function roomOf(paper, before, count, step, label) {
  const last = paper - before - (count - 1) * step, room = count === 1 ? last : Math.min(step, last);
  return label ? Math.min(room, label) : room;
}

const widthOfLetter = (letter) => WIDTHS.get(letter) ?? WIDTH_OF_OTHERS;
const lengthOf = (letters) => [...letters].reduce((sum, letter) => sum + widthOfLetter(letter), 0);

/** Returns the lines of a caption that is at most so wide. It is cut at spaces, and words that are wider than a line anywhere. */
export function linesOf(caption, room) {
  const most = Math.floor(room * 72000 / (25400 * POINTS)), space = widthOfLetter(' '), lines = [];
  for (const part of caption.normalize('NFC').split('\n')) {
    let line = '', width = 0;
    for (const word of part.split(/[ \t\r]+/).filter((it) => it !== '')) {
      const length = lengthOf(word);
      if (line && width + space + length <= most) {
        line += ` ${word}`;
        width += space + length;
        continue;
      }
      if (line) lines.push(line);
      [line, width] = ['', 0];
      for (const letter of word) {
        if (line && width + widthOfLetter(letter) > most) {
          lines.push(line);
          [line, width] = ['', 0];
        }
        line += letter;
        width += widthOfLetter(letter);
      }
    }
    if (line) lines.push(line);
  }
  return lines;
}

/** Throws SettingsError for the first character of a caption that Helvetica does not have. */
export function checkCaption(caption) {
  if (typeof caption !== 'string') throw new TypeError(`a caption is a string, and not of type ${typeof caption}`);
  [...caption.normalize('NFC')].forEach((letter, k) => {
    if (WIDTHS.has(letter) || '\t\r\n'.includes(letter)) return;
    const code = letter.codePointAt(0).toString(16).toUpperCase().padStart(4, '0');
    throw new SettingsError(`${shown(letter)} (U+${code}), character ${k + 1} of the caption, is not in Helvetica, the font of captions in a PDF`);
  });
}

/** Returns how wide a symbol may be on a label that has so many lines of a caption. */
export function roomOfLabel(wide, high, lines) {
  return Math.min(wide - 2 * FREE_ACROSS, high - 2 * FREE_DOWN - lines * LINE);
}

/**
 * Returns a PDF document of the library with captions. Its pages are the objects 3, 5, 7 and so on, and each is followed by its content. Each
 * text says on which page it is, how far its middle is from the left edge, how far the upper end of its first line is from the lower edge,
 * and its lines.
 */
export function withCaptions(document, texts) {
  const before = new TextDecoder().decode(document), start = Number(/startxref\n(\d+)\n%%EOF\n$/.exec(before)[1]);
  const [box] = /\/MediaBox\[[^\]]*\]/.exec(before), count = Number(/\/Count (\d+)/.exec(before)[1]), commands = new Map();
  for (const { page, middle, below, lines } of texts) {
    if (lines.length && !commands.has(page)) commands.set(page, []);
    lines.forEach((line, k) => {
      const left = points(middle) - half(lengthOf(line) * POINTS), height = points(below - k * LINE - BASE);
      const bytes = [...line].map((letter) => (CODES.get(letter) ?? letter.codePointAt(0)).toString(16).padStart(2, '0')).join('');
      commands.get(page).push(`1 0 0 1 ${shownPoints(left)} ${shownPoints(height)} Tm <${bytes}> Tj\n`);
    });
  }
  if (commands.size === 0) return document;
  const font = 3 + 2 * count; // the number of the first object that the document does not have
  const changed = new Map([[font, '<</Type/Font/Subtype/Type1/BaseFont/Helvetica/Encoding/WinAnsiEncoding>>']]);
  [...commands].forEach(([page, lines], k) => {
    const content = `BT\n/F ${POINTS} Tf\n${lines.join('')}ET\n`, number = 3 + 2 * page, added = font + 1 + k;
    changed.set(number, `<</Type/Page/Parent 2 0 R${box}/Resources<</Font<</F ${font} 0 R>>>>/Contents[${number + 1} 0 R ${added} 0 R]>>`);
    changed.set(added, `<</Length ${content.length}>>\nstream\n${content}endstream`);
  });
  let update = '', table = 'xref\n';
  for (const [number, content] of [...changed].sort(([one], [other]) => one - other)) {
    table += `${number} 1\n${String(document.length + update.length).padStart(10, '0')} 00000 n \n`;
    update += `${number} 0 obj\n${content}\nendobj\n`;
  }
  const end = `trailer\n<</Size ${font + changed.size - commands.size}/Root 1 0 R/Prev ${start}>>\nstartxref\n${document.length + update.length}\n%%EOF\n`;
  const added = new TextEncoder().encode(update + table + end), file = new Uint8Array(document.length + added.length);
  file.set(document);
  file.set(added, document.length);
  return file;
}
