/** Drawings that were pasted: what pasting changes is undone, so that the module can parse the text. */
import { LIMITS } from './common.js';

const WIDTH_MAX = 2 * (LIMITS.SIDE_MAX + 2 * LIMITS.PARSED_MARGIN_MAX);
const LINES_MAX = LIMITS.COUNT_MAX * WIDTH_MAX; // an empty line may follow each

function widthOf(lines) {
  return lines.reduce((most, line) => Math.max(most, line.length), 0);
}

/** Returns lines of one length, each with its end. Spaces at the ends of lines are often lost. */
function padded(lines) {
  const width = widthOf(lines);
  return lines.map((line) => `${line.padEnd(width)}\n`).join('');
}

/** Returns a line without the spaces at its end, and without anything if it has only spaces and tabs. */
function withoutEnd(line) {
  let end = line.length;
  while (end > 0 && line[end - 1] === ' ') end--;
  return /[^ \t]/u.test(line) ? line.slice(0, end) : '';
}

/** Returns what two texts both begin with. */
function sharedStart(one, other) {
  let length = 0;
  while (length < one.length && one[length] === other[length]) length++;
  return one.slice(0, length);
}

/** Returns lines without the start, a pattern, that all of them share but those that are empty. */
function withoutStart(lines, pattern) {
  const starts = lines.filter((line) => line !== '').map((line) => pattern.exec(line)[0]);
  const { length } = starts.reduce(sharedStart);
  return lines.map((line) => line.slice(length));
}

/** Returns the half blocks within the light margin. If the margin is odd, qrencode 4.1.1 draws a row less of it above and below. */
function inner(lines) {
  const turned = (rows) => withoutStart(rows, /^\u2588*/u).map((line) => [...line].reverse().join(''));
  const rows = lines.filter((line) => !/^\u2588*$/u.test(line));
  return rows.length ? turned(turned(rows)) : [];
}

/**
 * Returns the lines of squares in ASCII, which are two characters wide for each line that they are high, without the empty lines
 * around them. A row of a symbol may be light, and so empty without the margin: of small versions the one below the upper finder
 * patterns often is.
 */
function squaresOf(lines) {
  const side = Math.floor(widthOf(lines) / 2), found = [];
  for (let k = 0; k < lines.length; k += lines[k] ? Math.max(side, 1) : 1) if (lines[k]) found.push(...lines.slice(k, k + side));
  return found;
}

/**
 * Yields the drawings that a pasted text may have been, from the likeliest on: with other signs for line ends and spaces; with an
 * indentation, or without spaces at line ends; with empty lines between symbols, or after each line; or half blocks of qrencode
 * 4.1.1. Of an SVG document, the one without a size.
 */
export function* undone(text) {
  const clean = text.replaceAll('\r\n', '\n').replaceAll('\ufeff', '').replaceAll('\u00a0', ' ');
  if (clean.trimStart().startsWith('<')) {
    yield `${clean.trim()}\n`.replace(/<svg ([^>]*?)width="[^"]*" height="[^"]*" /u, '<svg $1');
    return;
  }
  yield clean.endsWith('\n') ? clean : `${clean}\n`;
  const all = clean.split('\n').map(withoutEnd), isFilled = all.map((line) => line !== '');
  if (!isFilled.includes(true)) return;
  const lines = withoutStart(all.slice(isFilled.indexOf(true), isFilled.lastIndexOf(true) + 1), /^[ \t]*/u);
  if (lines.length > LINES_MAX || widthOf(lines) > WIDTH_MAX) return;
  yield padded(lines);
  const filled = lines.filter((line) => line !== ''), isDoubled = lines.every((line, k) => k % 2 === 0 || line === '');
  yield padded(squaresOf(lines));
  if (isDoubled) yield padded(squaresOf(lines.filter((_, k) => k % 2 === 0)));
  yield padded(filled);
  yield padded(inner(padded(filled).split('\n').slice(0, -1)));
}
