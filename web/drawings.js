/** Drawings as text that are damaged, drawn by another program or copied by hand: the squares of symbols, found by their look. */
import { LIMITS } from '../out/npm/package/common.js';

const UNKNOWN_MODULE = 2;
const HALVES = { ' ': [1, 1], '\u2580': [0, 1], '\u2584': [1, 0], '\u2588': [0, 0] };
const PLACES_LIMIT = 5000000; // characters of all lines: 16 of the largest symbols, each with as much around it

/** Returns the rows of a drawing in half blocks, two for each line. A filled half is light. */
function rowsOfBlocks(texts) {
  return texts.flatMap((text) => [0, 1].map((half) => [...text].map((letter) => (HALVES[letter] ?? [UNKNOWN_MODULE, UNKNOWN_MODULE])[half])));
}

/** Returns the rows of a drawing in pairs of signs. */
function rowsOfPairs(texts) {
  return texts.map((text) => text.match(/../gsu).map((pair) => ({ '##': 1, '  ': 0 })[pair] ?? UNKNOWN_MODULE));
}

/** Returns the rows of the least rectangle with all modules that are not light. */
function boxOf(rows) {
  const used = [...rows.keys()].filter((row) => rows[row].some((module) => module !== 0));
  if (used.length === 0) return [];
  const columns = [...rows[0].keys()].filter((column) => rows.some((row) => row[column] !== 0));
  return rows.slice(used[0], used.at(-1) + 1).map((row) => row.slice(columns[0], columns.at(-1) + 1));
}

/** Returns each way to cut a rectangle into squares that are as wide as it, with gaps of one height between them. */
function cutsOf(box) {
  const side = box.length ? box[0].length : 0, ways = [];
  if (side < 21 || side > LIMITS.SIDE_MAX || side % 4 !== 1) return ways;
  for (let count = 1; count <= LIMITS.COUNT_MAX; count++) {
    const rest = box.length - count * side, gap = count === 1 ? 0 : rest / (count - 1);
    if (rest < 0 || (count === 1 && rest > 0) || !Number.isInteger(gap)) continue;
    const square = (_, k) => ({ side, modules: Uint8Array.from(box.slice(k * (side + gap), k * (side + gap) + side).flat()) });
    ways.push(Array.from({ length: count }, square));
  }
  return ways;
}

/** Returns whether a module of a finder pattern is dark. */
function isDarkIn(row, column) {
  return Math.max(Math.abs(row - 3), Math.abs(column - 3)) !== 2;
}

/** Returns how many modules of the three finder patterns are right. */
function likeness({ side, modules }) {
  let right = 0;
  for (const [top, left] of [[0, 0], [0, side - 7], [side - 7, 0]]) {
    for (let place = 0; place < 49; place++) {
      const row = Math.floor(place / 7), column = place % 7;
      right += modules[(top + row) * side + left + column] === Number(isDarkIn(row, column)) ? 1 : 0;
    }
  }
  return right;
}

/** Returns the mean likeness of squares. */
function likenessOfAll(squares) {
  return squares.reduce((sum, square) => sum + likeness(square), 0) / squares.length;
}

/** Returns the squares that a text draws, dark on light or light on dark; none if it draws no symbol. */
export function squaresInText(drawing) {
  const texts = drawing.replaceAll('\r', '').replaceAll('\u00a0', ' ').split('\n');
  while (texts.length && !texts[0].trim()) texts.shift();
  while (texts.length && !texts.at(-1).trim()) texts.pop();
  const width = texts.reduce((most, text) => Math.max(most, [...text].length), 0), isBlocks = /[\u2580\u2584\u2588]/u.test(drawing);
  if (width * texts.length > PLACES_LIMIT) return [];
  // Spaces at the ends of lines are often lost.
  const full = texts.map((text) => text + ' '.repeat(width + (isBlocks ? 0 : width % 2) - [...text].length));
  const rows = width === 0 ? [] : isBlocks ? rowsOfBlocks(full) : rowsOfPairs(full);
  const inverse = rows.map((row) => row.map((module) => (module === UNKNOWN_MODULE ? UNKNOWN_MODULE : 1 - module)));
  // Of several ways with the same likeness, the one with the most squares is taken: in a way with fewer squares,
  // another symbol may be in a gap.
  const ways = [rows, inverse].flatMap((it) => cutsOf(boxOf(it)));
  return ways.sort((one, other) => likenessOfAll(other) - likenessOfAll(one) || other.length - one.length)[0] ?? [];
}
