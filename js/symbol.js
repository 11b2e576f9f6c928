/** The modules of a symbol, and how they are drawn in a page: what the whole package and the one that only encodes have in common. */
import { DARK, LIGHT, captioned, coloured, coloursOf } from './colours.js';
import { LIMITS } from './common.js';
import { chosen, warn, whole } from './options.js';

export const DRAWINGS = ['ASCII', 'ASCIIi', 'UTF8', 'SVG'];
export const PIXELS = 8; // of a module of an image, if nothing else is said
export const COLOURS_OF_DRAWING = { dark: DARK, light: LIGHT, inverse: false };
export const OF_SVG = { margin: 4, quiet: false, inline: false, title: undefined, className: undefined, caption: undefined, ...COLOURS_OF_DRAWING };

export class PlainSymbol {
  constructor({ version, side, mask, level, modules }) {
    this.version = version;
    this.side = side;
    this.mask = mask;
    this.level = level;
    this.modules = modules;
  }

  dark(row, column) {
    whole('row', row, 0, this.side - 1);
    whole('column', column, 0, this.side - 1);
    return this.modules[row * this.side + column] !== 0;
  }

  /** Draws the symbol on a canvas. The modules that are drawn may be others than its own. */
  toCanvas(canvas, options = {}, shown = this.modules) {
    const { scale, margin, quiet, ...others } = chosen(options, { scale: PIXELS, margin: 4, quiet: false, ...COLOURS_OF_DRAWING }), colours = coloursOf(others);
    const side = this.side + 2 * whole('margin', margin, 0, LIMITS.MARGIN_MAX), pixels = side * whole('scale', scale, 1, LIMITS.SCALE_MAX);
    if (typeof canvas?.getContext !== 'function') throw new TypeError('toCanvas draws on a canvas: toCanvas(document.querySelector(\'canvas\'))');
    warn(quiet, margin, Infinity);
    Object.assign(canvas, { width: pixels, height: pixels }); // which also makes it transparent
    const context = canvas.getContext('2d');
    if (colours.light !== null) {
      context.fillStyle = colours.light;
      context.fillRect(0, 0, pixels, pixels);
    }
    context.fillStyle = colours.dark;
    shown.forEach((module, k) => {
      if (module) context.fillRect(scale * (margin + k % this.side), scale * (margin + Math.floor(k / this.side)), scale, scale);
    });
    return canvas;
  }

  toJSON() {
    const { version, side, mask, level, modules } = this;
    const rows = Array.from({ length: side }, (_, row) => modules.subarray(row * side, (row + 1) * side).join(''));
    return { version, side, mask, level, rows };
  }
}

/**
 * Returns an SVG document of the library with the colours, the title and all else that the options ask for. Unless it has a size, the margin is
 * all that may be warned of.
 */
export function dressed(symbol, drawing, { margin, quiet, inline, title, className, caption, ...others }, isSized) {
  const colours = coloursOf(others);
  if (typeof inline !== 'boolean') throw new TypeError(`inline is true or false, and not of type ${typeof inline}`);
  if (!isSized) warn(quiet, margin, Infinity);
  const plain = coloured(drawing, colours, title, className);
  const document = caption === undefined ? plain : captioned(plain, symbol.side + 2 * margin, caption, colours.dark);
  return inline ? document.replace(/^<\?xml[^>]*>\n/, '') : document;
}
