/** The colours of a drawing, and whether scanners tell its modules apart. */
import { COLOURS, LIMITS } from './common.js';
import { SettingsError } from './errors.js';

export const DARK = '#000000';
export const LIGHT = '#ffffff';

/** Returns a colour as # and six digits. */
function colourOf(name, text) {
  if (typeof text !== 'string') throw new TypeError(`${name} is a colour as a string, and not of type ${typeof text}`);
  const known = text.toLowerCase(), digits = Object.hasOwn(COLOURS, known) ? COLOURS[known] : text.startsWith('#') ? known.slice(1) : '';
  if (!/^(?:[0-9a-f]{3}|[0-9a-f]{6})$/.test(digits)) {
    throw new SettingsError(`${name} is #rgb, #rrggbb or one of ${Object.keys(COLOURS).join(', ')}, and not ${text}`);
  }
  return `#${digits.length === 6 ? digits : digits.replace(/./g, '$&$&')}`;
}

/** Returns the relative luminance of WCAG 2.1, from 0 for black to 1 for white. */
function luminance(colour) {
  const [red, green, blue] = [1, 3, 5].map((k) => parseInt(colour.slice(k, k + 2), 16) / 255)
    .map((it) => (it <= 0.03928 ? it / 12.92 : ((it + 0.055) / 1.055) ** 2.4));
  return 0.2126 * red + 0.7152 * green + 0.0722 * blue;
}

/**
 * Returns the colours of the modules. The light ones may have none, null: then the ground is taken for white, or for black if the symbol is
 * inverse. Throws SettingsError if scanners cannot tell them apart, or if dark is the lighter one and that was not asked for.
 */
export function coloursOf({ dark, light, inverse }) {
  if (typeof inverse !== 'boolean') throw new TypeError(`inverse is true or false, and not of type ${typeof inverse}`);
  const colours = { dark: colourOf('dark', dark), light: light === null ? null : colourOf('light', light) };
  const ofDark = luminance(colours.dark), ofLight = luminance(colours.light ?? (inverse ? DARK : LIGHT));
  const contrast = (Math.max(ofDark, ofLight) + 0.05) / (Math.min(ofDark, ofLight) + 0.05);
  if (contrast < LIMITS.CONTRAST_MIN) throw new SettingsError(`the colours have a contrast of ${contrast.toFixed(1)}, and scanners need ${LIMITS.CONTRAST_MIN}`);
  if ((ofDark > ofLight) !== inverse) {
    throw new SettingsError(inverse ? 'inverse is for dark modules that are lighter than the others, and these are darker'
      : 'the dark modules are lighter than the others, which many scanners do not read; inverse allows it');
  }
  return colours;
}

/** Returns the colours as the library takes them, 0xRRGGBBAA. A ground without a colour is white that is not seen. */
export function numbersOf({ dark, light }) {
  return [`${dark.slice(1)}ff`, light === null ? `${LIGHT.slice(1)}00` : `${light.slice(1)}ff`].map((digits) => parseInt(digits, 16));
}

/** Returns a string for XML, without the control characters that it cannot have. */
function escaped(name, text) {
  if (typeof text !== 'string') throw new TypeError(`${name} is a string, and not of type ${typeof text}`);
  const found = /[^\t\n\r\x20-\ud7ff\ue000-\ufffd\u{10000}-\u{10ffff}]/u.exec(text);
  if (found) throw new SettingsError(`XML cannot have the character ${JSON.stringify(found[0])}`);
  return text.replace(/&/g, '&amp;').replace(/</g, '&lt;').replace(/>/g, '&gt;').replace(/"/g, '&quot;');
}

/** Returns an SVG document of black and white with other colours, a title and a class. */
export function coloured(document, { dark, light }, title, className) {
  const [, head, ground, rest] = /^([^]*?)>(\n<rect[^>]*>)([^]*)$/.exec(document);
  const inClass = className === undefined ? '' : ` class="${escaped('className', className)}"`;
  const inside = title === undefined ? '>' : ` role="img">\n<title>${escaped('title', title)}</title>`;
  return head + inClass + inside + (light === null ? '' : ground.replace(LIGHT, light)) + rest.replace(DARK, dark);
}

const CAPTION_HEIGHT = 4; // modules

/** Returns an SVG document that is so many modules wide with a line of text below, as large as fits, and at most three modules. */
export function captioned(document, width, caption, colour) {
  const text = escaped('caption', caption), height = width + CAPTION_HEIGHT;
  const size = Math.floor(100 * Math.min(3, width / (0.6 * Math.max(1, [...caption].length)))) / 100;
  const line = `<text x="${width / 2}" y="${width + 2.75}" font-family="sans-serif" font-size="${size.toFixed(2)}" text-anchor="middle" fill="${colour}">${text}</text>`;
  return document.replace(` viewBox="0 0 ${width} ${width}"`, ` viewBox="0 0 ${width} ${height}"`).replace(` height="${width}"`, ` height="${height}"`)
    .replace(/ height="([\d.]+)mm"/, (_, mm) => ` height="${(Number(mm) / width * height).toFixed(3)}mm"`).replace('</svg>', () => `${line}\n</svg>`);
}
