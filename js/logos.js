/** A logo in the middle of a symbol: its size, and its picture within an SVG document. */
import { encodedForLogo, encoded } from './calls.js';
import { LIMITS } from './common.js';
import { SettingsError } from './errors.js';
import { whole } from './options.js';

const PNG = [0x89, 0x50, 0x4e, 0x47];
const RING = 1; // modules that stay light around the picture, if the logo has at least three on a side

/** The options of encode that a logo has. */
export const OF_LOGO = { logo: undefined, share: undefined };

function wholePercent(share) {
  if (typeof share !== 'number') throw new TypeError(`share is a number, and not of type ${typeof share}`);
  if (!(share >= 0 && share <= LIMITS.SHARE_MAX / 100)) throw new SettingsError(`share is from 0 to ${LIMITS.SHARE_MAX / 100}, and not ${share}`);
  return Math.floor(100 * share + 1e-9);
}

/**
 * Encodes an input, with place for a logo if one is asked for. A fraction of the side has more modules in larger versions, so those up to the
 * version that may have the logo of a smaller one may not have their own.
 */
export function encodedWithLogo(given, version, level, rule, boost, { logo, share }) {
  if (logo === undefined) {
    if (share !== undefined) throw new TypeError('share says how much a logo may use up: it is given beside logo');
    return encoded(given, version, level, rule, boost);
  }
  if (typeof logo !== 'number') throw new TypeError(`logo is a number, and not of type ${typeof logo}`);
  const percent = wholePercent(share ?? LIMITS.SHARE / 100);
  if (!(logo > 0 && logo < 1)) {
    if (!Number.isInteger(logo)) throw new SettingsError(`logo is a number of modules, or a fraction of the side between 0 and 1, and not ${logo}`);
    return encodedForLogo(given, version, level, rule, whole('logo', logo, 0, LIMITS.SIDE_MAX), percent, `${logo} by ${logo} modules`);
  }
  for (let least = version; ;) {
    const side = Math.max(1, Math.round(logo * (17 + 4 * least)));
    const symbol = encodedForLogo(given, least, level, rule, side, percent, `${Number((100 * logo).toPrecision(3))} % of the side`);
    if (symbol.version === least) return symbol;
    least = symbol.version;
  }
}

/** Returns the modules of a symbol, of which those under its logo are changed. */
export function changedUnderLogo({ modules, side, logoBox }, change) {
  if (!logoBox) return modules;
  const { row, column } = logoBox, isInside = (place, first) => place >= first && place < first + logoBox.side;
  return modules.map((module, k) => (isInside(Math.floor(k / side), row) && isInside(k % side, column) ? change(module) : module));
}

/** Returns the modules that are drawn: the place of a logo stays light. */
export function drawnModules(symbol) {
  return changedUnderLogo(symbol, () => 0);
}

/** Returns where the picture of a logo is in a drawing: its first row and column, and its side. */
export function pictureBox(symbol, margin) {
  if (!symbol.logo) throw new TypeError('the symbol has no place for a logo: encode(input, { logo: 7 }) makes one that has');
  const ring = symbol.logo > 2 * RING ? RING : 0;
  return { first: margin + symbol.logoBox.row + ring, side: symbol.logo - 2 * ring };
}

/** Returns an SVG document, in which a module is a unit wide, with a picture in the place of the logo. */
export function withPicture(document, picture, { first, side }) {
  if (!(picture instanceof Uint8Array)) throw new TypeError('the logo is a PNG or an SVG file, as a Uint8Array');
  const isPng = PNG.every((byte, k) => picture[k] === byte);
  if (!isPng && !new TextDecoder().decode(picture.subarray(0, 4000)).includes('<svg')) throw new SettingsError('the logo is a PNG or an SVG file, as a Uint8Array');
  const source = `data:image/${isPng ? 'png' : 'svg+xml'};base64,${btoa(Array.from(picture, (byte) => String.fromCharCode(byte)).join(''))}`;
  // programs that know SVG 1.1 alone want the prefix
  const image = `<image x="${first}" y="${first}" width="${side}" height="${side}" xmlns:xlink="http://www.w3.org/1999/xlink" xlink:href="${source}"/>`;
  return document.replace(/<\/svg>\n*$/, () => `${image}\n</svg>\n`);
}
