/**
 * Encodes and draws QR Code symbols, and nothing else: a smaller module of the library than that of the whole package, for pages. The calls,
 * their options and their errors are those of the whole package. js/build makes one file of this and what it imports.
 */
import { INTERPRETATIONS, LIMITS } from './common.js';
import { bytes } from './encode_module.js';
import { engineOf } from './engine.js';
import { symbolAsked } from './inputs.js';
import { chosen, whole } from './options.js';
import { DRAWINGS, OF_SVG, PlainSymbol, dressed } from './symbol.js';

export { EmptyError, FieldsError, OutOfMemoryError, QRError, SettingsError, TooLongError } from './errors.js';

const engine = engineOf(bytes);

/** Compiles the module before the first call, without blocking: older browsers refuse to compile it in a call. */
export const { load } = engine;

/** Returns the bytes of a string. Its characters in other sets than UTF-8 are a matter of the whole package. */
function encodedText(text, eci) {
  if (eci !== INTERPRETATIONS.UTF_8) throw new TypeError('a string is encoded in UTF-8 here: pass its bytes, or import qrproved in place of qrproved/encode');
  return new TextEncoder().encode(text);
}

function dataOf() {
  throw new TypeError('the fields of GS1 data are not checked here: pass their bytes, or import qrproved in place of qrproved/encode');
}

export class QRSymbol extends PlainSymbol {
  svg(options = {}) {
    const asked = chosen(options, OF_SVG), margin = whole('margin', asked.margin, 0, LIMITS.MARGIN_MAX);
    return dressed(this, engine.drawn(this.modules, this.side, 1, DRAWINGS.indexOf('SVG'), margin), asked, false);
  }

  dataURL(options = {}) {
    return `data:image/svg+xml,${encodeURIComponent(this.svg(options))}`;
  }
}

export function encode(input, options = {}) {
  return new QRSymbol(symbolAsked(input, options, { ...engine, dataOf, encodedText }));
}
