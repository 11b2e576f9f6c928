/**
 * Opens images as grey pixels, which the library searches for symbols: the RGBA pixels that a canvas returns, and in a page whatever a canvas
 * can draw. Grey is a byte for each pixel, from 0 for black to 255 for white.
 */
const WHOLE = 65536; // the sum of the shares of red, green and blue in the brightness of a pixel (ITU-R BT.601)
const GROUNDS = [255, 0]; // light modules without a ground are seen on a dark one, which is tried after the light one

/** Returns RGBA pixels: those of an image that has them, or of what a canvas draws. Returns null for anything else. */
export function pixelsOf(image) {
  const { data, width, height } = image ?? {}, isOfBytes = data instanceof Uint8ClampedArray || data instanceof Uint8Array;
  if (isOfBytes && width > 0 && height > 0 && data.length === 4 * width * height) return image;
  return drawnOnCanvas(image);
}

/** Whether a page has a class, and an object is one of it. */
function isA(name, object) {
  return typeof globalThis[name] === 'function' && object instanceof globalThis[name];
}

/** Returns the pixels of a canvas, an image, a video or a bitmap of a page. */
function drawnOnCanvas(image) {
  const kinds = ['HTMLCanvasElement', 'OffscreenCanvas', 'HTMLImageElement', 'HTMLVideoElement', 'ImageBitmap'];
  if (!kinds.some((name) => isA(name, image))) return null;
  const width = image.videoWidth ?? image.naturalWidth ?? image.width, height = image.videoHeight ?? image.naturalHeight ?? image.height;
  if (!(width > 0 && height > 0)) return null;
  const canvas = isA('OffscreenCanvas', image) || typeof document === 'undefined' ? new OffscreenCanvas(width, height)
    : Object.assign(document.createElement('canvas'), { width, height });
  const context = canvas.getContext('2d', { willReadFrequently: true });
  context.drawImage(image, 0, 0, width, height);
  return context.getImageData(0, 0, width, height);
}

/** Returns the brightness of each pixel over a ground. It is rounded once: the package for Python has the same. */
function brightness(data, ground) {
  const grey = new Uint8Array(data.length / 4);
  for (let at = 0; at < grey.length; at++) {
    const alpha = data[4 * at + 3], bright = 19595 * data[4 * at] + 38470 * data[4 * at + 1] + 7471 * data[4 * at + 2];
    grey[at] = (bright * alpha + WHOLE * ground * (255 - alpha) + WHOLE * 255 / 2) / (WHOLE * 255);
  }
  return grey;
}

function isOpaque(data) {
  for (let at = 3; at < data.length; at += 4) if (data[at] !== 255) return false;
  return true;
}

/** Yields RGBA pixels in grey, on a light ground, and then on a dark one if something is transparent. */
export function* greysOf({ data }) {
  for (const ground of isOpaque(data) ? GROUNDS.slice(0, 1) : GROUNDS) yield brightness(data, ground);
}

/** Covers squares in a grey picture, each by the brightness of its ground. Their corners are given clockwise. */
export function cover(grey, width, height, squares) {
  for (const { corners, isInverse } of squares) {
    const rows = corners.map(([, y]) => y);
    for (let y = Math.floor(Math.min(...rows)); y < Math.min(height, Math.ceil(Math.max(...rows))); y++) {
      const middle = y + 0.5, crossed = [];
      corners.forEach(([x0, y0], k) => {
        const [x1, y1] = corners[(k + 1) % 4];
        if ((y0 <= middle) !== (y1 <= middle)) crossed.push(x0 + (middle - y0) * (x1 - x0) / (y1 - y0));
      });
      const first = Math.floor(Math.min(...crossed)), after = Math.min(width, Math.ceil(Math.max(...crossed)));
      if (crossed.length) grey.fill(isInverse ? 0 : 255, y * width + first, y * width + Math.max(first, after));
    }
  }
}
