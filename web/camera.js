/**
 * The camera of the page: the symbols in what it sees, look by look, until it is closed. A frame may be blurred or badly lit, so that of each
 * label the best of several frames counts.
 */
import { find, mend } from '../out/npm/package/qrproved.js';

const WIDTH = 960; // pixels that a frame should be wide; a camera that cannot have so many has others
const PAUSE = 50; // milliseconds between two looks, in which the page is drawn and keys are taken
const KEPT = 2000; // milliseconds after which a label that is not seen any more is another one

/** No camera is there, or it may not be used. */
export class CameraError extends Error {}

const WHY_NONE = {
  NotAllowedError: 'you or the settings of the browser do not allow it',
  NotFoundError: 'the browser finds none',
  NotReadableError: 'another program uses it',
};

/** Returns the stream of a camera, if possible of the one that looks away from the person. The browser asks the person before. */
async function streamOfCamera() {
  if (!navigator.mediaDevices?.getUserMedia) throw new CameraError('the browser has none for a page that comes neither by https nor from a file');
  try {
    return await navigator.mediaDevices.getUserMedia({ video: { facingMode: 'environment', width: { ideal: WIDTH } } });
  } catch (error) {
    throw new CameraError(WHY_NONE[error.name] ?? error.message);
  }
}

/**
 * Opens a camera, shows its film in an element, and yields the symbols of one frame after the other. The camera is closed as soon as the signal
 * says so, also if it does before the person has allowed it.
 */
export async function* squaresSeen(film, signal) {
  const stream = await streamOfCamera(), close = () => stream.getTracks().forEach((track) => track.stop());
  if (signal.aborted) return close();
  signal.addEventListener('abort', close);
  try {
    film.srcObject = stream;
    await film.play();
    while (!signal.aborted) {
      if (!stream.active) throw new CameraError('it has stopped');
      yield find(film);
      await new Promise((done) => setTimeout(done, PAUSE));
    }
  } finally {
    close();
  }
}

/** Returns whether a symbol is better than another one with the same content: scanners read it, then less is spent, then fewer modules are wrong. */
function isBetter(one, other) {
  const [a, b] = [one, other].map(({ scannable, spent, wrongModules }) => [scannable ? 0 : 1, spent, wrongModules]);
  const k = a.findIndex((it, place) => it !== b[place]);
  return k >= 0 && a[k] < b[k];
}

/** The labels that are before a camera. Symbols with the same content are taken for one label. */
export class Labels {
  #seen = new Map(); // by their contents: when each was seen last, the best square of it, and what it was mended to

  /** Takes the squares of a frame. Returns the best square of each label. */
  take(squares, now) {
    for (const [content, { last }] of this.#seen) if (now - last > KEPT) this.#seen.delete(content);
    for (const square of squares) {
      const mended = mend(square), { data, header, ecis } = mended.content, content = JSON.stringify([...data, header, ecis]);
      const before = this.#seen.get(content), best = before && !isBetter(mended, before.mended) ? before : { square, mended };
      this.#seen.set(content, { ...best, last: now });
    }
    return [...this.#seen.values()].map(({ square }) => square);
  }
}
