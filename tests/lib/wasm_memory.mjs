/** WebAssembly modules whose memory has a maximum, so that an engine refuses to let it grow. */

/** Returns a number of variable length, and where the next one begins. */
function unsigned(bytes, at) {
  let value = 0, shift = 0, next = at;
  do value |= (bytes[next] & 127) << shift; while (shift += 7, bytes[next++] & 128);
  return [value, next];
}

function leb(value) {
  return value < 128 ? [value] : [value & 127 | 128, ...leb(value >> 7)];
}

/** Returns a module whose memory has a maximum: in its section 5 there is one memory, with a flag and its least size. */
export function limited(bytes, most) {
  for (let at = 8; at < bytes.length;) {
    const [length, start] = unsigned(bytes, at + 1);
    if (bytes[at] === 5) {
      const [least] = unsigned(bytes, start + 2), memory = [1, 1, ...leb(least), ...leb(Math.max(least, most))];
      return Uint8Array.from([...bytes.slice(0, at), 5, ...leb(memory.length), ...memory, ...bytes.slice(start + length)]);
    }
    at = start + length;
  }
  throw new Error('there is no memory');
}
