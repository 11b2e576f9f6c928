/**
 * Calls the WebAssembly module for tests/lib/modules.py: node wasm_calls.mjs MODULE [PAGES], with at most so many pages of
 * memory. A request is the length of its head in four bytes, its head in JSON, and the bytes for the call; the reply is the
 * status and the bytes of each buffer that the call may write to. Status 255: the call wrote past a buffer; 254: there is no room
 * for the buffers.
 */
import fs from 'node:fs';
import { limited } from './wasm_memory.mjs';

const PAGE = 65536, GUARD = 16, MARK = 0xA5;
const [, , file, pages] = process.argv;

const bytes = fs.readFileSync(file), module = new WebAssembly.Module(pages ? limited(bytes, Number(pages)) : bytes);
const { exports } = new WebAssembly.Instance(module, {});
const memory = () => new Uint8Array(exports.memory.buffer);

/** Returns so many bytes of the standard input; or null at its end. */
function received(length) {
  const buffer = Buffer.alloc(length);
  for (let at = 0; at < length;) {
    const got = fs.readSync(0, buffer, at, length - at, null);
    if (got === 0) return null;
    at += got;
  }
  return buffer;
}

function send(...parts) {
  for (let left = Buffer.concat(parts); left.length;) left = left.subarray(fs.writeSync(1, left));
}

/** Returns the address of a new buffer with a guard behind it; or 0. */
function take(length) {
  const address = Number(exports.heap_take(BigInt(length + GUARD)));
  if (address) memory().fill(MARK, address + length, address + length + GUARD);
  return address;
}

/** Answers a request. With `left`, the engine lets the call have that many bytes and no more. */
function answer({ name, words, left }) {
  const given = received(words.reduce((sum, it) => sum + (it.length ?? 0), 0));
  exports.heap_reset();
  const buffers = words.filter((it) => it.length !== undefined).map((it) => ({ ...it, address: take(it.length) }));
  let at = 0;
  for (const it of buffers) {
    if (it.address) memory().set(given.subarray(at, at + it.length), it.address);
    at += it.length;
  }
  let isReady = buffers.every((it) => it.address);
  if (isReady && left !== undefined) {
    const top = Number(exports.heap_take(1n)) + 1, filler = Number(pages) * PAGE - Math.ceil(top / 16) * 16 - left;
    isReady = filler > 0 && exports.heap_take(BigInt(filler)) !== 0n;
  }
  if (!isReady) return send(Buffer.of(254), Buffer.alloc(buffers.reduce((sum, it) => sum + (it.isWritten ? it.length : 0), 0)));
  const addresses = buffers.map((it) => BigInt(it.address));
  const passed = words.map((it) => (it.length !== undefined ? addresses.shift() : it.long !== undefined ? BigInt(it.long) : it.number));
  const status = exports[name](...passed) & 255, all = memory();
  const isPast = buffers.some((it) => all.subarray(it.address + it.length, it.address + it.length + GUARD).some((byte) => byte !== MARK));
  const written = buffers.filter((it) => it.isWritten).map((it) => all.slice(it.address, it.address + it.length));
  return send(Buffer.of(isPast ? 255 : status), ...written);
}

for (let head = received(4); head; head = received(4)) answer(JSON.parse(received(head.readUInt32LE(0))));
