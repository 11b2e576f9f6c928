/**
 * Tries the heap of ports/wasm/heap.c and the product of multi3.c, linked alone: node wasm_heap.mjs MODULE. Prints 'heap: as wanted', or the
 * first fault. Blocks are taken, grown and freed at random, as compiled Rattle does it. Each is filled with bytes of its own. At last
 * the engine refuses more memory.
 */
import fs from 'node:fs';
import { limited } from './wasm_memory.mjs';

const PAGES = 16;
const { exports } = new WebAssembly.Instance(new WebAssembly.Module(limited(fs.readFileSync(process.argv[2]), PAGES)), {});
const bytes = () => new Uint8Array(exports.memory.buffer);
const TOLD = 8; // where a call says whether there is a block, and where: nothing else is at this address

function fault(text) {
  console.log(`FAILED: ${text}`);
  process.exit(0);
}

let seed = 1;
function below(bound) {
  seed = Math.imul(seed, 1103515245) + 12345 >>> 0;
  return (seed >>> 8) % bound;
}

/** Returns the address of a block, or 0 for a refusal. */
function told() {
  const view = new DataView(exports.memory.buffer), at = Number(view.getBigUint64(TOLD + 8, true));
  if (at === 0) fault('a block at the address 0');
  return view.getBigUint64(TOLD, true) === 0n ? 0 : at;
}

function alloc(size, alignment) {
  exports.rattle_alloc(BigInt(TOLD), BigInt(size), BigInt(alignment));
  return told();
}

function realloc(old, oldSize, size, alignment) {
  exports.rattle_realloc(BigInt(TOLD), BigInt(old), BigInt(oldSize), BigInt(size), BigInt(alignment));
  return told();
}

let blocks = [];

/** Checks a new block, and fills it. */
function place(address, size, alignment, kept = 0, mark = 0) {
  const end = address + size;
  if (address % alignment) fault(`a block at ${address} is not aligned to ${alignment}`);
  if (end > bytes().length) fault('a block ends behind the memory');
  if (blocks.some((it) => address < it.address + Math.max(it.size, 1) && it.address < end)) fault('two blocks overlap');
  if (bytes().subarray(address, address + kept).some((byte) => byte !== mark)) fault('a block that grew has lost its bytes');
  const block = { address, size, alignment, mark: 1 + below(255) };
  bytes().fill(block.mark, address, end);
  blocks.push(block);
}

function grow() {
  const k = below(4) ? blocks.length - 1 : below(blocks.length), [old] = blocks.splice(k, 1);
  const size = below(3) ? old.size + below(300) : below(old.size + 1), address = realloc(old.address, old.size, size, old.alignment);
  if (!address) fault('a refusal where there is room');
  place(address, size, old.alignment, Math.min(size, old.size), old.mark);
}

function check() {
  for (const it of blocks) {
    if (bytes().subarray(it.address, it.address + it.size).some((byte) => byte !== it.mark)) fault('a block was written to');
  }
}

let first;
for (let round = 0; round < 40; round++) {
  exports.heap_reset();
  blocks = [];
  const buffer = Number(exports.heap_take(BigInt(1 + below(50))));
  if (buffer % 16) fault(`a buffer at ${buffer} is not aligned`);
  first ??= buffer;
  if (buffer !== first) fault('the heap is not reset');
  place(buffer, 1, 16);
  for (let step = 0; step < 300; step++) {
    const alignment = 1 << below(5);
    if (below(3) === 0) grow();
    else {
      const size = below(4) ? below(200) : alignment * below(500), address = alloc(size, alignment);
      if (!address) fault('a refusal where there is room');
      place(address, size, alignment);
    }
    if (below(10) === 0 && blocks.length) exports.rattle_dealloc(BigInt(blocks.splice(below(blocks.length), 1)[0].address));
    if (blocks.length === 0) place(alloc(8, 8), 8, 8);
  }
  check();
}

// Products of two numbers of 128 bits.
const parts = [0n, 1n, 2n, 0xffffffffn, 0x100000000n, 0x7fffffffffffffffn, 0x8000000000000000n, 0xffffffffffffffffn];
for (let k = 0; k < 60; k++) parts.push(BigInt.asUintN(64, BigInt(below(2 ** 24)) << BigInt(below(44)) | BigInt(below(2 ** 24))));
for (const a of parts) {
  for (const b of parts) {
    for (const [high, other] of [[0n, 0n], [-1n, 3n]]) {
      exports.__multi3(BigInt(TOLD), a, high, b, other);
      const view = new DataView(exports.memory.buffer), got = view.getBigUint64(TOLD, true) | view.getBigUint64(TOLD + 8, true) << 64n;
      if (got !== BigInt.asUintN(128, (a | high << 64n) * (b | other << 64n))) fault('a wrong product');
    }
  }
}

// The engine refuses: nothing that was there changes, and smaller blocks are to be had.
place(alloc(40, 8), 40, 8);
const before = exports.memory.buffer.byteLength, { address, size } = blocks.at(-1);
for (const huge of [PAGES << 16, 2 ** 31, 2 ** 32 - 1, 2 ** 32, 2 ** 40, 2 ** 62, 2n ** 64n - 64n]) {
  if (alloc(huge, 1)) fault('a block that does not fit');
  if (exports.heap_take(BigInt(huge)) !== 0n) fault('a buffer that does not fit');
  if (realloc(address, size, huge, 1)) fault('a block grew that does not fit');
}
check();
if (exports.memory.buffer.byteLength !== before) fault('a refusal took memory');
const after = alloc(64, 8);
if (!after) fault('no block after a refusal');
place(after, 64, 8);
check();
console.log('heap: as wanted');
