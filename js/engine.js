/**
 * A WebAssembly module of the library, and the calls that each such module has. A pointer, a length and a size is a BigInt there, and a struct
 * lies in memory as in C. Before each call the heap is given back, so no block of an earlier call may be used.
 */
import { LIMITS, MODES, MODES_OF_RULES } from './common.js';
import { OutOfMemoryError, nameOf, throwFor, tooLong } from './errors.js';

const UTF8 = new TextDecoder();
export const MODULE_LIKELY = 8; // more bytes than most drawings have for each module

/** Returns the error of a module that the engine does not compile, with what helps: browsers name the policy each in other words. */
function refused(cause) {
  const help = "a page with a content security policy has to allow it by script-src 'wasm-unsafe-eval', and an older browser needs await load()";
  return new Error(`the engine does not compile the WebAssembly module (${cause.message}): ${help}`, { cause });
}

/** Returns the calls of a module, whose bytes a function returns. */
export function engineOf(code) {
  let library; // what the module exports, from the first call on

  /** Compiles the module before the first call, without blocking. */
  async function load() {
    try {
      library ??= (await WebAssembly.instantiate(code(), {})).instance.exports;
    } catch (error) {
      throw refused(error);
    }
  }

  /** Compiles the module at once. */
  function loaded() {
    try {
      return new WebAssembly.Instance(new WebAssembly.Module(code()), {}).exports;
    } catch (error) {
      throw refused(error);
    }
  }

  /** Returns the address of a new buffer. */
  function take(length) {
    const address = Number(library.heap_take(BigInt(length)));
    if (address === 0) throw new OutOfMemoryError();
    return address;
  }

  /** Returns bytes of the memory, which may have grown and so have another buffer than before. */
  function bytesAt(address, length) {
    return new Uint8Array(library.memory.buffer, address, length);
  }

  /** Returns the address of a copy of some bytes. */
  function put(bytes) {
    const address = take(bytes.length);
    bytesAt(address, bytes.length).set(bytes);
    return address;
  }

  function copied(address, length) {
    return bytesAt(address, length).slice();
  }

  function struct(address, length) {
    return new DataView(library.memory.buffer, address, length);
  }

  function call(name, ...words) {
    return library[name](...words) & 255;
  }

  /** Runs a function that takes buffers and calls the module. After an error other than a refusal no part of the module is kept. */
  function run(calls) {
    library ??= loaded();
    library.heap_reset();
    try {
      return calls();
    } catch (error) {
      if (error.status === undefined) library = undefined;
      throw error;
    }
  }

  /**
   * Calls a function with what is given and with a buffer, and once more if it says that it needs a longer one. Returns what it wrote, in its
   * memory.
   */
  function written(name, given, likely) {
    const told = take(8 + likely), length = () => struct(told, 8).getUint32(0, true); // no length has more than 32 bits
    let room = likely, text = told + 8, status = call(name, ...given, BigInt(text), BigInt(room), BigInt(told));
    if (nameOf(status) === 'ROOM') {
      room = length();
      text = take(room);
      status = call(name, ...given, BigInt(text), BigInt(room), BigInt(told));
    }
    throwFor(status);
    return bytesAt(text, length());
  }

  /** Asks how many characters of a mode fit a symbol of version 40; returns the status and the number. */
  function room(level, mode, interpretation) {
    return run(() => {
      const told = take(4), status = call('qrproved_room', LIMITS.VERSION_MAX, level, mode, interpretation, 0, BigInt(told));
      return [status, struct(told, 4).getUint32(0, true)];
    });
  }

  /** Returns whether kanji mode is allowed beside an ECI. */
  function mayHaveKanji(eci) {
    return nameOf(room(0, MODES.kanji, eci)[0]) !== 'SETTINGS';
  }

  /** Throws the error of a status of a call that encodes an input as one symbol, and returns for 0. */
  function throwForInput(status, { data, interpretation }, level, rule) {
    if (nameOf(status) === 'TOO_LONG') {
      const modes = Object.entries(MODES).slice(0, MODES_OF_RULES[rule]);
      throw tooLong(data.length, level, modes.map(([name, mode]) => [name, room(level, mode, interpretation)[1]]));
    }
    throwFor(status);
  }

  /** Returns a symbol, whose struct and modules are in memory. */
  function symbolIn(told, to) {
    const [version, side, level, mask] = bytesAt(told, 4);
    return { version, side, level, mask, modules: copied(to, side * side) };
  }

  /** Encodes an input, of bytes and their interpretation. */
  function encoded(given, version, level, rule, boost) {
    const { data, interpretation } = given;
    return run(() => {
      const from = put(data), to = take(LIMITS.SYMBOL_MAX), told = take(4);
      const status = call('qrproved_encode', BigInt(from), BigInt(data.length), version, level, rule, interpretation, boost ? 1 : 0, BigInt(to),
        BigInt(LIMITS.SYMBOL_MAX), BigInt(told));
      throwForInput(status, given, level, rule);
      return symbolIn(told, to);
    });
  }

  /** Returns the drawing of squares as a text. */
  function drawn(modules, side, count, drawing, margin) {
    return run(() => {
      const given = [BigInt(put(modules)), BigInt(modules.length), side, count, drawing, margin];
      return UTF8.decode(written('qrproved_draw', given, MODULE_LIKELY * modules.length));
    });
  }

  return { bytesAt, call, copied, drawn, encoded, load, mayHaveKanji, put, run, struct, symbolIn, take, throwForInput, written };
}
