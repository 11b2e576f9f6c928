"""Calls the library as a WebAssembly module in Node, by the same methods as those by which tests/lib/libraries.py calls
the library for C."""
import ctypes
import json
import struct
import subprocess

from growths import TOP
from libraries import PARAMETERS, Library

POINTERS, LENGTH = (ctypes.c_void_p, ctypes.c_char_p), ctypes.c_size_t


def bytes_of(given, length):
    """Returns what a pointer points to: a buffer of that length, structs of that number, or a struct or number passed by
    reference."""
    if given is None:
        return b""
    if isinstance(given, ctypes.Array):
        return bytes(given)[:length * ctypes.sizeof(given._type_)]
    if isinstance(given, bytes):
        return given[:length]
    return bytes(memoryview(given).cast("B")[:length]) if length is not None else bytes(given._obj)


class Remote:
    """The module's calls. If `left` is given, the engine gives a call at most that many bytes. The module's memory then
    needs a maximum of `pages`."""

    def __init__(self, path, pages=None):
        words = ["node", f"{TOP}/tests/lib/wasm_calls.mjs", path, *([str(pages)] if pages else [])]
        self.node, self.left = subprocess.Popen(words, stdin=subprocess.PIPE, stdout=subprocess.PIPE), None

    def __getattr__(self, name):
        return Call(self, name, PARAMETERS[name])

    def call(self, name, types, given):
        head, blobs, written = [], [], []
        for k, (kind, it) in enumerate(zip(types, given)):
            if kind not in POINTERS:
                head.append({"long": it} if kind is LENGTH else {"number": it})
                continue
            blob = bytes_of(it, given[k + 1] if types[k + 1:k + 2] == [LENGTH] else None)
            is_written = not isinstance(it, bytes) and it is not None
            head.append({"length": len(blob), "isWritten": is_written})
            blobs.append(blob)
            if is_written:
                written.append((it, len(blob)))
        asked = json.dumps({"name": name, "words": head, **({} if self.left is None else {"left": self.left})}).encode()
        self.node.stdin.write(struct.pack("<I", len(asked)) + asked + b"".join(blobs))
        self.node.stdin.flush()
        status = self.node.stdout.read(1)[0]
        for it, length in written:
            ctypes.memmove(it if isinstance(it, ctypes.Array) else ctypes.byref(it._obj), self.node.stdout.read(length), length)
        return status

    def close(self):
        self.node.stdin.close()
        self.node.stdout.close()
        self.node.wait(10)


class Call:
    """A call of the module; `restype` and `argtypes` are set as for ctypes, and not needed."""

    def __init__(self, remote, name, types):
        self.remote, self.name, self.types = remote, name, types

    def __call__(self, *given):
        return self.remote.call(self.name, self.types, given)


class Module(Library):
    """The module, called as the library is."""

    def __init__(self, path, pages=None):
        self.take(Remote(path, pages))
