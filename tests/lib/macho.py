"""Reads libraries of macOS, which are in the format Mach-O: the names of their functions, what they take of other libraries, for which
system they are, and whether the hashes of their signature are those of the file."""
import hashlib
import struct

SYMTAB, LOADED, ID, SIGNATURE, BUILD = 0x2, 0xC, 0xD, 0x1D, 0x32  # kinds of load commands
UNDEFINED, SECTION, EXTERNAL = 0x0, 0xE, 0x1  # kinds of symbols
CODE_DIRECTORY, AD_HOC, SHA256 = 0xFADE0C02, 0x2, 2
MACOS = 1


class Library:
    def __init__(self, path):
        with open(path, "rb") as it:
            self.data = it.read()
        (self.magic, self.machine, _, self.kind, count), at = struct.unpack_from("<5I", self.data), 32
        self.commands = []
        for _ in range(count):
            kind, size = struct.unpack_from("<2I", self.data, at)
            self.commands.append((kind & 0x7FFFFFFF, self.data[at:at + size]))
            at += size

    def command(self, kind):
        """Returns the only command of a kind."""
        (it,) = [body for other, body in self.commands if other == kind]
        return it

    def names(self, kind):
        """Returns the paths in commands that name libraries."""
        return [text_at(body, struct.unpack_from("<I", body, 8)[0]) for other, body in self.commands if other == kind]

    def symbols(self):
        """Returns the names of what others may call, and of what is taken of others, without the _ of each name in C."""
        first, count, texts = struct.unpack_from("<3I", self.command(SYMTAB), 8)
        rows = [struct.unpack_from("<IBBHQ", self.data, first + 16 * k) for k in range(count)]
        named = [(text_at(self.data, texts + row[0]).removeprefix("_"), row[1]) for row in rows if row[1] & EXTERNAL]
        return {name for name, kind in named if kind & SECTION == SECTION}, {name for name, kind in named if kind & SECTION == UNDEFINED}

    def system(self):
        """Returns whether the system is macOS, and its oldest version."""
        system, oldest = struct.unpack_from("<2I", self.command(BUILD), 8)
        return system == MACOS, (oldest >> 16, oldest >> 8 & 0xFF)

    def signature(self):
        """Returns whether the file is signed ad hoc, and whether each page has the hash that the signature says. Its numbers have the
        highest byte first."""
        start, _ = struct.unpack_from("<2I", self.command(SIGNATURE), 8)
        at = start + struct.unpack_from(">I", self.data, start + 16)[0]
        magic, _, _, flags, hashes, _, _, count, limit, size, kind, _, page = struct.unpack_from(">9I4B", self.data, at)
        if (magic, size, kind, limit) != (CODE_DIRECTORY, 32, SHA256, start):
            return False, False
        pages = [self.data[k:min(k + (1 << page), limit)] for k in range(0, limit, 1 << page)]
        said = [self.data[at + hashes + size * k:][:size] for k in range(count)]
        return bool(flags & AD_HOC), said == [hashlib.sha256(it).digest() for it in pages]


def text_at(data, at):
    return data[at:data.index(b"\0", at)].decode()
