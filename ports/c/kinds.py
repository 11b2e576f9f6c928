"""The types of a module, and where their parts are in memory. Sizes and alignments are LLVM's for machines whose addresses have 64
bits, and the module was compiled with them. So the C file has them on every machine, also where an address has 32 bits."""
from dataclasses import dataclass
from typing import Tuple

# The layout of data, as a module states it: the lowest byte first, addresses of 64 bits, numbers aligned to their size.
LAYOUT = "e-m:e-p:64:64-i64:64-i128:128-n32:64-S128"


def up_to(number, step):
    """Returns the least multiple of a step that is not less than a number."""
    return -(-number // step) * step


@dataclass(frozen=True)
class Int:
    """A number without a sign, of so many bits. In memory it takes the bytes of the next size of C, also if it needs fewer."""
    width: int

    def align(self):
        return next(it for it in (1, 2, 4, 8, 16) if 8 * it >= self.width)

    def size(self):
        return self.align()

    def stored(self):
        """Returns how many bytes a load reads or a store writes."""
        return up_to(self.width, 8) // 8

    def __str__(self):
        return f"i{self.width}"


@dataclass(frozen=True)
class Pointer:
    def align(self):
        return 8

    def size(self):
        return 8

    def stored(self):
        return 8

    def __str__(self):
        return "ptr"


@dataclass(frozen=True)
class Void:
    def __str__(self):
        return "void"


@dataclass(frozen=True)
class Array:
    count: int
    part: object

    def align(self):
        return self.part.align()

    def size(self):
        return self.count * self.part.size()

    def parts(self):
        return [(k * self.part.size(), self.part) for k in range(self.count)]

    def __str__(self):
        return f"a{self.count}_{self.part}"


@dataclass(frozen=True)
class Vector:
    """So many numbers or pointers of one kind, its lanes."""
    count: int
    part: object

    def align(self):
        return self.size()

    def size(self):
        return self.count * self.part.size()

    def parts(self):
        """Returns the offset and the kind of each lane, or None if lanes are no whole bytes, so that they have no offsets."""
        if isinstance(self.part, Int) and self.part.width != 8 * self.part.size():
            return None
        return [(k * self.part.size(), self.part) for k in range(self.count)]

    def __str__(self):
        return f"x{self.count}_{self.part}"


@dataclass(frozen=True)
class Struct:
    members: Tuple
    is_packed: bool

    def align(self):
        return 1 if self.is_packed or not self.members else max(it.align() for it in self.members)

    def parts(self):
        """Returns the offset and the kind of each member."""
        at, made = 0, []
        for it in self.members:
            at = up_to(at, 1 if self.is_packed else it.align())
            made.append((at, it))
            at += it.size()
        return made

    def size(self):
        at, last = (self.parts() or [(0, Array(0, Int(8)))])[-1]
        return up_to(at + last.size(), self.align())

    def __str__(self):
        return "_".join([f"s{len(self.members)}", *map(str, self.members)])


POINTER, VOID, BIT, WORD = Pointer(), Void(), Int(1), Int(64)


def is_scalar(kind):
    return isinstance(kind, (Int, Pointer))


def member(kind, k):
    """Returns the kind of a part of a struct, an array or a vector."""
    return kind.members[k] if isinstance(kind, Struct) else kind.part
