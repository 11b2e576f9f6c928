"""Prints a module as C99. A value becomes a variable, a block a label, and a phi a variable that each edge to its block sets.

A number is a `uintN_t` of C of at least as many bits; those above its own are 0, so it is cut after each operation that may set
them. A struct, an array or a vector is a struct of C, whose parts are set one by one. An object of the frame or a constant is an
array of bytes, and every access to memory goes by the functions of head.h, which know the order of bytes. A function that takes
memory, directly or through others, gets the heap of the call as its first parameter."""
import re

from frames import arrays_of
from kinds import BIT, POINTER, VOID, Array, Int, Pointer, Vector, is_scalar
from middle import Call, Fault, Group, Local, Number, NumberOf, Phi, Place, Text, Zero

WIDTHS = (8, 16, 32, 64)  # of the numbers of C
SIGNS = {"add": "+", "sub": "-", "mul": "*", "and": "&", "or": "|", "xor": "^", "udiv": "/", "urem": "%", "sdiv": "/", "srem": "%",
         "eq": "==", "ne": "!=", "ugt": ">", "uge": ">=", "ult": "<", "ule": "<=", "sgt": ">", "sge": ">=", "slt": "<", "sle": "<="}
WIDE = {"add", "sub", "mul", "and", "or", "xor", "shl", "lshr", "ashr"}  # the operations of head.h on numbers of 128 bits
SIGNIFICANT = 63  # characters of a name, of which C99 looks at no more
COLUMNS = 110


def width_in_c(kind):
    if kind.width > 64:
        raise Fault(f"this is not known for {kind}")
    return next(it for it in WIDTHS if it >= kind.width)


def cut(kind, text):
    """Returns an expression without the bits above those of its kind."""
    if kind.width not in WIDTHS:
        return f"(uint{width_in_c(kind)}_t)(({text}) & {(1 << kind.width) - 1}u{'ll' if kind.width > 32 else ''})"
    return f"(uint{kind.width}_t)({text})" if kind.width < 32 else text


def signed(kind, text):
    """Returns a number of C with the sign that the highest bit of a number is."""
    size = width_in_c(kind)
    if kind.width == size:
        return f"(int{size}_t){text}"
    return f"((int{size}_t)((uint{size}_t){text} << {size - kind.width}) >> {size - kind.width})"


def operation(how, kind, a, b):
    """Returns the expression of an operation on two numbers, each of which is a name or a constant."""
    if kind.width > 64:
        if how not in WIDE:
            raise Fault(f"{how} of {kind} is not known")
        return f"wide_{how}({a}, {b})"
    wide = f"(uint32_t){a}" if kind.width < 32 else a  # C would take smaller numbers for signed ones
    if how in ("and", "or", "xor", "udiv", "urem"):
        return f"{a} {SIGNS[how]} {b}"
    if how in ("add", "sub", "mul"):
        return cut(kind, f"{wide} {SIGNS[how]} {b}")
    if how in ("sdiv", "srem"):
        return cut(kind, f"(uint{width_in_c(kind)}_t)({signed(kind, a)} {SIGNS[how]} {signed(kind, b)})")
    # a count that is too large has no meaning, but the operation may be one whose result is not used
    count = b if re.fullmatch(r"\d+u(ll)?", b) else f"({b} & {63 if kind.width > 32 else 31}u)"
    if how == "shl":
        return cut(kind, f"{wide} << {count}")
    return f"{a} >> {count}" if how == "lshr" else cut(kind, f"(uint{width_in_c(kind)}_t)({signed(kind, a)} >> {count})")


def comparison(how, kind, a, b):
    if isinstance(kind, Pointer):
        if how[0] == "s":
            raise Fault("a comparison of addresses with a sign is not known")
        return f"{a} {SIGNS[how]} {b}" if how in ("eq", "ne") else f"(uintptr_t){a} {SIGNS[how]} (uintptr_t){b}"
    if kind.width > 64:
        if how[0] == "s":
            raise Fault(f"{how} of {kind} is not known")
        return f"wide_compare({a}, {b}) {SIGNS[how]} 0"
    return f"{signed(kind, a)} {SIGNS[how]} {signed(kind, b)}" if how[0] == "s" else f"{a} {SIGNS[how]} {b}"


def conversion(how, given, got, a):
    """Returns the expression of a cast of a number or an address."""
    if how == "inttoptr":
        return f"(uint8_t *)(uintptr_t){a}"
    if how in ("ptrtoint", "ptrtoaddr"):
        return cut(got, f"(uint{width_in_c(got)}_t)(uintptr_t){a}")
    if how == "trunc":
        return cut(got, f"(uint{width_in_c(got)}_t){f'wide_low({a})' if given.width > 64 else a}")
    if how == "zext":
        return f"wide_of({a})" if got.width > 64 else f"(uint{width_in_c(got)}_t){a}"
    if got.width > 64:
        return f"wide_signed((int64_t){signed(given, a)})"
    return cut(got, f"(uint{width_in_c(got)}_t)(int{width_in_c(got)}_t){signed(given, a)}")


# ---- functions of LLVM on numbers; each is applied lane by lane to vectors

def counting(kind):
    """Returns the bits of the numbers whose bits the functions of head.h count: a smaller number has zeros before its own."""
    return 64 if kind.width > 32 else 32


def leading(kind, a, _):
    size = counting(kind)
    return cut(kind, f"leading_{size}({a}) - {size - kind.width}u")


def trailing(kind, a, _):
    size = counting(kind)
    return cut(kind, f"trailing_{size}({a})" if kind.width == size else f"MIN(trailing_{size}({a}), {kind.width}u)")


def funnel(side):
    def printed(kind, a, b, count):
        if kind.width not in (*WIDTHS, 128):
            raise Fault(f"fsh{side[0]} of {kind} is not known")
        return f"{side}_{kind.width}({a}, {b}, {count})"
    return printed


def swapped(kind, a):
    if kind.width not in (16, 32, 64):
        raise Fault(f"bswap of {kind} is not known")
    return f"swapped_{kind.width}({a})"


def saturated(sign):
    """Returns what makes a sum or a difference of numbers with a sign, or the number at the end of the range that it passes. It passes
    an end if the numbers have one sign (for a difference: two signs) and the result has another than the first. The end below is one
    above that on the other side, without its sign."""
    def made(kind, a, b):
        result, ones = f"({cut(kind, f'{a} {sign} {b}')})", f"{(1 << kind.width - 1) - 1}u{'ll' if kind.width > 32 else ''}"
        alike = f"~({a} ^ {b})" if sign == "+" else f"({a} ^ {b})"
        return f"({cut(kind, f'{alike} & ({a} ^ {result})')}) >> {kind.width - 1} ? {cut(kind, f'({a} >> {kind.width - 1}) + {ones}')} : {result}"
    return made


OF_NUMBERS = {
    "abs": lambda kind, a, _: f"{signed(kind, a)} < 0 ? {cut(kind, f'0u - {a}')} : {a}",
    "bitreverse": lambda kind, a: f"(uint{width_in_c(kind)}_t)(reversed_64({a}) >> {64 - kind.width})",
    "bswap": swapped,
    "ctlz": leading,
    "ctpop": lambda kind, a: cut(kind, f"ones_{counting(kind)}({a})"),
    "cttz": trailing,
    "fshl": funnel("left"),
    "fshr": funnel("right"),
    "sadd.sat": saturated("+"),
    "smax": lambda kind, a, b: f"{signed(kind, a)} > {signed(kind, b)} ? {a} : {b}",
    "smin": lambda kind, a, b: f"{signed(kind, a)} < {signed(kind, b)} ? {a} : {b}",
    "ssub.sat": saturated("-"),
    "uadd.sat": lambda kind, a, b: f"{cut(kind, f'{a} + {b}')} < {a} ? {(1 << kind.width) - 1}u{'ll' if kind.width > 32 else ''} : "
                                   f"{cut(kind, f'{a} + {b}')}",
    "umax": lambda kind, a, b: f"MAX({a}, {b})",
    "umin": lambda kind, a, b: f"MIN({a}, {b})",
    "usub.sat": lambda kind, a, b: f"{a} > {b} ? {cut(kind, f'{a} - {b}')} : 0u",
}
# Whether a sum, a difference or a product `made` does not fit. Two numbers of half the bits always fit.
OVERFLOWS = {
    "uadd": lambda kind, a, b, made: f"{made} < {a}",
    "usub": lambda kind, a, b, made: f"{a} < {b}",
    "umul": lambda kind, a, b, made: f"({a} | {b}) >> {kind.width // 2} && {a} && {made} / {a} != {b}",
}


class Printer:
    """Prints a module. It keeps the names of C, and the structs that are needed."""

    def __init__(self, module):
        self.module, self.names, self.structs = module, {}, {}
        self.takes_heap = module.outside()

    def name(self, it):
        """Returns the name of a function or a constant in C, which has a number at its end if another one has it already."""
        if it not in self.names:
            word = ("m_" + re.sub(r"\W+", "_", it).strip("_"))[:SIGNIFICANT - 4]
            more = (f"{word}_{k}" for k in range(2, 1000))
            self.names[it] = next(name for name in [word, *more] if name not in self.names.values())
        return self.names[it]

    def type(self, kind):
        if isinstance(kind, Int):
            return "wide" if kind.width > 64 else f"uint{width_in_c(kind)}_t"
        if isinstance(kind, Pointer):
            return "uint8_t *"
        if kind == VOID:
            return "void"
        if kind not in self.structs:
            if isinstance(kind, Vector):
                members = [f"{self.declared(kind.part, 'e')}[{kind.count}];"]
            else:
                members = [f"{self.declared(it, f'f{k}')};" for k, (_, it) in enumerate(kind.parts())]
            self.structs[kind] = f"struct {kind} {{ {' '.join(members)} }};"
        return f"struct {kind}"

    def declared(self, kind, name):
        of = self.type(kind)
        return f"{of}{'' if of.endswith('*') else ' '}{name}"

    # ---- values

    def number(self, it):
        if it.kind.width > 64:
            return f"wide_make({it.number >> 64}ull, {it.number % (1 << 64)}ull)"
        return f"{it.number}u" + ("ll" if it.kind.width > 32 else "")

    def place(self, it):
        if not it.name:
            return f"(uint8_t *)(uintptr_t){it.offset}u"
        return f"(uint8_t *)&{self.name(it.name)}" + (f" + {it.offset}" if it.offset else "")

    def zero(self, kind):
        if isinstance(kind, Int):
            return self.number(Number(kind, 0))
        return "NULL" if isinstance(kind, Pointer) else f"({self.type(kind)}){{0}}"

    # ---- constants

    def constant(self, name):
        """Returns a constant's declaration and its definition. If an address is in it, it is an array of slots of eight bytes."""
        value, align = self.module.constants[name]
        if align > 16:
            raise Fault(f"{name}: an alignment of {align} is not known")
        joined = joined_parts(value)
        size = sum(len(it) if isinstance(it, bytes) else POINTER.size() for it in joined)
        if size != value.kind.size():
            raise Fault(f"{name}: {size} bytes, and not {value.kind.size()}")
        if not any(isinstance(it, Place) for it in joined):
            text = b"".join(joined) or b"\0"  # C has no array without elements
            head = f"static const union {{ uint8_t b[{len(text)}]; uint64_t align; }} {self.name(name)}"
            return "", head + " = {{\n" + lines_of(map(str, text)) + "\n}};\n"
        head = f"static const union slot {self.name(name)}[{size // POINTER.size()}]"
        return f"{head};\n", head + " = {\n" + lines_of(self.slots(name, joined)) + "\n};\n"

    def slots(self, name, joined):
        for it in joined:
            if isinstance(it, Place):
                yield f"{{.p = {self.place(it)}}}"
            elif len(it) % POINTER.size():
                raise Fault(f"{name}: an address that is not aligned")
            else:
                for k in range(0, len(it), POINTER.size()):
                    yield f"{{.b = {{{','.join(map(str, it[k:k + POINTER.size()]))}}}}}"

    # ---- the whole

    def head(self, function):
        given = ["struct heap *heap"] * (function.name in self.takes_heap)
        given += [self.declared(it.kind, f"v{k}") for k, it in enumerate(function.parameters)]
        return f"static {self.declared(function.kind, self.name(function.name))}({', '.join(given) or 'void'})"

    def whole(self):
        functions = [Body(self, it).whole() for it in self.module.functions.values()]
        constants = [self.constant(it) for it in self.module.constants]
        outside = []
        for name, (kind, given) in self.module.declared.items():
            listed = ", ".join(["struct heap *heap", *map(self.type, given)])
            outside.append(f"static {self.declared(kind, self.name(name))}({listed});\n")
        heads = [f"{self.head(it)};\n" for it in self.module.functions.values()]
        parts = [[f"{it}\n" for it in self.structs.values()], outside, heads, [it for it, _ in constants], [it for _, it in constants]]
        return "\n".join("".join(it) for it in [*parts, *([it] for it in functions)] if it)


def joined_parts(value):
    """Returns the bytes of a constant, with a Place wherever an address is."""
    joined = []
    for it in parts_in(value):
        if isinstance(it, bytes) and joined and isinstance(joined[-1], bytes):
            joined[-1] += it
        elif it != b"" or not joined:
            joined.append(it)
    return [it for it in joined if it != b""] or [b""]


def parts_in(value):
    if isinstance(value, Text):
        yield value.data
    elif isinstance(value, Zero):
        yield bytes(value.kind.size())
    elif isinstance(value, Number):
        yield value.number.to_bytes(value.kind.size(), "little")
    elif isinstance(value, Place):
        yield value
    else:
        at = 0
        for (offset, kind), it in zip(value.kind.parts(), value.values):
            yield bytes(offset - at)
            yield from parts_in(it)
            at = offset + kind.size()
        yield bytes(value.kind.size() - at)


def lines_of(words):
    """Returns words with a comma after each, in lines."""
    lines, line = [], "\t"
    for it in words:
        if len(line) + len(it) > COLUMNS:
            lines.append(line)
            line = "\t"
        line += f"{it},"
    return "\n".join([*lines, line])


class Body:
    """Prints a function. The methods have the names of the instructions of the module middle, in small letters; each adds lines."""

    def __init__(self, printer, function):
        self.printer, self.function, self.lines, self.added = printer, function, [], {}
        self.blocks = {it.name: it for it in function.blocks}
        self.arrays, self.lengths = arrays_of(function)
        self.used, self.labels, self.block = function.used(), {}, None
        self.names = {it.name: f"v{k}" for k, it in enumerate(function.parameters)}

    def add(self, text):
        self.lines.append("\t" + text)

    def local(self, name):
        """Returns the variable of a local, by its number in the order of the text."""
        return self.names.setdefault(name, f"v{len(self.names)}")

    def set(self, result, text):
        self.add(f"{self.local(result.name)} = {text};")

    def temporary(self, kind, suffix=""):
        """Declares one more variable, or with a suffix one more array, and returns its name."""
        name = f"t{len(self.added)}"
        self.added[name] = self.printer.declared(kind, name) + suffix
        return name

    # ---- values

    def value(self, it):
        if isinstance(it, Local):
            return self.local(it.name)
        if isinstance(it, Number):
            return self.printer.number(it)
        if isinstance(it, Place):
            return f"({self.printer.place(it)})"
        if isinstance(it, NumberOf):
            return f"({conversion('ptrtoint', POINTER, it.kind, self.value(it.place))})"
        if isinstance(it, Zero):
            return self.printer.zero(it.kind)
        inner = ", ".join(map(self.value, it.values))
        return f"({self.printer.type(it.kind)}){{{f'{{{inner}}}' if isinstance(it.kind, Vector) else inner}}}"

    def part(self, it, k):
        """Returns a part of a value."""
        if isinstance(it, Local):
            return f"{self.local(it.name)}{part_name(it.kind, k)}"
        kind = it.kind.part if isinstance(it.kind, (Vector, Array)) else it.kind.members[k]
        return self.value(it.values[k]) if isinstance(it, Group) else self.printer.zero(kind)

    def lanes(self, result, values, printed):
        """Sets a number, or each lane of a vector, to the expression that is printed of the kinds and texts of values."""
        if not isinstance(result.kind, Vector):
            self.set(result, printed(*(self.value(it) for it in values)))
            return
        for k in range(result.kind.count):
            of = [self.part(it, k) if isinstance(it.kind, Vector) else self.value(it) for it in values]
            self.add(f"{self.local(result.name)}.e[{k}] = {printed(*of)};")

    # ---- memory

    def load(self, to, kind, base, offset, align):
        if not is_scalar(kind):
            for k, (at, it) in enumerate(kind.parts()):
                self.load(f"{to}{part_name(kind, k)}", it, base, offset + at, align)
            return
        self.add(f"{to} = {loaded(kind, moved(base, offset), aligned(align, offset))};")

    def store(self, value, kind, base, offset, align):
        if not is_scalar(kind):
            for k, (at, it) in enumerate(kind.parts()):
                text = self.part(value, k) if not isinstance(value, str) else f"{value}{part_name(kind, k)}"
                self.store(text, it, base, offset + at, align)
            return
        text = value if isinstance(value, str) else self.value(value)
        self.add(f"{stored(kind, moved(base, offset), aligned(align, offset), text)};")

    # ---- instructions

    def binary(self, it):
        part = it.a.kind.part if isinstance(it.a.kind, Vector) else it.a.kind
        self.lanes(it.result, [it.a, it.b], lambda a, b: operation(it.how, part, a, b))

    def compare(self, it):
        part = it.a.kind.part if isinstance(it.a.kind, Vector) else it.a.kind
        self.lanes(it.result, [it.a, it.b], lambda a, b: comparison(it.how, part, a, b))

    def cast(self, it):
        given, got = it.value.kind, it.result.kind
        if it.how == "bitcast":
            self.bitcast(it.result, it.value)
            return
        if isinstance(given, Vector):
            given, got = given.part, got.part
        self.lanes(it.result, [it.value], lambda a: conversion(it.how, given, got, a))

    def bitcast(self, result, value):
        """Goes through memory, as LLVM defines it, or lane by lane if a lane is a bit."""
        given, got = value.kind, result.kind
        if given == got:
            self.set(result, self.value(value))
        elif isinstance(given, Vector) and given.part == BIT:
            bits = " | ".join(f"({self.printer.type(got)}){self.part(value, k)} << {k}" for k in range(given.count))
            self.set(result, cut(got, bits))
        else:
            room = self.temporary(Int(8), f"[{given.size()}]")
            self.store(value, given, room, 0, 1)
            self.load(self.local(result.name), got, room, 0, 1)

    def select(self, it):
        if isinstance(it.condition.kind, Vector):
            self.lanes(it.result, [it.condition, it.yes, it.no], lambda c, a, b: f"{c} ? {a} : {b}")
        else:
            self.set(it.result, f"{self.value(it.condition)} ? {self.value(it.yes)} : {self.value(it.no)}")

    def copy(self, it):
        self.set(it.result, self.value(it.value))

    def object(self, it):
        if it.align > 16:
            raise Fault(f"{self.function.name}: an alignment of {it.align} is not known")
        self.set(it.result, f"(uint8_t *)frame_{self.arrays[it.result.name]}")

    def life(self, it):
        pass

    def loading(self, it):
        self.load(self.local(it.result.name), it.result.kind, self.value(it.place), 0, it.align)

    def storing(self, it):
        self.store(it.value, it.value.kind, self.value(it.place), 0, it.align)

    def move(self, it):
        text = moved(self.value(it.base), it.offset)
        for count, size in it.steps:
            index = self.value(count)
            index = f"(ptrdiff_t){index if count.kind.width == 64 else signed(count.kind, index)}"
            text += f" + {index}" + (f" * {size}" if size != 1 else "")
        self.set(it.result, text)

    def take(self, it):
        kind, text = it.whole.kind, None
        for k in it.path:
            text = f"{text}{part_name(kind, k)}" if text else self.part_at(it.whole, k)
            kind = kind.part if isinstance(kind, (Vector, Array)) else kind.members[k]
        self.set(it.result, text)

    def part_at(self, whole, k):
        """Returns a part of a value; the number of a lane may be a value."""
        return f"{self.value(whole)}.e[{self.value(k)}]" if isinstance(k, Local) else self.part(whole, k)

    def put(self, it):
        self.set(it.result, self.value(it.whole))
        at = f".e[{self.value(it.at)}]" if isinstance(it.at, Local) else part_name(it.whole.kind, it.at)
        self.add(f"{self.local(it.result.name)}{at} = {self.value(it.part)};")

    def shuffle(self, it):
        count = it.a.kind.count
        for k, pick in enumerate(it.picks):
            text = self.part(it.a, pick) if pick < count else self.part(it.b, pick - count)
            self.add(f"{self.local(it.result.name)}.e[{k}] = {text};")

    def call(self, it):
        given = ["heap"] * (it.name in self.printer.takes_heap) + [self.value(value) for value in it.given]
        self.ended(it, f"{self.printer.name(it.name)}({', '.join(given)})")

    def ended(self, it, text):
        if it.result in self.used:
            self.set(it.result, text)
        else:
            self.add(f"{text};")

    def intrinsic(self, it):
        word = it.name.split(".")[0]
        if any(value.kind == Int(128) for value in it.given) and word not in ("fshl", "fshr"):
            raise Fault(f"{it.name} of {Int(128)} is not known")
        if it.name in ("memcpy", "memmove", "memset"):
            self.block_of_memory(it)
        elif it.name == "trap":
            self.add("STOP;")
        elif it.name.endswith(".with.overflow"):
            name, (a, b), kind = self.local(it.result.name), map(self.value, it.given), it.given[0].kind
            self.add(f"{name}.f0 = {operation(word[1:], kind, a, b)};")
            self.add(f"{name}.f1 = {OVERFLOWS[word](kind, a, b, f'{name}.f0')};")
        elif word == "vector":
            self.reduce(it)
        elif word in ("ucmp", "scmp"):
            kind = it.given[0].kind
            a, b = (self.value(value) if word == "ucmp" else signed(kind, self.value(value)) for value in it.given)
            self.set(it.result, cut(it.result.kind, f"(uint{width_in_c(it.result.kind)}_t)(({a} > {b}) - ({a} < {b}))"))
        else:
            kind = it.kind.part if isinstance(it.kind, Vector) else it.kind
            self.lanes(it.result, it.given, lambda *given: OF_NUMBERS[it.name](kind, *given))

    def block_of_memory(self, it):
        to, other, count, volatile = it.given
        if volatile != Number(BIT, 0):
            raise Fault(f"{self.function.name}: memory that changes by itself is not known")
        how = {"memcpy": "copy", "memmove": "move", "memset": "fill"}[it.name]
        self.add(f"{how}({self.value(to)}, {self.value(other)}, {self.value(count)});")

    def reduce(self, it):
        how, whole = it.name.split(".")[-1], it.given[0]
        text = self.part(whole, 0)
        for k in range(1, whole.kind.count):
            other = self.part(whole, k)
            text = OF_NUMBERS[how](it.kind, text, other) if how in OF_NUMBERS else operation(how, it.kind, f"({text})", other)
        self.set(it.result, text)

    # ---- the ends of blocks

    def edge(self, target):
        """Returns the statements of an edge: the phis of the block get their values at once, and then the block comes."""
        phis = [(it.result, it.arrivals[self.block.name]) for it in self.blocks[target].phis()]
        left = [(self.local(to.name), self.value(value), to.kind) for to, value in phis if to != value]
        lines = []
        while left:
            free = next((it for it in left if not any(it[0] == value for to, value, _ in left if to != it[0])), None)
            if free:
                left.remove(free)
                lines.append(f"{free[0]} = {free[1]};")
            else:
                name, _, kind = left[0]
                kept = self.temporary(kind)
                lines.append(f"{kept} = {name};")
                left = [(to, kept if value == name else value, of) for to, value, of in left]
        return " ".join([*lines, f"goto {self.label(target)};"])

    def label(self, name):
        return self.labels.setdefault(name, f"L{len(self.labels)}")

    def jump(self, it):
        self.add(self.edge(it.target))

    def branch(self, it):
        self.add(f"if ({self.value(it.condition)}) {{ {self.edge(it.yes)} }}")
        self.add(self.edge(it.no))

    def switch(self, it):
        self.add(f"switch ({self.value(it.value)}) {{")
        for case, target in it.cases:
            self.add(f"case {self.value(case)}: {self.edge(target)}")
        self.add(f"default: {self.edge(it.other)} }}")

    def returning(self, it):
        self.add(f"return {self.value(it.value)};" if it.value else "return;")

    def unreachable(self, it):
        self.add("UNREACHABLE;")

    METHODS = {"Load": "loading", "Store": "storing", "Return": "returning"}

    def whole(self):
        for it in self.function.parameters:
            if it not in self.used:
                self.add(f"(void){self.local(it.name)};")
        bodies = []
        for block in self.function.blocks:
            self.block, before, self.lines = block, self.lines, []
            for line, it in block.instructions:
                is_used = not it.result or it.result in self.used or isinstance(it, Call)
                if is_used and not isinstance(it, Phi):
                    name = type(it).__name__
                    try:
                        getattr(self, self.METHODS.get(name, name.lower()))(it)
                    except Fault as fault:
                        raise Fault(f"line {line}: {fault}") from fault
            bodies.append((block.name, self.lines))
            self.lines = before
        head = [f"\tuint64_t frame_{k}[{length}];" for k, length in enumerate(self.lengths)] + self.variables()
        for name, lines in bodies:
            if name in self.labels:
                self.lines.append(f"{self.labels[name]}:;")
            self.lines += lines
        about = self.function.name.replace("*/", "* /")
        return "\n".join([f"/* {about} */", self.printer.head(self.function), "{", *head, *self.lines, "}\n"])

    def variables(self):
        """Returns the declarations of the results that are used, and of what was added, those of a type in one line."""
        by_type = {}
        for it in self.function.instructions():
            if it.result in self.used:
                by_type.setdefault(self.printer.type(it.result.kind), []).append(self.local(it.result.name))
        lines = []
        for of, names in by_type.items():
            star = "*" if of.endswith("*") else ""
            lines.append(f"\t{of.rstrip('*')}{'' if star else ' '}" + ", ".join(f"{star}{it}" for it in names) + ";")
        return lines + [f"\t{it};" for it in self.added.values()]


def part_name(kind, k):
    return f".e[{k}]" if isinstance(kind, Vector) else f".f{k}"


def moved(base, offset):
    return f"{base} {'-' if offset < 0 else '+'} {abs(offset)}" if offset else base


def aligned(align, offset):
    """Returns the alignment of what lies so many bytes after something that is aligned."""
    return min(align, offset & -offset) if offset else align


def loaded(kind, place, align):
    if isinstance(kind, Pointer):
        return f"load_pointer({place})"
    if kind.width > 64:
        return f"load_128({place})"
    size = kind.stored()
    if size not in (1, 2, 4, 8):
        return f"(uint{width_in_c(kind)}_t)load_bytes({place}, {size})"
    return f"load_{8 * size}{'_aligned' if 1 < size <= align else ''}({place})"


def stored(kind, place, align, text):
    if isinstance(kind, Pointer):
        return f"store_pointer({place}, {text})"
    if kind.width > 64:
        return f"store_128({place}, {text})"
    size = kind.stored()
    if size not in (1, 2, 4, 8):
        return f"store_bytes({place}, {text}, {size})"
    return f"store_{8 * size}{'_aligned' if 1 < size <= align else ''}({place}, {text})"


def c_of(module):
    """Returns the C of a module."""
    return Printer(module).whole()
