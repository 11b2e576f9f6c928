"""What a module is, between its text and C: functions of blocks of instructions, and constants. `check` says what does not fit
together: a value that is used as another kind than it has, a name that stands for nothing, or an edge that no block has."""
from dataclasses import dataclass, fields
from typing import Optional

from kinds import BIT, POINTER, VOID, Int, Pointer, Struct, Vector, is_scalar, member


class Fault(Exception):
    """Why a module is not translated."""


# ---- values; each has a `kind`

@dataclass(frozen=True)
class Local:
    """The result of an instruction, or a parameter."""
    kind: object
    name: str


@dataclass(frozen=True)
class Number:
    """A number, modulo 2 to the number of its bits."""
    kind: Int
    number: int


@dataclass(frozen=True)
class Zero:
    """Zero in each part. A value that the module leaves open is a zero too."""
    kind: object


@dataclass(frozen=True)
class Group:
    """A struct, an array or a vector of values."""
    kind: object
    values: tuple


@dataclass(frozen=True)
class Text:
    """An array of bytes."""
    kind: object
    data: bytes


@dataclass(frozen=True)
class Place:
    """The address of a byte of a constant."""
    name: str
    offset: int = 0
    kind = POINTER


@dataclass(frozen=True)
class NumberOf:
    """The number of an address."""
    kind: Int
    place: Place


# ---- instructions; `result` is the local that one sets, or None

@dataclass
class Binary:
    result: Local
    how: str
    a: object
    b: object

    def check(self):
        return self.a.kind == self.b.kind == self.result.kind


@dataclass
class Compare:
    result: Local
    how: str
    a: object
    b: object

    def check(self):
        kind = self.a.kind
        wanted = Vector(kind.count, BIT) if isinstance(kind, Vector) else BIT
        return kind == self.b.kind and self.result.kind == wanted


@dataclass
class Cast:
    result: Local
    how: str
    value: object

    def check(self):
        given, got = self.value.kind, self.result.kind
        if self.how == "bitcast":
            return given.size() == got.size() or isinstance(given, Vector) and given.part == BIT and got == Int(given.count)
        if isinstance(given, Vector) and isinstance(got, Vector) and given.count == got.count:
            given, got = given.part, got.part
        if self.how == "inttoptr":
            return isinstance(given, Int) and isinstance(got, Pointer)
        if self.how in ("ptrtoint", "ptrtoaddr"):
            return isinstance(given, Pointer) and isinstance(got, Int)
        is_wider = isinstance(given, Int) and isinstance(got, Int) and given.width < got.width
        is_narrower = isinstance(given, Int) and isinstance(got, Int) and given.width > got.width
        return is_narrower if self.how == "trunc" else is_wider


@dataclass
class Select:
    result: Local
    condition: object
    yes: object
    no: object

    def check(self):
        kind, of = self.result.kind, self.condition.kind
        is_fit = of == BIT or isinstance(kind, Vector) and of == Vector(kind.count, BIT)
        return is_fit and self.yes.kind == self.no.kind == kind


@dataclass
class Copy:
    result: Local
    value: object

    def check(self):
        return self.value.kind == self.result.kind


@dataclass
class Object:
    """An object of the frame, whose address is the result."""
    result: Local
    size: int
    align: int

    def check(self):
        return self.result.kind == POINTER


@dataclass
class Life:
    """The place where an object of the frame begins to be needed, or where it ends."""
    item: object
    is_begin: bool
    result = None

    def check(self):
        return self.item.kind == POINTER


@dataclass
class Load:
    result: Local
    place: object
    align: int

    def check(self):
        return self.place.kind == POINTER


@dataclass
class Store:
    value: object
    place: object
    align: int
    result = None

    def check(self):
        return self.place.kind == POINTER


@dataclass
class Move:
    """An address that is so many bytes, and so many steps of some bytes each, after another. A count of steps has a sign."""
    result: Local
    base: object
    offset: int
    steps: list  # of pairs: how many steps, and the bytes of one

    def check(self):
        return self.base.kind == self.result.kind == POINTER and all(isinstance(it.kind, Int) for it, _ in self.steps)


@dataclass
class Take:
    """A part of a struct, an array or a vector; `path` has a number for each depth. The lane of a vector may be a value."""
    result: Local
    whole: object
    path: list

    def check(self):
        kind = self.whole.kind
        for k in self.path:
            kind = member(kind, k)
        return kind == self.result.kind


@dataclass
class Put:
    """A struct, an array or a vector with one part changed."""
    result: Local
    whole: object
    part: object
    at: object

    def check(self):
        return self.whole.kind == self.result.kind and member(self.whole.kind, self.at) == self.part.kind


@dataclass
class Shuffle:
    """Lanes of two vectors; each is picked by its number among those of both."""
    result: Local
    a: object
    b: object
    picks: list

    def check(self):
        kind = self.a.kind
        is_fit = kind == self.b.kind and self.result.kind == Vector(len(self.picks), kind.part)
        return is_fit and all(0 <= it < 2 * kind.count for it in self.picks)


@dataclass
class Call:
    """A call of a function of the module, or of one that it declares."""
    result: Optional[Local]
    kind: object
    name: str
    given: list

    def check(self):
        return self.result is None or self.result.kind == self.kind


@dataclass
class Intrinsic:
    """A call of a function of LLVM itself. `name` is without the kinds at its end."""
    result: Optional[Local]
    kind: object
    name: str
    given: list

    def check(self):
        return self.result is None or self.result.kind == self.kind


@dataclass
class Phi:
    """A value that each edge to the block sets."""
    result: Local
    arrivals: dict  # the value, by the name of the block from which the edge comes

    def check(self):
        return all(it.kind == self.result.kind for it in self.arrivals.values())


@dataclass
class Jump:
    target: str
    result = None

    def check(self):
        return True


@dataclass
class Branch:
    condition: object
    yes: str
    no: str
    result = None

    def check(self):
        return self.condition.kind == BIT


@dataclass
class Switch:
    value: object
    other: str
    cases: list  # of pairs: a Number and the name of a block
    result = None

    def check(self):
        return all(it.kind == self.value.kind for it, _ in self.cases) and self.value.kind.width <= 64


@dataclass
class Return:
    value: Optional[object]
    result = None

    def check(self):
        return True


@dataclass
class Unreachable:
    result = None

    def check(self):
        return True


ENDS = (Jump, Branch, Switch, Return, Unreachable)


def values_of(instruction):
    """Returns the values that an instruction takes, and those in them."""
    found, left = [], [getattr(instruction, it.name) for it in fields(instruction) if it.name != "result"]
    while left:
        it = left.pop()
        if isinstance(it, (list, tuple)):
            left += it
        elif isinstance(it, dict):
            left += it.values()
        elif isinstance(it, Group):
            left += it.values
        elif isinstance(it, NumberOf):
            left.append(it.place)
        if hasattr(it, "kind") and not isinstance(it, type):
            found.append(it)
    return found


def targets_of(instruction):
    """Returns the names of the blocks to which control may go after an instruction."""
    if isinstance(instruction, Jump):
        return [instruction.target]
    if isinstance(instruction, Branch):
        return [instruction.yes, instruction.no]
    return [instruction.other, *(it for _, it in instruction.cases)] if isinstance(instruction, Switch) else []


# ---- the whole

@dataclass
class Block:
    name: str
    instructions: list  # of pairs: the number of a line, and an instruction

    def phis(self):
        return [it for _, it in self.instructions if isinstance(it, Phi)]

    def lives(self):
        return [it for _, it in self.instructions if isinstance(it, Life) and isinstance(it.item, Local)]

    def targets(self):
        return targets_of(self.instructions[-1][1])


@dataclass
class Function:
    name: str
    kind: object  # of what it returns
    parameters: list
    blocks: list
    line: int
    is_exported: bool

    def instructions(self):
        return [it for block in self.blocks for _, it in block.instructions]

    def called(self):
        return {it.name for it in self.instructions() if isinstance(it, Call)}

    def used(self):
        """Returns the locals that an instruction takes."""
        return {it for one in self.instructions() for it in values_of(one) if isinstance(it, Local)}


@dataclass
class Module:
    constants: dict  # by name: a pair of the value and its alignment
    functions: dict
    declared: dict  # by name: a pair of the kind of what a function returns and the list of the kinds of its parameters

    def signature(self, name):
        """Returns what a function returns and takes, or None."""
        if name in self.functions:
            it = self.functions[name]
            return it.kind, [parameter.kind for parameter in it.parameters]
        return self.declared.get(name)

    def outside(self):
        """Returns the functions that call one that the module only declares, directly or through others, and those."""
        found, before = set(self.declared), -1
        while before != len(found):
            before = len(found)
            found |= {name for name, it in self.functions.items() if it.called() & found}
        return found


# ---- what has to hold

def check(module):
    """Raises a Fault if a part of the module does not fit another."""
    for function in module.functions.values():
        check_function(module, function)
    for value, _ in module.constants.values():
        for it in places_in(value):
            if it.name and it.name not in module.constants:
                raise Fault(f"a constant names {it.name}, which is no constant")


def places_in(value):
    if isinstance(value, Group):
        return [place for it in value.values for place in places_in(it)]
    return [value] if isinstance(value, Place) else []


def check_function(module, function):
    known = {}
    for it in [*function.parameters, *(one.result for one in function.instructions() if one.result)]:
        if known.setdefault(it.name, it) is not it:
            raise Fault(f"{function.name}: {it.name} is set twice")
    blocks = {it.name: it for it in function.blocks}
    arriving = {it.name: {source.name for source in function.blocks if it.name in source.targets()} for it in function.blocks}
    for block in function.blocks:
        ends = [isinstance(it, ENDS) for _, it in block.instructions]
        if ends != [False] * (len(ends) - 1) + [True]:
            raise Fault(f"{function.name}: block {block.name} has no end, or one within it")
        for line, it in block.instructions:
            if not it.check():
                raise Fault(f"line {line}: kinds that do not fit: {it}")
            for value in values_of(it):
                if isinstance(value, Local) and known.get(value.name) != value:
                    raise Fault(f"line {line}: {value.name} is no {value.kind}")
                if isinstance(value, Place) and value.name and value.name not in module.constants:
                    raise Fault(f"line {line}: {value.name} is no constant")
            if isinstance(it, Object) and block is not function.blocks[0]:
                raise Fault(f"line {line}: an object that is made after the start of {function.name}")
            if isinstance(it, Phi) and set(it.arrivals) != arriving[block.name]:
                raise Fault(f"line {line}: other edges come to block {block.name}")
            if isinstance(it, Call) and module.signature(it.name) != (it.kind, [value.kind for value in it.given]):
                raise Fault(f"line {line}: {it.name} takes or returns something else")
            if isinstance(it, Return) and (it.value.kind if it.value else VOID) != function.kind:
                raise Fault(f"line {line}: {function.name} returns something else")
            if not set(targets_of(it)) <= set(blocks):
                raise Fault(f"line {line}: a jump to no block of {function.name}")
            if isinstance(it, (Load, Store)) and not is_in_memory(it.result.kind if it.result else it.value.kind):
                raise Fault(f"line {line}: a kind that is not kept in memory: {it}")


def is_in_memory(kind):
    """Returns whether values of a kind may be loaded and stored: their parts have offsets."""
    if is_scalar(kind):
        return True
    parts = kind.parts() if isinstance(kind, (Struct, Vector)) or hasattr(kind, "part") else None
    return parts is not None and all(is_in_memory(it) for _, it in parts)
