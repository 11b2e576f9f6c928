"""Reads the text of a module as LLVM 22 prints it. An instruction, a type or an attribute that is not listed here ends the reading
with its line. Of what may be left out without changing the meaning of a module, metadata are not looked at, and the words of PROMISES
and HINTS are: LLVM states by them what always holds, or how something may be compiled. So they are listed, and others are refused."""
import re

from kinds import BIT, LAYOUT, POINTER, VOID, Array, Int, Struct, Vector, is_scalar, member
from middle import (Binary, Block, Branch, Call, Cast, Compare, Copy, Fault, Function, Group, Intrinsic, Jump, Life, Load, Local,
                    Module, Move, Number, NumberOf, Object, Phi, Place, Put, Return, Select, Shuffle, Store, Switch, Take, Text,
                    Unreachable, Zero, check)

TOKEN = re.compile(r'\s*(c"[^"]*"|[%@!]"[^"]*"|"[^"]*"|[%@][-\w.$]+|![-\w.]*|#\d+|-?[\w.]+|<\{|\}>|[(){}\[\]<>,=*:;])')
NAME = re.compile(r'"[^"]*"|[-\w.$]+')
ENDS_OF_GROUPS = {"[": "]", "{": "}", "<{": "}>", "<": ">"}
# Words before the kind of a value, and before or after the name of a function. Those of the second list have brackets or a number.
PROMISES = {"dead_on_return", "dead_on_unwind", "immarg", "noalias", "nofree", "nonnull", "noundef", "readnone", "readonly", "returned",
            "signext", "writable", "writeonly", "zeroext"}
PROMISES_OF = {"align", "captures", "dereferenceable", "dereferenceable_or_null", "initializes", "range", "sret"}
LINKAGE = {"dso_local", "fastcc", "hidden", "internal", "local_unnamed_addr", "private", "unnamed_addr"}
# Words of instructions that say when a result is not used.
FLAGS = {"disjoint", "exact", "inbounds", "nneg", "nsw", "nusw", "nuw", "samesign"}
# What an attribute of a function may be. None changes what the function does.
HINTS = {"allocsize", "alwaysinline", "cold", "inlinehint", "memory", "minsize", "mustprogress", "nobuiltin", "nocallback",
         "nocreateundeforpoison", "nofree", "noinline", "norecurse", "noreturn", "nosync", "nounwind", "optsize", "speculatable",
         "uwtable", "willreturn"}
BINARIES = {"add", "and", "ashr", "lshr", "mul", "or", "sdiv", "shl", "srem", "sub", "udiv", "urem", "xor"}
COMPARISONS = {"eq", "ne", "sge", "sgt", "sle", "slt", "uge", "ugt", "ule", "ult"}
CASTS = {"bitcast", "inttoptr", "ptrtoaddr", "ptrtoint", "sext", "trunc", "zext"}
# Functions of LLVM that only tell it something.
TOLD = {"assume", "experimental.noalias.scope.decl"}
INTRINSICS = {"abs", "bitreverse", "bswap", "ctlz", "ctpop", "cttz", "fshl", "fshr", "memcpy", "memmove", "memset", "sadd.sat", "scmp", "smax",
              "smin", "ssub.sat", "trap", "uadd.sat", "uadd.with.overflow", "ucmp", "umax", "umin", "umul.with.overflow", "usub.sat",
              "usub.with.overflow", "vector.reduce.add", "vector.reduce.and", "vector.reduce.or", "vector.reduce.umax",
              "vector.reduce.umin", "vector.reduce.xor"}


def bytes_of(token):
    r"""Returns the bytes of a token c"..": a backslash is written twice, and other bytes as a backslash and two digits."""
    data, at = bytearray(), 0
    text = token[2:-1].encode("latin-1")
    while at < len(text):
        if text[at] != ord("\\"):
            data.append(text[at])
            at += 1
        elif text[at + 1:at + 2] == b"\\":
            data.append(ord("\\"))
            at += 2
        else:
            data.append(int(text[at + 1:at + 3], 16))
            at += 3
    return bytes(data)


class Line:
    """The words of a line, up to its comment."""

    def __init__(self, number, text):
        self.number, self.text, self.words, self.at = number, text, [], 0
        place, text = 0, text.rstrip()
        while place < len(text):
            found = TOKEN.match(text, place)
            if not found:
                raise self.fault(f"{text[place:place + 10]!r} is not known")
            if found[1] == ";":
                break
            self.words.append(found[1])
            place = found.end()

    def fault(self, why):
        return Fault(f"line {self.number}: {why}: {self.text.strip()[:300]}")

    def peek(self):
        return self.words[self.at] if self.at < len(self.words) else ""

    def take(self, wanted=None):
        it = self.peek()
        if not it or wanted is not None and it != wanted:
            raise self.fault(f"{it or 'the end'!r} is not what comes next" + (f", which is {wanted!r}" if wanted else ""))
        self.at += 1
        return it

    def accept(self, *wanted):
        """Takes a word if it is one of these, and returns it, or None."""
        return self.take() if self.peek() in wanted else None

    def number_of(self, pattern=r"\d+"):
        it = self.take()
        if not re.fullmatch(pattern, it):
            raise self.fault(f"{it!r} is no number")
        return int(it)

    def name(self, sign):
        """Takes a name after its sign, % or @."""
        it = self.take()
        if it[0] != sign:
            raise self.fault(f"{it!r} is no name")
        return it[1:]

    def brackets(self):
        """Takes words up to the bracket that closes the next one."""
        depth = 0
        while True:
            it = self.take()
            depth += (it == "(") - (it == ")")
            if depth == 0:
                return

    def promises(self, *others):
        """Takes the words before a kind that only promise something, and these others."""
        while self.peek() in PROMISES | PROMISES_OF | set(others):
            if self.take() in PROMISES_OF:
                if self.peek() == "(":
                    self.brackets()
                else:
                    self.number_of()

    def end(self):
        """Takes metadata and a group of attributes, after which nothing may come."""
        self.accept(*(it for it in [self.peek()] if it.startswith("#")))
        while self.accept(","):
            if not self.take().startswith("!"):
                raise self.fault("the end of the line is not known")
            if not re.fullmatch(r"!\d+", self.take()):
                raise self.fault("metadata that are not known")
        if self.peek():
            raise self.fault(f"{self.peek()!r} is not known here")

    # ---- kinds and values

    def kind(self):
        it = self.take()
        if re.fullmatch(r"i\d+", it):
            if not (int(it[1:]) <= 64 or it == "i128"):
                raise self.fault(f"the type {it} is not known")
            return Int(int(it[1:]))
        if it in ("ptr", "void"):
            return POINTER if it == "ptr" else VOID
        if it in ("[", "<"):
            count = self.number_of()
            self.take("x")
            part = self.kind()
            self.take("]" if it == "[" else ">")
            if it == "<" and not is_scalar(part):
                raise self.fault("vectors of this kind are not known")
            return (Array if it == "[" else Vector)(count, part)
        if it in ("{", "<{"):
            members, end = [], "}" if it == "{" else "}>"
            while not self.accept(end):
                members.append(self.kind())
                self.accept(",")
            return Struct(tuple(members), it == "<{")
        raise self.fault(f"the type {it!r} is not known")

    def typed(self):
        """Takes a value with its kind."""
        kind = self.kind()
        self.promises()
        return self.value(kind)

    def value(self, kind):
        it = self.take()
        if it[0] == "%":
            return Local(kind, it[1:])
        if it[0] == "@":
            return Place(it[1:])
        if it in ("undef", "poison", "zeroinitializer", "null"):
            return Zero(kind)
        if it in ("true", "false") and kind == BIT:
            return Number(kind, int(it == "true"))
        if re.fullmatch(r"-?\d+", it) and isinstance(kind, Int):
            if not -1 << kind.width - 1 <= int(it) < 1 << kind.width:
                raise self.fault(f"{it} is no {kind}")
            return Number(kind, int(it) % (1 << kind.width))
        if it.startswith('c"'):
            if kind != Array(len(bytes_of(it)), Int(8)):
                raise self.fault(f"a constant of {len(bytes_of(it))} bytes where {kind} is wanted")
            return Text(kind, bytes_of(it))
        if it == "splat" and isinstance(kind, Vector):
            self.take("(")
            value = self.typed()
            self.take(")")
            return self.group(kind, [value] * kind.count)
        if it in ENDS_OF_GROUPS:
            values = []
            while not self.accept(ENDS_OF_GROUPS[it]):
                values.append(self.typed())
                self.accept(",")
            return self.group(kind, values)
        return self.address(kind, it)

    def address(self, kind, word):
        """Takes an address that an expression gives, or its number."""
        if word == "getelementptr":
            return self.constant_place()
        if word in ("ptrtoaddr", "ptrtoint", "inttoptr"):
            self.take("(")
            given = self.typed()
            self.take("to")
            if self.kind() != kind:
                raise self.fault(f"the value is no {kind}")
            self.take(")")
            # (empty slices have addresses with a known number, at which nothing is)
            if word == "inttoptr" and isinstance(given, Number):
                return Place("", given.number)
            if word != "inttoptr" and isinstance(given, Place):
                return NumberOf(kind, given)
        raise self.fault(f"the value {word!r} is not known")

    def group(self, kind, values):
        """Returns a struct, an array or a vector of values, each of which has to have the kind of its part."""
        if not hasattr(kind, "parts") or [it.kind for it in values] != [it for _, it in kind.parts() or [(0, kind.part)] * kind.count]:
            raise self.fault(f"these are not the parts of {kind}")
        return Group(kind, tuple(values))

    def constant_place(self):
        while self.accept(*FLAGS):
            pass
        self.take("(")
        moved = self.moved(None)
        self.take(")")
        if moved.steps or not isinstance(moved.base, Place):
            raise self.fault("such an address is not known")
        return Place(moved.base.name, moved.base.offset + moved.offset)

    def moved(self, result):
        """Takes the words of a `getelementptr` after its flags. The first index counts wholes, and each other one goes into parts."""
        kind = self.kind()
        self.take(",")
        base, offset, steps, is_first = self.typed(), 0, [], True
        while self.words[self.at:self.at + 1] == [","] and not self.words[self.at + 1].startswith("!"):
            self.take(",")
            index = self.typed()
            if not is_first and isinstance(kind, Struct):
                at, kind = kind.parts()[index.number]
                offset += at
                continue
            kind = kind if is_first else kind.part
            is_first = False
            if isinstance(index, (Number, Zero)):
                number = index.number if isinstance(index, Number) else 0
                offset += (number - (number >> index.kind.width - 1 << index.kind.width)) * kind.size()
            else:
                steps.append((index, kind.size()))
        return Move(result, base, offset, steps)

    def alignment(self):
        """Takes `, align N`; without it only a byte is known to be aligned."""
        if self.words[self.at:self.at + 2] == [",", "align"]:
            self.at += 2
            return self.number_of()
        return 1

    def block(self):
        self.take("label")
        return self.name("%")


# ---- instructions

class Body:
    """Reads the instructions of a function. The methods have the names of instructions; each gets the line and the name of the
    result, or None, and returns an instruction, or None if LLVM is only told something."""

    def instruction(self, line):
        name = None
        if line.words[1:2] == ["="]:
            name = line.name("%")
            line.take("=")
        word = line.take()
        if word == "tail":
            word = line.take()
        if word in BINARIES:
            made = self.binary(line, name, word)
        elif word in CASTS:
            made = self.cast(line, name, word)
        elif word in ("alloca", "br", "call", "extractelement", "extractvalue", "freeze", "getelementptr", "icmp", "insertelement",
                      "insertvalue", "load", "phi", "ret", "select", "shufflevector", "store", "switch", "unreachable"):
            made = getattr(self, f"read_{word}")(line, name)
        else:
            raise line.fault(f"the instruction {word!r} is not known")
        line.end()
        return made

    def binary(self, line, name, word):
        flags(line)
        a = line.typed()
        line.take(",")
        return Binary(Local(a.kind, name), word, a, line.value(a.kind))

    def cast(self, line, name, word):
        flags(line)
        value = line.typed()
        line.take("to")
        return Cast(Local(line.kind(), name), word, value)

    def read_alloca(self, line, name):
        kind = line.kind()
        return Object(Local(POINTER, name), kind.size(), line.alignment())

    def read_br(self, line, name):
        if line.peek() == "label":
            return Jump(line.block())
        condition = line.typed()
        line.take(",")
        yes = line.block()
        line.take(",")
        return Branch(condition, yes, line.block())

    def read_call(self, line, name):
        line.promises("fastcc")
        kind = line.kind()
        callee = line.name("@")
        given = []
        line.take("(")
        if callee in {f"llvm.{it}" for it in TOLD}:
            line.at -= 1
            line.brackets()
            return None
        while not line.accept(")"):
            given.append(line.typed())
            line.accept(",")
        result = Local(kind, name) if name else None
        if not callee.startswith("llvm."):
            return Call(result, kind, callee, given)
        word = re.sub(r"(\.(p0|i\d+|v\d+(i\d+|p0)))+$", "", callee[len("llvm."):])
        if word in ("lifetime.start", "lifetime.end"):
            return Life(given[-1], word == "lifetime.start")
        if word not in INTRINSICS:
            raise line.fault(f"the function {callee!r} is not known")
        return Intrinsic(result, kind, word, given)

    def read_extractelement(self, line, name):
        whole = line.typed()
        line.take(",")
        return Take(Local(whole.kind.part, name), whole, [lane(line.typed())])

    def read_extractvalue(self, line, name):
        whole, path = line.typed(), []
        kind = whole.kind
        while line.accept(","):
            path.append(line.number_of())
            kind = member(kind, path[-1])
        return Take(Local(kind, name), whole, path)

    def read_freeze(self, line, name):
        value = line.typed()
        return Copy(Local(value.kind, name), value)

    def read_getelementptr(self, line, name):
        flags(line)
        return line.moved(Local(POINTER, name))

    def read_icmp(self, line, name):
        flags(line)
        how = line.take()
        if how not in COMPARISONS:
            raise line.fault(f"the comparison {how!r} is not known")
        a = line.typed()
        line.take(",")
        kind = Vector(a.kind.count, BIT) if isinstance(a.kind, Vector) else BIT
        return Compare(Local(kind, name), how, a, line.value(a.kind))

    def read_insertelement(self, line, name):
        whole = line.typed()
        line.take(",")
        part = line.typed()
        line.take(",")
        return Put(Local(whole.kind, name), whole, part, lane(line.typed()))

    def read_insertvalue(self, line, name):
        whole = line.typed()
        line.take(",")
        part = line.typed()
        line.take(",")
        return Put(Local(whole.kind, name), whole, part, line.number_of())

    def read_load(self, line, name):
        kind = line.kind()
        line.take(",")
        return Load(Local(kind, name), line.typed(), line.alignment())

    def read_phi(self, line, name):
        kind, arrivals = line.kind(), {}
        while line.accept("["):
            value = line.value(kind)
            line.take(",")
            source = line.name("%")
            if arrivals.setdefault(source, value) != value:
                raise line.fault(f"two values from {source}")
            line.take("]")
            if line.words[line.at:line.at + 2] == [",", "["]:
                line.take(",")
        return Phi(Local(kind, name), arrivals)

    def read_ret(self, line, name):
        return Return(None if line.accept("void") else line.typed())

    def read_select(self, line, name):
        condition = line.typed()
        line.take(",")
        yes = line.typed()
        line.take(",")
        return Select(Local(yes.kind, name), condition, yes, line.typed())

    def read_shufflevector(self, line, name):
        a = line.typed()
        line.take(",")
        b = line.typed()
        line.take(",")
        chosen = line.typed()
        if isinstance(chosen, Zero):
            picks = [0] * chosen.kind.count
        else:
            picks = [it.number if isinstance(it, Number) else 0 for it in chosen.values]
        return Shuffle(Local(Vector(len(picks), a.kind.part), name), a, b, picks)

    def read_store(self, line, name):
        value = line.typed()
        line.take(",")
        return Store(value, line.typed(), line.alignment())

    def read_switch(self, line, name):
        value, cases = line.typed(), []
        line.take(",")
        other = line.block()
        line.take("[")
        while not line.accept("]"):
            case = line.typed()
            line.take(",")
            cases.append((case, line.block()))
        return Switch(value, other, cases)

    def read_unreachable(self, line, name):
        return Unreachable()


def flags(line):
    while line.accept(*FLAGS):
        pass


def lane(index):
    """Returns the number of a lane, or the value that has it."""
    return index.number if isinstance(index, Number) else index


# ---- the module

def signature(line):
    """Takes the words of a function after `define` or `declare`, up to the end of its parameters. A parameter without a name gets
    its number. Returns the kind, the name and the parameters, and whether the function is seen outside of the module."""
    begin = line.at
    line.promises(*LINKAGE)
    is_exported = not {"internal", "private"} & set(line.words[begin:line.at])
    kind = line.kind()
    name, parameters = line.name("@"), []
    line.take("(")
    while not line.accept(")"):
        of = line.kind()
        line.promises()
        if line.peek()[0] not in "%,)":
            raise line.fault(f"the attribute {line.peek()!r} is not known")
        named = line.name("%") if line.peek().startswith("%") else str(len(parameters))
        parameters.append(Local(of, named))
        line.accept(",")
    while line.peek() in LINKAGE or line.peek().startswith("#"):
        line.take()
    return kind, name, parameters, is_exported


def function_of(first, lines):
    """Reads a function from its first line, and from those up to the bracket that closes it."""
    first.take("define")
    kind, name, parameters, is_exported = signature(first)
    first.take("{")
    first.end()
    blocks, body = [], Body()
    for number, text in lines:
        label = re.match(rf"({NAME.pattern}):(\s*;.*)?$", text)
        if label:
            blocks.append(Block(label[1], []))
        elif text.strip():
            if not blocks:
                blocks.append(Block(str(sum(it.name.isdigit() for it in parameters)), []))
            made = body.instruction(Line(number, text))
            if made:
                blocks[-1].instructions.append((number, made))
    return Function(name, kind, parameters, blocks, first.number, is_exported)


def bodies(lines):
    """Yields the lines of a function, each with its number; those of a `switch` are joined."""
    at = 0
    while at < len(lines):
        number, text = lines[at]
        while text.lstrip().startswith("switch ") and not text.rstrip().endswith("]"):
            at += 1
            text += " " + lines[at][1].strip()
        yield number, text
        at += 1


def constant_of(line):
    """Reads the value of a constant, and its alignment. A variable would be a state of the library, and is refused."""
    name = line.name("@")
    line.take("=")
    line.promises(*LINKAGE)
    line.take("constant")  # (a variable would be a state)
    value = line.typed()
    align = line.alignment()
    line.end()
    return name, (value, align)


def attributes_of(line):
    """Looks at a group of attributes: `attributes #0 = { .. }`."""
    line.take("attributes")
    line.take()
    line.take("=")
    line.take("{")
    while not line.accept("}"):
        it = line.take()
        if it[0] == '"':
            if line.accept("="):
                line.take()
        elif it not in HINTS:
            raise line.fault(f"the attribute {it!r} is not known")
        elif line.peek() == "(":
            line.brackets()
    line.end()


def module_of(text):
    """Reads a module, and checks that its parts fit together."""
    lines = list(enumerate(text.split("\n"), 1))
    module, at = Module({}, {}, {}), 0
    while at < len(lines):
        number, text = lines[at]
        word = text.split(" ")[0]
        if word == "define":
            end = next(k for k in range(at, len(lines)) if lines[k][1] == "}")
            function = function_of(Line(number, text), bodies(lines[at + 1:end]))
            module.functions[function.name] = function
            at = end
        elif word == "declare":
            line = Line(number, text)
            line.take("declare")
            kind, name, parameters, _ = signature(line)
            if not name.startswith("llvm."):
                line.end()
                module.declared[name] = kind, [it.kind for it in parameters]
        elif word == "attributes":
            attributes_of(Line(number, text))
        elif word.startswith("@"):
            name, constant = constant_of(Line(number, text))
            module.constants[name] = constant
        elif word == "target":
            if text.startswith("target datalayout") and text != f'target datalayout = "{LAYOUT}"':
                raise Fault(f"line {number}: another layout of data: {text}")
        elif text and not word.startswith((";", "!", "source_filename")):
            raise Fault(f"line {number}: this is not known: {text[:300]}")
        at += 1
    check(module)
    return module
