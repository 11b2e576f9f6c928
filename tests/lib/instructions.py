"""Makes a module of LLVM with a function for each instruction that ports/c/to_c knows, in each width, and a program in C that calls
all of them with the same operands and prints what they write. So two ways of compiling the module can be compared."""
import random

WIDTHS = (8, 16, 24, 32, 40, 48, 56, 64, 128)
VECTORS = ((16, 8), (8, 16), (4, 32), (2, 64))  # lanes, and the bits of each
DIVISIONS = ("udiv", "urem", "sdiv", "srem")
SHIFTS = ("shl", "lshr", "ashr")
BINARIES = ("add", "sub", "mul", "and", "or", "xor", *SHIFTS, *DIVISIONS)
COMPARISONS = ("eq", "ne", "ugt", "uge", "ult", "ule", "sgt", "sge", "slt", "sle")
STEP = 16  # bytes from an operand to the next
ROOM = 96  # bytes of operands, and of results
WITH_HEAP = "try_outside_call"  # the function that calls one of the program
ROWS = 64  # times that each function is called

TARGET = """target datalayout = "e-m:e-p:64:64-i64:64-i128:128-n32:64-S128"
target triple = "riscv64-unknown-elf"
"""


class Made:
    """The text of a module. A function gets two buffers: %in has operands, and %out the results."""

    def __init__(self, only):
        self.only, self.parts, self.names, self.declared = only, [], [], {}

    def add(self, name, text):
        """Adds a function with this body, if its name has the text that is wanted."""
        name = f"try_{name.replace('.', '_')}"
        if self.only in name:
            self.names.append(name)
            self.parts.append(f"define void @{name}(ptr %out, ptr %in) {{\n{text}\n  ret void\n}}\n")

    def on(self, name, kind, count, text, back=None):
        """Adds a function that loads %a, %b and %c, as many as are wanted, and stores %r, which the text makes of them."""
        lines = []
        for k, operand in enumerate("abc"[:count]):
            lines += [f"%{operand}p = getelementptr i8, ptr %in, i64 {k * STEP}", f"%{operand} = load {kind}, ptr %{operand}p, align 1"]
        self.add(name, "\n".join([*lines, text, f"store {back or kind} %r, ptr %out, align 1"]))

    def calls(self, word, kind, count, more=(), back=None):
        """Adds a function that calls one of LLVM with as many numbers, and with other values."""
        name = f"llvm.{word}.{back + '.' if back else ''}{short(kind)}"
        back, given = back or kind, [f"{kind} %{it}" for it in "abc"[:count]] + list(more)
        self.declare(name, back, *(it.rsplit(" ", 1)[0] for it in given))
        self.on(f"{word}_{short(kind)}", kind, count, f"%r = call {back} @{name}({', '.join(given)})", back)

    def declare(self, name, back, *given):
        self.declared[name] = f"declare {back} @{name}({', '.join(given)})"

    def text(self):
        return TARGET + "\n".join([*sorted(self.declared.values()), "", *self.parts])


def short(kind):
    """Returns a kind as LLVM writes it in names."""
    return kind if kind[0] != "<" else "v" + kind[1:-1].replace(" x ", "")


def fit(word, kind, width):
    """Returns a line that makes %d of %b: a count of a shift that is below the width, or a divisor that is above 0."""
    constant = "splat (i%d {})" % width if kind[0] == "<" else "{}"
    if word in DIVISIONS:
        return f"%h = lshr {kind} %b, {constant.format(1)}\n%d = or {kind} %h, {constant.format(1)}"
    if word in SHIFTS:
        return f"%d = and {kind} %b, {constant.format(7 if width & width - 1 else width - 1)}"
    return f"%d = or {kind} %b, {constant.format(0)}"


def of_numbers(made):
    for width in WIDTHS:
        kind = f"i{width}"
        for word in BINARIES:
            if width < 128 or word not in DIVISIONS:
                made.on(f"{word}_{kind}", kind, 2, f"{fit(word, kind, width)}\n%r = {word} {kind} %a, %d")
        for how in COMPARISONS:
            if width < 128 or how[0] != "s":
                made.on(f"icmp_{how}_{kind}", kind, 2, f"%is = icmp {how} {kind} %a, %b\n%r = select i1 %is, {kind} %a, {kind} 5")
        for other in WIDTHS:
            for word in ("zext", "sext") if width < other else ("trunc",) if width > other else ():
                made.on(f"{word}_{kind}_i{other}", kind, 1, f"%r = {word} {kind} %a to i{other}", f"i{other}")
        made.on(f"bit_{kind}", kind, 1, f"""
            %t = trunc {kind} %a to i1
            %x = xor i1 %t, true
            %s = sext i1 %x to {kind}
            %z = zext i1 %t to {kind}
            %r = sub {kind} %s, %z""")


def of_functions(made):
    """Functions of LLVM on numbers."""
    for width in WIDTHS:
        kind = f"i{width}"
        if width in (8, 16, 32, 64, 128):
            made.calls("fshl", kind, 3)
            made.calls("fshr", kind, 3)
        if width == 128:
            continue
        made.calls("ctpop", kind, 1)
        for word in ("ctlz", "cttz", "abs"):
            made.calls(word, kind, 1, ["i1 false"])
        for word in ("umin", "umax", "smin", "smax", "uadd.sat", "usub.sat"):
            made.calls(word, kind, 2)
        for word in ("ucmp", "scmp"):
            made.calls(word, kind, 2, back="i8")
        for word in ("uadd", "usub", "umul"):
            name, pair = f"llvm.{word}.with.overflow.{kind}", f"{{ {kind}, i1 }}"
            made.declare(name, pair, kind, kind)
            made.on(f"{word}_{kind}", kind, 2, f"""
                %p = call {pair} @{name}({kind} %a, {kind} %b)
                %r = extractvalue {pair} %p, 0
                %is = extractvalue {pair} %p, 1
                %o = zext i1 %is to i8
                %op = getelementptr i8, ptr %out, i64 32
                store i8 %o, ptr %op""")
        if width in (8, 16, 32, 64):
            made.calls("bitreverse", kind, 1)
        if width in (16, 32, 64):
            made.calls("bswap", kind, 1)


def of_vectors(made):
    for count, width in VECTORS:
        kind, name = f"<{count} x i{width}>", f"v{count}i{width}"
        for word in BINARIES:
            made.on(f"{word}_{name}", kind, 2, f"{fit(word, kind, width)}\n%r = {word} {kind} %a, %d")
        for how in COMPARISONS:
            made.on(f"icmp_{how}_{name}", kind, 2, f"""
                %is = icmp {how} {kind} %a, %b
                %s = sext <{count} x i1> %is to {kind}
                %r = select <{count} x i1> %is, {kind} %s, {kind} %b
                %m = bitcast <{count} x i1> %is to i{count}
                %n = zext i{count} %m to i32
                %np = getelementptr i8, ptr %out, i64 32
                store i32 %n, ptr %np""")
        made.on(f"bitcast_{name}", kind, 1, f"""
            %w = bitcast {kind} %a to i128
            %x = add i128 %w, 77
            %r = bitcast i128 %x to {kind}""")
        made.on(f"lanes_{name}", kind, 2, f"""
            %cp = getelementptr i8, ptr %in, i64 32
            %c = load i8, ptr %cp
            %k = and i8 %c, {count - 1}
            %e = extractelement {kind} %a, i8 %k
            %f = extractelement {kind} %b, i64 1
            %g = insertelement {kind} %b, i{width} %e, i8 %k
            %r = insertelement {kind} %g, i{width} %f, i64 0""")
        picks = ", ".join(f"i32 {(5 * k + 3) % (2 * count)}" for k in range(count))
        made.on(f"shufflevector_{name}", kind, 2, f"""
            %s = shufflevector {kind} %a, {kind} %b, <{count} x i32> <{picks}>
            %t = shufflevector {kind} %s, {kind} poison, <{count} x i32> zeroinitializer
            %r = sub {kind} %s, %t""")
        half, picks = count // 2, ", ".join(f"i32 {count - 1 - k}" for k in range(count // 2))
        made.on(f"halves_{name}", kind, 1, f"%r = shufflevector {kind} %a, {kind} poison, <{half} x i32> <{picks}>", f"<{half} x i{width}>")
        for word in ("add", "and", "or", "xor", "umax", "umin"):
            called = f"llvm.vector.reduce.{word}.{name}"
            made.declare(called, f"i{width}", kind)
            made.on(f"reduce_{word}_{name}", kind, 1, f"%r = call i{width} @{called}({kind} %a)", f"i{width}")
        made.calls("umin", kind, 2)
        made.calls("umax", kind, 2)
        made.calls("ctpop", kind, 1)
    made.on("zext_v8i8", "<8 x i8>", 1, "%r = zext <8 x i8> %a to <8 x i16>", "<8 x i16>")
    made.on("trunc_v4i32", "<4 x i32>", 1, "%r = trunc <4 x i32> %a to <4 x i8>", "<4 x i8>")


def of_memory(made):
    """Loads and stores of all widths beside other bytes, structs, blocks of memory, and objects of the frame."""
    made.declare("llvm.memcpy.p0.p0.i64", "void", "ptr", "ptr", "i64", "i1")
    made.declare("llvm.memmove.p0.p0.i64", "void", "ptr", "ptr", "i64", "i1")
    made.declare("llvm.memset.p0.i64", "void", "ptr", "i8", "i64", "i1")
    made.declare("llvm.lifetime.start.p0", "void", "ptr")
    made.declare("llvm.lifetime.end.p0", "void", "ptr")
    for width in WIDTHS:
        kind, align = f"i{width}", 8 if width > 32 else 4 if width > 16 else 2 if width > 8 else 1
        made.add(f"aligned_{kind}", f"""
            store i64 -1, ptr %out
            %p = getelementptr i8, ptr %in, i64 8
            %a = load {kind}, ptr %p, align {align}
            %o = getelementptr i8, ptr %out, i64 16
            store i64 -1, ptr %o
            store {kind} %a, ptr %o, align {align}""")
    made.add("struct", """
        %a = load { i8, i32, [2 x i16] }, ptr %in
        %x = extractvalue { i8, i32, [2 x i16] } %a, 2, 1
        %b = insertvalue { i8, i32, [2 x i16] } %a, i8 9, 0
        store { i8, i32, [2 x i16] } %b, ptr %out
        %p = getelementptr i8, ptr %out, i64 32
        store i16 %x, ptr %p""")
    made.add("packed", """
        %a = load <{ i8, i32, i64 }>, ptr %in, align 1
        %p = getelementptr <{ i8, i32, i64 }>, ptr %out, i64 2
        store <{ i8, i32, i64 }> %a, ptr %p, align 1
        %q = getelementptr <{ i8, i32, i64 }>, ptr %p, i64 -1, i32 2
        store i64 77, ptr %q, align 1""")
    made.add("blocks", """
        %c = load i8, ptr %in
        %k = and i8 %c, 31
        %n = zext i8 %k to i64
        %p = getelementptr i8, ptr %out, i64 40
        call void @llvm.memset.p0.i64(ptr %p, i8 %c, i64 %n, i1 false)
        call void @llvm.memcpy.p0.p0.i64(ptr %out, ptr %in, i64 %n, i1 false)
        %q = getelementptr i8, ptr %out, i64 3
        call void @llvm.memmove.p0.p0.i64(ptr %q, ptr %out, i64 20, i1 false)
        call void @llvm.memcpy.p0.p0.i64(ptr %out, ptr null, i64 0, i1 false)""")
    made.add("steps", """
        %c = load i8, ptr %in
        %d = ashr i8 %c, 4
        %p = getelementptr i8, ptr %in, i64 32
        %q = getelementptr i16, ptr %p, i8 %d
        %a = load i16, ptr %q
        store i16 %a, ptr %out
        %e = and i8 %c, 3
        %r = getelementptr [4 x { i16, i32 }], ptr %in, i64 0, i8 %e, i32 1
        %b = load i32, ptr %r
        %s = getelementptr i8, ptr %out, i64 8
        store i32 %b, ptr %s""")
    made.add("frame", """
        %one = alloca [24 x i8], align 8
        %two = alloca [16 x i8], align 8
        %three = alloca i64
        call void @llvm.lifetime.start.p0(ptr %one)
        %a = load i64, ptr %in
        store i64 %a, ptr %three
        call void @llvm.memcpy.p0.p0.i64(ptr %one, ptr %in, i64 24, i1 false)
        %p = getelementptr i8, ptr %one, i64 9
        %b = load i64, ptr %p, align 1
        call void @llvm.lifetime.end.p0(ptr %one)
        call void @llvm.lifetime.start.p0(ptr %two)
        store i64 %b, ptr %two
        %c = load i64, ptr %three
        %d = load i64, ptr %two
        %e = xor i64 %c, %d
        call void @llvm.lifetime.end.p0(ptr %two)
        store i64 %e, ptr %out""")
    made.add("addresses", """
        %n = ptrtoint ptr %in to i64
        %m = add i64 %n, 5
        %p = inttoptr i64 %m to ptr
        %a = load i32, ptr %p, align 1
        store i32 %a, ptr %out
        %is = icmp eq ptr %p, %in
        %was = icmp ugt ptr %p, %in
        %b = zext i1 %is to i8
        %c = zext i1 %was to i8
        %q = getelementptr i8, ptr %out, i64 8
        store i8 %b, ptr %q
        %r = getelementptr i8, ptr %out, i64 9
        store i8 %c, ptr %r""")


def written(byte):
    """Returns a byte as LLVM writes it in a text; a quotation mark and a backslash would end it or begin another byte."""
    return chr(byte) if 32 <= byte <= 126 and byte not in (34, 92) else f"\\{byte:02X}"


def of_constants(made):
    made.parts.append(f"""@every = internal constant [256 x i8] c"{''.join(map(written, range(256)))}"
@mixed = internal constant {{ i8, i32, [3 x i16], i64 }} {{ i8 1, i32 -2, [3 x i16] [i16 3, i16 -4, i16 5], i64 -6 }}
@places = internal constant [3 x {{ ptr, i64 }}] [{{ ptr, i64 }} {{ ptr @every, i64 7 }},
    {{ ptr, i64 }} {{ ptr getelementptr (i8, ptr @mixed, i64 4), i64 -1 }},
    {{ ptr, i64 }} {{ ptr getelementptr inbounds (i8, ptr @places, i64 24), i64 3 }}]
""")
    made.add("every_byte", """
        %c = load i8, ptr %in
        %k = zext i8 %c to i64
        %p = getelementptr i8, ptr @every, i64 %k
        %a = load i8, ptr %p
        store i8 %a, ptr %out""")
    made.add("mixed_parts", """
        call void @llvm.memcpy.p0.p0.i64(ptr %out, ptr @mixed, i64 4, i1 false)
        %p = getelementptr i8, ptr @mixed, i64 4
        %a = load i64, ptr %p, align 4
        %q = getelementptr i8, ptr %out, i64 8
        store i64 %a, ptr %q
        %b = load i64, ptr getelementptr (i8, ptr @mixed, i64 16)
        %r = getelementptr i8, ptr %out, i64 16
        store i64 %b, ptr %r""")
    made.add("through_places", """
        %c = load i8, ptr %in
        %d = urem i8 %c, 3
        %k = zext i8 %d to i64
        %p = getelementptr [3 x { ptr, i64 }], ptr @places, i64 0, i64 %k
        %pair = load { ptr, i64 }, ptr %p
        %to = extractvalue { ptr, i64 } %pair, 0
        %n = extractvalue { ptr, i64 } %pair, 1
        store i64 %n, ptr %out
        %x = load i32, ptr %to, align 4
        %is = icmp eq i8 %d, 2
        %y = select i1 %is, i32 0, i32 %x
        %q = getelementptr i8, ptr %out, i64 8
        store i32 %y, ptr %q
        %copied = getelementptr i8, ptr %out, i64 16
        store { ptr, i64 } %pair, ptr %copied
        %again = load ptr, ptr %copied
        %same = icmp eq ptr %again, %to
        %z = zext i1 %same to i64
        store i64 %z, ptr %copied""")


def of_control(made):
    made.add("loop", """
        br label %head
      head:
        %i = phi i64 [ 0, %0 ], [ %next, %head ]
        %a = phi i64 [ 1, %0 ], [ %b, %head ]
        %b = phi i64 [ 2, %0 ], [ %s, %head ]
        %x = phi i64 [ 5, %0 ], [ %y, %head ]
        %y = phi i64 [ 9, %0 ], [ %x, %head ]
        %s = add i64 %a, %b
        %next = add i64 %i, 1
        %n = load i8, ptr %in
        %most = and i8 %n, 31
        %w = zext i8 %most to i64
        %is = icmp ult i64 %next, %w
        br i1 %is, label %head, label %end
      end:
        store i64 %a, ptr %out
        %p = getelementptr i8, ptr %out, i64 8
        store i64 %x, ptr %p
        %q = getelementptr i8, ptr %out, i64 16
        store i64 %y, ptr %q""")
    cases = " ".join(f"i8 {k}, label %b{k % 3}" for k in (0, 1, 3, -1, 127, -128))
    made.add("cases", f"""
        %c = load i8, ptr %in
        switch i8 %c, label %other [ {cases} ]
      b0:
        br label %end
      b1:
        br label %end
      b2:
        br label %end
      other:
        %o = add i8 %c, 1
        br label %end
      end:
        %r = phi i8 [ 10, %b0 ], [ 11, %b1 ], [ 12, %b2 ], [ %o, %other ]
        store i8 %r, ptr %out""")
    made.parts.append("""define internal { i64, ptr } @pair(i64 %a, ptr %p) {
  %q = getelementptr i8, ptr %p, i64 %a
  %x = insertvalue { i64, ptr } poison, i64 %a, 0
  %y = insertvalue { i64, ptr } %x, ptr %q, 1
  ret { i64, ptr } %y
}
""")
    made.add("calls", """
        %c = load i8, ptr %in
        %k = and i8 %c, 15
        %n = zext i8 %k to i64
        %p = call { i64, ptr } @pair(i64 %n, ptr %in)
        %to = extractvalue { i64, ptr } %p, 1
        %a = load i64, ptr %to, align 1
        %f = freeze i64 %a
        store i64 %f, ptr %out""")
    made.declare("outside", "i64", "i64", "i8")
    made.add("outside_call", """
        %a = load i64, ptr %in
        %b = load i8, ptr %in
        %r = call i64 @outside(i64 %a, i8 %b)
        store i64 %r, ptr %out""")


def module(only=""):
    """Returns the text of the module and the names of its functions, or of those whose names have a text."""
    made = Made(only)
    for part in (of_numbers, of_functions, of_vectors, of_memory, of_constants, of_control):
        part(made)
    return made.text(), made.names


def operand_rows():
    """Returns buffers of operands: some of few values that are often at an edge, and some of any bytes."""
    numbers = random.Random(1)
    highest = [1 << bits - 1 for bits in (*WIDTHS, 8)]
    edges = [it.to_bytes(STEP, "little") for it in (0, 1, 2, (1 << 128) - 1, *highest, *(it - 1 for it in highest))]
    for k in range(ROWS):
        yield b"".join(numbers.choice(edges) if k % 2 else numbers.randbytes(STEP) for _ in range(ROOM // STEP))


def program(names):
    """Returns a program in C. With TRANSLATED the functions are in a file of this name, which it includes, and otherwise in an object
    file. The one that calls a function of the program itself takes a heap there."""
    rows = ",\n".join("{" + ",".join(map(str, row)) + "}" for row in operand_rows())
    declared = "\n".join(f"void {it}(uint8_t *out, const uint8_t *in);" for it in names)
    listed = "\n".join(f"ROW({it})" for it in names if it != WITH_HEAP)
    with_heap = f"ROW_WITH_HEAP({WITH_HEAP})" if WITH_HEAP in names else ""
    return f"""#ifdef TRANSLATED
#include TRANSLATED
struct heap {{ uint64_t called; }};
static uint64_t m_outside(struct heap *heap, uint64_t a, uint8_t b) {{ heap->called++; return a * 3 + b; }}
#define CALL(name, out, in) m_##name(out, in)
#define CALL_WITH_HEAP(name, out, in) m_##name(&heap, out, in)
static struct heap heap;
#else
#include <stdint.h>
#include <string.h>
{declared}
uint64_t outside(uint64_t a, uint8_t b) {{ return a * 3 + b; }}
#define CALL(name, out, in) name(out, in)
#define CALL_WITH_HEAP(name, out, in) name(out, in)
#endif
#include <stdio.h>

static uint8_t rows[{ROWS}][{ROOM}] = {{
{rows}
}};
static uint64_t in[{ROOM // 8}], out[{ROOM // 8}];

static void begin(int row)
{{
	memcpy(in, rows[row], sizeof in);
	memset(out, 0, sizeof out);
}}

static void tell(const char *name, int row)
{{
	const uint8_t *it = (const uint8_t *)out;
	size_t k, most = sizeof out;
	while (most && !it[most - 1])
		most--;
	printf("%s %d ", name, row);
	for (k = 0; k < most; k++)
		printf("%02x", it[k]);
	printf("\\n");
}}

int main(void)
{{
	int row;
	for (row = 0; row < {ROWS}; row++) {{
#define ROW(name) begin(row), CALL(name, (uint8_t *)out, (uint8_t *)in), tell(#name, row);
#define ROW_WITH_HEAP(name) begin(row), CALL_WITH_HEAP(name, (uint8_t *)out, (uint8_t *)in), tell(#name, row);
{listed}
{with_heap}
	}}
	return 0;
}}
"""

