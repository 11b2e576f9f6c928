"""Builds the library for C by LLVM and by Rattle's own compiler, and calls it from Python. Also counts the checks of a
script."""
import ctypes
import itertools
import json
import os
import re
import shutil
import subprocess

import squares
from growths import TOP
from squares import MARGIN, ascii_of

STRICT = ["-std=c11", "-O1", "-Wall", "-Wextra", "-pedantic", "-Werror", f"-I{TOP}/include"]
# The library that is installed, and another one; what `make` is told of them.
BUILDS = {"LLVM": [], "Rattle's own compiler": ["LIBRARY_FLAGS=--cpu x86-64 --backend rattle", "LIBRARY_OUT=out/by-rattle/lib"]}
LONG = 7200  # seconds: what stands below the library is proved again if no earlier run kept it
LEVELS = "LMQH"
with open(f"{TOP}/python/qrproved/common.json", encoding="utf-8") as it:
    COMMON = json.load(it)  # what tests/library compares with the header
LIMITS, STATUSES = COMMON["limits"], [*COMMON["statuses"]]
ECI_UTF8, DEFAULT, GS1 = (COMMON["interpretations"][name] for name in ("UTF_8", "DEFAULT", "GS1"))
ECI_ROOM = 8  # ECI headers: more than any symbol here has
MARK = 7  # what a buffer or a struct contains before a call

counts = {"passed": 0, "failed": 0, "skipped": 0}


def check(name, got, wanted=True):
    counts["passed" if got == wanted else "failed"] += 1
    if got != wanted:
        print(f"FAILED: {name}: {str(got)[:300]}, and not {str(wanted)[:300]}")


def total():
    """Prints the counts and returns the status of the script."""
    print(f"{counts['passed']} passed, {counts['failed']} failed, {counts['skipped']} skipped")
    return 1 if counts["failed"] else 0


def said(*words, given=b"", env=None):
    """Returns what a program writes, or why there is no output to check."""
    ran = subprocess.run(words, input=given, capture_output=True, timeout=300, env=env)
    return ran.stdout.decode(errors="replace") if ran.returncode == 0 else f"status {ran.returncode}: {ran.stderr[-300:]!r}"


def is_newer():
    """Returns whether this processor has what x86-64-v2 asks for."""
    with open("/proc/cpuinfo", encoding="utf-8") as it:
        flags = set(re.search(r"^flags\s*: (.*)$", it.read(), re.MULTILINE).group(1).split())
    return {"cx16", "lahf_lm", "popcnt", "sse4_1", "sse4_2", "ssse3"} <= flags


def built(name, room):
    """Builds the library by a compiler, copies it into a folder of `room`, and returns the folder, or None if building
    fails."""
    out = f"{room}/{'llvm' if name == 'LLVM' else 'rattle'}"
    made = subprocess.run(["make", "-s", "-C", TOP, "lib", *BUILDS[name]], capture_output=True, timeout=LONG)
    check(f"{name}: make lib", (made.returncode, made.stderr[-300:] if made.returncode else b""), (0, b""))
    if made.returncode:
        return None
    place = dict(it.split("=", 1) for it in BUILDS[name]).get("LIBRARY_OUT", "crates/qrproved/out/lib")
    os.mkdir(out)
    for file in ("libqrproved.a", "libqrproved.so.1"):
        shutil.copy(f"{TOP}/{place}/{file}", out)
    os.symlink(f"{out}/libqrproved.so.1", f"{out}/libqrproved.so")
    return out


def bytes_of(*names):
    return [(name, ctypes.c_uint8) for name in names]


class Symbol(ctypes.Structure):
    _fields_ = bytes_of("version", "side", "level", "mask")


class Series(ctypes.Structure):
    _fields_ = bytes_of("count", "side")


HEADED = ("version", "has_header", "position", "last", "parity", "fnc1", "application", "has_kanji")


class Eci(ctypes.Structure):
    _fields_ = [("begin", ctypes.c_uint64), ("number", ctypes.c_uint32), ("unused", ctypes.c_uint32)]


class Content(ctypes.Structure):
    _fields_ = [("len", ctypes.c_uint64), ("eci_count", ctypes.c_uint64), *bytes_of(*HEADED)]


class Mended(ctypes.Structure):
    _fields_ = [("len", ctypes.c_uint64), ("eci_count", ctypes.c_uint64), ("wrong_modules", ctypes.c_uint32),
                *bytes_of(*HEADED, "level", "mask", "wrong_format_modules", "wrong_format_least", "changed_most", "changed_allowed",
                          "spent_most", "worst_misread", "worst_unknown", "worst_unknown_wrong")]


class Sheet(ctypes.Structure):
    _fields_ = [(name, ctypes.c_uint32) for name in ("width", "height", "left", "top", "across", "down", "columns", "rows", "first")]


class Found(ctypes.Structure):
    _fields_ = [*((name, ctypes.c_uint32) for name in ("x0", "y0", "x1", "y1", "x2", "y2", "x3", "y3", "side")),
                *bytes_of("quarter_turns", "is_inverse", "is_mirrored", "is_read")]


class Drawn(ctypes.Structure):
    _fields_ = bytes_of("drawing", "margin", "count", "side")


POINTER, BUFFER = [ctypes.c_void_p], [ctypes.c_void_p, ctypes.c_size_t]
INPUT, NUMBER = [ctypes.c_char_p, ctypes.c_size_t], [ctypes.c_uint32]
PARAMETERS = {
    "qrproved_encode": INPUT + NUMBER * 5 + BUFFER + POINTER,
    "qrproved_encode_bits": INPUT + NUMBER * 5 + BUFFER + POINTER,
    "qrproved_encode_logo": INPUT + NUMBER * 6 + BUFFER + POINTER * 2,
    "qrproved_encode_series": INPUT + NUMBER * 4 + BUFFER + POINTER,
    "qrproved_set_mask": BUFFER + NUMBER * 2,
    "qrproved_read": BUFFER + NUMBER + BUFFER * 2 + POINTER,
    "qrproved_mend": BUFFER + NUMBER + BUFFER * 2 + POINTER,
    "qrproved_draw": BUFFER + NUMBER * 4 + BUFFER + POINTER,
    "qrproved_draw_row": BUFFER + NUMBER * 4 + BUFFER + POINTER,
    "qrproved_image": BUFFER + NUMBER * 7 + BUFFER + POINTER,
    "qrproved_png": BUFFER + NUMBER * 6 + BUFFER + POINTER,
    "qrproved_document": BUFFER + NUMBER * 5 + BUFFER + POINTER,
    "qrproved_pdf": BUFFER + NUMBER * 6 + BUFFER + POINTER,
    "qrproved_sheets": BUFFER + NUMBER * 4 + POINTER + BUFFER + POINTER,
    "qrproved_parse_drawing": INPUT + BUFFER + POINTER,
    "qrproved_find": INPUT + NUMBER * 4 + BUFFER * 2 + POINTER,
    "qrproved_room": NUMBER * 5 + POINTER,
}


# The calls that serve machines with little memory alone. The crate for Rust and the WebAssembly module do not have them.
FOR_LITTLE_MEMORY = {"qrproved_draw_row", "qrproved_encode_bits"}


def measured(call, *asked):
    """Returns what a call writes, whose length it is first asked for, or a status."""
    written = ctypes.c_size_t(MARK)
    status = call(*asked, None, 0, ctypes.byref(written))
    if STATUSES[status] != "ROOM":
        return STATUSES[status]
    out = (ctypes.c_uint8 * written.value)()
    status = call(*asked, out, len(out), ctypes.byref(written))
    return bytes(out) if STATUSES[status] == "DONE" and written.value == len(out) else STATUSES[status]


class Library:
    """The shared library, called as C calls it. A case is an input, a version, a level and the number of a rule."""

    def __init__(self, path):
        self.take(ctypes.CDLL(path))
        for name, listed in PARAMETERS.items():
            call = getattr(self.library, name)
            call.restype, call.argtypes = ctypes.c_uint8, listed

    def take(self, library):
        """Takes a library, with buffers for what its calls write."""
        self.library = library
        self.modules, self.bytes = (ctypes.c_uint8 * LIMITS["SERIES_MAX"])(), (ctypes.c_uint8 * LIMITS["BYTES_MAX"])()
        self.ecis = (Eci * ECI_ROOM)()

    def symbol(self, case, interpretation=DEFAULT, boost=0):
        """Returns the symbol's modules and what the struct says of it, or a status."""
        data, version, level, rule = case
        symbol = Symbol()
        status = self.library.qrproved_encode(data, len(data), version, LEVELS.index(level), rule, interpretation, boost,
                                              self.modules, len(self.modules), ctypes.byref(symbol))
        return status or (bytes(self.modules[:symbol.side ** 2]), symbol)

    def with_logo(self, case, logo, share=50, interpretation=DEFAULT):
        """Returns the symbol's modules and what the struct says of it; a side, if the status is LOGO; or the name of another status."""
        data, version, level, rule = case
        symbol, largest = Symbol(), ctypes.c_uint8(MARK)
        status = self.library.qrproved_encode_logo(data, len(data), version, LEVELS.index(level), rule, interpretation, logo, share,
                                                   self.modules, len(self.modules), ctypes.byref(symbol), ctypes.byref(largest))
        if STATUSES[status] == "LOGO":
            return largest.value
        if largest.value != MARK:
            return f"{STATUSES[status]}, number changed"
        return STATUSES[status] if status else (bytes(self.modules[:symbol.side ** 2]), symbol)

    def encoded(self, case):
        """Returns the symbol's modules and their side, or a status."""
        got = self.symbol(case)
        return got if isinstance(got, int) else ([got[0]], got[1].side)

    def encoded_series(self, case, interpretation=DEFAULT):
        data, version, level, rule = case
        series = Series()
        status = self.library.qrproved_encode_series(data, len(data), version, LEVELS.index(level), rule, interpretation,
                                                     self.modules, len(self.modules), ctypes.byref(series))
        area = series.side ** 2
        return status or ([bytes(self.modules[k * area:(k + 1) * area]) for k in range(series.count)], series.side)

    def drawn(self, modules, side, count, drawing, margin, text, room):
        """Draws into a buffer. Returns the status and the length that the call reports."""
        written = ctypes.c_size_t(MARK)
        status = self.library.qrproved_draw(modules, len(modules), side, count, drawing, margin, text, room, ctypes.byref(written))
        return STATUSES[status], written.value

    def drawing(self, squares, side, drawing, margin):
        """Returns the drawing of squares. If a call reports a wrong length, or writes where it should not, returns what
        was wrong."""
        asked = b"".join(squares), side, len(squares), drawing, margin
        status, needed = self.drawn(*asked, None, 0)
        if status != "ROOM":
            return f"{status} where the length is asked for"
        text = (ctypes.c_uint8 * (needed + 1))(*[MARK] * (needed + 1))
        if self.drawn(*asked, text, needed - 1) != ("ROOM", needed) or bytes(text).count(MARK) != needed + 1:
            return "one byte too short, and not refused"
        if self.drawn(*asked, text, needed) != ("DONE", needed) or text[needed] != MARK:
            return "not drawn, or past the end"
        return bytes(text[:needed])

    def document(self, squares, side, format, margin, micrometres):
        """Returns the document of squares, or a status."""
        modules = b"".join(squares)
        return measured(self.library.qrproved_document, modules, len(modules), side, len(squares), format, margin, micrometres)

    def pdf(self, squares, side, margin, micrometres, dark, light):
        """Returns the PDF document of squares in colours 0xRRGGBBAA, or a status."""
        modules = b"".join(squares)
        return measured(self.library.qrproved_pdf, modules, len(modules), side, len(squares), margin, micrometres, dark, light)

    def sheets(self, squares, side, margin, micrometres, sheet):
        """Returns the document of labels, or a status. `sheet` has the numbers of the paper by their names."""
        modules = b"".join(squares)
        return measured(self.library.qrproved_sheets, modules, len(modules), side, len(squares), margin, micrometres, ctypes.byref(Sheet(**sheet)))

    def image(self, square, side, format, scale, margin, pixels_a_metre=0, left=0, top=0):
        """Returns the image of a square as a file, or a status."""
        return measured(self.library.qrproved_image, square, len(square), side, format, scale, margin, pixels_a_metre, left, top)

    def png(self, square, side, scale, margin, pixels_a_metre, dark, light):
        """Returns the image of a square as a PNG file in colours 0xRRGGBBAA, or a status."""
        return measured(self.library.qrproved_png, square, len(square), side, scale, margin, pixels_a_metre, dark, light)

    def parsed(self, text):
        """Returns the squares, their side, the number of the type and the margin. If the status is not 0, returns its
        name, and says so if the call changed the struct."""
        drawn = Drawn(*[MARK] * 4)
        status = self.library.qrproved_parse_drawing(text, len(text), self.modules, len(self.modules), ctypes.byref(drawn))
        if status:
            return STATUSES[status] + ("" if bytes(drawn).count(MARK) == 4 else ", struct changed")
        area = drawn.side ** 2
        modules = bytes(memoryview(self.modules)[:drawn.count * area])
        return [modules[k * area:(k + 1) * area] for k in range(drawn.count)], drawn.side, drawn.drawing, drawn.margin

    def room(self, version, level, mode, interpretation, header):
        """Returns how many characters fit, or the name of a status other than 0."""
        count = ctypes.c_uint32(MARK)
        status = self.library.qrproved_room(version, level, mode, interpretation, header, ctypes.byref(count))
        return count.value if not status else STATUSES[status] + ("" if count.value == MARK else ", number changed")

    def told_ecis(self, count):
        """Returns the ECI headers that a call wrote, each as the number of bytes before it and its own number. If the
        call wrote past them, returns a text that says so."""
        others = bytes(self.ecis)[count * ctypes.sizeof(Eci):]
        return [(it.begin, it.number) for it in self.ecis[:count]] if others.count(MARK) == len(others) else "other ECI headers changed"

    def read(self, modules, side):
        """Returns the bytes, the struct and the ECI headers, or a status."""
        content = Content()
        ctypes.memset(self.ecis, MARK, ctypes.sizeof(self.ecis))
        status = self.library.qrproved_read(modules, len(modules), side, self.bytes, len(self.bytes), self.ecis, len(self.ecis),
                                            ctypes.byref(content))
        return status or (bytes(self.bytes[:content.len]), content, self.told_ecis(content.eci_count))

    def mended(self, modules, side, room=LIMITS["BYTES_MAX"]):
        """Returns the fields of the struct and the bytes. If the status is not 0, returns its name, and says so if the
        call changed a buffer or the struct."""
        mended = Mended()
        ctypes.memset(self.bytes, MARK, len(self.bytes))
        ctypes.memset(self.ecis, MARK, ctypes.sizeof(self.ecis))
        ctypes.memset(ctypes.byref(mended), MARK, ctypes.sizeof(mended))
        status = self.library.qrproved_mend(modules, len(modules), side, self.bytes, room, self.ecis, len(self.ecis), ctypes.byref(mended))
        used = 0 if status else mended.len
        others = "" if bytes(self.bytes[used:]).count(MARK) == len(self.bytes) - used else ", other bytes changed"
        if status:
            is_unchanged = all(bytes(it).count(MARK) == ctypes.sizeof(it) for it in (mended, self.ecis))
            return STATUSES[status] + others + ("" if is_unchanged else ", structs changed")
        fields = {"ecis": self.told_ecis(mended.eci_count), **{name: getattr(mended, name) for name, _ in Mended._fields_}}
        return {"bytes": bytes(self.bytes[:used]), **fields} if not others else f"DONE{others}"


# Interpretations, each with the bits by which a symbol says it.
SAID = {DEFAULT: 0, GS1: 4, 0: 12, 20: 12, 127: 12, 128: 20, 16_383: 20, 16_384: 28, 999_999: 28}


def wrong_rooms(library):
    """Returns the rooms that are not those of the model, of all versions, levels, modes and interpretations."""
    wrong = []
    for version, level, mode, interpretation, header in itertools.product(range(1, 41), range(4), range(4), SAID, range(2)):
        got, is_kanji = library.room(version, level, mode, interpretation, header), mode == 3
        if is_kanji and interpretation < DEFAULT and interpretation != 20:
            wanted = "SETTINGS"
        else:
            wanted = squares.most_characters(version, LEVELS[level], 1 << mode, SAID[interpretation] + 20 * header)
        if got != wanted:
            wrong.append((version, level, mode, interpretation, header, got, wanted))
    return wrong


def edges_of_room(library):
    """Returns what the call says of numbers that are out of range, and of the greatest that are not."""
    rows = [(0, 0, 0, DEFAULT, 0), (41, 0, 0, DEFAULT, 0), (257, 0, 0, DEFAULT, 0), (1, 4, 0, DEFAULT, 0), (1, 0, 4, DEFAULT, 0),
            (1, 0, 0, GS1 + 1, 0), (1, 0, 0, DEFAULT, 2), (1, 0, 3, 26, 0), (40, 3, 3, GS1, 1)]
    return [library.room(*row) for row in rows]


EDGES_OF_ROOM = ["SETTINGS"] * 8 + [(10208 - 20 - 4 - 4 - 12) // 13]


def no_drawings(library):
    """Returns texts that look like drawings and are none, each with the number of modules that it states, or 0. They
    are drawings of each type with a change, one of half blocks whose characters are shorter, the path of a document
    without what comes before it, and a path on the largest canvas. If the text of half blocks or the path alone were
    drawn again, the drawing would be longer than the text."""
    squares, side = library.encoded((b"7" * 7089, 40, "L", 0))
    *texts, document = (library.drawing(squares * 16, side, drawing, MARGIN) for drawing in range(4))
    width, path = side + 2 * MARGIN, document[document.index(b"M"):]
    return [*((text[:-2] + b"-\n", 0) for text in texts), (document[:-2] + b"-\n", 16 * width * width),
            (b"\xe2" + texts[2].replace(b"\xe2\x96", b""), 0), (b"<%s%d %d " % (b"0 " * 9, width, 16 * width) + path, 16 * width * width),
            (b"<%s687 10992 " % (b"0 " * 9) + path, 687 * 10992)]
