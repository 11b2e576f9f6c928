"""Rows for the calls of the library. A row says in words what is tried, and then what a call is given and what it has to return and
write. The values were worked out by hand, are those of the standard (ISO/IEC 18004:2015), or come from another encoder. None comes from
the library. 1-M stands for version 1 and level M.

Before a call each byte that it might write is MARK. Its buffer is longer than the room that the call is told of."""
import ctypes
import functools
import itertools
import operator
import zlib
from collections import Counter
from functools import partial
from typing import NamedTuple

from damage import inverted, unread
from libraries import DEFAULT, ECI_UTF8, GS1, LEVELS, MARK, STATUSES, Content, Drawn, Found, Library, Mended, Series, Sheet, Symbol, check
from samples import EIGHT_DIGITS, LETTER
from squares import blocks, codewords_of, correction_len, data_of, interleaved, largest_logo, layout, side_of, square_of

SPARE = 8  # bytes of a buffer after the room that a call is told of
# Numbers of levels and rules.
L, M, Q, H = range(4)
AUTO, BYTES_ONLY, WITH_KANJI = range(3)
NUMERIC, ALPHANUMERIC, BYTE, KANJI = range(4)
ASCII, ASCII_INVERSE, UTF8, SVG = range(4)
SVG_MM, EPS, PDF = range(3)
PNG, PBM, ESCPOS, TSPL, ZPL = range(5)
MOST_MODULES = 177 * 177  # of a symbol, which is one of version 40

# ---- calls

class Outcome(NamedTuple):
    """What a call returns, the struct or number that it may set, and its buffer without the MARKs at the end. (No result ends with
    this byte.)"""
    status: str
    told: object
    written: bytes


def called(call, given, told, room, after=()):
    """Makes a call with a buffer of which it may write the first bytes."""
    buffer = (ctypes.c_uint8 * (room + SPARE))(*[MARK] * (room + SPARE))
    ctypes.memset(ctypes.byref(told), MARK, ctypes.sizeof(told))
    status = call(*given, buffer, room, *after, ctypes.byref(told))
    return Outcome(STATUSES[status], told, bytes(buffer).rstrip(bytes([MARK])))


def verdict(it):
    """Returns the status. If it is not DONE, says so if the call changed the buffer or the struct."""
    if it.status == "DONE":
        return it.status
    is_same = bytes(it.told).count(MARK) == ctypes.sizeof(it.told)
    return it.status + (", buffer changed" if it.written else "") + ("" if is_same else ", struct changed")


def fields(struct, *names):
    return tuple(getattr(struct, name) for name in names)


def told_by(it, *names):
    """Returns these fields of the struct. If the status is not DONE, returns the verdict."""
    return fields(it.told, *names) if it.status == "DONE" else verdict(it)


def encode(library, data, version, level, rule, interpretation=DEFAULT, boost=0, room=MOST_MODULES, call="qrproved_encode"):
    """Encodes an input. There is room for each symbol if the room is not given."""
    given = data, len(data), version, level, rule, interpretation, boost
    return called(getattr(library.library, call), given, Symbol(), room)


encode_bits = partial(encode, call="qrproved_encode_bits")


def encode_series(library, data, version, level, rule, room):
    return called(library.library.qrproved_encode_series, (data, len(data), version, level, rule, DEFAULT), Series(), room)


def read(library, modules, side, room):
    return called(library.library.qrproved_read, (modules, len(modules), side), Content(), room, (None, 0))


def mend(library, modules, side, room):
    return called(library.library.qrproved_mend, (modules, len(modules), side), Mended(), room, (None, 0))


def parse_drawing(library, text, room):
    return called(library.library.qrproved_parse_drawing, (text, len(text)), Drawn(), room)


# The number that a call is to set, if it does not.
UNCHANGED = int.from_bytes(bytes([MARK]) * ctypes.sizeof(ctypes.c_size_t), "little")
# What the functions below return if a number is out of range.
SETTINGS = "SETTINGS", UNCHANGED, b""


def file_of(call, given, room):
    """Returns the status, the length that the call reports, and what it wrote."""
    it = called(call, given, ctypes.c_size_t(), room)
    return it.status, it.told.value, it.written


def done(text):
    return "DONE", len(text), text


def too_short(text):
    """What is returned if there is too little room for a text."""
    return "ROOM", len(text), b""


NO_SQUARES = "ROOM", 0, b""  # there are fewer modules than the numbers say


def draw(library, side, count, drawing, margin, room):
    return file_of(library.library.qrproved_draw, (SQUARES, len(SQUARES), side, count, drawing, margin), room)


def draw_row(library, side, drawing, margin, line, room):
    return file_of(library.library.qrproved_draw_row, (BITS, len(BITS), side, drawing, margin, line), room)


def document(library, side, count, format, margin, micrometres, room):
    return file_of(library.library.qrproved_document, (SQUARES, len(SQUARES), side, count, format, margin, micrometres), room)


def pdf(library, side, count, margin, micrometres, dark, light, room):
    return file_of(library.library.qrproved_pdf, (SQUARES, len(SQUARES), side, count, margin, micrometres, dark, light), room)


def written_document(library, modules, *settings):
    return file_of(library.library.qrproved_document, (modules, len(modules), *settings), 25_000)


def sheets(library, side, count, margin, micrometres, room, **changed):
    sheet = Sheet(**{**SHEET, **changed})
    return file_of(library.library.qrproved_sheets, (LABELS, len(LABELS), side, count, margin, micrometres, ctypes.byref(sheet)), room)


def image(library, side, format, scale, margin, pixels_a_metre, room):
    return file_of(library.library.qrproved_image, (SQUARE, len(SQUARE), side, format, scale, margin, pixels_a_metre, 0, 0), room)


def png(library, side, scale, margin, pixels_a_metre, room):
    return file_of(library.library.qrproved_png, (SQUARE, len(SQUARE), side, scale, margin, pixels_a_metre, 0x010203FF, 0xFFFFFFFF), room)


def written_png(library, modules, *settings):
    return file_of(library.library.qrproved_png, (modules, len(modules), *settings), 25_000)


def written_image(library, modules, *settings):
    return file_of(library.library.qrproved_image, (modules, len(modules), *settings), 25_000)


def sums_of(write, *given):
    """Returns the status, how many bytes were written, their sum, and the sum of the sums of the first byte, of the first two, and so
    on."""
    status, _, written = write(*given)
    return status, len(written), sum(written), sum(itertools.accumulate(written))


# ---- one symbol

# The bits of `LETTER`, one after the other: 441 of them take 55 bytes and a bit.
LETTER_AS_BITS = int("".join(map(str, LETTER)).ljust(56 * 8, "0"), 2).to_bytes(56, "big")
# The longest input is 113,425 digits.
DIGITS, LETTERS, TEN_KANJI = b"7" * 113_425, b"a" * 47_217, b"\x93\x5F" * 10


def symbol(library, call, data, version, level, rule, room):
    it = call(library, data, version, level, rule, room=room)
    return it.status, fields(it.told, "version", "side", "level", "mask"), it.written


SYMBOLS = [
    # two bytes more than the symbol takes
    ("a letter at 1-L", encode, b"A", 1, L, BYTES_ONLY, 443, ("DONE", (1, 21, L, 0), LETTER)),
    ("a letter at 1-L as bits", encode_bits, b"A", 1, L, BYTES_ONLY, 58, ("DONE", (1, 21, L, 0), LETTER_AS_BITS)),
]


def beginning_of_bits(library):
    """Returns the first five bytes of `LETTER` as bits, and the last one."""
    bits = encode_bits(library, b"A", 1, L, BYTES_ONLY).written
    return bits[:5], bits[55:]


# The first row is 11111110 01011011 11111, and the second 100 00010011 10010000 01.
BEGINNINGS = [("a letter at 1-L as bits, typed as bytes", (bytes([0xFE, 0x5B, 0xFC, 0x13, 0x90]), b"\x80"))]


def version_and_mask(library, *given):
    return told_by(encode(library, *given, room=441), "version", "mask")


# The masks are those of another encoder. If two masks have the same penalty, it is the first of them.
MASKS = [
    ("a letter at 1-Q, a tie of masks 0 and 4", b"g", 1, Q, AUTO, (1, 0)),
    ("five letters at 1-L", b"hello", 1, L, AUTO, (1, 7)),
    ("letters and digits at 1-L", b"ab012", 1, L, AUTO, (1, 3)),
    ("two letters at 1-L, a tie of masks 3 and 7", b"BR", 1, L, AUTO, (1, 3)),
    ("two letters at 1-L, a tie of masks 6 and 7", b"CE", 1, L, AUTO, (1, 6)),
]


def least_version(library, data, level, rule, interpretation=DEFAULT, smallest=1):
    it = encode(library, data, smallest, level, rule, interpretation)
    return it.told.version if it.status == "DONE" else verdict(it)


# The least versions that an input fits (Table 7).
LEAST_VERSIONS = [
    ("41 digits at L", DIGITS[:41], L, AUTO, 1),
    ("42 digits at L", DIGITS[:42], L, AUTO, 2),
    ("42 digits at L, from version 3 on", DIGITS[:42], L, AUTO, DEFAULT, 3, 3),
    ("7,089 digits at L", DIGITS[:7089], L, AUTO, 40),
    ("34 digits at M", DIGITS[:34], M, AUTO, 1),
    ("35 digits at M", DIGITS[:35], M, AUTO, 2),
    ("27 digits at Q", DIGITS[:27], Q, AUTO, 1),
    ("28 digits at Q", DIGITS[:28], Q, AUTO, 2),
    ("17 digits at H", DIGITS[:17], H, AUTO, 1),
    ("18 digits at H", DIGITS[:18], H, AUTO, 2),
    ("17 digits as bytes at L", DIGITS[:17], L, BYTES_ONLY, 1),
    ("18 digits as bytes at L", DIGITS[:18], L, BYTES_ONLY, 2),
    # they fit 1-L only if kanji mode is allowed
    ("ten kanji", TEN_KANJI, L, AUTO, 2),
    ("ten kanji as bytes", TEN_KANJI, L, BYTES_ONLY, 2),
    ("ten kanji with kanji mode", TEN_KANJI, L, WITH_KANJI, 1),
    # An ECI header takes 12, 20 or 28 bits, and FNC1 for GS1 data takes 4. At level L version 1 has a capacity of 152 bits. In byte
    # mode 17 bytes take 148 of them, 16 take 140 and 15 take 132. In numeric mode 41 digits take 151.
    ("17 letters", LETTERS[:17], L, AUTO, DEFAULT, 1),
    ("16 letters as UTF-8", LETTERS[:16], L, AUTO, ECI_UTF8, 1),
    ("17 letters as UTF-8", LETTERS[:17], L, AUTO, ECI_UTF8, 2),
    ("16 letters with ECI 127", LETTERS[:16], L, AUTO, 127, 1),
    ("16 letters with ECI 128", LETTERS[:16], L, AUTO, 128, 2),
    ("15 letters with ECI 16,383", LETTERS[:15], L, AUTO, 16_383, 1),
    ("15 letters with ECI 16,384", LETTERS[:15], L, AUTO, 16_384, 2),
    ("14 letters with ECI 999,999", LETTERS[:14], L, AUTO, 999_999, 1),
    ("17 letters as GS1 data", LETTERS[:17], L, AUTO, GS1, 1),
    ("41 digits", DIGITS[:41], L, AUTO, DEFAULT, 1),
    ("40 digits as GS1 data", DIGITS[:40], L, AUTO, GS1, 1),
    ("41 digits as GS1 data", DIGITS[:41], L, AUTO, GS1, 2),
]


def boosted(library, data, level):
    return told_by(encode(library, data, 1, level, AUTO, boost=1), "version", "level")


# Each row has the lowest level that is allowed, and the version and the level that the symbol gets (Table 7).
BOOSTED = [
    ("17 digits", DIGITS[:17], L, (1, H)),
    ("18 digits", DIGITS[:18], L, (1, Q)),
    ("27 digits", DIGITS[:27], L, (1, Q)),
    ("28 digits", DIGITS[:28], L, (1, M)),
    ("34 digits", DIGITS[:34], M, (1, M)),
    ("35 digits", DIGITS[:35], L, (1, L)),
    ("35 digits at M", DIGITS[:35], M, (2, Q)),
    ("42 digits", DIGITS[:42], L, (2, Q)),
    ("17 digits at H", DIGITS[:17], H, (1, H)),
    ("7,089 digits", DIGITS[:7089], L, (40, L)),
]


def codewords(library, data, version, level, begin, end):
    """Returns codewords of the symbol of an input in byte mode. The independent model says where they are in the square."""
    it = encode(library, data, version, level, BYTES_ONLY)
    return codewords_of(it.written, version, it.told.mask)[begin:end] if it.status == "DONE" else verdict(it)


# The data codewords of 60 bytes in byte mode at 5-Q. All but three of them are their own index. There are four blocks, of 15, 15, 16 and 16
# data codewords.
INDICES = bytes([0x43, 0xC1, *range(2, 61), 0xD0])
SIXTY_BYTES = bytes((a & 15) << 4 | b >> 4 for a, b in zip(INDICES[1:], INDICES[2:]))
INTERLEAVED = [
    ("the first two codewords of four blocks", SIXTY_BYTES, 5, Q, 0, 8, bytes([0x43, 15, 30, 46, 0xC1, 16, 31, 47])),
    ("the sixteenth of the two long blocks", SIXTY_BYTES, 5, Q, 60, 62, bytes([45, 0xD0])),
]


def with_logo(library, data, version, level, logo, share):
    """Returns the version and the level of the symbol, or the side of the largest logo, or the verdict."""
    symbol, largest = Symbol(), ctypes.c_uint8(MARK)
    buffer = (ctypes.c_uint8 * 31_329)()
    status = library.library.qrproved_encode_logo(data, len(data), version, level, AUTO, DEFAULT, logo, share, buffer, len(buffer),
                                                  ctypes.byref(symbol), ctypes.byref(largest))
    if STATUSES[status] == "LOGO":
        return largest.value
    return fields(symbol, "version", "level") if STATUSES[status] == "DONE" else STATUSES[status]


# In version 1 there is one block. The columns 10 and 9 of the middle are one strip, in which codeword 19 has the rows 9 to 12, and
# columns 12 and 11 another, in which codeword 14 has these rows. So the three rows and columns of the middle are in two codewords, and
# the two above and to the left of the middle in one. Of 1-L two codewords can be corrected, and of 1-H eight. (Table 9)
LOGOS = [
    ("a letter", b"A", 1, L, 3, 50, (1, H)),
    ("17 letters and no logo", LETTERS[:17], 1, L, 0, 50, (1, L)),
    ("17 letters and two modules", LETTERS[:17], 1, L, 2, 50, (1, L)),
    # version 2 has room for them up to level Q
    ("17 letters and three modules", LETTERS[:17], 1, L, 3, 50, (2, Q)),
    ("17 letters and less than one codeword", LETTERS[:17], 1, L, 2, 49, (2, Q)),
    ("17 letters at H", LETTERS[:17], 1, H, 2, 50, (3, H)),
    ("a letter and four modules", b"A", 1, L, 4, 50, (2, H)),
    ("a letter from version 5 on", b"A", 5, L, 3, 50, (5, H)),
    # the middle of version 7 is an alignment pattern of five rows and columns, in which no module belongs to a codeword
    ("a share of 0 and five modules", b"A", 1, L, 5, 0, (7, H)),
    ("a share of 0 and no logo", b"A", 1, L, 0, 0, (1, H)),
    ("no byte", b"", 1, L, 3, 50, "EMPTY"),
    ("no byte and a share of 76", b"", 1, L, 3, 76, "SETTINGS"),
    ("7,090 digits", DIGITS, 1, L, 177, 50, "TOO_LONG"),
    ("2,954 letters", b"a" * 2954, 1, L, 3, 50, "TOO_LONG"),
    ("178 modules", b"A", 1, L, 178, 50, "SETTINGS"),
    ("version 41", b"A", 41, L, 3, 50, "SETTINGS"),
    ("level 4", b"A", 1, 4, 3, 50, "SETTINGS"),
]
# The sides are those of the model.
LARGEST_LOGOS = [
    ("a letter in version 40", b"A", 40, H, 177, 75, largest_logo(40, "H", 75)),
    ("2,953 letters, which fit 40-L alone", b"a" * 2953, 1, L, 177, 50, largest_logo(40, "L", 50)),
    ("a letter", b"A", 1, L, 177, 50, max(largest_logo(version, level, 50) for version in range(1, 41) for level in "LMQH")),
]


def encoding_verdict(library, call, data, version, level, rule, room):
    return verdict(call(library, data, version, level, rule, room=room))


REFUSED_SYMBOLS = [
    ("no byte", encode, b"", 1, L, AUTO, 441, "EMPTY"),
    ("7,090 digits", encode, DIGITS[:7090], 1, L, AUTO, 441, "TOO_LONG"),
    ("2,954 letters", encode, LETTERS[:2954], 1, L, AUTO, 441, "TOO_LONG"),
    ("the longest input", encode, DIGITS, 1, L, AUTO, 441, "TOO_LONG"),
    ("2,954 digits as bytes", encode, DIGITS[:2954], 1, L, BYTES_ONLY, 441, "TOO_LONG"),
    ("version 0", encode, b"7", 0, L, AUTO, 441, "SETTINGS"),
    ("version 41", encode, b"7", 41, L, AUTO, 441, "SETTINGS"),
    ("version 257", encode, b"7", 257, L, AUTO, 441, "SETTINGS"),
    ("level 4", encode, b"7", 1, 4, AUTO, 441, "SETTINGS"),
    ("level 256", encode, b"7", 1, 256, AUTO, 441, "SETTINGS"),
    ("rule 256", encode, b"7", 1, L, 256, 441, "SETTINGS"),
    ("rule 3", encode, b"7", 1, L, 3, 441, "SETTINGS"),
    ("no byte at level 4", encode, b"", 1, 4, AUTO, 441, "SETTINGS"),
    ("440 bytes", encode, b"7", 1, H, AUTO, 440, "ROOM"),
    ("no room", encode, b"7", 1, H, AUTO, 0, "ROOM"),
    ("no byte as bits", encode_bits, b"", 1, L, AUTO, 56, "EMPTY"),
    ("7,090 digits as bits", encode_bits, DIGITS[:7090], 1, L, AUTO, 56, "TOO_LONG"),
    ("version 41 as bits", encode_bits, b"7", 41, L, AUTO, 56, "SETTINGS"),
    ("level 4 as bits", encode_bits, b"7", 1, 4, AUTO, 56, "SETTINGS"),
    ("55 bytes for bits", encode_bits, b"7", 1, H, AUTO, 55, "ROOM"),
    ("56 bytes for the bits of version 2", encode_bits, b"7", 2, H, AUTO, 56, "ROOM"),
    ("no room for bits", encode_bits, b"7", 1, H, AUTO, 0, "ROOM"),
]


def interpretation_verdict(library, data, rule, interpretation, boost):
    return verdict(encode(library, data, 1, L, rule, interpretation, boost))


# The separator of fields is the byte 1D (hexadecimal).
INTERPRETATIONS = [
    ("ECI 1,000,002", b"a", AUTO, 1_000_002, 0, "SETTINGS"),
    ("boost 2", b"a", AUTO, ECI_UTF8, 2, "SETTINGS"),
    ("boost 257", b"a", AUTO, ECI_UTF8, 257, "SETTINGS"),
    ("kanji as UTF-8", b"a", WITH_KANJI, ECI_UTF8, 0, "SETTINGS"),
    ("kanji as Shift JIS", b"a", WITH_KANJI, 20, 0, "DONE"),
    ("kanji in GS1 data", b"a", WITH_KANJI, GS1, 0, "DONE"),
    ("no byte as UTF-8", b"", AUTO, ECI_UTF8, 0, "EMPTY"),
    ("no GS1 data", b"", AUTO, GS1, 0, "EMPTY"),
    ("two separators", b"10a\x1D\x1D17261231", AUTO, GS1, 0, "FIELDS"),
    ("a field that begins with %", b"10a\x1D%", AUTO, GS1, 0, "FIELDS"),
    ("two separators as bytes", b"10a\x1D\x1D17", BYTES_ONLY, GS1, 0, "FIELDS"),
    ("two separators as UTF-8", b"\x1D\x1D", AUTO, ECI_UTF8, 0, "DONE"),
    ("two fields", b"10a%\x1D17261231", AUTO, GS1, 0, "DONE"),
]

# ---- a series

# In byte mode at version 1 and level H, the first of two symbols contains five of these eight letters.
PARTED = b"ABCDEFGH", 1, H, BYTES_ONLY


def series(library):
    """Returns what the struct says, the first modules of both symbols, and how many bytes were written."""
    it = encode_series(library, *PARTED, room=884)
    return it.status, fields(it.told, "count", "side"), it.written[:8], it.written[441:449], len(it.written)


EDGE = bytes([1, 1, 1, 1, 1, 1, 1, 0])  # of a finder pattern and its separator
SERIES = [("eight letters at 1-H", ("DONE", (2, 21), EDGE, EDGE, 882))]


def parts(library, data, version, level, rule):
    """Encodes a series, and reads its symbols. Returns how many bytes each of them contains, if their headers are those of this series and
    their bytes are the input."""
    got = library.encoded_series((data, version, LEVELS[level], rule))
    if isinstance(got, int):
        return STATUSES[got]
    squares, side = got
    found = [library.read(square, side) for square in squares]
    if any(isinstance(it, int) for it in found):
        return found
    parity = functools.reduce(operator.xor, data)
    headers = [(1, k, len(squares) - 1, parity) for k in range(len(squares))] if len(squares) > 1 else [(0, 0, 0, 0)]
    is_whole = b"".join(it[0] for it in found) == data and [fields(it[1], *HEADER) for it in found] == headers
    return [len(it[0]) for it in found] if is_whole else found


PARTS = [
    ("7 letters at 1-H", b"ABCDEFG", 1, H, BYTES_ONLY, [7]),
    ("8 letters at 1-H", b"ABCDEFGH", 1, H, BYTES_ONLY, [5, 3]),
    # the longest input in byte mode and the longest of digits that 16 symbols at 1-H can hold, and the longest in byte mode at 40-L
    ("80 letters at 1-H", LETTERS[:80], 1, H, BYTES_ONLY, [5] * 16),
    ("176 digits at 1-H", DIGITS[:176], 1, H, AUTO, [11] * 16),
    ("47,216 letters at 40-L", LETTERS[:47_216], 40, L, BYTES_ONLY, [2951] * 16),
]


def series_verdict(library, *given):
    return verdict(encode_series(library, *given))


REFUSED_SERIES = [
    ("no byte", b"", 1, H, BYTES_ONLY, 882, "EMPTY"),
    ("81 letters", LETTERS[:81], 1, H, BYTES_ONLY, 882, "TOO_MANY"),
    ("177 digits", DIGITS[:177], 1, H, AUTO, 882, "TOO_MANY"),
    ("the longest input", DIGITS, 1, H, AUTO, 882, "TOO_MANY"),
    ("47,217 letters at 40-L", LETTERS, 40, L, BYTES_ONLY, 16 * MOST_MODULES, "TOO_MANY"),
    ("version 0", LETTERS[:8], 0, H, BYTES_ONLY, 882, "SETTINGS"),
    ("version 41", LETTERS[:8], 41, H, BYTES_ONLY, 882, "SETTINGS"),
    ("version 257", LETTERS[:8], 257, H, BYTES_ONLY, 882, "SETTINGS"),
    ("level 4", LETTERS[:8], 1, 4, BYTES_ONLY, 882, "SETTINGS"),
    ("rule 3", LETTERS[:8], 1, H, 3, 882, "SETTINGS"),
    ("881 bytes", LETTERS[:8], 1, H, BYTES_ONLY, 881, "ROOM"),
]

# ---- how much fits

# `EDGES_OF_ROOM` of libraries.py has the rows with numbers that are out of range.
ROOMS = [
    # Table 7
    ("digits at 1-L", 1, L, NUMERIC, DEFAULT, 0, 41),
    ("digits at 40-L", 40, L, NUMERIC, DEFAULT, 0, 7089),
    ("characters of alphanumeric mode at 1-L", 1, L, ALPHANUMERIC, DEFAULT, 0, 25),
    ("characters of alphanumeric mode at 40-L", 40, L, ALPHANUMERIC, DEFAULT, 0, 4296),
    ("bytes at 1-L", 1, L, BYTE, DEFAULT, 0, 17),
    ("bytes at 40-L", 40, L, BYTE, DEFAULT, 0, 2953),
    ("kanji at 1-L", 1, L, KANJI, DEFAULT, 0, 10),
    ("kanji at 40-L", 40, L, KANJI, DEFAULT, 0, 1817),
    # What comes before the segment takes 12, 20 or 28 bits for an ECI header, 4 for FNC1, and 20 for a structured append header. These
    # counts were worked out by hand from 152 bits at 1-L and 72 bits at 1-H.
    ("ECI 26", 1, L, BYTE, 26, 0, 16),
    ("ECI 127", 1, L, BYTE, 127, 0, 16),
    ("ECI 128", 1, L, BYTE, 128, 0, 15),
    ("ECI 16,383", 1, L, BYTE, 16_383, 0, 15),
    ("ECI 16,384", 1, L, BYTE, 16_384, 0, 14),
    ("GS1 data", 1, L, NUMERIC, GS1, 0, 40),
    ("a symbol of a series", 1, L, BYTE, DEFAULT, 1, 15),
    ("an ECI header in a series", 1, L, ALPHANUMERIC, 999_999, 1, 16),
    ("kanji in Shift JIS", 1, L, KANJI, 20, 0, 9),
    ("GS1 data of a series at 1-H", 1, H, KANJI, GS1, 1, 2),
]

# ---- symbols that are read

# A symbol at 1-M whose data codewords begin with the bits 0110, which are no mode indicator.
ANOTHER_MODE = square_of(1, "M", 0, interleaved(1, "M", b"\x60" * 16))


def places(*pairs):
    """Returns the modules in these rows and columns of a symbol of version 1."""
    return [21 * row + column for row, column in pairs]


def wrong(*pairs):
    """Returns `EIGHT_DIGITS` with these modules inverted."""
    return inverted(EIGHT_DIGITS, places(*pairs))


HEADER = "has_header", "position", "last", "parity"


def content(library, modules, room):
    it = read(library, modules, 21, room)
    return it.status, it.written, fields(it.told, "len", "version", *HEADER)


DIGITS_READ = "DONE", b"01234567", (8, 1, 0, 0, 0, 0)
# There is room for two bytes more.
READ = [
    ("eight digits", EIGHT_DIGITS, 10, DIGITS_READ),
    # each byte but 0 stands for a dark module, so 200 means the same as 1
    ("eight digits whose dark modules are 200", EIGHT_DIGITS.replace(b"\1", b"\xC8"), 10, DIGITS_READ),
    ("a corner of a finder pattern inverted", wrong((0, 0)), 10, DIGITS_READ),
    ("a module of the second format information inverted", wrong((20, 8)), 10, DIGITS_READ),
]


def each_inverted(library):
    """Inverts each module of `EIGHT_DIGITS` alone. Returns how often which bytes are read, or none."""
    return Counter(content(library, inverted(EIGHT_DIGITS, [place]), 8)[:2] for place in range(441))


# 15 modules are the first copy of the format information, 208 belong to codewords, and all others are ignored.
EACH_INVERTED = [("each module alone", {("FORMAT", b""): 15, ("CHECK", b""): 208, ("DONE", b"01234567"): 218})]


def remainder_inverted(library):
    """Inverts each of the modules after the 44 codewords of version 2 alone. Returns the bytes that are read."""
    square = encode(library, b"A", 2, L, AUTO).written.ljust(625, b"\0")
    return [read(library, inverted(square, [place]), 25, 8).written for place in layout(2).remainder]


REMAINDERS = [("each remainder bit alone", [b"A"] * 7)]


def read_back(library, data, version, level, rule):
    """Encodes an input, and reads the symbol. Returns the mode indicator of the first segment, which the independent model finds, the bytes
    that are read, the version, and whether there are kanji."""
    symbol = encode(library, data, version, level, rule)
    if symbol.status != "DONE":
        return verdict(symbol)
    first = data_of(version, LEVELS[level], codewords_of(symbol.written, version, symbol.told.mask))[0]
    it = read(library, symbol.written, symbol.told.side, len(data))
    return first >> 4, it.written, *fields(it.told, "version", "has_kanji")


# The mode indicators are those of Table 2.
READ_BACK = [
    ("eight digits at 1-M", b"01234567", 1, M, AUTO, (1, b"01234567", 1, 0)),
    ("letters and digits as bytes at 1-L", b"ab012", 1, L, BYTES_ONLY, (4, b"ab012", 1, 0)),
    ("two kanji at 1-L", b"\x93\x5F\xE4\xAA", 1, L, WITH_KANJI, (8, b"\x93\x5F\xE4\xAA", 1, 1)),
    *((f"a letter at {version}-{LEVELS[level]}", b"A", version, level, AUTO, (2, b"A", version, 0)) for version in range(1, 41) for level in range(4)),
]


def part_of_series(library, position):
    """Returns one of the two symbols of `PARTED`. If the library does not write it, returns light modules, so that the row fails."""
    return encode_series(library, *PARTED, room=882).written.ljust(882, b"\0")[441 * position:441 * (position + 1)]


def read_part(library, position):
    return content(library, part_of_series(library, position), 5)


READ_PARTS = [
    ("the first symbol of a series", 0, ("DONE", b"ABCDE", (5, 1, 1, 0, 1, 0x08))),
    ("the second symbol of a series", 1, ("DONE", b"FGH", (3, 1, 1, 1, 1, 0x08))),
]


def reading_verdict(library, modules, side, room):
    return verdict(read(library, modules, side, room))


UNREAD = [
    ("no side", EIGHT_DIGITS, 0, 8, "SIDE"),
    ("side 20", EIGHT_DIGITS, 20, 8, "SIDE"),
    ("side 22", EIGHT_DIGITS, 22, 8, "SIDE"),
    ("side 181", EIGHT_DIGITS, 181, 8, "SIDE"),
    ("side 277", EIGHT_DIGITS, 277, 8, "SIDE"),
    *((f"a light square of side {side}", bytes(side * side), side, 8, status)
      for side, status in ((1, "SIDE"), (17, "SIDE"), (20, "SIDE"), (21, "FORMAT"), (22, "SIDE"), (176, "SIDE"), (177, "FORMAT"))),
    ("440 modules", EIGHT_DIGITS[:-1], 21, 8, "ROOM"),
    ("room for 7 bytes", EIGHT_DIGITS, 21, 7, "ROOM"),
    ("another format information", wrong((0, 8)), 21, 8, "FORMAT"),
    ("another first codeword", wrong((20, 20)), 21, 8, "CHECK"),
    ("another last codeword", wrong((12, 0)), 21, 8, "CHECK"),
    ("another mode", ANOTHER_MODE, 21, 8, "SEGMENTS"),
]

# ---- symbols that are mended

# Nine modules of a symbol at 1-M, each in a different codeword.
CODEWORDS = (20, 20), (16, 20), (12, 20), (9, 18), (13, 18), (17, 18), (20, 16), (16, 16), (12, 16)
# Four modules of the first copy of the format information, then four of the second.
FORMATS = (0, 8), (1, 8), (2, 8), (3, 8), (8, 20), (8, 19), (8, 18), (8, 17)
DAMAGE = "wrong_modules", "wrong_format_modules", "wrong_format_least", "changed_most", "spent_most", "worst_misread", "worst_unknown"


def mended_digits(library, *pairs):
    """Mends `EIGHT_DIGITS` with these modules wrong. There is room for two bytes more."""
    it = mend(library, wrong(*pairs), 21, 10)
    others = fields(it.told, "len", "version", "level", "mask", "changed_allowed", "has_kanji", *HEADER)
    return it.status, it.written, others, dict(zip(DAMAGE, fields(it.told, *DAMAGE)))


def mended_as(wrong_modules, wrong_format_modules, wrong_format_least, changed_most, spent_most):
    """Returns what mending eight digits has to return. At 1-M up to four misread codewords of the 26 can be corrected."""
    damage = wrong_modules, wrong_format_modules, wrong_format_least, changed_most, spent_most, changed_most, 0
    return "DONE", b"01234567", (8, 1, M, 0, 4, 0, 0, 0, 0, 0), dict(zip(DAMAGE, damage))


MENDED_DIGITS = [
    ("as drawn", mended_as(0, 0, 0, 0, 0)),
    ("a module of the timing pattern", (6, 9), mended_as(1, 0, 0, 0, 0)),
    ("a module of the timing pattern and one of a finder pattern", (6, 9), (0, 0), mended_as(2, 0, 0, 0, 0)),
    ("one of the format information", *FORMATS[:1], mended_as(1, 1, 0, 0, 0)),
    ("three of its first copy", *FORMATS[:3], mended_as(3, 3, 0, 0, 0)),
    ("four of its first copy", *FORMATS[:4], mended_as(4, 4, 0, 0, 0)),
    ("seven of the format information", *FORMATS[:7], mended_as(7, 7, 3, 0, 0)),
    ("a codeword", *CODEWORDS[:1], mended_as(1, 0, 0, 1, 2)),
    ("four codewords", *CODEWORDS[:4], mended_as(4, 0, 0, 4, 8)),
]


def mended_unknown(library, unknown, pairs):
    """Mends `EIGHT_DIGITS` with modules that are not known, and others that are wrong. Returns the bytes, the mask and the damage."""
    it = mend(library, unread(wrong(*pairs), places(*unknown)), 21, 8)
    damage = told_by(it, "wrong_modules", "wrong_format_modules", "changed_most", "spent_most", "worst_misread", "worst_unknown")
    return (it.written, it.told.mask, damage) if it.status == "DONE" else damage


def mended_with(*damage):
    """Returns what mending eight digits with this damage has to return."""
    return b"01234567", 0, damage


# At 1-M eight of the ten error correction codewords correct errors, and two only detect them. A codeword with a module that is not
# known uses up one of the eight, and a misread codeword uses up two.
MENDED_UNKNOWN = [
    ("no module", (), (), mended_with(0, 0, 0, 0, 0, 0)),
    ("five codewords with a module that is not known", CODEWORDS[:5], (), mended_with(5, 0, 0, 5, 0, 5)),
    ("eight codewords", CODEWORDS[:8], (), mended_with(8, 0, 0, 8, 0, 8)),
    ("nine codewords", CODEWORDS, (), "CHECK"),
    ("four, and two misread", CODEWORDS[:4], CODEWORDS[4:6], mended_with(6, 0, 2, 8, 2, 4)),
    ("five, and one misread", CODEWORDS[:5], CODEWORDS[6:7], mended_with(6, 0, 1, 7, 1, 5)),
    ("five, and two misread", CODEWORDS[:5], CODEWORDS[5:7], "CHECK"),
    ("five, and a module of the format information", CODEWORDS[:5], FORMATS[:1], mended_with(6, 1, 0, 5, 0, 5)),
    ("three modules of the format information", FORMATS[:3], (), mended_with(3, 3, 0, 0, 0, 0)),
]


def mended_part(library, position):
    """Mends a symbol of a series. The wrong module is a bit of its first codeword."""
    it = mend(library, inverted(part_of_series(library, position), places((20, 20))), 21, 5)
    damage = fields(it.told, "wrong_modules", "wrong_format_modules", "changed_most", "changed_allowed")
    return it.status, it.written, fields(it.told, "len", "version", "level", *HEADER), damage


MENDED_PARTS = [
    ("the first symbol of a series", 0, ("DONE", b"ABCDE", (5, 1, H, 1, 0, 1, 0x08), (1, 0, 1, 8))),
    ("the second symbol of a series", 1, ("DONE", b"FGH", (3, 1, H, 1, 1, 1, 0x08), (1, 0, 1, 8))),
]


def mending_verdict(library, modules, side, room):
    return verdict(mend(library, modules, side, room))


UNMENDED = [
    ("no side", EIGHT_DIGITS, 0, 8, "SIDE"),
    ("side 22", EIGHT_DIGITS, 22, 8, "SIDE"),
    ("side 181", EIGHT_DIGITS, 181, 8, "SIDE"),
    ("side 277", EIGHT_DIGITS, 277, 8, "SIDE"),
    ("440 modules", EIGHT_DIGITS[:-1], 21, 8, "ROOM"),
    ("room for 7 bytes", EIGHT_DIGITS, 21, 7, "ROOM"),
    ("a byte of no module", EIGHT_DIGITS[:-1] + b"\3", 21, 8, "SETTINGS"),
    ("four wrong modules of each copy", wrong(*FORMATS), 21, 8, "FORMAT"),
    ("five codewords", wrong(*CODEWORDS[:5]), 21, 8, "CHECK"),
    ("another mode", ANOTHER_MODE, 21, 8, "SEGMENTS"),
]

# ---- drawings

# A square of two rows, and after it the same square with the colours exchanged.
SQUARES = bytes([1, 0, 0, 200, 0, 1, 1, 0])
DRAWN = b"##  \n  ##\n  ##\n##  \n"
TEXTS = [
    ("two squares as ASCII", 2, 2, ASCII, 0, 80, done(DRAWN)),
    ("two squares as ASCIIi", 2, 2, ASCII_INVERSE, 0, 80, done(b"  ##\n##  \n##  \n  ##\n")),
    ("two squares as half blocks", 2, 2, UTF8, 0, 80, done("▄▀\n▀▄\n".encode())),
    ("two squares with a margin", 2, 2, ASCII, 1, 80,
     done(b"        \n  ##    \n    ##  \n        \n        \n    ##  \n  ##    \n        \n")),
]


def line(library, count, drawing, margin, number, begin=0, end=None):
    """Draws `EIGHT_DIGITS` so many times. Returns a line, counted from 0, or a part of it."""
    text = library.drawing([EIGHT_DIGITS] * count, 21, drawing, margin)
    return text if isinstance(text, str) else text.split(b"\n")[number][begin:end]


PATH = b'<path fill="#000000" d="M4 4h7v1h-7zM14 4h3v1h-3zM18 4h7v1h-7zM4 5h1v1h-1z'
PATH_OF_TWO = b'<path fill="#000000" d="M0 0h7v1h-7zM10 0h3v1h-3z'
SVG_HEAD = b'<svg xmlns="http://www.w3.org/2000/svg" version="1.1" viewBox="0 0 %d %d" shape-rendering="crispEdges">'
SVG_PAPER = b'<rect x="0" y="0" width="%d" height="%d" fill="#ffffff"/>'
TEXT_LINES = [
    ("the last line of the margin as ASCII", 1, ASCII, 4, 3, b" " * 58),
    ("the first row as ASCII", 1, ASCII, 4, 4, b"        ##############      ######  ##############        "),
    ("the first row as ASCIIi", 1, ASCII_INVERSE, 0, 0, b"              ######      ##              "),
    ("the first two rows as half blocks", 1, UTF8, 0, 0, " ▄▄▄▄▄ █▀▀ ▄▄█ ▄▄▄▄▄ ".encode()),
    ("the last row as half blocks", 1, UTF8, 0, 10, "▄▄▄▄▄▄▄█▄██▄█▄▄▄██▄█▄".encode()),
    ("the margin as half blocks", 1, UTF8, 4, 0, ("█" * 29).encode()),
    ("the second line of the margin as half blocks", 1, UTF8, 4, 1, ("█" * 29).encode()),
    ("the first two rows as half blocks in a margin", 1, UTF8, 4, 2, 0, 32, "████ ▄▄▄▄▄ █".encode()),
    ("the first line of SVG", 1, SVG, 4, 0, b'<?xml version="1.0" encoding="UTF-8"?>'),
    ("the head of SVG", 1, SVG, 4, 1, SVG_HEAD % (29, 29)),
    ("the paper of SVG", 1, SVG, 4, 2, SVG_PAPER % (29, 29)),
    ("the path of SVG", 1, SVG, 4, 3, 0, len(PATH), PATH),
    ("the end of the path", 1, SVG, 4, 3, -11, None, b'h1v1h-1z"/>'),
    ("the last line of SVG", 1, SVG, 4, 4, b"</svg>"),
    ("the head of SVG with two squares", 2, SVG, 0, 1, SVG_HEAD % (21, 42)),
    ("the paper of SVG with two squares", 2, SVG, 0, 2, SVG_PAPER % (21, 42)),
    ("the path of two squares", 2, SVG, 0, 3, 0, len(PATH_OF_TWO), PATH_OF_TWO),
]


def times(library, part, count, drawing, margin):
    """Draws `EIGHT_DIGITS` so many times. Returns how often a part is in the text."""
    text = library.drawing([EIGHT_DIGITS] * count, 21, drawing, margin)
    return text if isinstance(text, str) else text.count(part)


TIMES = [
    ("lines of ASCII", b"\n", 1, ASCII, 4, 29),
    ("lines of ASCIIi", b"\n", 1, ASCII_INVERSE, 0, 21),
    ("lines of half blocks", b"\n", 1, UTF8, 0, 11),
    ("lines of half blocks in a margin", b"\n", 1, UTF8, 4, 15),
    ("lines of SVG", b"\n", 1, SVG, 4, 5),
    ("lines of SVG with two squares", b"\n", 2, SVG, 0, 5),
    ("the path of the second square", b"zM0 21h7v1h-7zM10 21h3v1h-3z", 2, SVG, 0, 1),
]
REFUSED_TEXTS = [
    ("side 0", 0, 1, ASCII, 0, 8, SETTINGS),
    ("side 178", 178, 1, ASCII, 0, 8, SETTINGS),
    ("side 258", 258, 1, ASCII, 0, 8, SETTINGS),
    ("no square", 2, 0, ASCII, 0, 8, SETTINGS),
    ("17 squares", 1, 17, ASCII, 0, 8, SETTINGS),
    ("drawing 4", 2, 1, 4, 0, 8, SETTINGS),
    ("margin 101", 2, 1, ASCII, 101, 8, SETTINGS),
    ("three squares", 2, 3, ASCII, 0, 8, NO_SQUARES),
    ("no room", 2, 1, ASCII, 0, 0, too_short(DRAWN[:10])),
    ("one byte too few", 2, 1, ASCII, 0, 9, too_short(DRAWN[:10])),
]

# Three rows of three modules: `#.#`, `.##` and `..#`. The nine bits are 101011001, and the second byte has seven bits that have no
# meaning.
BITS = bytes([0b10101100, 0b11111111])
LINE = b"##  ##\n"
BLOCKS = "▄▀ \n".encode()
LINES = [
    ("line 0", 3, ASCII, 0, 0, 20, done(LINE)),
    ("line 1", 3, ASCII, 0, 1, 20, done(b"  ####\n")),
    ("line 2", 3, ASCII, 0, 2, 20, done(b"    ##\n")),
    ("line 0 with a margin", 3, ASCII, 1, 0, 20, done(b"          \n")),
    ("line 2 with a margin", 3, ASCII, 1, 2, 20, done(b"    ####  \n")),
    ("line 4 with a margin", 3, ASCII, 1, 4, 20, done(b"          \n")),
    ("line 0 as ASCIIi", 3, ASCII_INVERSE, 0, 0, 20, done(b"  ##  \n")),
    ("line 0 as half blocks", 3, UTF8, 0, 0, 20, done(BLOCKS)),
    ("line 1 as half blocks", 3, UTF8, 0, 1, 20, done("██▄\n".encode())),
]
REFUSED_LINES = [
    ("side 0", 0, ASCII, 0, 0, 7, SETTINGS),
    ("side 178", 178, ASCII, 0, 0, 7, SETTINGS),
    ("side 259", 259, ASCII, 0, 0, 7, SETTINGS),
    ("drawing 3", 3, SVG, 0, 0, 7, SETTINGS),
    ("margin 101", 3, ASCII, 101, 0, 7, SETTINGS),
    ("line 3", 3, ASCII, 0, 3, 7, SETTINGS),
    ("line 65,536", 3, ASCII, 0, 65_536, 7, SETTINGS),
    ("line 2 of half blocks", 3, UTF8, 0, 2, 7, SETTINGS),
    ("three bytes of bits", 5, ASCII, 0, 0, 7, NO_SQUARES),
    ("no room", 3, ASCII, 0, 0, 0, too_short(LINE)),
    ("one byte too few", 3, ASCII, 0, 0, 6, too_short(LINE)),
    ("one byte too few for half blocks", 3, UTF8, 0, 0, 7, too_short(BLOCKS)),
]

# ---- documents

# Documents of `SQUARES`. A module is an inch wide, which is 25,400 micrometres, and 72 points.
SQUARES_AS_SVG = b"""\
<?xml version="1.0" encoding="UTF-8"?>
<svg xmlns="http://www.w3.org/2000/svg" version="1.1" width="50.800mm" height="101.600mm" viewBox="0 0 2 4" shape-rendering="crispEdges">
<rect x="0" y="0" width="2" height="4" fill="#ffffff"/>
<path fill="#000000" d="M0 0h1v1h-1zM1 1h1v1h-1zM1 2h1v1h-1zM0 3h1v1h-1z"/>
</svg>
"""
SQUARES_AS_EPS = b"""\
%!PS-Adobe-3.0 EPSF-3.0
%%BoundingBox: 0 0 144 288
%%HiResBoundingBox: 0 0 144.000000 288.000000
%%LanguageLevel: 2
%%EndComments
gsave
72.000000 dup scale
1 setgray 0 0 2 4 rectfill
0 setgray
/b { 1 rectfill } bind def
0 3 1 b
1 2 1 b
1 1 1 b
0 0 1 b
grestore
%%EOF
"""
# (each line of the table of objects ends with a space)
SQUARES_AS_PDF = b"""\
%PDF-1.4
1 0 obj
<</Type/Catalog/Pages 2 0 R>>
endobj
2 0 obj
<</Type/Pages/Kids[3 0 R 5 0 R]/Count 2>>
endobj
3 0 obj
<</Type/Page/Parent 2 0 R/MediaBox[0 0 144.000000 144.000000]/Resources<<>>/Contents 4 0 R>>
endobj
4 0 obj
<</Length 76>>
stream
72.000000 0 0 72.000000 0 0 cm
1 g 0 0 2 2 re f
0 g
0 1 1 1 re
1 0 1 1 re
f
endstream
endobj
5 0 obj
<</Type/Page/Parent 2 0 R/MediaBox[0 0 144.000000 144.000000]/Resources<<>>/Contents 6 0 R>>
endobj
6 0 obj
<</Length 76>>
stream
72.000000 0 0 72.000000 0 0 cm
1 g 0 0 2 2 re f
0 g
1 1 1 1 re
0 0 1 1 re
f
endstream
endobj
xref
0 7
0000000000 65535 f\x20
0000000009 00000 n\x20
0000000054 00000 n\x20
0000000111 00000 n\x20
0000000219 00000 n\x20
0000000342 00000 n\x20
0000000450 00000 n\x20
trailer
<</Size 7/Root 1 0 R>>
startxref
573
%%EOF
"""
DOCUMENTS = [
    ("two squares as SVG", 2, 2, SVG_MM, 0, 25_400, 900, done(SQUARES_AS_SVG)),
    ("two squares as EPS", 2, 2, EPS, 0, 25_400, 900, done(SQUARES_AS_EPS)),
    ("two squares as PDF", 2, 2, PDF, 0, 25_400, 900, done(SQUARES_AS_PDF)),
]
# 51, 102 and 255 are fractions 0.2, 0.4 and 1 of 255, and 128 is 0.502 to three places.
DARK, LIGHT, CLEAR = 0x3366FFFF, 0xFF8000FF, 0xFF800000
WITHOUT_GROUND = SQUARES_AS_PDF.replace(b"1 g 0 0 2 2 re f\n0 g\n", b"0.200 0.400 1.000 rg\n")
# Each page has 34 bytes more, and its length a digit more.
IN_COLOURS = SQUARES_AS_PDF
for shown, instead in ((b"1 g 0 0", b"1.000 0.502 0.000 rg 0 0"), (b"\n0 g\n", b"\n0.200 0.400 1.000 rg\n"), (b"/Length 76", b"/Length 110"),
                       (b"0000000342", b"0000000377"), (b"0000000450", b"0000000485"), (b"startxref\n573", b"startxref\n643")):
    IN_COLOURS = IN_COLOURS.replace(shown, instead)
PDF_IN_COLOURS = [
    ("two colours", 2, 2, 0, 25_400, DARK, LIGHT, 900, done(IN_COLOURS)),
    ("no ground", 2, 2, 0, 25_400, DARK, CLEAR, 900, done(WITHOUT_GROUND)),
]
REFUSED_PDF = [
    ("side 0", 0, 1, 0, 1, DARK, LIGHT, 8, SETTINGS),
    ("side 178", 178, 1, 0, 1, DARK, LIGHT, 8, SETTINGS),
    ("no square", 2, 0, 0, 1, DARK, LIGHT, 8, SETTINGS),
    ("17 squares", 1, 17, 0, 1, DARK, LIGHT, 8, SETTINGS),
    ("margin 101", 2, 1, 101, 1, DARK, LIGHT, 8, SETTINGS),
    ("no width", 2, 1, 0, 0, DARK, LIGHT, 8, SETTINGS),
    ("a metre and more", 2, 1, 0, 1_000_001, DARK, LIGHT, 8, SETTINGS),
    ("a dark colour that is not opaque", 2, 1, 0, 1, DARK - 1, LIGHT, 8, SETTINGS),
    ("a dark colour that is not drawn", 2, 1, 0, 1, DARK - 255, LIGHT, 8, SETTINGS),
    ("a light colour that is not opaque", 2, 1, 0, 1, DARK, LIGHT - 1, 8, SETTINGS),
    ("a light colour that is hardly seen", 2, 1, 0, 1, DARK, CLEAR + 1, 8, SETTINGS),
    ("three squares", 2, 3, 0, 1, DARK, LIGHT, 8, NO_SQUARES),
    ("no room", 2, 2, 0, 25_400, DARK, LIGHT, 0, too_short(IN_COLOURS)),
    ("too little room", 2, 2, 0, 25_400, DARK, CLEAR, 9, too_short(WITHOUT_GROUND)),
]
REFUSED_DOCUMENTS = [
    ("side 0", 0, 1, SVG_MM, 0, 1, 8, SETTINGS),
    ("side 178", 178, 1, SVG_MM, 0, 1, 8, SETTINGS),
    ("no square", 2, 0, SVG_MM, 0, 1, 8, SETTINGS),
    ("17 squares", 1, 17, SVG_MM, 0, 1, 8, SETTINGS),
    ("format 3", 2, 1, 3, 0, 1, 8, SETTINGS),
    ("margin 101", 2, 1, SVG_MM, 101, 1, 8, SETTINGS),
    ("no width", 2, 1, SVG_MM, 0, 0, 8, SETTINGS),
    ("a metre and more", 2, 1, SVG_MM, 0, 1_000_001, 8, SETTINGS),
    ("three squares", 2, 3, SVG_MM, 0, 1, 8, NO_SQUARES),
    ("no room", 2, 2, EPS, 0, 25_400, 0, too_short(SQUARES_AS_EPS)),
    ("too little room", 2, 2, PDF, 0, 25_400, 9, too_short(SQUARES_AS_PDF)),
]

# Documents that were made by a program in Python that shares no code with the library; tests/printed has other programs read such
# documents. First one square, with a margin of one module, of which each is 254 micrometres wide, which is 0.72 points. Then two
# squares, with a margin of two modules, of which each is 333 micrometres wide.
TWO_PATTERNS = bytes([0, 1, 1, 1, 0, 0, 1, 1, 1]) + bytes([1, 0, 1, 0, 0, 0, 0, 1, 1])
ONE_AS_SVG = b"""\
<?xml version="1.0" encoding="UTF-8"?>
<svg xmlns="http://www.w3.org/2000/svg" version="1.1" width="1.270mm" height="1.270mm" viewBox="0 0 5 5" shape-rendering="crispEdges">
<rect x="0" y="0" width="5" height="5" fill="#ffffff"/>
<path fill="#000000" d="M2 1h2v1h-2zM1 2h1v1h-1zM1 3h3v1h-3z"/>
</svg>
"""
TWO_AS_SVG = b"""\
<?xml version="1.0" encoding="UTF-8"?>
<svg xmlns="http://www.w3.org/2000/svg" version="1.1" width="2.331mm" height="4.662mm" viewBox="0 0 7 14" shape-rendering="crispEdges">
<rect x="0" y="0" width="7" height="14" fill="#ffffff"/>
<path fill="#000000" d="M3 2h2v1h-2zM2 3h1v1h-1zM2 4h3v1h-3zM2 9h1v1h-1zM4 9h1v1h-1zM3 11h2v1h-2z"/>
</svg>
"""
ONE_AS_EPS = b"""\
%!PS-Adobe-3.0 EPSF-3.0
%%BoundingBox: 0 0 4 4
%%HiResBoundingBox: 0 0 3.600000 3.600000
%%LanguageLevel: 2
%%EndComments
gsave
0.720000 dup scale
1 setgray 0 0 5 5 rectfill
0 setgray
/b { 1 rectfill } bind def
2 3 2 b
1 2 1 b
1 1 3 b
grestore
%%EOF
"""
TWO_AS_EPS = b"""\
%!PS-Adobe-3.0 EPSF-3.0
%%BoundingBox: 0 0 7 14
%%HiResBoundingBox: 0 0 6.607559 13.215118
%%LanguageLevel: 2
%%EndComments
gsave
0.943937 dup scale
1 setgray 0 0 7 14 rectfill
0 setgray
/b { 1 rectfill } bind def
3 11 2 b
2 10 1 b
2 9 3 b
2 4 1 b
4 4 1 b
3 2 2 b
grestore
%%EOF
"""
ONE_AS_PDF = b"""\
%PDF-1.4
1 0 obj
<</Type/Catalog/Pages 2 0 R>>
endobj
2 0 obj
<</Type/Pages/Kids[3 0 R]/Count 1>>
endobj
3 0 obj
<</Type/Page/Parent 2 0 R/MediaBox[0 0 3.600000 3.600000]/Resources<<>>/Contents 4 0 R>>
endobj
4 0 obj
<</Length 85>>
stream
0.720000 0 0 0.720000 0 0 cm
1 g 0 0 5 5 re f
0 g
2 3 2 1 re
1 2 1 1 re
1 1 3 1 re
f
endstream
endobj
xref
0 5
0000000000 65535 f 
0000000009 00000 n 
0000000054 00000 n 
0000000105 00000 n 
0000000209 00000 n 
trailer
<</Size 5/Root 1 0 R>>
startxref
341
%%EOF
"""
TWO_AS_PDF = b"""\
%PDF-1.4
1 0 obj
<</Type/Catalog/Pages 2 0 R>>
endobj
2 0 obj
<</Type/Pages/Kids[3 0 R 5 0 R]/Count 2>>
endobj
3 0 obj
<</Type/Page/Parent 2 0 R/MediaBox[0 0 6.607559 6.607559]/Resources<<>>/Contents 4 0 R>>
endobj
4 0 obj
<</Length 85>>
stream
0.943937 0 0 0.943937 0 0 cm
1 g 0 0 7 7 re f
0 g
3 4 2 1 re
2 3 1 1 re
2 2 3 1 re
f
endstream
endobj
5 0 obj
<</Type/Page/Parent 2 0 R/MediaBox[0 0 6.607559 6.607559]/Resources<<>>/Contents 6 0 R>>
endobj
6 0 obj
<</Length 85>>
stream
0.943937 0 0 0.943937 0 0 cm
1 g 0 0 7 7 re f
0 g
2 4 1 1 re
4 4 1 1 re
3 2 2 1 re
f
endstream
endobj
xref
0 7
0000000000 65535 f 
0000000009 00000 n 
0000000054 00000 n 
0000000111 00000 n 
0000000215 00000 n 
0000000347 00000 n 
0000000451 00000 n 
trailer
<</Size 7/Root 1 0 R>>
startxref
583
%%EOF
"""
WRITTEN = [
    ("one square as SVG", TWO_PATTERNS, 3, 1, SVG_MM, 1, 254, done(ONE_AS_SVG)),
    ("one square as EPS", TWO_PATTERNS, 3, 1, EPS, 1, 254, done(ONE_AS_EPS)),
    ("one square as PDF", TWO_PATTERNS, 3, 1, PDF, 1, 254, done(ONE_AS_PDF)),
    ("two squares as SVG", TWO_PATTERNS, 3, 2, SVG_MM, 2, 333, done(TWO_AS_SVG)),
    ("two squares as EPS", TWO_PATTERNS, 3, 2, EPS, 2, 333, done(TWO_AS_EPS)),
    ("two squares as PDF", TWO_PATTERNS, 3, 2, PDF, 2, 333, done(TWO_AS_PDF)),
]
# A square of 60 by 60 modules.
STRIPES = bytes((row * row + 3 * column) % 7 < 3 for row in range(60) for column in range(60))
# Each module is a metre wide, so that numbers have many digits.
LARGE_DOCUMENTS = [
    ("as SVG", STRIPES, 60, 1, SVG_MM, 10, 1_000_000, ("DONE", 21_879, 1_497_457, 16_382_046_229)),
    ("as EPS", STRIPES, 60, 1, EPS, 10, 1_000_000, ("DONE", 15_681, 729_447, 5_776_970_116)),
    ("as PDF", STRIPES, 60, 1, PDF, 10, 1_000_000, ("DONE", 20_550, 1_049_029, 10_836_287_656)),
]

# ---- labels

# Three squares of two rows.
LABELS = SQUARES + bytes([1, 1, 0, 0])
# Paper of 6 by 5.5 inches, with two columns and two rows of places. The first row of the first sheet stays free.
SHEET = {"width": 152_400, "height": 139_700, "left": 12_700, "top": 6_350, "across": 63_500, "down": 57_150, "columns": 2, "rows": 2, "first": 2}
# The squares on this paper. A module is an inch wide. The first two squares are in the second row of the first page, and the third square
# is in the first place of the second page.
LABELS_AS_PDF = b"""\
%PDF-1.4
1 0 obj
<</Type/Catalog/Pages 2 0 R>>
endobj
2 0 obj
<</Type/Pages/Kids[3 0 R 5 0 R]/Count 2>>
endobj
3 0 obj
<</Type/Page/Parent 2 0 R/MediaBox[0 0 432.000000 396.000000]/Resources<<>>/Contents 4 0 R>>
endobj
4 0 obj
<</Length 193>>
stream
q 72.000000 0 0 72.000000 36.000000 72.000000 cm
1 g 0 0 2 2 re f
0 g
0 1 1 1 re
1 0 1 1 re
f
Q
q 72.000000 0 0 72.000000 216.000000 72.000000 cm
1 g 0 0 2 2 re f
0 g
1 1 1 1 re
0 0 1 1 re
f
Q
endstream
endobj
5 0 obj
<</Type/Page/Parent 2 0 R/MediaBox[0 0 432.000000 396.000000]/Resources<<>>/Contents 6 0 R>>
endobj
6 0 obj
<</Length 86>>
stream
q 72.000000 0 0 72.000000 36.000000 234.000000 cm
1 g 0 0 2 2 re f
0 g
0 1 2 1 re
f
Q
endstream
endobj
xref
0 7
0000000000 65535 f\x20
0000000009 00000 n\x20
0000000054 00000 n\x20
0000000111 00000 n\x20
0000000219 00000 n\x20
0000000460 00000 n\x20
0000000568 00000 n\x20
trailer
<</Size 7/Root 1 0 R>>
startxref
701
%%EOF
"""
SHEETS = [("three squares", 2, 3, 0, 25_400, 1000, done(LABELS_AS_PDF))]
REFUSED_SHEETS = [
    ("side 0", 0, 3, 0, 25_400, 12, SETTINGS),
    ("side 178", 178, 3, 0, 1, 12, SETTINGS),
    ("no square", 2, 0, 0, 25_400, 12, SETTINGS),
    ("10,001 squares", 2, 10_001, 0, 25_400, 12, SETTINGS),
    ("margin 101", 2, 3, 101, 1, 12, SETTINGS),
    ("no width", 2, 3, 0, 0, 12, SETTINGS),
    ("squares on one another", 2, 3, 0, 31_751, 12, SETTINGS),
    ("four squares", 2, 4, 0, 25_400, 12, NO_SQUARES),
    ("no room", 2, 3, 0, 25_400, 0, too_short(LABELS_AS_PDF)),
    ("too little room", 2, 3, 0, 25_400, 9, too_short(LABELS_AS_PDF)),
]


def on_paper(library, name, number):
    """Draws the three squares on paper of which one number is another one."""
    return sheets(library, 2, 3, 0, 25_400, 1000, **{name: number})


REFUSED_PAPER = [
    ("paper too wide", "width", 2_000_001, SETTINGS),
    ("paper too high", "height", 2_000_001, SETTINGS),
    ("a label over the right edge", "width", 126_999, SETTINGS),
    ("a label over the lower edge", "height", 114_299, SETTINGS),
    ("labels on one another in a row", "across", 50_799, SETTINGS),
    ("labels on one another in a column", "down", 50_799, SETTINGS),
    ("no column", "columns", 0, SETTINGS),
    ("101 columns", "columns", 101, SETTINGS),
    ("no row", "rows", 0, SETTINGS),
    ("101 rows", "rows", 101, SETTINGS),
    ("all places free", "first", 4, SETTINGS),
]

# ---- images

SQUARE = SQUARES[:4]
# Two lines of six pixels: three for each module.
BITMAP = b"P4\n6 6\n\xE0\xE0\xE0\x1C\x1C\x1C"
IMAGES = [("a bitmap", 2, PBM, 3, 0, 0, 15, done(BITMAP))]
REFUSED_IMAGES = [
    ("side 0", 0, PBM, 3, 0, 0, 13, SETTINGS),
    ("side 178", 178, PBM, 3, 0, 0, 13, SETTINGS),
    ("format 5", 2, 5, 3, 0, 0, 13, SETTINGS),
    ("scale 0", 2, PBM, 0, 0, 0, 13, SETTINGS),
    ("scale 101", 2, PBM, 101, 0, 0, 13, SETTINGS),
    ("margin 101", 2, PBM, 3, 101, 0, 13, SETTINGS),
    ("2^31 pixels a metre", 2, PBM, 3, 0, 1 << 31, 13, SETTINGS),
    ("three rows", 3, PBM, 3, 0, 0, 13, NO_SQUARES),
    ("one byte too few", 2, PBM, 3, 0, 0, 12, too_short(BITMAP)),
]

# Files that were made by a program in Python that shares no code with the library. Other programs were seen to read the PNG files, and
# a second program in Python those for printers. No printer was tried.
PATTERN = bytes([1, 0, 0, 0, 0, 1, 1, 1, 0])  # three by three modules: #.. ..# ##.
# A dark module, one pixel wide, without a margin.
ONE_PIXEL = bytes.fromhex(
    "89504E470D0A1A0A0000000D4948445200000001000000010100000000376EF92400000086494441547801EDFD0B8024657D2EFE3FC30BB497CA1407"
    "19376861F98F20C13FEB9696645B2D7D3702022AEEC55D16B90D418E104FD06E10B78D32FD8E3F854092194C722031C74B544244084109ABC684AFF6"
    "8975E4D7A6D905968B2C54D289EBE5086F4DF56ED72EB5F52C189D9E3363CFEC7FD7E490FF398FFAD6E779DED7BB72BFA0B90F008100802B4A591E00"
    "00000049454E44AE426082"
)
# The pattern, with a margin of one module, one pixel for each module.
NARROW = bytes.fromhex(
    "89504E470D0A1A0A0000000D4948445200000005000000050100000000A5141B480000008B494441547801EDFD0B8024657D2EFE3FC30BB497CA1407"
    "19376861F98F20C13FEB9696645B2D7D3702022AEEC55D16B90D418E104FD06E10B78D32FD8E3F854092194C722031C74B544244084109ABC684AFF6"
    "8975E4D7A6D905968B2C54D289EBE5086F4DF56ED72EB5F52C189D9E3363CFEC7FD7E490FF398FFAD6E779DED7BB72BF80B81B4FE2D3E03E15C1044C"
    "6C5DA68D0000000049454E44AE426082"
)
# The same with a margin of four modules, four pixels for a module, and 11,811 pixels a metre (300 dpi).
FOURFOLD = bytes.fromhex(
    "89504E470D0A1A0A0000000D494844520000002C0000002C010000000036FF67AC000000097048597300002E2300002E230178A53F76000000584944"
    "41547801EDFD0380ADEB96846BBE6DF768DBB66DDBB66DDBB66DDBB66DDB768FB6FB59CDDB67579F5BB566E6CECCB5E61CB3F88F2FE28D88AA63E6FF"
    "F5FBB4FF1183DFFA3FC2F05BFF4784DFFA3FF2FFFA7DDAFFF8065737FB7D564C31ED0000000049454E44AE426082"
)
# The same with a margin of four modules, and five pixels for a module.
FIVEFOLD = bytes.fromhex(
    "89504E470D0A1A0A0000000D494844520000003700000037010000000080A0EFEB00000068494441547801EDFD05A02E49D66D0B8D64018107EE10B8"
    "BBEB0EDCDDDDDD5D3FC8848DBBBBBBBB6B7CB8BB6BE20E0B4F20C8510D0F2BFEBFEBF6AD77F6D97222DBE71C73AC682B17FC43BE8FFA8F68EEEA1FE8"
    "1F5167D33FD03FA219EA1FE81FF10FF93EEA3FFE04591B731E2DB6A2A50000000049454E44AE426082"
)
# The same for a receipt printer, with a margin of one module, and three pixels for a module.
RECEIPT = bytes.fromhex(
    "1D76300002000F000000000000001C001C001C000070007000701F801F801F80000000000000"
)
# The same for a label printer that reads TSPL, 12 dots from the left and 345 from the upper edge.
TSPL_LABEL = bytes.fromhex(
    "4249544D41502031322C3334352C322C31352C302CFFFFFFFFFFFFE3FFE3FFE3FFFF8FFF8FFF8FE07FE07FE07FFFFFFFFFFFFF0D0A"
)
# The same for a label printer that reads ZPL, fifty dots for a module.
ZPL_LABEL = bytes.fromhex(
    "5E58410A5E464F31322C3334355E4746412C383030302C383030302C33322C2C3A3A3A3A3A3A3A3A3A3A3A3A3A3A3A3A3A3A3A3A3A3A3A3A3A3A3A3A"
    "3A3A3A3A3A3A3A3A3A3A3A3A3A3A3A3A3A3A3A3A3A52303352466759303A3A3A3A3A3A3A3A3A3A3A3A3A3A3A3A3A3A3A3A3A3A3A3A3A3A3A3A3A3A3A"
    "3A3A3A3A3A3A3A3A3A3A3A3A3A3A3A3A3A3A67573033524654303A3A3A3A3A3A3A3A3A3A3A3A3A3A3A3A3A3A3A3A3A3A3A3A3A3A3A3A3A3A3A3A3A3A"
    "3A3A3A3A3A3A3A3A3A3A3A3A3A3A3A523033674A4643674C303A3A3A3A3A3A3A3A3A3A3A3A3A3A3A3A3A3A3A3A3A3A3A3A3A3A3A3A3A3A3A3A3A3A3A"
    "3A3A3A3A3A3A3A3A3A3A3A3A3A3A2C3A3A3A3A3A3A3A3A3A3A3A3A3A3A3A3A3A3A3A3A3A3A3A3A3A3A3A3A3A3A3A3A3A3A3A3A3A3A3A3A3A3A3A3A3A"
    "3A3A3A3A5E46530A5E585A0A"
)
PATTERN_AS_BITMAP = b"P4\n15 15\n" + bytes.fromhex("0000" * 3 + "1C00" * 3 + "0070" * 3 + "1F80" * 3 + "0000" * 3)
FILES = [
    ("one module is one pixel", b"\1", 1, PNG, 1, 0, 0, 0, 0, done(ONE_PIXEL)),
    ("a narrow image without copies", PATTERN, 3, PNG, 1, 1, 0, 0, 0, done(NARROW)),
    ("a size", PATTERN, 3, PNG, 4, 4, 11_811, 0, 0, done(FOURFOLD)),
    ("five pixels a module", PATTERN, 3, PNG, 5, 4, 0, 0, 0, done(FIVEFOLD)),
    ("a bitmap", PATTERN, 3, PBM, 3, 1, 0, 0, 0, done(PATTERN_AS_BITMAP)),
    ("a receipt", PATTERN, 3, ESCPOS, 3, 1, 0, 0, 0, done(RECEIPT)),
    ("a label in TSPL", PATTERN, 3, TSPL, 3, 1, 0, 12, 345, done(TSPL_LABEL)),
    ("a label in ZPL", PATTERN, 3, ZPL, 50, 1, 0, 12, 345, done(ZPL_LABEL)),
]


def in_colours(file, *chunks):
    """Returns a PNG file with a palette in place of grey, and with these chunks before its data."""
    def chunk(kind, content):
        return len(content).to_bytes(4, "big") + kind + content + zlib.crc32(kind + content).to_bytes(4, "big")

    data = file.index(b"IDAT") - 4
    return file[:8] + chunk(b"IHDR", file[16:25] + b"\3\0\0\0") + file[33:data] + b"".join(chunk(*it) for it in chunks) + file[data:]


PALETTE = b"PLTE", bytes([0x12, 0x34, 0x56, 0xFE, 0xDC, 0xBA])
COLOURED = [
    ("two opaque colours", PATTERN, 3, 1, 1, 0, 0x123456FF, 0xFEDCBAFF, done(in_colours(NARROW, PALETTE))),
    ("colours and a size", PATTERN, 3, 4, 4, 11_811, 0x123456FF, 0xFEDCBAFF, done(in_colours(FOURFOLD, PALETTE))),
    ("a ground that is not seen", PATTERN, 3, 4, 4, 11_811, 0x123456FF, 0xFEDCBA00, done(in_colours(FOURFOLD, PALETTE, (b"tRNS", b"\xFF\0")))),
    ("a dark colour that is half opaque", b"\1", 1, 1, 0, 0, 0x12345680, 0xFEDCBAFF, done(in_colours(ONE_PIXEL, PALETTE, (b"tRNS", b"\x80\xFF")))),
]
REFUSED_COLOURS = [
    ("side 0", 0, 1, 0, 0, 999, SETTINGS),
    ("side 178", 178, 1, 0, 0, 999, SETTINGS),
    ("scale 0", 2, 0, 0, 0, 999, SETTINGS),
    ("scale 101", 2, 101, 0, 0, 999, SETTINGS),
    ("margin 101", 2, 1, 101, 0, 999, SETTINGS),
    ("2^31 pixels a metre", 2, 1, 0, 1 << 31, 999, SETTINGS),
    ("three rows", 3, 1, 0, 0, 999, NO_SQUARES),
]
LARGE_FILES = [
    ("a PNG file of several parts", STRIPES, 60, PNG, 7, 2, 0, 0, 0, ("DONE", 2370, 343_634, 404_228_413)),
    ("a receipt of several bands", PATTERN, 3, ESCPOS, 60, 1, 0, 0, 0, ("DONE", 11_416, 446_266, 2_272_986_780)),
]

# ---- drawings that are parsed

# A square of eight rows that begins as symbols do, typed by hand: its modules, and its drawing in ASCII.
TYPED = bytes([
    1, 1, 1, 1, 1, 1, 1, 0,
    1, 0, 0, 0, 0, 0, 1, 0,
    1, 0, 1, 1, 1, 0, 1, 0,
    1, 0, 1, 1, 1, 0, 1, 1,
    1, 0, 1, 1, 1, 0, 1, 0,
    1, 0, 0, 0, 0, 0, 1, 1,
    1, 1, 1, 1, 1, 1, 1, 0,
    0, 0, 0, 0, 0, 0, 0, 0,
])
TYPED_AS_ASCII = (b"##############  \n##          ##  \n##  ######  ##  \n##  ######  ####\n"
                  b"##  ######  ##  \n##          ####\n##############  \n                \n")
# The same in ASCIIi with a margin of one module, and in half blocks.
TYPED_AS_INVERSE = (b"####################\n##              ####\n##  ##########  ####\n##  ##      ##  ####\n"
                    b"##  ##      ##    ##\n##  ##      ##  ####\n##  ##########    ##\n##              ####\n"
                    b"####################\n####################\n")
TYPED_AS_BLOCKS = " ▄▄▄▄▄ █\n █   █ ▀\n █▄▄▄█ ▀\n▄▄▄▄▄▄▄█\n".encode()
TWO_TYPED = TYPED + TYPED[:-1] + b"\1"


def parsed(library, text, room):
    it = parse_drawing(library, text, room)
    return it.status, fields(it.told, "drawing", "margin", "count", "side"), it.written


PARSED = [
    ("a square typed by hand", TYPED_AS_ASCII, 66, ("DONE", (ASCII, 0, 1, 8), TYPED)),
    ("a square typed by hand as ASCIIi", TYPED_AS_INVERSE, 66, ("DONE", (ASCII_INVERSE, 1, 1, 8), TYPED)),
    ("a square typed by hand as half blocks", TYPED_AS_BLOCKS, 66, ("DONE", (UTF8, 0, 1, 8), TYPED)),
]


def parsed_again(library, drawing, margin):
    """Draws two squares, and parses the drawing."""
    text = library.drawing([TWO_TYPED[:64], TWO_TYPED[64:]], 8, drawing, margin)
    return text if isinstance(text, str) else parsed(library, text, 128)


PARSED_AGAIN = [(f"two squares, drawing {drawing}, margin {margin}", drawing, margin, ("DONE", (drawing, margin, 2, 8), TWO_TYPED))
                for drawing in range(4) for margin in (0, 1, 100)]


def parsed_and_read(library, data, version, level, drawing, margin):
    """Draws a series in byte mode, and parses the drawing. Returns what it shows, and the bytes that the squares contain."""
    encoded = library.encoded_series((data, version, LEVELS[level], BYTES_ONLY))
    text = STATUSES[encoded] if isinstance(encoded, int) else library.drawing(*encoded, drawing, margin)
    got = text if isinstance(text, str) else library.parsed(text)
    if isinstance(got, str):
        return got
    squares, side, *others = got
    found = [library.read(square, side) for square in squares]
    return (len(squares), side, *others), found if any(isinstance(it, int) for it in found) else b"".join(it[0] for it in found)


PARSED_AND_READ = [
    *((f"a letter at version {version}, drawing {drawing}, margin {margin}", b"A", version, L, drawing, margin,
       ((1, side_of(version), drawing, margin), b"A"))
      for version in (1, 2, 7, 40) for drawing in range(4) for margin in (0, 1, 4, 100)),
    *((f"{count} symbols, drawing {drawing}, margin {margin}", LETTERS[:length], 1, H, drawing, margin,
       ((count, 21, drawing, margin), LETTERS[:length]))
      for length, count in ((8, 2), (80, 16)) for drawing in range(4) for margin in (0, 3)),
]


def parsing_verdict(library, text, room):
    return verdict(parse_drawing(library, text, room))


UNPARSED = [
    ("no text", b"", 64, "NO_DRAWING"),
    ("a line too few", TYPED_AS_ASCII[:119], 64, "NO_DRAWING"),
    ("an empty line", b"\n", 64, "NO_DRAWING"),
    ("half a module", b"#", 64, "NO_DRAWING"),
    ("a module", b"##\n", 64, "NO_DRAWING"),
    ("the first tag", b"<svg>", 64, "NO_DRAWING"),
    ("a large number", b"<9 9 9 9 9 9 9 9 9 9 9999999999999999999999 9 9 9 9 9 9 9 9", 64, "NO_DRAWING"),
    ("numbers alone", b"<0 0 0 0 0 0 0 0 0 687 10993 0 0 0 0 0 ", 64, "NO_DRAWING"),
    ("a light line", b" " * 42 + b"\n", 64, "NO_DRAWING"),
    ("a half block", b"\xE2\x96\x84\n", 64, "NO_DRAWING"),
    # a square is read from each of these two, but the drawing of the square is longer than the text
    ("half blocks in fewer bytes", b" \x84\x84\x84\x84\x84 \xE2\x88\n \x88   \x88 \x80\n \x88\x84\x84\x84\x88 \x80\n\x84\x84\x84\x84\x84\x84\x84\x88\n",
     64, "NO_DRAWING"),
    ("a path without what comes before it", b"<0 0 0 0 0 0 0 0 0 8 8 M0 0h7v1h-7zM0 1h1v1h-1z", 64, "NO_DRAWING"),
    ("no room", TYPED_AS_ASCII, 0, "ROOM"),
    ("a byte too few", TYPED_AS_ASCII, 63, "ROOM"),
]

# ---- symbols that are found

LIGHT = bytes([200] * 100)


def find(library, width, height, stride, unread):
    """Searches a light picture of a hundred pixels, which shows no symbol. Returns the status and the number of squares."""
    count = ctypes.c_size_t(UNCHANGED)
    status = library.library.qrproved_find(LIGHT, len(LIGHT), width, height, stride, unread, None, 0, None, 0, ctypes.byref(count))
    return STATUSES[status], count.value


NOT_SEARCHED = "SETTINGS", UNCHANGED
SEARCHES = [
    ("ten rows", 10, 10, 10, 0, ("DONE", 0)),
    ("with squares that are not read", 10, 10, 10, 1, ("DONE", 0)),
    ("no width", 0, 10, 10, 0, NOT_SEARCHED),
    ("no height", 10, 0, 10, 0, NOT_SEARCHED),
    ("rows that overlap", 10, 10, 9, 0, NOT_SEARCHED),
    ("unread 2", 10, 10, 10, 2, NOT_SEARCHED),
    ("eleven rows", 10, 11, 10, 0, ("ROOM", UNCHANGED)),
]

# A symbol of the standard's own example, 1-M, and what is left of it if no module of its lower right quarter is right.
SOUND = square_of(1, "M", 2, interleaved(1, "M", bytes([0x10, 0x20, 0x0C, 0x56, 0x61, 0x80, *[0xEC, 0x11] * 5])))
SPOILT = bytes(1 - it if k // 21 > 8 and k % 21 > 8 else it for k, it in enumerate(SOUND))
SCALE, QUIET = 4, 5  # pixels of a module, and modules around a symbol


def found_side_by_side(library, *squares):
    """Draws two squares of 21 modules beside each other, and searches them, also for squares that cannot be mended. Returns of each square
    that is found whether it is read, and which of the two it is, counted from the left."""
    rows, columns = 21 + 2 * QUIET, len(squares) * (21 + QUIET) + QUIET
    dark = {(QUIET + k // 21, QUIET + n * (21 + QUIET) + k % 21) for n, it in enumerate(squares) for k, module in enumerate(it) if module}
    pixels = bytes(0 if (y // SCALE, x // SCALE) in dark else 255 for y in range(rows * SCALE) for x in range(columns * SCALE))
    modules, found, count = (ctypes.c_uint8 * (4 * 31_329))(), (Found * 4)(), ctypes.c_size_t()
    status = library.library.qrproved_find(pixels, len(pixels), columns * SCALE, rows * SCALE, columns * SCALE, 1, modules, len(modules), found, 4,
                                           ctypes.byref(count))
    return STATUSES[status], [(it.is_read, it.x0 // (16 * SCALE * (21 + QUIET))) for it in found[:count.value]]


BESIDE = [
    ("both can be mended", SOUND, SOUND, ("DONE", [(1, 0), (1, 1)])),
    ("the left one cannot be mended, and comes last", SPOILT, SOUND, ("DONE", [(1, 1), (0, 0)])),
    ("the right one cannot be mended", SOUND, SPOILT, ("DONE", [(1, 0), (0, 1)])),
]

# ---- symbols under other masks

def drawn_under(version, level, mask, wrong=()):
    """Returns the symbol of some data codewords, which are no content, drawn by the independent model, with some modules inverted."""
    count = sum(map(len, blocks(version, level))) - len(blocks(version, level)) * correction_len(version, level)
    return inverted(square_of(version, level, mask, interleaved(version, level, bytes(7 * k % 251 for k in range(count)))), wrong)


def set_mask(library, modules, side, mask, spare=b""):
    """Returns the status, and the buffer after the call."""
    buffer = (ctypes.c_uint8 * (len(modules) + len(spare)))(*modules, *spare)
    return STATUSES[library.library.qrproved_set_mask(buffer, len(buffer), side, mask)], bytes(buffer)


def each_mask(library, version, level):
    """Draws a symbol under each mask, and each of these under each mask. Returns the pairs of masks of which another symbol comes out."""
    of = [drawn_under(version, level, mask) for mask in range(8)]
    return [(a, b) for a in range(8) for b in range(8) if set_mask(library, of[a], side_of(version), b) != ("DONE", of[b])]


EACH_MASK = [(f"{version}-{level}", version, level, []) for version, level in
             ((1, "L"), (2, "H"), (5, "Q"), (7, "M"), (13, "L"), (14, "H"), (25, "Q"), (40, "M"))]
PLAIN = drawn_under(1, "M", 2)
# A corner of a finder pattern, timing patterns, the second copy of the format information and the dark module.
OUTSIDE = places((0, 0), (6, 10), (10, 6), (8, 20), (13, 8))
# The first module of the region, which belongs to a codeword.
IN_A_CODEWORD = places((20, 20))
# The first copy of the format information. With these bits inverted it belongs to no level and mask, since three wrong bits are noticed.
FIRST_COPY = places((8, 0), (8, 1), (8, 2))
REDRAWN = [
    ("modules of no codeword are put right", inverted(PLAIN, OUTSIDE), 21, 5, b"", ("DONE", drawn_under(1, "M", 5))),
    ("a wrong codeword stays wrong", inverted(PLAIN, IN_A_CODEWORD), 21, 5, b"", ("DONE", drawn_under(1, "M", 5, IN_A_CODEWORD))),
    ("other dark modules", bytes(255 * module for module in PLAIN), 21, 5, b"", ("DONE", drawn_under(1, "M", 5))),
    ("the same mask", PLAIN, 21, 2, b"", ("DONE", PLAIN)),
    ("more bytes", PLAIN, 21, 5, b"\2\0\xFF", ("DONE", drawn_under(1, "M", 5) + b"\2\0\xFF")),
    ("no format information", inverted(PLAIN, FIRST_COPY), 21, 5, b"", ("FORMAT", inverted(PLAIN, FIRST_COPY))),
    ("440 modules", PLAIN[:440], 21, 5, b"", ("ROOM", PLAIN[:440])),
    ("no modules", b"", 21, 5, b"", ("ROOM", b"")),
    ("a side of no version", PLAIN, 20, 5, b"", ("SIDE", PLAIN)),
    ("side 277", PLAIN, 277, 5, b"", ("SIDE", PLAIN)),
    ("mask 8", PLAIN, 21, 8, b"", ("SETTINGS", PLAIN)),
    ("mask 256", PLAIN, 21, 256, b"", ("SETTINGS", PLAIN)),
    ("mask 8 of no side", PLAIN, 0, 8, b"", ("SETTINGS", PLAIN)),
]

# ---- all of them

# What makes the calls, and its rows: a name, what it is given after the library, and at the end what it has to return.
TABLES = {
    "encoded": (symbol, SYMBOLS),
    "codewords": (codewords, INTERLEAVED),
    "bits": (beginning_of_bits, BEGINNINGS),
    "version and mask": (version_and_mask, MASKS),
    "least version": (least_version, LEAST_VERSIONS),
    "boosted": (boosted, BOOSTED),
    "with a logo": (with_logo, LOGOS),
    "largest logo": (with_logo, LARGEST_LOGOS),
    "not encoded": (encoding_verdict, REFUSED_SYMBOLS),
    "interpretation": (interpretation_verdict, INTERPRETATIONS),
    "series": (series, SERIES),
    "series that is read": (parts, PARTS),
    "no series": (series_verdict, REFUSED_SERIES),
    "room": (Library.room, ROOMS),
    "read": (content, READ),
    "modules inverted": (each_inverted, EACH_INVERTED),
    "remainder bits inverted": (remainder_inverted, REMAINDERS),
    "encoded and read": (read_back, READ_BACK),
    "read in a series": (read_part, READ_PARTS),
    "not read": (reading_verdict, UNREAD),
    "under each mask": (each_mask, EACH_MASK),
    "under another mask": (set_mask, REDRAWN),
    "mended": (mended_digits, MENDED_DIGITS),
    "mended with modules not known": (mended_unknown, MENDED_UNKNOWN),
    "mended in a series": (mended_part, MENDED_PARTS),
    "not mended": (mending_verdict, UNMENDED),
    "drawn": (draw, TEXTS),
    "line": (line, TEXT_LINES),
    "part of a text": (times, TIMES),
    "not drawn": (draw, REFUSED_TEXTS),
    "drawn line": (draw_row, LINES),
    "no line": (draw_row, REFUSED_LINES),
    "document": (document, DOCUMENTS),
    "no document": (document, REFUSED_DOCUMENTS),
    "document in colours": (pdf, PDF_IN_COLOURS),
    "no document in colours": (pdf, REFUSED_PDF),
    "written document": (written_document, WRITTEN),
    "large document": (partial(sums_of, written_document), LARGE_DOCUMENTS),
    "sheets": (sheets, SHEETS),
    "no sheets": (sheets, REFUSED_SHEETS),
    "no sheets of this paper": (on_paper, REFUSED_PAPER),
    "image": (image, IMAGES),
    "no image": (image, REFUSED_IMAGES),
    "written image": (written_image, FILES),
    "large image": (partial(sums_of, written_image), LARGE_FILES),
    "image in colours": (written_png, COLOURED),
    "no image in colours": (png, REFUSED_COLOURS),
    "parsed": (parsed, PARSED),
    "drawn and parsed": (parsed_again, PARSED_AGAIN),
    "drawn, parsed and read": (parsed_and_read, PARSED_AND_READ),
    "not parsed": (parsing_verdict, UNPARSED),
    "found": (find, SEARCHES),
    "found beside each other": (found_side_by_side, BESIDE),
}
ROWS = sum(len(rows) for _, rows in TABLES.values())


def of_rows(name, library):
    for kind, (made, rows) in TABLES.items():
        for words, *given, wanted in rows:
            check(f"{name}: {kind}: {words}", made(library, *given), wanted)
