"""Rows for the program. A row says in words what is tried, and then the arguments, the standard input, and what the run has to do. The
values were worked out by hand, are those of the standard (ISO/IEC 18004:2015), or come from another encoder. None comes from the program.
1-H stands for version 1 and level H."""
import shlex
import tempfile

from samples import LETTER
from squares import ascii_of, codewords_of, data_of, reading, side_of

# The drawing of `A` at version 1 and level L, whose symbol is another encoder's: 29 lines of 58 characters.
DRAWING = ascii_of(LETTER, 21)
DIGITS, CAPITALS, LETTERS = b"7" * 7090, b"A" * 4297, b"a" * 2954
# Two kanji pairs, four times.
KANJI = b"\x93\x5F\xE4\xAA" * 4
LARGEST = 177 * 355  # the bytes of a drawing of version 40 as ASCII without a margin
# Each function below makes the runs of a row. It is given what makes a run, which returns the status and both streams.

# ---- drawings


def drawn(run, words, given):
    return run(shlex.split(words), given)


DRAWN = [
    ("a type in small letters", "-8 -t ascii", b"A", (0, DRAWING, b"")),
    ("values without a space before them", "-v0 -8 -tAscii -lL", b"A", (0, DRAWING, b"")),
    ("a string, and another input", "-t ASCII -8 -m 4 A", b"B", (0, DRAWING, b"")),
]


def size(run, words, given):
    """Returns the status, the length of the drawing, and the line of a fault."""
    status, out, err = run(shlex.split(words), given)
    return status, len(out), err


# The longest inputs of one symbol (Table 7). A drawing of version 1 with its margin has 29 lines of 58 characters.
SIZES = [
    *((f"the most digits at {level}", f"-m 0 -l {level} -t ASCII", DIGITS[:most], (0, LARGEST, b""))
      for level, most in (("L", 7089), ("M", 5596), ("Q", 3993), ("H", 3057))),
    ("the most capitals", "-m 0 -t ASCII", CAPITALS[:4296], (0, LARGEST, b"")),
    ("the most small letters", "-m 0 -t ASCII", LETTERS[:2953], (0, LARGEST, b"")),
    *((f"{length} letters as a series at 1-H", "-S -8 -v 1 -l H -t ASCII", LETTERS[:length], (0, 29 * 59 * symbols, b""))
      for length, symbols in ((7, 1), (8, 2), (80, 16))),
]


def lines(run, words):
    """Returns the status, how many lines the drawing has, and the line of a fault."""
    status, out, err = run(shlex.split(words), b"")
    return status, out.count(b"\n"), err


LINES = [
    ("half blocks at level H", "-t utf8 -l h A", (0, 15, b"")),
    ("one symbol with -S as SVG", "-l Q -v 2 -m 0 -8 -S -t svg A", (0, 5, b"")),
    ("light and dark exchanged, without a margin", "-t asciiI -m 0 A", (0, 21, b"")),
    ("a string that begins with a hyphen", "-t ASCII -m 100 -- -8", (0, 221, b"")),
]


def symbol(run, words, version):
    """Returns the level and the data codewords of a symbol that is drawn as ASCII without a margin, as the independent model reads it."""
    text = run(shlex.split(words), b"")[1]
    square = bytes(it == ord("#") for row in text.splitlines() for it in row[::2])
    found = reading(square, version) if len(square) == side_of(version) ** 2 else f"{len(square)} modules"
    if isinstance(found, str):
        return found
    level = "LMQH"[found["level"]]
    return level, data_of(version, level, codewords_of(square, version, found["mask"]))


# The data codewords say one byte in byte mode.
SYMBOLS = [
    ("all settings", "-l Q -v 2 -m 0 -8 -S -t ascii A", 2, ("Q", bytes([0x40, 0x14, 0x10, *[0xEC, 0x11] * 9, 0xEC]))),
]


def are_alike(run, words, given, other_words, other):
    """Returns the statuses of two runs, and whether they draw the same."""
    first, second = run(shlex.split(words), given), run(shlex.split(other_words), other)
    return first[0], second[0], first[1] == second[1]


ALIKE, UNLIKE = (0, 0, True), (0, 0, False)
FOLDED = [
    ("small letters with -i", "-i -l M -t ASCII 'hello world'", b"", "-l M -t ASCII 'HELLO WORLD'", b"", ALIKE),
    ("small letters without -i", "-l M -t ASCII 'hello world'", b"", "-l M -t ASCII 'HELLO WORLD'", b"", UNLIKE),
    ("small letters with -i in byte mode", "-8 -i -t UTF8 abc", b"", "-8 -t UTF8 abc", b"", ALIKE),
    ("kanji with -k", "-k -t ASCII -m 0", KANJI, "-t ASCII -m 0", KANJI, UNLIKE),
    ("kanji with -k and -i", "-k -t ASCII -m 0", KANJI, "-k -i -t ASCII -m 0", KANJI, ALIKE),
    ("kanji with -k and -i in byte mode", "-8 -k -i -t ASCII -m 0", KANJI, "-t ASCII -m 0", KANJI, ALIKE),
    # a kanji pair whose second byte is the code of `a`, and then a letter
    ("a pair and a small letter with -i", "-k -i -t ASCII -m 0", b"\x93\x61a", "-k -t ASCII -m 0", b"\x93\x61A", ALIKE),
    ("a pair and a letter with -i", "-k -i -t ASCII -m 0", b"\x93\x61a", "-k -i -t ASCII -m 0", b"\x93\x61A", ALIKE),
]

# ---- faults


def line(run, words, given):
    """Returns the line of a fault, if the status is 1 and nothing is drawn."""
    status, out, err = run(shlex.split(words), given)
    return err.decode() if (status, out) == (1, b"") else (status, out[:20], err)


EMPTY, LENGTH, TOO_MANY, LEVEL, KIND, VERSION = (f"qrencode: {it}\n" for it in (
    "input is empty", "input does not fit", "more than 16 symbols", "unknown level", "unknown type", "-S needs -v"))
FAULTS = [
    ("a type before a version", "-S -t PNG", b"", KIND),
    ("an empty type", "-t ''", b"", KIND),
    ("a level before a type", "-l X -t PNG", b"", LEVEL),
    ("a level", "-l X -t SVG", b"A", LEVEL),
    ("a series without a version", "-S -t SVG", b"A", VERSION),
    ("a series without a version or a byte", "-S -t SVG", b"", VERSION),
    ("a series with version 0", "-S -v 0 -t SVG A", b"", VERSION),
    ("no byte of a series", "-S -v 1 -t SVG", b"", EMPTY),
    ("an empty string", "-t ASCII ''", b"", EMPTY),
    *((f"a digit too many at {level}", f"-m 0 -l {level} -t ASCII", DIGITS[:most], LENGTH)
      for level, most in (("L", 7090), ("M", 5597), ("Q", 3994), ("H", 3058))),
    ("a capital too many", "-m 0 -t ASCII", CAPITALS, LENGTH),
    ("a small letter too many", "-m 0 -t ASCII", LETTERS, LENGTH),
    ("7,090 digits as a series at 1-L", "-S -v 1 -t SVG", DIGITS, TOO_MANY),
    ("81 letters as a series at 1-H", "-S -8 -v 1 -l H -t ASCII", LETTERS[:81], TOO_MANY),
]


def unread(run, words, part):
    """Returns the status, what is drawn, whether standard error has this part, and how much of the standard input is read."""
    with tempfile.TemporaryFile() as given:
        given.write(b"A")
        given.seek(0)
        status, out, err = run(shlex.split(words), given)
        return status, out, part in err.decode(), given.seek(0, 1)


REFUSED = 1, b"", True, 0
# `clap` refuses these arguments, and help is a refusal too.
ARGUMENTS = [
    ("no type", "-8", "required", REFUSED),
    ("a version past 40", "-v 41 -t ASCII", "0..=40", REFUSED),
    ("a margin past 100", "-m 101 -t ASCII", "0..=100", REFUSED),
    ("a type given twice", "-t ASCII -t ASCII", "-t", REFUSED),
    ("a version given twice", "-v 1 -v 1 -t ASCII", "-v", REFUSED),
    ("a margin given twice", "-m 4 -m 4 -t ASCII", "-m", REFUSED),
    ("two strings", "-t ASCII A B", "'B'", REFUSED),
    ("no such option", "-x -t ASCII", "-x", REFUSED),
    ("kanji mode asked for twice", "-k -k -t ASCII", "-k", REFUSED),
    ("folding asked for twice", "-i -i -t ASCII", "-i", REFUSED),
    ("help", "-h", "Encode the whole input in byte mode", REFUSED),
    ("help by its long name", "--help", "Type of the drawing", REFUSED),
    # and if there is a string among them, nothing is read either
    ("a string", "-8 -v 1 -t ASCII A", "", (0, DRAWING, True, 0)),
]

# ---- all of them

# What makes the runs, and its rows: a name, what it is given after `run`, and at the end what it has to return.
TABLES = {
    "drawn": (drawn, DRAWN),
    "size of a drawing": (size, SIZES),
    "lines of a drawing": (lines, LINES),
    "symbol": (symbol, SYMBOLS),
    "folded": (are_alike, FOLDED),
    "fault": (line, FAULTS),
    "arguments": (unread, ARGUMENTS),
}


def of_rows(run, check):
    for kind, (made, rows) in TABLES.items():
        for words, *given, wanted in rows:
            check(f"{kind}: {words}", made(run, *given), wanted)
