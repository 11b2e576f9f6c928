"""Drawings that were pasted. What pasting changes is undone, so that the library can parse the text. In a text that is damaged, or
drawn by another program, the modules of symbols are found by their look: two characters a module, '##' for a dark one or for a
light one, or half blocks, light on a dark terminal. In a drawing that was copied by hand '??' is a module that cannot be read."""
from __future__ import annotations

import re
import textwrap
from collections.abc import Iterator

from ._common import LIMITS
from ._errors import NoDrawingError

NO_INK, INK, UNKNOWN = range(3)
# What a character shows, and what a character of half blocks shows above and below.
CHARACTERS = {" ": NO_INK, "#": INK, "?": UNKNOWN}
HALVES = {" ": (NO_INK, NO_INK), "\u2580": (INK, NO_INK), "\u2584": (NO_INK, INK), "\u2588": (INK, INK)}
FINDER = ["1111111", "1000001", "1011101", "1011101", "1011101", "1000001", "1111111"]
SIDES, COUNT_MAX = range(21, LIMITS["SIDE_MAX"] + 1, 4), LIMITS["COUNT_MAX"]
WIDTH_MAX = 2 * (LIMITS["SIDE_MAX"] + 2 * LIMITS["PARSED_MARGIN_MAX"])
LINES_MAX = COUNT_MAX * WIDTH_MAX  # an empty line may follow each

SIZE = re.compile(r'<svg ([^>]*?)width="[^"]*" height="[^"]*" ')  # with the attributes before it
FULL = "\u2588"  # two light modules

Grid = list  # of rows of numbers: without ink, with ink, or not known


def _clean(text: str) -> str:
    return text.replace("\r\n", "\n").replace("\ufeff", "").replace("\u00a0", " ")


def _lines(text: str) -> list[str]:
    """Returns the lines of a text from the first to the last that is not empty, without their common indentation, and without spaces at
    their ends."""
    return [line.rstrip(" ") for line in textwrap.dedent(text).strip("\n").split("\n")]


def _is_large(lines: list[str]) -> bool:
    """Whether these are more lines, or longer ones, than a drawing has."""
    return len(lines) > LINES_MAX or max(map(len, lines)) > WIDTH_MAX


def _padded(lines: list[str]) -> str:
    """Returns lines of one length, each with its end. Spaces at the ends of lines are often lost."""
    width = max(map(len, lines))
    return "".join(line.ljust(width) + "\n" for line in lines)


def _inner(lines: list[str]) -> list[str]:
    """Returns the half blocks within the light margin. If the margin is odd, qrencode 4.1.1 draws a row less of it above and below."""
    rows = [line for line in lines if line.strip(FULL)]
    left = min((len(row) - len(row.lstrip(FULL)) for row in rows), default=0)
    right = min((len(row) - len(row.rstrip(FULL)) for row in rows), default=0)
    return [row[left:len(row) - right] for row in rows]


def _squares(lines: list[str]) -> list[str]:
    """Returns the lines of squares in ASCII, which are two characters wide for each line that they are high, without the empty lines
    around them. A row of a symbol may be light, and so empty without the margin: of small versions the one below the upper finder
    patterns often is."""
    side, found, k = max(map(len, lines)) // 2 or 1, [], 0
    while k < len(lines):
        found += lines[k:k + side] if lines[k] else []
        k += side if lines[k] else 1
    return found


def undone(text: str) -> Iterator[str]:
    """Yields the drawings that a pasted text may have been, from the likeliest on: with other signs for line ends and spaces; with an
    indentation, or without spaces at line ends; with empty lines between symbols, or after each line; or half blocks of qrencode
    4.1.1. Of an SVG document, the one without a size."""
    clean = _clean(text)
    if clean.lstrip().startswith("<"):
        yield SIZE.sub(r"<svg \1", clean.strip() + "\n", count=1)
        return
    yield clean if clean.endswith("\n") else clean + "\n"
    lines = _lines(clean)
    if _is_large(lines):
        return
    yield _padded(lines)
    filled = [line for line in lines if line]
    if len(filled) > 1:
        for some in [lines] if any(lines[1::2]) else [lines, lines[::2]]:
            yield _padded(_squares(some))
        yield _padded(filled)
        inner = _inner(_padded(filled).split("\n")[:-1])
        if inner:
            yield _padded(inner)


def _grid(text: str) -> Grid:
    """Returns the rows of a text's modules, all of one length."""
    lines = _lines(_clean(text))
    if not any(lines):
        raise NoDrawingError("there is no drawing")
    characters = set().union(*lines)
    if not (characters <= set(CHARACTERS) or characters <= set(HALVES)):
        raise NoDrawingError("the drawing is of other characters than '#', '?' and spaces, or half blocks and spaces")
    if _is_large(lines):
        raise NoDrawingError("the text has more lines or longer lines than a drawing")
    width = max(map(len, lines))
    if characters <= set(CHARACTERS):
        width += width % 2
        padded = [line.ljust(width) for line in lines]
        if any(line[k] != line[k + 1] for line in padded for k in range(0, width, 2)):
            raise NoDrawingError("a module of the drawing is two characters that differ")
        return [[CHARACTERS[line[k]] for k in range(0, width, 2)] for line in padded]
    padded = [line.ljust(width) for line in lines]
    return [[HALVES[it][half] for it in line] for line in padded for half in (0, 1)]


def _cut(grid: Grid) -> list[tuple[int, int, int]]:
    """Returns each way to cut a grid into squares that are as wide as it, with gaps of one height between them: as a side, a
    count and a gap."""
    side, height = len(grid[0]), len(grid)
    if side not in SIDES:
        return []
    ways = [(side, 1, 0)] if height == side else []
    for count in range(2, COUNT_MAX + 1):
        gap, rest = divmod(height - count * side, count - 1)
        if gap >= 0 and rest == 0:
            ways.append((side, count, gap))
    return ways


def _strangers(rows: Grid) -> int:
    """Counts the wrong modules of the three finder patterns."""
    last = len(rows) - 7
    return sum(rows[top + y][left + x] != (FINDER[y][x] == "1")
               for top, left in ((0, 0), (0, last), (last, 0)) for y in range(7) for x in range(7))


def _box(grid: Grid) -> Grid:
    """Returns the least rectangle with all modules that are not light; none if all are."""
    rows = [y for y, row in enumerate(grid) if any(row)]
    columns = [x for x in range(len(grid[0])) if any(row[x] for row in grid)]
    if not rows:
        return [[]]
    return [row[columns[0]:columns[-1] + 1] for row in grid[rows[0]:rows[-1] + 1]]


def found_by_look(text: str) -> list[tuple[bytes, int]]:
    """Returns the modules and the side of each symbol of a drawing as text, of one symbol or of a series. Raises NoDrawingError if it
    is empty, has other characters or a module of two that differ, or has no square of a symbol: the first and the last row and
    column of a symbol each need a module that is not light."""
    grid, found = _grid(text), []
    for is_inverse in (False, True):
        box = _box([[it if it == UNKNOWN else it ^ is_inverse for it in row] for row in grid])
        for side, count, gap in _cut(box):
            starts = [k * (side + gap) for k in range(count)]
            squares = [box[start:start + side] for start in starts]
            found.append((sum(map(_strangers, squares)) / count, -count, squares))
    if not found:
        raise NoDrawingError("there is no square of a symbol")
    _, _, squares = min(found, key=lambda it: it[:2])
    return [(bytes(module for row in square for module in row), len(square)) for square in squares]
