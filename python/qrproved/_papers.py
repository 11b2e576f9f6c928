"""Label paper by its names, and what has room on a label: a symbol in the middle, and the lines of its caption below. Captions are in
Helvetica, which each reader of PDF has (ISO 32000-1, 9.6.2.2). They are added to the document that the library has drawn, as an update
after its end (ISO 32000-1, 7.5.6), so that its bytes stay as they are. All lengths are in micrometres, but for those of text, which are in
thousandths of a point.

papers.json is also the table of the package for JavaScript, whose papers.js has the same functions. It has five parts:
  sizes   the width and the height of paper in millimetres
  papers  label paper by its names: its columns and rows, the width and the height of a label, and the gaps between labels beside and below
          one another. What is left over is the margin, half of it on each side
  label   FREE_ACROSS and FREE_DOWN of a label stay free on each side, since printers shift the paper. SYMBOL_MIN is the least width of a symbol
          that has a caption. A line of a caption is LINE high, its letters are POINTS high, and stand on a line that is BASE below its upper end
  high    the characters of the bytes from 80 on (hexadecimal) in the encoding WinAnsi of PDF, a space for none
  widths  the widths of characters in Helvetica, in thousandths of its size
"""
from __future__ import annotations

import json
import re
import unicodedata
from collections.abc import Sequence
from pathlib import Path
from typing import NamedTuple, Optional

from ._errors import SettingsError

DATA = json.loads(Path(__file__).with_name("papers.json").read_text(encoding="utf-8"))
SIZES = DATA["sizes"]
PAPERS = {name: paper for paper in DATA["papers"] for name in paper["names"]}
FREE_ACROSS, FREE_DOWN, SYMBOL_MIN, POINTS, LINE, BASE = (DATA["label"][it] for it in ("FREE_ACROSS", "FREE_DOWN", "SYMBOL_MIN", "POINTS", "LINE", "BASE"))
WIDTH_OF_OTHERS = 1000  # of a character that Helvetica does not have


class _Widths(dict):
    def __missing__(self, letter: str) -> int:
        return WIDTH_OF_OTHERS


WIDTHS = _Widths((letter, int(width)) for width, letters in DATA["widths"].items() for letter in letters)
BYTES = {letter: 0x80 + k for k, letter in enumerate(DATA["high"]) if letter != " "}


def micrometres(mm: float) -> int:
    return int(1000 * mm + 0.5)


def points(length: int) -> int:
    """Returns a length on paper in thousandths of a point."""
    return (length * 72000 + 12700) // 25400


def decimal(thousandths: int) -> str:
    sign, number = "-" * (thousandths < 0), abs(thousandths)
    return f"{sign}{number // 1000}.{number % 1000:03}"


class Row(NamedTuple):
    """Labels side by side, or one below the other."""

    before: int
    """How far the first one is from the edge of the paper."""
    label: int
    step: int
    """How far it is from a label to the next one."""


def row_of(paper: int, count: int, label: Optional[int], margin: Optional[int], gap: int) -> Row:
    """Returns labels of which either the length or the margin may be left out. Without a margin half of what is left over is before them,
    and without both they have no margin."""
    length = (paper - 2 * (margin or 0) - (count - 1) * gap) // count if label is None else label
    before = (paper - count * length - (count - 1) * gap) // 2 if margin is None else margin
    if length < 1 or before < 0:
        raise SettingsError(f"{count} labels with these margins and gaps do not fit {paper / 1000:.1f} mm of paper")
    return Row(before, length, length + gap)


def named(name: str) -> dict:
    """Returns a label paper of the table. Spaces, hyphens and capitals do not count, and the maker may be left out."""
    if not isinstance(name, str):
        raise TypeError(f"the name of a paper is a text, and not of type {type(name).__name__}")
    key = _key(name)
    for known, paper in PAPERS.items():
        if key in (_key(known), _key(known.split(" ")[1])):
            return paper
    raise SettingsError(f"there is no label paper {name!r}; there are {', '.join(PAPERS)}")


def _key(name: str) -> str:
    return re.sub("[^a-z0-9]", "", name.lower())


def lines_of(caption: str, room: int) -> list[str]:
    """Returns the lines of a caption that is at most so wide. It is cut at spaces, and words that are wider than a line anywhere."""
    most, lines = room * 72000 // (25400 * POINTS), []
    for part in unicodedata.normalize("NFC", caption).split("\n"):
        line, width = "", 0
        for word in filter(None, re.split("[ \t\r]+", part)):
            length = width_of(word)
            if line and width + WIDTHS[" "] + length <= most:
                line, width = f"{line} {word}", width + WIDTHS[" "] + length
                continue
            if line:
                lines.append(line)
            line, width = (word, length) if length <= most else ("", 0)
            for letter in word if length > most else "":
                if line and width + WIDTHS[letter] > most:
                    lines.append(line)
                    line, width = "", 0
                line, width = line + letter, width + WIDTHS[letter]
        if line:
            lines.append(line)
    return lines


def width_of(letters: str) -> int:
    return sum(map(WIDTHS.__getitem__, letters))


def check_caption(caption: str) -> None:
    """Raises SettingsError for the first character of a caption that Helvetica does not have."""
    if not isinstance(caption, str):
        raise TypeError(f"a caption is a text, and not of type {type(caption).__name__}")
    for k, letter in enumerate(unicodedata.normalize("NFC", caption), 1):
        if letter not in WIDTHS and letter not in "\t\r\n":
            raise SettingsError(f"{letter!r} (U+{ord(letter):04X}), character {k} of the caption, is not in Helvetica, the font of captions in a PDF")


def room_of_label(wide: int, high: int, lines: int) -> int:
    """Returns how wide a symbol may be on a label that has so many lines of a caption."""
    return min(wide - 2 * FREE_ACROSS, high - 2 * FREE_DOWN - lines * LINE)


def fault_of(caption: str, wide: int, high: int) -> Optional[str]:
    """Returns why a caption has no room on a label beside its symbol, or None."""
    lines = len(lines_of(caption, wide - 2 * FREE_ACROSS))
    is_crowded = lines > 0 and room_of_label(wide, high, lines) < SYMBOL_MIN
    return f"its caption leaves no room for a symbol of {SYMBOL_MIN // 1000} mm on the label" if is_crowded else None


class Text(NamedTuple):
    """The caption of a label."""

    page: int
    middle: int
    """How far the middle of the label is from the left edge of the paper."""
    below: int
    """How far the upper end of the first line is from the lower edge."""
    lines: Sequence[str]


def with_captions(document: bytes, texts: Sequence[Text]) -> bytes:
    """Returns a PDF document of the library with captions. Its pages are the objects 3, 5, 7 and so on, and each is followed by its content."""
    start = int(document.rsplit(b"startxref\n", 1)[1].split(b"\n")[0])
    box, count = re.search(rb"/MediaBox\[[^\]]*\]", document)[0], int(re.search(rb"/Count (\d+)", document)[1])
    commands: dict[int, list[str]] = {}
    for text in texts:
        for k, line in enumerate(text.lines):
            left = points(text.middle) - width_of(line) * POINTS // 2
            shown = "".join(f"{BYTES.get(letter, ord(letter)):02x}" for letter in line)
            commands.setdefault(text.page, []).append(f"1 0 0 1 {decimal(left)} {decimal(points(text.below - k * LINE - BASE))} Tm <{shown}> Tj\n")
    if not commands:
        return document
    font = 3 + 2 * count  # the number of the first object that the document does not have
    changed = {font: b"<</Type/Font/Subtype/Type1/BaseFont/Helvetica/Encoding/WinAnsiEncoding>>"}
    for added, (page, lines) in enumerate(commands.items(), font + 1):
        content = f"BT\n/F {POINTS} Tf\n{''.join(lines)}ET\n".encode()
        number = 3 + 2 * page
        changed[number] = b"<</Type/Page/Parent 2 0 R%b/Resources<</Font<</F %d 0 R>>>>/Contents[%d 0 R %d 0 R]>>" % (box, font, number + 1, added)
        changed[added] = b"<</Length %d>>\nstream\n%bendstream" % (len(content), content)
    file, table = bytearray(document), b"xref\n"
    for number, content in sorted(changed.items()):
        table += b"%d 1\n%010d 00000 n \n" % (number, len(file))
        file += b"%d 0 obj\n%b\nendobj\n" % (number, content)
    end = b"trailer\n<</Size %d/Root 1 0 R/Prev %d>>\nstartxref\n%d\n%%%%EOF\n" % (max(changed) + 1, start, len(file))
    return bytes(file) + table + end
