"""The command qrproved check: what the symbols of pictures, documents and drawings contain, how damaged they are, and whether they
contain what a list says."""
from __future__ import annotations

import argparse
import contextlib
import dataclasses
import io
import json
import os
import sys
from collections import Counter
from collections.abc import Iterator
from pathlib import Path
from typing import NamedTuple, Optional, Union

import qrproved
from qrproved import Content, Error, Found, Gs1Error, Mended

from ._console import INPUT, PROGRAM, is_printed, named, say
from ._documents import pages_of
from ._gs1 import data_of
from ._pictures import is_picture
from ._sources import BINARY, SourceError, encoding_of
from ._stream import DIGITS, Naming, Source, columns_of, labels_of

SOUND, READABLE, NOT_READABLE = range(3)
STATES = ("sound", "readable", "not scannable", "not readable")  # of a symbol, by the words of JSON

Square = Union[tuple[bytes, int], Found]  # of a drawing, and of a picture


class Verdict(NamedTuple):
    """What is said of a symbol, or of a page that has none."""

    status: int
    lines: list[str]
    record: dict[str, object]
    """The same for JSON."""


class Page(NamedTuple):
    """The symbols of a page, or why there are none. A file that is no document has one page without a number."""

    number: Optional[int]
    squares: list[Square]
    fault: str = ""
    is_guess: bool = False
    """Whether the symbols of a drawing were found by their look."""


class Expected:
    """What the files of a list of labels contain. A file with one symbol, or one series, is looked up by its name, as --batch names it; a
    symbol of any other has to contain one of the texts."""

    def __init__(self, given: argparse.Namespace) -> None:
        by_text, self.by_name, self.seen = given.names == "text", {}, Counter()
        with sys.stdin.buffer if given.expect == "-" else open(given.expect, "rb") as file:
            source = Source(file, INPUT if given.expect == "-" else given.expect, given.encoding)
            rows = source.rows_by_columns(given.columns) if given.columns else source.rows()
            for _, label in labels_of(rows, Naming("", "", by_text, given.start, DIGITS)):
                if isinstance(label.data, str):
                    self.by_name[label.path.casefold()] = label.data
                    self.by_name.setdefault(key_of(label.path), label.data)
        self.texts = set(self.by_name.values())

    def of(self, path: str) -> Optional[str]:
        name = Path(path).stem
        return self.by_name.get(name.casefold(), self.by_name.get(key_of(name)))

    def fault(self, content: Content, wanted: Optional[str]) -> Optional[str]:
        """Returns what is wrong with a content: None if it is the wanted one, or one of the list if none is wanted."""
        texts = texts_of(content)
        found = next((it for it in texts if it in self.texts), None) if wanted is None else wanted if is_content(content, wanted) else None
        if found is not None:
            self.seen[found] += 1
            return None
        return "not in the list" if wanted is None else f"expected {shown(wanted)}"

    def unseen(self) -> int:
        return len(self.texts) - len(self.seen)


def key_of(name: str) -> str:
    """Returns what a file is looked up by: zeros before a number do not count, nor do capitals."""
    return str(int(name)) if name.isascii() and name.isdigit() else name.casefold()


def texts_of(content: Content) -> list[str]:
    """Returns the content as a text, and as one of GS1 fields, as far as it is one."""
    texts = []
    if content.gs1:
        with contextlib.suppress(Gs1Error):
            texts.append(gs1_of(content))
    with contextlib.suppress(ValueError):
        texts.append(content.text())
    return texts


def is_content(content: Content, wanted: str) -> bool:
    if not content.gs1:
        return wanted in texts_of(content)
    try:
        return data_of(wanted) == content.data
    except Gs1Error:
        return False


def gs1_of(content: Content) -> str:
    return "".join(f"({name}){value}" for name, value in content.fields())


def shown(text: str) -> str:
    """Returns a text for one line of a terminal."""
    if text.isprintable():
        return text
    return ascii(text) if "'" in text else repr(text)


def is_mirrored(modules: bytes, side: int) -> bool:
    """Whether a square that cannot be read is that of a symbol with rows and columns exchanged, whose finder patterns are in place."""
    try:
        qrproved.mend(b"".join(modules[column:side * side:side] for column in range(side)), side)
    except Error:
        return False
    return True


def said_of(content: Content) -> Iterator[str]:
    """Yields lines that say what a symbol contains, and how its bytes are to be interpreted."""
    for eci in content.ecis:
        yield f"ECI {eci.number} from byte {eci.begin} on"
    if content.application is not None:
        yield f"data of the application {content.application}"
    if content.gs1:
        try:
            yield f"GS1 data {gs1_of(content)}"
        except Gs1Error as fault:
            yield f"GS1 data, but {fault}"
    try:
        text = shown(content.text())
    except ValueError:
        text = repr(content.data)
    yield f"contains {text}"


def recorded(content: Content) -> dict[str, object]:
    """Returns what a symbol contains for JSON."""
    header, record = content.header, {}
    try:
        record["contains"] = content.text()
    except ValueError:
        record["bytes"] = content.data.hex()
    if content.gs1:
        record["gs1"] = next(iter(texts_of(content)), None)
    if content.ecis:
        record["ecis"] = [it.number for it in content.ecis]
    if content.application is not None:
        record["application"] = content.application
    if header:
        record["position"], record["symbols_of_series"] = header.position + 1, header.last + 1
    return record


def state_of(it: Mended) -> tuple[int, str, str]:
    """Returns the status of a symbol, its state, and what both mean. The share that is spent is rounded up, so that 100 % says that all
    is."""
    share = -(-100 * (it.worst_misread + it.worst_unknown) // it.changed_allowed)
    if it.is_sound:
        return SOUND, STATES[0], "sound"
    if it.scannable:
        return READABLE, STATES[1], f"readable, {share} % of its correction spent"
    why = f"{share} % of its correction spent" if share > 100 else "its format information is damaged too much"
    return NOT_READABLE, STATES[2], f"read here, but scanners will not: {why}"


def mended_of(square: Square) -> Union[Mended, str]:
    """Returns a symbol, or why it cannot be read."""
    try:
        return square.mend() if isinstance(square, Found) else qrproved.mend(*square)
    except Error as fault:
        # (in a picture a symbol that is mirrored is read)
        return "the symbol is mirrored" if not isinstance(square, Found) and is_mirrored(*square) else str(fault)


def with_kanji(all_mended: list[Union[Mended, str]]) -> list[Union[Mended, str]]:
    """Returns symbols of which each that is in a series with kanji has kanji too: what is joined has one encoding."""
    headers = [it.content.header for it in all_mended if isinstance(it, Mended) and it.content.kanji]
    series = {(it.last, it.parity) for it in headers if it}
    return [dataclasses.replace(it, content=dataclasses.replace(it.content, kanji=True))
            if isinstance(it, Mended) and it.content.header and it.content.header[1:] in series else it for it in all_mended]


def joined(all_mended: list[Union[Mended, str]]) -> Optional[Content]:
    """Returns the content of a whole series, if the symbols are its symbols in their order."""
    contents = [it.content for it in all_mended if isinstance(it, Mended)]
    first = contents[0].header if contents else None
    if first is None or [it.header for it in contents] != [first._replace(position=k) for k in range(first.last + 1)] or len(contents) < len(all_mended):
        return None
    return dataclasses.replace(contents[0], data=b"".join(it.data for it in contents))


def verdict(square: Square, it: Union[Mended, str], is_graded: bool) -> Verdict:
    """Returns what a symbol contains and how much of its correction is spent."""
    unknown = (square.modules if isinstance(square, Found) else square[0]).count(2)
    of_unknown = f"{unknown} {'module is' if unknown == 1 else 'modules are'} not known"
    if isinstance(it, str):
        return Verdict(NOT_READABLE, [f"not readable: {it}" + (f"; {of_unknown}" if unknown else "")], {"state": STATES[3], "fault": it})
    status, state, said = state_of(it)
    looks = looks_of(square)
    if "mirrored" in looks and status == SOUND:
        status, state, said = READABLE, STATES[1], "readable"
    lines = [f"{said}: {it.content.version}-{it.level.name}, mask {it.mask}"]
    if is_graded:
        lines.append(f"unused error correction {it.unused:.2f}, grade {it.unused_grade}: this one parameter of ISO/IEC 15415, and no grade of the symbol")
    if it.content.header:
        lines.append(f"symbol {it.content.header.position + 1} of {it.content.header.last + 1} of its series")
    if unknown:
        lines.append(f"{of_unknown}, and their codewords count as wrong")
    lines += [f"{look}, which not every scanner reads" for look in looks.values()]
    numbers = {"version": it.content.version, "level": it.level.name, "mask": it.mask, "spent": round(it.spent, 4), "unused": round(it.unused, 4),
               "unused_grade": it.unused_grade, "wrong_modules": it.wrong_modules, "unknown_modules": unknown}
    return Verdict(status, lines + list(said_of(it.content)), {"state": state, **numbers, **dict.fromkeys(looks, True), **recorded(it.content)})


def looks_of(square: Square) -> dict[str, str]:
    """Returns how a symbol of a picture looks other than most symbols: the names in JSON, and what is said."""
    if not isinstance(square, Found):
        return {}
    looks = {"mirrored": (square.is_mirrored, "mirrored"), "light_on_dark": (square.is_inverse, "light on dark")}
    return {name: said for name, (is_so, said) in looks.items() if is_so}


def squares_of(data: bytes) -> list[Square]:
    """Returns each symbol of a drawing or of a picture. Raises ValueError if there is none."""
    try:
        return qrproved.parse_drawing(data)
    except ValueError as fault:
        if is_picture(data):
            return seen(qrproved.find(data, unread=True))
        if not isinstance(fault, UnicodeDecodeError):
            raise
        raise ValueError("it is no PNG picture, no SVG document and no text in UTF-8") from None


def seen(found: list[Found]) -> list[Found]:
    """Returns the symbols that are found in a picture. Raises ValueError if there are none."""
    if not found:
        raise ValueError(qrproved.NO_SYMBOL)
    return found


def pages_in(data: bytes) -> Iterator[Page]:
    """Yields the pages of a file."""
    try:
        pages = pages_of(data)
        if pages is None:
            squares = squares_of(data)
            yield Page(None, squares, "", isinstance(squares, qrproved.Drawn) and squares.drawing is None)
            return
        for number, page in enumerate(pages, 1):
            try:
                yield Page(number, seen(qrproved.found_in(page, True)))
            except ValueError as fault:
                yield Page(number, [], str(fault))
    except ValueError as fault:
        yield Page(None, [], str(fault))


def verdicts_of(path: str, data: bytes, expected: Optional[Expected], is_graded: bool) -> Iterator[Verdict]:
    """Yields what is said of each symbol of a file, and of pages without one."""
    pages = list(pages_in(data))
    all_mended = with_kanji([mended_of(it) for page in pages for it in page.squares])
    whole = joined(all_mended)
    wanted = expected.of(path) if expected and (whole is not None or len(all_mended) == 1) else None
    judged = expected.fault(whole, wanted) if expected and whole is not None else None
    contents = iter(all_mended)
    for page in pages:
        place = {"file": path} if page.number is None else {"file": path, "page": page.number}
        before = [f"page {page.number}"] if page.number is not None else []
        if page.fault:
            yield Verdict(NOT_READABLE, [*before, f"not readable: {page.fault}"], {**place, "status": NOT_READABLE, "state": STATES[3], "fault": page.fault})
        for square, it in zip(page.squares, contents):
            said = verdict(square, it, is_graded)
            status, lines, record = said.status, before + said.lines, {**place, "status": said.status, **said.record}
            if expected is not None and isinstance(it, Mended):
                fault = judged if whole is not None else expected.fault(it.content, wanted)
                record.update({"as_expected": fault is None, **({} if wanted is None else {"expected": wanted})})
                if fault is not None:
                    status, lines = NOT_READABLE, [*lines, fault]
                    record["status"] = status
            yield Verdict(status, lines, record)
        if page.is_guess:
            yield Verdict(SOUND, ["found by its look: the text is damaged, or another program drew it"], {})


class Count:
    """How many files and symbols there were, and how many of each state."""

    def __init__(self) -> None:
        self.files, self.states, self.unexpected = 0, Counter(), 0

    def add(self, record: dict[str, object]) -> None:
        if record:
            self.states[record["state"]] += 1
            self.unexpected += record.get("as_expected") is False

    def record(self, expected: Optional[Expected]) -> dict[str, int]:
        found = {"files": self.files, **{state.replace(" ", "_"): self.states[state] for state in STATES}}
        if expected is not None:
            twice = sum(count > 1 for count in expected.seen.values())
            found.update(unexpected=self.unexpected, not_seen=expected.unseen(), seen_again=twice)
        return found


def summary_of(found: dict[str, int]) -> str:
    counts = ", ".join(f"{count:,} {state.replace('_', ' ')}" for state, count in list(found.items())[1:1 + len(STATES)])
    said = f"{found['files']:,} file{'s' * (found['files'] != 1)}; symbols: {counts}"
    if "unexpected" in found:
        said += f"; {found['unexpected']:,} not as expected; texts of the list: {found['not_seen']:,} not seen, {found['seen_again']:,} seen again"
    return said


def check(words: list[str]) -> int:
    """Checks the symbols of pictures, of documents or of drawings as text, and returns the greatest status."""
    given = parsed(words)
    expected = Expected(given) if given.expect is not None else None
    files, status, count = named(given.file), SOUND, Count()
    if isinstance(sys.stdout, io.TextIOWrapper):
        sys.stdout.reconfigure(errors="backslashreplace")  # of characters that the terminal's encoding has not
    for path in files:
        count.files += 1
        try:
            data = sys.stdin.buffer.read() if path == "-" else Path(path).read_bytes()
        except OSError as fault:
            say(str(fault))
            status = NOT_READABLE
            count.add({"state": STATES[3]})
            if given.json and not is_printed([json.dumps({"file": path, "status": NOT_READABLE, "state": STATES[3], "fault": str(fault)})]):
                return status
            continue
        lines = []
        for found in verdicts_of(path, data, expected, given.grade):
            status = max(status, found.status)
            count.add(found.record)
            if given.quiet and found.status == SOUND:
                continue
            lines += found.lines if not given.json else [json.dumps(found.record, ensure_ascii=False)] if found.record else []
        if len(files) > 1 and not given.json and lines:
            lines = [f"{path}:", *(f"  {line}" for line in lines)]
        if lines and not is_printed(lines):
            return status
    if given.summary:
        found = count.record(expected)
        is_printed([json.dumps({"status": status, "summary": found}) if given.json else summary_of(found)])
    return status


def parsed(words: list[str]) -> argparse.Namespace:
    """Returns the arguments, or ends the program with their fault."""
    parser = argparse.ArgumentParser(prog=f"{PROGRAM} check", description="Checks the symbols of PNG pictures, of SVG documents, of drawings in"
                                     " ASCII or in UTF8, and of the pages of PDF (if pdftoppm is installed) and of TIFF (if Pillow is). They may"
                                     " be turned or seen at an angle. The status is 0 if each is sound, 1 if scanners can read each, and 2"
                                     " otherwise. Of several files the name stands before what is said of each.")
    parser.add_argument("file", nargs="*", default=["-"], help="files with pictures or drawings; without one, standard input")
    parser.add_argument("--expect", metavar="LIST", help="a list of labels, as for --batch: a file contains the text of the label by which --batch"
                        " names it. A symbol of a file with another name, or with several labels, contains one of the texts. If not, the status is 2")
    parser.add_argument("--columns", nargs="*", metavar="KIND=NAME", help="the columns of the list, as for --batch; after them write -- or another"
                        " option, and then the files")
    parser.add_argument("--names", choices=["number", "text"], default="number", help="how --batch named the files: by number")
    parser.add_argument("--start", type=int, default=1, metavar="N", help="the number of the first label of the list; 1")
    parser.add_argument("--encoding", metavar="NAME", help="the encoding of the list; utf-8")
    parser.add_argument("--grade", action="store_true", help="say how much error correction is unused, with its grade from A to F by ISO/IEC 15415."
                        " This is one parameter of that standard, and no grade of the symbol")
    parser.add_argument("--json", action="store_true", help="print an object of JSON for each symbol, each on a line")
    parser.add_argument("--summary", action="store_true", help="print counts of files and symbols at the end")
    parser.add_argument("-q", "--quiet", action="store_true", help="say nothing of symbols that are sound and contain what is expected")
    given = parser.parse_args(words)
    if given.expect is None and (given.columns is not None or given.encoding is not None):
        parser.error("--columns and --encoding are those of the list of --expect")
    if given.expect == "-" and "-" in given.file:
        parser.error("standard input is the list or a picture, and not both")
    try:
        given.columns = columns_of(given.columns)
        given.encoding = None if given.encoding is None else encoding_of(given.encoding)
    except SourceError as fault:
        parser.error(str(fault))
    if given.encoding == BINARY:
        parser.error("the list of --expect has texts, and no bytes")
    return given
