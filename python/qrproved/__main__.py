"""The command qrproved, or python -m qrproved: writes symbols as PNG, as SVG, as text or for printers, one, a series, or one for each
line of a file; writes contents such as a contact or a payment; and checks pictures and drawings."""
from __future__ import annotations

import argparse
import contextlib
import io
import itertools
import os
import sys
import time
import warnings
from typing import TYPE_CHECKING, BinaryIO, Optional, Union

import qrproved
from qrproved import EciError, Error, Gs1Error, Level, Rule, SettingsError, _colours, _papers, contents
from qrproved._check import NOT_READABLE, check
from qrproved._console import INPUT, PROGRAM, end_output, say
from qrproved.contents import ContentError
from qrproved._sources import BINARY, SourceError, decoded, encoding_of, is_text
from qrproved._stream import (DIGITS, DIGITS_OF_SHARD, LABELS_OF_ARCHIVE, Naming, Source, columns_of, labels_of, parts_of, processors, progress_of,
                              spread)
from qrproved.batch import BESIDE, LOGO_SIDE, REFUSALS, Done, Label, Part, Settings, Unreadable, largest, placed, write

if TYPE_CHECKING:
    from collections.abc import Iterator

    from qrproved import Sheet, Symbol
    from qrproved._stream import Row

KINDS = {".png": "png", ".svg": "svg", ".txt": "utf8", ".pdf": "pdf", ".eps": "eps", ".pbm": "pbm", ".zpl": "zpl", ".tspl": "tspl", ".bin": "escpos"}
PRINTERS = tuple(qrproved.LABELS)
ONE_FILE = ("pdf", *PRINTERS)  # of which a file may have all labels of --batch
BINARIES = ("png", "pdf", "pbm", *PRINTERS)  # which a terminal does not show
SUFFIXES = {"png": ".png", "svg": ".svg", "pdf": ".pdf", "eps": ".eps", "pbm": ".pbm", "zpl": ".zpl", "tspl": ".tspl", "escpos": ".bin", **dict.fromkeys(("txt", "utf8", "ascii", "asciii"), ".txt")}
INTERRUPTED = 130  # the status of a program that a key of the terminal ends
TABLES = (".csv", ".tsv")  # what the name of a file ends in whose first line has the names of columns
PAPER = "Avery 3475"  # of --sheet, if nothing else is said
# Why a drawing of each type has no colours.
COLOURED = ("svg", "png", "pdf")
NO_COLOURS = {"pdf": "sheets, and a PDF with all labels of a batch, are black on white", "eps": "colours in EPS are not proved yet", "pbm": "a PBM is black and white",
              **dict.fromkeys(PRINTERS, "printers of labels and receipts print black alone"), **dict.fromkeys(("txt", "utf8", "ascii", "asciii"), "a text has no colours")}
VERSION_OF_PAYMENTS = 13  # at most, by EPC069-12
ERASED = f"\r{'':70}\r"  # takes the place of a line that says how far a batch is; not every console knows more


def batch(given: argparse.Namespace, settings: Settings, told: set[str]) -> int:
    """Writes a symbol for each label of a list, each to a file of a folder or of an archive, or all to one file. Warnings that were told of
    the settings are not told again of labels."""
    is_input = given.batch == "-"
    with sys.stdin.buffer if is_input else open(given.batch, "rb") as file:
        source = Source(file, INPUT if is_input else given.batch, given.encoding)
        names = naming_of(given, settings, source)
        rows = source.rows_by_columns(given.columns) if given.columns else source.rows()
        first = list(itertools.islice(rows, 1))  # so that a list that cannot be read is refused before anything is written
        labels = labels_of(itertools.chain(first, rows), names)
        with Report(given, source, told) as report:
            if settings.kind == "pdf" and settings.is_label:
                paged(given, settings, labels, names, report)
            elif settings.is_label:
                with whole(given.output) as out:
                    written(given, parts_of(labels, settings, names, False), out, report)
            else:
                os.makedirs(given.output, exist_ok=True)
                written(given, parts_of(labels, settings, names, given.resume), None, report)
        return 1 if report.faults else 0


def sheet(given: argparse.Namespace, settings: Settings, told: set[str]) -> int:
    """Writes a PDF with a label for each line of a list, or of a table, on sheets of label paper."""
    is_input, paper = given.sheet == "-", paper_of(given)
    place = qrproved._place_of(paper)
    with sys.stdin.buffer if is_input else open(given.sheet, "rb") as file:
        source = Source(file, INPUT if is_input else given.sheet, given.encoding)
        with Report(given, source, told) as report:
            kept: list[tuple[Union[str, bytes], str, Symbol]] = []
            for row in itertools.islice(labels_of_sheet(given, source), qrproved.LABELS_MAX + 1):
                done = Done(1, 0, [], [])
                try:
                    kept.append(on_label(row, place, settings, given.captions))
                except REFUSALS as fault:
                    done.faults.append((row.line, str(fault)))
                report.add(done)
            if kept:
                version = max(symbol.version for *_, symbol in kept)
                wider = settings._replace(version=version)
                symbols = [it if it.version == version else wider.encoded(data)[0] for data, _, it in kept]
                document = qrproved.sheets(symbols, paper, margin=settings.margin, mm=settings.mm, captions=[caption for _, caption, _ in kept])
                with whole(given.output) as out:
                    out.write(document)
        if not kept:
            say(f"{source.name} has no label, so that nothing is written")
        return 0 if kept and not report.faults else 1


def labels_of_sheet(given: argparse.Namespace, source: Source) -> Iterator[Row]:
    """Yields the labels of a list: those of its columns, or its lines, each with its caption after a tab."""
    if given.columns:
        yield from source.rows_by_columns(given.columns)
    elif os.path.splitext(given.sheet)[1].lower() in TABLES:
        yield from source.rows_by_columns({"text": "text", "caption": "caption"}, ("caption",))
    else:
        for row in source.rows():
            text, tab, caption = row.data.partition("\t") if isinstance(row.data, str) else (row.data, "", "")
            yield row._replace(data=text, caption=caption.replace("\t", " ")) if tab else row


def on_label(row: Row, place: tuple[int, int], settings: Settings, is_captioned: bool) -> tuple[Union[str, bytes], str, Symbol]:
    """Returns the text of a label of this width and height, its caption and its symbol. A caption that is not given is the text."""
    data = row.data
    if isinstance(data, Unreadable):
        raise SettingsError(data.why)
    if isinstance(data, str) and not data.strip():
        raise SettingsError("it has no text")
    caption = "" if not is_captioned else row.caption if row.caption is not None else data
    if not isinstance(caption, str):
        raise SettingsError("bytes are no caption: add --no-captions")
    _papers.check_caption(caption)
    symbol, fault = settings.encoded(data)[0], _papers.fault_of(caption, *place)
    if fault is not None:
        raise SettingsError(fault)
    return data, caption, symbol


def paper_of(given: argparse.Namespace) -> Sheet:
    """Returns the label paper that the options describe: by its name, or by the size of the paper."""
    own = {"--grid": given.grid, "--label": given.label, "--margins": given.margins, "--gaps": given.gaps}
    if given.size is None:
        named = next((it for it, value in own.items() if value is not None), None)
        if named is not None:
            raise SettingsError(f"{named} is for paper by its size, as in --paper a4, and {given.paper} has its own")
        paper = qrproved.paper(given.paper)
    else:
        if given.grid is None:
            raise SettingsError("--paper by a size needs the columns and rows of its labels, as in --grid 3x8")
        paper = qrproved._labelled(*given.size, given.grid, given.label, given.margins, given.gaps or (0, 0), 0)
    places = paper.columns * paper.rows
    if not 1 <= given.place <= places:
        raise SettingsError(f"--place is from 1 to {places}, and not {given.place}")
    return paper._replace(first=given.place - 1)


def naming_of(given: argparse.Namespace, settings: Settings, source: Source) -> Naming:
    """Returns how files are named. Numbers have as many digits as the last one needs."""
    shard, are_numbers = given.shard or (LABELS_OF_ARCHIVE if given.tar else None), given.names == "number" and "name" not in given.columns
    digits = DIGITS_OF_SHARD if shard else DIGITS
    if are_numbers and not shard and not settings.is_label:
        digits = max(digits, len(str(source.count() + given.start - 1)))
    return Naming(given.output, SUFFIXES[settings.kind], given.names == "text", given.start, digits, shard, given.tar)


def opened(path: str) -> contextlib.AbstractContextManager[BinaryIO]:
    """Returns the file that is written, or standard output, which stays open."""
    return contextlib.nullcontext(sys.stdout.buffer) if path == "-" else open(path, "wb")


@contextlib.contextmanager
def whole(path: str) -> Iterator[BinaryIO]:
    """Opens the file of all labels, which has its name when it is whole; or standard output, or a device."""
    if path == "-" or (os.path.exists(path) and not os.path.isfile(path)):
        with opened(path) as file:
            yield file
            file.flush()
        return
    path = os.path.realpath(path)
    with placed(path + BESIDE, path), open(path + BESIDE, "wb") as file:
        yield file


def paged(given: argparse.Namespace, settings: Settings, labels: Iterator[tuple[str, Label]], names: Naming, report: Report) -> None:
    """Writes a PDF with a page for each label, all of the version of the largest."""
    listed = list(itertools.islice(labels, qrproved.LABELS_MAX + 1))  # which are refused if they are one more
    version = max(spread(largest, parts_of(listed, settings, names, False), given.jobs or processors()), default=0)
    modules = io.BytesIO()
    written(given, parts_of(listed, settings._replace(version=max(version, settings.version)), names, False), modules, report)
    with whole(given.output) as out:
        if modules.tell():
            out.write(qrproved._pages(modules.getvalue(), 17 + 4 * version, settings.margin, settings.mm))


def written(given: argparse.Namespace, parts: Iterator[Part], out: Optional[BinaryIO], report: Report) -> None:
    """Writes the parts, each by a process that is free, and those of one file to `out`."""
    for done in spread(write, parts, given.jobs or processors()):
        if out is not None:
            out.write(done.file)
        report.add(done)


class Report:
    """What is said of a batch: its faults as they come, how far it is, and at its end what scanners may not read."""

    def __init__(self, given: argparse.Namespace, source: Source, told: set[str]) -> None:
        self.is_quiet, self.source, self.told = given.quiet, source, told
        self.count = self.skipped = self.faults = self.written = 0  # those that are written since the start of the clock
        self.warned: dict[str, list[int]] = {}  # of each text the first line, and how many lines there are
        self.path, self.file = given.faults, None if given.faults is None else open(given.faults, "w", encoding="utf-8", newline="\n")
        self.is_shown, self.begun = sys.stderr.isatty(), time.monotonic()
        self.start, self.first_share = self.begun, source.share() or 0.0

    def __enter__(self) -> Report:
        return self

    def add(self, done: Done) -> None:
        share = self.source.share()
        self.written += done.count - done.skipped
        if done.skipped and done.skipped + len(done.faults) == done.count:  # what is skipped says nothing of the time that is left
            self.start, self.first_share, self.written = time.monotonic(), share or 0.0, 0
        self.count += done.count
        self.skipped += done.skipped
        self.faults += len(done.faults)
        if self.is_shown and done.faults:
            print(ERASED, end="", file=sys.stderr)
        for line, why in done.faults:
            if self.file is None:
                say(f"line {line}: {why}")
            else:
                print(line, why, sep="\t", file=self.file, flush=True)
        for line, text in done.warned:
            if text not in self.told:
                self.warned.setdefault(text, [line, 0])[1] += 1
        if self.is_shown:
            said = progress_of(self.count, self.written, time.monotonic() - self.start, self.first_share, share)
            print(f"{ERASED}qrproved: {said}", end="", file=sys.stderr, flush=True)

    def __exit__(self, kind: Optional[type[BaseException]], *_: object) -> None:
        if self.file is not None:
            self.file.close()
        if self.is_shown:
            print(ERASED, end="", file=sys.stderr)
        if kind is not None:
            return
        if self.is_shown:
            skipped = f", and {self.skipped:,} were there" if self.skipped else ""
            say(f"{self.count - self.faults - self.skipped:,} labels in {time.monotonic() - self.begun:.1f} s{skipped}")
        if self.file is not None and self.faults:
            say(f"{self.faults:,} label{'s are' if self.faults != 1 else ' is'} missing; {self.path} has the lines and the reasons")
        for text, (line, count) in self.warned.items() if not self.is_quiet else ():
            say(f"line {line}{f' and {count - 1:,} more' if count > 1 else ''}: {text}")


def text_of(data: bytes) -> Union[str, bytes]:
    """Returns an argument as text if it is UTF-8, and else its bytes."""
    try:
        return data.decode()
    except UnicodeDecodeError:
        return data


def of_input(data: bytes, encoding: Optional[str], is_quiet: bool) -> Union[str, bytes]:
    """Returns what standard input has: a text, or bytes as they are if they are no UTF-8 and no encoding is named."""
    if encoding == BINARY:
        return data
    text = decoded(data, encoding, INPUT)
    if is_text(text):
        return text
    if encoding is not None:
        raise SourceError(f"{INPUT} is no text in {encoding}")
    if not is_quiet:
        say(f"{INPUT} is no UTF-8, so its bytes are encoded as they are; --encoding names its encoding, or '{BINARY}'")
    return data


def one(given: argparse.Namespace, settings: Settings) -> int:
    """Writes the symbol of the text, of a content, or of what standard input has, or their series."""
    if given.content is not None:
        data = given.content
    elif given.text is not None:
        data = text_of(os.fsencode(given.text))
    else:
        data = of_input(sys.stdin.buffer.read(), given.encoding, given.quiet)
    if given.gs1:
        data = data.rstrip("\r\n") if isinstance(data, str) else data.rstrip(b"\r\n")
    symbols = settings.encoded(data)
    drawing = settings.drawn(symbols)
    most = settings.mm if settings.fit_mm is None and settings.kind in PRINTERS else settings.fit_mm
    if most is not None and not given.quiet:
        dots, width = symbols[0].printed_size(mm=most, dpi=settings.dpi or qrproved.DPI, margin=settings.margin)
        say(f"{width:.3f} mm wide with its margin, and {dots} {'dots' if dots > 1 else 'dot'} a module")
    with opened(given.output or "-") as file:
        file.write(drawing)
        file.flush()
    return 0


def is_one_file(path: str, kind: Optional[str]) -> bool:
    """Whether the labels of --batch go to one file: its name says so, or it is standard output or a device."""
    return kind in ONE_FILE or path == "-" or (os.path.exists(path) and not os.path.isdir(path))


def eci(text: str) -> int:
    """Returns the number of an ECI, or False for none."""
    return False if text == "none" else int(text)


def pair(text: str) -> tuple[float, float]:
    """Returns two lengths in millimetres, as in 63.5x38.1."""
    width, sign, height = text.lower().partition("x")
    try:
        lengths = float(width), float(height)
    except ValueError:
        lengths = (-1.0, -1.0)
    if not (sign and all(0 <= it <= qrproved.PAPER_MAX / 1000 for it in lengths)):
        raise argparse.ArgumentTypeError(f"it is two lengths in millimetres, as in 63.5x38.1, and not {text!r}")
    return lengths


def grid(text: str) -> tuple[int, int]:
    columns, _, rows = text.lower().partition("x")
    if not (columns.isdecimal() and rows.isdecimal()):
        raise argparse.ArgumentTypeError(f"it is the number of columns and that of rows, as in 3x8, and not {text!r}")
    return int(columns), int(rows)


def size_of(text: str) -> Optional[tuple[float, float]]:
    """Returns the size of paper in millimetres; None for the name of a label paper."""
    known = _papers.SIZES.get(text.lower())
    if known is not None:
        return tuple(known)
    try:
        return pair(text)
    except argparse.ArgumentTypeError:
        return None


def side_of(text: str) -> float:
    """Returns the side of a logo: modules as a whole number, or a fraction of the symbol's side."""
    try:
        return int(text) if text.isdecimal() else float(text)
    except ValueError:
        raise argparse.ArgumentTypeError(f"it is a number of modules, as 7, or a fraction of the side, as 0.2, and not {text!r}") from None


def add_drawing(parser: argparse.ArgumentParser, of_batch: str) -> None:
    """Adds the options that say where a symbol is written, and how."""
    parser.add_argument("-o", "--output", metavar="FILE", help="the file to write, .png, .svg, .pdf, .eps, .txt, .pbm, .zpl, .tspl or .bin, which is"
                        f" ESC/POS{of_batch}")
    parser.add_argument("-t", "--type", choices=sorted(SUFFIXES), type=str.lower, help="the type of the drawing, if the file does not tell")
    parser.add_argument("-v", "--version", type=int, metavar="N", help="the least version, from 1 to 40; 1. The version of a series")
    parser.add_argument("--mask", type=int, metavar="N", help="the mask, from 0 to 7, in place of the one with the least penalty, which the standard asks"
                        " for")
    parser.add_argument("-m", "--margin", type=int, default=4, metavar="N", help="light modules on each side, from 0 to 100; 4")
    parser.add_argument("-s", "--scale", type=int, metavar="N", help="pixels of a module of a PNG or a PBM, from 1 to 100, or dots for a printer;"
                        " 8, or 4 dots")
    parser.add_argument("--mm", type=float, metavar="N", help="the width of a PNG, SVG, PDF or EPS with its margin, in millimetres; for a printer, in place"
                        " of --scale, the most that it may be wide")
    parser.add_argument("--dpi", type=float, metavar="N", help="in place of --mm, the pixels of an inch of a PNG; the dots of an inch of a printer;"
                        " 203")
    parser.add_argument("--fit-mm", type=float, metavar="N", help="in place of --mm and --scale, the most that a PNG, a PBM or a label may be wide"
                        " with its margin, in millimetres: a module has as many whole dots of a printer with --dpi dots an inch as fit")
    parser.add_argument("-x", type=int, default=0, metavar="N", help="how far the symbol is from the left edge of a label, in dots; 0")
    parser.add_argument("-y", type=int, default=0, metavar="N", help="how far it is from the upper edge")
    parser.add_argument("--dark", metavar="COLOUR", help="the colour of the dark modules of an SVG, PNG or PDF: #rgb, #rrggbb or a name of CSS 2.1; black")
    parser.add_argument("--light", metavar="COLOUR", help="that of its ground, or 'none' for a transparent one; white. Colours that scanners do not"
                        " tell apart are refused")
    parser.add_argument("--inverse", action="store_true", help="allow dark modules that are lighter than the ground, which many scanners do not read")
    parser.add_argument("--logo", metavar="PICTURE", help="draw this PNG or SVG file into the middle of an SVG, or this PNG file into that of a PNG. The"
                        " symbol gets the least version, and of it the highest level, with which the logo is allowed")
    parser.add_argument("--logo-side", type=side_of, metavar="N", help="the side of the logo with the light ring around it: a number of modules, as 7, or a"
                        f" fraction of the symbol's side; {LOGO_SIDE}")
    parser.add_argument("--share", type=float, metavar="N", help="how much of what can be corrected the logo may use up, from 0 to 0.75; 0.5")
    parser.add_argument("-q", "--quiet", action="store_true", help="do not warn of small margins and modules, nor of bytes"
                        " that are no UTF-8")
    parser.add_argument("-S", "--series", action="store_true", help="write a series of up to 16 symbols of the version -v: the pages of a PDF, the"
                        " labels of a file for a printer, and else one symbol below the other")


def add_encoding(parser: argparse.ArgumentParser) -> None:
    """Adds the options that say how a text is encoded."""
    parser.add_argument("-l", "--level", choices=list(Level.__members__), type=str.upper, default="L", help="the least level of error correction; L")
    parser.add_argument("--no-boost", dest="boost", action="store_false", help="take this level also where the version has room for a higher one")
    parser.add_argument("-k", "--kanji", action="store_true", help="allow kanji mode too: texts are encoded as Shift JIS")
    parser.add_argument("--eci", type=eci, metavar="N", help="the ECI header, from 0 to 999999, or 'none'; else a text that is not ASCII has 26,"
                        " for UTF-8, and bytes have none")


def of_content(kind: str, words: list[str]) -> argparse.Namespace:
    """Returns the arguments of a content, or ends the program with their fault. Raises ContentError if a field is wrong."""
    fields = {name: spec for name, spec in contents.KINDS[kind]["fields"].items() if not spec.get("made")}
    needed = [name for name, spec in fields.items() if spec.get("needed")]
    parser = argparse.ArgumentParser(
        prog=f"{PROGRAM} {kind}", description=f"Writes the QR Code symbol of {contents.KINDS[kind]['help']}.",
        epilog=f"FIELD=VALUE is the same as --FIELD VALUE. {'Needed: ' + ', '.join(needed) + '.' if needed else ''}")
    parser.add_argument("pairs", nargs="*", metavar="FIELD=VALUE", help="a field and its value")
    for name, spec in fields.items():
        if spec.get("is") == "flag":
            parser.add_argument(f"--{name}", dest=f"field_{name}", action="store_const", const="true", help=spec["help"])
        else:
            metavar = f"{{{','.join(spec['choices'])}}}" if "choices" in spec else "TEXT"
            more = "; may be given several times" if spec.get("many") else ""
            parser.add_argument(f"--{name}", dest=f"field_{name}", action="append", metavar=metavar, help=spec["help"] + more)
    add_drawing(parser, "")
    parser.add_argument("--bytes", action="store_true", help="encode the whole input in byte mode")
    parser.set_defaults(text=None, batch=None, sheet=None, gs1=False, encoding=None, names="number", jobs=None, columns=None, start=1, shard=None, tar=False,
                        resume=False, faults=None)
    if kind == "payment":
        parser.set_defaults(**contents.PAYMENT, kanji=False)
    else:
        add_encoding(parser)
    given = parser.parse_intermixed_args(words)
    if kind == "payment" and (given.version or 1) > VERSION_OF_PAYMENTS:
        parser.error(f"a payment has a version from 1 to {VERSION_OF_PAYMENTS}")
    if kind == "payment" and given.logo is not None:
        parser.error("a payment has level M, and with a logo it may have another one")
    values = {name: list(getattr(given, f"field_{name}") or []) for name in fields if fields[name].get("is") != "flag"}
    values.update({name: ["true"] for name in fields if getattr(given, f"field_{name}") == "true"})
    for pair in given.pairs:
        name, sign, value = pair.partition("=")
        if not sign or name not in fields:
            parser.error(f"{pair} is no FIELD=VALUE; the fields are {', '.join(fields)}")
        values.setdefault(name, []).append(value)
    for name, texts in values.items():
        if len(texts) > 1 and not fields[name].get("many"):
            parser.error(f"{name} is given more than once")
    text = contents.content_text(kind, {name: texts if fields[name].get("many") else texts[0] for name, texts in values.items() if texts})
    given.content = contents.payment_bytes(text) if kind == "payment" else text
    return completed(parser, given)


def parsed(words: list[str]) -> argparse.Namespace:
    """Returns the arguments, or ends the program with their fault."""
    parser = argparse.ArgumentParser(
        prog=PROGRAM, description="Writes the QR Code symbol of a text as PNG, as SVG, as text or for a printer.",
        epilog=f"'{PROGRAM} check [FILE..]' checks pictures or drawings. '{PROGRAM} KIND FIELD=VALUE..' writes a content, whose kind is"
        f" {', '.join(contents.KINDS)}; '{PROGRAM} KIND -h' lists its fields. To encode a text that begins with a hyphen, or one of these"
        " words alone, write -- before it, and all options before the --: after it no option is taken. '--version' or '-V' alone prints which"
        " version of the package this is.")
    parser.add_argument("text", nargs="?", help="the text to encode; without it, the text that standard input has, with its line end if"
                        " it has one. If that is no UTF-8, its bytes are encoded as they are, with a note")
    add_drawing(parser, "; with --batch a folder, or a file .pdf, .zpl, .tspl or .bin with all labels")
    add_encoding(parser)
    parser.add_argument("-8", "--bytes", action="store_true", help="encode the whole input in byte mode")
    parser.add_argument("--encoding", metavar="NAME", help="the encoding of standard input or of the file of --batch; utf-8. 'binary' is for"
                        " bytes, which are encoded as they are")
    parser.add_argument("--gs1", action="store_true", help="the text is GS1 data, as '(01)04012345678901(10)AB'")
    parser.add_argument("--batch", metavar="FILE", help="write a symbol for each line of a file; - is standard input. A PDF has a page for each, and"
                        " all get the version of the largest")
    parser.add_argument("--names", choices=["number", "text"], default="number", help="how --batch names files: by number")
    parser.add_argument("--jobs", type=int, metavar="N", help="processes of --batch; one for each processor")
    parser.add_argument("--columns", nargs="*", metavar="KIND=NAME", help="the file of --batch has columns, by commas, semicolons or tabs, and names"
                        " in its first line: text=NAME is the column to encode, name=NAME that of the names of files, and caption=NAME that of texts"
                        " below the symbols of SVG. Without KIND=NAME there are columns called text and name")
    parser.add_argument("--start", type=int, default=1, metavar="N", help="the number of the first label of --batch; 1")
    parser.add_argument("--shard", type=int, metavar="N", help="--batch writes folders with so many labels each, named by their first one")
    parser.add_argument("--tar", action="store_true", help=f"--batch writes tar archives in place of folders, with {LABELS_OF_ARCHIVE:,} labels"
                        " unless --shard says how many")
    parser.add_argument("--resume", action="store_true", help="--batch skips files and archives that are there, as after an interruption")
    parser.add_argument("--faults", metavar="FILE", help="--batch writes the numbers of the lines that cannot be drawn to this file, each with a tab and the reason")
    add_sheet(parser)
    parser.set_defaults(content=None)
    return completed(parser, parser.parse_args(words))


def add_sheet(parser: argparse.ArgumentParser) -> None:
    """Adds the options of sheets of label paper."""
    of_sheet = parser.add_argument_group("sheets of label paper")
    of_sheet.add_argument("--sheet", metavar="FILE", help="write a PDF of label paper with a label for each line of a file; - is standard input. What stands"
                          " after a tab is the caption, and without one the text is. A file .csv or .tsv has columns called text and, if there are"
                          " captions, caption; --columns names others. All symbols get the version of the largest")
    of_sheet.add_argument("--paper", default=PAPER, metavar="NAME", help=f"the label paper; {PAPER}. There are {', '.join(qrproved.PAPERS)}. Or the size"
                          f" of the paper, {', '.join(_papers.SIZES)} or WIDTHxHEIGHT in millimetres, which needs --grid")
    of_sheet.add_argument("--grid", type=grid, metavar="CxR", help="columns and rows of labels, as in 3x8")
    of_sheet.add_argument("--label", type=pair, metavar="WxH", help="the width and the height of a label in millimetres; without it, what margins and gaps leave")
    of_sheet.add_argument("--margins", type=pair, metavar="LxT", help="the margins of the paper on the left and at the top; without them, what labels and gaps leave")
    of_sheet.add_argument("--gaps", type=pair, metavar="AxD", help="the gaps between labels side by side, and one below the other; 0x0")
    of_sheet.add_argument("--place", type=int, default=1, metavar="N", help="the place of the first label on a sheet that was begun, counted row by row; 1")
    of_sheet.add_argument("--no-captions", dest="captions", action="store_false", help="write no captions")


def completed_sheet(parser: argparse.ArgumentParser, given: argparse.Namespace) -> argparse.Namespace:
    """Does for a sheet what completed does."""
    if given.output is None or given.text is not None or given.batch is not None:
        parser.error("--sheet FILE takes no text and no --batch, and needs the file of the sheets: -o sheet.pdf")
    given.type = given.type or given.kind or "pdf"
    if given.type != "pdf":
        parser.error("sheets of label paper are a PDF: -o sheet.pdf")
    others = {"--scale": given.scale, "--dpi": given.dpi, "--fit-mm": given.fit_mm, "-x": given.x, "-y": given.y, "--series": given.series, "--jobs": given.jobs,
              "--names": given.names != "number", "--start": given.start > 1, "--shard": given.shard, "--tar": given.tar, "--resume": given.resume,
              "--logo": given.logo}
    for name, value in others.items():
        if value:
            parser.error(f"{name} is not of --sheet")
    check_columns(parser, given)
    if given.output == "-" and sys.stdout.isatty():
        parser.error("pdf is not written to a terminal: name a file by -o")
    given.size, given.is_one_file = size_of(given.paper), True
    return given


def check_logo(parser: argparse.ArgumentParser, given: argparse.Namespace) -> None:
    """Ends the program if a drawing of this type has no logo."""
    if given.logo is None:
        if given.logo_side is not None or given.share is not None:
            parser.error("--logo-side and --share are of --logo")
    elif given.type not in ("png", "svg"):
        parser.error(f"--logo is of a PNG or an SVG, and not of {given.type.upper()}")
    elif given.series:
        parser.error("--logo is of one symbol, and not of a series")


def check_colours(parser: argparse.ArgumentParser, given: argparse.Namespace) -> None:
    """Ends the program if a drawing of this type has no colours, and takes the colours apart."""
    are_given = {"--dark": given.dark is not None, "--light": given.light is not None, "--inverse": given.inverse}
    named = next((name for name, is_given in are_given.items() if is_given), None)
    if named is not None and (given.type not in COLOURED or (given.type == "pdf" and given.is_one_file)):
        parser.error(f"{named} is of an SVG, a PNG or a PDF, as with -t svg: {NO_COLOURS[given.type]}")
    given.dark = _colours.DARK if given.dark is None else given.dark
    given.light = _colours.LIGHT if given.light is None else None if given.light.lower() == "none" else given.light


def completed(parser: argparse.ArgumentParser, given: argparse.Namespace) -> argparse.Namespace:
    """Returns the arguments with the type of the drawing, or ends the program with their fault."""
    if given.batch is not None and (given.output is None or given.text is not None):
        parser.error("--batch FILE takes no text, and needs the folder of the symbols: -o FOLDER")
    if given.encoding is not None:
        if given.text is not None:
            parser.error("--encoding is that of standard input or of the file of --batch; for the characters of the symbol there is --eci")
        try:
            given.encoding = encoding_of(given.encoding)
        except SourceError as fault:
            parser.error(f"--encoding: {fault}")
    given.kind = KINDS.get(os.path.splitext(given.output or "")[1].lower())  # that the name of the file says
    if given.sheet is not None:
        completed_sheet(parser, given)
        check_colours(parser, given)
        return given
    if given.type is None:
        if given.batch is None and given.output not in (None, "-") and given.kind is None:
            parser.error(f"{given.output} does not end in .png, .svg, .pdf, .eps, .txt, .pbm, .zpl, .tspl or .bin: name the type by -t")
        given.type = "png" if given.batch is not None and given.kind not in ONE_FILE else given.kind or "utf8"
    given.is_one_file = given.batch is not None and given.type in ONE_FILE and is_one_file(given.output, given.kind)
    if given.is_one_file and given.names == "text":
        parser.error("--names is of the files of a folder, and all labels go to one file")
    check_list(parser, given)
    check_colours(parser, given)
    check_logo(parser, given)
    if (given.batch is None or given.is_one_file) and given.output in (None, "-") and given.type in BINARIES and sys.stdout.isatty():
        parser.error(f"{given.type} is not written to a terminal: name a file by -o")
    if given.series:
        if given.batch is not None or given.version is None:
            parser.error("--series needs the version of its symbols, as in -v 5, and is of one text and not of --batch")
        if given.type in ("png", "pbm"):
            parser.error(f"a {given.type.upper()} has one symbol: a series is written as SVG, PDF, EPS, text or for a printer")
    if given.fit_mm is not None and given.type not in ("png", "pbm", *PRINTERS):
        parser.error("--fit-mm is for whole dots of a printer, which a PNG, a PBM and the files for printers have")
    if given.fit_mm is not None and (given.mm is not None or given.scale is not None):
        parser.error("--fit-mm stands in place of --mm and --scale")
    if given.type not in PRINTERS:
        if given.mm is not None and (given.dpi is not None or given.type not in ("png", "svg", "pdf", "eps")):
            parser.error("--mm is the width of a PNG, an SVG, a PDF or an EPS, and --dpi stands in its place; --fit-mm and --dpi are for whole"
                         " dots of a printer")
        if given.dpi is not None and given.type != "png" and given.fit_mm is None:
            parser.error("--dpi is of a PNG or of a printer")
    elif given.mm is not None and given.scale is not None:
        parser.error("--mm and --scale both say how large the symbol is")
    if (given.x or given.y) and given.type not in ("zpl", "tspl"):
        parser.error("-x and -y are the place on a label, in ZPL or TSPL")
    if given.gs1 and given.eci is not None:
        parser.error("GS1 data have no ECI header")
    return given


def check_list(parser: argparse.ArgumentParser, given: argparse.Namespace) -> None:
    """Ends the program with the fault of an option of --batch, and takes the columns apart."""
    if given.start < 1 or (given.shard is not None and given.shard < 1):
        parser.error("--start and --shard are numbers from 1 on")
    of_files = {"--shard": given.shard is not None, "--tar": given.tar, "--resume": given.resume, "--start": given.start > 1}
    of_batch = {**of_files, "--columns": given.columns is not None, "--faults": given.faults is not None}
    for name, is_given in of_batch.items() if given.batch is None else of_files.items() if given.is_one_file else ():
        if is_given:
            parser.error(f"{name} is of --batch" + (", and of the files of a folder: all labels go to one file" if given.batch is not None else ""))
    check_columns(parser, given)
    if "caption" in given.columns and given.type != "svg":
        parser.error("only an SVG has a caption: -t svg")


def check_columns(parser: argparse.ArgumentParser, given: argparse.Namespace) -> None:
    """Ends the program with the fault of --columns, and takes them apart."""
    if given.columns is not None and given.encoding == BINARY:
        parser.error("--columns are those of a text, and bytes have none")
    try:
        given.columns = columns_of(given.columns)
    except SourceError as fault:
        parser.error(str(fault))


def picture_of(path: Optional[str]) -> Optional[bytes]:
    if path is None:
        return None
    with open(path, "rb") as file:
        return file.read()


def main(words: Optional[list[str]] = None) -> int:
    words = sys.argv[1:] if words is None else words
    if words in (["--version"], ["-V"]):
        print(f"qrproved {qrproved.__version__}")
        return 0
    is_check = words[:1] == ["check"]
    try:
        if is_check:
            return check(words[1:])
        is_content = bool(words) and words[0] in contents.KINDS
        given = of_content(words[0], words[1:]) if is_content else parsed(words)
        rule = Rule.BYTES_ONLY if given.bytes else Rule.WITH_KANJI if given.kanji else None
        version = 1 if given.version is None else given.version
        settings = Settings(given.type, version, Level[given.level], rule, given.margin, given.scale, given.mm, given.dpi,
                            given.eci, given.gs1, given.boost, given.x, given.y, given.series, given.is_one_file, given.fit_mm,
                            given.dark, given.light, given.inverse, picture_of(given.logo), LOGO_SIDE if given.logo_side is None else given.logo_side,
                            given.share, given.mask)
        told = set()  # the warnings that were said

        def warn(message: Union[Warning, str], *_: object) -> None:
            if str(message) not in told:
                told.add(str(message))
                say(str(message))

        warnings.showwarning = warn
        warnings.simplefilter("ignore" if given.quiet else "always", qrproved.PrintWarning)
        if given.sheet is not None:
            return sheet(given, settings, told)
        if given.batch is None:
            return one(given, settings)
        # so that a setting that is out of range is told once, and not for each label
        sample = settings._replace(is_label=settings.is_label and settings.kind in PRINTERS)
        sample.drawn(sample.encoded("(20)01" if given.gs1 else "A"))
        return batch(given, settings, told)
    except BrokenPipeError:
        end_output()
        return 1
    except KeyboardInterrupt:
        say("interrupted")
        return INTERRUPTED
    except (ContentError, Error, EciError, Gs1Error, SourceError, OSError) as fault:
        say(str(fault))
        end_output()
        return NOT_READABLE if is_check else 1


if __name__ == "__main__":
    sys.exit(main())
