"""Writes many labels: each to a file, all to an archive, or all to one file. The command `qrproved --batch` does so by several processes,
and a program of your own may do so on several machines.

    from qrproved.batch import Label, Part, Settings, write

    done = write(Part(Settings("png"), [Label(1, "labels/1.png", "Shelf 1"), Label(2, "labels/2.png", "Shelf 2")]))
    done.faults                 # the lines that are not written, each with the reason

All of these can be pickled. A file, or an archive, is whole or not there: it is written beside its place, by its name with a ~, and then
renamed. So after an interruption the same parts can be written again with `is_resumed`, and what is there is skipped.
"""
from __future__ import annotations

import contextlib
import functools
import io
import os
import re
import tarfile
import warnings
from collections.abc import Callable
from typing import NamedTuple, Optional, Union

import qrproved
from qrproved import LABELS, Drawing, EciError, Error, Gs1Error, PrintWarning, Symbol, _colours

__all__ = ["Done", "Label", "Part", "Settings", "Unreadable", "write"]

DRAWINGS = {"txt": Drawing.UTF8, "utf8": Drawing.UTF8, "ascii": Drawing.ASCII, "asciii": Drawing.ASCII_INVERSE}
REFUSALS = (Error, EciError, Gs1Error)  # of one label, after which others are written
LOGO_SIDE = 0.2  # of a symbol's side, if nothing else is said
BESIDE, FAULTS = "~", ".faults"  # what the name of a file ends in before it is whole, and that of the faults of an archive
WRITING = os.O_WRONLY | os.O_CREAT | os.O_TRUNC | getattr(os, "O_BINARY", 0)


class Settings(NamedTuple):
    """What all symbols of a batch have in common. The settings are those of encode and of Symbol.save."""

    kind: str
    version: int = 1
    level: int = 0
    rule: Optional[int] = None
    margin: int = 4
    scale: Optional[int] = None
    mm: Optional[float] = None
    dpi: Optional[float] = None
    eci: Optional[int] = None
    is_gs1: bool = False
    boost: bool = True
    x: int = 0
    y: int = 0
    is_series: bool = False
    is_label: bool = False
    """Whether the drawing is a label of a file that has several."""
    fit_mm: Optional[float] = None
    dark: str = _colours.DARK
    """The colours of an SVG, PNG or PDF."""
    light: Optional[str] = _colours.LIGHT
    inverse: bool = False
    logo: Optional[bytes] = None
    """The picture in the middle of a PNG or SVG."""
    logo_side: float = LOGO_SIDE
    share: Optional[float] = None
    mask: Optional[int] = None

    def encoded(self, data: Union[str, bytes]) -> list[Symbol]:
        """Returns the symbol of a text or of some bytes, or their series. GS1 data are a text of ASCII: other bytes are refused with it."""
        if self.is_gs1:
            given = {"gs1": data.decode("latin-1") if isinstance(data, bytes) else data}
        else:
            given = {"data": data, "eci": self.eci}
        settings = {"version": self.version, "level": self.level, "rule": self.rule, "mask": self.mask}
        if self.is_series:
            return qrproved.encode_series(**given, **settings)
        of_logo = {} if self.logo is None else {"logo": self.logo_side, "share": self.share}
        return [qrproved.encode(**given, **settings, boost=self.boost, **of_logo)]

    def drawn(self, symbols: list[Symbol], caption: Optional[str] = None) -> bytes:
        """Returns the drawing of a symbol or of a series, or the modules of a symbol that gets a page of a PDF. An SVG may have a caption."""
        if caption is not None:
            if self.kind != "svg" or self.is_series:
                raise qrproved.SettingsError("only an SVG of one symbol has a caption")
            return symbols[0].svg(margin=self.margin, mm=self.mm, caption=caption, logo=self.logo, **self.colours())
        if self.kind == "pdf" and self.is_label:
            return symbols[0].modules
        sizes = {"scale": self.scale, "margin": self.margin, "mm": self.mm, "dpi": self.dpi, "x": self.x, "y": self.y, "fit_mm": self.fit_mm}
        if self.kind in LABELS and (self.is_series or self.is_label):
            return qrproved.labels(symbols, kind=self.kind, **sizes)
        if self.kind in DRAWINGS:
            return qrproved.draw(symbols, drawing=DRAWINGS[self.kind], margin=self.margin)
        if self.is_series:
            return self.document(symbols)
        file = io.BytesIO()
        symbols[0].save(file, kind=self.kind, logo=self.logo, **sizes, **self.colours())
        return file.getvalue()

    def document(self, symbols: list[Symbol]) -> bytes:
        """Returns a document with all symbols of a series."""
        if self.kind == "pdf":
            return qrproved._document(symbols, "pdf", self.margin, self.mm, _colours.colours_of(**self.colours()))
        if self.kind == "svg" and self.mm is None:
            drawing = qrproved.draw(symbols, drawing=Drawing.SVG, margin=self.margin)
        else:
            drawing = qrproved.document(symbols, kind=self.kind, margin=self.margin, mm=self.mm)
        return qrproved._coloured(drawing, _colours.colours_of(**self.colours()), None, None) if self.kind == "svg" and self.is_coloured() else drawing

    def colours(self) -> dict[str, object]:
        return {"dark": self.dark, "light": self.light, "inverse": self.inverse}

    def is_coloured(self) -> bool:
        return (self.dark, self.light, self.inverse) != (_colours.DARK, _colours.LIGHT, False)


class Unreadable(NamedTuple):
    """What stands for the data of a label that its list does not have."""

    why: str


class Label(NamedTuple):
    """A label of a list."""

    line: int
    """Its line in the list, by which a fault names it."""
    path: str
    """The path of its file, or its name in an archive."""
    data: Union[str, bytes, Unreadable]
    caption: Optional[str] = None
    """The text below the symbol of an SVG."""


class Part(NamedTuple):
    """Some labels of a batch."""

    settings: Settings
    labels: list[Label]
    archive: Optional[str] = None
    """The path of the tar archive that the files go to."""
    is_resumed: bool = False
    """Whether files, and an archive, that are there already are skipped."""


class Done(NamedTuple):
    """What became of a part."""

    count: int
    """How many labels it had."""
    skipped: int
    """How many were there already."""
    faults: list[tuple[int, str]]
    """The lines of which nothing is written, with the reasons."""
    warned: list[tuple[int, str]]
    """The lines whose symbols scanners may not read, with the reasons."""
    file: bytes = b""
    """The labels, if they go to one file."""


def write(part: Part) -> Done:
    """Writes each label of a part to its file, to the archive, or all of them to the file that is returned. Labels that cannot be drawn or
    written are left out, and are faults of the result."""
    if part.settings.is_label:
        file = bytearray()
        return tried(part, lambda _, drawing: file.extend(drawing))._replace(file=bytes(file))
    return tried(part, put, OSError) if part.archive is None else archived(part, part.archive)


def tried(part: Part, take: Callable[[str, bytes], None], *refusals: type[Exception]) -> Done:
    """Draws the labels of a part, and passes each with the path of its file to `take`. Refusals of drawings, and these, are faults."""
    done = Done(len(part.labels), 0, [], [])
    skipped, is_resumed = 0, part.is_resumed and take is put
    with warnings.catch_warnings(record=True) as said:
        warnings.simplefilter("always", PrintWarning)
        for line, path, data, caption in part.labels:
            if isinstance(data, Unreadable):
                done.faults.append((line, data.why))
                continue
            if is_resumed and is_there(path):
                skipped += 1
                continue
            try:
                take(path, part.settings.drawn(part.settings.encoded(data), caption))
            except (*REFUSALS, *refusals) as fault:
                done.faults.append((line, str(fault)))
            done.warned.extend((line, str(it.message)) for it in said)
            said.clear()
    return done._replace(skipped=skipped)


def put(path: str, drawing: bytes) -> None:
    """Writes a file, and makes its folder if there is none."""
    beside = path + BESIDE
    try:
        file = os.open(beside, WRITING, 0o666)
    except FileNotFoundError:
        os.makedirs(os.path.dirname(beside), exist_ok=True)
        file = os.open(beside, WRITING, 0o666)
    with placed(beside, path):
        try:
            left = memoryview(drawing)
            while left:
                left = left[os.write(file, left):]
        finally:
            os.close(file)


@contextlib.contextmanager
def placed(beside: str, path: str):
    """Gives a file its name when it is whole, and removes it if it does not become so."""
    try:
        yield
        os.replace(beside, path)
    except BaseException:
        with contextlib.suppress(OSError):
            os.unlink(beside)
        raise


def is_there(path: str) -> bool:
    """Whether a file is there. (After a loss of power a file may be there with nothing in it.)"""
    try:
        return os.stat(path).st_size > 0
    except OSError:
        return False


def archived(part: Part, path: str) -> Done:
    """Writes the labels of a part to a tar archive. Its faults are in a file beside it, so that they are known after an interruption."""
    if part.is_resumed and is_there(path):
        faults = faults_of(path)
        return Done(len(part.labels), len(part.labels) - len(faults), faults, [])
    try:
        os.makedirs(os.path.dirname(path) or ".", exist_ok=True)
        with placed(path + BESIDE, path):
            with tarfile.open(path + BESIDE, "w") as archive:
                done = tried(part, functools.partial(add, archive))
            keep_faults(path, done.faults)
    except OSError as fault:
        return Done(len(part.labels), 0, [(it.line, str(fault)) for it in part.labels], [])
    return done


def add(archive: tarfile.TarFile, name: str, drawing: bytes) -> None:
    info = tarfile.TarInfo(name)
    info.size = len(drawing)
    archive.addfile(info, io.BytesIO(drawing))
    archive.members.clear()  # type: ignore[attr-defined]  # which would hold a kilobyte for each file


def keep_faults(path: str, faults: list[tuple[int, str]]) -> None:
    if faults:
        put(path + FAULTS, b"".join(f"{line}\t{why}\n".encode(errors="backslashreplace") for line, why in faults))
        return
    with contextlib.suppress(FileNotFoundError):
        os.unlink(path + FAULTS)


def faults_of(path: str) -> list[tuple[int, str]]:
    """Returns the faults of an archive that was written before."""
    try:
        with open(path + FAULTS, encoding="utf-8", newline="\n") as file:
            parts = [line.rstrip("\n").split("\t", 1) for line in file]
    except FileNotFoundError:
        return []
    return [(int(line), why) for line, why in parts]


def largest(part: Part) -> int:
    """Returns the greatest version of the symbols of a part, or 0. Labels that are refused have none."""
    versions = [0]
    for label in part.labels:
        with contextlib.suppress(*REFUSALS):
            if not isinstance(label.data, Unreadable):
                versions.append(part.settings.encoded(label.data)[0].version)
    return max(versions)
