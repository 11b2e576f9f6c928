"""QR Code symbols (ISO/IEC 18004:2015, QR Code Model 2) by the library libqrproved.

encode returns the symbol of a text, of bytes or of GS1 data, encode_series the symbols of a series. A Symbol is drawn by its methods
as PNG, SVG, PDF or EPS, as text, or in the language of a printer. document makes a document of several symbols, sheets one
of label paper, and labels a file for a printer. read reads a symbol that is as it was drawn; mend reads a damaged one, and says how damaged it is. find finds the symbols of a
picture, and parse_drawing those of a drawing as text. Modules are bytes, row by row from the top left, without the quiet zone of
four light modules that a drawing needs on each side.

Each refusal is an exception of the class Error, also where a number is out of range or a name is not known; but a text that its
character set does not have is an EciError, and one that is no GS1 data a Gs1Error. A number that is no integer, as a bool or a
float, is a TypeError. Calls may run side by side in any number of threads.
"""
from __future__ import annotations

import base64
import ctypes
import math
import operator
import os
import re
import sys
import warnings
from dataclasses import dataclass, replace
from enum import IntEnum
from pathlib import Path
from typing import TYPE_CHECKING, BinaryIO, List, NamedTuple, NoReturn, Optional, Tuple, Union

from . import _colours, _library, _logos, _papers, contents
from ._common import DATA, LIMITS
from ._drawings import found_by_look, undone
from ._gs1 import Gs1Error, data_of, fields_of
from ._interpretation import SHIFT_JIS, UTF_8, Eci, EciError, encoded, text_of
from ._pictures import Grey, greys_of, is_picture
from ._errors import (CheckError, EmptyError, Error, FieldsError, FormatError, LogoError, NoDrawingError, OutOfMemoryError, RoomError,
                      SegmentsError, SettingsError, SideError, TooLongError, TooManyError, no_logo, raise_for, too_long)
from ._library import BYTES_MAX, COUNT_MAX, ECIS_MAX, FOUND_MAX, MARGIN_MAX, PICTURE_MAX, SERIES_MAX, SIDE_MAX, SYMBOL_MAX

if TYPE_CHECKING:
    from collections.abc import Callable, Iterable, Mapping, Sequence
    from typing import Any

    LogoFile = Union[bytes, bytearray, memoryview, str, os.PathLike[str], BinaryIO]
    Picture = Any  # bytes, a path, an open file, an image of Pillow, or an array of numpy
    Bytes = Union[bytes, bytearray, memoryview]
    Input = Union[str, bytes, bytearray, memoryview]
    Name = Union[int, str]

__all__ = ["BYTES_MAX", "COUNT_MAX", "ECI_MAX", "FOUND_MAX", "MARGIN_MAX", "PICTURE_MAX", "SCALE_MAX", "SERIES_MAX", "SIDE_MAX", "SYMBOL_MAX",
           "CheckError", "Content", "Drawing", "Drawn", "Eci", "EciError", "EmptyError", "Error", "FieldsError", "FormatError", "Found",
           "Gs1Error", "Header", "Level", "LogoError", "Mended", "NoDrawingError", "OutOfMemoryError", "PrintWarning", "RoomError", "Rule",
           "SegmentsError", "SettingsError", "Sheet", "SideError", "Symbol", "TooLongError", "TooManyError", "contents", "document", "draw",
           "encode", "encode_series", "find", "labels", "mend", "PAPERS", "paper", "parse_drawing", "parse_picture", "read", "sheets"]

__version__ = "0.2.0"
_calls = _library.load()
FNC1_FIRST, FNC1_SECOND = 1, 2
VERSION_MAX, ECI_MAX = LIMITS["VERSION_MAX"], LIMITS["ECI_MAX"]
SCALE_MAX = LIMITS["SCALE_MAX"]
SIZE_MAX = LIMITS["SIZE_MAX"]  # of mm and dpi
MASK_MAX = LIMITS["MASK_MAX"]
SHARE_MAX, SHARE = LIMITS["SHARE_MAX"], LIMITS["SHARE"]  # of what can be corrected, in percent
PLACE_MAX, DPI, DOTS = LIMITS["PLACE_MAX"], LIMITS["DPI"], LIMITS["DOTS"]
FORMATS, DOCUMENTS = DATA["formats"], DATA["documents"]
LABELS = DATA["labels"]  # what a file with several labels has before and after each
MICROMETRES, MICROMETRES_MAX = LIMITS["MICROMETRES"], LIMITS["MICROMETRES_MAX"]  # of a module
LABELS_MAX, COLUMNS_MAX, PAPER_MAX = LIMITS["LABELS_MAX"], LIMITS["COLUMNS_MAX"], LIMITS["PAPER_MAX"]  # of sheets: symbols; columns, and rows; micrometres
PIXELS = 8  # of a module of a picture, if nothing else is said
IMAGE_LIKELY = 4096  # bytes, and for PNG 3 for each module: room for every PNG file up to scale 8, which is then written in one run
MM_OF_INCH = 25.4
MARGIN_WANTED, MODULE_MIN = LIMITS["MARGIN_WANTED"], LIMITS["MODULE_MIN"]  # modules, and millimetres
CAPTION_HEIGHT = 4  # modules
PAPERS = tuple(_papers.PAPERS)  # the names of label paper
GRADES = DATA["grades"]  # of the error correction that is unused: the least percentage of each
ONLY_LABELS = "only in ZPL and TSPL a symbol has a place on a label, which x and y say"
WRONG_FORMAT_MAX = LIMITS["WRONG_FORMAT_MAX"]  # wrong modules of a copy of the format information that can be read (ISO/IEC 18004:2015, Annex C)
CORNER_STEPS = 16  # of a pixel, in the corners of a symbol
MANY = 16  # symbols of a picture, after which there may be more of them than one search finds
SEARCHES = 32  # of a picture at most
NO_SYMBOL = "no symbol is found in the picture"


class PrintWarning(UserWarning):
    """Scanners may not read what is drawn: the margin is under 4 modules, or a module is under 0.25 mm wide. To have no such
    warnings: warnings.simplefilter("ignore", qrproved.PrintWarning)."""


class Level(IntEnum):
    """How much of a damaged symbol can be restored: about 7, 15, 25 or 30 % of its codewords."""

    L = 0
    M = 1
    Q = 2
    H = 3


class Rule(IntEnum):
    """Which modes the segments of an input may have."""

    AUTO = 0
    """Numeric, alphanumeric and byte mode, whatever takes the least bits."""
    BYTES_ONLY = 1
    """The whole input in byte mode."""
    WITH_KANJI = 2
    """Also kanji mode, for the characters of JIS X 0208: a text is encoded as Shift JIS, and of bytes each pair that is such a
    character in Shift JIS may have it."""


class Drawing(IntEnum):
    """How modules are drawn."""

    ASCII = 0
    """Two # for a dark module, two spaces for a light one."""
    ASCII_INVERSE = 1
    """The other way round."""
    UTF8 = 2
    """A character of half blocks for two modules, one above the other, light on a dark terminal."""
    SVG = 3
    """A document of its own, one unit of length for a module."""


class _Sizes(NamedTuple):
    """How large an image is, as it was asked for."""

    scale: Optional[int] = None
    mm: Optional[float] = None
    dpi: Optional[float] = None
    fit_mm: Optional[float] = None

    def fitted(self, kind: str, symbol: Symbol, margin: int, name: str = "fit_mm") -> _Sizes:
        """Returns the scale and the resolution for whole dots, if there is a size of this name, which is the most that the symbol may be
        wide."""
        most = getattr(self, name)
        if most is None:
            return self
        others = [it for it in ("scale", "mm", "fit_mm") if it != name and getattr(self, it) is not None]
        if others:
            raise TypeError(f"{kind}: {others[0]} and {name} both say how large the symbol is: one of them is given")
        dpi = DPI if self.dpi is None else self.dpi
        return _Sizes(symbol._fitted(name, most, dpi, margin)[0], None, dpi)


@dataclass(frozen=True, repr=False)
class Symbol:
    """The modules of a symbol. symbol[row, column] is True if that module is dark; both are from 0 to side - 1. str(symbol)
    is its drawing by half blocks, so that print(symbol) shows it on a dark terminal."""

    version: int
    """From 1 to 40."""
    side: int
    """Modules on a side: 17 + 4 * version."""
    mask: Optional[int]
    """From 0 to 7; None in a series unless it was asked for, since the call does not return it."""
    modules: bytes
    """side * side bytes, row by row: 1 is dark, 0 is light."""
    level: Optional[Level] = None
    """The level that it has, which may be higher than the one that was asked for; None if that was not said."""
    logo: Optional[int] = None
    """The modules on a side of the logo for which the symbol was encoded, or None. `modules` are those without the logo, and drawings
    leave its place light."""

    @property
    def logo_box(self) -> Optional[tuple[int, int, int]]:
        """The first row and the first column of the logo, and its side; None without a logo. A light ring around the picture belongs to
        the logo."""
        if self.logo is None:
            return None
        first = (self.side - self.logo) // 2
        return first, first, self.logo

    @property
    def logo_spent(self) -> float:
        """The share of the correction that the logo uses up at most, whatever it shows, in the block where it is most: 0.0 without a
        logo."""
        covered = self._with_logo(lambda module: 1 - module)
        return mend(covered, self.side).spent

    def _with_logo(self, change: Callable[[int], int]) -> bytes:
        """Returns the modules, of which those under the logo are changed."""
        first, _, side = self.logo_box or (0, 0, 0)
        modules = bytearray(self.modules)
        for row in range(first, first + side):
            at = row * self.side + first
            modules[at:at + side] = bytes(map(change, modules[at:at + side]))
        return bytes(modules)

    def _shown(self) -> bytes:
        """Returns the modules that are drawn."""
        return self._with_logo(lambda module: 0) if self.logo else self.modules

    def _place(self, margin: int) -> _logos.Place:
        """Returns where the logo is in a drawing. Raises TypeError for a symbol without a logo."""
        if not self.logo:
            raise TypeError("the symbol has no place for a logo: encode(.., logo=7) makes one that has")
        return _logos.Place(margin + (self.side - self.logo) // 2, self.logo)

    def __getitem__(self, place: tuple[int, int]) -> bool:
        row, column = place
        if not (0 <= row < self.side and 0 <= column < self.side):
            raise IndexError(f"row and column are from 0 to {self.side - 1}, and not {row} and {column}")
        return self.modules[row * self.side + column] != 0

    def __repr__(self) -> str:
        level = "" if self.level is None else f"-{self.level.name}"
        mask = "" if self.mask is None else f", mask {self.mask}"
        return f"<Symbol {self.version}{level}{mask}>"

    def __str__(self) -> str:
        return self.text().rstrip("\n")

    def rows(self) -> list[list[bool]]:
        """Returns the rows from the top, each from the left; True is dark."""
        starts = range(0, len(self.modules), self.side)
        return [[module != 0 for module in self.modules[start:start + self.side]] for start in starts]

    def png(self, *wrong: NoReturn, scale: Optional[int] = None, margin: int = 4, mm: Optional[float] = None, dpi: Optional[float] = None,
            fit_mm: Optional[float] = None, dark: str = _colours.DARK, light: Optional[str] = _colours.LIGHT, inverse: bool = False,
            logo: Optional[LogoFile] = None, **others: NoReturn) -> bytes:
        """Returns the drawing as a PNG picture.

        scale   the pixels of a module on each side, from 1 to SCALE_MAX: 8 unless fit_mm is given
        margin  light modules on each side, from 0 to MARGIN_MAX; a scanner needs 4
        mm      the width of the picture with its margin, in millimetres
        dpi     in place of mm, the pixels of an inch
        fit_mm  in place of scale and mm, the most that the picture may be wide with its margin, in millimetres. A module has as many whole
                pixels as fit, so that the picture may be narrower: printed_size says how wide. A printer with `dpi` dots an inch, 203 unless
                given, prints a dot for each pixel
        dark, light, inverse
                the colours, as in svg. With light=None the ground is transparent
        logo    a PNG file, as its bytes, by its path or open, which is drawn in the place of the logo for which the symbol was encoded,
                within a light ring of one module. It has 8 bits a channel and is not interlaced

        Without mm, dpi and fit_mm the picture does not say how large it is. Raises SettingsError if a number is out of range, if the size
        is one that PNG cannot state (its pixels are counted by the metre), or if not even modules of one pixel are as narrow as fit_mm
        asks. Raises SettingsError for colours as svg does, and for a logo on a transparent ground. Raises TypeError for sizes that exclude
        each other, and RoomError if there are too few modules. Warns by PrintWarning of what scanners may not read.
        """
        _no_more("png", "", wrong, others, "scale", "margin", "mm", "dpi", "fit_mm", "dark", "light", "inverse", "logo")
        return self._png(_Sizes(scale, mm, dpi, fit_mm), margin, logo, _colours.colours_of(dark, light, bool(_flag("inverse", inverse))))

    def svg(self, *wrong: NoReturn, margin: int = 4, mm: Optional[float] = None, inline: bool = False, dark: str = _colours.DARK,
            light: Optional[str] = _colours.LIGHT, inverse: bool = False, title: Optional[str] = None, class_name: Optional[str] = None,
            caption: Optional[str] = None, logo: Optional[LogoFile] = None, **others: NoReturn) -> bytes:
        """Returns the drawing as an SVG document.

        margin      light modules on each side
        mm          the width with the margin, in millimetres: a module has whole micrometres, as in pdf. Without it a module is one unit
                    wide, and each program chooses a size
        inline      True leaves out the XML declaration, so that the drawing may stand within a page of HTML
        dark, light
                    the colours of the modules: #rgb, #rrggbb or a name of CSS 2.1. With light=None the ground is transparent
        inverse     True allows dark modules that are lighter than the others, which many scanners do not read
        title       what the drawing is called by programs that read it aloud; it has then the role of an image
        class_name  its class in a page
        caption     a line of text below the symbol and its margin, which makes the drawing four modules higher
        logo        a PNG or SVG file, as its bytes, by its path or open, which becomes a part of the document, in the place of the logo
                    for which the symbol was encoded, within a light ring of one module

        Raises as document does, and raises SettingsError for colours with a contrast under 3 (WCAG 2.1), and for an order of them that
        `inverse` does not say. Warns by PrintWarning of what scanners may not read."""
        _no_more("svg", "", wrong, others, "margin", "mm", "inline", "dark", "light", "inverse", "title", "class_name", "caption", "logo")
        colours = _colours.colours_of(dark, light, bool(_flag("inverse", inverse)))
        document = _coloured(self._svg(margin, mm), colours, title, class_name)
        if logo is not None:
            document = _logos.in_svg(document, _logo_file(logo), self._place(margin))
        if caption is not None:
            document = _captioned(document, self.side + 2 * margin, caption, colours[0])
        return document.split(b"?>\n", 1)[-1] if _flag("inline", inline) else document

    def text(self, *wrong: NoReturn, drawing: Name = Drawing.UTF8, margin: int = 4, **others: NoReturn) -> str:
        """Returns the drawing as text, with `margin` light modules on each side. Raises as draw does."""
        _no_more("text", "", wrong, others, "drawing", "margin")
        return draw([self], drawing=drawing, margin=margin).decode()

    def pdf(self, *wrong: NoReturn, margin: int = 4, mm: Optional[float] = None, dark: str = _colours.DARK, light: Optional[str] = _colours.LIGHT,
            inverse: bool = False, **others: NoReturn) -> bytes:
        """Returns a PDF document with a page as large as the symbol with its margin. `mm` is its width, in millimetres; without it a
        module is 1 mm wide. A module has whole micrometres, so the width may differ from `mm` by half a micrometre for each module.
        The colours are those of svg; with light=None no ground is drawn. Raises and warns as document does, which also takes several
        symbols, and raises SettingsError for colours as svg does."""
        _no_more("pdf", "", wrong, others, "margin", "mm", "dark", "light", "inverse")
        return _document([self], "pdf", margin, mm, _colours.colours_of(dark, light, bool(_flag("inverse", inverse))))

    def eps(self, *wrong: NoReturn, margin: int = 4, mm: Optional[float] = None, **others: NoReturn) -> bytes:
        """Returns a document in Encapsulated PostScript. The arguments, errors and warnings are those of pdf, but there are no colours."""
        _no_more("eps", "", wrong, others, "margin", "mm")
        return _document([self], "eps", margin, mm)

    def pbm(self, *wrong: NoReturn, scale: Optional[int] = None, margin: int = 4, dpi: Optional[float] = None, fit_mm: Optional[float] = None,
            **others: NoReturn) -> bytes:
        """Returns the drawing as a raw bitmap of netpbm (P4), which has no size. The arguments are those of png, but `dpi` is only given
        beside `fit_mm`. Raises and warns as png does."""
        _no_more("pbm", "", wrong, others, "scale", "margin", "dpi", "fit_mm")
        return self._drawn("pbm", _Sizes(scale, None, dpi, fit_mm), margin, 0, 0)

    def zpl(self, *wrong: NoReturn, scale: Optional[int] = None, margin: int = 4, mm: Optional[float] = None, dpi: Optional[float] = None,
            x: int = 0, y: int = 0, fit_mm: Optional[float] = None, **others: NoReturn) -> bytes:
        """Returns a label in ZPL, the language of Zebra's and most other label printers, with the symbol as an image.

        scale   the dots of a module on each side, from 1 to SCALE_MAX: 4 unless fit_mm is given
        margin  light modules on each side, from 0 to MARGIN_MAX; a scanner needs 4
        fit_mm  in place of scale, the most that the symbol may be wide with its margin, in millimetres. A module has as many whole dots as
                fit, so that the symbol may be narrower: printed_size says how wide
        mm      another name for fit_mm
        dpi     the dots of an inch: 203 unless given
        x, y    how far the symbol is from the left and the upper edge of the label, in dots, from 0 to 32,000

        Raises SettingsError if a number is out of range, or if not even modules of one dot are as narrow as fit_mm asks. Raises
        TypeError for both scale and fit_mm. Warns by PrintWarning of what scanners may not read.
        """
        _no_more("zpl", "", wrong, others, "scale", "margin", "mm", "dpi", "x", "y", "fit_mm")
        return self._drawn("zpl", _Sizes(scale, mm, dpi, fit_mm), margin, x, y)

    def tspl(self, *wrong: NoReturn, scale: Optional[int] = None, margin: int = 4, mm: Optional[float] = None, dpi: Optional[float] = None,
             x: int = 0, y: int = 0, fit_mm: Optional[float] = None, **others: NoReturn) -> bytes:
        """Returns the symbol as the command BITMAP of TSPL, the language of TSC's and many other label printers. It goes between the
        commands SIZE, CLS and PRINT of a label. The arguments, errors and warnings are those of zpl."""
        _no_more("tspl", "", wrong, others, "scale", "margin", "mm", "dpi", "x", "y", "fit_mm")
        return self._drawn("tspl", _Sizes(scale, mm, dpi, fit_mm), margin, x, y)

    def escpos(self, *wrong: NoReturn, scale: Optional[int] = None, margin: int = 4, mm: Optional[float] = None, dpi: Optional[float] = None,
               fit_mm: Optional[float] = None, **others: NoReturn) -> bytes:
        """Returns the symbol as the command GS v 0 of ESC/POS, the language of receipt printers. The arguments, errors and warnings are
        those of zpl."""
        _no_more("escpos", "", wrong, others, "scale", "margin", "mm", "dpi", "fit_mm")
        return self._drawn("escpos", _Sizes(scale, mm, dpi, fit_mm), margin, 0, 0)

    def printed_size(self, *wrong: NoReturn, mm: float, dpi: float = DPI, margin: int = 4, **others: NoReturn) -> tuple[int, float]:
        """Returns the most dots that a module can have on each side if the symbol is at most `mm` millimetres wide with its margin, and
        how wide it then is. Raises SettingsError if not even modules of one dot are narrow enough, or if a number is out of range."""
        _no_more("printed_size", "", wrong, others, "mm", "dpi", "margin")
        return self._fitted("mm", mm, dpi, margin)

    def _fitted(self, name: str, mm: float, dpi: float, margin: int) -> tuple[int, float]:
        """Does what printed_size does. `name` is what the caller calls `mm`."""
        modules, resolution = self.side + 2 * _setting("margin", margin, 0, MARGIN_MAX), _size("dpi", dpi)
        dots = min(int(_size(name, mm) * resolution / MM_OF_INCH / modules + 1e-9), SCALE_MAX)
        if dots == 0:
            raise SettingsError(f"{modules} modules of one dot are {MM_OF_INCH * modules / resolution:.3g} mm wide, and not {mm:.3g}")
        return dots, MM_OF_INCH * modules * dots / resolution

    def save(self, path: Union[str, os.PathLike[str], BinaryIO], *wrong: NoReturn, kind: Optional[str] = None, scale: Optional[int] = None,
             margin: int = 4, mm: Optional[float] = None, dpi: Optional[float] = None, x: int = 0, y: int = 0, fit_mm: Optional[float] = None,
             dark: str = _colours.DARK, light: Optional[str] = _colours.LIGHT, inverse: bool = False, logo: Optional[LogoFile] = None,
             **others: NoReturn) -> None:
        """Writes the drawing to a file, or to an object with a method `write` that takes bytes.

        kind    'png', 'svg', 'pdf', 'eps', 'txt', 'pbm', 'zpl', 'tspl' or 'escpos'; unless it is given, the end of the file's name, where .bin stands
                for 'escpos', or 'png' for an object
        scale, mm, dpi, x, y, fit_mm
                those of the method of that name; SVG, PDF and EPS have no scale, no dpi and no fit_mm, and a text has none of them
        dark, light, inverse
                the colours, which only PNG, SVG and PDF have
        logo    the picture of a logo, which only PNG and SVG have

        Raises and warns as that method does, and raises SettingsError for another kind or ending.
        """
        _no_more("save", "path, ", wrong, others, "scale", "margin", "mm", "dpi", "kind", "x", "y", "fit_mm", "dark", "light", "inverse", "logo")
        colours = _colours.colours_of(dark, light, bool(_flag("inverse", inverse)))
        write = getattr(path, "write", None)
        ending = kind or ("png" if write else os.path.splitext(os.fspath(path))[1].lower()[1:])  # type: ignore[arg-type]
        drawing = self._drawn(ending, _Sizes(scale, mm, dpi, fit_mm), margin, x, y, logo, colours)
        if write:
            write(drawing)
            return
        with open(path, "wb") as file:  # type: ignore[arg-type]
            file.write(drawing)

    def data_uri(self, *wrong: NoReturn, kind: str = "png", scale: int = 8, margin: int = 4, mm: Optional[float] = None,
                 **others: NoReturn) -> str:
        """Returns the drawing as a URI that holds it, as for the attribute src of an image: `kind` is 'png' or 'svg'. Raises and
        warns as png does, and raises SettingsError for another kind."""
        _no_more("data_uri", "", wrong, others, "kind", "scale", "margin", "mm")
        if kind not in ("png", "svg"):
            raise SettingsError(f"kind is 'png' or 'svg', and not {kind!r}")
        media = {"png": "image/png", "svg": "image/svg+xml"}[kind]
        return f"data:{media};base64,{base64.b64encode(self._drawn(kind, _Sizes(scale, mm), margin, 0, 0)).decode()}"

    def _png(self, sizes: _Sizes, margin: int, logo: Optional[LogoFile] = None, colours: _colours.Colours = _colours.PLAIN) -> bytes:
        light = _setting("margin", margin, 0, MARGIN_MAX)
        scale, mm, dpi, _ = sizes.fitted("png", self, light)
        pixels = _setting("scale", PIXELS if scale is None else scale, 1, SCALE_MAX)
        if mm is not None and dpi is not None:
            raise TypeError("png: mm and dpi both say how large the picture is: one of them is given, or fit_mm and dpi for a printer")
        width = pixels * (self.side + 2 * light)
        size = None if mm is None else _size("mm", mm)
        if dpi is not None:
            size = MM_OF_INCH * width / _size("dpi", dpi)
        pixels_a_metre = 0 if size is None else 1000 * width / size
        if size is not None and not 0.5 < pixels_a_metre < 2**31 - 0.5:
            raise SettingsError(f"a PNG picture of {width} pixels cannot say that it is {size:.3g} mm wide")
        _warn(light, None if size is None else size / (self.side + 2 * light))
        if logo is not None:
            picture, place = _logo_file(logo), self._place(0)
            return _logos.in_png(self._shown(), self.side, pixels, light, _nearest(pixels_a_metre), picture, place, colours)
        if colours != _colours.PLAIN:
            return self._coloured_png(pixels, light, _nearest(pixels_a_metre), colours)
        return self._image("png", pixels, light, _nearest(pixels_a_metre), 0, 0)

    def _file(self, kind: str, sizes: _Sizes, margin: int, x: int, y: int) -> bytes:
        """Returns the image in a format that cannot say how large it is."""
        light = _setting("margin", margin, 0, MARGIN_MAX)
        dots, module = self._dots(kind, sizes, light)
        _warn(light, None if kind == "pbm" and sizes.fit_mm is None else module)
        return self._image(kind, dots, light, 0, _setting("x", x, 0, PLACE_MAX), _setting("y", y, 0, PLACE_MAX))

    def _dots(self, kind: str, sizes: _Sizes, margin: int) -> tuple[int, float]:
        """Returns how many dots of a printer a module has on each side, and how wide it is in millimetres."""
        scale, _, dpi, _ = sizes.fitted(kind, self, margin, "fit_mm" if sizes.mm is None else "mm")
        dots = _setting("scale", (PIXELS if kind == "pbm" else DOTS) if scale is None else scale, 1, SCALE_MAX)
        return dots, MM_OF_INCH * dots / _size("dpi", DPI if dpi is None else dpi)

    def _image(self, kind: str, scale: int, margin: int, pixels_a_metre: int, x: int, y: int) -> bytes:
        shown, side = self._square()
        asked = (shown, len(shown), side, FORMATS[kind], scale, margin, pixels_a_metre, x, y)
        room = 3 * len(self.modules) if kind == "png" else _room_of_lines(kind, side + 2 * margin, scale)
        return _filled(_calls.qrproved_image, asked, IMAGE_LIKELY + room)

    def _coloured_png(self, scale: int, margin: int, pixels_a_metre: int, colours: _colours.Colours) -> bytes:
        shown, side = self._square()
        asked = (shown, len(shown), side, scale, margin, pixels_a_metre, *_colours.numbers_of(colours))
        return _filled(_calls.qrproved_png, asked, IMAGE_LIKELY + 3 * len(self.modules))

    def _square(self) -> tuple[bytes, int]:
        """Returns the modules that are drawn, and the side."""
        if len(self.modules) < self.side * self.side:
            raise RoomError("a symbol has side * side modules")
        return self._shown(), _setting("side", self.side, 1, SIDE_MAX)

    def _svg(self, margin: int, mm: Optional[float]) -> bytes:
        if mm is not None:
            return _document([self], "svg", margin, mm)
        document = draw([self], drawing=Drawing.SVG, margin=margin)
        _warn(margin, None)
        return document

    def _drawn(self, kind: str, sizes: _Sizes, margin: int, x: int, y: int, logo: Optional[LogoFile] = None,
               colours: _colours.Colours = _colours.PLAIN) -> bytes:
        if colours != _colours.PLAIN and kind not in ("png", "svg", "pdf"):
            raise TypeError("PNG, SVG and PDF have colours; other drawings are black on white")
        if logo is not None and kind not in ("png", "svg"):
            raise TypeError("the picture of a logo goes into a PNG picture or an SVG document; other drawings leave its place light")
        if (x or y) and kind not in ("zpl", "tspl"):
            raise TypeError(ONLY_LABELS)
        if kind in ("zpl", "tspl", "escpos", "bin"):
            return self._file("escpos" if kind == "bin" else kind, sizes, margin, x, y)
        if kind == "png":
            return self._png(sizes, margin, logo, colours)
        mm, dpi, fit_mm = sizes.mm, sizes.dpi, sizes.fit_mm
        if kind == "pbm":
            if mm is not None or (dpi is not None and fit_mm is None):
                raise TypeError("a PBM bitmap has no size: neither mm nor dpi is given, but for fit_mm and dpi of a printer")
            return self._file("pbm", sizes, margin, 0, 0)
        if fit_mm is not None and kind in ("svg", "pdf", "eps", "txt"):
            raise TypeError(f"fit_mm is for whole dots of a printer, which an image has, and not {kind}")
        if kind == "svg":
            if dpi is not None:
                raise TypeError("an SVG document has no pixels, and so no dpi: its size is given by mm")
            document = _coloured(self._svg(margin, mm), colours, None, None)
            return document if logo is None else _logos.in_svg(document, _logo_file(logo), self._place(margin))
        if kind in ("pdf", "eps"):
            if dpi is not None:
                raise TypeError("a document for print has no pixels, and so no dpi: its size is given by mm")
            return _document([self], kind, margin, mm, colours)
        if kind == "txt":
            if mm is not None or dpi is not None:
                raise TypeError("a text has no size: neither mm nor dpi is given")
            return self.text(margin=margin).encode()
        raise SettingsError(f"the name of the file ends in .png, .svg, .txt, .pdf, .eps, .pbm, .zpl, .tspl or .bin, or kind is one of"
                            f" these or 'escpos', and not {kind!r}")

    def to_dict(self) -> dict[str, object]:
        """Returns the symbol as json.dumps takes it: each row of modules is a string, in which '1' is dark."""
        rows = ["".join("1" if it else "0" for it in row) for row in self.rows()]
        level = None if self.level is None else self.level.name
        return {"version": self.version, "side": self.side, "mask": self.mask, "level": level, "rows": rows}

    def _repr_png_(self) -> bytes:
        return self.png(scale=4)

    def _repr_svg_(self) -> str:
        """Returns the SVG drawing with a size, four pixels a module, for a place within a page."""
        width = 4 * (self.side + 8)
        return self.svg(inline=True).decode().replace("<svg ", f'<svg width="{width}" height="{width}" ', 1)


class Drawn(List[Tuple[bytes, int]]):
    """The squares of a drawing, each as its modules and its side. If the text is exactly their drawing, once what pasting changes is
    undone, `drawing` is its type and `margin` its margin, as the proved call found. Otherwise both are None: the text is damaged or
    was drawn by another program, and the squares are those that look most like symbols."""

    def __init__(self, squares: Iterable[tuple[bytes, int]], drawing: Optional[Drawing] = None, margin: Optional[int] = None) -> None:
        super().__init__(squares)
        self.drawing, self.margin = drawing, margin


class Header(NamedTuple):
    """What a symbol of a series says about its series."""

    position: int
    """Which symbol of its series it is, from 0 to 15."""
    last: int
    """The position of the last symbol, from 0 to 15: the number of symbols less 1."""
    parity: int
    """The exclusive or of all bytes of the input, from 0 to 255."""


@dataclass(frozen=True)
class Content:
    """What a symbol says."""

    data: bytes
    """At most BYTES_MAX bytes. In GS1 data, and with an application indicator, the byte 1D separates fields."""
    version: int
    """From 1 to 40."""
    header: Optional[Header]
    """None if it is a plain symbol and not one of a series."""
    ecis: Tuple[Eci, ...] = ()
    """The ECI headers, which say what the bytes mean as characters. Bytes before the first of them have none."""
    gs1: bool = False
    """True for GS1 data: FNC1 in first position."""
    application: Optional[str] = None
    """The application indicator, two digits or a letter, of data with FNC1 in second position; else None."""
    kanji: bool = False
    """True if some of the data are in kanji mode, which is for characters of Shift JIS."""

    def text(self) -> str:
        """Returns the data as text, each byte by the ECI in effect, and by UTF-8 where there is none. But if `kanji` is True, and there
        are no ECI headers and no GS1 data, all bytes are read as Shift JIS. Raises EciError for an ECI whose characters are not known,
        or that means bytes, and UnicodeDecodeError for bytes that are no characters; both are ValueErrors. A symbol of a series may
        begin or end within a character."""
        return text_of(self.data, self.ecis, SHIFT_JIS if self.kanji and not self.ecis and not self.gs1 else UTF_8)

    def fields(self) -> list[tuple[str, str]]:
        """Returns the fields of GS1 data, each as its application identifier and its value. Raises Gs1Error, which is a ValueError, if
        it is no GS1 data, for an identifier that is not known, and for a value with a wrong length, character, check digit, pair of
        check characters, first digit, date or piece number. A symbol of a series may begin or end within a value."""
        if not self.gs1:
            raise Gs1Error("the symbol does not say that its data are GS1 data")
        return fields_of(self.data)

    def to_dict(self) -> dict[str, object]:
        """Returns the content as json.dumps takes it: the data as a list of numbers."""
        header, ecis = None if self.header is None else self.header._asdict(), [it._asdict() for it in self.ecis]
        return {"data": list(self.data), "version": self.version, "header": header, "ecis": ecis, "gs1": self.gs1,
                "application": self.application, "kanji": self.kanji}


@dataclass(frozen=True)
class Mended:
    """What a damaged symbol says, and how damaged it is."""

    content: Content
    level: Level
    mask: int
    """From 0 to 7."""
    wrong_modules: int
    """Modules of the whole square that are not the symbol's, or not known."""
    wrong_format_modules: int
    """Of the 30 modules of format information, those that are wrong or not known."""
    wrong_format_least: int
    """Of the 15 modules of a copy of the format information, those that are wrong or not known, in the copy that has fewer of them.
    A scanner reads this copy if they are at most WRONG_FORMAT_MAX."""
    changed_most: int
    """The most codewords that were changed in a block, without those with a module that is not known."""
    changed_allowed: int
    """How many codewords may be changed in each block, from 2 to 15."""
    spent_most: int
    """The most correction that was spent in a block: 1 for a codeword with a module that is not known, and 2 for another wrong one.
    At most 2 * changed_allowed."""
    worst_misread: int
    """Of the worst block for a scanner, which is the one with the most codewords that are wrong or have a module that is not known:
    how many are wrong of the codewords whose modules are all known."""
    worst_unknown: int
    """How many codewords of the same block have a module that is not known. A scanner takes them as wrong."""
    worst_unknown_wrong: int
    """How many of these are wrong if each module that is not known is dark."""

    @property
    def is_sound(self) -> bool:
        """True if each module of the square is that of the symbol."""
        return self.wrong_modules == 0

    @property
    def scannable(self) -> bool:
        """True if a scanner can mend the symbol too, which takes each module that is not known as wrong. Whether it finds the symbol is
        another matter."""
        return self.worst_misread + self.worst_unknown <= self.changed_allowed and self.wrong_format_least <= WRONG_FORMAT_MAX

    @property
    def spent(self) -> float:
        """The share of the correction that is spent for a scanner, which takes each module that is not known as wrong: 0.0 for none, 1.0
        for all, and more if a scanner cannot mend the symbol."""
        return (self.worst_misread + self.worst_unknown) / self.changed_allowed

    @property
    def unused(self) -> float:
        """The unused error correction of ISO/IEC 15415 of the worst block, from 0.0 to 1.0, where each module that is not known counts as
        wrong. It is 0.0 if a scanner cannot mend the symbol."""
        return 1 - self.spent if self.scannable else 0.0

    @property
    def unused_grade(self) -> str:
        """The grade of `unused`, from 'A' to 'D', or 'F'. It is that of one parameter of ISO/IEC 15415, and no grade of the symbol."""
        left = 100 * (self.changed_allowed - self.worst_misread - self.worst_unknown)
        return next((grade for grade, percent in GRADES.items() if left >= percent * self.changed_allowed), "F") if self.scannable else "F"

    @property
    def spent_here(self) -> float:
        """The share of the correction that is spent for this package, from 0.0 to 1.0: a codeword with a module that is not known
        spends half as much as another wrong one."""
        return self.spent_most / (2 * self.changed_allowed)


@dataclass(frozen=True)
class Found:
    """A square that find found in a picture."""

    modules: bytes
    """side * side bytes, row by row: 0 is light, 1 is dark, 2 is not known."""
    side: int
    """From 21 to SIDE_MAX."""
    corners: Tuple[Tuple[float, float], ...]
    """The x and the y of each corner, in pixels from the upper left corner of the picture: of the first module, and then clockwise
    around the square."""
    quarter_turns: int
    """By how many quarter turns the symbol is turned clockwise, to the nearest one: from 0 to 3."""
    is_inverse: bool
    """True for a symbol that is light on dark."""
    is_mirrored: bool
    """True if its first row goes from the first corner to the last one, and not to the second."""
    is_read: bool
    """True if it can be mended, and at most one of its modules in five is wrong or not known, or one in ten if the timing patterns
    are damaged, and enough of each block is left as a check. Only find(picture, unread=True) finds others."""

    def read(self) -> Content:
        """Returns what the symbol says, as the function read does."""
        return read(self)

    def mend(self) -> Mended:
        """Returns what the symbol says, and how damaged it is, as the function mend does."""
        return mend(self)


def _whole(name: str, value: int) -> int:
    """Returns a number that is an integer. A bool is none, though Python takes it for 0 or 1."""
    if isinstance(value, bool):
        raise TypeError(f"{name} is a number, and not a bool")
    try:
        return operator.index(value)
    except TypeError:
        raise TypeError(f"{name} is an integer, and not of type {type(value).__name__}") from None


def _setting(name: str, value: int, least: int, most: int) -> int:
    number = _whole(name, value)
    if not least <= number <= most:
        raise SettingsError(f"{name} is from {least} to {most}, and not {number}")
    return number


def _flag(name: str, value: bool) -> int:
    if not isinstance(value, bool):
        raise TypeError(f"{name} is True or False, and not of type {type(value).__name__}")
    return int(value)


def _size(name: str, value: float) -> float:
    """Returns a length or a resolution. A bool is none."""
    if isinstance(value, bool) or not isinstance(value, (int, float)):
        raise TypeError(f"{name} is a number, and not of type {type(value).__name__}")
    if not 0 < value <= SIZE_MAX:
        raise SettingsError(f"{name} is more than 0 and at most {SIZE_MAX:,}, and not {value}")
    return float(value)


def _nearest(number: float) -> int:
    """Returns the nearest integer, and of two the greater, as the packages for JavaScript and Rust do."""
    return math.floor(number + 0.5)


def _warn(margin: int, module: Optional[float]) -> None:
    """Warns of a margin and of a module's width in millimetres, at the line that called the package."""
    faults = [f"a margin of {margin} module{'s' * (margin != 1)}: scanners need {MARGIN_WANTED}"] if margin < MARGIN_WANTED else []
    if module is not None and module < MODULE_MIN:
        faults.append(f"modules of {module:.3g} mm: under {MODULE_MIN} mm few scanners read them")
    level, frame = 1, sys._getframe()
    while frame.f_back is not None and frame.f_globals.get("__name__") == __name__:
        level, frame = level + 1, frame.f_back
    for fault in faults:
        warnings.warn(fault, PrintWarning, stacklevel=level)


def _named(name: str, kind: type[IntEnum], value: Name) -> int:
    """Returns the number of a member of an enumeration, which is given as itself, as its number or by its name."""
    if not isinstance(value, str):
        return _setting(name, value, 0, len(kind) - 1)
    member = kind.__members__.get(value.upper().replace("-", "_"))
    if member is None:
        *others, last = [repr(it.name if kind is Level else it.name.lower()) for it in kind]
        raise SettingsError(f"{name} is {', '.join(others)} or {last}, and not {value!r}")
    return member.value


def _settings(version: int, level: Name, rule: Optional[Name]) -> tuple[int, int, int]:
    return _setting("version", version, 1, VERSION_MAX), _named("level", Level, level), _named("rule", Rule, Rule.AUTO if rule is None else rule)


# What segno, python-qrcode and other packages call the options.
OTHER_NAMES = {"error": "level", "error_correction": "level", "ec_level": "level", "ecl": "level", "mode": "rule", "encoding": "eci",
               "boost_error": "boost", "border": "margin", "quiet_zone": "margin", "box_size": "scale", "module_size": "scale",
               "format": "kind", "xmldecl": "inline", "fill_color": "dark", "back_color": "light", "svgclass": "class_name",
               "mask_pattern": "mask", "ecc": "level", "color": "dark", "foreground": "dark", "background": "light"}


def _no_more(call: str, first: str, wrong: Sequence[object], others: Mapping[str, object], *names: str) -> None:
    """Refuses options that there are not, with those that there are, and arguments without a name, with the call that was meant."""
    for other in others:
        ours = OTHER_NAMES.get(other)
        raise TypeError(f"there is no option {other}; " + (f"did you mean {ours}?" if ours in names else f"there are {', '.join(names)}"))
    if not wrong:
        return
    free, said = list(names), []
    for value in wrong:
        wanted = "level" if isinstance(value, (Level, str)) else "rule" if isinstance(value, Rule) else free[0] if free else ""
        name = wanted if wanted in free else free[0] if free else None
        if name is None:
            break
        free.remove(name)
        shown = repr(value.name) if isinstance(value, IntEnum) else repr(value)
        said.append(f"{name}={shown}")
    *others, last = names
    listed = f"{', '.join(others)} and {last} are" if others else f"{last} is"
    raise TypeError(f"{call}: {listed} given by name: {call}({first}{', '.join(said)})")


def _side(value: int) -> int:
    side = _whole("side", value)
    if not (21 <= side <= SIDE_MAX and side % 4 == 1):
        raise SideError(f"side is 21, 25, and so on to {SIDE_MAX}, and not {side}")
    return side


def _copied(data: Bytes) -> bytes:
    """Returns bytes that nothing else can write to during a call. Raises TypeError for a text or a number."""
    return memoryview(data).tobytes()


class _Given(NamedTuple):
    """An input as the library takes it: its bytes, and their interpretation."""

    data: bytes
    interpretation: int

    def rule(self) -> Rule:
        """Returns the rule unless one is given. In GS1 data alphanumeric mode writes a % as %%, after which zxing-cpp 1.4 loses bytes."""
        return Rule.BYTES_ONLY if self.interpretation == _library.GS1 and b"%" in self.data else Rule.AUTO


def _room(level: int, mode: int, interpretation: int) -> int:
    """Returns how many characters of a mode fit a symbol of version 40. Raises SettingsError if this interpretation forbids the mode."""
    count = ctypes.c_uint32()
    raise_for(_calls.qrproved_room(VERSION_MAX, level, mode, interpretation, 0, ctypes.byref(count)))
    return count.value


def _may_have_kanji(eci: int) -> bool:
    try:
        return _room(Level.L, DATA["modes"]["kanji"], eci) > 0
    except SettingsError:
        return False


def _given(data: Optional[Input], gs1: Optional[Input], eci: Optional[int], rule: int) -> _Given:
    """Returns an input, one of the first two, as its bytes."""
    number = None if eci is None or eci is False else _setting("eci", eci, 0, ECI_MAX)
    if gs1 is not None:
        if data is not None or number is not None:
            raise TypeError("GS1 data are given alone: data and eci are not given beside gs1")
        return _Given(data_of(gs1) if isinstance(gs1, str) else _bytes("gs1", gs1), _library.GS1)
    if rule == Rule.WITH_KANJI and number is not None and not _may_have_kanji(number):
        raise SettingsError(f"kanji mode is for Shift JIS: beside the rule 'with_kanji' eci is {SHIFT_JIS} or False, and not {number}")
    if isinstance(data, str):
        if eci is None and rule != Rule.WITH_KANJI and not data.isascii():
            number = UTF_8
        data = encoded(data, number if number is not None else SHIFT_JIS if rule == Rule.WITH_KANJI else UTF_8)
    return _Given(_bytes("the input", data), _library.DEFAULT if number is None else number)


def _asked(data: Optional[Input], gs1: Optional[Input], eci: Optional[int], version: int, level: Name,
           rule: Optional[Name]) -> tuple[_Given, tuple[int, int, int]]:
    """Returns an input, and its version, level and rule, as the library takes them."""
    settings = _settings(version, level, rule)
    given = _given(data, gs1, eci, settings[2])
    return given, (*settings[:2], given.rule() if rule is None else settings[2])


def _bytes(name: str, data: Optional[Bytes]) -> bytes:
    try:
        return _copied(data)  # type: ignore[arg-type]
    except TypeError:
        raise TypeError(f"{name} is a text or bytes, and not of type {type(data).__name__}") from None


def _logo_file(logo: LogoFile) -> bytes:
    """Returns the file of a logo, which is given as its bytes, open, or by its path."""
    given = Path(logo).read_bytes() if isinstance(logo, (str, os.PathLike)) else logo.read() if hasattr(logo, "read") else logo
    try:
        return _copied(given)
    except TypeError:
        raise TypeError("the picture of a logo is a PNG or SVG file: its bytes, its path or an open file, and not of type"
                        f" {type(logo).__name__}") from None


def _square(call: str, modules: Union[Symbol, Found, Bytes], side: Optional[int]) -> tuple[bytes, int]:
    """Returns modules and their side, which a symbol has itself."""
    if isinstance(modules, (Symbol, Found)):
        return _copied(modules.modules), _side(modules.side if side is None else side)
    try:
        copied = _copied(modules)
    except TypeError:
        raise TypeError(f"{call}: modules are bytes, and not of type {type(modules).__name__}; a picture is given alone, and for a drawing as"
                        " text call parse_drawing(text)") from None
    if side is None:
        raise TypeError(f"{call}: modules are given with their side, as in {call}(modules, 21); these bytes are no picture, and for a drawing"
                        " as text call parse_drawing(text)")
    return copied, _side(side)


def _chosen(modules: Union[Symbol, Found, Bytes, Picture], side: Optional[int]) -> Union[Symbol, Found, Bytes]:
    """Returns modules as they are, and of a picture its one symbol. If none can be mended, it is what looks most like one."""
    if side is not None or isinstance(modules, (Symbol, Found)) or not is_picture(modules):
        return modules
    found = find(modules, unread=True)
    symbols = [it for it in found if it.is_read] or found[:1]
    if len(symbols) > 1:
        raise ValueError(f"the picture shows {len(symbols)} symbols: find(picture) returns all of them")
    if not symbols:
        raise ValueError(NO_SYMBOL)
    return symbols[0]


def _first(buffer: ctypes.Array[ctypes.c_uint8], length: int) -> bytes:
    return bytes(memoryview(buffer)[:length])


def _room_of_lines(kind: str, rows: int, scale: int) -> int:
    """Returns in how many bytes there is room for an image that is no PNG file, with `scale` lines for each row of modules."""
    line = (rows * scale + 7) // 8
    return rows * (2 * line + scale) if kind == "zpl" else (rows * scale + 254) * (line + 1)


def encode(data: Optional[Input] = None, *wrong: NoReturn, version: int = 1, level: Name = Level.L, rule: Optional[Name] = None,
           eci: Optional[int] = None, gs1: Optional[Input] = None, boost: bool = True, mask: Optional[int] = None,
           logo: Optional[float] = None, share: Optional[float] = None, **others: NoReturn) -> Symbol:
    """Returns the symbol of a text, of some bytes or of GS1 data, of the least version from `version` on that holds them.

    data     a text, or bytes; from 1 byte to BYTES_MAX
    version  the smallest version that may be taken, from 1 to 40
    level    a Level, its name ('Q' or 'q') or its number
    rule     a Rule, its name ('bytes_only') or its number. Unless it is given, GS1 data with a % have 'bytes_only', since zxing-cpp 1.4
             misreads a % of GS1 data in alphanumeric mode, and all other inputs 'auto'
    eci      the number of an ECI header, which says what the bytes mean as characters, from 0 to ECI_MAX; or False for none. Unless
             it is given, a text with a character that is not ASCII has 26, for UTF-8, and bytes have none
    gs1      in place of data, GS1 data as a text like '(01)04012345678901(10)AB', or in brackets like '[01]04012345678901[10]AB';
             or their bytes, in which the byte 1D separates fields, which are not looked at
    boost    take the highest level from `level` on that fits the same version
    mask     the number of the mask, from 0 to 7, in place of the one with the least penalty, which the standard asks for. Scanners may
             read the symbol less well
    logo     leave place for a logo in the middle: its side in modules, as 7, or a fraction of the symbol's side, as 0.2. The symbol has
             the least version from `version` on with which, at some level from `level` on, the logo is allowed, and the highest such
             level, whatever `boost` is. With the logo, whatever it shows, the library is proved to mend the symbol to exactly its
             content. Drawings leave the place light, and png and svg take a picture for it
    share    how much the logo may use up of what can be corrected in a block, from 0 to 0.75: 0.5 unless given. The rest is left for dirt
             and wear

    A text is encoded in the character set of its ECI, and else as UTF-8; under the rule 'with_kanji' as Shift JIS, without a header
    unless eci is 20.

    Raises SettingsError if a number is out of range or a name is not known, EmptyError if there is no byte, TooLongError if no
    version from `version` on holds the bytes, and OutOfMemoryError. Raises EciError, which is a ValueError, for a character that is
    not in the character set, and for a text in a set that is not known; Gs1Error, which is one too, for a text that is no GS1 data,
    and FieldsError for such bytes. Raises LogoError if no symbol of the input may have the logo.
    """
    _no_more("encode", "data, ", wrong, others, "version", "level", "rule", "eci", "gs1", "boost", "mask", "logo", "share")
    (given, settings), is_boosted = _asked(data, gs1, eci, version, level, rule), _flag("boost", boost)
    under = _mask(mask)
    if logo is not None:
        return under(_for_logo(given, settings, logo, _percent(SHARE / 100 if share is None else share)))
    if share is not None:
        raise TypeError("share says how much a logo may use up: it is given beside logo")
    modules, symbol = (ctypes.c_uint8 * SYMBOL_MAX)(), _library.Symbol()
    status = _calls.qrproved_encode(given.data, len(given.data), *settings, given.interpretation, is_boosted, modules, SYMBOL_MAX,
                                    ctypes.byref(symbol))
    _raise_of_encoding(status, given, settings)
    return under(Symbol(symbol.version, symbol.side, symbol.mask, _first(modules, symbol.side ** 2), Level(symbol.level)))


def _mask(mask: Optional[int]) -> Callable[[Symbol], Symbol]:
    """Returns what draws a symbol once more under this mask; without one each symbol stays as it is."""
    if mask is None:
        return lambda symbol: symbol
    number = _setting("mask", mask, 0, MASK_MAX)

    def under(symbol: Symbol) -> Symbol:
        modules = (ctypes.c_uint8 * len(symbol.modules)).from_buffer_copy(symbol.modules)
        raise_for(_calls.qrproved_set_mask(modules, len(modules), symbol.side, number))
        return replace(symbol, mask=number, modules=bytes(modules))

    return under


def _raise_of_encoding(status: int, given: _Given, settings: tuple[int, int, int]) -> None:
    """Raises the exception of a status of a call that encodes one symbol, and returns for 0."""
    if status == TooLongError.status:
        modes = [*DATA["modes"].items()][:DATA["modes_of_rules"][settings[2]]]
        raise too_long(len(given.data), settings[1], [f"{_room(settings[1], mode, given.interpretation):,} {name}" for name, mode in modes])
    raise_for(status)


def _percent(share: float) -> int:
    if isinstance(share, bool) or not isinstance(share, (int, float)):
        raise TypeError(f"share is a number, and not of type {type(share).__name__}")
    if not 0 <= share <= SHARE_MAX / 100:
        raise SettingsError(f"share is from 0 to {SHARE_MAX / 100}, and not {share}")
    return int(100 * share + 1e-9)


def _for_logo(given: _Given, settings: tuple[int, int, int], logo: float, share: int) -> Symbol:
    """Returns the symbol that may have a logo, whose side is given in modules, or as a fraction of the symbol's side. A fraction has more
    modules in larger versions, so those up to the version that may have the logo of a smaller one may not have their own."""
    if isinstance(logo, bool) or not isinstance(logo, (int, float)):
        raise TypeError(f"logo is a number, and not of type {type(logo).__name__}")
    if not isinstance(logo, float):
        return _with_logo(given, settings, _setting("logo", logo, 0, SIDE_MAX), share, f"{logo} by {logo} modules")
    if not 0 < logo < 1:
        raise SettingsError(f"logo is a number of modules, or a fraction of the side between 0 and 1, and not {logo}")
    version, level, rule = settings
    while True:
        side = max(1, _nearest(logo * (17 + 4 * version)))
        symbol = _with_logo(given, (version, level, rule), side, share, f"{100 * logo:.3g} % of the side")
        if symbol.version == version:
            return symbol
        version = symbol.version


def _with_logo(given: _Given, settings: tuple[int, int, int], logo: int, share: int, asked: str) -> Symbol:
    modules, symbol, largest = (ctypes.c_uint8 * SYMBOL_MAX)(), _library.Symbol(), ctypes.c_uint8()
    status = _calls.qrproved_encode_logo(given.data, len(given.data), *settings, given.interpretation, logo, share, modules, SYMBOL_MAX,
                                         ctypes.byref(symbol), ctypes.byref(largest))
    if status == LogoError.status:
        raise no_logo(asked, largest.value)
    _raise_of_encoding(status, given, settings)
    return Symbol(symbol.version, symbol.side, symbol.mask, _first(modules, symbol.side ** 2), Level(symbol.level), logo)


def encode_series(data: Optional[Input] = None, *wrong: NoReturn, version: Optional[int] = None, level: Name = Level.L,
                  rule: Optional[Name] = None, eci: Optional[int] = None, gs1: Optional[Input] = None, mask: Optional[int] = None,
                  **others: NoReturn) -> list[Symbol]:
    """Returns the symbols of the series of a text, of some bytes or of GS1 data, all of `version`, from 1 to COUNT_MAX of them.

    What fits one symbol is one plain symbol. Each symbol has the ECI header, or says that its data are GS1 data. The arguments are
    those of encode, but `version` has to be given: without it a TypeError is raised. Raises as encode does, but in place of
    TooLongError TooManyError, if the bytes take more than COUNT_MAX symbols.
    """
    _no_more("encode_series", "data, ", wrong, others, "version", "level", "rule", "eci", "gs1", "mask")
    if version is None:
        raise TypeError("encode_series: the version of all symbols has to be given: encode_series(data, version=5)")
    (given, settings), under = _asked(data, gs1, eci, version, level, rule), _mask(mask)
    modules, series = (ctypes.c_uint8 * SERIES_MAX)(), _library.Series()
    status = _calls.qrproved_encode_series(given.data, len(given.data), *settings, given.interpretation, modules, SERIES_MAX,
                                           ctypes.byref(series))
    if status == TooManyError.status:
        symbols = f"{COUNT_MAX} symbols of version {settings[0]}-{Level(settings[1]).name}"
        raise TooManyError(f"the input has {len(given.data):,} bytes and takes more than {symbols}")
    raise_for(status)
    area = series.side ** 2
    written = _first(modules, series.count * area)
    level_of_all = Level(settings[1])
    symbols = [Symbol(settings[0], series.side, None, written[k * area:(k + 1) * area], level_of_all) for k in range(series.count)]
    return [under(symbol) for symbol in symbols]


def read(modules: Union[Symbol, Found, Bytes, Picture], side: Optional[int] = None) -> Content:
    """Returns what a symbol says. No errors are corrected: each codeword has to be as it was drawn.

    modules  side * side bytes, row by row: 0 is light, all others are dark; bytes past the last module are ignored. A Symbol or a
             Found; or a picture of one symbol, as find takes it
    side     modules on a side: 21, 25, and so on to SIDE_MAX, if modules are bytes

    Raises SideError if no version has the side, RoomError if there are too few modules, FormatError if the first copy of the
    format information belongs to no level and mask, CheckError if a block does not match its error correction codewords,
    SegmentsError if the data codewords cannot be parsed, and OutOfMemoryError. Raises ValueError for a picture without a symbol or
    with several.

    The finder, timing and alignment patterns and the version information are not checked, so a symbol that is read here
    may not scan. mend checks each module.
    """
    given, checked = _square("read", _chosen(modules, side), side)
    data, ecis, content = (ctypes.c_uint8 * BYTES_MAX)(), (_library.Eci * ECIS_MAX)(), _library.Content()
    raise_for(_calls.qrproved_read(given, len(given), checked, data, BYTES_MAX, ecis, ECIS_MAX, ctypes.byref(content)))
    return _content_of(content, data, ecis)


def mend(modules: Union[Symbol, Found, Bytes, Picture], side: Optional[int] = None) -> Mended:
    """Returns what a damaged symbol says, and how damaged it is.

    modules  side * side bytes, row by row: 0 is light, 1 is dark, 2 is not known; bytes past the last module are ignored. A Symbol or
             a Found; or a picture of one symbol, as find takes it
    side     modules on a side: 21, 25, and so on to SIDE_MAX, if modules are bytes

    In each block at most changed_allowed codewords are mended. A codeword with a module that is not known takes half as much of
    the correction as a wrong one. Of the 30 modules of format information any six may be wrong, or 13 not known: the number not
    known and twice the number of wrong ones are at most 13. No other module has to be right. But of a square in a picture at most
    one module in five may be wrong or not known, or one in ten if the timing patterns are damaged, and of a block with modules
    that are not known three of the codewords that correct it have to be left, since other squares that are no symbols can now and
    then be mended.

    Raises SideError if no version has the side, RoomError if there are too few modules, SettingsError if one is more than 2,
    FormatError if both copies of the format information are too damaged, CheckError if a block is, SegmentsError if the data
    codewords cannot be parsed, and OutOfMemoryError. Raises ValueError for a picture without a symbol or with several.
    """
    chosen = _chosen(modules, side)
    given, checked = _square("mend", chosen, side)
    data, ecis, mended = (ctypes.c_uint8 * BYTES_MAX)(), (_library.Eci * ECIS_MAX)(), _library.Mended()
    raise_for(_calls.qrproved_mend(given, len(given), checked, data, BYTES_MAX, ecis, ECIS_MAX, ctypes.byref(mended)))
    counts = (getattr(mended, name) for name, _ in _library.DAMAGED)
    made = Mended(_content_of(mended, data, ecis), Level(mended.level), mended.mask, mended.wrong_modules, *counts)
    if isinstance(chosen, Found) and not chosen.is_read:
        raise CheckError(f"{made.wrong_modules} of its {checked * checked} modules are wrong or not known, and in a picture fewer have to be")
    return made


def _listed(symbols: Union[Symbol, Iterable[Symbol]]) -> list[Symbol]:
    """Returns the symbols as a list. (A symbol can be indexed, so list() would take its modules for symbols.)"""
    return [symbols] if isinstance(symbols, Symbol) else list(symbols)


def draw(symbols: Union[Symbol, Sequence[Symbol]], *wrong: NoReturn, drawing: Name = Drawing.UTF8, margin: int = 4,
         **others: NoReturn) -> bytes:
    """Returns the drawing of symbols of one side: texts one after the other, or one document with one below the other.

    symbols  from 1 to COUNT_MAX, or a symbol alone
    drawing  a Drawing, its name ('svg') or its number
    margin   light modules on each side of each symbol, from 0 to MARGIN_MAX; a scanner needs 4

    Raises SettingsError if a number is out of range, a name is not known or the sides are not the same, RoomError if a symbol
    has too few modules, and OutOfMemoryError.
    """
    _no_more("draw", "symbols, ", wrong, others, "drawing", "margin")
    kind, light = _named("drawing", Drawing, drawing), _setting("margin", margin, 0, MARGIN_MAX)
    given, count, side = _squares(_listed(symbols))
    asked = (given, len(given), side, count, kind, light)
    return _written(lambda *buffer: _calls.qrproved_draw(*asked, *buffer))


def document(symbols: Union[Symbol, Sequence[Symbol]], *wrong: NoReturn, kind: str = "pdf", margin: int = 4, mm: Optional[float] = None,
             **others: NoReturn) -> bytes:
    """Returns a document for print with symbols of one side: a PDF has a page for each, an EPS or an SVG has them one below the other.

    symbols  from 1 to COUNT_MAX, or a symbol alone
    kind     'pdf', 'eps' or 'svg'
    margin   light modules on each side of each symbol, from 0 to MARGIN_MAX; a scanner needs 4
    mm       the width of a symbol with its margin, in millimetres. Without it a module is 1 mm wide. A module has whole micrometres

    Raises SettingsError if a number is out of range, a name is not known or the sides are not the same, RoomError if a symbol has
    too few modules, and OutOfMemoryError. Warns by PrintWarning of what scanners may not read.
    """
    _no_more("document", "symbols, ", wrong, others, "kind", "margin", "mm")
    if kind not in DOCUMENTS:
        raise SettingsError(f"kind is 'pdf', 'eps' or 'svg', and not {kind!r}")
    return _document(_listed(symbols), kind, margin, mm)


class Sheet(NamedTuple):
    """Label paper. Its lengths are in millimetres, to the nearest thousandth."""

    width: float
    """The width of the paper."""
    height: float
    columns: int
    """How many places for symbols are side by side, from 1 to 100."""
    rows: int
    """How many are one below the other, from 1 to 100."""
    left: float = 0
    """How far the first place is from the left edge of the paper."""
    top: float = 0
    across: float = 0
    """How far the left edges of places side by side are from each other."""
    down: float = 0
    """How far the upper edges of places one below the other are."""
    first: int = 0
    """How many places of the first sheet stay free, as labels that are used up."""
    label_width: float = 0
    """How wide a label is. Without it a label goes on to the next one, or to the edge of the paper."""
    label_height: float = 0
    """How high a label is."""


def paper(name: str, *wrong: NoReturn, first: int = 0, **others: NoReturn) -> Sheet:
    """Returns the label paper of a name, such as 'Avery L7160' or 'l7160'; PAPERS has all names. `first` places of the first sheet stay free.
    Raises SettingsError for another name."""
    _no_more("paper", "name, ", wrong, others, "first")
    found = _papers.named(name)
    width, height = _papers.SIZES[found["size"]]
    return _labelled(width, height, found["grid"], found["label"], None, found["gaps"], first)


def _labelled(width: float, height: float, grid: Sequence[int], label: Optional[Sequence[float]], margins: Optional[Sequence[float]],
              gaps: Sequence[float], first: int) -> Sheet:
    """Returns label paper of which either the size of a label or the margins may be left out."""
    counts = [_setting(name, it, 1, COLUMNS_MAX) for name, it in zip(("columns", "rows"), grid)]
    given = [[None if it is None else _papers.micrometres(it) for it in pair or (None, None)] for pair in (label, margins, gaps)]
    across, down = (_papers.row_of(_papers.micrometres(paper), *row) for paper, *row in zip((width, height), counts, *given))
    lengths = [it / 1000 for it in (across.before, down.before, across.step, down.step)]
    return Sheet(width, height, *counts, *lengths, first, across.label / 1000, down.label / 1000)


def sheets(symbols: Union[Symbol, Iterable[Symbol]], sheet: Sheet, *wrong: NoReturn, margin: int = 4, mm: Optional[float] = None,
           captions: Optional[Sequence[str]] = None, **others: NoReturn) -> bytes:
    """Returns a PDF with symbols of one side on sheets of label paper, as many as they need. They follow one another in rows, from the
    upper left place on.

    symbols   from 1 to LABELS_MAX, or a symbol alone. To give all the same side, encode them with a `version` that has room for each
    sheet     the paper and its places, as `paper` returns it too
    margin    light modules on each side of each symbol, from 0 to MARGIN_MAX; a scanner needs 4
    mm        the width of a symbol with its margin, in millimetres. Without it symbols are as large as fits their places. A module has
              whole micrometres
    captions  a text for each symbol, which may be empty. A symbol is then in the middle of its label, with the lines of its caption below.
              2 mm of a label on its left and right and 1 mm above and below stay free. Without captions a symbol is in the upper left corner
              of its place

    Raises SettingsError if a number is out of range, if the sides are not the same, if symbols are larger than their places or a place
    is not on the paper, or for a character of a caption that the font Helvetica does not have, RoomError if a symbol has too few modules,
    and OutOfMemoryError. Warns by PrintWarning of what scanners may not read.
    """
    _no_more("sheets", "symbols, sheet, ", wrong, others, "margin", "mm", "captions")
    if not isinstance(sheet, Sheet):
        raise TypeError(f"sheet is a Sheet, as paper('Avery L7160') returns it, and not of type {type(sheet).__name__}")
    light, (given, count, side) = _setting("margin", margin, 0, MARGIN_MAX), _squares(_listed(symbols), LABELS_MAX)
    return _sheets(given, count, side, sheet, light, mm, None if captions is None else _captions(captions, count))


def _captions(captions: Sequence[str], count: int) -> list[str]:
    if isinstance(captions, str):
        raise TypeError("sheets: captions are a list of texts, one for each symbol")
    listed = list(captions)
    for it in listed:
        _papers.check_caption(it)
    if len(listed) != count:
        raise SettingsError(f"each symbol has a caption, which may be empty: there are {count} and {len(listed)}")
    return listed


def labels(symbols: Union[Symbol, Iterable[Symbol]], *wrong: NoReturn, kind: str = "zpl", scale: Optional[int] = None, margin: int = 4,
           mm: Optional[float] = None, dpi: Optional[float] = None, x: int = 0, y: int = 0, fit_mm: Optional[float] = None,
           **others: NoReturn) -> bytes:
    """Returns a file for a printer with a label for each symbol, one after the other.

    symbols  any number of them, which may have different sides, or a symbol alone
    kind     'zpl', 'tspl' or 'escpos'. In TSPL the commands CLS and PRINT are around each symbol, and the printer has to know the
             size of its labels, by the command SIZE. ESC/POS has the symbols one below the other
    scale, margin, mm, dpi, x, y, fit_mm
             those of Symbol.zpl; in ESC/POS a symbol has no place on a label, and so no x and no y

    Raises and warns as Symbol.zpl does, and raises SettingsError for another kind.
    """
    _no_more("labels", "symbols, ", wrong, others, "kind", "scale", "margin", "mm", "dpi", "x", "y", "fit_mm")
    if kind not in LABELS:
        raise SettingsError(f"kind is 'zpl', 'tspl' or 'escpos', and not {kind!r}")
    if (x or y) and kind == "escpos":
        raise TypeError(ONLY_LABELS)
    light, place = _setting("margin", margin, 0, MARGIN_MAX), (_setting("x", x, 0, PLACE_MAX), _setting("y", y, 0, PLACE_MAX))
    asked = _Sizes(scale, mm, dpi, fit_mm)
    sizes = [(it, *it._dots(kind, asked, light)) for it in _listed(symbols)]
    if sizes:
        _warn(light, min(module for _, _, module in sizes))
    before, after = (it.encode() for it in LABELS[kind])
    return b"".join(before + it._image(kind, dots, light, 0, *place) + after for it, dots, _ in sizes)


def _coloured(document: bytes, colours: _colours.Colours, title: Optional[str], class_name: Optional[str]) -> bytes:
    """Returns an SVG document of black and white with other colours, a title and a class."""
    dark, light = colours
    head, body = document.split(b">\n<rect", 1)
    ground, rest = body.split(b"/>", 1)
    attributes = "" if class_name is None else f' class="{_escaped("class_name", class_name)}"'
    inside = ">" if title is None else f' role="img">\n<title>{_escaped("title", title)}</title>'
    ground = b"" if light is None else b"\n<rect" + ground.replace(_colours.LIGHT.encode(), light.encode()) + b"/>"
    return head + f"{attributes}{inside}".encode() + ground + rest.replace(_colours.DARK.encode(), dark.encode(), 1)


def _captioned(document: bytes, width: int, caption: str, colour: str) -> bytes:
    """Returns an SVG document that is so many modules wide with a line of text below, as large as fits, and at most three modules."""
    text, height = _escaped("caption", caption), width + CAPTION_HEIGHT
    size = math.floor(100 * min(3.0, width / (0.6 * max(1, len(caption))))) / 100
    drawing = document.decode().replace(f' viewBox="0 0 {width} {width}"', f' viewBox="0 0 {width} {height}"', 1)
    drawing = drawing.replace(f' height="{width}"', f' height="{height}"', 1)
    drawing = re.sub(r' height="([\d.]+)mm"', lambda found: f' height="{float(found[1]) / width * height:.3f}mm"', drawing, count=1)
    line = f'<text x="{width / 2}" y="{width + 2.75}" font-family="sans-serif" font-size="{size:.2f}" text-anchor="middle" fill="{colour}">{text}</text>'
    return drawing.replace("</svg>", f"{line}\n</svg>").encode()


def _escaped(name: str, text: str) -> str:
    """Returns a text for XML, without the control characters that it cannot have."""
    if not isinstance(text, str):
        raise TypeError(f"{name} is a text, and not of type {type(text).__name__}")
    found = next((it for it in text if it < " " and it not in "\t\n\r" or "\ud800" <= it <= "\udfff" or it in "\ufffe\uffff"), None)
    if found is not None:
        raise SettingsError(f"XML cannot have the character {found!r}")
    return text.replace("&", "&amp;").replace("<", "&lt;").replace(">", "&gt;").replace('"', "&quot;")


def _filled(call: Callable[..., int], asked: tuple[object, ...], room: int) -> bytes:
    """Returns the file that a call writes, which most likely has room in so many bytes."""
    written, image = ctypes.c_size_t(), (ctypes.c_uint8 * room)()
    status = call(*asked, image, room, ctypes.byref(written))
    if status == RoomError.status:
        # the call has said how much room the file needs
        image = (ctypes.c_uint8 * written.value)()
        status = call(*asked, image, written.value, ctypes.byref(written))
    raise_for(status)
    return _first(image, written.value)


def _document(symbols: list[Symbol], kind: str, margin: int, mm: Optional[float], colours: _colours.Colours = _colours.PLAIN) -> bytes:
    """Returns a document for print. Only PDF has colours."""
    light, (given, count, side) = _setting("margin", margin, 0, MARGIN_MAX), _squares(symbols)
    micrometres = MICROMETRES if mm is None else _micrometres(mm, side + 2 * light)
    _warn(light, micrometres / 1000)
    if colours != _colours.PLAIN:
        coloured = (given, len(given), side, count, light, micrometres, *_colours.numbers_of(colours))
        return _written(lambda *buffer: _calls.qrproved_pdf(*coloured, *buffer))
    asked = (given, len(given), side, count, DOCUMENTS[kind], light, micrometres)
    return _written(lambda *buffer: _calls.qrproved_document(*asked, *buffer))


def _micrometres(mm: float, modules: int) -> int:
    """Returns how wide a module is if so many are `mm` wide."""
    micrometres = _nearest(1000 * _size("mm", mm) / modules)
    if not 1 <= micrometres <= MICROMETRES_MAX:
        raise SettingsError(f"a module is from 0.001 to {MICROMETRES_MAX // 1000} mm wide, and {modules} modules are not {mm:.3g} mm wide")
    return micrometres


def _on_paper(name: str, value: float) -> int:
    """Returns a length on label paper in micrometres. It may be 0."""
    return _nearest(1000 * _size(name, value)) if value or isinstance(value, bool) else 0


def _sheets(modules: bytes, count: int, side: int, sheet: Sheet, light: int, mm: Optional[float], captions: Optional[list[str]] = None) -> bytes:
    names = ("width", "height", "left", "top", "across", "down")
    lengths = {name: _on_paper(name, getattr(sheet, name)) for name in names}
    columns, rows = _setting("columns", sheet.columns, 1, COLUMNS_MAX), _setting("rows", sheet.rows, 1, COLUMNS_MAX)
    first = _setting("first", sheet.first, 0, columns * rows - 1)
    if max(lengths["width"], lengths["height"]) > PAPER_MAX:
        raise SettingsError(f"paper is at most {PAPER_MAX // 1000:,} mm wide and high")
    wide, high = _place_of(sheet)
    lines = [[] if captions is None else _papers.lines_of(it, wide - 2 * _papers.FREE_ACROSS) for it in captions or ()]
    most = max(map(len, lines), default=0)
    room = min(wide, high) if captions is None else _papers.room_of_label(wide, high, most)
    width = side + 2 * light
    micrometres = min(room, MICROMETRES_MAX * width) // width if mm is None else _micrometres(mm, width)
    if micrometres < 1 or micrometres * width > room:
        asked = f"{width} modules" if mm is None else f"a symbol {micrometres * width / 1000:.3f} mm wide with its margin"
        below = f" and {most} {'lines' if most > 1 else 'line'} of a caption" if most else ""
        raise SettingsError(f"a place of the sheet is {max(0, wide) / 1000:.3f} mm wide and {max(0, high) / 1000:.3f} mm high, and has no room for {asked}{below}")
    _warn(light, micrometres / 1000)
    size, (left, top) = micrometres * width, (lengths["left"], lengths["top"])
    if captions is not None:
        lengths["left"] += (wide - size) // 2
        lengths["top"] += (high - size - most * _papers.LINE) // 2
    given = _library.Sheet(columns=columns, rows=rows, first=first, **lengths)
    asked = (modules, len(modules), side, count, light, micrometres, ctypes.byref(given))
    document = _written(lambda *buffer: _calls.qrproved_sheets(*asked, *buffer))
    if most == 0:
        return document
    below, texts = lengths["height"] - lengths["top"] - size, []
    for place, its in enumerate(lines, first):
        page, place = divmod(place, columns * rows)
        row, column = divmod(place, columns)
        texts.append(_papers.Text(page, left + column * lengths["across"] + wide // 2, below - row * lengths["down"], its))
    return _papers.with_captions(document, texts)


def _place_of(sheet: Sheet) -> tuple[int, int]:
    """Returns how wide and how high a place of a sheet may be."""
    length = {name: _on_paper(name, getattr(sheet, name)) for name in ("width", "height", "left", "top", "across", "down", "label_width", "label_height")}
    return (_room_of_place(length["width"], length["left"], sheet.columns, length["across"], length["label_width"]),
            _room_of_place(length["height"], length["top"], sheet.rows, length["down"], length["label_height"]))


def _pages(modules: bytes, side: int, margin: int, mm: Optional[float]) -> bytes:
    """Returns a PDF with a page for each symbol, as large as the symbol with its margin."""
    light = _setting("margin", margin, 0, MARGIN_MAX)
    modules_wide = side + 2 * light
    width = modules_wide * (MICROMETRES if mm is None else _micrometres(mm, modules_wide)) / 1000
    count = _setting("the number of symbols", len(modules) // (side * side), 1, LABELS_MAX)
    return _sheets(modules, count, side, Sheet(width, width, columns=1, rows=1), light, None)


def _room_of_place(length: int, before: int, count: int, step: int, label: int) -> int:
    """Returns how long a place may be, of so many that begin `before` behind the edge and `step` behind one another: up to the next one,
    and up to the other edge, or as long as a label."""
    last = length - before - (count - 1) * step
    room = last if count == 1 else min(step, last)
    return min(room, label) if label else room


def _squares(symbols: list[Symbol], most: int = COUNT_MAX) -> tuple[bytes, int, int]:
    """Returns the modules of symbols, one after the other, their number and their side."""
    count = _setting("the number of symbols", len(symbols), 1, most)
    side = _setting("side", symbols[0].side, 1, SIDE_MAX)
    if any(symbol.side != side for symbol in symbols):
        raise SettingsError("the symbols have one side")
    if any(len(symbol.modules) < side * side for symbol in symbols):
        raise RoomError("a symbol has side * side modules")
    return b"".join(symbol._shown()[:side * side] for symbol in symbols), count, side


def _written(write: Callable[..., int]) -> bytes:
    """Calls `write` with no buffer, which tells how long the text is, and then with one that is as long."""
    written = ctypes.c_size_t()
    status = write(None, 0, ctypes.byref(written))
    if status != RoomError.status:
        raise_for(status)
    text = (ctypes.c_uint8 * written.value)()
    raise_for(write(text, written.value, ctypes.byref(written)))
    return _first(text, written.value)


def _exactly(text: bytes) -> Optional[Drawn]:
    """Returns what the text is the drawing of, by the proved call; None if it is none."""
    modules, told = (ctypes.c_uint8 * SERIES_MAX)(), _library.Drawn()
    status = _calls.qrproved_parse_drawing(text, len(text), modules, SERIES_MAX, ctypes.byref(told))
    if status == NoDrawingError.status:
        return None
    raise_for(status)
    area = told.side ** 2
    written = _first(modules, told.count * area)
    return Drawn([(written[k * area:(k + 1) * area], told.side) for k in range(told.count)], Drawing(told.drawing), told.margin)


def parse_drawing(text: Union[str, Bytes]) -> Drawn:
    """Returns the modules and the side of each square of a drawing, of one symbol or of a series.

    text  of '##' and two spaces, either of them dark, of half blocks, or an SVG document as draw writes it, also with a size. It may
          have been pasted: line ends of two characters, an indentation, lost spaces at the ends of lines, empty lines between
          symbols or after each line, and the half blocks of qrencode 4.1.1 are undone. In a text that is no such drawing '??' is a
          module that is not known, which becomes 2.

    The result says by its `drawing` and its `margin` whether the text is exactly the drawing of these squares, or whether they
    were found by their look. The margin is 0 if it was lost with the spaces of the text.

    Raises NoDrawingError, which is a ValueError, if it is empty, has other characters or a module of two that differ, or has no
    square of a symbol: the first and the last row and column of a symbol each need a module that is not light. Raises
    UnicodeDecodeError for bytes that are no UTF-8, and OutOfMemoryError.
    """
    given = text if isinstance(text, str) else _bytes("the drawing", text).decode()
    for drawing in undone(given):
        # (half a surrogate pair is in no drawing)
        found = _exactly(drawing.encode(errors="surrogatepass"))
        if found is not None:
            return found
    return Drawn(found_by_look(given))


def _squares_in(grey: Grey, unread: bool) -> list[Found]:
    """Returns the squares that one call of the library finds."""
    modules, found, count = (ctypes.c_uint8 * (FOUND_MAX * SYMBOL_MAX))(), (_library.Found * FOUND_MAX)(), ctypes.c_size_t()
    raise_for(_calls.qrproved_find(grey.pixels, len(grey.pixels), grey.width, grey.height, grey.width, unread, modules, len(modules), found,
                                   FOUND_MAX, ctypes.byref(count)))
    view, made = memoryview(modules), []
    for k, it in enumerate(found[:count.value]):
        corners = tuple((getattr(it, f"x{corner}") / CORNER_STEPS, getattr(it, f"y{corner}") / CORNER_STEPS) for corner in range(4))
        square = bytes(view[k * SYMBOL_MAX:k * SYMBOL_MAX + it.side ** 2])
        made.append(Found(square, it.side, corners, it.quarter_turns, it.is_inverse != 0, it.is_mirrored != 0, it.is_read != 0))
    return made


def found_in(grey: Grey, unread: bool) -> list[Found]:
    """Returns the squares of a picture in grey, those that are read first, and row by row. A search finds some 40 symbols at most. So after
    one that finds many, these are covered, and the picture is searched again."""
    if not (1 <= grey.width <= PICTURE_MAX and 1 <= grey.height <= PICTURE_MAX):
        raise SettingsError(f"a picture is from 1 to {PICTURE_MAX} pixels wide and high, and not {grey.width} times {grey.height}")
    squares, found = [], []
    for _ in range(SEARCHES):
        squares = _squares_in(grey, unread)
        read = [it for it in squares if it.is_read]
        found += read
        if len(read) < MANY:
            break
        grey = grey.covered([(it.corners, 0 if it.is_inverse else 255) for it in read])
    return _in_rows(found) + _in_rows([it for it in squares if not it.is_read])


def _in_rows(squares: list[Found]) -> list[Found]:
    """Returns squares row by row. A square is in the row of another one if its upper edge is above the middle of the other."""
    rows: list[list[Found]] = []
    middle = 0.0
    for it in sorted(squares, key=lambda square: min(y for _, y in square.corners)):
        top, bottom = min(y for _, y in it.corners), max(y for _, y in it.corners)
        if not rows or top >= middle:
            rows.append([])
            middle = (top + bottom) / 2
        rows[-1].append(it)
    return [it for row in rows for it in sorted(row, key=lambda square: min(x for x, _ in square.corners))]


def find(picture: Picture, *wrong: NoReturn, unread: bool = False, **others: NoReturn) -> list[Found]:
    """Returns the symbols of a picture, row by row from the upper left. They may be turned, tilted, mirrored, light on dark, in shadow,
    blurred or small. All three finder patterns have to be there, one of them with at most six wrong modules of its 49.

    picture  the bytes of a PNG picture or of an SVG document, the path of a file with them, or an open binary file; an image of Pillow;
             or an array of bytes, as numpy has them: rows of grey, or rows of RGB or RGBA. Of an SVG document rectangles and upright
             lines are drawn, and texts are left out. What is transparent is taken for white, and if nothing is found, for black
    unread   True: squares that look like symbols and cannot be mended are found too, after the others

    Raises ValueError for what cannot be read as a picture, TypeError for an object of another type, OSError for a file that cannot be
    read, SettingsError, which is a ValueError, for a picture that is more than PICTURE_MAX pixels wide or high, and OutOfMemoryError.
    """
    _no_more("find", "picture, ", wrong, others, "unread")
    is_unread = _flag("unread", unread) == 1
    found: list[Found] = []
    for grey in greys_of(picture):
        squares = found_in(grey, is_unread)
        found = found or squares
        if any(it.is_read for it in squares):
            return squares
    return found


def parse_picture(picture: Picture) -> list[tuple[bytes, int]]:
    """Returns the modules and the side of each symbol of a picture, in the order and with the errors of find. Raises ValueError if there
    is no symbol.

    A module is 0 for light, 1 for dark, and 2 if it is between them and so not known.
    """
    found = find(picture)
    if not found:
        raise ValueError(NO_SYMBOL)
    return [(it.modules, it.side) for it in found]


def _content_of(it: Union[_library.Content, _library.Mended], data: ctypes.Array[ctypes.c_uint8], ecis: ctypes.Array[_library.Eci]) -> Content:
    header = Header(it.position, it.last, it.parity) if it.has_header else None
    application = _application_of(it.application) if it.fnc1 == FNC1_SECOND else None
    found = tuple(Eci(eci.begin, eci.number) for eci in ecis[:it.eci_count])
    return Content(_first(data, it.len), it.version, header, found, it.fnc1 == FNC1_FIRST, application, it.has_kanji != 0)


def _application_of(number: int) -> str:
    """Returns an application indicator as it is printed: two digits, or the letter whose code is 100 less."""
    return f"{number:02}" if number < 100 else chr(number - 100)
