"""Draws an SVG document of a symbol as pixels: rectangles, and paths of upright lines and rectangles, as programs for labels write
them. Texts are left out, and what is drawn in any other way is refused."""
from __future__ import annotations

import math
import re
from collections.abc import Iterator
from typing import NamedTuple, Optional
from xml.etree import ElementTree

from ._common import DATA

FINE = 1000  # steps of a unit of length that are told apart
PIXELS_MAX = 2000  # on a side; a finer document is drawn coarser
NUMBER = r"[-+]?(?:\d+\.?\d*|\.\d+)(?:[eE][-+]?\d+)?"
UNITS = {"": 1.0, "px": 1.0, "pt": 4 / 3, "pc": 16.0, "mm": 96 / 25.4, "cm": 960 / 25.4, "in": 96.0}  # of CSS 2.1, in pixels
LENGTH = re.compile(rf"\s*({NUMBER})({'|'.join(UNITS)})\s*")
PATH = re.compile(rf"([A-Za-z])|({NUMBER})|([\s,]+)|(.)")
NAMES = {**DATA["colours"], "currentcolor": "000000"}
SILENT = {"title", "desc", "metadata", "defs", "text"}


class Rectangle(NamedTuple):
    left: float
    top: float
    right: float
    bottom: float
    brightness: int


class Style(NamedTuple):
    """What an element has from itself and from those around it."""

    fill: str = "black"
    stroke: str = "none"
    width: float = 1.0
    visibility: str = "visible"
    fill_alpha: float = 1.0
    stroke_alpha: float = 1.0
    across: float = 1.0  # the scale, and the place of the origin
    down: float = 1.0
    left: float = 0.0
    top: float = 0.0

    def placed(self, x: float, y: float) -> tuple[float, float]:
        return self.left + self.across * x, self.top + self.down * y


def _refuse(what: str) -> ValueError:
    return ValueError(f"the SVG document has {what}: only rectangles and paths of upright lines are read")


def _name(element: ElementTree.Element) -> str:
    """Returns the name of an element without its namespace. (A comment has none.)"""
    return element.tag.rsplit("}", 1)[-1] if isinstance(element.tag, str) else "title"


def _number(text: Optional[str], default: float) -> float:
    if text is None:
        return default
    found = LENGTH.fullmatch(text)
    if not found:
        raise _refuse(f"the length {text!r}")
    return float(found.group(1)) * UNITS[found.group(2)]


def _opacity(text: Optional[str], default: float) -> float:
    return min(1.0, max(0.0, _number(text, default)))


def _brightness(colour: str, alpha: float, ground: int) -> Optional[int]:
    """Returns the brightness of a colour over a ground; None if nothing is drawn."""
    text = colour.strip().lower()
    if text in ("none", "transparent"):
        return None
    digits = NAMES.get(text) or (text[1:] if text.startswith("#") else "")
    found = re.fullmatch(r"rgb\(\s*(\d+)\s*,\s*(\d+)\s*,\s*(\d+)\s*\)", text)
    if found:
        digits = "".join(f"{int(min(255.0, float(it))):02x}" for it in found.groups())
    if not re.fullmatch(r"[0-9a-f]{3,4}|[0-9a-f]{6}|[0-9a-f]{8}", digits):
        raise _refuse(f"the colour {colour!r}")
    if len(digits) < 6:
        digits = "".join(2 * it for it in digits)
    red, green, blue, *more = bytes.fromhex(digits)
    share = alpha * (more[0] / 255 if more else 1)
    return round((0.299 * red + 0.587 * green + 0.114 * blue) * share + ground * (1 - share))


def _attributes(element: ElementTree.Element) -> dict[str, str]:
    """Returns the attributes of an element, and what its attribute `style` says in place of some of them."""
    given = dict(element.attrib)
    given.update(pair.strip().split(":", 1) for pair in given.get("style", "").split(";") if ":" in pair)
    return {name.strip(): value.strip() for name, value in given.items()}


def _styled(given: dict[str, str], style: Style) -> Style:
    alpha = _opacity(given.get("opacity"), 1)
    style = style._replace(fill=given.get("fill", style.fill), stroke=given.get("stroke", style.stroke),
                           width=_number(given.get("stroke-width"), style.width), visibility=given.get("visibility", style.visibility),
                           fill_alpha=_opacity(given.get("fill-opacity"), style.fill_alpha) * alpha,
                           stroke_alpha=_opacity(given.get("stroke-opacity"), style.stroke_alpha) * alpha)
    rest = given.get("transform", "")
    for name, words in re.findall(r"(\w+)\s*\(([^)]*)\)", rest):
        numbers = [float(it) for it in re.findall(NUMBER, words)]
        if name == "translate" and len(numbers) in (1, 2):
            a, d, e, f = 1.0, 1.0, numbers[0], (numbers[1] if len(numbers) == 2 else 0.0)
        elif name == "scale" and len(numbers) in (1, 2):
            a, d, e, f = numbers[0], numbers[-1], 0.0, 0.0
        elif name == "matrix" and len(numbers) == 6 and numbers[1] == numbers[2] == 0:
            a, d, e, f = numbers[0], numbers[3], numbers[4], numbers[5]
        else:
            raise _refuse(f"the transformation {name}({words})")
        left, top = style.placed(e, f)
        style = style._replace(across=style.across * a, down=style.down * d, left=left, top=top)
    return style


def _box(style: Style, x: float, y: float, width: float, height: float, brightness: Optional[int]) -> Iterator[Rectangle]:
    if brightness is None or width <= 0 or height <= 0:
        return
    (a, b), (c, d) = style.placed(x, y), style.placed(x + width, y + height)
    if not all(map(math.isfinite, (a, b, c, d))):
        raise OverflowError
    yield Rectangle(min(a, c), min(b, d), max(a, c), max(b, d), brightness)


def _subpaths(data: str) -> Iterator[list[tuple[float, float]]]:
    """Yields the corners of each part of a path."""
    points: list[tuple[float, float]] = []
    command, numbers, x, y = "", [], 0.0, 0.0
    wanted = {"m": 2, "l": 2, "h": 1, "v": 1, "z": 0}
    for letter, number, _, other in PATH.findall(data):
        if other or (letter and letter.lower() not in wanted):
            raise _refuse(f"the path command {letter or other!r}")
        if letter:
            if numbers:
                raise _refuse("a path with a number too few")
            command = letter
        elif number:
            numbers.append(float(number))
        else:
            continue
        kind = command.lower()
        if not command or len(numbers) < wanted[kind] or (kind != "z" and not number):
            continue
        if kind == "z":
            if points:
                points.append(points[0])
                x, y = points[0]
                yield points
            command = ""
            points = [(x, y)]
            continue
        base_x, base_y = (x, y) if command.islower() else (0.0, 0.0)
        if kind == "m":
            if len(points) > 1:
                yield points
            points = []
        x = x if kind == "v" else base_x + numbers[0]
        y = y if kind == "h" else base_y + numbers[-1]
        numbers = []
        points.append((x, y))
        command = {"m": "l", "M": "L"}.get(command, command)
    if len(points) > 1:
        yield points


def _filled(style: Style, points: list[tuple[float, float]], brightness: Optional[int]) -> Iterator[Rectangle]:
    """Yields the inside of a part of a path, which has to be a rectangle, or nothing."""
    columns, rows = {x for x, _ in points}, {y for _, y in points}
    if brightness is None or len(columns) == 1 or len(rows) == 1 or len(set(points)) == 2:
        return
    corners = points[:-1] if points[0] == points[-1] else points
    upright = all(a[0] == b[0] or a[1] == b[1] for a, b in zip(corners, corners[1:] + corners[:1]))
    if len(corners) != 4 or len(set(corners)) != 4 or len(columns) != 2 or len(rows) != 2 or not upright:
        raise _refuse("a path around what is no rectangle")
    yield from _box(style, min(columns), min(rows), max(columns) - min(columns), max(rows) - min(rows), brightness)


def _lined(style: Style, points: list[tuple[float, float]], brightness: Optional[int]) -> Iterator[Rectangle]:
    """Yields the lines of a part of a path."""
    half = style.width / 2
    for (a, b), (c, d) in zip(points, points[1:]) if brightness is not None else ():
        if b == d:
            yield from _box(style, min(a, c), b - half, abs(c - a), style.width, brightness)
        elif a == c:
            yield from _box(style, a - half, min(b, d), style.width, abs(d - b), brightness)
        else:
            raise _refuse("a line that is not upright")


def _rectangles(element: ElementTree.Element, style: Style, ground: int) -> Iterator[Rectangle]:
    """Yields what an element draws, in the order in which it is drawn."""
    name = _name(element)
    given = _attributes(element)
    if name in SILENT or given.get("display") == "none":
        return
    style = _styled(given, style)
    if name in ("svg", "g"):
        for child in element:
            yield from _rectangles(child, style, ground)
        return
    if style.visibility in ("hidden", "collapse"):
        return
    fill = _brightness(style.fill, style.fill_alpha, ground)
    stroke = _brightness(style.stroke, style.stroke_alpha, ground)
    if name == "rect":
        if stroke is not None or element.get("rx") or element.get("ry"):
            raise _refuse("a rectangle with a line around it, or with round corners")
        x, y = (_number(element.get(it), 0) for it in "xy")
        if "%" in element.get("width", "") + element.get("height", ""):
            return  # a ground as large as the document
        yield from _box(style, x, y, _number(element.get("width"), 0), _number(element.get("height"), 0), fill)
    elif name == "path":
        for points in _subpaths(element.get("d", "")):
            yield from _filled(style, points, fill)
            yield from _lined(style, points, stroke)
    else:
        raise _refuse(f"an element <{name}>")


def _steps(edges: set[int]) -> tuple[int, int, float]:
    """Returns the first edge, the number of pixels from it to the last, and the steps of a pixel: as many as divide each distance,
    if these make not too many pixels."""
    first, size = min(edges), max(edges) - min(edges)
    step = float(math.gcd(*(it - first for it in edges)))
    if size / step > PIXELS_MAX:
        step = size / PIXELS_MAX
    return first, round(size / step), step


def pixels(document: bytes, ground: int) -> list[bytes]:
    """Returns the rows of an SVG document as pixels, as far as anything is drawn: for each pixel a byte, from 0 for black to 255 for
    white. Rows that are alike are one object. Raises ValueError if it is no such document."""
    try:
        root = ElementTree.fromstring(document)
    except (ElementTree.ParseError, LookupError, ValueError) as fault:  # (an encoding that is not known, or that is not read)
        raise ValueError(f"the SVG document cannot be parsed: {fault}") from None
    if _name(root) != "svg":
        raise ValueError("the document is not SVG")
    try:
        drawn = [Rectangle(*(round(FINE * edge) for edge in it[:4]), it.brightness) for it in _rectangles(root, Style(), ground)]
        drawn = [it for it in drawn if it.left < it.right and it.top < it.bottom]
        if not drawn:
            raise ValueError("the SVG document draws nothing")
        left, width, across = _steps({edge for it in drawn for edge in (it.left, it.right)})
        top, height, down = _steps({edge for it in drawn for edge in (it.top, it.bottom)})
    except (OverflowError, RecursionError):
        raise ValueError("the SVG document has too large a number, or an element within too many others") from None
    rows = [bytearray([ground]) * width for _ in range(height)]
    for it in drawn:
        a, b = round((it.left - left) / across), round((it.right - left) / across)
        line = bytes([it.brightness]) * (b - a)
        for y in range(round((it.top - top) / down), round((it.bottom - top) / down)):
            rows[y][a:b] = line
    alike: dict[bytes, bytes] = {}
    return [alike.setdefault(row, row) for row in map(bytes, rows)]
