"""Opens pictures as grey pixels, which the library searches for symbols. A picture is a PNG picture or an SVG document, an image of
Pillow, or an array of numpy. Neither package is imported: their objects are known by what they can do."""
from __future__ import annotations

import math
import os
from collections.abc import Iterator
from pathlib import Path
from typing import NamedTuple

from . import _png, _svg

# Light modules without a ground are seen on a dark one, which is tried after the light one.
GROUNDS = (255, 0)
# What a row of an array has for a pixel: grey, grey and alpha, or red, green and blue, perhaps with alpha.
KINDS = {1: _png.GREYS, 2: _png.GREYS_ALPHA, 3: _png.COLOURS, 4: _png.COLOURS_ALPHA}
OF_BOOLS = bytes([0]) + b"\xff" * 255
MODES_OF_MANY_BITS = ("I", "F")  # in Pillow, with I;16 and its like
SVG_SIDE = 2000  # pixels: a smaller drawing is made larger, so that a module has several pixels, but not above this size
SVG_SCALE = 4


class Grey(NamedTuple):
    """A picture in grey: a byte for each pixel, row by row, from 0 for black to 255 for white."""

    pixels: bytes
    width: int
    height: int

    def covered(self, squares: list[tuple[tuple[tuple[float, float], ...], int]]) -> Grey:
        """Returns the picture with some squares covered, each by a brightness. Their corners are given clockwise."""
        pixels = bytearray(self.pixels)
        for corners, brightness in squares:
            for y in range(math.floor(min(y for _, y in corners)), min(self.height, math.ceil(max(y for _, y in corners)))):
                middle = y + 0.5
                crossed = [x0 + (middle - y0) * (x1 - x0) / (y1 - y0)
                           for (x0, y0), (x1, y1) in zip(corners, corners[1:] + corners[:1]) if (y0 <= middle) != (y1 <= middle)]
                if crossed:
                    first, after = math.floor(min(crossed)), min(self.width, math.ceil(max(crossed)))
                    pixels[y * self.width + first:y * self.width + after] = bytes([brightness]) * (after - first)
        return self._replace(pixels=bytes(pixels))


def is_picture(given: object) -> bool:
    """Whether an object is a picture: bytes that begin as a PNG picture or an SVG document does; and by its type a path, an open file, an
    image of Pillow, or an array."""
    if isinstance(given, (str, os.PathLike)) or hasattr(given, "read") or _is_image(given) or _is_array(given):
        return True
    try:
        return _is_file(memoryview(given).tobytes())  # type: ignore[arg-type]
    except TypeError:
        return False


def _is_file(data: bytes) -> bool:
    return data.startswith(_png.SIGNATURE) or data.lstrip(b"\xef\xbb\xbf \t\r\n").startswith(b"<")


def greys_of(picture: object) -> Iterator[Grey]:
    """Yields a picture in grey, on a light ground, and then on a dark one if that is another picture. Raises TypeError for what is no
    picture, ValueError for one that cannot be read, and OSError for a file that cannot."""
    if _is_image(picture):
        return _of_image(picture)
    if _is_array(picture):
        return _of_array(memoryview(picture))  # type: ignore[arg-type]
    data = _data_of(picture)
    if not _is_file(data):
        raise ValueError("the picture is neither a PNG picture nor an SVG document")
    read = _png.pixels if data.startswith(_png.SIGNATURE) else _enlarged
    return _different(_joined(read(data, ground)) for ground in GROUNDS)


def _different(greys: Iterator[Grey]) -> Iterator[Grey]:
    first = next(greys)
    yield first
    yield from (it for it in greys if it != first)


def _joined(rows: list[bytes]) -> Grey:
    return Grey(b"".join(rows), len(rows[0]), len(rows))


def _data_of(picture: object) -> bytes:
    """Returns the bytes of a file, which are given, are in an open file, or are in a file at a path."""
    if isinstance(picture, (str, os.PathLike)):
        return Path(picture).read_bytes()
    given = picture.read() if hasattr(picture, "read") else picture
    try:
        return memoryview(given).tobytes()  # type: ignore[arg-type]
    except TypeError:
        pass
    if given is not picture:
        raise TypeError("an open file of a picture has to be opened in binary mode")
    raise TypeError("a picture is its bytes, the path of its file, an open file, an image of Pillow or an array of numpy,"
                    f" and not of type {type(picture).__name__}")


def _enlarged(document: bytes, ground: int) -> list[bytes]:
    """Returns the rows of an SVG document, which has one pixel for a module if it is as most programs write it."""
    rows = _svg.pixels(document, ground)
    scale = max(1, min(SVG_SCALE, SVG_SIDE // max(len(rows), len(rows[0]))))
    wide: dict[int, bytes] = {}  # (rows that are alike are one object)
    for row in rows:
        if id(row) not in wide:
            made = bytearray(scale * len(row))
            for k in range(scale):
                made[k::scale] = row
            wide[id(row)] = bytes(made)
    return [wide[id(row)] for row in rows for _ in range(scale)]


def _is_image(picture: object) -> bool:
    """Whether an object is an image of Pillow."""
    return all(hasattr(picture, it) for it in ("mode", "size", "convert", "tobytes"))


def _of_image(image) -> Iterator[Grey]:  # noqa: ANN001 (a class that is not imported)
    if image.mode.split(";")[0] in MODES_OF_MANY_BITS:
        raise ValueError(f"the image has the mode {image.mode}, whose pixels are no bytes: convert it to L")
    width, height = image.size
    if image.mode[-1] in "Aa" or "transparency" in image.info:
        return _of_channels(image.convert("RGBA").tobytes(), width, height, 4)
    return iter([Grey(image.convert("L").tobytes(), width, height)])


def _is_array(picture: object) -> bool:
    """Whether an object is a table of numbers, as an array of numpy with at least two dimensions is."""
    try:
        return memoryview(picture).ndim > 1  # type: ignore[arg-type]
    except (TypeError, ValueError):  # (ValueError: numbers of a kind that no buffer has)
        return False


def _of_array(view: memoryview) -> Iterator[Grey]:
    height, width, *rest = view.shape  # type: ignore[misc]
    channels = rest[0] if rest else 1
    if view.format not in ("B", "?") or len(rest) > 1 or channels not in KINDS:
        raise ValueError("an array of a picture has bytes from 0 to 255: rows of grey, or rows of two, three or four channels (grey and"
                         f" alpha, RGB or RGBA), and not the shape {view.shape} of the format {view.format!r}")
    data = view.tobytes()
    return _of_channels(data.translate(OF_BOOLS) if view.format == "?" else data, width, height, channels)


def _of_channels(data: bytes, width: int, height: int, channels: int) -> Iterator[Grey]:
    count = width * height
    return _different(Grey(_png.brightness(data, count, KINDS[channels], ground), width, height) for ground in GROUNDS)
