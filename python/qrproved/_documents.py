"""The pages of documents, as pixels: of PDF by pdftoppm of Poppler, and of TIFF by Pillow, if these are installed."""
from __future__ import annotations

import io
import shutil
import subprocess
import tempfile
from collections.abc import Iterator
from typing import BinaryIO, Optional

from ._pictures import Grey

PDF, TIFF = b"%PDF-", (b"II*\0", b"MM\0*", b"II+\0", b"MM\0+")
DPI = 300  # pixels of an inch of a page: at least 2.2 for modules of 0.19 mm


def pages_of(data: bytes) -> Optional[Iterator[Grey]]:
    """Returns the pages of a document in grey; None for any other file. Raises ValueError if the program for it is not installed, or cannot
    read it."""
    if data.startswith(PDF):
        program = shutil.which("pdftoppm")
        if program is None:
            raise ValueError("PDF is read by the program pdftoppm, which is not installed (it is in Debian's poppler-utils)")
        return _of_pdf(data, program)
    if data.startswith(TIFF):
        try:
            from PIL import Image
        except ImportError:
            raise ValueError("TIFF is read by the package Pillow, which is not installed (it is Debian's python3-pil)") from None
        return _of_tiff(data, Image)
    return None


def _of_pdf(data: bytes, program: str) -> Iterator[Grey]:
    with tempfile.TemporaryFile() as file:
        file.write(data)
        file.seek(0)
        call = [program, "-q", "-r", str(DPI), "-gray", "-aa", "no", "-aaVector", "no", "-"]
        with subprocess.Popen(call, stdin=file, stdout=subprocess.PIPE, stderr=subprocess.DEVNULL) as running:
            page = _next_picture(running.stdout)
            while page is not None:
                yield page
                page = _next_picture(running.stdout)
        if running.returncode:
            raise ValueError("pdftoppm cannot read the PDF document")


def _next_picture(file: BinaryIO) -> Optional[Grey]:
    """Returns a picture in grey (PGM), or None at the end."""
    kind, size, most = (file.readline() for _ in range(3))
    if not most:
        return None
    width, height = map(int, size.split())
    if (kind, most) != (b"P5\n", b"255\n"):
        raise ValueError("pdftoppm writes pictures of another kind")
    return Grey(file.read(width * height), width, height)


def _of_tiff(data: bytes, image) -> Iterator[Grey]:  # noqa: ANN001 (a module)
    try:
        with image.open(io.BytesIO(data)) as document:
            for number in range(getattr(document, "n_frames", 1)):
                document.seek(number)
                page = document.convert("L")
                yield Grey(page.tobytes(), page.width, page.height)
    except (OSError, SyntaxError, EOFError, image.DecompressionBombError) as fault:
        raise ValueError(f"Pillow cannot read the TIFF picture: {fault}") from None
