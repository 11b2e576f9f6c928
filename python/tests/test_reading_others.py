"""Pictures that segno, qrencode and zint write, read back and mended, where Debian's python3-segno, qrencode and zint are
installed."""
import io
import itertools
import pathlib
import shutil
import subprocess
import tempfile
import unittest

import qrproved
from qrproved import _png
from test_reading import GREY, png_of

try:
    import segno
except ImportError:
    segno = None

SCALES, MARGINS = range(1, 13), range(11)


class Others(unittest.TestCase):
    """Pictures of other programs, at each scale and margin, dark on light and light on dark."""

    def setUp(self):
        folder = tempfile.TemporaryDirectory()
        self.addCleanup(folder.cleanup)
        self.room = pathlib.Path(folder.name)

    def is_read(self, picture, text, case):
        found = qrproved.parse_picture(picture)
        self.assertEqual(len(found), 1, case)
        mended = qrproved.mend(*found[0])
        self.assertEqual((mended.content.data, mended.is_sound), (text, True), case)

    def made_by(self, *words):
        ran = subprocess.run(list(map(str, words)), capture_output=True, timeout=60)
        self.assertEqual((ran.returncode, ran.stderr), (0, b""), words)

    def cases(self):
        """Yields scales, margins, whether light and dark are exchanged, and a text that takes a version of many."""
        for k, (scale, margin, is_inverse) in enumerate(itertools.product(SCALES, MARGINS, (False, True))):
            yield scale, margin, is_inverse, f"{k} {'x' * (k * k % (2000 if k % 30 == 0 else 120))}"

    @unittest.skipUnless(shutil.which("qrencode"), "there is no qrencode")
    def test_qrencode(self):
        for scale, margin, is_inverse, text in self.cases():
            colours = ["--foreground=FFFFFF", "--background=203040"] if is_inverse else []
            for kind in ["PNG32"] if margin == 3 else ["PNG", *(["SVG"] if scale < 3 else [])]:
                path = self.room / "a"
                more = ["--svg-path"] if margin % 3 == 1 else ["--rle"] if margin % 3 == 2 else []
                self.made_by("qrencode", "-t", kind, "-s", scale, "-m", margin, *colours, *(more if kind == "SVG" else []), "-o", path, text)
                self.is_read(path.read_bytes(), text.encode(), (kind, scale, margin, is_inverse))

    @unittest.skipUnless(shutil.which("zint"), "there is no zint")
    def test_zint(self):
        for scale, margin, is_inverse, text in self.cases():
            for suffix in ("png", *(["svg"] if scale < 4 else [])):
                path = self.room / f"a.{suffix}"
                margins, inverse = ["-w", margin, "--vwhitesp", margin], ["-r"] if is_inverse else []
                self.made_by("zint", "-b", 58, "--scale", scale / 2, *margins, *inverse, "-d", text, "-o", path)
                self.is_read(path.read_bytes(), text.encode(), (suffix, scale, margin, is_inverse))

    @unittest.skipUnless(shutil.which("qrencode") and shutil.which("zint"), "there is no qrencode or no zint")
    def test_two_symbols_of_two_programs(self):
        for scale, margin in ((1, 4), (3, 0), (5, 2)):
            one, two = self.room / "one.png", self.room / "two.png"
            self.made_by("qrencode", "-s", scale, "-m", margin, "-v", 3, "-o", one, "one")
            self.made_by("zint", "-b", 58, "--scale", 1.5, "-w", margin, "--vwhitesp", margin, "-d", "two", "-o", two)
            left, right = (_png.pixels(it.read_bytes(), 255) for it in (one, two))
            rows = itertools.zip_longest(left, right, fillvalue=b"")
            pixels = [[[it] for it in a.ljust(len(left[0]), b"\xff") + b"\xff" * 3 + b.ljust(len(right[0]), b"\xff")] for a, b in rows]
            found = qrproved.parse_picture(png_of(pixels, 8, GREY))
            mended = [qrproved.mend(*it) for it in found]
            self.assertEqual(sorted(it.content.text() for it in mended), ["one", "two"], (scale, margin))
            self.assertTrue(all(it.is_sound for it in mended))

    @unittest.skipUnless(segno, "there is no segno")
    def test_segno(self):
        for scale, margin, is_inverse, text in self.cases():
            colours = {"dark": "white", "light": "darkred"} if is_inverse else {"dark": "#123", "light": None} if margin == 5 else {}
            for kind in ("png", *(["svg"] if scale < 4 else [])):
                made = io.BytesIO()
                segno.make(text, micro=False).save(made, kind=kind, scale=scale if kind == "png" else scale / 2, border=margin, **colours)
                self.is_read(made.getvalue(), text.encode(), (kind, scale, margin, is_inverse))


if __name__ == "__main__":
    unittest.main()
