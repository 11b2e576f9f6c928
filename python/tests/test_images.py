"""Images of symbols, read by programs that share no code with the library: Pillow, and the interpreters of tests/lib/printers.py."""
import io
import os
import pathlib
import re
import sys
import tempfile
import unittest
import warnings
import zlib

sys.path.append(str(pathlib.Path(__file__).resolve().parents[2] / "tests" / "lib"))
import printers
import qrproved
from qrproved import PrintWarning, RoomError, SettingsError, Symbol, _png

try:
    from PIL import Image
except ImportError:
    Image = None


def raster_of(symbol, scale, margin):
    """Returns the lines of pixels of a symbol, each as a string in which '1' is black."""
    edge = ["0" * (symbol.side + 2 * margin)] * margin
    light = "0" * margin
    rows = edge + [light + "".join("1" if it else "0" for it in row) + light for row in symbol.rows()] + edge
    return ["".join(module * scale for module in row) for row in rows for _ in range(scale)]


def bits_of(lines):
    """Returns lines of bytes as strings of pixels."""
    return ["".join(f"{byte:08b}" for byte in line) for line in lines]


def printed(data):
    """Returns the lines that commands of ESC/POS print."""
    return bits_of(printers.escpos(data))


def of_graphic(graphic):
    """Returns the place and the lines of a picture."""
    return graphic[:2], bits_of(graphic.lines)


def shown(line, width):
    """Returns the pixels of a line; those after them, which fill its last byte, are white."""
    assert len(line) - width < 8 and "1" not in line[width:]
    return line[:width]


def chunks_of(file):
    """Returns the chunks of a PNG file. Each has to have its checksum."""
    at, found = 8, []
    while at < len(file):
        end = at + 8 + int.from_bytes(file[at:at + 4], "big")
        assert zlib.crc32(file[at + 4:end]) == int.from_bytes(file[end:end + 4], "big")
        found.append((file[at + 4:at + 8].decode(), file[at + 8:end]))
        at = end + 4
    return found


class Images(unittest.TestCase):
    def setUp(self):
        warnings.simplefilter("ignore", PrintWarning)
        self.addCleanup(warnings.resetwarnings)

    def test_png(self):
        for version, scale, margin in ((1, 1, 0), (2, 3, 4), (7, 4, 4), (40, 1, 4), (1, 100, 1)):
            symbol = qrproved.encode("Shelf 12", version=version)
            (*rows,) = _png.pixels(symbol.png(scale=scale, margin=margin), 255)
            wanted = [bytes(0 if it == "1" else 255 for it in line) for line in raster_of(symbol, scale, margin)]
            self.assertEqual([bytes(row) for row in rows], wanted, (version, scale, margin))

    @unittest.skipIf(Image is None, "there is no Pillow")
    def test_png_and_pbm_by_pillow(self):
        symbol = qrproved.encode("Shelf 12", version=3)
        wanted = "".join(raster_of(symbol, 3, 2))
        for file in (symbol.png(scale=3, margin=2), symbol.pbm(scale=3, margin=2)):
            with Image.open(io.BytesIO(file)) as picture:
                self.assertEqual("".join("0" if it else "1" for it in picture.convert("L").getdata()), wanted)
        with Image.open(io.BytesIO(symbol.png(dpi=300))) as picture:
            self.assertEqual(tuple(map(round, picture.info["dpi"])), (300, 300))

    def test_printers(self):
        for version, scale, margin in ((1, 4, 4), (5, 3, 1), (40, 2, 0), (1, 33, 4)):
            symbol = qrproved.encode("Shelf 12", version=version)
            wanted, width = raster_of(symbol, scale, margin), scale * (symbol.side + 2 * margin)
            none, (bitmap,) = printers.tspl(symbol.tspl(scale=scale, margin=margin, x=12, y=345))
            ((graphic,),) = printers.zpl(symbol.zpl(scale=scale, margin=margin, x=12, y=345))
            self.assertEqual(none, [])
            for place, lines in (of_graphic(bitmap), of_graphic(graphic)):
                self.assertEqual((place, [shown(line, width) for line in lines]), ((12, 345), wanted))
            self.assertEqual([shown(line, width) for line in printed(symbol.escpos(scale=scale, margin=margin))], wanted)

    def test_documents(self):
        symbol = qrproved.encode("Shelf 12")
        # 29 modules of 1 mm are 29 * 72 / 25.4 points wide
        self.assertIn(b"/MediaBox[0 0 82.204724 82.204724]", symbol.pdf())
        self.assertIn(b"%%BoundingBox: 0 0 83 83\n", symbol.eps())
        self.assertIn(b"%%HiResBoundingBox: 0 0 41.102362 41.102362\n", symbol.eps(mm=14.5))
        series = qrproved.encode_series("Shelf 12" * 9, version=2)
        pages = qrproved.document(series)
        self.assertEqual((pages[:9], pages.count(b"/Type/Page/"), pages[-6:]), (b"%PDF-1.4\n", len(series), b"%%EOF\n"))
        dark = sum(it.modules.count(1) for it in series)
        rows = re.findall(rb"\d+ \d+ (\d+) 1 re\n", pages)
        self.assertEqual(sum(map(int, rows)), dark)
        sized = qrproved.document(series, kind="svg", mm=33)
        self.assertIn(f'width="33.000mm" height="{33 * len(series)}.000mm"'.encode(), sized)
        self.assertEqual(qrproved.parse_drawing(sized), [(it.modules, 25) for it in series])
        for wrong in ({"mm": 0}, {"mm": 0.01}, {"mm": 100000.0}, {"margin": 101}, {"kind": "png"}):
            with self.assertRaises(SettingsError, msg=wrong):
                qrproved.document(symbol, **wrong)
        with self.assertRaises(SettingsError):
            qrproved.document([symbol, qrproved.encode("A", version=2)])
        with self.assertRaises(TypeError):
            symbol.save(io.BytesIO(), kind="pdf", dpi=300)

    def test_sheets(self):
        few = [qrproved.encode(f"Shelf {k}", version=2) for k in range(7)]
        sheet = qrproved.Sheet(210, 297, columns=3, rows=2, left=7, top=15, across=66, down=140, first=4)
        file = qrproved.sheets(few, sheet, mm=33)
        # 210 and 297 mm are 595.275590 and 841.889763 points
        self.assertEqual(file.count(b"/MediaBox[0 0 595.275590 841.889763]"), 2)
        # 33 modules of 1 mm. The fifth place is 7 + 66 mm from the left and 297 - 15 - 140 - 33 from the lower edge
        self.assertIn(b"stream\nq 2.834645 0 0 2.834645 206.929133 308.976377 cm\n", file)
        self.assertEqual(sum(map(int, re.findall(rb"\d+ \d+ (\d+) 1 re\n", file))), sum(it.modules.count(1) for it in few))
        # without a width the symbols are as wide as their places, which are 66 mm wide: 33 modules of 2 mm
        self.assertEqual(qrproved.sheets(few, sheet), qrproved.sheets(few, sheet, mm=66))
        self.assertEqual(qrproved.sheets(few[0], sheet), qrproved.sheets(few[:1], sheet))
        for wrong in ({"mm": 66.1}, {"mm": 0}, {"margin": 101}):
            with self.assertRaises(SettingsError, msg=wrong):
                qrproved.sheets(few, sheet, **wrong)
        for wrong in ({"width": 171.999}, {"height": 187.999}, {"across": 32.999}, {"columns": 0}, {"rows": 101}, {"first": 6}, {"left": -1}, {"width": 2000.001}):
            with self.assertRaises(SettingsError, msg=wrong):
                qrproved.sheets(few, sheet._replace(**wrong), mm=33)
        for wrong in ([], [few[0], qrproved.encode("A")]):
            with self.assertRaises(SettingsError):
                qrproved.sheets(wrong, sheet)
        for wrong in ({"columns": 1.5}, {"width": "210"}, {"left": True}):
            with self.assertRaises(TypeError, msg=wrong):
                qrproved.sheets(few, sheet._replace(**wrong))

    def test_labels(self):
        few = [qrproved.encode("Shelf 12"), qrproved.encode("Shelf 13", version=5), qrproved.encode("Shelf 14")]
        sizes = {"scale": 3, "margin": 2, "x": 12, "y": 345}
        self.assertEqual(qrproved.labels(few, **sizes), b"".join(it.zpl(**sizes) for it in few))
        self.assertEqual(qrproved.labels(few[0], kind="zpl"), few[0].zpl())
        self.assertEqual(qrproved.labels(few, kind="tspl", **sizes), b"".join(b"CLS\r\n" + it.tspl(**sizes) + b"PRINT 1,1\r\n" for it in few))
        self.assertEqual(qrproved.labels((it for it in few), kind="escpos", mm=20), b"".join(it.escpos(mm=20) for it in few))
        self.assertEqual(qrproved.labels([]), b"")
        # a label for each, and no symbol that waits to be printed
        (labels, waiting), of_zpl = printers.tspl(qrproved.labels(few, kind="tspl", **sizes)), printers.zpl(qrproved.labels(few, **sizes))
        self.assertEqual((len(labels), labels), (len(few), of_zpl))
        self.assertEqual((printers.tspl(qrproved.labels([], kind="tspl")), waiting), (([], []), labels[-1]))
        # what is printed is one symbol below the other
        wanted = [line for it in few for line in raster_of(it, 4, 4)]
        lines = printed(qrproved.labels(few, kind="escpos", margin=4))
        self.assertEqual([shown(line, len(it)) for line, it in zip(lines, wanted)], wanted)
        for wrong, fault in (({"kind": "png"}, SettingsError), ({"kind": "escpos", "x": 3}, TypeError), ({"mm": 3}, SettingsError),
                             ({"mm": 20, "scale": 3}, TypeError), ({"border": 3}, TypeError)):
            with self.assertRaises(fault, msg=wrong):
                qrproved.labels(few, **wrong)
        with self.assertRaisesRegex(TypeError, "kind, scale, margin, mm, dpi, x, y and fit_mm are given by name"):
            qrproved.labels(few, "zpl")
        with warnings.catch_warnings(record=True) as said:
            warnings.simplefilter("always")
            qrproved.labels(few, mm=9.3)  # modules of two dots, and of one
        self.assertEqual([str(it.message) for it in said], ["modules of 0.125 mm: under 0.25 mm few scanners read them"])
        self.assertEqual(said[0].filename, __file__)

    def test_printed_size(self):
        symbol = qrproved.encode("Shelf 12")
        self.assertEqual(symbol.printed_size(mm=25.4, dpi=290), (10, 25.4))
        dots, width = symbol.printed_size(mm=20)
        self.assertEqual((dots, round(width, 3)), (5, 18.143))
        self.assertEqual(symbol.tspl(mm=20), symbol.tspl(scale=5))
        # 29 modules of 4 dots are 14.514, 9.821 and 4.911 mm wide at 203, 300 and 600 dots an inch, and those of one dot more wider
        for dpi, widest, wider in ((203, 14.515, 18.142), (300, 9.822, 12.276), (600, 4.911, 6.138)):
            self.assertEqual((symbol.printed_size(mm=widest, dpi=dpi)[0], symbol.printed_size(mm=wider, dpi=dpi)[0]), (4, 4), dpi)
            self.assertEqual(symbol.printed_size(mm=wider + 0.001, dpi=dpi)[0], 5, dpi)
        self.assertEqual(symbol.escpos(mm=1000, dpi=600), symbol.escpos(scale=100))
        with self.assertRaisesRegex(SettingsError, "29 modules of one dot are 3.63 mm wide, and not 3"):
            symbol.escpos(mm=3)
        with self.assertRaises(TypeError):
            symbol.tspl(mm=20, scale=4)

    def test_colours(self):
        symbol = qrproved.encode("Shelf 12")
        plain = symbol.svg().decode()
        self.assertEqual(symbol.svg(dark="#000", light="WHITE").decode(), plain)
        self.assertEqual(symbol.svg(dark="Navy", light="#FfE").decode(), plain.replace("#000000", "#000080").replace("#ffffff", "#ffffee"))
        clear = re.sub("<rect[^>]*>\n", "", plain)
        self.assertEqual(symbol.svg(light=None).decode(), clear)
        self.assertEqual(symbol.svg(dark="#fff", light="#000", inverse=True).decode(),
                         plain.replace("#ffffff", "#x").replace("#000000", "#ffffff").replace("#x", "#000000"))
        self.assertEqual(symbol.svg(dark="yellow", light=None, inverse=True, inline=True).decode(), clear.replace("#000000", "#ffff00").split("\n", 1)[1])
        titled = plain.replace(' shape-rendering="crispEdges">', ' shape-rendering="crispEdges" class="a &quot;b&quot;" role="img">\n<title>A &amp; &lt;B&gt; \U0001f600</title>')
        self.assertEqual(symbol.svg(title="A & <B> \U0001f600", class_name='a "b"').decode(), titled)
        self.assertEqual(symbol.svg(mm=29, title="A").decode(), symbol.svg(mm=29).decode().replace('crispEdges">', 'crispEdges" role="img">\n<title>A</title>'))
        for named in ({"dark": "navy", "light": "#ffe", "title": "A"}, {"light": None, "mm": 20}, {"dark": "yellow", "light": "black", "inverse": True}, {"caption": "A", "mm": 20}):
            self.assertEqual(qrproved.parse_picture(symbol.svg(**named)), [(symbol.modules, symbol.side)], named)
        below = '<text x="14.5" y="31.75" font-family="sans-serif" font-size="3.00" text-anchor="middle" fill="#000000">A &amp; $1</text>\n</svg>'
        self.assertEqual(symbol.svg(caption="A & $1").decode(),
                         plain.replace('viewBox="0 0 29 29"', 'viewBox="0 0 29 33"').replace('height="29"', 'height="33"').replace("</svg>", below))
        self.assertRegex(symbol.svg(caption="x" * 29, mm=29).decode(), '(?s) width="29\\.000mm" height="33\\.000mm" viewBox="0 0 29 33" .* font-size="1\\.66"')
        # WCAG 2.1: #949494 on white has a contrast of 3.03, and #959595 one of 2.99
        symbol.svg(dark="#949494")
        for wrong in ({"dark": "#959595"}, {"light": "#123456"}, {"dark": "#fff", "light": "#000"}, {"inverse": True}, {"dark": "yellow", "light": None},
                      {"light": None, "inverse": True}, {"dark": "#12"}, {"dark": "rebeccapurple"}, {"title": "a\x01"}, {"class_name": "\ud800"}):
            with self.assertRaises(SettingsError, msg=wrong):
                symbol.svg(**wrong)
        for wrong in ({"dark": None}, {"dark": 0}, {"inverse": 1}, {"title": 3}, {"caption": b"A"}, {"class_name": b"a"}, {"class": "a"}):
            with self.assertRaises(TypeError, msg=wrong):
                symbol.svg(**wrong)

    def test_colours_of_png_and_pdf(self):
        symbol = qrproved.encode("Shelf 12")
        self.assertEqual(symbol.png(dark="#000", light="WHITE"), symbol.png())
        self.assertEqual(symbol.pdf(dark="#000", light="WHITE"), symbol.pdf())
        plain, navy = chunks_of(symbol.png(mm=20)), chunks_of(symbol.png(mm=20, dark="navy", light="#FfE"))
        self.assertEqual(navy, [("IHDR", plain[0][1][:9] + b"\3\0\0\0"), plain[1], ("PLTE", bytes([0, 0, 128, 255, 255, 238])), *plain[2:]])
        clear = chunks_of(symbol.png(mm=20, light=None))
        self.assertEqual(clear[2:4], [("PLTE", bytes(3) + b"\xff\xff\xff"), ("tRNS", b"\xff\0")])
        for named in ({"dark": "navy", "light": "#ffe"}, {"light": None}, {"dark": "yellow", "light": "black", "inverse": True}):
            self.assertEqual(qrproved.parse_picture(symbol.png(**named)), [(symbol.modules, symbol.side)], named)
            self.assertEqual(len(symbol.png(**named)), len(symbol.png()) + (32 if named.get("light", "") is None else 18))
        ground, dark = b"1.000 1.000 0.933 rg 0 0 29 29 re f\n", b"0.000 0.000 0.502 rg\n"
        self.assertIn(ground + dark, symbol.pdf(dark="navy", light="#ffe"))
        self.assertNotIn(b" 29 29 re", symbol.pdf(dark="navy", light=None))
        self.assertIn(b" cm\n" + dark, symbol.pdf(dark="navy", light=None))
        for kind in ("png", "pdf", "svg"):
            saved = io.BytesIO()
            symbol.save(saved, kind=kind, mm=20, dark="navy", light=None)
            self.assertEqual(saved.getvalue(), getattr(symbol, kind)(mm=20, dark="navy", light=None))
        for kind in ("eps", "txt", "zpl", "pbm"):
            with self.assertRaisesRegex(TypeError, "PNG, SVG and PDF have colours"):
                symbol.save(io.BytesIO(), kind=kind, dark="navy")
        for kind in ("png", "pdf"):
            for wrong in ({"dark": "#959595"}, {"dark": "#fff", "light": "#000"}, {"inverse": True}, {"dark": "rebeccapurple"}):
                with self.assertRaises(SettingsError, msg=wrong):
                    getattr(symbol, kind)(**wrong)

    def test_whole_dots(self):
        symbol = qrproved.encode("Shelf 12")
        # 20 mm have 159.8 dots of 203 an inch, and so 5 for each of 29 modules
        self.assertEqual(symbol.png(fit_mm=20), symbol.png(scale=5, dpi=203))
        self.assertEqual(symbol.png(fit_mm=12, dpi=600), symbol.png(scale=9, dpi=600))
        self.assertEqual(symbol.pbm(fit_mm=20, dpi=203), symbol.pbm(scale=5))
        for kind in ("zpl", "tspl", "escpos"):
            self.assertEqual(getattr(symbol, kind)(fit_mm=20, dpi=300), getattr(symbol, kind)(scale=8))
        self.assertEqual(qrproved.labels([symbol], fit_mm=20), symbol.zpl(scale=5))
        for kind, file in (("png", symbol.png(scale=5, dpi=203)), ("pbm", symbol.pbm(scale=5)), ("bin", symbol.escpos(scale=5))):
            saved = io.BytesIO()
            symbol.save(saved, kind=kind, fit_mm=20, dpi=203)
            self.assertEqual(saved.getvalue(), file, kind)
        for kind, wrong in (("png", {"scale": 4}), ("png", {"mm": 20}), ("zpl", {"scale": 4}), ("tspl", {"mm": 20}), ("pbm", {"scale": 4})):
            with self.assertRaisesRegex(TypeError, "and (fit_mm|mm) both say how large the symbol is"):
                getattr(symbol, kind)(fit_mm=20, **wrong)
        for kind in ("svg", "pdf", "eps", "txt"):
            with self.assertRaisesRegex(TypeError, "whole dots of a printer"):
                symbol.save(io.BytesIO(), kind=kind, fit_mm=20)
        for wrong in ({"dpi": 203}, {"mm": 20}):
            with self.assertRaises(TypeError):
                symbol.save(io.BytesIO(), kind="pbm", **wrong)
        with self.assertRaisesRegex(SettingsError, "29 modules of one dot are 3.63 mm wide, and not 3"):
            symbol.png(fit_mm=3)
        with self.assertRaisesRegex(SettingsError, "fit_mm is more than 0"):
            symbol.png(fit_mm=0)
        with warnings.catch_warnings(record=True) as said:
            warnings.simplefilter("always")
            symbol.pbm(fit_mm=4)
        self.assertEqual([str(it.message) for it in said], ["modules of 0.125 mm: under 0.25 mm few scanners read them"])

    def test_warnings(self):
        symbol = qrproved.encode("Shelf 12")
        for options, faults in (({}, 0), ({"scale": 1}, 1), ({"scale": 4, "dpi": 600}, 1), ({"scale": 8, "dpi": 600}, 0), ({"margin": 3}, 1)):
            with warnings.catch_warnings(record=True) as said:
                warnings.simplefilter("always")
                symbol.escpos(**options)
            self.assertEqual(len(said), faults, options)

    def test_settings(self):
        symbol = qrproved.encode("Shelf 12")
        for wrong in ({"scale": 0}, {"scale": 101}, {"margin": 101}, {"dpi": 0}, {"x": -1}, {"y": 32001}):
            with self.assertRaises(SettingsError, msg=wrong):
                symbol.tspl(**wrong)
        with self.assertRaises(RoomError):
            Symbol(1, 21, None, bytes(440)).pbm()
        with self.assertRaises(SettingsError):
            Symbol(1, 256 + 21, None, bytes(100000)).pbm()

    def test_save(self):
        symbol = qrproved.encode("Shelf 12")
        with tempfile.TemporaryDirectory() as room:
            wanted = {"a.png": symbol.png(), "a.pbm": symbol.pbm(), "a.tspl": symbol.tspl(), "a.zpl": symbol.zpl(), "a.bin": symbol.escpos(),
                      "a.pdf": symbol.pdf(), "a.eps": symbol.eps()}
            for name, file in wanted.items():
                symbol.save(os.path.join(room, name))
                with open(os.path.join(room, name), "rb") as it:
                    self.assertEqual(it.read(), file, name)
            symbol.save(os.path.join(room, "b"), kind="tspl", mm=20, x=3, y=4)
            with open(os.path.join(room, "b"), "rb") as it:
                self.assertEqual(it.read(), symbol.tspl(mm=20, x=3, y=4))
            for wrong in ({"kind": "png", "x": 3}, {"kind": "pbm", "mm": 20}, {"kind": "escpos", "y": 3}):
                with self.assertRaises(TypeError, msg=wrong):
                    symbol.save(os.path.join(room, "c"), **wrong)


if __name__ == "__main__":
    unittest.main()
