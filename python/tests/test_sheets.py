"""Sheets of label paper with captions: where Poppler finds the symbols and the captions on the paper, what zbar reads of it, and what the
command says. Positions are worked out from the sizes that the makers print on the paper."""
import csv
import os
import pathlib
import re
import shutil
import subprocess
import sys
import tempfile
import unittest

import qrproved
from qrproved import SettingsError, Sheet, _papers
from test_command import run

POPPLER = shutil.which("pdftoppm") and shutil.which("pdftotext")
PIXELS = 10  # of a millimetre at 254 dots an inch
POINTS = 72 / 25.4  # of a millimetre


def words(*call):
    return subprocess.run(list(map(str, call)), capture_output=True, check=True, timeout=120).stdout


class Sheets(unittest.TestCase):
    def setUp(self):
        folder = tempfile.TemporaryDirectory()
        self.addCleanup(folder.cleanup)
        self.room = pathlib.Path(folder.name)

    def put(self, name, data):
        path = self.room / name
        path.write_bytes(data if isinstance(data, bytes) else data.encode())
        return path

    def pictures_of(self, document):
        """Returns the pages as their widths and rows of brightnesses, ten to a millimetre."""
        words("pdftoppm", "-r", 254, "-gray", "-aa", "no", "-aaVector", "no", self.put("page.pdf", document), self.room / "page")
        found = []
        for path in sorted(self.room.glob("page-*.pgm")):
            head, size, most, pixels = path.read_bytes().split(b"\n", 3)
            width, height = map(int, size.split())
            self.assertEqual((head, most, len(pixels)), (b"P5", b"255", width * height))
            found.append([pixels[k * width:(k + 1) * width] for k in range(height)])
            path.unlink()
        return found

    def dark_in(self, rows, left, top, wide, high):
        """Returns where dark pixels begin and end in a rectangle, as the left, the upper, the right and the lower end in millimetres, or None."""
        pixels = [round(PIXELS * it) for it in (left, top, left + wide, top + high)]
        cut = [row[pixels[0]:pixels[2]] for row in rows[pixels[1]:pixels[3]]]
        dark = [k for k, row in enumerate(cut) if min(row) < 128]
        columns = [k for k, column in enumerate(zip(*cut)) if min(column) < 128]
        if not dark:
            return None
        return left + columns[0] / PIXELS, top + dark[0] / PIXELS, left + (columns[-1] + 1) / PIXELS, top + (dark[-1] + 1) / PIXELS

    def lines_in(self, document):
        """Returns the lines of the text of each page, each with its ends in millimetres: on the left, above, on the right and below."""
        text = words("pdftotext", "-bbox-layout", self.put("page.pdf", document), "-").decode()
        pages = re.findall(r"<page .*?</page>", text, re.DOTALL)
        found = []
        for page in pages:
            lines = re.findall(r'<line xMin="(.*?)" yMin="(.*?)" xMax="(.*?)" yMax="(.*?)">(.*?)</line>', page, re.DOTALL)
            its = [(" ".join(re.findall(r">([^<]*)</word>", it[4])), *(float(place) / POINTS for place in it[:4])) for it in lines]
            found.append(sorted(its, key=lambda it: (round(it[2]), it[1])))
        return found

    def assertNear(self, found, wanted, message, most=0.11):  # noqa: N802 (as the names of unittest)
        self.assertIsNotNone(found, message)
        self.assertTrue(all(abs(one - other) <= most for one, other in zip(found, wanted)), (message, found, wanted))

    def test_papers_by_their_names(self):
        # what the makers print: left and upper margin, and from a label to the next one, in inches of 25.4 mm or in mm
        printed = {"Avery 5160": (0.1875, 0.5, 2.75, 1), "5163": (0.15625, 0.5, 4.1875, 2), "avery-5167": (0.28125, 0.5, 2.0625, 0.5)}
        for name, inches in printed.items():
            it = qrproved.paper(name)
            self.assertNear((it.left, it.top, it.across, it.down), [25.4 * inch for inch in inches], name, 0.002)
        it = qrproved.paper("l7160", first=20)
        self.assertEqual(it, Sheet(210, 297, 3, 7, 7.21, 15.15, 66.04, 38.1, 20, 63.5, 38.1))
        self.assertEqual(qrproved.paper("HERMA 4677"), it._replace(first=0))
        keys = [re.sub("[^a-z0-9]", "", name.lower()) for name in qrproved.PAPERS]
        self.assertEqual(len(set(keys)), len(keys))
        for name in qrproved.PAPERS:
            it = qrproved.paper(name)
            for length, before, count, step, label in ((it.width, it.left, it.columns, it.across, it.label_width), (it.height, it.top, it.rows, it.down, it.label_height)):
                after = length - before - (count - 1) * step - label
                self.assertTrue(0 <= before <= 25 and abs(after - before) < 0.0021 and step >= label, (name, before, after))
        for wrong in ("L7", "", "Avery", "4677 Herma"):
            with self.assertRaisesRegex(SettingsError, "there is no label paper .*Avery L7160"):
                qrproved.paper(wrong)
        with self.assertRaises(TypeError):
            qrproved.paper(7160)
        with self.assertRaises(TypeError):
            qrproved.paper("l7160", start=3)

    @unittest.skipUnless(POPPLER, "there is no Poppler")
    def test_widths_of_letters(self):
        letters = [it for it in bytes(range(0x21, 0x100)).decode("cp1252", "ignore") if it not in "\x7f\xa0\xad"]
        self.assertEqual(len(letters), 215)
        paper, symbol = Sheet(210, 297, 4, 25, across=52.5, down=11.88), qrproved.encode("A")
        found = [it for page in self.lines_in(qrproved.sheets([symbol] * 215, paper, mm=5, captions=[10 * it for it in letters])) for it in page]
        of_poppler = {text[0]: right - left for text, left, _, right, _ in (it for it in found)}
        escaped = {"&": "&", "<": "<", ">": ">", '"': '"'}
        self.assertGreaterEqual(len(of_poppler), 210)
        for letter, width in of_poppler.items():
            wanted = 10 * _papers.WIDTHS[escaped.get(letter, letter)] / 1000 * 8 / POINTS
            if letter != "&":  # which stands for the letters that XML writes by a name
                self.assertAlmostEqual(width, wanted, 1, letter)

    @unittest.skipUnless(POPPLER, "there is no Poppler")
    def test_places_on_the_paper(self):
        symbols = [qrproved.encode(f"Shelf {k}", version=2) for k in range(25)]
        captions = [f"Größe {k} €" if k % 5 else "" for k in range(25)]
        document = qrproved.sheets(symbols, qrproved.paper("Avery L7160", first=20), captions=captions)
        pages, lines = self.pictures_of(document), self.lines_in(document)
        self.assertEqual(([len(it) for it in pages], len(lines)), ([2970, 2970, 2970], 3))
        # A label is 63.5 mm wide and 38.1 mm high; 1 mm of it above and below and a line of 9.6 points leave 32.713 mm for 33 modules
        module = 0.991
        size, line = 33 * module, 9.6 * 25.4 / 72
        for k in range(25):
            page, place = divmod(20 + k, 21)
            left, top = 7.21 + 66.04 * (place % 3), 15.15 + 38.1 * (place // 3)
            x, y = left + (63.5 - size) / 2, top + (38.1 - size - line) / 2
            wanted = [x + 4 * module, y + 4 * module, x + 29 * module, y + 29 * module]
            self.assertNear(self.dark_in(pages[page], left, top, 63.5, y + size - top), wanted, k)
            its = [it for it in lines[page] if left < it[1] < left + 63.5 and top < it[2] < top + 38.1]
            self.assertEqual([it[0] for it in its], [captions[k]] if captions[k] else [], k)
            if its:
                _, start, above, end, below = its[0]
                self.assertNear([(start + end) / 2], [left + 63.5 / 2], k)
                self.assertTrue(above > y + size - 0.2 and below < top + 38.1 - 0.5, (k, its))
        self.assertIsNone(self.dark_in(pages[0], 0, 0, 210, 15.15 + 38.1 * 6))
        self.assertIsNone(self.dark_in(pages[0], 0, 15.15 + 38.1 * 6, 7.21 + 66.04 * 2, 38.1))
        self.assertIsNone(self.dark_in(pages[2], 0, 15.15 + 38.1 * 2, 210, 200))

    @unittest.skipUnless(POPPLER and shutil.which("zbarimg"), "there is no Poppler or no zbar")
    def test_zbar_reads_each_label(self):
        texts = [f"https://www.example.org/item/{k:08}" for k in range(70)]
        symbols = [qrproved.encode(it, version=4) for it in texts]
        # the columns and rows of a sheet, the width and the height of a label, and from a label to the next one in mm
        for name, (columns, rows, wide, high, across, down, left, top) in {"Avery L7651": (5, 13, 38.1, 21.2, 40.64, 21.2, 4.67, 10.7),
                                                                           "Avery 5160": (3, 10, 66.675, 25.4, 69.85, 25.4, 4.7625, 12.7)}.items():
            pages = self.pictures_of(qrproved.sheets(symbols, qrproved.paper(name), captions=[it[-8:] for it in texts]))
            paths = []
            for k in range(70):
                page, place = divmod(k, columns * rows)
                x, y = left + across * (place % columns), top + down * (place // columns)
                cut = [row[round(PIXELS * x):round(PIXELS * (x + wide))] for row in pages[page][round(PIXELS * y):round(PIXELS * (y + high))]]
                paths.append(self.put(f"label{k:02}.pgm", b"P5\n%d %d\n255\n" % (len(cut[0]), len(cut)) + b"".join(cut)))
            read = words("zbarimg", "-q", "--raw", "-Sdisable", "-Sqrcode.enable", *paths).decode().split()
            self.assertEqual(read, texts, name)

    @unittest.skipUnless(shutil.which("gs"), "there is no Ghostscript")
    def test_ghostscript_draws_them(self):
        document = qrproved.sheets([qrproved.encode("A")] * 5, qrproved.paper("5160", first=28), captions=["(a) \\ b"] * 5)
        said = subprocess.run(["gs", "-q", "-dNOPAUSE", "-dBATCH", "-dPDFSTOPONERROR", "-sDEVICE=txtwrite", "-o", "-", str(self.put("a.pdf", document))],
                              capture_output=True, text=True, timeout=120)
        self.assertEqual((said.returncode, said.stdout.split(), said.stderr), (0, 5 * ["(a)", "\\", "b"], ""))

    def test_the_document_of_the_library_stays_as_it_is(self):
        symbols, paper = [qrproved.encode(f"Shelf {k}", version=1) for k in range(3)], Sheet(100, 100, 2, 2, across=50, down=50, label_width=48, label_height=50)
        document = qrproved.sheets(symbols, paper, mm=29, captions=["a", "", "b b"])
        # 29 modules of 1 mm: 48 - 29 and 50 - 29 - 3.387 mm are left over
        middle = Sheet(100, 100, 2, 2, left=9.5, top=8.806, across=50, down=50)
        self.assertTrue(document.startswith(qrproved.sheets(symbols, middle, mm=29)))
        self.assertEqual(document.count(b" Tj\n"), 2)
        for without in (["", "", ""], [" ", "\n", "\t"]):
            self.assertEqual(qrproved.sheets(symbols, paper, mm=29, captions=without), qrproved.sheets(symbols, middle._replace(top=10.5), mm=29))
        # a label that is smaller than its place: 30 mm for 29 modules of 1.034 mm
        small = Sheet(100, 100, 2, 2, across=50, down=50, label_width=40, label_height=30)
        self.assertEqual(qrproved.sheets(symbols, small), qrproved.sheets(symbols, small, mm=29 * 1.034))
        with self.assertRaises(SettingsError):
            qrproved.sheets(symbols, small, mm=29 * 1.035)

    def test_lines_of_captions(self):
        # At 8 points a millimetre has 354.3 thousandths of the size of letters: an a has 556 of them, a space 278, and others 1,000
        cases = {("aaaa aaaa", 10): ["aaaa", "aaaa"], ("aaaa aaaa", 13.4): ["aaaa aaaa"], ("aaaa aaaa", 13.3): ["aaaa", "aaaa"], ("aaaaaaa aa", 10): ["aaaaaa", "a aa"],
                 (" a  b\tc\r\nd\n\ne ", 60): ["a b c", "d", "e"], ("\u70b9\u70b9\u70b9", 6): ["\u70b9\u70b9", "\u70b9"], ("e\u0301", 10): ["\u00e9"], ("", 10): [], ("iiiiiiiiiiiiiiii", 10.1): ["iiiiiiiiiiiiiiii"]}
        for (caption, mm), lines in cases.items():
            self.assertEqual(_papers.lines_of(caption, round(1000 * mm)), lines, (caption, mm))

    def test_wrong_captions(self):
        symbols, paper = [qrproved.encode("A"), qrproved.encode("B")], qrproved.paper("l7160")
        for letter, shown in {"\u70b9": "'\u70b9' (U+70B9)", "\u0159": "'\u0159' (U+0159)", "\0": r"'\x00' (U+0000)", "\x81": r"'\x81' (U+0081)"}.items():
            with self.assertRaises(SettingsError) as refused:
                qrproved.sheets(symbols, paper, captions=["a", f"ab{letter}"])
            self.assertEqual(str(refused.exception), f"{shown}, character 3 of the caption, is not in Helvetica, the font of captions in a PDF")
        with self.assertRaisesRegex(SettingsError, "there are 2 and 3"):
            qrproved.sheets(symbols, paper, captions=["a", "b", "c"])
        with self.assertRaisesRegex(SettingsError, r"63\.500 mm wide and 38\.100 mm high, and has no room for 29 modules and 11 lines of a caption"):
            qrproved.sheets(symbols, paper, captions=["a", 11 * "a\n"])
        with self.assertRaisesRegex(SettingsError, r"no room for a symbol 33\.988 mm wide with its margin and 1 line of a caption"):
            qrproved.sheets(symbols, paper, mm=34, captions=["a", ""])
        for wrong in ("ab", ["a", None], [b"a", "b"]):
            with self.assertRaises(TypeError, msg=wrong):
                qrproved.sheets(symbols, paper, captions=wrong)

    @unittest.skipUnless(POPPLER, "there is no Poppler")
    def test_the_command(self):
        few = self.put("few", "Shelf 1\tfirst\n\nShelf 2\nShelf 3\t\nShelf 4\ta\tb\n")
        path = self.room / "a.pdf"
        self.assertEqual(run("--sheet", few, "-o", path), (b"", ""))
        self.assertEqual([[it[0] for it in page] for page in self.lines_in(path.read_bytes())], [["first", "Shelf 2", "a b"]])
        # 24 labels of 70 by 36 mm, whose columns begin at the edge and whose rows begin 4.5 mm below it
        self.assertEqual([round(it[1] + it[3]) for it in self.lines_in(path.read_bytes())[0]], [70, 210, 70])
        self.assertEqual(run("--sheet", few, "-o", path, "--place", 23, "--no-captions"), (b"", ""))
        rows = self.pictures_of(path.read_bytes())
        self.assertEqual([self.dark_in(rows[page], 70 * (place % 3), 4.5 + 36 * (place // 3), 70, 36) is None for page, place in ((0, 21), (0, 22), (0, 23), (1, 0), (1, 1), (1, 2))],
                         [True, False, False, False, False, True])
        table = self.put("a.csv", 'text;n;caption\n"Shelf; 1";5;"one\ntwo"\nShelf 2;6;\nShelf 3;7;three\n')
        own = ["--paper", "120x80", "--grid", "2x2", "--margins", "5x10", "--gaps", "10x0"]
        self.assertEqual(run("--sheet", table, "-o", path, *own, "-q"), (b"", ""))
        found = self.lines_in(path.read_bytes())[0]
        # labels are 50 mm wide: their middles are 30 and 90 mm from the left
        self.assertEqual([(it[0], round(it[1] + it[3])) for it in found], [("one", 60), ("two", 60), ("three", 60)])
        self.assertEqual(run("--sheet", table, "-o", path, "--columns", "text=n", "caption=text", "--paper", "l7651", "-q"), (b"", ""))
        self.assertEqual([it[0] for it in self.lines_in(path.read_bytes())[0]], ["Shelf; 1", "Shelf 2", "Shelf 3"])
        self.assertEqual(run("--sheet", "-", "-o", "-", given=b"(20)01\n", *["--gs1"])[0][:8], b"%PDF-1.4")

    def test_what_the_command_refuses(self):
        few = self.put("few", "Shelf 1\n\tx\nShelf 3\t\u70b9\nShelf 4\t" + 40 * "long words " + "\n" + 3000 * "x" + "\ncaf\u00e9\n")
        path = self.room / "a.pdf"
        said = run("--sheet", few, "-o", path, status=1)[1]
        self.assertEqual([line.split(":", 2)[1].strip() for line in said.splitlines()], ["line 2", "line 3", "line 4", "line 5"])
        for part in ("it has no text", "is not in Helvetica", "no room for a symbol of 10 mm", "does not fit a symbol"):
            self.assertIn(part, said)
        self.assertEqual(path.read_bytes().count(b" Tj\n"), 2)
        self.assertEqual(run("--sheet", few, "-o", path, "--faults", self.room / "faults", status=1)[1].count("\n"), 1)
        self.assertEqual([int(it[0]) for it in csv.reader((self.room / "faults").read_text().splitlines(), delimiter="\t")], [2, 3, 4, 5])
        self.assertIn("has no label", run("--sheet", self.put("none", "\n"), "-o", self.room / "no.pdf", status=1)[1])
        self.assertFalse((self.room / "no.pdf").exists())
        self.assertIn("no column 'text'", run("--sheet", self.put("b.csv", "Code\n1\n"), "-o", path, status=1)[1])
        for given, why in {("--place", "25"): "--place is from 1 to 24, and not 25", ("--paper", "a4"): "--grid 3x8", ("--grid", "3x8"): "has its own",
                           ("--paper", "l9999"): "there is no label paper", ("--mm", "60"): "has no room for a symbol 60",
                           ("--paper", "a4", "--grid", "3x8", "--label", "71x30"): "do not fit 210.0 mm of paper"}.items():
            self.assertIn(why, run("--sheet", few, "-o", path, *given, "--no-captions", status=1)[1], given)
        for given, why in {("--scale", "3"): "--scale is not of --sheet", ("--shard", "3"): "--shard", ("-t", "svg"): "are a PDF", ("--batch", "x"): "no --batch",
                           ("--dark", "red"): "are black on white", ("--grid", "3"): "as in 3x8", ("--label", "3"): "63.5x38.1", ("text",): "takes no text"}.items():
            self.assertIn(why, run("--sheet", few, "-o", path, *given, status=2)[1], given)
        self.assertIn("needs the file", run("--sheet", few, status=2)[1])

    @unittest.skipUnless(sys.platform == "linux", "the time of a process is asked for as on Linux")
    def test_how_long_it_takes(self):
        many = self.put("many", "".join(f"https://www.example.org/item/{k:08}\tNo. {k}\n" for k in range(2000)))
        before = os.times()
        run("--sheet", many, "-o", self.room / "a.pdf")
        after = os.times()
        self.assertEqual((self.room / "a.pdf").read_bytes().count(b" Tj\n"), 2000)
        self.assertLess(after.children_user + after.children_system - before.children_user - before.children_system, 1)


if __name__ == "__main__":
    unittest.main()
