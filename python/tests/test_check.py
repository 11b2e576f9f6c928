"""qrproved check of many files: what a list says that they contain, JSON, counts, grades, and documents with pages."""
import io
import json
import pathlib
import shutil
import sys
import tempfile
import unittest
import unittest.mock

import qrproved
from qrproved import Content, Level, Mended, _documents
from test_command import run

try:
    from PIL import Image
except ImportError:
    Image = None


class Check(unittest.TestCase):
    def setUp(self):
        folder = tempfile.TemporaryDirectory()
        self.addCleanup(folder.cleanup)
        self.room = pathlib.Path(folder.name)

    def put(self, name, data):
        (self.room / name).write_bytes(data if isinstance(data, bytes) else data.encode())
        return self.room / name

    def check(self, *words, status=0):
        """Returns the lines that check prints, with the names of files in place of their paths."""
        out, said = run("check", *words, status=status)
        self.assertEqual(said, "")
        return out.decode().replace(f"{self.room}/", "").splitlines()

    def records(self, *words, status=0):
        return [json.loads(line) for line in self.check("--json", *words, status=status)]

    def test_a_batch_contains_its_list(self):
        listed = self.put("list", "Shelf 1\nShelf 2\n\nGr\u00fc\u00dfe\n")
        run("--batch", listed, "-o", self.room / "out")
        files = sorted((self.room / "out").iterdir())
        self.assertEqual(self.check("-q", "--expect", listed, "--summary", *files),
                         ["3 files; symbols: 3 sound, 0 readable, 0 not scannable, 0 not readable; 0 not as expected; texts of the list: 0 not seen, 0 seen again"])
        qrproved.encode("Shelf 1").save(files[1])
        files[2].rename(self.room / "out/2.png")
        found = self.check("--expect", listed, "--summary", files[0], files[1], self.room / "out/2.png", status=2)
        self.assertEqual(found[-1], "3 files; symbols: 3 sound, 0 readable, 0 not scannable, 0 not readable; 2 not as expected;"
                         " texts of the list: 2 not seen, 0 seen again")
        self.assertEqual([line for line in found if "expected " in line], ["  expected Shelf 2"] * 2)
        record = self.records("--expect", listed, files[1], status=2)[0]
        self.assertEqual({name: record[name] for name in ("file", "status", "state", "contains", "expected", "as_expected")},
                         {"file": "out/00002.png", "status": 2, "state": "sound", "contains": "Shelf 1", "expected": "Shelf 2", "as_expected": False})

    def test_columns_and_names(self):
        table = self.put("list.csv", "Code,Name\nShelf 1,first\nShelf 2,a b\nShelf 3,A_b\n")
        words = ["--columns", "text=Code", "name=Name"]
        run("--batch", table, "-o", self.room / "out", *words)
        files = sorted((self.room / "out").iterdir())
        self.assertEqual([it.name for it in files], ["A_b-3.png", "a_b.png", "first.png"])
        self.assertEqual(self.check("-q", "--expect", table, *words, "--", *files), [])
        for wrong in (["--columns", "a"], ["--encoding", "utf-8"], ["--expect", table, "--encoding", "latin-99"], ["--expect", table, "--encoding", "binary"],
                      ["--expect", "-", "-"], ["--expect", table, "--columns", "name=a"]):
            run("check", *wrong, status=2)
        self.assertIn("has no column 'x'", run("check", "--expect", table, "--columns", "x", "--", files[0], status=2)[1])

    def test_names_that_are_numbers(self):
        table = self.put("list.csv", "Code,Name\nShelf 1,007\nShelf 2,7\n")
        run("--batch", table, "-o", self.room / "out", "--columns", "text=Code", "name=Name")
        files = sorted((self.room / "out").iterdir())
        self.assertEqual([it.name for it in files], ["007.png", "7.png"])
        self.assertEqual(self.check("-q", "--expect", table, "--columns", "text=Code", "name=Name", "--", *files), [])

    def test_gs1_and_series(self):
        listed = self.put("list", "(01)04012345678901(10)ABC123\n[10]A(1\n")
        run("--batch", listed, "--gs1", "-o", self.room / "out")
        self.assertEqual(self.check("-q", "--expect", listed, *sorted((self.room / "out").iterdir())), [])
        text = "a series of symbols " * 5
        listed = self.put("texts", text + "\nanother\n")
        run(text, "-S", "-v", "3", "-o", self.room / "00001.svg")
        self.assertEqual(self.check("-q", "--expect", listed, self.room / "00001.svg"), [])
        (self.room / "00001.svg").rename(self.room / "2.svg")
        self.assertEqual(self.check("-q", "--expect", listed, self.room / "2.svg", status=2).count("expected another"), 2)

    def test_a_sheet_has_texts_of_the_list(self):
        listed = self.put("list", "1\n2\n3\n")
        symbols = [qrproved.encode(it) for it in "1224"]
        sheet = self.put("1.svg", qrproved.document(symbols, kind="svg"))
        found = self.check("--expect", listed, "--summary", sheet, status=2)
        self.assertEqual((found.count("not in the list"), found[-1]), (1, "1 file; symbols: 4 sound, 0 readable, 0 not scannable, 0 not readable;"
                                                                       " 1 not as expected; texts of the list: 1 not seen, 1 seen again"))

    def test_a_label_of_a_sheet_that_cannot_be_read(self):
        symbols = [qrproved.encode(f"Shelf {k}", version=3, level="m") for k in range(6)]
        spoilt = bytearray(symbols[4].modules)
        for row in range(9, 20):
            spoilt[29 * row + 9:29 * row + 29] = bytes(1 - it for it in spoilt[29 * row + 9:29 * row + 29])
        symbols[4] = qrproved.Symbol(3, 29, None, bytes(spoilt))
        # (in another colour it is no drawing of the library)
        sheet = self.put("a.svg", qrproved.document(symbols, kind="svg").replace(b'fill="#000000"', b'fill="#100000"'))
        found = self.records("--expect", self.put("list", "".join(f"Shelf {k}\n" for k in range(6))), sheet, status=2)
        self.assertEqual([it.get("contains") for it in found], [*(f"Shelf {k}" for k in (0, 1, 2, 3, 5)), None])
        self.assertEqual(found[-1]["state"], "not readable")

    def test_json(self):
        symbol = qrproved.encode("Shelf 12", level="h")  # of 2-H, whose one block can have 14 wrong codewords
        spoilt = bytearray(symbol.modules)
        spoilt[-1] ^= 1
        good, bad, none, text = (self.room / name for name in ("good.png", "bad.png", "none.png", "text"))
        symbol.save(good)
        qrproved.Symbol(symbol.version, symbol.side, 0, bytes(spoilt)).save(bad)
        text.write_bytes(b"hello")
        *found, summary = map(json.loads, run("check", "--json", "--summary", good, bad, none, text, status=2)[0].decode().splitlines())
        of_both = {"version": 2, "level": "H", "mask": symbol.mask, "unknown_modules": 0, "contains": "Shelf 12"}
        self.assertEqual(found[0], {"file": str(good), "status": 0, "state": "sound", "spent": 0.0, "unused": 1.0, "unused_grade": "A", "wrong_modules": 0, **of_both})
        self.assertEqual(found[1], {"file": str(bad), "status": 1, "state": "readable", "spent": 0.0714, "unused": 0.9286, "unused_grade": "A", "wrong_modules": 1, **of_both})
        self.assertEqual([(it["file"], it["status"], it["state"], "fault" in it) for it in found[2:]],
                         [(str(none), 2, "not readable", True), (str(text), 2, "not readable", True)])
        self.assertEqual(summary, {"status": 2, "summary": {"files": 4, "sound": 1, "readable": 1, "not_scannable": 0, "not_readable": 2}})
        self.assertEqual([it["file"] for it in self.records("-q", good, bad, status=1)], ["bad.png"])
        self.put("gs1.png", qrproved.encode(gs1="(01)04012345678901(10)ABC123").png())
        self.assertEqual(self.records(self.room / "gs1.png")[0]["gs1"], "(01)04012345678901(10)ABC123")
        self.put("bytes.png", qrproved.encode(b"\xff").png())
        self.assertEqual(self.records(self.room / "bytes.png")[0]["bytes"], "ff")

    def test_grades(self):
        # ISO/IEC 15415: A from 0.62 on, B from 0.50, C from 0.37, D from 0.25
        content = Content(b"A", 1, None)
        for wrong, unknown, grade in ((0, 0, "A"), (38, 0, "A"), (20, 19, "B"), (50, 0, "B"), (51, 0, "C"), (63, 0, "C"), (0, 64, "D"), (75, 0, "D"),
                                      (76, 0, "F"), (100, 0, "F"), (101, 0, "F")):
            it = Mended(content, Level.L, 0, 1, 0, 0, wrong, 100, 2 * wrong + unknown, wrong, unknown, 0)
            self.assertEqual((round(it.unused, 9), it.unused_grade), (max(0, (100 - wrong - unknown) / 100), grade), (wrong, unknown))
        it = Mended(content, Level.L, 0, 1, 8, 4, 0, 100, 0, 0, 0, 0)
        self.assertEqual((it.unused, it.unused_grade), (0.0, "F"))
        self.put("a.png", qrproved.encode("A").png())
        self.assertIn("unused error correction 1.00, grade A: this one parameter of ISO/IEC 15415, and no grade of the symbol", self.check("--grade", self.room / "a.png"))

    @unittest.skipUnless(shutil.which("pdftoppm"), "there is no pdftoppm")
    def test_pages_of_pdf(self):
        listed = self.put("list", "Shelf 1\nShelf 2\nShelf 3\n")
        run("--batch", listed, "-o", self.room / "a.pdf", "--mm", "20")
        found = self.records("--expect", listed, self.room / "a.pdf")
        self.assertEqual([(it["page"], it["state"], it["contains"], it["as_expected"]) for it in found],
                         [(k, "sound", f"Shelf {k}", True) for k in (1, 2, 3)])
        self.assertEqual(self.check(self.room / "a.pdf")[:1] + self.check(self.room / "a.pdf")[3:4], ["page 1", "page 2"])
        paper = qrproved.Sheet(210, 297, columns=3, rows=8, top=0.5, across=70, down=37, first=1)
        few = [qrproved.encode(f"Shelf {k}", version=2) for k in range(40)]
        self.put("sheet.pdf", qrproved.sheets(few, paper, mm=25))
        found = self.records(self.room / "sheet.pdf")
        self.assertEqual({(it["page"], it["contains"]) for it in found}, {(1 if k < 23 else 2, f"Shelf {k}") for k in range(40)})
        self.assertEqual(self.check(self.put("b.pdf", b"%PDF-1.4\nnothing\n"), status=2), ["not readable: pdftoppm cannot read the PDF document"])

    @unittest.skipIf(Image is None, "there is no Pillow")
    def test_pages_of_tiff(self):
        pictures = [Image.open(io.BytesIO(qrproved.encode(f"Shelf {k}").png())) for k in (1, 2, 3)]
        pictures[0].save(self.room / "a.tif", save_all=True, append_images=[pictures[1].convert("RGB"), pictures[2].convert("L")])
        self.assertEqual([(it["page"], it["state"], it["contains"]) for it in self.records(self.room / "a.tif")], [(k, "sound", f"Shelf {k}") for k in (1, 2, 3)])
        self.assertEqual(self.check(self.put("b.tif", b"II*\0nothing"), status=2)[0][:35], "not readable: Pillow cannot read th")

    def test_programs_that_are_not_there(self):
        with unittest.mock.patch("shutil.which", lambda name: None), self.assertRaisesRegex(ValueError, "pdftoppm, which is not installed"):
            _documents.pages_of(b"%PDF-1.4")
        with unittest.mock.patch.dict(sys.modules, {"PIL": None}), self.assertRaisesRegex(ValueError, "Pillow, which is not installed"):
            _documents.pages_of(b"MM\0*")
        self.assertIsNone(_documents.pages_of(b"P4\n"))


if __name__ == "__main__":
    unittest.main()
