"""python -m qrproved: what it writes, what it says, and its status."""
import os
import pathlib
import shutil
import subprocess
import sys
import tempfile
import unittest

import qrproved
from qrproved import contents
from test_logos import FOUR
from test_reading import GREY, numbers, png_of, shown


def run(*words, given=b"", status=0):
    """Runs the command, and returns what it writes to standard output and to standard error."""
    ran = subprocess.run([sys.executable, "-B", "-m", "qrproved", *map(str, words)], input=given, capture_output=True, timeout=120,
                         env={**os.environ, "PYTHONIOENCODING": "utf-8"})
    assert ran.returncode == status, (words, ran.returncode, ran.stderr[-500:])
    return ran.stdout, ran.stderr.decode()


class Command(unittest.TestCase):
    def setUp(self):
        folder = tempfile.TemporaryDirectory()
        self.addCleanup(folder.cleanup)
        self.room = pathlib.Path(folder.name)

    def test_one_label(self):
        symbol = qrproved.encode("Shelf 12", level="q", version=3)
        words = ["Shelf 12", "-l", "q", "-v", "3", "-m", "2", "-q"]
        for name, wanted in {"a.png": symbol.png(scale=5, margin=2), "a.svg": symbol.svg(margin=2), "a.txt": symbol.text(margin=2).encode()}.items():
            self.assertEqual(run(*words, "-s", "5", "-o", self.room / name), (b"", ""))
            self.assertEqual((self.room / name).read_bytes(), wanted)
        self.assertEqual(run(*words)[0], symbol.text(margin=2).encode())
        self.assertEqual(run(*words, "-t", "ASCII")[0], symbol.text(margin=2, drawing="ascii").encode())
        self.assertEqual(run(*words, "-t", "txt")[0], symbol.text(margin=2).encode())
        self.assertEqual(run(*words, "-t", "png")[0], symbol.png(margin=2))

    def test_sizes_and_warnings(self):
        symbol = qrproved.encode("Shelf 12")
        cases = {"a.png": (["--dpi", "600"], symbol.png(dpi=600)), "b.png": (["--mm", "29"], symbol.png(mm=29)),
                 "a.svg": (["--mm", "29"], symbol.svg(mm=29))}
        for name, (words, wanted) in cases.items():
            self.assertEqual(run("Shelf 12", "-o", self.room / name, *words), (b"", ""))
            self.assertEqual((self.room / name).read_bytes(), wanted)
        of_margin, of_module = "scanners need 4\n", "qrproved: modules of 0.172 mm: under 0.25 mm few scanners read them\n"
        self.assertEqual(run("A", "-o", self.room / "a.png", "-m", "1")[1], f"qrproved: a margin of 1 module: {of_margin}")
        self.assertEqual(run("A", "-o", self.room / "a.png", "--mm", "5")[1], of_module)
        self.assertEqual(run("A", "-o", self.room / "a.png", "--mm", "5", "-q")[1], "")
        said = run("--batch", "-", "-o", self.room / "few", "-m", "0", given=b"1\n2\n3\n")[1]
        self.assertEqual(said, f"qrproved: a margin of 0 modules: {of_margin}")
        for words in (["--mm", "5", "--dpi", "300", "-t", "png"], ["--mm", "5"], ["--dpi", "300", "-t", "svg"]):
            self.assertIn("--mm" if "--mm" in words else "--dpi", run("A", *words, status=2)[1])

    def test_a_mask_by_hand(self):
        path = self.room / "a.svg"
        for mask in (0, 7):
            self.assertEqual(run("Shelf 12", "-o", path, "--mask", str(mask)), (b"", ""))
            self.assertEqual(path.read_bytes(), qrproved.encode("Shelf 12", mask=mask).svg())
        self.assertEqual(run("wifi", "ssid=a", "-t", "ascii", "--mask", "5")[0],
                         qrproved.encode("WIFI:T:nopass;S:a;;", mask=5).text(drawing="ascii").encode())
        run("--batch", "-", "-o", self.room / "few", "-t", "svg", "--mask", "5", given=b"Shelf 12\n")
        self.assertEqual((self.room / "few/00001.svg").read_bytes(), qrproved.encode("Shelf 12", mask=5).svg())
        self.assertIn("mask is from 0 to 7, and not 8", run("A", "-t", "ascii", "--mask", "8", status=1)[1])

    def test_colours(self):
        symbol, path = qrproved.encode("Shelf 12"), self.room / "a.svg"
        for kind in ("png", "pdf"):
            for words, named in {("--dark", "navy"): {"dark": "navy"}, ("--dark", "#123", "--light", "none", "--mm", "20"): {"dark": "#123", "light": None, "mm": 20},
                                 ("--dark", "white", "--light", "black", "--inverse"): {"dark": "white", "light": "black", "inverse": True}}.items():
                self.assertEqual(run("Shelf 12", "-o", self.room / f"a.{kind}", *words), (b"", ""))
                self.assertEqual((self.room / f"a.{kind}").read_bytes(), getattr(symbol, kind)(**named))
            run("--batch", "-", "-o", self.room / f"few-{kind}", "-t", kind, "--light", "#ffe", given=b"Shelf 12\n")
            self.assertEqual((self.room / f"few-{kind}/00001.{kind}").read_bytes(), getattr(symbol, kind)(light="#ffe"))
        run("A long text " * 9, "--series", "-v", "3", "-o", self.room / "b.pdf", "--dark", "#00f")
        pages = (self.room / "b.pdf").read_bytes()
        self.assertEqual((pages.count(b"/Type/Page/"), pages.count(b"0.000 0.000 1.000 rg"), pages.count(b"1.000 1.000 1.000 rg")), (3, 3, 3))
        for words, named in {("--dark", "navy"): {"dark": "navy"}, ("--dark", "#123", "--light", "none"): {"dark": "#123", "light": None},
                             ("--dark", "white", "--light", "black", "--inverse"): {"dark": "white", "light": "black", "inverse": True},
                             ("--light", "#ffe", "--mm", "20"): {"light": "#ffe", "mm": 20}}.items():
            self.assertEqual(run("Shelf 12", "-o", path, *words), (b"", ""))
            self.assertEqual(path.read_bytes(), symbol.svg(**named))
        run("--batch", "-", "-o", self.room / "few", "-t", "svg", "--dark", "navy", "--columns", "text=a", "caption=b", given=b"a,b\nShelf 12,no. 1\n")
        self.assertEqual((self.room / "few/00001.svg").read_bytes(), symbol.svg(dark="navy", caption="no. 1"))
        run("A long text " * 9, "--series", "-v", "3", "-o", path, "--dark", "#00f")
        series = path.read_bytes()
        self.assertEqual((series.count(b"#0000ff"), series.count(b"#000000"), series.count(b"#ffffff")), (1, 0, 1))
        run("wifi", "ssid=a", "-o", path, "--light", "none")
        self.assertNotIn(b"<rect", path.read_bytes())
        for words, why in {("--dark", "yellow"): "contrast of 1.1, and scanners need 3", ("--dark", "#fff", "--light", "#000"): "inverse allows it",
                           ("--dark", "rouge"): "dark is #rgb", ("--light", "none", "--dark", "white"): "a contrast of 1.0"}.items():
            self.assertIn(why, run("A", "-o", path, *words, status=1)[1], words)
            self.assertIn(why, run("--batch", "-", "-t", "svg", "-o", self.room / "none", *words, given=b"A\n", status=1)[1], words)
        self.assertFalse((self.room / "none").exists())
        for kind, why in {"eps": "colours in EPS are not proved yet", "pbm": "a PBM is black and white", "zpl": "printers of labels and receipts print black alone", "utf8": "a text has no colours"}.items():
            for words in (["--dark", "navy"], ["--light", "none"], ["--inverse"]):
                said = run("A", "-t", kind, "-o", self.room / "a", *words, status=2)[1]
                self.assertIn(f"{words[0]} is of an SVG, a PNG or a PDF, as with -t svg: {why}", " ".join(said.split()))
        said = run("--batch", "-", "-o", self.room / "all.pdf", "--dark", "navy", given=b"A\n", status=2)[1]
        self.assertIn("a PDF with all labels of a batch, are black on white", " ".join(said.split()))

    def test_a_logo(self):
        picture, other = self.room / "logo.png", self.room / "logo.svg"
        picture.write_bytes(FOUR)
        other.write_bytes(b'<svg xmlns="http://www.w3.org/2000/svg" viewBox="0 0 1 1"><circle r="1"/></svg>')
        fifth, nine = qrproved.encode("Shelf 12", logo=0.2), qrproved.encode("Shelf 12", logo=9, share=0.75, level="M")
        rows = {"a.png": ([picture], fifth.png(logo=FOUR)), "a.svg": ([other], fifth.svg(logo=other.read_bytes())),
                "b.png": ([picture, "--logo-side", "9", "--share", "0.75", "-l", "M", "-s", "3"], nine.png(logo=FOUR, scale=3)),
                "c.png": ([picture, "--dark", "navy", "--light", "#ffe"], fifth.png(logo=FOUR, dark="navy", light="#ffe")),
                "b.svg": ([picture, "--logo-side", "9", "--share", "0.75", "-l", "M", "--dark", "navy"], nine.svg(logo=FOUR, dark="navy"))}
        for name, (words, wanted) in rows.items():
            self.assertEqual(run("Shelf 12", "-o", self.room / name, "--logo", *words), (b"", ""))
            self.assertEqual((self.room / name).read_bytes(), wanted)
        run("--batch", "-", "-o", self.room / "many", "--logo", picture, given=b"Shelf 12\nShelf 13\n")
        self.assertEqual((self.room / "many" / "00001.png").read_bytes(), fifth.png(logo=FOUR))
        run("wifi", "ssid=Guests", "-o", self.room / "wifi.svg", "--logo", other)
        self.assertEqual((self.room / "wifi.svg").read_bytes(), qrproved.encode("WIFI:T:nopass;S:Guests;;", logo=0.2).svg(logo=other.read_bytes()))
        rows = {"a logo of 177 by 177 modules": ([*("A", "-t", "svg", "--logo"), picture, "--logo-side", "177"], 1),
                "share is from 0 to 0.75": (["A", "-t", "svg", "--logo", picture, "--share", "0.8"], 1),
                "into a PNG file a logo is drawn that is one too": (["A", "-t", "png", "--logo", other], 1),
                "--logo is of a PNG or an SVG, and not of PDF": (["A", "-t", "pdf", "--logo", picture], 2),
                "a number of modules, as 7, or a fraction": (["A", "-t", "svg", "--logo", picture, "--logo-side", "x"], 2),
                "--logo-side and --share are of --logo": (["A", "-t", "svg", "--share", "0.5"], 2),
                "not of a series": (["A", "-t", "svg", "-S", "-v", "1", "--logo", picture], 2),
                "--logo is not of --sheet": (["--sheet", "-", "-o", self.room / "a.pdf", "--logo", picture], 2),
                "a payment has level M": (["payment", "name=A", "iban=DE33100205000001194700", "-t", "svg", "--logo", picture], 2),
                "No such file": (["A", "-t", "svg", "--logo", self.room / "none.png"], 1)}
        for said, (words, status) in rows.items():
            self.assertIn(said, " ".join(run(*words, status=status)[1].split()))

    def test_contents(self):
        wanted = qrproved.encode(contents.wifi("Caf\u00e9; 1", "correct horse", hidden=True), level="q")
        words = ["-l", "q", "-m", "2", "-q", "-o", self.room / "a.png"]
        name = "Caf\u00e9; 1"
        for fields in ([f"ssid={name}", *words, "password=correct horse", "hidden=true"], ["--ssid", name, "--hidden", *words, "password=correct horse"]):
            self.assertEqual(run("wifi", *fields), (b"", ""))
            self.assertEqual((self.room / "a.png").read_bytes(), wanted.png(margin=2))
        wanted = qrproved.encode(contents.mail(["a@b.example", "c@d.example"], subject="1=2"))
        self.assertEqual(run("mail", "to=a@b.example", "to=c@d.example", "subject=1=2")[0], wanted.text().encode())
        self.assertEqual(run("geo", "--latitude", "-33.8", "longitude=-151")[0], qrproved.encode(contents.geo(-33.8, -151)).text().encode())
        self.assertEqual(run("link", "--gs1", "(01)09506000134352")[0], qrproved.encode("https://id.gs1.org/01/09506000134352").text().encode())
        self.assertEqual(run("--", "wifi")[0], qrproved.encode("wifi").text().encode())

    def test_payments(self):
        fields = {"name": "M\u00fcller", "iban": "DE33100205000001194700", "amount": "1.50"}
        for charset in (1, 2):
            data = contents.payment_bytes(contents.payment(**fields, charset=charset))
            wanted = qrproved.encode(data, level="M", boost=False).text().encode()
            self.assertEqual(run("payment", *(f"{name}={value}" for name, value in fields.items()), "--charset", charset)[0], wanted)
        self.assertIn("a payment has a version from 1 to 13", run("payment", "--name", "A", "--iban", fields["iban"], "-v", "14", status=2)[1])
        self.assertIn("unrecognized arguments", run("payment", "--name", "A", "--iban", fields["iban"], "-l", "H", status=2)[1])

    def test_wrong_contents(self):
        self.assertEqual(run("wifi", status=1), (b"", "qrproved: ssid is missing\n"))
        self.assertEqual(run("tel", "--number", "x", status=1)[1], "qrproved: number is no telephone number: it has digits, as +49 30 1234567 has\n")
        self.assertIn("sid=x is no FIELD=VALUE; the fields are ssid, password, security, hidden", run("wifi", "sid=x", status=2)[1])
        self.assertIn("ssid is given more than once", run("wifi", "ssid=x", "--ssid", "y", status=2)[1])
        self.assertIn("--batch", run("wifi", "ssid=x", "--batch", "a", status=2)[1])
        self.assertIn("--birthday", run("contact", "-h")[0].decode())

    def test_standard_input_is_a_text(self):
        text = "Gr\u00fc\u00dfe"
        wanted = qrproved.encode(text).text().encode()
        for words, given in (([], text.encode()), ([], b"\xef\xbb\xbf" + text.encode()), (["--encoding", "latin-1"], text.encode("latin-1")),
                             (["--encoding", "utf-16"], text.encode("utf-16")), (["--encoding", "UTF-16-LE"], text.encode("utf-16-le")),
                             ([text], b"")):
            self.assertEqual(run(*words, given=given), (wanted, ""), words)
        self.assertEqual(run(given=text.encode() + b"\n")[0], qrproved.encode(text + "\n").text().encode())
        self.assertEqual(run("--eci", "3", given=text.encode())[0], qrproved.encode(text, eci=3).text().encode())
        self.assertEqual(run("-k", given="\u70b9".encode())[0], qrproved.encode("\u70b9", rule="with_kanji").text().encode())

    def test_standard_input_that_is_no_text_is_bytes(self):
        note = "qrproved: standard input is no UTF-8, so its bytes are encoded as they are; --encoding names its encoding, or 'binary'\n"
        for words, named, data in ((["-8"], {"rule": "bytes_only"}, b"A\xff\n"), (["-k"], {"rule": "with_kanji"}, b"\x93\x5f"),
                                   (["--eci", "3"], {"eci": 3}, b"Gr\xfc\xdfe"), ([], {}, b"\xef\xbb\xbf\xff")):
            wanted = qrproved.encode(data, **named).text().encode()
            self.assertEqual(run(*words, given=data), (wanted, note), words)
            for more in (["-q"], ["--encoding", "binary"]):
                self.assertEqual(run(*words, *more, given=data), (wanted, ""), words)
        for data in (b"Gr\xc3\xbc\xc3\x9fe", b"\xef\xbb\xbfA", b"\xff\xfeA\0"):
            self.assertEqual(run("--encoding", "Binary", given=data)[0], qrproved.encode(data).text().encode())
        self.assertEqual(run("--encoding", "utf-8", given=b"A\xff", status=1), (b"", "qrproved: standard input is no text in utf-8\n"))
        self.assertEqual(run("--encoding", "undefined", given=b"A", status=1)[1], "qrproved: standard input is no text in undefined\n")

    def test_encodings(self):
        for name, why in (("latin-99", "there is no encoding 'latin-99'"), ("hex", "'hex' is no encoding of texts"), ("rot13", "'rot13' is no")):
            self.assertIn(why, run("--encoding", name, given=b"A", status=2)[1])
        self.assertIn("there is --eci", run("A", "--encoding", "latin-1", status=2)[1])
        for data, name in (("A\nB\n".encode("utf-16"), "utf-16"), (b"\xfe\xff\0A", "utf-16"), ("Shelf 1\r\n".encode("utf-16-le"), "utf-16-le"),
                           ("Shelf 1\r\nShelf 2".encode("utf-16-be"), "utf-16-be")):
            said = f" is in UTF-16: save it as UTF-8, or add --encoding {name}\n"
            self.assertEqual(run(given=data, status=1), (b"", f"qrproved: standard input{said}"))
            (self.room / "list").write_bytes(data)
            self.assertEqual(run("--batch", self.room / "list", "-o", self.room / "o", status=1)[1], f"qrproved: {self.room / 'list'}{said}")
            self.assertFalse((self.room / "o").exists())

    def test_the_help_names_the_command_as_it_was_called(self):
        self.assertIn("usage: python -m qrproved ", run("-h")[0].decode())
        call = "import sys; sys.argv[:] = ['/usr/bin/qrproved', '-h']; from qrproved.__main__ import main; main()"
        ran = subprocess.run([sys.executable, "-B", "-c", call], capture_output=True, text=True)
        self.assertIn("usage: qrproved ", ran.stdout)

    def test_the_version(self):
        version = pathlib.Path(__file__).resolve().parents[2].joinpath("VERSION").read_text().strip()
        for word in ("--version", "-V"):
            self.assertEqual(run(word)[0].decode().split(), ["qrproved", version])
        self.assertEqual(run("A", "--version", "7")[0], qrproved.encode("A", version=7).text().encode())
        self.assertIn("expected one argument", run("A", "--version", status=2)[1])

    def test_the_text_check(self):
        self.assertEqual(run("--", "check")[0], qrproved.encode("check").text().encode())

    def test_faults(self):
        self.assertEqual(run(given=b"", status=1), (b"", "qrproved: the input is empty\n"))
        self.assertIn("version is from 1 to 40", run("A", "-v", "41", status=1)[1])
        self.assertIn("name the type by -t", run("A", "-o", self.room / "a.jpg", status=2)[1])
        self.assertIn("-o FOLDER", run("--batch", "-", status=2)[1])

    def test_a_label_for_each_line(self):
        lines = b"Shelf 1\r\nShelf 2\n\nShelf/2\nshelf 2\n" + b"a" * 3000 + b"\nlast"
        (self.room / "labels").write_bytes(lines)
        out, said = run("--batch", self.room / "labels", "-o", self.room / "numbers", status=1)
        self.assertEqual((out, said), (b"", "qrproved: line 6: the input has 3,000 bytes and does not fit a symbol: version 40-L holds"
                         " 2,953 bytes, 4,296 alphanumeric characters or 7,089 digits\n"))
        wanted = {"00001.png": b"Shelf 1", "00002.png": b"Shelf 2", "00004.png": b"Shelf/2", "00005.png": b"shelf 2", "00007.png": b"last"}
        got = {it.name: it.read_bytes() for it in (self.room / "numbers").iterdir()}
        self.assertEqual(got, {name: qrproved.encode(data).png() for name, data in wanted.items()})
        run("--batch", "-", "--names", "text", "-t", "svg", "-o", self.room / "texts", given=lines.replace(b"a" * 3000, b"../../x"))
        self.assertEqual({it.name for it in (self.room / "texts").iterdir()},
                         {"Shelf_1.svg", "Shelf_2.svg", "Shelf_2-4.svg", "shelf_2-5.svg", "x.svg", "last.svg"})

    def test_all_labels_in_one_file(self):
        lines = b"Shelf 1\r\n\nShelf 2\n" + b"a" * 3000 + b"\nof another version"
        symbols = [qrproved.encode(it) for it in ("Shelf 1", "Shelf 2", "of another version")]
        cases = {"a.zpl": ([], {}), "a.TSPL": (["--mm", "20", "--dpi", "300", "-x", "3"], {"kind": "tspl", "mm": 20, "dpi": 300, "x": 3}),
                 "a.bin": (["-s", "3", "-m", "2", "-q"], {"kind": "escpos", "scale": 3, "margin": 2})}
        for name, (words, options) in cases.items():
            out, said = run("--batch", "-", "-o", self.room / name, *words, given=lines, status=1)
            self.assertEqual((out, said[:21], said.count("\n")), (b"", "qrproved: line 4: the", 1))
            self.assertEqual((self.room / name).read_bytes(), qrproved.labels(symbols, **options), name)
        self.assertEqual(run("--batch", "-", "-t", "zpl", "-o", "-", given=b"Shelf 1\nShelf 2\n"), (qrproved.labels(symbols[:2]), ""))
        (self.room / "device").write_bytes(b"")  # a device is no folder, as this file is none
        self.assertEqual(run("--batch", "-", "-t", "escpos", "-o", self.room / "device", given=b"Shelf 1\n"), (b"", ""))
        self.assertEqual((self.room / "device").read_bytes(), symbols[0].escpos())
        run("--batch", "-", "-t", "zpl", "-o", self.room / "folder", given=b"Shelf 1\n")
        self.assertEqual((self.room / "folder/00001.zpl").read_bytes(), symbols[0].zpl())
        self.assertIn("all labels go to one file", run("--batch", "-", "-o", self.room / "b.zpl", "--names", "text", status=2)[1])

    def test_a_page_for_each_line(self):
        lines = b"Shelf 1\r\n\nShelf 2\n" + b"a" * 3000 + b"\nof another version"
        out, said = run("--batch", "-", "-o", self.room / "a.pdf", "--mm", "16.5", "-m", "2", "-q", given=lines, status=1)
        self.assertEqual((out, said[:21], said.count("\n")), (b"", "qrproved: line 4: the", 1))
        # all have the version of the largest, 2, which is 29 modules wide with this margin, and so of 0.569 mm each: 16.501 mm
        symbols = [qrproved.encode(it, version=2) for it in ("Shelf 1", "Shelf 2", "of another version")]
        page = qrproved.Sheet(16.501, 16.501, columns=1, rows=1)
        file = (self.room / "a.pdf").read_bytes()
        self.assertEqual(file, qrproved.sheets(symbols, page, margin=2))
        self.assertEqual(file.count(b"/Type/Page/"), 3)
        self.assertEqual(run("--batch", "-", "-o", self.room / "b.pdf", "-m", "1", given=b"1\n2\n")[1], "qrproved: a margin of 1 module: scanners need 4\n")
        run("--batch", "-", "-t", "pdf", "-o", self.room / "pages", given=b"Shelf 1\n")
        self.assertEqual((self.room / "pages/00001.pdf").read_bytes(), qrproved.encode("Shelf 1").pdf())
        self.assertIn("from 0 to 100", run("--batch", "-", "-o", self.room / "c.pdf", "-m", "101", given=b"1\n2\n", status=1)[1])

    def test_small_modules_of_a_batch(self):
        # 29, 29, 33 and 37 modules of 8 mm; the one of 29 is that of the settings, and is told once
        lines = b"1\n2\n" + b"a" * 20 + b"\n" + b"a" * 40 + b"\n" + b"b" * 40
        few = "under 0.25 mm few scanners read them\n"
        said = f"qrproved: line 3: modules of 0.242 mm: {few}qrproved: line 4 and 1 more: modules of 0.216 mm: {few}"
        self.assertEqual(run("--batch", "-", "-o", self.room / "a", "--mm", "8", given=lines), (b"", said))
        self.assertEqual(run("--batch", "-", "-o", self.room / "a", "--mm", "8", "-q", given=lines), (b"", ""))

    def test_a_printer_has_whole_dots(self):
        symbol = qrproved.encode("Shelf 12")
        for words, said in ((["--mm", "20"], "18.143 mm wide with its margin, and 5 dots a module"),
                            (["--mm", "5.5", "--dpi", "600"], "4.911 mm wide with its margin, and 4 dots a module")):
            self.assertIn(f"qrproved: {said}\n", run("Shelf 12", "-t", "zpl", *words)[1])
            self.assertEqual(run("Shelf 12", "-t", "zpl", "-q", *words)[1], "")
        self.assertEqual(run("Shelf 12", "-t", "zpl", "-q", "--mm", "20")[0], symbol.zpl(mm=20))

    def test_a_series(self):
        text = "a series of symbols " * 5
        symbols = qrproved.encode_series(text, version=3, level="m")
        self.assertEqual(len(symbols), 3)
        wanted = {"a.zpl": qrproved.labels(symbols), "a.tspl": qrproved.labels(symbols, kind="tspl"), "a.pdf": qrproved.document(symbols),
                  "a.eps": qrproved.document(symbols, kind="eps"), "a.svg": qrproved.draw(symbols, drawing="svg"), "a.txt": qrproved.draw(symbols)}
        for name, file in wanted.items():
            self.assertEqual(run(text, "-S", "-v", "3", "-l", "m", "-o", self.room / name), (b"", ""))
            self.assertEqual((self.room / name).read_bytes(), file, name)
        self.assertEqual(run(text, "-S", "-v", "3", "-l", "m", "--mm", "30", "-t", "svg")[0], qrproved.document(symbols, kind="svg", mm=30))
        self.assertEqual(run("--gs1", "(20)01", "-S", "-v", "1", "-t", "ascii")[0],
                         qrproved.draw(qrproved.encode_series(gs1="(20)01", version=1), drawing="ascii"))
        for words, fault in ((["A", "-o", "b.svg"], "-v 5"), (["-v", "3", "--batch", "-", "-o", "b.zpl"], "not of --batch"),
                             (["A", "-v", "3", "-o", "b.png"], "a PNG has one symbol")):
            self.assertIn(fault, run("-S", *words, status=2)[1])

    def test_a_batch_in_an_encoding(self):
        texts = ["Gr\u00fc\u00dfe", "Shelf 2", "\u20ac"]
        lines = "\r\n".join(texts)
        wanted = [qrproved.encode(it).png() for it in texts]
        for words, data in (([], b"\xef\xbb\xbf" + lines.encode()), (["--encoding", "utf-16"], lines.encode("utf-16")),
                            (["--encoding", "cp1252"], lines.encode("cp1252")), (["--encoding", "utf-32-be"], lines.encode("utf-32-be"))):
            self.assertEqual(run("--batch", "-", "-o", self.room / "out", *words, given=data), (b"", ""))
            self.assertEqual([(self.room / f"out/0000{k}.png").read_bytes() for k in (1, 2, 3)], wanted, words)
        names = run("--batch", "-", "-o", self.room / "names", "--names", "text", "--encoding", "utf-16", given=lines.encode("utf-16"))
        self.assertEqual(names, (b"", ""))
        self.assertEqual({it.name for it in (self.room / "names").iterdir()}, {"Gr\u00fc\u00dfe.png", "Shelf_2.png", "_.png"})

    def test_a_line_that_is_no_text_cannot_be_drawn(self):
        data = b"\xef\xbb\xbfShelf 1\nGr\xfc\n\n\xef\xbb\xbf4\n" + "Gr\u00fc".encode() + b"\n\x81\n"
        said = "".join(f"qrproved: line {number}: it is no UTF-8: --encoding names another encoding\n" for number in (2, 6))
        self.assertEqual(run("--batch", "-", "-o", self.room / "out", given=data, status=1), (b"", said))
        wanted = {"00001.png": "Shelf 1", "00004.png": "\ufeff4", "00005.png": "Gr\u00fc"}
        self.assertEqual({it.name: it.read_bytes() for it in (self.room / "out").iterdir()},
                         {name: qrproved.encode(text).png() for name, text in wanted.items()})
        said = run("--batch", "-", "-o", self.room / "out", "--encoding", "cp1252", given=data, status=1)[1]
        self.assertEqual(said, "qrproved: line 6: it is no text in cp1252\n")
        self.assertEqual(run("--batch", "-", "-o", self.room / "binary", "--encoding", "binary", given=data), (b"", ""))
        self.assertEqual((self.room / "binary/00002.png").read_bytes(), qrproved.encode(b"Gr\xfc").png())
        self.assertEqual((self.room / "binary/00005.png").read_bytes(), qrproved.encode("Gr\u00fc".encode()).png())

    def test_many_labels_by_several_processes(self):
        run("--batch", "-", "--jobs", "2", "-o", self.room / "many", "-s", "1", given=b"".join(b"%d\n" % k for k in range(3600)))
        self.assertEqual(len(list((self.room / "many").iterdir())), 3600)
        for k in (0, 499, 500, 3599):
            self.assertEqual((self.room / f"many/{k + 1:05}.png").read_bytes(), qrproved.encode(str(k)).png(scale=1))
        run("--batch", "-", "--jobs", "2", "-o", self.room / "many.zpl", "-s", "1", "-q", given=b"".join(b"%d\n" % k for k in range(3600)))
        self.assertEqual((self.room / "many.zpl").read_bytes(), b"".join(qrproved.encode(str(k)).zpl(scale=1) for k in range(3600)))

    def test_check(self):
        symbol = qrproved.encode("Shelf 12", level="h")
        said = f"sound: {symbol.version}-H, mask {symbol.mask}\ncontains Shelf 12\n".encode()
        for drawing in ("ascii", "ascii_inverse", "utf8"):
            self.assertEqual(run("check", given=symbol.text(drawing=drawing).encode())[0], said)
        (self.room / "a.txt").write_bytes(symbol.text().encode())
        self.assertEqual(run("check", self.room / "a.txt")[0], said)
        modules = bytearray(symbol.modules)  # of 2-H, whose one block can have 14 wrong codewords
        modules[-1] ^= 1
        damaged = qrproved.Symbol(symbol.version, symbol.side, 0, bytes(modules))
        self.assertTrue(run("check", given=str(damaged).encode(), status=1)[0].startswith(b"readable, 8 % of its correction spent: "))
        for k in range(len(modules) // 2, len(modules)):
            modules[k] ^= 1
        spoilt = qrproved.Symbol(symbol.version, symbol.side, 0, bytes(modules))
        self.assertTrue(run("check", given=str(spoilt).encode(), status=2)[0].startswith(b"not readable: "))
        self.assertEqual(run("check", given=b"hello", status=2)[0], b"not readable: the drawing is of other characters than '#', '?' and spaces,"
                         b" or half blocks and spaces\n")

    def test_check_of_modules_that_are_not_known(self):
        symbol = qrproved.encode("Shelf 12", level="h")
        # in the alignment pattern, and of the first two codewords, of which 14 may be wrong
        for row, column, share in ((16, 16, 0), (24, 22, 15)):
            lines = symbol.text(drawing="ascii").split("\n")
            line, start = lines[4 + row], 2 * (4 + column)
            lines[4 + row] = line[:start] + "??????" + line[start + 6:]
            self.assertEqual(run("check", given="\n".join(lines).encode(), status=1)[0],
                             f"readable, {share} % of its correction spent: {symbol.version}-H, mask {symbol.mask}\n"
                             "3 modules are not known, and their codewords count as wrong\ncontains Shelf 12\n"
                             "found by its look: the text is damaged, or another program drew it\n".encode())

    def spotted(self, side):
        """Returns the modules of a symbol of version 8-H, full of data, of which those of a square in the middle are not known."""
        symbol = qrproved.encode("x" * 84, level="h", boost=False)  # Table 7
        self.assertEqual((symbol.version, symbol.side), (8, 49))
        modules, first = bytearray(symbol.modules), (49 - side) // 2
        for row in range(first, first + side):
            modules[49 * row + first:49 * row + first + side] = bytes([2]) * side
        return bytes(modules)

    def pictured(self, side):
        """Returns a picture of this symbol, in which the square is grey."""
        modules = self.spotted(side)
        rows = [[0] * 57] * 4 + [[0] * 4 + list(modules[at:at + 49]) + [0] * 4 for at in range(0, 49 * 49, 49)] + [[0] * 57] * 4
        wide = [[it for it in row for _ in range(4)] for row in rows for _ in range(4)]
        return png_of(numbers(wide, of_0=[240], of_1=[20], of_2=[130]), 8, GREY)

    # A square in the middle of a symbol of version 8-H, in which 13 codewords of each block may be wrong: its modules on a side, the most
    # codewords of a block that have a module in it (7.7.3), what is said, and whether zbar reads it.
    SPOTS = [(15, 7, "readable, 54 % of its correction spent", True), (21, 12, "readable, 93 % of its correction spent", True),
             (25, 19, "read here, but scanners will not: 147 % of its correction spent", False),
             (31, 26, "read here, but scanners will not: 200 % of its correction spent", False)]

    def test_check_of_a_spot_counts_for_scanners(self):
        for side, codewords, said, is_scannable in self.SPOTS:
            modules = self.spotted(side)
            it = qrproved.mend(modules, 49)
            self.assertEqual((it.worst_misread, it.worst_unknown, it.changed_allowed, it.spent_most, it.scannable),
                             (0, codewords, 13, codewords, is_scannable))
            drawing = "\n".join("".join(("  ", "##", "??")[it] for it in modules[at:at + 49]) for at in range(0, 49 * 49, 49))
            lines = run("check", given=drawing.encode(), status=1 if is_scannable else 2)[0].decode().splitlines()
            self.assertEqual([line[:len(said)] for line in lines[:1]] + lines[1:3],
                             [said, f"{side * side} modules are not known, and their codewords count as wrong", f"contains {'x' * 84}"])
            # In a picture some modules of the spot are taken for dark or for light ones.
            text = run("check", given=self.pictured(side), status=1 if is_scannable else 2)[0].decode()
            self.assertEqual(f"contains {'x' * 84}" in text, side < 31, side)  # more than a fifth of the modules of the largest spot are wrong

    @unittest.skipUnless(shutil.which("zbarimg"), "there is no zbarimg")
    def test_zbar_reads_what_check_says_that_scanners_read(self):
        for side, _, _, is_scannable in self.SPOTS:
            (self.room / "a.png").write_bytes(self.pictured(side))
            ran = subprocess.run(["zbarimg", "--quiet", "--raw", self.room / "a.png"], capture_output=True, text=True)
            self.assertEqual(ran.stdout, "x" * 84 + "\n" if is_scannable else "", side)

    def test_check_of_the_format_information(self):
        symbol = qrproved.encode("Shelf 12", level="h")
        first, second = [(row, 8) for row in range(4)], [(8, symbol.side - 1 - k) for k in range(4)]  # 7.9.1
        for count, status, said in ((3, 1, "readable, 0 % of its correction spent"),
                                    (4, 2, "read here, but scanners will not: its format information is damaged too much")):
            modules = bytearray(symbol.modules)
            for row, column in first[:count] + second:
                modules[row * symbol.side + column] = 2
            drawing = "".join("".join(("  ", "##", "??")[it] for it in modules[y * symbol.side:(y + 1) * symbol.side]) + "\n"
                              for y in range(symbol.side))
            self.assertTrue(run("check", given=drawing.encode(), status=status)[0].decode().startswith(f"{said}: {symbol.version}-H, "), count)

    def test_check_of_kanji(self):
        symbol = qrproved.encode("\u70b9\u8317", rule="with_kanji")
        self.assertEqual(run("check", given=symbol.png())[0].decode().splitlines()[1:], ["contains \u70b9\u8317"])
        # the second symbol of a series may have no kanji mode of its own
        symbols = qrproved.encode_series("\u70b9" * 9 + "\uff71" * 8, version=1, rule="with_kanji")
        self.assertEqual([qrproved.read(it).kanji for it in symbols], [True, False])
        said = run("check", given=qrproved.draw(symbols, drawing="ascii"))[0].decode().splitlines()
        self.assertEqual("".join(line[9:] for line in said if line.startswith("contains ")), "\u70b9" * 9 + "\uff71" * 8)

    def test_check_of_several_files(self):
        symbol = qrproved.encode("Shelf 12", level="h")
        spoilt = bytearray(symbol.modules)
        spoilt[-1] ^= 1
        good, bad, none = (self.room / name for name in ("good.png", "bad.png", "none.png"))
        good.write_bytes(symbol.png())
        bad.write_bytes(qrproved.Symbol(symbol.version, symbol.side, 0, bytes(spoilt)).png())
        of = f"{symbol.version}-H, mask {symbol.mask}\n  contains Shelf 12\n"
        said_of_good, said_of_bad = f"{good}:\n  sound: {of}", f"{bad}:\n  readable, 8 % of its correction spent: {of}"
        self.assertEqual(run("check", good, good)[0].decode(), said_of_good * 2)
        self.assertEqual(run("check", good, bad, good, status=1)[0].decode(), said_of_good + said_of_bad + said_of_good)
        out, said = run("check", none, bad, good, status=2)
        self.assertEqual((out.decode(), said.startswith("qrproved: "), str(none) in said), (said_of_bad + said_of_good, True, True))
        self.assertEqual(run("check", "-", good, "-", given=symbol.png(), status=2)[0].decode(),
                         f"-:\n  sound: {of}{said_of_good}-:\n  not readable: there is no drawing\n")

    @unittest.skipIf(os.name == "nt", "there are other pipes")
    def test_a_reader_that_ends_early(self):
        symbol = qrproved.encode("Shelf 12")
        symbol.save(self.room / "a.png")
        for words, status in ((["check", self.room / "a.png"], 0), (["check", *[self.room / "a.png"] * 3], 0), (["A"], 1)):
            reader, writer = os.pipe()
            os.close(reader)
            ran = subprocess.run([sys.executable, "-B", "-m", "qrproved", *words], stdin=subprocess.DEVNULL, stdout=writer, stderr=subprocess.PIPE)
            os.close(writer)
            self.assertEqual((ran.returncode, ran.stderr), (status, b""), words)

    @unittest.skipUnless(os.path.exists("/dev/full"), "there is no /dev/full")
    def test_output_that_cannot_be_written(self):
        symbol = qrproved.encode("Shelf 12")
        symbol.save(self.room / "a.png")
        for words, status in ((["check", self.room / "a.png"], 2), (["A"], 1)):
            with open("/dev/full", "wb") as full:
                ran = subprocess.run([sys.executable, "-B", "-m", "qrproved", *words], stdout=full, stderr=subprocess.PIPE, text=True)
            self.assertEqual(ran.returncode, status, ran.stderr)
            self.assertRegex(ran.stderr, r"^qrproved: \[Errno 28\] .*\n$")

    def test_check_of_pictures(self):
        symbol = qrproved.encode("Shelf 12", level="h")
        for name in ("a.png", "a.svg"):  # the document is parsed
            run("Shelf 12", "-l", "h", "-o", self.room / name)
            self.assertEqual(run("check", self.room / name)[0], f"sound: {symbol.version}-H, mask {symbol.mask}\ncontains Shelf 12\n".encode())
        turned = qrproved.Symbol(symbol.version, symbol.side, symbol.mask, symbol.modules[::-1])
        self.assertEqual(run("check", given=turned.png())[0], f"sound: {symbol.version}-H, mask {symbol.mask}\ncontains Shelf 12\n".encode())
        exchanged = bytes(symbol[x, y] for y in range(symbol.side) for x in range(symbol.side))
        mirrored = qrproved.Symbol(symbol.version, symbol.side, symbol.mask, exchanged)
        self.assertEqual(run("check", given=mirrored.png(), status=1)[0],
                         f"readable: {symbol.version}-H, mask {symbol.mask}\nmirrored, which not every scanner reads\ncontains Shelf 12\n".encode())
        self.assertEqual(run("check", given=str(mirrored).encode(), status=2)[0], b"not readable: the symbol is mirrored\n")
        inverse = png_of(numbers(shown(symbol, scale=4, margin=4), of_0=[1], of_1=[0]), 1, GREY)
        self.assertEqual(run("check", given=inverse)[0],
                         f"sound: {symbol.version}-H, mask {symbol.mask}\nlight on dark, which not every scanner reads\ncontains Shelf 12\n".encode())
        self.assertEqual(run("check", given=png_of([[[1]] * 50] * 50, 1, GREY), status=2)[0], b"not readable: no symbol is found in the picture\n")
        self.assertEqual(run("check", given=b"\xff\xd8\xff\xe0", status=2)[0],
                         b"not readable: it is no PNG picture, no SVG document and no text in UTF-8\n")

    def test_check_of_several_symbols(self):
        symbols = qrproved.encode_series("Shelf 12 " * 40, version=3)
        said = run("check", given=qrproved.draw(symbols, drawing="ascii"))[0].decode()
        self.assertEqual([said.count("sound: 3-L"), said.count(f"of {len(symbols)} of its series")], [len(symbols)] * 2)

    def test_a_file_that_cannot_be_read_is_not_readable(self):
        for path in (self.room / "nofile", self.room):
            out, said = run("check", path, status=2)
            self.assertEqual((out, said.startswith("qrproved: "), str(path) in said), (b"", True, True))


if __name__ == "__main__":
    unittest.main()
