"""Lists of labels as streams: their columns, the folders and archives that are written, and interruptions."""
import os
import pathlib
import tarfile
import tempfile
import unittest

import qrproved
import qrproved.__main__
from qrproved import _stream
from qrproved._sources import LINE_MAX
from qrproved.batch import Label, Part, Settings, Unreadable, write
from test_command import run


def png(text, **options):
    return qrproved.encode(text).png(scale=1, **options)


class Stream(unittest.TestCase):
    def setUp(self):
        folder = tempfile.TemporaryDirectory()
        self.addCleanup(folder.cleanup)
        self.room = pathlib.Path(folder.name)

    def made(self, name="out"):
        """Returns the files of a folder, by their paths in it."""
        top = self.room / name
        return {it.relative_to(top).as_posix(): it.read_bytes() for it in top.rglob("*") if it.is_file()}

    def batch(self, text, *words, status=0, source="-"):
        """Runs --batch with a list, and returns what it says."""
        out, said = run("--batch", source, "-o", self.room / "out", "-s", "1", *words, given=text.encode(), status=status)
        self.assertEqual(out, b"")
        return said

    def test_columns(self):
        table = 'Code;File name\r\nShelf 1;first\r\n"a;b";"with ""marks"""\r\n\r\n"two\r\nlines";../x\r\nShelf 2;\r\nShelf 3;First\r\n'
        names = {"Shelf 1": "first", "a;b": "with_marks", "two\r\nlines": "x", "Shelf 2": "00005", "Shelf 3": "First-6"}
        for text in (table, "\ufeff" + table.replace(";", "\t").replace('"a\tb"', "a;b"), table.replace(";", ",").replace('"a,b"', "a;b")):
            self.assertEqual(self.batch(text, "--columns", "text=Code", "name=File name"), "")
            self.assertEqual(self.made(), {f"{name}.png": png(data) for data, name in names.items()})
        (self.room / "list.csv").write_bytes("name,text,price\nA,1,2\n".encode("utf-16"))
        run("--batch", self.room / "list.csv", "--encoding", "utf-16", "-o", self.room / "two", "-s", "1", "--columns")
        run("--batch", self.room / "list.csv", "--encoding", "utf-16", "-o", self.room / "two", "-s", "1", "--columns", "price")
        self.assertEqual(self.made("two"), {"A.png": png("1"), "00001.png": png("2")})
        run("--batch", "-", "-o", self.room / "svg", "-t", "svg", "--mm", "20", "--columns", "text=a", "caption=b", given=b"a,b\n1,Shelf <1>\n3\n")
        self.assertEqual(self.made("svg"), {"00001.svg": qrproved.encode("1").svg(mm=20, caption="Shelf <1>"), "00002.svg": qrproved.encode("3").svg(mm=20)})
        run("--batch", "-", "-o", self.room / "one.zpl", "--columns", "text=b", given=b"a,b\n1,2\n3,4\n")
        self.assertEqual((self.room / "one.zpl").read_bytes(), qrproved.labels([qrproved.encode("2"), qrproved.encode("4")]))

    def test_lines_that_have_no_label(self):
        table = b'a,b,c\n1,2,3\nx\n"open" x,5,6\nGr\xfc,8,9\n,11,12\n"13\n13",14,15\n' + b"1" * 8000 + b",2,3\n"
        said = run("--batch", "-", "-o", self.room / "out", "-s", "1", "--columns", "text=b", "name=a", "--faults", self.room / "faults", status=1, given=table)[1]
        self.assertEqual(said, f"qrproved: 3 labels are missing; {self.room / 'faults'} has the lines and the reasons\n")
        faults = [line.split("\t") for line in (self.room / "faults").read_text().splitlines()]
        self.assertEqual([line for line, _ in faults], ["3", "4", "5"])
        self.assertEqual((faults[0][1], faults[2][1]), ("it has 1 column, and the text is in column 2", "it is no UTF-8: --encoding names another encoding"))
        self.assertEqual(self.made(), {"1.png": png("2"), "00005.png": png("11"), "13_13.png": png("14"), "1" * 80 + ".png": png("2")})
        said = run("--batch", "-", "-o", self.room / "out", "--columns", "text=a", status=1, given=table)[1]
        self.assertEqual([line.split(":")[1] for line in said.splitlines()], [f" line {k}" for k in (4, 5, 6, 9)])
        self.assertIn("line 6: the input is empty\n", said)
        for words, why in ((["z"], "has no column 'z': its first line has 'a', 'b', 'c'"), (["text=a", "name=B"], "has no column 'B'")):
            self.assertIn(why, run("--batch", "-", "-o", self.room / "none", "--columns", *words, status=1, given=table)[1])
        self.assertFalse((self.room / "none").exists())

    def test_options(self):
        for words, why in ((["--tar"], "--tar is of --batch"), (["--resume"], "--resume is of"), (["--shard", "9"], "--shard is of"),
                           (["--start", "2"], "--start is of"), (["--faults", "x"], "--faults is of"), (["--columns", "a"], "--columns is of"),
                           (["--batch", "-", "-o", "a.zpl", "--tar"], "all labels go to one file"),
                           (["--batch", "-", "-o", "a.pdf", "--start", "2"], "all labels go to one file"),
                           (["--batch", "-", "-o", "a", "--shard", "0"], "from 1 on"), (["--batch", "-", "-o", "a", "--start", "0"], "from 1 on"),
                           (["--batch", "-", "-o", "a", "--encoding", "binary", "--columns"], "bytes have none"),
                           (["--batch", "-", "-o", "a", "--columns", "name=a"], "text=NAME name=NAME caption=NAME"),
                           (["--batch", "-", "-o", "a", "--columns", "text=a", "b"], "each once"),
                           (["--batch", "-", "-o", "a", "--columns", "title=a"], "text=NAME name=NAME"),
                           (["--batch", "-", "-o", "a", "--columns", "a", "caption=a"], "only an SVG has a caption")):
            self.assertIn(why, run(*words, status=2)[1])

    def test_folders_with_so_many_labels(self):
        self.batch("1\n2\n\n4\n5\n", "--shard", "3", "--start", "9")
        self.assertEqual(self.made(), {f"{folder:08}/{name:08}.png": png(text) for folder, name, text in
                                       ((7, 9, "1"), (10, 10, "2"), (10, 12, "4"), (13, 13, "5"))})
        self.batch("x\nX\nx\n", "--shard", "2", "--names", "text", "-o", self.room / "texts")
        self.assertEqual(set(self.made("texts")), {"00000001/x.png", "00000001/X-2.png", "00000003/x.png"})
        self.batch("x\ny\n", "--start", "99999", "-o", self.room / "many")
        self.assertEqual(set(self.made("many")), {"099999.png", "100000.png"})

    def test_archives(self):
        text = "1\n2\n" + "a" * 3000 + "\n4\n5\n"
        first = self.batch(text, "--tar", "--shard", "2", status=1)
        self.assertIn("line 3: the input has 3,000 bytes", first)
        self.assertEqual({it.name for it in (self.room / "out").iterdir()}, {"00000001.tar", "00000003.tar", "00000003.tar.faults", "00000005.tar"})
        found = {}
        for path in (self.room / "out").glob("*.tar"):
            with tarfile.open(path) as archive:
                found.update({f"{path.stem}/{it.name}": archive.extractfile(it).read() for it in archive})
        self.assertEqual(found, {"00000001/00000001.png": png("1"), "00000001/00000002.png": png("2"), "00000003/00000004.png": png("4"),
                                 "00000005/00000005.png": png("5")})
        (self.room / "out/00000001.tar").unlink()
        (self.room / "out/00000001.tar~").write_bytes(b"half")
        before = (self.room / "out/00000003.tar").stat().st_mtime_ns
        # the faults of an archive that is there are said again
        self.assertEqual(self.batch(text, "--tar", "--shard", "2", "--resume", status=1), first)
        self.assertEqual((self.room / "out/00000003.tar").stat().st_mtime_ns, before)
        self.assertEqual({it.name for it in (self.room / "out").iterdir()}, {"00000001.tar", "00000003.tar", "00000003.tar.faults", "00000005.tar"})
        self.assertEqual(self.batch(text.replace("a", ""), "--tar", "--shard", "2"), "")
        self.assertFalse((self.room / "out/00000003.tar.faults").exists())

    def test_resume(self):
        text = "\n".join(map(str, range(20))) + "\n" + "a" * 3000
        said = self.batch(text, status=1)
        wanted = {f"{k + 1:05}.png": png(str(k)) for k in range(20)}
        self.assertEqual(self.made(), wanted)
        for name in wanted:
            os.utime(self.room / "out" / name, (1, 1))
        (self.room / "out/00002.png").unlink()
        (self.room / "out/00002.png~").write_bytes(b"half of it")
        (self.room / "out/00009.png").write_bytes(b"")
        self.assertEqual(self.batch(text, "--resume", status=1), said)
        self.assertEqual(self.made(), wanted)
        self.assertEqual({it.name for it in (self.room / "out").iterdir() if it.stat().st_mtime > 1}, {"00002.png", "00009.png"})

    def test_only_some_parts_are_taken_before_they_are_written(self):
        taken = []

        def parts():
            for k in range(40):
                taken.append(k)
                yield Part(Settings("png"), [Label(k, "", "A")] * 500)

        for done, _ in enumerate(_stream.spread(len, parts(), 2)):
            self.assertLessEqual(len(taken), done + max(_stream.FEW // _stream.PART + 1, 2 + _stream.AHEAD))
        self.assertEqual((done, len(taken)), (39, 40))

    def test_a_long_line_is_cut(self):
        class Pieces:
            def __init__(self):
                self.left = 40

            def readline(self, size):
                return b"x\n"

            def read1(self, size):
                self.left -= 1
                return b"" if self.left < 0 else b"y" * (LINE_MAX // 10) if self.left else b"\nz"

        lines = list(_stream.Source(Pieces(), "", None).lines())
        self.assertEqual([(it[0], len(it)) for it in lines], [("x", 1), ("y", LINE_MAX), ("z", 1)])

    def test_a_part_on_another_machine(self):
        path = str(self.room / "a/b/1.png")
        done = write(Part(Settings("png", scale=1), [Label(7, path, "Shelf 1"), Label(8, "", ""), Label(9, "", Unreadable("why"))]))
        self.assertEqual((done.count, done.skipped, done.faults), (3, 0, [(8, "the input is empty"), (9, "why")]))
        self.assertEqual(self.made("a/b"), {"1.png": png("Shelf 1")})
        (self.room / "file").write_bytes(b"")
        for wrong in (Part(Settings("png"), [Label(1, str(self.room / "file/1.png"), "A")]),
                      Part(Settings("png"), [Label(1, "1.png", "A")], str(self.room / "file/1.tar"))):
            self.assertEqual([line for line, _ in write(wrong).faults], [1])

    def test_only_an_svg_of_one_symbol_has_a_caption(self):
        for settings in (Settings("png"), Settings("svg", is_series=True, version=3)):
            done = write(Part(settings, [Label(1, str(self.room / "a"), "A", "Shelf 1")]))
            self.assertEqual(done.faults, [(1, "only an SVG of one symbol has a caption")])

    def test_an_archive_that_is_there(self):
        part = Part(Settings("png", scale=1), [Label(1, "a.png", "A"), Label(2, "b.png", Unreadable("why"))], str(self.room / "a.tar"), True)
        self.assertEqual(write(part)[:3], (2, 0, [(2, "why")]))
        self.assertEqual(write(part)[:3], (2, 1, [(2, "why")]))

    def test_the_file_of_all_labels_is_whole_or_not_there(self):
        for path in (self.room / "a.zpl", self.room / "link.zpl"):
            with self.assertRaises(KeyError), qrproved.__main__.whole(str(path)) as file:
                file.write(b"half")
                raise KeyError
            self.assertEqual(list(self.room.iterdir()), [])
        with qrproved.__main__.whole(str(self.room / "a.zpl")) as file:
            file.write(b"half")
            self.assertEqual([it.name for it in self.room.iterdir()], ["a.zpl~"])
        self.assertEqual({it.name: it.read_bytes() for it in self.room.iterdir()}, {"a.zpl": b"half"})

    def test_how_far_a_batch_is(self):
        self.assertEqual(_stream.progress_of(1500, 1500, 3.0, 0.0, 0.25), "1,500 labels, 500 a second, 25 %, 0:00:09 left")
        # of a list of which a half was there before, a quarter more took 30 minutes
        self.assertEqual(_stream.progress_of(75, 25, 1800.0, 0.5, 0.75), "75 labels, 0 a second, 75 %, 0:30:00 left")
        self.assertEqual(_stream.progress_of(1000000, 3000, 2.0, 0.0, None), "1,000,000 labels, 1,500 a second")
        self.assertEqual(_stream.progress_of(500, 0, 0.0, 0.1, 0.1), "500 labels, 10 %")


if __name__ == "__main__":
    unittest.main()
