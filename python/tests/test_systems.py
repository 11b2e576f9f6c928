"""What is different on the systems that the package runs on. The name of the system is replaced here, and nothing else."""
import contextlib
import io
import os
import pathlib
import sys
import tempfile
import unittest
import unittest.mock

import qrproved
import qrproved.__main__
from qrproved import _library

NAMES = {"linux": "libqrproved.so.1", "darwin": "libqrproved.1.dylib", "win32": "qrproved.dll", "freebsd14": "libqrproved.so.1"}


class Systems(unittest.TestCase):
    def setUp(self):
        folder = tempfile.TemporaryDirectory()
        self.addCleanup(folder.cleanup)
        self.room = pathlib.Path(folder.name)

    def path_on(self, system):
        """Returns what is loaded on a system by a package in this folder, where no library is named or installed."""
        with unittest.mock.patch("sys.platform", system), unittest.mock.patch.object(_library, "__file__", str(self.room / "_library.py")), \
                unittest.mock.patch.dict(os.environ), unittest.mock.patch("ctypes.util.find_library", lambda name: None):
            os.environ.pop(_library.VARIABLE, None)
            return _library.path_of_library()

    def test_the_library_has_the_name_of_the_system(self):
        for system, name in NAMES.items():
            with self.assertRaisesRegex(ImportError, f"^{name} is neither beside the package"):
                self.path_on(system)
        for name in NAMES.values():
            (self.room / name).write_bytes(b"")
        self.assertEqual({system: self.path_on(system) for system in NAMES}, {system: str(self.room / name) for system, name in NAMES.items()})

    def said_on(self, system, *words):
        """Returns the status of the command and what it writes."""
        out = io.TextIOWrapper(io.BytesIO(), "utf-8", newline="\n")
        with unittest.mock.patch("sys.platform", system), contextlib.redirect_stdout(out):
            status = qrproved.__main__.main([*map(str, words)])
        return status, out.buffer.getvalue().decode()

    def test_patterns_of_names(self):
        of = {}
        for name in ("1.png", "[1].png", "a.png", "b.png", "a.svg"):
            symbol = qrproved.encode(name, level="h")
            symbol.save(self.room / name)
            of[name] = f"  sound: {symbol.version}-{symbol.level.name}, mask {symbol.mask}\n  contains {name}\n"
        wanted = "".join(f"{self.room / name}:\n{it}" for name, it in of.items() if name.endswith(".png"))
        self.assertEqual(self.said_on("win32", "check", self.room / "*.png"), (0, wanted))
        self.assertEqual(self.said_on("win32", "check", self.room / "[1].png"), (0, of["[1].png"].replace("  ", "")))
        with contextlib.redirect_stderr(io.StringIO()) as said:
            self.assertEqual(self.said_on("win32", "check", self.room / "*.txt"), (2, ""))
            self.assertEqual(self.said_on(sys.platform, "check", self.room / "*.png"), (2, ""))
        self.assertIn("*.txt", said.getvalue())

    def test_a_symbol_for_a_console(self):
        """A console of Windows takes UTF-8 of what is written as bytes, and characters of what is printed."""
        symbol = qrproved.encode("Gr\u00fc\u00dfe")
        self.assertEqual(self.said_on("win32", "Gr\u00fc\u00dfe"), (0, symbol.text()))
        symbol.save(self.room / "a.png")
        self.assertIn("contains Gr\u00fc\u00dfe\n", self.said_on("win32", "check", self.room / "a.png")[1])


if __name__ == "__main__":
    unittest.main()
