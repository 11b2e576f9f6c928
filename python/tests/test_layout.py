"""The structs that ctypes passes, beside the layout that include/qrproved.h asks of a compiler."""
import ctypes
import pathlib
import re
import unittest

from qrproved import _library

HEADER = pathlib.Path(__file__).resolve().parents[2] / "include/qrproved.h"
# In C a struct is named qrproved_symbol, and here Symbol.
STRUCTS = {f"qrproved_{name.lower()}": it for name, it in vars(_library).items()
           if isinstance(it, type) and issubclass(it, ctypes.Structure)}


@unittest.skipUnless(HEADER.exists(), "the header is not beside the package")
class Layout(unittest.TestCase):
    def setUp(self):
        text = HEADER.read_text(encoding="utf-8")
        self.sizes = dict(re.findall(r"QRPROVED_HOLDS\(sizeof\(struct (\w+)\) == (\d+)\);", text))
        self.offsets = re.findall(r"QRPROVED_HOLDS\(offsetof\(struct (\w+), (\w+)\) == (\d+)\);", text)
        self.constants = dict(re.findall(r"#define QRPROVED_(\w+) (\d+)", text))

    def test_each_struct_has_the_size_of_the_header(self):
        self.assertEqual(ctypes.sizeof(ctypes.c_size_t), 8)
        self.assertEqual({name: ctypes.sizeof(it) for name, it in STRUCTS.items()},
                         {name: int(size) for name, size in self.sizes.items() if name in STRUCTS})

    def test_each_field_has_the_offset_of_the_header(self):
        for name, it in STRUCTS.items():
            wanted = {field: int(offset) for struct, field, offset in self.offsets if struct == name}
            self.assertEqual({field: getattr(it, field).offset for field, _ in it._fields_}, wanted, name)

    def test_the_sizes_of_buffers_are_those_of_the_header(self):
        ours = {name: it for name, it in vars(_library).items() if name.endswith("_MAX")}
        self.assertEqual(ours, {name: int(self.constants[name]) for name in ours})


if __name__ == "__main__":
    unittest.main()
