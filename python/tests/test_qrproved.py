"""What the package adds to the library: its types, its checks of arguments, and its refusals. The symbols themselves are
compared by tests/library."""
import array
import json
import pathlib
import re
import unittest
import unittest.mock
from xml.etree import ElementTree

import qrproved
from qrproved import Drawing, Level, Rule, SettingsError

# The symbol of 01234567 of version 1 and level M under mask 0.
EIGHT_DIGITS = bytes(map(int, "".join("""
    111111100011101111111
    100000101110001000001
    101110100110001011101
    101110100101101011101
    101110101101101011101
    100000100001001000001
    111111101010101111111
    000000000000000000000
    101010100010100010010
    110100001011010100010
    000110111011011101110
    110011010101110110010
    001001110111011100001
    000000001010001000010
    111111100000100010001
    100000100010001001011
    101110101110101011101
    101110100101010101110
    101110101101011100101
    100000100001110111000
    111111101001011100101""".split())))


def mended_with(**counts):
    """Returns what mend returns of the eight digits with some damage, of which no other counts than these are 0."""
    names = ("wrong_modules", "wrong_format_modules", "wrong_format_least", "changed_most", "spent_most", "worst_misread", "worst_unknown",
             "worst_unknown_wrong")
    return qrproved.Mended(qrproved.Content(b"01234567", 1, None), Level.M, 0, changed_allowed=4, **{**dict.fromkeys(names, 0), **counts})


def inverted(modules, *places):
    return bytes(module ^ (place in places) for place, module in enumerate(modules))


class Calls(unittest.TestCase):
    def test_a_symbol_of_the_standard_is_read(self):
        self.assertEqual(qrproved.read(EIGHT_DIGITS, 21), qrproved.Content(b"01234567", 1, None))

    def test_a_dark_module_is_any_byte_but_0(self):
        self.assertEqual(qrproved.read(bytes(255 * module for module in EIGHT_DIGITS) + b"more", 21).data, b"01234567")

    def test_a_mask_by_hand(self):
        symbol = qrproved.encode("01234567", level="M", boost=False, mask=0)
        self.assertEqual((symbol.modules, symbol.mask, symbol.level), (EIGHT_DIGITS, 0, Level.M))
        of_series = {"version": 1, "level": "H"}
        chosen = [qrproved.mend(it).mask for it in qrproved.encode_series("SHELF 12, CRATE 7", **of_series)]
        self.assertGreater(len(chosen), 1)
        for mask in range(8):
            mended = qrproved.mend(qrproved.encode("Shelf 12", mask=mask))
            self.assertEqual((mended.mask, mended.wrong_modules, mended.content.data), (mask, 0, b"Shelf 12"))
            logo = qrproved.encode("Shelf 12", mask=mask, logo=3)
            self.assertEqual((logo.mask, logo.logo, qrproved.mend(logo).mask, qrproved.read(logo).text()), (mask, 3, mask, "Shelf 12"))
            series = qrproved.encode_series("SHELF 12, CRATE 7", mask=mask, **of_series)
            self.assertEqual([(it.mask, qrproved.mend(it).mask, qrproved.mend(it).is_sound) for it in series], [(mask, mask, True)] * len(chosen))
            self.assertEqual(b"".join(qrproved.read(it).data for it in series), b"SHELF 12, CRATE 7")
        for wrong in (-1, 8, 2 ** 32, -2 ** 32 + 3):
            with self.assertRaisesRegex(SettingsError, f"mask is from 0 to 7, and not {wrong}"):
                qrproved.encode("A", mask=wrong)
        with self.assertRaisesRegex(TypeError, "mask is an integer, and not of type str"):
            qrproved.encode("A", mask="3")

    def test_a_symbol_has_its_numbers(self):
        symbol = qrproved.encode(b"01234567")
        self.assertEqual((symbol.version, symbol.side, len(symbol.modules)), (1, 21, 441))
        self.assertIn(symbol.mask, range(8))
        self.assertEqual(qrproved.read(symbol.modules, 21).data, b"01234567")

    def test_a_symbol_has_rows_and_columns(self):
        symbol = qrproved.Symbol(1, 21, 0, EIGHT_DIGITS)
        self.assertEqual([symbol[0, 6], symbol[0, 7], symbol[6, 0], symbol[7, 0], symbol[20, 20]], [True, False, True, False, True])
        self.assertEqual(symbol.rows(), [[symbol[row, column] for column in range(21)] for row in range(21)])
        for place in ((21, 0), (0, 21), (-1, 0), (0, -1)):
            with self.assertRaises(IndexError):
                symbol[place]

    def test_version_level_and_rule_reach_the_library(self):
        self.assertEqual(qrproved.encode(b"A", version=7).side, 45)
        self.assertEqual(qrproved.encode(b"7" * 7089, level=Level.L).version, 40)
        self.assertEqual(qrproved.encode(b"7" * 41, level=Level.L).version, 1)  # Table 7
        self.assertEqual(qrproved.encode(b"7" * 42, level=Level.L).version, 2)
        self.assertEqual(qrproved.encode(b"7" * 18, level=Level.L, rule=Rule.BYTES_ONLY).version, 2)
        self.assertEqual(qrproved.encode(b"\x93\x5f" * 10, level=Level.L, rule=Rule.WITH_KANJI).version, 1)
        for level in Level:
            symbol = qrproved.encode(b"A", level=level, boost=False)
            self.assertEqual(symbol.level, level)
            mended = qrproved.mend(symbol.modules, symbol.side)
            self.assertEqual((mended.level, mended.mask), (level, symbol.mask))

    def test_a_text_is_encoded_as_utf8(self):
        for text in ("Shelf 12", "Gr\u00fc\u00dfe", "\u30c6\U0001f600"):
            symbol = qrproved.encode(text, eci=False)
            self.assertEqual(symbol, qrproved.encode(text.encode()))
            self.assertEqual(qrproved.read(symbol).data.decode(), text)
            series = qrproved.encode_series(text * 20, version=1, level="L")
            self.assertEqual(b"".join(qrproved.read(it).data for it in series).decode(), text * 20)
        with self.assertRaises(ValueError):
            qrproved.encode("\ud800")

    def test_settings_have_names(self):
        for level in Level:
            for name in (level.name, level.name.lower(), level.value):
                self.assertEqual(qrproved.encode("A", level=name), qrproved.encode("A", level=level))
        for rule in Rule:
            for name in (rule.name, rule.name.lower(), rule.name.lower().replace("_", "-")):
                self.assertEqual(qrproved.encode("a12345678", rule=name), qrproved.encode("a12345678", rule=rule))
        symbol = qrproved.encode("A")
        self.assertEqual(symbol.text(drawing="ascii"), symbol.text(drawing=Drawing.ASCII))
        for name in ("Z", "", "L "):
            with self.assertRaisesRegex(SettingsError, "level is 'L', 'M', 'Q' or 'H', and not "):
                qrproved.encode("A", level=name)

    def test_the_defaults_are_those_of_the_command(self):
        symbol = qrproved.encode("A", boost=False)
        self.assertEqual((symbol.level, qrproved.mend(symbol).level, symbol.version), (Level.L, Level.L, 1))
        self.assertEqual(symbol.text(), symbol.text(margin=4))
        self.assertEqual({it.level for it in qrproved.encode_series("A" * 100, version=1)}, {Level.L})

    def test_what_is_shown_of_a_symbol(self):
        symbol = qrproved.encode("A", version=7, level="m", boost=False)
        self.assertEqual(repr(symbol), f"<Symbol 7-M, mask {symbol.mask}>")
        self.assertEqual(repr(qrproved.encode_series("A", version=2, level="q")[0]), "<Symbol 2-Q>")
        self.assertEqual(repr(qrproved.Symbol(1, 21, 0, EIGHT_DIGITS)), "<Symbol 1, mask 0>")
        self.assertEqual(str(symbol) + "\n", symbol.text())

    def test_a_symbol_and_its_content_as_json(self):
        symbol = qrproved.Symbol(1, 21, 0, EIGHT_DIGITS, Level.M)
        written = json.loads(json.dumps(symbol.to_dict()))
        self.assertEqual(written, {"version": 1, "side": 21, "mask": 0, "level": "M", "rows": written["rows"]})
        self.assertEqual("".join(written["rows"]), "".join(map(str, EIGHT_DIGITS)))
        self.assertEqual(written["rows"][0], "111111100011101111111")
        series = qrproved.encode_series(b"ab" * 20, version=1)
        self.assertEqual(json.loads(json.dumps(qrproved.read(series[0]).to_dict()))["header"], {"position": 0, "last": len(series) - 1, "parity": 0})
        self.assertEqual(qrproved.read(qrproved.encode(b"A\xff")).to_dict(),
                         {"data": [65, 255], "version": 1, "header": None, "ecis": [], "gs1": False, "application": None, "kanji": False})

    def test_content_as_text(self):
        self.assertEqual(qrproved.mend(qrproved.encode("Gr\u00fc\u00dfe")).content.text(), "Gr\u00fc\u00dfe")
        with self.assertRaises(UnicodeDecodeError):
            qrproved.read(qrproved.encode(b"A\xff")).text()

    def test_a_refusal_says_how_many_bytes_there_were_and_fit(self):
        head = "the input has 3,000 bytes and does not fit a symbol: version 40-"
        for named, tail in (({}, "L holds 2,953 bytes, 4,296 alphanumeric characters or 7,089 digits"),
                            ({"level": "M", "rule": "bytes_only"}, "M holds 2,331 bytes"),
                            ({"level": "Q", "rule": "with_kanji"}, "Q holds 1,663 bytes, 2,420 alphanumeric characters, 3,993 digits or 1,024 kanji"),
                            ({"level": "H", "version": 7}, "H holds 1,273 bytes, 1,852 alphanumeric characters or 3,057 digits"),
                            # 23,648 bits, of which 12 and 28 are the header, and 20 the mode and the count of bytes
                            ({"eci": 26, "rule": "bytes_only"}, "L holds 2,952 bytes"),
                            ({"eci": 999999, "rule": "bytes_only"}, "L holds 2,950 bytes")):
            with self.assertRaises(qrproved.TooLongError) as refused:
                qrproved.encode(b"x" * 3000, **named)
            self.assertEqual(str(refused.exception), head + tail)
        with self.assertRaises(qrproved.TooManyError) as refused:
            qrproved.encode_series("x" * 1000, version=1, level="H")
        self.assertEqual(str(refused.exception), "the input has 1,000 bytes and takes more than 16 symbols of version 1-H")

    def test_a_symbol_is_read_with_its_own_side(self):
        symbol = qrproved.encode("A", version=3)
        self.assertEqual(qrproved.read(symbol), qrproved.read(symbol.modules, symbol.side))
        self.assertEqual(qrproved.mend(symbol), qrproved.mend(symbol.modules, symbol.side))

    def test_a_series_is_read_and_joined(self):
        data = b"ABCDEFGH" * 6
        series = qrproved.encode_series(data, version=1, level=Level.L)
        contents = [qrproved.read(symbol.modules, symbol.side) for symbol in series]
        self.assertGreater(len(series), 1)
        self.assertEqual(b"".join(content.data for content in contents), data)
        self.assertEqual([content.header for content in contents], [(k, len(series) - 1, 0) for k in range(len(series))])
        self.assertEqual({(it.version, it.side, it.mask) for it in series}, {(1, 21, None)})

    def test_one_plain_symbol_is_a_series(self):
        series = qrproved.encode_series(b"A", version=1, level=Level.L)
        self.assertEqual([symbol.modules for symbol in series], [qrproved.encode(b"A", level=Level.L, boost=False).modules])

    def test_a_sound_symbol(self):
        mended = qrproved.mend(EIGHT_DIGITS, 21)
        self.assertEqual(mended, mended_with())
        self.assertEqual((mended.is_sound, mended.spent, mended.spent_here, mended.scannable), (True, 0.0, 0.0, True))

    def test_damage_is_counted(self):
        timing, last, format_module = 6 * 21 + 8, 20 * 21 + 20, 8 * 21
        mended = qrproved.mend(inverted(EIGHT_DIGITS, timing, last, format_module), 21)
        self.assertEqual(mended, mended_with(wrong_modules=3, wrong_format_modules=1, changed_most=1, spent_most=2, worst_misread=1))
        self.assertEqual((mended.is_sound, mended.spent, mended.spent_here, mended.scannable), (False, 0.25, 0.25, True))

    def test_a_scanner_takes_what_is_not_known_as_wrong(self):
        modules = bytearray(inverted(EIGHT_DIGITS, 12 * 21 + 20))  # of the codeword in rows 9 to 12 of the last two columns
        for row in (18, 20, 13):  # of the codewords in rows 17 to 20, two dark modules, and in rows 13 to 16, a light one
            modules[row * 21 + 20] = 2
        mended = qrproved.mend(modules, 21)
        self.assertEqual(mended, mended_with(wrong_modules=4, changed_most=1, spent_most=4, worst_misread=1, worst_unknown=2, worst_unknown_wrong=1))
        self.assertEqual((mended.spent, mended.spent_here, mended.scannable), (0.75, 0.5, True))

    def test_a_scanner_needs_a_copy_of_the_format_information(self):
        # modules of both copies: below and beside the finder pattern at the top left, and beside the other two (7.9.1)
        first, second = [(row, 8) for row in range(6)], [(8, 20 - k) for k in range(6)]
        for count, is_scannable in ((3, True), (4, False)):
            modules = bytearray(EIGHT_DIGITS)
            for row, column in first[:4] + second[:count]:
                modules[row * 21 + column] = 2
            mended = qrproved.mend(modules, 21)
            self.assertEqual(mended, mended_with(wrong_modules=4 + count, wrong_format_modules=4 + count, wrong_format_least=count))
            self.assertEqual((mended.spent, mended.scannable), (0.0, is_scannable))

    def test_a_symbol_is_drawn_as_text(self):
        symbol = qrproved.Symbol(1, 21, 0, EIGHT_DIGITS)
        light = [[False] * 23]
        rows = light + [[False, *row, False] for row in symbol.rows()] + light * 2  # the half below the last line is light
        for drawing, kinds in ((Drawing.ASCII, ("##", "  ")), (Drawing.ASCII_INVERSE, ("  ", "##"))):
            lines = ["".join(kinds[0] if dark else kinds[1] for dark in row) for row in rows[:-1]]
            self.assertEqual(symbol.text(drawing=drawing, margin=1), "".join(line + "\n" for line in lines))
        halves = {(False, False): "\u2588", (False, True): "\u2580", (True, False): "\u2584", (True, True): " "}
        lines = ["".join(halves[pair] for pair in zip(rows[y], rows[y + 1])) for y in range(0, 22, 2)]
        self.assertEqual(symbol.text(margin=1).splitlines()[:11], lines)
        self.assertEqual(qrproved.draw([symbol, symbol], margin=1).decode(), symbol.text(margin=1) * 2)
        self.assertEqual(qrproved.draw(symbol, margin=1).decode(), symbol.text(margin=1))

    def test_a_symbol_is_drawn_as_svg(self):
        symbol = qrproved.Symbol(1, 21, 0, EIGHT_DIGITS)
        picture = ElementTree.fromstring(symbol.svg())
        self.assertEqual(picture.get("viewBox"), "0 0 29 29")
        (path,) = [it.get("d") for it in picture.iter("{http://www.w3.org/2000/svg}path")]
        runs = {(int(y), int(x) + k) for x, y, run in re.findall(r"M(\d+) (\d+)h(\d+)", path) for k in range(int(run))}
        self.assertEqual(runs, {(row + 4, column + 4) for row in range(21) for column in range(21) if symbol[row, column]})
        self.assertIn(b"viewBox=\"0 0 21 42\"", qrproved.draw([symbol] * 2, drawing=Drawing.SVG, margin=0))

    def test_a_document_within_a_page(self):
        symbol = qrproved.encode("A")
        for named in ({}, {"margin": 1}, {"mm": 20}):
            head, inline = symbol.svg(**named).split(b"\n", 1)
            self.assertEqual((head, symbol.svg(inline=True, **named)), (b'<?xml version="1.0" encoding="UTF-8"?>', inline))
            self.assertTrue(inline.startswith(b"<svg "))
            self.assertEqual(symbol.svg(inline=False, **named), symbol.svg(**named))
        self.assertEqual(qrproved.parse_picture(symbol.svg(inline=True)), [(symbol.modules, symbol.side)])
        with self.assertRaisesRegex(TypeError, "^inline is True or False"):
            symbol.svg(inline=1)

    def test_modules_that_are_not_known(self):
        modules = bytearray(EIGHT_DIGITS)
        for row in range(9, 21):  # six codewords; eight can be mended
            modules[row * 21 + 18] = modules[row * 21 + 20] = 2
        mended = qrproved.mend(modules, 21)
        # each has a light module
        self.assertEqual(mended, mended_with(wrong_modules=24, spent_most=6, worst_unknown=6, worst_unknown_wrong=6))
        self.assertEqual((mended.is_sound, mended.spent, mended.spent_here, mended.scannable), (False, 1.5, 0.75, False))

    def test_all_kinds_of_bytes_are_taken(self):
        wanted = qrproved.encode(b"AB12")
        for data in (bytearray(b"AB12"), memoryview(b"AB12"), memoryview(b"A?B?1?2?")[::2], array.array("B", b"AB12")):
            self.assertEqual(qrproved.encode(data), wanted)


class Refusals(unittest.TestCase):
    def refused(self, kind, status, call, *given, **named):
        with self.assertRaises(kind) as caught:
            call(*given, **named)
        self.assertIsInstance(caught.exception, qrproved.Error)
        self.assertIs(type(caught.exception), kind)
        self.assertEqual(caught.exception.status, status)
        self.assertTrue(str(caught.exception))

    def test_settings_without_a_name(self):
        symbol, listed = qrproved.encode("A"), "encode: version, level, rule, eci, gs1, boost, mask, logo and share are given by name: "
        rows = [(lambda: qrproved.encode("A", 7, "Q"), listed + "encode(data, version=7, level='Q')"),
                (lambda: qrproved.encode("A", Level.Q), listed + "encode(data, level='Q')"),
                (lambda: qrproved.encode("A", "q", 7, Rule.AUTO), listed + "encode(data, level='q', version=7, rule='AUTO')"),
                (lambda: qrproved.encode_series("A", 5), "encode_series(data, version=5)"),
                (lambda: qrproved.draw([symbol], Drawing.SVG), "draw(symbols, drawing='SVG')"),
                (lambda: symbol.png(4), "png(scale=4)"), (lambda: symbol.svg(4), "svg(margin=4)"),
                (lambda: symbol.save("a.png", 4), "save(path, scale=4)")]
        for call, wanted in rows:
            with self.assertRaises(TypeError) as caught:
                call()
            self.assertIn(wanted, str(caught.exception))

    def test_options_of_other_packages(self):
        symbol, of_encode = qrproved.encode("A"), "there are version, level, rule, eci, gs1, boost, mask, logo, share"
        rows = [(lambda: qrproved.encode("A", error="H"), "error; did you mean level?"),
                (lambda: qrproved.encode("A", error_correction=1), "error_correction; did you mean level?"),
                (lambda: qrproved.encode("A", boost_error=False), "boost_error; did you mean boost?"),
                (lambda: qrproved.encode("A", masks=3), f"masks; {of_encode}"), (lambda: qrproved.encode("A", border=4), f"border; {of_encode}"),
                (lambda: qrproved.encode_series("A", version=1, boost=True), "boost; there are version, level, rule, eci, gs1, mask"),
                (lambda: symbol.png(border=4), "border; did you mean margin?"), (lambda: symbol.png(box_size=4), "box_size; did you mean scale?"),
                (lambda: symbol.png(title="A"), "title; there are scale, margin, mm, dpi, fit_mm, dark, light, inverse, logo"),
                (lambda: symbol.svg(back_color="red"), "back_color; did you mean light?"), (lambda: symbol.svg(svgclass="a"), "svgclass; did you mean class_name?"),
                (lambda: symbol.svg(scale=3), "scale; there are margin, mm, inline, dark, light, inverse, title, class_name, caption, logo"),
                (lambda: symbol.save("a.png", title="A"), "title; there are scale, margin, mm, dpi, kind, x, y, fit_mm, dark, light, inverse, logo"),
                (lambda: symbol.data_uri(border=1), "border; did you mean margin?"), (lambda: symbol.text(border=1), "border; did you mean margin?"),
                (lambda: qrproved.draw(symbol, compact=True), "compact; there are drawing, margin")]
        for call, wanted in rows:
            with self.assertRaises(TypeError) as caught:
                call()
            self.assertEqual(str(caught.exception), f"there is no option {wanted}")

    def test_what_is_neither_modules_nor_a_picture(self):
        symbol = qrproved.encode("A")
        for call in (qrproved.read, qrproved.mend):
            for given in (symbol.png()[1:], b"", symbol.text().encode(), None, [1]):
                with self.assertRaisesRegex(TypeError, f"^{call.__name__}: .*; .* picture.*, and for a drawing as text call parse_drawing"):
                    call(given)
            with self.assertRaisesRegex(TypeError, f"^{call.__name__}: modules are bytes, and not of type str; a picture is given alone"):
                call("label.png", 21)
            for given in ("no label.png", pathlib.Path("no label.png")):
                with self.assertRaises(FileNotFoundError):
                    call(given)
        with self.assertRaisesRegex(TypeError, "^the drawing is a text or bytes, and not of type"):
            qrproved.parse_drawing(pathlib.Path("label.txt"))

    def test_inputs(self):
        self.refused(qrproved.EmptyError, 1, qrproved.encode, b"")
        self.refused(qrproved.EmptyError, 1, qrproved.encode_series, b"", version=1)
        self.refused(qrproved.TooLongError, 2, qrproved.encode, b"7" * 7090, level=Level.L)
        self.refused(qrproved.TooManyError, 3, qrproved.encode_series, b"a" * 1000, version=1)

    def test_numbers_out_of_range(self):
        for name, numbers in {"version": (0, 41, -1, 256, 257, 1 << 64), "level": (-1, 4, 256, 1 << 32), "rule": (-1, 3, 257),
                              "eci": (-1, 1_000_000, 1_000_001, 1 << 32)}.items():
            for number in numbers:
                settings = {"version": 1, name: number}
                self.refused(qrproved.SettingsError, 5, qrproved.encode, b"A", **settings)
                self.refused(qrproved.SettingsError, 5, qrproved.encode_series, b"A", **settings)
        for boost in (0, 1, None, "yes"):
            with self.assertRaisesRegex(TypeError, "^boost is True or False"):
                qrproved.encode(b"A", boost=boost)
        for side in (0, 17, 20, 22, 181, -21, 21 + 256, 1 << 64):
            self.refused(qrproved.SideError, 7, qrproved.read, EIGHT_DIGITS, side)
            self.refused(qrproved.SideError, 7, qrproved.mend, EIGHT_DIGITS, side)

    def test_drawings(self):
        symbol = qrproved.Symbol(1, 21, 0, EIGHT_DIGITS)
        for named in ({"margin": -1}, {"margin": 101}, {"margin": 1 << 32}, {"drawing": 4}, {"drawing": -1}):
            self.refused(qrproved.SettingsError, 5, qrproved.draw, [symbol], **named)
        for symbols in ([], [symbol] * 17, [symbol, qrproved.encode(b"A", version=2)], [qrproved.Symbol(1, 178, 0, b"")]):
            self.refused(qrproved.SettingsError, 5, qrproved.draw, symbols)
        self.refused(qrproved.RoomError, 6, qrproved.draw, [symbol, qrproved.Symbol(1, 21, 0, EIGHT_DIGITS[:-1])])
        with self.assertRaises(TypeError):
            symbol.svg(margin=True)

    def test_what_is_no_number(self):
        for other in (True, 1.0, "1", None, b"1"):
            for name in ("version", "level", *(["rule", "eci"] if other is not None else [])):
                kind = SettingsError if other == "1" and name in ("level", "rule") else TypeError  # a name, but of none
                with self.assertRaises(kind):
                    qrproved.encode(b"A", **{name: other})
                with self.assertRaises(kind):
                    qrproved.encode_series(b"A", **{"version": 1, name: other})
            for call in (qrproved.read, qrproved.mend):
                with self.assertRaises(TypeError):
                    call(EIGHT_DIGITS, other)

    def test_what_is_no_bytes(self):
        for other in (5, None, [1, 2]):
            with self.assertRaisesRegex(TypeError, f"^the input is a text or bytes, and not of type {type(other).__name__}$"):
                qrproved.encode(other)
        for other in ("A", 5, None, [1, 2]):
            with self.assertRaises(TypeError):
                qrproved.read(other, 21)

    def test_squares(self):
        for call in (qrproved.read, qrproved.mend):
            self.refused(qrproved.RoomError, 6, call, EIGHT_DIGITS[:-1], 21)
            self.refused(qrproved.RoomError, 6, call, b"", 177)
        self.refused(qrproved.SettingsError, 5, qrproved.mend, EIGHT_DIGITS[:-1] + b"\3", 21)
        self.refused(qrproved.FormatError, 8, qrproved.read, bytes(441), 21)
        self.refused(qrproved.CheckError, 9, qrproved.read, inverted(EIGHT_DIGITS, 440), 21)
        region = range(9 * 21 + 9, 16 * 21)
        self.refused(qrproved.CheckError, 9, qrproved.mend, inverted(EIGHT_DIGITS, *region), 21)

    def test_a_library_of_another_version_is_refused(self):
        with unittest.mock.patch.object(qrproved._library, "VERSION_NUMBER", 12345):
            with self.assertRaisesRegex(ImportError, r"its version is \d+\.\d+\.\d+, and that of the package 1\.23\.45$"):
                qrproved._library.load()

    def test_each_status_has_an_exception(self):
        kinds = [kind for kind in vars(qrproved).values() if isinstance(kind, type) and issubclass(kind, qrproved.Error)]
        self.assertEqual(sorted(kind.status for kind in kinds), list(range(14)))


if __name__ == "__main__":
    unittest.main()
