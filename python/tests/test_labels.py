"""Symbols with ECI headers and FNC1: the text and the fields of what others encoded. The symbols are those of tests/labels.jsonl,
which the words that made them explain, and some whose codewords were written by hand."""
import hashlib
import json
import os
import pathlib
import re
import subprocess
import sys
import unittest

import qrproved
from qrproved import Content, Eci, EciError, Gs1Error

PATH = pathlib.Path(__file__).resolve().parents[2] / "tests/labels.jsonl"
LABELS = [json.loads(line) for line in PATH.read_text("utf-8").splitlines()]
# FNC1 in second position, and what is in byte and alphanumeric mode after it: application 37 with AA12, application a with A 1D B.
APPLICATION_37 = "1fc97f82ca0dd2576eb2bb7495d82ca0ff55fc01201f79aa0d892a334b3f3251bcd2400a94ff449209a4d75d26ba896dd44b20a255fd921"
APPLICATION_A = "1fc97f82ca0dd2576eb2bb7495d82ca0ff55fc01201f79aac9497b79493852482452c008927f64ba092557592eba8965d649e0a24dfd921"
# An ECI, bytes, and their characters, by the tables of the character sets.
SETS = [
    (0, b"\x81\x84\xe1", "üäß"),
    (1, b"\xdc\x9d", "Ü\x9d"),
    (2, b"\x9b\xfe", "¢■"),
    (4, b"\xb3\xf3d\xbc", "łódź"),
    (7, b"\xbc\xd8\xe0", "Мир"),
    (11, b"\xdd\xfd\xf0", "İığ"),
    (13, b"\xa1\xd2", "กา"),
    (17, b"\xa4", "€"),
    (20, b"\x93\x5f\x83\x65\xb1", "点テｱ"),
    (22, b"\xcf\xf0", "Пр"),
    (23, b"\x80", "€"),
    (25, b"\x70\xb9\x00A", "点A"),
    (27, b"A~", "A~"),
    (28, b"\xa4\xa4", "中"),
    (29, b"\xd6\xd0", "中"),
    (30, b"\xb0\xa1", "가"),
]
# SHA-256 of the character of each byte in each of these sets, with U+FFFD for none; js/tests/qrproved.test.js has the same.
SINGLE_BYTES = "2e4d953e822aa78687c03e4c764715542b1cae556d237905f22a7de38e10f7b7"
NUMBERS = [*range(14), *range(15, 19), *range(20, 31), 32]
# GS1 data, and their fields.
FIELDS = [
    (b"0104012345678901" b"10ABC123\x1d17261231", [("01", "04012345678901"), ("10", "ABC123"), ("17", "261231")]),
    (b"00340123450000000000", [("00", "340123450000000000")]),
    (b"3103001250" b"20" b"01", [("3103", "001250"), ("20", "01")]),
    (b"3922199\x1d37" b"12", [("3922", "199"), ("37", "12")]),
    (b"3912978" b"199", [("3912", "978199")]),
    (b"4104012345000009" b"21a%_", [("410", "4012345000009"), ("21", "a%_")]),
    (b"422276\x1d" b"90x", [("422", "276"), ("90", "x")]),
    (b"8003" b"04012345678901" b"A1", [("8003", "04012345678901A1")]),
    (b"8003" b"04012345678901", [("8003", "04012345678901")]),
    (b"8006" b"04012345678901" b"0102", [("8006", "040123456789010102")]),
    (b"8006" b"37654974601547" b"4545", [("8006", "376549746015474545")]),
    (b"8011" b"921919\x1d8011" b"0\x1d8011" b"120", [("8011", "921919"), ("8011", "0"), ("8011", "120")]),
    # the example of the General Specifications
    (b"8013" b"1987654Ad4X4bL5ttr2310c2K", [("8013", "1987654Ad4X4bL5ttr2310c2K")]),
    (b"800826123123" b"59", [("8008", "2612312359")]),
    (b"17261200" b"\x1d" b"8020A1\x1d", [("17", "261200"), ("8020", "A1")]),
    (b"99" + b"z" * 90, [("99", "z" * 90)]),
    (b"423056\x1d" b"425056276", [("423", "056"), ("425", "056276")]),
    (b"17280229" b"11000229" b"15270200", [("17", "280229"), ("11", "000229"), ("15", "270200")]),
]
# GS1 data with a wrong field, and what the error says.
WRONG = [
    (b"0104012345678902", r"^\(01\) its check digit is 2, and should be 1$"),
    (b"010401234567890", r"^\(01\) has 14 characters, and not 13$"),
    (b"00" + b"3" * 17 + b"\x1d", r"^\(00\) has 18 characters, and not 17$"),
    (b"10" + b"A" * 21, r"^\(10\) has 1 to 20 characters, and not 21$"),
    (b"10\x1d17261231", r"^\(10\) has 1 to 20 characters, and not 0$"),
    (b"17261331", r"^\(17\) 261331 is no date$"),
    (b"17260230", r"^\(17\) 260230 is no date$"),
    (b"17270229", r"^\(17\) 270229 is no date$"),
    (b"800826120012", r"^\(8008\) 261200 is no date$"),
    (b"4230560", r"^\(423\) 0560 is not of codes of three digits$"),
    (b"42305", r"^\(423\) has 3 to 15 characters, and not 2$"),
    (b"800314012345678908", r"^\(8003\) its first digit is 1, and should be 0$"),
    (b"8006" b"37654974601547" b"5845", r"^\(8006\) there is no piece 58 of 45$"),
    (b"8006" b"37654974601547" b"0001", r"^\(8006\) there is no piece 00 of 01$"),
    (b"8006" b"37654974601547" b"0100", r"^\(8006\) there is no piece 01 of 00$"),
    (b"8006" b"37654974601546" b"5845", r"^\(8006\) its check digit is 6, and should be 7$"),
    (b"8011" b"0921919", r"^\(8011\) 0921919 begins with 0$"),
    (b"8011" b"00", r"^\(8011\) 00 begins with 0$"),
    (b"8013" b"1987654Ad4X4bL5ttr2310c2L", r"^\(8013\) its check characters are 2L, and should be 2K$"),
    (b"8013" b"A987654Ad4X4bL5ttr2310c2K", r"^\(8013\) its check characters are 2K, and should be 9K$"),
    (b"8013" b"1234", r"^\(8013\) its check characters are 34, and should be 4A$"),
    (b"8013" b"2", r"^\(8013\) has 2 to 25 characters, and not 1$"),
    (b"3712A", r"^\(37\) 'A' is not a digit$"),
    (b"10A B", r"^\(10\) ' ' is not a character of GS1's set 82$"),
    (b"8010a", r"^\(8010\) 'a' is not a character of GS1's set 39$"),
    (b"8008261231" b"24", r"^\(8008\) 24 is no hour$"),
    (b"8008261231" b"23599", r"^\(8008\) 599 is no time$"),
    (b"37" b"12\x1d\x1d20" b"01", "begins '.x1d20"),
    (b"0512", "begins '0512'$"),
    (b"3106000000", "begins '3106'$"),
    (b"", "no field"),
]


def modules_of(rows, side=21):
    return bytes(map(int, f"{int(rows, 16):0{side * side}b}"))


def content_of(by):
    """Returns the content of the label that these words made."""
    row = next(it for it in LABELS if it["by"] == by)
    return qrproved.read(modules_of(row["rows"], row["side"]), row["side"])


def gs1(data):
    return Content(data, 1, None, (), True)


class Texts(unittest.TestCase):
    def test_texts_by_their_ecis(self):
        for by, eci, text in (("zint --eci=3 -d Ünïcödé --secure=1", 3, "Ünïcödé"), ("zint --eci=9 -d Ελληνικά --secure=2", 9, "Ελληνικά"),
                              ("segno 価格", 26, "価格")):
            content = content_of(by)
            self.assertEqual((content.ecis, content.text(), content.gs1, content.application), ((Eci(0, eci),), text, False, None))

    def test_two_ecis_of_which_one_means_bytes(self):
        content = content_of("zint --eci=20 -d 0123456789 --secure=3 --seg1=899,ABC-123 %45")
        self.assertEqual((content.data, content.ecis), (b"0123456789ABC-123 %45", (Eci(0, 20), Eci(10, 899))))
        with self.assertRaisesRegex(EciError, "ECI 899 means bytes"):
            content.text()

    def test_all_texts_of_zint(self):
        tried = 0
        for row in LABELS:
            words = re.fullmatch(r"zint --eci=\d+ -d (.*) --secure=\d( --vers=\d+)?", row["by"])
            if words:
                tried += 1
                self.assertEqual(content_of(row["by"]).text(), words[1], row["by"])
        self.assertGreater(tried, 50)

    def test_character_sets(self):
        for number, data, text in SETS:
            self.assertEqual(Content(data, 1, None, (Eci(0, number),)).text(), text, number)

    def test_each_byte_of_each_character_set(self):
        def character(number, byte):
            try:
                return Content(bytes([byte]), 1, None, (Eci(0, number),)).text()
            except UnicodeDecodeError:
                return "\ufffd"
        said = "".join(character(number, byte) for number in NUMBERS for byte in range(256))
        self.assertEqual(hashlib.sha256(said.encode()).hexdigest(), SINGLE_BYTES)

    def test_where_bytes_are_no_characters_is_said(self):
        for data, start in ((b"\x80", 0), (b"A\x93\x5f\xb1\xfdB", 4)):
            with self.assertRaises(UnicodeDecodeError) as refused:
                Content(data, 1, None, (Eci(0, 20),)).text()
            self.assertEqual((refused.exception.object, refused.exception.start, refused.exception.end), (data, start, start + 1))

    def test_bytes_before_the_first_header_are_utf8(self):
        content = Content("é".encode() + b"\xe9" + "é".encode(), 1, None, (Eci(2, 3), Eci(3, 26)))
        self.assertEqual(content.text(), "ééé")
        self.assertEqual(Content(b"A", 1, None, (Eci(0, 26), Eci(1, 811799))).text(), "A")  # of no byte
        for number, data in ((26, b"\xc3"), (27, b"\x80"), (20, b"\x93")):
            with self.assertRaises(UnicodeDecodeError):
                Content(data, 1, None, (Eci(0, number),)).text()

    def test_an_eci_that_is_not_known_is_named(self):
        for number in (14, 127, 128, 899, 16384, 999999):
            with self.assertRaisesRegex(EciError, f"ECI {number} "):
                Content(b"A", 1, None, (Eci(0, number),)).text()


class Fields(unittest.TestCase):
    def test_fields_of_a_label(self):
        content = content_of("zint --gs1 -d [10]9NJY[8008]37090120 --secure=2")
        self.assertEqual((content.data, content.gs1, content.ecis, content.application), (b"109NJY\x1d800837090120", True, (), None))
        self.assertEqual(content.fields(), [("10", "9NJY"), ("8008", "37090120")])

    def test_all_fields_of_zint(self):
        tried = 0
        for row in LABELS:
            words = re.fullmatch(r"zint --gs1 (?:--structapp=\S+ )?-d (\S+) --secure=\d( --vers=\d+)?", row["by"])
            if words:
                tried += 1
                self.assertEqual(content_of(row["by"]).fields(), re.findall(r"\[(\d+)\]([^[]+)", words[1]), row["by"])
        self.assertEqual(tried, sum(row["fnc1"] == "gs1" for row in LABELS))

    def test_each_identifier(self):
        for data, fields in FIELDS:
            self.assertEqual(gs1(data).fields(), fields, data)

    def test_wrong_fields_are_named(self):
        for data, why in WRONG:
            with self.assertRaisesRegex(Gs1Error, why):
                gs1(data).fields()
        with self.assertRaisesRegex(Gs1Error, "does not say"):
            Content(b"3712", 1, None).fields()


class Others(unittest.TestCase):
    def test_an_application_indicator(self):
        for rows, data, application in ((APPLICATION_37, b"AA12", "37"), (APPLICATION_A, b"A\x1dB", "a")):
            content = qrproved.mend(modules_of(rows), 21).content
            self.assertEqual((content.data, content.application, content.gs1, content.ecis), (data, application, False, ()))

    def test_json(self):
        wanted = {"data": list(b"AA12"), "version": 1, "header": None, "ecis": [], "gs1": False, "application": "37", "kanji": False}
        self.assertEqual(qrproved.read(modules_of(APPLICATION_37), 21).to_dict(), wanted)
        wanted = {"data": [0xC3, 0xA9], "version": 1, "header": None, "ecis": [{"begin": 0, "number": 26}], "gs1": True, "application": None,
                  "kanji": False}
        self.assertEqual(json.loads(json.dumps(Content("é".encode(), 1, None, (Eci(0, 26),), True).to_dict())), wanted)

    def test_check_says_the_interpretation(self):
        for by, said in (("zint --gs1 -d [10]9NJY[8008]37090120 --secure=2", "GS1 data (10)9NJY(8008)37090120\ncontains '109NJY\\x1d800837090120'\n"),
                         ("zint --eci=3 -d Ünïcödé --secure=1", "ECI 3 from byte 0 on\ncontains Ünïcödé\n"),
                         ("zint --binary --eci=128 -d abc --secure=3", "ECI 128 from byte 0 on\ncontains b'abc'\n")):
            row = next(it for it in LABELS if it["by"] == by)
            symbol = qrproved.Symbol(row["version"], row["side"], None, modules_of(row["rows"], row["side"]))
            ran = subprocess.run([sys.executable, "-B", "-m", "qrproved", "check"], input=symbol.png(), capture_output=True, timeout=60)
            self.assertEqual(ran.stdout.decode().split("\n", 1)[1], said)

    def test_check_writes_what_the_encoding_of_the_terminal_has_not(self):
        environment = {**os.environ, "PYTHONIOENCODING": "ascii"}
        ran = subprocess.run([sys.executable, "-B", "-m", "qrproved", "check"], input=qrproved.encode("点é", eci=False).png(), capture_output=True,
                             timeout=60, env=environment)
        self.assertEqual((ran.returncode, ran.stdout.decode().split("\n", 1)[1], ran.stderr), (0, "contains \\u70b9\\xe9\n", b""))


if __name__ == "__main__":
    unittest.main()
