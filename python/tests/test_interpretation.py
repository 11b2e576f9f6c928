"""Texts with their ECI headers, kanji, GS1 data and the levels of symbols, as they are encoded. What a symbol says is what the library
reads in it; tests/readers asks other programs."""
import json
import os
import pathlib
import subprocess
import sys
import tempfile
import unittest

import qrproved
from qrproved import Eci, EciError, FieldsError, Gs1Error, Level, Rule, SettingsError
from test_labels import FIELDS, SETS

try:
    import segno
except ImportError:
    segno = None

# Bytes that fit version 1 at the levels L, M, Q and H (ISO/IEC 18004:2015, Table 7).
IN_VERSION_1 = (17, 14, 11, 7)
# A text that is no GS1 data, and what the error says.
WRONG = [
    ("(01)04012345678902", r"^\(01\) its check digit is 2, and should be 1$"),
    ("[01]04012345678901[10]", r"^\(10\) has 1 to 20 characters, and not 0$"),
    ("(01)0401234567890", r"^\(01\) has 14 characters, and not 13$"),
    ("(10)AB(17)261331", r"^\(17\) 261331 is no date$"),
    ("(37)12A", r"^\(37\) 'A' is not a digit$"),
    ("(10)Gr\u00fc\u00dfe", r"^\(10\) '\\xfc' is not a character of GS1's set 82$"),
    ("(10)\u2713", r"^\(10\) '\\u2713' is not a character of GS1's set 82$"),
    ("(10)A\x1dB", r"^\(10\) '\\x1d' is not a character of GS1's set 82$"),
    ("(01)04012345678901(05)1", r"^\(05\) is no application identifier that is known$"),
    ("(310)001250", r"^\(310\) is no application identifier that is known$"),
    ("(8003)14012345678908", r"^\(8003\) its first digit is 1, and should be 0$"),
    ("(10)A(12)B", r"^\(12\) has 6 characters, and not 1$"),  # parentheses in a value: brackets have to be used
    ("0104012345678901", r"begin with an application identifier, as \(01\) or \[01\], and not with '0104'$"),
    (" (01)04012345678901", "and not with ' .01'$"),
    ("(1)23", "begin with an application identifier"),
    ("", "begin with an application identifier"),
]


def said(symbol):
    content = qrproved.read(symbol)
    return content.data, content.ecis, content.gs1


class Texts(unittest.TestCase):
    def test_a_text_that_is_not_ascii_says_that_it_is_utf8(self):
        for text in ("Gr\u00fc\u00dfe aus K\u00f6ln", "\u20ac", "\u30c6\U0001f600", "a\x80"):
            self.assertEqual(said(qrproved.encode(text)), (text.encode(), (Eci(0, 26),), False))
            self.assertEqual(qrproved.read(qrproved.encode(text)).text(), text)
            self.assertEqual(said(qrproved.encode(text, eci=False)), (text.encode(), (), False))
            self.assertEqual(said(qrproved.encode(text.encode())), (text.encode(), (), False))
            self.assertEqual(said(qrproved.encode(text.encode(), eci=26)), (text.encode(), (Eci(0, 26),), False))
        self.assertEqual(said(qrproved.encode("Shelf 12\x7f")), (b"Shelf 12\x7f", (), False))
        self.assertEqual(said(qrproved.encode("Shelf 12", eci=26)), (b"Shelf 12", (Eci(0, 26),), False))

    def test_kanji_are_read_as_shift_jis(self):
        for text in ("\u70b9\u8317", "\u70b9", "\u30c6\u30b9\u30c8 12", "A" + "\u70b9\u8317" * 9 + "\uff711"):
            symbol = qrproved.encode(text, rule="with_kanji")
            for content in (qrproved.read(symbol), qrproved.mend(symbol).content):
                self.assertEqual((content.kanji, content.text()), (True, text))
            headed = qrproved.read(qrproved.encode(text, rule="with_kanji", eci=20))
            self.assertEqual((headed.kanji, headed.text()), (True, text))
        for symbol in (qrproved.encode("Shelf 12", rule="with_kanji"), qrproved.encode("\u70b9\u8317"), qrproved.encode("\u70b9\u8317", eci=20)):
            self.assertFalse(qrproved.read(symbol).kanji)
        for content in (qrproved.Content(b"\x93\x5f", 1, None), qrproved.Content(b"\x93\x5f", 1, None, (), True, None, True)):
            with self.assertRaises(UnicodeDecodeError):  # no kanji mode, and GS1 data
                content.text()
        self.assertEqual(qrproved.Content("\u70b9".encode(), 1, None, (Eci(0, 26),), False, None, True).text(), "\u70b9")
        series = [qrproved.read(it) for it in qrproved.encode_series("\u70b9" * 30, version=1, rule="with_kanji")]
        self.assertEqual({it.kanji for it in series}, {True})
        self.assertEqual("".join(it.text() for it in series), "\u70b9" * 30)  # no character is cut there

    @unittest.skipUnless(segno, "there is no segno")
    def test_kanji_of_segno(self):
        for text in ("\u70b9\u8317", "\u5730\u8c37\u6e2c\u70b9"):
            made = segno.make(text, mode="kanji", micro=False)
            content = qrproved.read(b"".join(map(bytes, made.matrix)), len(made.matrix))
            self.assertEqual((content.kanji, content.text(), content.data), (True, text, text.encode("shift_jis")))

    def test_each_symbol_of_a_series_says_it(self):
        text = "Gr\u00fc\u00dfe aus K\u00f6ln, " * 12
        symbols = qrproved.encode_series(text, version=3)
        contents = [qrproved.read(it) for it in symbols]
        self.assertGreater(len(symbols), 2)
        self.assertEqual([it.ecis for it in contents], [(Eci(0, 26),)] * len(symbols))
        self.assertEqual(b"".join(it.data for it in contents).decode(), text)
        self.assertEqual([it.header.position for it in contents], list(range(len(symbols))))
        self.assertEqual([qrproved.read(it).ecis for it in qrproved.encode_series(text, version=3, eci=False)], [()] * (len(symbols)))

    def test_a_text_is_encoded_in_the_set_of_its_eci(self):
        for number, data, text in SETS:
            symbol = qrproved.encode(text, eci=number)
            self.assertEqual((said(symbol), qrproved.read(symbol).text()), ((data, (Eci(0, number),), False), text), number)
        for number in (127, 128, 899, 16383, 16384, 999999):
            self.assertEqual(said(qrproved.encode(b"A\xff", eci=number)), (b"A\xff", (Eci(0, number),), False))
            with self.assertRaisesRegex(EciError, f"ECI {number} "):
                qrproved.encode("A", eci=number)
        with self.assertRaisesRegex(EciError, r"^'\u20ac' \(U\+20AC\), character 5 of the text, is not in the characters of ECI 3$"):
            qrproved.encode("12.5\u20ac", eci=3)

    def test_kanji(self):
        for text, data in (("\u70b9\u8317", b"\x93\x5f\xe4\xaa"), ("A\u70b9\uff711", b"A\x93\x5f\xb11"), ("Shelf 12", b"Shelf 12"),
                           ("\u301c\uff5e\u2212", b"\x81\x60\x81\x60\x81\x7c")):
            self.assertEqual(said(qrproved.encode(text, rule="with_kanji")), (data, (), False))
            self.assertEqual(said(qrproved.encode(text, rule="with_kanji", eci=False)), (data, (), False))
            self.assertEqual(said(qrproved.encode(text, rule="with_kanji", eci=20)), (data, (Eci(0, 20),), False))
        self.assertEqual(qrproved.encode("\u70b9" * 10, rule="with_kanji").version, 1)  # Table 7
        self.assertEqual(qrproved.encode("\u70b9" * 11, rule="with_kanji").version, 2)
        series = qrproved.encode_series("\u70b9" * 30, version=1, rule="with_kanji")
        self.assertEqual(b"".join(qrproved.read(it).data for it in series), b"\x93\x5f" * 30)
        for text, why in (("\u70b9\u2713\u2713", r"^'\u2713' \(U\+2713\), character 2 of the text, is not in Shift JIS$"),
                          ("\u2460", "is not in Shift JIS"), ("\xa5", "is not in Shift JIS"), ("Gr\xfc\xdfe", r"character 3 of the text")):
            with self.assertRaisesRegex(EciError, why):
                qrproved.encode(text, rule="with_kanji")
        for data in ("\u70b9", b"\xe7\x82\xb9"):
            with self.assertRaisesRegex(SettingsError, "eci is 20 or False, and not 26$"):
                qrproved.encode(data, rule="with_kanji", eci=26)


class Gs1(unittest.TestCase):
    def test_lengths_are_in_characters(self):
        for count, why in ((7, r"^\(37\) '\\U0001f642' is not a digit$"), (9, r"^\(37\) has 1 to 8 characters, and not 9$")):
            with self.assertRaisesRegex(Gs1Error, why):
                qrproved.encode(gs1="(37)" + count * "\U0001f642")

    def test_fields_are_written_and_read(self):
        for data, fields in FIELDS:
            text = "".join(f"({name}){value}" for name, value in fields)
            content = qrproved.read(qrproved.encode(gs1=text))
            self.assertEqual((content.gs1, content.ecis, content.fields()), (True, (), fields), text)
            self.assertEqual(content.data, {b"17261200" b"\x1d" b"8020A1\x1d": b"172612008020A1"}.get(data, data), text)
            self.assertEqual(qrproved.encode(gs1=text.replace("(", "[").replace(")", "]")), qrproved.encode(gs1=text))
        self.assertEqual(qrproved.read(qrproved.encode(gs1="[10]A(12)B%[21]%%")).fields(), [("10", "A(12)B%"), ("21", "%%")])

    def test_a_percent_sign_is_written_in_byte_mode(self):
        # (tests/labels looks at the codewords)
        for given in ("(10)AB%12", b"10AB%12", "[10]%[21]%%"):
            symbol = qrproved.encode(gs1=given)
            self.assertEqual(symbol, qrproved.encode(gs1=given, rule="bytes_only"), given)
            for rule in ("auto", Rule.AUTO):
                self.assertNotEqual(symbol, qrproved.encode(gs1=given, rule=rule), given)
                self.assertEqual(said(symbol), said(qrproved.encode(gs1=given, rule=rule)), given)
        for plain in ({"gs1": "(10)AB12"}, {"data": "10AB%12"}, {"gs1": "(10)AB(21)1"}):
            self.assertEqual(qrproved.encode(**plain), qrproved.encode(**plain, rule="auto"))
        series = qrproved.encode_series(gs1="(90)" + "A%" * 15, version=1)
        self.assertEqual(series, qrproved.encode_series(gs1="(90)" + "A%" * 15, version=1, rule="bytes_only"))
        self.assertNotEqual(series, qrproved.encode_series(gs1="(90)" + "A%" * 15, version=1, rule="auto"))

    def test_a_series(self):
        text = "".join(f"({name}){'Ab%' * 20}" for name in range(91, 100))
        symbols = qrproved.encode_series(gs1=text, version=8)
        contents = [qrproved.read(it) for it in symbols]
        self.assertGreater(len(symbols), 2)
        self.assertEqual({it.gs1 for it in contents}, {True})
        self.assertEqual(b"".join(it.data for it in contents), b"\x1d".join(b"%d%s" % (name, b"Ab%" * 20) for name in range(91, 100)))

    def test_wrong_texts_are_named(self):
        for text, why in WRONG:
            with self.assertRaisesRegex(Gs1Error, why):
                qrproved.encode(gs1=text)
            with self.assertRaisesRegex(Gs1Error, why):
                qrproved.encode_series(gs1=text, version=7)

    def test_bytes_are_taken_as_they_are(self):
        for data in (b"7001" b"1234567890123\x1d10%", b"\x1dA", b"A\x1d"):
            self.assertEqual(said(qrproved.encode(gs1=data)), (data, (), True))
        for data in (b"A\x1d\x1dB", b"A\x1d%"):
            with self.assertRaises(FieldsError) as refused:
                qrproved.encode(gs1=data)
            self.assertEqual(refused.exception.status, 12)
            with self.assertRaises(FieldsError):
                qrproved.encode_series(gs1=data, version=1)

    def test_what_is_given_beside(self):
        for named in ({"data": "A"}, {"eci": 26}, {"eci": 3}):
            with self.assertRaises(TypeError):
                qrproved.encode(gs1="(20)01", **named)
        self.assertEqual(qrproved.encode(gs1="(20)01", eci=False), qrproved.encode(gs1="(20)01"))
        for other in (1, ["(20)01"]):
            with self.assertRaisesRegex(TypeError, "^gs1 is a text or bytes"):
                qrproved.encode(gs1=other)
        with self.assertRaises(TypeError):
            qrproved.encode()


class Levels(unittest.TestCase):
    def test_the_highest_level_that_fits_the_version(self):
        for count in range(1, 18):
            highest = max(level for level in Level if count <= IN_VERSION_1[level])
            for level in Level:
                symbol, plain = qrproved.encode(b"a" * count, level=level), qrproved.encode(b"a" * count, level=level, boost=False)
                self.assertEqual((plain.level, symbol.version), (level, plain.version))
                if plain.version == 1:
                    self.assertEqual((symbol.level, qrproved.mend(symbol).level), (highest, highest), (count, level))

    def test_a_series_has_the_level_that_was_asked_for(self):
        self.assertEqual({(it.level, qrproved.mend(it).level) for it in qrproved.encode_series("A", version=40)}, {(Level.L, Level.L)})
        with self.assertRaises(TypeError):
            qrproved.encode_series("A", version=40, boost=True)


class Command(unittest.TestCase):
    def run_by(self, *words, given=b"", status=0):
        ran = subprocess.run([sys.executable, "-B", "-m", "qrproved", *words], input=given, capture_output=True, timeout=60,
                             env={**os.environ, "PYTHONIOENCODING": "utf-8", "PYTHONUTF8": "1"})
        self.assertEqual(ran.returncode, status, ran.stderr)
        return ran.stdout if status == 0 else ran.stderr.decode()

    def test_options(self):
        text, label = "Gr\u00fc\u00dfe", "(01)04012345678901(10)AB"
        drawn = {("A",): qrproved.encode("A"), ("A", "--no-boost"): qrproved.encode("A", boost=False), (text,): qrproved.encode(text),
                 (text, "--eci", "none"): qrproved.encode(text, eci=False), (text, "--eci", "3"): qrproved.encode(text, eci=3),
                 ("\u70b9", "-k"): qrproved.encode("\u70b9", rule="with_kanji"), (label, "--gs1"): qrproved.encode(gs1=label),
                 ("(10)AB%12", "--gs1"): qrproved.encode(gs1="(10)AB%12"), ("(10)AB%12", "--gs1", "-8"): qrproved.encode(gs1="(10)AB%12", rule="bytes_only")}
        for words, symbol in drawn.items():
            self.assertEqual(self.run_by(*words), symbol.text().encode(), words)
        self.assertEqual(self.run_by(given=text.encode()), qrproved.encode(text).text().encode())
        self.assertEqual(self.run_by("--eci", "26", given=text.encode()), qrproved.encode(text).text().encode())
        self.assertEqual(self.run_by("--gs1", given=label.encode() + b"\n"), qrproved.encode(gs1=label).text().encode())
        self.assertIn("check digit", self.run_by("(01)04012345678902", "--gs1", status=1))
        self.assertIn("is not in Shift JIS", self.run_by("\u2713", "-k", status=1))
        self.assertIn("eci", self.run_by("A", "--eci", "x", status=2))
        self.assertIn("no ECI header", self.run_by("(20)01", "--gs1", "--eci", "3", status=2))

    def test_labels_of_a_batch_are_texts(self):
        with tempfile.TemporaryDirectory() as room:
            self.run_by("--batch", "-", "-o", f"{room}/a", given="Gr\u00fc\u00dfe\nA\n".encode())
            got = [it.read_bytes() for it in sorted(pathlib.Path(room, "a").iterdir())]
            self.assertEqual(got, [qrproved.encode(it).png() for it in ("Gr\u00fc\u00dfe", "A")])
            said = self.run_by("--batch", "-", "--gs1", "-o", f"{room}/b", given="(20)01\n(20)1\n(10)\xff\n".encode(), status=1)
            self.assertEqual(said, "qrproved: line 2: (20) has 2 characters, and not 1\n"
                             "qrproved: line 3: (10) '\\xff' is not a character of GS1's set 82\n")
            self.assertEqual([it.read_bytes() for it in pathlib.Path(room, "b").iterdir()], [qrproved.encode(gs1="(20)01").png()])

    def test_json_of_what_is_written(self):
        self.assertEqual(json.loads(json.dumps(qrproved.encode("A", version=7).to_dict()))["level"], "H")


if __name__ == "__main__":
    unittest.main()
