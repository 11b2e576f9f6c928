"""Contents: those of tests/contents.jsonl, and random fields, which a reader of each format written for these tests has to find again.
A line of tests/contents.jsonl has a call with its fields, and either the text, written by hand after the documents that it names, or the
error."""
import datetime
import inspect
import json
import pathlib
import pickle
import random
import re
import unittest
import urllib.parse
from decimal import Decimal

import qrproved
from qrproved import contents
from qrproved.contents import ContentError

PATH = pathlib.Path(__file__).resolve().parents[2] / "tests/contents.jsonl"
SPECIAL = "\\;,:\"'%&?=#+@ /.-_~!*()<>[]{}|^`$"
LETTERS = "abcXYZ0189äöüßéłЖ中日🙂"
CRLF = "\r\n"


# ---- a reader of each format, none of which uses a function of the package

def unescaped(text, stops, newline=False):
    """Cuts a text at each of some characters before which there is no backslash, and takes the backslashes away."""
    parts, k = [""], 0
    while k < len(text):
        if text[k] == "\\":
            k += 1
            parts[-1] += "\n" if newline and text[k] in "nN" else text[k]
        elif text[k] in stops:
            parts.append("")
        else:
            parts[-1] += text[k]
        k += 1
    return parts


def with_names(text, start):
    """Reads NAME:value;NAME:value;; after a start, and returns the names with their values, in which backslashes are left."""
    assert text.startswith(start) and text.endswith(";;"), text
    found, part, k, text = [], "", 0, text[len(start):-1]
    while k < len(text):
        if text[k] == "\\":
            part += text[k:k + 2]
            k += 2
            continue
        if text[k] == ";":
            found.append(tuple(part.split(":", 1)))
            part = ""
        else:
            part += text[k]
        k += 1
    assert part == "", text
    return found


def read_wifi(text):
    return {name: "".join(unescaped(value, "")) for name, value in with_names(text, "WIFI:")}


def read_mecard(text):
    return [(name, unescaped(value, "," if name in ("N", "ADR") else "")) for name, value in with_names(text, "MECARD:")]


def read_lines(text):
    """Reads lines of a vCard or a calendar: the name, its parameters, and the parts of the value."""
    assert text.endswith(CRLF)
    found = []
    for line in text[:-2].split(CRLF):
        assert "\n" not in line and "\r" not in line, line
        head, value = line.split(":", 1)
        name, *parameters = head.split(";")
        parts = [value] if name == "URL" else unescaped(value, ";" if name in ("N", "ADR") else "", newline=True)
        found.append((name, parameters, parts))
    return found


def read_mailto(text):
    parts = urllib.parse.urlsplit(text)
    assert parts.scheme == "mailto"
    fields = [it.split("=", 1) for it in parts.query.split("&") if it]
    addresses = lambda it: [urllib.parse.unquote(one) for one in it.split(",")]
    found = {"to": addresses(parts.path)}
    for name, value in fields:
        assert name not in found, text
        found[name] = addresses(value) if name in ("cc", "bcc") else urllib.parse.unquote(value)
    return found


# ---- random fields

class Random:
    def __init__(self, name):
        self.random = random.Random(f"contents {name}")

    def text(self, most=20, more=""):
        return "".join(self.random.choice(self.random.choice([SPECIAL, LETTERS, LETTERS + more])) for _ in range(self.random.randint(1, most)))

    def digits(self, count):
        return "".join(self.random.choice("0123456789") for _ in range(count))

    def some(self, **makers):
        """Makes each field in half of the cases."""
        return {name: make() for name, make in makers.items() if self.random.random() < 0.5}

    def many(self, make):
        made = [make() for _ in range(self.random.randint(1, 3))]
        return made[0] if len(made) == 1 and self.random.random() < 0.5 else made

    def phone(self):
        return self.random.choice(["+", ""]) + self.digits(1) + self.text_of("0123456789-./() ", 12) + self.digits(1)

    def text_of(self, letters, most):
        return "".join(self.random.choice(letters) for _ in range(self.random.randint(0, most)))

    def email(self):
        name = self.random.choice([lambda: self.text_of("abc019.!#$%&'*+-/=?^_`{|}~ü", 12) + "a", lambda: f'"{self.text_of("ab @,:;<>", 8)}b"'])()
        return f"{name}@{self.text_of('abc-09ä', 8)}x.example"

    def url(self):
        return "https://example.org/" + self.text_of("abc/?&=#;:,%20\\~ä", 20)


def as_list(value):
    return value if isinstance(value, list) else [value]


def check_digits(text, start):
    """Returns the text with check digits of MOD 97-10 behind its start, by long division."""
    rest = 0
    for letter in text + start + "00":
        for digit in str("0123456789ABCDEFGHIJKLMNOPQRSTUVWXYZ".index(letter)):
            rest = (rest * 10 + int(digit)) % 97
    return f"{start}{98 - rest:02}{text}"


class Documents(unittest.TestCase):
    def test_examples(self):
        for line in PATH.read_text(encoding="utf-8").splitlines():
            it = json.loads(line)
            call = lambda: getattr(contents, it["call"])(**it["fields"])
            with self.subTest(line=line):
                if "text" in it:
                    self.assertEqual(call(), it["text"])
                    continue
                with self.assertRaises(ContentError) as wrong:
                    call()
                self.assertEqual((str(wrong.exception), wrong.exception.field), (it["error"], it["error"].split()[0]))

    def test_zones(self):
        of = lambda start: re.search("DTSTART(.*)\r", contents.event("A", start, format="vevent"))[1]
        self.assertEqual(of("2026-01-01T00:30+01:00"), ":20251231T233000Z")
        self.assertEqual(of("2024-02-28T23:30:05-09:45"), ":20240229T091505Z")
        self.assertEqual(of(datetime.datetime(2026, 12, 24, 18, tzinfo=datetime.timezone(datetime.timedelta(hours=1)))), ":20261224T170000Z")
        self.assertEqual(of(datetime.datetime(2026, 12, 24, 18, 0, 1, 999)), ":20261224T180001")
        self.assertEqual(of(datetime.date(2026, 12, 24)), ";VALUE=DATE:20261224")

    def test_the_same_event_has_the_same_text(self):
        one = contents.event("A", "2026-12-24", location="B")
        self.assertEqual(one, contents.event("A", "2026-12-24", location="B"))
        # a test vector of the authors of FNV-1a
        self.assertIn("UID:20261224-bf9cf968@qrproved\r\nDTSTAMP:20261224T000000Z\r\n", contents.event("foo", "2026-12-24", location="bar"))
        self.assertNotEqual(one, contents.event("A", "2026-12-24", location="C"))

    def test_numbers(self):
        self.assertEqual(contents.geo(1e-7, -0.0, 12.50), "geo:0.0000001,0,12.5")
        self.assertEqual(contents.geo(Decimal("48.20"), 16), "geo:48.2,16")
        with self.assertRaisesRegex(ContentError, "^latitude is no number with a decimal point$"):
            contents.geo(float("nan"), 1)

    def test_a_payment_of_all_bytes_has_version_13(self):
        name, text, information = "ö" * 70, "ö" * 50, "a"
        text = contents.payment(name, "DE33100205000001194700", "999999999.99", text=text + "a" * 32, information=information)
        self.assertEqual(len(contents.payment_bytes(text)), 331)
        for data in (text, contents.payment_bytes(text)):
            symbol = qrproved.encode(data, **contents.PAYMENT)
            self.assertEqual((symbol.version, symbol.level.name), (13, "M"))
            self.assertEqual((qrproved.read(symbol).data, qrproved.read(symbol).ecis), (text.encode(), ()))
        with self.assertRaises(ContentError) as wrong:
            contents.payment(name, "DE33100205000001194700", "999999999.99", text="ö" * 50 + "a" * 33, information=information)
        self.assertEqual(str(wrong.exception), "name is too long: the payment has 332 bytes, and at most 331 are allowed")

    def test_character_sets_of_payments(self):
        codecs = {1: "utf-8", 2: "iso8859-1", 3: "iso8859-2", 4: "iso8859-4", 5: "iso8859-5", 6: "iso8859-7", 7: "iso8859-10", 8: "iso8859-15"}
        letters = {1: "中", 2: "ÿ", 3: "ř", 4: "ģ", 5: "Ж", 6: "λ", 7: "ŋ", 8: "€"}
        for number, codec in codecs.items():
            text = contents.payment("A" + letters[number], "DE33100205000001194700", charset=number)
            self.assertEqual(text.split("\n")[2], str(number))
            self.assertEqual(contents.payment_bytes(text), text.encode(codec))


class AtRandom(unittest.TestCase):
    def test_wifi(self):
        for k in range(300):
            it = Random(f"wifi {k}")
            ssid, hidden = it.text(8), it.random.random() < 0.5
            security = it.random.choice(["WPA", "WPA3", "none"])
            password = {"WPA": "".join(it.random.choice(SPECIAL) for _ in range(it.random.randint(8, 63))), "WPA3": it.text(30), "none": None}[security]
            wanted = {"T": {"WPA": "WPA", "WPA3": "SAE", "none": "nopass"}[security], "S": ssid, **({"P": password} if password else {}), **({"H": "true"} if hidden else {})}
            self.assertEqual(read_wifi(contents.wifi(ssid, password, security, hidden)), wanted)

    def test_contacts(self):
        for k in range(300):
            it = Random(f"contact {k}")
            fields = it.some(**dict.fromkeys(["given", "family", "additional", "prefix", "suffix", "nickname", "organization", "title", "street", "city",
                                              "region", "postcode", "country"], it.text), note=lambda: it.text(60, "\n\t"),
                             birthday=lambda: f"19{it.digits(2)}-0{it.random.randint(1, 9)}-1{it.digits(1)}",
                             **dict.fromkeys(["phone", "mobile", "work", "fax"], lambda: it.many(it.phone)), email=lambda: it.many(it.email), url=lambda: it.many(it.url))
            fields["name"] = it.text()
            version = it.random.choice([3, 4])
            wanted, get = {("FN", ()): [[fields["name"]]]}, lambda name: fields.get(name, "")
            has_parts = "given" in fields or "family" in fields
            wanted["N", ()] = [[get("family") if has_parts else fields["name"], *map(get, ("given", "additional", "prefix", "suffix"))]]
            cell, work, fax = ("CELL", "WORK", "FAX") if version == 3 else ("cell", "work", "fax")
            for field, head in {"nickname": ("NICKNAME", ()), "organization": ("ORG", ()), "title": ("TITLE", ()), "phone": ("TEL", ()), "mobile": ("TEL", (f"TYPE={cell}",)),
                                "work": ("TEL", (f"TYPE={work}",)), "fax": ("TEL", (f"TYPE={fax}",)), "email": ("EMAIL", ()), "url": ("URL", ()), "note": ("NOTE", ())}.items():
                if field in fields:
                    wanted[head] = [[value] for value in as_list(fields[field])]
            if any(map(get, ("street", "city", "region", "postcode", "country"))):
                wanted["ADR", ()] = [["", "", *map(get, ("street", "city", "region", "postcode", "country"))]]
            if "birthday" in fields:
                wanted["BDAY", ()] = [[fields["birthday"] if version == 3 else fields["birthday"].replace("-", "")]]
            first, second, *found, last = read_lines(contents.contact(**fields, format=f"vcard{version}"))
            self.assertEqual([first, second, last], [("BEGIN", [], ["VCARD"]), ("VERSION", [], [f"{version}.0"]), ("END", [], ["VCARD"])])
            grouped = {}
            for name, parameters, parts in found:
                grouped.setdefault((name, tuple(parameters)), []).append(parts)
            self.assertEqual(grouped, wanted)

    def test_mecards(self):
        for k in range(300):
            it = Random(f"mecard {k}")
            fields = it.some(**dict.fromkeys(["given", "nickname", "organization", "street", "city", "region", "postcode", "country"], it.text),
                             note=lambda: it.text(60, "\n"), **dict.fromkeys(["phone", "mobile", "work"], lambda: it.many(it.phone)),
                             email=lambda: it.many(it.email), url=lambda: it.many(it.url))
            fields["family"] = it.text()
            wanted = [("N", [fields["family"], *([fields["given"]] if "given" in fields else [])])]
            for field, name in {"nickname": "NICKNAME", "organization": "ORG", "phone": "TEL", "mobile": "TEL", "work": "TEL", "email": "EMAIL", "url": "URL"}.items():
                wanted += [(name, [value]) for value in as_list(fields.get(field, []))]
            place = [fields.get(name, "") for name in ("street", "city", "region", "postcode", "country")]
            wanted += [("ADR", ["", "", *place])] if any(place) else []
            wanted += [("NOTE", [fields["note"]])] if "note" in fields else []
            self.assertEqual(read_mecard(contents.contact(**fields, format="mecard")), wanted)

    def test_events(self):
        for k in range(300):
            it = Random(f"event {k}")
            start = datetime.datetime(2026, 1, 1) + datetime.timedelta(seconds=it.random.randrange(10**9))
            kind, length = it.random.choice(["day", "none", "zone"]), datetime.timedelta(days=1, seconds=it.random.randrange(10**6))
            offset = datetime.timezone(datetime.timedelta(minutes=it.random.randint(-1439, 1439)))
            given, form = {"day": (lambda at: at.date(), "%Y%m%d"), "none": (lambda at: at, "%Y%m%dT%H%M%S"),
                           "zone": (lambda at: at.replace(tzinfo=datetime.timezone.utc).astimezone(offset), "%Y%m%dT%H%M%SZ")}[kind]
            fields = it.some(location=it.text, description=lambda: it.text(50, "\n"), url=it.url, uid=it.text, end=lambda: given(start + length))
            summary, parameters = it.text(), ["VALUE=DATE"] if kind == "day" else []
            wanted = {"SUMMARY": ([], [summary]), "DTSTART": (parameters, [start.strftime(form)])}
            for name in ("location", "description", "url", "uid"):
                if name in fields:
                    wanted[name.upper()] = ([], [fields[name]])
            if "end" in fields:
                wanted["DTEND"] = (parameters, [(start + length).strftime(form)])
            found = read_lines(contents.event(summary, given(start), **fields))
            self.assertEqual([it for it in found if it[0] in ("BEGIN", "END")], [("BEGIN", [], ["VCALENDAR"]), ("BEGIN", [], ["VEVENT"]), ("END", [], ["VEVENT"]), ("END", [], ["VCALENDAR"])])
            found = {name: (parameters, value) for name, parameters, value in found if name not in ("BEGIN", "END", "VERSION", "PRODID")}
            self.assertRegex(found.pop("DTSTAMP")[1][0], r"^\d{8}T\d{6}Z$")
            if "uid" not in fields:
                self.assertRegex(found.pop("UID")[1][0], r"^[0-9TZ]+-[0-9a-f]{8}@qrproved$")
            self.assertEqual(found, wanted)

    def test_mails(self):
        for k in range(300):
            it = Random(f"mail {k}")
            fields = {"to": it.many(it.email), **it.some(cc=lambda: it.many(it.email), bcc=lambda: it.many(it.email), subject=it.text, body=lambda: it.text(60, "\n"))}
            text = contents.mail(**fields)
            self.assertRegex(text, "^[!-~]+$")
            wanted = {name: as_list(value) if name in ("to", "cc", "bcc") else value.replace("\n", CRLF) for name, value in fields.items()}
            self.assertEqual(read_mailto(text), wanted)

    def test_places_and_messages(self):
        for k in range(300):
            it = Random(f"places {k}")
            place = [round(it.random.uniform(-90, 90), it.random.randint(0, 12)), it.random.uniform(-180, 180)]
            found = re.fullmatch(r"geo:(-?[0-9]+(?:\.[0-9]+)?),(-?[0-9]+(?:\.[0-9]+)?)", contents.geo(*place))
            self.assertEqual([float(found[1]), float(found[2])], place)
            number, body = it.phone(), it.text(60, "\n")
            plain = re.sub("[^0-9+]", "", number)
            start, found, *rest = contents.sms(number, body).split(":", 2)
            self.assertEqual((start, found, rest), ("SMSTO", plain, [body]))
            address = urllib.parse.urlsplit(contents.sms(number, body, format="sms"))
            self.assertEqual((address.scheme, re.sub("[-.()]", "", address.path), urllib.parse.unquote(address.query)), ("sms", plain, "body=" + body.replace("\n", CRLF)))

    def test_payments(self):
        countries = {"DE": 18, "FR": 23, "NL": 14, "NO": 11, "MT": 27}
        for k in range(300):
            it = Random(f"payment {k}")
            country = it.random.choice(list(countries))
            iban = check_digits(it.text_of("0123456789ABCXYZ", 0) + "".join(it.random.choice("0123456789ABCXYZ") for _ in range(countries[country])), country)
            cents = it.random.choice([1, 10, 100, it.random.randint(1, 10**6), 99999999999])
            amount = it.random.choice([lambda: f"{cents // 100}.{cents % 100:02}", lambda: cents / 100])()
            fields = it.some(amount=lambda: amount, bic=lambda: "ABCDDEFFXXX", purpose=lambda: "CHAR", information=lambda: it.text(20),
                             **it.random.choice([{"text": lambda: it.text(40)}, {"reference": lambda: check_digits(it.digits(1) + it.text_of("019AZ", 20), "RF")}]))
            name = it.text(20)
            found = contents.payment(name, " ".join(re.findall(".{1,4}", iban)).lower(), **fields).split("\n")
            self.assertLessEqual(len(found), 12)
            self.assertTrue(found[-1])
            found += [""] * (12 - len(found))
            euros = found[7]
            if "amount" in fields:
                self.assertRegex(euros, r"^EUR[0-9]+(\.[0-9]{2})?$")
                self.assertEqual(round(float(euros[3:]) * 100), cents)
            else:
                self.assertEqual(euros, "")
            self.assertEqual(found, ["BCD", "001" if "bic" in fields else "002", "1", "SCT", fields.get("bic", ""), name, iban, euros, fields.get("purpose", ""),
                                     fields.get("reference", ""), fields.get("text", ""), fields.get("information", "")])

    def test_links(self):
        letters = "!\"%&'()*+,-./0189:;<=>?AZ_az"
        for k in range(300):
            it = Random(f"link {k}")
            fields = {"01": "09506000134352", **it.some(**{"22": lambda: it.text_of(letters, 19) + "A", "10": lambda: it.text_of(letters, 19) + "(10)"[-1:],
                                                          "21": lambda: it.text_of(letters, 19) + "1", "17": lambda: "261231", "400": lambda: it.text_of(letters, 29) + "%"})}
            text = "".join(f"[{name}]{value}" for name, value in fields.items())
            address = contents.link(text)
            parts = urllib.parse.urlsplit(address)
            segments = [urllib.parse.unquote(one) for one in parts.path.split("/")[1:]]
            self.assertEqual(dict(zip(segments[::2], segments[1::2])), {name: value for name, value in fields.items() if name in ("01", "22", "10", "21")})
            query = [one.split("=") for one in parts.query.split("&") if one]
            self.assertEqual({name: urllib.parse.unquote(value) for name, value in query}, {name: value for name, value in fields.items() if name in ("17", "400")})
            self.assertEqual(qrproved.read(qrproved.encode(gs1=contents.gs1_of(address))).fields(), sorted(fields.items(), key=lambda one: "01 22 10 21 17 400".split().index(one[0])))


class Wrong(unittest.TestCase):
    def test_each_field_has_a_wrong_input(self):
        for kind, table in contents.KINDS.items():
            for name, spec in table["fields"].items():
                if spec.get("made"):
                    continue
                given = {"ssid": "a", "name": "a", "iban": "DE33100205000001194700", "summary": "a", "start": "2026-12-24", "latitude": 1, "longitude": 1,
                         "to": "a@b.example", "number": "1", "gs1": "(01)09506000134352"}
                fields = {one: value for one, value in given.items() if table["fields"].get(one, {}).get("needed")}
                with self.subTest(kind=kind, name=name), self.assertRaises(ContentError) as wrong:
                    getattr(contents, kind)(**{**fields, name: "\0"})
                self.assertEqual(wrong.exception.field, name)

    def test_parameters_are_the_fields(self):
        for kind, table in contents.KINDS.items():
            named = [name for name, spec in table["fields"].items() if not spec.get("made")]
            self.assertEqual(sorted(inspect.signature(getattr(contents, kind)).parameters), sorted(named))

    def test_errors_can_be_pickled(self):
        fault = ContentError("a", "is b")
        again = pickle.loads(pickle.dumps(fault))
        self.assertEqual((str(again), again.field, isinstance(again, ValueError)), ("a is b", "a", True))


if __name__ == "__main__":
    unittest.main()
