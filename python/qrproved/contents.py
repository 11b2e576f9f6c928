"""Texts that telephones and banks know what to do with: access to a wireless network, a contact, an event, a place, an email, a short
message, a telephone number, a payment, and GS1 data as a link. Each function returns the text to encode:

    qrproved.encode(contents.wifi("Guests", "correct horse"))

A ContentError says which field is wrong, and why. A field that is None or empty is left out."""
from __future__ import annotations

import json
import re
from datetime import date, datetime, timedelta
from decimal import Decimal
from pathlib import Path
from typing import TYPE_CHECKING, Any, Optional, Union
from urllib.parse import quote, unquote

from ._gs1 import Gs1Error, data_of, fields_of
from ._interpretation import EciError, encoded

if TYPE_CHECKING:
    from collections.abc import Sequence

    Texts = Union[str, Sequence[str], None]
    Number = Union[str, int, float, Decimal]
    Time = Union[str, date, datetime]

# contents.json is also the table of the package for JavaScript, whose contents.js has the same functions. It has seven parts:
#   errors     what is said of a field
#   types      patterns that both languages know, and what is said of a text that does not match
#   kinds      each kind of content: its fields, and its forms. A field `is` of a type or has choices, each with what is written of it. It
#              is needed or has a default, has at most so many characters (`most`) or bytes of UTF-8. It may be given as a number, or
#              many times: then its piece is written for each value, or the values are `joined`. A field that is `made` is computed by
#              the function of its kind below, and one that is used `everywhere` is no fault in a form without it. A form is a list of
#              pieces. In a piece, {name:escape} is the value of a field after a function of ESCAPERS. A piece of whose fields none is
#              given is left out. A piece that is a list has a text before the first of its own pieces, and one before each other
#   passwords  what a password has to match, by the type of the network
#   payment    the most bytes of a payment, and the ECI of each of its character sets
#   ibans      how long an IBAN is, by its country: those of SEPA
#   keys       the application identifiers that identify something, each with those that may follow it in the path of a link
DATA = json.loads(Path(__file__).with_name("contents.json").read_text(encoding="utf-8"))
ERRORS, KINDS = DATA["errors"], DATA["kinds"]
NAMED = re.compile(r"\{([a-z0-9]+)(?::([a-z]+))?\}")
TIME = re.compile(r"([0-9]{4})-([0-9]{2})-([0-9]{2})(?:T([0-9]{2}):([0-9]{2})(?::([0-9]{2}))?(?:Z|([+-])([0-9]{2}):([0-9]{2}))?)?")
SURROGATE = re.compile("[\ud800-\udfff]")
LINE_END = re.compile("\r\n|\r|\n")

PAYMENT = {"level": "M", "boost": False, "eci": False}
"""How a payment is encoded by EPC069-12: at level M, and without a header for its character set, which its text names. So it is of
version 13 at most: encode(contents.payment(..), **contents.PAYMENT)."""


class ContentError(ValueError):
    """A field is wrong: `field` is its name, and `why` what is said of it."""

    def __init__(self, field: str, why: str) -> None:
        super().__init__(field, why)
        self.field, self.why = field, why

    def __str__(self) -> str:
        return f"{self.field} {self.why}"


def _fault(field: str, name: str, *values: object) -> ContentError:
    return ContentError(field, ERRORS[name].format(*values))


# ---- the fields

def _decimal(number: int | float | Decimal) -> str:
    """Returns a number with a decimal point, and without an exponent."""
    text = format(Decimal(repr(number) if isinstance(number, float) else number), "f")
    text = text.rstrip("0").rstrip(".") if "." in text else text
    return "0" if text == "-0" else text


def _text(field: str, spec: dict[str, Any], value: object) -> str:
    """Returns a value as text."""
    if isinstance(value, str):
        return value
    if isinstance(value, (int, float, Decimal)) and not isinstance(value, bool) and spec.get("numbers"):
        return _decimal(value)
    if isinstance(value, date) and spec.get("is") in ("day", "time"):
        return value.isoformat(timespec="seconds") if isinstance(value, datetime) and spec["is"] == "time" else value.isoformat()[:10]
    raise _fault(field, "number" if spec.get("is") == "number" else "text")


def _chosen(field: str, choices: dict[str, str], value: str) -> str:
    found = next((written for name, written in choices.items() if name.lower() == value.lower()), None)
    if found is None:
        *first, last = choices
        raise _fault(field, "choice", f"{', '.join(first)} or {last}")
    return found


def _one(field: str, spec: dict[str, Any], given: object) -> str | None:
    """Returns a value, checked by what the table says of its field, or None if it is empty."""
    value = _text(field, spec, given)
    if not value:
        return None
    if SURROGATE.search(value):
        raise _fault(field, "surrogate")
    if "choices" in spec:
        return _chosen(field, spec["choices"], value)
    pattern, said = DATA["types"][spec["is"]]
    if not re.fullmatch(pattern, value):
        raise ContentError(field, said)
    if len(value) > spec.get("most", len(value)):
        raise _fault(field, "characters", len(value), spec["most"])
    size = len(value.encode())
    if size > spec.get("bytes", size):
        raise _fault(field, "bytes", size, spec["bytes"])
    if "range" in spec and not spec["range"][0] <= float(value) <= spec["range"][1]:
        raise _fault(field, "range", *spec["range"])
    return value


def _flag(field: str, given: object) -> str | None:
    if not isinstance(given, bool) and given not in ("true", "false"):
        raise _fault(field, "flag")
    return "true" if given in (True, "true") else None


def _checked(kind: str, given: dict[str, Any]) -> dict[str, Any]:
    """Returns the fields that are given, each as a text or as a list of texts."""
    fields: dict[str, Any] = {}
    for name, spec in KINDS[kind]["fields"].items():
        value = given.get(name)
        if spec.get("made"):
            continue
        found: Any = None
        if value is None or value == "":
            pass
        elif spec.get("is") == "flag":
            found = _flag(name, value)
        elif spec.get("many"):
            texts = [_one(name, spec, it) for it in (value if isinstance(value, (list, tuple)) else [value])]
            found = [it for it in texts if it is not None] or None
        else:
            found = _one(name, spec, value)
        if found is None:
            found = spec.get("default")
        if found is None and spec.get("needed"):
            raise _fault(name, "missing")
        if found is not None:
            fields[name] = found
    return fields


# ---- the forms

def _uri(text: str) -> str:
    """Percent-encodes what is neither a letter, a digit nor one of - _ . ! ~ * ' ( ), as encodeURIComponent of JavaScript does."""
    return quote(text, safe="!~*'()")


def _address(text: str) -> str:
    name, _, host = text.rpartition("@")
    return f"{_uri(name)}@{_uri(host)}"


ESCAPERS = {
    "escaped": lambda text: re.sub(r'([\\;,:"])', r"\\\1", text),  # of Wi-Fi, as the wiki of zxing has it
    "mecard": lambda text: re.sub(r"([\\;,:])", r"\\\1", text),
    "text": lambda text: LINE_END.sub(r"\\n", re.sub(r"([\\;,])", r"\\\1", text)),  # RFC 2426, 4; RFC 6350, 3.4; RFC 5545, 3.3.11
    "uri": _uri,
    "lines": lambda text: _uri(LINE_END.sub("\r\n", text)),  # RFC 6068, 5
    "address": _address,
    "basic": lambda text: text.replace("-", ""),
    "dialled": lambda text: re.sub("[ /]", "", text).replace("#", "%23"),  # RFC 3966, 3
    "plain": lambda text: re.sub("[^0-9*#+]", "", text),
}


def _written(piece: str, fields: dict[str, Any], specs: dict[str, Any]) -> str:
    """Returns a piece of a form, once for each value of a field that has many."""
    named = NAMED.findall(piece)
    if not named:
        return piece
    values, count = {}, 1
    for name, escape in named:
        given = fields.get(name)
        texts = [ESCAPERS[escape](it) if escape else it for it in ([] if given is None else given if isinstance(given, list) else [given])]
        values[name] = [specs[name]["joined"].join(texts)] if texts and "joined" in specs[name] else texts
        count = max(count, len(values[name]))
    if not any(values.values()):
        return ""
    return "".join(NAMED.sub(lambda found: values[found[1]][k] if values[found[1]] else "", piece) for k in range(count))


def _filled(pieces: list[Any], fields: dict[str, Any], specs: dict[str, Any]) -> str:
    done = ""
    for piece in pieces:
        if isinstance(piece, str):
            done += _written(piece, fields, specs)
        else:
            first, between, inner = piece
            parts = [it for it in (_written(it, fields, specs) for it in inner) if it]
            done += first + between.join(parts) if parts else ""
    return done


def _names_in(pieces: list[Any]) -> set[str]:
    return {name for piece in pieces for name in (_names_in(piece[2]) if isinstance(piece, list) else (it[0] for it in NAMED.findall(piece)))}


def content_text(kind: str, given: dict[str, Any]) -> str:
    """Returns the text of a kind of content, with its fields by their names."""
    if kind not in KINDS:
        raise TypeError(f"there is no content {kind}; there are {', '.join(KINDS)}")
    table = KINDS[kind]
    fields = _checked(kind, given)
    form = fields.pop(table["form"]) if "form" in table else ""
    pieces = table["forms"][form]
    placed = _names_in(pieces)
    if form:
        for name in fields:
            if name not in placed and not table["fields"][name].get("everywhere"):
                raise _fault(name, "place", form)
    if kind in COMPLETED:
        COMPLETED[kind](fields)
    text = _filled(pieces, fields, table["fields"])
    if kind == "payment":
        text = text.rstrip("\n")
        _check_payment(text, fields)
    return text


# ---- what is no table

def _complete_wifi(fields: dict[str, Any]) -> None:
    password = fields.get("password")
    security = fields.setdefault("security", "WPA" if password else "nopass")
    if security == "nopass":
        if password:
            raise _fault("password", "open")
        return
    if not password:
        raise _fault("password", "missing")
    pattern, said = DATA["passwords"][security]
    if not re.fullmatch(pattern, password):
        raise ContentError("password", said)


def _complete_contact(fields: dict[str, Any]) -> None:
    has_parts = "given" in fields or "family" in fields
    whole = " ".join(fields[it] for it in ("prefix", "given", "additional", "family", "suffix") if it in fields)
    name = fields.get("name") or (whole if has_parts else None) or fields.get("organization")
    if name is None:
        raise _fault("name", "name")
    fields["name"] = name
    if not has_parts:
        fields["family"] = name
    fields["names"] = [fields[it] for it in ("family", "given") if it in fields]
    if "birthday" in fields:
        _moment("birthday", fields["birthday"])


def _moment(field: str, text: str) -> tuple[str, str]:
    """Returns the kind of a time, and its text in iCalendar: a `day`, a time that has a `zone`, in UTC, or one that has `none`."""
    found = TIME.fullmatch(text)
    year, month, day, hour, minute, second = (int(it or 0) for it in found.groups()[:6])  # type: ignore[union-attr]
    sign, hours, minutes = found.groups()[6:]  # type: ignore[union-attr]
    try:
        if sign and not (int(hours) < 24 and int(minutes) < 60):
            raise ValueError
        moment = datetime(year, month, day, hour, minute, second)
        if sign:
            moment -= timedelta(hours=int(sign + hours), minutes=int(sign + minutes))
    except (ValueError, OverflowError):
        raise _fault(field, "time") from None
    basic = f"{moment.year:04}{moment.month:02}{moment.day:02}"
    if "T" not in text:
        return "day", basic
    kind = "zone" if sign or text.endswith("Z") else "none"
    return kind, f"{basic}T{moment.hour:02}{moment.minute:02}{moment.second:02}{'Z' if kind == 'zone' else ''}"


def _fingerprint(text: str) -> str:
    """Returns a number of 32 bits that differs for most texts, in hexadecimal (FNV-1a)."""
    number = 0x811C9DC5
    for byte in text.encode():
        number = (number ^ byte) * 0x01000193 & 0xFFFFFFFF
    return f"{number:08x}"


def _complete_event(fields: dict[str, Any]) -> None:
    kind, start = _moment("start", fields.pop("start"))
    fields["day" if kind == "day" else "start"] = start
    if "end" in fields:
        other, end = _moment("end", fields.pop("end"))
        if other != kind:
            raise _fault("end", "kinds")
        if end <= start:
            raise _fault("end", "order")
        fields["last" if kind == "day" else "end"] = end
    if "stamp" in fields:
        other, fields["stamp"] = _moment("stamp", fields["stamp"])
        if other != "zone":
            raise _fault("stamp", "zone")
    else:
        fields["stamp"] = {"day": f"{start}T000000Z", "none": f"{start}Z", "zone": start}[kind]
    fields.setdefault("uid", f"{start}-{_fingerprint(fields['summary'] + fields.get('location', ''))}@qrproved")


def _mod_97(text: str) -> int:
    """Returns the remainder modulo 97 of a number: the text with its first four characters at the end, and letters as 10 to 35 (ISO/IEC
    7064, MOD 97-10)."""
    return int("".join(str(int(it, 36)) for it in text[4:] + text[:4])) % 97


def _check_iban(iban: str) -> None:
    country, count = iban[:2], len(iban)
    if country not in DATA["ibans"]:
        raise _fault("iban", "country", country)
    if count != DATA["ibans"][country]:
        raise _fault("iban", "iban", count, country, DATA["ibans"][country])
    if _mod_97(iban) != 1:
        raise _fault("iban", "mod97")


def _complete_payment(fields: dict[str, Any]) -> None:
    for name in ("iban", "reference", "bic"):
        if name in fields:
            fields[name] = fields[name].replace(" ", "").upper()
    _check_iban(fields["iban"])
    if "amount" in fields:
        if float(fields["amount"]) == 0:
            raise ContentError("amount", DATA["types"]["amount"][1])
        fields["amount"] = "EUR" + fields["amount"] + ("0" if re.search(r"[.][0-9]$", fields["amount"]) else "")
    if "reference" in fields:
        if not 5 <= len(fields["reference"]) <= 25:
            raise ContentError("reference", DATA["types"]["reference"][1])
        if _mod_97(fields["reference"]) != 1:
            raise _fault("reference", "mod97")
        if "text" in fields:
            raise _fault("text", "both")
    fields["edition"] = "001" if "bic" in fields else "002"  # which without a bank came with 002


def _check_payment(text: str, fields: dict[str, Any]) -> None:
    """Raises ContentError if a character is not in the character set, or if there are too many bytes."""
    free = [it for it in ("name", "text", "information") if it in fields]
    number = DATA["payment"]["charsets"][fields["charset"]]
    for name in free:
        for letter in fields[name]:
            try:
                encoded(letter, number)
            except EciError:
                raise _fault(name, "charset", letter, fields["charset"]) from None
    count, most = len(payment_bytes(text)), DATA["payment"]["bytes"]
    if count > most:
        raise _fault(max(free, key=lambda it: len(encoded(fields[it], number))), "payment", count, most)


def _complete_link(fields: dict[str, Any]) -> None:
    try:
        found = fields_of(data_of(fields["gs1"]))
    except Gs1Error as fault:
        raise _fault("gs1", "gs1", fault) from None
    names = [name for name, _ in found]
    for k, name in enumerate(names):
        if name in names[:k]:
            raise _fault("gs1", "twice", name)
    key = next((it for it in names if it in DATA["keys"]), None)
    if key is None:
        raise _fault("gs1", "key")
    values = dict(found)
    path = [key, *(it for it in DATA["keys"][key] if it in values)]
    fields["path"] = [f"{name}/{_uri(values[name])}" for name in path]
    fields["query"] = [f"{name}={_uri(value)}" for name, value in found if name not in path]
    fields["domain"] = fields["domain"].rstrip("/")


COMPLETED = {"wifi": _complete_wifi, "contact": _complete_contact, "event": _complete_event, "payment": _complete_payment, "link": _complete_link}


# ---- the calls

def wifi(ssid: str, password: Optional[str] = None, security: Optional[str] = None, hidden: bool = False) -> str:
    """Returns the text for access to a wireless network. `security` is 'WPA', which is WPA, WPA2, or WPA2 together with WPA3; 'WPA3',
    which is WPA3 alone; 'WEP' or 'none'. Unless it is given, it is 'WPA' if there is a password, and else 'none'. `hidden` says that the
    network does not tell its name. A name or a password of hexadecimal digits is written as any other: quotation marks around it, as the
    wiki of zxing advises, are a part of it for readers that do not know of them."""
    return content_text("wifi", locals())


def contact(name: Optional[str] = None, *, given: Optional[str] = None, family: Optional[str] = None, additional: Optional[str] = None,
            prefix: Optional[str] = None, suffix: Optional[str] = None, nickname: Optional[str] = None, organization: Optional[str] = None,
            title: Optional[str] = None, phone: Texts = None, mobile: Texts = None, work: Texts = None, fax: Texts = None, email: Texts = None,
            url: Texts = None, street: Optional[str] = None, city: Optional[str] = None, region: Optional[str] = None,
            postcode: Optional[str] = None, country: Optional[str] = None, birthday: Union[str, date, None] = None, note: Optional[str] = None,
            format: str = "vcard3") -> str:
    """Returns the text of a contact, in the `format` 'vcard3' (RFC 2426), 'vcard4' (RFC 6350) or 'mecard', which has no place for some
    fields. It has a name, a given or a family name, or an organization. Numbers and addresses of the internet may be lists. Lines are
    not folded, which both documents allow, and which telephones read best."""
    return content_text("contact", locals())


def event(summary: str, start: Time, end: Optional[Time] = None, *, location: Optional[str] = None, description: Optional[str] = None,
          url: Optional[str] = None, uid: Optional[str] = None, stamp: Optional[Time] = None, format: str = "icalendar") -> str:
    """Returns the text of an event (RFC 5545). `start` and `end` are days, as '2026-12-24'; or times, as '2026-12-24T18:00' for the time of
    the reader's place, or with 'Z' or '+01:00' at the end. They may be a date or a datetime. Of days, `end` is the first day after the
    event. Unless they are given, `uid` is made of the start, the summary and the location, and `stamp` is the start, so that the same
    fields have the same text. The `format` 'vevent' leaves out what is around the event, and these two. Lines are not folded."""
    return content_text("event", locals())


def geo(latitude: Number, longitude: Number, altitude: Optional[Number] = None, uncertainty: Optional[Number] = None) -> str:
    """Returns the text of a place (RFC 5870): degrees north and east, and metres above the ellipsoid of WGS 84. `uncertainty` is how many
    metres the place may be off."""
    return content_text("geo", locals())


def mail(to: Texts, *, cc: Texts = None, bcc: Texts = None, subject: Optional[str] = None, body: Optional[str] = None) -> str:
    """Returns the text of an email to write (RFC 6068). Addresses may be lists."""
    return content_text("mail", locals())


def sms(number: str, body: Optional[str] = None, *, format: str = "smsto") -> str:
    """Returns the text of a short message to write. The `format` 'smsto' is what most telephones read together with its text; 'sms' is the
    address of RFC 5724, of which some telephones take the number alone."""
    return content_text("sms", locals())


def tel(number: str) -> str:
    """Returns the text of a telephone number (RFC 3966). Of a number without + that document asks also where it is valid, which telephones
    do not understand: it is left out."""
    return content_text("tel", locals())


def payment(name: str, iban: str, amount: Optional[Number] = None, *, bic: Optional[str] = None, purpose: Optional[str] = None,
            reference: Optional[str] = None, text: Optional[str] = None, information: Optional[str] = None, charset: Union[int, str] = 1) -> str:
    """Returns the text of a SEPA credit transfer (EPC069-12), which says that it is of version 001 if `bic` is given, and else of version
    002. `amount` is in euros; whoever pays chooses it unless it is given. Encode the text by **PAYMENT, and with a `charset` from 2 to 8,
    which are parts of ISO/IEC 8859, its payment_bytes."""
    return content_text("payment", locals())


def payment_bytes(text: str) -> bytes:
    """Returns the bytes of a payment in the character set that its third line names."""
    return encoded(text, DATA["payment"]["charsets"][text.split("\n")[2]])


def link(gs1: str, domain: str = "https://id.gs1.org") -> str:
    """Returns GS1 data as the address of a page (GS1 Digital Link). The first field that identifies something, such as (01), is in the path,
    with the fields that say more of it; the others follow after the question mark. The values are checked as those of encode(gs1=..)."""
    return content_text("link", locals())


def gs1_of(link: str) -> str:
    """Returns the GS1 data in the address of a page, as a text for encode(gs1=..). A GTIN of 8, 12 or 13 digits gets zeros before it. What
    follows the question mark and has no application identifier as its name is left out."""
    checked = _one("link", {"is": "link"}, link)
    if checked is None:
        raise _fault("link", "missing")
    address, _, query = checked.partition("#")[0].partition("?")
    segments = address.split("://", 1)[1].rstrip("/").split("/")[1:]
    place = next((k for k, it in enumerate(segments) if _is_path(segments[k:])), None)
    if place is None:
        raise _fault("link", "link")
    pairs = list(zip(segments[place::2], segments[place + 1::2]))
    pairs += [(name, value) for name, _, value in (it.partition("=") for it in re.split("[&;]", query)) if re.fullmatch("[0-9]{2,4}", name)]
    try:
        found = [(name, _padded(name, unquote(value, errors="strict"))) for name, value in pairs]
        begin, end = "[]" if any(re.search(r"\([0-9]{2,4}\)", value) for _, value in found) else "()"
        text = "".join(f"{begin}{name}{end}{value}" for name, value in found)
        data_of(text)
    except UnicodeDecodeError:
        raise ContentError("link", DATA["types"]["link"][1]) from None
    except Gs1Error as fault:
        raise _fault("link", "gs1", fault) from None
    return text


def _is_path(segments: list[str]) -> bool:
    """Whether the segments are a field that identifies something, and fields that may follow it."""
    names = segments[::2]
    return len(segments) % 2 == 0 and names[0] in DATA["keys"] and all(it in DATA["keys"][names[0]] for it in names[1:])


def _padded(name: str, value: str) -> str:
    return value.zfill(14) if name == "01" and re.fullmatch("[0-9]{8}|[0-9]{12,13}", value) else value
