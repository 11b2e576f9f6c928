"""GS1 data, and their fields: values with their application identifiers (GS1 General Specifications, 3, 7.8 and 7.9)."""
from __future__ import annotations

import json
import re
from functools import partial
from pathlib import Path

# gs1.json is also the table of the package for JavaScript. It has five parts:
#   characters   each kind of character, with all characters of it and its name: digits (N), GS1's set 82 (X) and its set 39 (Y)
#   rules        patterns, one of which a part of a value has to match, and what is said of a part that matches none of them
#   pair         the check characters of a pair, and the weights of the characters before it, from the right
#   predefined   how the identifiers begin whose values have one length each, so that no separator comes after them
#   identifiers  application identifiers, and the parts of their values: how many characters of a kind, or from how many to how many,
#                and the rules of the part. The rules `check`, `pair` and `pieces` are functions below. A `date` is YYMMDD, and its day
#                is 00 if none is said, which the rule `day` excludes. A `time` is MM or MMSS.
DATA = json.loads(Path(__file__).with_name("gs1.json").read_text(encoding="utf-8"))
PREDEFINED, SET_82 = DATA["predefined"], DATA["characters"]["X"][0]
CHECK_CHARACTERS, WEIGHTS = DATA["pair"]
SEPARATOR = "\x1d"


class Gs1Error(ValueError):
    """The data are no GS1 data: which field is wrong, and why."""


class Part:
    """A part of a value."""

    def __init__(self, text: str) -> None:
        kind, least, most, rules = re.fullmatch(r"([NXY])(\d+)(?:\.\.(\d+))?((?::\w+)*)", text).groups()  # type: ignore[union-attr]
        self.least, self.most, self.rules = int(least), int(most or least), rules.split(":")[1:]
        self.characters, self.name = DATA["characters"][kind]

    def fault(self, text: str) -> str | None:
        """Returns what is wrong with the text of a part that has a right length."""
        other = next((it for it in text if it not in self.characters), None)
        if other is not None:
            return f"{other!a} is not {self.name}"
        return next((fault for rule in self.rules if (fault := RULES[rule](text))), None)


def _pattern_fault(patterns: list[str], said: str, text: str) -> str | None:
    return None if any(re.fullmatch(it, text) for it in patterns) else said.format(text)


def _check_fault(text: str) -> str | None:
    """All digits, weighted 3 and 1 in turn from the check digit's neighbour on to the left, sum to a multiple of 10."""
    wanted = -sum(int(digit) * (3, 1)[k % 2] for k, digit in enumerate(reversed(text[:-1]))) % 10
    return None if int(text[-1]) == wanted else f"its check digit is {text[-1]}, and should be {wanted}"


def _pieces_fault(text: str) -> str | None:
    return None if 0 < int(text[:2]) <= int(text[2:]) else f"there is no piece {text[:2]} of {text[2:]}"


def _pair_fault(text: str) -> str | None:
    """The characters before the pair are numbered in set 82 from 0 on, and weighted from the pair's neighbour on to the left. Their sum
    modulo 1021 is 32 times the number of the first check character plus that of the second."""
    total = sum(SET_82.index(it) * weight for it, weight in zip(reversed(text[:-2]), WEIGHTS)) % 1021
    wanted = CHECK_CHARACTERS[total // 32] + CHECK_CHARACTERS[total % 32]
    return None if text[-2:] == wanted else f"its check characters are {text[-2:]}, and should be {wanted}"


RULES = {"check": _check_fault, "pieces": _pieces_fault, "pair": _pair_fault, **{name: partial(_pattern_fault, *it) for name, it in DATA["rules"].items()}}
TABLE = [(re.compile(pattern), [Part(it) for it in parts]) for pattern, *parts in DATA["identifiers"]]


def fields_of(data: bytes) -> list[tuple[str, str]]:
    """Returns each application identifier with its value. Raises Gs1Error for an identifier that is not in the table, and for a value
    that has a wrong length, a wrong character or a wrong check digit, or breaks another rule of its identifier."""
    rest, found = data.decode("latin-1"), []
    if not rest:
        raise Gs1Error("the data have no field")
    while rest:
        name, parts = _identifier_of(rest)
        rest, most = rest[len(name):], sum(it.most for it in parts)
        value = rest[:most] if re.match(PREDEFINED, name) else rest
        value = value.split(SEPARATOR)[0]
        fault = _fault(value, parts)
        if fault:
            raise Gs1Error(f"({name}) {fault}")
        found.append((name, value))
        rest = rest[len(value):]
        # (one more separator may come after a value of a predefined length, and after the last)
        if rest.startswith(SEPARATOR):
            rest = rest[1:]
    return found


# The application identifiers of a text, by the sign with which it begins.
WRITTEN = {"(": re.compile(r"\(([0-9]{2,4})\)"), "[": re.compile(r"\[([0-9]{2,4})\]")}


def data_of(text: str) -> bytes:
    """Returns the data of a text in which each application identifier is in parentheses or, as the first is, in brackets: the fields one
    after the other, with a separator between a value of no predefined length and the next identifier. Raises Gs1Error as fields_of
    does."""
    pattern = WRITTEN.get(text[:1])
    before, *parts = pattern.split(text) if pattern else [text]
    if before or not parts:
        raise Gs1Error(f"GS1 data begin with an application identifier, as (01) or [01], and not with {text[:4]!a}")
    fields, data = list(zip(parts[::2], parts[1::2])), ""
    for name, value in fields:
        known = next((it for pattern, it in TABLE if pattern.fullmatch(name)), None)
        fault = _fault(value, known) if known else "is no application identifier that is known"
        if fault:
            raise Gs1Error(f"({name}) {fault}")
        data += name + value + ("" if re.match(PREDEFINED, name) else SEPARATOR)
    return data.rstrip(SEPARATOR).encode("ascii")


def _identifier_of(rest: str) -> tuple[str, list[Part]]:
    for pattern, parts in TABLE:
        found = pattern.match(rest)
        if found:
            return found.group(), parts
    raise Gs1Error(f"no application identifier that is known begins {rest[:4]!a}")


def _fault(value: str, parts: list[Part]) -> str | None:
    least, most = sum(it.least for it in parts), sum(it.most for it in parts)
    if not least <= len(value) <= most:
        wanted = f"{least}" if least == most else f"{least} to {most}"
        return f"has {wanted} characters, and not {len(value)}"
    for part in parts:
        own, value = value[:part.most], value[part.most:]
        fault = part.fault(own)
        if fault:
            return fault
    return None
