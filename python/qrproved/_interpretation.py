"""What the bytes of a symbol mean as characters, and the bytes of a text: ECI headers (Extended Channel Interpretation; ISO/IEC
18004:2015, 7.4.2)."""
from __future__ import annotations

import re
from typing import TYPE_CHECKING, NamedTuple

from ._common import DATA, INTERPRETATIONS

if TYPE_CHECKING:
    from collections.abc import Iterator, Sequence


class Eci(NamedTuple):
    """An ECI header: from a byte of the data on, the bytes have this ECI."""

    begin: int
    """The number of bytes before it."""
    number: int
    """From 0 to 999,999: 26 is UTF-8, 20 is Shift JIS, 3 is ISO/IEC 8859-1."""


class EciError(ValueError):
    """The bytes of an ECI are not read as characters, or a character of a text is not in its character set."""


CODECS = {int(number): name for number, (name, _) in DATA["ecis"].items()}
BYTES, UTF_8, SHIFT_JIS = (INTERPRETATIONS[name] for name in ("BYTES", "UTF_8", "SHIFT_JIS"))
# What Python has for bytes that are no characters of the set: 80, A0 and FD to FF.
NO_CHARACTERS = {"cp932": re.compile("[\x80\uf8f0-\uf8f3]")}

# For the yen sign and the overline Python has the bytes of \ and ~, which are read as these.
IN_SHIFT_JIS = str.maketrans({**{other: one for one, other in DATA["shift_jis"]}, "¥": "\ufffd", "‾": "\ufffd"})


def encoded(text: str, number: int) -> bytes:
    """Returns the bytes of a text in the character set of an ECI. Raises EciError for an ECI that is not known or that means bytes, and
    for the first character that is not in its set. For 20 the set is what every reader of Shift JIS has: ASCII, katakana of half width and
    the characters of JIS X 0208."""
    codec, wanted = ("shift_jis", text.translate(IN_SHIFT_JIS)) if number == SHIFT_JIS else (_codec(number), text)
    try:
        return wanted.encode(codec)
    except UnicodeEncodeError as fault:
        character, name = text[fault.start], "Shift JIS" if number == SHIFT_JIS else f"the characters of ECI {number}"
        raise EciError(f"{character!r} (U+{ord(character):04X}), character {fault.start + 1} of the text, is not in {name}") from None


def stretches(data: bytes, ecis: Sequence[Eci]) -> Iterator[tuple[int | None, bytes]]:
    """Yields the ECI in effect, or None, and the bytes, for each stretch that no ECI header divides; empty ones are left out."""
    begins, numbers = [0, *(it.begin for it in ecis)], [None, *(it.number for it in ecis)]
    for number, begin, end in zip(numbers, begins, [*begins[1:], len(data)]):
        if begin < end:
            yield number, data[begin:end]


def text_of(data: bytes, ecis: Sequence[Eci], default: int = UTF_8) -> str:
    """Returns the characters: those without an ECI as those of the ECI `default`. Raises EciError for an ECI that is not known or that
    means bytes, and UnicodeDecodeError for bytes that are no characters."""
    return "".join(_decoded(part, _codec(default if number is None else number)) for number, part in stretches(data, ecis))


def _decoded(data: bytes, codec: str) -> str:
    text = data.decode(codec)
    fault = codec in NO_CHARACTERS and NO_CHARACTERS[codec].search(text)
    if fault:
        start = len(text[:fault.start()].encode(codec))
        raise UnicodeDecodeError(codec, data, start, start + 1, "illegal byte")
    return text


def _codec(number: int) -> str:
    if number == BYTES:
        raise EciError(f"ECI {BYTES} means bytes, and no characters")
    if number not in CODECS:
        raise EciError(f"the characters of ECI {number} are not known")
    return CODECS[number]
