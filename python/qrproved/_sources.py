"""The texts of a file or of standard input: which encoding they have, and the lines of a batch."""
from __future__ import annotations

import codecs
import itertools
import re
import sys
from collections.abc import Iterator
from typing import AnyStr, BinaryIO, Optional, Union

LINE_MAX = 1 << 20  # of which no label has as many characters
CHUNK = 1 << 16  # bytes that are read at once
# The byte order marks of encodings that have either order.
MARKED = {"utf-16": (codecs.BOM_UTF16_LE, codecs.BOM_UTF16_BE), "utf-32": (codecs.BOM_UTF32_LE, codecs.BOM_UTF32_BE)}
BINARY = "binary"  # in place of an encoding: bytes that are taken as they are
UTF_8 = "utf-8"
# What stands for bytes that are no characters. An encoding of texts has no such character.
MARK, MARKS = "\udfff", re.compile("[\ud800-\udfff]")
CODEC_ERRORS = "qrproved.mark"
codecs.register_error(CODEC_ERRORS, lambda fault: (MARK, fault.end))  # type: ignore[attr-defined]


class SourceError(ValueError):
    """A file is in another encoding than the one that was named, or has none that is known."""


def encoding_of(name: str) -> str:
    """Returns the name of an encoding of texts, or BINARY. Raises SourceError for another name."""
    if name.lower() == BINARY:
        return BINARY
    try:
        found = codecs.lookup(name)
    except (LookupError, ValueError):
        raise SourceError(f"there is no encoding {name!r}") from None
    if not getattr(found, "_is_text_encoding", True):
        raise SourceError(f"{name!r} is no encoding of texts")
    return found.name


def utf_16_of(data: bytes) -> Optional[str]:
    """Returns the name of an encoding of UTF-16 that some bytes seem to have: they begin with its byte order mark, or in the first
    line every second byte is 0. None for others."""
    if data[:2] in (b"\xff\xfe", b"\xfe\xff"):
        return "utf-16"
    first_line = data.split(b"\n", 1)[0]
    even, odd = first_line[::2], first_line[1::2]
    for zeros, others, name in ((odd, even, "utf-16-le"), (even, odd, "utf-16-be")):
        if zeros and others and not zeros.strip(b"\0") and 0 not in others:
            return name
    return None


def _in_utf_16(source: str, found: str) -> SourceError:
    return SourceError(f"{source} is in UTF-16: save it as UTF-8, or add --encoding {found}")


def decoded(data: bytes, encoding: Optional[str], source: str) -> str:
    """Returns the text of a source without its byte order mark, with a MARK for bytes that are no characters. Without an encoding it
    is UTF-8, and what seems to be UTF-16 is refused. Raises SourceError."""
    found = utf_16_of(data) if encoding is None else None
    if found is not None:
        raise _in_utf_16(source, found)
    try:
        text = data.decode(encoding or UTF_8, CODEC_ERRORS)
    except UnicodeError:  # of a codec that does not say which bytes are wrong
        raise SourceError(f"{source} is no text in {encoding}") from None
    return text[1:] if text.startswith("\ufeff") else text


def is_text(text: str) -> bool:
    """Whether all bytes of a text were characters."""
    return MARKS.search(text) is None


def lines_in(file: BinaryIO, encoding: Optional[str], source: str) -> Iterator[Union[str, bytes]]:
    """Returns the lines of a file, without the line feeds at their ends: as bytes if the encoding is BINARY. The file is read as the lines are taken.
    Raises SourceError, if the encoding is wrong at the first line or later."""
    head = file.readline(LINE_MAX)
    found = utf_16_of(head) if encoding is None else None
    if found is not None:
        raise _in_utf_16(source, found)
    if encoding in MARKED and not head.startswith(MARKED[encoding]):
        encoding += "-le" if sys.byteorder == "little" else "-be"  # which its decoder does not take for granted
    chunks = itertools.chain([head], iter(lambda: file.read1(CHUNK), b""))  # type: ignore[attr-defined]
    if encoding == BINARY:
        return _split(chunks, b"\n")
    return _split(_texts(chunks, encoding, source), "\n")


def _texts(chunks: Iterator[bytes], encoding: Optional[str], source: str) -> Iterator[str]:
    """Yields a text piece by piece, without its byte order mark, with a MARK for bytes that are no characters."""
    decoder, is_first = codecs.getincrementaldecoder(encoding or UTF_8)(CODEC_ERRORS), True
    try:
        for chunk in itertools.chain(chunks, [None]):
            text = decoder.decode(chunk) if chunk is not None else decoder.decode(b"", True)
            if text:
                yield text[1:] if is_first and text.startswith("\ufeff") else text
                is_first = False
    except UnicodeError:
        raise SourceError(f"{source} is no text in {encoding}") from None


def _split(pieces: Iterator[AnyStr], end: AnyStr) -> Iterator[AnyStr]:
    """Yields the lines of a text or of bytes. Of a line that is longer than LINE_MAX the rest is left out."""
    rest = end[:0]
    for piece in pieces:
        first, *others = piece.split(end)
        rest += first[:max(0, LINE_MAX - len(rest))]
        for other in others:
            yield rest
            rest = other
    if rest:
        yield rest
