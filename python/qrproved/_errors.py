"""The refusals of the library, an exception for each status."""
from __future__ import annotations

from typing import TYPE_CHECKING, ClassVar

from ._common import STATUSES

if TYPE_CHECKING:
    from collections.abc import Sequence


class Error(Exception):
    """A refusal of the library. `status` is its number in include/qrproved.h."""

    status: ClassVar[int] = 0
    text: ClassVar[str] = "the library refused"

    def __init__(self, text: str | None = None) -> None:
        super().__init__(text or self.text)


class EmptyError(Error, ValueError):
    """The input has no byte."""

    status, text = STATUSES["EMPTY"]


class TooLongError(Error, ValueError):
    """No version from the smallest one on holds the input."""

    status, text = STATUSES["TOO_LONG"]


class TooManyError(Error, ValueError):
    """The input takes more than 16 symbols of the version."""

    status, text = STATUSES["TOO_MANY"]


class OutOfMemoryError(Error, MemoryError):
    """The library was refused memory."""

    status, text = STATUSES["MEMORY"]


class SettingsError(Error, ValueError):
    """A number is out of range, a name is not known, settings exclude each other, symbols to draw have several sides, or a module to
    mend is more than 2."""

    status, text = STATUSES["SETTINGS"]


class RoomError(Error, ValueError):
    """There are fewer modules than the side times itself."""

    status, text = STATUSES["ROOM"]


class SideError(Error, ValueError):
    """No version has this side."""

    status, text = STATUSES["SIDE"]


class FormatError(Error, ValueError):
    """The format information is that of no level and mask, or is too damaged."""

    status, text = STATUSES["FORMAT"]


class CheckError(Error, ValueError):
    """A block does not match its error correction codewords, or is too damaged to be mended."""

    status, text = STATUSES["CHECK"]


class SegmentsError(Error, ValueError):
    """The data codewords cannot be parsed."""

    status, text = STATUSES["SEGMENTS"]


class NoDrawingError(Error, ValueError):
    """The text is no drawing of symbols."""

    status, text = STATUSES["NO_DRAWING"]


class FieldsError(Error, ValueError):
    """The bytes are no GS1 data: a separator comes directly before another or before %."""

    status, text = STATUSES["FIELDS"]


class LogoError(Error, ValueError):
    """The input fits, but no symbol of it may have a logo of this size. `largest` is the side of the largest logo that one may have, in
    modules."""

    status, text = STATUSES["LOGO"]
    largest: int = 0


def no_logo(asked: str, largest: int) -> LogoError:
    """Returns the refusal of a logo. `asked` says how large it is."""
    may = f"a logo of at most {largest} by {largest} modules" if largest else "no logo"
    fault = LogoError(f"no symbol of the input may have a logo of {asked}: one may have {may}")
    fault.largest = largest
    return fault


def too_long(count: int, level: int, most: Sequence[str]) -> TooLongError:
    """Returns the refusal of `count` bytes. `most` says how many characters of each mode the largest symbol of this level holds."""
    *first, last = most
    holds = f"{', '.join(first)} or {last}" if first else last
    return TooLongError(f"the input has {count:,} bytes and does not fit a symbol: version 40-{'LMQH'[level]} holds {holds}")


BY_STATUS = {kind.status: kind for kind in (EmptyError, TooLongError, TooManyError, OutOfMemoryError, SettingsError, RoomError,
                                            SideError, FormatError, CheckError, SegmentsError, NoDrawingError, FieldsError, LogoError)}


def raise_for(status: int) -> None:
    """Raises the exception of a status, and returns for 0."""
    if status:
        raise BY_STATUS[status]() if status in BY_STATUS else Error(f"the library returned the unknown status {status}")
