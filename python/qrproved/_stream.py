"""The list of a batch as a stream: its lines or columns, the names of the files, and the parts that processes write. However long the
list is, only some parts of it are in memory."""
from __future__ import annotations

import csv
import itertools
import multiprocessing
import operator
import os
import re
import shutil
import signal
import stat
import tempfile
import threading
from collections import deque
from collections.abc import Callable, Iterable, Iterator
from concurrent.futures import ProcessPoolExecutor
from concurrent.futures.process import BrokenProcessPool
from typing import BinaryIO, NamedTuple, Optional, TypeVar, Union

from ._sources import SourceError, is_text, lines_in
from .batch import Label, Part, Settings, Unreadable

# FEW labels are written without a pool of processes, which takes a tenth of a second to start. A process takes PART at once.
FEW, PART = 3000, 500
AHEAD = 2  # parts that wait, beside one for each process
WORKERS_MAX = 60  # Windows waits for at most 63 processes at once
NAME_MAX = 80
DIGITS = 5  # at least, of a file that is named by its line
DIGITS_OF_SHARD, LABELS_OF_ARCHIVE = 8, 10_000
SEPARATORS = ",;\t"
COLUMNS = ("text", "name", "caption")  # of which only the first is needed

Result = TypeVar("Result")


def columns_of(words: Optional[list[str]]) -> dict[str, str]:
    """Returns the names of columns by what they hold, as --columns has them; none if it is not given. Raises SourceError."""
    pairs = [it.partition("=") if "=" in it else ("text", "=", it) for it in words or ()]
    columns = {kind: name for kind, _, name in pairs}
    if not columns.keys() <= set(COLUMNS) or len(columns) < len(pairs) or (columns and "text" not in columns):
        raise SourceError(f"--columns are given as {' '.join(f'{it}=NAME' for it in COLUMNS)}, each once, and there is one for the text")
    return columns if words else {} if words is None else {it: it for it in COLUMNS[:2]}


class Row(NamedTuple):
    """A label as its list has it."""

    line: int
    number: int
    """Which label of the list it is, from 1 on. Empty lines count."""
    data: Union[str, bytes, Unreadable]
    name: str = ""
    caption: Optional[str] = None


class Source:
    """A list that is read as its labels are written."""

    def __init__(self, file: BinaryIO, name: str, encoding: Optional[str]) -> None:
        self.file, self.name, self.encoding = file, name, encoding

    def lines(self) -> Iterator[Union[str, bytes]]:
        return lines_in(self.file, self.encoding, self.name)

    def count(self) -> int:
        """Returns how many lines there are. What cannot be read twice is copied to a file first."""
        if not self.file.seekable():
            copy = tempfile.TemporaryFile()
            shutil.copyfileobj(self.file, copy)
            copy.seek(0)
            self.file = copy
        start = self.file.tell()
        count = sum(1 for _ in self.lines())
        self.file.seek(start)
        return count

    def share(self) -> Optional[float]:
        """Returns which share of a file is read; None of what has no length."""
        found = os.fstat(self.file.fileno())
        return self.file.tell() / found.st_size if stat.S_ISREG(found.st_mode) and found.st_size else None

    def unreadable(self) -> Unreadable:
        why = f"it is no text in {self.encoding}" if self.encoding else "it is no UTF-8: --encoding names another encoding"
        return Unreadable(why)

    def rows(self) -> Iterator[Row]:
        """Yields a label for each line that is not empty."""
        for number, whole in enumerate(self.lines(), 1):
            line = whole.rstrip("\r" if isinstance(whole, str) else b"\r")  # type: ignore[arg-type]
            if line:
                yield Row(number, number, self.unreadable() if isinstance(line, str) and not is_text(line) else line)

    def rows_by_columns(self, columns: dict[str, str], optional: tuple[str, ...] = ()) -> Iterator[Row]:
        """Yields a label for each line below the header, which has these columns; some kinds of columns may be missing. The text may go over
        several lines."""
        lines = self.lines()
        header = next(lines, "")
        separator, places = self._places(header, columns, optional)
        reader = csv.reader((f"{line}\n" for line in itertools.chain([header], lines)), delimiter=separator, strict=True)
        next(reader)
        for number in itertools.count(1):
            line = reader.line_num + 1
            try:
                fields = next(reader)
            except StopIteration:
                return
            except csv.Error as fault:
                fields, data = [], Unreadable(str(fault))
            else:
                if not fields:
                    continue
                data = self._text_of(fields, places["text"])
            name, caption = (fields[places[it]] if places.get(it, len(fields)) < len(fields) else None for it in ("name", "caption"))
            yield Row(line, number, data, name or "", caption)

    def _places(self, header: str, columns: dict[str, str], optional: tuple[str, ...]) -> tuple[str, dict[str, int]]:
        """Returns the separator by which a header has some columns, and where they are."""
        headers = {it: [name.strip() for name in next(csv.reader([header], delimiter=it), [])] for it in SEPARATORS}
        for separator, names in headers.items():
            if all(name in names for kind, name in columns.items() if kind not in optional):
                return separator, {kind: names.index(name) for kind, name in columns.items() if name in names}
        names = max(headers.values(), key=len)
        lacking = next((it for it in columns.values() if it not in names), "")
        raise SourceError(f"{self.name} has no column {lacking!r}: its first line has {', '.join(map(repr, names)) or 'none'}")

    def _text_of(self, fields: list[str], place: int) -> Union[str, Unreadable]:
        if place >= len(fields):
            return Unreadable(f"it has {len(fields)} column{'s' * (len(fields) != 1)}, and the text is in column {place + 1}")
        return fields[place] if all(map(is_text, fields)) else self.unreadable()


class Naming(NamedTuple):
    """How the files of a batch are named."""

    folder: str
    suffix: str
    by_text: bool = False
    start: int = 1
    """The number of the first label."""
    digits: int = DIGITS
    shard: Optional[int] = None
    """How many labels go to a folder of their own, or to an archive."""
    is_archive: bool = False

    def place(self, number: int) -> str:
        """Returns the folder or the archive of a label. Those of a shard are named by its first label."""
        if self.shard is None:
            return self.folder
        return os.path.join(self.folder, f"{number - (number - 1) % self.shard:0{self.digits}}" + ".tar" * self.is_archive)

    def name(self, row: Row, number: int, taken: set[str]) -> str:
        """Returns the name of a file. Two files of a place never have one name, also where capitals do not count."""
        text = row.name or (row.data if self.by_text else "")
        if not text or isinstance(text, Unreadable):
            return f"{number:0{self.digits}}"
        name = name_of(text)
        if name.casefold() in taken:
            name += f"-{number}"
            while name.casefold() in taken:
                name += "_"
        taken.add(name.casefold())
        return name


def name_of(line: Union[str, bytes]) -> str:
    """Returns a name for the file of a line: its letters, digits, points and hyphens; '_' stands for all between them."""
    text = line.decode(errors="replace") if isinstance(line, bytes) else line
    name = re.sub(r"[^\w.-]+", "_", text)[:NAME_MAX].strip("_.")
    return name.encode()[:3 * NAME_MAX].decode(errors="ignore") or "_"


def labels_of(rows: Iterable[Row], names: Naming) -> Iterator[tuple[str, Label]]:
    """Yields labels, each with the folder or the archive of its file. The names of a place are in memory, unless they are numbers."""
    place, taken = "", set()
    for row in rows:
        number = row.number + names.start - 1
        if names.place(number) != place:
            place, taken = names.place(number), set()
        file = names.name(row, number, taken) + names.suffix
        yield place, Label(row.line, file if names.is_archive else os.path.join(place, file), row.data, row.caption)


def parts_of(labels: Iterable[tuple[str, Label]], settings: Settings, names: Naming, is_resumed: bool) -> Iterator[Part]:
    """Yields the labels in parts. An archive is a part."""
    if names.is_archive:
        for archive, group in itertools.groupby(labels, operator.itemgetter(0)):
            yield Part(settings, [label for _, label in group], archive, is_resumed)
        return
    rest = (label for _, label in labels)
    while True:
        part = list(itertools.islice(rest, PART))
        if not part:
            return
        yield Part(settings, part, None, is_resumed)


def spread(work: Callable[[Part], Result], parts: Iterable[Part], workers: int) -> Iterator[Result]:
    """Yields what `work` returns of each part, in their order. If there are many labels, a pool of processes does it; only so many parts
    are taken as keep it busy."""
    rest, first, count = iter(parts), [], 0
    while count <= FEW and workers > 1:
        part = next(rest, None)
        if part is None:
            break
        first.append(part)
        count += len(part.labels)
    pool = pool_of(workers) if count > FEW else None
    if pool is None:
        yield from map(work, itertools.chain(first, rest))
        return
    try:
        waiting = deque()
        for part in itertools.chain(first, rest):
            waiting.append(pool.submit(work, part))
            if len(waiting) >= workers + AHEAD:
                yield waiting.popleft().result()
        while waiting:
            yield waiting.popleft().result()
    except BrokenProcessPool:
        raise ChildProcessError("a process that wrote labels was ended by the system, perhaps for lack of memory") from None
    finally:
        pool.shutdown(cancel_futures=True)


def pool_of(workers: int) -> Optional[ProcessPoolExecutor]:
    """Returns a pool of processes; None if the system has none."""
    # Not a fork: no call of the library may be made in the child of a process with threads.
    try:
        return ProcessPoolExecutor(min(workers, WORKERS_MAX), multiprocessing.get_context("spawn"), begin)
    except (ImportError, NotImplementedError, OSError):  # no semaphores here
        return None


def begin() -> None:
    """Lets a process of a pool end when the one that started it is gone, even if that was killed. It takes no notice of a key of the
    terminal that interrupts: the one that started it does."""
    signal.signal(signal.SIGINT, signal.SIG_IGN)
    threading.Thread(target=end_with_parent, daemon=True).start()


def end_with_parent() -> None:
    multiprocessing.parent_process().join()  # type: ignore[union-attr]
    os._exit(1)


def progress_of(count: int, written: int, seconds: float, first_share: float, share: Optional[float]) -> str:
    """Says how far a batch is: how many labels are done, how many a second were written, and the time left. The list was read up to
    `first_share` when the first one was written, and is now read up to `share`."""
    said = f"{count:,} labels"
    if written and seconds > 0:
        said += f", {written / seconds:,.0f} a second"
    if share is not None:
        said += f", {100 * share:.0f} %"
        if written and share > first_share:
            left = round(seconds * (1 - share) / (share - first_share))
            said += f", {left // 3600}:{left // 60 % 60:02}:{left % 60:02} left"
    return said


def processors() -> int:
    return len(os.sched_getaffinity(0)) if hasattr(os, "sched_getaffinity") else os.cpu_count() or 1
