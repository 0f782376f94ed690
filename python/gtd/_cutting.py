"""Record sets that are larger than a file may be, cut into files.

Two things make this right. First, no field of an accepted file holds a line end. So each line of such a file is a row, or empty,
and means the same wherever it is: a file may be cut at any line end, and quotes need not be counted. It is accepted exactly if
each piece is accepted under the file's header, and its first fault is that of the first piece at fault. Second, an element's own
rows alone decide its schedule, in whatever order they come: the schedules of ascending ranges of elements, one after another, are
the schedule of all. docs/COUNTRY.md names the laws that are proved of this.

The program says whether a piece is accepted and what its rows mean: ``gtd migrate`` prints each row in one form, without quotes,
whatever the file's version, line ends and quotes were.
"""

from __future__ import annotations

import csv
import io
from dataclasses import dataclass
from typing import List, Optional, Tuple, Union

import numpy
import pandas
from numpy.typing import NDArray

from gtd._fault import Fault, in_row
from gtd._program import LARGEST_FILE, MOST_ROWS, run

Numbers = NDArray[numpy.int64]

HEADER = b"element,direction,vehicles,domain\n"  # of what the program migrates

_LARGEST_PART = LARGEST_FILE - len(HEADER)
_LONGEST_SHOWN = 1 << 16  # bytes of a row that a fault carries


@dataclass(frozen=True)
class Refused:
    """Some lines, one of which is at fault: where the first fault is."""

    line: int
    """How many lines come before it."""
    row: int
    """How many rows come before it."""


@dataclass(frozen=True)
class Rows:
    """Migrated rows in ascending order of their elements; those of one element in the order in which they were read."""

    elements: Numbers
    """int64, of each row."""
    ends: Numbers
    """int64: where each row ends in ``text``, in bytes."""
    text: bytes


@dataclass(frozen=True)
class Cuts:
    """Parts, each an ascending range of elements: the first element of each, and its number of rows (int64)."""

    firsts: Numbers
    rows: Numbers


@dataclass(frozen=True)
class Beyond:
    """The first element that no file can hold: its number, all its rows, and their bytes when migrated."""

    element: int
    rows: int
    size: int
    side: str = ""
    """Which of two sets it is an element of, ``'old'`` or ``'new'``, if there are two."""

    @property
    def kind(self) -> str:
        """The kind of the fault."""
        return "TooManyRows" if self.rows > MOST_ROWS else "TooLarge"

    @property
    def note(self) -> str:
        """What a fault says about it."""
        has = f"element {self.element} has {self.rows:,} rows of together {self.size:,} bytes"
        return f"{has}; what one file can hold is {MOST_ROWS:,} rows and {_LARGEST_PART:,} bytes"

    def is_passed(self, rows: int, size: int) -> bool:
        """Whether this many of its rows, with this many bytes, are too many."""
        return rows > MOST_ROWS if self.kind == "TooManyRows" else size > _LARGEST_PART


def is_empty(line: bytes) -> bool:
    """Whether a line holds no row."""
    return not line.rstrip(b"\r\n")


def stretches(rows: Numbers, sizes: Numbers, largest: int, most: int = MOST_ROWS) -> List[int]:
    """Where stretches begin, as few as possible: each has at most ``most`` rows and ``largest`` bytes, or is one entry."""
    rows_before, sizes_before = _before(rows), _before(sizes)
    begins: List[int] = []
    at = 0
    while at < len(rows):
        begins.append(at)
        by_rows = numpy.searchsorted(rows_before, rows_before[at] + most, side="right") - 1
        by_size = numpy.searchsorted(sizes_before, sizes_before[at] + largest, side="right") - 1
        at = int(max(at + 1, min(by_rows, by_size)))
    return begins


def _before(numbers: Numbers) -> Numbers:
    """The sum of the numbers before each, and then the sum of all."""
    return numpy.concatenate((numpy.zeros(1, "int64"), numpy.cumsum(numbers)))


def files_of(lines: List[bytes], head: bytes) -> List[Tuple[int, int]]:
    """Begins and ends of runs of lines that are files under a header; a line that is too long for any is a run by itself.

    There is at least one run, so that the header is checked.
    """
    sizes = numpy.fromiter(map(len, lines), dtype="int64", count=len(lines))
    begins = stretches(numpy.ones(len(lines), dtype="int64"), sizes, LARGEST_FILE - len(head))
    return list(zip(begins, begins[1:] + [len(lines)])) or [(0, 0)]


def migrate_lines(head: bytes, lines: List[bytes]) -> Union[List[bytes], Refused]:
    """The rows of some lines under a header, each migrated and with its line end, if the program accepts them all."""
    migrated: List[bytes] = []
    for begin, end in files_of(lines, head):
        try:
            printed = run("migrate", "/dev/stdin", given=head + b"".join(lines[begin:end]))
        except Fault as fault:
            if fault.row is None and fault.kind not in ("Header", "TooLarge"):
                raise
            filled = [at for at in range(begin, end) if not is_empty(lines[at])]
            at = begin if fault.row is None else filled[fault.row - 1]
            return Refused(line=at, row=len(migrated) + (fault.row or 1) - 1)
        migrated += printed.splitlines(keepends=True)[1:]
    return migrated


def fault_of(
    head: bytes, lines: List[bytes], number: int, *, file: Optional[str] = None, line: Optional[int] = None
) -> Optional[Fault]:
    """The first fault of lines that begin with the row at fault, reported as that of the row with this number.

    The lines must hold the whole row: a quoted field may run on over line ends. None if there is no fault.
    """
    begin, end = files_of(lines, head)[0]
    try:
        run("migrate", "/dev/stdin", given=head + b"".join(lines[begin:end]))
    except Fault as fault:
        if fault.kind == "Header":
            return fault
        return in_row(fault, lines[0].rstrip(b"\r\n")[:_LONGEST_SHOWN], number, file=file, line=line)
    return None


def sort_rows(migrated: List[bytes]) -> Rows:
    """Migrated rows, in ascending order of their elements."""
    if not migrated:
        return Rows(numpy.zeros(0, "int64"), numpy.zeros(0, "int64"), b"")
    text = io.BytesIO(b"".join(migrated))
    numbers = pandas.read_csv(text, header=None, usecols=[0], dtype="int64", quoting=csv.QUOTE_NONE)[0].to_numpy()
    order = numpy.argsort(numbers, kind="stable")
    ordered = [migrated[at] for at in order]
    ends = numpy.cumsum(numpy.fromiter(map(len, ordered), dtype="int64", count=len(ordered)))
    return Rows(numbers[order], ends, b"".join(ordered))


def count(rows: Rows) -> pandas.DataFrame:
    """How many ``rows`` and bytes (``size``) each ``element`` has: all int64, in ascending order of elements."""
    begins = numpy.flatnonzero(numpy.diff(rows.elements, prepend=-1))
    sizes = numpy.diff(rows.ends, prepend=0)
    number = numpy.diff(numpy.append(begins, len(rows.elements)))
    size = numpy.add.reduceat(sizes, begins) if len(begins) else sizes
    return pandas.DataFrame({"element": rows.elements[begins], "rows": number, "size": size}, dtype="int64")


def cut(total: pandas.DataFrame, most: int = MOST_ROWS) -> Union[Cuts, Beyond]:
    """The parts of all elements, each as long as it can be with at most ``most`` rows in one file; or why there are none.

    Parameters
    ----------
    total : pandas.DataFrame
        As :func:`count` gives it, by ``element`` as the index.
    """
    total = total.sort_index()
    return _beyond(total) or _stretched(total, most)


def cut_both(old: pandas.DataFrame, new: pandas.DataFrame, most: int = MOST_ROWS) -> Union[Cuts, Beyond]:
    """The parts of the elements of two sets. The rows of both together are within the limits of a part, but for an element that
    is a part by itself.
    """
    old, new = old.sort_index(), new.sort_index()
    return _beyond(old, "old") or _beyond(new, "new") or _stretched(old.add(new, fill_value=0).astype("int64"), most)


def _beyond(total: pandas.DataFrame, side: str = "") -> Optional[Beyond]:
    """The first element that no file can hold."""
    rows, sizes = total["rows"].to_numpy(), total["size"].to_numpy()
    beyond = numpy.flatnonzero((rows > MOST_ROWS) | (sizes > _LARGEST_PART))
    if not len(beyond):
        return None
    at = beyond[0]
    return Beyond(int(total.index[at]), int(rows[at]), int(sizes[at]), side)


def _stretched(total: pandas.DataFrame, most: int) -> Cuts:
    rows, sizes = total["rows"].to_numpy(), total["size"].to_numpy()
    begins = stretches(rows, sizes, _LARGEST_PART, most)
    if not begins:  # no rows at all: one part, of the header
        return Cuts(numpy.zeros(1, "int64"), numpy.zeros(1, "int64"))
    return Cuts(total.index.to_numpy()[begins], numpy.add.reduceat(rows, begins))


def texts_of(rows: Rows, firsts: Numbers) -> List[bytes]:
    """The text of the rows of each part, by the parts' first elements."""
    begins = numpy.append(numpy.searchsorted(rows.elements, firsts), len(rows.elements))
    places = _before(numpy.diff(rows.ends, prepend=0))[begins]
    return [rows.text[begin:end] for begin, end in zip(places, places[1:])]
