"""From tables of tags to record files, by ``gtdesk conditions``."""

from __future__ import annotations

import contextlib
import csv
import os
import re
import subprocess
from collections import Counter
from pathlib import Path
from typing import BinaryIO, Dict, Iterable, Iterator, List, NamedTuple, Optional, Sequence, Tuple

from gtd._fault import Fault
from gtd._program import LARGEST_FILE, MOST_ROWS, program
from gtd.osm._tables import field

_RECORDS = b"element,direction,vehicles,domain\n"
_LEFT_OUT = b"element,key,value,fault,way,expected\n"
_HEADER = "element,key,value\n"
_LISTED = re.compile(r"-:\d+: row (?P<row>\d+): (?P<fault>(?P<kind>\w+(?: [A-Z]\w+)?)(?: at \d+)?(?:: [-\d]+)?)")
_EXPECTED = re.compile(r"    expected: +(?P<expected>.*)")
_OF_MEANS = re.compile(r".*:(?P<line>\d+): (?:row (?P<row>\d+): )?(?P<kind>\w+)")
_OF_TABLE = re.compile(r"gtdesk: (?P<file>.*?)(?:: row (?P<row>\d+))?: (?P<kind>\w+)")
_OF_WORD = re.compile(r"gtdesk: (?P<said>[-A-Z]+: .*)")


class _Listed(NamedTuple):
    """A row of tags that is at fault."""

    row: int
    """From 1."""
    fault: str
    kind: str
    expected: str
    """What is accepted there; empty if that is not said."""


class Converted(NamedTuple):
    """The record files of tables of tags."""

    files: List[str]
    """The names of the record files, in order."""
    rows: int
    """How many rows they have."""
    left_out: Dict[str, int]
    """How many elements were left out, by the kind of the first fault of their tags."""


def convert(
    folder: Path, parts: Sequence[str], means: str, options: Sequence[str] = (), close_left_out: bool = False
) -> Converted:
    """Write the record files ``records-00000.csv``... of tables of tags in a folder, and ``left_out.csv``.

    An element of which a tag is at fault is left out whole: a part of what its tags say could be taken for all of it. Hours in
    values are read with the options, as :func:`gtd._desk.words_of` makes them. With ``close_left_out`` a record closes each such
    element, in both directions, for all vehicle types and for ever.

    Raises
    ------
    Fault
        The first fault of the table of holidays or of means; or the rows of one element do not fit into a record file.
    OSError, MemoryError, RuntimeError
        ``gtdesk`` is not found or fails, or a file cannot be written.
    """
    kinds: Counter[str] = Counter()
    desk = _Desk(means, options)
    with _Records(folder) as records, open(folder / "left_out.csv", "xb") as left_out, _ways(folder) as ways:
        left_out.write(_LEFT_OUT)
        for part in parts:
            with open(folder / part, newline="", encoding="utf-8") as file:
                rows = list(csv.reader(file))[1:]
            status, printed, said = desk.run(_table(rows))
            found = desk.faults(status, said)
            if found:
                first_kinds = _first_kinds(rows, found)
                kinds.update(first_kinds.values())
                left_out.write("".join(_left_out_lines(rows, found, ways)).encode())
                printed = desk.printed([row for row in rows if row[0] not in first_kinds])
                if close_left_out:
                    printed = _with_closed(printed, first_kinds)
            records.add(printed)
        done = records.files, records.rows
    return Converted(*done, dict(kinds.most_common()))


def _first_kinds(rows: Sequence[Sequence[str]], found: Sequence[_Listed]) -> Dict[str, str]:
    """For each element that is at fault the kind of its first fault."""
    kinds: Dict[str, str] = {}
    for one in found:
        kinds.setdefault(rows[one.row - 1][0], one.kind)
    return kinds


@contextlib.contextmanager
def _ways(folder: Path) -> Iterator[Iterator[List[str]]]:
    """The rows of ``elements.csv``, in the order of the tables of tags."""
    with open(folder / "elements.csv", newline="", encoding="ascii") as file:
        yield csv.reader(file)


def _left_out_lines(rows: Sequence[Sequence[str]], found: Sequence[_Listed], ways: Iterator[List[str]]) -> Iterator[str]:
    """The lines of ``left_out.csv`` for the rows that are at fault, with their ways: those that come next among ``ways``."""
    element, way = "", ""
    for one in found:
        tag = rows[one.row - 1]
        while element != tag[0]:
            element, way = next(ways)[:2]
        yield _line([*tag, one.fault, way, one.expected])


def _with_closed(printed: bytes, elements: Iterable[str]) -> bytes:
    """A record file in ascending order of its elements, with a record for each of some more that always closes it."""
    head, *lines = printed.splitlines(keepends=True)
    lines += [f"{element},both,0,\n".encode() for element in elements]
    return b"".join([head, *sorted(lines, key=lambda line: int(line.partition(b",")[0]))])


class _Desk:
    """The program ``gtdesk conditions``, with a table of means and options of hours."""

    def __init__(self, means: str, options: Sequence[str]) -> None:
        self._means, self._options = means, options

    def run(self, tags: bytes) -> Tuple[int, bytes, str]:
        """Its status, what it printed, and what it said."""
        words = [program("gtdesk"), "conditions", *self._options, "--", "-", os.path.abspath(self._means)]
        done = subprocess.run(words, input=tags, capture_output=True)
        return done.returncode, done.stdout, done.stderr.decode("utf-8", "replace")

    def faults(self, status: int, said: str) -> List[_Listed]:
        """Each row that is at fault."""
        if status == 0:
            return []
        lines = said.splitlines()
        found: List[_Listed] = []
        for line in lines:
            listed, expected = _LISTED.fullmatch(line), _EXPECTED.fullmatch(line)
            if listed:
                found.append(_Listed(int(listed["row"]), listed["fault"], listed["kind"], ""))
            elif expected and found:
                found[-1] = found[-1]._replace(expected=found[-1].expected or expected["expected"])
        if status == 1 and found:
            return found
        self._refuse(status, lines[0] if lines else "")
        raise RuntimeError(f"gtdesk conditions ended with status {status}: {said.strip() or 'it said nothing'}")

    def _refuse(self, status: int, line: str) -> None:
        """Raise the fault of a line about the table of means or that of holidays, or about a word of an option."""
        of_means, of_table, of_word = (form.fullmatch(line) for form in (_OF_MEANS, _OF_TABLE, _OF_WORD))
        if status == 1 and of_means:
            row = int(of_means["row"]) if of_means["row"] else None
            raise Fault(of_means["kind"], file=self._means, line=int(of_means["line"]), row=row)
        if status == 1 and of_table:
            raise Fault(of_table["kind"], file=of_table["file"], row=int(of_table["row"]) if of_table["row"] else None)
        if status in (1, 2) and of_word:
            raise ValueError(of_word["said"])

    def printed(self, rows: Sequence[Sequence[str]]) -> bytes:
        """The record file of tags none of which is at fault."""
        status, printed, said = self.run(_table(rows))
        if status != 0:
            raise RuntimeError(f"gtdesk conditions ended with status {status}: {said.strip() or 'it said nothing'}")
        return printed


def _table(rows: Sequence[Sequence[str]]) -> bytes:
    """Rows of tags as a file."""
    return (_HEADER + "".join(map(_line, rows))).encode()


def _line(fields: Sequence[str]) -> str:
    """The line of a row."""
    return ",".join(map(field, fields)) + "\n"


class _Records:
    """Record files, each within the limits of one. The rows of an element are all in one file."""

    def __init__(self, folder: Path) -> None:
        self.files: List[str] = []
        self.rows = 0
        self._folder = folder
        self._open: Optional[BinaryIO] = None
        self._rows_of_file, self._size = 0, 0

    def add(self, printed: bytes) -> None:
        """Add the rows of a record file, element by element.

        Raises
        ------
        Fault
            Those of one element do not fit into a file.
        """
        element: Optional[bytes] = None
        lines: List[bytes] = []
        for line in printed.splitlines(keepends=True)[1:]:
            of = line.partition(b",")[0]
            if of != element:
                self._add_element(lines)
                element, lines = of, []
            lines.append(line)
        self._add_element(lines)

    def _add_element(self, lines: Sequence[bytes]) -> None:
        size = sum(map(len, lines))
        if len(lines) > MOST_ROWS or len(_RECORDS) + size > LARGEST_FILE:
            element = lines[0].partition(b",")[0].decode()
            raise Fault("TooManyRows", note=f"the rows of element {element} do not fit into a record file")
        if lines and (self._open is None or self._rows_of_file + len(lines) > MOST_ROWS or self._size + size > LARGEST_FILE):
            self._begin()
        if lines and self._open is not None:
            self._open.writelines(lines)
        self._rows_of_file, self._size, self.rows = self._rows_of_file + len(lines), self._size + size, self.rows + len(lines)

    def _begin(self) -> None:
        """Begin the next file."""
        self._end()
        self.files.append(f"records-{len(self.files):05}.csv")
        self._open = open(self._folder / self.files[-1], "xb")
        self._open.write(_RECORDS)
        self._rows_of_file, self._size = 0, len(_RECORDS)

    def _end(self) -> None:
        if self._open is not None:
            self._open.close()
            self._open = None

    def __enter__(self) -> _Records:
        return self

    def __exit__(self, kind: object, *_: object) -> None:
        if kind is None and not self.files:
            self._begin()  # no row: a file without any
        self._end()
