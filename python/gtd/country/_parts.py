"""The rows of all blocks, divided into parts: ascending ranges of elements, each within the limits of a file."""

from __future__ import annotations

import os
import re
import uuid
from dataclasses import dataclass
from functools import partial
from pathlib import Path
from typing import IO, Callable, Iterator, List, Optional, Sequence, Tuple, Union

import numpy
import pandas

from gtd._cutting import HEADER, Beyond, Cuts, Numbers, Refused, count, cut, cut_both, stretches, texts_of
from gtd._diff import print_changes
from gtd._fault import Fault
from gtd._in_process import RecordsInProcess
from gtd._library import load
from gtd._program import fingerprint, program, run
from gtd._records import asked
from gtd.country._blocks import BlockRows, engine
from gtd.country._files import named

_PRINTED = b"element,direction,vehicle,from,until\n"  # the header of a schedule
_CHANGES = b"element,direction,vehicle,change,from,until\n"  # and of what two sets say differently

BINS = pandas.DataFrame({"bin": [], "rows": []}, dtype="int64")
COUNTS = pandas.DataFrame({"range": [], "side": [], "element": [], "rows": [], "size": []}, dtype="int64")
PIECES = pandas.DataFrame({"bundle": [], "part": [], "side": [], "rows": []}).astype(
    {"bundle": "int64", "part": "int64", "side": "int64", "rows": "object"}
)
_BIN = 14  # bits of an element's number
_LARGEST_TEXT = 1 << 25  # bytes of a schedule that a worker may hold in memory
_LONGEST_LINE = 64  # bytes of a line of a schedule
_OFTEN = re.compile(rb"\([^h)]*[ms]|h\d+s")  # in migrated rows: a start that may match more than once a day


@dataclass(frozen=True)
class Plan:
    """What is written for each part, and where."""

    first: str
    until: str
    vehicles: Tuple[str, ...]
    attempts: Path
    """The folder of parts that are being written."""
    parts: Path
    """The folder of parts that are whole."""
    count: int
    """How many parts there are."""
    sides: int = 1
    """How many sets of rows there are: one, of which a part is the schedule, or two, of which it is what they say differently."""

    @property
    def header(self) -> bytes:
        """The first line of each part."""
        return _PRINTED if self.sides == 1 else _CHANGES

    def name(self, vehicle: str, part: int) -> str:
        """The name of a part in its folder. It has enough digits for the parts to be in the order of their names."""
        name = f"part-{part:0{max(5, len(str(self.count - 1)))}d}.csv"
        return name if len(self.vehicles) == 1 else f"{vehicle_name(vehicle)}/{name}"


@dataclass(frozen=True)
class Written:
    """A part that was written for one vehicle type."""

    name: str
    size: int
    """How many bytes, including its header."""
    engine: str
    """The fingerprint of what read its rows."""
    desk: str = ""
    """The fingerprint of the program that compared them, if there are two sets."""


def vehicle_name(vehicle: str) -> str:
    """The name of what is written for a vehicle type, if there are many."""
    return f"vehicle-{int(vehicle):02d}"


def bins(read: Union[BlockRows, Refused]) -> pandas.DataFrame:
    """How many rows of a block have elements of each bin. A bin is 16,384 consecutive numbers."""
    if isinstance(read, Refused):
        return BINS
    numbers, rows = numpy.unique(read.rows.elements >> _BIN, return_counts=True)
    return pandas.DataFrame({"bin": numbers, "rows": rows}, dtype="int64")


def ranges(total: pandas.DataFrame, most: int) -> Numbers:
    """The first elements of ranges that have at most ``most`` rows, or are one bin.

    One task counts the elements of each range, so that no worker must hold the counts of all.

    Parameters
    ----------
    total : pandas.DataFrame
        The rows of all blocks by bin.
    """
    total = total.sort_index()
    rows = total["rows"].to_numpy()
    begins = stretches(rows, numpy.zeros(len(rows), "int64"), 0, most)
    firsts: Numbers = total.index.to_numpy()[begins] << _BIN
    return firsts if len(begins) else numpy.zeros(1, "int64")


def counts(reads: Sequence[BlockRows], firsts: Numbers, side: int = 0) -> pandas.DataFrame:
    """How many rows and bytes each element has in some blocks of one set, with the range that it lies in."""
    frame = pandas.concat([COUNTS, *(count(read.rows) for read in reads)], ignore_index=True)
    frame["side"] = side
    frame["range"] = numpy.searchsorted(firsts, frame["element"].to_numpy(), side="right") - 1
    return frame.astype("int64")


def cut_range(frame: pandas.DataFrame, most: int, sides: int = 1) -> Union[Cuts, Beyond]:
    """The parts of the elements of a range."""
    totals = [frame[frame["side"] == side].groupby("element")[["rows", "size"]].sum() for side in range(sides)]
    return cut(totals[0], most) if sides == 1 else cut_both(totals[0], totals[1], most)


def join_cuts(cuts: Sequence[Union[Cuts, Beyond]]) -> Union[Cuts, Beyond]:
    """The parts of all ranges; or the first element that no file can hold, of the old set if it has one."""
    beyond = [one for one in cuts if isinstance(one, Beyond)]
    if beyond:
        return min(beyond, key=lambda one: one.side != "old")
    made = [one for one in cuts if isinstance(one, Cuts)]
    return Cuts(numpy.concatenate([one.firsts for one in made]), numpy.concatenate([one.rows for one in made]))


def pieces(reads: Sequence[BlockRows], cuts: Cuts, bundle_size: int, side: int = 0) -> pandas.DataFrame:
    """The rows of some blocks of one set by part: the frame has a row, with their text, for each block and part that has any.

    Parameters
    ----------
    bundle_size : int
        How many consecutive parts one task writes.
    """
    frames = [_piece(read, cuts, bundle_size, side) for read in reads]
    return pandas.concat(frames, ignore_index=True)


def _piece(read: BlockRows, cuts: Cuts, bundle_size: int, side: int) -> pandas.DataFrame:
    texts = texts_of(read.rows, cuts.firsts)
    filled = [part for part, text in enumerate(texts) if text]
    parts = numpy.array(filled, dtype="int64")
    rows = pandas.Series([texts[part] for part in filled], dtype="object")
    return pandas.DataFrame({"bundle": parts // bundle_size, "part": parts, "side": side, "rows": rows})


def check(first: str, until: str, vehicles: Sequence[str]) -> None:
    """Raise the fault of the days or of a vehicle type, if they have one."""
    for vehicle in vehicles:
        try:
            asked(first, until, vehicle)
        except Fault as fault:
            note = None if len(vehicles) == 1 else f"vehicle type {vehicle}"
            raise Fault(fault.kind, note=note) from None


def is_short(given: bytes, days: int) -> bool:
    """Whether the schedule of migrated rows over so many days may be held in memory, for any vehicle type.

    Where no start matches more than once a day, the stretches of a basic domain are at most one for each day, and one from
    before. The spans of what is joined are at most those of both sides together. An element is open in a direction in at most
    one span more than its rows close it in. So the length of a schedule is known before it is made.
    """
    closed, elements = given.count(b"(") * (days + 1), given.count(b"\n")
    return 2 * (closed + elements) * _LONGEST_LINE <= _LARGEST_TEXT and not _OFTEN.search(given)


def write_bundle(frame: pandas.DataFrame, first_part: int, rows: Sequence[int], plan: Plan) -> List[Written]:
    """Write some consecutive parts, each whole or not at all.

    A second attempt writes the same bytes in the same places.

    Parameters
    ----------
    rows : sequence of int
        How many rows each of the parts has, of all sets together.
    """
    texts: List[List[List[bytes]]] = [[[] for _ in range(plan.sides)] for _ in rows]
    for part, side, text in zip(frame["part"], frame["side"], frame["rows"]):
        texts[part - first_part][side].append(text)
    written: List[Written] = []
    for at, number in enumerate(rows):
        part = first_part + at
        files = [b"".join([HEADER, *lines]) for lines in texts[at]]
        if sum(file.count(b"\n") for file in files) != number + plan.sides:
            raise RuntimeError(f"part {part} has other rows than were counted: was a file changed while it was read?")
        written += _schedules(files[0], part, plan) if plan.sides == 1 else _changes(files[0], files[1], part, plan)
    return written


def _schedules(given: bytes, part: int, plan: Plan) -> Iterator[Written]:
    """Write the schedules of a part, one for each vehicle type."""
    records = _records_of(given, plan)
    for vehicle in plan.vehicles:

        def put(file: IO[bytes], words: Tuple[str, str, str] = (plan.first, plan.until, vehicle)) -> None:
            if records is None:
                _run_into(file, given, *words)
            else:
                file.write(records.schedule(*asked(*words)))

        name = plan.name(vehicle, part)
        yield Written(name, _write(put, name, plan), engine())


def _changes(old: bytes, new: bytes, part: int, plan: Plan) -> Iterator[Written]:
    """Write what the two sets say differently of the elements of a part, for each vehicle type."""
    for vehicle in plan.vehicles:
        name = plan.name(vehicle, part)
        size = _write(partial(_compare_into, old=old, new=new, words=(plan.first, plan.until, vehicle)), name, plan)
        yield Written(name, size, engine(), fingerprint(program("gtdesk")))


def _records_of(given: bytes, plan: Plan) -> Optional[RecordsInProcess]:
    """The records of a part, if the library makes its schedules: there is one, and they are short."""
    library = load("records_open", "records_schedule", "text_bytes")
    first, until, _ = asked(plan.first, plan.until, plan.vehicles[0])
    return None if library is None or not is_short(given, until - first) else RecordsInProcess(library, given)


def _write(put: Callable[[IO[bytes]], None], name: str, plan: Plan) -> int:
    """Write a part, and return its size."""
    attempt = plan.attempts / uuid.uuid4().hex
    try:
        with open(attempt, "xb") as file:
            put(file)
            size = file.seek(0, os.SEEK_END)
        os.replace(attempt, plan.parts / name)
    except OSError as failure:
        attempt.unlink(missing_ok=True)
        raise named(failure, plan.parts / name) from None
    return size


def _run_into(file: IO[bytes], given: bytes, *words: str) -> None:
    """Have the program write a schedule as it makes it, of whatever length."""
    try:
        run("schedule", "/dev/stdin", *words, given=given, into=file)
    except OSError:
        _say_why(file)
        raise


def _compare_into(file: IO[bytes], old: bytes, new: bytes, words: Tuple[str, str, str]) -> None:
    """Have the program write what two files say differently as it finds it, of whatever length."""
    try:
        print_changes(old, new, words, file)
    except OSError:
        _say_why(file)
        raise


def _say_why(file: IO[bytes]) -> None:
    """Raise why a file could not be written: a program does not say it, and another write makes the system say it."""
    os.lseek(file.fileno(), 0, os.SEEK_END)
    for _ in range(2):
        os.write(file.fileno(), bytes(1 << 16))
