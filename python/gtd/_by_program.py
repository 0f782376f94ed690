"""One domain, and the records of one file, as the programs answer for them: where there is no library, or it lacks a call.

A program is started for each call.
"""

from __future__ import annotations

import io
from datetime import datetime
from typing import Any, Callable, Dict, Iterator, List, Optional, Sequence, Tuple

import numpy
import pandas
from numpy.typing import NDArray

from gtd._cutting import HEADER
from gtd._fault import Fault
from gtd._moments import DAY, END_OF_WORDS, LONGEST, Seconds, date_at, moment_at
from gtd._program import memory, run, run_desk
from gtd._questions import Place

_LONGEST_WORD = 100_000  # bytes; Linux takes words of at most 131,071
_FAR = 100  # days
_MOST_QUESTIONS = 2_000_000  # of one run of `gtdesk ask`
_DIFFER = 4  # the status of `gtdesk same` if the domains differ

Spans = Callable[[int, int], Seconds]


class DomainByProgram:
    """A time domain, whose text is known to be one or is checked by the first call."""

    def __init__(self, text: str) -> None:
        self.text = text

    def ask(self, command: str, *words: str) -> str:
        """What ``gtd`` prints of the domain."""
        # After "--", a text that begins with "-" is a word like any other. A lone surrogate becomes "?", which is no token
        # either.
        word = _short(self.text) if "\0" in self.text or len(self.text) > _LONGEST_WORD else self.text
        return run(command, "--", word.encode("utf-8", "replace").decode(), *words).decode().rstrip("\n")

    def holds(self, second: int) -> bool:
        """Whether the domain contains a second."""
        return bool(self.holds_many(numpy.array([second], dtype="int64"))[0])

    def holds_many(self, seconds: Seconds) -> NDArray[numpy.bool_]:
        """Whether it contains each."""
        return _in_spans(self.spans, seconds)

    def spans(self, first: int, until: int) -> Seconds:
        """Its spans over days: those in which a record that has the domain closes an element."""
        field = self.text.encode("utf-8", "replace").replace(b'"', b'""')
        try:
            opened = RecordsByProgram(HEADER + b'1,both,0,"' + field + b'"\n').spans(Place(1, False, 1), first, until)
        except Fault as fault:
            raise Fault(fault.kind.removeprefix("Domain "), place=fault.place) from None
        ends: Seconds = numpy.append(numpy.insert(opened.reshape(-1), 0, first * DAY), until * DAY).reshape(-1, 2)
        return ends[ends[:, 0] < ends[:, 1]]

    def next_change(self, second: int, until: int) -> Optional[int]:
        """The first later second before the day ``until`` at which its state changes."""
        return _first_change(self.spans, second, until)

    def change_ever(self, second: int) -> Optional[int]:
        """The first later second at which its state changes, however late."""
        said = self.ask("ever", moment_at(second).isoformat())
        return None if said == "never" else _second(said.split(" ")[0])

    def apart(self, other: DomainByProgram, second: int) -> Optional[Tuple[int, bool]]:
        """The first second from one on that it or the other one has alone, and whether it is this one that has it."""
        words = "--from", moment_at(second).isoformat(), "--", self.canon(), other.canon()
        said = run_desk("same", *words, answers=(0, _DIFFER)).decode().rstrip("\n")
        if said.startswith("same"):
            return None
        found, side = said.split(" ")
        return _second(found), side == "first"

    def canon(self) -> str:
        """Its canonical text."""
        return self.ask("canon")

    def words(self, lang: str = "en") -> str:
        """What it says, in plain English or in another language."""
        return run_desk("words", "--lang", lang, "--", self.canon()).decode().rstrip("\n")

    def picture(self, year: int) -> str:
        """The picture of a year."""
        return run_desk("picture-domain", "--", self.canon(), str(year)).decode()


def first_apart(first: str, second: str, hours: bool, begin: Optional[int]) -> Optional[Tuple[datetime, str]]:
    """The first second from ``begin`` on that is in one of two domains alone, or at which one of two opening hours is open alone,
    and which of them; None if there is none."""
    words = ["--hours"] * hours + ([] if begin is None else ["--from", moment_at(begin).isoformat()])
    said = run_desk("same", *words, "--", first, second, answers=(0, 4)).decode().rstrip("\n")
    if said in ("same", "same until 2700"):
        return None
    moment, side = said.split(" ")
    return datetime.fromisoformat(moment), side


class RecordsByProgram:
    """The records of a file, which are checked by each call."""

    def __init__(self, given: bytes) -> None:
        self._given = given
        self._elements: Optional[Seconds] = None

    def elements(self) -> Seconds:
        """The elements that the records name, in ascending order."""
        if self._elements is None:
            printed = run("migrate", "/dev/stdin", given=self._given)
            numbers = [int(row.split(b",", 1)[0]) for row in printed.splitlines()[1:]]
            self._elements = numpy.unique(numpy.array(numbers, dtype="int64"))
        return self._elements

    def closed_at(self, place: Place, second: int) -> bool:
        """Whether some record closes an element at a second."""
        day = second // DAY
        return not _within(self.spans(place, day, day + 1), numpy.array([second]))[0]

    def closed_many(self, questions: NDArray[Any]) -> NDArray[numpy.bool_]:
        """Whether some record closes, for each question."""
        closed = numpy.zeros(len(questions), dtype=bool)
        frame = pandas.DataFrame({name: questions[name] for name in ("vehicle", "element", "negative")})
        for vehicle, rows in frame.groupby("vehicle").indices.items():
            for first, until, among in _horizons(questions["second"][rows]):
                opened = self._opened(first, until, int(vehicle))
                places = frame.iloc[rows[among]].groupby(["element", "negative"]).indices
                for (element, negative), at in places.items():
                    mine = rows[among][at]
                    spans = self._place_in(opened, int(element), bool(negative), (first, until))
                    closed[mine] = ~_within(spans, questions["second"][mine])
        return closed

    def next_change(self, place: Place, second: int, until: int) -> Optional[int]:
        """The first later second before the day ``until`` at which an element is opened or closed."""
        return _first_change(lambda first, until: self.spans(place, first, until), second, until)

    def closers(self, place: Place, second: int) -> List[int]:
        """The numbers of the rows that close an element at a second, ascending, from 1."""
        if place.element not in self.elements():
            return []
        at = 2 * int(numpy.searchsorted(self.elements(), place.element)) + place.negative
        return self._states(second, place.vehicle)[at][0]

    def now(self, places: Sequence[Place], second: int, until: int) -> Tuple[List[List[int]], List[Optional[int]]]:
        """The rows that close each element and direction of the records at a second, and the next change of each."""
        states = self._states(second, places[0].vehicle) if places else []
        return [rows for rows, _ in states], [change for _, change in states]

    def _states(self, second: int, vehicle: int) -> List[Tuple[List[int], Optional[int]]]:
        """The same, of all elements in ascending order, positive before negative; the second lies before the year 2200."""
        if second >= END_OF_WORDS:
            raise Fault("moment Range", note="without the library, rows are named for moments before the year 2200")
        printed = run_desk("now", "/dev/stdin", moment_at(second).isoformat(), str(vehicle), given=self._given)
        fields = [line.split(",") for line in printed.decode().splitlines()[1:]]
        return [
            ([int(row) for row in rows.split(";") if row], _second(until) if until else None)
            for _, _, _, _, until, rows in fields
        ]

    def spans(self, place: Place, first: int, until: int) -> Seconds:
        """The spans over days in which an element is open: a row for each."""
        opened = self._opened(first, until, place.vehicle)
        return self._place_in(opened, place.element, place.negative, (first, until))

    def schedule(self, first: int, until: int, vehicle: int) -> bytes:
        """The schedule of all elements, as the program prints it."""
        return run("schedule", "/dev/stdin", date_at(first), date_at(until), str(vehicle), given=self._given)

    def _opened(self, first: int, until: int, vehicle: int) -> Dict[Tuple[int, bool], Seconds]:
        """The open spans of each element and direction that has any."""
        frame = pandas.read_csv(io.BytesIO(self.schedule(first, until, vehicle)), dtype="str")
        ends = frame[["from", "until"]].to_numpy(dtype="datetime64[s]").astype("int64")
        places = frame.groupby(["element", "direction"]).indices
        return {(int(element), direction == "negative"): ends[rows] for (element, direction), rows in places.items()}

    def _place_in(
        self, opened: Dict[Tuple[int, bool], Seconds], element: int, negative: bool, days: Tuple[int, int]
    ) -> Seconds:
        """The open spans of an element in a direction; one that no record names is open throughout."""
        found = opened.get((element, negative))
        if found is not None:
            return found
        if element in self.elements():
            return numpy.zeros((0, 2), dtype="int64")
        return numpy.array([days], dtype="int64") * DAY


def closed_by_ask(records: bytes, questions: NDArray[Any]) -> NDArray[numpy.bool_]:
    """Whether some record of a file closes in positive directions, for each question: by as few runs of ``gtdesk`` as can be."""
    answers = [numpy.zeros(0, dtype=bool)]
    with memory() as file:
        file.write(records)
        file.flush()
        for begin in range(0, len(questions), _MOST_QUESTIONS):
            given = _as_questions(questions[begin : begin + _MOST_QUESTIONS])
            printed = run_desk("ask", f"/dev/fd/{file.fileno()}", given=given, files=(file.fileno(),))
            states = pandas.read_csv(io.BytesIO(printed), usecols=["state"], dtype="category")["state"]
            answers.append((states == "closed").to_numpy())
    return numpy.concatenate(answers)


def _as_questions(questions: NDArray[Any]) -> bytes:
    """Questions as ``gtdesk ask`` reads them."""
    moments = numpy.datetime_as_string(questions["second"].astype("datetime64[s]")).tolist()
    asked = zip(questions["element"].tolist(), questions["vehicle"].tolist(), moments)
    return ("element,direction,vehicle,moment\n" + "".join("%d,positive,%d,%s\n" % row for row in asked)).encode()


def domain_of_hours(hours: str) -> str:
    """The canonical text of the domain of opening hours, which must be a word of a command line."""
    return run_desk("hours", "--strict", "--", hours.encode("utf-8", "replace").decode()).decode().rstrip("\n")


def _short(text: str) -> str:
    """The canonical text of a domain that cannot be a word of a command line, by way of a record file."""
    quoted = text.encode("utf-8", "replace").replace(b'"', b'""')
    try:
        migrated = run("migrate", "/dev/stdin", given=HEADER + b'1,both,0,"' + quoted + b'"\n')
    except Fault as fault:
        raise Fault(fault.kind.removeprefix("Domain "), place=fault.place) from None
    return migrated.decode().splitlines()[1].split(",", 3)[3]


def _second(text: str) -> int:
    return int(numpy.datetime64(text, "s").astype("int64"))


def _horizons(seconds: Seconds) -> Iterator[Tuple[int, int, NDArray[numpy.intp]]]:
    """Horizons that together contain all seconds, each with the places of those that it contains.

    Days that lie far apart are asked about by themselves: a program starts faster than it goes over the days between.
    """
    days, places = numpy.unique(seconds // DAY, return_inverse=True)
    begins: List[int] = []
    first, before = 0, 0
    for at, day in enumerate(days.tolist()):
        if not begins or day - before > _FAR or day - first >= LONGEST:
            begins.append(at)
            first = day
        before = day
    pieces = numpy.searchsorted(begins, places, side="right") - 1
    for piece, (begin, end) in enumerate(zip(begins, [*begins[1:], len(days)])):
        yield int(days[begin]), int(days[end - 1]) + 1, numpy.flatnonzero(pieces == piece)


def _in_spans(spans: Spans, seconds: Seconds) -> NDArray[numpy.bool_]:
    """Whether each second lies in one of the spans that a function of days gives."""
    held = numpy.zeros(len(seconds), dtype=bool)
    for first, until, among in _horizons(seconds):
        held[among] = _within(spans(first, until), seconds[among])
    return held


def _within(spans: Seconds, seconds: Seconds) -> NDArray[numpy.bool_]:
    """Whether each second lies in one of these spans, which are in order and disjoint."""
    before = numpy.searchsorted(spans[:, 0], seconds, side="right")
    found: NDArray[numpy.bool_] = seconds < numpy.insert(spans[:, 1], 0, numpy.iinfo("int64").min)[before]
    return found


def _first_change(spans: Spans, second: int, until: int) -> Optional[int]:
    """The first later second before the day ``until`` at which a span begins or ends."""
    ends = spans(second // DAY, until).reshape(-1)
    later = ends[(ends > second) & (ends < until * DAY)]
    return int(later[0]) if len(later) else None
