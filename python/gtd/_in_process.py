"""One domain, and the records of one file, as the library answers for them."""

from __future__ import annotations

import contextlib
import ctypes
from ctypes import addressof, c_int64, c_size_t, c_uint32, c_uint64
from typing import Any, Iterator, List, Optional, Sequence, Tuple

import numpy
from numpy.typing import NDArray

from gtd import _by_program
from gtd._fault import Fault
from gtd._library import YEAR, Apart, Held, HoursFault, Library, RecordFault, TextFault, answers_of, done, spans_of, text_of
from gtd._moments import Seconds
from gtd._questions import Place


class DomainInProcess:
    """A time domain. A call that the library does not have is answered by the programs."""

    def __init__(self, library: Library, text: str) -> None:
        self.text, self._library, self._calls = text, library, library.held
        self._held = Held(library)
        self.at, self.call_holds = self._held.at, self._calls.domain_holds
        open_domain(library, self.at, text)

    @property
    def _by_program(self) -> _by_program.DomainByProgram:
        return _by_program.DomainByProgram(self.text)

    def holds(self, second: int) -> bool:
        """Whether the domain contains a second."""
        return done(self._calls.domain_holds(self.at, second))

    def holds_many(self, seconds: Seconds) -> NDArray[numpy.bool_]:
        """Whether it contains each."""
        if self._calls.domain_holds_many is None:
            return numpy.fromiter(map(self.holds, seconds.tolist()), dtype=bool, count=len(seconds))
        return answers_of(self._calls.domain_holds_many, self.at, seconds)

    def spans(self, first: int, until: int) -> Seconds:
        """Its spans over days: a row for each."""
        if not self._library.has("domain_spans", "spans_next"):
            return self._by_program.spans(first, until)
        found = Held(self._library)
        done(self._calls.domain_spans(self.at, first, until, found.at))
        return spans_of(found)

    def next_change(self, second: int, until: int) -> Optional[int]:
        """The first later second before the day ``until`` at which its state changes."""
        if self._calls.domain_next is None:
            return self._by_program.next_change(second, until)
        change = c_int64()
        return change.value if done(self._calls.domain_next(self.at, second, until, addressof(change))) else None

    def change_ever(self, second: int) -> Optional[int]:
        """The first later second at which its state changes, however late."""
        if self._calls.domain_ever is None:
            return self._by_program.change_ever(second)
        change = c_int64()
        answer = self._calls.domain_ever(self.at, second, addressof(change))
        if answer == YEAR:
            raise Fault("HasYear")
        return change.value if done(answer) else None

    def apart(self, other: DomainInProcess, second: int) -> Optional[Tuple[int, bool]]:
        """The first second from one on that it or the other one has alone, and whether it is this one that has it."""
        if self._calls.same is None:
            return self._by_program.apart(other._by_program, second)
        if self.at == other.at:
            return None
        found = Apart()
        answer = self._calls.same(self.at, other.at, second, addressof(found))
        return None if answer == YEAR or done(answer) else (found.second, found.domain == 1)

    def canon(self) -> str:
        """Its canonical text."""
        return self._by_program.canon() if self._calls.domain_canon is None else self._text("domain_canon")

    def words(self) -> str:
        """What it says, in plain English."""
        found = self._by_program.words() if self._calls.domain_words is None else self._text("domain_words")
        return found.rstrip("\n")

    def picture(self, year: int) -> str:
        """The picture of a year."""
        if self._calls.domain_picture is None:
            return self._by_program.picture(year)
        return self._text("domain_picture", year)

    def _text(self, name: str, *words: int) -> str:
        text = Held(self._library)
        done(getattr(self._calls, name)(self.at, *words, text.at))
        return text_of(text).decode()


def domain_of_hours(library: Library, hours: str) -> str:
    """The canonical text of the domain of opening hours. A text that is none raises its first fault."""
    given, fault, domain, text = hours.encode("utf-8", "replace"), HoursFault(), Held(library), Held(library)
    if not done(library.held.domain_from_hours(domain.at, given, len(given), addressof(fault))):
        raise fault.fault()
    done(library.held.domain_canon(domain.at, text.at))
    return text_of(text).decode()


def open_domain(library: Library, at: int, text: str) -> None:
    """Put the domain of a text into a handle; what it held before is closed. A text that is no domain raises its first fault."""
    given, fault = text.encode("utf-8", "replace"), TextFault()
    if not done(library.held.domain_open(at, given, len(given), addressof(fault))):
        raise fault.fault()


class RecordsInProcess:
    """The records of a file. A call that the library does not have is answered by the programs."""

    def __init__(self, library: Library, given: bytes) -> None:
        self._library, self._calls, self._given = library, library.held, given
        self._held, self._closed_at = Held(library), self._calls.records_closed_at
        self._elements: Optional[Seconds] = None
        fault = RecordFault()
        if not done(library.free.records_open(self._held.at, given, len(given), addressof(fault))):
            raise fault.fault()

    @property
    def _by_program(self) -> _by_program.RecordsByProgram:
        return _by_program.RecordsByProgram(self._given)

    def elements(self) -> Seconds:
        """The elements that the records name, in ascending order."""
        if self._elements is None:
            has_both = self._library.has("records_count", "records_element")
            self._elements = self._listed() if has_both else self._by_program.elements()
        return self._elements

    def _listed(self) -> Seconds:
        count, element = c_size_t(), c_uint64()
        done(self._calls.records_count(self._held.at, addressof(count)))
        found = numpy.empty(count.value, dtype="int64")
        into, take = addressof(element), self._calls.records_element
        for place in range(count.value):
            done(take(self._held.at, place, into))
            found[place] = element.value
        return found

    def closed_at(self, place: Place, second: int) -> bool:
        """Whether some record closes an element at a second."""
        if self._closed_at is None:
            return self._by_program.closed_at(place, second)
        return done(self._closed_at(self._held.at, *place, second))

    def closed_many(self, questions: NDArray[Any]) -> NDArray[numpy.bool_]:
        """Whether some record closes, for each question."""
        if self._calls.records_closed_many is None:
            asked = questions[["element", "negative", "vehicle", "second"]].tolist()
            answers = (self.closed_at(Place(*where), second) for *where, second in asked)
            return numpy.fromiter(answers, dtype=bool, count=len(asked))
        with self._apart() as (calls, at):
            return answers_of(calls.records_closed_many, at, questions)

    def next_change(self, place: Place, second: int, until: int) -> Optional[int]:
        """The first later second before the day ``until`` at which an element is opened or closed."""
        if self._calls.records_next is None:
            return self._by_program.next_change(place, second, until)
        change = c_int64()
        answer = self._calls.records_next(self._held.at, *place, second, until, addressof(change))
        return change.value if done(answer) else None

    def closers(self, place: Place, second: int) -> List[int]:
        """The numbers of the rows that close an element at a second, ascending, from 1."""
        if self._calls.records_closers is None:
            return self._by_program.closers(place, second)
        count, room = c_size_t(), 8
        while True:
            rows = (c_uint32 * room)()
            call = self._calls.records_closers
            answer = call(self._held.at, *place, second, addressof(rows), room, addressof(count))
            if count.value <= room:
                return rows[: count.value] if done(answer) else []
            room = count.value

    def now(self, places: Sequence[Place], second: int, until: int) -> Tuple[List[List[int]], List[Optional[int]]]:
        """The rows that close each element and direction of the records at a second, and the next change of each."""
        if not self._library.has("records_closers", "records_next"):
            return self._by_program.now(places, second, until)
        rows = [self.closers(place, second) for place in places]
        return rows, [self.next_change(place, second, until) for place in places]

    def spans(self, place: Place, first: int, until: int) -> Seconds:
        """The spans over days in which an element is open: a row for each."""
        if not self._library.has("records_spans", "spans_next"):
            return self._by_program.spans(place, first, until)
        found = Held(self._library)
        done(self._calls.records_spans(self._held.at, *place, first, until, found.at))
        return spans_of(found)

    def schedule(self, first: int, until: int, vehicle: int) -> bytes:
        """The schedule of all elements, as the program prints it."""
        if not self._library.has("records_schedule", "text_bytes"):
            return self._by_program.schedule(first, until, vehicle)
        text = Held(self._library)
        with self._apart() as (calls, at):
            done(calls.records_schedule(at, first, until, vehicle, text.at))
        return text_of(text)

    @contextlib.contextmanager
    def _apart(self) -> Iterator[Any]:
        """A handle of the same records that no other thread can reach, and calls that let other threads run."""
        if self._calls.share is None:
            yield self._calls, self._held.at
            return
        other = Held(self._library)
        done(self._calls.share(self._held.at, other.at))
        yield self._library.free, other.at
