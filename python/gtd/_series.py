"""Columns of time domains: the accessor ``gtd`` of a Series."""

from __future__ import annotations

import ctypes
from datetime import date, datetime, timedelta
from typing import Callable, Iterator, List, NoReturn, Tuple, TypeVar, Union

import numpy
import pandas
from numpy.typing import NDArray

from gtd._by_program import closed_by_ask
from gtd._cutting import HEADER, stretches
from gtd._fault import Fault, in_domain
from gtd._in_process import open_domain
from gtd._library import QUESTION, YES, Held, Library, TextFault, answers_of, done, load, text_of
from gtd._moments import END_OF_WORDS, Moment, Moments, Seconds, is_column, moment_at, second_of, seconds_of
from gtd._program import LARGEST_FILE, run

_Answer = TypeVar("_Answer")
_FEW = 4  # seconds that are asked one by one: a call for many costs as much as these


class Domains:
    """A column of time domains, as ``frame.domain.gtd``.

    Each different text is read once. As in a record file, an empty text or a missing value is the domain that always holds.
    Without the library, a program is run once, and not once for each row or moment: it gets the texts as the rows of one record
    file, or of as few files as can hold them.

    >>> import pandas, gtd
    >>> domains = pandas.Series(["(h07){m30h1}", "[(t2){d5}]", None])
    >>> domains.gtd.canon().tolist()
    ['[(h7){h1m30}]', '[(t2){d5}]', None]
    >>> domains.gtd.contains("2024-01-06T08:00:00").tolist()
    [True, False, True]
    """

    def __init__(self, column: pandas.Series) -> None:
        values = numpy.asarray(column, dtype=object)
        if pandas.api.types.infer_dtype(values, skipna=True) not in ("string", "empty"):
            raise AttributeError("the accessor gtd is for columns of texts")
        self._column, self._values = column, values
        self._codes, self._texts = pandas.factorize(values)

    def check(self) -> None:
        """Return nothing if each text is a time domain or empty.

        Raises
        ------
        Fault
            The first fault of the column: ``row`` is its place in the column, from 1, and the note gives its label.
        """
        library = load("domain_open")
        if library is None:
            self._canonical()
        else:
            for _ in self._opened(library):
                pass

    def canon(self) -> pandas.Series:
        """The canonical texts.

        Returns
        -------
        pandas.Series
            str (object), with the column's own index. Empty and missing values stay so.

        Raises
        ------
        Fault
            As for :meth:`check`.
        """
        canonical = numpy.array([*self._canonical(), None], dtype=object)
        values = numpy.where(self._codes < 0, self._values, canonical[self._codes])
        return pandas.Series(values, index=self._column.index, name=self._column.name, dtype=object)

    def contains(self, moment: Union[Moment, Moments]) -> pandas.Series:
        """Whether each domain contains a second.

        Parameters
        ----------
        moment
            A moment, as in :func:`gtd.contains`; or a column or an array of moments, one for each domain, row by row.

        Returns
        -------
        pandas.Series
            bool, with the column's own index; True for empty and missing values.

        Raises
        ------
        Fault
            A moment is refused: ``'moment Shape'``, ``'moment NoSuchDate'``, ``'moment Range'``; then as for :meth:`check`. Of a
            column of moments, ``row`` is the place of the first at fault, from 1.
        ValueError
            A moment has a time zone, or is not a time (NaT); there are not as many moments as domains, or their index is another.
        """
        if is_column(moment):
            seconds = self._seconds(moment)
        else:
            seconds = numpy.full(len(self._codes), second_of(moment, END_OF_WORDS))  # type: ignore[arg-type]
        library = load("domain_open", "domain_holds")
        if library is not None:
            held = self._held(library, seconds)
        else:
            held = self._held_by_program(seconds)
        return pandas.Series(held, index=self._column.index, name=self._column.name, dtype=bool)

    def _seconds(self, moments: Moments) -> Seconds:
        """The seconds of moments, one for each row."""
        if isinstance(moments, pandas.Series) and not moments.index.equals(self._column.index):
            raise ValueError("the moments have another index than the domains: take moments.to_numpy() to go row by row")
        seconds = seconds_of(moments, END_OF_WORDS)
        if len(seconds) != len(self._codes):
            raise ValueError(f"there are {len(self._codes):,} domains and {len(seconds):,} moments")
        return seconds

    def _opened(self, library: Library) -> Iterator[Tuple[int, int]]:
        """The place of each text in the list of texts, and the address of a handle in which its domain is until the next one."""
        held, fault = Held(library), TextFault()
        at, place, opens = held.at, ctypes.addressof(fault), library.held.domain_open
        for text, words in enumerate(self._texts):
            if words:
                given = words.encode("utf-8", "replace")
                if opens(at, given, len(given), place) != YES:
                    self._refuse_opened(library, words, text)
                yield text, at

    def _refuse_opened(self, library: Library, words: str, text: int) -> None:
        """Raise why a text cannot be opened."""
        try:
            open_domain(library, Held(library).at, words)
        except Fault as fault:
            self._refuse(fault, text)

    def _held(self, library: Library, seconds: Seconds) -> NDArray[numpy.bool_]:
        """Whether the domain of each row contains its second."""
        order = numpy.argsort(self._codes, kind="stable")
        begins = numpy.searchsorted(self._codes[order], numpy.arange(len(self._texts) + 1)).tolist()
        ordered = seconds[order]
        singly, answers = ordered.tolist(), bytearray(b"\1" * len(ordered))
        holds, many = library.held.domain_holds, library.held.domain_holds_many
        for text, at in self._opened(library):
            begin, end = begins[text], begins[text + 1]
            if end - begin < _FEW or many is None:
                for row in range(begin, end):
                    answer = holds(at, singly[row])
                    answers[row] = answer if answer <= YES else done(answer)
            else:
                answers[begin:end] = answers_of(many, at, ordered[begin:end]).tobytes()
        found = numpy.empty(len(ordered), dtype=bool)
        found[order] = numpy.frombuffer(answers, dtype=bool)
        return found

    def _held_by_program(self, seconds: Seconds) -> NDArray[numpy.bool_]:
        """The same, by one run of a program, however many seconds differ."""
        if len(seconds) and seconds.min() == seconds.max():
            return self._held_at(moment_at(int(seconds[0])))
        held = numpy.ones(len(seconds), dtype=bool)
        fields = self._fields()
        for begin, end in self._files(fields, 1, 0):
            rows = numpy.flatnonzero((self._codes >= begin) & (self._codes < end))
            held[rows] = self._held_in(fields[begin:end], self._codes[rows] - begin, seconds[rows])
        return held

    def _held_in(self, fields: List[bytes], elements: Seconds, seconds: Seconds) -> NDArray[numpy.bool_]:
        """Whether the domain in each of these fields, by its place, contains its second."""
        records = HEADER + b"".join(b"%d,both,1,%s\n" % row for row in enumerate(fields))
        questions = numpy.zeros(len(elements), dtype=QUESTION)
        questions["element"], questions["second"], questions["vehicle"] = elements, seconds, 1
        try:
            return closed_by_ask(records, questions)
        except RuntimeError:
            self._canonical()  # raises the first fault of the texts
            raise

    def _held_at(self, asked: datetime) -> NDArray[numpy.bool_]:
        """Whether each domain contains a second, by one run of the program."""
        rest = f',both,0,"{_rest_of_day(asked)}"\n'.encode()
        first, until = asked.date().isoformat(), (asked + timedelta(days=1)).date().isoformat()

        def ask(texts: List[bytes]) -> List[bool]:
            # The second row of each element closes the day except for the second that is asked about. So the element is open
            # then, and has a line, exactly if the domain does not contain that second.
            rows = b"".join(b"%d,both,0,%s\n%d%s" % (at, text, at, rest) for at, text in enumerate(texts))
            printed = run("schedule", "/dev/stdin", first, until, "1", given=HEADER + rows)
            open_then = {int(line.split(b",", 1)[0]) for line in printed.splitlines()[1:]}
            return [at not in open_then for at in range(len(texts))]

        held: NDArray[numpy.bool_] = numpy.array([*self._asked(ask, 2, len(rest) + 10), True], dtype=bool)[self._codes]
        return held

    def _canonical(self) -> List[str]:
        """The canonical text of each text, in the order of the texts."""
        library = load("domain_open", "domain_canon", "text_bytes")
        if library is not None:
            canonical = ["" for _ in self._texts]
            printed = Held(library)
            for text, at in self._opened(library):
                done(library.held.domain_canon(at, printed.at))
                canonical[text] = text_of(printed).decode()
            return canonical

        def ask(texts: List[bytes]) -> List[str]:
            rows = b"".join(b"1,both,0,%s\n" % text for text in texts)
            printed = run("migrate", "/dev/stdin", given=HEADER + rows).decode()
            return [row.split(",", 3)[3] for row in printed.splitlines()[1:]]

        return self._asked(ask, 1, 0)

    def _fields(self) -> List[bytes]:
        """Each text as a field of a record file."""
        return [b'"' + text.encode("utf-8", "replace").replace(b'"', b'""') + b'"' for text in self._texts]

    def _files(self, fields: List[bytes], rows: int, more: int) -> Iterator[Tuple[int, int]]:
        """Which texts come into each file. Each takes ``rows`` rows; those beside the text's own have ``more`` bytes."""
        sizes = numpy.array([len(field) + 20 + more for field in fields], dtype="int64")
        begins = stretches(numpy.full(len(fields), rows), sizes, LARGEST_FILE - len(HEADER))
        return zip(begins, begins[1:] + [len(fields)])

    def _asked(self, ask: Callable[[List[bytes]], List[_Answer]], rows: int, more: int) -> List[_Answer]:
        """The answers to all texts. Each takes ``rows`` rows; those beside the text's own have ``more`` bytes."""
        fields = self._fields()
        answers: List[_Answer] = []
        for begin, end in self._files(fields, rows, more):
            try:
                answers += ask(fields[begin:end])
            except Fault as fault:
                self._refuse(fault, begin + ((fault.row or 1) - 1) // rows)
        return answers

    def _refuse(self, fault: Fault, text: int) -> NoReturn:
        place = int(numpy.argmax(self._codes == text))
        plain = Fault(fault.kind.removeprefix("Domain "), place=fault.place)
        note = f"label {self._column.index[place]!r}"
        raise in_domain(plain, self._texts[text], row=place + 1, note=note) from None


def _rest_of_day(moment: datetime) -> str:
    """The domain of all seconds of each day except the one at this time of day."""
    hour, minute, second = moment.hour, moment.minute, moment.second
    before = f"(h0){_duration(hour * 3600 + minute * 60 + second)}"
    following = datetime.combine(date(2000, 1, 1), moment.time()) + timedelta(seconds=1)
    after = f"(h{following.hour}m{following.minute}s{following.second})"
    after += _duration(86_399 - hour * 3600 - minute * 60 - second)
    return "+".join(part for part in (before, after) if not part.endswith("{}"))


def _duration(seconds: int) -> str:
    parts = (("h", seconds // 3600), ("m", seconds // 60 % 60), ("s", seconds % 60))
    return "{" + "".join(f"{letter}{number}" for letter, number in parts if number) + "}"


pandas.api.extensions.register_series_accessor("gtd")(Domains)
