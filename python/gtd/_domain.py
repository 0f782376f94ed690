"""One time domain."""

from __future__ import annotations

from datetime import date, datetime
from typing import Any, Callable, Mapping, NamedTuple, Optional, Tuple, Type, Union, overload

import numpy
import pandas
from numpy.typing import NDArray

from gtd import _by_program, _in_process
from gtd._by_program import DomainByProgram
from gtd._fault import Fault, in_domain
from gtd._hours import domains_of_hours
from gtd._in_process import DomainInProcess
from gtd._library import load
from gtd._moments import END_OF_WORDS, Day, Moment, Moments, Seconds
from gtd._moments import day, days, is_column, moment_at, search, second_of, seconds_of, stamp
from gtd._reading import Path

_EPOCH = datetime(1970, 1, 1).toordinal()
_FIRST_YEAR, _LAST_YEAR = 1901, 2199  # of pictures
_LANGUAGES = ("en", "de", "fr")
_FIRST_MOMENT = "1901-01-01T00:00:00"
_Engine = Union[DomainInProcess, DomainByProgram]


class Change(NamedTuple):
    """A second at which a time domain begins or ends to hold."""

    moment: datetime
    """The first second of the new state."""
    inside: bool
    """Whether the domain holds from then on."""


class Apart(NamedTuple):
    """A second that one of two time domains contains and the other does not."""

    moment: datetime
    """The second."""
    inside: bool
    """Whether the domain that was asked contains it; otherwise the other one does."""


class Domain:
    """A time domain that is read once and asked many times.

    Seconds are of the local civil clock, without a time zone. Moments are ``datetime.datetime``, ``pandas.Timestamp`` or
    ``numpy.datetime64``, or texts ``YYYY-MM-DDThh:mm:ss``, with ``T`` or a space; days are dates, moments at midnight, or texts
    ``YYYY-MM-DD``. They lie from 1901-01-01 up to and not including 2700-01-01, where nothing else is said. In a notebook a
    domain shows as the picture of the current year.

    Parameters
    ----------
    text : str
        A time domain.

    Raises
    ------
    Fault
        The text is not one; ``kind`` and ``place`` (in bytes) are those of its first fault.

    Examples
    --------
    >>> import gtd
    >>> market = gtd.Domain("(t7h5){h10}")
    >>> market.contains("2024-03-16T08:00:00")
    True
    >>> market.words()
    'every Saturday from 05:00 until 15:00'
    """

    __slots__ = ("_text", "_engine", "_at", "_holds", "_canonical", "__weakref__")

    def __init__(self, text: str) -> None:
        self._text, self._canonical = text, ""
        self._engine = _engine_of(text)
        self._at = 0
        self._holds: Optional[Callable[[int, int], int]] = None
        if isinstance(self._engine, DomainInProcess):
            self._at, self._holds = self._engine.at, self._engine.call_holds

    @classmethod
    def of_hours(cls, hours: str, *, options: Optional[Mapping[str, Path]] = None, strict: bool = True) -> Domain:
        """The domain with exactly the seconds at which opening hours of OpenStreetMap are open.

        Parameters
        ----------
        options
            What the text leaves open, such as holidays, as for :func:`gtd.domains_of_hours`.
        strict : bool
            Whether a text that is written loosely, such as ``Mo 8:00-9:00``, is a fault.

        Raises
        ------
        Fault
            The text is no opening hours; ``kind`` is ``'hours BadToken'``, ``'hours Unsupported'``, ``'hours Range'``,
            ``'hours Unexpected'`` or ``'hours Incomplete'``, and ``place`` that of its first fault. ``'hours TooMany'``: the
            domain would have more than 128 basic domains.

        Examples
        --------
        >>> import gtd
        >>> gtd.Domain.of_hours("Sa 05:00-15:00")
        gtd.Domain('[[(t7h0m0){d1}]*[(h5m0){m600}]]')
        """
        if not isinstance(hours, str):
            raise TypeError(f"opening hours are a str, not {type(hours).__name__}")
        if hours and (options or not strict):
            return cls(_of_hours(hours, options, strict))
        library = load("domain_from_hours", "domain_canon", "text_bytes")
        try:
            text = _by_program.domain_of_hours(hours) if library is None else _in_process.domain_of_hours(library, hours)
        except Fault as fault:
            raise in_domain(fault, hours) from None
        return cls(text)

    @property
    def text(self) -> str:
        """The text, as it was given."""
        return self._text

    @overload
    def contains(self, moment: Moment) -> bool: ...

    @overload
    def contains(self, moment: Moments) -> Any: ...

    def contains(self, moment: Union[Moment, Moments]) -> Any:
        """Whether the domain contains a second, or each of many.

        Parameters
        ----------
        moment
            A moment; or an array, a list, an index or a column of moments. Fractions of a second are dropped, since they lie
            within their second.

        Returns
        -------
        bool, or an array or pandas.Series of bool
            Of a Series, a Series with its index and name.

        Raises
        ------
        Fault
            ``'moment Shape'``, ``'moment NoSuchDate'`` or ``'moment Range'``; of many, ``row`` is the place of the first at
            fault, from 1.
        ValueError
            A moment has a time zone, or is not a time (NaT).
        """
        if type(moment) is datetime and moment.tzinfo is None and self._holds is not None:
            second = (
                (moment.toordinal() - _EPOCH) * 86_400 + moment.hour * 3600 + moment.minute * 60 + moment.second
            )
            answer = self._holds(self._at, second)
            if answer < 2:
                return answer == 1
        if not is_column(moment):
            return self._engine.holds(second_of(moment))  # type: ignore[arg-type]
        held = self._engine.holds_many(seconds_of(moment))
        return pandas.Series(held, moment.index, name=moment.name) if isinstance(moment, pandas.Series) else held

    def next_change(self, moment: Moment, until: Optional[Day] = None) -> Optional[Change]:
        """The first second later than ``moment`` at which the domain's state changes.

        Parameters
        ----------
        until : day, optional
            The change lies before it; it is at most 146,098 days after the moment's day. Without it, the change may come however
            late, and the moment lies before the year 2200.

        Returns
        -------
        Change or None
            None if the state does not change.

        Raises
        ------
        Fault
            As for :meth:`contains`; also ``'date ...'`` and ``'horizon ...'``. Without ``until``, ``'HasYear'`` for a domain that
            gives a year.
        """
        if until is None:
            second = second_of(moment, END_OF_WORDS)
            return self._change(second, self._engine.change_ever(second))
        second, last = search(moment, until)
        return self._change(second, self._engine.next_change(second, last))

    def spans(self, first: Day, until: Day) -> "pandas.DataFrame":
        """The spans of the seconds that the domain contains, from the day ``first`` up to and not including ``until``.

        Returns
        -------
        pandas.DataFrame
            ``from`` and ``until`` (datetime64[s]; with pandas 1, datetime64[ns]): each maximal span, in order; ``until`` is the
            first second after it.

        Raises
        ------
        Fault
            ``'date ...'`` or ``'horizon ...'``: there are 1 to 146,098 days.
        pandas.errors.OutOfBoundsDatetime
            With pandas 1, a span ends after 2262-04-11.
        """
        return frame_of(self._engine.spans(*days(first, until)))

    def apart(self, other: Domain, moment: Moment = _FIRST_MOMENT) -> Optional[Apart]:
        """The first second from ``moment`` on that this domain or the other one contains alone.

        Parameters
        ----------
        moment : moment, optional
            From 1901 to 2199; without it, the first one.

        Returns
        -------
        Apart or None
            None if there is none: of all time, if no start of either domain gives a year, and else before 2700-01-01.

        Raises
        ------
        Fault
            As for :meth:`contains`.
        """
        second = second_of(moment, END_OF_WORDS)
        found = None if other is self else self._engine.apart(other._engine, second)  # type: ignore[arg-type]
        return None if found is None else Apart(moment_at(found[0]), found[1])

    def same(self, other: Domain) -> bool:
        """Whether both domains contain the same seconds: of all time, if no start of either gives a year, and else before
        2700-01-01. Domains that are equal (``==``) do; others may.
        """
        return self.apart(other) is None

    def words(self, lang: str = "en") -> str:
        """What the domain says, in plain English; or in German (``'de'``) or French (``'fr'``), by the program ``gtdesk``."""
        if lang not in _LANGUAGES:
            raise ValueError(f"the languages are {', '.join(_LANGUAGES)}, not {lang!r}")
        return self._engine.words() if lang == "en" else DomainByProgram(self.canon()).words(lang)

    def canon(self) -> str:
        """Its canonical text; two domains are the same expression exactly if theirs are equal."""
        if not self._canonical:
            self._canonical = self._engine.canon()
        return self._canonical

    def picture(self, year: int) -> str:
        """A picture of a year, 1901 to 2199, in SVG: a column for each day, midnight at the top, the domain's seconds dark.

        Raises
        ------
        Fault
            ``'YearRange'``.
        """
        if not _FIRST_YEAR <= year <= _LAST_YEAR:
            raise Fault("YearRange", text=str(year))
        return self._engine.picture(year)

    def _repr_svg_(self) -> str:
        return self.picture(date.today().year)

    def _change(self, second: int, change: Optional[int]) -> Optional[Change]:
        return None if change is None else Change(moment_at(change), not self._engine.holds(second))

    def __repr__(self) -> str:
        return f"gtd.Domain({self._text!r})"

    def __str__(self) -> str:
        return self._text

    def __eq__(self, other: object) -> bool:
        if not isinstance(other, Domain):
            return NotImplemented
        return self.canon() == other.canon()

    def __hash__(self) -> int:
        return hash(self.canon())

    def __reduce__(self) -> Tuple[Type[Domain], Tuple[str]]:
        return Domain, (self._text,)


def check(text: str) -> None:
    """Return nothing if a text is a time domain, and raise its first fault otherwise, as :class:`Domain` does."""
    _engine_of(text)


def canon(text: str) -> str:
    """The canonical text of a time domain, as :meth:`Domain.canon` gives it of one that is read once."""
    library = load("domain_open", "domain_canon", "text_bytes")
    return _ask("canon", text) if library is None else Domain(text).canon()


def contains(text: str, moment: Moment) -> bool:
    """Whether a time domain contains a second, as :meth:`Domain.contains` of one that is read once. The moment is from 1901 to
    2199, as one that the program is given.
    """
    word = stamp(moment)
    if load("domain_open", "domain_holds") is None:
        return _ask("at", text, word) == "in"
    domain = _engine_of(text)
    return domain.holds(second_of(word, END_OF_WORDS))


def next_change(text: str, moment: Moment, until: Day) -> Optional[Change]:
    """The first second later than ``moment`` and before the day ``until`` at which a domain's state changes, as
    :meth:`Domain.next_change` of one that is read once. The moment is from 1901 to 2199.
    """
    words = stamp(moment), day(until)
    if load("domain_open", "domain_holds", "domain_next") is None:
        return _read_change(_ask("next", text, *words))
    domain = Domain(text)
    second_of(words[0], END_OF_WORDS)
    return domain.next_change(*words)


def next_change_ever(text: str, moment: Moment) -> Optional[Change]:
    """The same of all later seconds, as :meth:`Domain.next_change` without ``until``."""
    word = stamp(moment)
    if load("domain_open", "domain_holds", "domain_ever") is None:
        return _read_change(_ask("ever", text, word))
    return Domain(text).next_change(word)


def frame_of(spans: Seconds) -> "pandas.DataFrame":
    """Spans as a frame with the columns ``from`` and ``until``."""
    ends: NDArray[Any] = numpy.ascontiguousarray(spans).view("datetime64[s]")
    return pandas.DataFrame({"from": ends[:, 0], "until": ends[:, 1]})


def _engine_of(text: str) -> _Engine:
    """What answers for the domain of a text."""
    if not isinstance(text, str):
        raise TypeError(f"a time domain is a str, not {type(text).__name__}")
    library = load("domain_open", "domain_holds")
    try:
        if library is not None:
            return DomainInProcess(library, text)
        program = DomainByProgram(text)
        program.ask("check")
        return program
    except Fault as fault:
        raise in_domain(fault, text) from None


def _ask(command: str, text: str, *words: str) -> str:
    """What the program prints of a text that need not be a domain."""
    if not isinstance(text, str):
        raise TypeError(f"a time domain is a str, not {type(text).__name__}")
    try:
        return DomainByProgram(text).ask(command, *words)
    except Fault as fault:
        if fault.kind.startswith(("moment ", "date ", "horizon ")):
            raise
        raise in_domain(fault, text) from None


def _read_change(line: str) -> Optional[Change]:
    if line in ("none", "never"):
        return None
    moment, state = line.split(" ")
    return Change(datetime.fromisoformat(moment), state == "in")


def _of_hours(hours: str, options: Optional[Mapping[str, Path]], strict: bool) -> str:
    """The text of the domain of opening hours, with what the text leaves open."""
    try:
        text: str = domains_of_hours([hours], options=options, strict=strict).iloc[0]
    except Fault as fault:
        if fault.row is None or fault.file is not None:
            raise
        raise in_domain(Fault(fault.kind, place=fault.place), hours, note=fault.note) from None
    return text
