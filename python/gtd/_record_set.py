"""The records of a file, read once and asked many times."""

from __future__ import annotations

import io
from datetime import datetime
from typing import Any, Dict, List, NamedTuple, Optional, Sequence, Tuple, Type, Union

import numpy
import pandas
from numpy.typing import NDArray

from gtd._domain import frame_of
from gtd._moments import DAY, END_DAY, LONGEST, Day, Moment, Moments, Seconds, day, days, moment_at, search, second_of
from gtd._questions import Column, Place, element_of, index_of, length_of, place_of, questions_of, vehicle_of
from gtd._reading import DIRECTION, RecordsLike, as_bytes, check_last, engine_of, read_schedule

_STATE = pandas.CategoricalDtype(["open", "closed"])
_DIRECTIONS = ("positive", "negative")
_NEVER = numpy.iinfo("int64").min  # NaT


class ElementChange(NamedTuple):
    """A second at which an element is opened or closed in a direction."""

    moment: datetime
    """The first second of the new state."""
    is_open: bool
    """Whether the element is open from then on."""


class Records:
    """The records of a file, which is read once and asked many times.

    Where no row closes an element, it is open; so is one that no row names. Seconds are of the local civil clock, without a time
    zone. Moments and days are given as for :class:`gtd.Domain`, and lie from 1901-01-01 up to and not including 2700-01-01.
    Elements are numbers from 0 to 9,999,999,999, directions ``'positive'`` or ``'negative'``, vehicle types 1 to 99.

    Parameters
    ----------
    records : str, os.PathLike, bytes, binary file or pandas.DataFrame
        As in :func:`gtd.schedule`; a frame has at most as many rows as a file, 65,536 in 16,777,216 bytes.

    Raises
    ------
    Fault, OSError
        As for :func:`gtd.migrate`.

    Examples
    --------
    >>> import gtd
    >>> street = gtd.Records(b"element,direction,vehicle,domain\\n17,positive,0,(h10){h4}\\n")
    >>> street.closed_at(17, "positive", 11, "2024-04-01T12:00:00")
    True
    >>> street.next_change(17, "positive", 11, "2024-04-01T12:00:00", "2024-04-02")
    ElementChange(moment=datetime.datetime(2024, 4, 1, 14, 0), is_open=True)
    """

    def __init__(self, records: RecordsLike) -> None:
        self._given = as_bytes(records)
        self._engine = engine_of(self._given)

    @property
    def elements(self) -> Seconds:
        """The elements that the records name, in ascending order (int64)."""
        return self._engine.elements().copy()

    def closed_at(
        self,
        element: Union[int, Column],
        direction: Union[str, Column],
        vehicle: Union[int, Column],
        moment: Union[Moment, Moments],
    ) -> Any:
        """Whether some row closes an element in a direction for a vehicle type at a second; or each of many, row by row.

        Parameters
        ----------
        element, direction, vehicle, moment
            Each is one value, or an array, an index or a column of values. What is one value is the same in each question.

        Returns
        -------
        bool, or an array or pandas.Series of bool
            One answer, if nothing is a column. A Series with the index of the first Series that was given, or else an array.

        Raises
        ------
        Fault
            ``'Element'``, ``'Direction'``, ``'VehicleRange'``, or as for :meth:`gtd.Domain.contains`; ``row`` is the first row of
            the columns that is at fault, from 1.
        ValueError
            The columns have different lengths; a moment has a time zone, or is not a time (NaT).
        """
        given = (element, direction, vehicle, moment)
        is_one = type(element) is int and type(direction) is str and type(vehicle) is int and type(moment) is datetime
        if is_one or length_of(*given) is None:
            place = place_of(element, direction, vehicle)  # type: ignore[arg-type]
            return self._engine.closed_at(place, second_of(moment))  # type: ignore[arg-type]
        closed = self._engine.closed_many(questions_of(*given))
        index = index_of(*given)
        return closed if index is None else pandas.Series(closed, index, name="closed")

    def closers(self, element: int, direction: str, vehicle: int, moment: Moment) -> List[int]:
        """The rows that close an element in a direction for a vehicle type at a second, by their numbers, ascending, from 1.

        The header and empty lines are not counted: of a frame, row 1 is its first.

        Raises
        ------
        Fault, ValueError
            As for :meth:`closed_at`.
        """
        return self._engine.closers(place_of(element, direction, vehicle), second_of(moment))

    def next_change(
        self, element: int, direction: str, vehicle: int, moment: Moment, until: Day
    ) -> Optional[ElementChange]:
        """The first second later than ``moment`` and before the day ``until`` at which an element is opened or closed.

        Parameters
        ----------
        until
            At most 2700-01-01, and at most 146,098 days after the moment's day.

        Returns
        -------
        ElementChange or None
            None if the element stays open or closed.

        Raises
        ------
        Fault, ValueError
            As for :meth:`closed_at`; also ``'date ...'`` and ``'horizon ...'``.
        """
        place = place_of(element, direction, vehicle)
        second, last = search(moment, until)
        change = self._engine.next_change(place, second, last)
        return None if change is None else ElementChange(moment_at(change), self._engine.closed_at(place, second))

    def spans(self, element: int, direction: str, vehicle: int, first: Day, until: Day) -> "pandas.DataFrame":
        """The spans in which an element is open, from the day ``first`` up to and not including ``until``.

        Returns
        -------
        pandas.DataFrame
            As :meth:`gtd.Domain.spans`.

        Raises
        ------
        Fault
            ``'Element'``, ``'Direction'``, ``'VehicleRange'``, ``'date ...'``, ``'horizon ...'``.
        """
        return frame_of(self._engine.spans(place_of(element, direction, vehicle), *days(first, until)))

    def schedule(self, first: Day, until: Day, vehicle: int) -> "pandas.DataFrame":
        """When each element is open: as :func:`gtd.schedule`, which reads the records anew each time."""
        last = day(until)
        check_last(last)
        text = self._engine.schedule(*days(first, last), vehicle_of(vehicle))
        return read_schedule(io.BytesIO(text))

    def now(self, moment: Moment, vehicle: int) -> "pandas.DataFrame":
        """The state of each element that the records name, in both directions, at a second.

        Returns
        -------
        pandas.DataFrame
            ``element`` (int64), ``direction`` (category: positive, negative), ``vehicle`` (int64), ``state`` (category: open,
            closed), ``until`` (datetime64[s]; with pandas 1, datetime64[ns]) and ``rows`` (tuple of int, from 1, that close it).
            ``until`` is the first later second at which the state changes, if it is before 2700-01-01 and within the 146,098 days
            from the moment's day on; otherwise NaT. Elements in ascending order, positive before negative.

        Raises
        ------
        Fault, ValueError
            ``'VehicleRange'``; as for :meth:`gtd.Domain.contains`.
        pandas.errors.OutOfBoundsDatetime
            With pandas 1, a state changes after 2262-04-11.
        """
        vehicle, second = vehicle_of(vehicle), second_of(moment)
        last = min(END_DAY, second // DAY + LONGEST)
        places = [Place(element, negative, vehicle) for element in self.elements.tolist() for negative in (False, True)]
        closers, changes = self._engine.now(places, second, last)
        rows = [tuple(row) for row in closers]
        until = numpy.array([_NEVER if change is None else change for change in changes], dtype="int64")
        return pandas.DataFrame(
            {
                "element": numpy.array([place.element for place in places], dtype="int64"),
                "direction": pandas.Categorical.from_codes([int(place.negative) for place in places], dtype=DIRECTION),
                "vehicle": numpy.full(len(places), vehicle, dtype="int64"),
                "state": pandas.Categorical.from_codes([int(bool(row)) for row in rows], dtype=_STATE),
                "until": until.view("datetime64[s]"),
                "rows": pandas.Series(rows, dtype=object),
            }
        )

    def open_seconds(
        self, first: Day, until: Day, vehicle: int, elements: Optional[Union[Sequence[int], Column]] = None
    ) -> "pandas.DataFrame":
        """For how many seconds each element is open, from the day ``first`` up to and not including ``until``.

        Parameters
        ----------
        elements : sequence of int, array or column, optional
            The elements that are asked about, in this order. One that no record names is open throughout. Without it, those that
            the records name, in ascending order.

        Returns
        -------
        pandas.DataFrame
            ``positive`` and ``negative`` (int64), by ``element``.

        Raises
        ------
        Fault
            ``'date ...'``, ``'horizon ...'``, ``'VehicleRange'``; ``'Element'`` for a number that is none.
        """
        asked = days(first, until)
        text = self._engine.schedule(*asked, vehicle_of(vehicle))
        frame = pandas.read_csv(io.BytesIO(text), dtype={"from": "category", "until": "category"})
        lengths = _seconds_in(frame["until"]) - _seconds_in(frame["from"])
        named = self.elements
        wanted = named if elements is None else _elements_of(elements)
        seconds: Dict[str, NDArray[numpy.int64]] = {}
        for direction in _DIRECTIONS:
            mine = (frame["direction"] == direction).to_numpy()
            at = numpy.searchsorted(named, frame["element"].to_numpy()[mine])
            opened = numpy.bincount(at, lengths[mine], len(named)).astype("int64")
            seconds[direction] = _looked_up(named, opened, wanted, (asked[1] - asked[0]) * DAY)
        return pandas.DataFrame(seconds, index=pandas.Index(wanted, dtype="int64", name="element"))

    def __reduce__(self) -> Tuple[Type[Records], Tuple[bytes]]:
        return Records, (self._given,)


def _seconds_in(column: "pandas.Series") -> NDArray[numpy.int64]:
    """The seconds of a column of moments, which is a category of texts."""
    numbers = column.cat.categories.to_numpy(dtype="datetime64[s]").astype("int64")
    found: NDArray[numpy.int64] = numbers[column.cat.codes.to_numpy()]
    return found


def _elements_of(given: Any) -> Seconds:
    return numpy.array([element_of(element) for element in numpy.asarray(given).tolist()], dtype="int64")


def _looked_up(named: Seconds, values: Seconds, wanted: Seconds, otherwise: int) -> Seconds:
    """The value of each wanted element; ``otherwise`` of one that is not named."""
    if not len(named):
        return numpy.full(len(wanted), otherwise, dtype="int64")
    at = numpy.minimum(numpy.searchsorted(named, wanted), len(named) - 1)
    return numpy.where(named[at] == wanted, values[at], otherwise)
