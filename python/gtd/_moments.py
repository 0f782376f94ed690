"""Moments and days: what is taken for one, and its number.

A second is counted on the local civil clock: 86,400 times the number of its day (1970-01-01 is day 0) plus the second of that
day.
"""

from __future__ import annotations

import re
from datetime import date, datetime, timedelta
from typing import Any, Iterable, List, Optional, Tuple, Union

import numpy
import pandas
from numpy.typing import NDArray

from gtd._fault import Fault

Moment = Union[datetime, numpy.datetime64, str]
Moments = Union["pandas.Series", "pandas.Index", NDArray[Any], List[Any]]
Day = Union[date, numpy.datetime64, str]
Seconds = NDArray[numpy.int64]

DAY = 86_400  # seconds
FIRST_DAY, END_DAY = -25_202, 266_627  # 1901-01-01, and 2700-01-01: the days that may be asked about
LONGEST = 146_098  # days of a horizon
FIRST_SECOND, END_SECOND = FIRST_DAY * DAY, END_DAY * DAY
END_OF_WORDS = 7_258_118_400  # 2200-01-01: the moments that a word of a command line may give end before it

_EPOCH = date(1970, 1, 1).toordinal()
_EPOCH_MOMENT = datetime(1970, 1, 1)
_STAMP = re.compile(r"(\d{4})-(\d\d)-(\d\d)[T ](\d\d):(\d\d):(\d\d)", re.ASCII)
_DATE = re.compile(r"(\d{4})-(\d\d)-(\d\d)", re.ASCII)
_ZONE = "a moment is of the local civil clock and has no time zone: take moment.replace(tzinfo=None)"
_ZONES = "moments are of the local civil clock and have no time zone: take column.dt.tz_localize(None)"


def stamp(moment: Moment) -> str:
    """``YYYY-MM-DDThh:mm:ss``. A text may have a space in place of the ``T``, as pandas prints moments."""
    if isinstance(moment, str):
        return f"{moment[:10]}T{moment[11:]}" if moment[10:11] == " " else moment
    if isinstance(moment, numpy.datetime64):
        if numpy.isnat(moment):
            raise ValueError("the moment is NaT")
        return str(moment.astype("datetime64[s]"))
    if not isinstance(moment, datetime):
        raise TypeError(f"a moment is a datetime, not {type(moment).__name__}")
    if moment != moment:
        raise ValueError("the moment is NaT")
    if moment.tzinfo is not None:
        raise ValueError(_ZONE)
    return moment.replace(microsecond=0).isoformat()[:19]


def day(given: Day) -> str:
    """``YYYY-MM-DD``."""
    if isinstance(given, str):
        return given
    if isinstance(given, (datetime, numpy.datetime64)):
        second = stamp(given)
        if second[10:] != "T00:00:00":
            raise ValueError(f"a day is asked for, and {second} is a moment in one")
        return second[:10]
    if not isinstance(given, date):
        raise TypeError(f"a day is a date, not {type(given).__name__}")
    return given.isoformat()


def second_of(moment: Moment, end: int = END_SECOND) -> int:
    """The number of the second that a moment lies in, from 1901-01-01 up to but not including ``end``.

    Raises
    ------
    Fault
        ``'moment Shape'``, ``'moment NoSuchDate'`` or ``'moment Range'``.
    ValueError, TypeError
        The moment has a time zone, or is not a time (NaT); it is no moment at all.
    """
    if type(moment) is datetime and moment.tzinfo is None:
        number = (moment.toordinal() - _EPOCH) * DAY + moment.hour * 3600 + moment.minute * 60 + moment.second
    else:
        number = _second_in(stamp(moment))
    if not FIRST_SECOND <= number < end:
        raise Fault("moment Range")
    return number


def _second_in(text: str) -> int:
    """The second that a text stands for, in any year of four digits."""
    found = _STAMP.fullmatch(text)
    if not found:
        raise Fault("moment Shape")
    year, month, in_month, hour, minute, second = map(int, found.groups())
    number = _day_number(year, month, in_month)
    if number is None or hour > 23 or minute > 59 or second > 59:
        raise Fault("moment NoSuchDate")
    return number * DAY + hour * 3600 + minute * 60 + second


def day_of(text: str) -> int:
    """The number of the day that a text ``YYYY-MM-DD`` stands for, from 1901-01-01 to 2700-01-01.

    Raises
    ------
    Fault
        ``'date Shape'``, ``'date NoSuchDate'`` or ``'date Range'``.
    """
    found = _DATE.fullmatch(text)
    if not found:
        raise Fault("date Shape")
    number = _day_number(*map(int, found.groups()))
    if number is None:
        raise Fault("date NoSuchDate")
    if not FIRST_DAY <= number <= END_DAY:
        raise Fault("date Range")
    return number


def _day_number(year: int, month: int, in_month: int) -> Optional[int]:
    """The number of a day, or None if there is no such date. Year 0, which Python does not have, is like year 400."""
    try:
        return date(year or 400, month, in_month).toordinal() - _EPOCH - (0 if year else 146_097)
    except ValueError:
        return None


def horizon(first: int, until: int) -> Tuple[int, int]:
    """The days from one up to but not including another, by their numbers.

    Raises
    ------
    Fault
        ``'horizon Empty'``, ``'horizon TooEarly'``, ``'horizon TooLate'`` or ``'horizon TooLong'``.
    """
    if until <= first:
        raise Fault("horizon Empty")
    if first < FIRST_DAY:
        raise Fault("horizon TooEarly")
    if until > END_DAY:
        raise Fault("horizon TooLate")
    if until - first > LONGEST:
        raise Fault("horizon TooLong")
    return first, until


def days(first: Day, until: Day) -> Tuple[int, int]:
    """The days from ``first`` up to but not including ``until``, by their numbers.

    Raises
    ------
    Fault
        ``'date ...'``, ``'horizon ...'``.
    """
    words = day(first), day(until)
    return horizon(day_of(words[0]), day_of(words[1]))


def search(moment: Moment, until: Day) -> Tuple[int, int]:
    """The second from which on a change is looked for, and the day before which it is, by their numbers.

    Raises
    ------
    Fault
        As for :func:`second_of`; ``'date ...'``, ``'horizon ...'``.
    ValueError, TypeError
        As for :func:`second_of`.
    """
    word = day(until)
    second = second_of(moment)
    return second, horizon(second // DAY, day_of(word))[1]


def moment_at(second: int) -> datetime:
    """The moment with a number."""
    return _EPOCH_MOMENT + timedelta(seconds=second)


def date_at(number: int) -> str:
    """``YYYY-MM-DD`` of a day, by its number."""
    return date.fromordinal(number + _EPOCH).isoformat()


def is_column(given: object) -> bool:
    """Whether something holds many values: an array, a column or a list."""
    return isinstance(given, (pandas.Series, pandas.Index, numpy.ndarray, list, tuple, pandas.api.extensions.ExtensionArray))


def seconds_of(moments: Moments, end: int = END_SECOND) -> Seconds:
    """The numbers of the seconds that moments lie in.

    Raises
    ------
    Fault
        As for :func:`second_of`; ``row`` is the place of the first moment at fault, from 1.
    ValueError, TypeError
        The moments have a time zone, or one is not a time (NaT); or they are none.
    """
    if isinstance(getattr(moments, "dtype", None), pandas.DatetimeTZDtype):
        raise ValueError(_ZONES)
    values = numpy.asarray(moments)
    if values.ndim != 1:
        raise ValueError(f"moments have one dimension, and these have {values.ndim}")
    if values.dtype.kind != "M":
        return _seconds_of_each(values.tolist() if values.dtype.kind == "U" else values, end)
    missing = numpy.isnat(values)
    if missing.any():
        raise ValueError(f"the moment in row {int(missing.argmax()) + 1} is NaT")
    numbers = numpy.ascontiguousarray(values.astype("datetime64[s]").astype("int64"))
    beyond = (numbers < FIRST_SECOND) | (numbers >= end)
    if beyond.any():
        raise Fault("moment Range", row=int(beyond.argmax()) + 1)
    return numbers


def _seconds_of_each(values: Iterable[Any], end: int) -> Seconds:
    numbers: List[int] = []
    for value in values:
        try:
            numbers.append(second_of(value, end))
        except Fault as fault:
            raise Fault(fault.kind, row=len(numbers) + 1) from None
        except (ValueError, TypeError) as error:
            raise type(error)(f"row {len(numbers) + 1}: {error}") from None
    return numpy.array(numbers, dtype="int64")
