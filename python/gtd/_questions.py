"""What is asked of records: an element, a direction and a vehicle type; one of each, or columns."""

from __future__ import annotations

import operator
from typing import Any, NamedTuple, Optional, Tuple, Union

import numpy
import pandas
from numpy.typing import NDArray

from gtd._fault import Fault
from gtd._library import QUESTION
from gtd._moments import Moment, Moments, is_column, second_of, seconds_of

LARGEST_ELEMENT = 9_999_999_999
LARGEST_VEHICLE = 99

Column = Union["pandas.Series", "pandas.Index", NDArray[Any]]


class Place(NamedTuple):
    """An element in a direction, for a vehicle type."""

    element: int
    negative: bool
    vehicle: int


def place_of(element: int, direction: str, vehicle: int) -> Place:
    """The place with this element (0 to 9,999,999,999), direction and vehicle type (1 to 99).

    Raises
    ------
    Fault
        ``'Element'``, ``'Direction'``, ``'VehicleRange'``.
    """
    return Place(element_of(element), is_negative(direction), vehicle_of(vehicle))


def element_of(given: int) -> int:
    """An element's number."""
    element = operator.index(given)
    if not 0 <= element <= LARGEST_ELEMENT:
        raise Fault("Element", text=str(element))
    return element


def vehicle_of(given: int) -> int:
    """A vehicle type."""
    vehicle = operator.index(given)
    if not 1 <= vehicle <= LARGEST_VEHICLE:
        raise Fault("VehicleRange", text=str(vehicle))
    return vehicle


def is_negative(direction: str) -> bool:
    """Whether a direction is ``'negative'`` and not ``'positive'``."""
    if direction not in ("positive", "negative"):
        raise Fault("Direction", text=str(direction))
    return direction == "negative"


def length_of(*given: object) -> Optional[int]:
    """How many questions columns ask; None if nothing of what is given is a column.

    Raises
    ------
    ValueError
        The columns have different lengths, or different indexes.
    """
    lengths = {len(one) for one in given if is_column(one)}  # type: ignore[arg-type]
    if len(lengths) > 1:
        raise ValueError(f"the columns have different lengths: {', '.join(map(str, sorted(lengths)))}")
    first, *others = [one.index for one in given if isinstance(one, pandas.Series)] or [None]
    if not all(other.equals(first) for other in others):
        raise ValueError("the columns have different indexes: take column.to_numpy() to go row by row")
    return lengths.pop() if lengths else None


def index_of(*given: object) -> Optional["pandas.Index"]:
    """The index of the first column that is a Series."""
    return next((one.index for one in given if isinstance(one, pandas.Series)), None)


def questions_of(
    element: Union[int, Column], direction: Union[str, Column], vehicle: Union[int, Column], moment: Union[Moment, Moments]
) -> NDArray[Any]:
    """A question for each row of the columns; what is no column is the same in all of them.

    Raises
    ------
    Fault
        As for :func:`place_of` and :func:`gtd._moments.second_of`; ``row`` is the first row at fault, from 1.
    """
    count = length_of(element, direction, vehicle, moment)
    questions = numpy.zeros(1 if count is None else count, dtype=QUESTION)
    questions["element"] = _numbers(element, "Element", (0, LARGEST_ELEMENT))
    questions["negative"] = _negatives(direction)
    questions["vehicle"] = _numbers(vehicle, "VehicleRange", (1, LARGEST_VEHICLE))
    questions["second"] = seconds_of(moment) if is_column(moment) else second_of(moment)  # type: ignore[arg-type]
    return questions


def _numbers(given: Any, kind: str, limits: Tuple[int, int]) -> Any:
    """Numbers within limits."""
    least, greatest = limits
    if not is_column(given):
        number = operator.index(given)
        if not least <= number <= greatest:
            raise Fault(kind, text=str(number))
        return number
    values = numpy.asarray(given)
    if values.dtype.kind not in "iu":
        values = _whole(given, kind)
    beyond = (values < least) | (values > greatest)
    if beyond.any():
        row = int(beyond.argmax())
        raise Fault(kind, row=row + 1, text=str(values[row]))
    return values


def _whole(given: Any, kind: str) -> NDArray[numpy.int64]:
    """The whole numbers of a column that may lack values."""
    missing = numpy.asarray(pandas.isna(given))
    if missing.any():
        raise Fault(kind, row=int(missing.argmax()) + 1, note="the value is missing")
    numbers = []
    for value in numpy.asarray(given, dtype=object).tolist():
        try:
            numbers.append(operator.index(value))
        except TypeError as error:
            raise TypeError(f"row {len(numbers) + 1}: {error}") from None
    beyond = next((row for row, number in enumerate(numbers) if not -(2**63) <= number < 2**63), None)
    if beyond is not None:
        raise Fault(kind, row=beyond + 1, text=str(numbers[beyond]))
    return numpy.array(numbers, dtype="int64")


def _negatives(given: Any) -> Any:
    """Whether each direction is negative."""
    if not is_column(given):
        return is_negative(given)
    column = given if isinstance(given, (pandas.Series, pandas.Index)) else numpy.asarray(given, dtype=object)
    codes, names = pandas.factorize(column)
    known = numpy.array([*(name in ("positive", "negative") for name in names), False])[codes]
    if not known.all():
        row = int(known.argmin())
        if codes[row] < 0:
            raise Fault("Direction", row=row + 1, note="the value is missing")
        raise Fault("Direction", row=row + 1, text=str(numpy.asarray(given, dtype=object)[row]))
    return numpy.array([*(name == "negative" for name in names), False])[codes]
