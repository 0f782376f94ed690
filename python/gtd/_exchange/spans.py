"""Closed spans, as the library lists them."""

from __future__ import annotations

import os
from collections import defaultdict
from datetime import datetime
from typing import DefaultDict, List, NamedTuple, Tuple, Union

import pandas

from gtd._domain import Domain
from gtd._exchange.civil import Span
from gtd._fault import Fault
from gtd._moments import Day, day
from gtd._record_set import Records

_DIRECTIONS = ("positive", "negative")


class ClosedElement(NamedTuple):
    """When an element is closed."""

    element: int
    direction: str
    """``'positive'``, ``'negative'``, or ``'both'`` if it is closed alike in both."""
    spans: List[Span]


def moment_of(given: Day) -> datetime:
    """The first second of a day that the library accepts."""
    return datetime.strptime(day(given), "%Y-%m-%d")


def spans_of_domain(text: str, first: Day, until: Day) -> List[Span]:
    """The spans of a time domain from a day up to another.

    Raises
    ------
    Fault
        As for :class:`gtd.Domain` and its ``spans``.
    """
    return _spans_in(Domain(text).spans(first, until))


def closed_elements(path: Union[str, "os.PathLike[str]"], vehicle: int, first: Day, until: Day) -> List[ClosedElement]:
    """The spans in which each element that a record file names is closed for a vehicle type. Open ones are left out.

    Raises
    ------
    Fault
        As for :class:`gtd.Records` and its ``schedule``; of a row, with the file.
    OSError
        The file cannot be opened or read.
    """
    records = _records_of(path)
    frame = records.schedule(first, until, vehicle)
    opened: DefaultDict[Tuple[int, str], List[Span]] = defaultdict(list)
    for element, direction, span in zip(frame["element"].tolist(), frame["direction"].tolist(), _spans_in(frame)):
        opened[element, direction].append(span)
    ends = moment_of(first), moment_of(until)
    found: List[ClosedElement] = []
    for element in records.elements.tolist():
        here = {direction: _gaps(opened[element, direction], *ends) for direction in _DIRECTIONS}
        if here["positive"] == here["negative"]:
            here = {"both": here["positive"]}
        found += [ClosedElement(element, direction, spans) for direction, spans in here.items() if spans]
    return found


def _records_of(path: Union[str, "os.PathLike[str]"]) -> Records:
    try:
        return Records(path)
    except Fault as fault:
        parts = {name: getattr(fault, name) for name in ("place", "row", "text", "caret", "note")}
        raise Fault(fault.kind, file=os.fspath(path), **parts) from None


def _spans_in(frame: "pandas.DataFrame") -> List[Span]:
    first, until = (frame[name].to_numpy().astype("datetime64[s]").tolist() for name in ("from", "until"))
    return list(zip(first, until))


def _gaps(opened: List[Span], first: datetime, until: datetime) -> List[Span]:
    """The seconds between two moments that no span contains."""
    ends = [first, *(moment for span in opened for moment in span), until]
    return [(one, other) for one, other in zip(ends[::2], ends[1::2]) if one < other]
