"""Values of elements: moments, times of day, days. Nothing is guessed."""

from __future__ import annotations

import re
from datetime import datetime, timedelta
from typing import Dict, List, Mapping, NamedTuple, Optional, Tuple, TypeVar
from zoneinfo import ZoneInfo

from gtd._exchange.civil import DAY, civil_second
from gtd._fault import Fault
from gtd.datex._xml import XmlElement

DAYS = {"sunday": 1, "monday": 2, "tuesday": 3, "wednesday": 4, "thursday": 5, "friday": 6, "saturday": 7}
MONTHS = {
    name: number
    for number, name in enumerate(
        "january february march april may june july august september october november december".split(), 1
    )
}
_NTH = "first second third fourth fifth".split()
WEEKS = {f"{name}WeekOfMonth": f"f{number}" for number, name in enumerate(_NTH, 1)}
INSTANCES = {**{f"{name}Instance": f"f{number}" for number, name in enumerate(_NTH, 1)}, "lastInstance": "l1"}

_OFFSET = r"(Z|[+-](?:0\d|1[0-4]):[0-5]\d)?"
_MOMENT = re.compile(r"(\d{4}-\d\d-\d\d)T(\d\d:\d\d:\d\d)(\.\d+)?" + _OFFSET, re.ASCII)
_TIME = re.compile(r"(\d\d):(\d\d):(\d\d)(\.\d+)?" + _OFFSET, re.ASCII)
_LAST_MINUTE = (DAY - 60, DAY - 1)  # what people write for midnight
_HOURS: Dict[str, Tuple[int, Optional[int]]] = {"startTimeOfPeriod": (1, 1), "endTimeOfPeriod": (1, 1)}
_Value = TypeVar("_Value", int, str)
Counts = Mapping[str, Tuple[int, Optional[int]]]


class Choices(NamedTuple):
    """What the standard leaves open. Where a choice that is None matters, the record is refused."""

    zone: Optional[ZoneInfo] = None
    """The zone of the roads, for moments with an offset."""
    night: Optional[str] = None
    """Days with times over midnight: ``'begins'``, the night that begins on such a day; ``'within'``, the hours of such a day."""
    weeks: Optional[str] = None
    """``applicableWeek`` of version 2: ``'sevens'``, the days 1 to 7, 8 to 14 and so on."""
    times: Optional[str] = None
    """Times of day with an offset: ``'written'``, without it."""
    last_minute: Optional[str] = None
    """An end of 23:59:00 or 23:59:59: ``'midnight'``. Otherwise the time is what it says."""

    def check(self) -> None:
        """Raise ValueError if a choice is none of those above."""
        accepted = {"night": ("begins", "within"), "weeks": ("sevens",), "times": ("written",), "last_minute": ("midnight",)}
        for name, values in accepted.items():
            if getattr(self, name) not in (None, *values):
                raise ValueError(f"{name} is {' or '.join(map(repr, values))}, or None")


class DayTime(NamedTuple):
    """A recurring time of day."""

    begin: int
    """The second of the day."""
    seconds: int
    """1 to 86,400."""
    line: int

    @property
    def is_over_midnight(self) -> bool:
        """Whether it ends on the next day."""
        return self.begin + self.seconds > DAY


def parts_of(element: XmlElement, counts: Counts) -> Dict[str, List[XmlElement]]:
    """The children by their names, as often as the standard has them.

    Raises
    ------
    Fault
        ``'Unknown'``, ``'Repeated'``, ``'Missing'``.
    """
    parts: Dict[str, List[XmlElement]] = {name: [] for name in counts}
    for child in element.children:
        if child.name not in parts:
            raise Fault("Unknown", line=child.line, note=f"in {element.name}: {', '.join(counts)}")
        parts[child.name].append(child)
        most = counts[child.name][1]
        if most is not None and len(parts[child.name]) > most:
            raise Fault("Repeated", line=child.line, note=f"{child.name} at most {most} times")
    for name, (least, _) in counts.items():
        if len(parts[name]) < least:
            raise Fault("Missing", line=element.line, note=f"{name} in {element.name}")
    return parts


def parse_name(element: XmlElement, values: Mapping[str, _Value]) -> _Value:
    """What a name of the standard means.

    Raises
    ------
    Fault
        ``'Value'``.
    """
    value = values.get(element.value)
    if value is None:
        raise Fault("Value", line=element.line, note=f"{element.name} is {', '.join(values)}")
    return value


def parse_moment(element: XmlElement, choices: Choices) -> datetime:
    """The civil second of a moment.

    Raises
    ------
    Fault
        ``'Value'``, ``'Fraction'``, ``'Range'``, ``'Zone'``, ``'Twice'``.
    """
    found = _MOMENT.fullmatch(element.value)
    try:
        if found is None:
            raise ValueError
        is_end_of_day = found[2] == "24:00:00"
        text = f"{found[1]}T{'00:00:00' if is_end_of_day else found[2]}{(found[4] or '').replace('Z', '+00:00')}"
        moment = datetime.fromisoformat(text) + timedelta(days=is_end_of_day)
    except (ValueError, OverflowError):
        note = f"{element.name} is YYYY-MM-DDThh:mm:ss, with an offset or without"
        raise Fault("Value", line=element.line, note=note) from None
    _check_fraction(found[3], element)
    return civil_second(moment, choices.zone, element.line)


def parse_day_time(element: XmlElement, choices: Choices) -> DayTime:
    """A recurring time of day.

    Raises
    ------
    Fault
        ``'Unknown'``, ``'Repeated'``, ``'Missing'``, ``'Value'``, ``'Fraction'``, ``'Zone'``, ``'Order'``.
    """
    parts = parts_of(element, _HOURS)
    begin, until = (_parse_time(parts[name][0], choices) for name in _HOURS)
    if begin == DAY:
        raise Fault("Value", line=element.line, note="a time of day that begins before 24:00:00")
    if until in _LAST_MINUTE and choices.last_minute == "midnight":
        until = DAY
    until = until or DAY
    if begin == until:
        raise Fault("Order", line=element.line, note="an end at another time than the start")
    return DayTime(begin, (until - begin) % DAY or DAY, element.line)


def _parse_time(element: XmlElement, choices: Choices) -> int:
    found = _TIME.fullmatch(element.value)
    hour, minute, second = (int(found[n]) for n in (1, 2, 3)) if found else (0, 60, 0)
    seconds = hour * 3600 + minute * 60 + second
    if found is None or minute > 59 or second > 59 or seconds > DAY:
        raise Fault("Value", line=element.line, note=f"{element.name} is hh:mm:ss, 00:00:00 to 24:00:00")
    _check_fraction(found[4], element)
    if found[5] is not None and choices.times != "written":
        raise Fault("Zone", line=element.line, note="a time of day without an offset, which would move with the clock")
    return seconds


def _check_fraction(fraction: Optional[str], element: XmlElement) -> None:
    if fraction is not None and fraction.strip(".0"):
        raise Fault("Fraction", line=element.line, note="whole seconds")
