"""Periods of a specification as parts of time domains."""

from __future__ import annotations

from datetime import datetime
from typing import Dict, List, NamedTuple, Optional, Sequence, Set

from gtd._exchange.civil import DAY
from gtd._exchange.texts import DomainText, basic, product, stretch, total, whole_months
from gtd._fault import Fault
from gtd.datex._values import DAYS, INSTANCES, MONTHS, WEEKS, Choices, Counts, DayTime
from gtd.datex._values import parse_day_time, parse_moment, parse_name, parts_of
from gtd.datex._xml import XmlElement

_PERIOD: Counts = {
    "startOfPeriod": (0, 1),
    "endOfPeriod": (0, 1),
    "periodName": (0, 1),
    "recurringTimePeriodOfDay": (0, None),
    "recurringDayWeekMonthPeriod": (0, None),
    "recurringSpecialDay": (0, None),
}
_DATES: Counts = {
    "applicableDay": (0, 7),
    "applicableWeek": (0, 5),
    "applicableMonth": (0, 12),
    "applicableInstanceOfDayWithinMonth": (0, 6),
    "applicableCalendarWeekWithinMonth": (0, 6),
}
_EVERY_DAY = [""]
_Dates = Dict[str, List[XmlElement]]


class Overall(NamedTuple):
    """The overall period of a specification."""

    first: datetime
    until: Optional[datetime]
    line: int

    @property
    def text(self) -> DomainText:
        """Its seconds."""
        return stretch(self.first, self.until, self.line)


class PeriodText(NamedTuple):
    """The seconds of a valid period or of an exception."""

    text: DomainText
    is_bounded: bool
    """Whether its own start and end keep it within the overall period."""


def moment_in(elements: Sequence[XmlElement], choices: Choices) -> Optional[datetime]:
    """The moment of the one element, or None if there is none."""
    return parse_moment(elements[0], choices) if elements else None


def period_text(element: XmlElement, overall: Overall, choices: Choices) -> Optional[PeriodText]:
    """The seconds of a period, or None if its start and end lie outside the overall period.

    Raises
    ------
    Fault
        The first fault of the period, with its line.
    """
    parts = parts_of(element, _PERIOD)
    for special in parts["recurringSpecialDay"]:
        raise Fault("SpecialDay", line=special.line, note="days by their dates")
    begin, until = moment_in(parts["startOfPeriod"], choices), moment_in(parts["endOfPeriod"], choices)
    if begin is not None and until is not None and until <= begin:
        raise Fault("Order", line=element.line, note="an end after the start")
    recurring = _recurring_text(parts, choices)  # also outside the overall period, for its faults
    first = overall.first if begin is None else begin
    last = overall.until if until is None else until
    if (overall.until is not None and first >= overall.until) or (last is not None and last <= overall.first):
        return None
    factors = [] if begin is None and until is None else [stretch(first, last, element.line)]
    factors += [] if recurring is None else [recurring]
    if not factors:
        return PeriodText(overall.text, True)
    begins_inside = begin is not None and begin >= overall.first
    ends_inside = overall.until is None or (until is not None and until <= overall.until)
    return PeriodText(product(factors), begins_inside and ends_inside)


def _recurring_text(parts: Dict[str, List[XmlElement]], choices: Choices) -> Optional[DomainText]:
    """The seconds at one of the times of day, on one of the days. None if these are all seconds."""
    times: List[Optional[DayTime]] = [parse_day_time(one, choices) for one in parts["recurringTimePeriodOfDay"]]
    dates: List[Optional[_Dates]] = [parts_of(one, _DATES) for one in parts["recurringDayWeekMonthPeriod"]]
    texts = [_days_text(date, time, choices) for date in dates or [None] for time in times or [None]]
    some = [text for text in texts if text is not None]
    return total(some) if len(some) == len(texts) else None


def _days_text(dates: Optional[_Dates], time: Optional[DayTime], choices: Choices) -> Optional[DomainText]:
    """One time of day on the days of one DayWeekMonth. None if these are all seconds."""
    numbers = sorted({parse_name(one, MONTHS) for one in dates["applicableMonth"]}) if dates else []
    days = _day_fields(dates, choices) if dates else _EVERY_DAY
    months = whole_months(numbers)
    if time is not None and time.is_over_midnight and (months or days != _EVERY_DAY):
        return _nights_text(numbers if months else [], days, time, choices)
    factors = [months] if months else []
    if time is not None:
        factors.append(total([basic(day, time.begin, time.seconds) for day in days]))
    elif days != _EVERY_DAY:
        factors.append(_whole_days(days))
    return product(factors) if factors else None


def _nights_text(months: Sequence[int], days: Sequence[str], time: DayTime, choices: Choices) -> DomainText:
    """A time over midnight on some days or in some months, of which the standard says what it is and writers something else."""
    if choices.night is None:
        raise Fault("Night", line=time.line, note="times over midnight on some days only: say which night is meant")
    if choices.night == "begins":
        fields = [f"M{month}{day}" for month in months for day in days] if months else days
        return total([basic(field, time.begin, time.seconds) for field in fields])
    held = whole_months(months)
    factors = ([held] if held else []) + ([_whole_days(days)] if days != _EVERY_DAY else [])
    return product([*factors, basic("", time.begin, time.seconds)])


def _whole_days(days: Sequence[str]) -> DomainText:
    return total([basic(day, 0, DAY) for day in days])


def _day_fields(dates: _Dates, choices: Choices) -> Sequence[str]:
    """The fields of starts on the days of a DayWeekMonth, without its months."""
    for week in dates["applicableCalendarWeekWithinMonth"]:
        raise Fault("Week", line=week.line, note="days by their instance within the month, or by their dates")
    weekdays = sorted({parse_name(one, DAYS) for one in dates["applicableDay"]})
    nths = sorted({parse_name(one, INSTANCES) for one in dates["applicableInstanceOfDayWithinMonth"]} | _weeks(dates, choices))
    if len([nth for nth in nths if nth[0] == "f"]) == 5:
        nths = []
    if nths:
        return [f"{nth}{day}" for nth in nths for day in weekdays or range(1, 8)]
    return _EVERY_DAY if len(weekdays) in (0, 7) else ["".join(f"t{day}" for day in weekdays)]


def _weeks(dates: _Dates, choices: Choices) -> Set[str]:
    """The weeks of a month, as the instances of weekdays that they hold if each has seven days."""
    for week in dates["applicableWeek"]:
        if choices.weeks is None:
            raise Fault("Week", line=week.line, note="the standard does not say which days a week of a month has")
        if dates["applicableInstanceOfDayWithinMonth"]:
            raise Fault("Week", line=week.line, note="weeks or instances of days, not both")
    return {parse_name(week, WEEKS) for week in dates["applicableWeek"]}
