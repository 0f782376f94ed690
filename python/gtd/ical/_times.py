"""Dates, times and durations of events, as seconds of the civil clock."""

from __future__ import annotations

import re
from datetime import date, datetime, timedelta, timezone
from typing import NamedTuple, Optional, Tuple
from zoneinfo import ZoneInfo

from gtd._exchange.civil import DAY, LONGEST, LONGEST_DAYS, civil_second
from gtd._fault import Fault
from gtd.ical._lines import CalendarEvent, ContentLine

_TIME = re.compile(r"(\d{8})(?:T(\d{6})(Z)?)?", re.ASCII)
_DURATION = re.compile(
    r"\+?P(?:(\d{1,9})W|(?:(\d{1,9})D)?(?:T(?:(\d{1,9})H)?(?:(\d{1,9})M)?(?:(\d{1,9})S)?)?)", re.ASCII
)


class Choices(NamedTuple):
    """What a calendar does not say. Where a choice that is None matters, the events of a UID are refused."""

    zone: Optional[ZoneInfo] = None
    """The zone of the roads, for times with a zone and for those in UTC."""
    zone_names: Tuple[str, ...] = ()
    """Other names that the calendar has for this zone."""
    until: Optional[date] = None
    """The dates of a rule that no time domain expresses are listed before this day."""


def is_date(value: str) -> bool:
    """Whether a value is a date, and not a time."""
    return "T" not in value


def is_utc(value: str) -> bool:
    """Whether a value is a time in UTC."""
    return value.endswith("Z")


def parse_time(line: ContentLine, value: str, choices: Choices) -> datetime:
    """The civil second of a date, which is its midnight, or of a time.

    Raises
    ------
    Fault
        ``'Value'``, ``'Zone'``, ``'Range'``, ``'Twice'``, at the line.
    """
    found = _TIME.fullmatch(value)
    try:
        if found is None:
            raise ValueError
        moment = datetime.strptime(found[1] + (found[2] or "000000"), "%Y%m%d%H%M%S")
    except ValueError:
        raise Fault("Value", line=line.number, note=f"{line.name} is YYYYMMDD or YYYYMMDDThhmmss, or this with Z") from None
    kind, name = line.parameters.get("VALUE", "").upper(), line.parameters.get("TZID")
    if kind not in ("", "DATE" if is_date(value) else "DATE-TIME"):
        raise Fault("Value", line=line.number, note=f"{line.name} as VALUE says: a DATE or a DATE-TIME")
    if is_utc(value):
        if name is not None:
            raise Fault("Value", line=line.number, note="TZID with a local time, or Z without TZID")
        return civil_second(moment.replace(tzinfo=timezone.utc), choices.zone, line.number)
    if name is not None and (choices.zone is None or name not in (choices.zone.key, *choices.zone_names)):
        raise Fault("Zone", line=line.number, note=f"times of the zone of the roads, and not of {name}")
    return civil_second(moment, None, line.number)


def parse_like_start(line: ContentLine, value: str, event: CalendarEvent, choices: Choices) -> datetime:
    """As :func:`parse_time`, for a property that is a date exactly where DTSTART of the event is one."""
    if is_date(value) != is_date(event.start.value):
        raise Fault("Value", line=line.number, note=f"{line.name} is a date where DTSTART is one, and otherwise a time")
    return parse_time(line, value, choices)


def parse_extent(event: CalendarEvent, choices: Choices) -> Tuple[datetime, int]:
    """The civil second at which an event begins, and for how many civil seconds it lasts.

    A duration is of the civil clock; after a start in UTC, of UTC.

    Raises
    ------
    Fault
        ``'Value'``, ``'Zone'``, ``'Range'``, ``'Twice'``, ``'Repeated'``, ``'Length'``.
    """
    begin, until, lasts = event.start, event.first_of("DTEND"), event.first_of("DURATION")
    start = parse_time(begin, begin.value, choices)
    if until is not None and lasts is not None:
        raise Fault("Repeated", line=lasts.number, note="DTEND or DURATION")
    if until is not None:
        end = parse_like_start(until, until.value, event, choices)
        return start, _check_length(int((end - start).total_seconds()), until)
    if lasts is None:
        return start, _check_length(DAY if is_date(begin.value) else 0, begin)
    seconds = _check_length(_parse_duration(lasts), lasts)
    if not is_utc(begin.value):
        return start, seconds
    instant = datetime.strptime(begin.value, "%Y%m%dT%H%M%SZ").replace(tzinfo=timezone.utc) + timedelta(seconds=seconds)
    end = civil_second(instant, choices.zone, lasts.number)
    return start, _check_length(int((end - start).total_seconds()), lasts)


def _check_length(seconds: int, line: ContentLine) -> int:
    if not 0 < seconds <= LONGEST:
        raise Fault("Length", line=line.number, note=f"an end after the start, at most {LONGEST_DAYS:,} days later")
    return seconds


def _parse_duration(line: ContentLine) -> int:
    found = _DURATION.fullmatch(line.value.upper())
    if found is None:
        raise Fault("Value", line=line.number, note="a duration as P1D, P2W or PT10H30M")
    weeks, days, hours, minutes, seconds = (int(number or 0) for number in found.groups())
    return (weeks * 7 + days) * DAY + hours * 3600 + minutes * 60 + seconds
