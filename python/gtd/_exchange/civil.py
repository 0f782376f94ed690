"""Seconds of the civil clock of roads, and the instants at which a zone's clock shows them."""

from __future__ import annotations

from datetime import datetime, timedelta, timezone
from typing import Optional, Tuple
from zoneinfo import ZoneInfo

from gtd._fault import Fault

DAY = 86_400  # seconds
LONGEST_DAYS = 36_600  # of a stretch: a little more than 100 years
LONGEST = LONGEST_DAYS * DAY
FIRST_YEAR, LAST_YEAR = 1901, 2599  # a stretch of 100 years from here ends before 2700-01-01

Span = Tuple[datetime, datetime]
"""A first second, and the first second after it, of the civil clock."""


def civil_second(moment: datetime, zone: Optional[ZoneInfo], line: int) -> datetime:
    """The second that the civil clock shows at a moment. A moment without an offset is of that clock already.

    Raises
    ------
    Fault
        ``'Range'``: the year; ``'Zone'``: an offset, and no zone; ``'Twice'``: the clock shows the second twice. The first pass
        of the first such second is accepted, since all that comes before it, or from it on, is a set of civil seconds.
    """
    _check_year(moment, line)
    if moment.tzinfo is None:
        return moment
    if zone is None:
        raise Fault("Zone", line=line, note="a moment with an offset needs the zone of the roads")
    local = moment.astimezone(zone)
    if is_twice(local) and (local.fold == 1 or is_twice(local.replace(fold=0) - timedelta(seconds=1))):
        raise Fault("Twice", line=line, note="a second that the clock of the roads shows once")
    _check_year(local, line)
    return local.replace(tzinfo=None, fold=0)


def _check_year(moment: datetime, line: int) -> None:
    if not FIRST_YEAR <= moment.year <= LAST_YEAR:
        raise Fault("Range", line=line, note=f"years {FIRST_YEAR} to {LAST_YEAR}")


def is_twice(local: datetime) -> bool:
    """Whether a zone's clock shows a second twice, because it is put back."""
    first, second = local.replace(fold=0).utcoffset(), local.replace(fold=1).utcoffset()
    return first is not None and second is not None and first > second


def is_first_twice(local: datetime) -> bool:
    """Whether a second is the first one of those that the clock shows twice."""
    return is_twice(local) and not is_twice(local.replace(fold=0) - timedelta(seconds=1))


def first_shown(moment: datetime, zone: ZoneInfo) -> datetime:
    """The civil second itself; where the zone's clock passes over it, the first second that it shows after that."""
    early, late = (moment.replace(tzinfo=zone, fold=fold).astimezone(timezone.utc) for fold in (1, 0))
    if late.astimezone(zone).replace(tzinfo=None) == moment:
        return moment
    return change_between(zone, early, late)[1].astimezone(zone).replace(tzinfo=None, fold=0)


def change_between(zone: ZoneInfo, low: datetime, high: datetime) -> Tuple[datetime, datetime]:
    """The last second before the clock is changed between two instants, and the first one after. Both are in UTC."""
    before = low.astimezone(zone).utcoffset()
    while high - low > timedelta(seconds=1):
        middle = low + timedelta(seconds=int((high - low).total_seconds()) // 2)
        if middle.astimezone(zone).utcoffset() == before:
            low = middle
        else:
            high = middle
    return low, high


def second_of_day(moment: datetime) -> int:
    """The seconds since midnight, as the clock counts them."""
    return moment.hour * 3600 + moment.minute * 60 + moment.second


def midnight_of(moment: datetime) -> datetime:
    """The first second of its day."""
    return datetime(moment.year, moment.month, moment.day)
