"""The offsets of a zone, as a calendar holds them (RFC 5545, 3.6.5)."""

from __future__ import annotations

from datetime import datetime, timedelta, timezone
from typing import List
from zoneinfo import ZoneInfo

from gtd._exchange.civil import change_between

_STEP = timedelta(days=7)  # no zone changes its clock twice within so few days and back


def write_zone(zone: ZoneInfo, first: datetime, last: datetime) -> List[str]:
    """The lines of a VTIMEZONE with each change of the clock from the year before the first civil second until the last one."""
    lines = ["BEGIN:VTIMEZONE", f"TZID:{zone.key}"]
    at = datetime(first.year - 1, 1, 1, tzinfo=timezone.utc)
    end = last.replace(tzinfo=timezone.utc) + timedelta(days=2)
    lines += _observance(zone, at, at)
    while at < end:
        then = at + _STEP
        if then.astimezone(zone).utcoffset() != at.astimezone(zone).utcoffset():
            lines += _observance(zone, *change_between(zone, at, then))
        at = then
    return [*lines, "END:VTIMEZONE"]


def _observance(zone: ZoneInfo, before: datetime, at: datetime) -> List[str]:
    """The offset from an instant on; the one before that is the last with the earlier offset."""
    new = at.astimezone(zone)
    earlier, later = before.astimezone(zone).utcoffset() or timedelta(), new.utcoffset() or timedelta()
    kind = "DAYLIGHT" if new.dst() else "STANDARD"
    onset = (at + earlier).replace(tzinfo=None)
    return [
        f"BEGIN:{kind}",
        f"DTSTART:{onset:%Y%m%dT%H%M%S}",
        f"TZOFFSETFROM:{_offset(earlier)}",
        f"TZOFFSETTO:{_offset(later)}",
        f"TZNAME:{new.tzname()}",
        f"END:{kind}",
    ]


def _offset(offset: timedelta) -> str:
    seconds = int(offset.total_seconds())
    hours, rest = divmod(abs(seconds), 3600)
    return f"{'-' if seconds < 0 else '+'}{hours:02}{rest // 60:02}" + (f"{rest % 60:02}" if rest % 60 else "")
