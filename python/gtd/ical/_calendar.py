"""Closed spans as a calendar: events that recur weekly where the spans do, and single ones."""

from __future__ import annotations

import re
from datetime import datetime, timezone
from typing import Iterable, Iterator, List, NamedTuple, Optional, Sequence
from zoneinfo import ZoneInfo

from gtd._exchange.civil import Span, first_shown, is_first_twice, is_twice
from gtd._exchange.weekly import WeeklyRun, weekly_runs
from gtd._fault import Fault
from gtd.ical._zones import write_zone

HOST = "gtd.invalid"
_WEEKDAYS = ["MO", "TU", "WE", "TH", "FR", "SA", "SU"]
_MOST_MISSING = 3  # weeks in a row without a span that EXDATE takes out of a rule; more begin another rule
_LONGEST_LINE = 75  # bytes
_HOST = re.compile(r"[A-Za-z0-9.-]+", re.ASCII)
_STAMP = "%Y%m%dT%H%M%SZ"


class Closed(NamedTuple):
    """When something is closed."""

    name: str
    """The first part of UIDs: the same for the same thing from release to release."""
    summary: str
    """What people read."""
    spans: Sequence[Span]
    """Disjoint spans of the civil clock, in order."""


class _Form(NamedTuple):
    """How events are written."""

    stamp: datetime
    zone: Optional[ZoneInfo]
    host: str


def calendar(
    closed: Iterable[Closed], title: str, stamp: datetime, zone: Optional[ZoneInfo] = None, host: str = HOST
) -> bytes:
    """A calendar with exactly these spans (RFC 5545).

    Spans that come week by week are one event with a rule. An event's UID is made of the name, its first second, its length and
    the host: it stays the same as long as the spans are listed from the same day. With a zone, a span in which its clock is
    changed is an event of its own; no closed second is missed, and a span with an end among the seconds that the clock shows
    twice may be longer by these.

    Parameters
    ----------
    closed : iterable of Closed
        Each has another name.
    title : str
        The calendar's name.
    stamp : datetime
        When it is made: with a zone, or in UTC.
    zone : zoneinfo.ZoneInfo, optional
        The zone of the roads. Without one, times are those of the clock wherever the calendar is read.
    host : str
        What UIDs end in: the publisher's domain name.

    Returns
    -------
    bytes
        In UTF-8, with lines that end in CR LF. Without any span it has no event.

    Raises
    ------
    Fault
        ``'Text'``: a title, name or summary with control characters.
    ValueError
        The host is no domain name.
    """
    if not _HOST.fullmatch(host):
        raise ValueError(f"a host has letters, digits, dots and hyphens, not {host!r}")
    some = list(closed)
    form = _Form(stamp.astimezone(timezone.utc) if stamp.tzinfo else stamp, zone, host)
    lines = ["BEGIN:VCALENDAR", "VERSION:2.0", "PRODID:-//gtd//closures//EN", f"X-WR-CALNAME:{_text(title)}"]
    ends = [moment for one in some for span in (one.spans[:1], one.spans[-1:]) for pair in span for moment in pair]
    if zone is not None and ends:
        lines += write_zone(zone, min(ends), max(ends))
    for one in some:
        for run in _event_runs(one.spans, zone):
            lines += _event(one, run, form)
    lines.append("END:VCALENDAR")
    return b"".join(map(_folded, lines))


def _event_runs(spans: Sequence[Span], zone: Optional[ZoneInfo]) -> Iterator[WeeklyRun]:
    """Weekly runs. A span in which the clock is changed is alone, since all instances of a rule have the same real length."""
    if zone is None:
        yield from weekly_runs(spans, _MOST_MISSING)
        return
    steady = [span for span in spans if _is_steady(span, zone)]
    yield from weekly_runs(steady, _MOST_MISSING)
    for first, until in spans:
        shown = first_shown(first, zone), first_shown(until, zone)
        if not _is_steady((first, until), zone) and shown[0] < shown[1]:
            yield from weekly_runs([shown], 0)


def _is_steady(span: Span, zone: ZoneInfo) -> bool:
    """Whether both ends have one offset, and the clock shows each of them once."""
    first, until = (moment.replace(tzinfo=zone) for moment in span)
    if first.utcoffset() != until.utcoffset() or is_twice(first) or is_twice(until):
        return False
    return all(first_shown(moment, zone) == moment for moment in span)


def _event(closed: Closed, run: WeeklyRun, form: _Form) -> List[str]:
    begin, until = run.span
    lines = [
        "BEGIN:VEVENT",
        f"UID:{_text(closed.name)}-{begin:%Y%m%dT%H%M%S}-{run.seconds}@{form.host}",
        f"DTSTAMP:{form.stamp.strftime(_STAMP)}",
        f"DTSTART{_time(begin, form.zone, is_end=False)}",
        f"DTEND{_time(until, form.zone, is_end=True)}",
    ]
    if not run.is_single:
        # COUNT and not UNTIL: with a zone, UNTIL is in UTC, and some readers then lose an instance after a change of the clock.
        is_daily = len(run.weekdays) == len(_WEEKDAYS)
        days = "" if is_daily else ";BYDAY=" + ",".join(_WEEKDAYS[day] for day in sorted(run.weekdays))
        lines.append(f"RRULE:FREQ={'DAILY' if is_daily else 'WEEKLY'}{days};COUNT={run.date_count}")
    for day in run.missing:
        missing = datetime(day.year, day.month, day.day, begin.hour, begin.minute, begin.second)
        lines.append(f"EXDATE{_time(missing, form.zone, is_end=False)}")
    return [*lines, f"SUMMARY:{_text(closed.summary)}", "TRANSP:TRANSPARENT", "END:VEVENT"]


def _time(moment: datetime, zone: Optional[ZoneInfo], is_end: bool) -> str:
    """A time with its parameters. One that the clock shows twice is in UTC, since readers differ.

    It is the first pass or, as an end, the second, so that no closed second is missed; the first of those seconds ends exactly
    what comes before them.
    """
    if zone is None:
        return f":{moment:%Y%m%dT%H%M%S}"
    local = moment.replace(tzinfo=zone)
    if not is_twice(local):
        return f";TZID={zone.key}:{moment:%Y%m%dT%H%M%S}"
    fold = int(is_end and not is_first_twice(local))
    return ":" + local.replace(fold=fold).astimezone(timezone.utc).strftime(_STAMP)


def _text(text: str) -> str:
    """A value of text, with what has a meaning in it escaped (RFC 5545, 3.3.11)."""
    text = text.replace("\r\n", "\n").replace("\r", "\n")
    if any((sign < " " and sign not in "\n\t") or sign == "\x7f" for sign in text):
        raise Fault("Text", text=text, note="no control characters")
    for sign in "\\;,":
        text = text.replace(sign, "\\" + sign)
    return text.replace("\n", "\\n")


def _folded(line: str) -> bytes:
    """A line, in pieces that are short enough and cut no character."""
    pieces: List[bytes] = []
    piece = b""
    for sign in line:
        coded = sign.encode("utf-8", "replace")
        if len(piece) + len(coded) > _LONGEST_LINE:
            pieces.append(piece)
            piece = b" "
        piece += coded
    return b"\r\n".join([*pieces, piece]) + b"\r\n"
