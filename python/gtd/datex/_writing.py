"""Closed spans as a specification of validity."""

from __future__ import annotations

from datetime import datetime, timedelta
from typing import Iterable, List, NamedTuple, Optional, Tuple
from zoneinfo import ZoneInfo

from gtd._exchange.civil import DAY, Span, first_shown, is_first_twice, is_twice
from gtd._exchange.weekly import WeeklyRun, cut_at_midnight, split_long, weekly_runs
from gtd._fault import Fault
from gtd.datex._specification import NAMESPACE, SPECIFICATION

_SPACE = {2: NAMESPACE + "2/2_0", 3: NAMESPACE + "3/common"}
_DAYS = ["monday", "tuesday", "wednesday", "thursday", "friday", "saturday", "sunday"]
_TIMES_TYPE = ' xmlns:xsi="http://www.w3.org/2001/XMLSchema-instance" xsi:type="TimePeriodByHour"'


class _Form(NamedTuple):
    """In which version and with the offsets of which zone moments are written."""

    version: int
    zone: Optional[ZoneInfo]


def written(
    spans: Iterable[Tuple[datetime, datetime]],
    first: datetime,
    until: datetime,
    version: int = 3,
    zone: Optional[ZoneInfo] = None,
) -> str:
    """A ``validityTimeSpecification`` that is valid in exactly these spans, in weekly runs.

    Recurring spans are cut at midnight, so no time of day goes over it, and no reading of nights is left open.

    Parameters
    ----------
    spans : iterable of pairs of datetime
        Disjoint spans of the civil clock, in order, as :meth:`gtd.Domain.spans` lists them. A pair is a first second, and the
        first second after it.
    first, until : datetime
        The overall period; all spans are in it.
    version : {3, 2}
        Of DATEX II.
    zone : zoneinfo.ZoneInfo, optional
        Moments have its offsets. One that its clock passes over is written as the first second after that.

    Returns
    -------
    str
        An XML element, for a system that wraps it.

    Raises
    ------
    Fault
        ``'Never'``: there is no span; without a valid period, the whole overall period would be valid. ``'Twice'``: a bound of
        the overall period is a second that the zone's clock shows twice, and not the first one.
    ValueError
        The version is another one.
    """
    if version not in _SPACE:
        raise ValueError("the version is 2 or 3")
    long, short = split_long(spans)
    plain = [span for span in long if _has_plain_ends(span, zone)]
    cut = cut_at_midnight([*short, *(span for span in long if not _has_plain_ends(span, zone))])
    plain, cut = ([span for span in some if _is_shown(span, zone)] for some in (plain, cut))
    if not plain and not cut:
        raise Fault("Never", note="a domain that holds between the two days")
    form = _Form(version, zone)
    lines = [f'<{SPECIFICATION} xmlns="{_SPACE[version]}">']
    lines.append(f"  <overallStartTime>{_moment(first, zone)}</overallStartTime>")
    lines.append(f"  <overallEndTime>{_moment(until, zone)}</overallEndTime>")
    for run in sorted([*weekly_runs(plain, 0), *weekly_runs(cut, 0)], key=lambda run: (run.first, run.begin, run.last)):
        lines += ["  <validPeriod>", *_period(run, form), "  </validPeriod>"]
    return "\n".join([*lines, f"</{SPECIFICATION}>", ""])


def _is_shown(span: Span, zone: Optional[ZoneInfo]) -> bool:
    """Whether the zone's clock shows some second of a span."""
    return zone is None or first_shown(span[0], zone) < first_shown(span[1], zone)


def _has_plain_ends(span: Span, zone: Optional[ZoneInfo]) -> bool:
    """Whether both ends can be written with an offset: the clock shows them once, or twice from them on."""
    return zone is None or all(_is_plain(moment.replace(tzinfo=zone)) for moment in span)


def _is_plain(local: datetime) -> bool:
    return not is_twice(local) or is_first_twice(local)


def _moment(moment: datetime, zone: Optional[ZoneInfo]) -> str:
    if zone is None:
        return moment.isoformat()
    local = first_shown(moment, zone).replace(tzinfo=zone)
    if not _is_plain(local):
        raise Fault("Twice", note=f"a moment that the clock of {zone.key} shows once, not {moment.isoformat()}")
    return local.isoformat()


def _period(run: WeeklyRun, form: _Form) -> List[str]:
    if run.is_single and _has_plain_ends(run.span, form.zone):
        return _bounds(*run.span, form.zone)
    midnight = datetime(run.first.year, run.first.month, run.first.day)
    after = datetime(run.last.year, run.last.month, run.last.day) + timedelta(days=1)
    lines = _bounds(midnight, after, form.zone)
    if run.seconds < DAY:
        lines += [
            f"    <recurringTimePeriodOfDay{_TIMES_TYPE if form.version == 2 else ''}>",
            f"      <startTimeOfPeriod>{_clock_time(run.begin)}</startTimeOfPeriod>",
            f"      <endTimeOfPeriod>{_clock_time(run.begin + run.seconds)}</endTimeOfPeriod>",
            "    </recurringTimePeriodOfDay>",
        ]
    days = [f"      <applicableDay>{_DAYS[day]}</applicableDay>" for day in sorted(run.weekdays)]
    if len(days) < len(_DAYS) and not run.is_single:
        lines += ["    <recurringDayWeekMonthPeriod>", *days, "    </recurringDayWeekMonthPeriod>"]
    return lines


def _bounds(first: datetime, until: datetime, zone: Optional[ZoneInfo]) -> List[str]:
    ends = ("start", first), ("end", until)
    return [f"    <{name}OfPeriod>{_moment(moment, zone)}</{name}OfPeriod>" for name, moment in ends]


def _clock_time(seconds: int) -> str:
    return f"{seconds // 3600:02}:{seconds // 60 % 60:02}:{seconds % 60:02}"
