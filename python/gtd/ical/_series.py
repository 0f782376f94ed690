"""The events of one UID as time domains."""

from __future__ import annotations

from bisect import bisect_left, bisect_right
from collections import defaultdict
from datetime import date, datetime, timedelta
from typing import DefaultDict, FrozenSet, Iterable, Iterator, List, NamedTuple, Optional, Sequence, Tuple

from gtd._exchange.civil import DAY, LONGEST, LONGEST_DAYS, second_of_day
from gtd._exchange.texts import MOST_BASICS, DomainText, basic, difference, in_chunks, product, stretch, total
from gtd._fault import Fault
from gtd.ical._lines import ONCE, CalendarEvent, ContentLine, read_events
from gtd.ical._rules import Rule, fields_of, instances_of, may_begin, parse_rule
from gtd.ical._times import Choices, is_date, is_utc, parse_extent, parse_like_start, parse_time


class Closures(NamedTuple):
    """When the events with one UID take place."""

    id: str
    """The UID."""
    line: int
    """Of the first of its events."""
    domains: Tuple[str, ...]
    """Time domains, which hold in turn. None if all events are cancelled or taken out."""
    fault: Optional[Fault]
    """Why there are none, if the events are refused."""
    listed_until: Optional[date]
    """The rule goes on after this day, and its dates are listed before it. None if the domains are exact for all time."""


class _Series(NamedTuple):
    """An event that recurs, and the instances that are taken out."""

    rule: Rule
    start: datetime
    seconds: int
    removed: FrozenSet[datetime]
    last: Optional[datetime]
    """The moment after which the rule has no instance, if UNTIL or COUNT says so."""

    def stretches(self, moments: Iterable[datetime]) -> List[DomainText]:
        """The seconds of the instances at some moments."""
        return [stretch(moment, moment + timedelta(seconds=self.seconds), self.rule.line) for moment in moments]


_Texts = Tuple[List[DomainText], Optional[date]]


def closures(data: bytes, choices: Choices = Choices(), ids: Optional[Iterable[str]] = None) -> Iterator[Closures]:
    """When the events of a calendar take place, by their UIDs.

    Times are those of the civil clock of the roads. An event that recurs begins and ends at the same clock times on each of its
    days, also on those on which the clock is changed.

    Parameters
    ----------
    data : bytes
        The file.
    choices : Choices
        The zone of the roads, its names in the file, and the day before which dates are listed.
    ids : iterable of str, optional
        Only the events with these UIDs are judged.

    Yields
    ------
    Closures
        In the order in which UIDs come first; what is refused has its fault.

    Raises
    ------
    Fault
        ``'Text'``, ``'Line'``, ``'Nesting'``, ``'Method'``, with the line: the file is no calendar that is published.
    """
    wanted = None if ids is None else frozenset(ids)
    grouped: DefaultDict[str, List[CalendarEvent]] = defaultdict(list)
    for event in read_events(data):
        uid = event.first_of("UID")
        grouped["" if uid is None else uid.value].append(event)
    for name, events in grouped.items():
        if wanted is None or name in wanted:
            yield _closures_of(name, events, choices)


def _closures_of(name: str, events: Sequence[CalendarEvent], choices: Choices) -> Closures:
    try:
        texts, listed_until = _texts_of(events, choices)
    except Fault as fault:
        return Closures(name, events[0].line, (), fault, None)
    return Closures(name, events[0].line, tuple(part.text for part in texts), None, listed_until)


def _texts_of(events: Sequence[CalendarEvent], choices: Choices) -> _Texts:
    for event in events:
        _check_properties(event)
    masters = [event for event in events if event.first_of("RECURRENCE-ID") is None]
    if len(masters) != 1:
        line = masters[1].line if masters else events[0].line
        raise Fault("Repeated", line=line, note="one event without RECURRENCE-ID")
    if not masters[0].is_cancelled:
        parse_time(masters[0].start, masters[0].start.value, choices)  # first, for its fault
    changed = [event for event in events if event is not masters[0]]
    removed = _times_in(masters[0], "EXDATE", choices) + _changed_instances(changed, masters[0], choices)
    texts, listed_until = _master_texts(masters[0], frozenset(removed), choices)
    alone = [_single(event, choices) for event in changed if not event.is_cancelled]
    return texts + in_chunks(alone), listed_until


def _check_properties(event: CalendarEvent) -> None:
    for name in ("UID", "DTSTART"):
        if event.first_of(name) is None:
            raise Fault("Missing", line=event.line, note=name)
    for name in ONCE:
        if len(event.all_of(name)) > 1:
            raise Fault("Repeated", line=event.all_of(name)[1].number, note=f"{name} once")


def _times_in(event: CalendarEvent, name: str, choices: Choices) -> List[datetime]:
    """The moments of all lines of a property."""
    lines = event.all_of(name)
    return [parse_like_start(line, value, event, choices) for line in lines for value in line.value.split(",")]


def _changed_instances(changed: Sequence[CalendarEvent], master: CalendarEvent, choices: Choices) -> List[datetime]:
    """The instances in whose place other events are."""
    found: List[datetime] = []
    for event in changed:
        line = event.all_of("RECURRENCE-ID")[0]
        if "RANGE" in line.parameters:
            raise Fault("Range", line=line.number, note="a change of one instance")
        moment = parse_like_start(line, line.value, master, choices)
        if moment in found:
            raise Fault("Repeated", line=line.number, note="one change of an instance")
        found.append(moment)
    return found


def _single(event: CalendarEvent, choices: Choices) -> DomainText:
    start, seconds = parse_extent(event, choices)
    return stretch(start, start + timedelta(seconds=seconds), event.line)


def _master_texts(event: CalendarEvent, removed: FrozenSet[datetime], choices: Choices) -> _Texts:
    if event.is_cancelled:
        return [], None
    for rule in event.all_of("EXRULE"):
        raise Fault("Rule", line=rule.number, note="EXDATE in place of EXRULE")
    start, seconds = parse_extent(event, choices)
    line = event.first_of("RRULE")
    for recurring in [*([] if line is None else [line]), *event.all_of("RDATE")]:
        if is_utc(event.start.value):
            raise Fault("Zone", line=recurring.number, note="local times: those in UTC would move with the clock")
    more = sorted(set(_times_in(event, "RDATE", choices)) - removed - {start})
    alone = in_chunks([stretch(moment, moment + timedelta(seconds=seconds), event.line) for moment in more])
    if line is None:
        return ([] if start in removed else [_single(event, choices)]) + alone, None
    series = _series_of(line, start, seconds, removed, choices)
    texts, listed_until = _recurring_texts(series, choices)
    return texts + alone, listed_until


def _series_of(
    line: ContentLine, start: datetime, seconds: int, removed: FrozenSet[datetime], choices: Choices
) -> _Series:
    rule = parse_rule(line.value, line.number)
    if not may_begin(rule, start.date()) or instances_of(rule, start, start) != [start]:
        raise Fault("Start", line=line.number, note="DTSTART is the first instance of its rule")
    return _Series(rule, start, seconds, removed, _last_moment(rule, start, choices))


def _last_moment(rule: Rule, start: datetime, choices: Choices) -> Optional[datetime]:
    """The moment after which a rule has no instance, if it says so. COUNT may say it earlier."""
    if rule.until is None:
        return None if rule.most is None else start + timedelta(seconds=LONGEST)
    moment = parse_time(ContentLine(rule.line, "UNTIL", {}, rule.until), rule.until, choices)
    last = moment + timedelta(seconds=DAY - 1) if is_date(rule.until) else moment
    if last < start:
        raise Fault("Start", line=rule.line, note="an UNTIL that is not before DTSTART")
    if (last - start).total_seconds() > LONGEST:
        raise Fault("TooLong", line=rule.line, note=f"at most {LONGEST_DAYS:,} days from DTSTART to UNTIL")
    return last


def _recurring_texts(series: _Series, choices: Choices) -> _Texts:
    fields = fields_of(series.rule, series.start.date())
    row = None if fields is None else _by_rule(series, fields)
    if row is not None:
        return [row], None
    if series.last is None and choices.until is None:
        note = "a rule with UNTIL or COUNT, or a day before which its dates are listed"
        if fields is not None:
            note = f"fewer EXDATEs, of instances that overlap no other; or {note}"
        raise Fault("Rule" if fields is None else "TooMany", line=series.rule.line, note=note)
    return _by_dates(series, choices.until)


def _by_rule(series: _Series, fields: Sequence[str]) -> Optional[DomainText]:
    """The rule as one domain. None if it has too many basic domains, or takes out an instance that overlaps another.

    The first factor goes from the first instance to the end of the last one. That is exact: the start is an instance, so what an
    earlier day would hold from it on is within that instance's stretch; and so it is at the end.
    """
    rule, start, seconds = series.rule, series.start, series.seconds
    nearby = max([start, *series.removed]) + timedelta(seconds=seconds)
    found = instances_of(rule, start, series.last or nearby)
    _check_count(series, found)
    gone = [moment for moment in found if moment in series.removed]
    if _overlaps_another(gone, found, seconds):
        return None
    end = None if series.last is None else found[-1] + timedelta(seconds=seconds)
    starts = total([basic(field, second_of_day(start), seconds) for field in fields])
    row = difference(product([stretch(start, end, rule.line), starts]), series.stretches(gone))
    return row if row.basics <= MOST_BASICS else None


def _check_count(series: _Series, found: Sequence[datetime]) -> None:
    if series.rule.most is not None and len(found) < series.rule.most:
        raise Fault("TooLong", line=series.rule.line, note=f"at most {LONGEST_DAYS:,} days from DTSTART to the last instance")


def _overlaps_another(gone: Sequence[datetime], found: Sequence[datetime], seconds: int) -> bool:
    """Whether one of some instances overlaps another one of all, which are in order."""
    length = timedelta(seconds=seconds)
    for moment in gone:
        at = bisect_left(found, moment)
        if any(0 <= beside < len(found) and abs(found[beside] - moment) < length for beside in (at - 1, at + 1)):
            return True
    return False


def _by_dates(series: _Series, until: Optional[date]) -> _Texts:
    """The instances of a rule one by one, up to its own end or before a day."""
    rule, start = series.rule, series.start
    limit = None if until is None else datetime(until.year, until.month, until.day) - timedelta(seconds=1)
    last = min(moment for moment in (series.last, limit) if moment is not None)
    if (last - start).total_seconds() > LONGEST:
        raise Fault("TooLong", line=rule.line, note=f"at most {LONGEST_DAYS:,} days from DTSTART to the last date")
    whole = instances_of(rule, start, series.last or last)
    found = whole[: bisect_right(whole, last)]
    goes_on = series.last is None or len(found) < len(whole)
    if not goes_on:
        _check_count(series, found)
    texts = in_chunks(series.stretches(moment for moment in found if moment not in series.removed))
    return texts, until if goes_on else None
