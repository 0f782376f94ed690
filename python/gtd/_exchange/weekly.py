"""Spans as weekly runs: what calendars and DATEX II can express of a list of closed spans."""

from __future__ import annotations

from collections import defaultdict
from datetime import date, datetime, timedelta
from typing import DefaultDict, Dict, FrozenSet, Iterable, List, NamedTuple, Sequence, Tuple

from gtd._exchange.civil import DAY, Span, midnight_of, second_of_day

_WEEK = timedelta(days=7)


class WeeklyRun(NamedTuple):
    """Spans of one length that begin at one clock time, on some weekdays from the first date to the last."""

    first: date
    last: date
    weekdays: FrozenSet[int]
    """Monday is 0."""
    begin: int
    """The second of the day at which each span begins."""
    seconds: int
    """How long each span is."""
    missing: Tuple[date, ...]
    """Dates of these weekdays in between on which no span begins."""

    @property
    def is_single(self) -> bool:
        """Whether the run is one span."""
        return self.first == self.last

    @property
    def span(self) -> Span:
        """The first of its spans."""
        begin = datetime(self.first.year, self.first.month, self.first.day) + timedelta(seconds=self.begin)
        return begin, begin + timedelta(seconds=self.seconds)

    @property
    def date_count(self) -> int:
        """How many dates of its weekdays it has, with the missing ones."""
        return len(_dates_between(self.first, self.last, self.weekdays))


def _dates_between(first: date, last: date, weekdays: FrozenSet[int]) -> List[date]:
    days = (first + timedelta(days=n) for n in range((last - first).days + 1))
    return [day for day in days if day.weekday() in weekdays]


def weekly_runs(spans: Iterable[Span], most_missing: int) -> List[WeeklyRun]:
    """Runs with exactly these spans, in which at most so many weeks in a row lack a span of a weekday."""
    groups: DefaultDict[Tuple[int, int], List[date]] = defaultdict(list)
    for first, until in spans:
        groups[second_of_day(first), int((until - first).total_seconds())].append(first.date())
    found = [run for key, dates in groups.items() for run in _runs_of(key, dates, most_missing)]
    return sorted(found, key=lambda run: (run.first, run.begin, run.seconds, run.last))


def _runs_of(key: Tuple[int, int], dates: Sequence[date], most_missing: int) -> List[WeeklyRun]:
    """Runs of spans with one clock time and length. Weekdays that begin and end within a week of each other are one run."""
    by_weekday: Dict[int, List[date]] = defaultdict(list)
    for day in sorted(dates):
        by_weekday[day.weekday()].append(day)
    pieces = sorted(piece for days in by_weekday.values() for piece in _pieces(days, most_missing))
    joined: List[List[List[date]]] = []
    recent = 0  # runs before this one began a week or more ago, so no later piece fits them
    for piece in pieces:
        while recent < len(joined) and piece[0] - joined[recent][0][0] >= _WEEK:
            recent += 1
        fits = (run for run in joined[recent:] if all(_is_beside(piece, other) for other in run))
        run = next(fits, None)
        if run is None:
            joined.append([piece])
        else:
            run.append(piece)
    return [_run(key, [day for piece in run for day in piece]) for run in joined]


def _pieces(days: Sequence[date], most_missing: int) -> List[List[date]]:
    """The dates of one weekday, cut where too many weeks lack it."""
    pieces: List[List[date]] = []
    for day in days:
        if pieces and day - pieces[-1][-1] <= _WEEK * (most_missing + 1):
            pieces[-1].append(day)
        else:
            pieces.append([day])
    return pieces


def _is_beside(piece: Sequence[date], other: Sequence[date]) -> bool:
    return abs(piece[0] - other[0]) < _WEEK and abs(piece[-1] - other[-1]) < _WEEK


def _run(key: Tuple[int, int], days: Sequence[date]) -> WeeklyRun:
    weekdays = frozenset(day.weekday() for day in days)
    held = set(days)
    missing = tuple(day for day in _dates_between(min(days), max(days), weekdays) if day not in held)
    return WeeklyRun(min(days), max(days), weekdays, *key, missing)


def split_long(spans: Iterable[Span]) -> Tuple[List[Span], List[Span]]:
    """The spans of more than a day that do not recur week by week, and all others."""
    some = list(spans)
    alone = {run.span for run in weekly_runs(some, 0) if run.is_single and run.seconds > DAY}
    return [span for span in some if span in alone], [span for span in some if span not in alone]


def cut_at_midnight(spans: Iterable[Span]) -> List[Span]:
    """The same seconds, in spans within a day."""
    parts: List[Span] = []
    for first, until in spans:
        while first < until:
            midnight = midnight_of(first) + timedelta(days=1)
            parts.append((first, min(midnight, until)))
            first = midnight
    return parts
