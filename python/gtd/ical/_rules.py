"""Recurrence rules (RFC 5545, 3.3.10): read strictly, and expressed as starts of a time domain where that is exact."""

from __future__ import annotations

import re
from calendar import isleap, monthrange
from datetime import date, datetime, timedelta
from itertools import islice
from typing import Any, Dict, Iterator, List, NamedTuple, Optional, Sequence, Tuple

from dateutil.rrule import DAILY, MONTHLY, WEEKLY, YEARLY, rrule, weekday

from gtd._exchange.civil import LONGEST
from gtd._fault import Fault

_FREQUENCIES = {"DAILY": DAILY, "WEEKLY": WEEKLY, "MONTHLY": MONTHLY, "YEARLY": YEARLY}
_WEEKDAYS = {"MO": 0, "TU": 1, "WE": 2, "TH": 3, "FR": 4, "SA": 5, "SU": 6}
_DAY = re.compile(r"([+-]?[1-9]\d?)?(MO|TU|WE|TH|FR|SA|SU)", re.ASCII)
_NUMBER = re.compile(r"[+-]?\d{1,6}", re.ASCII)
_RANGES = {
    "COUNT": (1, 999_999),
    "INTERVAL": (1, 999_999),
    "BYMONTH": (1, 12),
    "BYMONTHDAY": (-31, 31),
    "BYYEARDAY": (-366, 366),
    "BYSETPOS": (-366, 366),
}
_SINGLE = ("COUNT", "INTERVAL")
_MOST_OF_MONTH, _MOST_OF_YEAR = 5, 53  # of a weekday
_RuleDay = Tuple[int, int]  # which one of the month or year, or 0 for each; a weekday, Monday is 0


class Rule(NamedTuple):
    """A rule."""

    frequency: str
    numbers: Dict[str, List[int]]
    days: List[_RuleDay]
    until: Optional[str]
    """The value of UNTIL, as it is written."""
    week_start: int
    line: int

    def numbers_of(self, name: str) -> List[int]:
        """The numbers of a part; none if the rule does not have it."""
        return self.numbers.get(name, [])

    @property
    def most(self) -> Optional[int]:
        """How many instances it has, if COUNT says so."""
        return next(iter(self.numbers_of("COUNT")), None)


def parse_rule(text: str, line: int) -> Rule:
    """The rule of a text.

    Raises
    ------
    Fault
        ``'Rule'``: it has a part that is not read, or parts that the RFC forbids together or readers understand differently.
    """
    parts: Dict[str, str] = {}
    for part in text.split(";"):
        name, sign, value = part.partition("=")
        name = name.upper()
        if not sign or name in parts:
            raise Fault("Rule", line=line, note="each part once, as NAME=VALUE")
        parts[name] = value.upper()
    frequency, until = parts.pop("FREQ", ""), parts.pop("UNTIL", None)
    if frequency not in _FREQUENCIES:
        raise Fault("Rule", line=line, note=f"FREQ is {', '.join(_FREQUENCIES)}")
    days = [_parse_day(one, line) for one in parts.pop("BYDAY").split(",")] if "BYDAY" in parts else []
    week_start = _WEEKDAYS.get(parts.pop("WKST", "MO"), -1)
    numbers = {name: _parse_numbers(name, value, line) for name, value in parts.items()}
    if week_start < 0:
        raise Fault("Rule", line=line, note="WKST is a weekday")
    if until is not None and "COUNT" in numbers:
        raise Fault("Rule", line=line, note="UNTIL or COUNT")
    rule = Rule(frequency, numbers, days, until, week_start, line)
    _check_together(rule)
    return rule


def _parse_day(text: str, line: int) -> _RuleDay:
    found = _DAY.fullmatch(text)
    if found is None:
        raise Fault("Rule", line=line, note="BYDAY is weekdays, as MO, 1MO or -1FR")
    return int(found[1] or 0), _WEEKDAYS[found[2]]


def _parse_numbers(name: str, value: str, line: int) -> List[int]:
    if name not in _RANGES:
        accepted = ", ".join(["FREQ", "UNTIL", "WKST", "BYDAY", *_RANGES])
        raise Fault("Rule", line=line, note=f"the parts {accepted}")
    least, most = _RANGES[name]
    words = value.split(",")
    numbers = [int(word) if _NUMBER.fullmatch(word) else 0 for word in words]
    if not all(number and least <= number <= most for number in numbers) or (name in _SINGLE and len(words) > 1):
        raise Fault("Rule", line=line, note=f"{name} is {'one number' if name in _SINGLE else 'numbers'}, {least} to {most}")
    return numbers


def _check_together(rule: Rule) -> None:
    """Refuse what RFC 5545 forbids together, what takes long, and what dateutil and libical read differently."""
    is_monthly, is_yearly = rule.frequency == "MONTHLY", rule.frequency == "YEARLY"
    is_nth = [nth != 0 for nth, _ in rule.days]
    month_days = bool(rule.numbers_of("BYMONTHDAY"))
    most_nth = _MOST_OF_MONTH if is_monthly or rule.numbers_of("BYMONTH") else _MOST_OF_YEAR
    is_refused = (
        (any(is_nth) and not is_monthly and not is_yearly)
        or any(abs(nth) > most_nth for nth, _ in rule.days)
        or (any(is_nth) and not all(is_nth))
        or (bool(rule.numbers_of("BYYEARDAY")) and not is_yearly)
        or (month_days and rule.frequency == "WEEKLY")
        or (month_days and is_yearly and not rule.numbers_of("BYMONTH"))
        or (bool(rule.numbers_of("BYSETPOS")) and not is_monthly and not is_yearly)
    )
    if is_refused:
        raise Fault("Rule", line=rule.line, note=f"parts that go with FREQ={rule.frequency} and with each other")


def fields_of(rule: Rule, start: date) -> Optional[List[str]]:
    """The fields, down to the day, of starts on exactly the rule's days, or None if no such fields are exact.

    An empty text is every day. The first and the last day of the rule are left aside.
    """
    month_days, days = rule.numbers_of("BYMONTHDAY"), rule.days
    if rule.numbers_of("INTERVAL") not in ([], [1]) or rule.numbers_of("BYYEARDAY") or any(day < 0 for day in month_days):
        return None
    months = rule.numbers_of("BYMONTH")
    is_within_months = rule.frequency == "MONTHLY" or (rule.frequency == "YEARLY" and bool(months))
    if rule.numbers_of("BYSETPOS"):
        is_one_month = rule.frequency == "MONTHLY" or len(set(months)) == 1
        if not is_within_months or not is_one_month or month_days or len(days) != 1 or days[0][0]:
            return None
        days = [(nth, days[0][1]) for nth in rule.numbers_of("BYSETPOS")]
    if any(nth and (not is_within_months or not 1 <= abs(nth) <= _MOST_OF_MONTH) for nth, _ in days):
        return None
    if not month_days and not days:
        if rule.frequency == "WEEKLY":
            days = [(0, start.weekday())]
        elif rule.frequency in ("MONTHLY", "YEARLY"):
            month_days = [start.day]
            months = months or ([start.month] if rule.frequency == "YEARLY" else [])
    in_months = [f"M{month}" for month in sorted(set(months))]
    return _each_with_each(in_months, [f"d{day}" for day in sorted(set(month_days))], _weekday_fields(days))


def _weekday_fields(days: Sequence[_RuleDay]) -> List[str]:
    plain = sorted({(day + 1) % 7 + 1 for nth, day in days if not nth})
    nths = sorted({("f" if nth > 0 else "l") + f"{abs(nth)}{(day + 1) % 7 + 1}" for nth, day in days if nth})
    return nths or ([] if len(plain) in (0, 7) else ["".join(f"t{day}" for day in plain)])


def _each_with_each(*kinds: Sequence[str]) -> List[str]:
    texts = [""]
    for kind in kinds:
        texts = [text + one for text in texts for one in kind] if kind else texts
    return texts


def may_begin(rule: Rule, day: date) -> bool:
    """Whether a day meets each part of a rule by itself: otherwise its first instance could be looked for in vain."""
    days_of_month, days_of_year = monthrange(day.year, day.month)[1], 365 + isleap(day.year)
    day_of_year = day.timetuple().tm_yday
    met_by = {
        "BYMONTH": {day.month},
        "BYMONTHDAY": {day.day, day.day - days_of_month - 1},
        "BYYEARDAY": {day_of_year, day_of_year - days_of_year - 1},
    }
    if any(rule.numbers_of(name) and not values.intersection(rule.numbers_of(name)) for name, values in met_by.items()):
        return False
    return not rule.days or any(number == day.weekday() for _, number in rule.days)


def instances_of(rule: Rule, start: datetime, last: datetime) -> List[datetime]:
    """The instances from the start up to and with a moment, by dateutil; none after 36,600 days."""
    days = [weekday(day, nth or None) for nth, day in rule.days]
    by: Dict[str, Any] = {name.lower(): values for name, values in rule.numbers.items() if name not in _SINGLE}
    found: Iterator[datetime] = iter(
        rrule(
            _FREQUENCIES[rule.frequency],
            dtstart=start,
            until=min(last, start + timedelta(seconds=LONGEST)),
            interval=(rule.numbers_of("INTERVAL") or [1])[0],
            wkst=weekday(rule.week_start),
            byweekday=days or None,
            **by,
        )
    )
    return list(found if rule.most is None else islice(found, rule.most))
