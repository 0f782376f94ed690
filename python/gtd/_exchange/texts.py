"""Texts of time domains, put together from stretches."""

from __future__ import annotations

from datetime import datetime
from typing import Iterable, List, NamedTuple, Optional, Sequence

from gtd._exchange.civil import DAY, LONGEST, LONGEST_DAYS, second_of_day
from gtd._fault import Fault

MOST_BASICS = 128  # basic domains of a time domain
_ITEM, _PRODUCT, _SUM = range(3)


class DomainText(NamedTuple):
    """A time domain, or a part of one."""

    text: str
    rank: int = _ITEM
    """How loosely it is joined: an item, a product, a sum or difference."""

    @property
    def basics(self) -> int:
        """How many basic domains it has."""
        return self.text.count("(")


def _in_product(part: DomainText) -> str:
    return f"[{part.text}]" if part.rank == _SUM else part.text


def product(parts: Iterable[DomainText]) -> DomainText:
    """The seconds that all of them contain; there is at least one."""
    some = list(parts)
    return some[0] if len(some) == 1 else DomainText("*".join(map(_in_product, some)), _PRODUCT)


def total(parts: Iterable[DomainText]) -> DomainText:
    """The seconds that one of them contains; there is at least one."""
    some = list(parts)
    return some[0] if len(some) == 1 else DomainText("+".join(part.text for part in some), _SUM)


def difference(left: DomainText, right: Sequence[DomainText]) -> DomainText:
    """The seconds of the first that none of the others contains."""
    return DomainText("-".join([left.text, *map(_in_product, right)]), _SUM) if right else left


def in_chunks(parts: Sequence[DomainText]) -> List[DomainText]:
    """Sums of basic domains, each as large as a domain may be."""
    return [total(parts[at : at + MOST_BASICS]) for at in range(0, len(parts), MOST_BASICS)]


def basic(days: str, begin: int, seconds: int) -> DomainText:
    """The stretches that begin at a second of the days with these fields, and last so many seconds.

    An empty text is every day. ``begin`` counts from midnight.
    """
    has_day = any(letter in days for letter in "tfld")
    return DomainText(f"({days}{_clock_fields(begin, not has_day)}){_duration(seconds)}")


def _clock_fields(second: int, needs_hour: bool) -> str:
    """The fields of a clock time. Trailing zeros are left out, and so is the hour of midnight after a day."""
    fields = [f"h{second // 3600}", f"m{second // 60 % 60}", f"s{second % 60}"]
    while len(fields) > needs_hour and int(fields[-1][1:]) == 0:
        fields.pop()
    return "".join(fields)


def _duration(seconds: int) -> str:
    parts = (("d", seconds // DAY), ("h", seconds // 3600 % 24), ("m", seconds // 60 % 60), ("s", seconds % 60))
    return "{" + "".join(f"{letter}{number}" for letter, number in parts if number) + "}"


def stretch(first: datetime, until: Optional[datetime], line: int) -> DomainText:
    """The seconds from one civil second up to another, or for 100 years.

    Raises
    ------
    Fault
        ``'Order'``, ``'TooLong'``, at the line.
    """
    days = f"y{first.year:04}M{first.month}d{first.day}"
    if until is None:
        return DomainText(f"({days}{_clock_fields(second_of_day(first), False)})" + "{y100}")
    seconds = int((until - first).total_seconds())
    if seconds <= 0:
        raise Fault("Order", line=line, note="an end after the start")
    if seconds > LONGEST:
        raise Fault("TooLong", line=line, note=f"at most {LONGEST_DAYS:,} days")
    return basic(days, second_of_day(first), seconds)


def whole_months(numbers: Iterable[int]) -> Optional[DomainText]:
    """Months, each run of them as one stretch, over New Year too. None for all months, or if none is given."""
    held = set(numbers)
    if len(held) in (0, 12):
        return None
    runs: List[DomainText] = []
    for first in sorted(month for month in held if (month - 2) % 12 + 1 not in held):
        count = next(n for n in range(1, 13) if (first + n - 1) % 12 + 1 not in held)
        runs.append(DomainText(f"(M{first}){{M{count}}}"))
    return total(runs)
