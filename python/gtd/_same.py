"""Whether two time domains, or two opening hours, have the same seconds."""

from __future__ import annotations

from datetime import datetime
from typing import NamedTuple, Optional, Union

from gtd._by_program import first_apart
from gtd._domain import Domain
from gtd._fault import Fault, in_domain
from gtd._moments import END_OF_WORDS, Moment, second_of

_LONGEST_HOURS = 100_000  # bytes; Linux takes words of at most 131,071


class Difference(NamedTuple):
    """A second that one of two domains has alone."""

    moment: datetime
    """The second."""
    side: str
    """Which of the two has it: ``'first'`` or ``'second'``."""


def same(
    first: Union[str, Domain], second: Union[str, Domain], hours: bool = False, from_: Optional[Moment] = None
) -> bool:
    """Whether two time domains have the same seconds.

    If no start of either gives a year, this is decided for all time. Otherwise the seconds from ``from_`` on and before
    2700-01-01 are compared.

    Parameters
    ----------
    first, second : str or Domain
        Time domains; or texts of opening hours, if ``hours`` is true.
    hours : bool
        Whether the texts are opening hours: the seconds at which they are open are compared.
    from_ : moment, optional
        From 1901 to 2199. Without it, 1901-01-01T00:00:00.

    Raises
    ------
    Fault
        The first text that is no domain, or no opening hours, with its first fault; or the moment is refused.

    Examples
    --------
    >>> import gtd
    >>> gtd.same("(h22){h8}", "(h22){h2}+(h0){h6}")
    True
    >>> gtd.same("Fr 22:00-06:00", "Fr 22:00-24:00; Sa 00:00-06:00", hours=True)
    True
    """
    return first_difference(first, second, hours, from_) is None


def first_difference(
    first: Union[str, Domain], second: Union[str, Domain], hours: bool = False, from_: Optional[Moment] = None
) -> Optional[Difference]:
    """The first second from ``from_`` on that one of two domains has alone, or None exactly if :func:`same` is true. The
    parameters and faults are those of :func:`same`.

    >>> import gtd
    >>> gtd.first_difference("(t2t3t4t5t6h8){h9}", "(h8){h9}", from_="2024-03-15T12:00:00")
    Difference(moment=datetime.datetime(2024, 3, 16, 8, 0), side='second')
    """
    words = (_hours_word(first), _hours_word(second)) if hours else (_domain_word(first), _domain_word(second))
    begin = None if from_ is None else second_of(from_, END_OF_WORDS)
    try:
        found = first_apart(*words, hours, begin)
    except Fault as fault:
        text = first if fault.note == "first" else second
        raise in_domain(fault, str(text), note=fault.note) from None
    return None if found is None else Difference(*found)


def _domain_word(domain: Union[str, Domain]) -> str:
    """The canonical text of a domain."""
    return (domain if isinstance(domain, Domain) else Domain(domain)).canon()


def _hours_word(text: Union[str, Domain]) -> str:
    """A text of opening hours as a word of a command line. What no word can hold becomes a byte that begins no token either."""
    if not isinstance(text, str):
        raise TypeError(f"opening hours are a str, not {type(text).__name__}")
    word = text.replace("\0", "?").encode("utf-8", "replace")
    if len(word) > _LONGEST_HOURS:
        raise ValueError(f"opening hours of more than {_LONGEST_HOURS} bytes")
    return word.decode()
