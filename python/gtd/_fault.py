"""What the program refuses, as one class of exceptions."""

from __future__ import annotations

import re
from typing import Any, Callable, Dict, Optional, Tuple

_LINE = re.compile(r"fault (?:row (?P<row>\d+) )?(?P<kind>\w+(?: \w+)?)(?: at (?P<place>\d+))?")
_HOURS = re.compile(r"gtdesk: TEXT: (?P<kind>\w+) at (?P<place>\d+)")
_OF_TWO = re.compile(r"gtdesk: (?P<side>FIRST|SECOND): (?P<kind>\w+) at (?P<place>\d+)")  # the fault of one of two texts
_OF_ROWS = ("FieldCount", "Element", "Direction", "Vehicle")
_SHOWN = 100  # characters of a text that a message shows


class Fault(ValueError):
    """A text, date, file or row that the program refuses.

    Attributes
    ----------
    kind : str
        As in the program's line: ``'FieldRange'``, ``'moment Range'``, ``'horizon Empty'``, ``'Header'``,
        ``'Direction'``, ``'Domain FieldRange'``; of opening hours ``'hours Unsupported'``. docs/COMMANDS.md, docs/LANGUAGE.md,
        docs/FILES.md, docs/HOURS.md, docs/DATEX.md and docs/ICAL.md list them all.
    place : int or None
        For a time domain: the number of bytes of the domain's text before the fault.
    row : int or None
        For a record file, frame or column: the row, from 1. The header and empty lines are not counted.
    text : str or None
        The domain, or the row.
    caret : int or None
        The place, counted in characters of ``text``.
    file, line : str and int, or None
        For the rows of :mod:`gtd.country`, and what :mod:`gtd.datex` and :mod:`gtd.ical` read: the file as it was named, if it
        was, and the line in it, from 1.
    note : str or None
        Anything else there is to say, such as what is accepted there.
    """

    def __init__(
        self,
        kind: str,
        *,
        place: Optional[int] = None,
        row: Optional[int] = None,
        text: Optional[str] = None,
        caret: Optional[int] = None,
        file: Optional[str] = None,
        line: Optional[int] = None,
        note: Optional[str] = None,
    ) -> None:
        self.kind, self.place, self.row, self.text, self.caret = kind, place, row, text, caret
        self.file, self.line, self.note = file, line, note
        super().__init__(self._message())

    @property
    def expected(self) -> Optional[str]:
        """What is accepted at the place of the fault of a domain, of opening hours or of a row, as ``'0 to 23 for an hour'``. The
        program ``gtdesk`` says it when it is asked for; None where there is no such program, or nothing to say.
        """
        from gtd._desk import expected_of  # which needs this module

        is_row = self.kind in _OF_ROWS or self.kind.startswith("Domain ")
        if self.text is None or (self.place is None and not is_row):
            return None
        try:
            return expected_of(self.kind, self.text, is_row)
        except (OSError, RuntimeError, Fault):
            return None

    def _message(self) -> str:
        """The fault in words; below it the text, and a caret below the place."""
        where = [] if self.file is None else [self.file]
        where += [] if self.line is None else [f"line {self.line}"]
        where += [] if self.row is None else [f"row {self.row}"]
        said = self.kind + ("" if self.place is None else f" at {self.place}")
        said += f" ({self.note})" if self.note else ""
        message = f"{', '.join(where)}: {said}" if where else said
        if self.text is None:
            return message
        first = 0 if self.caret is None else max(0, self.caret - _SHOWN // 2)
        shown = self.text[first : first + _SHOWN]
        shown = "".join(sign if sign.isprintable() else "\N{REPLACEMENT CHARACTER}" for sign in shown)
        front = "..." if first else ""
        message += f"\n  {front}{shown}{'...' if first + _SHOWN < len(self.text) else ''}"
        if self.caret is not None:
            message += "\n  " + " " * (len(front) + self.caret - first) + "^"
        return message

    def __reduce__(self) -> Tuple[Callable[[Dict[str, Any]], Fault], Tuple[Dict[str, Any]]]:
        return _made, (dict(self.__dict__),)


def _made(parts: Dict[str, Any]) -> Fault:
    return Fault(**parts)


def read_fault(line: str) -> Optional[Fault]:
    """The fault that a line of the program's standard error reports, or None if it reports none."""
    found = _HOURS.fullmatch(line)
    if found:
        # No table of holidays is handed on from here, so that a holiday is refused as the library refuses it.
        kind = found["kind"].replace("Holidays", "Unsupported")
        return Fault(f"hours {kind}", place=int(found["place"]))
    of_two = _OF_TWO.fullmatch(line)
    if of_two:
        return Fault(of_two["kind"], place=int(of_two["place"]), note=of_two["side"].lower())
    found = _LINE.fullmatch(line)
    if not found:
        return None
    row, place = found["row"], found["place"]
    return Fault(found["kind"], place=None if place is None else int(place), row=None if row is None else int(row))


def in_domain(fault: Fault, text: str, row: Optional[int] = None, note: Optional[str] = None) -> Fault:
    """The same fault, with the domain's text."""
    caret = None
    if fault.place is not None:
        caret = len(text.encode("utf-8", "replace")[: fault.place].decode("utf-8", "ignore"))
    return Fault(fault.kind, place=fault.place, text=text, caret=caret, row=row, note=note)


def in_row(
    fault: Fault, row: bytes, number: Optional[int], *, file: Optional[str] = None, line: Optional[int] = None
) -> Fault:
    """The same fault, with the row's text and number. The fields before a faulty domain were read, so they hold no comma."""
    caret = None
    if fault.place is not None:
        caret = len(row[: _begin_in(row, fault.place)].decode("utf-8", "replace"))
    text = row.decode("utf-8", "replace")
    return Fault(fault.kind, place=fault.place, row=number, text=text, caret=caret, file=file, line=line)


def _begin_in(row: bytes, place: int) -> int:
    """Where in a row the byte ``place`` of its fourth field is; quotes around the field are not part of it."""
    at = -1
    for _ in range(3):
        at = row.find(b",", at + 1)
    at, quoted = at + 1, False
    if row[at : at + 1] == b'"':
        at, quoted = at + 1, True
    while place and at < len(row):
        if quoted and row[at : at + 1] == b'"':
            at, quoted = at + 1, row[at + 1 : at + 2] == b'"'
            if not quoted:
                continue
        at, place = at + 1, place - 1
    return at
