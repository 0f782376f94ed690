"""Content lines and events of a calendar (RFC 5545, 3.1 and 3.6)."""

from __future__ import annotations

import re
from typing import Dict, Iterator, List, NamedTuple, Optional, Tuple

from gtd._fault import Fault

_LINE = re.compile(
    r'([A-Za-z0-9-]+)((?:;[A-Za-z0-9-]+=(?:"[^"]*"|[^";:,]*)(?:,(?:"[^"]*"|[^";:,]*))*)*):(.*)', re.ASCII | re.DOTALL
)
_PARAMETER = re.compile(r';([A-Za-z0-9-]+)=((?:"[^"]*"|[^";:,]*)(?:,(?:"[^"]*"|[^";:,]*))*)')
_CALENDAR, _EVENT = "VCALENDAR", "VEVENT"
_PUBLISHED = ("PUBLISH", "REQUEST")
ONCE = ("UID", "DTSTART", "DTEND", "DURATION", "RRULE", "RECURRENCE-ID", "STATUS")
_OFTEN = ("EXDATE", "RDATE", "EXRULE")


class ContentLine(NamedTuple):
    """A content line."""

    number: int
    """The line of the file on which it begins, from 1."""
    name: str
    parameters: Dict[str, str]
    value: str


class CalendarEvent(NamedTuple):
    """An event: the properties that say when it is."""

    line: int
    properties: Dict[str, List[ContentLine]]

    def all_of(self, name: str) -> List[ContentLine]:
        """The lines of a property."""
        return self.properties.get(name, [])

    def first_of(self, name: str) -> Optional[ContentLine]:
        """The first line of a property, if there is one."""
        return self.properties[name][0] if name in self.properties else None

    @property
    def start(self) -> ContentLine:
        """The line of DTSTART; :func:`gtd.ical.closures` refuses events without one first."""
        return self.properties["DTSTART"][0]

    @property
    def is_cancelled(self) -> bool:
        """Whether it is not held."""
        status = self.first_of("STATUS")
        return status is not None and status.value.upper() == "CANCELLED"


def read_events(data: bytes) -> Iterator[CalendarEvent]:
    """The events of a file. Other components, and those within events, are passed over.

    Raises
    ------
    Fault
        ``'Text'``, ``'Line'``, ``'Nesting'``, ``'Method'``, with the line: the file is no calendar that is published.
    """
    opened: List[str] = []
    event = CalendarEvent(0, {})
    number = 1
    for line in _content_lines(data):
        number, value = line.number, line.value.upper()
        if line.name == "BEGIN":
            _check_begin(opened, value, number)
            opened.append(value)
            event = CalendarEvent(number, {}) if value == _EVENT else event
        elif line.name == "END":
            if not opened or opened.pop() != value:
                raise Fault("Nesting", line=number, note="END of what was begun last")
            if value == _EVENT:
                yield event
        elif not opened:
            raise Fault("Nesting", line=number, note=f"BEGIN:{_CALENDAR} first")
        elif opened == [_CALENDAR] and line.name == "METHOD" and value not in _PUBLISHED:
            raise Fault("Method", line=number, note=" or ".join(_PUBLISHED))
        elif opened[-1] == _EVENT and line.name in ONCE + _OFTEN:
            event.properties.setdefault(line.name, []).append(line)
    if opened:
        raise Fault("Nesting", line=number, note=f"END:{opened[-1]}")


def _check_begin(opened: List[str], value: str, number: int) -> None:
    if (value == _CALENDAR) == bool(opened):
        raise Fault("Nesting", line=number, note=f"BEGIN:{_CALENDAR} first, and once")
    if value == _EVENT and opened != [_CALENDAR]:
        raise Fault("Nesting", line=number, note=f"{_EVENT} in {_CALENDAR}")


def _content_lines(data: bytes) -> Iterator[ContentLine]:
    """The content lines, unfolded."""
    try:
        text = data.decode("utf-8-sig")
    except UnicodeDecodeError as error:
        raise Fault("Text", line=data[: error.start].count(b"\n") + 1, note="UTF-8") from None
    for number, line in _unfolded(text):
        found = _LINE.fullmatch(line)
        if found is None:
            raise Fault("Line", line=number, note="NAME;PARAMETER=VALUE:VALUE")
        parameters = {name.upper(): value.strip('"') for name, value in _PARAMETER.findall(found[2])}
        yield ContentLine(number, found[1].upper(), parameters, found[3])


def _unfolded(text: str) -> Iterator[Tuple[int, str]]:
    """Each line with its number, joined with those that go on with it. Empty lines are skipped."""
    pieces: List[str] = []
    begun = 0
    for number, line in enumerate(text.split("\n"), 1):
        line = line[:-1] if line.endswith("\r") else line
        if line[:1] in (" ", "\t") and pieces:
            pieces.append(line[1:])
        elif line:
            if pieces:
                yield begun, "".join(pieces)
            pieces, begun = [line], number
    if pieces:
        yield begun, "".join(pieces)
