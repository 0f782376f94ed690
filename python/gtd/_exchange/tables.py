"""Tables of users: what each closure closes, and what elements are called; and the files that closures become."""

from __future__ import annotations

import csv
import io
from typing import Dict, Iterable, Iterator, List, NamedTuple, Sequence, Tuple

from gtd._fault import Fault
from gtd._program import MOST_ROWS
from gtd._record_set import Records

_PLACES = ["id", "element", "direction", "vehicles"]
_NAMES = ["element", "name"]
_RECORDS = ["element", "direction", "vehicles", "domain"]
_DOMAINS = ["id", "domain"]
_ACCEPTED = {
    "Element": "1 to 10 digits",
    "Direction": "positive, negative or both",
    "Vehicle": "vehicle types, as 0, 11;12 or !1",
}


class ClosedPlace(NamedTuple):
    """What a closure closes: three fields of a row of a record file."""

    element: str
    direction: str
    vehicles: str
    line: int
    """Of the table, from 1."""


class Closure(NamedTuple):
    """The time domains of an id."""

    id: str
    domains: Tuple[str, ...]


def read_places(data: bytes, file: str) -> Dict[str, List[ClosedPlace]]:
    """The places of each id, in the order of the table.

    Raises
    ------
    Fault
        ``'Text'``, ``'Header'``, ``'FieldCount'``, with the file and its line.
    """
    places: Dict[str, List[ClosedPlace]] = {}
    for line, (name, element, direction, vehicles) in _rows(data, _PLACES, file):
        places.setdefault(name, []).append(ClosedPlace(element, direction, vehicles, line))
    return places


def read_names(data: bytes, file: str) -> Dict[int, str]:
    """What elements are called.

    Raises
    ------
    Fault
        As for :func:`read_places`; also ``'Element'``, and ``'Repeated'`` for an element that has a name already.
    """
    names: Dict[int, str] = {}
    for line, (element, name) in _rows(data, _NAMES, file):
        if not (element.isascii() and element.isdigit() and len(element) <= 10):
            raise Fault("Element", file=file, line=line, note=_ACCEPTED["Element"])
        if int(element) in names:
            raise Fault("Repeated", file=file, line=line, note="one name of an element")
        names[int(element)] = name
    return names


def _rows(data: bytes, header: Sequence[str], file: str) -> Iterator[Tuple[int, List[str]]]:
    """The rows of a table, each with the line on which it begins. Empty lines are skipped."""
    try:
        text = data.decode("utf-8-sig")
    except UnicodeDecodeError as error:
        raise Fault("Text", file=file, line=data[: error.start].count(b"\n") + 1, note="UTF-8") from None
    rows = csv.reader(io.StringIO(text, newline=""), strict=True)
    line, is_header = 1, True
    try:
        for row in rows:
            if is_header and row != list(header):
                break
            if row and len(row) != len(header):
                raise Fault("FieldCount", file=file, line=line, note=f"{len(header)} fields")
            if row and not is_header:
                yield line, row
            line, is_header = rows.line_num + 1, False
    except csv.Error as error:
        raise Fault("FieldCount", file=file, line=line, note=str(error)) from None
    if is_header:
        raise Fault("Header", file=file, line=1, note=",".join(header))


def write_records(closures: Iterable[Closure], places: Dict[str, List[ClosedPlace]], file: str) -> bytes:
    """A record file of version 2: for each closure and each of its places a row for each of its domains.

    The library reads the result, so that a place that no record file can have is found here.

    Parameters
    ----------
    file : str
        The name of the table of places, for faults.

    Raises
    ------
    Fault
        ``'TooManyRows'``, ``'TooLarge'``; ``'Element'``, ``'Direction'`` or ``'Vehicle'`` of a place, with its line.
    """
    closed = [(place, domain) for one in closures for place in places[one.id] for domain in one.domains]
    if len(closed) > MOST_ROWS:
        raise Fault("TooManyRows", file=file, line=closed[MOST_ROWS][0].line, note=f"at most {MOST_ROWS:,} rows of closures")
    data = _table(_RECORDS, ([*place[:3], domain] for place, domain in closed))
    try:
        Records(data)
    except Fault as fault:
        line = None if fault.row is None else closed[fault.row - 1][0].line
        raise Fault(fault.kind, file=file, line=line, note=_ACCEPTED.get(fault.kind, fault.note)) from None
    return data


def write_domains(closures: Iterable[Closure]) -> bytes:
    """The table ``id,domain``, with a row for each domain."""
    return _table(_DOMAINS, ([one.id, domain] for one in closures for domain in one.domains))


def _table(header: Sequence[str], rows: Iterable[Sequence[str]]) -> bytes:
    out = io.StringIO(newline="")
    writer = csv.writer(out, lineterminator="\n")
    writer.writerow(header)
    writer.writerows(rows)
    return out.getvalue().encode()
