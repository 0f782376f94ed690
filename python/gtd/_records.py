"""Record files, as pandas knows them."""

from __future__ import annotations

import io
import tempfile
from typing import IO, List, Optional, Tuple

import numpy
import pandas

from gtd._cutting import HEADER, Beyond, Refused, count, cut, fault_of, migrate_lines, sort_rows, texts_of
from gtd._fault import Fault
from gtd._library import load
from gtd._moments import DAY, Day, Seconds, day, day_of, horizon
from gtd._program import run
from gtd._questions import Place, vehicle_of
from gtd._reading import RecordsLike, as_bytes, check_last, engine_of, is_large, number, read_schedule, with_row

_FIRST_YEAR, _LAST_YEAR = 1901, 2199  # of tables
_CLOSES = pandas.CategoricalDtype(["positive", "negative", "both"])


def schedule(records: RecordsLike, first: Day, until: Day, vehicle: int) -> pandas.DataFrame:
    """When each road element is open.

    Parameters
    ----------
    records : str, os.PathLike, bytes, binary file or pandas.DataFrame
        A record file: its path (``.gz`` if gzip has packed it), its bytes, or an open file, of at most 65,536 rows and
        16,777,216 bytes; :mod:`gtd.country` reads larger ones. Or a frame of any size with the columns ``element``,
        ``direction``, ``vehicle`` (or ``vehicles``, of texts as ``11;12`` or of lists as ``[11, 12]``) and ``domain``; its other
        columns are ignored, and a missing value in ``domain`` is the empty domain: always closed.
    first, until : datetime.date, datetime.datetime at midnight, numpy.datetime64 at midnight or str
        The days up to but not including ``until``: from 1901-01-01 to 2700-01-01, at most 146,098 of them. A str has the
        form ``YYYY-MM-DD``.
    vehicle : int
        The vehicle type, 1 to 99.

    Returns
    -------
    pandas.DataFrame
        A row for each maximal span in which an element is open in a direction: ``element`` (int64), ``direction``
        (category: positive, negative), ``vehicle`` (int64), ``from`` and ``until`` (datetime64[s]; with pandas 1,
        datetime64[ns]). In order of element, direction (positive first) and ``from``; ``until`` is the first second
        after the span.

    Raises
    ------
    Fault
        The first fault of the days, the vehicle type or the records; then, for a large frame, ``'TooManyRows'`` or
        ``'TooLarge'`` for an element that no file can hold.
    OSError
        The file cannot be opened or read.
    pandas.errors.OutOfBoundsDatetime
        With pandas 1, ``until`` is after 2262-04-11, the last day that it can hold.
    """
    last = day(until)
    check_last(last)
    words = (day(first), last, number(vehicle, "VehicleRange"))
    given = as_bytes(records)
    if not is_large(records, given):
        return _scheduled(given, *words)
    asked(*words)  # the days and the type are looked at before the records
    return pandas.concat([_scheduled(text, *words) for text in parts_of(records, given)], ignore_index=True)


def year(records: RecordsLike, element: int, direction: str, vehicle: int, year: int) -> pandas.Series:
    """In how many seconds of each day of a year an element is open in a direction.

    Parameters
    ----------
    records
        As in :func:`schedule`.
    element : int
        0 to 9,999,999,999.
    direction : {'positive', 'negative'}
    vehicle : int
        1 to 99.
    year : int
        1901 to 2199.

    Returns
    -------
    pandas.Series
        ``open_seconds`` (int64, 0 to 86,400) by ``date`` (DatetimeIndex of each day).

    Raises
    ------
    Fault
        As for :func:`schedule`; also ``'YearRange'``, and ``'NoElement'`` if no record names the element.
    OSError
        The file cannot be opened or read.
    """
    if direction not in ("positive", "negative"):
        raise Fault("Direction", text=str(direction))
    named = number(element, "Element")
    words = (named, direction, number(vehicle, "VehicleRange"), number(year, "YearRange"))
    given = as_bytes(records)
    _check_year(*words[2:])
    if is_large(records, given):
        mine = named.encode() + b","
        given = HEADER + b"".join(row for row in migrated(given) if row.startswith(mine))
    place = Place(int(named), direction == "negative", int(vehicle))
    days = day_of(f"{year:04}-01-01"), day_of(f"{year + 1:04}-01-01")
    index = pandas.date_range(f"{year:04}-01-01", f"{year:04}-12-31", freq="D", name="date")
    return pandas.Series(_open_by_day(given, place, days), index=index, name="open_seconds")


def migrate(records: RecordsLike) -> pandas.DataFrame:
    """The records as those of a file of version 2: each in its canonical form, in the same order, repeated ones included.

    ``migrate(records).to_csv(path, index=False, lineterminator="\\n")`` writes exactly the file that the program prints.

    Returns
    -------
    pandas.DataFrame
        ``element`` (int64), ``direction`` (category: positive, negative, both), ``vehicles`` (str) and ``domain`` (str,
        empty for always), indexed by the rows' places and not by a frame's own index.

    Raises
    ------
    Fault
        The first fault of the records.
    OSError
        The file cannot be opened or read.
    """
    given = as_bytes(records)
    if is_large(records, given):
        printed = HEADER + b"".join(migrated(given))
    else:
        printed = _run(given, "migrate", "/dev/stdin")
    types = {"element": "int64", "direction": _CLOSES, "vehicles": "str", "domain": "str"}
    return pandas.read_csv(io.BytesIO(printed), dtype=types, keep_default_na=False)


def parts_of(records: RecordsLike, given: bytes) -> List[bytes]:
    """The bytes of records as files: one, or of a frame that no file can hold one for each of ascending ranges of elements."""
    if not is_large(records, given):
        return [given]
    rows = sort_rows(migrated(given))
    cuts = cut(count(rows).set_index("element"))
    if isinstance(cuts, Beyond):
        raise Fault(cuts.kind, note=cuts.note)
    return [HEADER + text for text in texts_of(rows, cuts.firsts)]


def migrated(given: bytes) -> List[bytes]:
    """The rows of a large file, migrated."""
    head, *lines = given.splitlines(keepends=True)
    migrated = migrate_lines(head, lines)
    if isinstance(migrated, Refused):
        fault = fault_of(head, lines[migrated.line :], migrated.row + 1)
        raise fault or RuntimeError("the program accepts a row that it has refused")
    return migrated


def asked(first: str, until: str, vehicle: str) -> Tuple[int, int, int]:
    """The numbers of the days and of the vehicle type that a schedule is asked for.

    Raises
    ------
    Fault
        The first fault of these words, as the program reports it.
    """
    days = horizon(day_of(first), day_of(until))
    return (*days, vehicle_of(int(vehicle)))


def _scheduled(given: bytes, *words: str) -> pandas.DataFrame:
    numbers = asked(*words)
    if load("records_open", "records_schedule", "text_bytes") is not None:
        return read_schedule(io.BytesIO(engine_of(given).schedule(*numbers)))
    with tempfile.TemporaryFile() as printed:  # a schedule may be many times as large as its records
        _run(given, "schedule", "/dev/stdin", *words, into=printed)
        printed.seek(0)
        return read_schedule(printed)


def _check_year(vehicle: str, year: str) -> None:
    """Raise the fault of the type or the year, which are checked before the records."""
    vehicle_of(int(vehicle))
    if not _FIRST_YEAR <= int(year) <= _LAST_YEAR:
        raise Fault("YearRange")


def _open_by_day(given: bytes, place: Place, days: Tuple[int, int]) -> Seconds:
    """In how many seconds of each day an element is open that the records name."""
    engine = engine_of(given)
    if place.element not in engine.elements():
        raise Fault("NoElement")
    return open_by_day(engine.spans(place, *days), days)


def open_by_day(spans: Seconds, days: Tuple[int, int]) -> Seconds:
    """How many seconds of each day lie in spans, which are in order and disjoint."""
    edges = numpy.arange(days[0], days[1] + 1) * DAY
    begun = numpy.searchsorted(spans[:, 0], edges, side="right")
    whole = numpy.insert(numpy.cumsum(spans[:, 1] - spans[:, 0]), 0, 0)[begun]
    ends = numpy.insert(spans[:, 1], 0, edges[0])[begun]
    return numpy.diff(whole - numpy.maximum(ends - edges, 0))


def _run(given: bytes, *words: str, into: Optional[IO[bytes]] = None) -> bytes:
    try:
        return run(*words, given=given, into=into)
    except Fault as fault:
        raise with_row(fault, given) from None
