"""When the elements of record files of any size are closed, and for how long they are open in each bin of time."""

from __future__ import annotations

import io
from typing import Any, Iterator, NamedTuple, Optional, Sequence, Tuple, Union

import numpy
import pandas
from numpy.typing import NDArray
from pandas.tseries.frequencies import to_offset

from gtd._moments import DAY, Day, Seconds, day
from gtd._questions import Column, element_of
from gtd._reading import DIRECTION, HAS_SECONDS, RecordsLike, as_bytes, check_last, engine_of, number, read_schedule
from gtd._records import asked, parts_of

_MOST_BINS = 1_000_000


class _Part(NamedTuple):
    """Some of the elements of the records, and the lines of their schedule."""

    elements: Seconds
    lines: pandas.DataFrame


def closed_spans(records: RecordsLike, first: Day, until: Day, vehicle: int) -> pandas.DataFrame:
    """When each road element is closed: the rest of what :func:`gtd.schedule` lists.

    Parameters
    ----------
    records, first, until, vehicle
        As for :func:`gtd.schedule`.

    Returns
    -------
    pandas.DataFrame
        A row for each maximal span in which an element is closed in a direction, with the columns and the order of
        :func:`gtd.schedule`. An element that no record names is open, and has no row.

    Raises
    ------
    Fault, OSError, pandas.errors.OutOfBoundsDatetime
        As for :func:`gtd.schedule`.

    Examples
    --------
    >>> import gtd
    >>> file = b"element,direction,vehicle,domain\\n17,positive,0,(h10){h4}\\n17,negative,11,\\n"
    >>> gtd.closed_spans(file, "2024-04-01", "2024-04-02", 11)
       element direction  vehicle                from               until
    0       17  positive       11 2024-04-01 10:00:00 2024-04-01 14:00:00
    1       17  negative       11 2024-04-01 00:00:00 2024-04-02 00:00:00
    """
    days, parts = _asked(records, first, until, vehicle)
    ends = days[0] * DAY, days[1] * DAY
    frames = [_closed(part, ends, vehicle) for part in parts]
    return frames[0] if len(frames) == 1 else pandas.concat(frames, ignore_index=True)


def open_seconds(
    records: RecordsLike,
    first: Day,
    until: Day,
    vehicle: int,
    *,
    freq: Any = "h",
    elements: Optional[Union[Sequence[int], Column]] = None,
    fill: Optional[float] = None,
) -> pandas.DataFrame:
    """For how many seconds each element is open in each bin of time, such as each hour.

    Parameters
    ----------
    records, first, until, vehicle
        As for :func:`gtd.schedule`; so a frame of any size.
    freq : str or pandas.DateOffset
        How long a bin is, of whole seconds: ``'h'``, ``'15min'``, ``'D'``, ``'MS'`` and so on. Bins begin at ``first`` and, of a
        frequency such as ``'MS'``, where a month begins; the last one ends at ``until``.
    elements : sequence of int, array or column, optional
        The elements that are asked about, in this order. Without it, those that the records name, in ascending order.
    fill : number, optional
        The value in each bin of an element that no record names. Such an element is open, so without ``fill`` it is the length of
        the bin. With ``-1`` or ``numpy.nan`` such elements differ from those that records name and leave open.

    Returns
    -------
    pandas.DataFrame
        A row for each element and direction (``positive`` first), and a column for each bin, by the moment when it begins. The
        numbers are int32 (int64 if a bin is longer than 68 years, or a number to fill does not fit; float64 if that is no whole
        number). ``.to_numpy().reshape(len(elements), 2, -1)`` is the same array by element, direction and bin, without a copy.

    Raises
    ------
    Fault, OSError
        As for :func:`gtd.schedule`; ``'Element'`` for a number of ``elements`` that is none.
    ValueError
        Bins are no whole seconds, are not longer than nothing, or are more than 1,000,000.
    pandas.errors.OutOfBoundsDatetime
        A bin begins after 2262-04-11, the last day of the moments of ``pandas.date_range``.

    Examples
    --------
    >>> import gtd
    >>> file = b"element,direction,vehicle,domain\\n17,positive,0,(h10){m90}\\n"
    >>> gtd.open_seconds(file, "2024-04-01", "2024-04-02", 11, freq="6h", elements=[17, 18])
    begin              2024-04-01 00:00:00  2024-04-01 06:00:00  2024-04-01 12:00:00  2024-04-01 18:00:00
    element direction                                                                                    
    17      positive                 21600                16200                21600                21600
            negative                 21600                21600                21600                21600
    18      positive                 21600                21600                21600                21600
            negative                 21600                21600                21600                21600
    """
    days, parts = _asked(records, first, until, vehicle)
    edges = _edges_of(days, freq)
    lengths = numpy.diff(edges)
    dtype = "int32" if lengths.max() <= numpy.iinfo("int32").max else "int64"
    found = [(part.elements, _opened(part, edges).astype(dtype)) for part in parts]
    named = numpy.concatenate([numbers for numbers, _ in found])
    opened = numpy.concatenate([seconds for _, seconds in found])
    wanted = named
    if elements is not None:
        wanted = numpy.array([element_of(element) for element in numpy.asarray(elements).tolist()], dtype="int64")
        opened = _looked_up(named, opened, wanted, lengths if fill is None else numpy.full(len(lengths), fill))
    return _framed(wanted, opened, edges)


def _asked(records: RecordsLike, first: Day, until: Day, vehicle: int) -> Tuple[Tuple[int, int], Iterator[_Part]]:
    """The days that are asked about, and the schedules of the parts of the records."""
    last = day(until)
    check_last(last)
    *days, kind = asked(day(first), last, number(vehicle, "VehicleRange"))
    given = as_bytes(records)
    return (days[0], days[1]), (_part(text, (days[0], days[1]), kind) for text in parts_of(records, given))


def _part(text: bytes, days: Tuple[int, int], vehicle: int) -> _Part:
    engine = engine_of(text)
    return _Part(engine.elements(), read_schedule(io.BytesIO(engine.schedule(*days, vehicle))))


def _seconds(moments: "pandas.Series") -> Seconds:
    found: Seconds = moments.to_numpy().astype("datetime64[s]").astype("int64")
    return found


def _places(part: _Part) -> NDArray[numpy.intp]:
    """Of each line the place of its element and direction, of which each element has two."""
    at = numpy.searchsorted(part.elements, part.lines["element"].to_numpy())
    places: NDArray[numpy.intp] = at * 2 + part.lines["direction"].cat.codes.to_numpy()
    return places


def _closed(part: _Part, ends: Tuple[int, int], vehicle: int) -> pandas.DataFrame:
    """What the lines of a part leave out between two seconds: before the first of a place, between two, and after the last."""
    count = len(part.elements) * 2
    lines = numpy.bincount(_places(part), minlength=count)
    last = numpy.cumsum(lines + 1) - 1
    begins = numpy.empty(len(part.lines) + count, dtype="int64")
    untils = numpy.empty_like(begins)
    is_first = numpy.zeros(len(begins), dtype=bool)
    is_first[last - lines] = True
    is_last = numpy.zeros(len(begins), dtype=bool)
    is_last[last] = True
    begins[is_first], begins[~is_first] = ends[0], _seconds(part.lines["until"])
    untils[is_last], untils[~is_last] = ends[1], _seconds(part.lines["from"])
    kept = begins < untils
    places = numpy.repeat(numpy.arange(count), lines + 1)[kept]
    return pandas.DataFrame(
        {
            "element": part.elements[places // 2],
            "direction": pandas.Categorical.from_codes(places % 2, dtype=DIRECTION),
            "vehicle": numpy.full(len(places), vehicle, dtype="int64"),
            "from": begins[kept].view("datetime64[s]"),
            "until": untils[kept].view("datetime64[s]"),
        }
    )


def _edges_of(days: Tuple[int, int], freq: Any) -> Seconds:
    """The seconds at which bins begin, and the one at which the last of them ends."""
    offset = to_offset(freq)
    if offset is None or offset.n < 1:
        raise ValueError(f"a bin is longer than nothing: {freq!r}")
    first, last = (numpy.datetime64(number, "D") for number in days)
    if isinstance(offset, pandas.offsets.Tick):  # counted before they are made
        lasts, rest = divmod(offset.nanos, 1_000_000_000)
        if rest:
            raise ValueError("a bin is of whole seconds")
        _check_count(-(-(days[1] - days[0]) * DAY // lasts))
    unit = {"unit": "s"} if HAS_SECONDS else {}
    begins = pandas.date_range(pandas.Timestamp(first), pandas.Timestamp(last), freq=offset, **unit)
    _check_count(len(begins))
    inside = begins.to_numpy().astype("datetime64[s]").astype("int64")
    edges: Seconds = numpy.unique(numpy.concatenate(([days[0] * DAY], inside, [days[1] * DAY])))
    return edges


def _check_count(bins: int) -> None:
    if bins > _MOST_BINS:
        raise ValueError(f"there are {bins:,} bins; {_MOST_BINS:,} are the most")


def _opened(part: _Part, edges: Seconds) -> Seconds:
    """For how many seconds each place is open in each bin: the bins that its lines touch, without what lies before and after."""
    count, bins = len(part.elements) * 2, len(edges) - 1
    places, begins, untils = _places(part), _seconds(part.lines["from"]), _seconds(part.lines["until"])
    first = numpy.searchsorted(edges, begins, side="right") - 1
    last = numpy.searchsorted(edges, untils, side="left") - 1
    width, cells = bins + 1, count * (bins + 1)
    touched = numpy.bincount(places * width + first, minlength=cells)
    touched -= numpy.bincount(places * width + last + 1, minlength=cells)
    opened: Seconds = numpy.cumsum(touched.reshape(count, width), axis=1)[:, :bins] * numpy.diff(edges)
    numpy.subtract.at(opened, (places, first), begins - edges[first])
    numpy.subtract.at(opened, (places, last), edges[last + 1] - untils)
    return opened


def _looked_up(named: Seconds, opened: NDArray[Any], wanted: Seconds, fill: NDArray[Any]) -> NDArray[Any]:
    """The lines of each wanted element; ``fill`` of one that is not named."""
    dtype = opened.dtype if fill.dtype == "int64" else numpy.dtype("float64")
    if dtype == "int32" and not (abs(fill) <= numpy.iinfo("int32").max).all():
        dtype = numpy.dtype("int64")
    found = numpy.empty((len(wanted), 2, len(fill)), dtype=dtype)
    at = numpy.searchsorted(named, wanted)
    is_named = at < len(named)
    is_named[is_named] = named[at[is_named]] == wanted[is_named]
    found[is_named] = opened.reshape(len(named), 2, len(fill))[at[is_named]]
    found[~is_named] = fill
    rows: NDArray[Any] = found.reshape(len(wanted) * 2, len(fill))
    return rows


def _framed(elements: Seconds, opened: NDArray[Any], edges: Seconds) -> pandas.DataFrame:
    directions = pandas.Categorical.from_codes(numpy.tile([0, 1], len(elements)), dtype=DIRECTION)
    index = pandas.MultiIndex.from_arrays([numpy.repeat(elements, 2), directions], names=["element", "direction"])
    begins = pandas.DatetimeIndex(edges[:-1].view("datetime64[s]"), name="begin")
    return pandas.DataFrame(opened, index=index, columns=begins, copy=False)
