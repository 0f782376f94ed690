"""What two sets of records say differently."""

from __future__ import annotations

import tempfile
from typing import IO, Any, Dict, List, NamedTuple, Tuple, Union

import pandas

from gtd._cutting import HEADER, Beyond, Cuts, Rows, count, cut_both, sort_rows, texts_of
from gtd._fault import Fault
from gtd._moments import Day, day
from gtd._program import memory, run_desk
from gtd._reading import RecordsLike, as_bytes, check_last, engine_of, is_large, number, read_changes
from gtd._records import asked, migrated

_DIFFER = 4  # the status of `gtdesk diff` if something differs


class _Set(NamedTuple):
    """One of the two sets: how faults call it, and its records, as given and as bytes."""

    side: str
    records: RecordsLike
    given: bytes

    @property
    def is_large(self) -> bool:
        """Whether no file can hold it."""
        return is_large(self.records, self.given)

    def rows(self) -> Rows:
        """Its rows by their elements, migrated."""
        try:
            return sort_rows(migrated(self.given))
        except Fault as fault:
            raise _of_side(fault, self.side) from None


def diff(old: RecordsLike, new: RecordsLike, first: Day, until: Day, vehicle: int) -> pandas.DataFrame:
    """When each road element was opened or closed from one set of records to another.

    A set does not differ from itself, from its migration, or from its rows in any other order: the frame has no row then.

    Parameters
    ----------
    old, new
        As the records in :func:`schedule`. An element that one of them does not name is open in it throughout.
    first, until, vehicle
        As in :func:`schedule`.

    Returns
    -------
    pandas.DataFrame
        A row for each maximal span in which one of the sets alone closes an element in a direction: ``element`` (int64),
        ``direction`` (category: positive, negative), ``vehicle`` (int64), ``change`` (category: opened, if ``old`` alone closes
        it, and closed, if ``new`` alone does), ``from`` and ``until`` as in :func:`schedule`. In order of element, direction
        (positive first) and ``from``.

    Raises
    ------
    Fault
        As for :func:`schedule`: the first fault of ``old``, or else of ``new``, with the note ``'old'`` or ``'new'``.
    OSError
        A file cannot be opened or read.
    pandas.errors.OutOfBoundsDatetime
        As in :func:`schedule`.

    Examples
    --------
    >>> import gtd
    >>> old = b"element,direction,vehicles,domain\\n7,both,0,(h10){h3}\\n"
    >>> new = b"element,direction,vehicles,domain\\n7,both,0,(h9){h4}\\n"
    >>> print(gtd.diff(old, new, "2024-04-01", "2024-04-02", 11).to_csv(index=False), end="")
    element,direction,vehicle,change,from,until
    7,positive,11,closed,2024-04-01 09:00:00,2024-04-01 10:00:00
    7,negative,11,closed,2024-04-01 09:00:00,2024-04-01 10:00:00
    """
    last = day(until)
    check_last(last)
    words = (day(first), last, number(vehicle, "VehicleRange"))
    asked(*words)  # the days and the type are looked at before the records
    sets = _Set("old", old, as_bytes(old)), _Set("new", new, as_bytes(new))
    if not any(one.is_large for one in sets):
        return _changes(sets[0].given, sets[1].given, *words)
    parts = [_changes(before, after, *words) for before, after in _parts_of(sets[0].rows(), sets[1].rows())]
    return pandas.concat(parts, ignore_index=True)


def print_changes(old: bytes, new: bytes, words: Tuple[str, str, str], into: IO[bytes]) -> None:
    """Have the program write what two files say differently."""
    with memory() as file:
        file.write(old)
        file.flush()
        files = f"/dev/fd/{file.fileno()}", "/dev/stdin"
        run_desk("diff", *files, *words, given=new, into=into, answers=(0, _DIFFER), files=(file.fileno(),))


def _parts_of(old: Rows, new: Rows) -> List[Tuple[bytes, bytes]]:
    """The two sets, cut into files at the same elements."""
    cuts: Union[Cuts, Beyond] = cut_both(count(old).set_index("element"), count(new).set_index("element"))
    if isinstance(cuts, Beyond):
        raise _of_side(Fault(cuts.kind, note=cuts.note), cuts.side)
    texts = zip(texts_of(old, cuts.firsts), texts_of(new, cuts.firsts))
    return [(HEADER + before, HEADER + after) for before, after in texts]


def _changes(old: bytes, new: bytes, *words: str) -> pandas.DataFrame:
    first, until, vehicle = words
    with tempfile.TemporaryFile() as printed:
        try:
            print_changes(old, new, (first, until, vehicle), printed)
        except RuntimeError:
            _check(old, "old")
            _check(new, "new")
            raise
        printed.seek(0)
        return read_changes(printed)


def _check(given: bytes, side: str) -> None:
    """Raise the first fault of a file."""
    try:
        engine_of(given)
    except Fault as fault:
        raise _of_side(fault, side) from None


def _of_side(fault: Fault, side: str) -> Fault:
    """The same fault, of one of the two sets."""
    parts: Dict[str, Any] = dict(fault.__dict__)
    parts["note"] = side if fault.note is None else f"{side}: {fault.note}"
    return Fault(**parts)
