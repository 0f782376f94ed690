"""Schedules of record sets too large for one file, on Dask.

A record file has at most 65,536 rows and 16 MiB. A set of records is one or many CSV files of any size, each with a header of
either version. Its rows are divided into parts, each a range of element numbers within these limits, and the workers of a Dask
cluster ask the library for the schedule of each part, or run the program if it may be long.

An element's own records alone decide its schedule. So the schedule of all rows is the header, and then the parts' schedules
without their headers, in ascending order of elements.

::

    from distributed import Client
    from gtd import country

    with Client("tcp://10.0.0.1:8786") as client:
        country.schedule(["north.csv", "south.csv.gz"], "2024-01-01", "2024-04-01", 11, "out", client=client)
"""

from __future__ import annotations

import contextlib
import os
from pathlib import Path
from typing import Any, Dict, List, Optional, Sequence, Tuple, Union

from distributed import Client

from gtd._claims import LeftBehind
from gtd._moments import Day, day
from gtd._program import MOST_ROWS
from gtd._reading import number
from gtd._staging import Staging
from gtd.country import _parts
from gtd.country._cluster import connect, local
from gtd.country._files import sources
from gtd.country._run import Asked, Compared, Done, Run, told_plainly

__all__ = ["Compared", "Done", "LeftBehind", "connect", "diff", "local", "schedule"]

_Path = Union[str, "os.PathLike[str]"]


def schedule(
    paths: Union[_Path, Sequence[_Path]],
    first: Day,
    until: Day,
    vehicle: Union[int, Sequence[int]],
    out: _Path,
    *,
    client: Optional[Client] = None,
    joined: bool = False,
    block_size: int = 4 << 20,
    rows_per_part: int = MOST_ROWS,
    show_progress: bool = False,
    storage_options: Optional[Dict[str, Any]] = None,
) -> Done:
    """Write the schedule of a set of records: when each of its road elements is open.

    Parameters
    ----------
    paths : str, os.PathLike or a list of them
        Record files of any size, or patterns (``'data/*.csv'``), or addresses that ``fsspec`` knows. A name that exists is
        that file and no pattern. All workers and the client must reach them by the same names. A file whose name ends in
        ``.gz`` is unpacked first, beside the output.
    first, until
        As in :func:`gtd.schedule`.
    vehicle : int or sequence of int
        The vehicle type, 1 to 99; or many: the rows are still read only once.
    out : str or os.PathLike
        The folder of the parts ``part-00000.csv``..., each a schedule with its header; for many vehicle types, it has a
        folder ``vehicle-11`` of parts for each. If ``joined``, the file; for many types, the folder of the files
        ``vehicle-11.csv``... It must not exist yet, or be an empty folder. All workers and the client must reach it by the
        same name.
    client : distributed.Client, optional
        The cluster. Without it, one is started on this machine, with a worker for each core, that nobody else can reach.
    joined : bool
        Write one file with one header for each vehicle type.
    block_size : int
        Bytes that a worker reads at once; it needs about eight times as much memory.
    rows_per_part : int
        1 to 65,536; an element with more rows is a part of its own. The parts depend on the rows and this number alone.
    show_progress : bool
        Draw Dask's progress bars on standard error.
    storage_options : dict, optional
        What ``fsspec`` needs to reach the files.

    Returns
    -------
    Done

    Raises
    ------
    Fault
        The first fault of the days or the vehicle types; then the first of all rows, by files in the order given and by
        lines, with its ``file``, ``line`` and ``row``; then that of the first element with more than 65,536 rows, or too many
        bytes (``'TooManyRows'``, ``'TooLarge'``), by the row with which it becomes too large. Nothing is kept.
    OSError
        A file cannot be opened, read or unpacked; or the output exists already, is being written by another run, or cannot
        be written; or the scheduler has gone away (ConnectionError). Nothing is kept.
    RuntimeError
        A file was changed while it was read, or workers have different programs or libraries. Nothing is kept.
    ValueError
        A file would be read twice, or an option is out of its range. Nothing is read.

    Warns
    -----
    LeftBehind
        A run of the same output was killed earlier. What it left is removed.
    """
    asked = Asked(day(first), day(until), _vehicles(vehicle), joined, block_size, rows_per_part)
    return _written([paths], asked, Path(out), client, show_progress, storage_options)[0]


def diff(
    old: Union[_Path, Sequence[_Path]],
    new: Union[_Path, Sequence[_Path]],
    first: Day,
    until: Day,
    vehicle: Union[int, Sequence[int]],
    out: _Path,
    *,
    client: Optional[Client] = None,
    joined: bool = False,
    block_size: int = 4 << 20,
    rows_per_part: int = MOST_ROWS,
    show_progress: bool = False,
    storage_options: Optional[Dict[str, Any]] = None,
) -> Compared:
    """Write what two sets of records say differently: when each road element was opened or closed from one to the other.

    Parameters
    ----------
    old, new
        The files of each set, as those of :func:`schedule`.
    out
        As for :func:`schedule`. Each part has the lines that ``gtdesk diff`` prints for the elements of the part.
    rows_per_part : int
        1 to 65,536 rows of both sets together; an element with more of them is a part of its own.
    first, until, vehicle, client, joined, block_size, show_progress, storage_options
        As for :func:`schedule`.

    Returns
    -------
    Compared

    Raises
    ------
    Fault
        As for :func:`schedule`; the files of ``old`` come before those of ``new``.
    OSError, RuntimeError
        As for :func:`schedule`.

    Warns
    -----
    LeftBehind
        As for :func:`schedule`.
    """
    asked = Asked(day(first), day(until), _vehicles(vehicle), joined, block_size, rows_per_part)
    done, has_lines = _written([old, new], asked, Path(out), client, show_progress, storage_options)
    return Compared(*done, has_lines)


def _written(
    sets: Sequence[Union[_Path, Sequence[_Path]]],
    asked: Asked,
    out: Path,
    client: Optional[Client],
    show: bool,
    storage_options: Optional[Dict[str, Any]],
) -> Tuple[Done, bool]:
    """What was written, and whether some part has a line behind its header."""
    if not 1 <= asked.rows_per_part <= MOST_ROWS:
        raise ValueError(f"rows_per_part is 1 to {MOST_ROWS}, not {asked.rows_per_part}")
    if asked.block_size < 1:
        raise ValueError(f"block_size is at least 1, not {asked.block_size}")
    with contextlib.ExitStack() as stack:
        if client is None:
            client = stack.enter_context(local())
        stack.enter_context(told_plainly(client))
        _parts.check(asked.first, asked.until, asked.vehicles)  # before any file
        files = [sources(_paths(paths), storage_options) for paths in sets]
        with Staging(out.absolute(), asked.joined and len(asked.vehicles) == 1) as staging:
            run = Run(client, asked, staging, show)
            done = run.whole(files)
    return done, run.has_lines


def _paths(paths: Union[_Path, Sequence[_Path]]) -> List[str]:
    many: List[_Path] = [paths] if isinstance(paths, (str, os.PathLike)) else list(paths)
    return [os.fspath(path) for path in many]


def _vehicles(vehicle: Union[int, Sequence[int]]) -> Tuple[str, ...]:
    """The words for the vehicle types, in ascending order."""
    if not isinstance(vehicle, Sequence):
        return (number(vehicle, "VehicleRange"),)
    if not vehicle:
        raise ValueError("no vehicle type is given")
    if len(set(vehicle)) < len(vehicle):
        raise ValueError("a vehicle type is given twice")
    return tuple(number(one, "VehicleRange") for one in sorted(vehicle))
