"""Ways of an OpenStreetMap extract, as tables of the tags that restrict them, and as record files.

An extract is read once, from its first byte to its last, and needs the same memory however large it is. Each way that has a tag
of access becomes an element, and two kinds of tables are written:

``tags-00000.csv``, ``tags-00001.csv``...
    A row for each such tag, with the header ``element,key,value``. A table has at most 65,536 rows and 16,777,216 bytes, and the
    rows of an element are all in one table.
``elements.csv``
    A row for each element, with the header ``element,way,first_node,last_node``: from which way it comes, and between which
    nodes it lies. Its positive direction is that of the way, from the first node to the last.

With ``records=True`` two more kinds are written, by the program ``gtdesk``:

``records-00000.csv``, ``records-00001.csv``...
    Record files of version 2, each within the limits of one, whose rows close the elements when their tags do.
``left_out.csv``
    A row for each tag that is at fault, with the header ``element,key,value,fault,way,expected``: the way of the element, and
    what is accepted at the fault. The element is left out of the records whole, since a part of what its tags say could be taken
    for all of it. With ``close_left_out=True`` a record always closes it.

Elements are numbered in the order of the extract; with ``ids="way"`` each has the number of its way, so that the records of two
releases of an extract can be compared.

::

    from gtd import osm

    osm.extract("town.osm.pbf", "means.csv", "out", records=True)

Opening hours with public holidays need a table of these, and the years in which it knows them::

    hours = {"holidays": "holidays.csv", "years": "2026-2030"}
    osm.extract("town.osm.pbf", "means.csv", "out", records=True, hours=hours)

**Which tags** matter, a file of means says: a comma-separated file with the header ``kind,name,means``. With the name ``hgv`` of
kind ``mode`` these keys matter: ``hgv``, ``hgv:forward``, ``hgv:backward``, and each of them with ``:conditional`` behind it. Of
the mode ``oneway`` only ``oneway`` and ``oneway:conditional`` do. Each other key that ends in ``:conditional`` is kept too, so
that no condition is lost unseen, except if its name, without ``:conditional`` and a direction, is of kind ``ignore``.

**Which ways** become elements: each that has a tag that matters, whatever it is otherwise, but not

- one that is marked as deleted;
- one with fewer than two nodes;
- an area: a closed way without the tag ``highway``, if it has not ``area=no``. So the access of a car park or a building makes
  no element, and a square for pedestrians, whose edges are walked along, does.

Only ways are looked at. Restrictions of turns, which are relations, and tags of nodes, such as gates, are not.
"""

from __future__ import annotations

import os
from pathlib import Path
from typing import Mapping, Optional, Union

from gtd._desk import words_of
from gtd._program import MOST_ROWS
from gtd._staging import Staging
from gtd.osm._conversion import convert
from gtd.osm._means import read_names
from gtd.osm._reading import read
from gtd.osm._tables import LAST_ELEMENT, Tables
from gtd.osm._ways import Done, Ways

__all__ = ["Done", "extract"]

_Path = Union[str, "os.PathLike[str]"]


def extract(
    path: _Path,
    means: _Path,
    out: _Path,
    *,
    first: int = 1,
    rows_per_table: int = MOST_ROWS,
    ids: str = "order",
    records: bool = False,
    close_left_out: bool = False,
    hours: Optional[Mapping[str, _Path]] = None,
    show_progress: bool = False,
) -> Done:
    """Write the tags of an extract's ways that restrict them, and from which ways they come; and the records of these tags.

    Parameters
    ----------
    path : str or os.PathLike
        The extract, in a format that its name tells and pyosmium reads: ``.osm.pbf``, ``.osm``, ``.osm.gz``, ``.osm.bz2``...
        Each way must come once, in the order that ``osmium sort`` makes, as in all published extracts.
    means : str or os.PathLike
        The file of means. Without ``records`` only its names of kind ``mode`` and ``ignore`` are read.
    out : str or os.PathLike
        The folder of the tables. It must not exist yet, or be an empty folder.
    first : int
        The number of the first element; the others follow in the order of the extract.
    ids : {'order', 'way'}
        Whether elements are numbered so, or each has the number of its way.
    rows_per_table : int
        1 to 65,536; an element with more tags has a table of its own.
    records : bool
        Write record files, too.
    close_left_out : bool
        With ``records``: whether elements of which a tag is at fault are always closed, and not open for lack of records.
    hours : mapping of str to str or os.PathLike
        What opening hours in values leave open, by the options of ``gtdesk conditions``: ``holidays`` (a file), ``years``,
        ``open-end``, ``points``, ``sunrise``, ``sunset``, ``dawn``, ``dusk`` and ``day-names``, as in
        ``{"holidays": "at.csv", "years": "2026-2030"}``. They matter with ``records``. Hours that need another one are at fault.
    show_progress : bool
        Draw a progress bar on standard error.

    Returns
    -------
    Done

    Raises
    ------
    Fault
        Of the means ``'TooLarge'``, ``'Header'`` or ``'FieldCount'``. Of the extract ``'Extract'`` if it cannot be read as one,
        ``'Repeated'`` or ``'Order'`` if a way comes again or too late, ``'TooManyRows'`` or ``'TooLarge'`` if the tags of one
        way do not fit into a table, and ``'Element'`` after the element 9,999,999,999, or for a way with no such number. With
        ``records`` any fault of the means, or of the table of holidays. Nothing is kept.
    OSError
        A file cannot be opened or read; or the output exists already, is being written by another run, or cannot be written.
        Nothing is kept.
    ImportError
        There is no pyosmium.
    ProgramNotFound
        With ``records``: there is no program ``gtdesk``.

    Warns
    -----
    LeftBehind
        A run of the same output was killed earlier. What it left is removed.
    """
    if not 0 <= first <= LAST_ELEMENT:
        raise ValueError(f"the first element is 0 to {LAST_ELEMENT}, not {first}")
    if not 1 <= rows_per_table <= MOST_ROWS:
        raise ValueError(f"rows_per_table is 1 to {MOST_ROWS}, not {rows_per_table}")
    if ids not in ("order", "way"):
        raise ValueError(f"ids are 'order' or 'way', not {ids!r}")
    if ids == "way" and first != 1:
        raise ValueError("first is of elements that are numbered in order, and not by their ways")
    if close_left_out and not records:
        raise ValueError("close_left_out is of records: give records=True")
    options = words_of(hours or {})
    names = read_names(os.fspath(means))
    with Staging(Path(out).absolute(), False) as staging:
        with Tables(staging.parts, None if ids == "way" else first, rows_per_table) as tables:
            ways = Ways(os.fspath(path), names, tables)
            read(os.fspath(path), ways, show_progress)
        done = ways.done(tables)
        if records:
            made = convert(staging.parts, done.parts, os.fspath(means), options, close_left_out)
            done = done._replace(records=made.files, rows=made.rows, at_fault=made.left_out)
        staging.keep([], [], False)
    return done
