"""What ``gtdesk`` says of files as a whole: their faults and warnings, a mended file, and the records of tags."""

from __future__ import annotations

import csv
import io
import os
import re
from typing import Any, Dict, IO, List, Mapping, NamedTuple, Optional, Sequence, Union

import pandas

from gtd._cutting import HEADER
from gtd._fault import Fault
from gtd._moments import END_DAY, Day, date_at, day, day_of
from gtd._program import memory, run_desk
from gtd._reading import Path, RecordsLike, as_bytes

_FAULT = re.compile(r"-:(?P<line>\d+): (?:row (?P<row>\d+): )?(?P<kind>\w+(?: [A-Z]\w*)?)(?: at (?P<place>\d+))?(?:: [-\d]+)?")
_WARNING = re.compile(r"-:(?P<line>\d+): row (?P<row>\d+): (?P<kind>[a-z][-a-z]*): (?P<warning>.*)")
_CHANGE = re.compile(r"-:(?P<line>\d+): (?:field (?P<field>\d+): )?(?P<change>.*)")
_BELOW = re.compile(r"    (?P<name>expected|hint|perhaps|found|fields):\s+(?P<said>.*)")
_WORD = re.compile(r"gtdesk: (?P<said>(?:command line|[-A-Z]+): [^\n]*)")
_OF_MEANS = re.compile(r"(?P<file>.*?):(?P<line>\d+): (?:row (?P<row>\d+): )?(?P<kind>[A-Z]\w*)$", re.MULTILINE)
_OF_TABLE = re.compile(r"gtdesk: (?P<file>.*?)(?P<line>(?!))?(?:: row (?P<row>\d+))?: (?P<kind>[A-Z]\w*)$", re.MULTILINE)
_COLUMNS = {
    "line": "int64", "row": "Int64", "kind": "object", "place": "Int64", "text": "object", "expected": "object",
    "hint": "object", "warning": "object",
}  # fmt: skip
OPTIONS = ("holidays", "years", "open-end", "points", "sunrise", "sunset", "dawn", "dusk", "day-names")  # of hours
_HEADER = "element,key,value\n"
_FAULTS = (0, 1)  # statuses


class Mended(NamedTuple):
    """A record file in which is mended what can be without a guess."""

    file: bytes
    """The file."""
    changes: "pandas.DataFrame"
    """``line`` (int64), ``field`` (Int64, from 1; missing for a change of the whole file) and ``change`` (str), as
    ``docs/COMMANDS.md`` names them."""


def faults(
    records: RecordsLike, *, warn: bool = False, allow: Sequence[str] = (), at: Optional[Day] = None
) -> "pandas.DataFrame":
    """All faults of a record file, each row with its first one; with ``warn`` also likely mistakes.

    Parameters
    ----------
    records
        As in :func:`gtd.schedule`; no row need be accepted. A frame has at most as many rows as a file.
    warn : bool
        Whether rows that are likely mistakes are listed too, after the faults.
    allow : sequence of str
        With ``warn``: the rules that are left out, as ``'never-holds'``.
    at : day, optional
        With ``warn``: rows are listed too that are over on this day, or soon after it.

    Returns
    -------
    pandas.DataFrame
        ``line`` (int64, from 1), ``row`` (Int64, from 1; missing if the whole file is refused), ``kind`` (the kind of the fault,
        or the rule of the warning), ``place`` (Int64: bytes before the fault of a domain), ``text`` (the field at fault),
        ``expected`` (what is accepted there), ``hint`` (what may be meant) and ``warning`` (the words of a warning; None for a
        fault). Without rows, if the file is accepted.

    Raises
    ------
    Fault
        ``'date ...'``
    ValueError
        ``allow`` names no rule; or it or ``at`` is given without ``warn``.
    OSError
        The file cannot be opened or read; or there is no program ``gtdesk`` (ProgramNotFound).

    Examples
    --------
    >>> import gtd
    >>> found = gtd.faults(b"element,direction,vehicle,domain\\n17,both,0,(h25){h1}\\n")
    >>> found[["line", "row", "kind", "place", "expected"]].values.tolist()
    [[2, 1, 'Domain FieldRange', 1, '0 to 23 for an hour']]
    """
    words: List[str] = ["--warn"] * warn
    if (allow or at is not None) and not warn:
        raise ValueError("allow and at are of warnings: give warn=True")
    words += ["--allow", ",".join(allow)] if allow else []
    if at is not None:
        number = day_of(day(at))
        if number == END_DAY:
            raise Fault("date Range")
        words += ["--at", date_at(number)]
    try:
        printed = run_desk("faults", *words, "-", given=as_bytes(records), answers=_FAULTS)
    except RuntimeError as error:
        raise _of_word(error) from None
    return _listed(printed.decode("utf-8", "replace"))


def mend(records: RecordsLike) -> Mended:
    """A record file in which is mended what can be without a guess: separators, spaces, capitals, quotes and the like.

    A row that was not at fault closes what it closed before. What cannot be mended is copied: :func:`faults` lists what is left.

    Parameters
    ----------
    records
        As in :func:`gtd.schedule`; no row need be accepted.

    Examples
    --------
    >>> import gtd
    >>> mended = gtd.mend(b"element;direction;vehicle;domain\\n17.0; Both;0;\\n")
    >>> mended.file
    b'element,direction,vehicle,domain\\n17,both,0,\\n'
    >>> mended.changes["change"].tolist()
    ['separators', 'decimals', 'spaces', 'capitals']
    """
    with memory() as said:
        printed = run_desk("mend", "-", given=as_bytes(records), notes=said)
        said.seek(0)
        lines = said.read().decode("utf-8", "replace").splitlines()
    found = [change.groupdict() for change in map(_CHANGE.fullmatch, lines) if change]
    changes = pandas.DataFrame(found, columns=["line", "field", "change"])
    changes["line"] = changes["line"].astype("int64")
    changes["field"] = pandas.array([None if one is None else int(one) for one in changes["field"]], dtype="Int64")
    return Mended(printed, changes)


def conditions(
    tags: Union[Path, bytes, IO[bytes], "pandas.DataFrame"],
    means: Path,
    *,
    hours: Optional[Mapping[str, Path]] = None,
    strict: bool = False,
) -> "pandas.DataFrame":
    """The records that close elements when tags of OpenStreetMap do.

    Parameters
    ----------
    tags
        A file of tags (a path, bytes or an open file), or a frame with the columns ``element``, ``key`` and ``value``.
    means : str or os.PathLike
        The table of what the names in the tags mean, with the header ``kind,name,means``.
    hours : mapping of str to str or os.PathLike
        What hours in values leave open, as in :func:`gtd.osm.extract`: ``{"holidays": "at.csv", "years": "2026-2030"}``.
    strict : bool
        Whether hours that are written loosely are faults.

    Returns
    -------
    pandas.DataFrame
        ``element`` (int64), ``direction`` (category: positive, negative, both), ``vehicles`` and ``domain`` (str), as
        :func:`gtd.migrate` gives records.

    Raises
    ------
    Fault
        The first fault of the tags, with its row, the value and what is expected there; or of the table of means or of holidays.
    ValueError
        An option of ``hours`` is none, or has no such value.

    Examples
    --------
    >>> import gtd
    >>> gtd.conditions("conditions/ways.tags.csv", "conditions/means.csv").head(1).values.tolist()
    [[301, 'both', '!1;11;12', '[[(t2t3t4t5t6h0m0){d1}]*[(h7m0){m120}]]']]
    """
    words = [*["--strict"] * strict, *words_of(hours or {})]
    given = _tags(tags)
    try:
        printed = run_desk("conditions", *words, "--", "-", os.path.abspath(means), given=given)
    except RuntimeError as error:
        raise first_fault(error) from None
    types = {"element": "int64", "direction": pandas.CategoricalDtype(["positive", "negative", "both"]), "vehicles": "str"}
    return pandas.read_csv(io.BytesIO(printed), dtype={**types, "domain": "str"}, keep_default_na=False)


def words_of(hours: Mapping[str, Path]) -> List[str]:
    """The options of ``gtdesk conditions`` with which hours are read; those that are files, by whole paths."""
    wrong = sorted(set(hours) - set(OPTIONS))
    if wrong:
        raise ValueError(f"the options of hours are {', '.join(OPTIONS)}, not {', '.join(map(repr, wrong))}")
    words: List[str] = []
    for name, value in hours.items():
        words += [f"--{name}", os.path.abspath(value) if name == "holidays" else os.fspath(value)]
    return words


def expected_of(kind: str, text: str, is_row: bool) -> Optional[str]:
    """What is accepted at the first fault of a domain, of opening hours or of a row of a record file; None if that is not known.

    Raises
    ------
    OSError
        There is no program ``gtdesk``, or it cannot run.
    """
    field = text.encode("utf-8", "replace")
    if kind.startswith("hours "):
        with memory() as said:
            run_desk("hours", "--strict", "--", field.decode().replace("\0", "?"), answers=_FAULTS, notes=said)
            said.seek(0)
            below = said.read()
    else:
        row = field if is_row else b'1,both,0,"' + field.replace(b'"', b'""') + b'"'
        below = run_desk("faults", "-", given=HEADER + row + b"\n", answers=_FAULTS)
    lines = map(_BELOW.fullmatch, below.decode("utf-8", "replace").splitlines())
    return next((line["said"] for line in lines if line and line["name"] == "expected"), None)


def _tags(tags: Any) -> bytes:
    """The bytes of a file of tags."""
    if not isinstance(tags, pandas.DataFrame):
        return as_bytes(tags)
    missing = [name for name in ("element", "key", "value") if name not in tags.columns]
    if missing:
        raise ValueError(f"tags have the columns element, key and value; there are {', '.join(map(str, tags.columns))}")
    text = io.StringIO()
    csv.writer(text, lineterminator="\n").writerows(tags[["element", "key", "value"]].itertuples(index=False))
    return (_HEADER + text.getvalue()).encode("utf-8", "replace")


def _listed(printed: str) -> "pandas.DataFrame":
    """Faults and warnings as ``gtdesk faults`` lists them."""
    found: List[Dict[str, Any]] = []
    for line in printed.splitlines():
        begun = _FAULT.fullmatch(line) or _WARNING.fullmatch(line)
        if begun:
            found.append(begun.groupdict())
        elif found and line.startswith("    "):
            _add(found[-1], line)
    frame = pandas.DataFrame(found, columns=list(_COLUMNS)).astype(object)
    frame = frame.where(frame.notna(), None)
    for name, kind in _COLUMNS.items():
        if kind != "object":
            numbers = [None if one is None else int(one) for one in frame[name]]
            frame[name] = pandas.array(numbers, dtype="Int64").astype(kind)
    return frame


def _add(fault: Dict[str, Any], line: str) -> None:
    """Add a line below a fault to it."""
    below = _BELOW.fullmatch(line)
    if below is None:
        fault.setdefault("text", line[4:])
    elif below["name"] == "found":
        fault.setdefault("text", below["said"])
    elif below["name"] in ("expected", "hint", "perhaps"):
        fault.setdefault("expected" if below["name"] == "expected" else "hint", below["said"])


def _said(error: RuntimeError) -> str:
    """What a program said that ended with another status than was awaited."""
    return str(error).partition(" ended with status ")[2].partition(": ")[2]


def _of_word(error: RuntimeError) -> Exception:
    """The error of a word that ``gtdesk`` refuses, in its own words."""
    word = _WORD.match(_said(error))
    return ValueError(word["said"]) if word else error


def first_fault(error: RuntimeError) -> Exception:
    """The first fault that ``gtdesk conditions`` or ``gtdesk records`` lists of what it reads, or that it has of a table."""
    said = _said(error)
    listed = _listed(said)
    listed = listed[listed["warning"].isna()].reset_index(drop=True)
    if len(listed):
        kind, text, expected = listed.loc[0, ["kind", "text", "expected"]]
        line, row, place = (None if pandas.isna(one) else int(one) for one in listed.loc[0, ["line", "row", "place"]])
        note = f"expected: {expected}" if expected else None
        return Fault(kind, place=place, row=row, text=text, caret=place, line=line, note=note)
    for form in (_OF_MEANS, _OF_TABLE):
        table = form.match(said)
        if table:
            row, line = (None if table[name] is None else int(table[name]) for name in ("row", "line"))
            return Fault(table["kind"], file=table["file"], line=line, row=row)
    return _of_word(error)
