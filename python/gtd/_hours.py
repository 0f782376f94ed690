"""Columns of opening hours as time domains, with all that ``gtdesk records`` can be given for them."""

from __future__ import annotations

import csv
import io
import re
from typing import Any, List, Mapping, Optional, Sequence, Union

import numpy
import pandas

from gtd._cutting import files_of
from gtd._desk import first_fault, words_of
from gtd._fault import Fault, in_domain
from gtd._program import run_desk
from gtd._reading import Path

_HEAD = b"element,direction,vehicles,hours\n"
_OF_TEXT = re.compile(r"Hours (?P<kind>\w+)")


def domains_of_hours(
    hours: Union["pandas.Series", Sequence[Optional[str]]],
    *,
    options: Optional[Mapping[str, Path]] = None,
    strict: bool = False,
) -> "pandas.Series":
    """The time domain of each of many opening hours of OpenStreetMap.

    Each different text is read once, by one run of ``gtdesk`` for up to 65,536 of them.

    Parameters
    ----------
    hours : pandas.Series or sequence of str
        Opening hours. A missing value stays missing.
    options : mapping of str to str or os.PathLike
        What the texts leave open, as for :func:`gtd.conditions`: ``{"holidays": "at.csv", "years": "2026-2030"}`` for public and
        school holidays, ``open-end``, ``points``, ``sunrise``, ``sunset``, ``dawn``, ``dusk`` and ``day-names``.
    strict : bool
        Whether texts that are written loosely, such as ``Mo 8:00-9:00``, are faults.

    Returns
    -------
    pandas.Series
        The canonical texts of the domains, with the index of a Series. An empty text has an empty domain, which always holds.

    Raises
    ------
    Fault
        The first fault of the texts: ``kind`` is ``'hours '`` and what docs/HOURS.md names, such as ``'hours Range'`` or
        ``'hours Holidays'``, ``row`` the place of the text in the column, from 1, ``place`` the number of bytes before the fault,
        and ``note`` what is expected there. Or the fault of the table of holidays, with its ``file``.
    ValueError
        An option is none, or has no such value.
    TypeError
        A value is no text, and is not missing.
    OSError
        There is no program ``gtdesk``, or it cannot run.

    Examples
    --------
    >>> import gtd
    >>> gtd.domains_of_hours(["Mo-Fr 8:00-18:00", None, "24/7"]).tolist()
    ['[[(t2t3t4t5t6h0m0){d1}]*[(h8m0){m600}]]', None, '[(h0m0){d1}]']
    """
    column = hours if isinstance(hours, pandas.Series) else pandas.Series(list(hours), dtype=object)
    values = numpy.asarray(column, dtype=object)
    codes, texts = pandas.factorize(values)
    for text in texts:
        if not isinstance(text, str):
            raise TypeError(f"opening hours are a str, not {type(text).__name__}")
    words = [*["--strict"] * strict, *words_of(options or {})]
    lines = [_line_of(text) for text in texts]
    domains: List[Optional[str]] = []
    for begin, end in files_of(lines, _HEAD):
        try:
            domains += _domains_of(words, _HEAD + b"".join(lines[begin:end]))
        except RuntimeError as error:
            raise _of_column(first_fault(error), codes, texts, begin) from None
    found = numpy.array([*domains, None], dtype=object)[codes]
    return pandas.Series(found, index=column.index, name=column.name, dtype=object)


def _line_of(text: str) -> bytes:
    line = io.StringIO()
    csv.writer(line, lineterminator="\n").writerow((0, "both", 0, text))
    return line.getvalue().encode("utf-8", "replace")


def _domains_of(words: Sequence[str], given: bytes) -> List[Optional[str]]:
    """The domains of a file of opening hours."""
    printed = run_desk("records", *words, "--", "-", given=given)
    domains: List[Optional[str]] = pandas.read_csv(
        io.BytesIO(printed), usecols=["domain"], dtype="str", keep_default_na=False
    )["domain"].tolist()
    return domains


def _of_column(error: Exception, codes: Any, texts: Sequence[str], begin: int) -> Exception:
    """The error of a run, with its place in the column and the whole text."""
    if not isinstance(error, Fault) or error.row is None or error.file is not None:
        return error
    code = begin + error.row - 1
    kind = _OF_TEXT.sub(r"hours \g<kind>", error.kind)
    fault = Fault(kind, place=error.place)
    return in_domain(fault, texts[code], row=int(numpy.flatnonzero(codes == code)[0]) + 1, note=error.note)
