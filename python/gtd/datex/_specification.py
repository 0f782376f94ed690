"""Specifications of validity as time domains."""

from __future__ import annotations

from typing import BinaryIO, Dict, Iterable, Iterator, List, NamedTuple, Optional, Sequence, Tuple

from gtd._exchange.texts import MOST_BASICS, DomainText, difference, product, total
from gtd._fault import Fault
from gtd.datex._periods import Overall, moment_in, period_text
from gtd.datex._values import Choices, Counts, parts_of
from gtd.datex._xml import XmlElement, find_parents

NAMESPACE = "http://datex2.eu/schema/"
SPECIFICATION = "validityTimeSpecification"
_STATUS, _OVERRUNNING = "validityStatus", "overrunning"
_BY_SPECIFICATION = ("definedByValidityTimeSpec", "planned")
_PARTS: Counts = {
    "overallStartTime": (1, 1),
    "overallEndTime": (0, 1),
    "validPeriod": (0, None),
    "exceptionPeriod": (0, None),
}


class Validity(NamedTuple):
    """When something holds."""

    id: str
    """The id of the record: that of the nearest element around the specification that has one."""
    kind: str
    """The type of the record, as ``RoadOrCarriagewayOrLaneManagement``."""
    version: str
    """The version of the record."""
    line: int
    """Of the element that has the specification."""
    domains: Tuple[str, ...]
    """Time domains, which hold in turn; there is more than one where one would have too many basic domains."""
    fault: Optional[Fault]
    """Why there are none."""


def validities(file: BinaryIO, choices: Choices = Choices(), ids: Optional[Iterable[str]] = None) -> Iterator[Validity]:
    """When the records of a file hold that have a ``validityTimeSpecification`` of DATEX II 2.x or 3.x.

    A second is valid if it is in the overall period, in some valid period or where there is none, and in no exception. Recurring
    times of day and days are those of the civil clock of the roads; a moment with an offset is turned into it.

    Parameters
    ----------
    file : binary file
        It is read once, with the memory of one record.
    choices : Choices
        How what the standard leaves open is read.
    ids : iterable of str, optional
        Only the records with these ids are judged.

    Yields
    ------
    Validity
        In the order of the file; one that is refused has its fault.

    Raises
    ------
    Fault
        ``'Xml'``, ``'Doctype'``, with the line: the file cannot be read to its end.
    ValueError
        A choice is none of those that there are.
    """
    choices.check()
    wanted = None if ids is None else frozenset(ids)
    versions: Dict[str, str] = {}
    for found in find_parents(file, SPECIFICATION, NAMESPACE):
        holder = next((element for element in [found.element, *reversed(found.around)] if element.id), None)
        if wanted is None or (holder is not None and holder.id in wanted):
            yield _validity(holder, found.element, choices, versions)


def _validity(holder: Optional[XmlElement], element: XmlElement, choices: Choices, versions: Dict[str, str]) -> Validity:
    domains: Tuple[str, ...] = ()
    fault: Optional[Fault] = None
    try:
        if holder is None:
            raise Fault("Missing", line=element.line, note="an id of the record")
        if versions.setdefault(holder.id, holder.version) != holder.version:
            raise Fault("Repeated", line=holder.line, note="one version of a record")
        domains = tuple(part.text for part in _domains(element, choices))
    except Fault as refused:
        fault = refused
    holder = holder or element
    return Validity(holder.id, holder.type_name, holder.version, element.line, domains, fault)


def _domains(element: XmlElement, choices: Choices) -> List[DomainText]:
    specification = next(child for child in element.children if child.name == SPECIFICATION)
    if specification.is_cut:
        raise Fault("TooMany", line=specification.line, note="at most 10,000 elements of one specification")
    parts = parts_of(specification, _PARTS)
    _check_beside(element, bool(parts["validPeriod"] or parts["exceptionPeriod"]), bool(parts["overallEndTime"]))
    first, until = (moment_in(parts[name], choices) for name in ("overallStartTime", "overallEndTime"))
    assert first is not None  # since there is one overallStartTime
    overall = Overall(first, until, specification.line)
    whole = overall.text
    valid = [period_text(period, overall, choices) for period in parts["validPeriod"]]
    exceptions = [period_text(period, overall, choices) for period in parts["exceptionPeriod"]]
    inside = [period for period in valid if period is not None]
    if valid and not inside:
        raise Fault("Never", line=specification.line, note="a valid period within the overall one")
    is_bounded = bool(inside) and all(period.is_bounded for period in inside)
    taken = [period.text for period in exceptions if period is not None]
    return _rows([period.text for period in inside], None if is_bounded else whole, taken, specification.line)


def _rows(
    valid: Sequence[DomainText], whole: Optional[DomainText], exceptions: Sequence[DomainText], line: int
) -> List[DomainText]:
    """One domain, or several that hold in turn where one would have too many basic domains."""
    more = sum(part.basics for part in exceptions) + (0 if whole is None else whole.basics)
    groups: List[List[DomainText]] = [[]]
    basics = 0
    for part in valid:
        if groups[-1] and basics + part.basics + more > MOST_BASICS:
            groups.append([])
            basics = 0
        groups[-1].append(part)
        basics += part.basics
    rows: List[DomainText] = []
    for group in groups:
        row = difference(product(([whole] if whole else []) + ([total(group)] if group else [])), exceptions)
        if row.basics > MOST_BASICS:
            raise Fault("TooMany", line=line, note=f"{MOST_BASICS} basic domains, and this needs {row.basics}")
        rows.append(row)
    return rows


def _check_beside(element: XmlElement, has_periods: bool, has_end: bool) -> None:
    """Refuse an element beside the specification that contradicts it."""
    if all(child.name != _STATUS for child in element.children):
        raise Fault("Missing", line=element.line, note=f"{_STATUS} in {element.name}")
    seen = set()
    for child in element.children:
        if child.name == _STATUS:
            _check_status(child, has_periods)
        elif child.name == _OVERRUNNING:
            _check_overrunning(child, has_end)
        elif child.name != SPECIFICATION:
            raise Fault("Unknown", line=child.line, note=f"in {element.name}: {_STATUS}, {_OVERRUNNING}, {SPECIFICATION}")
        if child.name in seen:
            raise Fault("Repeated", line=child.line, note=f"{child.name} once")
        seen.add(child.name)


def _check_status(status: XmlElement, has_periods: bool) -> None:
    if status.value not in _BY_SPECIFICATION and (status.value != "active" or has_periods):
        note = f"{' or '.join(_BY_SPECIFICATION)}, or active where there is no period"
        raise Fault("Status", line=status.line, note=note)


def _check_overrunning(overrunning: XmlElement, has_end: bool) -> None:
    if overrunning.value not in ("true", "1", "false", "0"):
        raise Fault("Value", line=overrunning.line, note=f"{_OVERRUNNING} is true or false")
    if overrunning.value in ("true", "1") and has_end:
        raise Fault("Overrunning", line=overrunning.line, note="false, since there is an end")
