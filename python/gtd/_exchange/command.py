"""What the commands of :mod:`gtd.datex` and :mod:`gtd.ical` share: words, lines of faults, outputs."""

from __future__ import annotations

import argparse
import sys
from pathlib import Path
from typing import Any, Callable, Dict, List, Optional, Sequence
from zoneinfo import ZoneInfo, ZoneInfoNotFoundError

from gtd._exchange.tables import ClosedPlace, Closure, read_places, write_domains, write_records
from gtd._fault import Fault
from gtd._program import LARGEST_FILE
from gtd._staging import Staging

Work = Callable[[argparse.Namespace], int]


def print_fault(file: str, fault: Fault, name: str = "") -> int:
    """Print a line ``FILE:LINE: ID: KIND: what is accepted there`` on standard error, and return the status of a refusal.

    Parameters
    ----------
    file : str
        The input, for a fault that names no file itself.
    name : str
        The id, if the fault is that of one.
    """
    where = fault.file or file
    where += "" if fault.line is None else f":{fault.line}"
    said = ": ".join(part for part in (where, name, fault.kind, fault.note) if part)
    print("".join(sign if sign.isprintable() else "\N{REPLACEMENT CHARACTER}" for sign in said), file=sys.stderr)
    return 1


def keep_closures(given: argparse.Namespace, found: Sequence[Any], places: Optional[Dict[str, List[ClosedPlace]]]) -> int:
    """Write what was read, or print every fault and write nothing. Returns the status.

    Parameters
    ----------
    found
        What has an ``id``, ``domains`` and a ``fault``, which is None if there is none.
    places
        The table of places; without it a table ``id,domain`` is written.
    """
    status = 0
    for one in found:
        if one.fault is not None:
            status = print_fault(given.input, one.fault, one.id)
    names = {one.id for one in found}
    for name, first in (() if places is None else places.items()):
        if name not in names:
            status = print_fault(given.places, Fault("NotFound", line=first[0].line, note=f"an id of {given.input}"), name)
    if not found and status == 0:
        status = print_fault(given.input, Fault("NotFound", line=1, note="a file that says when something holds"))
    if status == 0:
        closures = [Closure(one.id, one.domains) for one in found]
        data = write_domains(closures) if places is None else write_records(closures, places, given.places)
        write_new(given.out, data)
    return status


def places_of(given: argparse.Namespace) -> Optional[Dict[str, List[ClosedPlace]]]:
    """The table of ``--places``, if there is one."""
    return None if given.places is None else read_places(read_table(given.places), given.places)


def read_table(path: str) -> bytes:
    """The bytes of a small file.

    Raises
    ------
    Fault
        ``'TooLarge'``.
    OSError
        The file cannot be opened or read.
    """
    with open(path, "rb") as file:
        data = file.read(LARGEST_FILE + 1)
    if len(data) > LARGEST_FILE:
        raise Fault("TooLarge", file=path, note=f"{LARGEST_FILE:,} bytes")
    return data


def write_new(path: str, data: bytes) -> None:
    """Write a file that is there whole or not at all.

    Raises
    ------
    OSError
        It is there already, or cannot be written.
    """
    out = Path(path).absolute()
    with Staging(out, True) as staging:
        try:
            (staging.parts / out.name).write_bytes(data)
            staging.keep([[out.name]], [out.name], True)
        except OSError as error:
            error.filename = error.filename or path
            raise


def add_reading(parser: argparse.ArgumentParser, work: Work) -> None:
    """The words of a command that reads a file."""
    parser.add_argument("--places", metavar="PLACES.csv", help="id,element,direction,vehicles; else id,domain is written")
    parser.add_argument("--zone", type=zone, help="the zone of the roads, as Europe/Vienna")
    parser.add_argument("--out", required=True, metavar="FILE.csv", help="a new file")
    parser.set_defaults(work=work)


def add_writing(parser: argparse.ArgumentParser, work: Work) -> None:
    """The words of a command that writes spans between two days."""
    parser.add_argument("--from", required=True, dest="first", metavar="DAY", help="the first day, YYYY-MM-DD")
    parser.add_argument("--to", required=True, dest="until", metavar="DAY", help="the day after the last")
    parser.add_argument("--out", required=True, metavar="FILE", help="a new file")
    parser.set_defaults(work=work)


def done(given: argparse.Namespace) -> int:
    """Do the work of a command. A fault of its input is a line, as those of closures are."""
    work: Work = given.work
    try:
        return work(given)
    except Fault as fault:
        if fault.text is not None or (fault.line is None and fault.file is None):
            raise  # of the library, which shows the text
        return print_fault(getattr(given, "input", None) or "", fault)


def zone(word: str) -> ZoneInfo:
    """The zone that a word names."""
    try:
        return ZoneInfo(word)
    except (ZoneInfoNotFoundError, ValueError, OSError):
        raise argparse.ArgumentTypeError(f"no zone {word!r} on this system, which has those as Europe/Vienna") from None
