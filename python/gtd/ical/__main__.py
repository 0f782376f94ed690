"""The commands: ``python3 -m gtd.ical write FILE .. --out FILE.ics`` and ``read FILE.ics .. --out FILE.csv``."""

from __future__ import annotations

import argparse
import hashlib
import sys
from datetime import date, datetime, timezone
from typing import List, Optional

from gtd import ical
from gtd._command import status_of
from gtd._domain import canon
from gtd._exchange.command import (
    add_reading,
    add_writing,
    done,
    keep_closures,
    places_of,
    print_fault,
    read_table,
    write_new,
    zone,
)
from gtd._exchange.spans import closed_elements, moment_of, spans_of_domain
from gtd._exchange.tables import read_names
from gtd._fault import Fault
from gtd._moments import day_of
from gtd.ical._calendar import HOST

_SUMMARIES = {"both": "closed", "positive": "closed forwards", "negative": "closed backwards"}


def main(words: Optional[List[str]] = None) -> int:
    """Run a command and return its exit status, as the programs': 0 done, 1 refused, 2 usage, 3 the machine."""
    parser = _parser()
    given = parser.parse_args(words)
    if given.work is _write and (given.input is None) == (given.domain is None):
        parser.error("write: a record file FILE or --domain DOMAIN")
    if given.work is _write and (given.input is None) != (given.vehicle is None):
        parser.error("write: --vehicle goes with a record file FILE")
    return status_of(lambda: done(given))


def _write(given: argparse.Namespace) -> int:
    closed = _closed_domain(given) if given.input is None else _closed_elements(given)
    stamp = given.stamp or datetime.now(timezone.utc)
    write_new(given.out, ical.calendar(closed, given.title, stamp, given.zone, given.host))
    if not any(one.spans for one in closed):
        print(f"{given.out}: no event, since nothing is closed between the two days", file=sys.stderr)
    return 0


def _closed_elements(given: argparse.Namespace) -> List[ical.Closed]:
    names = {} if given.names is None else read_names(read_table(given.names), given.names)
    found = closed_elements(given.input, given.vehicle, given.first, given.until)
    summaries = [f"{names.get(one.element, one.element)} {_SUMMARIES[one.direction]}" for one in found]
    return [ical.Closed(f"{one.element}-{one.direction}", text, one.spans) for one, text in zip(found, summaries)]


def _closed_domain(given: argparse.Namespace) -> List[ical.Closed]:
    """The spans of one domain. Its UIDs have a digest of the canonical text, so that two domains share none."""
    spans = spans_of_domain(given.domain, given.first, given.until)
    digest = hashlib.sha256(canon(given.domain).encode()).hexdigest()[:16]
    return [ical.Closed(f"domain-{digest}", given.title, spans)]


def _read(given: argparse.Namespace) -> int:
    until: Optional[date] = None
    if given.until is not None:
        day_of(given.until)  # which refuses what is no day
        until = moment_of(given.until).date()
    places = places_of(given)
    with open(given.input, "rb") as file:
        data = file.read()
    found = list(ical.closures(data, ical.Choices(given.zone, tuple(given.zone_name), until), places))
    status = keep_closures(given, found, places)
    for one in found:
        if status == 0 and one.listed_until is not None:
            note = f"dates before {one.listed_until} alone, since no time domain expresses the rule"
            print_fault(given.input, Fault("Listed", line=one.line, note=note), one.id)
    return status


def _parser() -> argparse.ArgumentParser:
    parser = argparse.ArgumentParser(
        prog="python3 -m gtd.ical", description="Closures as calendars to subscribe to, and calendars as record files."
    )
    commands = parser.add_subparsers(required=True, metavar="COMMAND")
    write = commands.add_parser("write", help="the closed spans of a record file, as a calendar")
    write.add_argument("input", nargs="?", metavar="FILE", help="a record file")
    write.add_argument("--domain", metavar="DOMAIN", help="in place of the file: a time domain that closes")
    write.add_argument("--vehicle", type=int, metavar="N", help="the vehicle type, 1 to 99")
    write.add_argument("--names", metavar="NAMES.csv", help="element,name: what summaries call elements")
    write.add_argument("--title", default="Closures", help="the calendar's name, and what a domain's events are called")
    write.add_argument("--zone", type=zone, help="the zone of the roads; else times are those of any clock")
    write.add_argument("--host", default=HOST, help="what UIDs end in: the publisher's domain name")
    write.add_argument("--stamp", type=_stamp, metavar="YYYYMMDDThhmmssZ", help="when it is made; else now")
    add_writing(write, _write)
    read = commands.add_parser("read", help="the events of a calendar, as a record file")
    read.add_argument("input", metavar="FILE.ics", help="a calendar")
    read.add_argument("--zone-name", action="append", default=[], metavar="NAME", help="another name of the zone in the file")
    read.add_argument("--to", dest="until", metavar="DAY", help="list dates that no domain expresses as a rule before this day")
    add_reading(read, _read)
    return parser


def _stamp(word: str) -> datetime:
    try:
        return datetime.strptime(word, "%Y%m%dT%H%M%SZ").replace(tzinfo=timezone.utc)
    except ValueError:
        raise argparse.ArgumentTypeError("YYYYMMDDThhmmssZ") from None


if __name__ == "__main__":
    sys.exit(main())
