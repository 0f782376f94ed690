"""The commands: ``python3 -m gtd.datex read FILE.xml .. --out FILE.csv`` and ``write DOMAIN .. --out FILE.xml``."""

from __future__ import annotations

import argparse
import sys
from typing import List, Optional

from gtd import datex
from gtd._command import status_of
from gtd._exchange.command import add_reading, add_writing, done, keep_closures, places_of, write_new, zone
from gtd._exchange.spans import moment_of, spans_of_domain


def main(words: Optional[List[str]] = None) -> int:
    """Run a command and return its exit status, as the programs': 0 done, 1 refused, 2 usage, 3 the machine."""
    given = _parser().parse_args(words)
    return status_of(lambda: done(given))


def _read(given: argparse.Namespace) -> int:
    choices = datex.Choices(given.zone, given.night, given.weeks, given.times, given.last_minute)
    places = places_of(given)
    with open(given.input, "rb") as file:
        found = list(datex.validities(file, choices, places))
    return keep_closures(given, found, places)


def _write(given: argparse.Namespace) -> int:
    spans = spans_of_domain(given.domain, given.first, given.until)
    text = datex.written(spans, moment_of(given.first), moment_of(given.until), given.version, given.zone)
    write_new(given.out, text.encode())
    return 0


def _parser() -> argparse.ArgumentParser:
    parser = argparse.ArgumentParser(
        prog="python3 -m gtd.datex", description="Time specifications of DATEX II as time domains, and back."
    )
    commands = parser.add_subparsers(required=True, metavar="COMMAND")
    read = commands.add_parser("read", help="the time specifications of a publication, as a record file")
    read.add_argument("input", metavar="FILE.xml", help="a publication of version 2 or 3")
    read.add_argument("--night", choices=["begins", "within"], help="which night times over midnight on some days mean")
    read.add_argument("--weeks", choices=["sevens"], help="weeks of a month in version 2: days 1 to 7, 8 to 14..")
    read.add_argument("--times", choices=["written"], help="times of day with an offset are read without it")
    read.add_argument("--last-minute", choices=["midnight"], help="ends of 23:59:00 and 23:59:59 are midnight")
    add_reading(read, _read)
    write = commands.add_parser("write", help="the spans of a time domain, as a time specification")
    write.add_argument("domain", metavar="DOMAIN", help="a time domain")
    write.add_argument("--zone", type=zone, help="moments have the offsets of this zone")
    write.add_argument("--version", type=int, choices=[2, 3], default=3, help="of DATEX II; else 3")
    add_writing(write, _write)
    return parser


if __name__ == "__main__":
    sys.exit(main())
