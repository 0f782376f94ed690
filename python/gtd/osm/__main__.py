"""The command: ``python3 -m gtd.osm EXTRACT --means MEANS.csv --out DIR [--records [--holidays FILE] ..] [--ids way]``."""

from __future__ import annotations

import argparse
import sys
from typing import List, Optional

from gtd import osm
from gtd._command import status_of
from gtd._desk import OPTIONS
from gtd.osm._tables import LAST_ELEMENT

_LEFT_OUT = 4  # the status of a run that left elements out
_SHOWN = 10  # keys that the means do not have


def main(words: Optional[List[str]] = None) -> int:
    """Run the command and return its exit status, as the programs': 0 done, 1 refused, 2 usage, 3 the machine; 4 done, but
    elements were left out of the record files, as their tags are at fault.
    """
    parser = _parser()
    given = parser.parse_args(words)
    if given.ids == "way" and given.first != 1:
        parser.error("--first is of elements that are numbered in order, and not by --ids way")
    if given.close_left_out and not given.records:
        parser.error("--close-left-out needs --records")
    return status_of(lambda: _done(given))


def _done(given: argparse.Namespace) -> int:
    show = not given.quiet and sys.stderr.isatty()
    values = {name: getattr(given, name.replace("-", "_")) for name in OPTIONS}
    hours = {name: value for name, value in values.items() if value is not None}
    done = osm.extract(
        given.extract,
        given.means,
        given.out,
        first=given.first,
        ids=given.ids,
        records=given.records,
        close_left_out=given.close_left_out,
        hours=hours,
        show_progress=show,
    )
    if not given.quiet:
        said = f"{done.ways:,} ways, {done.elements:,} elements, {done.tags:,} tags, {len(done.parts):,} tables of tags"
        left_out = ", ".join(f"{count:,} {reason}" for reason, count in done.left_out.items())
        print(f"{said}\nleft out: {left_out}", file=sys.stderr)
        if done.unknown:
            some = [f"{key} ({count:,})" for key, count in done.unknown.items()]
            print(f"no name of the means: {', '.join(some[:_SHOWN])}{', ...' * (len(some) > _SHOWN)}", file=sys.stderr)
        if given.records:
            print(_told(done, given.close_left_out), file=sys.stderr)
    return _LEFT_OUT if done.at_fault and not given.close_left_out else 0


def _told(done: osm.Done, are_closed: bool) -> str:
    """What the record files have."""
    left_out = ", ".join(f"{count:,} {kind}" for kind, count in done.at_fault.items())
    said = f"{done.rows:,} rows in {len(done.records):,} record files"
    of_them = "elements that they always close" if are_closed else "elements left out of them"
    return f"{said}\n{of_them}, by fault: {left_out}" if left_out else said


def _parser() -> argparse.ArgumentParser:
    parser = argparse.ArgumentParser(
        prog="python3 -m gtd.osm", description="The tags of an OpenStreetMap extract's ways that restrict them, as tables."
    )
    parser.add_argument("extract", metavar="EXTRACT", help="an extract, .osm.pbf or .osm")
    parser.add_argument("--means", required=True, metavar="MEANS.csv", help="what names stand for: kind,name,means")
    parser.add_argument("--out", required=True, metavar="DIR", help="a new folder for tags-00000.csv... and elements.csv")
    parser.add_argument("--records", action="store_true", help="also record files, records-00000.csv..., and left_out.csv")
    parser.add_argument(
        "--close-left-out", action="store_true", help="always close elements whose tags are at fault; else they are left out"
    )
    parser.add_argument("--holidays", metavar="FILE", help="the table of holidays, for PH and SH in hours of record files")
    parser.add_argument("--years", metavar="F-L", help="the years in which holidays and Easter are known")
    parser.add_argument("--open-end", metavar="HH:MM", help="the end of hours such as 17:00+")
    parser.add_argument("--points", metavar="N", help="how many minutes a point of time lasts")
    for event in ("sunrise", "sunset", "dawn", "dusk"):
        parser.add_argument(f"--{event}", metavar="HH:MM", help=f"the clock time of {event}")
    parser.add_argument("--day-names", choices=["de"], help="that Di, Do and So are German weekdays")
    parser.add_argument("--first", type=_element, default=1, metavar="N", help="the number of the first element; else 1")
    parser.add_argument(
        "--ids", choices=["order", "way"], default="order", help="number elements in order, or by the numbers of their ways"
    )
    parser.add_argument("--quiet", action="store_true", help="no progress bar, and nothing said of success")
    return parser


def _element(word: str) -> int:
    number = int(word)
    if not 0 <= number <= LAST_ELEMENT:
        raise argparse.ArgumentTypeError(f"0 to {LAST_ELEMENT}")
    return number


if __name__ == "__main__":
    sys.exit(main())
