"""The command: ``python3 -m gtd.country IN.csv.. --from D --to D --vehicle N --out DIR [--scheduler ADDRESS]``."""

from __future__ import annotations

import argparse
import logging
import sys
from typing import Any, List, Optional, Union

from distributed import KilledWorker

from gtd import country
from gtd._command import status_of

_DIFFER = 4  # the status if two sets are compared and say something differently

# Of Dask and what it runs on: what they meet is raised here, and calls that a run leaves open when it ends are no news.
_LOGGERS = ("distributed", "tornado", "asyncio")


def main(words: Optional[List[str]] = None) -> int:
    """Run the command and return its exit status, as the programs': 0 done, 1 refused, 2 usage, 3 the machine, 4 a difference."""
    parser = _parser()
    given = parser.parse_args(words)
    if not given.scheduler and (given.tls_ca_file or given.tls_cert or given.tls_key):
        parser.error("the files of TLS are for a cluster that --scheduler names")
    if given.scheduler and given.workers is not None:
        parser.error("--workers is for the cluster that is started here, and --scheduler names another")
    for name in _LOGGERS:
        logging.getLogger(name).setLevel(logging.CRITICAL)
    return status_of(lambda: _done(given), KilledWorker)


def _done(given: argparse.Namespace) -> int:
    done = _run(given)
    if not given.quiet:
        print(f"{done.rows:,} rows, {len(done.parts):,} files, {done.size:,} bytes", file=sys.stderr)
    return _DIFFER if isinstance(done, country.Compared) and done.differs else 0


def _run(given: argparse.Namespace) -> Union[country.Done, country.Compared]:
    if given.scheduler:
        cluster = country.connect(given.scheduler, given.tls_ca_file, given.tls_cert, given.tls_key)
    else:
        cluster = country.local(given.workers)
    with cluster as client:
        more = {"client": client, "joined": given.join, "show_progress": not given.quiet and sys.stderr.isatty()}
        words = given.files, given.first, given.until, given.vehicle, given.out
        return country.diff(given.diff, *words, **more) if given.diff else country.schedule(*words, **more)


def _parser() -> argparse.ArgumentParser:
    parser = argparse.ArgumentParser(
        prog="python3 -m gtd.country", description="Schedules of any number of restrictions, on Dask."
    )
    parser.add_argument("files", nargs="+", metavar="IN.csv", help="record files, also .csv.gz, or patterns of names")
    parser.add_argument("--from", required=True, dest="first", metavar="DAY", help="the first day, YYYY-MM-DD")
    parser.add_argument("--to", required=True, dest="until", metavar="DAY", help="the day after the last")
    parser.add_argument("--vehicle", required=True, type=_types, metavar="TYPE", help="1 to 99, or many: 1,11,12")
    parser.add_argument("--out", required=True, metavar="DIR", help="a new folder for part-00000.csv...")
    parser.add_argument(
        "--diff", action="append", metavar="OLD.csv", help="what is said differently from these files; may repeat"
    )
    parser.add_argument("--join", action="store_true", help="one file for each type, in place of parts")
    parser.add_argument("--workers", type=_at_least_one, metavar="N", help="of the cluster started here; else one for each core")
    parser.add_argument("--scheduler", metavar="ADDRESS", help="of a Dask cluster: tcp://HOST:8786 or tls://HOST:8786")
    parser.add_argument("--tls-ca-file", metavar="FILE", help="the certificates that are trusted")
    parser.add_argument("--tls-cert", metavar="FILE", help="this client's certificate")
    parser.add_argument("--tls-key", metavar="FILE", help="its key")
    parser.add_argument("--quiet", action="store_true", help="no progress bar, and nothing said of success")
    return parser


def _types(word: str) -> Any:
    """One vehicle type, or many."""
    types = [int(part) for part in word.split(",")]
    return types[0] if len(types) == 1 else types


def _at_least_one(word: str) -> int:
    number = int(word)
    if number < 1:
        raise argparse.ArgumentTypeError("at least 1")
    return number


if __name__ == "__main__":
    sys.exit(main())
