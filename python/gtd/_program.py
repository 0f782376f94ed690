"""The programs: where they are, and one run of one."""

from __future__ import annotations

import hashlib
import os
import shutil
import subprocess
import tempfile
from functools import lru_cache
from typing import IO, Optional, Sequence

from gtd._fault import read_fault
from gtd._library import BUNDLED, NAME, LibraryNotFound, load

LARGEST_FILE = 16_777_216  # bytes of a record file
MOST_ROWS = 65_536  # rows of a record file


class ProgramNotFound(FileNotFoundError):
    """The program ``gtd``, or ``gtdesk``, was not found."""


def program(name: str = "gtd") -> str:
    """The path of a program: the environment variable ``GTD`` (or ``GTDESK``), the one that the package's wheel holds, or
    otherwise the one on ``PATH``.

    Parameters
    ----------
    name : {'gtd', 'gtdesk'}

    Raises
    ------
    ProgramNotFound
        The environment variable does not name a file that can be run; or it is not set, and there is no such program.
    """
    variable = name.upper()
    named = os.environ.get(variable)
    bundled = BUNDLED / name
    if not named and bundled.exists():
        return str(bundled)
    found = shutil.which(named or name)
    if found is None and named:
        raise ProgramNotFound(f"the environment variable {variable} names {named!r}, which is no program that can be run")
    if found is None:
        way = f"put it on PATH, or set the environment variable {variable} to its path"
        raise ProgramNotFound(f"no program {name}: {way}{_lacks_library()}")
    return os.path.abspath(found)


def _lacks_library() -> str:
    """What to say of the library where a program is missing."""
    try:
        found = load()
    except LibraryNotFound:
        found = None
    return "" if found else f". Most calls need no program where the library {NAME} is: install it, or name it by LIBGTD"


@lru_cache(maxsize=None)
def fingerprint(path: str) -> str:
    """The SHA-256 of a file, in hexadecimal digits; it tells programs apart."""
    with open(path, "rb") as file:
        return hashlib.sha256(file.read()).hexdigest()


def run(*words: str, given: bytes = b"", into: Optional[IO[bytes]] = None) -> bytes:
    """What ``gtd`` prints when it reads ``given`` from ``/dev/stdin``.

    Parameters
    ----------
    into : binary file, optional
        Takes what is printed; nothing is returned then. It must have a file descriptor, and an empty buffer.

    Raises
    ------
    Fault
        The program refuses its words or what it read.
    ProgramNotFound
        There is no program.
    OSError, MemoryError
        The program could not read or write, or ran out of memory.
    RuntimeError
        What ran is not this program, or it was killed.
    """
    return _run(program(), words, given, into, (0,))


def run_desk(
    *words: str,
    given: bytes = b"",
    into: Optional[IO[bytes]] = None,
    answers: Sequence[int] = (0,),
    files: Sequence[int] = (),
    notes: Optional[IO[bytes]] = None,
) -> bytes:
    """What ``gtdesk`` prints when it reads ``given`` from ``/dev/stdin``, if it ends with one of these statuses; raises what
    :func:`run` raises.

    Parameters
    ----------
    into
        As in :func:`run`.
    files : sequence of int
        The descriptors of open files that the words name, as ``/dev/fd/7``.
    notes : binary file, optional
        Takes what is said on standard error of a run that ends so.
    """
    return _run(program("gtdesk"), words, given, into, answers, files, notes)


def _run(
    path: str,
    words: Sequence[str],
    given: bytes,
    into: Optional[IO[bytes]],
    answers: Sequence[int] = (0,),
    files: Sequence[int] = (),
    notes: Optional[IO[bytes]] = None,
) -> bytes:
    # Files in memory and not pipes: Python feeds a pipe in pieces of 4 KiB, and the processes would wait for each other
    # each time.
    with memory() as source, memory() as printed:
        source.write(given)
        source.seek(0)  # what is buffered is written, too
        output = printed if into is None else into
        done = subprocess.run([path, *words], stdin=source, stdout=output, stderr=subprocess.PIPE, pass_fds=tuple(files))
        if done.returncode in answers:
            if notes is not None:
                notes.write(done.stderr)
            printed.seek(0)
            return printed.read()
    said = done.stderr.decode("utf-8", "replace").strip()
    raise _failure(path, words[0], done.returncode, said)


def _failure(path: str, command: str, status: int, said: str) -> Exception:
    """The exception for a run that ended with a status other than 0."""
    fault = read_fault(said.partition("\n")[0])
    if fault is not None and status == 1:
        return fault
    if fault is not None and status == 3:
        kinds = {"NoMemory": MemoryError}
        return kinds.get(fault.kind, OSError)(f"{os.path.basename(path)} {command}: {fault.kind}")
    ended = f"ended with status {status}" if status >= 0 else f"was ended by signal {-status}"
    return RuntimeError(f"{path} {command} {ended}: {said or 'it said nothing'}")


def memory() -> IO[bytes]:
    """A file without a name."""
    if hasattr(os, "memfd_create"):
        return open(os.memfd_create("gtd"), "w+b")
    return tempfile.TemporaryFile()
