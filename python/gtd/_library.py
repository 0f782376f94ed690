"""The library: where it is, and its calls (``gtd.h``) by ctypes.

A handle is used by one call at a time. The calls in :attr:`Library.held` keep the interpreter's lock while they run, so any
thread may ask by a handle that others use, too; long ones are made in pieces, between which other threads run. Those in
:attr:`Library.free` let other threads run, and are for handles that no other thread can reach.
"""

from __future__ import annotations

import ctypes
import os
from ctypes import c_bool, c_int64, c_size_t, c_uint8, c_uint32, c_uint64, c_void_p
from functools import lru_cache
from pathlib import Path
from typing import Any, Dict, List, Optional, Tuple

import numpy
from numpy.typing import NDArray

from gtd._fault import Fault

NAME = "libgtd.so.0"
BUNDLED = Path(__file__).parent / "native"  # what a wheel holds: the library and both programs

NO, YES, RANGE, KIND, MEMORY, YEAR, SHORT = range(7)  # the answers of calls

# The names of faults by their numbers, as the program prints them.
_TEXT_FAULTS = (
    "", "BadToken", "Fuzzy", "TooDeep", "TooMany", "Repeated", "FieldRange", "Negative", "Unexpected", "Incomplete",
    "TooLongDuration",
)  # fmt: skip
_RECORD_FAULTS = (
    "", "", "TooLarge", "Header", "FieldCount", "Element", "Direction", "Vehicle", "Domain", "TooManyRows",
)  # fmt: skip
_HOURS_FAULTS = ("", "BadToken", "Unsupported", "Range", "Unexpected", "Incomplete", "TooMany", "Years")
_DOMAIN, _TOO_MANY_ROWS = 8, 9
_MOST_ROWS = 65_536  # of a file; TooManyRows is the fault of the row after them

_PIECE = 1 << 16  # questions that are answered while the interpreter's lock is kept

QUESTION = numpy.dtype(
    {
        "names": ["element", "second", "vehicle", "negative"],
        "formats": ["u8", "i8", "u1", "?"],
        "offsets": [0, 8, 16, 17],
        "itemsize": 24,
    }
)


class LibraryNotFound(FileNotFoundError):
    """The library that the environment variable ``LIBGTD`` names cannot be loaded."""


class Handle(ctypes.Structure):
    """``gtd_handle``: a domain, the records of a file, spans or a text."""

    _fields_ = [("full", c_bool), ("at", c_void_p)]


class TextFault(ctypes.Structure):
    """``gtd_fault``: the first fault of a domain's text."""

    _fields_ = [("kind", c_uint32), ("place", c_size_t)]

    def fault(self) -> Fault:
        """The fault, without its text."""
        return Fault(_TEXT_FAULTS[self.kind], place=self.place)


class HoursFault(ctypes.Structure):
    """``gtd_hours_fault``: the first fault of a text of opening hours."""

    _fields_ = [("kind", c_uint32), ("place", c_size_t)]

    def fault(self) -> Fault:
        """The fault, without its text."""
        return Fault(f"hours {_HOURS_FAULTS[self.kind]}", place=self.place)


class Apart(ctypes.Structure):
    """``gtd_apart``: a second that one of two domains has alone, the domain ``1`` or ``2``."""

    _fields_ = [("second", c_int64), ("domain", c_uint32)]


class RecordFault(ctypes.Structure):
    """``gtd_record_fault``: the first fault of a record file."""

    _fields_ = [("kind", c_uint32), ("row", c_uint32), ("text", TextFault)]

    def fault(self) -> Fault:
        """The fault, without the text of its row."""
        kind, row = _RECORD_FAULTS[self.kind], self.row or None
        if self.kind == _DOMAIN:
            return Fault(f"{kind} {_TEXT_FAULTS[self.text.kind]}", place=self.text.place, row=row)
        return Fault(kind, row=_MOST_ROWS + 1 if self.kind == _TOO_MANY_ROWS else row)


# The words of each call. Addresses are passed as numbers, which costs less than a pointer made for each call.
_AT, _OUT = c_void_p, c_void_p
_ASKED = [_AT, c_uint64, c_bool, c_uint8]  # records, an element, a direction and a vehicle type
_CALLS: Dict[str, List[Any]] = {
    "domain_open": [_AT, ctypes.c_char_p, c_size_t, _OUT],
    "domain_from_hours": [_AT, ctypes.c_char_p, c_size_t, _OUT],
    "domain_holds": [_AT, c_int64],
    "domain_next": [_AT, c_int64, c_int64, _OUT],
    "domain_ever": [_AT, c_int64, _OUT],
    "domain_spans": [_AT, c_int64, c_int64, _AT],
    "domain_canon": [_AT, _AT],
    "domain_words": [_AT, _AT],
    "domain_picture": [_AT, c_uint32, _AT],
    "domain_holds_many": [_AT, c_void_p, c_size_t, _OUT, c_size_t, _OUT],
    "same": [_AT, _AT, c_int64, _OUT],
    "records_open": [_AT, ctypes.c_char_p, c_size_t, _OUT],
    "records_count": [_AT, _OUT],
    "records_element": [_AT, c_size_t, _OUT],
    "records_closed_at": [*_ASKED, c_int64],
    "records_next": [*_ASKED, c_int64, c_int64, _OUT],
    "records_closers": [*_ASKED, c_int64, _OUT, c_size_t, _OUT],
    "records_spans": [*_ASKED, c_int64, c_int64, _AT],
    "records_schedule": [_AT, c_int64, c_int64, c_uint8, _AT],
    "records_closed_many": [_AT, c_void_p, c_size_t, _OUT, c_size_t, _OUT],
    "share": [_AT, _AT],
    "spans_next": [_AT, _OUT, _OUT],
    "text_bytes": [_AT, _OUT, c_size_t, _OUT],
    "close": [_AT],
}


class Calls:
    """The calls of the library by their names without ``gtd_``; None for one that it does not have."""

    def __init__(self, loaded: ctypes.CDLL) -> None:
        for name, words in _CALLS.items():
            call = getattr(loaded, f"gtd_{name}", None)
            if call is not None:
                call.argtypes, call.restype = words, None if name == "close" else c_uint32
            setattr(self, name, call)

    def __getattr__(self, name: str) -> Any:  # for the types only: each call was set
        raise AttributeError(name)


class _Place(ctypes.Structure):
    """``Dl_info``: where an address belongs."""

    _fields_ = [("path", ctypes.c_char_p), ("base", c_void_p), ("name", ctypes.c_char_p), ("at", c_void_p)]


class Library:
    """A loaded library."""

    def __init__(self, path: str) -> None:
        self.path = path
        self.held, self.free = Calls(ctypes.PyDLL(path)), Calls(ctypes.CDLL(path))

    def has(self, *names: str) -> bool:
        """Whether it has these calls."""
        return all(getattr(self.held, name) is not None for name in names)

    def file(self) -> str:
        """The path of the file that it was loaded from, also if the system has found it by its name."""
        place = _Place()
        found = ctypes.CDLL(None).dladdr(ctypes.cast(self.held.close, c_void_p), ctypes.byref(place))
        return os.fsdecode(place.path) if found and place.path else self.path


def library() -> Optional[str]:
    """The path of the library that answers, or its name if the system finds it; None if there is none.

    It is the one that the package's wheel holds; otherwise the one at the path in the environment variable ``LIBGTD``; otherwise
    the system's ``libgtd.so.0``. Where there is none, the programs answer, more slowly.

    Raises
    ------
    LibraryNotFound
        ``LIBGTD`` names a file that cannot be loaded.
    """
    found = load()
    return None if found is None else found.path


def load(*needed: str) -> Optional[Library]:
    """The library, if there is one and it has these calls."""
    found = _loaded(os.environ.get("LIBGTD", ""))
    return found if found is not None and found.has("close", *needed) else None


@lru_cache(maxsize=None)
def _loaded(named: str) -> Optional[Library]:
    bundled = BUNDLED / NAME
    if bundled.exists():
        return Library(str(bundled))
    try:
        return Library(named or NAME)
    except OSError as error:
        if named:
            raise LibraryNotFound(f"the environment variable LIBGTD names {named!r}, which cannot be loaded: {error}") from None
        return None


class Held:
    """A handle that is closed with the object that holds it. ``at`` is its address."""

    __slots__ = ("library", "at", "_handle")

    def __init__(self, library: Library) -> None:
        self.library, self._handle = library, Handle(False, None)
        self.at = ctypes.addressof(self._handle)

    def __del__(self) -> None:
        self.library.held.close(self.at)


def done(answer: int) -> bool:
    """Whether a call found something. What must not come is raised: its numbers were looked at before the call."""
    if answer <= YES:
        return answer == YES
    if answer == MEMORY:
        raise MemoryError("the library ran out of memory")
    raise RuntimeError(f"the library answers {answer}: is it another version than this package needs?")


def text_of(held: Held) -> bytes:
    """The bytes of a text."""
    calls, length = held.library.held, c_size_t()
    if calls.text_bytes(held.at, None, 0, ctypes.addressof(length)) != SHORT:
        return b""
    out = ctypes.create_string_buffer(length.value)
    done(calls.text_bytes(held.at, ctypes.addressof(out), length.value, ctypes.addressof(length)))
    return out.raw


def spans_of(held: Held) -> NDArray[numpy.int64]:
    """All spans to come: a row for each, of its first second and the first second after it."""
    found: List[Tuple[int, int]] = []
    begin, end = c_int64(), c_int64()
    at, into, take = held.at, (ctypes.addressof(begin), ctypes.addressof(end)), held.library.held.spans_next
    while done(take(at, *into)):
        found.append((begin.value, end.value))
    return numpy.array(found, dtype="int64").reshape(-1, 2)


def answers_of(call: Any, at: int, questions: NDArray[Any]) -> NDArray[numpy.bool_]:
    """The answer to each question, piece by piece: ``questions`` is an array without gaps, of what the call takes."""
    answers = numpy.empty(len(questions), dtype="uint8")
    source, out, size = questions.ctypes.data, answers.ctypes.data, questions.itemsize
    answered = c_size_t()
    for begin in range(0, len(questions), _PIECE):
        count = min(_PIECE, len(questions) - begin)
        done(call(at, source + begin * size, count, out + begin, count, ctypes.addressof(answered)))
    return answers.view(numpy.bool_)
