"""The file of means: the names of modes, and of keys that are ignored."""

from __future__ import annotations

import csv
import io
from typing import FrozenSet, NamedTuple, Set

from gtd._fault import Fault
from gtd._program import LARGEST_FILE

CONDITIONAL = ":conditional"
_DIRECTIONS = (":forward", ":backward")
_HEADER = ["kind", "name", "means"]
_ONEWAY = "oneway"


class Names(NamedTuple):
    """Which keys matter."""

    keys: FrozenSet[str]
    """The keys of all modes."""
    ignored: FrozenSet[str]
    """Names of keys with conditions that do not matter."""

    def matters(self, key: str) -> bool:
        """Whether a key is one of a mode, or has conditions and is not ignored."""
        return key in self.keys or (key.endswith(CONDITIONAL) and not self.ignores(key))

    def ignores(self, key: str) -> bool:
        """Whether a key that ends in ``:conditional`` and is of no mode is ignored."""
        name = key[: -len(CONDITIONAL)]
        for direction in _DIRECTIONS:
            if name.endswith(direction):
                name = name[: -len(direction)]
                break
        return name in self.ignored


def keys_of(mode: str) -> Set[str]:
    """The keys of a mode. A way is one way in one direction, so ``oneway`` has none with a direction."""
    plain = [mode] if mode == _ONEWAY else [mode, *(mode + direction for direction in _DIRECTIONS)]
    return {key + end for key in plain for end in ("", CONDITIONAL)}


def read_names(path: str) -> Names:
    """The names that a file of means has.

    Raises
    ------
    Fault
        ``'TooLarge'``, ``'Header'``, ``'FieldCount'``.
    OSError
        It cannot be opened or read.
    """
    with open(path, "rb") as file:
        read = file.read(LARGEST_FILE + 1)
    if len(read) > LARGEST_FILE:
        raise Fault("TooLarge", file=path, note=f"accepted are {LARGEST_FILE:,} bytes")
    text = read.decode("utf-8-sig", "surrogateescape")
    try:
        rows = [fields for fields in csv.reader(io.StringIO(text, newline="")) if fields]
    except csv.Error as error:
        raise Fault("FieldCount", file=path, note=str(error)) from None
    if not rows or rows[0] != _HEADER:
        raise Fault("Header", file=path, note=f"accepted is {','.join(_HEADER)}")
    modes: Set[str] = set()
    ignored: Set[str] = set()
    for number, fields in enumerate(rows[1:], 1):
        if len(fields) != len(_HEADER):
            raise Fault("FieldCount", file=path, row=number, note=f"accepted are {len(_HEADER)} fields")
        if fields[0] == "mode":
            modes.add(fields[1])
        elif fields[0] == "ignore":
            ignored.add(fields[1])
    return Names(frozenset(key for mode in modes for key in keys_of(mode)), frozenset(ignored))
