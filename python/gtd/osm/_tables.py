"""The tables that are written: the tags of elements, and the ways from which elements come."""

from __future__ import annotations

import contextlib
from pathlib import Path
from types import TracebackType
from typing import BinaryIO, Iterator, List, Optional, Sequence, Tuple, Type

from gtd._fault import Fault
from gtd._program import LARGEST_FILE, MOST_ROWS

LAST_ELEMENT = 9_999_999_999
_TAGS, _ELEMENTS = b"element,key,value\n", b"element,way,first_node,last_node\n"
_QUOTED = frozenset(',"\r\n')


class Tables:
    """The tables of a run, in a folder. They are whole when the context ends without an error.

    Parameters
    ----------
    folder : pathlib.Path
        Where they are written.
    first : int or None
        The number of the first element. None: the number of each is that of its way.
    rows_per_table : int
        How many rows a table of tags has at most, if they are of more than one element.
    """

    def __init__(self, folder: Path, first: Optional[int], rows_per_table: int) -> None:
        self.parts: List[str] = []
        self.elements, self.tags = 0, 0
        self._folder, self._first, self._most = folder, first, rows_per_table
        self._rows, self._size = 0, 0  # of the table of tags that is open
        with _named(folder / "elements.csv") as path:
            self._ways: BinaryIO = open(path, "xb")
            self._ways.write(_ELEMENTS)
        self._open: Optional[BinaryIO] = None

    def add(self, way: int, ends: Tuple[int, int], tags: Sequence[Tuple[str, str]]) -> None:
        """Add an element: its way, the first and the last node of that, and its tags.

        Raises
        ------
        Fault
            There are too many elements, or too many tags for a table.
        OSError
            The disk is full.
        """
        element = way if self._first is None else self._first + self.elements
        if element > LAST_ELEMENT and self._first is not None:
            raise Fault("Element", note=f"way {way} would be one more than {LAST_ELEMENT}")
        if not 0 <= element <= LAST_ELEMENT:
            raise Fault("Element", note=f"way {way} has no number from 0 to {LAST_ELEMENT}, as elements have")
        rows = "".join(f"{element},{field(key)},{field(value)}\n" for key, value in tags).encode()
        if len(tags) > MOST_ROWS:
            raise Fault("TooManyRows", note=f"way {way} has {len(tags):,} tags that matter, and a table has {MOST_ROWS:,} rows")
        if len(_TAGS) + len(rows) > LARGEST_FILE:
            raise Fault("TooLarge", note=f"the tags of way {way} have more than {LARGEST_FILE:,} bytes")
        if self._open is None or self._rows + len(tags) > self._most or self._size + len(rows) > LARGEST_FILE:
            self._begin()
        assert self._open is not None
        with _named(self._folder / self.parts[-1]):
            self._open.write(rows)
        with _named(self._folder / "elements.csv"):
            self._ways.write(b"%d,%d,%d,%d\n" % (element, way, *ends))
        self._rows, self._size = self._rows + len(tags), self._size + len(rows)
        self.elements, self.tags = self.elements + 1, self.tags + len(tags)

    def _begin(self) -> None:
        """Begin the next table of tags."""
        self._end()
        name = f"tags-{len(self.parts):05}.csv"
        with _named(self._folder / name) as path:
            self._open = open(path, "xb")
            self._open.write(_TAGS)
        self.parts.append(name)
        self._rows, self._size = 0, len(_TAGS)

    def _end(self) -> None:
        """End the table of tags that is open."""
        if self._open is not None:
            with _named(self._folder / self.parts[-1]):
                self._open.close()

    def __enter__(self) -> Tables:
        return self

    def __exit__(
        self, kind: Optional[Type[BaseException]], error: Optional[BaseException], trace: Optional[TracebackType]
    ) -> None:
        if error is not None:
            for file in (self._ways, self._open):
                with contextlib.suppress(OSError):
                    if file is not None:
                        file.close()
            return
        if not self.parts:
            self._begin()  # no element: a table without rows
        self._end()
        with _named(self._folder / "elements.csv"):
            self._ways.close()


def field(text: str) -> str:
    """A field as it is written: quoted where it must be."""
    return text if _QUOTED.isdisjoint(text) else '"' + text.replace('"', '""') + '"'


@contextlib.contextmanager
def _named(path: Path) -> Iterator[Path]:
    """Says which file could not be written."""
    try:
        yield path
    except OSError as error:
        error.filename = error.filename or str(path)
        raise
