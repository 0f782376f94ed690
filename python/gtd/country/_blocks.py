"""Blocks of files: their rows as the program migrates them, or where the first fault is."""

from __future__ import annotations

from dataclasses import dataclass
from typing import List, Optional, Tuple, Union

import numpy

from gtd._cutting import Beyond, Refused, Rows, fault_of, is_empty, migrate_lines, sort_rows
from gtd._fault import Fault
from gtd._library import load
from gtd._program import LARGEST_FILE, fingerprint, program
from gtd.country._files import Block


@dataclass(frozen=True)
class BlockRows:
    """The rows of a block that the program accepts."""

    rows: Rows
    lines: int
    """How many lines the block has, including empty ones."""
    engine: str
    """The fingerprint of what read them."""


@dataclass(frozen=True)
class Accepted:
    """What the client is told about a block that the program accepts."""

    lines: int
    rows: int
    engine: str


def engine() -> str:
    """The fingerprint of this worker's program, and of its library, if it has one."""
    library = load()
    return fingerprint(program()) + ("" if library is None else fingerprint(library.file()))


def read_rows(block: Block) -> Union[BlockRows, Refused]:
    """The rows of a block, if the program accepts it."""
    lines = block.read().splitlines(keepends=True)  # of bytes: at LF, CR and CR LF, as the program
    migrated = migrate_lines(block.file.front, lines)
    if isinstance(migrated, Refused):
        return migrated
    return BlockRows(sort_rows(migrated), len(lines), engine())


def report(read: Union[BlockRows, Refused]) -> Union[Accepted, Refused]:
    """What the client is told about a block."""
    if isinstance(read, Refused):
        return read
    return Accepted(read.lines, len(read.rows.elements), read.engine)


def fault_at(block: Block, refused: Refused, lines_before: int, rows_before: int) -> Fault:
    """The fault of a row, which may run on over the end of its block.

    Parameters
    ----------
    lines_before, rows_before : int
        Lines and rows of the file before the block.
    """
    file = block.file
    lines = block.read(further=LARGEST_FILE).splitlines(keepends=True)[refused.line :]
    line, row = lines_before + refused.line + 1, rows_before + refused.row + 1
    fault = fault_of(file.front, lines, row, file=file.name, line=line)
    if fault is None:
        raise RuntimeError(f"{file.name} was changed while it was read")
    if fault.kind == "Header":
        header = file.head.decode("utf-8", "replace").rstrip("\r\n")
        return Fault("Header", text=header, file=file.name, line=file.lines_before)
    return fault


def size_of(read: BlockRows, element: int) -> Tuple[int, int]:
    """How many rows of an element a block has, and their bytes."""
    first, last = _places(read.rows, element)
    sizes = numpy.diff(read.rows.ends, prepend=0)[first:last]
    return last - first, int(sizes.sum())


def fault_beyond(
    block: Block, beyond: Beyond, before: Tuple[int, int], lines_before: int, rows_before: int
) -> Optional[Fault]:
    """The fault of the row with which an element becomes too large for a file, or None if the row is not in this block.

    Parameters
    ----------
    before : tuple of int
        The element's rows before the block, and their bytes.
    lines_before, rows_before : int
        Lines and rows of the file before the block.
    """
    lines = block.read().splitlines(keepends=True)
    migrated = migrate_lines(block.file.front, lines)
    if isinstance(migrated, Refused):
        raise RuntimeError(f"{block.file.name} was changed while it was read")
    rows, size = before
    mine = b"%d," % beyond.element
    filled: List[int] = [at for at, line in enumerate(lines) if not is_empty(line)]
    for at, row in enumerate(migrated):
        if not row.startswith(mine):
            continue
        rows, size = rows + 1, size + len(row)
        if beyond.is_passed(rows, size):
            text = lines[filled[at]].rstrip(b"\r\n").decode("utf-8", "replace")
            number, line = rows_before + at + 1, lines_before + filled[at] + 1
            return Fault(beyond.kind, row=number, text=text, file=block.file.name, line=line, note=beyond.note)
    return None


def _places(rows: Rows, element: int) -> Tuple[int, int]:
    first = int(numpy.searchsorted(rows.elements, element, side="left"))
    return first, int(numpy.searchsorted(rows.elements, element, side="right"))
