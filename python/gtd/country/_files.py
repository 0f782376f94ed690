"""The files of a set of records: where their rows begin, and how each is read from any place on."""

from __future__ import annotations

import gzip
import os
import re
import zlib
from dataclasses import dataclass
from pathlib import Path
from typing import Any, Callable, Dict, Hashable, List, Optional, Tuple

from fsspec.core import url_to_fs
from fsspec.implementations.local import LocalFileSystem
from fsspec.utils import read_block

from gtd._program import LARGEST_FILE

MOST_UNPACKED = 1 << 34
"""Bytes that are unpacked of a file at most: a small file may hold any number of them."""

_PATTERN = re.compile(r"[*?[]")
_MARK = b"\xef\xbb\xbf"
_HEAD = re.compile(rb"(?P<empty>[\r\n]*)(?P<head>[^\r\n]+(?:\r\n|\r(?!\Z)|\n))")


@dataclass(frozen=True)
class Source:
    """An input file, as it was named."""

    fs: Any
    path: str
    key: str
    """A value that changes when the file does."""

    @property
    def is_packed(self) -> bool:
        """Whether its name says that gzip has packed it."""
        return self.path.endswith(".gz")

    @property
    def identity(self) -> Hashable:
        """What all names of the file share: on this machine its inode, elsewhere its address."""
        if isinstance(self.fs, LocalFileSystem):
            status = os.stat(self.path)
            return status.st_dev, status.st_ino
        return self.fs, self.path

    def is_changed(self) -> bool:
        """Whether the file has changed since it was first looked at."""
        return bool(self.fs.ukey(self.path) != self.key)


@dataclass(frozen=True)
class File:
    """A record file that can be read from any place on: an input file, or what was packed in one."""

    fs: Any
    path: str
    name: str
    """What faults call the file."""
    size: int
    """Bytes."""
    head: bytes
    """The header, with its line end."""
    front: bytes
    """What the program reads before the lines of a block: the header, read as it is in the file."""
    empty: int
    """How many empty lines come before the header."""
    begin: int
    """The first byte after the header."""

    @property
    def end_of_line(self) -> bytes:
        """The line end at which the file is cut."""
        return b"\r" if self.head.endswith(b"\r") else b"\n"

    @property
    def lines_before(self) -> int:
        """How many lines come before the first row's line."""
        return self.empty + 1


@dataclass(frozen=True)
class Block:
    """Some lines of a file: those that begin after the line ends from ``begin`` on, up to ``length`` bytes later."""

    file: File
    begin: int
    length: int

    def read(self, further: int = 0) -> bytes:
        """The bytes of the lines, and of the lines in ``further`` more bytes."""
        if self.file.begin >= self.file.size:
            return b""
        with self.file.fs.open(self.file.path, "rb") as opened:
            text = bytes(read_block(opened, self.begin, self.length + further, self.file.end_of_line))
        # A file that is cut at CR may also hold CR LF.
        return text[1:] if self.file.end_of_line == b"\r" and text.startswith(b"\n") else text


def sources(paths: List[str], storage_options: Optional[Dict[str, Any]] = None) -> List[Source]:
    """The input files, in the order given.

    A name that exists is that file, whatever its characters. Any other name with ``*``, ``?`` or ``[`` is a pattern, which
    stands for its files in the order of their names.

    Raises
    ------
    FileNotFoundError
        There is none, or one of them does not exist.
    ValueError
        A file would be read twice.
    """
    found: List[Source] = []
    for path in paths:
        fs, name = url_to_fs(path, **(storage_options or {}))
        names = sorted(fs.glob(name)) if _PATTERN.search(name) and not fs.exists(name) else [name]
        if not names:
            raise FileNotFoundError(f"no file: {path}")
        found += [Source(fs, name, fs.ukey(name)) for name in names]
    _check_once(found)
    return found


def _check_once(found: List[Source]) -> None:
    """Refuse a file with two names, since its rows would be read twice."""
    names: Dict[Hashable, str] = {}
    for source in found:
        if source.identity in names:
            raise ValueError(f"{source.path} would be read twice: it is the file {names[source.identity]}, which comes before it")
        names[source.identity] = source.path


def unpack(source: Source, into: Path) -> None:
    """Write what is packed in a file; a second attempt writes the same bytes in its place.

    Raises
    ------
    OSError
        The file is not a gzip file, or is cut short, or too much is packed in it; or it cannot be read, or the other cannot be
        written.
    """
    unpacked = 0
    try:
        with source.fs.open(source.path, "rb") as packed, open(into, "wb") as file, gzip.GzipFile(fileobj=packed) as opened:
            while piece := opened.read(1 << 20):
                unpacked += len(piece)
                if unpacked > MOST_UNPACKED:
                    raise OSError(f"{source.path} holds more than {MOST_UNPACKED:,} bytes, which is the most that is unpacked")
                file.write(piece)
    except (EOFError, gzip.BadGzipFile, zlib.error) as broken:
        raise OSError(f"{source.path} is no whole gzip file: {broken}") from None
    except OSError as failure:
        raise named(failure, into) from None


def named(failure: OSError, path: Path) -> OSError:
    """The same failure with the file's name, if it has none: the system gives none if a write fails."""
    if failure.filename is not None or failure.errno is None:
        return failure
    return OSError(failure.errno, failure.strerror, str(path))


def open_file(source: Source, unpacked: Optional[Path] = None) -> File:
    """The record file of an input file; if that was packed, the record file is at ``unpacked``.

    Raises
    ------
    OSError
        The file cannot be read.
    """
    fs = source.fs if unpacked is None else LocalFileSystem()
    path = source.path if unpacked is None else str(unpacked)
    size = int(fs.info(path)["size"])
    with fs.open(path, "rb") as opened:
        front, found = _front(opened.read)
    if found is None:  # a header and nothing else, or nothing at all, or no header
        head = front[:LARGEST_FILE]
        return File(fs, path, source.path, size, head, head, 0, size)
    head = found["head"]
    # The program skips one mark at the front of what it reads. The file's own was skipped here, so another one is part of the
    # header, which is no header then.
    front = _MARK + head if head.startswith(_MARK) else head
    return File(fs, path, source.path, size, head, front, _count_lines(found["empty"]), found.end())


def _front(read: Callable[[int], bytes]) -> Tuple[bytes, Optional[re.Match[bytes]]]:
    """The first bytes of a file, and its first line that is not empty.

    The line's end is known once a byte after it, or the end of the file, has been read.
    """
    front = read(4096)
    mark = len(_MARK) if front.startswith(_MARK) else 0
    found = _HEAD.match(front, mark)
    while found is None and len(front) < LARGEST_FILE:
        more = read(len(front))
        if not more:
            break
        front += more
        found = _HEAD.match(front, mark)
    return front, found


def _count_lines(text: bytes) -> int:
    return text.count(b"\n") + text.count(b"\r") - text.count(b"\r\n")


def blocks(file: File, size: int) -> List[Block]:
    """The blocks of a file, of ``size`` bytes each; at least one, so that its header is checked."""
    begin = max(file.begin - 1, 0)  # the end of the header's line, after which the first row begins
    return [Block(file, at, size) for at in range(begin, max(file.size, begin + 1), size)]
