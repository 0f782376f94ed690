"""An extract, read from its first byte to its last by pyosmium; and a bar that shows how far."""

from __future__ import annotations

import contextlib
import errno
import os
import stat
import sys
import threading
from types import TracebackType
from typing import Optional, Type

from gtd._fault import Fault
from gtd.osm._ways import Ways

_WIDTH = 40  # characters of the bar
_PAUSE = 0.25  # seconds between two looks
_OF_THE_MACHINE = ("Open failed", "Read failed", "Close failed")


def read(path: str, ways: Ways, show: bool) -> None:
    """Hand each way of an extract over.

    Raises
    ------
    Fault
        It is no extract, or the fault of a way.
    OSError
        It cannot be opened or read.
    ImportError
        There is no pyosmium.
    """
    try:
        from osmium.helper import make_simple_handler
    except ImportError as missing:
        raise ImportError(f"gtd.osm needs pyosmium (Debian's package python3-pyosmium): {missing}") from None
    _check_readable(path)
    with contextlib.ExitStack() as stack:
        if show:
            stack.enter_context(Bar(path, ways))
        try:
            make_simple_handler(way=ways.take).apply_file(path)
        except RuntimeError as failure:
            if str(failure).startswith(_OF_THE_MACHINE):
                raise OSError(f"{path}: {failure}") from None
            raise Fault("Extract", file=path, note=str(failure)) from None


def _check_readable(path: str) -> None:
    """Raise OSError, with the system's own reason, if the extract cannot be opened."""
    if stat.S_ISDIR(os.stat(path).st_mode):
        raise IsADirectoryError(errno.EISDIR, os.strerror(errno.EISDIR), path)
    if not os.access(path, os.R_OK):
        raise PermissionError(errno.EACCES, os.strerror(errno.EACCES), path)


class Bar:
    """A bar on standard error, for as long as the context lasts: how much of an extract has been read.

    pyosmium does not tell; but the system tells how far a file has been read that this process has open.
    """

    def __init__(self, path: str, ways: Ways) -> None:
        self._file, self._ways = os.stat(path), ways
        self._ended = threading.Event()
        self._thread = threading.Thread(target=self._draw_again, daemon=True)

    def __enter__(self) -> Bar:
        self._thread.start()
        return self

    def __exit__(
        self, kind: Optional[Type[BaseException]], error: Optional[BaseException], trace: Optional[TracebackType]
    ) -> None:
        self._ended.set()
        self._thread.join()
        if error is None:
            self._draw(1.0)
        print(file=sys.stderr)

    def _draw_again(self) -> None:
        while not self._ended.wait(_PAUSE):
            self._draw(self._part())

    def _draw(self, part: float) -> None:
        done = "#" * int(_WIDTH * part)
        line = f"\r[{done:<{_WIDTH}}] | {int(100 * part):3}% read | {self._ways.ways:,} ways"
        print(line, end="", file=sys.stderr, flush=True)

    def _part(self) -> float:
        """How much of the file has been read, 0 to 1."""
        read = 0
        for name in os.listdir("/proc/self/fd"):
            with contextlib.suppress(OSError):  # it has been closed meanwhile
                if os.path.samestat(os.stat(f"/proc/self/fd/{name}"), self._file):
                    with open(f"/proc/self/fdinfo/{name}", encoding="ascii") as about:
                        read = max(read, int(about.readline().split()[1]))
        return min(1.0, read / self._file.st_size) if self._file.st_size else 0.0
