"""Names in a folder, each held by one process at a time; and what is left by processes that were killed while they held one."""

from __future__ import annotations

import errno
import fcntl
import os
import shutil
import time
import warnings
from pathlib import Path
from typing import Optional

_UNKNOWN = (errno.ENOLCK, errno.ENOSYS, errno.EOPNOTSUPP)  # file systems without locks


class LeftBehind(UserWarning):
    """What a killed run left behind; or that it could not be removed."""


class Claim:
    """A lock file that this process holds. The system gives it up when the process ends, however it ends."""

    def __init__(self, path: Path, file: int, is_certain: bool) -> None:
        self.path, self._file = path, file
        self.is_certain = is_certain
        """Whether it is certain that no other process holds it. On a file system without locks, nobody knows."""

    def release(self) -> None:
        """Let others take it."""
        self.path.unlink(missing_ok=True)
        os.close(self._file)


def take(path: Path) -> Optional[Claim]:
    """Hold a name; None if another process holds it.

    Raises
    ------
    OSError
        The file cannot be made.
    """
    while True:
        file = os.open(path, os.O_RDWR | os.O_CREAT | os.O_CLOEXEC | os.O_NOFOLLOW, 0o600)
        try:
            fcntl.flock(file, fcntl.LOCK_EX | fcntl.LOCK_NB)
        except OSError as refused:
            if refused.errno in _UNKNOWN:
                return Claim(path, file, False)
            os.close(file)
            if isinstance(refused, BlockingIOError):
                return None
            raise
        if _is_still(path, file):
            return Claim(path, file, True)
        os.close(file)  # the process that held it has just removed it


def _is_still(path: Path, file: int) -> bool:
    try:
        return os.path.samestat(os.stat(path), os.fstat(file))
    except FileNotFoundError:
        return False


def remove(folder: Path, seconds: float = 5.0) -> None:
    """Remove a folder and all in it, even while a process that was given up still puts files there.

    It warns if that does not succeed within the time.
    """
    end = time.monotonic() + seconds
    while True:
        shutil.rmtree(folder, ignore_errors=True)
        if not folder.exists():
            return
        if time.monotonic() > end:
            warnings.warn(f"{folder} could not be removed: remove it by hand", LeftBehind, stacklevel=2)
            return
        time.sleep(0.1)
