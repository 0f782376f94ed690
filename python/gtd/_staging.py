"""An output that is there whole or not at all."""

from __future__ import annotations

import errno
import os
import shutil
import tempfile
import warnings
from pathlib import Path
from types import TracebackType
from typing import Optional, Sequence, Type

from gtd._claims import LeftBehind, remove, take

_NO_LINKS = (errno.EPERM, errno.EOPNOTSUPP, errno.ENOSYS, errno.EMLINK)  # file systems without hard links


class Staging:
    """A folder beside the output, in which the parts are made.

    The output gets its name in one step once it is whole. A worker that was given up and still writes finds no folder to
    put its part in. The run holds a lock file beside the output; a folder that is there while nobody holds the lock was
    left by a run that was killed. The next run for the same output removes it, with a warning.

    Parameters
    ----------
    out : pathlib.Path
        The output, absolute.
    is_file : bool
        Whether the output is one file and not a folder.

    Raises
    ------
    FileExistsError
        The output exists already, or another run is writing it.
    OSError
        The folder cannot be made.
    """

    def __init__(self, out: Path, is_file: bool) -> None:
        self.out, self.is_file = out, is_file
        out.parent.mkdir(parents=True, exist_ok=True)
        claim = take(out.parent / f".{out.name}.gtd-lock")
        if claim is None:
            raise FileExistsError(f"another run is writing {out}")
        self._claim = claim
        try:
            self._clean()
            if out.is_symlink() or out.exists() and (is_file or not out.is_dir() or any(out.iterdir())):
                raise FileExistsError(f"{out} is there already")
            self.path = Path(tempfile.mkdtemp(prefix=self._prefix, dir=out.parent))
            for folder in (self.attempts, self.parts, self.unpacked):
                folder.mkdir()
        except BaseException:
            claim.release()
            raise

    @property
    def _prefix(self) -> str:
        return f".{self.out.name}.gtd-run-"

    @property
    def attempts(self) -> Path:
        """Parts that are being written."""
        return self.path / "attempts"

    @property
    def parts(self) -> Path:
        """Parts that are whole."""
        return self.path / "parts"

    @property
    def unpacked(self) -> Path:
        """Input files that were packed."""
        return self.path / "unpacked"

    def _clean(self) -> None:
        """Remove what killed runs for this output left behind."""
        left = sorted(path for path in self.out.parent.iterdir() if path.name.startswith(self._prefix))
        for folder in left:
            if self._claim.is_certain:
                warnings.warn(f"{folder} was left by a run that did not end, and is removed now", LeftBehind, stacklevel=2)
                remove(folder)
            else:
                message = f"{folder} may have been left by a run that did not end: remove it if no run writes {self.out}"
                warnings.warn(message, LeftBehind, stacklevel=2)

    def __enter__(self) -> Staging:
        return self

    def keep(self, groups: Sequence[Sequence[str]], names: Sequence[str], is_joined: bool) -> None:
        """Give the output its name.

        Parameters
        ----------
        groups : sequence of sequences of str
            The parts of each file of a joined output, by their names in ``parts``.
        names : sequence of str
            The names of these files; for an output that is a file itself, its own name.
        is_joined : bool
            Whether the parts of each group are joined into one file.

        Raises
        ------
        OSError
            The name has been taken meanwhile, or the disk is full.
        """
        if not is_joined:
            os.replace(self.parts, self.out)
            return
        whole = self.path / "whole"
        whole.mkdir()
        for group, name in zip(groups, names):
            join([self.parts / part for part in group], whole / name)
        if self.is_file:
            _rename_new(whole / names[0], self.out)
        else:
            os.replace(whole, self.out)

    def __exit__(
        self, kind: Optional[Type[BaseException]], error: Optional[BaseException], trace: Optional[TracebackType]
    ) -> None:
        remove(self.path)
        self._claim.release()


def join(parts: Sequence[Path], into: Path) -> None:
    """Join CSV files into one: the header of the first, and then the lines of all. The parts are removed on the way."""
    with open(into, "xb") as whole:
        for number, path in enumerate(parts):
            with open(path, "rb") as part:
                if number:
                    part.readline()  # the header
                shutil.copyfileobj(part, whole, 1 << 20)
            path.unlink()


def _rename_new(path: Path, name: Path) -> None:
    """Give a file a name that is not taken."""
    try:
        os.link(path, name)
    except OSError as refused:
        if refused.errno not in _NO_LINKS:
            raise
        os.replace(path, name)
