"""How a command ends: its exit status, and what it says on standard error."""

from __future__ import annotations

import signal
import sys
import warnings
from typing import Any, Callable, NoReturn, Tuple, Type

from gtd._claims import LeftBehind
from gtd._fault import Fault


def status_of(work: Callable[[], int], *failures: Type[BaseException]) -> int:
    """Do a command's work and return its exit status, as the programs': 0 done, 1 refused, 2 usage, 3 the machine.

    Parameters
    ----------
    work
        What is to be done; it returns the status if nothing fails.
    *failures
        Exceptions that are failures of the machine, beside OSError, MemoryError, RuntimeError and ImportError.
    """
    failed: Tuple[Type[BaseException], ...] = (OSError, MemoryError, RuntimeError, ImportError, *failures)
    warnings.simplefilter("ignore")
    warnings.simplefilter("always", LeftBehind)
    warnings.showwarning = _tell  # type: ignore[assignment]
    signal.signal(signal.SIGTERM, _end)
    try:
        return work()
    except Fault as fault:
        return _fail(1, fault)
    except ValueError as usage:
        return _fail(2, usage)
    except failed as failure:
        return _fail(3, failure)
    except KeyboardInterrupt:
        return _fail(130, "interrupted: nothing is kept")


def _end(number: int, _: Any) -> NoReturn:
    """End as if interrupted: nothing is kept, and nothing is left behind."""
    sys.exit(128 + number)


def _tell(message: Any, *_: Any) -> None:
    print(message, file=sys.stderr)


def _fail(status: int, said: object) -> int:
    print(str(said) or type(said).__name__, file=sys.stderr)
    return status
