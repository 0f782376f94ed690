"""Clusters: one on this machine, or one that already runs."""

from __future__ import annotations

import contextlib
import logging
import os
import signal
import socket
import ssl
import tempfile
from multiprocessing import resource_tracker
from pathlib import Path
from typing import Any, Dict, Iterator, Optional

from dask.system import CPU_COUNT
from distributed import Client, Nanny, Scheduler, SpecCluster, Worker
from distributed.security import Security
from distributed.system import MEMORY_LIMIT

from gtd._claims import remove, take

_SCRATCH = "gtd-workers-"
_LOOPBACK = "127.0.0.1"


class _WithoutHttp:
    """A process of a cluster without Dask's HTTP server, which answers whoever asks: no user of this machine has a secret for it."""

    def start_http_server(self, *_: Any, **__: Any) -> None:
        """Listen on no port."""


class _Scheduler(_WithoutHttp, Scheduler):  # type: ignore[misc]
    """The scheduler of a cluster on this machine."""


class _Worker(_WithoutHttp, Worker):  # type: ignore[misc]
    """A worker of a cluster on this machine."""


@contextlib.contextmanager
def local(workers: Optional[int] = None) -> Iterator[Client]:
    """A cluster on this machine, for as long as the context lasts.

    Whoever reaches a scheduler can run code as its user. So all processes listen on the loopback address alone, and talk to
    nobody who does not have the cluster's certificate, which is made anew each time and never leaves their memory.

    Parameters
    ----------
    workers : int, optional
        How many worker processes; by default, one for each core.
    """
    with _scratch() as folder, contextlib.ExitStack() as stack:
        with _interrupts_put_off():
            cluster = stack.enter_context(_started(workers or CPU_COUNT, folder))
            client = stack.enter_context(Client(cluster))
        yield client


def _started(workers: int, folder: Path) -> SpecCluster:
    """A cluster of so many workers, which put what they must put on the disk into a folder."""
    security = Security.temporary()
    common: Dict[str, Any] = {"host": _LOOPBACK, "protocol": "tls://", "security": security}
    worker = {
        **common,
        "worker_class": _Worker,
        "nthreads": 1,
        "memory_limit": MEMORY_LIMIT // workers,
        "local_directory": str(folder),
        "silence_logs": logging.CRITICAL,  # what a worker meets is raised here
    }
    return SpecCluster(
        scheduler={"cls": _Scheduler, "options": {**common, "port": 0, "dashboard": False}},
        workers={number: {"cls": Nanny, "options": worker} for number in range(workers)},
        security=security,
        silence_logs=logging.CRITICAL,
    )


@contextlib.contextmanager
def _interrupts_put_off() -> Iterator[None]:
    """Put an interrupt (Ctrl-C) off until the context ends; what is started meanwhile never hears one.

    A terminal interrupts each process of a command. Only the client may hear it: it ends the others, and says so in one line.
    Threads and processes inherit which signals are blocked, so this holds for workers that a thread starts again later, too.
    """
    resource_tracker.ensure_running()  # of multiprocessing; it would let this thread be interrupted when it is first used
    before = signal.pthread_sigmask(signal.SIG_BLOCK, {signal.SIGINT})
    try:
        yield
    finally:
        signal.pthread_sigmask(signal.SIG_SETMASK, before)


@contextlib.contextmanager
def _scratch() -> Iterator[Path]:
    """A folder for what the workers put on the disk. Folders of processes that were killed are removed on the way."""
    top = Path(tempfile.gettempdir())
    for lock in top.glob(f"{_SCRATCH}*.lock"):
        with contextlib.suppress(OSError):  # gone meanwhile
            if lock.lstat().st_uid != os.getuid():
                continue
            left = take(lock)
            if left is not None and left.is_certain:
                remove(lock.with_suffix(""))
                left.release()
    folder = Path(tempfile.mkdtemp(prefix=_SCRATCH))
    claim = take(Path(f"{folder}.lock"))
    try:
        yield folder
    finally:
        remove(folder)
        if claim is not None:
            claim.release()


@contextlib.contextmanager
def connect(
    address: str, ca_file: Optional[str] = None, certificate: Optional[str] = None, key: Optional[str] = None
) -> Iterator[Client]:
    """A client of the cluster whose scheduler has this address, for as long as the context lasts.

    Parameters
    ----------
    address : str
        Such as ``tcp://10.0.0.1:8786``, or ``tls://10.0.0.1:8786`` for a scheduler that asks for TLS.
    ca_file, certificate, key : str, optional
        For TLS, the paths of PEM files: the trusted certificates, this client's own, and its key. What is left out is taken
        from ``distributed.comm.tls`` in Dask's configuration.

    Raises
    ------
    ConnectionError
        The scheduler does not answer; or it asks for TLS and the address does not, or the other way round; or one of the
        two refuses the other's certificate.
    FileNotFoundError
        A TLS file does not exist.
    ValueError
        The address is not one, or the certificates that it needs are not named.
    """
    given = {"tls_ca_file": ca_file, "tls_client_cert": certificate, "tls_client_key": key}
    for path in filter(None, given.values()):
        os.stat(path)
    security = Security(**{name: path for name, path in given.items() if path})
    if address.startswith("tls://"):
        if not all((security.tls_ca_file, security.tls_client_cert, security.tls_client_key)):
            raise ValueError(
                f"{address} needs TLS: name its certificates by --tls-ca-file, --tls-cert and --tls-key, "
                "or in distributed.comm.tls of Dask's configuration"
            )
        security.require_encryption = True
    try:
        client = Client(address, security=security)
    except (OSError, RuntimeError, ValueError) as failure:
        # A scheduler without TLS may greet so early that its greeting is a ValueError.
        if isinstance(failure, ValueError) and _speaks_tls(address) is None:
            raise
        raise ConnectionError(f"no scheduler at {address}: {_why(address, failure)}") from None
    with client:
        yield client


def _why(address: str, failure: Exception) -> str:
    """Why there is no connection, in words that say what to do."""
    scheme, _, place = address.rpartition("://")
    speaks_tls = _speaks_tls(address)
    if speaks_tls and scheme != "tls":
        return f"it asks for TLS. Name it as tls://{place}, with --tls-ca-file, --tls-cert and --tls-key"
    if speaks_tls is False and scheme == "tls":
        return f"it does not speak TLS. Name it as tcp://{place}, or start it with certificates"
    if speaks_tls:
        return f"it speaks TLS, but one side refuses the other's certificate: {_root(failure)}"
    return str(_root(failure))


def _root(failure: BaseException) -> BaseException:
    while failure.__cause__ is not None:
        failure = failure.__cause__
    return failure


def _speaks_tls(address: str) -> Optional[bool]:
    """Whether the listener there answers a TLS greeting; None if nobody listens."""
    host, _, port = address.rpartition("://")[2].rpartition(":")
    context = ssl.SSLContext(ssl.PROTOCOL_TLS_CLIENT)
    context.check_hostname, context.verify_mode = False, ssl.CERT_NONE
    try:
        with socket.create_connection((host.strip("[]"), int(port)), timeout=20) as plain:
            return _greets(context, plain)
    except (OSError, ValueError):
        return None


def _greets(context: ssl.SSLContext, plain: socket.socket) -> bool:
    try:
        with context.wrap_socket(plain):
            return True
    except ssl.SSLError as refused:
        return refused.reason not in ("WRONG_VERSION_NUMBER", "UNKNOWN_PROTOCOL", "HTTP_REQUEST")
    except OSError:  # it waits for another greeting, or hangs up
        return False
