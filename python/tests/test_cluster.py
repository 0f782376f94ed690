"""The cluster that a run starts on this machine: who can reach it, from where, and as whom."""

import json
import os
import socket
import subprocess
import sys

import psutil
import pytest

from gtd import country

# Asks each port that it is given as a browser does, as a TLS client without a certificate does, and as Dask's client with a
# certificate of its own does. It prints what it got from each: nothing but a refusal, if the port asks for a secret.
ASKS = """
import json, socket, ssl, sys
from distributed import Client
from distributed.security import Security

def http(port):
    with socket.create_connection(("127.0.0.1", port), timeout=10) as plain:
        plain.sendall(b"GET / HTTP/1.0\\r\\n\\r\\n")
        return b"HTTP/" in plain.recv(100)

def tls(port):
    context = ssl.SSLContext(ssl.PROTOCOL_TLS_CLIENT)
    context.check_hostname, context.verify_mode = False, ssl.CERT_NONE
    with socket.create_connection(("127.0.0.1", port), timeout=10) as plain, context.wrap_socket(plain) as secret:
        return bool(secret.recv(100))

def dask(port):
    given = Security.temporary()
    with Client(f"tls://127.0.0.1:{port}", security=given, timeout=3) as client:
        return bool(client.submit(int, "1").result())

def dask_plain(port):
    with Client(f"tcp://127.0.0.1:{port}", timeout=3) as client:
        return bool(client.submit(int, "1").result())

answers = []
for port in map(int, sys.argv[1:]):
    for ask in (http, tls, dask, dask_plain):
        try:
            answers.append((port, ask.__name__, ask(port)))
        except (OSError, ValueError) as refused:
            answers.append((port, ask.__name__, False))
print(json.dumps(answers))
"""


@pytest.fixture(scope="module")
def listeners():
    """The addresses and ports on which a cluster of two workers listens, in this process and in those that it started."""
    before = set(_listeners())
    with country.local(2) as client:
        assert client.submit(sum, [1, 2]).result() == 3
        yield client, sorted(set(_listeners()) - before)


def _listeners():
    here = psutil.Process()
    for process in [here, *here.children(recursive=True)]:
        for one in process.connections(kind="inet"):
            if one.status == psutil.CONN_LISTEN:
                yield one.laddr.ip, one.laddr.port


def _as_another_user(words):
    """The output of a command as the user nobody; where only one user is known, as this one."""
    more = {"capture_output": True, "text": True, "timeout": 120, "cwd": "/"}
    try:
        return subprocess.run(words, user=65_534, group=65_534, extra_groups=[], env={"HOME": "/"}, **more)
    except (OSError, subprocess.SubprocessError):
        return subprocess.run(words, env={"HOME": "/"}, **more)


def test_all_of_it_listens_on_the_loopback_alone(listeners):
    _, found = listeners
    assert len(found) >= 4  # the scheduler, and each worker; no process has a port of Dask's HTTP server
    assert {address for address, _ in found} == {"127.0.0.1"}
    others = {"127.0.0.2", *(one.address for each in psutil.net_if_addrs().values() for one in each if one.family == socket.AF_INET)}
    for address in others - {"127.0.0.1"}:
        for _, port in found:
            with pytest.raises(OSError):
                socket.create_connection((address, port), timeout=5).close()


def test_whoever_has_no_certificate_is_refused(listeners):
    client, found = listeners
    done = _as_another_user([sys.executable, "-c", ASKS, *(str(port) for _, port in found)])
    assert done.returncode == 0, done.stderr
    answers = json.loads(done.stdout)
    assert len(answers) == 4 * len(found)
    assert [answer for answer in answers if answer[2]] == []
    assert client.submit(sum, [1, 2]).result() == 3  # the cluster still answers whoever started it


def test_no_process_shows_the_key(listeners):
    """Neither the words nor the environment of a process, which others may read, hold the key; and no file does."""
    here = psutil.Process()
    for process in here.children(recursive=True):
        shown = " ".join(process.cmdline()) + " ".join(f"{name}={value}" for name, value in process.environ().items())
        assert "PRIVATE KEY" not in shown
        for opened in process.open_files():
            if os.path.isfile(opened.path) and os.path.getsize(opened.path) < 1 << 20:
                with open(opened.path, "rb") as file:
                    assert b"PRIVATE KEY" not in file.read()
