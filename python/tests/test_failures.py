"""What goes wrong on clusters: lost workers, schedulers and clients, full disks, TLS. Nothing is left of a run that fails."""

import contextlib
import json
import os
import re
import signal
import subprocess
import sys
import threading
import time
from pathlib import Path

import dask
import pandas
import pytest
from distributed import Client

import gtd
from gtd import country
from gtd.country import _parts
from tests.conftest import FIRST, VEHICLE, Cluster, by_hand, command, environment, joined, kill, small_disk, until
from tests.make_records import rows

LAST = "2025-01-01"
DAYS = ["--from", FIRST, "--to", LAST, "--vehicle", VEHICLE]
SMALL = {"block_size": 20_000, "rows_per_part": 500}  # some 40 blocks, and 40 parts
STAGED = ".out.gtd-run-*"


@pytest.fixture(scope="module")
def whole(many, tmp_path_factory):
    """The schedule without any failure, which is also the one made by hand."""
    out = tmp_path_factory.mktemp("whole") / "out"
    with country.local(1) as client:
        country.schedule(many / "plain.csv", FIRST, LAST, VEHICLE, out, client=client, **SMALL)
    assert joined(out) == by_hand([many / "plain.csv"], FIRST, LAST, VEHICLE, 65_536)
    return out


@pytest.fixture(scope="module")
def cluster(tmp_path_factory):
    """A scheduler with three workers."""
    cluster = Cluster(tmp_path_factory.mktemp("cluster"), 3)
    yield cluster
    cluster.close()


def scheduler_of(cluster):
    """The address of a cluster's scheduler, once it listens."""
    until(lambda: Path(cluster.file).exists() and "//" in Path(cluster.file).read_text())
    time.sleep(0.1)
    return json.loads(Path(cluster.file).read_text())["address"]


def same(out, whole):
    names = sorted(os.listdir(whole))
    return sorted(os.listdir(out)) == names and all((out / name).read_bytes() == (whole / name).read_bytes() for name in names)


def held(client, name):
    """How many tasks of a name have a result."""

    def look(dask_scheduler):
        return sum(name in key and task.state == "memory" for key, task in dask_scheduler.tasks.items())

    return client.run_on_scheduler(look)


MOMENTS = {
    "while blocks are read": lambda client, folder: held(client, "read_rows") >= 3,
    "when all were read": lambda client, folder: held(client, "pieces") >= 1,
    "when the first part is there": lambda client, folder: len(list(folder.glob(f"{STAGED}/parts/*"))) >= 1,
    "when most parts are there": lambda client, folder: len(list(folder.glob(f"{STAGED}/parts/*"))) >= 25,
}


@pytest.mark.parametrize("moment", MOMENTS)
def test_a_worker_is_killed(moment, cluster, many, whole, tmp_path):
    out = tmp_path / "out"
    with Client(scheduler_file=cluster.file) as client:
        client.wait_for_workers(3)
        done = []
        words = (many / "plain.csv", FIRST, LAST, VEHICLE, out)
        run = threading.Thread(target=lambda: done.append(country.schedule(*words, client=client, **SMALL)))
        run.start()
        until(lambda: MOMENTS[moment](client, tmp_path) or not run.is_alive())
        was_at_work = run.is_alive()
        kill(cluster.workers.pop(0))
        cluster.add_worker()
        run.join(300)
        assert was_at_work and done and done[0].rows == 20_000
    assert same(out, whole)
    assert os.listdir(tmp_path) == ["out"]


def test_the_command_on_a_cluster(cluster, many, tmp_path):
    words = [many / "a.csv", many / "b.csv", many / "c.csv", "--from", FIRST, "--to", "2024-04-01", "--vehicle", VEHICLE]
    done = command(*words, "--join", "--out", tmp_path / "all.csv", "--scheduler", scheduler_of(cluster))
    assert (done.returncode, done.stdout) == (0, ""), done.stderr
    assert (tmp_path / "all.csv").read_bytes() == by_hand([many / "plain.csv"], FIRST, "2024-04-01", VEHICLE, 65_536)


def _hears_interrupts():
    """A shell has what it starts in the background ignore interrupts, and so would all that these tests start."""
    signal.signal(signal.SIGINT, signal.SIG_DFL)


def started(many, tmp_path, *words, **more):
    """A run of the command that has written its first part."""
    code = f"import sys; from gtd import country; country.schedule.__kwdefaults__.update({SMALL})\n"
    code += "from gtd.country.__main__ import main; sys.exit(main())"
    words = [sys.executable, "-c", code, many / "plain.csv", *DAYS, "--out", tmp_path / "out", *words]
    run = subprocess.Popen(
        list(map(str, words)),
        stderr=subprocess.PIPE,
        env=environment(**more),
        text=True,
        start_new_session=True,
        preexec_fn=_hears_interrupts,
    )
    until(lambda: run.poll() is not None or any(tmp_path.glob(f"{STAGED}/parts/*")))
    return run


def test_the_scheduler_goes_away(many, tmp_path):
    cluster = Cluster(tmp_path / "cluster", 2)
    try:
        address = scheduler_of(cluster)
        run = started(many, tmp_path, "--scheduler", address, DASK_DISTRIBUTED__COMM__TIMEOUTS__CONNECT="3s")
        kill(cluster.scheduler)
        said = run.communicate(timeout=300)[1]
    finally:
        cluster.close()
    assert run.returncode == 3
    assert f"the scheduler at {address} has gone away" in said
    assert os.listdir(tmp_path) == ["cluster"]


def test_no_scheduler(many, tmp_path):
    impatient = environment(DASK_DISTRIBUTED__COMM__TIMEOUTS__CONNECT="1s")
    done = command(many / "a.csv", *DAYS, "--out", tmp_path / "out", "--scheduler", "tcp://127.0.0.1:9", env=impatient)
    assert (done.returncode, os.listdir(tmp_path)) == (3, [])
    assert done.stderr.startswith("no scheduler at tcp://127.0.0.1:9: ") and done.stderr.count("\n") == 1


def test_the_client_is_killed(many, whole, tmp_path):
    scratch = tmp_path / "scratch"
    scratch.mkdir()
    run = started(many, tmp_path, "--workers", "2", TMPDIR=scratch)
    kill(run)
    run.stderr.close()
    (left,) = tmp_path.glob(STAGED)
    assert any(scratch.glob("gtd-workers-*"))
    run = started(many, tmp_path, "--workers", "2", TMPDIR=scratch)
    said = run.communicate(timeout=300)[1]
    assert run.returncode == 0
    assert said.startswith(f"{left} was left by a run that did not end, and is removed now\n20,000 rows, ")
    assert same(tmp_path / "out", whole)
    assert sorted(os.listdir(tmp_path)) == ["out", "scratch"]
    until(lambda: not any(scratch.glob("gtd-workers-*")))


def test_the_client_is_asked_to_end(cluster, many, tmp_path):
    run = started(many, tmp_path, "--scheduler", scheduler_of(cluster))
    run.terminate()
    said = run.communicate(timeout=300)[1]
    assert (run.returncode, said, os.listdir(tmp_path)) == (143, "", [])


def test_an_interrupt(many, tmp_path):
    """A terminal's Ctrl-C, which each process of the run gets, ends it in one line."""
    scratch = tmp_path / "scratch"
    scratch.mkdir()
    run = started(many, tmp_path, "--workers", "2", TMPDIR=scratch)
    os.killpg(run.pid, signal.SIGINT)
    said = run.communicate(timeout=300)[1]
    assert (run.returncode, said) == (130, "interrupted: nothing is kept\n")
    assert os.listdir(tmp_path) == ["scratch"] and os.listdir(scratch) == []


@pytest.mark.parametrize("packed", [False, True], ids=["of parts", "of what is unpacked"])
def test_a_full_disk(packed, many, tmp_path):
    source = many / "plain.csv"
    if packed:
        source = tmp_path / "plain.csv.gz"
        with open(source, "wb") as file:
            subprocess.run(["gzip", "-c", many / "plain.csv"], stdout=file, check=True)
    with small_disk(tmp_path / "disk", "400k" if packed else "4m") as disk:
        done = command(source, *DAYS, "--out", disk / "out", "--workers", 2)
        assert os.listdir(disk) == []
    assert done.returncode == 3
    assert done.stderr.startswith("[Errno 28] No space left on device") and done.stderr.count("\n") == 1, done.stderr


def test_a_full_disk_while_the_library_answers(tmp_path, monkeypatch):
    monkeypatch.setattr(_parts, "_run_into", None)
    migrated = gtd.migrate("".join(rows(400, 1)).encode()).to_csv(index=False, header=False, lineterminator="\n").encode()
    frame = pandas.DataFrame({"bundle": [0], "part": [0], "side": [0], "rows": [migrated]})
    with small_disk(tmp_path / "disk", "64k") as disk:
        plan = _parts.Plan(FIRST, "2024-04-01", ("11",), disk / "attempts", disk / "parts", 1)
        plan.attempts.mkdir()
        plan.parts.mkdir()
        with pytest.raises(OSError, match="No space left on device: .*part-00000.csv"):
            _parts.write_bundle(frame, 0, [400], plan)
        assert not list(plan.attempts.iterdir()) and not list(plan.parts.iterdir())


def certificate(folder, name):
    """A certificate that trusts itself, and its key."""
    paths = [folder / f"{name}.pem", folder / f"{name}.key"]
    words = ["openssl", "req", "-x509", "-newkey", "rsa:2048", "-nodes", "-days", "2", "-subj", f"/CN={name}"]
    subprocess.run([*words, "-out", paths[0], "-keyout", paths[1]], check=True, stderr=subprocess.DEVNULL)
    return paths


def tls(certificate, key):
    return ["--tls-ca-file", certificate, "--tls-cert", certificate, "--tls-key", key]


def test_tls(cluster, many, tmp_path):
    mine, other = certificate(tmp_path, "mine"), certificate(tmp_path, "other")
    secure = Cluster(tmp_path / "cluster", 1, "--protocol", "tls", *map(str, tls(*mine)))
    try:
        address = scheduler_of(secure)
        place = address[len("tls://") :]
        plain = scheduler_of(cluster)[len("tcp://") :]
        with dask.config.set({"distributed.comm.timeouts.connect": "8s"}):
            for to, files, error, said in [
                (f"tcp://{place}", [], ConnectionError, f"it asks for TLS. Name it as {address}, with --tls-ca-file"),
                (address, [], ValueError, f"{address} needs TLS: name its certificates by --tls-ca-file, --tls-cert and"),
                (address, [other[0], *other], ConnectionError, "one side refuses the other's certificate"),
                (address, [mine[0], *other], ConnectionError, "one side refuses the other's certificate"),
                (address, [tmp_path / "none", *mine], FileNotFoundError, "none"),
                (f"tls://{plain}", [mine[0], *mine], ConnectionError, "it does not speak TLS. Name it as tcp://"),
                ("nothing://127.0.0.1:9", [], ValueError, "nothing"),
            ]:
                with pytest.raises(error, match=re.escape(said)):
                    with country.connect(to, *map(str, files)):
                        pass
        done = command(many / "a.csv", *DAYS, "--out", tmp_path / "out", "--scheduler", address, *tls(*mine))
        assert done.returncode == 0 and done.stderr.startswith("7,000 rows"), done.stderr
    finally:
        secure.close()
