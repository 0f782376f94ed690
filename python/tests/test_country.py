"""Whole runs on two workers, against schedules by hand; and each fault, by its file and line."""

import gzip
import os
import random
from pathlib import Path

import pytest

import gtd
from gtd import country
from gtd._claims import take
from gtd.country import _files, _parts, _run
from gtd.country.__main__ import main
from tests.conftest import FIRST, UNTIL, VEHICLE, by_hand, command, joined

DAYS = (FIRST, UNTIL, VEHICLE)


@pytest.fixture(scope="module")
def client():
    with country.local(2) as client:
        yield client


def test_parts_are_the_schedule_of_all_rows(client, many, tmp_path):
    expected = by_hand([many / "plain.csv"], FIRST, UNTIL, VEHICLE, 65_536)
    for number, (paths, sizes) in enumerate(
        [
            ([many / "plain.csv"], {}),
            ([many / "plain.csv"], {"block_size": 10_000, "rows_per_part": 1_000}),
            ([many / "a.csv", many / "b.csv", many / "c.csv"], {"block_size": 30_000, "rows_per_part": 3_000}),
            (str(many / "[abc].csv").replace("[abc]", "?"), {}),
        ]
    ):
        out = tmp_path / str(number)
        done = country.schedule(paths, *DAYS, out, client=client, **sizes)
        assert done.rows == 20_000 and done.parts == sorted(os.listdir(out))
        assert done.size == sum(path.stat().st_size for path in out.iterdir())
        assert joined(out) == expected
        assert (len(done.parts) > 1) == ("rows_per_part" in sizes)
        assert sorted(os.listdir(tmp_path)) == [str(at) for at in range(number + 1)]


def test_one_file(client, many, tmp_path, capsys):
    more = {"joined": True, "rows_per_part": 2_000, "show_progress": True}
    done = country.schedule(many / "plain.csv", *DAYS, tmp_path / "all.csv", client=client, **more)
    said = capsys.readouterr()
    assert said.out == "" and said.err.startswith("reading\n") and "scheduling\n" in said.err and "100% Completed" in said.err
    assert (tmp_path / "all.csv").read_bytes() == by_hand([many / "plain.csv"], FIRST, UNTIL, VEHICLE, 65_536)
    assert done == (20_000, ["all.csv"], (tmp_path / "all.csv").stat().st_size)


def test_no_rows(client, tmp_path):
    (tmp_path / "none.csv").write_text("element,direction,vehicle,domain")
    done = country.schedule(tmp_path / "none.csv", *DAYS, tmp_path / "out", client=client)
    assert done.rows == 0 and joined(tmp_path / "out") == b"element,direction,vehicle,from,until\n"


def refused(client, tmp_path, *files, **more):
    names = []
    for number, text in enumerate(files):
        names.append(tmp_path / f"{number}.csv")
        names[-1].write_bytes(text)
    before = sorted(os.listdir(tmp_path))
    with pytest.raises(gtd.Fault) as caught:
        country.schedule(names, *DAYS, tmp_path / "out", client=client, **more)
    assert sorted(os.listdir(tmp_path)) == before
    return caught.value


def test_the_first_fault_by_file_and_line(client, many, tmp_path):
    good = (many / "b.csv").read_bytes()
    lines = (many / "plain.csv").read_bytes().split(b"\n")
    lines[15_000] = b'7,both,0,"[(h25){h1}]"'
    lines[3_000] = lines[18_000] = b"7,bot,0,"
    late = b"\n".join(lines)
    fault = refused(client, tmp_path, good, late, block_size=10_000)
    assert (fault.kind, fault.file, fault.line, fault.row) == ("Direction", str(tmp_path / "1.csv"), 3_001, 3_000)
    lines[3_000] = b""
    fault = refused(client, tmp_path, b"\n".join(lines), good, block_size=10_000)
    assert (fault.kind, fault.place, fault.line, fault.row) == ("Domain FieldRange", 2, 15_001, 14_999)
    assert str(fault).split("\n") == [
        f"{tmp_path / '0.csv'}, line 15001, row 14999: Domain FieldRange at 2",
        '  7,both,0,"[(h25){h1}]"',
        " " * 14 + "^",
    ]
    fault = refused(client, tmp_path, good, b"\n\r\nelement,direction,domain\n1,both,\n")
    assert (fault.kind, fault.file, fault.line, fault.text) == ("Header", str(tmp_path / "1.csv"), 3, "element,direction,domain")


def test_days_and_types_are_looked_at_first(client, tmp_path):
    for words, kind in [(("2024-01-01", "2024-01-01", 1), "horizon Empty"), (("2024-01-01", "2024-01-02", 100), "VehicleRange")]:
        with pytest.raises(gtd.Fault) as caught:
            country.schedule(tmp_path / "none.csv", *words, tmp_path / "out", client=client)
        assert caught.value.kind == kind
    with pytest.raises(FileNotFoundError):
        country.schedule(tmp_path / "none.csv", *DAYS, tmp_path / "out", client=client)
    assert os.listdir(tmp_path) == []


def test_an_element_with_too_many_rows(client, tmp_path):
    head = b"element,direction,vehicle,domain\n"
    first, second = b"8,both,0,\n" + b"7,both,0,\n" * 40_000, b"\n8,both,0,\n\n" + b"07,both,0,\n" * 25_540
    fault = refused(client, tmp_path, head + first, head + second)
    assert (fault.kind, fault.file, fault.line, fault.row) == ("TooManyRows", str(tmp_path / "1.csv"), 25_541, 25_538)
    assert fault.text == "07,both,0," and "element 7 has 65,540 rows" in str(fault)
    long = b"7,both,0," + b"+".join([b"(h1){h1}"] * 128) + b"\n"
    fault = refused(client, tmp_path, head + long * 10_100, block_size=1 << 20)
    canonical = len(gtd.migrate(head + long)["domain"][0]) + len("7,both,0,\n")
    last = (16_777_216 - len(head) - 1) // canonical + 1
    assert (fault.kind, fault.file, fault.line, fault.row) == ("TooLarge", str(tmp_path / "0.csv"), last + 1, last)
    assert fault.text == long.decode().rstrip("\n") and "element 7 has 10,100 rows" in str(fault)


def test_packed_files(client, many, tmp_path):
    expected = by_hand([many / "plain.csv"], FIRST, UNTIL, VEHICLE, 65_536)
    for name in "abc":
        text = (many / f"{name}.csv").read_bytes()
        middle = len(text) // 2  # two runs of gzip, one after the other
        (tmp_path / f"{name}.csv.gz").write_bytes(gzip.compress(text[:middle]) + gzip.compress(text[middle:]))
    paths = [tmp_path / "a.csv.gz", many / "b.csv", tmp_path / "c.csv.gz"]
    done = country.schedule(paths, *DAYS, tmp_path / "out", client=client, block_size=30_000)
    assert done.rows == 20_000 and joined(tmp_path / "out") == expected
    assert sorted(os.listdir(tmp_path)) == ["a.csv.gz", "b.csv.gz", "c.csv.gz", "out"]
    assert len(gtd.migrate(tmp_path / "a.csv.gz")) == 7_000


def test_faults_of_packed_files(client, tmp_path):
    path = tmp_path / "all.csv.gz"
    text = b"element,direction,vehicle,domain\n\n" + b"1,both,0,\n" * 1_000 + b"1,bot,0,\n"
    path.write_bytes(gzip.compress(text))
    with pytest.raises(gtd.Fault) as caught:
        country.schedule(path, *DAYS, tmp_path / "out", client=client, block_size=1_000)
    assert (caught.value.kind, caught.value.file, caught.value.line, caught.value.row) == ("Direction", str(path), 1_003, 1_001)
    for broken in (gzip.compress(text)[:-9], text, b"\x1f\x8b" + bytes(30), gzip.compress(text)[:-8] + bytes(8)):
        path.write_bytes(broken)
        with pytest.raises(OSError, match="all.csv.gz is no whole gzip file"):
            country.schedule(path, *DAYS, tmp_path / "out", client=client)
    assert os.listdir(tmp_path) == ["all.csv.gz"]


def test_how_much_is_unpacked(tmp_path, monkeypatch):
    """A file that holds more than may be unpacked is refused before that is written."""
    path, into = tmp_path / "all.csv.gz", tmp_path / "all.csv"
    text = b"element,direction,vehicle,domain\n" + b"1,both,0,\n" * 1_000_000
    path.write_bytes(gzip.compress(text))
    (source,) = _files.sources([str(path)])
    monkeypatch.setattr(_files, "MOST_UNPACKED", len(text))
    _files.unpack(source, into)
    assert into.read_bytes() == text
    monkeypatch.setattr(_files, "MOST_UNPACKED", 3_000_000)
    with pytest.raises(OSError, match=r"all.csv.gz holds more than 3,000,000 bytes, which is the most that is unpacked"):
        _files.unpack(source, into)
    assert into.stat().st_size <= 3_000_000


def test_many_vehicle_types(client, many, tmp_path):
    source = many / "plain.csv"
    done = country.schedule(source, FIRST, UNTIL, [12, 1, 11], tmp_path / "out", client=client, rows_per_part=6_000)
    assert sorted(os.listdir(tmp_path / "out")) == ["vehicle-01", "vehicle-11", "vehicle-12"]
    for vehicle in (1, 11, 12):
        assert joined(tmp_path / "out" / f"vehicle-{vehicle:02}") == by_hand([source], FIRST, UNTIL, vehicle, 65_536)
    parts = range(len(done.parts) // 3)
    assert done.parts == [f"vehicle-{vehicle:02}/part-{part:05}.csv" for vehicle in (1, 11, 12) for part in parts]
    assert done.size == sum(path.stat().st_size for path in (tmp_path / "out").glob("*/*"))
    whole = country.schedule(source, FIRST, UNTIL, (1, 11), tmp_path / "all", client=client, rows_per_part=6_000, joined=True)
    assert whole.parts == ["vehicle-01.csv", "vehicle-11.csv"]
    for vehicle in (1, 11):
        assert (tmp_path / "all" / f"vehicle-{vehicle:02}.csv").read_bytes() == by_hand([source], FIRST, UNTIL, vehicle, 65_536)
    assert whole.size == sum(path.stat().st_size for path in (tmp_path / "all").iterdir())
    with pytest.raises(gtd.Fault, match="VehicleRange .vehicle type 100."):
        country.schedule(source, FIRST, UNTIL, [11, 100], tmp_path / "none", client=client)
    for types in ([], [11, 11]):
        with pytest.raises(ValueError):
            country.schedule(source, FIRST, UNTIL, types, tmp_path / "none", client=client)
    assert sorted(os.listdir(tmp_path)) == ["all", "out"]


def test_many_parts_and_blocks(client, many, tmp_path, monkeypatch):
    """Blocks that are shuffled together, and parts that one task writes, give the same parts."""
    lines = (many / "plain.csv").read_text().splitlines(keepends=True)[:120]
    (tmp_path / "few.csv").write_text("".join(lines))
    elements = {line.split(",")[0] for line in lines[1:]}
    for name, most, rows in [("apart", 1024, 1 << 20), ("together", 7, 1 << 20), ("counted by ranges", 7, 20)]:
        monkeypatch.setattr(_run, "_MOST_PIECES", most)
        monkeypatch.setattr(_run, "_ROWS_PER_RANGE", rows)
        done = country.schedule(tmp_path / "few.csv", *DAYS, tmp_path / name, client=client, rows_per_part=1, block_size=100)
        assert len(done.parts) == len(elements) and done.parts == sorted(os.listdir(tmp_path / name))
        assert joined(tmp_path / name) == by_hand([tmp_path / "few.csv"], FIRST, UNTIL, VEHICLE, 65_536)


def test_elements_are_counted_by_ranges(client, tmp_path, monkeypatch):
    """Also where elements lie far apart, and where one has more rows than a range."""
    monkeypatch.setattr(_run, "_ROWS_PER_RANGE", 100)
    rng = random.Random(4)
    near = [rng.choice([0, 16_383, 16_384, 9_999_999_999, 5_000_000_000 + rng.randint(0, 40_000)]) for _ in range(900)]
    lines = ["element,direction,vehicle,domain", *(f"{one},both,{one % 2 * 11},(h{one % 24}){{h3}}" for one in near)]
    (tmp_path / "far.csv").write_text("\n".join(lines))
    country.schedule(tmp_path / "far.csv", *DAYS, tmp_path / "out", client=client, rows_per_part=150, block_size=1_000)
    assert joined(tmp_path / "out") == by_hand([tmp_path / "far.csv"], FIRST, UNTIL, VEHICLE, 65_536)


def test_the_names_of_parts_are_in_order():
    for parts in (1, 10_000, 100_000, 100_001, 10_000_000):
        plan = _parts.Plan(FIRST, UNTIL, ("11",), Path(), Path(), parts)
        names = [plan.name("11", part) for part in sorted({0, 9 % parts, 10 % parts, 99_999 % parts, parts - 1})]
        assert names == sorted(set(names))


def test_nothing_is_written_over(client, many, tmp_path):
    (tmp_path / "out").mkdir()
    (tmp_path / "out" / "mine").write_text("")
    for joins in (False, True):
        with pytest.raises(FileExistsError):
            country.schedule(many / "plain.csv", *DAYS, tmp_path / "out", client=client, joined=joins)
    assert os.listdir(tmp_path) == ["out"] and os.listdir(tmp_path / "out") == ["mine"]


def test_two_runs_of_one_output(client, many, tmp_path):
    mine = take(tmp_path / ".out.gtd-lock")
    assert mine is not None and mine.is_certain and take(mine.path) is None
    with pytest.raises(FileExistsError, match="another run is writing"):
        country.schedule(many / "a.csv", *DAYS, tmp_path / "out", client=client)
    assert os.listdir(tmp_path) == [".out.gtd-lock"]
    mine.release()
    assert os.listdir(tmp_path) == []


def test_the_command(many, tmp_path):
    days = ["--from", FIRST, "--to", UNTIL, "--vehicle", f"{VEHICLE},12", "--workers", 1, "--out"]
    done = command(many / "a.csv", many / "b.csv", many / "c.csv", *days, tmp_path / "out")
    assert (done.returncode, done.stdout) == (0, "") and done.stderr.startswith("20,000 rows, 2 files, ")
    assert joined(tmp_path / "out" / "vehicle-11") == by_hand([many / "plain.csv"], FIRST, UNTIL, VEHICLE, 65_536)
    (tmp_path / "bad.csv").write_text("element,direction,vehicle,domain\n\n1,both,0,(h25){h1}\n")
    done = command(tmp_path / "bad.csv", *days, tmp_path / "other")
    assert (done.returncode, done.stdout) == (1, "")
    said = f"{tmp_path / 'bad.csv'}, line 3, row 1: Domain FieldRange at 1\n  1,both,0,(h25){{h1}}\n"
    assert done.stderr == said + " " * 12 + "^\n"
    done = command(tmp_path / "none.csv", *days, tmp_path / "other")
    assert done.returncode == 3 and "none.csv" in done.stderr and done.stderr.count("\n") == 1


def test_the_command_takes_names_with_brackets(many, tmp_path):
    """A shell hands all names of ``*.csv`` on, and each is that file."""
    for name, source in [("a1.csv", "a.csv"), ("a[1].csv", "b.csv"), ("a2.csv", "c.csv")]:
        (tmp_path / name).write_bytes((many / source).read_bytes())
    days = ["--from", FIRST, "--to", UNTIL, "--vehicle", VEHICLE, "--workers", 1, "--out"]
    done = command(*sorted(tmp_path.glob("*.csv")), *days, tmp_path / "out")
    assert (done.returncode, done.stdout) == (0, "") and done.stderr.startswith("20,000 rows, 1 files, ")
    assert joined(tmp_path / "out") == by_hand([many / "plain.csv"], FIRST, UNTIL, VEHICLE, 65_536)
    done = command(tmp_path / "a1.csv", tmp_path / "a?.csv", *days, tmp_path / "other")
    assert (done.returncode, done.stdout, done.stderr.count("\n")) == (2, "", 1)
    assert f"{tmp_path / 'a1.csv'} would be read twice" in done.stderr and not (tmp_path / "other").exists()


def test_the_usage_of_the_command(many, tmp_path):
    days = ["--from", FIRST, "--to", UNTIL, "--vehicle", VEHICLE, "--out", tmp_path / "out"]
    for words in (
        [],
        [many / "a.csv"],
        [many / "a.csv", *days, "--workers", 0],
        [many / "a.csv", *days, "--vehicle", "11,x"],
        [many / "a.csv", *days, "--tls-key", "key"],
        [many / "a.csv", *days, "--workers", 1, "--scheduler", "tcp://127.0.0.1:9"],
    ):
        with pytest.raises(SystemExit) as ended:
            main(list(map(str, words)))
        assert ended.value.code == 2
    assert os.listdir(tmp_path) == []
