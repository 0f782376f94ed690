"""Two sets of records: when each element was opened or closed from one to the other, in one call and by ranges of elements."""

import io
import os
import random

import pandas
import pytest

import gtd
from gtd import _cutting, _diff, _reading, country
from gtd.country import _run
from gtd.country.__main__ import main
from tests.conftest import joined, model_of

DAYS = ("2024-03-04", "2024-03-07", 11)
HEAD = "element,direction,vehicles,domain\n"
PRINTED = b"element,direction,vehicle,change,from,until\n"


def a_set(rows):
    return (HEAD + "".join(f"{row}\n" for row in rows)).encode()


def made(seed, count):
    """Two sets of rows that differ in a few, and what is to be printed of them."""
    diff = model_of("diff")
    rng = random.Random(seed)
    old = [(str(rng.randrange(1, 40)), *diff.random_row(rng)[1:]) for _ in range(count)]
    new = [row for row in old if rng.random() < 0.9] + [("41", "both", "0", "(h3){h1}"), ("2", "positive", "11", "(h22){h1}")]
    rng.shuffle(new)
    return a_set(map(",".join, old)), a_set(map(",".join, new)), diff.expected("", old, new, *DAYS).encode()


def printed(frame):
    """The text of a frame, as the program prints it."""
    text = frame.to_csv(index=False, lineterminator="\n", date_format="%Y-%m-%dT%H:%M:%S")
    return text.encode()


def test_changes():
    old, new = a_set(["7,both,0,(h10){h3}"]), a_set(["7,positive,0,(h10){h3}", "8,negative,0,"])
    found = gtd.diff(old, new, "2024-04-01", "2024-04-02", 11)
    assert found.values.tolist() == [
        [7, "negative", 11, "opened", pandas.Timestamp(2024, 4, 1, 10), pandas.Timestamp(2024, 4, 1, 13)],
        [8, "negative", 11, "closed", pandas.Timestamp(2024, 4, 1), pandas.Timestamp(2024, 4, 2)],
    ]
    assert list(found.columns) == ["element", "direction", "vehicle", "change", "from", "until"]
    assert list(found["change"].cat.categories) == ["opened", "closed"]


def test_against_the_model():
    old, new, text = made(1, 150)
    assert text.count(b"\n") > 10 and printed(gtd.diff(old, new, *DAYS)) == text
    frames = [pandas.read_csv(io.BytesIO(one), dtype=str, keep_default_na=False) for one in (old, new)]
    assert printed(gtd.diff(*frames, *DAYS)) == text


def test_what_says_the_same(tmp_path):
    old, _, _ = made(2, 100)
    head, *rows = old.decode().splitlines()
    random.Random(2).shuffle(rows)
    for other in (old, a_set(rows), a_set(rows + rows), gtd.migrate(old)):
        assert gtd.diff(old, other, *DAYS).empty
    (tmp_path / "old.csv").write_bytes(old)
    assert gtd.diff(tmp_path / "old.csv", io.BytesIO(old), *DAYS).empty


def test_large_sets_by_ranges_of_elements(monkeypatch):
    old, new, text = made(3, 200)
    frames = [pandas.read_csv(io.BytesIO(one), dtype=str, keep_default_na=False) for one in (old, new)]
    for most in (60, 20):
        monkeypatch.setattr(_reading, "MOST_ROWS", most)
        monkeypatch.setattr(_diff, "cut_both", lambda old, new: _cutting.cut_both(old, new, most))
        assert printed(gtd.diff(*frames, *DAYS)) == text
        assert printed(gtd.diff(frames[0], new, *DAYS)) == text


def test_an_element_that_no_file_holds(monkeypatch):
    few, many = a_set(["7,both,0,"]), a_set(["7,both,0,"] * 30)
    frames = [pandas.read_csv(io.BytesIO(one), dtype=str, keep_default_na=False) for one in (few, many)]
    monkeypatch.setattr(_reading, "MOST_ROWS", 20)
    monkeypatch.setattr(_cutting, "MOST_ROWS", 20)
    for sets, side in ((frames, "new"), (frames[::-1], "old")):
        with pytest.raises(gtd.Fault) as refused:
            gtd.diff(*sets, *DAYS)
        assert refused.value.kind == "TooManyRows" and refused.value.note.startswith(f"{side}: element 7 has 30 rows")


@pytest.mark.parametrize(
    "old, new, row, side",
    [(["x,both,0,"], ["7,both"], 1, "old"), (["7,both,0,"], ["7,both,0,", "7,both,x,"], 2, "new")],
)
def test_faults_of_rows(old, new, row, side):
    with pytest.raises(gtd.Fault) as refused:
        gtd.diff(a_set(old), a_set(new), *DAYS)
    assert (refused.value.row, refused.value.note) == (row, side)
    assert refused.value.text == (old if side == "old" else new)[row - 1]


@pytest.mark.parametrize(
    "words, kind",
    [
        (("2024-03-1", "2024-03-07", 11), "date Shape"),
        (("2024-03-07", "2024-03-07", 11), "horizon Empty"),
        (("2024-03-04", "2024-03-07", 100), "VehicleRange"),
    ],
)
def test_faults_of_words(words, kind):
    with pytest.raises(gtd.Fault) as refused:
        gtd.diff(b"x", b"x", *words)
    assert refused.value.kind == kind and refused.value.note is None


# ---- a whole country


@pytest.fixture(scope="module")
def client():
    with country.local(2) as client:
        yield client


@pytest.fixture
def files(tmp_path):
    """The files of two sets, and what is to be printed of them."""
    old, new, text = made(4, 300)
    (tmp_path / "old.csv").write_bytes(old)
    rows = new.decode().splitlines()[1:]
    (tmp_path / "a.csv").write_bytes(a_set(rows[:100]))
    (tmp_path / "b.csv").write_bytes(a_set(rows[100:]))
    return tmp_path / "old.csv", [tmp_path / "a.csv", tmp_path / "b.csv"], text, len(old.splitlines()) - 1 + len(rows)


def test_a_country(client, files, tmp_path, monkeypatch):
    old, new, text, rows = files
    for number, sizes in enumerate(({}, {"block_size": 1_000, "rows_per_part": 50}, {"block_size": 700, "rows_per_part": 1})):
        out = tmp_path / str(number)
        done = country.diff(old, new, *DAYS, out, client=client, **sizes)
        assert joined(out) == text and done.rows == rows and done.differs
        assert done.size == sum(path.stat().st_size for path in out.iterdir())
        assert done.parts == sorted(os.listdir(out)) and (len(done.parts) > 1) == bool(sizes)
    monkeypatch.setattr(_run, "_MOST_PIECES", 2)
    country.diff(old, new, *DAYS, tmp_path / "few", client=client, block_size=1_000, rows_per_part=50)
    assert joined(tmp_path / "few") == text


def test_one_file_for_each_type(client, files, tmp_path):
    old, new, text, _ = files
    done = country.diff(old, new, *DAYS[:2], [11, 12], tmp_path / "out", client=client, joined=True, rows_per_part=50)
    assert done.parts == ["vehicle-11.csv", "vehicle-12.csv"]
    assert (tmp_path / "out" / "vehicle-11.csv").read_bytes() == text
    assert done.size == sum(path.stat().st_size for path in (tmp_path / "out").iterdir())


def test_a_country_that_says_the_same(client, files, tmp_path):
    _, new, _, _ = files
    done = country.diff(new, new[::-1], *DAYS, tmp_path / "out", client=client, rows_per_part=50)
    assert not done.differs and joined(tmp_path / "out") == PRINTED


def test_the_first_fault_is_of_the_old_files(client, files, tmp_path):
    old, new, _, _ = files
    before = sorted(os.listdir(tmp_path))
    rows = new[1].read_bytes().splitlines(keepends=True)
    new[1].write_bytes(b"".join([*rows[:40], b"x,both,0,\n", *rows[40:]]))
    for good in (True, False):
        if not good:
            old.write_bytes(old.read_bytes() + b"y,both,0,\n")
        with pytest.raises(gtd.Fault) as refused:
            country.diff(old, new, *DAYS, tmp_path / "out", client=client, block_size=1_000)
        assert refused.value.file == str(new[1] if good else old)
        assert refused.value.line == (41 if good else 302) and sorted(os.listdir(tmp_path)) == before


def test_an_element_that_no_part_holds(client, tmp_path, monkeypatch):
    (tmp_path / "few.csv").write_bytes(a_set(["7,both,0,"]))
    (tmp_path / "many.csv").write_bytes(a_set(["3,both,0,", *["7,both,0,"] * 65_537]))
    for old, new, line in (("few.csv", "many.csv", 65_539), ("many.csv", "few.csv", 65_539)):
        with pytest.raises(gtd.Fault) as refused:
            country.diff(tmp_path / old, tmp_path / new, *DAYS, tmp_path / "out", client=client)
        assert (refused.value.kind, refused.value.file) == ("TooManyRows", str(tmp_path / "many.csv"))
        assert refused.value.line == line


def test_the_command(files, tmp_path, capsys):
    old, new, text, rows = files
    words = ["--from", DAYS[0], "--to", DAYS[1], "--vehicle", "11", "--workers", "1"]
    status = main([*map(str, new), "--diff", str(old), *words, "--out", str(tmp_path / "out")])
    assert status == 4 and joined(tmp_path / "out") == text
    assert capsys.readouterr().err.startswith(f"{rows:,} rows, 1 files, ")
    assert main([str(old), "--diff", str(old), *words, "--out", str(tmp_path / "same"), "--quiet"]) == 0
    assert joined(tmp_path / "same") == PRINTED
