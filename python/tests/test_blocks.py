"""Files cut into blocks, against the program on the whole file: the same rows, or the same first fault; and parts as they are
written."""

import random

import fsspec
import numpy
import pandas
import pytest

import gtd
from gtd import _cutting
from gtd._program import run
from gtd.country import _blocks, _files, _parts
from tests.conftest import model_of, without_library
from tests.make_records import rows as made_rows

HEADS = [
    "element,direction,vehicle,domain",
    "element,direction,vehicles,domain",
    '"element",direction,"vehicles","domain"',
]
GOOD = ["1,both,0,", "009,positive,11,(h1){h1}", '"9","negative",12,"[(h10){h4}]"', "9999999999,both,1, ( h7 ) { h1 }"]
GOOD += ["0,both,00,"]
BAD = ['1,both,0,"(h1){h1}', '"1', '1,both,0,"(h1)\n{h1}"', '1,"both\r\n",0,', "x,both,0,", "1,both,0", "1,both,0,,"]
BAD += ["1,both,100,", "1,both,0,(h25){h1}", "element,direction,vehicle,domain", " ", '""', '1,both,0,"(h1)""{h1}"']
BAD += ['1,both,0,(h1)"{h1}', "\ufeff1,both,0,", "12345678901,both,0,", '1,both,0,"(h1)"{h1}', "1,both,0,(h1){h1}\x00"]
BAD += ["1,both,0,\x85", "1,both,0,\x0b", "1,both,0,(h1){h1}\x1c", '"a\n\n\nb"']
ENDS = ["\n", "\r\n", "\r", "\n\n", "\r\n\r\n", "\r\r", "\n\r"]


def made(rng):
    bad = rng.choice([0, 0, 0.05, 0.3])
    lines = [rng.choice(BAD) if rng.random() < bad else rng.choice(GOOD) for _ in range(rng.randint(0, 12))]
    lines = [rng.choice(BAD) if rng.random() < 0.03 else rng.choice(HEADS)] + lines
    mixed, one = rng.random() < 0.3, rng.choice(ENDS)
    text = rng.choice(["", "", "\ufeff"]) + rng.choice(["", "", "\n", "\r\n", "\r", "\n\r\n"])
    text += rng.choice([""] * 19 + ["\ufeff"])
    for line in lines:
        text += line + (rng.choice(ENDS) if mixed else one)
    return (text.rstrip("\r\n") if rng.random() < 0.3 else text).encode()


def by_blocks(path, size):
    """All rows, or the first fault."""
    (source,) = _files.sources([str(path)])
    file = _files.open_file(source)
    found, lines, number = [], file.lines_before, 0
    for block in _files.blocks(file, size):
        read = _blocks.read_rows(block)
        if isinstance(read, _cutting.Refused):
            return _blocks.fault_at(block, read, lines, number)
        lines, number = lines + read.lines, number + len(read.rows.elements)
        found += read.rows.text.splitlines()
    return sorted(found)


def whole(text):
    try:
        return sorted(run("migrate", "/dev/stdin", given=text).splitlines()[1:])
    except gtd.Fault as fault:
        return fault


def line_of(text, row):
    """The line on which a row begins, found by running the program on the file up to each line end."""
    lines = text.splitlines(keepends=True)
    for number in range(1, len(lines) + 1):
        try:
            run("migrate", "/dev/stdin", given=b"".join(lines[:number]))
        except gtd.Fault as fault:
            if fault.row == row:
                return number
    raise AssertionError("no such row")


@pytest.mark.parametrize("seed", range(40))
def test_any_cut_means_the_same(seed, tmp_path):
    rng = random.Random(seed)
    for _ in range(10):
        text = made(rng)
        path = tmp_path / "file.csv"
        path.write_bytes(text)
        expected = whole(text)
        found = by_blocks(path, rng.choice([1, 2, 7, 20, 50, 1000]))
        if isinstance(expected, list):
            assert found == expected, text
            continue
        assert isinstance(found, gtd.Fault), (text, found)
        assert (found.kind, found.place, found.row) == (expected.kind, expected.place, expected.row), text
        assert found.file == str(path)
        if expected.row is not None:
            assert found.line == line_of(text, expected.row), text


@pytest.mark.parametrize("front", ["\ufeff\ufeff", "\n\ufeff", "\ufeff\r\n\ufeff"])
def test_a_mark_that_is_not_in_front_belongs_to_the_header(front, tmp_path):
    text = (front + HEADS[0] + "\n" + "".join(line + "\n" for line in GOOD)).encode()
    path = tmp_path / "file.csv"
    path.write_bytes(text)
    assert whole(text).kind == "Header"
    for size in [7, 1000]:
        found = by_blocks(path, size)
        assert isinstance(found, gtd.Fault) and found.kind == "Header", found


HEADER = HEADS[0] + "\n"


def names_of(paths):
    return [source.path for source in _files.sources([str(path) for path in paths])]


def test_a_name_that_exists_is_no_pattern(tmp_path):
    names = ["a1.csv", "a[1].csv", "b1.csv", "b?.csv", "c1.csv", "c*.csv"]
    for name in names:
        (tmp_path / name).write_text(HEADER)
    paths = [str(tmp_path / name) for name in names]
    assert names_of(paths) == paths
    for pattern, stands_for in [("a?.csv", ["a1.csv"]), ("[bc]1.csv", ["b1.csv", "c1.csv"]), ("a*", ["a1.csv", "a[1].csv"])]:
        assert names_of([tmp_path / pattern]) == [str(tmp_path / name) for name in stands_for]
    with pytest.raises(FileNotFoundError, match="no file: .*d.*csv"):
        names_of([tmp_path / "d*.csv"])


def test_a_file_that_would_be_read_twice_is_refused(tmp_path):
    (tmp_path / "a.csv").write_text(HEADER)
    (tmp_path / "b.csv").symlink_to("a.csv")
    (tmp_path / "c.csv").hardlink_to(tmp_path / "a.csv")
    (tmp_path / "same as a.csv").write_text(HEADER)
    for twice in [["a.csv", "a.csv"], ["a*", "a.csv"], ["a.csv", "b.csv"], ["c.csv", "a.csv"], ["*.csv"], ["a.csv", "./a.csv"]]:
        with pytest.raises(ValueError, match="would be read twice"):
            names_of([f"{tmp_path}/{name}" for name in twice])
    assert len(names_of([tmp_path / "a.csv", tmp_path / "same as a.csv"])) == 2
    for twice in ["memory://a.csv", "memory://*.csv"]:
        fsspec.filesystem("memory").pipe("/a.csv", HEADER.encode())
        with pytest.raises(ValueError, match="/a.csv would be read twice"):
            names_of(["memory://a.csv", twice])


def test_stretches():
    ones = numpy.ones(10, "int64")
    assert _cutting.stretches(ones, ones * 5, 100, 4) == [0, 4, 8]
    assert _cutting.stretches(ones, ones * 5, 14, 4) == [0, 2, 4, 6, 8]
    assert _cutting.stretches(ones, ones * 5, 4, 4) == list(range(10))
    assert _cutting.stretches(ones[:0], ones[:0], 4, 4) == []


def test_parts_are_ascending_ranges(tmp_path):
    rng = random.Random(1)
    rows = [f"{rng.randint(1, 40):04},both,0,(h{rng.randint(0, 9)}){{h1}}" for _ in range(300)]
    path = tmp_path / "file.csv"
    path.write_text("\n".join([HEADS[0], *rows]))
    (source,) = _files.sources([str(path)])
    file = _files.open_file(source)
    read = [_blocks.read_rows(block) for block in _files.blocks(file, 500)]
    firsts = numpy.array([0, 20])
    counted = _parts.counts(read, firsts)
    assert (counted["range"] == (counted["element"] >= 20)).all()
    cuts = _cutting.cut(counted.groupby("element")[["rows", "size"]].sum(), 30)
    assert cuts.rows.sum() == 300 and cuts.rows.max() <= 30 and list(cuts.firsts) == sorted(set(cuts.firsts))
    pieces = _parts.pieces(read, cuts, 4)
    assert (pieces["bundle"] == pieces["part"] // 4).all()
    for part, group in pieces.groupby("part"):
        elements = [int(line.split(b",")[0]) for text in group["rows"] for line in text.splitlines()]
        assert len(elements) == cuts.rows[part] and min(elements) == cuts.firsts[part]
        assert part + 1 == len(cuts.firsts) or max(elements) < cuts.firsts[part + 1]


def migrated(given):
    return b"".join(run("migrate", "/dev/stdin", given=given).splitlines(keepends=True)[1:])


@pytest.mark.parametrize("vehicles", [("11",), ("1", "11")])
def test_the_library_writes_what_the_program_writes(vehicles, tmp_path, monkeypatch):
    """A part of short schedules by the library, by the program where they may be long, and where there is no library."""
    rows = migrated("".join(made_rows(3_000, 1)).encode())
    frame = pandas.DataFrame({"bundle": [0], "part": [0], "side": [0], "rows": [rows]})
    written = {}
    for name in ("short", "long", "no library"):
        plan = _parts.Plan("2024-03-11", "2024-03-18", vehicles, tmp_path / name / "attempts", tmp_path / name / "parts", 1)
        for folder in (plan.attempts, *((plan.parts / plan.name(vehicle, 0)).parent for vehicle in vehicles)):
            folder.mkdir(parents=True, exist_ok=True)
        with monkeypatch.context() as changed:
            if name == "short":
                changed.setattr(_parts, "_run_into", None)
            elif name == "long":
                changed.setattr(_parts, "_LARGEST_TEXT", 0)
            else:
                without_library(changed)
            done = _parts.write_bundle(frame, 0, [rows.count(b"\n")], plan)
        assert not list(plan.attempts.iterdir())
        written[name] = [(part.name, part.size, (plan.parts / part.name).read_bytes()) for part in done]
        assert all(len(text) == size for _, size, text in written[name])
    assert written["short"] == written["long"] == written["no library"]
    words = ("2024-03-11", "2024-03-18")
    by_program = [run("schedule", "/dev/stdin", *words, vehicle, given=_cutting.HEADER + rows) for vehicle in vehicles]
    assert [text for _, _, text in written["short"]] == by_program


@pytest.mark.parametrize("seed", range(10))
def test_short_schedules_are_as_short_as_is_said(seed, monkeypatch):
    """The bound of their length holds for rows whose starts match at most once a day, and others have none."""
    maker = model_of("fuzz").Maker(seed)
    for _ in range(5):
        rows = b"".join(
            row
            for row in (migrated(f"{HEADS[0]}\n{n % 3},both,0,{maker.domain()}\n".encode()) for n in range(8))
            if not _parts._OFTEN.search(row)
        )
        days = maker.random.choice([1, 40, 400])
        first = maker.random.randrange(-25_202, 266_627 - days)
        dates = [str(numpy.datetime64(day, "D")) for day in (first, first + days)]
        length = len(run("schedule", "/dev/stdin", *dates, "1", given=_cutting.HEADER + rows))
        monkeypatch.setattr(_parts, "_LARGEST_TEXT", length - 1)
        assert not _parts.is_short(_cutting.HEADER + rows, days), rows


def test_which_starts_match_more_than_once_a_day():
    for text in (b"[(m0){m5}]", b"[(s7){s1}]", b"[(t2m30){h1}]", b"[(h5s7){s1}]", b"[(h1){h1}]+[(M4m1s2){m1}]"):
        assert _parts._OFTEN.search(text) and not _parts.is_short(_cutting.HEADER + b"1,both,0," + text + b"\n", 1)
    for text in (b"", b"[(M4d1){M3}]*[(h10){h4}]", b"[(t2t3h7m30){h8m30}]", b"[(h7m30s1){m8s30}]", b"[(f11h8){m4}]"):
        assert not _parts._OFTEN.search(text) and _parts.is_short(_cutting.HEADER + b"1,both,0," + text + b"\n", 1)
