"""Tables of an extract's tags, against a count by the test itself; their records, against a model; and what goes wrong."""

import contextlib
import csv
import os
import random
import re
import shlex
import subprocess
import sys
import xml.etree.ElementTree as xml
from collections import Counter
from pathlib import Path

import pytest

import gtd
from gtd import osm
from gtd.osm import _tables
from gtd.osm.__main__ import main
from gtd.osm._means import read_names
from gtd.osm._tables import Tables
from tests.conftest import environment, model_of, small_disk

HEADER = "kind,name,means\n"
MODES = ["access", "vehicle", "motor_vehicle", "hgv", "bus", "bicycle", "foot"]
IGNORED = ["maxspeed", "maxspeed:hgv", "parking:lane"]
MEANS = HEADER + "".join(f"mode,{mode},0\n" for mode in [*MODES, "oneway"])
MEANS += "condition,weight>7.5,12\nvalue,destination,closed\ncondition,psv,2\n"
MEANS += "".join(f"ignore,{name},\n" for name in IGNORED)

# Keys that matter, each written out; keys with conditions that are ignored; keys that do not matter.
PLAIN = [f"{mode}{side}" for mode in MODES for side in ("", ":forward", ":backward")]
KEPT = [*PLAIN, *(f"{key}:conditional" for key in PLAIN), "oneway", "oneway:conditional"]
FAULTY = ["psv:conditional", "turn:lanes:forward:conditional", ":conditional", "maxspeed:backward:forward:conditional"]
FAULTY += ["oneway:forward:conditional", "oneway:bicycle:conditional", "access:forward:backward:conditional"]
SKIPPED = [f"{name}{side}:conditional" for name in IGNORED for side in ("", ":forward", ":backward")]
OTHER = ["name", "highway", "psv", "maxspeed", "oneway:bicycle", "oneway:forward", "access:lanes", "Access", "conditional"]
OTHER += ["access:conditional:forward", "area", "foot:left"]
VALUES = ["no", "yes", "destination", "no @ (Mo-Fr 07:00-09:00); yes @ (hazmat)", 'a "quoted", value', "two\nlines", "a\rreturn"]
VALUES += ["Straße 🚲", " spaces ", ""]


class Maker(random.Random):
    """Draws ways: each a number, whether it is deleted, its nodes and its tags."""

    def way(self, number):
        nodes = [self.randrange(1, 900) for _ in range(self.choice([0, 1, 2, 2, 2, 3, 3, 5, 40]))]
        if len(nodes) > 2 and self.random() < 0.3:
            nodes[-1] = nodes[0]
        keys = self.sample(KEPT, self.choice([0, 0, 1, 1, 2, 5])) + self.sample(OTHER, self.randrange(5))
        keys += self.sample(FAULTY, self.choice([0] * 9 + [1, 2])) + self.sample(SKIPPED, self.choice([0, 0, 0, 1, 3]))
        self.shuffle(keys)
        tags = [(key, "no" if key == "area" and self.random() < 0.5 else self.choice(VALUES)) for key in keys]
        return number, self.random() < 0.02, nodes, tags

    def ways(self, count):
        """In the order of ``osmium sort``: numbers that are not the database's, then leaps up to one that needs 34 bits."""
        numbers = sorted(self.sample(range(1, 9_000_000_000), count - 5))
        return [self.way(number) for number in [0, -1, -2, -9, *numbers, 9_000_000_017]]


def written(ways, path):
    """An extract of ways, as XML, or as PBF that osmium makes of it."""
    root = xml.Element("osm", version="0.6")
    for number in range(1, 4):
        xml.SubElement(root, "node", id=str(number), version="1", lat="48.1", lon="16.3")
    for number, is_deleted, nodes, tags in ways:
        more = {"visible": "false"} if is_deleted else {}
        way = xml.SubElement(root, "way", id=str(number), version="1", **more)
        for node in nodes:
            xml.SubElement(way, "nd", ref=str(node))
        for key, value in tags:
            xml.SubElement(way, "tag", k=key, v=value)
    relation = xml.SubElement(root, "relation", id="7", version="1")
    xml.SubElement(relation, "tag", k="access", v="no")
    text = xml.tostring(root, encoding="unicode").replace("\r", "&#13;")
    plain = path if path.suffix == ".osm" else path.with_name("plain.osm")
    plain.write_text(text, encoding="utf-8", newline="")
    if plain != path:  # in the form for history, which alone keeps that ways are deleted
        subprocess.run(["osmium", "cat", "--no-progress", "-f", "osh.pbf", plain, "-o", path], check=True)
        plain.unlink()
    return path


def expected(ways, first=1):
    """What is to be in the tables, by the words of the documentation: elements, their tags, and what is left out."""
    elements, rows = [], []
    left_out = {"deleted ways": 0, "ways with fewer than two nodes": 0, "areas": 0, "ignored tags": 0}
    for way, is_deleted, nodes, tags in ways:
        if is_deleted:
            left_out["deleted ways"] += 1
            continue
        left_out["ignored tags"] += sum(key in SKIPPED for key, _ in tags)
        kept = [(key, value) for key, value in tags if key in KEPT or key in FAULTY]
        named = dict(tags)
        if kept and len(nodes) < 2:
            left_out["ways with fewer than two nodes"] += 1
        elif kept and nodes[0] == nodes[-1] and "highway" not in named and named.get("area") != "no":
            left_out["areas"] += 1
        elif kept:
            element = first + len(elements)
            elements.append([str(part) for part in (element, way, nodes[0], nodes[-1])])
            rows += [[str(element), key, value] for key, value in kept]
    return elements, rows, left_out


def read(path, header):
    """The rows of a table, whose header this is."""
    with open(path, newline="", encoding="utf-8") as file:
        head, *rows = csv.reader(file)
    assert head == header.split(",")
    return rows


def tables(out):
    """The rows of all tables of tags, and of each."""
    names = sorted(name for name in os.listdir(out) if name != "elements.csv")
    assert names == [f"tags-{number:05}.csv" for number in range(len(names))]
    each = [read(out / name, "element,key,value") for name in names]
    return [row for rows in each for row in rows], each


@pytest.fixture(scope="module")
def town(tmp_path_factory):
    """A folder with an extract in two formats, the file of means, and what is to come out."""
    folder = tmp_path_factory.mktemp("town")
    ways = Maker(11).ways(2_000)
    (folder / "means.csv").write_text(MEANS)
    written(ways, folder / "town.osm.pbf")
    written(ways, folder / "town.osm")
    return folder, ways


@pytest.mark.parametrize("name", ["town.osm.pbf", "town.osm"])
def test_tables_of_an_extract(name, town, tmp_path):
    folder, ways = town
    elements, rows, left_out = expected(ways)
    assert all(count > 15 for count in left_out.values()) and len(elements) > 700
    assert {key for _, key, _ in rows} == {*KEPT, *FAULTY} and {value for *_, value in rows} == set(VALUES) | {"no"}
    done = osm.extract(folder / name, folder / "means.csv", tmp_path / "out")
    unknown = Counter(key for _, key, _ in rows if key in FAULTY)
    assert done[:6] == (2_000, len(elements), len(rows), ["tags-00000.csv"], left_out, unknown)
    assert done[6:] == ([], 0, {})
    assert list(done.unknown.values()) == sorted(unknown.values(), reverse=True)
    assert read(tmp_path / "out" / "elements.csv", "element,way,first_node,last_node") == elements
    assert tables(tmp_path / "out")[0] == rows
    assert os.listdir(tmp_path) == ["out"]


def test_nothing_that_conditions_need_is_left_out(tmp_path):
    """A model of the translation into records says the same, faults too, of all tags of a way as of those that are kept."""
    model = model_of("conditional_model")
    (tmp_path / "means.csv").write_text(MEANS)
    names = read_names(str(tmp_path / "means.csv"))
    means = model.read_means([line.split(",") for line in MEANS.splitlines()[1:]])
    faults = set()
    for _, _, _, tags in Maker(12).ways(1_000):
        tags = [(key, value.encode().decode("latin-1")) for key, value in tags]
        every, kept = (
            model.read_tags(some, means, model.Options(None, False))
            for some in (tags, [tag for tag in tags if names.matters(tag[0])])
        )
        told = [[re.sub("^row [0-9]+: ", "", line) for many in found[2:] for line in many] for found in (every, kept)]
        assert every[:2] == kept[:2] and told[0] == told[1]
        faults.update(line.split(" at ")[0] for line in told[0])
    assert {"Key", "Value", "Part"} <= faults


def records_by_model(elements, rows):
    """The lines of records of elements without faults, and the faults of the others, as a model of the translation has them."""
    program = model_of("conditions_program")
    model = program.conditional_model
    means = model.read_means([line.split(",") for line in MEANS.splitlines()[1:]])
    lines, left_out = [], []
    for element, *_ in elements:
        tags = [(key, value) for number, key, value in rows if number == element]
        tags_as_bytes = [(key, value.encode().decode("latin-1")) for key, value in tags]
        says, _, _, faults = model.read_tags(tags_as_bytes, means, program.LOOSE)
        lines += [] if faults else [f"{element},{','.join(row)}" for row in model.rows_of(says, means)]
        told = [fault.removeprefix("row ").split(": ", 1) for fault in faults]
        left_out += [[element, *tags[int(number) - 1], fault] for number, fault in told]
    return lines, left_out


def test_records_of_an_extract(tmp_path):
    """Rows and faults are those of the model, whether the tables are large or small."""
    ways = Maker(13).ways(3_000)
    written(ways, tmp_path / "town.osm")
    (tmp_path / "means.csv").write_text(MEANS)
    elements, rows, _ = expected(ways)
    lines, left_out = records_by_model(elements, rows)
    assert len(lines) > 60 and len({element for element, *_ in left_out}) > 60
    for most in (65_536, 7):
        out = tmp_path / f"out{most}"
        done = osm.extract(tmp_path / "town.osm", tmp_path / "means.csv", out, rows_per_table=most, records=True)
        assert done.records == ["records-00000.csv"] and done.rows == len(lines)
        records = (out / "records-00000.csv").read_text().splitlines()
        assert records == ["element,direction,vehicles,domain", *lines]
        listed = read(out / "left_out.csv", LEFT_OUT)
        assert [row[:4] for row in listed] == left_out
        way_of = {element: str(way) for element, way, *_ in elements}
        assert all(way == way_of[element] and told for element, _, _, _, way, told in listed)
        assert sum(done.at_fault.values()) == len({element for element, *_ in left_out})


RELEASE = [
    (5, False, [1, 2], [("access", "no")]),
    (70, False, [1, 2], [("name", "a way without a tag of access")]),
    (71, False, [2, 3], [("access", "perhaps"), ("hgv", "no")]),
    (9_000_000_017, False, [1, 3], [("hgv", "no")]),
]


def test_elements_with_the_numbers_of_their_ways(tmp_path):
    """So that a way has the same element in a release that has another way before it."""
    (tmp_path / "means.csv").write_text(MEANS)
    for name, ways in [("old", RELEASE), ("new", [(1, False, [1, 2], [("access", "no")]), *RELEASE])]:
        written(ways, tmp_path / f"{name}.osm")
        command = [str(tmp_path / f"{name}.osm"), "--means", str(tmp_path / "means.csv"), "--quiet"]
        assert main([*command, "--ids", "way", "--records", "--out", str(tmp_path / name)]) == 4
        rows = read(tmp_path / name / "elements.csv", "element,way,first_node,last_node")
        assert [row[0] for row in rows] == [row[1] for row in rows] == ["1"] * (name == "new") + ["5", "71", "9000000017"]
        records = gtd.migrate(tmp_path / name / "records-00000.csv")
        assert records["element"].tolist() == [1] * (name == "new") + [5, 9_000_000_017]
        assert [row[:5:4] for row in read(tmp_path / name / "left_out.csv", LEFT_OUT)] == [["71", "71"]]
    changes = gtd.diff(*(tmp_path / name / "records-00000.csv" for name in ("old", "new")), "2024-01-01", "2024-01-02", 11)
    assert set(changes["element"]) == {1} and set(changes["change"]) == {"closed"}


@pytest.mark.parametrize("way", [-3, 10_000_000_000])
def test_ways_whose_numbers_no_element_has(way, tmp_path):
    written([(way, False, [1, 2], [("access", "no")])], tmp_path / "town.osm")
    (tmp_path / "means.csv").write_text(MEANS)
    with pytest.raises(gtd.Fault, match=f"way {way} has no number from 0") as raised:
        osm.extract(tmp_path / "town.osm", tmp_path / "means.csv", tmp_path / "out", ids="way")
    assert raised.value.kind == "Element" and not (tmp_path / "out").exists()


def test_elements_left_out_are_closed(tmp_path):
    """Always, in both directions, for all types; and the command then succeeds."""
    written(RELEASE, tmp_path / "town.osm")
    (tmp_path / "means.csv").write_text(MEANS)
    words = tmp_path / "town.osm", tmp_path / "means.csv"
    plain = osm.extract(*words, tmp_path / "plain", records=True)
    done = osm.extract(*words, tmp_path / "closed", records=True, close_left_out=True)
    assert done.at_fault == plain.at_fault == {"Value": 1} and done.rows == plain.rows + 1
    lines = (tmp_path / "plain" / "records-00000.csv").read_text().splitlines()
    closed = (tmp_path / "closed" / "records-00000.csv").read_text().splitlines()
    assert closed == [*lines[:2], "2,both,0,", *lines[2:]]
    records = gtd.Records(tmp_path / "closed" / "records-00000.csv")
    asked = [(2, side, vehicle) for side in ("positive", "negative") for vehicle in (1, 99)]
    assert all(records.closed_at(*where, "2024-01-01T00:00:00") for where in asked)
    command = [str(words[0]), "--means", str(words[1]), "--quiet", "--records", "--close-left-out"]
    assert main([*command, "--out", str(tmp_path / "command")]) == 0
    for wrong in (["--close-left-out"], ["--ids", "way", "--first", "7"]):
        with pytest.raises(SystemExit) as ended:
            main([*command[:4], *wrong, "--out", str(tmp_path / "wrong")])
        assert ended.value.code == 2
    for options in ({"close_left_out": True}, {"ids": "way", "first": 7}, {"ids": "node"}):
        with pytest.raises(ValueError):
            osm.extract(*words, tmp_path / "wrong", **options)


LEFT_OUT = "element,key,value,fault,way,expected"
HOLIDAYS = "first,last,kind,name\n2026-01-01,2026-12-31,PH-covered,\n2026-12-25,,PH,Christmas\n"
WAYS = [(1, False, [1, 2], [("access:conditional", "no @ (10:00-12:00; PH off)")])]


def test_hours_of_holidays(tmp_path):
    """A table of holidays and its years are handed on; without them such hours are at fault, and so are wrong ones."""
    written(WAYS, tmp_path / "town.osm")
    (tmp_path / "means.csv").write_text(MEANS)
    (tmp_path / "holidays.csv").write_text(HOLIDAYS)
    command = [str(tmp_path / "town.osm"), "--means", str(tmp_path / "means.csv"), "--records", "--quiet"]
    given = ["--holidays", str(tmp_path / "holidays.csv"), "--years", "2026"]
    assert main([*command, "--out", str(tmp_path / "with"), *given]) == 0
    records = (tmp_path / "with" / "records-00000.csv").read_text().splitlines()
    element, direction, vehicles, domain = records[1].split(",")
    assert (element, direction, vehicles) == ("1", "both", "0")
    closed = gtd.Domain(domain)
    assert [closed.contains(f"{day}T11:00:00") for day in ("2026-12-24", "2026-12-25", "2027-12-25")] == [True, False, True]
    assert main([*command, "--out", str(tmp_path / "without")]) == 4
    left_out = read(tmp_path / "without" / "left_out.csv", LEFT_OUT)
    expected = "a table of such holidays: give one with --holidays FILE"
    assert [row[3:] for row in left_out] == [["Hours Holidays at 19", "1", expected]]
    done = osm.extract(*command[:1], command[2], tmp_path / "years", records=True, hours={"holidays": tmp_path / "holidays.csv",
                                                                                        "years": "2026-2027"})
    assert done.at_fault == {"Hours Uncovered": 1}


def test_a_table_of_holidays_at_fault_is_refused(tmp_path):
    written(WAYS, tmp_path / "town.osm")
    (tmp_path / "means.csv").write_text(MEANS)
    (tmp_path / "holidays.csv").write_text(HOLIDAYS + "2026-12-32,,PH,\n")
    hours = {"holidays": tmp_path / "holidays.csv", "years": "2026"}
    with pytest.raises(gtd.Fault, match="First") as raised:
        osm.extract(tmp_path / "town.osm", tmp_path / "means.csv", tmp_path / "out", records=True, hours=hours)
    assert (raised.value.kind, raised.value.row) == ("First", 3)
    for wrong in ({"years": "1"}, {"holiday": "x"}):
        with pytest.raises(ValueError, match="YEARS|options of hours"):
            osm.extract(tmp_path / "town.osm", tmp_path / "means.csv", tmp_path / "out", records=True, hours=wrong)
    assert not (tmp_path / "out").exists()


def test_means_at_fault_are_refused(tmp_path):
    written(Maker(14).ways(50), tmp_path / "town.osm")
    (tmp_path / "means.csv").write_text(MEANS + "mode,hgv,11\n")
    with pytest.raises(gtd.Fault, match="Repeated") as raised:
        osm.extract(tmp_path / "town.osm", tmp_path / "means.csv", tmp_path / "out", records=True)
    row = MEANS.count("\n")
    assert (raised.value.kind, raised.value.row, raised.value.line) == ("Repeated", row, row + 1)
    assert not (tmp_path / "out").exists()


def test_elements_are_not_split(town, tmp_path):
    folder, ways = town
    elements, rows, _ = expected(ways, 5_000_000_000)
    most = 5
    done = osm.extract(
        folder / "town.osm.pbf", folder / "means.csv", tmp_path / "out", first=5_000_000_000, rows_per_table=most
    )
    assert read(tmp_path / "out" / "elements.csv", "element,way,first_node,last_node") == elements
    every, each = tables(tmp_path / "out")
    assert every == rows and len(each) == len(done.parts)
    held = [{row[0] for row in part} for part in each]
    assert all(len(part) <= most or len(here) == 1 for part, here in zip(each, held)) and any(len(part) > most for part in each)
    assert sum(map(len, held)) == len(elements)
    counts = [sum(row[0] == part[0][0] for row in part) for part in each]
    assert all(len(part) + count > most for part, count in zip(each, counts[1:]))  # each is as full as it can be


def test_a_table_is_no_larger_than_a_file_may_be(tmp_path):
    tags = [(f"{number}:conditional", "x" * 200 + "ß") for number in range(60_000)]
    with Tables(tmp_path, 1, 65_536) as written_to:
        for way, some in enumerate([tags, tags, tags[:20_000], tags[:60_000]], 1):
            written_to.add(way, (way, way + 1), some)
    every, each = tables(tmp_path)
    assert [len(part) for part in each] == [60_000, 60_000, 20_000, 60_000] and len(written_to.parts) == 4
    assert all((tmp_path / name).stat().st_size <= 16_777_216 for name in written_to.parts)
    assert [tuple(row[1:]) for row in every] == [*tags, *tags, *tags[:20_000], *tags]
    for some, kind in ((tags + tags[:5_537], "TooManyRows"), ([*tags, ("more", "x" * 4_000_000)], "TooLarge")):
        (tmp_path / kind).mkdir()
        with pytest.raises(gtd.Fault, match="way 17 ") as raised:
            with Tables(tmp_path / kind, 1, 65_536) as written_to:
                written_to.add(17, (1, 2), some)
        assert raised.value.kind == kind


def test_a_table_is_full_to_the_last_byte(tmp_path, monkeypatch):
    monkeypatch.setattr(_tables, "LARGEST_FILE", 60)
    with Tables(tmp_path, 1, 65_536) as written_to:  # the header has 18 bytes, and each row 21
        for way, value in enumerate(["x" * 16, "x" * 16, "x" * 16, "x" * 17], 1):
            written_to.add(way, (1, 2), [("a", value)])
    assert [(tmp_path / name).stat().st_size for name in written_to.parts] == [60, 39, 40]
    assert [len(part) for part in tables(tmp_path)[1]] == [2, 1, 1]


def test_numbers_of_elements_end(tmp_path):
    (tmp_path / "means.csv").write_text(MEANS)
    written([(number, False, [1, 2], [("access", "no")]) for number in (8, 9)], tmp_path / "two.osm.pbf")
    paths = tmp_path / "two.osm.pbf", tmp_path / "means.csv"
    assert osm.extract(*paths, tmp_path / "zero", first=0).elements == 2
    assert osm.extract(*paths, tmp_path / "last", first=9_999_999_998).elements == 2
    with pytest.raises(gtd.Fault, match="way 9 would be"):
        osm.extract(*paths, tmp_path / "none", first=9_999_999_999)
    for words in ({"first": -1}, {"first": 10_000_000_000}, {"rows_per_table": 0}, {"rows_per_table": 65_537}):
        with pytest.raises(ValueError, match=str(next(iter(words)))[:5]):
            osm.extract(*paths, tmp_path / "none", **words)
    assert not (tmp_path / "none").exists()


def test_many_keys_that_the_means_do_not_have(tmp_path, capsys):
    (tmp_path / "means.csv").write_text(MEANS)
    written([(1, False, [1, 2], [(f"{number}:conditional", "no") for number in range(1_500)])], tmp_path / "keys.osm")
    assert main([str(tmp_path / "keys.osm"), "--means", str(tmp_path / "means.csv"), "--out", str(tmp_path / "out")]) == 0
    shown = ", ".join(f"{number}:conditional (1)" for number in range(10))
    assert capsys.readouterr().err.endswith(f"no name of the means: {shown}, ...\n")
    done = osm.extract(tmp_path / "keys.osm", tmp_path / "means.csv", tmp_path / "again")
    assert len(done.unknown) == 1_000 and done.tags == 1_500


def test_no_way_matters(tmp_path):
    (tmp_path / "means.csv").write_text(MEANS)
    written([(1, False, [1, 2], [("name", "Lane")])], tmp_path / "lane.osm.pbf")
    done = osm.extract(tmp_path / "lane.osm.pbf", tmp_path / "means.csv", tmp_path / "out")
    assert (done.ways, done.elements, done.parts) == (1, 0, ["tags-00000.csv"])
    assert tables(tmp_path / "out") == ([], [[]])
    assert read(tmp_path / "out" / "elements.csv", "element,way,first_node,last_node") == []


def command(*words, **more):
    """A run of the command."""
    words = [sys.executable, "-m", "gtd.osm", *map(str, words)]
    return subprocess.run(words, capture_output=True, text=True, env=environment(), timeout=300, **more)


def test_the_command(town, tmp_path):
    folder, ways = town
    elements, rows, left_out = expected(ways)
    words = [folder / "town.osm.pbf", "--means", folder / "means.csv", "--out"]
    done = command(*words, tmp_path / "out")
    said = f"2,000 ways, {len(elements):,} elements, {len(rows):,} tags, 1 tables of tags\n"
    said += f"left out: {', '.join(f'{count:,} {reason}' for reason, count in left_out.items())}\n"
    unknown = Counter(key for _, key, _ in rows if key in FAULTY).most_common()
    said += f"no name of the means: {', '.join(f'{key} ({count})' for key, count in unknown)}\n"
    assert (done.returncode, done.stdout, done.stderr) == (0, "", said)
    again = command(*words, tmp_path / "again", "--first", 7, "--quiet")
    assert (again.returncode, again.stdout, again.stderr) == (0, "", "")
    assert read(tmp_path / "again" / "elements.csv", "element,way,first_node,last_node") == expected(ways, 7)[0]
    taken = command(*words, tmp_path / "out")
    assert (taken.returncode, taken.stderr) == (3, f"{tmp_path / 'out'} is there already\n")
    assert sorted(os.listdir(tmp_path)) == ["again", "out"]


def test_commands_of_the_documents(town, tmp_path, monkeypatch):
    pages = [Path(gtd.__file__).parents[2] / page for page in ("docs/PYTHON.md", "python/README.md")]
    monkeypatch.chdir(town[0])
    for page in pages:
        (line,) = re.findall(r"^python3 -m gtd\.osm ([^\n]*) --out tags$", page.read_text(), re.MULTILINE)
        assert main([*shlex.split(line), "--out", str(tmp_path / page.name), "--quiet"]) == 0
        assert sorted(os.listdir(tmp_path / page.name)) == ["elements.csv", "tags-00000.csv"]


def test_the_usage_of_the_command(town, tmp_path):
    extract, means = town[0] / "town.osm", town[0] / "means.csv"
    for words in ([], [extract, "--means", means], [extract, "--out", tmp_path / "out"]):
        with pytest.raises(SystemExit) as ended:
            main(list(map(str, words)))
        assert ended.value.code == 2
    for first in ("x", "-1", "10000000000"):
        with pytest.raises(SystemExit) as ended:
            main([str(extract), "--means", str(means), "--out", str(tmp_path / "out"), "--first", first])
        assert ended.value.code == 2
    assert os.listdir(tmp_path) == []


def test_a_bar_on_a_terminal(town, tmp_path):
    own, other = os.openpty()
    words = [town[0] / "town.osm.pbf", "--means", town[0] / "means.csv", "--out", tmp_path / "out"]
    code = "from gtd.osm import _reading; _reading._PAUSE = 0.0001\n"
    code += "import sys; from gtd.osm.__main__ import main; sys.exit(main())"
    run = subprocess.Popen([sys.executable, "-c", code, *map(str, words)], stderr=other, env=environment())
    os.close(other)
    read = b""
    with contextlib.suppress(OSError):  # the terminal ends with the last process that has it
        while True:
            read += os.read(own, 1 << 16)
    os.close(own)
    assert run.wait(60) == 0
    said = read.decode()
    bar, counts, left_out, _ = said.splitlines()[-4:]
    assert bar.split("\r")[-1] == f"[{'#' * 40}] | 100% read | 2,000 ways" and said.startswith("\r[")
    assert counts.startswith("2,000 ways, ") and left_out.startswith("left out: ")


@pytest.mark.parametrize(
    "text, said",
    [
        ("", ": Header (accepted is kind,name,means)"),
        ("name,kind,means\n", ": Header (accepted is kind,name,means)"),
        ("kind,name,means,more\n", ": Header (accepted is kind,name,means)"),
        (HEADER + "mode,access,0\n\nmode,hgv\n", ", row 2: FieldCount (accepted are 3 fields)"),
        (HEADER + "x" * 200_000, ": FieldCount (field larger than field limit (131072))"),
        (HEADER + "x" * 16_777_216, ": TooLarge (accepted are 16,777,216 bytes)"),
    ],
    ids=["empty", "other order", "more", "fields", "field", "size"],
)
def test_a_file_that_is_no_file_of_means(text, said, town, tmp_path, capsys):
    means = tmp_path / "means.csv"
    means.write_text(text)
    assert main(list(map(str, [town[0] / "town.osm", "--means", means, "--out", tmp_path / "out"]))) == 1
    assert capsys.readouterr().err == f"{means}{said}\n"
    assert os.listdir(tmp_path) == ["means.csv"]


def test_means_as_spreadsheets_write_them(town, tmp_path):
    (tmp_path / "means.csv").write_text("\ufeff" + MEANS.replace("\n", "\r\n\r\n").replace("access", '"access"'), newline="")
    done = osm.extract(town[0] / "town.osm.pbf", tmp_path / "means.csv", tmp_path / "out")
    assert done.tags == len(expected(town[1])[1])


def test_what_is_no_extract(town, tmp_path, capsys):
    folder, _ = town
    whole = (folder / "town.osm.pbf").read_bytes()
    plain = (folder / "town.osm").read_bytes()
    for name, data in [
        ("means.osm.pbf", MEANS.encode() * 20),
        ("means.osm", MEANS.encode()),
        ("means.csv", MEANS.encode()),
        ("empty.osm.pbf", b""),
        ("empty.osm", b""),
        ("cut.osm.pbf", whole[: len(whole) * 2 // 3]),
        ("cut.osm", plain[: len(plain) * 2 // 3]),
        ("odd.osm.pbf", whole[:400] + bytes(50) + whole[450:]),
    ]:
        (tmp_path / name).write_bytes(data)
        status = main(list(map(str, [tmp_path / name, "--means", folder / "means.csv", "--out", tmp_path / "out"])))
        said = capsys.readouterr().err
        assert status == 1 and said.startswith(f"{tmp_path / name}: Extract (") and said.count("\n") == 1, (name, said)
        assert os.listdir(tmp_path) == [name]
        (tmp_path / name).unlink()


def test_files_that_cannot_be_read(town, tmp_path, capsys):
    folder, _ = town
    (tmp_path / "folder.osm.pbf").mkdir()
    for extract, means, said in [
        (tmp_path / "none.osm.pbf", folder / "means.csv", "[Errno 2] No such file or directory"),
        (tmp_path / "folder.osm.pbf", folder / "means.csv", "[Errno 21] Is a directory"),
        (folder / "town.osm", tmp_path / "none.csv", "[Errno 2] No such file or directory"),
    ]:
        wrong = means if means.name == "none.csv" else extract
        assert main(list(map(str, [extract, "--means", means, "--out", tmp_path / "out"]))) == 3
        assert capsys.readouterr().err == f"{said}: '{wrong}'\n"
    assert os.listdir(tmp_path) == ["folder.osm.pbf"]


def test_ways_that_come_again_or_too_late(town, tmp_path):
    tags = [("access", "no")]
    for numbers, kind, said in [
        ([4, 7, 7], "Repeated", "way 7 comes again"),
        ([4, 7, 5], "Order", "way 5 comes too late: osmium sort"),
        ([4, -1], "Order", "way -1 comes too late"),
        ([-2, -1], "Order", "way -1 comes too late"),
    ]:
        written([(number, False, [1, 2], tags) for number in numbers], tmp_path / "ways.osm.pbf")
        with pytest.raises(gtd.Fault, match=said) as raised:
            osm.extract(tmp_path / "ways.osm.pbf", town[0] / "means.csv", tmp_path / "out")
        assert raised.value.kind == kind and os.listdir(tmp_path) == ["ways.osm.pbf"]
        (tmp_path / "ways.osm.pbf").unlink()


def test_no_pyosmium(town, tmp_path, monkeypatch, capsys):
    monkeypatch.setitem(sys.modules, "osmium.helper", None)
    words = [town[0] / "town.osm", "--means", town[0] / "means.csv", "--out", tmp_path / "out"]
    assert main(list(map(str, words))) == 3
    assert capsys.readouterr().err.startswith("gtd.osm needs pyosmium (Debian's package python3-pyosmium): ")
    assert os.listdir(tmp_path) == []


def test_a_full_disk(town, tmp_path):
    with small_disk(tmp_path / "disk", "32k") as disk:
        done = command(town[0] / "town.osm.pbf", "--means", town[0] / "means.csv", "--out", disk / "out")
        assert os.listdir(disk) == []
    assert done.returncode == 3 and done.stderr.count("\n") == 1, done.stderr
    assert done.stderr.startswith("[Errno 28] No space left on device: ") and ".csv'" in done.stderr


@pytest.mark.parametrize("number, status, said", [("SIGTERM", 143, ""), ("SIGINT", 130, "interrupted: nothing is kept\n")])
def test_the_command_is_asked_to_end(number, status, said, town, tmp_path):
    """At the 500th way, while tables are half written."""
    code = "import os, signal, sys; from gtd.osm import _ways; from gtd.osm.__main__ import main\n"
    code += "signal.signal(signal.SIGINT, signal.default_int_handler)\ntake = _ways.Ways.take\n"
    code += "def ends(ways, way):\n    take(ways, way)\n"
    code += f"    if ways.ways == 500:\n        os.kill(os.getpid(), signal.{number})\n"
    code += "_ways.Ways.take = ends\nsys.exit(main())"
    words = [town[0] / "town.osm.pbf", "--means", town[0] / "means.csv", "--out", tmp_path / "out"]
    run = subprocess.run([sys.executable, "-c", code, *map(str, words)], capture_output=True, text=True, env=environment())
    assert (run.returncode, run.stderr, os.listdir(tmp_path)) == (status, said, [])


def test_a_larger_extract_needs_no_more_memory(town, tmp_path):
    """Four times as many ways, in blocks of which pyosmium may hold few at once here."""
    code = "import resource, sys; from gtd.osm.__main__ import main; status = main()\n"
    code += "print(resource.getrusage(resource.RUSAGE_SELF).ru_maxrss); sys.exit(status)"
    few = environment(**{f"OSMIUM_MAX_{name}_QUEUE_SIZE": 2 for name in ("INPUT", "OSMDATA", "WORK")})
    needed = []
    for count in (30_000, 120_000):
        path = tmp_path / f"{count}.osm"
        with open(path, "w") as file:
            file.write('<osm version="0.6">\n')
            for way in range(1, count + 1):
                nodes = f'<nd ref="{way}"/><nd ref="{way + 1}"/>'
                file.write(f'<way id="{way}" version="1">{nodes}<tag k="access" v="no"/><tag k="name" v="{way}"/></way>\n')
            file.write("</osm>\n")
        words = [path, "--means", town[0] / "means.csv", "--out", tmp_path / f"{count}", "--quiet"]
        done = subprocess.run([sys.executable, "-c", code, *map(str, words)], capture_output=True, text=True, env=few)
        assert done.returncode == 0, done.stderr
        needed.append(int(done.stdout))
    assert needed[1] < needed[0] + 8_000, needed  # KiB
