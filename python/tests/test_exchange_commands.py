"""The commands on the examples: what they write, what they refuse, with which status; and one file that the program reads."""

import csv
import doctest
import io
import os
import random
import re
import shlex
import shutil
import subprocess
from datetime import date, datetime, timedelta
from pathlib import Path

import pytest
from dateutil.rrule import rrulestr

import gtd
from gtd import datex, ical
from gtd.datex.__main__ import main as datex_main
from gtd.ical.__main__ import main as ical_main
from tests import model_spans as spans
from tests.conftest import small_disk, without_library
from tests.exchange_inputs import document, event, first_instance, random_rule, random_specification, read, reference

EXAMPLES = Path(gtd.__file__).parents[2] / "examples" / "exchange"
ZONE = ["--zone", "Europe/Vienna"]
PLACES = ["--places", "roadworks.places.csv"]
SPRING = ["--from", "2025-03-01", "--to", "2025-07-01"]
STREET = ["--title", "Market Street", "--host", "example.org", "--stamp", "20250201T080000Z"]


@pytest.fixture(autouse=True)
def folder(tmp_path, monkeypatch):
    """A folder with the examples."""
    for path in EXAMPLES.iterdir():
        shutil.copy(path, tmp_path)
    monkeypatch.chdir(tmp_path)
    return tmp_path


def written(name):
    """What a command has written, beside what the examples have under this name."""
    return Path("out").read_bytes(), (EXAMPLES / name).read_bytes()


def test_roadworks(answering, capsys):
    assert datex_main(["read", "roadworks.xml", *PLACES, *ZONE, "--night", "begins", "--out", "out"]) == 0
    found, wanted = written("roadworks.csv")
    assert found == wanted
    domain = found.decode().splitlines()[1].split(",", 3)[3]
    Path("out").unlink()
    assert datex_main(["write", domain, *SPRING, "--out", "out"]) == 0
    assert written("roadworks.written.xml")[0] == written("roadworks.written.xml")[1]
    assert capsys.readouterr() == ("", "")


def test_market(answering, capsys):
    assert ical_main(["read", "market.ics", "--places", "market.places.csv", *ZONE, "--out", "out"]) == 0
    assert written("market.csv")[0] == written("market.csv")[1]
    Path("out").unlink()
    words = ["write", "market.csv", "--vehicle", "11", *SPRING, *ZONE, "--names", "names.csv", *STREET]
    assert ical_main([*words, "--out", "out"]) == 0
    assert written("closures.ics")[0] == written("closures.ics")[1]
    assert capsys.readouterr() == ("", "")


def test_tables_of_domains(answering, capsys):
    """Without places all ids are judged; dates that are listed before a day are said so."""
    assert datex_main(["read", "roadworks.xml", *ZONE, "--night", "within", "--out", "out"]) == 0
    rows = list(csv.reader(io.StringIO(Path("out").read_text())))
    assert rows[0] == ["id", "domain"] and [row[0] for row in rows[1:]] == ["4711-1"]
    gtd.check(rows[1][1])
    Path("out").unlink()
    assert ical_main(["read", "fair.ics", *ZONE, "--to", "2025-04-01", "--out", "out"]) == 0
    assert Path("out").read_text() == (
        "id,domain\nfair@example.org,(y2025M3d1h5){h10}+(y2025M3d15h5){h10}+(y2025M3d29h5){h10}\n"
    )
    assert capsys.readouterr().err.startswith("fair.ics:4: fair@example.org: Listed: dates before 2025-04-01 alone")


def test_one_domain(answering):
    """The events of one domain have UIDs of their own; those of the same domain in another form are the same."""
    uids = []
    for domain in ("(t7h5){h10}", "[(t7 h05){h10}]", "(t7h5){h9}"):
        assert ical_main(["write", "--domain", domain, *SPRING, *STREET, "--out", "out"]) == 0
        data = Path("out").read_bytes()
        assert data.count(b"RRULE:FREQ=WEEKLY;BYDAY=SA;COUNT=18") == 1 and data.count(b"SUMMARY:Market Street\r\n") == 1
        uids.append(next(line.split(b"-20250301")[0] for line in data.split(b"\r\n") if line.startswith(b"UID:domain-")))
        Path("out").unlink()
    assert uids[0] == uids[1] != uids[2]


def test_directions_and_empty_calendars(answering, capsys):
    """Directions that are closed alike are one event, others one each; a street that is always open has none."""
    rows = ["1,both,0,(h5){h1}", "2,positive,0,(h5){h1}", "3,both,12,", "4,negative,0,(h5){h1}", "4,positive,0,", ""]
    Path("rows.csv").write_text("\n".join(["element,direction,vehicles,domain", *rows]))
    assert ical_main(["write", "rows.csv", "--vehicle", "11", "--from", "2025-03-01", "--to", "2025-03-03", "--out", "out"]) == 0
    lines = Path("out").read_text().splitlines()
    names = [line.split("-2025")[0] for line in lines if line.startswith("UID:")]
    assert names == ["UID:1-both", "UID:2-positive", "UID:4-positive", "UID:4-negative"]
    summaries = [line for line in lines if line.startswith("SUMMARY")]
    assert summaries[1:3] == ["SUMMARY:2 closed forwards", "SUMMARY:4 closed forwards"]
    assert "DTSTART:20250301T000000" in lines and "DTEND:20250303T000000" in lines  # element 4 is always closed
    Path("out").unlink()
    words = ["write", "--domain", "(y2024h5){h1}", *SPRING, "--out", "out"]
    assert ical_main(words) == 0 and "VEVENT" not in Path("out").read_text()
    assert capsys.readouterr().err == "out: no event, since nothing is closed between the two days\n"


REFUSED = [
    (datex_main, ["read", "roadworks.xml", *PLACES, *ZONE], "roadworks.xml:19: 4711-1: Night: "),
    (datex_main, ["read", "roadworks.xml", "--night", "begins"], "roadworks.xml:16: 4711-1: Zone: "),
    (datex_main, ["read", "market.ics"], "market.ics:1: Xml: "),
    (datex_main, ["read", "roadworks.xml", "--places", "names.csv"], "names.csv:1: Header: id,element,direction,vehicles"),
    (
        datex_main,
        ["read", "roadworks.xml", "--places", "market.places.csv"],
        "market.places.csv:2: market@example.org: NotFound: an id of roadworks.xml",
    ),
    (datex_main, ["read", "roadworks.written.xml"], "roadworks.written.xml:1: NotFound: "),
    (datex_main, ["write", "(t7h25){h1}", *SPRING], "FieldRange at 3\n  (t7h25){h1}"),
    (datex_main, ["write", "(t7h5){h1}", "--from", "2025-03-01", "--to", "2025-03-01"], "horizon Empty"),
    (datex_main, ["write", "(t7h5){h1}", "--from", "2025-3-1", "--to", "2025-03-02"], "date Shape"),
    (datex_main, ["write", "(y2024h5){h1}", *SPRING], "Never (a domain that holds between the two days)"),
    (ical_main, ["read", "market.ics"], "market.ics:7: market@example.org: Zone: "),
    (ical_main, ["read", "fair.ics", *ZONE], "fair.ics:9: fair@example.org: Rule: "),
    (ical_main, ["read", "fair.ics", *ZONE, "--to", "2025-02-30"], "date NoSuchDate"),
    (ical_main, ["read", "roadworks.xml"], "roadworks.xml:1: Line: NAME;PARAMETER=VALUE:VALUE"),
    (ical_main, ["write", "market.csv", "--vehicle", "100", *SPRING], "VehicleRange"),
    (ical_main, ["write", "names.csv", "--vehicle", "11", *SPRING], "names.csv: Header"),
    (ical_main, ["write", "market.csv", "--vehicle", "11", *SPRING, "--names", "market.csv"], "market.csv:1: Header: elem"),
]


@pytest.mark.parametrize("main, words, line", REFUSED, ids=range(len(REFUSED)))
def test_refused(main, words, line, folder, capsys):
    before = sorted(os.listdir(folder))
    assert main([*words, "--out", "out"]) == 1
    said = capsys.readouterr()
    assert said.err.startswith(line) and said.out == "" and sorted(os.listdir(folder)) == before, said.err


def test_every_fault_is_printed(capsys):
    text = Path("roadworks.xml").read_text()
    record = text[text.index("      <sit:situationRecord") : text.index("    </sit:situation>")]
    second = record.replace("4711-1", "4711-2").replace("definedByValidityTimeSpec", "suspended")
    Path("two.xml").write_text(text.replace("    </sit:situation>", second + "    </sit:situation>"))
    assert datex_main(["read", "two.xml", *ZONE, "--out", "out"]) == 1
    kinds = [line.split(": ")[1:3] for line in capsys.readouterr().err.splitlines()]
    assert kinds == [["4711-1", "Night"], ["4711-2", "Status"]] and not Path("out").exists()


USAGE = [
    (datex_main, ["read", "roadworks.xml", "--zone", "Europe/Wien"]),
    (datex_main, ["read", "roadworks.xml", "--zone", "../etc"]),
    (datex_main, ["read", "roadworks.xml", "--night", "both"]),
    (datex_main, ["write", "(h5){h1}", *SPRING, "--version", "1"]),
    (ical_main, ["write", *SPRING]),
    (ical_main, ["write", "market.csv", *SPRING]),
    (ical_main, ["write", "market.csv", "--vehicle", "11", "--domain", "(h5){h1}", *SPRING]),
    (ical_main, ["write", "market.csv", "--vehicle", "11", *SPRING, "--stamp", "today"]),
]


@pytest.mark.parametrize("main, words", USAGE, ids=range(len(USAGE)))
def test_usage(main, words, capsys):
    with pytest.raises(SystemExit) as ended:
        main([*words, "--out", "out"])
    assert ended.value.code == 2 and capsys.readouterr().out == "" and not Path("out").exists()


def test_a_host_that_is_none(capsys):
    words = ["write", "--domain", "(h5){h1}", *SPRING, "--host", "a b", "--out", "out"]
    assert ical_main(words) == 2 and "a host has" in capsys.readouterr().err and not Path("out").exists()


@pytest.mark.parametrize("page", ["docs/PYTHON.md", "docs/TUTORIAL.md", "python/README.md"])
def test_commands_of_a_page(page):
    """Those of docs/DATEX.md and docs/ICAL.md are run by tests/examples.sh."""
    text = (EXAMPLES.parents[1] / page).read_text()
    shown = re.findall(r"^python3 -m gtd\.(datex|ical) ([^\n]*)", text, re.MULTILINE)
    assert shown
    file = re.search(r"cat > street.csv << end\n((?:> .*\n)*?)> end\n", text)
    if file:
        Path("street.csv").write_text(file[1].replace("> ", "").replace("t23456", "t2t3t4t5t6").replace("backward", "negative"))
    for name, words in shown:
        assert (datex_main if name == "datex" else ical_main)(shlex.split(words)) == 0
        assert Path(words.split()[-1]).stat().st_size > 100


@pytest.mark.parametrize("module", [datex, ical])
def test_examples_of_the_code(module):
    found = doctest.testmod(module)
    assert found.attempted and not found.failed


def test_files_that_fail(folder, capsys):
    """Nothing is overwritten, nothing is half-written."""
    Path("out").write_text("mine")
    assert ical_main(["read", "market.ics", *ZONE, "--out", "out"]) == 3
    assert "is there already" in capsys.readouterr().err and Path("out").read_text() == "mine"
    assert datex_main(["read", "none.xml", "--out", "other"]) == 3
    assert capsys.readouterr().err == "[Errno 2] No such file or directory: 'none.xml'\n"
    with small_disk(folder / "disk", "16k") as disk:
        words = ["write", "--domain", "(h0){m5}+(d1h7){m7}+(d2h9){h1}", *SPRING, "--title", "x" * 9_000]
        assert ical_main([*words, "--out", str(disk / "closures.ics")]) == 3
        assert os.listdir(disk) == [] and "No space left on device" in capsys.readouterr().err
    os.rmdir("disk")


FIRST, UNTIL = datetime(2025, 1, 1), datetime(2027, 1, 1)


def random_events(maker):
    """The domains of random events, each with the spans that dateutil has."""
    while True:
        near = datetime(2025, maker.randint(1, 12), maker.randint(1, 28), maker.randint(0, 23), 30)
        text = random_rule(maker, near)
        start = first_instance(text, near)
        if start is None or start.year > 2026:
            continue
        seconds = maker.choice([3600, 36000, 86400, 300000])
        data = event("UID:a", f"DTSTART:{start:%Y%m%dT%H%M%S}", f"DURATION:PT{seconds}S", f"RRULE:{text}")
        (found,) = ical.closures(data, ical.Choices(until=date(2027, 1, 1)))
        if found.fault is None:
            begins = rrulestr(text, dtstart=start).between(start, UNTIL, inc=True)
            yield found.domains, [(spans.second(one), spans.second(one) + seconds) for one in begins]


def random_validities(maker):
    """The domains of random specifications, each with the spans of the reference."""
    while True:
        text, night = document(random_specification(maker)), maker.choice(["begins", "within"])
        found = read(text, datex.Choices(night=night))
        if found.fault is None:
            yield found.domains, reference(text, night, FIRST, UNTIL)


def test_the_schedule_of_what_is_read():
    """Random domains in one record file: the program prints each element open exactly outside the spans of the references."""
    maker = random.Random(41)
    some = [next(source) for source in (random_events(maker), random_validities(maker)) for _ in range(100)]
    with open("records.csv", "w", newline="") as file:
        rows = csv.writer(file, lineterminator="\n")
        rows.writerow(["element", "direction", "vehicles", "domain"])
        rows.writerows([n, "positive", "0", domain] for n, (domains, _) in enumerate(some) for domain in domains)
    words = [gtd.program(), "schedule", "records.csv", f"{FIRST:%Y-%m-%d}", f"{UNTIL:%Y-%m-%d}", "1"]
    printed = subprocess.run(words, check=True, capture_output=True, text=True).stdout
    opened = {}
    for row in csv.DictReader(io.StringIO(printed)):
        if row["direction"] == "positive":
            ends = (spans.second(datetime.fromisoformat(row[end])) for end in ("from", "until"))
            opened.setdefault(int(row["element"]), []).append(tuple(ends))
    ends = spans.second(FIRST), spans.second(UNTIL)
    for number, (domains, wanted) in enumerate(some):
        closed = spans.without([ends], spans.united(opened.get(number, [])), *ends)
        assert closed == spans.within(wanted, *ends), (number, domains)


def test_the_same_with_library_and_programs(monkeypatch):
    """Many closures of one file, written with the library and then with the programs."""
    maker = random.Random(2)
    days = [FIRST + timedelta(days=maker.randint(0, 300)) for _ in range(200)]
    rows = [f"{maker.randint(1, 40)},{maker.choice(['both', 'positive'])},0,({day:y%YM%md%d}h5){{h10}}\n" for day in days]
    Path("many.csv").write_text("element,direction,vehicles,domain\n" + "".join(rows).replace("M0", "M").replace("d0", "d"))
    words = ["write", "many.csv", "--vehicle", "11", "--from", "2025-01-01", "--to", "2026-01-01", *STREET]
    assert ical_main([*words, "--out", "first"]) == 0
    without_library(monkeypatch)
    assert ical_main([*words, "--out", "second"]) == 0
    assert Path("first").read_bytes() == Path("second").read_bytes()
