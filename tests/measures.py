#!/usr/bin/env python3
"""How large the project is: the table of measures in docs/ARCHITECTURE.md, and the wrong bodies of each crate in docs/PLANTED.md.

Counts lines, crates, places that say the same, long lists of parameters, the files that know one command and the bytes of the
documents, over the files that git knows. Fails if a figure of the table is off by more than a twentieth, or if a number of wrong
bodies is another.

Usage: tests/measures.py            compares both
       tests/measures.py --write    writes both anew
"""
import collections
import os
import re
import subprocess
import sys
import textwrap

TOP = os.path.dirname(os.path.dirname(os.path.abspath(__file__)))
DOCUMENT = os.path.join(TOP, "docs", "ARCHITECTURE.md")
PLANTED = os.path.join(TOP, "docs", "PLANTED.md")
BEGIN, END = "<!-- measures, counted by tests/measures.py -->\n", "<!-- end of the measures -->\n"
SHARED = 6
LONG = 7
# A command of each program, as its crates write it, and the report that is smallest.
COMMAND = ("gtd", r"\b[Mm]igrate\b", ["gtd_tool"])
DESK_COMMAND = ("gtdesk", r"DomainPicture|picture-domain|domain_picture", ["gtdesk_plans", "gtdesk_tool"])
REPORT = "gtd_year"
# What begins to read the rows of a file. The walk over rows in `places.rt` is for the lists of other commands.
READING = r"\b(?:take_rows|table|faults_of|read_records|Rows::new)\("
LISTING = ["gtd_warnings", "gtd_faults"]
# What walks over the tokens of a text of hours from its front. Behind a fault the rest is only looked through.
TOKENS = r"\b(?:next_token\(text, |check_tokens\(text, 0\))"
TOKEN_READERS = ["gtd_hours_grammar", "gtd_hours_text"]


def tracked(*patterns):
    """The files that git knows under these patterns, and that are there."""
    listed = subprocess.run(["git", "-C", TOP, "ls-files", "-co", "--exclude-standard", *patterns], check=True,
                            capture_output=True, text=True)
    return sorted(name for name in set(listed.stdout.split("\n")) if name and os.path.isfile(os.path.join(TOP, name)))


def text_of(name):
    with open(os.path.join(TOP, name), encoding="utf-8") as file:
        return file.read()


def code_of(crate):
    """The files of code, definitions and proofs of a crate, or of all."""
    return tracked(f"crates/{crate}/*.rt", f"crates/{crate}/*.antt")


def lines_of(names):
    return sum(text_of(name).count("\n") for name in names)


def pairs_in(names):
    """How many pairs of places in these files share six or more lines in a row, without comments and blank lines."""
    lines = []
    for name in names:
        stripped = (line.strip() for line in text_of(name).split("\n"))
        lines += [line for line in stripped if line and not line.startswith(("//", "--"))] + [None]
    places = collections.defaultdict(list)
    for at in range(len(lines) - SHARED + 1):
        block = tuple(lines[at:at + SHARED])
        if None not in block:
            places[block].append(at)
    pairs = 0
    for found in places.values():
        for number, first in enumerate(found):
            for second in found[number + 1:]:
                begins = first == 0 or lines[first - 1] is None or lines[first - 1] != lines[second - 1]
                pairs += begins and second - first >= SHARED
    return pairs


def parameters_of(code):
    """The number of parameters of each function of a source file."""
    for found in re.finditer(r"\bfn \w+(?:<[^(]*?>)?\(", code):
        depth, commas, last = 1, 0, ""
        for letter in code[found.end():]:
            depth += (letter in "([{<") - (letter in ")]}>")
            if depth == 0:
                break
            commas += letter == "," and depth == 1
            last = letter if not letter.isspace() else last
        yield commas + (last not in ("", ","))


def naming(words, crates):
    """The files of some crates that name a command."""
    return [name for crate in crates for name in code_of(crate) if re.search(words, text_of(name))]


def measured():
    """Each measure and its figure."""
    crates = [line.split(":")[0].split()[0] for line in text_of("crates.txt").split("\n") if line and line[0] != "#"]
    code = code_of("*")
    sources = [name for name in code if "/src/" in name]
    documents = tracked("README.md", "CONTRIBUTING.md", "docs/*.md")
    yield "crates", len(crates)
    yield "lines of code, definitions and proofs", lines_of(code)
    yield "of these, lines of code (`src/`)", lines_of(sources)
    yield "of definitions and facts (`specs/`)", lines_of([name for name in code if "/specs/" in name])
    yield "of proofs (`proofs/`)", lines_of([name for name in code if "/proofs/" in name])
    yield "pairs of places in a crate that share six or more lines", sum(pairs_in(code_of(crate)) for crate in crates)
    yield "functions of seven or more parameters", sum(it >= LONG for name in sources for it in parameters_of(text_of(name)))
    for program, words, owners in (COMMAND, DESK_COMMAND):
        shown = " and ".join(f"`{it}`" for it in owners)
        yield f"files of {shown} that name one command of `{program}`", len(naming(words, owners))
    yield f"files of the smallest report, `{REPORT}`", len(code_of(REPORT))
    listing = [name for crate in LISTING for name in code_of(crate) if name.endswith(".rt") and not name.endswith("/places.rt")]
    yield "readings of a file for `gtdesk faults --warn`", sum(len(re.findall(READING, text_of(name))) for name in listing)
    readers = [name for crate in TOKEN_READERS for name in code_of(crate) if name.endswith(".rt")]
    yield "passes over the tokens of a text of hours", sum(len(re.findall(TOKENS, text_of(name))) for name in readers)
    yield "bytes of the documents (README, CONTRIBUTING, `docs/`)", sum(len(text_of(it).encode()) for it in documents)
    yield "bytes of the printed definitions, `STATEMENT.txt`", len(text_of("STATEMENT.txt").encode())


def number_of(line):
    """The figure of a row of the table."""
    return int(line.rstrip().rstrip("|").rpartition("|")[2].replace(",", ""))


def only_planted(others, kept):
    """The paragraph that lists the crates with wrong bodies in `planted/` alone, the lowest first."""
    crates = re.findall(r"^(\w+)[^:#]*:", text_of("crates.txt"), re.M)
    items = ", ".join(f"`{crate}`\u00a0{others[crate]}" for crate in crates if others[crate] and not kept[crate])
    lines = textwrap.wrap(f"Planted only: {items}.", 128, break_long_words=False, break_on_hyphens=False)
    return "\n".join(lines).replace("\u00a0", " ")


def planted_table(text):
    """The text of docs/PLANTED.md with the numbers of wrong bodies as they are, and the crates of the gate that
    it does not list."""
    kept = collections.Counter(name.split("/")[1] for name in tracked("crates/*/must-fail/*.edit"))
    others = collections.Counter(name.split("/")[1] for name in tracked("planted/*/*.edit"))
    listed = re.findall(r"^\| `(\w+)` \| [\d,]+ \| [\d,]+ \|", text, re.M)
    text = re.sub(r"^\| `(\w+)` \| [\d,]+ \| [\d,]+ \|",
                  lambda row: f"| `{row[1]}` | {kept[row[1]]} | {others[row[1]]} |", text, flags=re.M)
    text = re.sub(r"^Planted only: .*?\.$", lambda _: only_planted(others, kept), text, flags=re.M | re.S)
    for form, number in ((r"(\*\*Kept edits\.\*\* )\d+", kept.total() + others.total()),
                         (r"(named for its mistake: )\d+", kept.total()), (r"(The other )\d+( stand in)", others.total())):
        text = re.sub(form, lambda found: found[1] + str(number) + "".join(found.groups()[1:]), text, count=1)
    return text, sorted(set(kept) - set(listed))


def compare_planted(write):
    """Compares docs/PLANTED.md, or writes its numbers. How many checks failed."""
    text = text_of("docs/PLANTED.md")
    wanted, missing = planted_table(text)
    for crate in missing:
        print(f"FAILED docs/PLANTED.md has no row of {crate}")
    if write:
        with open(PLANTED, "w", encoding="utf-8") as file:
            file.write(wanted)
    elif text != wanted:
        print("FAILED docs/PLANTED.md has other numbers of wrong bodies: tests/measures.py --write")
    return int(bool(missing)) + int(not write and text != wanted)


def main():
    figures = list(measured())
    table = ["| Measure | Today |\n", "|---|---|\n"] + [f"| {name} | {figure:,} |\n" for name, figure in figures]
    before, begin, rest = text_of("docs/ARCHITECTURE.md").partition(BEGIN)
    shown, end, after = rest.partition(END)
    if not begin or not end:
        sys.exit("FAILED docs/ARCHITECTURE.md has no table of measures")
    if sys.argv[1:] == ["--write"]:
        with open(DOCUMENT, "w", encoding="utf-8") as file:
            file.write(before + BEGIN + "".join(table) + END + after)
        return compare_planted(True)
    told = {line.split("|")[1].strip(): number_of(line) for line in shown.split("\n")[2:] if line}
    failed = 0
    for name, figure in figures:
        if name not in told or abs(told[name] - figure) * 20 > figure:
            failed += 1
            print(f"FAILED docs/ARCHITECTURE.md: {name} is {figure:,}, and not {told.get(name)}")
    bad = compare_planted(False)
    print(f"measures: {len(figures) - failed + 2 - bad} passed, {failed + bad} failed")
    return failed + bad != 0


if __name__ == "__main__":
    sys.exit(main())
