#!/usr/bin/env python3
"""What a reader must believe of the headline: the definitions that it rests on, counted and printed in reading order.

Starts at the clauses of `run_schedule`, the first of which is `headline`, and follows each name that a definition uses
(tests/definitions.py). Counts the lines of the definitions, without comments and blank lines, and those of the types, models and
traits that they name; and for the claims of the other runs what each asks beyond the headline. STATEMENT.txt is the whole
statement.

Fails if a sum is over its limit; if docs/PROOF.md or README.md tells other numbers; if STATEMENT.txt is something else, or more
than its pages; if a name is not found; if a definition is among the lemmas, in specs/facts/; or if a file of specs/
cites a lemma.

Usage: tests/statement.py [--print | --list | --write]
  --print   prints the statement, as STATEMENT.txt must have it
  --list    prints each definition with its place
  --write   writes STATEMENT.txt, and the counts into docs/PROOF.md
"""
import os
import sys

from definitions import CRATES, TOP, citing_lemmas, clause, statement_of

HEADLINE = ("gtd_schedule", "src/run.rt", "run_schedule", (
    "headline", "stands", "ended", "vehicle", "year", "element", "endless", "read_faults", "write_faults"))
CLAIMS = [
    ("the table of a year", ("gtd_year", "src/run.rt", "run_year", ("claim",))),
    ("a migrated file", ("gtd_migrate", "src/run.rt", "run_migrate", ("claim",))),
    ("the state now", ("gtd_now", "src/run.rt", "run_now", ("accepted", "refused"))),
    ("what two files say differently", ("gtd_changes", "src/run.rt", "run_changes", ("headline",))),
    ("the list of faults", ("gtd_faults", "src/run.rt", "run_faults", ("listed",))),
    ("the picture of a year", ("gtd_picture", "src/run.rt", "run_picture", ("accepted", "refused", "unnamed"))),
    ("the domain of opening hours", ("gtdesk_tool", "src/text_hours.rt", "print_hours", ("ran",))),
    ("a file of opening hours", ("gtd_hours_file", "src/run.rt", "run_hours_records", ("stands",))),
]
MOST_LINES, MOST_FILES, MOST_WITH_TYPES = 460, 22, 620
HEAD = os.path.join(TOP, "tests", "statement_head.txt")
# A page of A4 takes 105 lines of 130 characters in a print of 7 points.
PAGE_LINES, MOST_PAGES = 105, 12
README = os.path.join(TOP, "README.md")
DOCUMENT = os.path.join(TOP, "docs", "PROOF.md")
COUNTS = ("<!-- the counts of tests/statement.py -->", "<!-- end of the counts -->")
PRINT = os.path.join(TOP, "STATEMENT.txt")


class Sums:
    """How many lines of definitions and of types a set of definitions has."""

    def __init__(self, definitions):
        texts = [it for it in definitions if it.is_text()]
        self.lines = sum(it.believed() for it in texts)
        self.texts = len(texts)
        self.files = len({it.path for it in texts})
        self.types = sum(it.believed() for it in definitions if not it.is_text())
        self.named = len(definitions) - len(texts)


def chapters(statement):
    """The files of definitions, each after all files that use it."""
    uses = {}
    for user, named in statement.named.items():
        path = user[0] if user and statement.reached[user].is_text() else None
        for key in named:
            files = uses.setdefault(path, {})
            if statement.reached[key].is_text() and key[0] != path:
                files[key[0]] = True
    order, seen = [], set()

    def visit(path):
        seen.add(path)
        for used in reversed(list(uses.get(path, {}))):
            if used not in seen:
                visit(used)
        order.append(path)

    visit(None)
    return [path for path in reversed(order) if path]


def shown(definition):
    """The lines of a definition with its comment."""
    lines = [line for line in definition.lines if not line.strip().startswith(("#[", "ghost use"))]
    return definition.comment + [line for line, after in zip(lines, lines[1:] + ["."]) if line.strip() or after.strip()]


def head_comment(path):
    """The comment at the head of a file."""
    head = []
    for line in open(os.path.join(TOP, path), encoding="utf-8"):
        if not line.startswith("--"):
            return head
        head.append(line.rstrip("\n"))
    return head


def types_of(statement, key, told):
    """The types that a definition names and that were not told yet, each after those that it names, and its model after it."""
    models = []
    for named in statement.named.get(key, {}):
        if not statement.reached[named].is_text() and named not in told:
            told.add(named)
            if named[1].startswith("Model for "):
                models.append(statement.reached[named])
                continue
            below = list(types_of(statement, named, told))
            yield from (it for it in below if not it.name.startswith("Model for " + named[1]))
            yield statement.reached[named]
            yield from (it for it in below if it.name == "Model for " + named[1])
    yield from models


def shown_types(kinds):
    """The lines of types, each file named once."""
    lines, path = [], None
    for kind in kinds:
        lines += [""] if kind.path == path else ["", "-- of " + kind.path]
        path = kind.path
        lines += shown(kind)
    return lines


def chapter(statement, path, definitions, told):
    """The lines of a file: its head, the types that its definitions are the first to name, and the definitions."""
    lines = ["", "-- " + "=" * 20 + " " + path] + head_comment(path)
    lines += shown_types(kind for it in definitions for kind in types_of(statement, it.key(), told))
    shared = None
    for definition in definitions:
        lines.append("")
        if definition.shared and definition.shared != shared:
            lines.append(definition.shared)
        shared = definition.shared
        lines += shown(definition)
    return lines


def the_print(statement):
    """The whole statement, in reading order: the clauses, what devices say, and each file after those that use it."""
    crate, file, function, clauses = HEADLINE
    path = os.path.join(CRATES, crate, file)
    lines = ["-- " + "=" * 20 + " the clauses of " + function + ", crates/%s/%s" % (crate, file)]
    lines += [line.replace("    ", "", 1) for name in clauses for line in clause(path, function, name)]
    told = set()
    lines += shown_types(types_of(statement, None, told))
    for path in chapters(statement):
        definitions = sorted((it for it in statement.reached.values() if it.path == path), key=lambda it: it.first)
        lines += chapter(statement, path, definitions, told)
    return lines


def printed(statement):
    """The text of STATEMENT.txt: how to read it, and the print."""
    with open(HEAD, encoding="utf-8") as file:
        return file.read() + "\n".join(the_print(statement)) + "\n"


def the_counts(statement):
    """The table of the sums, as docs/PROOF.md has it."""
    rows = ["| Claim | Lines of definitions | in files | Lines of types |", "|---|---|---|---|"]
    sums = Sums(list(statement.reached.values()))
    rows.append("| the headline | %d | %d | %d |" % (sums.lines, sums.files, sums.types))
    for name, place in CLAIMS:
        other = statement_of(*place)
        more = Sums([it for key, it in other.reached.items() if key not in statement.reached])
        statement.unfound |= other.unfound
        rows.append("| %s, beyond the headline | %d | %d | %d |" % (name, more.lines, more.files, more.types))
    return rows


def held(text, marks):
    """What a document holds between two marks."""
    return text.partition(marks[0])[2].partition(marks[1])[0].strip("\n").split("\n")


def with_held(text, marks, lines):
    """The document with these lines between two marks."""
    before, after = text.partition(marks[0])[0], text.partition(marks[1])[2]
    return before + marks[0] + "\n" + "\n".join(lines) + "\n" + marks[1] + after


def faults(statement, sums, counts, pages):
    """Each reason to fail."""
    if sums.lines > MOST_LINES or sums.files > MOST_FILES or sums.lines + sums.types > MOST_WITH_TYPES:
        yield "more than %d lines in %d files, or %d with types" % (MOST_LINES, MOST_FILES, MOST_WITH_TYPES)
    if pages > MOST_PAGES:
        yield "the statement takes more than %d pages" % MOST_PAGES
    document = open(DOCUMENT, encoding="utf-8").read()
    if held(document, COUNTS) != counts:
        yield "docs/PROOF.md has other counts: tests/statement.py --write"
    if open(PRINT, encoding="utf-8").read() != printed(statement):
        yield "STATEMENT.txt is something else: tests/statement.py --write"
    for path in sorted({it.path for it in statement.reached.values()}):
        if "/specs/facts/" in path:
            yield "a definition stands among lemmas: " + path
    for name in sorted(statement.unfound):
        yield "not found: " + name
    for path in citing_lemmas():
        yield "a file of definitions cites lemmas: " + path
    told = "%d lines of definitions in %d files, and on %d lines of the types" % (sums.lines, sums.files, sums.types)
    if told not in " ".join(open(README, encoding="utf-8").read().split()):
        yield "README.md does not say: " + told


def main():
    statement = statement_of(*HEADLINE)
    words = sys.argv[1:]
    if "--print" in words:
        print(printed(statement), end="")
        return 0
    if "--list" in words:
        for it in sorted(statement.reached.values(), key=lambda it: (it.path, it.first)):
            print("%s:%d-%d %s" % (it.path, it.first, it.last(), it.name))
        return 0
    counts = the_counts(statement)
    if "--write" in words:
        text = open(DOCUMENT, encoding="utf-8").read()
        open(DOCUMENT, "w", encoding="utf-8").write(with_held(text, COUNTS, counts))
        open(PRINT, "w", encoding="utf-8").write(printed(statement))
        return 0
    sums = Sums(list(statement.reached.values()))
    length = len(printed(statement).split("\n")) - 1
    pages = -(-length // PAGE_LINES)
    failures = list(faults(statement, sums, counts, pages))
    for fault in failures:
        print("FAILED " + fault)
    words = "; ".join("%s: %d" % (crate, len(names)) for crate, names in sorted(statement.ends.items()))
    print("words of the kit's crates: " + words)
    print("\n".join(counts))
    print("statement: %d lines of %d definitions in %d files must be believed, and %d lines of the %d types, models and"
          " traits that they name; the print has %d lines, on %d pages"
          % (sums.lines, sums.texts, sums.files, sums.types, sums.named, length, pages))
    print("statement: %d passed, %d failed" % (len(statement.reached), len(failures)))
    return 1 if failures else 0


if __name__ == "__main__":
    sys.exit(main())
