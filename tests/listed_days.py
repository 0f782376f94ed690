#!/usr/bin/env python3
"""Compares what holidays become, and their domain, with the plain model: the worked rows in holidays/, and drawn tables, years
and selectors. The program is holidays/main.rattle, built without its proofs.

With an argument, that many are drawn."""
import random
import re
import sys

import holidays_model as model
import trial

CRATES = "gtd_text gtd_hours gtd_hours_domain gtd_hours_holidays gtd_hours_days gtd_hours_known"
MOST_BASIC_DOMAINS = 128
OFFSETS = (-366, -31, -2, -1, 0, 1, 2, 6, 49, 365, 366)


def question(rows, first, last, items, wanted):
    """The lines that ask for the days of selectors, each a name and an offset, and say what is wanted."""
    lines = ["=first,last,kind,name"] if rows else []
    for begin, end, kind, covers in rows:
        lines.append(f"={model.date(begin)},{model.date(end)},{kind}{'-covered' if covers else ''},")
    words = [{"PH": "P", "SH": "S", "easter": "E"}[name] + str(offset) for name, offset in items]
    return "\n".join(lines + [" ".join([str(first), str(last)] + words), ">" + wanted]) + "\n"


def answer(rows, first, last, items):
    """What is to be answered, by the model."""
    for place, (name, offset) in enumerate(items):
        day = None if name == "easter" else model.first_uncovered(rows, name, first, last)
        if day is not None:
            return f"Uncovered {place} {day}"
    text = ",".join(f"{name} {offset}" for name, offset in items)
    grouping = model.group(model.listed(rows, text, first, last), first, last)
    if model.cost(grouping) > MOST_BASIC_DOMAINS:
        return f"TooMany {model.cost(grouping)}"
    return model.add(model.terms(grouping, first, last))


def worked():
    """The worked rows, with the domains that stand there."""
    files = model.tables()
    with open(f"{model.HERE}/holidays/groups.csv", newline="") as source:
        for row in model.csv.DictReader(source):
            items = [(item.partition(" ")[0], int(item.partition(" ")[2] or 0)) for item in row["days"].split(",")]
            rows = files.get(row["table"], [])
            yield (rows, int(row["first"]), int(row["last"]), items), row["domain"]


def drawn(chance):
    """A table, years and selectors."""
    first = chance.choice((1802, 1803, 1804, 1895, 1999, 2000))
    last = min(2797, first + chance.choice((0, 0, 1, 2, 4, 8, 13, 70)))
    begin, end = model.number(first, 1, 1), model.number(last, 12, 31)
    rows = [(begin - chance.choice((0, 0, 400, -1)), end + chance.choice((0, 0, 400)), kind, True) for kind in ("PH", "SH")]
    for _ in range(chance.randrange(5)):
        month, day = chance.choice(((1, 1), (12, 25), (12, 31), (2, 28), (2, 29), (3, 1), (5, 1), (10, 3)))
        length = chance.choice((1, 1, 2, 14, 40, 366))
        kind = chance.choice(("PH", "SH"))
        for year in range(first - 1, last + 2):
            try:
                day_of_year = model.number(year, month, day)
            except ValueError:
                continue
            if chance.random() < 0.97:
                rows.append((day_of_year, day_of_year + length - 1, kind, False))
    for _ in range(chance.randrange(6)):
        day = chance.randrange(begin - 30, end + 30)
        rows.append((day, day + chance.choice((0, 0, 3, 400)), chance.choice(("PH", "SH")), False))
    covered = {kind: model.days_of(rows, kind, True) for kind in ("PH", "SH")}
    rows = [row for row in rows if row[3] or row[0] in covered[row[2]] and row[1] in covered[row[2]]]
    names = [chance.choice(("PH", "PH", "SH", "easter")) for _ in range(chance.choice((1, 1, 2, 3)))]
    return rows, first, last, [(name, 0 if name == "SH" else chance.choice(OFFSETS)) for name in names]


def main():
    chance = random.Random(20)
    asked = list(worked())
    for _ in range(int(sys.argv[1]) if sys.argv[1:] else 40):
        case = drawn(chance)
        asked.append((case, answer(*case)))
    printed = trial.printed("holidays", CRATES, "".join(question(*case, wanted) for case, wanted in asked))
    found = re.search("^([0-9]+) right$", printed, re.M)
    right = int(found[1]) if found else 0
    if right < len(asked):
        print(printed[-3000:], file=sys.stderr)
    kinds = [wanted.split(" ")[0] for _, wanted in asked]
    print(f"listed days: {right} passed, {len(asked) - right} failed"
          f" ({kinds.count('Uncovered')} Uncovered, {kinds.count('TooMany')} TooMany)")
    return right < len(asked)


if __name__ == "__main__":
    sys.exit(main())
