#!/usr/bin/env python3
"""`gtdesk same --file` on random record files, against the plain model of tests/model.py.

The domains of these files are some that repeat after a week or a year, each in several texts: `{h24}` for `{d1}`, `b+a` for
`a+b`, a stretch cut in two; and some of years, that have no second from 2016 to 2043. The rows name few elements, so that many of
them are the same, or within another. The model compares the seconds of eight years, and of the others that a text names. Of the
lines that the program prints, each is that of the model, and none is missing. Then come files that were shuffled, whose rows were
split, or rewritten: without the rows of which a line is printed, `gtdesk diff` says that nothing has changed. Run it after
`rt ci`, which builds the program.

Usage: tests/repeats.py [COUNT [SEED]]
"""
import os
import random
import subprocess
import sys
import tempfile

import model
import same

# The years of which the seconds are compared: in each from the first of them up to the second.
YEARS = [tuple(same.number(same.datetime.datetime(year, 1, 1)) for year in years)
         for years in ((1950, 1951), (2010, 2012), (2016, 2024), (2050, 2051), (2350, 2351))]
MOST_KIN = 64

# Texts of domains. Those of a line have the same seconds.
TEXTS = [
    ["", "(h0){d1}", "(h12){h24}", "(t1){d7}", "(M1d1){y1}"],
    ["(t2t3t4t5t6h8){h9}", "(h8){h9}-(t7t1h0){d1}", "[(h8){h9}]-[(t1h0){d1}+(t7h0){h24}]"],
    ["(h8){h9}", "(h8){m540}", "(h8){h5}+(h12){h5}", "(h12){h5}+(h8){h5}"],
    ["(h8){h4}", "(h8){h9}*(h0){h12}", "(h8){h9}-(h12){h12}"],
    ["(h22){h8}", "(h22){h2}+(h0){h6}", "(h0){h6}+(h22){h2}"],
    ["(t6h22){h8}", "(t6h22){h2}+(t7h0){h6}"],
    ["(t7t1){d1}", "(t7){d2}", "(t1){h24}+(t7){h24}"],
    ["(M4d1){M3}", "(M4){M1}+(M5){M1}+(M6){M1}", "(M4d1){d91}"],
    ["(M5d1){M1}", "(M5){M1}", "(M5d1){d31}"],
    ["(M4d1){M3}*(h8){h9}", "(h8){h9}*(M4d1){d91}"],
    ["(M2d29){d1}", "(M2d1){M1}-(M2d1){d28}"],
    ["(h8){h1}-(h8){h1}", "(t2h9){h1}-(h9){h1}", "(h9){s0}"],
    ["(y2020M3d5h8){h9}", "(y2020M3d5h8){m540}"],
    ["(y2010M3d5h8){h9}", "(y2010M3d5h8){m540}", "(y2010M3d5h12){h5}+(y2010M3d5h8){h5}"],
    ["(y2010M3){M1}", "(y2010M3d1){d31}", "(y2010M3){w4}+(y2010M3d29){d3}"],
    ["(y2011M3d5h8){h9}", "(y2011M3d5h8){m540}"],
    ["(y1950M6){M1}", "(y1950M6){d30}"],
    ["(y2050M6){M1}", "(y2050M6d1){d30}"],
    ["(y2350M2d1){d28}", "(y2350M2){M1}"],
]
SPANS = {}


def spans(text):
    """The seconds of a domain in the years that are compared."""
    if text not in SPANS:
        clipped = []
        for first, last in YEARS:
            found = same.spans_of(model.read(text.encode()), first, last) if text else [[first, last]]
            clipped += [(max(begin, first), min(end, last)) for begin, end in found]
        SPANS[text] = [list(span) for span in same.merged([(begin, end) for begin, end in clipped if begin < end])]
    return SPANS[text]


WITHIN = {}


def within(text, other):
    """Whether each second of a domain is in another."""
    if (text, other) not in WITHIN:
        WITHIN[text, other] = same.joined("-", spans(text), spans(other)) == []
    return WITHIN[text, other]


def types(column):
    """The vehicle types of a column."""
    if column == "0":
        return frozenset(range(1, 100))
    if column.startswith("!"):
        return frozenset(range(1, 100)) - types(column[1:])
    return frozenset(int(code) for code in column.split(";"))


def directions(column):
    return {"both": {"positive", "negative"}}.get(column, {column})


def is_same(row, other):
    return row[0] == other[0] and row[1] == other[1] and types(row[2]) == types(other[2]) and row[3] == other[3]


def is_within(row, other):
    return (row[0] == other[0] and directions(row[1]) <= directions(other[1]) and types(row[2]) <= types(other[2])
            and within(TEXTS[row[3]][row[4]], TEXTS[other[3]][other[4]]))


def expected(path, rows, lines):
    """The lines for a file whose rows are (element, direction, vehicles, meaning, text) and begin on these lines."""
    printed = []
    for at, row in enumerate(rows):
        head = f"{path}:{lines[at]}: row {at + 1}: "
        first = next(j for j in range(at + 1) if is_same(rows[j], row))
        if first < at:
            printed.append(f"{head}same as row {first + 1}\n")
        else:
            kin = [j for j in range(len(rows)) if rows[j][0] == row[0]][:MOST_KIN]
            other = next((j for j in kin if not is_same(row, rows[j]) and is_within(row, rows[j])), None)
            if other is not None:
                printed.append(f"{head}within row {other + 1}\n")
        meaning = next(j for j in range(at + 1) if rows[j][3] == row[3])
        if meaning < at and not any(rows[j][3:] == row[3:] for j in range(at)):
            printed.append(f"{head}same domain as row {meaning + 1}\n")
    return "".join(printed)


def random_rows(rng):
    """Rows of few elements, with domains of few meanings."""
    meanings = rng.sample(range(len(TEXTS)), rng.randint(2, 6))
    codes = rng.sample(["0", "11", "12", "11;12", "12;11", "!11", "!11;12", "1;2;3", "!99"], 4)
    rows = []
    for _ in range(rng.choice([0, 1, 5, 20, 80, 200])):
        meaning = rng.choice(meanings)
        rows.append((rng.choice([1, 2, 7, 4097, 4103]), rng.choice(["positive", "negative", "both"]), rng.choice(codes),
                     meaning, rng.randrange(len(TEXTS[meaning]))))
    return rows


def record(row):
    text = TEXTS[row[3]][row[4]]
    return f"{row[0]},{row[1]},{row[2]},{text and '[' + text + ']'}"


def written(rng, rows):
    """A file of rows, and the lines on which they begin. Some lines are empty, and some end in CR LF."""
    text, lines = "element,direction,vehicles,domain\n", []
    for row in rows:
        text += rng.choice(["", "", "", "\n", "\r\n\n"])
        lines.append(text.count("\n") + 1)
        text += record(row) + rng.choice(["\n", "\n", "\r\n"])
    return text, lines


def run(path):
    done = subprocess.run([same.GTDESK, "same", "--file", path], stdin=subprocess.DEVNULL, capture_output=True, timeout=300)
    return done.stdout.decode(), done.stderr.decode(), done.returncode


def left(rows, printed):
    """The rows of which no line says that they are the same as another or within it."""
    said = {int(line.split(": row ")[1].split(":")[0]) for line in printed.splitlines() if "same domain" not in line}
    return [row for at, row in enumerate(rows) if at + 1 not in said]


def why_wrong(rng, folder):
    rows = random_rows(rng)
    text, lines = written(rng, rows)
    path = os.path.join(folder, "rows.csv")
    with open(path, "w", newline="") as file:
        file.write(text)
    printed, errors, status = run(path)
    wanted = expected(path, rows, lines)
    if (printed, errors, status) != (wanted, "", 4 if wanted else 0):
        return f"{text!r}: {printed!r}, {errors!r}, status {status}; wanted {wanted!r}"
    return why_lost(rng, folder, path, rows, printed)


def why_lost(rng, folder, path, rows, printed):
    """What the rows without those of which a line is printed do not close, if anything. Rows that never close may all go."""
    kept = left(rows, printed)
    rng.shuffle(kept)
    other = os.path.join(folder, "kept.csv")
    with open(other, "w", newline="") as file:
        file.write(written(rng, kept)[0])
    for vehicle in ("1", "11", "99"):
        words = [same.GTDESK, "diff", path, other, "2019-12-01", "2020-06-01", vehicle]
        done = subprocess.run(words, capture_output=True, timeout=300)
        if done.returncode != 0 or done.stdout.count(b"\n") != 1:
            return f"{rows}: {done.stdout!r} is lost"
    return None


def main(words):
    count, seed = int(words[0]) if words else 300, int(words[1]) if words[1:] else 1
    failed = 0
    with tempfile.TemporaryDirectory() as folder:
        for at in range(count):
            why = why_wrong(random.Random(f"{seed}/{at}"), folder)
            if why:
                failed += 1
                print(f"FAILED {seed}/{at}: {why}")
    print(f"repeats: {count - failed} passed, {failed} failed")
    return 1 if failed or not count else 0


if __name__ == "__main__":
    sys.exit(main(sys.argv[1:]))
