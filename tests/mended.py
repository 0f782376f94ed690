#!/usr/bin/env python3
"""`gtdesk mend` on random record files that are written as people and spreadsheets write them.

Each file is an accepted one to begin with. Then its fields get spaces, quotation marks, capital letters, decimals and dashes,
and other separators; its rows other ends, quotes that nothing needs and empty lines between them; and its bytes another
encoding. Each of these changes is noted when it is made. The mended file must be the accepted one, byte for byte, and the
changes that are listed must be those that were noted, in order. A file that is still accepted must come out as it is. Run it
after `rt ci`, which builds the programs.

Usage: tests/mended.py [COUNT [SEED]]
"""
import os
import random
import subprocess
import sys
import tempfile

from checks import Checks

TOP = os.path.dirname(os.path.dirname(os.path.abspath(__file__)))
GTD = os.environ.get("GTD", os.path.join(TOP, "crates", "gtd", "out", "gtd"))
DESK = os.environ.get("GTDESK", os.path.join(TOP, "crates", "gtdesk", "out", "gtdesk"))
NAMES = {False: ["element", "direction", "vehicle", "domain"], True: ["element", "direction", "vehicles", "domain"]}
DOMAINS = [
    "", "(h10){h4}", "[(M4d1){M3}]*[(h10){h4}]", "[(h0){h24}]-[(M8){M1}]", "[[(h0){h24}]-[(t7){d1}]]-[(M7){M2}]", "(t2 t3){d1}",
]
SPACES = [" ", "  ", "\t", " \t ", "\r", "\n"]
# A domain may have spaces.
TABS = ["\t", " \t ", "\r", " \n"]
QUOTES = ["\"\"", "\'\'", "\u201c\u201d", "\u201e\u201c", "\u2018\u2019", "\u00ab\u00bb", "\u2039\u203a"]
DASHES = "\u2010\u2011\u2012\u2013\u2014\u2015\u2212"
# What is listed of an encoding; the mark that it begins with; and its name. Two are listed in the same words.
ENCODINGS = [
    ("", "", "utf-8"), ("", "", "utf-8"), ("byte order mark", "\ufeff", "utf-8"), ("UTF-16", "\ufeff", "utf-16-le"),
    ("UTF-16", "\ufeff", "utf-16-be"),
]


def good_rows(draw, second):
    """The rows of an accepted file, in the form that `mend` writes."""
    rows = [NAMES[second]]
    for _ in range(draw.randrange(6)):
        codes = ["0", str(draw.randrange(1, 100))]
        if second:
            codes += ["!1;2", "11;12;13"]
        direction = draw.choice(["positive", "negative", "both"])
        rows.append([str(draw.randrange(10 ** draw.randrange(1, 11))), direction, draw.choice(codes), draw.choice(DOMAINS)])
    return rows


def blemished(draw, text, column, head):
    """A field with blemishes, and their kinds in the order in which they are taken off."""
    kinds = []
    if not text:
        return text, kinds
    is_word = head or column == 1
    if is_word and draw.random() < 0.1:
        changed = draw.choice([text.upper(), text.capitalize(), text[:-1] + text[-1].upper()])
        text, kinds = changed, ["capitals"]
    if not is_word and column in (0, 2) and text.isdigit() and draw.random() < 0.1:
        text, kinds = text + "." + "0" * draw.randrange(1, 3), ["decimals"]
    if not head and column == 3 and "-" in text and draw.random() < 0.3:
        text, kinds = text.replace("-", draw.choice(DASHES)), ["dashes"]
    if draw.random() < 0.08:
        before, after = draw.choice(QUOTES)
        text, kinds = before + text + after, ["quotes", *kinds]
    if draw.random() < 0.1:
        before, after = draw.choice([("", 1), (1, ""), (1, 1)])
        spaces = SPACES if head or column < 3 else TABS
        text = (draw.choice(spaces) if before else "") + text + (draw.choice(spaces) if after else "")
        kinds = ["spaces", *kinds]
    return text, kinds


def written(draw, rows, separator, neat):
    """A text of these rows; the changes of fields; and whether its layout is that of its rows."""
    end = "\n" if neat else draw.choice(["\n", "\n", "\r\n", "\r"])
    text, noted, plain = "", [], end == "\n"
    for number, row in enumerate(rows):
        if not neat and draw.random() < 0.1:
            text += end
            plain = False
        line, fields = text.count("\n") + 1, []
        for column, field in enumerate(row):
            changed, kinds = blemished(draw, field, column, number == 0)
            noted += [f"{line}: field {column + 1}: {kind}" for kind in kinds]
            needed = any(it in changed for it in (separator, "\"", "\r", "\n"))
            if needed or not neat and draw.random() < 0.05:
                plain = plain and needed
                changed = "\"" + changed.replace("\"", "\"\"") + "\""
            fields.append(changed)
        text += separator.join(fields) + end
    if not neat and draw.random() < 0.1:
        text, plain = text[:-len(end)], False
    return text, noted, plain


def made(draw):
    """An accepted file; the same, written otherwise; and the changes from that to the accepted one."""
    rows = good_rows(draw, draw.random() < 0.5)
    separator = draw.choice(",,,;\t")
    text, fields, plain = written(draw, rows, separator, draw.random() < 0.5)
    encoding, mark, name = draw.choice(ENCODINGS)
    noted = [f"1: {encoding}"] if encoding else []
    noted += ["1: separators"] if separator != "," else []
    noted += [] if plain else ["1: quotes or line ends"]
    given = (mark + text).encode(name)
    if separator == "," and not fields and encoding != "UTF-16":
        return given, given, []
    return "".join(",".join(row) + "\n" for row in rows).encode(), given, noted + fields


def main(count=2000, seed=1):
    """Tries so many files."""
    check = Checks("mended.py")
    draw = random.Random(int(seed))
    with tempfile.TemporaryDirectory() as room:
        path = os.path.join(room, "r.csv")
        for number in range(int(count)):
            wanted, given, noted = made(draw)
            with open(path, "wb") as file:
                file.write(given)
            done = subprocess.run([DESK, "mend", "r.csv"], cwd=room, capture_output=True, check=False, timeout=60)
            lines = "".join(f"r.csv:{it}\n" for it in noted).encode()
            found = (done.returncode, done.stdout, done.stderr)
            check(found == (0, wanted, lines), f"{number}: {given!r}: {found}, wanted {wanted!r} and {lines!r}")
            read = subprocess.run([GTD, "migrate", "/dev/stdin"], input=done.stdout, capture_output=True, check=False)
            check(read.returncode == 0, f"{number}: {given!r} is not accepted once it is mended: {read.stderr!r}")
    return check.end()


if __name__ == "__main__":
    sys.exit(main(*sys.argv[1:]))
