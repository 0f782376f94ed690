#!/usr/bin/env python3
"""The pictures of docs/GALLERY.md, with the words of each domain, and of examples/hours/README.md, with each of the first hundred
texts of tests/hours/texts.csv, are exactly what `gtdesk` prints.

Usage: tests/gallery.py            compares them (tests/desk.sh runs it)
       tests/gallery.py --write    makes the words of the domains in the table, the table of texts, and all pictures anew
"""
import os
import re
import subprocess
import sys

import hours
from checks import Checks

TOP = os.path.dirname(os.path.dirname(os.path.abspath(__file__)))
DESK = os.environ.get("GTDESK", os.path.join(TOP, "crates", "gtdesk", "out", "gtdesk"))
DOCUMENT = os.path.join(TOP, "docs", "GALLERY.md")
TEXTS = os.path.join(TOP, "examples", "hours", "README.md")
PICTURES = os.path.join(TOP, "docs", "pictures")
SHOWN = 100  # the first texts
BEGIN, END = "<!-- the texts of tests/hours/texts.csv -->\n", "<!-- the end of the texts -->\n"
HEAD = ["| Opening hours | Who writes it | A year |\n", "|---|---|---|\n"]
YEAR = "2024"
FEWEST = 15
OPERATORS = {"+": "_or_", "*": "_and_", "-": "_except_"}
WORDS_ROW = re.compile(r'\| `([^`]+)` \|.*<img src=pictures/words/.*\n')

check = Checks("gallery")


def lines_of(path):
    with open(path, encoding="utf-8") as file:
        return file.readlines()


def write_lines(path, lines):
    with open(path, "w", encoding="utf-8") as file:
        file.writelines(lines)


def output_of(*words):
    return subprocess.run([DESK, *words], check=True, capture_output=True, timeout=60).stdout


def name_of(domain):
    """The name of a domain's picture: its letters and digits, and words for the operators."""
    words = re.sub(r"[-+*]", lambda match: OPERATORS[match.group()], domain)
    return "words/" + re.sub(r"_+", "_", re.sub(r"[^A-Za-z0-9]", "_", words)).strip("_") + ".svg"


def cell_of(name, folder=""):
    return f"<img src={folder}pictures/{name} width=414>"


def words_row(domain):
    words = output_of("words", domain).decode("ascii").rstrip("\n")
    cell = words.replace("    ", "&emsp;").replace("\n", "<br>")
    return f"| `{domain}` | {cell} | {cell_of(name_of(domain))} |\n"


def text_row(at, row):
    return f"| `{row['hours']}` | {row['meaning'].rstrip('.')} | {cell_of(f'hours/{at}.svg', '../../docs/')} |\n"


def year_of(text):
    """The year of a text's picture: 2024, or the first year that the text names if it does not name that one."""
    years = re.findall(r"\b[12][0-9]{3}\b", text)
    return YEAR if not years or YEAR in years else years[0]


def picture_of_text(text):
    domain = output_of("hours", "--", text).decode("ascii").rstrip("\n")
    return output_of("picture-domain", domain, year_of(text))


def wanted(domains, texts):
    """Each picture by its name: those of the domains, and those of the texts, which are named by their numbers."""
    pictures = {name_of(domain): output_of("picture-domain", domain, YEAR) for domain in domains}
    pictures.update((f"hours/{at}.svg", picture_of_text(row["hours"])) for at, row in enumerate(texts, 1))
    return pictures


def main():
    write = sys.argv[1:] == ["--write"]
    texts = hours.rows_of("texts.csv")[:SHOWN]
    lines, shown = lines_of(DOCUMENT), lines_of(TEXTS)
    begin, end = shown.index(BEGIN) + 1, shown.index(END)
    table = HEAD + [text_row(at, row) for at, row in enumerate(texts, 1)]
    domains = [match.group(1) for match in map(WORDS_ROW.fullmatch, lines) if match]
    pictures = wanted(domains, texts)
    if write:
        made = [re.sub(WORDS_ROW, lambda match: words_row(match.group(1)), line) for line in lines]
        write_lines(DOCUMENT, made)
        write_lines(TEXTS, shown[:begin] + table + shown[end:])
        for name, picture in pictures.items():
            with open(os.path.join(PICTURES, name), "wb") as file:
                file.write(picture)
        return 0
    check(len(domains) >= FEWEST, f"{len(domains)} domains")
    for domain in domains:
        check(words_row(domain) in lines, f"the words of {domain}")
    check(shown[begin:end] == table, "the table of opening hours")
    for name, picture in pictures.items():
        path = os.path.join(PICTURES, name)
        check(os.path.exists(path) and open(path, "rb").read() == picture, f"the picture {name}")
    there = {f"{folder}/{name}" for folder in ("words", "hours") for name in os.listdir(os.path.join(PICTURES, folder))}
    check(there == set(pictures), "one picture for each domain and text, and no other")
    return check.end()


if __name__ == "__main__":
    sys.exit(main())
