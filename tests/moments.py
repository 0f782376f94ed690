#!/usr/bin/env python3
"""Compares what gtd_hours_options reads of texts with points of time, open ends and times of the sun with the plain model of
tests/moments_model.py: the worked texts of hours/moments.csv, and drawn texts and options. Of the worked texts the hours by the
model and the domain beside them are the same minutes of four years. The program is moments/main.rattle, built without its proofs.

Usage: tests/moments.py [COUNT [SEED]]    (so many texts are drawn)
"""
import random
import sys

import hours
import hours_model
import model
import moments_model
import trial

NAMES = ("open end", "points", "sunrise", "sunset", "dawn", "dusk")
CRATES = "gtd_hours gtd_hours_known gtd_hours_moments gtd_hours_options"
CLOCKS = ("08:00", "12:00", "22:00", "00:00", "24:00", "26:00", "sunrise", "sunset", "dawn", "(sunset+01:00)", "(dawn-00:30)",
          "(dusk+05:00)")
DAYS = ("Mo", "Tu-Fr", "Dec 24", "2025", "week 10:", "Sa[1]", "", "")
WORDS = ("Mo", "Dec", "10:00", "12:00-14:00", "17:00+", "24:00", "48:00", "sunrise", "(", ")", "(sunset+01:00)", "(dawn", "+",
         "-", "/", "30", "01:30", "0", "1441", ",", ";", "off", "24/7", "10:00-16:00/30", "10:00-16:00+", "09:75", "easter", ":",
         "]", "day")


def minutes_of(clock):
    hour, minute = clock.split(":")
    return 60 * int(hour) + int(minute)


def options_of(words):
    """Options such as `--points 10 --open-end 24:00`."""
    pairs = zip(words.split()[::2], words.split()[1::2])
    return {name[2:].replace("-", " "): minutes_of(value) if ":" in value else int(value) for name, value in pairs}


def answer(text, options):
    """The rules of a text, or its fault, by the model."""
    try:
        return moments_model.read(text.encode(), options)
    except hours_model.Fault as fault:
        return str(fault)


def found(printed):
    """The same of what is printed."""
    try:
        return hours_model.read(printed.encode())
    except hours_model.Fault:
        return printed


def time_of(chance):
    first, last = chance.choice(CLOCKS), chance.choice(CLOCKS)
    step = chance.choice(("30", "90", "01:30", "1440", "240"))
    return chance.choice((f"{first}-{last}", f"{first}-{last}", f"{first}+", first, f"{first}-{last}+", f"{first}-{last}/{step}"))


def drawn_text(chance):
    text = ""
    for at in range(chance.choice((1, 1, 2, 3))):
        text += chance.choice(("; ", ";", ", ")) if at else ""
        text += " ".join(filter(None, (chance.choice(DAYS), ",".join(time_of(chance) for _ in range(chance.choice((1, 1, 2)))))))
        text += chance.choice(("", "", " off"))
    if chance.random() < 0.4:
        at = chance.randrange(len(text) + 1)
        text = text[:at] + chance.choice(WORDS) + text[at:]
    return text


def drawn_options(chance):
    values = (chance.choice((840, 1440, 120, 1560)), chance.choice((1, 5, 60, 1440)), 390, 1200, 350, 1240)
    return {name: value for name, value in zip(NAMES, values) if chance.random() < 0.9}


def run(questions):
    """What the program prints, a line for each question."""
    lines = "".join(" ".join(str(options.get(name, "-")) for name in NAMES) + f"\t{text}\n" for text, options in questions)
    return trial.printed("moments", CRATES, lines).splitlines()


def is_same_domain(row):
    """Whether the hours of a worked text, by the model, are open in the minutes that the domain beside it contains."""
    rules = moments_model.read(row["text"].encode(), options_of(row["options"]))
    opened = hours_model.open_minutes(rules, hours.FIRST, hours.DAYS)
    minutes = hours.domain_minutes(model.read(row["domain"].encode()), 0)
    return minutes.to_bytes(len(opened), "little") == opened


def main():
    count = int(sys.argv[1]) if sys.argv[1:] else 400
    chance = random.Random(int(sys.argv[2]) if len(sys.argv) > 2 else 1)
    worked = hours.rows_of("moments.csv")
    questions = [(row["text"], options_of(row["options"])) for row in worked]
    questions += [(drawn_text(chance), drawn_options(chance)) for _ in range(count)]
    failed = 0
    for row in worked:
        if row["fault"] != answer(row["text"], options_of(row["options"])) if row["fault"] else not is_same_domain(row):
            print(f"FAILED {row['text']}: the model")
            failed += 1
    printed = run(questions)
    if len(printed) != len(questions):
        print(f"FAILED {len(printed)} lines are printed, and {len(questions)} texts are asked")
        failed += 1
    for (text, options), line in zip(questions, printed):
        wanted = answer(text, options)
        if found(line) != wanted:
            print(f"FAILED {text!r} {options}: {line!r}, by the model {wanted}")
            failed += 1
    print(f"moments: {len(worked) + len(questions) - failed} passed, {failed} failed")
    return failed > 0


if __name__ == "__main__":
    sys.exit(main())
