#!/usr/bin/env python3
"""Pictures, seen with real eyes: `gtdesk picture` and `picture-domain` on the examples and on random files and domains.

Each picture must be XML, and its title that of the command. The rectangles in it must cover exactly the seconds that
`gtd schedule` prints as open. Then it is drawn by rsvg-convert and by Chromium, on a light page and on a dark one, and
sampled pixels are compared with the schedule: seconds that are open or not, weekends, the borders of months, what the colours
mean, and the contrast between them. Run it after `rt ci`, which builds the programs.

Usage: tests/pictures.py [SEED]    (the same seed makes the same files)
"""
import csv
import datetime
import os
import random
import re
import subprocess
import sys
import tempfile
import xml.etree.ElementTree as tree

from checks import Checks
from fuzz import Maker

TOP = os.path.dirname(os.path.dirname(os.path.abspath(__file__)))
GTD = os.path.join(TOP, "crates", "gtd", "out", "gtd")
DESK = os.path.join(TOP, "crates", "gtdesk", "out", "gtdesk")
EXAMPLES = os.path.join(TOP, "examples")
DAY = 86400
SVG = "{http://www.w3.org/2000/svg}"
WIDTH, HEIGHT = 1242, 600  # of a page
LEFT, TOP_EDGE, STEP, ROW = 72, 96, 3, 200  # of the plot: its place, pixels a day, seconds a pixel
ROWS = DAY // ROW
COLOURS = {  # by page: for seconds in the set and others, on working days and on weekends
    "light": {"page": "ffffff", "in": ("0072b2", "004c77"), "out": ("d9d9d9", "c4c4c4")},
    "dark": {"page": "16181c", "in": ("56b4e9", "3f96c9"), "out": ("3a3d44", "26282e")},
}
WEEKDAYS = "Monday Tuesday Wednesday Thursday Friday Saturday Sunday".split()
EXAMPLE_PICTURES = [
    ("town.csv", 103, "positive", 1, 2024), ("town.csv", 104, "positive", 11, 2023), ("town.csv", 104, "negative", 11, 2024),
    ("town.csv", 102, "negative", 3, 2100), ("town.csv", 105, "positive", 99, 2024),
    ("restrictions.csv", 17, "positive", 12, 2000), ("works.csv", None, "positive", 1, 2024),
    ("pass.csv", None, "positive", 1, 2024),
]
EXAMPLE_DOMAINS = [
    ("[(M4d1){M3}]*[(h10){h4}]", 2024), ("(h23m59s59){s2}", 1901), ("(M2d29){d1}", 2199), ("[(h0){h24}]-[(t1){d1}]", 2023),
]
RANDOM_PICTURES, RANDOM_DOMAINS = 6, 6

check = Checks("pictures")


def output_of(*words):
    return subprocess.run([str(word) for word in words], check=True, capture_output=True, timeout=60).stdout


class Picture:
    """A picture, and the seconds that it should show."""

    def __init__(self, name, text, title, year, days, is_open):
        self.name, self.text, self.title, self.year, self.days, self.is_open = name, text, title, year, days, is_open
        self.first = datetime.date(year, 1, 1)
        self.count = (datetime.date(year + 1, 1, 1) - self.first).days
        self.path = None

    def date(self, place):
        return self.first + datetime.timedelta(days=place)

    def spans(self, place):
        """What should be shown of a day: its spans of seconds in the set."""
        return self.days.get(place, [])

    def holds(self, place, row):
        """Whether all seconds around a row of pixels are in the set, or none; otherwise nothing."""
        low, high = max(0, (row - 1) * ROW), min(DAY, (row + 2) * ROW)
        for start, end in self.spans(place):
            if start <= low and high <= end:
                return True
            if start < high and low < end:
                return None
        return False


def spans_by_day(lines, element, direction, year):
    """The open spans of an element, cut at midnights, by the place of the day in the year."""
    first, days = datetime.datetime(year, 1, 1), {}
    for line in lines:
        number, way, _, start, end = line.split(",")
        if (number, way) != (str(element), direction):
            continue
        start = int((datetime.datetime.fromisoformat(start) - first).total_seconds())
        end = int((datetime.datetime.fromisoformat(end) - first).total_seconds())
        while start < end:
            place = start // DAY
            stop = min(end, (place + 1) * DAY)
            days.setdefault(place, []).append((start - place * DAY, stop - place * DAY))
            start = stop
    return days


def schedule(path, element, direction, vehicle, year):
    lines = output_of(GTD, "schedule", path, f"{year}-01-01", f"{year + 1}-01-01", vehicle).decode().splitlines()[1:]
    return spans_by_day(lines, element, direction, year)


def complement(spans):
    at, left = 0, []
    for start, end in spans:
        if at < start:
            left.append((at, start))
        at = end
    return left + [(at, DAY)] if at < DAY else left


def picture(path, element, direction, vehicle, year):
    text = output_of(DESK, "picture", path, element, direction, vehicle, year)
    title = f"Element {element}, {direction}, vehicle type {vehicle}, {year} ({path})"
    days = schedule(path, element, direction, vehicle, year)
    return Picture(f"{os.path.basename(path)} {element} {direction} {vehicle} {year}", text, title, year, days, True)


def domain_picture(room, domain, year):
    path = os.path.join(room, "domain.csv")
    with open(path, "w") as file:
        file.write(f"element,direction,vehicle,domain\n1,both,0,{domain}\n")
    text = output_of(DESK, "picture-domain", domain, year)
    opened = schedule(path, 1, "positive", 1, year)
    count = (datetime.date(year + 1, 1, 1) - datetime.date(year, 1, 1)).days
    days = {place: complement(opened.get(place, [])) for place in range(count)}
    return Picture(f"{domain} {year}", text, domain, year, days, False)


def random_file(room, maker, number):
    path = os.path.join(room, f"random<{number}>&.csv")
    ways = ["both", "positive", "negative"]
    rows = [f"{maker.random.randint(1, 2)},{maker.random.choice(ways)},0,{maker.domain()}" for _ in range(4)]
    with open(path, "w") as file:
        file.write("\n".join(["element,direction,vehicle,domain", "1,negative,0,", *rows, ""]))
    return path


def pictures(room, seed):
    made, maker = [], Maker(seed)
    for name, element, direction, vehicle, year in EXAMPLE_PICTURES:
        path = os.path.join(EXAMPLES, name)
        if element is None:
            with open(path, newline="") as file:
                element = int(next(row["element"] for row in csv.DictReader(file)))
        made.append(picture(path, element, direction, vehicle, year))
    made += [domain_picture(room, domain, year) for domain, year in EXAMPLE_DOMAINS]
    for number in range(RANDOM_PICTURES):
        path = random_file(room, maker, number)
        made.append(picture(path, 1, maker.random.choice(["positive", "negative"]), 1, maker.random.randint(1995, 2030)))
    while len(made) < len(EXAMPLE_PICTURES) + len(EXAMPLE_DOMAINS) + RANDOM_PICTURES + RANDOM_DOMAINS:
        domain = maker.domain()
        if subprocess.run([GTD, "check", domain], capture_output=True).returncode == 0:
            made.append(domain_picture(room, domain, maker.random.randint(1995, 2030)))
    return made


def shown_words(words):
    """The words of a title as a picture shows them: `\\x` and two digits for what is not printable ASCII, and for a backslash."""
    return "".join(chr(b) if 31 < b < 127 and b != 92 else f"\\x{b:02x}" for b in words.encode())


def check_text(one):
    """The picture as XML: its title, the names of its days, and what its rectangles cover, second by second."""
    root = tree.fromstring(one.text)
    check(root.find(f"{SVG}title").text == shown_words(one.title), f"{one.name}: the title")
    shown = shown_words(one.title[:100]) + "..." * (len(one.title) > 100)
    check(root.find(f"{SVG}text").text == shown, f"{one.name}: the title that is shown")
    check(len(one.text) < 100_000, f"{one.name}: {len(one.text)} bytes")
    groups = root.find(f"{SVG}svg").findall(f"{SVG}g")
    check(len(groups) == one.count, f"{one.name}: {len(groups)} columns")
    wrong = [place for place, group in enumerate(groups) if not is_right(one, place, group)]
    check(not wrong, f"{one.name}: the days at {wrong[:5]}")


def is_right(one, place, group):
    day = one.date(place)
    ways = {path.get("class"): path.get("d") for path in group.findall(f"{SVG}path")}
    found = re.findall(r"M(\d+) (\d+)h1v(\d+)h-1z", ways["in"])
    wanted = [(place, start, end - start) for start, end in one.spans(place)]
    return (
        group.find(f"{SVG}title").text == f"{day} {WEEKDAYS[day.weekday()]}"
        and (group.get("class") == "weekend") == (day.weekday() >= 5)
        and ways["out"] == f"M{place} 0h1v{DAY}h-1z"
        and "".join("M{} {}h1v{}h-1z".format(*rect) for rect in found) == ways["in"]
        and [tuple(map(int, rect)) for rect in found] == wanted
    )


class Image:
    """Pixels, as hexadecimal numbers."""

    def __init__(self, png):
        pnm = subprocess.run(["pngtopnm"], input=png, check=True, capture_output=True).stdout
        _, size, _, self.bytes = pnm.split(b"\n", 3)
        self.width = int(size.split()[0])

    def at(self, x, y):
        place = 3 * (y * self.width + x)
        return self.bytes[place : place + 3].hex()


def drawn_by_rsvg(one):
    return Image(output_of("rsvg-convert", one.path))


def drawn_by_chromium(room, made, page):
    """All pictures in one page, one below the other."""
    html = os.path.join(room, "page.html")
    images = "".join(f'<img src="{os.path.basename(one.path)}">' for one in made)
    with open(html, "w") as file:
        file.write('<!doctype html><meta name="color-scheme" content="light dark">'
                   f"<style>body{{margin:0}}img{{display:block;width:{WIDTH}px;height:{HEIGHT}px}}</style>{images}")
    png = os.path.join(room, "page.png")
    scheme = {"dark": 0, "light": 1}[page]
    sandbox = ["--no-sandbox"] if os.getuid() == 0 else []
    output_of("chromium", "--headless", *sandbox, "--disable-gpu", "--hide-scrollbars", f"--user-data-dir={room}/chromium",
              f"--blink-settings=preferredColorScheme={scheme}", f"--window-size={WIDTH},{HEIGHT * len(made)}",
              f"--screenshot={png}", f"file://{html}")
    with open(png, "rb") as file:
        return Image(file.read())


def check_pixels(one, image, top, page, eyes, choose):
    """Samples of each day, the lines of months, and what the colours mean."""
    colours, wrong, sampled = COLOURS[page], [], 0
    for place in range(one.count):
        weekend = one.date(place).weekday() >= 5
        for row in choose.sample(range(ROWS), 12):
            holds = one.holds(place, row)
            if holds is None or row % (ROWS // 4) in (0, ROWS // 4 - 1):
                continue  # a border of a span, or a line over the plot
            sampled += 1
            if image.at(LEFT + STEP * place + 1, top + TOP_EDGE + row) != colours["in" if holds else "out"][weekend]:
                wrong.append((place, row))
    check(not wrong, f"{one.name}: {eyes}: pixels at {wrong[:5]}")
    check(sampled > 5 * one.count, f"{one.name}: {eyes}: {sampled} samples")
    lines = [place for place in range(one.count) if image.at(LEFT + STEP * place, top + 74) != colours["page"]]
    firsts = [place for place in range(one.count) if one.date(place).day == 1]
    check(lines == firsts, f"{one.name}: {eyes}: lines of months at {lines[:13]}")
    key = [image.at(x, top + 573) for x in (84, 284, 478, 490)]
    wanted = [colours["in"][0], colours["out"][0], colours["in"][1], colours["out"][1]]
    check(key == wanted, f"{one.name}: {eyes}: what the colours mean")
    check(image.at(4, top + 4) == colours["page"], f"{one.name}: {eyes}: the page")


def brightness(colour):
    parts = [int(colour[at : at + 2], 16) / 255 for at in (0, 2, 4)]
    parts = [part / 12.92 if part <= 0.04045 else ((part + 0.055) / 1.055) ** 2.4 for part in parts]
    return 0.2126 * parts[0] + 0.7152 * parts[1] + 0.0722 * parts[2]


def check_contrast():
    """Lightness alone tells the two colours apart: by the measure of WCAG 2.2, at least 3 to 1."""
    for page, colours in COLOURS.items():
        for kind in (0, 1):
            low, high = sorted([brightness(colours["in"][kind]), brightness(colours["out"][kind])])
            check((high + 0.05) / (low + 0.05) >= 3, f"{page}: the contrast of the two colours")


def check_long_title(room):
    """A long title is cut where it is shown, and whole in the tooltip; words are never read as tags."""
    domain = "+".join(["(h1){h1}"] * 30)
    one = domain_picture(room, domain, 2024)
    check_text(one)
    path = os.path.join(room, "tag</text><script>.csv".replace("/", ""))
    with open(path, "w") as file:
        file.write("element,direction,vehicle,domain\n1,both,0,(h1){h1}\n")
    check_text(picture(path, 1, "positive", 1, 2024))


def main():
    seed = int(sys.argv[1]) if len(sys.argv) > 1 else 1
    choose = random.Random(seed)
    with tempfile.TemporaryDirectory() as room:
        made = pictures(room, seed)
        for number, one in enumerate(made):
            one.path = os.path.join(room, f"{number}.svg")
            with open(one.path, "wb") as file:
                file.write(one.text)
            check_text(one)
        check_long_title(room)
        valid = subprocess.run(["xmllint", "--noout", *(one.path for one in made)], capture_output=True)
        check(valid.returncode == 0, f"xmllint: {valid.stderr.decode()[:300]}")
        for one in made:
            check_pixels(one, drawn_by_rsvg(one), 0, "light", "rsvg-convert", choose)
        for page in ("light", "dark"):
            image = drawn_by_chromium(room, made, page)
            for number, one in enumerate(made):
                check_pixels(one, image, HEIGHT * number, page, f"Chromium, {page}", choose)
        check_contrast()
    return check.end()


if __name__ == "__main__":
    sys.exit(main())
