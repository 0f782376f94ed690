"""Pictures of the page that are kept in docs/pictures/page, and what is in them: words, a size and colours."""
import os
import re
import struct
import subprocess

TOP = os.path.dirname(os.path.dirname(os.path.abspath(__file__)))
FOLDER = os.path.join(TOP, "docs", "pictures", "page")
LIGHT = {"page": "ffffff", "in": "0072b2", "out": "d9d9d9", "room": "00588c"}
DARK = {"page": "16181c", "in": "56b4e9", "out": "3a3d44", "room": "6cc1ee"}
LEAST = {"page": 0.3, "in": 0.01, "out": 0.01, "room": 0.0005}  # of all pixels
STEP = 7  # between the pixels that are looked at

# The words that are shown, and what stands in fields. The time that reading took and the version are left out, as they differ.
WORDS = r"""[...(document.querySelector("dialog[open]") ?? document.body).querySelectorAll("*")]
    .filter((it) => it.checkVisibility({ checkVisibilityCSS: true }))
    .filter((it) => !it.matches(".skip, [type=file], [type=checkbox], #version, #spoken"))
    .map((it) => it.matches("input, textarea") ? it.value : [...it.childNodes].filter((node) => node.nodeType === Node.TEXT_NODE)
      .map((node) => node.data.replace(/\s+/g, " ").trim()).filter(Boolean).join(" "))
    .filter(Boolean).join("\n").replace(/read in \d+ ms/, "read in some ms") + "\n" """


class View:
    """One picture: a room, a width, a colour scheme, what is done first, and the colours that are seen."""

    def __init__(self, name, room, do, width=1280, dark=False, colours=("page", "room"), height=900):
        self.name, self.room, self.do, self.width, self.dark, self.height = name, room, do, width, dark, height
        self.colours = {kind: (DARK if dark else LIGHT)[kind] for kind in colours}

    def path(self, end):
        return os.path.join(FOLDER, f"{self.name}.{end}")

    def seen(self, browser, address, ready, tests):
        """The picture and the words, as they are now."""
        browser.size(self.width, self.height, self.width < 600)
        browser.scheme("dark" if self.dark else "light")
        browser.go(f"{address}?view={self.name}#{self.room}", ready)
        tests.settle_domain(browser)
        self.do(browser, tests)
        browser.run("document.activeElement.blur()")
        in_dialog = browser.run("document.querySelector('dialog[open]') !== null")
        picture, words = (browser.picture() if in_dialog else browser.whole()), browser.run(WORDS)
        browser.scheme("light")
        return picture, words


def domain(text):
    def do(browser, tests):
        tests.fill(browser, "moment", tests.MOMENT)
        tests.fill(browser, "year", tests.YEAR)
        tests.type_text(browser, text)
    return do


def sample(name, then=None):
    def do(browser, tests):
        tests.ask_file(browser)
        tests.fill(browser, "from", "2024-01-01")
        tests.fill(browser, "until", "2025-01-01")
        tests.press(browser, "#samples button", name)
        tests.wait_file(browser)
        if then:
            then(browser)
    return do


def open_element(browser):
    browser.run("document.querySelectorAll('#lines button')[4].click()")
    browser.wait("document.getElementById('element-picture').shadowRoot")


RUSH = "[(h7){h2}+(h16){h3}]*[(t2){d5}]-[(M8){M1}]"
DRAWN = ("page", "room", "in", "out")
VIEWS = [
    View("domain", "domain", domain(RUSH), colours=DRAWN),
    View("domain_dark", "domain", domain("Mo-Fr 07:00-09:00,16:00-18:00; Dec 25 off"), dark=True, colours=DRAWN),
    View("domain_narrow", "domain", domain("(h22){h8}"), width=390, colours=DRAWN),
    View("fault", "domain", domain("[(h25){h4}]")),
    View("file", "file", sample("A town")),
    View("file_faults", "file", sample("A file with faults"), dark=True),
    View("file_narrow", "file", sample("A town"), width=390),
    View("element", "file", sample("A town", open_element), colours=("in", "out")),
    View("about", "about", lambda browser, tests: None),
    View("about_narrow", "about", lambda browser, tests: None, width=320, dark=True),
]


def write_view(view, found):
    os.makedirs(FOLDER, exist_ok=True)
    picture, words = found
    with open(view.path("png"), "wb") as file:
        file.write(picture)
    with open(view.path("txt"), "w", encoding="utf-8") as file:
        file.write(words)


def size_of(png):
    return struct.unpack(">II", png[16:24])


def shares(png):
    """How often each colour is seen."""
    drawn = subprocess.run(["pngtopnm"], input=png, check=True, capture_output=True).stdout
    head = re.match(rb"P6\s+(\d+)\s+(\d+)\s+255\s", drawn)
    pixels = drawn[head.end():]
    found, count = {}, 0
    for at in range(0, len(pixels) - 2, 3 * STEP):
        colour = pixels[at:at + 3].hex()
        found[colour] = found.get(colour, 0) + 1
        count += 1
    return {colour: number / count for colour, number in found.items()}


def kept_views(view, found):
    """Whether the kept picture and the one of now show the same, each with what it is about."""
    picture, words = found
    try:
        with open(view.path("png"), "rb") as file:
            kept = file.read()
        with open(view.path("txt"), encoding="utf-8") as file:
            kept_words = file.read()
    except FileNotFoundError as error:
        yield False, f"{error}: tests/page.py --write makes it"
        return
    yield words == kept_words, f"the words are now {words!r}"
    (width, height), (now_width, now_height) = size_of(kept), size_of(picture)
    yield width == now_width == view.width, f"{width} and now {now_width} wide"
    yield abs(height - now_height) <= 0.1 * height, f"{height} and now {now_height} high"
    for name, png in (("kept", kept), ("new", picture)):
        seen = shares(png)
        for kind, colour in view.colours.items():
            yield seen.get(colour, 0) >= LEAST[kind], f"{name}: too little of the colour {colour} ({seen.get(colour, 0):.4f})"
