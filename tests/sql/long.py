"""Long questions: what both databases must be able to stop, and domains whose answers are plain though each takes many windows of
days (bindings/sql/windows.h)."""

SECONDS = [f"(s{second}){{s1}}" for second in range(0, 60, 2)]
DENSE = "+".join(SECONDS)
BACKWARDS = "+".join(reversed(SECONDS))

# A call with its text arguments; each takes from many seconds to hours. The last has rows that are put one by one.
QUESTIONS = [
    ("same", ["(s0){s1}", "(s0){s1}-(M2d30){d1}"]),
    ("same", [f"[{DENSE}]-(M2d30){{d1}}", BACKWARDS]),
    ("same", [f"[{DENSE}]*(y2300){{y1}}", f"[{BACKWARDS}]*(y2300){{y1}}"]),
    ("apart", [f"[{DENSE}]-(M2d30){{d1}}", BACKWARDS, "1999-01-01 00:00:00"]),
    ("next", [f"[[{DENSE}]-(M2d30){{d1}}]-[{BACKWARDS}]", "2024-01-01 00:00:00", "2424-01-01"]),
    ("ever", [f"[[{DENSE}]-(M2d30){{d1}}]-[{BACKWARDS}]", "2024-01-01 00:00:00"]),
    ("spans", [f"[[{DENSE}]-(M2d30){{d1}}]-[{BACKWARDS}]", "2024-01-01", "2424-01-01"]),
    ("spans", [DENSE, "2024-01-01", "2424-01-01"]),
]

# The nights from 22:00 to 02:00 with parts that never hold, so that the first window has one day, and spans go over the end of
# one; and the same without a minute of 1901-05-01.
NOTHING = "+".join(f"[[(s{second}){{s1}}]-[(s{second}){{s1}}]]" for second in range(20))
NIGHTS = f"[(h22){{h4}}]+[{NOTHING}]"
OTHER_NIGHTS = f"[{NIGHTS}]-[(y1901M5d1h0m30){{m1}}]"
ANSWERS = [
    ("next", [NIGHTS, "2024-01-01 12:00:00", "2030-01-01"], "2024-01-01 22:00:00"),
    ("next", [NIGHTS, "2024-01-01 22:00:00", "2030-01-01"], "2024-01-02 02:00:00"),
    ("next", [NIGHTS, "2024-01-01 23:59:59", "2024-01-02 02:00:00"], None),
    ("next", ["(M2d29h7){h1}", "2096-03-01 00:00:00", "2104-02-29 07:00:01"], "2104-02-29 07:00:00"),
    ("ever", [NIGHTS, "2024-01-01 22:00:00"], "2024-01-02 02:00:00"),
    ("ever", ["(M2d29h7){h1}", "2196-03-01 00:00:00"], "2204-02-29 07:00:00"),
    ("ever", ["(M2d30){d1}", "1901-01-01 00:00:00"], None),
    ("same", [NIGHTS, "(h22){h4}"], True),
    ("same", [OTHER_NIGHTS, "(h22){h4}"], False),
    ("same", ["(M2d29f57){h1}", "(M2d29f57){m60}"], True),
    ("same", ["(t2h8){h9}", "[(t2h8){h4}]+[(t2h12){h5}]"], True),
    ("apart", [OTHER_NIGHTS, "(h22){h4}", "1901-01-01 00:00:00"], "1901-05-01 00:30:00"),
    ("apart", ["(h22){h4}", OTHER_NIGHTS, "1901-05-01 00:30:30"], "1901-05-01 00:30:30"),
    ("apart", ["(h22){h4}-(y1901M5d1h0m30){m1}", "(h22){m240}", "1901-05-01 00:31:00"], None),
    ("apart", ["(y2699M12d31h23m59s59){s1}", "(M2d30){s1}", "2199-12-31 23:59:59"], "2699-12-31 23:59:59"),
]


def nights(first, days):
    """The nights that begin on so many days of January and February 2024, from 22:00 on."""
    def day(number):
        return f"2024-01-{number:02}" if number <= 31 else f"2024-02-{number - 31:02}"
    return [(f"{day(at)} 22:00:00", f"{day(at + 1)} 02:00:00") for at in range(first, first + days)]
