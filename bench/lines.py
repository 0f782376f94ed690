#!/usr/bin/env python3
"""What a line of a schedule takes in a native program: put by itself, or in blocks of 64.

`lines.py` needs rustc and valgrind. It builds `lines.rs`, sees that each way writes the same bytes, and prints a table of
Markdown: of each way the instructions of a line, with the span that it shows, counted by callgrind."""
import filecmp
import os
import sys
import tempfile

import measuring

LINES = 500_000
WAYS = [("none", "no line, the spans alone"), ("one", "each line put by itself"), ("copied", "copied into a block"),
        ("filled", "written into a block that has the heads")]


def main():
    with tempfile.TemporaryDirectory() as work:
        program = measuring.build_native("lines", work)
        written = [measuring.written([program, way], os.path.join(work, way)) for way, _ in WAYS[1:]]
        if not all(filecmp.cmp(written[0], path, shallow=False) for path in written):
            sys.exit("lines: the ways write different bytes")
        measuring.head(["Way", "Instructions a line"])
        for way, name in WAYS:
            measuring.row([name, f"{measuring.instructions([program, way]) / LINES:.0f}"])


if __name__ == "__main__":
    main()
