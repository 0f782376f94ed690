#!/usr/bin/env python3
"""Proves the crate gtd_c and compiles it to crates/gtd_c/out/libgtd_c.a, over the proved libraries that `rt ci` leaves in
crates/*/out. `rt ci` itself leaves no archive of a static library, and `rt lib` would prove all crates below it once more. Where
one of these libraries is missing, `rt check` makes them all. Given the name of a program, it makes out/NAME.o in the same way.

Beside the result it keeps the LLVM module that this was compiled of, as out/NAME.bc, from which web/build.sh goes on.
Usage: bindings/archive.py [NAME]"""
import os
import shlex
import subprocess
import sys
import tempfile

TOP = os.path.dirname(os.path.dirname(os.path.abspath(__file__)))
CRATE = sys.argv[1] if len(sys.argv) > 1 else "gtd_c"
FOLDER = os.path.join(TOP, "crates", CRATE)
IS_PROGRAM = os.path.exists(os.path.join(FOLDER, "src", "main.rt"))
MADE = os.path.join(FOLDER, "out", f"{CRATE}.o" if IS_PROGRAM else f"lib{CRATE}.a")
MODULE = os.path.join(FOLDER, "out", f"{CRATE}.bc")

# What stands for clang in the toolchain: it keeps each module that it is given, the last one last, and goes on as clang.
KEEPER = """#!/bin/sh
for word in "$@"; do case $word in *.bc) cp "$word" {module} ;; esac; done
exec {clang} "$@"
"""


def uses():
    """The libraries that each crate uses, by crates.txt."""
    found = {}
    with open(os.path.join(TOP, "crates.txt"), encoding="utf-8") as file:
        for line in file:
            head, _, rest = line.partition("#")[0].partition(":")
            if head.strip():
                found[head.split()[0]] = rest.split()
    return found


def below(crate, known):
    """The crates of this repository below a crate, the lowest first."""
    found = []
    for dep in known[crate]:
        if dep in known:
            found += [it for it in (*below(dep, known), dep) if it not in found]
    return found


def rlib(crate):
    return os.path.join(TOP, "crates", crate, "out", "rlib", f"{crate}.rlib")


def keeping(kit, room):
    """A toolchain like the kit's that keeps the module which it compiles."""
    own = os.path.join(room, "bin")
    os.mkdir(own)
    for name in os.listdir(f"{kit}/toolchain/bin"):
        if name != "clang":
            os.symlink(f"{kit}/toolchain/bin/{name}", os.path.join(own, name))
    os.symlink(f"{kit}/toolchain/lib", os.path.join(room, "lib"))
    clang = os.path.join(own, "clang")
    with open(clang, "w", encoding="utf-8") as file:
        file.write(KEEPER.format(module=shlex.quote(MODULE), clang=shlex.quote(f"{kit}/toolchain/bin/clang")))
    os.chmod(clang, 0o755)
    return room


def words(kit, known, toolchain):
    """What `rattle build` is asked, as `rt lib` asks it."""
    own = [it for it in known[CRATE] if it in known]
    of_kit = ["std", *(it for it in known[CRATE] if it not in known)]
    yield from ("build", "--crate-name", CRATE)
    # A program for any other processor would begin by asking what its processor can do.
    yield from ("src/main.rt", "--cpu", "x86-64") if IS_PROGRAM else ("src/lib.rt", "--crate-type", "staticlib")
    for it in of_kit:
        yield from ("--extern", f"{it}={kit}/rlibs/{it}.rlib")
    for it in own:
        yield from ("--extern", f"{it}={rlib(it)}")
    for folder in (f"{kit}/rlibs", *(os.path.dirname(rlib(it)) for it in below(CRATE, known))):
        yield from ("-L", f"dependency={folder}")
    yield from ("--antt-project", f"{kit}/rattle/logic/antt-project.json", "--logic-built", f"{kit}/logic_built")
    yield from ("--links", f"{CRATE}=", "--jobs", "1", "--toolchain", toolchain, "-o", MADE)


def main():
    known = uses()
    missing = [it for it in below(CRATE, known) if not os.path.isdir(rlib(it))]
    if missing:
        print(f"archive: no proved library of {missing[0]}: proves all that is below {CRATE}")
        proved = subprocess.run(["rt", "check"], cwd=FOLDER, check=False)
        if proved.returncode:
            return proved.returncode
    doc = subprocess.run(["rt", "doc"], capture_output=True, text=True, check=True).stdout.strip()
    kit = os.path.dirname(doc)
    os.makedirs(os.path.dirname(MADE), exist_ok=True)
    with tempfile.TemporaryDirectory() as room:
        told = subprocess.run([f"{kit}/bin/rattle", *words(kit, known, keeping(kit, room))], cwd=FOLDER, check=False,
                              stdout=subprocess.PIPE, stderr=subprocess.STDOUT, text=True)
    lines = told.stdout.rstrip().split("\n")
    print("\n".join(line for line in lines[-40:] if told.returncode or line.startswith("logic=")))
    return told.returncode


if __name__ == "__main__":
    sys.exit(main())
