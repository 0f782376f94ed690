#!/usr/bin/env python3
"""Runs the examples of docs/LIBRARY.md in SQL, and compares what they print with what the document shows.

Usage: tests/sql/documents.py
"""
import json
import os
import re
import shutil
import subprocess
import sys
import tempfile

from checks import Checks
from server import Server

TOP = os.path.dirname(os.path.dirname(os.path.dirname(os.path.abspath(__file__))))
check = Checks("documents")


def blocks(section):
    """The fenced blocks of a section of the document."""
    with open(os.path.join(TOP, "docs", "LIBRARY.md"), encoding="utf-8") as file:
        text = file.read()
    # A line of a block may begin with the sign of a heading.
    text = re.sub(r"(?s)```.*?```", lambda block: block[0].replace("\n#", "\n\0"), text)
    found = re.search(rf"^#+ {section}\n(.*?)(?=^#)", text, re.MULTILINE | re.DOTALL)
    return [block.replace("\0", "#") for block in re.findall(r"```\w*\n(.*?)```", found[1], re.DOTALL)]


def same(shown, printed):
    """Whether a block shows what is printed, but for spaces at the ends of lines, which the document need not have."""
    return [line.rstrip() for line in shown.splitlines()] == [line.rstrip() for line in printed.splitlines()]


def run(words, script):
    """What a program prints, in order, errors among the rest."""
    return subprocess.run(words, input=script, cwd=TOP, stdout=subprocess.PIPE, stderr=subprocess.STDOUT, text=True).stdout


def try_sqlite():
    script, shown = blocks("SQLite")
    printed = run(["stdbuf", "-oL", "sqlite3"], script)
    check(same(shown, printed), f"SQLite: {printed}")


def try_geopackage():
    (script,) = blocks("GeoPackage")
    with tempfile.TemporaryDirectory() as room:
        for folder in ("bindings", "examples"):
            os.symlink(os.path.join(TOP, folder), os.path.join(room, folder))
        done = subprocess.run(["bash", "-euc", script], cwd=room, capture_output=True, text=True)
        check(done.returncode == 0 and not done.stderr, f"GeoPackage: {done.stderr}")
        with open(os.path.join(room, "open.geojson"), encoding="utf-8") as file:
            names = {feature["properties"]["name"] for feature in json.load(file)["features"]}
        check("Church Row" in names, f"GeoPackage: {names}")


def try_postgres():
    script, shown = blocks("PostgreSQL")
    with Server() as server:
        server.psql("CREATE DATABASE roads", "postgres", "postgres")
        printed = run(["stdbuf", "-oL", *server.client("psql", "roads", "-X", user="postgres")], script)
        check(same(shown, printed), f"PostgreSQL: {printed}")


def main():
    check(shutil.which("stdbuf"), "no stdbuf")
    try_sqlite()
    try_geopackage()
    try_postgres()
    return check.end()


if __name__ == "__main__":
    sys.exit(main())
