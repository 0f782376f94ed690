#!/usr/bin/env python3
"""Makes a GeoPackage of a town's roads and its record file with ogr2ogr, and the view of bindings/sqlite/example; then reads the
view as a layer with ogr2ogr and ogrinfo, at several hours of the day, which are those of time zones. The plain model of
tests/model.py says which roads are open.

Usage: tests/sql/geopackage.py EXTENSION
"""
import csv
import os
import subprocess
import sys
import tempfile
import time

import model
from checks import Checks

TOP = os.path.dirname(os.path.dirname(os.path.dirname(os.path.abspath(__file__))))
EXAMPLE = os.path.join(TOP, "bindings", "sqlite", "example")
RECORDS = os.path.join(TOP, "examples", "town.csv")
ROADS = range(101, 107)
LORRY = 11
check = Checks("geopackage")


def run(*words, **variables):
    done = subprocess.run(words, env={**os.environ, **variables}, capture_output=True, text=True)
    check(done.returncode == 0 and not done.stderr, f"{words}: {done.stderr}")
    return done.stdout


def open_roads(rows, second):
    return [road for road in ROADS if model.is_open(rows, 1, road, "positive", LORRY, second)]


def check_hours(base, extension, rows):
    """The layer at the hours of time zones; where the state changes while it is read, either answer is right."""
    found = set()
    for hours in range(-12, 15, 2):
        zone = f"ZONE{-hours:+d}"
        before = int(time.time()) + 3600 * hours
        printed = run("ogr2ogr", "-f", "CSV", "/vsistdout/", base, "open_now", "-lco", "GEOMETRY=AS_WKT", TZ=zone,
                      OGR_SQLITE_LOAD_EXTENSIONS=extension)
        after = int(time.time()) + 3600 * hours
        lines = list(csv.DictReader(printed.splitlines()))
        shown = [int(line["element"]) for line in lines]
        check(shown in (open_roads(rows, before), open_roads(rows, after)), f"{zone}, {stamp(before)}: {shown}")
        check(all(line["WKT"].startswith("LINESTRING (0 ") for line in lines), f"{zone}: geometries")
        found.add(tuple(shown))
    check(len(found) > 1, f"the layer is the same at all hours: {found}")


def stamp(second):
    return time.strftime("%Y-%m-%dT%H:%M:%S", time.gmtime(second))


def main():
    extension = sys.argv[1]
    with open(RECORDS, encoding="ascii") as file:
        rows = [row[:3] + [model.read(row[3].encode()) if row[3] else None] for row in list(csv.reader(file))[1:]]
    with tempfile.TemporaryDirectory() as room:
        base = os.path.join(room, "town.gpkg")
        run("ogr2ogr", base, os.path.join(EXAMPLE, "roads.geojson"), "-nln", "roads")
        run("ogr2ogr", "-update", base, RECORDS, "-nln", "restrictions", "-oo", "AUTODETECT_TYPE=YES")
        run("sqlite3", base, f".load {extension}", f".read {os.path.join(EXAMPLE, 'open_now.sql')}")
        check_hours(base, extension, rows)
        said = run("ogrinfo", "-q", base, OGR_SQLITE_LOAD_EXTENSIONS=extension)
        check("open_now (Line String)" in said, f"the layers: {said}")
        for moment in ["2024-03-16 06:00:00", "2024-09-02 08:00:00", "2024-08-01 23:00:00"]:
            second = model.calendar.timegm(time.strptime(moment, "%Y-%m-%d %H:%M:%S"))
            said = run("ogrinfo", "-q", base, "-sql",
                       f"SELECT element, gtd_closed(direction, vehicle, domain, 'positive', {LORRY}, '{moment}') AS closed "
                       "FROM restrictions GROUP BY element", OGR_SQLITE_LOAD_EXTENSIONS=extension)
            values = [int(line.split("=")[1]) for line in said.splitlines() if " = " in line]
            shown = [road for road, closed in zip(values[::2], values[1::2]) if not closed]
            check(shown == [road for road in open_roads(rows, second) if road != 106], f"{moment}: {said}")
    return check.end()


if __name__ == "__main__":
    sys.exit(main())
