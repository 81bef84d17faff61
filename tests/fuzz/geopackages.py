#!/usr/bin/env python3
"""Hands GeoPackages with changed bytes and cells to sfq-import.

It needs GDAL's module osgeo. A seed and a number make a case. Each is imported in a process of its own, which has to end within a time
and a memory, by a status of the manual page, with lines of its own, and with tables as a whole or none. Where a program sfq is named, it
checks the geometries, and loads the tables.
"""
import argparse
import contextlib
import json
import os
import random
import resource
import runpy
import shutil
import signal
import sqlite3
import struct
import subprocess
import sys
import tempfile
import time
import traceback

ROOT = os.path.dirname(os.path.dirname(os.path.dirname(os.path.realpath(__file__))))
runpy.run_path(f"{ROOT}/tools/paths.py")

import over_program
from sfq.commands import folders, imports

# The statuses of sfq-import that a source may lead to: done, no layer to choose, no record kept, a file, memory.
DONE, USAGE, DATA, FILES, MEMORY = 0, 2, 4, 6, 7
# How many seconds and bytes an import may take.
SECONDS, BYTES = 60, 4 << 30
# In place of a program sfq: it takes each geometry.
STAND_IN = """#!/bin/sh
case "$1" in
pairs) sed 's/.*/FF0FFF0F2/' ;;
why) echo 'W1 0: here no geometry begins' ;;
esac
"""
SHAPES = (
    "POINT(1 2)", "POINT(1.5 -2.25)", "POINT EMPTY", "POINT Z (1 2 3)", "MULTIPOINT(1 1,2 2)", "LINESTRING(0 0,3 3,3 0)", "MULTILINESTRING((0 0,1 1),(2 2,3 3))",
    "POLYGON((0 0,4 0,4 4,0 4,0 0),(1 1,2 1,2 2,1 1))", "MULTIPOLYGON(((0 0,1 0,1 1,0 0)),((5 5,6 5,6 6,5 5)))", "GEOMETRYCOLLECTION(POINT(1 1))",
    "CURVEPOLYGON(CIRCULARSTRING(0 0,1 1,2 0,1 -1,0 0))",
)  # fmt: skip
WORDS = (
    "", "a", "A", "select", "a b", "a\nb", "a,b", '"', "'", "\x00", "\x1b[1m", "\u00e9", "\U0001f600", "x" * 3_000, "0", "-1", "1e400", "nan", "EPSG:4326", "geom",
    "fid", "GEOMETRY", "POINT", "INTEGER", "TEXT(0)", "BLOB", "2020-02-30", "http://127.0.0.1:1/a", "/dev/zero", "/etc/passwd", "+proj=longlat +nadgrids=/dev/zero",
    'GEOGCS["a",DATUM["b",SPHEROID["c",6378137,0]]]', 'LOCAL_CS["a"]',
)  # fmt: skip
NUMBERS = (0, 1, -1, 2, 127, 128, 255, 256, 32_767, 65_535, 2**31 - 1, -(2**31), 2**32 - 1, 2**62, 2**63 - 1, -(2**63))
REALS = (0.0, -0.0, 0.5, 1e-320, 1e15, 1e308, -1e308, float("inf"), float("-inf"), float("nan"))
# The tables that say what a GeoPackage has (12-128r19, 1.1).
OWN_TABLES = ("gpkg_contents", "gpkg_geometry_columns", "gpkg_spatial_ref_sys", "gpkg_extensions", "gpkg_ogr_contents", "sqlite_sequence")


def make_source(path, words, code, with_index):
    """Writes a GeoPackage of a layer with some geometries, and one without any."""
    from osgeo import gdal, ogr, osr

    for it in (gdal, ogr, osr):
        it.UseExceptions()
    system = osr.SpatialReference()
    system.ImportFromEPSG(code)
    source = gdal.GetDriverByName("GPKG").Create(path, 0, 0, 0, gdal.GDT_Unknown)
    layer = source.CreateLayer("places", system, ogr.wkbUnknown, [f"SPATIAL_INDEX={'YES' if with_index else 'NO'}"])
    plain = source.CreateLayer("plain", None, ogr.wkbNone)
    for to in (layer, plain):
        for name, kind in (("name", ogr.OFTString), ("count", ogr.OFTInteger64), ("size", ogr.OFTReal), ("day", ogr.OFTDate), ("raw", ogr.OFTBinary)):
            to.CreateField(ogr.FieldDefn(name, kind))
        for number, text in enumerate(words):
            made = ogr.Feature(to.GetLayerDefn())
            made.SetField("name", f"row {number}")
            made.SetField("count", number)
            made.SetField("size", number / 4)
            made.SetField("day", "2026/01/31")
            if to is layer and text:
                made.SetGeometryDirectly(ogr.CreateGeometryFromWkt(text))
            to.CreateFeature(made)
    del layer, plain, to, made, source


def sources(room):
    """Returns the bytes of small GeoPackages."""
    found = []
    for number, (words, code, with_index) in enumerate(((SHAPES, 25832, True), (SHAPES[:1] * 3, 4326, False), (SHAPES[7:8] * 40, 3857, True))):
        path = f"{room}/source-{number}.gpkg"
        make_source(path, words, code, with_index)
        with open(path, "rb") as file:
            found.append(file.read())
    return found


# ---- changes ----


def places_of_geometries(data):
    """Returns where the geometries begin (12-128r19, 2.1.3)."""
    found, at = [], data.find(b"GP\0")
    while at >= 0:
        found.append(at)
        at = data.find(b"GP\0", at + 1)
    return found


def bytes_changed(data, chance):
    """Returns data with some bytes replaced: anywhere, in its head, or in a geometry."""
    data = bytearray(data)
    for _ in range(chance.choice((1, 1, 2, 4, 16))):
        geometries = places_of_geometries(data)
        begin, size = chance.choice(((0, len(data)), (0, 120), (chance.choice(geometries or [0]), 64), (chance.choice(geometries or [0]), 64)))
        at = min(begin + chance.randrange(max(size, 1)), len(data) - 1)
        new = chance.choice((
            bytes([chance.randrange(256)]), struct.pack("<q", chance.choice(NUMBERS[:-1])), struct.pack(">i", chance.choice(NUMBERS[:10])),
            struct.pack("<i", chance.choice(NUMBERS[:10])), struct.pack("<d", chance.choice(REALS)), bytes([data[at] ^ 1 << chance.randrange(8)]),
        ))
        data[at:at + len(new)] = new
    return bytes(data)


def pieces_changed(data, chance):
    """Returns data that is cut off, or with a piece that is moved, doubled, left out or made zeros. A piece is a page now and then."""
    size = chance.choice((4_096, 4_096, 512, 16, 1))
    first, second = (size * chance.randrange(1 + len(data) // size) for _ in range(2))
    piece = data[first:first + size]
    return chance.choice((
        data[:first], data[:second] + piece + data[second + size:], data[:second] + piece + data[second:], data[:first] + data[first + size:],
        data[:first] + bytes(len(piece)) + data[first + size:],
    ))


def value(old, chance):
    """Returns what a cell may have in place of a value."""
    if isinstance(old, bytes) and chance.random() < 0.7:
        return bytes_changed(old, chance) if old else b"GP"
    return chance.choice((None, chance.choice(WORDS), chance.choice(WORDS), chance.choice(NUMBERS[:-2]), chance.choice(REALS), os.fsencode(chance.choice(WORDS)), b"\xff\xfe"))


def cells_changed(data, chance):
    """Returns a database with some cells of its tables replaced, or a table or a column renamed."""
    with tempfile.NamedTemporaryFile(suffix=".gpkg") as file:
        file.write(data)
        file.flush()
        with contextlib.closing(sqlite3.connect(file.name, isolation_level=None)) as found, contextlib.suppress(sqlite3.Error, UnicodeError):
            # What was changed before may be in the way, also so that it is no database any more.
            found.execute("PRAGMA journal_mode = MEMORY")
            found.execute("PRAGMA ignore_check_constraints = 1")
            for (name,) in found.execute("SELECT name FROM sqlite_master WHERE type = 'trigger'").fetchall():
                found.execute(f'DROP TRIGGER "{name}"')
            for _ in range(chance.choice((1, 1, 2, 5))):
                cell_changed(found, chance)
        file.seek(0)
        return file.read()


def cell_changed(found, chance):
    name = chance.choice(("places", "plain", *OWN_TABLES))
    columns = [it[1] for it in found.execute(f"PRAGMA table_info({name})").fetchall()]
    rows = found.execute(f"SELECT rowid, * FROM {name}").fetchall()
    if rows and name in ("places", "plain") and chance.random() < 0.2:
        new = chance.choice(WORDS).replace('"', '""').replace("\0", "")
        found.execute(f'ALTER TABLE {name} RENAME {chance.choice(("", f"COLUMN {chance.choice(columns)}"))} TO "{new}"')
    elif rows:
        row, at = chance.choice(rows), chance.randrange(len(columns))
        with contextlib.suppress(sqlite3.Error):
            # Not every column takes every value.
            found.execute(f"UPDATE {name} SET {columns[at]} = ? WHERE rowid = ?", (value(row[at + 1], chance), row[0]))


def case(seed, number, given):
    """Returns the bytes of a case."""
    chance = random.Random(f"{seed} {number}")
    data = chance.choice(given)
    for _ in range(chance.choice((1, 1, 2))):
        way = chance.choice((bytes_changed, bytes_changed, pieces_changed, cells_changed))
        data = way(data, chance) or b"\0"
    return data


# ---- imports ----


def import_here(words, err):
    """Imports in this process, which a time and a memory bound, and ends it."""
    try:
        signal.alarm(SECONDS)
        resource.setrlimit(resource.RLIMIT_AS, (BYTES, BYTES))
        resource.setrlimit(resource.RLIMIT_CORE, (0, 0))
        for number in (1, 2):
            os.dup2(err, number)
        status = imports.main(words)
    except SystemExit as it:
        status = it.code if isinstance(it.code, int) else 1
    except BaseException:  # What nobody thought of is what is looked for.
        traceback.print_exc()
        status = 99
    sys.stderr.flush()
    os._exit(status)


def imported(path, out, program, room):
    """Imports a file in a process of its own, and returns its status, that of a signal below 0, and what it wrote."""
    with open(f"{room}/err", "w+b") as err:
        sys.stdout.flush()
        child = os.fork()
        if not child:
            over_program.use(program)
            import_here([path, "--out", out], err.fileno())
        status = os.waitstatus_to_exitcode(os.waitpid(child, 0)[1])
        err.seek(0)
        return status, err.read().decode("utf-8", "backslashreplace")


def tables_wrong(out, program):
    """Returns what is wrong with the folder of an import, if anything is."""
    there = set(os.listdir(out))
    with open(f"{out}/grid.json", encoding="utf-8") as file:
        layers = json.load(file)["layers"]
    wanted = {"schema.sql", "grid.json", "left-out.csv", *(f"{it['table']}.csv" for it in layers)}
    # What rounding changed is in a file of its own, if relations were compared.
    if there - {folders.CHANGED} != wanted:
        return f"files {sorted(there ^ wanted)}"
    if program:
        ran = subprocess.run([program, "check", f"{out}/schema.sql", out], capture_output=True, text=True)
        return ran.stderr
    return ""


def wrong(status, err, out, room, program):
    """Returns what is wrong with how an import ended, if anything is."""
    if status < 0:
        return f"signal {-status}" + (f": more than {SECONDS} s" if status == -signal.SIGALRM else "")
    if status not in (DONE, USAGE, DATA, FILES, MEMORY):
        return f"status {status}"
    if any(not it.startswith("sfq-import: ") for it in err.splitlines()) or (status and not err):
        return "another line"
    left = set(os.listdir(room)) - {"case.gpkg", "err", "sfq", os.path.basename(out)} - {f"case.gpkg-{it}" for it in ("journal", "wal", "shm")}
    if left:
        return f"left: {sorted(left)}"
    if status in (USAGE, FILES, MEMORY) or not os.path.isdir(out):
        return "a folder in spite of the status" if os.path.lexists(out) else "" if status else "no folder"
    return tables_wrong(out, program)


class Fuzzing:
    """A run over cases of a seed."""

    def __init__(self, seed, program, keep):
        self.seed, self.program, self.keep = seed, program, keep
        self.statuses, self.wrong = {}, 0

    def try_case(self, number, given):
        """Imports a case, and prints what is wrong with that."""
        with tempfile.TemporaryDirectory(prefix="sfq-geopackage-") as room:
            path, out, program = f"{room}/case.gpkg", f"{room}/out", f"{room}/sfq"
            with open(path, "wb") as file:
                file.write(case(self.seed, number, given))
            if self.program:
                shutil.copy(self.program, program)
            else:
                with open(program, "w", encoding="ascii") as file:
                    file.write(STAND_IN)
            os.chmod(program, 0o755)
            if self.keep:
                shutil.copy(path, self.keep)
            status, err = imported(path, out, program, room)
            self.statuses[status] = self.statuses.get(status, 0) + 1
            said = wrong(status, err, out, room, self.program and program)
            if said or self.keep:
                print(f"case {number}, status {status}: {said or 'well'}\n{err.rstrip()}\nagain: {__file__} --seed {self.seed} --case {number}", flush=True)
            self.wrong += bool(said)


def options_of(words):
    parser = argparse.ArgumentParser(description=__doc__.splitlines()[0])
    parser.add_argument("--seed", default="", help="the seed (a random one)")
    parser.add_argument("--seconds", type=int, default=30, help="how long it goes on (30)")
    parser.add_argument("--minutes", type=int, default=0, help="how long it goes on, in minutes")
    parser.add_argument("--case", type=int, help="this case alone")
    parser.add_argument("--keep", default="", metavar="FILE", help="keep the bytes of the case in a file")
    parser.add_argument("--sfq", default="", metavar="PROGRAM", help="check by this program, and load the tables that were made")
    return parser.parse_args(words)


def main(words):
    options = options_of(words)
    fuzzing = Fuzzing(options.seed or str(int.from_bytes(os.urandom(4), "big")), options.sfq, options.keep)
    print(f"seed {fuzzing.seed}", flush=True)
    due, number = time.monotonic() + (60 * options.minutes or options.seconds), 0
    with tempfile.TemporaryDirectory(prefix="sfq-geopackages-") as room:
        given = sources(room)
    if options.case is not None:
        fuzzing.try_case(options.case, given)
    while options.case is None and time.monotonic() < due:
        fuzzing.try_case(number, given)
        number += 1
    print(f"{sum(fuzzing.statuses.values())} imports, statuses {dict(sorted(fuzzing.statuses.items()))}, {fuzzing.wrong} wrong")
    return 1 if fuzzing.wrong else 0


if __name__ == "__main__":
    sys.exit(main(sys.argv[1:]))
