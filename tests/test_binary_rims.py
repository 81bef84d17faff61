"""Well-known binary through each binding: of values by chance, half of them broken, SQLite, PostgreSQL and JavaScript read the same
geometries as the library of C and Python, and refuse the same ones with the same code. tests/test_binaries.py compares that library with
the model of the definition and with shapely."""
import os
import re
import subprocess

import engine_rows
import library
import sfq
import sqlite_sessions
import test_javascript
import test_postgresql
import wkb_model
from sfq.geometry import library as border

# What sqlite3 says of an error, with the number of the line.
ERROR = re.compile(r"near line (\d+): (?:.*?)sfq: first (.*)")
# A value whose type or dimension sfq doesn't have has no code of its own in the library.
NO_TYPE = "4"


def values_of(seed, count):
    """Returns values by chance, each of which has a byte or more."""
    return [it for it in wkb_model.drawn(seed, count) if 0 < len(it) < 1_000]


def said_by_library(values):
    """Returns of each value the text of its geometry, the code of its fault, or NO_TYPE."""
    os.environ["SFQ_LIBRARY"] = library.SHARED
    kept = border.KeptMany(border.Binaries(values), None)
    return [said_of(kept, at) for at in range(len(values))]


def said_of(kept, at):
    """Returns what the library said of one value."""
    if kept.statuses[at] == border.OK:
        return border.handed_out(lambda *room: border.library().sfq_text(border.CGeometry.from_address(kept.address(at)), *room))
    fault = kept.faults[at]
    return f"{chr(fault.letter)}{fault.number}" if kept.statuses[at] == border.REFUSED else str(kept.statuses[at])


def is_text(said):
    """Whether a geometry was read."""
    return len(said) > 2


class WithValues:
    """The values of a test, by a seed and how many are drawn."""

    SEED, COUNT = 70, 1_000

    def check(self, values, found, said):
        """Compares what a binding said of values with what the library did: some are read and some refused."""
        for value, one, other in zip(values, found, said, strict=True):
            self.assertEqual(one, other, value.hex())
        self.assertGreater(sum(map(is_text, said)), self.COUNT // 8)
        self.assertGreater(sum(not is_text(it) for it in said), self.COUNT // 8)


class Sqlite(WithValues, sqlite_sessions.WithExtension):
    """SQLite, one statement for each value."""

    def test_values_by_chance(self):
        values = values_of(self.SEED, self.COUNT)
        lines = ["CREATE TABLE w (id INTEGER PRIMARY KEY, b BLOB, t TEXT);", *(f"INSERT INTO w VALUES ({at}, x'{it.hex()}', NULL);" for at, it in enumerate(values))]
        begin = len(lines) + 2
        lines += [f"UPDATE w SET t = ST_GeomFromWKB(b) WHERE id = {at};" for at in range(len(values))]
        text = "\n".join([f".load {self.room.name}/sfq0", *lines, "SELECT id, t FROM w ORDER BY id;"])
        ran = subprocess.run(["sqlite3", "-batch", "-csv", ":memory:"], input=text, capture_output=True, text=True)
        found = [it.partition(",")[2].strip('"') for it in ran.stdout.splitlines()]
        for line, why in ERROR.findall(ran.stderr):
            found[int(line) - begin] = NO_TYPE if "a type that" in why else why.split(" ")[0].rstrip(":")
        self.check(values, found, said_by_library(values))


class Javascript(WithValues, engine_rows.WithLibrary):
    """The package for JavaScript in Node, some thousands of values in each call."""

    @test_javascript.needs_page
    def test_values_by_chance(self):
        values, found = values_of(self.SEED, self.COUNT), []
        for at in range(0, len(values), 5_000):
            found += test_javascript.tried("binaries", {"values": [{"hex": it.hex()} for it in values[at : at + 5_000]]})
        said = said_by_library(values)
        self.check(values, [it[0] if isinstance(it, list) else it.split(" ")[1] for it in found], ["W1" if it == NO_TYPE else it for it in said])


class Postgresql(WithValues, test_postgresql.WithServer):
    """PostgreSQL, which relates each value with itself: NULL is a refusal."""

    def test_values_by_chance(self):
        values = values_of(self.SEED, self.COUNT)
        rows = ",\n".join(f"({at}, '\\x{it.hex()}'::bytea)" for at, it in enumerate(values))
        found = self.asked(
            f"CREATE TEMPORARY TABLE w (id int, b bytea);\nINSERT INTO w VALUES\n{rows};\n"
            "SELECT coalesce(binary_relate(b, b), 'NULL') FROM w ORDER BY id;"
        ).splitlines()
        said = said_by_library(values)
        for value, matrix, it in zip(values, found, said, strict=True):
            self.assertEqual(matrix, sfq.relate(it, it) if is_text(it) else "NULL", value.hex())
        self.assertGreater(sum(map(is_text, said)), self.COUNT // 8)


class ManyBySqlite(Sqlite):
    """A hundred thousand others."""

    IS_LONG = True
    SEED, COUNT = 71, 100_000


class ManyByJavascript(Javascript):
    """A hundred thousand others."""

    IS_LONG = True
    SEED, COUNT = 71, 100_000


class ManyByPostgresql(Postgresql):
    """A hundred thousand others."""

    IS_LONG = True
    SEED, COUNT = 71, 100_000
