"""What sfq-tiles writes is what a model of it writes, and its faults are those of `sfq check`.

The model takes the cells as sfq-tiles prints them. SFQ_PROGRAM and SFQ_TILES in the environment name other programs in place of
those that ./build and ./build --tiles make.
"""
import csv
import itertools
import os
import random
import re
import shutil
import subprocess
import tempfile
import time
import unittest

from support import ROOT, read, write

import scale_tables
import tile_model
from fuzz import joins
from scale_programs import SFQ, TILES, needs_programs


class WithFolder(unittest.TestCase):
    """A test case with a folder of tables."""

    ASKS_PROGRAM = True

    def setUp(self):
        self.folder = tempfile.mkdtemp(prefix="sfq-splitting-")
        self.addCleanup(shutil.rmtree, self.folder)

    def run_tiles(self, rows, *parts):
        """Runs sfq-tiles over the folder, and returns its two streams and its status."""
        words = [TILES, "--rows", str(rows), *(it for part in parts for it in ("--part", part)), "--"]
        ran = subprocess.run([*words, f"{self.folder}/schema.sql", self.folder, f"{self.folder}/made"], capture_output=True)
        return ran.stdout.decode(), ran.stderr.decode(), ran.returncode

    def split(self, rows, *parts):
        """Runs sfq-tiles, which has to end well, and returns the records of its output."""
        shutil.rmtree(f"{self.folder}/made", ignore_errors=True)
        out, err, status = self.run_tiles(rows, *parts)
        self.assertEqual((err, status), ("", 0))
        return list(csv.DictReader(out.splitlines()))

    def compare_tiles(self, rows, parts):
        """Compares tiles with the model: of each part its name, its table, the columns that are copied, and that of its tiles."""
        words = [f"{name}={table}.{by}:{','.join(columns)}" for name, table, columns, by in parts]
        listed = self.split(rows, *words)
        cells = [tile_model.cell_of(it) for it in listed]
        self.assertEqual([it["tile"] for it in listed], [str(at) for at in range(len(listed))])
        self.assertIsNone(cells[0])
        self.assertTrue(tile_model.are_whole_grid(cells[1:]))
        for name, table, columns, by in parts:
            whole = tile_model.rows(f"{self.folder}/{table}.csv", columns, by)
            for record, cell in zip(listed, cells):
                header, *found = tile_model.records(f"{self.folder}/made/tile-{record['tile']}/{name}.csv")
                wanted = tile_model.tile(whole, cell)
                self.assertEqual(found, wanted)
                self.assertEqual([it.lower() for it in header[:-2]], [it.lower() for it in columns])
                self.assertEqual(record[name], str(len(wanted)))
        return listed

    def compare_stretches(self, rows, name, table, columns):
        """Compares stretches with the model."""
        listed = self.split(rows, f"{name}={table}:{','.join(columns)}")
        wanted = tile_model.stretches(tile_model.rows(f"{self.folder}/{table}.csv", columns), rows)
        found = [tile_model.records(f"{self.folder}/made/{name}-{it['tile']}/{name}.csv")[1:] for it in listed]
        self.assertEqual(found, wanted)
        self.assertEqual([tuple(it.values()) for it in listed], [(name, str(at), str(len(it))) for at, it in enumerate(wanted, 1)])


class SmallTables(WithFolder):
    """Tables whose columns are in another order than in the schema, with NULL, EMPTY, and fields of several lines."""

    COLUMNS = {"parcel": ["id", "name", "geom", "w"], "House": ["number", "garden", "s"], "bare": ["id", "geom"]}

    def setUp(self):
        super().setUp()
        scale_tables.small(self.folder)

    @needs_programs
    def test_stretches(self):
        for name, columns in self.COLUMNS.items():
            for rows in (1, 9, 63, 100):
                self.compare_stretches(rows, "one", name, columns)
        self.compare_stretches(9, "one", "parcel", ["id"])

    @needs_programs
    def test_tiles(self):
        listed = self.compare_tiles(9, [("one", "parcel", self.COLUMNS["parcel"], "geom"), ("two", "House", self.COLUMNS["House"], "garden")])
        self.assertGreater(len(listed), 8)
        self.assertEqual(
            read(f"{self.folder}/made/schema.sql"),
            "CREATE TABLE one (id INTEGER PRIMARY KEY, name TEXT, geom POLYGON, w INTEGER, w_ INTEGER NOT NULL, s INTEGER NOT NULL);\n"
            "CREATE TABLE two (number INTEGER PRIMARY KEY NOT NULL, garden GEOMETRY, s TEXT, w INTEGER NOT NULL, s_ INTEGER NOT NULL);\n",
        )
        for rows in (1, 5, 1000):
            self.compare_tiles(rows, [("a", "House", ["number", "ground"], "ground"), ("b", "road", ["id", "line", "name"], "line")])
        self.compare_tiles(9, [("a", "bare", ["id", "geom"], "geom")])

    @needs_programs
    def test_fields_with_ends_of_lines(self):
        write(f"{self.folder}/schema.sql", "CREATE TABLE t (id INTEGER PRIMARY KEY, v TEXT);")
        fields = ["a\rb", "a\nb", "\r", "a\r\n", '"\r"', " a", "", "\u00c5,", 'a"b']
        with open(f"{self.folder}/t.csv", "w", encoding="utf-8", newline="") as file:
            csv.writer(file, quoting=csv.QUOTE_ALL).writerows([["id", "v"], *enumerate(fields)])
        self.compare_stretches(4, "one", "t", ["id", "v"])
        self.split(100, "one=t")
        whole, part = (
            subprocess.run([SFQ, "run", "--", schema, folder, f"SELECT * FROM {name}"], capture_output=True)
            for schema, folder, name in ((f"{self.folder}/schema.sql", self.folder, "t"), (f"{self.folder}/made/schema.sql", f"{self.folder}/made/one-1", "one"))
        )
        self.assertEqual((whole.stdout, whole.returncode), (part.stdout, 0))

    @needs_programs
    def test_misuse(self):
        for words in (["one"], ["one=nope"], ["one=road.nope"], ["one=road", "two=parcel.geom"], ["one=road.name"]):
            out, err, status = self.run_tiles(9, *words)
            self.assertEqual((out, status), ("", 2), words)
            self.assertRegex(err, r"\A(error|sfq-tiles): .*\n")
        self.assertEqual(self.run_tiles(0, "one=road")[2], 2)
        write(f"{self.folder}/made", "")
        self.assertEqual(self.run_tiles(9, "one=road")[2], 6)


class ManyTables(WithFolder):
    """Random tables, and crowded ones."""

    FEW, MANY = 12, 400

    def check(self, seed, count):
        pool = joins.Pool(joins.GEOMETRIES, {})
        write(f"{self.folder}/schema.sql", joins.SCHEMA)
        for number in range(count):
            drawing, draw = joins.Drawing(pool, f"{seed} {number}"), random.Random(f"{seed} {number}")
            for it in joins.TABLES:
                write(f"{self.folder}/{it}.csv", drawing.csv(it))
            columns = [["id", *(it for it in ("n", "name", "g", "h") if draw.random() < 0.5)] for _ in range(2)]
            with self.subTest(seed=seed, number=number):
                self.compare_tiles(draw.randrange(1, 20), [(a, t, named, draw.choice("gh")) for a, t, named in zip("ab", joins.TABLES, columns)])
                self.compare_stretches(draw.randrange(1, 20), "a", draw.choice(joins.TABLES), columns[0])

    @needs_programs
    def test_some(self):
        self.check(1, self.FEW)

    @needs_programs
    def test_crowded(self):
        for kind in ("point", "corner", "town", "line"):
            scale_tables.crowds(self.folder, kind)
            self.compare_tiles(9, [(it, it, ["id", "geom"], "geom") for it in "ab"])


class LongManyTables(ManyTables):
    """Many, others in each run, and a table of as many rows as one run takes."""

    IS_LONG = True

    @needs_programs
    def test_some(self):
        self.check(time.time_ns() % 1_000_000, self.MANY)

    @needs_programs
    def test_a_hundred_thousand_rows(self):
        scale_tables.land(self.folder, 316, 100_000)
        self.compare_tiles(30_000, [("a", "tree", ["id", "at"], "at"), ("b", "parcel", ["id", "geom", "owner"], "geom")])
        self.compare_stretches(30_000, "a", "parcel", ["id", "geom"])


class Faults(WithFolder):
    """sfq-tiles has the line and the status of `sfq check`, and makes nothing. It takes more rows."""

    SCHEMA = "CREATE TABLE t (id INTEGER PRIMARY KEY, v TEXT NOT NULL, g GEOMETRY);\n"

    def setUp(self):
        super().setUp()
        write(f"{self.folder}/schema.sql", self.SCHEMA)

    def outcome(self, text):
        """Compares what sfq-tiles says of a table with what `sfq check` says, and returns this."""
        with open(f"{self.folder}/t.csv", "wb") as file:
            file.write(text)
        ran = subprocess.run([SFQ, "check", "--", f"{self.folder}/schema.sql", self.folder], capture_output=True)
        wanted = ran.stderr.decode(), ran.returncode
        for part in ("one=t", "one=t.g"):
            shutil.rmtree(f"{self.folder}/made", ignore_errors=True)
            out, err, status = self.run_tiles(5, part)
            self.assertEqual((err, status), wanted, text[:300])
            if status:
                self.assertEqual((out, os.path.exists(f"{self.folder}/made")), ("", False))
        return wanted

    @needs_programs
    def test_of_records(self):
        rows = [b'%d,"a %d",POINT(%d 0)\n' % (it, it, it) for it in range(23)]
        self.assertEqual(self.outcome(b"id,v,g\n" + b"".join(rows)), ("", 0))
        bad = [
            b"x,a,\n", b"3,a,\n", b"77,,\n", b"77,a\n", b"77,a,POINT(0.5 0)\n", b'77,"a\n,b', b"77,\xff,\n", b"\n\n77,a,,\n", b'77,"a"b"\r\r\n,"\n',
            b'77,"a\r\nb",\n', b"77,a,POINT EMPTY\r", b"77,%b,\n" % (b"a" * 1_048_577), b'77,"%b\n' % (b"a,\n" * 400_000), b'77,"%b",\n' % (b"a" * 1_048_575),
        ]
        lines = set()
        for at, it in itertools.product((0, 4, 23), bad):
            lines.add(self.outcome(b"".join([b"\xef\xbb\xbfid,v,g\n", *rows[:at], it, *rows[at:]]))[0])
        self.assertGreater(len(lines), 15)

    @needs_programs
    def test_of_double_keys(self):
        for keys in ([1, 2, 2, 1], [*range(10), 9, 0], [0, *range(1, 9), 3, 3, 0], [*range(7), 6, "x"], [5, 5, *range(20, 30), ""]):
            self.assertNotEqual(self.outcome(b"v,id\n" + b"".join(b"a,%b\n" % str(it).encode() for it in keys))[1], 0)
            self.assertNotEqual(self.outcome(b"v,id,g\n" + b"".join(b"a,%b,\n" % str(it).encode() for it in keys))[1], 0)

    @needs_programs
    def test_of_headers(self):
        for it in (b"", b"id\n", b"id,v,g,ID\n1,a,,1\n", b"\n\nid,v,g\n1,a,\n", b"id,v,g"):
            self.outcome(it)

    @needs_programs
    def test_of_more_records_than_sfq_takes(self):
        text = "id,v,g\n" + "".join(f"{it},a,POINT({it} 1)\n" for it in range(100_003))
        write(f"{self.folder}/t.csv", text)
        self.assertEqual(self.run_tiles(60_000, "one=t:v"), ("part,tile,rows\none,1,60000\none,2,40003\n", "", 0))
        shutil.rmtree(f"{self.folder}/made")
        for line, said in (("1,a,\n", "sfq: t L9 record 100005\n"), ("-1,,\n", None)):
            write(f"{self.folder}/t.csv", text + "-9,b,\n" + line)
            out, err, status = self.run_tiles(60_000, "one=t:v")
            self.assertEqual((out, status), ("", 4))
            self.assertIn(" record 100005", err)
            self.assertEqual(err, said or err)


class Manual(WithFolder):
    """The example of the manual page."""

    @needs_programs
    def test_prints_what_is_shown(self):
        page = read(f"{ROOT}/packaging/man/sfq-tiles.1").replace("\\-", "-")
        call, shown = re.findall(r"\.EX\n((?:.*\n)+?)\.EE\n", page)
        words = call.replace(" OUT ", f" {self.folder}/out ").split()[1:]
        ran = subprocess.run([TILES, *words], cwd=ROOT, capture_output=True, text=True)
        self.assertEqual((ran.stdout, ran.stderr, ran.returncode), (shown, "", 0))
        words = ["run", f"{self.folder}/out/schema.sql", f"{self.folder}/out/tile-3", "SELECT COUNT(*) FROM a"]
        self.assertEqual(subprocess.run([SFQ, *words], capture_output=True, text=True).stdout, "COUNT(*)\n8\n")


class Model(unittest.TestCase):
    """The model itself. No program is asked."""

    def test_a_pair_has_one_owner(self):
        cells = [(x, x + 4, y, y + 2) for x in range(0, 20, 5) for y in range(0, 21, 3)]
        boxes = [(x, x + wide, y, y + high) for x in (0, 4, 5, 9) for y in (0, 2, 3, 7) for wide in (0, 1, 6) for high in (0, 3, 9)]
        for one, other in itertools.product(boxes, boxes):
            owners = []
            for cell in cells:
                if tile_model.meets(one, cell) and tile_model.meets(other, cell):
                    (a, c), (b, d) = tile_model.marks(one, cell), tile_model.marks(other, cell)
                    owners += [cell] * ((a == 0 or b == 0) and (c == 0 or d == 0))
            self.assertEqual(len(owners) if tile_model.meets(one, other) else 1, 1, (one, other))

    def test_envelopes(self):
        self.assertEqual(tile_model.envelope("LINESTRING(+3 -4.0, 1. 007,2 2)"), (1, 3, -4, 7))
        self.assertIsNone(tile_model.envelope("POINT EMPTY"))

    def test_cells_that_are_the_whole_grid(self):
        west, east = (-10_000_000, 4, -10_000_000, 10_000_000), (5, 10_000_000, -10_000_000, 10_000_000)
        self.assertTrue(tile_model.are_whole_grid([west, east]))
        self.assertFalse(tile_model.are_whole_grid([west, (6, *east[1:])]))
        self.assertFalse(tile_model.are_whole_grid([west, west]))


if __name__ == "__main__":
    unittest.main()
