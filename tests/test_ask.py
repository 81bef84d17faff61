"""sfq-ask: constants and answers in the coordinates of the source, places of faults, the tables that are kept, outputs and how it ends;
over a stand-in for the program, and over the library where it is made, also on layers that others made."""
import contextlib
import csv
import io
import json
import os
import re
import resource
import shutil
import signal
import stat
import subprocess
import sys
import tempfile
import time
import unittest
import xml.etree.ElementTree as tree
from fractions import Fraction
from unittest import mock

from made_libraries import over_library
from support import ROOT, over_program, python_command, python_with, read, write

import engine_rows
import library
import test_databases_python as databases
from shell_sessions import Program
from sfq.commands import ask, asking, caches, conditions, constants, endings, imports, left_out, units
from sfq.geometry import grids
from sfq.geometry.faults import MEANINGS
from sfq.tables import errors

GRID = grids.Grid("0.5", ("100", "-50"))
PYTHON, SHAPELY = python_with("osgeo.ogr"), python_with("shapely")
SHAPES = {it: f"/usr/lib/R/site-library/{it}" for it in ("sf", "spData")}
csv.field_size_limit(sys.maxsize)


def made(query, grid=GRID):
    """Returns the query that sfq gets."""
    return constants.Written(query, grid).made


@over_library
class Constants(unittest.TestCase):
    """Numbers in the strings of ST_GeomFromText, on a grid of halves from 100 -50."""

    def test_numbers_become_coordinates(self):
        for number, wanted in (("100", "0"), ("100.0", "0"), ("+100.", "0"), ("101.5", "3"), ("99.5", "-1"), ("0", "-200"), (".5", "-199"), ("-0", "-200")):
            self.assertEqual(made(f"ST_GeomFromText('POINT({number} -50)')"), f"ST_GeomFromText('POINT({wanted} 0)')")
        text = "ST_GeomFromText('multipolygon ( ((100 -50, 101 -50,\n101\t-49.5,100 -50)) )')"
        self.assertEqual(made(text), "ST_GeomFromText('multipolygon ( ((0 0, 2 0,\n2\t1,0 0)) )')")
        self.assertEqual(made("ST_GeomFromText('MULTIPOINT((100 -50),100.5 -49)')"), "ST_GeomFromText('MULTIPOINT((0 0),1 2)')")
        self.assertEqual(made("ST_GeomFromText('POINT EMPTY')"), "ST_GeomFromText('POINT EMPTY')")

    def test_only_in_strings_of_st_geomfromtext(self):
        text = "st_GEOMFROMTEXT -- its 'text'\n ( -- ('POINT(1 2)')\n 'POINT(100 -50)' )"
        self.assertEqual(made(text), text.replace("100 -50", "0 0"))
        for it in ("'POINT(100 -50)'", "x = 'ST_GeomFromText(''POINT(100 -50)'')'", "-- ST_GeomFromText('POINT(100 -50)')", "ST_AsText('POINT(100 -50)')",
                   "ST_GeomFromText(geom)", "ST_GeomFromText('POINT(100 -50)", "XST_GeomFromText('POINT(100 -50)')", "100 -50"):
            self.assertEqual(made(it), it)

    def test_what_is_no_number_stays(self):
        """So sfq says what is wrong with it, and no number of steps comes from what isn't one of the source."""
        for it in ("1e0 x", "1.5.5 x", "1-2 x", "1x", "٣ x", "nan x", "0x1 x", "100,50 x", "- 1", "1 2 3.25"):
            # What is a number beside it is one of the source.
            wanted = {"100,50 x": "0,-100 x", "- 1": "- 102", "1 2 3.25": "-198 104 3.25"}.get(it, it)
            self.assertEqual(made(f"ST_GeomFromText('POINT({it})')"), f"ST_GeomFromText('POINT({wanted})')")

    def test_off_the_grid(self):
        for number, nearest, shown in (("100.25", "POINT(100.5 -50)", "100.25"), ("99.8", "POINT(100.0 -50)", "99.8"), ("100.0000000000000000001", "POINT(100.0 -50)", "100.0000000000000000001")):
            query = f"SELECT é FROM t WHERE\n  ST_Within(geom, ST_GeomFromText('POINT({number} -50)'))"
            with self.assertRaises(asking.Refused) as met:
                constants.Written(query, GRID).need_on_grid("sfq-ask")
            line = query.splitlines()[1]
            self.assertEqual(met.exception.text, (
                f"sfq-ask: {shown} isn't on the grid, which has steps of 0.5 from 100 -50\n  2 | {line}\n    | {' ' * line.index(number)}^\n"
                f"sfq-ask: the nearest constant that is: ST_GeomFromText('{nearest}')\n"))
            self.assertEqual(met.exception.status, 5)

    def test_the_nearest_constant_is_taken_and_is_nearest(self):
        query = "ST_GeomFromText('LINESTRING(100.2 -50.3, 7 7, 1e3 2, 100.74 -49.76)')"
        nearest = constants.Written(query, GRID).constants[0].value.off.nearest
        self.assertEqual(nearest, "LINESTRING(100.0 -50.5, 7 7, 1e3 2, 100.5 -50.0)")
        constants.Written(f"ST_GeomFromText('{nearest}')", GRID).need_on_grid("sfq-ask")

    def test_past_the_limit_and_long_numbers(self):
        for number, wanted in (("1" * 5000, 10**12), ("-" + "1" * 5000, -(10**12)), ("-5000001", -10_000_202), ("5000101." + "9" * 6000, 10_000_004),
                               ("0" * 9000 + "100", 0), ("100." + "0" * 9000, 0)):
            self.assertEqual(made(f"ST_GeomFromText('POINT({number} -50)')"), f"ST_GeomFromText('POINT({wanted} 0)')", number[:9])
            self.assertTrue(abs(wanted) > grids.MOST or not wanted)

    def test_exactly_as_fractions(self):
        for step, origin in (("0.01", "564000"), ("0.0000001", "-79.9"), ("0.00002", "0"), ("3", "0.1")):
            grid = grids.Grid(step, (origin, "0"))
            for whole in (-10_000_000, -1, 0, 1, 7_654_321, 10_000_000):
                value, is_on = constants.on(grid.x.text(whole), grid.x)
                self.assertEqual((value, is_on), (whole, True))
                self.assertEqual(Fraction(grid.x.text(whole)), grid.x.origin + whole * grid.x.step)

    def test_places(self):
        """Each byte that sfq gets has its byte in what the user wrote: of what is copied the same one, of a number its first."""
        query = "SELECT é, ST_GeomFromText('POLYGON((100 -50,100.5  -50,1é 2))') FROM t -- ST_GeomFromText('POINT(1 1)')\nWHERE x = 'é' AND 'POINT(1 1)' = y"
        written = constants.Written(query, GRID)
        before, bytes_made, bytes_written = 0, asking.encoded(written.made), asking.encoded(query)
        for at in range(len(bytes_made) + 1):
            place = constants.place(written.pieces, at)
            self.assertGreaterEqual(place, before)
            before = place
            if at < len(bytes_made) and bytes_made[at] not in b"-.0123456789":
                self.assertEqual(bytes_made[at], bytes_written[place])
        self.assertEqual(place, len(bytes_written))

    def test_bytes_that_are_not_utf_8(self):
        query = "'\udce4' ST_GeomFromText('POINT(100 -50 \udce4)')"
        written = constants.Written(query, GRID)
        self.assertEqual(written.made, query.replace("100 -50", "0 0"))
        self.assertEqual(constants.place(written.constants[0].value.pieces, 10), 14)

    def test_on_a_grid_of_units_faults_stay(self):
        """Those of all queries of the scripts: a grid of steps of 1 from 0 0 changes no number but for how it is spelled."""
        grid, count = grids.Grid("1"), 0
        for name in databases.Engine.SCRIPTS:
            for row in engine_rows.rows_of(name):
                written = constants.Written(row.command, grid)
                if re.match("SELECT|EXPLAIN", row.command) and re.match("! sfq: Q", row.output) and written.made == row.command:
                    count += 1
                    line = row.output.removeprefix("! ").partition("\n")[0]
                    self.assertEqual(written.refused(asking.Refused(f"{line}\nsfq: x\n", 5), "sfq-ask").text.partition("\n")[0], line)
        self.assertGreaterEqual(count, 30)

    def test_faults_of_other_things_stay(self):
        written = constants.Written("SELECT 1", GRID)
        for it in ("sfq: t L6 record 2 W2 at 9\n  2 | x\n", "sfq: Q11\nsfq: the query is longer than 65,536 bytes\n", "sfq: S1 at 3\n", "sfq: out of memory\n"):
            fault = asking.Refused(it, 4)
            self.assertIs(written.refused(fault, "sfq-ask"), fault)


FAULTS = [
    # Of each code of a query one, with a sign before the byte of its place, as sfq finds it over t (id, name, geom) and u (id, geom).
    ("Q1", "SELECT id FROM t WHERE ST_Within(geom, ST_GeomFromText('POINT(100.5 -50)')) AND ¤[x] = 1"),
    ("Q1", "SELECT id FROM t WHERE ST_Within(geom, ST_GeomFromText('POINT(100.5 -50)')) AND name = ¤'x"),
    ("Q2", "SELECT id FROM t WHERE ST_Within(geom, ST_GeomFromText('LINESTRING(100.5 -50,101 -49)')) ¤ORDER BY id"),
    ("Q2", "SELECT id FROM t WHERE ST_Within(geom, ST_GeomFromText('POINT(100.5 -50)'¤, 4326))"),
    ("Q3", "SELECT id FROM ¤nope WHERE ST_Within(geom, ST_GeomFromText('POINT(100.5 -50)'))"),
    ("Q4", "SELECT id FROM t JOIN ¤t ON ST_Within(geom, ST_GeomFromText('POINT(100.5 -50)'))"),
    ("Q5", "SELECT id FROM t WHERE ST_Within(geom, ST_GeomFromText('POINT(100.5 -50)')) AND ¤nope = 1"),
    ("Q6", "SELECT a.id FROM t a JOIN u b ON ST_Within(a.geom, ST_GeomFromText('POINT(100.5 -50)')) AND ¤id = 1"),
    ("Q7", "SELECT id FROM t WHERE ST_Within(geom, ST_GeomFromText('POINT(100.5 -50)')) AND ¤name = 1"),
    ("Q9", "SELECT id FROM t WHERE ST_Relate(geom, ST_GeomFromText('POINT(100.5 -50)'), ¤'TTT')"),
    ("Q10", "SELECT id FROM t WHERE ST_Within(geom, ST_GeomFromText('POINT(100.5 -50)')) AND " + "(" * 64 + "¤(id = 1" + ")" * 65),
    ("Q12", "SELECT id FROM t WHERE ST_Within(geom, ST_GeomFromText('POINT(100.5 -50)')) AND id = ¤9223372036854775808"),
]
# Of each code of a geometry one, with a sign before the byte of a W.
OF_TEXTS = [
    ("W1", "POINT(100.5 -50¤"), ("W1", "POINT(100.5 -50 ¤7)"), ("W1", "¤CIRCLE(100.5 -50)"), ("W1", "LINESTRING(100.5 -50,1¤e0 2)"), ("W1", "POINT(100.5 -50¤''"),
    ("W3", "POINT(100.5 ¤5000000)"), ("W4", "MULTIPOINT(" + ",".join(["100.5 -50"] * 10_001) + ")"),
    ("V1 0", "LINESTRING(100.5 -50,100.5 -50)"), ("V2 0", "POLYGON((100 -50,101 -50,101 -49,100 -49))"), ("V3 0", "POLYGON((100 -50,102 -48,102 -50,100 -48,100 -50))"),
    ("V4 0 1", "POLYGON((100 -50,104 -50,104 -46,100 -46,100 -50),(100 -49,101 -49.5,101 -48.5,100 -49))"),
    ("V5 1", "POLYGON((100 -50,104 -50,104 -46,100 -46,100 -50),(110 -30,110.5 -30,110.5 -29.5,110 -30))"),
    ("V6 1 2", "POLYGON((100 -50,109 -50,109 -41,100 -41,100 -50),(101 -49,108 -49,108 -42,101 -42,101 -49),(102 -48,103 -48,103 -47,102 -48))"),
    ("V7 0 1", "MULTIPOLYGON(((100 -50,104 -50,104 -46,100 -46,100 -50)),((104 -46,105 -46,105 -45,104 -46)))"),
    ("V8 0 1", "MULTIPOLYGON(((101 -49,102 -49,102 -48,101 -49)),((100 -50,109 -50,109 -41,100 -41,100 -50)))"),
]


# Where the faults of these texts are, in the coordinates in which they are written; the other codes have no place.
PLACES = {code: f"the fault is at {at}" for code, at in (
    ("V1 0", "100.5 -50.0"), ("V2 0", "100.0 -50.0"), ("V3 0", "101.0 -49.0"), ("V4 0 1", "100.0 -49.0"), ("V5 1", "110.0 -30.0"), ("V6 1 2", "102.0 -48.0"),
    ("V7 0 1", "104.0 -46.0"), ("V8 0 1", "101.0 -49.0"),
)}


def byte_of(text):
    """Returns a text without its sign, and the byte that the sign is before."""
    return text.replace("¤", ""), len(text.partition("¤")[0].encode())


TABLES = {
    "schema.sql": "CREATE TABLE t (id INTEGER PRIMARY KEY, name TEXT, depth INTEGER, real TEXT, geom GEOMETRY);\nCREATE TABLE u (id INTEGER PRIMARY KEY, geom POLYGON);\n",
    "t.csv": 'id,name,depth,real,geom\n1,a,125,0.25,POINT(3 -7)\n2,"b,c",-5,1e-7,"POLYGON((0 0,4 0,4 4,0 4,0 0))"\n3,,,,\n4,d,0,7,POINT EMPTY\n',
    "u.csv": 'id,geom\n7,"POLYGON((2 2,8 2,8 8,2 8,2 2))"\n',
}
SYSTEM = {"authority": "EPSG:25832", "wkt": "EPSG:25832"}


def column(name, kind, **more):
    return {"name": name, "source": name, "type": kind, **more}


def grid_json(**more):
    """Returns the grid.json of the tables: halves from 100 -50, and depth in steps of 0.1."""
    of_t = [column("id", "INTEGER"), column("name", "TEXT"), column("depth", "INTEGER", step="0.1"), column("real", "TEXT", is_real=True), column("geom", "GEOMETRY")]
    of_u = [column("id", "INTEGER"), column("geom", "POLYGON")]
    layers = [{"layer": name, "table": name, "columns": columns, "coordinate_system": SYSTEM, "rows": rows, "records": rows, "left_out": 0, "source": "s", **more.get(name, {})}
              for name, columns, rows in (("t", of_t, 4), ("u", of_u, 1))]
    return json.dumps({"step": "0.5", "origin": ["100", "-50"], "layers": layers})


def folder_of(room, **more):
    """Writes a folder as sfq-import makes it, and returns its path."""
    for name, text in {**TABLES, "grid.json": grid_json(**more), "left-out.csv": "layer,record,fid,reason,done,table\n"}.items():
        write(f"{room}/folder/{name}", text)
    return f"{room}/folder"


class WithRoom(unittest.TestCase):
    def setUp(self):
        self.room = tempfile.mkdtemp(prefix="sfq-ask-")
        self.addCleanup(shutil.rmtree, self.room, True)


@over_library
class Conditions(WithRoom):
    """What is found in conditions by tokens."""

    def conditions(self, query, **more):
        return conditions.Conditions(query, units.Folder(folder_of(self.room, **more)))

    def test_notes(self):
        for query, wanted in (
            ("SELECT depth, ST_AsText(geom) FROM t WHERE id > 3", []), ("SELECT id FROM t WHERE depth IS NULL OR name = '3'", []),
            ("SELECT id FROM t WHERE DEPTH -- d\n <= -3", ["depth counts steps of 0.1 in a condition"]), ("SELECT id FROM t x, u WHERE 3 < x.depth", ["depth counts steps of 0.1 in a condition"]),
            ("SELECT id FROM t WHERE st_astext(geom) = 'POINT(3 -7)'", ["ST_AsText in a condition is the text on the grid, in whole steps"]),
        ):
            self.assertEqual(self.conditions(query).notes(), wanted, query)

    def test_parts(self):
        parted = {"u": {"parted": {"whole": "whole", "records": 2, "rows": 31, "predicates": ["ST_Intersects", "ST_Disjoint"]}}}
        for query, predicate in (
            ("SELECT id FROM u WHERE st_within -- of parts\n (ST_GeomFromText('POINT(1 1)'), GEOM)", "ST_Within"), ("SELECT a.id FROM t a JOIN u b ON ST_Relate(a.geom, b.geom, 'T********')", "ST_Relate"),
            ("SELECT a.id FROM t a, u b WHERE NOT (ST_Touches(b.geom, a.geom))", "ST_Touches"), ("SELECT * FROM u x JOIN u y ON ST_Intersects(x.geom, y.geom) AND ST_Equals(x.geom, y.geom)", "ST_Equals"),
        ):
            with self.assertRaises(asking.Refused) as met:
                self.conditions(query, **parted).need_lawful("sfq-ask")
            self.assertEqual(met.exception.status, 5)
            first, shown, caret = met.exception.text.splitlines()
            self.assertEqual(first, f"sfq-ask: {predicate} of a part says nothing of the whole: u has records in parts, so it takes ST_Intersects and ST_Disjoint alone")
            self.assertEqual(shown[caret.index("^") :][: len(predicate)].lower(), predicate.lower())
        for query in ("SELECT id FROM u WHERE ST_Intersects(geom, geom) OR ST_Disjoint(geom, geom)", "SELECT a.id FROM t a JOIN u b ON ST_Within(a.geom, ST_GeomFromText('POINT(1 1)')) AND a.id = b.id",
                      "SELECT id FROM u WHERE ST_IsEmpty(geom) AND ST_Within = 'ST_Within(geom, geom)'", "SELECT id FROM u WHERE"):
            found = self.conditions(query, **parted)
            found.need_lawful("sfq-ask")
            self.assertEqual(found.notes()[:1], ["2 records of u are in 31 parts, each a row: those of one have the same number in whole, and one is disjoint from another where all its parts are"])

    def decimals(self, query, **more):
        """Returns what sfq gets of a query over wells whose depth and height count steps that the import found, of 0.1 and 0.001."""
        columns = [column("id", "INTEGER"), column("depth", "INTEGER", step="0.1", is_decimal=True), column("height", "INTEGER", step="0.001", is_decimal=True),
                   column("given", "INTEGER", step="0.1"), column("geom", "GEOMETRY")]
        folder = units.Folder(folder_of(self.room, t={"columns": columns}, **more))
        found = conditions.Conditions(query, folder)
        return constants.Written(query, folder.grid, found.numbers("sfq-ask")).made, found.notes()

    def test_decimal_numbers(self):
        for condition, wanted in (
            ("depth > 12.3", "depth > 123"), ("depth = 12", "depth = 120"), ("t.depth<>-.5", "t.depth<>-5"), ("12 >= DEPTH", "120 >= DEPTH"), ("height = 0.25", "height = 250"),
            # Between two steps: what is greater than 12.34 is greater than 12.3, and what is at least 12.34 is at least 12.4.
            ("depth > 12.34", "depth > 123"), ("depth >= 12.34", "depth >= 124"), ("depth < 12.34", "depth < 124"), ("depth <= 12.34", "depth <= 123"),
            ("depth > -12.34", "depth > -124"), ("depth >= -12.34", "depth >= -123"), ("12.34 < depth", "123 < depth"), ("12.34 <= depth", "124 <= depth"),
            ("-12.34 > depth AND 3 = 3", "-123 > depth AND 3 = 3"), ("NOT depth > 1 OR (2 < depth)", "NOT depth > 10 OR (20 < depth)"),
            ("depth BETWEEN 1.25 AND 3", "depth BETWEEN 13 AND 30"), ("depth NOT BETWEEN 1 AND 3.25", "depth NOT BETWEEN 10 AND 32"), ("depth -- b\n > 1", "depth -- b\n > 10"),
            ("id > 12 AND given > 12", "id > 12 AND given > 12"), ("depth IS NULL", "depth IS NULL"), ("depth > 1e5", "depth > 1e5"), ("depth > 'a'", "depth > 'a'"),
            ("depth > height", None), ("depth = 12.34", None), ("0.05 <> depth", None), ("depth = id", None), ("depth = given", "depth = given"), ("depth >", "depth >"),
            ("depth > 2 * 3", "depth > 2 * 3"), ("2 * depth > 3", "2 * depth > 3"), ("id - 3 < depth", "id - 3 < depth"), ("depth + 1 > 3", "depth + 1 > 3"),
        ):
            if wanted is None:
                with self.assertRaises(asking.Refused) as met:
                    self.decimals(f"SELECT depth FROM t WHERE {condition}")
                self.assertEqual(met.exception.status, 5)
                continue
            self.assertEqual(self.decimals(f"SELECT depth FROM t WHERE {condition}")[0], f"SELECT depth FROM t WHERE {wanted}")

    def test_decimal_numbers_that_are_refused(self):
        for condition, first in (
            ("depth = ¤12.34", "no depth is 12.34: its numbers have steps of 0.1"),
            ("¤depth < height", "depth counts steps of 0.1, and height others: import both in one call, or by --scale with one step"),
        ):
            text, byte = byte_of(f"SELECT id FROM t WHERE {condition}")
            with self.assertRaises(asking.Refused) as met:
                self.decimals(text)
            said, shown, caret = met.exception.text.splitlines()
            self.assertEqual((said, shown[caret.index("^") :]), (f"sfq-ask: {first}", text.encode()[byte:].decode()))

    def test_notes_about_decimal_numbers(self):
        """Where a number isn't taken as the source has it, a note says so."""
        for condition, wanted in (("depth > 1", []), ("depth > 1 AND height < 2.5", []), ("given > 1", ["given counts steps of 0.1 in a condition"]),
                                  ("2 * depth > 3", ["depth counts steps of 0.1 in a condition"]), ("depth > 2 * 3", ["depth counts steps of 0.1 in a condition"])):
            self.assertEqual(self.decimals(f"SELECT id FROM t WHERE {condition}")[1], wanted, condition)

    def test_a_place_behind_a_number(self):
        """The byte of a fault is that of the query as it was written."""
        query, _ = byte_of("SELECT id FROM t WHERE depth > 12.3 AND nope = 1")
        folder = units.Folder(folder_of(self.room, t={"columns": [column("id", "INTEGER"), column("depth", "INTEGER", step="0.1", is_decimal=True)]}))
        found = constants.Written(query, folder.grid, conditions.Conditions(query, folder).numbers("sfq-ask"))
        self.assertEqual(found.made, "SELECT id FROM t WHERE depth > 123 AND nope = 1")
        self.assertEqual([constants.place(found.pieces, found.made.index(it)) for it in ("depth", "123", "nope")], [query.index(it) for it in ("depth", "12.3", "nope")])

    def test_more_columns_than_sfq_takes(self):
        """By hand: the key, the geometry and 30 others, of which those that the query names take the place of the last."""
        columns = [column("id", "INTEGER"), *(column(f"c{it}", "INTEGER") for it in range(40)), column("geom", "GEOMETRY")]
        path = folder_of(self.room, t={"columns": columns, "key": "id"})
        listed = ", ".join(["id INTEGER PRIMARY KEY", *(f"c{it} INTEGER" for it in range(30)), "geom GEOMETRY"])
        write(f"{path}/schema.sql", f"-- Wells.\nCREATE TABLE t ({listed});\nCREATE TABLE u (id INTEGER PRIMARY KEY, geom POLYGON);\n")
        for query, wanted, said in (
            ("SELECT c3 FROM t WHERE c4 > 1", [*range(30)], []), ("SELECT C35 FROM t x WHERE x.c31 > 1", [*range(28), 31, 35], []), ("SELECT COUNT(*) FROM t", [*range(30)], []),
            ("SELECT * FROM t, u WHERE c39 = 1", [*range(29), 39], ["* leaves out 10 of the 42 columns of t, which show where they are named: c29, c30, c31, c32, c33 .."]),
            ("SELECT id FROM u", [*range(30)], []), (f"SELECT {', '.join(f'c{it}' for it in range(10, 40))} FROM t", [*range(10, 40)], []),
        ):
            folder = units.Folder(path)
            self.assertEqual(folder.choose_columns(query), said, query)
            self.assertEqual([name for name, _ in folder.tables[0].columns], ["id", *(f"c{it}" for it in wanted), "geom"], query)
            self.assertTrue(folder.schema.startswith("-- Wells.\nCREATE TABLE t (") and folder.tables[1].name == "u", folder.schema)
        with self.assertRaises(endings.Stopped) as met:
            units.Folder(path).choose_columns(f"SELECT {', '.join(f'c{it}' for it in range(31))} FROM t")
        self.assertIn("the query names 33 columns of t, with its key and geometries, and sfq takes at most 32", str(met.exception))

    def test_two_reference_systems(self):
        other = {"u": {"coordinate_system": {"authority": "EPSG:4326", "wkt": "EPSG:4326"}}}
        with self.assertRaises(asking.Refused) as met:
            self.conditions("SELECT * FROM t, u WHERE ST_Intersects(t.geom, u.geom)", **other).need_lawful("sfq-ask")
        self.assertIn("t is in EPSG:25832, and u is in EPSG:4326: --to EPSG:N moves all to one system\n", met.exception.text)
        self.conditions("SELECT * FROM t, u WHERE t.id = u.id AND ST_Intersects(t.geom, t.geom)", **other).need_lawful("sfq-ask")
        for system in (None, {"authority": "EPSG:25832", "wkt": "another text"}, {"authority": None, "wkt": "EPSG:25832"}):
            self.conditions("SELECT * FROM t, u WHERE ST_Intersects(t.geom, u.geom)", u={"coordinate_system": system}).need_lawful("sfq-ask")


class Cache(WithRoom):
    """Tables that are kept."""

    def setUp(self):
        super().setUp()
        self.cache = caches.Cache(f"{self.room}/cache")

    def entry(self, text="a"):
        """Returns a folder that was made in a room."""
        path = f"{self.cache.room()}/tables"
        write(f"{path}/t.csv", text)
        return path

    def test_where_it_is(self):
        for known, wanted in (("/x", "/x/sfq/tables"), ("", "~/.cache/sfq/tables"), ("relative", "~/.cache/sfq/tables")):
            with mock.patch.dict(os.environ, {"XDG_CACHE_HOME": known}):
                self.assertEqual(caches.root(), os.path.expanduser(wanted))
        self.assertEqual(stat.S_IMODE(os.stat(self.cache.folder).st_mode), 0o700)

    def test_an_entry(self):
        self.assertIsNone(self.cache.found("n"))
        place = self.cache.keep(self.entry(), "n")
        self.assertEqual((self.cache.found("n"), read(f"{place}/t.csv")), (place, "a"))

    def test_one_that_is_not_as_it_was_made_goes(self):
        def empty(path):
            open(path, "w", encoding="utf-8").close()

        for breaks in (empty, os.remove, lambda path: write(path, "b"), lambda path: os.remove(os.path.dirname(path) + "/sums.json"),
                       lambda path: write(os.path.dirname(path) + "/sums.json", "{}"), lambda path: write(os.path.dirname(path) + "/sums.json", "[1]")):
            place = self.cache.keep(self.entry(), "n")
            breaks(f"{place}/t.csv")
            self.assertIsNone(self.cache.found("n"))
            self.assertFalse(os.path.exists(place))

    def test_of_two_at_once_one_stays(self):
        one, other = self.entry(), self.entry()
        self.assertEqual(self.cache.keep(one, "n"), self.cache.keep(other, "n"))
        self.assertIsNotNone(self.cache.found("n"))
        os.mkdir(f"{self.cache.folder}/m")
        write(f"{self.cache.folder}/m/other", "")
        with self.assertRaises(OSError):
            self.cache.keep(self.entry(), "m")

    def test_what_is_old_goes(self):
        kept, used, old = (self.cache.keep(self.entry(), it) for it in ("kept", "used", "old"))
        left, room = self.cache.room(), self.cache.room()
        for path, days in ((kept, 29), (used, 31), (old, 31), (left, 2), (room, 0.5)):
            os.utime(path, (0, time.time() - days * 86_400))
        self.assertEqual(self.cache.found("used"), used)
        self.cache.clean()
        self.assertEqual([os.path.exists(it) for it in (kept, used, old, left, room)], [True, True, False, False, True])

    def test_sums(self):
        def found(*more):
            return caches.sum_of([f"{self.room}/s/a.shp"], ["said", *more])

        for it in ("a.shp", "a.dbf", "b.shp"):
            write(f"{self.room}/s/{it}", it)
        first = found()
        self.assertEqual(first, found())
        self.assertNotEqual(first, found("more"))
        write(f"{self.room}/s/b.shp", "other")
        self.assertEqual(first, found())
        sums = {first}
        for name, text in (("a.dbf", "other"), ("a.prj", ""), ("a.shp-wal", "x"), ("a.shp", "other")):
            write(f"{self.room}/s/{name}", text)
            self.assertNotIn(found(), sums)
            sums.add(found())
        shutil.copytree(f"{self.room}/s", f"{self.room}/copy")
        self.assertEqual(found(), caches.sum_of([f"{self.room}/copy/a.shp"], ["said"]))
        self.assertNotEqual(caches.sum_of([f"{self.room}/s"], 1), caches.sum_of([f"{self.room}/s", f"{self.room}/s"], 1))
        self.assertIsNone(caches.sum_of([f"{self.room}/s/a.shp", "PG:dbname=x"], 1))


@over_library
class Kept(WithRoom):
    """The tables of sources, over a stand-in for the import, which copies a folder that was imported."""

    def setUp(self):
        super().setUp()
        self.source, self.count = f"{self.room}/t.shp", 0
        write(self.source, "a")
        folder_of(self.room)
        self.enter = contextlib.ExitStack()
        self.addCleanup(self.enter.close)
        self.enter.enter_context(mock.patch.object(imports, "import_sources", side_effect=self.imported))
        self.enter.enter_context(mock.patch.object(ask, "is_of_its_files", return_value=True))
        self.enter.enter_context(mock.patch.dict(os.environ, {"XDG_CACHE_HOME": f"{self.room}/cache"}))
        self.meanwhile = lambda path: None

    def imported(self, sources, path, options, name, say):
        self.count += 1
        shutil.copytree(f"{self.room}/folder", path)
        write(f"{path}/t.csv", read(f"{path}/t.csv") + f"9,{read(sources[0])},,,\n")
        self.meanwhile(path)

    def made(self, *words):
        """Returns the folder of the tables as the command makes it, whether it is kept, and what was said."""
        options = ask.parsed([self.source, *words, "SELECT id FROM t"])
        said = io.StringIO()
        with contextlib.redirect_stderr(said):
            place = ask.place_of(options)
            try:
                folder, is_kept = ask.tables(options, place)
            finally:
                shutil.rmtree(place.room, ignore_errors=True)
        return folder.path, is_kept, said.getvalue()

    def entries(self):
        return os.listdir(f"{self.room}/cache/sfq/tables")

    def test_they_are_made_once(self):
        path, is_kept, said = self.made()
        self.assertEqual((is_kept, said), (True, f"sfq-ask: the tables are kept in {path}\n"))
        self.assertEqual(self.made(), (path, True, f"sfq-ask: --grid 0.5 --origin 100,-50; the tables are in {path}, and what was said of them in its report.txt\n"))
        self.assertEqual(read(f"{path}/report.txt"), "")
        self.assertEqual((self.count, self.entries()), (1, [os.path.basename(path)]))

    def test_other_options_and_other_sources_have_others(self):
        paths = {self.made(*words)[0] for words in ([], ["--grid", "0.5"], ["--grid", "0.5", "--origin", "-1,1"], ["--layer", "t"], ["--part"], ["--to", "EPSG:4326"])}
        write(self.source, "b")
        path = self.made()[0]
        self.assertIn("9,b", read(f"{path}/t.csv"))
        write(f"{self.room}/t.prj", "")
        with mock.patch.dict(os.environ, {"OGR_GEOJSON_MAX_OBJ_SIZE": "1"}):
            paths |= {path, self.made()[0]}
        self.assertEqual(len({*paths, self.made()[0]}), 9)
        write(self.source, "a")
        os.remove(f"{self.room}/t.prj")
        self.assertIn("the tables are in", self.made()[2])

    def test_a_source_that_changes_while_it_is_read(self):
        self.meanwhile = lambda path: write(self.source, "b")
        for words in ([], ["--no-cache"]):
            write(self.source, "a")
            with self.assertRaises(endings.Stopped) as met:
                self.made(*words)
            self.assertEqual((str(met.exception), met.exception.status), ("a source changed while it was read: ask again", 6))
        self.assertEqual(self.entries(), [])

    def test_an_import_that_fails(self):
        def full(path):
            raise OSError(28, "No space left on device")

        self.meanwhile = full
        with self.assertRaises(OSError):
            self.made()
        self.assertEqual(self.entries(), [])

    def test_one_that_another_run_made_meanwhile(self):
        def other(path):
            self.meanwhile = lambda path: None
            self.other = self.made()[0]

        self.meanwhile = other
        self.assertEqual(self.made()[:2], (self.other, True))
        self.assertEqual(len(self.entries()), 1)

    def test_a_damaged_one_is_made_anew(self):
        path = self.made()[0]
        with open(f"{path}/t.csv", "r+", encoding="utf-8") as file:
            file.truncate(20)
        self.assertEqual(self.made()[2], f"sfq-ask: the tables are kept in {path}\n")
        self.assertIn("9,a", read(f"{path}/t.csv"))

    def test_not_kept(self):
        self.assertEqual(self.made("--no-cache")[1:], (False, ""))
        self.assertFalse(os.path.exists(f"{self.room}/cache"))
        with mock.patch.dict(os.environ, {"XDG_CACHE_HOME": "/proc/nothing"}):
            path, is_kept, said = self.made()
        self.assertFalse(is_kept or path.startswith("/proc"))
        self.assertRegex(said, r"\Asfq-ask: the tables aren't kept: /proc/nothing.*\n\Z")
        with mock.patch.object(ask, "is_of_its_files", return_value=False):
            self.assertEqual(self.made()[1:], (False, "sfq-ask: the tables aren't kept: a source isn't made of files alone\n"))
        self.assertEqual(self.entries(), [])

    def test_what_was_left_out_is_said_each_time(self):
        write(f"{self.room}/folder/left-out.csv", "layer,record,fid,reason,done,table\nt,1,1,V1 0,left out,t\nt,2,2,V3 0,mended,t\nt,3,3,V3 0,mended,t\n")
        path = self.made()[0]
        self.assertEqual(self.made()[2].splitlines()[1:], [f"sfq-ask: t: 2 mended: {path}/left-out.csv says why"])
        folder = units.Folder(path)
        self.assertEqual(list(left_out.notes(folder, folder.layers.values())), [f"t: 1 record is left out: fid 1; {path}/left-out.csv says why"])

    def test_envelopes_of_a_table(self):
        """Points at the ends of plain lines are found at once; each other row is a record of CSV."""
        points = ["1,a,POINT(1 2)", "2,,POINT(-3 4)", '3,b POINT(9 9),POINT(-10000000 10000000)']
        others = ['4,"x\ny,POINT(7 7)\n",POINT(5 6)', "5,c,", "6,d,POINT EMPTY", '7,e,"POLYGON((0 0,4 0,4 -4,0 0))"', '8,"POINT(8 8)\r\n",', "9,,POINT(0 0)"]
        plain, mixed = [(1, 2, 1, 2), (-3, 4, -3, 4), (-10_000_000, 10_000_000, -10_000_000, 10_000_000)], [(5, 6, 5, 6), (0, -4, 4, 0), (0, 0, 0, 0)]
        said = {"table": "t", "rows": 0, "records": 0, "left_out": 0, "coordinate_system": None, "columns": [
            {"name": "id", "type": "INTEGER"}, {"name": "name", "type": "TEXT"}, {"name": "geom", "type": "GEOMETRY"}]}
        folder, layer = mock.Mock(path=self.room), units.layer_of(said)
        for lines, wanted in ((points, plain), ([*points, *others], [*plain, *mixed]), ([*others, *points], [*mixed, *plain]), ([], [])):
            for end, behind, at_once in ((end, behind, at_once) for end in ("\n", "\r\n") for behind in (end, "") for at_once in (1, 30, 1 << 20)):
                with open(f"{self.room}/t.csv", "wb") as file:
                    file.write((end.join(["id,name,geom", *lines]) + behind).encode())
                with mock.patch.object(left_out, "AT_ONCE", at_once):
                    self.assertEqual(list(left_out.boxes(folder, layer)), wanted)

    def test_too_few_records(self):
        folder_of(self.room, t={"records": 6, "left_out": 2})
        self.assertEqual(self.made()[1], True)
        with self.assertRaises(endings.Stopped) as met:
            self.made("--strict")
        self.assertEqual((str(met.exception), met.exception.status), ("2 of 7 records were left out", 4))
        none = {"rows": 0, "left_out": 1, "records": 1}
        folder_of(self.room, t=none, u=none)
        write(self.source, "b")
        with self.assertRaises(endings.Stopped) as met:
            self.made()
        self.assertEqual((str(met.exception), met.exception.status), ("no record was kept; --allow-empty takes that", 4))
        self.assertTrue(self.made("--allow-empty")[1])


ALL = "SELECT * FROM t"
CONSTANT = "SELECT id FROM t WHERE ST_Within(geom, ST_GeomFromText('POINT(101.5 -53.5)'))"
WRONG = "SELECT id FROM t WHERE ST_Within(geom, ST_GeomFromText('POINT(101.5 -53.5)')) SORTED BY id"
COUNTED, PLANNED, SEVERAL = "SELECT COUNT(*) FROM t", "EXPLAIN SELECT id FROM t", "SELECT a.geom, b.id, b.geom FROM t a, u b"
MANY, OTHER = "SELECT id FROM t, u", "SELECT id FROM u"
# What the stand-in for the program has: queries as sfq gets them, on the grid.
KNOWN = {
    ALL: (TABLES["t.csv"], "", 0), CONSTANT.replace("101.5 -53.5", "3 -7"): ("id\n1\n", "", 0), COUNTED: ("COUNT(*)\n4\n", "", 0), PLANNED: ("cost 4\nouter t scan\n", "", 0),
    WRONG.replace("101.5 -53.5", "3 -7"): ("", f"sfq: Q2 at {WRONG.replace('101.5 -53.5', '3 -7').index('BY')}\n  1 | SELECT .. ORDER BY id\n    |   ^\nsfq: ORDER BY isn't there: rows come in the order of the key; sort the output\n", 5),
    SEVERAL: ('a.geom,b.id,b.geom\nPOINT(3 -7),7,"POLYGON((2 2,8 2,8 8,2 8,2 2))"\n,7,\n', "", 0), MANY: ("id\n" + "1\n" * 40_000, "", 0), OTHER: ("id\n7\n", "", 0),
}
SHOWN = [
    ["1", "a", "12.5", "0.25", "POINT(101.5 -53.5)"], ["2", "b,c", "-0.5", "1e-7", "POLYGON((100.0 -50.0,102.0 -50.0,102.0 -48.0,100.0 -48.0,100.0 -50.0))"],
    ["3", "", "", "", ""], ["4", "d", "0.0", "7", "POINT EMPTY"],
]


class WithProgram(WithRoom):
    """Over a stand-in for the program, and a folder that was imported."""

    def setUp(self):
        super().setUp()
        self.program = Program(KNOWN)
        self.addCleanup(self.program.remove)
        self.folder = folder_of(self.room)

    def words(self, *words, python=sys.executable):
        return [*over_program(python, f"{self.program.room}/sfq", "sfq-ask"), *words]

    def environment(self):
        return {**os.environ, "XDG_CACHE_HOME": f"{self.room}/cache", "PYTHONDONTWRITEBYTECODE": "1"}

    def run_words(self, *words, **how):
        """Runs the command, and returns what it wrote and its status."""
        python = how.pop("python", sys.executable)
        how = {"stdin": subprocess.DEVNULL, **how} if "input" not in how else how
        ran = subprocess.run(self.words(*words, python=python), env=self.environment(), cwd=self.room, text=True, stdout=subprocess.PIPE, stderr=subprocess.PIPE, timeout=300, **how)
        return ran.stdout, ran.stderr, ran.returncode


class Blocks(unittest.TestCase):
    """Rows that are there at once."""

    def test_columns_are_those_of_the_rows(self):
        plain, quoted = "1,a,POINT(1 2)\n2,,\n,é,POINT EMPTY\n", '1,a,"POLYGON((0 0,1 0,1 1,0 0))"\n2,"x\r\n,""y""",\n'
        for records, number, wanted in (
            (plain, 3, [["1", "a", "POINT(1 2)"], ["2", "", ""], ["", "é", "POINT EMPTY"]]), ("\n", 1, [[""]]), ("\n\na\n", 3, [[""], [""], ["a"]]), ("1,\n", 1, [["1", ""]]),
            (quoted, 2, [["1", "a", "POLYGON((0 0,1 0,1 1,0 0))"], ["2", 'x\r\n,"y"', ""]]), (plain + quoted, 5, None),
        ):
            for it in (asking.Block(number, len(records), [], records), asking.Block(number, len(records), list(csv.reader(io.StringIO(records, newline=""))))):
                if records[0] == "\n" and it.records is None:
                    continue
                self.assertEqual(list(map(list, zip(*it.columns(len(it.rows[0]))))), it.rows)
                self.assertEqual((len(it.rows), it.rows), (number, wanted or it.rows))

    def test_rows_come_in_blocks_that_take_little_memory(self):
        rows = [[str(at), "x" * size] for at, size in enumerate([1] * 600 + [200_000] * 5)]
        blocks = list(asking.blocks_of(iter(rows)))
        self.assertEqual([row for it in blocks for row in it.rows], rows)
        self.assertEqual([it.number for it in blocks], [256, 256, 90, 2, 1])
        self.assertEqual([row for it in blocks for row in zip(*it.columns(2))], list(map(tuple, rows)))
        answer = asking.Answer(["a"], ["TEXT"], iter([["x"]]), False)
        self.assertEqual([it.rows for it in answer.blocks()], [[["x"]]])


@over_library
class Outputs(WithProgram):
    """Each format is read again."""

    def asked(self, mode, query, *more):
        out, err, status = self.run_words(self.folder, query, "--out", mode, *more)
        self.assertEqual((err, status), ("", 0))
        return out

    def test_csv(self):
        rows = list(csv.reader(io.StringIO(self.asked("csv", ALL), newline="")))
        self.assertEqual(rows, [["id", "name", "depth", "real", "geom"], *SHOWN])
        self.assertEqual(self.run_words(self.folder, ALL), (self.asked("csv", ALL), "", 0))

    def test_table(self):
        text = self.asked("table", ALL)
        self.assertEqual([re.split(r"  +", it.strip()) for it in text.splitlines()[2:4]], SHOWN[:2])
        self.assertEqual(text.splitlines()[-1], "(4 rows)")

    def test_json(self):
        found = json.loads(self.asked("json", ALL))
        self.assertEqual(found[0], {"id": 1, "name": "a", "depth": 12.5, "real": 0.25, "geom": "POINT(101.5 -53.5)"})
        self.assertEqual(found[2], {"id": 3, "name": None, "depth": None, "real": None, "geom": None})

    def test_geojson(self):
        found = json.loads(self.asked("geojson", ALL))
        self.assertEqual(found["crs"]["properties"]["name"], "urn:ogc:def:crs:EPSG::25832")
        self.assertEqual([it["geometry"] for it in found["features"]], [
            {"type": "Point", "coordinates": [101.5, -53.5]}, {"type": "Polygon", "coordinates": [[[100, -50], [102, -50], [102, -48], [100, -48], [100, -50]]]}, None,
            {"type": "Point", "coordinates": []}])
        self.assertEqual(found["features"][1]["properties"], {"id": 2, "name": "b,c", "depth": -0.5, "real": 1e-7})
        self.assertEqual(json.loads(self.asked("geojson", SEVERAL))["features"][0]["properties"], {"b.id": 7, "b.geom": "POLYGON((101.0 -49.0,104.0 -49.0,104.0 -46.0,101.0 -46.0,101.0 -49.0))"})

    def test_svg(self):
        found = tree.fromstring(self.asked("svg", ALL))
        self.assertEqual(len(found.findall(".//*[@class='row']")), 2)
        self.assertIn("x from 100.0 to 102.0, y from -53.5 to -48.0", "".join(found.itertext()))

    @unittest.skipUnless(PYTHON, "needs the package python3-gdal")
    def test_geopackage(self):
        for it in ("a.gpkg", "b.gpkg"):
            self.assertEqual(self.run_words(self.folder, ALL, "--output", it, python=PYTHON), ("", "", 0))
        with open(f"{self.room}/a.gpkg", "rb") as one, open(f"{self.room}/b.gpkg", "rb") as other:
            self.assertEqual(one.read(), other.read())
        script = (
            "import json, sys\nfrom osgeo import ogr\nsource = ogr.Open(sys.argv[1])\nlayer = source.GetLayer(0)\n"
            "print(json.dumps([layer.GetName(), layer.GetSpatialRef().GetAuthorityCode(None), [[it.GetField(at) for at in range(it.GetFieldCount())] "
            "+ [it.GetGeometryRef() and it.GetGeometryRef().ExportToWkt()] for it in layer]]))\n"
        )
        found = json.loads(subprocess.run([PYTHON, "-c", script, f"{self.room}/a.gpkg"], capture_output=True, text=True, check=True).stdout)
        self.assertEqual(found, ["answer", "25832", [
            [1, "a", 12.5, 0.25, "POINT (101.5 -53.5)"], [2, "b,c", -0.5, 1e-7, "POLYGON ((100 -50,102 -50,102 -48,100 -48,100 -50))"], [3, None, None, None, None],
            [4, "d", 0.0, 7.0, "POINT EMPTY"]]])
        self.assertEqual(sorted(it for it in os.listdir(self.room) if "gpkg" in it), ["a.gpkg", "b.gpkg"])

    def test_plans_and_counts(self):
        for mode in ("csv", "table", "geojson"):
            self.assertEqual(self.asked(mode, PLANNED), "cost 4\nouter t scan\n")
        self.assertEqual(json.loads(self.asked("json", PLANNED)), [{"plan": "cost 4"}, {"plan": "outer t scan"}])
        self.assertEqual(self.asked("csv", COUNTED), "COUNT(*)\n4\n")
        for words, said in (([PLANNED, "--out", "svg"], "--out svg: a plan has no geometries"), ([COUNTED, "--out", "geojson"], "no column of the answer is a geometry: select one (there are COUNT(*))")):
            self.assertEqual(self.run_words(self.folder, *words), ("", f"sfq-ask: {said}\n", 2))

    def test_a_file_is_there_as_a_whole_or_not_at_all(self):
        self.assertEqual(self.run_words(self.folder, ALL, "--output", "a.json"), ("", "", 0))
        self.assertEqual(len(json.loads(read(f"{self.room}/a.json"))), 4)
        self.assertEqual(self.run_words(self.folder, WRONG, "--output", "a.json")[2], 5)
        self.assertEqual(len(json.loads(read(f"{self.room}/a.json"))), 4)
        self.assertEqual(self.run_words(self.folder, ALL, "--output", "a.json", "--out", "csv"), ("", "", 0))
        self.assertTrue(read(f"{self.room}/a.json").startswith("id,name"))
        few = {"preexec_fn": lambda: resource.setrlimit(resource.RLIMIT_FSIZE, (50_000, 50_000))}
        modes = [("csv", sys.executable), *([("gpkg", PYTHON)] if PYTHON else [])]
        for mode, python in modes:
            out, err, status = self.run_words(self.folder, MANY, "--output", f"b.{mode}", "--out", mode, python=python, **few)
            self.assertEqual((out, status), ("", 6))
            self.assertRegex(err, rf"\Asfq-ask: b\.{mode}: .*\n\Z")
        self.assertEqual([it for it in os.listdir(self.room) if it.startswith("b.")], [])
        self.assertEqual(self.run_words(self.folder, ALL, "--output", "/nothing/a.csv")[1:], ("sfq-ask: /nothing/a.csv: No such file or directory\n", 6))


@over_library
class Asking(WithProgram):
    """What is asked, and what is refused."""

    def test_constants(self):
        self.assertEqual(self.run_words(self.folder, CONSTANT), ("id\n1\n", "", 0))
        out, err, status = self.run_words(self.folder, CONSTANT.replace("101.5", "101.6"))
        self.assertEqual((out, status), ("", 5))
        self.assertIn("sfq-ask: 101.6 isn't on the grid, which has steps of 0.5 from 100 -50\n", err)
        self.assertIn("sfq-ask: the nearest constant that is: ST_GeomFromText('POINT(101.5 -53.5)')\n", err)

    def test_a_fault_has_its_place_in_what_was_written(self):
        out, err, status = self.run_words(self.folder, WRONG)
        at = WRONG.index("BY")
        self.assertEqual((out, status), ("", 5))
        self.assertEqual(err, f"sfq: Q2 at {at}\n  1 | {WRONG}\n    | {' ' * at}^\nsfq: ORDER BY isn't there: rows come in the order of the key; sort the output\n")

    def test_queries_in_files(self):
        write(f"{self.room}/q.sql", CONSTANT + "\n")
        self.assertEqual(self.run_words(self.folder, "@q.sql"), ("id\n1\n", "", 0))
        self.assertEqual(self.run_words(self.folder, "@-", input=CONSTANT), ("id\n1\n", "", 0))
        self.assertEqual(self.run_words(self.folder, "@none.sql"), ("", "sfq-ask: none.sql: No such file or directory\n", 6))

    def test_more_rows_than_a_run_takes(self):
        folder_of(self.room, t={"rows": 100_001})
        out, err, status = self.run_words(self.folder, CONSTANT.replace("t WHERE", "t, u WHERE"))
        self.assertEqual((out, status), ("", 4))
        self.assertIn("t has 100,001 rows, and one run of sfq takes at most 100,000. sfq-scale takes more", err)
        self.assertIn(f"sfq-scale run {self.folder}/schema.sql {self.folder} 'SELECT id FROM t, u WHERE ST_Within(geom, ST_GeomFromText('\"'\"'POINT(3 -7)'\"'\"'))'", err)
        self.assertEqual(self.run_words(self.folder, OTHER), ("id\n7\n", "", 0))

    def test_misuse(self):
        for words, said in (
            ([ALL], "name a folder or a source, and behind it the query"), (["x.shp", self.folder], "name a folder or a source, and behind it the query"),
            ([self.folder, ALL, "--output", self.folder], f"--output {self.folder} is a source"), ([self.folder, self.folder, ALL], "a folder that sfq-import made is asked alone: sfq-import SOURCE --out FOLDER adds tables to it"),
            ([self.folder, ALL, "--grid", "1"], f"{self.folder} is imported, so it takes no option of an import"), ([self.folder, ALL, "--out", "gpkg"], "--out gpkg is written into a file: name it by --output FILE.gpkg"),
            ([self.folder, ALL, "--out", "xml"], "argument --out: invalid choice: 'xml'"), (["x.shp", ALL, "--grid", "x"], "'x' isn't a decimal number"),
        ):
            out, err, status = self.run_words(*words)
            self.assertEqual((out, status), ("", 2), words)
            self.assertIn(said, err)

    def test_a_folder_that_was_changed_by_hand(self):
        for text in ("{}", "[", grid_json().replace('"rows"', '"lines"'), grid_json().replace('"table"', '"tables"'), grid_json().replace("0.5", "x")):
            write(f"{self.folder}/grid.json", text)
            out, err, status = self.run_words(self.folder, ALL)
            self.assertEqual((out, status), ("", 4))
            self.assertIn("grid.json isn't one that sfq-import made", err)

    def test_no_library(self):
        """One line names the command that builds it, also where a program is on the path."""
        known = {**self.environment(), "SFQ_LIBRARY": "/nowhere/libsfq.so.0", "PATH": f"{self.program.room}:/usr/bin:/bin"}
        ran = subprocess.run([*python_command(sys.executable, "sfq-ask"), self.folder, ALL], capture_output=True, text=True, env=known)
        self.assertEqual((ran.stdout, ran.returncode, ran.stderr.count("\n")), ("", 1, 1), ran.stderr)
        self.assertIn(f"sfq-ask: no libsfq_tables.so.0: build it by `{ROOT}/build --library`, or set SFQ_LIBRARY", ran.stderr)
        self.assertEqual(self.program.asked(), [])


@over_library
class Endings(WithProgram):
    """Closed pipes, full outputs and Ctrl-C."""

    def test_a_pipe_that_is_closed(self):
        text = " ".join(f"'{it}'" for it in self.words(self.folder, MANY))
        ran = subprocess.run(["bash", "-c", f"set -o pipefail; {text} | head -1"], cwd=self.room, env=self.environment(), capture_output=True, text=True)
        self.assertEqual((ran.returncode, ran.stdout, ran.stderr), (6, "id\n", "sfq-ask: write failed\n"))

    def test_an_output_that_is_full(self):
        with open("/dev/full", "w", encoding="utf-8") as full:
            ran = subprocess.run(self.words(self.folder, ALL), stdout=full, stderr=subprocess.PIPE, env=self.environment())
        self.assertEqual((ran.returncode, ran.stderr), (6, b"sfq-ask: write failed\n"))

    def begun(self, *words, python=sys.executable):
        begun = subprocess.Popen(self.words(*words, python=python), stdout=subprocess.PIPE, stderr=subprocess.PIPE, env=self.environment(), cwd=self.room, start_new_session=True, text=True)
        self.addCleanup(begun.stdout.close)
        self.addCleanup(begun.stderr.close)
        return begun

    def interrupted(self, begun):
        """Ends it as Ctrl-C does, and returns how long that took."""
        since = time.monotonic()
        os.killpg(begun.pid, signal.SIGINT)
        begun.wait(timeout=60)
        took = time.monotonic() - since
        self.assertEqual((begun.stderr.read(), begun.returncode), ("sfq-ask: interrupted\n", 130))
        return took

    def test_ctrl_c_in_a_query(self):
        begun = self.begun(self.folder, "SELECT slow FROM t", "--output", "a.csv")
        number = self.program.waits()
        self.assertLess(self.interrupted(begun), 2)
        with self.assertRaises(ProcessLookupError):
            os.kill(number, 0)
        self.assertEqual(sorted(os.listdir(self.room)), ["folder"])

    @unittest.skipUnless(PYTHON, "needs the package python3-gdal")
    def test_ctrl_c_in_a_call_of_c(self):
        """GDAL waits for a pipe that nobody writes into, and Python sees no signal meanwhile."""
        os.mkfifo(f"{self.room}/slow.geojson")
        begun = self.begun(f"{self.room}/slow.geojson", ALL, python=PYTHON)
        due = time.monotonic() + 60
        while not children(begun.pid) and time.monotonic() < due:
            time.sleep(0.05)
        time.sleep(1)
        self.assertLess(self.interrupted(begun), 2)
        self.assertEqual(os.listdir(f"{self.room}/cache/sfq/tables"), [])


def children(number):
    """Returns the numbers of a process's children."""
    with open(f"/proc/{number}/task/{number}/children", encoding="ascii") as file:
        return file.read().split()


class OverTheLibrary(databases.WithTables):
    """Over the library, with places of its own."""

    def setUp(self):
        self.room = tempfile.mkdtemp(prefix="sfq-ask-")
        self.addCleanup(shutil.rmtree, self.room, True)

    def run_words(self, *words, python=sys.executable, cache="cache"):
        """Runs the command, and returns what it wrote and its status."""
        known = {**os.environ, "XDG_CACHE_HOME": f"{self.room}/{cache}", "SFQ_LIBRARY": library.SHARED, "PYTHONDONTWRITEBYTECODE": "1"}
        ran = subprocess.run([*python_command(python, "sfq-ask"), *words], env=known, cwd=self.room, capture_output=True, text=True, timeout=300)
        return ran.stdout, ran.stderr, ran.returncode


class Faults(OverTheLibrary):
    """Each code of a query and of a geometry in one has its place in what the user wrote."""

    def fault(self, query):
        """Returns the lines of a query's fault, asked as the command does."""
        folder = units.Folder(self.folder)
        written = constants.Written(query, folder.grid)
        written.need_on_grid("sfq-ask")
        asker = asking.Asker("sfq-ask", [folder.schema_file, folder.path], folder.schema)
        with self.assertRaises(asking.Refused) as met:
            asker.ask(written.made)
        self.assertEqual(met.exception.status, 5)
        return written.refused(met.exception, "sfq-ask").text

    def setUp(self):
        super().setUp()
        self.folder = folder_of(self.room)

    def test_codes_of_queries(self):
        for code, marked in FAULTS:
            query, at = byte_of(marked)
            text = self.fault(query)
            shown = f"sfq: {code} at {at}\n{asking.placed(asking.encoded(query), at)}sfq: "
            self.assertEqual(text[: len(shown)], shown)
            self.assertEqual(text.count("\n"), 4, text)
        self.assertEqual(len({code for code, _ in FAULTS}), 10)
        self.assertTrue(self.fault(f"SELECT id FROM t WHERE name = '{'x' * 65_536}'").startswith("sfq: Q11\n"))

    def test_codes_of_geometries(self):
        for code, marked in OF_TEXTS:
            text, at = byte_of(marked)
            query = f"SELECT id FROM t WHERE name = 'é' AND ST_Within(geom, ST_GeomFromText('{text}'))"
            if len(query.encode()) > 65_536:
                # Of W4 the text is longer than a query may be, but not the one that sfq gets.
                self.assertLess(len(made(query).encode()), 65_536)
            quote = len(query.partition("ST_GeomFromText(")[0].encode()) + len("ST_GeomFromText(")
            place = f" at {at}" if code in ("W1", "W3") else ""
            first, _, more = self.fault(query).partition("\n")
            self.assertEqual(first, f"sfq: Q8 at {quote} {code}{place}", text[:80])
            shown = f"{asking.placed(asking.encoded(query), quote)}sfq: {errors.MEANINGS['Q8']}: {MEANINGS[code[:2]]}\n"
            behind = {"W3": "the grid reaches from -4999900.0 -5000050.0 to 5000100.0 4999950.0", **PLACES}.get(code, "")
            self.assertEqual(more, shown + (f"sfq-ask: {behind}\n" if behind else ""))
        self.assertEqual({code[:2] for code, _ in OF_TEXTS}, {*MEANINGS} - {"W2"})


GEOS = """
import csv, json, sys
import shapely
from shapely import wkt
csv.field_size_limit(sys.maxsize)
def read(folder, table, key, geom):
    with open(f"{folder}/{table}.csv", newline="") as file:
        return [wkt.loads(it[geom]) for it in csv.DictReader(file) if it[geom]]
folder, one, other = sys.argv[1], sys.argv[2].split(","), sys.argv[3].split(",")
first, second, counts = read(folder, *one), read(folder, *other), {}
names = ("intersects", "touches", "crosses", "within", "contains", "overlaps", "equals")
counts = dict.fromkeys(names, 0)
boxes = [it.bounds for it in second]
for a in first:
    if a.is_empty:
        continue
    left, low, right, high = a.bounds
    for b, box in zip(second, boxes):
        if box and left <= box[2] and box[0] <= right and low <= box[3] and box[1] <= high:
            for name in names:
                counts[name] += bool(getattr(a, name)(b))
print(json.dumps({**counts, "disjoint": len(first) * len(second) - counts["intersects"]}))
"""


def layer(package, path):
    """Returns the path of a layer of a package of R, or of geopandas."""
    return f"/usr/lib/python3/dist-packages/geopandas/datasets/{path}" if package == "geopandas" else f"/usr/lib/R/site-library/{package}/{path}"


@unittest.skipUnless(PYTHON and SHAPELY, "needs the packages python3-gdal and python3-shapely")
class OverLayers(OverTheLibrary):
    """Over layers that others made."""

    def need(self, *paths):
        for package, path in paths:
            if not os.path.exists(layer(package, path)):
                name = {"sf": "r-cran-sf", "spData": "r-cran-spdata", "geopandas": "python3-geopandas"}[package]
                self.skipTest(f"needs the package {name}")
        return [layer(*it) for it in paths]

    def agree(self, first, second, *sources, predicates=("Touches", "Within", "Disjoint")):
        """Has the counts of predicates over two tables be those of GEOS, the tables being made by the first call and kept."""
        count = f"SELECT COUNT(*) FROM {first} a JOIN {second} b ON ST_%s(a.geom, b.geom)"
        found, counts = "", {}
        out, err, status = self.run_words(*sources, count % "Intersects", "--lenient", python=PYTHON)
        self.assertEqual(status, 0, err)
        counts["intersects"] = int(out.split()[1])
        found = re.search(r"the tables are kept in (.*)\n", err)[1]
        tables = json.loads(read(f"{found}/grid.json"))["layers"]
        places = {it["table"]: f"{it['table']},{it['key']},{it['columns'][-1]['name']}" for it in tables}
        ran = subprocess.run([SHAPELY, "-c", GEOS, found, places[first], places[second]], capture_output=True, text=True, check=True)
        wanted = json.loads(ran.stdout)
        self.assertTrue(wanted["intersects"])
        for it in predicates:
            out, err, status = self.run_words(found, count % it, "--lenient")
            self.assertEqual(status, 0, err)
            counts[it.lower()] = int(out.split()[1])
        self.assertEqual(counts, {it: wanted[it] for it in counts})
        return found


class Layers(OverLayers):
    """Counts and relations are those of GEOS over the same rounded shapes."""

    def test_counties(self):
        source, = self.need(("sf", "shape/nc.shp"))
        folder = self.agree("nc", "nc", source, "--invalid", "leave-out")
        out, err, status = self.run_words(source, "--lenient", "--invalid", "leave-out", "SELECT b.NAME FROM nc a JOIN nc b ON ST_Touches(a.geom, b.geom) WHERE a.NAME = 'Ashe'", python=PYTHON)
        self.assertEqual((out.splitlines(), status), (["b.NAME", "Alleghany", "Wilkes", "Watauga"], 0))
        self.assertIn(f"the tables are in {folder}, and what was said of them in its report.txt\n", err)
        self.assertRegex(err, f"note: nc: 2 records are left out: the largest fid .*; {folder}/left-out.csv says why\n")
        self.assertIn("nc: 98 of 100 records in nc.csv; ", read(f"{folder}/report.txt"))

    def test_cities_in_countries_of_another_source(self):
        countries, cities = self.need(("spData", "shapes/world.gpkg"), ("geopandas", "naturalearth_cities/naturalearth_cities.shp"))
        folder = self.agree("naturalearth_cities", "world", cities, countries)
        out, err, status = self.run_words(cities, countries, "--lenient", "SELECT c.name, w.name_long, c.geom FROM naturalearth_cities c JOIN world w ON ST_Within(c.geom, w.geom) WHERE w.continent = 'Oceania'",
                                          "--out", "geojson", python=PYTHON)
        self.assertEqual(status, 0, err)
        found = {it["properties"]["c.name"]: it for it in json.loads(out)["features"]}
        self.assertEqual(found["Canberra"]["properties"]["w.name_long"], "Australia")
        x, y = found["Canberra"]["geometry"]["coordinates"]
        constant = f"SELECT name_long FROM world WHERE ST_Contains(geom, ST_GeomFromText('POINT({x} {y})'))"
        out, err, status = self.run_words(folder, constant)
        self.assertEqual((out, status), ("name_long\nAustralia\n", 0))
        self.assertIn("note: 1 record of world is in 2 parts, each a row: ", err)

    def test_two_reference_systems(self):
        one, other = self.need(("spData", "shapes/world.gpkg"), ("spData", "shapes/boston_tracts.shp"))
        query = "SELECT COUNT(*) FROM world w JOIN boston_tracts b ON ST_Contains(w.geom, b.geom) WHERE w.name_long = 'United States'"
        out, err, status = self.run_words(one, other, query, python=PYTHON)
        self.assertEqual((out, status), ("", 2))
        self.assertIn("EPSG:4326", err)
        self.assertIn("--to EPSG:N", err)
        out, err, status = self.run_words(one, other, query, "--to", "EPSG:4326", "--lenient", python=PYTHON)
        self.assertEqual(status, 0, err)
        self.assertGreater(int(out.split()[1]), 200)


class MoreLayers(OverLayers):
    """The same of further layers."""

    IS_LONG = True
    # Where each is, and what else the call says.
    OTHERS = [
        ("sf", "shape/olinda1.shp", []), ("sf", "shape/storms_xyz_feature.shp", ["--flat"]), ("sf", "gpkg/buildings.gpkg", []), ("spData", "shapes/boston_tracts.shp", []),
        ("spData", "shapes/NY8_utm18.shp", []), ("spData", "shapes/wheat.shp", []), ("geopandas", "naturalearth_lowres/naturalearth_lowres.shp", []),
    ]

    def test_layers(self):
        for package, path, more in self.OTHERS:
            name = os.path.splitext(os.path.basename(path))[0]
            with self.subTest(layer=name):
                self.agree(name, name, *self.need((package, path)), *more, predicates=("Touches", "Crosses", "Within", "Contains", "Overlaps", "Equals", "Disjoint"))


class Hostile(OverTheLibrary):
    """Two runs at once, and one that is broken off."""

    QUERY = "SELECT COUNT(*) FROM nc a JOIN nc b ON ST_Intersects(a.geom, b.geom)"

    def setUp(self):
        super().setUp()
        if not PYTHON:
            self.skipTest("needs the package python3-gdal")
        self.source = layer("sf", "shape/nc.shp")
        if not os.path.exists(self.source):
            self.skipTest("needs the package r-cran-sf")

    def begun(self):
        known = {**os.environ, "XDG_CACHE_HOME": f"{self.room}/cache", "SFQ_LIBRARY": library.SHARED, "PYTHONDONTWRITEBYTECODE": "1"}
        return subprocess.Popen([*python_command(PYTHON, "sfq-ask"), self.source, self.QUERY, "--lenient"], env=known, stdout=subprocess.PIPE, stderr=subprocess.PIPE, text=True)

    def entries(self):
        folder = f"{self.room}/cache/sfq/tables"
        return os.listdir(folder) if os.path.isdir(folder) else []

    def test_two_runs_at_once(self):
        runs = [self.begun() for _ in range(3)]
        found = [(*it.communicate(timeout=300), it.returncode) for it in runs]
        self.assertEqual({(out, status) for out, _, status in found}, {(found[0][0], 0)}, found)
        self.assertGreater(int(found[0][0].split()[1]), 300)
        self.assertEqual(len(self.entries()), 1)

    def test_one_that_is_broken_off(self):
        """At some moment of each: what is left is no entry, and the next run has its answer."""
        for wait in (0.2, 0.5, 0.8):
            broken = self.begun()
            time.sleep(wait)
            broken.kill()
            broken.communicate()
        out, err, status = self.run_words(self.source, self.QUERY, "--lenient", python=PYTHON)
        self.assertEqual((status, int(out.split()[1]) > 300), (0, True), err)
        self.assertEqual(len([it for it in self.entries() if not it.startswith(caches.NEW)]), 1)


class Document(OverTheLibrary):
    """The section of docs/DATA.md."""

    @unittest.skipUnless(PYTHON, "needs the package python3-gdal")
    def test_it_prints_what_is_shown(self):
        text = re.search(r"^## One call$(.*?)^## ", read(f"{ROOT}/docs/DATA.md"), re.M | re.S)[1]
        blocks = re.findall(r"```sh\n(.*?)```.*?```text\n(.*?)```", text, re.S)
        self.assertEqual(len(blocks), 2)
        os.makedirs(f"{self.room}/bin")
        os.symlink(f"{ROOT}/bindings/python/bin/sfq-ask", f"{self.room}/bin/sfq-ask")
        os.symlink(f"{ROOT}/examples", f"{self.room}/examples")
        known = {**os.environ, "PATH": f"{self.room}/bin:{os.environ['PATH']}", "SFQ_LIBRARY": library.SHARED, "PYTHONDONTWRITEBYTECODE": "1", "XDG_CACHE_HOME": f"{self.room}/cache"}
        for script, shown in blocks:
            ran = subprocess.run(["bash", "-e", "-c", script], cwd=self.room, env=known, stdout=subprocess.PIPE, stderr=subprocess.STDOUT, text=True)
            self.assertEqual((ran.returncode, ran.stdout), (0, shown), script)
        self.assertIn("the tables are in", read(f"{self.room}/said.txt"))


if __name__ == "__main__":
    unittest.main()
