"""What is said of a table or a column of a query that isn't there: the nearest name, and those that there are."""
import json
import shutil
import subprocess
import sys
import tempfile
import time
import unittest

from made_libraries import over_library
from support import python_command, python_with, write

import tables_stand_in
import sfq
from sfq.commands import asking
from sfq.tables import near_names

SCHEMA = "CREATE TABLE parcels (id INTEGER PRIMARY KEY, name TEXT, geom POLYGON);\nCREATE TABLE roads (id INTEGER PRIMARY KEY, lanes INTEGER, geom LINESTRING);\n"
GDAL = python_with("osgeo.ogr")
TABLES = {"parcels": 'id,name,geom\n1,a,"POLYGON((0 0,4 0,4 4,0 4,0 0))"\n', "roads": 'id,lanes,geom\n1,2,"LINESTRING(0 0,4 4)"\n'}
# Queries with the place of the name, and what is said of it.
QUERIES = (
    ("SELECT id FROM ¤parcel", "Q3", "there is no table parcel: did you mean parcels? there are parcels, roads"),
    ("SELECT a.id FROM parcels a JOIN ¤RAODS b ON ST_Touches(a.geom, b.geom)", "Q3", "there is no table RAODS: did you mean roads? there are parcels, roads"),
    ("SELECT id FROM ¤lakes", "Q3", "there is no table lakes: there are parcels, roads"),
    ("SELECT ¤nme FROM parcels", "Q5", "there is no column nme: did you mean name? there are id, name, geom"),
    ("SELECT a.id FROM parcels a, roads b WHERE ¤owner = 'x'", "Q5", "there is no column owner: there are id, name, geom, lanes"),
    ("SELECT a.id FROM parcels a, roads b WHERE ¤b.name = 'x'", "Q5", "b has no column name: there are id, lanes, geom"),
    ("SELECT a.id FROM parcels AS a, roads b WHERE ¤A.geo = 'x'", "Q5", "A has no column geo: did you mean geom? there are id, name, geom"),
    ("SELECT 'é', ¤parcels.id FROM parcels p", "Q2", None),
    ("SELECT ¤parcels.id FROM parcels p", "Q5", "FROM has no table parcels: it has p"),
)


class Names(unittest.TestCase):
    """How near a name is."""

    def test_edits(self):
        for one, other, wanted in (("", "", 0), ("", "ab", 2), ("abc", "abc", 0), ("kitten", "sitting", 3), ("parcel", "parcels", 1), ("raods", "roads", 2), ("é", "e", 2)):
            one, other = one.encode(), other.encode()
            self.assertEqual((near_names.edits(one, other), near_names.edits(other, one)), (wanted, wanted))

    def test_nearest(self):
        for name, names, wanted in (("parcel", ["roads", "parcels"], "parcels"), ("PARCEL", ["parcels"], "parcels"), ("lakes", ["parcels", "roads"], None), ("ab", ["cd"], None),
                                    ("ab", ["ac"], "ac"), ("abcd", ["abxy", "abcx"], "abcx"), ("a", ["b"], None), ("t", [], None),
                                    ("x" * 64, ["y", "x" * 63], "x" * 63), ("x" * 65, ["x" * 65], None)):
            self.assertEqual(near_names.nearest(name, names), wanted, name)

    def test_a_long_name_takes_no_time(self):
        begun = time.process_time()
        self.assertIsNone(near_names.nearest("x" * 65_000, ["y" * 64_000] * 3_000))
        self.assertIsNone(near_names.nearest("x" * 60, [f"{it:030}" for it in range(3_000)]))
        self.assertLess(time.process_time() - begun, 2)

    def test_lists(self):
        self.assertEqual(near_names.said("no table x", "x", ["parcels"]), "no table x: there is parcels")
        self.assertEqual(near_names.said("no table x", "x", []), "no table x: there are none")
        many = [f"column_{it}" for it in range(40)]
        self.assertTrue(near_names.said("no column x", "x", many).endswith(": there are " + ", ".join(many[:32]) + ", .."))


class StandIn(unittest.TestCase):
    """Over a stand-in for the library, which knows queries over one table."""

    def test_a_table_that_is_not_there(self):
        tables_stand_in.Calls().use(self)
        with tempfile.TemporaryDirectory(prefix="sfq-near-") as room:
            write(f"{room}/schema.sql", SCHEMA.replace(" geom POLYGON", " x TEXT").replace(" geom LINESTRING", " x TEXT"))
            schema = "CREATE TABLE parcels (id INTEGER PRIMARY KEY, name TEXT);\nCREATE TABLE roads (id INTEGER PRIMARY KEY, name TEXT);\n"
            asker = asking.Asker("sfq-ask", [f"{room}/schema.sql", room], schema)
            with self.assertRaises(asking.Refused) as met:
                asker.ask("SELECT id FROM parcel")
        said = "there is no table parcel: did you mean parcels? there are parcels, roads"
        self.assertEqual(met.exception.text, f"sfq: Q3 at 15\n  1 | SELECT id FROM parcel\n    |                ^\nsfq: {said}\n")
        with self.assertRaisesRegex(sfq.ProgrammingError, f"^sfq: Q3 at 15: {said.replace('?', '[?]')}$"):
            sfq.connect(schema, {}).execute("SELECT id FROM parcel WHERE id = ?", [1])


@over_library
class Queries(unittest.TestCase):
    """Over the library."""

    def setUp(self):
        self.room = tempfile.mkdtemp(prefix="sfq-near-")
        self.addCleanup(shutil.rmtree, self.room)
        write(f"{self.room}/schema.sql", SCHEMA)
        for name, text in TABLES.items():
            write(f"{self.room}/{name}.csv", text)

    def test_what_is_said(self):
        asker, connection = asking.Asker("sfq-ask", [f"{self.room}/schema.sql", self.room], SCHEMA), sfq.connect(SCHEMA, self.room)
        for marked, code, said in QUERIES:
            query, at = marked.replace("¤", ""), len(marked.partition("¤")[0].encode())
            with self.assertRaises(asking.Refused) as met:
                asker.ask(query)
            with self.assertRaises(sfq.ProgrammingError) as error:
                connection.execute(query)
            self.assertEqual((met.exception.code, error.exception.code), (code, code))
            if said:
                self.assertEqual((met.exception.text.splitlines()[0], met.exception.text.splitlines()[-1]), (f"sfq: {code} at {at}", f"sfq: {said}"))
                self.assertEqual(str(error.exception), f"sfq: {code} at {at}: {said}")

    def test_behind_a_value(self):
        """The place, and the name, are those of the text that the user wrote."""
        query = "SELECT id FROM parcels WHERE name = ? AND nam = 'x'"
        with self.assertRaisesRegex(sfq.ProgrammingError, f"^sfq: Q5 at {query.index('nam =')}: there is no column nam: did you mean name[?] there are id, name, geom$"):
            sfq.connect(SCHEMA, self.room).execute(query, ["a longer value"])

    def test_sfq_ask(self):
        layers = ", ".join('{"layer": "%s", "table": "%s", "columns": [], "coordinate_system": null, "rows": 1, "records": 1, "left_out": 0}' % (it, it) for it in TABLES)
        write(f"{self.room}/grid.json", f'{{"step": "1", "origin": ["0", "0"], "layers": [{layers}]}}')
        ran = subprocess.run([*python_command(sys.executable, "sfq-ask"), self.room, "SELECT id FROM parcel"], capture_output=True, text=True, timeout=120)
        self.assertEqual((ran.returncode, ran.stdout), (5, ""))
        self.assertEqual(ran.stderr.splitlines()[-1], "sfq: there is no table parcel: did you mean parcels? there are parcels, roads")
        ran = subprocess.run([*python_command(sys.executable, "sfq-ask"), self.room, "--coverage", "parcel"], capture_output=True, text=True, timeout=120)
        self.assertEqual((ran.returncode, ran.stderr), (2, "sfq-ask: there is no layer parcel: did you mean parcels? there are parcels, roads\n"))


@over_library
@unittest.skipUnless(GDAL, "needs the package python3-gdal")
class Options(unittest.TestCase):
    """Columns that options of an import name, of which no layer has one."""

    def test_columns(self):
        with tempfile.TemporaryDirectory(prefix="sfq-near-") as room:
            for name, columns in (("a", {"depth": 1, "name": "x"}), ("b", {"depth": 1, "owner": "y"})):
                feature = {"type": "Feature", "properties": columns, "geometry": {"type": "Point", "coordinates": [1, 2]}}
                write(f"{room}/{name}.geojson", json.dumps({"type": "FeatureCollection", "features": [feature]}))
            there = "there are depth, name, owner"
            for words, said in (
                (["--scale", "dpeth=0.1"], f"--scale: no layer has a column dpeth: did you mean depth? {there}"), (["--key", "Nam"], f"--key: no layer has a column Nam: did you mean name? {there}"),
                (["--columns", "owner", "lakes"], f"--columns: no layer has a column lakes: {there}"),
            ):
                ran = subprocess.run([*python_command(GDAL, "sfq-import"), f"{room}/a.geojson", f"{room}/b.geojson", "--out", f"{room}/out", *words], capture_output=True, text=True)
                self.assertEqual((ran.returncode, ran.stderr), (2, f"sfq-import: {said}\n"))


if __name__ == "__main__":
    unittest.main()
