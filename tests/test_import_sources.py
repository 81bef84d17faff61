"""sfq-import of several sources: one grid over all, a folder that is there, reference systems, columns that have geometries; and what
ends it, after which a folder is as it was."""
import errno
import json
import os
import random
import resource
import shutil
import signal
import subprocess
import tempfile
import threading
import time
import unittest
from decimal import Decimal
from unittest import mock

from support import ROOT, python_command, read, write

import engine_rows
import library
import test_databases_python as databases
from import_calls import MIXED, PYTHON, WithImports, feature
from sfq.commands import endings, folders, imports
from sfq.geometry import grids
from sfq.layers import columns, proposing, systems
from sfq.tables import statements

DEGREES, METRES, FEET, KILOMETRES = (None, 1.0, 0.3048006096, 1000.0)


class System:
    """A reference system by the length of its unit in metres; None of one that has degrees."""

    def __init__(self, length):
        self.length = length

    def IsGeographic(self):
        return self.length is None

    def GetLinearUnits(self):
        return self.length


def contents(folder):
    """Returns the bytes of each file of a folder, by its name."""
    found = {}
    for it in sorted(os.listdir(folder)):
        with open(f"{folder}/{it}", "rb") as file:
            found[it] = file.read()
    return found


class Proposals(engine_rows.WithLibrary):
    """Which grid is proposed, which needs no GDAL."""

    @classmethod
    def setUpClass(cls):
        super().setUpClass()
        os.environ["SFQ_LIBRARY"] = library.SHARED

    def proposed(self, extent, length=METRES, *given):
        """Returns the grid of an extent whose other coordinates are no decimal numbers of a grid."""
        system = None if length == "none" else System(length)
        return proposing.proposed(proposing.Extent(*extent), systems.metres(system), *given).spelled

    def of_positions(self, *numbers, length=METRES, origin=""):
        """Returns the grid of positions, and whether each is on it exactly."""
        decimals = proposing.Decimals()
        for at in range(0, len(numbers), 2):
            decimals.add(numbers[at:at + 2])
        (x, y), system = (numbers[::2], numbers[1::2]), None if length == "none" else System(length)
        extent = proposing.Extent(min(x), max(x), min(y), max(y))
        found = proposing.proposal(extent, systems.metres(system), "", origin, decimals)
        shift = grids.Shift()
        found.grid.rounded(numbers, shift)
        self.assertEqual(shift.moved == 0, found.is_exact, numbers)
        return found.grid.spelled, found.is_exact

    def test_a_step_on_which_all_lie(self):
        for numbers, length, wanted in (
            # Centimetres; a millionth of a degree, of a town and of a country; whole metres of a town and of a country.
            ((563000.25, 5934000.5, 565000.01, 5936000.75), METRES, ("0.01", ("564000", "5935000"))),
            ((10.123456, 53.5, 10.2, 53.654321), DEGREES, ("0.0000001", ("10.16", "53.58"))),
            ((10.123456, 53.5, 18.2, 47.654321), DEGREES, ("0.000001", ("14.2", "50.6"))),
            ((1.0, 2.0, 300.0, 5.0), METRES, ("0.01", ("0", "0"))), ((0.0, 0.0, 900000.0, 5.0), METRES, ("0.1", ("0", "0"))),
            ((0.001, 0.002, 300.0, 5.0), METRES, ("0.001", ("0", "0"))), ((1.0, 1.0, 9.0, 9.0), "none", ("0.000001", ("0", "0"))),
            # Where a power of ten doesn't reach all, a step that divides the distances does: multiples of 0.05, halves between whole numbers.
            ((0.0, 0.0, 300000.05, 0.0), METRES, ("0.05", ("150000", "0"))), ((0.5, 0.0, 20000000.5, 1.0), METRES, ("1", ("10000000.5", "0"))),
        ):
            self.assertEqual(self.of_positions(*numbers, length=length), (wanted, True))

    def test_where_no_step_has_all(self):
        """The last bit of a double is a decimal too; and 0.01 doesn't reach over 300 km."""
        self.assertEqual(self.of_positions(3.7649999999999997, 67.35000000000001, 1.0, 2.0), (("0.000005", ("2.5", "34.5")), False))
        self.assertEqual(self.of_positions(0.0, 0.0, 300000.01, 0.07), (("0.02", ("150000", "0")), False))
        self.assertEqual(self.of_positions(0.25, 0.0, 9.0, 1.0, origin="0.001,0"), (("0.000001", ("0.001", "0")), True))

    def test_each_unit(self):
        for length, extent, wanted in (
            (DEGREES, (-180, 180, -90, 83.6), ("0.00002", ("0", "0"))), (DEGREES, (-84.32, -75.46, 33.88, 36.59), ("0.0000005", ("-79.9", "35.25"))),
            (DEGREES, (0.1, 0.9, 0.2, 0.3), ("0.00000005", ("0.5", "0.25"))), (METRES, (563_000, 565_000, 5_934_000, 5_936_000), ("0.0001", ("564000", "5935000"))),
            (METRES, (0, 99_999, -99_999, 5), ("0.01", ("0", "0"))), (METRES, (-2e7, 2e7, -2e7, 2e7), ("2", ("0", "0"))),
            (FEET, (900_000, 1_060_000, 120_000, 270_000), ("0.01", ("980000", "195000"))), (KILOMETRES, (563, 565, 5_934, 5_936), ("0.0000001", ("564", "5935"))),
            ("none", (-0.05, 0.3, 51.3, 51.6), ("0.00000002", ("0.124", "51.45"))), ("none", (0, 300, 0, 5), ("0.00002", ("150", "2"))),
        ):
            self.assertEqual(self.proposed(extent, length), wanted)

    def test_what_is_given_is_kept(self):
        self.assertEqual(self.proposed((0, 300, 0, 5), METRES, "0.25"), ("0.25", ("0", "0")))
        self.assertEqual(self.proposed((563_000, 565_000, 0, 5), METRES, "0.001"), ("0.001", ("564000", "0")))
        self.assertEqual(self.proposed((563_000, 565_000, 0, 5), METRES, "", "500000,0"), ("0.01", ("500000", "0")))
        self.assertEqual(self.proposed((0, 300_000, 0, 5), METRES, "", "0,0"), ("0.05", ("0", "0")))

    def test_documents_have_the_rule(self):
        rule = " ".join(proposing.__doc__.partition("\n\n")[2].split())
        self.assertRegex(rule, r"^If every coordinate is .* The origin is 0,0 if .* as metres\.$")
        for it in ("docs/DATA.md", "docs/PYTHON.md", "packaging/man/sfq-import.1", "bindings/qgis/sfq_qgis/basis.py"):
            self.assertEqual(" ".join(read(f"{ROOT}/{it}").split()).count(rule), 1, it)

    def test_nothing_to_go_by(self):
        self.assertEqual(proposing.proposed(None, 1.0).spelled, ("0.01", ("0", "0")))

    def test_everything_fits_and_no_finer_step_does(self):
        chance = random.Random(5)
        for _ in range(500):
            x, y, wide, high = (chance.uniform(-1, 1) * 10 ** chance.uniform(-3, 9) for _ in range(4))
            extent = proposing.Extent(*sorted((x, x + wide)), *sorted((y, y + high)))
            length = chance.choice((DEGREES, METRES, FEET))
            metres = systems.metres(System(length))
            grid = proposing.proposed(extent, metres)
            for it in ((extent.left, extent.low), (extent.right, extent.high)):
                self.assertTrue(all(-10_000_000 <= n <= 10_000_000 for n in grid.rounded(it, grids.Shift())[0]), (extent, grid.spelled))
            step, first = Decimal(grid.spelled[0]), proposing.finest(extent)
            before = [it for it in _until(step, proposing.steps(first)) if it >= proposing.least(extent)]
            for it in before:
                for origin in ((Decimal(0), Decimal(0)), proposing.middle(extent, it)):
                    self.assertFalse(proposing.fits(extent, grids.Grid(str(it), list(map(str, origin)))))


def _until(last, values):
    """Returns the values before one."""
    for it in values:
        if it == last:
            return
        yield it


class Names(unittest.TestCase):
    """Which columns seem to have geometries, which needs no GDAL."""

    def test_each(self):
        for names, wanted in (
            (["id", "Lon", "LAT"], "--xy Lon,LAT"), (["latitude", "longitude"], "--xy longitude,latitude"), (["X", "Y", "z"], "--xy X,Y"),
            (["id", "wkt"], "--wkt wkt"), (["the_geom"], "--wkt the_geom"), (["lon"], ""), (["lat", "y"], ""), ([], ""), (["name", "geometry"], "--wkt geometry"),
        ):
            self.assertEqual(columns.seeming(names), wanted)


class Schemas(databases.WithTables):
    """Schemas that lose tables and get others, which needs no GDAL."""

    def test_a_schema_without_a_table(self):
        first, second = "CREATE TABLE a (\n  id INTEGER -- the key; of a\n    PRIMARY KEY\n)", "create table B(id int primary key)"
        for schema, name, wanted in (
            (f"-- mine;\n\n{first};\n\n{second};\n", "a", f"-- mine;\n\n{second};\n"), (f"{first} ; {second}", "b", f"{first} ;\n"),
            (f"{first};\n{second}", "a", f"\n{second}"),
        ):
            table = next(it for it in statements.tables(schema) if it.name.lower() == name)
            found = folders.without(schema, table)
            self.assertEqual(found.replace("\n", ""), wanted.replace("\n", ""))
            self.assertEqual([it.name.lower() for it in statements.tables(found)], ["b" if name == "a" else "a"])
        self.assertEqual([folders.ended(it) for it in ("", "-- a;\n", f"{second};\n", f"{second}\n", f"{second}\n-- b\n")],
                         ["", "-- a;\n", f"{second};\n", f"{second};\n", f"{second};\n-- b\n"])


class Folders(unittest.TestCase):
    """Folders that change in one step, which needs no GDAL."""

    def setUp(self):
        self.room = tempfile.mkdtemp(prefix="sfq-folders-")
        self.addCleanup(shutil.rmtree, self.room)

    def test_folders_change_places(self):
        """By one step of the system, and by three where it has none."""
        for number in (0, errno.ENOSYS, errno.EINVAL):
            for it in "ab":
                os.makedirs(f"{self.room}/{it}", exist_ok=True)
                write(f"{self.room}/{it}/name", it)
            call = mock.Mock(return_value=-1)
            with mock.patch.object(folders.ctypes, "CDLL", return_value=mock.Mock(renameat2=call)) if number else mock.MagicMock():
                with mock.patch.object(folders.ctypes, "get_errno", return_value=number):
                    folders.exchange(f"{self.room}/a", f"{self.room}/b")
            self.assertEqual((read(f"{self.room}/a/name"), read(f"{self.room}/b/name"), len(os.listdir(self.room))), ("b", "a", 2))

    def test_one_that_cannot_change(self):
        os.makedirs(f"{self.room}/a")
        with self.assertRaises(OSError):
            folders.exchange(f"{self.room}/a", f"{self.room}/none")
        self.assertEqual(os.listdir(self.room), ["a"])


class Sources(WithImports):
    """Imports of several sources, and into folders that are there."""

    def ran(self, status, *words, **more):
        """Runs the command in the room, and returns what it says."""
        ran = self.command("sfq-import", *words, **more)
        self.assertEqual((ran.returncode, ran.stdout), (status, ""), ran.stderr)
        return ran.stderr

    def folder(self, name, *sources, words=("--grid", "1")):
        """Imports sources into a folder of the room."""
        said = self.ran(0, *sources, "--out", name, *words)
        if f"{self.room}/{name}" not in self.made:
            self.made.append(f"{self.room}/{name}")
        return f"{self.room}/{name}", said

    def points(self, name, *places, **more):
        """Makes a source of points, and returns its path."""
        return self.source([feature(("Point", list(it)), **more) for it in places], name)

    def test_two_sources_have_one_grid(self):
        one, other = self.points("one", (9.5, 53.25), (10, 54)), self.points("other", (11.5, 53), note="x")
        folder, said = self.folder("two", one, other, words=())
        self.assertIn("sfq-import: --grid 0.0000001 --origin 10.5,53.5 takes all exactly (steps of 0.0000001 degree)\n", said)
        self.assertEqual(self.column(folder, table="one"), ["POINT(-10000000 -2500000)", "POINT(-5000000 5000000)"])
        self.assertEqual(self.column(folder, table="other"), ["POINT(10000000 -5000000)"])
        found = json.loads(read(f"{folder}/grid.json"))
        self.assertEqual((found["step"], found["origin"], [it["source"] for it in found["layers"]]), ("0.0000001", ["10.5", "53.5"], [one, other]))
        again, _ = self.folder("again", one, other, words=("--grid", "0.0000001", "--origin", "10.5,53.5"))
        self.assertEqual(contents(folder), contents(again))

    def test_more_tables_into_a_folder(self):
        one, other = self.points("one", (1.25, 2)), self.source([feature(("Point", [3.75, 4])), MIXED], "other")
        folder, _ = self.folder("more", one, words=("--grid", "0.5", "--origin", "1,0"))
        write(f"{folder}/schema.sql", read(f"{folder}/schema.sql").replace("geom POINT", "geom GEOMETRY -- any"))
        write(f"{folder}/notes/mine.txt", "mine")
        before = contents_of(folder)
        _, said = self.folder("more", other, words=())
        self.assertNotIn("--grid", said)
        self.assertEqual((self.column(folder, table="one"), self.column(folder, table="other")), (["POINT(1 4)"], ["POINT(6 8)"]))
        self.assertIn("geom GEOMETRY -- any", read(f"{folder}/schema.sql"))
        self.assertEqual([it.name for it in statements.tables(read(f"{folder}/schema.sql"))], ["one", "other"])
        self.assertEqual(self.left_out(folder), [("other", "2", "W1 at 0: GEOMETRYCOLLECTION", "left out")])
        self.assertEqual({it: text for it, text in contents_of(folder).items() if it in ("one.csv", "notes/mine.txt")},
                         {it: before[it] for it in ("one.csv", "notes/mine.txt")})
        whole, _ = self.folder("whole", one, other, words=("--grid", "0.5", "--origin", "1,0"))
        for it in ("grid.json", "left-out.csv"):
            self.assertEqual(read(f"{folder}/{it}"), read(f"{whole}/{it}"), it)

    def test_a_table_that_is_there(self):
        bad = self.source([feature(("Point", [1, 2, 3])), feature(("Point", [1, 2]))], "well")
        folder, _ = self.folder("there", bad, self.points("other", (7, 7)))
        before = contents(folder)
        other = self.points("WELL", (5, 5))
        self.assertIn("there has a table WELL already: --replace makes it anew", self.ran(2, other, "--out", "there"))
        self.assertEqual(contents(folder), before)
        self.folder("there", other, words=("--replace",))
        self.assertEqual(sorted(os.listdir(folder)), ["WELL.csv", "changed-relations.csv", "grid.json", "left-out.csv", "other.csv", "schema.sql"])
        self.assertEqual((self.column(folder, table="WELL"), self.left_out(folder)), (["POINT(5 5)"], []))
        self.assertEqual([it.name for it in statements.tables(read(f"{folder}/schema.sql"))], ["other", "WELL"])
        self.assertEqual([it["table"] for it in json.loads(read(f"{folder}/grid.json"))["layers"]], ["other", "WELL"])

    def test_a_grid_that_is_another(self):
        folder, _ = self.folder("set", self.points("a", (1, 2)), words=("--grid", "0.50"))
        self.folder("set", self.points("b", (1, 2)), words=("--grid", "0.5", "--origin", "0.0,0"))
        for words in (("--grid", "0.25"), ("--origin", "1,0")):
            said = self.ran(2, self.points("c", (1, 2)), "--out", "set", *words)
            self.assertIn("set has the grid --grid 0.50 --origin 0,0, which new tables get too", said)
        self.assertFalse(os.path.exists(f"{folder}/c.csv"))

    def test_a_folder_that_no_import_made(self):
        write(f"{self.room}/mine/a.txt", "a")
        self.assertIn("mine isn't an empty folder, nor one that sfq-import made", self.ran(2, self.points("a", (1, 2)), "--out", "mine"))
        folder, _ = self.folder("spoilt", self.points("a", (1, 2)))
        self.made.remove(folder)
        write(f"{folder}/grid.json", "{}")
        self.assertIn("spoilt/grid.json isn't one that sfq-import made", self.ran(4, self.points("b", (1, 2)), "--out", "spoilt"))

    def test_too_many_tables(self):
        sources = [self.points(f"t{it}", (1, 2)) for it in range(17)]
        self.folder("many", *sources[:9])
        self.assertIn("17 layers, and sfq takes 1 to 16: choose by --layer", self.ran(2, *sources[9:], "--out", "many"))
        self.folder("many", *sources[9:16])

    def test_a_source_that_is_named_twice(self):
        path = self.points("a", (1, 2))
        os.symlink(path, f"{self.room}/link.geojson")
        for it in (path, f"{self.room}/link.geojson"):
            self.assertIn(f"{it} is named twice\n", self.ran(2, path, it, "--out", "twice"))

    def test_layers_of_one_name(self):
        one, other = self.points("a", (1, 2)), self.points("a", (3, 4))
        folder, said = self.folder("named", one, other)
        self.assertEqual((self.column(folder, table="a"), self.column(folder, table="a_2")), (["POINT(1 2)"], ["POINT(3 4)"]))
        self.assertIn("the layer is a_2", said)

    def test_layers_that_are_asked_for(self):
        one, other = self.points("a", (1, 2)), self.points("b", (3, 4))
        self.folder("chosen", one, other, words=("--grid", "1", "--layer", "b", "a"))
        self.assertIn("there is no layer c: there are a, b\n", self.ran(2, one, other, "--out", "none", "--layer", "c", "a", "b"))
        self.assertIn(f"{other} has no layer a; it has b\n", self.ran(2, one, other, "--out", "none", "--layer", "a"))

    def in_system(self, name, code, *texts):
        """Makes a GeoPackage of geometries in a reference system, and returns its path."""
        path = f"{tempfile.mkdtemp(dir=self.room)}/{name}.gpkg"
        script = (
            "import sys; from osgeo import ogr, osr; at = osr.SpatialReference(); at.ImportFromEPSG(int(sys.argv[2])); "
            "made = ogr.GetDriverByName('GPKG').CreateDataSource(sys.argv[1]); a = made.CreateLayer(sys.argv[3], at, ogr.wkbUnknown)\n"
            "for it in sys.argv[4:]: f = ogr.Feature(a.GetLayerDefn()); f.SetGeometry(ogr.CreateGeometryFromWkt(it)); a.CreateFeature(f)"
        )
        subprocess.run([PYTHON, "-c", script, path, str(code), name, *texts], check=True, capture_output=True)
        return path

    def test_reference_systems(self):
        metres, degrees = self.in_system("a", 25832, "POINT(500000 5538630.7)"), self.in_system("b", 4326, "POINT(9 50)", "POINT EMPTY")
        said = self.ran(2, metres, degrees, "--out", "mixed")
        self.assertIn(f"{metres} is in EPSG:25832, and {degrees} in EPSG:4326: --to EPSG:N moves all to one system", said)
        folder, said = self.folder("moved", metres, degrees, words=("--to", "EPSG:25832"))
        self.assertIn("--grid 0.000001 --origin 500000,5538630.7 takes all (steps of 0.000001 metre)", said)
        (x,), (y, empty) = (self.column(folder, table=it) for it in "ab")
        self.assertEqual((x, empty), ("POINT(0 0)", "POINT EMPTY"))
        self.assertRegex(y, r"POINT\(0 \d{4}\)")
        self.assertEqual({it["coordinate_system"]["authority"] for it in json.loads(read(f"{folder}/grid.json"))["layers"]}, {"EPSG:25832"})
        said = self.ran(2, self.in_system("c", 4326, "POINT(9 50)"), "--out", "moved")
        self.assertIn("moved is in EPSG:25832, and ", said)
        self.assertIn("in EPSG:4326: --to EPSG:25832 moves all to one system", said)
        self.folder("moved", self.in_system("c", 4326, "POINT(9 50)"), words=("--to", "EPSG:25832"))
        self.assertEqual(self.column(folder, table="c"), [y])

    def test_what_cannot_be_moved(self):
        path = self.in_system("a", 4326, "POINT(9 50)", "POINT(9 500)", "LINESTRING(9 50,9 51)")
        folder, said = self.folder("unmoved", path, words=("--grid", "1", "--to", "EPSG:25832"))
        self.assertRegex(self.left_out(folder)[0][2], r"^W1: it can't be moved to EPSG:25832")
        self.assertEqual(self.column(folder, "fid", "a"), ["1", "3"])
        for code, wanted in (("EPSG:999999", "GDAL doesn't know the reference system EPSG:999999"), ("/etc/passwd", "isn't the code of a reference system")):
            self.assertIn(wanted, self.ran(2, path, "--out", "none", "--to", code))

    def test_a_source_that_says_no_system(self):
        plain = self.written("plain", "lon,lat\n9,50\n")
        known = self.in_system("known", 4326, "POINT(9 50)")
        _, said = self.folder("unsaid", plain, known, words=("--xy", "lon,lat"))
        self.assertIn("sfq-import: plain: it says no reference system, and is taken to be in EPSG:4326 as the others\n", said)
        self.assertIn(f"{plain}: plain says no reference system, so it can't be moved to EPSG:25832: --from names it",
                      self.ran(2, plain, known, "--out", "none", "--to", "EPSG:25832", "--xy", "lon,lat"))
        folder, _ = self.folder("said", plain, known, words=("--to", "EPSG:25832", "--from", "EPSG:4326", "--xy", "lon,lat"))
        self.assertEqual(self.column(folder, table="plain"), self.column(folder, table="known"))

    def written(self, name, text, mark=b""):
        """Writes a CSV file, and returns its path."""
        path = f"{tempfile.mkdtemp(dir=self.room)}/{name}.csv"
        with open(path, "wb") as file:
            file.write(mark + text.encode())
        return path

    def test_points_of_columns(self):
        rows = 'id,lon,lat\n1,1.5,2.25\n2,,\n3,7,\n4, 8 ,9e0\n5,"3,5",1\n6,a,1\n7,inf,1\n'
        for mark in (b"", b"\xef\xbb\xbf"):
            folder, said = self.folder(f"points{len(mark)}", self.written("p", rows, mark), words=("--grid", "0.25", "--xy", "lon,lat"))
            self.assertEqual(self.table(folder, "p"), [["fid", "id", "lon", "lat", "geom"], ["1", "1", "1.5", "2.25", "POINT(6 9)"],
                                                       ["2", "2", "", "", ""], ["4", "4", " 8 ", "9e0", "POINT(32 36)"]])
            self.assertEqual([it[1:3] for it in self.left_out(folder)], [
                ("3", "W1: lat is empty, and lon isn't"), ("5", "W1: lon isn't a decimal number: '3,5'"), ("6", "W1: lon isn't a decimal number: 'a'"),
                ("7", "W1: lon isn't a decimal number: 'inf'")])
            self.assertIn("p: 3 left out: W1: lon isn't a decimal number\n", said)
            self.assertEqual(self.columns(folder)["geom"], "POINT")

    def test_texts_of_a_column(self):
        rows = 'geometry,nr\n"POLYGON((0 0,4 0,4 4,0 0))",1\npoint empty,2\n,3\nPOINT(1,4\nnothing,5\nPOINT(1 2) x,6\n"LINESTRING(0 0,1 1.5)",7\nPOINT Z (1 2 3),8\n'
        folder, said = self.folder("texts", self.written("g", rows), words=("--grid", "0.5", "--wkt", "geometry"))
        self.assertEqual(self.table(folder, "g"), [
            ["fid", "nr", "geometry"], ["1", "1", "POLYGON((0 0,8 0,8 8,0 0))"], ["2", "2", "POINT EMPTY"], ["3", "3", ""], ["7", "7", "LINESTRING(0 0,2 3)"], ["8", "8", "POINT(2 4)"]])
        self.assertEqual([it[1:3] for it in self.left_out(folder)], [
            (number, f"W1: geometry isn't well-known text: '{it}'") for number, it in (("4", "POINT(1"), ("5", "nothing"), ("6", "POINT(1 2) x"))])
        self.assertIn("g: 3 left out: W1: geometry isn't well-known text\n", said)

    def test_columns_of_one_source_and_not_of_another(self):
        plain, shapes = self.written("p", "x,y\n1,2\n"), self.points("shapes", (1, 2), x=7, y=8)
        folder, _ = self.folder("some", plain, shapes, words=("--grid", "1", "--xy", "x,y"))
        self.assertEqual((self.column(folder, table="p"), self.column(folder, table="shapes")), (["POINT(1 2)"], ["POINT(1 2)"]))
        # A column that GDAL takes for geometries by itself may be named too, and so may others in its place.
        for words, wanted in ((("--wkt", "WKT"), ["POINT(1 2)"]), (("--xy", "x,y"), ["POINT(3 4)"])):
            folder, _ = self.folder(words[0][2:], self.written("w", "WKT,x,y\nPOINT(1 2),3,4\n"), words=("--grid", "1", *words))
            self.assertEqual(self.column(folder, "WKT" if words[1] == "WKT" else "geom", "w"), wanted)
        for words, wanted in (
            (("--xy", "a,b"), "--xy: no layer without geometries has the columns a and b"), (("--wkt", "a"), "--wkt: no layer without geometries has a column a"),
            (("--xy", "a"), "--xy: 'a' isn't two columns, X,Y"), (("--xy", "a,a"), "--xy: 'a,a' isn't two columns, X,Y"),
        ):
            self.assertIn(wanted, self.ran(2, plain, "--out", "none", *words))

    def test_columns_that_seem_to_have_geometries(self):
        for rows, wanted in (("id,Lon,Lat\n1,2,3\n", "--xy Lon,Lat"), ("id,geom\n1,POINT(1 2)\n", "--wkt geom")):
            path = self.written("s", rows)
            folder, said = self.folder(f"seem{len(wanted)}", path)
            self.assertIn(f"sfq-import: s: it has no geometry; {wanted} makes some of its columns\n", said)
        _, said = self.folder("plain", self.written("s", "id,name\n1,a\n"))
        self.assertNotIn("it has no geometry", said)

    def test_strict(self):
        spike = [[[0, 0], [6, 0], [6, 6], [3, 6], [3, 9], [3, 6], [0, 6], [0, 0]]]
        path = self.source([feature(("Point", [1, 2])), feature(("Polygon", spike))])
        self.assertTrue(self.ran(4, path, "--out", "strict", "--strict").endswith("1 record was left out: strict/left-out.csv says why\n"))
        self.assertTrue(os.path.isfile(f"{self.room}/strict/t.csv"))
        self.ran(0, path, "--out", "mended", "--strict", "--invalid", "mend")

    # ---- what ends an import ----

    def is_as_it_was(self, folder, before):
        """Checks that a folder is as it was, and that nothing is beside it."""
        self.assertEqual(contents_of(folder), before)
        name = os.path.basename(folder)
        self.assertEqual([it for it in os.listdir(self.room) if it.startswith(f".{name}-")], [])

    def test_a_record_that_stops_leaves_a_folder_as_it_was(self):
        folder, _ = self.folder("kept", self.points("a", (1, 2)))
        before, bad = contents_of(folder), self.source([feature(("Point", [1, 2])), MIXED], "b")
        self.ran(4, bad, "--out", "kept", "--invalid", "stop")
        self.is_as_it_was(folder, before)

    def test_a_full_disk_leaves_a_folder_as_it_was(self):
        folder, _ = self.folder("full", self.points("a", (1, 2)))
        before, many = contents_of(folder), self.points("b", *((it, 2) for it in range(3_000)))
        words = [*python_command(PYTHON, "sfq-import"), many, "--out", "full"]
        for limit in (0, 100, 20_000):
            ran = subprocess.run(words, env={**os.environ, "PYTHONDONTWRITEBYTECODE": "1"}, cwd=self.room, capture_output=True, text=True,
                                 preexec_fn=lambda: resource.setrlimit(resource.RLIMIT_FSIZE, (limit, limit)))
            self.assertEqual((ran.returncode, ran.stdout), (6, ""), ran.stderr)
            self.assertIn("File too large", ran.stderr)
            self.is_as_it_was(folder, before)

    def test_ctrl_c_at_any_time_leaves_a_folder_as_it_was_or_as_it_is_to_be(self):
        folder, _ = self.folder("broken", self.points("a", (1, 2)))
        before, more = contents_of(folder), self.points("b", *((it, 2) for it in range(20_000)))
        begun = time.monotonic()
        shutil.copytree(folder, f"{self.room}/done")
        self.folder("done", more, words=())
        takes, after = time.monotonic() - begun, contents_of(f"{self.room}/done")
        chance, statuses = random.Random(2), []
        for _ in range(6):
            child = subprocess.Popen([*python_command(PYTHON, "sfq-import"), more, "--out", "broken", "--replace"], cwd=self.room,
                                     env={**os.environ, "PYTHONDONTWRITEBYTECODE": "1"}, stderr=subprocess.PIPE, text=True)
            # Before Python is ready a signal ends it as any program. An import that ends before the signal shows how long one takes.
            begun = time.monotonic()
            try:
                child.wait(0.2 + takes * chance.uniform(0, 1))
                takes = time.monotonic() - begun
            except subprocess.TimeoutExpired:
                child.send_signal(signal.SIGINT)
            try:
                said = child.communicate(timeout=120)[1]
            finally:
                child.kill()
            statuses.append(child.returncode)
            if child.returncode == 0:
                self.assertEqual(contents_of(folder), after)
                shutil.rmtree(folder)
                shutil.copytree(f"{self.room}/done", folder)
                before = after
                continue
            self.assertIn(child.returncode, (130, -signal.SIGINT, 1), said)
            self.is_as_it_was(folder, before)
        self.assertTrue(any(statuses), statuses)

    def test_two_imports_into_one_folder_at_once(self):
        folder, _ = self.folder("once", self.points("a", (1, 2)))
        held = os.open(folder, os.O_RDONLY)
        self.addCleanup(os.close, held)
        folders.fcntl.flock(held, folders.fcntl.LOCK_EX)
        before = contents_of(folder)
        self.assertIn("another import is adding to once: wait for its end", self.ran(6, self.points("b", (1, 2)), "--out", "once"))
        self.is_as_it_was(folder, before)
        folders.fcntl.flock(held, folders.fcntl.LOCK_UN)
        # Each of several at once is done as a whole, or refused.
        statuses = {}

        def run(name):
            statuses[name] = self.command("sfq-import", self.points(name, (1, 2)), "--out", "once").returncode

        threads = [threading.Thread(target=run, args=(it,)) for it in ("c", "d", "e", "f")]
        for it in threads:
            it.start()
        for it in threads:
            it.join()
        self.assertLessEqual(set(statuses.values()), {0, 6})
        self.assertIn(0, statuses.values())
        wanted = ["a", *sorted(it for it, status in statuses.items() if status == 0)]
        self.assertEqual(sorted(it["table"] for it in json.loads(read(f"{folder}/grid.json"))["layers"]), wanted)
        self.assertEqual(sorted(it.name for it in statements.tables(read(f"{folder}/schema.sql"))), wanted)

    def test_two_imports_that_make_one_folder_at_once(self):
        """The second finds the folder when it is done, and leaves it as it is."""
        made = f"{self.room}/first"
        found = folders.Folder(made)
        found.begin(set())
        write(f"{found.room}/t.csv", "new")
        write(f"{made}/t.csv", "other")
        with self.assertRaisesRegex(endings.Stopped, "was made by another meanwhile"):
            found.put()
        found.close()
        self.assertEqual((read(f"{made}/t.csv"), [it for it in os.listdir(self.room) if it.startswith(".first-")]), ("other", []))

    def test_a_link_to_a_folder_stays_one(self):
        folder, _ = self.folder("true", self.points("a", (1, 2)))
        os.symlink("true", f"{self.room}/link")
        self.folder("link", self.points("b", (1, 2)))
        self.made.remove(f"{self.room}/link")
        self.assertTrue(os.path.islink(f"{self.room}/link") and os.path.isfile(f"{folder}/b.csv"))

    def test_files_of_a_copy_that_shares_them_stay(self):
        """An import never writes into a file that is there: another folder may have it too."""
        folder, _ = self.folder("shared", self.points("a", (1, 2)))
        shutil.copytree(folder, f"{self.room}/copy", copy_function=os.link)
        before = contents(f"{self.room}/copy")
        self.folder("shared", self.points("a", (7, 7)), words=("--replace",))
        self.assertEqual(contents(f"{self.room}/copy"), before)

    def test_a_folder_of_a_version_before_gets_tables_too(self):
        """Its left-out.csv says no tables, and its grid.json the one source above the layers."""
        folder, _ = self.folder("older", self.source([MIXED, feature(("Point", [1, 2]))], "a.b"))
        lines = [",".join(it.split(",")[:5]) for it in read(f"{folder}/left-out.csv").splitlines()]
        write(f"{folder}/left-out.csv", "".join(f"{it}\n" for it in lines))
        found = json.loads(read(f"{folder}/grid.json"))
        del found["layers"][0]["source"]
        write(f"{folder}/grid.json", json.dumps({**found, "source": "a.geojson", "invalid": "leave-out"}))
        self.folder("older", self.points("b", (1, 2)), words=())
        self.assertEqual(read(f"{folder}/left-out.csv"), "layer,record,fid,reason,done,table,positions,x,y,least_x,least_y,greatest_x,greatest_y\n"
                         "a.b,1,0,W1 at 0: GEOMETRYCOLLECTION,left out,a_b,,,,,,,\n")


def contents_of(folder):
    """Returns the bytes of each file in a folder and below it, by its path."""
    found = {}
    for at, _, names in os.walk(folder):
        for it in names:
            with open(f"{at}/{it}", "rb") as file:
                found[os.path.relpath(f"{at}/{it}", folder)] = file.read()
    return found


class Calls(WithImports):
    """The calls that other commands make."""

    def test_a_call(self):
        script = (
            "import sys; from sfq import imports; said = []\n"
            "found = imports.import_sources(sys.argv[2:], sys.argv[1], imports.Options(grid='0.5'), say=said.append)\n"
            "print(found.grid.spelled, [it['table'] for it in found.layers], found.count('rows'), found.count('left_out'), len(said))\n"
        )
        paths = [self.source([feature(("Point", [1, 2]))], it) for it in ("a", "b")]
        known = {**os.environ, "PYTHONPATH": f"{ROOT}/bindings/python", "SFQ_LIBRARY": library.SHARED}
        ran = subprocess.run([PYTHON, "-B", "-c", script, f"{self.room}/called", *paths], env=known, capture_output=True, text=True)
        self.assertEqual((ran.stdout, ran.stderr), ("('0.5', ('0', '0')) ['a', 'b'] 2 0 3\n", ""))

    def test_options_that_are_wrong(self):
        for options, wanted in (
            (imports.Options(grid="0"), "--grid or --origin: the step 0 isn't greater than 0"), (imports.Options(origin="3"), "--origin: '3' isn't X,Y"),
            (imports.Options(to="x"), "--to: 'x' isn't the code"), (imports.Options(of="a b:1"), "--from: 'a b:1' isn't the code"),
        ):
            with self.assertRaisesRegex(endings.Stopped, wanted) as raised:
                imports.import_sources(["a"], f"{self.room}/none", options)
            self.assertEqual(raised.exception.status, 2)


if __name__ == "__main__":
    unittest.main()
