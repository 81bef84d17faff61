"""Records that are left out: what left-out.csv and a layer say of them, what a join lacks, and what is no longer left out."""
import csv
import io
import json
import os
import sqlite3
import subprocess
import unittest

from support import python_command, read, write

import library
from import_calls import PYTHON, WithImports, feature, square
from sfq.commands import left_out, rejects
from sfq.geometry import grids

GRID = grids.Grid("0.5", ("100", "-50"))
BOW = [[[0, 0], [4, 4], [4, 0], [0, 4], [0, 0]]]
COLUMNS = "layer,record,fid,reason,done,table,positions,x,y,least_x,least_y,greatest_x,greatest_y"


class Places(unittest.TestCase):
    """Where a fault is, by its reason."""

    def test_places(self):
        for reason, wanted in (
            ("V3 0: 0 0 to 400 400 and 400 0 to 0 400 share 200 200", ("200.0", "50.0")),
            ("V3 0: 0 0 to 7 3 and 4 0 to 0 4 share 14/5 6/5", ("101.4", "-49.4")), ("V3 0: 0 0 to 8 0 and 8 0 to 4 0 share 4 0 to 8 0", ("102.0", "-50.0")),
            ("V4 1 2: 2 1 to 2 2 and 2 2 to 3 2 share 2 2", ("101.0", "-49.0")), ("V5 1: outside at 5 -5", ("102.5", "-52.5")),
            ("V1 0: 1 position left at 4 4; valid in the source, broken by the grid", ("102.0", "-48.0")), ("V1 0: 3 positions left from 1 0", ("100.5", "-50.0")),
            ("W1 at 8: POLYGON Z", None), ("W3 at 6", None), ("W4", None), ("L11: a has more than 1,048,576 bytes", None),
        ):
            self.assertEqual(left_out.place(reason, GRID), wanted, reason)

    def test_lines_of_why(self):
        """The grid has halves from 100 -50."""
        for line, wanted in (
            ("V3 0: 0 0 to 4 4 and 4 0 to 0 4 share 2 2", "at 101.0 -49.0"), ("V5 1: outside at 20 -20", "at 110.0 -60.0"), ("interior boundary 0 at 0 2/5", "at 100.0 -49.8"),
            ("interior interior 1 from 0 2/5 to 1/2 0", "from 100.0 -49.8 to 100.25 -50.0"), ("exterior interior 2 around 1/4 3", "around 100.125 -48.5"),
        ):
            self.assertEqual(left_out.with_places(line, GRID), f"{line}; in the source {wanted}")
        for line in ("boundary interior F", "valid", "W4", "W1 at 8: POLYGON Z"):
            self.assertEqual(left_out.with_places(line, GRID), line)

    def test_fields_of_a_layer(self):
        for reason, code, sentence in (
            ("V3 0: 0 0 to 4 4 and 4 0 to 0 4 share 2 2", "V3", "this ring touches or crosses itself"), ("W1 at 0: GEOMETRYCOLLECTION", "W1", "GEOMETRYCOLLECTION"),
            ("W4", "W4", "more than 10,000 positions, or more than 1,000 rings or elements: split the geometry"), ("L4: a text isn't UTF-8", "L4", "a text isn't UTF-8"),
        ):
            found = rejects.Rejected("t", 3, 2, reason, ("1.5", "2"), None).fields()
            self.assertEqual(found, ["t", 3, 2, code, sentence, reason, 1.5, 2.0])

    def test_envelopes_on_the_grid(self):
        """They are rounded outwards."""
        self.assertEqual(left_out.on_grid((100.1, -50.0, 101.4, -48.9), GRID), (0, 0, 3, 3))


class LeftOut(WithImports):
    """Over imports by the command."""

    def rows(self, folder):
        return list(csv.DictReader(io.StringIO(read(f"{folder}/left-out.csv"))))

    def ask(self, *words):
        known = {**os.environ, "SFQ_LIBRARY": library.SHARED, "PYTHONDONTWRITEBYTECODE": "1", "XDG_CACHE_HOME": f"{self.room}/cache"}
        ran = subprocess.run([*python_command(PYTHON, "sfq-ask"), *words], env=known, capture_output=True, text=True, cwd=self.room)
        return ran.stdout, ran.stderr, ran.returncode

    def test_what_is_said_of_a_record(self):
        folder, said = self.imported([feature(("Polygon", BOW)), feature(("Polygon", square(8, 8))),
                                      feature(("Polygon", [[[40, 40], [40.001, 40], [40.001, 40.0015], [40, 40]]]))], "--anyway", grid="0.01")
        self.assertEqual(read(f"{folder}/left-out.csv").splitlines()[0], COLUMNS)
        one, other = self.rows(folder)
        self.assertEqual([one[it] for it in left_out.COLUMNS], ["5", "2.00", "2.00", "0.0", "0.0", "4.0", "4.0"])
        self.assertEqual(other["reason"], "V1 0: 1 position left at 4000 4000; valid in the source, broken by the grid")
        self.assertIn("1 left out: V3: this ring touches or crosses itself\n", said)
        self.assertIn("1 left out: V1: this line or ring has too few positions that differ; valid in the source, broken by the grid\n", said)

    def test_a_layer_of_them(self):
        long = [[it * 0.001, it % 7] for it in range(10_001)]
        source = self.source([feature(("Polygon", BOW)), feature(("LineString", long)), feature(("Point", [1, 2]))])
        for ending in ("geojson", "gpkg"):
            path = f"{os.path.dirname(source)}/rejects.{ending}"
            self.imported(source, "--rejects", path, grid="0.01")
            if ending == "geojson":
                found = json.loads(read(path))["features"]
                rows = [tuple(it["properties"].get(name) for name in ("record", "fid", "code", "x", "y")) for it in found]
                self.assertEqual([it["geometry"]["type"] for it in found], ["Polygon", "LineString"])
            else:
                rows = sqlite3.connect(path).execute("SELECT record, fid, code, x, y FROM rejects ORDER BY record").fetchall()
            self.assertEqual(rows, [(1, 0, "V3", 2.0, 2.0), (2, 1, "W4", None, None)])
        ran = self.command("sfq-import", source, "--out", f"{self.room}/none", "--rejects", "a.shp")
        self.assertEqual((ran.returncode, os.path.exists(f"{self.room}/none")), (2, False))
        self.assertIn("'a.shp' ends with none of .gpkg, .geojson, .fgb", ran.stderr)

    def test_a_join_that_lacks_rows(self):
        areas = [feature(("Polygon", BOW)), feature(("Polygon", square(20, 20))), feature(("Polygon", [[[90, 90], [94, 94], [94, 90], [90, 94], [90, 90]]]))]
        points = [feature(("Point", [3, 3])), feature(("Point", [21, 21]))]
        one, other = self.source(areas, "area"), self.source(points, "spot")
        folder = f"{os.path.dirname(one)}/out"
        self.assertEqual(self.command("sfq-import", one, other, "--grid", "1", "--out", folder).returncode, 0)
        join, alone = "SELECT s.fid FROM area a JOIN spot s ON ST_Contains(a.geom, s.geom)", "SELECT fid FROM area"
        # Of the two bow ties the envelope of one alone has a point.
        said = "sfq-ask: the join may lack rows: 1 record is left out of area whose envelope meets rows of spot: fid 0 (5 positions); " \
               f"{folder}/left-out.csv says why, and --lenient asks all the same; --invalid mend mends what isn't valid, 1 of them"
        for query in (join, "SELECT s.fid FROM spot s JOIN area a ON ST_Within(s.geom, a.geom)"):
            out, err, status = self.ask(folder, query)
            self.assertEqual((out, status, err.count("\n")), ("", 4, 1), err)
            self.assertTrue(err.startswith(said), err)
        note = f"sfq-ask: note: area: 2 records are left out: the largest fid 0 (5 positions), fid 2 (5 positions); {folder}/left-out.csv says why\n"
        self.assertEqual(self.ask(folder, join, "--lenient"), ("s.fid\n1\n", note, 0))
        self.assertEqual(self.ask(folder, alone), ("fid\n1\n", note, 0))
        self.assertEqual(self.ask(folder, alone), ("fid\n1\n", note, 0))
        self.assertEqual(self.ask(folder, "SELECT a.fid FROM spot a JOIN spot b ON ST_Equals(a.geom, b.geom)"), ("a.fid\n0\n1\n", "", 0))
        self.assertEqual(self.ask(folder, alone, "--strict")[2], 4)
        self.assertEqual(self.ask(folder, f"EXPLAIN {join}")[2], 0)
        far = self.source([feature(("Point", [70, 70]))], "far")
        self.assertEqual(self.command("sfq-import", far, "--out", folder).returncode, 0)
        self.assertEqual(self.ask(folder, join.replace("spot", "far"))[::2], ("s.fid\n", 0))

    def test_places_of_the_shell(self):
        folder, _ = self.imported([feature(("Point", [101, -49]))], "--origin", "100,-50", grid="0.5")
        bow, square_, point = "POLYGON((0 0,4 4,4 0,0 4,0 0))", "POLYGON((0 0,4 0,4 4,0 4,0 0))", "POINT(4 0)"
        ran = self.command("sfq-shell", f"{folder}/schema.sql", folder, given=f".why '{bow}'\n.why '{square_}'\n.why '{point}' '{square_}'\n")
        lines = ran.stdout.splitlines()
        self.assertEqual(lines[:2], ["V3 0: 0 0 to 4 4 and 4 0 to 0 4 share 2 2; in the source at 101.0 -49.0", "valid"])
        self.assertEqual([it.rstrip() for it in lines if it.startswith("interior")], [
            "interior interior F", "interior boundary 0 at 4 0; in the source at 102.0 -50.0", "interior exterior F"])
        # Tables of another kind have no source.
        os.rename(f"{folder}/grid.json", f"{folder}/other.json")
        ran = self.command("sfq-shell", f"{folder}/schema.sql", folder, given=f".why '{bow}'\n")
        self.assertEqual(ran.stdout, "V3 0: 0 0 to 4 4 and 4 0 to 0 4 share 2 2\n")
        os.rename(f"{folder}/other.json", f"{folder}/grid.json")

    def test_a_folder_of_an_older_import(self):
        folder, _ = self.imported([feature(("Polygon", BOW)), feature(("Polygon", square(0, 0)))])
        lines = [row[:6] for row in csv.reader(io.StringIO(read(f"{folder}/left-out.csv")))]
        write(f"{folder}/left-out.csv", "".join(",".join(it) + "\n" for it in lines))
        out, err, status = self.ask(folder, "SELECT a.fid FROM t a JOIN t b ON ST_Equals(a.geom, b.geom)")
        self.assertEqual((out, status), ("a.fid\n1\n", 0), err)
        self.assertIn("note: t: 1 record is left out: fid 0; ", err)

    def test_dimensions_and_collections(self):
        folder, said = self.imported([
            {"type": "Feature", "properties": {}, "geometry": it} for it in (
                {"type": "Point", "coordinates": [1, 2, 3]}, {"type": "GeometryCollection", "geometries": []},
                {"type": "GeometryCollection", "geometries": [{"type": "Point", "coordinates": [4, 5]}, {"type": "MultiPoint", "coordinates": [[6, 7]]}]},
                {"type": "GeometryCollection", "geometries": [{"type": "Point", "coordinates": [4, 5]}, {"type": "LineString", "coordinates": [[4, 5], [6, 7]]}]},
            )])
        self.assertEqual(self.column(folder), ["MULTIPOINT((1 2))", "MULTIPOINT EMPTY", "MULTIPOINT((4 5),(6 7))"])
        self.assertIn("1 geometry without its Z or M", said)
        self.assertIn("2 collections became geometries of a MULTI type, or empty ones", said)
        self.assertEqual([it[2] for it in self.left_out(folder)], ["W1 at 0: GEOMETRYCOLLECTION"])


if __name__ == "__main__":
    unittest.main()
