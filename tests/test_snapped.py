"""Records that sfq refuses as they are: what rounding alone breaks is rounded anew, areas whose rings touch become rows, and which predicates
over such rows sfq-ask takes."""
import json
import os
import subprocess
import unittest

from support import python_command, read

import engine_rows
import library
from import_calls import PYTHON, WithImports, feature, square
from sfq.geometry import binary, grids
from sfq.layers import snapping

# A square with a slot, 0.1 wide, whose two sides fall on one line of whole numbers, and reach the lower side of the square.
SLOT = ("Polygon", [[[40, 0], [50, 0], [50, 10], [45.4, 10], [45.4, 0.3], [45.3, 10], [40, 10], [40, 0]]])
# Two squares with a bridge between them, which is lost.
BRIDGE = ("Polygon", [[[0, 0], [4, 0], [4, 2.1], [6, 2.1], [6, 0], [10, 0], [10, 4], [6, 4], [6, 2.2], [4, 2.2], [4, 4], [0, 4], [0, 0]]])
THIN = ("Polygon", [[[70, 0], [80, 0.2], [80, 0.4], [70, 0]]])
# A hole that touches the outer ring; two areas that touch.
HOLE = ("Polygon", [[[0, 0], [9, 0], [9, 9], [0, 9], [0, 0]], [[0, 2], [1, 1], [1, 3], [0, 2]]])
# Twice as wide, so that the cut has a whole point inside.
WIDE = ("Polygon", [[[2 * x, 2 * y] for x, y in ring] for ring in HOLE[1]])
TWO = ("MultiPolygon", [square(20, 0), square(24, 4)])
BOW = ("Polygon", [[[60, 0], [64, 4], [64, 0], [60, 4], [60, 0]]])
BROKEN = "; valid in the source, broken by the grid"


class Steps(engine_rows.WithLibrary):
    """What GEOS gets, which needs no GDAL. The values are computed by hand."""

    @classmethod
    def setUpClass(cls):
        super().setUpClass()
        os.environ["SFQ_LIBRARY"] = library.SHARED

    def test_coordinates_in_steps(self):
        grid = grids.Grid("0.5", ("10", "0"))
        self.assertEqual(snapping.all_in_steps([10.0, 10.5, 10.125, 9.5], grid), [(0.0, 21.0), (0.25, 19.0)])
        # In the middle between two places it is nearer to the one that it is rounded to.
        self.assertEqual(snapping.all_in_steps([10.25, -0.25], grid), [(1 - snapping.MOST, 0 - snapping.MOST)])
        self.assertEqual(snapping.all_in_steps([9.75, 0.25], grid), [(0 - snapping.MOST, 1 - snapping.MOST)])
        for it in (float("inf"), float("nan"), 1e300, -5e6):
            with self.assertRaises(grids.NotANumber):
                snapping.all_in_steps([it, 0.0], grid)

    def test_the_binary_form(self):
        """It is read again as it was."""
        for given in (
            binary.Shape("POLYGON", [[(0.0, 0.0, 4.0, 0.0, 4.0, 4.0, 0.0, 0.0)]]), binary.Shape("LINESTRING", [[(0.0, 0.0, 3.0, 1.0)]]),
            binary.Shape("MULTIPOLYGON", [[(0.0, 0.0, 9.0, 0.0, 9.0, 9.0, 0.0, 0.0), (2.0, 1.0, 3.0, 1.0, 3.0, 2.0, 2.0, 1.0)], [(20.0, 0.0, 21.0, 0.0, 21.0, 1.0, 20.0, 0.0)]]),
            binary.Shape("MULTILINESTRING", [[(0.0, 0.0, 3.0, 1.0)], [(5.0, 5.0, 6.0, 6.0, 7.0, 5.0)]]),
        ):
            found = binary.shape(snapping.scaled(given, grids.Grid("1")))
            self.assertEqual((found.word, [[tuple(it) for it in part] for part in found.parts]), (given.word, [list(map(tuple, it)) for it in given.parts]))


class Snapped(WithImports):
    """Over imports by the command."""

    def ask(self, *words):
        known = {**os.environ, "SFQ_LIBRARY": library.SHARED, "PYTHONDONTWRITEBYTECODE": "1", "XDG_CACHE_HOME": f"{self.room}/cache"}
        ran = subprocess.run([*python_command(PYTHON, "sfq-ask"), *words], env=known, capture_output=True, text=True, cwd=self.room)
        return ran.stdout, ran.stderr, ran.returncode

    def layer(self, folder):
        return json.loads(read(f"{folder}/grid.json"))["layers"][0]

    def test_what_rounding_broke(self):
        folder, said = self.imported([feature(it) for it in (SLOT, BRIDGE, THIN)], "--anyway")
        self.assertEqual(self.column(folder, "fid"), ["0", "1"])
        slot, bridge = self.column(folder)
        # The slot is gone, and the lower side has the place to which its end was rounded.
        self.assertEqual(set(slot.removeprefix("MULTIPOLYGON(((").removesuffix(")))").split(",")), {"40 0", "40 10", "45 10", "50 10", "50 0", "45 0"})
        # The bridge is gone, and each square has the place where it began.
        areas = [set(it.split(",")) for it in bridge.removeprefix("MULTIPOLYGON(((").removesuffix(")))").split(")),((")]
        self.assertEqual(areas, [{"0 0", "0 4", "4 4", "4 2", "4 0"}, {"6 4", "10 4", "10 0", "6 0", "6 2"}])
        self.assertEqual([(it[2].endswith(BROKEN), it[2][:2], it[3]) for it in self.left_out(folder)], [
            (True, "V3", "snapped"), (True, "V3", "snapped"), (True, "V1", "left out")])
        self.assertIn(f"sfq-import: t: 2 snapped: V3: this ring touches or crosses itself{BROKEN}\n", said)
        self.assertIn(f"sfq-import: t: 1 left out: V1: this line or ring has too few positions that differ{BROKEN}\n", said)
        found = self.layer(folder)
        self.assertEqual([found[it] for it in ("records", "rows", "left_out", "snapped", "mended")], [3, 2, 1, 2, 0])

    def test_the_old_way(self):
        folder, _ = self.imported([feature(it) for it in (SLOT, HOLE, TWO, ("Point", [1, 2]))], "--invalid", "leave-out", "--anyway")
        self.assertEqual((self.column(folder, "fid"), [it[3] for it in self.left_out(folder)]), (["3"], ["left out"] * 3))

    def test_a_step_that_breaks_much_is_asked_for_all_the_same(self):
        ran = self.command("sfq-import", self.source([feature(SLOT)]), "--grid", "1", "--out", f"{self.room}/broken")
        self.assertEqual(ran.returncode, 4)
        self.assertIn("t: 1 of 1 record is valid in the source, and broken by the step 1: ", ran.stderr)

    def test_a_line_that_loses_a_piece(self):
        folder, _ = self.imported([feature(("MultiLineString", [[[0, 0], [0.2, 0.1]], [[0, 0], [5, 5.5]]])), feature(("LineString", [[0, 0], [0.1, 0.2]]))], "--anyway")
        self.assertEqual(self.column(folder), ["LINESTRING(0 0,5 6)"])
        self.assertEqual([it[3] for it in self.left_out(folder)], ["snapped", "left out"])

    def test_rings_that_touch(self):
        folder, said = self.imported([feature(it, n=at) for at, it in enumerate((HOLE, TWO, ("Polygon", square(90, 0))))])
        self.assertEqual([it[:4] for it in self.table(folder)], [
            ["part", "whole", "fid", "n"], *([str(at + 1), it, it, it] for at, it in enumerate("00112"))])
        # As tests/test_touching.py has them.
        self.assertEqual(sorted(self.column(folder)[:2]), ["POLYGON((0 0,9 0,9 9,0 9,0 2,1 3,1 1,0 0))", "POLYGON((1 1,0 2,0 0,1 1))"])
        self.assertEqual(self.column(folder)[2:4], ["POLYGON((20 0,24 0,24 4,20 4,20 0))", "POLYGON((24 4,28 4,28 8,24 8,24 4))"])
        self.assertIn("sfq-import: t: 2 records are parted into 4 rows, 2 of them since their rings touch: part is the key, whole that of the record; ", said)
        found = self.layer(folder)
        self.assertEqual(([found["parted"][it] for it in ("records", "rows", "touching")], found["left_out"], self.left_out(folder)), ([2, 4, 2], 0, []))

    def test_the_grid_makes_rings_touch(self):
        """On the grid the hole has a corner on the side of the square; what is said of a broken record is said of none that is cut."""
        near = ("Polygon", [[[0, 0], [9, 0], [9, 9], [0, 9], [0, 0]], [[0.2, 2], [1, 1], [1, 3], [0.2, 2]]])
        folder, _ = self.imported([feature(near)], "--anyway")
        self.assertEqual((sorted(self.column(folder)), self.left_out(folder)), (["POLYGON((0 0,9 0,9 9,0 9,0 2,1 3,1 1,0 0))", "POLYGON((1 1,0 2,0 0,1 1))"], []))

    def test_what_is_not_valid_in_the_source_is_left_out(self):
        crossing = ("MultiPolygon", [square(0, 0), square(2, 2)])
        folder, _ = self.imported([feature(it) for it in (BOW, crossing, ("Point", [1, 2]))])
        self.assertEqual([(it[2][:2], it[3]) for it in self.left_out(folder)], [("V3", "left out"), ("V7", "left out")])
        folder, _ = self.imported([feature(it) for it in (BOW, crossing)], "--invalid", "mend")
        self.assertEqual(self.column(folder, "whole"), ["0", "0", "1"])

    def test_predicates_over_areas_whose_rings_touch(self):
        """The area with the hole has the envelope from 0 0 to 9 9."""
        areas, spots = [feature(HOLE), feature(("Polygon", square(90, 0)))], [feature(("Point", [91, 1])), feature(("Point", [92, 2]))]
        one, other = self.source(areas, "area"), self.source(spots, "spot")
        folder = f"{os.path.dirname(one)}/out"
        self.assertEqual(self.command("sfq-import", one, other, "--grid", "1", "--out", folder).returncode, 0)
        join = "SELECT a.fid, s.fid FROM area a JOIN spot s ON {}(s.geom, a.geom)"
        for name in ("ST_Within", "ST_Intersects"):
            self.assertEqual(self.ask(folder, join.format(name))[::2], ("a.fid,s.fid\n1,0\n1,1\n", 0), name)
        self.assertEqual(self.ask(folder, "SELECT fid FROM area WHERE ST_Contains(geom, ST_GeomFromText('POINT(91 1)'))")[::2], ("fid\n1\n", 0))
        for query, wanted in (
            ("SELECT fid FROM area WHERE ST_Contains(geom, ST_GeomFromText('LINESTRING(5 5,6 6)'))", "fid\n0\n"),
            ("SELECT a.fid FROM area a JOIN area b ON ST_Touches(a.geom, b.geom)", "a.fid\n"),
            ("SELECT a.fid FROM area a JOIN spot s ON ST_Relate(s.geom, a.geom, 'T********')", "a.fid\n1\n1\n"),
            ("SELECT fid FROM area WHERE ST_Within(geom, geom)", "fid\n0\n1\n"),
        ):
            out, err, status = self.ask(folder, query)
            self.assertEqual((out, status), (wanted, 0), f"{query}: {err}")
        # The cut goes from 0 0 to 2 2, and the rings touch in 0 4. Points elsewhere are in one part, on its boundary or in none.
        for number, (spot, wanted) in enumerate((([18, 18], ("", "0,0")), ([5, 5], ("0,0", "")), ([0, 7], ("", "0,0")), ([1, 4], ("", "")), ([1, 1], ("0,0", "")),
                                                 ([0, 4], ("", "0,0")))):
            close, near = self.source([feature(("Point", spot))], "spot"), f"{os.path.dirname(one)}/near{number}"
            self.assertEqual(self.command("sfq-import", self.source([feature(WIDE)], "area"), close, "--grid", "1", "--out", near).returncode, 0)
            for name, rows in zip(("ST_Within", "ST_Touches"), wanted):
                out, err, status = self.ask(near, join.format(name))
                self.assertEqual((out, status), ("a.fid,s.fid\n" + (f"{rows}\n" if rows else ""), 0), err)
            constant = f"SELECT fid FROM area WHERE ST_Touches(geom, ST_GeomFromText('POINT({spot[0]} {spot[1]})'))"
            self.assertEqual(self.ask(near, constant)[::2], ("fid\n0\n" if wanted[1] else "fid\n", 0))
        beside = self.source([feature(("LineString", [[9, 9], [12, 12]]))], "spot")
        self.assertEqual(self.command("sfq-import", one, beside, "--grid", "1", "--out", f"{folder}2").returncode, 0)
        self.assertEqual(self.ask(f"{folder}2", join.format("ST_Touches"))[::2], ("a.fid,s.fid\n0,0\n", 0))
        self.assertEqual(self.ask(f"{folder}2", join.format("ST_Intersects"))[::2], ("a.fid,s.fid\n0,0\n", 0))


if __name__ == "__main__":
    unittest.main()
