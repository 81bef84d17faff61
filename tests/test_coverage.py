"""sfq-ask --coverage: registers with known faults, what cells enclose by a model over cells, and shapely's answer where it has one."""
import collections
import csv
import io
import json
import os
import random
import sqlite3
import subprocess
import unittest
import xml.etree.ElementTree as tree

from support import python_command, python_with

import library
from import_calls import PYTHON, WithImports, feature
from sfq.geometry import covering

SHAPELY = python_with("shapely; shapely.coverage_is_valid")
IS_VALID = "import json, sys, shapely\nprint(json.dumps([bool(shapely.coverage_is_valid([shapely.Polygon(it) for it in each])) for each in json.load(sys.stdin)]))"

INVALID = "import json, sys, shapely\nprint(sum(not it.is_empty for it in shapely.coverage_invalid_edges([shapely.Polygon(it) for it in json.load(sys.stdin)])))"


def cell(x, y, size=1):
    """Returns the ring of a square, counterclockwise."""
    return [(x, y), (x + size, y), (x + size, y + size), (x, y + size)]


def register(count, size=10):
    """Returns squares side by side, by their places."""
    return {(i, j): [list(it) for it in cell(size * i, size * j, size)] for i in range(count) for j in range(count)}


def outside(cells, count):
    """Returns the cells beside those of a square that a way reaches from outside of it, over sides of cells that aren't there."""
    found, left = set(), [(-1, -1)]
    while left:
        at = left.pop()
        if at not in found and at not in cells and all(-1 <= it <= count for it in at):
            found.add(at)
            left += [(at[0] + x, at[1] + y) for x, y in ((0, 1), (1, 0), (0, -1), (-1, 0))]
    return found


def components(cells):
    """Returns the sets of cells that hang together by their sides."""
    left, found = set(cells), []
    while left:
        each, more = set(), [left.pop()]
        while more:
            x, y = more.pop()
            each.add((x, y))
            near = {(x, y + 1), (x + 1, y), (x, y - 1), (x - 1, y)} & left
            left -= near
            more += near
        found.append(each)
    return found


class Rings(unittest.TestCase):
    """Edges and loops, which need no library."""

    def test_rings(self):
        square = cell(0, 0, 4)
        self.assertEqual(covering.rings_of("POLYGON((0 0,4 0,4 4,0 4,0 0))"), [square])
        self.assertEqual(covering.rings_of("POLYGON((0 0,0 4,4 4,4 0,0 0),(1 1,2 1,2 2,1 1))"), [[(4, 0), (4, 4), (0, 4), (0, 0)], [(2, 2), (2, 1), (1, 1)]])
        self.assertEqual(len(covering.rings_of("MULTIPOLYGON(((0 0,4 0,4 4,0 0)),((9 9,10 9,10 10,9 9)))")), 2)
        self.assertEqual((covering.rings_of("POINT(1 1)"), covering.rings_of("LINESTRING(0 0,1 1)")), ([], []))
        self.assertEqual((covering.doubled_area(square), covering.doubled_area(square[::-1])), (32, -32))

    def test_vertices_on_edges(self):
        edge = ((0, 0), (6, 3))
        self.assertEqual([covering.is_between(it, edge) for it in ((2, 1), (0, 0), (6, 3), (8, 4), (2, 2), (-2, -1))], [True] + [False] * 5)
        self.assertEqual(covering.split([(0, 0), (6, 3), (0, 6)], [(4, 2), (2, 1), (0, 3), (9, 9)]), [(0, 0), (2, 1), (4, 2), (6, 3), (0, 6), (0, 3)])

    def test_what_is_enclosed(self):
        around = [cell(x, y) for x in range(3) for y in range(3) if (x, y) != (1, 1)]
        self.assertEqual([sorted(it) for it in covering.enclosed(around)], [sorted(cell(1, 1))])
        self.assertEqual(list(covering.enclosed([*around, cell(1, 1)])), [])
        # Two that meet in a corner are two.
        some = [cell(x, y) for x in range(4) for y in range(4) if (x, y) not in ((1, 1), (2, 2))]
        self.assertEqual(sorted(sorted(it) for it in covering.enclosed(some)), [sorted(cell(1, 1)), sorted(cell(2, 2))])

    def test_cells_at_random(self):
        chance, count = random.Random(5), 0
        for _ in range(400):
            size = chance.randrange(3, 8)
            cells = {(x, y) for x in range(size) for y in range(size) if chance.random() < 0.75}
            empty = {(x, y) for x in range(size) for y in range(size)} - cells - outside(cells, size)
            wanted = components(empty)
            # An island in a gap is within its ring.
            if any(len(outside(it, size)) + len(it) != (size + 2) ** 2 for it in wanted):
                continue
            found = list(covering.enclosed([cell(*it) for it in cells]))
            self.assertEqual(sorted(covering.doubled_area(it) // 2 for it in found), sorted(map(len, wanted)), cells)
            count += len(wanted)
        self.assertGreater(count, 300)


class Coverage(WithImports):
    """Over imports by the command."""

    def folder(self, cells, scale=100):
        features = [feature(("Polygon", [[*it, it[0]]]), i=at[0], j=at[1]) for at, it in cells.items()]
        return self.imported(features, "--no-relations", grid=f"{1 / scale:g}")[0]

    def ask(self, folder, *words):
        known = {**os.environ, "SFQ_LIBRARY": library.SHARED, "PYTHONDONTWRITEBYTECODE": "1", "XDG_CACHE_HOME": f"{self.room}/cache"}
        ran = subprocess.run([*python_command(PYTHON, "sfq-ask"), folder, *words], env=known, capture_output=True, text=True, cwd=self.room)
        return ran.stdout, ran.stderr, ran.returncode

    def faults(self, folder, *words):
        out, err, status = self.ask(folder, "--coverage", "t", *words)
        rows = list(csv.DictReader(io.StringIO(out, newline="")))
        return [(it["fault"], it["row"], it["other"], it["vertices"], it["area"], it["x"], it["y"]) for it in rows], err, status

    def test_a_coverage(self):
        wanted = ([], "sfq-ask: t: 36 areas, 110 pairs that meet: 0 overlaps, 0 borders, 0 gaps; it is a coverage\n", 0)
        self.assertEqual(self.faults(self.folder(register(6))), wanted)

    def test_each_fault_is_found(self):
        for change, status, wanted in (
            (lambda it: it[2, 2].__setitem__(1, [31, 20]), 8, [
                ("border", "13", "14", "1", "", "30.00", "20.00"), ("border", "14", "19", "2", "", "30.00", "20.00"), ("overlap", "14", "20", "", "", "30.50", "22.50")]),
            (lambda it: it[2, 2].insert(1, [25, 20]), 8, [("border", "13", "14", "1", "", "25.00", "20.00")]),
            (lambda it: it.pop((2, 2)), 0, [("gap", "13 14 19 8", "", "", "100.0", "30.00", "20.00")]),
            (lambda it: it[2, 2].__setitem__(2, [29.99, 30]), 8, [
                ("border", "14", "15", "1", "", "29.99", "30.00"), ("gap", "14 15 20", "", "", "0.05", "30.00", "30.00")]),
            (lambda it: it.__setitem__((9, 9), it[1, 1]), 8, [("overlap", "7", "36", "", "", "12.50", "12.50")]),
        ):
            cells = register(6)
            change(cells)
            found, err, ended = self.faults(self.folder(cells))
            self.assertEqual(ended, status, err)
            kinds = collections.Counter(it[0] for it in wanted)
            self.assertEqual(collections.Counter(it[0] for it in found), kinds, found)
            for it in wanted:
                if it[0] != "gap" and it[0] != "overlap":
                    self.assertIn(it, found)
                self.assertIn((it[0], set(it[1].split()), it[3], it[4]), [(one[0], set(one[1].split()), one[3], one[4]) for one in found])

    def test_outputs(self):
        cells = register(4)
        cells[1, 1].insert(1, [15, 10])
        del cells[2, 2]
        folder = self.folder(cells)
        self.assertEqual(self.ask(folder, "--coverage", "t", "--output", "a.gpkg")[2], 8)
        rows = sqlite3.connect(f"{self.room}/a.gpkg").execute("SELECT fault, vertices, area, x, y FROM answer").fetchall()
        self.assertEqual([it[:3] for it in rows], [("border", 1, None), ("gap", None, 100.0)])
        found = json.loads(self.ask(folder, "--coverage", "t", "--out", "geojson")[0])["features"]
        self.assertEqual([it["geometry"]["type"] for it in found], ["MultiPoint", "Polygon"])
        picture = tree.fromstring(self.ask(folder, "--coverage", "t", "--out", "svg")[0])
        self.assertEqual(len(picture.findall(".//*[@class='row']")), 2)
        self.assertEqual(self.ask(folder, "--coverage", "t", "--out", "table")[0].splitlines()[-1], "(2 rows)")

    def test_misuse_and_records_that_are_left_out(self):
        features = [feature(("Polygon", [[*it, it[0]]])) for it in register(2).values()]
        folder, _ = self.imported([*features, feature(("Polygon", [[[50, 50], [54, 54], [54, 50], [50, 54], [50, 50]]]))])
        self.assertEqual(self.ask(folder, "--coverage", "nope")[::2], ("", 2))
        out, err, status = self.ask(folder, "--coverage", "t")
        self.assertEqual((out.count("\n"), status), (1, 8))
        self.assertIn("it is a coverage\nsfq-ask: note: t: 1 record is left out: fid 4 (5 positions)", err)
        self.assertEqual(self.ask(folder, "--coverage", "t", "--lenient")[2], 0)
        lines, _ = self.imported([feature(("LineString", [[0, 0], [1, 1]]))])
        self.assertEqual(self.ask(lines, "--coverage", "t"), ("", "sfq-ask: t 0 is a LINESTRING: a coverage has polygons alone\n", 2))

    def test_a_record_in_parts(self):
        """A cell with a hole that touches its border: what is wrong is said of the record, whose parts are a coverage among themselves."""
        cells, hole = register(3), [[10, 14], [12, 12], [12, 16], [10, 14]]
        features = [feature(("Polygon", [[*it, it[0]], *([hole] if at == (1, 1) else [])])) for at, it in cells.items()]
        folder, _ = self.imported([*features, feature(("Polygon", [hole]))], "--no-relations", grid="1")
        found, err, status = self.faults(folder)
        # The hole has a corner on the side of cell 1, which has none there, and neither has the cell that fills the hole a neighbour's.
        self.assertEqual({it[:3] for it in found}, {("border", "1", "4"), ("border", "1", "9")}, err)
        self.assertEqual(status, 8)

    def test_ten_thousand_parcels(self):
        """Known faults that don't meet each other: 30 vertices that a neighbour lacks, 20 parcels that are missing, and 10 that are there twice."""
        cells = register(100)
        spots = [(5 * i + 2, 5 * j + 2) for i in range(20) for j in range(3)]
        for number, (i, j) in enumerate(spots):
            if number < 30:
                cells[i, j].insert(1, [10 * i + 5, 10 * j])
            elif number < 50:
                del cells[i, j]
            else:
                cells[1_000 + i, j] = [list(it) for it in cells[i, j]]
        found, err, status = self.faults(self.folder(cells))
        self.assertEqual((collections.Counter(it[0] for it in found), status), ({"border": 30, "gap": 20, "overlap": 10}, 8))
        self.assertIn("t: 9,990 areas, ", err)
        places = {it[5:] for it in found if it[0] == "border"}
        self.assertEqual(places, {(f"{10 * i + 5}.00", f"{10 * j}.00") for i, j in spots[:30]})
        self.assertEqual({it[4] for it in found if it[0] == "gap"}, {"100.0"})
        if SHAPELY:
            ran = subprocess.run([SHAPELY, "-c", INVALID], input=json.dumps(list(cells.values())), capture_output=True, text=True, check=True)
            # It finds both sides of each border and of each parcel that is there twice; gaps aren't asked for.
            self.assertEqual(json.loads(ran.stdout), 2 * 30 + 2 * 10)

    @unittest.skipUnless(SHAPELY, "needs shapely 2.1")
    def test_registers_at_random_as_shapely_says(self):
        chance, given, found = random.Random(8), [], []
        for _ in range(12):
            cells = register(5)
            for _ in range(chance.randrange(3)):
                it = cells[chance.randrange(5), chance.randrange(5)]
                if chance.random() < 0.5:
                    it[chance.randrange(4)][chance.randrange(2)] += chance.choice((-1, 1))
                else:
                    it.insert(1, [(it[0][0] + it[1][0]) / 2, (it[0][1] + it[1][1]) / 2])
            given.append(list(cells.values()))
            found.append(self.faults(self.folder(cells))[2] == 0)
        ran = subprocess.run([SHAPELY, "-c", IS_VALID], input=json.dumps(given), capture_output=True, text=True, check=True)
        self.assertEqual(found, json.loads(ran.stdout))
        self.assertEqual(set(found), {True, False})


if __name__ == "__main__":
    unittest.main()
