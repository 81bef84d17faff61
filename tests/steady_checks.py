"""Pairs of areas that meet in the same way wherever their vertices are within half a step: made cases, and random ones by exact relations.

tests/test_steady.py runs it by a Python that has numpy and GDAL.
"""
import math
import os
import random
import runpy
import sys
import unittest

runpy.run_path(f"{os.path.dirname(os.path.dirname(os.path.realpath(__file__)))}/tools/paths.py")

import numpy
from osgeo import gdal, ogr
from sfq.geometry import binary, exact, grids
from sfq.layers import relating, steady

ogr.UseExceptions()
gdal.PushErrorHandler("CPLQuietErrorHandler")
GRID = grids.Grid("1")
SQUARE = [[(0, 0), (10, 0), (10, 10), (0, 10)]]


def area(rings):
    """Returns the well-known binary of a polygon by its rings, which aren't closed."""
    text = ",".join("(" + ",".join(f"{x!r} {y!r}" for x, y in [*it, it[0]]) + ")" for it in rings)
    return bytes(ogr.CreateGeometryFromWkt(f"POLYGON({text})").ExportToWkb(1))


def pairs_of(*given):
    """Returns the pairs of some areas by their well-known binary."""
    boxes = []
    for it in given:
        west, east, south, north = ogr.CreateGeometryFromWkb(it).GetEnvelope()
        boxes.append(tuple(math.floor(each + 0.5) for each in (west, east, south, north)))
    made = steady.Outlines(given, boxes, GRID)
    return steady.Pairs(made, made)


def is_steady(one, other):
    """Whether two areas are, in both orders."""
    found = pairs_of(one, other).steady(numpy.array([0, 1]), numpy.array([1, 0])).tolist()
    assert found[0] == found[1]
    return found[0]


class Made(unittest.TestCase):
    """Cases whose answers are known."""

    def check(self, other, wanted, one=SQUARE):
        for turn in (lambda it: it, lambda it: [ring[::-1] for ring in it], lambda it: [[(y, x) for x, y in ring] for ring in it]):
            self.assertEqual(is_steady(area(turn(one)), area(turn(other))), wanted, other)

    def test_neighbours(self):
        self.check([[(10, 0), (20, 0), (20, 10), (10, 10)]], True)
        # A corner alone, and a border of two edges.
        self.check([[(10, 10), (20, 10), (20, 20), (10, 20)]], True)
        self.check([[(10, 0), (20, 0), (20, 20), (0, 20), (0, 10), (10, 10)]], True)

    def test_interiors_that_meet(self):
        self.check([[(0, 0), (10, 0), (10, 20), (0, 20)]], False)
        self.check([[(0, 0), (20, -8), (20, 5)]], True)
        # They cross, and have no vertex in common.
        self.check([[(5, 5), (20, 5), (20, 6), (5, 6)]], False)
        self.check([[(5, 3), (20, 3), (20, 7), (5, 7)]], True)
        # The same area, and one that is within it and touches it in a corner.
        self.check(SQUARE, True)
        self.check([[(0, 0), (7, 3), (3, 7)]], True)

    def test_what_rounding_may_change(self):
        # A vertex on an edge of the other, a gap and a sliver below a step.
        self.check([[(10, 0), (20, 0), (20, 20), (10, 20)]], False)
        self.check([[(10.25, 0), (20, 0), (20, 10), (10.25, 10)]], False)
        self.check([[(9.75, 0), (20, 0), (20, 10), (9.75, 10)]], False)
        # A corner that is one on the grid and two in the source.
        self.check([[(10.25, 10), (20, 10), (20, 20), (10, 20)]], False)
        # Two edges from one vertex that nearly run along each other.
        self.check([[(0, 0), (40, 1), (40, -9)]], False)

    def test_what_does_not_meet(self):
        self.check([[(12, 0), (20, 0), (20, 10), (12, 10)]], False)
        self.check([[(3, 3), (7, 3), (7, 7), (3, 7)]], False)

    def test_holes_and_several_areas(self):
        holed = [[(0, 0), (30, 0), (30, 30), (0, 30)], [(10, 10), (10, 20), (20, 20), (20, 10)]]
        self.check([[(10, 10), (20, 10), (20, 20), (10, 20)]], True, holed)
        self.check([[(10, 10), (20, 10), (15, 15)]], True, holed)
        both = ogr.CreateGeometryFromWkt("MULTIPOLYGON(((0 0,10 0,10 10,0 10,0 0)),((20 0,30 0,30 10,20 10,20 0)))")
        middle = area([[(10, 0), (20, 0), (20, 10), (10, 10)]])
        self.assertTrue(is_steady(bytes(both.ExportToWkb(1)), middle))

    def test_what_nothing_is_said_of(self):
        # Lines, an area with Z, a ring without an area to speak of, and an edge that vanishes.
        square = area(SQUARE)
        line = bytes(ogr.CreateGeometryFromWkt("LINESTRING(0 0,10 0,10 10,0 0)").ExportToWkb(1))
        deep = bytes(ogr.CreateGeometryFromWkt("POLYGON Z((0 0 1,10 0 1,10 10 1,0 0 1))").ExportToWkb(1))
        narrow, short = area([[(10, 0), (20, 0), (20, 0.75)]]), area([[(10, 0), (20, 0), (20, 10), (10, 10), (10, 9.75)]])
        for it in (line, deep, narrow, short):
            self.assertFalse(is_steady(square, it))
        self.assertEqual(pairs_of(line, line).steady(numpy.array([0]), numpy.array([1])).tolist(), [False])

    def test_corners_that_may_fold_over(self):
        """Of a spike that is thinner than a step, rounding may exchange the edges, and with them what is inside of its corner."""
        for width, wanted in ((0.75, False), (8, True)):
            spike = [[(0, 0), (60, 0), (60, 40), (40, 40), (40, 20 + width), (0, 20), (40, 20), (40, 10), (0, 10)]]
            with self.subTest(width=width):
                self.check([[(0, 20), (-20, 30), (-20, 10)]], wanted, spike)

    def test_many_at_once(self):
        """What is found doesn't depend on how many edges are looked at in one go."""
        cells = [area([[(10 * x, 10 * y), (10 * x + 10, 10 * y), (10 * x + 10, 10 * y + 10), (10 * x, 10 * y + 10)]]) for x in range(6) for y in range(6)]
        ones, others = numpy.triu_indices(36, 1)
        found = pairs_of(*cells).steady(ones, others)
        self.assertEqual(int(found.sum()), 6 * 5 * 2 + 5 * 5 * 2)
        for edges, products in ((9, 10), (1, 1), (100, 1_000_000)):
            steady.MOST_EDGES, steady.MOST_AT_ONCE = edges, products
            self.assertTrue((pairs_of(*cells).steady(ones, others) == found).all())


class Random(unittest.TestCase):
    """Areas whose vertices are of one lattice, each moved by up to half a step in eighths: both relations are known exactly."""

    def shape(self, dice, size):
        """Returns an area around a place of the lattice: its vertices in the order of their directions."""
        x, y = dice.uniform(2, 5), dice.uniform(2, 5)
        corners = {(dice.randrange(8), dice.randrange(8)) for _ in range(dice.randrange(3, 8))}
        return sorted(corners, key=lambda it: math.atan2(it[1] - y, it[0] - x))

    def test_relations_stay(self):
        dice = random.Random(5)
        counts = {"steady": 0, "changed": 0, "same": 0}
        names = set()
        while counts["steady"] < 400 or counts["changed"] < 60:
            size = dice.choice((1, 2, 3, 6, 20, 100))
            moved = {(x, y): (size * x + dice.randrange(-4, 4) / 8, size * y + dice.randrange(-4, 4) / 8) for x in range(8) for y in range(8)}
            corners = [self.shape(dice, size) for _ in range(2)]
            if min(map(len, corners)) < 3:
                continue
            sources = [area([[moved[it] for it in its]]) for its in corners]
            rounded = [relating.rounded(binary.shape(it), GRID) for it in sources]
            on_grid = [area([list(zip(it.parts[0][0][:-2:2], it.parts[0][0][1:-2:2]))]) if len(it.parts[0][0]) >= 8 else None for it in rounded]
            if not all(it and ogr.CreateGeometryFromWkb(it).IsValid() for it in (*sources, *on_grid)):
                continue
            before, after = exact.related(*map(binary.shape, sources)).name, exact.related(*rounded).name
            if is_steady(*sources):
                counts["steady"] += 1
                names.add(before)
                self.assertEqual(before, after, sources)
                self.assertNotEqual(before, exact.DISJOINT)
            else:
                counts["changed" if before != after else "same"] += 1
        self.assertEqual(names & {"touches", "overlaps"}, {"touches", "overlaps"})
        print(counts, sorted(names), file=sys.stderr)


if __name__ == "__main__":
    unittest.main()
