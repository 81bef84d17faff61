"""Geometries of many parts, listed in no order: they are related as those whose parts are in order."""
import random
import subprocess
import unittest

from support import needs_build

from faults import sweeps

COUNT, ACROSS, STEP, WIDTH = 400, 20, 10, 6


def positions_text(positions):
    return "(" + ",".join(f"{x} {y}" for x, y in positions) + ")"


def square(k):
    """The outline of a square of a grid, and where it begins."""
    x, y = STEP * (k % ACROSS), STEP * (k // ACROSS)
    return [(x, y), (x + WIDTH, y), (x + WIDTH, y + WIDTH), (x, y + WIDTH), (x, y)]


def squares(order):
    """Squares in an order, as polygons and as closed lines."""
    rings = [positions_text(square(k)) for k in order]
    return "MULTIPOLYGON(" + ",".join(f"({it})" for it in rings) + ")", "MULTILINESTRING(" + ",".join(rings) + ")"


# What is related to them: inside, on a border, beside, across and around squares.
OTHERS = (
    "POINT(3 3)", "POINT(0 3)", "POINT(8 3)", "POINT(193 193)", "POINT(500 3)", "MULTIPOINT((3 3),(8 8),(190 196))",
    "LINESTRING(1 1,5 5)", "LINESTRING(7 7,9 9)", "LINESTRING(53 53,58 53)", "LINESTRING(50 52,50 55)", "LINESTRING(50 52,50 70)",
    "LINESTRING(-5 3,400 3)", "LINESTRING(0 0,196 196)", "POLYGON((51 51,55 51,55 55,51 55,51 51))",
    "POLYGON((50 50,56 50,56 56,50 56,50 50))", "POLYGON((47 47,49 47,49 49,47 49,47 47))", "POLYGON((-1 -1,200 -1,200 200,-1 200,-1 -1))",
)


class ScatteredParts(unittest.TestCase):
    ASKS_PROGRAM = True

    def relate(self, pairs):
        text = "".join(f'"{a}","{b}"\n' for a, b in pairs)
        ran = subprocess.run([sweeps.program(), "pairs", "-"], input=text.encode(), capture_output=True, timeout=sweeps.PATIENCE)
        self.assertEqual((ran.stderr, ran.returncode), (b"", 0))
        return ran.stdout.decode().split()

    def orders(self):
        """The order of rows, and one by chance."""
        by_chance = list(range(COUNT))
        random.Random(COUNT).shuffle(by_chance)
        return range(COUNT), by_chance

    @needs_build
    def test_some_matrices(self):
        polygons, lines = squares(self.orders()[1])
        pairs = [(OTHERS[0], polygons), (OTHERS[1], polygons), (OTHERS[2], polygons), (OTHERS[6], polygons), (OTHERS[9], lines)]
        wanted = ["0FFFFF212", "F0FFFF212", "FF0FFF212", "1FF0FF212", "1FF0FF1F2"]
        self.assertEqual(self.relate(pairs), wanted)

    @needs_build
    def test_matrices_do_not_depend_on_the_order(self):
        ordered, scattered = (squares(order) for order in self.orders())
        others = [*OTHERS, *ordered]
        in_order = [pair for it in ordered for other in others for pair in ((it, other), (other, it))]
        in_none = [pair for it in scattered for other in others for pair in ((it, other), (other, it))]
        self.assertEqual(self.relate(in_none), self.relate(in_order))


if __name__ == "__main__":
    unittest.main()
