"""What is found of arrays of coordinates at once is what is found of each: whether it is on a grid, and which decimals all of them have."""
import os
import subprocess
import unittest

from support import ROOT, python_with

NUMPY = python_with("numpy")
# Prints how many coordinates were found on a grid at once, of which each is also on it alone.
ON_GRIDS = """
import math, numpy, random
from decimal import Decimal
from fractions import Fraction
from sfq.geometry import grids
dice, found = random.Random(1), 0
for step, origin in (("1", "0"), ("0.01", "0"), ("0.25", "0.5"), ("0.003", "-7.1"), ("10", "3"), ("1e-12", "0.3"), ("1e20", "0"), ("123456789012345678", "5")):
    axis = grids.Axis(Decimal(step), Decimal(origin))
    on = [float(Decimal(step) * dice.randint(-10**7, 10**7) + Decimal(origin)) for _ in range(500)]
    values = numpy.array([dice.choice((it, numpy.nextafter(it, 1e300), it + float(step) * dice.random(), it + float(step) / 2)) for it in on])
    wholes = numpy.floor((values - float(origin)) / float(step) + 0.5)
    are_at = axis.are_at(values, wholes)
    for it in map(float, values[are_at]):
        nearest = math.floor((Fraction(it) - axis.origin) / axis.step + Fraction(1, 2))
        assert float(axis.text(nearest)) == it, (step, origin, it)
    found += int(are_at.sum())
print(found > 300)
"""
# Prints how many positions moved of arrays in which they are on a grid, beside it by a last digit, between two places, or anywhere; how
# many do and how far one does at most is what is found of each.
MOVED = """
import math, numpy, random
from decimal import Decimal
from sfq.geometry import grids
dice, counted = random.Random(3), 0
for step, origin in (("1", "0"), ("0.01", "0"), ("0.25", "0.5"), ("0.003", "-7.1"), ("10", "3"), ("1e-12", "0.3"), ("1e20", "0"), ("123456789012345678", "5")):
    x, y = Decimal(step), Decimal(origin)
    grid = grids.Grid(step, (str(y), str(-y)))
    for most in (0.0, 1e-9, 0.5):
        for count in (0, 1, 300):
            steps = numpy.array([[dice.randint(-10**7, 10**7) for _ in "xy"] for _ in range(count)], dtype=numpy.int32).reshape(-1, 2)
            places = numpy.array([[float(x * int(n) + (y, -y)[at]) for at, n in enumerate(row)] for row in steps]).reshape(-1, 2)
            moved = [[dice.choice((it, numpy.nextafter(it, 1e300), it + float(step) * most * dice.uniform(-1, 1))) for it in row] for row in places]
            positions = numpy.array(moved, dtype=float).reshape(-1, 2)
            past = grids.past_steps(positions, steps, grid)
            far = [math.hypot(*(float(n) * axis.of_doubles[0] for n, axis in zip(row, (grid.x, grid.y)))) for row in past]
            each = [axis.beside(float(it), int(n)) for at, axis in enumerate((grid.x, grid.y)) for it, n in zip(positions[:, at], steps[:, at])]
            assert [it != 0 for it in each] == [bool(it) for it in (past != 0).T.ravel()]
            found, greatest = grids.moved(positions, grid, steps)
            assert found == sum(it > 0 for it in far), (step, origin, most, found)
            assert math.isclose(greatest, max(far, default=0.0), rel_tol=1e-15), (step, origin, most, greatest)
            counted += found
print(counted > 3000)
"""
# Prints whether there were arrays with a grid of their own; what is known of it at once is what is known by each.
DECIMALS = """
import numpy, random
from sfq.layers import proposing
dice, found = random.Random(2), 0
for _ in range(1000):
    each, whole = proposing.Decimals(), proposing.Decimals()
    for _ in range(dice.randint(1, 3)):
        unit, most = dice.choice([1, 10, 1, 1, 0.5, 0.1, 0.01, 1e9, 1e-14]), dice.choice([3, 1000, 10**7, 10**12, 10**17])
        count = dice.choice((0, 1, 2, 3, 4, proposing.FEW, proposing.FEW + 1, 2 * proposing.FEW + 50))
        rows = numpy.array([[dice.randint(-most, most) * unit for _ in "xy"] for _ in range(count)], dtype=float).reshape(-1, 2)
        # In long arrays some coordinates have more decimals than the first ones.
        for _ in range(dice.choice((0, 0, 1, proposing.FEW + 3)) if count > 4 else 0):
            rows[dice.randrange(count), 0] = dice.randint(-most, most) * dice.choice((0.1, 0.001, 0.25, 1e-9, 7))
        if dice.random() < 0.03 and len(rows):
            rows[dice.randrange(count), 0] = dice.choice([float("nan"), float("inf")])
        each.add(rows.ravel().tolist())
        whole.add_all(rows)
    assert each.is_exact == whole.is_exact and (not each.is_exact or vars(each) == vars(whole)), (vars(each), vars(whole))
    found += each.is_exact
print(found > 150)
"""
# Prints how many positions were written at once, each as it is written alone; and how many coordinates became doubles, each the nearest one.
SPELLED = """
import numpy, random
from sfq.geometry import grids
dice, found = random.Random(4), 0
for most in (0, 5, 9, 10, 10**7):
    for count in (0, 1, 2, 700):
        rows = numpy.array([[dice.randint(-most, most) for _ in "xy"] for _ in range(count)], dtype="i4").reshape(-1, 2)
        if count > 1:
            rows[0] = 0, -most
            rows[1] = most, 0
        text, starts = grids.spelled_all(rows)
        places = starts.tolist()
        assert [text[a : b - 1] for a, b in zip(places, places[1:])] == ["%d %d" % tuple(it) for it in rows.tolist()], (most, count)
        assert len(text) == places[-1] and text.count(",") == count
        found += count
numbers = 0
for step, origin in (("1", "0"), ("0.01", "0"), ("0.25", "-3.5"), ("0.00002", "0"), ("1e-9", "1000000000"), ("0.000000001", "-2000000000.5"), ("1e-12", "0.3"), ("1e20", "0"), ("100", "7")):
    axis = grids.Grid(step, (origin, "0")).x
    wholes = [dice.randint(-most, most) for most in (10**7, 10**7, 2**53 + 9, 2**63 - 1) for _ in range(200)] + [0, 1, -1, 2**63 - 1, -(2**63) + 1, 2**53 + 1]
    doubles = axis.doubles(numpy.array(wholes, dtype="i8")).tolist()
    assert [repr(it) for it in doubles] == [repr(float(axis.text(it))) for it in wholes], (step, origin)
    numbers += len(doubles)
print(found, numbers)
"""


@unittest.skipUnless(NUMPY, "needs the package python3-numpy")
class Arrays(unittest.TestCase):
    def printed(self, text):
        known = {**os.environ, "PYTHONPATH": f"{ROOT}/bindings/python"}
        ran = subprocess.run([NUMPY, "-B", "-W", "ignore", "-c", text], capture_output=True, text=True, env=known)
        self.assertEqual(ran.stderr, "")
        return ran.stdout

    def test_on_a_grid_at_once(self):
        self.assertEqual(self.printed(ON_GRIDS), "True\n")

    def test_decimals_at_once(self):
        self.assertEqual(self.printed(DECIMALS), "True\n")

    def test_texts_and_doubles_at_once(self):
        self.assertEqual(self.printed(SPELLED), "3515 7254\n")

    def test_moves_at_once(self):
        self.assertEqual(self.printed(MOVED), "True\n")


if __name__ == "__main__":
    unittest.main()
