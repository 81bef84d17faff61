"""docs/pictures/algorithms.py: the committed pictures are what it draws, and what they show is so."""
import os
import re
import runpy
import shutil
import subprocess
import sys
import tempfile
import types
import unittest
import xml.etree.ElementTree as tree
from fractions import Fraction

from support import ROOT, read

import answers
import exact_cells

SCRIPT = f"{ROOT}/docs/pictures/algorithms.py"
NAMES = ("matrix.svg", "plan.svg", "index-join.svg")
REGISTER = ("examples/parcels/schema.sql", "examples/parcels")
algorithms = types.SimpleNamespace(**runpy.run_path(SCRIPT))
# How many children a node of an index has at most.
NODE_SIZE = int(re.search(r"NODE_SIZE: usize = (\d+)", read(f"{ROOT}/crates/rtree/src/packing.rt"))[1])


def boxes(table):
    """Returns the bounding box of each row of a table of the register that has one."""
    rows = re.findall(r"^(\d+),.*?\(+(.*)\)", read(f"{ROOT}/{REGISTER[1]}/{table}.csv"), re.M)
    found = {}
    for key, positions in rows:
        across, up = zip(*((int(x), int(y)) for x, y in re.findall(r"(-?\d+) (-?\d+)", positions)))
        found[int(key)] = min(across), min(up), max(across), max(up)
    return found


def meet(a, b):
    """Whether two boxes share a point."""
    return a[0] <= b[2] and b[0] <= a[2] and a[1] <= b[3] and b[1] <= a[3]


def along_the_curve(box):
    """Returns where the middle of a box is along the Hilbert curve, by the steps of crates/rtree."""
    steps = [int(it, 16) for it in re.findall(r"0x(\w\w),", read(f"{ROOT}/crates/rtree/src/curve_steps.rt"))]
    x, y = ((least + greatest + (1 << 25)) << 1 for least, greatest in (box[0::2], box[1::2]))
    found, step = 0, 0
    for shift in range(24, -1, -3):
        step = steps[(step & 3) << 6 | (x >> shift & 7) << 3 | y >> shift & 7]
        found = found << 6 | step >> 2
    return found


class Committed(unittest.TestCase):
    def test_pictures_are_what_the_script_draws(self):
        with tempfile.TemporaryDirectory() as room:
            shutil.copytree(f"{ROOT}/{REGISTER[1]}", f"{room}/{REGISTER[1]}")
            os.makedirs(f"{room}/docs/pictures")
            shutil.copy(SCRIPT, f"{room}/docs/pictures")
            subprocess.run([sys.executable, "-B", "algorithms.py"], cwd=f"{room}/docs/pictures", check=True)
            self.assertEqual(sorted(os.listdir(f"{room}/docs/pictures")), sorted(["algorithms.py", *NAMES]))
            for name in NAMES:
                with self.subTest(name=name):
                    self.assertEqual(read(f"{room}/docs/pictures/{name}"), read(f"{ROOT}/docs/pictures/{name}"))

    def test_pictures_have_a_white_background(self):
        """So the dark view of a page shows them as the light one does."""
        for name in NAMES:
            with self.subTest(name=name):
                first = next(it for it in tree.fromstring(read(f"{ROOT}/docs/pictures/{name}")) if it.tag.endswith("rect"))
                self.assertEqual((first.get("width"), first.get("height"), first.get("fill")), ("100%", "100%", "#fff"))

    def test_the_page_shows_each_once(self):
        page = read(f"{ROOT}/docs/ARCHITECTURE.md")
        self.assertEqual([page.count(f"(pictures/{name})") for name in NAMES], [1, 1, 1])


class Matrix(unittest.TestCase):
    """The picture of a matrix, by the definitions."""

    def setUp(self):
        self.shapes = [exact_cells.read(it) for it in (algorithms.LINE, algorithms.AREA)]

    def test_labels(self):
        for point, label, *_ in algorithms.NODES + algorithms.GAPS + algorithms.SIDES:
            at = tuple(Fraction(it) for it in point)
            with self.subTest(point=point):
                self.assertEqual(label, "".join(exact_cells.part_of(it, at)[0].upper() for it in self.shapes))

    def test_each_gap_has_one_label(self):
        _, pieces, _ = exact_cells.noded(*self.shapes)
        middles = [((a[0] + b[0]) / Fraction(2), (a[1] + b[1]) / Fraction(2)) for a, b in pieces]
        self.assertEqual(sorted(middles), sorted(tuple(Fraction(it) for it in point) for point, *_ in algorithms.GAPS))

    def test_cells(self):
        lines = exact_cells.lines(algorithms.LINE, algorithms.AREA)
        self.assertEqual("".join(re.findall(r"^\w+ \w+ (\w)", lines, re.M)), algorithms.MATRIX)

    def test_each_cell_is_raised_by_the_first_step_that_shows_its_dimension(self):
        cells = [a + b for a in "IBE" for b in "IBE"]
        shown = {"EE": [(0, "2")]}
        for dimension, places in (("0", algorithms.NODES), ("1", algorithms.GAPS), ("2", algorithms.SIDES)):
            for _, label, step, _ in places:
                shown.setdefault(label, []).append((step, dimension))
        for cell, dimension, step in zip(cells, algorithms.MATRIX, algorithms.RAISED):
            with self.subTest(cell=cell):
                self.assertEqual(step, min((at for at, it in shown.get(cell, []) if it == dimension), default=None))


class Plan(unittest.TestCase):
    """The picture of a plan, asked of the proved program, or else of the unproved one."""

    ASKS_PROGRAM = True

    def test_lines_and_rows(self):
        plan, rows = [it.out.decode() for it in answers.ask([["run", *REGISTER, f"{before}{algorithms.QUERY}"] for before in ("EXPLAIN ", "")])]
        self.assertEqual(plan.splitlines(), [algorithms.COST, *(heading for heading, *_ in algorithms.PLAN)])
        self.assertEqual(rows, "b.purpose,p.name\ndwelling,Quay House\n")

    def test_numbers(self):
        for heading, numbers, *_ in algorithms.PLAN:
            self.assertEqual(tuple(int(it) for it in re.findall(r"\d", heading)), numbers)

    def test_buildings_and_pairs(self):
        parcels, buildings = boxes("parcel"), boxes("building")
        (found,), pairs, (last,) = [it[3] for it in algorithms.PLAN]
        outer = [key for key, box in sorted(buildings.items()) if meet(box, (0, 2, 10, 2))]
        self.assertEqual([int(it) for it in re.findall(r"\d+", found)], outer)
        wanted = [number for key in outer for number in (key, *(it for it, box in sorted(parcels.items()) if meet(box, buildings[key])))]
        self.assertEqual([int(it) for it in re.findall(r"\d+", " ".join(pairs))], wanted)
        self.assertEqual(last, f"building {algorithms.OUTER} with parcel {algorithms.FOUND}")
        # The first building is too old, so of six pairs five remain.
        self.assertEqual([line.split(",")[2] for line in read(f"{ROOT}/{REGISTER[1]}/building.csv").splitlines()[1:4]], ["1894", "1962", "1901"])


class IndexJoin(unittest.TestCase):
    """The picture of an index join, by the order of the tree."""

    def test_leaves(self):
        parcels = boxes("parcel")
        ordered = sorted(sorted(parcels), key=lambda it: along_the_curve(parcels[it]))
        wanted = [tuple(ordered[at : at + NODE_SIZE]) for at in range(0, len(ordered), NODE_SIZE)]
        self.assertEqual(list(algorithms.LEAVES.values()), wanted)

    def test_candidates(self):
        parcels, outer = boxes("parcel"), boxes("building")[algorithms.OUTER]
        self.assertEqual(algorithms.CANDIDATES, tuple(key for key, box in sorted(parcels.items()) if meet(box, outer)))
        within = {name: algorithms.joined([parcels[it] for it in keys]) for name, keys in algorithms.LEAVES.items()}
        self.assertEqual({name: meet(box, outer) for name, box in within.items()}, {"A": True, "B": False})


if __name__ == "__main__":
    unittest.main()
