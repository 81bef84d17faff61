"""The exact relation of two geometries of doubles: made cases whose answers are known, and random ones by the model of definitions."""
import itertools
import math
import os
import random
import signal
import subprocess
import sys
import time
import unittest
from fractions import Fraction
from unittest import mock

from support import ROOT

import exact_cells
from sfq.geometry import binary, exact, texts
from sfq.layers import meeting, workers

TINY = 2.0**-52


def shape(text):
    """Returns the numbers of a text with whole coordinates."""
    name, found = texts.coordinates(text)
    depth = texts.TYPES[name]
    if not len(found):
        return binary.Shape(name.upper(), [])
    if depth < 2:
        lists = [[it] for it in found] if name == "MultiPoint" else [[found] if name == "Point" else found]
        return binary.Shape(name.upper(), [[flat(it)] for it in lists])
    parts = found if depth == 3 else [found] if name == "Polygon" else [[it] for it in found]
    return binary.Shape(name.upper(), [[flat(it) for it in part] for part in parts])


def flat(positions):
    return [number for it in positions for number in it]


def area(*positions):
    """Returns the polygon with these corners."""
    return binary.Shape("POLYGON", [[flat([*positions, positions[0]])]])


def box(left, low, right, high):
    return area((left, low), (right, low), (right, high), (left, high))


def line(*positions):
    return binary.Shape("LINESTRING", [[flat(positions)]])


def point(x, y):
    return binary.Shape("POINT", [[(x, y)]])


class Known(unittest.TestCase):
    """Cases of doubles, whose relations are known by hand."""

    def check(self, one, other, name):
        self.assertEqual(exact.related(one, other).name, name)
        self.assertEqual(exact.related(other, one).name, exact.TURNED.get(name, name))

    def test_a_gap_and_a_sliver_of_the_last_bit(self):
        """Between 1 and 2 doubles are 2**-52 apart."""
        left = box(0.0, 0.0, 1.0, 1.0)
        self.check(left, box(1.0, 0.0, 2.0, 1.0), "touches")
        self.check(left, box(1.0 + TINY, 0.0, 2.0, 1.0), "disjoint")
        self.check(left, box(1.0 - TINY / 2, 0.0, 2.0, 1.0), "overlaps")
        self.check(left, box(1.0 - TINY / 2, 0.25, 1.0, 0.5), "contains")

    def test_a_corner_on_an_edge_that_no_double_hits(self):
        """As decimal numbers 0.21 0.07 and 0.27 0.09 are on the line from 0 0 to 0.3 0.1. As doubles the one is left of it, the other right."""
        below = area((0.0, 0.0), (0.3, 0.1), (0.3, -1.0))
        for x, y, is_left in ((0.21, 0.07, True), (0.27, 0.09, False)):
            self.assertEqual(Fraction(0.3) * Fraction(y) > Fraction(0.1) * Fraction(x), is_left)
            self.check(area((x, y), (0.3, 0.9), (0.0, 0.9)), below, "disjoint" if is_left else "overlaps")
            self.check(point(x, y), below, "disjoint" if is_left else "within")

    def test_a_corner_on_an_edge_exactly(self):
        self.check(area((0.0, 0.0), (0.5, 0.25), (0.5, -1.0)), area((0.25, 0.125), (0.5, 0.9), (0.0, 0.9)), "touches")

    def test_doubles_of_every_size(self):
        least, most = math.ulp(0.0), 1e300
        self.check(box(0.0, 0.0, least, least), box(least, 0.0, most, most), "touches")
        self.check(box(0.0, 0.0, 2 * least, least), box(least, 0.0, most, most), "overlaps")
        self.check(line((0.0, 0.0), (most, least)), point(most, least), "touches")

    def test_areas_of_which_one_is_inside(self):
        ring = binary.Shape("POLYGON", [[flat([(0, 0), (9, 0), (9, 9), (0, 9), (0, 0)]), flat([(3, 3), (6, 3), (6, 6), (3, 6), (3, 3)])]])
        self.check(ring, box(3, 3, 6, 6), "touches")
        self.check(ring, box(4, 4, 5, 5), "disjoint")
        self.check(ring, box(2, 2, 7, 7), "overlaps")
        self.check(ring, box(0, 0, 9, 9), "within")
        self.check(ring, box(1, 1, 2, 2), "contains")
        self.check(ring, binary.Shape("POLYGON", [[it[::1] for it in ring.parts[0]]]), "equals")

    def test_an_empty_geometry_is_apart(self):
        self.check(binary.Shape("POLYGON", []), box(0, 0, 1, 1), "disjoint")


class Model(unittest.TestCase):
    """Random geometries of all types, by a model that is made of definitions alone."""

    def check(self, count, seed):
        seen = set()
        for one, other in exact_cells.random_pairs(count, seed):
            matrix = "".join(it.split()[2] for it in exact_cells.lines(one, other).splitlines())
            shapes = exact_cells.read(one), exact_cells.read(other)
            found = exact.related(shape(one), shape(other))
            if "EMPTY" in one + other:
                self.assertEqual(found, exact.Relation("disjoint"))
                continue
            self.assertEqual(found.name, exact.named(matrix, *(it.dimension for it in shapes)), (one, other))
            holds = exact_cells.related(matrix, one, other)
            self.assertIn(f"ST_{found.name.capitalize()}", holds, (one, other))
            self.assertEqual("ST_Equals" in holds, found.name == "equals")
            if found.place:
                self.assertNotIn("exterior", [exact_cells.part_of(it, found.place) for it in shapes], (one, other, found))
            seen.add(found.name)
        return seen

    def test_random_pairs(self):
        self.assertEqual(self.check(1_000, 11) | {"equals"}, set(exact.NAMES))

    def test_lines_that_run_along_themselves(self):
        """A third edge crosses a stretch that two edges share."""
        one, other = "LINESTRING(4 1,0 1,0 3,3 0,1 3)", "LINESTRING(0 1,3 1)"
        self.assertEqual(exact.related(shape(one), shape(other)).name, "contains")


class Boxes(unittest.TestCase):
    def test_as_each_pair_is_compared(self):
        dice = random.Random(1)
        for count in (0, 1, 2, 12, 13, 150, 1_500):
            boxes = []
            for _ in range(count):
                x, y = dice.random(), dice.random()
                boxes.append((x, x + dice.random()**3 / 5, y, y + dice.random()**3 / 5))
            wanted = {
                (i, j) for (i, a), (j, b) in itertools.combinations(enumerate(boxes), 2)
                if a[0] <= b[1] and b[0] <= a[1] and a[2] <= b[3] and b[2] <= a[3]
            }
            self.assertEqual({(i, j) for i, found in meeting.pairs_within(boxes) for j in found}, wanted)


class Workers(unittest.TestCase):
    """Parts of work that processes do."""

    def test_each_part_is_done_once_in_its_order(self):
        seen = []
        found = workers.shared([range(it, it + 5) for it in range(4)], lambda part, tell: (tell(len(part)), sum(part))[1], seen.append)
        self.assertEqual(found, [sum(range(it, it + 5)) for it in range(4)])
        self.assertEqual(seen[-1], 20)
        with self.assertRaises(ChildProcessError):
            os.waitpid(-1, os.WNOHANG)

    def test_what_a_process_fails_at_is_done_here(self):
        here = os.getpid()

        def work(part, _tell):
            if os.getpid() != here and part == "killed":
                os.kill(os.getpid(), signal.SIGKILL)
            if os.getpid() != here and part == "raises":
                raise ValueError("in the copy alone")
            return part, os.getpid() == here

        self.assertEqual(workers.shared(["killed", "raises", "done"], work, len_of), [("killed", True), ("raises", True), ("done", False)])

    def test_nothing_is_left_where_it_is_interrupted(self):
        def interrupt(_count):
            raise KeyboardInterrupt

        with self.assertRaises(KeyboardInterrupt):
            workers.shared([1, 2], lambda _part, _tell: time.sleep(60), interrupt)
        with self.assertRaises(ChildProcessError):
            os.waitpid(-1, os.WNOHANG)

    def test_a_signal_when_a_process_has_just_begun(self):
        """It comes when the process is known, so that process is ended too."""
        begin, here = os.fork, os.getpid()

        def begun():
            number = begin()
            if number:
                os.kill(here, signal.SIGINT)
            return number

        with mock.patch("os.fork", begun), self.assertRaises(KeyboardInterrupt):
            workers.shared([1, 2], lambda _part, _tell: time.sleep(60), len_of)
        with self.assertRaises(ChildProcessError):
            os.waitpid(-1, os.WNOHANG)
        self.assertFalse(signal.pthread_sigmask(signal.SIG_BLOCK, ()) & workers.SIGNALS)

    def test_no_process_outlives_what_began_it(self):
        script = (
            "import os, signal, sys, time; from sfq.layers import workers\n"
            "work = lambda _part, _tell: (os.write(1, b'works\\n'), time.sleep(60))\n"
            "workers.shared([1, 2], work, lambda _: None)\n"
        )
        known = {**os.environ, "PYTHONPATH": f"{ROOT}/bindings/python"}
        with subprocess.Popen([sys.executable, "-B", "-c", script], env=known, stdout=subprocess.PIPE, text=True) as child:
            self.assertEqual([child.stdout.readline() for _ in range(2)], 2 * ["works\n"])
            child.kill()
            # Standard output ends with the last process that has it.
            self.assertEqual(child.communicate(timeout=20)[0], "")

    def test_where_there_are_no_more_processes(self):
        with mock.patch("os.fork", side_effect=BlockingIOError):
            self.assertEqual(workers.shared([1, 2], lambda part, _tell: -part, len_of), [-1, -2])


def len_of(_count):
    """Shows nothing."""


if __name__ == "__main__":
    unittest.main()
