"""The shapes that follow the benchmarks of GEOS and JTS: within the limits, valid, and with the same answers by the C library and by
GEOS at their smallest sizes."""
import os
import pathlib
import re
import stat
import subprocess
import tempfile
import unittest

from support import needs

import engine_rows
import peer_benchmarks
import peers

# The limits of a geometry: positions, rings or elements, and how far coordinates go either way.
POSITIONS, PARTS, LIMIT = 10_000, 1_000, 10_000_000
# Headers that the program includes, and the packages that have them.
HEADERS = {"geos_c.h": "libgeos-dev", "valgrind/callgrind.h": "valgrind"}

# In place of the program: GEOS finds something else where it is asked whether a star covers others.
STAND_IN = """#!/bin/sh
echo "$1 $2" | sed 's/geos covers/0/; s/[a-z]* [a-z]*/1/'
echo 0
"""


def parts_of(text):
    """Returns how many rings or elements a text has, whichever there are more of."""
    return max(1, len(re.findall(r"\([^()]*\)", text)))


class Shapes(unittest.TestCase):
    def test_they_are_within_the_limits(self):
        for case in peer_benchmarks.CASES:
            with self.subTest(shapes=case.label):
                firsts, others = case.make(min(case.sizes[-1], POSITIONS))
                for text in {max(firsts, key=len), *others[:1], *others[-1:]}:
                    self.assertLessEqual(text.count(",") + 1, POSITIONS)
                    self.assertLessEqual(parts_of(text), PARTS)
                self.assertLessEqual(max(abs(int(it)) for text in firsts + others for it in re.findall(r"-?\d+", text)), LIMIT)

    def test_they_are_the_same_each_time(self):
        for case in peer_benchmarks.CASES:
            self.assertEqual(case.make(case.sizes[0]), case.make(case.sizes[0]), case.label)

    def test_a_larger_one_has_more_positions(self):
        for case in peer_benchmarks.CASES:
            counts = [sum(it.count(",") + 1 for it in case.make(size)[0]) for size in case.sizes if size <= POSITIONS]
            self.assertEqual(counts, sorted(set(counts)), case.label)

    def test_names_differ(self):
        self.assertEqual(len({it.label for it in peer_benchmarks.CASES}), len(peer_benchmarks.CASES))


class Answers(unittest.TestCase):
    """What is compared before anything is measured."""

    def test_a_difference_ends_the_program(self):
        with tempfile.TemporaryDirectory(prefix="sfq-peers-") as name:
            room = pathlib.Path(name)
            program = room / "program"
            program.write_text(STAND_IN)
            program.chmod(stat.S_IRWXU)
            case = next(it for it in peer_benchmarks.CASES if "covers" in it.asked)
            same, other = (peer_benchmarks.Row(case, 10, it, room) for it in ("intersects", "covers"))
            peer_benchmarks.check(same, program)
            with self.assertRaisesRegex(SystemExit, "covers: sfq and geos differ"):
                peer_benchmarks.check(other, program)


class BothEngines(engine_rows.WithLibrary):
    """Each kind of shapes at its smallest size: some seconds."""

    @needs("gcc", "gcc")
    def test_they_find_the_same(self):
        for header, package in HEADERS.items():
            if subprocess.run(["gcc", "-E", "-include", header, "-x", "c", os.devnull], capture_output=True).returncode != 0:
                self.skipTest(f"needs the package {package}")
        with tempfile.TemporaryDirectory(prefix="sfq-peers-") as name:
            room = pathlib.Path(name)
            program = peers.build_beside_geos("peer_benchmarks", room)
            for row, _ in peer_benchmarks.rows_of(peer_benchmarks.CASES, room, 1):
                with self.subTest(row=row.name):
                    peer_benchmarks.check(row, program)


if __name__ == "__main__":
    unittest.main()
