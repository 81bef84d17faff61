"""Random pairs of geometries are related in two ways, by edges and by labels, which have to agree."""
import os
import subprocess
import sys
import unittest

from support import ROOT

GAUGE = f"{ROOT}/crates/gauge/out/gauge"


def relate(test, count, seed):
    """Relates this many random pairs of each two of the six types."""
    if not os.path.isfile(GAUGE):
        test.skipTest("needs the program gauge: rt run in crates/gauge, or ./test --all")
    words = [sys.executable, "-B", f"{ROOT}/bench/pairs.py", "--count", str(count), "--seed", str(seed)]
    ran = subprocess.run(words, cwd=f"{ROOT}/bench", capture_output=True, text=True)
    test.assertEqual(ran.returncode, 0, ran.stdout + ran.stderr)


class RandomPairs(unittest.TestCase):
    """Some ten thousand pairs, the same in each run."""

    ASKS_PROGRAM = True

    def test_some_ten_thousand_agree(self):
        relate(self, 200, 1)


class MillionRandomPairs(unittest.TestCase):
    """A million pairs, others in each run. The output names the seed."""

    IS_LONG = True

    def test_a_million_agree(self):
        relate(self, 28_000, int.from_bytes(os.urandom(4), "big"))
