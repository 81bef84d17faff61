"""What tools/cost.py takes to be the proofs of the yardstick, and how it prints what a run took."""
import shutil
import subprocess
import sys
import tempfile
import unittest

from support import write

import cost

STAT = "7 (a b) c) S 1 1 1 0 -1 0 0 0 0 0 {own} 0 {waited} 0 20 0 1 0"


class Costs(unittest.TestCase):
    def setUp(self):
        self.folder = tempfile.mkdtemp()
        self.addCleanup(shutil.rmtree, self.folder)

    def process(self, number, own, waited, *words):
        write(f"{self.folder}/{number}/cmdline", "".join(f"{it}\0" for it in words))
        write(f"{self.folder}/{number}/stat", STAT.format(own=own * cost.TICKS, waited=waited * cost.TICKS))

    def test_the_proofs_of_the_yardstick(self):
        self.process(7, 30, 2, "/kit/bin/rattle", "build", "--crate-name", "fraction", "src/lib.rt")
        self.process(8, 50, 0, "rattle", "build", "--crate-name", "orient", "src/lib.rt")
        # The check of an edit, another crate, another program, a process without words.
        self.process(9, 50, 0, "rattle", "check", "--crate-name", "orient", "src/lib.rt")
        self.process(10, 50, 0, "rattle", "build", "--crate-name", "wkt", "src/lib.rt")
        self.process(11, 50, 0, "cat", "build", "--crate-name", "orient")
        self.process(12, 50, 0)
        write(f"{self.folder}/13/cmdline", "rattle\0build\0--crate-name\0orient\0")
        spent = cost.Cost()
        spent.look(self.folder)
        self.assertEqual(spent.proofs, {"fraction": {"7": 32}, "orient": {"8": 50}})
        self.process(7, 34, 2, "/kit/bin/rattle", "build", "--crate-name", "fraction", "src/lib.rt")
        spent.look(self.folder)
        spent.seconds = 860
        self.assertEqual(spent.line(), "14.3 processor minutes, 10 times the proofs of fraction and orient, 86 processor seconds")

    def test_without_a_proof_of_one_of_them(self):
        self.process(7, 30, 2, "rattle", "build", "--crate-name", "fraction")
        spent = cost.Cost()
        spent.look(self.folder)
        spent.seconds = 90
        self.assertEqual(spent.line(), "1.5 processor minutes; not all of fraction and orient was proved")

    def test_the_time_of_what_runs_meanwhile(self):
        with cost.Cost() as spent:
            subprocess.run([sys.executable, "-c", "import time\nwhile time.process_time() < 0.3: pass"], check=True)
        self.assertGreater(spent.seconds, 0.25)


if __name__ == "__main__":
    unittest.main()
