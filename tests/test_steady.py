"""Pairs of areas of which an import need not compute a relation: steady_checks.py, by a Python that has numpy and GDAL."""
import os
import re
import subprocess
import unittest

from made_libraries import over_library
from support import ROOT, python_with

PYTHON = python_with("osgeo.ogr, numpy")


@over_library
@unittest.skipUnless(PYTHON, "needs python3-gdal and python3-numpy")
class Steady(unittest.TestCase):
    def test_checks(self):
        library = f"{ROOT}/bindings/c/out/libsfq.so.0"
        ran = subprocess.run([PYTHON, "-B", f"{ROOT}/tests/steady_checks.py"], env={**os.environ, "SFQ_LIBRARY": library}, capture_output=True, text=True, timeout=600)
        self.assertEqual(ran.returncode, 0, ran.stderr)
        self.assertGreaterEqual(int(re.search(r"^Ran (\d+) tests", ran.stderr, re.M)[1]), 8)


if __name__ == "__main__":
    unittest.main()
