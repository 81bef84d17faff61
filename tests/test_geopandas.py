"""sfq.geopandas over GeoPandas, by a Python that has it."""
import os
import re
import subprocess
import unittest

from support import ROOT, examples, python_with

import engine_rows
import library

PYTHON = python_with("geopandas")


@unittest.skipUnless(PYTHON and python_with("rtree"), "needs the packages python3-geopandas and python3-rtree")
class GeoPandas(engine_rows.WithLibrary):
    def run_python(self, *words):
        """Runs the Python that has GeoPandas, and returns what it wrote."""
        known = {**os.environ, "SFQ_LIBRARY": library.SHARED, "PYTHONPATH": f"{ROOT}/bindings/python", "PYTHONDONTWRITEBYTECODE": "1"}
        return subprocess.run([PYTHON, *words], cwd=ROOT, env=known, capture_output=True, text=True)

    def check(self, name):
        """Runs a class of checks. Where these versions are none of those that it is for, all of it is skipped, and so is the test."""
        ran = self.run_python(f"{ROOT}/tests/geopandas_checks.py", "-v", name)
        self.assertEqual(ran.returncode, 0, ran.stderr)
        count, skipped = re.search(r"^Ran (\d+) tests? .*?^OK(?: \(skipped=(\d+)\))?$", ran.stderr, re.M | re.S).groups(default="0")
        if count == skipped:
            self.skipTest("; ".join(sorted(set(re.findall(r"skipped ['\"](.*)['\"]$", ran.stderr, re.M)))))

    def test_joins(self):
        self.check("Joins")

    def test_grids(self):
        self.check("Grids")

    def test_points(self):
        self.check("Points")

    def test_later_versions_of_shapely(self):
        self.check("LaterShapely")

    def test_rows(self):
        self.check("Rows")

    def test_layers(self):
        self.check("Layers")

    def test_the_tests_of_geopandas_itself(self):
        """What fails of them is what geopandas_failures.txt says."""
        if self.run_python("-c", "import pytest, geopandas.tools.tests, geopandas.tests").returncode:
            self.skipTest("needs the package python3-pytest, and GeoPandas with its tests")
        ran = self.run_python(f"{ROOT}/tests/geopandas_own.py")
        if ran.returncode == 3:
            self.skipTest(ran.stdout.strip())
        self.assertEqual(ran.returncode, 0, ran.stdout + ran.stderr)

    def test_the_example_of_the_document(self):
        shown = examples("PYTHON", "python", "## GeoPandas")
        self.assertGreaterEqual(len(shown), 1)
        for source, output in shown:
            ran = self.run_python("-c", source)
            self.assertEqual((ran.stdout, ran.stderr), (output, ""), source)


if __name__ == "__main__":
    unittest.main()
