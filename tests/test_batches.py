"""Imports in batches of columns: they make the same folder, byte for byte, and say the same, as imports record by record."""
import os
import subprocess
import tempfile
import unittest

from support import ROOT, python_with

from import_calls import PYTHON
from made_libraries import over_library
from test_public_layers import LAYERS, WORLD

import library

# The layers of which something is read one by one, and why: dates, a geometry that GDAL can't read, what isn't UTF-8, and numbers of records that
# aren't true. Of the others only the extent may be: a coordinate is infinite.
SINGLE = {"dates.gpkg", "broken.gpkg", "not-utf-8.gpkg", "counted.gpkg", "rings.gml"}
INFINITE = "a position has no finite place"
WORDS = (("--grid", "1", "--anyway"), (), ("--grid", "0.5", "--anyway", "--invalid", "mend", "--part", "--key", "pop"))


@over_library
@unittest.skipUnless(PYTHON and python_with("numpy"), "needs the packages python3-gdal and python3-numpy")
class BothWays(unittest.TestCase):
    def run_python(self, program, *words, **more):
        known = {**os.environ, "PYTHONPATH": f"{ROOT}/bindings/python", "PYTHONDONTWRITEBYTECODE": "1", "SFQ_LIBRARY": library.SHARED, **more}
        ran = subprocess.run([PYTHON, f"{ROOT}/tests/{program}", *words], env=known, capture_output=True, text=True)
        self.assertEqual(ran.returncode, 0, ran.stderr)
        return ran.stdout.splitlines()

    def ways(self, *imports, most=7):
        """Makes imports in both ways, and returns how each was read. They have to be the same."""
        words = [word for each in imports for word in (*each, "--")][:-1]
        with tempfile.TemporaryDirectory(prefix="sfq-both-ways-") as room:
            lines = [it.split(" | ") for it in self.run_python("both_ways.py", room, *words, MOST=str(most))]
        self.assertEqual([it for it in lines if it[2] != "same"], [])
        self.assertEqual(len(lines), len(imports))
        return [way for _, way, _ in lines]

    def test_made_layers(self):
        with tempfile.TemporaryDirectory(prefix="sfq-made-") as room:
            sources = self.run_python("made_layers.py", room)
            self.assertGreater(len(sources), 15)
            imports = [(it, *words) for it in sources for words in WORDS]
            for (source, *_), way in zip(imports, self.ways(*imports)):
                name = os.path.basename(source)
                self.assertEqual(way.removeprefix("single: ") not in ("columns", INFINITE), name in SINGLE, f"{name}: {way}")

    def test_public_layers(self):
        sources = [it for each in LAYERS.values() for it in each if isinstance(it, str) and os.path.isfile(it) and os.path.getsize(it) < 1 << 20]
        if not sources:
            self.skipTest("needs one of the packages r-cran-sf, r-cran-spdata and python3-geopandas")
        self.assertIn("columns", self.ways(*((it, "--no-relations") for it in sources if not it.endswith(".zip")), most=50))

    def test_several_layers_of_one_source(self):
        if not os.path.exists(WORLD):
            self.skipTest("needs the package qgis-common")
        self.assertEqual(self.ways((WORLD, "--layer", "countries", "disputed_borders", "--invalid", "mend", "--part"), most=100), ["columns"])


if __name__ == "__main__":
    unittest.main()
