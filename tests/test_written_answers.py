"""GeoPackages of answers: what is written by columns is what is written row by row."""
import json
import os
import subprocess
import tempfile
import unittest

from support import ROOT, python_with

PYTHON = python_with("osgeo.ogr, numpy")


@unittest.skipUnless(PYTHON, "needs the packages python3-gdal and python3-numpy")
class ByColumns(unittest.TestCase):
    """Answers of all types, over several batches."""

    def test_each_file_is_the_same(self):
        environment = {**os.environ, "PYTHONPATH": f"{ROOT}/bindings/python"}
        with tempfile.TemporaryDirectory(prefix="sfq-written-") as room:
            ran = subprocess.run([PYTHON, "-B", f"{ROOT}/tests/written_answers.py", room], capture_output=True, text=True, env=environment)
        self.assertEqual(ran.returncode, 0, ran.stderr)
        *answers, _ = map(json.loads, ran.stdout.splitlines())
        self.assertEqual(len(answers), 11)
        for name, given, read, batches, is_same, lines in answers:
            with self.subTest(name):
                # Fewer rows than a thousand are written one by one.
                self.assertEqual((read, batches, is_same, lines), (given, -(-given // 4_000) if given >= 1_000 else 0, True, []))


if __name__ == "__main__":
    unittest.main()
