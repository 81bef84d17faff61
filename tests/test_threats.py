"""THREATS names tests that are there, and SECURITY names THREATS."""
import os
import re
import unittest

from support import ROOT, read


class Threats(unittest.TestCase):
    """The page of who may hand us what."""

    def test_each_row_names_a_test(self):
        rows = re.findall(r"^\| (?!who |what |-)(.*) \|$", read(f"{ROOT}/docs/THREATS.md"), re.M)
        self.assertGreaterEqual(len(rows), 7)
        for row in rows:
            cells = row.split(" | ")
            named = re.findall(r"`(test_\w+)`(?: \(([^)]*)\))?", cells[-1])
            self.assertEqual((len(cells), bool(named)), (3, True), row)
            for name, parts in named:
                path = f"{ROOT}/tests/{name}.py"
                self.assertTrue(os.path.isfile(path), name)
                for part in re.findall(r"`(\w+)`", parts):
                    text = read(path) + (read(f"{ROOT}/tests/fuzz/rims.py") if name == "test_rims" else "")
                    self.assertIn(part, text, name)

    def test_what_is_trusted_is_in_the_readme(self):
        """Each part of the table is a word of README's part of that name."""
        _, _, page = read(f"{ROOT}/docs/THREATS.md").partition("## What is trusted\n")
        _, _, readme = read(f"{ROOT}/README.md").partition("## What is trusted\n")
        rows = re.findall(r"^\| (?!what |-)(.*?) \|", page, re.M)
        self.assertEqual(len(rows), 4)
        words = " ".join(readme.partition("\n## ")[0].split())
        for row, named in zip(rows, (("toolchain", "logic", "LLVM"), ("C library",), ("Python", "SQLite", "PostgreSQL", "GDAL", "GEOS"), ("files as installed",))):
            for it in named:
                self.assertIn(it, words, row)
                self.assertTrue(it in row or it == "toolchain", row)

    def test_the_page_is_named(self):
        self.assertIn("(docs/THREATS.md)", read(f"{ROOT}/SECURITY.md"))


if __name__ == "__main__":
    unittest.main()
