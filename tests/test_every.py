"""`bench/every.py`: small programs write their tables, are kept or end otherwise than well, and what it says then."""
import contextlib
import io
import os
import pathlib
import subprocess
import sys
import tempfile
import unittest
from unittest import mock

from support import ROOT, read, write

import every
import figures
import machine
import repository

DOCUMENT = """# Measures

Figures of an older day, on
another machine.

For whoever reads this.

## One

`one.py --fast`: the ratio is 0.25 to 3,411, and 12 rows.
It takes 777 ns.

<!-- 2026-01-02, commit 12345678 -->
| input | ratio | ns |
|---|---|---|
| a | 0.25 | 12 |
| b, 10 | 3,411 | 5 |

## Two

Of 3,411 rows, 0.25 or 12 are long.

<!-- 2026-01-03, commit 12345678 -->
| other | ms |
|---|---|
| a | 1 |

`no code`
"""
# A program that writes the table of the first section anew, one that writes the second and then fails, one that lacks something.
PROGRAM = """import sys
import pathlib, site
site.addsitedir({bench!r})
import timing
timing.README = pathlib.Path({readme!r})
{body}
"""
ONE = """assert sys.argv[1:] == ["--fast", "--write"], sys.argv
table = timing.Table(["input", "ratio", "ns"])
table.add(["a", "0.31", "12"])
table.add(["b, 10", "2,000", "5"])
table.write_into(timing.README)"""
TWO = """timing.Table(["other", "ms"]).add(["a", "9"])
sys.exit("gcc isn't installed: apt-get install gcc")"""


class Run(unittest.TestCase):
    def setUp(self):
        room = tempfile.TemporaryDirectory(prefix="sfq-test-")
        self.addCleanup(room.cleanup)
        self.room = pathlib.Path(room.name)
        self.readme = self.room / "README.md"
        self.readme.write_text(DOCUMENT, encoding="utf-8")
        for name, body in ("one.py", ONE), ("two.py", TWO), ("check.py", "print('well')"):
            write(f"{self.room}/{name}", PROGRAM.format(bench=f"{ROOT}/bench", readme=str(self.readme), body=body))

    def run_all(self, *measures, builds=None):
        """Runs measures, and returns the status, the lines of the report and the document."""
        report = every.Report(self.readme, {"docs/X.md": self.room / "X.md"})
        (self.room / "X.md").write_text("Elsewhere it is 0.25.\n\nThe ratio is 0.25,\nby bench/one.py.\n", encoding="utf-8")
        printed = io.StringIO()
        with contextlib.redirect_stdout(printed), contextlib.redirect_stderr(io.StringIO()):
            status = every.run_all(measures, self.room, builds or {}, report)
        return status, printed.getvalue().splitlines(), self.readme.read_text(encoding="utf-8")

    def test_a_table_is_written_below_its_day(self):
        status, lines, text = self.run_all(every.Measure("one.py --fast", every.COUNTS, ()))
        self.assertEqual(status, 0)
        stamp = f"<!-- {machine.day()}, commit {machine.commit()} -->"
        self.assertIn(f"\n\n{stamp}\n| input | ratio | ns |\n|---|---|---|\n| a | 0.31 | 12 |\n| b, 10 | 2,000 | 5 |\n\n", text)
        first = text.split("\n\n")[1].replace("\n", " ")
        self.assertTrue(first.startswith(f"Figures of {machine.day()}, commit {machine.commit()}: {machine.processor()}; "), first)
        self.assertTrue(first.endswith(" Older ones are below 'Two' (2026-01-03)."), first)
        self.assertEqual(text.split("\n\n")[2], "For whoever reads this.")
        self.assertLessEqual(max(map(len, text.splitlines())), 100)
        self.assertRegex(lines[0], r"^written +\d+ s  one\.py --fast$")
        self.assertIn("older, of 2026-01-03, commit 12345678: Two: | other | ms |", lines)

    def test_prose_with_changed_figures(self):
        _, lines, text = self.run_all(every.Measure("one.py --fast", every.COUNTS, ()))
        at = {line: number for number, line in enumerate(text.splitlines(), 1)}
        one, two = "`one.py --fast`: the ratio is 0.25 to 3,411, and 12 rows.", "Of 3,411 rows, 0.25 or 12 are long."
        self.assertIn(f"bench/README.md:{at[one]}: 0.25 (0.31 now), 3,411 (2,000 now): {one}", lines)
        self.assertIn(f"bench/README.md:{at[two]}: 3,411 (2,000 now): {two}", lines)
        self.assertEqual([it for it in lines if "docs" in it], ["docs/X.md:3: 0.25 (0.31 now): The ratio is 0.25,"])
        numbers = f"{at[one]}, {at['It takes 777 ns.']}"
        self.assertEqual(lines[-1], f"bench/README.md: One: look at the other figures too, in the lines {numbers}")

    def test_what_does_not_end_well_is_kept(self):
        status, lines, text = self.run_all(every.Measure("two.py", every.TIMES, ()))
        self.assertEqual((status, text), (1, DOCUMENT))
        self.assertRegex(lines[0], r"^kept +\d+ s  two\.py: gcc isn't installed: apt-get install gcc$")
        self.assertEqual([it for it in lines if it.startswith("older, of 2026-01-0")], [
            "older, of 2026-01-02, commit 12345678: One: | input | ratio | ns |", "older, of 2026-01-03, commit 12345678: Two: | other | ms |"])

    def test_what_is_not_built_is_not_run(self):
        builds = {"gauge": ("`rt run`", lambda: False), "sfq": ("./build", lambda: True)}
        status, lines, text = self.run_all(every.Measure("one.py --fast", every.COUNTS, ("sfq", "gauge")), builds=builds)
        self.assertEqual((status, text), (1, DOCUMENT))
        self.assertRegex(lines[0], r"^kept +0 s  one\.py --fast: needs `rt run`$")

    def test_a_program_without_a_table(self):
        status, lines, text = self.run_all(every.Measure("check.py", every.COUNTS, (), False))
        self.assertEqual((status, text), (0, DOCUMENT))
        self.assertRegex(lines[0], r"^well +\d+ s  check\.py$")

    def test_broken_off(self):
        with mock.patch.object(every, "run", side_effect=KeyboardInterrupt):
            status, lines, text = self.run_all(every.Measure("one.py --fast", every.COUNTS, ()))
        self.assertEqual((status, text, lines[0]), (130, DOCUMENT, "in all         0 s"))


class Figures(unittest.TestCase):
    def test_numbers(self):
        text = "0.29 to 0.88, 14,550 of 3.11.1 on 2026-11-23; x86, 9-fold, 128 bits, 1,234.5. The 2.62."
        self.assertEqual(figures.NUMBER.findall(text), ["0.29", "0.88", "14,550", "128", "1,234.5", "2.62"])

    def test_a_tenth(self):
        old, new = (figures.Shown("", "", [["a", *cells]], None, None) for cells in (["100", "200", "9, 8"], ["110", "221", "9, 7"]))
        self.assertEqual(figures.changed(old, new), {"200": ["221"], "8": ["7"]})
        self.assertEqual(figures.changed(old, new._replace(rows=[])), {it: ["gone"] for it in ("100", "200", "9", "8")})

    def test_rows_are_told_apart_by_their_first_cells(self):
        rows = [["a", "1", "x", "5"], ["a", "2", "x", "6"], ["a", "1", "y", "5"]]
        self.assertEqual((figures.labels(rows), figures.labels(rows[:2]), figures.labels(rows[:1])), (3, 2, 1))


class Programs(unittest.TestCase):
    """The list of programs, the folder and the document have the same."""

    README = read(f"{ROOT}/bench/README.md")

    def test_a_list_that_nobody_reads_to_its_end(self):
        """As of `| head`: a line says so, and nothing of Python is shown."""
        ours, theirs = os.pipe()
        os.close(ours)
        with open(theirs, "wb") as closed:
            ran = subprocess.run([sys.executable, "-B", f"{ROOT}/bench/every.py", "--list"], stdout=closed, stderr=subprocess.PIPE, text=True)
        self.assertEqual((ran.stderr, ran.returncode), ("every.py: write failed\n", 6))

    def test_each_program_is_run(self):
        programs = {it for it in os.listdir(f"{ROOT}/bench") if it.endswith(".py") and "\ndef main(" in read(f"{ROOT}/bench/{it}")}
        self.assertEqual({it.words.split()[0] for it in every.MEASURES}, programs - {"every.py"})

    def test_the_document_names_them_by_their_words(self):
        text = " ".join(self.README.split())
        self.assertEqual([it.words for it in every.MEASURES if it.has_table and f"`{it.words}`" not in text], [])

    def test_heads_tell_tables_apart(self):
        heads = [it.heads for it in figures.tables(self.README)]
        self.assertEqual([it for it in heads if heads.count(it) > 1], [])

    def test_each_table_of_figures_has_its_day(self):
        lacking = [it.heads for it in figures.tables(self.README) if not it.day]
        self.assertEqual(lacking, ["| program | measures |"])

    def test_each_has_a_way_to_be_built(self):
        self.assertEqual({it for each in every.MEASURES for it in each.builds} - every.BUILDS.keys(), set())


class Tables(unittest.TestCase):
    def test_a_file_that_cannot_be_written_stays(self):
        with tempfile.TemporaryDirectory(prefix="sfq-test-") as room:
            path = pathlib.Path(room) / "x.md"
            path.write_text("old", encoding="utf-8")
            path.chmod(0o640)
            with mock.patch.object(os, "replace", side_effect=OSError), self.assertRaises(OSError):
                repository.write_whole(path, "new")
            self.assertEqual((path.read_text(encoding="utf-8"), os.listdir(room)), ("old", ["x.md"]))
            repository.write_whole(path, "new")
            repository.write_whole(f"{room}/y.md", "other")
            modes = {it: os.stat(f"{room}/{it}").st_mode & 0o777 for it in sorted(os.listdir(room))}
            self.assertEqual((path.read_text(encoding="utf-8"), modes), ("new", {"x.md": 0o640, "y.md": 0o644}))


if __name__ == "__main__":
    unittest.main()
