"""Bad inputs at small sizes: the instructions that they take don't grow faster than they did."""
import contextlib
import io
import os
import tempfile
import unittest
from concurrent.futures import ThreadPoolExecutor
from unittest import mock

from support import needs, needs_build

import machine
import proving
import repository
import timing
import worst

# What Linux takes as one word of a command line, and the limits of sfq.
WORD_BYTES, RECORD_BYTES, QUERY_BYTES = 131_071, 1_048_576, 65_536
POSITIONS, ROWS, FIELDS = 10_000, 100_000, 100_000


class Inputs(unittest.TestCase):
    def test_shapes_are_within_the_limits(self):
        singles = worst.SINGLES + worst.FAULTY
        for bad in worst.PAIRS + singles:
            made = bad.make(2 * bad.size)
            texts = [made] if bad in singles else made
            with self.subTest(input=bad.label):
                self.assertLessEqual(max(text.count(",") + 1 for text in texts), POSITIONS)
                self.assertLess(max(map(len, texts)), RECORD_BYTES if bad in singles else WORD_BYTES)

    def test_tables_are_within_the_limits(self):
        for bad in worst.SPATIAL + worst.PLAIN:
            with self.subTest(input=bad.label):
                self.assertLessEqual(2 * bad.size, ROWS)

    def test_queries_are_within_the_limit(self):
        for bad in worst.ALONE:
            made = bad.make(2 * bad.size)
            with self.subTest(input=bad.label):
                self.assertLessEqual(len(made.query), QUERY_BYTES)
                self.assertLess(len(made.ignored), FIELDS - 2)

    def test_inputs_are_the_same_each_time(self):
        for bad in worst.ALL:
            with self.subTest(input=bad.label):
                self.assertEqual(bad.make(bad.small), bad.make(bad.small))

    def test_labels_differ(self):
        self.assertEqual(len({bad.label for bad in worst.ALL}), len(worst.ALL))

    def test_each_has_a_bound(self):
        self.assertEqual([bad.label for bad in worst.ALL if bad.bound is None], [])

    def test_what_is_quadratic_is_an_input(self):
        self.assertEqual(set(worst.QUADRATIC) - {bad.label for bad in worst.ALL}, set())

    def test_bounds_are_written_beside_inputs(self):
        head = '    Input("some name", shapes.scribble, 1_000, 40'
        other = '    Input("other", shapes.scribble, 10, 4, 1.20),\n'
        for before in (f"{head}),\n{other}", f"{head}, 2.00),\n{other}"):
            after = worst.with_bounds(before, {"some name": 1.5})
            self.assertEqual(after, f"{head}, {1.5 + worst.MARGIN:.2f}),\n{other}")


class Growth(unittest.TestCase):
    """Each input at a small size and twice that, under valgrind: about two minutes of one processor."""

    ASKS_PROGRAM = True

    @needs_build
    @needs("valgrind", "valgrind")
    def test_no_bad_input(self):
        with tempfile.TemporaryDirectory(prefix="sfq-worst-") as room:
            counts = worst.Counts(room, repository.PROGRAM)
            counts.take_starts()
            with ThreadPoolExecutor(proving.processors()) as pool:
                for bad, (before, now, growth) in zip(worst.ALL, pool.map(counts.growth, worst.ALL)):
                    with self.subTest(input=bad.label):
                        self.assertLessEqual(growth, bad.bound, f"{before:,} instructions at {bad.small:,}, {now:,} at twice that")


class Tables(unittest.TestCase):
    """What the measures write into documents."""

    TABLE = ["| input | n |", "|---|---|", "| new | 2 |"]

    def test_a_table_takes_the_place_of_the_one_with_its_heads(self):
        before = "text\n\n| input | n |\n|---|---|\n| old | 1 |\n| older | 1 |\n\n| input |\n|---|\n"
        after = "text\n\n| input | n |\n|---|---|\n| new | 2 |\n\n| input |\n|---|\n"
        self.assertEqual(timing.with_table(before, self.TABLE), after)

    # The table of a document, and one that was taken beside newer peers, whose columns 2 and 3 are theirs.
    OWN = "<!-- 2026-01-02, commit 12345678 -->\n| input | sfq | GEOS 3.11.1 | ratio | growth |\n|---|---|---|---|---|\n| a, 1 | 2 | 4 | 0.5 | 1.0 |\n| b | 3 | 3 | 1 | |\n"
    NEWER = ["| input | sfq | GEOS 3.15.0 | ratio | growth |", "|---|---|---|---|---|", "| a, 1 | 2 | 8 | 0.25 | 1.0 |"]
    BOTH = ("<!-- newer peers: 2026-01-03, commit 9 -->\n<!-- 2026-01-02, commit 12345678 -->\n| input | sfq | GEOS 3.11.1 | ratio | growth | GEOS 3.15.0 | ratio |\n"
            "|---|---|---|---|---|---|---|\n| a, 1 | 2 | 4 | 0.5 | 1.0 | 8 | 0.25 |\n| b | 3 | 3 | 1 |  |  |  |\n")

    def test_columns_of_newer_peers_are_behind_the_others(self):
        stamp = "<!-- newer peers: 2026-01-03, commit 9 -->"
        found = timing.with_newer(self.OWN, self.NEWER, [2, 3], stamp)
        self.assertEqual(found, self.BOTH)
        self.assertEqual(timing.with_newer(found, self.NEWER, [2, 3], stamp), found)

    def test_they_stay_where_the_table_is_taken_again(self):
        again = ["| input | sfq | GEOS 3.11.1 | ratio | growth |", "|---|---|---|---|---|", "| a, 1 | 1 | 4 | 0.25 | 1.0 |", "| c | 1 | 1 | 1 | |"]
        found = timing.with_table(self.BOTH, again, "<!-- 2026-01-04, commit 10 -->")
        self.assertEqual(found, self.BOTH.replace("2026-01-02, commit 12345678", "2026-01-04, commit 10").replace("| 2 | 4 | 0.5 |", "| 1 | 4 | 0.25 |")
                         .replace("| b | 3 | 3 | 1 |", "| c | 1 | 1 | 1 |"))

    def test_a_table_without_columns_of_peers_is_not_written_beside_newer_ones(self):
        with mock.patch.dict(os.environ, {machine.INSIDE: "/folder"}), contextlib.redirect_stdout(io.StringIO()):
            table = timing.Table(["input", "n"])
            with self.assertRaisesRegex(SystemExit, "no columns of newer peers"):
                table.write_into(timing.README)

    def test_heads_name_versions(self):
        with mock.patch.object(machine, "versions", return_value={"GEOS": "3.15.0", "sqlite3": "3.53.4"}):
            for text, versioned in (("GEOS or sqlite3", "GEOS 3.15.0 or sqlite3 3.53.4"), ("`sqlite3` wall", "`sqlite3 3.53.4` wall"), ("JTS µs", "JTS µs"),
                                    ("before GeoPandas 1", "before GeoPandas 1")):
                self.assertEqual(machine.versioned(text), versioned)
                self.assertEqual(timing.without_versions(versioned), text.replace(" GeoPandas 1", " GeoPandas"))

    def test_functions_have_short_names(self):
        for path, name in (
            ("edge_boxes::point_crossings::by_side", "by_side"),
            ("edge_boxes::boxes::EdgeBoxes::sharing", "EdgeBoxes::sharing"),
            ("rtree::packed_trees::push_below'2", "push_below"),
            ("core::slice::sort::small::insertion_sort::<#530e49d816df48a2>", "insertion_sort"),
            ("malloc", "malloc"),
        ):
            self.assertEqual(timing.short_name(path), name)

    def test_a_document_without_it_is_refused(self):
        with self.assertRaises(SystemExit):
            timing.with_table("| input |\n", self.TABLE)


if __name__ == "__main__":
    unittest.main()
