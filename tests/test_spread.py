"""Whether tools/spread.py finds the numbers of ARCHITECTURE that differ from what it counts."""
import pathlib
import tempfile
import unittest

import support

import counts
import spread

PAGE = """# Architecture

| to add | as now | crates; files | where |
|---|---|---|---|
| [a fault](RECIPES.md#a-fault) | L3 | 2; 3 | `low`, `high` |

**A printed row**, from its candidates to the sink, goes through two
crates.
"""
REPOSITORY = {
    "crates.txt": "low:\nhigh: low\n",
    "crates/low/src/lib.rt": "//! Faults.\nUnequalRecord\n",
    "crates/low/specs/Faults.antt": "-- UnequalRecord\n",
    "crates/low/proofs/Others.antt": "-- UnequalRecords\n",
    "crates/high/src/lib.rt": "//! Uses UnequalRecord.\n",
    counts.WALKS: "a printed row, at most 7 crates:\nlow::lib::one\nhigh::lib::two\n",
    spread.PAGE: PAGE,
}


class Spread(unittest.TestCase):
    def setUp(self):
        room = tempfile.TemporaryDirectory(prefix="sfq-spread-")
        self.addCleanup(room.cleanup)
        self.room = pathlib.Path(room.name)
        support.write_all(self.room, REPOSITORY)

    def found(self, page=PAGE):
        support.write(self.room / spread.PAGE, page)
        return [it[:2] for it in spread.check(str(self.room))]

    def test_a_page_that_is_true(self):
        self.assertEqual(spread.spread_of(r"\bUnequalRecord\b", str(self.room)), (2, 3))
        self.assertEqual(self.found(), [])

    def test_numbers_that_differ(self):
        self.assertEqual(self.found(PAGE.replace("2; 3", "2; 4")), [(spread.PAGE, 5)])
        self.assertEqual(self.found(PAGE.replace("through two", "through three")), [(spread.PAGE, 7)])

    def test_a_row_without_a_pattern(self):
        self.assertEqual(self.found(PAGE.replace("#a-fault", "#a-binding")), [(spread.PAGE, 5)])


if __name__ == "__main__":
    unittest.main()
