"""What tools/recorded.py counts in each crate, what it reports past a table, and which numbers it writes."""
import pathlib
import tempfile
import unittest

import support

import recorded

FACT = "use Rattle.std.specs.Prelude.{◌≡◌, ℕ}\n\nsame : (n : ℕ) → n ≡ n\nsame n = refl\n"
WIDE = "x" * (recorded.COLUMNS + 1)
REPOSITORY = {
    "crates.txt": "basics:\none: basics\ntwo: one\n",
    "crates/basics/proofs/Facts.antt": FACT,
    "crates/one/proofs/Facts.antt": f"use Rattle.std.specs.{{{WIDE}}}\n{FACT}\n-- {WIDE}\n",
    "crates/one/proofs/lists/join/Answers.antt": f"{FACT}\nlong : One\nlong = {WIDE}\n{'x' * recorded.COLUMNS}\n",
    "crates/one/specs/Ones.antt": f"-- {WIDE}\n",
    "tools/long_lines.txt": "# Long.\n\none 2\n",
    "tools/common_facts.txt": "# Facts.\none 2\n",
}


class Recorded(unittest.TestCase):
    def setUp(self):
        room = tempfile.TemporaryDirectory(prefix="sfq-recorded-")
        self.addCleanup(room.cleanup)
        self.room = pathlib.Path(room.name)
        support.write_all(self.room, REPOSITORY)

    def write(self, file, text):
        support.write(self.room / file, text)

    def found(self):
        return [it[:2] for it in recorded.check(self.room)[1]]

    def test_as_many_as_recorded(self):
        rows, found = recorded.check(self.room)
        self.assertEqual(found, [])
        self.assertEqual([it[1:] for it in rows], [(2, "2 are recorded"), (2, "2 are recorded")])

    def test_fewer(self):
        self.write("tools/long_lines.txt", "one 3\ntwo 1\n")
        self.assertEqual(self.found(), [])

    def test_more(self):
        self.write("tools/long_lines.txt", "# Long.\ntwo 4\none 1\n")
        self.write("tools/common_facts.txt", "# None.\n")
        self.assertEqual(self.found(), [("tools/long_lines.txt", 3), ("tools/common_facts.txt", 1)])

    def test_only_lower_numbers_are_written(self):
        table = recorded.TABLES[0]
        self.write(table.path, "# Long.\nbasics 1\none 5\nthree 7\n")
        self.assertEqual(table.lower(self.room), [("basics", 1, 0), ("one", 5, 2), ("three", 7, 0)])
        self.assertEqual((self.room / table.path).read_text(), "# Long.\none 2\n")
        self.write(table.path, "# Long.\none 1\n")
        self.assertEqual(table.lower(self.room), [])
        self.assertEqual((self.room / table.path).read_text(), "# Long.\none 1\n")


if __name__ == "__main__":
    unittest.main()
