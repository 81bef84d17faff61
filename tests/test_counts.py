"""What tools/counts.py counts of a small repository, and what it finds past its bounds."""
import subprocess
import tempfile
import unittest

import support

import counts

CODE = """//! Lists.

/// A list.
pub struct List {
    items: Vec<u8>,
}

impl List {
    /// An empty one.
    pub fn new() -> List {
        made(0)
    }
}

fn made(length: u64) -> List
    ensures { length result ≡ length }
{
    empty()
}

/// A law.
pub fn lists_are_lists()
    ensures { ListsAreLists }
{}
"""
WALKS = """# Ways.

a list, at most 2 crates:
high::lists::made
low::lists::List::new
low::lists::made
"""
REPOSITORY = {
    "crates.txt": "# Layers.\nlow:\nmiddle: low std_alloc\nhigh staticlib: low middle # both\n",
    "crates/low/src/lists.rt": CODE,
    "crates/middle/src/lib.rt": "//! Nothing.\n",
    "crates/middle/out/left.txt": "1\n2\n3\n",
    "crates/high/src/lists.rt": CODE,
    "crates/high/must-fail/one.edit": "file: src/lists.rt\n",
    "tools/walks.txt": WALKS,
}


class Counts(unittest.TestCase):
    def counted(self, more={}):
        with tempfile.TemporaryDirectory(prefix="sfq-counts-") as name:
            support.write_all(name, {**REPOSITORY, **more})
            rows, found = counts.count(name)
        return {name: number for name, number, _ in rows}, found

    def test_a_small_repository(self):
        numbers, found = self.counted()
        self.assertEqual(found, [])
        self.assertEqual(numbers["crates"], 3)
        # low has none, middle the one to low; high those to low, to middle, and through it to low.
        self.assertEqual(numbers["ways down through crates.txt"], 4)
        self.assertEqual(numbers["functions a crate, in the median"], 2)
        self.assertEqual(numbers["lines of crates/"], 2 * CODE.count("\n") + 2)
        self.assertEqual(numbers["edits in must-fail/"], 1)
        self.assertEqual(numbers["crates crossed by a list"], 2)

    def test_a_function_of_a_walk_that_is_gone(self):
        _, found = self.counted({"tools/walks.txt": WALKS.replace("List::new", "List::old")})
        self.assertEqual(found, [("tools/walks.txt", 5, "no function low::lists::List::old")])
        # A law has no body, so nothing goes through it.
        _, found = self.counted({"tools/walks.txt": WALKS + "low::lists::lists_are_lists\n"})
        self.assertEqual(found, [("tools/walks.txt", 7, "no function low::lists::lists_are_lists")])

    def test_a_line_of_walks_that_is_no_function(self):
        _, found = self.counted({"tools/walks.txt": WALKS + "lists made\n"})
        self.assertEqual([it[:2] for it in found], [("tools/walks.txt", 7)])

    def test_a_walk_over_too_many_crates(self):
        _, found = self.counted({"tools/walks.txt": WALKS.replace("at most 2", "at most 1")})
        self.assertEqual(found, [("tools/walks.txt", 3, "a list crosses 2 crates of at most 1: high, low")])

    def test_too_many_crates(self):
        lines = "".join(f"crate_{it}:\n" for it in range(counts.MOST_CRATES - 2))
        _, found = self.counted({"crates.txt": REPOSITORY["crates.txt"] + lines})
        self.assertEqual([it[:2] for it in found], [("crates.txt", 1)])

    @support.needs("git", "git")
    def test_entries_of_the_root(self):
        with tempfile.TemporaryDirectory(prefix="sfq-counts-") as name:
            support.write_all(name, {**REPOSITORY, ".gitignore": "out/\n", "out/made": "\n"})
            self.assertIsNone(counts.root_entries(name))
            for words in (["init", "-q"], ["add", "-A"]):
                subprocess.run(["git", "-C", name, *words], check=True)
            self.assertEqual(counts.root_entries(name), 4)
            self.assertEqual(counts.count(name)[1], [])
            more = {f"{it}": "\n" for it in range(counts.MOST_ENTRIES - 3)}
            support.write_all(name, more)
            subprocess.run(["git", "-C", name, "add", "-A"], check=True)
            self.assertEqual([it[2] for it in counts.count(name)[1]], [f"{counts.MOST_ENTRIES + 1} tracked entries of the root, of at most {counts.MOST_ENTRIES}"])

    def test_too_many_edits(self):
        _, found = self.counted({f"crates/low/must-fail/{it}.edit": "\n" for it in range(counts.MOST_EDITS)})
        self.assertEqual([(path, what.partition(" of ")[0]) for path, _, what in found], [("crates", f"{counts.MOST_EDITS + 1} edits in must-fail/")])

    def test_how_they_are_shown(self):
        lines = counts.shown([("crates", 42, "at most 46"), ("in the median", 19.5, ""), ("lines", 148652.0, "")])
        self.assertEqual(lines, ["crates              42  at most 46", "in the median     19.5", "lines          148,652"])


if __name__ == "__main__":
    unittest.main()
