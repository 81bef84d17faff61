"""Which functions tools/unused.py calls unused, and what it reports of its list."""
import pathlib
import tempfile
import unittest

import support

import unused

LOW = """//! Numbers.
pub mod laws;
mod sums;

pub use sums::{sum, twice};
"""
SUMS = """//! Sums.

/// The sum.
pub fn sum(a: u8, b: u8) -> u8
    ensures { result ≡ a + b }
{
    added(a, b)
}

/// Twice a number. A comment names forgotten.
pub fn twice(a: u8) -> u8
{
    sum(a, a)
}

/// What no other module can name.
pub fn added(a: u8, b: u8) -> u8
{
    a + b
}

/// What nobody calls.
fn forgotten(a: u8) -> u8
{
    a
}
"""
LAWS = """//! Laws.

/// Nothing runs.
pub fn sum_commutes(a: u8, b: u8)
    ensures { a + b ≡ b + a }
{
}
"""
HIGH = """//! A program's library.

use low::sum;

/// What C calls.
pub extern "C" fn total(a: u8) -> u8
{
    all(a)
}

/// No crate uses this one.
pub fn all(a: u8) -> u8
{
    sum(a, 1)
}
"""
REPOSITORY = {
    "crates.txt": "low:\nhigh staticlib: low\n",
    "crates/low/src/lib.rt": LOW,
    "crates/low/src/sums.rt": SUMS,
    "crates/low/src/laws.rt": LAWS,
    "crates/high/src/lib.rt": HIGH,
}
FORGOTTEN, TWICE = ("crates/low/src/sums.rt", 23), ("crates/low/src/sums.rt", 11)


class Unused(unittest.TestCase):
    def setUp(self):
        room = tempfile.TemporaryDirectory(prefix="sfq-unused-")
        self.addCleanup(room.cleanup)
        self.room = pathlib.Path(room.name)
        support.write_all(self.room, REPOSITORY)

    def found(self, listed="# A list.\n"):
        support.write(self.room / unused.LIST, listed)
        return sorted((path, line) for path, line, _ in unused.check(str(self.room)))

    def test_functions_that_are_used_too_little(self):
        self.assertEqual([(it.name, what.partition(" ")[0]) for it, what in unused.unused_in(str(self.room))],
                         [("twice", "it"), ("forgotten", "nothing")])

    def test_a_user_in_another_crate(self):
        support.write(self.room / "crates/high/src/lib.rt", HIGH.replace("sum(a, 1)", "low::twice(sum(a, 1))"))
        self.assertEqual(self.found(), [FORGOTTEN])

    def test_a_comment_is_no_user(self):
        support.write(self.room / "crates/high/src/lib.rt", f"{HIGH}// twice\n")
        self.assertEqual(self.found(), [TWICE, FORGOTTEN])

    def test_a_list_with_reasons(self):
        both = "They stay for a reason.\ncrates/low/src/sums.rt twice\ncrates/low/src/sums.rt forgotten\n"
        self.assertEqual(self.found(both), [])
        self.assertEqual(self.found(f"{both}crates/low/src/sums.rt sum\n"), [(unused.LIST, 4)])


if __name__ == "__main__":
    unittest.main()
