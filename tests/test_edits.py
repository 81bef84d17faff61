"""Which edits tools/edits.py has tried together, and which of them it takes to be refused."""
import shutil
import tempfile
import unittest
from unittest import mock

from support import read, write

import edits
import gate_edits

SOURCE = """//! Numbers.

use crate::digits::{Digit, Place};

/// The greatest.
const MOST: u32 = 7;

/// A number.
pub struct Number<T> {
    value: T,
}

impl Number<u32> {
    /// Its value.
    pub fn value(&self) -> u32
        ensures { result ≡ self.now }
    {
        self.value
    }

    /// One more.
    pub fn next(&self) -> u32 {
        self.value + 1
    }
}

impl<T: Ord> PartialOrd for Number<T> {
    fn partial_cmp(&self, other: &Self) -> Option<Ordering> {
        Some(self.cmp(other))
    }
}

impl From<wide::Wide> for Number<u32> {
    fn from(wide: wide::Wide) -> Self {
        wide.narrow()
    }
}

impl Digit {
    /// The one before.
    pub fn before(&self) -> u8 {
        self.digit - 1
    }
}

/// Twice.
fn twice(number: u32) -> u32 {
    2 * number
}
"""
LOG = """./proofs/numbers/Number/value/Answers.antt:5:2: error: `returns-clause-value`: `search`: no proof of `it`
  was found. Every way was tried
./proofs/numbers/twice/Answers.antt:5:2: error: `returns`: `goal.returns`: module `A` has no `returns`
./proofs/numbers/twice/Answers.antt:7:2: error: `returns-clause-twice`: record `After-self` (nearest: .double-2)
  has no field `double`
  the fields that can be named here are `before`
./proofs/numbers/twice/Answers.antt:9:2: error: 1 declaration that depends on `returns`, which was rejected, was not checked: x
./proofs/numbers/+again/Answers.antt:5:2: error: `returns`: `search`: no proof of `it`
fn low::numbers::again: not proved
fn low::numbers::Number::value: not proved
fn low::numbers::Number::next: proved
fn low::numbers::twice: not proved; it calls `low::numbers::Number::value`, which is not proved
fn low::numbers::thrice: no proof: it calls `low::numbers::twice`, which is not proved
fn low::numbers::NumberPartialOrd::partial_cmp: no proof: expected answers in ./proofs/x; `search` did not prove `returns`
"""


class Edits(unittest.TestCase):
    def setUp(self):
        self.folder = tempfile.mkdtemp()
        self.addCleanup(shutil.rmtree, self.folder)
        write(f"{self.folder}/src/numbers.rt", SOURCE)

    def edit(self, name, *pairs):
        path = f"{self.folder}/edits/{name}.edit"
        write(path, "file: src/numbers.rt\n" + "".join(f"old: {old}\nnew: {new}\n" for old, new in pairs))
        return edits.Edit(path)

    def functions(self, *pairs):
        return self.edit("one", *pairs).functions("low", SOURCE)

    def test_the_function_of_a_change(self):
        self.assertEqual(self.functions(("self.value + 1", "self.value")), {"low::numbers::Number::next"})
        self.assertEqual(self.functions(("Some(self.cmp(other))", "None")), {"low::numbers::NumberPartialOrd::partial_cmp"})
        self.assertEqual(self.functions(("2 * number", "3 * number")), {"low::numbers::twice"})
        self.assertEqual(self.functions(("wide.narrow()", "0")), {"low::numbers::NumberFromWide::from"})
        # A check calls a method by the module that has the type.
        self.assertEqual(self.functions(("self.digit - 1", "0")), {"low::digits::Digit::before"})

    def test_a_method_of_a_type_that_the_root_shows(self):
        source = SOURCE.replace("use crate::digits::{Digit, Place};", "use crate::{Digit, Sign};")
        self.assertNotEqual(source, SOURCE)
        edit = self.edit("one", ("self.digit - 1", "0"))
        self.assertEqual(edit.functions("low", source, "mod digits;\npub use digits::{Digit, Other};\n"), {"low::digits::Digit::before"})
        self.assertEqual(edit.functions("low", source, "pub use digits::Digit;\n"), {"low::digits::Digit::before"})
        self.assertEqual(edit.functions("low", source), {"low::numbers::Digit::before"})

    def test_the_text_of_the_root(self):
        self.assertEqual(edits.root_of(self.folder), "")
        write(f"{self.folder}/src/lib.rt", "mod numbers;\n")
        self.assertEqual(edits.root_of(self.folder), "mod numbers;\n")

    def test_a_change_outside_of_functions_or_of_what_is_there_twice(self):
        self.assertEqual(self.functions(("u32 = 7", "u32 = 8")), set())
        self.assertEqual(self.functions(("result ≡ self.now", "result ≡ 1")), set())
        self.assertEqual(self.functions(("self.value", "0")), set())
        self.assertEqual(self.functions(("2 * number", "3 * number"), ("u32 = 7", "u32 = 8")), set())

    def test_edits_of_one_function_are_in_two_groups(self):
        one, two = self.edit("one", ("2 * number", "3 * number")), self.edit("two", ("2 * number", "number"))
        three, four = self.edit("three", ("self.value + 1", "0")), self.edit("four", ("u32 = 7", "u32 = 8"))
        self.assertEqual(edits.parted("low", self.folder, [one, two, three, four]), ([[one, three], [two]], [four]))

    def test_edits_that_do_not_apply_one_after_the_other(self):
        one, two = self.edit("one", ("2 * number", "number + self.value + 1")), self.edit("two", ("self.value + 1", "0"))
        self.assertEqual(edits.parted("low", self.folder, [one, two]), ([[one], [two]], []))

    def test_texts_of_a_group(self):
        group = [self.edit("one", ("2 * number", "3 * number")), self.edit("three", ("self.value + 1", "0"))]
        known = edits.texts_of(self.folder, group)
        changed = edits.changed(known, group)
        self.assertEqual(changed, {"src/numbers.rt": SOURCE.replace("2 * number", "3 * number").replace("self.value + 1", "0")})
        edits.write(self.folder, changed)
        self.assertEqual(edits.texts_of(self.folder, group), changed)
        self.assertIsNone(edits.changed(changed, group))

    def test_only_a_goal_of_the_function_itself_refuses(self):
        refused = {"low::numbers::again", "low::numbers::Number::value", "low::numbers::NumberPartialOrd::partial_cmp"}
        self.assertEqual(edits.refused_in(LOG), refused)


class EditsOfTheGate(unittest.TestCase):
    """Which edits the gate tries, with a stand-in for the check: what it writes of each check in turn."""

    PROVED = 0, "fn low::numbers::twice: proved\nonly=1 proved=1\n"
    TWICE = "./proofs/numbers/twice/Answers.antt:5:2: error: `r`: `search`: no proof of `it`\nfn low::numbers::twice: not proved\n"
    NEXT = "./proofs/numbers/Number/next/Answers.antt:5:2: error: `r`: `search`: no proof of `it`\nfn low::numbers::Number::next: not proved\n"

    def setUp(self):
        self.root = tempfile.mkdtemp()
        self.addCleanup(shutil.rmtree, self.root)
        write(f"{self.root}/crates/low/src/numbers.rt", SOURCE)
        for name, mark, old, new in (("one", True, "2 * number", "3 * number"), ("two", True, "self.value + 1", "0"),
                                     ("three", True, "2 * number", "number"), ("four", False, "wide.narrow()", "0")):
            text = f"{'tried by the gate' if mark else ''}\nfile: src/numbers.rt\nold: {old}\nnew: {new}\n"
            write(f"{self.root}/crates/low/edits/{name}.edit", text)

    def tried(self, *said):
        """Returns how many edits were refused, those that weren't, and of each check the functions and the source."""
        checks, answers = [], iter(said)

        def check(crate, place, functions):
            checks.append((crate, sorted(functions), read(f"{place}/src/numbers.rt")))
            return next(answers)

        with mock.patch.object(gate_edits, "ROOT", self.root), mock.patch.object(gate_edits, "check", check):
            found = gate_edits.marked()
            report = gate_edits.try_crate("low", found["low"])
        self.assertEqual(list(found), ["low"])
        return report.passed, [it.name for it in report.failures], checks

    def test_edits_of_different_functions_are_tried_by_one_check(self):
        both = ["low::numbers::Number::next", "low::numbers::twice"]
        passed, failed, checks = self.tried(self.PROVED, (1, self.NEXT + self.TWICE), (1, self.TWICE))
        self.assertEqual((passed, failed), (3, []))
        changed = SOURCE.replace("2 * number", "3 * number").replace("self.value + 1", "0")
        self.assertEqual([it[1:] for it in checks], [(both, SOURCE), (both, changed), (both[1:], SOURCE.replace("2 * number", "number"))])

    def test_an_edit_that_is_still_proved(self):
        passed, failed, _ = self.tried(self.PROVED, (1, self.NEXT), (1, self.TWICE), (0, "fn low::numbers::twice: proved\n"))
        self.assertEqual((passed, failed), (2, ["edit low/one.edit"]))

    def test_an_edit_that_a_check_of_several_functions_does_not_settle_is_tried_alone(self):
        calls = "fn low::numbers::twice: not proved; it calls `low::numbers::Number::next`, which is not proved\n"
        passed, failed, checks = self.tried(self.PROVED, (1, self.NEXT + calls), (1, self.TWICE), (1, self.TWICE))
        self.assertEqual((passed, failed), (3, []))
        self.assertEqual(checks[-1][1:], (["low::numbers::twice"], SOURCE.replace("2 * number", "3 * number")))

    def test_nothing_is_taken_as_refused_where_the_crate_itself_is(self):
        passed, failed, checks = self.tried((1, self.TWICE))
        self.assertEqual((passed, len(failed), len(checks)), (0, 3, 1))


if __name__ == "__main__":
    unittest.main()
