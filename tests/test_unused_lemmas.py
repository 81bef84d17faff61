"""Which lemmas tools/unused_lemmas.py calls unused."""
import tempfile
import unittest

import support

import unused_lemmas

SUMS = """use Rattle.std.proofs.Common.{ℕ, ◌+◌, ◌≡◌, sym}

-- a sum and its parts
pub sum_is : (a b : ℕ) → a + b ≡ a + b
sum_is a b = sum_is a b

pub swapped : (a b : ℕ) → a + b ≡ a + b
swapped a b = sym (sum_is a b)

-- forgotten and named_by_a_page are only in this comment and in their own declarations
forgotten : (a : ℕ) → a ≡ a
forgotten a = forgotten a

pub named_by_a_page : (a : ℕ) → a ≡ a
named_by_a_page a = forgotten' a
  where
    forgotten' : (a : ℕ) → a ≡ a
    forgotten' a = forgotten' a
"""
ANSWERS = """use Rattle.low.proofs.Sums.{swapped as law, forgotten}

pub returns : goal.returns
returns c = law c.args.a c.args.b
"""
FILES = {
    "crates/low/proofs/Sums.antt": SUMS,
    "crates/low/proofs/sums/sum/Answers.antt": ANSWERS,
    "docs/LAWS.md": "The law `named_by_a_page` says so.\n",
}


class Lemmas(unittest.TestCase):
    def found(self, files: dict[str, str]) -> list[tuple[str, int, str]]:
        """The findings in a repository of these files."""
        with tempfile.TemporaryDirectory(prefix="sfq-lemmas-") as name:
            support.write_all(name, files)
            return unused_lemmas.check(name)

    def test_a_lemma_that_is_only_imported_is_unused(self) -> None:
        self.assertEqual(self.found(FILES), [("crates/low/proofs/Sums.antt", 11, "nothing uses the lemma forgotten")])

    def test_a_lemma_under_another_name_is_used(self) -> None:
        plain = FILES | {"crates/low/proofs/sums/sum/Answers.antt": ANSWERS.replace("swapped as law, ", "")}
        self.assertIn(("crates/low/proofs/Sums.antt", 7, "nothing uses the lemma swapped"), self.found(plain))

    def test_a_page_and_an_edit_use_what_they_name(self) -> None:
        bare = {path: text for path, text in FILES.items() if not path.startswith("docs/")}
        self.assertEqual(len(self.found(bare)), 2)
        named = bare | {"crates/low/edits/one.edit": "file: proofs/Sums.antt\nold: named_by_a_page a\nnew: forgotten\n"}
        self.assertEqual(self.found(named), [])

    def test_a_tactic_uses_the_lemma_that_its_path_ends_with(self) -> None:
        tactic = "/// The sum.\n#[tactic(auto, using(crate::proofs::Sums::forgotten))]\npub fn sum() {}\n"
        self.assertEqual(self.found(FILES | {"crates/low/src/sums.rt": tactic}), [])

    def test_this_repository_has_none(self) -> None:
        self.assertEqual(unused_lemmas.check(), [])


if __name__ == "__main__":
    unittest.main()
