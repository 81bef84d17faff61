"""Which statements tools/common_facts.py takes to be one fact, and which it leaves to their crate."""
import tempfile
import unittest

import support

import antt
import common_facts

HEAD = "use Rattle.std.proofs.Common.{◌≡◌, ◌||◌, ◌<◌, ◌⊎◌, ℕ, Bool, List, true, map}\n"


def form(statement, head=HEAD):
    """Returns the form of a lemma's statement."""
    file = antt.File(f"{head}\nlemma : {statement}\nlemma = grind\n")
    return antt.Statement(file, file.declarations[0].statement).form


class Forms(unittest.TestCase):
    def same(self, *statements):
        self.assertEqual(len({form(it) for it in statements}), 1, [form(it) for it in statements])

    def differ(self, one, other):
        self.assertNotEqual(form(one), form(other))

    def test_names_of_bound_variables(self):
        self.same("(a b : ℕ) → a < b → a ≡ b", "(m n : ℕ) → m < n → m ≡ n")
        self.differ("(a b : ℕ) → a < b", "(a b : ℕ) → b < a")

    def test_how_variables_are_grouped(self):
        self.same("(a b : ℕ) → a ≡ b", "(a : ℕ) (b : ℕ) → a ≡ b", "(a : ℕ) → (b : ℕ) → a ≡ b", "{a b : ℕ} → a ≡ b")

    def test_names_of_premises(self):
        self.same("(a b : ℕ) (less : a < b) → a ≡ b", "(a b : ℕ) → a < b → a ≡ b")

    def test_parentheses_that_are_not_needed(self):
        self.same("(a b : Bool) → a || b ≡ true", "(a b : Bool) → (a || b) ≡ true")
        self.same("(a b : ℕ) → (a < b) ⊎ (b < a)", "(a b : ℕ) → a < b ⊎ b < a")
        self.differ("(a b : ℕ) → a ≡ b → a < b", "(a b : ℕ) → (a ≡ b → a < b)")

    def test_lambdas(self):
        self.same("(xs : List ℕ) → map (λ x. x) xs ≡ xs", "(ys : List ℕ) → map (λ (y : ℕ). y) ys ≡ ys")
        self.differ("(x : ℕ) → map (λ y. y) x", "(x : ℕ) → map (λ y. x) x")

    def test_inner_functions(self):
        self.same("((x : ℕ) → x < x) → ℕ", "((y : ℕ) → y < y) → ℕ")

    def test_names_that_are_imported_under_another(self):
        self.assertEqual(form("nat → nat", "use Rattle.std.specs.Prelude.{nat}\n"),
                         form("number → number", "use Rattle.std.specs.Prelude.{nat as number}\n"))


FACT = "or_from : (a b : Bool) → a || b ≡ true → (a ≡ true) ⊎ (b ≡ true)\nor_from true b e = inl e\nor_from false b e = inr e\n"
REPOSITORY = {
    "crates.txt": "basics:\none: basics\ntwo: one\n",
    "crates/one/proofs/Facts.antt": f"{HEAD}use Rattle.one.specs.Ones.{{One}}\n\npub {FACT}\nown : (o : One) → o ≡ o\nown o = refl\n",
    "crates/two/proofs/choose/Answers.antt": f"{HEAD}\n-- of either\n{FACT.replace('or_from', 'either')}",
    "crates/two/proofs/More.antt": f"{HEAD}\nabbrev Small : ℕ → Type 0\nSmall n = n < 3\n\nsmall : (n : ℕ) → Small n → n < 4\nsmall n h = omega h\n",
}


class Repository(unittest.TestCase):
    def facts(self):
        with tempfile.TemporaryDirectory(prefix="sfq-facts-") as name:
            support.write_all(name, REPOSITORY)
            return common_facts.facts_of(name)

    def test_a_fact_of_two_crates(self):
        shown = common_facts.repeated(self.facts())
        self.assertEqual(common_facts.counted(shown), "1 facts, proved 2 times in 6 lines")
        found = {(it.path, it.line, it.name, it.is_public) for it in shown[0][1]}
        self.assertEqual(found, {("crates/one/proofs/Facts.antt", 4, "or_from", True),
                                 ("crates/two/proofs/choose/Answers.antt", 4, "either", False)})

    def test_statements_over_own_definitions_are_none(self):
        self.assertEqual({it.name for its in self.facts().values() for it in its}, {"or_from", "either"})


class Parsing(unittest.TestCase):
    def test_statements_over_several_lines_and_modules(self):
        text = (f"{HEAD}\nmodule _ (lt : ℕ → Bool) where\n    -- inside\n    less : (n : ℕ)\n        → lt n ≡ true\n    less n = go n\n"
                "      where\n        go : ℕ → ℕ\n        go n = n\n\nafter : ℕ\nunfolding less\nafter = 3\n")
        file = antt.File(text)
        less, after = file.declarations
        self.assertEqual((less.name, less.statement), ("less", " (lt : ℕ → Bool) → (n : ℕ) → lt n ≡ true"))
        self.assertEqual((after.name, after.statement, after.lines[-1]), ("after", "ℕ", "after = 3"))

    def test_a_module_whose_head_has_two_lines(self):
        text = (f"{HEAD}\nmodule _ {{T : Type 0}}\n    (lt : ℕ → Bool) where\n  -- inside\n  abbrev pub Less : ℕ → Type 0\n  Less n =\n"
                "      lt n ≡ true\n\n  pub record IsLess (n : ℕ) : Type 0 where\n    pub less : Less n\n\nafter : ℕ\nafter = 3\n")
        less, record, after = antt.File(text).declarations
        self.assertEqual((less.name, less.kind, less.is_public), ("Less", "definition", True))
        self.assertEqual((less.telescope, less.statement), (" {T : Type 0} (lt : ℕ → Bool)", " {T : Type 0} (lt : ℕ → Bool) → ℕ → Type 0"))
        self.assertEqual(less.lines, ["abbrev pub Less : ℕ → Type 0", "Less n =", "    lt n ≡ true"])
        self.assertEqual((record.name, record.kind, record.lines[-1]), ("IsLess", "record", "  pub less : Less n"))
        self.assertEqual((after.name, after.telescope), ("after", ""))

    def test_imports(self):
        text = "use A.B.{one, two as three}\nuse A.C as other\npub use A.D.{\n  four,\n  five as six,\n}\n\nfact : one ≡ four\nfact = refl\n"
        file = antt.File(text)
        self.assertEqual(file.imports, {"one": "A.B.one", "three": "A.B.two", "four": "A.D.four", "six": "A.D.five"})
        self.assertEqual((file.modules, file.exports), ({"other": "A.C"}, [("four", "A.D.four"), ("six", "A.D.five")]))
        self.assertEqual([(it.name, it.line) for it in file.declarations], [("fact", 8)])

    def test_types(self):
        text = "record pub IsShort (n : ℕ) : Type 0 where\n  field\n    short : n < 3\n\ndata Kind : Type 0 where\n  one : Kind\n"
        self.assertEqual([(it.name, it.kind, it.is_public) for it in antt.File(text).declarations],
                         [("IsShort", "record", True), ("Kind", "data", False)])


if __name__ == "__main__":
    unittest.main()
