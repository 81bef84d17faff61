"""Which functions and lemmas tools/twins.py calls twins, and what it reports of its list."""
import pathlib
import tempfile
import unittest

import support

import twins

BODY = """    let mut found = 0;
    for item in items {
        if item.is_small() {
            found += 1;
        }
        if item.is_large() {
            found += 2;
        }
        found = found.min(limit);
    }
    found
}
"""
COUNTS = "/// Counts them.\npub fn counted(items: &[Item], limit: usize) -> usize {\n" + BODY
WEIGHS = "// They are weighed.\npub fn weighed(parcels: &[Parcel], most: usize) -> usize {\n" + (
    BODY.replace("items", "parcels").replace("item", "parcel").replace("limit", "most").replace("found", "weight"))
OTHER = "fn other(items: &[Item]) -> usize {\n" + "    items.push(1).pop().len() + 3 * items.len();\n" * 12 + "}\n"
LEMMA = "pub {name} : ({n} : ℕ) → {n} ≡ {n}\n" + "".join(f"{{name}} {it} = step{it} {it} ({{n}} {it})\n" for it in range(14))
REPOSITORY = {
    "crates.txt": "one:\ntwo: one\n",
    "crates/one/src/lib.rt": COUNTS + OTHER,
    "crates/two/src/lib.rt": WEIGHS,
    "crates/one/proofs/Same.antt": LEMMA.format(name="same", n="n"),
    "crates/two/specs/Equal.antt": "-- Equal.\n" + LEMMA.format(name="equal", n="k"),
}
GROUP = "They are two for a reason.\ncrates/one/src/lib.rt counted\ncrates/two/src/lib.rt weighed\n"
LAWS = "So are these.\ncrates/one/proofs/Same.antt same\ncrates/two/specs/Equal.antt equal\n"


class Twins(unittest.TestCase):
    def setUp(self):
        room = tempfile.TemporaryDirectory(prefix="sfq-twins-")
        self.addCleanup(room.cleanup)
        self.room = pathlib.Path(room.name)
        support.write_all(self.room, REPOSITORY)

    def found(self, listed="# A list.\n"):
        support.write(self.room / twins.LIST, listed)
        return [(path, line) for path, line, _ in twins.check(str(self.room))]

    def test_other_names_and_comments_make_no_difference(self):
        pairs = [(share, one.name, other.name) for share, one, other in twins.pairs_of(twins.units_of(str(self.room)))]
        self.assertEqual(pairs, [(100, "same", "equal"), (100, "counted", "weighed")])

    def test_pairs_without_a_list(self):
        (self.room / twins.LIST).unlink(missing_ok=True)
        self.assertEqual([it[:2] for it in twins.check(str(self.room))], [("crates/one/proofs/Same.antt", 1), ("crates/one/src/lib.rt", 2)])

    def test_pairs_of_the_list(self):
        self.assertEqual(self.found(GROUP), [("crates/one/proofs/Same.antt", 1)])
        self.assertEqual(self.found(f"{GROUP}\n{LAWS}"), [])

    def test_two_groups_are_not_one(self):
        apart = GROUP.replace("\ncrates/two", "\n\nAnd this.\ncrates/two")
        self.assertEqual(self.found(f"{apart}\n{LAWS}"), [("crates/one/src/lib.rt", 2), (twins.LIST, 2), (twins.LIST, 5)])

    def test_an_entry_without_a_twin(self):
        self.assertEqual(self.found(f"{GROUP}crates/one/src/lib.rt other\n\n{LAWS}"), [(twins.LIST, 4)])

    def test_short_ones_and_other_bodies(self):
        support.write(self.room / "crates/two/src/lib.rt", WEIGHS.replace("        weight = weight.min(most);\n", ""))
        short = [it.name for it in twins.units_of(str(self.room))]
        self.assertEqual(short, ["same", "counted", "other", "equal"])
        support.write(self.room / "crates/two/src/lib.rt", WEIGHS.replace("+= 1", "= weight.max(parcel.size())").replace("is_large", "is(7) && is_new"))
        self.assertEqual([one.name for _, one, _ in twins.pairs_of(twins.units_of(str(self.room)))], ["same"])


if __name__ == "__main__":
    unittest.main()
