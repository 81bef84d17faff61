"""What docs/PROVED.md says of clauses and theorems and ample_memory.txt of tests is so, and what isn't so is found."""
import glob
import os
import re
import unittest

from support import ROOT, read

import proved_page
import repository

SOURCE = """//! Lists.

/// A list.
pub struct List {
    items: Vec<u8>,
}

/// What is listed.
pub trait Listed {
    /// Copies it.
    fn copy(alloc: Global, other: &Self) -> Result<Self, AllocError>
        ensures copied { IfOk result (same other) };
}

impl List {
    /// An empty one.
    pub fn new(alloc: Global) -> List
        ensures { result ≡ [] }
    {
        List { items: Vec::new(alloc) }
    }

    /// Adds a byte.
    pub fn add(
        &mut self,
        byte: u8,
    ) -> Result<(), AllocError>
        ensures added { OnOk result (self.new ≡ self.old ++ byte) }
        ensures refused { OnErr result (self.new ≡ self.old) }
    {
        grow(self)?;
        Ok(())
    }
}

fn grow(list: &mut List) -> Result<(), AllocError> {
    reserve(list)
}

/// Makes room.
pub fn reserve(list: &mut List) -> Result<(), AllocError> {
    Ok(())
}

/// A law.
pub fn lists_are_lists()
    ensures { ListsAreLists }
{}
"""
PAGE = """
| call | clauses | promise |
|---|---|---|
| `List::add` | `added`, `refused` | It is added. |
| | `added` | Again. |
| an `add` of `one_crate` | | Nothing. |

## Theorems about the definitions

- Lists are lists (`lists_are_lists`), as `somebody` says (see [a page](one.md)).

## What is only tested
"""
LIST = """# Tests.

first: Listed::copy
second: List::new, List::add (reserve)
"""
TESTS = {"first": "use one_crate::Listed;\nListed::copy(rt.alloc(), &list)?", "second": "List::new(rt.alloc()).add(1)?"}


class Page(unittest.TestCase):
    def setUp(self):
        self.functions = proved_page.functions_in("one_crate", "lists", SOURCE)

    def wrong(self, old="", new="", texts=TESTS):
        page, tests = (it.replace(old, new) if old else it for it in (PAGE, LIST))
        needed = sorted({proved_page.name_of(it, self.functions) for it in self.functions if it.is_public and it.takes_memory()})
        found = proved_page.wrong_tests(needed, proved_page.listed(tests), texts, self.functions)
        return proved_page.wrong_clauses(page, self.functions) + found

    def test_nothing_is_wrong_in_the_page(self):
        functions, public = proved_page.all_functions()
        needed = proved_page.needed(public)
        self.assertGreater(len(needed), 50)
        self.assertLess({"relate", "Table::load", "RTree::search", "bind"}, set(needed))
        page = proved_page.text_of_pages()
        self.assertGreater(len(proved_page.rows_of(page)), 40)
        self.assertEqual(proved_page.wrong_clauses(page, functions), [])
        tests = proved_page.listed(read(proved_page.LIST))
        self.assertGreater(len(tests), 20)
        self.assertEqual(proved_page.wrong_tests(needed, tests, proved_page.sources(), functions), [])

    def test_one_call_makes_a_matrix(self):
        functions, public = proved_page.all_functions()
        makers = {it.name for it in public if re.search(r"\bMatrix\b", it.signature.partition("->")[2])}
        self.assertEqual(makers, {"relate", "relate_texts", "matrix_of"})
        for it in makers - {"relate"}:
            self.assertIn("relate", proved_page.reached(it, functions))
        self.assertRegex(read(f"{ROOT}/crates/de9im/src/matrix.rt"), r"pub struct Matrix \{\n    cells: MatrixCells,\n\}")

    def test_three_calls_make_a_geometry(self):
        callers = {}
        for path in glob.glob(f"{ROOT}/crates/*/src/*.rt"):
            if re.search(r"\bGeometry::kept\(", proved_page.read(path)):
                callers[os.path.relpath(path, f"{ROOT}/crates")] = len(re.findall(r"\bGeometry::kept\(", proved_page.read(path)))
        self.assertEqual(callers, {"wkt/src/reading.rt": 1, "wkb/src/reading.rt": 1, "library_calls/src/checking.rt": 1})

    def test_calls_are_below_their_crates_and_have_their_stars(self):
        functions, _ = proved_page.all_functions()
        crates = list(repository.read_crates())
        page = proved_page.read(f"{ROOT}/docs/PROVED.md")
        for path in proved_page.PAGES:
            self.assertEqual(proved_page.wrong_rows(proved_page.read(path), functions, crates), [])
            self.assertEqual("with a star" in proved_page.read(path), "`\\*" in proved_page.read(path), path)
        self.assertGreater(page.count("`\\*"), 25)
        for old, new, wrong in [
            ("| `run`\\*", "| `run`", "run has a requires and no star"),
            ("| `place_of` |", "| `place_of`\\* |", "place_of has a star and no requires"),
            ("In `sql_text` and `spatial_sql`.", "In `spatial_sql`.", "read_schema is in no crate that is named above its table"),
            ("| `Database::load`\\* |", "| `Rows::next` |", "Rows::next is in no crate that is named above its table"),
        ]:
            with self.subTest(wrong=wrong):
                self.assertEqual(page.count(old), 1)
                self.assertIn(wrong, proved_page.wrong_rows(page.replace(old, new), functions, crates))

    def test_the_headline_stands_once(self):
        readme, places = proved_page.read(f"{ROOT}/README.md"), proved_page.places_of_headlines()
        words = proved_page.headline(readme)
        self.assertRegex(words, r"^For every schema .* as sets of rational points\.$")
        self.assertEqual(proved_page.plain_words(readme).count(words), 1)
        self.assertEqual(proved_page.wrong_headlines(places, readme), [])
        for path in proved_page.HEADLINES:
            without = re.sub(r"LIMIT\s+0", "LIMIT 1", places[path])
            wrong = [f"{path} doesn't have the headline as the README has it"]
            self.assertEqual(proved_page.wrong_headlines({**places, path: without}, readme), wrong)
            self.assertEqual(proved_page.wrong_headlines({**places, path: ""}, readme), wrong)
        said = "It is proved that the answer is the rows for which WHERE is true."
        self.assertEqual(len(proved_page.wrong_headlines({**places, "docs/DATA.md": places["docs/DATA.md"] + said}, readme)), 1)
        self.assertEqual(len(proved_page.wrong_headlines(places, readme.replace("LIMIT n", "LIMIT"))), len(proved_page.HEADLINES))

    def test_three_pages_say_what_is_proved_from_bytes_on(self):
        pages = {it: proved_page.read(f"{ROOT}/{it}") for it in proved_page.FROM_BYTES}
        self.assertEqual(proved_page.wrong_from_bytes(pages), [])
        first, *others = proved_page.FROM_BYTES
        for path in others:
            for old, new in (("nearest", "next"), ("For the bytes", "By the bytes")):
                wrong = {**pages, path: pages[path].replace(old, new)}
                self.assertEqual(proved_page.wrong_from_bytes(wrong), [f"{path} doesn't say of the library, from bytes on, what {first} says"])
        self.assertEqual(len(proved_page.wrong_from_bytes({**pages, first: ""})), 3)
        # What they say is what the clauses say that LIBRARY names, of the two calls.
        calls = proved_page.plain_words(proved_page.read(f"{ROOT}/docs/LIBRARY.md"))
        self.assertRegex(calls, r"For any bytes and any grid, sfq_read_binary .* sfq_relate returns their DE-9IM matrix")

    def test_no_text_says_what_is_not_so(self):
        texts = {**proved_page.places_of_headlines(), **{it: proved_page.read(f"{ROOT}/{it}") for it in ("README.md", "docs/PROVED.md")}}
        self.assertLess({"bindings/c/sfq.h", "bindings/sqlite/sfq0.c", "bindings/python/sfq/__init__.py"}, set(texts))
        self.assertEqual(proved_page.wrong_sentences(texts), [])
        for said in ("What the library\nreturns is proved.", "and each such text <b>has</b> this fault", "That probes search indexes."):
            self.assertEqual(len(proved_page.wrong_sentences({**texts, "docs/DATA.md": said})), 1, said)
        # Where the proof ends is said wherever somebody may look for it.
        for path in texts:
            if re.search(r"bindings/(?:c/sfq\.h|sqlite/(?:sfq0\.c|asking\.h)|postgresql/(?:sfq\.c|asking\.h)|python/sfq/(?:__init__|geometry/library)\.py)", path):
                self.assertRegex(proved_page.plain_words(texts[path]).replace(" * ", " "), r"\bcalls of the crates? sfq_c\b", path)

    def test_functions_of_a_source(self):
        found = [(it.owner, it.name, it.is_public, it.takes_memory(), sorted(it.clauses)) for it in self.functions]
        self.assertEqual(
            found,
            [
                ("Listed", "copy", True, True, ["copied"]),
                ("List", "new", True, False, []),
                ("List", "add", True, True, ["added", "refused"]),
                ("", "grow", False, True, []),
                ("", "reserve", True, True, []),
                ("", "lists_are_lists", True, False, []),
            ],
        )
        self.assertEqual(proved_page.reached("List::add", self.functions), {"grow", "reserve"})

    def test_what_is_so(self):
        self.assertEqual(self.wrong(), [])
        self.assertEqual(self.wrong("first: Listed::copy", "first: all others"), [])

    def test_the_list(self):
        found = proved_page.listed("# A head: not this.\n\none: a, B::c (d, E::f), g\ntwo.txt: all others\n")
        wanted = [("one", "a", []), ("one", "B::c", ["d", "E::f"]), ("one", "g", []), ("two.txt", "all others", [])]
        self.assertEqual(found, wanted)

    def test_what_is_wrong(self):
        for old, new, wrong in [
            ("`List::add` |", "`List::adds` |", "List::adds is no function of a library"),
            ("`added` |", "`kept` |", "List::add: no clause is named kept"),
            ("(`lists_are_lists`)", "(`lists_are_sets`)", "lists_are_sets is no theorem"),
            ("first: Listed::copy\n", "", "no test is named for Listed::copy"),
            (" (reserve)", "", "no test is named for reserve"),
            ("first: Listed::copy", "first: Listed::copies", "Listed::copies is no function of a library"),
            ("first: ", "third: ", "third is no module of tests and no script"),
            ("first: Listed::copy", "first: Listed::copy, List::add", "first doesn't call List::add"),
            ("(reserve)", "(reserve, Listed::copy)", "List::add doesn't call Listed::copy"),
        ]:
            with self.subTest(wrong=wrong):
                self.assertIn(wrong, self.wrong(old, new))
        self.assertIn("first doesn't call Listed::copy", self.wrong(texts={**TESTS, "first": "list.copied()"}))


if __name__ == "__main__":
    unittest.main()
