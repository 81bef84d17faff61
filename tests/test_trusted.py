"""./build --trusted: it lists each file that a public contract is written in, with its sum, and no other; pages have the definitions."""
import glob
import os
import re
import shutil
import subprocess
import sys
import tempfile
import unittest

from support import ROOT, read, write

import believed
import closure
import library
import repository
import tiles
import trusted

# Some of what each chain has to reach, by the definitions that its clauses come down to.
REACHED = {
    "headline": "geometry_model/specs/Sides geometry_model/specs/Crossings geometry_model/specs/Patterns geometry_model/specs/GivenMatrix"
    " geometry_model/specs/WellKnownText geometry_model/specs/FirstFaults geometry_model/specs/Dimensions geometry_model/specs/PointSets"
    " table_model/specs/Arguments table_model/specs/QueryGrammar table_model/specs/Loading query_runs/specs/RecordTexts query_runs/specs/Runs",
    "commands": "engine/specs/Commands text_commands/specs/Pairs text_commands/specs/FaultPages"
    " text_commands/specs/TextWitnesses record_reasons/specs/Reasons query_runs/specs/Runs geometry_model/specs/Dimensions",
    "library": "library_calls/specs/Refusals library_calls/specs/Arrays library_calls/specs/Relations geometry_model/specs/Crossings"
    " geometry_model/specs/Dimensions witnesses/specs/Shown matrix_laws/specs/Witnessing wkt/specs/KeptGeometries",
    "tiles": "table_laws/specs/Cells table_laws/specs/Tiles table_laws/specs/TileLaws table_laws/specs/StretchLaws tiles/specs/Copies"
    " sfq_tiles/specs/Splits sfq_tiles/specs/Checks sfq_tiles/specs/Words sfq_tiles/specs/MadeTables table_model/specs/Loading"
    " table_model/specs/Meanings table_model/specs/SchemaReading",
    "databases": "sfq_tables/specs/OpenStatements statements/specs/Statements kept_tables/specs/KeptTables table_model/specs/Work",
    "web": "sfq_web/specs/HandedFiles sfq_web/specs/Servings sfq_web/specs/Pieces engine/specs/Commands text_commands/specs/Pairs",
    "others": "geometry_model/specs/TextRefusals table_model/specs/QueryRefusals table_model/specs/SchemaRefusals"
    " table_model/specs/BindingRules table_model/specs/QueryRules witnesses/specs/FirstPlaces library_calls/specs/ArrayLaws"
    " sfq_tables/specs/SteppedAnswers tiles/specs/Cuts tiles/specs/Faults tiles/specs/Lines tiles/specs/Passes"
    " tiles/specs/Samples",
}
# The sources whose clauses begin a chain, and types that are in their models.
SOURCES = {
    "headline": "query_runs/src/runs geometry_model/src/shapes table_model/src/values failures/src/run_fault streams/src/sink",
    "commands": "engine/src/commands streams/src/sink failures/src/failure",
    "web": "sfq_web/src/serve_call sfq_web/src/handed_files",
    "others": "explanations/src/nearest_names planner/src/chosen_plans noding/src/segment_meetings",
    "library": "sfq_c/src/text_calls sfq_c/src/kept_calls validity/src/valid_geometry library_calls/src/faults",
    "tiles": "sfq_tiles/src/splitting sfq_tiles/src/ports sfq_tiles/src/parts sfq_tiles/src/words tiles/src/texts failures/src/failure",
}
NAMES = dict(zip(("headline", "commands", "library", "tiles", "databases", "web", "others"), (*trusted.CHAINS, trusted.OTHERS)))
# A definition that no crate has, and one that it imports.
ADDED = "-- a definition of a test\nuse Rattle.{crate}.specs.BelowTheAdded.{{below_the_added}}\n\nabbrev pub added : Type 1\nadded = below_the_added\n"
BELOW = "abbrev pub below_the_added : Type 1\nbelow_the_added = Type 0\n"


class Trusted(unittest.TestCase):
    """The chains of a copy of the sources and pages. Nothing is proved in it."""

    @classmethod
    def setUpClass(cls):
        cls.root = tempfile.mkdtemp(prefix="sfq-trusted-")
        cls.addClassCleanup(shutil.rmtree, cls.root)
        shutil.copytree(f"{ROOT}/docs", f"{cls.root}/docs", ignore=shutil.ignore_patterns("pictures"))
        shutil.copyfile(f"{ROOT}/crates.txt", f"{cls.root}/crates.txt")
        for crate in repository.read_crates():
            for part in ("src", "specs"):
                if os.path.isdir(f"{ROOT}/crates/{crate}/{part}"):
                    shutil.copytree(f"{ROOT}/crates/{crate}/{part}", f"{cls.root}/crates/{crate}/{part}")
        cls.before = cls.sums()

    @classmethod
    def sums(cls):
        return {name: {path: one for one, path in sums} for name, sums in trusted.lists(cls.root).items()}

    def totals(self, sums):
        return {name: closure.total([(one, path) for path, one in of.items()]) for name, of in sums.items()}

    def edit(self, path):
        """Adds a comment to a file of the copy, and returns its text before."""
        text = read(f"{self.root}/{path}")
        write(f"{self.root}/{path}", text + ("-- edited\n" if path.endswith(".antt") else "// edited\n"))
        return text

    def test_what_each_chain_reaches(self):
        for part, more in (("specs", REACHED), ("src", SOURCES)):
            for chain, names in more.items():
                wanted = {f"crates/{it}.{'antt' if part == 'specs' else 'rt'}" for it in names.split()}
                self.assertEqual(wanted - self.before[NAMES[chain]].keys(), set(), chain)
        for name, files in self.before.items():
            self.assertGreater(len(files), 60, name)
            self.assertFalse([it for it in files if "/proofs/" in it])
        others = self.before[NAMES["others"]].keys()
        self.assertFalse([it for name, files in self.before.items() if name != NAMES["others"] for it in files.keys() & others])

    def test_an_edit_of_a_file_that_is_reached_changes_its_sum_and_that_over_all(self):
        totals = self.totals(self.before)
        reached = sorted({it for files in self.before.values() for it in files})
        for path in reached[::60]:
            text = self.edit(path)
            after = self.sums()
            write(f"{self.root}/{path}", text)
            for name, files in self.before.items():
                changed = [it for it in {*files, *after[name]} if files.get(it) != after[name].get(it)]
                self.assertEqual(changed, [path] if path in files else [], (name, path))
                self.assertEqual(self.totals(after)[name] != totals[name], path in files, (name, path))
        texts = {it: self.edit(it) for it in reached}
        after = self.sums()
        for it, text in texts.items():
            write(f"{self.root}/{it}", text)
        for name, files in self.before.items():
            self.assertEqual(after[name].keys(), files.keys())
            self.assertFalse([it for it, one in files.items() if after[name][it] == one], name)

    def add_to_a_contract(self, crate):
        """Has the contract of a public call of a crate of the copy import a definition that is added; returns the two files' texts by path."""
        made = closure.Closure(self.root)
        calls = made.public_functions(crate) or [it for it in made.functions() if (it.crate, it.owner, it.name) == trusted.TILES]
        call = next(it for it in calls if it.clauses)
        path = f"crates/{crate}/src/{call.module}.rt"
        kept = {path: read(f"{self.root}/{path}")}
        head, clause, rest = kept[path].partition(next(iter(call.clauses.values())))
        text = f"ghost use Rattle.{crate}.specs.AddedHere.{{added}};\n{head}added × ({clause}){rest}"
        write(f"{self.root}/{path}", re.sub(r"\A(ghost use .*\n)((?:(?://|#!).*\n|\n)*)", r"\2\1", text))
        return kept

    def test_a_definition_that_a_public_contract_names_is_listed_of_each_crate(self):
        made = closure.Closure(self.root)
        crates = [it for it in repository.read_crates() if made.public_functions(it) and it not in repository.crates_with_tests()]
        crates = [it for it in crates if any(call.clauses for call in made.public_functions(it))] + ["sfq_tiles"]
        self.assertGreater(len(crates), 35)
        kept, added = {}, set()
        for crate in crates:
            kept.update(self.add_to_a_contract(crate))
            os.makedirs(f"{self.root}/crates/{crate}/specs", exist_ok=True)
            for name, text in (("AddedHere", ADDED.format(crate=crate)), ("BelowTheAdded", BELOW)):
                added.add(f"crates/{crate}/specs/{name}.antt")
                write(f"{self.root}/crates/{crate}/specs/{name}.antt", text)
        after = self.sums()
        for path in added:
            os.remove(f"{self.root}/{path}")
        for path, text in kept.items():
            write(f"{self.root}/{path}", text)
        self.assertEqual(added - {it for files in after.values() for it in files}, set())

    def test_each_definition_that_a_page_links_is_listed(self):
        pages = [*glob.glob(f"{ROOT}/docs/*.md"), f"{ROOT}/README.md", f"{ROOT}/CONTRIBUTING.md"]
        linked = {it for page in pages for it in re.findall(r"crates/\w+/specs/\w+\.antt", read(page))}
        self.assertGreater(len(linked), 100)
        self.assertEqual(linked - {it for files in self.before.values() for it in files}, set())

    def test_edits_of_all_other_files_change_nothing(self):
        reached = {it for files in self.before.values() for it in files}
        others = [
            os.path.relpath(f"{at}/{it}", self.root)
            for at, _, names in os.walk(f"{self.root}/crates") for it in names if it.endswith((".antt", ".rt"))
        ]
        others = [it for it in others if it not in reached]
        self.assertGreater(len(others), 200)
        texts = {it: self.edit(it) for it in others}
        self.assertEqual(self.sums(), self.before)
        for it, text in texts.items():
            write(f"{self.root}/{it}", text)

    def test_a_definition_that_is_not_there_is_an_error(self):
        path = "crates/geometry_model/specs/Crossings.antt"
        os.rename(f"{self.root}/{path}", f"{self.root}/{path}.away")
        with self.assertRaisesRegex(ValueError, f"no file {path} for "):
            self.sums()
        os.rename(f"{self.root}/{path}.away", f"{self.root}/{path}")

    def test_what_the_command_prints(self):
        ran = subprocess.run([sys.executable, "-B", f"{ROOT}/build", "--trusted"], capture_output=True, text=True)
        self.assertEqual((ran.returncode, ran.stderr), (0, ""))
        lines = ran.stdout.splitlines()
        for name, sums in trusted.lists().items():
            at = lines.index(f"  {name}:")
            self.assertEqual(lines[at + 1 : at + 1 + len(sums)], [f"    {one}  {path}" for one, path in sums])
            self.assertEqual(lines[at + 1 + len(sums)], f"    {closure.total(sums)}  all {len(sums)} files")
        follows = lines[lines.index("What follows from it:") + 1 :]
        self.assertEqual(len(follows), len(trusted.MAKES) + 1)
        for path, is_there, shown, command in (
            (repository.PROGRAM, repository.is_built, "the program sfq", "./build"), (tiles.PROGRAM, tiles.is_made, "the program sfq-tiles", "./build --tiles"),
            (library.SHARED, library.is_made, "the library libsfq.so.0", "./build --library"),
            (library.TABLES.shared, lambda: library.is_made(library.TABLES), "the library libsfq_tables.so.0", "./build --library"),
        ):
            is_made = os.path.isfile(path) and is_there()
            self.assertIn(f"    {repository.sum_of_file(path)}  {shown}" if is_made else f"    {command} makes {shown}, which isn't there", follows)

    def test_the_readme_names_the_libraries_of_the_kit(self):
        said = re.search(r"the contracts of the kit's ([^.]*)\.", read(f"{ROOT}/README.md"))[1]
        self.assertEqual(sorted(re.findall(r"`(\w+)`", said)), trusted.kit_libraries())

    def test_the_sum_over_all_is_that_of_the_lines_of_sha256sum(self):
        of = list(self.before[NAMES["library"]])
        ran = subprocess.run(["sha256sum", *of], cwd=self.root, capture_output=True, check=True)
        again = subprocess.run(["sha256sum"], input=ran.stdout, capture_output=True, check=True).stdout.decode()
        self.assertEqual(again.split()[0], self.totals(self.before)[NAMES["library"]])


class Resolved(unittest.TestCase):
    """What the toolchain resolves in contracts: the definitions that each is about, and the sources of its types."""

    IS_LONG = True
    CRATE = "fraction"
    CALLS = ("grid_points::GridPoint::new", "rational_points::RatPoint::mediant", "rational_points::RatPoint::reduced")

    def resolved(self, room):
        """Returns the files of the repository that the modules which the toolchain writes of some contracts name."""
        words = [it for call in self.CALLS for it in ("--start", call)]
        subprocess.run(["rt", "check", *words, "--generated", room], cwd=f"{ROOT}/crates/{self.CRATE}", capture_output=True, check=True)
        files = set()
        for path in glob.glob(f"{room}/Rattle-{self.CRATE}-specs/contracts/**/*.antt", recursive=True):
            for crate, rest in re.findall(r"^\s*use Rattle\.(\w+)\.specs\.(\S+)", read(path), re.M):
                if crate in repository.read_crates():
                    kind, _, below = rest.partition(".")
                    is_source = kind in ("contracts", "declared")
                    files.add(f"crates/{crate}/" + (f"src/{below.partition('.')[0]}.rt" if is_source else f"specs/{kind}.antt"))
        return files

    def test_each_file_that_the_toolchain_resolves_is_listed(self):
        below = [it for it in repository.read_crates()[self.CRATE] if it in repository.read_crates()]
        if not shutil.which("rt") or not all(os.path.isdir(f"{ROOT}/crates/{it}/out/rlib") for it in below):
            self.skipTest(f"needs {' and '.join(below)} proved, as by ./build")
        with tempfile.TemporaryDirectory(prefix="sfq-resolved-") as room:
            files = self.resolved(room)
        self.assertIn("crates/geometry_model/specs/Points.antt", files)
        self.assertIn("crates/fraction/src/grid_points.rt", files)
        self.assertEqual(files - {path for sums in trusted.lists().values() for _, path in sums}, set())


class Pages(unittest.TestCase):
    """What the clauses of calls come down to is on a page, or in a file that has its definition there."""

    # Files that no page has, by why nobody has to read them.
    LEFT_OUT = {
        "a law ties these functions to the relations of a page": "geometry_model/TextReading table_model/Parsers table_model/SchemaReading"
        " table_model/Binding table_model/Statements sfq_tiles/SchemaTexts wkt/TextFaults",
        "these are of plans, which only EXPLAIN and its work show": "table_model/Candidates table_model/Places",
        "these name types": "table_model/Queries table_model/SpatialTables feature_table/GeometryFields fraction/Fractions",
        "rows of the pages say in words what these are": "basics/Counts feature_table/Outcomes failures/Ends",
    }
    CALLS = {
        "the headline": ["run"],
        "why": ["find_witnesses", "place_of", "verdict_of", "put_witnesses", "put_reason", "put_verdict"],
        "sfq-tiles": ["split"],
    }

    def missing(self, items, pages):
        named = {f"{crate}/{file}" for crate, file, _ in believed.reached(items) if (crate, file) not in pages}
        return named - {it for files in self.LEFT_OUT.values() for it in files.split()}

    def test_what_clauses_come_down_to_is_on_a_page(self):
        pages = believed.files_of_pages()
        exports = [it for it in closure.Closure().functions() if it.crate == trusted.LIBRARY and 'extern "C"' in it.signature]
        for name, items in {**{name: believed.calls(*names) for name, names in self.CALLS.items()}, "the library": exports}.items():
            self.assertGreaterEqual(len(items), len(self.CALLS.get(name, range(15))), name)
            self.assertGreater(len(believed.reached(items)), 200, name)
            self.assertEqual(self.missing(items, pages), set(), name)

    def test_each_chain_has_the_files_of_what_its_clauses_come_down_to(self):
        exports = [it for it in closure.Closure().functions() if it.crate == trusted.LIBRARY and 'extern "C"' in it.signature]
        lists = trusted.lists()
        for name, items in (("headline", believed.calls("run")), ("library", exports), ("tiles", believed.calls("split"))):
            chain = {path for _, path in lists[NAMES[name]]}
            files = {f"crates/{crate}/specs/{file}.antt" for crate, file, _ in believed.reached(items)}
            self.assertEqual((files - chain, len(files) > 30), (set(), True), name)

    def test_a_file_that_no_page_has_is_found(self):
        pages = believed.files_of_pages()
        for name, gone in (("the headline", ("geometry_model", "FirstFaults")), ("why", ("witnesses", "FirstPlaces")), ("sfq-tiles", ("tiles", "Copies"))):
            self.assertIn(gone, pages)
            self.assertEqual(self.missing(believed.calls(*self.CALLS[name]), pages - {gone}), {"/".join(gone)})


if __name__ == "__main__":
    unittest.main()
