"""The package sfq for JavaScript: in Node, Chromium and Firefox against the program, its types, what it rounds, and its installation."""
import base64
import functools
import itertools
import json
import math
import os
import random
import re
import shutil
import subprocess
import tarfile
import tempfile
import unittest
from fractions import Fraction
from unittest import mock

from support import ROOT, examples, needs, needs_build, read, write_all

import answers
import browsers
import javascript_package
import language
import wkb_model
from browsers import PATIENCE, databases_of, limited, printed_of, random_pairs, rows_of_scripts, rows_that_ask, rows_that_relate, with_answers
from sfq.geometry import grids
from test_web import carried, needs_page, relations

HERE = f"{ROOT}/tests/javascript"
# How many pages the memory of a module may grow by in turn: each refuses the next growth of a row of calls.
PAGES = (*range(0, 24, 2), 32, 48, 64, 96, 128, 192, 256)
# Inputs whose faults the rows of pairs and queries lack: a schema, the bytes of its tables by their names, and a query.
ONE = "CREATE TABLE t (id INTEGER PRIMARY KEY, name TEXT);"
FAULTY = [
    ("CREATE TABEL t (id INTEGER PRIMARY KEY);", {}, ""),
    (f"{ONE} CREATE TABLE T (id INTEGER PRIMARY KEY);", {}, ""),
    ("CREATE TABLE t (id INTEGER PRIMARY KEY, other INTEGER PRIMARY KEY);", {}, ""),
    (f"CREATE TABLE t (id INTEGER PRIMARY KEY, {', '.join(f'c{it} TEXT' for it in range(32))});", {}, ""),
    (ONE + " " * 65_536, {}, ""),
    (ONE, {"t": b"id,name\n1,\xff\n"}, "SELECT id FROM t"),
    (ONE, {"t": b"id,name\n" + b"".join(b"%d,\n" % it for it in range(100_001))}, "SELECT id FROM t"),
    (ONE, {"t": b"id,name\n"}, "SELECT id FROM t WHERE id = 1" + " " * 65_536),
]
# No call of the library has this one, which is of a file that can't be read on.
NOT_OF_CALLS = {"L11"}


@functools.lru_cache(maxsize=None)
def package():
    """Makes the package of the modules that are there and the present files once. Returns the folder with `sfq` and the archive."""
    room = tempfile.mkdtemp(prefix="sfq-package-")
    javascript_package.write_package(carried(), f"{room}/out")
    return f"{room}/out"


def tearDownModule():
    if package.cache_info().currsize:
        shutil.rmtree(os.path.dirname(package()))


def install(room, *names):
    """Unpacks the archive as npm does, under names, beside the files of the tests."""
    for name in names or ("sfq",):
        with tarfile.open(f"{package()}/{archive()}") as packed:
            packed.extractall(f"{room}/node_modules/new")
        os.rename(f"{room}/node_modules/new/package", f"{room}/node_modules/{name}")
    for it in os.listdir(HERE):
        shutil.copy(f"{HERE}/{it}", room)
    with open(f"{room}/package.json", "w", encoding="ascii") as file:
        json.dump({"type": "module"}, file)


def archive():
    return f"sfq-{read(f'{ROOT}/VERSION').strip()}.tgz"


def node(room, *words):
    """Returns what a program prints in Node."""
    ran = subprocess.run(["node", *words], cwd=room, capture_output=True, text=True, timeout=6 * PATIENCE)
    if ran.returncode:
        raise AssertionError(ran.stderr[-3000:])
    return ran.stdout


def tried(name, given=None, flags=(), copies=()):
    """Returns what a trial finds in Node."""
    with tempfile.TemporaryDirectory(prefix="sfq-node-test-") as room:
        install(room, *copies)
        with open(f"{room}/given.json", "w", encoding="ascii") as file:
            json.dump(given, file)
        return json.loads(node(room, *flags, "node.mjs", name, *(["given.json"] if given is not None else [])))


def modules_of(pages):
    """Returns modules of databases whose memory grows by so many pages at most, in base64."""
    return [base64.b64encode(limited(carried()["sfq_tables.wasm"], it)).decode() for it in pages]


def databases_given(databases):
    return [{"schema": schema, "tables": list(tables), "queries": [it for it, _ in asked]} for (schema, tables), asked in databases.items()]


@functools.lru_cache(maxsize=None)
def faulty():
    """Returns databases of one query each, as trials are handed them, and the line of the fault that the program ends each with."""
    with tempfile.TemporaryDirectory(prefix="sfq-faulty-") as room:
        for at, (schema, tables, _) in enumerate(FAULTY):
            write_all(f"{room}/{at}", {"schema.sql": schema})
            for name, content in tables.items():
                with open(f"{room}/{at}/{name}.csv", "wb") as file:
                    file.write(content)
        given = answers.by_program([["run", f"{room}/{at}/schema.sql", f"{room}/{at}", query] for at, (_, _, query) in enumerate(FAULTY)])
    databases = [{"schema": schema, "tables": [list(it) for it in tables.values()], "queries": [query]} for schema, tables, query in FAULTY]
    return databases, [it.err.decode().rstrip("\n") for it in given]


class Trials:
    """What trials find, in Node or in a browser, beside what is wanted."""

    def compare_pairs(self, wanted, found):
        self.assertIsInstance(found, dict, found)
        self.assertEqual(found["lost"], 0, "memory isn't given back")
        for (pair, line), it in zip(wanted, found["found"], strict=True):
            with self.subTest(" | ".join(pair)):
                self.assertEqual((it["line"], it["kept"]), (line, line))
                self.assertTrue(it["agree"] and it["pattern"])
                if len(line) == 9:
                    self.assertEqual({name[0].upper() + name[1:] for name in it["relations"]}, relations(pair, line))
                    self.assertEqual(it["turned"], "".join(line[at] for at in (0, 3, 6, 1, 4, 7, 2, 5, 8)))
                else:
                    place = line.split(" ", 2)[2]
                    self.assertTrue(it["reasons"][line.split()[1] == "second"].startswith(place), it["reasons"])

    def compare_queries(self, databases, found):
        self.assertIsInstance(found, dict, found)
        self.assertEqual(found["lost"], 0, "memory isn't given back")
        for asked, given in zip(databases.values(), found["found"], strict=True):
            for (query, printed), answer in zip(asked, given, strict=True):
                with self.subTest(query):
                    self.assertEqual(answer["text"] if isinstance(answer, dict) else answer, printed)
                    if isinstance(answer, dict):
                        self.compare_rows(printed, answer["rows"])

    def compare_rows(self, printed, rows):
        """The values of rows are the fields of the lines, where no field is in quotes."""
        lines = printed.rstrip("\n").split("\n")
        if '"' not in printed and not lines[0].startswith("cost"):
            self.assertEqual([["" if it is None else str(it) for it in row] for row in rows], [line.split(",") for line in lines[1:]])


class Handles(unittest.TestCase):
    """Statements that were freed, and numbers that don't fit, over a module that notes the calls."""

    NO_CONSTANT = "TypeError: sfq: no constant {} takes this value: INTEGER, INTEGER"
    NO_STEP = "RangeError: sfq: a step looks at a whole number of candidates, not {}"

    @needs("nodejs", "node")
    def test_a_freed_statement_is_no_other_one(self):
        with tempfile.TemporaryDirectory(prefix="sfq-handles-") as room:
            files = javascript_package.files_of_package({it.file: b"" for it in javascript_package.MODULES})
            write_all(room, {path: content.decode("utf-8") for path, content in files.items()})
            ran = subprocess.run(["node", f"{HERE}/handles.mjs", room], capture_output=True, text=True)
        self.assertEqual(ran.stderr, "")
        found, freed = json.loads(ran.stdout), "Error: sfq: the statement is freed"
        for name, said, calls in (
            ("steps", freed, []), ("binds", freed, []), ("resets", freed, []), ("plans", freed, []), ("freedTwice", "done", []),
            ("other", "end", ["step 0 4294967295"]), ("bound", "done", ["bind 0 1 7"]), ("nothing", "done", ["null 0 0"]),
            ("wrapped", self.NO_CONSTANT.format(2**32), []), ("past", self.NO_CONSTANT.format(2), []),
            ("below", self.NO_CONSTANT.format(-1), []), ("fraction", self.NO_CONSTANT.format(0.5), []),
            ("text", self.NO_CONSTANT.format(0), []), ("length", self.NO_CONSTANT.format("length"), []),
            ("most", "end", ["step 0 4294967295"]), ("all", "end", ["step 0 4294967295"]),
            ("negative", self.NO_STEP.format(-1), []), ("half", self.NO_STEP.format(0.5), []), ("none", self.NO_STEP.format("NaN"), []),
            ("word", self.NO_STEP.format(1), []), ("freed", "done", ["finalize 0"]), ("freedAgain", "done", []),
            ("closed", "Error: sfq: the database is freed", []), ("ofClosed", "done", []), ("closedAgain", "done", []),
        ):
            self.assertEqual(found.pop(name), [said, calls], name)
        self.assertEqual(found, {})


class SharedTrials(Trials):
    """The trials of the gate."""

    def setUp(self):
        self.databases = databases_of(rows_that_ask())

    def compare_all(self, wanted, lines, found):
        """Compares what all trials found, by their names."""
        self.compare_pairs(wanted, found["pairs"])
        asked = found["queries"]
        count = len(self.databases)
        self.compare_queries(self.databases, {**asked, "found": asked["found"][:count]})
        self.assertEqual([it for it, in asked["found"][count:]], faulty()[1])
        self.assertEqual([it["lines"] for it in found["whys"]], lines)
        self.assertTrue(all(it["isShown"] for it in found["whys"]))
        self.assertEqual((found["many"]["lost"], found["heap"]), (0, "well"))
        self.assertLessEqual({"well", "refused"}, set(found["shortOfMemory"]))
        self.assertNotIn("differs", found["shortOfMemory"])
        for name in ("misuses", "statements"):
            self.assertEqual(found[name], tried(name), name)

    def given(self, wanted):
        """Returns what each trial is handed."""
        valid = [pair for pair, line in wanted if len(line) == 9][:50]
        return {
            "pairs": {"pairs": [pair for pair, _ in wanted]}, "whys": {"pairs": valid},
            "queries": {"databases": databases_given(self.databases) + faulty()[0]}, "many": {"calls": 5_000},
            "shortOfMemory": {"modules": modules_of(PAGES)}, "heap": {"modules": modules_of([16])}, "onGrids": {"shapes": []}, "binaries": {"values": []},
        }

    def lines(self, given):
        return [it.split("\n") for it in printed_of("why", given["whys"]["pairs"])]


@needs("nodejs", "node")
class InNode(SharedTrials, unittest.TestCase):
    """The package in Node."""

    ASKS_LIBRARY = True

    @needs_page
    def test_pairs_of_the_scripts(self):
        wanted = rows_that_relate()
        self.compare_pairs(wanted, tried("pairs", {"pairs": [pair for pair, _ in wanted]}))

    @needs_page
    def test_queries_of_the_scripts(self):
        self.compare_queries(self.databases, tried("queries", {"databases": databases_given(self.databases)}))

    @needs_page
    def test_reasons_of_the_scripts(self):
        """What `why` prints of one text, and of two."""
        rows = [(row.command.removeprefix("why ").split(" | ", 1), row.output) for row in rows_of_scripts() if row.command.startswith("why ")]
        rows = [(texts, printed) for texts, printed in rows if not any("@" in it for it in texts) and "! " not in printed]
        pairs = [(texts, printed.splitlines()) for texts, printed in rows if len(texts) == 2 and len(printed.splitlines()) == 9]
        ones = [(texts[0], printed.strip()) for texts, printed in rows if len(texts) == 1]
        self.assertGreaterEqual(min(len(pairs), len(ones)), 5)
        self.assertEqual([it["lines"] for it in tried("whys", {"pairs": [texts for texts, _ in pairs]})], [lines for _, lines in pairs])
        found = tried("pairs", {"pairs": [[text, "POINT(1 1)"] for text, _ in ones]})["found"]
        self.assertEqual([it["reasons"][0] for it in found], [reason for _, reason in ones])

    @needs_page
    @needs_build
    def test_every_fault(self):
        """The lines that are compared, here and of rows of pairs and queries, have all codes."""
        databases, lines = faulty()
        self.assertEqual([it for it, in tried("queries", {"databases": databases})["found"]], lines)
        others = [line for _, line in rows_that_relate() + rows_that_ask() if line.startswith("sfq: ")]
        codes = {code for line in lines + others for code in re.findall(r"\b[SLQWV]\d+\b", line)}
        self.assertEqual(set(language.FAULTS) - codes, NOT_OF_CALLS)

    @needs_page
    def test_memory_is_level(self):
        found = tried("many", {"calls": 20_000})
        self.assertGreaterEqual(found["made"], 20_000)
        self.assertEqual(found["lost"], 0)
        self.assertEqual(tried("collected", flags=["--expose-gc"])["lost"], 0)

    @needs_page
    def test_growths_are_refused_in_turn(self):
        found = tried("shortOfMemory", {"modules": modules_of(PAGES)})
        self.assertEqual(len(found), 3 * len(PAGES))
        self.assertNotIn("differs", found)
        self.assertGreaterEqual(found.count("refused"), 10)
        self.assertEqual(found[-3:], ["well"] * 3)
        self.assertEqual(tried("heap", {"modules": modules_of([16])}), "well")

    @needs_page
    def test_four_threads(self):
        wanted = rows_that_relate()
        found = tried("workers", {"pairs": [pair for pair, _ in wanted]})
        self.assertEqual(len(found), 4)
        for it in found:
            self.compare_pairs(wanted, it)

    @needs_page
    def test_two_copies(self):
        found = tried("copies", copies=("sfq", "sfq-too"))
        self.assertTrue(found["isOther"])
        self.assertEqual(found["mixed"], "TypeError: sfq: a geometry or its text is needed")
        self.assertEqual(found["related"], ["F1FF0F212", "FF2101FF2"])

    @needs_page
    def test_misuses(self):
        found = tried("misuses")
        limit = "10,000,000 either way"
        self.assertEqual(found, {
            "freed": "Error: sfq: the geometry is freed", "text": "Error: sfq: the geometry is freed",
            "valid": "Error: sfq: the geometry is freed",
            "noDatabase": "Error: sfq: the module that was loaded has no databases: await loadDatabases()",
            "made": "TypeError: sfq: a geometry is made by Geometry.read, fromPositions, fromBinary or fromGeoJSON",
            "located": "RangeError: sfq: 0.5 1 isn't a position of whole coordinates on the grid",
            "past": f"RangeError: sfq: the position 10000001 1 is past {limit}",
            "pastMany": f"RangeError: sfq: position 1 is past {limit}",
            "pattern": "RangeError: sfq: a pattern is nine characters T, F, *, 0, 1 or 2, not T********F",
            "parts": "RangeError: sfq: a Polygon has no such parts, or they don't have these positions",
            "limit": f"FaultError: sfq: W3 at position 0: a coordinate of this position is past {limit}: scale the coordinates to the grid",
            "ring": "FaultError: sfq: V2 0: the last position of this ring isn't its first",
            "envelope": f"RangeError: sfq: the envelope at 1 has a least bound past its greatest, or one past {limit}",
            "window": f"RangeError: sfq: the window has a least bound past its greatest, or one past {limit}",
            "pair": "FaultError: sfq: second W2 at 6: the number at this byte isn't whole: scale the coordinates to a grid of whole "
                    "numbers, of centimetres say (pair 1)",
            "none": [0], "one": [1], "index": "Error: sfq: the index is freed", "other": "Error: sfq: the geometries are of two modules",
        })

    @needs_page
    def test_statements(self):
        found = tried("statements")
        self.assertEqual(found["rows"], [[1, "one, é", "POINT(1 1)"], ["9007199254740993n", None, None]])
        self.assertEqual((found["bound"], found["loaded"], found["header"]), (1, True, "id,name,shape\n"))
        columns = [{"name": "id", "type": "INTEGER"}, {"name": "name", "type": "TEXT"}, {"name": "shape", "type": "GEOMETRY"}]
        self.assertEqual((found["columns"], found["tables"]), (columns, [{"name": "t", "columns": columns}]))
        self.assertEqual(found["constants"], ["INTEGER", "TEXT", "INTEGER", "GEOMETRY"])
        self.assertRegex(found["plan"], r"^cost \d+\n")
        self.assertIsInstance(found["work"], int)
        listed = "INTEGER, TEXT, INTEGER, GEOMETRY"
        for name, said in (
            ("notLoaded", "NotLoadedError: sfq: the table t isn't loaded"), ("unknown", "RangeError: sfq: the schema has no table u"),
            ("open", "Error: sfq: statements are open: free them before a table is loaded"),
            ("noRow", "Error: sfq: no row is there: the last step found none"),
            ("wrong", f"TypeError: sfq: no constant 0 takes this value: {listed}"),
            ("many", f"TypeError: sfq: no constant 9 takes this value: {listed}"),
            ("half", "TypeError: sfq: the text has half a surrogate pair"),
            ("unpaired", "TypeError: sfq: the text has half a surrogate pair"),
            ("fraction", "TypeError: sfq: 1.5 isn't a whole number, or isn't exact"),
            ("large", "RangeError: sfq: 9223372036854775808 is past 64 bits"),
            ("freed", "Error: sfq: the statement is freed"), ("closed", "Error: sfq: the database is freed"),
        ):
            self.assertEqual(found[name], said, name)
        self.assertRegex(found["refused"], r"^FaultError: sfq: Q8 at 0 W1 at 7: a geometry is refused: the text can't go on")

    @needs_page
    def test_what_geojson_has_and_a_geometry_cannot(self):
        flat = "W1 at position 0"
        for coordinates, said in (
            ([1, 2, 3], flat), ([10_000_001, 2], "W3 at position 0"), ([], None), (["1", 2], flat), ([None, 2], flat), ([1], flat),
        ):
            shape = {"shape": {"type": "Point", "coordinates": coordinates}, "step": "1", "origin": ["0", "0"]}
            found = tried("onGrids", {"shapes": [shape]})[0]
            self.assertEqual(found if said else found[0], f"sfq: {said}" if said else "POINT EMPTY")
        kinds = [{"type": "GeometryCollection", "geometries": []}, {"type": "FeatureCollection", "features": []}]
        found = tried("onGrids", {"shapes": [{"shape": it, "step": "1", "origin": ["0", "0"]} for it in kinds]})
        self.assertEqual(found, ["sfq: W1", "sfq: W1"])

    @needs_page
    def test_numbers_are_rounded_as_sfq_import_does(self):
        """Random doubles and halves on random grids become the same text, and come back as the numbers of the grid."""
        chance, given, wanted = random.Random(7), [], []
        for _ in range(300):
            step, origin = chance.choice(["1", "0.01", "0.5", "1e-3", "0.3", "250"]), [chance.choice(["0", "0.005", "-1234.5", "3e2"]) for _ in range(2)]
            grid = grids.Grid(step, origin)
            numbers = [
                (float(origin[at % 2]) + chance.randint(-5000, 5000) * float(step) / 2) if chance.random() < 0.5 else chance.uniform(-900, 900)
                for at in range(8)
            ]
            steps = [math.floor((Fraction(it) - axis.origin) / axis.step + Fraction(1, 2)) for it, axis in zip(numbers, [grid.x, grid.y] * 4)]
            positions = list(zip(steps[::2], steps[1::2]))
            given.append({"shape": {"type": "MultiPoint", "coordinates": list(zip(numbers[::2], numbers[1::2]))}, "step": step, "origin": origin})
            back = [[float(axis.text(it)) for axis, it in zip((grid.x, grid.y), position)] for position in positions]
            wanted.append(["MULTIPOINT(" + ",".join("(%d %d)" % it for it in positions) + ")", back, [list(it) for it in positions]])
        found = tried("onGrids", {"shapes": given})
        self.assertEqual([[text, on["coordinates"], whole["coordinates"]] for text, on, whole in found], wanted)

    @needs_page
    def test_well_known_binary(self):
        """What is read on a grid is what the model of the definition reads, and is written again."""
        values = [it for it in wkb_model.drawn(11, 600) if 0 < len(it) < 1_000]
        for grid, options in ((None, {}), ((1, 3, -7, 100), {"step": "0.01", "origin": ["0.03", "-0.07"]})):
            found, read = tried("binaries", {"values": [{"hex": it.hex(), **options} for it in values]}), 0
            for value, by_module in zip(values, found, strict=True):
                by_model = wkb_model.said(value, grid)
                with self.subTest(value=value.hex(), grid=grid):
                    if isinstance(by_module, str):
                        self.assertEqual(by_model[:2] == "0 ", by_module.startswith("sfq: V"))
                        continue
                    text, again, written = by_module
                    self.assertEqual((text, again), (by_model.split(" ", 4)[4], text))
                    self.assertEqual(wkb_model.said(bytes.fromhex(written), None).split(" ", 4)[4], text)
                    read += 1
            self.assertGreater(read, 50)
        self.assertEqual(tried("binaries", {"values": [{"hex": it} for it in ("", "0107000000", "01020000000100000000000000000000400000000000000840")]}),
                         ["sfq: W1 at 0", "sfq: W1", "sfq: V1 0"])


class InBrowsers(SharedTrials, unittest.TestCase):
    """All trials in each browser; skipped where a browser isn't there."""

    ASKS_LIBRARY = True

    def compare(self, name, wanted):
        if not shutil.which(name):
            self.skipTest(f"needs the package {name}")
        given = self.given(wanted)
        found = browsers.reported(name, "page.html", [HERE, package()], {"/given.json": json.dumps(given).encode()})
        self.assertIsNotNone(found, f"{name} reported nothing in {PATIENCE} seconds")
        self.assertNotIn("error", found, found.get("error"))
        self.compare_all(wanted, self.lines(given), found)

    @needs_page
    @needs_build
    def test_chromium(self):
        self.compare("chromium", rows_that_relate() + with_answers(random_pairs(100, 1)))

    @needs_page
    @needs_build
    def test_firefox(self):
        self.compare(browsers.FIREFOX, rows_that_relate() + with_answers(random_pairs(100, 2)))


class ManyCalls(SharedTrials, unittest.TestCase):
    """Ten thousand random pairs and a thousand witnesses, others in each run, in Node and each browser; a million calls in Node."""

    IS_LONG = True

    def given(self, wanted):
        valid = [pair for pair, line in wanted if len(line) == 9][:1_000]
        return {**super().given(wanted), "whys": {"pairs": valid}}

    @needs_page
    @needs_build
    def test_ten_thousand_pairs(self):
        seed = int.from_bytes(os.urandom(4), "big")
        wanted = with_answers(random_pairs(10_000, seed))
        given = self.given(wanted)
        lines = self.lines(given)
        with self.subTest(f"seed {seed} in Node"):
            self.compare_pairs(wanted, tried("pairs", given["pairs"]))
            self.assertEqual([it["lines"] for it in tried("whys", given["whys"])], lines)
        for name in browsers.BROWSERS:
            with self.subTest(f"seed {seed} in {name}"):
                if not shutil.which(name):
                    self.skipTest(f"needs the package {name}")
                found = browsers.reported(name, "page.html", [HERE, package()], {"/given.json": json.dumps(given).encode()})
                self.compare_all(wanted, lines, found)

    @needs_page
    def test_a_million_calls_keep_memory_level(self):
        self.assertEqual(tried("many", {"calls": 1_000_000})["lost"], 0)

    @needs_page
    def test_each_page_is_refused_in_turn(self):
        found = tried("shortOfMemory", {"modules": modules_of(range(200))})
        self.assertEqual(set(found), {"refused", "well"})
        self.assertEqual(len(found), 3 * 200)


class Package(unittest.TestCase):
    """The package's files, its types, and its installation."""

    def files(self):
        return javascript_package.files_of_package({it.file: it.file.encode() for it in javascript_package.MODULES})

    def test_its_archive_has_the_same_bytes_each_time(self):
        with mock.patch("time.time", side_effect=itertools.count(1_000_000_000, 100_000)):
            one, other = (javascript_package.archive_of(self.files()) for _ in range(2))
        self.assertEqual(one, other)

    def test_without_the_kit_it_is_written_with_what_was_noted_of_its_modules(self):
        """What a module was made of, and by which kit, is known where the kit is; its bytes may be other ones."""
        modules = {it.file: it.file.encode() for it in javascript_package.MODULES}
        noted = {name: {"about": f"sfq 0, 1 bytes, SHA-256 0; proved and compiled by kit {name}", "inputs": f"sum {name}"} for name in modules}
        with tempfile.TemporaryDirectory(prefix="sfq-package-") as room:
            write_all(room, {"made.json": json.dumps(noted), **{f"sfq/{name}": "" for name in modules}})
            with mock.patch.object(javascript_package, "OUT", room), mock.patch.dict(os.environ, {"PATH": "/none"}):
                javascript_package.write_package(modules, room)
            written = json.loads(read(f"{room}/made.json"))
        for name, it in written.items():
            self.assertEqual(it["inputs"], f"sum {name}")
            self.assertRegex(it["about"], rf"^sfq \S+, {len(name)} bytes, SHA-256 [0-9a-f]{{64}}; proved and compiled by kit {re.escape(name)}$")
        self.assertEqual(set(written), set(modules))

    def test_it_needs_no_other_package(self):
        described = json.loads(self.files()["package.json"])
        self.assertEqual([it for it in described if it.endswith("ependencies")], [])
        names = set(self.files())
        for name in names:
            if name.endswith(".js"):
                for it in re.findall(r'^(?:import|export) [^;]*? from "(.*)";', self.files()[name].decode(), re.M):
                    self.assertTrue(it.startswith("node:") or it.removeprefix("./") in names, (name, it))

    @needs("node-typescript", "tsc")
    def test_types(self):
        """The types of what the tests call, and what the types refuse; nothing is needed from elsewhere."""
        with tempfile.TemporaryDirectory(prefix="sfq-types-") as room:
            for path, content in self.files().items():
                file_path = f"{room}/node_modules/sfq/{path}"
                os.makedirs(os.path.dirname(file_path), exist_ok=True)
                with open(file_path, "wb") as file:
                    file.write(content)
            for it in os.listdir(HERE):
                shutil.copy(f"{HERE}/{it}", room)
            with open(f"{room}/package.json", "w", encoding="ascii") as file:
                json.dump({"type": "module"}, file)
            ran = subprocess.run(["tsc", "--noEmit", "-p", room], capture_output=True, text=True)
            self.assertEqual((ran.returncode, ran.stdout), (0, ""))
            with open(f"{room}/types.ts", "a", encoding="ascii") as file:
                file.write("export const wrong: string = Geometry.read('').dimension;\n")
            ran = subprocess.run(["tsc", "--noEmit", "-p", room], capture_output=True, text=True)
            self.assertIn("is not assignable to type 'string'", ran.stdout)


class Installed(unittest.TestCase):
    """The package in an empty folder."""

    ASKS_LIBRARY = True

    @needs("nodejs", "node")
    @needs_page
    def test_examples_of_the_document(self):
        """Installed into an empty folder, each example prints what is shown after it."""
        shown = examples("JAVASCRIPT", "js")
        self.assertGreaterEqual(len(shown), 2)
        with tempfile.TemporaryDirectory(prefix="sfq-empty-") as room:
            if shutil.which("npm"):
                words = ["npm", "install", "--offline", "--ignore-scripts", "--no-audit", "--no-fund", f"{package()}/{archive()}"]
                ran = subprocess.run(words, cwd=room, env={**os.environ, "HOME": room}, capture_output=True, text=True)
                self.assertEqual(ran.returncode, 0, ran.stderr)
            else:
                install(room)
            os.symlink(f"{ROOT}/examples", f"{room}/examples")
            for at, (program, printed) in enumerate(shown):
                with open(f"{room}/example{at}.mjs", "w", encoding="utf-8") as file:
                    file.write(program)
                with self.subTest(program):
                    self.assertEqual(node(room, f"example{at}.mjs"), printed)


if __name__ == "__main__":
    unittest.main()
