"""The web page: what its module is made of, what it asks in Node, Chromium and Firefox, and the page as a person uses it."""
import base64
import functools
import json
import os
import re
import shutil
import subprocess
import tempfile
import unittest

from support import ROOT, needs, read

import browsers
import javascript_package
import web_page
import wasm
from browsers import PATIENCE, databases_of, limited, rows_that_ask, rows_that_relate
from fuzz import outcomes
from sfq_audit import predicates

# The Python that Debian's packages are for.
PYTHON = "/usr/bin/python3"

# A small module of LLVM, in the form that the kit writes.
MODULE = f"""
target datalayout = "{wasm.NATIVE_LAYOUT}"
target triple = "{wasm.NATIVE_TARGET}"
define noundef i32 @sfq_proved_fault(ptr noundef %a0) #0 {{
  ret i32 0
}}
define noundef i32 @sfq_proved_answer_texts(ptr noundef %a0) #0 {{
  ret i32 0
}}
declare {{ i64, i64 }} @rattle_alloc(i64 noundef, i64 noundef) #2
declare void @llvm.memset.p0.i64(ptr writeonly captures(none), i8, i64, i1 immarg) #3
attributes #0 = {{ nounwind "probe-stack"="inline-asm" "target-cpu"="x86-64-v2" }}
"""
# Patterns of the relations that the program has no function for.
FURTHER = {
    "Covers": ("T*****FF*", "*T****FF*", "***T**FF*", "****T*FF*"),
    "CoveredBy": ("T*F**F***", "*TF**F***", "**FT*F***", "**F*TF***"),
    "ContainsProperly": ("T**FF*FF*",),
}


# The modules by their files, once they are found.
CARRIED = {}


def carried():
    """Returns the bytes of each module by its file, or None where they aren't made of the present sources. Without the kit this isn't looked at."""
    known = {} if CARRIED else {it: javascript_package.made(it) for it in javascript_package.MODULES}
    is_old = shutil.which("rt") and any(what and what["inputs"] != wasm.inputs(it) for it, what in known.items())
    if not is_old and None not in known.values():
        CARRIED.update({it.file: javascript_package.read_module(it) for it in known})
    return CARRIED or None


def needs_page(test):
    """Skips a test of the page or of the package where its modules aren't made of the present sources. This is seen when the test runs."""

    @functools.wraps(test)
    def run(self):
        if carried() is None:
            self.skipTest("needs ./build --javascript or ./build --web")
        test(self)

    return run


class BuildOfTheModule(unittest.TestCase):
    """What tools/wasm.py takes and what it refuses, and what the page is made of, without the kit."""

    def refused(self, text):
        with self.assertRaises(wasm.Failure) as it:
            wasm.retarget(text)
        return str(it.exception)

    def test_a_module_gets_another_target(self):
        text = wasm.retarget(MODULE)
        self.assertIn(f'target datalayout = "{wasm.LAYOUT}"', text)
        self.assertIn(f'target triple = "{wasm.TARGET}"', text)
        self.assertIn('"target-cpu"="lime1"', text)
        self.assertNotIn("x86", text)

    def test_another_layout_is_refused(self):
        self.assertIn("target datalayout", self.refused(MODULE.replace("i128:128", "i128:64")))
        self.assertIn("target triple", self.refused(MODULE.replace("linux-gnu", "linux-musl")))

    def test_what_means_another_thing_is_refused(self):
        for line, what in (
            ("  %r = load i8, ptr addrspace(1) %p", "another address space"),
            ("  %r = fadd x86_fp80 %x, %y", "numbers that only x86-64 has"),
            ('  call void asm sideeffect "nop", ""()', "assembly"),
            ("  %r = atomicrmw add ptr %p, i64 1 seq_cst", "threads"),
            ("declare i32 @memcmp(ptr, ptr, i64)", "calls memcmp"),
            ("declare <4 x i32> @llvm.x86.sse2.psrl.d(<4 x i32>, <4 x i32>)", "calls llvm.x86.sse2.psrl.d"),
        ):
            with self.subTest(line):
                self.assertIn(what, self.refused(f"{MODULE}{line}\n"))

    def test_a_module_without_the_calls_is_refused(self):
        wasm.check_calls([MODULE], ["sfq_proved_fault", "sfq_proved_answer_texts"])
        with self.assertRaisesRegex(wasm.Failure, "lacks sfq_proved_free$"):
            wasm.check_calls([MODULE, MODULE], ["sfq_proved_fault", "sfq_proved_free"])

    def test_another_processor_is_refused(self):
        self.assertIn("processor", self.refused(MODULE.replace("x86-64-v2", "znver4")))

    def test_examples_have_titles_and_both_texts(self):
        found = web_page.examples()
        self.assertGreaterEqual(sum("elsewhere" in it for it in found), 10)
        for it in found:
            self.assertTrue(all(it[name] for name in ("title", "a", "b", "says")), it)
        elsewhere = next(it for it in found if "elsewhere" in it)
        self.assertEqual((elsewhere["elsewhere"], elsewhere["sfq"]), ("1F100F102: overlaps", "1FF00F102: within"))
        self.assertEqual(elsewhere["engines"], "GEOS, SpatiaLite, PostGIS and JTS")

    def test_every_file_that_the_page_names_is_made(self):
        made = [*web_page.FILES, *(script for script, _ in web_page.MODULES.values()), "sfq.js", "examples.js", "town.js"]
        for page in ("index.html", "tables.html"):
            for it in read(f"{ROOT}/bindings/web/{page}").split('src="')[1:]:
                self.assertIn(it.partition('"')[0], made)

    def test_the_town_has_its_tables_and_its_queries(self):
        town = web_page.town()
        self.assertEqual(list(town["tables"]), re.findall(r"CREATE TABLE (\w+)", town["schema"]))
        self.assertGreaterEqual(len(town["queries"]), 19)
        self.assertEqual(len(town["faults"]), 41)


# ---- the page in browsers


def page(room, **modules):
    """Makes the page in a folder: the modules that are there, or others by their files, and the present files. Returns the folder."""
    web_page.write_page({**carried(), **modules}, f"{room}/page")
    return f"{room}/page"


def reported(package, pairs, queries):
    """Returns what a browser found of pairs and queries: their answers, and how the pages did; None where it reports nothing."""
    texts = {"/pairs.json": json.dumps(pairs).encode(), "/queries.json": json.dumps(queries).encode()}
    with tempfile.TemporaryDirectory(prefix="sfq-web-test-") as room:
        return browsers.reported(package, "pairs.html", [f"{ROOT}/tests/web", page(room)], texts)


def relations(pair, matrix):
    """Returns which relations hold by a matrix, by their patterns."""
    dimensions = tuple(map(predicates.dimension, pair))
    named = {it.removeprefix("ST_") for it in outcomes.PREDICATES if outcomes.holds(it, matrix, dimensions)}
    return named | {name for name, forms in FURTHER.items() if any(predicates.matches(it, matrix) for it in forms)}


# ---- the page of tables in Node


def in_node(folder, *words):
    """Returns what tests/web/asked.js prints of the page in a folder."""
    ran = subprocess.run(["node", f"{ROOT}/tests/web/asked.js", folder, *words], capture_output=True, text=True, timeout=2 * PATIENCE)
    if ran.returncode:
        raise AssertionError(ran.stderr[-2000:])
    return json.loads(ran.stdout)


def asked_in_node(databases):
    """Returns what comes of databases, given as the bytes of the schema, of the tables and of the queries: of each a list of answers or
    lines of faults, and how often each call was made."""
    def texts(them):
        return [base64.b64encode(it).decode() for it in them]

    with tempfile.TemporaryDirectory(prefix="sfq-web-test-") as room:
        with open(f"{room}/asked.json", "w", encoding="ascii") as file:
            given = [{"schema": texts([schema])[0], "tables": texts(tables), "queries": texts(asked)} for schema, tables, asked in databases]
            json.dump(given, file)
        found = in_node(page(room), "queries", f"{room}/asked.json")
    return [(it["answers"], it["made"]) for it in found["found"]], found["lost"]


@needs("nodejs", "node")
class InNode(unittest.TestCase):
    """The page of tables asks the package in Node, where no browser is there."""

    ASKS_LIBRARY = True

    @needs_page
    def test_tables_are_loaded_once(self):
        """Each query of the scripts writes what is printed, all of one database over tables that are loaded once."""
        databases = databases_of(rows_that_ask())
        self.assertGreaterEqual(sum(map(len, databases.values())), 280)
        self.assertGreaterEqual(max(map(len, databases.values())), 10)
        found, lost = asked_in_node([
            (schema.encode(), [it.encode() for it in tables], [query.encode() for query, _ in asked])
            for (schema, tables), asked in databases.items()
        ])
        self.assertEqual(lost, 0, "memory isn't given back")
        for ((_, tables), asked), (answers, made) in zip(databases.items(), found, strict=True):
            for (query, printed), answer in zip(asked, answers, strict=True):
                with self.subTest(query):
                    self.assertEqual(answer, printed)
            faults = sum(printed.startswith("sfq: ") for _, printed in asked)
            with self.subTest(asked[0][0]):
                if not any(re.match(r"sfq: (\w+ L|S)\d", printed) for _, printed in asked):
                    self.assertEqual(made["load"], len(tables))
                    self.assertEqual(made.get("finalize", 0), made.get("prepare", 0))
                    self.assertGreaterEqual(made.get("prepare", 0), len(asked) - faults)

    @needs_page
    def test_a_query_is_stopped(self):
        with tempfile.TemporaryDirectory(prefix="sfq-web-test-") as room:
            found = in_node(page(room), "stop")
        self.assertEqual(found["rested"], {"value": 0, "done": False})
        self.assertEqual(found["stopped"], {"value": "stopped", "done": True})
        self.assertEqual([it["answer"] for it in found["answers"]], ["id\n7\n", "a.id\n", "id\n7\n"])
        self.assertEqual([it["loaded"] for it in found["answers"]], [0, 0, 0])
        # It rested about 30 times a second, and the others not at all.
        self.assertEqual([it["rests"] > 1 for it in found["answers"]], [False, True, False])
        made = found["made"]
        self.assertEqual((made["load"], made["prepare"], made["finalize"]), (1, 4, 4))

    @needs_page
    def test_memory_that_is_short(self):
        """A table that doesn't fit is refused, and what was loaded before is asked on."""
        tables = javascript_package.TABLES.file
        with tempfile.TemporaryDirectory(prefix="sfq-web-test-") as room:
            found = in_node(page(room, **{tables: limited(carried()[tables], 24)}), "short")
        self.assertEqual(found, ["n\n1\n", "sfq: memory ran out"] * 2 + ["n\n1\n"])


class InBrowsers(unittest.TestCase):
    """The scripts' pairs and queries by the page's scripts, and the page, in each browser; skipped where a browser isn't there."""

    ASKS_LIBRARY = True

    def compare(self, package):
        if not shutil.which(package):
            self.skipTest(f"needs the package {package}")
        wanted, asked = rows_that_relate(), rows_that_ask()
        report = reported(package, [pair for pair, _ in wanted], [it for it, _ in asked])
        self.assertIsNotNone(report, f"{package} reported nothing in {PATIENCE} seconds")
        self.assertEqual((report["page"], report["tables"]), ("well", "well"), report["agent"])
        self.compare_queries(asked, report["queries"])
        self.assertIsInstance(report["frames"], dict, report["frames"])
        # The aims are a frame of 60 a second, and 50 ms; on a busy machine the least of some steps may take twice as long.
        for count, most in (("100", 33.4), ("1000", 100)):
            self.assertLessEqual(report["frames"][count][0], most, f"{package}, {count} positions")
        self.assertIsInstance(report["pairs"], list, report["pairs"])
        for (pair, line), (found, holds, reasons) in zip(wanted, report["pairs"], strict=True):
            with self.subTest(" | ".join(pair)):
                self.assertEqual(found, line)
                self.assertEqual(set(holds), relations(pair, line) if len(line) == 9 else set())
                self.compare_reasons(line, reasons)

    def compare_reasons(self, line, reasons):
        """Of a matrix the witnesses show its dimensions; of a refusal for a fault of a geometry the place is that fault's."""
        if len(line) == 9:
            self.assertEqual(reasons, line)
        elif line.split()[2][0] == "V":
            place = reasons.split("|")[line.split()[1] == "second"]
            self.assertTrue(place.startswith(" ".join(line.split()[2:]) + ": "), place)

    def compare_queries(self, asked, report):
        self.assertGreaterEqual(len(asked), 280)
        self.assertIsInstance(report, dict, report)
        self.assertEqual(report["unfit"], "the schema has another number of tables")
        for ((_, _, query), printed), found in zip(asked, report["answers"], strict=True):
            with self.subTest(query):
                self.assertEqual(found, printed)

    @needs_page
    def test_chromium(self):
        self.compare("chromium")

    @needs_page
    def test_firefox(self):
        self.compare(browsers.FIREFOX)


class TheModulesAgain(unittest.TestCase):
    """Two builds of the modules give the same bytes."""

    IS_LONG = True

    @needs_page
    def test_a_second_build_gives_the_same_bytes(self):
        if not shutil.which("rt") or not shutil.which("wasm-opt"):
            self.skipTest("needs the command rt of the Rattle kit, and the package binaryen")
        for it in javascript_package.MODULES:
            self.assertEqual(wasm.make(it), carried()[it.file])


@functools.lru_cache(maxsize=None)
def driven():
    """Returns what came of each trial of tests/web/drive.py: `well`, or why not."""
    with tempfile.TemporaryDirectory(prefix="sfq-web-test-") as room:
        ran = subprocess.run(
            [PYTHON, "-B", f"{ROOT}/tests/web/drive.py", page(room)], stdin=subprocess.DEVNULL, capture_output=True, text=True,
            timeout=2 * PATIENCE,
        )
    found = dict(line.split(": ", 1) for line in ran.stdout.splitlines() if ": " in line)
    return found or {"start": ran.stderr[-500:]}


class AsAPersonUsesIt(unittest.TestCase):
    """The page, opened from a file in Chromium: mouse, keys, pictures."""

    ASKS_LIBRARY = True

    @needs_page
    def test_what_a_person_does(self):
        has_selenium = os.path.isfile(PYTHON) and not subprocess.run([PYTHON, "-c", "import selenium"], capture_output=True).returncode
        if not (has_selenium and shutil.which("chromium") and shutil.which("chromedriver")):
            self.skipTest("needs the packages chromium, chromium-driver and python3-selenium")
        found = driven()
        trials = re.search(r"^TRIALS = \[(.*?)^\]", read(f"{ROOT}/tests/web/drive.py"), re.M | re.S)[1]
        self.assertEqual(list(found), re.findall(r"\w+", trials), found)
        for name, what in found.items():
            with self.subTest(name):
                self.assertEqual(what, "well")
