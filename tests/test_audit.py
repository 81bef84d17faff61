"""sfq-audit: the families of pairs, what engines may do, what differs, how small it gets, and the reports; over the exact model as sfq."""
import csv
import html.parser
import io
import json
import multiprocessing
import os
import re
import resource
import signal
import stat
import subprocess
import sys
import tempfile
import time
import unittest
import xml.etree.ElementTree as tree
from typing import NamedTuple

from support import ROOT, needs_build, python_command, python_with, read, write

import proving
import repository

import engine_rows
import exact_cells
import exact_places
from faults import sweeps
from fuzz import outcomes
from sfq_audit import asking, comparing, engines, families, predicates, proved, shapes, smaller
from sfq_audit.finding import Interrupts

SQUARE = "POLYGON((0 0,4 0,4 4,0 4,0 0))"
# A program by the exact model. What `{}` is replaced by changes each answer before it is written.
PROGRAM = """
import os, sys, time
import exact_cells
for number, line in enumerate(sys.stdin):
    first, second = line.rstrip().split("\\t")
    answer = ANSWER
    {}
    print(answer, flush=True)
"""
MODEL = '"".join(it.split()[2] for it in exact_cells.lines(first, second).splitlines())'
PROGRAM = PROGRAM.replace("ANSWER", MODEL)
# The ends of a closed line are taken for its boundary, in one cell.
WRONG = """
    parts = exact_cells.read(first).parts
    if first.startswith("LINE") and parts[0][0] == parts[0][-1]:
        answer = answer[:5] + "0" + answer[6:]
"""


def without_repeats(lines):
    """Returns lines without the positions that are the same as the one before them."""
    return [[p for at, p in enumerate(line) if not at or p != line[at - 1]] for line in lines]


def elements_in(text):
    """Returns how many elements a text has."""
    if text.endswith("EMPTY"):
        return 0
    parts = r"\)\),\(\(" if text.startswith("MULTIPOLYGON") else r"\),\(" if text.startswith("MULTI") else "$^"
    return 1 + len(re.findall(parts, text))


def matrix(first, second):
    """Returns the matrix of two texts by the exact model."""
    return "".join(it.split()[2] for it in exact_cells.lines(first, second).splitlines())


class Room:
    """A folder with a stand-in for sfq and programs to compare it with."""

    def __init__(self):
        self.folder = tempfile.TemporaryDirectory(prefix="sfq-audit-")
        self.path, self.programs = self.folder.name, 0
        self.sfq = f"{self.path}/sfq"
        words = f'exec "{sys.executable}" -B "{ROOT}/tests/audit_stand_in.py" "$@"\n'
        write(self.sfq, f'#!/bin/sh\nPYTHONPATH="{ROOT}/tests"\nexport PYTHONPATH\n{words}', stat.S_IRWXU)

    def program(self, does, known=None):
        """Writes a program, and returns how it is named as an engine. It begins quickly where the answers are known: a dictionary of lines."""
        self.programs += 1
        path = f"{self.path}/program{self.programs}.py"
        text = PROGRAM if known is None else PROGRAM.replace("import exact_cells\n", f"KNOWN = {known!r}\n").replace(MODEL, "KNOWN[line.rstrip()]")
        write(path, text.replace("{}", does.strip().replace("\n", "\n    ") if not does.startswith("\n") else does.strip("\n").lstrip()))
        return f"command:env PYTHONPATH={ROOT}/tests {sys.executable} -B {path}"

    def run(self, *words, python=sys.executable, **how):
        return subprocess.run([*python_command(python, "sfq-audit"), "run", "--sfq", self.sfq, *words], capture_output=True, text=True,
                              cwd=self.path, **how)

    def close(self):
        self.folder.cleanup()


class WithRoom(unittest.TestCase):
    def setUp(self):
        self.room = Room()
        self.addCleanup(self.room.close)

    def found(self, *words, status=1, **how):
        """Runs an audit, and returns its report as JSON gives it."""
        ran = self.room.run("--format", "json", *words, **how)
        self.assertEqual(ran.returncode, status, ran.stderr)
        return json.loads(ran.stdout)


class Families(unittest.TestCase):
    def test_a_seed_and_a_scale_make_the_same_pairs(self):
        for scale in (None, 1, 5000):
            made = list(families.pairs(300, 7, scale=scale))
            self.assertEqual(made, list(families.pairs(300, 7, scale=scale)))
            self.assertNotEqual(made, list(families.pairs(300, 8, scale=scale)))
        one = [it[1:] for it in families.pairs(20, 7, ["ends"])]
        self.assertEqual(one, [it[1:] for it in families.pairs(240, 7) if it.family == "ends"])

    def test_numbers_are_whole_and_within_the_limit(self):
        for name in families.ALL_FAMILIES:
            numbers = [int(n) for it in families.pairs(300, 3, [name]) for n in re.findall(r"-?\d+", it.first + it.second)]
            self.assertLessEqual(max(map(abs, numbers)), families.MOST, name)
            self.assertFalse(any("." in it.first + it.second for it in families.pairs(300, 3, [name])))

    def test_most_are_valid(self):
        for name in families.ALL_FAMILIES:
            texts = [text for it in families.pairs(15, 3, [name], 1) for text in it[2:] if not text.endswith("EMPTY")]
            valid = sum(exact_places.line(it) == "valid\n" for it in texts)
            self.assertGreater(valid, len(texts) / 2, name)

    def test_stretching_changes_no_matrix(self):
        dice = families.Dice(1)
        for it in [*families.pairs(36, 5, scale=1), *families.pairs(15, 5, families.NAMED_ALONE, scale=1)]:
            two = families.stretched(dice, (shapes.read(it.first), shapes.read(it.second)), 40)
            self.assertEqual(matrix(two[0].text, two[1].text), matrix(it.first, it.second))

    def test_some_families_are_drawn_by_name_alone(self):
        """So that the pairs of a seed stay those that docs/AUDIT.md reports on."""
        self.assertFalse(families.FAMILIES.keys() & families.NAMED_ALONE.keys())
        self.assertEqual({it.family for it in families.pairs(100, 1)}, set(families.FAMILIES))
        self.assertEqual([it[2:] for it in families.pairs(2, 1)][1], ("POLYGON((-360 -670,-266 -670,-454 -482,-360 -670))", "MULTILINESTRING((-360 -482,-360 -670,-454 -482,-360 -482),(-454 -576,-360 -482),(-360 -482,-454 -482))"))
        page = read(f"{ROOT}/docs/AUDIT.md")
        for name in families.ALL_FAMILIES:
            self.assertIn(f"\n| `{name}` | ", page)

    def test_more_vertices_are_the_same_points(self):
        for it in families.pairs(60, 3, ["vertices"]):
            found = matrix(it.first, it.second)
            self.assertEqual((found[2], found[5], found[6:8]), ("F", "F", "FF"), it)

    def test_texts_are_read_as_they_were_written(self):
        """The exact model reads them by code of its own."""
        for it in [*families.pairs(300, 4), *families.pairs(100, 4, families.NAMED_ALONE)]:
            for text in it[2:]:
                found = shapes.read(text)
                self.assertEqual((found.word, found.lines), (text.partition("(")[0].split()[0], without_repeats(exact_cells.read(text).parts)), text)
                self.assertEqual(len(found.elements), elements_in(text), text)
                self.assertEqual(shapes.read(found.text), found)


class Predicates(unittest.TestCase):
    def test_patterns_say_what_the_definitions_say(self):
        for pair in exact_cells.random_pairs(300, 6):
            found = matrix(*pair)
            wanted = exact_cells.related(found, *pair)
            self.assertEqual({f"ST_{name.capitalize()}" for name, it in zip(predicates.NAMES, predicates.held(found, pair)) if it == "1"}, wanted, pair)


class Finds(WithRoom):
    """What is found of a program that is wrong, and how small it gets."""

    def test_a_program_that_is_right_agrees(self):
        found = self.found("--engine", self.room.program("pass"), "--random", "36", status=0)
        self.assertEqual((found["engines"][0]["differ"], found["cases"]), (0, []))
        self.assertGreater(found["compared"], 25)

    def test_one_wrong_cell_of_one_family_is_found_and_made_small(self):
        found = self.found("--engine", self.room.program(WRONG), "--random", "40", "--seed", "3", "--family", "closed", "--family", "overlaps",
                           "--cases", "1", "--tries", "600")
        engine, case = found["engines"][0], found["cases"][0]
        self.assertEqual(set(engine["cells"]), {"boundary exterior"})
        self.assertEqual({it.partition(":")[0] for it in engine["families"]}, {"closed"})
        self.assertEqual((case["differs"], case["kind"]), (["boundary exterior"], "differs"))
        self.assertLessEqual(sum(shapes.read(case[it]).size for it in ("first", "second")), 10)
        self.assertTrue(all(it.startswith("boundary exterior ") for it in case["why"]) and case["why"], case["why"])
        tree.fromstring(case["svg"])

    def test_engines_that_misbehave_are_counted_and_the_run_goes_on(self):
        kinds = {
            asking.HANGS: "if first.startswith('POINT'): time.sleep(60)",
            asking.CRASHES: "if first.startswith('POINT'): os.kill(os.getpid(), 11)",
            asking.FEWER: "if first.startswith('POINT'): continue",
            asking.MORE: "if first.startswith('POINT'): print(answer)",
            comparing.MALFORMED: "answer = answer[:8] if first.startswith('POINT') else answer",
            comparing.REFUSES: "answer = '! no points' if first.startswith('POINT') else answer",
            comparing.NO_ANSWER: "answer = '-' if first.startswith('POINT') else answer",
        }
        texts = "LINESTRING(0 0,1 1)", "POINT(2 2)", SQUARE
        write(f"{self.room.path}/pairs.csv", "".join(f'"{it}",POINT(1 1)\n' for it in texts))
        known = {f"{it}\tPOINT(1 1)": matrix(it, "POINT(1 1)") for it in texts}
        programs = [word for does in kinds.values() for word in ("--engine", self.room.program(does, known))]
        found = self.found("pairs.csv", *programs, "--patience", "5", "--tries", "0")
        self.assertEqual([it["families"] for it in found["engines"]], [{f"given: {kind}": 1} for kind in kinds])
        self.assertEqual({it["pairs"] for it in found["engines"]}, {3})
        self.assertEqual([it["first"] for it in found["cases"]], ["POINT(2 2)"] * len(kinds))

    def test_a_server_that_goes_away(self):
        psql = '#!/bin/sh\n[ -f "$0.gone" ] && exit 2\ntouch "$0.gone"\necho PostGIS\n'
        write(f"{self.room.path}/bin/psql", psql, stat.S_IRWXU)
        write(f"{self.room.path}/pairs.csv", "POINT(1 1),POINT(2 2)\n" * 3)
        path = f"{self.room.path}/bin:{os.environ['PATH']}"
        found = self.found("pairs.csv", "--engine", "postgis:x", "--tries", "0", env={**os.environ, "PATH": path})["engines"][0]
        self.assertEqual((found["engine"], found["version"], found["families"]), ("postgis", "PostGIS", {"given: crashes": 3}))

    def test_an_engine_that_fails_always_is_given_up(self):
        found = self.found("--engine", "command:false", "--random", "80", "--tries", "0")
        self.assertEqual(found["engines"][0]["differ"], asking.MOST_FAILURES)
        self.assertIn("asked no more", found["engines"][0]["note"])

    def test_what_is_not_installed_is_named_in_a_line(self):
        ran = self.room.run("--engine", "command:/nothing/there", "--random", "5")
        self.assertEqual((ran.returncode, ran.stdout, ran.stderr.count("\n")), (8, "", 1))
        self.assertIn("there is no program /nothing/there", ran.stderr)
        for name in ("nothing", "postgis", "shapely:of", "command:"):
            ran = self.room.run("--engine", name, "--random", "5")
            self.assertEqual((ran.returncode, ran.stderr), (2, f"sfq-audit: there is no engine {name}: there are {engines.listed()}\n"))
        ran = self.room.run("--engine", "command:true")
        self.assertEqual((ran.returncode, ran.stderr), (2, "sfq-audit: name a file of pairs, or --random, --sql or --layers: one of them\n"))

    def test_each_difference_is_written(self):
        found = self.found("--engine", self.room.program(WRONG), "--random", "40", "--family", "closed", "--tries", "0", "--cases", "2", "--all", "all.csv")
        rows = list(csv.DictReader(io.StringIO(read(f"{self.room.path}/all.csv"))))
        self.assertEqual(len(rows), found["engines"][0]["differ"])
        self.assertGreater(len(rows), 3)
        for it in rows:
            self.assertEqual(it["sfq"], matrix(it["first"], it["second"]))

    def test_pairs_of_a_database(self):
        import sqlite3

        connection = sqlite3.connect(f"{self.room.path}/pairs.db")
        connection.execute("CREATE TABLE t (a TEXT, b TEXT)")
        connection.execute("INSERT INTO t VALUES ('POINT(1 1)', ?)", [SQUARE])
        connection.commit()
        connection.close()
        found = self.found("--sql", "pairs.db", "SELECT a, b FROM t", "--engine", self.room.program("answer = '212101212'"), "--tries", "0")
        self.assertEqual((found["cases"][0]["first"], found["cases"][0]["sfq"]), ("POINT(1 1)", "0FFFFF212"))
        ran = self.room.run("--sql", "pairs.db", "SELECT a FROM t", "--engine", "command:true")
        self.assertEqual((ran.returncode, ran.stdout, ran.stderr), (4, "", "sfq-audit: record 1 has 1 field: two geometries make a pair\n"))
        for query in ("SELECT a, b FROM nothing", "DELETE FROM t", "SELECT 1; SELECT 2"):
            ran = self.room.run("--sql", "pairs.db", query, "--engine", "command:true")
            self.assertEqual((ran.returncode, ran.stdout, ran.stderr.count("\n")), (6, "", 1), ran.stderr)


class Layers(engine_rows.WithLibrary, WithRoom):
    """Layers, which sfq-import brings to a grid."""

    def test_pairs_of_two_layers(self):
        python = python_with("osgeo")
        if not python:
            self.skipTest("needs the package python3-gdal")
        for name, kind, positions in (("a", "Polygon", [[[0, 0], [4, 0], [4, 4], [0, 0]]]), ("b", "LineString", [[0, 0], [3, 3.3]]), ("c", "Point", [9, 9]),
                                      ("d", "Polygon", [[[0, 0], [4, 4], [4, 0], [0, 4], [0, 0]]])):
            shape = {"type": "Feature", "properties": {}, "geometry": {"type": kind, "coordinates": positions}}
            write(f"{self.room.path}/{name}.geojson", json.dumps({"type": "FeatureCollection", "features": [shape]}))
        engine = self.room.program("answer = '000000000'")
        found = self.found("--layers", "a.geojson", "b.geojson", "--grid", "0.1", "--engine", engine, "--tries", "0", python=python)
        self.assertEqual([(it["first"], it["second"]) for it in found["cases"]], [("POLYGON((0 0,40 0,40 40,0 0))", "LINESTRING(0 0,30 33)")])
        found = self.found("--layers", "a.geojson", "c.geojson", "--grid", "0.1", "--engine", engine, status=4, python=python)
        self.assertEqual(found["asked"], 0)
        for other, grid, status, said in (("b", "0.1x", 2, "sfq-audit: a.geojson: .* isn't a decimal number\n"),
                                          ("d", "0.1", 4, "sfq-audit: d.geojson: d: 1 left out: V3: .*\nsfq-audit: no pair is compared\n")):
            ran = self.room.run("--layers", "a.geojson", f"{other}.geojson", f"--grid={grid}", "--engine", engine, python=python)
            self.assertEqual(ran.returncode, status, ran.stderr)
            self.assertRegex(ran.stderr, said)


class WhichProgram(unittest.TestCase):
    """Whether the program that is asked is a proved one."""

    def test_the_script_of_another_checkout(self):
        """Nothing of it is run."""
        with tempfile.TemporaryDirectory(prefix="sfq-audit-") as room:
            os.mkdir(f"{room}/tools")
            for it in ("sfq", "tools/current.sh"):
                write(f"{room}/{it}", f"#!/bin/sh\ntouch {room}/run\n", stat.S_IRWXU)
            os.symlink(f"{room}/sfq", f"{room}/link")
            for it in ("sfq", "link"):
                self.assertRegex(proved.unproved(f"{room}/{it}"), f"^{room}/{it} is the script of another checkout: run {room}/bindings/python/bin/sfq-audit")
            self.assertFalse(os.path.exists(f"{room}/run"))

    def test_what_a_checkout_keeps_without_proof(self):
        with tempfile.TemporaryDirectory(prefix="sfq-audit-") as room:
            for it in ("tools/current.sh", "out/unproved/sfq"):
                write(f"{room}/{it}", "", stat.S_IRWXU)
            self.assertEqual(proved.unproved(f"{room}/out/unproved/sfq"), f"{room}/out/unproved/sfq isn't the proved program: run {room}/build first")
            self.assertEqual(proved.unproved(f"{room}/tools/current.sh"), "")

    def test_the_script_of_this_checkout(self):
        wanted = "" if repository.is_built() else f"{ROOT}/sfq isn't the proved program: run {ROOT}/build first"
        self.assertEqual(proved.unproved(f"{ROOT}/sfq"), wanted)


class ByLine(asking.Engine):
    """An engine of the kind that stays and answers pair by pair; it crashes at a text, and hangs at another."""

    SERVE = """
import os, sys, time
from sfq_audit import engines
class Fragile:
    version = "fragile"
    def __init__(self, of): pass
    def answers(self, ask, pairs):
        for first, second in pairs:
            if first == "CRASH": os.kill(os.getpid(), 11)
            if first == "HANG": time.sleep(60)
            yield second
engines.ENGINES["fragile"] = engines.Engine(Fragile, engines.ASKS)
sys.exit(engines.serve(["fragile", "", *sys.argv[1:]], sys.stdin, open(1, "w")))
"""

    def words_of(self):
        return [sys.executable, "-B", "-c", self.SERVE, self.ask]


class Engines(unittest.TestCase):
    """What is asked of engines, and how."""

    def test_the_pair_at_which_it_breaks_off(self):
        engine = ByLine("shapely", engines.MATRIX, 2.0)
        self.addCleanup(engine.stop)
        pairs = [("A", str(at)) for at in range(3000)]
        pairs[2000], pairs[2500] = ("CRASH", ""), ("HANG", "")
        wanted = [asking.Failure({"CRASH": asking.CRASHES, "HANG": asking.HANGS}[it[0]]) if it[0] != "A" else it[1] for it in pairs]
        self.assertEqual(engine.answers(pairs), wanted)
        self.assertEqual((engine.failures, engine.is_at_once, engine.version), (2, True, "fragile"))
        self.assertEqual(engine.answers(pairs[:3]), wanted[:3])

    def test_each_that_is_installed(self):
        """Of a square and points nobody is wrong."""
        pairs = [("POINT(1 1)", SQUARE), (SQUARE, "MULTIPOINT((0 0),(9 9))"), ("LINESTRING(0 0,4 4)", "LINESTRING(0 4,4 0)")]
        matrices = [matrix(*it) for it in pairs]
        answers = {engines.MATRIX: matrices, engines.VALIDITY: ["11"] * 3,
                   engines.OF_PREDICATES: [predicates.held(it, pair) for it, pair in zip(matrices, pairs)]}
        for name in ("shapely", "gdal", "spatialite", "jts", "jts-ng"):
            for ask in engines.ENGINES[name].asks:
                with self.subTest(name=name, ask=ask):
                    self.assert_answers(name, ask, pairs, answers[ask])

    def assert_answers(self, name, ask, pairs, wanted):
        try:
            words = engines.jts_words(name) if name.startswith("jts") else ["/usr/bin/python3", "-B", "-m", "sfq_audit.engines", name, ""]
        except engines.Lacking as error:
            self.skipTest(f"needs {error}")
        text = "".join(f"{a}\t{b}\n" for a, b in pairs) + "\n"
        for more in ([], [engines.AT_ONCE])[: 2 if ask == engines.ENGINES[name].asks[0] else 1]:
            ran = subprocess.run([*words, ask, *more], input=text, capture_output=True, text=True, env=asking.environment())
            if ran.stdout.startswith("! "):
                self.skipTest(f"needs {ran.stdout[2:].strip()}")
            found = [it.replace("*", wanted[at][0]) for at, it in enumerate(ran.stdout.splitlines()[1:])]
            self.assertEqual((found, ran.returncode), (wanted, 0), ran.stderr)


class Reports(WithRoom):
    WORDS = ("--random", "16", "--seed", "3", "--family", "closed", "--cases", "1", "--tries", "20")

    def test_the_same_seed_gives_the_same_bytes(self):
        engine = self.room.program(WRONG)
        texts = [self.room.run("--engine", engine, "--format", it, *self.WORDS) for it in ("text", "html", "html")]
        self.assertEqual(texts[1].stdout, texts[2].stdout)
        for it in texts:
            self.assertEqual(it.returncode, 1, it.stderr)
            self.assertIn("boundary exterior", it.stdout)
        self.assert_opens_alone(texts[1].stdout)

    def assert_opens_alone(self, text):
        """The file names no other, and its pictures are SVG."""
        seen = []
        reader = html.parser.HTMLParser()
        reader.handle_starttag = lambda tag, attributes: seen.append((tag, dict(attributes)))
        reader.feed(text)
        self.assertFalse([it for it in seen if it[0] in ("script", "link", "img", "iframe") or "src" in it[1] or "href" in it[1]])
        self.assertGreater(sum(tag == "svg" for tag, _ in seen), 0)
        for it in re.findall(r"<svg.*?</svg>", text, re.S):
            tree.fromstring(it)

    def test_the_cases_are_tests_of_other_engines(self):
        ran = self.room.run("--engine", self.room.program(WRONG), *self.WORDS, "--tests", "tests.xml", "--format", "json")
        case, = json.loads(ran.stdout)["cases"]
        found, = tree.fromstring(read(f"{self.room.path}/tests.xml")).iter("case")
        self.assertEqual([found.findtext(it) for it in ("desc", "a", "b")], [f"closed {case['number']}", case["first"], case["second"]])
        self.assertEqual([(it.get("name"), it.get("arg3"), it.text) for it in found.iter("op")][0], ("relate", case["sfq"], "true"))
        self.assertEqual(len(list(found.iter("op"))), 9)


class Ends(WithRoom):
    """What was found is kept, however a run ends."""

    # An engine that is wrong in each pair.
    NONE = "answer = '000000000'"

    def pairs(self, *more):
        """Writes a file of fifty pairs, as many as are asked at first, and of more lines."""
        write(f"{self.room.path}/pairs.csv", f'POINT(1 1),"{SQUARE}"\n' * 50 + "".join(more))
        return "pairs.csv"

    def engine(self, does=NONE):
        return self.room.program(does, {f"POINT(1 1)\t{SQUARE}": "0FFFFF212"})

    def ended(self, text, status, *words, why=1, more=1):
        """Runs an audit that ends early, and returns its report."""
        ran = self.room.run("--engine", self.engine(), "--format", "json", "--tries", "0", *words)
        self.assertEqual((ran.stderr, ran.returncode), (f"sfq-audit: {text}\n", status))
        found = json.loads(ran.stdout)
        self.assertEqual((found["asked"], found["ended_early"], found["engines"][0]["differ"]), (50, text, 50))
        case, = found["cases"]
        self.assertEqual((case["sfq"], len(case["why"]) > 0), ("0FFFFF212", bool(why)))
        return found

    def test_a_record_that_is_no_pair(self):
        self.ended("record 51 has 3 fields: two geometries make a pair", 4, self.pairs("a,b,c\n"))

    def fails(self, how, calls=1):
        """Lets the stand-in for sfq do something else from a call on."""
        text = read(self.room.sfq)
        write(self.room.sfq, text.replace("#!/bin/sh\n", f'#!/bin/sh\necho >> "$0.calls"\n[ "$(wc -l < "$0.calls")" -le {calls} ] || {{ {how}; }}\n'))

    def test_sfq_fails(self):
        for number, (how, text, status) in enumerate((
            ("echo 'sfq: no' >&2; exit 3", "{} pairs ended with status 3: sfq: no", 8),
            ("kill -9 $$", "{} pairs ended with status -9", 8),
            ("exit 7", "out of memory", 7),
            ("exit 0", "sfq pairs printed 0 lines for 1 pair", 8),
        )):
            with self.subTest(how=how):
                self.setUp()
                self.fails(how)
                self.ended(text.format(self.room.sfq), status, self.pairs(f'POINT(1 1),"{SQUARE}"\n'), why=0)

    def test_sfq_fails_when_a_case_is_made_smaller(self):
        self.fails("exit 3", 2)
        ran = self.room.run("--engine", self.engine(), "--format", "json", self.pairs())
        found = json.loads(ran.stdout)
        self.assertEqual((ran.returncode, len(found["cases"]), found["engines"][0]["differ"]), (8, 1, 50))

    def test_ctrl_c_waits_for_what_may_end(self):
        self.addCleanup(signal.signal, signal.SIGINT, signal.signal(signal.SIGINT, signal.default_int_handler))
        seen = []
        with (interrupts := Interrupts()):
            os.kill(os.getpid(), signal.SIGINT)
            seen.append("goes on")
            with self.assertRaises(KeyboardInterrupt), interrupts.ending():
                seen.append("not begun")
            with self.assertRaises(KeyboardInterrupt):
                os.kill(os.getpid(), signal.SIGINT)
        with (interrupts := Interrupts()), self.assertRaises(KeyboardInterrupt), interrupts.ending():
            with interrupts.held():
                os.kill(os.getpid(), signal.SIGINT)
                seen.append("counted")
            seen.append("not after it")
        self.assertEqual(seen, ["goes on", "counted"])

    def test_ctrl_c(self):
        words = [*python_command(sys.executable, "sfq-audit"), "run", "--sfq", self.room.sfq, "--format", "json", "--all", "all.csv"]
        slow = self.room.program(self.NONE + "; time.sleep(0.001)")
        for asked in (["--random", "1000000"], ["--random", "50", "--tries", "1000000"]):
            with self.subTest(asked=asked):
                child = subprocess.Popen([*words, "--engine", slow, "--family", "closed", *asked], cwd=self.room.path, stdout=subprocess.PIPE,
                                         stderr=subprocess.PIPE, text=True)
                # It has another name until the end.
                while not any(read(f"{self.room.path}/{it}").count("\n") > 1 for it in os.listdir(self.room.path) if it.startswith(".sfq-")):
                    time.sleep(0.05)
                child.send_signal(signal.SIGINT)
                out, err = child.communicate(timeout=60)
                self.assert_kept(child.returncode, out, err)
                os.remove(f"{self.room.path}/all.csv")

    def assert_kept(self, status, out, err):
        found = json.loads(out)
        self.assertEqual((status, found["ended_early"], err), (130, "interrupted", "sfq-audit: interrupted\n"))
        self.assertEqual(found["engines"][0]["differ"], len(read(f"{self.room.path}/all.csv").splitlines()) - 1)
        self.assertTrue(found["cases"] and all(it["why"] and it["svg"] for it in found["cases"]))

    def test_a_full_disk(self):
        for name in ("--output", "--all", "--tests"):
            ran = self.room.run("--engine", self.engine(), "--format", "json", "--tries", "0", self.pairs(), name, "/dev/full")
            self.assertEqual((ran.stderr, ran.returncode), ("sfq-audit: /dev/full: No space left on device\n", 6), name)
            # Rows are kept until some thousand bytes are to be written, so that one of the last is the first that can't be.
            self.assertGreater(json.loads(ran.stdout)["engines"][0]["differ"], 30)
        with open("/dev/full", "wb") as full:
            ran = subprocess.run([*python_command(sys.executable, "sfq-audit"), "run", "--sfq", self.room.sfq, "--engine", self.engine(), "--tries", "0",
                                  self.pairs()], cwd=self.room.path, stdout=full, stderr=subprocess.PIPE)
        self.assertEqual((ran.stderr, ran.returncode), (b"sfq-audit: write failed\n", 6))

    def test_a_file_that_can_not_be_written(self):
        for name in ("--output", "--all", "--tests"):
            ran = self.room.run("--engine", self.engine(), self.pairs(), name, "/no/such/file")
            self.assertEqual((ran.stdout, ran.stderr, ran.returncode), ("", "sfq-audit: /no/such/file: No such file or directory\n", 6))


# Prints the matrix that shapely gives of each pair of a CSV file.
BY_SHAPELY = """
import csv, sys
from shapely import wkt
for first, second in csv.reader(sys.stdin):
    print(wkt.loads(first).relate(wkt.loads(second)))
"""


def model_of(pair):
    """Returns the matrix of a pair by the exact model, None where a geometry isn't valid."""
    if any(not it.endswith("EMPTY") and exact_places.line(it) != "valid\n" for it in pair):
        return None
    return matrix(*pair)


class AgainstTheModel(WithRoom):
    """GEOS by shapely: what differs is what the exact model says, which knows nothing of sfq's code, and none is missed."""

    ASKS_PROGRAM = True

    def compare(self, count, seed):
        python = python_with("shapely")
        if not python:
            self.skipTest("needs the package python3-shapely")
        if repository.is_built():
            self.room.sfq = sweeps.program()
        found = self.found("--engine", "shapely", "--random", str(count), "--seed", str(seed), "--tries", "0", "--all", "all.csv", python=python)
        reported = {int(it["number"]) - 1: (it["sfq"], it["engine_answer"]) for it in csv.DictReader(io.StringIO(read(f"{self.room.path}/all.csv")))}
        pairs = [it[2:] for it in families.pairs(count, seed)]
        with multiprocessing.Pool(proving.processors()) as pool:
            wanted = pool.map(model_of, pairs, chunksize=100)
            # Ended by a signal, each would print where it was.
            pool.close()
            pool.join()
        kept = [at for at, it in enumerate(wanted) if it]
        text = "".join(f'"{pairs[at][0]}","{pairs[at][1]}"\n' for at in kept)
        answers = subprocess.run([python, "-c", BY_SHAPELY], input=text, capture_output=True, text=True, check=True).stdout.split()
        self.assertEqual(reported, {at: (wanted[at], it) for at, it in zip(kept, answers, strict=True) if it != wanted[at]})
        self.assertEqual((found["engines"][0]["differ"], found["compared"]), (len(reported), len(kept)))
        self.assertGreater(len(kept), count * 4 // 5)
        self.assertGreaterEqual(len(reported), count // 1000)

    def test_some_hundreds(self):
        self.compare(400 if repository.is_built() else 150, 5)


class ManyAgainstTheModel(AgainstTheModel):
    """A hundred thousand pairs."""

    IS_LONG = True

    def test_some_hundreds(self):
        self.compare(100_000, 6)


class Costs(WithRoom):
    """What a run takes: processor time beside the engine and sfq alone, and memory, over the built program."""

    ASKS_PROGRAM, IS_LONG = True, True
    ALONE = """
import csv, sys
from sfq_audit.engines import Shapely
pairs = [tuple(it) for it in csv.reader(open(sys.argv[1], newline=""))]
assert sum(1 for _ in Shapely("").answers("matrix", pairs)) == len(pairs)
"""

    def took(self, words, **how):
        """Runs a command, and returns its processor seconds and the greatest memory so far of what was run, in KB."""
        before = resource.getrusage(resource.RUSAGE_CHILDREN)
        subprocess.run(words, stdout=subprocess.DEVNULL, stderr=subprocess.DEVNULL, cwd=self.room.path, **how)
        after = resource.getrusage(resource.RUSAGE_CHILDREN)
        return after.ru_utime + after.ru_stime - before.ru_utime - before.ru_stime, after.ru_maxrss

    @needs_build
    def test_time_and_memory(self):
        python = python_with("shapely")
        if not python:
            self.skipTest("needs the package python3-shapely")
        with open(f"{self.room.path}/pairs.csv", "w", encoding="utf-8") as file:
            file.writelines(f'"{it.first}","{it.second}"\n' for it in families.pairs(40_000, 7))
        run = [*python_command(python, "sfq-audit"), "run", "--sfq", sweeps.program(), "--engine", "shapely", "--tries", "0", "--cases", "0"]
        known = {**os.environ, "PYTHONPATH": f"{ROOT}/bindings/python"}
        alone = self.took([python, "-B", "-c", self.ALONE, "pairs.csv"], env=known)[0] + self.took([sweeps.program(), "pairs", "pairs.csv"])[0]
        self.assertLess(self.took([*run, "pairs.csv"])[0], 1.3 * alone)
        # Where it makes the pairs too.
        self.assertLess(self.took([*run, "--random", "40000", "--seed", "7"])[0], 1.5 * alone)
        memory = [self.took([*run, "--random", str(count)])[1] for count in (20_000, 100_000)]
        self.assertLess(memory[1], 1.1 * memory[0])


class Elsewhere(NamedTuple):
    """A row of docs/WRONG-ELSEWHERE.md: two texts, the matrices that newer and older engines and sfq print, each with the predicate that
    it names, and how many pairs there are of the kind. An engine that is right prints the matrix of sfq."""

    number: str
    a: str
    b: str
    newer: tuple
    older: tuple
    found: str
    ours: tuple

    @property
    def texts(self):
        return self.a, self.b


def elsewhere():
    """Returns the rows of docs/WRONG-ELSEWHERE.md, of both tables."""
    cell = r"(?:`([F012]{9})`(?:: (\w+))?|right)"
    row = rf"^\| (\d+) \| `(.*?)` \| `(.*?)` \| {cell} \| (?:([\d,]+)|{cell}) \| {cell} \|$"
    rows = []
    for number, a, b, matrix, word, found, before, before_word, ours, says in re.findall(row, read(f"{ROOT}/docs/WRONG-ELSEWHERE.md"), re.M):
        exact, printed = (ours, says), (matrix, word)
        rows.append(Elsewhere(number, a, b, exact if found else printed, printed if found else (before, before_word) if before else exact, found, exact))
    return rows


class PageByProgram(unittest.TestCase):
    ASKS_PROGRAM = True

    @needs_build
    def test_the_pairs_of_the_other_page_in_both_directions(self):
        sfq, rows = asking.Sfq(repository.PROGRAM), elsewhere()
        self.assertEqual(sfq.lines([it.texts for it in rows]), [it.ours[0] for it in rows])
        self.assertEqual(sfq.lines([(it.b, it.a) for it in rows]), [outcomes.transposed(it.ours[0]) for it in rows])


class Page(unittest.TestCase):
    """The pairs of docs/AUDIT.md, and of docs/WRONG-ELSEWHERE.md, which has them from there."""

    PAIR = re.compile(r"^\| ([a-z/ ]+) \| [\d,]+ \| `(.+?)` \| `(.+?)` \| `(.+?)` \| `(.+?)` \|$", re.M)
    GEOS = "import sys\nfrom shapely import geos, wkt\nprint(geos.geos_version[:2], *(wkt.loads(a).relate(wkt.loads(b)) for a, b in zip(sys.argv[1::2], sys.argv[2::2])))"

    def setUp(self):
        self.pairs = self.PAIR.findall(read(f"{ROOT}/docs/AUDIT.md"))

    def test_the_exact_model_gives_the_matrices(self):
        self.assertEqual(len(self.pairs), 9)
        for cells, first, second, ours, theirs in self.pairs:
            self.assertEqual(model_of((first, second)), ours)
            self.assertEqual(" and ".join(it.replace(" ", "/") for it in comparing.differing(comparing.CELLS, ours, theirs)), cells)

    def test_the_other_page_has_these_pairs(self):
        page = read(f"{ROOT}/docs/AUDIT.md")
        rows = elsewhere()
        self.assertLessEqual({it[1:] for it in self.pairs}, {(*it.texts, it.ours[0], it.older[0]) for it in rows})
        for it in rows:
            text = f"{it.found} | `{it.a}` | `{it.b}` | `{it.ours[0]}` | `{it.older[0]}`"
            self.assertTrue(not it.found or page.count(text) == 1, text)

    def test_the_matrices_of_the_other_page(self):
        rows = elsewhere()
        self.assertEqual([it.number for it in rows], [str(it + 1) for it in range(15)])
        for it in rows:
            self.assertEqual(model_of(it.texts), it.ours[0])
            for matrix, word in (it.newer, it.older, it.ours):
                self.assertTrue(not word or predicates.holds(word, matrix, tuple(map(predicates.dimension, it.texts))), it)

    def test_geos_gives_the_others(self):
        python = python_with("shapely")
        if not python:
            self.skipTest("needs the package python3-shapely")
        words = [text for it in [*(it[1:3] for it in self.pairs), *(it.texts for it in elsewhere())] for text in it]
        version, _, found = subprocess.run([python, "-c", self.GEOS, *words], capture_output=True, text=True, check=True).stdout.partition(") ")
        if version == "(3, 11":
            self.assertEqual(found.split(), [*(it[4] for it in self.pairs), *(it.older[0] for it in elsewhere())])


class Smaller(unittest.TestCase):
    def test_each_smaller_shape_is_one(self):
        """Its text is read as it is but for positions that coincide, its lines have as many as a line or a ring needs, and rings are closed."""
        made = 0
        for it in families.pairs(60, 2):
            both = shapes.read(it.first), shapes.read(it.second)
            for made, other in enumerate(smaller.smaller_pairs(both), made + 1):
                for shape in other:
                    elements = [without_repeats(it) for it in shape.elements]
                    self.assertEqual(shapes.read(shape.text), shape._replace(elements=elements), (it, shape))
                    self.assertTrue(all(len(line) > (0, 1, 3)[shape.dimension] for line in shape.lines), (it, shape))
                    self.assertTrue(shape.dimension < 2 or all(line[0] == line[-1] for line in shape.lines), (it, shape))
        self.assertGreater(made, 5_000)


if __name__ == "__main__":
    unittest.main()
