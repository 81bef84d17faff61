"""examples/suite: pairs of all families with their matrices, in the XML of JTS's tests and as CSV, and `sfq-audit write`, which made it.

The exact model, which knows nothing of sfq's code, says who is right where another engine differs.
"""
import csv
import filecmp
import glob
import io
import json
import os
import re
import shutil
import subprocess
import sys
import tempfile
import unittest
import xml.etree.ElementTree as tree
from collections import Counter
from typing import NamedTuple

from support import ROOT, needs_build, python_command, python_with, read

import exact_cells
import repository
from sfq.geometry import texts
from sfq_audit import families, writing
from sfq_audit.engines import PREDICATES

FOLDER = f"{ROOT}/examples/suite"
EACH, MOST_BYTES = 155, 1_000_000
AUDIT = python_command(sys.executable, "sfq-audit")
JARS = [f"/usr/share/java/{it}.jar" for it in ("jts-tests", "jts-core", "jdom2", "commons-lang3")]
RUNNER = "org.locationtech.jtstest.testrunner.JTSTestRunnerCmd"
# Asks shapely for each case of files of XML, and prints which have another matrix or another predicate.
ASK_SHAPELY = """
import sys, xml.etree.ElementTree as tree
from shapely import geos, wkt
names = {"equalsTopo": "equals"}
print("GEOS", ".".join(map(str, geos.geos_version)))
for path in sys.argv[1:]:
    for case in tree.parse(path).getroot().iter("case"):
        a, b = (wkt.loads(case.findtext(it)) for it in "ab")
        for op in case.iter("op"):
            name = op.get("name")
            found = a.relate(b) == op.get("arg3") if name == "relate" else getattr(a, names.get(name, name))(b)
            if str(bool(found)).lower() != op.text:
                print(case.findtext("desc"), name)
"""


class Read(NamedTuple):
    """A case of a file of XML: its name, its two texts, its matrix, and whether each predicate that is tested holds."""

    name: str
    first: str
    second: str
    matrix: str
    held: dict


def cases_of(text):
    """Returns the cases of a file of XML."""
    found = []
    for case in tree.fromstring(text).iter("case"):
        matrix, *rest = case.iter("op")
        assert (matrix.get("name"), matrix.text) == ("relate", "true")
        assert all((op.get("arg1"), op.get("arg2")) == ("A", "B") for op in case.iter("op"))
        held = {{"equalsTopo": "equals"}.get(op.get("name"), op.get("name")): op.text == "true" for op in rest}
        found.append(Read(case.findtext("desc"), case.findtext("a"), case.findtext("b"), matrix.get("arg3"), held))
    return found


def suite():
    """Returns all cases of the suite, by their names."""
    return {it.name: it for name in families.FAMILIES for it in cases_of(read(f"{FOLDER}/{name}.xml"))}


def records():
    with open(f"{FOLDER}/pairs.csv", newline="", encoding="utf-8") as file:
        return list(csv.DictReader(file))


def exact(case):
    """Returns the matrix of a case by the exact model."""
    return "".join(it.split()[2] for it in exact_cells.lines(case.first, case.second).splitlines())


def truth(name, matrix, first, second):
    return f"ST_{name.capitalize()}" in exact_cells.related(matrix, first, second)


class Known:
    """What knows the pairs of the suite alone, in place of the program: it refuses all others, and raises where too many are asked."""

    MOST = 10_000

    def __init__(self):
        self.matrices = {(it["first"], it["second"]): it["matrix"] for it in records()}
        self.count = 0

    def lines(self, pairs):
        self.count += len(pairs)
        if self.count > self.MOST * len(families.FAMILIES):
            raise AssertionError("other pairs are drawn than the suite has: make it anew, by the commands of its page")
        return [self.matrices.get(tuple(it), "first V3 0") for it in pairs]


def write(*words, given=b""):
    return subprocess.run([*AUDIT, "write", *words], input=given, capture_output=True)


class Suite(unittest.TestCase):
    """The files, without the program."""

    def test_its_size(self):
        names = {os.path.basename(it) for it in glob.glob(f"{FOLDER}/*")}
        self.assertEqual(names, {"README.md", "pairs.csv", *(f"{it}.xml" for it in families.FAMILIES)})
        self.assertLessEqual(sum(os.path.getsize(f"{FOLDER}/{it}") for it in names), MOST_BYTES)
        self.assertEqual(Counter(it["family"] for it in records()), {it: EACH for it in families.FAMILIES})

    def test_both_forms_have_the_same_pairs(self):
        found = suite()
        self.assertEqual(len(found), EACH * len(families.FAMILIES))
        for it in records():
            case = found[f"{it['family']} {it['number']}"]
            self.assertEqual((it["first"], it["second"], it["matrix"]), (case.first, case.second, case.matrix))
            held = [name for name in PREDICATES if it[name] == "1"]
            self.assertEqual([name for name in PREDICATES if it[name] not in "01"], [])
            # In XML are those that hold.
            self.assertEqual(case.held, {name: True for name in held}, case.name)

    def test_predicates_are_those_of_the_matrix(self):
        for it in records():
            for name in PREDICATES:
                self.assertEqual(it[name] == "1", truth(name, it["matrix"], it["first"], it["second"]), (it, name))

    def test_the_exact_model_gives_the_matrices(self):
        for at, it in enumerate(suite().values()):
            if at % 8 == 0:
                self.assertEqual(it.matrix, exact(it), it.name)

    def test_each_type_and_many_matrices_are_in_it(self):
        found = suite().values()
        words = Counter(re.match("[A-Z]+", text)[0] for it in found for text in (it.first, it.second))
        self.assertEqual(set(words), {it.upper() for it in texts.TYPES})
        self.assertGreater(min(words.values()), 100)
        self.assertGreater(len({it.matrix for it in found}), 100)
        for name in PREDICATES:
            self.assertGreater(sum(it.held.get(name, False) for it in found), 50, name)

    def test_drawn_anew_they_are_the_same_bytes(self):
        known = Known()
        for name in families.FAMILIES:
            text = io.StringIO()
            form = writing.JtsXml(text, f"made: {EACH} of {name}, seed 1", writing.HELD)
            writing.write(writing.drawn(known, EACH, 1, [name]), form, writing.Progress("test"))
            self.assertEqual(text.getvalue(), read(f"{FOLDER}/{name}.xml"), name)

    def test_the_page_has_the_commands_that_make_it(self):
        page = read(f"{FOLDER}/README.md")
        self.assertIn(f"--random {EACH} ", page)
        self.assertIn(f"--random {EACH * len(families.FAMILIES)} ", page)
        self.assertEqual(re.findall(r"(?m)^\| `(\w+)\.xml` \|", page), list(families.FAMILIES))


class LongSuite(unittest.TestCase):
    """Each matrix of the suite by the exact model."""

    IS_LONG, IN_GATE = True, True

    def test_the_exact_model_gives_each_matrix(self):
        for it in suite().values():
            self.assertEqual(it.matrix, exact(it), it.name)


class Program(unittest.TestCase):
    """The program over the suite."""

    ASKS_PROGRAM = True

    @needs_build
    def test_pairs_gives_the_matrices_again(self):
        found = list(suite().values())
        text = "".join(f'"{it.first}","{it.second}"\n' for it in found)
        ran = subprocess.run([repository.PROGRAM, "pairs", "-"], input=text, capture_output=True, text=True)
        self.assertEqual((ran.stdout.splitlines(), ran.stderr, ran.returncode), ([it.matrix for it in found], "", 0))

    @needs_build
    def test_made_anew_it_is_the_same_bytes(self):
        with tempfile.TemporaryDirectory(prefix="sfq-suite-") as room:
            calls = [(f"{it}.xml", ["--random", str(EACH), "--family", it, "--format", "jts-xml", "--predicates", "held"]) for it in families.FAMILIES]
            calls.append(("pairs.csv", ["--random", str(EACH * len(families.FAMILIES)), "--format", "csv"]))
            for name, words in calls:
                ran = write(*words, "--sfq", repository.PROGRAM, "--output", f"{room}/{name}")
                self.assertEqual((ran.stdout, ran.stderr, ran.returncode), (b"", b"", 0))
                self.assertTrue(filecmp.cmp(f"{room}/{name}", f"{FOLDER}/{name}", shallow=False), name)

    @needs_build
    def test_a_file_of_pairs_in_each_form(self):
        pairs = [(it.first, it.second) for it in list(suite().values())[::40]]
        given = "".join(f'"{a}","{b}"\n' for a, b in pairs).encode()
        wanted = [next(it.matrix for it in suite().values() if (it.first, it.second) == pair) for pair in pairs]
        words = ["--sfq", repository.PROGRAM, "-"]
        ran = write("--format", "jts-xml", *words, given=given)
        self.assertEqual((ran.stderr, ran.returncode), (b"", 0))
        found = cases_of(ran.stdout.decode())
        self.assertEqual([(it.first, it.second, it.matrix) for it in found], [(*pair, it) for pair, it in zip(pairs, wanted)])
        self.assertEqual({tuple(it.held) for it in found}, {PREDICATES})
        for it in found:
            self.assertEqual(it.held, {name: truth(name, it.matrix, it.first, it.second) for name in PREDICATES})
        features = json.loads(write("--format", "geojson", *words, given=given).stdout)["features"]
        self.assertEqual([it["properties"]["matrix"] for it in features], wanted)
        for it, pair in zip(features, pairs):
            both = [texts.of_interface(each) for each in it["geometry"]["geometries"]]
            # Rings are turned and repeats left out, which changes no set of points.
            again = subprocess.run([repository.PROGRAM, "relate", *both], capture_output=True, text=True).stdout.strip()
            self.assertEqual(again, it["properties"]["matrix"])
            self.assertEqual(*([set(re.findall(r"-?\d+ -?\d+", each)) for each in lists] for lists in (both, pair)))
        none = cases_of(write("--format", "jts-xml", "--predicates", "none", *words, given=given).stdout.decode())
        self.assertEqual([it.held for it in none], [{}] * len(pairs))

    @needs_build
    def test_pairs_that_are_refused_are_left_out(self):
        given = b'POINT(1 1),POINT(1 1)\n"POLYGON((0 0,4 4,4 0,0 4,0 0))",POINT(1 1)\nPOINT(1 1,POINT(2 2)\nPOINT(3 3),POINT(2 2)\n'
        ran = write("--format", "csv", "--sfq", repository.PROGRAM, "-", given=given)
        self.assertEqual([it.split(b",")[1] for it in ran.stdout.splitlines()[1:]], [b"1", b"4"])
        self.assertEqual(ran.stderr, b"sfq-audit: left out 2 of the pairs, which sfq refuses; the first is record 2: first V3 0\n")
        self.assertEqual(ran.returncode, 4)

    @needs_build
    def test_how_it_ends(self):
        words = ["--format", "csv", "--sfq", repository.PROGRAM]
        self.assertEqual(write(*words).returncode, 2)
        self.assertEqual(write(*words, "--random", "3", "-").returncode, 2)
        self.assertEqual(write(*words, "/no/such.csv").returncode, 6)
        self.assertEqual(write("--format", "csv", "--sfq", "/no/such", "--random", "3").returncode, 8)
        with tempfile.TemporaryDirectory(prefix="sfq-suite-") as room:
            ran = write(*words, "--output", f"{room}/out.csv", "-", given=b"POINT(1 1),POINT(1 1)\nPOINT(1 1)\n")
            self.assertEqual((ran.returncode, os.listdir(room)), (4, []))
        with open("/dev/full", "wb") as full:
            ran = subprocess.run([*AUDIT, "write", *words, "--random", "3"], stdout=full, stderr=subprocess.PIPE)
        self.assertEqual((ran.stderr, ran.returncode), (b"sfq-audit: write failed\n", 6))


class OtherEngines(unittest.TestCase):
    """Where another engine says something else, the exact model says what sfq says. How often is on the page, for the versions that it names."""

    def judge(self, version, differing):
        """Takes the names of cases and of what is asked, and compares with the page."""
        found = suite()
        self.assertGreater(len(differing), 0)
        for name, asked in differing:
            case = found[name]
            with self.subTest(case=name, asked=asked):
                matrix = exact(case)
                self.assertEqual(matrix, case.matrix)
                self.assertTrue(asked == "relate" or truth(asked, matrix, case.first, case.second))
        counts = Counter(name.split()[0] for name in {name for name, asked in differing if asked == "relate"})
        page = read(f"{FOLDER}/README.md")
        header = next(line for line in page.splitlines() if line.startswith("| file |")).split(" | ")
        column = next((at for at, it in enumerate(header) if version in it), None)
        if column is None:
            self.skipTest(f"the page doesn't name {version}; of {EACH * len(families.FAMILIES)} matrices {sum(counts.values())} differ: {dict(counts)}")
        shown = {it[1]: it[0].split(" | ") for it in re.findall(r"(?m)^(\| `(\w+)\.xml` \|.*)", page)}
        self.assertEqual({name: int(row[column].strip(" |")) for name, row in shown.items()}, {it: counts[it] for it in families.FAMILIES})

    def test_shapely(self):
        python = python_with("shapely")
        if not python:
            self.skipTest("needs the package python3-shapely")
        paths = [f"{FOLDER}/{it}.xml" for it in families.FAMILIES]
        ran = subprocess.run([python, "-c", ASK_SHAPELY, *paths], capture_output=True, text=True)
        self.assertEqual(ran.returncode, 0, ran.stderr)
        version, *lines = ran.stdout.splitlines()
        self.judge(version, [(line.rpartition(" ")[0], line.rpartition(" ")[2].replace("equalsTopo", "equals")) for line in lines])

    def test_the_runner_of_jts(self):
        if not shutil.which("java") or not all(map(os.path.isfile, JARS)):
            self.skipTest("needs the packages default-jdk-headless and libjts-java")
        ran = subprocess.run(["java", "-cp", ":".join(JARS), RUNNER, "-files", *sorted(glob.glob(f"{FOLDER}/*.xml"))], capture_output=True, text=True)
        found = suite().values()
        tests = sum(1 + len(it.held) for it in found)
        self.assertRegex(ran.stdout, rf"(?m)^{len(found)} cases with {tests} tests  --  \d+ passed, \d+ failed, 0 exceptions$")
        version = "JTS " + re.search(r"Version ([\d.]+)", ran.stdout)[1]
        differing, name = [], ""
        for line in ran.stdout.splitlines():
            if line.startswith("Case "):
                name = line.rpartition(": ")[2]
            elif line.startswith("Test Failed"):
                differing.append((name, re.search(r"\(A (\w+) B", line)[1].replace("equalsTopo", "equals")))
        self.judge(version, differing)


if __name__ == "__main__":
    unittest.main()
