"""README's blocks of code, run in order in a copy of what is here; and how long the first answers take."""
import os
import re
import resource
import shutil
import subprocess
import sys
import tempfile
import time
import unittest

from support import ROOT, needs_build, read
import front_door
import library
import packages
import printed
import repository
import unproved

README = read(f"{ROOT}/README.md")


def copied(room, outputs):
    """Makes a copy of the repository without what was built here, but for these folders, and returns its path."""
    root = f"{room}/sfq"
    shutil.copytree(ROOT, root, symlinks=True, ignore=shutil.ignore_patterns("out", ".git", "__pycache__"))
    for it in outputs:
        if os.path.isdir(f"{ROOT}/{it}"):
            shutil.copytree(f"{ROOT}/{it}", f"{root}/{it}", ignore=shutil.ignore_patterns("rlib", "incremental", "new-*"))
    return root


class Blocks(unittest.TestCase):
    ASKS_PROGRAM = True

    def setUp(self):
        room = tempfile.TemporaryDirectory(prefix="sfq-readme-")
        self.addCleanup(room.cleanup)
        if not repository.is_built():
            unproved.kept_program()
        self.clone = copied(room.name, ("crates/sfq/out", "out/unproved"))

    def run_in(self, words, **more):
        known = {**os.environ, "PYTHONDONTWRITEBYTECODE": "1", **more}
        return subprocess.run(words, cwd=self.clone, env=known, stdin=subprocess.DEVNULL, capture_output=True, text=True)

    def test_each_block_is_known_here(self):
        """A new block wants a test, here or in tools/front_door.py, which runs the two commands."""
        self.assertEqual([it.kind for it in printed.fences(README)], ["sh", "text", "sh", "sh"])

    def test_the_first_command(self):
        first = front_door.commands(README)[0]
        for _ in range(2):
            ran = self.run_in(["sh", "-c", first.text])
            self.assertEqual((ran.stdout, ran.returncode), (first.prints, 0), ran.stderr)


# Debian's Python, whose packages an environment of its own can use.
DEBIAN = "/usr/bin/python3"
# Makes the shapefile of three parcels, of which one touches both others.
MAKES_PARCELS = """
import geopandas
from shapely.geometry import box
parcels = {"Mill": (0, 0, 40, 30), "Glebe": (40, 0, 70, 30), "Quay": (70, 10, 90, 25.5)}
geopandas.GeoDataFrame({"name": list(parcels)}, geometry=[box(*it) for it in parcels.values()], crs=25832).to_file("parcels.shp")
"""


# The pairs that the last of the commands without the kit prints of it, each way.
PAIRS = [("Glebe", "Mill"), ("Glebe", "Quay"), ("Mill", "Glebe"), ("Quay", "Glebe")]


def commands_without_the_kit():
    """Returns the commands of the block for somebody who has a wheel and a shapefile."""
    return [it for it in printed.fences(README) if it.kind == "sh"][2].text.strip().splitlines()


def pairs_in(shown):
    """Returns the pairs of names in a table that GeoPandas prints of a join."""
    return sorted(re.findall(r"^\d+ +(\w+) .* (\w+) *$", shown, re.M))


def says_proved(total):
    """Returns the pattern of what `python -m sfq --version` prints of the proved program with this sum."""
    return rf"\Asfq {repository.version()}\nthe proved program.*; SHA-256 {total}\n\Z"


def lacks():
    """Returns the Debian package that the commands without the kit need and that isn't here, or None."""
    for modules, package in (("venv, ensurepip", "python3-venv"), ("geopandas", "python3-geopandas")):
        if not os.path.isfile(DEBIAN) or subprocess.run([DEBIAN, "-c", f"import {modules}"], capture_output=True).returncode:
            return package
    return None


class WithoutTheKit(unittest.TestCase):
    """The commands for somebody who has a wheel and a shapefile."""

    ASKS_PROGRAM, ASKS_LIBRARY = True, True

    @needs_build
    def test_from_pip_to_the_answer_of_a_join(self):
        """pip gets no index: the environment sees Debian's GeoPandas."""
        if not library.are_made():
            self.skipTest("needs ./build --library")
        if lacks():
            self.skipTest(f"needs the package {lacks()}")
        with tempfile.TemporaryDirectory(prefix="sfq-wheel-") as room:
            known = {"PATH": "/usr/bin:/bin", "HOME": room, "LANG": "C.UTF-8", "PIP_NO_INDEX": "1"}

            def run(*words):
                ran = subprocess.run(words, cwd=room, env=known, stdin=subprocess.DEVNULL, capture_output=True, text=True)
                self.assertEqual(ran.returncode, 0, ran.stderr)
                return ran.stdout

            packages.make_wheel(room, *packages.released())
            run(DEBIAN, "-c", MAKES_PARCELS)
            commands = commands_without_the_kit()
            self.assertEqual(len(commands), 3)
            shown = [run("sh", "-c", it) for it in commands][2]
            self.assertEqual(pairs_in(shown), PAIRS, shown)
            self.assertRegex(run("venv/bin/python", "-m", "sfq", "--version"), says_proved(repository.sum_of_file(repository.PROGRAM)))


class Commands(unittest.TestCase):
    def test_each_command_of_the_table_is_one_that_it_takes(self):
        for row in re.findall(r"^\| `(\./\w+[^`]*)` \|(.*)\|.*\|$", README, re.M):
            program, _, option = row[0].partition(" ")
            known = subprocess.run([f"{ROOT}/{program}", "--help"], capture_output=True, text=True).stdout
            for it in [option, *re.findall(r"`(--[a-z]+)(?: [A-Z]+)?`", row[1])]:
                self.assertIn(f"{program} {it}".rstrip(), known)


def processor_seconds():
    """Returns what the commands that have ended took of the processors."""
    used = resource.getrusage(resource.RUSAGE_CHILDREN)
    return used.ru_utime + used.ru_stime


def least(words):
    """Returns the least seconds of fifteen runs: by the clock, or of the processors where that is less, as other work slows a run down."""
    found = []
    for _ in range(15):
        before, begun = processor_seconds(), time.monotonic()
        subprocess.run(words, cwd=ROOT, stdin=subprocess.DEVNULL, capture_output=True, check=True)
        found.append(min(time.monotonic() - begun, processor_seconds() - before))
    return min(found)


RELATES = ["relate", "POINT(1 1)", "POINT(1 1)"]


class Seconds(unittest.TestCase):
    """What ./sfq adds to the program that it runs."""

    ASKS_PROGRAM = True

    @needs_build
    def test_of_the_proved_program(self):
        self.assertLess(least([f"{ROOT}/sfq", *RELATES]) - least([repository.PROGRAM, *RELATES]), 0.1)

    def test_of_the_kept_program(self):
        if repository.is_built():
            self.skipTest("the proved program is built, which ./sfq runs")
        self.assertLess(least([f"{ROOT}/sfq", *RELATES]) - least([unproved.kept_program(), *RELATES]), 0.1)

    def test_of_texts_that_need_no_program(self):
        python = "/usr/bin/python3" if os.access("/usr/bin/python3", os.X_OK) else sys.executable
        for words in (["--version"], ["--help"], ["fault", "V3"]):
            self.assertLess(least([python, "-B", f"{ROOT}/tools/unproved.py", *words]), 0.2)


if __name__ == "__main__":
    unittest.main()
