"""The C around the proved calls: each file compiles without a warning, and random inputs find nothing under sanitizers."""
import glob
import os
import shutil
import subprocess
import sys
import tempfile
import unittest

from made_libraries import over_library
from support import ROOT, needs

import bindings
import c_programs
import engine_rows
import library
import surroundings
import wasm
from fuzz import geopackages

# How the C of each folder is compiled, beside what all have.
FOLDERS = {
    "bindings/c": ["-std=c99"], "bindings/sqlite": ["-std=c99"], "tests/library": ["-std=c99"], "tests/sqlite": ["-std=gnu99"],
    "tests/faults": ["-std=gnu99"],
}


class Warnings(unittest.TestCase):
    """Each file of C compiles without a warning, by each compiler that is here."""

    COMPILERS = [it for it in ("gcc", "clang") if shutil.which(it)]

    def check(self, path, *flags, compilers=None, folder=ROOT):
        for compiler in compilers or self.COMPILERS:
            words = [compiler, "-fsyntax-only", "-O2", *c_programs.STRICT, *flags, path]
            ran = subprocess.run(words, capture_output=True, text=True, cwd=folder)
            self.assertEqual((ran.returncode, ran.stderr), (0, ""), path)

    def files(self, folder):
        found = sorted(glob.glob(f"{ROOT}/{folder}/*.c"))
        self.assertTrue(found, folder)
        return found

    @needs("gcc", "cc")
    def test_the_library_and_the_tests(self):
        for folder, flags in FOLDERS.items():
            if "sqlite" not in folder or bindings.has_sqlite():
                for path in self.files(folder):
                    self.check(path, *flags, f"-I{library.FOLDER}")

    @needs("gcc", "cc")
    def test_each_header_by_itself(self):
        folders = [library.FOLDER, *([f"{ROOT}/bindings/sqlite"] if bindings.has_sqlite() else [])]
        for path in sorted(it for folder in folders for it in glob.glob(f"{folder}/*.h")):
            # What a header has that this file doesn't use is no fault of it.
            self.check(path, "-std=c99", "-x", "c", "-Wno-unused-function", "-include", "sys/types.h", f"-I{library.FOLDER}", compilers=["gcc"])

    @needs("gcc", "cc")
    def test_the_extension_of_postgresql(self):
        headers = bindings.configured("includedir-server")
        if not headers or not os.path.isfile(f"{headers}/postgres.h"):
            self.skipTest("needs the package postgresql-server-dev-15")
        for path in self.files("bindings/postgresql"):
            self.check(path, "-std=gnu99", f"-I{library.FOLDER}", "-isystem", headers)

    @needs("clang", "clang")
    def test_the_modules_of_javascript(self):
        """As the kit's compiler has them, of whose headers these are all."""
        with tempfile.TemporaryDirectory(prefix="sfq-modules-") as room:
            for path in [*glob.glob(f"{library.FOLDER}/*.[ch]"), *glob.glob(f"{ROOT}/bindings/javascript/*.[ch]")]:
                shutil.copy(path, room)
            for name, text in wasm.HEADERS.items():
                with open(f"{room}/{name}", "w", encoding="ascii") as file:
                    file.write(text)
            for path in self.files("bindings/javascript"):
                flags = [f"--target={wasm.TARGET}", *wasm.C_FLAGS]
                self.check(os.path.basename(path), *flags, compilers=["clang"], folder=room)

    def test_no_other_folder_has_any(self):
        found = {os.path.dirname(os.path.relpath(it, ROOT)) for it in glob.glob(f"{ROOT}/bindings/**/*.c", recursive=True)}
        found |= {os.path.dirname(os.path.relpath(it, ROOT)) for it in glob.glob(f"{ROOT}/tests/**/*.c", recursive=True)}
        self.assertEqual(found, {*FOLDERS, "bindings/postgresql", "bindings/javascript"})


@needs("gcc", "cc")
class Rims(engine_rows.WithLibrary):
    """Random texts, binaries, tables and queries, and joins in SQLite."""

    def test_half_a_minute_of_each(self):
        ran = subprocess.run([sys.executable, "-B", f"{ROOT}/tests/fuzz/rims.py", "--seed", "1", "--seconds", "30"], capture_output=True, text=True)
        self.assertEqual(ran.returncode, 0, ran.stdout + ran.stderr)
        self.assertEqual(ran.stdout.splitlines()[0], "seed 1")
        self.assertGreaterEqual(ran.stdout.count(": well"), 3)


@over_library
@unittest.skipUnless(surroundings.GDAL, "needs the package python3-gdal")
class GeoPackages(unittest.TestCase):
    """GeoPackages with changed bytes and cells, which sfq-import reads."""

    def ran(self, *words):
        ran = subprocess.run([surroundings.GDAL, "-B", f"{ROOT}/tests/fuzz/geopackages.py", "--seed", "1", *words], capture_output=True, text=True)
        self.assertEqual((ran.returncode, ran.stderr), (0, ""), ran.stdout)
        return ran.stdout.splitlines()

    def test_half_a_minute(self):
        first, last = self.ran("--seconds", "30")
        self.assertEqual(first, "seed 1")
        self.assertRegex(last, r"^\d\d+ imports, statuses \{0: .*\}, 0 wrong$")

    def test_text_of_gdal_that_is_not_utf8(self):
        """A warning while a file is opened, an error, and a warning while its layers are asked."""
        for it in ("183", "192", "316"):
            self.assertRegex(self.ran("--case", it)[-1], r"^1 imports, .*, 0 wrong$")

    def test_what_is_wrong_is_found(self):
        """A status that isn't of the page, a line of another, a signal, and a folder that is left."""
        with tempfile.TemporaryDirectory(prefix="sfq-room-") as room:
            out = f"{room}/out"
            for status, err, said in (
                (99, "", "status 99"), (-11, "", "signal 11"), (-14, "", "signal 14: more than 60 s"), (6, "Traceback\n", "another line"), (6, "", "another line"),
                (0, "", "no folder"), (6, "sfq-import: a\n", ""),
            ):
                self.assertEqual(geopackages.wrong(status, err, out, room, ""), said)
            os.mkdir(out)
            self.assertEqual(geopackages.wrong(6, "sfq-import: a\n", out, room, ""), "a folder in spite of the status")
            with open(f"{out}/grid.json", "w", encoding="ascii") as file:
                file.write('{"layers": []}')
            self.assertEqual(geopackages.wrong(0, "", out, room, ""), "files ['left-out.csv', 'schema.sql']")
            os.mkdir(f"{room}/.sfq-a")
            self.assertEqual(geopackages.wrong(0, "", out, room, ""), "left: ['.sfq-a']")


if __name__ == "__main__":
    unittest.main()
