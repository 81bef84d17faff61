"""What `./build --install PREFIX` does for Python, SQLite and PostgreSQL: all is found under the prefix, and goes again."""
import contextlib
import io
import os
import subprocess
import sys
import tempfile
import unittest

from support import ROOT, needs, write

import bindings
import engine_rows
import library
import packages


class Installed(engine_rows.WithLibrary):
    """A prefix with the library and what is over it."""

    @classmethod
    def setUpClass(cls):
        super().setUpClass()
        cls.room = tempfile.TemporaryDirectory(prefix="sfq-bindings-")
        cls.prefix, printed = f"{cls.room.name}/prefix", io.StringIO()
        with contextlib.redirect_stdout(printed):
            packages.copy(library.FILES + bindings.files(), cls.prefix)
            cls.made = library.install_made(cls.prefix, "0") + bindings.install_made(cls.prefix)
        cls.printed = printed.getvalue()

    @classmethod
    def tearDownClass(cls):
        cls.room.cleanup()

    def test_python_finds_the_library_of_its_prefix(self):
        known = {name: value for name, value in os.environ.items() if name != "SFQ_LIBRARY"}
        known |= {"PYTHONPATH": f"{self.prefix}/{bindings.PACKAGES}", "PYTHONDONTWRITEBYTECODE": "1"}
        text = "import sfq; from sfq.geometry import library; print(sfq.relate('POINT(1 2)', 'POINT(1 2)'), library.library()._name)"
        ran = subprocess.run([sys.executable, "-c", text], env=known, cwd="/", capture_output=True, text=True)
        self.assertEqual((ran.stdout, ran.stderr), (f"0FFFFFFF2 {os.path.realpath(self.prefix)}/lib/libsfq.so.0\n", ""))

    @needs("sqlite3", "sqlite3")
    @unittest.skipUnless(bindings.has_sqlite(), "needs the package libsqlite3-dev")
    def test_sqlite_loads_the_extension(self):
        given = f".load {self.prefix}/lib/sfq0\nSELECT ST_Relate('POINT(1 2)', 'POINT(1 2)');\n"
        ran = subprocess.run(["sqlite3", "-batch", ":memory:"], input=given, capture_output=True, text=True)
        self.assertEqual((ran.stdout, ran.stderr), ("0FFFFFFF2\n", ""))

    def test_nothing_is_written_outside_of_the_prefix(self):
        """PostgreSQL looks in folders of its own, which aren't below this prefix: a line says what to do."""
        self.assertRegex(self.printed, r"(?m)^not installed: the extensions of PostgreSQL, which (looks in /.*make -C bindings/postgresql|need )")
        for it in self.made:
            self.assertTrue(os.path.lexists(it) and bindings.is_below(os.path.dirname(it), os.path.dirname(self.prefix)), it)

    @needs("gcc", "cc")
    def test_an_older_postgresql_is_refused_in_a_line(self):
        with tempfile.TemporaryDirectory(prefix="sfq-bindings-") as room:
            for name in ("postgres.h", "fmgr.h", "utils/builtins.h", "utils/memutils.h", "utils/guc.h", "miscadmin.h", "varatt.h"):
                write(f"{room}/{name}", "")
            for version, is_well in (("140012", False), ("150000", True), ("180001", True)):
                words = ["cc", "-E", f"-DPG_VERSION_NUM={version}", f"-I{room}", f"-I{library.FOLDER}", f"{ROOT}/bindings/postgresql/sfq.c"]
                ran = subprocess.run(words, stdout=subprocess.DEVNULL, stderr=subprocess.PIPE, text=True)
                self.assertEqual((ran.returncode == 0, "sfq needs PostgreSQL 15 or later" in ran.stderr), (is_well, not is_well), ran.stderr)

    def test_what_is_below_a_prefix(self):
        for path, prefix, wanted in (("/usr/lib/a", "/usr", True), ("/usr/lib/a", "/", True), ("/usrlib/a", "/usr", False)):
            self.assertIs(bindings.is_below(path, prefix), wanted)

    def test_all_goes_again(self):
        with tempfile.TemporaryDirectory(prefix="sfq-bindings-") as room, contextlib.redirect_stdout(io.StringIO()):
            packages.copy(library.FILES + bindings.files(), f"{room}/prefix")
            library.install_made(f"{room}/prefix", "0")
            bindings.install_made(f"{room}/prefix")
            for it in ("", "/tables"):
                os.makedirs(f"{room}/prefix/{bindings.PACKAGES}/sfq{it}/__pycache__")
            packages.uninstall(f"{room}/prefix")
            self.assertEqual(os.listdir(f"{room}/prefix"), [])


if __name__ == "__main__":
    unittest.main()
