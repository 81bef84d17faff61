"""The version is in the file VERSION, and what else spells it spells the same."""
import os
import re
import subprocess
import sys
import tempfile
import unittest

from support import ROOT, read, write

import repository
import version

VERSION = repository.version()


class Version(unittest.TestCase):
    def test_it_is_spelled_alike(self):
        ran = subprocess.run([sys.executable, f"{ROOT}/tools/version.py", "--check"], capture_output=True, text=True)
        self.assertEqual((ran.returncode, ran.stdout, ran.stderr), (0, "", ""))

    def test_another_version_is_found_and_written_anew(self):
        with tempfile.TemporaryDirectory(prefix="sfq-version-") as room:
            for path, _ in version.places():
                write(f"{room}/{path}", read(f"{ROOT}/{path}"))
            for name in ("repository.py", "version.py"):
                write(f"{room}/tools/{name}", read(f"{ROOT}/tools/{name}"))
            write(f"{room}/VERSION", "3.21.5\n")

            def run(*words):
                ran = subprocess.run([sys.executable, "-B", f"{room}/tools/version.py", *words], capture_output=True, text=True)
                return ran.returncode, ran.stdout

            status, out = run("--check")
            found = sorted(it.split(" ")[0] for it in out.splitlines())
            self.assertEqual((status, found), (1, sorted(it for it, _ in version.places())))
            self.assertEqual(run(), (0, ""))
            self.assertEqual(run("--check"), (0, ""))
            self.assertIn("#define SFQ_VERSION 3021005\n", read(f"{room}/bindings/c/sfq.h"))
            self.assertIn('__version__ = "3.21.5"\n', read(f"{room}/bindings/python/sfq/__init__.py"))

    def test_an_extension_whose_functions_changed_keeps_its_later_version(self):
        path, form = "bindings/postgresql/sfq.control", "default_version = '{}'"
        self.assertEqual(version.renewed(path, form, "default_version = '0.10.0'\n", "0.9.0"), "default_version = '0.10.0'\n")
        self.assertEqual(version.renewed(path, form, "default_version = '0.10.0'\n", "0.11.0"), "default_version = '0.11.0'\n")
        with self.assertRaises(ValueError):
            version.renewed(path, form, "comment = ''\n", "0.9.0")

    def test_nothing_else_spells_it(self):
        """But the list of changes, and the names of PostgreSQL's scripts."""
        known, found = {"VERSION", "CHANGELOG.md", *(it for it, _ in version.places())}, []
        for at, folders, names in os.walk(ROOT):
            folders[:] = [it for it in folders if it not in ("out", "build", "proofs", ".git", "__pycache__") and not it.endswith(".egg-info")]
            for it in names:
                path = os.path.relpath(f"{at}/{it}", ROOT)
                with open(f"{at}/{it}", "rb") as file:
                    if re.search(rb"(?<![\d.])%s(?![\d.])" % re.escape(VERSION).encode(), file.read()) and path not in known:
                        found.append(path)
        upgrades = [it for it in found if re.fullmatch(r"bindings/postgresql/sfq(_postgis)?--[\d.]+--[\d.]+\.sql", it)]
        self.assertEqual(sorted(found), sorted(upgrades))

    def test_the_list_of_changes_begins_with_it(self):
        self.assertEqual(re.findall(r"(?m)^## (\S+) \(\d{4}-\d\d-\d\d\)$", read(f"{ROOT}/CHANGELOG.md"))[0], VERSION)

    def test_postgresql_has_scripts_from_each_version_to_this_one(self):
        listed = re.findall(r"(?m)^## (\S+) \(", read(f"{ROOT}/CHANGELOG.md"))[::-1]
        for it in ("sfq", "sfq_postgis"):
            own = version.of_extension(it)
            released = listed if own == VERSION else [*listed, own]
            for before, after in zip(released, released[1:]):
                name = f"{it}--{before}--{after}.sql"
                self.assertIn(f'"ALTER EXTENSION {it} UPDATE"', read(f"{ROOT}/bindings/postgresql/{name}"))


if __name__ == "__main__":
    unittest.main()
