"""What sfq is put into, with the compiler, headers and programs of a later suite of Debian: the tests that ./test --today runs a file of
each, here one test of each, in a folder that is there. And the table of docs/LIBRARY.md that it writes."""
import contextlib
import io
import os
import re
import signal
import sys
import tempfile
import unittest
from unittest import mock

from support import ROOT, read, write

import engine_rows
import parts
import peer_folder
import today
import version

# The suite that doesn't change any more.
SUITE = "trixie"


class ShortForm(engine_rows.WithLibrary):
    """Compiles what there is to compile in the folder of the suite, and asks each once."""

    ASKS_PROGRAM = True

    def test_one_question_through_each(self):
        folder = today.folder_of(SUITE)
        missing = peer_folder.lacking_to_run(folder) if os.path.isdir(folder) or os.geteuid() else f"./test --today {SUITE}, which makes {folder}"
        if missing:
            self.skipTest(f"needs {missing}" if not missing.startswith("needs") else missing)
        asked = 0
        for rim in today.RIMS:
            if rim.short:
                report = today.tried(SUITE, rim, rim.short.partition(".")[0], [rim.short])
                with self.subTest(rim=rim.name):
                    self.assertEqual([it.text for it in report.failures], [])
                    self.assertEqual(report.passed + len(report.skipped), 1, rim.short)
                asked += report.passed
        self.assertGreater(asked, 0)


class Folders(unittest.TestCase):
    """What is said where no folder can be made, and what is installed in one."""

    def test_each_suite_is_skipped_by_name_where_its_folder_can_not_be_made(self):
        counts = parts.Counts()
        with tempfile.TemporaryDirectory(prefix="sfq-test-") as room, mock.patch.dict(os.environ, {"SFQ_TODAY": f"{room}/none"}):
            with mock.patch.object(os, "geteuid", lambda: 1000), mock.patch("builtins.print"):
                found = today.try_suite(counts, SUITE)
        self.assertEqual((found.good, counts.passed, counts.failures), ([], 0, []))
        self.assertEqual({it.name for it in counts.skipped}, {f"{SUITE} {it.name}" for it in today.RIMS})
        self.assertEqual({it.reason for it in counts.skipped}, {f"{SUITE}: needs root, which mounts and changes the root folder"})

    def test_firefox_has_another_name_in_sid(self):
        with tempfile.TemporaryDirectory(prefix="sfq-test-") as room, mock.patch.dict(os.environ, {"SFQ_TODAY": room}):
            browsers = next(it for it in today.RIMS if it.name == "browsers")
            for suite, wanted in (("sid", "firefox"), ("trixie", "firefox-esr")):
                self.assertIn(wanted, today.missing_packages(suite, today.folder_of(suite), browsers.packages))

    def test_an_interrupted_run_ends_what_it_started(self):
        started = []

        def interrupted(child, timeout=None):
            started.append(child)
            raise KeyboardInterrupt

        with mock.patch.object(parts.subprocess.Popen, "communicate", interrupted), self.assertRaises(KeyboardInterrupt):
            parts.run(["sleep", "60"])
        (child,) = started
        self.assertEqual(child.returncode, -signal.SIGTERM)

    def test_words(self):
        for words in (["buster"], ["trixie", "nothing"], ["--nothing"]):
            self.assertEqual(today.main(words), 2)


# A stand-in for each program that makes folders or goes into them. It notes the words that it is called with. That of debootstrap asks
# for signatures to be checked, and makes of a folder what is looked at; that of unshare does what it is called for with debootstrap, and
# writes that a test passed in a folder.
NOTES = """#!/bin/sh
echo "$(basename "$0") $*" >> {room}/calls
"""
DEBOOTSTRAP = NOTES + """case " $* " in *" --force-check-gpg --keyring={keyring} "*) ;; *) echo "E: no signature is checked"; exit 1 ;; esac
for folder; do case $folder in {room}/*) mkdir -p "$folder/usr/bin" "$folder/usr/sbin" "$folder/tmp"; [ -e {room}/broken ] || : > "$folder/usr/bin/env" ;; esac; done
[ ! -e {room}/broken ] || {{ echo "E: no network"; exit 1; }}
"""
UNSHARE = NOTES + """case $2 in debootstrap) shift; exec "$@" ;; esac
folder=$6
while [ $# -gt 0 ]; do
    case $1 in */results) echo '{{"name": "a_test", "what": "passed", "seconds": 1, "text": ""}}' > "$folder$1" ;; esac
    shift
done
"""


class FoldersThatAreMade(unittest.TestCase):
    """A folder that isn't there is made, by a stand-in for each program that makes it: nothing is downloaded, and root isn't needed."""

    def setUp(self):
        folder = tempfile.TemporaryDirectory(prefix="sfq-test-")
        self.addCleanup(folder.cleanup)
        self.room = os.path.realpath(folder.name)
        write(f"{self.room}/keyring", "")
        for name, text in (("debootstrap", DEBOOTSTRAP), ("unshare", UNSHARE), ("gpgv", NOTES)):
            write(f"{self.room}/bin/{name}", text.format(room=self.room, keyring=f"{self.room}/keyring"), 0o755)
        known = {"SFQ_TODAY": f"{self.room}/suites", "PATH": f"{self.room}/bin:{os.environ['PATH']}"}
        for it in (
            mock.patch.dict(os.environ, known), mock.patch.object(os, "geteuid", lambda: 0), mock.patch.object(today, "run_command", self.run_here),
            mock.patch.object(peer_folder, "KEYRING", f"{self.room}/keyring"), mock.patch.object(peer_folder, "environment", lambda _: dict(os.environ)), contextlib.redirect_stdout(io.StringIO()),
        ):
            it.__enter__()
            self.addCleanup(it.__exit__, None, None, None)

    def run_here(self, words):
        """Runs tools/peer_folder.py in this process, where this user is taken for root."""
        python, _, script, *rest = words
        self.assertEqual((python, script), (sys.executable, f"{ROOT}/tools/peer_folder.py"))
        with mock.patch.object(sys, "argv", [script, *rest]):
            try:
                return peer_folder.main(), "", ""
            except SystemExit as it:
                return 1, "E: no network\n", f"{it}\n"

    def calls(self):
        """Returns what was called since it was asked last."""
        found = read(f"{self.room}/calls").splitlines() if os.path.exists(f"{self.room}/calls") else []
        write(f"{self.room}/calls", "")
        return found

    def tried(self, suite):
        """Tries one program in a suite, and returns what came of it."""
        counts = parts.Counts()
        found = today.try_suite(counts, suite, [it for it in today.RIMS if it.name == "SQLite"])
        return counts, found.good

    def test_it_is_made_once_with_its_signature_checked(self):
        counts, good = self.tried("sid")
        self.assertEqual((counts.passed, counts.failures, counts.skipped, good), (3, [], [], ["SQLite"]))
        made = [it for it in self.calls() if it.startswith("debootstrap ")]
        beside = f"{self.room}/suites/sid.new"
        self.assertEqual(made, [f"debootstrap --variant=minbase --force-check-gpg --keyring={self.room}/keyring sid {beside} {peer_folder.MIRROR}"])
        self.assertEqual(os.listdir(f"{self.room}/suites"), ["sid"])
        self.assertTrue(os.access(f"{self.room}/suites/sid/{peer_folder.POLICY}", os.X_OK))
        self.tried("sid")
        calls = self.calls()
        self.assertFalse([it for it in calls if "debootstrap" in it], calls)
        self.assertTrue([it for it in calls if it.endswith(" update")] and [it for it in calls if " install sqlite3 libsqlite3-dev" in it], calls)

    def test_one_that_was_interrupted_is_made_anew(self):
        write(f"{self.room}/suites/trixie.new/left", "")
        self.assertEqual(self.tried("trixie")[1], ["SQLite"])
        self.assertFalse(os.path.exists(f"{self.room}/suites/trixie/left"))

    def test_one_that_can_not_be_made_is_skipped_in_a_line(self):
        write(f"{self.room}/broken", "")
        counts, good = self.tried("sid")
        self.assertEqual((counts.passed, counts.failures, good), (0, [], []))
        (only,) = counts.skipped
        self.assertEqual(only.name, "sid SQLite")
        self.assertRegex(only.reason, r"\Asid: E: no network peer_folder.py: debootstrap ended with status 1; \S+ can be removed\Z")
        self.assertFalse(os.path.exists(f"{self.room}/suites/sid"))
        os.remove(f"{self.room}/broken")
        self.assertEqual(self.tried("sid")[1], ["SQLite"])

    def test_a_tool_that_is_missing_is_named_in_a_line(self):
        os.remove(f"{self.room}/bin/debootstrap")
        with mock.patch.object(peer_folder.shutil, "which", lambda tool, **_: None if tool == "debootstrap" else tool):
            counts, _ = self.tried("sid")
        self.assertEqual([it.reason for it in counts.skipped], ["sid: debootstrap is missing: apt-get install debootstrap"])

    def test_folders_for_packages_have_nothing_but_what_they_need(self):
        counts = parts.Counts()
        with mock.patch.object(today, "tried_here", lambda _: parts.Report(1)):
            for suite in today.DEBIANS:
                today.try_packages(counts, suite)
        self.assertEqual((counts.passed, counts.failures, counts.skipped), (len(today.DEBIANS), [], []))
        self.assertEqual(sorted(os.listdir(f"{self.room}/suites")), sorted([*today.DEBIANS, *(f"bare-{it}" for it in today.DEBIANS)]))
        first = [it.partition(" install ")[2] for it in self.calls() if " install " in it]
        self.assertEqual(first[0], "python3 python3-venv")
        self.assertEqual(sum("libgeos-dev" in it for it in first), len(peer_folder.SUITES))

    def test_what_is_tried_of_the_words(self):
        asked = []
        with mock.patch.object(today.library, "are_made", lambda: True):
            with mock.patch.object(today, "try_suite", lambda _, suite, rims: asked.append((suite, len(rims))) or today.Found({}, [])):
                with mock.patch.object(today, "try_packages", lambda _, suite: asked.append((suite, "packages"))):
                    for words, wanted in (
                        ([], [*((it, len(today.RIMS)) for it in peer_folder.SUITES), *((it, "packages") for it in today.DEBIANS)]),
                        (["sid"], [("sid", len(today.RIMS)), ("sid", "packages")]),
                        (["Node", "trixie", "SQLite"], [("trixie", 2)]),
                        (["packages"], [(it, "packages") for it in today.DEBIANS]),
                        (["packages", "bookworm", "C"], [("bookworm", "packages")]),
                        (["bookworm"], [("bookworm", "packages")]),
                    ):
                        self.assertEqual(today.main(words), 0)
                        self.assertEqual(asked, wanted, words)
                        asked.clear()


class Table(unittest.TestCase):
    """The table of versions in docs/LIBRARY.md."""

    def test_versions_without_what_debian_adds(self):
        for given, numbers, wanted in (("4:12.2.0-3", 1, "12"), ("3.40.1-2+deb12u1", 2, "3.40"), ("15+248+deb12u1", 1, "15"), ("20.20.2-1nodesource1", 1, "20")):
            self.assertEqual(today.shortened(given, numbers), wanted)

    def test_lowest_and_highest_are_of_suites_that_passed(self):
        rim = next(it for it in today.RIMS if it.name == "PostgreSQL")
        versions = [{"PostgreSQL": "9", "PostGIS": "3.10"}, {"PostgreSQL": "15"}, {"PostgreSQL": "18", "PostGIS": "3.7"}]
        wanted = "| PostgreSQL | PostgreSQL 9, PostGIS 3.7 | PostgreSQL 18, PostGIS 3.10 | `./test test_postgresql` |\n"
        self.assertEqual(today.row(rim, versions), wanted)

    def test_rows_of_what_was_tried_are_written_and_no_others(self):
        text = f"before\n\n{today.HEAD}| SQLite | a | b | c |\n| Python | a | b | c |\n| Node | a | b | c |\n\n| SQLite | behind |\n"
        found = [today.Found({"Python": "3.99", "SQLite": "4.0"}, ["SQLite"])]
        rims = [it for it in today.RIMS if it.name in ("SQLite", "Python")]
        text = today.with_rows(text, found, {"Python": "3.11", "SQLite": "3.40"}, rims)
        self.assertTrue(text.startswith(f"before\n\n{today.HEAD}| SQLite | SQLite 3.40 | SQLite 4.0 | `./test test_sqlite "))
        self.assertIn("\n| Python | a | b | c |\n", text)
        self.assertTrue(text.endswith("\n| Node | a | b | c |\n\n| SQLite | behind |\n"), text)

    def test_the_document_has_a_row_of_each_with_files_that_are_there(self):
        rows = [[it.strip() for it in line.split("|")[1:-1]] for line in today.cut(read(today.DOCUMENT))[1]]
        self.assertEqual([(it[0], it[3]) for it in rows], [(it.name, f"`./test {' '.join(it.files)}`") for it in today.RIMS])
        for rim, (_, lowest, highest, _) in zip(today.RIMS, rows, strict=True):
            for it in rim.shown:
                low, high = (re.search(rf"\b{it.name} ([\d.]+)", text) for text in (lowest, highest))
                self.assertLessEqual(version.numbers(low[1]), version.numbers(high[1]), it.name)
            for file in rim.files:
                self.assertTrue(os.path.isfile(f"{ROOT}/tests/{file}.py"), file)
                self.assertIn(f"class {(rim.short or file + '.').split('.')[1]}", read(f"{ROOT}/tests/{(rim.short or file).split('.')[0]}.py"))
            if rim.short:
                self.assertIn(f"    def {rim.short.split('.')[2]}(self", read(f"{ROOT}/tests/{rim.short.split('.')[0]}.py"))

    def test_nothing_is_written_where_a_test_failed_or_none_passed(self):
        text = f"before\n\n{today.HEAD}| SQLite | a | b | c |\n"
        rims = [it for it in today.RIMS if it.name == "SQLite"]
        with tempfile.TemporaryDirectory(prefix="sfq-test-") as room, mock.patch.object(today, "DOCUMENT", f"{room}/LIBRARY.md"):
            for good, failures, is_new in (([], [], False), (["SQLite"], [parts.Failure("a", "b", "c")], False), (["SQLite"], [], True)):
                write(f"{room}/LIBRARY.md", text)
                counts, printed = parts.Counts(), io.StringIO()
                counts.failures += failures
                with contextlib.redirect_stdout(printed):
                    today.write_table([today.Found({"SQLite": "9.9"}, good)], rims, counts)
                self.assertEqual(read(f"{room}/LIBRARY.md") != text, is_new)
                self.assertIn("has new rows of SQLite" if is_new else "is as it was: ", printed.getvalue())


if __name__ == "__main__":
    unittest.main()
