"""tools/peer_folder.py and `--peers` of the measures: what they say where something is missing, and how a command gets into a folder."""
import contextlib
import io
import os
import subprocess
import sys
import tempfile
import unittest
from unittest import mock

from support import ROOT

import machine
import peer_folder
import peers

TOOL = f"{ROOT}/tools/peer_folder.py"


class PeerFolder(unittest.TestCase):
    def setUp(self):
        folder = tempfile.TemporaryDirectory(prefix="sfq-test-")
        self.addCleanup(folder.cleanup)
        self.room = folder.name

    def ran(self, *words):
        return subprocess.run([sys.executable, "-B", *words], capture_output=True, text=True)

    def refused(self, call):
        """Returns what a call says as it ends the program."""
        with self.assertRaises(SystemExit) as ended, contextlib.redirect_stderr(io.StringIO()):
            call()
        return str(ended.exception)

    def test_a_run_says_in_a_line_what_is_missing(self):
        with mock.patch.object(os, "geteuid", lambda: 0):
            self.assertEqual(peer_folder.lacking_to_run(self.room), f"{self.room} isn't a folder that `make` made")
            with mock.patch.object(peer_folder.shutil, "which", lambda *_, **__: None):
                self.assertEqual(peer_folder.lacking_to_run(self.room), "unshare is missing: apt-get install util-linux")
        with mock.patch.object(os, "geteuid", lambda: 1000):
            self.assertIn("needs root", peer_folder.lacking_to_run(self.room))

    def test_making_says_in_a_line_what_is_missing(self):
        with mock.patch.object(peer_folder.shutil, "which", lambda *_, **__: None):
            said = self.refused(lambda: peer_folder.make(self.room, "sid", peer_folder.MIRROR, []))
        self.assertEqual(said, "peer_folder.py: debootstrap is missing: apt-get install debootstrap")
        with mock.patch.object(peer_folder.shutil, "which", lambda *_, **__: "/bin/true"):
            with mock.patch.object(peer_folder, "KEYRING", f"{self.room}/none"):
                said = self.refused(lambda: peer_folder.make(self.room, "sid", peer_folder.MIRROR, []))
                self.assertEqual(said, f"peer_folder.py: {self.room}/none is missing: apt-get install debian-archive-keyring")
            with mock.patch.object(peer_folder, "KEYRING", __file__):
                with open(f"{self.room}/file", "w", encoding="ascii"):
                    pass
                said = self.refused(lambda: peer_folder.make(self.room, "sid", peer_folder.MIRROR, []))
                self.assertEqual(said, f"peer_folder.py: {self.room} is there already, and isn't an empty folder")

    def test_add_asks_first_which_packages_the_suite_has(self):
        """The versions that a folder of last month knows may be gone. Where there is no newer list, the known one is used."""
        for statuses in ((0, 0), (100, 0), (100, 100)):
            asked, left = [], list(statuses)
            with mock.patch.object(sys, "argv", ["peer_folder.py", "add", self.room, "gcc", "jq"]):
                with mock.patch.object(peer_folder, "lacking_to_run", lambda _: None):
                    with mock.patch.object(peer_folder, "apt_get", lambda _, *words: asked.append(words) or left.pop(0)):
                        self.assertEqual(peer_folder.main(), statuses[1])
            self.assertEqual(asked, [("update",), ("install", "gcc", "jq")])

    def test_packages_come_before_options_or_behind_them(self):
        made = []
        for words in (["make", "X", "gcc", "jq", "--suite", "trixie"], ["make", "X", "--suite", "trixie", "gcc", "jq"]):
            with mock.patch.object(sys, "argv", ["peer_folder.py", *words]), mock.patch.object(os, "geteuid", lambda: 0):
                with mock.patch.object(peer_folder, "make", lambda *them: made.append(them) or 0):
                    self.assertEqual(peer_folder.main(), 0)
        self.assertEqual(made, 2 * [("X", "trixie", peer_folder.MIRROR, [*peer_folder.PACKAGES, "gcc", "jq"])])
        self.assertEqual(peer_folder.packages_of("sid"), (*peer_folder.PACKAGES, "duckdb"))
        for words in (["make", "X", "--suit"], ["add", "X", "gcc", "--new"]):
            with mock.patch.object(sys, "argv", ["peer_folder.py", *words]):
                self.assertEqual(self.refused(peer_folder.main), "2")

    def test_a_bare_folder_gets_the_named_packages_alone(self):
        made = []
        for words in (["python3", "--bare"], ["--bare"]):
            with mock.patch.object(sys, "argv", ["peer_folder.py", "make", "X", "--suite", "bookworm", *words]), mock.patch.object(os, "geteuid", lambda: 0):
                with mock.patch.object(peer_folder, "make", lambda *them: made.append(them) or 0):
                    self.assertEqual(peer_folder.main(), 0)
        self.assertEqual(made, [("X", "bookworm", peer_folder.MIRROR, ["python3"]), ("X", "bookworm", peer_folder.MIRROR, [])])

    def test_signatures_are_checked(self):
        asked = []

        def run(words, **_):
            asked.append(words)
            return subprocess.CompletedProcess(words, 1)

        with mock.patch.object(peer_folder, "lacking_to_make", lambda: None), mock.patch.object(peer_folder.subprocess, "run", run):
            self.assertIn("debootstrap ended with status 1", self.refused(lambda: peer_folder.make(self.room, "trixie", "http://mirror", [])))
        words, = asked
        self.assertEqual(words[:3], ["unshare", "--mount", "debootstrap"])
        self.assertEqual(words[-3:], ["trixie", self.room, "http://mirror"])
        self.assertIn("--force-check-gpg", words)
        self.assertIn(f"--keyring={peer_folder.KEYRING}", words)
        self.assertFalse([it for it in words if "no-check" in it])

    def test_words(self):
        for words in (["make"], ["add", self.room], ["make", self.room, "--suite", "buster"], ["walk", self.room], []):
            ran = self.ran(TOOL, *words)
            self.assertEqual((ran.stdout, ran.returncode), ("", 2), words)

    def test_the_environment_of_a_command(self):
        with mock.patch.dict(os.environ, {"PATH": "/mine", "TMPDIR": "/mine", "KEPT": "1"}):
            found = peer_folder.environment(self.room)
        self.assertEqual((found["KEPT"], found[peer_folder.INSIDE]), ("1", os.path.realpath(self.room)))
        self.assertNotIn("TMPDIR", found)
        self.assertNotIn("mine", found["PATH"])

    def test_measures_with_peers(self):
        for words in (["--quick"], ["--write"]):
            ran = self.ran(f"{ROOT}/bench/all.py", "--peers", self.room, *words)
            self.assertEqual((ran.stdout, ran.stderr.count("\n"), ran.returncode), ("", 1, 1), words)

    def test_a_measure_in_a_folder_names_its_peers(self):
        known = {**os.environ, peer_folder.INSIDE: self.room, "SFQ_COMMIT": "of the folder"}
        words = [f"{ROOT}/bench/all.py", "--quick", "--peers", self.room, "--program", f"{ROOT}/tests/quick_stand_in.sh", "--only", "nothing"]
        ran = subprocess.run([sys.executable, "-B", *words], capture_output=True, text=True, env=known)
        self.assertEqual(ran.returncode, 0, ran.stderr)
        self.assertEqual(ran.stdout.splitlines()[0], f"Peers: {machine.peers()}")
        self.assertIn("; commit of the folder; ", ran.stdout)

    def test_versions_are_those_of_packages(self):
        said = "libgeos-dev 3.15.0-1\nlibjts-java 1.20.0+ds-2\nsqlite3 2:3.53.4-2\n"
        machine.versions.cache_clear()
        self.addCleanup(machine.versions.cache_clear)
        with mock.patch.object(machine.subprocess, "run", lambda words, **_: subprocess.CompletedProcess(words, 1, said, "")):
            self.assertEqual(machine.peers(), "GEOS 3.15.0, JTS 1.20.0, sqlite3 3.53.4")

    def test_what_sqlite3_prints(self):
        try:
            ran = subprocess.run(["sqlite3", ":memory:", ".headers on", peers.SEPARATOR, "SELECT 1 AS a, 2 AS b;"], capture_output=True, text=True)
        except OSError:
            self.skipTest("needs the package sqlite3")
        self.assertEqual(ran.stdout, "a,b\n1,2\n")


if __name__ == "__main__":
    unittest.main()
