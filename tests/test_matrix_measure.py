"""bench/relate.py: the words of its peers, and what its tables are called beside older peers and newer ones."""
import contextlib
import io
import os
import pathlib
import subprocess
import tempfile
import unittest
from unittest import mock

from support import needs

import gauged
import machine
import relate

PAIR = "LINESTRING(0 0,2 2)\nPOLYGON((0 0,2 0,2 2,0 0))\n"
MATRIX = "F1FF0F212"


class Tables(unittest.TestCase):
    def setUp(self):
        versions = mock.patch.object(machine, "versions", lambda: {"GEOS": "3.15.0", "JTS": "1.20.0"})
        versions.start()
        self.addCleanup(versions.stop)

    def heads(self, names, *how):
        programs = [relate.Peer(it, [], "relate", gauged.each) for it in names]
        with contextlib.redirect_stdout(io.StringIO()):
            return relate.table_of(programs, *how).lines[0]

    def test_older_peers_have_the_columns_that_they_had(self):
        heads = "| shapes | size | sfq µs | GEOS 3.15.0 µs | ratio | JTS 1.20.0 µs | ratio | to the best | growth | sfq, GEOS 3.15.0, JTS 1.20.0 MB |"
        self.assertEqual(self.heads(["sfq", "GEOS", "JTS"], False, False), heads)

    def test_newer_peers_are_prepared(self):
        names = ["sfq", "GEOS", "GEOS prepared", "JTS prepared"]
        heads = "| sfq µs | GEOS 3.15.0 µs | ratio | GEOS 3.15.0 prepared µs | ratio | JTS 1.20.0 prepared µs | ratio | to the best | growth |"
        self.assertEqual(self.heads(names, True, False), f"| shapes, by RelateNG | size {heads}")
        self.assertEqual(self.heads(names[:3], True, True), "| instructions of a matrix, by RelateNG | size | sfq | GEOS 3.15.0 | GEOS 3.15.0 prepared | ratio |")

    def test_a_row_of_counts_has_the_ratio_to_the_best_that_was_counted(self):
        with contextlib.redirect_stdout(io.StringIO()):
            table = relate.table_of([relate.Peer(it, [], "relate", gauged.each) for it in ("sfq", "GEOS", "GEOS prepared")], True, True)
            relate.add_counts(table, "stars", 1_000, [100, None, 400])
            relate.add_counts(table, "stars", 9_000, [100, None, None])
        self.assertEqual(table.lines[2:], ["| stars | 1,000 | 100 |  | 400 | 0.25 |", "| stars | 9,000 | 100 |  |  |  |"])


class Peers(unittest.TestCase):
    """What the peers print of two geometries, prepared where their version can."""

    def setUp(self):
        room = tempfile.TemporaryDirectory(prefix="sfq-test-")
        self.addCleanup(room.cleanup)
        self.room = pathlib.Path(room.name)

    def ran(self, command, word):
        return subprocess.run([*command, word, "1"], input=PAIR, capture_output=True, text=True)

    @needs("gcc", "gcc")
    def test_geos(self):
        if not os.path.exists("/usr/include/geos_c.h"):
            self.skipTest("needs the package libgeos-dev")
        with mock.patch.object(gauged, "GAUGE", self.room):
            geos = gauged.built_peer(self.room)
        version = subprocess.run(["geos-config", "--version"], capture_output=True, text=True).stdout
        is_new = tuple(map(int, version.split(".")[:2])) >= (3, 13) if version else None
        self.assertEqual(self.ran(geos, "relate").stdout, f"{MATRIX}\n")
        prepared = self.ran(geos, "prepared")
        self.assertIn((prepared.stdout, prepared.returncode), [(f"{MATRIX}\n", 0)] * (is_new is not False) + [("", 2)] * (is_new is not True))

    @needs("default-jdk-headless", "javac")
    def test_jts(self):
        java = gauged.java_peer(self.room, gauged.JTS)
        if java is None:
            self.skipTest("needs the package libjts-java")
        # It reads this word before it measures; an older JTS has no class to prepare.
        self.assertEqual(self.ran(java, "locate").returncode, 2)


if __name__ == "__main__":
    unittest.main()
