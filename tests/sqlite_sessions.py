"""The extension of SQLite, made for a test, and the command sqlite3 with it."""
import subprocess
import tempfile
import unittest
from typing import Any, Iterable, Optional

from support import ROOT, needs

import bindings
import c_programs
import engine_rows


@needs("sqlite3", "sqlite3")
@unittest.skipUnless(bindings.has_sqlite(), "needs the package libsqlite3-dev")
class WithExtension(engine_rows.WithLibrary):
    """A test case of the command sqlite3 with the extension."""

    room: "tempfile.TemporaryDirectory[str]"

    @classmethod
    def setUpClass(cls) -> None:
        super().setUpClass()
        cls.room = tempfile.TemporaryDirectory(prefix="sfq-sqlite-")
        bindings.make_sqlite(f"{cls.room.name}/sfq0.so")

    @classmethod
    def tearDownClass(cls) -> None:
        cls.room.cleanup()

    def asked(self, text: str, database: str = ":memory:", folder: Optional[str] = None) -> tuple[str, str, int]:
        """Runs SQL with the extension loaded, and returns what sqlite3 prints, its faults, and its status."""
        words = ["sqlite3", "-batch", "-bail", "-csv", database]
        ran = subprocess.run(words, input=f".load {self.room.name}/sfq0\n{text}\n", capture_output=True, text=True, cwd=folder)
        return ran.stdout, ran.stderr, ran.returncode

    def rows(self, text: str, **where: Any) -> str:
        """Returns what sqlite3 prints, in which nothing fails."""
        out, err, status = self.asked(text, **where)
        self.assertEqual((err, status), ("", 0), text)
        return out

    def fault(self, text: str, **where: Any) -> str:
        """Returns the text of an error behind `sfq: `."""
        out, err, status = self.asked(text, **where)
        self.assertNotEqual(status, 0, f"{text}\n{out}")
        return err.strip().partition("sfq: ")[2]

    def check_shown(self, text: Iterable[tuple[str, str]]) -> None:
        """Compares what the examples of a part of a document print with what it shows."""
        for source, output in text:
            given = source.replace(".load sfq0", f".load {self.room.name}/sfq0")
            ran = subprocess.run(["sqlite3", "-batch", ":memory:"], input=given, capture_output=True, text=True, cwd=ROOT)
            self.assertEqual((ran.stdout, ran.stderr), (output, ""), source)

    def program(self, name: str) -> str:
        """Compiles a program of tests/sqlite, and returns its path."""
        to = f"{self.room.name}/{name}"
        words = ["cc", "-std=gnu99", *c_programs.STRICT, "-g", "-pthread", f"{ROOT}/tests/sqlite/{name}.c"]
        subprocess.run([*words, "-lsqlite3", "-o", to], check=True)
        return to
