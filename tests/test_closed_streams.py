"""Standard streams that are closed or full: what is written goes to its own stream or nowhere, and the status says what was lost."""
import os
import sys
import unittest
from unittest import mock

from made_libraries import over_library
from support import ROOT, python_command, write

import surroundings
from sfq.commands import caches, endings, places, prompt
from surroundings import COMMANDS, words_of

FAILED = "write failed"
# Those that write their answer on standard output.
ANSWER = ("sfq-schema", "sfq-ask", "sfq-shell", "sfq-audit")


@over_library
class Streams(surroundings.Room):
    """Each command, with each set of streams closed."""

    def words(self, name):
        return words_of(name, self.room, f"{self.place}/out" if name == "sfq-import" else "")

    def test_closed(self):
        for name in COMMANDS:
            if name == "sfq-import":
                words_of_whole = words_of(name, self.room, f"{self.place}/whole")
            else:
                words_of_whole = self.words(name)
            whole = self.run_words(words_of_whole)
            for shut in ("0", "1", "2", "02", "12", "012"):
                words = words_of(name, self.room, f"{self.place}/out{shut}") if name == "sfq-import" else self.words(name)
                status, out, err = self.run_words(words, shut)
                is_lost = "1" in shut and name in (*ANSWER, "sfq-export")
                with self.subTest(name=name, shut=shut):
                    self.assertEqual((status, out), (6 if is_lost else whole[0], "" if "1" in shut else whole[1]), err)
                    if "2" in shut:
                        self.assertEqual(err, "")
                    elif name == "sfq-export" and is_lost:
                        self.assertEqual(err, "sfq-export: /dev/stdout: Bad file descriptor\n")
                    elif is_lost:
                        self.assertEqual(err, f"{name}: {FAILED}\n")
                    else:
                        self.assertEqual(err.replace(f"out{shut}", "whole"), whole[2])

    def test_messages_are_in_no_answer(self):
        """A file that is left out has a line on standard error, and that is nowhere else."""
        write(f"{self.room}/plain/not a name.csv", "a\n1\n")
        whole = self.run_words(self.words("sfq-schema"))
        self.assertEqual((whole[0], "is left out" in whole[2], "is left out" in whole[1]), (4, True, False))
        self.assertEqual(self.run_words(self.words("sfq-schema"), "2"), (4, whole[1], ""))

    def test_a_full_device(self):
        with open("/dev/full", "wb") as full:
            for name in COMMANDS:
                with self.subTest(name=name):
                    whole = self.run_words(words_of(name, self.room, f"{self.place}/whole") if name == "sfq-import" else self.words(name))
                    self.assertEqual(self.run_words(self.words(name), stderr=full), (whole[0], whole[1], ""))
                    if name in ANSWER:
                        self.assertEqual(self.run_words(self.words(name), stdout=full), (6, "", f"{name}: {FAILED}\n"))

    def test_help_and_misuse(self):
        for name in (*COMMANDS, "./sfq", "./build", "./test"):
            words = python_command(sys.executable, name) if name in COMMANDS else [f"{ROOT}/{name}"]
            # Not the Python of a launcher that fails itself.
            environment = self.environment(PATH=f"{os.path.dirname(sys.executable)}:{os.environ['PATH']}", SFQ_QUIET="1")
            with self.subTest(name=name), open("/dev/full", "wb") as full, mock.patch.object(self, "environment", lambda: environment):
                whole = self.run_words([*words, "--help"])
                self.assertEqual((whole[0], whole[2]), (0, ""))
                for how in ({"stdout": full}, {"shut": "1"}):
                    self.assertEqual(self.run_words([*words, "--help"], **how), (6, "", f"{name.replace('./', '') if name in COMMANDS else 'sfq'}: {FAILED}\n"))
                self.assertEqual(self.run_words([*words, "--help"], "2"), whole)
                misused = self.run_words([*words, "--nothing"], "2")
                self.assertEqual(misused, (2, "", ""))
                self.assertEqual(self.run_words([*words, "--nothing"], stderr=full), (2, "", ""))

    def test_standard_input_that_is_closed(self):
        for name, words in (
            ("sfq-export", ["-", "--like", f"{self.room}/tables", "--to", f"{self.place}/o.json"]), ("sfq-ask", [f"{self.room}/tables", "@-"]),
            ("sfq-shell", [f"{self.room}/tables/schema.sql", f"{self.room}/tables"]),
            ("sfq-audit", ["write", "-", "--format", "csv", "--sfq", f"{self.room}/sfq"]),
        ):
            with self.subTest(name=name):
                self.assertEqual(self.run_words([*surroundings.command(sys.executable, self.room, name), *words], "0")[0::2], (6, f"{name}: standard input: Bad file descriptor\n"))
        self.assertEqual(os.listdir(self.place), [])

    def test_one_line_for_each_message(self):
        """A name may have a line end, what a terminal obeys, and bytes that aren't UTF-8."""
        for name, shown in (("a\nb", "a\\nb"), (b"\xff\x1b[1m", "\\xff\\x1b[1m")):
            words = [*python_command(sys.executable, "sfq-schema"), name]
            self.assertEqual(self.run_words(words), (6, "", f"sfq-schema: {shown}: No such file or directory\n"))
            words = [*python_command(sys.executable, "sfq-scale"), "run", "a", "b", "c", "--scheduler", "d", "--sfq", name]
            self.assertEqual(self.run_words(words), (2, "", f"sfq-scale: there is no program {shown}\n"))


class Homes(unittest.TestCase):
    """Where a command keeps files of its own: below the user's home folder or nowhere."""

    def test_a_user_without_a_home_folder(self):
        for known in ({}, {"HOME": ""}, {"HOME": "here"}, {"XDG_CACHE_HOME": "here", "XDG_STATE_HOME": "here"}):
            with mock.patch.dict(os.environ, known, clear=True), mock.patch.object(os.path, "expanduser", lambda it: it):
                with self.assertRaisesRegex(OSError, "there is no home folder: set HOME or XDG_CACHE_HOME"):
                    caches.root()
                self.assertIsNone(prompt.history_file())
        with mock.patch.dict(os.environ, {"HOME": "/home/a"}, clear=True):
            self.assertEqual((caches.root(), prompt.history_file()), ("/home/a/.cache/sfq/tables", "/home/a/.local/state/sfq/shell-history"))
            self.assertEqual(places.of_user("XDG_CACHE_HOME", ".cache"), "/home/a/.cache")

    def test_outcomes_without_a_path(self):
        self.assertEqual(endings.outcome(OSError(28, "No space left on device")), ("No space left on device", 6))


@over_library
@unittest.skipUnless(os.geteuid() == 0, "needs a user who may become another")
class Nobody(surroundings.Room):
    """A user without an entry and without HOME."""

    @unittest.skipUnless(surroundings.GDAL, "needs the package python3-gdal")
    def test_no_folder_is_made_where_the_user_is(self):
        os.chmod(self.room, 0o777)
        words = [*surroundings.command(surroundings.GDAL, self.room, "sfq-ask"), f"{self.room}/source.geojson", "SELECT fid FROM source"]
        before = sorted(os.listdir(self.room))
        environment = self.environment(HOME=None, XDG_CACHE_HOME=None)
        status, _, err = self.run_words(words, env=environment, preexec_fn=lambda: os.setuid(54_321))
        self.assertIn("sfq-ask: the tables aren't kept: there is no home folder: set HOME or XDG_CACHE_HOME\n", err)
        self.assertEqual((status, sorted(os.listdir(self.room)), os.listdir(self.temporary)), (0, before, []), err)


if __name__ == "__main__":
    unittest.main()
