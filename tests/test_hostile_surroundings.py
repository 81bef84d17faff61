"""Every command in surroundings that a user may have by mistake: each ends with a status of its page, says why in a line, and leaves no half file."""
import contextlib
import os
import re
import shutil
import signal
import subprocess
import sys
import time
import unittest

from made_libraries import over_library
from support import ROOT, python_command, write

import scale_programs
import surroundings
from surroundings import COMMANDS, PYTHON, QUERY, ROWS, WRITE, contents, words_of

# The statuses that the manual pages list: of sfq, of the cluster, and of signals.
STATUSES = {0, 1, 2, 3, 4, 5, 6, 7, 8, 129, 130, 143}
# What is said where nobody answers for a cluster, or Dask isn't there, or the stand-in's answers can't be split.
OF_SCALE = {5, 8}
# The signs of a mistake that nobody thought of.
MISTAKE = re.compile(r"Traceback|Exception ignored|^\w*Error\b", re.M)
SIGNALS = {signal.SIGINT: 130, signal.SIGTERM: 143, signal.SIGHUP: 129}
# Parts of the names of files and folders: a line end, what isn't UTF-8, what a shell or a terminal obeys, what looks like an option.
PARTS = (b"a\nb", b"\xff\xfe", "\u00fc".encode(), b"'", b'"', b"a b", b"\x1b[1m", b"\\", b"--help")
PLAIN = {"LC_ALL": "C", "PYTHONCOERCECLOCALE": "0", "PYTHONUTF8": "0"}
ENVIRONMENTS = ({"HOME": None}, {"HOME": ""}, {"LC_ALL": "C"}, PLAIN, {"PYTHONIOENCODING": "ascii"})
# In a folder that is removed, runs the words behind it.
GONE = 'mkdir "$0" && cd "$0" && rmdir "$0" && exec "$@"'


class Case(surroundings.Room):
    """A test case that looks at how commands end."""

    def ended(self, words, statuses, **how):
        """Runs words, and returns what came on both streams. Fails where the status isn't one of these, or nobody thought of what went wrong."""
        status, out, err = self.run_words(words, **how)
        self.need_thought_of(status, statuses, out, err)
        return out, err

    def need_thought_of(self, status, statuses, out, err):
        self.assertIn(status, statuses, err)
        self.assertIn(status, STATUSES)
        self.assertIsNone(MISTAKE.search(err + out), err)
        if status:
            self.assertEqual(len(re.findall(r"^sfq[\w-]*: ", err, re.M)), 1, err)

    def need_whole(self, path, whole):
        """Fails where there is something at a path that isn't what the command writes, or that is left of it."""
        if os.path.lexists(path):
            self.assertEqual(contents(path), whole)
        self.need_nothing_left()

    def empty(self):
        """Removes what was written."""
        shutil.rmtree(self.place)
        os.mkdir(self.place)

    def room_named(self, part):
        """Returns a room with the same inputs, whose path has a part."""
        room = os.path.join(os.fsencode(self.room), b"n", part)
        shutil.copytree(os.fsencode(self.room), room, ignore=lambda _, names: [it for it in names if it in (b"n", b"place", b"temporary")])
        os.mkdir(os.path.join(room, b"place"))
        return os.fsdecode(room)


class Surroundings:
    """Each command in each of its surroundings."""

    parts, environments, signals, files = PARTS, ENVIRONMENTS, tuple(SIGNALS), tuple(surroundings.FILES)

    def test_without_home_and_in_another_locale(self):
        """It writes what it writes otherwise, and nothing in a folder `~`."""
        for name in COMMANDS:
            path = f"{self.place}/{WRITE.get(name, '')}"
            usual = self.run_words(words_of(name, self.room, path))[1], contents(path)
            for more in self.environments:
                self.empty()
                with self.subTest(name=name, more=more):
                    out, _ = self.ended(words_of(name, self.room, path), OF_SCALE if name == "sfq-scale" else {0}, env=self.environment(XDG_CACHE_HOME=None, **more))
                    self.assertEqual((out, contents(path)), usual)
                    self.need_nothing_left()
            self.empty()
        self.assertEqual([it for it in os.listdir(self.room) if it.startswith(("~", ".cache"))], [])

    def test_names(self):
        """Of files and folders, which are there or not."""
        for part in self.parts:
            room = self.room_named(part)
            for name in COMMANDS:
                with self.subTest(name=name, part=part):
                    words = words_of(name, room, f"{room}/place/{WRITE.get(name, '')}")
                    # A table of sfq-import can't have every name.
                    self.ended([os.fsencode(it) for it in words], {"sfq-scale": OF_SCALE, "sfq-import": {0, 1, 6}}.get(name, {0}))
                    self.assertEqual([it for it in os.listdir(f"{room}/place") if it.startswith(surroundings.NEW)], [])
                    missing = [os.fsencode(it.replace(room, f"{room}/none")) if at > 3 else os.fsencode(it) for at, it in enumerate(words)]
                    self.ended(missing, STATUSES - {0})

    def test_a_signal_while_something_is_waited_for(self):
        """A program that is asked, or a long table. What writes files is in test_output_files."""
        write(f"{self.room}/long/t.csv", "id\n" + "".join(f"{it}\n" for it in range(1_000_000)))
        for name in ("sfq-schema", "sfq-scale"):
            for number in self.signals:
                with self.subTest(name=name, signal=number):
                    child = self.reading() if name == "sfq-schema" else self.waiting(words_of(name, self.room, ""))
                    child.send_signal(number)
                    out, err = child.communicate(timeout=120)
                    self.need_thought_of(child.returncode, {SIGNALS[number]}, out.decode(), err.decode())
                    self.need_nothing_left()

    def reading(self):
        """Starts sfq-schema over the long table, and returns the process once it reads."""
        words = [*python_command(PYTHON, "sfq-schema"), f"{self.room}/long"]
        child = subprocess.Popen(words, stdin=subprocess.DEVNULL, stdout=subprocess.PIPE, stderr=subprocess.PIPE, env=self.environment())
        files = f"/proc/{child.pid}/fd"
        while child.poll() is None:
            with contextlib.suppress(OSError):
                if any(os.readlink(f"{files}/{it}") == f"{self.room}/long/t.csv" for it in os.listdir(files)):
                    break
            time.sleep(0.01)
        return child

    def test_folders_in_place_of_files(self):
        for it in self.files:
            os.remove(f"{self.room}/{it}")
            os.mkdir(f"{self.room}/{it}")
            for name in COMMANDS:
                with self.subTest(name=name, file=it):
                    self.ended(words_of(name, self.room, f"{self.place}/{WRITE.get(name, '')}"), STATUSES)
                    self.need_nothing_left()
            self.empty()
            os.rmdir(f"{self.room}/{it}")
            write(f"{self.room}/{it}", surroundings.FILES[it])


@over_library
class ShortSurroundings(Surroundings, Case):
    """Some of them together."""

    parts, environments, signals = (b"\n\xff ' \xc3\xbc\\",), ({"HOME": None, **PLAIN},), (signal.SIGINT, signal.SIGTERM)
    files = ("tables/schema.sql", "tables/t.csv", "tables/grid.json")


class LongSurroundings(Surroundings, Case):
    """Each alone."""

    IS_LONG = True


@over_library
class Places(Case):
    """Files and folders that can't be written, and a working folder that is gone."""

    def test_a_full_disk(self):
        """A small file system in memory, which is full but for some bytes."""
        if os.geteuid():
            self.skipTest("needs a user who may mount a file system")
        disk = f"{self.place}/disk"
        os.mkdir(disk)
        if subprocess.run(["mount", "-t", "tmpfs", "-o", "size=64k", "none", disk], capture_output=True).returncode:
            self.skipTest("needs a user who may mount a file system")
        self.addCleanup(subprocess.run, ["umount", "-l", disk], check=True)
        write(f"{self.room}/rows.csv", "id,geom\n" + "".join(f"{it},POINT({it} {it})\n" for it in range(5_000)))
        for name, file in WRITE.items():
            path = f"{disk}/{file}"
            for it in [None] if name == "sfq-import" else ["old\n", None]:
                with self.subTest(name=name, before=it):
                    for there in os.listdir(disk):
                        os.remove(f"{disk}/{there}")
                    if it:
                        write(path, it)
                    with open(f"{disk}/ballast", "wb") as ballast, contextlib.suppress(OSError):
                        while True:
                            os.write(ballast.fileno(), b"x" * 512)
                    _, err = self.ended(words_of(name, self.room, path), {6})
                    self.assertIn("No space left on device", err)
                    self.assertEqual(set(os.listdir(disk)), {"ballast", *([file] if it else [])})
                    if it:
                        self.assertEqual(contents(path), it)
                    os.remove(f"{disk}/ballast")

    def test_a_full_device_in_place_of_a_file(self):
        for name in WRITE:
            with self.subTest(name=name):
                words = words_of(name, self.room, "/dev/full")
                if name == "sfq-export":
                    # It writes GeoJSON alone into a file whose name says so.
                    words[words.index("--to")] = "--svg"
                _, err = self.ended(words, {2} if name == "sfq-import" else {6})
                if name != "sfq-import":
                    self.assertEqual(err, f"{name}: /dev/full: No space left on device\n")
        self.need_nothing_left()

    def test_a_folder_that_is_read_only(self):
        if os.geteuid():
            self.skipTest("needs a user who may become another")
        wholes = {name: self.text_of(name) for name in WRITE}
        os.chmod(self.place, 0o555)
        for name, file in WRITE.items():
            for path in (f"{self.place}/new-{file}", f"{self.place}/{file}"):
                if name == "sfq-import" and "new" not in path:
                    continue
                with self.subTest(name=name, path=path):
                    _, err = self.ended(words_of(name, self.room, path), {6}, preexec_fn=lambda: os.setuid(54_321))
                    self.assertIn("Permission denied", err)
                    self.need_whole(path, wholes[name])

    def test_a_working_folder_that_is_gone(self):
        for name in COMMANDS:
            for to in (f"{self.place}/{WRITE.get(name, '')}", WRITE.get(name, "")):
                with self.subTest(name=name, to=to):
                    is_whole = to.startswith("/") or name not in WRITE
                    # A child of the command has the folder as well, and Dask looks for it.
                    statuses = STATUSES - {0} if name == "sfq-scale" else {0} if is_whole else {6}
                    self.ended(["sh", "-c", GONE, f"{self.room}/gone", *words_of(name, self.room, to)], statuses)
                    self.need_nothing_left()
            self.empty()


class Misuse(Case):
    """Words that mean nothing."""

    def test_each_command(self):
        self.assertEqual(sorted(os.listdir(f"{ROOT}/bindings/python/bin")), sorted({*COMMANDS, "sfq-import"}))
        for name in COMMANDS:
            for words in ([], ["--nothing"], ["run"], [""], ["--version"]):
                status, out, err = self.run_words([*python_command(PYTHON, name), *words])
                with self.subTest(name=name, words=words):
                    self.assertIn(status, {0} if words == ["--version"] else {2, 6}, err)
                    self.assertIsNone(MISTAKE.search(err + out), err)


class Programs(Case):
    """The programs sfq and sfq-tiles, by the scripts of a checkout."""

    ASKS_PROGRAM = True

    def words(self, name, room, to=""):
        tables = [f"{room}/tables/schema.sql", f"{room}/tables"]
        more = {"sfq": ["run", *tables, QUERY], "sfq-tiles": [*tables, to or f"{room}/place/tiles", "--rows", "9", "--part", "a=t.geom"]}
        return [f"{ROOT}/{name}", *more[name]]

    def names(self):
        return ["sfq", *([] if scale_programs.lacks() else ["sfq-tiles"])]

    def environment(self, **more):
        return super().environment(SFQ_QUIET="1", **more)

    def test_without_home_and_in_another_locale(self):
        for more in ENVIRONMENTS[:3]:
            for name in self.names():
                self.empty()
                with self.subTest(name=name, more=more):
                    out, err = self.ended(self.words(name, self.room), {0}, env=self.environment(**more))
                    self.assertEqual((out if name == "sfq" else ROWS, err), (ROWS, ""))

    def test_names(self):
        for part in PARTS:
            room = self.room_named(part)
            for name in self.names():
                with self.subTest(name=name, part=part):
                    words = self.words(name, room)
                    status, out, err = self.run_words([os.fsencode(it) for it in words])
                    self.assertEqual(status, 2 if b"\xff" in part else 0, err)
                    missing = [os.fsencode(it.replace(room, f"{room}/none")) for it in words]
                    status, out, err = self.run_words(missing)
                    self.assertEqual((status, out, err.count("\n")), (2 if b"\xff" in part else 6, "", 1), err)

    def test_a_working_folder_that_is_gone(self):
        for name in self.names():
            for room, to, wanted in ((self.room, "", 0), (".", "tiles", 6)):
                with self.subTest(name=name, room=room):
                    self.ended(["sh", "-c", GONE, f"{self.room}/gone", *self.words(name, room, to)], {wanted})
                    self.empty()

    def test_folders_in_place_of_files(self):
        for it, wanted in (("tables/t.csv", {4, 6}), ("tables/schema.sql", {6})):
            os.remove(f"{self.room}/{it}")
            os.mkdir(f"{self.room}/{it}")
            for name in self.names():
                with self.subTest(name=name, file=it):
                    self.assertEqual(self.ended(self.words(name, self.room), wanted)[0], "")
                    self.assertEqual(os.listdir(self.place), [])

    def test_the_scripts_of_a_checkout(self):
        environment = self.environment(PATH=f"{os.path.dirname(sys.executable)}:{os.environ['PATH']}", HOME=None, LC_ALL="C")
        for it in ("sfq", "build", "test"):
            with self.subTest(script=it):
                self.ended(["sh", "-c", GONE, f"{self.room}/gone", f"{ROOT}/{it}", "--help"], {0}, env=environment)


if __name__ == "__main__":
    unittest.main()
