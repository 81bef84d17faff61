"""Files that commands write: they are there as a whole or not at all, whatever is in the folder and however a command ends."""
import json
import os
import signal
import stat
import subprocess
import sys
import tempfile
import unittest

from made_libraries import over_library
from support import ROOT, python_command, write

import surroundings
from sfq.commands import outputs
from surroundings import WRITE, contents, words_of

SIGNALS = {signal.SIGINT: ("interrupted", 130), signal.SIGTERM: ("terminated", 143), signal.SIGHUP: ("hung up", 129)}


class OneFile(unittest.TestCase):
    """A file that is written."""

    def setUp(self):
        room = tempfile.TemporaryDirectory()
        self.addCleanup(room.cleanup)
        self.room, self.path = room.name, f"{room.name}/out"

    def written(self, path, text="new"):
        output = outputs.Output(path)
        output.file.write(text)
        return output

    def test_its_name_is_nobody_elses(self):
        """A link by a name that could be guessed leads nowhere, and two files of one name don't share one."""
        write(f"{self.room}/other", "other")
        os.symlink("other", f"{self.path}.new")
        one, two = self.written(self.path, "one"), self.written(self.path, "two")
        self.assertNotEqual(one.new, two.new)
        for it in (one, two):
            self.assertEqual((os.path.dirname(it.new), stat.S_IMODE(os.stat(it.new).st_mode)), (self.room, 0o600))
            it.keep()
            self.assertEqual(contents(self.path), "one" if it is one else "two")
        self.assertEqual(contents(f"{self.room}/other"), "other")
        self.assertEqual(sorted(os.listdir(self.room)), ["other", "out", "out.new"])

    def test_the_old_file_is_whole_until_the_end(self):
        write(self.path, "old")
        output = self.written(self.path)
        output.file.flush()
        self.assertEqual(contents(self.path), "old")
        output.drop()
        self.assertEqual((contents(self.path), os.listdir(self.room)), ("old", ["out"]))
        self.written(self.path).keep()
        self.assertEqual((contents(self.path), os.listdir(self.room)), ("new", ["out"]))

    def test_one_that_nobody_keeps(self):
        self.written(self.path)
        self.assertEqual(os.listdir(self.room), [])

    def test_modes(self):
        before = os.umask(0o027)
        self.addCleanup(os.umask, before)
        self.written(self.path).keep()
        self.assertEqual(stat.S_IMODE(os.stat(self.path).st_mode), 0o640)
        os.chmod(self.path, 0o604)
        self.written(self.path).keep()
        self.assertEqual(stat.S_IMODE(os.stat(self.path).st_mode), 0o604)

    def test_a_link_stays_and_its_file_is_whole(self):
        write(f"{self.room}/file", "old")
        os.symlink("file", self.path)
        self.written(self.path).drop()
        self.assertEqual(contents(f"{self.room}/file"), "old")
        self.written(self.path).keep()
        self.assertEqual((os.readlink(self.path), contents(f"{self.room}/file")), ("file", "new"))

    def test_a_folder_is_refused_before_anything_is_written(self):
        for it in (self.room, f"{self.room}/new/", f"{self.room}/none/out"):
            with self.assertRaises(OSError) as raised:
                outputs.Output(it)
            self.assertEqual(raised.exception.filename, it)
        self.assertEqual(os.listdir(self.room), [])

    def test_several_take_their_places_together(self):
        both = [self.written(f"{self.room}/{it}") for it in "ab"]
        os.dup2(os.open("/dev/full", os.O_WRONLY), both[1].file.fileno())
        with self.assertRaises(OSError) as raised:
            outputs.keep(both)
        self.assertEqual(raised.exception.filename, f"{self.room}/b")
        for it in both:
            it.drop()
        self.assertEqual(os.listdir(self.room), [])

    def test_what_a_library_writes_by_name(self):
        output = outputs.Output(self.path, True)
        write(output.new, "new")
        write(f"{output.new}-journal", "more")
        self.assertEqual(os.path.basename(output.new), "out")
        output.keep()
        self.assertEqual((os.listdir(self.room), contents(self.path)), (["out"], "new"))
        with self.assertRaises(OSError):
            outputs.Output("/dev/null", True)

    def test_an_open_file_is_written_where_it_is(self):
        write(self.path, "old\n")
        script = "from sfq.commands import outputs\nit = outputs.Output('/dev/stdout')\nit.file.write('new')\nit.keep()\n"
        package = f"{ROOT}/bindings/python"
        with open(self.path, "ab") as file:
            subprocess.run([sys.executable, "-B", "-c", script], stdout=file, check=True, env={**os.environ, "PYTHONPATH": package})
        self.assertEqual((contents(self.path), os.listdir(self.room)), ("old\nnew", ["out"]))


@over_library
class Commands(surroundings.Room):
    """Each command that writes a file."""

    def test_a_signal_leaves_nothing(self):
        """While the program is asked, or of an export while its input is open."""
        for name, file in WRITE.items():
            whole, path = self.text_of(name), f"{self.place}/{file}"
            for number, (said, wanted) in SIGNALS.items():
                with self.subTest(name=name, signal=number):
                    more = [] if name != "sfq-import" else ["--replace"]
                    words = [*words_of(name, self.room, path), *more]
                    child = self.exporting(path) if name == "sfq-export" else self.waiting(words)
                    self.assertEqual(os.path.exists(path), True)
                    child.send_signal(number)
                    _, err = child.communicate(timeout=120)
                    self.assertEqual((child.returncode, err.decode().splitlines()[-1:]), (wanted, [f"{name}: {said}"]), err)
                    self.assertEqual(contents(path), whole)
                    self.need_nothing_left()

    def exporting(self, path):
        """Starts an export whose input stays open, and returns the process once it writes."""
        words = [*python_command(sys.executable, "sfq-export"), "-", "--like", f"{self.room}/tables", "--to", path]
        child = subprocess.Popen(words, stdin=subprocess.PIPE, stdout=subprocess.PIPE, stderr=subprocess.PIPE, env=self.environment())
        self.addCleanup(child.stdin.close)
        while child.poll() is None and not any(it.startswith(surroundings.NEW) for it in os.listdir(self.place)):
            pass
        return child

    def test_tables_that_sfq_ask_makes(self):
        if not surroundings.GDAL:
            self.skipTest("needs the package python3-gdal")
        words = [*surroundings.command(surroundings.GDAL, self.room, "sfq-ask"), f"{self.room}/source.geojson", "SELECT fid FROM source"]
        for number, (said, wanted) in SIGNALS.items():
            with self.subTest(signal=number):
                child = self.waiting(words)
                self.assertEqual(len(os.listdir(f"{self.room}/cache/sfq/tables")), 1)
                child.send_signal(number)
                _, err = child.communicate(timeout=120)
                self.assertEqual((child.returncode, err.decode().splitlines()[-1:]), (wanted, [f"sfq-ask: {said}"]), err)
                self.assertEqual(os.listdir(f"{self.room}/cache/sfq/tables"), [])
                self.need_nothing_left()

    def test_two_exports_into_one_file(self):
        path = f"{self.place}/out.json"
        words = [*python_command(sys.executable, "sfq-export"), "-", "--like", f"{self.room}/tables", "--to", path]
        rows = ["id,geom\n" + "".join(f"{it},POINT({at} {at})\n" for it in range(9_000)) for at in (1, 22)]
        children = [subprocess.Popen(words, stdin=subprocess.PIPE, stderr=subprocess.PIPE, env=self.environment(), text=True) for _ in rows]
        for half in (0, 1):
            for child, it in zip(children, rows):
                child.stdin.write(it[: len(it) // 2] if half == 0 else it[len(it) // 2 :])
                child.stdin.flush()
        for child in children:
            self.assertEqual((child.communicate()[1], child.returncode), ("", 0))
        found = {tuple(it["geometry"]["coordinates"]) for it in json.loads(contents(path))["features"]}
        self.assertIn(found, ({(1, 1)}, {(22, 22)}))
        self.need_nothing_left()

    def test_outputs_that_are_one_file_or_a_table(self):
        like = ["--like", f"{self.room}/tables"]
        os.symlink("a.json", f"{self.place}/link.json")
        for words, said in (
            (["--to", f"{self.place}/a.json", "--svg", f"{self.place}/a.json"], "--to and --svg name one file"),
            (["--to", f"{self.place}/a.json", "--svg", f"{self.place}/link.json"], "--to and --svg name one file"),
            (["--svg", f"{self.room}/rows.csv"], "is a file of the answer or of its tables"),
            (["--svg", f"{self.room}/tables/t.csv"], "is a file of the answer or of its tables"),
            (["--to", f"{self.room}/tables/grid.json"], "is a file of the answer or of its tables"),
        ):
            status, _, err = self.run_words([*python_command(sys.executable, "sfq-export"), f"{self.room}/rows.csv", *like, *words])
            self.assertEqual(status, 2, err)
            self.assertIn(said, err)
        self.assertEqual(os.listdir(self.place), ["link.json"])
        words = ["run", f"{self.room}/pairs.csv", "--engine", "shapely", "--output", f"{self.place}/a", "--all", f"{self.place}/a"]
        status, _, err = self.run_words([*python_command(sys.executable, "sfq-audit"), *words])
        self.assertEqual((status, err.splitlines()[-1]), (2, f"sfq-audit: error: two of --output, --tests and --all name one file, {self.place}/a"))

    def test_a_session_that_ends_by_a_fault_writes_no_file(self):
        path = f"{self.place}/out.csv"
        words = words_of("sfq-shell", self.room, path)
        write(path, "old")
        status, _, err = self.run_words([*words, "-c", ".nothing"])
        self.assertEqual((status, contents(path)), (2, "old"), err)
        status, _, err = self.run_words([*words, "-c", ".quit", "-c", ".nothing"])
        self.assertEqual((status, contents(path)), (0, surroundings.ROWS), err)
        self.need_nothing_left()


if __name__ == "__main__":
    unittest.main()
