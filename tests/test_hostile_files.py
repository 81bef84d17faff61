"""Files that change while they are read, and what else may be where the schema or a table is looked for."""
import os
import resource
import shutil
import signal
import socket
import subprocess
import tempfile
import threading
import time
import unittest

from support import needs, needs_build

from faults import sweeps

# What `check` writes.
WELL = (b"place 300\narea 60\nshore 2\n", b"", 0)
SCHEMA_FAULT = (b"", b"sfq: schema unreadable\n", 6)
NOBODY = 65534
ROWS = "SELECT id, name FROM place WHERE id > 250 OR id < 50"
MORE_PLACES = "1000,more,POINT(7 7)\n1001,and more,POINT(8 8)\n"


def table_fault(line):
    return b"", f"sfq: {line}\n".encode(), 6


class WithTables(unittest.TestCase):
    """A test case with a copy of the schema and the tables of its own."""

    ASKS_PROGRAM = True

    def setUp(self):
        self.folder = tempfile.mkdtemp(dir=sweeps.room())
        os.chmod(self.folder, 0o755)
        self.addCleanup(shutil.rmtree, self.folder)
        shutil.copytree(sweeps.tables(), self.folder, dirs_exist_ok=True)
        self.place = f"{self.folder}/good/place.csv"
        self.area = f"{self.folder}/good/area.csv"
        self.schema = f"{self.folder}/schema.sql"

    def ask(self, words=("check", "schema.sql", "good"), **how):
        """Returns what a command writes over these files, and its status."""
        how = {"cwd": self.folder, "timeout": sweeps.PATIENCE, "input": b"", **how}
        ran = subprocess.run([sweeps.program(), *words], capture_output=True, **how)
        return ran.stdout, ran.stderr, ran.returncode

    def write(self, path, text):
        with open(path, "wb") as file:
            file.write(text)

    def replace(self, path, make):
        """Replaces a file by something else for one call of `check`, and returns what that writes."""
        with tempfile.TemporaryDirectory(dir=self.folder) as aside:
            os.rename(path, f"{aside}/file")
            make(path)
            try:
                return self.ask()
            finally:
                if os.path.isdir(path) and not os.path.islink(path):
                    os.rmdir(path)
                elif os.path.lexists(path):
                    os.remove(path)
                os.rename(f"{aside}/file", path)


class FilesThatChange(WithTables):
    """The library changes the table `place` just before a read, each read in turn."""

    def changed(self, command):
        """Runs a query once for each of its reads, before which the command is run.

        Returns the runs, each with whether it had the table open then, and how far it had read it.
        """
        whole, found = sweeps.read(self.place), []
        count = sweeps.run(sweeps.query(ROWS), folder=self.folder).counts["read"]
        for at in range(1, count + 1):
            ran = sweeps.run(sweeps.query(ROWS), sweeps.Fault("read", "run", at, command=command), self.folder)
            self.assertEqual(ran.acted, 1)
            self.write(self.place, whole)
            is_open, is_read = not ran.path.endswith("schema.sql"), ran.path.endswith(("area.csv", "shore.csv"))
            found.append((ran, is_open, len(whole) if is_read else ran.offset if is_open else 0))
        self.assertGreater(count, 6)
        return found

    def over(self, text):
        """Returns what the query writes where the table has this text."""
        whole = sweeps.read(self.place)
        self.write(self.place, text)
        said = self.ask(sweeps.query(ROWS))
        self.write(self.place, whole)
        return said

    @needs_build
    @needs("gcc", "cc")
    def test_a_table_that_shrinks(self):
        # What is read is what is left: the answer is that of a table which was as short from the start.
        whole = sweeps.read(self.place)
        for size in (0, 5, 3000, 8192, len(whole) - 4):
            for ran, _, offset in self.changed(f"truncate -s {size} good/place.csv"):
                with self.subTest(size=size, offset=offset):
                    self.assertEqual(ran.said(), self.over(whole[: max(size, offset)]))

    @needs_build
    @needs("gcc", "cc")
    def test_a_table_that_grows(self):
        whole = sweeps.read(self.place)
        for ran, _, offset in self.changed(f"printf '{MORE_PLACES}' >>good/place.csv"):
            is_met = not ran.path.endswith(("area.csv", "shore.csv"))
            with self.subTest(offset=offset):
                self.assertEqual(ran.said(), self.over(whole + MORE_PLACES.encode() if is_met else whole))

    @needs_build
    @needs("gcc", "cc")
    def test_a_table_that_is_removed_or_replaced(self):
        # What is open is read to its end.
        text = b"id,name,geom\n7,seven,POINT(7 7)\n"
        self.write(f"{self.folder}/other", text)
        whole, other = self.over(sweeps.read(self.place)), self.over(text)
        for command, said in (
            ("rm good/place.csv", table_fault("place unreadable")),
            ("cp other new && mv new good/place.csv", other),
        ):
            for ran, is_open, _ in self.changed(command):
                with self.subTest(command=command, path=ran.path):
                    self.assertEqual(ran.said(), whole if is_open else said)


    @needs_build
    @needs("gcc", "cc")
    def test_a_schema_that_changes(self):
        whole, words = sweeps.read(self.schema), ("check", "schema.sql", "good")
        changes = ("truncate -s 0", 0, b""), ("truncate -s 99", 99, b""), ("echo , >>", len(whole), b",\n")
        for command, size, more in changes:
            for at in (1, 2):
                fault = sweeps.Fault("read", "run", at, command=f"{command} schema.sql")
                ran = sweeps.run(words, fault, self.folder)
                self.assertTrue(ran.path.endswith("schema.sql"))
                self.write(self.schema, whole[: max(size, ran.offset)] + more)
                with self.subTest(command=command, at=at):
                    self.assertEqual(ran.said(), self.ask())
                self.write(self.schema, whole)


class NoPlainFiles(WithTables):
    @needs_build
    def test_folders(self):
        self.assertEqual(self.replace(self.schema, os.mkdir), SCHEMA_FAULT)
        self.assertEqual(self.replace(self.place, os.mkdir), table_fault("place L11"))
        self.assertEqual(self.replace(self.area, os.mkdir), table_fault("area L11"))
        self.assertEqual(self.ask(("check", "schema.sql", "schema.sql")), table_fault("place unreadable"))
        self.assertEqual(self.ask(("check", "schema.sql", "none")), table_fault("place unreadable"))

    @needs_build
    def test_sockets(self):
        def make(path):
            with socket.socket(socket.AF_UNIX) as made:
                made.bind(path)

        self.assertEqual(self.replace(self.schema, make), SCHEMA_FAULT)
        self.assertEqual(self.replace(self.area, make), table_fault("area unreadable"))

    @needs_build
    def test_links(self):
        for target in ("place.csv", "schema.sql", "nowhere"):
            with self.subTest(target=target):
                circle = lambda path: os.symlink(target, path)
                self.assertEqual(self.replace(self.schema, circle), SCHEMA_FAULT)
                self.assertEqual(self.replace(self.place, circle), table_fault("place unreadable"))
        os.symlink("place.csv", f"{self.folder}/good/link.csv")
        os.rename(self.place, f"{self.folder}/good/real.csv")
        os.symlink("real.csv", self.place)
        self.assertEqual(self.ask(), WELL)

    @needs_build
    def test_devices(self):
        # An empty schema is a schema, and an empty table lacks its columns. A read of a process's memory at 0 fails.
        link = lambda target: lambda path: os.symlink(target, path)
        self.assertEqual(self.replace(self.schema, link("/dev/null")), (b"", b"", 0))
        self.assertEqual(self.replace(self.place, link("/dev/null")), (b"", b"sfq: place L1\n", 4))
        self.assertEqual(self.replace(self.schema, link("/proc/self/mem")), SCHEMA_FAULT)
        self.assertEqual(self.replace(self.place, link("/proc/self/mem")), table_fault("place L11"))

    @needs_build
    def test_names(self):
        long, deep = "n" * 300, "d/" * 3000
        for name in ("none", "no\nne", "", long, deep, "schema.sql/", "\n", "a\tb", "-", "*", "%s", "schema.sql\n"):
            with self.subTest(name=name[:20]):
                self.assertEqual(self.ask(("check", name, "good")), SCHEMA_FAULT)
                self.assertEqual(self.ask(("check", "schema.sql", name)), table_fault("place unreadable"))
        for name in ("new\nline", "a b", "c'd\"e", "\u00fc", "n" * 250, "-x", "*"):
            os.mkdir(f"{self.folder}/{name}")
            shutil.copy(self.schema, f"{self.folder}/{name}/{name[:200]}.sql")
            for table in ("place", "area", "shore"):
                shutil.copy(f"{self.folder}/good/{table}.csv", f"{self.folder}/{name}")
            with self.subTest(name=name[:20]):
                words = ("check", "--", f"{name}/{name[:200]}.sql", name)
                self.assertEqual(self.ask(words), WELL)

    @needs_build
    def test_too_few_open_files(self):
        # Three streams are open. The schema is closed before the tables are opened, which are open at the same time.
        said = table_fault("area unreadable"), table_fault("shore unreadable"), WELL
        for number, wanted in enumerate(said, 4):
            limit = lambda: resource.setrlimit(resource.RLIMIT_NOFILE, (number, number))
            with self.subTest(number=number):
                self.assertEqual(self.ask(preexec_fn=limit), wanted)

    @needs_build
    def test_withdrawn_permissions(self):
        other = {"user": NOBODY, "group": NOBODY, "extra_groups": []} if os.getuid() == 0 else {}
        for path, mode, said in (
            (self.schema, 0o644, WELL),
            (self.schema, 0, SCHEMA_FAULT),
            (self.place, 0, table_fault("place unreadable")),
            (self.area, 0, table_fault("area unreadable")),
            (self.area, 0o111, table_fault("area unreadable")),
            (f"{self.folder}/good", 0o444, table_fault("place unreadable")),
            (f"{self.folder}/good", 0o111, WELL),
        ):
            before = os.stat(path).st_mode
            os.chmod(path, mode)
            with self.subTest(path=path, mode=oct(mode)):
                self.assertEqual(self.ask(**other), said)
            os.chmod(path, before)


class Pipes(WithTables):
    """Named pipes in place of files."""

    def feed(self, path, text, pause=0):
        """Writes the text into the pipe, piece by piece, as soon as somebody opens it."""

        def work():
            with open(path, "wb", buffering=0) as pipe:
                for at in range(0, len(text), 700):
                    pipe.write(text[at : at + 700])
                    time.sleep(pause)

        thread = threading.Thread(target=work, daemon=True)
        thread.start()
        self.addCleanup(thread.join, sweeps.PATIENCE)

    @needs_build
    def test_pipes_that_end(self):
        for path in (self.schema, self.place, self.area):
            text = sweeps.read(path)
            os.remove(path)
            os.mkfifo(path)
            self.feed(path, text, 0.001)
        self.assertEqual(self.ask(), WELL)

    @needs_build
    def test_a_pipe_that_is_cut(self):
        text = sweeps.read(self.place)
        for size in (0, 5, 3000, len(text) - 4):
            self.write(self.place, text[:size])
            said = self.ask()
            os.remove(self.place)
            os.mkfifo(self.place)
            self.feed(self.place, text[:size])
            with self.subTest(size=size):
                self.assertEqual(self.ask(), said)
            os.remove(self.place)

    @needs_build
    def test_standard_input_by_its_name(self):
        for path in (self.schema, self.place):
            text = sweeps.read(path)
            os.remove(path)
            os.symlink("/dev/stdin", path)
            with self.subTest(path=path):
                self.assertEqual(self.ask(input=text), WELL)
            os.remove(path)
            self.write(path, text)

    @needs_build
    def test_a_pipe_without_writer_is_waited_for(self):
        # As any program it waits for the writer. A signal ends that.
        text = sweeps.read(self.place)
        os.remove(self.place)
        os.mkfifo(self.place)
        words = [sweeps.program(), "check", "schema.sql", "good"]
        how = {"cwd": self.folder, "stdin": subprocess.DEVNULL, "stdout": subprocess.PIPE, "stderr": subprocess.PIPE}
        with subprocess.Popen(words, **how) as child:
            time.sleep(0.3)
            self.assertIsNone(child.poll())
            child.send_signal(signal.SIGTERM)
            self.assertEqual((child.communicate(), child.returncode), ((b"", b""), -signal.SIGTERM))
        with subprocess.Popen(words, **how) as child:
            time.sleep(0.3)
            self.assertIsNone(child.poll())
            self.feed(self.place, text)
            out, err = child.communicate(timeout=sweeps.PATIENCE)
            self.assertEqual((out, err, child.returncode), WELL)


if __name__ == "__main__":
    unittest.main()
