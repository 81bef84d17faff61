"""Where the program's answer goes: full disks, closed pipes and streams, what signals leave behind, and odd words of a command."""
import ctypes
import itertools
import os
import pty
import resource
import signal
import socket
import subprocess
import tempfile
import threading
import time
import unittest
from concurrent.futures import ThreadPoolExecutor

from support import needs, needs_build

from faults import sweeps

# What writes on standard output, with a text that is longer than a pipe takes.
WRITING = ("help", "relate", "check", "rows", "long rows", "COUNT(*)", "EXPLAIN", "EXPLAIN ANALYZE")
MANY_ROWS = sweeps.query("SELECT a.id, b.name FROM place a, place b")


def start(words, **how):
    """Starts the program over the tables, as it is started from a shell."""
    usual = {"cwd": sweeps.tables(), "stdin": subprocess.DEVNULL, "stderr": subprocess.PIPE}
    return subprocess.Popen([sweeps.program(), *words], **(usual | how))


def end(child):
    """Waits for a program, and returns what it wrote on standard error, and its status."""
    _, err = child.communicate(timeout=sweeps.PATIENCE)
    return err, child.returncode


def answer(words):
    ran = subprocess.run([sweeps.program(), *words], cwd=sweeps.tables(), capture_output=True, check=True)
    return ran.stdout


class Outputs(unittest.TestCase):
    ASKS_PROGRAM = True
    FAILED = (sweeps.WRITE_FAILED, 6)

    @needs_build
    def test_a_full_disk(self):
        for words in (*(sweeps.COMMANDS[it] for it in WRITING), MANY_ROWS):
            with self.subTest(words=words), open("/dev/full", "wb") as full:
                self.assertEqual(end(start(words, stdout=full)), self.FAILED)

    @needs_build
    def test_a_pipe_that_nobody_reads(self):
        for words in (*(sweeps.COMMANDS[it] for it in WRITING), MANY_ROWS):
            ours, theirs = os.pipe()
            os.close(ours)
            with self.subTest(words=words), os.fdopen(theirs, "wb") as pipe:
                self.assertEqual(end(start(words, stdout=pipe)), self.FAILED)

    @needs_build
    def test_streams_that_cannot_be_written(self):
        ours, theirs = socket.socketpair()
        ours.close()
        terminal, its_end = pty.openpty()
        os.close(terminal)
        with open(os.devnull, "rb") as read_only, theirs:
            for stream in (read_only, theirs, its_end):
                for words in (sweeps.COMMANDS["relate"], MANY_ROWS):
                    with self.subTest(stream=stream, words=words):
                        self.assertEqual(end(start(words, stdout=stream)), self.FAILED)
        os.close(its_end)

    @needs_build
    def test_a_table_to_which_its_own_rows_are_added(self):
        # All is read before the first byte is written, so it ends.
        with tempfile.TemporaryDirectory(dir=sweeps.room()) as folder:
            rows = "".join(f"{it},{it}\n" for it in range(20_000))
            sweeps.write(f"{folder}/schema.sql", "CREATE TABLE t (id INTEGER PRIMARY KEY, n INTEGER);")
            sweeps.write(f"{folder}/t.csv", f"id,n\n{rows}")
            with open(f"{folder}/t.csv", "ab") as table:
                words = ["run", "schema.sql", ".", "SELECT id FROM t WHERE n < 10000"]
                self.assertEqual(end(start(words, cwd=folder, stdout=table)), (b"", 0))
            more = "".join(f"{it}\n" for it in range(10_000))
            self.assertEqual(sweeps.read(f"{folder}/t.csv").decode(), f"id,n\n{rows}id\n{more}")

    @needs_build
    def test_a_pipe_that_is_closed_on_the_way(self):
        with start(MANY_ROWS, stdout=subprocess.PIPE) as child:
            self.assertEqual(child.stdout.readline(), b"a.id,b.name\n")
            child.stdout.close()
            self.assertEqual((child.stderr.read(), child.wait(sweeps.PATIENCE)), self.FAILED)

    @needs_build
    def test_a_reader_that_is_slow(self):
        with start(MANY_ROWS, stdout=subprocess.PIPE) as child:
            read = []
            while part := child.stdout.read1(10_000):
                read.append(part)
                time.sleep(0.001)
            self.assertEqual((b"".join(read), child.wait(sweeps.PATIENCE)), (answer(MANY_ROWS), 0))

    @needs_build
    def test_a_full_pipe_that_does_not_wait(self):
        ours, theirs = os.pipe()
        os.set_blocking(theirs, False)
        with os.fdopen(ours, "rb") as pipe:
            ended = end(start(MANY_ROWS, stdout=theirs))
            os.close(theirs)
            self.assertEqual(ended, self.FAILED)
            self.assertTrue(sweeps.beginning_of(pipe.read(), answer(MANY_ROWS)))

    @needs_build
    def test_a_file_that_may_not_grow(self):
        def limits():
            signal.signal(signal.SIGXFSZ, signal.SIG_IGN)
            resource.setrlimit(resource.RLIMIT_FSIZE, (limit, limit))

        text = answer(MANY_ROWS)
        for limit in (0, 1, 1023, 4096, 100_000, len(text) - 1, len(text)):
            with self.subTest(limit=limit), tempfile.TemporaryFile() as file:
                ended = end(start(MANY_ROWS, stdout=file, preexec_fn=limits))
                file.seek(0)
                self.assertEqual(file.read(), text[:limit])
                self.assertEqual(ended, (b"", 0) if limit == len(text) else self.FAILED)

    @needs_build
    @needs("gcc", "cc")
    def test_closed_streams(self):
        # A file that is opened next gets the number of a closed stream, and nothing may be written to it.
        files = {it: sweeps.read(f"{sweeps.tables()}/{it}") for it in ("schema.sql", "good/place.csv", "good/area.csv")}
        for name, closed in itertools.product(sweeps.COMMANDS, ("0", "1", "2", "01", "02", "12", "012")):
            shut = "".join(f" {it}>&-" for it in closed)
            words = ["sh", "-c", f'exec "$@"{shut}', "sh", sweeps.program(), *sweeps.COMMANDS[name]]
            ran = subprocess.run(words, cwd=sweeps.tables(), stdin=subprocess.DEVNULL, capture_output=True)
            well = sweeps.whole(name)
            is_lost = "1" in closed and well.status == 0
            # What --why adds comes after the answer, and so not where that is lost.
            err = sweeps.WRITE_FAILED if is_lost else well.err
            with self.subTest(name=name, closed=closed):
                self.assertEqual(ran.returncode, 6 if is_lost else well.status)
                self.assertEqual(ran.stdout, b"" if "1" in closed else well.out)
                self.assertEqual(ran.stderr, b"" if "2" in closed else err)
        for it, text in files.items():
            self.assertEqual(sweeps.read(f"{sweeps.tables()}/{it}"), text)

    @needs_build
    @needs("gcc", "cc")
    def test_a_fault_line_that_is_lost(self):
        for name in ("misuse", "relate refused", "check refused", "rows refused"):
            with self.subTest(name=name), open("/dev/full", "wb") as full:
                child = start(sweeps.COMMANDS[name], stdout=subprocess.PIPE, stderr=full)
                self.assertEqual(child.communicate()[0], b"")
                self.assertEqual(child.returncode, sweeps.whole(name).status)


class Words(unittest.TestCase):
    """Words of the command line that no shell gives."""

    ASKS_PROGRAM = True

    @needs_build
    def test_words_that_are_not_utf8(self):
        said = b"error: invalid UTF-8 was detected in one or more arguments\n"
        for words in ([b"\xff"], [b"relate", b"POINT(0 0)", b"\xc3("], [b"run", b"\xed\xa0\x80", b".", b"SELECT"]):
            with self.subTest(words=words):
                self.assertEqual(end(start(words)), (said, 2))

    @needs_build
    def test_no_words_at_all(self):
        # Not even the program's name. A new system gives an empty one.
        no_words = (ctypes.c_char_p * 1)(None)
        execute = ctypes.CDLL(None).execve
        begin = lambda: execute(sweeps.program().encode(), no_words, no_words)
        child = subprocess.Popen(["false"], stdout=subprocess.PIPE, stderr=subprocess.PIPE, preexec_fn=begin)
        out, err = child.communicate(timeout=sweeps.PATIENCE)
        self.assertEqual((out, child.returncode), (b"", 2))
        self.assertIn(b"Usage: sfq <COMMAND>", err)


class Signals(unittest.TestCase):
    """A long join that is ended by a signal."""

    ASKS_PROGRAM = True

    def long_join(self):
        """Writes a table whose join with itself takes minutes, and returns its folder and the words of the join."""
        folder = tempfile.mkdtemp(dir=sweeps.room())
        shapes = [sweeps.star(500, 9_000_000 - 1000 * it) for it in range(300)]
        rows = "".join(f'{at},"{it}"\n' for at, it in enumerate(shapes))
        sweeps.write(f"{folder}/schema.sql", "CREATE TABLE t (id INTEGER PRIMARY KEY, geom POLYGON);")
        sweeps.write(f"{folder}/t.csv", f"id,geom\n{rows}")
        return folder, ["run", "schema.sql", ".", "SELECT a.id, b.id FROM t a, t b WHERE NOT ST_Touches(a.geom, b.geom)"]

    @needs_build
    def test_a_signal_ends_it_and_nothing_is_left(self):
        folder, words = self.long_join()
        for number in (signal.SIGINT, signal.SIGTERM, signal.SIGHUP):
            with self.subTest(signal=number), tempfile.TemporaryDirectory(dir=sweeps.room()) as elsewhere:
                with open(f"{elsewhere}/out", "w+b") as out:
                    environment = {**os.environ, "TMPDIR": elsewhere}
                    child = start(words, cwd=folder, stdout=out, env=environment, start_new_session=True)
                    time.sleep(1)
                    self.assertIsNone(child.poll())
                    child.send_signal(number)
                    self.assertEqual(end(child), (b"", -number))
                self.assertEqual(sorted(os.listdir(folder)), ["schema.sql", "t.csv"])
                self.assertEqual(os.listdir(elsewhere), ["out"])
                with self.assertRaises(ProcessLookupError):
                    os.killpg(child.pid, 0)

    @needs_build
    def test_a_program_that_is_stopped_goes_on(self):
        with start(MANY_ROWS, stdout=subprocess.PIPE) as child:
            parts = [child.stdout.read(10)]
            for _ in range(20):
                child.send_signal(signal.SIGSTOP)
                time.sleep(0.01)
                child.send_signal(signal.SIGCONT)
                parts.append(child.stdout.read1(20_000))
            parts.append(child.stdout.read())
            self.assertEqual((b"".join(parts), child.wait(sweeps.PATIENCE)), (answer(MANY_ROWS), 0))


class Terminal(unittest.TestCase):
    """Standard error is a terminal, so that the program shows how far loading is once a second has passed."""

    ASKS_PROGRAM = True

    def load_slowly(self, fault=None):
        """Runs `check` over a table that comes through a pipe within some time.

        Returns its answer, its status, what the terminal shows, on how many writes the library acted, and the stream
        of the first of these.
        """
        folder = tempfile.mkdtemp(dir=sweeps.room())
        sweeps.write(f"{folder}/schema.sql", "CREATE TABLE slow (id INTEGER PRIMARY KEY);")
        sweeps.write(f"{folder}/page", "\0" * sweeps.PAGE_BYTES)
        os.mkfifo(f"{folder}/slow.csv")

        def feed():
            with open(f"{folder}/slow.csv", "wb", buffering=0) as pipe:
                for row in ["id", *range(12)]:
                    pipe.write(f"{row}\n".encode())
                    time.sleep(0.1)

        threading.Thread(target=feed, daemon=True).start()
        environment = {"LD_PRELOAD": sweeps.library(), "FAULT_PAGE": f"{folder}/page"}
        environment.update(fault.environment() if fault else {})
        ours, theirs = pty.openpty()
        how = {"cwd": folder, "env": environment, "stdout": subprocess.PIPE, "stderr": theirs}
        with start(["check", "schema.sql", "."], **how) as child:
            os.close(theirs)
            out = child.stdout.read()
            status = child.wait(sweeps.PATIENCE)
        shown = b"".join(iter(lambda: sweeps.terminal_part(ours), b""))
        os.close(ours)
        _, acted, descriptor, _, _ = sweeps.read_page(f"{folder}/page")
        return out, status, shown, acted, descriptor

    @needs_build
    @needs("gcc", "cc")
    def test_lines_of_loading_that_cannot_be_written(self):
        out, status, shown, _, _ = self.load_slowly()
        self.assertEqual((out, status), (b"slow 12\n", 0))
        self.assertIn(b"sfq: loading slow (1 of 1)", shown)
        self.assertTrue(shown.endswith(b"\x1b[K"))
        faults = [sweeps.Fault("write", "EIO", at, times) for at in range(1, 13) for times in (1, 0)]
        with ThreadPoolExecutor(len(faults)) as pool:
            for fault, (out, status, _, acted, descriptor) in zip(faults, pool.map(self.load_slowly, faults)):
                # How many lines are shown depends on time. Only the last write is the answer's.
                is_lost = acted and (fault.times == 0 or descriptor == 1)
                with self.subTest(fault=fault):
                    self.assertEqual(status, 6 if is_lost else 0)
                    self.assertIn(out, (b"", b"slow 12\n") if is_lost else (b"slow 12\n",))


if __name__ == "__main__":
    unittest.main()
