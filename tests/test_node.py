"""The program sfq in Node: the same bytes and statuses as the native one, over all rows of scripts and all wrong inputs; its streams, limits and signals."""
import json
import os
import pty
import re
import shutil
import signal
import subprocess
import tempfile
import threading
import time
import unittest

from support import ROOT, needs_build

import browsers
import node_rows
import wrong_cases
from faults import sweeps

PROGRAM = f"{node_rows.PACKAGE}/bin/sfq"
SQUARE = b"POLYGON((0 0,4 0,4 4,0 4,0 0))"
# Every so many rows are asked of the program itself where only some are.
STRIDE = 60
# How long Node may take, in seconds.
PATIENCE = 300


def needs_package(test):
    """Skips a test where the package for JavaScript isn't made, or Node isn't there."""
    def run(self):
        if not shutil.which("node"):
            self.skipTest("needs the package nodejs")
        if not node_rows.is_made():
            self.skipTest("needs ./build --javascript")
        test(self)

    return run


class Node(unittest.TestCase):
    """Runs either program."""

    ASKS_LIBRARY = True

    def setUp(self):
        room = tempfile.TemporaryDirectory(dir=sweeps.room())
        self.addCleanup(room.cleanup)
        self.folder = room.name

    def write(self, name, text):
        path = f"{self.folder}/{name}"
        os.makedirs(os.path.dirname(path), exist_ok=True)
        with open(path, "wb") as file:
            file.write(text)

    def make(self, files):
        for name, text in files.items():
            self.write(name, text)

    def start(self, words, **how):
        usual = {"cwd": self.folder, "stdin": subprocess.DEVNULL, "stdout": subprocess.PIPE, "stderr": subprocess.PIPE}
        return subprocess.Popen([*self.program(), *words], **(usual | how))

    @staticmethod
    def program():
        return ["node", PROGRAM]

    def ask(self, *words, given=None, native=False, why=None):
        """Returns what a program writes in the folder of this test, and its status."""
        environment = {**os.environ, **({"SFQ_WHY": why} if why is not None else {})}
        program = [sweeps.program()] if native else self.program()
        how = {"input": given} if given is not None else {"stdin": subprocess.DEVNULL}
        ran = subprocess.run([*program, *words], cwd=self.folder, env=environment, capture_output=True, timeout=PATIENCE, **how)
        return ran.stdout, ran.stderr, ran.returncode

    def same(self, *words, **how):
        """Asks both programs, which have to give the same, and returns it."""
        given = self.ask(*words, **how)
        self.assertEqual(given, self.ask(*words, native=True, **how), words)
        return given


class InOneProcess(Node):
    """What the proved call gives, without a process for each."""

    @needs_package
    def test_all_rows_of_scripts(self):
        rows = node_rows.all_rows()
        self.assertGreater(len(rows), 800)
        given = node_rows.played([(it.words, it.files, False) for it in rows])
        for row, it in zip(rows, given, strict=True):
            with self.subTest(words=row.words):
                if row.words[0] == "sfq" and row.printed.startswith(b"status ") and it.status in (0, 2):
                    self.assertEqual(b"status %d\n" % it.status, row.printed)
                elif not self.is_played_otherwise(row):
                    self.assertEqual(it.printed(), row.printed)

    @staticmethod
    def is_played_otherwise(row):
        """Whether `scripts` opens a file again for an explanation that the program doesn't: standard input, or one that isn't there."""
        return "--why" in row.words and ("-" in row.files or row.printed.endswith(b"status 6\n"))

    @needs_package
    def test_all_wrong_inputs(self):
        cases = [it for it in wrong_cases.all_cases() if it.words[0] in ("run", "relate", "why", "pairs", "check")]
        self.assertGreater(len(cases), 100)
        with tempfile.TemporaryDirectory(prefix="sfq-wrong-") as room:
            words = [["sfq", *it.make(f"{room}/{at}")] for at, it in enumerate(cases)]
            switched = [[it[0], it[1], "--why", *it[2:]] for it in words]
            given = node_rows.played([(it, None, False) for it in (*words, *switched)] + [(it, None, True) for it in words])
        plain, switched, asked = (given[at : at + len(cases)] for at in (0, len(cases), 2 * len(cases)))
        for at, (case, one, more, again) in enumerate(zip(cases, plain, switched, asked, strict=True)):
            with self.subTest(case=case.name):
                self.assertEqual((one.out.decode(), one.err.decode(), one.more, one.status), (case.out, case.fault, b"", case.status))
                self.assertEqual(more, again)
                if not case.is_later and not self.names_a_folder(case) and not self.has_many_fields(case):
                    added = "".join(f"{it}\n" for it in case.added).replace("$DIR", f"{room}/{at}")
                    self.assertEqual((more.out.decode(), (more.err + more.more).decode(), more.status), (case.out, case.fault + added, case.status))


    @staticmethod
    def has_many_fields(case):
        """Whether a record has more than 100,000 fields: the program in Node reads such a table within that bound again, and explains L11 alone."""
        found = re.search(r"the record has (\d+) fields", "".join(case.added))
        return found is not None and int(found[1]) > 100_000

    @staticmethod
    def names_a_folder(case):
        """Whether sfq names the folder that should have a file. The program in Node has no such word, and names the file."""
        return any(it.endswith((" isn't there: it should be a folder", " isn't a folder")) for it in case.added)


class Processes(Node):
    """The program as it is called."""

    @needs_build
    @needs_package
    def test_rows_as_the_native_program(self):
        for row in node_rows.all_rows()[::STRIDE]:
            with self.subTest(words=row.words), tempfile.TemporaryDirectory(dir=sweeps.room()) as folder:
                self.folder = folder
                self.make({path: text for path, text in row.files.items() if path != "-"})
                self.same(*row.words[1:], given=row.files.get("-", b""))

    @needs_build
    @needs_package
    def test_help_and_mistakes(self):
        for words in ([], ["--help"], ["--version"], ["run", "--help"], ["rum"], ["relate", "POINT(1 1)"], ["help", "why"], ["fault", "V9"], ["fault", "V3"]):
            with self.subTest(words=words):
                self.same(*words)

    @needs_build
    @needs_package
    def test_standard_input(self):
        self.make({"s": b"CREATE TABLE t (id INTEGER PRIMARY KEY)", "d/t.csv": b"id\n1\n2\n", "-": SQUARE})
        for why in ("0", "1"):
            for words, given in (
                (["relate", "POINT(2 2)", "@-"], SQUARE), (["relate", "@-", "@-"], SQUARE), (["relate", "POINT(2 2)", "@./-"], b""),
                (["run", "s", "d", "@-"], b"SELECT id FROM t"), (["run", "s", "d", "@-"], b"SELECT x FROM t"), (["check", "-", "d"], b""),
                (["pairs", "-"], b'POINT(1 1),"POINT(1 1)"\n'), (["pairs", "-"], b"POINT(1 1),POINT(1\n"), (["pairs", "-"], b"a,b,c\n"), (["why", "@-"], SQUARE),
            ):
                with self.subTest(words=words, why=why):
                    self.same(*words, given=given, why=why)

    @needs_build
    @needs_package
    def test_files_that_cannot_be_read(self):
        self.make({"s": b"CREATE TABLE t (id INTEGER PRIMARY KEY); CREATE TABLE u (id INTEGER PRIMARY KEY)", "d/t.csv": b"id\n1\n", "d/u.csv/x": b"", "w": b"POINT(1 1)"})
        for words in (
            ["check", "s", "d"], ["run", "s", "d", "SELECT id FROM t"], ["run", "none", "d", "SELECT id FROM t"],
            ["run", "s", "d", "@none"], ["run", "d", "d", "SELECT id FROM t"], ["relate", "@d", "@w"], ["relate", "@w", "@none"], ["pairs", "none"], ["pairs", "d"],
            ["pairs", ""], ["check", "", ""], ["run", "s", "d", "@"],
        ):
            with self.subTest(words=words):
                self.assertEqual(self.same(*words, why="1")[2], 6)
        for words in (["run", "s", "none", "SELECT id FROM t"], ["why", "@w/x"]):
            self.assertEqual(self.same(*words)[2], 6)

    @needs_build
    @needs_package
    def test_a_named_pipe(self):
        self.make({"s": b"CREATE TABLE t (id INTEGER PRIMARY KEY)"})
        os.mkdir(f"{self.folder}/d")
        os.mkfifo(f"{self.folder}/d/t.csv")
        for native in (False, True):
            writer = threading.Thread(target=self.write, args=("d/t.csv", b"id\n1\n2\n"))
            writer.start()
            self.assertEqual(self.ask("check", "s", "d", native=native), (b"t 2\n", b"", 0))
            writer.join()

    @needs_package
    def test_an_output_that_cannot_be_written(self):
        with open("/dev/full", "wb") as full:
            for words in (["--help"], ["relate", "POINT(1 1)", "POINT(1 1)"]):
                with self.subTest(words=words), self.start(words, stdout=full) as child:
                    self.assertEqual((child.communicate(timeout=PATIENCE)[1], child.returncode), (sweeps.WRITE_FAILED, 6))
        ours, theirs = os.pipe()
        os.close(ours)
        with os.fdopen(theirs, "wb") as pipe, self.start(["relate", "POINT(1 1)", "POINT(1 1)"], stdout=pipe) as child:
            self.assertEqual((child.communicate(timeout=PATIENCE)[1], child.returncode), (sweeps.WRITE_FAILED, 6))

    @needs_package
    def test_explanations_in_colour_on_a_terminal(self):
        ours, theirs = pty.openpty()
        with self.start(["relate", "--why", "POINT(1 x)", "POINT(1 1)"], stderr=theirs) as child:
            os.close(theirs)
            said = b""
            while part := sweeps.terminal_part(ours):
                said += part
            self.assertEqual(child.wait(timeout=PATIENCE), 5)
        os.close(ours)
        first, *more = said.replace(b"\r", b"").splitlines()
        self.assertNotIn(b"\x1b", first)
        # The line of the text, that of the caret, and the sentence.
        self.assertEqual(len(more), 3, said)
        for line in more:
            self.assertRegex(line, rb"\A\x1b\[36m.*\x1b\[0m\Z")

    @needs_package
    def test_memory_that_is_short(self):
        """A module whose memory grows less answers, or says that memory ran out, and goes on."""
        modules = []
        with open(f"{node_rows.PACKAGE}/sfq_serve.wasm", "rb") as file:
            whole = file.read()
        for pages in (40, 48, 64, 96, 128, 256, 1024):
            modules.append(f"{self.folder}/{pages}.wasm")
            self.write(f"{pages}.wasm", browsers.limited(whole, pages))
        ran = subprocess.run(["node", f"{ROOT}/tests/node/memory.mjs", node_rows.PACKAGE, *modules], capture_output=True, timeout=PATIENCE, check=True)
        found = json.loads(ran.stdout)
        self.assertEqual({short for _, short in found}, {"0 10 "})
        answers = [long for long, _ in found]
        self.assertEqual(answers[-1], "0 288893 ")
        self.assertIn("out of memory", answers[0])
        self.assertEqual([it for it in answers if it not in (answers[-1], "out of memory", "7 0 sfq: out of memory\n")], [])

    @needs_package
    def test_a_file_larger_than_the_memory(self):
        self.make({"s": b"CREATE TABLE t (id INTEGER PRIMARY KEY)", "d/t.csv": b"id\n"})
        os.truncate(f"{self.folder}/d/t.csv", 1 << 31)
        self.assertEqual(self.ask("check", "s", "d"), (b"", b"sfq: out of memory\n", 7))

    @needs_package
    def test_an_interrupt_ends_it(self):
        """Each pair has to be related, and none is counted."""
        rows = "".join(f"{it},POINT({it} {it})\n" for it in range(30_000))
        self.make({"s": b"CREATE TABLE t (id INTEGER PRIMARY KEY, g POINT)", "d/t.csv": f"id,g\n{rows}".encode()})
        with self.start(["run", "s", "d", "SELECT COUNT(*) FROM t a, t b WHERE ST_Relate(a.g, b.g, 'FFFFFFFFF')"]) as child:
            time.sleep(1.5)
            child.send_signal(signal.SIGINT)
            out, err = child.communicate(timeout=PATIENCE)
        self.assertEqual((out, err, child.returncode), (b"", b"", -signal.SIGINT))


class EachRow(Node):
    """All rows and wrong inputs, each by both programs."""

    IS_LONG = True

    @needs_build
    @needs_package
    def test_rows_as_the_native_program(self):
        for row in node_rows.all_rows():
            with self.subTest(words=row.words), tempfile.TemporaryDirectory(dir=sweeps.room()) as folder:
                self.folder = folder
                self.make({path: text for path, text in row.files.items() if path != "-"})
                for why in ("", "1"):
                    self.same(*row.words[1:], given=row.files.get("-", b""), why=why)


if __name__ == "__main__":
    unittest.main()
