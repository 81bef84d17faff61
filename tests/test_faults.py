"""The program where memory, reading, writing and opening fail, one call after another."""
import subprocess
import sys
import time
import unittest
from concurrent.futures import ThreadPoolExecutor

from support import ROOT, needs, needs_build, read

import proving
from faults import measures, sweeps

# How many calls of a kind are failed in the short form, at most, and in the long one.
FEW, ALL = 60, sys.maxsize
ERRORS = ("EIO", "ENOSPC", "EPIPE", "EAGAIN")
# What the program calls of the C library: what the sweeps fail, and what no answer depends on. No other call can start a
# program, open a connection or write a file. The environment is read for what says whether faults are explained, and in colour.
SWEPT = {"malloc", "calloc", "realloc", "read", "write", "open", "open64", "openat", "openat64", "fstat", "fstat64", "statx"}
HARMLESS = {"free", "close", "isatty", "clock_gettime", "memcpy", "memmove", "memset", "memcmp", "bcmp", "strlen"}
HARMLESS |= {"environ", "getenv"}
# Under --why a table is read again from its begin. If it can't go back, what was read of it is kept, as of a pipe.
HARMLESS |= {"lseek", "lseek64"}
# What the toolchain's start of a program calls; __write is for a processor that lacks an instruction.
OF_EACH_PROGRAM = {"__errno_location", "__libc_start_main", "__cxa_finalize", "__sysv_signal", "signal"}
OF_EACH_PROGRAM |= {"__write", "__x86_get_cpuid_feature_leaf"}


class Sweep:
    """The sweeps, over every command. `most` is how many calls of a kind are failed."""

    most = FEW

    def sweep(self, call, ways, most=None):
        """Fails the calls of a kind in these ways: how, and how many times."""
        tasks = [(name, call, how, times, most or self.most) for name in sweeps.COMMANDS for how, times in ways]
        for name in sweeps.COMMANDS:
            sweeps.whole(name)
        with ThreadPoolExecutor(proving.processors()) as pool:
            for task, found in zip(tasks, pool.map(lambda it: sweeps.wrong(*it), tasks)):
                with self.subTest(task=task[:4]):
                    self.assertEqual(found[:3], [])

    @needs_build
    @needs("gcc", "cc")
    def test_each_growth_of_memory_refused(self):
        self.sweep("growth", [("ENOMEM", 1), ("ENOMEM", 0)])

    @needs_build
    @needs("gcc", "cc")
    def test_each_read_failing(self):
        self.sweep("read", [(it, times) for it in ERRORS for times in (1, 0)])

    @needs_build
    @needs("gcc", "cc")
    def test_each_write_failing(self):
        self.sweep("write", [(it, times) for it in ERRORS for times in (1, 0)])

    @needs_build
    @needs("gcc", "cc")
    def test_each_open_failing(self):
        self.sweep("open", [(it, times) for it in (*ERRORS, "EMFILE", "EACCES") for times in (1, 0)])

    @needs_build
    @needs("gcc", "cc")
    def test_each_fstat_and_statx_failing(self):
        """No command makes such a call where each file can be opened and read."""
        for call in ("fstat", "statx"):
            self.sweep(call, [(it, 1) for it in ERRORS])

    @needs_build
    @needs("gcc", "cc")
    def test_each_read_and_write_cut_to_one_byte(self):
        for call in ("read", "write"):
            self.sweep(call, [("byte", 1)])
            # This makes as many calls as there are bytes.
            self.sweep(call, [("byte", 0)], self.most // 8)

    @needs_build
    @needs("gcc", "cc")
    def test_interrupted_calls_are_made_again(self):
        for call in ("open", "read", "write"):
            self.sweep(call, [("EINTR", 1), ("EINTR", 5)])


class Sweeps(Sweep, unittest.TestCase):
    """The first calls of each kind, and then some: a second or two for each command."""

    ASKS_PROGRAM = True


class LongSweeps(Sweep, unittest.TestCase):
    """Every call."""

    ASKS_PROGRAM = True
    IS_LONG = True
    most = ALL


class Documented(unittest.TestCase):
    ASKS_PROGRAM = True
    IS_LONG = True

    @needs_build
    @needs("gcc", "cc")
    def test_the_document_has_the_counts(self):
        self.assertIn(measures.calls(), read(f"{ROOT}/docs/FAULT-TESTING.md"))


class Calls(unittest.TestCase):
    ASKS_PROGRAM = True

    @needs_build
    @needs("binutils", "nm")
    def test_the_program_makes_no_other_call(self):
        words = ["nm", "-D", "--undefined-only", sweeps.program()]
        lines = subprocess.run(words, capture_output=True, text=True, check=True).stdout.splitlines()
        called = {it.split()[-1].partition("@")[0] for it in lines if it.split()[0] == "U"}
        self.assertEqual(called - SWEPT - HARMLESS - OF_EACH_PROGRAM, set())


class Once(unittest.TestCase):
    """Files that several tests need are written once, whichever thread asks for them first."""

    def test_threads_wait_for_the_one_that_makes_it(self):
        made = []

        @sweeps.once
        def make(name):
            made.append(name)
            time.sleep(0.05)
            return [name]

        with ThreadPoolExecutor(8) as pool:
            found = list(pool.map(make, "aabbaabb"))
        self.assertEqual((sorted(made), found), (["a", "b"], [[it] for it in "aabbaabb"]))
        self.assertIs(found[0], found[1])


class Judging(unittest.TestCase):
    """What the sweeps take for a mistake."""

    WELL = sweeps.Ran(b"id\n1\n2\n", b"", 0, {}, 0, -1, -1, "")

    def allows(self, call, how, out, err, status, path="", well=WELL, times=1):
        ran = sweeps.Ran(out, err, status, {}, 1, 1, 0, path)
        return sweeps.is_allowed(sweeps.Fault(call, how, 1, times), ran, well)

    def test_what_is_allowed(self):
        self.assertTrue(self.allows("growth", "ENOMEM", b"id\n1", b"sfq: out of memory\n", 7))
        self.assertTrue(self.allows("growth", "ENOMEM", *self.WELL.said()))
        self.assertTrue(self.allows("read", "EIO", b"", b"sfq: t L11\n", 6, "/x/t.csv"))
        self.assertTrue(self.allows("open", "EIO", b"", b"sfq: t unreadable\n", 6, "/x/t.csv"))
        self.assertTrue(self.allows("write", "EIO", b"id", b"sfq: write failed\n", 6))
        self.assertTrue(self.allows("write", "EIO", b"id", b"sfq: wr", 6, times=0))

    def test_what_is_not(self):
        memory = b"sfq: out of memory\n"
        for call, how, out, err, status, path in (
            ("growth", "ENOMEM", b"id\n1\n", b"", 0, ""),
            ("growth", "ENOMEM", b"id\n1\n2\n3\n", memory, 7, ""),
            ("growth", "ENOMEM", b"id\n", b"", 7, ""),
            ("growth", "ENOMEM", b"", memory, 6, ""),
            ("growth", "ENOMEM", b"", b"", -11, ""),
            ("read", "EIO", *self.WELL.said(), "/x/t.csv"),
            ("read", "EIO", b"id\n", b"sfq: t L11\n", 6, "/x/t.csv"),
            ("read", "EIO", b"", b"sfq: u L11\n", 6, "/x/t.csv"),
            ("read", "EINTR", b"", b"sfq: t L11\n", 6, "/x/t.csv"),
            ("read", "byte", b"id\n1\n", b"", 0, "/x/t.csv"),
            ("open", "EIO", b"", b"sfq: t L11\n", 6, "/x/t.csv"),
            ("write", "EIO", *self.WELL.said(), ""),
            ("write", "EIO", b"id\n1\n", b"", 0, ""),
            ("write", "EIO", b"id\n", b"sfq: wr", 6, ""),
            ("write", "EIO", b"1\n", b"sfq: write failed\n", 6, ""),
        ):
            with self.subTest(call=call, out=out, err=err, status=status):
                self.assertFalse(self.allows(call, how, out, err, status, path))

    def test_a_table_that_is_read_twice(self):
        """After a fault its line is there, and only what needs the table's text may be missing."""
        line, reason, note = b"sfq: t record 1: L5\n", b"sfq: reason: n holds x\n", b"sfq: note: u record 2: field 1 holds a line end\n"
        faulty, noted = (sweeps.Ran(b"", line + reason, 4, {}, 0, -1, -1, ""), sweeps.Ran(b"t 1\n", note + reason, 0, {}, 0, -1, -1, ""))
        for well, err, status, is_fine in (
            (faulty, line + reason, 4, True), (faulty, line, 4, True), (faulty, b"", 4, False), (faulty, reason + line, 4, False),
            (faulty, line, 0, False), (faulty, line + note, 4, False), (noted, b"", 0, True), (noted, reason, 0, True), (noted, note, 6, False),
        ):
            with self.subTest(err=err, status=status):
                ran = sweeps.Ran(well.out, err, status, {}, 1, 1, 0, "/x/t.csv")
                self.assertEqual(sweeps.is_allowed(sweeps.Fault("growth", "ENOMEM", 1), ran, well, reads_again=True), is_fine)
                self.assertFalse(err != well.err and sweeps.is_allowed(sweeps.Fault("growth", "ENOMEM", 1), ran, well))


if __name__ == "__main__":
    unittest.main()
