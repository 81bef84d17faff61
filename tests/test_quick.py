"""`bench/all.py --quick`: the table that it prints of a stand-in for sfq, and how it ends where something is missing or goes wrong."""
import os
import resource
import shutil
import signal
import subprocess
import sys
import tempfile
import time
import unittest

from support import ROOT, Checkout, needs

STAND_IN = f"{ROOT}/tests/quick_stand_in.sh"
# What gcc and the stand-in need on the path.
TOOLS = ("sh", "sleep", "gcc", "as", "ld")
TASK = "1,000 rows filtered by a number and a text"
TASKS = [
    TASK, "1,000 points within a polygon of 100 positions", "1,000 points in 100 parcels", "100 parcels that touch one another",
    "100 polygons of 20 positions checked", "two stars of 100 positions read, checked and related",
]


class Quick(unittest.TestCase):
    def setUp(self):
        folder = tempfile.TemporaryDirectory(prefix="sfq-test-")
        self.addCleanup(folder.cleanup)
        self.room, self.bin = f"{folder.name}/room", f"{folder.name}/bin"
        os.mkdir(self.room)
        os.mkdir(self.bin)

    def environment(self, tools=None, **more):
        """Returns the environment of a call: with its own temporary files, and with these tools alone, if they are named."""
        for it in tools or ():
            os.symlink(shutil.which(it), f"{self.bin}/{it}")
        path = {} if tools is None else {"PATH": self.bin}
        return {**os.environ, "TMPDIR": self.room, **path, **more}

    def words(self, *more):
        return [sys.executable, "-B", f"{ROOT}/bench/all.py", "--quick", "--program", STAND_IN, "--largest", "1", "--repeats", "1", *more]

    def run_quick(self, *more, tools=None, **how):
        """Returns what a call prints, what it says beside, and its status; it leaves no temporary files."""
        ran = subprocess.run(self.words(*more), env=self.environment(tools), text=True, **{"capture_output": True, **how})
        self.assertEqual(os.listdir(self.room), [])
        self.assertNotIn("Traceback", ran.stderr)
        return ran.stdout, ran.stderr, ran.returncode

    def rows(self, printed):
        """Returns the cells of the rows that were printed, below the heads."""
        lines = [it.strip("| ").split(" | ") for it in printed.splitlines() if it.startswith("|")]
        return lines[2:]

    @needs("gcc", "gcc")
    def test_each_row_by_time_and_who_is_left_out(self):
        printed, said, status = self.run_quick(tools=TOOLS)
        self.assertEqual(status, 0, said)
        rows = self.rows(printed)
        self.assertEqual([it[0] for it in rows], TASKS)
        self.assertEqual(rows[0][1], "no sqlite3")
        for it in rows:
            self.assertRegex(it[2], r"^\d+\.\d$")
        self.assertIn("sqlite3 is left out: apt-get install sqlite3\n", said)
        self.assertIn("the count of instructions is left out: apt-get install valgrind\n", said)
        self.assertNotIn("different texts", said)
        self.assertRegex(printed.splitlines()[-1], r", \d+ processors; .*Linux .*; commit .+; \d{4}-\d\d-\d\d$")

    def test_nothing_to_compare_with(self):
        printed, said, status = self.run_quick("--only", "filter", tools=("sh", "sleep"))
        self.assertEqual((status, self.rows(printed)), (0, [[TASK, "no sqlite3", "no gcc"]]))
        for it in ("the C program is left out: apt-get install gcc", "GEOS is left out: apt-get install gcc libc6-dev libgeos-dev"):
            self.assertIn(it, said)

    @needs("gcc", "gcc")
    @needs("valgrind", "valgrind")
    @needs("sqlite3", "sqlite3")
    def test_instructions(self):
        printed, said, status = self.run_quick("--only", "filter")
        self.assertEqual(status, 0, said)
        [[task, *counted, _, _]] = self.rows(printed)
        self.assertEqual(task, TASK)
        self.assertRegex(" ".join(counted), r"^\d+\.\d\d, sqlite3 \d+\.\d$")

    def test_no_program(self):
        _, said, status = self.run_quick("--program", f"{self.room}/none")
        self.assertEqual((status, said), (1, f"there is no program {self.room}/none\n"))

    def test_a_program_that_is_not_built(self):
        checkout = Checkout()
        self.addCleanup(checkout.remove)
        shutil.copytree(f"{ROOT}/bench", f"{checkout.root}/bench", ignore=shutil.ignore_patterns("__pycache__"))
        words = [sys.executable, "-B", f"{checkout.root}/bench/all.py", "--quick"]
        program = f"{checkout.root}/crates/sfq/out/sfq"
        for found in "isn't built", "is of other sources than these":
            ran = subprocess.run(words, capture_output=True, text=True)
            self.assertEqual((ran.returncode, ran.stdout), (1, ""))
            self.assertEqual(ran.stderr, f"the program {found}: run ./build, which proves and links it, in about half an hour\n")
            os.makedirs(os.path.dirname(program), exist_ok=True)
            shutil.copy(STAND_IN, program)

    def test_a_signal(self):
        env = self.environment(("sh", "sleep"), SECONDS_OF_STAND_IN="100")
        for number in signal.SIGINT, signal.SIGTERM:
            with subprocess.Popen(self.words("--only", "filter"), env=env, stdout=subprocess.DEVNULL, stderr=subprocess.PIPE) as running:
                said = b""
                while b"compiled\n" not in said:
                    said += os.read(running.stderr.fileno(), 1 << 16)
                while not any(os.path.isfile(f"{at}/output") for at, _, _ in os.walk(self.room)):
                    time.sleep(0.05)
                running.send_signal(number)
                said = running.communicate(timeout=90)[1]
            self.assertEqual((running.returncode, os.listdir(self.room)), (128 + number, []))
            self.assertEqual(said.splitlines()[-1], b"broken off")
            self.assertNotIn(b"Traceback", said)

    def test_the_time_is_over(self):
        started = time.monotonic()
        env = self.environment(("sh", "sleep"), SECONDS_OF_STAND_IN="100")
        ran = subprocess.run(self.words("--minutes", "0.05"), env=env, capture_output=True, text=True)
        self.assertLess(time.monotonic() - started, 60)
        self.assertEqual((ran.returncode, os.listdir(self.room)), (1, []))
        self.assertEqual(ran.stderr.splitlines()[-1], f"0.05 minutes are over, so these are left out: {'; '.join(TASKS)}")

    def test_a_full_disk(self):
        def limit():
            resource.setrlimit(resource.RLIMIT_FSIZE, (1_000, 1_000))

        _, said, status = self.run_quick("--only", "filter", tools=("sh", "sleep"), preexec_fn=limit)
        self.assertEqual(status, 1)
        self.assertIn(f"temporary files are in {self.room}; TMPDIR names another folder\n", said)

    def test_an_output_that_takes_nothing(self):
        with open("/dev/full", "w", encoding="ascii") as full:
            _, said, status = self.run_quick("--only", "filter", tools=("sh", "sleep"), capture_output=False, stdout=full, stderr=subprocess.PIPE)
        self.assertEqual(status, 1)
        self.assertIn("No space left on device\n", said)

    def test_help(self):
        self.assertIn("--quick", self.run_quick("--help")[0])


if __name__ == "__main__":
    unittest.main()
