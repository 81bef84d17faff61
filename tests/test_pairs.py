"""`sfq pairs`: a line for each record, memory that doesn't grow with the records, and how a run ends."""
import resource
import subprocess
import tempfile
import threading
import unittest

from support import needs_build

import exact_cells
from faults import sweeps

SQUARE = "POLYGON((0 0,4 0,4 4,0 4,0 0))"
RECORD = f'POINT(2 2),"{SQUARE}"\n'.encode()
LINE = b"0FFFFF212\n"
# How much memory a run may take, however many records there are.
ROOM = 8 << 20
MANY = 200_000
FIELD_BYTES = 1 << 20


def limit():
    resource.setrlimit(resource.RLIMIT_AS, (ROOM, ROOM))


class Pairs(unittest.TestCase):
    ASKS_PROGRAM = True

    def ask(self, text, *words):
        """Returns what a run over a text writes, and its status."""
        ran = subprocess.run([sweeps.program(), "pairs", *(words or "-")], input=text, capture_output=True,
                             timeout=sweeps.PATIENCE)
        return ran.stdout, ran.stderr, ran.returncode

    @needs_build
    def test_random_pairs(self):
        pairs = exact_cells.random_pairs(200, 2)
        text = "".join(f'"{a}","{b}"\n' for a, b in pairs)
        wanted = "".join("".join(it.split()[2] for it in exact_cells.lines(*pair).splitlines()) + "\n" for pair in pairs)
        self.assertEqual(self.ask(text.encode()), (wanted.encode(), b"", 0))

    @needs_build
    def test_each_line_is_what_relate_says(self):
        texts = "POINT(1 2)", "POINT(1 2", "POINT(1.5 2)", SQUARE, "POLYGON((0 0,4 4,4 0,0 4,0 0))", "LINESTRING EMPTY", ""
        pairs = [(a, b) for a in texts for b in texts]
        lines, refused = [], 0
        for a, b in pairs:
            ran = subprocess.run([sweeps.program(), "relate", a, b], capture_output=True, text=True)
            refused += ran.returncode == 5
            lines.append(ran.stdout or ran.stderr.removeprefix("sfq: "))
        self.assertGreater(refused, 20)
        text = "".join(f'"{a}","{b}"\n' for a, b in pairs)
        self.assertEqual(self.ask(text.encode()), ("".join(lines).encode(), b"", 5))

    @needs_build
    def test_memory_does_not_grow_with_the_records(self):
        child = subprocess.Popen([sweeps.program(), "pairs", "-"], stdin=subprocess.PIPE, stdout=subprocess.PIPE,
                                 stderr=subprocess.PIPE, preexec_fn=limit)

        def write():
            with child.stdin:
                for _ in range(MANY // 1000):
                    child.stdin.write(RECORD * 1000)

        writer = threading.Thread(target=write)
        writer.start()
        count = 0
        for line in child.stdout:
            count += line == LINE
        writer.join()
        self.assertEqual((count, child.stderr.read(), child.wait(sweeps.PATIENCE)), (MANY, b"", 0))
        child.stdout.close()
        child.stderr.close()

    @needs_build
    def test_lines_come_before_the_input_ends(self):
        # More records than a buffer holds, whose lines a pipe holds. The rest comes once a line was read.
        some = 4000
        with subprocess.Popen([sweeps.program(), "pairs", "-"], stdin=subprocess.PIPE, stdout=subprocess.PIPE) as child:
            ends = threading.Timer(sweeps.PATIENCE, child.kill)
            ends.start()
            child.stdin.write(RECORD * some)
            child.stdin.flush()
            first = child.stdout.readline()
            child.stdin.write(RECORD)
            child.stdin.close()
            rest = child.stdout.read()
        ends.cancel()
        self.assertEqual((first + rest, child.returncode), (LINE * (some + 1), 0))

    @needs_build
    def test_a_record_without_two_fields_ends_the_run(self):
        for record in (b"POINT(1 1)\n", b"POINT(1 1),POINT(1 1),POINT(1 1)\n", b"LINESTRING(0 0,1 1)\n"[:-1] + b",POINT(1 1)\n"):
            with self.subTest(record=record):
                self.assertEqual(self.ask(RECORD * 2 + record + RECORD), (LINE * 2, b"sfq: pairs L3 record 3\n", 4))

    @needs_build
    def test_a_refusal_is_a_line_and_the_run_goes_on(self):
        refused = b"POINT(1 1,POINT(1 1)\n"
        self.assertEqual(self.ask(RECORD + refused + RECORD), (LINE + b"first W1 at 9\n" + LINE, b"", 5))
        # A fault of reading after it is the one that counts.
        self.assertEqual(self.ask(refused + b"x\n"), (b"first W1 at 9\n", b"sfq: pairs L3 record 2\n", 4))

    @needs_build
    def test_a_file_that_cannot_be_read(self):
        with tempfile.TemporaryDirectory(dir=sweeps.room()) as folder:
            self.assertEqual(self.ask(b"", f"{folder}/none"), (b"", b"sfq: pairs unreadable\n", 6))
            self.assertEqual(self.ask(b"", folder), (b"", b"sfq: pairs L11\n", 6))
        # Reading stops with the piece of the file in which a field passes its limit: each record that is whole in it has its line.
        long = b'"' + b" " * (FIELD_BYTES + (1 << 17)) + b'",POINT(1 1)\n'
        self.assertEqual(self.ask(RECORD + long), (LINE, b"sfq: pairs L11\n", 6))

    @needs_build
    def test_a_file_and_standard_input(self):
        with tempfile.TemporaryDirectory(dir=sweeps.room()) as folder:
            for name in ("pairs.csv", "-", "@-"):
                with open(f"{folder}/{name}", "wb") as file:
                    file.write(RECORD)
                self.assertEqual(self.ask(b"", f"{folder}/{name}"), (LINE, b"", 0))
        self.assertEqual(self.ask(b""), (b"", b"", 0))

    @needs_build
    def test_output_that_cannot_be_written(self):
        for text in (RECORD, RECORD * 100_000, RECORD + b'POINT(1 2),POINT(1.5 2)\n'):
            with open("/dev/full", "wb") as full:
                ran = subprocess.run([sweeps.program(), "pairs", "-"], input=text, stdout=full, stderr=subprocess.PIPE)
            self.assertEqual((ran.stderr, ran.returncode), (sweeps.WRITE_FAILED, 6))


if __name__ == "__main__":
    unittest.main()
