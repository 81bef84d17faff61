"""The line on a terminal that says how far a command is: when it comes, what it says, and that it goes."""
import os
import pty
import re
import signal
import subprocess
import tempfile
import unittest

from support import needs_build, read_terminal, write
import repository

# Takes a line away: up to its first column, and all from there on is erased.
CLEAR = b"\r\x1b[A\x1b[K"

# What the line says of a join.
LINE = re.compile(rb"sfq: row (\d+) of (\d+), (\d+) candidates, (\d+) found\n")

# A join of so many rows with as many walks over their pairs for a second or more.
ROWS = 8_000

SCHEMA = "CREATE TABLE t (id INTEGER PRIMARY KEY, n INTEGER); CREATE TABLE u (id INTEGER PRIMARY KEY, n INTEGER);"
QUERY = "SELECT a.id, b.id FROM t a JOIN u b ON a.n <= b.n"
ANSWER = b"a.id,b.id\n5,7\n"


class ProgressOnATerminal(unittest.TestCase):
    def setUp(self):
        room = tempfile.TemporaryDirectory(prefix="sfq-progress-")
        self.addCleanup(room.cleanup)
        self.room = room.name
        # One pair is found: 0 is the least number of the one table, in row 5, and the greatest of the other, in row 7.
        write(f"{self.room}/schema.sql", SCHEMA)
        for name, sign, place in (("t", 1, 5), ("u", -1, 7)):
            numbers = [0 if it == place else sign * it for it in range(1, ROWS + 1)]
            records = "".join(f"{it},{number}\n" for it, number in enumerate(numbers, 1))
            write(f"{self.room}/{name}.csv", f"id,n\n{records}")

    def words(self, query):
        """Returns the words that run a query."""
        return [repository.PROGRAM, "run", f"{self.room}/schema.sql", self.room, query]

    def terminal(self):
        """Returns a terminal's two ends, of which the first is closed after the test."""
        ours, theirs = pty.openpty()
        self.addCleanup(os.close, ours)
        return ours, theirs

    def run_query(self, query, is_output_shown):
        """Runs a query with standard error on a terminal, and returns what the terminal and a pipe on standard output had."""
        ours, theirs = self.terminal()
        words = self.words(query)
        output = theirs if is_output_shown else subprocess.PIPE
        with subprocess.Popen(words, stdout=output, stderr=theirs) as child:
            os.close(theirs)
            shown = read_terminal(ours)
            written = b"" if is_output_shown else child.stdout.read()
            self.assertEqual(child.wait(timeout=60), 0)
        return shown.replace(b"\r\n", b"\n"), written

    def lines_of_a_join(self, shown):
        """Checks that each line of progress is removed before the next, and returns what they say and what is written after them."""
        *lines, last = shown.split(CLEAR)
        found = [LINE.fullmatch(it) for it in lines if not it.startswith(b"sfq: loading ")]
        self.assertTrue(found and all(found), shown)
        said = [[int(number) for number in it.groups()] for it in found]
        self.assertTrue(all(0 < row <= total == ROWS for row, total, _, _ in said), said)
        self.assertTrue(all(1 < candidates <= ROWS * ROWS and rows <= 1 for _, _, candidates, rows in said), said)
        self.assertEqual(said, sorted(said))
        return said, last

    @needs_build
    def test_a_long_join_says_how_far_it_is_until_its_output_begins(self):
        shown, _ = self.run_query(QUERY, True)
        said, last = self.lines_of_a_join(shown)
        self.assertEqual(said[-1][3], 1)
        self.assertEqual(last, ANSWER)

    @needs_build
    def test_output_elsewhere_leaves_no_line_on_the_terminal(self):
        shown, written = self.run_query(QUERY, False)
        _, last = self.lines_of_a_join(shown)
        self.assertEqual((last, written), (b"", ANSWER))

    @needs_build
    def test_a_signal_leaves_a_whole_line(self):
        ours, theirs = self.terminal()
        with subprocess.Popen(self.words(QUERY), stdout=subprocess.DEVNULL, stderr=theirs) as child:
            os.close(theirs)
            shown = b""
            while b"found\r\n" not in shown:
                shown += os.read(ours, 1 << 16)
            child.send_signal(signal.SIGINT)
            shown += read_terminal(ours)
            self.assertEqual(child.wait(timeout=60), -signal.SIGINT)
        shown = shown.replace(b"\r\n", b"\n")
        # The signal may come between the removal of a line and the next one.
        _, last = self.lines_of_a_join(shown.removesuffix(CLEAR) + CLEAR)
        self.assertEqual(last, b"")

    @needs_build
    def test_a_short_query_says_nothing(self):
        shown, _ = self.run_query("SELECT id FROM t WHERE id = 5", True)
        self.assertEqual(shown, b"id\n5\n")


if __name__ == "__main__":
    unittest.main()
