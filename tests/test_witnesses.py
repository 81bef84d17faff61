"""What `sfq why` prints, beside what exact fractions give by definitions alone."""
import random
import re
import subprocess
import unittest
from concurrent.futures import ThreadPoolExecutor

from support import ROOT, needs_build, read

import exact_cells
import exact_places
from faults import sweeps
from required_rows import written_out

SCRIPTS = f"{ROOT}/crates/scripts/data"
SQUARE = "POLYGON((0 0,4 0,4 4,0 4,0 0))"


def rows_of_scripts():
    """Returns the texts of each row of the script with what it wants, but for refusals and texts in files."""
    for block in read(f"{SCRIPTS}/why.txt").split("\n\n"):
        head, _, wanted = block.strip("\n").partition("\n")
        if head.startswith("why ") and "@" not in head and not wanted.startswith("!"):
            yield written_out(head[4:]).split(" | "), wanted + "\n"


def ask(words):
    ran = subprocess.run([sweeps.program(), *words], capture_output=True, text=True, timeout=sweeps.PATIENCE)
    return ran.stdout, ran.stderr, ran.returncode


def asked(calls):
    """Returns what each command writes, and its status."""
    with ThreadPoolExecutor(2) as pool:
        return list(pool.map(ask, calls))


def dimensions(lines):
    return "".join(it.split()[2] for it in lines.splitlines()) + "\n"


class Definitions(unittest.TestCase):
    """The fractions against what is known without them."""

    def test_rows_of_scripts(self):
        rows = list(rows_of_scripts())
        self.assertGreater(len(rows), 150)
        for texts, wanted in rows:
            with self.subTest(texts=texts):
                shown = exact_cells.lines(*texts) if len(texts) == 2 else exact_places.line(*texts)
                self.assertEqual(shown, wanted)

    def test_matrices_of_scripts(self):
        texts = re.findall(r"(?m)^relate (.+) \| (.+)\n([F012]{9}\n)", read(f"{SCRIPTS}/relations.txt"))
        self.assertGreater(len(texts), 100)
        for first, second, matrix in texts:
            with self.subTest(first=first, second=second):
                self.assertEqual(dimensions(exact_cells.lines(written_out(first), written_out(second))), matrix)

    def test_faults_of_scripts(self):
        texts = re.findall(r"(?m)^relate (.+) \| .+\n(?:! sfq: first (V.+)\n|[F012]{9}\n)", read(f"{SCRIPTS}/validity.txt"))
        self.assertGreater(len(texts), 25)
        for text, fault in texts:
            with self.subTest(text=text):
                self.assertEqual(exact_places.line(text).partition(":")[0].strip(), fault or "valid")

    def test_each_kind_of_fault_is_in_the_script(self):
        faults = {wanted[:2] for texts, wanted in rows_of_scripts() if len(texts) == 1}
        self.assertEqual(faults, {"va", *(f"V{at}" for at in range(1, 9))})

    def test_random_geometries_are_valid(self):
        for pair in exact_cells.random_pairs(100, 7):
            for text in pair:
                self.assertEqual(exact_places.line(text), "valid\n", text)


class Witnesses(unittest.TestCase):
    """Some random pairs and areas, the same in each run."""

    ASKS_PROGRAM = True
    PAIRS, AREAS = 200, 200

    @needs_build
    def test_random_pairs(self):
        pairs = exact_cells.random_pairs(self.PAIRS, 1)
        shown = asked([["why", *it] for it in pairs])
        matrices = asked([["relate", *it] for it in pairs])
        for pair, written, matrix in zip(pairs, shown, matrices):
            with self.subTest(pair=pair):
                wanted = exact_cells.lines(*pair)
                self.assertEqual(written, (wanted, "", 0))
                self.assertEqual(matrix, (dimensions(wanted), "", 0))

    @needs_build
    def test_random_areas(self):
        dice = random.Random(1)
        texts = [exact_places.random_text(dice, dice.choice((3, 6, 20))) for _ in range(self.AREAS)]
        for text, written in zip(texts, asked([["why", it] for it in texts])):
            with self.subTest(text=text):
                self.assertEqual(written, (exact_places.line(text), "", 0))


class ThousandWitnesses(Witnesses):
    """A thousand pairs and two thousand areas."""

    IS_LONG, IN_GATE = True, True
    PAIRS, AREAS = 1000, 2000


class Words(unittest.TestCase):
    """Where the geometries of `why` come from, and what is refused."""

    ASKS_PROGRAM = True

    def why(self, *words, given=""):
        ran = subprocess.run([sweeps.program(), "why", *words], capture_output=True, text=True, input=given,
                             timeout=sweeps.PATIENCE)
        return ran.stdout, ran.stderr, ran.returncode

    @needs_build
    def test_standard_input(self):
        self.assertEqual(self.why("@-", given=SQUARE), ("valid\n", "", 0))
        self.assertEqual(self.why("POINT(1 1)", "@-", given=SQUARE), (exact_cells.lines("POINT(1 1)", SQUARE), "", 0))
        self.assertEqual(self.why("@-", "@-", given=SQUARE), ("", "sfq: second W1 at 0\n", 5))

    @needs_build
    def test_refusals(self):
        self.assertEqual(self.why("@none"), ("", "sfq: first unreadable\n", 6))
        self.assertEqual(self.why("POINT(1 1)", "@none"), ("", "sfq: second unreadable\n", 6))
        self.assertEqual(self.why("POINT(1 1"), ("", "sfq: first W1 at 9\n", 5))
        self.assertEqual(self.why("POINT(1 1)", "POLYGON((0 0,4 4,4 0,0 4,0 0))"), ("", "sfq: second V3 0\n", 5))
        self.assertEqual(self.why()[2], 2)
        self.assertEqual(self.why("POINT(1 1)", "POINT(1 1)", "POINT(1 1)")[2], 2)

    @needs_build
    def test_a_full_disk(self):
        for words in (["POINT(1 1)"], ["POINT(1 1)", SQUARE]):
            with open("/dev/full", "wb") as full:
                ran = subprocess.run([sweeps.program(), "why", *words], stdout=full, stderr=subprocess.PIPE)
            self.assertEqual((ran.stderr, ran.returncode), (sweeps.WRITE_FAILED, 6))


if __name__ == "__main__":
    unittest.main()
