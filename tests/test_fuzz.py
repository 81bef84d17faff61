"""Changed rows of the scripts: what the program does with them, and that a program which does something else is found."""
import os
import re
import subprocess
import sys
import tempfile
import unittest

from support import ROOT, needs_build, read, write

import repository
from fuzz import cases, checks, outcomes, reducer

FUZZ, GAUGE = f"{ROOT}/tests/fuzz/fuzz.py", f"{ROOT}/crates/gauge/out/gauge"
SQUARE, LINE = b"POLYGON((0 0,4 0,4 4,0 4,0 0))", b"LINESTRING(-2 2,2 -2)"
# After so many cases a planted mistake counts as not found.
CASES = 150


def fuzz(test, *words):
    """Runs the cases, and hands on what is printed if one fails."""
    ran = subprocess.run([sys.executable, "-B", FUZZ, *words], capture_output=True, text=True)
    test.assertEqual(ran.returncode, 0, ran.stdout + ran.stderr)
    return ran.stdout


class Fuzzing(unittest.TestCase):
    """Some cases, the same in each run."""

    ASKS_PROGRAM = True

    @needs_build
    def test_a_thousand_cases(self):
        fuzz(self, "--seed", "1", "--cases", "1000")

    @needs_build
    def test_labels_give_the_same(self):
        if not os.path.isfile(GAUGE):
            self.skipTest("needs the program gauge: rt run in crates/gauge, or ./test --all")
        self.assertNotIn("without gauge", fuzz(self, "--seed", "2", "--cases", "100"))


class LongFuzzing(unittest.TestCase):
    """A million cases, others in each run, or what an hour takes. The output names the seed."""

    ASKS_PROGRAM = True
    IS_LONG = True

    @needs_build
    def test_a_million_cases(self):
        fuzz(self, "--cases", "1000000", "--minutes", "60")


class Altered(checks.Programs):
    """The program, with something else in place of what it writes."""

    def __init__(self, alter, folder):
        super().__init__(repository.PROGRAM, None, folder)
        self.alter = alter

    def run_program(self, words, given):
        ran = super().run_program(words, given)
        return self.alter(words[1:], ran) if words[1:] else ran


def swapped(words, ran):
    """What relates a line and an area as if they were the other way round."""
    is_meant = words[0] == b"relate" and ran.status == 0 and b"LINE" in words[2] and b"POLY" in words[3]
    return ran._replace(out=outcomes.transposed(ran.out.decode().strip()).encode() + b"\n") if is_meant else ran


def without_last_row(words, ran):
    """What loses the last of several rows of a join."""
    is_meant = words[0] == b"run" and b"b.geom" in words[-1] and ran.out.count(b"\n") > 3
    return ran._replace(out=b"".join(ran.out.splitlines(keepends=True)[:-1])) if is_meant else ran


def other_place(words, ran):
    """What counts the places of faults from 1 under EXPLAIN."""
    is_meant = words[0] == b"run" and words[-1].startswith(b"EXPLAIN") and b"Q2 at" in ran.err
    return ran._replace(err=re.sub(rb"\d+\n", lambda at: b"%d\n" % (int(at[0]) + 1), ran.err)) if is_meant else ran


class Planted(unittest.TestCase):
    """A program that makes a mistake is found out in a few cases, and the case is made smaller."""

    ASKS_PROGRAM = True

    def found(self, alter):
        with tempfile.TemporaryDirectory(prefix="sfq-fuzz-") as room:
            programs = Altered(alter, f"{room}/files")
            for number in range(CASES):
                case = cases.case("planted", number)
                if checks.wrong(case, programs):
                    smaller = reducer.reduced(case, lambda it: checks.wrong(it, programs) is not None, 50)
                    self.assertIsNotNone(checks.wrong(smaller, programs))
                    return smaller
        return None

    @needs_build
    def test_mistakes_are_found(self):
        turns = iter(range(1_000_000))
        for alter in (
            swapped,
            without_last_row,
            other_place,
            lambda words, ran: ran._replace(status=-11) if b"W2" in ran.err else ran,
            lambda words, ran: ran._replace(status=8) if b"W2" in ran.err else ran,
            lambda words, ran: ran._replace(out=b"id\n") if b"L3" in ran.err else ran,
            lambda words, ran: ran._replace(err=b"sfq: t L12\n") if b" L3" in ran.err else ran,
            lambda words, ran: ran._replace(err=b"", status=0) if b" L3" in ran.err else ran,
            lambda words, ran: ran._replace(out=b"", err=b"sfq: t L10\n", status=4) if words[0] == b"check" else ran,
            lambda words, ran: ran._replace(out=b"id\n") if words[-1].endswith(b" LIMIT 2") else ran,
            lambda words, ran: ran._replace(out=b"%s%d\n" % (ran.out, next(turns))) if words[0] == b"run" else ran,
        ):
            with self.subTest(alter=alter):
                self.assertIsNotNone(self.found(alter))

    @needs_build
    def test_none_is_found_where_there_is_none(self):
        self.assertIsNone(self.found(lambda words, ran: ran))


class Parts(unittest.TestCase):
    def test_a_seed_and_a_number_are_a_case(self):
        for it in range(40):
            self.assertEqual(cases.case(7, it), cases.case(7, it))
        self.assertNotEqual([cases.case(7, it) for it in range(40)], [cases.case(8, it) for it in range(40)])

    def test_each_line_of_a_fault_in_the_document_has_its_form(self):
        statuses = {"schema": 3, "tables": 4, "query": 5}
        for part in read(f"{ROOT}/docs/FAULTS.md").split("\n## ")[1:]:
            head = part.partition("\n")[0]
            status = next((statuses[it] for it in statuses if f"The {it} " in head), 5 if head == "Geometries" else 6)
            for line, own in re.findall(r"(?m)^\| `(sfq: [^`]*)`[^|]*\| (\d?)", part):
                with self.subTest(line=line):
                    # The last of these is sfq-tiles's alone.
                    if any(it in line for it in ("write failed", "out of memory", "out unwritable")):
                        self.assertIsNone(outcomes.fault_status(f"{line}\n".encode()))
                    else:
                        wanted = int(own) if own else 6 if "L11" in line else status
                        self.assertEqual(outcomes.fault_status(f"{line}\n".encode()), wanted)

    def test_a_failing_case_can_be_run_again(self):
        with tempfile.TemporaryDirectory(prefix="sfq-fuzz-") as room:
            write(f"{room}/sfq", "#!/bin/sh\nexit 9\n", 0o755)
            words = [sys.executable, "-B", FUZZ, "--program", f"{room}/sfq", "--seed", "5", "--only", "3"]
            first, second = (subprocess.run(words, capture_output=True, text=True) for _ in range(2))
        self.assertEqual((first.returncode, first.stdout, first.stderr), (1, second.stdout, ""))
        self.assertIn("\ncase 3 of seed 5: no fault has this line and status\n", first.stdout)
        self.assertIn("status 9", first.stdout)
        self.assertIn("\n again: python3 tests/fuzz/fuzz.py --seed 5 --only 3\n", first.stdout)

    def test_what_a_run_may_not_do(self):
        words, fault = [b"relate", b"--", SQUARE, LINE], b"sfq: first W2 at 6\n"
        for ran in (
            outcomes.Ran(b"", b"", None),
            outcomes.Ran(b"", b"", -11),
            outcomes.Ran(b"", b"", 1),
            outcomes.Ran(b"", b"", 5),
            outcomes.Ran(b"", fault, 4),
            outcomes.Ran(b"F", fault, 5),
            outcomes.Ran(b"", fault + fault, 5),
            outcomes.Ran(b"", b"sfq: out of memory\n", 7),
            outcomes.Ran(b"F01FF0212\n", fault, 0),
            outcomes.Ran(b"F01FF021F\n", b"", 0),
            outcomes.Ran(b"F01FF0212", b"", 0),
        ):
            self.assertIsNotNone(outcomes.wrong_outcome(ran, words), ran)
        for ran in (outcomes.Ran(b"", fault, 5), outcomes.Ran(b"F01FF0212\n", b"", 0), outcomes.Ran(b"", b"error: x\n", 2)):
            self.assertIsNone(outcomes.wrong_outcome(ran, words), ran)
        self.assertIsNone(outcomes.wrong_outcome(outcomes.Ran(b"", b"sfq: first L1\n", 4), [b"check", b"s", b"d"]))
        self.assertIsNotNone(outcomes.wrong_outcome(outcomes.Ran(b"", b"sfq: first W4\n", 5), [b"run", b"s", b"d", b"q"]))

    def test_notes_are_written_of_tables_that_load(self):
        check, why = [b"check", b"s", b"d"], [b"check", b"--why", b"s", b"d"]
        notes = b"sfq: note: t record 2: field 4 holds a line end\nsfq: note: u header: field 1 holds a line end\n"
        self.assertIsNone(outcomes.wrong_outcome(outcomes.Ran(b"t 2\nu 1\n", notes, 0), why))
        self.assertIsNone(outcomes.wrong_outcome(outcomes.Ran(b"t 2\n", b"", 0), why))
        for ran, words in (
            (outcomes.Ran(b"t 2\nu 1\n", notes, 0), check),
            (outcomes.Ran(b"", notes, 4), why),
            (outcomes.Ran(b"t 2\n", notes + b"\n", 0), why),
        ):
            self.assertIsNotNone(outcomes.wrong_outcome(ran, words), ran)
        place = b"  3 | 2,,,\"b\n    |     ^\n"
        quote = notes + place + b"sfq: the quote that opens here isn't closed: the rest of the file is one field\n"
        self.assertIsNone(outcomes.wrong_outcome(outcomes.Ran(b"t 2\nu 1\n", quote, 0), why))

    def test_what_is_added_to_faults_and_answers(self):
        place, reason = b"  3 | 2,9.5,b\n    |   ^\n", b'sfq: column pop: "9.5" isn\'t a whole number of 64 bits\n'
        fault, note = b"sfq: t L5 record 2\n", place + b"sfq: note: a comparison with NULL never holds: write IS NULL\n"
        run, why = [b"run", b"s", b"d", b"q"], [b"run", b"--why", b"s", b"d", b"q"]
        for ran, words, is_well in (
            (outcomes.Ran(b"", fault + place + reason + b"sfq: write digits\n", 4), why, True),
            (outcomes.Ran(b"", fault + reason, 4), why, True),
            (outcomes.Ran(b"", fault + place + b"sfq: write digits\n", 4), why, False),
            (outcomes.Ran(b"", fault + place + reason, 4), run, False),
            (outcomes.Ran(b"", b"sfq: t L1\nsfq: the file is empty: its first line names the columns\n", 4), why, True),
            (outcomes.Ran(b"", b"sfq: t L10\n100002 | 7,a\nsfq: this is record 100001\n", 4), why, True),
            (outcomes.Ran(b"id\n", note, 0), why, True),
            (outcomes.Ran(b"id\n", 2 * note, 0), why, True),
            (outcomes.Ran(b"id\n", 3 * note, 0), why, False),
            (outcomes.Ran(b"id\n", note, 0), run, False),
        ):
            self.assertEqual(outcomes.wrong_outcome(ran, words) is None, is_well, ran)

    def test_labels_that_differ_are_found(self):
        texts, matrices = [SQUARE, LINE], {(0, 0): "2FFF1FFF2", (0, 1): "FF20F1102", (1, 0): "F01FF0212", (1, 1): "1FFF0FFF2"}
        lines = "".join(f"{it} {it}\n" for it in matrices.values()) + "\n"
        for out, is_well in ((lines, True), (lines.replace("F01FF0212\n", "F01FF0211\n"), False), ("\n", False)):
            programs = checks.Programs("sfq", "gauge", None)
            programs.run_program = lambda words, given, out=out: outcomes.Ran(out.encode(), b"", 0)
            self.assertEqual(checks.wrong_labels(texts, matrices, programs) is None, is_well)

    def test_predicates_by_their_patterns(self):
        holding = lambda matrix, *dimensions: [it for it in outcomes.PREDICATES if outcomes.holds(it, matrix, dimensions)]
        self.assertEqual(holding("F01FF0212", 1, 2), ["ST_Intersects", "ST_Touches"])
        self.assertEqual(holding("0FFFFF212", 0, 2), ["ST_Intersects", "ST_Within"])
        self.assertEqual(holding("0F2FF1FF2", 2, 0), ["ST_Intersects", "ST_Contains"])
        self.assertEqual(holding("2FFF1FFF2", 2, 2), ["ST_Equals", "ST_Intersects", "ST_Within", "ST_Contains"])
        self.assertEqual(holding("212101212", 2, 2), ["ST_Intersects", "ST_Overlaps"])
        self.assertEqual(holding("0F1FF0102", 1, 1), ["ST_Intersects", "ST_Crosses"])
        self.assertEqual(holding("FFFFFFFF2", 0, 1), ["ST_Equals", "ST_Disjoint"])

    def test_a_case_is_made_smaller(self):
        parts = {"schema": b"abc", "table t": b"a\nb\nc\nd\n", "table u": b"x", "word 0": b"run", "word 1": b"SELECT 7 FROM t"}
        fails = lambda case: b"c" in case.parts.get("table t", b"") and b"7" in case.parts["word 1"]
        smaller = reducer.reduced(cases.Case(parts, ""), fails)
        self.assertEqual(smaller.parts, {"table t": b"c", "word 0": b"", "word 1": b"7"})


if __name__ == "__main__":
    unittest.main()
