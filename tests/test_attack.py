"""bench/attack.py: what it draws is the same each time and is taken by the grammar, and its small parts."""
import contextlib
import csv
import io
import itertools
import pathlib
import random
import re
import sqlite3
import subprocess
import sys
import tempfile
import unittest
from unittest import mock

from support import needs_build
from fuzz import outcomes
from sfq_audit import predicates

import attack
import repository

# The seconds that a program takes of nothing, where they are planted.
START = 0.02


def queries(count):
    return [attack.drawn_query(random.Random(f"1 {number}")) for number in range(count)]


class Draws(unittest.TestCase):
    def test_a_number_draws_the_same_input_each_time(self):
        programs = attack.Programs("sfq", "geos", "tables", True, True, True)
        labels = [[attack.drawn(1, number, programs).label for number in range(60)] for _ in range(2)]
        self.assertEqual(*labels)
        self.assertGreater(len(set(labels[0])), 55)
        self.assertNotEqual(labels[0], [attack.drawn(2, number, programs).label for number in range(60)])

    def test_forms_of_data_have_as_many_rows_as_they_are_asked_for(self):
        for kinds in (attack.NUMBERS, attack.TEXTS, attack.GEOMETRIES):
            for name, form in kinds.items():
                for rows in (1, 4, 50):
                    self.assertEqual(len(list(form(random.Random(1), rows))), rows, name)

    def test_tables_of_a_seed_are_the_same_and_differ_by_size(self):
        query = queries(1)[0]
        texts = []
        for size in (4, 4, 8):
            with tempfile.TemporaryDirectory(prefix="sfq-attack-") as name:
                attack.write_tables(query, random.Random(size), size, pathlib.Path(name))
                texts.append([it.read_text() for it in sorted(pathlib.Path(name).iterdir())])
        self.assertEqual(texts[0], texts[1])
        self.assertNotEqual(texts[0], texts[2])

    def test_sqlite_takes_each_query(self):
        """Those of numbers and texts, as sqlite3 is asked them."""
        for query in queries(150):
            if not query.is_spatial:
                connection = sqlite3.connect(":memory:")
                for it in "ab":
                    connection.execute(f"CREATE TABLE {it} (id INTEGER PRIMARY KEY, n INTEGER, t TEXT, g)")
                connection.execute(attack.of_sqlite(query)[0])
                connection.close()

    def test_shapes_have_as_many_positions_as_sfq_takes(self):
        for it in attack.MORE:
            made = it.make(4 * it.size)
            with self.subTest(shape=it.label):
                self.assertLessEqual(made.count(",") + 1, 10_000)
                self.assertLessEqual(made.count("),("), 1_000)

    def test_list_says_what_is_drawn_and_measures_nothing(self):
        out = io.StringIO()
        with mock.patch.object(sys, "argv", ["attack.py", "--list", "--numbers", "3", "--start", "5", "--program", "/absent"]), contextlib.redirect_stdout(out):
            attack.main()
        numbers = [line.split(" ", 1)[0] for line in out.getvalue().splitlines()]
        self.assertEqual(numbers, ["5", "6", "7"])

    def test_a_change_keeps_what_a_shape_has(self):
        text = "MULTILINESTRING((0 0,1 2),(3 4,5 6))"
        dice = random.Random(3)
        self.assertEqual(attack.elements_of("(0 0,1 2),(3 4,5 6)"), ["(0 0,1 2)", "(3 4,5 6)"])
        self.assertEqual(attack.changed(text, "moved", dice), "MULTILINESTRING((17 -5,18 -3),(20 -1,22 1))")
        self.assertEqual(attack.changed(text, "mirrored", dice), "MULTILINESTRING((0 0,2 1),(4 3,6 5))")
        for how in ("shuffled", "turned round"):
            self.assertEqual(sorted(re.findall(r"\d", attack.changed(text, how, dice))), sorted(re.findall(r"\d", text)))


class Parts(unittest.TestCase):
    QUERY = attack.Query(2, "a.id, b.id", ["ST_Within(a.g, b.g)"], "", {})

    def test_a_predicate_of_spatialite_is_unknown_of_null(self):
        self.assertIn("(NULLIF(ST_Within(a.g, b.g), -1) = 1)", attack.of_sqlite(self.QUERY)[0])
        constant = self.QUERY._replace(conjuncts=["NOT ST_Disjoint(a.g, ST_GeomFromText('POINT(0 0)'))"])
        self.assertIn("NOT (NULLIF(ST_Disjoint(a.g, ST_GeomFromText('POINT(0 0)')), -1) = 1)", attack.of_sqlite(constant)[0])
        pattern = self.QUERY._replace(conjuncts=["ST_Relate(a.g, ST_GeomFromText('POINT(0 0)'), 'T********')"], items="a.id, ST_IsEmpty(b.g)")
        self.assertIn("(NULLIF(ST_Relate(a.g, ST_GeomFromText('POINT(0 0)'), 'T********'), -1) = 1)", attack.of_sqlite(pattern)[0])
        self.assertIn("SELECT a.id, NULLIF(ST_IsEmpty(b.g), -1) FROM", attack.of_sqlite(pattern)[0])

    def test_a_tree_is_searched_where_envelopes_have_to_meet(self):
        for conjuncts, has_tree in ((["ST_Within(a.g, b.g)"], True), (["a.n = 1", "ST_Touches(b.g, a.g)"], True), (["ST_Disjoint(a.g, b.g)"], False),
                                    (["NOT ST_Within(a.g, b.g)"], False), (["(ST_Within(a.g, b.g) OR a.n = 1)"], False),
                                    (["ST_Relate(a.g, b.g, 'T********')"], True), (["ST_Relate(a.g, b.g, 'FF*FF****')"], False)):
            self.assertEqual(attack.of_sqlite(self.QUERY._replace(conjuncts=conjuncts))[1], has_tree, conjuncts)

    def test_geos_is_asked_for_pairs_of_one_predicate_or_rows_of_a_window(self):
        self.assertEqual(attack.geos_words(self.QUERY, "tables"), ["tables", "join", "within", "a.pairs", "b.pairs"])
        contains = self.QUERY._replace(conjuncts=["ST_Contains(a.g, b.g)"], items="COUNT(*)")
        self.assertEqual(attack.geos_words(contains, "tables"), ["tables", "join", "within", "b.pairs", "a.pairs"])
        window = self.QUERY._replace(tables=1, items="a.id", conjuncts=["ST_Touches(a.g, ST_GeomFromText('POINT(0 0)'))"])
        self.assertEqual(attack.geos_words(window, "tables"), ["tables", "window", "touches", "a.pairs", "window"])
        for other in (self.QUERY._replace(items="b.t, a.id"), self.QUERY._replace(limit=" LIMIT 5"), self.QUERY._replace(conjuncts=["ST_Equals(a.g, b.g)"])):
            self.assertEqual(attack.geos_words(other, "tables"), [])

    def test_growth(self):
        self.assertAlmostEqual(attack.growth_of((1000, 0.01), (4000, 0.16)), 2)
        # A time that is too short counts as the least that is of use, and so the growth is no greater than it is.
        self.assertAlmostEqual(attack.growth_of((1000, 0.0001), (4000, 0.032)), 2)
        self.assertEqual(attack.growth_of((1000, 0.001), (4000, 0.004)), 0)
        self.assertEqual(attack.growth_of((1000, 0.1), (4000, None)), 0)

    def test_answers_are_compared_row_by_row(self):
        ours, theirs = (lambda printed, who=who: attack.answer_of_query(self.QUERY, who, printed) for who in ("sfq", "sqlite3"))
        self.assertEqual(ours(b"a.id,b.t\n1,t7\n2,t7\n"), theirs(b"2,t7\r\n1,t7\r\n"))
        self.assertEqual(ours(b'a.id,a.g\n1,"MULTIPOINT((2 3),(4 5))"\n'), theirs(b'1,"MULTIPOINT(2 3,4 5)"\r\n'))
        self.assertEqual(ours(b"a.id\n"), theirs(b""))
        for printed in (b"1,t7\r\n2,t8\r\n", b"2,t7\r\n1,t9\r\n", b"1,t7\r\n", b"1,t7\r\n2,t7\r\n2,t7\r\n", b"t7,1\r\nt7,2\r\n"):
            self.assertNotEqual(ours(b"a.id,b.t\n1,t7\n2,t7\n"), theirs(printed), printed)
        self.assertNotEqual(ours(b'a.g\n"LINESTRING(2 3,4 5)"\n'), theirs(b'"MULTIPOINT(2 3,4 5)"\r\n'))
        self.assertNotEqual(ours(b"COUNT(*)\n3\n"), theirs(b"4\n"))

    def test_rows_of_geos_are_counted(self):
        counting = self.QUERY._replace(items="COUNT(*)")
        self.assertEqual(attack.answer_of_query(counting, "GEOS", b"a.id,b.id\n1,2\n2,2\n"), attack.answer_of_query(counting, "sfq", b"COUNT(*)\n2\n"))
        self.assertEqual(attack.answer_of_query(self.QUERY, "GEOS", b"a.id,b.id\n1,2\n"), [["1", "2"]])
        turned = self.QUERY._replace(conjuncts=["ST_Touches(b.g, a.g)"])
        self.assertEqual(attack.answer_of_query(turned, "GEOS", b"a.id,b.id\n2,1\n"), [["1", "2"]])

    def test_an_answer_of_shapes(self):
        self.assertEqual(attack.answer_of_shapes("GEOS", b"FF2FF1212\n"), ["FF2FF1212"])
        self.assertEqual(attack.answer_of_shapes("sfq", b"one 1\n"), attack.answer_of_shapes("GEOS", b"1\n"))


class Reports(unittest.TestCase):
    """What is reported of programs whose seconds are planted: as many as a function of the rows says."""

    def noted(self, seconds, of_peer=None):
        """What is noted of a count of rows, by `sfq` and perhaps a peer."""
        query = attack.Query(1, "COUNT(*)", ["a.n = 7"], "", {"a.n": "of ten", "a.t": "of eight", "a.g": "points in one place"})

        def task(rows, folder):
            made = attack.query_task(query, "1", attack.Programs("sfq"), rows, folder)
            return made._replace(words=made.words | {"DuckDB": ["peer"]}) if of_peer else made

        def probe(command, folder, given, most):
            rows = (folder / "a.csv").read_text().count("\n") - 1
            (folder / "output").write_text(f"COUNT(*)\n{rows}\n" if command[0] == "sfq" else f"{rows}\n")
            took = (seconds if command[0] == "sfq" else of_peer)(rows)
            return 0, min(START + took, most), 0, 0 if took < most else -9

        options = mock.Mock(seed=1, growth=1.3, behind=1.1, keep="", times=True)
        made = attack.Drawn(query.label, 500, 8_000, task, attack.words_of_query(query))
        with tempfile.TemporaryDirectory(prefix="sfq-attack-") as room, mock.patch.object(attack, "drawn", lambda *_: made), mock.patch.object(attack, "probe", probe):
            return attack.Measures(options, room, attack.Programs("sfq")).row(1)

    def test_a_time_that_grows_with_the_square_is_reported(self):
        noted = self.noted(lambda rows: 3e-8 * rows * rows)
        self.assertEqual((noted.seen, noted.size), (("grows",), 2_000))
        self.assertAlmostEqual(noted.growth, 2, delta=0.1)
        self.assertIn("--seed 7 --only 1 ", noted.commands(7))
        self.assertIn("sfq run schema.sql . 'SELECT COUNT(*) FROM a a WHERE a.n = 7'", noted.commands(7))

    def test_a_time_that_grows_with_the_rows_is_not(self):
        noted = self.noted(lambda rows: 2e-5 * rows)
        self.assertEqual((noted.seen, noted.size), ((), 8_000))
        self.assertAlmostEqual(noted.growth, 1, delta=0.1)

    def test_what_takes_longer_than_a_peer_is_reported(self):
        noted = self.noted(lambda rows: 2e-5 * rows, lambda rows: 1e-5 * rows)
        self.assertEqual((noted.seen, noted.best), (("behind",), "DuckDB"))
        self.assertAlmostEqual(noted.ratio, 2, delta=0.01)

    def test_what_takes_too_long_is_reported(self):
        noted = self.noted(lambda rows: 1.0 * rows)
        self.assertEqual((noted.seen, noted.seconds, noted.size), (("is ended",), None, 500))

    def test_what_is_furthest_behind_comes_first(self):
        it = attack.Drawn("x", 500, 500, None, ())
        rows = [attack.Noted(at, it, 500, 1.0, growth, "GEOS", 1.0, 0, ratio) for at, (growth, ratio) in enumerate(((1.9, 0), (1, 2), (1.4, 0), (1, 50)))]
        self.assertEqual([row.number for row in sorted(rows, key=lambda row: row.order)], [3, 1, 0, 2])


def asked_by(query, rows):
    """The texts of a query's geometries, those of its constants among them."""
    texts = {row[3] for table in rows.values() for row in table if row[3]}
    return sorted(texts | set(re.findall(r"ST_GeomFromText\('([^']*)'\)", query.text)))


def answer_of_model(query, rows, matrices):
    """The rows that SQLite gives of a query, by predicates of known matrices, as texts."""
    connection = sqlite3.connect(":memory:")

    def related(name, first, second):
        dimensions = predicates.dimension(first), predicates.dimension(second)
        return outcomes.holds(name, matrices[first, second], dimensions)

    def add(name, count, of):
        connection.create_function(name, count, lambda *words: None if None in words else of(*words))

    for name in attack.PREDICATES:
        add(name, 2, lambda first, second, name=name: related(name, first, second))
    add("ST_Relate", 3, lambda first, second, pattern: related(pattern, first, second))
    add("ST_GeomFromText", 1, lambda text: text)
    add("ST_AsText", 1, lambda text: text)
    add("ST_IsEmpty", 1, lambda text: text.endswith("EMPTY"))
    add("ST_Dimension", 1, predicates.dimension)
    for it, table in rows.items():
        connection.execute(f"CREATE TABLE {it} (id INTEGER PRIMARY KEY, n INTEGER, t TEXT, g TEXT)")
        connection.executemany(f"INSERT INTO {it} VALUES (?, ?, ?, ?)", table)
    order = "" if query.items == "COUNT(*)" else " ORDER BY " + ", ".join(f"{it}.id" for it in rows)
    found = connection.execute(query.text.removesuffix(query.limit) + order + query.limit).fetchall()
    connection.close()
    return [["" if it is None else str(it) for it in row] for row in found]


class ByProgram(unittest.TestCase):
    ASKS_PROGRAM = True

    def asked(self, *words, given=None, cwd=None):
        ran = subprocess.run([repository.PROGRAM, *words], cwd=cwd, input=given, capture_output=True, text=True)
        self.assertEqual((ran.stderr, ran.returncode), ("", 0), ran.stderr)
        return ran.stdout

    @needs_build
    def test_answers_to_queries_are_those_of_sqlite_over_matrices(self):
        """As many queries are drawn as a minute of the attack draws. Peers aren't needed: SQLite is Python's own."""
        asked = []
        for number, query in enumerate(queries(40)):
            with tempfile.TemporaryDirectory(prefix="sfq-attack-") as name:
                attack.write_tables(query, random.Random(number), 6, pathlib.Path(name))
                rows = {it: [[value or None for value in row] for row in list(csv.reader(open(f"{name}/{it}.csv")))[1:]] for it in "ab"[: query.tables]}
                asked.append((query, rows, list(csv.reader(io.StringIO(self.asked("run", "schema.sql", ".", query.text, cwd=name))))[1:]))
        pairs = sorted({pair for query, rows, _ in asked if query.is_spatial for pair in itertools.product(asked_by(query, rows), repeat=2)})
        lines = io.StringIO()
        csv.writer(lines).writerows(pairs)
        matrices = dict(zip(pairs, self.asked("pairs", "-", given=lines.getvalue()).splitlines()))
        for query, rows, answer in asked:
            with self.subTest(query=query.label):
                self.assertEqual(answer, answer_of_model(query, rows, matrices))

    @needs_build
    def test_shapes_are_related_and_checked(self):
        """Few of them are too small to be valid."""
        programs, refused = attack.Programs(repository.PROGRAM), []
        for number in range(60):
            it = attack.drawn(1, number, programs)
            if it.first == attack.POSITIONS:
                with self.subTest(shapes=it.label), tempfile.TemporaryDirectory(prefix="sfq-attack-") as name:
                    it.task(8, pathlib.Path(name))
                    ran = subprocess.run([repository.PROGRAM, *it.words], cwd=name, capture_output=True, text=True)
                    refused += [it.label] * (ran.returncode in (4, 5))
                    self.assertRegex(ran.stdout or "one 1\n" * (ran.returncode in (4, 5)), r"^([F012]{9}|one 1)\n$")
        self.assertLess(len(refused), 4, refused)


if __name__ == "__main__":
    unittest.main()
