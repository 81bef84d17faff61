"""SQLite's extension: the rows of the engine's own scripts and of the land register, NULL, faults, threads, and memory."""
import csv
import io
import re
import subprocess
import unittest

from support import examples, needs

import engine_rows
import sqlite_sessions
import wkb_model

# What a fault calls the two texts.
NAMES = ("first", "second")


class Sqlite(sqlite_sessions.WithExtension):
    """The command sqlite3 with the extension, which is made for this."""

    def value(self, expression):
        """Returns the value of an expression, or the text of its error."""
        out, err, status = self.asked(f"SELECT {expression};")
        return out.strip().strip('"') if status == 0 else err.strip().partition("sfq: ")[2]

    def check_queries(self, queries):
        for it in queries:
            out, err, status = self.asked(f"{it.tables}\n{it.text};")
            self.assertEqual((err, status), ("", 0), it.text)
            self.assertEqual(engine_rows.sorted_rows(out), it.rows, it.text)

    def test_the_queries_of_the_documents_give_what_sfq_run_gives(self):
        queries = engine_rows.example_queries()
        self.assertGreaterEqual(len(queries), 25)
        self.check_queries(queries)

    def test_each_predicate_of_the_engines_rows(self):
        queries = engine_rows.predicate_queries()
        self.assertGreaterEqual(len(queries), 25)
        self.check_queries(queries)

    def test_matrices_and_faults_of_the_engines_rows(self):
        pairs = engine_rows.pairs()
        lines = ["CREATE TABLE pair (id INTEGER PRIMARY KEY, a TEXT, b TEXT);"]
        for at, it in enumerate(pairs):
            texts = ",".join("'" + text.replace("'", "''") + "'" for text in it[:2])
            lines.append(f"INSERT INTO pair VALUES ({at}, {texts});")
        whole = [at for at, it in enumerate(pairs) if it.matrix]
        lines.append(f"SELECT id, ST_Relate(a, b) FROM pair WHERE id IN ({','.join(map(str, whole))}) ORDER BY id;")
        lines.append("SELECT ST_IsValidReason(a), ST_IsValidReason(b) FROM pair ORDER BY id;")
        out, err, status = self.asked("\n".join(lines))
        self.assertEqual((err, status), ("", 0))
        found = engine_rows.sorted_rows(out)
        self.assertEqual(sorted(it for it in found if it[0].isdigit()), sorted((str(at), pairs[at].matrix) for at in whole))
        reasons = [it for it in map(tuple, csv.reader(out.splitlines())) if not it[0].isdigit()]
        for it, found in zip(pairs, reasons, strict=True):
            self.assertEqual(self.first_fault(found), it.fault, f"{it.first} {it.second}")

    @staticmethod
    def first_fault(reasons):
        """Returns the line that the program prints where these are the reasons of two texts."""
        for name, reason in zip(NAMES, reasons):
            if reason != "Valid Geometry":
                return f"sfq: {name} {reason.partition(':')[0]}"
        return ""

    def test_relations_that_only_bindings_have(self):
        square = "'POLYGON((0 0,4 0,4 4,0 4,0 0))'"
        for call, wanted in (
            (f"ST_Covers({square}, 'LINESTRING(0 0,4 0)')", "1"),
            (f"ST_CoveredBy('LINESTRING(0 0,4 0)', {square})", "1"),
            (f"ST_Contains({square}, 'LINESTRING(0 0,4 0)')", "0"),
            (f"ST_ContainsProperly({square}, 'POINT(1 1)')", "1"),
            (f"ST_ContainsProperly({square}, 'LINESTRING(0 0,2 2)')", "0"),
            ("ST_Covers('POINT EMPTY', 'POINT EMPTY')", "0"),
        ):
            self.assertEqual(self.value(call), wanted, call)

    def test_why_is_what_the_program_prints(self):
        reasons = engine_rows.reasons()
        self.assertGreater(len(reasons), 40)
        calls = ["ST_Why(" + ",".join("'" + text.replace("'", "''") + "'" for text in words) + ")" for words, _ in reasons]
        out, err, status = self.asked("".join(f"SELECT {it};\n" for it in calls))
        self.assertEqual((err, status), ("", 0))
        found = [it for it, in csv.reader(io.StringIO(out, newline=""))]
        self.assertEqual(found, [lines.rstrip("\n") for _, lines in reasons])

    def test_dimensions_and_bounds(self):
        for text, dimension, is_empty, bounds in engine_rows.measures():
            call = ", ".join(f"{it}(geom)" for it in ("ST_Dimension", "ST_IsEmpty", "ST_XMin", "ST_XMax", "ST_YMin", "ST_YMax"))
            out, err, status = self.asked(f"SELECT {call} FROM (SELECT '{text}' AS geom);")
            self.assertEqual((out, err, status), (",".join([dimension, str(int(is_empty)), *bounds]) + "\n", "", 0), text)

    def test_canonical_texts(self):
        for name in ("ST_GeomFromText", "ST_AsText"):
            for text, canonical in engine_rows.canonical_texts():
                quoted = "'" + text.replace("'", "''") + "'"
                self.assertEqual(self.value(f"quote({name}({quoted}))"), f"'{canonical}'", text)

    def test_well_known_binary(self):
        """By the model: texts become bytes and texts again, and bytes by chance become their text or an error."""
        for text in ("POINT(1 -2)", "POINT EMPTY", "MULTIPOINT((3 4),(3 4))", "LINESTRING EMPTY", "LINESTRING(0 0,4 0,-1 7)",
                     "POLYGON((0 0,8 0,8 8,0 8,0 0),(2 2,6 2,6 6,2 6,2 2))", "MULTILINESTRING((0 0,1 1),(5 5,5 6))",
                     "MULTIPOLYGON(((0 0,9 0,9 9,0 0)),((20 0,21 0,21 1,20 0)))"):
            written = self.value(f"hex(ST_AsBinary('{text}'))")
            self.assertEqual(wkb_model.said(bytes.fromhex(written)).split(" ", 4)[4], text)
            self.assertEqual(self.value(f"ST_GeomFromWKB(x'{written}')"), text)
        for value in wkb_model.drawn(8, 60):
            found, wanted = self.value(f"ST_GeomFromWKB(x'{value.hex()}')"), wkb_model.said(value)
            if wanted[0] == "W":
                self.assertTrue(found.startswith(f"first {wanted.replace(' ', ' at ')}: "), (value.hex(), found, wanted))
            elif wanted == "4":
                self.assertIn("a type that sfq doesn't have", found)
            elif not found.startswith("first V"):
                self.assertEqual(found, wanted.split(" ", 4)[4])

    def test_null_in_null_out(self):
        for call in ("ST_Touches(NULL, 'POINT(1 1)')", "ST_Touches('POINT(1.5 1)', NULL)", "ST_Relate(NULL, NULL)",
                     "ST_Relate('POINT(1 1)', 'POINT(1 1)', NULL)", "ST_IsValid(NULL)", "ST_IsValidReason(NULL)",
                     "ST_Why(NULL)", "ST_Why('POINT(1 1)', NULL)", "ST_Dimension(NULL)", "ST_IsEmpty(NULL)", "ST_XMin(NULL)",
                     "ST_GeomFromText(NULL)", "ST_AsText(NULL)", "ST_GeomFromWKB(NULL)", "ST_AsBinary(NULL)"):
            self.assertEqual(self.value(f"{call} IS NULL"), "1", call)

    def test_faults_are_errors_and_values(self):
        for call, wanted in (
            ("ST_Touches('POINT(1 2', 'CIRCLE')", "first W1 at 9: "),
            ("ST_Relate('POINT(1 2)', 'POLYGON((0 0,4 0,4 4,0 4,0 0),(0 2,1 1,1 3,0 2))')", "second V4 0 1: "),
            ("ST_Relate('POINT(1 2)', 'POINT(1 2)', 'TTT')", "a pattern is nine characters"),
            ("ST_Relate('POINT(1 2)', 'POINT(1 2)', 'TTTTTTTT' || char(0))", "a pattern is nine characters"),
            ("ST_Touches(x'00', 'POINT(1 2)')", "first isn't a text"),
            ("ST_Touches('POINT(1 2)', 7)", "second isn't a text"),
            ("ST_Why('POINT(1 2', 'CIRCLE')", "first W1 at 9: "),
            ("ST_Why('POINT(1 2)', 'POINT(1.5 2)')", "second W2 at 6: "),
            ("ST_Why('POINT(1.5 2)')", "first W2 at 6: "),
            ("ST_Dimension('POLYGON((0 0,4 4,4 0,0 4,0 0))')", "first V3 0: "),
            ("ST_IsEmpty('POINT')", "first W1 at 5: "),
            ("ST_YMax('LINESTRING(1 1,1 1)')", "first V1 0: "),
            ("ST_XMin(7)", "first isn't a text"),
            ("ST_GeomFromText('POINT(1.5 2)')", "first W2 at 6: "),
            ("ST_GeomFromText(x'00')", "first isn't a text"),
            ("ST_AsText('POLYGON((0 0,4 4,4 0,0 4,0 0))')", "first V3 0: "),
            ("ST_AsBinary('POINT(1.5 2)')", "first W2 at 6: "),
            ("ST_AsBinary(x'00')", "first isn't a text"),
            ("ST_GeomFromWKB('POINT(1 2)')", "first isn't a blob"),
            ("ST_GeomFromWKB(x'')", "first W1 at 0: from this byte on it isn't well-known binary"),
            ("ST_GeomFromWKB(x'0101000000000000000000F83F0000000000000040')", "first W2 at 0: the position with this number isn't at whole"),
            ("ST_GeomFromWKB(x'0107000000')", "first has a type that sfq doesn't have"),
            ("ST_IsValid('POINT(1.5 2)')", "0"),
            ("ST_IsValid('POINT(1 2)')", "1"),
            ("ST_IsValidReason('POINT(1.5 2)')", "W2 at 6: the number at this byte isn't whole: scale"),
            ("ST_IsValidReason('POINT(1 2)' || char(0))", "W1 at 10: "),
        ):
            self.assertTrue(self.value(call).startswith(wanted), f"{call}: {self.value(call)}")

    def test_an_index_may_use_the_functions(self):
        """SQLite takes only functions in an index that give the same for the same."""
        text = "CREATE TABLE t (a TEXT); CREATE INDEX i ON t (ST_IsValid(a)); INSERT INTO t VALUES ('POINT(1 1)'), ('POINT');"
        self.assertEqual(self.asked(f"{text} SELECT count(*) FROM t WHERE ST_IsValid(a) = 0;"), ("1\n", "", 0))

    def test_the_example_of_the_document(self):
        shown = examples("SQLITE", "sql")
        self.assertGreaterEqual(len(shown), 1)
        self.check_shown(shown)

    def test_each_allocation_refused_in_turn(self):
        pairs = [it for it in engine_rows.pairs() if self.is_line(it)][::3]
        quote = lambda text: "'" + text.replace("'", "''") + "'"
        calls = [f"ST_Relate({quote(it.first)}, {quote(it.second)})" for it in pairs]
        calls += ["ST_Relate('POINT(1 1)', 'LINESTRING(0 0,2 2)', '0********')", "ST_Touches('LINESTRING(0 0,2 2)', 'POINT(2 2)')",
                  "ST_Touches('POINT(1 1)', 'POINT(1.5 1)')", "ST_IsValid('POINT(1 1)')", "ST_IsValidReason('LINESTRING(1 1,1 1)')",
                  "ST_Why('LINESTRING(0 0,3 1)', 'LINESTRING(0 1,2 0)')", "ST_Why('POLYGON((0 0,4 4,4 0,0 4,0 0))')",
                  "ST_Dimension('POINT(2 1)')", "ST_IsEmpty('POINT(3 1)')", "ST_XMin('POINT(4 1)')", "ST_YMax('POINT EMPTY')",
                  "ST_GeomFromText('POINT (5 1)')", "hex(ST_AsBinary('POINT (5 2)'))",
                  "ST_GeomFromWKB(x'0101000000000000000000F03F0000000000000040')", f"ST_AsText('LINESTRING({','.join(f'{it} {it}' for it in range(400))})')"]
        lines = "".join(f"SELECT {it};\n" for it in calls)
        ran = subprocess.run([self.program("refusing"), f"{self.room.name}/sfq0"], input=lines, capture_output=True, text=True)
        self.assertEqual((ran.returncode, ran.stderr), (0, ""), ran.stdout)
        self.assertGreater(int(re.match(r"(\d+) refused, 0 bad$", ran.stdout)[1]), 500)

    def two_threads(self, times, *before):
        """Has two threads ask for the matrices of pairs so often. Returns what came of it, and how many they ask for."""
        program = self.program("threads")
        lines = [f"{it.first}\t{it.second}\t{it.matrix}\n" for it in engine_rows.pairs() if self.is_line(it)]
        call = [*before, program, f"{self.room.name}/sfq0", str(times)]
        return subprocess.run(call, input="".join(lines), capture_output=True, text=True), 2 * times * len(lines)

    @staticmethod
    def is_line(pair):
        return pair.matrix and not set("\t\n\r") & set(pair.first + pair.second) and len(pair.first) + len(pair.second) < 2_000

    def test_two_connections_in_two_threads(self):
        ran, count = self.two_threads(20)
        self.assertEqual((ran.returncode, ran.stdout, ran.stderr), (0, f"{count} asked, 0 differ\n", ""))
        self.assertGreater(count, 4_000)

    @needs("valgrind", "valgrind")
    def test_valgrind_finds_nothing(self):
        ran, _ = self.two_threads(1, "valgrind", "-q", "--leak-check=full", "--show-leak-kinds=definite,indirect", "--error-exitcode=9")
        self.assertEqual((ran.returncode, ran.stderr), (0, ""))

    def test_only_the_entry_can_be_seen(self):
        ran = subprocess.run(["nm", "-D", "--defined-only", f"{self.room.name}/sfq0.so"], capture_output=True, text=True, check=True)
        self.assertEqual([it.split()[-1] for it in ran.stdout.splitlines()], ["sqlite3_sfq_init"])


if __name__ == "__main__":
    unittest.main()
