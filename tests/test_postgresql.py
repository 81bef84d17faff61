"""PostgreSQL's extensions, by a server of the test's own: the tests in PGXS's form, the rows of the engine's own scripts and of the
land register, ordinary roles, several sessions, and calls that take long or much memory."""
import csv
import functools
import io
import os
import re
import shutil
import struct
import subprocess
import threading
import time
import unittest

from support import ROOT, examples, read

import bindings
import c_programs
import engine_rows
import postgresql_server
import version

NAMES = ("first", "second")


def combs(teeth):
    """Returns an expression of two areas with so many teeth, each of which crosses all of the other."""
    tips = [(at, at % 2 * 2 * teeth) for at in range(2 * teeth + 1)]
    lying = [*tips, (2 * teeth, -5), (0, -5), (0, 0)]
    shown = [",".join(f"{x} {y}" for x, y in it) for it in (lying, [(y, x) for x, y in lying])]
    return ", ".join(f"'POLYGON(({it}))'" for it in shown)


class WithServer(engine_rows.WithLibrary):
    """A test case of a server that has the extensions, over the library that ./build --library made."""

    @classmethod
    def setUpClass(cls):
        super().setUpClass()
        lacking = postgresql_server.lacks()
        if lacking:
            raise unittest.SkipTest(f"needs the package {lacking}")
        cls.server = postgresql_server.Server()
        try:
            # Undefined behaviour of the extension ends its process.
            bindings.make_postgresql("install", f"DESTDIR={cls.server.room}", f"COPT={c_programs.trapping()}")
            cls.server.start()
            cls.server.run("CREATE EXTENSION sfq;")
        except BaseException:
            cls.server.stop()
            raise

    @classmethod
    def tearDownClass(cls):
        cls.server.stop()

    def asked(self, text):
        """Runs SQL in a session that finds the functions first, and returns the rows as CSV."""
        out, err, status = self.server.run(f"\\pset format csv\nSET search_path = sfq, public;\n{text}")
        self.assertEqual((err, status), ("", 0), text)
        return out


class Postgresql(WithServer):
    """What the extensions give."""

    def regress(self, name):
        """Runs one test of the folder postgresql by `make installcheck`, in a copy."""
        room = f"{self.server.room}/{name}"
        shutil.copytree(f"{ROOT}/bindings/postgresql", room)
        ran = subprocess.run(["make", "-C", room, "installcheck", f"REGRESS={name}"], capture_output=True, text=True,
                             env=self.server.environment())
        differences = read(f"{room}/regression.diffs") if os.path.isfile(f"{room}/regression.diffs") else ""
        self.assertEqual(ran.returncode, 0, differences or ran.stdout + ran.stderr)

    def test_functions_over_texts(self):
        self.regress("sfq")

    def test_functions_over_geometries_of_postgis(self):
        if not postgresql_server.has_extension("postgis"):
            self.skipTest("needs the package postgresql-15-postgis-3")
        self.regress("sfq_postgis")

    def test_only_what_the_server_looks_for_can_be_seen(self):
        module = f"{self.server.room}{bindings.of_postgresql()[0]}"
        ran = subprocess.run(["nm", "-D", "--defined-only", module], capture_output=True, text=True, check=True)
        names = {it.split()[-1] for it in ran.stdout.splitlines()}
        called = {it for it in names if it.startswith("sql_sfq_")}
        self.assertGreater(len(called), 20)
        self.assertEqual(names, {"Pg_magic_func", "_PG_init", *called, *(f"pg_finfo_{it}" for it in called)})

    def check_queries(self, queries):
        for it in queries:
            # Rows come in the order of the key in sfq, and here in any order.
            query = it.text.replace(" LIMIT ", " ORDER BY 1 LIMIT ")
            out = self.asked(f"BEGIN; SET LOCAL client_min_messages = warning;\n{it.tables}\n{query};\nROLLBACK;")
            self.assertEqual([self.as_sfq(it.text, row) for row in engine_rows.sorted_rows(out)], it.rows, it.text)

    @staticmethod
    def as_sfq(query, row):
        """Returns a row as sfq writes it: a truth value, which only ST_IsEmpty gives in a column, is 1 or 0."""
        return tuple({"t": "1", "f": "0"}.get(it, it) for it in row) if "ST_IsEmpty" in query else row

    def test_the_queries_of_the_documents_give_what_sfq_run_gives(self):
        self.check_queries(engine_rows.example_queries())

    def test_each_predicate_of_the_engines_rows(self):
        self.check_queries(engine_rows.predicate_queries())

    def test_matrices_and_faults_of_the_engines_rows(self):
        pairs = [it for it in engine_rows.pairs() if "\0" not in it.first + it.second]
        values = ",\n".join(f"({at}, {self.literal(it.first)}, {self.literal(it.second)})" for at, it in enumerate(pairs))
        out = self.asked(
            f"CREATE TEMPORARY TABLE pair (id, a, b) AS VALUES {values};\n"
            "SELECT CASE WHEN ST_IsValid(a) AND ST_IsValid(b) THEN ST_Relate(a, b) END, ST_IsValidReason(a), ST_IsValidReason(b)\n"
            "FROM pair ORDER BY id;"
        )
        for it, (matrix, *reasons) in zip(pairs, csv.reader(out.splitlines()), strict=True):
            named = [(name, reason) for name, reason in zip(NAMES, reasons) if reason != "Valid Geometry"]
            fault = f"sfq: {named[0][0]} {named[0][1].partition(':')[0]}" if named else ""
            self.assertEqual((matrix, fault), (it.matrix, it.fault), f"{it.first} {it.second}")

    def test_why_is_what_the_program_prints(self):
        reasons = [it for it in engine_rows.reasons() if "\0" not in "".join(it[0])]
        self.assertGreater(len(reasons), 40)
        out = self.asked("".join(f"SELECT ST_Why({', '.join(map(self.literal, words))});\n" for words, _ in reasons))
        found = [it for it, in csv.reader(io.StringIO(out, newline=""))]
        self.assertEqual(found, [lines.rstrip("\n") for _, lines in reasons])

    def test_dimensions_and_bounds(self):
        measures = engine_rows.measures()
        values = ",".join(f"({at}, {self.literal(text)})" for at, (text, *_) in enumerate(measures))
        out = self.asked("SELECT ST_Dimension(a), ST_IsEmpty(a), ST_XMin(a), ST_XMax(a), ST_YMin(a), ST_YMax(a) "
                         f"FROM (VALUES {values}) t (id, a) ORDER BY id;")
        self.assertEqual(list(csv.reader(out.splitlines())), [[dimension, "ft"[is_empty], *bounds] for _, dimension, is_empty, bounds in measures])

    def test_binary_forms(self):
        """Of both orders of bytes; NULL for what is cut off, changed, off the grid or not flat."""
        little, big = "'\\x0101000000000000000000f03f0000000000000040'::bytea", "'\\x00000000013ff00000000000004000000000000000'::bytea"
        with_system = "'\\x0101000020e6100000000000000000f03f0000000000000040'::bytea"
        with_z = "'\\x0101000080000000000000f03f00000000000000400000000000000040'::bytea"
        half = "'\\x0101000000000000000000e03f0000000000000040'::bytea"
        self.assertEqual(self.asked(
            f"SELECT binary_relate({little}, {big}), binary_relate({little}, {with_system}) IS NULL, "
            f"binary_relate({with_system}, {with_system}), binary_relate({with_z}, {little}) IS NULL, "
            f"binary_relate({little}, {half}) IS NULL, binary_holds({little}, {big}, 0), binary_relate({little}, {big}, 'T********');"
        ), "0FFFFFFF2,t,0FFFFFFF2,t,t,t,t\n")
        # MULTIPOLYGON(((0 0,9 0,9 9,0 0),(5 2,6 2,6 3,5 2)),((20 0,21 0,21 1,20 0)))
        rings = [[(0, 0), (9, 0), (9, 9), (0, 0)], [(5, 2), (6, 2), (6, 3), (5, 2)], [(20, 0), (21, 0), (21, 1), (20, 0)]]
        packed = [struct.pack("<I", 4) + b"".join(struct.pack("<dd", *it) for it in ring) for ring in rings]
        polygons = [struct.pack("<BII", 1, 3, len(it)) + b"".join(it) for it in (packed[:2], packed[2:])]
        value = f"'\\x{(struct.pack('<BII', 1, 6, 2) + b''.join(polygons)).hex()}'::bytea"
        self.assertEqual(self.asked(
            f"SELECT binary_relate({value}, {value}), ST_Relate('MULTIPOLYGON(((0 0,9 0,9 9,0 0),(5 2,6 2,6 3,5 2)),"
            "((20 0,21 0,21 1,20 0)))', 'POINT(1 2)'), "
            f"binary_relate({value}, {little});\n"
            f"SELECT count(binary_relate(substring({value} FOR n), {value})) FROM generate_series(0, length({value}) - 1) n;\n"
            f"SELECT count(binary_relate({value} || '\\x00'::bytea, {value}));"
        ), "2FFF1FFF2,FF2FF10F2,FF2FF10F2\n0\n0\n")
        # Any byte changed to any of some values: a matrix or NULL, and the server goes on.
        self.assertEqual(self.asked(
            f"SELECT count(*) FROM generate_series(0, length({value}) - 1) n, unnest(ARRAY[0, 1, 2, 127, 128, 240, 255]) b "
            f"WHERE coalesce(binary_relate(set_byte({value}, n, b), {value}) !~ '^[F012]{{9}}$', false);"
        ), "0\n")

    def test_geometries_of_postgis_are_as_their_texts(self):
        """The engine's rows, as far as PostGIS reads their texts."""
        if not postgresql_server.has_extension("postgis"):
            self.skipTest("needs the package postgresql-15-postgis-3")
        pairs = [it for it in engine_rows.pairs() if it.matrix and not re.search(r"[+]|(?<!\d)\.|\.(?!\d)", it.first + it.second)]
        values = ",\n".join(f"({at}, {self.literal(it.first)}, {self.literal(it.second)})" for at, it in enumerate(pairs))
        out = self.asked(
            "BEGIN; SET LOCAL client_min_messages = warning; CREATE EXTENSION postgis SCHEMA public; CREATE EXTENSION sfq_postgis;\n"
            "CREATE FUNCTION read(given text) RETURNS geometry LANGUAGE plpgsql AS\n"
            "$$ BEGIN RETURN given::geometry; EXCEPTION WHEN OTHERS THEN RETURN NULL; END $$;\n"
            f"CREATE TEMPORARY TABLE pair (id, a, b) AS VALUES {values};\n"
            "CREATE TEMPORARY TABLE shape AS SELECT id, read(a) AS a, read(b) AS b FROM pair;\n"
            "SELECT id, ST_Relate(a, b), binary_relate(ST_AsEWKB(a), ST_AsEWKB(b)) FROM shape WHERE a IS NOT NULL AND b IS NOT NULL "
            "ORDER BY id;\nROLLBACK;"
        )
        rows = list(csv.reader(out.splitlines()))
        self.assertGreaterEqual(len(rows), 140)
        for at, *matrices in rows:
            self.assertEqual(matrices, [pairs[int(at)].matrix] * 2, f"{pairs[int(at)].first} {pairs[int(at)].second}")

    @staticmethod
    def literal(text):
        return "'" + text.replace("'", "''") + "'"

    def test_four_sessions_at_once(self):
        query = ("SELECT count(*) FROM generate_series(0, 99) x, generate_series(0, 99) y "
                 "WHERE sfq.ST_Within('POINT(' || x || ' ' || y || ')', 'POLYGON((0 0,50 0,50 50,0 50,0 0))');")
        found = []
        threads = [threading.Thread(target=lambda: found.append(self.server.run(query))) for _ in range(4)]
        for it in threads:
            it.start()
        for it in threads:
            it.join()
        self.assertEqual(found, [("2401\n", "", 0)] * 4)

    def test_parallel_workers_may_run_them(self):
        out = self.asked(
            "CREATE TABLE many AS SELECT 'POINT(' || i || ' 1)' AS geom FROM generate_series(1, 20000) i;\n"
            "SET parallel_setup_cost = 0; SET parallel_tuple_cost = 0; SET min_parallel_table_scan_size = 0;\n"
            "EXPLAIN (COSTS OFF) SELECT count(*) FROM many WHERE ST_Intersects(geom, 'LINESTRING(0 1,5000 1)');\n"
            "SELECT count(*) FROM many WHERE ST_Intersects(geom, 'LINESTRING(0 1,5000 1)');\nDROP TABLE many;"
        )
        self.assertIn("Parallel Seq Scan on many", out)
        self.assertEqual(out.splitlines()[-1], "5000")

    def test_memory_stays_flat(self):
        """A hundred thousand calls and ten thousand faults in one session, whose memory before and after is that of its process."""
        calls = ("DO $$ DECLARE i int; BEGIN FOR i IN 1..100000 LOOP\n"
                 "PERFORM sfq.ST_Touches('POINT(' || i || ' 1)', 'POLYGON((0 0,4 0,4 4,0 4,0 0))'); END LOOP; END $$;\n"
                 "DO $$ DECLARE i int; BEGIN FOR i IN 1..10000 LOOP\n"
                 "BEGIN PERFORM sfq.ST_Touches('POINT(1 1)', 'POINT(1.5 1)'); EXCEPTION WHEN OTHERS THEN NULL; END; END LOOP; END $$;\n")
        measure = "\\setenv PID :pid\n\\! grep VmRSS /proc/$PID/status\n"
        out, err, status = self.server.run(f"SELECT pg_backend_pid() AS pid \\gset\n{calls}{measure}{calls}{calls}{measure}")
        self.assertEqual((err, status), ("", 0))
        before, after = map(int, re.findall(r"VmRSS:\s+(\d+) kB", out))
        self.assertLess(after - before, 2_000)

    def as_plain_role(self, text):
        """Runs SQL as a role that may do nothing but what everybody may."""
        made = "DO $$ BEGIN CREATE ROLE plain; EXCEPTION WHEN duplicate_object THEN NULL; END $$;\n"
        return self.server.run(f"{made}SET ROLE plain;\n{text}")

    def test_an_ordinary_role_may_call_them(self):
        """In a new database, and in one of the first version that is updated."""
        call = "SELECT sfq.ST_Touches('POINT(0 0)', 'LINESTRING(0 0,1 1)'), sfq.ST_Why('POINT(3 4)');"
        anew = "DROP EXTENSION sfq; DROP SCHEMA IF EXISTS sfq;"
        for before in (
            f"{anew} CREATE EXTENSION sfq;",
            f"{anew} CREATE EXTENSION sfq VERSION '0.1.0'; REVOKE USAGE ON SCHEMA sfq FROM PUBLIC; ALTER EXTENSION sfq UPDATE;",
        ):
            self.assertEqual(self.server.run(before)[1:], ("", 0))
            self.assertEqual(self.as_plain_role(call), ("t|valid\n", "", 0), before)

    def test_a_cancel_ends_a_call(self):
        """Of a call that takes many seconds; the session goes on."""
        for text in (f"sfq.ST_Why({combs(400)})", f"sfq.ST_Relate({combs(1_500)})"):
            begin = time.monotonic()
            out, err, status = self.server.run(
                f"SET sfq.memory = '4GB'; SET statement_timeout = 500;\n\\set ON_ERROR_STOP 0\nSELECT {text};\nSELECT sfq.ST_Dimension('POINT(1 1)');"
            )
            took = time.monotonic() - begin
            self.assertEqual((out.splitlines()[-1], status), ("0", 0), err)
            if "canceling statement due to statement timeout" in err:
                self.assertLess(took, 0.5 + 1.5, text)
            else:
                self.assertLess(took, 0.6, f"{text}: {err}")

    def test_memory_of_a_call_is_bounded(self):
        """The server's process holds no more than the setting, which an ordinary role can't change, and the session goes on."""
        measure = "\\setenv PID :pid\n\\! grep VmHWM /proc/$PID/status\n"
        out, err, status = self.server.run(
            f"SELECT pg_backend_pid() AS pid \\gset\n\\set VERBOSITY sqlstate\n\\set ON_ERROR_STOP 0\nSET sfq.memory = '64MB';\n{measure}"
            f"SELECT length(sfq.ST_Why({combs(450)}));\n{measure}SELECT sfq.ST_Why('POINT(1 1)');"
        )
        self.assertEqual((out.splitlines()[-1], err.strip(), status), ("valid", "ERROR:  54000", 0))
        before, after = map(int, re.findall(r"VmHWM:\s+(\d+) kB", out))
        self.assertLess(after - before, (64 + 32) * 1024)
        call = "SELECT sfq.ST_Why('POINT(1 1)');"
        self.assertIn("permission denied to set parameter", self.as_plain_role(f"{call} SET sfq.memory = '4GB';")[1])
        # Before the extension is loaded, the setting may be named; it isn't taken over.
        out, err, status = self.as_plain_role(f"SET sfq.memory = '4GB'; {call} SHOW sfq.memory;")
        self.assertEqual((out, status), ("valid\n256MB\n", 0), err)

    def check_update(self, name, before, added):
        """Compares what an extension has that was updated from an earlier version with what a new one has: so much is added."""
        listed = (f"SELECT extversion FROM pg_extension WHERE extname = '{name}';\nSELECT pg_describe_object(classid, objid, 0) FROM pg_depend "
                  f"WHERE refobjid = (SELECT oid FROM pg_extension WHERE extname = '{name}') ORDER BY 1;\n")
        new = self.asked(f"DROP EXTENSION {name};\nCREATE EXTENSION {name};\n{listed}")
        self.assertTrue(new.startswith(f"{version.of_extension(name)}\n"), new)
        first = self.asked(f"DROP EXTENSION {name};\nCREATE EXTENSION {name} VERSION '{before}';\n{listed}")
        self.assertTrue(first.startswith(f"{before}\n"), first)
        self.assertLessEqual(set(first.splitlines()[1:]), set(new.splitlines()))
        self.assertEqual(len(new.splitlines()) - len(first.splitlines()), added)
        self.assertEqual(self.asked(f"ALTER EXTENSION {name} UPDATE;\n{listed}"), new)

    def test_a_database_of_an_earlier_version_is_updated(self):
        """It has what a new one has then."""
        asked = "SELECT ST_Dimension('LINESTRING(0 0,1 1)'), ST_XMax('POINT(3 4)'), ST_Why('POINT(3 4)'), ST_AsText('POINT (3 4)');"
        released = re.findall(r"(?m)^## (\S+) \(", read(f"{ROOT}/CHANGELOG.md"))
        for before in released:
            if before != version.of_extension("sfq"):
                self.check_update("sfq", before, {"0.1.0": 10}.get(before, 2))
                self.assertEqual(self.asked(asked), "1,3,valid,POINT(3 4)\n")

    def test_a_database_with_postgis_of_an_earlier_version_is_updated(self):
        if not postgresql_server.has_extension("postgis"):
            self.skipTest("needs the package postgresql-15-postgis-3")
        self.server.run("CREATE EXTENSION postgis SCHEMA public; CREATE EXTENSION sfq_postgis;")
        try:
            self.check_update("sfq_postgis", "0.1.0", 8)
            asked = ("SELECT sfq.ST_Dimension(g), sfq.ST_IsEmpty(g), sfq.ST_XMin(g), sfq.ST_YMax(g), sfq.ST_Why(g), "
                     "length(sfq.ST_Why(g, g)) > 100 FROM (SELECT ST_MakePoint(3, 4) AS g) t;")
            self.assertEqual(self.asked(asked), "0,f,3,4,valid,t\n")
        finally:
            self.server.run("DROP EXTENSION sfq_postgis; DROP EXTENSION postgis;")

    def test_prepared_statements(self):
        """By the plan of each value, and by one plan for all."""
        for mode in ("force_custom_plan", "force_generic_plan"):
            out = self.asked(
                f"SET plan_cache_mode = {mode};\nPREPARE near (text, int) AS SELECT ST_Relate($1, 'POINT(' || i || ' 1)'), ST_AsText($1) "
                "FROM generate_series(1, $2) i WHERE ST_Intersects($1, 'POINT(' || i || ' 1)');\n"
                "EXECUTE near('LINESTRING(0 1,2 1)', 9);\nEXECUTE near('POINT(3 1)', 9);\nEXECUTE near(NULL, 9);\nEXECUTE near('POINT(3 1)', 2);\n"
                "EXECUTE near('LINESTRING(0 1,2 1)', 1);\n")
            self.assertEqual(out.splitlines(), ['0F1FF0FF2,"LINESTRING(0 1,2 1)"', 'FF10F0FF2,"LINESTRING(0 1,2 1)"', "0FFFFFFF2,POINT(3 1)",
                                                '0F1FF0FF2,"LINESTRING(0 1,2 1)"'], mode)

    def test_a_dump_is_restored(self):
        """A table with a check, an index and a generated column that call the functions, from one database into another."""
        run = functools.partial(subprocess.run, capture_output=True, text=True, env=self.server.environment(), cwd="/")
        made = ("CREATE TABLE field (id integer PRIMARY KEY, geom text CHECK (sfq.ST_IsValid(geom)), "
                "edge integer GENERATED ALWAYS AS (sfq.ST_XMax(geom)) STORED);\nCREATE INDEX field_shape ON field (sfq.ST_AsText(geom));\n"
                "INSERT INTO field (id, geom) VALUES (1, 'POINT (3 4)'), (2, NULL), (3, 'LINESTRING(0 0,9 9)');\n")
        asked = "SELECT id, sfq.ST_AsText(geom), edge FROM field ORDER BY id;"
        self.assertEqual(self.server.run(made)[1:], ("", 0))
        try:
            for form in ("plain", "custom"):
                self.assertEqual(self.server.run(f"CREATE DATABASE {form};")[1:], ("", 0))
                dump = f"{self.server.room}/dump.{form}"
                ran = run([f"{self.server.bin}/pg_dump", "-F", form, "-f", dump, "postgres"])
                self.assertEqual((ran.returncode, ran.stderr), (0, ""))
                ran = run([f"{self.server.bin}/psql", "-X", "-q", "-v", "ON_ERROR_STOP=1", "-d", form, "-f", dump] if form == "plain" else
                          [f"{self.server.bin}/pg_restore", "--exit-on-error", "-d", form, dump])
                self.assertEqual((ran.returncode, ran.stderr), (0, ""))
                self.assertEqual(self.server.run(asked, form), ("1|POINT(3 4)|3\n2||\n3|LINESTRING(0 0,9 9)|9\n", "", 0))
                self.assertIn("sfq: first W2 at 6: ", self.server.run("INSERT INTO field (id, geom) VALUES (4, 'POINT(1.5 1)');", form)[1])
        finally:
            self.server.run("DROP TABLE field;")

    def test_the_example_of_the_document(self):
        shown = examples("POSTGRESQL", "sql")
        self.assertGreaterEqual(len(shown), 1)
        for source, output in shown:
            self.server.run("DROP EXTENSION IF EXISTS sfq CASCADE;")
            words = [f"{self.server.bin}/psql", "-X", "-q", "-A", "-t", "-v", "ON_ERROR_STOP=1", "-d", "postgres"]
            ran = subprocess.run(words, input=source, capture_output=True, text=True, env=self.server.environment(), cwd=ROOT)
            self.assertEqual((ran.stdout, ran.stderr), (output, ""), source)
            self.server.run("CREATE EXTENSION IF NOT EXISTS sfq;")


if __name__ == "__main__":
    unittest.main()
