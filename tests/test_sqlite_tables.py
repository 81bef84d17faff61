"""SQLite's virtual tables over folders: the rows of the engine's own scripts, of the land register and of random tables and queries,
as the program and as plain tables give them; which forms are searched; options, faults, files that change and hostile ones; memory,
threads."""
import csv
import io
import os
import random
import re
import shutil
import socket
import subprocess
import unittest

from support import ROOT, needs, needs_build, read, write

import engine_rows
import repository
import required_rows
import sqlite_sessions
import test_random_queries

PARCELS = f"{ROOT}/examples/parcels"
# The line that `sqlite3` prints of a step of a plan over a virtual table.
STEP = re.compile(r"SCAN (\w+)(?: EXISTS)? VIRTUAL TABLE INDEX \d+:(.*?)(?: LEFT-JOIN)?$", re.M)
PREDICATES = ("Equals", "Disjoint", "Intersects", "Touches", "Crosses", "Within", "Contains", "Overlaps")
# What SQLite has in another way, or hasn't: among them words that can be an alias in sfq, and a number that a word follows at once.
OTHERS = re.compile(r"(?i)\b(?:EXPLAIN|LIMIT|LEFT|RIGHT|FULL|NATURAL)\b|\b\d+[a-z_]|\0")

# What is compared over random tables with an index and without: relations, keys of any value, and what SQLite has beyond sfq.
QUERIES = [
    f"SELECT a.id, b.id FROM a {join} b ON ST_{it}({one}.geom, {other}.geom) ORDER BY 1, 2"
    for it in PREDICATES for join in ("JOIN", "LEFT JOIN") for one, other in ("ab", "ba")
] + [
    f"SELECT id FROM a WHERE {it} ORDER BY id" for it in (
        "ST_Equals(geom, 'POINT EMPTY')", "ST_Touches(geom, NULL)", "NOT ST_Touches(geom, 'POINT(1 1)')",
        "ST_Touches(geom, 'POINT(1 1)') OR id > 3", "ST_Within(geom, 'POLYGON((0 0,4 0,4 4,0 4,0 0))') AND id BETWEEN -5 AND 30",
        "ST_Relate(geom, 'POINT(1 1)', 'T********')", "ST_Covers(geom, 'POINT(3 3)') = 1", "ST_Intersects(geom, geom)",
    )
] + [
    f"SELECT id, n FROM a WHERE {column} {sign} {value} ORDER BY id {order}"
    for column in ("id", "rowid") for sign in ("=", "<", "<=", ">", ">=", "<>", "IS") for order in ("", "DESC")
    for value in ("7", "-7", "-60", "120", "7.5", "-7.5", "7.0", "-0.5", "1e300", "-1e300", "9e18", "9223372036854775807", "NULL",
                  "'7'", "'x'", "x'00'")
] + [
    "SELECT id FROM a WHERE id IN (7, 3, 55, -4) ORDER BY id DESC",
    "SELECT id FROM a WHERE id > -9 AND id < 30 AND id >= 0 ORDER BY id",
    """SELECT count(*), a.name, min(a.geom), max(b.geom) FROM a JOIN b ON ST_Intersects(a.geom, b.geom)
       GROUP BY a.name ORDER BY a.name""",
    """SELECT id, row_number() OVER (PARTITION BY name ORDER BY id) FROM a
       WHERE ST_Intersects(geom, 'LINESTRING(0 0,6 6)') ORDER BY id""",
    "SELECT a.id, b.id, c.id FROM a JOIN b ON ST_Contains(a.geom, b.geom) JOIN c ON ST_Touches(c.geom, a.geom) ORDER BY 1, 2, 3",
    "SELECT id FROM a WHERE EXISTS (SELECT 1 FROM b WHERE ST_Overlaps(b.geom, a.geom)) ORDER BY id",
    "SELECT id, (SELECT min(b.id) FROM b WHERE ST_Covers(b.geom, a.geom)) FROM a ORDER BY id",
    """SELECT a.id, s.id FROM a JOIN (SELECT * FROM b ORDER BY name, id LIMIT 20) s ON ST_Intersects(a.geom, s.geom)
       ORDER BY 1, 2""",
    "SELECT a.id, b.id FROM a JOIN b ON a.n = b.id ORDER BY 1, 2",
    "SELECT DISTINCT name, geom FROM c ORDER BY name, geom",
    "SELECT id, typeof(id), typeof(n), typeof(name), typeof(geom), length(geom), geom || '', substr(geom, 1, 5) FROM c ORDER BY id",
    "WITH s AS MATERIALIZED (SELECT * FROM a) SELECT s.id, b.id FROM s JOIN b ON ST_Within(s.geom, b.geom) ORDER BY 1, 2",
    "SELECT a.id FROM a WHERE ST_Equals(a.geom, trim(a.geom)) AND ST_Equals(a.geom || '', substr(a.geom, 1)) ORDER BY 1",
    "SELECT typeof(g), ST_Dimension(g), typeof(g), g = g || '', quote(g), g FROM (SELECT geom AS g FROM a ORDER BY id LIMIT 50)",
    "SELECT s, typeof(s), ST_Touches(a.geom, s), typeof(s), s FROM a, (SELECT 'POINT(1 1)' AS s) ORDER BY id",
    "SELECT id, ST_Dimension(geom), ST_IsEmpty(geom), ST_XMin(geom), ST_XMax(geom), ST_YMin(geom), ST_YMax(geom) FROM a ORDER BY id",
]


def literal(text):
    return "'" + text.replace("'", "''") + "'"


def made(names, folder=".", schema="schema.sql"):
    """Returns the SQL that makes a virtual table of each name, over a folder."""
    found = []
    for it in names:
        where = f"folder={literal(folder)}" if schema == "schema.sql" else f"schema='{schema}', csv={literal(f'{folder}/{it}.csv')}"
        found.append(f"CREATE VIRTUAL TABLE \"{it}\" USING sfq({where}, table='{it}');\n")
    return "".join(found)


def records(text):
    """Returns the records of a CSV text. One of a column alone that is empty is an empty line."""
    return [tuple(it) or ("",) for it in csv.reader(io.StringIO(text, newline=""))]


def shape(chance):
    """Returns the text of a small geometry, or nothing."""

    def at():
        return chance.randint(0, 6), chance.randint(0, 6)

    def listed(positions):
        return ",".join(f"{x} {y}" for x, y in positions)

    kind = chance.choice(("POINT", "POINT", "MULTIPOINT", "LINESTRING", "BOX", "BOX", "TRIANGLE", "EMPTY", ""))
    (a, b), (c, d) = at(), at()
    if kind in ("LINESTRING", "BOX", "TRIANGLE") and (a == c or b == d):
        c, d = a + 1, b + 2
    return {
        "POINT": f"POINT({a} {b})", "MULTIPOINT": f"MULTIPOINT({listed([(a, b), (c, d)])})",
        "LINESTRING": f"LINESTRING({listed([(a, b), (c, d), (d, a)])})",
        "BOX": f"POLYGON(({listed([(a, b), (c, b), (c, d), (a, d), (a, b)])}))",
        "TRIANGLE": f"POLYGON(({listed([(a, b), (c, b), (c, d), (a, b)])}))",
        "EMPTY": chance.choice(("POINT EMPTY", "POLYGON EMPTY", "LINESTRING EMPTY")),
    }.get(kind, "")


def random_files(seed, count):
    """Returns the files of three random tables: keys in any order, numbers, texts and geometries, NULL among them."""
    chance = random.Random(seed)
    columns = "n INTEGER, id BIGINT PRIMARY KEY, name TEXT, geom GEOMETRY"
    files = {"schema.sql": ";\n".join(f"CREATE TABLE {it} ({columns})" for it in "abc")}
    for name in "abc":
        keys = chance.sample(range(-count, 2 * count), count)
        lines = [f"{key},{chance.choice(('', chance.randint(0, 9)))},{chance.choice('xyz')},\"{shape(chance)}\"" for key in keys]
        files[f"{name}.csv"] = "\n".join(["id,n,name,geom", *lines]) + "\n"
    return files


class WithFolders(sqlite_sessions.WithExtension):
    """A test case with folders of tables."""

    def folder(self, name, files):
        """Writes files into a folder of this name, and returns its path."""
        to = f"{self.room.name}/{name}"
        for path, text in files.items():
            write(f"{to}/{path}", text)
        self.addCleanup(shutil.rmtree, to, ignore_errors=True)
        return to


class Rows(WithFolders):
    """The rows of virtual tables."""

    def check_queries(self, queries):
        for at, it in enumerate(queries):
            folder = self.folder(f"rows{at}", {"schema.sql": it.schema, **{f"{name}.csv": text for name, text in it.files.items()}})
            out = self.rows(f"{made(it.files, folder)}{it.text};")
            self.assertEqual(engine_rows.sorted_rows(out), it.rows, it.text)

    def test_the_queries_of_the_documents_give_what_sfq_run_gives(self):
        self.check_queries(engine_rows.example_queries())

    def test_each_predicate_of_the_engines_rows(self):
        self.check_queries(engine_rows.predicate_queries())

    def test_plain_tables_give_the_same(self):
        """Each query over tables that have an index, over copies that have none, and in a database of another encoding."""
        folder = self.folder("plain", random_files(7, 60))
        text = "".join(f"SELECT {at};\n{it};\n" for at, it in enumerate(QUERIES))
        fields = "n INTEGER, id INTEGER PRIMARY KEY, name TEXT, geom TEXT"
        plain = "".join(f"CREATE TABLE {it} ({fields}); INSERT INTO {it} SELECT * FROM v.{it};\n" for it in "abc")
        attached = "ATTACH ':memory:' AS v;\n" + made("abc", folder).replace("TABLE \"", "TABLE v.\"")
        searched = self.rows(made("abc", folder) + text)
        self.assertEqual(searched, self.rows(attached + plain + text))
        self.assertGreater(len(searched.splitlines()), 10 * len(QUERIES))
        self.assertEqual(self.rows("PRAGMA encoding = 'UTF-16';\n" + made("abc", folder) + text), searched)

    @needs_build
    def test_random_tables_give_what_sfq_run_gives(self):
        """Each predicate, of two tables in either order, under NOT, with a constant, and of a key."""
        for seed in range(2):
            folder = self.folder(f"random{seed}", random_files(seed, 40))
            queries = []
            for it in PREDICATES:
                queries += [f"SELECT a.id, b.id FROM a JOIN b ON ST_{it}({one}.geom, {other}.geom)" for one, other in ("ab", "ba")]
                queries.append(f"SELECT a.id, b.name, a.geom FROM a, b WHERE a.n = b.id AND NOT ST_{it}(b.geom, a.geom)")
                constant = shape(random.Random(seed)) or "POINT(1 1)"
                queries.append(f"SELECT * FROM c WHERE ST_{it}(geom, ST_GeomFromText('{constant}')) AND id >= 0")
            text = "".join(f"SELECT '-', {at};\n{it};\n" for at, it in enumerate(queries))
            parts = re.split(r"(?m)^-,\d+\n", self.rows(made("abc", folder) + text))[1:]
            for query, found in zip(queries, parts, strict=True):
                words = [repository.PROGRAM, "run", f"{folder}/schema.sql", folder, query]
                ran = subprocess.run(words, capture_output=True, text=True, check=True)
                self.assertEqual(sorted(records(found)), sorted(records(ran.stdout)[1:]), query)


class RandomQueries(WithFolders):
    """Changed rows of the scripts: where `run` answers, SQLite gives the same rows."""

    ASKS_PROGRAM = True
    COUNT, SEED = 150, 2

    @needs_build
    def test_sqlite_gives_what_run_writes(self):
        compared = 0
        for number, case, room, query, ran in test_random_queries.asked_cases(self.SEED, self.COUNT):
            text = query.decode("latin-1")
            if ran.returncode != 0 or OTHERS.search(text) or not test_random_queries.is_utf8(query):
                continue
            with self.subTest(case=number, query=query):
                names = re.findall(r"(?i)create\s+table\s+(\w+)", re.sub(r"--.*", "", case.parts["schema"].decode("latin-1")))
                named = [it for it in names if re.search(rf"(?i)\b{it}\b", text)]
                out = self.rows(f"{made(named, 'd', schema='s')}{query.decode('utf-8')}\n;", folder=room)
                self.assertEqual(sorted(records(out)), sorted(records(ran.stdout.decode("utf-8"))[1:]))
                compared += 1
        self.assertGreater(compared, self.COUNT // 10)


class ManyRandomQueries(RandomQueries):
    """The same of more queries."""

    IS_LONG = True
    COUNT, SEED = 2_000, 6


class OuterJoins(WithFolders):
    """Each row of the left table of an outer join is there, whatever ON says of it. Expected rows are by hand."""

    SCHEMA = "CREATE TABLE t (id INTEGER PRIMARY KEY, at POINT); CREATE TABLE u (id INTEGER PRIMARY KEY, of INTEGER, at POINT)"
    FILES = {"schema.sql": SCHEMA, "t.csv": "id,at\n1,POINT(1 1)\n2,POINT(8 8)\n3,\n", "u.csv": "id,of,at\n7,1,POINT(1 1)\n8,2,POINT(8 8)\n"}
    SQUARE = "'POLYGON((0 0,4 0,4 4,0 4,0 0))'"

    def check(self, *pairs):
        folder = self.folder("outer", self.FILES)
        for query, wanted in pairs:
            self.assertEqual(self.rows(f"{made('tu', folder)}{query};").split(), wanted.split(), query)

    def test_a_relation_of_the_left_table_in_on(self):
        within = f"ST_CoveredBy(t.at, {self.SQUARE})"
        self.check(
            (f"SELECT t.id, u.id FROM t LEFT JOIN u ON {within} ORDER BY 1, 2", "1,7 1,8 2, 3,"),
            (f"SELECT t.id, u.id FROM t LEFT JOIN u ON {within} AND u.of = t.id ORDER BY 1, 2", "1,7 2, 3,"),
            (f"SELECT t.id, u.id FROM t LEFT JOIN u ON {within} OR t.id = 2 AND u.id = 8 ORDER BY 1, 2", "1,7 1,8 2,8 3,"),
            (f"SELECT t.id FROM t LEFT JOIN u ON {within} AND u.id = t.id ORDER BY 1", "1 2 3"),
            ("SELECT t.id, u.id FROM t LEFT JOIN u ON ST_Equals(u.at, t.at) ORDER BY 1, 2", "1,7 2,8 3,"),
            (f"SELECT t.id, u.id FROM t JOIN u ON {within} ORDER BY 1, 2", "1,7 1,8"),
        )

    def test_nested_joins_and_subselects(self):
        within = f"ST_CoveredBy(t.at, {self.SQUARE})"
        self.check(
            (f"SELECT t.id, u.id, s.id FROM t LEFT JOIN (u JOIN t s ON ST_Equals(u.at, s.at)) ON {within} ORDER BY 1, 2",
             "1,7,1 1,8,2 2,, 3,,"),
            (f"SELECT t.id, u.id, s.id FROM t JOIN u ON u.of = t.id LEFT JOIN t s ON ST_Within(u.at, {self.SQUARE}) ORDER BY 1, 2, 3",
             "1,7,1 1,7,2 1,7,3 2,8,"),
            (f"SELECT id FROM t s WHERE EXISTS (SELECT 1 FROM t LEFT JOIN u ON {within} WHERE t.id = s.id) ORDER BY 1", "1 2 3"),
            (f"WITH a AS (SELECT t.id FROM t LEFT JOIN u ON {within}) SELECT id, count(*) FROM a GROUP BY id ORDER BY 1", "1,2 2,1 3,1"),
        )

    def test_temporary_views_and_triggers(self):
        """Others can't use a table. The statement itself has no word of an outer join."""
        within = f"ST_CoveredBy(t.at, {self.SQUARE})"
        join = f"SELECT t.id AS one, u.id AS other FROM t LEFT JOIN u ON {within} AND u.of = t.id"
        folder = self.folder("views", self.FILES)
        out = self.rows(f"{made('tu', folder)}CREATE TEMP VIEW w AS {join};\nSELECT * FROM w ORDER BY 1;\n"
                        f"SELECT t.id FROM t WHERE {within};\nSELECT count(*) FROM t JOIN w ON ST_Within(t.at, t.at) AND t.id = w.one;")
        self.assertEqual(out.split(), ["1,7", "2,", "3,", "1", "2"])
        out = self.rows(f"{made('tu', folder)}CREATE TEMP TABLE n (x);\nCREATE TEMP TABLE log (one, other);\n"
                        f"CREATE TEMP TRIGGER g AFTER INSERT ON n BEGIN INSERT INTO log {join}; END;\nINSERT INTO n VALUES (1);\n"
                        "SELECT * FROM log ORDER BY 1;")
        self.assertEqual(out.split(), ["1,7", "2,", "3,"])

    def test_statements_that_run_in_turn(self):
        """What was found of the statements that run is used again only while the same ones run."""
        ran = subprocess.run([self.program("turns"), f"{self.room.name}/sfq0", self.folder("in_turn", self.FILES), "20"], capture_output=True, text=True)
        self.assertEqual((ran.stdout, ran.stderr, ran.returncode), ("280 run, 0 differ\n", "", 0))

    def test_right_and_full_joins(self):
        version = self.rows("SELECT sqlite_version();").strip()
        if tuple(map(int, version.split("."))) < (3, 39):
            self.skipTest("needs SQLite 3.39")
        within = f"ST_CoveredBy(t.at, {self.SQUARE})"
        self.check(
            (f"SELECT t.id, u.id FROM u RIGHT JOIN t ON {within} AND u.of = t.id ORDER BY t.id", "1,7 2, 3,"),
            (f"SELECT t.id, u.id FROM t RIGHT JOIN u ON {within} AND u.of = t.id ORDER BY u.id", "1,7 ,8"),
            (f"SELECT t.id, u.id FROM t FULL JOIN u ON {within} AND u.of = t.id ORDER BY t.id IS NULL, t.id", "1,7 2, 3, ,8"),
        )


class Plans(WithFolders):
    """Which forms are searched, as SQLite says."""

    def plan(self, query, names):
        out = self.rows(f"{made(names, PARCELS)}EXPLAIN QUERY PLAN {query};")
        return ", ".join(f"{table} {way}" for table, way in STEP.findall(out))

    def test_the_forms_of_the_document(self):
        forms = re.findall(r"^\| `(FROM .*?)` \| (.*?) \|$", read(f"{ROOT}/docs/SQLITE.md"), re.M)
        self.assertGreaterEqual(len(forms), 12)
        for form, plan in forms:
            self.assertEqual(self.plan(f"SELECT * {form}", ("parcel", "well", "building")), plan.replace("`", ""), form)

    def test_each_relation_but_disjoint_is_searched(self):
        for it in (*PREDICATES, "Covers", "CoveredBy", "ContainsProperly"):
            wanted = "parcel scan" if it == "Disjoint" else "parcel tree of geom"
            self.assertEqual(self.plan(f"SELECT * FROM parcel WHERE ST_{it}(geom, 'POINT(1 1)')", ["parcel"]), wanted, it)

    def test_no_sort_by_the_key(self):
        for query, is_sorted in (
            ("SELECT * FROM parcel ORDER BY id", False), ("SELECT * FROM parcel WHERE id > 103 ORDER BY id DESC", False),
            ("SELECT * FROM parcel WHERE ST_Touches(geom, 'POINT(6 4)') ORDER BY id DESC", False), ("SELECT * FROM parcel ORDER BY name", True),
        ):
            out = self.rows(f"{made(['parcel'], PARCELS)}EXPLAIN QUERY PLAN {query};")
            self.assertEqual("TEMP B-TREE" in out, is_sorted, query)


class Options(WithFolders):
    """What CREATE VIRTUAL TABLE takes, and how it refuses."""

    def create(self, options):
        return self.fault(f"CREATE VIRTUAL TABLE t USING sfq({options});")

    def test_options_that_are_refused(self):
        for options, wanted in (
            ("", "no table is named: write table='..', as the schema spells it"),
            ("folder='x'", "no table is named"),
            ("table='t'", "write folder='..', of schema.sql and CSV files, or both schema='..' and csv='..'"),
            ("table='t', schema='s'", "write both schema='..' and csv='..'"),
            ("table='t', csv='s'", "write both schema='..' and csv='..'"),
            ("table='t', csv='s', schema='s', folder='f'", "write folder='..', of schema.sql and CSV files, or both"),
            ("colour='red', table='t'", "the option colour is unknown: there are folder, schema, csv and table"),
            ("table='t', TABLE='u'", "the option table is there twice"),
            ("'parcel'", "'parcel' isn't an option: write name='value'"),
            ("folder", "folder isn't an option"),
            ("=3", "=3 isn't an option"),
            ("table='t' x", "the value of table has a quote that isn't closed, or goes on behind it"),
            ("table='t', folder=/no/such/folder", "/no/such/folder/schema.sql can't be read: No such file or directory"),
            ("table='t', schema='/', csv='/'", "/ can't be read: Is a directory"),
            (f"table='parcel', schema='{PARCELS}/schema.sql', csv='/'", "/ can't be read: Is a directory"),
            (f"table='lake', folder='{PARCELS}'", f"{PARCELS}/schema.sql has no table 'lake'"),
            (f"table='', folder='{PARCELS}'", f"{PARCELS}/schema.sql has no table ''"),
        ):
            found = self.create(options)
            self.assertEqual(found[: len(wanted)], wanted, options)

    def test_ways_to_write_options(self):
        for options in (
            f"folder='{PARCELS}',table=parcel", f'FOLDER = "{PARCELS}" ,\n table = "parcel"', f"table=[PARCEL],folder=`{PARCELS}`",
            f"schema='{PARCELS}/schema.sql', csv='{PARCELS}/parcel.csv', table='Parcel'",
        ):
            self.assertEqual(self.rows(f"CREATE VIRTUAL TABLE t USING sfq({options});\nSELECT count(*) FROM t;"), "13\n", options)

    def test_quotes_in_a_path(self):
        folder = self.folder("it's \"so\"", {"schema.sql": "CREATE TABLE t (id INTEGER PRIMARY KEY)", "t.csv": "id\n7\n"})
        doubled = folder.replace('"', '""')
        for path in (literal(folder), f'"{doubled}"', f"[{folder}]"):
            self.assertEqual(self.rows(f"CREATE VIRTUAL TABLE u USING sfq(folder={path}, table='t');\nSELECT * FROM u;"), "7\n", path)

    def test_no_table_is_there_without_being_made(self):
        self.assertIn("no such table: sfq", self.asked("SELECT * FROM sfq;")[1])

    def test_any_name_of_a_column(self):
        """Words that SQLite reserves, and PRIMARY as a name, before the key and behind."""
        schema = ("-- (PRIMARY, KEY\nCREATE TABLE u (a INTEGER PRIMARY KEY); CREATE TABLE t (primary INTEGER, key TEXT NOT NULL, "
                  "-- PRIMARY KEY,\n group INT NOT NULL PRIMARY KEY, order GEOMETRY)")
        folder = self.folder("names", {"schema.sql": schema, "t.csv": "primary,key,group,order\n1,a,9,POINT(1 2)\n2,b,-3,\n"})
        out = self.rows(f"{made('t', folder)}SELECT rowid, * FROM t;\nSELECT name, type, pk FROM pragma_table_info('t');\n"
                        "EXPLAIN QUERY PLAN SELECT * FROM t WHERE \"group\" = 9;")
        self.assertEqual(out.splitlines()[:2], ["-3,2,b,-3,", '9,1,a,9,"POINT(1 2)"'])
        self.assertEqual(out.splitlines()[2:6], ["primary,INTEGER,0", "key,TEXT,0", "group,INTEGER,1", "order,TEXT,0"])
        self.assertEqual(STEP.findall(out), [("t", "key")])


class Faults(WithFolders):
    """What `sfq check` refuses is refused with the same place."""

    def test_faults_of_the_engines_rows(self):
        compared = set()
        for name in ("tables", "schemas", "files", "reasons", "language"):
            with open(f"{engine_rows.DATA}/{name}.txt", encoding="latin-1") as file:
                # Each character is a byte.
                rows = required_rows.rows_of(file.read())
            for at, row in enumerate(rows):
                line = row.output.splitlines()[0] if row.output else ""
                place = re.match(r"! sfq: ((?:(\w+) )?([SL]\d+).*)", line)
                if not re.match("check|SELECT", row.command) or not place or "schema" not in row.files:
                    continue
                files = {"schema.sql" if it == "schema" else f"{it[6:]}.csv": text for it, text in row.files.items()}
                folder = self.folder(f"{name}{at}", dict.fromkeys(files, ""))
                for path, text in files.items():
                    with open(f"{folder}/{path}", "w", encoding="latin-1", newline="") as file:
                        file.write(text)
                found = self.fault(f"CREATE VIRTUAL TABLE v USING sfq(folder='{folder}', table='{place[2] or 't'}');")
                where = place[1] if place[2] else f"{folder}/schema.sql {place[1]}"
                self.assertEqual(found[: len(where) + 2], f"{where}: ", row.files)
                compared.add(place[3])
        self.assertGreaterEqual(len(compared), 8, compared)

    def test_the_words_of_a_fault(self):
        schema = "CREATE TABLE t (id INTEGER PRIMARY KEY, geom POLYGON)"
        for at, (text, wanted) in enumerate((
            ('id,geom\n7,"POLYGON((0 0,4 4,4 0,0 4,0 0))"\n',
             "t L6 record 1 V3 0: a geometry is refused: this ring touches or crosses itself"),
            ("id,geom\n7,\n7,\n", "t L9 record 2: an earlier record has this key: give one of the two another key"),
            ("id\n7\n", "t L1: the table lacks a column of the schema: add the column, or take it out of the schema"),
        )):
            folder = self.folder(f"words{at}", {"schema.sql": schema, "t.csv": text})
            self.assertEqual(self.fault(made("t", folder)), wanted)
        found = self.fault(f"CREATE VIRTUAL TABLE v USING sfq(schema='{ROOT}/README.md', csv='x', table='t');")
        self.assertEqual(found.partition(": ")[0], f"{ROOT}/README.md S1 at 0")
        long = self.folder("long", {"schema.sql": "-" * 70_000})
        self.assertEqual(self.fault(made("t", long)).partition(": ")[0], f"{long}/schema.sql S6")

    def test_a_refused_constant_is_an_error_as_in_a_scan(self):
        for value, wanted in (("'POINT(1.5 2)'", "second W2 at 6: "), ("7", "second isn't a text"), ("x'00'", "second isn't a text")):
            found = self.fault(f"{made(['parcel'], PARCELS)}SELECT * FROM parcel WHERE ST_Touches(geom, {value});")
            self.assertEqual(found[: len(wanted)], wanted)
        self.assertEqual(self.fault(f"{made(['parcel'], PARCELS)}SELECT ST_Touches(name, geom) FROM parcel;")[:12], "first W1 at ")

    def test_tables_are_read_only(self):
        for text in ("INSERT INTO parcel (id) VALUES (1)", "UPDATE parcel SET name = 'x'", "DELETE FROM parcel"):
            self.assertIn("table parcel may not be modified", self.asked(f"{made(['parcel'], PARCELS)}{text};")[1])


class Files(WithFolders):
    """Databases in files, and what lies below them."""

    def setUp(self):
        self.schema = "CREATE TABLE t (id INTEGER PRIMARY KEY, at POINT)"
        self.data = self.folder("data", {"schema.sql": self.schema, "t.csv": "id,at\n7,POINT(1 2)\n"})
        self.database = f"{self.data}/database"

    def test_a_database_that_is_opened_again(self):
        self.rows(made("t", self.data), database=self.database)
        self.assertEqual(self.rows("SELECT * FROM t;", database=self.database), '7,"POINT(1 2)"\n')
        write(f"{self.data}/t.csv", "id,at\n8,\n")
        self.assertEqual(self.rows("SELECT * FROM t;", database=self.database), "8,\n")
        write(f"{self.data}/schema.sql", "CREATE TABLE t (id INTEGER PRIMARY KEY)")
        self.assertEqual(self.rows("SELECT * FROM t;", database=self.database), "8\n")
        write(f"{self.data}/t.csv", "id\nx\n")
        self.assertEqual(self.fault("SELECT * FROM t;", database=self.database)[:15], "t L5 record 1: ")
        os.remove(f"{self.data}/t.csv")
        gone = f"{self.data}/t.csv can't be read: No such file or directory"
        self.assertEqual(self.fault("SELECT * FROM t;", database=self.database), gone)
        write(f"{self.data}/t.csv", "id\n7\n")
        self.assertEqual(self.rows("DROP TABLE t;\nSELECT count(*) FROM sqlite_schema;", database=self.database), "0\n")

    def test_a_file_that_changes_changes_no_table(self):
        asked = "SELECT * FROM t WHERE ST_Within(at, 'POINT(1 2)');\n"
        self.assertEqual(self.rows(f"{made('t', self.data)}{asked}.shell rm {self.data}/t.csv\n{asked}"), '7,"POINT(1 2)"\n' * 2)

    def test_a_path_from_where_the_program_is(self):
        self.assertEqual(self.rows(f"{made('t')}SELECT * FROM t;", folder=self.data), '7,"POINT(1 2)"\n')

    def test_tables_in_a_database_that_is_attached(self):
        text = made("t", self.data).replace("TABLE \"", "TABLE o.\"")
        asked = f"ATTACH '{self.database}' AS o;\n{text}SELECT id FROM t;\nDETACH o;\n{made('t', self.data)}SELECT id FROM t;"
        self.assertEqual(self.rows(asked), "7\n7\n")
        self.assertIn("no such table", self.asked(f"ATTACH '{self.database}' AS o;\nDETACH o;\nSELECT * FROM t;")[1])

    def test_schema_rename_and_drop(self):
        text = made("t", self.data)
        self.assertEqual(self.rows(f"{text}.schema"), f"{text.strip()[:-1]}\n/* t(id,at) */;\n")
        again = f"{text}ALTER TABLE t RENAME TO u;\nSELECT id FROM u WHERE ST_Within(at, 'POINT(1 2)');\nDROP TABLE u;\n"
        self.assertEqual(self.rows(again * 3), "7\n" * 3)

    def test_texts_of_a_table_that_is_gone_are_read_anew(self):
        """Another table may then have its texts at the same address."""
        other = self.folder("other", {"schema.sql": self.schema, "t.csv": "id,at\n7,POINT(2 1)\n"})
        text = "".join(f"{made('t', it)}SELECT ST_Relate(at, 'POINT(1 2)') FROM t;\nDROP TABLE t;\n" for it in (self.data, other) * 4)
        self.assertEqual(self.rows(text), "0FFFFFFF2\nFF0FFF0F2\n" * 4)


class Hostile(WithFolders):
    """A database file that somebody else wrote may name any path, and what it makes of it."""

    SCHEMA = "CREATE TABLE t (id INTEGER PRIMARY KEY, at POINT)"

    def setUp(self):
        self.data = self.folder("hostile", {"schema.sql": self.SCHEMA, "t.csv": "id,at\n7,POINT(1 2)\n"})
        self.database = f"{self.data}/database"

    def test_only_regular_files_are_read(self):
        """A pipe that nobody writes to and a device without end are refused at once, as the schema and as the table."""
        pipe, socket_path = f"{self.data}/pipe", f"{self.data}/socket"
        os.mkfifo(pipe)
        with socket.socket(socket.AF_UNIX) as made_socket:
            made_socket.bind(socket_path)
        for path in (pipe, "/dev/zero"):
            wanted = f"{path} can't be read: it isn't a regular file, and no other is read"
            for options in (f"schema='{path}', csv='{self.data}/t.csv'", f"schema='{self.data}/schema.sql', csv='{path}'"):
                self.assertEqual(self.fault(f"CREATE VIRTUAL TABLE t USING sfq({options}, table='t');"), wanted)
        found = self.fault(f"CREATE VIRTUAL TABLE t USING sfq(schema='{socket_path}', csv='x', table='t');")
        self.assertIn("can't be read: ", found)

    def test_a_table_that_is_too_long(self):
        """A file of a gibibyte is refused before it is read; of a schema no more is read than it may have."""
        with open(f"{self.data}/long", "wb") as file:
            file.truncate((1 << 30) + 1)
        found = self.fault(f"CREATE VIRTUAL TABLE t USING sfq(schema='{self.data}/schema.sql', csv='{self.data}/long', table='t');")
        self.assertEqual(found, f"{self.data}/long can't be read: it has more than 1073741824 bytes")
        found = self.fault(f"CREATE VIRTUAL TABLE t USING sfq(schema='{self.data}/long', csv='x', table='t');")
        self.assertEqual(found.partition(":")[0], f"{self.data}/long S6")

    def test_no_view_and_no_trigger_uses_a_table(self):
        table = made("t", self.data)
        out, err, status = self.asked(f"{table}CREATE VIEW w AS SELECT id FROM t;\nSELECT * FROM w;")
        self.assertNotEqual((out, status), ("7\n", 0))
        self.assertIn("unsafe use of virtual table \"t\"", err)
        out, err, status = self.asked(f"{table}CREATE TABLE p (x);\nCREATE TRIGGER g AFTER INSERT ON p BEGIN UPDATE p SET x = (SELECT id FROM t); "
                                      "END;\nINSERT INTO p VALUES (1);\nSELECT * FROM p;")
        self.assertIn("unsafe use of virtual table \"t\"", err)
        self.assertEqual(self.rows(f"{table}WITH w AS (SELECT id FROM t) SELECT id, (SELECT count(*) FROM t) FROM w;"), "7,1\n")

    def test_a_table_whose_files_are_gone_is_dropped(self):
        """Without its rows, without its schema, and with options that are none; until then a query says why."""
        spoiled = {
            "t.csv": "hostile/t.csv can't be read: No such file or directory",
            "schema.sql": "hostile/schema.sql can't be read: No such file or directory",
        }
        for name, wanted in spoiled.items():
            database = f"{self.data}/{name}.db"
            self.rows(made("t", self.data), database=database)
            os.rename(f"{self.data}/{name}", f"{self.data}/gone")
            for query in ("SELECT * FROM t", "SELECT count(*) FROM t", "SELECT rowid FROM t WHERE ST_Within('POINT(1 1)', 'POINT(1 1)')"):
                self.assertEqual(self.fault(f"{query};", database=database), f"{self.room.name}/{wanted}", query)
            dropped = "SELECT count(*) FROM sqlite_schema;\nDROP TABLE t;\nSELECT count(*) FROM sqlite_schema;"
            self.assertEqual(self.rows(dropped, database=database), "1\n0\n")
            os.rename(f"{self.data}/gone", f"{self.data}/{name}")

    def test_a_table_with_a_fault_beside_one_without(self):
        """The columns that the schema has are there, and another table is as it was."""
        other = self.folder("well", {"schema.sql": self.SCHEMA, "t.csv": "id,at\n5,POINT(1 1)\n"})
        self.rows(made("t", self.data) + made("t", other).replace("TABLE \"t\"", "TABLE u"), database=self.database)
        write(f"{self.data}/t.csv", "id\nx\n")
        self.assertEqual(self.rows("SELECT * FROM u;\nSELECT name FROM pragma_table_info('t');", database=self.database), '5,"POINT(1 1)"\nid\nat\n')
        self.assertIn("t L1: the table lacks a column", self.fault("SELECT t.at FROM t JOIN u USING (id);", database=self.database))
        self.assertEqual(self.rows("DROP TABLE t;\nSELECT id FROM u;", database=self.database), "5\n")


class Memory(WithFolders):
    """Running out of memory, threads, and what is left."""

    def script(self):
        """Returns a script of each kind of plan, and of what is refused."""
        folder = self.folder("memory", random_files(3, 12))
        return made("ab", folder) + "".join(f"{it};\n" for it in (
            "SELECT a.id, b.id FROM a JOIN b ON ST_Touches(a.geom, b.geom)",
            "SELECT a.geom, b.id FROM a LEFT JOIN b ON ST_Covers(b.geom, a.geom)",
            "SELECT id FROM a WHERE ST_Intersects(geom, 'LINESTRING(0 0,6 6)') ORDER BY id DESC", "SELECT count(*) FROM a WHERE id > 3",
            "SELECT ST_Why('LINESTRING(0 0,3 1)', 'LINESTRING(0 1,2 0)'), ST_Why('POINT(1 1)'), ST_XMax('POINT(1 1)')",
            "DROP TABLE a", f"CREATE VIRTUAL TABLE c USING sfq(schema='{folder}/schema.sql', csv='{folder}/b.csv', table='c')",
            "SELECT count(*) FROM c JOIN b ON ST_Equals(c.geom, b.geom)", "SELECT id FROM b WHERE ST_Touches(geom, 'POINT(1.5 1)')",
        ))

    def ran(self, *words):
        return subprocess.run([*words[:-1], self.program("scripts"), f"{self.room.name}/sfq0", *words[-1]], input=self.script(),
                              capture_output=True, text=True)

    def test_each_allocation_refused_in_turn(self):
        ran = self.ran(["refused"])
        self.assertEqual((ran.returncode, ran.stderr), (0, ""), ran.stdout)
        self.assertGreater(int(re.match(r"(\d+) refused, 0 bad\n", ran.stdout)[1]), 1_000)
        self.assertIn("sfq: second W2 at 6: ", ran.stdout.splitlines()[-1])

    def test_two_connections_in_two_threads(self):
        ran = self.ran(["threads", "50"])
        self.assertEqual((ran.returncode, ran.stderr), (0, ""), ran.stdout)
        self.assertIn("100 runs, 0 bad\n", ran.stdout)

    @needs("valgrind", "valgrind")
    def test_valgrind_finds_nothing(self):
        leaks = ("--leak-check=full", "--show-leak-kinds=definite,indirect", "--error-exitcode=9")
        ran = self.ran("valgrind", "-q", *leaks, ["threads", "1"])
        self.assertEqual((ran.returncode, ran.stderr), (0, ""))

    def test_memory_of_tables_is_given_back(self):
        """A table is made and dropped again and again: the process grows no more."""
        folder = self.folder("again", random_files(1, 2_000))
        turn = f"{made('a', folder)}SELECT count(*) FROM a WHERE ST_Intersects(geom, 'POINT(1 1)');\nDROP TABLE a;\n"
        measure = ".shell grep VmRSS /proc/$PPID/status\n"
        out = self.rows(turn * 3 + measure + turn * 20 + measure)
        before, after = map(int, re.findall(r"VmRSS:\s+(\d+) kB", out))
        self.assertLess(after - before, 3_000)


if __name__ == "__main__":
    unittest.main()
