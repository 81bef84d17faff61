"""Databases in Python, by PEP 249: the rows of the engine's own scripts, values for `?`, tables of columns, faults and their places,
statements that are kept, threads, Ctrl-C; and what a stand-in for the library shows of refused calls."""
import datetime
import gc
import os
import pickle
import re
import subprocess
import sys
import tempfile
import textwrap
import threading
import time
import unittest

from support import ROOT, examples, python_with, read, write

import engine_rows
import library
import sfq
import tables_stand_in
from sfq.tables import connections, databases, errors, placeholders, rules, sources

SCHEMA = "CREATE TABLE t (id INTEGER PRIMARY KEY, name TEXT)"
SHAPES = "CREATE TABLE t (id INTEGER PRIMARY KEY, pop INTEGER, name TEXT, geom GEOMETRY)"
ROWS = "id,name\n1,a\n2,\n3,it's\n"
PARCELS = f"{ROOT}/examples/parcels"
NUMPY, PANDAS = python_with("numpy"), python_with("pandas")


def in_threads(count, work):
    threads = [threading.Thread(target=work) for _ in range(count)]
    for it in threads:
        it.start()
    for it in threads:
        it.join()


def interrupted(text):
    """Runs a program in which `interrupt` calls something that Ctrl-C has to end within 0.2 seconds, and returns what it writes.

    These are seconds of the processor, for a machine that does much else takes longer by the clock. Where the call sleeps it is the clock,
    with room. Only the main thread of a process gets signals, and tests have threads of their own.
    """
    head = """
        import signal, sys, time
        import sfq, tables_stand_in
        from sfq.tables import databases
        for it in (signal.SIGALRM, signal.SIGPROF):
            signal.signal(it, signal.default_int_handler)
        def interrupt(call, timer=signal.ITIMER_PROF, clock=time.process_time, most=0.2):
            begun = clock()
            signal.setitimer(timer, 0.1)
            try:
                call()
                print("it came to an end")
            except KeyboardInterrupt:
                took = clock() - begun - 0.1
                print("interrupted" if took < most else f"interrupted after {took} s")
        def interrupt_sleeper(call):
            interrupt(call, signal.ITIMER_REAL, time.monotonic, 2.0)
    """
    known = {**os.environ, "PYTHONPATH": f"{ROOT}/bindings/python:{ROOT}/tests", "PYTHONDONTWRITEBYTECODE": "1"}
    ran = subprocess.run([sys.executable, "-c", textwrap.dedent(head) + textwrap.dedent(text)], env=known, capture_output=True, text=True)
    return ran.stdout, ran.stderr


def tables_of(row):
    """Returns the CSV of each table of the schema that a row of a script has: names of files differ by their case. Where it is about
    bytes that aren't UTF-8, the script has them by their numbers."""
    names, coding = re.findall(r"\bTABLE\s+(\w+)", row.files["schema"], re.I), "latin-1" if " L4 " in row.output else "utf-8"
    return {it: row.files[f"table {it}"].encode(coding) for it in names if f"table {it}" in row.files}


class Texts(unittest.TestCase):
    """What is for `?`, and what tables are written as: over a stand-in, which cuts texts into parts."""

    def setUp(self):
        tables_stand_in.Calls().use(self)

    def filled(self, text, *values):
        constants = [placeholders.of_value(it, at) for at, it in enumerate(values, 1)]
        return placeholders.query(text), constants

    def test_values_are_constants_of_their_types(self):
        shape = sfq.Geometry("point(1 1)")
        for text, values, wanted in (
            ("a = ?", [5], "a =  5 "),
            ("a = -?", [-5], "a = - -5 "),
            ("a = ?1", [True], "a =  1 1"),
            ("a = ? AND b = '?''?' -- ?\n AND c < ?", ["it's", None], "a =  'it''s'  AND b = '?''?' -- ?\n AND c <  NULL "),
            ("ST_Touches(geom, ?)", [shape], "ST_Touches(geom,  ST_GeomFromText('point(1 1)') )"),
            ("ST_Touches(geom, ST_GeomFromText ( ?))", [shape], "ST_Touches(geom, ST_GeomFromText (  'point(1 1)' ))"),
            ("ST_Touches(geom, ST_GeomFromText(?))", ["POINT(1 1)"], "ST_Touches(geom, ST_GeomFromText( 'POINT(1 1)' ))"),
            ("a = 'open ? and", [], "a = 'open ? and"),
            ("a = 'a''?", [], "a = 'a''?"),
            ("é = ?", ["é"], "é =  'é' "),
        ):
            query, constants = self.filled(text, *values)
            self.assertEqual(len(query.parts) - 1, len(values), text)
            self.assertEqual(query.filled(constants).decode(), wanted)

    def test_places_are_those_of_the_text_that_was_written(self):
        """Each byte of the query that the library gets: one outside of the constants is the same byte, one within is that of its `?`."""
        for text, values in (("é = ? AND b = ?c", ["it's", 5]), ("?", [None]), ("a?", ["é"]), ("no mark", []), ("", [])):
            query, constants = self.filled(text, *values)
            made, given = query.filled(constants), text.encode()
            for at in range(len(made) + 1):
                place, is_value = query.place(at, constants)
                self.assertEqual(given[place:place + 1] == b"?", is_value, (text, at))
                if not is_value:
                    self.assertEqual((given[place:place + 1], place == len(given)), (made[at:at + 1], at == len(made)), (text, at))
            marks = [at for at in range(len(given)) if given[at:at + 1] == b"?"]
            self.assertEqual([query.place_of_mark(it) for it in range(len(values))], marks)

    def test_which_constants_a_bound_query_has(self):
        shape = sfq.Geometry("POINT(1 1)")
        for text, values, wanted in (
            ("SELECT id FROM t WHERE pop = 5 AND name = ? LIMIT 3", ["a"], [("INTEGER", None), ("TEXT", 0)]),
            ("SELECT id FROM t WHERE ST_Relate(geom, ?, 'T********') AND pop = ? LIMIT ?", [shape, 5, 3], [("GEOMETRY", 0), ("INTEGER", 1)]),
            ("SELECT id FROM t WHERE ST_Relate(geom, geom, ?) AND pop < ?", ["T********", 5], [("INTEGER", 1)]),
            ("SELECT id FROM t WHERE name = ? AND name IS NOT NULL OR pop is null", [None], [("NULL", 0)]),
            ("SELECT id FROM t WHERE NOT null = pop AND ? <> pop", [5], [("NULL", None), ("INTEGER", 0)]),
            ("SELECT id FROM t WHERE ST_Touches(geom, ?) = ? AND ST_Dimension(geom) = ? AND (pop) = ?", [shape, 1, 2, 3],
             [("GEOMETRY", 0), ("INTEGER", 2), ("INTEGER", 3)]),
            ("SELECT id FROM t WHERE pop = -? OR pop = ?", [5, 6], [("INTEGER", None), ("INTEGER", 1)]),
            ("SELECT id FROM t WHERE ST_Within(geom, ST_GeomFromText(?)) OR ST_IsEmpty(ST_GeomFromText('POINT EMPTY'))", ["POINT(1 1)"],
             [("GEOMETRY", 0), ("GEOMETRY", None)]),
        ):
            query, constants = self.filled(text, *values)
            self.assertEqual(query.constants(constants), wanted, text)

    def test_values_by_names(self):
        query = placeholders.query("a = :one AND b <> ':one' AND c = : one AND d = :two-:one --:three")
        self.assertEqual((query.marks, len(query.parts)), ([":one", ":two", ":one"], 4))
        constants = query.constants_of({"two": 2, "one": "x", "three": 3})
        self.assertEqual(query.filled(constants).decode(), "a =  'x'  AND b <> ':one' AND c = : one AND d =  2 - 'x'  --:three")
        self.assertEqual([query.place_of_mark(it) for it in range(3)], [4, 47, 52])
        made = query.filled(constants)
        self.assertEqual([query.place(made.index(it), constants) for it in (b"'x'", b"2", b"--")], [(4, True), (47, True), (57, False)])
        for text, values, kind, said in (
            ("a = :b", [1], sfq.InterfaceError, "values for parameters by names come in a dict, not in a list"),
            ("a = :b AND c = :d", {"b": 1}, sfq.ProgrammingError, "no value was handed in for :d"),
            ("a = :b AND c = ?", {"b": 1}, sfq.ProgrammingError, "both \\? and parameters by names"),
            ("a = ?", {"b": 1}, sfq.InterfaceError, "values come in a list or a tuple, one for each \\?, not in a dict"),
            ("a = ?", [1, 2], sfq.ProgrammingError, "2 values were handed in for a query with 1 times \\?"),
            ("a = :b", {"b": 1.5}, sfq.InterfaceError, "the value for :b is a float: sfq has whole numbers, texts"),
        ):
            with self.assertRaisesRegex(kind, said):
                placeholders.query(text).constants_of(values)

    def test_what_is_no_value(self):
        for value, name in ((1.5, "float"), (b"a", "bytes"), ([1], "list"), (datetime.timedelta(1), "timedelta")):
            with self.assertRaisesRegex(sfq.InterfaceError, f"the value for \\? 2 is a {name}: sfq has whole numbers, texts"):
                placeholders.of_value(value, 2)

    def test_a_schema_is_a_path_or_a_text(self):
        for text in (SCHEMA, f"-- mine\n{SCHEMA}", " create\ttable t (id int primary key)", "", b"x"):
            self.assertEqual(sources.read_schema(text), (text if isinstance(text, bytes) else text.encode(), None))
        with tempfile.TemporaryDirectory(prefix="sfq-connect-") as room:
            write(f"{room}/schema.sql", SCHEMA)
            self.assertEqual(sources.read_schema(f"{room}/schema.sql"), (SCHEMA.encode(), room))
            with self.assertRaisesRegex(sfq.OperationalError, "^sfq: the schema can't be read: .*nope.sql: No such file"):
                sources.read_schema(f"{room}/nope.sql")

    def csv_of(self, source, columns=(("id", "INTEGER"), ("name", "TEXT"), ("geom", "GEOMETRY"))):
        return sources.csv_of("t", source, columns)

    def test_tables_of_columns(self):
        class Shape:
            __geo_interface__ = {"type": "Point", "coordinates": (1.0, 2)}

        made = self.csv_of({
            "id": [1, 2.0, True, "4"], "more": [0, 0, 0, 0], "Name": ['a,"b"', float("nan"), 1.5, datetime.date(2026, 11, 27)],
            "geom": [sfq.Geometry("POINT(1 1)"), Shape(), None, sfq.Geometry("POINT")],
        })
        self.assertEqual(made.decode(), 'id,Name,geom\n1,"a,""b""",POINT(1 1)\n2,,POINT(1 2)\n1,1.5,\n4,2026-11-27,POINT\n')
        self.assertEqual(self.csv_of({"id": [None, 7]}), b'id\n""\n7\n')
        self.assertEqual(self.csv_of({"id": range(2), "name": iter("ab")}), b"id,name\n0,a\n1,b\n")

    def test_tables_of_texts_and_files(self):
        self.assertEqual(self.csv_of(ROWS), ROWS.encode())
        self.assertEqual(self.csv_of(bytearray(b"id")), b"id")
        self.assertEqual([self.csv_of("a.csv"), self.csv_of(sources.FilePath("a\n.csv"))], ["a.csv", "a\n.csv"])

    def test_what_is_no_table(self):
        class Half:
            __geo_interface__ = {"type": "Point", "coordinates": (0.5, 2)}

        for source, kind, said in (
            ({"id": [1], "name": ["a", "b"]}, sfq.InterfaceError, "^sfq: t: columns have 1 and 2 values"),
            (5, sfq.InterfaceError, "^sfq: t: a table is a path, the text of its CSV, .* not a int"),
            ({"id": [object()]}, sfq.DataError, "^sfq: t: record 1, column id: a object is no value"),
            ({"id": [1, 2], "geom": [None, Half()]}, sfq.DataError, "^sfq: t: record 2, column geom: the coordinate 0.5 isn't whole"),
        ):
            with self.assertRaisesRegex(kind, said) as met:
                self.csv_of(source)
            self.assertEqual((met.exception.table, met.exception.code), ("t", None))
        with self.assertRaisesRegex(sfq.ProgrammingError, "^sfq: u: the schema has no such table; there are t$"):
            sources.by_name({"u": ROWS}, ["t"])

    @unittest.skipUnless(NUMPY, "needs the package python3-numpy")
    def test_arrays_of_numpy(self):
        text = (
            "import numpy\nfrom sfq.tables import sources\n"
            "columns = [('id', 'INTEGER'), ('pop', 'INTEGER')]\n"
            "for it in (numpy.array([[1, 2], [3, numpy.nan]]), numpy.array([(1, 'a')], dtype=[('id', 'int64'), ('pop', 'U3')]),\n"
            "           {'id': numpy.arange(2), 'pop': [numpy.float32(2), numpy.int8(3)]}):\n"
            "    print(sources.csv_of('t', it, columns))\n"
            "try:\n    sources.csv_of('t', numpy.zeros((1, 3)), columns)\nexcept Exception as error:\n    print(error)\n"
        )
        self.assertEqual(self.by(NUMPY, text), (
            "b'id,pop\\n1,2\\n3,\\n'\nb'id,pop\\n1,a\\n'\nb'id,pop\\n0,2\\n1,3\\n'\n"
            "sfq: t: an array of 3 columns for 2 of the schema\n"
        ))

    @unittest.skipUnless(PANDAS, "needs the package python3-pandas")
    def test_dataframes_in(self):
        text = (
            "import pandas\nfrom sfq.tables import sources\n"
            "it = pandas.DataFrame({'id': [1, 2], 'pop': pandas.array([None, 5], dtype='Int64'), 'name': ['a,b', None]})\n"
            "print(sources.csv_of('t', it, [('id', 'INTEGER'), ('pop', 'INTEGER'), ('name', 'TEXT')]))\n"
        )
        self.assertEqual(self.by(PANDAS, text), "b'id,pop,name\\n1,,\"a,b\"\\n2,5,\\n'\n")

    @unittest.skipUnless(PANDAS, "needs the package python3-pandas")
    def test_dataframes_out(self):
        """NULL stays NULL, and the other integers stay integers; of no rows too."""
        text = (
            "import sfq, tables_stand_in\nfrom sfq.tables import databases\n"
            "calls = tables_stand_in.Calls()\ndatabases.library = lambda: calls\n"
            "db = sfq.connect('CREATE TABLE t (id INTEGER, name TEXT)', {'t': {'id': [2**62 + 1, None], 'name': ['a', None]}})\n"
            "for query in ('SELECT name, id, id FROM t', 'SELECT id FROM t WHERE id = 5'):\n"
            "    it = db.execute(query).df()\n"
            "    print(list(it.columns), [str(each) for each in it.dtypes], it.isna().values.tolist(), [str(each) for each in it.iloc[:, -1]][:1])\n"
        )
        self.assertEqual(self.by(PANDAS, text), (
            "['name', 'id', 'id'] ['string', 'Int64', 'Int64'] [[False, False, False], [True, True, True]] ['4611686018427387905']\n"
            "['id'] ['Int64'] [] []\n"
        ))

    def by(self, python, text):
        """Returns what another Python prints, which has a module that this one may lack."""
        places = [f"{ROOT}/bindings/python", f"{ROOT}/tests", *filter(None, [os.environ.get("PYTHONPATH")])]
        known = {**os.environ, "PYTHONPATH": ":".join(places), "PYTHONDONTWRITEBYTECODE": "1"}
        ran = subprocess.run([python, "-c", text], env=known, capture_output=True, text=True)
        self.assertEqual((ran.returncode, ran.stderr), (0, ""))
        return ran.stdout

    def test_each_fault_has_its_words(self):
        """The codes of docs/FAULTS.md, and which of its lines have a place."""
        lines = re.findall(r"^\| `sfq: (?:t )?([SLQ]\d+)([^`]*)`", read(f"{ROOT}/docs/FAULTS.md"), re.M)
        self.assertEqual(sorted(errors.MEANINGS), sorted({it[0] for it in lines}))
        self.assertEqual(sorted(errors.WITHOUT_PLACE), sorted({it[0] for it in lines if not re.match(" (at|record) ", it[1])}))

    def test_errors_have_code_place_and_reason(self):
        fault = sfq.Fault("V3", 0, 0)
        error = errors.of_fault("L6", 2, "parcel", fault)
        self.assertEqual((type(error), error.code, error.at, error.table, error.fault), (sfq.DataError, "L6", 2, "parcel", fault))
        self.assertEqual(error.place, "parcel L6 record 2 V3 0")
        self.assertEqual(str(error), f"sfq: {error.place}: a geometry is refused: {fault.meaning}")
        again = pickle.loads(pickle.dumps(error))
        self.assertEqual((type(again), str(again), again.place), (type(error), str(error), error.place))
        for code, at, place in (("S1", 0, "S1 at 0"), ("S6", 0, "S6"), ("Q10", 5, "Q10 at 5"), ("Q11", 0, "Q11")):
            self.assertEqual(errors.of_fault(code, at, None, None).place, place)

    def test_the_hierarchy_of_pep_249(self):
        for name, above in (
            ("Warning", Exception), ("Error", Exception), ("InterfaceError", sfq.Error), ("DatabaseError", sfq.Error),
            ("DataError", sfq.DatabaseError), ("OperationalError", sfq.DatabaseError), ("IntegrityError", sfq.DatabaseError),
            ("InternalError", sfq.DatabaseError), ("ProgrammingError", sfq.DatabaseError), ("NotSupportedError", sfq.DatabaseError),
        ):
            self.assertIs(getattr(sfq, name).__bases__[0], above)
            self.assertIs(getattr(sfq.Connection, name), getattr(sfq, name))
        self.assertEqual((sfq.apilevel, sfq.threadsafety, sfq.paramstyle), ("2.0", 2, "qmark"))


class StandIn(unittest.TestCase):
    """Over a stand-in for the library."""

    def connect(self, calls=None, rows=ROWS, **how):
        self.calls = (calls or tables_stand_in.Calls()).use(self)
        return sfq.connect(SCHEMA, {"t": rows}, **how)

    def test_tables_are_loaded_when_a_query_names_them(self):
        db = self.connect()
        self.assertEqual((db.tables, db.columns("T"), db.is_loaded("t")), (("t",), [("id", "INTEGER"), ("name", "TEXT")], False))
        self.assertEqual(db.execute("SELECT id, name FROM t").fetchall(), [(1, "a"), (2, None), (3, "it's")])
        self.assertTrue(db.is_loaded("t"))
        self.assertTrue(self.connect(load_all=True).is_loaded("t"))
        with self.assertRaisesRegex(sfq.ProgrammingError, "^sfq: u: the schema has no table of this name"):
            db.load("u")

    def test_tables_that_are_not_there(self):
        db = sfq.connect(SCHEMA) if self.connect() else None
        with self.assertRaisesRegex(sfq.OperationalError, "^sfq: t: this table wasn't handed in"):
            db.load()
        with tempfile.TemporaryDirectory(prefix="sfq-connect-") as room:
            write(f"{room}/schema.sql", SCHEMA)
            tables_stand_in.Calls().use(self)
            db = sfq.connect(f"{room}/schema.sql")
            with self.assertRaisesRegex(sfq.OperationalError, f"^sfq: t: {room}/t.csv: No such file or directory") as met:
                db.execute("SELECT id FROM t")
            self.assertEqual(met.exception.table, "t")
            write(f"{room}/t.csv", ROWS)
            self.assertEqual(len(db.execute("SELECT id FROM t").fetchall()), 3)

    def test_a_cursor_by_pep_249(self):
        db = self.connect()
        with db.cursor() as cursor:
            self.assertEqual((cursor.description, cursor.rowcount, cursor.arraysize), (None, -1, 1))
            with self.assertRaisesRegex(sfq.ProgrammingError, "no query was executed"):
                cursor.fetchone()
            self.assertIs(cursor.execute("SELECT id, name FROM t"), cursor)
            self.assertEqual([it[:2] for it in cursor.description], [("id", sfq.NUMBER), ("name", sfq.STRING)])
            self.assertTrue(all(len(it) == 7 for it in cursor.description))
            self.assertEqual([cursor.fetchmany(), cursor.fetchmany(5), cursor.fetchone(), cursor.fetchmany(2)],
                             [[(1, "a")], [(2, None), (3, "it's")], None, []])
            self.assertEqual([it for it, in cursor.execute("SELECT id FROM t")], [1, 2, 3])
            self.assertEqual(cursor.execute("SELECT name, id FROM t").dicts()[2], {"name": "it's", "id": 3})
            cursor.setinputsizes([1])
            cursor.setoutputsize(1)
        for call in (cursor.fetchone, cursor.fetchall, lambda: cursor.execute("SELECT id FROM t")):
            with self.assertRaisesRegex(sfq.ProgrammingError, "the cursor is closed"):
                call()
        self.assertEqual((db.commit(), db.rollback()), (None, None))

    def test_what_is_closed(self):
        with self.connect() as db:
            cursor = db.execute("SELECT id FROM t")
        db.close()
        for call in (cursor.fetchone, cursor.dicts, db.cursor, db.commit, db.load, lambda: db.execute("SELECT id FROM t"), lambda: next(cursor)):
            with self.assertRaisesRegex(sfq.ProgrammingError, "the connection is closed"):
                call()
        self.assertEqual(self.calls.statements, {})

    def test_the_same_query_is_read_once_and_bound(self):
        db = self.connect()
        for value, wanted in ((1, [(2,), (3,)]), (2, [(3,)]), (9, [])):
            self.assertEqual(db.execute("SELECT id FROM t WHERE id > ?", [value]).fetchall(), wanted)
        found = db.executemany("SELECT id FROM t WHERE name = ?", ([it] for it in ("it's", "b", "a")))
        self.assertEqual((found.fetchone(), found.fetchall()), ((3,), [(1,)]))
        # Loading ends no statement here: the first of each query, with a second prepare where the table wasn't loaded yet.
        self.assertEqual((self.calls.seen.count("sfq_prepare"), self.calls.made), (3, 2))
        self.assertEqual(db.executemany("SELECT id FROM t WHERE id > ?", []).fetchall(), [])

    def test_a_library_without_binding_prepares_anew(self):
        db = self.connect(tables_stand_in.Calls(binds=False))
        found = db.executemany("SELECT id FROM t WHERE id > ?", [[1], [2]]).fetchall()
        self.assertEqual((found, self.calls.made), ([(2,), (3,), (3,)], 2))

    def test_a_value_of_another_type_is_another_query(self):
        db = self.connect()
        self.assertEqual(db.execute("SELECT id FROM t WHERE id = ?", [3]).fetchall(), [(3,)])
        self.assertEqual(db.execute("SELECT id FROM t WHERE id = ?", ["3"]).fetchall(), [])
        self.assertEqual(self.calls.made, 2)

    def test_a_number_that_no_call_takes_goes_into_the_text(self):
        db = self.connect()
        for value in (1, 2**63, 2**64 + 1):
            found = db.execute("SELECT id FROM t WHERE id = ?", [value]).fetchall()
            self.assertEqual(found, [(1,)] if value == 1 else [], value)

    def test_places_of_faults_and_wrong_numbers_of_values(self):
        db = self.connect()
        for query, values, place in (("SELECT id FROM nope WHERE id = ?", [5], "Q3 at 15"), ("SELECT id FROM t WHERE ?", ["abc"], "Q2 at 24")):
            with self.assertRaises(sfq.ProgrammingError) as met:
                db.execute(query, values)
            self.assertEqual((met.exception.place, met.exception.code, met.exception.table), (place, place[:2], None))
        for values in ([], [1, 2]):
            with self.assertRaisesRegex(sfq.ProgrammingError, f"{len(values)} values were handed in for a query with 1 times"):
                db.execute("SELECT id FROM t WHERE id = ?", values)
        tables_stand_in.Calls().use(self)
        with self.assertRaises(sfq.ProgrammingError) as met:
            sfq.connect("CREATE TABLE", {})
        self.assertEqual(met.exception.place, "S1 at 0")

    def test_a_cursor_goes_on_where_a_table_is_loaded_meanwhile(self):
        calls = tables_stand_in.Calls().use(self)
        db = sfq.connect("CREATE TABLE t (id INTEGER, name TEXT); CREATE TABLE u (id INTEGER)", {"t": ROWS, "u": {"id": [7]}})
        cursor, other = db.execute("SELECT id FROM t WHERE id > ?", [0]), db.execute("SELECT name FROM t")
        found = [cursor.fetchone()]
        self.assertEqual(db.execute("SELECT id FROM u").fetchall(), [(7,)])
        self.assertEqual((found + cursor.fetchall(), other.fetchall()), ([(1,), (2,), (3,)], [("a",), (None,), ("it's",)]))
        db.close()
        self.assertEqual(calls.statements, {})

    def test_memory_that_is_refused_where_a_table_is_loaded_meanwhile(self):
        """The constant isn't bound anew then, so the statement is prepared once more before it gives a row."""
        calls = tables_stand_in.Calls().use(self)
        db = sfq.connect("CREATE TABLE t (id INTEGER, name TEXT); CREATE TABLE u (id INTEGER)", {"t": ROWS, "u": {"id": [7]}})
        query = "SELECT id FROM t WHERE id > ?"
        db.execute(query, [0]).close()
        cursor = db.execute(query, [1])
        self.assertEqual(db.execute("SELECT id FROM u").fetchall(), [(7,)])
        calls.refused["sfq_bind_integer"] = 3
        with self.assertRaisesRegex(MemoryError, "out of memory"):
            _ = cursor.work
        self.assertEqual((calls.refused, cursor.fetchall()), ({}, [(2,), (3,)]))

    def test_statements_that_nobody_needs_are_ended(self):
        db = self.connect()
        for at in range(3 * connections.MOST_KEPT):
            db.execute(f"SELECT id FROM t WHERE id = {at}").fetchone()
            gc.collect()
        self.assertLessEqual(len(self.calls.statements), connections.MOST_KEPT + 2)
        cursor = db.execute("SELECT id FROM t")
        del db
        gc.collect()
        self.assertEqual(cursor.fetchone(), (1,))
        del cursor
        gc.collect()
        self.assertEqual(self.calls.statements, {})

    def test_a_step_that_is_busy_goes_on(self):
        db = self.connect(rows={"id": range(5_000), "name": ["a"] * 5_000})
        self.assertEqual(db.execute("SELECT id FROM t WHERE id > ?", [4_998]).fetchall(), [(4_999,)])
        steps = self.calls.seen.count("sfq_step")
        self.assertGreater(steps, 5_000 // databases.MOST_CANDIDATES)
        self.assertLess(steps, 5_000 // databases.MOST_CANDIDATES + 10)

    def test_steps_become_short_where_they_take_long(self):
        db = self.connect(rows={"id": range(200), "name": ["a"] * 200})
        self.calls.before_step = lambda: time.sleep(0.03)
        cursor = db.execute("SELECT id FROM t WHERE id > 50")
        self.assertEqual(cursor.fetchone(), (51,))
        self.assertLess(cursor._statement.candidates, databases.FIRST_CANDIDATES)

    def test_ctrl_c_ends_a_query(self):
        """Within 0.2 seconds: the cursor has no rows from then on, and can execute a query again."""
        ran = interrupted("""
            calls = tables_stand_in.Calls()
            databases.library = lambda: calls
            db = sfq.connect("CREATE TABLE t (id INTEGER)", {"t": {"id": range(2_000)}}, load_all=True)
            calls.before_step = lambda: time.sleep(0.01)
            cursor = db.execute("SELECT id FROM t WHERE id > 1999")
            interrupt_sleeper(cursor.fetchall)
            try:
                cursor.fetchone()
            except sfq.ProgrammingError as error:
                print(error)
            print(cursor.execute("SELECT id FROM t WHERE id = 5").fetchall())
        """)
        self.assertEqual(ran, ("interrupted\nsfq: no query was executed\n[(5,)]\n", ""))

    def test_refused_memory_is_an_error(self):
        """In each call that takes memory; then all goes on."""
        query = "SELECT id FROM t WHERE id = ?"
        for name, call in (
            ("sfq_open", lambda db: sfq.connect(SCHEMA)), ("sfq_load", lambda db: db.load()),
            ("sfq_prepare", lambda db: db.execute("SELECT name FROM t")), ("sfq_step", lambda db: db.execute(query, [2]).fetchone()),
            ("sfq_bind_integer", lambda db: db.execute(query, [2])), ("sfq_column_integer", lambda db: db.execute(query, [2]).fetchone()),
        ):
            db = self.connect()
            if name != "sfq_load":
                db.execute(query, [1]).close()
            self.calls.refused[name] = 3
            with self.assertRaisesRegex(MemoryError, "out of memory"):
                call(db)
            self.assertEqual((self.calls.refused, db.execute(query, [2]).fetchall()), ({}, [(2,)]), name)

    def test_a_status_that_is_not_one_of_the_call(self):
        for name in ("sfq_prepare", "sfq_step", "sfq_column_integer", "sfq_reset"):
            db = self.connect()
            self.calls.refused[name] = 99
            with self.assertRaisesRegex(sfq.InternalError, "the library returned the status 99"):
                db.execute("SELECT id FROM t").fetchall()
                db.execute("SELECT id FROM t").close()

    def test_long_texts_and_names(self):
        long = "é" * 3_000
        db = self.connect(rows={"id": [1], "name": [long]})
        self.assertEqual(db.execute("SELECT name FROM t").fetchall(), [(long,)])

    def test_threads_share_a_connection(self):
        db, found = self.connect(rows={"id": range(300), "name": ["a"] * 300}), []

        def work():
            for at in range(20):
                found.append(db.execute("SELECT id FROM t WHERE id > ?", [at]).fetchall() == [(it,) for it in range(at + 1, 300)])

        in_threads(4, work)
        self.assertEqual(found, [True] * 80)


class WithTables(engine_rows.WithLibrary):
    """Over the library that ./build --library made."""

    @classmethod
    def setUpClass(cls):
        super().setUpClass()
        if not os.path.isfile(f"{library.OUT}/{databases.NAME}"):
            raise unittest.SkipTest("needs libsfq_tables of ./build --library")
        os.environ["SFQ_LIBRARY"] = library.SHARED


class Loading(WithTables):
    """Schemas and tables that load, and those that don't."""

    def test_schemas_and_tables_of_the_scripts(self):
        """Each row that is about the schema or the tables has the line of the program, and the tables of each other load."""
        seen = set()
        for name in Engine.SCRIPTS:
            for row in engine_rows.rows_of(name):
                fault = re.match(r"! sfq: ((?:\w+ L|S)\d.*)\n", row.output)
                if not re.match("SELECT|EXPLAIN|check$", row.command) or re.match("! sfq: (Q[12] |Q1[012]|.* unreadable)", row.output):
                    continue
                try:
                    with sfq.connect(row.files["schema"].encode(), tables_of(row)) as db:
                        db.load()
                    found = None
                except sfq.Error as error:
                    found = error.place or str(error)
                    seen.add(error.code)
                self.assertEqual(found, fault and fault[1], row.command)
        self.assertGreaterEqual(len(seen), 12)

    def test_parameters_by_names(self):
        """A name that comes twice has one value; names in strings and comments are none; a geometry's text may be one."""
        rows = {"id": [1, 2, 3], "pop": [4, 5, 6], "name": [":a", None, "c"], "geom": ["POINT(1 1)", "POINT(2 2)", "POINT EMPTY"]}
        with sfq.connect(SHAPES, {"t": rows}) as db:
            for query, values, wanted in (
                ("SELECT id FROM t WHERE pop > :least AND pop < :most OR pop=:least -- :no", {"most": 6, "least": 4}, [1, 2]),
                ("SELECT id FROM t WHERE name = ':a' AND name = :a", {"a": ":a", "b": 1}, [1]),
                ("SELECT id FROM t WHERE ST_Intersects(geom, :at) OR ST_Equals(geom, ST_GeomFromText(:text))",
                 {"at": sfq.Geometry("POINT(2 2)"), "text": "POINT EMPTY"}, [2, 3]),
            ):
                self.assertEqual([it for it, in db.execute(query, values)], wanted, query)
            found = db.executemany("SELECT id FROM t WHERE pop = -:pop OR pop = :pop", [{"pop": 4}, {"pop": 6}]).fetchall()
            self.assertEqual(found, [(1,), (3,)])
            with self.assertRaises(sfq.DataError) as met:
                db.execute("SELECT id FROM t WHERE ST_Within(geom, ST_GeomFromText( :text))", {"text": "POINT(1"})
            self.assertEqual((met.exception.code, met.exception.at, met.exception.fault.code), ("Q8", 56, "W1"))

    def test_tables_of_columns(self):
        db = sfq.connect(SHAPES, {"T": {"id": [2, 1.0], "pop": [None, float("nan")], "name": ["it's, so", ""],
                                        "geom": ["POINT(1 1)", sfq.Geometry("point empty")]}})
        self.assertEqual((db.tables, db.is_loaded("t")), (("t",), False))
        self.assertEqual(db.columns("t"), [("id", "INTEGER"), ("pop", "INTEGER"), ("name", "TEXT"), ("geom", "GEOMETRY")])
        db.load()
        self.assertTrue(db.is_loaded("T"))
        for changed, place in (
            ({"id": [1, 1]}, "t L9 record 2"), ({"pop": [1, 2.5]}, "t L5 record 2"), ({"id": [1, None]}, "t L8 record 2"),
            ({"geom": ["POINT(1 1)", sfq.Geometry("POLYGON((0 0,4 4,4 0,0 4,0 0))")]}, "t L6 record 2 V3 0"),
        ):
            columns = {"id": [1, 2], "pop": [1, 2], "name": ["a", "b"], "geom": [None, None], **changed}
            with self.assertRaises(sfq.DataError) as met:
                sfq.connect(SHAPES, {"t": columns}, load_all=True)
            self.assertEqual((met.exception.place, met.exception.table), (place, "t"))

    def test_files(self):
        db = sfq.connect(f"{PARCELS}/schema.sql", load_all=True)
        self.assertTrue(all(db.is_loaded(it) for it in db.tables))
        with tempfile.TemporaryDirectory(prefix="sfq-connect-") as room:
            with self.assertRaisesRegex(sfq.OperationalError, f"^sfq: t: {room}/t.csv: No such file or directory"):
                sfq.connect(SHAPES, room).load("t")
            with self.assertRaisesRegex(sfq.Error, f"^sfq: t: {room}: Is a directory|^sfq: t L11: "):
                sfq.connect(SHAPES, {"t": room}).load()


class Engine(WithTables):
    """The rows that the engine's own scripts have."""

    SCRIPTS = ("explanations", "language", "limits", "locations", "parcels", "predicates", "queries", "schemas", "spatial", "tables",
               "truths")

    def rows(self):
        for name in self.SCRIPTS:
            for row in engine_rows.rows_of(name):
                if re.match(r"SELECT|EXPLAIN", row.command):
                    yield row

    def asked(self, row):
        """Returns what `run` writes for a row: the answer, or the line of a fault."""
        try:
            with sfq.connect(row.files["schema"].encode(), tables_of(row)) as db:
                cursor = db.execute(row.command)
                rows = [["" if it is None else str(it) for it in row] for row in cursor]
                if row.command.startswith("EXPLAIN"):
                    return "".join(f"{it}\n" for it, in rows)
                lines = [",".join(map(rules.quoted, it)) or '""' for it in [[it[0] for it in cursor.description], *rows]]
                return "".join(f"{it}\n" for it in lines)
        except sfq.Error as error:
            return f"! sfq: {error.place}\nstatus 5\n"

    def test_each_query_of_the_scripts(self):
        count = 0
        for row in self.rows():
            if "?" not in row.command and not re.match("! sfq: (S|\\w+ L|.* unreadable)", row.output):
                self.assertEqual(self.asked(row), row.output, row.command)
                count += 1
        self.assertGreaterEqual(count, 200)

    def test_each_constant_is_bound(self):
        """Each query with a `?` in place of its last constant: executed with another value, then with that of the query."""
        count = 0
        for row in self.rows():
            constants = re.findall(r"(?<![\w'])\d+(?!\w)|'(?:[^']|'')*'", row.command)
            if row.output.startswith("!") or "EXPLAIN" in row.command or not constants:
                continue
            last = constants[-1]
            query = "?".join(row.command.rsplit(last, 1))
            value, other = (last[1:-1].replace("''", "'"), "POINT EMPTY") if last[0] == "'" else (int(last), 0)
            if re.fullmatch("'[TFtf*012]{9}'", last):
                # A pattern of ST_Relate: another text isn't one.
                continue
            with sfq.connect(row.files["schema"].encode(), tables_of(row)) as db:
                wanted = db.execute(row.command).fetchall()
                for it in (other, value):
                    found = db.execute(query, [it]).fetchall()
                self.assertEqual(found, wanted, row.command)
            count += 1
        self.assertGreaterEqual(count, 80)


class Land(WithTables):
    """The land register of the examples."""

    def setUp(self):
        self.db = sfq.connect(f"{PARCELS}/schema.sql")
        self.addCleanup(self.db.close)

    def test_neighbours(self):
        query = "SELECT b.id, b.name, b.geom FROM parcel a JOIN parcel b ON ST_Touches(a.geom, b.geom) WHERE a.id = ?"
        cursor = self.db.execute(query, [103])
        self.assertEqual([it[:2] for it in cursor.description], [("b.id", sfq.NUMBER), ("b.name", sfq.STRING), ("b.geom", sfq.GEOMETRY)])
        rows = cursor.fetchall()
        self.assertEqual([it[:2] for it in rows], [(102, "Quay House"), (108, "Boatyard")])
        self.assertTrue(all(isinstance(it[2], sfq.Geometry) and it[2].is_valid for it in rows))
        self.assertGreater(cursor.work, 0)
        self.assertIn("\nouter a scan\ninner b probe ", cursor.plan())
        shape = rows[0][2]
        found = self.db.execute("SELECT id FROM parcel WHERE ST_Equals(geom, ?)", [shape]).fetchall()
        self.assertEqual(found, [(102,)])
        self.assertEqual(self.db.execute("SELECT id FROM parcel WHERE ST_Equals(geom, ?)", [rows[1][2]]).fetchall(), [(108,)])

    def test_a_value_that_is_refused(self):
        query = "SELECT id FROM parcel WHERE name = 'é' OR ST_Within(geom, ?)"
        for _ in range(2):
            with self.assertRaises(sfq.DataError) as met:
                self.db.execute(query, [sfq.Geometry("POLYGON((0 0,4 4,4 0,0 4,0 0))")])
            self.assertEqual((met.exception.place, met.exception.fault.code), ("Q8 at 59 V3 0", "V3"))
            self.db.execute(query, [sfq.Geometry("POINT(1 1)")]).fetchall()
        with self.assertRaises(sfq.DataError) as met:
            self.db.execute("SELECT id FROM parcel WHERE id = ?", [2**63])
        self.assertEqual(met.exception.place, "Q12 at 33")
        with self.assertRaises(sfq.ProgrammingError) as met:
            self.db.execute("SELECT id FROM parcel WHERE id = ?", ["a"])
        self.assertEqual(met.exception.place, "Q7 at 28")

    def test_a_geometry_that_is_longer_than_a_query(self):
        ring = [(it, 0) for it in range(4_000)] + [(it, 9_999) for it in reversed(range(4_000))] + [(0, 0)]
        shape = sfq.Geometry.from_positions("Polygon", ring, [len(ring)])
        self.assertGreater(len(shape.text), 65_536)
        wanted = [it[0] for it in self.db.execute("SELECT id, geom FROM parcel") if it[1] is not None and it[1].within(shape)]
        self.assertEqual([it[0] for it in self.db.execute("SELECT id FROM parcel WHERE ST_Within(geom, ?)", [shape])], wanted)

    def test_ctrl_c_ends_a_join(self):
        """Each row is a geometry that has to be related to all others, and no pair is a row. It may be counted, too."""
        ran = interrupted("""
            count, query = 3_000, "FROM t a JOIN t b ON a.pop < b.pop AND NOT ST_Disjoint(a.geom, b.geom)"
            shapes = [f"MULTIPOINT({it} 0,{it} 9)" for it in range(count)]
            schema = "CREATE TABLE t (id INTEGER PRIMARY KEY, pop INTEGER, geom GEOMETRY)"
            db = sfq.connect(schema, {"t": {"id": range(count), "pop": range(count), "geom": shapes}}, load_all=True)
            for what in ("SELECT a.id", "SELECT COUNT(*)", "EXPLAIN ANALYZE SELECT a.id"):
                interrupt(db.execute(f"{what} {query}").fetchall)
        """)
        self.assertEqual(ran, ("interrupted\n" * 3, ""))

    def test_threads(self):
        wanted, found = self.db.execute("SELECT * FROM parcel").fetchall(), []
        in_threads(4, lambda: found.extend(self.db.execute("SELECT * FROM parcel").fetchall() == wanted for _ in range(10)))
        self.assertEqual(found, [True] * 40)

    def test_the_examples_of_the_document(self):
        shown = examples("PYTHON", "python", "## Tables in Python")
        self.assertEqual(len(shown), 2)
        known = {**os.environ, "PYTHONPATH": f"{ROOT}/bindings/python", "PYTHONDONTWRITEBYTECODE": "1"}
        for source, output in shown:
            ran = subprocess.run([sys.executable, "-c", source], cwd=ROOT, env=known, capture_output=True, text=True)
            self.assertEqual((ran.stdout, ran.stderr), (output, ""), source)

    def test_a_missing_library_is_a_clear_error(self):
        text = "import sfq\ntry:\n    sfq.connect('')\nexcept sfq.LibraryError as error:\n    print(error)\n"
        known = {**os.environ, "PYTHONPATH": f"{ROOT}/bindings/python", "SFQ_LIBRARY": "/nowhere/libsfq.so.0"}
        shown = subprocess.run([sys.executable, "-c", text], env=known, capture_output=True, text=True).stdout
        self.assertRegex(shown, r"^sfq: no libsfq_tables.so.0: build it by .*/build --library`, or set SFQ_LIBRARY to the path of libsfq.so.0 beside it.*/nowhere/libsfq_tables.so.0")


if __name__ == "__main__":
    unittest.main()
