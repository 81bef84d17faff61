"""`sfq.connect` by PEP 249, its required part and the optional extensions that it has, over a stand-in for the library.

Cases of the public suites for PEP 249 that make no sense here: those that create, insert into or drop tables, and so `rowcount` after an
INSERT and `lastrowid`, for queries change nothing; those of `callproc` and `nextset`, which aren't there; those that write and read again
dates, bytes and fractions, which no column has; and that a second `close` of a connection is an error, for here it does nothing, as it
does in sqlite3.
"""
import datetime
import inspect
import time
import unittest

import support

import sfq
import tables_stand_in

SCHEMA = "CREATE TABLE t (id INTEGER PRIMARY KEY, name TEXT)"
NAMES = ["Carlton", "Cooper", "Foster", "Redback", "Victoria", "XXXX"]
ALL = "SELECT name FROM t"


class WithStandIn(unittest.TestCase):
    def setUp(self):
        tables_stand_in.Calls().use(self)
        self.db = sfq.connect(SCHEMA, {"t": {"id": range(1, 7), "name": NAMES}})
        self.cursor = self.db.cursor()


class Module(unittest.TestCase):
    def test_globals(self):
        self.assertEqual((sfq.apilevel, sfq.paramstyle), ("2.0", "qmark"))
        self.assertIn(sfq.threadsafety, (0, 1, 2, 3))
        self.assertTrue(callable(sfq.connect))

    def test_exceptions_and_their_hierarchy(self):
        self.assertTrue(issubclass(sfq.Warning, Exception) and issubclass(sfq.Error, Exception))
        self.assertFalse(issubclass(sfq.Warning, sfq.Error))
        for name in ("InterfaceError", "DatabaseError"):
            self.assertTrue(issubclass(getattr(sfq, name), sfq.Error))
        for name in ("DataError", "OperationalError", "IntegrityError", "InternalError", "ProgrammingError", "NotSupportedError"):
            self.assertTrue(issubclass(getattr(sfq, name), sfq.DatabaseError))

    def test_types_are_five_and_geometry(self):
        """No two are equal, and columns are of three of them."""
        found = [sfq.STRING, sfq.BINARY, sfq.NUMBER, sfq.DATETIME, sfq.ROWID, sfq.GEOMETRY]
        self.assertEqual(len(set(found)), 6)
        self.assertEqual([sfq.STRING, sfq.NUMBER, sfq.GEOMETRY], ["TEXT", "INTEGER", "GEOMETRY"])

    def test_constructors(self):
        self.assertEqual(sfq.Date(2002, 12, 25), datetime.date(2002, 12, 25))
        self.assertEqual(sfq.Time(13, 45, 30), datetime.time(13, 45, 30))
        self.assertEqual(sfq.Timestamp(2002, 12, 25, 13, 45, 30), datetime.datetime(2002, 12, 25, 13, 45, 30))
        self.assertEqual([sfq.Binary(it) for it in (b"Something", bytearray(b"a\0"), memoryview(b""))], [b"Something", b"a\0", b""])
        for it in ("text", 5, None):
            with self.assertRaises(TypeError):
                sfq.Binary(it)

    def test_constructors_of_ticks_are_of_the_time_here(self):
        ticks = time.mktime((2002, 12, 25, 13, 45, 30, 0, 0, 0))
        self.assertEqual(sfq.DateFromTicks(ticks), sfq.Date(2002, 12, 25))
        self.assertEqual(sfq.TimeFromTicks(ticks), sfq.Time(13, 45, 30))
        self.assertEqual(sfq.TimestampFromTicks(ticks + 0.5), sfq.Timestamp(2002, 12, 25, 13, 45, 30, 500_000))
        for make in (sfq.DateFromTicks, sfq.TimeFromTicks, sfq.TimestampFromTicks):
            for it in (float("nan"), float("inf"), 1e300, 10**400):
                with self.assertRaisesRegex(sfq.DataError, "seconds since 1970"):
                    make(it)

    def test_what_the_package_lists_is_there(self):
        for it in sfq.__all__:
            self.assertTrue(hasattr(sfq, it), it)


class Connections(WithStandIn):
    def test_exceptions_are_attributes(self):
        for name in ("Warning", "Error", "InterfaceError", "DatabaseError", "DataError", "OperationalError", "IntegrityError", "InternalError",
                     "ProgrammingError", "NotSupportedError"):
            self.assertIs(getattr(self.db, name), getattr(sfq, name))

    def test_commit_and_rollback_do_nothing(self):
        self.cursor.execute(ALL)
        self.assertEqual((self.db.commit(), self.db.rollback()), (None, None))
        self.assertEqual(len(self.cursor.fetchall()), 6)

    def test_rollback_does_not_hide_the_first_error(self):
        """As programs call it that have databases of several kinds."""
        with self.assertRaises(sfq.ProgrammingError) as met:
            try:
                self.db.execute("SELECT nope")
            except sfq.Error:
                self.db.rollback()
                raise
        self.assertEqual(met.exception.code, "Q2")

    def test_what_is_closed_raises_an_error(self):
        self.db.close()
        for call in (self.db.commit, self.db.rollback, self.db.cursor, lambda: self.cursor.execute(ALL), self.cursor.fetchone):
            with self.assertRaises(sfq.Error):
                call()
        self.db.close()

    def test_cursors_are_of_one_connection_and_apart(self):
        other = self.db.cursor()
        self.cursor.execute(ALL)
        other.execute("SELECT id FROM t")
        self.assertEqual((self.cursor.fetchone(), other.fetchone(), self.cursor.fetchone()), (("Carlton",), (1,), ("Cooper",)))
        self.assertIs(other.connection, self.db)

    def test_what_is_not_there_is_an_attribute_error(self):
        """As PEP 249 prefers it for what a database lacks."""
        for it in ("callproc", "nextset", "scroll", "next"):
            self.assertFalse(hasattr(self.cursor, it))


class Cursors(WithStandIn):
    def test_before_a_query(self):
        self.assertEqual((self.cursor.description, self.cursor.rowcount, self.cursor.rownumber, self.cursor.lastrowid), (None, -1, None, None))
        for call in (self.cursor.fetchone, self.cursor.fetchmany, self.cursor.fetchall, lambda: next(self.cursor)):
            with self.assertRaises(sfq.Error):
                call()

    def test_description(self):
        self.cursor.execute("SELECT id, name FROM t")
        self.assertEqual([len(it) for it in self.cursor.description], [7, 7])
        self.assertEqual([(it[0].lower(), it[1]) for it in self.cursor.description], [("id", sfq.NUMBER), ("name", sfq.STRING)])
        with self.assertRaises(sfq.Error):
            self.cursor.execute("SELECT nope")
        self.assertIsNone(self.cursor.description)

    def test_fetchone(self):
        self.cursor.execute("SELECT id FROM t WHERE id = ?", (3,))
        self.assertEqual([self.cursor.fetchone(), self.cursor.fetchone(), self.cursor.fetchone()], [(3,), None, None])
        self.cursor.execute("SELECT id FROM t WHERE id = ?", (9,))
        self.assertIsNone(self.cursor.fetchone())
        self.assertEqual(self.cursor.rowcount, -1)

    def test_fetchmany(self):
        self.cursor.execute(ALL)
        self.assertEqual([len(self.cursor.fetchmany(it)) for it in (4, 4, 4)], [4, 2, 0])
        self.assertEqual([self.cursor.execute(ALL).fetchmany(size=it) for it in (0, 1)], [[], [("Carlton",)]])
        self.cursor.arraysize = 3
        self.cursor.execute(ALL)
        self.assertEqual([it for _ in range(3) for it, in self.cursor.fetchmany()], NAMES)

    def test_fetchall_and_mixed_fetches(self):
        self.cursor.execute(ALL)
        rows = [self.cursor.fetchone(), *self.cursor.fetchmany(2), next(self.cursor), *self.cursor.fetchall()]
        self.assertEqual([it for it, in rows], NAMES)
        self.assertEqual((self.cursor.fetchall(), self.cursor.fetchmany(4), self.cursor.fetchone()), ([], [], None))
        self.assertEqual([it for it, in self.cursor.execute(ALL)], NAMES)

    def test_rownumber_is_the_index_of_the_next_row(self):
        self.cursor.execute(ALL)
        found = [self.cursor.rownumber]
        for fetch in (self.cursor.fetchone, lambda: self.cursor.fetchmany(2), lambda: next(self.cursor), self.cursor.fetchall, self.cursor.fetchone):
            fetch()
            found.append(self.cursor.rownumber)
        self.assertEqual(found, [0, 1, 3, 4, 6, 6])

    def test_execute_with_values(self):
        for values in ([2], (2,), iter([2]), {2: 0}.keys().__iter__(), range(2, 3)):
            self.assertEqual(self.cursor.execute("SELECT name FROM t WHERE id = ?", values).fetchall(), [("Cooper",)])
        self.assertEqual(self.cursor.execute("SELECT id FROM t WHERE name = ?", ["Foster"]).fetchall(), [(3,)])

    def test_values_by_names_are_refused(self):
        """Of a mapping the keys would be bound, and of a text its letters."""
        for values in ({"name": "Foster"}, {"name"}, "F", b"F", 5, None, sfq.Geometry("POINT(1 1)")):
            for call in (self.cursor.execute, self.db.execute):
                with self.assertRaisesRegex(sfq.InterfaceError, "values come in a list or a tuple, one for each"):
                    call("SELECT id FROM t WHERE name = ?", values)
        for several in ([{"name": "F"}], {"name": "F"}, "F", 5):
            with self.assertRaises(sfq.InterfaceError):
                self.cursor.executemany("SELECT id FROM t WHERE name = ?", several)

    def test_a_query_is_a_text(self):
        for query in (b"SELECT id FROM t", None, 5):
            with self.assertRaisesRegex(sfq.InterfaceError, "a query is a str"):
                self.cursor.execute(query)

    def test_a_query_that_is_not_utf_8(self):
        with self.assertRaisesRegex(sfq.ProgrammingError, "^sfq: the query isn't UTF-8: byte 33 is none of a character"):
            self.cursor.execute("SELECT id FROM t WHERE name = '\u00e9\udcff' AND id = ?", [5])

    def test_dates_are_their_texts(self):
        when = sfq.Timestamp(2002, 12, 25, 13, 45, 30)
        db = sfq.connect(SCHEMA, {"t": {"id": [1, 2, 3], "name": [when.date(), when.time(), when]}})
        for at, value in enumerate((when.date(), when.time(), when), 1):
            self.assertEqual(db.execute("SELECT id FROM t WHERE name = ?", [value]).fetchall(), [(at,)])
        with self.assertRaisesRegex(sfq.InterfaceError, "is a bytes"):
            db.execute("SELECT id FROM t WHERE name = ?", [sfq.Binary(b"a")])

    def test_executemany(self):
        self.cursor.executemany("SELECT name FROM t WHERE id = ?", [(1,), [6]])
        self.assertEqual(self.cursor.fetchall(), [("Carlton",), ("XXXX",)])
        self.assertEqual(self.cursor.rownumber, 2)

    def test_sizes_are_taken_and_ignored(self):
        self.assertIsNone(self.cursor.setinputsizes((25,)))
        self.assertIsNone(self.cursor.setoutputsize(1000))
        self.assertIsNone(self.cursor.setoutputsize(2000, 0))
        self.assertEqual(len(self.cursor.execute(ALL).fetchall()), 6)

    def test_a_closed_cursor_raises_an_error(self):
        self.cursor.execute(ALL)
        self.cursor.close()
        for call in (self.cursor.fetchone, self.cursor.fetchmany, self.cursor.fetchall, lambda: self.cursor.execute(ALL), lambda: next(self.cursor)):
            with self.assertRaises(sfq.Error):
                call()
        self.assertIsNone(self.cursor.close())

    def test_none_is_null(self):
        db = sfq.connect(SCHEMA, {"t": {"id": [1], "name": [None]}})
        self.assertEqual(db.execute("SELECT id, name FROM t").fetchall(), [(1, None)])

    def test_parameters_have_the_names_of_pep_249(self):
        """So that what calls by names goes on where the database is another."""
        self.assertEqual(list(inspect.signature(sfq.Cursor.fetchmany).parameters), ["self", "size"])
        self.assertEqual(list(inspect.signature(sfq.Binary).parameters), ["string"])


if __name__ == "__main__":
    unittest.main()
