"""Random queries, which are changed rows of the scripts, over tables that the library keeps: asked by the calls of C and by
sfq.connect, also with each constant bound, and as sfq-shell asks; and by the modules of the web page in Node. Each writes the bytes
that `run` writes."""
import ctypes
import io
import os
import re
import subprocess
import tempfile
import unittest

from support import needs, needs_build

import library
import repository
import sfq
import test_web
from fuzz import cases
from sfq.commands import asking, showing
from sfq.tables import databases, placeholders

# The runs that are compared: an answer, or a fault of the schema, of a table or of the query. Of files that can't be read the library
# says nothing.
ANSWERED, TABLE, QUERY = 0, 4, 5
# Faults of a query that `run` finds before it loads tables.
EARLY = re.compile(r"sfq: Q(?:1|2|10|11|12)\b")
CONSTANT = re.compile(r"(?<![\w'.])\d{1,18}(?![\w.])|'(?:[^']|'')*'")
PATTERN = re.compile("'[TFtf*012]{9}'")


class Kept:
    """The tables of a case, kept by the library. `fault` is the line of the first fault of the schema or of a table."""

    def __init__(self, case, room):
        self.schema, self.fault = case.parts.get("schema", b""), None
        self.room, self.database = room, None
        try:
            self.database = databases.Database(self.schema)
            self.database.source = self.source
            for table in range(len(self.database.tables)):
                self.database.load(table)
        except sfq.OperationalError:
            raise
        except sfq.Error as error:
            self.fault = f"sfq: {error.place}\n"

    def source(self, table):
        with open(f"{self.room}/d/{self.database.tables[table]}.csv", "rb") as file:
            return file.read()

    def tables(self):
        return {it: self.source(table) for table, it in enumerate(self.database.tables)}


def by_calls(kept, query):
    """Returns what is written by the calls for the texts of the header and of each row."""
    try:
        statement = databases.Statement(kept.database, query, str)
    except sfq.Error as error:
        return f"sfq: {error.place}\n"
    written = rows_by_calls(kept, statement.number)
    statement.end()
    return written


def rows_by_calls(kept, number):
    """Returns the texts of the header and of each row of a statement, which is before its first row."""
    calls, it = kept.database.calls, kept.database.it
    room, lines = databases.Room(), []
    # The module declares its own calls. One set of argument types serves every thread and test: this call is none of the module's.
    calls.sfq_header_text.argtypes = [ctypes.POINTER(databases.CDatabase), ctypes.c_size_t, *databases.KINDS["r"]]
    lines.append(room.text(calls.sfq_header_text, it, number))
    status = calls.sfq_step(it, number, 1)
    while status in (databases.OK, databases.BUSY):
        if status == databases.OK:
            lines.append(room.text(calls.sfq_row_text, it, number))
        status = calls.sfq_step(it, number, len(lines))
    assert status == databases.NONE, status
    return "".join(lines)


def by_connection(kept, query, values=()):
    """Returns what sfq.connect gives, as CSV."""
    with sfq.connect(kept.schema, kept.tables()) as db:
        try:
            cursor = db.execute(query, values)
            found = [[it[0] for it in cursor.description], *cursor]
        except sfq.Error as error:
            return f"sfq: {error.place}\n"
    if query.lstrip()[:7].upper() == "EXPLAIN":
        return "".join(f"{it}\n" for it, in found[1:])
    return "".join(showing.record(["" if it is None else str(it) for it in row]) for row in found)


def by_shell(room, schema, query):
    """Returns what sfq-shell writes, all tables being loaded."""
    text = io.StringIO()
    asker = asking.Asker("sfq-shell", [f"{room}/s", f"{room}/d"], schema)
    try:
        showing.show(asker.ask(query), "csv", showing.Place(text, None, room))
    except asking.Refused as error:
        return f"{error.text.partition(chr(10))[0]}\n"
    return text.getvalue()


def asked_cases(seed, count):
    """Yields so many cases that run a query: the number, the case, a folder with its files, the query, and the program's run."""
    asked = number = 0
    while asked < count:
        number += 1
        case = cases.case(seed, number)
        words = case.texts("word")
        # A word that begins with @ names a file.
        if words[:4] == [b"run", b"--", b"s", b"d"] and len(words) == 5 and words[4][:1] != b"@" and "schema" in case.parts:
            with tempfile.TemporaryDirectory(prefix="sfq-queries-") as room:
                case.write(room)
                ran = subprocess.run([repository.PROGRAM, *words], cwd=room, capture_output=True)
                if ran.returncode in (0, 3, TABLE, QUERY):
                    asked += 1
                    yield number, case, room, words[4], ran


def is_utf8(text):
    try:
        text.decode("utf-8")
    except UnicodeDecodeError:
        return False
    return True


def tables_of(case, room):
    """Returns the bytes of a case's tables, none where its schema is refused."""
    try:
        names = databases.Database(case.parts["schema"]).tables
    except sfq.ProgrammingError:
        return []
    found = []
    for name in names:
        with open(f"{room}/d/{name}.csv", "rb") as file:
            found.append(file.read())
    return found


def other_value(text):
    """Returns another value of a constant's type."""
    return 7 if text[0] != "'" else "POINT(1 1)" if re.match("'(?i:MULTI)?(?i:POINT|LINE|POLY)", text) else "b"


# Another value by the type of a constant that is bound.
OTHER = {"INTEGER": 7, "TEXT": "b", "GEOMETRY": "POINT(1 1)"}


def to_bind(kind, at, value):
    """Returns what binds a constant."""
    return kind.lower(), at, (value,) if kind == "INTEGER" else (value.encode(), len(value.encode()))


class AsksBoth(unittest.TestCase):
    """A test case that asks the program and the library."""

    ASKS_LIBRARY, ASKS_PROGRAM = True, True

    @classmethod
    def setUpClass(cls):
        if not library.are_made():
            raise unittest.SkipTest("needs ./build --library")
        os.environ["SFQ_LIBRARY"] = library.SHARED


class RandomQueries(AsksBoth):
    """A program's answers to so many queries beside those of the library."""

    COUNT, SEED = 400, 1

    @needs_build
    def test_each_way_writes_what_run_writes(self):
        answered = bound = called = 0
        for number, case, room, query, ran in asked_cases(self.SEED, self.COUNT):
            answered += ran.returncode == ANSWERED
            with self.subTest(case=number, query=query):
                more = self.compare(case, room, query, ran)
                bound, called = bound + more[0], called + more[1]
        self.assertGreater(answered, self.COUNT // 8)
        self.assertGreater(bound, self.COUNT // 25)
        self.assertGreater(called, self.COUNT // 25)

    def compare(self, case, room, query, ran):
        """Compares the ways, and returns how many constants were bound by sfq.connect and by the calls."""
        wanted = (ran.stdout + ran.stderr).decode("utf-8", "surrogateescape")
        kept = Kept(case, room)
        if kept.fault:
            if not EARLY.match(wanted):
                self.assertEqual(kept.fault, wanted)
            return 0, 0
        if not is_utf8(query):
            return 0, 0
        text = query.decode("utf-8")
        self.assertEqual(by_calls(kept, query), wanted)
        self.assertEqual(by_shell(room, kept.schema.decode("utf-8", "surrogateescape"), text), wanted)
        if "?" in text:
            return 0, 0
        self.assertEqual(by_connection(kept, text), wanted)
        if ran.returncode != ANSWERED or "--" in text:
            return 0, 0
        found = []
        for it in CONSTANT.finditer(text):
            if not PATTERN.fullmatch(it[0]):
                value = it[0][1:-1].replace("''", "'") if it[0][0] == "'" else int(it[0])
                found.append((f"{text[: it.start()]}?{text[it.end() :]}", other_value(it[0]), value))
        bound = 0 if re.match(r"\s*explain", text, re.I) else self.bind_by_connection(kept, found, wanted)
        return bound, self.bind_by_calls(kept, text, found, wanted)

    def bind_by_connection(self, kept, found, wanted):
        """Asks with a value for each of the constants: another one before, of the same type. Returns how many they are."""
        with sfq.connect(kept.schema, kept.tables()) as db:
            for query, other, value in found:
                try:
                    db.execute(query, [other]).fetchall()
                except sfq.Error:
                    pass
                rows = db.execute(query, [value]).fetchall()
                written = "".join(showing.record(["" if it is None else str(it) for it in row]) for row in rows)
                self.assertEqual(wanted.partition("\n")[2], written, query)
        return len(found)

    def bind_by_calls(self, kept, text, found, wanted):
        """The same by the calls: each constant of one statement after another. Returns how many were bound."""
        statement, bound = databases.Statement(kept.database, text.encode(), str), 0
        for query, _, value in found:
            constants = placeholders.query(query).constants([placeholders.of_value(value, 1)])
            self.assertEqual([kind for kind, _ in constants], statement.constants, query)
            for at, (kind, mark) in enumerate(constants):
                if mark == 0:
                    statement.begin([to_bind(kind, at, OTHER[kind])])
                    rows_by_calls(kept, statement.number)
                    statement.begin([to_bind(kind, at, value)])
                    self.assertEqual(rows_by_calls(kept, statement.number), wanted, query)
                    bound += 1
        statement.end()
        return bound


class ManyRandomQueries(RandomQueries):
    """The same of more queries."""

    IS_LONG = True
    COUNT, SEED = 10_000, 2


@needs("nodejs", "node")
class RandomQueriesOfThePage(AsksBoth):
    """A program's answers to so many queries beside those of the page's modules."""

    COUNT, SEED = 100, 3

    @test_web.needs_page
    @needs_build
    def test_the_page_writes_what_run_writes(self):
        given, wanted = [], []
        for number, case, room, query, ran in asked_cases(self.SEED, self.COUNT):
            if is_utf8(query):
                given.append((case.parts["schema"], tables_of(case, room), [query]))
                wanted.append((number, query, ran.returncode, (ran.stdout or ran.stderr.rstrip(b"\n")).decode("utf-8", "replace")))
        found, lost = test_web.asked_in_node(given)
        self.assertEqual(lost, 0, "memory isn't given back")
        for (number, query, _, printed), ([answer], _) in zip(wanted, found, strict=True):
            with self.subTest(case=number, query=query):
                self.assertEqual(answer, printed)
        self.assertGreater(sum(status == ANSWERED for _, _, status, _ in wanted), self.COUNT // 8)


class ManyRandomQueriesOfThePage(RandomQueriesOfThePage):
    """The same of more queries."""

    IS_LONG = True
    COUNT, SEED = 10_000, 4


if __name__ == "__main__":
    unittest.main()
