"""sfq-shell: where queries end, how answers are written, what commands do, through a pipe and in a pseudo-terminal; over a stand-in for
the library, a program whose answers are known, over one in Python, and over the library itself where it is made."""
import contextlib
import io
import json
import os
import re
import signal
import stat
import subprocess
import sys
import tempfile
import time
import unittest
from unittest import mock

from made_libraries import over_library
from support import ROOT, python_command, read, write

import engine_rows
import library
import tables_stand_in
import test_databases_python as databases
from shell_sessions import FOLDER, SCHEMA, Program, Terminal, shown
from sfq.commands import asking, endings, prompt, shell, showing
from sfq.tables import databases as border, errors, statements

ORDERED = "SELECT name FROM parcel ORDER BY id"
ORDERED_FAULT = (
    f"sfq: Q2 at 30\n  1 | {ORDERED}\n    |                               ^\n"
    "sfq: ORDER BY isn't there: rows come in the order of the key; sort the output\n"
)
FIRST = "SELECT id, ST_AsText(geom) FROM parcel LIMIT 4"
ODD = "SELECT * FROM odd"
KNOWN = {
    **shown(),
    ORDERED: ("", ORDERED_FAULT, 5),
    "SELECT since FROM owner": ('since\n1962\n2004\n1988\n2011\n""\n', "", 0),
    "SELECT COUNT(*) FROM parcel": ("COUNT(*)\n13\n", "", 0),
    "SELECT COUNT(*) FROM owner": ("COUNT(*)\n5\n", "", 0),
    "SELECT id FROM owner WHERE name = ';' -- a ; here\n OR name = 'it''s;\n;'": ("id\n", "", 0),
    f"EXPLAIN {FIRST}": ("cost 13\nouter parcel scan\nfilter none\n", "", 0),
    f"EXPLAIN ANALYZE {FIRST}": ("cost 13\nouter parcel scan\nfilter none\nwork 0\n", "", 0),
    "SELECT id, geom, geom FROM parcel LIMIT 1": ('id,geom,geom\n111,,"POLYGON((0 0,0 4,4 4,0 0))"\n', "", 0),
    "SELECT id, name FROM well": ('id,name\n1,"a\nb"\n2,水\n3,"c,""d"""\n', "", 0),
}


def statements_of(*lines):
    """Returns the queries that end in lines, with the numbers of their first lines, and what is left."""
    splitter = statements.Splitter()
    found = [tuple(it) for line in lines for it in splitter.add(line)]
    left = splitter.taken()
    return found, left and left.text


class Statements(unittest.TestCase):
    def setUp(self):
        tables_stand_in.Calls().use(self)

    def test_where_queries_end(self):
        for lines, wanted in (
            (["a;"], ([("a", 1)], None)),
            (["a; b ;\n", "c\n"], ([("a", 1), ("b", 1)], "c")),
            (["a\n", "b;\n"], ([("a\nb", 1)], None)),
            ([";;\n", " ; \n"], ([], None)),
            (["a ';' ;\n"], ([("a ';'", 1)], None)),
            (["a 'it''s;' ''''';';\n"], ([("a 'it''s;' ''''';'", 1)], None)),
            (["a 'x;\n", ";' ; b;\n"], ([("a 'x;\n;'", 1), ("b", 2)], None)),
            (["a 'x''\n", "'';'\n", ";"], ([("a 'x''\n'';'", 1)], None)),
            (["a 'x;\n"], ([], "a 'x;\n")),
            (["-- a;\n", "\n", "b -- c;\n", "d;\n"], ([("b -- c;\nd", 3)], None)),
            (["a - -b;\n", "a --b;\n", "c;"], ([("a - -b", 1), ("a --b;\nc", 2)], None)),
            (['a "b;c";\n'], ([('a "b', 1), ('c"', 1)], None)),
        ):
            self.assertEqual(statements_of(*lines), wanted, lines)

    def test_plans(self):
        self.assertTrue(statements.is_plan("-- x\n explain SELECT"))
        self.assertFalse(statements.is_plan("SELECT 'EXPLAIN'"))


class Named(databases.WithTables):
    """What a schema and a query name."""

    def test_tables_of_a_schema(self):
        found = statements.tables(read(SCHEMA))
        self.assertEqual([it.name for it in found], ["owner", "parcel", "building", "water", "path", "well"])
        self.assertEqual(found[0].columns, [("id", "INTEGER"), ("name", "TEXT"), ("since", "INTEGER")])
        text = "-- CREATE TABLE no (x INT)\ncreate table A (b BIGINT primary key, -- )\n c POINT not null);CREATE TABLE z (y INT PRIMARY KEY)"
        self.assertEqual([tuple(it) for it in statements.tables(text)], [
            ("A", [("b", "INTEGER"), ("c", "POINT")], "create table A (b BIGINT primary key, -- )\n c POINT not null);\n"),
            ("z", [("y", "INTEGER")], "CREATE TABLE z (y INT PRIMARY KEY);\n"),
        ])
        for it in ("", "CREATE", "CREATE TABLE", "CREATE TABLE ()", "\ufeff';", f"{text}; CREATE"):
            self.assertEqual(statements.tables(it), [], it)

    def test_types_of_answers(self):
        known = statements.tables(read(SCHEMA))
        for query, wanted in (
            ("SELECT * FROM owner", ["INTEGER", "TEXT", "INTEGER"]),
            ("select p.name, building.geom, p.geom from Parcel AS p, building where 1 = p.id", ["TEXT", "POLYGON", "GEOMETRY"]),
            ("SELECT a.geom, ST_AsText(b.geom) FROM path a INNER JOIN well b ON a.id = b.id", ["LINESTRING", "POINT"]),
            ("SELECT COUNT(*) FROM owner", ["INTEGER"]),
            ("SELECT ST_Dimension(geom), ST_IsEmpty(geom), ST_AsText(geom) FROM well", ["INTEGER", "INTEGER", "POINT"]),
            ("EXPLAIN SELECT geom FROM well", ["TEXT"]),
        ):
            self.assertEqual(statements.types(wanted, query, known), wanted, query)
        self.assertEqual(statements.types(["x", "a.b"], "SELECT nothing", known), ["TEXT", "TEXT"])
        self.assertEqual(statements.columns("SELECT nothing", known), [])

    def test_tables_of_a_query(self):
        """Those of a query that is refused are the ones behind FROM and JOIN."""
        known = statements.tables(read(SCHEMA))
        for query, wanted in (
            ("SELECT 'x' -- FROM well\n", {}), ("SELECT id FROM Well -- , owner", {"well": "well"}),
            ("SELECT id FROM path, well B ORDER BY id", {"path": "path", "b": "well"}), ("SELECT owner FROM path JOIN water AS", {"path": "path", "water": "water"}),
            ("SELECT a.id FROM path A, well B", {"a": "path", "b": "well"}), ("SELECT a.id FROM well a CROSS JOIN well", {"a": "well", "well": "well"}),
        ):
            self.assertEqual({alias: it.name for alias, it in statements.references(query, known).items()}, wanted, query)


class Written(unittest.TestCase):
    """How an answer is written."""

    def text(self, mode, headers, types, rows, width=None, folder="/none", is_plan=False):
        room = io.StringIO()
        showing.show(asking.Answer(headers, types, iter(rows), is_plan), mode, showing.Place(room, width, folder))
        return room.getvalue()

    def test_widths(self):
        for text, wanted in (("", 0), ("abc", 3), ("Mühle", 5), ("u\u0308", 1), ("水道", 4), ("ｗ", 2), ("\u1112\u1161\u11ab", 2), ("a\u200bb", 2)):
            self.assertEqual(showing.width(text), wanted, text)
        for text, room, wanted in (("abcd", 4, "abcd"), ("abcde", 4, "abc…"), ("水道水", 5, "水道…"), ("水道水", 4, "水…"), ("ab", 1, "…"), ("ab", 0, "")):
            self.assertEqual(showing.cut(text, room), wanted)
            self.assertLessEqual(showing.width(showing.cut(text, room)), room)
        for widths, room, wanted in (([3, 5], 8, [3, 5]), ([3, 50, 50], 23, [3, 10, 10]), ([50, 2, 50], 23, [10, 2, 11]), ([9, 9], 1, [1, 1]), ([], 9, [])):
            self.assertEqual(showing.fitted(widths, room), wanted)

    def test_table(self):
        headers, types = ["id", "name"], ["INTEGER", "TEXT"]
        self.assertEqual(self.text("table", headers, types, []), "id  name\n--  ----\n(no row)\n")
        rows = [["7", "水"], ["-10", "a\nb\x1b[0m\u202e"], ["", "long enough"]]
        wanted = " id  name\n---  -----------\n  7  水\n-10  a␊b␛[0m\ufffd\n     long enough\n(3 rows)\n"
        self.assertEqual(self.text("table", headers, types, rows), wanted)
        cut = " id  name\n---  ------\n  7  水\n-10  a␊b␛[…\n     long …\n(3 rows)\n"
        self.assertEqual(self.text("table", headers, types, rows, 11), cut)
        for width in (1, 2, 5, 8):
            for line in self.text("table", headers, types, rows, width).splitlines()[:-1]:
                self.assertLessEqual(showing.width(line), width)

    def test_a_table_of_many_rows_grows_wider(self):
        rows = [["1"]] * 1_500 + [["x" * 30]]
        lines = self.text("table", ["a"], ["TEXT"], rows).splitlines()
        self.assertEqual((len(lines), lines[-2], lines[-1]), (1_504, "x" * 30, "(1,501 rows)"))

    def test_json(self):
        headers, types = ["id", "a\"b", "geom"], ["INTEGER", "TEXT", "POINT"]
        self.assertEqual(self.text("json", headers, types, []), "[]\n")
        text = self.text("json", headers, types, [["-7", "é\n", "POINT(1 2)"], ["", "", ""]])
        self.assertEqual(json.loads(text), [{"id": -7, 'a"b': "é\n", "geom": "POINT(1 2)"}, {"id": None, 'a"b': None, "geom": None}])
        self.assertEqual(len(text.splitlines()), 2)
        self.assertEqual(json.loads(self.text("json", ["plan"], ["TEXT"], [["cost 5"], ["outer t scan"]], is_plan=True)),
                         [{"plan": "cost 5"}, {"plan": "outer t scan"}])

    def test_geojson(self):
        headers, types = ["id", "first", "second"], ["INTEGER", "POLYGON", "POINT"]
        found = json.loads(self.text("geojson", headers, types, [["1", "POLYGON((0 0,0 4,4 4,0 0))", "POINT(1 2)"], ["2", "", ""], ["3", "POLYGON EMPTY", ""]]))
        self.assertEqual([it["geometry"] for it in found["features"]], [
            {"type": "Polygon", "coordinates": [[[0, 0], [4, 4], [0, 4], [0, 0]]]}, None, {"type": "Polygon", "coordinates": []}])
        self.assertEqual([it["properties"] for it in found["features"]], [{"id": 1, "second": "POINT(1 2)"}, {"id": 2, "second": None}, {"id": 3, "second": None}])
        with self.assertRaises(endings.Stopped) as met:
            self.text("geojson", ["id"], ["INTEGER"], [["1"]])
        self.assertIn("no column of the answer is a geometry", str(met.exception))

    def test_geojson_of_imported_tables_has_true_coordinates(self):
        columns = [{"name": "id", "source": "", "type": "INTEGER"}, {"name": "depth", "source": "depth", "type": "INTEGER", "step": "0.1"},
                   {"name": "geom", "source": "geom", "type": "POINT"}]
        layer = {"columns": columns, "coordinate_system": {"authority": "EPSG:25832", "wkt": ""}}
        with tempfile.TemporaryDirectory(prefix="sfq-shell-") as room:
            write(f"{room}/grid.json", json.dumps({"step": "0.01", "origin": ["10", "-5"], "layers": [layer]}))
            text = self.text("geojson", ["w.id", "w.depth", "w.geom"], ["INTEGER", "INTEGER", "POINT"], [["1", "125", "POINT(3 -7)"]], folder=room)
        self.assertIn('"geometry":{"type":"Point","coordinates":[10.03,-5.07]}', text)
        self.assertIn('"w.depth":12.5', text)
        self.assertIn("EPSG::25832", text)

    def test_a_plan_is_lines(self):
        for mode in ("csv", "table", "geojson"):
            self.assertEqual(self.text(mode, ["plan"], ["TEXT"], [["cost 5"], ["outer t scan"]], is_plan=True), "cost 5\nouter t scan\n")


class Completing(databases.WithTables):
    def setUp(self):
        self.completer = prompt.Completer(statements.tables(read(SCHEMA)), [it.name for it in shell.COMMANDS])

    def test_names(self):
        of = self.completer.of
        self.assertEqual(of("", ".t"), [".tables", ".timer"])
        self.assertEqual(of(".mode ", "j"), ["json"])
        self.assertEqual(of(".schema ", "P"), ["parcel", "path"])
        self.assertEqual(of(".load owner ", "wa"), ["water"])
        self.assertEqual(of(".timer ", ""), ["on", "off"])
        self.assertEqual(of(".quit ", ""), [])
        self.assertEqual(of("SELECT ", "ST_I"), ["ST_Intersects(", "ST_IsEmpty("])
        self.assertEqual(of("SELECT ", "st_i"), ["ST_Intersects(", "ST_IsEmpty("])
        self.assertEqual(of("SELECT id FROM ", "pa"), ["parcel", "path"])
        self.assertEqual(of("", "sel"), ["select"])
        self.assertEqual(of("", "SEL"), ["SELECT"])
        self.assertEqual(of("SELECT ", "si"), ["since"])
        self.assertEqual(of("SELECT *\nFROM building b WHERE ", "b.p"), ["b.purpose"])
        self.assertEqual(of("SELECT * FROM path, building b WHERE ", "path.N"), ["path.name"])
        self.assertEqual(of("SELECT * FROM building b WHERE ", "x.p"), [])

    def test_files(self):
        with tempfile.TemporaryDirectory(prefix="sfq-shell-") as room:
            write(f"{room}/q[1].sql", "")
            os.mkdir(f"{room}/qs")
            self.assertEqual(self.completer.of(".read ", f"{room}/q"), [f"{room}/q[1].sql", f"{room}/qs/"])
            self.assertEqual(self.completer.of(".output ", f"{room}/q["), [f"{room}/q[1].sql"])

    def test_lines_of_a_query_are_kept_as_one(self):
        self.assertEqual(prompt.joined(["SELECT id ", "  FROM t;"]), ["SELECT id FROM t;"])
        for lines in (["SELECT id -- key", "FROM t;"], ["SELECT 'a", "b' FROM t;"]):
            self.assertEqual(prompt.joined(lines), lines)

    def test_where_the_file_of_what_was_typed_is(self):
        for state, wanted in (("/x", "/x/sfq/shell-history"), ("", "~/.local/state/sfq/shell-history"), ("relative", "~/.local/state/sfq/shell-history")):
            with mock.patch.dict(os.environ, {"XDG_STATE_HOME": state}):
                self.assertEqual(prompt.history_file(), os.path.expanduser(wanted))


class WithProgram(unittest.TestCase):
    def setUp(self):
        self.program = Program(KNOWN)
        self.addCleanup(self.program.remove)

    def wanted(self, text, out, err="", status=0, *more):
        """Has a session write this through a pipe."""
        self.assertEqual(self.program.run(text, *more), (out, err, status), text)


@over_library
class Piped(WithProgram):
    """Through a pipe: no prompt, what `sfq run` writes, and the status of the first fault."""

    def test_csv_is_what_run_writes(self):
        several = {it: out for it, (out, _, status) in KNOWN.items() if not status}
        self.wanted(";\n\n".join(several), "".join(several.values()))

    def test_the_first_fault_ends_it(self):
        text = f"-- neighbours\n\nSELECT since FROM owner;\n{ORDERED[:23]}\n{ORDERED[23:]};\nSELECT since FROM owner;\n"
        out, err, status = self.program.run(text)
        self.assertEqual((out, status), (KNOWN["SELECT since FROM owner"][0], 5))
        self.assertEqual(err, ORDERED_FAULT + "sfq-shell: standard input line 4: here the query begins\n")
        self.wanted("\n.nothing\nSELECT since FROM owner;\n", "", "sfq-shell: standard input line 2: there is no .nothing: .help lists the commands\n", 2)

    def test_options(self):
        since = KNOWN["SELECT since FROM owner"][0]
        self.wanted("", since * 2, "", 0, "-c", "SELECT since FROM owner", "--command", "SELECT since FROM owner;")
        self.wanted("", f'[{{"COUNT(*)":5}}]\n{since}', "", 0, "--mode", "json", "-c", "SELECT COUNT(*) FROM owner", "-c", ".mode csv\nSELECT since FROM owner;")
        self.wanted("", "", ORDERED_FAULT, 5, "-c", ORDERED, "-c", "SELECT since FROM owner")
        self.wanted("", "", "", 0, "-c", ".quit", "-c", ORDERED)
        self.wanted("SELECT since FROM owner;\n.quit\nnothing", since)

    def test_commands(self):
        self.wanted(".tables\n", "owner\nparcel\nbuilding\nwater\npath\nwell\n")
        text = read(SCHEMA)
        self.wanted(".schema\n", text)
        owner = text[text.index("CREATE TABLE owner") : text.index(");") + 3]
        self.wanted("  .schema OWNER\r\n", owner)
        self.wanted(".load owner parcel\n", "owner 5\nparcel 13\n")
        self.wanted(f".plan {FIRST};\n.work\n", KNOWN[f"EXPLAIN {FIRST}"][0] + KNOWN[f"EXPLAIN ANALYZE {FIRST}"][0])
        self.wanted(f"{FIRST};\n.plan\n", KNOWN[FIRST][0] + KNOWN[f"EXPLAIN {FIRST}"][0])
        out, err, status = self.program.run(".timer on\nSELECT since FROM owner;\n.timer off\nSELECT since FROM owner;\n.mode\n")
        self.assertEqual((out, status), (KNOWN["SELECT since FROM owner"][0] * 2 + "csv\n", 0))
        self.assertRegex(err, r"\Asfq-shell: \d+\.\d{3} s\n\Z")
        out = self.program.run(".help\n")[0]
        for it in shell.COMMANDS:
            self.assertIn(f"{it.name} {it.takes}".rstrip(), out)

    def test_commands_that_are_misused(self):
        for text, said in (
            (".schema nothing", "there is no table nothing: there are owner, parcel, "), (".mode xml", "there is no mode xml: there are csv, "),
            (".plan", "no query came before"), (".why", "no fault came before"), (".timer", ".timer on | off"), (".read", ".read FILE: name a file"),
            (".read a b", "2 words are too many"), (".output 'a", "No closing quotation"), (".mode geojson\nSELECT since FROM owner;", "no column of the answer"),
        ):
            out, err, status = self.program.run(text + "\n")
            self.assertEqual((out, status), ("", 2), text)
            self.assertIn(said, err)
        self.assertEqual(self.program.run(".read nothing.sql\n")[1:], ("sfq-shell: nothing.sql: No such file or directory\n", 6))

    def test_where_a_quote_is_open(self):
        """As shlex has it, of which each text is one word where none is."""
        for text, quote in (
            ("a", ""), ("'a", "'"), ("'a' \"b", '"'), ("'a\\' b", ""), ('"a\\" b', '"'), ("a\\'b", ""), ("\"it's", '"'), ("'\"' c", ""), ("\\", ""), ("'\n", "'"), ("", ""),
        ):
            self.assertEqual(shell.open_quote(text, ""), quote, text)
            if quote:
                self.assertEqual(shell.open_quote(f"b{quote} c", quote), "", text)

    def test_files(self):
        since, room = KNOWN["SELECT since FROM owner"][0], self.program.room
        write(f"{room}/q.sql", "SELECT since\nFROM owner;\n.read 'more of it.sql'\nSELECT since FROM owner")
        write(f"{room}/more of it.sql", ".mode json\nSELECT COUNT(*) FROM owner;\n.mode csv\n")
        self.wanted(".read q.sql\n", since + '[{"COUNT(*)":5}]\n' + since)
        self.wanted(".output out.csv\n.read q.sql\n.output\nSELECT COUNT(*) FROM owner;\n", "COUNT(*)\n5\n")
        self.assertEqual(read(f"{room}/out.csv"), since + '[{"COUNT(*)":5}]\n' + since)
        self.wanted(".output 'a\nb'\n.read q.sql\n.output\n.nothing\n", "", "sfq-shell: standard input line 5: there is no .nothing: .help lists the commands\n", 2)
        self.assertEqual(read(f"{room}/a\nb"), since + '[{"COUNT(*)":5}]\n' + since)
        write(f"{room}/bad.sql", f"\n\n{ORDERED};\nSELECT since FROM owner;\n")
        found = f"{ORDERED_FAULT}sfq-shell: bad.sql line 3: here the query begins\n"
        self.wanted(".read bad.sql\nSELECT since FROM owner;\n", "", found, 5)
        write(f"{room}/loop.sql", ".read loop.sql\n")
        self.assertIn("files name each other more than 16 deep", self.program.run(".read loop.sql\n")[1])

    def test_why(self):
        page = subprocess.run([f"{ROOT}/sfq", "fault", "V3"], capture_output=True, text=True).stdout
        self.wanted(".why v3\n", page)

    def test_bytes_that_are_not_utf_8(self):
        query = "SELECT id FROM owner WHERE name = '\udce4'"
        session = subprocess.Popen(self.program.words(), stdin=subprocess.PIPE, stdout=subprocess.PIPE, env=self.program.environment())
        self.addCleanup(session.stdout.close)
        session.stdin.write(query.encode("utf-8", "surrogateescape") + b";\n")
        session.stdin.close()
        due = time.monotonic() + 120
        while not self.program.asked() and time.monotonic() < due:
            time.sleep(0.05)
        session.kill()
        session.wait()
        self.assertEqual(self.program.asked(), [query])

    def test_a_pipe_that_is_closed(self):
        with open(f"{self.program.room}/q.sql", "w", encoding="utf-8") as file:
            file.write("SELECT since FROM owner;\n" * 50)
        text = " ".join(f"'{it}'" for it in self.program.words("--mode", "table"))
        ran = subprocess.run(["bash", "-c", f"set -o pipefail; {text} < q.sql | true"], cwd=self.program.room, env=self.program.environment(), capture_output=True)
        self.assertEqual((ran.returncode, ran.stdout, ran.stderr), (6, b"", b"sfq-shell: write failed\n"))

    def test_an_output_that_is_full(self):
        with open("/dev/full", "w", encoding="utf-8") as full:
            words = self.program.words("-c", "SELECT since FROM owner")
            ran = subprocess.run(words, stdin=subprocess.DEVNULL, stdout=full, stderr=subprocess.PIPE, env=self.program.environment())
        self.assertEqual((ran.returncode, ran.stderr), (6, b"sfq-shell: write failed\n"))

    def test_ctrl_c_ends_it(self):
        session = subprocess.Popen(self.program.words("-c", "SELECT slow FROM owner"), stdout=subprocess.PIPE, stderr=subprocess.PIPE,
                                   env=self.program.environment(), start_new_session=True)
        number = self.program.waits()
        os.killpg(session.pid, signal.SIGINT)
        _, err = session.communicate(timeout=120)
        self.assertEqual((err, session.returncode), (b"sfq-shell: interrupted\n", 130))
        with self.assertRaises(ProcessLookupError):
            os.kill(number, 0)

    def test_files_that_are_not_there(self):
        out, err, status = self.program.run("", schema=f"{self.program.room}/none.sql")
        self.assertEqual((out, err, status), ("", f"sfq-shell: {self.program.room}/none.sql: No such file or directory\n", 6))
        known = {**os.environ, "SFQ_LIBRARY": "/nowhere/libsfq.so.0"}
        ran = subprocess.run([*python_command(sys.executable, "sfq-shell"), SCHEMA, FOLDER], capture_output=True, text=True, input="", env=known)
        self.assertEqual((ran.stdout, ran.returncode, ran.stderr.count("\n")), ("", 1, 1))
        self.assertIn(f"sfq-shell: no libsfq_tables.so.0: build it by `{ROOT}/build --library`, or set SFQ_LIBRARY", ran.stderr)

    def test_all_tables_are_loaded_at_once(self):
        self.program.remove()
        self.program = Program({**KNOWN, **{f"SELECT COUNT(*) FROM {it}": ("COUNT(*)\n1\n", "", 0) for it in ("owner", "parcel", "building", "water", "path", "well")}})
        self.addCleanup(self.program.remove)
        self.wanted("", "", "", 0, "--all")
        self.assertEqual(len(self.program.asked()), 6)


@over_library
class Prompted(WithProgram):
    """In a pseudo-terminal."""

    def begin(self, *more, columns=80):
        terminal = Terminal(self.program.words(*more), self.program.environment(), columns)
        self.addCleanup(terminal.stop)
        self.assertIn("sfq-shell: a query ends with ;", terminal.until("sfq> "))
        return terminal

    def test_a_session(self):
        terminal = self.begin()
        rows = "".join(f"{it}  {text}\n" for it, text in re.findall(r'(\d+),"(.*)"', KNOWN[FIRST][0]))
        wanted = f" id  ST_AsText(geom)\n---  {'-' * 56}\n{rows}(4 rows)\n"
        self.assertEqual(terminal.ask(f"{FIRST};"), wanted)
        self.assertEqual(terminal.ask(f"{ORDERED};"), ORDERED_FAULT)
        found = terminal.ask(".why")
        self.assertIn(ORDERED_FAULT, found)
        self.assertIn("\n  means: ", found)
        self.assertEqual(terminal.ask("SELECT since", "  -> "), "")
        self.assertEqual(terminal.ask("FROM owner;"), "since\n-----\n 1962\n 2004\n 1988\n 2011\n\n(5 rows)\n")
        self.assertIn(".tables", terminal.ask("help"))
        self.assertIn("there is no .nothing", terminal.ask(".nothing"))
        self.assertEqual(terminal.ask("SELECT 'a", "  '> "), "")
        self.assertEqual(terminal.ask("b'", "  -> "), "")
        terminal.interrupt()
        terminal.type("\x04")
        self.assertEqual(terminal.ended(), 0)

    def test_a_table_is_cut_to_the_width(self):
        terminal = self.begin(columns=30)
        for line in terminal.ask(f"{FIRST};").splitlines():
            self.assertLessEqual(len(line), 30)
        self.assertIn("…", terminal.ask(f"{FIRST};"))
        found = terminal.ask("SELECT id, name FROM well;")
        self.assertEqual(found, 'id  name\n--  -----\n 1  a␊b\n 2  水\n 3  c,"d"\n(3 rows)\n')

    def test_names_are_completed(self):
        terminal = self.begin()
        terminal.type("SEL\tsince FROM ow\t;\r")
        self.assertIn("(5 rows)", terminal.until(r"\(5 rows\)\nsfq> "))
        terminal.type(".mo\tjs\t\r")
        terminal.until("sfq> ")
        self.assertEqual(terminal.ask(".mode"), "json\n")

    def test_ctrl_c_ends_a_query(self):
        terminal = self.begin()
        terminal.type("SELECT slow FROM owner;\r")
        number = self.program.waits()
        terminal.type("\x03")
        self.assertIn("sfq-shell: interrupted\n", terminal.until("sfq> "))
        with self.assertRaises(ProcessLookupError):
            os.kill(number, 0)
        self.assertIn("(5 rows)", terminal.ask("SELECT since FROM owner;"))
        terminal.type(".quit\r")
        self.assertEqual(terminal.ended(), 0)

    def test_what_was_typed_is_kept(self):
        terminal, path = self.begin(), f"{self.program.room}/state/sfq/shell-history"
        terminal.ask("SELECT since", "  -> ")
        terminal.ask("FROM owner;")
        terminal.ask(".mode json")
        terminal.type("\x04")
        self.assertEqual(terminal.ended(), 0)
        self.assertEqual(read(path), "SELECT since FROM owner;\n.mode json\n")
        self.assertEqual(stat.S_IMODE(os.stat(path).st_mode), 0o600)
        terminal = self.begin()
        terminal.type("\x1b[A\x1b[A\r")
        self.assertIn("(5 rows)", terminal.until(r"\(5 rows\)\nsfq> "))
        terminal.type("exit\r")
        self.assertEqual(terminal.ended(), 0)
        self.assertEqual(read(path), "SELECT since FROM owner;\n.mode json\nSELECT since FROM owner;\n")
        terminal = self.begin("--no-history")
        terminal.ask(".tables")
        terminal.type("\x04")
        self.assertEqual(terminal.ended(), 0)
        self.assertEqual(read(path).count("\n"), 3)


def only(path):
    """Programs are on this path alone, and none is beside the command."""
    patched = contextlib.ExitStack()
    patched.enter_context(mock.patch.dict(os.environ, {"PATH": path}))
    patched.enter_context(mock.patch.object(sys, "argv", ["/nothing/sfq-shell"]))
    return patched


class Library(unittest.TestCase):
    """Over a stand-in for the library."""

    def setUp(self):
        self.calls = tables_stand_in.Calls().use(self)
        room = tempfile.TemporaryDirectory(prefix="sfq-shell-")
        self.addCleanup(room.cleanup)
        self.room = room.name
        write(f"{self.room}/t.csv", "id,name\n1,a\n2,\n3,\"b,c\"\n")
        self.schema = "CREATE TABLE t (id INTEGER, name TEXT);\nCREATE TABLE u (id INTEGER, name TEXT)"

    def asker(self):
        return asking.Asker("sfq-shell", [f"{self.room}/schema.sql", self.room], self.schema)

    def test_rows(self):
        asker = self.asker()
        answer = asker.ask("SELECT name, id FROM t")
        self.assertEqual((answer.headers, answer.types, answer.is_plan), (["name", "id"], ["TEXT", "INTEGER"], False))
        self.assertEqual(list(answer.rows), [["a", "1"], ["", "2"], ["b,c", "3"]])
        list(asker.ask("SELECT name, id FROM t WHERE id > 1").rows)
        self.assertEqual(self.calls.seen.count("sfq_load_file"), 1)
        self.assertEqual(len(self.calls.statements) - len(asker.database.dropped), 0)

    def test_faults(self):
        asker = self.asker()
        for query, wanted, status in (
            ("SELECT id FROM nothing", "sfq: Q3 at 15\n  1 | SELECT id FROM nothing\n    |                ^\nsfq: there is no table nothing: there are t, u\n", 5),
            ("SELECT id FROM u", f"sfq: u unreadable\nsfq: {self.room}/u.csv: No such file or directory\n", 6),
        ):
            with self.assertRaises(asking.Refused) as met:
                asker.ask(query)
            self.assertEqual((met.exception.text, met.exception.status), (wanted, status))
        self.schema, self.calls = "CREATE", tables_stand_in.Calls().use(self)
        with self.assertRaises(asking.Refused) as met:
            self.asker()
        self.assertEqual((met.exception.code, met.exception.status), ("S1", 3))

    def test_the_script_of_a_checkout_is_not_run(self):
        """It may have to build the program first, and an installed package runs nothing of a checkout."""
        os.mkdir(f"{self.room}/tools")
        write(f"{self.room}/tools/current.sh", f"touch {self.room}/run\n")
        write(f"{self.room}/sfq", f"#!/bin/sh\ntouch {self.room}/run\n", 0o755)
        with only(f"{self.room}:/usr/bin:/bin"):
            self.assertIsNone(asking.beside())
            self.assertEqual(asking.page("Q3"), f"Q3: {errors.MEANINGS['Q3']}\n")
        self.assertFalse(os.path.exists(f"{self.room}/run"))

    def test_why(self):
        """The program's words for the same query, where it is there."""
        asker, query = self.asker(), "SELECT id FROM nothing"
        with self.assertRaises(asking.Refused) as met:
            asker.ask(query)
        program = Program({query: ("", "sfq: Q3 at 15\nsfq: did you mean t?\n", 5)})
        self.addCleanup(program.remove)
        with only(f"{program.room}:/usr/bin:/bin"):
            found = asker.why(query, met.exception)
        self.assertTrue(found.startswith("sfq: Q3 at 15\nsfq: did you mean t?\nQ3: the query (status 5)\n"), found)
        with only("/nothing"):
            self.assertEqual(asker.why(query, met.exception), f"{met.exception.text}Q3: {errors.MEANINGS['Q3']}\n")
            self.assertEqual(asking.page("x9"), "X9: there is no such code\n")

    def test_memory(self):
        asker = self.asker()
        for call in ("sfq_prepare", "sfq_step"):
            self.calls.refused[call] = border.OUT_OF_MEMORY
            with self.assertRaises(asking.Refused) as met:
                list(asker.ask("SELECT id FROM t").rows)
            self.assertEqual((met.exception.text, met.exception.status), ("sfq: out of memory\n", 7))

    def test_places(self):
        for text, at, wanted in (
            ("SELECT\n  x y\n", 11, "  2 |   x y\n    |     ^\n"),
            ("SELECT  \n", 9, "  1 | SELECT\n    |       ^\n"),
            ("", 0, "  1 | \n    | ^\n"),
            ("é x", 3, "  1 | é x\n    |   ^\n"),
            ("\udce4\t x", 3, "  1 | \\xe4\\t x\n    |        ^\n"),
            ("a" * 120 + "b" * 80, 120, f"  1 | ..{'a' * 98}{'b' * 58}..\n    | {' ' * 100}^\n"),
        ):
            self.assertEqual(asking.placed(asking.encoded(text), at), wanted)


def session(case, *more, **environment):
    """Has a session write what the land register's page shows, and the line of a fault."""
    text = "".join(f"{it};\n" for it in shown())
    words, known = [*python_command(sys.executable, "sfq-shell"), *more, SCHEMA, FOLDER], {**os.environ, **environment}
    ran = subprocess.run(words, input=text, capture_output=True, text=True, env=known)
    case.assertEqual((ran.stdout, ran.stderr, ran.returncode), ("".join(out for out, _, _ in shown().values()), "", 0))
    ran = subprocess.run(words, input=f"{ORDERED};", capture_output=True, text=True, env=known)
    case.assertEqual((ran.stdout, ran.stderr.splitlines()[:3], ran.returncode), ("", ORDERED_FAULT.splitlines()[:3], 5))


class ByTheLibrary(databases.WithTables):
    def test_a_session(self):
        session(self, SFQ_LIBRARY=library.SHARED)

    def written(self, row, room):
        """Returns the CSV of a row of a script, or the line of its fault, all tables being loaded first as `run` does."""
        for name, text in databases.tables_of(row).items():
            with open(f"{room}/{name}.csv", "wb") as file:
                file.write(text)
        text = io.StringIO()
        try:
            asker = asking.Asker("sfq-shell", [f"{room}/schema.sql", room], row.files["schema"])
            for it in asker.tables:
                list(asker.ask(f"SELECT COUNT(*) FROM {it.name}").rows)
            showing.show(asker.ask(row.command), "csv", showing.Place(text, None, room))
        except asking.Refused as error:
            return f"! {error.text.partition(chr(10))[0]}\n"
        return text.getvalue()

    def test_each_query_of_the_scripts(self):
        count = 0
        for name in databases.Engine.SCRIPTS:
            for row in engine_rows.rows_of(name):
                if re.match("SELECT|EXPLAIN", row.command):
                    count += 1
                    with tempfile.TemporaryDirectory(prefix="sfq-shell-") as room:
                        wanted = row.output.partition("\nstatus ")[0].rstrip("\n") + "\n"
                        self.assertEqual(self.written(row, room), wanted, row.command)
        self.assertGreaterEqual(count, 200)


@over_library
class Document(WithProgram):
    """The session that docs/PYTHON.md shows."""

    def test_the_session(self):
        found = re.search(r"```text\n(\$ sfq-shell .*?)```", read(f"{ROOT}/docs/PYTHON.md"), re.S)[1]
        self.assertTrue(found.startswith("$ sfq-shell examples/parcels/schema.sql examples/parcels\n"))
        lines = found.splitlines()[2:]
        terminal = Terminal(self.program.words(), self.program.environment(), 100)
        self.addCleanup(terminal.stop)
        terminal.until("sfq> ")
        at = 0
        while at < len(lines):
            typed, after = lines[at], at + 1
            while after < len(lines) and not re.match(r"sfq> |  -> ", lines[after]):
                after += 1
            following = lines[after][:5] if after < len(lines) else ""
            if typed == "sfq> .quit":
                terminal.type(".quit\r")
                self.assertEqual((terminal.ended(), after), (0, len(lines)))
                return
            self.assertEqual(terminal.ask(typed[5:], following).splitlines(), lines[at + 1 : after], typed)
            at = after
        self.fail("the session doesn't end by .quit")


if __name__ == "__main__":
    unittest.main()
