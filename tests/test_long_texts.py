"""Long and hostile texts that Python reads: numbers of thousands of digits, schemas and queries as long as sfq takes and longer, answers
and a grid.json that were changed at random."""
import contextlib
import csv
import io
import json
import random
import re
import tempfile
import time
import types
import unittest

from support import write

import sfq
import tables_stand_in
import test_databases_python
from sfq.commands import asking, conditions, exports, schemas, shell, units
from sfq.geometry import texts
from sfq.tables import placeholders, rules, statements

# A text of more digits than Python makes a number of.
DIGITS = "9" * 5_000
# What each text that sfq takes may take at most, in seconds of the processor. Reading by square took 15 and more.
SECONDS = 4.0
GRID = {
    "made_by": "a test", "step": "0.01", "origin": ["0", "0"], "layers": [{
        "table": "t", "layer": "t", "rows": 1, "records": 1, "left_out": 0, "coordinate_system": {"authority": "EPSG:25832", "wkt": "W"},
        "columns": [
            {"name": "id", "source": "id", "type": "INTEGER"}, {"name": "n", "source": "n", "type": "INTEGER", "step": "0.5"},
            {"name": "r", "source": "r", "type": "TEXT", "is_real": True}, {"name": "geom", "source": "", "type": "GEOMETRY"},
        ],
    }],
}
# What a value of grid.json is changed to.
VALUES = [None, True, 0, -1, 1.5, "", "x", "0", "-1", "1e400", "nan", [], {}, [1], {"a": 1}, "GEOMETRY", 10**30, DIGITS, [[]], ["0"], ["0", "0", "0"]]
SHAPES = (
    "POINT(1 1)", "LINESTRING(0 0,4 0)", "POLYGON((0 0,4 0,4 4,0 4,0 0),(1 1,2 1,1 2,1 1))", "MULTIPOINT((0 0),(1 1))",
    "MULTIPOLYGON(((0 0,4 0,4 4,0 0)))", "MULTILINESTRING((0 0,1 1),(2 2,3 3))", "POINT EMPTY",
)
PIECES = [*"(), 0123456789.-+eE\n\"'xPOLYGN\u0663\u00a0\0", "EMPTY", "((", "))", DIGITS, "(" * 2_000]


def took(call):
    """Returns how many seconds of the processor a call takes."""
    begun = time.process_time()
    call()
    return time.process_time() - begun


class Numbers(unittest.TestCase):
    """Python makes no number of more than 4,300 digits by itself; no column has one of more than 64 bits."""

    def test_whole_numbers_of_64_bits(self):
        for text, wanted in (
            ("0", 0), ("-0", 0), ("+007", 7), (str(2**63 - 1), 2**63 - 1), (str(-(2**63)), -(2**63)), (str(2**63), None), (DIGITS, None),
            ("0" * 5_000 + "5", 5), ("", None), ("-", None), ("1 ", None), ("1.0", None), ("\u0663", None),
        ):
            self.assertEqual(rules.integer(text), wanted, text[:30])

    def test_a_proposal_of_a_schema(self):
        with tempfile.TemporaryDirectory(prefix="sfq-long-") as room:
            write(f"{room}/t.csv", f"id,n,m\n1,{DIGITS},{'0' * 5_000}7\n2,5,8\n")
            text, status = schemas.proposed(room)
        self.assertEqual(status, 0)
        self.assertEqual(re.findall(r"^  (\w+) +(\w+)", text, re.M), [("id", "INTEGER"), ("n", "TEXT"), ("m", "INTEGER")])

    def test_values_of_json(self):
        for text, kind, wanted in (
            ("+007", "INTEGER", "7"), ("-0", "INTEGER", "0"), (DIGITS, "INTEGER", f'"{DIGITS}"'), (DIGITS, "0.5", f'"{DIGITS}"'), ("-3", "0.5", "-1.5"),
            ("1.50", "REAL", "1.50"), ("1\u0663", "REAL", '"1\u0663"'), ("\u0663", "INTEGER", '"\u0663"'), ("7", "TEXT", '"7"'), ("", "TEXT", "null"),
        ):
            self.assertEqual(exports.value(text, kind), wanted, (text[:30], kind))


class Geometries(unittest.TestCase):
    """Texts of geometries as sfq takes them (06-103r4, 7.2)."""

    def test_texts_of_geometries(self):
        for text, wanted in (
            ("point ( +1. -0 )", ("Point", (1, 0))), ("POINT(.0 00010000000)", ("Point", (0, 10_000_000))), ("POINT EMPTY", ("Point", ())),
            ("MULTIPOINT(1 1,(2 2),3 3)", ("MultiPoint", ((1, 1), (2, 2), (3, 3)))),
            ("LINESTRING(1 1,1 1,2 2)", ("LineString", ((1, 1), (2, 2)))), (f"POINT({'0' * 5_000}9 1)", ("Point", (9, 1))),
            ("MULTIPOLYGON(((0 0,1 0,0 1,0 0)))", ("MultiPolygon", ((((0, 0), (1, 0), (0, 1), (0, 0)),),))),
        ):
            self.assertEqual(texts.coordinates(text), wanted)

    def test_what_spells_none(self):
        for text in (
            "", "X(1 1)", "POINT", "POINT(1.5 1)", "POINT(1 1", "POINT(1 1))", "POINT((1 1))", "POINT(1 1,2 2)", "POINT(1 1 1)", "POINT(. 1)",
            "POINT(1\u00a01 1)", "LINESTRING()", "LINESTRING EMPTY x", "POLYGON(0 0,1 1)", "POLYGON((0 0,1 1)", "MULTIPOINT(((1 1)))",
            "MULTIPOLYGON((0 0,1 0,0 1,0 0))", f"POINT({DIGITS} 1)", "(" * 5_000,
        ):
            with self.assertRaises(ValueError, msg=text[:30]):
                texts.coordinates(text)


class Schemas(test_databases_python.WithTables):
    ONE = "CREATE TABLE t{} (id INTEGER PRIMARY KEY, g POINT);\n"

    def test_as_many_tables_as_sfq_takes(self):
        found = statements.tables("".join(self.ONE.format(it) for it in range(16)))
        self.assertEqual([it.name for it in found], [f"t{it}" for it in range(16)])
        columns = ", ".join(f"c{it} INT{' PRIMARY KEY' * (it == 3)}" for it in range(32))
        (table,) = statements.tables(f"CREATE TABLE t ({columns})")
        self.assertEqual(table.columns, [(f"c{it}", "INTEGER") for it in range(32)])

    def test_a_long_schema_is_read_in_one_pass(self):
        for text in ("CREATE TABLE t (a POINT " * 2_700, "CREATE TABLE " * 5_000, "CREATE TABLE t (" * 4_000 + ")", self.ONE.format("") * 1_200):
            self.assertLess(took(lambda text=text: self.assertEqual(statements.tables(text), [])), SECONDS, text[:30])
        self.assertEqual(statements.tables(self.ONE.format(1) + "-" * 65_536), [])

    def test_comments_between_tokens(self):
        (table,) = statements.tables("CREATE -- a\n table -- b (\n t ( -- c )\n id INT primary key, g point ) -- d\n ; -- e")
        self.assertEqual((table.name, table.columns, table.text[-4:]), ("t", [("id", "INTEGER"), ("g", "POINT")], " );\n"))


class Queries(unittest.TestCase):
    def setUp(self):
        tables_stand_in.Calls().use(self)

    def test_a_query_is_taken_apart_in_one_pass(self):
        for text in ("SELECT a FROM t WHERE " + "a=1 OR " * 9_000, "()" * 32_000, "f(" * 16_000 + ")" * 30_000, "?" * 65_000, "'" * 65_535):
            self.assertLess(took(lambda text=text: placeholders.Query(text)), SECONDS, text[:30])

    def test_a_query_that_is_too_long_is_not_read(self):
        for text in ("SELECT ? FROM t" + " " * 65_536, "?" * 1_000_000, "\u00e9" * 40_000):
            with self.assertRaises(sfq.ProgrammingError) as met:
                placeholders.query(text)
            self.assertEqual((met.exception.code, met.exception.at), ("Q11", None))
        self.assertEqual(len(placeholders.query("?" + " " * 65_535).parts), 2)

    def test_calls_of_predicates_are_found_in_one_pass(self):
        text = "SELECT id FROM t WHERE " + "ST_Equals(geom, " * 4_000
        self.assertLess(took(lambda: list(self.conditions(text).calls())), SECONDS)
        text = "SELECT \u00e9 FROM t WHERE ST_Touches(geom, geom) AND (ST_IsEmpty(geom) OR st_within((geom), id)) AND geom = (geom)"
        calls = [(it.name, it.at, len(it.layers)) for it in self.conditions(text).calls()]
        self.assertEqual(calls, [(name, len(text[: text.index(word)].encode()), count)
                                 for name, word, count in (("ST_Touches", "ST_T", 2), ("ST_Within", "st_w", 1))])

    def conditions(self, text):
        """Returns the conditions of a query over the table of GRID."""
        layer = units.layer_of(GRID["layers"][0])
        return conditions.Conditions(text, types.SimpleNamespace(layers_of=lambda _text: {"t": layer}))


class Prompt(unittest.TestCase):
    """The commands of sfq-shell."""

    def said(self, line):
        """Returns what is said of a line at the prompt."""
        tables_stand_in.Calls().use(self)
        asker = types.SimpleNamespace(tables=[statements.Table("t", [("id", "INTEGER"), ("g", "POINT")], Schemas.ONE.format(""))])
        with contextlib.redirect_stderr(io.StringIO()) as said:
            shell.Shell(asker, "", "", "csv").take(line, statements.Splitter())
        return said.getvalue()

    def test_a_nul_in_a_command(self):
        for name, rest in ((".read", "a\0b"), (".output", "\0"), (".output", "'a b\0'"), (".why", "'POINT(1 1)\0'"), (".load", "t\0")):
            self.assertEqual(self.said(f"{name} {rest}"), f"sfq-shell: {name}: no file, table or geometry has a NUL in its name or text\n")
        self.assertEqual(self.said(".timer on\0"), "sfq-shell: .timer on | off\n")

    def test_a_query_that_is_not_utf_8(self):
        """The first line is that of the program, which takes such a query from a file."""
        tables_stand_in.Calls().use(self)
        with tempfile.TemporaryDirectory(prefix="sfq-long-") as room:
            schema = "CREATE TABLE t (id INTEGER)"
            write(f"{room}/t.csv", "id\n1\n")
            asker = asking.Asker("sfq-shell", [f"{room}/schema.sql", room], schema)
            with self.assertRaises(asking.Refused) as met:
                asker.ask("SELECT id FROM t WHERE id = '\udcff'")
            self.assertEqual((met.exception.text, met.exception.status),
                             ("sfq: query unreadable\nsfq: the query isn't UTF-8: byte 29 is none of a character\n", 6))
            self.assertEqual(list(asker.ask("SELECT id FROM t").rows), [["1"]])


def places_in(it, at=()):
    """Returns where the values of a document are, but for the document itself."""
    pairs = it.items() if isinstance(it, dict) else enumerate(it) if isinstance(it, list) else ()
    for key, value in pairs:
        yield (*at, key)
        yield from places_in(value, (*at, key))


def changed_grid(draw):
    """Returns GRID with one or two values changed, or left out."""
    it = json.loads(json.dumps(GRID))
    for _ in range(draw.choice((1, 1, 2))):
        place = draw.choice(list(places_in(it)) or [()])
        if not place:
            return it
        holder = it
        for key in place[:-1]:
            holder = holder[key]
        if draw.random() < 0.3 and isinstance(holder, dict):
            del holder[place[-1]]
        else:
            holder[place[-1]] = draw.choice(VALUES)
    return it


def changed_text(draw, text):
    """Returns a text with some pieces put in or left out."""
    for _ in range(draw.randrange(4)):
        at = draw.randrange(len(text) + 1)
        text = text[:at] + (draw.choice(PIECES) if draw.random() < 0.7 else "") + text[at + draw.randrange(3) :]
    return text


class Exports(unittest.TestCase):
    def setUp(self):
        self.room = tempfile.TemporaryDirectory(prefix="sfq-long-")
        self.addCleanup(self.room.cleanup)

    def export(self, grid, records):
        """Returns the status of an export of records with a grid.json, what it says, and the features that it wrote."""
        room, said = self.room.name, io.StringIO()
        write(f"{room}/grid.json", grid)
        with open(f"{room}/rows.csv", "w", newline="", encoding="utf-8") as file:
            csv.writer(file).writerows(records)
        with contextlib.redirect_stderr(said):
            status = exports.main([f"{room}/rows.csv", "--like", room, "--to", f"{room}/out.json", "--svg", f"{room}/out.svg"])
        found = None
        if status == 0:
            with open(f"{room}/out.json", encoding="utf-8") as file:
                found = json.load(file, parse_int=str)["features"]
        return status, said.getvalue(), found

    def test_a_fraction_is_not_cut_off(self):
        status, said, _ = self.export(json.dumps(GRID), [["id", "geom"], ["1", "POINT(1 1)"], ["2", "POINT(1.5 1)"]])
        self.assertEqual((status, said), (4, "sfq-export: record 2: the geometry isn't well-known text as sfq writes it\n"))

    def test_what_is_nested_otherwise(self):
        for text in ("POLYGON(0 0,1 1)", "POINT((1 1))", "LINESTRING(((1 1)))", "POINT(", "(", f"POINT({DIGITS} 1)"):
            self.assertEqual(self.export(json.dumps(GRID), [["geom"], [text]])[0], 4, text[:30])

    def test_a_grid_that_no_import_made(self):
        for at, value in (
            (("layers", 0, "columns", 0, "name"), 5), (("layers", 0, "columns", 0, "type"), ""), (("layers", 0, "columns", 1, "step"), "0"),
            (("layers", 0, "coordinate_system"), "EPSG:25832"), (("layers", 0, "coordinate_system", "authority"), 5), (("step",), 0.01), (("origin",), ["0"]),
        ):
            grid = json.loads(json.dumps(GRID))
            holder = grid
            for key in at[:-1]:
                holder = holder[key]
            holder[at[-1]] = value
            status, said, _ = self.export(json.dumps(grid), [["id", "geom"], ["1", "POINT(1 1)"]])
            self.assertEqual(status, 4, at)
            self.assertRegex(said, "^sfq-export: .*/grid.json isn't one that sfq-import made: ")
        self.assertEqual(self.export("[" * 100_000, [["geom"]])[0], 4)

    def test_answers_and_grids_changed_at_random(self):
        """Each ends with a status and no traceback; what is written is JSON."""
        draw, statuses = random.Random(20261128), set()
        for _ in range(1_500):
            grid = json.dumps(changed_grid(draw) if draw.random() < 0.5 else GRID)
            grid = changed_text(draw, grid) if draw.random() < 0.05 else grid
            row = [changed_text(draw, it) for it in ("7", "-3", "1.5", draw.choice(SHAPES))]
            with self.subTest(grid=grid[:500], row=[it[:100] for it in row]):
                statuses.add(self.export(grid, [["id", "n", "r", "geom"], row])[0])
        self.assertEqual(statuses, {0, 2, 4})


if __name__ == "__main__":
    unittest.main()
