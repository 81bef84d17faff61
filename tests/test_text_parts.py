"""The parts of texts: worked rows, and the library beside a model of its own over random texts and the queries of the scripts."""
import random
import re
import unittest

import engine_rows
import parts_model
import sfq
import test_databases_python as databases
from parts_model import DIGITS, END, GEOMETRY, INTEGER, NAMED, NO_CONSTANT, NONE, NULL, OPEN, PARAMETER, RESERVED, SEMICOLON, STRING, SYMBOL, TEXT, WORD
from sfq.tables import databases as border, parts

# Each text with its parts: what it is, the type of its constant, and its text.
ROWS = (
    ("", [(END, NO_CONSTANT, "")]),
    (" -- a ? ; 'b", [(END, NO_CONSTANT, "")]),
    ("a; -- b\nSELECT", [(WORD, NO_CONSTANT, "a"), (SEMICOLON, NO_CONSTANT, ";"), (RESERVED, NO_CONSTANT, "SELECT"), (END, NO_CONSTANT, "")]),
    ("'it''s' <='' 'x", [(STRING, TEXT, "'it''s'"), (SYMBOL, NO_CONSTANT, "<="), (STRING, TEXT, "''"), (OPEN, TEXT, "'x"), (END, NO_CONSTANT, "")]),
    ("a1=?1", [(WORD, NO_CONSTANT, "a1"), (SYMBOL, NO_CONSTANT, "="), (PARAMETER, TEXT, "?"), (DIGITS, INTEGER, "1"), (END, NO_CONSTANT, "")]),
    (":a_1:2 :", [(NAMED, TEXT, ":a_1"), (NONE, TEXT, ":"), (DIGITS, INTEGER, "2"), (NONE, TEXT, ":"), (END, NO_CONSTANT, "")]),
    ("é#", [(NONE, TEXT, "é"), (NONE, TEXT, "#"), (END, NO_CONSTANT, "")]),
    ("st_geomfromtext -- a\n (?)", [(WORD, NO_CONSTANT, "st_geomfromtext"), (SYMBOL, NO_CONSTANT, "("), (PARAMETER, GEOMETRY, "?"),
                                    (SYMBOL, NO_CONSTANT, ")"), (END, NO_CONSTANT, "")]),
)
# Each query with the constants that it has, from the left.
QUERIES = (
    ("SELECT id FROM t WHERE pop = -5 AND 'a' < name OR NULL <> pop LIMIT 7", [(INTEGER, "5"), (TEXT, "'a'"), (NULL, "NULL")]),
    ("SELECT id FROM t WHERE name IS NULL AND pop is not null AND NOT NULL = pop", [(NULL, "NULL")]),
    ("SELECT id FROM t WHERE ST_Relate(geom, ST_GeomFromText('POINT(1 1)'), 'T********') = 1", [(GEOMETRY, "'POINT(1 1)'")]),
    ("SELECT id FROM t WHERE ST_Dimension(ST_GeomFromText('POINT EMPTY')) = 0 AND ST_IsEmpty(ST_GeomFromText('POINT EMPTY')) = 0",
     [(GEOMETRY, "'POINT EMPTY'"), (INTEGER, "0"), (GEOMETRY, "'POINT EMPTY'")]),
    ("SELECT id FROM t WHERE ST_AsText(geom) = 'POINT EMPTY' AND (pop = 1 OR 1 = pop)", [(TEXT, "'POINT EMPTY'"), (INTEGER, "1"), (INTEGER, "1")]),
)
PIECES = ("?", ":a", ":", "'", "''", "--", "\n", " ", ";", ",", "(", ")", "=", "<", ">", "!=", "-", "+", "5", "LIMIT ", "IS ", "NOT ", "NULL ", "a", "_9", "é", "\0",
          "ST_GeomFromText", "ST_Dimension", "ST_Touches", "st_astext", "COUNT", "FROM ", "'x'", ".", "*", "#", "\t")


def parts_of(text):
    """Returns the parts of a text by the library, with their texts."""
    return [(it.kind, it.constant, text[it.at : it.end]) for it in parts.parts(text)]


def modelled(text):
    """Returns the same by the model, which goes on behind what is no token. A character beyond ASCII is one byte for it."""
    data, found, at = text.encode("ascii", parts.BEYOND), [], 0
    while not found or found[-1][0] != END:
        more = parts_model.parts_of(data[at:])
        found += [(kind, constant, text[at + place : at + place + size]) for kind, constant, place, size in more]
        at += more[-1][2] + more[-1][3]
    return found


class Modelled(unittest.TestCase):
    def test_rows_of_the_model(self):
        for text, wanted in ROWS:
            self.assertEqual(modelled(text), wanted, text)
        for text, wanted in QUERIES:
            self.assertEqual([it[1:] for it in modelled(text) if it[1] != NO_CONSTANT], wanted, text)


class OfTheLibrary(databases.WithTables):
    def test_rows(self):
        for text, wanted in ROWS:
            self.assertEqual(parts_of(text), wanted, text)
        for text, wanted in QUERIES:
            self.assertEqual([it[1:] for it in parts_of(text) if it[1] != NO_CONSTANT], wanted, text)

    def test_random_texts_are_as_the_model_says(self):
        draw = random.Random(70)
        for _ in range(3_000):
            text = "".join(draw.choices(PIECES, k=draw.randrange(12)))
            self.assertEqual(parts_of(text), modelled(text), text)

    def test_queries_of_the_scripts_are_as_the_model_says(self):
        seen = 0
        for name in databases.Engine.SCRIPTS:
            for row in engine_rows.rows_of(name):
                seen += 1
                self.assertEqual(parts_of(row.command), modelled(row.command))
        self.assertGreater(seen, 390)

    def test_constants_are_those_of_the_statement(self):
        """Each query of the scripts that is accepted: the types of its constants, from the left."""
        seen = 0
        for name in databases.Engine.SCRIPTS:
            for row in engine_rows.rows_of(name):
                if not re.match("SELECT|EXPLAIN", row.command) or row.output.startswith("!"):
                    continue
                with sfq.connect(row.files["schema"].encode(), databases.tables_of(row)) as db:
                    wanted = db.begin(row.command, ()).constants
                found = [border.TYPES[it.constant] for it in parts.parts(row.command) if it.constant != NO_CONSTANT]
                self.assertEqual(found, wanted, row.command)
                seen += bool(wanted)
        self.assertGreater(seen, 150)

    def test_columns_and_operands_are_those_of_the_statement(self):
        """Each query of the scripts that is accepted: its columns have their names in the text, and its operands the types of its constants."""
        columns = constants = joins = limits = 0
        for name in databases.Engine.SCRIPTS:
            for row in engine_rows.rows_of(name):
                if not re.match("SELECT|EXPLAIN", row.command) or row.output.startswith("!"):
                    continue
                with self.subTest(row.command), sfq.connect(row.files["schema"].encode(), databases.tables_of(row)) as db:
                    it = db.begin(row.command, ())
                    operands, references, schema = it.operands(), it.references(), it.database.columns
                    items = [] if "*" in row.command.upper().split("FROM")[0] else [one and (one.reference, one.column) for one in it.origins()]
                    wanted = [*items, *((references[one.reference], one.column) for one in operands if not one.constant)]
                    named = parts.columns(row.command)
                    # The lines of a plan come from no column.
                    wanted = [None] * (len(named) - len(wanted)) + wanted if it.form().explains else wanted
                    for place, column in zip(named, wanted, strict=True):
                        spelled = parts.tokens(row.command[place.at : place.end])
                        if column and column[0]:
                            self.assertEqual(spelled[-1].lower(), schema[column[0].table][column[1]][0].lower())
                            self.assertIn([word.lower() for word in spelled[:-1]], ([], [column[0].name.lower(), "."]))
                    self.assertEqual([one.constant for one in operands if one.constant], it.constants)
                    columns, constants, joins = columns + len(named), constants + len(it.constants), joins + sum(one.joins for one in it.conjuncts())
                    limit = re.search(r"LIMIT (\d+)", row.command)
                    limits += bool(limit)
                    self.assertEqual(it.form().limit, int(limit[1]) if limit else None)
        self.assertGreater(min(columns, constants, joins * 10, limits * 10), 150)

    def test_a_long_text_is_cut_in_one_pass(self):
        for text in ("?" * 60_000, ";" * 60_000, "é" * 60_000, "'" * 60_001, "a" * 60_000, "--" * 30_000, ":a" * 30_000):
            self.assertEqual("".join(it[2] for it in parts_of(text)), "" if text[0] == "-" else text)


if __name__ == "__main__":
    unittest.main()
