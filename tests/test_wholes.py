"""Records that are several rows of their table: sfq-ask relates them as wholes. Made cases are known by hand; random shapes are cut into small
parts, and have to be related as sfq relates them uncut."""
import csv
import io
import json
import os
import random
import re
import subprocess
import unittest
from unittest import mock

from support import ROOT, python_with, write

import exact_cells
import test_ask
from import_calls import WithGeos
from sfq.commands import ask, asking, conditions, records, units
from sfq.geometry import exact, matrices
from sfq.layers import rejoining
from test_exact import shape

PYTHON = python_with("osgeo.ogr")
PREDICATES = ("ST_Equals", "ST_Disjoint", "ST_Intersects", "ST_Touches", "ST_Crosses", "ST_Within", "ST_Contains", "ST_Overlaps")
PATTERNS = ("T********", "F***T****", "T*F**F***", "0********", "****0****", "FF*FF****", "*******F*", "*****0***", "2F*******")


def matrix_of(one, other):
    """Returns the matrix by the model of definitions."""
    return "".join(it.split()[2] for it in exact_cells.lines(one, other).splitlines())


class Matrices(unittest.TestCase):
    """Random geometries of all types, by a model that is made of definitions alone."""

    def test_matrices_and_predicates(self):
        seen = set()
        for one, other in exact_cells.random_pairs(400, 11):
            wanted = matrix_of(one, other)
            first, second = (exact.Figure(shape(it), 1) for it in (one, other))
            self.assertEqual(matrices.matrix(first, second), wanted, (one, other))
            seen.add(wanted)
            if not first.is_empty and not second.is_empty:
                held = exact_cells.related(wanted, one, other)
                self.assertEqual({it for it in PREDICATES if matrices.holds(it, wanted, (first.dimension, second.dimension))}, held, (one, other))
        self.assertGreater(len(seen), 50)

    def test_patterns(self):
        for found, pattern, wanted in (("212101212", "T*T******", True), ("FF2F01212", "ff*F01***", True), ("FF2F01212", "T********", False), ("0F1FF0102", "1********", False)):
            self.assertEqual(matrices.matches(found, pattern), wanted)
        self.assertEqual([matrices.forces_meeting(it) for it in PATTERNS], [True, True, True, True, True, False, False, False, True])


class Rejoined(unittest.TestCase):
    """Parts that are put together again, by hand."""

    def test_borders(self):
        left, right = [(0, 0), (2, 0), (2, 1), (2, 4), (0, 4)], [(2, 0), (4, 0), (4, 4), (2, 4)]
        whole = {((0, 0), (2, 0)), ((2, 0), (4, 0)), ((4, 0), (4, 4)), ((4, 4), (2, 4)), ((2, 4), (0, 4)), ((0, 4), (0, 0))}
        self.assertEqual(set(rejoining.border([left, right])), whole)
        # A cut that isn't along an axis, of which one side has a vertex more; and a part beside it whose edge goes on.
        self.assertEqual(set(rejoining.border([[(0, 0), (4, 2), (0, 2)], [(0, 0), (4, 0), (4, 2), (2, 1)]])),
                         {((0, 0), (4, 0)), ((4, 0), (4, 2)), ((4, 2), (0, 2)), ((0, 2), (0, 0))})
        self.assertEqual(set(rejoining.border([[(0, 0), (2, 0), (2, 4), (0, 4)], [(2, 1), (4, 1), (4, 3), (2, 3)]])), {
            ((0, 0), (2, 0)), ((2, 0), (2, 1)), ((2, 1), (4, 1)), ((4, 1), (4, 3)), ((4, 3), (2, 3)), ((2, 3), (2, 4)), ((2, 4), (0, 4)), ((0, 4), (0, 0))})

    def test_what_no_parts_are(self):
        for given in (["POLYGON((0 0,4 0,4 4,0 4,0 0))", "POLYGON((0 0,4 0,4 4,0 4,0 0))"], ["POINT(1 1)", "LINESTRING(0 0,1 1)"]):
            with self.assertRaises(rejoining.NotWhole):
                rejoining.Whole(given)

    def test_texts(self):
        for given, wanted in (
            (["POLYGON((0 0,2 0,2 4,0 4,0 0))", "POLYGON((2 0,4 0,4 4,2 4,2 0))"], ["POLYGON", "0 0,2 0,4 0,4 4,2 4,0 4"]),
            # A hole that a cut goes through, one that touches the outer ring, and areas that touch.
            (["POLYGON((0 0,5 0,5 4,4 4,4 6,5 6,5 10,0 10,0 0))", "POLYGON((5 0,10 0,10 10,5 10,5 6,6 6,6 4,5 4,5 0))"],
             ["POLYGON", "0 0,5 0,10 0,10 10,5 10,0 10", "5 4,4 4,4 6,5 6,6 6,6 4"]),
            (["POLYGON((0 0,9 0,9 9,0 9,0 2,1 3,1 1,0 0))", "POLYGON((1 1,0 2,0 0,1 1))"], ["POLYGON", "0 0,9 0,9 9,0 9,0 2", "0 2,1 3,1 1"]),
            (["POLYGON((0 0,4 0,4 4,0 4,0 0))", "POLYGON((4 4,8 4,8 8,4 8,4 4))"], ["MULTIPOLYGON", "0 0,4 0,4 4,0 4", "4 4,8 4,8 8,4 8"]),
            (["LINESTRING(0 0,4 4)", "LINESTRING(4 4,8 0)"], ["MULTILINESTRING", "0 0,4 4", "4 4,8 0"]),
            (["MULTIPOINT((0 0),(1 1))", "MULTIPOINT((2 2))"], ["MULTIPOINT", "0 0", "1 1", "2 2"]),
        ):
            text = rejoining.text_of(rejoining.Whole(given))
            self.assertEqual(text.partition("(")[0], wanted[0])
            rings = re.findall(r"[^()]*\d[^()]*", text.partition("(")[2])
            self.assertEqual(sorted(sorted(set(it.strip(",").split(","))) for it in rings), sorted(sorted(set(it.split(","))) for it in wanted[1:]))


class WithFolder(test_ask.OverTheLibrary):
    """Folders with tables whose records are in parts."""

    def folder(self, **tables):
        """Writes a folder as sfq-import makes it, of tables by their names: of each record the texts of its parts. A table has parts where one has."""
        schema, layers = "", []
        for name, rows in tables.items():
            has_parts = any(len(it) > 1 for it in rows.values())
            first = ["part", "whole"] if has_parts else []
            lines, number = [], 0
            for key, its in rows.items():
                for text in its:
                    number += 1
                    lines.append([*([number, key] if has_parts else []), key, f"n{key % 3}", text])
            header = [*first, "fid", "name", "geom"]
            schema += f"CREATE TABLE {name} ({', '.join(f'{it} INTEGER' + ' PRIMARY KEY' * (at == 0) for at, it in enumerate(header[:-2]))}, name TEXT, geom GEOMETRY);\n"
            columns = [test_ask.column(it, "INTEGER") for it in header[:-2]] + [test_ask.column("name", "TEXT"), test_ask.column("geom", "GEOMETRY")]
            more = {"parted": {"part": "part", "whole": "whole", "records": sum(len(it) > 1 for it in rows.values()),
                               "rows": sum(len(it) for it in rows.values() if len(it) > 1)}} if has_parts else {}
            layers.append({"layer": name, "table": name, "key": header[0], "columns": columns, "coordinate_system": None, "rows": number, "records": len(rows),
                           "left_out": 0, "source": "s", **more})
            text = io.StringIO()
            csv.writer(text, lineterminator="\n").writerows([header, *lines])
            write(f"{self.room}/f/{name}.csv", text.getvalue())
        write(f"{self.room}/f/schema.sql", schema)
        write(f"{self.room}/f/grid.json", json.dumps({"step": "1", "origin": ["0", "0"], "layers": layers}))
        write(f"{self.room}/f/left-out.csv", "layer,record,fid,reason,done,table\n")
        return f"{self.room}/f"

    def rows(self, folder, query):
        """Returns the rows of a query about wholes, as the command asks it."""
        # ST_Intersects and ST_Disjoint alone are about parts: a pattern that each matrix matches has them be about wholes.
        query = re.sub(r"(?:ST_Intersects|ST_Disjoint)(\(.*?geom.*?geom)\)", rf"\g<0> AND ST_Relate\1, '{'*' * 9}')", query)
        query = re.sub(r"(?:ST_Intersects|ST_Disjoint)(\(ST_GeomFromText\('[^']*'\), geom)\)", rf"\g<0> AND ST_Relate\1, '{'*' * 9}')", query)
        known = units.Folder(folder)
        given = conditions.Conditions(query, known)
        if ask.of_wholes(known, given, query) is None:
            # Only where a part is related as its record is.
            given.need_lawful("sfq-ask")
            self.assertEqual(given.uncovered, "")
            return self.plain(folder, query)
        found = records.Query("sfq-ask", known, query).returned(ask.asker(known, given, False))
        return list(found.answer.rows)

    def plain(self, folder, query):
        """Returns the rows of a query by sfq alone."""
        return list(asking.Asker("sfq-ask", [f"{folder}/schema.sql", folder], units.Folder(folder).schema).ask(query).rows)


# A square cut at 50, another one cut at 30 and then at 60, which is equal, one beside them, and one with a hole that its cut goes through.
SQUARES = {
    1: ["POLYGON((0 0,50 0,50 100,0 100,0 0))", "POLYGON((50 0,100 0,100 100,50 100,50 0))"],
    2: ["POLYGON((0 0,100 0,100 30,0 30,0 0))", "POLYGON((0 30,60 30,60 100,0 100,0 30))", "POLYGON((60 30,100 30,100 100,60 100,60 30))"],
    3: ["POLYGON((100 0,150 0,150 50,100 50,100 0))", "POLYGON((100 50,150 50,150 100,100 100,100 50))"],
    4: ["POLYGON((0 0,50 0,50 40,40 40,40 60,50 60,50 100,0 100,0 0))", "POLYGON((50 0,100 0,100 100,50 100,50 60,60 60,60 40,50 40,50 0))"],
    5: ["POLYGON((0 0,50 0,50 50,0 50,0 0))"],
    6: ["LINESTRING(0 0,10 0,10 10)", "LINESTRING(10 10,0 10,0 0)"],
}
# What other geometries are to the square of record 1, and to that with a hole.
KNOWN = [
    ("POLYGON((50 100,60 120,40 120,50 100))", "touches", "touches"),  # in the end of the cut alone
    ("POLYGON((40 100,60 100,50 120,40 100))", "touches", "touches"),
    ("POLYGON((0 0,100 0,100 100,0 100,0 0))", "equals", "contains"),
    ("POLYGON((20 20,80 20,80 30,20 30,20 20))", "within", "within"),  # inside, across the cut
    ("POLYGON((40 40,60 40,60 60,40 60,40 40))", "within", "touches"),  # what fills the hole
    ("POLYGON((45 45,55 45,55 55,45 55,45 45))", "within", "disjoint"),
    ("POLYGON((45 0,55 0,50 10,45 0))", "within", "within"),
    ("POLYGON((-10 -10,110 -10,110 110,-10 110,-10 -10))", "contains", "contains"),
    ("POLYGON((50 50,150 50,150 90,50 90,50 50))", "overlaps", "overlaps"),
    ("LINESTRING(50 10,50 30)", "within", "within"),  # along the cut
    ("LINESTRING(50 0,50 40)", "within", "within"),
    ("LINESTRING(50 40,50 60)", "within", "touches"),  # along the cut, where the hole is
    ("LINESTRING(50 45,50 55)", "within", "disjoint"),
    ("LINESTRING(40 40,60 40)", "within", "touches"),  # along the rim of the hole
    ("LINESTRING(50 -10,50 10)", "crosses", "crosses"),
    ("LINESTRING(50 -10,50 0)", "touches", "touches"),
    ("LINESTRING(0 100,100 100)", "touches", "touches"),
    ("LINESTRING(40 50,60 50)", "within", "touches"),  # across the cut, in the hole
    ("LINESTRING(30 50,70 50)", "within", "crosses"),
    ("POINT(50 20)", "within", "within"), ("POINT(50 0)", "touches", "touches"), ("POINT(50 50)", "within", "disjoint"), ("POINT(50 40)", "within", "touches"),
    ("POINT(20 20)", "within", "within"), ("POINT(200 200)", "disjoint", "disjoint"),
    ("MULTIPOINT((50 20),(200 200))", "crosses", "crosses"), ("MULTIPOINT((50 20),(20 20))", "within", "within"), ("MULTIPOINT((50 0),(200 200))", "touches", "touches"),
    ("MULTILINESTRING((10 10,20 10),(80 10,90 10))", "within", "within"), ("MULTILINESTRING((50 100,50 120),(0 -5,0 0))", "touches", "touches"),
    ("MULTIPOLYGON(((10 10,20 10,20 20,10 10)),((80 10,90 10,90 20,80 10)))", "within", "within"),
    ("MULTIPOLYGON(((10 10,20 10,20 20,10 10)),((180 10,190 10,190 20,180 10)))", "overlaps", "overlaps"),
    ("MULTIPOLYGON(((50 100,60 120,40 120,50 100)),((100 0,110 0,110 9,100 0)))", "touches", "touches"),
]
TURNED = {"within": "contains", "contains": "within"}


class Known(WithFolder):
    """Cases that are known by hand."""

    def setUp(self):
        super().setUp()
        self.others = {at: [text] for at, (text, *_) in enumerate(KNOWN)}

    def test_each_predicate(self):
        folder = self.folder(a=SQUARES, b=self.others)
        wanted = {name: set() for name in PREDICATES}
        for at, (_, *relations) in enumerate(KNOWN):
            for key, relation in zip((1, 4), relations):
                for name in matrices.HOLD[relation]:
                    wanted[name].add((at, key))
        self.assertTrue(all(wanted.values()))
        for name in PREDICATES:
            turned = {"ST_Within": "ST_Contains", "ST_Contains": "ST_Within"}.get(name, name)
            # The other geometry first, then the record in parts.
            found = self.rows(folder, f"SELECT b.fid, a.whole FROM b JOIN a ON {turned}(b.geom, a.geom) WHERE (a.whole = 1 OR a.whole = 4)")
            swapped = self.rows(folder, f"SELECT b.fid, a.whole FROM a, b WHERE {name}(a.geom, b.geom) AND (a.whole = 1 OR a.whole = 4)")
            of_other = {(at, key) for at, key in wanted[turned]}
            self.assertEqual(found, sorted(found, key=lambda it: (int(it[0]), int(it[1]))))
            self.assertEqual(len(found), len(set(map(tuple, found))))
            self.assertEqual({(int(at), int(key)) for at, key in found}, of_other, name)
            self.assertEqual({(int(at), int(key)) for at, key in swapped}, of_other, name)

    def test_constants(self):
        folder = self.folder(a=SQUARES)
        for at, (text, *relations) in enumerate(KNOWN):
            for name in PREDICATES:
                found = self.rows(folder, f"SELECT whole FROM a WHERE {name}(ST_GeomFromText('{text}'), geom) AND fid <> 5 AND fid <> 6 AND (whole = 1 OR whole = 4)")
                self.assertEqual([it for (it,) in found], [key for key, relation in zip("14", relations) if name in matrices.HOLD[relation]], (text, name))

    def test_records_in_parts_with_one_another(self):
        folder = self.folder(a=SQUARES)
        for name, wanted in (
            ("ST_Equals", [(1, 1), (1, 2), (2, 1), (2, 2), (3, 3), (4, 4), (5, 5), (6, 6)]),
            ("ST_Touches", [(1, 3), (2, 3), (3, 1), (3, 2), (3, 4), (4, 3)]),
            ("ST_Within", [(1, 1), (1, 2), (2, 1), (2, 2), (3, 3), (4, 1), (4, 2), (4, 4), (5, 1), (5, 2), (5, 5), (6, 1), (6, 2), (6, 4), (6, 5), (6, 6)]),
            ("ST_Overlaps", [(4, 5), (5, 4)]),
        ):
            found = self.rows(folder, f"SELECT x.fid, y.fid FROM a x JOIN a y ON {name}(x.geom, y.geom)")
            self.assertEqual([tuple(map(int, it)) for it in found], wanted, name)

    def test_matrices_by_st_relate(self):
        folder = self.folder(a=SQUARES, b=self.others)
        for at, (text, *_) in enumerate(KNOWN):
            found = matrix_of("POLYGON((0 0,100 0,100 100,0 100,0 0))", text)
            for pattern in (found, "*" * 9, f"{'F' if found[0] != 'F' else 'T'}********", f"{found[:8]}*", "FF*FF****"):
                rows = self.rows(folder, f"SELECT a.fid FROM a JOIN b ON ST_Relate(a.geom, b.geom, '{pattern}') WHERE a.fid = 1 AND b.fid = {at}")
                self.assertEqual(bool(rows), matrices.matches(found, pattern), (text, pattern))


class Forms(WithFolder):
    """Which queries are about wholes, and what their answers look like, by the command."""

    def setUp(self):
        super().setUp()
        self.made = self.folder(a=SQUARES, b={at: [text] for at, (text, *_) in enumerate(KNOWN[:8])} | {90: [""], 91: ["POINT EMPTY"]})

    def test_answers(self):
        note = "sfq-ask: note: 5 records of a are in 11 parts: they were put together again and related as wholes, which isn't proved\n"
        for query, wanted in (
            ("SELECT COUNT(*) FROM a WHERE ST_Contains(geom, ST_GeomFromText('LINESTRING(50 10,50 30)'))", "COUNT(*)\n3\n"),
            ("SELECT COUNT(*) FROM a WHERE ST_Contains(geom, ST_GeomFromText('LINESTRING(50 10,50 30)')) LIMIT 0", "COUNT(*)\n"),
            ("SELECT a.fid, b.fid FROM b JOIN a ON ST_Touches(a.geom, b.geom) LIMIT 3;", "a.fid,b.fid\n1,0\n2,0\n4,0\n"),
            ("SELECT a.fid, b.fid FROM a, b WHERE ((ST_Touches(b.geom, a.geom)) AND (b.fid = 4 AND a.name = 'n1'))", "a.fid,b.fid\n4,4\n"),
            ("SELECT a.fid FROM a JOIN b ON a.fid = b.fid AND ST_Within(a.geom, b.geom)", "a.fid\n2\n"),
            ("SELECT a.fid, b.fid FROM a JOIN b ON a.fid = b.fid WHERE ST_Intersects(a.geom, b.geom) AND ST_Contains(a.geom, ST_GeomFromText('POINT(50 10)'))", "a.fid,b.fid\n1,1\n2,2\n4,4\n"),
            ("SELECT fid, ST_Dimension(geom) FROM a WHERE ST_Equals(geom, ST_GeomFromText('POLYGON((0 0,100 0,100 100,0 100,0 0))')) AND NOT ST_IsEmpty(geom)", "fid,ST_Dimension(geom)\n1,2\n2,2\n"),
            ("SELECT fid FROM a WHERE ST_Touches(geom, ST_GeomFromText('POINT(0 0)')) AND ST_Disjoint(geom, ST_GeomFromText('POINT(100 100)'))", "fid\n5\n"),
        ):
            out, err, status = self.run_words(self.made, query)
            self.assertEqual((out, err, status), (wanted, note, 0), query)

    def test_all_columns(self):
        out, err, status = self.run_words(self.made, "SELECT * FROM a WHERE ST_Contains(geom, ST_GeomFromText('POINT(40 10)')) AND fid < 6", "--out", "json")
        found = json.loads(out)
        self.assertEqual((status, [it["whole"] for it in found]), (0, [1, 2, 4, 5]), err)
        self.assertEqual(list(found[0]), ["whole", "fid", "name", "geom"])
        self.assertEqual(matrix_of(found[1]["geom"], "POLYGON((0 0,100 0,100 100,0 100,0 0))"), "2FFF1FFF2")
        self.assertEqual(found[3]["geom"], SQUARES[5][0])
        out, err, status = self.run_words(self.made, "SELECT fid, geom FROM a WHERE ST_Touches(geom, ST_GeomFromText('POINT(60 50)'))", "--out", "geojson")
        (feature,) = json.loads(out)["features"]
        self.assertEqual((status, feature["properties"]["fid"], feature["geometry"]["type"], len(feature["geometry"]["coordinates"])), (0, 4, "Polygon", 2), err)

    def test_forms_that_are_refused(self):
        for query, why in (
            ("SELECT fid FROM a WHERE ST_Within(geom, ST_GeomFromText('POINT(50 50)')) OR fid = 1", "and a predicate over them is within OR or NOT, and no condition of its own between ANDs"),
            ("SELECT fid FROM a WHERE fid = 1 AND NOT ST_Touches(geom, ST_GeomFromText('POINT(50 50)'))", "and a predicate over them is within OR or NOT, and no condition of its own between ANDs"),
            ("SELECT part FROM a WHERE ST_Touches(geom, ST_GeomFromText('POINT(50 0)'))", "and the query names part, which only parts have"),
            ("EXPLAIN SELECT fid FROM a WHERE ST_Touches(geom, ST_GeomFromText('POINT(50 0)'))", "and EXPLAIN is about rows"),
            ("SELECT name, COUNT(*) FROM a WHERE ST_Touches(geom, ST_GeomFromText('POINT(50 0)')) GROUP BY name", "and this query is one for SQLite, which relates parts"),
        ):
            out, err, status = self.run_words(self.made, query)
            self.assertEqual((out, status), ("", 5), query)
            self.assertIn(f" of a part says nothing of the whole: a has records in parts, {why}\n", err)

    def test_faults_of_the_query(self):
        """A fault is that of sfq, with its place in what the user wrote."""
        for query, line in (
            ("SELECT fid FROM a WHERE ST_Within(geom, ST_GeomFromText('POINT(50 50)')) AND nme = 'n1'", "sfq: Q5 at 77\n"),
            ("SELECT fid FROM a WHERE ST_Within(geom, ST_GeomFromText('POINT(50)'))", "sfq: Q8 at "),
            ("SELECT fid FROM a WHERE ST_Within(geom) AND fid = 1", "sfq: Q"),
        ):
            out, err, status = self.run_words(self.made, query)
            self.assertEqual((out, status), ("", 5), err)
            self.assertTrue(err.startswith(line), err)

    def test_queries_about_parts_stay(self):
        note = "note: 5 records of a are in 11 parts, each a row"
        for query, wanted in (
            ("SELECT part FROM a WHERE ST_Intersects(geom, ST_GeomFromText('POINT(50 50)'))", "part\n1\n2\n4\n10\n"),
            ("SELECT fid FROM a WHERE ST_Intersects(geom, ST_GeomFromText('POINT(50 50)'))", "fid\n1\n1\n2\n5\n"),
            ("SELECT COUNT(*) FROM a WHERE ST_Disjoint(geom, ST_GeomFromText('POINT(50 50)'))", "COUNT(*)\n8\n"),
            ("SELECT fid FROM a WHERE ST_Contains(geom, ST_GeomFromText('POINT(200 200)'))", "fid\n"),
            ("SELECT fid FROM a WHERE fid > 5", "fid\n6\n6\n"),
        ):
            out, err, status = self.run_words(self.made, query)
            self.assertEqual((out, status), (wanted, 0), err)
            self.assertIn(note, err)

    def test_rows_that_are_no_parts(self):
        folder = self.folder(a={1: ["POLYGON((0 0,4 0,4 4,0 4,0 0))", "POLYGON((2 2,6 2,6 6,2 6,2 2))", "POLYGON((2 2,6 2,6 6,2 6,2 2))"]})
        out, err, status = self.run_words(folder, "SELECT fid FROM a WHERE ST_Contains(geom, ST_GeomFromText('LINESTRING(3 3,5 5)'))")
        self.assertEqual(status, 4)
        self.assertIn("the rows of record 1 of a aren't the parts of one geometry: parts overlap", err)


@unittest.skipUnless(PYTHON, "needs the package python3-gdal")
class Cut(WithFolder):
    """Random shapes, cut into small parts, with random others, of which some are cut: related as sfq relates them uncut."""

    def cut(self, texts, positions, rings):
        known = {**os.environ, "PYTHONPATH": f"{ROOT}/bindings/python", "PYTHONDONTWRITEBYTECODE": "1"}
        ran = subprocess.run([PYTHON, f"{ROOT}/tests/cut_shapes.py"], env=known, input=json.dumps([texts, positions, rings]), capture_output=True, text=True)
        self.assertEqual((ran.returncode, ran.stderr), (0, ""))
        return json.loads(ran.stdout)

    def shapes(self, dice, count, most):
        """Returns texts on a grid on which each line through a vertex cuts edges in positions of the grid."""
        texts = [exact_cells.random_text(dice, most) for _ in range(count)]
        return [re.sub(r"\d+", lambda it: str(int(it[0]) * 2_520), it) for it in texts]

    def check(self, seed, count=40, most=8):
        dice = random.Random(seed)
        ones, others = self.shapes(dice, count, most), self.shapes(dice, count, most)
        tables = {name: dict(enumerate(self.cut(its, dice.choice((5, 6, 8)), dice.choice((1, 2))), 1)) for name, its in (("a", ones), ("b", others))}
        folder = self.folder(**tables, c=dict(enumerate(([it] for it in ones), 1)), d=dict(enumerate(([it] for it in others), 1)))
        cut = {(a, b) for a, one in tables["a"].items() for b, other in tables["b"].items() if len(one) > 1 or len(other) > 1}
        self.assertGreater(len(cut), 500)
        asked = [f"{it}(%s.geom, %s.geom)" for it in PREDICATES] + [f"ST_Relate(%s.geom, %s.geom, '{it}')" for it in PATTERNS]
        for it in asked:
            found = self.rows(folder, f"SELECT a.fid, b.fid FROM a JOIN b ON {it % ('a', 'b')}")
            wanted = self.plain(folder, f"SELECT c.fid, d.fid FROM c JOIN d ON {it % ('c', 'd')}")
            self.assertEqual(found, wanted, it)

    def test_random_pairs(self):
        self.check(1)
        # Large shapes have an index of their edges.
        with mock.patch.object(rejoining, "MANY", 4):
            self.check(2, most=5)

    def test_random_pairs_in_parts_with_the_uncut(self):
        """Each cut shape is equal to itself as one row."""
        dice = random.Random(3)
        ones = [it for it in self.shapes(dice, 60, 9) if "EMPTY" not in it]
        folder = self.folder(a=dict(enumerate(self.cut(ones, 6, 2), 1)), c=dict(enumerate(([it] for it in ones), 1)))
        found = self.rows(folder, "SELECT a.fid FROM a JOIN c ON a.fid = c.fid AND ST_Equals(a.geom, c.geom) AND ST_Relate(a.geom, c.geom, '*FFF*FFF*')")
        self.assertEqual([int(it) for (it,) in found], list(range(1, len(ones) + 1)))


class Layers(WithGeos):
    """Layers that others made, two of whose records are cut where their rings touch: as GEOS relates the rounded source."""

    # Where each is, and the column of its key.
    GIVEN = [("/usr/lib/R/site-library/sf/shape/nc.shp", "fid"), ("/usr/lib/R/site-library/spData/shapes/sids.shp", "fid")]

    def test_layers(self):
        for path, key in self.GIVEN:
            if not os.path.exists(path):
                self.skipTest("needs the packages r-cran-sf and r-cran-spdata")
            folder, _ = self.imported(path, "--no-relations", grid="auto")
            name = os.path.splitext(os.path.basename(path))[0]
            known = {int(it[1]) for it in self.table(folder, name)[1:]}
            relations = self.geos("sources", path, folder)
            for it in ("touches", "within", "overlaps", "equals"):
                query = f"SELECT a.{key}, b.{key} FROM {name} a JOIN {name} b ON ST_{it.capitalize()}(a.geom, b.geom)"
                ran = self.command("sfq-ask", folder, "--lenient", query)
                self.assertEqual(ran.returncode, 0, ran.stderr)
                self.assertIn("which isn't proved\n", ran.stderr)
                found = [tuple(map(int, line.split(","))) for line in ran.stdout.splitlines()[1:]]
                self.assertEqual(found, sorted(set(found)))
                self.assertEqual(set(found), {(a, b) for a, b in relations[it] if {a, b} <= known}, (name, it))


if __name__ == "__main__":
    unittest.main()
