"""examples/blue_lake: the map of the standard's conformance tests, and what the standard says of it.

`test_documents` asks sfq each query of the example's page. Here the same answers are asked of the exact model, which knows nothing of
sfq's code, and of shapely.
"""
import csv
import glob
import os
import re
import subprocess
import sys
import unittest

from support import ROOT, python_with, read

import exact_cells
import exact_places
import printed
from sfq_audit import predicates

FOLDER, PAGE = f"{ROOT}/examples/blue_lake", "examples/blue_lake/README.md"
PICTURE = f"{ROOT}/docs/pictures/blue-lake.svg"
# What the standard asks of two geometries and what it says of them: a function, two geometries by their table, key and column, and
# whether it is true.
RELATED = [
    ("ST_Disjoint", ("divided_routes", 119, "centerlines"), ("named_places", 117, "boundary"), True),
    ("ST_Touches", ("streams", 111, "centerline"), ("lakes", 101, "shore"), True),
    ("ST_Within", ("buildings", 114, "footprint"), ("named_places", 117, "boundary"), True),
    ("ST_Overlaps", ("forests", 109, "boundary"), ("named_places", 117, "boundary"), True),
    ("ST_Crosses", ("road_segments", 102, "centerline"), ("divided_routes", 119, "centerlines"), True),
    ("ST_Intersects", ("road_segments", 102, "centerline"), ("divided_routes", 119, "centerlines"), True),
    ("ST_Contains", ("forests", 109, "boundary"), ("named_places", 117, "boundary"), False),
    ("ST_Relate", ("forests", 109, "boundary"), ("named_places", 117, "boundary"), True),
]
PATTERN = "TTTTTTTTT"
ISLAND = "POLYGON((67 13,67 18,59 18,59 13,67 13))"
# What the standard says of one geometry, as sfq writes it.
OF_ONE = {"ST_Dimension": "2", "ST_AsText": f'"{ISLAND}"', "ST_IsEmpty": "0", "ST_Equals": "1"}
# The map: how many rows each table of the standard has.
ROWS = {
    "lakes": 1, "road_segments": 5, "divided_routes": 1, "forests": 1, "bridges": 1, "streams": 2, "buildings": 2, "ponds": 1,
    "named_places": 2, "map_neatlines": 1,
}
# The functions of the standard's queries that sfq doesn't have.
OTHERS = """GeometryType SRID IsSimple IsClosed IsRing Area Length Distance X Y StartPoint EndPoint NumPoints PointN ExteriorRing
NumInteriorRings InteriorRingN NumGeometries GeometryN Boundary Envelope Centroid PointOnSurface ConvexHull Buffer Intersection Union
Difference SymDifference AsBinary PolyFromWKB LineFromWKB""".split()
ASK = "import sys\nfrom shapely import wkt\nfor line in sys.stdin:\n    a, b = map(wkt.loads, line.split(';'))\n    print(a.relate(b), a.is_valid and b.is_valid)\n"


def table(name):
    with open(f"{FOLDER}/{name}.csv", newline="", encoding="utf-8") as file:
        return list(csv.DictReader(file))


def geometry(name, key, column):
    """Returns the text of a geometry."""
    (found,) = [row[column] for row in table(name) if row["fid"] == str(key)]
    return found


def geometries():
    """Returns the texts of all geometries of the map."""
    return [it for name in ROWS for row in table(name) for it in row.values() if re.match(r"[A-Z]+\(", it)]


def truth(name, matrix, texts):
    """Whether a predicate holds of two geometries with this matrix."""
    return predicates.matches(PATTERN, matrix) if name == "ST_Relate" else name in exact_cells.related(matrix, *texts)


def matrix_of(first, second):
    return "".join(it.split()[2] for it in exact_cells.lines(first, second).splitlines())


def queries():
    """Returns the queries of the page, by the function that each asks, with what it prints below the header."""
    found = {}
    for it in printed.of_queries(PAGE, read(f"{ROOT}/{PAGE}")):
        words = set(re.findall(r"ST_\w+", it.words[-1])) - {"ST_GeomFromText"}
        (name,) = words
        found[name] = it.words[-1], it.text.splitlines()[1:]
    return found


class Map(unittest.TestCase):
    def test_the_tables_of_the_standard(self):
        self.assertEqual({os.path.basename(it)[:-4]: len(table(os.path.basename(it)[:-4])) for it in glob.glob(f"{FOLDER}/*.csv")}, ROWS)
        self.assertEqual(re.findall(r"CREATE TABLE (\w+)", read(f"{FOLDER}/schema.sql")), list(ROWS))
        self.assertEqual(len(geometries()), 19)

    def test_each_geometry_is_valid_and_within_the_frame(self):
        frame = geometry("map_neatlines", 115, "neatline")
        for text in geometries():
            with self.subTest(text=text):
                if "POINT" not in text:
                    self.assertEqual(exact_places.line(text), "valid\n")
                self.assertTrue(predicates.matches("******FF*", matrix_of(frame, text)))

    def test_the_picture_is_the_one_of_the_page(self):
        words = re.search(r"draw\.py (--map .*?) >", read(f"{ROOT}/{PAGE}").replace("\\\n", " "))[1].split()
        ran = subprocess.run([sys.executable, "-B", f"{ROOT}/examples/draw.py", *words], cwd=FOLDER, capture_output=True, text=True, check=True)
        self.assertEqual(read(PICTURE), ran.stdout)
        self.assertEqual({it.partition(".")[0] for it in words[1:]}, set(ROWS))


class Answers(unittest.TestCase):
    def test_the_page_has_the_answers_of_the_standard(self):
        found = {name: lines for name, (_, lines) in queries().items()}
        wanted = {name: [answer] for name, answer in OF_ONE.items()} | {name: [str(int(is_so))] for name, _, _, is_so in RELATED}
        self.assertEqual(found, wanted)

    def test_a_query_of_two_asks_the_two(self):
        for name, first, second, _ in RELATED:
            query = queries()[name][0]
            asked = f"{name}({first[0]}.{first[2]}, {second[0]}.{second[2]}"
            self.assertIn(asked, query)

    def test_the_exact_model_gives_them(self):
        for name, first, second, is_so in RELATED:
            texts = geometry(*first), geometry(*second)
            with self.subTest(name=name):
                self.assertEqual(truth(name, matrix_of(*texts), texts), is_so)
        island = geometry("named_places", 118, "boundary")
        self.assertEqual(island, ISLAND)
        self.assertTrue(truth("ST_Equals", matrix_of(island, ISLAND), (island, ISLAND)))

    def test_shapely_gives_them(self):
        python = python_with("shapely")
        if not python:
            self.skipTest("needs the package python3-shapely")
        pairs = [(geometry(*first), geometry(*second)) for _, first, second, _ in RELATED]
        given = "".join(f"{a};{b}\n" for a, b in pairs + [(it, it) for it in geometries()])
        ran = subprocess.run([python, "-c", ASK], input=given, capture_output=True, text=True, check=True)
        lines = [it.split() for it in ran.stdout.splitlines()]
        self.assertEqual({it[1] for it in lines}, {"True"})
        for (name, _, _, is_so), texts, (matrix, _) in zip(RELATED, pairs, lines):
            with self.subTest(name=name):
                self.assertEqual((truth(name, matrix, texts), matrix), (is_so, matrix_of(*texts)))

    def test_the_functions_that_are_not_here_are_named(self):
        part = read(f"{ROOT}/{PAGE}").partition("## Queries that aren't here")[2].partition("##")[0]
        listed = [it for line in part.splitlines() if re.match(r"\| (?!what|functions|---)", line) for it in line.split("|")[2].strip().split(", ")]
        self.assertEqual(sorted(listed), sorted(OTHERS))


if __name__ == "__main__":
    unittest.main()
