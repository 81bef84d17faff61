"""Tables and queries for the tests of sfq-scale: with NULL, EMPTY, shared corners, line ends in quotes, and names that marks have too."""
import csv
import os
import random
from typing import Iterable, Sequence

SCHEMA = """-- Land, what is built on it, and what crosses it; `s` and `w` are names that marks have as well.
CREATE TABLE parcel (id INTEGER PRIMARY KEY, name TEXT, geom POLYGON, w INTEGER);
CREATE TABLE House (number BIGINT PRIMARY KEY NOT NULL, ground GEOMETRY, garden GEOMETRY, s TEXT, "" INTEGER);
create table road (id INT PRIMARY KEY, line LINESTRING, name TEXT NOT NULL);
CREATE TABLE bare (id INTEGER PRIMARY KEY, geom POINT);
""".replace('"" ', "W_ ")

QUERIES = [
    # One table: stretches.
    "SELECT * FROM parcel",
    "SELECT name FROM parcel WHERE id < 0 OR w = 3",
    "SELECT COUNT(*) FROM parcel WHERE ST_IsEmpty(geom)",
    "SELECT name, ST_AsText(geom) FROM parcel p WHERE name <> 'it''s FROM here; -- (a) AND \"b\"' LIMIT 7",
    "select ST_Dimension ( ground ) , number from HOUSE where garden is null -- a comment with ' in it\n;",
    "SELECT id FROM bare",
    "SELECT COUNT(*) FROM road LIMIT 0",
    "SELECT COUNT(*) FROM road LIMIT 1",
    "SELECT * FROM road LIMIT 0",
    # A table with itself: tiles of one table.
    "SELECT a.id, b.id, b.name FROM parcel a JOIN parcel b ON ST_Touches(a.geom, b.geom)",
    "SELECT COUNT(*) FROM parcel a, parcel AS b WHERE ST_Touches(b.geom, a.geom) AND a.id < b.id",
    "SELECT * FROM parcel a JOIN parcel b ON ST_Equals(a.geom, b.geom)",
    "SELECT a.name FROM parcel a CROSS JOIN parcel b WHERE ST_Relate(a.geom, b.geom, 'FF*FT****') LIMIT 11",
    # One table, two geometry columns.
    "SELECT a.number, b.number FROM House a JOIN house b ON ST_Intersects(a.ground, b.garden)",
    "SELECT COUNT(*) FROM House a JOIN House b ON ST_Overlaps(a.garden, b.garden) = 1 WHERE a.number <> b.number",
    # Two tables: tiles of each.
    "SELECT name, s FROM parcel JOIN House ON ST_Contains(geom, ground)",
    "SELECT * FROM parcel JOIN House ON ST_Intersects(geom, ground) AND w = 3",
    "SELECT COUNT(*) FROM House h INNER JOIN parcel p ON ST_Within(h.ground, p.geom) WHERE w > 2 OR s IS NULL",
    "SELECT road.name, parcel.id FROM road, parcel WHERE ST_Crosses(line, geom) AND NOT (w = 1 OR w_ = 2) LIMIT 40".replace("w_ = 2", "road.id = 2"),
    "SELECT h.W_, p.w, s FROM parcel p, House h WHERE (ST_Intersects(p.geom, h.garden)) AND (h.W_ = 1 OR p.w = 1)",
    "SELECT p.id FROM parcel p JOIN House h ON ST_Equals(p.geom, h.garden) OR p.w = 9 WHERE ST_Touches(p.geom, h.ground) OR ST_Equals(geom, ground)",
    "SELECT p.id, h.number FROM parcel p JOIN House h ON p.w = 1 OR p.w = 2 WHERE ST_Intersects(geom, garden) AND (s = 'x' OR s <> 'x')",
    "SELECT h.number FROM House h JOIN road r ON (r.id < 5 OR r.id > 9) AND (ST_Intersects(h.garden, r.line) AND h.number > -100) LIMIT 3",
    "SELECT r.id, b.id FROM road r JOIN bare b ON ST_Intersects(r.line, b.geom)",
    "SELECT COUNT(*) FROM bare b JOIN parcel p ON ST_Within(b.geom, p.geom)",
    # Two tables without a predicate that holds only nearby: blocks.
    "SELECT p.id, r.id FROM parcel p, road r WHERE ST_Disjoint(p.geom, r.line) AND p.id < 10",
    "SELECT COUNT(*) FROM parcel, road",
    "SELECT a.id, b.name FROM road a JOIN road b ON a.name = b.name WHERE a.id < b.id",
    "SELECT p.name FROM parcel p, House h WHERE ST_Relate(p.geom, h.ground, 'FF*FF****') LIMIT 9",
]

NAMES = ["Quay House", "a \"quoted\" name", "two\nlines", "one, two", "", "ends\r\n", "\u00c5rhus", "it's FROM here; -- (a) AND \"b\"", "'"]


def ring(x: int, y: int, wide: int, high: int) -> str:
    return f"POLYGON(({x} {y},{x + wide} {y},{x + wide} {y + high},{x} {y + high},{x} {y}))"


def write_table(folder: str, name: str, header: Sequence[object], rows: Iterable[Sequence[object]]) -> None:
    os.makedirs(folder, exist_ok=True)
    with open(f"{folder}/{name}.csv", "w", encoding="utf-8", newline="") as file:
        csv.writer(file, lineterminator="\n").writerows([header, *rows])


def small(folder: str, seed: int = 1) -> None:
    """Writes the schema and small tables: squares that share corners and sides, points on them, and lines along them."""
    draw = random.Random(seed)
    with open(f"{folder}/schema.sql", "w", encoding="utf-8") as file:
        file.write(SCHEMA)
    parcels = [ring(10 * x, 10 * y, 10, 10) for x in range(-4, 4) for y in range(-3, 4)]
    parcels += ["POLYGON EMPTY", "", "POLYGON EMPTY", "", ring(-40, -30, 80, 70), ring(-10_000_000, -10_000_000, 20_000_000, 20_000_000), ring(0, 0, 10, 10)]
    draw.shuffle(parcels)
    keys = draw.sample(range(-60, 200), len(parcels))
    write_table(folder, "parcel", ["w", "ID", "more", "geom", "name"], [
        [draw.choice(["", 1, 2, 3]), key, "more", geom, draw.choice(NAMES)] for key, geom in zip(keys, parcels)
    ])
    houses = []
    for number in draw.sample(range(-200, 10**12), 48):
        x, y = draw.randrange(-42, 42), draw.randrange(-32, 42)
        ground = draw.choice([f"POINT({x} {y})", ring(x, y, draw.randrange(1, 9), 3), f"MULTIPOINT(({x} {y}),(0 0))", "POINT EMPTY", ""])
        garden = draw.choice([ring(10 * (x // 10), 10 * (y // 10), 10, 10), ring(x, y, 15, 6), "GEOMETRYCOLLECTION"[:0], "POLYGON EMPTY", f"LINESTRING({x} {y},{x + 20} {y})"])
        houses.append([number, ground, garden, draw.choice(["x", "y", "z\n", ""]), draw.choice(["", 1, 2])])
    write_table(folder, "House", ["number", "ground", "garden", "s", "W_"], houses)
    roads = [[at, f"LINESTRING({-50 + at} {10 * (at % 5)},{50 - at} {10 * (at % 3)})", draw.choice([it for it in NAMES if it])] for at in range(14)]
    roads += [[90, "LINESTRING EMPTY", "none"], [91, "", "null"], [92, "LINESTRING(-9999999 0,9999999 1)", "long"]]
    write_table(folder, "road", ["name", "line", "id"], [it[::-1] for it in roads])
    write_table(folder, "bare", ["id", "geom"], [])


def land(folder: str, side: int, points: int, seed: int = 1) -> None:
    """Writes squares in rows and points over them, as `parcel` and `tree`, some trees on corners."""
    draw = random.Random(seed)
    with open(f"{folder}/schema.sql", "w", encoding="utf-8") as file:
        file.write("CREATE TABLE parcel (id INTEGER PRIMARY KEY, geom POLYGON, owner TEXT);\nCREATE TABLE tree (id INTEGER PRIMARY KEY, at POINT);\n")
    with open(f"{folder}/parcel.csv", "w", encoding="utf-8") as file:
        file.write("id,owner,geom\n")
        for at in range(side * side):
            x, y = 100 * (at % side), 100 * (at // side)
            file.write(f'{at},owner {at % 97},"{ring(x, y, 100, 100)}"\n')
    with open(f"{folder}/tree.csv", "w", encoding="utf-8") as file:
        file.write("id,at\n")
        for at in range(points):
            file.write(f"{at},POINT({draw.randrange(100 * side + 1)} {draw.randrange(100 * side + 1)})\n")


def crowds(folder: str, kind: str, seed: int = 1) -> None:
    """Writes two tables of skewed areas: all over one point, many in one corner, in a few towns, or with one line across them all."""
    draw = random.Random(seed)
    with open(f"{folder}/schema.sql", "w", encoding="utf-8") as file:
        file.write("CREATE TABLE a (id INTEGER PRIMARY KEY, geom GEOMETRY);\nCREATE TABLE b (id INTEGER PRIMARY KEY, geom GEOMETRY);\n")
    towns = [(draw.randrange(-9_000_000, 9_000_000), draw.randrange(-9_000_000, 9_000_000)) for _ in range(3)]
    for name in "ab":
        rows = []
        for at in range(60):
            if kind == "point":
                size = draw.randrange(1, 1_000)
                rows.append([at, ring(-size, -draw.randrange(1, 1_000), 2 * size, 1_000)])
            elif kind == "corner" and at < 40:
                rows.append([at, ring(7_000_000, 7_000_000, draw.randrange(1, 50), draw.randrange(1, 50))])
            else:
                x, y = towns[at % 3] if at % 10 else (draw.randrange(-9_000_000, 9_000_000), draw.randrange(-9_000_000, 9_000_000))
                rows.append([at, ring(x + draw.randrange(60), y + draw.randrange(60), draw.randrange(1, 20), draw.randrange(1, 20))])
        if kind == "line":
            rows.append([500, "LINESTRING(-10000000 -10000000,10000000 10000000)"])
        write_table(folder, name, ["id", "geom"], rows)
