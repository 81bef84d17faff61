#!/usr/bin/env python3
"""Measures joins of `sfq run` beside `sqlite3` with SpatiaLite and an R*-tree, and beside GEOS and an STR-tree.

Points in small polygons (1,000 in 100, 10,000 in 1,000) and in land parcels (1,000 to 100,000 in grids of 10, 30 and 100 a
side), the parcels against themselves by ST_Touches, and lines by ST_Crosses across the polygons (300 across 100, 3,000 across
1,000) and across the parcels (300 to 30,000). Each run is one process: start, load, index, answer. It compares the answers, and
prints a Markdown table: the processor time of each, its start-up left out (its run over tables without rows), the ratio to each
peer and to the best, the exponent by which the time of `sfq` grows in rows of the first table, and peak memory. Times are the
least of several runs. Under `--instructions` it counts the instructions of `sfq` and of GEOS instead, by valgrind. Under
`--sqlite` it measures `sqlite3` with virtual tables of the extension sfq0 in place of `sfq run`. The peers don't test validity.

It needs Python's standard library, the built program (run ./build), and from the distribution's packages `gcc`,
`libgeos-dev`, `sqlite3` and `libsqlite3-mod-spatialite`. It is no test: the gate doesn't run it.
"""

import argparse
import math
import pathlib
import random
import tempfile
from typing import Callable, NamedTuple, Optional, Sequence, Union

from peers import SEPARATOR, Comparison, add_options, build_extension, build_geos, is_ready, spatialite_command, table_of_rows
from timing import PROGRAM, README, Table, read_options

SPAN = 1_000_000


def text_of(word: str, positions: Sequence[tuple[int, int]]) -> str:
    """A geometry of one list of positions."""
    listed = ",".join(f"{x} {y}" for x, y in positions)
    return f"{word}(({listed}))" if word == "POLYGON" else f"{word}({listed})"


def points(count: int) -> list[str]:
    """Points anywhere."""
    chance = random.Random(count)
    return [text_of("POINT", [(chance.randint(-SPAN, SPAN), chance.randint(-SPAN, SPAN))]) for _ in range(count)]


def areas(count: int) -> list[str]:
    """Stars of twelve corners, apart from each other, each in a cell of its own."""
    chance = random.Random(count)
    side = math.ceil(math.sqrt(count))
    cell = 2 * SPAN // side
    texts = []
    for k in range(count):
        x, y = -SPAN + cell * (k % side) + cell // 2, -SPAN + cell * (k // side) + cell // 2
        corners = []
        for i in range(12):
            distance = cell * (0.2 + 0.25 * chance.random())
            angle = math.pi * i / 6
            corners.append((x + round(distance * math.cos(angle)), y + round(distance * math.sin(angle))))
        texts.append(text_of("POLYGON", corners + corners[:1]))
    return texts


def lines(count: int) -> list[str]:
    """Lines of five positions, some cells long."""
    chance = random.Random(count)
    step = 2 * SPAN // math.ceil(math.sqrt(count))
    texts = []
    for _ in range(count):
        x, y = chance.randint(-SPAN, SPAN), chance.randint(-SPAN, SPAN)
        positions = [(x, y)]
        for _ in range(4):
            x, y = x + chance.randint(-step, step), y + chance.randint(-step, step)
            positions.append((x, y))
        texts.append(text_of("LINESTRING", positions))
    return texts


def parcels(side: int) -> list[str]:
    """A grid of four-cornered parcels, which share their ragged corners."""
    chance = random.Random(side)
    cell = 2 * SPAN // side
    corner = {
        (i, j): (-SPAN + cell * i + chance.randint(0, cell // 3), -SPAN + cell * j + chance.randint(0, cell // 3))
        for i in range(side + 1)
        for j in range(side + 1)
    }
    texts = []
    for i in range(side):
        for j in range(side):
            ring = [corner[i, j], corner[i + 1, j], corner[i + 1, j + 1], corner[i, j + 1], corner[i, j]]
            texts.append(text_of("POLYGON", ring))
    return texts


class Case(NamedTuple):
    """What is joined, by which predicate, and at which sizes."""

    label: str
    first: Callable[[int], list[str]]
    first_type: str
    second: Optional[Callable[[int], list[str]]]
    predicate: str
    sizes: tuple[tuple[int, int], ...]


# A second table that is None is the first one again; sizes are numbers of rows, and of parcels the parcels on a side.
CASES = (
    Case("points in areas", points, "POINT", areas, "within", ((1_000, 100), (10_000, 1_000))),
    Case("points in parcels", points, "POINT", parcels, "within", ((1_000, 10), (10_000, 30), (100_000, 100))),
    Case("parcels that touch", parcels, "POLYGON", None, "touches", ((10, 10), (30, 30), (100, 100))),
    Case("lines across areas", lines, "LINESTRING", areas, "crosses", ((300, 100), (3_000, 1_000))),
    Case("lines across parcels", lines, "LINESTRING", parcels, "crosses", ((300, 10), (3_000, 30), (30_000, 100))),
)


def write_table(folder: pathlib.Path, table: str, texts: Sequence[str]) -> None:
    """Writes a table's CSV."""
    rows = [f'{key},"{text}"' if "," in text else f"{key},{text}" for key, text in enumerate(texts, 1)]
    (folder / f"{table}.csv").write_text("\n".join(["id,geom", *rows]) + "\n")


def extension_command(extension: pathlib.Path, tables: Sequence[str], query: str) -> list[str]:
    """sqlite3 with a virtual table of each table, which it loads, and the rows of a query."""
    made = [f"CREATE VIRTUAL TABLE {table} USING sfq(folder='.', table='{table}');" for table in tables]
    return ["sqlite3", ":memory:", f".load {extension.with_suffix('')}", *made, ".headers on", SEPARATOR, query]


def commands(geos: Union[str, pathlib.Path], predicate: str, second: str, extension: Optional[pathlib.Path] = None) -> dict[str, list[str]]:
    """The command of each program, for the pairs of the table `first` and the second one; of sfq by SQLite, if there is an extension."""
    function = f"ST_{predicate.capitalize()}"
    query = f"SELECT a.id, b.id FROM first a JOIN {second} b ON {function}(a.geom, b.geom)"
    tables = ["first"] if second == "first" else ["first", second]
    made = [f"UPDATE {table} SET geom = ST_GeomFromText(geom);" for table in tables]
    made.append("CREATE VIRTUAL TABLE tree USING rtree(id, left, right, bottom, top);")
    bounds = ", ".join(f"Mbr{end}(geom)" for end in ("MinX", "MaxX", "MinY", "MaxY"))
    made.append(f"INSERT INTO tree SELECT id, {bounds} FROM {second} WHERE MbrMinX(geom) IS NOT NULL;")
    meet = (
        "t.right >= MbrMinX(a.geom) AND t.left <= MbrMaxX(a.geom) "
        "AND t.top >= MbrMinY(a.geom) AND t.bottom <= MbrMaxY(a.geom)"
    )
    spatial = (
        f'SELECT a.id AS "a.id", b.id AS "b.id" FROM first a CROSS JOIN tree t ON {meet} CROSS JOIN {second} b ON b.id = t.id '
        f"WHERE {function}(a.geom, b.geom) ORDER BY a.id, b.id;"
    )
    by_sqlite = f'SELECT a.id AS "a.id", b.id AS "b.id"{query[query.index(" FROM"):]} ORDER BY a.id, b.id;'
    return {
        "sfq": extension_command(extension, tables, by_sqlite) if extension else [str(PROGRAM), "run", "schema.sql", ".", query],
        "spatialite": spatialite_command(tables, *made, spatial),
        "geos": [str(geos), "join", predicate, "first.csv", f"{second}.csv"],
    }


def make_tables(folder: pathlib.Path, case: Case, size: Optional[tuple[int, int]]) -> tuple[int, int]:
    """Makes a folder with the schema and the tables of a case, which are empty where no size is given; answers their numbers of rows."""
    folder.mkdir()
    schema = [f"CREATE TABLE first (id INTEGER PRIMARY KEY, geom {case.first_type})"]
    first = second = case.first(size[0]) if size else []
    write_table(folder, "first", first)
    if case.second is not None:
        schema.append("CREATE TABLE second (id INTEGER PRIMARY KEY, geom POLYGON)")
        second = case.second(size[1]) if size else []
        write_table(folder, "second", second)
    (folder / "schema.sql").write_text(";\n".join(schema) + ";\n")
    return len(first), len(second)


def main() -> None:
    parser = argparse.ArgumentParser(description=__doc__.splitlines()[0])
    add_options(parser)
    parser.add_argument("--only", default="", help="the joins whose name has this word")
    parser.add_argument("--sqlite", action="store_true", help="sqlite3 with the extension sfq0 in place of the program sfq")
    options = read_options(parser, ("only",))
    is_ready()
    with tempfile.TemporaryDirectory() as name:
        geos = build_geos(pathlib.Path(name))
        extension = build_extension(pathlib.Path(name)) if options.sqlite else None
        table = table_of_rows("joins by SQLite", options, "sfq0") if extension else table_of_rows("joins", options)
        for number, case in enumerate(CASES):
            if options.only in case.label:
                folder = pathlib.Path(name) / str(number)
                folder.mkdir()
                measure_case(case, geos, folder, options, extension, table)
    if options.write:
        table.write_into(README)


def measure_case(
    case: Case, geos: pathlib.Path, folder: pathlib.Path, options: argparse.Namespace, extension: Optional[pathlib.Path], table: Table
) -> None:
    """Measures a join at its sizes, and adds its rows to the table."""
    runs = commands(geos, case.predicate, "first" if case.second is None else "second", extension)
    make_tables(folder / "bare", case, None)
    comparison = Comparison(runs, folder / "bare", options, table)
    for size in case.sizes:
        tables = folder / str(size[0])
        first, second = make_tables(tables, case, size)
        comparison.add_row(f"{case.label}, {first:,} by {second:,}", first, runs, tables)


if __name__ == "__main__":
    main()
