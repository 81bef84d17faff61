#!/usr/bin/env python3
"""Measures `sfq run` over points and a constant polygon beside `sqlite3` with SpatiaLite, and beside GEOS.

For 1,000, 10,000 and 100,000 points and a polygon of 5, 100 and 2,000 positions it has the points within the polygon
found by `sfq run`, by `sqlite3` with SpatiaLite importing the same CSV into memory, and by a C program over GEOS that
reads the same CSV (`geos_tables.c`, the polygon prepared). Each run is one process: start, load, answer. It compares
the answers, and prints a Markdown table: the processor time of each, its start-up left out (its run over a table without
rows, beside a polygon of 5 positions), the ratio to each peer and to the best, the exponent by which the time of `sfq`
grows in rows, and peak memory. Times are the least of several runs. Under `--instructions` it counts the instructions of
`sfq` and of GEOS instead, by valgrind. The peers don't test the points' or the polygon's validity.

It needs Python's standard library, the built program (run ./build), and from the distribution's packages `gcc`,
`libgeos-dev`, `sqlite3` and `libsqlite3-mod-spatialite`. It is no test: the gate doesn't run it.
"""

import argparse
import math
import pathlib
import random
import tempfile
from typing import Union

from peers import Comparison, add_options, build_geos, is_ready, spatialite_command, table_of_rows
from timing import PROGRAM, README, read_options

SIZES = (1_000, 10_000, 100_000)
POSITIONS = (5, 100, 2_000)
SPAN = 1_000_000
SCHEMA = "CREATE TABLE pt (id INTEGER PRIMARY KEY, geom POINT);"


def window(positions: int) -> str:
    """The text of a star of this many positions, the closing one counted, or of a square where they are five."""
    chance = random.Random(positions)
    corners = []
    for k in range(positions - 1):
        angle = 2 * math.pi * k / (positions - 1) + math.pi / 4
        distance = SPAN // 2 if positions == 5 else SPAN * (0.4 + 0.4 * chance.random())
        corners.append(f"{round(distance * math.cos(angle))} {round(distance * math.sin(angle))}")
    return "POLYGON((" + ",".join(corners + corners[:1]) + "))"


def make_points(folder: pathlib.Path, rows: int) -> None:
    """Writes the schema and pt.csv, its rows in a shuffled order."""
    chance = random.Random(rows)
    keys = list(range(1, rows + 1))
    chance.shuffle(keys)
    lines = ["id,geom"]
    for key in keys:
        lines.append(f"{key},POINT({chance.randint(-SPAN, SPAN)} {chance.randint(-SPAN, SPAN)})")
    (folder / "schema.sql").write_text(SCHEMA)
    (folder / "pt.csv").write_text("\n".join(lines) + "\n")


def commands(folder: pathlib.Path, geos: Union[str, pathlib.Path], text: str) -> dict[str, list[str]]:
    """The command of each program."""
    (folder / "window").write_text(text + "\n")
    condition = f"ST_Within(geom, ST_GeomFromText('{text}'))"
    spatial = f"SELECT id FROM pt WHERE ST_Within(ST_GeomFromText(geom), ST_GeomFromText('{text}')) ORDER BY id;"
    return {
        "sfq": [str(PROGRAM), "run", "schema.sql", ".", f"SELECT id FROM pt WHERE {condition}"],
        "spatialite": spatialite_command(["pt"], spatial),
        "geos": [str(geos), "window", "within", "pt.csv", "window"],
    }


def main() -> None:
    parser = argparse.ArgumentParser(description=__doc__.splitlines()[0])
    add_options(parser)
    options = read_options(parser)
    is_ready()
    with tempfile.TemporaryDirectory() as name:
        geos = build_geos(pathlib.Path(name))
        table = table_of_rows("points in a polygon", options)
        for positions in POSITIONS:
            bare = new_folder(name, positions, 0)
            comparison = Comparison(commands(bare, geos, window(5)), bare, options, table)
            for rows in SIZES:
                folder = new_folder(name, positions, rows)
                runs = commands(folder, geos, window(positions))
                comparison.add_row(f"{rows:,} points, {positions:,} positions", rows, runs, folder)
    if options.write:
        table.write_into(README)


def new_folder(name: str, positions: int, rows: int) -> pathlib.Path:
    """A folder with the schema and a table of so many points."""
    folder = pathlib.Path(name) / f"{positions}-{rows}"
    folder.mkdir()
    make_points(folder, rows)
    return folder


if __name__ == "__main__":
    main()
