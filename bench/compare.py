#!/usr/bin/env python3
"""Measures `sfq run` beside `sqlite3` on the same CSV tables and the same SELECT.

For 1,000, 10,000 and 100,000 rows of id, pop, name it makes a table, has the SELECT run by `sfq run` and by
`sqlite3` importing the same CSV into memory, compares the rows, and prints a row of a Markdown table: wall time and
processor time of both, their ratios, the exponent by which the processor time of `sfq` grows from size to size, and its peak
memory. Times are the least of several runs. Under `--instructions` it counts the instructions of the whole run of `sfq` instead,
by valgrind.

It needs Python's standard library, the built program (run ./build), and `sqlite3` and `valgrind` from the distribution's
packages. It is no test: the gate doesn't run it.
"""

import argparse
import pathlib
import random
import shutil
import sys
import tempfile
from typing import Iterator, Optional

from peers import SEPARATOR
from timing import PROGRAM, README, Table, best, exponent, figure, instructions, read_options

SIZES = (1_000, 10_000, 100_000)
SCHEMA = "CREATE TABLE t (id INTEGER PRIMARY KEY, pop INTEGER, name TEXT);"
QUERY = "SELECT id, name FROM t WHERE pop > 500000 AND NOT name = 'bern' OR pop IS NULL"
COMMAND = [str(PROGRAM), "run", "schema.sql", ".", QUERY]
NAMES = ("alma", "bern", "cork", "dale", "elm street", "fern, upper", "gull's rest", "hay")


def make_table(folder: pathlib.Path, rows: int) -> int:
    """Writes the schema and t.csv, its rows in a shuffled order; returns the size of t.csv in bytes."""
    chance = random.Random(rows)
    keys = list(range(1, rows + 1))
    chance.shuffle(keys)
    lines = ["id,pop,name"]
    for key in keys:
        pop = "" if key % 50 == 0 else str(chance.randrange(1_000_000))
        name = chance.choice(NAMES)
        lines.append(f'{key},{pop},"{name}"' if "," in name else f"{key},{pop},{name}")
    (folder / "schema.sql").write_text(SCHEMA)
    table = folder / "t.csv"
    table.write_text("\n".join(lines) + "\n")
    return table.stat().st_size


def sqlite_command() -> list[str]:
    """sqlite3 importing t.csv with its types, an empty field being NULL, and returning rows in key order."""
    script = [
        ".mode csv",
        "CREATE TABLE t (id INTEGER PRIMARY KEY, pop INTEGER, name TEXT);",
        ".import --skip 1 t.csv t",
        "UPDATE t SET pop = NULL WHERE pop = '';",
        ".headers on",
        SEPARATOR,
        QUERY + " ORDER BY id;",
    ]
    return ["sqlite3", ":memory:", *script]


def folders(room: pathlib.Path) -> Iterator[tuple[int, pathlib.Path, int]]:
    """Makes a folder with a table of each size; returns sizes, folders and the bytes of the table."""
    for rows in SIZES:
        folder = pathlib.Path(room) / str(rows)
        folder.mkdir()
        yield rows, folder, make_table(folder, rows)


def table_of_times(room: pathlib.Path, repeats: int) -> Table:
    """The table of times beside `sqlite3`."""
    heads = ["`sfq` wall", "`sqlite3` wall", "ratio", "`sfq` processor", "`sqlite3` processor", "ratio", "growth", "`sfq` peak, MB"]
    table = Table(["rows", "CSV, KB", *heads], ("`sqlite3` wall", "`sqlite3` processor", "ratio"))
    before: Optional[tuple[float, float]] = None
    for rows, folder, size in folders(room):
        ours, theirs = (best(command, folder, repeats) for command in (COMMAND, sqlite_command()))
        if ours[3] != theirs[3]:
            sys.exit(f"at {rows} rows the answers differ in their number of lines")
        cells = [cell for at in (0, 1) for cell in (f"{ours[at]:.3f}", f"{theirs[at]:.3f}", f"{ours[at] / theirs[at]:.2f}")]
        growth = exponent(before, (rows, ours[1]))
        table.add([f"{rows:,}", f"{size / 1024:,.0f}", *cells, growth, f"{ours[2] / 1024:.1f}"])
        before = rows, ours[1]
    return table


def table_of_counts(room: pathlib.Path) -> Table:
    """The table of the instructions of `sfq`."""
    table = Table(["rows", "instructions, in millions", "times the row above"])
    before: Optional[int] = None
    for rows, folder, _ in folders(room):
        counted = instructions(COMMAND, folder)
        table.add([f"{rows:,}", figure(counted / 1e6), f"{counted / before:.1f}" if before else ""])
        before = counted
    return table


def main() -> None:
    parser = argparse.ArgumentParser(description=__doc__.splitlines()[0])
    parser.add_argument("--repeats", type=int, default=5, help="runs of each command (5)")
    parser.add_argument("--instructions", action="store_true", help="count instructions of sfq in place of time")
    options = read_options(parser)
    if not PROGRAM.exists():
        sys.exit("the program isn't built: run ./build")
    if shutil.which("sqlite3") is None:
        sys.exit("sqlite3 isn't installed: apt-get install sqlite3")
    with tempfile.TemporaryDirectory() as name:
        room = pathlib.Path(name)
        table = table_of_counts(room) if options.instructions else table_of_times(room, options.repeats)
    if options.write:
        table.write_into(README)


if __name__ == "__main__":
    main()
