#!/usr/bin/env python3
"""Measures a database that is loaded once and asked often: by the C library, by `sqlite3` in memory and by GEOS (`databases.c`).

Points with a number each, in a grid of square parcels, are loaded, and then 1,000 windows are asked for, each of which finds
some ten points, 100 numbers, 1,000 keys, and the parcels of each point. Each engine asks by a statement or a tree that it made
before, into which the values are put. Shapes are such that an R*Tree of `sqlite3`, of whole numbers, gives the same answers. It
compares the answers, and prints the instructions that valgrind counts, or with `--time` the microseconds of processor, as the
least of runs that alternate: of a row for loading and the join, else of a window, a number or a key. What comes before the
first turn is left out. With `--profile` it prints on the standard error where the instructions go of what takes more than is
aimed at.

With `--sqlite` it measures loading, windows and the join by `sqlite3` with SQLite's extension, beside `sqlite3` with SpatiaLite and an
R*Tree.

It needs Python's standard library, valgrind, `gcc`, `libgeos-dev` and `libsqlite3-dev` from the distribution's packages, for `--sqlite`
`libsqlite3-mod-spatialite` too, and the library: run `./build --library` once. It is no test: the gate doesn't run it.
"""

import argparse
import math
import pathlib
import random
import subprocess
import sys
import tempfile
from typing import Optional, Sequence

from peers import FOLDER, build_extension
from timing import README, ROOT, Table, counted_shares, figure, marked, measure, read_options

SIZES = (1_000, 10_000, 100_000)
ENGINES = ("sfq", "sqlite", "geos")
BY_SQLITE = ("sfq0", "spatialite")
# What is done, how often in a turn, where that isn't once for each row, and which engines do it.
WINDOWS, FILTERS, KEYS = 1_000, 100, 1_000
Tasks = dict[str, tuple[Optional[int], tuple[str, ...]]]
WHAT: Tasks = {
    "load": (None, ENGINES), "windows": (WINDOWS, ENGINES), "filters": (FILTERS, ENGINES[:2]), "keys": (KEYS, ENGINES[:2]),
    "join": (None, ENGINES),
}
WHAT_BY_SQLITE: Tasks = {"load": (None, BY_SQLITE), "windows": (WINDOWS, BY_SQLITE), "join": (None, BY_SQLITE)}
# The schema of the tables for SQLite's extension, as `databases.c` has it.
SCHEMA = "CREATE TABLE point (id INTEGER PRIMARY KEY, n INTEGER, geom POINT);\nCREATE TABLE parcel (id INTEGER PRIMARY KEY, geom POLYGON);\n"
# How many turns are timed.
TURNS = 5
# How many times what the best takes is aimed at, where that isn't once.
AIMS = {"keys": 2}
# A parcel has sides of so many steps, and some ten points.
SIDE = 1_000


def write_tables(folder: pathlib.Path, size: int) -> None:
    """Points anywhere over a grid of parcels, each with one of the numbers that some ten others have, and windows as large as a parcel."""
    chance = random.Random(size)
    across = max(1, math.isqrt(size // 10))
    most = across * SIDE
    points = [f"{key},{chance.randrange(max(FILTERS, size // 10))},POINT({chance.randint(0, most)} {chance.randint(0, most)})"
              for key in range(size)]
    corners = [(x * SIDE, y * SIDE, (x + 1) * SIDE, (y + 1) * SIDE) for x in range(across) for y in range(across)]
    parcels = [f'{key},"POLYGON(({a} {b},{c} {b},{c} {d},{a} {d},{a} {b}))"' for key, (a, b, c, d) in enumerate(corners)]
    places = [(chance.randint(0, most - SIDE), chance.randint(0, most - SIDE)) for _ in range(WINDOWS)]
    (folder / "point.csv").write_text("\n".join(["id,n,geom", *points]) + "\n")
    (folder / "parcel.csv").write_text("\n".join(["id,geom", *parcels]) + "\n")
    (folder / "schema.sql").write_text(SCHEMA)
    (folder / "windows").write_text("".join(f"{x} {y} {x + SIDE} {y + SIDE}\n" for x, y in places))


def built(folder: pathlib.Path) -> pathlib.Path:
    """Compiles the program over the libraries, and returns its path."""
    library = ROOT / "bindings" / "c" / "out" / "libsfq_tables.a"
    if not library.exists():
        sys.exit("the library isn't there: run ./build --library once")
    program = folder / "databases"
    words = ["gcc", "-O2", "-Wall", "-o", program, FOLDER / "databases.c", f"-I{ROOT}/bindings/c", library, "-lgeos_c", "-lsqlite3"]
    subprocess.run([str(it) for it in words], check=True)
    return program


def main() -> None:
    parser = argparse.ArgumentParser(description=__doc__.splitlines()[0])
    parser.add_argument("what", nargs="*", help=f"what is measured, of {', '.join(WHAT)}: all of it, if nothing is named")
    parser.add_argument("--time", action="store_true", help="microseconds in place of instructions")
    parser.add_argument("--profile", action="store_true", help="where the instructions go of what takes more than is aimed at")
    parser.add_argument("--sqlite", action="store_true", help="by sqlite3 with the extension sfq0, beside SpatiaLite")
    options = read_options(parser, ("what", "time", "sqlite"))
    known = WHAT_BY_SQLITE if options.sqlite else WHAT
    if not known.keys() >= set(options.what):
        parser.error(f"what is measured is of {', '.join(known)}")
    with tempfile.TemporaryDirectory() as room:
        folder = pathlib.Path(room)
        program = built(folder)
        extensions = {"sfq0": build_extension(folder), "spatialite": "mod_spatialite"} if options.sqlite else {}

        def words(engine: str, what: str, turns: int) -> list[object]:
            return [program, engine, what, turns, folder, *([extensions[engine]] if engine in extensions else [])]

        def timed(engines: Sequence[str], what: str) -> list[float]:
            """What a turn takes by each engine, which alternate."""
            least = {it: [math.inf, math.inf] for it in engines}
            for _ in range(5):
                for it, times in least.items():
                    times[:] = [min(old, measure(words(it, what, many), folder)[1]) for old, many in zip(times, (0, TURNS))]
            return [(least[it][1] - least[it][0]) / TURNS * 1e6 for it in engines]

        peers = ["SpatiaLite"] if options.sqlite else ["`sqlite3`", "GEOS"]
        table = Table(["by SQLite" if options.sqlite else "what", "rows", "found", "sfq0" if options.sqlite else "`sfq`", *peers, "to the best"], (*peers, "to the best"))
        for what in options.what or known:
            count, engines = known[what]
            for size in SIZES:
                write_tables(folder, size)
                said, behind = [], ""
                for it in engines if what != "load" else ():
                    measure(words(it, what, 1), folder)
                    said.append((folder / "output").read_text())
                if len(set(said)) > 1:
                    sys.exit(f"{what}, {size}: {said}")
                # The last one that is counted is ours, of which callgrind's file says where its instructions go.
                counts = [] if options.time else [marked(words(it, what, 1), folder) for it in reversed(engines)]
                taken = counts[::-1] or timed(engines, what)
                each = [it / (count or size) for it in taken]
                found = f"{int(said[0].split()[0]) / (count or size):.3g}" if said else ""
                ratio = each[0] / min(each[1:])
                if counts and (ratio > AIMS.get(what, 1) or options.sqlite):
                    behind = ", ".join(f"`{name}` {share:.0f}" for name, share in counted_shares(folder)[:8])
                table.add([what, f"{size:,}", found, *map(figure, each), *[""] * (len(peers) + 1 - len(each)), f"{ratio:.2g}"])
                if behind and options.profile:
                    print(f"{what}: of 100 instructions {behind}", file=sys.stderr, flush=True)
    if options.write:
        table.write_into(README)


if __name__ == "__main__":
    main()
