#!/usr/bin/env python3
"""Measures points in a kept polygon, and two kept polygons, by the C library beside GEOS's prepared geometries, by `prepared.c`.

A polygon of 5, 100, 1,000 and 9,999 positions is read, tested and kept once. Then 1,000 positions around it are asked for:
whether each intersects it, and whether it contains, covers or contains properly each. Per position it prints the instructions that valgrind counts, or with
`--time` the nanoseconds of processor; reading, testing and keeping are left out, being what a run with no turns takes. Then
two stars that cross, and two that are apart while their envelopes meet, are asked for whether they intersect and for their matrix.

It needs Python's standard library, valgrind, gcc and `libgeos-dev` from the distribution's packages, and the library: run
`./build --library` once. It is no test: the gate doesn't run it.
"""

import argparse
import pathlib
import random
import sys
import tempfile
from typing import Callable, Sequence

from areas import SPAN, ring, star
from peers import build_beside_geos
from timing import README, Table, figure, instructions, measure, read_options

SIZES = (5, 100, 1_000, 9_999)
# Two stars: what they are, and by how much one of them is moved either way.
MOVED = [("cross", SPAN // 3), ("are apart", SPAN * 29 // 20)]
POINTS = 1_000
# What is asked, by the library and by GEOS.
ASKED = [
    ("position, intersects", "locate", "geos"), ("point, intersects", "holds", "geos"), ("point, contains", "contains", "geos_contains"),
    ("point, covers", "covers", "geos_covers"), ("point, contains properly", "properly", "geos_properly"),
]


def write_input(path: pathlib.Path, size: int) -> None:
    """Writes a polygon of so many positions, its closing one counted, and the positions that are asked for."""
    chance = random.Random(size)
    lines = [f"POLYGON({ring(star(size - 1)[0])})"]
    lines += [f"{chance.randint(-SPAN, SPAN)} {chance.randint(-SPAN, SPAN)}" for _ in range(POINTS)]
    path.write_text("\n".join(lines) + "\n")


def write_two(path: pathlib.Path, size: int, by: int) -> None:
    """Writes two stars of so many positions, one of them moved."""
    first, second = ([(x + to, y + to) for x, y in star(size - 1)[0]] for to in (0, by))
    path.write_text("".join(f"POLYGON({ring(it)})\n" for it in (first, second)))


def beyond_start(run: Callable[[int], float], turns: int, count: int = POINTS) -> float:
    """What one turn takes for each position."""
    return (run(turns) - run(0)) / turns / count


def main() -> None:
    parser = argparse.ArgumentParser(description=__doc__.splitlines()[0])
    parser.add_argument("--time", action="store_true", help="nanoseconds in place of instructions")
    options = read_options(parser, ("time",))
    with tempfile.TemporaryDirectory() as room:
        folder = pathlib.Path(room)
        program, given = build_beside_geos("prepared", folder), folder / "input"

        def compare(table: Table, what: Sequence[str], size: int, ways: Sequence[str], count: int, turns: int) -> None:
            taken, found = [], []
            for how in ways:
                def seconds(turns: int) -> float:
                    return min(measure([program, how, turns], folder, given)[1] for _ in range(3))

                if options.time:
                    taken.append(beyond_start(seconds, turns, count) * 1e9)
                else:
                    taken.append(beyond_start(lambda turns: instructions([program, how, turns], folder, given), 2, count))
                measure([program, how, 1], folder, given)
                found.append((folder / "output").read_text())
            if found[0] != found[1]:
                sys.exit(f"{', '.join(what)}, {size} positions: {found[0]} and {found[1]} are found")
            table.add([*what, f"{size:,}", *map(figure, taken), f"{taken[0] / taken[1]:.2g}"])

        columns = ["positions", "`sfq`", "GEOS", "ratio"]
        points = Table(["asked", *columns], columns[2:])
        for what, ours, theirs in ASKED:
            for size in SIZES:
                write_input(given, size)
                compare(points, [what], size, (ours, theirs), POINTS, 300)
        print()
        stars = Table(["stars", "asked", *columns], columns[2:])
        for what, by in MOVED:
            for how, asked in ("meet", "intersects"), ("relate", "relate"):
                for size in SIZES:
                    write_two(given, size, by)
                    compare(stars, [what.removeprefix("are "), asked], size, (how, f"geos_{how}"), 1, 200)
    if options.write:
        for it in points, stars:
            it.write_into(README)


if __name__ == "__main__":
    main()
