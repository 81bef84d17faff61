#!/usr/bin/env python3
"""Measures `sfq pairs` over a file of many pairs of small geometries, beside a C program over GEOS that reads, tests and relates the
same texts.

Each of two geometries is a point, two to four points, a line of two to five positions, or a polygon that is a box or a triangle,
on a grid of 20 by 20, where they touch and cross often. All are valid. For each size it prints a row of a Markdown table: processor
seconds of both, their ratio, the peak memory of `sfq`, and how many lines differ. Times are the least of several runs. With
`--instructions N` it prints how many instructions both take for a pair of N instead, by valgrind, and their ratio.

It needs Python's standard library, gcc and `libgeos-dev` (and `valgrind` for instructions) from the distribution's packages, and the
built program: run ./build. It is no test: the gate doesn't run it.
"""

import argparse
import itertools
import pathlib
import random
import shutil
import subprocess
import sys
import tempfile
from typing import Callable, Sequence

from timing import PROGRAM, README, Table, instructions, measure, read_options

PEER = pathlib.Path(__file__).resolve().parent / "geos_pairs.c"
GRID = 20


def listed(positions: Sequence[tuple[int, int]]) -> str:
    """Positions in parentheses."""
    return "(" + ",".join(f"{x} {y}" for x, y in positions) + ")"


def box(chance: random.Random) -> list[tuple[int, int]]:
    """A ring of four corners."""
    (left, right), (low, high) = (sorted(chance.sample(range(GRID), 2)) for _ in range(2))
    return [(left, low), (right, low), (right, high), (left, high), (left, low)]


def triangle(chance: random.Random, at: Callable[[], tuple[int, int]]) -> list[tuple[int, int]]:
    """A ring of three corners that aren't on one line."""
    while True:
        (ax, ay), (bx, by), (cx, cy) = a, b, c = at(), at(), at()
        if (bx - ax) * (cy - ay) != (by - ay) * (cx - ax):
            return [a, b, c, a]


def draw(chance: random.Random) -> str:
    """The text of a small geometry."""
    def at() -> tuple[int, int]:
        return chance.randrange(GRID), chance.randrange(GRID)

    kind = chance.randrange(5)
    if kind == 0:
        return "POINT" + listed([at()])
    if kind == 1:
        return "MULTIPOINT(" + ",".join(listed([at()]) for _ in range(chance.randint(2, 4))) + ")"
    if kind == 2:
        positions = [at() for _ in range(chance.randint(2, 5))]
        return "LINESTRING" + listed(positions) if len(set(positions)) > 1 else draw(chance)
    return "POLYGON(" + listed(box(chance) if kind == 3 else triangle(chance, at)) + ")"


def write_pairs(path: pathlib.Path, count: int) -> None:
    """Writes a file of so many pairs."""
    chance = random.Random(count)
    with open(path, "w") as out:
        for _ in range(count):
            out.write(f'"{draw(chance)}","{draw(chance)}"\n')


def least(command: Sequence[object], folder: pathlib.Path, repeats: int) -> tuple[float, int, list[str]]:
    """The least processor seconds of several runs, the peak kilobytes, and the lines that it printed."""
    runs = [measure(command, folder) for _ in range(repeats)]
    return min(it[1] for it in runs), max(it[2] for it in runs), (folder / "output").read_text().splitlines()


def main() -> None:
    parser = argparse.ArgumentParser(description=__doc__.split("\n\n")[0])
    parser.add_argument("--sizes", type=int, nargs="+", default=[1_000_000], help="numbers of pairs (1000000)")
    parser.add_argument("--repeats", type=int, default=3, help="runs of each program (3)")
    parser.add_argument("--instructions", type=int, default=0, metavar="N", help="count instructions over N pairs in place of time")
    parser.add_argument("--program", default=str(PROGRAM), help="the program, if it isn't that of ./build")
    options = read_options(parser, ("sizes", "program"))
    if not pathlib.Path(options.program).exists():
        sys.exit("the program isn't built: run ./build")
    if shutil.which("gcc") is None:
        sys.exit("gcc isn't installed: apt-get install gcc libgeos-dev")
    with tempfile.TemporaryDirectory() as name:
        folder = pathlib.Path(name)
        peer, file = folder / "geos_pairs", folder / "pairs.csv"
        subprocess.run(["gcc", "-O2", "-o", str(peer), str(PEER), "-lgeos_c"], check=True)
        ours, theirs = [options.program, "pairs", str(file)], [str(peer), str(file)]
        if options.instructions:
            table = Table(["pairs", "`sfq`, instructions a pair", "GEOS", "ratio"], ("GEOS", "ratio"))
            write_pairs(file, options.instructions)
            counts = [instructions(command, folder) / options.instructions for command in (ours, theirs)]
            table.add([f"{options.instructions:,}", *(f"{it:,.0f}" for it in counts), f"{counts[0] / counts[1]:.2f}"])
        else:
            table = table_of_times(options, ours, theirs, file)
    if options.write:
        table.write_into(README)


def table_of_times(options: argparse.Namespace, ours: Sequence[object], theirs: Sequence[object], file: pathlib.Path) -> Table:
    """The table of times at each size."""
    table = Table(["pairs", "`sfq` s", "GEOS s", "ratio", "`sfq` MB", "lines that differ"])
    for size in options.sizes:
        write_pairs(file, size)
        taken, peak, lines = least(ours, file.parent, options.repeats)
        other, _, wanted = least(theirs, file.parent, options.repeats)
        differing = sum(a != b for a, b in itertools.zip_longest(lines, wanted))
        table.add([f"{size:,}", f"{taken:.2f}", f"{other:.2f}", f"{taken / other:.2f}", f"{peak / 1024:.1f}", f"{differing:,}"])
    return table


if __name__ == "__main__":
    main()
