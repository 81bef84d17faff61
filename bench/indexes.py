#!/usr/bin/env python3
"""Measures indexes of envelopes by the C library beside GEOS's STRtree, by `indexes.c`.

1,000, 10,000 and 100,000 envelopes of three kinds are indexed: small ones at random, parcels side by side, and long bands. Then
1,000 windows are asked for, each of which finds some ten. It prints the instructions that valgrind counts, of a search and of
building for each envelope, or with `--time` the nanoseconds of processor, as the least of runs that alternate. Reading the
input and making GEOS's geometries are left out, being what a run with no turns takes.

It needs Python's standard library, valgrind, gcc and `libgeos-dev` from the distribution's packages, and the library: run
`./build --library` once. It is no test: the gate doesn't run it.
"""

import argparse
import math
import pathlib
import random
import sys
import tempfile
from typing import Callable

from peers import build_beside_geos
from timing import README, Table, figure, instructions, measure, read_options

SIZES = (1_000, 10_000, 100_000)
WINDOWS = 1_000
# Coordinates go so far either way.
LIMIT = 10_000_000


def around(chance: random.Random, wide: int, high: int) -> tuple[int, int, int, int]:
    """The bounds of an envelope of this size, somewhere."""
    x, y = chance.randint(-LIMIT, LIMIT - wide), chance.randint(-LIMIT, LIMIT - high)
    return x, x + wide, y, y + high


def small(chance: random.Random, size: int) -> list[tuple[int, int, int, int]]:
    step = int(2 * LIMIT / math.sqrt(size))
    return [around(chance, chance.randint(0, step // 4), chance.randint(0, step // 4)) for _ in range(size)]


def parcels(chance: random.Random, size: int) -> list[tuple[int, int, int, int]]:
    side = math.isqrt(size - 1) + 1
    step = 2 * LIMIT // side
    cells = [(x * step - LIMIT, (x + 1) * step - LIMIT, y * step - LIMIT, (y + 1) * step - LIMIT) for x in range(side) for y in range(side)]
    chance.shuffle(cells)
    return cells[:size]


def bands(chance: random.Random, size: int) -> list[tuple[int, int, int, int]]:
    """Half of them across, half of them up, a tenth of the whole long."""
    return [around(chance, *((LIMIT // 5, 100) if it % 2 else (100, LIMIT // 5))) for it in range(size)]


KINDS = [("small ones", small), ("parcels", parcels), ("bands", bands)]


def write_input(path: pathlib.Path, kind: Callable[[random.Random, int], list[tuple[int, int, int, int]]], size: int) -> None:
    chance = random.Random(size)
    found = kind(chance, size)
    step = int(2 * LIMIT / math.sqrt(size) * 3)
    wide = 2 * LIMIT // size * 50 if kind is bands else step
    found += [around(chance, wide, wide) for _ in range(WINDOWS)]
    path.write_text("\n".join([f"{size} {WINDOWS}", *(" ".join(map(str, it)) for it in found)]) + "\n")


def main() -> None:
    parser = argparse.ArgumentParser(description=__doc__.splitlines()[0])
    parser.add_argument("--time", action="store_true", help="nanoseconds in place of instructions")
    options = read_options(parser, ("time",))
    with tempfile.TemporaryDirectory() as room:
        folder = pathlib.Path(room)
        program, given = build_beside_geos("indexes", folder), folder / "input"

        def output(how: str, turns: int) -> str:
            measure([program, how, turns], folder, given)
            return (folder / "output").read_text()

        def taken(ways: list[str], turns: int) -> list[float]:
            """What a turn takes by each of two ways, which alternate."""
            if not options.time:
                return [(instructions([program, it, turns], folder, given) - instructions([program, it, 0], folder, given)) / turns for it in ways]
            least = [[math.inf, math.inf] for _ in ways]
            for _ in range(5):
                for times, it in zip(least, ways):
                    times[:] = [min(old, measure([program, it, many], folder, given)[1]) for old, many in zip(times, (0, turns))]
            return [(times[1] - times[0]) / turns * 1e9 for times in least]

        table = Table(["envelopes", "what", "found", "`sfq`", "GEOS", "ratio"], ("GEOS", "ratio"))
        for name, kind in KINDS:
            for size in SIZES:
                write_input(given, kind, size)
                for what, count, turns in (("search", WINDOWS, 3), ("build", size, 2)):
                    ways = [what, f"geos_{what}"]
                    found = [output(it, 1) for it in ways]
                    if found[0] != found[1]:
                        sys.exit(f"{name}, {size}: {found[0]} and {found[1]} are found")
                    ours, theirs = (it / count for it in taken(ways, 20 * turns if options.time else turns))
                    each = f"{int(found[0].split()[0]) / WINDOWS:.1f}" if what == "search" else ""
                    table.add([f"{name}, {size:,}", what, each, figure(ours), figure(theirs), f"{ours / theirs:.2g}"])
    if options.write:
        table.write_into(README)


if __name__ == "__main__":
    main()
