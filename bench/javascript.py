#!/usr/bin/env python3
"""Measures points in a kept polygon, and two kept polygons, by the package for JavaScript in Node beside the C library.

The shapes and the calls are those of `prepared.py`. Per call it prints the nanoseconds of processor time of both and their ratio; reading and keeping
are left out. It needs Node, gcc and `libgeos-dev` from the distribution's packages, and what `./build --library` and
`./build --javascript` make. It is no test: the gate doesn't run it.
"""

import argparse
import pathlib
import shutil
import subprocess
import sys
import tempfile

from peers import build_beside_geos
from prepared import MOVED, POINTS, SIZES, beyond_start, write_input, write_two
from timing import README, ROOT, Table, figure, measure, read_options

PACKAGE = ROOT / "bindings" / "javascript" / "out" / "sfq"
# A measure has so many turns at most, and takes this long at least, in seconds.
MOST_TURNS, LEAST_SECONDS = 1_000_000, 0.1
# What is asked of positions, by the words of prepared.c.
ASKED = {"position, intersects": "locate", "point, intersects": "holds", "point, contains": "contains"}


def native(program: pathlib.Path, folder: pathlib.Path, given: pathlib.Path, how: str, count: int) -> tuple[float, int, str]:
    """Returns the nanoseconds of a call of the C library, how many turns that took, and what it prints."""
    def seconds(turns: int) -> float:
        return min(measure([program, how, turns], folder, given)[1] for _ in range(3))

    turns = 100
    while turns < MOST_TURNS and seconds(turns) < LEAST_SECONDS:
        turns *= 10
    taken = beyond_start(seconds, turns, count) * 1e9
    measure([program, how, 1], folder, given)
    return taken, turns, (folder / "output").read_text()


def in_node(given: pathlib.Path, how: str, turns: int) -> tuple[float, str]:
    """Returns the nanoseconds of a call of the package, and what it prints."""
    words = ["node", str(ROOT / "bench" / "javascript.mjs"), str(PACKAGE), how, str(turns), str(given)]
    found, nanoseconds = subprocess.run(words, capture_output=True, text=True, check=True).stdout.splitlines()
    return float(nanoseconds), f"{found}\n"


def main() -> None:
    options = read_options(argparse.ArgumentParser(description=__doc__.splitlines()[0]))
    if not PACKAGE.exists() or shutil.which("node") is None:
        sys.exit("the package isn't there, or Node: run ./build --javascript once; apt-get install nodejs")
    with tempfile.TemporaryDirectory() as room:
        folder = pathlib.Path(room)
        program, given = build_beside_geos("prepared", folder), folder / "input"
        table = Table(["asked", "positions", "C", "Node", "ratio"])

        def compare(what: str, size: int, how: str, count: int) -> None:
            ours, turns, found = native(program, folder, given, how, count)
            theirs, shown = in_node(given, how, turns)
            if found != shown:
                sys.exit(f"{what}, {size} positions: {found} and {shown} are found")
            table.add([what, f"{size:,}", figure(ours), figure(theirs), f"{theirs / ours:.2f}"])

        for what, how in ASKED.items():
            for size in SIZES:
                write_input(given, size)
                compare(what, size, how, POINTS)
        for what, by in MOVED:
            for how in ("meet", "relate"):
                for size in SIZES:
                    write_two(given, size, by)
                    compare(f"stars that {what}, {how}", size, how, 1)
    if options.write:
        table.write_into(README)


if __name__ == "__main__":
    main()
