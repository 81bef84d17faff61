#!/usr/bin/env python3
"""Measures what the benchmarks of GEOS and JTS measure, on shapes like theirs (`peer_shapes.py`), by the C library beside GEOS.

A sine star of 10 to 10,000 positions, or another large shape, is kept and asked for small ones beside it, as `peer_benchmarks.c`
says: whether a predicate holds, for the matrix, or where points lie. Indexes of envelopes are made and searched, and texts read. GEOS
is asked by its C interface, and where it has the call, by its prepared geometries too. The answers are compared first: a difference
ends the program. Then it prints a Markdown table: for each call the instructions that valgrind counts, and the nanoseconds of
processor, as the least of many turns; and the ratios of `sfq` to the best of GEOS. What is made once is left out, but for texts and
for building an index. `--write` writes the table into bench/README.md. `--profile` prints on the standard error where the instructions
go of what takes more than GEOS.

Left out is what `sfq` doesn't have: union, overlays, buffer, hulls, distances and nearest neighbours, noding, simplification,
triangulation, precision; relations of GEOMETRYCOLLECTION; coordinates that aren't whole. And the maps of countries that come with
JTS, in place of which there are cells with waves as borders.

It needs Python's standard library, valgrind, gcc and `libgeos-dev` from the distribution's packages, and the library: run
`./build --library` once. It takes some minutes. It is no test: the gate doesn't run it. Its short form is
tests/test_peer_benchmarks.py.
"""

import argparse
import functools
import os
import pathlib
import subprocess
import sys
import tempfile
from concurrent.futures import ThreadPoolExecutor
from typing import Callable, Mapping, NamedTuple, Sequence

import peer_shapes as shapes
from peers import build_beside_geos
from timing import README, Table, counted_shares, figure, marked, read_options

# Who is asked, by the words of the program. Of relate GEOS's prepared geometries are asked where its version has the call.
ALL, UNPREPARED = ("sfq", "geos", "prepared"), ("sfq", "geos")
ASKED = {
    "intersects": ALL, "contains": ALL, "covers": ALL, "locate": ("sfq", "prepared"), "touches": ALL, "crosses": ALL,
    "relate": ALL, "read": UNPREPARED, "test": UNPREPARED, "build": UNPREPARED, "search": UNPREPARED,
}
POSITIONS = (10, 100, 1_000, 10_000)
ENVELOPES = (1_000, 10_000, 100_000)
# Turns are timed for so many nanoseconds, so often, the engines in turn.
NANOSECONDS, ROUNDS = 20_000_000, 3


class Case(NamedTuple):
    """A kind of shapes: its name, what makes them, the sizes, and what is asked."""

    label: str
    make: Callable[[int], tuple[list[str], list[str]]]
    sizes: tuple[int, ...]
    asked: tuple[str, ...]


CASES = (
    Case("sine star, squares", shapes.star_and_squares, POSITIONS, ("intersects", "contains", "relate")),
    Case("sine star, outlines of stars", shapes.star_and_outlines, POSITIONS, ("intersects",)),
    Case("sine star, sine stars", shapes.star_and_stars, POSITIONS, ("intersects", "covers", "relate")),
    Case("sine star, points", shapes.star_and_points, POSITIONS, ("locate", "contains")),
    Case("outline of a star, outlines", shapes.outline_and_outlines, POSITIONS, ("intersects", "crosses")),
    Case("cell, cells round it", shapes.cells, POSITIONS[1:], ("intersects", "touches")),
    Case("grid of boxes, squares", shapes.boxes_and_squares, POSITIONS[:3], ("intersects", "contains", "relate")),
    Case("grid of lines, sine stars", shapes.grid_lines_and_stars, POSITIONS[:2], ("intersects", "relate")),
    Case("index, grid of boxes", shapes.grid_of_boxes, ENVELOPES, ("build", "search")),
    Case("index, random boxes", shapes.random_boxes, ENVELOPES, ("build", "search")),
    Case("index, random points", shapes.random_points, ENVELOPES, ("build", "search")),
    Case("text of a sine star", shapes.one_star, POSITIONS, ("read", "test")),
    Case("texts of points", shapes.many_points, (1_000,), ("read", "test")),
    Case("text with slanted holes", shapes.slanted_holes, POSITIONS[:3], ("test",)),
)


class Row(NamedTuple):
    """What is measured: a kind of shapes, a size, what is asked, and in which folder the input is."""

    case: Case
    size: int
    asked: str
    folder: pathlib.Path

    @property
    def name(self) -> str:
        return f"{self.case.label}, {self.size:,}, {self.asked}"

    def command(self, program: pathlib.Path, who: str, nanoseconds: int = 0) -> list[str]:
        """The command of one engine."""
        return [str(it) for it in (program, who, self.asked, nanoseconds, self.folder / "input")]


class Measured(NamedTuple):
    """What a row took: the instructions of each engine, and where those of `sfq` go."""

    instructions: dict[str, int]
    shares: list[tuple[str, float]]


def write_input(folder: pathlib.Path, firsts: Sequence[str], others: Sequence[str]) -> None:
    """Writes the input of the program."""
    folder.mkdir(parents=True, exist_ok=True)
    (folder / "input").write_text("\n".join([*firsts, "", *others]) + "\n")


def rows_of(cases: Sequence[Case], room: pathlib.Path, largest: int) -> list[tuple[Row, int]]:
    """The rows of some cases, with their inputs in folders, and how many calls a turn of each has."""
    found = []
    for case in cases:
        for size in case.sizes[:largest]:
            firsts, others = case.make(size)
            folder = room / f"{CASES.index(case)}-{size}"
            write_input(folder, firsts, others)
            calls = {"search": len(others), "build": len(firsts)}
            found += [(Row(case, size, it, folder), calls.get(it, len(firsts) * max(1, len(others)))) for it in case.asked]
    return found


def said(row: Row, program: pathlib.Path, who: str, nanoseconds: int = 0) -> tuple[str, float]:
    """What an engine finds, and the nanoseconds of its least turn."""
    words = row.command(program, who, nanoseconds)
    ran = subprocess.run(words, stdout=subprocess.PIPE, text=True)
    if ran.returncode != 0:
        sys.exit(f"{row.name}: {who} ended with status {ran.returncode}")
    answers, least = ran.stdout.splitlines()
    return answers, float(least)


@functools.lru_cache
def prepares_relate(program: pathlib.Path) -> bool:
    """Whether GEOS has relate of prepared geometries, as the program says that was compiled with it."""
    return subprocess.run([program], stdout=subprocess.PIPE, text=True).stdout.split()[-1:] == ["1"]


def engines_of(row: Row, program: pathlib.Path) -> tuple[str, ...]:
    """Who is asked in a row."""
    return UNPREPARED if row.asked == "relate" and not prepares_relate(program) else ASKED[row.asked]


def check(row: Row, program: pathlib.Path) -> None:
    """Ends the program where the answers of one engine differ from those of another."""
    found = {who: said(row, program, who)[0] for who in engines_of(row, program)}
    for who, answers in found.items():
        if answers != found["sfq"]:
            sys.exit(f"{row.name}: sfq and {who} differ: {found['sfq']} and {answers}")


def counted(row: Row, program: pathlib.Path) -> Measured:
    """The instructions of a turn by each engine."""
    found, room = {}, row.folder / row.asked
    for who in reversed(engines_of(row, program)):
        (room / who).mkdir(parents=True)
        found[who] = marked(row.command(program, who), room / who)
    return Measured(found, counted_shares(room / "sfq"))


def timed(row: Row, program: pathlib.Path) -> dict[str, float]:
    """The nanoseconds of a turn by each engine."""
    rounds = [{who: said(row, program, who, NANOSECONDS)[1] for who in engines_of(row, program)} for _ in range(ROUNDS)]
    return {who: min(it[who] for it in rounds) for who in rounds[0]}


def columns_of(taken: Mapping[str, float], calls: int) -> list[str]:
    """The columns of one unit: what a call takes by each engine, and the ratio to the best of the peers."""
    shown = [figure(taken[who] / calls) if who in taken else "" for who in ALL]
    return [*shown, f"{ratio_of(taken):.2g}"]


def ratio_of(taken: Mapping[str, float]) -> float:
    """What `sfq` takes of what the best of the peers takes."""
    return taken["sfq"] / min(taken[who] for who in taken if who != "sfq")


def options_of() -> argparse.Namespace:
    """The words of the command line."""
    parser = argparse.ArgumentParser(description=__doc__.splitlines()[0])
    parser.add_argument("--only", default="", help="the shapes whose name has this word")
    parser.add_argument("--largest", type=int, default=4, help="how many sizes of each (4)")
    parser.add_argument("--profile", action="store_true", help="where the instructions go of what takes more than GEOS")
    parser.add_argument("--jobs", type=int, default=os.cpu_count(), help="how many counts at once (as many as processors)")
    return read_options(parser, ("only", "largest"))


def main() -> None:
    options = options_of()
    with tempfile.TemporaryDirectory() as name, ThreadPoolExecutor(options.jobs) as pool:
        room = pathlib.Path(name)
        program = build_beside_geos("peer_benchmarks", room)
        rows = rows_of([it for it in CASES if options.only in it.label], room, options.largest)
        list(pool.map(lambda it: check(it[0], program), rows))
        counts = list(pool.map(lambda it: counted(it[0], program), rows))
        units = ["sfq", "GEOS", "prepared", "ratio"]
        table = Table(["shapes", "size", "asked", *units, *(f"{it}, ns" for it in units)], units[1:])
        for (row, calls), found in zip(rows, counts):
            times = timed(row, program)
            table.add([row.case.label, f"{row.size:,}", row.asked, *columns_of(found.instructions, calls), *columns_of(times, calls)])
            if options.profile and ratio_of(found.instructions) > 1:
                behind = ", ".join(f"`{who}` {share:.0f}" for who, share in found.shares[:8])
                print(f"{row.name}: of 100 instructions {behind}", file=sys.stderr, flush=True)
    if options.write:
        table.write_into(README)


if __name__ == "__main__":
    main()
