#!/usr/bin/env python3
"""Measures `sfq` on bad inputs: shapes and tables within the limits on which an engine may be slow, at a size and at twice that.

Geometries (`bad_shapes.py`) are given to `sfq relate` or `sfq check`, and joins (`bad_tables.py`) to `sfq run`. Beside it run the
peers that are there: GEOS (`geos_peer.c`, `geos_tables.c`), SpatiaLite with an R*-tree, and `sqlite3` for joins without a geometry.
It prints a Markdown table: the size, the processor time of `sfq` at it and at twice that, the exponent by which the time grows, the
best peer at twice the size and its time, the ratio, and the greatest memory of `sfq`. Times are the least of some runs, start-up left
out. A run that takes more than a limit of processor seconds is broken off, and shown as more than that.

Under `--instructions` it counts the instructions of `sfq` alone, by valgrind, at a small size and twice that. The inputs are the same
each time. With `--bounds` it writes beside each input the bound that its growth has in the test.

Under `--profile` it takes the inputs on which a time grows with the square of a size. It prints their processor seconds at a limit,
and which functions take how many of a hundred instructions at a small size. `--write` writes the table of times or of profiles into
bench/README.md.

It needs Python's standard library and the built program (run ./build, or name another by `--program`); for the peers the
distribution's packages `gcc`, `libgeos-dev`, `sqlite3` and `libsqlite3-mod-spatialite`; and for `--instructions` `valgrind`. It is no
test: the gate doesn't run it. Its short form is tests/test_worst.py.
"""

import argparse
import os
import pathlib
import re
import shutil
import subprocess
import sys
import tempfile
from concurrent.futures import ThreadPoolExecutor
from typing import Any, Callable, Iterator, NamedTuple, Optional, Sequence, TypeVar, Union

import bad_shapes as shapes
import bad_tables as tables
from joins import commands as spatial_commands
from peers import SHAPES, TABLES, compiled
from timing import PROGRAM, README, Table, exponent, figure, instructions, read_options, probe, shares


Made = TypeVar("Made")

# The size at which the first input of a kind takes little more than start-up.
SMALLEST = 4
# What a bound is above the exponent that was counted.
MARGIN = 0.12


class Input(NamedTuple):
    """A bad input: what makes it, its size, at which it is measured and at twice which, a small size at which it is counted, and
    how fast its instructions may grow: the exponent from the small size to twice that, with a margin, or None where it isn't
    measured yet. Lower it where that falls."""

    label: str
    make: Callable[[int], Any]
    size: int
    small: int
    bound: Optional[float] = None


# What `sfq relate` is given.
PAIRS = (
    Input("to and fro on one line, to itself", shapes.to_and_fro, 500, 2_500, 1.12),
    Input("to and fro on an upright line, to itself", shapes.to_and_fro_upright, 500, 5_000, 1.12),
    Input("scribble to itself", shapes.scribble, 500, 320, 1.12),
    Input("scribble and it backwards", shapes.scribble_reversed, 500, 320, 1.12),
    Input("two scribbles", shapes.two_scribbles, 4_000, 200, 1.83),
    Input("random segments to themselves", shapes.random_segments, 500, 240, 1.13),
    Input("street grid to itself", shapes.street_grid, 500, 240, 1.20),
    Input("cross-mown field to itself", shapes.cross_mown, 2_000, 400, 1.22),
    Input("line along a polygon's edge", shapes.along_edge, 2_000, 100, 1.18),
    Input("line of short steps along an edge", shapes.along_edge_step_by_step, 4_000, 200, 1.12),
    Input("points to themselves, shuffled", shapes.points_shuffled, 4_500, 400, 1.23),
    Input("points in squares in no order", shapes.points_in_shuffled_squares, 500, 200, 1.30),
    Input("one point listed often, to itself", shapes.points_equal, 4_500, 400, 1.18),
    Input("points on an upright line, shuffled", shapes.points_on_upright, 4_500, 400, 1.25),
    Input("points to other points", shapes.points_apart, 4_500, 400, 1.23),
    Input("points of a scribble, and it", shapes.points_of_scribble, 4_500, 200, 1.87),
    Input("points in a spiral, and it", shapes.points_in_spiral, 4_000, 200, 1.96),
    Input("zigzag polygon to itself", shapes.zigzag_twice, 2_000, 120, 1.23),
    Input("zigzag lines side by side", shapes.zigzags_beside, 2_000, 200, 1.21),
    Input("equal stars, other start", shapes.equal_stars, 4_500, 200, 1.22),
    Input("ring of a star, and the star", shapes.ring_and_star, 4_500, 200, 1.21),
    Input("spiral to itself", shapes.spiral_twice, 4_000, 200, 1.90),
    Input("nested frames to themselves", shapes.nested_frames_twice, 500, 30, 1.85),
    Input("odd spokes and them backwards", shapes.odd_spokes, 499, 122, 1.16),
    Input("hatches that don't meet", shapes.hatches, 500, 60, 1.67),
    Input("hatches that cross", shapes.hatches_across, 500, 60, 1.75),
    Input("combs askew, into one another", shapes.combs_askew, 2_000, 200, 1.16),
    Input("combs across one another", shapes.combs_across, 500, 60, 1.12),
    Input("line back to one point, and its spokes", shapes.one_point_often, 900, 160, 1.18),
    Input("square cut often, and the square", shapes.cut_square, 4_500, 200, 1.16),
    Input("half rounds of one ring", shapes.loops_of_one_ring, 4_000, 2_000, 1.12),
    Input("long lines over stretches of one line", shapes.long_over_stretches, 500, 120, 1.12),
    Input("teeth on one long edge", shapes.teeth_on_one_edge, 4_900, 300, 1.19),
    Input("tips of a saw to tips of another", shapes.tips_to_tips, 4_900, 300, 1.12),
    Input("a line over all teeth of a comb", shapes.teeth_under_one_edge, 4_900, 300, 1.16),
    Input("stairs that cross at each step", shapes.stairs_across, 4_900, 300, 1.20),
    Input("points on the sides of a square", shapes.points_on_sides, 4_500, 300, 1.23),
    Input("squares that touch in their corners", shapes.corners_to_corners, 499, 60, 1.27),
    Input("a point in each hole", shapes.points_in_holes, 499, 60, 1.26),
    Input("closed lines round one point, to themselves", shapes.rings_round_one_point, 499, 60, 1.95),
    Input("spirals that touch all along", shapes.spirals_along, 4_000, 400, 1.81),
    Input("one position again and again", shapes.one_position_again, 4_900, 400, 1.25),
    Input("nested chevrons to themselves", shapes.nested_chevrons_twice, 499, 30, 2.04),
    Input("thin holes to themselves", shapes.thin_holes_twice, 499, 60, 1.76),
    Input("comb of chevrons, and upright rows across it", shapes.chevron_comb_and_rows, 800, 60, 2.01),
    Input("comb of chevrons and rows, both backwards", shapes.chevron_comb_and_rows_backwards, 800, 60, 2.00),
    Input("the rows, and the comb of chevrons", shapes.rows_and_chevron_comb, 800, 60, 2.00),
    Input("nested chevrons, and upright streets across them", shapes.nested_chevrons_and_streets, 499, 60, 2.03),
    Input("nested chevrons and streets, both backwards", shapes.nested_chevrons_and_streets_backwards, 499, 60, 2.03),
    Input("level comb, and upright rows through its teeth", shapes.level_comb_and_rows, 1_200, 60, 1.54),
    Input("spiral, and upright streets across it", shapes.spiral_and_streets, 499, 60, 1.81),
    Input("spiral and streets, both backwards", shapes.spiral_and_streets_backwards, 499, 60, 1.81),
    Input("nested frames, and upright bars across them", shapes.nested_frames_and_bars, 249, 40, 1.92),
    Input("one edge, and nested chevrons as lines", shapes.edge_and_chevrons, 499, 100, 1.20),
    Input("one edge and chevrons, both backwards", shapes.edge_and_chevrons_backwards, 499, 100, 1.20),
    Input("one edge, and a scribble", shapes.edge_and_scribble, 5_000, 400, 1.18),
    Input("one edge, and a spiral askew", shapes.edge_and_spiral_askew, 4_000, 400, 2.02),
    Input("a point, and closed lines round it", shapes.point_in_closed_lines, 499, 60, 1.20),
    Input("a short line, and closed lines round it", shapes.line_in_closed_lines, 499, 60, 1.18),
    Input("chevrons, and lines that touch stubs end to end", shapes.chevrons_and_touching_lines, 249, 40, 1.42),
    Input("chevrons and touching lines, both backwards", shapes.chevrons_and_touching_lines_backwards, 249, 40, 1.41),
    Input("level lines, and to and fro through their ends", shapes.level_lines_and_upright, 499, 60, 1.87),
)

# What `sfq check` is given.
SINGLES = (
    Input("validity of a zigzag polygon", shapes.zigzag, 4_990, 250, 1.19),
    Input("validity of a ragged star", shapes.ragged_star, 4_990, 400, 1.32),
    Input("validity of thin holes", shapes.thin_holes, 499, 60, 1.96),
    Input("validity of holes of almost one box", shapes.holes_of_one_box, 499, 60, 1.96),
    Input("validity of thin polygons", shapes.thin_polygons, 499, 60, 1.96),
    Input("validity of nested chevrons", shapes.nested_chevrons, 499, 60, 2.03),
    Input("validity of nested frames", shapes.nested_frames, 499, 60, 1.88),
    Input("validity of L-shapes in one another", shapes.ells, 499, 80, 1.24),
    Input("validity of L-shaped holes in one another", shapes.holes_of_ells, 499, 80, 1.37),
    Input("validity of a spiral", shapes.spiral, 4_000, 400, 1.86),
    Input("validity of a spiral askew", shapes.spiral_askew, 4_000, 250, 2.02),
    Input("validity of holes in a spiral", shapes.holes_in_spiral, 499, 60, 1.93),
    Input("numbers of many zeros", shapes.long_numbers, 80_000, 10_000, 1.13),
    Input("blanks between words", shapes.blanks, 80_000, 10_000, 1.13),
)

# What `sfq check` refuses.
FAULTY = (
    Input("zigzag polygon that crosses itself at its end", shapes.zigzag_that_crosses, 4_990, 250, 1.12),
    Input("thin holes, of which the last two touch", shapes.holes_of_which_two_touch, 499, 60, 1.96),
    Input("thin polygons, of which the last two touch", shapes.polygons_of_which_two_touch, 499, 60, 1.96),
)

# Of these two tables are joined by a geometry.
SPATIAL = (
    Input("points in squares", tables.uniform, 50_000, 500, 1.12),
    Input("a tenth NULL", tables.null_tenth, 25_000, 500, 1.12),
    Input("a third NULL", tables.null_third, 10_000, 300, 1.21),
    Input("half of the first table NULL", tables.null_half_of_first, 10_000, 300, 1.16),
    Input("half of the second table NULL", tables.null_half_of_second, 10_000, 300, 1.17),
    Input("all NULL", tables.null_all, 5_000, 200, 1.28),
    Input("a third EMPTY", tables.empties, 10_000, 300, 1.82),
    Input("north-south band", tables.north_south_band, 50_000, 600, 1.15),
    Input("east-west band", tables.east_west_band, 50_000, 600, 1.13),
    Input("diagonal band", tables.diagonal_band, 50_000, 600, 1.13),
    Input("long level lines", tables.level_lines, 25_000, 1_000, 1.14),
    Input("long upright lines", tables.upright_lines, 25_000, 1_000, 1.14),
    Input("a wide line in every eighth row", tables.giants_among_dwarfs, 25_000, 400, 1.12),
    Input("all envelopes equal", tables.equal_envelopes, 500, 40, 2.09),
    Input("parallel lines askew", tables.lines_askew, 1_000, 50, 2.08),
    Input("rings round one point", tables.concentric, 1_000, 30, 2.02),
    Input("keys against the order", tables.keys_against_order, 50_000, 500, 1.14),
    Input("COUNT(*) of equal points", tables.count_of_equal_points, 1_000, 60, 2.06),
    Input("LIMIT 1 of equal points", tables.limit_of_equal_points, 1_000, 60, 2.07),
    Input("LIMIT 1000 of equal points", tables.limit_of_a_thousand, 1_000, 60, 2.08),
    Input("points on a scribble", tables.points_on_scribble, 5_000, 200, 1.86),
    Input("short lines and one star", tables.short_lines_and_star, 4_900, 300, 1.24),
    Input("small squares and one star", tables.small_squares_and_star, 4_900, 300, 1.21),
    Input("small squares and one line", tables.small_squares_and_line, 4_900, 300, 1.17),
    Input("lines over 70 teeth of one zigzag", tables.lines_over_teeth, 4_900, 150, 1.12),
    Input("lines over most of one star", tables.lines_over_star, 2_000, 100, 1.27),
    Input("small squares and one MULTIPOINT", tables.squares_and_points, 4_900, 150, 1.41),
    Input("small squares and short lines in one", tables.squares_and_ends, 500, 50, 1.72),
    Input("small squares and an upright side", tables.squares_and_upright_side, 4_900, 100, 1.21),
    Input("points and one polygon of many holes", tables.points_and_holes, 499, 100, 1.15),
    Input("20 lines of one edge, and one scribble", tables.edges_and_scribble, 5_000, 400, 1.12),
    Input("30 points, and closed lines round them", tables.points_in_closed_lines, 499, 60, 1.12),
    Input("points, and 1,000 closed lines side by side", tables.points_beside_closed_lines, 4_000, 200, 1.12),
    Input("points, and a square whose first side is upright", tables.points_and_upright_side, 4_900, 300, 1.12),
    Input("one square in every row", tables.equal_squares, 1_000, 30, 2.10),
    Input("one point in every row, and equal numbers", tables.one_point_and_numbers, 5_000, 200, 1.17),
    Input("one point in every row, each number in 65", tables.one_point_and_frequent_numbers, 2_600, 260, 1.71),
    Input("two predicates, of which the second tells rows apart", tables.second_predicate, 700, 60, 2.07),
    Input("other numbers, or a predicate", tables.predicate_or_number, 150, 30, 1.33),
    Input("a predicate of a constant, for each partner", tables.constant_and_number, 2_000, 100, 1.12),
    Input("NULL in every row, behind a predicate that counts", tables.nulls_behind_predicate, 500, 60, 2.06),
)

# Of these two tables are joined by a number or a text.
PLAIN = (
    Input("equal INTEGERs", tables.equal_numbers, 5_000, 100, 1.21),
    Input("equal TEXTs", tables.equal_texts, 5_000, 100, 1.21),
    Input("equal long TEXTs", tables.equal_long_texts, 2_500, 240, 1.16),
    Input("TEXTs, and equal texts of geometries", tables.text_of_inner_geometry, 2_500, 100, 1.21),
    Input("dimensions of geometries, and INTEGERs", tables.dimension_of_outer_geometry, 2_500, 100, 1.21),
    Input("equal TEXTs of quotes", tables.texts_of_quotes, 2_500, 240, 1.17),
    Input("equal keys", tables.equal_keys, 5_000, 100, 1.14),
    Input("a key equal to a column", tables.key_and_number, 5_000, 100, 1.21),
    Input("one value in every row, and TEXTs", tables.one_value_and_texts, 2_500, 100, 1.19),
    Input("equality or equality", tables.one_equality_or_other, 2_500, 100, 2.06),
    Input("equality by two orders", tables.equality_by_order, 2_500, 100, 2.02),
    Input("a condition on each table", tables.one_row_of_each, 5_000, 100, 1.13),
    Input("eight TEXTs in all rows", tables.few_texts, 5_000, 400, 1.32),
    Input("equality where all are NULL", tables.no_numbers, 5_000, 100, 1.13),
    Input("IS NOT NULL before an equality of texts", tables.texts_behind_null, 2_500, 100, 1.20),
    Input("OR before an equality of texts", tables.texts_behind_or, 2_500, 100, 1.16),
    Input("NOT before an equality of texts", tables.texts_behind_not, 2_500, 100, 1.20),
    Input("five equalities, of which the fifth tells rows apart", tables.fifth_equality, 2_500, 100, 1.18),
    Input("two equalities, each pair of values in one row", tables.pairs_of_values, 5_000, 400, 1.12),
    Input("two equalities, a code that most rows lack and a flag", tables.missing_codes, 2_500, 100, 1.29),
    Input("a condition on the second table alone", tables.one_row_of_second, 2_500, 100, 1.14),
    Input("an OR of one table, and an order of two columns", tables.some_of_first, 2_500, 100, 1.12),
    Input("a key equal to one column or another", tables.one_key_or_other, 1_500, 100, 1.13),
    Input("a key between two columns", tables.keys_between, 1_500, 100, 1.15),
    Input("keys downwards", tables.keys_downwards, 50_000, 1_000, 1.14),
    Input("the first pairs of all", tables.first_pairs, 5_000, 400, 1.16),
    Input("the first pairs whose numbers ascend", tables.first_ordered_pairs, 5_000, 400, 1.16),
    Input("the first pairs of equal numbers", tables.first_equal_pairs, 5_000, 400, 1.20),
)

# What no peer can be asked.
ALONE = (
    Input("many predicates, each of which can drive a probe", tables.many_predicates, 390, 60, 1.69),
    Input("many conditions, and an OR of many", tables.many_comparisons, 1_100, 200, 1.74),
    Input("many names in a header", tables.many_names, 49_000, 2_000, 1.20),
    Input("predicates of a constant, and of both tables", tables.constants_and_predicates, 330, 60, 1.80),
    Input("many items of one long text", tables.one_long_text, 500, 100, 1.12),
    Input("many items of one row", tables.many_items, 4_600, 600, 1.20),
)

ALL = PAIRS + SINGLES + FAULTY + SPATIAL + PLAIN + ALONE

# What still takes a time that grows with the square of a size, and the size of which its time is shown: that of the limit, or for
# rows beside one large geometry that of its positions.
QUADRATIC = {
    "two scribbles": 10_000,
    "points of a scribble, and it": 10_000,
    "points in a spiral, and it": 8_000,
    "spiral to itself": 8_000,
    "spirals that touch all along": 8_000,
    "nested frames to themselves": 1_000,
    "hatches that don't meet": 1_000,
    "hatches that cross": 1_000,
    "closed lines round one point, to themselves": 1_000,
    "nested chevrons to themselves": 1_000,
    "thin holes to themselves": 999,
    "validity of thin holes": 999,
    "validity of nested chevrons": 1_000,
    "validity of nested frames": 1_000,
    "validity of a spiral askew": 8_000,
    "validity of holes in a spiral": 999,
    "points on a scribble": 10_000,
    "lines over most of one star": 5_000,
    "small squares and one MULTIPOINT": 10_000,
    "small squares and short lines in one": 10_000,
    "small squares and an upright side": 9_995,
}

# The status of a fault in a table's data.
FAULT = 4


def start_of(bad: Input) -> Input:
    """The input whose smallest size gives the start-up of a command."""
    return next(kind[0] for kind in (PAIRS, SINGLES + FAULTY, SPATIAL, PLAIN + ALONE) if bad in kind)


class Run(NamedTuple):
    """A command, the file on its standard input, and the status that it ends with."""

    command: Sequence[object]
    given: str = os.devnull
    status: int = 0


class Peers:
    """The peers that are there; GEOS is compiled here."""

    def __init__(self, folder: pathlib.Path) -> None:
        self.sqlite = has_spatialite()
        self.geos, self.geos_tables = (compiled(source, folder, "-lgeos_c") for source in (SHAPES, TABLES))

    def name_lacking(self, is_written: bool) -> "Peers":
        """Says which are left out, and ends the program where the table is to be written."""
        lacking = [] if self.geos and self.geos_tables else ["GEOS is left out: apt-get install gcc libc6-dev libgeos-dev"]
        if not self.sqlite:
            lacking.append("sqlite3 and SpatiaLite are left out: apt-get install sqlite3 libsqlite3-mod-spatialite")
        if lacking and is_written:
            sys.exit("; ".join(lacking))
        for it in lacking:
            print(it, file=sys.stderr)
        return self


def has_spatialite() -> bool:
    """Whether `sqlite3` is there, and loads SpatiaLite."""
    return shutil.which("sqlite3") is not None and subprocess.run(
        ["sqlite3", ":memory:", ".load mod_spatialite"], stdout=subprocess.DEVNULL, stderr=subprocess.DEVNULL).returncode == 0


def runs_of(bad: Input, size: int, folder: pathlib.Path, program: Union[str, pathlib.Path], peers: Optional[Peers]) -> dict[str, Run]:
    """Makes an input at a size in a folder, and returns what each program runs there, `sfq` first."""
    made = bad.make(size)
    if bad in PAIRS:
        return runs_of_pair(made, folder, program, peers)
    if bad in SINGLES + FAULTY:
        return runs_of_single(made, folder, program, peers, FAULT if bad in FAULTY else 0)
    return runs_of_tables(made, folder, program, peers)


def runs_of_pair(texts: tuple[str, str], folder: pathlib.Path, program: Union[str, pathlib.Path], peers: Optional[Peers]) -> dict[str, Run]:
    """The matrix of two geometries."""
    (folder / "input").write_text("\n".join(texts) + "\n")
    runs = {"sfq": Run([program, "relate", *texts])}
    if peers and peers.geos:
        runs["GEOS"] = Run([peers.geos, "relate", "0"], "input")
    return runs


def runs_of_single(text: str, folder: pathlib.Path, program: Union[str, pathlib.Path], peers: Optional[Peers], status: int) -> dict[str, Run]:
    """The validity of a geometry; the status that sfq ends with."""
    (folder / "input").write_text(text + "\n")
    (folder / "schema.sql").write_text("CREATE TABLE one (id INTEGER PRIMARY KEY, geom GEOMETRY);\n")
    (folder / "one.csv").write_text(f'id,geom\n1,"{text}"\n')
    runs = {"sfq": Run([program, "check", "schema.sql", "."], status=status)}
    if peers and peers.geos:
        runs["GEOS"] = Run([peers.geos, "check", "1"], "input")
    return runs


def runs_of_tables(made: tables.Tables, folder: pathlib.Path, program: Union[str, pathlib.Path], peers: Optional[Peers]) -> dict[str, Run]:
    """The rows of a query over two tables."""
    names = ",".join([*(column.split()[0] for column in made.columns.split(", ")), *made.ignored])
    columns = f"(id INTEGER PRIMARY KEY, {made.columns})"
    (folder / "schema.sql").write_text(f"CREATE TABLE first {columns};\nCREATE TABLE second {columns};\n")
    for table, rows in ("first", made.first), ("second", made.second):
        keys = range(len(rows), 0, -1) if made.is_descending else range(1, len(rows) + 1)
        lines = (f"{key},{row}\n" for key, row in zip(keys, rows))
        (folder / f"{table}.csv").write_text(f"id,{names}\n" + "".join(lines))
    runs = {"sfq": Run([program, "run", "schema.sql", ".", made.query])}
    if peers is None or made.predicate is None:
        return runs
    return runs | (peers_of_join(made, peers) if made.predicate else peers_of_query(made, columns, peers))


def peers_of_join(made: tables.Tables, peers: Peers) -> dict[str, Run]:
    """The peers of a join by a predicate of geometries, which print all its pairs."""
    given = spatial_commands(str(peers.geos_tables), str(made.predicate), "second")
    there = {"SpatiaLite": peers.sqlite and given["spatialite"], "GEOS": peers.geos_tables and given["geos"]}
    return {who: Run(command) for who, command in there.items() if command}


def peers_of_query(made: tables.Tables, columns: str, peers: Peers) -> dict[str, Run]:
    """The peer of a query without a geometry."""
    if not peers.sqlite:
        return {}
    script = [".mode csv"]
    for table in "first", "second":
        script += [f"CREATE TABLE {table} {columns};", f".import --skip 1 {table}.csv {table}"]
        script.append(f"UPDATE {table} SET number = NULL WHERE number = '';")
    return {"sqlite3": Run(["sqlite3", ":memory:", *script, made.query + ";"])}


def least(run: Run, folder: pathlib.Path, options: argparse.Namespace) -> tuple[Optional[float], int]:
    """The least processor seconds of some runs, of a long one of fewer, and the greatest kilobytes; None for the seconds where a
    run is broken off or gives no answer."""
    times: list[float] = []
    peaks: list[int] = []
    while len(times) < options.repeats and sum(times) < options.seconds / 4:
        _, processor, peak, status = probe(run.command, folder, folder / run.given, options.seconds)
        peaks.append(peak)
        if status > 0 and status != run.status:
            print(f"{run.command[0]} ended with status {status}", file=sys.stderr)
        if status != run.status:
            return None, max(peaks)
        times.append(processor)
    return min(times), max(peaks)


class Measures:
    """The rows of the table, of which each is one input at two sizes."""

    def __init__(self, room: pathlib.Path, program: Union[str, pathlib.Path], peers: Optional[Peers], options: argparse.Namespace) -> None:
        self.room, self.program, self.peers, self.options = room, program, peers, options
        self.starts: dict[tuple[str, str], float] = {}

    def folder(self, name: str) -> pathlib.Path:
        """A new folder for an input at a size."""
        return pathlib.Path(tempfile.mkdtemp(prefix=name, dir=self.room))

    def start(self, bad: Input, who: str) -> float:
        """The processor seconds of a program's start-up: what the smallest input of this kind takes."""
        smallest = start_of(bad)
        if (smallest.label, who) not in self.starts:
            folder = self.folder("start")
            run = runs_of(smallest, SMALLEST, folder, self.program, self.peers)[who]
            self.starts[smallest.label, who] = least(run, folder, self.options)[0] or 0
        return self.starts[smallest.label, who]

    def beyond_start(self, bad: Input, size: int, only: Optional[str] = None) -> dict[str, tuple[Optional[float], int]]:
        """Of each program, or of one alone, the processor seconds beyond its start-up, and kilobytes."""
        folder = self.folder("input")
        measured = {}
        for who, run in runs_of(bad, size, folder, self.program, self.peers).items():
            if only in (None, who):
                seconds, peak = least(run, folder, self.options)
                measured[who] = seconds and max(seconds - self.start(bad, who), 1e-4), peak
        shutil.rmtree(folder)
        return measured

    def row(self, bad: Input) -> list[str]:
        """Measures an input, and returns its row."""
        small = self.beyond_start(bad, bad.size, "sfq")["sfq"][0]
        measured = self.beyond_start(bad, 2 * bad.size)
        ours, peak = measured.pop("sfq")
        growth = exponent((bad.size, small), (2 * bad.size, ours)) if small and ours else ""
        answers = {who: seconds for who, (seconds, _) in measured.items() if seconds}
        best = min(answers, key=answers.__getitem__, default=None)
        peer = f"{best} {figure(answers[best] * 1e3)}" if best else ""
        if not best and measured:
            peer = f"{', '.join(measured)} > {self.options.seconds * 1_000:,}"
        ratio = f"{ours / answers[best]:.2g}" if best and ours else ""
        times = [self.shown(small), self.shown(ours)]
        return [bad.label, f"{bad.size:,}", *times, growth, peer, ratio, f"{peak / 1024:.0f}"]

    def shown(self, seconds: Optional[float]) -> str:
        """A time in milliseconds, or that a run was broken off."""
        return figure(seconds * 1e3) if seconds else f"> {self.options.seconds * 1_000:,}"


class Profiles:
    """The time of an input at a limit, and where the instructions of a small one go."""

    def __init__(self, room: pathlib.Path, program: Union[str, pathlib.Path], options: argparse.Namespace) -> None:
        self.room, self.program, self.options = room, program, options

    def run(self, bad: Input, size: int) -> tuple[pathlib.Path, Run]:
        """A new folder with an input of a size, and what `sfq` runs there."""
        folder = pathlib.Path(tempfile.mkdtemp(prefix="input", dir=self.room))
        return folder, runs_of(bad, size, folder, self.program, None)["sfq"]

    def row(self, bad: Input) -> list[str]:
        """Measures an input, and returns its row."""
        size = QUADRATIC[bad.label]
        folder, run = self.run(bad, size)
        seconds, _ = least(run, folder, self.options)
        folder, run = self.run(bad, 4 * bad.small)
        parts = [f"`{name}` {share:.0f}" for name, share in shares(run.command, folder, run.status)[:4]]
        return [bad.label, f"{size:,}", figure(seconds) if seconds else f"> {self.options.seconds}", ", ".join(parts)]


class Counts:
    """Instructions of `sfq` on inputs of small sizes, by valgrind, beyond those of its start-up, which are taken first."""

    def __init__(self, room: pathlib.Path, program: Union[str, pathlib.Path]) -> None:
        self.room, self.program = room, program
        self.starts: dict[str, int] = {}

    def at(self, bad: Input, size: int) -> int:
        """Those of an input at a size."""
        with tempfile.TemporaryDirectory(dir=self.room) as name:
            folder = pathlib.Path(name)
            run = runs_of(bad, size, folder, self.program, None)["sfq"]
            return instructions(run.command, folder, status=run.status)

    def take_starts(self) -> None:
        """Counts those of start-up: what the smallest input of each kind takes."""
        self.starts = {it.label: self.at(it, SMALLEST) for it in set(map(start_of, ALL))}

    def growth(self, bad: Input) -> tuple[int, int, float]:
        """The counts at the small size of an input and at twice that, and the exponent between them."""
        start = self.starts[start_of(bad).label]
        before, now = (self.at(bad, size) - start for size in (bad.small, 2 * bad.small))
        return before, now, float(exponent((1, before), (2, now)))


def main() -> None:
    parser = argparse.ArgumentParser(description=__doc__.splitlines()[0])
    parser.add_argument("--program", default=str(PROGRAM), help="the program that is measured (that of ./build)")
    parser.add_argument("--seconds", type=int, default=20, help="processor seconds at which a run is broken off (20)")
    parser.add_argument("--repeats", type=int, default=3, help="runs of each command (3)")
    parser.add_argument("--jobs", type=int, default=1, help="how many inputs are measured at a time (1)")
    parser.add_argument("--only", default="", help="the inputs whose name has this word")
    parser.add_argument("--instructions", action="store_true", help="count instructions of sfq in place of time")
    parser.add_argument("--bounds", action="store_true", help="with --instructions: write the bounds that follow into this file")
    parser.add_argument("--profile", action="store_true", help="show where the time of what grows with a square goes")
    options = read_options(parser, ("only", "instructions"))
    if not os.access(options.program, os.X_OK):
        sys.exit("the program isn't built: run ./build")
    program = os.path.abspath(options.program)
    chosen = [bad for bad in ALL if options.only in bad.label]
    with tempfile.TemporaryDirectory() as name:
        room = pathlib.Path(name)
        if options.instructions:
            table = table_of_counts(chosen, Counts(room, program), options)
        elif options.profile:
            table = table_of_profiles(chosen, Profiles(room, program, options), options)
        else:
            peers = Peers(room).name_lacking(options.write)
            table = table_of_times(chosen, Measures(room, program, peers, options), options)
    if options.write:
        table.write_into(README)


def with_bounds(text: str, growths: dict[str, float]) -> str:
    """This file's text with the bounds that follow from the growths of some inputs, by their labels."""

    def bounded(line: re.Match[str]) -> str:
        growth = growths.get(line[2])
        return line[0] if growth is None else f'{line[1]}, {max(growth, 1) + MARGIN:.2f})'

    return re.sub(r'(    Input\("([^"]*)", \w+\.\w+, [\d_]+, [\d_]+)(?:, [\d.]+)?\)', bounded, text)


def side_by_side(what: Callable[[Input], Made], chosen: Sequence[Input], jobs: int) -> Iterator[tuple[Input, Made]]:
    """What a function returns of each input, in order, of so many at a time."""
    with ThreadPoolExecutor(jobs) as pool:
        yield from zip(chosen, pool.map(what, chosen))


def table_of_counts(chosen: Sequence[Input], counts: Counts, options: argparse.Namespace) -> Table:
    """The table of instructions; it sets the bounds of its inputs where that is asked for."""
    growths = {}
    table = Table(["input", "n", "sfq at n, millions", "at 2n", "exponent", "bound"])
    counts.take_starts()
    for bad, (before, now, growth) in side_by_side(counts.growth, chosen, options.jobs):
        bound = "" if bad.bound is None else f"{bad.bound:.2f}"
        table.add([bad.label, f"{bad.small:,}", figure(before / 1e6), figure(now / 1e6), f"{growth:.2f}", bound])
        growths[bad.label] = growth
    if options.bounds:
        here = pathlib.Path(__file__)
        here.write_text(with_bounds(here.read_text(), growths))
    return table


def table_of_profiles(chosen: Sequence[Input], profiles: Profiles, options: argparse.Namespace) -> Table:
    """The table of what grows with a square."""
    table = Table(["input", "n", "sfq s", "of 100 instructions"])
    for _, row in side_by_side(profiles.row, [bad for bad in chosen if bad.label in QUADRATIC], options.jobs):
        table.add(row)
    return table


def table_of_times(chosen: Sequence[Input], measures: Measures, options: argparse.Namespace) -> Table:
    """The table of times."""
    table = Table(["input", "n", "sfq ms at n", "at 2n", "exponent", "best peer, ms at 2n", "ratio", "MB"])
    for _, row in side_by_side(measures.row, chosen, options.jobs):
        table.add(row)
    return table


if __name__ == "__main__":
    main()
