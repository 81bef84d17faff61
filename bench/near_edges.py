#!/usr/bin/env python3
"""Counts how near to one another the edges of bad shapes are: why the time of `worst.py` grows with the square of their number.

For each shape of `bad_shapes.py` whose growth is quadratic it makes one of about 1,000 edges. It prints a Markdown table: how many of
a hundred leaves have bounds that overlap those of an edge, on average, where a leaf is eight consecutive edges, as in `EdgeBoxes`; how
many of a hundred edges have; and with how many edges one shares a point, itself and its neighbours counted where the two shapes are
one. A point counts as an edge.

It needs Python's standard library and takes a minute. With `--write` it writes the table into bench/README.md.
"""

import argparse
import re
from typing import Sequence

import bad_shapes as shapes
from timing import README, Table, figure, read_options

# How many consecutive edges a leaf has.
LEAF = 8

# Shapes that are related to others or to themselves, and the size at which each has about 1,000 edges.
PAIRS = (
    ("two scribbles", shapes.two_scribbles, 1_000),
    ("hatches that cross", shapes.hatches_across, 1_000),
    ("level lines, and to and fro through their ends", shapes.level_lines_and_upright, 1_000),
    ("level comb, and upright rows through its teeth", shapes.level_comb_and_rows, 250),
    ("comb of chevrons, and upright rows across it", shapes.chevron_comb_and_rows, 170),
    ("nested frames, and upright bars across them", shapes.nested_frames_and_bars, 125),
    ("hatches that don't meet", shapes.hatches, 1_000),
    ("nested chevrons to themselves", shapes.nested_chevrons_twice, 170),
    ("thin holes to themselves", shapes.thin_holes_twice, 250),
    ("spiral to itself", shapes.spiral_twice, 1_000),
    ("nested frames to themselves", shapes.nested_frames_twice, 250),
    ("closed lines round one point, to themselves", shapes.rings_round_one_point, 250),
    ("spirals that touch all along", shapes.spirals_along, 1_000),
    ("points in a spiral, and it", shapes.points_in_spiral, 1_000),
    ("points of a scribble, and it", shapes.points_of_scribble, 1_000),
)

# Shapes whose validity is tested.
SINGLES = (
    ("validity of nested chevrons", shapes.nested_chevrons, 170),
    ("validity of a spiral askew", shapes.spiral_askew, 1_000),
    ("validity of thin holes", shapes.thin_holes, 250),
    ("validity of holes of almost one box", shapes.holes_of_one_box, 250),
    ("validity of thin polygons", shapes.thin_polygons, 250),
    ("validity of nested frames", shapes.nested_frames, 250),
    ("validity of a spiral", shapes.spiral, 1_000),
    ("validity of holes in a spiral", shapes.holes_in_spiral, 120),
)


def edges_of(text: str) -> list[tuple[int, int, int, int]]:
    """The edges of a geometry's text, each as the numbers of its two ends; of points each is its own."""
    parts = re.findall(r"\(([^()]*)\)", text)
    lists = [[(int(x), int(y)) for x, y in (it.split() for it in part.split(","))] for part in parts]
    if "POINT" in text:
        return [(*at, *at) for (at,) in lists]
    return [(*a, *b) for line in lists for a, b in zip(line, line[1:]) if a != b]


def bounds(edge: tuple[int, int, int, int]) -> tuple[int, int, int, int]:
    """The least and the greatest x and y of an edge."""
    a, b, c, d = edge
    return min(a, c), max(a, c), min(b, d), max(b, d)


def joined(several: Sequence[tuple[int, int, int, int]]) -> tuple[int, int, int, int]:
    """The bounds of several."""
    low_x, high_x, low_y, high_y = zip(*several)
    return min(low_x), max(high_x), min(low_y), max(high_y)


def overlap(p: tuple[int, int, int, int], q: tuple[int, int, int, int]) -> bool:
    """Whether two bounds have a point in common."""
    return p[0] <= q[1] and q[0] <= p[1] and p[2] <= q[3] and q[2] <= p[3]


def is_beside(edge: tuple[int, int, int, int], other: tuple[int, int, int, int]) -> bool:
    """Whether both ends of the other edge lie on one side of the line of an edge."""
    a, b, c, d = edge
    first, second = ((c - a) * (y - b) - (d - b) * (x - a) for x, y in (other[:2], other[2:]))
    return first * second > 0


def shares(edge: tuple[int, int, int, int], other: tuple[int, int, int, int]) -> bool:
    """Whether two edges share a point, whose bounds overlap."""
    return not is_beside(edge, other) and not is_beside(other, edge)


def row(label: str, first: Sequence[tuple[int, int, int, int]], second: Sequence[tuple[int, int, int, int]]) -> list[str]:
    """The row of two lists of edges."""
    of_first, of_second = [bounds(it) for it in first], [bounds(it) for it in second]
    leaves = [joined(of_second[k : k + LEAF]) for k in range(0, len(second), LEAF)]
    met = sum(overlap(p, leaf) for p in of_first for leaf in leaves)
    near = [(e, f) for e, p in zip(first, of_first) for f, q in zip(second, of_second) if overlap(p, q)]
    shared = sum(shares(e, f) for e, f in near)

    def share(count: int, others: int) -> str:
        return figure(round(100 * count / len(first) / others, 1))

    return [label, f"{len(first):,}", f"{len(second):,}", share(met, len(leaves)), share(len(near), len(second)), figure(shared / len(first))]


def main() -> None:
    parser = argparse.ArgumentParser(description=__doc__.splitlines()[0])
    options = read_options(parser)
    table = Table(["input", "edges", "of the other", "of 100 leaves", "of 100 edges", "share a point with an edge"])
    for label, make, size in PAIRS:
        table.add(row(label, *map(edges_of, make(size))))
    for label, single, size in SINGLES:
        edges = edges_of(single(size))
        table.add(row(label, edges, edges))
    if options.write:
        table.write_into(README)


if __name__ == "__main__":
    main()
