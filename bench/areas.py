#!/usr/bin/env python3
"""Measures reading, checking and locating in areas beside GEOS's C interface, in one run.

Shapes: a star of 100, 1,000 and 9,999 positions, the same with a corner thrown across, a square with 9, 99 and 999
holes, a spiral, and the shared border of two parcels. For each it prints a row of a Markdown table: the nanoseconds a position
of reading and of checking (what reading and checking takes beyond reading), and a point of locating 10,000 points, here and in
GEOS (prepared), and their ratio. Times are the least of several runs, start-up left out.

It needs Python's standard library, gcc and `libgeos-dev` from the distribution's packages, and the built program: run
`rt run` once in crates/gauge. It is no test: the gate doesn't run it.
"""

import math
import pathlib
import random
import sys
import tempfile
from typing import Any

from gauged import GAUGE, built_peer, each, options_of
from timing import README, Table, read_options

SPAN = 1_000_000
POINTS = 10_000
# What is measured, by the words of `gauge`.
WORDS = ("read", "check", "locate")


def ring(positions: list[tuple[int, int]]) -> str:
    """The text of a ring."""
    closed = positions + positions[:1]
    return "(" + ",".join(f"{x} {y}" for x, y in closed) + ")"


def star(count: int) -> list[list[tuple[int, int]]]:
    """Positions around the origin, at distances that vary."""
    chance = random.Random(count)
    positions = []
    for k in range(count):
        angle = 2 * math.pi * k / count
        distance = SPAN * (0.5 + 0.5 * chance.random())
        positions.append((round(distance * math.cos(angle)), round(distance * math.sin(angle))))
    return [positions]


def thrown(count: int) -> list[list[tuple[int, int]]]:
    """A star of which one corner is thrown across, out of the other side."""
    positions = star(count)[0]
    positions[count // 4] = (0, -2 * SPAN)
    return [positions]


def holed(holes: int) -> list[list[tuple[int, int]]]:
    """A square with this many square holes, row by row."""
    side = math.ceil(math.sqrt(holes))
    step = 2 * SPAN // side
    rings = [[(-SPAN - 1, -SPAN - 1), (SPAN + 1, -SPAN - 1), (SPAN + 1, SPAN + 1), (-SPAN - 1, SPAN + 1)]]
    for k in range(holes):
        x, y = -SPAN + step * (k % side), -SPAN + step * (k // side)
        low, high = step // 4, 3 * step // 4
        rings.append([(x + low, y + low), (x + low, y + high), (x + high, y + high), (x + high, y + low)])
    return rings


def spiral(count: int) -> list[list[tuple[int, int]]]:
    """A band that winds outwards at right angles, with half of the positions on either side."""
    corners, x, y = [(0, 0)], 0, 0
    for k in range(count // 2 - 1):
        across, up = ((1, 0), (0, 1), (-1, 0), (0, -1))[k % 4]
        length = 8 * (k // 2 + 1)
        x, y = x + across * length, y + up * length
        corners.append((x, y))
    left, right = [], []
    for k, (x, y) in enumerate(corners):
        before = max(k - 1, 0) % 4
        after = min(k, len(corners) - 2) % 4
        normals = ((0, 1), (-1, 0), (0, -1), (1, 0))
        turns = {before, after}
        dx, dy = sum(normals[t][0] for t in turns), sum(normals[t][1] for t in turns)
        left.append((x + 2 * dx, y + 2 * dy))
        right.append((x - 2 * dx, y - 2 * dy))
    return [left + right[::-1]]


def border(count: int) -> list[list[tuple[int, int]]]:
    """A parcel whose right side is a ragged border of this many positions."""
    chance = random.Random(count)
    step = 2 * SPAN // count
    ragged = [(chance.randrange(1000), -SPAN + step * k) for k in range(count)]
    return [[(-SPAN, ragged[-1][1]), (-SPAN, -SPAN)] + ragged]


CASES = (
    ("star", star, (100, 1_000, 9_999)),
    ("corner thrown across", thrown, (100, 1_000, 9_999)),
    ("holes", holed, (9, 99, 999)),
    ("spiral", spiral, (96, 960, 8_000)),
    ("shared border", border, (100, 1_000, 9_990)),
)


def points_for(rings: list[list[tuple[int, int]]]) -> list[tuple[int, int]]:
    """Points to be located: half of them anywhere in the envelope, half near its positions."""
    chance = random.Random(7)
    listed = [position for positions in rings for position in positions]
    xs, ys = [x for x, _ in listed], [y for _, y in listed]
    points = []
    for k in range(POINTS):
        if k % 2:
            x, y = chance.choice(listed)
            points.append((x + chance.randrange(-3, 4), y + chance.randrange(-3, 4)))
        else:
            points.append((chance.randint(min(xs), max(xs)), chance.randint(min(ys), max(ys))))
    return points


def main() -> None:
    options = read_options(options_of(__doc__.splitlines()[0]), ("only",))
    with tempfile.TemporaryDirectory() as name:
        folder = pathlib.Path(name)
        programs = ([str(GAUGE)], built_peer(folder))
        table = Table(["shape", "size", *(f"{word}: `sfq`, GEOS, ratio" for word in WORDS)])
        for label, shape, sizes in CASES:
            for size in sizes if options.only in label else ():
                rings = shape(size)
                ours, theirs = (measures(program, rings, folder, options.repeats) for program in programs)
                if ours["answers"] != theirs["answers"]:
                    sys.exit(f"{label} of {size}: the answers differ: {ours} and {theirs}")
                count = sum(len(positions) + 1 for positions in rings)
                table.add([label, f"{size:,}", *(cell(word, count, ours, theirs) for word in WORDS)])
    if options.write:
        table.write_into(README)


def measures(program: list[str], rings: list[list[tuple[int, int]]], folder: pathlib.Path, repeats: int) -> dict[str, Any]:
    """The seconds in which a program reads and checks an area, and locates in it if it is valid; and its answers."""
    text = "POLYGON(" + ",".join(map(ring, rings)) + ")\n"
    (folder / "input").write_text(text)
    read, _, _ = each(program, "read", folder, repeats)
    whole, valid, _ = each(program, "check", folder, repeats)
    if valid != "1\n":
        return {"read": read, "check": max(whole - read, 1e-9), "answers": valid}
    (folder / "input").write_text(text + "".join(f"POINT({x} {y})\n" for x, y in points_for(rings)))
    located, inside, _ = each(program, "locate", folder, repeats)
    return {"read": read, "check": max(whole - read, 1e-9), "locate": located, "answers": valid + inside}


def cell(word: str, count: int, ours: dict[str, Any], theirs: dict[str, Any]) -> str:
    """What a position or a point takes here and in GEOS, and the ratio; nothing where it isn't measured."""
    if word not in ours:
        return ""
    unit = 1e9 / (POINTS if word == "locate" else count)
    here, there = ours[word] * unit, theirs[word] * unit
    return f"{here:,.0f}, {there:,.0f}, {here / there:.2f}"


if __name__ == "__main__":
    main()
