#!/usr/bin/env python3
"""Measures the matrix of two geometries beside GEOS's C interface and JTS, in one run.

Shapes: two stars that cross in few places or in many, two parcels with a ragged border in common, a line that crosses
itself and an area, a MULTIPOINT and a star, two squares with holes that overlap, two grids of lines, a star of lines each of which
crosses every other, two combs that cross. For each it prints a row of a Markdown table: the processor microseconds of
one matrix here, in GEOS and in JTS, their ratios and that to the best peer, the exponent by which time here grows from
size to size, and the peak memory of each process. The matrices have to be the same; where one isn't, a line says so. Both
geometries are read and tested once, before; start-up is left out, and of JTS the time until its just-in-time compiler has
done its work. Times are the least of several runs. GEOS from 3.13 on and JTS from 1.20 on relate by RelateNG, which can prepare
the first geometry: beside these, as in a folder that `--peers` names, the table has GEOS unprepared and prepared, and JTS
prepared. `--instructions` counts the instructions of one matrix in `sfq` and GEOS instead, where a matrix takes less than a second.

It needs Python's standard library, gcc and `libgeos-dev` from the distribution's packages, and the built program: run
`rt run` once in crates/gauge. JTS, from `libjts-java`, wants a JDK, and is left out where either isn't there. It is no
test: the gate doesn't run it.
"""

import math
import pathlib
import random
import sys
import tempfile
from typing import Callable, NamedTuple, Optional, Sequence

from areas import SPAN, border, holed, ring, star
from gauged import GAUGE, JTS, built_peer, each, each_in_java, java_peer, options_of
from timing import README, Table, exponent, figure, instructions, probe, ratios, read_options


def polygon(rings: list[list[tuple[int, int]]], across: int = 0, up: int = 0) -> str:
    """The text of a polygon, moved."""
    moved = [[(x + across, y + up) for x, y in positions] for positions in rings]
    return "POLYGON(" + ",".join(map(ring, moved)) + ")"


def line(positions: list[tuple[int, int]]) -> str:
    """The text of a line."""
    return "LINESTRING(" + ",".join(f"{x} {y}" for x, y in positions) + ")"


def few_crossings(count: int) -> tuple[str, str]:
    """Two stars side by side, whose rays overlap a little."""
    return polygon(star(count)), polygon(star(count + 1), across=SPAN * 7 // 4)


def many_crossings(count: int) -> tuple[str, str]:
    """Two stars over one another."""
    return polygon(star(count)), polygon(star(count + 1), across=1)


def shared_border(count: int) -> tuple[str, str]:
    """A parcel, and the one on the other side of its ragged border."""
    left = border(count)
    ragged = left[0][2:]
    right = [[(SPAN, ragged[0][1])] + [(SPAN, ragged[-1][1])] + ragged[::-1]]
    return polygon(left), polygon(right)


def crossing_itself(count: int) -> tuple[str, str]:
    """A line that goes to and fro near where it is, and a square over half of it."""
    chance = random.Random(count)
    step = 2 * SPAN // count
    positions = [(-SPAN + step * k + chance.randint(-8 * step, 8 * step), chance.randint(-SPAN, SPAN)) for k in range(count)]
    return line(positions), polygon([[(-SPAN // 2, -2 * SPAN), (SPAN // 2, -2 * SPAN), (SPAN // 2, 2 * SPAN), (-SPAN // 2, 2 * SPAN)]])


def points_and_star(count: int) -> tuple[str, str]:
    """Points anywhere near a star, and the star."""
    chance = random.Random(count)
    listed = ",".join(f"({chance.randint(-SPAN, SPAN)} {chance.randint(-SPAN, SPAN)})" for _ in range(count))
    return f"MULTIPOINT({listed})", polygon(star(count))


def overlapping_holes(holes: int) -> tuple[str, str]:
    """Two squares with holes, one moved by half a hole."""
    step = 2 * SPAN // math.ceil(math.sqrt(holes))
    return polygon(holed(holes)), polygon(holed(holes), across=step // 4, up=step // 4)


def grids(count: int) -> tuple[str, str]:
    """Lines from left to right, and lines upwards over all of them."""
    step = 2 * SPAN // count
    level = ",".join(f"({-SPAN - 9} {-SPAN + step * k},{SPAN + 9} {-SPAN + step * k})" for k in range(count))
    upright = ",".join(f"({-SPAN + step * k + 1} {-SPAN - 9},{-SPAN + step * k + 1} {SPAN + 9})" for k in range(count))
    return f"MULTILINESTRING({level})", f"MULTILINESTRING({upright})"


def all_cross(count: int) -> tuple[str, str]:
    """A closed line of so many edges, each of which crosses almost every other, and a square inside."""
    turns = [(count // 2) * k % count for k in range(count + 1)]
    corners = [(round(SPAN * math.cos(2 * math.pi * k / count)), round(SPAN * math.sin(2 * math.pi * k / count))) for k in turns]
    return line(corners), polygon([[(-SPAN // 3, -SPAN // 3), (SPAN // 3, -SPAN // 3), (SPAN // 3, SPAN // 3), (-SPAN // 3, SPAN // 3)]])


def comb(teeth: int) -> list[tuple[int, int]]:
    """A comb whose teeth go upwards."""
    step = 2 * SPAN // teeth
    positions = [(-SPAN, -SPAN - 100)]
    for k in range(teeth):
        left = -SPAN + step * k
        positions += [(left, SPAN), (left + step // 2, SPAN), (left + step // 2, -SPAN), (left + step - 1, -SPAN)]
    return positions[:-1] + [(positions[-2][0], -SPAN - 100)]


def combs(teeth: int) -> tuple[str, str]:
    """A comb, and another across it."""
    return polygon([comb(teeth)]), polygon([[(y, x + 1) for x, y in comb(teeth)]])


# Measures a program, by its command, the word for what it does, a folder and the number of runs: seconds, answer and kilobytes.
Timing = Callable[[list[str], str, pathlib.Path, int], tuple[float, str, int]]
# The processor seconds of a run at most of which instructions are counted, which takes some fifty times as long.
COUNTED = 1.0


class Peer(NamedTuple):
    """A program that is measured: its name in a head, its command, the word for what it does, and how it is timed."""

    name: str
    command: list[str]
    word: str
    time: Timing


CASES = (
    ("two stars, few crossings", few_crossings, (99, 999, 9_998)),
    ("two stars, many crossings", many_crossings, (99, 999, 9_998)),
    ("shared border", shared_border, (100, 1_000, 9_990)),
    ("line that crosses itself", crossing_itself, (100, 1_000, 5_000)),
    ("MULTIPOINT and star", points_and_star, (100, 1_000, 9_998)),
    ("overlapping holes", overlapping_holes, (9, 99, 999)),
    ("grids of lines", grids, (50, 200, 1_000)),
    ("all edges cross", all_cross, (101, 301, 1_001)),
    ("crossing combs", combs, (25, 100, 500)),
)


def main() -> None:
    parser = options_of(__doc__.splitlines()[0])
    parser.add_argument("--largest", type=int, default=3, help="how many sizes of each (3)")
    parser.add_argument("--jts", default=JTS, help=f"the jar of JTS ({JTS})")
    parser.add_argument("--instructions", action="store_true", help="count instructions of sfq and GEOS in place of time")
    options = read_options(parser, ("only", "largest"))
    with tempfile.TemporaryDirectory() as name:
        folder = pathlib.Path(name)
        programs, is_new = programs_of(folder, options.jts)
        if options.write and not any(it.name.startswith("JTS") for it in programs):
            sys.exit("JTS is missing, which has its columns in the table that would be written")
        if options.instructions:
            programs = [it for it in programs if not it.name.startswith("JTS")]
        table = table_of(programs, is_new, options.instructions)
        for label, shape, sizes in CASES:
            before = None
            for size in sizes[: options.largest] if options.only in label else ():
                (folder / "input").write_text("\n".join(shape(size)) + "\n")
                if options.instructions:
                    add_counts(table, label, size, [counted(it, folder) for it in programs])
                    continue
                runs = {it.name: it.time(it.command, it.word, folder, options.repeats) for it in programs}
                add_row(table, label, size, runs, before, not is_new)
                before = size, runs["sfq"][0] * 1e6
    if options.write:
        table.write_into(README, is_of_peers=True)


def programs_of(folder: pathlib.Path, jar: str) -> tuple[list[Peer], bool]:
    """The programs, and whether those of the peers relate by RelateNG, prepared too."""
    geos = built_peer(folder)
    (folder / "input").write_text("POINT(0 0)\nPOINT(1 1)\n")
    is_new = probe([*geos, "prepared", "0"], folder, folder / "input", 10)[3] == 0
    found = [Peer("sfq", [str(GAUGE)], "relate", each), Peer("GEOS", geos, "relate", each)]
    if is_new:
        found.append(Peer("GEOS prepared", geos, "prepared", each))
    java = java_peer(folder, jar)
    if java is not None:
        found.append(Peer("JTS prepared", java, "prepared", each_in_java) if is_new else Peer("JTS", java, "relate", each_in_java))
    return found, is_new


def table_of(programs: Sequence[Peer], is_new: bool, is_counted: bool) -> Table:
    """The table of times or of instructions, whose first head says of which method of the peers it is."""
    names = [it.name for it in programs]
    by = "by RelateNG" if is_new else "before RelateNG"
    if is_counted:
        return Table([f"instructions of a matrix, {by}", "size", *names, "ratio"])
    heads = [head for who in names[1:] for head in (f"{who} µs", "ratio")]
    memory = [] if is_new else [", ".join(names) + " MB"]
    return Table(["shapes, by RelateNG" if is_new else "shapes", "size", "sfq µs", *heads, "to the best", "growth", *memory])


def counted(peer: Peer, folder: pathlib.Path) -> Optional[float]:
    """The instructions of one more matrix; None where a run takes too long to be counted."""
    if probe([*peer.command, peer.word, "1"], folder, folder / "input", 60)[1] > COUNTED:
        return None
    one, more = (instructions([*peer.command, peer.word, str(turns)], folder, folder / "input") for turns in (1, 2))
    return max(more - one, 1)


def add_counts(table: Table, label: str, size: int, counts: Sequence[Optional[float]]) -> None:
    """Adds a row of instructions; a peer that takes too long has none."""
    ours, *peers = counts
    best = min((it for it in peers if it is not None), default=None)
    ratio = f"{ours / best:.2g}" if ours is not None and best is not None else ""
    table.add([label, f"{size:,}", *("" if it is None else figure(it) for it in counts), ratio])


def add_row(
    table: Table, label: str, size: int, runs: dict[str, tuple[float, str, int]], before: Optional[tuple[float, float]], has_memory: bool
) -> None:
    """Adds a row to the table, and prints a line where a matrix differs."""
    ours, *peers = (seconds * 1e6 for seconds, _, _ in runs.values())
    growth = exponent(before, (size, ours))
    peaks = [", ".join(f"{peak / 1024:.0f}" for _, _, peak in runs.values())] if has_memory else []
    table.add([label, f"{size:,}", figure(ours), *ratios(ours, peers), growth, *peaks])
    matrix = runs["sfq"][1].strip()
    for who, (_, answer, _) in runs.items():
        if answer.strip() != matrix:
            print(f"{label} of {size}: {matrix} here, {answer.strip()} in {who}", file=sys.stderr)


if __name__ == "__main__":
    main()
