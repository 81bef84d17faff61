#!/usr/bin/env python3
"""Measures each usual workload beside its floor and its best peer, in one run, and draws how the costs grow.

With `--quick` it makes the rows of README's table of speed on your machine, in ten minutes at most: what `sfq` takes, divided by
what the fastest peer takes, and a C program for that task alone, by instructions and by processor time. It needs what ./build makes.
A peer that isn't installed is left out, and so are instructions without valgrind; it says so, and which packages bring them: `gcc`,
`libc6-dev` and `libgeos-dev` for the C programs and GEOS, `sqlite3`, `valgrind`. The table goes to standard output, and what is being
measured to standard error. Temporary files take 50 MB, in the folder that TMPDIR names.

A floor (bench/floor) is a short C program that does one workload and nothing else, so it says how little the workload can take. The
workloads: a filter over numbers and texts (peer: sqlite3), points in windows of 5, 100 and 2,000 positions, points in parcels, parcels
that touch, a check of polygons, and the matrix of two stars, each read, tested and related (peer: GEOS by its C interface). Without
`--quick` it compares what `sfq` and the floor print, byte for byte, and prints a Markdown table: what `sfq`, the floor and the peer
take for each row, the ratios, the exponent by which the cost of `sfq` grows from the size before, and its peak memory. Start-up is
left out. Costs are instructions, as valgrind counts them, which don't depend on what else runs; under `--time` they are nanoseconds
of processor time, the least of several runs, the programs in turn. A second table has the ratios of six workloads at their largest
size. `--write` writes both tables of instructions into the READMEs, and draws the costs over the sizes; with `--time` it writes the
table of times alone.

It needs Python's standard library, what ./build makes, and all of those packages. It is no test: the gate doesn't run it. The short
form of `--quick` is tests/test_quick.py.
"""

import argparse
import os
import pathlib
import runpy
import sys
import tempfile
from typing import NamedTuple, Optional

import plots
import quick
from timing import PROGRAM, README, ROOT, Table, exponent, figure, read_options
from workloads import Measure, Programs, Workload, built_programs, commands_in, compare_outputs, folder_of, outputs, ratios, workloads

runpy.run_path(str(ROOT / "tools" / "paths.py"))
import repository

# The columns of the peer, which is sqlite3 for the filter and else GEOS: what it takes, and what `sfq` takes of that.
OF_PEER = ("GEOS or sqlite3", "to the peer")
PICTURE = ROOT / "docs" / "pictures" / "costs.svg"


class Measured(NamedTuple):
    """What a workload took: the costs of each program by size, start-up left out."""

    workload: Workload
    costs: dict[str, list[tuple[int, float]]]

    def row(self) -> list[str]:
        """The row of README: its largest size, and what `sfq` takes of what the peer and the floor take."""
        size = self.costs["sfq"][-1][0]
        return [self.workload.name_of(size), *reversed(ratios(self.workload, {who: line[-1][1] for who, line in self.costs.items()}))]


def measured(workload: Workload, room: pathlib.Path, programs: Programs, how: Measure, table: Table) -> Measured:
    """Measures a workload, and adds its rows to a table."""
    bare = folder_of(room, workload, 0)
    starts = how.costs(commands_in(bare, workload, programs), bare)
    found: dict[str, list[tuple[int, float]]] = {who: [] for who in starts}
    before: Optional[tuple[float, float]] = None
    for size in workload.sizes:
        folder = folder_of(room, workload, size)
        commands = commands_in(folder, workload, programs)
        printed, peak = outputs(commands, folder)
        compare_outputs(printed, f"{workload.label}, {size:,}")
        costs = how.costs(commands, folder)
        each = {who: max(costs[who] - starts[who], 1) / size for who in costs}
        ours, floor, peer = (each[who] for who in ("sfq", "floor", "peer"))
        growth = exponent(before, (size, ours * size))
        columns = [figure(ours), figure(floor), f"{ours / floor:.1f}", figure(peer), f"{ours / peer:.2f}", growth]
        table.add([f"{workload.label}, {size:,}", *columns, f"{peak / 1024:.0f}"])
        before = size, ours * size
        for who, cost in each.items():
            found[who].append((size, cost))
    return Measured(workload, found)


def table_of_costs(unit: str) -> Table:
    """The table of all workloads at all sizes."""
    return Table([f"{unit} a row", "sfq", "floor", "to the floor", *OF_PEER, "growth", "sfq MB"], OF_PEER)


def table_of_ratios(found: list[Measured]) -> Table:
    """The table of README, of those workloads that it names."""
    table = Table(["task (more in [bench](bench/README.md))", "C program", OF_PEER[0]], OF_PEER)
    for it in found:
        if it.workload.named:
            table.add(it.row())
    return table


def need_program(program: str) -> None:
    """Ends the program where the one that is measured isn't there, or is that of ./build and of other sources than the present ones."""
    if program != str(PROGRAM):
        if not os.access(program, os.X_OK):
            sys.exit(f"there is no program {program}")
    elif not repository.is_built():
        lacking = "is of other sources than these" if PROGRAM.exists() else "isn't built"
        sys.exit(f"the program {lacking}: run ./build, which proves and links it, in about half an hour")


def measure_all(options: argparse.Namespace) -> None:
    """Measures the workloads at their sizes, and writes what is asked for."""
    with tempfile.TemporaryDirectory() as name:
        room = pathlib.Path(name)
        programs = built_programs(room, options.program)
        for it, package in programs.lacking.items():
            sys.exit(f"{it} is missing: apt-get install {package}")
        how = Measure(options.time, options.repeats)
        unit = "ns" if options.time else "instructions"
        table = table_of_costs(unit)
        found = []
        for workload in workloads(programs):
            if options.only in workload.label:
                workload = workload._replace(sizes=workload.sizes[: options.largest])
                found.append(measured(workload, room, programs, how, table))
    if options.write:
        table.write_into(README)
    if options.time:
        return
    of_readme = table_of_ratios(found)
    if options.write:
        of_readme.write_into(ROOT / "README.md")
        PICTURE.write_text(plots.costs([(it.workload.label, it.costs) for it in found], unit))


def main() -> None:
    about, *more = __doc__.split("\n\n")
    parser = argparse.ArgumentParser(description=about, epilog=more[0])
    parser.add_argument("--quick", action="store_true", help="the rows of README's table of speed, by instructions and by time")
    parser.add_argument("--minutes", type=float, default=10, help="how long --quick may take (10)")
    parser.add_argument("--program", default=str(PROGRAM), help="the program that is measured (that of ./build)")
    parser.add_argument("--time", action="store_true", help="processor time in place of instructions")
    parser.add_argument("--repeats", type=int, default=9, help="runs of each command by time (9)")
    parser.add_argument("--only", default="", help="the workloads whose name has this word")
    parser.add_argument("--largest", type=int, default=3, help="how many sizes of each; --quick takes the last of them (3)")
    options = read_options(parser, ("quick", "program", "only", "largest"))
    options.program = os.path.abspath(options.program)
    need_program(options.program)
    if options.quick:
        sys.exit(quick.run(options))
    measure_all(options)


if __name__ == "__main__":
    main()
