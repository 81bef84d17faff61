#!/usr/bin/env python3
"""Measures reading and printing a MULTIPOINT, and `sfq relate` of two, at 1,000 and at 10,000 positions.

Positions are shuffled, ascending, or all equal. For each case it prints the bytes of the text, the least processor
time of several runs, the instructions that valgrind counts beyond those of a run with MULTIPOINT EMPTY, and how
the instructions grow from size to size. Growth is allowed up to that of n log n: 13.3 times from 1,000 to 10,000.
It ends with status 1 where a case is past that.

It needs Python's standard library, `valgrind` from the distribution's packages, and the built programs: run
`./build`, and `rt run` once in crates/gauge. It is no test: the gate doesn't run it.
"""

import argparse
import math
import pathlib
import random
import resource
import shutil
import subprocess
import sys
from typing import Optional, Sequence

SIZES = (1_000, 10_000)
ORDERS = ("shuffled", "ascending", "equal")
EMPTY = "MULTIPOINT EMPTY"
ROOT = pathlib.Path(__file__).resolve().parent.parent
SFQ = ROOT / "crates" / "sfq" / "out" / "sfq"
GAUGE = ROOT / "crates" / "gauge" / "out" / "gauge"


def positions(count: int, order: str, span: int, chance: random.Random) -> list[tuple[int, int]]:
    """Positions with both coordinates below span, in this order; `equal` ones are all the same."""
    if order == "equal":
        return [(span - 1, span - 1)] * count
    picked = [divmod(place, span) for place in chance.sample(range(span * span), count)]
    return sorted(picked) if order == "ascending" else picked


def text_of(points: Sequence[tuple[int, int]]) -> str:
    """The text of a MULTIPOINT, without parentheses around its points: a word of a command has at most 128 KB."""
    return "MULTIPOINT(" + ",".join(f"{x} {y}" for x, y in points) + ")"


def run(command: list[str], text: str) -> tuple[str, str, float]:
    """Runs a command on this standard input; returns its output, what is on standard error, and its processor
    seconds."""
    before = resource.getrusage(resource.RUSAGE_CHILDREN)
    done = subprocess.run(command, input=text, capture_output=True, text=True)
    after = resource.getrusage(resource.RUSAGE_CHILDREN)
    if done.returncode != 0:
        sys.exit(f"{command[0]} ended with status {done.returncode}: {done.stderr}")
    return done.stdout, done.stderr, after.ru_utime + after.ru_stime - before.ru_utime - before.ru_stime


def instructions(command: list[str], text: str) -> int:
    """How many instructions valgrind counts."""
    counter = ["valgrind", "--tool=callgrind", "--callgrind-out-file=/dev/null"]
    for line in run(counter + command, text)[1].splitlines():
        if "Collected :" in line:
            return int(line.split()[-1])
    sys.exit("valgrind printed no count")


def print_case(count: int, order: str) -> tuple[list[str], str, str]:
    """The command that reads and prints, its input, and the output that is wanted."""
    points = positions(count, order, 99_999, random.Random(count))
    printed = "MULTIPOINT(" + ",".join(f"({x} {y})" for x, y in points) + ")\n"
    return [str(GAUGE)], text_of(points), printed


def relate_case(count: int, order: str) -> tuple[list[str], str, str]:
    """The command that relates two lists, of which the second has about half of the positions of the first; its
    input, and the output that is wanted."""
    chance = random.Random(count)
    first = positions(count, order, 200, chance)
    second = first[: count // 2] + positions(count - count // 2, order, 200, chance)
    chance.shuffle(second)
    if order == "ascending":
        second.sort()
    a, b = set(first), set(second)
    matrix = "".join(
        ("0" if a & b else "F", "F", "0" if a - b else "F", "F", "F", "F", "0" if b - a else "F", "F", "2")
    )
    return [str(SFQ), "relate", text_of(first), text_of(second)], "", matrix + "\n"


def main() -> None:
    parser = argparse.ArgumentParser(description=__doc__.splitlines()[0])
    parser.add_argument("--repeats", type=int, default=5, help="runs of each command (5)")
    repeats = parser.parse_args().repeats
    for program, build in ((SFQ, "./build"), (GAUGE, "rt run in crates/gauge")):
        if not program.exists():
            sys.exit(f"{program.name} isn't built: run {build} once")
    if shutil.which("valgrind") is None:
        sys.exit("valgrind isn't installed: apt-get install valgrind")
    allowed = SIZES[1] * math.log(SIZES[1]) / (SIZES[0] * math.log(SIZES[0]))
    print(f"{'':26} {'positions':>9} {'text KB':>8} {'cpu s':>7} {'M instr':>8} {'growth':>7}  allowed {allowed:.1f}")
    over = False
    for name, case, empty, empty_input in (
        ("read and print", print_case, [str(GAUGE)], EMPTY),
        ("relate", relate_case, [str(SFQ), "relate", EMPTY, EMPTY], ""),
    ):
        base = instructions(empty, empty_input)
        for order in ORDERS:
            before: Optional[int] = None
            for count in SIZES:
                command, text, wanted = case(count, order)
                if run(command, text)[0] != wanted:
                    sys.exit(f"{name}, {order}, {count} positions: another output is wanted")
                seconds = min(run(command, text)[2] for _ in range(repeats))
                taken = instructions(command, text) - base
                growth = taken / before if before else None
                size = sum(map(len, command[2:])) + len(text)
                shown = f"{growth:>7.1f}  {'within' if growth <= allowed else 'OVER'}" if growth else ""
                label = f"{name}, {order}" if not before else ""
                print(f"{label:26} {count:>9} {size / 1024:>8.0f} {seconds:>7.3f} {taken / 1e6:>8.1f} {shown}")
                over = over or (growth is not None and growth > allowed)
                before = taken
    sys.exit(1 if over else 0)


if __name__ == "__main__":
    main()
