"""The rows of README's table of speed on the machine of whoever runs it: what `all.py --quick` does.

The table goes to standard output, what is being measured and what is left out to standard error. Whatever ends it, the temporary
files are removed and the programs that it started are ended.
"""

import argparse
import os
import pathlib
import shutil
import signal
import sys
import tempfile
from typing import Sequence

import machine
from timing import Table
from workloads import Measure, Programs, Workload, built_programs, commands_in, compare_outputs, folder_of, outputs, ratios, workloads

SIGNALS = (signal.SIGINT, signal.SIGTERM, signal.SIGHUP)


class Over(BaseException):
    """The time that was given is over."""


class Ended(BaseException):
    """A signal has ended the program."""


def note(text: str) -> None:
    """Prints a line on standard error."""
    print(text, file=sys.stderr, flush=True)


def run(options: argparse.Namespace) -> int:
    """Measures the rows and prints them; returns the status."""
    try:
        set_signals(60 * options.minutes)
        return measure_rows(options)
    except Ended as it:
        note("broken off")
        return 128 + int(it.args[0])
    except Over:
        note(f"{options.minutes:g} minutes are over before the first row")
        return 1
    except OSError as error:
        note(f"{error.filename or 'the table or a temporary file'}: {error.strerror}")
        note(f"temporary files are in {tempfile.gettempdir()}; TMPDIR names another folder")
        # What is left of the table can't be written when Python ends.
        os.dup2(os.open(os.devnull, os.O_WRONLY), 1)
        return 1


def set_signals(seconds: float) -> None:
    """Has signals, and the end of the time that is given, raise what ends the measures."""
    def end(number: int, _: object) -> None:
        for it in SIGNALS:
            signal.signal(it, signal.SIG_IGN)
        raise Ended(number)

    def stop(*_: object) -> None:
        raise Over

    for it in SIGNALS:
        signal.signal(it, end)
    signal.signal(signal.SIGALRM, stop)
    signal.setitimer(signal.ITIMER_REAL, seconds)


def measure_rows(options: argparse.Namespace) -> int:
    """Measures each row by the ways that are there, and prints the table and the machine."""
    with tempfile.TemporaryDirectory(prefix="sfq-quick-") as name:
        room = pathlib.Path(name)
        note("the C programs and the peers are compiled")
        programs = built_programs(room, options.program)
        ways = {"instructions": Measure(False, 1), "time": Measure(True, options.repeats)}
        lacking = dict(programs.lacking)
        if shutil.which("valgrind") is None:
            del ways["instructions"]
            lacking["the count of instructions"] = "valgrind"
        for it, package in lacking.items():
            note(f"{it} is left out: apt-get install {package}")
        rows = [it for it in workloads(programs) if it.named and options.only in it.label]
        left = print_table(rows, room, programs, ways, options.largest)
    print(f"\n{machine.described()}", flush=True)
    if left:
        note(f"{options.minutes:g} minutes are over, so these are left out: {'; '.join(left)}")
    return 1 if left else 0


def print_table(rows: Sequence[Workload], room: pathlib.Path, programs: Programs, ways: dict[str, Measure], largest: int) -> list[str]:
    """Prints the table, and returns the tasks that were left out since the time was over."""
    print("sfq, divided by the fastest peer, and by a C program for that task alone\n", flush=True)
    table = Table(["task", *(f"{it}: {head}" for it in ways for head in ("fastest peer", "C program"))])
    tasks = [(it, it.sizes[: largest][-1]) for it in rows]
    for number, (workload, size) in enumerate(tasks, 1):
        try:
            table.add(row(f"{number} of {len(tasks)}", workload, size, room, programs, ways))
        except Over:
            return [it.name_of(at) for it, at in tasks[number - 1 :]]
    signal.setitimer(signal.ITIMER_REAL, 0)
    return []


def row(place: str, workload: Workload, size: int, room: pathlib.Path, programs: Programs, ways: dict[str, Measure]) -> list[str]:
    """Measures a row: its task, and the ratios by each way, start-up left out."""
    task = workload.name_of(size)
    bare, folder = (folder_of(room, workload, it) for it in (0, size))
    starts, commands = (commands_in(it, workload, programs) for it in (bare, folder))
    compare_outputs(outputs(commands, folder)[0], task)
    columns = [task]
    for name, how in ways.items():
        note(f"{place}: {task}: {name}")
        before, costs = how.costs(starts, bare), how.costs(commands, folder)
        columns += ratios(workload, {who: max(cost - before[who], 1) for who, cost in costs.items()})
    return columns
