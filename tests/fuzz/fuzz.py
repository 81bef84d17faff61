#!/usr/bin/env python3
"""Runs sfq on changed rows of the tests' scripts, and prints each case in which it does what it may not do.

It needs the programs that ./build and `rt run` in crates/gauge make. Without gauge, matrices aren't compared with labels. It
ends with status 1 if a case fails; the last lines count what runs ended in, even if it is interrupted.
"""
import argparse
import multiprocessing
import os
import runpy
import shutil
import signal
import sys
import tempfile
import time

ROOT = os.path.dirname(os.path.dirname(os.path.dirname(os.path.realpath(__file__))))
runpy.run_path(f"{ROOT}/tools/paths.py")

import proving
import repository

from fuzz import cases, checks, reducer

GAUGE = f"{repository.ROOT}/crates/gauge/out/gauge"
# How many cases a process takes at a time, and after how many failing ones no more are taken or printed.
TAKEN, ENOUGH = 50, 5
# How long a failing case is made smaller, in seconds.
SECONDS = 60


def options_of(words):
    parser = argparse.ArgumentParser(description=__doc__.splitlines()[0])
    parser.add_argument("--cases", type=int, default=1000, help="how many cases (1000)")
    parser.add_argument("--seed", type=int, help="the seed (a random one)")
    parser.add_argument("--minutes", type=float, default=float("inf"), help="begin no more after these minutes")
    parser.add_argument("--only", type=int, metavar="CASE", help="only the case of this number")
    parser.add_argument("--processes", type=int, default=proving.processors(), help="how many at a time (the processors)")
    parser.add_argument("--program", default=repository.PROGRAM, help="the program (what ./build made)")
    parser.add_argument("--gauge", default=GAUGE, help="the program gauge (what `rt run` made)")
    return parser.parse_args(words)


def tried(options, first, last):
    """Tries the cases of these numbers; returns how many runs they took, what they ended in, and the texts of those that fail."""
    with tempfile.TemporaryDirectory(prefix="sfq-fuzz-") as room:
        gauge = options.gauge if os.path.isfile(options.gauge) else None
        programs = checks.Programs(options.program, gauge, f"{room}/files")
        found = []
        for number in range(first, last):
            case = cases.case(options.seed, number)
            what = checks.wrong(case, programs)
            if what and len(found) < ENOUGH:
                found.append(report(options, number, case, programs))
        return programs.runs, programs.kinds, found


def report(options, number, case, programs):
    """Makes a failing case smaller for a while, and returns a text of it."""
    end = time.monotonic() + SECONDS
    smaller = reducer.reduced(case, lambda it: time.monotonic() < end and checks.wrong(it, programs) is not None)
    what = checks.wrong(smaller, programs) or "it doesn't fail again"
    again = f"python3 tests/fuzz/fuzz.py --seed {options.seed} --only {number}"
    return f"case {number} of seed {options.seed}: {what}\n made smaller:\n{smaller.shown()} again: {again}\n"


def stretches(options):
    """Returns the first and last numbers that a process takes, until the minutes are over."""
    begun = time.monotonic()
    for first in range(0, options.cases, TAKEN):
        if time.monotonic() - begun > options.minutes * 60:
            return
        yield options, first, min(options.cases, first + TAKEN)


def all_tried(options):
    if options.only is not None:
        yield tried(options, options.only, options.only + 1), 1
        return
    # The scripts are read before, so that each process has them.
    cases.case(options.seed, 0)
    with multiprocessing.Pool(options.processes, signal.signal, (signal.SIGINT, signal.SIG_IGN)) as pool:
        waiting = []
        for it in stretches(options):
            waiting.append((pool.apply_async(tried, it), it[2] - it[1]))
            if len(waiting) > 2 * options.processes:
                result, count = waiting.pop(0)
                yield result.get(), count
        for result, count in waiting:
            yield result.get(), count


def main(words):
    options = options_of(words)
    if options.seed is None:
        options.seed = int.from_bytes(os.urandom(4), "big")
    with tempfile.TemporaryDirectory(prefix="sfq-fuzz-") as room:
        if not os.path.isfile(options.program):
            repository.fail("needs ./build")
        # A build may replace the program while this runs.
        options.program = shutil.copy(options.program, f"{room}/sfq")
        return fuzz(options)


def fuzz(options):
    print(f"seed {options.seed}{'' if os.path.isfile(options.gauge) else ', without gauge'}", flush=True)
    runs, count, kinds, failed = 0, 0, {}, 0
    try:
        for (more, ended, found), tried_now in all_tried(options):
            runs, count, failed = runs + more, count + tried_now, failed + len(found)
            for kind, times in ended.items():
                kinds[kind] = kinds.get(kind, 0) + times
            for it in found:
                print(it, flush=True)
            if failed >= ENOUGH:
                break
    except KeyboardInterrupt:
        print("broken off")
    print(", ".join(f"{kinds[kind]} {kind}" for kind in sorted(kinds)))
    print(f"{count} cases, {runs} runs, {failed} failing")
    return 1 if failed else 0


if __name__ == "__main__":
    sys.exit(main(sys.argv[1:]))
