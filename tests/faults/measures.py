#!/usr/bin/env python3
"""Prints how many calls of each kind each command makes, and how much stack the deepest inputs take.

Run it where ./build has made the program: python3 tests/faults/measures.py. docs/FAULT-TESTING.md has its tables.
"""
import os
import runpy

ROOT = os.path.dirname(os.path.dirname(os.path.dirname(os.path.realpath(__file__))))
runpy.run_path(f"{ROOT}/tools/paths.py")

from faults import deep, sweeps

import repository


def table(head, rows):
    """Returns the text of a table, as a document has it."""

    def line(cells):
        text = " | ".join(map(str, cells))
        return f"| {text} |\n".replace("*", "\\*")

    return line(head) + "|---" * len(head) + "|\n" + "".join(map(line, rows))


def calls():
    """Returns the table of how many calls of each kind each command makes. None calls fstat or statx."""
    kinds = [it for it in sweeps.CALLS if it not in ("fstat", "statx")]
    rows = ([it, *(sweeps.whole(it).counts[kind] for kind in kinds)] for it in sweeps.COMMANDS)
    return table(["command", "growths of memory", "reads", "writes", "opens"], rows)


def stacks():
    """Returns the table of how much stack the deepest inputs take."""
    return table(["input", "KB of stack"], ((it, deep.least_stack(words)) for it, words in deep.cases().items()))


def main():
    if not repository.is_built():
        repository.fail("needs ./build")
    print(f"{calls()}\n{stacks()}")


if __name__ == "__main__":
    main()
