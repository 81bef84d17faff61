#!/usr/bin/env python3
"""What each crate may have no more of: a table has the number of each crate, and ./lint reports a crate that is past its own.

usage: python3 tools/recorded.py

It writes the numbers that fell into the tables, and prints them. A number that rises is written by nothing.
"""
import glob
import os
import re
import sys
from typing import Callable

import common_facts
import repository
from repository import read, write_whole

COLUMNS = 130


def long_lines(root: str = repository.ROOT) -> dict[str, int]:
    """Returns how many lines of its proofs/ are long in each crate. An import is as long as its names."""
    found = {}
    for crate in repository.read_crates(root):
        paths = glob.glob(f"{root}/crates/{crate}/proofs/**/*.antt", recursive=True)
        lines = [line for it in paths for line in read(it).split("\n")]
        found[crate] = sum(len(it) > COLUMNS and not re.match(r"(?:pub )?use ", it) for it in lines)
    return found


def own_facts(root: str = repository.ROOT) -> dict[str, int]:
    """Returns how many facts over std's types alone each crate proves, but for the crate that they belong in."""
    found = {it: 0 for it in repository.read_crates(root) if it != common_facts.HOME}
    for its in common_facts.facts_of(root).values():
        for it in its:
            if it.crate in found:
                found[it.crate] += 1
    return found


class Table:
    """A table of numbers by crate: its file, what it counts, how that is said of a crate, and what to do about more."""

    def __init__(self, path: str, counted: Callable[[str], dict[str, int]], said: str, remedy: str) -> None:
        self.path, self.counted, self.said, self.remedy = path, counted, said, remedy

    def numbers(self, root: str) -> dict[str, tuple[int, int]]:
        """Returns the number of each crate that is recorded, with its line."""
        heads = [re.fullmatch(r"(\w+) (\d+)", line) for line in read(f"{root}/{self.path}").splitlines()]
        return {it[1]: (int(it[2]), number) for number, it in enumerate(heads, 1) if it}

    def over(self, root: str) -> tuple[list[repository.Finding], int, int]:
        """Returns the crates that have more than is recorded, as triples of a file, a line and a text; and how many there are in all."""
        found: list[repository.Finding] = []
        recorded, counted = self.numbers(root), self.counted(root)
        for crate, number in counted.items():
            most, line = recorded.get(crate, (0, 1))
            if number > most:
                found.append((self.path, line, f"{crate} has {number} {self.said}, of at most {most}: {self.remedy}"))
        return found, sum(counted.values()), sum(it for it, _ in recorded.values())

    def lower(self, root: str) -> list[tuple[str, int, int]]:
        """Writes the numbers that fell, without crates that have none, and returns these crates with the number before and now."""
        lines: list[str] = []
        fell: list[tuple[str, int, int]] = []
        counted = self.counted(root)
        for line in read(f"{root}/{self.path}").splitlines():
            head = re.fullmatch(r"(\w+) (\d+)", line)
            if head:
                before, now = int(head[2]), min(int(head[2]), counted.get(head[1], 0))
                fell += [(head[1], before, now)] if now < before else []
                lines += [f"{head[1]} {now}"] if now else []
            else:
                lines.append(line)
        write_whole(f"{root}/{self.path}", "".join(f"{it}\n" for it in lines))
        return fell


TABLES = [
    Table("tools/long_lines.txt", long_lines, f"lines of over {COLUMNS} columns in proofs/", "break the new ones"),
    Table("tools/common_facts.txt", own_facts, "facts over std's types alone in proofs/",
          f"a new one belongs in {common_facts.HOME}, where it may be already"),
]


def check(root: str = repository.ROOT) -> tuple[list[repository.Row], list[repository.Finding]]:
    """Returns rows of counts, and the findings of all tables that are there."""
    rows: list[repository.Row] = []
    found: list[repository.Finding] = []
    for table in TABLES:
        if os.path.isfile(f"{root}/{table.path}"):
            more, total, recorded = table.over(root)
            rows.append((table.said, total, f"{recorded:,} are recorded"))
            found += more
    return rows, found


def main() -> int:
    for table in TABLES:
        for crate, before, now in table.lower(repository.ROOT):
            print(f"{table.path}: {crate} {before} -> {now}")
    return 0


if __name__ == "__main__":
    repository.print_help(__doc__)
    sys.exit(main())
