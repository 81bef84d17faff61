#!/usr/bin/env python3
"""Prints how large the repository is, and what a reader has to go through: ./lint prints the same at its end.

usage: python3 tools/counts.py [ROOT]

It ends with status 1 if a count is past its bound, or if tools/walks.txt names a function that isn't there.
"""
import glob
import os
import re
import shutil
import statistics
import subprocess
import sys
from typing import Optional

import proved_page
import repository

MOST_CRATES, MOST_ENTRIES = 47, 22
MOST_EDITS, MOST_CRATES_WITH_EDITS = 30, 7
WALKS = "tools/walks.txt"


class Walk:
    """A way through the code: its name, how many crates it may cross, the line that begins it, the functions of each line."""

    def __init__(self, name: str, most: int, line: int) -> None:
        self.name, self.most, self.line = name, most, line
        self.functions: list[tuple[int, str]] = []

    def crates(self) -> list[str]:
        return sorted({it.partition("::")[0] for _, it in self.functions})


def walks_in(text: str) -> tuple[list[Walk], list[tuple[int, str]]]:
    """Returns the walks of a text, as tools/walks.txt has them, and the lines that are none."""
    found: list[Walk] = []
    wrong: list[tuple[int, str]] = []
    for number, line in enumerate(text.splitlines(), 1):
        head = re.fullmatch(r"(.*), at most (\d+) crates:", line)
        if head:
            found.append(Walk(head[1], int(head[2]), number))
        elif re.fullmatch(r"\w+(?:::\w+){2,3}", line) and found:
            found[-1].functions.append((number, line))
        elif line.strip() and not line.startswith("#"):
            wrong.append((number, f"neither a function nor the head of a walk: {line}"))
    return found, wrong


def functions_of(crate: str, root: str) -> list[str]:
    """Returns the names of the functions of a crate, as tools/walks.txt writes them, of those that have a body."""
    found = []
    for path in sorted(glob.glob(f"{root}/crates/{crate}/src/**/*.rt", recursive=True)):
        module = os.path.basename(path)[: -len(".rt")]
        for it in proved_page.functions_in(crate, module, repository.read(path)):
            if it.body:
                found.append("::".join(part for part in (crate, module, it.owner, it.name) if part))
    return found


def ways_down(crates: dict[str, list[str]]) -> int:
    """Returns how many ways lead from each crate down through the crates that it uses, the sum over all crates."""
    ways: dict[str, int] = {}

    def below(crate: str) -> int:
        if crate not in ways:
            ways[crate] = sum(1 + below(it) for it in crates[crate] if it in crates)
        return ways[crate]

    return sum(below(it) for it in crates)


def lines_below(folder: str) -> int:
    """Returns how many lines the files below a folder have, without what builds leave in out/."""
    total = 0
    for at, folders, names in os.walk(folder):
        folders[:] = [it for it in folders if it not in ("out", "__pycache__")]
        for name in names:
            with open(f"{at}/{name}", "rb") as file:
                total += file.read().count(b"\n")
    return total


def root_entries(root: str) -> Optional[int]:
    """Returns how many entries of the root are tracked, those that begin with a dot among them; None where git has none of it."""
    if not os.path.exists(f"{root}/.git") or not shutil.which("git"):
        return None
    ran = subprocess.run(["git", "-C", root, "ls-files", "-z"], capture_output=True, text=True)
    return len({it.partition("/")[0] for it in ran.stdout.split("\0") if it}) or None


def checked_walks(text: str, functions: set[str]) -> tuple[list[repository.Row], list[repository.Finding]]:
    """Returns rows of counts, and findings as triples, of the walks of a text over the names of all functions."""
    walks, wrong = walks_in(text)
    found = [(WALKS, number, what) for number, what in wrong]
    for walk in walks:
        crates = walk.crates()
        if len(crates) > walk.most:
            what = f"{walk.name} crosses {len(crates)} crates of at most {walk.most}: {', '.join(crates)}"
            found.append((WALKS, walk.line, what))
        found += [(WALKS, number, f"no function {it}") for number, it in walk.functions if it not in functions]
    rows: list[repository.Row] = [(f"crates crossed by {it.name}", len(it.crates()), f"at most {it.most}") for it in walks]
    return rows, found


def count(root: str = repository.ROOT) -> tuple[list[repository.Row], list[repository.Finding]]:
    """Returns the counts as rows of a name, a number and a remark, and the findings as triples of a file, a line and a text."""
    crates = repository.read_crates(root)
    functions = {it: functions_of(it, root) for it in crates}
    greatest = max(crates, key=lambda it: len(functions[it]), default="")
    edits = {it: len(glob.glob(f"{root}/crates/{it}/must-fail/*.edit")) for it in crates}
    with_edits = [it for it in crates if edits[it]]
    total = sum(edits.values())
    median = statistics.median(len(it) for it in functions.values()) if crates else 0
    rows: list[repository.Row] = [
        ("crates", len(crates), f"at most {MOST_CRATES}"),
        ("ways down through crates.txt", ways_down(crates), ""),
        ("functions a crate, in the median", median, f"greatest: {len(functions.get(greatest, []))}, {greatest}"),
        ("lines of crates/", lines_below(f"{root}/crates"), ""),
        ("edits in must-fail/", total, f"in {len(with_edits)} crates; at most {MOST_EDITS} in {MOST_CRATES_WITH_EDITS}"),
    ]
    found: list[repository.Finding] = []
    entries = root_entries(root)
    if entries:
        rows.append(("tracked entries of the root", entries, f"at most {MOST_ENTRIES}"))
    if entries and entries > MOST_ENTRIES:
        found.append(("README.md", 1, f"{entries} tracked entries of the root, of at most {MOST_ENTRIES}"))
    if len(crates) > MOST_CRATES:
        found.append(("crates.txt", 1, f"{len(crates)} crates of at most {MOST_CRATES}"))
    if total > MOST_EDITS or len(with_edits) > MOST_CRATES_WITH_EDITS:
        what = f"{total} edits in must-fail/ of {len(with_edits)} crates, of at most {MOST_EDITS} in {MOST_CRATES_WITH_EDITS}"
        found.append(("crates", 1, what))
    if os.path.isfile(f"{root}/{WALKS}"):
        names = {it for its in functions.values() for it in its}
        more, wrong = checked_walks(repository.read(f"{root}/{WALKS}"), names)
        rows, found = rows + more, found + wrong
    return rows, found


def shown(rows: list[repository.Row]) -> list[str]:
    """Returns rows of counts as lines, one below the other."""
    width = max(len(name) for name, _, _ in rows)
    numbers = [int(it) if it == int(it) else it for _, it, _ in rows]
    return [f"{name:<{width}} {it:>8,}  {remark}".rstrip() for (name, _, remark), it in zip(rows, numbers)]


def main(words: list[str]) -> int:
    rows, found = count(*words)
    for path, line, what in found:
        print(f"{path}:{line}: {what}")
    print("\n".join(shown(rows)))
    return 1 if found else 0


if __name__ == "__main__":
    repository.print_help(__doc__)
    sys.exit(main(sys.argv[1:]))
