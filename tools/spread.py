#!/usr/bin/env python3
"""Prints how far each row of ARCHITECTURE's table "Where to add a feature" is spread: how many crates and files name its example.

usage: python3 tools/spread.py [ROOT]

A file is one of src/, specs/ or proofs/. A row counts those that match its pattern in ROWS. It also prints how many crates each walk
of tools/walks.txt crosses, which the page says in words. ./lint reports each number of the page that differs.
"""
import os
import re
import sys

import counts
import repository

PAGE = "docs/ARCHITECTURE.md"
# The link of each row, with the pattern of its example.
ROWS = {
    "a-predicate": r"\bOverlaps\b|\bST_Overlaps\b",
    "a-geometry-type": r"\bMultiPolygon\b|\bMULTIPOLYGON\b",
    "a-column-type": r"\bINTEGER\b|\b(?:ColumnType(?:::|\.)|columns?\.|types?\.)Integer\b",
    "a-fault": r"\bUnequalRecord\b",
    "a-command": r"\bOrder::Pairs\b|\borders?\.Pairs\b|\bserve_pairs\b|\brelate_pairs\b",
    "a-clause-of-select": r"\bLIMIT\b|\b(?:query|bound|selection)(?:\.now|\.entry|\.old|\.new)*\.limit\b",
}
# The sentence of the page for each walk, up to its number.
WALKS = {"a printed row": r"\*\*A printed row\*\*[^.]*? goes through", "relate": r"\*\*A `relate`\*\*[^.]*? goes through"}
NUMBERS = "no one two three four five six seven eight nine ten eleven twelve thirteen fourteen fifteen sixteen seventeen eighteen".split()


def spread_of(pattern: str, root: str = repository.ROOT) -> tuple[int, int]:
    """Returns how many crates have files that match, and how many files do."""
    files = [len([it for it in repository.files_of(crate, root) if re.search(pattern, repository.read(it))]) for crate in repository.read_crates(root)]
    return sum(it > 0 for it in files), sum(files)


def walks_of(root: str = repository.ROOT) -> dict[str, int]:
    """Returns how many crates each walk crosses."""
    walks, _ = counts.walks_in(repository.read(f"{root}/{counts.WALKS}"))
    return {it.name: len(it.crates()) for it in walks}


def check(root: str = repository.ROOT) -> list[repository.Finding]:
    """Returns a finding for each number of the page that differs from what is measured, and for each row without a pattern."""
    found: list[repository.Finding] = []
    if not os.path.isfile(f"{root}/{PAGE}"):
        return []
    text = repository.read(f"{root}/{PAGE}")
    for row in re.finditer(r"^\| \[[^\]]*\]\(RECIPES\.md#([\w-]+)\) \|[^|]*\| *([^|]*?) *\|", text, re.M):
        line = text.count("\n", 0, row.start()) + 1
        if row[1] not in ROWS:
            found.append((PAGE, line, f"no pattern of tools/spread.py for {row[1]}"))
        elif row[2] != "{}; {}".format(*spread_of(ROWS[row[1]], root)):
            found.append((PAGE, line, "{} is spread over {} crates; {} files".format(row[1], *spread_of(ROWS[row[1]], root))))
    walks = walks_of(root) if os.path.isfile(f"{root}/{counts.WALKS}") else {}
    for name, sentence in WALKS.items():
        said = re.search(rf"{sentence}\s+(\w+)", text)
        if said and name in walks and said[1] != NUMBERS[walks[name]]:
            found.append((PAGE, text.count("\n", 0, said.end()) + 1, f"{name} goes through {NUMBERS[walks[name]]} crates"))
    return found


def main(words: list[str]) -> int:
    root = words[0] if words else repository.ROOT
    for name, pattern in ROWS.items():
        print("{}: {}; {}".format(name, *spread_of(pattern, root)))
    for name, crossed in walks_of(root).items():
        print(f"{name}: {crossed} crates")
    return 0


if __name__ == "__main__":
    repository.print_help(__doc__)
    sys.exit(main(sys.argv[1:]))
