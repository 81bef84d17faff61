#!/usr/bin/env python3
"""Prints pairs of functions, definitions and lemmas that are alike but for their names: what could be written once.

usage: python3 tools/twins.py [--alike PERCENT] [ROOT]

It compares the functions of src/ and the declarations of specs/ and proofs/ in all crates, if they have more than 12 lines
without comments and empty lines. Two of them are as alike as the share of the larger one's windows that the other one has too.
A window is 12 tokens in a row, and the names in it are numbered in their order, so that it doesn't depend on what they are.

tools/twins.txt lists those that stay two, in groups, each with its reason. ./lint reports each other pair that is alike by 90 percent
or more, and each entry of the list that has no twin in its group any more.
"""
import argparse
import collections
import itertools
import os
import re
import sys
from typing import Iterator, NamedTuple

import antt
import repository

LIST = "tools/twins.txt"
# The most lines of what isn't compared, the tokens of a window, from how many percent on two are twins, and how many may have a
# window before it is too common to find twins by.
FEW_LINES, WINDOW, ALIKE, COMMON = 12, 12, 90, 12
TOKEN = re.compile(r"[^\W\d][\w'!?-]*|\d+|\"[^\"]*\"|'[^']'|\S")
COMMENT = re.compile(r"//[^\n]*|^ *--[^\n]*", re.M)
FUNCTION = re.compile(r"^( *)(?:pub(?:\([a-z]+\))? )?(?:const )?(?:unsafe )?fn (\w+)", re.M)
KEYWORDS = set("abbrev as by else ensures fn for ghost if impl in let loop match mut pub record requires return use where while".split())


class Unit(NamedTuple):
    """A function or a declaration: its file from the root, its line, its name, and its windows."""

    path: str
    line: int
    name: str
    windows: frozenset[tuple[object, ...]]

    @property
    def key(self) -> str:
        return f"{self.path} {self.name}"


def functions_of(text: str) -> Iterator[tuple[str, int, str]]:
    """Returns the name, the line and the text of each function of a source: it ends at the first brace under its begin."""
    for head in FUNCTION.finditer(text):
        end = re.compile(rf"^{head[1]}(?:\{{\}}|\}})", re.M).search(text, head.end())
        if end:
            yield head[2], text.count("\n", 0, head.start()) + 1, text[head.start():end.end()]


def declarations_of(text: str) -> Iterator[tuple[str, int, str]]:
    """Returns the name, the line and the text of each declaration of a file of specs/ or proofs/."""
    for it in antt.File(text).declarations:
        yield it.name, it.line, it.text()


def is_name(token: str) -> bool:
    return (token[0].isalpha() or token[0] == "_") and token not in KEYWORDS


def window(tokens: list[str]) -> tuple[object, ...]:
    """Returns tokens with each name replaced by its number, in the order in which names come."""
    numbers: dict[str, int] = {}
    return tuple(numbers.setdefault(it, len(numbers)) if is_name(it) else it for it in tokens)


def units_of(root: str = repository.ROOT) -> list[Unit]:
    """Returns all that is compared."""
    found = []
    for crate in repository.read_crates(root):
        for path in repository.files_of(crate, root):
            text = repository.read(path)
            for name, line, part in (functions_of if path.endswith(".rt") else declarations_of)(text):
                part = COMMENT.sub("", part)
                tokens = TOKEN.findall(part)
                if sum(bool(it.strip()) for it in part.split("\n")) > FEW_LINES:
                    windows = frozenset(window(tokens[at:at + WINDOW]) for at in range(max(1, len(tokens) - WINDOW + 1)))
                    found.append(Unit(os.path.relpath(path, root), line, name, windows))
    return found


def alike(one: Unit, other: Unit) -> int:
    """Returns by how many percent two are alike."""
    return 100 * len(one.windows & other.windows) // max(len(one.windows), len(other.windows))


def pairs_of(units: list[Unit], least: int = ALIKE) -> list[tuple[int, Unit, Unit]]:
    """Returns the pairs that are alike by at least so many percent, with the number, those that are most alike first."""
    having: dict[tuple[object, ...], list[int]] = collections.defaultdict(list)
    for at, unit in enumerate(units):
        for it in unit.windows:
            having[it].append(at)
    near = {pair for its in having.values() if len(its) <= COMMON for pair in itertools.combinations(its, 2)}
    sizes = [len(it.windows) for it in units]
    near = {it for it in near if 100 * min(sizes[it[0]], sizes[it[1]]) >= least * max(sizes[it[0]], sizes[it[1]])}
    found = [(alike(units[one], units[other]), units[one], units[other]) for one, other in near]
    return sorted((it for it in found if it[0] >= least), key=lambda it: (-it[0], it[1].key, it[2].key))


class Group(NamedTuple):
    """Units of the list that stay apart, each by its file and name, with the line of each, and why."""

    why: str
    lines: dict[str, int]


def groups_of(root: str = repository.ROOT, listed: str = LIST) -> list[Group]:
    """Returns the groups of a list: a line with a reason, and below it one for each unit; an empty line between groups."""
    groups: list[Group] = []
    path = f"{root}/{listed}"
    begins = True
    for number, line in enumerate(repository.read(path).splitlines() if os.path.isfile(path) else [], 1):
        if not line.strip():
            begins = True
        elif not line.startswith("#"):
            if begins:
                groups.append(Group(line, {}))
            else:
                groups[-1].lines[line] = number
            begins = False
    return groups


def check(root: str = repository.ROOT) -> list[repository.Finding]:
    """Returns a finding for each pair that isn't in one group of the list, and for each entry without a twin."""
    found: list[repository.Finding] = []
    groups = groups_of(root)
    twins: set[tuple[int, str]] = set()
    for share, one, other in pairs_of(units_of(root)):
        both = [at for at, it in enumerate(groups) if one.key in it.lines and other.key in it.lines]
        twins |= {(at, it.key) for at in both for it in (one, other)}
        if not both:
            said = f"{one.name} is {share} percent alike {other.name} at {other.path}:{other.line}: write it once, or say in {LIST} why not"
            found.append((one.path, one.line, said))
    for at, group in enumerate(groups):
        found += [(LIST, line, f"{it} has no twin in its group") for it, line in group.lines.items() if (at, it) not in twins]
    return found


def main() -> int:
    reader = argparse.ArgumentParser(description="Prints pairs of functions, definitions and lemmas that are alike but for their names.")
    reader.add_argument("--alike", type=int, default=ALIKE, metavar="PERCENT", help=f"from how many percent on ({ALIKE})")
    reader.add_argument("root", nargs="?", default=repository.ROOT, help="the repository (this one)")
    words = reader.parse_args()
    for share, one, other in pairs_of(units_of(words.root), words.alike):
        print(f"{share} {one.path}:{one.line} {one.name} ~ {other.path}:{other.line} {other.name}")
    return 0


if __name__ == "__main__":
    sys.exit(main())
