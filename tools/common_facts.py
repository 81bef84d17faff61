#!/usr/bin/env python3
"""Prints the facts about std's types alone that are proved more than once: each statement, where it is proved, by what name.

usage: python3 tools/common_facts.py [--all] [ROOT]

Such a fact belongs in the crate basics. Two statements are one fact if they differ only in the names of bound variables, in how
these are grouped, in braces, and in parentheses that an operator doesn't need. --all also prints the facts that are proved once.
A lemma inside a `where` isn't counted.
"""
import collections
import glob
import os
import sys

import antt
import repository

# Where what a statement names may come from.
OF_STD = {"std", "mathlib", "native", "lib", "base", "Prim"}
HOME = "basics"


class Fact:
    """Where a fact is proved: the crate, the file from the root, the line, the name, the lines that it takes, its statement."""

    def __init__(self, crate: str, path: str, declaration: antt.Declaration) -> None:
        self.crate, self.path, self.line, self.name = crate, path, declaration.line, declaration.name
        self.statement, self.size = declaration.statement, len(declaration.lines)
        self.is_public = declaration.is_public


def facts_of(root: str = repository.ROOT) -> dict[str, list[Fact]]:
    """Returns the lemmas of proofs/ whose statements name nothing but std's, in lists by the form of their statements."""
    found: dict[str, list[Fact]] = collections.defaultdict(list)
    for crate in repository.read_crates(root):
        for path in sorted(glob.glob(f"{root}/crates/{crate}/proofs/**/*.antt", recursive=True)):
            with open(path, encoding="utf-8") as text:
                file = antt.File(text.read())
            for it in file.declarations:
                if it.kind != "lemma":
                    continue
                said = antt.Statement(file, it.statement)
                if not said.locals and {antt.origin(path) for path in said.paths} <= OF_STD and said.paths:
                    found[said.form].append(Fact(crate, os.path.relpath(path, root), it))
    return found


def repeated(found: dict[str, list[Fact]]) -> list[tuple[str, list[Fact]]]:
    """Returns the facts that are proved more than once, those of the most crates first."""
    return [(form, its) for form, its in found.items() if len(its) > 1]


def crates_of(its: list[Fact]) -> int:
    return len({it.crate for it in its})


def show(its: list[Fact]) -> None:
    print(f"{len(its)} times in {crates_of(its)} crates: {its[0].statement}")
    for it in its:
        print(f"    {it.path}:{it.line}: {'pub ' if it.is_public else ''}{it.name} ({it.size} lines)")


def counted(shown: list[tuple[str, list[Fact]]]) -> str:
    proofs = [it for _, its in shown for it in its]
    return f"{len(shown)} facts, proved {len(proofs)} times in {sum(it.size for it in proofs)} lines"


def main(words: list[str]) -> None:
    found = facts_of(*[it for it in words if it != "--all"][:1])
    shown = list(found.items()) if "--all" in words else repeated(found)
    for _, its in sorted(shown, key=lambda it: (-crates_of(it[1]), -len(it[1]), it[0])):
        show(its)
    print(f"{counted(shown)}; by several crates: {counted([it for it in shown if crates_of(it[1]) > 1])}")


if __name__ == "__main__":
    repository.print_help(__doc__)
    main(sys.argv[1:])
