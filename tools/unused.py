#!/usr/bin/env python3
"""Prints the functions that nothing uses, and the public ones that nothing outside their crate uses.

usage: python3 tools/unused.py [ROOT]

A function is used where its name is in the sources of a crate, beyond its own declaration. Comments don't count, and tests do. So a
name that two functions share hides that one of them is unused. Left out are laws, which return and change nothing, the calls of
traits, and what C may call; and in a crate that no other one uses the word `pub`.

tools/unused.txt lists those that stay, in groups, each with its reason. ./lint reports each other one, and each entry of the list
that is used by now.
"""
import collections
import os
import re
import sys
from typing import NamedTuple

import contracts
import repository
import twins

LIST = "tools/unused.txt"
NAME = re.compile(r"\w+")
COMMENT = re.compile(r"//[^\n]*")


class Function(NamedTuple):
    """A function: its crate, its file from the root, its line, its name, and whether other crates can name it."""

    crate: str
    path: str
    line: int
    name: str
    is_public: bool

    @property
    def key(self) -> str:
        return f"{self.path} {self.name}"


def module_of(path: str) -> str:
    """Returns the module of a source below the folder `src`."""
    return path.partition("/src/")[2].removesuffix(".rt").replace("/", "::")


def is_left_out(item: contracts.Item) -> bool:
    """Whether an item is no function, a law, a call of a trait, or one that C may call."""
    is_law = "->" not in item.signature and "&mut" not in item.signature
    return item.kind != "function" or is_law or bool(item.trait) or "extern" in item.signature


def functions_in(crate: str, path: str, text: str, top: contracts.Root) -> list[Function]:
    """Returns the functions of a source that have a body and aren't left out."""
    lines = {name: line for name, line, _ in twins.functions_of(text)}
    found = [it for it in contracts.items_of(crate, module_of(path), text) if it.name in lines and not is_left_out(it)]
    return [Function(crate, path, lines[it.name], it.name, top.shows(it)) for it in found]


def functions_of(root: str) -> tuple[list[Function], dict[str, collections.Counter[str]]]:
    """Returns the functions of all libraries, and how often each name is in the sources of each crate."""
    found: list[Function] = []
    names: dict[str, collections.Counter[str]] = {}
    for crate in repository.read_crates(root):
        names[crate] = collections.Counter()
        library = f"{root}/crates/{crate}/src/lib.rt"
        top = contracts.Root(repository.read(library), True) if os.path.isfile(library) else None
        for path in (it for it in repository.files_of(crate, root) if it.endswith(".rt")):
            text = repository.read(path)
            names[crate].update(NAME.findall(COMMENT.sub("", text)))
            if top is not None and "#[test]" not in text:
                found += functions_in(crate, os.path.relpath(path, root), text, top)
    return found, names


def unused_in(root: str = repository.ROOT) -> list[tuple[Function, str]]:
    """Returns each function that is used too little, with what is wrong."""
    found = []
    functions, names = functions_of(root)
    below = set().union(*repository.read_crates(root).values())
    for it in functions:
        if sum(named[it.name] for named in names.values()) <= 1:
            found.append((it, "nothing uses it"))
        elif it.is_public and it.crate in below and not any(named[it.name] for crate, named in names.items() if crate != it.crate):
            found.append((it, "it is public, and nothing outside its crate uses it"))
    return found


def check(root: str = repository.ROOT) -> list[repository.Finding]:
    """Returns a finding for each function that is used too little and isn't in the list, and for each entry that is used."""
    found: list[repository.Finding] = []
    unused = unused_in(root)
    listed = {key: line for group in twins.groups_of(root, LIST) for key, line in group.lines.items()}
    for it, what in unused:
        if it.key not in listed:
            found.append((it.path, it.line, f"{it.name}: {what}; or say in {LIST} why it stays"))
    keys = {it.key for it, _ in unused}
    return found + [(LIST, line, f"{key} is used, or isn't there") for key, line in listed.items() if key not in keys]


def main(words: list[str]) -> int:
    if len(words) > 1 or any(it.startswith("-") for it in words):
        print((__doc__ or "").strip(), file=sys.stdout if words == ["--help"] else sys.stderr)
        return 0 if words == ["--help"] else 2
    for it, what in unused_in(*words):
        print(f"{it.path}:{it.line} {it.name}: {what}")
    return 0


if __name__ == "__main__":
    repository.print_help(__doc__)
    sys.exit(main(sys.argv[1:]))
