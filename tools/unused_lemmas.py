#!/usr/bin/env python3
"""Prints the lemmas that no other lemma, definition or clause uses.

usage: python3 tools/unused_lemmas.py [ROOT]

A lemma is used if its name is in a source beyond its own declaration and beyond imports: in proofs, definitions, Rattle's sources,
edits, and the pages and lists that name laws. So a name that two lemmas share hides that one of them is unused. Files of answers and
invariants are left out, because the prover asks for what is in them by name.
"""
import collections
import os
import pathlib
import re
import sys

import antt
import repository

# What a name ends at.
BREAK = re.compile(r"[\s(){}\[\],;:.`\"|]+")
RENAMED = re.compile(r"(\S+) as \S+[,}]")
IMPORT = re.compile(r"^(?:pub )?use [^{\n]*(?:\{[^}]*\})?", re.M)
REMARK = re.compile(r"^\s*-- .*", re.M)
ASKED_FOR = ("Answers.antt", "Invariants.antt", "Proof.antt", "Lib.antt")
PAGES = ("docs/*.md", "tools/*.txt", "crates/*/must-fail/*.edit", "crates/*/edits/*.edit", "crates/**/*.rt")


def words_of(text: str) -> collections.Counter[str]:
    """Returns how often each name is in a text without its comments, and of its imports only in those under another name."""
    kept = IMPORT.sub(lambda it: " ".join(RENAMED.findall(it[0])), text)
    return collections.Counter(BREAK.split(REMARK.sub("", kept)))


def texts_of(root: str, pattern: str) -> list[tuple[str, str]]:
    """Returns the files below the root whose paths have a form, in order: each with its path from the root and its text."""
    return [(path.relative_to(root).as_posix(), path.read_text(encoding="utf-8")) for path in sorted(pathlib.Path(root).glob(pattern))]


def check(root: str = repository.ROOT) -> list[repository.Finding]:
    """Returns a finding for each lemma that nothing uses, in the order of the files."""
    uses: collections.Counter[str] = collections.Counter()
    for pattern in PAGES:
        for _, text in texts_of(root, pattern):
            uses.update(BREAK.split(text))
    lemmas: list[tuple[str, antt.Declaration]] = []
    for path, text in texts_of(root, "crates/*/**/*.antt"):
        uses.update(words_of(text))
        if os.path.basename(path) not in ASKED_FOR and "/proofs/" in path:
            lemmas += [(path, it) for it in antt.File(text).declarations if it.kind in ("lemma", "definition") and "◌" not in it.name]
    return [
        (path, it.line, f"nothing uses the lemma {it.name}")
        for path, it in lemmas
        if uses[it.name] <= words_of(it.text())[it.name]
    ]


if __name__ == "__main__":
    repository.print_help(__doc__)
    for found in check(*sys.argv[1:2]):
        print("{}:{}: {}".format(*found))
