"""The edits in edits/ that the gate tries, over the libraries that `rt ci` left proved.

Edits of different functions of a crate are tried by one check, of these functions alone. A check without an edit comes first: it
has to prove what the others must not.
"""
import functools
import glob
import os
import shutil
import tempfile
from typing import Iterable

import calls
import edits
import parts
import repository

ROOT = repository.ROOT
# What a check of a crate reads.
READ = ("src", "specs", "proofs")


def marked() -> dict[str, list[edits.Edit]]:
    """Returns by crate the edits that have the mark."""
    found: dict[str, list[edits.Edit]] = {}
    for path in sorted(glob.glob(f"{ROOT}/crates/*/edits/*.edit")):
        edit = edits.Edit(path)
        if edit.is_marked:
            found.setdefault(os.path.relpath(path, f"{ROOT}/crates").split(os.sep)[0], []).append(edit)
    return found


def check(crate: str, place: str, functions: Iterable[str]) -> tuple[int, str]:
    """Checks functions of the copy of a crate, and returns the status and what the check wrote."""
    kit = calls.find_kit()
    words = [f"{kit}/bin/rattle", "check", *calls.words_over(kit, crate, ROOT)]
    for it in sorted(functions):
        words += ["--only", it.partition("::")[2]]
    status, out, err = parts.run(words, place)
    return status, out + err


def try_crate(crate: str, tried: list[edits.Edit]) -> parts.Report:
    """Tries the marked edits of a crate."""
    with tempfile.TemporaryDirectory(prefix="sfq-edits-") as place:
        for it in READ:
            if os.path.isdir(f"{ROOT}/crates/{crate}/{it}"):
                shutil.copytree(f"{ROOT}/crates/{crate}/{it}", f"{place}/{it}")
        groups, left = edits.parted(crate, place, tried)
        texts, root = edits.texts_of(place, tried), edits.root_of(place)
        failures = [failure(crate, it, "It changes no function, so the gate can't try it.") for it in left]
        status, said = check(crate, place, set[str]().union(*(it.functions(crate, texts[it.file], root) for it in tried)))
        if status:
            return parts.Report(failures=[*failures, *(failure(crate, it, f"Without an edit:\n{said}") for group in groups for it in group)])
        # A check of several functions may say of one only that it calls another: such an edit is tried alone.
        unsettled = [it for group in groups for it in unrefused(crate, place, group)[0]]
        for edit in unsettled:
            kept, said = unrefused(crate, place, [edit])
            failures += [failure(crate, it, said) for it in kept]
    return parts.Report(len(tried) - len(failures), failures)


def unrefused(crate: str, place: str, group: list[edits.Edit]) -> tuple[list[edits.Edit], str]:
    """Returns those of a group of edits that a check doesn't refuse, and what the check wrote. The copy of the crate stays as it was."""
    known = edits.texts_of(place, group)
    root = edits.root_of(place)
    names = {edit.path: edit.functions(crate, known[edit.file], root) for edit in group}
    edits.write(place, edits.changed(known, group) or {})
    _, said = check(crate, place, set[str]().union(*names.values()))
    edits.write(place, known)
    refused = edits.refused_in(said)
    return [it for it in group if not names[it.path] & refused], said


def failure(crate: str, edit: edits.Edit, text: str) -> parts.Failure:
    return parts.Failure(f"edit {crate}/{edit.name}", text, f"./test --edits {crate}")


def parts_of_gate() -> list[parts.Part]:
    """Returns a part for each crate that has marked edits, the one with most of them first."""
    found = sorted(marked().items(), key=lambda it: -len(it[1]))
    return [parts.Part(f"edits of {crate}", functools.partial(try_crate, crate, tried)) for crate, tried in found]
