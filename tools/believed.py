"""What the clauses of calls come down to, definition by definition: what a page has to have for whoever believes the clauses."""
import functools
import importlib.util
import os
import re
from typing import Iterable

import antt
import closure
import contracts
import repository

# A definition: its crate, its file in specs/, its name.
Definition = tuple[str, str, str]
WORD = re.compile(r"[^\s(){},;]+")


def definition_at(path: str) -> list[Definition]:
    """Returns the definition that a path leads to: none for the kit's, for a proof, and for a type that a source declares."""
    parts = path.split(".")
    is_own = len(parts) > 4 and parts[0] == "Rattle" and parts[2] == "specs" and parts[3] not in ("declared", "contracts")
    return [(parts[1], parts[3], parts[4])] if is_own and parts[1] in repository.read_crates() else []


def paths_of(text: str, imports: dict[str, str], modules: dict[str, str]) -> set[str]:
    """Returns the paths of the names that a text of the logic has."""
    found = set()
    for word in set(WORD.findall(text)):
        head, _, rest = word.partition(".")
        if word in imports or head in imports:
            found.add(imports[word] if word in imports else imports[head])
        elif rest and head in modules:
            found.add(f"{modules[head]}.{rest}")
    return found


@functools.lru_cache(maxsize=None)
def file_at(path: str) -> antt.File:
    return antt.File(closure.read(path))


def named_by(crate: str, file: str, name: str) -> set[Definition]:
    """Returns the definitions that one names: those of its own file, and those that it imports."""
    path = f"{repository.ROOT}/crates/{crate}/specs/{file}.antt"
    if not os.path.isfile(path):
        return set()
    whole = file_at(path)
    own = {it.name for it in whole.declarations}
    text = "\n".join(it.text() for it in whole.declarations if it.name == name)
    paths = paths_of(text, {**antt.parts_of(whole.imports), **whole.imports}, whole.modules)
    here = {word.partition(".")[0] for word in WORD.findall(text)} & own - {name}
    return {to for it in paths for to in definition_at(it)} | {(crate, file, it) for it in here}


def reached(items: Iterable[contracts.Item]) -> set[Definition]:
    """Returns all definitions that the clauses of some calls come down to."""
    left = [to for it in items for path in paths_of(" ".join(it.clauses.values()), it.imports.imports, it.imports.modules)
            for to in definition_at(path)]
    found: set[Definition] = set()
    while left:
        it = left.pop()
        if it not in found:
            found.add(it)
            left += named_by(*it)
    return found


def calls(*names: str) -> list[contracts.Item]:
    """Returns the public functions of these names that have no owner."""
    return [it for it in closure.Closure().functions() if it.name in names and it.is_marked and not it.owner]


def files_of_pages() -> set[tuple[str, str]]:
    """Returns the files of definitions that docs/definitions.py makes the pages of."""
    spec = importlib.util.spec_from_file_location("definitions", f"{repository.ROOT}/docs/definitions.py")
    assert spec and spec.loader
    made = importlib.util.module_from_spec(spec)
    spec.loader.exec_module(made)
    return {(crate, file) for _, sections in made.PAGES.values() for _, _, files in sections for crate, file, _ in files}
