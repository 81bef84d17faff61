"""Edits: wrong changes of a crate that the prover has to refuse.

An edit is a line `file: PATH`, and below it pairs of lines `old: TEXT` and `new: TEXT`. Edits of a crate that change different
functions are tried together, by one check: each is refused if the check leaves a goal of its function open. An edit that such a
check doesn't settle is tried alone, by the kit: it changes no function, its change takes away what an answer names, or its
function calls one that isn't proved with the others. The gate tries the edits in edits/ that have the line MARK.
"""
import glob
import os
import re
from typing import Iterable, Optional

MARK = "tried by the gate"
# How a check says of a function that it has no proof.
UNPROVED = re.compile(r"fn (\S+): (?:not proved|no proof)(?:: |; )?(.*)")
ERROR = re.compile(r"\./proofs/(\S+)/\w+\.antt:\d+:\d+: error: (.*)")
# What says of an answer only that the change took away what it names, or what rests on such an answer.
TAKEN_AWAY = re.compile(r"has no (?:field )?`|is not in scope|is no name|which was rejected, w(?:as|ere) not checked")
HEAD = re.compile(r'^( *)(?:pub(?:\([a-z]+\))? )?(?:const |unsafe |extern "C" )*fn (\w+)')
BLOCK = re.compile(r"^(?:pub )?(?:unsafe )?(?:impl|trait)\b")


class Edit:
    """An edit: its path, its name, whether it has the mark of the gate, the file that it changes, and what it replaces there by what."""

    def __init__(self, path: str) -> None:
        self.path, self.name, self.is_marked = path, os.path.basename(path), False
        self.file, self.pairs = "", list[tuple[str, str]]()
        old = ""
        with open(path, encoding="utf-8") as text:
            for line in text.read().split("\n"):
                word, _, rest = line.partition(": ")
                self.is_marked = self.is_marked or line == MARK
                if word == "file":
                    self.file = rest
                elif word == "old":
                    old = rest
                elif line.startswith("new:"):
                    self.pairs.append((old, line[len("new: ") :]))

    def applied(self, text: str) -> Optional[str]:
        """Returns the changed text, or None where what it replaces isn't there once."""
        for old, new in self.pairs:
            if text.count(old) != 1:
                return None
            text = text.replace(old, new)
        return text

    def functions(self, crate: str, text: str, root: str = "") -> set[str]:
        """Returns the functions that it changes, by the names that a check gives them; none where it changes something else too.

        `root` is the text of the module at the crate's root.
        """
        found = set()
        for old, _ in self.pairs:
            name = function_at(text, text.find(old)) if text.count(old) == 1 else ""
            if not name:
                return set()
            module = home_of(text, name.rpartition("::")[0], root) or re.sub(r"^src/|\.rt$", "", self.file).replace("/", "::")
            found.add("::".join(it for it in (crate, "" if module in ("lib", "main") else module, name) if it))
        return found


def home_of(text: str, owner: str, root: str = "") -> str:
    """Returns the module of a type that a source has from another module of its crate, or an empty text. A check calls methods by it.

    The source may have it from the root of the crate, whose text is given, which has it from the module.
    """
    if not owner:
        return ""
    named = rf"(?:{owner};|\{{[^}}]*\b{owner}\b)"
    used = re.search(rf"^use crate::([\w:]+)::{named}", text, re.M)
    if used is None and re.search(rf"^use crate::{named}", text, re.M):
        used = re.search(rf"^pub use ([\w:]+)::{named}", root, re.M)
    return used[1] if used else ""


def owner_of(line: str) -> str:
    """Returns what a check calls the functions of a block by: its type, and behind that its trait, with the type that this is of."""
    head = re.match(r"(?:pub )?(?:unsafe )?(?:impl|trait)\b(?:<(?:[^<>]|<[^<>]*>)*>)? *(.*)", line)
    trait, is_of, of = (head[1] if head else "").partition(" for ")
    words = [re.match(r"(?:\w+::)*(\w+)", of)] if is_of else []
    words.append(re.match(r"(?:\w+::)*(\w+)(?:<(?:\w+::)*(\w+)>)?", trait))
    names = [name for it in words if it for name in it.groups() if name]
    return "".join(names if is_of else names[:1])


def function_at(text: str, place: int) -> str:
    """Returns the function whose body has a place of a source as `rt fmt` lays it out, with its owner, or an empty text."""
    owner, name, indent, begun = "", "", "", False
    for line in text[:place].split("\n"):
        if BLOCK.match(line):
            owner = owner_of(line)
        head = HEAD.match(line)
        if head:
            name, indent, begun = head[2], head[1], False
        begun = begun or bool(name) and line.endswith("{")
        if name and line == indent + "}":
            name = ""
        if line == "}":
            owner = ""
    return "::".join(it for it in (owner, name) if it) if name and begun else ""


def parted(crate: str, folder: str, edits: Iterable[Edit]) -> tuple[list[list[Edit]], list[Edit]]:
    """Returns the edits in groups of which no two change one function, and those that have to be tried alone."""
    groups: list[tuple[set[str], list[Edit]]] = []
    alone = []
    for edit in edits:
        functions = edit.functions(crate, texts_of(folder, [edit])[edit.file], root_of(folder))
        if not functions:
            alone.append(edit)
            continue
        # What one edit replaces may be twice in what another has made.
        fitting = (it for it in groups if not it[0] & functions and changed(texts_of(folder, [*it[1], edit]), [*it[1], edit]))
        group = next(fitting, None)
        if group is None:
            group = (set(), [])
            groups.append(group)
        group[0].update(functions)
        group[1].append(edit)
    return [it for _, it in groups], alone


def texts_of(folder: str, edits: Iterable[Edit]) -> dict[str, str]:
    """Returns the texts of the files that the edits change."""
    texts = {}
    for edit in edits:
        with open(f"{folder}/{edit.file}", encoding="utf-8") as text:
            texts[edit.file] = text.read()
    return texts


def root_of(folder: str) -> str:
    """Returns the text of the module at the root of a crate."""
    for path in (f"{folder}/src/lib.rt", f"{folder}/src/main.rt"):
        if os.path.isfile(path):
            with open(path, encoding="utf-8") as text:
                return text.read()
    return ""


def changed(texts: dict[str, str], edits: Iterable[Edit]) -> Optional[dict[str, str]]:
    """Returns these texts as the edits change them, or None where one can't be applied."""
    found = dict(texts)
    for edit in edits:
        text = edit.applied(found[edit.file])
        if text is None:
            return None
        found[edit.file] = text
    return found


def check(root: str) -> list[tuple[str, int, str]]:
    """Returns a finding for each edit that the gate is to try but can't, since it changes more than functions."""
    found = []
    for path in sorted(glob.glob(f"{root}/crates/*/edits/*.edit")):
        edit, folder = Edit(path), os.path.dirname(os.path.dirname(path))
        if not edit.is_marked or not os.path.isfile(f"{folder}/{edit.file}"):
            continue
        if not edit.functions("", texts_of(folder, [edit])[edit.file], root_of(folder)):
            found.append((os.path.relpath(path, root), 1, "the gate can't try this edit: it changes more than functions"))
    return found


def write(folder: str, texts: dict[str, str]) -> None:
    for path, text in texts.items():
        with open(f"{folder}/{path}", "w", encoding="utf-8") as file:
            file.write(text)


def refused_in(log: str) -> set[str]:
    """Returns the functions of which a check leaves a goal open by itself: not over what an answer names, nor over what they call."""
    errors: dict[str, list[str]] = {}
    lines = log.split("\n")
    for line, after in zip(lines, [*lines[1:], ""]):
        error = ERROR.match(line)
        if error:
            # An error may go on in the next line, which begins with spaces.
            more = after if after.startswith("  ") else ""
            # The folder of a function that calls itself begins with a plus.
            errors.setdefault(error[1].replace("/+", "/").replace("/", "::"), []).append(error[2] + more)
    found = set()
    for line in lines:
        said = UNPROVED.match(line)
        if not said:
            continue
        own = errors.get(said[1].partition("::")[2], [])
        if any(not TAKEN_AWAY.search(it) for it in own) or not own and said[2] and not said[2].startswith("it calls `"):
            found.add(said[1])
    return found
