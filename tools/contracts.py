"""What sources promise: functions with their signatures and clauses, models of types, and what the root of a crate makes public."""
import re
from typing import Any

import antt

# What names an item: its kind, its crate, its module and what it is called there; a number where that names several.
Key = tuple[Any, ...]

FUNCTION = re.compile(r'( *)(pub(?:\([a-z]+\))? )?(?:const |unsafe |ghost |extern "C" )*fn (\w+)')
TYPE = re.compile(r"pub (struct|enum|trait|type|const) (\w+)")
BLOCK = re.compile(r"(?:pub )?(impl|trait)\b")
GHOST = re.compile(r"    ghost (?!use )(\w+)")
# What an impl says for the prover alone.
PROOFS = {"laws", "total", "coded", "inverse", "matches_eq", "matches_partial_cmp", "matches_partial_ord"}


class Item:
    """A function, a ghost of an impl, or a type: where it is, whether it is marked public, its signature, its clauses by name."""

    def __init__(
        self, kind: str, crate: str, module: str, owner: str, trait: str, name: str,
        is_marked: bool, signature: str, clauses: dict[str, str], imports: "Imports",
    ) -> None:
        self.kind, self.crate, self.module, self.owner, self.trait, self.name = kind, crate, module, owner, trait, name
        self.is_marked, self.signature, self.clauses, self.imports = is_marked, signature, clauses, imports

    def key(self) -> Key:
        return self.kind, self.crate, self.module, self.own_key()

    def own_key(self) -> tuple[str, str, str]:
        """What it is called in its module."""
        return self.owner, self.trait, self.name

    def path(self) -> str:
        """How it is shown."""
        owner = f"{self.owner} as {self.trait}" if self.trait else self.owner
        return "::".join(it for it in (self.crate, self.module, owner, self.name) if it)


def closing_brace(text: str, at: int) -> int:
    """Returns the place of the brace that closes the one at a place."""
    depth = 0
    for place in range(at, len(text)):
        depth += (text[place] == "{") - (text[place] == "}")
        if depth == 0:
            return place
    return len(text) - 1


def plain(text: str) -> str:
    """Returns a text of Rust on one line, without paths, comments and what the layout adds."""
    text = re.sub(r"//[^\n]*", "", text)
    text = re.sub(r"\s+", " ", text).strip()
    text = re.sub(r",? ?([)\]}>])", r"\1", re.sub(r"([(\[<]) ", r"\1", text))
    text = re.sub(r"(?<![&\w] )\bmut (?=\w+:)", "", text)
    return re.sub(r"\b(?:[a-z_]\w*::)+(?=[A-Za-z_])", "", text)


def contract_at(lines: list[str], at: int) -> tuple[str, dict[str, str]]:
    """Returns the signature of the function that begins at a line, and its clauses by name."""
    signature: list[str] = []
    clauses: dict[str, str] = {}
    end = at
    for end in range(at, len(lines)):
        line = lines[end]
        if end > at and re.match(r"\s*(?:where\b|requires\b|ensures\b|\{)", line):
            break
        signature.append(re.sub(r"\s*(?:\{.*|;)$", "", line))
        if re.search(r"(?:^|\s)\{(?:.*\})?$|;$", line):
            return plain(" ".join(signature)), {}
    text, place = "\n".join(lines[end : end + 400]), 0
    while True:
        space = re.compile(r"(?:\s|//[^\n]*)*").match(text, place)
        place = space.end() if space else place
        bound = re.compile(r"where\b[^{]*?(?=\s(?:requires|ensures)\b|\s\{)").match(text, place)
        head = re.compile(r"(requires|ensures)\b *(\w*) *\{").match(text, place)
        if bound:
            signature.append(bound[0])
            place = bound.end()
        elif head:
            close = closing_brace(text, head.end() - 1)
            name = f"{head[1]} {head[2]}".strip()
            while name in clauses:
                name += "'"
            clauses[name] = text[head.end() : close].strip()
            place = close + 1
        else:
            return plain(" ".join(signature)), clauses


def imports_of(lines: list[str], indent: int) -> antt.File:
    """Returns the imports for contracts that are written at an indent, as a file of the logic."""
    uses = re.findall(rf"^ {{{indent}}}ghost (use [^;]*);", "\n".join(lines), re.M)
    return antt.File("\n".join(" ".join(it.split()) for it in uses))


class Imports:
    """What names of a contract are imported as: those of the file, and those of the impl that it is in."""

    def __init__(self, *files: antt.File) -> None:
        self.imports: dict[str, str] = {}
        self.modules: dict[str, str] = {}
        for it in files:
            self.imports.update({**antt.parts_of(it.imports), **it.imports})
            self.modules.update(it.modules)


def block_head(lines: list[str], at: int) -> tuple[str, str, int]:
    """Returns the type and the trait of an impl, or the trait whose calls begin, and the line after its head."""
    end = next(it for it in range(at, len(lines)) if re.search(r"\{(?:\})?$", lines[it]))
    head = " ".join(it.strip() for it in lines[at : end + 1])
    rest: str = re.findall(r"^(?:pub )?(?:impl|trait)\b(?:<(?:[^<>]|<[^<>]*>)*>)? *(.*)", head)[0]
    trait, of, whose = rest.partition(" for ")
    owner: str = re.findall(r"^(?:\w+::)*(\w+)", whose if of else rest)[0]
    return owner, plain(trait) if of else "", end + 1


def type_text(lines: list[str], at: int, kind: str) -> str:
    """Returns what others see of a type: all of an enum, the public fields of a structure, the value of a constant."""
    if kind == "trait":
        return ""
    end = next(it for it in range(at, len(lines)) if lines[it].endswith((";", "}")) and not lines[it].startswith(" "))
    shown = [it for it in lines[at : end + 1] if not it.lstrip().startswith(("///", "//", "#["))]
    if kind == "struct":
        shown = [shown[0]] + [it for it in shown[1:] if it.lstrip().startswith("pub ")]
    return plain("\n".join(shown))


def items_of(crate: str, module: str, text: str) -> list[Item]:
    """Returns the items of a source, as `rt fmt` lays it out."""
    found: list[Item] = []
    lines = text.split("\n")
    outer = imports_of(lines, 0)
    owner, trait, is_public, imports, at = "", "", False, Imports(outer), 0
    for at, line in enumerate(lines):
        if BLOCK.match(line):
            owner, trait, _ = block_head(lines, at)
            end = next((it for it in range(at, len(lines)) if lines[it].startswith("}")), at)
            imports = Imports(outer, imports_of(lines[at:end], 4))
            # The calls of a trait, and those that an impl of one fills in, are as public as the trait or the type.
            is_public = bool(trait) or not line.startswith("impl")
        elif line.startswith("}"):
            owner, trait, is_public, imports = "", "", False, Imports(outer)
        of_type, head, ghost = TYPE.match(line), FUNCTION.match(line), GHOST.match(line)
        if of_type:
            shown = type_text(lines, at, of_type[1])
            found.append(Item("type", crate, module, "", "", of_type[2], True, shown, {}, imports))
        if head and len(head[1]) == (4 if owner else 0):
            signature, clauses = contract_at(lines, at)
            signature = re.sub(r"^(?:pub(?:\([a-z]+\))? )?", "", signature)
            is_marked = is_public or head[2] == "pub "
            found.append(Item("function", crate, module, owner, trait, head[3], is_marked, signature, clauses, imports))
        elif ghost and owner and (not trait or ghost[1] not in PROOFS):
            whole = "\n".join(lines[at : at + 200])
            body = whole[whole.index("{") + 1 : closing_brace(whole, whole.index("{"))].strip()
            found.append(Item("ghost", crate, module, owner, trait, ghost[1], True, "", {ghost[1]: body}, imports))
    return found


class Root:
    """What the root file of a crate makes public."""

    def __init__(self, text: str, is_library: bool) -> None:
        self.is_library = is_library
        self.modules = set(re.findall(r"^pub mod (\w+);", text, re.M))
        self.names: set[str] = set()
        for part in re.findall(r"^pub use ([^;]*);", text, re.M):
            for it in re.sub(r".*?\{|\}", "", part, flags=re.S).split(",") if "{" in part else [part]:
                if it.strip():
                    self.names.add(re.split(r"::| as ", it)[-1].strip())

    def shows(self, item: Item) -> bool:
        """Whether an item may be named from outside the crate."""
        if not item.is_marked:
            return False
        if not self.is_library or item.module == "lib" or item.module in self.modules or "extern" in item.signature:
            return True
        # An impl of a trait of the crate is public with the trait, also for a type of another crate.
        return not self.names.isdisjoint({item.owner or item.name, item.trait.partition("<")[0]})
