"""What contracts are written in: the definitions that they import and all that these import, and the types that they are about.

A reader who believes a clause believes each of these files: what is in specs/, and the sources that declare types, say what
contracts see of them, and have the clauses. As the toolchain has it, a contract imports every `ghost use` of its file, and of the
impl or trait that it is in. Proofs and the kit's own definitions are left out.
"""
import functools
import glob
import hashlib
import os
import re
from typing import Iterable, Optional

import antt
import contracts
import repository

# The SHA-256 of a file, and its path.
Sum = tuple[str, str]
DECLARATION = re.compile(r"^(?:pub(?:\([a-z]+\))? )?(?:struct|enum|trait|type) (\w+)", re.M)


def read(path: str) -> str:
    with open(path, encoding="utf-8") as text:
        return text.read()


class Source:
    """A source of Rust: its items, the paths that its names are imported from, and its types with the text that declares each."""

    def __init__(self, crate: str, module: str, text: str) -> None:
        self.items = contracts.items_of(crate, module, text)
        self.uses: dict[str, list[str]] = {}
        for path in re.findall(r"^(?:pub )?use ([^;]*);", text, re.M):
            self.read_use("".join(re.sub(r"\bas\b", "=", path).split()))
        self.types: dict[str, str] = {}
        for it in DECLARATION.finditer(text):
            end = re.compile(r"(?:^\}|;)$", re.M).search(text, it.start())
            self.types[it[1]] = re.sub(r"//[^\n]*", "", text[it.start() : end.end() if end else len(text)])

    def read_use(self, path: str) -> None:
        head, brace, names = path.partition("{")
        for it in filter(None, names.rstrip("}").split(",") if brace else [path]):
            whole, _, own = (head + it if brace else it).partition("=")
            self.uses[own or whole.rpartition("::")[2]] = whole.split("::")


@functools.lru_cache(maxsize=None)
def source_of(crate: str, module: str, text: str) -> Source:
    return Source(crate, module, text)


@functools.lru_cache(maxsize=None)
def paths_in(text: str) -> tuple[str, ...]:
    """Returns the paths that a file of the logic imports."""
    lines = re.findall(r"^(?:pub )?use [^{\n]*(?:\{[^}]*\})?[^\n]*$", text, re.M)
    file = antt.File("\n".join(" ".join(it.split()) for it in lines))
    return (*file.imports.values(), *file.modules.values())


def sources_of(root: str) -> dict[tuple[str, str], Source]:
    """Returns the sources below a root, by crate and module."""
    found = {}
    for crate in repository.read_crates(root):
        for path in sorted(glob.glob(f"{root}/crates/{crate}/src/*.rt")):
            module = os.path.basename(path)[: -len(".rt")]
            found[crate, module] = source_of(crate, module, read(path))
    return found


class Closure:
    """The files that are reached from clauses, in the sources below a root, which are read if they aren't handed in."""

    def __init__(self, root: str = repository.ROOT, sources: Optional[dict[tuple[str, str], Source]] = None) -> None:
        self.root, self.crates = root, repository.read_crates(root)
        self.sources = sources_of(root) if sources is None else sources
        self.files: set[str] = set()
        self.seen: set[tuple[str, ...]] = set()

    def functions(self) -> list[contracts.Item]:
        return [it for source in self.sources.values() for it in source.items if it.kind == "function"]

    def public_functions(self, crate: str) -> list[contracts.Item]:
        """Returns the functions of a library that others can call, by what its root makes public; none of a program."""
        lib = f"{self.root}/crates/{crate}/src/lib.rt"
        if not os.path.isfile(lib):
            return []
        shown = contracts.Root(read(lib), True)
        return [it for it in self.functions() if it.crate == crate and shown.shows(it)]

    def add_item(self, item: contracts.Item) -> None:
        """Adds the file that a function or a ghost is in, what its contract imports, and the types of its signature."""
        self.files.add(f"crates/{item.crate}/src/{item.module}.rt")
        for path in (*item.imports.imports.values(), *item.imports.modules.values()):
            self.add_path(path)
        self.add_types(f"{item.owner} {item.trait} {item.signature}", item.crate, item.module)

    def add_types(self, text: str, crate: str, module: str) -> None:
        """Adds the sources of the types that a text of Rust names."""
        for name in sorted(set(re.findall(r"\b[A-Z]\w*", text))):
            for it in self.places_of(crate, module, name):
                self.add_type(*it, name)

    def places_of(self, crate: str, module: str, name: str) -> list[tuple[str, str]]:
        """Returns the sources that may declare a type, as a source names it: none for a type of the kit."""
        source = self.sources[crate, module]
        if name in source.types:
            return [(crate, module)]
        path = source.uses.get(name, [])
        owner = crate if path[:1] == ["crate"] else path[0] if path else ""
        within = [it for it in self.sources if it[0] == owner and name in self.sources[it].types]
        root = self.sources.get((owner, "lib"))
        if not within and root and (owner, "lib") != (crate, module) and name in root.uses:
            return self.places_of(owner, "lib", name)
        return [it for it in within if it[1] in path] or within

    def add_type(self, crate: str, module: str, name: str) -> None:
        """Adds the source that declares a type, the types of its parts, and what its model imports; of a trait, its calls."""
        if (crate, module, name) in self.seen:
            return
        self.seen.add((crate, module, name))
        self.files.add(f"crates/{crate}/src/{module}.rt")
        source = self.sources[crate, module]
        self.add_types(source.types[name].partition("{")[2] or source.types[name], crate, module)
        is_trait = re.match(r"(?:pub(?:\([a-z]+\))? )?trait\b", source.types[name])
        for it in source.items:
            if it.owner == name and (it.kind == "ghost" or (is_trait and it.kind == "function")):
                self.add_item(it)

    def add_path(self, path: str) -> None:
        """Adds the file that a path of the logic leads to, and what that imports. Proofs and the kit aren't followed."""
        parts = path.split(".")
        if parts[0] != "Rattle" or len(parts) < 4 or parts[1] not in self.crates or parts[2] != "specs":
            return
        crate, rest = parts[1], parts[3:]
        if rest[0] in ("declared", "contracts"):
            if (crate, rest[1]) not in self.sources:
                raise ValueError(f"no source for {path}")
            if len(rest) > 2 and rest[2] in self.sources[crate, rest[1]].types:
                self.add_type(crate, rest[1], rest[2])
            else:
                self.files.add(f"crates/{crate}/src/{rest[1]}.rt")
        else:
            self.add_file(f"crates/{crate}/specs/{rest[0]}.antt", path)

    def add_file(self, path: str, named: str = "") -> None:
        if path in self.files:
            return
        if not os.path.isfile(f"{self.root}/{path}"):
            raise ValueError(f"no file {path} for {named}")
        self.files.add(path)
        for it in paths_in(read(f"{self.root}/{path}")):
            self.add_path(it)

    def add(self, path: str, names: Iterable[str] = ()) -> None:
        """Adds a file of definitions, or the functions of a source that have these names."""
        if path.endswith(".antt"):
            self.add_file(path)
            return
        _, crate, _, module = path.removesuffix(".rt").split("/")
        self.files.add(path)
        for it in self.sources[crate, module].items:
            if it.kind == "function" and it.name in names:
                self.add_item(it)

    def sums(self) -> list[Sum]:
        """Returns the files by their paths, each behind its SHA-256."""
        return [(repository.sum_of_file(f"{self.root}/{it}"), it) for it in sorted(self.files)]


def total(sums: list[Sum]) -> str:
    """Returns the sum over sums: that of the lines that `sha256sum` prints of the files."""
    return hashlib.sha256("".join(f"{one}  {path}\n" for one, path in sums).encode()).hexdigest()
