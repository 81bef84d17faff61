"""What a reader has to trust: the kit, its libraries, and the definitions that the contracts of each program are written in."""
import os
import re
import shutil
from typing import Callable

import closure
import repository

CHAIN = re.compile(r"^#+ .*\bchain\b.*$", re.I | re.M)
PATH = re.compile(r"(?:crates/)?\b(\w+/(?:specs|src)/[\w/]+\.(?:antt|rt))\b")
LINK = re.compile(r"\[([^\]]*)\]\([^)]*?" + PATH.pattern + r"\)")
# The crates of definitions, whose files are listed where docs/PROVED.md has no chain.
MODELS = ("geometry_model", "table_model")
# The crates of the programs that users run, and those of the calls of the libraries and of the web page.
PROGRAMS = ("sfq", "sfq_tiles")
LIBRARY = "sfq_c"
DATABASES = "sfq_tables"
WEB = "sfq_web"
# The crate whose public calls do what the commands of sfq ask for.
COMMANDS = "engine"
# What is made of each, and by what command.
MAKES = {
    "sfq": ("sfq", "./build"), "sfq_tiles": ("sfq-tiles", "./build --tiles"), "sfq_c": ("libsfq.so.0", "./build --library"),
    "sfq_tables": ("libsfq_tables.so.0", "./build --library"),
}
# The one call by which the program of tiles does what its words ask for: its crate, its type, its name.
TILES = ("sfq_tiles", "", "split")


def copy_sources(root: str, room: str) -> None:
    """Copies what is proved, and nothing that an earlier build left."""
    shutil.copytree(f"{root}/crates", f"{room}/crates", ignore=shutil.ignore_patterns("out"))
    shutil.copytree(f"{root}/tools", f"{room}/tools", ignore=shutil.ignore_patterns("__pycache__"))
    for name in ("crates.txt", "HANDLES"):
        shutil.copyfile(f"{root}/{name}", f"{room}/{name}")


def page(name: str, root: str) -> str:
    """Returns the text of a document, or nothing where there is none."""
    path = f"{root}/docs/{name}.md"
    return closure.read(path) if os.path.isfile(path) else ""


def add_laws(made: closure.Closure, text: str) -> None:
    """Adds the laws that a text names: functions that take nothing and return nothing."""
    named = set(re.findall(r"`(\w+)`", text))
    for it in made.functions() if named else []:
        if it.name in named and it.is_marked and not it.owner and it.signature.endswith(f"fn {it.name}()"):
            made.add_item(it)


def add_headline(made: closure.Closure) -> None:
    """Adds what the chain of docs/PROVED.md reaches: the definitions and calls that it links, and the laws that it names."""
    text = page("PROVED", made.root)
    found = CHAIN.search(text)
    part = re.split(r"^#", text[found.end() :], maxsplit=1, flags=re.M)[0] if found else ""
    for words, path in LINK.findall(part):
        if os.path.isfile(f"{made.root}/crates/{path}"):
            made.add(f"crates/{path}", re.findall(r"\w+", words))
    add_laws(made, part)
    if not made.files:
        for it in [it for crate in MODELS for it in repository.files_of(crate, made.root) if "/specs/" in it]:
            made.files.add(os.path.relpath(it, made.root))


def add_exports(made: closure.Closure, crate: str) -> None:
    """Adds what the contracts of the calls that a crate exports to C reach."""
    for it in made.functions():
        if it.crate == crate and 'extern "C"' in it.signature:
            made.add_item(it)


def add_public_calls(made: closure.Closure, *crates: str) -> None:
    """Adds what the contracts of the calls that some libraries make public reach."""
    for crate in crates:
        for it in made.public_functions(crate):
            made.add_item(it)


def add_tiles(made: closure.Closure) -> None:
    """Adds what the contract of the call that sfq-tiles makes reaches, and the laws that docs/SCALE.md names, of what it writes."""
    for it in made.functions():
        if (it.crate, it.owner, it.name) == TILES and it.is_marked:
            made.add_item(it)
    add_laws(made, page("SCALE", made.root))


# What adds the files of each list, by the list's name.
CHAINS: dict[str, Callable[[closure.Closure], None]] = {
    "the headline, by the chain of docs/PROVED.md": add_headline,
    "the commands of sfq, by the public calls of engine": lambda made: add_public_calls(made, COMMANDS),
    "the C library, by the calls of sfq_c": lambda made: add_exports(made, LIBRARY),
    "sfq-tiles, by the call split and the laws of docs/SCALE.md": add_tiles,
    "databases of the C library, by the calls of sfq_tables": lambda made: add_exports(made, DATABASES),
    "the web page and the package for JavaScript, by the call of sfq_web": lambda made: add_exports(made, WEB),
}
OTHERS = "every other promise, by the public calls of all crates: the files that no list above has"


def lists(root: str = repository.ROOT) -> dict[str, list[closure.Sum]]:
    """Returns the files of each list with their sums, by the list's name."""
    sources, found = closure.sources_of(root), {}
    for name, add in CHAINS.items():
        found[name] = closure.Closure(root, sources)
        add(found[name])
    tests = repository.crates_with_tests(root)
    others = closure.Closure(root, sources)
    add_public_calls(others, *(it for it in repository.read_crates(root) if it not in tests))
    others.files = others.files.difference(*(it.files for it in found.values()))
    return {name: made.sums() for name, made in {**found, OTHERS: others}.items()}


def kit_libraries(root: str = repository.ROOT) -> list[str]:
    """Returns the kit's libraries that the programs are built from: their contracts are taken as the kit proved them."""
    crates, used = repository.read_crates(root), {"std"}
    left = [it for it in (*PROGRAMS, LIBRARY, DATABASES) if it in crates]
    while left:
        for it in crates[left.pop()]:
            if it in crates:
                left.append(it)
            else:
                used.add(it)
    return sorted(used)


def what_is(name: str) -> str:
    return f"the {'library' if name.startswith('lib') else 'program'} {name}"


def show(kit: str, programs: dict[str, str], root: str = repository.ROOT) -> None:
    """Prints the trusted base. `programs` are the SHA-256 of what was made, by their names."""
    print("\nWhat you trust:")
    print(f"  the kit that proved and compiled it: {kit}")
    print(f"  its logic: {repository.logic_of(kit)}")
    print(f"  its libraries: {', '.join(kit_libraries(root))}")
    print("  that these definitions, and the clauses and types of these sources, say what is meant:")
    for name, sums in lists(root).items():
        if sums:
            print(f"  {name}:")
            print("".join(f"    {one}  {path}\n" for one, path in sums), end="")
            print(f"    {closure.total(sums)}  all {len(sums)} files")
    print("What follows from it:")
    for name, total in programs.items():
        print(f"    {total}  {what_is(name)}")
    for crate, (name, command) in MAKES.items():
        if crate in repository.read_crates(root) and name not in programs:
            print(f"    {command} makes {what_is(name)}, which isn't there")
    print()
