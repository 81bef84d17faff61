#!/usr/bin/env python3
"""Prints what docs/PROVED.md, docs/SCALE.md, docs/C.md, docs/JAVASCRIPT.md and tests/ample_memory.txt say wrong of the sources, and
ends with status 1 if something is.

usage: python3 tools/proved_page.py

Each clause of the pages' tables has to be one of the call beside it, and each theorem a function. Each call has to be of a crate
that is named above its table, and has a star exactly if it has a `requires`. The list of tests has to have each public
function that may run out of memory, and each test has to call the functions that are listed with it. What other places say of the
headline has to be the README's, word for word, and three pages have the sentence about the library, from bytes to the matrix.
"""
import functools
import glob
import html
import os
import re
import sys
from typing import Iterable

import repository
from repository import read

PAGES = [f"{repository.ROOT}/docs/{it}.md" for it in ("PROVED", "SCALE", "C", "JAVASCRIPT")]
# Programs, whose functions nobody else calls; the pages name clauses of the last ones.
PROGRAMS, NAMED_PROGRAMS = ["sfq", "scripts", "gauge"], ["sfq_tiles"]
LIST = f"{repository.ROOT}/tests/ample_memory.txt"
# What the list says of the modules that call functions which it doesn't name.
OTHERS = "all others"
# Errors that come where memory that a value already has can't grow.
GROWTHS = r"\b(?:AllocError|LoadFault|WktFault|PutFault|Error)\b"
# A module or script, a function that it calls, and those that are called on its way.
Triple = tuple[str, str, list[str]]


def text_of_pages() -> str:
    return "\n".join(read(it) for it in PAGES)


class Function:
    """A function of a crate: its name, the type that it is a method of or "", its signature, its clauses and its body."""

    def __init__(
        self, crate: str, module: str, owner: str, name: str, is_public: bool, signature: str, clauses: set[str], body: str,
        requires: bool = False,
    ) -> None:
        self.crate, self.module, self.owner, self.name = crate, module, owner, name
        self.is_public, self.signature, self.clauses, self.body, self.requires = is_public, signature, clauses, body, requires

    def is_named(self, name: str) -> bool:
        """Whether the page means it by a name: its own, behind its type or its crate, or that of its type alone."""
        owner, _, last = name.rpartition("::")
        return name == self.owner or (last == self.name and owner in ("", self.owner, self.crate))

    def is_exported(self) -> bool:
        """Whether C calls it. Its result is a status then."""
        return 'extern "C" fn' in self.signature

    def takes_memory(self) -> bool:
        """Whether it may run out of memory, by its signature. What is handed an allocator and can't fail only keeps it."""
        result = self.signature.partition("->")[2]
        if "alloc: Global" in self.signature:
            return self.is_exported() or bool(re.search(r"\b(?:Result|Option|bool|u8)\b", result))
        return bool(re.search(r"\bResult\b", result) and re.search(GROWTHS, result))


def owner_of(line: str) -> str:
    """Returns the type that an impl is of, or the trait whose calls begin."""
    head = re.match(r"(?:pub )?(?:impl|trait)\b(?:<(?:[^<>]|<[^<>]*>)*>)? *(.*)", line)
    named = re.match(r"\w+", (head[1].partition(" for ")[2] or head[1]) if head else "")
    return named[0] if named else ""


@functools.lru_cache(maxsize=None)
def fields_of_records() -> dict[str, set[str]]:
    """Returns the names of the fields of each record of the definitions."""
    found: dict[str, set[str]] = {}
    for path in glob.glob(f"{repository.ROOT}/crates/*/specs/*.antt"):
        for name, fields in re.findall(r"^pub record (\w+).*\n((?:  .*\n)+)", read(path), re.M):
            found.setdefault(name, set()).update(re.findall(r"^  pub (\w+) :", fields, re.M))
    return found


def functions_in(crate: str, module: str, text: str) -> list[Function]:
    """Returns the functions of a source, as `rt fmt` lays it out, and whether each may be called from outside the crate."""
    found, owner, is_trait = [], "", False
    lines = text.split("\n")
    for at, line in enumerate(lines):
        if re.match(r"impl\b|(?:pub )?trait\b", line):
            owner, is_trait = owner_of(line), not re.match(r"impl\b", line) or " for " in line
        elif line.startswith("}"):
            owner, is_trait = "", False
        head = re.match(r"( *)(pub(?:\(crate\))? )?(?:extern \"C\" )?fn (\w+)", line)
        if not head:
            continue
        # A head ends at the line of its brace or semicolon; a call of a trait has no body.
        begin = next(it for it in range(at, len(lines)) if re.search(r"(?:^|\s)\{(?:\})?$|;$", lines[it]))
        end = next((it for it in range(begin, len(lines)) if lines[it] == head[1] + "}"), begin)
        has_body = not lines[begin].endswith((";", "{}"))
        whole = "\n".join(lines[at : begin + 1])
        signature = re.split(r"\n\s*(?:where|requires|ensures)\b", whole)[0]
        clauses = set(re.findall(r"^\s*(?:requires|ensures) (\w+) \{", whole, re.M))
        # The promises of a lone clause without a name are the fields of its record.
        lone = re.search(r"^\s*ensures \{ (?:\([^()]*\) → .* → )?(\w+) ", re.sub(r"\n\s*→", " →", whole), re.M)
        clauses |= fields_of_records().get(lone[1], set()) if lone else set()
        body = "\n".join(lines[begin : end + 1]) if has_body else ""
        is_public = is_trait or head[2] == "pub "
        requires = bool(re.search(r"^\s*requires\b", whole, re.M))
        found.append(Function(crate, module, owner, head[3], is_public, signature, clauses, body, requires))
    return found


def is_reached(function: Function, lib: str) -> bool:
    """Whether a library's root makes a public function of it reachable, or C calls it."""
    if function.is_exported() or function.module == "lib" or re.search(rf"^pub mod {function.module};", lib, re.M):
        return True
    names = {it for part in re.findall(r"^pub use ([^;]*);", lib, re.M) for it in re.findall(r"\b\w+\b(?!::)", part)}
    return (function.owner or function.name) in names


def all_functions() -> tuple[list[Function], list[Function]]:
    """Returns the functions of the libraries and of the programs that the page names, and those that can be called from outside."""
    found: list[Function] = []
    public: list[Function] = []
    tests = repository.crates_with_tests()
    for crate in repository.read_crates():
        if crate in tests + PROGRAMS:
            continue
        lib = "" if crate in NAMED_PROGRAMS else read(f"{repository.ROOT}/crates/{crate}/src/lib.rt")
        for path in sorted(glob.glob(f"{repository.ROOT}/crates/{crate}/src/*.rt")):
            module = os.path.basename(path)[: -len(".rt")]
            here = functions_in(crate, module, read(path))
            found += here
            public += [it for it in here if lib and it.is_public and it.name != "from" and is_reached(it, lib)]
    return found, public


def name_of(function: Function, functions: Iterable[Function]) -> str:
    """Returns how the list names a function: by its type, or by its crate if another one has a function of its name."""
    if function.owner:
        return f"{function.owner}::{function.name}"
    others = {it.crate for it in functions if it.name == function.name and not it.owner}
    return f"{function.crate}::{function.name}" if len(others) > 1 else function.name


def needed(public: list[Function]) -> list[str]:
    return sorted({name_of(it, public) for it in public if it.takes_memory()})


def listed(text: str) -> list[Triple]:
    """Returns the list as triples: the module or script, a function that it calls, and those that are called on its way."""
    found = []
    for line in text.splitlines():
        module, _, names = line.partition(": ")
        if not line.strip() or line.startswith("#"):
            continue
        for name, inner in re.findall(r"([^,()]+)(?:\(([^)]*)\))?", names):
            if name.strip():
                found.append((module, name.strip(), [it.strip() for it in inner.split(",")] if inner else []))
    return found


def calls(text: str, name: str) -> bool:
    """Whether a source calls a function. A method's type has to be named in it."""
    owner, _, last = name.rpartition("::")
    if owner[:1].isupper():
        return bool(re.search(rf"\b{owner}\b", text) and re.search(rf"(?:\.|::){last}(?:::<[^()]*>)?\(", text))
    if owner and not re.search(rf"\buse {owner}::[^;]*\b{last}\b|\b{owner}::{last}\(", text):
        return False
    return bool(re.search(rf"(?<![\w.]){last}(?:::<[^;(]*>)?\(", text))


def reached(name: str, functions: Iterable[Function]) -> set[str]:
    """Returns the bare names of the functions that may be called, by their names, on the way of a function."""
    bodies: dict[str, list[str]] = {}
    for it in functions:
        bodies.setdefault(it.name, []).append(it.body)
    seen: set[str] = set()
    left = [name.rpartition("::")[2]]
    while left:
        for body in bodies.get(left.pop(), []):
            for called in set(re.findall(r"\b(\w+)(?:::<[^;(]*>)?\(", body)) & bodies.keys() - seen:
                seen.add(called)
                left.append(called)
    return seen


def sources() -> dict[str, str]:
    """Returns the text of each module of tests; that of the program `scripts`, which plays them, for each script; those of C."""
    found = {}
    for crate in repository.crates_with_tests():
        for path in glob.glob(f"{repository.ROOT}/crates/{crate}/src/*_tests.rt"):
            found[os.path.basename(path)[: -len("_tests.rt")]] = read(path)
    player = "".join(read(it) for it in glob.glob(f"{repository.ROOT}/crates/scripts/src/*.rt"))
    for it in read(f"{repository.ROOT}/crates/scripts/args").split():
        found[it] = player
    # What the C test calls of the library's header calls the proved calls in turn.
    of_library = (*(f"tests/library/{it}" for it in ("calls", "kept", "whys", "indexes", "databases", "rows")), "bindings/c/sfq", "bindings/c/sfq_tables")
    found["calls.c"] = "".join(read(f"{repository.ROOT}/{it}.c") for it in of_library)
    # What tests/test_node.py asks of the program in Node makes the proved call.
    found["serve.c"] = read(f"{repository.ROOT}/bindings/javascript/serve.c")
    return found


# The clauses of a call of the standard library, which the sources only fill in.
OF_STD = {"Rows::next": {"steps", "goes"}}


def rows_of(page: str) -> list[tuple[list[str], list[str]]]:
    """Returns the rows of the page's tables of calls as pairs: the names of calls, and those of their clauses."""
    found: list[tuple[list[str], list[str]]] = []
    names: list[str] = []
    is_of_calls = False
    for line in page.split("\n"):
        cells = [it.strip() for it in re.split(r"(?<!\\)\|", line)]
        if len(cells) != 5:
            is_of_calls = False
        elif cells[1] == "call":
            is_of_calls = True
        elif is_of_calls and not cells[1].startswith("---"):
            names = re.findall(r"`([^`]*)`", cells[1]) or names
            found.append((names, re.findall(r"`(\w+)`", cells[2])))
    return found


def wrong_clauses(page: str, functions: list[Function]) -> list[str]:
    """Returns the clauses of the page that no call beside them has, the calls that aren't functions, the theorems that aren't."""
    found: list[str] = []
    crates = {it.crate for it in functions}
    for names, clauses in rows_of(page):
        meant = [it for name in names for it in functions if it.is_named(name)]
        known = {it.name for it in meant} | {it.owner for it in meant} | crates
        found += [f"{it} is no function of a library" for it in names if it.rpartition("::")[2] not in known]
        have = {it for each in meant for it in each.clauses}.union(*(OF_STD.get(it, set()) for it in names))
        found += [f"{', '.join(names)}: no clause is named {it}" for it in clauses if it not in have]
    part = page.partition("\n## Theorems")[2].partition("\n## ")[0]
    theorems = [it for inner in re.findall(r"\((`\w+`[^()]*)\)", part) for it in re.findall(r"`(\w+)`", inner)]
    known = {it.name for it in functions if not it.owner} | crates
    return found + [f"{it} is no theorem" for it in theorems if it not in known]


def meant_by(name: str, functions: list[Function], crates: Iterable[str]) -> list[Function]:
    """Returns the public functions of some crates that a name in a table means: a bare name no method where it is a function's."""
    found = [it for it in functions if it.is_public and it.is_named(name) and it.crate in crates]
    alone = [it for it in found if not it.owner]
    return alone if alone and "::" not in name else found


def crates_above(lead: str, crates: list[str]) -> list[str]:
    """Returns the crates that the text above a table names, also as a range of crates.txt."""
    ends = re.search(r"from `(\w+)` to `(\w+)`", lead)
    if ends:
        return crates[crates.index(ends[1]) : crates.index(ends[2]) + 1]
    return [it for it in re.findall(r"`(\w+)`", lead) if it in crates]


def wrong_rows(page: str, functions: list[Function], crates: list[str]) -> list[str]:
    """Returns the calls of a page that no crate above their table has, and those whose star is wrong."""
    found: list[str] = []
    for section in re.split(r"^## ", page, flags=re.M)[1:]:
        lead, head, table = section.partition("\n| call | clauses |")
        above = crates_above(lead, crates)
        for line in table.split("\n") if head and above else []:
            for name, star in re.findall(r"`([\w:]+)`(\\\*)?", re.split(r"(?<!\\)\|", line)[1] if line.startswith("| ") else ""):
                meant = meant_by(name, functions, above)
                if not meant and name not in above:
                    found.append(f"{name} is in no crate that is named above its table")
                if meant and bool(star) != any(it.requires for it in meant):
                    found.append(f"{name} has a star and no requires" if star else f"{name} has a requires and no star")
    return found


# Where the headline is written again, word for word; what else says when WHERE is true is no statement of it.
HEADLINES = ["packaging/man/sfq.1", "bindings/web/tables.html"]
SAYS_ROWS = re.compile(r"\brows (?:of the product )?for which WHERE is true\b")


# The pages that have, word for word, what is proved of the library from the bytes of two shapes to their matrix.
FROM_BYTES = ["docs/PROVED.md", "docs/DEFINITIONS.md", "docs/DEFINITIONS-LIBRARY.md"]
SAYS_BYTES = re.compile(r"For the bytes of two shapes and a grid, [^.]*\.")


# What texts said once and isn't so, and what is.
NOT_SO = [
    (r"proved[^.]*down to this interface", "the proof ends at the calls of the crate sfq_c"),
    (r"What the library(?:'s calls)? returns? is proved", "the proof ends at the calls of the crate sfq_c"),
    (r"what the standards' definitions say", "the definitions are the project's, and restate the standards'"),
    (r"each such text has this fault", "W3 has another place, and W4 comes first"),
    (r"what a call would have written is as it was,? unless the status is 0", "a size is written, and a fault"),
    (r"makes null texts empty", "arrays too, and the length is 0 then"),
    (r"[Pp]robes search indexes", "rows may be found by their key or a value"),
    (r"the work counts each matrix that a caller", "two calls hand a matrix on without a count"),
    (r"[Tt]he splitting (?:is|are) proved|each part and the splitting are proved", "what each call of it writes is"),
    (r"has it at that place", "the byte of W1 is only tested"),
    (r"writes the lines of find_witnesses", "that they are of the first witnesses is no clause of a command"),
    (r"\bsfq-tiles are proved", "what split writes is, and not what the files hold"),
    (r"without end is refused with L11, once[^.]* too long\.", "one of short records is L10"),
    (r"an edge on its line shares a point with it", "sharing a common end isn't enough"),
    (r"A reason, exactly if the fault's record has one", "this is so only of bytes that are known"),
    (r"An explanation has the line of the fault's byte", "it has part of that line, and none if the fault has no byte"),
    (r"\| The place of a name at most two edits", "None is returned as well"),
    (r"how many matrices|number of matrices computed|matrices it computes", "the work counts predicates that were decided, some without a matrix"),
    (r"Else none is shown", "that a place is shown if there is one is only tested"),
]


def wrong_sentences(texts: dict[str, str]) -> list[str]:
    """Returns the places, by their paths, that say what isn't so."""
    return [f"{path} says what isn't so: {so}" for path, text in texts.items() for it, so in NOT_SO if re.search(it, plain_words(text))]


def plain_words(text: str) -> str:
    """Returns the words of a text of Markdown, a manual page or HTML, with a blank between."""
    text = html.unescape(re.sub(r"<[^>]*>", "", text))
    text = re.sub(r"^(?:\.[A-Z]+ ?|> )", "", text, flags=re.M)
    return " ".join(re.sub(r"\\(?=[-*])|`", "", text).split())


def headline(readme: str) -> str:
    """Returns the words of the headline, which is quoted in the README."""
    return plain_words("\n".join(re.findall(r"^> .*$", readme.partition("The headline, word for word")[2], re.M)))


def wrong_headlines(texts: dict[str, str], readme: str) -> list[str]:
    """Returns the places, by their paths, that don't have the headline word for word though they should, or say it otherwise."""
    words = headline(readme)
    found = ["the README has no headline"] if not SAYS_ROWS.search(words) else []
    for path, text in texts.items():
        times = len(SAYS_ROWS.findall(plain_words(text)))
        has = plain_words(text).count(words) if words else 0
        if times != has or (path in HEADLINES and has != 1):
            found.append(f"{path} doesn't have the headline as the README has it")
    return found


def wrong_from_bytes(texts: dict[str, str]) -> list[str]:
    """Returns the pages, by their paths, that don't have the sentence about the library once and as the first page has it."""
    said = {it: SAYS_BYTES.findall(re.sub(r"\[([^\]]*)\]\([^)]*\)", r"\1", plain_words(texts[it]))) for it in FROM_BYTES}
    wanted = said[FROM_BYTES[0]][:1]
    return [f"{path} doesn't say of the library, from bytes on, what {FROM_BYTES[0]} says" for path in FROM_BYTES if not wanted or said[path] != wanted]


def places_of_headlines() -> dict[str, str]:
    """Returns the texts for users, without the README and PROVED, whose chain takes the headline apart."""
    kinds = ("docs/*.md", "SECURITY.md", "packaging/**/*", "bindings/**/*.html", "bindings/**/*.py", "bindings/**/*.[ch]", "examples/**/*.md", "bench/*.md")
    paths = {it for kind in kinds for it in glob.glob(f"{repository.ROOT}/{kind}", recursive=True) if os.path.isfile(it)}
    left_out = (f"{repository.ROOT}/docs/PROVED.md",)
    texts = (it for it in sorted(paths) if it not in left_out and "/out/" not in it)
    return {os.path.relpath(it, repository.ROOT): read(it) for it in texts}


def wrong_tests(names: Iterable[str], triples: list[Triple], texts: dict[str, str], functions: list[Function]) -> list[str]:
    """Returns what is wrong in a list: the functions that are needed, the list, the sources, all functions of the libraries."""
    found = []
    known = {name_of(it, functions) for it in functions} | {it.name for it in functions}
    have = {it for _, name, ways in triples for it in [name, *ways]}
    others = [texts.get(module, "") for module, name, _ in triples if name == OTHERS]
    for it in names:
        if it not in have and not any(calls(text, it) for text in others):
            found.append(f"no test is named for {it}")
    for module, name, ways in triples:
        if name == OTHERS:
            continue
        found += [f"{it} is no function of a library" for it in [name, *ways] if it not in known]
        if module not in texts:
            found.append(f"{module} is no module of tests and no script")
        elif not calls(texts[module], name):
            found.append(f"{module} doesn't call {name}")
        on_the_way: set[str] = reached(name, functions) if ways else set()
        found += [f"{name} doesn't call {it}" for it in ways if it.rpartition("::")[2] not in on_the_way]
    return found


def main() -> int:
    functions, public = all_functions()
    found = wrong_clauses(text_of_pages(), functions) + wrong_tests(needed(public), listed(read(LIST)), sources(), functions)
    found += [it for page in PAGES for it in wrong_rows(read(page), functions, list(repository.read_crates()))]
    readme = read(f"{repository.ROOT}/README.md")
    found += wrong_headlines(places_of_headlines(), readme)
    found += wrong_from_bytes({it: read(f"{repository.ROOT}/{it}") for it in FROM_BYTES})
    found += wrong_sentences({**places_of_headlines(), "README.md": readme, "docs/PROVED.md": read(PAGES[0])})
    for it in found:
        print(it)
    return 1 if found else 0


if __name__ == "__main__":
    repository.print_help(__doc__)
    sys.exit(main())
