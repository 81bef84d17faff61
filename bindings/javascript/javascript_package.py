#!/usr/bin/env python3
"""Makes the package sfq for JavaScript in bindings/javascript/out: the modules of WebAssembly from the proved crates sfq_c, sfq_tables and
sfq_web, and the files beside this one; a folder, and sfq-VERSION.tgz, which npm takes.

usage: bindings/javascript/javascript_package.py [--jobs N]      or ./build --javascript
"""
import gzip
import hashlib
import io
import json
import os
import runpy
import shutil
import sys
import tarfile
from typing import Callable, Mapping, NamedTuple, Optional, Sequence

HERE = os.path.dirname(os.path.realpath(__file__))
runpy.run_path(f"{os.path.dirname(os.path.dirname(HERE))}/tools/paths.py")

import calls
import repository
import wasm
from calls import Failure
from sfq.geometry import faults
from sfq.tables import errors

OUT = f"{HERE}/out"
# The files of the package beside the modules, and those of them that are its JavaScript, each after those that it imports.
SCRIPTS = ("faults.js", "engine.js", "grid.js", "geojson.js", "geometries.js", "databases.js", "index.js")
# And those of the program sfq, which the web page doesn't need.
PROGRAM = ("serve.js", "program.js", "bin/sfq", "bin/package.json")
FILES = ("package.json", "index.d.ts", *SCRIPTS, *PROGRAM)

COMMON = ("heap.c", "memory.c")
SHAPES = wasm.Module("sfq.wasm", ("sfq_c",), (*COMMON, "calls.c"), ("module.h", "sfq.c", "sfq.h"))
TABLES = wasm.Module(
    "sfq_tables.wasm", ("sfq_c", "sfq_tables"), (*COMMON, "calls.c", "tables_calls.c"),
    ("module.h", "sfq.c", "sfq.h", "sfq_tables.c", "sfq_tables.h"),
)
SERVE = wasm.Module("sfq_serve.wasm", ("sfq_web",), (*COMMON, "serve.c"), ("module.h",))
MODULES = (SHAPES, TABLES, SERVE)

# What is between a module's own words and the line of the kit that made it.
COMPILED_BY = "; proved and compiled by "

# The bytes of each module by its file.
Modules = Mapping[str, bytes]


def sentences_script() -> str:
    """Returns the script with what each fault means and what to do, as Python has it."""
    shown = json.dumps({**faults.MEANINGS, **errors.MEANINGS}, indent=2, ensure_ascii=False)
    return f"// What each fault means, and what to do. Made by javascript_package.py.\nexport const SENTENCES = {shown};\n"


def made(module: wasm.Module) -> Optional[dict[str, str]]:
    """Returns what is known of a module in bindings/javascript/out: what it is, and a sum of what it was made of. None where it isn't there."""
    try:
        with open(f"{OUT}/made.json", encoding="utf-8") as file:
            found: dict[str, str] = json.load(file)[module.file]
        return found if os.path.isfile(f"{OUT}/sfq/{module.file}") else None
    except (OSError, ValueError, KeyError):
        return None


def noted(module: wasm.Module) -> Optional[dict[str, str]]:
    """Returns what is known of a module in bindings/javascript/out where the kit isn't on the path, so that nothing can be known anew."""
    return None if shutil.which("rt") else made(module)


def about(module: wasm.Module, content: bytes) -> str:
    """Says what a module is. Without the kit, the kit that it names is the one by which the module in bindings/javascript/out was made."""
    known = noted(module)
    kit = known["about"].partition(COMPILED_BY)[2] if known else repository.kit_line()
    return f"sfq {repository.version()}, {len(content):,} bytes, SHA-256 {hashlib.sha256(content).hexdigest()}{COMPILED_BY}{kit}"


def inputs(module: wasm.Module) -> str:
    """Returns a sum over all that a module is made of. Without the kit it is the one that was noted when the module was made."""
    known = noted(module)
    return known["inputs"] if known else wasm.inputs(module)


def read_module(module: wasm.Module) -> bytes:
    """Returns the bytes of a module in bindings/javascript/out."""
    with open(f"{OUT}/sfq/{module.file}", "rb") as file:
        return file.read()


def files_of_package(modules: Modules) -> dict[str, bytes]:
    """Returns the content of each file of the package by its path."""
    found = {"sentences.js": sentences_script().encode(), **modules}
    for it in FILES:
        with open(f"{HERE}/{it}", "rb") as file:
            found[it] = file.read()
    return dict(sorted(found.items()))


def archive_of(files: Mapping[str, bytes]) -> bytes:
    """Returns the archive of a package's files as npm has it; the same bytes each time."""
    room = io.BytesIO()
    with tarfile.open(fileobj=room, mode="w", format=tarfile.USTAR_FORMAT) as tar:
        for path, content in files.items():
            entry = tarfile.TarInfo(f"package/{path}")
            entry.size, entry.mode = len(content), 0o755 if path.startswith("bin/") else 0o644
            tar.addfile(entry, io.BytesIO(content))
    return gzip.compress(room.getvalue(), mtime=0)


def write_package(modules: Modules, to: str = OUT) -> None:
    """Writes the package into a folder, as a folder and as an archive, with what is known of its modules."""
    files = files_of_package(modules)
    known = {it.file: {"about": about(it, modules[it.file]), "inputs": inputs(it)} for it in MODULES}
    shutil.rmtree(to, ignore_errors=True)
    for path, content in {**{f"sfq/{it}": content for it, content in files.items()}, f"sfq-{repository.version()}.tgz": archive_of(files)}.items():
        os.makedirs(os.path.dirname(f"{to}/{path}"), exist_ok=True)
        with open(f"{to}/{path}", "wb") as file:
            file.write(content)
    with open(f"{to}/made.json", "w", encoding="utf-8") as text:
        json.dump(known, text, indent=2)


def make_modules(jobs: int = 0) -> Modules:
    """Returns the modules: those that are there, where their sources haven't changed, and the others made anew."""
    found = {}
    for it in MODULES:
        known = made(it)
        found[it.file] = read_module(it) if known and known["inputs"] == wasm.inputs(it) else wasm.make(it, jobs)
    return found


def modules_of(compiled: Mapping[str, calls.Compiled]) -> Modules:
    """Returns the modules, made of the compiled calls of crates by their names."""
    kit = wasm.find_kit()
    return {it.file: wasm.module_of(kit, it, [compiled[name] for name in it.crates]) for it in MODULES}


class Maker(NamedTuple):
    """A command that makes something of modules: its usage, what it makes, of which modules, in which file, and how, given the bytes of each."""

    usage: str
    what: str
    modules: Sequence[wasm.Module]
    file: str
    write: Callable[[Modules], None]

    def build(self, jobs: int = 0) -> int:
        """Makes it. Returns the status to end with."""
        try:
            modules = make_modules(jobs)
            self.write(modules)
        except Failure as error:
            print(f"sfq: no {self.what}: {error}", file=sys.stderr)
            return 1
        print(f"built: {os.path.relpath(self.file, repository.ROOT)}")
        for it in self.modules:
            print(f"{it.file}: {about(it, modules[it.file])}")
        return 0

    def main(self, words: list[str]) -> int:
        """Does what the words say. Returns the status to end with."""
        if not words:
            return self.build()
        if len(words) == 2 and words[0] == "--jobs" and words[1].isdigit():
            return self.build(int(words[1]))
        print(self.usage.strip(), file=sys.stdout if words == ["--help"] else sys.stderr)
        return 0 if words == ["--help"] else 2


if __name__ == "__main__":
    maker = Maker(__doc__, "package for JavaScript", MODULES, f"{OUT}/sfq-{repository.version()}.tgz", write_package)
    sys.exit(maker.main(sys.argv[1:]))
