"""Makes the C libraries of the proved calls: bindings/c/out has libsfq.so.0 and libsfq.a of the crate sfq_c, and libsfq_tables.so.0
and libsfq_tables.a of the crate sfq_tables.

The proved calls, and the kit's C functions that they use, are behind bindings/c/sfq.c and sfq_tables.c, which aren't proved. Only the
calls of sfq.h and sfq_tables.h can be seen from outside.
"""
import hashlib
import os
import re
import shutil
import sys
import tempfile
from typing import NamedTuple

import calls
import repository

FOLDER = f"{repository.ROOT}/bindings/c"
OUT = f"{FOLDER}/out"
FLAGS = ["-std=c99", "-O2", "-Wall", "-Wextra", "-Werror", "-fPIC"]


class Library(NamedTuple):
    """A library by its name, the crate of its proved calls, and the headers that its C includes."""

    name: str
    crate: str
    headers: tuple[str, ...]

    @property
    def soname(self) -> str:
        return f"lib{self.name}.so.0"

    @property
    def shared(self) -> str:
        return f"{OUT}/{self.soname}"

    @property
    def archive(self) -> str:
        return f"{OUT}/lib{self.name}.a"


SHAPES = Library("sfq", calls.CRATE, ("sfq.h",))
TABLES = Library("sfq_tables", "sfq_tables", ("sfq_tables.h", "sfq.h"))
ALL = (SHAPES, TABLES)
NAME = SHAPES.soname
SHARED = SHAPES.shared


def seen_calls(of: Library = SHAPES) -> list[str]:
    """Returns the calls that can be seen from outside, by the library's map in bindings/c."""
    with open(f"{FOLDER}/{of.name}.map", encoding="utf-8") as text:
        return re.findall(r"^\s+(\w+);$", text.read(), re.M)


def inputs(of: Library = SHAPES) -> str:
    """Returns a sum over all that a library is made of: the crate with all below it, the kit's logic, and the C beside."""
    total = hashlib.sha256(calls.crate_of(of.crate).sum.encode())
    for it in (f"{of.name}.c", *of.headers, f"{of.name}.map"):
        with open(f"{FOLDER}/{it}", "rb") as file:
            total.update(file.read())
    return total.hexdigest()


def is_made(of: Library = SHAPES) -> bool:
    """Whether a library is there, made of the present sources. Without the kit this isn't looked at."""
    if not all(os.path.isfile(it) for it in (of.shared, of.archive, f"{OUT}/{of.name}.inputs")):
        return False
    with open(f"{OUT}/{of.name}.inputs", encoding="ascii") as file:
        return not shutil.which("rt") or file.read() == inputs(of)


def link_in(folder: str, archive: str, of: Library = SHAPES) -> None:
    """Makes a library, shared and static, in a folder from its proved calls."""
    calls.run(["cc", *FLAGS, "-c", f"{FOLDER}/{of.name}.c", "-o", f"{folder}/{of.name}.o"])
    whole = [f"{folder}/{of.name}.o", "--whole-archive", archive, "--no-whole-archive", f"{calls.find_kit()}/c/liblibc_c.a"]
    calls.run(
        ["cc", "-shared", f"-Wl,-soname,{of.soname}", f"-Wl,--version-script={FOLDER}/{of.name}.map", "-Wl,-z,defs"]
        + [f"-Wl,{it}" if it.startswith("--") else it for it in whole]
        + ["-o", f"{folder}/{of.soname}"]
    )
    # One object in which only the calls of the header are global.
    calls.run(["ld", "-r", *whole, "-o", f"{folder}/all.o"])
    calls.run(["objcopy", *(f"--keep-global-symbol={it}" for it in seen_calls(of)), f"{folder}/all.o", f"{folder}/lib{of.name}.o"])
    calls.run(["ar", "rcsD", f"{folder}/lib{of.name}.a", f"{folder}/lib{of.name}.o"])


def link(archive: str, of: Library = SHAPES) -> None:
    """Makes a library, shared and static, in bindings/c/out from its proved calls."""
    os.makedirs(OUT, exist_ok=True)
    with tempfile.TemporaryDirectory(prefix="new-", dir=OUT) as room:
        link_in(room, archive, of)
        with open(f"{room}/{of.name}.inputs", "w", encoding="ascii") as file:
            file.write(inputs(of))
        for it in (f"lib{of.name}.a", of.soname, f"{of.name}.inputs"):
            os.chmod(f"{room}/{it}", 0o644)
            os.replace(f"{room}/{it}", f"{OUT}/{it}")


def make(jobs: int = 0) -> int:
    """Proves what isn't proved yet of the calls and what they are made of, and makes the libraries. Returns the exit status."""
    print("proving and compiling the calls of the C libraries", flush=True)
    try:
        for it in ALL:
            calls.prove(jobs, it.crate)
            with tempfile.TemporaryDirectory(prefix="sfq-library-") as room:
                link(calls.compile_calls(room, name=it.crate).archive, it)
    except calls.Failure as why:
        print(f"sfq: no C library: {why}", file=sys.stderr)
        return 1
    for made in ALL:
        print(f"made: bindings/c/out/{made.soname}, SHA-256 {repository.sum_of_file(made.shared)}")
    return 0


def make_copy(root: str, folder: str, of: Library = SHAPES) -> str:
    """Makes a library, shared and static, in a folder from the calls that are proved in a copy of the crates, and returns the shared
    one's sum."""
    link_in(folder, calls.compile_calls(folder, name=of.crate, root=root).archive, of)
    return repository.sum_of_file(f"{folder}/{of.soname}")


def description(prefix: str, version: str, of: Library = SHAPES) -> str:
    """Returns the text of a library's file for pkg-config."""
    with open(f"{FOLDER}/{of.name}.pc.in", encoding="utf-8") as text:
        return text.read().replace("@PREFIX@", prefix).replace("@VERSION@", version)


def are_made() -> bool:
    """Whether all libraries are there, made of the present sources."""
    return all(is_made(it) for it in ALL)


# What is installed: where it is in the repository, where under the prefix, and its mode.
FILES = [
    part
    for it in ALL
    for part in (
        (f"bindings/c/{it.name}.h", f"include/{it.name}.h", 0o644),
        (f"bindings/c/out/{it.soname}", f"lib/{it.soname}", 0o644),
        (f"bindings/c/out/lib{it.name}.a", f"lib/lib{it.name}.a", 0o644),
    )
]
# Beside them, made when they are installed: what the linker looks for, and what pkg-config reads.
MADE = [part for it in ALL for part in (f"lib/lib{it.name}.so", f"lib/pkgconfig/{it.name}.pc")]


def install_made(prefix: str, version: str) -> list[str]:
    """Makes the links and the descriptions under a prefix, and returns their paths."""
    made = []
    for it in ALL:
        link_path, description_path = f"{prefix}/lib/lib{it.name}.so", f"{prefix}/lib/pkgconfig/{it.name}.pc"
        os.makedirs(os.path.dirname(description_path), exist_ok=True)
        if os.path.lexists(link_path):
            os.remove(link_path)
        os.symlink(it.soname, link_path)
        with open(description_path, "w", encoding="utf-8") as file:
            file.write(description(os.path.abspath(prefix), version, it))
        made += [link_path, description_path]
    return made
