"""The proved calls of a static library, compiled: an archive for x86-64, of which a C library is made, and the module of LLVM on the
way to it, of which the modules of the package for JavaScript are made. The crate is sfq_c, sfq_tables for databases, or sfq_web for the
program in Node."""
import os
import re
import subprocess
from typing import NamedTuple, Optional, Sequence

import proving
import repository

CRATE = "sfq_c"
TARGET = "x86_64-unknown-linux-gnu"


class Failure(Exception):
    """Why the calls can't be compiled, or nothing can be made of them."""


class Compiled(NamedTuple):
    """The paths of the archive and of the module, which LLVM reads."""

    archive: str
    module: str


def run(words: Sequence[str], cwd: Optional[str] = None) -> str:
    """Runs a command, and returns what it wrote. Its last lines are the reason where it fails."""
    ran = subprocess.run(words, stdin=subprocess.DEVNULL, stdout=subprocess.PIPE, stderr=subprocess.STDOUT, cwd=cwd)
    text = ran.stdout.decode("utf-8", "replace")
    if ran.returncode:
        last = "\n".join(text.splitlines()[-12:])
        raise Failure(f"{os.path.basename(words[0])} ended with status {ran.returncode}\n{last}")
    return text


def find_kit() -> str:
    """Returns the folder of the Rattle kit."""
    kit = os.path.dirname(os.path.dirname(os.path.realpath(repository.need_rt())))
    for it in ("bin/rattle", "bin/rattle-link", "toolchain/bin/clang", "toolchain/bin/llvm-ar", "c/liblibc_c.a"):
        if not os.path.exists(f"{kit}/{it}"):
            raise Failure(f"the kit at {kit} lacks {it}")
    return kit


def crate_of(name: str = CRATE, root: str = repository.ROOT) -> proving.Crate:
    """Returns what is known of the crate's proof."""
    crates = proving.crates_of(root, repository.logic_of(repository.kit_line()), [name])
    if not crates:
        raise Failure(f"crates.txt has no crate {name}")
    crates[-1].read_mark()
    return crates[-1]


def below(crates: Optional[dict[str, list[str]]] = None, name: str = CRATE) -> list[str]:
    """Returns the repository's libraries below the crate, each after those that it uses."""
    crates = crates or repository.read_crates()
    found: list[str] = []
    for it in crates[name]:
        if it in crates:
            found += [each for each in [*below(crates, it), it] if each not in found]
    return found


def prove(jobs: int = 0, name: str = CRATE) -> None:
    """Proves the crate and all below it, side by side, as far as that isn't done."""
    if crate_of(name).is_done:
        return
    run = proving.Proving(repository.ROOT, repository.kit_line(), jobs, [name])
    if not run.run():
        raise Failure(f"the crate {name} isn't proved")


def words_over(kit: str, name: str, root: str) -> list[str]:
    """Returns the words by which the kit reads a library crate over the libraries that are proved below it."""
    crates = repository.read_crates(root)
    words = ["--crate-name", name, "src/lib.rt", "--extern", f"std={kit}/rlibs/std.rlib"]
    for it in crates[name]:
        at = f"{root}/crates/{it}/out/rlib" if it in crates else f"{kit}/rlibs"
        words += ["--extern", f"{it}={at}/{it}.rlib"]
    for it in below(crates, name):
        words += ["-L", f"dependency={root}/crates/{it}/out/rlib"]
    words += ["-L", f"dependency={kit}/rlibs", "--antt-project", f"{kit}/rattle/logic/antt-project.json"]
    return words + ["--logic-built", f"{kit}/logic_built"]


def words_of_build(kit: str, toolchain: str, archive: str, keeps: bool, name: str, root: str) -> list[str]:
    """Returns the words by which the kit builds the crate with a toolchain of our own. `rt lib` has no word for one."""
    words = [f"{kit}/bin/rattle", "build", *words_over(kit, name, root), "--links", f"{name}=", "--crate-type", "staticlib"]
    words += ["--incremental", "out/incremental"] if keeps else []
    return words + ["--backend", "llvm", "--toolchain", toolchain, "-o", archive]


def make_toolchain(kit: str, folder: str, module: str) -> None:
    """Makes a folder of links to the kit's toolchain, whose clang keeps the module that it is handed."""
    os.makedirs(f"{folder}/bin")
    os.symlink(f"{kit}/toolchain/lib", f"{folder}/lib")
    for it in os.listdir(f"{kit}/toolchain/bin"):
        if it != "clang":
            os.symlink(f"{kit}/toolchain/bin/{it}", f"{folder}/bin/{it}")
    with open(f"{folder}/bin/clang", "w", encoding="utf-8") as file:
        file.write(f'#!/bin/sh\n[ -f module.bc ] && cp module.bc "{module}"\nexec "{kit}/toolchain/bin/clang" "$@"\n')
    os.chmod(f"{folder}/bin/clang", 0o755)


def compile_calls(room: str, keeps: bool = True, name: str = CRATE, root: str = repository.ROOT) -> Compiled:
    """Proves the crate of a repository over the libraries that are proved below it, and compiles it into a folder.

    `keeps` says whether these libraries are those of `rt check`, and what is proved now is kept beside them. What `rt ci` leaves
    serves too, but nothing else can be built on it.
    """
    kit = find_kit()
    compiled = Compiled(f"{room}/lib{name}.a", f"{room}/{name}.bc")
    make_toolchain(kit, f"{room}/toolchain-{name}", compiled.module)
    words = words_of_build(kit, f"{room}/toolchain-{name}", compiled.archive, keeps, name, root)
    report = run(words, cwd=f"{root}/crates/{name}")
    found = re.search(rf"^logic=proved .*target={TARGET}.*$", report, re.M)
    if not found:
        raise Failure(f"the kit doesn't say that {name} is proved for {TARGET}")
    if not os.path.isfile(compiled.module):
        raise Failure("the kit's clang got no file module.bc")
    if keeps:
        crate_of(name, root).write_mark(found[0])
    return compiled
