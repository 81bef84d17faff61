#!/usr/bin/env python3
"""Hands random inputs to the C around the proved calls, by programs that sanitizers watch where the compiler has them.

It needs the libraries that ./build --library makes. Each program prints nothing, or what it found wrong, and ends with status 1 then. What
it does depends on the seed alone; how far it goes, on the seconds.
"""
import argparse
import os
import runpy
import subprocess
import sys
import tempfile
from concurrent.futures import ThreadPoolExecutor
from typing import Sequence

ROOT = os.path.dirname(os.path.dirname(os.path.dirname(os.path.realpath(__file__))))
runpy.run_path(f"{ROOT}/tools/paths.py")

import bindings
import c_programs
import library

# What is handed in, and the program that does it.
PROGRAMS = {
    "texts": "well-known text, patterns, arrays of positions, indexes", "binaries": "well-known binary, joins",
    "tables": "schemas, tables of CSV, queries with constants", "sqlite": "joins and transactions in SQLite",
}
SOURCES = {"texts": "library/fuzz.c", "binaries": "library/fuzz_binaries.c", "tables": "library/fuzz_tables.c", "sqlite": "sqlite/fuzz_joins.c"}


def names() -> list[str]:
    """Returns the names of the programs that can be made here."""
    return [it for it in PROGRAMS if it != "sqlite" or bindings.has_sqlite()]


def made(name: str, folder: str) -> str:
    """Compiles a program into a folder, and returns its path."""
    flags = ["-std=c99", *c_programs.STRICT, *c_programs.watched(), f"-I{library.FOLDER}"]
    sources, libraries = [f"{ROOT}/tests/{SOURCES[name]}"], [it.archive for it in library.ALL]
    if name == "sqlite":
        # The extension is a part of the program, so that it is watched too.
        sources, libraries = ["-DSQLITE_CORE", *sources, *bindings.of_sqlite()], [*libraries, "-lsqlite3"]
    subprocess.run(["cc", *flags, *sources, *libraries, "-o", f"{folder}/{name}"], check=True)
    return f"{folder}/{name}"


def ran(name: str, seed: int, seconds: int) -> tuple[bool, str]:
    """Runs a program, and returns whether it found nothing wrong, and what it printed."""
    with tempfile.TemporaryDirectory(prefix=f"sfq-{name}-") as folder:
        program = made(name, folder)
        words = [program, folder, str(seed), str(seconds)] if name == "sqlite" else [program, str(seed), f"{seconds}s"]
        done = subprocess.run(words, capture_output=True, text=True, errors="replace")
    return done.returncode == 0 and not done.stderr, done.stdout + done.stderr


def options_of(words: Sequence[str]) -> argparse.Namespace:
    parser = argparse.ArgumentParser(description=__doc__.splitlines()[0])
    listed = "; ".join(f"{name}: {what}" for name, what in PROGRAMS.items())
    parser.add_argument("names", nargs="*", metavar="NAME", help=f"what is handed in (all of it). {listed}")
    parser.add_argument("--seconds", type=int, default=30, help="how long each goes on (30)")
    parser.add_argument("--minutes", type=int, default=0, help="how long each goes on, in minutes")
    parser.add_argument("--seed", type=int, help="the seed (a random one)")
    options = parser.parse_args(words)
    unknown = set(options.names) - set(PROGRAMS)
    if unknown:
        parser.error(f"unknown: {', '.join(sorted(unknown))}")
    return options


def main(words: Sequence[str]) -> int:
    options = options_of(words)
    if not library.are_made():
        sys.exit("rims.py: the libraries aren't there: run ./build --library")
    seed = int.from_bytes(os.urandom(4), "big") if options.seed is None else options.seed
    print(f"seed {seed}", flush=True)
    asked = options.names or names()
    with ThreadPoolExecutor(len(asked)) as pool:
        found = list(pool.map(lambda name: ran(name, seed, 60 * options.minutes or options.seconds), asked))
    for name, (is_well, text) in zip(asked, found):
        print(f"{name}: {'well' if is_well else 'WRONG'}\n{text}".rstrip(), flush=True)
    return 0 if all(is_well for is_well, _ in found) else 1


if __name__ == "__main__":
    sys.exit(main(sys.argv[1:]))
