#!/usr/bin/env python3
"""Runs `sfq` over a table of 100,000 rows under limits of memory, and says whether what came was an answer or
`out of memory`.

Three queries: the deepest condition in parentheses, the deepest under NOT, and the widest select list that a query's text
holds. Each is run with address spaces from 6 MB up. Every run has to end with status 0 and the whole answer, or with status 7
and the line `sfq: out of memory`; what was written then has to be a beginning of the answer.

It needs Python's standard library and the built program (run ./build). It is no test: the gate doesn't run it.
"""

import pathlib
import random
import resource
import subprocess
import sys
import tempfile
from typing import Optional

from timing import PROGRAM

ROWS = 100_000
LEVELS = 63
SCHEMA = "CREATE TABLE t (id INTEGER PRIMARY KEY, pop INTEGER, name TEXT);"
MEGABYTES = (6, 8, 12, 16, 24, 32, 48, 64, 96, 128)
QUERIES = {
    "deepest parentheses": "SELECT id FROM t WHERE " + "(" * LEVELS + "pop > 0" + ")" * LEVELS,
    "deepest NOT": "SELECT id FROM t WHERE " + "NOT " * LEVELS + "pop > 500000",
    "widest list": "SELECT " + ",".join(["id", "pop", "name"] * 5_000) + " FROM t WHERE id < 3",
}


def make_table(folder: pathlib.Path) -> None:
    """Writes the schema and t.csv, its rows in a shuffled order."""
    chance = random.Random(1)
    keys = list(range(1, ROWS + 1))
    chance.shuffle(keys)
    lines = ["id,pop,name"] + [f"{key},{chance.randint(0, 10**6)},name {key}" for key in keys]
    (folder / "schema.sql").write_text(SCHEMA)
    (folder / "t.csv").write_text("\n".join(lines) + "\n")


def run(folder: pathlib.Path, query: str, megabytes: Optional[int] = None) -> tuple[int, bytes, bytes]:
    """The status, the output and the fault line of a run."""

    def limited() -> None:
        if megabytes is not None:
            resource.setrlimit(resource.RLIMIT_AS, (megabytes << 20, megabytes << 20))

    command = [str(PROGRAM), "run", "schema.sql", ".", query]
    done = subprocess.run(command, cwd=folder, capture_output=True, preexec_fn=limited)
    return done.returncode, done.stdout, done.stderr


def main() -> None:
    if not PROGRAM.exists():
        sys.exit("the program isn't built: run ./build")
    bad = 0
    with tempfile.TemporaryDirectory() as name:
        folder = pathlib.Path(name)
        make_table(folder)
        for label, query in QUERIES.items():
            status, answer, fault = run(folder, query)
            if status != 0:
                sys.exit(f"{label}: status {status} without a limit: {fault.decode()}")
            for megabytes in MEGABYTES:
                status, output, fault = run(folder, query, megabytes)
                is_answer = status == 0 and output == answer and not fault
                is_refusal = status == 7 and fault == b"sfq: out of memory\n" and answer.startswith(output)
                bad += not (is_answer or is_refusal)
                print(f"{label:20} {megabytes:>4} MB: status {status}, {len(output)} of {len(answer)} bytes")
    sys.exit(f"{bad} runs were neither" if bad else 0)


if __name__ == "__main__":
    main()
