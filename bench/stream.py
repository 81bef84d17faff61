#!/usr/bin/env python3
"""Measures how `sfq run` streams: what LIMIT saves, and that memory doesn't grow with the rows that are printed.

Over the table of `limits.py`, 100,000 rows, it runs queries that print nothing, ten rows, half of them and all, and one that
counts them. For each it prints a row of a Markdown table: the lines printed, processor milliseconds, what of them is beyond
loading (the query under LIMIT 0), and peak memory. Times are the least of several runs.

It needs Python's standard library and the built program (run ./build). It is no test: the gate doesn't run it.
"""

import argparse
import pathlib
import sys
import tempfile

from limits import make_table
from timing import PROGRAM, README, Table, best, read_options

QUERIES = (
    "SELECT id, name FROM t LIMIT 0",
    "SELECT id, name FROM t LIMIT 10",
    "SELECT id, name FROM t WHERE pop > 500000 LIMIT 10",
    "SELECT COUNT(*) FROM t WHERE pop > 500000",
    "SELECT id, name FROM t WHERE pop > 500000",
    "SELECT id, name FROM t",
)


def main() -> None:
    parser = argparse.ArgumentParser(description=__doc__.splitlines()[0])
    parser.add_argument("--repeats", type=int, default=15, help="runs of each query (15)")
    options = read_options(parser)
    if not PROGRAM.exists():
        sys.exit("the program isn't built: run ./build")
    loading = None
    with tempfile.TemporaryDirectory() as name:
        folder = pathlib.Path(name)
        make_table(folder)
        table = Table(["query", "lines", "ms", "beyond loading", "MB"])
        for query in QUERIES:
            command = [str(PROGRAM), "run", "schema.sql", ".", query]
            _, processor, peak, lines = best(command, folder, options.repeats)
            loading = processor if loading is None else loading
            beyond = max(processor - loading, 0) * 1_000
            table.add([f"`{query}`", f"{lines:,}", f"{processor * 1_000:.0f}", f"{beyond:.0f}", f"{peak / 1_024:.1f}"])
    if options.write:
        table.write_into(README)


if __name__ == "__main__":
    main()
