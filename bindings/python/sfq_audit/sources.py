"""Where pairs come from: a CSV file of two columns, a query of PostgreSQL or SQLite, or two layers that GDAL reads."""
from __future__ import annotations

import csv
import os
import shutil
import sqlite3
import subprocess
import sys
import tempfile
import urllib.parse
from typing import Iterable, Iterator

from sfq.commands.endings import DATA, FILES, MISSING, Stopped, say
from sfq.commands.streams import standard_input
from sfq.geometry import texts
from sfq.geometry.counts import number_of
from sfq.geometry.shapes import Geometry

from .asking import LACKING, environment
from .families import Pair

GIVEN = "given"
# Where a name of a database begins like this, it is a server's.
OF_SERVER = ("postgresql:", "postgres:", "PG:")


def numbered(rows: Iterable[list[str]]) -> Iterator[Pair]:
    """Yields the pair of each row, on one line each. Stopped where a row hasn't two fields, or isn't text."""
    number = 0
    try:
        for number, row in enumerate(rows, 1):
            if len(row) != 2:
                raise Stopped(f"record {number} has {number_of(len(row), 'field')}: two geometries make a pair", DATA)
            yield Pair(number - 1, GIVEN, *(" ".join(it.split()) for it in row))
    except UnicodeDecodeError:
        raise Stopped("the pairs aren't UTF-8", DATA) from None
    except csv.Error as error:
        raise Stopped(f"record {number + 1}: {error}", DATA) from None


def of_file(path: str) -> Iterator[Pair]:
    """Returns the pairs of a CSV file without a header, as `sfq pairs` reads them; - is standard input. OSError where it can't be opened."""
    csv.field_size_limit(sys.maxsize)
    file = standard_input(newline="", errors="strict") if path == "-" else open(path, encoding="utf-8", newline="")
    return numbered(csv.reader(file))


def of_query(database: str, query: str) -> Iterator[Pair]:
    """Yields the pairs of a query of two columns of well-known text, of a file of SQLite or a server of PostgreSQL."""
    if database.startswith(OF_SERVER):
        yield from of_server(database.removeprefix("PG:"), query)
        return
    if not os.path.isfile(database):
        raise Stopped(f"{database}: no such file", FILES)
    connection = sqlite3.connect(f"file:{urllib.parse.quote(database)}?mode=ro", uri=True)
    try:
        yield from numbered(["" if it is None else str(it) for it in row] for row in connection.execute(query))
    except (sqlite3.Error, sqlite3.Warning) as error:
        raise Stopped(f"{database}: {error}", FILES) from None
    finally:
        connection.close()


def of_server(database: str, query: str) -> Iterator[Pair]:
    """Yields the pairs of a query of PostgreSQL, by psql."""
    if not shutil.which("psql"):
        raise Stopped("a query of PostgreSQL needs the program psql", FILES)
    words = ["psql", "-X", "-q", "-d", database, "-c", f"COPY ({query.rstrip().rstrip(';')}) TO STDOUT (FORMAT csv)"]
    process = subprocess.Popen(words, stdin=subprocess.DEVNULL, stdout=subprocess.PIPE, stderr=subprocess.PIPE, text=True)
    assert process.stdout and process.stderr
    try:
        csv.field_size_limit(sys.maxsize)
        yield from numbered(csv.reader(process.stdout))
        if process.wait():
            # What a server is called may have a password.
            raise Stopped(f"a query of PostgreSQL: {(process.stderr.read().strip().splitlines() or ['psql failed'])[0]}", FILES)
    finally:
        process.stdout.close()
        process.stderr.close()
        if process.poll() is None:
            process.kill()
            process.wait()


# ---- layers ----

# A geometry with its envelope: the least and the greatest x, the least and the greatest y, and the text.
Placed = tuple[int, int, int, int, str]


def of_layers(sources: Iterable[str], grid: str) -> Iterator[Pair]:
    """Yields each pair of a geometry of one source and one of another whose envelopes meet, on the grid of sfq-import."""
    first, second = (placed(it, grid) for it in sources)
    number = 0
    active: list[tuple[int, Placed]] = []
    # Both are swept from left to right; a geometry stays for as long as one behind it can meet it.
    for which, it in sorted([(0, it) for it in first] + [(1, it) for it in second], key=lambda both: both[1][:4]):
        active = [other for other in active if other[1][1] >= it[0]]
        for side, other in active:
            if side != which and other[2] <= it[3] and it[2] <= other[3]:
                yield Pair(number, GIVEN, *((it[4], other[4]) if which == 0 else (other[4], it[4])))
                number += 1
        active.append((which, it))


def placed(source: str, grid: str) -> list[Placed]:
    """Returns the geometries of a source that sfq-import takes, but for empty ones. A line says what it leaves out. Stopped where it fails."""
    with tempfile.TemporaryDirectory(prefix="sfq-audit-") as room:
        words = [sys.executable, "-B", "-m", "sfq.imports", source, f"--grid={grid}", "--allow-empty", "--anyway", "--no-relations"]
        words += ["--out", f"{room}/tables"]
        ran = subprocess.run(words, stdin=subprocess.DEVNULL, capture_output=True, text=True, env=environment())
        said = [it.removeprefix("sfq-import: ") for it in ran.stderr.splitlines()]
        if ran.returncode:
            status = LACKING if ran.returncode == MISSING else ran.returncode
            raise Stopped(f"{source}: {(said or ['sfq-import failed'])[-1]}", status)
        for it in said:
            if " left out: " in it:
                say("sfq-audit", f"{source}: {it}")
        found: list[Placed] = []
        csv.field_size_limit(sys.maxsize)
        for name in sorted(os.listdir(f"{room}/tables")):
            if name.endswith(".csv") and name not in ("left-out.csv", "changed-relations.csv"):
                with open(f"{room}/tables/{name}", encoding="utf-8", newline="") as file:
                    for row in csv.reader(file):
                        # The geometry is the last column.
                        is_geometry = row[-1].partition("(")[0].strip().upper() in texts.OF_WORD
                        bounds = Geometry(row[-1]).bounds if is_geometry else None
                        if bounds:
                            found.append((bounds[0], bounds[2], bounds[1], bounds[3], row[-1]))
        return found
