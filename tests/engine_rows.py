"""Rows of the engine's own scripts, for tests of what is over the C library: each binding has to give the same."""
import csv
import io
import os
import re
import tempfile
import unittest
from typing import Mapping, NamedTuple

import library
import printed
import repository
import required_rows

DATA = f"{repository.ROOT}/crates/scripts/data"
# What SQL of other engines has in another way.
OTHERS = re.compile(r"EXPLAIN")


class Pair(NamedTuple):
    """Two texts, and their matrix or the line of the fault, `sfq: first W1 at 9`."""

    first: str
    second: str
    matrix: str
    fault: str


class Query(NamedTuple):
    """A query, the SQL that makes its tables, and its rows, sorted; and the schema and the text of CSV of each table by its name."""

    tables: str
    text: str
    rows: list[tuple[str, ...]]
    schema: str
    files: dict[str, str]


class WithLibrary(unittest.TestCase):
    """A test case of what is over the C library: skipped where ./build --library hasn't made it, which is seen when it runs."""

    ASKS_LIBRARY = True

    @classmethod
    def setUpClass(cls) -> None:
        if not library.are_made():
            raise unittest.SkipTest("needs ./build --library")


def rows_of(name: str) -> list[required_rows.Row]:
    with open(f"{DATA}/{name}.txt", encoding="utf-8") as file:
        return required_rows.rows_of(file.read())


def reasons() -> list[tuple[list[str], str]]:
    """Returns what the command `why` prints for texts of its script: the words, of which there are one or two, and the lines."""
    found = []
    for row in rows_of("why"):
        words = row.command.removeprefix("why ").split(" | ")
        if row.command.startswith("why ") and re.match("interior|valid|V", row.output) and not any(it[0] in "-@" for it in words):
            found.append((words, row.output))
    return found


def pairs() -> list[Pair]:
    """Returns the pairs that scripts relate, but for texts that no word of a command line can have."""
    found = []
    for row in [row for name in ("relations", "validity", "texts", "locations") for row in rows_of(name)]:
        if row.command.startswith("relate "):
            first, _, second = row.command.removeprefix("relate ").partition(" | ")
            line = row.output.splitlines()[0]
            fault = line.removeprefix("! ") if line.startswith("! ") else ""
            found.append(Pair(first, second, "" if fault else line, fault))
    return found


def canonical_texts() -> list[tuple[str, str]]:
    """Returns texts of geometries, each with its canonical text as the engine prints it."""
    row = next(it for it in rows_of("texts") if it.command.startswith("SELECT"))
    spelled = list(csv.reader(io.StringIO(row.files["table spelled"], newline="")))[1:]
    canonical = list(csv.reader(io.StringIO(row.output, newline="")))[1:]
    if len(spelled) != len(canonical):
        raise ValueError("the script's table and its output differ in their number of rows")
    return [(one[1], other[1]) for one, other in zip(spelled, canonical)]


def measures() -> list[tuple[str, str, bool, list[str]]]:
    """Returns texts of geometries, each with its dimension, whether it is empty, and its bounds, least and greatest x, least and greatest y."""
    found = []
    for _, text in canonical_texts():
        numbers = list(map(int, re.findall(r"-?\d+", text)))
        dimension = "210"[["POLYGON" in text, "LINE" in text, True].index(True)]
        bounds = [str(pick(part)) for part in (numbers[::2], numbers[1::2]) for pick in (min, max)] if numbers else [""] * 4
        found.append((text, dimension, not numbers, bounds))
    return found


def quoted(field: str) -> str:
    """Returns a field of CSV as SQL has it: an empty one is NULL."""
    return "'" + field.replace("'", "''") + "'" if field else "NULL"


def as_sql(schema: str, tables: Mapping[str, str]) -> str:
    """Returns the SQL that makes tables and their rows, with geometries as texts. `tables` has the text of CSV by the name."""
    text = re.sub(r"\b(GEOMETRY|(MULTI)?(POINT|LINESTRING|POLYGON))\b", "TEXT", re.sub(r"--.*", "", schema))
    lines = [text if text.rstrip().endswith(";") else text.rstrip() + ";\n"]
    for name, given in tables.items():
        records = [it for it in csv.reader(io.StringIO(given, newline="")) if it]
        lines += [f"INSERT INTO {name} ({','.join(records[0])}) VALUES ({','.join(map(quoted, it))});" for it in records[1:]]
    return "\n".join(lines)


def sorted_rows(text: str) -> list[tuple[str, ...]]:
    """Returns the rows of a CSV text, sorted."""
    return sorted(tuple(it) for it in csv.reader(io.StringIO(text, newline="")))


def files_of(folder: str) -> tuple[str, dict[str, str]]:
    """Returns the schema of a folder of examples/, and the text of CSV of each table by its name."""
    names = sorted(it for it in os.listdir(f"{repository.ROOT}/{folder}") if it.endswith(".csv"))
    files = {it[:-4]: repository.read(f"{repository.ROOT}/{folder}/{it}") for it in names}
    return repository.read(f"{repository.ROOT}/{folder}/schema.sql"), files


def example_queries() -> list[Query]:
    """Returns the queries over examples/ that documents show, with the rows that they show."""
    with tempfile.TemporaryDirectory(prefix="sfq-documents-") as room:
        shown = [it for it in printed.everything(room) if it.words[:1] == ["run"] and it.words[-2].startswith("examples/")]
    found = {}
    for it in shown:
        if it.text and not it.text.startswith("sfq: ") and not OTHERS.search(it.words[-1]):
            schema, files = files_of(it.words[-2])
            found[it.words[-2], it.words[-1]] = Query(as_sql(schema, files), it.words[-1], sorted_rows(it.text.partition("\n")[2]), schema, files)
    return list(found.values())


def predicate_queries() -> list[Query]:
    """Returns the queries of the predicates' script with their rows."""
    found = []
    for row in rows_of("predicates"):
        if row.command.startswith("SELECT") and not OTHERS.search(row.command) and not row.output.startswith("!"):
            schema, files = row.files["schema"], {it[6:]: text for it, text in row.files.items() if it != "schema"}
            rows = sorted_rows(row.output.partition("\n")[2])
            found.append(Query(as_sql(schema, files), row.command, rows, schema, files))
    return found
