"""Queries with clauses that sfq's SELECT doesn't have, such as ORDER BY and GROUP BY: SQLite runs them over sfq's tables. None of it is proved."""
from __future__ import annotations

import os
import re
import sqlite3
import tempfile
from typing import IO, Any, Iterator, Optional

from ..geometry import grids, library
from . import exports, units
from .asking import QUERY, Answer, Refused
from .conditions import Conditions

# SQLite's module, where the libraries are looked for.
MODULE = "sfq0.so"
# The clauses and calls that SQLite has and sfq hasn't, in capitals; those that a query is more likely to be refused for come first.
CLAUSES = ("GROUP BY", "ORDER BY", "HAVING", "DISTINCT", "LEFT", "RIGHT", "FULL", "UNION", "WITH", "OFFSET", "OVER", "EXISTS", "CASE", "SUM", "MIN", "MAX", "AVG")
# How many tables a query of sfq names at most.
MOST_TABLES = 2
# How many rows say of what type a column is.
LOOKED_AT = 1_000
# The beginning of a text that is a geometry's.
SHAPE = re.compile(r"(?:MULTI)?(?:POINT|LINESTRING|POLYGON)(?:\(| EMPTY\Z)")


def wanted(conditions: Conditions) -> str:
    """Returns what of a query SQLite has and sfq hasn't, nothing where there is nothing."""
    words = [it.upper() for it in conditions.words]
    known = {*words, *(" ".join(it) for it in zip(words, words[1:]))}
    found = next((it for it in CLAUSES if it in known), "")
    if not found and len(conditions.layers) > MOST_TABLES:
        return f"joins of {len(conditions.layers)} tables"
    return found or ("names of items by AS" if "AS" in words[: conditions.begin] else "")


def module() -> Optional[str]:
    """Returns the path of SQLite's module, None where it isn't there or this Python can't load it. One in the working folder isn't looked at."""
    can = hasattr(sqlite3.Connection, "enable_load_extension")
    return next((it for it in library.places(MODULE) if os.path.isabs(it) and os.path.isfile(it)), None) if can else None


def connected(path: str, folder: units.Folder, schema: str) -> sqlite3.Connection:
    """Returns a connection to a new database that has the tables of a folder, by the schema in a file. sqlite3.Error where one is refused."""
    found = sqlite3.connect(":memory:")
    found.enable_load_extension(True)
    found.load_extension(path.removesuffix(".so"))
    found.enable_load_extension(False)
    for it in folder.layers.values():
        name = it.said["table"]
        table = f"{folder.path}/{name}.csv".replace("'", "''")
        found.execute(f"""CREATE VIRTUAL TABLE temp."{name}" USING sfq(schema='{schema.replace("'", "''")}', csv='{table}', table='{name}')""")
    return found


def ask(name: str, folder: units.Folder, conditions: Conditions, query: str, fault: Refused) -> units.Returned:
    """Returns the answer of SQLite to a query that sfq refused, in the coordinates of the source. Refused where it has none either."""
    what, path = wanted(conditions), module()
    if not what:
        raise fault
    if path is None:
        fault.text += f"{name}: SQLite's module has {what}, and isn't there: `./build --install PREFIX` installs it, and Debian's Python loads it\n"
        raise fault
    # The schema may list other columns than that of the folder, as the query names them. The file goes with the rows.
    schema = tempfile.NamedTemporaryFile("w", prefix="sfq-ask-", suffix=".sql", encoding="utf-8", errors="surrogateescape", newline="\n")
    schema.write(folder.schema)
    schema.flush()
    try:
        cursor = connected(path, folder, schema.name).execute(query)
        first = cursor.fetchmany(LOOKED_AT)
    except sqlite3.Error as error:
        raise Refused(f"{name}: SQLite, which has {what}: {error}\n", QUERY) from None
    headers = [it[0] for it in cursor.description]
    values = [next((row[at] for row in first if row[at] is not None), None) for at in range(len(headers))]
    columns = [column(*it, conditions, folder) for it in zip(headers, values)]
    return units.Returned(Answer(headers, [it.kind for it in columns], rows(name, cursor, first, schema), False), columns, folder.grid)


def rows(name: str, cursor: sqlite3.Cursor, first: list[Any], schema: IO[str]) -> Iterator[list[str]]:
    """Yields the rows, an empty field for NULL. The file of the schema is there until the last one."""
    try:
        with schema:
            while first:
                yield from (["" if it is None else it if isinstance(it, str) else repr(it) for it in row] for row in first)
                first = cursor.fetchmany(LOOKED_AT)
    except sqlite3.Error as error:
        raise Refused(f"{name}: SQLite: {error}\n", QUERY) from None


def column(header: str, value: Any, conditions: Conditions, folder: units.Folder) -> units.Column:
    """Returns a column of the answer in the units of the source, by its name and a value."""
    of = [it for it in conditions.layers.values() if header.lower() in it.columns]
    said = of[0].columns[header.lower()] if of else None
    if said and said["type"] in exports.GEOMETRIC or isinstance(value, str) and SHAPE.match(value):
        system = next((it.system for it in (*of, *conditions.layers.values())), None)
        return units.Column("GEOMETRY", folder.text, system)
    if said and said.get("step") and isinstance(value, int):
        return units.counted(grids.Scale(said["step"]).axis)
    return units.Column("INTEGER" if isinstance(value, int) else "REAL" if isinstance(value, float) else "TEXT", str)
