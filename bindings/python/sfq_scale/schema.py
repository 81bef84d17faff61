"""Reads a schema that sfq has accepted, and writes the schemas of tiles."""
from __future__ import annotations

from typing import Iterable, Iterator, NamedTuple

from sfq.tables import databases

MOST_COLUMNS = 32


class Column(NamedTuple):
    """A column: its name and type as they are written."""

    name: str
    kind: str
    is_key: bool = False
    is_required: bool = False

    @property
    def text(self) -> str:
        return f"{self.name} {self.kind}{' PRIMARY KEY' * self.is_key}{' NOT NULL' * self.is_required}"


class Table(NamedTuple):
    """A table: its name and its columns."""

    name: str
    columns: tuple[Column, ...]

    @property
    def key(self) -> str:
        return next(it.name for it in self.columns if it.is_key)

    def only(self, names: Iterable[str]) -> Table:
        """Returns the table with these columns and the key alone."""
        kept = {it.lower() for it in names}
        return self._replace(columns=tuple(it for it in self.columns if it.is_key or it.name.lower() in kept))

    @property
    def text(self) -> str:
        return f"CREATE TABLE {self.name} ({', '.join(it.text for it in self.columns)});\n"

    @property
    def header(self) -> str:
        return ",".join(it.name for it in self.columns) + "\n"


def read(text: str) -> list[Table]:
    """Returns the tables of a schema."""
    database = databases.Database(text.encode("utf-8", "surrogateescape"))
    return [Table(name, tuple(columns_of(database, at))) for at, name in enumerate(database.tables)]


def columns_of(database: databases.Database, table: int) -> Iterator[Column]:
    """Returns the columns of a table, as the schema writes them."""
    for at, (name, _) in enumerate(database.columns[table]):
        yield Column(name, *database.form(table, at))


def marks(columns: Iterable[Column]) -> list[str]:
    """Returns the names of the two marks beside these columns: w and s, with `_` behind until they are free."""
    taken = {it.name.lower() for it in columns}
    found: list[str] = []
    for name in ("w", "s"):
        while name in taken:
            name += "_"
        taken.add(name)
        found.append(name)
    return found


def marked(table: Table) -> Table:
    """Returns the table of a tile: with the two marks at the end."""
    return table._replace(columns=table.columns + tuple(Column(it, "INTEGER", False, True) for it in marks(table.columns)))
