"""A folder that sfq-import made, and answers over its tables in the units of the source. None of it is proved."""
from __future__ import annotations

import os
import re
from typing import Any, Callable, Iterator, NamedTuple, Optional

from ..geometry import grids, texts
from ..tables import parts, rules, statements
from . import exports
from .asking import Answer
from .endings import DATA, Stopped

# How many columns a line names.
MOST_NAMED = 5
# A position in the text of a geometry.
POSITION = re.compile(r"(-?\d+) (-?\d+)")


class Layer(NamedTuple):
    """What grid.json says of a table: its columns by their names in lower case, its coordinate system, and all it says."""

    columns: dict[str, Any]
    system: Any
    said: dict[str, Any]

    @property
    def has_parts(self) -> bool:
        """Whether rows may be parts of a record."""
        return bool(self.said.get("parted"))


def layer_of(said: Any) -> Layer:
    """Returns what grid.json says of a table. KeyError where it lacks what an import writes."""
    for it in ("table", "rows", "records", "left_out"):
        said[it]
    return Layer({it["name"].lower(): it for it in said["columns"]}, said["coordinate_system"], said)


class Column(NamedTuple):
    """A column of an answer in the units of the source: its type, which may be REAL, and what makes a field that isn't empty one of these.

    `axis` is that of a column of whole numbers that count steps.
    """

    kind: str
    write: Callable[[str], str]
    system: Any = None
    axis: Optional[grids.Axis] = None


def counted(axis: grids.Axis) -> Column:
    """Returns a column of whole numbers that count the steps of an axis."""
    return Column("REAL", lambda it: axis.text(int(it)), None, axis)


class Folder:
    """A folder with the tables of sfq-import: schema.sql, a CSV file for each, and grid.json."""

    def __init__(self, path: str) -> None:
        self.path, self.schema_file = path, os.path.join(path, "schema.sql")
        with open(self.schema_file, encoding="utf-8", errors="surrogateescape", newline="\n") as file:
            self.schema = file.read()
        known = exports.known(path)
        self.grid, self.tables, self.relations = known.grid, statements.tables(self.schema), known.relations
        try:
            self.layers = {str(it["table"]).lower(): layer_of(it) for it in known.layers}
        except (KeyError, TypeError) as error:
            raise Stopped(f"{path}/grid.json isn't one that sfq-import made: {error!r}", DATA) from None

    def choose_columns(self, query: str) -> list[str]:
        """Has the schema list the columns that a query names, where a table has more of them than sfq takes: they take the place of the last others.

        Returns a line for each table of the query that a `*` shows in part. Stopped where the query names too many.
        """
        spelled = [query[it.at : it.end].lower() for it in parts.parts(query)]
        words, lines = set(spelled), []
        shows_all = any(it == "*" and spelled[at - 1] != "(" for at, it in enumerate(spelled))
        named = self.layers_of(query).values()
        for it in self.tables:
            layer = self.layers.get(it.name.lower())
            if layer not in named or layer is None or len(layer.columns) <= rules.MOST_COLUMNS:
                continue
            key = str(layer.said["key"])
            columns = [rules.Column(each["name"], each["source"], each["type"]) for each in layer.columns.values()]
            chosen = rules.chosen(columns, key, it.columns, words)
            if len(chosen) > rules.MOST_COLUMNS:
                raise Stopped(f"the query names {len(chosen)} columns of {it.name}, with its key and geometries, and sfq takes at most {rules.MOST_COLUMNS}", DATA)
            if {name.lower() for name, _ in it.columns} != {each.name.lower() for each in chosen}:
                self.schema = self.schema.replace(it.text.rstrip(";\n"), rules.schema(it.name, chosen, key).rstrip(";\n"), 1)
            left = [each.name for each in columns if each not in chosen]
            if shows_all:
                lines.append(f"* leaves out {len(left)} of the {len(columns)} columns of {it.name}, which show where they are named: {', '.join(left[:MOST_NAMED])}"
                             + (" .." if len(left) > MOST_NAMED else ""))
        self.tables = statements.tables(self.schema)
        return lines

    def layers_of(self, query: str) -> dict[str, Layer]:
        """Returns the tables that a query names, by their aliases in lower case."""
        found = statements.references(query, self.tables)
        return {alias: self.layers[it.name.lower()] for alias, it in found.items() if it.name.lower() in self.layers}

    def returned(self, answer: Answer, query: str) -> Returned:
        """Returns an answer to a query, as sfq got it, in the units of the source."""
        columns = statements.columns(query, self.tables) or [None] * len(answer.types)
        return Returned(answer, [self.column(*it) for it in zip(answer.types, columns)], self.grid)

    def column(self, kind: str, of: Optional[statements.Column]) -> Column:
        """Returns a column of an answer by its type, and the column whose values it has."""
        layer = self.layers.get(of.table.name.lower()) if of else None
        if kind in exports.GEOMETRIC:
            return Column(kind, self.text, layer.system if layer else None)
        said = layer.columns.get(of.name.lower()) if layer and of else None
        known = exports.kind_of(said) if said else kind
        if kind == "INTEGER" and known not in ("INTEGER", "REAL", "TEXT"):
            return counted(grids.Scale(known).axis)
        return Column(known if kind == "TEXT" and known == "REAL" else kind, str)

    def text(self, field: str) -> str:
        """Returns the text of a geometry with the coordinates of the source."""
        x, y = self.grid.x.text, self.grid.y.text
        if field.startswith("POINT("):
            first, _, second = field[6:-1].partition(" ")
            return f"POINT({x(int(first))} {y(int(second))})"
        return POSITION.sub(lambda it: f"{x(int(it[1]))} {y(int(it[2]))}", field)


class Returned:
    """An answer in the units of the source. The geometry of a row is that of its first column that is one."""

    def __init__(self, answer: Answer, columns: list[Column], grid: grids.Grid) -> None:
        self.answer, self.columns, self.grid, self.headers = answer, columns, grid, answer.headers
        self.place = next((at for at, it in enumerate(columns) if it.kind in exports.GEOMETRIC), None)
        # The columns whose fields are written in another way than sfq writes them.
        self.others = [(at, it.write) for at, it in enumerate(columns) if it.write is not str]

    def fields(self, row: list[str]) -> list[str]:
        """Returns the fields of a row."""
        found = row[:]
        for at, write in self.others:
            if found[at]:
                found[at] = write(found[at])
        return found

    def rows(self) -> Iterator[exports.Row]:
        """Returns the rows, each with its geometry on the grid."""
        for it in self.answer.rows:
            shape = it[self.place] if self.place is not None else ""
            yield exports.Row(self.fields(it), texts.coordinates(shape) if shape else None)

    def shown(self) -> Answer:
        """Returns it as an answer whose rows are the fields."""
        if self.answer.is_plan:
            return self.answer
        return Answer(self.headers, [it.kind for it in self.columns], map(self.fields, self.answer.rows), False)
