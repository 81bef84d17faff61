"""Where queries end in a text, and what a schema and a query name: as the library reads them.

A text may be anything. What the library refuses has no types and columns, and it says what is wrong with it when it is asked.
"""
from __future__ import annotations

import functools
from typing import Iterator, NamedTuple, Optional

from . import parts, placeholders
from .databases import Database, Origin, Statement as Open
from .errors import Error


class Statement(NamedTuple):
    """A query without the `;` behind it, from its first token on, and the line in which it begins, from 1."""

    text: str
    line: int


class Splitter:
    """Takes the lines of a text one after another, and gives each query once its `;` has come."""

    def __init__(self) -> None:
        self.parts: list[str] = []
        self.is_in_string, self.line, self.begun = False, 0, 0

    @property
    def is_begun(self) -> bool:
        """Whether a query has begun that hasn't ended."""
        return bool(self.parts)

    def add(self, line: str) -> Iterator[Statement]:
        """Takes a line in, with its line end, and gives the queries that end in it.

        A string that began before it is read as if it began with the line. Blanks and comments before a query aren't of it.
        """
        self.line += 1
        text = f"'{line}" if self.is_in_string else line
        begin = len(text) - len(line) if self.is_begun else len(text)
        for it in parts.parts(text):
            if it.kind == parts.SEMICOLON:
                self.parts.append(text[begin : it.at])
                self.is_in_string, begin = False, len(text)
                statement = self.taken()
                if statement:
                    yield statement
            elif it.kind != parts.END:
                if begin == len(text):
                    begin, self.begun = it.at, self.line
                self.is_in_string = it.kind == parts.OPEN_STRING
        if text[begin:]:
            self.parts.append(text[begin:])

    def taken(self) -> Optional[Statement]:
        """Returns what was kept, if there is something, and begins anew."""
        text = "".join(self.parts)
        if not self.is_in_string:
            text = text.rstrip(" \t\n\r")
        self.parts, self.is_in_string = [], False
        return Statement(text, self.begun) if text else None


def is_plan(query: str) -> bool:
    """Whether a query asks for its plan."""
    first = next(parts.parts(query))
    return query[first.at : first.end].upper() == "EXPLAIN"


class Table(NamedTuple):
    """A table of a schema: its name, its columns with their types, and its CREATE TABLE."""

    name: str
    columns: list[tuple[str, str]]
    text: str


def tables(schema: str) -> list[Table]:
    """Returns the tables of a schema: none of one that is refused."""
    try:
        database = described(schema)
    except Error:
        return []
    columns = [[(name, database.form(at, column).type) for column, (name, _) in enumerate(it)] for at, it in enumerate(database.columns)]
    return [Table(*it) for it in zip(database.tables, columns, texts(schema))]


def texts(schema: str) -> Iterator[str]:
    """Returns the text of each table of a schema that is taken, with its `;`."""
    begin = end = -1
    for it in parts.parts(schema):
        if it.kind in (parts.SEMICOLON, parts.END):
            if begin >= 0:
                yield schema[begin:end] + ";\n"
            begin = -1
        else:
            begin, end = it.at if begin < 0 else begin, it.end


@functools.lru_cache(maxsize=16)
def described(schema: str) -> Database:
    """Returns a database of a schema whose tables have no rows: it says what the schema and a query name. Error where it is refused."""
    database = Database(schema.encode("utf-8", "surrogateescape"))
    database.source = lambda table: ",".join(name for name, _ in database.columns[table]).encode() + b"\n"
    return database


def opened(query: str, known: list[Table]) -> Optional[Open]:
    """Returns the statement of a query over tables of these definitions, which have no rows; None where it is refused."""
    try:
        text = placeholders.need_utf_8(query.encode("utf-8", "surrogateescape"))
        return Open(described("".join(it.text for it in known)), text, str)
    except Error:
        return None


def references(query: str, known: list[Table]) -> dict[str, Table]:
    """Returns the tables that a query names, by their aliases in lower case: of one that is refused those that it mentions."""
    statement = opened(query, known)
    return {it.name.lower(): known[it.table] for it in statement.references()} if statement else mentioned(query, known)


def mentioned(text: str, known: list[Table]) -> dict[str, Table]:
    """Returns the tables whose names are behind FROM and JOIN, by the words that seem to be their aliases: a query that sfq refuses, or
    that isn't finished, has no others that are known."""
    words, of_name = [(it.kind, text[it.at : it.end].lower()) for it in parts.parts(text)], {it.name.lower(): it for it in known}
    found: dict[str, Table] = {}
    is_next = is_listed = False
    for at, (_, word) in enumerate(words):
        if is_next and word in of_name:
            behind = [it for it in words[at + 1 : at + 3] if it != (parts.RESERVED, "as")][:1]
            found.setdefault(behind[0][1] if behind and behind[0][0] == parts.WORD else word, of_name[word])
        is_listed = (is_listed or word == "from") and word not in ("where", "on", "limit")
        is_next = word in ("from", "join") or (is_listed and word == ",")
    return found


class Column(NamedTuple):
    """A column whose values an answer has, as they are or by ST_AsText: its table, its name and its type."""

    table: Table
    name: str
    type: str


def columns(query: str, known: list[Table]) -> list[Optional[Column]]:
    """Returns which column each one of an answer is: None for numbers of functions and of rows, and for lines of a plan."""
    statement = opened(query, known)
    return [column_of(it, known) for it in statement.origins()] if statement else []


def column_of(origin: Optional[Origin], known: list[Table]) -> Optional[Column]:
    """Returns the column of an origin, if it is asked for as it is or by ST_AsText."""
    if origin is None or origin.function not in ("", "ST_AsText"):
        return None
    table = known[origin.reference.table]
    return Column(table, *table.columns[origin.column])


def types(headers: list[str], query: str, known: list[Table]) -> list[str]:
    """Returns the types of an answer's columns: of ST_AsText that of its argument."""
    statement = opened(query, known)
    if statement is None:
        return ["TEXT"] * len(headers)
    found = [column_of(it, known) for it in statement.origins()]
    return [column.type if column else kind for column, (_, kind) in zip(found, statement.columns)]
