"""Connections and cursors, by PEP 249, over a database that the library keeps."""
from __future__ import annotations

import collections
import operator
import sys
from collections.abc import Mapping
from typing import Any, Callable, Iterable, Iterator, Optional, Sequence, Union

from ..geometry.forks import held_by
from ..geometry.shapes import of_canonical
from . import errors, near_names, placeholders, sources, statements
from .databases import Database, RefusedGeometry, Statement

# How many statements that nobody uses are kept, so that the same query isn't read and planned again.
MOST_KEPT = 16
# How many rows are read before other threads can ask the database.
MOST_AT_ONCE = 256
# What a thread has that calls a method of a connection.
OF_CONNECTION = operator.attrgetter("_database.held")
Row = tuple[Any, ...]
# Values for `?`, one after another, or for `:name`, by their names.
Parameters = Union[Sequence[Any], Mapping[str, Any]]
Description = tuple[tuple[str, str, None, None, None, None, None], ...]


class Connection:
    """A database: a schema and its tables, which are loaded when a query first names them. `connect` makes it.

    Threads may share it: it serves one call at a time. At the end of a `with` it is closed.
    """

    Warning, Error, InterfaceError, DatabaseError = errors.Warning, errors.Error, errors.InterfaceError, errors.DatabaseError
    DataError, OperationalError, IntegrityError = errors.DataError, errors.OperationalError, errors.IntegrityError
    InternalError, ProgrammingError, NotSupportedError = errors.InternalError, errors.ProgrammingError, errors.NotSupportedError

    def __init__(self, schema: Union[sources.Path, bytes], tables: sources.Tables, makes: Callable[[str], Any]) -> None:
        text, folder = sources.read_schema(schema)
        self._database, self._makes = Database(text), makes
        self._database.source = sources.Given(tables, folder, self._database.tables, self._database.columns)
        # Statements that nobody uses, and those of cursors that are gone, which may happen at any time, in any thread.
        self._kept: collections.OrderedDict[Any, Statement] = collections.OrderedDict()
        self.left: collections.deque[Statement] = collections.deque()

    @property
    def tables(self) -> tuple[str, ...]:
        """The names of the tables, as the schema has them."""
        return tuple(self._database.tables)

    def columns(self, table: str) -> list[tuple[str, str]]:
        """Returns the name and the type of each column of a table: INTEGER, TEXT or GEOMETRY. ProgrammingError where there is none."""
        return list(self._database.columns[self._number(table)])

    def is_loaded(self, table: str) -> bool:
        """Whether a table is loaded. ProgrammingError where there is none of this name."""
        return self._database.is_loaded(self._number(table))

    def load(self, *tables: str) -> None:
        """Loads tables that aren't loaded yet: those of these names, or all. DataError where one is refused."""
        for number in map(self._number, tables) if tables else range(len(self._database.tables)):
            self._load(number)

    @held_by(OF_CONNECTION)
    def _load(self, number: int) -> None:
        """Loads a table that isn't loaded yet."""
        if not self._database.is_loaded(number):
            self._database.load(number)

    def _number(self, table: str) -> int:
        """Returns the number of a table, whatever the case of its name."""
        names = [it.lower() for it in self._database.tables]
        if table.lower() not in names:
            raise errors.ProgrammingError("the schema has no table of this name", table=table)
        return names.index(table.lower())

    def need_open(self) -> None:
        """ProgrammingError where the connection is closed."""
        self._database.need_open()

    def cursor(self) -> Cursor:
        """Returns a new cursor."""
        self.need_open()
        return Cursor(self)

    def execute(self, query: str, parameters: Parameters = ()) -> Cursor:
        """Returns a new cursor that executes a query."""
        return self.cursor().execute(query, parameters)

    def executemany(self, query: str, parameters: Iterable[Parameters]) -> Cursor:
        """Returns a new cursor that executes a query for each of these parameters."""
        return self.cursor().executemany(query, parameters)

    def commit(self) -> None:
        """Does nothing: queries change nothing."""
        self.need_open()

    def rollback(self) -> None:
        """Does nothing: queries change nothing."""
        self.need_open()

    def close(self) -> None:
        """Gives back the memory. What is asked from then on raises ProgrammingError. Closing it again does nothing."""
        self._kept.clear()
        self.left.clear()
        self._database.close()

    def __enter__(self) -> Connection:
        return self

    def __exit__(self, *_error: object) -> None:
        self.close()

    # ---- statements ----

    def begin(self, text: str, values: Parameters) -> Statement:
        """Returns a statement that is before its first row."""
        query = placeholders.query(text)
        constants = query.constants_of(values)
        bound = {mark for _, mark in query.constants(constants)}
        key = (text, tuple(it.type if at in bound else it.text for at, it in enumerate(constants)))
        kept = self._taken(key)
        if kept and bind(kept, query, constants):
            return kept
        made = self._prepared(query, constants, bound)
        made.key = key
        return made

    @held_by(OF_CONNECTION)
    def _taken(self, key: Any) -> Optional[Statement]:
        """Returns a statement that nobody uses, if one is kept, which isn't kept any more."""
        while self.left:
            self.keep(self.left.popleft())
        return self._kept.pop(key, None)

    def _prepared(self, query: placeholders.Query, constants: Sequence[placeholders.Constant], bound: set[Optional[int]]) -> Statement:
        """Returns a new statement of a query. One that is longer than a query may be has short constants, for which others are bound."""
        filled = query.filled(constants)
        try:
            if len(filled) > placeholders.MOST_BYTES:
                short = query.filled([placeholders.stand_in(it) if at in bound else it for at, it in enumerate(constants)])
                if len(short) <= placeholders.MOST_BYTES:
                    made = Statement(self._database, short, self._makes)
                    if bind(made, query, constants):
                        return made
            return Statement(self._database, filled, self._makes)
        except errors.ProgrammingError as error:
            known = [statements.Table(*it, "") for it in zip(self._database.tables, self._database.columns)]
            raise as_written(error, query, constants, known) from None

    @held_by(OF_CONNECTION)
    def keep(self, statement: Statement) -> None:
        """Keeps a statement that nobody uses, and lets go of the one that was unused for longest."""
        if statement.rest():
            self._kept[statement.key] = statement
            self._kept.move_to_end(statement.key)
        if len(self._kept) > MOST_KEPT:
            self._kept.popitem(last=False)


def bind(statement: Statement, query: placeholders.Query, constants: Sequence[placeholders.Constant]) -> bool:
    """Has a statement begin again with other constants, and returns whether it can. DataError where a geometry is refused."""
    wanted, bound = query.constants(constants), []
    if constants and [kind for kind, _ in wanted] != statement.constants:
        return False
    marks: dict[int, int] = {}
    for at, (kind, mark) in enumerate(wanted):
        if mark is None or kind == "NULL":
            continue
        value = constants[mark].value
        if kind == "INTEGER" and not placeholders.LEAST <= value <= placeholders.GREATEST:
            return False
        marks[at] = mark
        bound.append((kind.lower(), at, (value,) if kind == "INTEGER" else (value, len(value))))
    try:
        statement.begin(bound)
    except RefusedGeometry as error:
        at = query.place_of_mark(marks[error.constant])
        raise errors.DataError(errors.meaning("Q8", error.fault), "Q8", at, None, error.fault) from None
    return True


def as_written(
    error: errors.Error, query: placeholders.Query, constants: Sequence[placeholders.Constant], known: Sequence[statements.Table]
) -> errors.Error:
    """Returns the error of a query over these tables with its place in the text that the user wrote. A value that is refused is a DataError."""
    if error.at is None or error.code is None or error.code[0] != "Q":
        return error
    at, is_value = query.place(error.at, constants)
    if is_value and error.code in ("Q8", "Q12"):
        return errors.DataError(error.reason, error.code, at, error.table, error.fault)
    return errors.ProgrammingError(near_names.reason(error, at, query.text, known), error.code, at, error.table, error.fault)


class Cursor:
    """The rows of a query, one by one: it can be iterated over. `Connection.cursor` makes it.

    `description` has the name and the type of each column, STRING, NUMBER or GEOMETRY; `rowcount` is -1, since rows are found as
    they are fetched; `arraysize` is how many rows `fetchmany` returns if it isn't said; `rownumber` is how many rows were fetched,
    None before a query; `lastrowid` is None. An integer comes as int, a text as str, a geometry as Geometry, NULL as None. Ctrl-C ends
    the query.
    """

    lastrowid = None

    def __init__(self, connection: Connection) -> None:
        self.connection, self.arraysize, self.rowcount = connection, 1, -1
        self.rownumber: Optional[int] = None
        self.description: Optional[Description] = None
        self._more: Iterator[Parameters]
        self._query, self._more, self._is_executed, self._is_closed = "", iter(()), False, False
        self._statement: Optional[Statement] = None

    def __del__(self) -> None:
        if self._statement:
            self.connection.left.append(self._statement)

    def execute(self, query: str, parameters: Parameters = ()) -> Cursor:
        """Prepares a query with a value for each `?`, and returns the cursor. Tables that it names are loaded if they aren't yet.

        Parameters may have names instead, as `:name`, whose values come in a dict. A value is an int, a str, a date or a time, a Geometry
        or None, which is NULL. ProgrammingError where the query is refused, DataError where a value or a table is, OperationalError
        where a table's file can't be read, InterfaceError for a value of another type.
        """
        return self.executemany(query, [parameters])

    def executemany(self, query: str, parameters: Iterable[Parameters]) -> Cursor:
        """Prepares a query once for all these parameters, and returns the cursor: it has the rows of one after those of the other."""
        self._need_open()
        self._leave()
        self.description, self.rownumber, self._is_executed = None, None, False
        if not isinstance(query, str):
            raise errors.InterfaceError(f"a query is a str, not a {type(query).__name__}")
        self._query, self._more = query, iter(placeholders.in_order(parameters))
        if self._next():
            self.description = tuple((name, kind, None, None, None, None, None) for name, kind in self._need_statement().columns)
        self.rownumber, self._is_executed = 0, True
        return self

    def _next(self) -> bool:
        """Goes on to the next parameters, and returns whether there are any."""
        for values in self._more:
            self._leave()
            self._statement = self.connection.begin(self._query, values)
            return True
        return False

    def _leave(self) -> None:
        """Lets go of the statement: the same query can use it."""
        statement, self._statement = self._statement, None
        if statement:
            self.connection.keep(statement)

    def _need_open(self) -> None:
        if self._is_closed:
            raise errors.ProgrammingError("the cursor is closed")
        self.connection.need_open()

    def fetchone(self) -> Optional[Row]:
        """Returns the next row, or None behind the last."""
        found = self.fetchmany(1)
        return found[0] if found else None

    def fetchmany(self, size: Optional[int] = None) -> list[Row]:
        """Returns the next rows: so many, or fewer where these are the last."""
        self._need_executed()
        most = self.arraysize if size is None else size
        found: list[Row] = []
        try:
            while self._statement and len(found) < most:
                rows = self._statement.take(min(most - len(found), MOST_AT_ONCE))
                found += rows
                if not rows and not self._next():
                    break
        except BaseException:
            # Rows may be lost: there are no others then.
            self._statement, self._is_executed, self.rownumber = None, False, None
            raise
        self.rownumber = (self.rownumber or 0) + len(found)
        return found

    def _need_executed(self) -> None:
        self._need_open()
        if not self._is_executed:
            raise errors.ProgrammingError("no query was executed")

    def fetchall(self) -> list[Row]:
        """Returns all rows that are left."""
        return self.fetchmany(sys.maxsize)

    def __iter__(self) -> Iterator[Row]:
        return self

    def __next__(self) -> Row:
        row = self.fetchone()
        if row is None:
            raise StopIteration
        return row

    def dicts(self) -> list[dict[str, Any]]:
        """Returns all rows that are left, each as a dictionary by the names of the columns."""
        self._need_executed()
        names = [it[0] for it in self.description or ()]
        return [dict(zip(names, row)) for row in self.fetchall()]

    def df(self) -> Any:
        """Returns all rows that are left as a DataFrame of pandas. ImportError where pandas isn't there."""
        import pandas

        self._need_executed()
        types = {"INTEGER": "Int64", "TEXT": "string", "GEOMETRY": "object"}
        described, rows = self.description or (), self.fetchall()
        columns = {at: pandas.Series([row[at] for row in rows], dtype=types[it[1]]) for at, it in enumerate(described)}
        made = pandas.DataFrame(columns)
        made.columns = [it[0] for it in described]
        return made

    @property
    def work(self) -> int:
        """How many DE-9IM predicates without a NULL argument were decided so far.

        A pair that the probe or an earlier condition rules out costs none.
        """
        return self._need_statement().work()

    def plan(self) -> str:
        """Returns the plan of the query, as EXPLAIN prints it."""
        return self._need_statement().plan()

    def _need_statement(self) -> Statement:
        self._need_open()
        if self._statement is None:
            raise errors.ProgrammingError("no query was executed")
        return self._statement

    def setinputsizes(self, _sizes: Sequence[Any]) -> None:
        """Does nothing: values have their types."""

    def setoutputsize(self, _size: int, _column: Optional[int] = None) -> None:
        """Does nothing: each value is returned whole."""

    def close(self) -> None:
        """Ends the query. What is asked from then on raises ProgrammingError. Closing it again does nothing."""
        if not self._is_closed:
            self._leave()
            self._is_closed = True

    def __enter__(self) -> Cursor:
        return self

    def __exit__(self, *_error: object) -> None:
        self.close()


def connect(schema: Union[sources.Path, bytes], tables: sources.Tables = None, *, load_all: bool = False) -> Connection:
    """Returns a connection to a schema and its tables (PEP 249), which are loaded once, when a query first names them.

        >>> with sfq.connect("examples/parcels/schema.sql") as db:
        ...     db.execute("SELECT id FROM parcel WHERE name = ?", ["Boatyard"]).fetchall()
        [(108,)]

    `schema` is the path of a file or a text with CREATE TABLE. `tables` is a folder with a CSV file for each table, that of the schema
    if it isn't given, or a mapping from names to tables: paths, texts or bytes of CSV, columns by their names, arrays of numpy or
    DataFrames. `load_all` loads all at once. ProgrammingError where the schema is refused, OperationalError where a file can't be
    read, DataError where a table is refused.
    """
    found = Connection(schema, tables, of_canonical)
    if load_all:
        found.load()
    return found
