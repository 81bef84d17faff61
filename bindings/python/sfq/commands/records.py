"""Queries about records of which some are several rows of their table: each such record is related as a whole. None of it is proved.

Records that are one row each have the rows that sfq gives for the query. For the others sfq first gives the candidates: the rows for which
the query holds with ST_Intersects in place of one predicate, and without the other predicates over parts. A record meets another geometry
if a part of it does, so no record is missing. Each of them is then put together again, and related by exact whole numbers.
"""
from __future__ import annotations

import contextlib
import csv
import functools
import heapq
import itertools
import sys
from typing import Callable, Collection, Iterator, NamedTuple, Optional, Sequence

from ..geometry import matrices
from ..geometry.shapes import Geometry
from ..layers import rejoining
from ..tables import databases, parts, rules, statements
from . import exports, stretches, units, wholes
from .asking import Answer
from .conditions import OF_PARTS, PREDICATES, Conditions
from .endings import DATA, Stopped
from .progress import Progress

# How many single geometries are kept in memory for further pairs.
KEPT = 4_096
# How many records a query of candidates names at most.
FEW = 200


class Uncovered(Exception):
    """Why a query can't be one about wholes, and whether sfq refuses it."""

    is_refused = False


class Unknown(Uncovered):
    """A query that sfq refuses."""

    is_refused = True


class Source(NamedTuple):
    """A table as FROM names it: its alias, its key, and if records are several rows of it, the column that has the key of the record."""

    alias: str
    layer: units.Layer
    key: str
    whole: str

    @property
    def table(self) -> str:
        """The name of the table."""
        return str(self.layer.said["table"])

    @property
    def keys(self) -> list[str]:
        """The columns that say of which record a row is."""
        return [f"{self.alias}.{it}" for it in (self.key, self.whole) if it]


class Argument(NamedTuple):
    """An argument of a predicate: the number of its table and its column, or the text of a constant; and how it is written."""

    source: Optional[int]
    text: str
    written: str


class Condition(NamedTuple):
    """A predicate between ANDs: its name, the pattern of ST_Relate, its arguments, its first token and the one behind it."""

    name: str
    pattern: str
    arguments: list[Argument]
    first: int
    end: int

    @property
    def sources(self) -> set[int]:
        """The numbers of the tables that it names."""
        return {it.source for it in self.arguments if it.source is not None}

    @property
    def forces_meeting(self) -> bool:
        """Whether it holds only where both arguments share a point."""
        return self.name in wholes.MEETING or (self.name == "ST_Relate" and matrices.forces_meeting(self.pattern))


class Handle(NamedTuple):
    """A geometry of a row: the number of its table, its column and the record; of a constant -1, nothing and its text."""

    source: int
    column: str
    record: str


# The records of a row, one of each table.
Records = tuple[str, ...]
# By what rows come in the order of the keys.
Rank = tuple[int, ...]


def wanted(conditions: Conditions) -> bool:
    """Whether a query has a predicate over records in parts that may hold of the parts otherwise, or shows the parts that it holds of.

    ST_Intersects and ST_Disjoint alone are about the parts.
    """
    calls = [it for it in conditions.calls() if any(layer.has_parts for layer in it.layers)]
    if all(it.name in OF_PARTS for it in calls):
        return False
    return shows_parts(conditions) or not all(map(conditions.says_the_same, calls))


def shows_parts(conditions: Conditions) -> bool:
    """Whether an item is the geometry of a part, or all columns."""
    items = conditions.columns(1, conditions.begin)
    return conditions.words[1:2] == ["*"] or any(it.layer.has_parts and it.layer.columns[it.name]["type"] in exports.GEOMETRIC for it in items)


class Query:
    """A query about wholes, as sfq gets it. Uncovered where it can't be one."""

    def __init__(self, name: str, folder: units.Folder, query: str) -> None:
        self.name, self.folder, self.query = name, folder, query
        opened = statements.opened(query, folder.tables)
        if opened is None:
            raise Unknown("this query is one for SQLite, which relates parts")
        if statements.is_plan(query):
            raise Uncovered("EXPLAIN is about rows")
        self.given = Conditions(query, folder)
        self.words, self.tokens = self.given.words, self.given.tokens
        self.sources = [source_of(folder, it.name, folder.tables[it.table]) for it in opened.references()]
        self.need_no_parts()
        where, on = self.behind("WHERE"), self.behind("ON")
        form = opened.form()
        self.limit, self.is_count = form.limit, form.counts
        self.end = next((at for at in range(self.given.begin, len(self.words)) if self.word(at) in ("LIMIT", ";")), len(self.words))
        ends = (where - 1 if where else self.end, self.end)
        self.conditions = [it for begin, end in zip((on, where), ends) if begin for it in self.conjuncts(begin, end)]
        # One that names both tables comes first.
        self.driver = max((it for it in self.conditions if it.forces_meeting), key=lambda it: len(it.sources), default=None)
        self.take_items(opened)

    def word(self, at: int) -> str:
        """Returns a token in capitals."""
        return self.given.word(at)

    def behind(self, word: str) -> int:
        """Returns the place behind a reserved word, 0 where there is none."""
        return next((at + 1 for at, it in enumerate(self.tokens) if it.kind == parts.RESERVED and self.word(at) == word), 0)

    def need_no_parts(self) -> None:
        """Uncovered where the query is about the parts as such."""
        for it in self.given.columns(1, len(self.words)):
            if it.layer.has_parts and it.name == str(it.layer.said["parted"]["part"]).lower():
                raise Uncovered(f"the query names {it.name}, which only parts have")
            if it.last >= self.given.begin and it.layer.has_parts and "ST_ASTEXT" in (self.word(it.first - 2), self.word(it.first - 1)):
                raise Uncovered("a condition has the text of a part")

    def take_items(self, opened: databases.Statement) -> None:
        """Takes what the rows show: the items in the words of a query, and of each column its header, its type and where it comes from."""
        origins, tables = opened.origins(), self.folder.tables
        known = [statements.column_of(it, tables) for it in origins]
        types = statements.types([it for it, _ in opened.columns], self.query, tables)
        all_columns = zip(opened.columns, types, origins, known)
        is_all, items = self.words[1] == "*", []
        self.headers: list[str] = []
        self.types: list[str] = []
        # The number of the table whose record's text a column has, None of others.
        self.shown: list[Optional[int]] = []
        for (header, _), kind, origin, column in all_columns:
            number = next((at for at, it in enumerate(self.sources) if origin and it.alias == origin.reference.name), 0)
            source = self.sources[number]
            if is_all and column and source.whole and column.name.lower() == source.key.lower():
                continue
            is_of_whole = bool(source.whole and column and column.type in exports.GEOMETRIC)
            self.headers.append(header)
            self.types.append("GEOMETRY" if is_of_whole else kind)
            self.shown.append(number if is_of_whole else None)
            items.append(f"{source.alias}.{column.name}" if is_all and column else "")
        first, last = self.tokens[1].at, self.tokens[self.given.begin - 1].end
        self.items = "" if self.is_count else ", ".join(items) if is_all else self.query[first:last]

    # ---- conditions ----

    def conjuncts(self, begin: int, end: int) -> Iterator[Condition]:
        """Yields the predicates over parts between ANDs of some tokens. Uncovered where one is in another place."""
        while self.word(begin) == "(" and self.closing(begin) == end - 1:
            begin, end = begin + 1, end - 1
        depth, first, places = 0, begin, []
        for at in range(begin, end):
            depth += (self.words[at] == "(") - (self.words[at] == ")")
            if not depth and self.word(at) == "AND":
                places.append((first, at))
                first = at + 1
        if places and not self.has_or(begin, end):
            for one, other in (*places, (first, end)):
                yield from self.conjuncts(one, other)
            return
        found = self.condition(begin, end)
        if found:
            yield found
        elif any(it.layer.has_parts and self.in_call(it.first, begin) for it in self.given.columns(begin, end)):
            raise Uncovered("a predicate over them is within OR or NOT, and no condition of its own between ANDs")

    def has_or(self, begin: int, end: int) -> bool:
        """Whether tokens have an OR outside of all parentheses."""
        depth = 0
        for at in range(begin, end):
            depth += (self.words[at] == "(") - (self.words[at] == ")")
            if not depth and self.word(at) == "OR":
                return True
        return False

    def closing(self, at: int) -> int:
        """Returns the place of the parenthesis that closes the one at a place."""
        depth = 0
        for end in range(at, len(self.words)):
            depth += (self.words[end] == "(") - (self.words[end] == ")")
            if not depth:
                return end
        return len(self.words)

    def in_call(self, at: int, begin: int) -> bool:
        """Whether a token, of those from a place on, is in the parentheses of a predicate."""
        return any(self.word(it) in PREDICATES and self.word(it + 1) == "(" and it < at < self.closing(it + 1) for it in range(begin, at))

    def condition(self, begin: int, end: int) -> Optional[Condition]:
        """Returns the predicate over parts that some tokens are, None where they are something else."""
        if self.word(begin) not in PREDICATES or self.word(begin + 1) != "(" or self.closing(begin + 1) != end - 1:
            return None
        depth, ends = 0, [begin + 1]
        for at in range(begin + 2, end - 1):
            depth += (self.words[at] == "(") - (self.words[at] == ")")
            ends += [at] if not depth and self.words[at] == "," else []
        ends.append(end - 1)
        given = [self.argument(one + 1, other) for one, other in zip(ends, ends[1:3])]
        if not any(it.source is not None and self.sources[it.source].whole for it in given):
            return None
        pattern = self.words[ends[2] + 1][1:-1] if len(ends) > 3 else ""
        return Condition(PREDICATES[self.word(begin)], pattern, given, begin, end)

    def argument(self, begin: int, end: int) -> Argument:
        """Returns the argument that some tokens are."""
        written = self.query[self.tokens[begin].at : self.tokens[end - 1].end]
        constant = next((self.words[at][1:-1] for at in range(begin, end) if self.tokens[at].constant == parts.GEOMETRY), None)
        if constant is not None:
            return Argument(None, constant, written)
        column = self.words[end - 1].lower()
        listed = {it.name.lower(): [name.lower() for name, _ in it.columns] for it in self.folder.tables}
        named = [at for at, it in enumerate(self.sources) if (
            it.alias.lower() == self.words[begin].lower() if end - begin > 1 else column in listed[it.table.lower()])]
        return Argument(named[0], column, written)

    # ---- what sfq is asked ----

    def text(self, is_of_candidates: bool, parted: Sequence[Collection[str]] = ()) -> str:
        """Returns the query whose rows begin with the keys of the records: as it is, or that of the candidates.

        `parted` has the records of each table that are several rows: if they are few, the candidates are rows of them alone.
        """
        some = [f"{it.alias}.{it.whole} = {key}" for it, its in zip(self.sources, parted) for key in its if it.whole]
        few = f" AND ({' OR '.join(some)})" if 0 < len(some) <= FEW and all(map(rules.WHOLE.fullmatch, (it.rpartition(" ")[2] for it in some))) else ""
        keys = [key for it in self.sources for key in it.keys]
        found = [f"SELECT {', '.join([*keys, *([self.items] if self.items else [])])} "]
        at = self.tokens[self.given.begin].at
        for it in self.conditions if is_of_candidates else ():
            key = self.sources[0].keys[0]
            instead = f"ST_Intersects({it.arguments[0].written}, {it.arguments[1].written})" if it is self.driver else f"{key} = {key}"
            found += [self.query[at : self.tokens[it.first].at], instead + few]
            few = ""
            at = self.tokens[it.end - 1].end
        end = self.tokens[self.end].at if self.end < len(self.tokens) else len(self.query)
        return "".join(found) + self.query[at:end]

    def returned(self, run: Callable[[str], Answer]) -> units.Returned:
        """Returns the answer, in the units of the source. `run` asks sfq. Refused where it has none."""
        answer, text = Answer(self.headers, self.types, Run(self, run).rows(), False), self.text(False)
        keys = ["INTEGER" for it in self.sources for _ in it.keys]
        columns = self.folder.returned(Answer([], [*keys, *self.types], iter(()), False), text).columns[len(keys):]
        return units.Returned(answer, columns or [units.Column("INTEGER", str)], self.folder.grid)


def source_of(folder: units.Folder, alias: str, table: statements.Table) -> Source:
    """Returns a table as FROM names it. Uncovered where its rows don't say of which record they are."""
    layer, key = folder.layers.get(table.name.lower()), stretches.key_of(table).decode()
    if layer is None:
        raise Uncovered(f"grid.json says nothing of {table.name}")
    if not layer.has_parts:
        return Source(alias, layer, key, "")
    names = {name.lower() for name, _ in table.columns}
    parted = layer.said["parted"]
    if key != str(parted.get("part", "")).lower() or str(parted["whole"]).lower() not in names:
        raise Uncovered(f"schema.sql doesn't list the columns of {table.name} that say which rows are of one record")
    return Source(alias, layer, key, str(parted["whole"]))


# ---- the rows ----


class Row(NamedTuple):
    """A row of sfq: the keys of its rows of the tables, the records that these are of, and the items."""

    rank: Rank
    records: Records
    items: list[str]


class Run:
    """One run of a query."""

    def __init__(self, query: Query, run: Callable[[str], Answer]) -> None:
        self.query, self.run, self.progress = query, run, Progress(query.name)
        # Of each table the records that are several rows, by their keys.
        self.parted: dict[str, dict[str, wholes.Whole]] = {}
        for it in query.sources:
            if it.whole and it.table not in self.parted:
                self.parted[it.table] = {whole.key: whole for whole in wholes.wholes(query.folder, it.layer) or ()}
        self.of_sources = [self.parted.get(it.table, {}) for it in query.sources]
        # The texts of geometries of records that are one row.
        self.single: dict[Handle, str] = {}
        self.figure = functools.lru_cache(maxsize=KEPT)(lambda it: rejoining.figure(self.text(it)))
        self.whole = functools.lru_cache(maxsize=None)(self.put_together)
        # What sfq refuses is refused before the first row.
        self.answer = run(query.text(False))

    def rows(self) -> Iterator[list[str]]:
        """Yields the rows of the answer."""
        try:
            singles = (it for it in self.of(self.answer) if not self.has_parts(it))
            found = heapq.merge(singles, self.of_wholes(), key=lambda it: it.rank)
            if not self.query.is_count:
                yield from map(self.shown, itertools.islice(found, self.query.limit))
            elif self.query.limit != 0:
                yield [str(sum(1 for _ in found))]
        finally:
            self.progress.clear()
            self.answer.close()

    def shown(self, row: Row) -> list[str]:
        """Returns the fields of a row: of a record that is several rows the geometry that they are together."""
        if not self.has_parts(row):
            return row.items
        return [field if number is None or not self.is_parted(number, row.records[number]) else self.text_of_whole(number, row.records[number])
                for field, number in zip(row.items, self.query.shown)]

    def of(self, answer: Answer) -> Iterator[Row]:
        """Yields the rows of an answer of sfq."""
        keys, records, at = [], [], 0
        for it in self.query.sources:
            keys.append(at)
            records.append(at + 1 if it.whole else at)
            at += len(it.keys)
        for fields in answer.rows:
            yield Row(tuple([int(fields[it]) for it in keys]), tuple([fields[it] for it in records]), fields[at:])

    def is_parted(self, number: int, record: str) -> bool:
        """Whether a record of a table is several rows."""
        return number >= 0 and record in self.of_sources[number]

    def has_parts(self, row: Row) -> bool:
        """Whether one of the records of a row is several rows."""
        return any([record in its for its, record in zip(self.of_sources, row.records)])

    def of_wholes(self) -> Iterator[Row]:
        """Yields the rows with records that are several, in the order of the keys, each once."""
        found: dict[Records, Row] = {}
        for it in self.of(self.run(self.query.text(True, self.of_sources))):
            if self.has_parts(it):
                found.setdefault(it.records, it)
        rows = sorted(it._replace(rank=self.rank(it)) for it in found.values())
        self.read(rows)
        for done, it in enumerate(rows):
            self.progress.show(f"{done:,} of {len(rows):,} candidates related as wholes")
            if all(self.holds(condition, it.records) for condition in self.query.conditions):
                yield it

    def rank(self, row: Row) -> Rank:
        """Returns by what a row comes in the order of the keys: the first part of each record."""
        return tuple(self.parted[self.query.sources[at].table][record].first if self.is_parted(at, record) else row.rank[at]
                     for at, record in enumerate(row.records))

    # ---- geometries ----

    def read(self, rows: list[Row]) -> None:
        """Reads the geometries of the records that are one row, and are related to others."""
        for number, column in {(arg.source, arg.text) for it in self.query.conditions for arg in it.arguments if arg.source is not None}:
            needed = {it.rank[number]: it.records[number] for it in rows if not self.is_parted(number, it.records[number])}
            for record, text in texts_of(self.query.folder, self.query.sources[number], column, needed):
                self.single[Handle(number, column, record)] = text

    def holds(self, condition: Condition, records: Records) -> bool:
        """Whether a predicate holds of the records of a row. It doesn't of NULL."""
        if condition is self.query.driver and condition.name == "ST_Intersects":
            return True
        its = [Handle(-1, "", it.text) if it.source is None else Handle(it.source, it.text, records[it.source]) for it in condition.arguments]
        are_parted = [self.is_parted(it.source, it.record) for it in its]
        if not all(is_parted or self.text(it) for it, is_parted in zip(its, are_parted)):
            return False
        one, other = (self.whole(it.source, it.record) if is_parted else self.figure(it) for it, is_parted in zip(its, are_parted))
        matrix = matrices.matrix(one, other) if any(are_parted) else Geometry(self.text(its[0])).relate(self.text(its[1]))
        if condition.name == "ST_Relate":
            return matrices.matches(matrix, condition.pattern)
        return matrices.holds(condition.name, matrix, (one.dimension, other.dimension))

    def text(self, it: Handle) -> str:
        """Returns the text of a geometry that isn't in parts, nothing for NULL."""
        return it.record if it.source < 0 else self.single.get(it, "")

    def put_together(self, number: int, record: str) -> rejoining.Whole:
        """Returns the geometry of a record that is several rows."""
        table = self.query.sources[number].table
        with need_whole(record, table):
            return rejoining.Whole(self.parted[table][record].texts)

    def text_of_whole(self, number: int, record: str) -> str:
        """Returns the text of the geometry of a record that is several rows."""
        whole = self.whole(number, record)
        with need_whole(record, self.query.sources[number].table):
            return rejoining.text_of(whole)


@contextlib.contextmanager
def need_whole(record: str, table: str) -> Iterator[None]:
    """Stopped where the rows of a record aren't the parts of one geometry."""
    try:
        yield
    except rejoining.NotWhole as error:
        raise Stopped(f"the rows of record {record} of {table} aren't the parts of one geometry: {error}", DATA) from None


def texts_of(folder: units.Folder, source: Source, column: str, needed: dict[int, str]) -> Iterator[tuple[str, str]]:
    """Yields the records of a table whose keys are needed, each with the text of its geometry."""
    csv.field_size_limit(sys.maxsize)
    with open(f"{folder.path}/{source.table}.csv", newline="", encoding="utf-8", errors="surrogateescape") as file:
        rows = csv.reader(file)
        header = [it.lower() for it in next(rows, [])]
        key, shape = header.index(source.key.lower()), header.index(column)
        for row in rows if needed else ():
            record = needed.get(int(row[key]))
            if record is not None:
                yield record, row[shape]
