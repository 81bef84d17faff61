"""Asks the library what is in a SELECT that sfq has accepted, and writes the SELECT of its parts."""
from __future__ import annotations

from typing import Iterable, NamedTuple, Optional, Sequence

from sfq.tables import databases, parts, statements
from sfq.tables.errors import Error

from . import schema

# How references are named in the parts of a query.
NAMES = ("one", "two")


class Unsure(Exception):
    """What the library doesn't take; the text says why."""


class Source(NamedTuple):
    """A reference of FROM: its table, and the name by which the query knows it."""

    table: schema.Table
    name: str

    def column(self, name: str) -> str:
        """Returns a column with its reference."""
        return f"{self.name}.{name}"


class Meeting(NamedTuple):
    """A predicate that holds only where the bounding boxes of a geometry of each reference meet: its function, and its two arguments as the
    place of the reference and the column."""

    function: str
    arguments: tuple[tuple[int, str], ...]

    def text(self, sources: Sequence[Source]) -> str:
        """Returns its text, without the pattern of ST_Relate."""
        return f"{self.function}({', '.join(sources[place].column(name) for place, name in self.arguments)})"


class Clause(NamedTuple):
    """The condition of ON or of WHERE: its text, in which columns are written with their reference, and whether it is an OR."""

    text: str
    is_or: bool


class Select(NamedTuple):
    """A SELECT of one reference or two. Its columns are written with their reference. `used` has the columns that each reference needs."""

    explains: bool
    counts: bool
    items: str
    sources: list[Source]
    on: Optional[Clause]
    where: Optional[Clause]
    limit: Optional[int]
    used: list[set[str]]
    meetings: list[Meeting]

    def text(self, names: Iterable[str], with_keys: bool = True, owner: Optional[str] = None) -> str:
        """Returns the query over these tables, in the order of the references.

        It lists the keys before the items, unless it counts, and `owner` is a condition more.
        """
        items = self.items
        if with_keys and not self.counts:
            items = ", ".join([*(it.column(it.table.key) for it in self.sources), items])
        on, where = self.conditions(owner)
        froms = [f"{name} AS {it.name}" for name, it in zip(names, self.sources)]
        found = [f"SELECT {items} FROM {(' JOIN ' if on else ', ').join(froms)}"]
        found += [f"{word} {it}" for word, it in (("ON", on), ("WHERE", where)) if it]
        found += [f"LIMIT {self.limit}"] if self.limit is not None else []
        return " ".join(found)

    def conditions(self, owner: Optional[str]) -> tuple[Optional[str], Optional[str]]:
        """Returns the texts of ON and WHERE, with one condition more where that nests nothing deeper, if it may."""
        on, where = (it.text if it else None for it in (self.on, self.where))
        if not owner:
            return on, where
        if not self.on:
            return owner, where
        if not self.where:
            return on, owner
        if not self.where.is_or:
            return on, f"{where} AND {owner}"
        if not self.on.is_or:
            return f"{on} AND {owner}", where
        return on, f"({where}) AND {owner}"


def owner_condition(sources: Iterable[Source], marks: Iterable[Iterable[str]]) -> str:
    """Returns the condition that a pair of rows belongs to its tile: not both begin west of it, nor both south of it."""
    (a, b), (mine, yours) = (it.name for it in sources), marks
    return " AND ".join(f"({a}.{one} = 0 OR {b}.{other} = 0)" for one, other in zip(mine, yours))


def read(text: str, tables: Sequence[schema.Table]) -> Select:
    """Returns what the library says of the query over tables of a schema. Unsure where it refuses the query."""
    try:
        asked = databases.Statement(statements.described("".join(it.text for it in tables)), text.encode(), str)
        return of_statement(text, asked, tables)
    except Error as error:
        raise Unsure(str(error)) from error


def of_statement(text: str, asked: databases.Statement, tables: Sequence[schema.Table]) -> Select:
    """Returns what the library says of an open statement of this text."""
    form, operands, references = asked.form(), asked.operands(), asked.references()
    sources = [Source(tables[it.table], it.name) for it in references]
    names = [[it.name for it in source.table.columns] for source in sources]
    used = [{it.table.key} for it in sources]
    items = []
    # The number of COUNT(*) and the lines of a plan come from no column.
    for it in filter(None, asked.origins()):
        place = references.index(it.reference)
        name = names[place][it.column]
        used[place].add(name)
        items.append(f"{it.function}({sources[place].column(name)})" if it.function else sources[place].column(name))
    tested = [(it.conjunct, it.reference, names[it.reference][it.column]) for it in operands if not it.constant]
    for _, place, name in tested:
        used[place].add(name)
    found = clauses(text, [sources[place].column(name) for _, place, name in tested])
    meetings = [
        Meeting(databases.PREDICATES[it.test - databases.FIRST_PREDICATE], tuple((place, name) for number, place, name in tested if number == at))
        for at, it in enumerate(asked.conjuncts()) if it.joins
    ]
    listed = "COUNT(*)" if form.counts else ", ".join(items)
    return Select(form.explains, form.counts, listed, sources, found.get("on"), found.get("where"), form.limit, used, meetings)


def clauses(text: str, columns: Sequence[str]) -> dict[str, Clause]:
    """Returns the conditions of a query by the word before them, with these texts in place of the columns that they name."""
    named = parts.columns(text)
    # Those of the select list come first.
    made = {it.at: (it.end, column) for it, column in zip(named[len(named) - len(columns) :], columns)}
    found: dict[str, list[str]] = {}
    word, end = "", 0
    for it in parts.parts(text):
        token = text[it.at : it.end]
        if it.kind == parts.RESERVED and token.lower() in ("on", "where", "limit"):
            word = token.lower()
        elif it.kind not in (parts.SEMICOLON, parts.END) and it.at >= end:
            end, token = made.get(it.at, (it.end, token))
            found.setdefault(word, []).append(token)
    return {word: Clause(joined(found[word]), has_or(found[word])) for word in ("on", "where") if word in found}


def has_or(tokens: Iterable[str]) -> bool:
    """Whether an OR is outside parentheses."""
    depth = 0
    for it in tokens:
        depth += (it == "(") - (it == ")")
        if depth == 0 and it.lower() == "or":
            return True
    return False


def joined(tokens: Iterable[str]) -> str:
    """Returns a text of these tokens: a space between each two, but within a parenthesis and before a comma."""
    text = ""
    for it in tokens:
        is_close = not text or it in (",", ")") or text[-1] == "("
        text += it if is_close else f" {it}"
    return text
