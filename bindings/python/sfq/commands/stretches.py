"""Queries over one table that has more rows than one run of sfq takes: each stretch of its records is asked after the one before.

The rows of a table come in the order of its key, so those of stretches with ascending keys follow one another. None of it is proved.
"""
from __future__ import annotations

import itertools
from typing import Callable, Iterable, Iterator, NamedTuple, Optional

from ..tables import rules, statements
from . import asking, units
from .conditions import Conditions
from .endings import DATA, Stopped
from .progress import Progress

COUNT = "COUNT(*)"


class Stretch(NamedTuple):
    """Records of a table's file behind its header, and how many come before them."""

    before: int
    text: bytes


def records(lines: Iterable[bytes]) -> Iterator[bytes]:
    """Yields the records of lines: a line end in quotes ends none."""
    begun: list[bytes] = []
    is_quoted = False
    for line in lines:
        is_quoted ^= line.count(b'"') % 2 == 1
        begun.append(line)
        if not is_quoted:
            yield b"".join(begun)
            begun = []
    if begun:
        yield b"".join(begun)


def stretches(table: statements.Table, path: str, most: int) -> Iterator[Stretch]:
    """Yields the stretches of a table's file, of at most so many records each. Stopped where the keys of the records don't ascend."""
    with open(path, "rb") as file:
        each = records(file)
        header = next(each, b"")
        key, last = key_of(table), None
        if header.strip().lower() != key and not header.lower().startswith(key + b","):
            raise Stopped(f"the first column of {path} isn't the key, so it can't be queried in parts", DATA)
        for before in itertools.count(0, most):
            part = list(itertools.islice(each, most))
            if part or not before:
                last = need_ascending(path, part, before, last)
                yield Stretch(before, header + b"".join(part))
            if len(part) < most:
                return


def key_of(table: statements.Table) -> bytes:
    """Returns the name of a table's key, in lower case."""
    database = statements.described(table.text)
    return next(name for at, (name, _) in enumerate(database.columns[0]) if database.form(0, at).is_key).lower().encode()


def need_ascending(path: str, part: list[bytes], before: int, last: Optional[int]) -> Optional[int]:
    """Returns the last key of records, each of which is greater than the one before it. Stopped where one isn't."""
    for at, it in enumerate(part, before + 1):
        try:
            number = int(it.partition(b",")[0])
        except ValueError:
            # sfq says what is wrong with it.
            continue
        if last is not None and number <= last:
            raise Stopped(f"the key of record {at:,} of {path} isn't greater than the one before it, so it can't be queried in parts", DATA)
        last = number
    return last


def limit_of(query: str, known: list[statements.Table]) -> Optional[int]:
    """Returns how many rows a query over tables of these definitions has at most, None where it says nothing of that or is refused."""
    statement = statements.opened(query, known)
    return statement.form().limit if statement else None


class Parted:
    """A query over one table in stretches."""

    def __init__(self, name: str, folder: units.Folder, layer: units.Layer, query: str) -> None:
        self.name, self.folder, self.query = name, folder, query
        self.table = next(it for it in folder.tables if it.name.lower() == layer.said["table"].lower())
        self.rows, self.progress = int(layer.said["rows"]), Progress(name)

    def answers(self) -> Iterator[asking.Answer]:
        """Yields the answer over each stretch."""
        try:
            for it in stretches(self.table, f"{self.folder.path}/{self.table.name}.csv", rules.MOST_ROWS):
                self.progress.show(f"{self.table.name}: {it.before:,} of {self.rows:,} rows")
                yield self.asker(it).ask(self.query)
        finally:
            self.progress.clear()

    def asker(self, stretch: Stretch) -> asking.Asker:
        """Returns what asks a stretch."""
        found = asking.Asker(self.name, [self.folder.schema_file, self.folder.path], self.folder.schema, stretch.before)
        found.database.source = lambda _: stretch.text
        return found

    def answer(self, limit: Optional[int]) -> asking.Answer:
        """Returns the answer over all stretches. Refused where there is none."""
        answers = self.answers()
        first = next(answers)
        if first.headers == [COUNT]:
            # No stretch is refused once the header is written.
            return asking.Answer(first.headers, first.types, iter(list(counted(first, answers))), False)
        return asking.Answer(first.headers, first.types, itertools.islice(rows(first, answers, self.progress.clear), limit), False)


def rows(first: asking.Answer, others: Iterator[asking.Answer], begin: Callable[[], None]) -> Iterator[list[str]]:
    """Yields the rows of answers. `begin` is called before those of each."""
    for it in itertools.chain([first], others):
        begin()
        yield from it.rows


def counted(first: asking.Answer, others: Iterator[asking.Answer]) -> Iterator[list[str]]:
    """Yields the sum of the counts of answers: none where each has no row, as under LIMIT 0."""
    counts = [int(row[0]) for it in itertools.chain([first], others) for row in it.rows]
    if counts:
        yield [str(sum(counts))]


def is_wanted(conditions: Conditions, query: str) -> bool:
    """Whether a query is over one table that has more rows than one run takes, and doesn't ask for its plan."""
    layers = list(conditions.layers.values())
    return len(layers) == 1 and layers[0].said["rows"] > rules.MOST_ROWS and not statements.is_plan(query)


def ask(name: str, folder: units.Folder, conditions: Conditions, query: str) -> asking.Answer:
    """Returns the answer to such a query. Refused where there is none."""
    return Parted(name, folder, next(iter(conditions.layers.values())), query).answer(limit_of(query, folder.tables))
