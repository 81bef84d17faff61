"""The command sfq-schema: proposes schema.sql from the headers and the values of CSV files.

    sfq-schema DIR > DIR/schema.sql

Each file DIR/t.csv becomes a table t. A comment behind each column says what its type, the key and NOT NULL are guessed from. None of
it is proved; sfq check says whether the tables load.
"""
from __future__ import annotations

import argparse
import csv
import functools
import os
import re
import sys
from typing import Iterator, NamedTuple, Optional

from .. import __version__
from ..geometry import texts
from ..geometry.counts import number_of
from ..tables import rules
from . import endings
from .endings import DATA, DONE, Stopped
from .progress import Progress

NAME = "sfq-schema"
NAME_OF = re.compile(r"[A-Za-z_][A-Za-z0-9_]*")
PADDED = re.compile(r" *[+-]?0[0-9]")
REAL = re.compile(r" *[+-]?([0-9]+\.[0-9]*|\.[0-9]+|[0-9]+)([eE][+-]?[0-9]+)? *")
DATE = re.compile(r"\d{4}-\d\d-\d\d([T ].*)?")
# The word of a geometry's text, and what a coordinate has that isn't whole.
SHAPE = re.compile(r"\s*(" + "|".join(texts.OF_WORD) + r")\s*(\(|EMPTY)", re.I)
# What stands for a byte that isn't UTF-8.
SURROGATE = re.compile("[\udc80-\udcff]")
PART = re.compile(r"\.0*[1-9]|[0-9][eE]")


say = functools.partial(endings.say, NAME)


def some(number: int, noun: str) -> str:
    """Returns a number with its noun: `1 field`, `2 fields`, `no field`."""
    return number_of(number, noun) if number else f"no {noun}"


class Column:
    """What is known of a column by its fields so far."""

    def __init__(self, name: str) -> None:
        self.name = name
        # How many fields have something in them, how many are empty, and how many whole numbers have a 0 in front.
        self.filled, self.empty, self.padded = 0, 0, 0
        self.is_whole = self.is_real = self.is_date = self.is_shape = True
        self.has_parts = False
        self.words: set[str] = set()
        # The numbers so far; None once one came twice.
        self.numbers: Optional[set[int]] = set()

    def add(self, field: str) -> None:
        """Takes in a field."""
        if not field:
            self.empty += 1
            return
        self.filled += 1
        if self.is_whole:
            self.add_whole(field)
        self.is_real = self.is_real and bool(REAL.fullmatch(field))
        self.is_date = self.is_date and bool(DATE.fullmatch(field))
        if self.is_shape:
            found = SHAPE.match(field)
            self.is_shape = found is not None
            if found:
                self.words.add(found[1].upper())
                self.has_parts = self.has_parts or bool(PART.search(field))

    def add_whole(self, field: str) -> None:
        """Takes in a field of a column whose fields were whole numbers so far."""
        value = rules.integer(field.strip(" "))
        self.padded += bool(PADDED.match(field))
        if value is None:
            self.is_whole, self.numbers = False, None
        elif self.numbers is not None:
            if value in self.numbers:
                self.numbers = None
            else:
                self.numbers.add(value)

    @property
    def can_be_key(self) -> bool:
        """Whether each record has a number of its own."""
        return self.is_whole and not self.empty and self.numbers is not None

    @property
    def type(self) -> str:
        """The type that takes all fields; TEXT where there are none."""
        if not self.filled:
            return "TEXT"
        if self.is_whole:
            return "INTEGER"
        if self.is_shape:
            return next(iter(self.words)) if len(self.words) == 1 else "GEOMETRY"
        return "TEXT"

    def guess(self, is_key: bool) -> str:
        """Returns what the type, the key and NOT NULL are guessed from."""
        if not self.filled:
            return "every field is empty: the type is open" if self.empty else "no record: the type is open"
        behind = f", {self.empty:,} empty" if self.empty else ", none empty"
        if self.is_whole:
            zeros = f", {self.padded:,} with a 0 in front, which TEXT keeps" if self.padded else ""
            return f"{some(self.filled, 'whole number')}{behind}" + (", none twice" if is_key else "") + zeros
        if self.is_shape:
            words = " and ".join(sorted(self.words))
            parts = ": a coordinate isn't whole, so sfq-import has to bring them to a grid" if self.has_parts else ""
            return f"{some(self.filled, 'text')} of {words}{behind}{parts}"
        if self.is_real:
            return f"{some(self.filled, 'number')}{behind}, not all whole ones of 64 bits: TEXT compares them as texts"
        return f"{some(self.filled, 'date' if self.is_date else 'text')}{behind}"


class Table(NamedTuple):
    """A table: its name, its columns that a schema can name, how many records it has, and what is wrong with it."""

    name: str
    columns: list[Column]
    records: int
    troubles: list[str]


def records_of(path: str) -> Iterator[list[str]]:
    """Reads the records of a file, blank lines left out. Stopped where it can't be read as CSV."""
    try:
        with open(path, newline="", encoding="utf-8-sig", errors="surrogateescape") as file:
            yield from (it for it in csv.reader(file) if it)
    except csv.Error as error:
        raise Stopped(f"{path}: {error}", DATA) from None


def columns_of(header: list[str], troubles: list[str]) -> list[Optional[Column]]:
    """Returns a column for each name of a header, None for one that a schema can't have."""
    found: list[Optional[Column]] = []
    lower = [it.lower() for it in header]
    for it in header:
        if not NAME_OF.fullmatch(it) or it.lower() in rules.RESERVED:
            sign = next((sign for sign in ";\t|" if sign in it and len(header) == 1), "")
            hint = f": is {sign!r} the separator? sfq takes commas" if sign else ""
            troubles.append(f"column {it!r} is left out: it isn't a name that sfq takes{hint}")
            found.append(None)
        elif lower.count(it.lower()) > 1:
            troubles.append(f"column {it} is left out: the header has it more than once")
            found.append(None)
        else:
            found.append(Column(it))
    return found


def read_table(path: str, name: str) -> Table:
    """Reads a file. Stopped where sfq would refuse it with any schema."""
    progress, troubles = Progress(NAME, wait=0.5), list[str]()
    records, number = records_of(path), 0
    header = next(records, None)
    if header is None:
        raise Stopped(f"{path} is empty: its first line names the columns", DATA)
    columns = columns_of(header, troubles)
    try:
        for number, fields in enumerate(records, 1):
            if len(fields) != len(header):
                raise Stopped(f"{path} record {number} has {some(len(fields), 'field')}, the header {len(header)}", DATA)
            for column, field in zip(columns, fields):
                if column:
                    if not field.isascii() and SURROGATE.search(field):
                        raise Stopped(f"{path} record {number}: column {column.name} isn't UTF-8", DATA)
                    column.add(field)
            if number % 10_000 == 0:
                progress.show(f"{path} {number:,}")
    finally:
        progress.clear()
    return Table(name, [it for it in columns if it], number, troubles)


def key_of(table: Table) -> Optional[Column]:
    """Returns the column that is the key: one that is named as keys are, else the first that can be one. None where none can."""
    can = [it for it in table.columns if it.can_be_key]
    usual = ("id", "fid", f"{table.name.lower()}_id", f"{table.name.lower()}id", "gid", "ogc_fid", "objectid", "key", "nr", "no")
    return next((it for name in usual for it in can if it.name.lower() == name), can[0] if can else None)


def statement(table: Table, key: Column) -> str:
    """Returns the CREATE TABLE of a table, with what each column is guessed from."""
    described = [rules.Column(it.name, "", it.type if it is not key else "INTEGER") for it in table.columns]
    names = {it.name for it in rules.taken(described, key.name)}
    columns = [it for it in table.columns if it.name in names]
    width = max(len(it.name) for it in columns)
    rows = []
    for it in columns:
        more = "INTEGER PRIMARY KEY" if it is key else it.type + (" NOT NULL" if it.filled and not it.empty else "")
        rows.append((f"  {it.name.ljust(width)} {more}", it.guess(it is key)))
    rows = [(text + ("," if at + 1 < len(rows) else ""), guess) for at, (text, guess) in enumerate(rows)]
    side = max(len(text) for text, _ in rows)
    lines = [f"{text.ljust(side)}  -- {guess}" for text, guess in rows]
    return f"CREATE TABLE {table.name} (\n" + "\n".join(lines) + "\n);\n"


def found_files(folder: str) -> tuple[list[tuple[str, str]], int]:
    """Returns the paths of the folder's tables with their names, and the status: DATA where a file's name is none that a table can have.

    Such a file is left out, and a line says so.
    """
    found, status = [], DONE
    for it in sorted(os.listdir(folder)):
        name, ending = os.path.splitext(it)
        path = os.path.join(folder, it)
        if ending != ".csv" or not os.path.isfile(path):
            continue
        if not NAME_OF.fullmatch(name) or name.lower() in rules.RESERVED:
            say(f"{path} is left out: {name!r} isn't a name that sfq takes; rename the file")
            status = DATA
        else:
            found.append((path, name))
    return found, status


def proposed(folder: str) -> tuple[str, int]:
    """Returns the text of the schema, and the status: DATA where a table is left out of it."""
    parts: list[str] = []
    files, status = found_files(folder)
    if not files:
        raise Stopped(f"{folder} has no file t.csv of a table t", DATA)
    for path, name in files:
        try:
            table = read_table(path, name)
        except Stopped as error:
            say(f"{error}: the table is left out")
            status = error.status
            continue
        for it in table.troubles:
            say(f"{path}: {it}")
        key = key_of(table)
        if key is None:
            say(f"{path}: no column has a whole number of its own in each record, so none can be the key: the table is left out; number the records")
            status = DATA
        elif len(parts) == rules.MOST_TABLES:
            say(f"{path}: sfq takes {rules.MOST_TABLES} tables: this one is left out")
            status = DATA
        else:
            parts.append(statement(table, key))
            if len(table.columns) > rules.MOST_COLUMNS:
                say(f"{path}: the schema has {rules.MOST_COLUMNS} of {len(table.columns)} columns: sfq takes no more")
            if table.records > rules.MOST_ROWS:
                say(f"{path}: one run of sfq takes at most {rules.MOST_ROWS:,} rows; sfq-scale takes more (docs/SCALE.md)")
    head = f"-- Proposed by {NAME}. Behind each column is what it is guessed from: look at each guess.\n\n"
    return head + "\n".join(parts), status


def parser() -> argparse.ArgumentParser:
    found = argparse.ArgumentParser(prog=NAME, description="Proposes schema.sql from the headers and the values of CSV files.",
                                    epilog="Statuses: 0 done, 2 the command line, 4 a table is left out, 6 files, 7 memory. "
                                    "The manual: man sfq-schema.")
    found.add_argument("folder", metavar="DIR", help="the folder of the tables: t.csv for table t")
    found.add_argument("--version", action="version", version=f"{NAME} {__version__}")
    return found


def run(folder: str) -> int:
    """Writes the proposal for a folder, and returns the status."""
    csv.field_size_limit(sys.maxsize)
    text, status = proposed(folder)
    sys.stdout.write(text)
    return status


def main(words: Optional[list[str]] = None) -> int:
    """Runs the command, and returns its status."""
    return endings.ended(NAME, lambda: run(parser().parse_args(words).folder))
