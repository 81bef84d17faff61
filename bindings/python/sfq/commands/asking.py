"""Asks the library libsfq_tables for the rows of a query, and says why there are none as `sfq run` does."""
from __future__ import annotations

import collections.abc
import csv
import io
import os
import re
import shutil
import subprocess
import sys
import tempfile
from typing import IO, Callable, Iterator, NamedTuple, Optional, Sequence

from ..geometry.faults import MEANINGS
from ..geometry.shapes import Geometry
from ..tables import databases, errors, near_names, placeholders, sources, statements
from .endings import DATA, FILES, MEMORY, spelled
from .progress import Progress

SCHEMA, QUERY = 3, 5
OUT_OF_MEMORY = "sfq: out of memory\n"
# How many characters of a line are shown before the place of a fault and from it on.
BEFORE, BEHIND = 100, 60
# How many rows are taken from the library in one go.
MOST_AT_ONCE = 256
# From how many bytes on it is said that a table is loaded.
LARGE = 4_000_000
# The code in the first line of a fault: of a table its name is before it.
CODE = re.compile(r"^sfq: (?:\w+ )?([SLQWV]\d+)\b", re.M)


class Refused(Exception):
    """Why there is no answer, or none as a whole: the lines that say so, and the status with which `sfq run` ends."""

    def __init__(self, text: str, status: int) -> None:
        super().__init__(text)
        self.text, self.status = text, status
        # Whether it says where in a file the query begins.
        self.is_placed = False

    @property
    def code(self) -> str:
        """The fault's code, if it has one."""
        found = CODE.search(self.text)
        return found[1] if found else ""


def encoded(text: str) -> bytes:
    """Returns the bytes of a text that was read, whether they are UTF-8 or not."""
    return text.encode("utf-8", "surrogateescape")


class Block(NamedTuple):
    """Rows that are there at once, an empty field for NULL: how many they are, about how many bytes they take, and their fields, or their
    records of CSV as the library writes them."""

    number: int
    size: int
    fields: list[list[str]]
    records: Optional[str] = None

    @property
    def rows(self) -> list[list[str]]:
        """The fields of each row."""
        if self.records is None:
            return self.fields
        # Nothing is in the record of one NULL.
        return [it or [""] for it in csv.reader(io.StringIO(self.records, newline=""))]

    def columns(self, width: int) -> list[Sequence[str]]:
        """Returns the fields of each of so many columns."""
        text = self.records
        if text is None or '"' in text or text.count(",") != self.number * (width - 1) or text.count("\n") != self.number:
            return list(zip(*self.rows))
        # No field has a comma or a line end, and each record has one behind it.
        fields = text[:-1].replace("\n", ",").split(",")
        return [fields[at::width] for at in range(width)]


class Answer:
    """An answer: the headers and the types of its columns, and its rows as they come, an empty field for NULL.

    A plan has one column of its lines. The rows come one by one, or in blocks, which has to be chosen before the first one is taken.
    """

    def __init__(
        self, headers: list[str], types: list[str], rows: Iterator[list[str]], is_plan: bool, blocks: Optional[Iterator[Block]] = None,
    ) -> None:
        self.headers, self.types, self.rows, self.is_plan, self.given = headers, types, rows, is_plan, blocks

    @classmethod
    def of_blocks(cls, headers: list[str], types: list[str], blocks: Iterator[Block], is_plan: bool) -> Answer:
        """Returns the answer whose rows come in blocks."""
        return cls(headers, types, rows_of(blocks), is_plan, blocks)

    def blocks(self) -> Iterator[Block]:
        """Returns the rows in blocks."""
        return blocks_of(self.rows) if self.given is None else self.given

    def close(self) -> None:
        """Ends it where rows are left."""
        for it in (self.rows, self.given):
            if isinstance(it, collections.abc.Generator):
                it.close()


def rows_of(blocks: Iterator[Block]) -> Iterator[list[str]]:
    """Yields the rows of blocks."""
    for it in blocks:
        yield from it.rows


def blocks_of(rows: Iterator[list[str]]) -> Iterator[Block]:
    """Yields rows in blocks that take little memory."""
    found, size = list[list[str]](), 0
    for it in rows:
        found.append(it)
        size += sum(map(len, it))
        if len(found) == MOST_AT_ONCE or size >= databases.PAGE:
            yield Block(len(found), size, found)
            found, size = [], 0
    if found:
        yield Block(len(found), size, found)


def query_file(query: str) -> IO[bytes]:
    """Returns a file with the text of a query, which `--why` reads once more: standard input can't be. It has no name that could be left."""
    file = tempfile.TemporaryFile()
    file.write(encoded(query))
    file.flush()
    return file


class Asker:
    """Asks the library, which loads a table when a query first names it, and keeps it.

    It asks below `connect`, which takes each `?` for a value and no text that isn't UTF-8: here such a query has its fault.
    `places` are the paths of the schema, whose text comes too, and of the folder of tables. `before` is how many records of a table
    come before those that are loaded. LibraryError, which names the command that builds the library, if it isn't there.
    """

    def __init__(self, name: str, places: list[str], schema: str, before: int = 0) -> None:
        self.name, self.places, self.tables, self.before = name, places, statements.tables(schema), before
        try:
            self.database = databases.Database(encoded(schema))
        except errors.Error as error:
            raise refused(error, schema) from None
        self.database.source = sources.Given(places[1], None, self.database.tables, self.database.columns)

    def ask(self, query: str) -> Answer:
        """Asks a query. Refused where it has no answer."""
        progress = Progress(self.name)
        try:
            large = self.large(query)
            if large:
                progress.show(f"loading {', '.join(large)}", is_last=True)
            statement = databases.Statement(self.database, placeholders.need_utf_8(encoded(query)), str)
        except errors.DataError as error:
            error.at = error.at and error.at + self.before
            raise refused(error, query) from None
        except errors.Error as error:
            raise refused(error, query, self.tables) from None
        except MemoryError:
            raise Refused(OUT_OF_MEMORY, MEMORY) from None
        finally:
            progress.clear()
        headers = [it for it, _ in statement.columns]
        is_plan = statements.is_plan(query)
        types = statements.types(headers, query, self.tables)
        return Answer.of_blocks(headers, types, self.blocks(statement, self.lines if is_plan else self.records), is_plan)

    def large(self, query: str) -> list[str]:
        """Returns the tables that a query names, that aren't loaded yet, and that take some time."""
        named = {it.name: os.path.join(self.places[1], f"{it.name}.csv") for it in statements.references(query, self.tables).values()}
        return [name for name, path in named.items() if name in self.database.tables and os.path.isfile(path)
                and os.path.getsize(path) > LARGE and not self.database.is_loaded(self.database.tables.index(name))]

    def blocks(self, statement: databases.Statement, take: Callable[[databases.Statement, int], Block]) -> Iterator[Block]:
        """Yields the rows of a statement. `take` takes so many of them, or fewer."""
        try:
            # The first row comes as soon as it is found.
            most, found = 1, take(statement, 1)
            while found.number:
                yield found
                most = min(2 * most, MOST_AT_ONCE)
                found = take(statement, most)
        except MemoryError:
            raise Refused(OUT_OF_MEMORY, MEMORY) from None
        finally:
            statement.end()

    @staticmethod
    def lines(statement: databases.Statement, most: int) -> Block:
        """Takes lines of a plan."""
        found: list[list[str]] = list(map(list, statement.take(most)))
        return Block(len(found), 0, found)

    @staticmethod
    def records(statement: databases.Statement, most: int) -> Block:
        """Takes records of CSV."""
        number, given = statement.records(most)
        return Block(number, len(given), [], given.decode("utf-8", "replace"))

    def why(self, query: str, fault: Refused) -> str:
        """Returns what the last fault means: what the program says of the same query and files, where it is beside this command."""
        with query_file(query) as file:
            said = explained(["run", "--why", "--", *self.places, f"@/dev/fd/{file.fileno()}"], [file.fileno()])
        return (said if said and fault.code in said else fault.text) + (page(fault.code) if fault.code else "")


def refused(error: errors.Error, text: str, known: Sequence[statements.Table] = ()) -> Refused:
    """Returns the refusal of an error of the library: the line of `sfq run`, the place in the text, and what to do. `known` are the tables that
    a query may name."""
    if error.code is None:
        unreadable = error.table or ("query" if isinstance(error, errors.ProgrammingError) else "")
        head = f"sfq: {unreadable} unreadable\n" if unreadable else ""
        return Refused(f"{head}sfq: {error.reason}\n", FILES)
    status = {"S": SCHEMA, "L": FILES if error.code == "L11" else DATA, "Q": QUERY}[error.code[0]]
    shown = "" if error.code[0] == "L" or error.at is None else placed(encoded(text), error.at)
    return Refused(f"sfq: {error.place}\n{shown}sfq: {near_names.reason(error, error.at, text, known)}\n", status)


def placed(text: bytes, at: int) -> str:
    """Returns the line of a text that has a byte, with a caret below the byte, as `--why` shows them.

    The place at the text's end is behind its last byte that isn't white space.
    """
    at = min(at, len(text.rstrip()))
    begin, end = text.rfind(b"\n", 0, at) + 1, text.find(b"\n", at)
    before, behind = (spelled(it.rstrip(b"\r")) for it in (text[begin:at], text[at : end if end >= 0 else len(text)]))
    left = before if len(before) <= BEFORE else ".." + before[2 - BEFORE :]
    right = behind if len(behind) <= BEHIND else behind[: BEHIND - 2] + ".."
    number = str(text.count(b"\n", 0, at) + 1).rjust(3)
    shown = f"{number} | {left}{right}".rstrip(" ") if left or right else f"{number} | "
    return f"{shown}\n{' ' * len(number)} | {' ' * len(left)}^\n"


# ---- what a fault means, and where geometries meet ----


def beside() -> Optional[str]:
    """Returns the program beside this command or on the path; None where there is none, or only the script of a checkout, which may have to build it."""
    found = shutil.which(f"{os.path.dirname(os.path.realpath(sys.argv[0]))}/sfq") or shutil.which("sfq")
    return found if found and not os.path.isfile(f"{os.path.dirname(os.path.realpath(found))}/tools/current.sh") else None


def explained(words: list[str], files: Sequence[int] = ()) -> Optional[str]:
    """Returns what the program beside this command says to these words; it gets these open files. None where it isn't there."""
    program = beside()
    if not program:
        return None
    ran = subprocess.run([program, *words], stdin=subprocess.DEVNULL, capture_output=True, pass_fds=files)
    return (ran.stdout + ran.stderr).decode("utf-8", "replace")


def page(code: str) -> str:
    """Returns the page of a fault's code, which the program has, else what it means in short."""
    meanings = {**MEANINGS, **errors.MEANINGS}
    return explained(["fault", code]) or f"{code.upper()}: {meanings.get(code.upper(), 'there is no such code')}\n"


def reasons(texts: list[str]) -> str:
    """Returns why a geometry isn't valid, or where two meet, as `sfq why` prints it."""
    shapes = [Geometry(it) for it in texts]
    if len(shapes) == 1 or not all(it.is_valid for it in shapes):
        return "".join(f"{it.reason}\n" for it in shapes if len(shapes) == 1 or not it.is_valid)
    return "".join(" ".join(it) + "\n" for it in shapes[0].why(shapes[1]))
