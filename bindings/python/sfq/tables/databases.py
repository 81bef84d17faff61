"""The border to the C library libsfq_tables, by ctypes: a database that is kept, and its statements.

sfq_tables.h says what the calls return. None of what is here is proved: bytes are handed over with their number, each thing that a
call writes is a variable of the call's own or of its statement, and a database serves one call at a time, by a lock of its own. A
statement that Python has no use for any more is noted, and ended before the next call that needs it: garbage is collected at any
time, in any thread.
"""
from __future__ import annotations

import collections
import ctypes
import functools
import operator
import os
import sys
import time
from typing import Any, Callable, Iterable, NamedTuple, Optional, Union

from ..geometry.faults import Fault
from ..geometry.forks import Held, held_by
from ..geometry.library import NONE, OK, OUT_OF_MEMORY, REFUSED, TOO_SMALL, UNKNOWN, CFault, load
from .errors import Error, InternalError, OperationalError, ProgrammingError, of_fault

BUSY, NOT_LOADED, UNREADABLE = 8, 9, 11
# The types of columns and of constants, by the numbers of sfq_column_type. Only a constant is NULL.
TYPES = ("INTEGER", "TEXT", "GEOMETRY", "NULL")
# The types of geometries, by the numbers of sfq_type, with that of a column which takes them all.
SHAPES = ("GEOMETRY", "POINT", "LINESTRING", "POLYGON", "MULTIPOINT", "MULTILINESTRING", "MULTIPOLYGON")
# The functions of an item's column, by the numbers of sfq_origin.
FUNCTIONS = ("", "ST_AsText", "ST_Dimension", "ST_IsEmpty")
# The predicates, by the numbers of sfq_test from SFQ_TEST_RELATE on.
PREDICATES = ("ST_Relate", "ST_Equals", "ST_Disjoint", "ST_Intersects", "ST_Touches", "ST_Crosses", "ST_Within", "ST_Contains", "ST_Overlaps")
FIRST_PREDICATE, NO_CONSTANT = 9, 4
NAME = "libsfq_tables.so.0"
NO_STATEMENT = ctypes.c_size_t(-1).value
# How many candidates a step looks at: signals are seen between steps, so these have to be short, and a step costs a microsecond.
FIRST_CANDIDATES, MOST_CANDIDATES = 16, 256
# A step that takes longer than this, in seconds, is followed by a shorter one.
LONG_STEP = 0.02
# From how many bytes on a page of records is full.
PAGE = 1 << 18


class CDatabase(ctypes.Structure):
    """The struct sfq_database: empty, or one that the library keeps."""

    _fields_ = [("kept", ctypes.c_void_p)]


class CForm(ctypes.Structure):
    """The struct sfq_column_form."""

    _fields_ = [("geometry", ctypes.c_uint32), ("is_key", ctypes.c_bool), ("is_required", ctypes.c_bool)]


class COrigin(ctypes.Structure):
    """The struct sfq_origin."""

    _fields_ = [("reference", ctypes.c_size_t), ("column", ctypes.c_size_t), ("function", ctypes.c_uint32)]


class CQueryForm(ctypes.Structure):
    """The struct sfq_query_form."""

    _fields_ = [
        ("limit", ctypes.c_uint64), ("conjuncts", ctypes.c_size_t), ("explain", ctypes.c_uint32), ("counts", ctypes.c_bool), ("limits", ctypes.c_bool),
    ]


class CConjunct(ctypes.Structure):
    """The struct sfq_conjunct_form."""

    _fields_ = [("test", ctypes.c_uint32), ("joins", ctypes.c_bool)]


class COperand(ctypes.Structure):
    """The struct sfq_operand."""

    _fields_ = [
        ("conjunct", ctypes.c_size_t), ("reference", ctypes.c_size_t), ("column", ctypes.c_size_t),
        ("test", ctypes.c_uint32), ("constant", ctypes.c_uint32), ("function", ctypes.c_uint32),
    ]


class CTablesFault(ctypes.Structure):
    """The struct sfq_tables_fault."""

    _fields_ = [("letter", ctypes.c_uint8), ("number", ctypes.c_uint8), ("at", ctypes.c_size_t), ("geometry", CFault)]

    def error(self, table: Optional[str] = None) -> Error:
        """Returns the error of this fault."""
        geometry = self.geometry.read() if self.geometry.letter else None
        return of_fault(f"{chr(self.letter)}{self.number}", self.at, table, geometry)


# The arguments of each call after the database, by a letter each: bytes with their number, a number, a number of a statement or the
# like, room for a text, the address of such room, and what is written: a size, an integer, a number of 32 bits, a bool, a fault, a form,
# an origin, the form of a query, a conjunct, operands with their room and their number.
KINDS: dict[str, list[Any]] = {
    "b": [ctypes.c_char_p, ctypes.c_size_t], "i": [ctypes.c_int64], "n": [ctypes.c_size_t], "m": [ctypes.c_uint64],
    "r": [ctypes.c_char_p, ctypes.c_size_t, ctypes.POINTER(ctypes.c_size_t)],
    "a": [ctypes.c_void_p, ctypes.c_size_t, ctypes.POINTER(ctypes.c_size_t)], "S": [ctypes.POINTER(ctypes.c_size_t)],
    "I": [ctypes.POINTER(ctypes.c_int64)], "T": [ctypes.POINTER(ctypes.c_uint32)], "B": [ctypes.POINTER(ctypes.c_bool)],
    "W": [ctypes.POINTER(ctypes.c_uint64)], "F": [ctypes.POINTER(CTablesFault)], "p": [ctypes.c_char_p],
    "C": [ctypes.POINTER(CForm)], "O": [ctypes.POINTER(COrigin)], "Q": [ctypes.POINTER(CQueryForm)], "J": [ctypes.POINTER(CConjunct)],
    "A": [ctypes.POINTER(COperand), ctypes.c_size_t, ctypes.POINTER(ctypes.c_size_t)],
}
CALLS = {
    "close": "", "table_count": "S", "table_name": "nr", "table_columns": "nS", "table_column": "nnrT", "is_loaded": "nB",
    "load": "nbF", "load_file": "npF", "prepare": "bSF", "step": "nm", "reset": "n", "columns": "nS", "column_name": "nnr",
    "column_type": "nnT", "column_integer": "nnI", "column_text": "nnr", "row_text": "na", "work": "nW", "plan_text": "nr", "finalize": "n",
    "column_form": "nnC", "reference": "nnrS", "column_origin": "nnO", "query": "nQ", "conjunct": "nnJ", "operands": "nA",
}
# Calls that a library may lack: without them a query is prepared anew for other values.
BINDING = {"constants": "nS", "constant_type": "nnT", "bind_integer": "nni", "bind_text": "nnb", "bind_geometry": "nnbF"}


def declare(found: ctypes.CDLL) -> ctypes.CDLL:
    """Declares the calls, as sfq_tables.h does."""
    database = ctypes.POINTER(CDatabase)
    found.sfq_open.argtypes = [*KINDS["b"], database, *KINDS["F"]]
    found.sfq_open.restype = ctypes.c_int
    for of_text in (found.sfq_text_parts, found.sfq_named_columns):
        of_text.argtypes = [ctypes.c_void_p, ctypes.c_size_t, ctypes.c_char_p, ctypes.c_size_t, ctypes.POINTER(ctypes.c_size_t)]
        of_text.restype = ctypes.c_int
    for name, kinds in {**CALLS, **(BINDING if hasattr(found, "sfq_constants") else {})}.items():
        call = getattr(found, f"sfq_{name}")
        call.argtypes = [database, *(it for kind in kinds for it in KINDS[kind])]
        call.restype = ctypes.c_int
    return found


@functools.lru_cache(maxsize=None)
def library() -> ctypes.CDLL:
    """Loads libsfq_tables, the first time that it is needed."""
    return load(NAME, declare)


def need_ok(status: int) -> None:
    """MemoryError where memory was refused, InternalError for another status than 0."""
    if status == OUT_OF_MEMORY:
        raise MemoryError("sfq: out of memory")
    if status != OK:
        raise InternalError(f"the library returned the status {status}, which is none of this call")


class Room:
    """Room for a text that the library writes, which grows as needed."""

    __slots__ = ("bytes", "length", "size", "written")

    def __init__(self) -> None:
        self.length = ctypes.c_size_t()
        self.written = ctypes.byref(self.length)
        self.grow(256)

    def grow(self, size: int) -> None:
        self.bytes, self.size = ctypes.create_string_buffer(size), size

    def text(self, call: Callable[..., int], *words: Any) -> Optional[str]:
        """Returns the text of a call, or None where it is NULL."""
        status = call(*words, self.bytes, self.size, self.written)
        while status == TOO_SMALL:
            self.grow(self.length.value)
            status = call(*words, self.bytes, self.size, self.written)
        if status == OK:
            return ctypes.string_at(self.bytes, self.length.value).decode("utf-8", "replace")
        if status != NONE:
            need_ok(status)
        return None


class Page:
    """Room for records of rows, one behind the other, which grows where one has no room left."""

    __slots__ = ("room", "address", "size", "used", "rows", "length", "written")

    def __init__(self) -> None:
        self.length = ctypes.c_size_t()
        self.written = ctypes.byref(self.length)
        self.size = self.used = self.rows = 0
        self.room = self._new(2 * PAGE)

    def _new(self, size: int) -> ctypes.Array[ctypes.c_char]:
        found = ctypes.create_string_buffer(size)
        self.address, self.size = ctypes.addressof(found), size
        return found

    def grow(self, size: int) -> None:
        """Makes room for so many further bytes."""
        before = self.room
        self.room = self._new(max(2 * self.size, self.used + size))
        ctypes.memmove(self.address, ctypes.addressof(before), self.used)

    def bytes(self) -> bytes:
        """Returns what is written."""
        return ctypes.string_at(self.address, self.used)


class Lock(Held):
    """What a thread has while it asks a database. OperationalError where it is lost by a fork."""

    __slots__ = ()

    def renew(self) -> None:
        raise OperationalError("another thread was asking this connection when the process was forked: connect again")


# What a thread has that calls a method of a database, or of a statement of one.
OF_DATABASE, OF_STATEMENT = operator.attrgetter("held"), operator.attrgetter("database.held")


class Form(NamedTuple):
    """How a schema writes a column: the word of its type, whether it is the key, and whether NOT NULL is behind it."""

    type: str
    is_key: bool
    is_required: bool


class Reference(NamedTuple):
    """A table that a query names: its number, and the name by which the query knows it."""

    table: int
    name: str


class Origin(NamedTuple):
    """Where a column of rows comes from: the function that is called, if one is, the reference, and the number of its column."""

    function: str
    reference: Reference
    column: int


class QueryForm(NamedTuple):
    """What a query asks for: whether for its plan, whether for the number of rows, at most how many rows, and by how many conjuncts."""

    explains: bool
    counts: bool
    limit: Optional[int]
    conjuncts: int


class Conjunct(NamedTuple):
    """A part of ON or WHERE between ANDs at the top: its test, and whether it holds only where the bounding boxes of a geometry of each of
    two references meet."""

    test: int
    joins: bool


class Operand(NamedTuple):
    """An operand of a test in ON or WHERE: the number of its conjunct; its test; the type of the constant that it is, empty of a column;
    the function of it, if one is called; the numbers of its reference and its column."""

    conjunct: int
    test: int
    constant: str
    function: str
    reference: int
    column: int


class Database:
    """A database that the library keeps, until it is closed. ProgrammingError where the schema is refused."""

    def __init__(self, schema: bytes) -> None:
        self.kept, self.held, self.room = CDatabase(), Lock(), Room()
        # The statements that are open, and those of them that nobody needs any more, each with the generation that it is of: a new
        # one begins when a table is loaded, for which all statements are ended.
        self.opened: set[int] = set()
        self.dropped: collections.deque[tuple[int, int]] = collections.deque()
        self.generation = 0
        # Returns what a table is loaded from, by its number, when a query names it.
        self.source: Callable[[int], Union[bytes, str]] = no_source
        self.calls, self.it, fault = library(), ctypes.byref(self.kept), CTablesFault()
        status = self.calls.sfq_open(schema, len(schema), self.it, ctypes.byref(fault))
        if status == REFUSED:
            raise fault.error()
        need_ok(status)
        count = self.size(self.calls.sfq_table_count)
        self.tables = [str(self.room.text(self.calls.sfq_table_name, self.it, table)) for table in range(count)]
        self.columns = [self._columns(table) for table in range(count)]

    def __del__(self, is_at_end: Callable[[], bool] = sys.is_finalizing) -> None:
        # When Python ends, what modules have may be gone.
        if self.kept.kept is not None and not is_at_end():
            self.close()

    def size(self, call: Callable[..., int], *words: int) -> int:
        """Returns the size that a call writes."""
        found = ctypes.c_size_t()
        need_ok(call(self.it, *words, ctypes.byref(found)))
        return found.value

    def _columns(self, table: int) -> list[tuple[str, str]]:
        """Returns the name and the type of each column of a table."""
        found, kind = [], ctypes.c_uint32()
        call = self.calls.sfq_table_column
        for column in range(self.size(self.calls.sfq_table_columns, table)):
            name = self.room.text(lambda *words: call(*words, ctypes.byref(kind)), self.it, table, column)
            found.append((str(name), TYPES[kind.value]))
        return found

    @held_by(OF_DATABASE)
    def form(self, table: int, column: int) -> Form:
        """Returns how the schema writes a column of a table."""
        found = CForm()
        self.need_open()
        need_ok(self.calls.sfq_column_form(self.it, table, column, ctypes.byref(found)))
        kind = self.columns[table][column][1]
        return Form(SHAPES[found.geometry] if kind == "GEOMETRY" else kind, found.is_key, found.is_required)

    def _end(self, numbers: Iterable[int]) -> None:
        for number in numbers:
            self.opened.discard(number)
            need_ok(self.calls.sfq_finalize(self.it, number))

    def close(self) -> None:
        """Ends the statements and frees the database. Closing it again does nothing."""
        if not self.held.is_lost:
            self.held.alone(self._close)

    def _close(self) -> None:
        if self.kept.kept is not None:
            self._end(list(self.opened))
            need_ok(self.calls.sfq_close(self.it))

    def need_open(self) -> None:
        """ProgrammingError where the database is closed."""
        if self.kept.kept is None:
            raise ProgrammingError("the connection is closed")

    @held_by(OF_DATABASE)
    def is_loaded(self, table: int) -> bool:
        """Whether a table is loaded."""
        self.need_open()
        found = ctypes.c_bool()
        need_ok(self.calls.sfq_is_loaded(self.it, table, ctypes.byref(found)))
        return found.value

    def load(self, table: int) -> None:
        """Loads a table from the text of its CSV, or from a file. DataError where it is refused, OperationalError without the file.

        All statements are ended before: they go on from where they were when they are asked again.
        """
        self._load(table, self.source(table))

    @held_by(OF_DATABASE)
    def _load(self, table: int, source: Union[bytes, str]) -> None:
        fault = CTablesFault()
        self.need_open()
        self._end(list(self.opened))
        self.generation += 1
        if isinstance(source, bytes):
            status = self.calls.sfq_load(self.it, table, source, len(source), ctypes.byref(fault))
        else:
            if "\0" in source:
                raise OperationalError(f"{source!r} has a NUL, which no path has", table=self.tables[table])
            status = self.calls.sfq_load_file(self.it, table, os.fsencode(source), ctypes.byref(fault))
            if status == UNREADABLE:
                raise OperationalError(f"{source}: {os.strerror(ctypes.get_errno())}", table=self.tables[table])
        if status == REFUSED:
            raise fault.error(self.tables[table])
        need_ok(status)

    def prepare(self, query: bytes) -> int:
        """Returns the number of a statement. The tables that the query names are loaded before."""
        self.need_open()
        while self.dropped:
            generation, number = self.dropped.popleft()
            if generation == self.generation:
                self._end([number])
        made, fault, loaded = ctypes.c_size_t(NO_STATEMENT), CTablesFault(), set()
        try:
            while True:
                status = self.calls.sfq_prepare(self.it, query, len(query), ctypes.byref(made), ctypes.byref(fault))
                if status != NOT_LOADED or fault.at in loaded:
                    break
                loaded.add(fault.at)
                self.load(fault.at)
        finally:
            # Ctrl-C comes as soon as the call returns: the statement is ended with the others then.
            if made.value != NO_STATEMENT:
                self.opened.add(made.value)
        if status == REFUSED:
            raise fault.error()
        need_ok(status)
        return made.value


def no_source(_table: int) -> bytes:
    raise OperationalError("no tables were handed in")


def status_at(call: Callable[..., int], table: Any, *words: Any) -> int:
    """Returns the status of a call for a reference that writes the number of its table too: NONE where there is no such reference."""
    status = call(*words, table)
    return NONE if status == UNKNOWN else status


# What binds a constant: the call, its number, and what it is handed.
Bound = tuple[str, int, tuple[Any, ...]]


class Statement:
    """A query over a database, which gives its rows one by one. ProgrammingError where it is refused.

    `makes` makes a geometry of its canonical text.
    """

    def __init__(self, database: Database, query: bytes, makes: Callable[[str], Any]) -> None:
        self.database, self.query, self.makes = database, query, makes
        self.generation, self.number = -1, -1
        self.room, self.given, self.candidates, self.is_over = Room(), 0, FIRST_CANDIDATES, False
        self.bound: list[Bound] = []
        self.page: Optional[Page] = None
        # Under what it is found again when the same query is executed.
        self.key: Any = None
        # The types of the constants, from the left.
        self.constants = self._begun()

    @held_by(OF_STATEMENT)
    def _begun(self) -> list[str]:
        self._prepare()
        return self._constants()

    def __del__(self) -> None:
        self.end()

    def end(self) -> None:
        """Notes that nobody needs the statement any more."""
        self._drop()
        self.is_over = True

    def _drop(self) -> None:
        if self.generation == self.database.generation:
            self.database.dropped.append((self.generation, self.number))
        self.generation = -1

    def _prepare(self) -> None:
        self.number = self.database.prepare(self.query)
        self.generation = self.database.generation
        self.columns = self._columns()
        readers = {"INTEGER": self._integer, "TEXT": self._text, "GEOMETRY": self._geometry}
        self.readers = [readers[kind](column) for column, (_, kind) in enumerate(self.columns)]

    def _columns(self) -> list[tuple[str, str]]:
        """Returns the name, as in the header of `run`, and the type of each column."""
        calls, it, found, kind = self.database.calls, self.database.it, [], ctypes.c_uint32()
        for column in range(self.database.size(calls.sfq_columns, self.number)):
            name = self.room.text(calls.sfq_column_name, it, self.number, column)
            need_ok(calls.sfq_column_type(it, self.number, column, ctypes.byref(kind)))
            found.append((str(name), TYPES[kind.value]))
        return found

    @held_by(OF_STATEMENT)
    def references(self) -> list[Reference]:
        """Returns the tables that the query names, in the order of FROM."""
        database, table = self.database, ctypes.c_size_t()
        found: list[Reference] = []
        self._need()
        call = functools.partial(status_at, database.calls.sfq_reference, ctypes.byref(table))
        while (name := self.room.text(call, database.it, self.number, len(found))) is not None:
            found.append(Reference(table.value, name))
        return found

    @held_by(OF_STATEMENT)
    def origins(self) -> list[Optional[Origin]]:
        """Returns where each column comes from: COUNT(*) and the lines of EXPLAIN come from no column."""
        references, origin = self.references(), COrigin()
        found: list[Optional[Origin]] = []
        for column in range(len(self.columns)):
            status = self.database.calls.sfq_column_origin(self.database.it, self.number, column, ctypes.byref(origin))
            need_ok(OK if status == UNKNOWN else status)
            found.append(Origin(FUNCTIONS[origin.function], references[origin.reference], origin.column) if status == OK else None)
        return found

    @held_by(OF_STATEMENT)
    def form(self) -> QueryForm:
        """Returns what the query asks for."""
        found = CQueryForm()
        self._need()
        need_ok(self.database.calls.sfq_query(self.database.it, self.number, ctypes.byref(found)))
        return QueryForm(found.explain != 0, found.counts, found.limit if found.limits else None, found.conjuncts)

    def conjuncts(self) -> list[Conjunct]:
        """Returns the conjuncts of ON, then those of WHERE."""
        return [self._conjunct(it) for it in range(self.form().conjuncts)]

    @held_by(OF_STATEMENT)
    def _conjunct(self, number: int) -> Conjunct:
        found = CConjunct()
        self._need()
        need_ok(self.database.calls.sfq_conjunct(self.database.it, self.number, number, ctypes.byref(found)))
        return Conjunct(found.test, found.joins)

    @held_by(OF_STATEMENT)
    def operands(self) -> list[Operand]:
        """Returns the operands of the tests in ON and WHERE, from the left."""
        count, room = ctypes.c_size_t(), (COperand * 0)()
        self._need()
        while (status := self.database.calls.sfq_operands(self.database.it, self.number, room, len(room), ctypes.byref(count))) == TOO_SMALL:
            room = (COperand * count.value)()
        need_ok(status)
        return [Operand(it.conjunct, it.test, "" if it.constant == NO_CONSTANT else TYPES[it.constant], FUNCTIONS[it.function], it.reference, it.column)
                for it in room[: count.value]]

    def _need(self) -> None:
        """Has the statement open: where a table was loaded since, it is prepared anew, and goes on behind the rows that it gave."""
        self.database.need_open()
        if self.generation == self.database.generation:
            return
        self._prepare()
        try:
            for it in self.bound:
                self._bind(it)
            left = self.given
            while left:
                status = self.database.calls.sfq_step(self.database.it, self.number, MOST_CANDIDATES)
                left -= status == OK
                need_ok(OK if status == BUSY else status)
        except BaseException:
            # It isn't where it was: the next call prepares it anew.
            self._drop()
            raise

    def take(self, most: int) -> list[tuple[Any, ...]]:
        """Returns the next rows: so many, or fewer where these are the last."""
        found: list[tuple[Any, ...]] = []
        self._until(lambda: len(found) >= most, lambda: self._step(found, most))
        return found

    def _until(self, are_enough: Callable[[], bool], step: Callable[[], tuple[int, float]]) -> None:
        """Steps until rows are enough, or there are no more. Where a step finds none signals are seen, and other threads can ask the
        database."""
        while not are_enough() and not self.is_over:
            status, seconds = step()
            if status == BUSY:
                self._pace(seconds)
            elif status == NONE:
                self.is_over = True
            else:
                need_ok(status)

    @held_by(OF_STATEMENT)
    def _step(self, found: list[tuple[Any, ...]], most: int) -> tuple[int, float]:
        """Adds the next rows to those that were found. Returns the status of the last step, and how many seconds it took."""
        self._need()
        step, it = self.database.calls.sfq_step, self.database.it
        while True:
            begun = time.monotonic()
            status = step(it, self.number, self.candidates)
            if status != OK:
                return status, time.monotonic() - begun
            found.append(tuple([read() for read in self.readers]))
            self.given += 1
            if len(found) == most:
                return OK, 0.0

    def records(self, most: int) -> tuple[int, bytes]:
        """Returns how many of the next rows there are, and these as `run` writes them, each a record of CSV with its line end: so many, or
        fewer where these are the last, or fill a page."""
        self.page = page = self.page or Page()
        page.rows = page.used = 0
        self._until(lambda: page.rows >= most or page.used >= PAGE, lambda: self._fill(page, most))
        return page.rows, page.bytes()

    @held_by(OF_STATEMENT)
    def _fill(self, page: Page, most: int) -> tuple[int, float]:
        """Writes the next rows behind those of a page. Returns the status of the last step, and how many seconds it took."""
        self._need()
        step, writes, it, number = self.database.calls.sfq_step, self.database.calls.sfq_row_text, self.database.it, self.number
        candidates, length, written, clock = self.candidates, page.length, page.written, time.monotonic
        while True:
            begun = clock()
            status = step(it, number, candidates)
            if status != OK:
                return status, clock() - begun
            while (status := writes(it, number, page.address + page.used, page.size - page.used, written)) == TOO_SMALL:
                page.grow(length.value)
            if status != OK:
                need_ok(status)
            page.used += length.value
            page.rows += 1
            self.given += 1
            if page.rows == most or page.used >= PAGE:
                return OK, 0.0

    def _pace(self, seconds: float) -> None:
        """Sets how many candidates the next step looks at, by what the last one took."""
        if seconds > LONG_STEP:
            self.candidates = max(1, int(self.candidates * LONG_STEP / seconds))
        else:
            self.candidates = min(2 * self.candidates, MOST_CANDIDATES)

    def _integer(self, column: int) -> Callable[[], Any]:
        """Returns what reads an integer of the row, or None where it is NULL."""
        call, it, number, found = self.database.calls.sfq_column_integer, self.database.it, self.number, ctypes.c_int64()
        room = ctypes.byref(found)

        def read() -> Optional[int]:
            status = call(it, number, column, room)
            if status == OK:
                return found.value
            if status != NONE:
                need_ok(status)
            return None

        return read

    def _text(self, column: int) -> Callable[[], Any]:
        """Returns what reads a text of the row, or None where it is NULL."""
        text, call, it, number = self.room.text, self.database.calls.sfq_column_text, self.database.it, self.number
        return lambda: text(call, it, number, column)

    def _geometry(self, column: int) -> Callable[[], Any]:
        """Returns what makes a geometry of the row, or None where it is NULL."""
        reads, makes = self._text(column), self.makes

        def read() -> Any:
            text = reads()
            return None if text is None else makes(text)

        return read

    @held_by(OF_STATEMENT)
    def work(self) -> int:
        """Returns how many DE-9IM predicates without a NULL argument were decided so far.

        A pair that the probe or an earlier condition rules out costs none.
        """
        found = ctypes.c_uint64()
        self._need()
        need_ok(self.database.calls.sfq_work(self.database.it, self.number, ctypes.byref(found)))
        return found.value

    @held_by(OF_STATEMENT)
    def plan(self) -> str:
        """Returns the lines that EXPLAIN has of the query."""
        self._need()
        return str(self.room.text(self.database.calls.sfq_plan_text, self.database.it, self.number))

    def _constants(self) -> list[str]:
        """Returns the types of the constants from the left, NULL among them; none where the library binds none."""
        kind, found = ctypes.c_uint32(), []
        calls = self.database.calls
        for constant in range(self.database.size(calls.sfq_constants, self.number)) if hasattr(calls, "sfq_constants") else ():
            need_ok(calls.sfq_constant_type(self.database.it, self.number, constant, ctypes.byref(kind)))
            found.append(TYPES[kind.value])
        return found

    @held_by(OF_STATEMENT)
    def rest(self) -> bool:
        """Goes before the first row again, which gives back what the rows took. Returns whether the database is open."""
        if self.database.kept.kept is not None and self.generation == self.database.generation:
            need_ok(self.database.calls.sfq_reset(self.database.it, self.number))
        self.given, self.is_over, self.bound = 0, False, []
        return self.database.kept.kept is not None

    @held_by(OF_STATEMENT)
    def begin(self, bound: list[Bound]) -> None:
        """Binds constants before the first row. RefusedGeometry where a text isn't that of a valid one."""
        self._need()
        self.bound = bound
        try:
            for it in bound:
                self._bind(it)
        except BaseException:
            # Some are bound, and without memory the statement has no rows any more.
            self._drop()
            raise

    def _bind(self, bound: Bound) -> None:
        """Binds a constant."""
        kind, constant, words = bound
        call = getattr(self.database.calls, f"sfq_bind_{kind}")
        if kind != "geometry":
            need_ok(call(self.database.it, self.number, constant, *words))
            return
        fault = CTablesFault()
        status = call(self.database.it, self.number, constant, *words, ctypes.byref(fault))
        if status == REFUSED:
            raise RefusedGeometry(constant, fault.geometry.read())
        need_ok(status)


class RefusedGeometry(Exception):
    """The text of a geometry that is bound is refused: the constant's number, and the fault."""

    def __init__(self, constant: int, fault: Fault) -> None:
        super().__init__(constant, fault)
        self.constant, self.fault = constant, fault
