"""A stand-in for libsfq_tables: its calls in Python, over queries of one comparison, for what the library itself doesn't show when it
is asked: memory that is refused, statuses that aren't those of a call, a library without the calls that bind.

`SELECT id, name FROM t [WHERE column > constant | WHERE column = constant]` is all that it knows.
"""
import csv
import ctypes
import io
import re

import parts_model
from sfq.tables import databases, parts

OK, REFUSED, UNKNOWN, TOO_SMALL, NONE, BUSY, NOT_LOADED, OPEN, UNREADABLE, NO_ROW = 0, 1, 4, 5, 6, 8, 9, 10, 11, 12
QUERY = re.compile(r"SELECT (.*?) FROM (\w+)(?: WHERE (\w+) ([=>]) +(-?\d+|'(?:[^']|'')*')\s*)?")


class Statement:
    """A query: its table, the places of its columns, and its condition, of which the constant can be bound."""

    def __init__(self, table, columns, condition):
        self.table, self.columns, self.condition = table, columns, condition
        self.at, self.row = 0, None

    def holds(self, row):
        if not self.condition:
            return True
        column, sign, value = self.condition
        return row[column] == value if sign == "=" else row[column] > value


class Calls:
    """The calls. `refused` has the status that a call returns next, by its name; `seen` the names of those that were made."""

    # sfq_open writes this into the struct of the database.
    KEPT = 1

    def __init__(self, binds=True):
        self.tables, self.rows, self.statements, self.made = [], {}, {}, 0
        # The tables, the rows and the statements of each database, by what its struct has.
        self.databases = {}
        self.refused, self.seen, self.binds = {}, [], binds
        # What is called before each step.
        self.before_step = lambda: None

    def __getattribute__(self, name):
        if name.startswith("sfq_"):
            if name in ("sfq_constants", "sfq_constant_type", "sfq_bind_integer", "sfq_bind_text") and not self.binds:
                raise AttributeError(name)
            return lambda *words: self.asked(name, words)
        return object.__getattribute__(self, name)

    def asked(self, name, words):
        """Makes a call, or returns the status that it is to have."""
        self.seen.append(name)
        if name not in ("sfq_open", "sfq_text_parts"):
            self.tables, self.rows, self.statements = self.databases[words[0]._obj.kept]
        return self.refused.pop(name) if name in self.refused else object.__getattribute__(self, name)(*words)

    def use(self, case):
        """Has the package call this stand-in until the end of a test."""
        before = databases.library
        databases.library = lambda: self
        case.addCleanup(lambda: setattr(databases, "library", before))
        return self

    @staticmethod
    def fault(fault, code, at):
        it = fault._obj
        it.letter, it.number, it.at = ord(code[0]), int(code[1:]), at
        return REFUSED

    @staticmethod
    def write(text, room, size, length):
        data = text.encode()
        length._obj.value = len(data)
        if len(data) > size:
            return TOO_SMALL
        ctypes.memmove(room, data, len(data))
        return OK

    @staticmethod
    def number(ref, value):
        ref._obj.value = value
        return OK

    def sfq_text_parts(self, address, length, room, size, count):
        found = parts_model.parts_of(ctypes.string_at(address, length))
        count._obj.value = len(found)
        if len(found) > size:
            return TOO_SMALL
        data = b"".join(parts.LAYOUT.pack(*it) for it in found)
        ctypes.memmove(room, data, len(data))
        return OK

    def sfq_open(self, schema, _length, database, fault):
        self.tables, self.rows, self.statements = [], {}, {}
        for name, body in re.findall(r"CREATE TABLE (\w+) \((.*?)\)", schema.decode()):
            columns = [it.split()[:2] for it in body.split(",")]
            self.tables.append((name, [(it[0], ("INTEGER", "TEXT").index(it[1])) for it in columns]))
        if not self.tables:
            return self.fault(fault, "S1", 0)
        database._obj.kept = self.KEPT + len(self.databases)
        self.databases[database._obj.kept] = self.tables, self.rows, self.statements
        return OK

    def sfq_close(self, database):
        if self.statements:
            return OPEN
        database._obj.kept = None
        return OK

    def sfq_table_count(self, _database, count):
        return self.number(count, len(self.tables))

    def sfq_table_name(self, _database, table, *room):
        return self.write(self.tables[table][0], *room)

    def sfq_table_columns(self, _database, table, count):
        return self.number(count, len(self.tables[table][1]))

    def sfq_table_column(self, _database, table, column, room, size, length, kind):
        self.number(kind, self.tables[table][1][column][1])
        return self.write(self.tables[table][1][column][0], room, size, length)

    def sfq_column_form(self, _database, _table, column, form):
        form._obj.geometry, form._obj.is_key, form._obj.is_required = 0, column == 0, False
        return OK

    def sfq_reference(self, _database, number, reference, room, size, length, table):
        if reference:
            return UNKNOWN
        self.number(table, self.statements[number].table)
        return self.write(self.tables[self.statements[number].table][0], room, size, length)

    def sfq_column_origin(self, _database, number, column, origin):
        origin._obj.reference, origin._obj.column, origin._obj.function = 0, self.statements[number].columns[column], 0
        return OK

    def sfq_is_loaded(self, _database, table, loaded):
        return self.number(loaded, table in self.rows)

    def sfq_load(self, _database, table, data, _length, _fault):
        if self.statements:
            return OPEN
        records = list(csv.reader(io.StringIO(data.decode(), newline="")))
        kinds = [kind for _, kind in self.tables[table][1]]
        self.rows[table] = [[None if it == "" else it if kind else int(it) for it, kind in zip(row, kinds)] for row in records[1:]]
        return OK

    def sfq_load_file(self, database, table, path, fault):
        try:
            with open(path, "rb") as file:
                data = file.read()
        except OSError as error:
            ctypes.set_errno(error.errno)
            return UNREADABLE
        return self.sfq_load(database, table, data, len(data), fault)

    def sfq_prepare(self, _database, query, _length, number, fault):
        it = QUERY.fullmatch(query.decode())
        names = [name for name, _ in self.tables]
        if not it or it[2] not in names:
            return self.fault(fault, "Q2", len(query)) if not it else self.fault(fault, "Q3", it.start(2))
        table = names.index(it[2])
        if table not in self.rows:
            fault._obj.at = table
            return NOT_LOADED
        columns = [name for name, _ in self.tables[table][1]]
        value = it[5] and (it[5][1:-1].replace("''", "'") if it[5][0] == "'" else int(it[5]))
        condition = [columns.index(it[3]), it[4], value] if it[3] else None
        self.made += 1
        self.statements[self.made] = Statement(table, [columns.index(name) for name in it[1].split(", ")], condition)
        return self.number(number, self.made)

    def sfq_finalize(self, _database, number):
        del self.statements[number]
        return OK

    def sfq_reset(self, _database, number):
        self.statements[number].at = 0
        return OK

    def sfq_step(self, _database, number, most):
        self.before_step()
        it = self.statements[number]
        rows, it.row = self.rows[it.table], None
        for at in range(it.at, min(len(rows), it.at + most)):
            it.at = at + 1
            if it.holds(rows[at]):
                it.row = rows[at]
                return OK
        return NONE if it.at == len(rows) else BUSY

    def sfq_columns(self, _database, number, count):
        return self.number(count, len(self.statements[number].columns))

    def column(self, number, column):
        it = self.statements[number]
        return self.tables[it.table][1][it.columns[column]]

    def sfq_column_name(self, _database, number, column, *room):
        return self.write(self.column(number, column)[0], *room)

    def sfq_column_type(self, _database, number, column, kind):
        return self.number(kind, self.column(number, column)[1])

    def value(self, number, column):
        it = self.statements[number]
        return it.row[it.columns[column]]

    def sfq_column_integer(self, _database, number, column, value):
        found = self.value(number, column)
        return NONE if found is None else self.number(value, found)

    def sfq_column_text(self, _database, number, column, *room):
        found = self.value(number, column)
        return NONE if found is None else self.write(found, *room)

    def sfq_row_text(self, _database, number, *room):
        fields = ["" if (it := self.value(number, column)) is None else str(it) for column in range(len(self.statements[number].columns))]
        text = io.StringIO()
        csv.writer(text, lineterminator="\n").writerow(fields)
        return self.write(text.getvalue(), *room)

    def sfq_work(self, _database, number, work):
        return self.number(work, self.statements[number].at)

    def sfq_constants(self, _database, number, count):
        return self.number(count, bool(self.statements[number].condition))

    def sfq_constant_type(self, _database, number, _constant, kind):
        return self.number(kind, int(isinstance(self.statements[number].condition[2], str)))

    def sfq_bind_integer(self, database, number, _constant, value):
        self.statements[number].condition[2] = value
        return self.sfq_reset(database, number)

    def sfq_bind_text(self, database, number, constant, text, _length):
        return self.sfq_bind_integer(database, number, constant, text.decode())
