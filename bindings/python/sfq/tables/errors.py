"""The exceptions of databases, by PEP 249, and the words of faults of a schema, of tables and of queries.

None of them is a FaultError, which a relation of two geometries raises: a caller of `connect` needs Error alone. The fault of a
geometry's text within a table or a query is the same Fault here, in `fault`.
"""
from __future__ import annotations

from typing import Any, Optional

from ..geometry.faults import Fault, meanings

# What each fault means and what to do. docs/FAULTS.md has them with examples.
MEANINGS = meanings("TABLE_FAULT")
# The faults that have no place.
WITHOUT_PLACE = ("S6", "L1", "L2", "L10", "L11", "Q11")


class Warning(Exception):
    """PEP 249's warnings: sfq has none."""


class Error(Exception):
    """What a database refused.

    `code` is that of docs/FAULTS.md, S1 to S6, L1 to L11 or Q1 to Q12; `at` the byte of the schema or of the query in UTF-8, from
    0, or the record of a table, from 1; `table` the table's name; `fault` that of a geometry's text; `reason` what it means and
    what to do. What an error doesn't have is None.
    """

    def __init__(
        self, reason: str, code: Optional[str] = None, at: Optional[int] = None, table: Optional[str] = None, fault: Optional[Fault] = None
    ) -> None:
        self.reason, self.code, self.at, self.table, self.fault = reason, code, at, table, fault
        head = self.place or table
        super().__init__(f"sfq: {head}: {reason}" if head else f"sfq: {reason}")

    def __reduce__(self) -> tuple[type[Error], tuple[Any, ...]]:
        return type(self), (self.reason, self.code, self.at, self.table, self.fault)

    @property
    def place(self) -> Optional[str]:
        """The table, the code and the places, as the program `sfq` prints them: `Q5 at 7`, `parcel L6 record 2 V3 0`."""
        if self.code is None:
            return None
        words = [self.table, self.code, self.fault and self.fault.place]
        if self.at is not None:
            words.insert(2, f"record {self.at}" if self.code[0] == "L" else f"at {self.at}")
        return " ".join(it for it in words if it)


class InterfaceError(Error):
    """The package is used in a way that has no meaning to the database: a value of a type that sfq doesn't have."""


class DatabaseError(Error):
    """An error of the database itself."""


class DataError(DatabaseError):
    """A table's data, or a value for a `?`, is refused: L1 to L11, and Q8 or Q12 of a value."""


class OperationalError(DatabaseError):
    """A file can't be read, or no table was handed in."""


class IntegrityError(DatabaseError):
    """PEP 249's error of related tables: sfq has none. A key that comes twice is a DataError, L9."""


class InternalError(DatabaseError):
    """The library returned a status that isn't one of the call's."""


class ProgrammingError(DatabaseError):
    """The schema or the query is refused, S1 to S6 and Q1 to Q12; or something closed is asked."""


class NotSupportedError(DatabaseError):
    """PEP 249's error of what a database lacks: what sfq lacks has no call."""


def meaning(code: str, fault: Optional[Fault]) -> str:
    """Returns what a fault means and what to do, with that of the geometry's text."""
    return f"{MEANINGS[code]}: {fault.meaning}" if fault else MEANINGS[code]


def of_fault(code: str, at: int, table: Optional[str], fault: Optional[Fault]) -> Error:
    """Returns the error of a fault of a schema, a table or a query."""
    kind = DataError if code[0] == "L" else ProgrammingError
    return kind(meaning(code, fault), code, None if code in WITHOUT_PLACE else at, table, fault)
