"""What stands for the parameters of a query: constants as a query has them, and the places of faults in the text that the user wrote.

A parameter is `?`, or `:` and a name: the library says where they are, outside of strings and comments. It gets a text in which each is
a constant of its value's type, with a blank before and behind, so that it joins no other token.
"""
from __future__ import annotations

import functools
import operator
from collections.abc import Mapping, Set
from typing import Any, Iterable, NamedTuple, Optional, Sequence, SupportsIndex, Union, cast

from ..geometry.faults import GridError
from . import databases, parts
from .errors import DataError, InterfaceError, ProgrammingError, of_fault
from .sources import is_none, is_shape, spelled

# The most bytes of a query.
MOST_BYTES = 65_536
LEAST, GREATEST = -(2**63), 2**63 - 1


class Constant(NamedTuple):
    """A value as a constant of a query: its type, its text in a query, and what binds it: INTEGER a number, others their bytes."""

    type: str
    text: str
    value: Any


def of_value(value: Any, parameter: Union[int, str]) -> Constant:
    """Returns the constant of a value for the `?` of this number, from 1, or for the parameter of this name: of a date or a time its text
    by ISO 8601, as tables have it.

    InterfaceError where sfq has no such type, DataError for a text that isn't UTF-8, or a geometry that isn't on the grid.
    """
    if type(value) is int:
        return of_number(value)
    named = f"? {parameter}" if isinstance(parameter, int) else f":{parameter}"
    if value is None:
        return Constant("NULL", "NULL", None)
    if isinstance(value, str) or (hasattr(value, "isoformat") and not is_none(value)):
        text = value if isinstance(value, str) else str(value.isoformat())
        try:
            return Constant("TEXT", quoted(text), text.encode())
        except UnicodeEncodeError as error:
            raise DataError(f"the value for {named} isn't UTF-8: half of a character is at {error.start}") from None
    if is_shape(value):
        try:
            text = spelled(value)
        except GridError as error:
            raise DataError(f"the value for {named}: {str(error).removeprefix('sfq: ')}") from error
        return Constant("GEOMETRY", f"ST_GeomFromText({quoted(text)})", text.encode("utf-8", "surrogatepass"))
    try:
        if is_masked(value):
            raise TypeError
        return of_number(operator.index(cast(SupportsIndex, value)))
    except TypeError:
        raise InterfaceError(
            f"the value for {named} is a {type(value).__name__}: sfq has whole numbers, texts, geometries and None"
        ) from None


def in_order(values: Any) -> Iterable[Any]:
    """Returns what was handed in for each `?`, one after another. InterfaceError for values by names, for a text and what has no order."""
    is_table = getattr(values, "ndim", 1) > 1 and hasattr(values, "columns")
    if is_table or isinstance(values, (Mapping, Set, str, bytes, bytearray, memoryview)) or not isinstance(values, Iterable):
        raise InterfaceError(f"values come in a list or a tuple, one for each ?, not in a {type(values).__name__}")
    return values


def of_number(value: int) -> Constant:
    """Returns the constant of a whole number. The text of one of more than 64 bits is such a number too: Q12, whatever its length."""
    return Constant("INTEGER", str(min(max(value, LEAST - 1), GREATEST + 1)), value)


def is_masked(value: Any) -> bool:
    """Whether a value is of an array of numpy that masks it."""
    return type(value).__name__ in ("MaskedArray", "MaskedConstant") and bool(value.mask.any())


def stand_in(constant: Constant) -> Constant:
    """Returns a short constant of the same type, for which the other is bound later."""
    return SHORT[constant.type] if constant.type in ("TEXT", "GEOMETRY") else constant


def quoted(text: str) -> str:
    """Returns a text as a string of a query."""
    return "'" + text.replace("'", "''") + "'"


class Query:
    """A query as the user wrote it: the texts between its parameters, and the parameters."""

    def __init__(self, text: str) -> None:
        self.text = text
        # The texts before, between and behind the parameters, and those of the parameters themselves.
        self.parts: list[str] = []
        self.marks: list[str] = []
        # Of each parameter whether it is in ST_GeomFromText, and whether a sign is before it.
        self.is_in_shape: list[bool] = []
        self.is_signed: list[bool] = []
        # What `constants` returns, by the types of the values.
        self.known: dict[tuple[str, ...], list[tuple[str, Optional[int]]]] = {}
        begun, before = 0, ""
        for it in parts.parts(text):
            if it.kind in (parts.PARAMETER, parts.NAMED_PARAMETER):
                self.parts.append(text[begun : it.at])
                self.marks.append(text[it.at : it.end])
                self.is_in_shape.append(it.constant == parts.GEOMETRY)
                self.is_signed.append(before in ("+", "-"))
                begun = it.end
            before = text[it.at : it.end] if it.kind == parts.SYMBOL else ""
        self.parts.append(text[begun:])

    def values(self, given: Any) -> list[Any]:
        """Returns the values for the parameters, in their order: those of a mapping by their names, others one after another.

        ProgrammingError where there are more or fewer, InterfaceError for what has no order, or no names.
        """
        names = [it[1:] for it in self.marks if it != "?"]
        if not names:
            values = list(in_order(given))
            if len(values) != len(self.marks):
                raise ProgrammingError(f"{len(values)} values were handed in for a query with {len(self.marks)} times ?")
            return values
        if len(names) < len(self.marks):
            raise ProgrammingError("the query has both ? and parameters by names: write all of one kind")
        if not isinstance(given, Mapping):
            raise InterfaceError(f"values for parameters by names come in a dict, not in a {type(given).__name__}")
        lacking = [it for it in names if it not in given]
        if lacking:
            raise ProgrammingError(f"no value was handed in for :{lacking[0]}")
        return [given[it] for it in names]

    def constants_of(self, given: Any) -> list[Constant]:
        """Returns the constants of the values that were handed in for the parameters."""
        labels: list[Union[int, str]] = [at if it == "?" else it[1:] for at, it in enumerate(self.marks, 1)]
        return [of_value(value, label) for value, label in zip(self.values(given), labels)]

    def texts(self, constants: Sequence[Constant]) -> list[str]:
        """Returns what is written for each parameter: a blank before and behind, and of a geometry in ST_GeomFromText the text alone."""
        return [f" {quoted(it.value.decode('utf-8', 'surrogatepass')) if it.type == 'GEOMETRY' and is_in_shape else it.text} "
                for it, is_in_shape in zip(constants, self.is_in_shape)]

    def filled(self, constants: Sequence[Constant]) -> bytes:
        """Returns the query with a constant for each parameter."""
        return self.joined(self.texts(constants)).encode("utf-8", "surrogatepass")

    def joined(self, texts: Sequence[str]) -> str:
        """Returns the query with these texts for its parameters."""
        return "".join(part + text for part, text in zip(self.parts, [*texts, ""]))

    def place(self, at: int, constants: Sequence[Constant]) -> tuple[int, bool]:
        """Returns the byte of the user's text for one of the query with constants, and whether it is that of a parameter."""
        written = made = 0
        for part, mark, text in zip(self.parts, [*self.marks, ""], [*self.texts(constants), ""]):
            size, more = size_of(part), size_of(text)
            if at < made + size or not text:
                return written + at - made, False
            if at < made + size + more:
                return written + size, True
            made, written = made + size + more, written + size + len(mark)
        return written + at - made, False

    def place_of_mark(self, mark: int) -> int:
        """Returns the byte of a parameter in the user's text."""
        return size_of("".join([*self.parts[: mark + 1], *self.marks[:mark]]))

    def constants(self, constants: Sequence[Constant]) -> list[tuple[str, Optional[int]]]:
        """Returns the constants that the bound query has, from the left: the type of each, and the number of its parameter, or None.

        A parameter behind a sign is a part of its constant, so it has none to itself.
        """
        kinds = tuple([it.type for it in constants])
        if kinds not in self.known:
            self.known[kinds] = self._constants(constants)
        return self.known[kinds]

    def _constants(self, constants: Sequence[Constant]) -> list[tuple[str, Optional[int]]]:
        texts, ends = self.texts([SHORT[it.type] for it in constants]), [0]
        # Where each text between parameters ends, and where that of the parameter behind it does.
        for part, text in zip(self.parts, texts):
            ends += [ends[-1] + len(part), ends[-1] + len(part) + len(text)]
        found: list[tuple[str, Optional[int]]] = []
        at = 1
        for it in parts.parts(self.joined(texts)):
            while at < len(ends) and it.at >= ends[at]:
                at += 1
            if it.constant != parts.NO_CONSTANT:
                mark = at // 2 - 1
                is_mark = at % 2 == 0 and not self.is_signed[mark]
                found.append((databases.TYPES[it.constant], mark if is_mark else None))
        return found


def size_of(text: str) -> int:
    """Returns how many bytes a text has."""
    return len(text.encode("utf-8", "surrogatepass"))


# A short constant of each type.
SHORT = {
    "INTEGER": Constant("INTEGER", "0", 0), "TEXT": Constant("TEXT", "''", b""), "NULL": Constant("NULL", "NULL", None),
    "GEOMETRY": Constant("GEOMETRY", "ST_GeomFromText('POINT EMPTY')", b"POINT EMPTY"),
}


@functools.lru_cache(maxsize=256)
def query(text: str) -> Query:
    """Returns a query taken apart, once for each text. ProgrammingError for one that is longer than a query may be, or isn't UTF-8."""
    if len(need_utf_8(text.encode("utf-8", "surrogatepass"))) > MOST_BYTES:
        raise of_fault("Q11", 0, None, None)
    return Query(text)


def need_utf_8(query: bytes) -> bytes:
    """Returns the bytes of a query. ProgrammingError where they aren't UTF-8."""
    try:
        query.decode()
    except UnicodeDecodeError as error:
        raise ProgrammingError(f"the query isn't UTF-8: byte {error.start} is none of a character") from None
    return query
