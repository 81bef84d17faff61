"""The tables that are handed to `connect`, as the text of CSV that the library loads, or as a file: none of it is proved."""
from __future__ import annotations

import math
import numbers
import os
from typing import Any, Callable, Mapping, Optional, Sequence, Union

from ..geometry.faults import GridError
from ..geometry.texts import of_interface, shown
from .errors import DataError, InterfaceError, OperationalError, ProgrammingError
from .rules import quoted, real

Path = Union[str, "os.PathLike[str]"]
# What a table may be: a file, the text or the bytes of its CSV, or columns by their names, of which an array or a DataFrame is made.
Source = Any
Tables = Union[Path, Mapping[str, Source], None]


def read_schema(schema: Union[Path, bytes]) -> tuple[bytes, Optional[str]]:
    """Returns the text of a schema, and the folder that it is in: None of one that isn't a file. A str with CREATE TABLE is a text."""
    if isinstance(schema, bytes):
        return schema, None
    if isinstance(schema, str) and (not schema.strip() or "\n" in schema or "create table" in " ".join(schema.lower().split())):
        return schema.encode("utf-8", "surrogatepass"), None
    path = os.fspath(schema)
    try:
        with open(path, "rb") as file:
            return file.read(), os.path.dirname(path) or os.curdir
    except OSError as error:
        raise OperationalError(f"the schema can't be read: {missing_folder(path) or f'{path}: {error.strerror}'}") from error
    except ValueError:
        raise OperationalError(f"the schema can't be read: {path!r} has a NUL, which no path has") from None


def missing_folder(path: str) -> Optional[str]:
    """Returns what is said of the folder that should have a file, where it isn't there; else None."""
    folder = os.path.dirname(path)
    return f"{folder} isn't there: it should be a folder" if folder and not os.path.lexists(folder) else None


class Given:
    """The tables that were handed in, each until it is loaded: by a folder, or by a mapping from names."""

    def __init__(self, tables: Tables, folder: Optional[str], names: Sequence[str], columns: Sequence[Sequence[tuple[str, str]]]) -> None:
        self.names, self.columns, self.sources = names, columns, by_name(folder if tables is None else tables, names)

    def __call__(self, number: int) -> Union[bytes, str]:
        """Returns the CSV of a table, or the path of its file. OperationalError where the table wasn't handed in, or the file's folder isn't there."""
        name = self.names[number]
        if name not in self.sources:
            raise OperationalError("this table wasn't handed in", table=name)
        given = csv_of(name, self.sources[name], self.columns[number])
        reason = missing_folder(given) if isinstance(given, str) else None
        if reason:
            raise OperationalError(reason, table=name)
        return given


def by_name(tables: Tables, names: Sequence[str]) -> dict[str, Source]:
    """Returns the source of each table that has one: of the file of its name in a folder, or of what the mapping has for its name."""
    if tables is None:
        return {}
    if not isinstance(tables, Mapping):
        place = os.fspath(tables)
        return {it: FilePath(os.path.join(place, f"{it}.csv")) for it in names}
    known, found = {it.lower(): it for it in names}, {}
    for name, source in tables.items():
        if name.lower() not in known:
            raise ProgrammingError(f"the schema has no such table; there are {', '.join(names) or 'none'}", table=name)
        found[known[name.lower()]] = source
    return found


class FilePath(str):
    """The path of a table's file in a folder, whatever it looks like."""


def csv_of(name: str, source: Source, columns: Sequence[tuple[str, str]]) -> Union[bytes, str]:
    """Returns the CSV of a table as bytes, or the path of its file."""
    if isinstance(source, FilePath):
        return str(source)
    if isinstance(source, (bytes, bytearray, memoryview)):
        return bytes(source)
    if isinstance(source, str):
        return source.encode("utf-8", "surrogatepass") if "\n" in source or "\r" in source else source
    if isinstance(source, os.PathLike):
        return str(os.fspath(source))
    return Writer(name, columns).text(columns_of(name, source, columns))


def columns_of(name: str, source: Source, columns: Sequence[tuple[str, str]]) -> dict[str, list[Any]]:
    """Returns the columns of a table by their names, from a mapping, from a DataFrame, or from an array of numpy.

    An array has fields by names, or rows with a value for each column of the schema, in its order.
    """
    if isinstance(source, Mapping):
        return {str(it): as_list(values) for it, values in source.items()}
    names = getattr(getattr(source, "dtype", None), "names", None)
    if names:
        return {it: as_list(source[it]) for it in names}
    if getattr(source, "ndim", 0) == 2 and hasattr(source, "dtype"):
        if source.shape[1] != len(columns):
            raise InterfaceError(f"an array of {source.shape[1]} columns for {len(columns)} of the schema", table=name)
        return {it[0]: as_list(source[:, at]) for at, it in enumerate(columns)}
    if hasattr(source, "columns") and hasattr(source, "__getitem__"):
        return {str(it): as_list(source[it]) for it in source.columns}
    raise InterfaceError(
        f"a table is a path, the text of its CSV, columns by their names, an array or a DataFrame, not a {type(source).__name__}", table=name
    )


def as_list(values: Any) -> list[Any]:
    """Returns the values of a column as objects of Python."""
    for name in ("tolist", "to_list"):
        if hasattr(values, name):
            found = list(getattr(values, name)())
            # Of times that Python's own don't hold numpy gives numbers.
            is_time = getattr(getattr(values, "dtype", None), "kind", "") in ("M", "m")
            return [values[at] if type(it) is int else it for at, it in enumerate(found)] if is_time else found
    return list(values)


class Writer:
    """Writes the columns of a table as CSV. DataError, with the record, for a geometry that isn't on the grid."""

    def __init__(self, name: str, columns: Sequence[tuple[str, str]]) -> None:
        self.name, self.types = name, {it.lower(): kind for it, kind in columns}

    def text(self, columns: Mapping[str, list[Any]]) -> bytes:
        """Returns the CSV of those columns that the schema has."""
        taken = {it: values for it, values in columns.items() if it.lower() in self.types}
        counts = {len(it) for it in taken.values()}
        if len(counts) > 1:
            raise InterfaceError(f"columns have {' and '.join(map(str, sorted(counts)))} values", table=self.name)
        # A record of one empty field would be an empty line, which is none.
        fields = [[self.field(it, at, value) for at, value in enumerate(values, 1)] for it, values in taken.items()]
        lines = [",".join(map(quoted, taken)), *(",".join(it) or '""' for it in zip(*fields))]
        return "".join(f"{it}\n" for it in lines).encode("utf-8", "surrogatepass")

    def field(self, column: str, record: int, value: Any) -> str:
        """Returns the field of a value: nothing of None, NaN and what else is none."""
        if isinstance(value, str):
            return quoted(value)
        if is_none(value):
            return ""
        writes = WRITERS.get(type(value))
        try:
            return quoted(writes(value) if writes else written(value))
        except (GridError, InterfaceError) as error:
            reason = f"record {record}, column {column}: {str(error).removeprefix('sfq: ')}"
            raise DataError(reason, table=self.name, at=record) from error


def is_none(value: Any) -> bool:
    """Whether a value is one of those that mean that there is none: None, NaN, those of pandas, and what an array of numpy masks."""
    return value is None or type(value).__name__ in ("NAType", "NaTType", "MaskedConstant") or isinstance(value, float) and value != value


def digits(value: Any) -> str:
    """Returns the digits of a whole number. InterfaceError for one that has more than Python writes."""
    try:
        return str(int(value))
    except ValueError:
        raise InterfaceError("a number has more digits than Python writes") from None


def double(value: float) -> str:
    """Returns the text of a double: of a whole one its digits."""
    return str(int(value)) if value.is_integer() else real(value)


def number(value: Any) -> str:
    """Returns the text of a number: of a whole one its digits, nothing of NaN. InterfaceError for a fraction that is no double."""
    if value != value:
        return ""
    try:
        whole, parts = value.as_integer_ratio() if hasattr(value, "as_integer_ratio") else float(value).as_integer_ratio()
        if parts == 1:
            return digits(whole)
        is_same = (float(value).as_integer_ratio()) == (whole, parts)
    except OverflowError:
        # It is infinite, or past all doubles.
        is_same = value in (math.inf, -math.inf)
    if not is_same:
        raise InterfaceError(f"the number {shown(value)} is no double, so it would be rounded: write it as a text")
    return real(float(value))


# Types that are looked up first.
WRITERS: dict[type, Callable[[Any], str]] = {int: digits, bool: digits, float: double}


def is_shape(value: Any) -> bool:
    """Whether a value is a Geometry, be it one that is refused, or another with `__geo_interface__`."""
    from ..geometry.shapes import Geometry

    return isinstance(value, Geometry) or hasattr(value, "__geo_interface__")


def spelled(shape: Any) -> str:
    """Returns the text of a Geometry as it was given, or that of another geometry with `__geo_interface__`: GridError where it has none."""
    from ..geometry.shapes import Geometry

    return shape._spelled if isinstance(shape, Geometry) else of_interface(shape)


def written(value: Any) -> str:
    """Returns the text of a value: of a geometry its text, of a date as ISO 8601 has it. InterfaceError for another type."""
    if is_shape(value):
        return spelled(value)
    if hasattr(value, "isoformat"):
        return str(value.isoformat())
    if type(value).__name__ == "datetime64":
        return "" if value != value else str(value)
    if type(value).__name__ != "timedelta64" and (isinstance(value, numbers.Integral) or hasattr(value, "__index__")):
        return digits(value)
    if isinstance(value, numbers.Real) and not isinstance(value, numbers.Integral):
        return number(value)
    raise InterfaceError(f"a {type(value).__name__} is no value of a table")
