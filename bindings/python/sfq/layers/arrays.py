"""Writes records into a layer in batches of columns, as the Arrow arrays that GDAL takes from version 3.8 on. None of it is proved."""
from __future__ import annotations

import ctypes
import re
from typing import Any, Callable, NamedTuple, Optional, Sequence

from ..geometry import binary, grids
from .arrow import CArray, CSchema

# The formats of Arrow's columns: whole numbers of 64 bits, doubles, texts and bytes.
WHOLES, DOUBLES, TEXTS, BYTES = b"l", b"g", b"u", b"z"
# The format of a batch, and the flag of a column that may lack values.
RECORDS, MAY_LACK = b"+s", 2
# The canonical text of a geometry with a position. A coordinate has fewer digits than a whole number of 64 bits can have.
POSITION = r"-?[0-9]{1,15} -?[0-9]{1,15}"
LINE = rf"\({POSITION}(?:,{POSITION})*\)"
AREA = rf"\({LINE}(?:,{LINE})*\)"
CANONICAL = re.compile(
    rf"POINT\({POSITION}\)|LINESTRING{LINE}|(?:POLYGON|MULTILINESTRING){AREA}|MULTIPOLYGON\({AREA}(?:,{AREA})*\)|MULTIPOINT\(\({POSITION}\)(?:,\({POSITION}\))*\)"
)
POINTS = re.compile(rf"(?:POINT\({POSITION}\))*")
# What becomes of a text of geometries of which only the numbers are wanted.
NUMBERS_ALONE = str.maketrans({it: " " for it in "(),ABCDEFGHIJKLMNOPQRSTUVWXYZ"})
KINDS = {word: kind for kind, word in binary.WORDS.items()}
# The bytes of a point, and what comes before its position and before the parts of another geometry: the order of bytes, and the type.
POINT = 21


class Values(NamedTuple):
    """A column of a batch: where it has values, None where everywhere; and its buffers, arrays of numpy."""

    are_there: Any
    buffers: Sequence[Any]


def can_write(ogr: Any) -> bool:
    """Whether GDAL takes batches, and numpy is there."""
    if not hasattr(ogr.Layer, "WriteArrowBatch"):
        return False
    try:
        import numpy
    except ImportError:
        return False
    return bool(numpy)


class Writer:
    """Writes batches into a layer, whose columns have these names and formats. `shape` is the name of that of the geometries."""

    def __init__(self, ogr: Any, layer: Any, columns: Sequence[tuple[str, bytes]], shape: str) -> None:
        self.ogr, self.layer, self.options = ogr, layer, [f"GEOMETRY_NAME={shape}"] if shape else []
        self.schema = ogr.ArrowSchema()
        fields = [CSchema(format=kind, name=name.encode(), flags=MAY_LACK) for name, kind in columns]
        self.kept = fields, pointers(CSchema, fields)
        whole = CSchema.from_address(int(self.schema._getPtr()))
        whole.format, whole.name, whole.count, whole.children = RECORDS, b"", len(fields), self.kept[1]

    def write(self, count: int, columns: Sequence[Values]) -> None:
        """Writes records. RuntimeError where GDAL can't."""
        array = self.ogr.ArrowArray()
        fields = [CArray(length=count) for _ in columns]
        kept: list[Any] = []
        for field, it in zip(fields, columns):
            buffers = [bits(it.are_there), *it.buffers]
            addresses = (ctypes.c_void_p * len(buffers))(*(None if each is None else each.ctypes.data for each in buffers))
            field.nulls = 0 if it.are_there is None else int(count - it.are_there.sum())
            field.buffer_count, field.buffers = len(buffers), addresses
            kept.append((buffers, addresses))
        whole, children = CArray.from_address(int(array._getPtr())), pointers(CArray, fields)
        whole.length, whole.count, whole.children, whole.buffer_count, whole.buffers = count, len(fields), children, 1, (ctypes.c_void_p * 1)()
        if self.layer.WriteArrowBatch(self.schema, array, self.options) != self.ogr.OGRERR_NONE:
            raise RuntimeError("it takes no batch")
        del kept


def pointers(kind: Any, fields: Sequence[Any]) -> Any:
    """Returns an array of the addresses of structs."""
    return (ctypes.POINTER(kind) * len(fields))(*map(ctypes.pointer, fields))


def bits(are_there: Any) -> Any:
    """Returns one bit for each value that may be there."""
    if are_there is None:
        return None
    import numpy

    return numpy.packbits(are_there, bitorder="little")


# ---- columns of fields, which are empty where a value is missing ----


def there(fields: Sequence[str]) -> Any:
    """Returns where fields have a value, None where all have."""
    import numpy

    return None if all(fields) else numpy.fromiter(map(bool, fields), bool, len(fields))


def wholes_in(fields: Sequence[str]) -> Any:
    """Returns the whole numbers of fields, 0 where none is."""
    import numpy

    return numpy.array([int(it or 0) for it in fields], dtype="i8")


def whole_values(fields: Sequence[str]) -> Values:
    """Returns a column of whole numbers."""
    return Values(there(fields), [wholes_in(fields)])


def double_values(fields: Sequence[str]) -> Values:
    """Returns a column of doubles."""
    import numpy

    return Values(there(fields), [numpy.array([float(it or 0) for it in fields])])


def counted_values(fields: Sequence[str], axis: grids.Axis) -> Values:
    """Returns a column of doubles of whole numbers, which count steps."""
    return Values(there(fields), [axis.doubles(wholes_in(fields))])


def text_values(fields: Sequence[str]) -> Values:
    """Returns a column of texts."""
    whole = "".join(fields)
    if whole.isascii():
        return Values(there(fields), buffers_of(whole.encode(), list(map(len, fields))))
    return byte_values([it.encode("utf-8", "surrogateescape") for it in fields])


def byte_values(values: Sequence[bytes]) -> Values:
    """Returns a column of bytes, none of which are missing values."""
    import numpy

    are_there = None if all(values) else numpy.fromiter(map(bool, values), bool, len(values))
    return Values(are_there, buffers_of(b"".join(values), list(map(len, values))))


def buffers_of(data: bytes, lengths: Sequence[int]) -> list[Any]:
    """Returns where each value begins in the data, and the end of the last, and the data."""
    import numpy

    ends = numpy.zeros(len(lengths) + 1, dtype="i4")
    numpy.cumsum(lengths, out=ends[1:])
    return [ends, numpy.frombuffer(data or b"\0", dtype="u1")]


# ---- columns of geometries ----


def shape_values(fields: Sequence[str], grid: grids.Grid, other: Callable[[str], bytes]) -> Values:
    """Returns a column of geometries by their texts on a grid, in the coordinates of the source. `other` makes the well-known binary of
    those whose texts aren't canonical, or that are empty."""
    found = point_values(fields, grid)
    if found:
        return found
    # A join repeats the geometries of a table.
    known = {it: binary_of(it, grid, other) for it in set(fields) if it}
    return byte_values([known[it] if it else b"" for it in fields])


def point_values(fields: Sequence[str], grid: grids.Grid) -> Optional[Values]:
    """Returns a column of points or missing geometries; None where one is another."""
    import numpy

    whole, are_there = "".join(fields), there(fields)
    if not POINTS.fullmatch(whole):
        return None
    steps = numbers_in(whole).reshape(-1, 2)
    found = numpy.empty(len(steps), dtype=[("order", "u1"), ("kind", "<u4"), ("position", "<f8", 2)])
    found["order"], found["kind"] = 1, 1
    found["position"][:, 0], found["position"][:, 1] = grid.x.doubles(steps[:, 0]), grid.y.doubles(steps[:, 1])
    ends = numpy.zeros(len(fields) + 1, dtype="i4")
    numpy.cumsum(numpy.full(len(fields), POINT) if are_there is None else POINT * are_there, out=ends[1:])
    return Values(are_there, [ends, found.view("u1") if len(found) else numpy.zeros(1, dtype="u1")])


def numbers_in(text: str) -> Any:
    """Returns the whole numbers in the canonical texts of geometries, one behind the other."""
    import numpy

    return numpy.array(text.translate(NUMBERS_ALONE).split(), dtype="i8")


def binary_of(text: str, grid: grids.Grid, other: Callable[[str], bytes]) -> bytes:
    """Returns the well-known binary of a geometry by its text on a grid."""
    if not CANONICAL.fullmatch(text):
        return other(text)
    import numpy

    steps = numbers_in(text).reshape(-1, 2)
    positions = numpy.column_stack([grid.x.doubles(steps[:, 0]), grid.y.doubles(steps[:, 1])]).astype("<f8").tobytes()
    word, _, rest = text.partition("(")
    kind, done = KINDS[word], 0

    def taken(count: int) -> bytes:
        nonlocal done
        begun, done = done, done + 16 * count
        return positions[begun:done]

    def line(of: str) -> bytes:
        count = of.count(",") + 1
        return number(count) + taken(count)

    def parts(of: str, between: str, each: Callable[[str], bytes]) -> bytes:
        its = of.split(between)
        return number(len(its)) + b"".join([each(it) for it in its])

    if kind == 1:
        return head(kind) + taken(1)
    if kind == 2:
        return head(kind) + line(rest)
    if kind == 3:
        return head(kind) + parts(rest, "),(", line)
    if kind == 4:
        return head(kind) + parts(rest, "),(", lambda _: head(1) + taken(1))
    if kind == 5:
        return head(kind) + parts(rest, "),(", lambda it: head(2) + line(it))
    return head(kind) + parts(rest, ")),((", lambda it: head(3) + parts(it, "),(", line))


def head(kind: int) -> bytes:
    """Returns what well-known binary begins with: the least byte first, and the type."""
    return b"\x01" + number(kind)


def number(value: int) -> bytes:
    """Returns a number of 32 bits."""
    return value.to_bytes(4, "little")
