"""Reads the records of a layer in batches of columns, by the stream of Arrow arrays that GDAL has from version 3.6 on. None of it is proved.

The records are those that GDAL reads one by one, with the same values. Where a layer has something that its columns may show in another
way, `NotInColumns` says so, and the records are read one by one.
"""
from __future__ import annotations

import contextlib
import ctypes
import os
from collections import Counter
from typing import Any, Callable, Generator, NamedTuple, Optional, Sequence

from ..geometry import library
from ..tables import rules
from .arrow import CArray, CSchema

# A layer of fewer records is read one by one: loading numpy takes longer.
FEWEST = 1_000
# How many records a batch has at most, about how many bytes, and how many records where the size of the source isn't known.
MOST, BYTES, UNKNOWN = 2_000, 8 << 20, 200
# The bytes of a point, and the least byte first, as a batch has it.
POINT, LITTLE = 21, 1
# GDAL's own stream reads the records of a layer. A GeoPackage has a faster one, which this option leaves out: in GDAL 3.6 it has other truth values,
# and reads ahead by threads. That of the other driver was compared with its records, but for truth values.
OWN_STREAM, COMPARED = "OGR_GPKG_STREAM_BASE_IMPL", "FlatGeobuf"
# Nothing of a text that has one of these bytes is as in CSV.
SPECIAL = (b'"', b",", b"\r", b"\n")


class NotInColumns(Exception):
    """A layer can't be read in columns, or has what only its single records show."""


class Values:
    """A column of a batch: its buffers, and where it has a value."""

    def __init__(self, array: CArray, kind: str, numpy: Any) -> None:
        self.array, self.kind, self.numpy, self.count = array, kind, numpy, int(array.length)
        if array.offset:
            raise NotInColumns("a column doesn't begin at its first value")
        bits = array.buffers[0] if array.nulls and array.buffer_count else None
        self.is_there: Any = None
        if bits:
            given = self.of_address(bits, "u1", (self.count + 7) // 8)
            self.is_there = numpy.unpackbits(given, bitorder="little")[:self.count].astype(bool)

    def of_address(self, address: Optional[int], kind: str, count: int) -> Any:
        """Returns an array of numpy over the numbers at an address, which live as long as the batch."""
        if not count or not address:
            return self.numpy.empty(0, dtype=kind)
        size = count * self.numpy.dtype(kind).itemsize
        return self.numpy.frombuffer((ctypes.c_char * size).from_address(address), dtype=kind)

    def numbers(self) -> Any:
        """Returns the numbers; what is where none is means nothing."""
        if self.kind == "b":
            bits = self.of_address(self.array.buffers[1], "u1", (self.count + 7) // 8)
            return self.numpy.unpackbits(bits, bitorder="little")[:self.count]
        return self.of_address(self.array.buffers[1], {"s": "i2", "i": "i4", "l": "i8", "g": "f8"}[self.kind], self.count)

    def there(self) -> Any:
        """Returns the numbers that are there."""
        return self.numbers() if self.is_there is None else self.numbers()[self.is_there]

    def wholes(self) -> list[Optional[int]]:
        """Returns the whole numbers, None where none is."""
        return self.with_none(self.numbers().tolist())

    def with_none(self, found: list[Any]) -> list[Any]:
        """Returns a list with None where no value is."""
        if self.is_there is None:
            return found
        return [it if is_there else None for it, is_there in zip(found, self.is_there.tolist())]

    def spelled(self, texts: list[str]) -> list[str]:
        """Returns a list of texts, each empty where no value is."""
        if self.is_there is None:
            return texts
        return [it if is_there else "" for it, is_there in zip(texts, self.is_there.tolist())]

    def offsets(self) -> Any:
        """Returns where each value of bytes begins in the data, and the end of the last."""
        return self.of_address(self.array.buffers[1], "i4", self.count + 1)

    @property
    def data(self) -> int:
        """The address of the data of values of bytes."""
        return int(self.array.buffers[2] or 0)

    def texts(self) -> tuple[list[str], list[int]]:
        """Returns texts as CSV has them, empty where none is, and the places of those that are there and are empty. NotInColumns where one
        isn't UTF-8 or has a byte 0."""
        places: list[int] = self.offsets().tolist()
        data = ctypes.string_at(self.data, places[-1]) if self.count and places[-1] else b""
        try:
            if data.isascii():
                whole = data.decode("ascii")
                found = [whole[a:b] for a, b in zip(places, places[1:])]
            else:
                found = [data[a:b].decode() for a, b in zip(places, places[1:])]
        except UnicodeDecodeError:
            raise NotInColumns("a text isn't UTF-8") from None
        if b"\0" in data:
            raise NotInColumns("a text has a byte 0")
        empty = [at for at, it in enumerate(found) if not it and (self.is_there is None or self.is_there[at])]
        if any(it in data for it in SPECIAL):
            found = list(map(rules.quoted, found))
        return self.spelled(found), empty

    def bytes_at(self, at: int) -> Optional[bytes]:
        """Returns the bytes at a place, None where there are none."""
        if self.is_there is not None and not self.is_there[at]:
            return None
        places = self.offsets()
        return ctypes.string_at(self.data + int(places[at]), int(places[at + 1] - places[at]))


def geometry_of(ogr: Any, given: bytes) -> Any:
    """Returns GDAL's geometry of well-known binary. NotInColumns where it has none."""
    try:
        return ogr.CreateGeometryFromWkb(given)
    except RuntimeError as error:
        raise NotInColumns(str(error)) from None


class Batch(NamedTuple):
    """Records of a layer: how many there are, their FIDs, the columns by the places of their fields, and the geometries, if they are read."""

    records: int
    fids: Values
    fields: dict[int, Values]
    shapes: Optional[Values]
    # What has to live as long as the values.
    owner: Any


def format_of(ogr: Any, field: Any, is_fast: bool) -> str:
    """Returns the format that a field's column has to have; nothing for a type that is read one by one. `is_fast` says that the driver has a
    stream of its own."""
    kind, subtype = field.GetType(), field.GetSubType()
    if kind == ogr.OFTInteger:
        return {ogr.OFSTNone: "i", ogr.OFSTBoolean: "" if is_fast else "b", ogr.OFSTInt16: "s"}.get(subtype, "")
    if kind == ogr.OFTInteger64 and subtype == ogr.OFSTNone:
        return "l"
    if kind == ogr.OFTReal and subtype == ogr.OFSTNone:
        return "g"
    return "u" if kind == ogr.OFTString else ""


def size_of(path: str) -> int:
    """Returns how many bytes the files of a source have, 0 where that isn't known."""
    with contextlib.suppress(OSError):
        if os.path.isfile(path):
            return os.path.getsize(path)
        return sum(it.stat().st_size for it in os.scandir(path) if it.is_file())
    return 0


def most_of(path: str, count: int) -> int:
    """Returns how many records a batch has at most, so that it needs little memory."""
    size = size_of(path)
    return max(1, min(MOST, BYTES * count // size)) if size else UNKNOWN


class Reader:
    """Reads a layer in batches. NotInColumns where that can't be."""

    def __init__(self, layer: Any, fields: Sequence[int], has_shapes: bool) -> None:
        """`fields` are the places of the fields that are read, of a Layer of `reading`."""
        self.ogr, own = layer.modules.ogr, layer.layer
        names = [it.GetName() for it in layer.fields]
        # Where no fields can be left out, as of GeoJSON, the stream has all, and only those that are asked for are read.
        can_leave_out = len(set(names)) == len(names) and own.TestCapability(self.ogr.OLCIgnoreFields)
        self.layer, self.fields, self.has_shapes = layer, sorted(fields), has_shapes or not can_leave_out
        self.streamed = self.fields if can_leave_out else range(len(names))
        driver = layer.source.file.GetDriver().ShortName
        is_fast = driver != "GPKG" and own.TestCapability(getattr(self.ogr, "OLCFastGetArrowStream", "FastGetArrowStream"))
        self.formats = {it: format_of(self.ogr, layer.fields[it], is_fast) for it in fields}
        is_known = driver == COMPARED or not is_fast
        self.count = layer.count()
        can = hasattr(own, "GetArrowStream") and hasattr(getattr(self.ogr, "ArrowArray", None), "_getPtr") and is_known
        if not can or not layer.is_own or layer.spelled or self.count < FEWEST or len(layer.shapes) > 1 or not all(self.formats.values()):
            raise NotInColumns("it can't be read in columns")
        try:
            import numpy
        except ImportError:
            raise NotInColumns("numpy isn't there") from None
        self.numpy: Any = numpy
        self.ignored = [it for at, it in enumerate(names) if at not in fields] + ["OGR_STYLE"] + ([] if has_shapes else ["OGR_GEOMETRY"])
        self.ignored = self.ignored if can_leave_out else []

    def batches(self) -> Generator[Batch, None, None]:
        """Yields the batches."""
        own, found = self.layer.layer, 0
        own.ResetReading()
        if self.ignored:
            own.SetIgnoredFields(self.ignored)
        try:
            stream = self.asked(lambda: own.GetArrowStream([f"MAX_FEATURES_IN_BATCH={most_of(self.layer.source.path, self.count)}"]))
            try:
                schema = self.asked(stream.GetSchema)
                self.need_formats(CSchema.from_address(int(schema._getPtr())))
                while True:
                    array = self.asked(stream.GetNextRecordBatch)
                    if array is None:
                        break
                    it = self.batch(CArray.from_address(int(array._getPtr())), array)
                    found += it.records
                    yield it
                    del it, array
            finally:
                del stream
        finally:
            if self.ignored:
                own.SetIgnoredFields([])
            own.ResetReading()
        if found != self.count:
            raise NotInColumns("there are more records, or fewer")

    def asked(self, call: Callable[[], Any]) -> Any:
        """Calls GDAL. NotInColumns where it fails or warns: what it says then depends on the way."""
        from . import reading

        heard: list[str] = []
        gdal = self.layer.modules.gdal
        before = gdal.GetThreadLocalConfigOption(OWN_STREAM)
        gdal.PushErrorHandler(reading.Warnings(heard.append))
        gdal.SetThreadLocalConfigOption(OWN_STREAM, "YES")
        try:
            found = call()
        except (RuntimeError, SystemError) as error:
            raise NotInColumns(str(error)) from None
        finally:
            gdal.SetThreadLocalConfigOption(OWN_STREAM, before)
            gdal.PopErrorHandler()
        if heard:
            raise NotInColumns(heard[0])
        return found

    def need_formats(self, schema: CSchema) -> None:
        """NotInColumns where the stream has other columns than the layer, or others than are known."""
        wanted = ["l", *(self.formats.get(at) for at in self.streamed), *(["z"] if self.has_shapes and self.layer.shapes else [])]
        children = [schema.children[it].contents for it in range(schema.count)]
        are_known = (it is None or (child.format.decode() == it and not child.dictionary) for it, child in zip(wanted, children))
        if len(wanted) != len(children) or not all(are_known):
            raise NotInColumns("its columns have other formats")

    def batch(self, array: CArray, owner: Any) -> Batch:
        """Returns the batch of an array."""
        children = [array.children[it].contents for it in range(array.count)]
        if array.offset or any(it.length != array.length for it in children):
            raise NotInColumns("the columns of a batch don't have one length")
        fields = {at: Values(it, self.formats[at], self.numpy) for at, it in zip(self.streamed, children[1:]) if at in self.formats}
        shapes = Values(children[-1], "z", self.numpy) if self.has_shapes and self.layer.shapes else None
        return Batch(int(array.length), Values(children[0], "l", self.numpy), fields, shapes, owner)


# ---- geometries ----


class Apart:
    """The geometries of a batch taken apart, in arrays of numpy: which of them could be, their types, and how many positions, lines and
    elements each has; the positions of all, one behind the other, rounded to a grid if one is given; and the numbers of positions of each
    line, and of lines of each element.

    Those that couldn't be are missing, have a type that isn't one of sfq's, or have a coordinate that is infinite or none.
    """

    def __init__(self, shapes: Values, grid: Any) -> None:
        numpy = self.numpy = shapes.numpy
        count = shapes.count
        self.types, self.counts = numpy.zeros(count, dtype="u4"), numpy.zeros((count, 3), dtype="i8")
        self.are_there = numpy.zeros(count, dtype=bool)
        offsets = shapes.offsets()
        lengths = numpy.diff(offsets)
        points = self.points_of(shapes, offsets, lengths)
        if points is not None:
            self.take_points(points, grid, shapes.is_there)
            return
        total = int(offsets[-1]) if count else 0
        # Each position takes 16 bytes, and each line and element 4 or more.
        positions, parts = total // 16 + 1, total // 4 + 1
        self.positions, self.steps = numpy.empty((positions, 2)), numpy.empty((positions if grid else 0, 2), dtype="i4")
        self.lines, self.elements = numpy.empty(parts, dtype=numpy.uintp), numpy.empty(parts, dtype=numpy.uintp)
        self.take_each(shapes, offsets, lengths, grid)

    def points_of(self, shapes: Values, offsets: Any, lengths: Any) -> Any:
        """Returns the positions of geometries that are all points or missing; None where one is another."""
        numpy = self.numpy
        is_there = shapes.is_there if shapes.is_there is not None else numpy.ones(shapes.count, dtype=bool)
        if not shapes.count or not (lengths[is_there] == POINT).all() or (lengths[~is_there] != 0).any():
            return None
        first = int(offsets[0])
        rows = shapes.of_address(shapes.data + first, "u1", int(offsets[-1]) - first).reshape(-1, POINT)
        if not (rows[:, :5] == numpy.array([LITTLE, 1, 0, 0, 0], dtype="u1")).all():
            return None
        return numpy.ascontiguousarray(rows[:, 5:]).view("f8")

    def take_points(self, positions: Any, grid: Any, is_there: Any) -> None:
        """Takes points."""
        numpy = self.numpy
        are_finite = numpy.isfinite(positions[:, 0]) & numpy.isfinite(positions[:, 1])
        self.are_there[:] = True if is_there is None else is_there
        self.are_there[self.are_there] = are_finite
        self.positions = positions[are_finite]
        self.types[self.are_there], self.counts[self.are_there] = 1, 1
        self.lines = self.elements = numpy.ones(len(self.positions), dtype=numpy.uintp)
        self.steps = numpy.empty((len(self.positions) if grid else 0, 2), dtype="i4")
        if grid and len(self.positions):
            library.are_rounded(grid, self.positions.ctypes.data, len(self.positions), self.steps.ctypes.data)

    def take_each(self, shapes: Values, offsets: Any, lengths: Any, grid: Any) -> None:
        """Takes geometries of any types one by one."""
        pieces, call = library.CPieces(), library.library().sfq_take_apart
        given, data, places, sizes = ctypes.byref(pieces), shapes.data, offsets.tolist(), lengths.tolist()
        coordinates, steps, lines, elements = (it.ctypes.data for it in (self.positions, self.steps, self.lines, self.elements))
        most = len(self.positions), len(self.lines), len(self.elements)
        done = [0, 0, 0]
        types, counts, are_there = [0] * shapes.count, [(0, 0, 0)] * shapes.count, [False] * shapes.count
        for at in range(shapes.count) if shapes.is_there is None else shapes.numpy.flatnonzero(shapes.is_there).tolist():
            pieces.coordinates, pieces.lines, pieces.elements = coordinates + 16 * done[0], lines + 8 * done[1], elements + 8 * done[2]
            pieces.steps = steps + 8 * done[0] if grid else None
            pieces.most_positions, pieces.most_lines, pieces.most_elements = most[0] - done[0], most[1] - done[1], most[2] - done[2]
            status = call(grid, data + places[at], sizes[at], given, None)
            if status == library.OUT_OF_MEMORY:
                raise MemoryError("sfq: out of memory")
            if status == library.OK:
                found = pieces.positions, pieces.line_count, pieces.element_count
                types[at], counts[at], are_there[at] = pieces.type, found, True
                done = [done[0] + found[0], done[1] + found[1], done[2] + found[2]]
        if shapes.count:
            self.types[:], self.counts[:], self.are_there[:] = types, counts, are_there
        self.positions, self.steps = self.positions[:done[0]], self.steps[:done[0]]
        self.lines, self.elements = self.lines[:done[1]], self.elements[:done[2]]

    def ends(self) -> Any:
        """Returns where the positions, lines and elements of each geometry end."""
        return self.counts.cumsum(axis=0)


def count_empty(found: Sequence[tuple[str, list[int]]], empty: Counter[str]) -> None:
    """Counts empty texts of columns by their names: a column comes behind those in which an earlier record has one."""
    for name, places in sorted(((name, its) for name, its in found if its), key=lambda it: it[1][0]):
        empty[name] += len(places)
