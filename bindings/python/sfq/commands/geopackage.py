"""Writes an answer as a GeoPackage, by GDAL. None of it is proved."""
from __future__ import annotations

import itertools
from typing import Any, Callable, Iterator, NamedTuple, Sequence

from ..geometry import texts
from ..layers import arrays, reading, systems
from . import outputs, units
from .asking import Block
from .endings import DATA, Stopped

LAYER = "answer"
# When GDAL writes that the contents changed: the same answer has the same bytes.
DATE = "1970-01-01T00:00:00.000Z"
# Fewer rows than these are written one by one: loading numpy takes longer. How many rows are written at once, and about how many bytes.
FEWEST, MOST, BYTES = 1_000, 4_000, 4 << 20


def write(returned: units.Returned, output: outputs.Output) -> None:
    """Writes an answer into a file. Missing without GDAL, OSError where it can't write."""
    found = reading.modules()
    try:
        Writer(found, returned, output.new).run()
    except RuntimeError as error:
        # When GDAL closes the file it fails once more. The modules give exceptions up in the other order.
        for module in reversed(found):
            module.DontUseExceptions()
        found.gdal.PushErrorHandler("CPLQuietErrorHandler")
        raise OSError(f"{output.path}: GDAL can't write it{f': {error}' if str(error) else ''}") from None


# The fields of some rows, by their columns.
Columns = list[list[str]]


class Writer:
    """A GeoPackage that is written: one layer, whose geometries are those of the answer's first column that has some."""

    def __init__(self, found: reading.Modules, returned: units.Returned, path: str) -> None:
        self.found, self.returned, self.path = found, returned, path
        self.names = unique(returned.headers)

    def run(self) -> None:
        """Writes all rows in one transaction. RuntimeError where GDAL can't: also what it fails at when it closes the file is one."""
        gdal = self.found.gdal
        gdal.SetConfigOption("OGR_CURRENT_DATE", DATE)
        source = gdal.GetDriverByName("GPKG").Create(self.path, 0, 0, 0, gdal.GDT_Unknown)
        count = self.rows(source, self.layer(source))
        source.FlushCache()
        # A source goes with the last name for it, and layers with it.
        del source
        source = gdal.OpenEx(self.path)
        if source.GetLayer(0).GetFeatureCount() != count:
            raise RuntimeError(f"it has fewer rows than {count:,}")

    def layer(self, source: Any) -> Any:
        """Makes the layer, without columns. The key gets a name that no column has."""
        ogr, at = self.found.ogr, self.returned.place
        options, kind, system = [f"FID={unique([*self.names, 'row'])[-1]}"], ogr.wkbNone, None
        if at is not None:
            column = self.returned.columns[at]
            options.append(f"GEOMETRY_NAME={self.names[at]}")
            kind = getattr(ogr, f"wkb{texts.OF_WORD.get(column.kind, 'Unknown')}")
            system = self.system(column.system) if column.system else None
        return source.CreateLayer(LAYER, system, kind, options)

    def system(self, said: Any) -> Any:
        """Returns the coordinate system of grid.json, with x before y whatever it says. Stopped where it has none."""
        try:
            return systems.of_text(self.found.osr, said["wkt"])
        except (KeyError, TypeError, ValueError) as error:
            raise Stopped(f"grid.json isn't one that sfq-import made: {error}", DATA) from None

    def rows(self, source: Any, layer: Any) -> int:
        """Writes the columns and the rows, and returns how many rows there are."""
        ogr = self.found.ogr
        types = {"INTEGER": ogr.OFTInteger64, "REAL": ogr.OFTReal}
        for at, name in enumerate(self.names):
            if at != self.returned.place:
                layer.CreateField(ogr.FieldDefn(name, types.get(self.kind(at), ogr.OFTString)))
        source.StartTransaction()
        many, count = batches(self.returned.answer.blocks(), len(self.names)), 0
        first: Columns = next(many, [[]])
        writes = self.in_columns(layer) if len(first[0]) >= FEWEST and arrays.can_write(ogr) else self.one_by_one(layer)
        for it in itertools.chain([first], many):
            writes(it)
            count += len(it[0])
        source.CommitTransaction()
        return count

    def kind(self, at: int) -> str:
        """Returns the type of a column."""
        return self.returned.columns[at].kind

    # ---- rows in columns ----

    def in_columns(self, layer: Any) -> Callable[[Columns], None]:
        """Returns what writes rows by their columns."""
        place, formats = self.returned.place, {"INTEGER": arrays.WHOLES, "REAL": arrays.DOUBLES}
        columns = [(it, arrays.BYTES if at == place else formats.get(self.kind(at), arrays.TEXTS)) for at, it in enumerate(self.names)]
        writer = arrays.Writer(self.found.ogr, layer, columns, "" if place is None else self.names[place])
        return lambda rows: writer.write(len(rows[0]), [self.values(at, it) for at, it in enumerate(rows)])

    def values(self, at: int, fields: Sequence[str]) -> arrays.Values:
        """Returns the column of some rows at a place."""
        column = self.returned.columns[at]
        if at == self.returned.place:
            ogr = self.found.ogr
            return arrays.shape_values(fields, self.returned.grid, lambda it: bytes(ogr.CreateGeometryFromWkt(column.write(it)).ExportToIsoWkb(ogr.wkbNDR)))
        if column.axis:
            return arrays.counted_values(fields, column.axis)
        if column.write is not str:
            fields = [it and column.write(it) for it in fields]
        return {"INTEGER": arrays.whole_values, "REAL": arrays.double_values}.get(column.kind, arrays.text_values)(fields)

    # ---- rows one by one ----

    def one_by_one(self, layer: Any) -> Callable[[Columns], None]:
        """Returns what writes rows each as a feature."""
        setters = [self.setter(at) for at in range(len(self.names))]
        # One feature serves all rows: making one takes as long as writing it. `before` says which of its fields are set.
        feature, before = self.found.ogr.Feature(layer.GetLayerDefn()), [""] * len(self.names)
        create, set_fid, fields_of = layer.CreateFeature, feature.SetFID, self.returned.fields

        def write(rows: Columns) -> None:
            nonlocal before
            for row in zip(*rows):
                fields = fields_of(list(row))
                for setter, text, old in zip(setters, fields, before):
                    if text:
                        setter.sets(feature, text)
                    elif old:
                        setter.unsets(feature)
                set_fid(-1)
                create(feature)
                before = fields

        return write

    def setter(self, at: int) -> Setter:
        """Returns what sets a field of the column at a place."""
        ogr, place = self.found.ogr, self.returned.place
        if at == place:
            return Setter(lambda it, text: it.SetGeometryDirectly(ogr.CreateGeometryFromWkt(text)), lambda it: it.SetGeometry(None))
        number = at - (place is not None and place < at)
        feature = ogr.Feature
        ways: dict[str, tuple[str, Callable[[str], Any]]] = {"INTEGER": ("SetFieldInteger64", int), "REAL": ("SetFieldDouble", float)}
        name, of = ways.get(self.kind(at), ("SetFieldString", str))
        sets = getattr(feature, name, feature.SetField)
        return Setter(lambda it, text: sets(it, number, of(text)), lambda it: it.UnsetField(number))


def batches(blocks: Iterator[Block], width: int) -> Iterator[Columns]:
    """Yields the rows of blocks, many at once, by the fields of each of so many columns."""
    found: Columns = [[] for _ in range(width)]
    size = 0
    for it in blocks:
        for column, fields in zip(found, it.columns(width)):
            column += fields
        size += it.size
        if len(found[0]) >= MOST or size >= BYTES:
            yield found
            found, size = [[] for _ in range(width)], 0
    if found[0]:
        yield found


class Setter(NamedTuple):
    """What sets a field of a feature to a text that isn't empty, and what has it be unset."""

    sets: Callable[[Any, str], Any]
    unsets: Callable[[Any], Any]


def unique(names: list[str]) -> list[str]:
    """Returns names of which no two are the same, case apart: a number makes one differ from those before it."""
    found: list[str] = []
    for it in names:
        name, number = it, 2
        while any(name.lower() == other.lower() for other in found):
            name, number = f"{it}_{number}", number + 1
        found.append(name)
    return found
