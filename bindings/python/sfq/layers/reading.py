"""Reads the layers of a source by GDAL: fields, keys and geometries of its records, and GEOS's make-valid. None of it is proved.

The geometries of a layer are those that GDAL has of it, or points and texts that are in its columns; and they may be moved to another
reference system.
"""
from __future__ import annotations

import contextlib
import copy
import math
import os
import re
import sys
from collections import Counter
from typing import Any, Callable, Generator, Iterable, Iterator, NamedTuple, Optional, Sequence

from ..geometry import binary, grids
from ..tables import rules
from . import batches, columns, offline, proposing, systems
from .columns import Refused

# Words of a source that are nobody's business but its own.
SECRET = re.compile(r"(password\s*=\s*)('[^']*'|\S+)|(//[^/:@\s]*:)[^/@\s]*(?=@)", re.I)

# What is past this is no coordinate that a grid could take.
FARTHEST = 1e15


class Missing(Exception):
    """What an import needs isn't there."""


class Modules(NamedTuple):
    """GDAL's modules."""

    gdal: Any
    ogr: Any
    osr: Any


def modules() -> Modules:
    """Returns GDAL's modules, with errors as exceptions. Missing where they aren't there."""
    try:
        from osgeo import gdal, ogr, osr
    except ImportError as error:
        raise Missing(f"GDAL's module osgeo can't be loaded by {sys.executable}: install the package python3-gdal ({error})") from None
    found = Modules(gdal, ogr, osr)
    for it in found:
        it.UseExceptions()
    return found


def without_secrets(source: str) -> str:
    """Returns the name of a source without its password."""
    return SECRET.sub(lambda it: f"{it[1] or it[3]}***", source)


class Unreadable(Exception):
    """A text of GDAL isn't UTF-8."""


UNREADABLE = Unreadable()


class Warnings:
    """Keeps GDAL's warnings, and says each once. Errors are exceptions besides."""

    def __init__(self, say: Callable[[str], None]) -> None:
        self.say, self.most = say, 10
        self.said: set[str] = set()

    def __call__(self, level: int = 0, _number: int = 0, text: str = "") -> None:
        if not level:
            # GDAL's text isn't UTF-8, and its module calls with that exception pending. One that is there already takes its place, as
            # nothing can be called before, and is caught.
            try:
                raise UNREADABLE
            except Unreadable:
                text, level = "it says what isn't UTF-8", 2
        if level == 2 and text not in self.said and len(self.said) < self.most:
            self.said.add(text)
            self.say(f"GDAL: {text}")


@contextlib.contextmanager
def warnings_said(found: Modules, say: Callable[[str], None]) -> Iterator[None]:
    """Has GDAL's warnings said meanwhile."""
    found.gdal.PushErrorHandler(Warnings(say))
    try:
        yield
    finally:
        found.gdal.PopErrorHandler()


class Source:
    """A source that is open for reading."""

    def __init__(self, found: Modules, path: str) -> None:
        self.modules, self.path = found, path
        # What a message and grid.json call it.
        self.name = without_secrets(path)
        gdal = found.gdal
        try:
            with offline.offline(os.path.exists(path)):
                self.file = gdal.OpenEx(path, gdal.OF_VECTOR | gdal.OF_READONLY)
        except RuntimeError as error:
            raise OSError(without_secrets(f"{path}: {str(error).removeprefix(f'{path}: ')}")) from None
        self.is_of_texts = self.file.GetDriver().ShortName == "CSV"

    def layers(self, names: Sequence[str]) -> list[Layer]:
        """Returns the layers of those names that the source has, in their order, or all."""
        there = {it.GetName(): it for it in (self.file.GetLayer(at) for at in range(self.file.GetLayerCount()))}
        found = [there.get(it) or self.unlisted(it) for it in names] if names else list(there.values())
        return [Layer(self, it) for it in found if it is not None]

    def names(self) -> list[str]:
        """Returns the names of the layers that the source lists."""
        return [self.file.GetLayer(at).GetName() for at in range(self.file.GetLayerCount())]

    def unlisted(self, name: str) -> Any:
        """Returns a layer that the source doesn't list, as those of PostGIS may be, or None."""
        try:
            return self.file.GetLayerByName(name)
        except RuntimeError:
            return None


class Geometries(NamedTuple):
    """The geometries of a layer: their column's name, the type that the source says they have, and what reads that of a record.

    What reads it raises Refused where a record has none that can be read.
    """

    name: str
    word: str
    read: Callable[[Any], Any]


class Layer:
    """A layer of a source."""

    def __init__(self, source: Source, layer: Any) -> None:
        self.source, self.modules, self.layer, self.described = source, source.modules, layer, layer.GetLayerDefn()
        self.name = self.label = layer.GetName()
        self.fields = [self.described.GetFieldDefn(it) for it in range(self.described.GetFieldCount())]
        self.shapes = [self.own(it) for it in range(self.described.GetGeomFieldCount())]
        # The reference system, and the column that is read as geometries and is none of the others.
        self.reference, self.hidden = layer.GetSpatialRef(), ""
        # The columns that are kept, where not all are.
        self.kept: Sequence[str] = ()
        # The size of a step of each column whose decimal numbers become whole ones by themselves.
        self.steps: dict[str, str] = {}
        # The columns whose digits are counted where the extent is found, and how many digits those have of which they were counted so.
        self.to_count: Sequence[str] = ()
        self.counted: dict[str, grids.Places] = {}
        # The geometries that GDAL makes of texts: it only warns of a text that it can't read, from version 3.10 on.
        self.spelled = self.columns_of_texts() if source.is_of_texts else []
        # Whether geometries are those that GDAL has, and whether records are read one by one though they could be read in columns.
        self.is_own, self.is_single = True, False

    def own(self, at: int) -> Geometries:
        """Returns the geometries of a column that GDAL has of the layer."""
        column, take = self.described.GetGeomFieldDefn(at), self.modules.ogr.Feature.GetGeomFieldRef
        word = binary.WORDS.get(self.modules.ogr.GT_Flatten(column.GetType()), "GEOMETRY")
        return Geometries(column.GetName(), word, lambda it: take(it, at))

    def columns_of_texts(self) -> list[tuple[int, int]]:
        """Returns the place of each geometry that GDAL makes of a column of texts, with the place of that column.

        GDAL names such geometries after their column, and mostly gives those of the column WKT no name.
        """
        names = [it.GetName() for it in self.fields]
        named = {f"geom_{it}": at for at, it in enumerate(names)} | {"": at for at, it in enumerate(names) if it.upper() == "WKT"}
        return [(at, named[it.name]) for at, it in enumerate(self.shapes) if it.name in named]

    def columns(self) -> list[tuple[int, str]]:
        """Returns the place and the name of each column that isn't read as geometries, of those that are kept."""
        names = [(at, it.GetName()) for at, it in enumerate(self.fields) if it.GetName() != self.hidden]
        return [it for it in names if not self.kept or it[1] in self.kept]

    def take_points(self, x: str, y: str) -> None:
        """Has the layer's geometries be points, whose coordinates are in these two columns."""
        self.is_own = False
        places = [self.described.GetFieldIndex(it) for it in (x, y)]
        self.shapes = [Geometries("geom", "POINT", columns.points(self.modules.ogr, self.fields, places))]

    def take_texts(self, column: str) -> None:
        """Has the layer's geometries be those that a column has as well-known text."""
        self.hidden, self.is_own = column, False
        self.shapes = [Geometries(column, "GEOMETRY", columns.texts(self.modules.ogr, column, self.described.GetFieldIndex(column)))]

    def take_reference(self, system: Any) -> None:
        """Has the layer be in this reference system."""
        self.reference = system

    def move(self, target: Any) -> None:
        """Has the geometries be moved to another reference system."""
        self.is_own = False
        moved, name = systems.mover(self.modules.osr, self.reference, target), systems.label(target)

        def moving(read: Callable[[Any], Any]) -> Callable[[Any], Any]:
            def found(it: Any) -> Any:
                geometry = read(it)
                try:
                    if geometry is not None:
                        moved(geometry)
                except RuntimeError as error:
                    raise Refused(f"W1: it can't be moved to {name}: {error}") from None
                return geometry

            return found

        self.shapes = [it._replace(read=moving(it.read)) for it in self.shapes]
        self.reference = target

    def __iter__(self) -> Iterator[Any]:
        """Reads the records. OSError where GDAL can't: what it would do behind such a record depends on the driver."""
        return self.records(self.spelled)

    def records(self, spelled: Sequence[tuple[int, int]]) -> Iterator[Any]:
        """Reads the records. OSError where GDAL can't read one, or makes no geometry of a text: `spelled` has the places of both."""
        self.layer.ResetReading()
        take, count = self.layer.GetNextFeature, 0
        while True:
            count += 1
            try:
                feature = take()
            except RuntimeError as error:
                raise self.unreadable(count, str(error)) from None
            if feature is None:
                return
            for shape, column in spelled:
                if feature.GetGeomFieldRef(shape) is None and (text := feature.GetFieldAsString(column)):
                    raise self.unreadable(count, f"{self.fields[column].GetName()} isn't well-known text: {text[:60]!r}")
            yield feature

    def batches(self, fields: Sequence[int], has_shapes: bool = True) -> contextlib.closing[Generator[batches.Batch, None, None]]:
        """Reads the records in batches of columns: the fields at these places. NotInColumns where they have to be read one by one."""
        if self.is_single:
            raise batches.NotInColumns("it is read one by one")
        return contextlib.closing(batches.Reader(self, fields, has_shapes).batches())

    def unreadable(self, record: int, why: str) -> OSError:
        """Returns the error of a record that GDAL can't read."""
        return OSError(f"{self.name} record {record}: GDAL can't read it{f': {why}' if why else ''}")

    def count(self) -> int:
        """Returns how many records there are, or -1 where counting takes a pass."""
        return int(self.layer.GetFeatureCount(0))

    def may_take(self, *names: str) -> bool:
        """Whether geometries may be made of these columns: they are there, and the layer has no geometries but those of a file of texts."""
        return all(self.described.GetFieldIndex(it) >= 0 for it in names) and (not self.shapes or self.source.is_of_texts)

    def has(self, name: str) -> bool:
        """Whether there is a column of this name, that of the FID too."""
        return name in self.named()

    def named(self) -> list[str]:
        """Returns the names of the columns, that of the FID first where it has one."""
        fid = self.layer.GetFIDColumn()
        return [*([fid] if fid else []), *(it.GetName() for it in self.fields)]

    def is_whole(self, name: str) -> bool:
        """Whether a column of this name has whole numbers."""
        ogr = self.modules.ogr
        return any(it.GetName() == name and it.GetType() in (ogr.OFTInteger, ogr.OFTInteger64) for it in self.fields)

    def is_real(self, name: str) -> bool:
        """Whether a column of this name has numbers with a point."""
        return any(it.GetName() == name and it.GetType() == self.modules.ogr.OFTReal for it in self.fields)

    def without_geometries(self) -> Iterator[Any]:
        """Reads the records without their geometries, where the driver can."""
        can = self.layer.TestCapability(self.modules.ogr.OLCIgnoreFields)
        if can:
            self.layer.SetIgnoredFields(["OGR_GEOMETRY", "OGR_STYLE"])
        try:
            yield from self.records([] if can else self.spelled)
        finally:
            if can:
                self.layer.SetIgnoredFields([])

    def repeated(self, key: Callable[[Any], Optional[int]]) -> Optional[str]:
        """Returns why a key can't be one, or None. Keys are kept, in a second pass, only where they don't ascend."""
        before = None
        for feature in self.without_geometries():
            found = key(feature)
            if found is None:
                return "a record has none"
            if before is not None and found <= before:
                break
            before = found
        else:
            return None
        kept = set()
        for feature in self.without_geometries():
            found = key(feature)
            if found is None or found in kept:
                return "a record has none" if found is None else f"{found} comes twice"
            kept.add(found)
        return None

    def places(self, names: Sequence[str]) -> dict[str, grids.Places]:
        """Returns how many digits behind the point the numbers of each of some columns need, in a pass without geometries."""
        if self.counted.keys() == set(names):
            return self.counted
        found = {it: grids.Places() for it in names}
        with contextlib.suppress(batches.NotInColumns):
            at = {name: self.described.GetFieldIndex(name) for name in names}
            if names:
                self.add_places(at, found)
            return found
        found = {it: grids.Places() for it in names}
        left = [(self.double(self.described.GetFieldIndex(name)), it) for name, it in found.items()]
        for feature in self.without_geometries() if names else ():
            for read, places in left:
                value = read(feature)
                if value is not None:
                    places.add(value)
            if not all(it.are_decimal for _, it in left):
                left = [it for it in left if it[1].are_decimal]
                if not left:
                    break
        return found

    def add_places(self, at: dict[str, int], found: dict[str, grids.Places]) -> None:
        """Counts the digits of the numbers of columns, which are at these places, in batches."""
        with self.batches(list(at.values()), False) as its:
            for batch in its:
                for name, places in found.items():
                    places.add_all(batch.fields[at[name]].there())
                if not any(it.are_decimal for it in found.values()):
                    return

    def double(self, at: int) -> Callable[[Any], Optional[float]]:
        """Returns what reads a number of a record, None where it has none. One of 32 bits is the decimal number that it is written as."""
        ogr = self.modules.ogr
        is_there, double = ogr.Feature.IsFieldSetAndNotNull, ogr.Feature.GetFieldAsDouble
        if self.fields[at].GetSubType() != ogr.OFSTFloat32:
            return lambda it: double(it, at) if is_there(it, at) else None

        def single(it: Any) -> Optional[float]:
            found = double(it, at) if is_there(it, at) else None
            return found if found is None or not math.isfinite(found) else float(rules.single(found))

        return single

    def seeming(self) -> str:
        """Returns the option that makes geometries of columns of a layer that has none, where their names look so; else nothing."""
        return "" if self.shapes else columns.seeming([name for _, name in self.columns()])

    def whole(self, at: int) -> Callable[[Any], Optional[int]]:
        """Returns what reads a whole number of a record."""
        feature = self.modules.ogr.Feature
        take, is_there = feature.GetFieldAsInteger64, feature.IsFieldSetAndNotNull
        return lambda it: take(it, at) or (0 if is_there(it, at) else None)

    def reader(self, at: int, empty: Counter[str]) -> Callable[[Any], str]:
        """Returns what reads the field of a record as CSV has it, and counts empty texts by their column."""
        ogr, field = self.modules.ogr, self.fields[at]
        name, kind, feature, quoted = field.GetName(), field.GetType(), ogr.Feature, rules.quoted
        is_there = feature.IsFieldSetAndNotNull
        if kind in (ogr.OFTInteger, ogr.OFTInteger64):
            number = feature.GetFieldAsInteger64
            return lambda it: str(number(it, at) or (0 if is_there(it, at) else ""))
        if kind == ogr.OFTReal:
            double, shown = feature.GetFieldAsDouble, rules.single if field.GetSubType() == ogr.OFSTFloat32 else rules.real
            return lambda it: shown(double(it, at)) if is_there(it, at) else ""
        take, shows = self.taking(kind)

        def read(it: Any) -> str:
            if not is_there(it, at):
                return ""
            found = shows(take(it, at)) if shows else take(it, at)
            if not found:
                empty[name] += 1
            return quoted(found)

        return read

    def taking(self, kind: int) -> tuple[Callable[..., Any], Optional[Callable[[Any], str]]]:
        """Returns what reads a value of a type that isn't a number, and what writes it as a text; None where it is one."""
        ogr = self.modules.ogr
        feature = ogr.Feature
        known: dict[int, tuple[Callable[..., Any], Callable[[Any], str]]] = {
            ogr.OFTDate: (feature.GetFieldAsDateTime, rules.date),
            ogr.OFTTime: (feature.GetFieldAsDateTime, rules.time),
            ogr.OFTDateTime: (feature.GetFieldAsDateTime, rules.date_time),
            ogr.OFTBinary: (feature.GetFieldAsBinary, rules.coded),
            ogr.OFTIntegerList: (feature.GetFieldAsIntegerList, rules.listed),
            ogr.OFTInteger64List: (feature.GetFieldAsInteger64List, rules.listed),
            ogr.OFTRealList: (feature.GetFieldAsDoubleList, rules.listed),
            ogr.OFTStringList: (feature.GetFieldAsStringList, rules.listed),
        }
        return known.get(kind, (feature.GetFieldAsString, None))


def extents(layer: Layer, decimals: Optional[proposing.Decimals] = None) -> Iterator[proposing.Extent]:
    """Returns the extent of each geometry of a layer, but for those that have no finite one. `decimals` takes their coordinates."""
    if not layer.shapes:
        return
    for feature in layer:
        for column in layer.shapes:
            try:
                geometry = column.read(feature)
            except Refused:
                continue
            if geometry is not None:
                yield from extents_of_geometry(geometry, decimals)


def extents_of_geometry(geometry: Any, decimals: Optional[proposing.Decimals]) -> Iterator[proposing.Extent]:
    """Yields the extent of a geometry that has a finite one. `decimals` takes its coordinates."""
    if not geometry.IsEmpty():
        it = proposing.Extent(*geometry.GetEnvelope())
        if all(-FARTHEST < value < FARTHEST for value in it):
            yield it
            if decimals and decimals.is_exact:
                take_decimals(geometry, decimals)


def take_decimals(geometry: Any, decimals: proposing.Decimals) -> None:
    """Has the coordinates of a geometry be counted, without its Z and M, if sfq has its type."""
    geometry.FlattenTo2D()
    with contextlib.suppress(binary.NoText):
        for part in binary.shape(binary_of(geometry), drops_empty=True).parts:
            for numbers in part:
                decimals.add(numbers)


def extent(layers: Iterable[Layer], decimals: Optional[proposing.Decimals] = None) -> Optional[proposing.Extent]:
    """Returns the extent of all geometries of some layers; None where there are none. `decimals` takes their coordinates."""
    return proposing.joined(extent_of(layer, decimals) for layer in layers)


def extent_of(layer: Layer, decimals: Optional[proposing.Decimals]) -> Optional[proposing.Extent]:
    """Returns the extent of the geometries of a layer; None where there are none. `decimals` takes their coordinates."""
    for names in dict.fromkeys((tuple(layer.to_count), ())):
        with contextlib.suppress(batches.NotInColumns):
            trial, counted = copy.deepcopy(decimals), {layer.described.GetFieldIndex(it): grids.Places() for it in names}
            if not layer.shapes:
                return None
            with layer.batches(list(counted)) as its:
                found = proposing.joined(it for batch in its for it in surveyed(layer, batch, trial, counted))
            if decimals is not None:
                vars(decimals).update(vars(trial))
            layer.counted = dict(zip(names, counted.values()))
            return found
    return proposing.joined(extents(layer, decimals))


def surveyed(
    layer: Layer, batch: batches.Batch, decimals: Optional[proposing.Decimals], counted: dict[int, grids.Places],
) -> Iterator[proposing.Extent]:
    """Yields extents of the geometries of a batch, and counts the digits of the numbers of the fields at some places."""
    for at, places in counted.items():
        places.add_all(batch.fields[at].there())
    yield from extents_of(layer, batch, decimals)


def extents_of(layer: Layer, batch: batches.Batch, decimals: Optional[proposing.Decimals]) -> Iterator[proposing.Extent]:
    """Yields extents of the geometries of a batch, but for those that have no finite one. `decimals` takes their coordinates."""
    shapes = batch.shapes
    assert shapes is not None
    apart = batches.Apart(shapes, None)
    positions = apart.positions
    if len(positions):
        # Along each axis: numpy takes longer for both at once.
        its = proposing.Extent(*(float(of(positions[:, at])) for at in (0, 1) for of in (shapes.numpy.min, shapes.numpy.max)))
        if not all(-FARTHEST < value < FARTHEST for value in its):
            raise batches.NotInColumns("a position has no finite place")
        yield its
        if decimals and decimals.is_exact:
            decimals.add_all(positions)
    # Geometries of other types, and points without numbers.
    missing = ~apart.are_there if shapes.is_there is None else ~apart.are_there & shapes.is_there
    for at in missing.nonzero()[0].tolist():
        yield from extents_of_geometry(batches.geometry_of(layer.modules.ogr, shapes.bytes_at(at) or b""), decimals)


def members(geometry: Any) -> Iterator[Any]:
    """Yields the points, lines, polygons and others that a geometry consists of, but for empty ones."""
    count = geometry.GetGeometryCount()
    if geometry.GetGeometryName() in ("GEOMETRYCOLLECTION", "MULTIPOINT", "MULTILINESTRING", "MULTIPOLYGON"):
        for it in range(count):
            yield from members(geometry.GetGeometryRef(it))
    elif not geometry.IsEmpty():
        yield geometry


def gathered(ogr: Any, geometry: Any, word: str) -> Optional[Any]:
    """Returns a collection whose members are of one kind as their MULTI type, and one of nothing as an empty geometry of the column's type.

    None of another geometry.
    """
    if ogr.GT_Flatten(geometry.GetGeometryType()) != ogr.wkbGeometryCollection:
        return None
    found = list(members(geometry))
    kinds = {it.GetGeometryName() for it in found}
    if not kinds:
        return ogr.CreateGeometryFromWkt(f"{word if word in binary.WORDS.values() else 'POINT'} EMPTY")
    kind = f"MULTI{kinds.pop()}"
    if kinds or kind not in binary.WORDS.values():
        return None
    made = ogr.CreateGeometryFromWkt(f"{kind} EMPTY")
    for it in found:
        made.AddGeometry(it)
    return made


def flat(geometry: Any) -> bytes:
    """Returns the binary form of a geometry without Z and M, its curves as lines."""
    copy = geometry.GetLinearGeometry() if geometry.HasCurveGeometry() else geometry.Clone()
    copy.FlattenTo2D()
    return binary_of(copy)


def binary_of(geometry: Any) -> bytes:
    """Returns the binary form of a geometry, least byte first."""
    return bytes(geometry.ExportToIsoWkb(1))


def made_valid(found: Modules, text: str) -> Optional[bytes]:
    """Returns the binary form of what GEOS's make-valid makes of a text, or None where it makes nothing of the same dimension."""
    found.gdal.PushErrorHandler("CPLQuietErrorHandler")
    try:
        geometry = found.ogr.CreateGeometryFromWkt(text)
        geometry.CloseRings()
        made = geometry.MakeValid(["METHOD=STRUCTURE", "KEEP_COLLAPSED=NO"])
        if made is None or made.IsEmpty() or made.GetDimension() != geometry.GetDimension():
            return None
        made.FlattenTo2D()
        return binary_of(made)
    except RuntimeError:
        return None
    finally:
        found.gdal.PopErrorHandler()


UNITS = grids.Grid("1")


def mended(found: Modules, text: str) -> Optional[str]:
    """Returns the text of what make-valid makes of a text on the grid, rounded to the grid again, or None."""
    made = made_valid(found, text)
    try:
        return None if made is None else binary.text(made, UNITS, grids.Shift(), drops_empty=True)
    except (binary.NoText, grids.NotANumber):
        return None
