"""Writes answers as GeoPackages by columns and row by row, for test_written_answers.py: by a Python that has GDAL and numpy.

usage: written_answers.py ROOM   writes into a folder, and prints a line for each answer: its name, and whether both files are the same

GDAL before 3.8 takes no columns. There a stand-in takes them, which reads them as batches of GDAL are read, and writes each record as a feature.
"""
import contextlib
import ctypes
import json
import random
import sys
from unittest import mock

from osgeo import gdal, ogr, osr

from sfq.commands import asking, geopackage, outputs, units
from sfq.geometry import grids
from sfq.layers import arrays, batches

KINDS = {b"l": "l", b"g": "g", b"u": "u", b"z": "z"}
GRIDS = {"halves": grids.Grid("0.5", ("100", "-50")), "degrees": grids.Grid("0.00002"), "far": grids.Grid("0.000000001", ("1000000000", "-2000000000.5"))}
SHAPES = (
    "POINT(1 2)", "POINT(-10000000 10000000)", "LINESTRING(0 0,1 -1,2 3)", "POLYGON((0 0,4 0,4 4,0 0))", "POLYGON((0 0,90 0,90 90,0 0),(10 1,20 1,20 2,10 1))",
    "MULTIPOINT((1 2),(-3 4))", "MULTILINESTRING((0 0,1 1),(2 2,3 3,4 5))", "MULTIPOLYGON(((0 0,4 0,4 4,0 0)),((10 0,90 0,90 80,10 0),(20 1,30 1,30 2,20 1)))",
    "POINT EMPTY", "LINESTRING EMPTY", "POLYGON EMPTY", "MULTIPOINT EMPTY", "MULTILINESTRING EMPTY", "MULTIPOLYGON EMPTY", "",
    # What SQLite's functions may give.
    "POINT (1 2)", "point(3 4)", "POINT Z (1 2 3)", "MULTIPOINT(1 2,3 4)", "POLYGON((0 0,4 0,4 4,0 0),EMPTY)", "GEOMETRYCOLLECTION(POINT(1 2),LINESTRING(0 0,1 1))",
)
TEXTS = ("", "a", "Zürich", "名前", "a\"b", "line\nline", "'", ",", " ", "NULL", "\U0001f600", "x" * 300)
WHOLES = ("", "0", "-1", "9223372036854775807", "-9223372036854775808", "12345")
REALS = ("", "0.1", "-0.0", "1e-300", "1.7976931348623157e308", "3", "123456789.123456789")
# Whole numbers that count steps: doubles don't hold the last ones.
COUNTED = ("", "0", "1", "-3", "12345678901", "9007199254740993", "-9223372036854775807")


class Held:
    """A struct of Arrow, as GDAL's modules hold one from 3.8 on."""

    def __init__(self, kind):
        self.it = kind()

    def _getPtr(self):
        return ctypes.addressof(self.it)


def standing_in(layer, schema, array, options):
    """Takes a batch as GDAL does from 3.8 on."""
    import numpy

    described, whole = batches.CSchema.from_address(int(schema._getPtr())), batches.CArray.from_address(int(array._getPtr()))
    shape = next((it.partition("=")[2] for it in options), "")
    assert described.format == b"+s" and described.count == whole.count and whole.buffer_count == 1 and not whole.offset
    columns = []
    for at in range(whole.count):
        field, its = described.children[at].contents, whole.children[at].contents
        assert its.length == whole.length and its.buffer_count == (2 if field.format in b"lg" else 3)
        values = batches.Values(its, KINDS[field.format], numpy)
        given = [values.bytes_at(it) for it in range(whole.length)] if field.format in b"uz" else values.with_none(values.numbers().tolist())
        assert its.nulls == given.count(None)
        columns.append((field.name.decode(), given if field.format != b"u" else [it if it is None else it.decode() for it in given]))
    for record in zip(*(its for _, its in columns)):
        feature = ogr.Feature(layer.GetLayerDefn())
        for (name, _), value in zip(columns, record):
            if value is None:
                continue
            if name == shape:
                feature.SetGeometryDirectly(ogr.CreateGeometryFromWkb(value))
            else:
                feature.SetField(name, value)
        layer.CreateFeature(feature)
    return ogr.OGRERR_NONE


def text_on(grid):
    """Returns what writes the text of a geometry in the coordinates of the source, as the tables of a folder do."""
    folder = units.Folder.__new__(units.Folder)
    folder.grid = grid
    return folder.text


def answers():
    """Yields the name of each answer, its headers, its columns, its grid and its rows."""
    chance, wkt = random.Random(7), osr.SpatialReference()
    wkt.ImportFromEPSG(25832)
    system = {"wkt": wkt.ExportToWkt()}
    whole, real, text = (units.Column(it, str) for it in ("INTEGER", "REAL", "TEXT"))
    for name, grid in GRIDS.items():
        shape = units.Column("GEOMETRY", text_on(grid), system)
        headers = ["id", "name", "n", "a.geom", "NAME", "real", "steps", "ST_AsText(b.geom)", "b.geom"]
        columns = [whole, text, whole, shape, text, real, units.counted(grids.Scale("0.001").axis), shape, units.Column("POINT", text_on(grid), system)]

        def row(at):
            n, m = (chance.randint(-(10**7), 10**7) for _ in range(2))
            return [str(at), chance.choice(TEXTS), chance.choice(WHOLES), chance.choice((f"POINT({n} {m})", *SHAPES)), chance.choice(TEXTS), chance.choice(REALS),
                    chance.choice((str(n), *COUNTED)), chance.choice(SHAPES[:14]), f"POINT({m} {n})"]

        yield f"all types, {name}", headers, columns, grid, [row(at) for at in range(9_001)]
        points = [[str(at), chance.choice(("", f"POINT({chance.randint(-10**7, 10**7)} {at})"))] for at in range(9_001)]
        yield f"points, {name}", ["id", "geom"], [whole, units.Column("POINT", text_on(grid), system)], grid, points
    grid = GRIDS["halves"]
    areas = units.Column("MULTIPOLYGON", text_on(grid))
    yield "one column of areas", ["geom"], [areas], grid, [[it] for it in (*SHAPES[7:8], "MULTIPOLYGON EMPTY", "") * 700]
    yield "no geometry", ["a", "b"], [text, whole], grid, [[chance.choice(TEXTS), chance.choice(WHOLES)] for _ in range(5_000)]
    yield "nothing but NULL", ["a", "b", "geom"], [text, whole, areas], grid, [["", "", ""]] * 1_500
    yield "few rows", ["id", "geom"], [whole, areas], grid, [["1", SHAPES[7]], ["2", ""]]
    yield "no rows", ["id", "geom"], [whole, areas], grid, []


def write(path, headers, columns, grid, rows):
    """Writes an answer."""
    answer = asking.Answer(headers, [it.kind for it in columns], iter(rows), False)
    output = outputs.Output(path, True)
    try:
        geopackage.write(units.Returned(answer, columns, grid), output)
        output.keep()
    finally:
        output.drop()


def features(path):
    """Returns the layer's description, and each feature."""
    source = ogr.Open(path)
    layer = source.GetLayer(0)
    defined = layer.GetLayerDefn()
    fields = [(it.GetName(), it.GetType(), it.GetSubType(), it.GetWidth(), it.IsNullable()) for it in map(defined.GetFieldDefn, range(defined.GetFieldCount()))]
    described = [layer.GetName(), layer.GetFIDColumn(), layer.GetGeometryColumn(), layer.GetGeomType(), layer.GetSpatialRef() and layer.GetSpatialRef().ExportToWkt(), fields]

    def shape(it):
        found = it.GetGeometryRef()
        return None if found is None else bytes(found.ExportToIsoWkb())

    return described, [(it.GetFID(), [(it.IsFieldSet(at), it.IsFieldNull(at), it.GetField(at)) for at in range(it.GetFieldCount())], shape(it)) for it in layer]


def main():
    room, written = sys.argv[1], []
    ogr.UseExceptions(), gdal.UseExceptions(), osr.UseExceptions()
    taken = getattr(ogr.Layer, "WriteArrowBatch", standing_in)

    def counting(*words):
        written.append(words)
        return taken(*words)

    for at, (name, *words) in enumerate(answers()):
        one, other = f"{room}/{at}-columns.gpkg", f"{room}/{at}-rows.gpkg"
        with contextlib.ExitStack() as stack:
            stack.enter_context(mock.patch.object(ogr.Layer, "WriteArrowBatch", counting, create=True))
            if taken is standing_in:
                stack.enter_context(mock.patch.multiple(ogr, ArrowSchema=lambda: Held(arrays.CSchema), ArrowArray=lambda: Held(arrays.CArray)))
            write(one, *words)
        with mock.patch.object(arrays, "can_write", return_value=False):
            write(other, *words)
        found, wanted = features(one), features(other)
        lines = [f"{a!r} isn't {b!r}" for a, b in zip([found[0], *found[1]], [wanted[0], *wanted[1]]) if repr(a) != repr(b)]
        with open(one, "rb") as a, open(other, "rb") as b:
            is_same = a.read() == b.read()
        print(json.dumps([name, len(words[-1]), len(found[1]), len(written), is_same, lines[:3]]))
        written.clear()
    print(json.dumps([gdal.VersionInfo(), taken is standing_in]))


if __name__ == "__main__":
    main()
