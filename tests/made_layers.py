"""Makes layers with all that makes records differ, which are imported in both ways: made_layers.py ROOM. Debian's Python runs it, which has GDAL.

It prints the path of each source.
"""
import math
import os
import random
import sqlite3
import struct
import sys

from osgeo import gdal, ogr, osr

for module in (gdal, ogr, osr):
    module.UseExceptions()
gdal.PushErrorHandler("CPLQuietErrorHandler")
SYSTEM = osr.SpatialReference()
SYSTEM.ImportFromEPSG(25832)
TEXTS = ["plain", "", None, 'say "no"', "a,b", "two\nlines", "a\r\nb", "Größe", "名前", " ", "x" * 300, "'", "NULL"]
WHOLES = [0, 1, -1, None, 2**31 - 1, -(2**31)]
LONGS = [0, None, 2**63 - 1, -(2**63), 7]
REALS = [0.0, 1.5, -2.25, None, 1e300, 0.1, 1 / 3, 12345.678]
DECIMALS = [0.5, 12.25, None, -3.0, 99.75]
SHAPES = [
    "POINT(1.2 3.4)", "POINT(0 0)", "POINT(-5.5 7.5)", "POINT EMPTY", None, "POINT Z(1 2 3)", "POINT M(1 2 3)", "POINT ZM(1 2 3 4)",
    "MULTIPOINT((1 1),(1.1 1.1),(5 5))", "MULTIPOINT EMPTY", "MULTIPOINT((2 2))", "LINESTRING(0 0,0.1 0.1,5 5)", "LINESTRING(0 0,0.1 0.1)", "LINESTRING EMPTY",
    "LINESTRING Z(0 0 1,9 9 1)", "MULTILINESTRING((0 0,4 4),(9 9,9 12,9.2 12.1))", "MULTILINESTRING((0 0,4 4),EMPTY)", "MULTILINESTRING EMPTY",
    "POLYGON((0 0,8 0,8 8,0 8,0 0))", "POLYGON((0 0,8 0,8 8,0 8,0 0),(2 2,2 4,4 4,4 2,2 2))", "POLYGON EMPTY", "POLYGON((0 0,8 8,8 0,0 8,0 0))",
    "POLYGON((0 0,8 0,8 8,0 8,0 0),(0 0,2 4,4 2,0 0))", "POLYGON((0 0,0.2 0,0.2 0.2,0 0))", "POLYGON((0 0,8 0,8 8,0 8))",
    "MULTIPOLYGON(((0 0,3 0,3 3,0 3,0 0)),((10 10,13 10,13 13,10 10)))", "MULTIPOLYGON(((0 0,3 0,3 3,0 3,0 0)),((3 3,6 3,6 6,3 6,3 3)))",
    "MULTIPOLYGON(((0 0,3 0,3 3,0 0)),EMPTY)", "MULTIPOLYGON EMPTY", "MULTIPOLYGON Z(((0 0 1,3 0 1,3 3 1,0 0 1)))",
    "GEOMETRYCOLLECTION(POINT(1 1),POINT(2 2))", "GEOMETRYCOLLECTION(POINT(1 1),LINESTRING(0 0,1 1))", "GEOMETRYCOLLECTION EMPTY",
    "CIRCULARSTRING(0 0,1 1,2 0)", "CURVEPOLYGON(CIRCULARSTRING(0 0,4 4,8 0,4 -4,0 0))", "POINT(1e9 2)", "POINT(nan 2)", "LINESTRING(0 0,1e9 1)",
    "LINESTRING(0 0,nan 1,2 2)", "TRIANGLE((0 0,4 0,4 4,0 0))",
]


def shape_of(text):
    """Returns a geometry by its text, with doubles that a text can't have."""
    if text is None:
        return None
    if "nan" in text:
        numbers = [float(it) for it in text[text.index("(") + 1:-1].replace(",", " ").split()]
        kind = 1 if text.startswith("POINT") else 2
        count = b"" if kind == 1 else struct.pack("<I", len(numbers) // 2)
        return ogr.CreateGeometryFromWkb(struct.pack("<BI", 1, kind) + count + struct.pack(f"<{len(numbers)}d", *numbers))
    return ogr.CreateGeometryFromWkt(text)


def write(path, driver, shapes, fields, kind=ogr.wkbUnknown, fids=None, options=()):
    """Makes a layer `t` with these geometries, and each value of a field in turn."""
    source = gdal.GetDriverByName(driver).Create(path, 0, 0, 0, gdal.GDT_Unknown)
    layer = source.CreateLayer("t", SYSTEM, kind, list(options))
    for name, (of, subtype, _) in fields.items():
        field = ogr.FieldDefn(name, of)
        field.SetSubType(subtype)
        layer.CreateField(field)
    source.StartTransaction(True) if driver == "GPKG" else None
    for at, text in enumerate(shapes):
        feature = ogr.Feature(layer.GetLayerDefn())
        if fids:
            feature.SetFID(fids[at])
        for name, (_, _, values) in fields.items():
            value = values[at % len(values)]
            if value is None:
                feature.SetFieldNull(name)
            elif isinstance(value, int) and abs(value) >= 2**31:
                feature.SetFieldInteger64(feature.GetFieldIndex(name), value)
            else:
                feature.SetField(name, value)
        if kind != ogr.wkbNone:
            feature.SetGeometry(shape_of(text))
        layer.CreateFeature(feature)
    source.CommitTransaction() if driver == "GPKG" else None
    del layer, source
    return path


NONE = ogr.OFSTNone
FIELDS = {
    "name": (ogr.OFTString, NONE, TEXTS), "pop": (ogr.OFTInteger, NONE, WHOLES), "large": (ogr.OFTInteger64, NONE, LONGS), "height": (ogr.OFTReal, NONE, REALS),
    "depth": (ogr.OFTReal, NONE, DECIMALS), "is_wet": (ogr.OFTInteger, ogr.OFSTBoolean, [1, 0, None]), "few": (ogr.OFTInteger, ogr.OFSTInt16, [3, None, -7]),
}
DATES = {
    "day": (ogr.OFTDate, NONE, ["2020/02/29", None, "1899/12/31"]), "at": (ogr.OFTDateTime, NONE, ["2020/02/29 12:30:01.5+02", None]), "time": (ogr.OFTTime, NONE, ["11:59:00", None]),
    "bytes": (ogr.OFTBinary, NONE, [None]), "single": (ogr.OFTReal, ogr.OFSTFloat32, [0.1, None]),
}
OF_COLUMNS = {name: it for name, it in FIELDS.items() if name != "is_wet"}
PLAIN = {it: FIELDS[it] for it in ("name", "pop", "depth")}


# A point in a GeoPackage whose x is infinite.
INFINITE = b"GP\0\1" + struct.pack("<iBIdd", 25832, 1, 1, math.inf, 1)


def changed(path, *statements):
    """Changes a GeoPackage behind GDAL's back."""
    with sqlite3.connect(path) as file:
        for name in ("ST_IsEmpty", "ST_MinX", "ST_MaxX", "ST_MinY", "ST_MaxY"):
            file.create_function(name, 1, lambda _: None)
        for it in [name for name, in file.execute("SELECT name FROM sqlite_master WHERE type = 'trigger'")]:
            file.execute(f'DROP TRIGGER "{it}"')
        for it in statements:
            file.execute(it)
    return path


def main(room):
    chance = random.Random(7)
    points = [f"POINT({chance.uniform(0, 9e3)!r} {chance.uniform(0, 9e3)!r})" for _ in range(60)]
    exact = [f"POINT({chance.randrange(9000)}.{chance.randrange(100):02} {chance.randrange(9000)}.5)" for _ in range(60)]
    rings = [f"POLYGON(({x} {y},{x + 9.3} {y + .2},{x + 9} {y + 8.4},{x + .4} {y + 9},{x} {y}))" for x, y in ((20.25 * (at % 9), 20.5 * (at // 9)) for at in range(60))]
    long = ",".join(f"{at} {at % 2}" for at in range(10_001))
    made = [
        write(f"{room}/all.gpkg", "GPKG", [it for it in SHAPES for _ in range(3)], OF_COLUMNS),
        write(f"{room}/truth.gpkg", "GPKG", points, FIELDS, ogr.wkbPoint),
        write(f"{room}/holes.gpkg", "GPKG", points, OF_COLUMNS, ogr.wkbPoint, [3 * it + 2 for it in range(60)]),
        write(f"{room}/exact.gpkg", "GPKG", exact, OF_COLUMNS, ogr.wkbPoint),
        write(f"{room}/points.gpkg", "GPKG", [*points[:20], None, "POINT EMPTY", "POINT(1e12 0)", "POINT(nan nan)", *points[20:]], PLAIN, ogr.wkbPoint),
        write(f"{room}/rings.gpkg", "GPKG", [*rings[:30], SHAPES[21], None, SHAPES[22], SHAPES[26], *rings[30:]], PLAIN, ogr.wkbMultiPolygon),
        write(f"{room}/long.gpkg", "GPKG", ["LINESTRING(0 0,5 5)", f"LINESTRING({long})", "LINESTRING(1 1,9 5)"], PLAIN, ogr.wkbLineString),
        write(f"{room}/dates.gpkg", "GPKG", points, {**PLAIN, **DATES}, ogr.wkbPoint),
        write(f"{room}/none.gpkg", "GPKG", [None] * 20, OF_COLUMNS, ogr.wkbNone),
        write(f"{room}/no-rows.gpkg", "GPKG", [], PLAIN, ogr.wkbPoint),
        changed(write(f"{room}/not-utf-8.gpkg", "GPKG", points, PLAIN, ogr.wkbPoint), "UPDATE t SET name = CAST(x'41ff42' AS TEXT) WHERE fid = 41"),
        changed(write(f"{room}/zero.gpkg", "GPKG", points, PLAIN, ogr.wkbPoint), "UPDATE t SET name = CAST(x'410042' AS TEXT) WHERE fid = 41"),
        changed(write(f"{room}/others.gpkg", "GPKG", points, PLAIN, ogr.wkbPoint), "UPDATE t SET pop = 'many' WHERE fid = 9", "UPDATE t SET pop = 7.5 WHERE fid = 10",
                "UPDATE t SET depth = 'deep' WHERE fid = 11", "UPDATE t SET name = 12 WHERE fid = 12", "UPDATE t SET pop = 99999999999 WHERE fid = 13"),
        changed(write(f"{room}/broken.gpkg", "GPKG", rings, PLAIN, ogr.wkbPolygon), "UPDATE t SET geom = x'47500001e964000001060000000100' WHERE fid = 31"),
        changed(write(f"{room}/infinite.gpkg", "GPKG", points, PLAIN, ogr.wkbPoint), f"UPDATE t SET geom = x'{INFINITE.hex()}' WHERE fid IN (20, 21)"),
        changed(write(f"{room}/counted.gpkg", "GPKG", points, PLAIN, ogr.wkbPoint), "UPDATE gpkg_ogr_contents SET feature_count = 61"),
        changed(write(f"{room}/below.gpkg", "GPKG", points, PLAIN, ogr.wkbPoint), "UPDATE t SET fid = -3 WHERE fid = 7"),
        write(f"{room}/points.shp", "ESRI Shapefile", points, PLAIN, ogr.wkbPoint),
        write(f"{room}/rings.shp", "ESRI Shapefile", [*rings, SHAPES[21], None], PLAIN, ogr.wkbPolygon),
        write(f"{room}/rings.fgb", "FlatGeobuf", [*rings, SHAPES[21], SHAPES[22]], PLAIN, ogr.wkbPolygon),
        write(f"{room}/rings.geojson", "GeoJSON", [*rings, SHAPES[21], None], {it: FIELDS[it] for it in FIELDS if it != "large"}),
        write(f"{room}/rings.gml", "GML", rings, PLAIN, ogr.wkbPolygon),
    ]
    print("\n".join(it for it in made if os.path.exists(it)))


if __name__ == "__main__":
    main(sys.argv[1])
