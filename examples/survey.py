#!/usr/bin/env python3
"""Makes a survey of fields and wells as a surveyor's office would hand it out: a GeoPackage in metres of UTM zone 32.

    /usr/bin/python3 examples/survey.py survey.gpkg [--seed 7] [--size 20]

Fields are cells of a crooked grid, with fractions of a millimetre, and neighbours have the same corners. As in real files, a few
are bad: one crosses itself, one has a spike, one has heights, one was never measured, and a few splinters are narrower than a
centimetre. It needs python3-gdal. The same seed makes the same records.
"""
import argparse
import random

from osgeo import gdal, ogr, osr

LEFT, LOW, CELL = 563_000, 5_934_000, 60
CROPS = ("rye", "oats", "hay, first cut", 'the "long" field', "Rüben", "")


def corners(chance, size):
    """Returns the corners of a crooked grid."""
    def at(i, j):
        return LEFT + CELL * i + chance.uniform(-15, 15), LOW + CELL * j + chance.uniform(-15, 15)

    return [[at(i, j) for j in range(size + 1)] for i in range(size + 1)]


def ring(*positions):
    return "(" + ",".join(" ".join(map(repr, it)) for it in (*positions, positions[0])) + ")"


def fields(chance, size):
    """Returns the name of each field's crop and its geometry, None where it was never measured."""
    grid, found = corners(chance, size), []
    for i in range(size):
        for j in range(size):
            a, b, c, d = grid[i][j], grid[i + 1][j], grid[i + 1][j + 1], grid[i][j + 1]
            text = f"POLYGON({ring(a, b, c, d)})"
            number = i * size + j
            if number == 11:
                text = f"POLYGON({ring(a, c, b, d)})"
            elif number == 23:
                text = f"POLYGON({ring(a, b, c, (c[0] - 20.5, c[1] + 31.25), c, d)})"
            elif number == 37:
                text = "POLYGON Z(" + ring(*(it + (12.5,) for it in (a, b, c, d))) + ")"
            elif number == 41:
                text = None
            elif number % 97 == 50:
                text = f"POLYGON({ring(a, (a[0] + 0.002, a[1] + 40), (a[0] + 0.004, a[1]))})"
            elif number % 31 == 5:
                east = LEFT + CELL * (size + 2) + 0.125
                text = f"MULTIPOLYGON(({ring(a, b, c, d)}),({ring((east, a[1]), (east + 9, a[1]), (east, a[1] + 9))}))"
            found.append((chance.choice(CROPS), text))
    return found


def wells(chance, size):
    """Returns the depth and the geometry of each well."""
    side = CELL * size
    return [(chance.uniform(2, 40), f"POINT({LEFT + chance.uniform(0, side)!r} {LOW + chance.uniform(0, side)!r})") for _ in range(3 * size)]


def add(layer, values, text):
    feature = ogr.Feature(layer.GetLayerDefn())
    for name, value in values.items():
        feature.SetField(name, value)
    if text is not None:
        feature.SetGeometryDirectly(ogr.CreateGeometryFromWkt(text))
    layer.CreateFeature(feature)


def make(path, seed, size):
    """Writes the file."""
    for it in (gdal, ogr, osr):
        it.UseExceptions()
    chance, system = random.Random(seed), osr.SpatialReference()
    system.ImportFromEPSG(25832)
    file = ogr.GetDriverByName("GPKG").CreateDataSource(path)
    file.StartTransaction()
    field = file.CreateLayer("Feldstück", system, ogr.wkbUnknown)
    field.CreateField(ogr.FieldDefn("crop", ogr.OFTString))
    field.CreateField(ogr.FieldDefn("no.", ogr.OFTInteger))
    for number, (crop, text) in enumerate(fields(chance, size), 1001):
        add(field, {"crop": crop, "no.": number}, text)
    well = file.CreateLayer("well", system, ogr.wkbPoint)
    well.CreateField(ogr.FieldDefn("depth", ogr.OFTReal))
    for depth, text in wells(chance, size):
        add(well, {"depth": round(depth, 1)}, text)
    file.CommitTransaction()


def main():
    parser = argparse.ArgumentParser(description=__doc__.splitlines()[0])
    parser.add_argument("path", help="the GeoPackage to make")
    parser.add_argument("--seed", type=int, default=7, help="the seed of what is drawn by chance (7)")
    parser.add_argument("--size", type=int, default=20, help="how many fields a side has (20)")
    options = parser.parse_args()
    make(options.path, options.seed, options.size)


if __name__ == "__main__":
    main()
