"""What GEOS says of tables that sfq-import made, by shapely. A program for a Python that has shapely, GDAL and sfq on its path.

relations FOLDER A KEY B KEY: which rows of two tables, by their keys, are in each relation, as JSON.
meetings SOURCE FOLDER: which records of a source intersect, by their FIDs, on the grid of the folder.
sources SOURCE FOLDER: which records of a source are in each relation, by their FIDs, on the grid of the folder.
wholes SOURCE FOLDER TABLE: for each record of a source by its FID, on the grid of the folder, its text and what its parts are.
"""
import csv
import json
import sys

from osgeo import ogr
from shapely import wkt
from shapely.ops import unary_union

from sfq.geometry import binary, grids

PREDICATES = ("intersects", "touches", "crosses", "within", "overlaps", "equals")


def rows(folder, table, key):
    """Returns the geometries of a table that has one a row, by the key; those that are NULL or empty relate to nothing."""
    csv.field_size_limit(sys.maxsize)
    with open(f"{folder}/grid.json", encoding="utf-8") as file:
        columns = next(it["columns"] for it in json.load(file)["layers"] if it["table"] == table)
    with open(f"{folder}/{table}.csv", newline="", encoding="utf-8") as file:
        found = [(int(it[key]), wkt.loads(it[columns[-1]["name"]])) for it in csv.DictReader(file) if it[columns[-1]["name"]]]
    return [it for it in found if not it[1].is_empty]


def relations(folder, one, key, other, other_key):
    """Returns the pairs of keys in each relation."""
    return related(rows(folder, one, key), rows(folder, other, other_key))


def sources(source, folder):
    """Returns the pairs of FIDs in each relation."""
    shapes = [(number, wkt.loads(it)) for number, it in texts(source, folder).items()]
    return related(shapes, shapes)


def related(ones, others):
    """Returns the pairs of numbers of geometries in each relation."""
    found = {it: [] for it in PREDICATES}
    others = [(number, it, it.bounds) for number, it in others]
    for a, first in ones:
        left, low, right, high = first.bounds
        for b, second, (west, south, east, north) in others:
            if left <= east and west <= right and low <= north and south <= high and first.intersects(second):
                for it in PREDICATES:
                    if getattr(first, it)(second):
                        found[it].append((a, b))
    return found


def texts(source, folder):
    """Returns the text of each record of a source on the grid of a folder, by its FID."""
    with open(f"{folder}/grid.json", encoding="utf-8") as file:
        grid = grids.Grid.of_file(json.load(file))
    # GDAL from 3.7 on warns where a program doesn't choose.
    ogr.UseExceptions()
    opened = ogr.Open(source)
    # A geometry is gone with its feature.
    of_records = {it.GetFID(): bytes(it.GetGeometryRef().ExportToIsoWkb(1)) for it in opened.GetLayer(0) if it.GetGeometryRef()}
    return {number: binary.text(it, grid, grids.Shift()) for number, it in of_records.items()}


def meetings(source, folder):
    """Returns the pairs of FIDs of records that intersect."""
    shapes = {number: wkt.loads(it) for number, it in texts(source, folder).items()}
    return [(a, b) for a, one in shapes.items() for b, other in shapes.items() if one.intersects(other)]


def wholes(source, folder, table):
    """Returns what each record of a source is on the grid of a folder, and of its parts their count, and how their union differs from it."""
    parts = {}
    with open(f"{folder}/{table}.csv", newline="", encoding="utf-8") as file:
        for it in csv.DictReader(file):
            parts.setdefault(int(it["whole"]), []).append(it["geom"])
    found = []
    for number, text in texts(source, folder).items():
        shapes = [wkt.loads(it) for it in parts.get(number, [])]
        whole, union = wkt.loads(text), unary_union(shapes)
        found.append({
            "fid": number, "text": text, "parts": len(shapes), "are_valid": all(it.is_valid for it in shapes),
            "differs": whole.symmetric_difference(union).area if shapes and whole.is_valid else None,
            "overlap": sum(it.area for it in shapes) - union.area, "is_equal": bool(shapes) and whole.is_valid and whole.equals(union),
            "length": whole.length,
        })
    return found


if __name__ == "__main__":
    csv.field_size_limit(sys.maxsize)
    print(json.dumps({"relations": relations, "wholes": wholes, "meetings": meetings, "sources": sources}[sys.argv[1]](*sys.argv[2:])))
