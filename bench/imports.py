#!/usr/bin/env python3
"""Measures `sfq-import` beside `ogr2ogr -f CSV -lco GEOMETRY=AS_WKT`, and a whole task beside GeoPandas: the processor time of each.

For points and for polygons of six positions, as GeoPackage, shapefile and GeoJSON, it runs both in turns and prints the least
processor seconds of each and their ratio, which is to be at most 4. `sfq-import` also rounds, and has each geometry checked by the
library; it compares no relations. The whole task is to read points near shores and the states of the world, to join them, and to write
each pair with its attributes as a GeoPackage, in at most half of the time of GeoPandas. It needs what ./build --library makes,
python3-gdal and gdal-bin, and for the whole task qgis-common and python3-geopandas. It is no test: the gate doesn't run it.
"""

import argparse
import os
import pathlib
import shutil
import subprocess
import sys
import tempfile
from typing import Optional

import machine
from timing import README, ROOT, Table, figure, measure, read_options

LIBRARY = ROOT / "bindings" / "c" / "out" / "libsfq.so.0"
MOST, MOST_OF_TASK = 4, 0.5
WORLD = pathlib.Path("/usr/share/qgis/resources/data/world_map.gpkg")
# How many points the whole task has.
POINTS = 99_075
QUERY = "SELECT p.fid, p.name, p.rank, p.height, s.name, s.admin, p.geom FROM shore p JOIN states_provinces s ON ST_Within(p.geom, s.geom)"
SHORE = """
import random, sys
from osgeo import gdal, ogr
gdal.UseExceptions(); ogr.UseExceptions()
path, world, count = sys.argv[1], sys.argv[2], int(sys.argv[3])
chance, source = random.Random(count), gdal.OpenEx(world)
states, places = source.GetLayerByName("states_provinces"), []
for it in states:
    shape = it.GetGeometryRef()
    for area in (shape.GetGeometryRef(at) for at in range(shape.GetGeometryCount())):
        places += area.GetGeometryRef(0).GetPoints()
file = ogr.GetDriverByName("GPKG").CreateDataSource(path)
file.StartTransaction()
layer = file.CreateLayer("shore", states.GetSpatialRef(), ogr.wkbPoint)
for name, it in (("name", ogr.OFTString), ("rank", ogr.OFTInteger64), ("height", ogr.OFTReal)):
    layer.CreateField(ogr.FieldDefn(name, it))
for at, (x, y) in enumerate(chance.sample(places, count)):
    feature, point = ogr.Feature(layer.GetLayerDefn()), ogr.Geometry(ogr.wkbPoint)
    feature["name"], feature["rank"], feature["height"] = f"place {at}", at % 97, round(chance.uniform(0, 100), 1)
    point.SetPoint_2D(0, max(-179.9, min(179.9, x + chance.uniform(-0.1, 0.1))), max(-89, min(89, y + chance.uniform(-0.1, 0.1))))
    feature.SetGeometryDirectly(point)
    layer.CreateFeature(feature)
file.CommitTransaction()
"""
FRAMES = """
import sys, warnings
import geopandas
warnings.simplefilter("ignore")
points, states = geopandas.read_file(sys.argv[1]), geopandas.read_file(sys.argv[2], layer="states_provinces")
geopandas.sjoin(points, states, predicate="within").to_file(sys.argv[3], driver="GPKG")
"""
SOURCE = """
import random, sys
from osgeo import gdal, ogr, osr
gdal.UseExceptions(); ogr.UseExceptions(); osr.UseExceptions()
path, kind, count = sys.argv[1], sys.argv[2], int(sys.argv[3])
chance, system = random.Random(count), osr.SpatialReference()
system.ImportFromEPSG(25832)
file = ogr.GetDriverByName("GPKG").CreateDataSource(path)
file.StartTransaction()
layer = file.CreateLayer("t", system, ogr.wkbPoint if kind == "points" else ogr.wkbPolygon)
for name, it in (("name", ogr.OFTString), ("pop", ogr.OFTInteger64), ("height", ogr.OFTReal)):
    layer.CreateField(ogr.FieldDefn(name, it))
for at in range(count):
    feature = ogr.Feature(layer.GetLayerDefn())
    feature["name"], feature["pop"], feature["height"] = f"name {at}", at, chance.uniform(0, 100)
    x, y, w, h = (chance.uniform(*it) for it in ((500000, 550000), (5500000, 5550000), (1, 50), (1, 50)))
    ring = [(x, y), (x + w, y + 0.3), (x + w + 0.2, y + h), (x + w / 2, y + h + 2.1), (x, y + h - 0.2), (x, y)]
    ring = ",".join(f"{a!r} {b!r}" for a, b in ring)
    feature.SetGeometryDirectly(ogr.CreateGeometryFromWkt(f"POINT({x!r} {y!r})" if kind == "points" else f"POLYGON(({ring}))"))
    layer.CreateFeature(feature)
file.CommitTransaction()
"""


def is_ready() -> None:
    """Ends the program where something that it needs isn't there."""
    if not LIBRARY.exists():
        sys.exit("the library isn't made: run ./build --library")
    if shutil.which("ogr2ogr") is None:
        sys.exit("ogr2ogr isn't installed: apt-get install gdal-bin python3-gdal")


def sources(room: pathlib.Path, kind: str, count: int) -> list[tuple[str, pathlib.Path]]:
    """Makes the three sources, and returns their formats and paths."""
    first = room / f"{kind}.gpkg"
    subprocess.run(["/usr/bin/python3", "-c", SOURCE, first, kind, str(count)], check=True)
    found = [("GeoPackage", first)]
    for name, ending in (("shapefile", "shp"), ("GeoJSON", "geojson")):
        found.append((name, room / f"{kind}.{ending}"))
        subprocess.run(["ogr2ogr", found[-1][1], first], check=True, stderr=subprocess.DEVNULL)
    return found


def seconds(path: pathlib.Path, room: pathlib.Path, repeats: int) -> tuple[float, float, int]:
    """The least processor seconds of `sfq-import` and of `ogr2ogr`, and the peak kilobytes of the first."""
    grid = ["--grid", "0.01", "--origin", "525000,5525000", "--no-relations"]
    ours, theirs, peak = [], [], 0
    for _ in range(repeats):
        for it in ("ours", "theirs.csv"):
            shutil.rmtree(room / it, ignore_errors=True)
            (room / it).unlink(missing_ok=True)
        _, taken, memory = measure([ROOT / "bindings/python/bin/sfq-import", path, *grid, "--out", room / "ours"], room)
        ours.append(taken)
        peak = max(peak, memory)
        theirs.append(measure(["ogr2ogr", "-f", "CSV", "-lco", "GEOMETRY=AS_WKT", room / "theirs.csv", path], room)[1])
    return min(ours), min(theirs), peak


def task(room: pathlib.Path, repeats: int) -> Optional[tuple[float, float, float]]:
    """The least processor seconds of the two commands and of GeoPandas for the whole task; None where a package isn't there."""
    if not WORLD.exists() or subprocess.run(["/usr/bin/python3", "-c", "import geopandas"], stderr=subprocess.DEVNULL).returncode:
        return None
    shore, folder, answer = room / "shore.gpkg", room / "task", room / "answer.gpkg"
    subprocess.run(["/usr/bin/python3", "-c", SHORE, shore, WORLD, str(POINTS)], check=True)
    words = [shore, WORLD, "--layer", "shore", "states_provinces", "--no-relations", "--out", folder]
    found: list[tuple[float, float, float]] = []
    for _ in range(repeats):
        shutil.rmtree(folder, ignore_errors=True)
        made = measure([ROOT / "bindings/python/bin/sfq-import", *words], room)[1]
        asked = measure([ROOT / "bindings/python/bin/sfq-ask", folder, "--lenient", "--output", answer, QUERY], room)[1]
        answer.unlink()
        theirs = measure(["/usr/bin/python3", "-c", FRAMES, shore, WORLD, answer], room)[1]
        answer.unlink()
        found.append((made, asked, theirs))
    return min(it[0] for it in found), min(it[1] for it in found), min(it[2] for it in found)


def main() -> int:
    parser = argparse.ArgumentParser(description=__doc__.splitlines()[0])
    parser.add_argument("--repeats", type=int, default=3, help="runs of each command (3)")
    parser.add_argument("--rows", type=int, default=100_000, help="rows of each source (100000)")
    options = read_options(parser, ("rows",))
    is_ready()
    os.environ["SFQ_LIBRARY"] = str(LIBRARY)
    # Compiled modules are kept, as those of GeoPandas are.
    os.environ.pop("PYTHONDONTWRITEBYTECODE", None)
    # What the commands say of each import isn't shown, what this program says is.
    sys.stderr = os.fdopen(os.dup(2), "w")
    os.dup2(os.open(os.devnull, os.O_WRONLY), 2)
    table, worst = Table(["import of", "sfq-import s", "ogr2ogr s", "ratio", "MB"]), 0.0
    with tempfile.TemporaryDirectory() as name:
        room = pathlib.Path(name)
        for kind in ("points", "polygons"):
            for form, path in sources(room, kind, options.rows):
                ours, theirs, peak = seconds(path, room, options.repeats)
                worst = max(worst, ours / theirs)
                table.add([f"{options.rows:,} {kind}, {form}", figure(ours), figure(theirs), f"{ours / theirs:.2f}", f"{peak / 1024:.0f}"])
        if options.write:
            table.write_into(README)
        print(f"greatest ratio {worst:.2f} of at most {MOST}\n")
        taken = task(room, options.repeats)
    if taken is None:
        print("the whole task needs the packages qgis-common and python3-geopandas")
        return 0 if worst <= MOST else 1
    which = "before GeoPandas 1" if machine.versions().get("GeoPandas", "").startswith("0.") else "from GeoPandas 1 on"
    table, share = Table([f"whole task, {which}", "sfq-import s", "sfq-ask s", "GeoPandas s", "share"]), sum(taken[:2]) / taken[2]
    table.add([f"{POINTS:,} points in 4,556 states", *map(figure, taken), f"{share:.2f}"])
    if options.write:
        table.write_into(README, is_of_peers=True)
    print(f"share {share:.2f} of at most {MOST_OF_TASK}")
    return 0 if worst <= MOST and share <= MOST_OF_TASK else 1


if __name__ == "__main__":
    sys.exit(main())
