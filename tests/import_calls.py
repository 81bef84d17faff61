"""Sources that tests make, and imports of them by the command sfq-import."""
import csv
import json
import os
import shutil
import subprocess
import sys
import tempfile
import unittest

from support import ROOT, python_command, python_with, read, write

import answers
import engine_rows
import library
import repository

PYTHON, SHAPELY = python_with("osgeo.ogr"), python_with("shapely, osgeo.ogr")
csv.field_size_limit(sys.maxsize)


def feature(geometry, **properties):
    """Returns a feature of GeoJSON; the geometry is a type and its coordinates, or None."""
    shape = geometry and {"type": geometry[0], "coordinates": geometry[1]}
    return {"type": "Feature", "properties": properties, "geometry": shape}


def square(x, y, side=4):
    return [[[x, y], [x + side, y], [x + side, y + side], [x, y + side], [x, y]]]


def collection(path, features):
    write(path, json.dumps({"type": "FeatureCollection", "features": features}, ensure_ascii=False))


# A feature that sfq refuses, whose reason is `W1 at 0: GEOMETRYCOLLECTION`.
MIXED = {"type": "Feature", "properties": {}, "geometry": {"type": "GeometryCollection", "geometries": [
    {"type": "Point", "coordinates": [1, 2]}, {"type": "LineString", "coordinates": [[1, 2], [3, 4]]}]}}


class WithImports(engine_rows.WithLibrary):
    """A test case of imports by the command, over the library that ./build --library made. Each folder that one makes has to load."""

    ASKS_PROGRAM = True

    @classmethod
    def setUpClass(cls):
        super().setUpClass()
        if not PYTHON:
            raise unittest.SkipTest("needs the package python3-gdal")
        os.environ["SFQ_LIBRARY"] = library.SHARED
        cls.room = tempfile.mkdtemp(prefix="sfq-import-")
        cls.made = []

    @classmethod
    def tearDownClass(cls):
        try:
            # The unproved program would take too long over so many folders.
            found = answers.ask([["check", f"{it}/schema.sql", it] for it in cls.made]) if repository.is_built() else []
            for folder, it in zip(cls.made, found):
                if it.status:
                    raise AssertionError(f"{folder}: {it.err.decode()}\n{read(f'{folder}/schema.sql')}")
        finally:
            shutil.rmtree(cls.room)

    def command(self, name, *words, given=None, **more):
        known = {**os.environ, "SFQ_LIBRARY": library.SHARED, "PYTHONDONTWRITEBYTECODE": "1", **more}
        return subprocess.run([*python_command(PYTHON, name), *words], env=known, input=given, capture_output=True, text=True, cwd=self.room)

    def source(self, features, name="t"):
        """Makes a file of GeoJSON, and returns its path."""
        path = f"{tempfile.mkdtemp(dir=self.room)}/{name}.geojson"
        collection(path, features)
        return path

    def texts(self, *texts):
        """Makes a file of well-known texts, and returns its path."""
        path = f"{tempfile.mkdtemp(dir=self.room)}/t.csv"
        write(path, "WKT,nr\n" + "".join(f'"{it}",{at}\n' for at, it in enumerate(texts)))
        return path

    def imported(self, source, *words, grid="1"):
        """Imports a source or features into a folder; returns it and what was said."""
        path = source if isinstance(source, str) else self.source(source)
        out = f"{tempfile.mkdtemp(dir=self.room)}/out"
        ran = self.command("sfq-import", path, "--grid", grid, "--out", out, *words)
        self.assertEqual((ran.returncode, ran.stdout), (0, ""), ran.stderr)
        self.made.append(out)
        return out, ran.stderr

    def table(self, folder, name="t"):
        with open(f"{folder}/{name}.csv", newline="", encoding="utf-8") as file:
            return list(csv.reader(file))

    def column(self, folder, name="geom", table="t"):
        head, *rows = self.table(folder, table)
        return [it[head.index(name)] for it in rows]

    def left_out(self, folder):
        with open(f"{folder}/left-out.csv", newline="", encoding="utf-8") as file:
            return [(it["layer"], it["record"], it["reason"], it["done"]) for it in csv.DictReader(file)]

    def columns(self, folder, table=0):
        return {it["name"]: it["type"] for it in json.loads(read(f"{folder}/grid.json"))["layers"][table]["columns"]}


class WithGeos(WithImports):
    """A test case of imports, and of what GEOS says of them."""

    @classmethod
    def setUpClass(cls):
        super().setUpClass()
        if not SHAPELY:
            cls.tearDownClass()
            raise unittest.SkipTest("needs the packages python3-gdal and python3-shapely")

    def geos(self, *words):
        """Returns what GEOS says, by the words of geos_answers.py."""
        known = {**os.environ, "PYTHONPATH": f"{ROOT}/bindings/python", "PYTHONDONTWRITEBYTECODE": "1"}
        ran = subprocess.run([SHAPELY, f"{ROOT}/tests/geos_answers.py", *words], env=known, capture_output=True, text=True)
        self.assertEqual((ran.returncode, ran.stderr), (0, ""))
        return json.loads(ran.stdout)
