"""Layers that others made, as their packages have them: what sfq-import keeps of them, and which pairs sfq and GEOS find related, over
the same rounded shapes."""
import json
import os
import unittest

from support import read

import sfq
from import_calls import WithGeos

R, GEOPANDAS = "/usr/lib/R/site-library", "/usr/lib/python3/dist-packages/geopandas/datasets"
# Each with its package, the options, how many records are kept, and of how many.
NC = ("r-cran-sf", f"{R}/sf/shape/nc.shp", (), 100, 100)
OLINDA = ("r-cran-sf", f"{R}/sf/shape/olinda1.shp", (), 470, 470)
STORMS = ("r-cran-sf", f"{R}/sf/shape/storms_xyz_feature.shp", ("--flat",), 71, 71)
BUILDINGS = ("r-cran-sf", f"{R}/sf/gpkg/buildings.gpkg", (), 158, 158)
WORLD = ("r-cran-spdata", f"{R}/spData/shapes/world.gpkg", (), 177, 177)
BOSTON = ("r-cran-spdata", f"{R}/spData/shapes/boston_tracts.shp", (), 506, 506)
NEW_YORK = ("r-cran-spdata", f"{R}/spData/shapes/NY8_utm18.shp", (), 276, 281)
WHEAT = ("r-cran-spdata", f"{R}/spData/shapes/wheat.shp", (), 500, 500)
EARTH = ("python3-geopandas", f"{GEOPANDAS}/naturalearth_lowres/naturalearth_lowres.shp", (), 177, 177)
BOROUGHS = ("python3-geopandas", f"{GEOPANDAS}/nybb_16a.zip", ("--part",), 5, 5)
CYCLES = ("r-cran-spdata", f"{R}/spData/misc/cycle_hire_xy.csv", ("--xy", "X,Y"), 742, 742)


class WithLayers(WithGeos):
    """A test case over layers of packages."""

    ASKS_PROGRAM = False

    def path(self, layer):
        """Returns the path of a layer, as GDAL takes it. The test is skipped where its package isn't there."""
        package, path, *_ = layer
        if not os.path.exists(path):
            self.skipTest(f"needs the package {package}")
        return f"/vsizip/{path}" if path.endswith(".zip") else path

    def relate_alike(self, folder, one, key, other, other_key):
        """Checks that sfq and GEOS find the same pairs of two tables in each relation."""
        found = self.geos("relations", folder, one, key, other, other_key)
        self.assertTrue(found["intersects"])
        columns = {it["table"]: it["columns"][-1]["name"] for it in json.loads(read(f"{folder}/grid.json"))["layers"]}
        database = sfq.connect(f"{folder}/schema.sql", folder)
        for predicate, pairs in found.items():
            query = f"SELECT a.{key}, b.{other_key} FROM {one} a JOIN {other} b ON ST_{predicate}(a.{columns[one]}, b.{columns[other]})"
            self.assertEqual(sorted(map(list, database.execute(query).fetchall())), sorted(pairs), query)

    def alone(self, layer):
        """Imports a layer on the grid that is proposed, and relates it to itself."""
        _, _, words, kept, records = layer
        folder, _ = self.imported(self.path(layer), *words, grid="auto")
        (found,) = json.loads(read(f"{folder}/grid.json"))["layers"]
        left = sum(it[3] == "left out" for it in self.left_out(folder))
        self.assertEqual((found["records"] - found["left_out"], found["records"], left), (kept, records, records - kept))
        self.relate_alike(folder, found["table"], found["key"], found["table"], found["key"])


class Layers(WithLayers):
    """Small ones."""

    def test_counties(self):
        self.alone(NC)

    def test_buildings(self):
        self.alone(BUILDINGS)

    def test_fields(self):
        self.alone(WHEAT)

    def test_storms(self):
        self.alone(STORMS)

    def test_stations_of_a_csv_file(self):
        self.alone(CYCLES)

    def test_boroughs_that_are_parted(self):
        path = self.path(BOROUGHS)
        folder, said = self.imported(path, "--part", grid="auto")
        (layer,) = json.loads(read(f"{folder}/grid.json"))["layers"]
        self.assertEqual((layer["parted"]["records"], layer["left_out"]), (2, 0))
        self.assertIn("nybb: 2 records are parted into ", said)
        wholes = self.geos("wholes", path, folder, "nybb")
        self.assertEqual([it["parts"] > 1 for it in wholes].count(True), 2)
        for it in wholes:
            self.assertTrue(it["are_valid"])
            self.assertLess(abs(it["overlap"]), 1)
            self.assertLessEqual(it["differs"], layer["parted"]["greatest"] / 0.01 * it["length"] + 1)
        database = sfq.connect(f"{folder}/schema.sql", folder)
        pairs = {tuple(it) for it in database.execute("SELECT a.whole, b.whole FROM nybb a JOIN nybb b ON ST_Intersects(a.geom, b.geom)")}
        # Staten Island, Queens, Brooklyn, Manhattan and the Bronx: on this map two pairs touch besides each with itself.
        self.assertEqual(pairs, {tuple(it) for it in self.geos("meetings", path, folder)})


class MoreLayers(WithLayers):
    """Those that take longer."""

    IS_LONG = True

    def test_tracts(self):
        self.alone(OLINDA)
        self.alone(BOSTON)
        self.alone(NEW_YORK)

    def test_countries(self):
        self.alone(WORLD)
        self.alone(EARTH)

    def test_countries_tracts_and_counties_in_one_folder(self):
        paths = [self.path(it) for it in (WORLD, OLINDA, NC)]
        out = f"{self.room}/three"
        ran = self.command("sfq-import", *paths, "--to", "EPSG:4326", "--out", out)
        self.assertEqual(ran.returncode, 0, ran.stderr)
        self.assertIn("--grid 0.00002 --origin 0,0 takes all (steps of 0.00002 degree)", ran.stderr)
        self.relate_alike(out, "world", "fid", "olinda1", "fid")
        self.relate_alike(out, "nc", "fid", "world", "fid")


if __name__ == "__main__":
    unittest.main()
