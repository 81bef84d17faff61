"""Layers that others made, as Debian's packages have them: the table of docs/DATA.md, of what an import without options keeps of each, and why not all.

`python3 tests/test_public_layers.py --write` writes the table.
"""
import collections
import csv
import json
import os
import re
import sys
import unittest

from support import ROOT, read, write

from import_calls import WithImports
from sfq.commands import left_out

R, GEOPANDAS = "/usr/lib/R/site-library", "/usr/lib/python3/dist-packages/geopandas/datasets"
WORLD = "/usr/share/qgis/resources/data/world_map.gpkg"
# The sources of each package, each of one layer; else the one that is taken comes behind it.
LAYERS = {
    "r-cran-sf": [f"{R}/sf/{it}" for it in (
        "gpkg/b_pump.gpkg", "gpkg/buildings.gpkg", "gpkg/nc.gpkg", "gpkg/tl.gpkg", "shape/nc.shp", "shape/olinda1.shp", "shape/storms_xyz_feature.shp", "shape/storms_xyzm_feature.shp")],
    "r-cran-spdata": [f"{R}/spData/{it}" for it in (
        "shapes/NY8_bna_utm18.gpkg", "shapes/NY8_utm18.shp", "shapes/auckland.shp", "shapes/baltim.shp", "shapes/boston_tracts.shp", "shapes/columbus.shp",
        "shapes/cycle_hire.geojson", "shapes/cycle_hire_osm.geojson", "shapes/eire.shp", "shapes/sids.shp", "shapes/wheat.shp", "shapes/world.gpkg", "shapes/world.shp")],
    "python3-geopandas": [f"{GEOPANDAS}/{it}" for it in (
        "naturalearth_cities/naturalearth_cities.shp", "naturalearth_lowres/naturalearth_lowres.shp", "nybb_16a.zip")],
    "qgis-common": [(WORLD, it) for it in ("states_provinces", "countries", "disputed_borders")],
}
HEADER = ("layer", "package", "records", "kept", "rounded anew", "in parts", "refused", "pairs that meet", "relations changed")
BEGIN = "| layer | package | records |"


class Row:
    """What an import did to a layer, by what its folder says."""

    def __init__(self, package, source, folder):
        found = json.loads(read(f"{folder}/grid.json"))
        (layer,) = found["layers"]
        with open(f"{folder}/left-out.csv", newline="", encoding="utf-8") as file:
            refused = collections.Counter(re.match(r"\w+", it["reason"])[0] for it in csv.DictReader(file) if it["done"] == left_out.DONE)
        parted = layer.get("parted", {})
        self.kept, self.records, self.refused = layer["records"] - layer["left_out"], layer["records"], refused
        relations = [(f"{it['pairs']:,}", f"{it['changed']:,}") for it in found["relations"]]
        name = f"{layer['layer']} ({os.path.basename(source)})"
        self.fields = [
            name, package, f"{self.records:,}", f"{self.kept:,}", layer["snapped"] or "", parted.get("records", ""),
            ", ".join(f"{count} {code}" for code, count in sorted(refused.items())), *(relations[0] if relations else ("", "")),
        ]

    @property
    def line(self):
        return f"| {' | '.join(map(str, self.fields))} |"


class PublicLayers(WithImports):
    """One test for each package."""

    IS_LONG = True
    ASKS_PROGRAM = False

    def rows(self, package):
        """Imports the layers of a package, each on the grid that is proposed, and returns what came of them."""
        found = []
        for it in LAYERS[package]:
            path, *layers = (it,) if isinstance(it, str) else it
            if not os.path.exists(path):
                self.skipTest(f"needs the package {package}")
            source = f"/vsizip/{path}" if path.endswith(".zip") else path
            folder, _ = self.imported(source, "--allow-empty", *(f"--layer={layer}" for layer in layers), grid="auto")
            found.append(Row(package, path, folder))
        return found

    def is_shown(self, package):
        lines, rows = read(f"{ROOT}/docs/DATA.md").splitlines(), self.rows(package)
        for it in rows:
            self.assertIn(it.line, lines)
        return rows

    def test_sf(self):
        rows = self.is_shown("r-cran-sf")
        # Only the one shape of 18,010 positions isn't kept.
        self.assertEqual(sum((it.refused for it in rows), collections.Counter()), {"W4": 1})

    def test_spdata(self):
        rows = self.is_shown("r-cran-spdata")
        # Five tracts cross themselves in the source.
        self.assertEqual(sum((it.refused for it in rows), collections.Counter()), {"V3": 5})

    def test_geopandas(self):
        rows = self.is_shown("python3-geopandas")
        self.assertEqual(sum((it.refused for it in rows), collections.Counter()), {"W4": 2})


    def test_qgis(self):
        """The world map: its largest shapes are too large."""
        rows = self.is_shown("qgis-common")
        self.assertEqual(set(sum((it.refused for it in rows), collections.Counter())), {"W4"})


def write_table():
    """Writes the table, where all packages are there."""
    PublicLayers.setUpClass()
    try:
        rows = [it for package in LAYERS for it in PublicLayers("test_sf").rows(package)]
    finally:
        PublicLayers.tearDownClass()
    table = "\n".join([f"| {' | '.join(HEADER)} |", f"|{'---|' * len(HEADER)}", *(it.line for it in rows)])
    text = read(f"{ROOT}/docs/DATA.md")
    begin = text.index(BEGIN)
    write(f"{ROOT}/docs/DATA.md", text[:begin] + table + text[text.index("\n\n", begin) :])


if __name__ == "__main__":
    if sys.argv[1:] == ["--write"]:
        write_table()
    else:
        unittest.main()
