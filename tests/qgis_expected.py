"""What GEOS says of two layers whose shapes are rounded to a grid, and which of the shapes sfq refuses: for tests of the plugin of QGIS.

usage: qgis_expected.py SOURCE LAYER STEP X,Y

It relates the features of a layer of a source of GDAL with one another, by shapely over the texts on the grid, and prints JSON: `refused`, the
codes by FID, and `pairs`, the FIDs and the matrix of each pair whose envelopes meet. It needs python3-gdal, python3-shapely and the library.
"""
import json
import sys

from osgeo import ogr
from shapely import wkt
from sfq import Geometry
from sfq.geometry import binary, grids


def texts_of(source, layer, grid):
    """Yields the FID and the text on the grid of each feature that has a geometry; the text is None of a form without one."""
    ogr.UseExceptions()
    file = ogr.Open(source)
    for feature in file.GetLayerByName(layer):
        geometry = feature.GetGeometryRef()
        if geometry is None:
            continue
        geometry.FlattenTo2D()
        try:
            yield feature.GetFID(), binary.text(bytes(geometry.ExportToIsoWkb(ogr.wkbNDR)), grid, grids.Shift())
        except binary.NoText:
            yield feature.GetFID(), None


def main(source, layer, step, origin):
    refused, shapes = {}, {}
    for fid, text in texts_of(source, layer, grids.Grid(step, origin.split(","))):
        fault = Geometry(text).fault if text is not None else None
        if text is None or fault:
            refused[fid] = fault.code if fault else "W1"
        else:
            shapes[fid] = wkt.loads(text)
    pairs = []
    for first, one in shapes.items():
        left, low, right, high = one.bounds
        for second, other in shapes.items():
            bounds = other.bounds
            if bounds[0] <= right and left <= bounds[2] and bounds[1] <= high and low <= bounds[3]:
                pairs.append([first, second, one.relate(other)])
    json.dump({"refused": refused, "pairs": pairs}, sys.stdout)


if __name__ == "__main__":
    main(*sys.argv[1:])
