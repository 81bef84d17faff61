"""Cuts geometries as `sfq-import --part` does, but into small parts. A program for a Python that has GDAL and sfq on its path.

Standard input has a list of well-known texts, the most positions of a part and the most rings, as JSON. Standard output has the parts of each
text, as JSON: those that are cut without bending an edge, and else the text alone.
"""
import json
import sys

from osgeo import ogr

from sfq.geometry import texts
from sfq.layers import parting


def cut(text):
    """Returns the parts of a text."""
    if texts.coordinates(text)[0] == "Point" or text.endswith("EMPTY"):
        return [text]
    try:
        found = parting.parted(ogr, text)
    except parting.Undivided:
        return [text]
    return [text] if found.greatest else found.texts


if __name__ == "__main__":
    ogr.UseExceptions()
    given, parting.MOST_POSITIONS, parting.MOST_PARTS = json.load(sys.stdin)
    print(json.dumps([cut(it) for it in given]))
