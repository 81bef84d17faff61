"""Geometries that are in the columns of a source: points by two numbers, and well-known texts. None of it is proved."""
from __future__ import annotations

import re
from typing import Any, Callable, Optional, Sequence

from ..geometry import grids

# The names of two columns that have a point's coordinates, the x before the y, and of one that has texts of geometries.
PAIRS = (
    ("lon", "lat"), ("lng", "lat"), ("long", "lat"), ("longitude", "latitude"), ("x", "y"), ("easting", "northing"), ("point_x", "point_y"),
    ("coord_x", "coord_y"), ("x_coord", "y_coord"), ("decimallongitude", "decimallatitude"),
)
TEXTS = ("wkt", "geom", "geometry", "the_geom", "wkb_geometry", "shape", "geom_wkt", "geometry_wkt")


class Refused(Exception):
    """Why a record isn't taken."""


def number_of(ogr: Any, field: Any, at: int) -> Callable[[Any], Optional[float]]:
    """Returns what reads a number of a record: None where it has none, and Refused where it isn't one."""
    name, feature = field.GetName(), ogr.Feature
    is_there = feature.IsFieldSetAndNotNull
    if field.GetType() in (ogr.OFTInteger, ogr.OFTInteger64, ogr.OFTReal):
        double = feature.GetFieldAsDouble
        return lambda it: double(it, at) if is_there(it, at) else None
    text = feature.GetFieldAsString

    def read(it: Any) -> Optional[float]:
        found = text(it, at).strip() if is_there(it, at) else ""
        if found and not grids.NUMBER.fullmatch(found):
            raise Refused(f"W1: {name} isn't a decimal number: {found[:60]!r}")
        return float(found) if found else None

    return read


def points(ogr: Any, fields: Sequence[Any], places: Sequence[int]) -> Callable[[Any], Any]:
    """Returns what reads a point, whose x and y are in the fields at two places; None where both are empty."""
    (x, y), names = (number_of(ogr, fields[at], at) for at in places), [fields[at].GetName() for at in places]

    def read(it: Any) -> Any:
        found = x(it), y(it)
        if None in found:
            if found != (None, None):
                raise Refused(f"W1: {names[found.index(None)]} is empty, and {names[1 - found.index(None)]} isn't")
            return None
        point = ogr.Geometry(ogr.wkbPoint)
        point.SetPoint_2D(0, *found)
        return point

    return read


def texts(ogr: Any, name: str, at: int) -> Callable[[Any], Any]:
    """Returns what reads the geometry that a field has as well-known text; None where it is empty."""
    feature = ogr.Feature

    def read(it: Any) -> Any:
        text = feature.GetFieldAsString(it, at).strip() if feature.IsFieldSetAndNotNull(it, at) else ""
        if not text:
            return None
        try:
            found = ogr.CreateGeometryFromWkt(text)
        except RuntimeError:
            found = None
        # GDAL doesn't look at what is behind a text.
        if found is None or not re.search(r"(\)|EMPTY)$", text, re.I) or text.count("(") != text.count(")"):
            raise Refused(f"W1: {name} isn't well-known text: {text[:60]!r}")
        return found

    return read


def seeming(names: Sequence[str]) -> str:
    """Returns the option that would make geometries of columns with such names, or nothing."""
    known = {it.lower(): it for it in reversed(names)}
    for x, y in PAIRS:
        if x in known and y in known:
            return f"--xy {known[x]},{known[y]}"
    return next((f"--wkt {known[it]}" for it in TEXTS if it in known), "")
