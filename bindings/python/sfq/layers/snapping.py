"""Rounds a geometry that rounding alone breaks: GEOS's precision reducer snaps its edges to the grid, which keeps it valid.

GEOS is called through GDAL from version 3.9 on, through shapely from version 2 on, or by its own C library, whichever is there. What narrows
to less than a step is gone, and edges may get vertices of the grid. None of it is proved: sfq checks what comes out.
"""
from __future__ import annotations

import contextlib
import ctypes
import ctypes.util
import functools
import math
import re
import struct
from fractions import Fraction
from typing import Any, Callable, NamedTuple, Optional, Sequence, Union

from ..geometry import binary, grids
from . import reading

# The first version of GEOS whose reducer keeps areas valid by snapping.
FIRST = (3, 10)
# What a coordinate in steps is from its whole number at most: GEOS's sums of doubles then round it to no other.
MOST = 0.499999
UNITS = grids.Grid("1")

# Returns the well-known binary of a geometry in steps whose coordinates are whole; None where GEOS fails.
Reducer = Callable[[bytes], Optional[bytes]]


def reducer(found: reading.Modules) -> Optional[Reducer]:
    """Returns what rounds a geometry and keeps it valid, None where no such GEOS is there."""
    return of_gdal(found) or of_shapely() or of_library()


def of_gdal(found: reading.Modules) -> Optional[Reducer]:
    """Returns GDAL's call."""
    if not hasattr(found.ogr.Geometry, "SetPrecision"):
        return None

    def reduced(given: bytes) -> Optional[bytes]:
        found.gdal.PushErrorHandler("CPLQuietErrorHandler")
        try:
            made = found.ogr.CreateGeometryFromWkb(given).SetPrecision(1.0)
            return reading.binary_of(made) if made is not None else None
        except RuntimeError:
            return None
        finally:
            found.gdal.PopErrorHandler()

    return reduced


def of_shapely() -> Optional[Reducer]:
    """Returns shapely's call."""
    try:
        import shapely
    except ImportError:
        return None
    if not hasattr(shapely, "set_precision") or getattr(shapely, "geos_version", (0,))[:2] < FIRST:
        return None

    def reduced(given: bytes) -> Optional[bytes]:
        try:
            return bytes(shapely.to_wkb(shapely.set_precision(shapely.from_wkb(given), 1.0), byte_order=1))
        except shapely.errors.ShapelyError:
            return None

    return reduced


class Library(NamedTuple):
    """GEOS's C library, and a context of it."""

    calls: Any
    context: Any


# The calls of GEOS's C library, with what they return and take.
POINTER, SIZE = ctypes.c_void_p, ctypes.c_size_t
CALLS: dict[str, tuple[Any, Sequence[Any]]] = {
    "GEOS_init_r": (POINTER, ()), "GEOSversion": (ctypes.c_char_p, ()), "GEOSFree_r": (None, (POINTER, POINTER)),
    "GEOSGeomFromWKB_buf_r": (POINTER, (POINTER, ctypes.c_char_p, SIZE)), "GEOSGeom_destroy_r": (None, (POINTER, POINTER)),
    "GEOSGeom_setPrecision_r": (POINTER, (POINTER, POINTER, ctypes.c_double, ctypes.c_int)),
    "GEOSGeomToWKB_buf_r": (POINTER, (POINTER, POINTER, ctypes.POINTER(SIZE))),
}


@functools.lru_cache(maxsize=1)
def library() -> Optional[Library]:
    """Returns GEOS's C library, None where it isn't there or is too old."""
    for name in ("libgeos_c.so.1", ctypes.util.find_library("geos_c")):
        with contextlib.suppress(OSError, AttributeError):
            calls = ctypes.CDLL(name) if name else None
            for call, (returned, taken) in CALLS.items() if calls else ():
                it = getattr(calls, call)
                it.restype, it.argtypes = returned, taken
            version = re.match(rb"(\d+)\.(\d+)", calls.GEOSversion()) if calls else None
            if calls and version and tuple(map(int, version.groups())) >= FIRST:
                return Library(calls, calls.GEOS_init_r())
    return None


def of_library() -> Optional[Reducer]:
    """Returns the call of GEOS's own library."""
    found = library()
    if found is None:
        return None
    calls, context = found

    def reduced(given: bytes) -> Optional[bytes]:
        made, size, data = None, SIZE(), None
        whole = calls.GEOSGeomFromWKB_buf_r(context, given, len(given))
        try:
            made = calls.GEOSGeom_setPrecision_r(context, whole, 1.0, 0) if whole else None
            data = calls.GEOSGeomToWKB_buf_r(context, made, ctypes.byref(size)) if made else None
            return ctypes.string_at(data, size.value) if data else None
        finally:
            for it in (whole, made):
                if it:
                    calls.GEOSGeom_destroy_r(context, it)
            if data:
                calls.GEOSFree_r(context, data)

    return reduced


# ---- a geometry in steps ----


def in_steps(axis: grids.Axis, value: float, whole: int) -> float:
    """Returns a coordinate of the source in steps, near enough to the whole number that it is rounded to."""
    past = float((Fraction(value) - axis.origin) / axis.step - whole)
    return whole + max(-MOST, min(past, MOST))


def all_in_steps(numbers: Sequence[float], grid: grids.Grid) -> list[tuple[float, float]]:
    """Returns positions of the source in steps. NotANumber where a coordinate is none, or past the limit."""
    wholes = grid.rounded(numbers, grids.Shift(), merges=False)
    if any(max(it) > grids.MOST for it in wholes):
        raise grids.NotANumber("a coordinate is past the limit")
    return [(in_steps(grid.x, x, n), in_steps(grid.y, y, m)) for x, y, (n, m) in zip(numbers[::2], numbers[1::2], wholes)]


def listed(numbers: Sequence[Sequence[float]]) -> bytes:
    """Returns positions as well-known binary has them, behind their count."""
    return struct.pack("<I", len(numbers)) + b"".join(struct.pack("<dd", *it) for it in numbers)


def scaled(given: binary.Shape, grid: grids.Grid) -> bytes:
    """Returns the well-known binary of lines or polygons whose coordinates are in steps of a grid."""
    parts = []
    for part in given.parts:
        lists = [listed(all_in_steps(it, grid)) for it in part]
        is_area = given.word.endswith("POLYGON")
        head = struct.pack("<BI", 1, 3 if is_area else 2) + (struct.pack("<I", len(lists)) if is_area else b"")
        parts.append(head + b"".join(lists))
    if not given.word.startswith("MULTI"):
        return parts[0]
    return struct.pack("<BII", 1, 6 if given.word.endswith("POLYGON") else 5, len(parts)) + b"".join(parts)


def snapped(reduced: Reducer, source: bytes, grid: grids.Grid) -> Optional[str]:
    """Returns the text, on a grid, of lines or polygons of the source as GEOS rounds them; None where it leaves nothing of them, or fails."""
    try:
        given = binary.shape(source, drops_empty=True)
        if not given.parts or given.word.endswith("POINT"):
            return None
        made = reduced(scaled(given, grid))
        if not made:
            return None
        shape = binary.shape(made, drops_empty=True)
        if not shape.parts or shape.word.removeprefix("MULTI") != given.word.removeprefix("MULTI"):
            return None
        return binary.text(made, UNITS, grids.Shift(), drops_empty=True)
    except (binary.NoText, grids.NotANumber):
        return None


def is_valid(found: reading.Modules, given: Union[bytes, str]) -> bool:
    """Whether GEOS says that a geometry is valid, by its well-known binary or text."""
    found.gdal.PushErrorHandler("CPLQuietErrorHandler")
    try:
        geometry = found.ogr.CreateGeometryFromWkt(given) if isinstance(given, str) else found.ogr.CreateGeometryFromWkb(given)
        return geometry is not None and bool(geometry.IsValid()) and all(map(math.isfinite, geometry.GetEnvelope()))
    except RuntimeError:
        return False
    finally:
        found.gdal.PopErrorHandler()
