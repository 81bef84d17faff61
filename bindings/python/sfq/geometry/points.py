"""Positions as the library takes them, from pairs of numbers or from arrays of numpy: none of it is proved.

The library takes 32-bit numbers. A greater one is made the greatest or the least of these, which is past its limit too.
"""
from __future__ import annotations

import ctypes
import sys
from typing import Any, Callable

from .faults import GridError
from .texts import not_whole, whole

LEAST, GREATEST = -(2**31), 2**31 - 1


def numpy_of(positions: Any) -> Any:
    """Returns the module numpy where the positions are an array of it, else None."""
    numpy = sys.modules.get("numpy")
    return numpy if numpy is not None and isinstance(positions, numpy.ndarray) else None


def buffer(positions: Any) -> tuple[Any, int]:
    """Returns the coordinates, an x and a y for each position, and how many positions there are."""
    numpy = numpy_of(positions)
    if numpy:
        return of_array(numpy, positions), len(positions)
    pairs = list(positions)
    for pair in pairs:
        if len(pair) != 2:
            raise GridError("sfq: a position is an x and a y")
    values = [min(max(whole(it), LEAST), GREATEST) for pair in pairs for it in pair]
    return (ctypes.c_int32 * len(values))(*values), len(pairs)


def of_array(numpy: Any, positions: Any) -> Any:
    """Returns a buffer with the coordinates of an array of n rows of two numbers."""
    if positions.ndim != 2 or positions.shape[1] != 2 or positions.dtype.kind not in "iuf":
        raise GridError(f"sfq: positions are an array of rows of two numbers, not of {positions.shape} of {positions.dtype}")
    return of_rows(numpy, positions)


def of_rows(numpy: Any, rows: Any) -> Any:
    """Returns a buffer with the numbers of an array, row by row. GridError for one that isn't whole, or that is masked."""
    if numpy.ma.is_masked(rows):
        raise GridError("sfq: a number of the array is masked: leave out its row")
    rows = numpy.asarray(rows)
    if rows.dtype.kind == "f":
        for it in rows[~(numpy.isfinite(rows) & (numpy.trunc(rows) == rows))][:1]:
            raise not_whole(it)
    elif rows.dtype.kind == "u":
        rows = numpy.minimum(rows, rows.dtype.type(min(GREATEST, numpy.iinfo(rows.dtype).max)))
    wide = rows if rows.dtype.kind == "f" else rows.astype(numpy.int64)
    values = numpy.ascontiguousarray(numpy.clip(wide, LEAST, GREATEST), dtype=numpy.int32)
    return (ctypes.c_int32 * values.size).from_buffer(values) if values.size else (ctypes.c_int32 * 0)()


def places(positions: Any, count: int) -> tuple[Any, Callable[[], Any]]:
    """Returns room for a number for each position, and what gives the numbers, as a list or as an array."""
    room = (ctypes.c_uint32 * count)()
    numpy = numpy_of(positions)
    return room, (lambda: numpy.frombuffer(room, dtype=numpy.uint32).copy()) if numpy and count else (lambda: list(room))
