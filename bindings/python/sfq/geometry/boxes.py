"""Bounds of envelopes as the library takes them, from tuples of numbers or from arrays of numpy: none of it is proved.

In Python an envelope is its least x, least y, greatest x and greatest y, as shapely has them; the library has both of x before
those of y. It takes 32-bit numbers. A greater one is made the greatest or the least of these, which is past its limit too.
"""
from __future__ import annotations

import ctypes
from typing import Any, Optional

from .faults import GridError
from .points import GREATEST, LEAST, numpy_of, of_rows
from .texts import whole

# The bounds of an empty geometry, as the library has them.
NONE = (0, -1, 0, -1)


def of_one(envelope: Optional[Any]) -> tuple[int, ...]:
    """Returns the bounds of an envelope as the library takes them; None is that of an empty geometry."""
    if envelope is None:
        return NONE
    if len(envelope) != 4:
        raise GridError("sfq: an envelope is a least x, a least y, a greatest x and a greatest y, or None")
    least_x, least_y, greatest_x, greatest_y = (min(max(whole(it), LEAST), GREATEST) for it in envelope)
    return least_x, greatest_x, least_y, greatest_y


def window(envelope: Optional[Any]) -> Any:
    """Returns a buffer with the bounds of one envelope."""
    return (ctypes.c_int32 * 4)(*of_one(envelope))


def buffer(envelopes: Any) -> tuple[Any, int]:
    """Returns a buffer with the bounds of envelopes, and how many there are."""
    numpy = numpy_of(envelopes)
    if numpy:
        return of_array(numpy, envelopes), len(envelopes)
    values = [it for envelope in envelopes for it in of_one(envelope)]
    return (ctypes.c_int32 * len(values))(*values), len(values) // 4


def of_array(numpy: Any, envelopes: Any) -> Any:
    """Returns the same of an array of n rows of four numbers. A row of four NaN is the envelope of an empty geometry."""
    if envelopes.ndim != 2 or envelopes.shape[1] != 4 or envelopes.dtype.kind not in "iuf":
        raise GridError(f"sfq: envelopes are an array of rows of four numbers, not of {envelopes.shape} of {envelopes.dtype}")
    rows = envelopes
    if rows.dtype.kind == "f" and not numpy.ma.is_masked(rows):
        rows = numpy.where(numpy.isnan(rows).all(axis=1)[:, None], [0.0, 0.0, -1.0, -1.0], rows)
    return of_rows(numpy, rows[:, [0, 2, 1, 3]])
