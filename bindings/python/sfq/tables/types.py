"""The types of columns, and what makes values of other types, by PEP 249.

sfq has whole numbers, texts and geometries. A date or a time is a text by ISO 8601, in tables and for a `?`. Bytes are no value.
"""
from __future__ import annotations

import datetime
from typing import Callable, TypeVar, Union

from .errors import DataError

# What `description` has; no column is of the last three types.
STRING, NUMBER, GEOMETRY = "TEXT", "INTEGER", "GEOMETRY"
BINARY, DATETIME, ROWID = "BINARY", "DATETIME", "ROWID"
Date, Time, Timestamp = datetime.date, datetime.time, datetime.datetime
Made = TypeVar("Made")


def of_ticks(make: Callable[[float], Made], ticks: float) -> Made:
    """Returns what a count of seconds since 1970 makes. DataError for one that is no time."""
    try:
        return make(ticks)
    except (OverflowError, OSError, ValueError):
        raise DataError("a number of seconds since 1970 is past every time, or none") from None


def DateFromTicks(ticks: float) -> datetime.date:
    """Returns the day, here, of a count of seconds since 1970."""
    return of_ticks(datetime.date.fromtimestamp, ticks)


def TimeFromTicks(ticks: float) -> datetime.time:
    """Returns the time of day, here, of a count of seconds since 1970, to the microsecond."""
    return TimestampFromTicks(ticks).time()


def TimestampFromTicks(ticks: float) -> datetime.datetime:
    """Returns day and time, here, of a count of seconds since 1970, to the microsecond."""
    return of_ticks(datetime.datetime.fromtimestamp, ticks)


def Binary(string: Union[bytes, bytearray, memoryview]) -> bytes:
    """Returns bytes, which sfq has no column for."""
    return bytes(memoryview(string))
