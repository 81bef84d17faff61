"""The DE-9IM matrix of two geometries, exactly (OGC 06-103r4), by the proved C library libsfq.

    >>> import sfq
    >>> sfq.Geometry("LINESTRING(0 0,4 0)").touches("POLYGON((0 0,4 0,4 4,0 4,0 0))")
    True

Coordinates are whole numbers from -10,000,000 to 10,000,000. The proof ends at the calls of the crate sfq_c, over which the
library is made; the library's own C and what this package does around its calls aren't proved: the head of `geometry/library.py` has
the border. The library is the installed libsfq.so.0, or the file that the variable SFQ_LIBRARY names; it is loaded when it is first
asked.

Public are the names of `__all__`, the module `geopandas`, and the commands `ask`, `exports`, `imports`, `schemas` and `shell`, which
`python3 -m` runs. All else is in four packages, each of which uses those before it alone: `geometry`, `tables`, `layers`, `commands`.
"""
from __future__ import annotations

from .geometry.faults import Fault, FaultError, GridError, LibraryError
from .geometry.shapes import Cell, Geometry, Index, from_shapely, relate, relate_many
from .tables.connections import Connection, Cursor, connect
from .tables.errors import (
    DatabaseError, DataError, Error, IntegrityError, InterfaceError, InternalError, NotSupportedError, OperationalError,
    ProgrammingError, Warning,
)
from .tables.types import (
    BINARY, DATETIME, GEOMETRY, NUMBER, ROWID, STRING, Binary, Date, DateFromTicks, Time, TimeFromTicks, Timestamp, TimestampFromTicks,
)

__all__ = [
    "Cell", "Fault", "FaultError", "Geometry", "GridError", "Index", "LibraryError", "from_shapely", "relate", "relate_many",
    "connect", "Connection", "Cursor", "apilevel", "paramstyle", "threadsafety",
    "BINARY", "DATETIME", "GEOMETRY", "NUMBER", "ROWID", "STRING",
    "Binary", "Date", "DateFromTicks", "Time", "TimeFromTicks", "Timestamp", "TimestampFromTicks",
    "DatabaseError", "DataError", "Error", "IntegrityError", "InterfaceError", "InternalError", "NotSupportedError", "OperationalError",
    "ProgrammingError", "Warning",
]
# Which version of PEP 249 `connect` is of; that threads may share a connection; and that `?` is what a value is for.
apilevel, threadsafety, paramstyle = "2.0", 2, "qmark"
__version__ = "0.2.0"
