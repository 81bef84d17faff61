"""Has GDAL fetch nothing while it opens a file. A file may name a URL where its reference system is to be found, as GeoJSON once did."""
from __future__ import annotations

import contextlib
import ctypes
from typing import Any, Iterator, Optional

# What GDAL calls in place of fetching a URL.
CALL = ctypes.CFUNCTYPE(ctypes.c_void_p, *[ctypes.c_void_p] * 7)
# How many bytes what it gets has at most, in any version.
ROOM = 512


class Result(ctypes.Structure):
    """The beginning of what GDAL gets of a URL; nothing is in the rest (cpl_http.h)."""

    _fields_ = [("status", ctypes.c_int), ("content_type", ctypes.c_void_p), ("error", ctypes.c_void_p)]


def library() -> Optional[Any]:
    """Returns the library of GDAL that Python's module has loaded. None where it isn't found, or has no such call (before GDAL 3.2)."""
    with contextlib.suppress(OSError):
        with open("/proc/self/maps", encoding="utf-8", errors="surrogateescape") as lines:
            paths = {it.split(maxsplit=5)[-1].rstrip("\n") for it in lines if "/libgdal" in it}
        for it in sorted(paths):
            found = ctypes.CDLL(it)
            if all(hasattr(found, name) for name in ("CPLHTTPPushFetchCallback", "CPLHTTPPopFetchCallback", "VSICalloc", "VSIStrdup")):
                for name in ("VSICalloc", "VSIStrdup"):
                    getattr(found, name).restype = ctypes.c_void_p
                return found
    return None


def refusal(found: Any) -> Any:
    """Returns the call by which GDAL gets an error for each URL. GDAL frees what it gets."""

    def refused(*_: Any) -> Any:
        made = found.VSICalloc(ctypes.c_size_t(1), ctypes.c_size_t(ROOM))
        if made:
            result = Result.from_address(made)
            result.status, result.error = 1, found.VSIStrdup(b"a file is read without the network")
        return made

    return CALL(refused)


@contextlib.contextmanager
def offline(is_wanted: bool) -> Iterator[None]:
    """Has GDAL fetch nothing meanwhile, in this thread, where that is wanted."""
    found = library() if is_wanted else None
    call = refusal(found) if found else None
    if found:
        found.CPLHTTPPushFetchCallback(call, None)
    try:
        yield
    finally:
        if found:
            found.CPLHTTPPopFetchCallback()
