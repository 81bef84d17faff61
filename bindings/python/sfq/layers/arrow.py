"""The structs of Arrow's interface in C, in which GDAL gives batches of columns, and takes them. None of it is proved."""
import ctypes


class CSchema(ctypes.Structure):
    """The struct ArrowSchema."""


CSchema._fields_ = [
    ("format", ctypes.c_char_p), ("name", ctypes.c_char_p), ("metadata", ctypes.c_void_p), ("flags", ctypes.c_int64), ("count", ctypes.c_int64),
    ("children", ctypes.POINTER(ctypes.POINTER(CSchema))), ("dictionary", ctypes.c_void_p), ("release", ctypes.c_void_p), ("own", ctypes.c_void_p),
]


class CArray(ctypes.Structure):
    """The struct ArrowArray."""


CArray._fields_ = [
    *((it, ctypes.c_int64) for it in ("length", "nulls", "offset", "buffer_count", "count")),
    ("buffers", ctypes.POINTER(ctypes.c_void_p)), ("children", ctypes.POINTER(ctypes.POINTER(CArray))), ("dictionary", ctypes.c_void_p),
    ("release", ctypes.c_void_p), ("own", ctypes.c_void_p),
]
