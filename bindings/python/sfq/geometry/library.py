"""The border to the C library libsfq, by ctypes: what the library's calls change to changes this file alone.

The proof ends at the calls of the crate sfq_c: the matrix is that of the sets of points of the two texts, the fault is the first
one. sfq.h says what the library's calls return, which sfq.c makes of them, without a proof. Not proved either is what is here: a text is handed over as its bytes and their number, which ctypes keeps until the call returns, and
each thing that a call writes is a variable of the call's own. A geometry or an index that the library keeps serves one call at a
time, by a lock of its own, which knows the process (`forks.py`), and is freed when Python has no use for it any more.
"""
from __future__ import annotations

import ctypes
import functools
import operator
import os
import threading
from array import array
from typing import Any, Callable, Iterator, Optional, Sequence

from . import apart
from .faults import Fault, FaultError, LibraryError, PositionFault
from .forks import Held, alone

OK, REFUSED, OUT_OF_MEMORY, UNKNOWN, TOO_SMALL, NONE = 0, 1, 3, 4, 5, 6
# How much one call takes of values, of geometries of a join and of pairs, so that Ctrl-C need not wait for all.
AT_ONCE, JOINED_AT_ONCE, PAIRS_AT_ONCE = 20_000, 1_000, 65_536
# From how many pairs of positions on it is shown in a process of its own why a matrix is what it is, and how much memory that may take.
MANY_PAIRS, WHY_BYTES = 10_000, 1 << 30
# The types, by the numbers of sfq_type.
TYPES = ("Point", "LineString", "Polygon", "MultiPoint", "MultiLineString", "MultiPolygon")
# The relations, by the numbers of sfq_relation.
RELATIONS = (
    "equals", "disjoint", "intersects", "touches", "crosses", "within", "contains", "overlaps",
    "covers", "covered_by", "contains_properly",
)
NAME = "libsfq.so.0"
# The greatest number of a size_t: ctypes would cut a greater one.
MOST_SIZE = ctypes.c_size_t(-1).value


class CFault(ctypes.Structure):
    """The struct sfq_fault."""

    _fields_ = [
        ("letter", ctypes.c_uint8), ("number", ctypes.c_uint8), ("first", ctypes.c_size_t), ("second", ctypes.c_size_t),
    ]

    def read(self, kind: type[Fault] = Fault) -> Fault:
        return kind(f"{chr(self.letter)}{self.number}", self.first, self.second)


def places(name: str = NAME) -> tuple[str, ...]:
    """Returns where a library is looked for: in the folder of SFQ_LIBRARY alone if it is set, else in this package, in its prefix, in
    its checkout, in the system."""
    named = os.environ.get("SFQ_LIBRARY")
    if named:
        return (named if name == NAME else os.path.join(os.path.dirname(named), name),)
    # A wheel has it in the package. The package is in lib/python3.N/site-packages of a prefix, in share/sfq, or in bindings/python of a
    # checkout, where ./build --library leaves the library in bindings/c/out.
    here = os.path.dirname(os.path.dirname(os.path.abspath(__file__)))
    above = os.path.normpath(os.path.join(here, *[os.pardir] * 3))
    return (os.path.join(here, name), os.path.join(above, name), os.path.join(above, "lib", name), os.path.join(above, "bindings", "c", "out", name), name)


def load(name: str, declares: Callable[[ctypes.CDLL], ctypes.CDLL]) -> ctypes.CDLL:
    """Loads a library, and declares its calls. LibraryError where none is there, or it lacks a call."""
    tried = []
    for place in places(name):
        try:
            return declares(ctypes.CDLL(place, use_errno=True))
        except OSError as error:
            tried.append(str(error))
        except AttributeError as error:
            tried.append(f"{place} isn't the library that this package needs: {error}")
    path = "its path" if name == NAME else f"the path of {NAME} beside it"
    raise LibraryError(f"sfq: no {name}: {remedy()}, or set SFQ_LIBRARY to {path} ({'; '.join(tried)})")


def remedy() -> str:
    """Returns the command by which the libraries come where this package looks for them."""
    build = os.path.normpath(os.path.join(os.path.dirname(os.path.abspath(__file__)), *[os.pardir] * 4, "build"))
    return f"build it by `{build} --library`" if os.path.isfile(build) else "install it by `./build --library` and `./build --install PREFIX`"


@functools.lru_cache(maxsize=None)
def library() -> ctypes.CDLL:
    """Loads libsfq, the first time that it is needed."""
    return load(NAME, declare)


class CGeometry(ctypes.Structure):
    """The struct sfq_geometry: empty, or one that the library keeps."""

    _fields_ = [("kept", ctypes.c_void_p)]


class CIndex(ctypes.Structure):
    """The struct sfq_index: empty, or one that the library keeps."""

    _fields_ = [("kept", ctypes.c_void_p)]


class CGrid(ctypes.Structure):
    """The struct sfq_grid."""

    _fields_ = [(it, ctypes.c_int64) for it in ("step", "origin_x", "origin_y", "parts")]


class CShift(ctypes.Structure):
    """The struct sfq_shift: what rounding did."""

    _fields_ = [
        ("positions", ctypes.c_size_t), ("moved", ctypes.c_size_t), ("merged", ctypes.c_size_t), ("greatest", ctypes.c_double),
    ]


class CPieces(ctypes.Structure):
    """The struct sfq_pieces: what a value of well-known binary has, and the rooms for it."""

    _fields_ = [
        *((it, ctypes.c_void_p) for it in ("coordinates", "lines", "elements")),
        *((it, ctypes.c_size_t) for it in ("most_positions", "most_lines", "most_elements", "positions", "line_count", "element_count")),
        ("type", ctypes.c_uint32), ("steps", ctypes.c_void_p),
    ]


def declare(found: ctypes.CDLL) -> ctypes.CDLL:
    """Declares the calls, as sfq.h does."""
    geometry, fault = ctypes.POINTER(CGeometry), ctypes.POINTER(CFault)
    found.sfq_read.argtypes = [ctypes.c_char_p, ctypes.c_size_t, geometry, fault]
    found.sfq_check.argtypes = [ctypes.c_char_p, ctypes.c_size_t, fault]
    sizes, count = ctypes.POINTER(ctypes.c_size_t), ctypes.c_size_t
    found.sfq_read_positions.argtypes = [ctypes.c_uint32, ctypes.c_void_p, count, sizes, count, sizes, count, geometry, fault]
    found.sfq_relate_many.argtypes = [ctypes.c_void_p, ctypes.c_void_p, count, ctypes.c_char_p, sizes]
    found.sfq_dimension.argtypes = [geometry, ctypes.POINTER(ctypes.c_uint32)]
    found.sfq_is_empty.argtypes = [geometry, ctypes.POINTER(ctypes.c_bool)]
    found.sfq_envelope.argtypes = [geometry, ctypes.c_int32 * 4]
    found.sfq_relate_points.argtypes = found.sfq_relate_many.argtypes[:]
    found.sfq_locate_many.argtypes = [geometry, ctypes.c_void_p, count, ctypes.c_void_p, sizes]
    found.sfq_relate.argtypes = [geometry, geometry, ctypes.c_char * 10]
    found.sfq_holds.argtypes = [ctypes.c_uint32, geometry, geometry, ctypes.POINTER(ctypes.c_bool)]
    found.sfq_text.argtypes = [geometry, ctypes.c_char_p, ctypes.c_size_t, ctypes.POINTER(ctypes.c_size_t)]
    room: list[Any] = [ctypes.c_char_p, ctypes.c_size_t, ctypes.POINTER(ctypes.c_size_t)]
    found.sfq_why.argtypes = [geometry, geometry] + room
    found.sfq_reason.argtypes = [ctypes.c_char_p, ctypes.c_size_t] + room + [fault]
    found.sfq_free.argtypes, found.sfq_free.restype = [geometry], None
    for name in ("check", "read", "read_positions", "relate", "relate_many", "relate_points", "holds", "text", "locate_many", "dimension",
                 "is_empty", "envelope", "why", "reason"):
        getattr(found, f"sfq_{name}").restype = ctypes.c_int
    return declare_many(declare_indexes(found))


def declare_many(found: ctypes.CDLL) -> ctypes.CDLL:
    """Declares the calls over many geometries. Arrays are pointers to their first item."""
    many, count, number = ctypes.c_void_p, ctypes.c_size_t, ctypes.c_uint32
    found.sfq_read_binaries.argtypes = [ctypes.POINTER(CGrid), ctypes.c_void_p, many, count, many, many, many, many, many]
    found.sfq_binaries_extent.argtypes = [ctypes.c_void_p, many, count, ctypes.c_double * 4]
    found.sfq_take_apart.argtypes = [ctypes.POINTER(CGrid), ctypes.c_void_p, count, ctypes.POINTER(CPieces), ctypes.POINTER(CFault)]
    found.sfq_round.argtypes = [ctypes.POINTER(CGrid), many, count, many, ctypes.POINTER(count)]
    found.sfq_free_many.argtypes, found.sfq_free_many.restype = [many, count], None
    found.sfq_holds_many.argtypes = [number, many, many, count, many, many]
    found.sfq_index_geometries.argtypes = [many, count, ctypes.POINTER(CIndex)]
    found.sfq_join.argtypes = [number, many, many, count, many, count, ctypes.POINTER(CIndex), many, count, many]
    found.sfq_index_points.argtypes = [many, count, ctypes.POINTER(CIndex), ctypes.POINTER(count)]
    found.sfq_join_points.argtypes = [number, many, many, count, many, ctypes.POINTER(CIndex), many, count, many]
    for name in ("read_binaries", "binaries_extent", "take_apart", "round", "holds_many", "index_geometries", "join", "index_points", "join_points"):
        getattr(found, f"sfq_{name}").restype = ctypes.c_int
    return found


def declare_indexes(found: ctypes.CDLL) -> ctypes.CDLL:
    """Declares the calls over indexes."""
    index, count = ctypes.POINTER(CIndex), ctypes.POINTER(ctypes.c_size_t)
    found.sfq_index_build.argtypes = [ctypes.c_void_p, ctypes.c_size_t, index, count]
    found.sfq_index_search.argtypes = [index, ctypes.c_int32 * 4, ctypes.c_void_p, ctypes.c_size_t, count]
    found.sfq_index_free.argtypes, found.sfq_index_free.restype = [index], None
    found.sfq_index_build.restype = found.sfq_index_search.restype = ctypes.c_int
    return found


class Kept(Held):
    """What the library keeps of a geometry: nothing until it is needed, and nothing of a text that is refused.

    What is lost by a fork is read again.
    """

    __slots__ = ("text", "geometry", "_found")
    FAULT = Fault

    def __init__(self, text: str) -> None:
        super().__init__()
        # A text with half a surrogate pair isn't UTF-8, and is refused as any other text.
        self.text, self.geometry = text.encode("utf-8", "surrogatepass"), CGeometry()
        self._found: Optional[tuple[Optional[Fault]]] = None

    def __del__(self) -> None:
        if self.geometry.kept is not None and not self.is_lost:
            library().sfq_free(ctypes.byref(self.geometry))

    @property
    def fault(self) -> Optional[Fault]:
        """The text's first fault, or None; it is read once."""
        found = self._found
        if found is None:
            found = self.alone(self._find)
        return found[0]

    def _find(self) -> tuple[Optional[Fault]]:
        if self._found is None:
            fault = CFault()
            self._found = (fault.read(self.FAULT) if is_refused(self._read(ctypes.byref(fault))) else None,)
        return self._found

    def renew(self) -> None:
        """Reads the text again: the geometry that was lost isn't used any more."""
        self.geometry, self._found = CGeometry(), None
        self._find()

    def _read(self, fault: Any) -> int:
        return int(library().sfq_read(self.text, len(self.text), ctypes.byref(self.geometry), fault))

    def most_positions(self) -> int:
        """Returns a number of positions that it hasn't more of."""
        return self.text.count(b",") + 1

    def canonical(self) -> str:
        """Returns the canonical text of a valid geometry."""
        return self.alone(lambda: handed_out(lambda *room: library().sfq_text(ctypes.byref(self.geometry), *room)))

    def reason(self) -> str:
        """Returns the line that says whether the geometry is valid, and where not. The text has to spell a geometry."""
        return handed_out(lambda *room: library().sfq_reason(self.text, len(self.text), *room, None)).rstrip("\n")


def handed_out(call: Callable[..., int], size: int = 0) -> str:
    """Returns the text that a call of the library writes into a room of some size, or else of the size that the call says."""
    length = ctypes.c_size_t(size)
    room: Optional[ctypes.Array[ctypes.c_char]] = ctypes.create_string_buffer(size) if size else None
    while is_refused(call(room, length.value, ctypes.byref(length))):
        room = ctypes.create_string_buffer(length.value)
    return room.raw[:length.value].decode("ascii") if room else ""


def other_parts() -> ValueError:
    """Returns the error of parts that don't fit the positions."""
    return ValueError("sfq: the parts don't have these positions, or the type has no such parts")


def sizes_of(parts: Sequence[int]) -> tuple[Any, int]:
    """Returns how many positions or rings each part has, as the library takes them, and how many there are. ValueError for no such number."""
    sizes = [operator.index(it) for it in parts]
    if not all(0 <= it <= MOST_SIZE for it in sizes):
        raise other_parts()
    return (ctypes.c_size_t * len(sizes))(*sizes), len(sizes)


class KeptNumbers(Kept):
    """What the library keeps of a geometry from numbers: a type, coordinates, and how many positions or rings each part has.

    The coordinates are a buffer of 32-bit numbers, an x and a y for each position.
    """

    __slots__ = ("numbers",)
    FAULT = PositionFault

    def __init__(self, name: str, coordinates: tuple[Any, int], lines: Sequence[int], polygons: Sequence[int]) -> None:
        super().__init__("")
        self.numbers: Any = (TYPES.index(name) + 1, coordinates, sizes_of(lines), sizes_of(polygons))

    def _read(self, fault: Any) -> int:
        if self.numbers is None:
            return super()._read(fault)
        number, coordinates, lines, polygons = self.numbers
        status = int(library().sfq_read_positions(number, *coordinates, *lines, *polygons, ctypes.byref(self.geometry), fault))
        if status == UNKNOWN:
            raise other_parts()
        self.numbers = None
        return status

    def reason(self) -> str:
        """Returns the line of a geometry that is valid: none is kept that isn't."""
        return "valid"


def is_refused(status: int) -> bool:
    """Whether the status refuses a text, or a room. MemoryError where memory was refused."""
    if status == OUT_OF_MEMORY:
        raise MemoryError("sfq: out of memory")
    return status != OK


def need_valid(first: Kept, second: Kept, index: Optional[int] = None) -> None:
    """FaultError for the first of two geometries that is refused, with the pair's place in a list."""
    for kept, which in ((first, "first"), (second, "second")):
        if kept.fault:
            raise FaultError(kept.fault, which, index)


def ask(first: Kept, second: Kept, call: Callable[..., int], *words: Any) -> None:
    """Calls the library with two geometries. FaultError for the first that is refused."""
    need_valid(first, second)
    need_ok(alone((first, second), lambda: call(*words[:-1], ctypes.byref(first.geometry), ctypes.byref(second.geometry), words[-1])))


def need_ok(status: int) -> None:
    if is_refused(status):
        raise LibraryError(f"sfq: the library returned the status {status}, which is none of this call")


def relate_many(pairs: Sequence[tuple[Kept, Kept]]) -> list[str]:
    """Returns the matrix of each pair of geometries, by one call. FaultError for the first pair that has a refused one."""
    for index, pair in enumerate(pairs):
        need_valid(pair[0], pair[1], index)
    count = len(pairs)

    def call() -> list[str]:
        firsts, seconds = ((ctypes.c_void_p * count)(*(ctypes.addressof(it[side].geometry) for it in pairs)) for side in (0, 1))
        return relate_addresses(firsts, seconds, count)

    return alone((kept for pair in pairs for kept in pair), call)


def relate_points(coordinates: Any, others: Sequence[Kept]) -> list[str]:
    """Returns the matrix of each point and geometry, by one call. FaultError for the first refused geometry, else for the first point."""
    for index, kept in enumerate(others):
        if kept.fault:
            raise FaultError(kept.fault, "second", index)
    count = len(others)
    room, done = ctypes.create_string_buffer(9 * count + 1), ctypes.c_size_t()

    def call() -> int:
        side = (ctypes.c_void_p * count)(*(ctypes.addressof(it.geometry) for it in others))
        return int(library().sfq_relate_points(coordinates, side, count, room, ctypes.byref(done)))

    status = alone(others, call)
    if status == REFUSED:
        raise FaultError(PositionFault("W3", 0, 0), "first", done.value)
    need_ok(status)
    return matrices(room, count)


def matrices(room: ctypes.Array[ctypes.c_char], count: int) -> list[str]:
    text = room.raw.decode("ascii")
    return [text[at:at + 9] for at in range(0, 9 * count, 9)]


def locate_many(kept: Kept, coordinates: Any, count: int, places: Any) -> None:
    """Writes the place of each position. ValueError for the first that is past the limit, FaultError of a refused geometry."""
    if kept.fault:
        raise FaultError(kept.fault)
    done = ctypes.c_size_t()
    status = kept.alone(lambda: int(library().sfq_locate_many(ctypes.byref(kept.geometry), coordinates, count, places, ctypes.byref(done))))
    if status == UNKNOWN:
        raise ValueError(f"sfq: position {done.value} is past 10,000,000 either way: scale the coordinates to the grid")
    need_ok(status)


def ask_one(kept: Kept, call: Callable[..., int], found: Any) -> int:
    """Calls the library with one geometry. FaultError where it is refused."""
    if kept.fault:
        raise FaultError(kept.fault)
    return kept.alone(lambda: call(ctypes.byref(kept.geometry), found))


def dimension(kept: Kept) -> int:
    found = ctypes.c_uint32()
    need_ok(ask_one(kept, library().sfq_dimension, ctypes.byref(found)))
    return found.value


def is_empty(kept: Kept) -> bool:
    found = ctypes.c_bool()
    need_ok(ask_one(kept, library().sfq_is_empty, ctypes.byref(found)))
    return found.value


def envelope(kept: Kept) -> Optional[tuple[int, int, int, int]]:
    """Returns the least x, the greatest x, the least y and the greatest y; None where there are none."""
    found = (ctypes.c_int32 * 4)()
    status = ask_one(kept, library().sfq_envelope, found)
    if status == NONE:
        return None
    need_ok(status)
    return found[0], found[1], found[2], found[3]


def relate(first: Kept, second: Kept) -> str:
    """Returns the matrix, nine characters."""
    matrix = (ctypes.c_char * 10)()
    ask(first, second, library().sfq_relate, matrix)
    return matrix.value.decode("ascii")


def holds(relation: int, first: Kept, second: Kept) -> bool:
    """Whether the relation of this number holds."""
    answer = ctypes.c_bool()
    ask(first, second, library().sfq_holds, relation, ctypes.byref(answer))
    return answer.value


def why(first: Kept, second: Kept) -> str:
    """Returns the nine lines that show the cells of the matrix. Those of large geometries are made in a process of their own."""
    need_valid(first, second)
    return alone((first, second), lambda: bounded_why(first.geometry, second.geometry, first.most_positions() * second.most_positions()))


def bounded_why(one: CGeometry, two: CGeometry, most_pairs: int) -> str:
    """Returns the nine lines, of geometries that have not more than so many pairs of positions. MemoryError where they take more than WHY_BYTES."""
    if most_pairs < MANY_PAIRS:
        return lines_of_why(one, two)
    return apart.text_of(lambda: lines_of_why(one, two), WHY_BYTES)


def lines_of_why(one: CGeometry, two: CGeometry) -> str:
    """Returns the nine lines. Nearly always there is room for them at once: to ask for their size takes as long as to make them."""
    return handed_out(lambda *room: library().sfq_why(ctypes.byref(one), ctypes.byref(two), *room), 4_096)


class KeptIndex(Held):
    """What the library keeps of an index of envelopes, until it is closed.

    The bounds are a buffer of 32-bit numbers, four for each envelope. The room for what a search finds grows with it. ValueError where
    it is lost by a fork.
    """

    __slots__ = ("index", "room")

    def __init__(self, bounds: Any, count: int) -> None:
        super().__init__()
        self.index, self.room = CIndex(), (ctypes.c_size_t * 64)()
        position = ctypes.c_size_t()
        status = library().sfq_index_build(bounds, count, ctypes.byref(self.index), ctypes.byref(position))
        if status == UNKNOWN:
            raise ValueError(
                f"sfq: the envelope at {position.value} has a least bound past its greatest, or one past 10,000,000 either way"
            )
        need_ok(status)

    def __del__(self) -> None:
        self.close()

    def close(self) -> None:
        """Frees the index. Closing it again does nothing."""
        if not self.is_lost:
            self.alone(self._free)

    def _free(self) -> None:
        if self.index.kept is not None:
            library().sfq_index_free(ctypes.byref(self.index))

    def renew(self) -> None:
        raise ValueError("sfq: another thread was searching this index when the process was forked: make it anew")

    def search(self, window: Any) -> list[int]:
        """Returns the positions, ascending, of the envelopes that meet a window. ValueError where it is no window, or all is closed."""
        return self.alone(functools.partial(self._search, window))

    def _search(self, window: Any) -> list[int]:
        if self.index.kept is None:
            raise ValueError("sfq: the index is closed")
        found = ctypes.c_size_t()
        status = self._ask(window, found)
        if status == TOO_SMALL:
            self.room = (ctypes.c_size_t * found.value)()
            status = self._ask(window, found)
        if status == UNKNOWN:
            raise ValueError("sfq: the window has a least bound past its greatest, or one past 10,000,000 either way")
        need_ok(status)
        return self.room[:found.value]

    def _ask(self, window: Any, found: Any) -> int:
        index = ctypes.byref(self.index)
        return int(library().sfq_index_search(index, window, self.room, len(self.room), ctypes.byref(found)))


class Binaries:
    """Geometries in well-known binary, in their order: no bytes for one that is missing."""

    def __init__(self, each: Sequence[bytes]) -> None:
        self.each = each

    def __len__(self) -> int:
        return len(self.each)

    def __getitem__(self, place: int) -> bytes:
        return self.each[place]

    def part(self, first: int, end: int) -> tuple[Any, Any]:
        """Returns those from one place to before another as the library takes them: their bytes in a row, and the length of each."""
        each = self.each[first:end]
        return b"".join(each), (ctypes.c_size_t * len(each))(*map(len, each))

    def extent(self) -> Optional[tuple[float, float, float, float]]:
        """Returns the least x, the greatest x, the least y and the greatest y of their positions, None where there are none."""
        found, (data, lengths) = (ctypes.c_double * 4)(), self.part(0, len(self))
        status = library().sfq_binaries_extent(data, lengths, len(self), found)
        if status == NONE:
            return None
        need_ok(status)
        return found[0], found[1], found[2], found[3]


class Rooms:
    """What well-known binary has: the library takes it apart. The next value overwrites the last one's pieces."""

    __slots__ = ("pieces", "given", "call", "coordinates", "steps", "lines", "elements", "xs", "ys", "ns", "ms")

    def __init__(self) -> None:
        self.pieces = CPieces()
        self.call, self.given = library().sfq_take_apart, ctypes.byref(self.pieces)
        self.grow(2_048, 256, 256)

    def grow(self, positions: int, lines: int, elements: int) -> None:
        """Makes the rooms for so many positions, lines and elements."""
        its = self.pieces
        self.coordinates, self.steps = (ctypes.c_double * (2 * positions))(), (ctypes.c_int32 * (2 * positions))()
        self.lines, self.elements = (ctypes.c_size_t * lines)(), (ctypes.c_size_t * elements)()
        doubles: Any = memoryview(self.coordinates).cast("B").cast("d")
        wholes: Any = memoryview(self.steps).cast("B").cast("i")
        # The doubles and the steps of each axis.
        self.xs, self.ys, self.ns, self.ms = doubles[::2], doubles[1::2], wholes[::2], wholes[1::2]
        its.most_positions, its.most_lines, its.most_elements = positions, lines, elements
        its.coordinates, its.steps = ctypes.addressof(self.coordinates), ctypes.addressof(self.steps)
        its.lines, its.elements = ctypes.addressof(self.lines), ctypes.addressof(self.elements)

    def take_apart(self, binary: bytes, grid: Any) -> int:
        """Takes a value apart, and rounds its positions to a grid. Returns the status. The pieces say how much there is in which room."""
        its = self.pieces
        status = int(self.call(grid, binary, len(binary), self.given, None))
        if status == TOO_SMALL:
            self.grow(*(2 * it for it in (its.positions, its.line_count, its.element_count)))
            status = int(self.call(grid, binary, len(binary), self.given, None))
        if status == OUT_OF_MEMORY:
            raise MemoryError("sfq: out of memory")
        return status


class OfThread(threading.local):
    """The rooms of each thread."""

    def __init__(self) -> None:
        self.rooms = Rooms()


@functools.lru_cache(maxsize=None)
def of_thread() -> OfThread:
    """Returns what has the rooms of this thread, made when they are first needed."""
    return OfThread()


def grid_of(step: int, x: int, y: int, parts: int) -> Any:
    """Returns a grid as calls take it."""
    return ctypes.byref(CGrid(step, x, y, parts))


def rounded(grid: Any, numbers: array[float]) -> Optional[array[int]]:
    """Returns the steps of a grid that are nearest to positions, an x and a y each; None where a number is infinite or none."""
    found = array("i", bytes(4 * len(numbers)))
    return found if are_rounded(grid, numbers.buffer_info()[0], len(numbers) // 2, found.buffer_info()[0]) else None


def are_rounded(grid: Any, numbers: int, positions: int, steps: int) -> bool:
    """Writes the steps of a grid that are nearest to positions, by the addresses of both; False where a number is infinite or none."""
    status = library().sfq_round(grid, numbers, positions, steps, None)
    if status == REFUSED:
        return False
    need_ok(status)
    return True


class KeptMany:
    """What the library keeps of geometries in well-known binary, in their order: nothing of one that has no bytes or is refused.

    The grid is a step, an origin and the parts of the unit that they count, or None for whole numbers. They are handed to one call at
    a time by whoever made them, so there is no lock.
    """

    __slots__ = ("count", "geometries", "statuses", "faults", "shift", "_index")

    def __init__(self, binaries: Binaries, grid: Optional[tuple[int, int, int, int]]) -> None:
        self.count, self._index, self.shift = 0, CIndex(), CShift()
        library()
        self.count = len(binaries)
        self.geometries, self.statuses = (CGeometry * self.count)(), (ctypes.c_uint32 * self.count)()
        self.faults, of_grid = (CFault * self.count)(), ctypes.byref(CGrid(*grid)) if grid else None
        for at in range(0, self.count, AT_ONCE):
            self._read(binaries, at, min(at + AT_ONCE, self.count), of_grid)

    def _read(self, binaries: Binaries, at: int, end: int, grid: Any) -> None:
        (data, lengths), done = binaries.part(at, end), ctypes.c_size_t()
        arrays: tuple[Any, ...] = (self.geometries, self.statuses, self.faults)
        places = (ctypes.addressof(it) + at * ctypes.sizeof(it._type_) for it in arrays)
        need_ok(library().sfq_read_binaries(
            grid, data, lengths, end - at, *places, ctypes.addressof(self.shift), ctypes.addressof(done)
        ))

    def __del__(self) -> None:
        if self.count:
            library().sfq_index_free(ctypes.byref(self._index))
            library().sfq_free_many(self.geometries, self.count)

    def address(self, place: int) -> int:
        """Returns where the geometry at a place is."""
        return ctypes.addressof(self.geometries) + place * ctypes.sizeof(CGeometry)

    def fault(self, place: int) -> Fault:
        """Returns the fault of the geometry at a place, which is refused."""
        return self.faults[place].read(PositionFault)

    def index(self) -> CIndex:
        """Returns the index of the envelopes, made when it is first needed."""
        if self._index.kept is None:
            need_ok(library().sfq_index_geometries(self.geometries, self.count, ctypes.byref(self._index)))
        return self._index


class PlacedPoints:
    """Points that aren't kept, by the address of 32-bit numbers, an x and a y each, and an index of them. `owner` has the numbers."""

    __slots__ = ("owner", "address", "count", "_index")

    def __init__(self, owner: Any, address: int, count: int) -> None:
        self.owner, self.address, self.count, self._index = owner, address, count, CIndex()

    def __del__(self) -> None:
        if self._index.kept is not None:
            library().sfq_index_free(ctypes.byref(self._index))

    def index(self) -> CIndex:
        """Returns the index of the points, made when it is first needed."""
        if self._index.kept is None:
            need_ok(library().sfq_index_points(self.address, self.count, ctypes.byref(self._index), None))
        return self._index


def joined(relation: int, first: KeptMany, second: KeptMany) -> Iterator[tuple[Any, int]]:
    """Yields rooms of pairs of which the relation of this number holds, and how many pairs each has: the places of both, ascending."""
    call, index = library().sfq_join, ctypes.byref(second.index())
    return rooms_of_pairs(
        first.count, second.count,
        lambda at, end, *room: call(relation, first.geometries, at, end, second.geometries, second.count, index, *room),
    )


def joined_points(relation: int, first: KeptMany, second: PlacedPoints) -> Iterator[tuple[Any, int]]:
    """Yields rooms of pairs of a geometry and a point, as `joined` does. The relation is one that the point's place decides."""
    call, index = library().sfq_join_points, ctypes.byref(second.index())
    return rooms_of_pairs(
        first.count, second.count, lambda at, end, *room: call(relation, first.geometries, at, end, second.address, index, *room)
    )


def rooms_of_pairs(count: int, second_count: int, call: Callable[..., int]) -> Iterator[tuple[Any, int]]:
    """Yields rooms of pairs, and how many pairs each has, by a call that goes on from a place up to an end."""
    at, pairs, size, at_once = ctypes.c_size_t(), ctypes.c_size_t(), PAIRS_AT_ONCE, JOINED_AT_ONCE
    places = [ctypes.addressof(it) for it in (at, pairs)]
    room = (ctypes.c_size_t * (2 * size))()
    while at.value < count:
        status = call(places[0], min(at.value + at_once, count), room, size, places[1])
        if status == TOO_SMALL:
            # One geometry may have as many pairs as there are others.
            size, at_once = second_count, 1
            room = (ctypes.c_size_t * (2 * size))()
            continue
        need_ok(status)
        at_once = 1 if pairs.value > PAIRS_AT_ONCE else min(2 * at_once, JOINED_AT_ONCE)
        yield room, pairs.value


def holds_many(relation: int, firsts: Any, seconds: Any, count: int, answers: Any) -> None:
    """Writes whether the relation of this number holds of each pair, by the addresses of both geometries."""
    done = ctypes.c_size_t()
    need_ok(library().sfq_holds_many(relation, firsts, seconds, count, answers, ctypes.addressof(done)))


def relate_addresses(firsts: Any, seconds: Any, count: int) -> list[str]:
    """Returns the matrix of each pair, by the addresses of both geometries."""
    room, done = ctypes.create_string_buffer(9 * count + 1), ctypes.c_size_t()
    need_ok(library().sfq_relate_many(firsts, seconds, count, room, ctypes.byref(done)))
    return matrices(room, count)


def why_addresses(first: int, second: int, most_pairs: int) -> str:
    """Returns the nine lines that show the cells of the matrix, by the addresses of both geometries."""
    return bounded_why(CGeometry.from_address(first), CGeometry.from_address(second), most_pairs)
