"""Geometries, their matrices, and indexes of envelopes, by the calls of `library.py`."""
from __future__ import annotations

import re
from typing import Any, Iterable, NamedTuple, Optional, Sequence, Union

from . import boxes, library, points, texts
from .faults import Fault, FaultError


class Cell(NamedTuple):
    """A cell of a matrix: a part of the first geometry, a part of the second, the dimension of what both share, and what shows it.

    The parts are `interior`, `boundary` and `exterior`. What shows a cell is a point, `at 0 0`, an open stretch by its ends,
    `from 0 0 to 6/5 2/5`, or a point with all points around it, `around 2 2`; nothing shows F. Coordinates are in lowest terms.
    """

    first: str
    second: str
    dimension: str
    shown: str = ""


class Geometry:
    """A geometry by its well-known text: immutable, and the same in sets and dictionaries as one that has the same canonical text.

    A text that is refused makes a Geometry too, whose `fault` says why; only a relation with it raises FaultError. All that asks
    the library raises MemoryError where the system refuses memory, and LibraryError where the library isn't there.
    """

    # The public name, which is in each pickle.
    __module__ = "sfq"
    __slots__ = ("_kept", "_spelled", "_text")
    _kept: library.Kept
    _spelled: str
    _text: Optional[str]

    def __init__(self, text: str) -> None:
        if not isinstance(text, str):
            raise TypeError(f"sfq: a geometry is made of its text, not of {type(text).__name__}; see from_shapely")
        self._set("_spelled", text)
        self._set("_kept", library.Kept(text))
        self._set("_text", None)

    @classmethod
    def from_positions(cls, name: str, positions: Any, lines: Sequence[int] = (), polygons: Sequence[int] = ()) -> Geometry:
        """Returns the geometry of a type, such as "Polygon", with these positions: pairs of whole numbers, or an array of numpy.

        `lines` has how many positions each line or ring has, of MultiLineString, Polygon and MultiPolygon; `polygons` how many
        rings each polygon of a MultiPolygon has. FaultError where it isn't valid, W3 with the number of the position; GridError
        where a coordinate isn't whole; ValueError where the parts don't fit.
        """
        if name not in library.TYPES:
            raise ValueError(f"sfq: a type is one of {', '.join(library.TYPES)}, not {name!r}")
        buffer, count = points.buffer(positions)
        made = cls.__new__(cls)
        made._set("_kept", library.KeptNumbers(name, (buffer, count), lines, polygons))
        made._set("_text", None)
        made._need_valid()
        made._set("_spelled", made._kept.canonical())
        # It is read from its text where a fork has it lost.
        made._kept.text = made._spelled.encode()
        return made

    def _set(self, name: str, value: Any) -> None:
        object.__setattr__(self, name, value)

    def __setattr__(self, name: str, value: Any) -> None:
        raise AttributeError("sfq: a Geometry can't be changed")

    def __delattr__(self, name: str) -> None:
        raise AttributeError("sfq: a Geometry can't be changed")

    def __reduce__(self) -> tuple[type[Geometry], tuple[str]]:
        return type(self), (self._spelled,)

    @property
    def fault(self) -> Optional[Fault]:
        """The first fault of the text, or None of a valid geometry (06-103r4, 6.1.11.1 and 6.1.14 for areas)."""
        return self._kept.fault

    @property
    def reason(self) -> str:
        """`valid`, or the fault and its place: `V3 0: 0 0 to 4 4 and 4 0 to 0 4 share 2 2`, or `W2 at 6` of a text."""
        fault = self.fault
        return fault.place if fault and fault.code[0] == "W" else self._kept.reason()

    @property
    def is_valid(self) -> bool:
        """Whether the text is that of a valid geometry."""
        return self._kept.fault is None

    @property
    def text(self) -> str:
        """The canonical text: `POINT(1 2)`, whatever the blanks, case and signs. Of a refused text itself."""
        if self._text is None:
            self._set("_text", self._kept.canonical() if self.is_valid else self._spelled)
        return self._text or ""

    @property
    def dimension(self) -> int:
        """The dimension of the type: 0 of points, 1 of lines, 2 of areas, also where it is empty (06-103r4, 6.1.2.2: Dimension)."""
        return library.dimension(self._kept)

    @property
    def is_empty(self) -> bool:
        """Whether it is the empty set of points (06-103r4, 6.1.2.2: IsEmpty)."""
        return library.is_empty(self._kept)

    @property
    def bounds(self) -> Optional[tuple[int, int, int, int]]:
        """The least x, the least y, the greatest x and the greatest y, as shapely has them; None where it is empty."""
        found = library.envelope(self._kept)
        return found and (found[0], found[2], found[1], found[3])

    def __str__(self) -> str:
        return self.text

    def __repr__(self) -> str:
        return f"sfq.Geometry({self._spelled!r})"

    def __eq__(self, other: object) -> bool:
        """Whether the canonical texts are the same. Whether the sets of points are is `equals`."""
        if not isinstance(other, Geometry):
            return NotImplemented
        return self.text == other.text

    def __hash__(self) -> int:
        return hash(self.text)

    def _need_valid(self) -> None:
        if self.fault:
            raise FaultError(self.fault)

    @property
    def __geo_interface__(self) -> dict[str, Any]:
        """The type and the coordinates as GeoJSON has them. FaultError of a refused text."""
        self._need_valid()
        name, coordinates = texts.coordinates(self._spelled)
        return {"type": name, "coordinates": coordinates}

    def to_shapely(self) -> Any:
        """Returns the geometry as one of shapely's. FaultError of a refused text, ImportError where shapely isn't there."""
        from shapely import wkt

        self._need_valid()
        return wkt.loads(self.text)

    def relate(self, other: Shape) -> str:
        """Returns the DE-9IM matrix of this geometry and another: nine characters F, 0, 1, 2 (06-103r4, 6.1.15.2)."""
        return library.relate(*_kept_pair(self, other))

    def why(self, other: Shape) -> list[Cell]:
        """Returns the nine cells of the matrix, by rows, each with what shows it (06-103r4, 6.1.15.2)."""
        return [Cell(*line.split(" ", 3)) for line in library.why(*_kept_pair(self, other)).splitlines()]

    def relate_pattern(self, other: Shape, pattern: str) -> bool:
        """Whether the matrix matches a pattern of nine characters T, F, *, 0, 1, 2. ValueError for another pattern."""
        if not re.fullmatch(r"[TtFf*012]{9}", pattern):
            raise ValueError(f"sfq: a pattern is nine characters T, F, *, 0, 1 or 2, not {pattern!r}")
        return all(it == "*" or (it == "T" and cell != "F") or it == cell for it, cell in zip(pattern.upper(), self.relate(other)))

    def locate_many(self, positions: Any) -> Any:
        """Returns where each position lies: 0 in the interior, 1 on the boundary, 2 in the exterior (06-103r4, 6.1.15.2).

        Positions are pairs of whole numbers, and the places a list; or both are arrays of numpy. It is one call of the library.
        GridError where a coordinate isn't whole, ValueError for the first position past the limit.
        """
        buffer, count = points.buffer(positions)
        places, found = points.places(positions, count)
        library.locate_many(self._kept, buffer, count, places)
        return found()

    def _holds(self, name: str, other: Shape) -> bool:
        return library.holds(library.RELATIONS.index(name), *_kept_pair(self, other))

    def equals(self, other: Shape) -> bool:
        """Whether both are the same set of points (06-103r4, 6.1.15.3)."""
        return self._holds("equals", other)

    def disjoint(self, other: Shape) -> bool:
        """Whether they share no point (06-103r4, 6.1.15.3)."""
        return self._holds("disjoint", other)

    def intersects(self, other: Shape) -> bool:
        """Whether they share a point (06-103r4, 6.1.15.3)."""
        return self._holds("intersects", other)

    def touches(self, other: Shape) -> bool:
        """Whether they share a point, and no point of both interiors (06-103r4, 6.1.15.3)."""
        return self._holds("touches", other)

    def crosses(self, other: Shape) -> bool:
        """Whether they cross (06-103r4, 6.1.15.3)."""
        return self._holds("crosses", other)

    def within(self, other: Shape) -> bool:
        """Whether the interiors share a point, and none of this geometry is outside the other (06-103r4, 6.1.15.3)."""
        return self._holds("within", other)

    def contains(self, other: Shape) -> bool:
        """Whether the other geometry is within this one (06-103r4, 6.1.15.3)."""
        return self._holds("contains", other)

    def overlaps(self, other: Shape) -> bool:
        """Whether they overlap (06-103r4, 6.1.15.3)."""
        return self._holds("overlaps", other)

    def covers(self, other: Shape) -> bool:
        """Whether they share a point, and none of the other geometry is outside this one."""
        return self._holds("covers", other)

    def covered_by(self, other: Shape) -> bool:
        """Whether they share a point, and none of this geometry is outside the other."""
        return self._holds("covered_by", other)

    def contains_properly(self, other: Shape) -> bool:
        """Whether they share a point, and all of the other geometry is in the interior of this one."""
        return self._holds("contains_properly", other)


# An envelope as `Geometry.bounds` is: the least x, the least y, the greatest x and the greatest y; None is that of an empty geometry.
Bounds = Optional[tuple[int, int, int, int]]


class Index:
    """An index of envelopes, which finds the positions of those that meet a window: what an STRtree is elsewhere.

    It is made of envelopes as `Geometry.bounds` has them, or of an array of numpy, of n rows of four numbers: of a least x, a least
    y, a greatest x and a greatest y. None, `(0, 0, -1, -1)`, or a row of four NaN is the envelope of an empty geometry. GridError
    where a number isn't whole; ValueError where a least is past a greatest or one past the limit, with the envelope's position. It
    serves one search at a time: threads that search at once wait for each other. At the end of a `with` it is closed.
    """

    __slots__ = ("_count", "_kept")

    def __init__(self, envelopes: Union[Iterable[Bounds], Any]) -> None:
        buffer, self._count = boxes.buffer(envelopes)
        self._kept = library.KeptIndex(buffer, self._count)

    def __len__(self) -> int:
        """How many envelopes it was made of."""
        return self._count

    def search(self, window: Bounds) -> list[int]:
        """Returns the positions, from 0 and ascending, of the envelopes that share a point with the window, be it on their sides.

        The window None finds the envelopes of empty geometries, and no other window does. ValueError once it is closed.
        """
        return self._kept.search(boxes.window(window))

    def close(self) -> None:
        """Gives back the memory. Closing it again does nothing."""
        self._kept.close()

    def __enter__(self) -> Index:
        return self

    def __exit__(self, *_error: object) -> None:
        self.close()


Shape = Union[Geometry, str]


def _geometry(shape: Shape) -> Geometry:
    return shape if isinstance(shape, Geometry) else Geometry(shape)


def _kept_pair(first: Shape, second: Shape) -> tuple[library.Kept, library.Kept]:
    """Returns what the library needs of two geometries, which raises FaultError for the first that is refused."""
    return _geometry(first)._kept, _geometry(second)._kept


def relate(first: Shape, second: Shape) -> str:
    """Returns the DE-9IM matrix of two geometries or texts: nine characters F, 0, 1, 2 (06-103r4, 6.1.15.2)."""
    return library.relate(*_kept_pair(first, second))


def relate_many(first: Union[Iterable[Shape], Any], second: Union[Iterable[Shape], Shape]) -> list[str]:
    """Returns the matrix of each pair: of the first of both, the second of both, and so on.

    `first` may be an array of numpy, of n rows of two numbers: these are points. `second` may be one geometry, which is then that of
    each pair. It is one call of the library for all pairs, beside the reading of texts that weren't read before. ValueError where
    one has more than the other; FaultError for the first pair that is refused, with its place from 0 in `index`.
    """
    if points.numpy_of(first):
        buffer, count = points.buffer(first)
        return library.relate_points(buffer, _others(second, count))
    ones = [_geometry(it)._kept for it in first]
    return library.relate_many(list(zip(ones, _others(second, len(ones)))))


def _others(second: Union[Iterable[Shape], Shape], count: int) -> list[library.Kept]:
    """Returns what the library needs of the second geometries of so many pairs, which may be one for all."""
    if isinstance(second, (Geometry, str)):
        return [_geometry(second)._kept] * count
    others = [_geometry(it)._kept for it in second]
    if len(others) != count:
        raise ValueError(f"sfq: {count} geometries with {len(others)}: both have to have as many")
    return others


def from_shapely(shape: Any) -> Geometry:
    """Returns the geometry of one of shapely's, or of anything with `__geo_interface__`; shapely itself isn't needed.

    GridError where a coordinate isn't whole, where there is a Z, and for collections of several types. Nothing is rounded.
    """
    return Geometry(texts.of_interface(shape))


def of_canonical(text: str) -> Geometry:
    """Returns the geometry of a canonical text."""
    made = Geometry(text)
    made._set("_text", text)
    return made
