"""Coordinates and canonical texts of geometries, for Python's own use: none of it is proved.

A text that is taken apart here was accepted by the library first, so it is well-known text of a valid geometry.
"""
from __future__ import annotations

import numbers
import re
from typing import Any

from .faults import GridError

# The six types, by the names that GeoJSON has for them, with how deep a position is in their coordinates.
TYPES = {
    "Point": 0, "MultiPoint": 1, "LineString": 1, "MultiLineString": 2, "Polygon": 2, "MultiPolygon": 3,
}
OF_WORD = {it.upper(): it for it in TYPES}
# Words, signs and what is between them. A whole number that a coordinate can be: its sign, and its digits without zeros in front.
WORDS = re.compile(r"[A-Za-z]+|[(),]|[^ \t\r\n(),A-Za-z]+")
WHOLE = re.compile(r"([+-]?)(?=\.?[0-9])0*([0-9]{0,8})(?:\.0*)?")
# Positions, or such parts, as GeoJSON nests them.
Parts = tuple[Any, ...]


def number(word: str) -> int:
    """Returns the value of a number that is whole: a sign or none, digits, and zeros after a point. ValueError for another word."""
    found = WHOLE.fullmatch(word)
    if not found:
        raise ValueError(f"{word[:60]!r} isn't a whole number that a coordinate can be")
    return int(found[1] + (found[2] or "0"))


def nested(words: list[str], at: int, depth: int, is_multi_point: bool = False) -> tuple[Parts, int]:
    """Returns what the parenthesis at this place opens, as tuples with positions so deep, and the place after it. ValueError for none.

    Each point of a MULTIPOINT may be in parentheses of its own.
    """
    found: list[Any] = []
    sign = "," if words[at] == "(" else ""
    while sign == ",":
        part: Any
        if depth > 1:
            part, at = nested(words, at + 1, depth - 1)
        elif is_multi_point and words[at + 1] == "(":
            (part,), at = nested(words, at + 1, 1)
        else:
            part, at = (number(words[at + 1]), number(words[at + 2])), at + 3
        found.append(part)
        sign = words[at]
    if sign != ")":
        raise ValueError("a parenthesis is missing")
    return tuple(found), at + 1


def without_repeats(positions: Parts) -> Parts:
    """Drops each position that is the same as the one before it."""
    return tuple(it for at, it in enumerate(positions) if at == 0 or it != positions[at - 1])


def coordinates(text: str) -> tuple[str, Parts]:
    """Returns the type and the coordinates of a valid geometry, as GeoJSON nests them (RFC 7946, 3.1); none of an empty one.

    ValueError for a text that is nested otherwise, or has a number that isn't whole.
    """
    words = WORDS.findall(text)
    try:
        name = OF_WORD[words[0].upper()]
        parts, end = ((), 2) if words[1].upper() == "EMPTY" else nested(words, 1, max(TYPES[name], 1), name == "MultiPoint")
    except (KeyError, IndexError):
        raise ValueError("it begins no geometry, or ends too soon") from None
    if end != len(words):
        raise ValueError("more comes behind it")
    if name == "Point" and parts:
        (parts,) = parts
    return name, dropped(parts, TYPES[name]) if parts and name not in ("Point", "MultiPoint") else parts


def dropped(parts: Parts, depth: int) -> Parts:
    return without_repeats(parts) if depth == 1 else tuple(dropped(it, depth - 1) for it in parts)


def spelled(name: str, parts: Any) -> str:
    """Returns the text of a type and its coordinates, in the canonical form: no blanks but between x and y and before EMPTY."""
    if not len(parts):
        return f"{name.upper()} EMPTY"
    if name == "Point":
        return f"POINT({position(parts)})"
    if name == "MultiPoint":
        return f"MULTIPOINT({','.join(f'({position(it)})' for it in parts)})"
    return name.upper() + listed(parts, TYPES[name])


def listed(parts: Any, depth: int) -> str:
    return "(" + ",".join(position(it) if depth == 1 else listed(it, depth - 1) for it in parts) + ")"


def position(values: Any) -> str:
    if len(values) != 2:
        raise GridError("sfq: a position has a Z, and geometries here are flat: drop it, by shapely.force_2d say")
    x, y = whole(values[0]), whole(values[1])
    try:
        return f"{x} {y}"
    except ValueError:
        raise GridError("sfq: a coordinate has more digits than Python writes") from None


def whole(value: Any) -> int:
    """Returns a coordinate that is a whole number. GridError for another: it is never rounded."""
    try:
        # An array's element that is masked has no value: numpy says so by an exception of its own.
        found = None if type(value).__name__ == "MaskedConstant" else int(value)
    except (OverflowError, ValueError):
        found = None
    if found is None or found != value:
        raise not_whole(value)
    return found


def not_whole(value: Any) -> GridError:
    """Returns the error of a coordinate that isn't a whole number."""
    return GridError(
        f"sfq: the coordinate {shown(value)} isn't whole: scale the geometry to a grid of whole numbers first, say to centimetres "
        "by shapely.affinity.scale(shape, 100, 100, origin=(0, 0)), and round it"
    )


def shown(value: Any) -> str:
    """Returns the digits of a number, without the name of its type, which some versions of numpy add, and another value as Python shows
    it; the type alone where Python writes no number of so many digits."""
    try:
        return str(value) if isinstance(value, numbers.Number) else repr(value)
    except ValueError:
        return f"of type {type(value).__name__}"


def of_interface(shape: Any) -> str:
    """Returns the text of anything that has `__geo_interface__`, or of such a mapping."""
    if getattr(shape, "is_empty", False) and type(shape).__name__ in (*TYPES, "LinearRing"):
        # Some versions of shapely have no __geo_interface__ of an empty point, and no geom_type either.
        found: Any = {"type": type(shape).__name__, "coordinates": ()}
    else:
        found = getattr(shape, "__geo_interface__", shape)
    name = "LineString" if found["type"] == "LinearRing" else found["type"]
    if name not in TYPES:
        raise GridError(f"sfq: a geometry is one of {', '.join(TYPES)}, not a {name}")
    return spelled(name, found["coordinates"])
