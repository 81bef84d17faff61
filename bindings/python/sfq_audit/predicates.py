"""The named predicates by patterns of the DE-9IM matrix, as the standard defines them (06-103r4, 6.1.15.3)."""
from __future__ import annotations

from typing import Sequence

NAMES = ("equals", "disjoint", "intersects", "touches", "crosses", "within", "contains", "overlaps")
# Those of some go by the dimensions of the two types.
ALWAYS: dict[str, tuple[str, ...]] = {
    "equals": ("**F**FFF*",), "disjoint": ("FF*FF****",), "touches": ("FT*******", "F**T*****", "F***T****"),
    "within": ("T*F**F***",), "contains": ("T*****FF*",), "intersects": ("T********", "*T*******", "***T*****", "****T****"),
}
LOWER, HIGHER = ("T*T******",), ("T*****T**",)
CROSSES: dict[tuple[int, int], tuple[str, ...]] = {(0, 1): LOWER, (0, 2): LOWER, (1, 2): LOWER, (1, 0): HIGHER, (2, 0): HIGHER, (2, 1): HIGHER, (1, 1): ("0********",)}
OVERLAPS: dict[tuple[int, int], tuple[str, ...]] = {(0, 0): ("T*T***T**",), (1, 1): ("1*T***T**",), (2, 2): ("T*T***T**",)}


def dimension(text: str) -> int:
    """Returns the dimension of a text's type."""
    word = text.lstrip()[:12].upper()
    return 2 if "POLY" in word else 1 if "LINE" in word else 0


def matches(pattern: str, matrix: str) -> bool:
    return all(p == "*" or p == c or (p == "T" and c != "F") for p, c in zip(pattern, matrix))


def holds(name: str, matrix: str, dimensions: tuple[int, int]) -> bool:
    """Whether a predicate holds of two geometries with this matrix, whose types have these dimensions."""
    known = {"crosses": CROSSES, "overlaps": OVERLAPS}
    return any(matches(it, matrix) for it in (known[name].get(dimensions, ()) if name in known else ALWAYS[name]))


def held(matrix: str, pair: Sequence[str]) -> str:
    """Returns a character for each of NAMES: 1 where it holds of a pair of texts with this matrix, else 0."""
    dimensions = dimension(pair[0]), dimension(pair[1])
    return "".join(["1" if holds(it, matrix, dimensions) else "0" for it in NAMES])
