"""Proposes a grid for what people didn't choose one for.

If every coordinate is a decimal number of a grid that reaches them all, the step is the power of ten of their last decimal, and nothing
moves. Coordinates with few decimals get a finer step if it reaches all of them, down to about a centimetre: 0.0000001 of a degree, 0.01
of a metre or a foot. For other coordinates the step is the finest of 1, 2 and 5 times a power of ten at which every coordinate is within
10,000,000 steps of the origin. The origin is 0,0 if the step is the same with it, and otherwise the middle of everything to the nearest
100,000 steps. If no reference system gives the unit, coordinates within 180 and 90 either way count as degrees, and others as metres.
"""
from __future__ import annotations

import math
from decimal import Decimal
from fractions import Fraction
from typing import Any, Iterable, Iterator, NamedTuple, Optional, Sequence

from ..geometry import grids

# The steps of degrees, and of metres, that coordinates with few decimals get.
DEGREE, METRE = Decimal("0.0000001"), Decimal("0.01")
# How many metres a unit has that is none of length.
DEGREES = 0.0
# How many positions of an array are looked at one by one before all are looked at at once.
FEW = 50
# The origin is a multiple of so many steps.
ROUND = 100_000
# No step is finer than this part of the greatest coordinate: doubles have about so many digits. Nor has a number more decimals than this.
DIGITS, MOST_PLACES = 1e-13, 15


class Extent(NamedTuple):
    """The least and the greatest x, and the least and the greatest y."""

    left: float
    right: float
    low: float
    high: float

    def with_(self, other: Extent) -> Extent:
        """Returns the extent of both."""
        return Extent(min(self.left, other.left), max(self.right, other.right), min(self.low, other.low), max(self.high, other.high))


def joined(extents: Iterable[Optional[Extent]]) -> Optional[Extent]:
    """Returns the extent of all, None where there is none."""
    found: Optional[Extent] = None
    for it in extents:
        found = found.with_(it) if found and it else found or it
    return found


class Decimals:
    """The decimal numbers that doubles are, as long as one grid could have all of them.

    A double is the decimal number of a grid if no other double is nearer to that number, as if it was read from it.
    """

    def __init__(self) -> None:
        self.is_exact, self.places, self.unit = True, 0, 1
        # In units of the last decimal: the first coordinates, the least and the greatest ones, and what divides all distances from the first.
        self.firsts: list[int] = []
        self.least, self.greatest, self.divisor = [0, 0], [0, 0], 0

    def add(self, numbers: Sequence[float]) -> None:
        """Takes positions, an x and a y each."""
        if not self.is_exact or not len(numbers):
            return
        try:
            wholes = self.wholes(numbers)
        except (OverflowError, ValueError):
            self.is_exact = False
            return
        if not wholes:
            return
        if not self.firsts:
            self.firsts, self.least, self.greatest = wholes[:2], wholes[:2], wholes[:2]
        for axis in (0, 1):
            its = wholes[axis::2]
            self.least[axis], self.greatest[axis] = min(self.least[axis], *its), max(self.greatest[axis], *its)
            first = self.firsts[axis]
            self.divisor = math.gcd(self.divisor, *(it - first for it in its))
        wide = max(b - a for a, b in zip(self.least, self.greatest))
        self.is_exact = wide <= 2 * grids.MOST * max(1, self.divisor)

    def add_all(self, positions: Any) -> None:
        """Takes positions, an array of numpy with an x and a y in each row."""
        import numpy

        # A few say how many decimals all have, mostly, or that no grid has them.
        self.add(positions[:FEW].ravel().tolist())
        rest = positions[FEW:]
        while self.is_exact and len(rest):
            unit = self.unit
            with numpy.errstate(over="ignore"):
                wholes = numpy.rint(rest if unit == 1 else rest * unit)
            are_exact = (wholes if unit == 1 else wholes / unit) == rest
            if are_exact.all():
                bounds = [(float(its.min()), float(its.max())) for its in wholes.T]
                if all(abs(it) < grids.EXACT for it in (unit, *self.firsts, *bounds[0], *bounds[1])):
                    self.add_wholes(wholes, bounds)
                else:
                    self.add(rest.ravel().tolist())
                return
            self.add(rest[~are_exact.all(axis=1)][:FEW].ravel().tolist())
            if self.unit == unit:
                # These are too great for an array.
                self.add(rest.ravel().tolist())
                return

    def add_wholes(self, wholes: Any, bounds: Sequence[tuple[float, float]]) -> None:
        """Takes positions in units of the last decimal, after others, with the least and the greatest of each axis. All are whole doubles."""
        for axis, (least, greatest) in enumerate(bounds):
            self.least[axis], self.greatest[axis] = min(self.least[axis], int(least)), max(self.greatest[axis], int(greatest))
            if self.divisor != 1:
                self.divisor = common_divisor(self.divisor, wholes[:, axis].astype("int64") - self.firsts[axis])
        self.is_exact = max(b - a for a, b in zip(self.least, self.greatest)) <= 2 * grids.MOST * max(1, self.divisor)

    def wholes(self, numbers: Sequence[float]) -> list[int]:
        """Returns numbers in units of the last decimal, of which there may be more from now on; nothing where there are too many."""
        unit = self.unit
        found = [round(it * unit) for it in numbers]
        if all(whole / unit == it for whole, it in zip(found, numbers)):
            return found
        places = max(max(0, -int(Decimal(repr(it)).normalize().as_tuple().exponent)) for it in numbers)
        if places > MOST_PLACES:
            self.is_exact = False
            return []
        self.scale(max(places, self.places))
        return [int(Decimal(repr(it)).scaleb(self.places)) for it in numbers]

    def are_on(self, grid: grids.Grid) -> bool:
        """Whether all of them are places of a grid."""
        unit = Fraction(1, self.unit)
        return self.is_exact and all(
            ((first * unit - axis.origin) / axis.step).denominator == 1 and (self.divisor * unit / axis.step).denominator == 1
            for first, axis in zip(self.firsts, (grid.x, grid.y))
        )

    def scale(self, places: int) -> None:
        """Counts in units of a later decimal."""
        by = 10 ** (places - self.places)
        self.places, self.unit, self.divisor = places, 10**places, self.divisor * by
        self.firsts, self.least, self.greatest = ([it * by for it in each] for each in (self.firsts, self.least, self.greatest))


def common_divisor(known: int, numbers: Any) -> int:
    """Returns the greatest common divisor of a number and those of an array of numpy."""
    while known != 1 and len(numbers):
        known = math.gcd(known, *numbers[:FEW].tolist())
        # A few have that of all, mostly: what is a multiple of it changes nothing.
        left = numbers[FEW:]
        numbers = left[(left % known if 0 < known < grids.EXACT else left) != 0]
    return known


def usual(metres: Optional[float], found: Optional[Extent]) -> Decimal:
    """Returns the step of coordinates with few decimals in a unit of so many metres, DEGREES, or None where no reference system says it.

    Of a length that is the power of ten that is a centimetre, or the next below.
    """
    if metres is None:
        is_small = found is None or (-180 <= found.left and found.right <= 180 and -90 <= found.low and found.high <= 90)
        return DEGREE if is_small else METRE
    if metres == DEGREES:
        return DEGREE
    # A little more than a centimetre is one: the foot of the survey of the United States has 0.3048006 metres.
    return Decimal(1).scaleb(math.floor(math.log10(float(METRE) / metres) + 1e-9))


def finest(found: Extent) -> Decimal:
    """Returns a power of ten that is no coarser than the finest step that reaches an extent."""
    half = max(found.right - found.left, found.high - found.low) / 2
    return Decimal(1).scaleb(math.floor(math.log10(max(half / grids.MOST, least(found), 1e-50))))


def least(found: Extent) -> float:
    """Returns what no step of an extent is finer than."""
    return max(abs(it) for it in found) * DIGITS


def steps(first: Decimal) -> Iterator[Decimal]:
    """Returns 1, 2 and 5 times the powers of ten from a first one on."""
    while True:
        for it in (1, 2, 5):
            yield first * it
        first *= 10


def middle(found: Extent, step: Decimal, from_: tuple[Decimal, Decimal] = (Decimal(0), Decimal(0))) -> tuple[Decimal, Decimal]:
    """Returns the middle of an extent, to the nearest multiple of some steps from a place on."""
    unit = step * ROUND
    x, y = (round(((Fraction(a) + Fraction(b)) / 2 - Fraction(first)) / Fraction(unit)) for (a, b), first in zip((found[:2], found[2:]), from_))
    return x * unit + from_[0], y * unit + from_[1]


def fits(found: Extent, grid: grids.Grid) -> bool:
    """Whether an extent is within the reach of a grid."""
    return all(abs(Fraction(it) - axis.origin) <= axis.step * grids.MOST for axis, both in ((grid.x, found[:2]), (grid.y, found[2:])) for it in both)


def spelled(value: Decimal) -> str:
    """Returns a decimal number without an exponent and without zeros behind its last digit."""
    return f"{value.normalize() + 0:f}"


class Proposal(NamedTuple):
    """A grid that is proposed, and whether each coordinate lies on it exactly."""

    grid: grids.Grid
    is_exact: bool


def proposed(
    found: Optional[Extent], metres: Optional[float], step: str = "", origin: str = "", decimals: Optional[Decimals] = None,
) -> grids.Grid:
    """Returns the grid that is proposed for an extent in a unit of so many metres. A step or an origin that is given is kept; an origin is X,Y.

    `decimals` are those of all coordinates. Where a step that is given is too small for any origin, that is 0,0 and what is too far away
    is left out.
    """
    return proposal(found, metres, step, origin, decimals).grid


def proposal(
    found: Optional[Extent], metres: Optional[float], step: str = "", origin: str = "", decimals: Optional[Decimals] = None,
) -> Proposal:
    """Returns what `proposed` proposes, and whether it is exact."""
    if step:
        given = fitting(found, Decimal(grids.Grid(step).spelled[0]), step, origin) or grids.Grid(step, origins_of(origin))
        return Proposal(given, decimals is not None and decimals.are_on(given))
    if found is None:
        return Proposal(grids.Grid(spelled(usual(metres, found)), origins_of(origin)), True)
    exact = exact_grid(found, usual(metres, found), origin, decimals) if decimals and decimals.is_exact else None
    if exact:
        return Proposal(exact, True)
    for each in steps(finest(found)):
        grid = fitting(found, each, "", origin) if float(each) >= least(found) else None
        if grid:
            return Proposal(grid, decimals is not None and decimals.are_on(grid))
    raise AssertionError("a step is large enough")


def origins_of(origin: str) -> list[str]:
    """Returns an origin X,Y, or 0,0 for an empty one."""
    return (origin or "0,0").split(",")


def fitting(found: Optional[Extent], each: Decimal, step: str = "", origin: str = "") -> Optional[grids.Grid]:
    """Returns the grid of a step that reaches an extent, from the origin that is given, or else from 0,0 or from the middle."""
    origins = [origins_of(origin)]
    if found and not origin:
        origins.append(list(map(spelled, middle(found, each))))
    tried = (grids.Grid(step or spelled(each), it) for it in origins)
    return next((it for it in tried if found is None or fits(found, it)), None)


def exact_grid(found: Extent, usual_step: Decimal, origin: str, decimals: Decimals) -> Optional[grids.Grid]:
    """Returns a grid on which all decimal numbers of an extent lie, None where there is none that reaches all."""
    last = -decimals.places
    for exponent in range(min(last, int(usual_step.as_tuple().exponent)), last + 1):
        step = Decimal(1).scaleb(exponent)
        grid = fitting(found, step, "", origin) if float(step) >= least(found) else None
        if grid and decimals.are_on(grid):
            return grid
    if origin or not decimals.firsts:
        return None
    # A coarser step has all if it divides the distances between them. The origin is one of them, or steps away from it.
    first = [Decimal(it).scaleb(last) for it in decimals.firsts]
    for step in steps(Decimal(1).scaleb(last)):
        units = int(step.scaleb(-last))
        if units > decimals.divisor:
            return None
        grid = grids.Grid(spelled(step), list(map(spelled, middle(found, step, (first[0] % step, first[1] % step)))))
        if float(step) >= least(found) and decimals.are_on(grid) and fits(found, grid):
            return grid
    return None


def coarser(found: Extent, grid: grids.Grid, factor: int = 0) -> grids.Grid:
    """Returns the next grid of a coarser step that reaches an extent: the next of 1, 2 and 5 times a power of ten, or so many times as coarse."""
    step = Decimal(grid.spelled[0])
    first = Decimal(1).scaleb(step.adjusted())
    each = step * factor if factor else next(it for it in steps(first) if it > step)
    return fitting(found, each) or grids.Grid(spelled(each), grid.spelled[1])
