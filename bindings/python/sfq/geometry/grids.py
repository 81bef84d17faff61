"""The grid of a table: how numbers of a source become whole coordinates, exactly, and how these are written as numbers again.

A coordinate x becomes the whole number n that is nearest to (x - origin) / step. Of two that are as near it is the greater one, so
that moving the origin by whole steps moves each n by the same number. Step and origin are decimal numbers, and x is the exact value
of a double. The library rounds: what is here measures how far positions moved, and writes coordinates as decimal numbers.
"""
from __future__ import annotations

import functools
import itertools
import math
import re
from array import array
from decimal import Decimal, InvalidOperation
from fractions import Fraction
from typing import Any, Iterable, Optional, Sequence

from . import library
from .counts import number_of

# The greatest coordinate of sfq, either way.
MOST = 10_000_000
# Quotients up to here are taken by doubles.
QUICK = 11_000_000
# Whole numbers below this are doubles.
EXACT = 2**53
# The most parts of a step or a unit, and of an origin.
MOST_PARTS, FARTHEST = 10**15, 2**63 - 1
# The library measures how far a position moves in this part of a grid's part.
TICKS = 2**20
# Below this number of parts a double is less than a tick away from the decimal number that it was read from.
SURE = 2**33
# How many coordinates are looked at by fractions at most, where doubles can't say how far they are from their places.
FEW = 200
# Takes the upper half of a double's digits, by which a product can be had exactly.
HALVES = float(2**27 + 1)
# How much of itself a distance is off at most, where that is found without fractions.
DOUBT = 2.0**-40
# What is said of a position that has no place.
INFINITE = "a coordinate is infinite or no number"
# A decimal number, as a double is written.
NUMBER = re.compile(r"[+-]?(\d+\.?\d*|\.\d+)([eE][+-]?\d{1,3})?")


class NotANumber(ValueError):
    """A coordinate is infinite, or no number at all."""


def decimal(text: str) -> Decimal:
    """Returns the value of a decimal number. ValueError for another text, TypeError for what is none."""
    if not isinstance(text, str):
        raise TypeError(f"a decimal number is a text, not a {type(text).__name__}")
    try:
        found = Decimal(text)
    except InvalidOperation:
        raise ValueError(f"{text!r} isn't a decimal number") from None
    if not found.is_finite() or not -60 <= found.adjusted() <= 60:
        raise ValueError(f"{text!r} isn't a decimal number that a grid can have")
    return found


class Axis:
    """One axis of a grid."""

    def __init__(self, step: Decimal, origin: Decimal) -> None:
        self.step, self.origin = Fraction(step), Fraction(origin)
        self.of_doubles = float(step), float(origin)
        # How many digits after the point a coordinate needs, and step and origin counted in the last of them.
        self.digits = max(0, *(-int(it.normalize().as_tuple().exponent) for it in (step, origin)))
        self.scaled = int(self.step * 10**self.digits), int(self.origin * 10**self.digits)
        # A quotient of doubles is off by less than 8 * 2**-53 of this sum.
        self.doubt = float((abs(self.origin) / self.step + QUICK) / 2**50)

    def beside(self, value: float, whole: int) -> float:
        """Returns how many steps a double is past a coordinate that it is about at: 0 where no double is nearer to that.

        Such a double is written as the decimal number of the coordinate, so reading it back moves nothing.
        """
        step, origin = self.scaled
        above, below = origin + whole * step, 10**self.digits
        if above / below == value:
            return 0.0
        number, parts = value.as_integer_ratio()
        past: float = (number * below - above * parts) / (parts * step)
        return past

    def all_beside(self, values: Any, wholes: Any) -> list[float]:
        """Returns `beside` of each of an array of doubles, and of whole coordinates."""
        return [self.beside(value, int(whole)) for value, whole in zip(values.tolist(), wholes.tolist())]

    def is_held(self, wholes: Any) -> Any:
        """Returns where doubles hold the numbers of an array of whole coordinates exactly, counted in the last digit of step and origin."""
        (step, origin), below = self.scaled, 10**self.digits
        if max(step, abs(origin), below) >= EXACT:
            return wholes != wholes
        return abs(wholes * step) < EXACT - abs(origin)

    def near(self, values: Any, wholes: Any) -> Any:
        """Returns about what `beside` is of arrays of doubles and of whole coordinates whose numbers doubles hold exactly, none of them 0:
        each is off by less than DOUBT of itself."""
        (step, origin), below = self.scaled, float(10**self.digits)
        above = origin + wholes * step
        place = above / below
        # What rounding took from the place: the product of the two doubles is a double and a rest (Dekker 1971).
        product = place * below
        high, top = (it * HALVES - (it * HALVES - it) for it in (place, below))
        low, rest = place - high, below - top
        lost = (above - product) - (((high * top - product) + high * rest + low * top) + low * rest)
        return ((values - place) - lost / below) * (below / step)

    def are_at(self, values: Any, wholes: Any) -> Any:
        """Returns where `beside` is 0 of arrays of doubles and of whole coordinates, among those whose numbers doubles hold exactly."""
        (step, origin), below = self.scaled, 10**self.digits
        held = self.is_held(wholes)
        return held & ((origin + wholes * step) / below == values) if held.any() else held

    def doubles(self, wholes: Any) -> Any:
        """Returns the double that is nearest to the number of the source at each of an array of whole coordinates of 64 bits."""
        (step, origin), below = self.scaled, 10**self.digits
        about = wholes.astype(float)
        found = (origin + about * step) / below if max(step, abs(origin), below) < EXACT else about
        for at in (~self.is_held(about)).nonzero()[0].tolist():
            found[at] = float(self.text(int(wholes[at])))
        return found

    def text(self, whole: int) -> str:
        """Returns the number of the source at a coordinate, with as many digits as the step and the origin have."""
        step, origin = self.scaled
        value = origin + whole * step
        if not self.digits:
            return str(value)
        digits = str(value)
        if len(digits) > self.digits + (value < 0):
            return f"{digits[:-self.digits]}.{digits[-self.digits:]}"
        sign, digits = "-" if value < 0 else "", str(abs(value)).rjust(self.digits + 1, "0")
        return f"{sign}{digits[:-self.digits]}.{digits[-self.digits:]}"


class Shift:
    """How far positions moved when they were rounded, in units of the source.

    A position didn't move if no doubles are nearer to its place on the grid than its own.
    """

    def __init__(self) -> None:
        self.positions, self.moved, self.merged, self.greatest, self.total = 0, 0, 0, 0.0, 0.0

    def add(self, positions: int, moved: int, merged: int, greatest: float, total: float) -> None:
        """Takes in what some positions moved."""
        self.positions += positions
        self.moved += moved
        self.merged += merged
        self.greatest = greatest
        self.total += total

    @property
    def mean(self) -> float:
        """The mean of the distances."""
        return self.total / self.positions if self.positions else 0.0

    @property
    def said(self) -> str:
        """What a report says of it."""
        merged = f"{self.merged:,} merged"
        if not self.moved:
            return f"nothing moved, {merged}"
        return f"{self.moved:,} of {number_of(self.positions, 'position')} moved by at most {self.greatest:.3g}, {self.mean:.3g} in the mean, {merged}"


class Scale:
    """Whole numbers for the decimal numbers of a column: each is the number of steps that is nearest to it, and of two the greater."""

    def __init__(self, step: str) -> None:
        found = decimal(step)
        if found <= 0:
            raise ValueError(f"the step {step} isn't greater than 0")
        self.spelled, self.axis = step, Axis(found, Decimal(0))
        self.moved, self.greatest = 0, Fraction(0)

    def field(self, text: str) -> str:
        """Returns the whole number for a decimal number, and nothing for an empty text. NotANumber for another text, or past 64 bits."""
        if not text:
            return ""
        if not NUMBER.fullmatch(text):
            raise NotANumber(f"{text[:60]!r} isn't a decimal number")
        exact = Fraction(text)
        found = math.floor(exact / self.axis.step + Fraction(1, 2))
        if not -(2**63) <= found < 2**63:
            raise NotANumber(f"{text[:60]!r} is past 64 bits in steps of {self.spelled}")
        past = abs(exact - found * self.axis.step)
        self.moved += past > 0
        self.greatest = max(self.greatest, past)
        return str(found)


# A double of so many digits, with so many behind the point, was read from the decimal number that it is written as.
MOST_DIGITS, MOST_PLACES = 15, 12


class Places:
    """How many digits behind the point the decimal numbers of a column need."""

    def __init__(self) -> None:
        self.count, self.places, self.unit, self.greatest, self.are_decimal = 0, 0, 1, 0.0, True

    def add(self, value: float) -> None:
        """Takes a number."""
        self.count += 1
        if not self.are_decimal or not math.isfinite(value):
            self.are_decimal = False
            return
        if round(value * self.unit) / self.unit != value:
            self.places = max(self.places, -int(Decimal(repr(value)).normalize().as_tuple().exponent))
            self.unit = 10**self.places
        self.greatest = max(self.greatest, abs(value))
        self.are_decimal = self.places <= MOST_PLACES and self.greatest * self.unit < 10**MOST_DIGITS

    def add_all(self, values: Any) -> None:
        """Takes numbers, an array of numpy."""
        import numpy

        left, few = values, FEW
        while self.are_decimal and len(left):
            with numpy.errstate(all="ignore"):
                left = left[~(numpy.rint(left * self.unit) / self.unit == left)]
            for it in left[:few].tolist():
                self.add(it)
            # The first ones have mostly what all have.
            self.count, left, few = self.count - len(left[:few]), left[few:], 2 * few
        if self.are_decimal and len(values):
            self.count += len(values)
            self.greatest = max(self.greatest, float(abs(values).max()))
            self.are_decimal = self.greatest * self.unit < 10**MOST_DIGITS

    @property
    def step(self) -> str:
        """The size of a step that has each of them; nothing where there is none, or where a number has too many digits."""
        return f"{Decimal(1).scaleb(-self.places):f}" if self.count and self.are_decimal else ""


class Grid:
    """A grid: the size of a step, and where its 0 0 is in the source."""

    def __init__(self, step: str, origin: Sequence[str] = ("0", "0")) -> None:
        found = decimal(step)
        if found <= 0:
            raise ValueError(f"the step {step} isn't greater than 0")
        self.spelled = step, tuple(origin)
        self.x, self.y = x, y = [Axis(found, decimal(it)) for it in origin]
        (size, left), (_, low) = x.of_doubles, y.of_doubles
        # What measuring needs: the step and the origin, what the quotients of doubles are sure of, and whole numbers of each axis.
        wholes_x, wholes_y = (*x.scaled, 10**x.digits), (*y.scaled, 10**y.digits)
        self.of_doubles = size, left, low, x.doubt, y.doubt, 0.5 - x.doubt, 0.5 - y.doubt, wholes_x, wholes_y

    @classmethod
    def of_file(cls, found: Any) -> Grid:
        """Returns the grid that a grid.json describes. KeyError, TypeError or ValueError where it describes none."""
        x, y = found["origin"]
        return cls(found["step"], (x, y))

    def in_parts(self) -> tuple[int, int, int, int]:
        """Returns the step, both coordinates of the origin, and how many parts of the source's unit these count."""
        parts = 10 ** max(self.x.digits, self.y.digits)
        step, x, y = (int(it * parts) for it in (self.x.step, self.x.origin, self.y.origin))
        return step, x, y, parts

    def check(self) -> None:
        """ValueError where the step or the origin has too many digits for the library."""
        step, x, y, parts = self.in_parts()
        if max(step, parts) > MOST_PARTS or max(abs(x), abs(y)) > FARTHEST:
            raise ValueError("the step or the origin has too many digits")

    @functools.cached_property
    def numbers(self) -> Any:
        """The grid as the library takes it. ValueError where the step or the origin has too many digits."""
        self.check()
        return library.grid_of(*self.in_parts())

    def steps(self, numbers: Sequence[float]) -> Sequence[int]:
        """Returns the steps that are nearest to doubles, an x and a y for each position. NotANumber where a double is none."""
        found = library.rounded(self.numbers, array("d", numbers))
        if found is None:
            raise NotANumber(INFINITE)
        return found

    def rounded(self, numbers: Sequence[float], shift: Shift, merges: bool = True) -> list[tuple[int, int]]:
        """Returns the positions of doubles, an x and a y for each, and counts how far they moved.

        `merges` drops a position that is the same as the one before it. A coordinate past the limit is another that is past it.
        NotANumber where a double is none.
        """
        steps = self.steps(numbers)
        return self.merged(numbers[::2], numbers[1::2], steps[::2], steps[1::2], shift, merges)

    def merged(
        self, xs: Sequence[float], ys: Sequence[float], ns: Sequence[int], ms: Sequence[int], shift: Shift, merges: bool = True,
    ) -> list[tuple[int, int]]:
        """Returns the positions of these steps, to which these doubles were rounded, and counts how far they moved."""
        found = list(zip(ns, ms))
        if merges:
            found = [it for it, _ in itertools.groupby(found)]
        self.measure(xs, ys, ns, ms, shift, len(ns) - len(found))
        return found

    def measure(
        self, xs: Sequence[float], ys: Sequence[float], ns: Sequence[int], ms: Sequence[int], shift: Shift, merged: int,
    ) -> None:
        """Counts how far doubles moved to these steps. A position that is past the limit has no place to which it moved."""
        step, left, low, doubt_x, doubt_y, half_x, half_y, steps_x, steps_y = self.of_doubles
        (size_x, x_0, parts_x), (size_y, y_0, parts_y) = steps_x, steps_y
        hypot, moved, greatest, total, count = math.hypot, 0, shift.greatest / step, 0.0, len(ns)
        if count and max(max(ns), max(ms)) > MOST:
            within = [at for at in range(count) if ns[at] <= MOST and ms[at] <= MOST]
            xs, ys, ns, ms = [xs[at] for at in within], [ys[at] for at in within], [ns[at] for at in within], [ms[at] for at in within]
        for x, y, n, m in zip(xs, ys, ns, ms):
            # What is about on the grid, or about between two places, is left to fractions.
            past_x, past_y = (x - left) / step - n, (y - low) / step - m
            if not (doubt_x < past_x < half_x or -half_x < past_x < -doubt_x):
                past_x = 0.0 if (x_0 + n * size_x) / parts_x == x else self.x.beside(x, n)
            if not (doubt_y < past_y < half_y or -half_y < past_y < -doubt_y):
                past_y = 0.0 if (y_0 + m * size_y) / parts_y == y else self.y.beside(y, m)
            if past_x or past_y:
                distance = hypot(past_x, past_y)
                moved += 1
                total += distance
                if distance > greatest:
                    greatest = distance
        shift.add(count, moved, merged, greatest * step, total * step)

    def measure_one(self, x: float, y: float, n: int, m: int, shift: Shift) -> None:
        """Counts how far a position moved to these steps, as `measure` does."""
        if n > MOST or m > MOST:
            shift.positions += 1
            return
        step, left, low, doubt_x, doubt_y, half_x, half_y, _, _ = self.of_doubles
        past_x, past_y = (x - left) / step - n, (y - low) / step - m
        if not (doubt_x < past_x < half_x or -half_x < past_x < -doubt_x):
            past_x = self.x.beside(x, n)
        if not (doubt_y < past_y < half_y or -half_y < past_y < -doubt_y):
            past_y = self.y.beside(y, m)
        distance = math.hypot(past_x, past_y)
        shift.add(1, distance > 0, 0, max(shift.greatest / step, distance) * step, distance * step)


def steps_of(positions: Any, grid: Grid) -> Any:
    """Returns the steps that are nearest to positions, an array of numpy with an x and a y in each row; None where a number is infinite
    or none."""
    import numpy

    given = numpy.ascontiguousarray(positions, dtype=float)
    found = numpy.empty(given.shape, dtype=numpy.int32)
    return found if library.are_rounded(grid.numbers, given.ctypes.data, len(given), found.ctypes.data) else None


def moved(positions: Any, grid: Grid, steps: Any = None) -> tuple[int, float]:
    """Returns how many positions move, of an array of numpy with an x and a y in each row, and how far one moves at most.

    One to whose place no doubles are nearer doesn't move. `steps` are those of the positions, where they are known.
    """
    import numpy

    if steps is None:
        steps = steps_of(positions, grid)
    if steps is None:
        raise NotANumber(INFINITE)
    if not len(positions):
        return 0, 0.0
    sides = [Side(positions[:, at], steps[:, at], axis) for at, axis in enumerate((grid.x, grid.y))]
    doubtful = sides[0].unsure | sides[1].unsure
    least, most = (numpy.hypot(*(it.reach(sign) for it in sides)) for sign in (-DOUBT, DOUBT))
    # Fractions are for those whose distance may be the greatest.
    asked = doubtful & (most * (1 + DOUBT) >= least.max())
    for side in sides:
        side.ask(asked & side.unsure)
    distances = numpy.hypot(*(it.past * it.axis.of_doubles[0] for it in sides))
    count = int(numpy.count_nonzero((sides[0].past != 0) | (sides[1].past != 0)))
    return count, float(distances[asked | ~doubtful].max(initial=0.0))


class Side:
    """How far doubles are past their places on an axis, as arrays of numpy: `past` in steps, 0 where no doubles are nearer to a place, and
    `unsure` where that is off by less than DOUBT of itself."""

    def __init__(self, values: Any, wholes: Any, axis: Axis) -> None:
        self.axis, self.values, self.wholes = axis, values.astype(float), wholes.astype(float)
        self.past, unsure = about_past(self.values, self.wholes, axis)
        self.unsure = unsure & axis.is_held(self.wholes)
        self.past[self.unsure] = axis.near(self.values[self.unsure], self.wholes[self.unsure])
        self.ask(unsure & ~self.unsure)

    def ask(self, which: Any) -> None:
        """Finds by fractions how far some of them are."""
        self.past[which] = self.axis.all_beside(self.values[which], self.wholes[which])

    def reach(self, share: float) -> Any:
        """Returns how far they are either way, in the source's unit, with this share of it for those that aren't sure."""
        return abs(self.past) * (1 + self.unsure * share) * self.axis.of_doubles[0]


def past_steps(positions: Any, steps: Any, grid: Grid) -> Any:
    """Returns how many steps each coordinate of positions is past its place, by arrays of numpy: 0 where no doubles are nearer to that."""
    import numpy

    past = numpy.zeros(positions.shape)
    for at, axis in enumerate((grid.x, grid.y)):
        values, whole = positions[:, at].astype(float), steps[:, at].astype(float)
        found, unsure = about_past(values, whole, axis)
        found[unsure] = axis.all_beside(values[unsure], whole[unsure])
        past[:, at] = found
    return past


def about_past(values: Any, wholes: Any, axis: Axis) -> tuple[Any, Any]:
    """Returns how many steps doubles are past their places, and where that isn't sure, by arrays of numpy. Those that are about on the
    grid, or about between two places, are left to fractions; where no doubles are nearer to a place, it is 0."""
    found = past_places(values, wholes, axis)
    on_grid = axis.are_at(values, wholes)
    found[on_grid] = 0.0
    return found, ~((abs(found) > axis.doubt) & (abs(found) < 0.5 - axis.doubt)) & ~on_grid


def measure_all(positions: Any, steps: Any, grid: Grid, shift: Shift, merged: int) -> None:
    """Counts how far positions moved to their steps, as `Grid.measure` does, by arrays of numpy. No position is past the limit."""
    import numpy

    size, greatest, total, moved = grid.of_doubles[0], shift.greatest / grid.of_doubles[0], 0.0, 0
    if len(positions):
        past = past_steps(positions, steps, grid)
        distances = numpy.hypot(past[:, 0], past[:, 1])
        moved, greatest, total = int(numpy.count_nonzero(distances)), max(greatest, float(distances.max())), float(distances.sum())
    shift.add(len(positions), moved, merged, greatest * size, total * size)


def past_places(values: Any, wholes: Any, axis: Axis) -> Any:
    """Returns how many steps doubles are past their places, as far as doubles know it: the doubt of the axis says how far that is."""
    step, origin = axis.of_doubles
    return (values - origin) / step - wholes


def counted(positions: Any, steps: Any, grid: Grid, is_exact: bool) -> Optional[tuple[int, float]]:
    """Returns how many positions the library counts as moved when it reads points, and by how much a coordinate moved at most, from arrays
    of numpy with an x and a y in each row; None where more than a few of them would need fractions.

    `is_exact` says that each coordinate is the double that is nearest to its place.
    """
    import numpy

    step, *_, parts = grid.in_parts()
    if not len(positions) or (is_exact and max(positions.max(), -positions.min()) * parts < SURE):
        return 0, 0.0
    are_moved, greatest = numpy.zeros(len(positions), dtype=bool), 0
    for at, axis in enumerate((grid.x, grid.y)):
        values, wholes = positions[:, at], steps[:, at]
        found, doubt = abs(past_places(values, wholes, axis)), 2 * axis.doubt
        # The library counts in ticks: what is less than one is nothing, and the greatest distance is one in whole ticks.
        tick, farthest = 1 / (step * TICKS), float(found.max())
        ends = [math.floor(max(0.0, it) / tick) for it in (farthest - doubt, farthest + doubt)]
        unsure = numpy.flatnonzero(abs(found - tick) <= doubt)
        unsure = numpy.union1d(unsure, numpy.flatnonzero(found >= farthest - 2 * doubt)) if ends[0] != ends[1] else unsure
        if len(unsure) > FEW:
            return None
        moved = found >= tick
        ticks = [math.floor(abs(Fraction(float(values[it])) - axis.origin - int(wholes[it]) * axis.step) * parts * TICKS) for it in unsure]
        moved[unsure] = numpy.array(ticks, dtype=object) > 0
        are_moved |= moved
        greatest = max(greatest, *ticks) if ends[0] != ends[1] else max(greatest, ends[0])
    return int(are_moved.sum()), greatest / TICKS / parts


def spelled(positions: Iterable[tuple[int, int]]) -> str:
    """Returns positions as well-known text has them."""
    return ",".join(["%d %d" % it for it in positions])


def spelled_all(steps: Any) -> tuple[str, Any]:
    """Returns positions as well-known text has them, of an array of numpy with an x and a y in each row, a comma behind each; and where
    each begins in that text, and the end of the last."""
    import numpy

    values = steps.reshape(-1)
    left = abs(values.astype("i8")).astype("u4")
    width = len(str(left.max(initial=0)))
    # A sign, the digits, and what is behind the number, with those of them that are written.
    letters, are_written = numpy.empty((len(values), width + 2), dtype="u1"), numpy.ones((len(values), width + 2), dtype=bool)
    for at in range(width, 0, -1):
        if at < width:
            are_written[:, at] = left > 0
        tenth = left // 10
        letters[:, at] = left - 10 * tenth + ord("0")
        left = tenth
    are_written[:, 0], letters[:, 0] = values < 0, ord("-")
    letters[0::2, -1], letters[1::2, -1] = ord(" "), ord(",")
    starts = numpy.zeros(len(steps) + 1, dtype="i8")
    numpy.cumsum(are_written.reshape(len(steps), 2 * (width + 2)).sum(axis=1), out=starts[1:])
    return letters[are_written].tobytes().decode("ascii"), starts
