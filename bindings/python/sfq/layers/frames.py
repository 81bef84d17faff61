"""Columns of geometries of GeoPandas on a grid, what becomes of them, and what is said of it. None of it is proved."""
from __future__ import annotations

import contextlib
import ctypes
import functools
import re
import warnings
from decimal import Decimal
from fractions import Fraction
from typing import Any, NamedTuple, Optional, Sequence, Union

import numpy
import pandas
import shapely
from shapely.errors import ShapelyError

from ..geometry import binary, grids, library
from ..geometry.counts import number_of
from ..geometry.shapes import Geometry
from . import proposing, relating

# The step that stands for one that is proposed.
AUTO = "auto"
# A collection of nothing, which shapely before 2.0 may also write for an empty geometry of another type.
NOTHING = b"\x01\x07\0\0\0\0\0\0\0"
# An empty point. sfq takes no collections, and that of nothing is the same set of points.
NO_POINT = b"\x01\x01\0\0\0" + 2 * b"\0\0\0\0\0\0\xf8\x7f"
# How many refused rows a message names.
NAMED = 3
# A position in a line that says what shows something, a coordinate as n or n/d.
POSITION = re.compile(r"(-?\d+(?:/\d+)?) (-?\d+(?:/\d+)?)")
UNITS = grids.Grid("1")
# A point in well-known binary, least byte first (06-103r4, 8.2).
POINT = numpy.dtype([("order", "u1"), ("kind", "<u4"), ("position", "<f8", 2)])

# The number that shapely gives to a GEOMETRYCOLLECTION; those of what sfq takes are less.
COLLECTION = 7

Step = Union[str, float, None]
Origin = Optional[Sequence[Union[str, float]]]


class RoundingWarning(UserWarning):
    """Positions moved when they were rounded to the grid."""


class LeftOutWarning(UserWarning):
    """Geometries were refused, and count as missing."""


class RefusedError(ValueError):
    """Geometries are refused.

    `rows` is a DataFrame of them: on which side each is, the label of its row, and the reason. `remedy` is a grid that takes positions
    that are past the limit, or empty.
    """

    def __init__(self, rows: Any, remedy: str = "") -> None:
        self.rows, self.remedy = rows, remedy
        super().__init__(f"sfq: {listed(rows)}{remedy}; on_invalid='warn' takes what is refused as missing")

    def __reduce__(self) -> tuple[type[RefusedError], tuple[Any, str]]:
        return type(self), (self.rows, self.remedy)


class Options(NamedTuple):
    """How geometries are taken: the step and the origin as they were given, whether a Z is dropped, and what becomes of refused ones."""

    step: Step
    origin: Origin
    flat: bool
    on_invalid: str


# ---- columns ----


class Points(library.Binaries):
    """Points that each have a position: rows of an x and a y. Their well-known binary is written when it is first needed."""

    def __init__(self, positions: Any) -> None:
        self.positions = numpy.ascontiguousarray(positions, dtype=float)

    @functools.cached_property
    def written(self) -> tuple[Any, Any]:
        """Their well-known binary, and how many bytes each has."""
        found = numpy.empty(len(self), dtype=POINT)
        found["order"], found["kind"], found["position"] = 1, 1, self.positions
        return found, numpy.full(len(self), POINT.itemsize, dtype=numpy.uintp)

    def __len__(self) -> int:
        return len(self.positions)

    def __getitem__(self, place: int) -> bytes:
        return bytes(self.written[0][place].tobytes())

    def part(self, first: int, end: int) -> tuple[Any, Any]:
        points, lengths = self.written
        return points[first:].ctypes.data, lengths[first:].ctypes.data


def positions_of(shapes: Any, flat: bool) -> Any:
    """Returns the positions of shapely's geometries, where each is a point with one; None where one isn't, or has more than an x and a y
    that isn't to be dropped.
    """
    if not flat and not (shapely.get_coordinate_dimension(shapes) == 2).all():
        return None
    found = numpy.empty((len(shapes), 2))
    # What isn't a point has no x. Nor has an empty point, of which some versions of GEOS raise an error.
    with contextlib.suppress(ShapelyError):
        found[:, 0] = shapely.get_x(shapes)
        if not numpy.isnan(found[:, 0]).any():
            found[:, 1] = shapely.get_y(shapes)
            return found
    if not (shapely.get_type_id(shapes) == 0).all():
        return None
    found = shapely.get_coordinates(shapes)
    return found if len(found) == len(shapes) else None


def extent_of_positions(positions: Any) -> Optional[tuple[float, float, float, float]]:
    """Returns the least x, the greatest x, the least y and the greatest y of positions, None where there is none or one isn't finite."""
    if not len(positions):
        return None
    found = [float(it) for axis in (0, 1) for it in (positions[:, axis].min(), positions[:, axis].max())]
    return (found[0], found[1], found[2], found[3]) if numpy.isfinite(found).all() else None


def binaries(shapes: Any, flat: bool) -> library.Binaries:
    """Returns the well-known binary of shapely's geometries, least byte first, and no bytes for a missing one."""
    if hasattr(shapely, "to_wkb"):
        positions = positions_of(shapes, flat)
        if positions is not None:
            return Points(positions)
        dimensions = {"output_dimension": 2} if flat else {}
        return library.Binaries([NO_POINT if it == NOTHING else it or b"" for it in shapely.to_wkb(shapes, byte_order=1, **dimensions)])
    from shapely import geos

    writer = geos.WKBWriter(geos.lgeos, big_endian=False, output_dimension=2 if flat else 3)
    found = [b"" if it is None else writer.write(it) for it in shapes]
    if all(len(it) == POINT.itemsize for it in found):
        points = numpy.frombuffer(b"".join(found), dtype=POINT)
        # An empty point has no numbers.
        if (points["kind"] == 1).all() and not numpy.isnan(points["position"]).any():
            return Points(points["position"])
    return library.Binaries([it if it != NOTHING else empty(shape) for it, shape in zip(found, shapes)])


def empty(shape: Any) -> bytes:
    """Returns the well-known binary of an empty geometry by its class, an empty point for a collection."""
    name = type(shape).__name__.replace("LinearRing", "LineString").upper()
    kind = next((it for it, word in binary.WORDS.items() if word == name), 1)
    return NO_POINT if kind == 1 else b"\x01" + kind.to_bytes(4, "little") + bytes(4)


def are_plain(shapes: Any) -> bool:
    """Whether shapely, from 2.0 on, gives the positions of all shapes at once as they are read here: no collections, and no Z."""
    if not hasattr(shapely, "get_coordinates"):
        return False
    return bool((shapely.get_type_id(shapes) < COLLECTION).all() and (shapely.get_coordinate_dimension(shapes) < 3).all())


class Placed:
    """Points that have places on a grid: the steps, for the library, and what rounding did, as the library counts it."""

    def __init__(self, steps: Any, moved: int, greatest: float) -> None:
        self.steps, self.kept = steps, library.PlacedPoints(steps, steps.ctypes.data, len(steps))
        self.positions, self.moved, self.merged, self.greatest = len(steps), moved, 0, greatest


class Column:
    """The geometries of a GeoSeries on a grid: those that the library keeps, those that it refuses, and those that are missing."""

    def __init__(self, side: str, series: Any, flat: bool) -> None:
        self.side, self.series, self.shapes = side, series, numpy.asarray(series.values, dtype=object)
        self.binaries = binaries(self.shapes, flat)

    @functools.cached_property
    def positions(self) -> Any:
        """The positions of all geometries, where shapely gives them at once as they are read here; else None."""
        if isinstance(self.binaries, Points):
            return self.binaries.positions
        return shapely.get_coordinates(self.shapes) if are_plain(self.shapes) else None

    def extent(self) -> Optional[tuple[float, float, float, float]]:
        """Returns the least x, the greatest x, the least y and the greatest y, None where there is no position."""
        found = None if self.positions is None else extent_of_positions(self.positions)
        return found or self.binaries.extent()

    def take_decimals(self, decimals: proposing.Decimals) -> None:
        """Has the coordinates be counted, as long as one grid could have them all."""
        if self.positions is not None:
            decimals.add_all(self.positions)
            return
        for at in range(len(self.binaries)):
            if not decimals.is_exact:
                return
            given = self.binaries[at]
            with contextlib.suppress(binary.NoText):
                for part in binary.shape(given, drops_empty=True).parts if given else ():
                    for numbers in part:
                        decimals.add(numbers)

    def keep(self, proposal: Optional[proposing.Proposal], places_points: bool) -> None:
        """Reads the geometries, rounded to a grid, or as they are where that is None.

        `places_points` says that points, which are valid wherever they are, need only have their places on the grid.
        """
        self.grid: Optional[grids.Grid] = proposal.grid if proposal else None
        self.is_exact = proposal.is_exact if proposal else False
        self.parts = parts_of(self.grid)
        self.points = self.placed() if places_points else None
        self.statuses = numpy.full(len(self.shapes), library.OK) if self.points else numpy.array(self.kept.statuses, dtype=numpy.uint32)
        self.is_kept = self.statuses == library.OK
        self.refused = numpy.flatnonzero(~self.is_kept & (self.statuses != library.NONE))

    @functools.cached_property
    def kept(self) -> library.KeptMany:
        """What the library keeps of the geometries."""
        return library.KeptMany(self.binaries, self.parts)

    def placed(self) -> Optional[Placed]:
        """Returns points on the grid; None where one has no place there, or something else is among them."""
        if self.grid is None or not isinstance(self.binaries, Points):
            return None
        positions = self.binaries.positions
        steps = grids.steps_of(positions, self.grid)
        if steps is None or (len(steps) and steps.max() > grids.MOST):
            return None
        rounding = grids.counted(positions, steps, self.grid, self.is_exact)
        return Placed(steps, *rounding) if rounding else None

    def reason(self, place: int) -> str:
        """Returns why a geometry is refused."""
        if self.statuses[place] == library.UNKNOWN:
            return f"W1: {form(self.binaries[place])}"
        fault = self.kept.fault(place)
        return "W1: a coordinate is infinite or no number" if fault.code == "W1" else str(fault)

    def shown(self, place: int) -> str:
        """Returns `valid`, or why a geometry is refused with the place of the fault."""
        if self.is_kept[place]:
            return "valid"
        if self.statuses[place] == library.UNKNOWN or self.kept.fault(place).code[0] == "W":
            return self.reason(place)
        text = binary.text(self.binaries[place], self.grid or UNITS, grids.Shift())
        code, colon, shown = Geometry(text).reason.partition(": ")
        return code + colon + in_source(shown, self.grid)

    def addresses(self, places: Any) -> Any:
        """Returns where the geometries at these places are."""
        return places.astype(numpy.uintp) * ctypes.sizeof(library.CGeometry) + self.kept.address(0)

    def most_positions(self, address: int) -> int:
        """Returns a number of positions that the geometry at an address hasn't more of."""
        return binary.most_positions(self.binaries[(address - self.kept.address(0)) // ctypes.sizeof(library.CGeometry)])

    def has_shape(self) -> bool:
        """Whether a geometry is kept that isn't empty."""
        return any(not self.shapes[at].is_empty for at in numpy.flatnonzero(self.is_kept))

    @functools.cached_property
    def shift(self) -> grids.Shift:
        """How far positions moved. The library counts those that are about on the grid as on it; here a position that moved at all counts."""
        found, shift = self.points or self.kept.shift, grids.Shift()
        shift.add(found.positions, found.moved, found.merged, found.greatest, 0.0)
        # On a grid that has all coordinates, none moved.
        if self.grid is not None and not self.is_exact and found.moved < found.positions:
            count, greatest = grids.moved(self.coordinates(), self.grid, self.points.steps if self.points else None)
            if count > found.moved:
                shift.moved, shift.greatest = count, max(found.greatest, greatest)
        return shift

    def coordinates(self) -> Any:
        """Returns the positions of the geometries that are kept, as rows of an x and a y."""
        if self.positions is not None and self.is_kept.all():
            return self.positions
        if hasattr(shapely, "get_coordinates"):
            return shapely.get_coordinates(self.shapes[self.is_kept])
        lists = []
        for at in numpy.flatnonzero(self.is_kept):
            for part in binary.shape(self.binaries[at]).parts:
                lists += [numpy.asarray(it, dtype=float) for it in part]
        return numpy.concatenate(lists).reshape(-1, 2) if lists else numpy.zeros((0, 2))

    def members(self) -> list[relating.Member]:
        """Returns what is compared of the geometries that are kept, of which empty ones meet none."""
        bounds = self.series.bounds.to_numpy()
        return [
            relating.Member(self.series.index[at], self.binaries[at], self.kept.address(int(at)), (x, right, y, top), self.grid or UNITS)
            for at in numpy.flatnonzero(self.is_kept) for x, y, right, top in (map(float, bounds[at]),) if x == x
        ]

    def said(self) -> dict[str, Any]:
        """Returns what became of the positions and of the geometries."""
        shift = self.shift
        return {
            "positions": shift.positions, "moved": shift.moved, "greatest": shift.greatest, "merged": shift.merged,
            "left_out": len(self.refused),
        }


def parts_of(grid: Optional[grids.Grid]) -> Optional[tuple[int, int, int, int]]:
    """Returns the numbers of a grid as the library takes them. ValueError where they have too many digits."""
    if grid is None:
        return None
    found = grid.in_parts()
    if max(found[0], found[3]) > 10**15 or any(abs(it) > min(10**14 * found[0], 2**63 - 1) for it in found[1:3]):
        raise ValueError("sfq: the step or the origin has too many digits, or the origin is too many steps from 0")
    return found


def form(found: bytes) -> str:
    """Returns the beginning of the text that a geometry of a form would have that sfq doesn't take."""
    try:
        binary.shape(found)
    except binary.NoText as it:
        word = it.form.rstrip(" (")
        return f"{word}: flat=True drops it" if word.endswith((" Z", " ZM", " M")) else word
    return "a ring without positions"


def in_source(text: str, grid: Optional[grids.Grid]) -> str:
    """Returns a line with its positions in the coordinates of the source."""
    if grid is None:
        return text
    axes = grid.x, grid.y

    def number(axis: grids.Axis, word: str) -> str:
        return proposing.spelled(Decimal(repr(float(axis.origin + Fraction(word) * axis.step))))

    return POSITION.sub(lambda it: " ".join(number(axis, word) for axis, word in zip(axes, it.groups())), text)


# ---- the grid ----


def metres(system: Any) -> Optional[float]:
    """Returns how many metres the unit of a reference system has, as a grid is proposed by: None where there is no system."""
    if system is None or not system.axis_info:
        return None
    return proposing.DEGREES if system.is_geographic else float(system.axis_info[0].unit_conversion_factor)


def need_known(options: Options) -> None:
    """ValueError where an option has no meaning."""
    origin = options.origin
    if options.on_invalid not in ("raise", "warn"):
        raise ValueError(f"sfq: on_invalid is 'raise' or 'warn', not {options.on_invalid!r}")
    if origin is not None and (isinstance(origin, str) or len(origin) != 2):
        raise ValueError(f"sfq: an origin is an x and a y, not {origin!r}")
    if options.step is None and origin is not None:
        raise ValueError("sfq: an origin needs a step")


def extent_of(columns: Sequence[Column]) -> Optional[proposing.Extent]:
    """Returns the extent of columns, None where they have no position."""
    found = (it.extent() for it in columns)
    return proposing.joined(proposing.Extent(*it) if it else None for it in found)


def grid_for(columns: Sequence[Column], step: Step, origin: Origin) -> Optional[proposing.Proposal]:
    """Returns the grid of columns, and whether each coordinate is known to lie on it, None where nothing is rounded. ValueError where the
    step or the origin is none.
    """
    if step is None:
        return None
    spelled, given = "" if step == AUTO else str(step), [] if origin is None else [str(it) for it in origin]
    system = next((it.series.crs for it in columns if it.series.crs), None)
    try:
        if spelled and given:
            return proposing.Proposal(grids.Grid(spelled, given), False)
        decimals = proposing.Decimals()
        for it in columns if not spelled else ():
            it.take_decimals(decimals)
        return proposing.proposal(extent_of(columns), metres(system), spelled, ",".join(given), None if spelled else decimals)
    except ValueError as error:
        raise ValueError(f"sfq: {error}") from None


def remedy_for(columns: Sequence[Column], options: Options) -> str:
    """Returns which grid takes all positions: with the same step where one does."""
    extent = extent_of(columns)
    for step in (options.step, AUTO):
        proposal = grid_for(columns, step, None)
        if proposal and extent and proposing.fits(extent, proposal.grid):
            grid = proposal.grid
            return f"; the step {grid.spelled[0]} from the origin {','.join(grid.spelled[1])} takes all positions"
    return ""


def need_one_system(left: Any, right: Any) -> None:
    """ValueError where two GeoSeries have different reference systems. GeoPandas warns where one has none."""
    if left.crs and right.crs and left.crs != right.crs:
        raise ValueError(
            f"sfq: the reference systems differ, {left.crs.to_string()} and {right.crs.to_string()}: bring one to the other by to_crs"
        )


def taken(sides: dict[str, Any], options: Options, places_points: bool = False) -> dict[str, Column]:
    """Returns the columns of GeoSeries on one grid, by their sides. A GeoSeries on two sides has one column, named for the first.

    `places_points` is as in `Column.keep`.
    """
    need_known(options)
    found: dict[str, Column] = {}
    for side, series in sides.items():
        same = next((it for it in found.values() if it.series is series), None)
        found[side] = same or Column(side, series, options.flat)
    proposal = grid_for(list(dict.fromkeys(found.values())), options.step, options.origin)
    for column in dict.fromkeys(found.values()):
        column.keep(proposal, places_points)
    return found


# ---- what is said ----


def listed(rows: Any) -> str:
    """Returns how many rows are refused on each side, and the first of them."""
    found = []
    for side, its in rows.groupby("side", sort=False):
        named = [f"row {row.label!r}: {row.reason}" for row in its.head(NAMED).itertuples()]
        more = f"; and {len(its) - NAMED:,} more" if len(its) > NAMED else ""
        found.append(f"{side}: {len(its):,} refused: {'; '.join(named)}{more}")
    return ". ".join(found)


def refuse(columns: dict[str, Column], options: Options, level: int) -> None:
    """RefusedError where a column refuses a geometry, or a warning to the frame of this level."""
    each = list(dict.fromkeys(columns.values()))
    rows = [(it.side, it.series.index[at], it.reason(at)) for it in each for at in it.refused]
    if rows:
        found = pandas.DataFrame(rows, columns=["side", "label", "reason"])
        remedy = remedy_for(each, options) if any(it[2].startswith("W3") for it in rows) else ""
        if options.on_invalid == "raise":
            raise RefusedError(found, remedy)
        warnings.warn(f"sfq: {listed(found)}{remedy}", LeftOutWarning, stacklevel=level)


def report(columns: dict[str, Column], options: Options, level: int) -> dict[str, Any]:
    """Returns what is said of columns on one grid, and warns the frame of this level where a position moved."""
    each = list(dict.fromkeys(columns.values()))
    step, origin = each[0].grid.spelled if each[0].grid else (None, None)
    if any(it.shift.moved for it in each):
        proposed = "proposed " * (options.step == AUTO)
        words = [f"rounded to the {proposed}step {step} from the origin {','.join(origin or ())}"]
        for side, it in ((column.side, column.said()) for column in each):
            words.append(f"{side}: {it['moved']:,} of {number_of(it['positions'], 'position')} moved by at most {it['greatest']:.3g}, "
                         f"{it['merged']:,} merged")
        warnings.warn(f"sfq: {'; '.join(words)}", RoundingWarning, stacklevel=level)
    return {"step": step, "origin": origin and list(origin), **{side: it.said() for side, it in columns.items()}}
