"""GeoPandas with relations that are proved: a spatial join, predicates, matrices, validity, and what shows them.

    >>> import geopandas, sfq.geopandas
    >>> points = geopandas.GeoDataFrame(geometry=geopandas.points_from_xy([1, 9], [1, 9]))
    >>> square = geopandas.GeoDataFrame({"name": ["a"]}, geometry=geopandas.GeoSeries.from_wkt(["POLYGON((0 0,4 0,4 4,0 4,0 0))"]))
    >>> sfq.geopandas.sjoin(points, square, predicate="within")["name"].tolist()
    ['a']

Each function rounds positions to a grid, as sfq-import does, and says so by a RoundingWarning where one moved. `step` is the size of a
step in the unit of the frames, and `origin` an x and a y; what isn't given is proposed from the extent and the unit. With the step None
nothing is rounded, and a coordinate that isn't whole is refused. What is refused raises RefusedError, or counts as missing, with a
LeftOutWarning, where `on_invalid` is "warn". `flat` drops a Z. What came of it is in `attrs["sfq"]` of each result.

What the library says of the rounded geometries is proved; what is here isn't.
"""
from __future__ import annotations

import warnings
from typing import Any, Callable, Iterator, Optional

import geopandas
import numpy
import pandas
from shapely.geometry.base import BaseGeometry

from .geometry import library
from .geometry.shapes import Cell
from .layers import relating
from .layers.frames import (
    AUTO, UNITS, Column, LeftOutWarning, Options, Origin, RefusedError, RoundingWarning, Step, in_source, need_one_system, refuse, report, taken,
)

__all__ = [
    "LeftOutWarning", "RefusedError", "RoundingWarning", "changed", "contains", "contains_properly", "covered_by", "covers", "crosses", "disjoint",
    "equals", "intersects", "is_valid", "is_valid_reason", "overlaps", "relate", "sjoin", "touches", "why", "within",
]
# How many pairs are asked at once, so that Ctrl-C need not wait for all.
PAIRS = 1_000
# The warning that rows are brought together by labels, in words by which filters for the warning of any version of GeoPandas find it.
NOT_ALIGNED = (
    "The indices of the left and right GeoSeries are different, that is not equal, and are aligned: rows are brought together by their "
    "labels. align=True does this without a warning from GeoPandas 1.0 on, and align=False brings rows together by their places."
)
# Before version 1.0 GeoPandas warns whatever `align` is.
WARNS_ALWAYS = geopandas.__version__.startswith("0.")


# ---- the join ----

# The relations of a geometry and a point that are known by the place where the point lies.
OF_POINTS = ("intersects", "touches", "contains", "covers", "contains_properly")
# What holds of the second and the first of a pair where these hold of the first and the second.
TURNED = {"intersects": "intersects", "touches": "touches", "within": "contains", "covered_by": "covers"}
# GeoPandas turns a join by "within" round, and from version 1.0 on it sorts the pairs. By another predicate it makes the same frame of
# the pairs, which are sorted here.
ASKED = {} if WARNS_ALWAYS else {"within": "intersects"}


class Index:
    """What GeoPandas asks in place of the spatial index of one column, for the geometries of the other, by one predicate of these."""

    def __init__(self, tree: Column, others: Column, predicate: str) -> None:
        self.tree, self.others, self.predicate = tree, others, predicate

    def __bool__(self) -> bool:
        """Whether there is something to find. GeoPandas joins no empty geometry, by the predicates that it has."""
        return self.predicate in ("equals", "disjoint") or self.tree.has_shape()

    def query(self, _geometry: Any, predicate: Optional[str] = None, **_words: Any) -> Any:
        """Returns the places of the other geometries and of those here of which the predicate holds, ascending."""
        # Before version 1.0 GeoPandas may have been given another predicate, as `op`.
        one, two, name = self.others, self.tree, predicate if predicate and WARNS_ALWAYS else self.predicate
        if two.points and name in OF_POINTS:
            return places(library.joined_points(library.RELATIONS.index(name), one.kept, two.points.kept))
        if one.points and TURNED.get(name) in OF_POINTS:
            seconds, firsts = places(library.joined_points(library.RELATIONS.index(TURNED[name]), two.kept, one.points.kept))
            return ascending(firsts, seconds, len(two.shapes))
        return places(library.joined(library.RELATIONS.index(name), one.kept, two.kept))

    def query_bulk(self, *words: Any, **more: Any) -> Any:
        """The same by the name that it has before version 1.0."""
        return self.query(*words, **more)


def places(rooms: Iterator[tuple[Any, int]]) -> tuple[Any, Any]:
    """Returns the places of the first geometries of pairs, and of the second ones."""
    found = [numpy.zeros((0, 2), dtype=numpy.intp)]
    for room, count in rooms:
        found.append(numpy.frombuffer(room, dtype=numpy.intp, count=2 * count).reshape(-1, 2).copy())
    pairs = numpy.concatenate(found)
    return pairs[:, 0], pairs[:, 1]


def ascending(firsts: Any, seconds: Any, count: int) -> tuple[Any, Any]:
    """Returns pairs of places in their order, by the first of each and then by the second, which is less than a number."""
    ranks = firsts * count + seconds
    ranks.sort()
    found = ranks // max(1, count)
    return found, ranks - found * count


def with_index(frame: Any, index: Index) -> Any:
    """Returns a frame with the same data whose spatial index is this one."""
    found = frame.copy(deep=False)
    found.__class__ = type("Indexed", (type(frame),), {"sindex": index, "plain": type(frame)})
    return found


def without_index(frame: Any) -> Any:
    """Returns a frame that GeoPandas made of one with an index, as a frame of the class that this one had."""
    frame.__class__ = getattr(type(frame), "plain", type(frame))
    return frame


def sjoin(
    left_df: Any, right_df: Any, how: str = "inner", predicate: str = "intersects", lsuffix: str = "left", rsuffix: str = "right", *,
    step: Step = AUTO, origin: Origin = None, flat: bool = False, on_invalid: str = "raise", relations: bool = False, **words: Any,
) -> Any:
    """Returns the spatial join of two GeoDataFrames as geopandas.sjoin does, with the predicates of sfq.

    With `relations` the result's `attrs["sfq"]["relations"]` says which pairs of rows have another relation on the grid than in the
    source, as `changed` does: a sentence, and the number of pairs that meet and of those that changed.

    `predicate` is one of GeoPandas' or `equals` or `disjoint`. The result has GeoPandas' columns, index and order of rows, those of
    one row of the frame that is gone through ascending by the other's. A missing geometry is in no pair. An empty one is equal to
    another one, disjoint from all, and in no other pair. ValueError where the frames have different reference systems.
    """
    for name, frame in (("left_df", left_df), ("right_df", right_df)):
        if not isinstance(frame, geopandas.GeoDataFrame):
            raise ValueError(f"'{name}' should be GeoDataFrame, got {type(frame)}")
    if predicate not in library.RELATIONS:
        raise ValueError(f"sfq: a predicate is one of {', '.join(library.RELATIONS)}, not {predicate!r}")
    options = Options(step, origin, flat, on_invalid)
    need_one_system(left_df, right_df)
    series = left_df.geometry
    sides = taken({"left": series, "right": series if right_df is left_df else right_df.geometry}, options, places_points=True)
    refuse(sides, options, 3)
    said, left, right = report(sides, options, 3), sides["left"], sides["right"]
    # GeoPandas asks the index of the left frame where it turns "within" round, and then which of the right geometries contain which there.
    of_left, of_right = Index(left, right, "contains"), Index(right, left, predicate)
    found = without_index(geopandas.sjoin(
        with_index(left_df, of_left), with_index(right_df, of_right), how=how, predicate=ASKED.get(predicate, predicate), lsuffix=lsuffix,
        rsuffix=rsuffix, **words,
    ))
    found.attrs["sfq"] = said
    if relations:
        of_pairs = compared(left, right)
        said["relations"] = {"pairs": of_pairs.meeting, "changed": len(of_pairs.changes), "said": relating.line(of_pairs)}
    return found


def compared(left: Column, right: Column) -> relating.Found:
    """Returns which pairs of rows have another relation on the grid than in the source."""

    def ask(pairs: list[tuple[int, int]]) -> list[str]:
        firsts, seconds = (numpy.array(each, dtype=numpy.uintp) for each in zip(*pairs))
        return library.relate_addresses(firsts.ctypes.data, seconds.ctypes.data, len(pairs))

    comparison = relating.Comparison(left.grid or UNITS, relating.of_shapely(), ask, lambda _done, _total: None)
    return comparison.run(left.members(), *([] if left is right else [right.members()]))


def changed(
    left_df: Any, right_df: Any = None, *, step: Step = AUTO, origin: Origin = None, flat: bool = False, on_invalid: str = "raise",
) -> Any:
    """Returns the pairs of rows that rounding relates otherwise than the source does, as a GeoDataFrame; of one frame each pair once.

    Its columns are the labels of both rows, the exact relation `before` and the one `after` rounding, and `geometry`, a point of the
    source that shows the greater one of them. `attrs["sfq"]["relations"]` is as that of `sjoin`.
    """
    options, series = Options(step, origin, flat, on_invalid), left_df.geometry
    other = series if right_df is None or right_df is left_df else right_df.geometry
    need_one_system(series, other)
    sides = taken({"left": series, "right": other}, options)
    refuse(sides, options, 3)
    said, found = report(sides, options, 3), compared(sides["left"], sides["right"])
    rows = [(it.key, it.other, it.before, it.after) for it in found.changes]
    places = geopandas.points_from_xy([it.x for it in found.changes], [it.y for it in found.changes])
    frame = geopandas.GeoDataFrame(pandas.DataFrame(rows, columns=["left", "right", "before", "after"]), geometry=places, crs=series.crs)
    said["relations"] = {"pairs": found.meeting, "changed": len(found.changes), "said": relating.line(found)}
    frame.attrs["sfq"] = said
    return frame


# ---- pairs of rows ----


class Pairs:
    """The pairs of two GeoSeries, row by row, or of a GeoSeries and one geometry."""

    def __init__(self, left: Any, right: Any, align: Optional[bool], options: Options) -> None:
        one, other = aligned(left, right, align)
        need_one_system(one, other)
        sides = taken({"left": one, "right": other}, options)
        refuse(sides, options, 4)
        self.said = report(sides, options, 4)
        self.index, self.left, self.right = one.index, sides["left"], sides["right"]
        is_one = not isinstance(right, (geopandas.GeoSeries, geopandas.GeoDataFrame))
        self.places = numpy.zeros(len(one), dtype=numpy.intp) if is_one else numpy.arange(len(one))
        self.is_there = self.left.is_kept & self.right.is_kept[self.places]

    def chunks(self) -> Iterator[tuple[Any, Any, Any]]:
        """Yields places of rows that have both geometries, and where these are."""
        there = numpy.flatnonzero(self.is_there)
        for at in range(0, len(there), PAIRS):
            rows = there[at:at + PAIRS]
            yield rows, self.left.addresses(rows), self.right.addresses(self.places[rows])

    def series(self, ask: Callable[[Any, Any], Any], missing: Any, kind: Any) -> Any:
        """Returns what is said of each row, and what a row has that lacks a geometry. `ask` takes arrays of addresses."""
        values = numpy.full(len(self.index), missing, dtype=kind)
        for rows, firsts, seconds in self.chunks():
            values[rows] = ask(firsts, seconds)
        found = pandas.Series(values, index=self.index)
        found.attrs["sfq"] = self.said
        return found


def aligned(left: Any, right: Any, align: Optional[bool]) -> tuple[Any, Any]:
    """Returns two GeoSeries with the same rows, as GeoPandas aligns them; one geometry as a GeoSeries of its own."""
    one = left.geometry
    if not isinstance(right, (geopandas.GeoSeries, geopandas.GeoDataFrame)):
        if not isinstance(right, BaseGeometry):
            raise TypeError(f"sfq: the right side is a GeoSeries or a geometry of shapely, not {type(right).__name__}")
        return one, geopandas.GeoSeries([right], crs=one.crs)
    other = right.geometry
    if align is not False and not one.index.equals(other.index):
        if align is None or WARNS_ALWAYS:
            warnings.warn(NOT_ALIGNED, UserWarning, stacklevel=4)
        first, second = one.align(other)
        return first, second
    if len(one) != len(other):
        raise ValueError(f"Lengths of inputs do not match. Left: {len(one)}, Right: {len(other)}")
    return one, other


def predicate_of(name: str, says: str) -> Callable[..., Any]:
    """Returns the function of a predicate of two GeoSeries, or of a GeoSeries and one geometry."""
    relation = library.RELATIONS.index(name)

    def ask(firsts: Any, seconds: Any) -> Any:
        answers = numpy.zeros(len(firsts), dtype=numpy.bool_)
        library.holds_many(relation, firsts.ctypes.data, seconds.ctypes.data, len(firsts), answers.ctypes.data)
        return answers

    def holds(
        left: Any, right: Any, align: Optional[bool] = None, *, step: Step = AUTO, origin: Origin = None, flat: bool = False,
        on_invalid: str = "raise",
    ) -> Any:
        return Pairs(left, right, align, Options(step, origin, flat, on_invalid)).series(ask, False, bool)

    holds.__name__ = holds.__qualname__ = name
    holds.__doc__ = f"Returns for each row whether {says}; False where a geometry is missing. `align` is as in `relate`."
    return holds


equals = predicate_of("equals", "both are the same set of points (06-103r4, 6.1.15.3)")
disjoint = predicate_of("disjoint", "they share no point (06-103r4, 6.1.15.3)")
intersects = predicate_of("intersects", "they share a point (06-103r4, 6.1.15.3)")
touches = predicate_of("touches", "they share a point, and no point of both interiors (06-103r4, 6.1.15.3)")
crosses = predicate_of("crosses", "they cross (06-103r4, 6.1.15.3)")
within = predicate_of("within", "the interiors share a point, and none of the left one is outside the right (06-103r4, 6.1.15.3)")
contains = predicate_of("contains", "the right one is within the left (06-103r4, 6.1.15.3)")
overlaps = predicate_of("overlaps", "they overlap (06-103r4, 6.1.15.3)")
covers = predicate_of("covers", "they share a point, and none of the right one is outside the left")
covered_by = predicate_of("covered_by", "they share a point, and none of the left one is outside the right")
contains_properly = predicate_of("contains_properly", "they share a point, and all of the right one is in the interior of the left")


def relate(
    left: Any, right: Any, align: Optional[bool] = None, *, step: Step = AUTO, origin: Origin = None, flat: bool = False,
    on_invalid: str = "raise",
) -> Any:
    """Returns the DE-9IM matrix of each row of two GeoSeries, or of a GeoSeries and one geometry (06-103r4, 6.1.15.2).

    `align` is as GeoPandas has it: rows are brought together by their labels, with a warning unless it is True, and before version 1.0
    always; or by their places where it is False. None where a geometry is missing.
    """

    def ask(firsts: Any, seconds: Any) -> Any:
        return library.relate_addresses(firsts.ctypes.data, seconds.ctypes.data, len(firsts))

    return Pairs(left, right, align, Options(step, origin, flat, on_invalid)).series(ask, None, object)


def why(
    left: Any, right: Any, align: Optional[bool] = None, *, step: Step = AUTO, origin: Origin = None, flat: bool = False,
    on_invalid: str = "raise",
) -> Any:
    """Returns for each row of two GeoSeries the nine cells of the matrix, each with what shows it in the source's coordinates.

    The cells of two large geometries are made in a process of their own, which Ctrl-C ends. MemoryError where they take more than 1 GiB.
    """
    pairs = Pairs(left, right, align, Options(step, origin, flat, on_invalid))

    def cells(first: int, second: int) -> list[Cell]:
        most_pairs = pairs.left.most_positions(first) * pairs.right.most_positions(second)
        lines = library.why_addresses(first, second, most_pairs).splitlines()
        return [Cell(*in_source(line, pairs.left.grid).split(" ", 3)) for line in lines]

    def ask(firsts: Any, seconds: Any) -> Any:
        values = numpy.empty(len(firsts), dtype=object)
        values[:] = [cells(int(first), int(second)) for first, second in zip(firsts, seconds)]
        return values

    return pairs.series(ask, None, object)


# ---- validity ----


def checked(shapes: Any, options: Options) -> tuple[Any, Column, Any]:
    """Returns a GeoSeries, its geometries on the grid, and what is said of that. What is refused is the answer here."""
    series = shapes.geometry
    sides = taken({"series": series}, options)
    return series, sides["series"], report(sides, options, 4)


def is_valid(shapes: Any, *, step: Step = AUTO, origin: Origin = None, flat: bool = False) -> Any:
    """Returns for each geometry of a GeoSeries whether it is valid once it is rounded; False for a missing one."""
    series, column, said = checked(shapes, Options(step, origin, flat, "warn"))
    found = pandas.Series(column.is_kept, index=series.index)
    found.attrs["sfq"] = said
    return found


def is_valid_reason(shapes: Any, *, step: Step = AUTO, origin: Origin = None, flat: bool = False) -> Any:
    """Returns for each geometry `valid`, or why it is refused and where, in the source's coordinates; None for a missing one."""
    series, column, said = checked(shapes, Options(step, origin, flat, "warn"))
    reasons = [None if status == library.NONE else column.shown(at) for at, status in enumerate(column.statuses)]
    found = pandas.Series(reasons, index=series.index, dtype=object)
    found.attrs["sfq"] = said
    return found
