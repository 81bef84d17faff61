"""The shapes of a layer on the grid: which features are taken, which are left out and why, and how far positions moved.

None of it is proved; what the library says of a shape on the grid is.
"""
from __future__ import annotations

import math
from collections import Counter
from typing import Any, Iterator, Optional, Sequence

from qgis.core import QgsCoordinateTransform, QgsCsException, QgsFeatureRequest, QgsProcessingFeatureSource, QgsUnitTypes

from sfq import Geometry
from sfq.commands.passes import kind
from sfq.geometry import binary, grids
from sfq.geometry.counts import number_of
from sfq.layers import proposing

from .progress import counted


def decimals_of(layers: Sequence[Layer]) -> proposing.Decimals:
    """Returns the decimal numbers that all coordinates of some layers are."""
    found = proposing.Decimals()
    for row in (row for layer in layers for row in layer.rows):
        for part in binary.shape(row.binary).parts if row.binary else ():
            for numbers in part:
                found.add(numbers)
    return found


def metres_of(system: Any) -> Optional[float]:
    """Returns how many metres the unit of a reference system has, as a grid is proposed by: None where it isn't known."""
    unit = system.mapUnits() if system.isValid() else QgsUnitTypes.DistanceUnknownUnit
    if unit == QgsUnitTypes.DistanceUnknownUnit:
        return None
    if unit == QgsUnitTypes.DistanceDegrees:
        return proposing.DEGREES
    return float(QgsUnitTypes.fromUnitToUnitFactor(unit, QgsUnitTypes.DistanceMeters))


def reason_of_form(form: str) -> str:
    """Returns sfq's reason against the beginning of a text, and the words of it."""
    return f"{Geometry(form).reason}: {form.rstrip(' (')}"


def sentence(reason: str) -> str:
    """Returns what a reason means and what to do, in words that speak of no text."""
    code, _, words = kind(reason).partition(": ")
    return f"sfq takes no such shape: {words}" if code == "W1" else words


class Row:
    """A feature, and what is kept of its shape: its well-known binary until that is rounded, then the geometry, or why it is refused.

    A feature without a geometry has neither.
    """

    __slots__ = ("feature", "binary", "geometry", "reason")

    def __init__(self, feature: Any) -> None:
        self.feature = feature
        self.binary: Optional[bytes] = None
        self.geometry: Optional[Geometry] = None
        self.reason = ""

    @property
    def id(self) -> int:
        """The feature's number in its layer."""
        return int(self.feature.id())


class Pair:
    """Two features whose shapes are on the grid."""

    __slots__ = ("first", "second", "one", "other")

    def __init__(self, first: Row, second: Row) -> None:
        assert first.geometry and second.geometry
        self.first, self.second, self.one, self.other = first, second, first.geometry, second.geometry

    @property
    def ids(self) -> list[int]:
        """The numbers of both features."""
        return [self.first.id, self.second.id]


class Layer:
    """A layer: its rows, and what became of them. `system` is the reference system that shapes are brought to."""

    def __init__(self, source: Any, system: Any, context: Any, is_flat: bool = True) -> None:
        self.source, self.name, self.is_flat, self.system = source, source.sourceName(), is_flat, system
        self.transform: Optional[Any] = None
        if source.sourceCrs().isValid() and system.isValid() and source.sourceCrs() != system:
            self.transform = QgsCoordinateTransform(source.sourceCrs(), system, context.transformContext())
        self.rows: list[Row] = []
        self.extent: Optional[proposing.Extent] = None
        self.shift, self.flattened = grids.Shift(), 0

    def read(self, feedback: Any) -> None:
        """Reads the features, and the extent of their shapes."""
        features = self.source.getFeatures(QgsFeatureRequest(), QgsProcessingFeatureSource.FlagSkipGeometryValidityChecks)
        for feature in counted(features, self.source.featureCount(), feedback):
            row = Row(feature)
            self.rows.append(row)
            if feature.hasGeometry():
                self.take(row, feature.geometry())

    def take(self, row: Row, geometry: Any) -> None:
        """Keeps a row's shape, or why sfq has none for it."""
        try:
            if self.transform is not None:
                geometry.transform(self.transform)
            if self.is_flat and (geometry.constGet().is3D() or geometry.constGet().isMeasure()):
                geometry.get().dropZValue()
                geometry.get().dropMValue()
                self.flattened += 1
            given = bytes(geometry.asWkb())
            is_empty = not binary.shape(given).parts
        except QgsCsException:
            row.reason = "W1: a position can't be transformed to the reference system of the other layer"
        except binary.NoText as it:
            row.reason = reason_of_form(it.form)
        else:
            self.reach(row, given, None if is_empty else geometry.boundingBox())

    def reach(self, row: Row, given: bytes, box: Any) -> None:
        """Keeps a shape, and has the extent reach to its bounds, if it has any."""
        if box is not None:
            extent = proposing.Extent(box.xMinimum(), box.xMaximum(), box.yMinimum(), box.yMaximum())
            if not all(map(math.isfinite, extent)):
                row.reason = "W1: a coordinate is infinite or no number"
                return
            self.extent = proposing.joined((extent, self.extent))
        row.binary = given

    def bring_to(self, grid: grids.Grid, feedback: Any) -> None:
        """Brings the shapes to a grid, and has the library check each."""
        for row in counted(self.rows, len(self.rows), feedback):
            if row.binary is None:
                continue
            try:
                made = Geometry(binary.text(row.binary, grid, self.shift))
            except grids.NotANumber as it:
                row.reason = f"W1: {it}"
            else:
                row.geometry, row.reason = (made, "") if made.is_valid else (None, made.reason)
            row.binary = None

    @property
    def taken(self) -> list[Row]:
        """The rows whose shapes the library accepts."""
        return [it for it in self.rows if it.geometry]

    @property
    def left_out(self) -> int:
        """How many features have a shape that is refused."""
        return sum(bool(it.reason) for it in self.rows)

    def lines(self) -> Iterator[tuple[str, bool]]:
        """Yields what there is to say of the layer, each line with whether it is a warning."""
        shift, empty = self.shift, sum(not it.reason and not it.geometry for it in self.rows)
        yield (f"{self.name}: {len(self.taken):,} of {number_of(len(self.rows), 'feature')}; {number_of(shift.positions, 'position')} moved by at most "
               f"{shift.greatest:.3g}, {shift.mean:.3g} in the mean, {shift.merged:,} merged"), False
        for what, count in sorted(Counter(kind(it.reason) for it in self.rows if it.reason).items()):
            yield f"{self.name}: {count:,} left out: {what}", True
        if empty:
            yield f"{self.name}: {empty:,} without a geometry", False
        if self.flattened:
            yield f"{self.name}: {number_of(self.flattened, 'geometry', 'geometries')} without {'its' if self.flattened == 1 else 'their'} Z or M", False

    def report(self, feedback: Any) -> None:
        """Says in the log what became of the layer."""
        for line, is_warning in self.lines():
            (feedback.pushWarning if is_warning else feedback.pushInfo)(line)
