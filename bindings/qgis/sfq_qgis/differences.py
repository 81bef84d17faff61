"""Differences from GEOS: the pairs of which QGIS's own engine says something else."""
from __future__ import annotations

from fractions import Fraction
from typing import Any, Iterator

from qgis.core import QgsGeometry, QgsProcessing, QgsProcessingOutputNumber, QgsProcessingParameterFeatureSink, QgsWkbTypes
from qgis.PyQt.QtCore import QVariant

from .basis import Grounds, OfTwo, candidates, fields_of
from .layers import Pair
from .places import on_map
from .progress import watched

# The relations that QGIS asks of GEOS: as sfq calls each, and as QGIS does.
ASKED = {
    "equals": "isEqual", "disjoint": "disjoint", "intersects": "intersects", "touches": "touches", "crosses": "crosses", "within": "within",
    "contains": "contains", "overlaps": "overlaps",
}
FIELDS = fields_of(
    input_id=QVariant.LongLong, other_id=QVariant.LongLong, asked=QVariant.String, sfq=QVariant.String, geos=QVariant.String,
    text=QVariant.String, other_text=QVariant.String,
)


class Differences(OfTwo):
    """A layer with a point for each answer that differs."""

    NAME, TITLE = "differencesfromgeos", "Differences from GEOS"
    HELP = """
<p>Asks GEOS, which QGIS relates shapes by, and the proved engine the same of each pair of features, and lists the answers that differ. Both
get the same shapes with whole coordinates, those of the grid, so rounding is no reason. Where they differ, the proved answer is that of
the sets of points.</p>
<p>The layer has a point for each answer: in the middle of what the envelopes of both shapes share. Fields have the numbers of both features,
what was asked (matrix, or a relation), both answers, and both shapes on the grid as text. GEOS is asked as QGIS asks it, with prepared
shapes. An answer "fails" is one that GEOS broke off.</p>
"""

    def add_own(self) -> None:
        self.add_all()
        self.addParameter(QgsProcessingParameterFeatureSink("OUTPUT", "Differences", QgsProcessing.TypeVectorPoint))
        self.addOutput(QgsProcessingOutputNumber("PAIRS", "Pairs"))
        self.addOutput(QgsProcessingOutputNumber("DIFFERENCES", "Answers that differ"))

    def work(self, parameters: Any, context: Any, grounds: Grounds) -> dict[str, Any]:
        sink, count = self.sink(parameters, "OUTPUT", context, FIELDS, QgsWkbTypes.Point, grounds.layers[0].system), 0
        shapes: dict[int, Any] = {}
        for row, others in candidates(grounds, self.parameterAsBool(parameters, "ALL", context)):
            prepared = Prepared(QgsGeometry.fromWkt(row.geometry.text)) if row.geometry and others else None
            for other in watched(others, grounds.feedback):
                pair, count = Pair(row, other), count + 1
                if other.id not in shapes:
                    shapes[other.id] = QgsGeometry.fromWkt(pair.other.text)
                for asked, ours, theirs in differences(pair, prepared, shapes[other.id]):
                    sink.add([*pair.ids, asked, ours, theirs, pair.one.text, pair.other.text], between(pair, grounds))
        return {"OUTPUT": sink.closed(), "PAIRS": count, "DIFFERENCES": sink.count}


class Prepared:
    """A shape that GEOS has made ready for many questions."""

    def __init__(self, shape: Any) -> None:
        self.shape = shape
        self.engine = QgsGeometry.createGeometryEngine(shape.constGet())
        self.engine.prepareGeometry()

    def matrix(self, other: Any) -> str:
        return str(self.engine.relate(other.constGet())) or "fails"

    def holds(self, name: str, other: Any) -> str:
        return word(getattr(self.engine, ASKED[name])(other.constGet()))


def word(holds: bool) -> str:
    return "true" if holds else "false"


def differences(pair: Pair, prepared: Any, shape: Any) -> Iterator[tuple[str, str, str]]:
    """Yields what was asked, the proved answer, and GEOS's, where it is another one."""
    ours, theirs = pair.one.relate(pair.other), prepared.matrix(shape)
    if ours != theirs:
        yield "matrix", ours, theirs
    for name in ASKED:
        ours, theirs = word(getattr(pair.one, name)(pair.other)), prepared.holds(name, shape)
        if ours != theirs:
            yield name, ours, theirs


def between(pair: Pair, grounds: Grounds) -> Any:
    """Returns the middle of what the envelopes of both shapes share; a null geometry where they share nothing."""
    one, other = pair.one.bounds, pair.other.bounds
    if not one or not other:
        return QgsGeometry()
    low = [max(one[at], other[at]) for at in (0, 1)]
    high = [min(one[at], other[at]) for at in (2, 3)]
    if low[0] > high[0] or low[1] > high[1]:
        return QgsGeometry()
    return on_map((Fraction(low[0] + high[0], 2), Fraction(low[1] + high[1], 2)), grounds.grid)
