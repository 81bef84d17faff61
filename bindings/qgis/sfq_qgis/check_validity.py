"""Check validity: where the shapes of a layer aren't valid, and why."""
from __future__ import annotations

import math
from typing import Any

from qgis.core import QgsGeometry, QgsPointXY, QgsProcessing, QgsProcessingOutputNumber, QgsProcessingParameterFeatureSink, QgsWkbTypes
from qgis.PyQt.QtCore import QVariant

from .basis import Algorithm, Grounds, fields_of
from .layers import Row, sentence
from .places import shown_on_map
from .progress import counted

FIELDS = fields_of(input_id=QVariant.LongLong, code=QVariant.String, sentence=QVariant.String, reason=QVariant.String)


class CheckValidity(Algorithm):
    """A layer of the faults' places, and the features with a fault and without."""

    NAME, TITLE = "checkvalidity", "Check validity (proved)"
    HELP = """
<p>Finds the features whose shapes aren't valid by OGC 06-103r4, on a grid of whole numbers. That a shape is valid, or has the fault that is
named, is proved.</p>
<p>The layer of faults has a point for each shape that is refused: where a ring crosses itself (V3), where two rings or two parts meet (V4,
V7), the position of a hole that is outside (V5). Of a shape with several faults it is the first. Fields have the feature's number, the
code, what it means and what to do, and the engine's own reason in coordinates of the grid. Codes W are forms that the engine doesn't
take, such as curves; their point is the first one of the shape.</p>
<p>It is stricter than the standard in one thing: no two rings of a polygon and no two parts of a multipolygon may share even one point.
And rounding can make a shape invalid that was valid, such as a splinter that is narrower than a step.</p>
"""

    def add_own(self) -> None:
        add = self.addParameter
        add(QgsProcessingParameterFeatureSink("FAULTS", "Faults", QgsProcessing.TypeVectorPoint))
        for name, title in (("VALID", "Features that are valid"), ("REFUSED", "Features with a fault")):
            add(QgsProcessingParameterFeatureSink(name, title, QgsProcessing.TypeVectorAnyGeometry, None, True, False))
        for name, what in (("VALID_COUNT", "valid"), ("FAULT_COUNT", "with a fault"), ("NULL_COUNT", "without a geometry")):
            self.addOutput(QgsProcessingOutputNumber(name, f"Features {what}"))

    def work(self, parameters: Any, context: Any, grounds: Grounds) -> dict[str, Any]:
        layer, source = grounds.layers[0], grounds.layers[0].source
        faults = self.sink(parameters, "FAULTS", context, FIELDS, QgsWkbTypes.Point, source.sourceCrs())
        sinks = [self.sink(parameters, it, context, source.fields(), source.wkbType(), source.sourceCrs()) for it in ("VALID", "REFUSED")]
        count = 0
        for row in counted(layer.rows, len(layer.rows), grounds.feedback):
            if row.reason:
                faults.add([row.id, row.reason[:2], sentence(row.reason), row.reason], self.place(row, grounds))
            elif row.geometry:
                count += 1
            if row.reason or row.geometry:
                sinks[bool(row.reason)].add(row.feature.attributes(), row.feature.geometry())
        found = {name: it.closed() for name, it in zip(("FAULTS", "VALID", "REFUSED"), (faults, *sinks)) if it.place}
        return {**found, "VALID_COUNT": count, "FAULT_COUNT": layer.left_out, "NULL_COUNT": len(layer.rows) - count - layer.left_out}

    def place(self, row: Row, grounds: Grounds) -> Any:
        """Returns where a fault is: of a code V what the engine shows, of a code W the first position of the shape, if it has one."""
        if row.reason[0] == "V":
            return shown_on_map(row.reason, grounds.grid)
        return first_position(row.feature.geometry())


def first_position(shape: Any) -> Any:
    """Returns the first position of a shape as a point; a null geometry where it has none with numbers."""
    found = next((it for it in shape.vertices() if math.isfinite(it.x()) and math.isfinite(it.y())), None)
    return QgsGeometry() if found is None else QgsGeometry.fromPointXY(QgsPointXY(found.x(), found.y()))
