"""Why: the points that show the matrix of each pair."""
from __future__ import annotations

from typing import Any

from qgis.core import QgsProcessing, QgsProcessingOutputNumber, QgsProcessingParameterFeatureSink, QgsWkbTypes
from qgis.PyQt.QtCore import QVariant

from .basis import Grounds, OfTwo, fields_of, pairs
from .places import shown_on_map

FIELDS = fields_of(
    input_id=QVariant.LongLong, other_id=QVariant.LongLong, matrix=QVariant.String, of_input=QVariant.String, of_other=QVariant.String,
    dimension=QVariant.Int, shown=QVariant.String,
)


class Why(OfTwo):
    """A layer with a point for each cell that isn't F."""

    NAME, TITLE = "why", "Why (proved)"
    HELP = """
<p>Shows why two features are related as they are. For each cell of their DE-9IM matrix that isn't F the layer has a point that both parts
share: interior and interior, interior and boundary, and so on.</p>
<p>Fields have the numbers of both features, the matrix, the two parts, the dimension of what they share, and what the engine shows in
coordinates of the grid: a point, a stretch by its ends, or a point with all points around it. Of a stretch the layer has the middle. That
it shows the cell is proved on the grid; on the map a fraction is the nearest number that a computer has.</p>
<p>Select a few features before you ask: each pair has up to nine points.</p>
"""

    def add_own(self) -> None:
        self.add_all()
        self.addParameter(QgsProcessingParameterFeatureSink("OUTPUT", "Witnesses", QgsProcessing.TypeVectorPoint))
        self.addOutput(QgsProcessingOutputNumber("PAIRS", "Pairs"))
        self.addOutput(QgsProcessingOutputNumber("POINTS", "Points"))

    def work(self, parameters: Any, context: Any, grounds: Grounds) -> dict[str, Any]:
        sink, count = self.sink(parameters, "OUTPUT", context, FIELDS, QgsWkbTypes.Point, grounds.layers[0].system), 0
        for count, it in enumerate(pairs(grounds, self.parameterAsBool(parameters, "ALL", context)), 1):
            cells = it.one.why(it.other)
            matrix = "".join(cell.dimension for cell in cells)
            for cell in cells:
                if cell.shown:
                    values = [matrix, cell.first, cell.second, int(cell.dimension), cell.shown]
                    sink.add([*it.ids, *values], shown_on_map(cell.shown, grounds.grid))
        return {"OUTPUT": sink.closed(), "PAIRS": count, "POINTS": sink.count}
