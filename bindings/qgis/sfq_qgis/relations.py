"""Relations of two layers: the matrix of each pair, and which relations hold."""
from __future__ import annotations

from typing import Any

from qgis.core import QgsProcessing, QgsProcessingOutputNumber, QgsProcessingParameterFeatureSink, QgsWkbTypes
from qgis.PyQt.QtCore import QVariant

from sfq.geometry.library import RELATIONS

from .basis import Grounds, OfTwo, fields_of, pairs

FIELDS = fields_of(
    input_id=QVariant.LongLong, other_id=QVariant.LongLong, matrix=QVariant.String, **{it: QVariant.Bool for it in RELATIONS}
)


class Relations(OfTwo):
    """A table with a row for each pair."""

    NAME, TITLE = "relationsoftwolayers", "Relations of two layers (proved)"
    HELP = """
<p>Makes a table with a row for each pair of a feature of one layer and one of another: the numbers of both features, the DE-9IM matrix, and
whether each relation holds. The matrix has nine characters, which say in which dimension interiors, boundaries and exteriors meet: 0, 1, 2,
or F where they don't. All of it is proved.</p>
<p>Pairs whose envelopes don't meet are disjoint. They are left out unless you ask for them.</p>
"""

    def add_own(self) -> None:
        self.add_all()
        self.addParameter(QgsProcessingParameterFeatureSink("OUTPUT", "Relations", QgsProcessing.TypeVector))
        self.addOutput(QgsProcessingOutputNumber("PAIRS", "Pairs"))

    def work(self, parameters: Any, context: Any, grounds: Grounds) -> dict[str, Any]:
        system = grounds.layers[0].system
        sink = self.sink(parameters, "OUTPUT", context, FIELDS, QgsWkbTypes.NoGeometry, system)
        for it in pairs(grounds, self.parameterAsBool(parameters, "ALL", context)):
            held = [getattr(it.one, name)(it.other) for name in RELATIONS]
            sink.add([*it.ids, it.one.relate(it.other), *held])
        return {"OUTPUT": sink.closed(), "PAIRS": sink.count}
