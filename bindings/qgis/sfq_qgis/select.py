"""Select by relation: the features of a layer that are related to one of another layer."""
from __future__ import annotations

from typing import Any

from qgis.core import (
    QgsProcessing, QgsProcessingException, QgsProcessingOutputNumber, QgsProcessingOutputVectorLayer, QgsProcessingParameterEnum,
    QgsProcessingParameterVectorLayer, QgsProcessingUtils, QgsVectorLayer,
)

from .asking import ByRelation, related
from .basis import Grounds

# What becomes of the selection that is there: as it is called, and as QGIS does it.
METHODS = {
    "a new selection": QgsVectorLayer.SetSelection,
    "add to the selection": QgsVectorLayer.AddToSelection,
    "select within the selection": QgsVectorLayer.IntersectSelection,
    "remove from the selection": QgsVectorLayer.RemoveFromSelection,
}


class SelectByRelation(ByRelation):
    """Selects the features that are related."""

    NAME, TITLE = "selectbyrelation", "Select by relation (proved)"
    HELP = """
<p>Selects the features of a layer that are related to a feature of another layer.</p>
<p>A feature whose shape is refused is never found: the log says how many these are.</p>
"""

    def add_layer(self, name: str, title: str) -> None:
        if name == "INPUT":
            self.addParameter(QgsProcessingParameterVectorLayer(name, title, [QgsProcessing.TypeVectorAnyGeometry]))
        else:
            super().add_layer(name, title)

    def add_own(self) -> None:
        self.add_relation()
        self.addParameter(QgsProcessingParameterEnum("METHOD", "Make", list(METHODS), defaultValue=0))
        self.addOutput(QgsProcessingOutputVectorLayer("OUTPUT", "Layer"))
        self.addOutput(QgsProcessingOutputNumber("RELATED", "Features that are related"))

    def work(self, parameters: Any, context: Any, grounds: Grounds) -> dict[str, Any]:
        found = related(grounds, self.asked(parameters, context))
        self.found = [row.id for row, others in found if next(others, None) is not None]
        self.method = list(METHODS.values())[self.parameterAsEnum(parameters, "METHOD", context)]
        self.place = self.parameterAsVectorLayer(parameters, "INPUT", context).id()
        return {"OUTPUT": self.place, "RELATED": len(self.found)}

    def postProcessAlgorithm(self, context: Any, _feedback: Any) -> dict[str, Any]:
        """Selects what was found: the layer is QGIS's own here, in its main thread."""
        layer = QgsProcessingUtils.mapLayerFromString(self.place, context)
        if layer is None:
            raise QgsProcessingException("the layer was closed meanwhile")
        layer.selectByIds(self.found, self.method)
        return {}
