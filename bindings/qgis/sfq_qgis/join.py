"""Join by relation: the attributes of features of another layer to which a relation holds."""
from __future__ import annotations

from itertools import islice
from typing import Any

from qgis.core import (
    QgsProcessing, QgsProcessingOutputNumber, QgsProcessingParameterBoolean, QgsProcessingParameterEnum, QgsProcessingParameterFeatureSink,
    QgsProcessingParameterField, QgsProcessingParameterString, QgsProcessingUtils,
)

from .asking import ByRelation, related
from .basis import Grounds


class JoinByRelation(ByRelation):
    """Each feature of the layer with the attributes of those of the other that it is related to."""

    NAME, TITLE = "joinbyrelation", "Join by relation (proved)"
    HELP = """
<p>Gives each feature of a layer the attributes of the features of another layer to which a relation holds. The shapes are those of the
layer, as they are.</p>
<p>A feature that is related to several comes once for each of them, or with the first alone. One that is related to none comes without
attributes of the other layer, or not at all. One whose shape is refused doesn't come: the log says how many these are.</p>
"""

    def add_own(self) -> None:
        add = self.addParameter
        self.add_relation()
        add(QgsProcessingParameterField("FIELDS", "Fields of the other layer (empty: all)", None, "OTHER", allowMultiple=True, optional=True))
        add(QgsProcessingParameterEnum("METHOD", "Join", ["each related feature", "the first related feature alone"], defaultValue=0))
        add(QgsProcessingParameterBoolean("DISCARD", "Leave out features that are related to none", False))
        add(QgsProcessingParameterString("PREFIX", "Prefix of the other layer's fields", "", optional=True))
        add(QgsProcessingParameterFeatureSink("OUTPUT", "Joined layer", QgsProcessing.TypeVectorAnyGeometry))
        for name, title in (("PAIRS", "Related pairs"), ("RELATED", "Features that are related"), ("UNRELATED", "Features that are related to none")):
            self.addOutput(QgsProcessingOutputNumber(name, title))

    def work(self, parameters: Any, context: Any, grounds: Grounds) -> dict[str, Any]:
        source, other = (it.source for it in grounds.layers)
        names = self.parameterAsFields(parameters, "FIELDS", context) or [it.name() for it in other.fields()]
        places = [other.fields().lookupField(it) for it in names]
        joined = QgsProcessingUtils.indicesToFields(places, other.fields())
        fields = QgsProcessingUtils.combineFields(source.fields(), joined, self.parameterAsString(parameters, "PREFIX", context) or "")
        sink = self.sink(parameters, "OUTPUT", context, fields, source.wkbType(), source.sourceCrs())
        most = 1 if self.parameterAsEnum(parameters, "METHOD", context) else None
        discards, nothing = self.parameterAsBool(parameters, "DISCARD", context), [None] * len(places)
        count = 0
        matched: set[int] = set()
        for row, others in related(grounds, self.asked(parameters, context)):
            for it in islice(others, most):
                count += 1
                matched.add(row.id)
                attributes = it.feature.attributes()
                sink.add(row.feature.attributes() + [attributes[at] for at in places], row.feature.geometry())
            if row.id not in matched and not discards:
                sink.add(row.feature.attributes() + nothing, row.feature.geometry())
        alone = [it for it in grounds.layers[0].rows if not it.geometry and not it.reason]
        for row in alone if not discards else []:
            sink.add(row.feature.attributes() + nothing)
        unrelated = len(grounds.layers[0].taken) - len(matched) + len(alone)
        return {"OUTPUT": sink.closed(), "PAIRS": count, "RELATED": len(matched), "UNRELATED": unrelated}
