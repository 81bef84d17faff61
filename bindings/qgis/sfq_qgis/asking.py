"""Which relation is asked of pairs: some of the named ones, or a pattern of the matrix."""
from __future__ import annotations

import re
from typing import Any, Iterator

from qgis.core import QgsProcessingParameterEnum, QgsProcessingParameterString

from sfq import Geometry
from sfq.geometry.library import RELATIONS

from .basis import Grounds, OfTwo, candidates
from .layers import Row
from .progress import watched

# What a relation is called in the list of choices.
TITLES = [it.replace("_", " ") for it in RELATIONS]
PATTERN = re.compile(r"[TtFf*012]{9}")
RELATION_HELP = """
<h3>Relations</h3>
<p>A pair counts where one of the chosen relations holds, as the standard OGC 06-103r4 defines them, and covers, covered by and contains
properly. A pattern takes the place of the list: nine characters T, F, *, 0, 1 or 2 for the matrix of interiors, boundaries and
exteriors, as in FF*FF****. The engine's answers are proved: it never rounds.</p>
"""


class Asked:
    """A relation that is asked of pairs."""

    def __init__(self, names: list[str], pattern: str) -> None:
        self.names, self.pattern = names, pattern

    @property
    def needs_all(self) -> bool:
        """Whether it may hold of shapes whose envelopes don't meet."""
        if self.pattern:
            return all(self.pattern[at] in "Ff*" for at in (0, 1, 3, 4))
        return "disjoint" in self.names

    def holds(self, one: Geometry, other: Geometry) -> bool:
        """Whether it holds of two shapes."""
        if self.pattern:
            return one.relate_pattern(other, self.pattern)
        return any(getattr(one, name)(other) for name in self.names)


class ByRelation(OfTwo):
    """An algorithm that asks a relation of each feature and those of the other layer."""

    MORE_HELP = RELATION_HELP + OfTwo.MORE_HELP

    def add_relation(self) -> None:
        """Adds the parameters of the relation."""
        self.addParameter(QgsProcessingParameterEnum(
            "RELATION", "Where the features of the layer (relation) those of the other", TITLES, allowMultiple=True,
            defaultValue=[RELATIONS.index("intersects")], optional=True,
        ))
        self.addParameter(QgsProcessingParameterString("PATTERN", "Pattern of the matrix, in place of the relations", "", optional=True))

    def checkParameterValues(self, parameters: Any, context: Any) -> tuple[bool, str]:
        pattern = self.text(parameters, "PATTERN", context)
        if pattern and not PATTERN.fullmatch(pattern):
            return False, f"a pattern is nine characters T, F, *, 0, 1 or 2, not {pattern!r}"
        if not pattern and not self.parameterAsEnums(parameters, "RELATION", context):
            return False, "choose a relation, or write a pattern"
        return super().checkParameterValues(parameters, context)

    def asked(self, parameters: Any, context: Any) -> Asked:
        """Returns the relation that is asked."""
        names = [RELATIONS[at] for at in self.parameterAsEnums(parameters, "RELATION", context)]
        return Asked(names, self.text(parameters, "PATTERN", context))


def related(grounds: Grounds, asked: Asked) -> Iterator[tuple[Row, Iterator[Row]]]:
    """Yields each feature of the first layer whose shape is taken, with those of the second of which the relation holds."""
    for row, others in candidates(grounds, asked.needs_all):
        yield row, (it for it in watched(others, grounds.feedback) if row.geometry and it.geometry and asked.holds(row.geometry, it.geometry))
