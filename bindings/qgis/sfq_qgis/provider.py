"""The provider of the algorithms in Processing."""
from __future__ import annotations

from typing import Any

from qgis.core import QgsProcessingProvider

from .basis import icon, missing_library
from .check_validity import CheckValidity
from .differences import Differences
from .join import JoinByRelation
from .relations import Relations
from .select import SelectByRelation
from .why import Why


class Provider(QgsProcessingProvider):
    """All algorithms, under the name sfq."""

    def loadAlgorithms(self) -> None:
        for kind in (CheckValidity, JoinByRelation, SelectByRelation, Relations, Why, Differences):
            self.addAlgorithm(kind())

    def id(self) -> str:
        return "sfq"

    def name(self) -> str:
        return "sfq (proved relations)"

    def warningMessage(self) -> str:
        """Returns the line that the toolbox shows where the library isn't there."""
        return missing_library()

    def icon(self) -> Any:
        return icon()
