"""The plugin as QGIS loads it: it adds the provider of the algorithms, and takes it away again."""
from __future__ import annotations

from typing import Optional

from qgis.core import QgsApplication

from .provider import Provider


class Plugin:
    """The plugin: all that it has is in Processing."""

    def __init__(self) -> None:
        self.provider: Optional[Provider] = None

    def initProcessing(self) -> None:
        """Adds the algorithms, which is all that qgis_process asks for."""
        self.provider = Provider()
        QgsApplication.processingRegistry().addProvider(self.provider)

    def initGui(self) -> None:
        """Adds the algorithms to the toolbox."""
        self.initProcessing()

    def unload(self) -> None:
        """Takes the algorithms away."""
        if self.provider is not None:
            QgsApplication.processingRegistry().removeProvider(self.provider)
            self.provider = None
