"""A plugin of QGIS: algorithms of Processing whose answers are those of the proved library libsfq. The plugin itself isn't proved."""
from __future__ import annotations

import os
import sys
from typing import Any

# In the zip the package sfq and the library are within the plugin; they come before others that Python may have.
WITHIN = os.path.join(os.path.dirname(os.path.realpath(__file__)), "package")
if os.path.isdir(WITHIN):
    sys.path.insert(0, WITHIN)


def classFactory(_interface: Any) -> Any:
    """Returns the plugin, as QGIS asks for it."""
    from .plugin import Plugin

    return Plugin()
