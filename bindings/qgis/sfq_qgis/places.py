"""Points of the map for what the library shows, whose texts have coordinates of the grid. None of it is proved."""
from __future__ import annotations

import re
from fractions import Fraction
from typing import Any, Optional

from qgis.core import QgsGeometry, QgsPointXY

from sfq.geometry import grids

NUMBER = r"(-?\d+(?:/\d+)?)"
# A point, or a stretch by its ends, behind the word that says what it is.
SHOWN = re.compile(rf"\b(?:share|around|inside at|outside at|at|from) {NUMBER} {NUMBER}(?: to {NUMBER} {NUMBER})?")


def middle(shown: str) -> Optional[tuple[Fraction, Fraction]]:
    """Returns the point that a text shows, of a stretch that in its middle. None where the text shows none."""
    found = SHOWN.search(shown)
    if found is None:
        return None
    x, y, *end = (Fraction(it) for it in found.groups() if it is not None)
    return ((x + end[0]) / 2, (y + end[1]) / 2) if end else (x, y)


def on_map(point: tuple[Fraction, Fraction], grid: grids.Grid) -> Any:
    """Returns a point of the grid as a geometry in coordinates of the layer."""
    x, y = point
    return QgsGeometry.fromPointXY(QgsPointXY(float(grid.x.origin + x * grid.x.step), float(grid.y.origin + y * grid.y.step)))


def shown_on_map(shown: str, grid: grids.Grid) -> Any:
    """Returns the point that a text shows, as a geometry; a null geometry where it shows none."""
    found = middle(shown)
    return QgsGeometry() if found is None else on_map(found, grid)
