"""The layer of the records that an import leaves out, where they are in the source. None of it is proved."""
from __future__ import annotations

from typing import Any, NamedTuple, Optional, Sequence

from ..geometry.faults import MEANINGS
from ..layers import reading
from . import changes, outputs

LAYER = "rejects"
# The columns beside the geometry, and those of them that are numbers.
COLUMNS = ["layer", "record", "fid", "code", "sentence", "reason", "x", "y"]
WHOLE, REAL = ("record", "fid"), ("x", "y")


class Rejected(NamedTuple):
    """A record that is left out: its layer, its number there and its FID, the first reason, where the fault is, and its first geometry."""

    layer: str
    record: int
    fid: int
    reason: str
    place: Optional[tuple[str, str]]
    shape: Optional[bytes]

    def fields(self) -> list[Any]:
        """Returns the fields of the layer."""
        code, _, words = self.reason.partition(": ")
        code = code.partition(" ")[0]
        # Of W1 the words say what a text lacks.
        sentence = words if code == "W1" and words else MEANINGS.get(code, words)
        return [self.layer, self.record, self.fid, code, sentence, self.reason, *(map(float, self.place) if self.place else (None, None))]


def write(modules: reading.Modules, found: Sequence[Rejected], system: Any, path: str) -> None:
    """Writes the layer, which is there as a whole or not at all. OSError where GDAL can't."""
    gdal, ogr, _ = modules
    with outputs.made_by_gdal(path) as new:
        source = gdal.GetDriverByName(changes.format_of(path)).Create(new, 0, 0, 0, gdal.GDT_Unknown)
        layer = source.CreateLayer(LAYER, system, ogr.wkbUnknown, ["FID=row"] if changes.format_of(path) == "GPKG" else [])
        for it in COLUMNS:
            layer.CreateField(ogr.FieldDefn(it, ogr.OFTInteger64 if it in WHOLE else ogr.OFTReal if it in REAL else ogr.OFTString))
        for each in found:
            feature = ogr.Feature(layer.GetLayerDefn())
            for at, value in enumerate(each.fields()):
                if value is not None:
                    feature.SetField(at, value)
            if each.shape:
                feature.SetGeometryDirectly(ogr.CreateGeometryFromWkb(each.shape))
            layer.CreateFeature(feature)
        del layer, source
