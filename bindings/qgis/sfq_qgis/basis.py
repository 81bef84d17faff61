"""What the algorithms have in common: the layers they take, the grid they are brought to, and the outputs that say what became of them."""
from __future__ import annotations

import os
from typing import Any, Iterable, Iterator, NamedTuple

from qgis.core import (
    QgsFeature, QgsFeatureSink, QgsField, QgsFields, QgsProcessing, QgsProcessingAlgorithm, QgsProcessingException,
    QgsProcessingMultiStepFeedback, QgsProcessingOutputNumber, QgsProcessingOutputString, QgsProcessingParameterBoolean,
    QgsProcessingParameterDefinition, QgsProcessingParameterFeatureSource, QgsProcessingParameterString, QgsVectorLayer,
)
from qgis.PyQt.QtGui import QIcon

from sfq import Index, LibraryError
from sfq.geometry import library
from sfq.geometry.counts import number_of
from sfq.geometry.grids import Grid
from sfq.layers import proposing

from . import grids
from .layers import Layer, Pair, Row, decimals_of, metres_of
from .progress import Canceled, counted, watched

GRID_HELP = """
<h3>The grid</h3>
<p>The engine takes whole coordinates up to 10,000,000 either way. So each position is moved to the nearest point of a grid, which is
proposed. If every coordinate is a decimal number of a grid that reaches them all, the step is the power of ten of their last decimal, and
nothing moves. Coordinates with few decimals get a finer step if it reaches all of them, down to about a centimetre: 0.0000001 of a degree,
0.01 of a metre or a foot. For other coordinates the step is the finest of 1, 2 and 5 times a power of ten at which every coordinate is
within 10,000,000 steps of the origin. The origin is 0,0 if the step is the same with it, and otherwise the middle of everything to the
nearest 100,000 steps. If no reference system gives the unit, coordinates within 180 and 90 either way count as degrees, and others as
metres. The log says which step and origin were taken, and by how much positions moved. Take the same step and origin in the next run to
compare answers. A step and an origin that don't take all positions are refused, and the error names some that do.</p>
"""
LEFT_OUT_HELP = """
<h3>What is left out</h3>
<p>Relations are proved of valid shapes: points, lines and polygons and those of many parts. No two rings of a polygon, and no two parts of a
multipolygon, may share a point. The log says how many features are left out and why, and an output counts them. Check validity shows
each of them. A shape with Z or M is taken without it, unless you choose otherwise; curves and collections are left out.</p>
"""


def icon() -> Any:
    """Returns the icon of the plugin."""
    return QIcon(os.path.join(os.path.dirname(__file__), "icon.svg"))


def missing_library() -> str:
    """Returns why the library can't be loaded, nothing where it is there."""
    try:
        library.library()
    except LibraryError as error:
        return ("The proved library libsfq isn't there. The plugin's zip has it for Linux on x86-64; elsewhere set SFQ_LIBRARY to its path. "
                + str(error))
    return ""


class Grounds(NamedTuple):
    """What an algorithm works on: the grid, the layers on it, and the feedback for the work itself."""

    grid: Grid
    layers: list[Layer]
    feedback: Any


class Algorithm(QgsProcessingAlgorithm):
    """An algorithm over layers that are brought to a grid."""

    NAME, TITLE, HELP = "", "", ""
    # What the help has below that of the algorithm itself.
    MORE_HELP = GRID_HELP
    # The layers that are taken: the name of each parameter, and what it is called.
    LAYERS: tuple[tuple[str, str], ...] = (("INPUT", "Layer"),)

    def name(self) -> str:
        return self.NAME

    def displayName(self) -> str:
        return self.TITLE

    def shortHelpString(self) -> str:
        # QGIS shows a line end as one.
        return " ".join((self.HELP + self.MORE_HELP).split())

    def tags(self) -> list[str]:
        return ["sfq", "proved", "exact", "topology", "DE-9IM"]

    def icon(self) -> Any:
        return icon()

    def createInstance(self) -> Any:
        return type(self)()

    def canExecute(self) -> tuple[bool, str]:
        missing = missing_library()
        return not missing, missing

    def initAlgorithm(self, _configuration: Any = None) -> None:
        for name, title in self.LAYERS:
            self.add_layer(name, title)
        self.add_own()
        self.add_advanced(QgsProcessingParameterString("STEP", "Step of the grid, in units of the layer (empty: proposed)", "", optional=True))
        self.add_advanced(QgsProcessingParameterString("ORIGIN", "Origin of the grid, as X,Y (empty: proposed)", "", optional=True))
        self.add_advanced(QgsProcessingParameterBoolean("FLAT", "Take shapes with Z or M without them", True))
        self.addOutput(QgsProcessingOutputString("STEP", "Step of the grid"))
        self.addOutput(QgsProcessingOutputString("ORIGIN", "Origin of the grid"))
        self.addOutput(QgsProcessingOutputNumber("MOVED", "How far positions moved at most"))
        for name, title in self.LAYERS:
            self.addOutput(QgsProcessingOutputNumber(f"{name}_LEFT_OUT", f"{title}: features left out"))

    def add_layer(self, name: str, title: str) -> None:
        """Adds the parameter of a layer."""
        self.addParameter(QgsProcessingParameterFeatureSource(name, title, [QgsProcessing.TypeVectorAnyGeometry]))

    def add_own(self) -> None:
        """Adds the parameters and outputs that the algorithm has of its own."""
        raise NotImplementedError

    def add_advanced(self, parameter: Any) -> None:
        """Adds a parameter that few change."""
        parameter.setFlags(parameter.flags() | QgsProcessingParameterDefinition.FlagAdvanced)
        self.addParameter(parameter)

    def checkParameterValues(self, parameters: Any, context: Any) -> tuple[bool, str]:
        missing = missing_library()
        if missing:
            return False, missing
        try:
            grids.check(self.text(parameters, "STEP", context), self.text(parameters, "ORIGIN", context))
        except ValueError as error:
            return False, str(error)
        found = super().checkParameterValues(parameters, context)
        return bool(found[0]), str(found[1])

    def text(self, parameters: Any, name: str, context: Any) -> str:
        """Returns the text of a parameter."""
        return str(self.parameterAsString(parameters, name, context) or "").strip()

    def processAlgorithm(self, parameters: Any, context: Any, feedback: Any) -> dict[str, Any]:
        missing = missing_library()
        if missing:
            raise QgsProcessingException(missing)
        try:
            grounds = self.grounds(parameters, context, feedback)
            found = self.work(parameters, context, grounds)
        except Canceled:
            raise QgsProcessingException("canceled: the outputs aren't whole") from None
        except MemoryError:
            raise QgsProcessingException("out of memory") from None
        step, origin = grounds.grid.spelled
        found.update(STEP=step, ORIGIN=",".join(origin), MOVED=max(it.shift.greatest for it in grounds.layers))
        found.update({f"{name}_LEFT_OUT": it.left_out for (name, _), it in zip(self.LAYERS, grounds.layers)})
        return found

    def work(self, parameters: Any, context: Any, grounds: Grounds) -> dict[str, Any]:
        """Does the work over layers that are on the grid, and returns the outputs."""
        raise NotImplementedError

    def grounds(self, parameters: Any, context: Any, feedback: Any) -> Grounds:
        """Reads the layers, chooses the grid, and brings the layers to it."""
        many = QgsProcessingMultiStepFeedback(2 * len(self.LAYERS) + 1, feedback)
        layers = self.read(parameters, context, many)
        extent = proposing.joined(it.extent for it in layers)
        try:
            step, origin = (self.text(parameters, it, context) for it in ("STEP", "ORIGIN"))
            grid = grids.chosen(extent, metres_of(layers[0].system), step, origin, decimals_of(layers))
        except ValueError as error:
            raise QgsProcessingException(str(error)) from None
        many.pushInfo(f"grid: step {grid.spelled[0]}, origin {','.join(grid.spelled[1])}")
        for at, it in enumerate(layers, len(layers)):
            many.setCurrentStep(at)
            it.bring_to(grid, many)
            it.report(many)
        many.setCurrentStep(2 * len(layers))
        return Grounds(grid, layers, many)

    def read(self, parameters: Any, context: Any, feedback: Any) -> list[Layer]:
        """Reads the layers, the second one in the reference system of the first."""
        layers: list[Layer] = []
        for at, (name, _) in enumerate(self.LAYERS):
            source = self.parameterAsSource(parameters, name, context)
            if source is None:
                raise QgsProcessingException(self.invalidSourceError(parameters, name))
            system = layers[0].system if layers else source.sourceCrs()
            layer = Layer(source, system, context, bool(self.parameterAsBool(parameters, "FLAT", context)))
            if layer.transform is not None:
                feedback.pushInfo(f"{layer.name}: transformed from {source.sourceCrs().authid()} to {system.authid()}")
            elif source.sourceCrs() != system:
                feedback.pushWarning(f"{layer.name}: one of the layers has no reference system, so coordinates are taken as they are")
            feedback.setCurrentStep(at)
            layer.read(feedback)
            layers.append(layer)
        return layers

    def sink(self, parameters: Any, name: str, context: Any, fields: Any, kind: Any, system: Any) -> Sink:
        """Returns the layer that an output is written to. An output that wasn't asked for takes nothing."""
        sink, place = self.parameterAsSink(parameters, name, context, fields, kind, system, QgsFeatureSink.RegeneratePrimaryKey)
        if sink is None and parameters.get(name):
            raise QgsProcessingException(self.invalidSinkError(parameters, name))
        return Sink(sink, place, fields)


class Sink:
    """A layer that is written: its place, and how many features it has."""

    def __init__(self, sink: Any, place: str, fields: Any) -> None:
        self.sink, self.place, self.fields, self.count = sink, place, fields, 0

    def closed(self) -> str:
        """Ends the writing, and returns the place. An exception of Processing where a file lacks some of the features, as on a full disk."""
        self.sink = None
        if self.place and os.path.isfile(self.place.partition("|")[0]):
            count = QgsVectorLayer(self.place, "", "ogr").featureCount()
            if count < self.count:
                lacking = f"{self.place}: only {max(count, 0):,} of {number_of(self.count, 'feature')} could be written"
                raise QgsProcessingException(f"{lacking}: look whether the disk is full")
        return self.place

    def add(self, values: list[Any], geometry: Any = None) -> None:
        """Writes a feature. An exception of Processing where that fails."""
        if self.sink is None:
            return
        feature = QgsFeature(self.fields)
        feature.setAttributes(values)
        if geometry is not None:
            feature.setGeometry(geometry)
        if not self.sink.addFeature(feature, QgsFeatureSink.FastInsert):
            raise QgsProcessingException(f"{self.place}: a feature can't be written, look whether the disk is full: {self.sink.lastError()}")
        self.count += 1


def fields_of(**types: Any) -> Any:
    """Returns fields by their names and types."""
    found = QgsFields()
    for name, kind in types.items():
        found.append(QgsField(name, kind))
    return found


class OfTwo(Algorithm):
    """An algorithm over pairs of a feature of one layer and one of another."""

    LAYERS, MORE_HELP = (("INPUT", "Layer"), ("OTHER", "Other layer")), GRID_HELP + LEFT_OUT_HELP

    def add_all(self) -> None:
        """Adds the choice of all pairs."""
        self.addParameter(QgsProcessingParameterBoolean("ALL", "Also pairs whose envelopes don't meet", False))


def candidates(grounds: Grounds, takes_all: bool) -> Iterator[tuple[Row, list[Row]]]:
    """Yields each feature of the first layer whose shape is taken, with those of the second whose envelopes meet its own, or with all."""
    first, second = (it.taken for it in grounds.layers)
    if takes_all:
        for row in counted(first, len(first), grounds.feedback):
            yield row, second
        return
    with Index(bounds(second, grounds.feedback)) as index:
        for row in counted(first, len(first), grounds.feedback):
            window = row.geometry.bounds if row.geometry else None
            yield row, [second[at] for at in index.search(window)] if window else []


def bounds(rows: Iterable[Row], feedback: Any) -> Iterator[Any]:
    """Yields the bounds of the rows."""
    for row in watched(rows, feedback):
        yield row.geometry.bounds if row.geometry else None


def pairs(grounds: Grounds, takes_all: bool) -> Iterator[Pair]:
    """Yields the pairs of both layers whose envelopes meet, or all."""
    for row, others in candidates(grounds, takes_all):
        for other in watched(others, grounds.feedback):
            yield Pair(row, other)
