"""Runs algorithms of the plugin in one process of QGIS, for tests: by Debian's Python, with the plugin's folder on PYTHONPATH.

usage: qgis_runs.py RUNS ANSWERS

RUNS is a file of JSON with a list of runs: `algorithm`, `parameters`, where a run is to be broken off `cancel_at`, the percentage from which
on it is, and where the disk is to be full `most`, the bytes that a file may have; without `parameters` the algorithm describes itself. A parameter `{"memory": KIND, "shapes": [TEXT or null, ..]}` is a layer of these shapes, with a field `name`. ANSWERS gets what
each run returned and said, and the rows of the layers that it wrote.
"""
import json
import resource
import sys
import time

from qgis.core import (
    QgsApplication, QgsCoordinateReferenceSystem, QgsFeature, QgsGeometry, QgsProcessingContext, QgsProcessingFeedback, QgsProcessingUtils,
    QgsProject, QgsVectorLayer,
)


class Feedback(QgsProcessingFeedback):
    """Keeps what an algorithm says, and breaks it off when it has come so far."""

    def __init__(self, cancel_at):
        super().__init__()
        self.said, self.cancel_at, self.canceled_at, self.most = {"info": [], "warning": [], "error": []}, cancel_at, None, 0.0
        self.progressChanged.connect(self.look)

    def look(self, percent):
        self.most = max(self.most, percent)
        if self.cancel_at is not None and percent >= self.cancel_at and not self.isCanceled():
            self.canceled_at = time.monotonic()
            self.cancel()

    def pushInfo(self, text):
        self.said["info"].append(text)

    def pushWarning(self, text):
        self.said["warning"].append(text)

    def reportError(self, text, fatalError=False):
        self.said["error"].append(text)


def layer_of(given):
    """Returns a layer of shapes."""
    layer = QgsVectorLayer(f"{given['memory']}{'&' if '?' in given['memory'] else '?'}field=name:string", given.get("name", "layer"), "memory")
    features = []
    for number, text in enumerate(given["shapes"]):
        feature = QgsFeature(layer.fields())
        feature.setAttributes([f"n{number}"])
        if text is not None:
            feature.setGeometry(QgsGeometry.fromWkt(text))
        features.append(feature)
    done, _ = layer.dataProvider().addFeatures(features)
    assert done and layer.featureCount() == len(features), layer.dataProvider().errors()
    layer.updateExtents()
    if "crs=" not in given["memory"]:
        layer.setCrs(QgsCoordinateReferenceSystem())
    QgsProject.instance().addMapLayer(layer, False)
    return layer


def plain(value):
    return value if isinstance(value, (int, float, str, bool)) else None


def rows_of(layer):
    """Returns the rows of a layer: the values by the names of fields, and the shape as text in `shape`."""
    names = [it.name() for it in layer.fields()]
    found = []
    for it in layer.getFeatures():
        row = dict(zip(names, map(plain, it.attributes())))
        row["shape"] = it.geometry().asWkt(9) if it.hasGeometry() else None
        found.append(row)
    return found


def answer(run, layers):
    """Runs an algorithm, and returns what came of it."""
    algorithm, context = QgsApplication.processingRegistry().algorithmById(run["algorithm"]), QgsProcessingContext()
    if "parameters" not in run:
        return {"title": algorithm.displayName(), "help": algorithm.shortHelpString(), "can": algorithm.canExecute()}
    parameters = {}
    for name, value in run["parameters"].items():
        if isinstance(value, dict):
            key = json.dumps(value)
            layers.setdefault(key, None)
            layers[key] = value = layers[key] or layer_of(value)
        parameters[name] = value
    context.setProject(QgsProject.instance())
    feedback = Feedback(run.get("cancel_at"))
    is_well, refusal = algorithm.checkParameterValues(parameters, context)
    if not is_well:
        return {"refusal": refusal}
    limits = resource.getrlimit(resource.RLIMIT_FSIZE)
    resource.setrlimit(resource.RLIMIT_FSIZE, (run.get("most", limits[0]), limits[1]))
    results, is_done = algorithm.run(parameters, context, feedback)
    resource.setrlimit(resource.RLIMIT_FSIZE, limits)
    late = time.monotonic() - feedback.canceled_at if feedback.canceled_at else None
    found = {"done": is_done, "results": results, "late": late, "progress": feedback.most, "rows": {}, **feedback.said}
    for name, value in results.items():
        layer = QgsProcessingUtils.mapLayerFromString(value, context) if isinstance(value, str) else None
        if layer is not None:
            found["rows"][name] = rows_of(layer)
            found.setdefault("selected", sorted(layer.selectedFeatureIds()))
    return found


def main(given, answers):
    application = QgsApplication([], False)
    application.initQgis()
    import sfq_qgis

    plugin = sfq_qgis.classFactory(None)
    plugin.initProcessing()
    layers = {}
    with open(given, encoding="utf-8") as file:
        found = [answer(it, layers) for it in json.load(file)]
    with open(answers, "w", encoding="utf-8") as file:
        json.dump(found, file)
    plugin.unload()
    layers.clear()
    QgsProject.instance().clear()
    application.exitQgis()


if __name__ == "__main__":
    main(*sys.argv[1:])
