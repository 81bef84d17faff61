"""The plugin of QGIS: grids that are proposed, the zip, each algorithm over small layers, and over layers that others made."""
import contextlib
import csv
import functools
import glob
import itertools
import json
import os
import re
import shutil
import subprocess
import tempfile
import unittest
import zipfile
from unittest import mock

from support import ROOT, python_with, read, write

import library
import packages
import qgis_plugin
import wheels
from engine_rows import WithLibrary
from sfq_qgis import grids
from sfq.layers import proposing

PLUGIN, PROGRAM = "sfq_qgis", "qgis_process.bin"
PARCELS = {"memory": "Polygon?crs=EPSG:25832", "name": "parcel", "shapes": [
    "POLYGON((0 0,4 0,4 4,0 4,0 0))", "POLYGON((10 0,14 4,14 0,10 4,10 0))", None, "POLYGON((4 0,8 0,8 4,4 4,4 0))", "POLYGON EMPTY",
]}
ROADS = {"memory": "LineString?crs=EPSG:25832", "name": "road", "shapes": ["LINESTRING(-2 2,2 -2)", "LINESTRING(1 1,2 2)", "LINESTRING(8 4,9 9)"]}
OUT = "TEMPORARY_OUTPUT"
# Layers that others made: the file, the layer in it, and how many pairs at least have envelopes that meet.
OF_SF, OF_SPDATA = "/usr/lib/R/site-library/sf", "/usr/lib/R/site-library/spData/shapes"
COUNTIES = f"{OF_SF}/shape/nc.shp"
LAYERS = [
    (f"{OF_SF}/shape/olinda1.shp", "olinda1", 2_000), (f"{OF_SF}/shape/storms_xyz_feature.shp", "storms_xyz_feature", 1_000),
    (f"{OF_SPDATA}/world.gpkg", "world", 500), (f"{OF_SPDATA}/boston_tracts.shp", "boston_tracts", 2_000),
    (f"{OF_SPDATA}/NY8_utm18.shp", "NY8_utm18", 1_000), (f"{OF_SPDATA}/wheat.shp", "wheat", 2_000), (f"{OF_SF}/gpkg/buildings.gpkg", "buildings", 800),
    ("/usr/lib/python3/dist-packages/geopandas/datasets/naturalearth_lowres/naturalearth_lowres.shp", "naturalearth_lowres", 1_000),
]


@functools.lru_cache(maxsize=None)
def python():
    """Returns a Python that has QGIS, or None."""
    return python_with("qgis.core")


def environment(room, plugins, **more):
    """Returns the environment of a process of QGIS that has its settings in a folder, and this plugin alone."""
    write(f"{room}/profiles/default/QGIS/QGIS3.ini", f"[PythonPlugins]\n{PLUGIN}=true\n")
    clean = {name: value for name, value in os.environ.items() if not name.startswith(("PYTHON", "QGIS", "SFQ_", "QT_"))}
    own = {"HOME": room, "XDG_RUNTIME_DIR": room, "QGIS_CUSTOM_CONFIG_PATH": room, "QGIS_PLUGINPATH": plugins, "PYTHONDONTWRITEBYTECODE": "1"}
    # The Python within QGIS is that of Debian: it looks for its modules beside the first python3 on the path.
    return {**clean, **own, "PATH": "/usr/bin:/bin", "QT_QPA_PLATFORM": "offscreen", "LC_ALL": "C.UTF-8", **more}


def square(x, y, side=4):
    return f"POLYGON(({x} {y},{x + side} {y},{x + side} {y + side},{x} {y + side},{x} {y}))"


class Grids(unittest.TestCase):
    """Which grid is proposed, and what is said where the one that is given doesn't do. The values are computed by hand."""

    def chosen(self, extent, step="", origin="", metres=1.0):
        return grids.chosen(extent and proposing.Extent(*extent), metres, step, origin).spelled

    def test_what_is_given_is_taken(self):
        self.assertEqual(self.chosen((0, 4, 0, 4), "0.25", " 1, -2 "), ("0.25", ("1", "-2")))
        self.assertEqual(self.chosen((564_000, 564_020, 5_935_000, 5_935_020), "1"), ("1", ("0", "0")))
        self.assertEqual(self.chosen((564_000, 564_020, 5_935_000, 5_935_020), "", "0,0"), ("1", ("0", "0")))
        self.assertEqual(self.chosen((564_000, 564_020, 5_935_000, 5_935_020)), ("0.000001", ("564010", "5935010")))
        self.assertEqual(self.chosen((9.5, 10.5, 53, 54), metres=0.0), ("0.00000005", ("10", "53.5")))
        self.assertEqual(self.chosen(None), ("0.01", ("0", "0")))

    def test_what_does_not_fit_is_refused_with_what_does(self):
        with self.assertRaisesRegex(grids.NoFit, r"the step 0.01 and the origin 0,0 doesn't take all .* the origin 564000,5935000 does$"):
            self.chosen((564_000, 564_020, 5_935_000, 5_935_020), "0.01", "0,0")
        with self.assertRaisesRegex(grids.NoFit, r"no origin does with this step: the step 0.05 with the origin 0,0 does$"):
            self.chosen((0, 450_000, 0, 1), "0.01")

    def test_texts_that_are_no_grid(self):
        for step, origin, said in (("x", "", "isn't a decimal number"), ("0", "", "isn't greater than 0"), ("1", "5", "isn't X,Y"), ("", "1,b", "decimal")):
            with self.assertRaisesRegex(ValueError, said):
                grids.check(step, origin)


class Packing(WithLibrary):
    """The zip that ./build --qgis makes."""

    def test_the_same_bytes_each_time_with_all_that_the_plugin_needs(self):
        files = qgis_plugin.files()
        names = list(files)
        self.assertEqual(names[0], f"{PLUGIN}/__init__.py")
        top = f"{ROOT}/bindings/python"
        found = [it for it in glob.glob(f"{top}/sfq/**/*.*", recursive=True) if "__pycache__" not in it]
        of_package = {f"{PLUGIN}/package/{os.path.relpath(it, top)}" for it in found}
        self.assertIn(f"{PLUGIN}/package/sfq/layers/proposing.py", of_package)
        self.assertLessEqual({f"{PLUGIN}/metadata.txt", f"{PLUGIN}/icon.svg", f"{PLUGIN}/package/sfq/{library.NAME}", *of_package}, set(names))
        with mock.patch("time.time", side_effect=itertools.count(1_000_000_000, 100_000)):
            made, again = (wheels.zipped(it, packages.released()[1]) for it in (files, qgis_plugin.files()))
        self.assertEqual(made, again)


class Description(unittest.TestCase):
    def test_its_description_has_what_the_plugin_manager_reads(self):
        found = dict(line.split("=", 1) for line in read(f"{ROOT}/bindings/qgis/{PLUGIN}/metadata.txt").splitlines()[1:])
        self.assertEqual((found["version"], found["hasProcessingProvider"]), (packages.released()[0], "yes"))
        self.assertLessEqual({"name", "description", "about", "qgisMinimumVersion", "author", "email", "icon"}, set(found))


class WithQgis(WithLibrary):
    """A test case over QGIS: skipped by name where it isn't installed."""

    @classmethod
    def setUpClass(cls):
        super().setUpClass()
        if not python():
            raise unittest.SkipTest("needs the package python3-qgis")
        cls.room = tempfile.mkdtemp(prefix="sfq-qgis-")
        cls.addClassCleanup(shutil.rmtree, cls.room)

    @classmethod
    def answers(cls, runs, **more):
        """Returns what came of runs by their names, all in one process of QGIS."""
        write(f"{cls.room}/runs.json", json.dumps(list(runs.values())).replace("@room", cls.room))
        own = environment(cls.room, "", PYTHONPATH=f"{ROOT}/bindings/qgis:{ROOT}/bindings/python", SFQ_LIBRARY=library.SHARED, **more)
        words = [python(), "-B", f"{ROOT}/tests/qgis_runs.py", f"{cls.room}/runs.json", f"{cls.room}/answers.json"]
        ran = subprocess.run(words, env=own, capture_output=True, text=True, timeout=900)
        if ran.returncode:
            raise AssertionError(ran.stdout + ran.stderr)
        return dict(zip(runs, json.loads(read(f"{cls.room}/answers.json"))))


def run(name, **parameters):
    return {"algorithm": f"sfq:{name}", "parameters": parameters}


FAULTY = {
    "MULTIPOLYGON(((20 0,20.2 0.3,25 0,20 0)))": ("V1", "Point (20 0)"),
    "MULTIPOLYGON(((0 0,4 4,4 0,0 4,0 0)))": ("V3", "Point (2 2)"),
    "MULTIPOLYGON(((0 0,9 0,9 9,0 9,0 0),(0 2,1 1,1 3,0 2)))": ("V4", "Point (0 2)"),
    "MULTIPOLYGON(((0 0,4 0,4 4,0 4,0 0),(20 20,21 20,21 21,20 20)))": ("V5", "Point (20 20)"),
    "MULTIPOLYGON(((0 0,9 0,9 9,0 9,0 0),(1 1,8 1,8 8,1 8,1 1),(2 2,3 2,3 3,2 2)))": ("V6", "Point (2 2)"),
    "MULTIPOLYGON(((0 0,4 0,4 4,0 0)),((4 4,5 4,5 5,4 4)))": ("V7", "Point (4 4)"),
    "MULTIPOLYGON(((0 0,4 0,4 4,0 4,0 0)),((4 0,8 0,8 4,4 4,4 0)))": ("V7", "Point (4 0)"),
    "MULTIPOLYGON(((0 0,9 0,9 9,0 9,0 0)),((1 1,2 1,2 2,1 1)))": ("V8", "Point (1 1)"),
}
LONG = f"LINESTRING({','.join(f'{it} {it % 2}' for it in range(10_001))})"
FORMS = {
    "PolygonZ": "POLYGON Z((0 0 1,4 0 1,4 4 1,0 0 1))", "CurvePolygon": "CURVEPOLYGON(CIRCULARSTRING(0 0,4 0,4 4,0 4,0 0))", "LineString": LONG,
    "GeometryCollection": "GEOMETRYCOLLECTION(POINT(1 2))", "Point": "POINT(1e400 2)",
}


def elsewhere():
    """Returns pairs of lines that other engines get wrong: both texts, and the matrices of newer engines, of older ones and of sfq."""
    line, cell = r"`(LINESTRING[^`]*)`", r"(?:`(\w+)`[^|`]*|right)"
    rows = re.findall(rf"^\| \d+ \| {line} \| {line} \| {cell} \| (?:([\d,]+)|{cell}) \| {cell} \|$", read(f"{ROOT}/docs/WRONG-ELSEWHERE.md"), re.M)
    # The pairs of which the page says how often they come are those that newer engines get right.
    return [(a, b, ours, printed, ours) if count else (a, b, printed, older or ours, ours) for a, b, printed, count, older, ours in rows]


def layers_of(pairs):
    """Returns layers of the first and of the second shapes of pairs, by their types."""
    kinds = [[re.match("[A-Z]+", text)[0].capitalize().replace("string", "String") for text in pair] for pair in pairs]
    assert len({tuple(it) for it in kinds}) == 1
    return [{"memory": kinds[0][at], "name": f"layer {at}", "shapes": [it[at] for it in pairs]} for at in (0, 1)]


MANY = {"memory": "Polygon?crs=EPSG:25832", "name": "many", "shapes": [square(4 * (it % 30), 4 * (it // 30)) for it in range(900)]}


NAMES = ("checkvalidity", "joinbyrelation", "selectbyrelation", "relationsoftwolayers", "why", "differencesfromgeos")


class Algorithms(WithQgis):
    """Each algorithm over small layers, whose answers are seen by looking."""

    RUNS = {
        **{f"help {it}": {"algorithm": f"sfq:{it}"} for it in NAMES},
        "check": run("checkvalidity", INPUT=PARCELS, FAULTS=OUT, VALID=OUT, REFUSED=OUT),
        "codes": run("checkvalidity", INPUT={"memory": "MultiPolygon", "shapes": list(FAULTY)}, FAULTS=OUT, STEP="1"),
        **{f"form {kind}": run("checkvalidity", INPUT={"memory": kind, "shapes": [text]}, FAULTS=OUT, FLAT=False) for kind, text in FORMS.items()},
        "flat": run("checkvalidity", INPUT={"memory": "PolygonZ", "shapes": [FORMS["PolygonZ"]]}, FAULTS=OUT),
        "nothing": run("checkvalidity", INPUT={"memory": "Point", "shapes": []}, FAULTS=OUT),
        "join": run("joinbyrelation", INPUT=PARCELS, OTHER=ROADS, OUTPUT=OUT, PREFIX="road_"),
        "join first": run("joinbyrelation", INPUT=PARCELS, OTHER=ROADS, OUTPUT=OUT, METHOD=1, DISCARD=True),
        "join touching": run("joinbyrelation", INPUT=PARCELS, OTHER=PARCELS, RELATION=[3], OUTPUT=OUT, DISCARD=True),
        "join pattern": run("joinbyrelation", INPUT=PARCELS, OTHER=ROADS, PATTERN="ff*ff****", OUTPUT=OUT, DISCARD=True),
        "bad pattern": run("joinbyrelation", INPUT=PARCELS, OTHER=ROADS, PATTERN="TT", OUTPUT=OUT),
        "no relation": run("joinbyrelation", INPUT=PARCELS, OTHER=ROADS, RELATION=[], OUTPUT=OUT),
        "select": run("selectbyrelation", INPUT=PARCELS, OTHER=ROADS),
        "select more": run("selectbyrelation", INPUT=PARCELS, OTHER=ROADS, RELATION=[1], METHOD=1),
        "select less": run("selectbyrelation", INPUT=PARCELS, OTHER=ROADS, RELATION=[6], METHOD=3),
        "relations": run("relationsoftwolayers", INPUT=PARCELS, OTHER=ROADS, OUTPUT=OUT),
        "all relations": run("relationsoftwolayers", INPUT=PARCELS, OTHER=ROADS, OUTPUT=OUT, ALL=True),
        "why": run("why", INPUT=PARCELS, OTHER=ROADS, OUTPUT=OUT),
        "wrong lines": run("differencesfromgeos", **dict(zip(("INPUT", "OTHER"), layers_of([it[:2] for it in elsewhere()]))), OUTPUT=OUT, STEP="1"),
        "no difference": run("differencesfromgeos", INPUT=PARCELS, OTHER=ROADS, OUTPUT=OUT),
        "no fit": run("why", INPUT=PARCELS, OTHER=ROADS, OUTPUT=OUT, STEP="0.01", ORIGIN="564000,0"),
        "no grid": run("why", INPUT=PARCELS, OTHER=ROADS, OUTPUT=OUT, STEP="a cm"),
        "degrees": run("relationsoftwolayers", OUTPUT=OUT, INPUT={"memory": "Polygon?crs=EPSG:25832", "name": "metres", "shapes": [square(565_000, 5_934_000, 2_000)]},
                       OTHER={"memory": "Point?crs=EPSG:4326", "name": "degrees", "shapes": ["POINT(10 53.56)", "POINT(10 5)", "POINT(10 95)"]}),
        "no system": run("why", INPUT=PARCELS, OTHER={"memory": "Point", "name": "plain", "shapes": ["POINT(1 1)"]}, OUTPUT=OUT),
        "in files": run("checkvalidity", INPUT=PARCELS, FAULTS="@room/faults.gpkg", VALID="@room/valid.shp", REFUSED="@room/refused.geojson"),
        "joined twice": run("joinbyrelation", INPUT="@room/valid.shp", OTHER="@room/faults.gpkg", RELATION=[1], OUTPUT="@room/twice.gpkg"),
        **{f"full disk, {it}": {**run("relationsoftwolayers", INPUT=MANY, OTHER=MANY, OUTPUT=f"@room/full.{it}"), "most": 200_000} for it in ("csv", "gpkg")},
        "whole": run("relationsoftwolayers", INPUT=MANY, OTHER=MANY, OUTPUT=OUT),
        **{f"canceled at {at}": {**run("relationsoftwolayers", INPUT=MANY, OTHER=MANY, OUTPUT=OUT), "cancel_at": at} for at in (1, 30, 55, 81, 95)},
    }

    @classmethod
    def setUpClass(cls):
        super().setUpClass()
        cls.found = cls.answers(cls.RUNS)

    def rows(self, name, output="OUTPUT"):
        found = self.found[name]
        self.assertTrue(found["done"], found)
        return found["rows"][output]

    def results(self, name, *keys):
        return [self.found[name]["results"][it] for it in keys]

    def test_each_has_a_title_and_a_help(self):
        for it in NAMES:
            found = self.found[f"help {it}"]
            self.assertEqual((found["can"], len(found["title"]) > 2), ([True, ""], True), it)
            self.assertRegex(found["help"], r"^<p>.*</p> <h3>.*The grid</h3> <p>.*</p>$", it)

    def test_check_validity(self):
        self.assertEqual(self.results("check", "VALID_COUNT", "FAULT_COUNT", "NULL_COUNT", "INPUT_LEFT_OUT", "STEP", "ORIGIN"), [3, 1, 1, 1, "0.01", "0,0"])
        self.assertEqual(self.rows("check", "FAULTS"), [{
            "input_id": 2, "code": "V3", "sentence": "this ring touches or crosses itself",
            "reason": "V3 0: 1000 0 to 1400 400 and 1400 0 to 1000 400 share 1200 200", "shape": "Point (12 2)",
        }])
        self.assertEqual([it["name"] for it in self.rows("check", "VALID")], ["n0", "n3", "n4"])
        self.assertEqual([it["name"] for it in self.rows("check", "REFUSED")], ["n1"])
        said = self.found["check"]
        self.assertIn("parcel: 3 of 5 features; 15 positions moved by at most 0, 0 in the mean, 0 merged", said["info"])
        self.assertEqual((said["warning"], said["info"][-1]), (["parcel: 1 left out: V3: this ring touches or crosses itself"], "parcel: 1 without a geometry"))

    def test_the_place_of_each_code(self):
        found = [(it["code"], it["shape"]) for it in self.rows("codes", "FAULTS")]
        self.assertEqual(found, list(FAULTY.values()))

    def test_forms_that_are_refused(self):
        said = {
            "PolygonZ": ("W1", "sfq takes no such shape: POLYGON Z", "Point (0 0)"), "CurvePolygon": ("W1", "sfq takes no such shape: CURVEPOLYGON", "Point (0 0)"),
            "GeometryCollection": ("W1", "sfq takes no such shape: GEOMETRYCOLLECTION", "Point (1 2)"), "LineString": ("W4", None, "Point (0 0)"),
            "Point": ("W1", "sfq takes no such shape: a coordinate is infinite or no number", None),
        }
        for kind, (code, sentence, shape) in said.items():
            (row,) = self.rows(f"form {kind}", "FAULTS")
            self.assertEqual((row["code"], row["shape"]), (code, shape), kind)
            self.assertIn(sentence or "10,000", row["sentence"])
        self.assertEqual(self.rows("flat", "FAULTS"), [])
        self.assertIn("layer: 1 geometry without its Z or M", self.found["flat"]["info"])
        self.assertEqual(self.results("nothing", "VALID_COUNT", "FAULT_COUNT", "NULL_COUNT"), [0, 0, 0])

    def test_join(self):
        self.assertEqual([(it["name"], it["road_name"]) for it in self.rows("join")], [
            ("n0", "n0"), ("n0", "n1"), ("n3", "n2"), ("n4", None), ("n2", None),
        ])
        self.assertEqual(self.rows("join")[0]["shape"], "Polygon ((0 0, 4 0, 4 4, 0 4, 0 0))")
        self.assertEqual(self.results("join", "PAIRS", "RELATED", "UNRELATED", "INPUT_LEFT_OUT", "OTHER_LEFT_OUT"), [3, 2, 2, 1, 0])
        self.assertEqual([(it["name"], it["name_2"]) for it in self.rows("join first")], [("n0", "n0"), ("n3", "n2")])
        self.assertEqual([(it["name"], it["name_2"]) for it in self.rows("join touching")], [("n0", "n3"), ("n3", "n0")])
        self.assertEqual([(it["name"], it["name_2"]) for it in self.rows("join pattern")], [
            ("n0", "n2"), ("n3", "n0"), ("n3", "n1"), ("n4", "n0"), ("n4", "n1"), ("n4", "n2"),
        ])
        self.assertIn("a pattern is nine characters", self.found["bad pattern"]["refusal"])
        self.assertIn("choose a relation", self.found["no relation"]["refusal"])

    def test_select(self):
        self.assertEqual([self.found[it]["selected"] for it in ("select", "select more", "select less")], [[1, 4], [1, 4, 5], [4, 5]])
        self.assertEqual(self.results("select", "RELATED", "INPUT_LEFT_OUT"), [2, 1])

    def test_relations(self):
        found = self.rows("relations")
        self.assertEqual([(it["input_id"], it["other_id"], it["matrix"]) for it in found], [
            (1, 1, "FF20F1102"), (1, 2, "102FF1FF2"), (4, 3, "FF2F01102"),
        ])
        held = [[name for name, value in it.items() if value is True] for it in found]
        self.assertEqual(held, [["intersects", "touches"], ["intersects", "contains", "covers", "contains_properly"], ["intersects", "touches"]])
        self.assertEqual(len(self.rows("all relations")), 9)
        self.assertEqual(self.rows("all relations")[2]["matrix"], "FF2FF1102")

    def test_why(self):
        found = [it for it in self.rows("why") if (it["input_id"], it["other_id"]) == (1, 1)]
        self.assertEqual({it["matrix"] for it in found}, {"FF20F1102"})
        (corner,) = (it for it in found if (it["of_input"], it["of_other"]) == ("boundary", "interior"))
        self.assertEqual((corner["dimension"], corner["shown"], corner["shape"]), (0, "at 0 0", "Point (0 0)"))
        self.assertEqual([it["dimension"] for it in found], [2, 0, 1, 1, 0, 2])
        self.assertTrue(all(it["shape"] for it in self.rows("why")))
        self.assertEqual(self.results("why", "PAIRS", "POINTS"), [3, len(self.rows("why"))])

    def test_differences_from_geos(self):
        """The pairs that are known to differ: each version of GEOS gives what the document has of older or of newer engines."""
        found = {(it["input_id"], it["other_id"]): it for it in self.rows("wrong lines") if it["asked"] == "matrix"}
        for number, (first, second, newer, older, ours) in enumerate(elsewhere(), 1):
            row = found.get((number, number), {"geos": ours, "sfq": ours, "text": first, "other_text": second})
            self.assertEqual((row["sfq"], row["text"], row["other_text"]), (ours, first, second))
            self.assertIn(row["geos"], (newer, older), f"{first} {second}")
        first = [(it["asked"], it["sfq"], it["geos"]) for it in self.rows("wrong lines") if (it["input_id"], it["other_id"]) == (1, 1)]
        self.assertEqual(first[0][:2], ("matrix", elsewhere()[0][4]))
        self.assertIn(("within", "true", "false"), first)
        self.assertEqual(self.results("no difference", "PAIRS", "DIFFERENCES"), [3, 0])

    def test_grids_that_do_not_do(self):
        self.assertFalse(self.found["no fit"]["done"])
        self.assertRegex("".join(self.found["no fit"]["error"]), "doesn't take all positions: x goes from -2 to 14, y from -2 to 9; the origin 0,0 does")
        self.assertIn("isn't a decimal number", self.found["no grid"]["refusal"])

    def test_layers_in_different_reference_systems(self):
        self.assertEqual(self.results("degrees", "OTHER_LEFT_OUT"), [1])
        self.assertIn("degrees: transformed from EPSG:4326 to EPSG:25832", self.found["degrees"]["info"])
        self.assertEqual([(it["other_id"], it["within"], it["contains"]) for it in self.rows("degrees")], [(1, False, True)])
        self.assertIn("no reference system", "".join(self.found["no system"]["warning"]))

    def test_outputs_in_files(self):
        self.assertEqual([len(self.rows("in files", it)) for it in ("FAULTS", "VALID", "REFUSED")], [1, 3, 1])
        self.assertEqual([it["name"] for it in self.rows("joined twice")], ["n0", "n3", "n4"])
        for it in ("csv", "gpkg"):
            found = self.found[f"full disk, {it}"]
            self.assertFalse(found["done"], it)
            self.assertIn("look whether the disk is full", "".join(found["error"]), it)

    def test_a_run_that_is_broken_off_ends_within_a_second(self):
        self.assertEqual(self.results("whole", "PAIRS"), [900 + 4 * 30 * 29 + 4 * 29 * 29])
        self.assertEqual(self.found["whole"]["progress"], 100)
        for name, it in self.found.items():
            if name.startswith("canceled"):
                self.assertEqual((it["done"], it["rows"]), (False, {}), name)
                self.assertIn("canceled: the outputs aren't whole", "".join(it["error"]), name)
                self.assertLess(it["late"], 1, name)


class Installed(WithQgis):
    """The zip, unpacked where QGIS looks for plugins, and asked by qgis_process."""

    @classmethod
    def setUpClass(cls):
        super().setUpClass()
        if not shutil.which(PROGRAM):
            raise unittest.SkipTest("needs the package qgis")
        with open(os.devnull, "w", encoding="utf-8") as nothing, contextlib.redirect_stdout(nothing), contextlib.redirect_stderr(nothing):
            qgis_plugin.make(cls.room)
        (packed,) = glob.glob(f"{cls.room}/*.zip")
        zipfile.ZipFile(packed).extractall(f"{cls.room}/plugins")

    def process(self, name, *words, **more):
        """Runs an algorithm by qgis_process, and returns its status, what it printed as JSON or as text, and its errors."""
        own = environment(self.room, f"{self.room}/plugins", **more)
        ran = subprocess.run([PROGRAM, "--json", "run", f"sfq:{name}", "--", *words], env=own, capture_output=True, text=True, timeout=900)
        begin = ran.stdout.find("{")
        return ran.returncode, json.loads(ran.stdout[begin:]) if begin >= 0 else {}, ran.stderr

    def table(self, name, *words):
        """Returns the results of an algorithm, and the rows of its output, which is a CSV file."""
        path = f"{self.room}/{name}.csv"
        if os.path.exists(path):
            os.remove(path)
        status, found, said = self.process(name, *words, f"{'FAULTS' if name == 'checkvalidity' else 'OUTPUT'}={path}")
        self.assertEqual(status, 0, said)
        with open(path, newline="", encoding="utf-8") as file:
            return found["results"], list(csv.DictReader(file))

    def agrees_with_geos(self, source, layer):
        """Relates a layer with itself, and compares with GEOS over the same rounded shapes. Returns the number of pairs."""
        path = f"{source}|layername={layer}"
        results, rows = self.table("relationsoftwolayers", f"INPUT={path}", f"OTHER={path}")
        own = {**os.environ, "PYTHONPATH": f"{ROOT}/bindings/python", "SFQ_LIBRARY": library.SHARED, "PYTHONDONTWRITEBYTECODE": "1"}
        words = [python(), f"{ROOT}/tests/qgis_expected.py", source, layer, results["STEP"], results["ORIGIN"]]
        ran = subprocess.run(words, env=own, capture_output=True, text=True)
        self.assertEqual(ran.returncode, 0, ran.stderr)
        wanted = json.loads(ran.stdout)
        self.assertEqual(results["INPUT_LEFT_OUT"], len(wanted["refused"]), source)
        found = sorted([int(it["input_id"]), int(it["other_id"]), it["matrix"]] for it in rows)
        self.assertEqual(found, sorted(wanted["pairs"]), source)
        return wanted


class OfTheZip(Installed):
    @unittest.skipUnless(os.path.isfile(COUNTIES), "needs the package r-cran-sf")
    def test_the_counties_of_a_state(self):
        self.assertGreater(len(self.agrees_with_geos(COUNTIES, "nc")["pairs"]), 500)

    def test_a_library_that_is_not_there_is_named(self):
        status, found, said = self.process("checkvalidity", "INPUT=x", "FAULTS=y", SFQ_LIBRARY="/none/libsfq.so.0")
        self.assertNotEqual(status, 0)
        self.assertIn("The proved library libsfq isn't there.", said + json.dumps(found))


class OfOthers(Installed):
    """Layers that others made, each related with itself."""

    IS_LONG = True

    def test_relations_agree_with_geos(self):
        there = [it for it in LAYERS if os.path.isfile(it[0])]
        if not there:
            self.skipTest("needs the package r-cran-sf, r-cran-spdata or python3-geopandas")
        for path, layer, least in there:
            with self.subTest(layer=layer):
                self.assertGreaterEqual(len(self.agrees_with_geos(path, layer)["pairs"]), least)


if __name__ == "__main__":
    unittest.main()
