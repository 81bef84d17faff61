"""The Python package: the rows of the engine's own scripts, faults, what a Geometry promises, shapely, and its installation by pip."""
import contextlib
import csv
import io
import itertools
import os
import pickle
import random
import re
import shutil
import subprocess
import sys
import tempfile
import threading
import unittest
import zipfile

from support import ROOT, examples, needs, python_with, read, write

import engine_rows
import language
import library
import packages
import pairs as drawing
import repository
import sfq
import wheels
from sfq.commands import progress
from sfq.geometry import faults, library as border, matrices, texts

SQUARE = "POLYGON((0 0,4 0,4 4,0 4,0 0))"
# The methods of a Geometry, by the names that SQL has for them.
METHODS = {it: it.removeprefix("ST_").lower() for it in language.PREDICATES}
PYTHON = python_with("shapely")
# The relations that a point's place decides, with their patterns (06-103r4, 6.1.15.3; covers and contains properly: this project's choice).
BY_PLACE = {
    "intersects": ("T********", "*T*******", "***T*****", "****T****"), "touches": ("FT*******", "F**T*****", "F***T****"),
    "contains": ("T*****FF*",), "covers": ("T*****FF*", "*T****FF*", "***T**FF*", "****T*FF*"), "contains_properly": ("T**FF*FF*",),
}
# Geometries with points of each of their parts among POINTS: an area with a hole, lines whose ends meet, points, and empty ones.
BESIDE_POINTS = (
    "POLYGON((0 0,9 0,9 9,0 9,0 0),(3 3,6 3,6 6,3 6,3 3))", "MULTILINESTRING((0 0,4 4),(4 4,9 0),(4 4,4 9))", "LINESTRING(0 0,9 0,9 9,0 0)",
    "MULTIPOINT((0 0),(4 4))", "POINT(4 4)", "POINT EMPTY", "POLYGON EMPTY",
)
POINTS = (
    "POINT(0 0)", "POINT(4 4)", "POINT(1 2)", "POINT(3 4)", "POINT(9 9)", "POINT(20 20)", "POINT EMPTY", "MULTIPOINT((1 2))",
    "MULTIPOINT((0 0),(20 20))",
)
# What is asked with arrays of numpy.
ARRAYS = """
import numpy, sfq
square = sfq.Geometry("POLYGON((0 0,4 0,4 4,0 4,0 0))")
places = square.locate_many(numpy.array([[1, 1], [4, 1], [9, 9]], dtype=float))
print(str(places.tolist()).replace(" ", ""))
print(sfq.Geometry.from_positions("LineString", numpy.array([[0, 0], [0, 0], [3, 4]], dtype="int16")[::1]))
print(sfq.relate_many(numpy.array([[1, 1], [9, 9]]), square), sfq.relate_many(numpy.zeros((0, 2)), square))
print(sfq.relate_many(numpy.array([[1, 1], [9, 9]]), ["POINT(1 1)", square]))
try:
    sfq.relate_many(numpy.array([[1, 1], [10**9, 9]]), square)
except sfq.FaultError as error:
    print(error.index, error.fault.code)
for it in ([[1.5, 2]], [[float("nan"), 2]], [1, 2], [[10**12, 1]]):
    try:
        square.locate_many(numpy.array(it))
    except ValueError as error:
        print(type(error).__name__)
for kind in ("int16", "uint64", float):
    index = sfq.Index(numpy.array([[0, 0, 2, 2], [9, 9, 9, 9], [2, 1, 9, 9]], dtype=kind))
    print(str([len(index), index.search((2, 1, 2, 2)), sfq.Index(numpy.zeros((0, 4), dtype=kind)).search((0, 0, 1, 1))]).replace(" ", ""))
none = [float("nan")] * 4
index = sfq.Index(numpy.array([[0, 0, 2, 2], none]))
print(str([index.search(None), index.search((0, 0, 9, 9))]).replace(" ", ""))
for it in ([none[:3] + [1]], [[0, 0, 0.5, 1]], [[1, 2, 3]], [[1, 0, 0, 0]], [[0, 0, 10**12, 1]]):
    try:
        sfq.Index(numpy.array(it))
    except ValueError as error:
        print(type(error).__name__)
"""


def taken_apart(text):
    """Returns the type, positions, and sizes of lines and polygons of a text without blanks but between x and y."""
    name = next(it for it in border.TYPES if it.upper() == re.match("[A-Z]+", text)[0])
    if name == "MultiPoint":
        text = text.replace("((", "(").replace("))", ")").replace("),(", ",")
    parts = [[tuple(map(int, it.split())) for it in part.split(",")] for part in re.findall(r"\(([-\d, ]+)\)", text)]
    lines = [len(it) for it in parts] if texts.TYPES[name] > 1 else []
    polygons = [it.count("),(") + 1 for it in text.split(")),((")] if name == "MultiPolygon" and parts else []
    return name, [it for part in parts for it in part], lines, polygons


def environment(**more):
    return {**os.environ, "SFQ_LIBRARY": library.SHARED, "PYTHONDONTWRITEBYTECODE": "1", **more}


def in_four_threads(work):
    """Calls `work` in four threads at once, and waits for them."""
    threads = [threading.Thread(target=work) for _ in range(4)]
    for it in threads:
        it.start()
    for it in threads:
        it.join()


class Package(engine_rows.WithLibrary):
    """The package as it is in the repository, over the library that ./build --library made."""

    @classmethod
    def setUpClass(cls):
        super().setUpClass()
        os.environ["SFQ_LIBRARY"] = library.SHARED

    def test_matrices_and_faults_of_the_engines_rows(self):
        pairs = engine_rows.pairs()
        self.assertGreaterEqual(len(pairs), 240)
        for it in pairs:
            try:
                found, fault = sfq.relate(it.first, it.second), ""
            except sfq.FaultError as error:
                found, fault = "", f"sfq: {error.which} {error.fault.place}"
            self.assertEqual((found, fault), (it.matrix, it.fault), f"{it.first} {it.second}")

    def test_each_predicate_of_the_engines_rows(self):
        rows = [it for it in engine_rows.rows_of("predicates") if re.search(r" AND ST_(?!Relate)\w+\(a, b\)$", it.command)]
        self.assertGreaterEqual(len(rows), 8)
        for row in rows:
            name = METHODS[re.search(r"(ST_\w+)\(a, b\)$", row.command)[1]]
            given = list(csv.reader(row.files["table pair"].splitlines()))[1:]
            held = [it[0] for it in given if int(it[0]) < 17 and getattr(sfq.Geometry(it[1]), name)(it[2])]
            self.assertEqual(held, row.output.split()[1:], row.command)

    def test_relations_that_only_bindings_have(self):
        square, side = sfq.Geometry(SQUARE), "LINESTRING(0 0,4 0)"
        found = [square.covers(side), square.contains(side), sfq.Geometry(side).covered_by(square), square.contains_properly("POINT(1 1)")]
        self.assertEqual([*found, square.contains_properly("LINESTRING(0 0,2 2)")], [True, False, True, True, False])

    def test_relations_of_a_point_are_by_its_matrix(self):
        held = 0
        for one, point in itertools.product(BESIDE_POINTS, POINTS):
            first, second = sfq.Geometry(one), sfq.Geometry(point)
            for name, patterns in BY_PLACE.items():
                wanted = any(matrices.matches(first.relate(second), it) for it in patterns)
                self.assertIs(getattr(first, name)(second), wanted, f"{one} {name} {point}")
                held += wanted
        self.assertGreater(held, 30)

    def test_patterns(self):
        line = sfq.Geometry("LINESTRING(-2 2,2 -2)")
        for pattern, wanted in (("F01FF0212", True), ("ft*******", True), ("*********", True), ("T********", False), ("F0*FF0211", False)):
            self.assertIs(line.relate_pattern(SQUARE, pattern), wanted, pattern)
        for pattern in ("", "TTT", "F01FF0212 ", "F01FF021x", "F01FF0213"):
            with self.assertRaisesRegex(ValueError, "a pattern is nine characters"):
                line.relate_pattern(SQUARE, pattern)

    def test_canonical_texts_are_the_engines(self):
        for text, canonical in engine_rows.canonical_texts():
            self.assertEqual(sfq.Geometry(text).text, canonical, text)

    def test_a_geometry_is_a_value(self):
        one, other = sfq.Geometry("POINT(1 2)"), sfq.Geometry(" point ( +1.0 02 )")
        self.assertEqual((one, hash(one), str(other), len({one, other})), (other, hash(other), "POINT(1 2)", 1))
        self.assertNotEqual(one, sfq.Geometry("MULTIPOINT(1 2)"))
        self.assertNotEqual(one, "POINT(1 2)")
        self.assertEqual(eval(repr(one), {"sfq": sfq}), one)
        self.assertEqual(pickle.loads(pickle.dumps(other)), one)
        with self.assertRaises(AttributeError):
            one.text = "POINT(3 4)"
        with self.assertRaises(AttributeError):
            one._spelled = "POINT(3 4)"
        with self.assertRaises(AttributeError):
            del one._kept
        with self.assertRaisesRegex(TypeError, "not of bytes"):
            sfq.Geometry(b"POINT(1 2)")

    def test_a_refused_text_has_its_fault(self):
        refused = sfq.Geometry("POINT(1.5 2)")
        self.assertEqual((refused.is_valid, refused.fault, str(refused)), (False, ("W2", 6, 0), "POINT(1.5 2)"))
        self.assertEqual((sfq.Geometry(SQUARE).is_valid, sfq.Geometry(SQUARE).fault), (True, None))
        for ask in (lambda: refused.touches(SQUARE), lambda: refused.__geo_interface__, lambda: refused.relate_pattern(SQUARE, "*" * 9)):
            with self.assertRaisesRegex(sfq.FaultError, r"^sfq: first W2 at 6: .*isn't whole: scale the coordinates to a grid"):
                ask()
        with self.assertRaises(sfq.FaultError) as met:
            sfq.Geometry(SQUARE).touches("POLYGON((0 0,4 0,4 4,0 4,0 0),(0 2,1 1,1 3,0 2))")
        error = pickle.loads(pickle.dumps(met.exception))
        self.assertEqual((error.which, error.fault, error.index, str(error)), ("second", ("V4", 0, 1), None, str(met.exception)))

    def test_reasons_and_witnesses_are_those_of_the_command_why(self):
        """Each row of the script why.txt whose words are texts."""
        self.assertGreaterEqual(len(engine_rows.reasons()), 100)
        for words, lines in engine_rows.reasons():
            if len(words) == 1:
                self.assertEqual(sfq.Geometry(words[0]).reason, lines.rstrip("\n"))
            else:
                found = sfq.Geometry(words[0]).why(words[1])
                self.assertEqual("".join(" ".join(filter(None, it)) + "\n" for it in found), lines, words)
        self.assertEqual(sfq.Geometry("POINT(1.5 2)").reason, "W2 at 6")
        with self.assertRaises(sfq.FaultError):
            sfq.Geometry(SQUARE).why("POINT(1.5 2)")

    def test_texts_that_no_file_has(self):
        for text, place in (("", "W1 at 0"), ("POINT(1 2)\0", "W1 at 10"), ("\ud800", "W1 at 0"), ("PÖINT(1 2)", "W1 at 0")):
            self.assertEqual(sfq.Geometry(text).fault.place, place, repr(text))

    def test_many_pairs(self):
        ones = [sfq.Geometry("POINT(1 1)"), "POINT(4 4)", "POINT(5 5)"]
        self.assertEqual(sfq.relate_many(ones, iter([SQUARE] * 3)), [sfq.relate(it, SQUARE) for it in ones])
        self.assertEqual(sfq.relate_many(ones, SQUARE), [sfq.relate(it, SQUARE) for it in ones])
        self.assertEqual(sfq.relate_many([], []), [])
        with self.assertRaisesRegex(ValueError, "3 geometries with 2"):
            sfq.relate_many(ones, [SQUARE] * 2)
        with self.assertRaisesRegex(sfq.FaultError, "pair 1$") as met:
            sfq.relate_many(ones, [SQUARE, "POINT", "CIRCLE"])
        self.assertEqual((met.exception.index, met.exception.which), (1, "second"))

    def test_many_pairs_share_geometries_with_other_threads(self):
        kept = [sfq.Geometry(f"POINT({it} {it})") for it in range(50)] + [sfq.Geometry(SQUARE)]
        wanted, found = sfq.relate_many(kept, reversed(kept)), []
        threads = [threading.Thread(target=lambda: found.append(sfq.relate_many(kept, reversed(kept)))) for _ in range(4)]
        for it in threads:
            it.start()
        for it in threads:
            it.join()
        self.assertEqual(found, [wanted] * 4)

    def test_from_positions(self):
        square = sfq.Geometry.from_positions("Polygon", [(0, 0), (4, 0), (4, 0), (4, 4), (0, 4), (0, 0)], [6])
        self.assertEqual((square, square.touches("POINT(4 1)"), square.is_valid), (sfq.Geometry(SQUARE), True, True))
        self.assertEqual(pickle.loads(pickle.dumps(square)), square)
        self.assertIn(b"sfq\nGeometry\n", pickle.dumps(square, 0))
        self.assertEqual(square.__geo_interface__, sfq.Geometry(SQUARE).__geo_interface__)
        for words, error, said in (
            (("Polygon", [(0, 0)], [2]), ValueError, "the parts don't have these positions"),
            (("Ring", []), ValueError, "a type is one of Point"),
            (("Point", [(1, 2, 3)]), sfq.GridError, "a position is an x and a y"),
            (("Point", [(1.5, 2)]), sfq.GridError, "isn't whole"),
            (("LineString", [(0, 0), (0, -10**30)]), sfq.FaultError, "W3 at position 1: a coordinate of this position is past"),
            (("LineString", [(0, 0), (0, 0)]), sfq.FaultError, "V1 0: "),
            (("MultiPoint", [(0, 0)] * 10_001), sfq.FaultError, "W4: "),
        ):
            with self.assertRaisesRegex(error, said):
                sfq.Geometry.from_positions(*words)

    def test_positions_are_as_texts(self):
        """Random geometries, of which many have a fault."""
        chance, codes = random.Random(41), set()
        for _ in range(2_000):
            text = drawing.draw(chance, chance.choice(drawing.TYPES))
            wanted = sfq.Geometry(text)
            try:
                self.assertEqual(sfq.Geometry.from_positions(*taken_apart(text)).text, wanted.text)
            except sfq.FaultError as error:
                self.assertEqual(error.fault, wanted.fault, text)
                codes.add(error.fault.code)
        self.assertGreaterEqual(len(codes), 2)

    def test_dimension_emptiness_and_bounds(self):
        for text, wanted in (
            ("POINT(3 -4)", (0, False, (3, -4, 3, -4))), ("LINESTRING(0 9,5 1)", (1, False, (0, 1, 5, 9))),
            ("POLYGON EMPTY", (2, True, None)), (SQUARE, (2, False, (0, 0, 4, 4))),
        ):
            shape = sfq.Geometry(text)
            self.assertEqual((shape.dimension, shape.is_empty, shape.bounds), wanted)
        for name in ("dimension", "is_empty", "bounds"):
            with self.assertRaisesRegex(sfq.FaultError, "W1"):
                getattr(sfq.Geometry("POINT"), name)

    def test_places_of_many_positions(self):
        square = sfq.Geometry(SQUARE)
        self.assertEqual(square.locate_many([(1, 1), (4, 1), (-1, 9)]), [0, 1, 2])
        self.assertEqual(square.locate_many(iter([])), [])
        with self.assertRaisesRegex(ValueError, "position 1 is past 10,000,000"):
            square.locate_many([(1, 1), (10_000_001, 1)])
        with self.assertRaisesRegex(sfq.FaultError, "W1"):
            sfq.Geometry("POINT").locate_many([(1, 1)])

    @unittest.skipUnless(PYTHON, "needs the package python3-shapely")
    def test_arrays_of_numpy(self):
        ran = subprocess.run([PYTHON, "-c", ARRAYS], capture_output=True, text=True, env=environment(PYTHONPATH=f"{ROOT}/bindings/python"))
        self.assertEqual((ran.returncode, ran.stdout), (0, ran.stdout), ran.stderr)
        self.assertEqual(ran.stdout.split(), ["[0,1,2]", "LINESTRING(0", "0,3", "4)", "['0FFFFF212',", "'FF0FFF212']", "[]",
                                              "['0FFFFFFF2',", "'FF0FFF212']", "1", "W3", "GridError", "GridError", "GridError", "ValueError",
                                              *["[3,[0,2],[]]"] * 3, "[[1],[0]]", "GridError", "GridError", "GridError", "ValueError", "ValueError"])

    def test_indexes_find_what_a_look_at_each_envelope_finds(self):
        chance, limit = random.Random(47), 60

        def drawn():
            if chance.random() < 0.1:
                return None
            x, y = chance.randrange(limit), chance.randrange(limit)
            return x, y, x + chance.randrange(9), y + chance.randrange(9)

        def meet(one, other):
            if one is None or other is None:
                return one is other
            return all(one[i] <= other[i + 2] and other[i] <= one[i + 2] for i in (0, 1))

        for count in (0, 1, 8, 9, 65, 1_000):
            envelopes = [drawn() for _ in range(count)]
            with sfq.Index(iter(envelopes)) as index:
                self.assertEqual(len(index), count)
                for window in [None, (0, 0, limit * 2, limit * 2), *(drawn() for _ in range(50))]:
                    self.assertEqual(index.search(window), [at for at, it in enumerate(envelopes) if meet(it, window)], window)

    def test_an_index_of_bounds(self):
        shapes = [sfq.Geometry(it) for it in (SQUARE, "POINT EMPTY", "LINESTRING(4 4,9 7)", "POINT(5 0)")]
        index = sfq.Index(it.bounds for it in shapes)
        self.assertEqual([index.search(it.bounds) for it in shapes], [[0, 2], [1], [0, 2], [3]])
        self.assertEqual(index.search((-10_000_000, 0, 10_000_000, 0)), [0, 3])
        index.close()
        index.close()
        with self.assertRaisesRegex(ValueError, "the index is closed"):
            index.search((0, 0, 1, 1))

    def test_what_is_no_envelope(self):
        index = sfq.Index([(0, 0, 1, 1)])
        for window in ((1, 0, 0, 0), (0, 0, 10_000_001, 0), (-10**30, 0, 0, 0)):
            with self.assertRaisesRegex(ValueError, "the window has a least bound past its greatest, or one past 10,000,000"):
                index.search(window)
            with self.assertRaisesRegex(ValueError, "the envelope at 1 has a least bound past"):
                sfq.Index([None, window])
        for envelope in ((0, 0, 1), (0, 0, 1.5, 1), (0, 0, float("nan"), 1)):
            with self.assertRaises(sfq.GridError):
                index.search(envelope)
            with self.assertRaises(sfq.GridError):
                sfq.Index([envelope])

    def test_threads_share_an_index(self):
        index, differ = sfq.Index([(it, it, it + 100, it + 100) for it in range(2_000)]), []

        def work():
            differ.extend(it for it in range(500) if index.search((it, it, it, it)) != list(range(max(0, it - 100), it + 1)))

        in_four_threads(work)
        self.assertEqual(differ, [])

    def test_coordinates(self):
        for text, wanted in (
            ("POINT(1 -2)", {"type": "Point", "coordinates": (1, -2)}),
            ("MULTIPOINT(1 1,(2 2))", {"type": "MultiPoint", "coordinates": ((1, 1), (2, 2))}),
            ("linestring(0 0,0 0,1 0)", {"type": "LineString", "coordinates": ((0, 0), (1, 0))}),
            ("POLYGON((0 0,1 0,0 1,0 0))", {"type": "Polygon", "coordinates": (((0, 0), (1, 0), (0, 1), (0, 0)),)}),
            ("MULTIPOLYGON EMPTY", {"type": "MultiPolygon", "coordinates": ()}),
        ):
            shape = sfq.Geometry(text)
            self.assertEqual(shape.__geo_interface__, wanted)
            self.assertEqual(sfq.from_shapely(shape), shape)
            self.assertEqual(sfq.from_shapely(wanted), shape)
        for value in (0.5, 1 + 2**-52, float("inf"), float("nan")):
            with self.assertRaisesRegex(sfq.GridError, "isn't whole: scale the geometry to a grid"):
                sfq.from_shapely({"type": "Point", "coordinates": (value, 1)})
        with self.assertRaisesRegex(sfq.GridError, "has a Z"):
            sfq.from_shapely({"type": "Point", "coordinates": (1, 2, 3)})
        with self.assertRaisesRegex(sfq.GridError, "not a GeometryCollection"):
            sfq.from_shapely({"type": "GeometryCollection", "geometries": []})

    def test_shapely(self):
        python = PYTHON
        if not python:
            self.skipTest("needs the package python3-shapely")
        text = (
            "import sfq, shapely.wkt, shapely.geometry, sys\n"
            "for line in sys.stdin:\n"
            "    shape = sfq.Geometry(line)\n"
            "    print(sfq.from_shapely(shape.to_shapely()) == shape, sfq.from_shapely(shapely.wkt.loads(line)) == shape)\n"
            "print(sfq.from_shapely(shapely.geometry.LinearRing([(0, 0), (1, 0), (1, 1)])))\n"
            "try:\n    sfq.from_shapely(shapely.geometry.Point(0.5, 1))\n"
            "except sfq.GridError as error:\n    print(error)\n"
        )
        lines = [canonical for _, canonical in engine_rows.canonical_texts()]
        given = {"input": "\n".join(lines) + "\n", "text": True, "capture_output": True}
        ran = subprocess.run([python, "-c", text], env=environment(PYTHONPATH=f"{ROOT}/bindings/python"), **given)
        self.assertEqual((ran.returncode, ran.stderr), (0, ""))
        *same, ring, fraction = ran.stdout.splitlines()
        self.assertEqual(same, ["True True"] * len(lines))
        self.assertEqual(ring, "LINESTRING(0 0,1 0,1 1,0 0)")
        self.assertIn("the coordinate 0.5 isn't whole: scale", fraction)

    def test_four_threads(self):
        pairs, differ = [it for it in engine_rows.pairs() if it.matrix], []

        def work():
            differ.extend(it for _ in range(5) for it in pairs if sfq.relate(it.first, it.second) != it.matrix)

        in_four_threads(work)
        self.assertEqual(differ, [])

    def test_out_of_memory_is_an_error(self):
        with self.assertRaisesRegex(MemoryError, "out of memory"):
            border.is_refused(border.OUT_OF_MEMORY)

    def test_a_wheel_has_the_library_within(self):
        """The same bytes each time, installed by pip without a network, and asked where no other library is named."""
        if lacks_setuptools() == "python3-venv":
            self.skipTest("needs the package python3-venv")
        version, seconds = packages.released()
        with tempfile.TemporaryDirectory(prefix="sfq-wheel-") as room:
            path = wheels.make(room, version, seconds, packages.wanted_libc(wheels.shared()), {})
            with open(path, "rb") as file:
                first = file.read()
            with open(wheels.make(room, version, seconds, packages.wanted_libc(wheels.shared()), {}), "rb") as file:
                self.assertEqual(file.read(), first)
            clean = {name: value for name, value in environment().items() if not name.startswith(("PIP_", "PYTHON", "SFQ_"))}
            python = f"{room}/venv/bin/python"
            text = "import sfq; print(sfq.relate('POINT(1 1)', 'POINT(1 1)'), sfq.geometry.library.library()._name)"
            pip = [python, "-m", "pip", "install", "-q", "--no-index", "--disable-pip-version-check", path]
            for words in ([DEBIAN, "-m", "venv", f"{room}/venv"], pip):
                ran = subprocess.run(words, env=clean, cwd=room, capture_output=True, text=True)
                self.assertEqual((ran.returncode, ran.stderr), (0, ""), words)
            ran = subprocess.run([python, "-c", text], env=clean, cwd=room, capture_output=True, text=True)
            self.assertRegex(ran.stdout, rf"^0FFFFFFF2 {room}/venv/lib/.*/sfq/libsfq.so.0\n$", ran.stderr)
            inside = {it.rpartition("/")[2] for it in zipfile.ZipFile(path).namelist()}
            self.assertLessEqual({os.path.basename(it) for it in wheels.shared()}, inside)

    def test_the_example_of_the_document(self):
        shown = examples("PYTHON", "python", "# The library in Python")
        self.assertGreaterEqual(len(shown), 1)
        for source, output in shown:
            ran = subprocess.run([sys.executable, "-c", source], env=environment(PYTHONPATH=f"{ROOT}/bindings/python"), capture_output=True, text=True)
            self.assertEqual((ran.stdout, ran.stderr), (output, ""), source)


class Terminal(io.StringIO):
    """Standard error on a terminal."""

    def isatty(self):
        return True


class Lines(unittest.TestCase):
    """The line that says how far sfq-import or sfq-scale is."""

    def shown(self, stream, calls, **how):
        with contextlib.redirect_stderr(stream):
            line = progress.Progress("it", **how)
            for text, is_last in calls:
                line.show(text, is_last)
            line.clear()
        return stream.getvalue()

    def test_a_terminal_has_one_line_that_goes(self):
        calls = [("one", False), ("two", False), ("three", True)]
        self.assertEqual(self.shown(Terminal(), calls), "\rit: one\x1b[K\rit: three\x1b[K\r\x1b[K")
        self.assertEqual(self.shown(Terminal(), calls, wait=60), "\rit: three\x1b[K\r\x1b[K")
        self.assertEqual(self.shown(Terminal(), calls[:2], wait=60), "")

    def test_elsewhere_there_are_lines_if_they_are_asked_for(self):
        calls = [("one", False), ("two", False), ("three", True)]
        self.assertEqual(self.shown(io.StringIO(), calls), "")
        self.assertEqual(self.shown(io.StringIO(), calls, is_asked=True), "it: one\nit: three\n")


# Debian's Python, whose packages an environment of its own can use.
DEBIAN = "/usr/bin/python3"


def lacks_setuptools():
    """Returns the package that installing by pip needs and that isn't here, or None."""
    for module, package in (("venv, ensurepip", "python3-venv"), ("setuptools", "python3-setuptools"), ("wheel", "python3-wheel")):
        if not os.path.isfile(DEBIAN) or subprocess.run([DEBIAN, "-c", f"import {module}"], capture_output=True).returncode:
            return package
    return None


class Installation(unittest.TestCase):
    """The project as pip installs it, and how the package finds the library."""

    PROJECT = f"{ROOT}/bindings/python"

    def test_pip_installs_it_without_a_network(self):
        """Into an environment that sees the system's packages, of a copy, since setuptools writes beside what it reads."""
        if lacks_setuptools():
            self.skipTest(f"needs the package {lacks_setuptools()}")
        with tempfile.TemporaryDirectory(prefix="sfq-python-") as room:
            clean = {name: value for name, value in environment().items() if not name.startswith(("PIP_", "PYTHON"))}
            clean["https_proxy"] = "http://127.0.0.1:1"

            def run(*words):
                ran = subprocess.run(words, env=clean, cwd=room, capture_output=True, text=True)
                self.assertEqual((ran.returncode, ran.stderr), (0, ""), words)
                return ran.stdout

            shutil.copytree(self.PROJECT, f"{room}/project", ignore=shutil.ignore_patterns("__pycache__", "build", "*.egg-info"))
            run(DEBIAN, "-m", "venv", "--system-site-packages", f"{room}/venv")
            python = f"{room}/venv/bin/python"
            flags = ["-q", "--no-build-isolation", "--no-index", "--disable-pip-version-check"]
            run(python, "-m", "pip", "install", *flags, f"{room}/project")
            text = (
                "import importlib.metadata as found, sfq, sfq_audit, sfq_scale, os\n"
                "for it in (sfq, sfq_audit, sfq_scale):\n"
                "    print(it.__file__, os.path.isfile(os.path.join(os.path.dirname(it.__file__), 'py.typed')))\n"
                "print(found.version('sfq'), *sorted(it.name for it in found.distribution('sfq').entry_points))\n"
            )
            *places, last = run(python, "-c", text).splitlines()
            for it in places:
                self.assertRegex(it, rf"^{room}/venv/lib/.*/__init__.py True$")
            self.assertEqual(last, f"{repository.version()} sfq-ask sfq-audit sfq-export sfq-import sfq-scale sfq-schema sfq-shell")
            for it in ("sfq-ask", "sfq-audit", "sfq-import", "sfq-export", "sfq-scale", "sfq-schema", "sfq-shell"):
                self.assertEqual(run(f"{room}/venv/bin/{it}", "--version"), f"{it} {repository.version()}\n")
            run(python, "-m", "pip", "uninstall", "-q", "-y", "--disable-pip-version-check", "sfq")
            self.assertEqual([it for it in os.listdir(f"{room}/venv/bin") if it.startswith("sfq")], [])

    def test_the_commands_are_listed_alike(self):
        """In pyproject.toml, in __main__.py, and as launchers in bin/."""
        listed = re.findall(r'^(sfq-\w+) = "(.*):main"$', read(f"{self.PROJECT}/pyproject.toml"), re.M)
        self.assertEqual(sorted(it for it, _ in listed), sorted(os.listdir(f"{self.PROJECT}/bin")))
        known = re.search(r"^COMMANDS = \{(.*)\}$", read(f"{self.PROJECT}/__main__.py"), re.M)[1]
        self.assertEqual(re.findall(r'"(sfq-\w+)": "(.*?)"', known), listed)
        first, *others = (read(f"{self.PROJECT}/bin/{it}").replace(it, "NAME").splitlines()[2:] for it, _ in listed)
        self.assertEqual(others, [first] * len(others))

    @unittest.skipUnless(os.path.isfile("/usr/bin/python3"), "needs /usr/bin/python3")
    def test_compiled_modules_are_kept_in_a_checkout_alone(self):
        known = {name: it for name, it in environment().items() if not name.startswith("PYTHON")}
        with tempfile.TemporaryDirectory(prefix="sfq-python-") as room:
            for kept, prefix, package in ((True, f"{room}/checkout/bindings/python", ""), (False, f"{room}/prefix", "/share/sfq")):
                for name in ("sfq", "__main__.py"):
                    os.makedirs(f"{prefix}{package}", exist_ok=True)
                    (shutil.copytree if name == "sfq" else shutil.copy)(
                        f"{self.PROJECT}/{name}", f"{prefix}{package}/{name}", **({"ignore": shutil.ignore_patterns("__pycache__")} if name == "sfq" else {}))
                os.makedirs(f"{prefix}/bin")
                shutil.copy(f"{self.PROJECT}/bin/sfq-export", f"{prefix}/bin/sfq-export")
                ran = subprocess.run([f"{prefix}/bin/sfq-export", "--version"], env=known, capture_output=True, text=True)
                self.assertEqual((ran.returncode, ran.stderr), (0, ""))
                self.assertEqual(any("__pycache__" in its for _, its, _ in os.walk(prefix)), kept)

    def test_where_the_library_is_looked_for(self):
        """In the lib of the prefix, whether the package is in site-packages or in share/sfq; in a checkout; then where the system has it."""
        text = "from sfq.geometry import library; print(*library.places())"
        known = {**environment(PYTHONPATH=f"{ROOT}/bindings/python"), "SFQ_LIBRARY": ""}
        self.assertIn(f"{ROOT}/bindings/c/out/libsfq.so.0", subprocess.run([sys.executable, "-c", text], env=known, capture_output=True, text=True).stdout.split())
        for at in ("lib/python3.11/site-packages/sfq", "share/sfq/sfq"):
            with tempfile.TemporaryDirectory(prefix="sfq-python-") as room:
                shutil.copytree(f"{self.PROJECT}/sfq", f"{room}/{at}")
                text = "from sfq.geometry import library; print(*library.places())"
                known = {**environment(PYTHONPATH=os.path.dirname(f"{room}/{at}")), "SFQ_LIBRARY": ""}
                found = subprocess.run([sys.executable, "-c", text], env=known, cwd=room, capture_output=True, text=True).stdout.split()
                self.assertIn(f"{room}/lib/libsfq.so.0", found)
                self.assertEqual(found[-1], "libsfq.so.0")

    def loading(self, place):
        """Returns the error of a geometry where SFQ_LIBRARY names this file."""
        text = "import sfq\ntry:\n    sfq.Geometry('POINT(1 1)').fault\nexcept sfq.LibraryError as error:\n    print(error)\n"
        known = environment(PYTHONPATH=f"{ROOT}/bindings/python", SFQ_LIBRARY=place)
        return subprocess.run([sys.executable, "-c", text], env=known, capture_output=True, text=True).stdout

    def test_a_missing_library_is_a_clear_error(self):
        self.assertRegex(self.loading("/nowhere/libsfq.so.0"), rf"^sfq: no libsfq.so.0: build it by `{re.escape(ROOT)}/build --library`.*SFQ_LIBRARY.*/nowhere/libsfq.so.0")
        self.assertRegex(self.loading("libc.so.6"), r"libc.so.6 isn't the library that this package needs: .*sfq_read")

    @needs("gcc", "cc")
    def test_c_gives_the_same_words(self):
        """The header of the extensions, of each fault and of what is none."""
        codes = [f"{letter}{number}" for letter, most in (("W", 4), ("V", 8)) for number in range(1, most + 1)]
        self.assertEqual(list(faults.MEANINGS), codes)
        calls = "".join(f"    show('{it[0]}', {it[1:]});\n" for it in [*codes, "W0", "W5", "V9", "X1"])
        with tempfile.TemporaryDirectory(prefix="sfq-python-") as room:
            write(f"{room}/words.c", (
                '#include "faults.h"\n#include <stdio.h>\n'
                "static void show(uint8_t letter, uint8_t number)\n{\n"
                "    sfq_fault fault = { letter, number, 3, 5 };\n    char place[FAULT_PLACE];\n    fault_place(&fault, place);\n"
                '    printf("%s: %s\\n", place, fault_meaning(&fault));\n}\n'
                f"int main(void)\n{{\n{calls}    return 0;\n}}\n"
            ))
            words = ["cc", "-std=c99", "-Wall", "-Wextra", "-Werror", f"-I{ROOT}/bindings/c", f"{room}/words.c", f"{ROOT}/bindings/c/faults.c"]
            subprocess.run([*words, "-o", f"{room}/words"], check=True)
            shown = subprocess.run([f"{room}/words"], capture_output=True, text=True, check=True).stdout.splitlines()
        self.assertEqual(shown[:len(codes)], [str(faults.Fault(it, 3, 5)) for it in codes])
        self.assertEqual([it.partition(": ")[2] for it in shown[len(codes):]], ["an unknown fault"] * 4)


if __name__ == "__main__":
    unittest.main()
