"""Checks of sfq.geopandas, for test_geopandas.py, which runs each class by the Python that has GeoPandas."""
import doctest
import json
import math
import os
import pickle
import random
import unittest
import warnings
from fractions import Fraction
from unittest import mock

import geopandas
import numpy
import pandas
import shapely
from geopandas import GeoDataFrame, GeoSeries
from pandas.testing import assert_frame_equal, assert_series_equal
from shapely import geos, wkt
from shapely.geometry import GeometryCollection, LineString, MultiPoint, MultiPolygon, Point, Polygon, box

import sfq
import sfq.geopandas
from sfq.geometry import binary, grids, library
from sfq.layers import frames

# The predicates that GeoPandas joins by. It has `covered_by` too, which fails in version 0.12 over rtree.
SHARED = ("intersects", "within", "contains", "overlaps", "crosses", "touches", "covers", "contains_properly")
# A layer of Debian's package r-cran-sf.
COUNTIES = "/usr/lib/R/site-library/sf/shape/nc.shp"
BOW = Polygon([(0, 0), (4, 4), (4, 0), (0, 4)])


def quiet(ask, *words, **more):
    """Returns what is asked without its warnings."""
    with warnings.catch_warnings():
        warnings.simplefilter("ignore")
        return ask(*words, **more)


def warned(ask, *words, **more):
    """Returns what is asked, and its warnings, each with the file that they point at."""
    with warnings.catch_warnings(record=True) as found:
        warnings.simplefilter("always")
        result = ask(*words, **more)
    return result, [it for it in found if it.category is not FutureWarning]


def shapes(chance, count):
    """Returns shapes on small whole numbers; some are empty, and some are missing."""
    found = []
    for _ in range(count):
        x, y, size = chance.randint(0, 6), chance.randint(0, 6), chance.randint(1, 4)
        found.append(chance.choice((
            box(x, y, x + size, y + size), box(x, y, x + size, y + size), Point(x, y), LineString([(x, y), (x + size, y), (x, y + size)]),
            MultiPoint([(x, y), (y, x + 9)]), Polygon(), None,
        )))
    return found


def frame(found, **columns):
    return GeoDataFrame({"name": [f"n{it}" for it in range(len(found))], **columns}, geometry=GeoSeries(found, crs=None))


def pairs(joined):
    """Returns the pairs of a join of frames whose index is a range."""
    return sorted(zip(joined.index, joined.index_right))


def geometries(series):
    """Returns the geometries of sfq for shapes on whole numbers, None for a missing one."""
    return [None if it is None else sfq.from_shapely(it) for it in series]


def rounded(series, step, origin=("0", "0")):
    """Returns a GeoSeries as it is on the grid, in steps, as sfq-import rounds it, without what sfq refuses."""
    grid, found = grids.Grid(step, origin), []
    for it in series:
        text = None if it is None else binary.text(it.wkb, grid, grids.Shift())
        found.append(wkt.loads(text) if text and sfq.Geometry(text).is_valid else None)
    return GeoSeries(found, index=series.index)


class Joins(unittest.TestCase):
    """A join is what GeoPandas makes of it."""

    def both(self, left, right, **words):
        """Returns what sfq and GeoPandas make of a join."""
        return quiet(sfq.geopandas.sjoin, left, right, **words), quiet(geopandas.sjoin, left, right, **words)

    def assert_same(self, left, right, **words):
        """Compares a join with that of GeoPandas, rows with the same labels in any order among them."""
        found, wanted = self.both(left, right, **words)
        self.assertEqual(list(found.columns), list(wanted.columns), words)
        self.assertEqual([found.index.names, found.crs, type(found)], [wanted.index.names, wanted.crs, type(wanted)], words)
        assert_frame_equal(*(in_order(it) for it in (found, wanted)))

    def test_predicates_and_ways_with_empty_and_missing_shapes(self):
        chance = random.Random(11)
        for predicate in SHARED:
            for how in ("inner", "left", "right"):
                left, right = (frame(shapes(chance, 25)) for _ in "ab")
                self.assert_same(left, right, predicate=predicate, how=how)

    def test_indexes_and_names(self):
        chance = random.Random(12)
        indexes = [
            pandas.Index(list("abcdefghij")), pandas.Index(range(9, -1, -1), name="key"), pandas.Index([1, 1, 2, 2, 3, 3, 4, 4, 5, 5]),
            pandas.MultiIndex.from_product([["x", "y"], range(5)], names=["one", "two"]), pandas.date_range("2026-01-01", periods=10),
        ]
        for at, index in enumerate(indexes):
            left, right = frame(shapes(chance, 10)), frame(shapes(chance, 10), other=range(10)).rename_geometry("shape")
            left.index, right.index = index, indexes[(at + 1) % len(indexes)]
            for how in ("inner", "left", "right"):
                self.assert_same(left, right, how=how, lsuffix="l", rsuffix="r")
        self.assert_same(left, left, how="inner", predicate="touches")

    def test_an_empty_collection_is_an_empty_geometry(self):
        none = GeometryCollection()
        left, right = frame([none, Point(1, 1), none]), frame([box(0, 0, 2, 2), none])
        self.assert_same(left, right, how="left")
        self.assertEqual(pairs(sfq.geopandas.sjoin(left, right, predicate="equals")), [(0, 1), (2, 1)])
        self.assertEqual(sfq.geopandas.relate(left, none).tolist(), ["FFFFFFFF2", "FF0FFFFF2", "FFFFFFFF2"])
        self.assertEqual(sfq.geopandas.is_valid_reason(left).tolist(), ["valid"] * 3)

    def test_the_order_of_rows(self):
        """Where a row has at most one partner, GeoPandas' order is one that can be known."""
        cells = frame([box(it, 0, it + 1, 1) for it in (3, 0, 2, 1)])
        points = frame([Point(it + 0.5, 0.5) for it in (1, 9, 0, 2, 1, 3)])
        points.geometry, cells.geometry = points.scale(2, 2, origin=(0, 0)), cells.scale(2, 2, origin=(0, 0))
        for predicate in ("intersects", "within"):
            for how in ("inner", "left", "right"):
                found, wanted = self.both(points, cells, predicate=predicate, how=how)
                assert_frame_equal(found, wanted)

    def test_frames_without_rows(self):
        full, none = frame([Point(1, 1), None, Point()]), frame([])
        empty = frame([None, Point()])
        for left, right in ((full, none), (none, full), (none, none), (full, empty), (empty, full)):
            for how in ("inner", "left", "right"):
                for predicate in ("intersects", "within"):
                    found, wanted = self.both(left, right, how=how, predicate=predicate)
                    assert_frame_equal(found, wanted)

    def test_predicates_that_geopandas_has_not(self):
        found = frame([Point(1, 1), None, Polygon(), Point(), Point(2, 2), Point(1, 1)])
        self.assertEqual(pairs(sfq.geopandas.sjoin(found, found, predicate="equals")), [(0, 0), (0, 5), (2, 2), (2, 3), (3, 2), (3, 3), (4, 4), (5, 0), (5, 5)])
        apart = pairs(sfq.geopandas.sjoin(found, found, predicate="disjoint"))
        there = [it for it in range(6) if it != 1]
        self.assertEqual(apart, [(i, j) for i in there for j in there if {i, j} - {0, 5} and not (i == j == 4)])

    def test_each_predicate_as_a_look_at_each_pair(self):
        chance = random.Random(13)
        for name in library.RELATIONS:
            left, right = (frame(shapes(chance, 40)) for _ in "ab")
            ones, others = (geometries(side.geometry) for side in (left, right))
            wanted = [(i, j) for i, one in enumerate(ones) for j, other in enumerate(others) if one and other and getattr(one, name)(other)]
            found = sfq.geopandas.sjoin(left, right, predicate=name)
            self.assertEqual(pairs(found), wanted, name)

    def test_words_that_are_refused(self):
        left = frame([Point(1, 1)])
        for words, said in (
            ({"how": "outer"}, "how"), ({"predicate": "near"}, "sfq: a predicate is one of equals, "), ({"on_invalid": "drop"}, "sfq: on_invalid"),
            ({"step": 0}, "sfq: the step 0"), ({"step": "x"}, "sfq: 'x'"), ({"origin": "1,2"}, "sfq: an origin is an x and a y"),
            ({"origin": (1,)}, "sfq: an origin is"), ({"step": None, "origin": (0, 0)}, "sfq: an origin needs a step"),
            ({"step": 1e-30}, "sfq: the step or the origin has too many digits"), ({"step": "1", "origin": (1e16, 0)}, "sfq: the step or the origin"),
        ):
            with self.assertRaises(ValueError) as caught:
                sfq.geopandas.sjoin(left, left, **words)
            self.assertIn(said, str(caught.exception))
        for one, other in ((left.geometry, left), (left, pandas.DataFrame(left))):
            with self.assertRaisesRegex(ValueError, "_df' should be GeoDataFrame, got"):
                sfq.geopandas.sjoin(one, other)
        with self.assertRaises(ValueError):
            sfq.geopandas.sjoin(left.assign(index_right=1), left)
        with self.assertRaises(TypeError):
            sfq.geopandas.sjoin(left, left, nothing=1)

    def test_reference_systems(self):
        left, right = frame([Point(1, 1)]), frame([Point(1, 1)])
        with self.assertRaisesRegex(ValueError, "sfq: the reference systems differ, EPSG:4326 and EPSG:25832: bring one to the other by to_crs"):
            sfq.geopandas.sjoin(left.set_crs(4326), right.set_crs(25832))
        found, said = warned(sfq.geopandas.sjoin, left.set_crs(25832), right)
        self.assertEqual((len(found), found.crs.to_epsg(), len(said)), (1, 25832, 1))
        self.assertIn("CRS mismatch", str(said[0].message))

    def test_the_example_of_the_module(self):
        found = quiet(doctest.testmod, sfq.geopandas)
        self.assertEqual((found.failed, found.attempted > 3), (0, True))

    def test_frames_stay_as_they_were(self):
        left, right = frame([Point(1.25, 1), Point(2, 2)]), frame([box(0, 0, 9, 9)])
        before = left.copy(), right.copy()
        found = quiet(sfq.geopandas.sjoin, left, right, step="1")
        self.assertEqual(found.geometry.iloc[0], Point(1.25, 1))
        for it, was in zip((left, right), before):
            assert_frame_equal(it, was)
            self.assertIs(type(it), GeoDataFrame)


def in_order(joined):
    """Returns a join with its rows in an order that is the same for the same rows."""
    keys = [repr(it) for it in joined.drop(columns=joined.geometry.name).itertuples()]
    return joined.iloc[numpy.argsort(keys, kind="stable")]


class Grids(unittest.TestCase):
    """Rounding, what is said of it, and what is refused."""

    def test_what_is_said_of_rounding(self):
        """The counts, by hand."""
        numbers = [(1.004, 2), (3, 4.0051), (7.11, 8.22), (0.005, 0)]
        left = frame([Point(*it) for it in numbers] + [LineString([(0, 0), (0.001, 0), (5, 5)])])
        found, (said,) = warned(sfq.geopandas.sjoin, left, frame([box(0, 0, 9, 9)]), step=0.01)
        self.assertIs(said.category, sfq.geopandas.RoundingWarning)
        self.assertEqual(said.filename, __file__)
        self.assertEqual(
            str(said.message),
            "sfq: rounded to the step 0.01 from the origin 0,0; left: 4 of 7 positions moved by at most 0.005, "
            "1 merged; right: 0 of 5 positions moved by at most 0, 0 merged",
        )
        kept = found.attrs["sfq"]
        self.assertEqual(json.loads(json.dumps(kept)), kept)
        self.assertEqual([kept["step"], kept["origin"], kept["left"]["moved"], kept["left"]["positions"]], ["0.01", ["0", "0"], 4, 7])
        self.assertAlmostEqual(kept["left"]["greatest"], 0.005)

    def test_no_warning_where_nothing_moves(self):
        left = frame([Point(1, 2), Point(564_000, 5_935_000)])
        for words in ({}, {"step": None}, {"step": "1"}):
            found, said = warned(sfq.geopandas.sjoin, left, left, **words)
            self.assertEqual((len(found), said), (2, []), words)

    def test_each_position_that_moves_counts(self):
        """As a double 0.1 + 0.2 is 2**-54 more than the one that is nearest to 0.3, and 3.7649999999999997 is 2**-51 less than 3.765."""
        left = frame([Point(0.1 + 0.2, 1), Point(0.3, 1), box(0, 0, 3.7649999999999997, 1)])
        found, (said,) = warned(sfq.geopandas.sjoin, left, left, step="0.001")
        kept = found.attrs["sfq"]["left"]
        self.assertEqual((kept["positions"], kept["moved"]), (7, 4))
        self.assertAlmostEqual(kept["greatest"] / float(Fraction("3.765") - Fraction(3.7649999999999997)), 1)
        self.assertIn("left: 4 of 7 positions moved by at most ", str(said.message))

    def test_relations_that_change(self):
        """A sliver of 2**-51, a gap of a quarter, and a pair that stays."""
        left = frame([box(0, 0, 1, 1), box(1 - 2**-53, 0, 2, 1), box(2.25, 0, 3, 1), box(2.5, 0.25, 2.75, 0.5)])
        left.index = list("abcd")
        found, _ = warned(sfq.geopandas.changed, left, step="0.5", on_invalid="warn")
        self.assertEqual([tuple(it) for it in found[["left", "right", "before", "after"]].itertuples(index=False)], [("a", "b", "overlaps", "touches")])
        self.assertTrue(all(1 - 2**-53 <= it.x <= 1 and 0 <= it.y <= 1 for it in found.geometry))
        found, _ = warned(sfq.geopandas.sjoin, left.iloc[:3], left.iloc[1:3], step="1", relations=True)
        self.assertEqual(found.attrs["sfq"]["relations"], {
            "pairs": 5, "changed": 3, "said": "rounding changed 3 of 5 pairs that meet: 2 were apart by at most a step and now touch; "
            "1 overlapped by at most a step and now touches",
        })
        self.assertEqual(json.loads(json.dumps(found.attrs["sfq"])), found.attrs["sfq"])

    def grid(self, found, system=None, **words):
        series = GeoSeries(found, crs=system)
        said = quiet(sfq.geopandas.is_valid, series, **words).attrs["sfq"]
        return said["step"], said["origin"], said["series"]["left_out"]

    def test_proposed_steps_and_origins(self):
        for found, system, words, wanted in (
            ([Point(564_000.123, 5_935_000.5), Point(565_000, 5_936_000)], 25832, {}, ("0.001", ["564500", "5935500"], 0)),
            ([Point(0, 0), Point(99_000, 1)], 25832, {}, ("0.01", ["0", "0"], 0)),
            ([Point(-900_000, 0), Point(900_000, 1)], 25832, {}, ("0.1", ["0", "0"], 0)),
            ([Point(-180, -90), Point(180, 83.6)], 4326, {}, ("0.0001", ["0", "0"], 0)),
            ([Point(8.1, 47.2), Point(8.2, 47.3)], 4326, {}, ("0.0000001", ["8.15", "47.25"], 0)),
            # Feet of the survey, and no system at all.
            ([Point(900_000, 120_000), Point(1_060_000, 270_000)], 2263, {}, ("0.01", ["980000", "195000"], 0)),
            ([Point(0, 0), Point(1, 1)], None, {}, ("0.0000001", ["0", "0"], 0)),
            ([Point(0, 0), Point(1_000_000, 1)], None, {}, ("0.1", ["0", "0"], 0)),
            ([Point(-1_000_000, 0), Point(1_000_000, 1)], None, {}, ("0.1", ["0", "0"], 0)),
            ([Point(0, 0), Point(300, 5)], None, {}, ("0.01", ["0", "0"], 0)),
            ([None, Point()], None, {}, ("0.0000001", ["0", "0"], 0)),
            # What is given stays.
            ([Point(564_000, 5_935_000)], 25832, {"step": 0.001}, ("0.001", ["564000", "5935000"], 0)),
            ([Point(564_000, 5_935_000)], 25832, {"origin": (0, 0)}, ("1", ["0", "0"], 0)),
            ([Point(564_000, 5_935_000)], 25832, {"step": "0.001", "origin": ("0", "0")}, ("0.001", ["0", "0"], 1)),
            ([Point(0, 0), Point(1e9, 0)], 25832, {"step": 1}, ("1", ["0", "0"], 1)),
        ):
            self.assertEqual(self.grid(found, system, **words), wanted, (found, words))

    def test_what_is_refused(self):
        rows = {
            "bow": BOW, "z": Point(1, 2, 3), "many": GeometryCollection([Point(1, 1)]), "far": Point(1e9, 0), "none": None, "nan": Point(math.nan, 1),
            "infinite": LineString([(0, 0), (0, math.inf)]), "narrow": Polygon([(0, 0), (5, 0), (5, 0.001)]), "good": Point(1, 1),
        }
        left, right = frame(list(rows.values())), frame([box(0, 0, 9, 9)])
        left.index = list(rows)
        with self.assertRaises(sfq.geopandas.RefusedError) as caught:
            sfq.geopandas.sjoin(left, right, step="0.01")
        error = pickle.loads(pickle.dumps(caught.exception))
        self.assertEqual(dict(zip(error.rows.label, error.rows.reason)), {
            "bow": "V3 0: this ring touches or crosses itself", "z": "W1: POINT Z: flat=True drops it", "many": "W1: GEOMETRYCOLLECTION",
            "far": "W3 at position 0: a coordinate of this position is past 10,000,000 either way: scale the coordinates to the grid",
            "nan": "W1: a coordinate is infinite or no number", "infinite": "W1: a coordinate is infinite or no number",
            "narrow": "V1 0: this line or ring has too few positions that differ",
        })
        self.assertEqual(set(error.rows.side), {"left"})
        self.assertRegex(str(error), r"^sfq: left: 7 refused: row 'bow': V3 0: .*; row 'z': .*; row 'many': .*; and 4 more; the step 50 from the origin 500000000,0 takes all positions; on_invalid='warn'")
        found, said = warned(sfq.geopandas.sjoin, left, right, step="0.01", on_invalid="warn", how="left")
        self.assertEqual([it.category for it in said], [sfq.geopandas.LeftOutWarning])
        self.assertEqual(said[0].filename, __file__)
        self.assertRegex(str(said[0].message), r"^sfq: left: 7 refused: row 'bow'")
        self.assertEqual(list(found.index[found.index_right.notna()]), ["good"])
        self.assertEqual((len(found), found.attrs["sfq"]["left"]["left_out"]), (9, 7))

    def test_a_z_that_is_dropped(self):
        left, right = frame([Point(1, 2, 3), Polygon([(0, 0, 1), (4, 0, 1), (4, 4, 2)])]), frame([Point(1, 2), Point(3, 1)])
        self.assertEqual(pairs(sfq.geopandas.sjoin(left, right, flat=True)), [(0, 0), (1, 1)])

    def test_nothing_is_rounded(self):
        left = frame([Point(1, 2), Point(1.5, 2)])
        with self.assertRaisesRegex(sfq.geopandas.RefusedError, r"left: 1 refused: row 1: W2 at position 0: a coordinate of this position isn't whole"):
            sfq.geopandas.sjoin(left, left, step=None)
        found = sfq.geopandas.sjoin(left[:1], left[:1], step=None)
        self.assertEqual((len(found), found.attrs["sfq"]["step"]), (1, None))

    def test_a_grid_that_takes_what_is_too_far(self):
        for at, words, said in (
            (Point(564_000, 5_935_000), {"step": 0.01, "origin": (0, 0)}, "; the step 0.01 from the origin 564000,5935000 takes"),
            (Point(20_000_000, 0), {"step": None}, "; the step 0.01 from the origin 20000000,0 takes"),
        ):
            with self.assertRaises(sfq.geopandas.RefusedError) as caught:
                sfq.geopandas.sjoin(frame([at]), frame([at]), **words)
            self.assertIn(said, str(caught.exception))

    def test_more_positions_than_are_taken(self):
        ring = [(it, it % 2) for it in range(10_000)] + [(10_000, -9), (0, -9)]
        with self.assertRaisesRegex(sfq.geopandas.RefusedError, "row 0: W4: "):
            sfq.geopandas.sjoin(frame([Polygon(ring)]), frame([Point(1, 1)]))


class OfPoints:
    """Joins of points, which aren't kept: what is found and said is what there is of points that are."""

    def test_joins_of_points_as_a_look_at_each_pair(self):
        chance = random.Random(21)
        points = frame([Point(chance.randint(0, 8), chance.randint(0, 8)) for _ in range(40)])
        others, some = frame(shapes(chance, 40)), frame([Point(2, 2), Point(), Point(3, 5), Point()])
        for left, right in ((points, others), (others, points), (points, points), (some, others), (others, some)):
            ones, twos = (geometries(side.geometry) for side in (left, right))
            for name in library.RELATIONS:
                wanted = [(i, j) for i, one in enumerate(ones) for j, two in enumerate(twos) if one and two and getattr(one, name)(two)]
                self.assertEqual(pairs(sfq.geopandas.sjoin(left, right, predicate=name)), wanted, name)

    def test_the_order_of_rows_of_points(self):
        """Rows ascend by the left frame's place, then by the right one's, which GeoPandas keeps from version 1.0 on."""
        chance = random.Random(22)
        points = frame([Point(chance.randint(0, 8), chance.randint(0, 8)) for _ in range(60)])
        others = frame([it for it in shapes(chance, 60) if it is not None])
        for predicate, left, right in (("within", points, others), ("intersects", points, others), ("covers", others, points)):
            found = sfq.geopandas.sjoin(left, right, predicate=predicate)
            if not geopandas.__version__.startswith("0."):
                self.assertEqual(list(zip(found.index, found.index_right)), pairs(found))
            self.assertGreater(len(found), 20)

    def test_what_is_said_of_points(self):
        chance, counts = random.Random(23), set()
        for at in range(300):
            unit, most = chance.choice([1, 0.5, 0.1, 0.01, 1e-7, 3e-9, 1e6]), chance.choice([3, 1000, 10**6])
            by, far = chance.choice([0, 0, unit / 3, unit * chance.random()]), chance.choice([0, 0, 1e3, 564_000.5, 5_935_000])
            points = [Point(far + chance.randint(-most, most) * unit + by, chance.randint(-most, most) * unit) for _ in range(chance.randint(1, 9))]
            words = chance.choice([{}, {}, {"step": unit}, {"step": unit * 2}, {"step": unit, "origin": (far, 0)}, {"step": None}])
            series = GeoSeries(points)
            options = sfq.geopandas.Options(words.get("step", frames.AUTO), words.get("origin"), False, "warn")
            said = []
            for places in (True, False):
                try:
                    column = frames.taken({"left": series}, options, places)["left"]
                except ValueError as error:
                    said.append(str(error))
                    continue
                said.append((column.said(), column.statuses.tolist()))
                counts.add((column.points is not None, column.shift.moved > 0))
            self.assertEqual(*said, (at, words, points))
        self.assertEqual(len(counts), 4)


class Points(OfPoints, unittest.TestCase):
    """Joins of points with the version of shapely that is there."""


@unittest.skipIf(hasattr(shapely, "to_wkb"), "shapely is of a later version")
class LaterShapely(OfPoints, unittest.TestCase):
    """What is asked of shapely from version 2 on, which takes whole arrays, by functions of the same names."""

    TYPES = ["Point", "LineString", "LinearRing", "Polygon", "MultiPoint", "MultiLineString", "MultiPolygon", "GeometryCollection"]

    def setUp(self):
        for it in (self.to_wkb, self.get_type_id, self.get_coordinate_dimension, self.get_coordinates, self.get_x, self.get_y):
            patched = mock.patch.object(shapely, it.__name__, it, create=True)
            patched.start()
            self.addCleanup(patched.stop)

    def to_wkb(self, geometry, hex=False, output_dimension=3, byte_order=-1, include_srid=False, flavor="extended"):
        """None for a missing geometry."""
        self.assertEqual((hex, include_srid, flavor), (False, False, "extended"))
        writer = geos.WKBWriter(geos.lgeos, big_endian=byte_order == 0, output_dimension=output_dimension)
        return numpy.array([None if it is None else writer.write(it) for it in geometry], dtype=object)

    def get_type_id(self, geometry):
        return numpy.array([-1 if it is None else self.TYPES.index(it.type) for it in geometry])

    def get_coordinate_dimension(self, geometry):
        return numpy.array([-1 if it is None else 3 if it.has_z else 2 for it in geometry])

    def get_x(self, geometry):
        """No number for what isn't a point with a position."""
        return numpy.array([it.x if isinstance(it, Point) and not it.is_empty else math.nan for it in geometry])

    def get_y(self, geometry):
        return numpy.array([it.y if isinstance(it, Point) and not it.is_empty else math.nan for it in geometry])

    def get_coordinates(self, geometry):
        """Nothing for an empty geometry and a missing one."""
        found = [position[:2] for it in geometry if it is not None and not it.is_empty for position in self.positions(it)]
        return numpy.array(found, dtype=float).reshape(-1, 2)

    def positions(self, shape):
        """Returns the positions of a geometry."""
        if hasattr(shape, "geoms"):
            return [position for it in shape.geoms for position in self.positions(it)]
        rings = [shape.exterior, *shape.interiors] if shape.type == "Polygon" else [shape]
        return [position for it in rings for position in it.coords]

    def test_missing_geometries_and_heights(self):
        left, right = frame([Point(1, 2, 3), None, Point(9, 9)]), frame([box(0, 0, 4, 4)])
        self.assertEqual(pairs(sfq.geopandas.sjoin(left, right, flat=True)), [(0, 0)])
        with self.assertRaisesRegex(sfq.geopandas.RefusedError, "row 0: W1: POINT Z"):
            sfq.geopandas.sjoin(left, right)

    def both(self, shapes, flat=False):
        """Returns shapes as they are taken, and as well-known binary that shapely writes one by one, with an empty point for an empty
        collection."""
        given = numpy.empty(len(shapes), dtype=object)
        for place, shape in enumerate(shapes):
            given[place] = shape
        written = [frames.NO_POINT if it == frames.NOTHING else it or b"" for it in shapely.to_wkb(given, byte_order=1, output_dimension=2 if flat else 3)]
        return frames.binaries(given, flat), library.Binaries(written)

    def test_points_are_taken_as_one_array(self):
        infinite, none = math.inf, math.nan
        for positions, flat in (
            ([], False), ([(1, 2)], False), ([(0.25, -3.5), (7, 1e9), (-8.125, 2.5), (1e300, 0)], False), ([(1, 2), (infinite, 0)], False),
            ([(none, 1), (2, -infinite), (3, 4)], False), ([(1, 2, 3), (4.5, 5)], True),
        ):
            with self.subTest(positions=positions, flat=flat):
                packed, each = self.both([Point(it) for it in positions], flat)
                self.assertIs(type(packed), frames.Points)
                self.assertEqual([packed[it] for it in range(len(packed))], list(each.each))
                self.assertEqual(repr(packed.extent()), repr(each.extent()))
                for grid in (None, grids.Grid("0.5").in_parts()):
                    one, other = library.KeptMany(packed, grid), library.KeptMany(each, grid)
                    for field in ("statuses", "faults", "shift"):
                        self.assertEqual(bytes(getattr(one, field)), bytes(getattr(other, field)), field)

    def test_other_geometries_are_taken_one_by_one(self):
        for given in ([Point(1, 2), None], [Point(1, 2), Point()], [Point(1, 2, 3)], [Point(1, 2), LineString([(0, 0), (1, 1)])]):
            packed, each = self.both(given)
            self.assertEqual((type(packed), packed.each), (library.Binaries, each.each))


class Rows(unittest.TestCase):
    """Relations row by row, alignment, validity, and what shows them."""

    def test_matrices_and_predicates_as_of_each_pair(self):
        chance = random.Random(14)
        left, right = (GeoSeries(shapes(chance, 200)) for _ in "ab")
        ones, others = (geometries(side) for side in (left, right))
        wanted = [one.relate(other) if one and other else None for one, other in zip(ones, others)]
        assert_series_equal(sfq.geopandas.relate(left, right), pandas.Series(wanted, dtype=object))
        for name in library.RELATIONS:
            ask = getattr(sfq.geopandas, name)
            self.assertEqual(ask.__name__, name)
            held = [bool(one and other and getattr(one, name)(other)) for one, other in zip(ones, others)]
            assert_series_equal(ask(left, right), pandas.Series(held))

    def test_one_geometry_for_all(self):
        left = GeoSeries([Point(1, 1), None, Point(9, 9), Polygon()], index=list("abcd"))
        assert_series_equal(sfq.geopandas.within(left, box(0, 0, 4, 4)), pandas.Series([True, False, False, False], index=list("abcd")))
        self.assertEqual(sfq.geopandas.relate(frame(list(left)), Point(1, 1)).tolist()[:3], ["0FFFFFFF2", None, "FF0FFF0F2"])
        with self.assertRaisesRegex(TypeError, "sfq: the right side is a GeoSeries or a geometry of shapely, not str"):
            sfq.geopandas.within(left, "POINT(1 1)")

    def test_alignment(self):
        left, right = GeoSeries([Point(1, 1), Point(2, 2)], index=[0, 1]), GeoSeries([Point(2, 2), Point(3, 3)], index=[1, 2])
        found, (said,) = warned(sfq.geopandas.equals, left, right)
        self.assertEqual((str(said.message)[:11], said.filename), ("The indices", __file__))
        wanted = quiet(left.geom_equals, right, align=True)
        assert_series_equal(found, wanted)
        found, said = warned(sfq.geopandas.equals, left, right, align=True)
        self.assertEqual(len(said), len(warned(left.geom_equals, right, align=True)[1]))
        assert_series_equal(found, wanted)
        assert_series_equal(sfq.geopandas.equals(left, right, align=False), left.geom_equals(right, align=False))
        with self.assertRaisesRegex(ValueError, "Lengths of inputs do not match. Left: 2, Right: 1"):
            sfq.geopandas.equals(left, right[:1], align=False)

    def test_validity(self):
        series = GeoSeries([box(0, 0, 4, 4), BOW, None, Point(), Point(1, 2, 3), Point(math.inf, 0), MultiPolygon([box(0, 0, 2, 2), box(2, 0, 4, 2)])], index=list("abcdefg"))
        self.assertEqual(sfq.geopandas.is_valid(series).tolist(), [True, False, False, True, False, False, False])
        found = sfq.geopandas.is_valid_reason(series)
        self.assertEqual(list(found.index), list("abcdefg"))
        self.assertEqual(found.tolist()[:6], [
            "valid", "V3 0: 0 0 to 4 4 and 4 0 to 0 4 share 2 2", None, "valid", "W1: POINT Z: flat=True drops it", "W1: a coordinate is infinite or no number",
        ])
        self.assertRegex(found["g"], r"^V7 0 1: ")
        moved = quiet(sfq.geopandas.is_valid_reason, series[:2].affine_transform([0.1, 0, 0, 0.1, 564_000, 5_935_000]))
        self.assertEqual(moved["b"], "V3 0: 564000 5935000 to 564000.4 5935000.4 and 564000.4 5935000 to 564000 5935000.4 share 564000.2 5935000.2")

    def test_why(self):
        left = GeoSeries([LineString([(0, 0), (0.03, 0.01)]), None])
        found = sfq.geopandas.why(left, LineString([(0, 0.01), (0.02, 0)]), step="0.01")
        self.assertIsNone(found[1])
        self.assertEqual(found[0][0], sfq.Cell("interior", "interior", "0", "at 0.012 0.004"))
        self.assertEqual(found[0][2].shown, "from 0 0 to 0.012 0.004")
        self.assertEqual("".join(it.dimension for it in found[0]), sfq.geopandas.relate(left, LineString([(0, 0.01), (0.02, 0)]), step="0.01")[0])

    def test_more_rows_than_are_asked_at_once(self):
        left = GeoSeries([Point(it, 0) for it in range(2_500)])
        self.assertEqual(sfq.geopandas.intersects(left, box(0, -1, 1_999, 1)).sum(), 2_000)
        self.assertEqual(set(sfq.geopandas.relate(left, left)), {"0FFFFFFF2"})


class Layers(unittest.TestCase):
    """Layers that others made: the pairs are those of GEOS over the same rounded shapes."""

    def compare(self, left, right, step, predicates, origin=("0", "0")):
        """Joins by sfq, and by GEOS what was rounded. Returns how many pairs there are by each predicate."""
        ones, others = (GeoDataFrame(geometry=rounded(it.geometry, step, origin)) for it in (left, right))
        counts = {}
        for name in predicates:
            found = quiet(sfq.geopandas.sjoin, left, right, predicate=name, step=step, origin=origin, on_invalid="warn")
            wanted = quiet(geopandas.sjoin, ones, others, predicate=name)
            self.assertEqual(pairs(found), pairs(wanted), name)
            counts[name] = len(found)
        return counts

    def layer(self, name):
        """Returns a layer that GeoPandas has before version 1.0."""
        if geopandas.__version__ >= "1":
            self.skipTest(f"GeoPandas {geopandas.__version__} has no layers")
        return geopandas.read_file(geopandas.datasets.get_path(name))

    def test_countries_and_cities(self):
        countries, cities = self.layer("naturalearth_lowres"), self.layer("naturalearth_cities")
        counts = self.compare(cities, countries, "0.00002", ("intersects", "within", "touches"))
        self.assertGreater(counts["within"], 200)
        counts = self.compare(countries, countries, "0.00002", ("intersects", "touches", "overlaps", "covers", "contains", "crosses"))
        self.assertGreater(counts["touches"], 100)
        relate = quiet(sfq.geopandas.relate, countries, countries.geometry.iloc[43], step="0.00002", on_invalid="warn")
        on_grid = rounded(countries.geometry, "0.00002")
        wanted = [None if it is None else it.relate(on_grid.iloc[43]) for it in on_grid]
        self.assertEqual(relate.tolist(), wanted)

    @unittest.skipUnless(os.path.isfile(COUNTIES), "needs the package r-cran-sf")
    def test_counties(self):
        counties = geopandas.read_file(COUNTIES)
        counts = self.compare(counties, counties, "0.000001", ("touches", "intersects"), ("-80", "35"))
        self.assertGreater(counts["touches"], 400)

    def test_boroughs(self):
        """Of five, two have more positions than sfq takes."""
        boroughs = self.layer("nybb")
        reasons = quiet(sfq.geopandas.is_valid_reason, boroughs, step="0.1")
        self.assertEqual([it[:2] for it in reasons if it != "valid"], ["W4", "W4"])
        points = GeoDataFrame(geometry=[Point(x, y) for x in range(915_000, 1_065_000, 5_000) for y in range(120_000, 272_000, 5_000)], crs=boroughs.crs)
        counts = self.compare(points, boroughs, "0.1", ("within",), ("980000", "195000"))
        self.assertGreater(counts["within"], 50)


if __name__ == "__main__":
    unittest.main()
