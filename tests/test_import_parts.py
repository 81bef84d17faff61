"""sfq-import --part: a record of more positions than sfq takes becomes rows that together are the same set of points, and of which
ST_Intersects and ST_Disjoint say what they say of the whole."""
import json
import os
import random
import subprocess
import unittest

from support import read

import sfq
from import_calls import SHAPELY, WithGeos, feature, square
from sfq.geometry import texts
from sfq.layers import parting


def coast(count, size, seed=11):
    """Returns a ring like a coast: the stretches of a square are broken in the middle, again and again."""
    chance, found = random.Random(seed), [(0.0, 0.0), (size, 0.0), (size, size), (0.0, size), (0.0, 0.0)]
    while len(found) < count:
        more = found[:1]
        for a, b in zip(found, found[1:]):
            out = chance.uniform(-0.22, 0.22)
            more += [((a[0] + b[0]) / 2 - (b[1] - a[1]) * out, (a[1] + b[1]) / 2 + (b[0] - a[0]) * out), b]
        found = more
    return [[round(x, 2), round(y, 2)] for x, y in found]


class Cuts(unittest.TestCase):
    """What a cut is made of, which needs no GDAL. The values are computed by hand."""

    def test_where_an_edge_crosses_a_line(self):
        for a, b, axis, at, wanted in (
            ((0, 0), (4, 4), 0, 1, (1, 0)), ((4, 4), (0, 0), 0, 1, (1, 0)), ((0, 0), (4, 2), 0, 1, (1, 0.5)), ((0, 0), (4, -2), 0, 1, (0, 0.5)),
            ((0, 0), (3, 1), 0, 1, (0, 1 / 3)), ((0, 0), (3, 1), 0, 2, (1, 1 / 3)), ((0, 0), (1, 3), 1, 2, (1, 1 / 3)), ((5, -2), (5, 9), 1, 0, (5, 0)),
        ):
            self.assertEqual(parting.crossing(a, b, axis, at), wanted)
            self.assertEqual(parting.crossing(b, a, axis, at), wanted)

    def test_positions_that_are_put_in(self):
        found = parting.with_crossings([[(0, 0), (3, 0), (3, 3), (0, 2), (0, 0)]], 0, 1)
        self.assertEqual(found, ([[(0, 0), (1, 0), (3, 0), (3, 3), (1, 2), (0, 2), (0, 0)]], 1, 1 / 3))

    def test_pieces_are_whole_only_where_nothing_is_missing_or_twice(self):
        whole = [[(0, 0), (2, 0), (4, 0), (4, 4), (2, 4), (0, 4), (0, 0)]]
        left, right = [[(0, 0), (2, 0), (2, 4), (0, 4), (0, 0)]], [[(2, 0), (2, 4), (4, 4), (4, 0), (2, 0)]]
        cut = [[(2, 0), (2, 1), (2, 4), (4, 4), (4, 0), (2, 0)]]
        for pieces, is_whole in (
            ([left, right], True), ([right, left], True), ([left, cut], True), ([left], False), ([left, right, right], False), ([left, left], False),
            ([left, [[(2, 0), (2, 4), (4, 4), (4, 1), (2, 0)]]], False), ([], False),
        ):
            self.assertEqual(parting.are_whole(whole, pieces, 0, 2), is_whole, pieces)

    def test_lines_that_bend_nothing_come_first(self):
        teeth = [(it, it % 2 * 7) for it in range(1, 40)]
        found = parting.lines([[(0, -9), (40, -9), *reversed(teeth), (0, -9)]], 0)
        self.assertEqual(found[0], 20)
        ring = [[(0, 0), (100, 2), (100, 50), (50, 60), (0, 50), (0, 0)]]
        self.assertEqual(parting.lines(ring, 0)[0], 50)

    def test_lines_and_points_are_parted_at_their_positions(self):
        line = [(it, it * it % 7) for it in range(25_000)]
        found = parting.parted(None, texts.spelled("LineString", line))
        parts = [texts.coordinates(it)[1] for it in found.texts]
        self.assertEqual([len(it) for it in parts], [10_000, 10_000, 5_002])
        self.assertEqual([*parts[0], *parts[1][1:], *parts[2][1:]], line)
        points = [(it, -it) for it in range(20_001)]
        found = parting.parted(None, texts.spelled("MultiPoint", points))
        self.assertEqual([it for text in found.texts for it in texts.coordinates(text)[1]], points)
        self.assertEqual((len(found.texts), found.put_in, found.greatest), (3, 0, 0.0))
        # A line that would end with one position has it in the part before.
        self.assertEqual(len(parting.parted(None, texts.spelled("LineString", line[:19_999])).texts), 2)

    def test_lines_and_polygons_of_many_elements(self):
        lines = [[(it, 0), (it, 1)] for it in range(2_500)]
        found = parting.parted(None, texts.spelled("MultiLineString", [*lines, [(it, 5) for it in range(10_001)]]))
        parts = [texts.coordinates(it)[1] for it in found.texts]
        self.assertEqual([len(it) for it in parts], [1_000, 1_000, 500, 1, 1])
        self.assertEqual([it for each in parts[:3] for it in each], [tuple(it) for it in lines])
        squares = [[[(10 * it, 0), (10 * it + 4, 0), (10 * it + 4, 4), (10 * it, 0)]] for it in range(2_001)]
        found = parting.parted(None, texts.spelled("MultiPolygon", squares))
        self.assertEqual([it.count("((") for it in found.texts], [1_000, 1_000, 1])


class Parts(WithGeos):
    """Parts by the command, and what GEOS says of them."""

    def parted(self, features, *words, grid="0.01", name="t"):
        """Imports features with --part; returns the source, the folder, what was said, and what grid.json says of the table."""
        source = self.source(features, name)
        folder, said = self.imported(source, "--part", *words, grid=grid)
        return source, folder, said, json.loads(read(f"{folder}/grid.json"))["layers"][0]

    def is_whole(self, found, layer, step=0.01):
        """Checks that parts don't overlap, and that together they are the whole but for what the bends of its edges may move."""
        self.assertTrue(found["are_valid"])
        # In steps: the areas are some 1e13, which a double has to 0.01.
        self.assertLess(abs(found["overlap"]), 1)
        self.assertLessEqual(found["differs"], layer["parted"]["greatest"] / step * found["length"] + 1)

    def test_a_coast(self):
        ring = coast(12_000, 90_000)
        features = [feature(("Polygon", [ring]), name="coast"), feature(("Polygon", square(1, 1)), name="small"), feature(None, name="none")]
        source, folder, said, layer = self.parted(features, "--origin", "45000,45000")
        self.assertEqual(self.table(folder)[0], ["part", "whole", "fid", "name", "geom"])
        found, _ = self.geos("wholes", source, folder, "t")
        self.assertGreaterEqual(found["parts"], 2)
        self.is_whole(found, layer)
        self.assertEqual([it[:4] for it in self.table(folder)[1:]], [
            *([str(it + 1), "0", "0", "coast"] for it in range(found["parts"])), [str(found["parts"] + 1), "1", "1", "small"],
            [str(found["parts"] + 2), "2", "2", "none"]])
        self.assertEqual({it: layer["parted"][it] for it in ("part", "whole", "records", "rows", "predicates")}, {
            "part": "part", "whole": "whole", "records": 1, "rows": found["parts"], "predicates": {"ST_Intersects": "any", "ST_Disjoint": "all"}})
        self.assertEqual((layer["key"], layer["records"], layer["rows"], layer["left_out"]), ("part", 3, found["parts"] + 2, 0))
        self.assertLessEqual(layer["parted"]["greatest"], 0.005)
        self.assertRegex(said, r"t: 1 record is parted into \d+ rows: part is the key, whole that of the record; \d+ positions? \w+ put in at cuts, at most ")
        self.relates_as_the_whole(folder, found["text"])
        again = self.imported(source, "--part", "--origin", "45000,45000", grid="0.01")[0]
        for it in os.listdir(folder):
            self.assertEqual(read(f"{folder}/{it}"), read(f"{again}/{it}"), it)

    def relates_as_the_whole(self, folder, text):
        """Compares what sfq says of the parts and probes around the coast with what GEOS says of the whole."""
        chance, probes = random.Random(4), []
        for at in range(60):
            x, y = chance.randrange(-4_700_000, 4_700_000), chance.randrange(-4_700_000, 4_700_000)
            probes.append((f"POINT({x} {y})", f"LINESTRING({x} {y},{x + 400_000} {y - 90_000})", f"POLYGON(({x} {y},{x + 99_999} {y},{x} {y + 77_777},{x} {y}))")[at % 3])
        parts = [sfq.Geometry(it[-1]) for it in self.table(folder)[1:] if it[1] == "0"]
        found = []
        for it in probes:
            meets = [not part.disjoint(it) for part in parts]
            self.assertEqual(meets, [part.intersects(it) for part in parts])
            found.append(any(meets))
        script = "import json, sys; from shapely import wkt; given = json.load(sys.stdin); whole = wkt.loads(given[0])\n" \
                 "print(json.dumps([whole.intersects(wkt.loads(it)) for it in given[1]]))"
        ran = subprocess.run([SHAPELY, "-c", script], input=json.dumps([text, probes]), capture_output=True, text=True, check=True)
        self.assertEqual(found, json.loads(ran.stdout))
        self.assertEqual(set(found), {True, False})

    def test_a_coast_that_comes_late(self):
        """Rows that were written before get the columns of parts, whatever their texts have."""
        names = ["a\n\"b\",c\n", "x", "", "\"", "é,\n\n"]
        for count in (len(names), 2_300):
            small = [feature(("Polygon", square(at % 50, at // 50)), name=names[at % len(names)]) for at in range(count)]
            source, folder, said, layer = self.parted([*small, feature(("Polygon", [coast(12_000, 90_000)]), name="coast"), small[0]], "--origin", "45000,45000")
            table = self.table(folder)
            self.assertEqual(table[0], ["part", "whole", "fid", "name", "geom"])
            self.assertEqual([it[:4] for it in table[1 : count + 1]], [[str(at + 1), str(at), str(at), names[at % len(names)]] for at in range(count)])
            parts = len(table) - 2 - count
            self.assertGreaterEqual(parts, 2)
            self.assertEqual([it[:4] for it in table[count + 1 :]], [
                *([str(it), str(count), str(count), "coast"] for it in range(count + 1, count + 1 + parts)), [str(len(table) - 1), str(count + 1), str(count + 1), names[0]]])
            # As if it had come first, but for the order.
            other = self.table(self.parted([feature(("Polygon", [coast(12_000, 90_000)]), name="coast"), *small, small[0]], "--origin", "45000,45000", name="other")[1], "other")
            self.assertEqual([it[3:] for it in [*table[count + 1 : -1], *table[1 : count + 1], table[-1]]], [it[3:] for it in other[1:]])
            self.assertEqual((layer["rows"], layer["records"], layer["left_out"]), (count + 1 + parts, count + 2, 0))

    def test_holes_and_many_polygons(self):
        chance = random.Random(6)
        holes = [square(2_000 + 900 * (at % 90) + chance.randrange(400), 2_000 + 900 * (at // 90) + chance.randrange(400), 300)[0] for at in range(1_300)]
        far = [square(200_000 + 10 * it, 0) for it in range(1_500)]
        many = feature(("MultiPolygon", [[square(0, 0, 90_000)[0], *holes], *far]))
        source, folder, said, layer = self.parted([many], "--origin", "100000,45000", grid="0.05")
        (found,) = self.geos("wholes", source, folder, "t")
        self.is_whole(found, layer, 0.05)
        # Whole coordinates are on the grid, and lines that cut squares through bend nothing.
        self.assertTrue(found["is_equal"])
        self.assertEqual((layer["parted"]["greatest"], layer["parted"]["put_in"], self.columns(folder)["geom"]), (0, 0, "MULTIPOLYGON"))

    def test_a_comb_whose_teeth_end_on_every_line(self):
        """No line of the grid is free of positions."""
        teeth = [[it, 20_000 if it % 2 else 10] for it in range(10_002)]
        source, folder, said, layer = self.parted([feature(("Polygon", [[[0, 0], [10_001, 0], *reversed(teeth), [0, 0]]]))], grid="1")
        (found,) = self.geos("wholes", source, folder, "t")
        self.is_whole(found, layer, 1)
        self.assertTrue(found["is_equal"])

    def test_lines_and_points(self):
        chance = random.Random(9)
        walk, x, y = [], 0, 0
        for _ in range(25_000):
            x, y = x + chance.choice((-3, -1, 2, 4)), y + chance.choice((-2, 1, 3))
            walk.append([x, y])
        points = [[it * 7 % 10_007, it] for it in range(10_500)]
        for name, given in (("LineString", walk), ("MultiLineString", [walk, [[0, 0], [5, 5]]]), ("MultiPoint", points)):
            source, folder, _, layer = self.parted([feature((name, given))], "--origin", "5000,5000", grid="1")
            self.assertEqual((layer["parted"]["put_in"], layer["left_out"]), (0, 0))
            wanted = given if name == "MultiPoint" else [[tuple(sorted((a, b))) for a, b in zip(it, it[1:])] for it in ([walk] if name == "LineString" else given)]
            found = [texts.coordinates(it) for it in self.column(folder)]
            self.assertEqual({kind for kind, _ in found}, {name})
            self.assertGreater(len(found), 1)
            if name == "MultiPoint":
                self.assertEqual(sorted([x + 5_000, y + 5_000] for _, each in found for x, y in each), sorted(wanted))
                continue
            stretches = [it for kind, each in found for it in ([each] if kind == "LineString" else each)]
            moved = [[[x + 5_000, y + 5_000] for x, y in it] for it in stretches]
            self.assertEqual(sorted(tuple(sorted((a, b))) for it in moved for a, b in zip(it, it[1:])), sorted(it for each in wanted for it in each))

    def test_without_the_option_such_a_record_is_left_out(self):
        folder, said = self.imported([feature(("MultiPoint", [[it, it] for it in range(10_001)])), feature(None)])
        self.assertEqual((self.table(folder)[0], [it[2][:2] for it in self.left_out(folder)]), (["fid", "geom"], ["W4"]))

    def test_a_table_without_such_a_record_is_as_without_the_option(self):
        source = self.source([feature(("Point", [1, 2]), a=3)])
        one, other = (self.imported(source, *words)[0] for words in ((), ("--part",)))
        for it in os.listdir(one):
            self.assertEqual(read(f"{one}/{it}"), read(f"{other}/{it}"), it)

    def test_a_key_and_columns_that_have_the_names(self):
        many = ("MultiPoint", [[it, it] for it in range(10_001)])
        features = [feature(many, nr=7, whole="a", part="b"), feature(("Point", [1, 2]), nr=3, whole="c", part="d")]
        folder, said = self.imported(features, "--part", "--key", "nr")
        self.assertEqual([it[:-1] for it in self.table(folder)], [
            ["part", "whole", "nr", "whole_2", "part_2"], ["1", "7", "7", "a", "b"], ["2", "7", "7", "a", "b"], ["3", "3", "3", "c", "d"]])
        self.assertIn("whole is whole_2, part is part_2", said)

    def test_one_that_cannot_be_parted(self):
        """A ring that crosses itself is left out with all its parts, and mended where that is asked and can be done."""
        ring = coast(12_000, 90_000)
        for words in ((), ("--invalid", "mend")):
            spike = [*ring[:-1], [45_000, 140_000], [45_000, -40_000], ring[0]]
            source, folder, said, _ = self.parted([feature(("Polygon", [spike])), feature(("Point", [1, 2]))], "--origin", "45000,45000", *words)
            self.assertEqual(self.column(folder, "fid"), ["1"])
            (one,) = self.left_out(folder)
            self.assertRegex(one[2], r"^W4; it can't be parted: ")
            self.assertEqual(one[3], "left out")

    def test_a_spike(self):
        ring = coast(12_000, 90_000)
        at = ring.index(max(ring))
        spike = [*ring[:at + 1], [99_000, ring[at][1]], *ring[at:]]
        for words, done in (((), "left out"), (("--invalid", "mend"), "mended")):
            _, folder, _, _ = self.parted([feature(("Polygon", [spike])), feature(None)], "--origin", "45000,45000", *words)
            self.assertEqual([it[2:] for it in self.left_out(folder)], [("W4; it can't be parted: it has an edge twice", done)])
            self.assertEqual(sum(it != "" for it in self.column(folder)) > 1, done == "mended")


if __name__ == "__main__":
    unittest.main()
