"""What sfq-import says of relations that rounding changed: made cases whose relations are known before and after, and layers of packages."""
import csv
import itertools
import json
import os
import random
import re
import unittest
from fractions import Fraction

import exact_cells
from import_calls import WithImports, feature
from test_import_layers import EARTH, OLINDA, WHEAT

from support import ROOT, read


def box(left, low, right, high):
    return "Polygon", [[[left, low], [right, low], [right, high], [left, high], [left, low]]]


def ring(*corners):
    return "Polygon", [[*map(list, corners), list(corners[0])]]


# A slanted edge from 0 0 to 4 2, and the area below it.
BELOW = ring((0, 0), (4, 2), (4, -5))
# Pairs that a step of 1 relates otherwise, each with both relations and a point where they meet. The values are computed by hand.
CASES = {
    "sliver": (box(0, 0, 10, 10), box(9.75, 0, 20, 10), "overlaps", "touches"),
    "gap": (box(0, 0, 10, 10), box(10.25, 0, 20, 10), "disjoint", "touches"),
    # The corner 0.5 0.25 is on the edge. It becomes 1 0, which is below; 1 0.5 becomes 1 1, which is above.
    "touch_that_overlaps": (BELOW, ring((0.5, 0.25), (4, 9), (-4, 9)), "touches", "overlaps"),
    "junction": (BELOW, ring((1, 0.5), (4, 9), (-4, 9)), "touches", "disjoint"),
    "inner": (box(0, 0, 10, 10), box(0.25, 0.25, 5, 5), "contains", "contains"),
    "same": (box(0, 0, 10, 10), box(0.25, 0, 10, 10), "contains", "equals"),
    "lines": (("LineString", [[0, 0], [10, 10]]), ("LineString", [[3, 3.25], [0, 9]]), "disjoint", "touches"),
    "points": (("Point", [0.25, 0]), ("Point", [0, 0.25]), "disjoint", "equals"),
    "point_in": (("Point", [9.75, 5]), box(0, 0, 10, 10), "within", "touches"),
}
SAID = {
    "sliver": "1 of 1 pair that meets: 1 overlapped by at most a step and now touches",
    "gap": "1 of 1 pair that meets: 1 was apart by at most a step and now touches",
    "touch_that_overlaps": "1 of 1 pair that meets: 1 touched and now overlaps (0 and 1 at ",
    "junction": "1 of 1 pair that meets: 1 touched and now is apart (0 and 1 at 1.0 0.5)",
    "inner": "no relation of 1 pair that meets",
    "same": "1 of 1 pair that meets: 1 had one within the other and now is equal (0 and 1 at ",
    "lines": "1 of 1 pair that meets: 1 was apart by at most a step and now touches",
    "points": "1 of 1 pair that meets: 1 was apart by at most a step and now is equal (0 and 1 at 0.0 0.0)",
    "point_in": "1 of 1 pair that meets: 1 had one within the other and now touches (0 and 1 at 9.75 5.0)",
}


def text(geometry, scale):
    """Returns a geometry as well-known text with whole coordinates: each is multiplied by a whole number, and then rounded."""
    kind, found = geometry
    lists = found if kind == "Polygon" else [found if kind == "LineString" else [found]]
    spelled = [",".join(" ".join(str((Fraction(it) * scale + Fraction(1, 2)).__floor__()) for it in p) for p in each) for each in lists]
    return kind.upper() + ("(" + ",".join(f"({it})" for it in spelled) + ")" if kind == "Polygon" else f"({spelled[0]})")


def relation(one, other):
    """Returns the relation of two texts by the model of definitions."""
    matrix = "".join(it.split()[2] for it in exact_cells.lines(one, other).splitlines())
    holds = {it[3:].lower() for it in exact_cells.related(matrix, one, other)} - {"intersects"}
    return "equals" if "equals" in holds else holds.pop()


class Changes(WithImports):
    """Layers of two geometries, on the step 1."""

    def changed(self, folder):
        with open(f"{folder}/changed-relations.csv", newline="", encoding="utf-8") as file:
            return list(csv.DictReader(file))

    def test_cases_are_what_they_say(self):
        """All coordinates are quarters, so the source in steps of a quarter is exact."""
        for name, (one, other, before, after) in CASES.items():
            self.assertEqual(relation(text(one, 4), text(other, 4)), before, name)
            self.assertEqual(relation(text(one, 1), text(other, 1)), after, name)

    def test_each_change_is_told(self):
        for name, (one, other, before, after) in CASES.items():
            with self.subTest(name=name):
                folder, said = self.imported([feature(one), feature(other)], "--anyway")
                self.assertIn(f"sfq-import: t: rounding changed {SAID[name]}", said)
                found = self.changed(folder)
                self.assertEqual([(it["key"], it["other_key"], it["before"], it["after"]) for it in found], [("0", "1", before, after)][: before != after])
                (kept,) = json.loads(read(f"{folder}/grid.json"))["relations"]
                self.assertEqual((kept["tables"], kept["pairs"], kept["changed"]), (["t"], 1, len(found)))
                self.assertIn(kept["said"], said)

    def test_two_layers_of_one_folder(self):
        """Each pair of layers has its line, and the layers alone have theirs where pairs of them meet."""
        one, other = (self.source([feature(it)], name) for it, name in ((CASES["sliver"][0], "a"), (CASES["sliver"][1], "b")))
        out = f"{os.path.dirname(one)}/out"
        layer = f"{os.path.dirname(one)}/changed.geojson"
        ran = self.command("sfq-import", one, other, "--grid", "1", "--out", out, "--changed", layer)
        self.assertEqual(ran.returncode, 0, ran.stderr)
        self.assertIn("sfq-import: a and b: rounding changed 1 of 1 pair that meets: 1 overlapped by at most a step and now touches\n", ran.stderr)
        (found,) = self.changed(out)
        self.assertEqual([found[it] for it in ("table", "other_table", "before", "after")], ["a", "b", "overlaps", "touches"])
        (point,) = json.loads(read(layer))["features"]
        self.assertEqual(point["properties"]["before"], "overlaps")
        self.assertEqual(point["geometry"]["coordinates"], [float(found["x"]), float(found["y"])])

    def test_a_table_that_is_replaced_takes_its_lines_with_it(self):
        folder, _ = self.imported([feature(it) for it in CASES["sliver"][:2]])
        self.assertEqual(len(self.changed(folder)), 1)
        again = self.source([feature(it) for it in CASES["inner"][:2]])
        ran = self.command("sfq-import", again, "--out", folder, "--replace")
        self.assertEqual(ran.returncode, 0, ran.stderr)
        self.assertEqual(self.changed(folder), [])
        (kept,) = json.loads(read(f"{folder}/grid.json"))["relations"]
        self.assertEqual(kept["changed"], 0)

    def test_without_relations(self):
        folder, said = self.imported([feature(it) for it in CASES["sliver"][:2]], "--no-relations")
        self.assertNotIn("relation", said)
        self.assertFalse(os.path.exists(f"{folder}/changed-relations.csv"))

    def test_what_was_mended_is_not_compared(self):
        spike = ring((0, 20), (4, 20), (4, 24), (6, 24), (4, 24), (0, 24))
        _, said = self.imported([feature(it) for it in (*CASES["sliver"][:2], spike)], "--invalid", "mend")
        self.assertIn("sfq-import: t: relations of 1 mended or parted record aren't compared\n", said)

    def test_an_ending_that_is_no_format(self):
        ran = self.command("sfq-import", self.source([]), "--out", f"{self.room}/none", "--changed", "x.txt")
        self.assertEqual((ran.returncode, ran.stdout), (2, ""))
        self.assertIn("argument --changed: 'x.txt' doesn't end in .gpkg, .geojson, .fgb\n", ran.stderr)
        source = self.source([feature(CASES["sliver"][0])])
        ran = self.command("sfq-import", source, "--out", f"{self.room}/none", "--changed", source)
        self.assertEqual(ran.returncode, 2)
        self.assertIn(f"--changed {source} is a source\n", ran.stderr)
        self.assertFalse(os.path.exists(f"{self.room}/none"))

    def test_a_layer_that_cannot_be_written(self):
        """There is no folder then."""
        ran = self.command("sfq-import", self.source([feature(CASES["sliver"][0])]), "--out", f"{self.room}/none", "--changed", "/none/a.gpkg")
        self.assertEqual((ran.returncode, ran.stdout), (6, ""))
        self.assertIn("sfq-import: /none/a.gpkg: No such file or directory\n", ran.stderr)
        self.assertFalse(os.path.exists(f"{self.room}/none"))

    def test_random_geometries_of_all_types(self):
        """Coordinates are quarters, so the model of definitions knows both relations of each pair: of the quarters, and of what was kept."""
        dice = random.Random(4)
        quarters = [it for it in (exact_cells.random_text(dice, 24) for _ in range(45)) if "EMPTY" not in it]
        path = self.texts(*(re.sub(r"\d+", lambda it: str(int(it[0]) / 4), each) for each in quarters))
        folder, said = self.imported(path, "--anyway", "--invalid", "leave-out")
        kept = {int(key) - 1: text for key, text in zip(self.column(folder, self.table(folder)[0][0]), self.column(folder))}
        self.assertGreater(len(kept), 25)
        wanted = []
        for one, other in itertools.combinations(sorted(kept), 2):
            before, after = relation(quarters[one], quarters[other]), relation(kept[one], kept[other])
            if before != after:
                wanted.append((str(one + 1), str(other + 1), before, after))
        self.assertGreater(len({it[2:] for it in wanted}), 8)
        self.assertEqual([tuple(it[name] for name in ("key", "other_key", "before", "after")) for it in self.changed(folder)], wanted)
        self.assertIn(f"rounding changed {len(wanted)} of ", said)

    def test_many_pairs_are_shared_out(self):
        """The lines of processes are together those of one, in their order. Of 1,500 squares the 1,475 neighbours in a row overlap."""
        squares = [feature(box(10 * x - (0.25 if x else 0), 10 * y, 10 * x + 10, 10 * y + 10)) for y in range(25) for x in range(60)]
        folder, said = self.imported(squares)
        self.assertIn("rounding changed 1,475 of 5,747 pairs that meet: 1,475 overlapped by at most a step and now touch\n", said)
        keys = [(int(it["key"]), int(it["other_key"])) for it in self.changed(folder) if it["before"] == "overlaps"]
        self.assertEqual(keys[:59], [(it, it + 1) for it in range(59)])
        self.assertEqual(keys, sorted(keys))

    def layer(self, layer, grid, wanted, *words):
        if not os.path.exists(layer[1]):
            self.skipTest(f"needs the package {layer[0]}")
        folder, said = self.imported(layer[1], *words, grid=grid)
        self.assertIn(wanted, said)
        return self.changed(folder)

    def test_fields_whose_doubles_are_off_by_the_last_bit(self):
        found = self.layer(WHEAT, "auto", "wheat: rounding changed 1,041 of 1,867 pairs that meet: 775 were apart by at most a step and now touch; "
                           "266 overlapped by at most a step and now touch\n")
        self.assertEqual(len(found), 1_041)

    def test_countries(self):
        found = self.layer(EARTH, "0.00002", "rounding changed 3 of 299 pairs that meet: 1 was apart by at most a step and now touches; 2 touched and now overlap (")
        self.assertEqual(sorted((it["before"], it["after"]) for it in found), [("disjoint", "touches"), ("touches", "overlaps"), ("touches", "overlaps")])

    def test_tracts(self):
        self.layer(OLINDA, "0.0000001", "rounding changed 23 of 1,370 pairs that meet: 23 overlapped by at most a step and now touch\n", "--origin", "auto")


class Answers(WithImports):
    """What sfq-ask says beneath an answer."""

    def ask(self, source, query, *words):
        ran = self.command("sfq-ask", source, query, *words, XDG_CACHE_HOME=f"{self.room}/cache")
        self.assertEqual(ran.returncode, 0, ran.stderr)
        return ran.stdout, ran.stderr

    def test_the_line_is_repeated(self):
        """Each time where a table is joined with itself, from a folder and from the cache, and not where it is asked alone."""
        both = "SELECT a.fid, b.fid FROM t a JOIN t b ON ST_Touches(a.geom, b.geom) WHERE a.fid < b.fid"
        line = "sfq-ask: note: t: rounding changed 1 of 1 pair that meets: 1 overlapped by at most a step and now touches\n"
        source = self.source([feature(it) for it in CASES["sliver"][:2]])
        folder, _ = self.imported(source)
        for place, words in ((folder, ()), (source, ("--grid", "1")), (source, ("--grid", "1"))):
            out, said = self.ask(place, both, *words)
            self.assertEqual(out, "a.fid,b.fid\n0,1\n")
            self.assertTrue(said.endswith(line), said)
        self.assertNotIn("rounding", self.ask(folder, "SELECT COUNT(*) FROM t")[1])
        other, _ = self.imported([feature(it) for it in CASES["inner"][:2]])
        self.assertNotIn("rounding", self.ask(other, both)[1])


class Steps(WithImports):
    """Which step is taken, what --steps prints, and a step that breaks records."""

    # A square, and a triangle whose corners are all nearest to 0 0 or 1 0 on the step 1, so that it has no area there.
    SQUARE, NARROW = box(0, 0, 10, 10), ring((0.125, 0), (1.25, 0), (1, 0.25))

    def steps(self, source, *words):
        ran = self.command("sfq-import", source, "--steps", *words)
        self.assertEqual(ran.returncode, 0, ran.stderr)
        return ran.stdout

    def test_nothing_moves_where_a_step_has_all(self):
        """Centimetres, of which 10.07 and 563000.29 are no doubles."""
        for x, right in (("0", "1.01"), ("563000.29", "563001.29")):
            corners = f"{x} 10.07,{right} 10.07,{x} 11.3,{x} 10.07"
            folder, said = self.imported(self.texts(f"POLYGON(({corners}))", f"POINT({x} 300)"), "--from", "EPSG:25832", grid="auto")
            self.assertIn(" takes all exactly (steps of 0.01 metre)\n", said)
            self.assertIn("t: 2 of 2 records in t.csv; nothing moved, 0 merged\n", said)
            grid = json.loads(read(f"{folder}/grid.json"))
            first = [int(it) for it in self.column(folder)[1].strip("POINT()").split()]
            self.assertEqual([Fraction(o) + n * Fraction(grid["step"]) for n, o in zip(first, grid["origin"])], [Fraction(x), 300])

    def test_of_two_steps_the_one_that_refuses_fewer(self):
        """The triangle's corners have y 1 on the step 2, and 0 and 1 on the step 5. Points 30,000 km apart need a step of 1.5 or more."""
        path = self.texts("POINT(15000000.123456789 0)", "POINT(-15000000 0)", "POLYGON((0 2.4,20 2.4,10 2.6,0 2.4))")
        folder, said = self.imported(path, "--from", "EPSG:25832", grid="auto")
        self.assertIn("--grid 2 --origin 0,0 takes all (steps of 2 metre)\n", said)
        self.assertIn("sfq-import: --grid 5 --origin 0,0 is taken instead: it refuses fewer records\n", said)
        self.assertEqual(said.count("records in t.csv"), 1)
        self.assertEqual(self.column(folder)[2], "POLYGON((0 0,4 0,2 1,0 0))")
        self.assertEqual(json.loads(read(f"{folder}/grid.json"))["step"], "5")

    def test_a_coarse_step_is_asked_for(self):
        path = self.source([feature(self.SQUARE), feature(self.NARROW)])
        out = f"{os.path.dirname(path)}/out"
        ran = self.command("sfq-import", path, "--grid", "1", "--out", out)
        self.assertEqual((ran.returncode, ran.stdout), (4, ""))
        self.assertIn("sfq-import: t: 1 of 2 records is valid in the source, and broken by the step 1: --grid 0.000001 --origin 0,0 is finer, "
                      "--steps compares steps, and --anyway imports the others\n", ran.stderr)
        self.assertFalse(os.path.exists(out))
        folder, said = self.imported(path, "--anyway", "--invalid", "leave-out")
        self.assertEqual(self.column(folder, "fid"), ["0"])
        self.assertIn("broken by the step 1; --grid 0.000001 --origin 0,0 reaches all\n", said)

    def test_one_percent(self):
        """One record of 100 is taken, and one of 99 isn't; what the source itself has wrong doesn't count."""
        squares = [feature(box(20 * it, 0, 20 * it + 10, 10)) for it in range(98)]
        bows = [feature(ring((0, 20), (4, 24), (4, 20), (0, 24))) for _ in range(9)]
        self.imported([*squares, feature(self.SQUARE), feature(self.NARROW), *bows])
        ran = self.command("sfq-import", self.source([*squares, feature(self.NARROW)]), "--grid", "1", "--out", f"{self.room}/few")
        self.assertEqual(ran.returncode, 4)
        self.imported([*squares, *bows])

    def test_the_table(self):
        """By hand: on the step 2.5 the gap of a quarter closes and the triangle goes; on 25 nothing is left, and 10.25 10 moves to 0 0."""
        path = self.source([feature(it) for it in (*CASES["gap"][:2], self.NARROW)])
        self.assertEqual(self.steps(path, "--grid", "0.25"), (
            "step  records refused  greatest shift  relations changed\n"
            "0.25           0 of 3           0.125                  0\n"
            " 2.5           1 of 3            1.25                  1\n"
            "  25           3 of 3            14.3                  0\n"
        ))
        self.assertEqual(self.steps(path, "--grid", "0.25", "--no-relations").splitlines()[1].split(), ["0.25", "0", "of", "3", "0.125"])

    def test_words_that_do_not_go_together(self):
        path = self.source([feature(self.SQUARE)])
        for words, said in ((["--steps", "--out", "x"], "--steps imports nothing, so it takes no --out"), ([], "the following arguments are required: --out")):
            ran = self.command("sfq-import", path, *words)
            self.assertEqual((ran.returncode, ran.stdout), (2, ""))
            self.assertIn(said, ran.stderr)

    def test_the_table_of_the_page(self):
        if not os.path.exists(OLINDA[1]):
            self.skipTest(f"needs the package {OLINDA[0]}")
        self.assertIn(f"```text\n{self.steps(OLINDA[1])}```\n", read(f"{ROOT}/docs/DATA.md"))


if __name__ == "__main__":
    unittest.main()
