"""Areas whose rings touch in points, cut into areas that sfq takes: by hand, over a model of what sfq says of rings and areas that share a point."""
import itertools
import unittest

from sfq.geometry import texts
from sfq.layers import parting, touching


def edges(ring):
    return list(zip(ring, ring[1:]))


def shared(one, other):
    """Returns a point that two rings share, by their vertices, and None where they share none; where they share more than points, two of its ends."""
    found = {it for a, b in ((one, other), (other, one)) for it in a for edge in edges(b) if touching.is_between(*edge, it)}
    for (a, b), (c, d) in itertools.product(edges(one), edges(other)):
        on = sorted(it for it in {a, b, c, d} if touching.is_between(a, b, it) and touching.is_between(c, d, it))
        if len(on) > 1:
            return f"{on[0][0]} {on[0][1]} to {on[-1][0]} {on[-1][1]}"
    return "%d %d" % min(found) if found else None


def fault(text):
    """Returns the reason of sfq for a geometry whose rings touch, as far as the cases here go."""
    name, parts = texts.coordinates(text)
    for code, its in (("V4", it) for it in ([parts] if name == "Polygon" else parts)):
        for (i, one), (j, other) in itertools.combinations(enumerate(its), 2):
            if shared(one, other):
                return f"{code} {i} {j}: {one[0][0]} {one[0][1]} to {one[1][0]} {one[1][1]} and 0 0 to 1 1 share {shared(one, other)}"
    for (i, one), (j, other) in itertools.combinations(enumerate(parts if name == "MultiPolygon" else ()), 2):
        if any(shared(*it) for it in itertools.product(one, other)):
            return f"V7 {i} {j}: 0 0 to 1 1 and 0 0 to 1 1 share 0 0"
    return None


def reasons(given):
    return [fault(it) for it in given]


def whole(*corners):
    return [*corners, corners[0]]


SQUARE = whole((0, 0), (9, 0), (9, 9), (0, 9))


class Cuts(unittest.TestCase):
    def parted(self, text):
        """Returns the parts of a text, once they are what they have to be: taken, and together the area."""
        found = touching.parted(text, reasons)
        self.assertEqual((found.put_in, found.greatest), (0, 0.0))
        self.assertEqual(reasons(found.texts), [None] * len(found.texts))
        areas = []
        for it in (text, *found.texts):
            name, parts = texts.coordinates(it)
            areas.append(sum(map(touching.area, [parts] if name == "Polygon" else parts)))
        self.assertEqual(areas[0], sum(areas[1:]))
        return found.texts

    def test_a_hole_that_touches_its_outer_ring(self):
        """The shortest line between a corner of the hole and one of the square is the cut."""
        found = self.parted("POLYGON((0 0,9 0,9 9,0 9,0 0),(0 2,1 1,1 3,0 2))")
        self.assertEqual(sorted(found), ["POLYGON((0 0,9 0,9 9,0 9,0 2,1 3,1 1,0 0))", "POLYGON((1 1,0 2,0 0,1 1))"])

    def test_a_corner_of_the_outer_ring_on_an_edge_of_a_hole(self):
        found = self.parted(texts.spelled("Polygon", (whole((0, 0), (9, 0), (9, 9), (4, 9), (4, 6), (3, 9), (0, 9)), whole((2, 6), (6, 6), (4, 2)))))
        self.assertEqual(len(found), 2)
        self.assertTrue(all("4 6" in it for it in found))

    def test_two_holes_that_touch_each_other(self):
        found = self.parted(texts.spelled("Polygon", (SQUARE, whole((1, 1), (3, 3), (1, 5)), whole((3, 3), (5, 1), (5, 5)), whole((7, 7), (8, 7), (8, 8)))))
        self.assertEqual(len(found), 2)
        # What lies between the two is one part, and the other has the hole that touches none.
        self.assertEqual(sum("(7 7,8 7,8 8,7 7)" in it for it in found), 1)

    def test_a_chain_of_holes_from_the_outer_ring(self):
        holes = [whole((0, 4), (2, 3), (2, 5)), whole((2, 3), (4, 2), (4, 4)), whole((4, 4), (6, 3), (6, 5))]
        self.assertGreaterEqual(len(self.parted(texts.spelled("Polygon", (SQUARE, *holes)))), 2)

    def test_three_rings_in_one_point(self):
        holes = [whole((0, 4), (3, 4), (3, 5)), whole((0, 4), (2, 6), (1, 6)), whole((0, 4), (2, 2), (3, 3))]
        self.assertGreaterEqual(len(self.parted(texts.spelled("Polygon", (SQUARE, *holes)))), 2)

    def test_a_hole_within_what_is_cut_off(self):
        outer, touches, inner = whole((0, 0), (60, 0), (60, 60), (0, 60)), whole((0, 30), (30, 10), (30, 50)), whole((4, 20), (5, 20), (5, 21))
        found = self.parted(texts.spelled("Polygon", (outer, touches, inner)))
        self.assertEqual((len(found), sum("(4 20,5 20,5 21,4 20)" in it for it in found)), (2, 1))

    def test_areas_that_touch(self):
        """Areas that share no point stay in one part."""
        squares = [(whole(*((x + a, y + b) for a, b in ((0, 0), (4, 0), (4, 4), (0, 4)))),) for x, y in ((0, 0), (4, 4), (20, 0), (8, 8))]
        found = self.parted(texts.spelled("MultiPolygon", squares))
        self.assertEqual(found, [
            "MULTIPOLYGON(((0 0,4 0,4 4,0 4,0 0)),((20 0,24 0,24 4,20 4,20 0)),((8 8,12 8,12 12,8 12,8 8)))", "POLYGON((4 4,8 4,8 8,4 8,4 4))"])

    def test_a_corner_on_an_edge_of_another_area(self):
        found = self.parted("MULTIPOLYGON(((0 0,4 0,4 4,0 4,0 0)),((4 2,6 1,6 3,4 2)))")
        self.assertEqual(found, ["POLYGON((0 0,4 0,4 4,0 4,0 0))", "POLYGON((4 2,6 1,6 3,4 2))"])

    def test_an_area_with_such_a_hole_among_others(self):
        found = self.parted("MULTIPOLYGON(((0 0,9 0,9 9,0 9,0 0),(0 2,1 1,1 3,0 2)),((20 0,24 0,24 4,20 0)))")
        self.assertEqual(len(found), 2)
        self.assertEqual(sum("20 0,24 0" in it for it in found), 1)

    def test_what_is_no_touch_in_a_point_is_not_cut(self):
        for text in ("POLYGON((0 0,9 0,9 9,0 9,0 0),(0 2,1 1,1 3,0 3,0 2))", "LINESTRING(0 0,1 1)"):
            with self.assertRaises(parting.Undivided):
                touching.parted(text, reasons)

    def test_reasons_without_a_whole_point(self):
        for reason, wanted in (
            ("V4 0 1: 0 9 to 0 0 and 0 2 to 1 1 share 0 2", ("0", "1", "0", "2")), ("V4 0 12: 0 9 to 0 0 and 0 2 to 1 1 share -10 25", ("0", "12", "-10", "25")),
            ("V4 0 1: 0 9 to 0 0 and 0 2 to 0 1 share 0 11 to 0 2", None), ("V4 0 1: 0 9 to 3 0 and 0 2 to 1 1 share 1/2 3", None),
            ("V4 0 1: 0 9 to 3 0 and 0 2 to 1 1 share 3 1/2", None), ("V7 0 1: 0 9 to 0 0 and 0 2 to 1 1 share 0 2", None),
        ):
            found = touching.RINGS.match(reason)
            self.assertEqual(found and found.groups(), wanted, reason)

    def test_where_a_position_lies(self):
        ring = whole((0, 0), (4, 0), (4, 4), (2, 1), (0, 4))
        for at, wanted in (((1, 1), 1), ((2, 1), 0), ((2, 3), -1), ((0, 2), 0), ((5, 0), -1), ((-1, 0), -1), ((3, 1), 1), ((-1, 4), -1), ((1, 4), -1)):
            self.assertEqual((touching.location(at, ring), touching.location(at, ring[::-1])), (wanted, wanted), at)


if __name__ == "__main__":
    unittest.main()
