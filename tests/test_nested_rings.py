"""Many polygons or holes whose boxes meet: whether one is inside another, and which fault is the first."""
import subprocess
import unittest

from support import needs_build

import bad_shapes
import repository

COUNT = 80
WAYS = ((1, 1), (1, -1), (-1, 1), (-1, -1))
FAR = 8 * COUNT


def ells(across, up):
    """L-shapes, each in the corner of the one before it, whose arms are wide enough for a square in them."""
    rings = []
    for low in range(0, 6 * COUNT, 6):
        corners = [(low, low), (FAR, low), (FAR, low + 4), (low + 4, low + 4), (low + 4, FAR), (low, FAR)]
        rings.append([(across * x, up * y) for x, y in corners])
    return rings


def square(x, y, side):
    return [(x, y), (x + side, y), (x + side, y + side), (x, y + side)]


def square_in(rings, at):
    """A square in the corner of one of the L-shapes."""
    (x, y), inward = rings[at][0], rings[at][3]
    return square(min(x, inward[0]) + 1, min(y, inward[1]) + 1, 2)


class NestedRings(unittest.TestCase):
    def first_fault(self, text):
        """What `sfq relate` says of a geometry."""
        ran = subprocess.run([repository.PROGRAM, "relate", text, "POINT(5000 5000)"], capture_output=True, text=True)
        return ran.stderr.strip().removeprefix("sfq: first ") if ran.returncode else "valid"

    def asked(self, rings):
        return self.first_fault(bad_shapes.polygons([[it] for it in rings]))

    def asked_as_holes(self, rings):
        return self.first_fault(bad_shapes.polygon(square(-2 * FAR, -2 * FAR, 4 * FAR), *rings))

    @needs_build
    def test_one_in_the_corner_of_another_is_not_inside(self):
        for across, up in WAYS:
            with self.subTest(across=across, up=up):
                self.assertEqual(self.asked(ells(across, up)), "valid")
                self.assertEqual(self.asked(ells(across, up)[::-1]), "valid")
                self.assertEqual(self.asked_as_holes(ells(across, up)), "valid")

    @needs_build
    def test_a_polygon_inside_another(self):
        for across, up in WAYS:
            rings = ells(across, up)
            with self.subTest(across=across, up=up):
                self.assertEqual(self.asked([*rings, square_in(rings, 40)]), f"V8 {COUNT} 40")
                self.assertEqual(self.asked([square_in(rings, 40), *rings]), "V8 0 41")
                self.assertEqual(self.asked([square_in(rings, 70), *rings, square_in(rings, 3)]), "V8 0 71")

    @needs_build
    def test_a_hole_inside_another(self):
        for across, up in WAYS:
            rings = ells(across, up)
            with self.subTest(across=across, up=up):
                self.assertEqual(self.asked_as_holes([*rings, square_in(rings, 40)]), f"V6 41 {COUNT + 1}")
                self.assertEqual(self.asked_as_holes([square_in(rings, 40), *rings]), "V6 1 42")


if __name__ == "__main__":
    unittest.main()
