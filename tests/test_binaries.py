"""Well-known binary and joins in the C library: rows whose values were worked out by hand, each allocation refused, valgrind, values by
chance, and rounding as sfq-import does it."""
import math
import os
import random
import struct
import subprocess
import unittest
from fractions import Fraction

from support import needs

import engine_rows
import library
import test_library
import wkb_model
from sfq.geometry import grids, library as border

try:
    from shapely import wkb
except ImportError:
    wkb = None

# The orders of bytes, as struct has them.
LITTLE, BIG = "<", ">"
HUNDREDTHS = "1 0 0 100"


def head(kind, order=LITTLE):
    """Returns the order of bytes and the number of a type."""
    return struct.pack("B", order == LITTLE) + struct.pack(f"{order}I", kind)


def line(*numbers, order=LITTLE):
    """Returns the number of positions and the positions of a line or a ring."""
    return struct.pack(f"{order}I{len(numbers)}d", len(numbers) // 2, *numbers)


def point(x, y, order=LITTLE):
    return head(1, order) + struct.pack(f"{order}2d", x, y)


def many(kind, *parts, order=LITTLE):
    """Returns a type with its parts: rings, or elements that have heads of their own."""
    return head(kind, order) + struct.pack(f"{order}I", len(parts)) + b"".join(parts)


SQUARE = line(0, 0, 8, 0, 8, 8, 0, 8, 0, 0)
HOLE = line(2, 2, 6, 2, 6, 6, 2, 6, 2, 2)
NAN, INFINITE = float("nan"), float("inf")
# Of a grid and a value what is printed: the status, then the fault, or the number of the system, how many positions there were, moved
# and were merged, by how much a coordinate moved at most, and the text. By hand. A distance is rounded down to a 2^20th of a part.
VALUES = [
    ("", point(1, -2), "0 0 1 0 0 0 POINT(1 -2)"),
    ("", point(1, -2, BIG), "0 0 1 0 0 0 POINT(1 -2)"),
    ("", point(NAN, NAN), "0 0 0 0 0 0 POINT EMPTY"),
    ("", head(2) + line(0, 0, 0, 0, 4, 0, -1, 7, order=LITTLE), "0 0 4 0 1 0 LINESTRING(0 0,4 0,-1 7)"),
    ("", head(2) + line(), "0 0 0 0 0 0 LINESTRING EMPTY"),
    ("", many(3, SQUARE, HOLE), "0 0 10 0 0 0 POLYGON((0 0,8 0,8 8,0 8,0 0),(2 2,6 2,6 6,2 6,2 2))"),
    ("", many(3), "0 0 0 0 0 0 POLYGON EMPTY"),
    ("", many(4, point(3, 4), point(3, 4, BIG)), "0 0 2 0 0 0 MULTIPOINT((3 4),(3 4))"),
    ("", many(5, head(2) + line(0, 0, 1, 1), head(2, BIG) + line(5, 5, 5, 6, order=BIG)), "0 0 4 0 0 0 MULTILINESTRING((0 0,1 1),(5 5,5 6))"),
    ("", many(6, many(3, line(0, 0, 9, 0, 9, 9, 0, 0)), many(3, line(20, 0, 21, 0, 21, 1, 20, 0)), order=BIG),
     "0 0 8 0 0 0 MULTIPOLYGON(((0 0,9 0,9 9,0 0)),((20 0,21 0,21 1,20 0)))"),
    ("", many(6), "0 0 0 0 0 0 MULTIPOLYGON EMPTY"),
    # The number of a reference system, as PostGIS and GEOS write it.
    ("", head(1 | 1 << 29) + struct.pack("<I2d", 25832, 7, 8), "0 25832 1 0 0 0 POINT(7 8)"),
    ("", head(1 | 1 << 29, BIG) + struct.pack(">I2d", 25832, 7, 8), "0 25832 1 0 0 0 POINT(7 8)"),
    # Rounded: a half goes up, also below 0, and what is next to it does not.
    (HUNDREDTHS, point(1.004, 2.25), "0 0 1 1 0 0.004 POINT(100 225)"),
    ("1 0 0 1", point(0.5, -0.5), "0 0 1 1 0 0.5 POINT(1 0)"),
    ("1 0 0 1", point(1.5, -1.5), "0 0 1 1 0 0.5 POINT(2 -1)"),
    ("1 0 0 1", point(math.nextafter(0.5, 0), 9_999_999.5), "0 0 1 1 0 0.5 POINT(0 10000000)"),
    # A half that no double has is one by what the double is: 0.005 is above, 1.005 below.
    (HUNDREDTHS, point(0.005, 1.005), "0 0 1 1 0 0.00499999 POINT(1 100)"),
    ("1 56400000 593500000 100", point(564_000.01, 5_934_999.99), "0 0 1 0 0 0 POINT(1 -1)"),
    ("250 -35 0 100", point(2.15, -2.5), "0 0 1 0 0 0 POINT(1 -1)"),
    (HUNDREDTHS, head(2) + line(0, 0, 0.003, 0, 0, 0.004, 3, 4), "0 0 4 2 2 0.004 LINESTRING(0 0,300 400)"),
    (HUNDREDTHS, many(3, line(0, 0, 8, 0, 8, 8, 0, 0.001, 0, 0)), "0 0 5 1 1 0.000999994 POLYGON((0 0,800 0,800 800,0 0))"),
    # Faults of the value, of numbers and of the geometry.
    ("", b"", "1 W1 0 0"),
    ("", point(1, 2)[:-1], "1 W1 20 0"),
    ("", point(1, 2) + b"\0", "1 W1 21 0"),
    ("", b"\2" + point(1, 2)[1:], "1 W1 0 0"),
    ("", head(2) + struct.pack("<I", 2**32 - 1), "1 W1 9 0"),
    ("", many(4, point(1, 2), head(2) + line(0, 0, 1, 1)), "1 W1 30 0"),
    ("", point(INFINITE, 0), "1 W1 5 0"),
    (HUNDREDTHS, head(2) + line(0, 0, 0, NAN), "1 W1 25 0"),
    ("", point(NAN, 1), "1 W1 5 0"),
    ("", head(2) + line(0, 0, 4, 0.25), "1 W2 1 0"),
    ("", head(2) + line(0, 0, 10_000_001, 0), "1 W3 1 0"),
    ("", point(0, -1e300), "1 W3 0 0"),
    (HUNDREDTHS, point(100_000.005, 0), "1 W3 0 0"),
    (HUNDREDTHS, point(100_000.00499, 0), "0 0 1 1 0 0.00499 POINT(10000000 0)"),
    ("", many(4, *[point(1, 1)] * 40), "0 0 40 0 0 0 MULTIPOINT(" + ",".join(["(1 1)"] * 40) + ")"),
    ("", head(2) + line(5, 5), "1 V1 0 0"),
    (HUNDREDTHS, head(2) + line(0, 0, 0.001, 0), "1 V1 0 0"),
    ("", many(3, line(0, 0, 4, 0, 4, 4, 0, 4, 0, 1)), "1 V2 0 0"),
    ("", many(3, line(0, 0, 4, 4, 4, 0, 0, 4, 0, 0)), "1 V3 0 0"),
    ("", many(6, many(3, line(1, 1, 2, 1, 2, 2, 1, 1)), many(3, line(0, 0, 9, 0, 9, 9, 0, 9, 0, 0))), "1 V8 0 1"),
    # No type of the library: with a Z in a flag or in the number, an M, a collection, a curve, none; parts that are empty; no grid.
    ("", head(1 | 1 << 31) + struct.pack("<3d", 1, 2, 3), "4"),
    ("", head(1001) + struct.pack("<3d", 1, 2, 3), "4"),
    ("", head(1 | 1 << 30) + struct.pack("<3d", 1, 2, 3), "4"),
    ("", many(7, point(1, 2)), "4"),
    ("", head(8) + line(0, 0, 1, 1, 2, 0), "4"),
    ("", head(0), "4"),
    ("", many(4, point(NAN, NAN)), "4"),
    ("", many(5, head(2) + line()), "4"),
    ("", many(6, many(3)), "4"),
    ("", many(3, line()), "4"),
    ("0 0 0 1", point(1, 2), "4"),
    ("1 0 0 0", point(1, 2), "4"),
    ("-1 0 0 1", point(1, 2), "4"),
    ("1000000000000001 0 0 1", point(1, 2), "4"),
    ("1 0 0 1000000000000001", point(1, 2), "4"),
    ("1 0 100000000000001 1", point(1, 2), "1 W3 0 0"),
]

# Two values, the status, and the least x, the greatest x, the least y and the greatest y of both. By hand.
EXTENTS = [
    (point(1.5, -2), b"", "0 1.5 1.5 -2 -2"),
    (point(1.5, -2, BIG), many(3, SQUARE, HOLE), "0 0 8 -2 8"),
    (many(6, many(3, line(1, 1, 2, 1, 2, 2, 1, 1)), many(3, line(-3e9, 0, 9, 0, 9, 9, -3e9, 0))), b"", "0 -3e+09 9 0 9"),
    # What can't be taken apart, or has a Z, is left out.
    (point(7, 7), head(2) + line(0, 0, 9, INFINITE), "0 7 7 7 7"),
    (head(1 | 1 << 31) + struct.pack("<3d", 1, 2, 3), point(7, 8), "0 7 7 8 8"),
    (point(NAN, NAN), head(2) + line(), "6"),
    (b"", b"", "6"),
]

# Of a grid and a value what is taken apart: the status, the type, the doubles as they are, how many positions each line has, how many
# lines each element has, and the steps. By hand.
APART = [
    ("", point(1.5, -2), "0 1; 1.5 -2; 1; 1; 2 -2"),
    (HUNDREDTHS, point(1.5, -2, BIG), "0 1; 1.5 -2; 1; 1; 150 -200"),
    ("", point(NAN, NAN), "0 1;;; 0;"),
    ("", head(2) + line(), "0 2;;; 0;"),
    ("", head(2) + line(0, 0, 0, 0, 4, 0), "0 2; 0 0 0 0 4 0; 3; 1; 0 0 0 0 4 0"),
    ("", many(3), "0 3;;; 0;"),
    ("", many(3, line(0, 0, 1, 0), line()), "0 3; 0 0 1 0; 2 0; 2; 0 0 1 0"),
    ("", many(4, point(3, 4), point(NAN, NAN)), "0 4; 3 4; 1; 1 0; 3 4"),
    ("", many(6, many(3, line(1, 1, 2, 1), line(5, 5)), many(3, line(7, 8)), order=BIG), "0 6; 1 1 2 1 5 5 7 8; 2 1 1; 2 1; 1 1 2 1 5 5 7 8"),
    ("", many(6), "0 6;;;;"),
    ("", head(1 | 1 << 29) + struct.pack("<I2d", 25832, 7, 8), "0 1; 7 8; 1; 1; 7 8"),
    # A coordinate past the limit stays past it, and one that is no number has no place.
    ("", head(2) + line(0, 0, 10_000_001, -1e300), "0 2; 0 0 10000001 -1e+300; 2; 1; 0 0 10000001 10000001"),
    ("", point(INFINITE, 0), "6 1; inf 0; 1; 1;"),
    ("0 0 0 1", point(1, 2), "4 1"),
    ("", point(1, 2)[:-1], "1 W1 20 0"),
    ("", many(4, head(2) + line(0, 0, 1, 1)), "1 W1 9 0"),
    ("", head(1 | 1 << 31) + struct.pack("<3d", 1, 2, 3), f"4 {1 | 1 << 31}"),
    ("", many(7, point(1, 2)), "4 7"),
    ("", many(4, head(1001, BIG) + struct.pack("<3d", 1, 2, 3)), "4 1001"),
]

# Of a grid and doubles their steps, or the first position that has none. By hand.
ROUND = [
    ("", (0.5, -0.5, 1.5, -1.5), "0 1 0 2 -1"),
    (HUNDREDTHS, (0.005, 1.005, 100_000.00499, -100_000.00499, -100_000.005, 0), "0 1 100 10000000 -10000000 10000001 0"),
    ("250 -35 0 100", (2.15, -2.5), "0 1 -1"),
    ("1 0 0 1", (10_000_000.5, 0, -1e300, 1e300), "0 10000001 0 10000001 10000001"),
    ("", (), "0"),
    ("", (1, 2, 3, NAN), "1 1"),
    ("", (INFINITE, 0), "1 0"),
    ("1 0 0 0", (1, 2), "4"),
]

# The number of a relation, geometries of each side, an empty text for one that is missing, and the pairs. By hand.
LEFT = "POINT(1 1);;POINT(9 9);POINT EMPTY;LINESTRING(0 0,4 0);POLYGON((0 0,4 0,4 4,0 4,0 0))"
RIGHT = "POLYGON((0 0,4 0,4 4,0 4,0 0));POINT(1 1);POLYGON EMPTY;;POLYGON((4 0,8 0,8 4,4 4,4 0))"
JOINS = [
    (0, "0:1 3:2 5:0"),
    (1, "0:2 0:4 2:0 2:1 2:2 2:4 3:0 3:1 3:2 3:4 4:1 4:2 5:2"),
    (2, "0:0 0:1 4:0 4:4 5:0 5:1 5:4"),
    (3, "4:0 4:4 5:4"),
    (4, ""),
    (5, "0:0 0:1 5:0"),
    (6, "0:1 5:0 5:1"),
    (7, ""),
    (8, "0:1 5:0 5:1"),
    (9, "0:0 0:1 4:0 5:0"),
    (10, "0:1 5:1"),
]
# The number of a relation of the left geometries and points that aren't kept, by their coordinates, and the pairs. By hand.
POINTS = "1,1;0,0;2,0;4,4;9,-9"
OF_POINTS = [
    (2, "0:0 4:1 4:2 5:0 5:1 5:2 5:3"),
    (3, "4:1 5:1 5:2 5:3"),
    (6, "0:0 4:2 5:0"),
    (8, "0:0 4:1 4:2 5:0 5:1 5:2 5:3"),
    (10, "0:0 4:2 5:0"),
]
# Points in each part of a geometry of each kind, all within its envelope: the triangle has 1 1 inside and 3 3 and 4 4 outside it, the lines
# have one end at 0 0 and at 4 0, two at 4 4 and 3 1 off them (06-103r4, 6.1.8.1), and only 0 0 and 4 4 are listed.
PARTED = "POLYGON((0 0,4 0,0 4,0 0));MULTILINESTRING((0 0,4 4),(4 4,4 0));MULTIPOINT((0 0),(4 4))"
IN_PARTS = "1,1;2,2;3,3;0,0;4,4;4,0;3,1"
NOT_OUTSIDE, INSIDE = "0:0 0:1 0:3 0:5 0:6 1:0 1:1 1:2 1:3 1:4 1:5 2:3 2:4", "0:0 1:0 1:1 1:2 1:4 2:3 2:4"
BY_PARTS = [(2, NOT_OUTSIDE), (3, "0:1 0:3 0:5 0:6 1:3 1:5"), (6, INSIDE), (8, NOT_OUTSIDE), (10, INSIDE)]


def lines_of_calls():
    """Returns calls with what they print."""
    calls = [(f"binary\t{grid}\t{value.hex()}", wanted) for grid, value, wanted in VALUES]
    calls += [(f"apart\t{grid}\t{value.hex()}", wanted) for grid, value, wanted in APART]
    calls += [(f"round\t{grid}\t{struct.pack(f'{len(numbers)}d', *numbers).hex()}", wanted) for grid, numbers, wanted in ROUND]
    calls += [(f"extent\t{one.hex()},{other.hex()}", wanted) for one, other, wanted in EXTENTS]
    calls += [(f"join\t{relation}\t{LEFT}\t{RIGHT}", f"0 {pairs}".strip()) for relation, pairs in JOINS]
    calls += [(f"join\t2\t\t{RIGHT}", "0"), (f"join\t2\t{LEFT}\t", "0"), (f"join\t1\t{LEFT}\t;;", "0"), (f"join\t11\t{LEFT}\t{RIGHT}", "4")]
    calls += [(f"near\t{relation}\t{LEFT}\t{POINTS}", f"0 {pairs}") for relation, pairs in OF_POINTS]
    calls += [(f"near\t{relation}\t{PARTED}\t{IN_PARTS}", f"0 {pairs}") for relation, pairs in BY_PARTS]
    calls += [(f"near\t{relation}\t{LEFT}\t{POINTS}", "4") for relation in (0, 1, 4, 5, 7, 9, 11)]
    calls += [(f"near\t2\t\t{POINTS}", "0"), (f"near\t2\t{LEFT}\t", "0"), (f"near\t2\t{LEFT}\t0,0;10000001,0", "4"), (f"near\t2\t{LEFT}\t9,9", "0 2:0")]
    # Each of eight with each of eight, by a room that has to be emptied on the way.
    points = ";".join(["POINT(1 1)"] * 8)
    return calls + [(f"join\t0\t{points}\t{points}", "0 " + " ".join(f"{i}:{j}" for i in range(8) for j in range(8)))]


@needs("gcc", "cc")
class Binaries(test_library.PlayedCalls, test_library.WithLibrary):
    """The calls that take well-known binary apart, and joins."""

    least = 500

    def calls(self):
        return lines_of_calls()

    def test_values_and_joins_by_chance(self):
        for seed in range(1, 3):
            self.fuzz(seed, 5_000, "fuzz_binaries")

    @needs("valgrind", "valgrind")
    def test_values_by_chance_under_valgrind(self):
        words = ["valgrind", "-q", "--leak-check=full", "--show-leak-kinds=all", "--error-exitcode=9"]
        program = self.program("fuzz_binaries", *test_library.SHARED, of=["fuzz_binaries"])
        ran = subprocess.run([*words, program, "5", "200"], capture_output=True, text=True)
        self.assertEqual((ran.returncode, ran.stdout, ran.stderr), (0, "", ""))


@needs("gcc", "cc")
class ManyBinaries(test_library.WithLibrary):
    """Other values in each run."""

    IS_LONG = True

    def test_millions_of_values_by_chance(self):
        for _ in range(3):
            self.fuzz(int.from_bytes(os.urandom(4), "big"), 1_000_000, "fuzz_binaries")


@needs("gcc", "cc")
class ByTheModel(test_library.WithLibrary):
    """Thousands of values by chance, half of them broken, through C and through Python: both say what the model of the definition says,
    and what is valid is what shapely reads."""

    GRIDS = [None, (1, 0, 0, 4), (1, 3, -7, 100), (3, 1, 1, 7)]
    SEED, COUNT = 70, 8_000

    @classmethod
    def setUpClass(cls):
        super().setUpClass()
        os.environ["SFQ_LIBRARY"] = library.SHARED

    def test_values_by_chance(self):
        values = [it for it in wkb_model.drawn(self.SEED, self.COUNT) if 0 < len(it) < 1_000]
        program = self.shared()
        for grid in self.GRIDS:
            numbers = " ".join(map(str, grid or ()))
            ran = self.calling([program], [f"binary\t{numbers}\t{it.hex()}" for it in values])
            self.assertEqual(ran.returncode, 0, ran.stderr)
            kept = border.KeptMany(border.Binaries(values), grid)
            found = {"0": 0, "1": 0, "4": 0}
            for at, (value, by_c) in enumerate(zip(values, ran.stdout.splitlines(), strict=True)):
                with self.subTest(grid=grid, value=value.hex()):
                    self.compare(value, grid, by_c, self.by_python(kept, at))
                found[by_c[0]] += 1
            self.assertGreater(min(found.values()), self.COUNT // 16)

    @staticmethod
    def by_python(kept, at):
        """Returns the status and the text or the fault of a value."""
        if kept.statuses[at] == border.OK:
            return f"0 {Rounding.text(kept, at)}"
        fault = kept.faults[at]
        return f"1 {chr(fault.letter)}{fault.number} {fault.first} {fault.second}" if kept.statuses[at] == border.REFUSED else f"{kept.statuses[at]}"

    def compare(self, value, grid, by_c, by_python):
        by_model = wkb_model.said(value, grid)
        if by_c.startswith("0 "):
            system, positions, _, merged, _, text = by_c[2:].split(" ", 5)
            self.assertEqual(f"0 {system} {positions} {merged} {text}", by_model)
            self.assertEqual(by_python, f"0 {text}")
            if wkb:
                self.assertEqual(text, self.by_shapely(wkb.loads(value), wkb_model.Reader(b"", grid)))
            return
        self.assertEqual(by_python, by_c)
        if by_c.startswith("1 V"):
            self.assertEqual(by_model[:2], "0 ")
        else:
            self.assertEqual(by_model, by_c if by_c == "4" else by_c[2:].rsplit(" ", 1)[0])

    @staticmethod
    def by_shapely(geometry, model):
        """Returns the text of what shapely has read, whose numbers are rounded by the model."""
        kind = next(kind for kind, word in wkb_model.WORDS.items() if word == geometry.geom_type.upper())

        def line(of):
            found = [tuple(model.rounded(*it)[0] for it in zip(pair, model.origin)) for pair in of.coords]
            return [it for at, it in enumerate(found) if not at or it != found[at - 1]]

        def parts(of):
            if of.is_empty:
                return []
            if of.geom_type == "Polygon":
                return [line(of.exterior), *map(line, of.interiors)]
            return [one(it) for it in of.geoms] if hasattr(of, "geoms") else line(of)

        def one(of):
            return line(of)[0] if of.geom_type == "Point" else parts(of)

        return wkb_model.text_of(kind, one(geometry) if kind == 1 and not geometry.is_empty else parts(geometry))


class ManyByTheModel(ByTheModel):
    """A hundred thousand others."""

    IS_LONG = True
    SEED, COUNT = 71, 100_000


class Rounding(engine_rows.WithLibrary):
    """Positions go to the nearest place by fractions, in well-known binary and in sfq-import, and are counted as that counts them."""

    GRIDS = [
        ("0.01", ("0", "0")), ("0.01", ("564000", "5935000")), ("0.25", ("-3.5", "0.75")), ("1e-7", ("8", "47")), ("3", ("0.1", "-0.1")),
        ("0.00002", ("0", "0")), ("1000", ("0", "0")), ("0.07", ("12.345", "-9.87")),
    ]

    @classmethod
    def setUpClass(cls):
        super().setUpClass()
        os.environ["SFQ_LIBRARY"] = library.SHARED

    def numbers(self, chance, axis, count):
        """Returns doubles on the grid, on halves of it, next to both, and anywhere."""
        found = []
        for _ in range(count):
            steps = chance.choice((chance.randint(-9_000_000, 9_000_000), chance.randint(-9, 9)))
            exact = axis.origin + axis.step * steps + axis.step / 2 * chance.randint(0, 1)
            value = float(exact + axis.step * chance.choice((0, 0, 1)) * int(1000 * chance.random()) / 1000)
            found.append(math.nextafter(value, chance.choice((-INFINITE, INFINITE))) if chance.random() < 0.4 else value)
        return found

    def test_as_the_import_rounds(self):
        chance = random.Random(8)
        for step, origin in self.GRIDS:
            grid = grids.Grid(step, origin)
            pairs = list(zip(self.numbers(chance, grid.x, 3_000), self.numbers(chance, grid.y, 3_000)))
            wanted = [tuple(math.floor((Fraction(it) - axis.origin) / axis.step + Fraction(1, 2)) for it, axis in zip(pair, (grid.x, grid.y))) for pair in pairs]
            shift = grids.Shift()
            self.assertEqual(grid.rounded([it for pair in pairs for it in pair], shift, merges=False), wanted)
            kept = border.KeptMany(border.Binaries([point(*it) for it in pairs]), grid.in_parts())
            self.assertEqual(set(kept.statuses), {border.OK})
            texts = [self.text(kept, at) for at in range(kept.count)]
            self.assertEqual(texts, ["POINT(%d %d)" % it for it in wanted], (step, origin))
            self.assertEqual(kept.shift.positions, shift.positions)
            # Half a step is the furthest, but for the part of a tick that isn't counted.
            self.assertAlmostEqual(kept.shift.greatest / float(grid.x.step), 0.5, 5)

    @staticmethod
    def text(kept, place):
        geometry = border.CGeometry.from_address(kept.address(place))
        return border.handed_out(lambda *room: border.library().sfq_text(geometry, *room))

    def test_the_most_positions_and_parts(self):
        """Positions that are merged don't count."""
        zigzag = [value for at in range(10_001) for value in (at, at % 2)]
        rings = [line(9 * at, 0, 9 * at + 4, 0, 9 * at + 4, 4, 9 * at, 0) for at in range(1_001)]
        given = [
            head(2) + line(*zigzag[:20_000]), head(2) + line(*zigzag), head(2) + line(*zigzag[:20_000], *zigzag[19_998:20_000]),
            many(4, *[point(1, 1)] * 10_001), many(5, *(head(2) + it for it in rings)), many(6, *(many(3, it) for it in rings)),
            many(6, *(many(3, it) for it in rings[:1_000])), many(3, *rings),
        ]
        kept = border.KeptMany(border.Binaries(given), None)
        found = ["valid" if not status else kept.fault(at).place for at, status in enumerate(kept.statuses)]
        self.assertEqual(found, ["valid", "W4", "valid", "W4", "W4", "W4", "valid", "W4"])

    def test_more_than_one_call_takes(self):
        """Values are read, and pairs found, in several calls."""
        count = border.AT_ONCE + 5
        kept = border.KeptMany(border.Binaries([point(it, 0) if it % 7 else b"" for it in range(count)]), None)
        self.assertEqual([kept.statuses[it] for it in (0, 1, count - 1)], [border.NONE, border.OK, border.OK])
        found = []
        for room, pairs in border.joined(border.RELATIONS.index("equals"), kept, kept):
            found += [(room[2 * at], room[2 * at + 1]) for at in range(pairs)]
        self.assertEqual(found, [(it, it) for it in range(count) if it % 7])
        with self.assertRaises(border.LibraryError):
            list(border.joined(99, kept, kept))


if __name__ == "__main__":
    unittest.main()
