"""The C library: the rows whose values were worked out by hand, each fault, each allocation refused, four threads, valgrind, and
random pairs, which have to be as the program relates them."""
import os
import random
import re
import shutil
import subprocess
import tempfile
import unittest
from concurrent.futures import ThreadPoolExecutor

from support import ROOT, examples, needs, needs_build, read

import c_programs
import closure
import engine_rows
import library
import pairs as drawing
import repository

# A text, and its first fault in numbers: the letter, the number, and two places. Worked out from docs/FAULTS.md.
FAULTS = [
    ("", "W1 0 0"),
    ("POINT(1 2", "W1 9 0"),
    ("CIRCLE(1 2)", "W1 0 0"),
    ("POINT(1.5 2)", "W2 6 0"),
    ("POINT(10000001 0)", "W3 6 0"),
    ("LINESTRING(0 0,0 0)", "V1 0 0"),
    ("POLYGON((0 0,4 0,4 4,0 4,0 1))", "V2 0 0"),
    ("POLYGON((0 0,4 4,4 0,0 4,0 0))", "V3 0 0"),
    ("POLYGON((0 0,4 0,4 4,0 4,0 0),(0 2,1 1,1 3,0 2))", "V4 0 1"),
    ("POLYGON((0 0,4 0,4 4,0 4,0 0),(5 5,6 5,6 6,5 6,5 5))", "V5 1 0"),
    ("POLYGON((0 0,9 0,9 9,0 9,0 0),(1 1,8 1,8 8,1 8,1 1),(2 2,3 2,3 3,2 3,2 2))", "V6 1 2"),
    ("MULTIPOLYGON(((0 0,4 0,4 4,0 4,0 0)),((2 2,6 2,6 6,2 6,2 2)))", "V7 0 1"),
    ("MULTIPOLYGON(((1 1,2 1,2 2,1 1)),((0 0,9 0,9 9,0 9,0 0)))", "V8 0 1"),
]

# Two geometries, their matrix, and which relations hold, in the order of sfq_relation: equals, disjoint, intersects, touches,
# crosses, within, contains, overlaps, covers, covered by, contains properly. Worked out from the matrix by hand.
RELATIONS = [
    ("POINT(1 1)", "POLYGON((0 0,4 0,4 4,0 4,0 0))", "0FFFFF212", "00100100010"),
    ("POLYGON((0 0,4 0,4 4,0 4,0 0))", "POINT(1 1)", "0F2FF1FF2", "00100010101"),
    ("POLYGON((0 0,4 0,4 4,0 4,0 0))", "POLYGON((4 0,8 0,8 4,4 4,4 0))", "FF2F11212", "00110000000"),
    ("LINESTRING(0 0,3 1)", "LINESTRING(0 1,2 0)", "0F1FF0102", "00101000000"),
    ("LINESTRING(0 0,4 0)", "POLYGON((0 0,4 0,4 4,0 4,0 0))", "F1FF0F212", "00110000010"),
    ("POLYGON((0 0,4 0,4 4,0 4,0 0))", "POLYGON((4 4,4 0,0 0,0 4,4 4))", "2FFF1FFF2", "10100110110"),
    ("POLYGON((0 0,4 0,4 4,0 4,0 0))", "POLYGON((2 2,6 2,6 6,2 6,2 2))", "212101212", "00100001000"),
    ("POINT EMPTY", "MULTIPOINT EMPTY", "FFFFFFFF2", "11000000000"),
    ("POINT(1 2)", "POINT(3 4)", "FF0FFF0F2", "01000000000"),
]

# A text, and of the geometry that is kept: the dimension, whether it is empty, the least x, the greatest x, the least y and the
# greatest y, and the canonical text. By hand.
SEEN = [
    (" point ( 1  -2 ) ", "0 0 1 1 -2 -2 POINT(1 -2)"),
    ("POINT EMPTY", "0 1 none POINT EMPTY"),
    ("MULTIPOINT(3 4,1 9)", "0 0 1 3 4 9 MULTIPOINT((3 4),(1 9))"),
    ("LINESTRING(0 0,0 0,4 0,-1 7)", "1 0 -1 4 0 7 LINESTRING(0 0,4 0,-1 7)"),
    ("LINESTRING EMPTY", "1 1 none LINESTRING EMPTY"),
    ("MULTILINESTRING((0 0,1 1),(5 5,5 6))", "1 0 0 5 0 6 MULTILINESTRING((0 0,1 1),(5 5,5 6))"),
    ("POLYGON((0 0,4 0,4 4,0 4,0 0),(1 1,2 1,2 2,1 1))", "2 0 0 4 0 4 POLYGON((0 0,4 0,4 4,0 4,0 0),(1 1,2 1,2 2,1 1))"),
    ("MULTIPOLYGON EMPTY", "2 1 none MULTIPOLYGON EMPTY"),
    (
        "MULTIPOLYGON(((-10000000 0,1 0,1 1,-10000000 0)),((2 2,10000000 2,3 9,2 2)))",
        "2 0 -10000000 10000000 0 9 MULTIPOLYGON(((-10000000 0,1 0,1 1,-10000000 0)),((2 2,10000000 2,3 9,2 2)))",
    ),
]

# A text, a position, and where it lies: 0 in the interior, 1 on the boundary, 2 in the exterior; status 4 past the limit. By hand.
HOLED = "POLYGON((0 0,8 0,8 8,0 8,0 0),(2 2,6 2,6 6,2 6,2 2))"
PLACES = [
    ("POINT(1 2)", 1, 2, "0 0"),
    ("POINT(1 2)", 2, 1, "0 2"),
    ("POINT EMPTY", 0, 0, "0 2"),
    ("LINESTRING(0 0,4 0)", 2, 0, "0 0"),
    ("LINESTRING(0 0,4 0)", 4, 0, "0 1"),
    ("LINESTRING(0 0,4 0,4 4,0 0)", 0, 0, "0 0"),
    ("MULTILINESTRING((0 0,1 0),(0 0,0 1),(0 0,-1 0))", 0, 0, "0 1"),
    (HOLED, 1, 1, "0 0"),
    (HOLED, 8, 3, "0 1"),
    (HOLED, 4, 4, "0 2"),
    (HOLED, 2, 4, "0 1"),
    (HOLED, 9, 9, "0 2"),
    (HOLED, -10000000, 10000000, "0 2"),
    (HOLED, 10000001, 1, "4"),
    (HOLED, 1, -10000001, "4"),
    (HOLED, 1, -2147483648, "4"),
]

# The number of a type, coordinates, how many positions each line or ring has and how many rings each polygon, and what is seen as
# above; else the status and the fault. Status 4 where no type has such parts. By hand.
TOO_FAR = "0 0 4 0 4 10000001 0 4 0 0"
ARRAYS = [
    ("1", "1 -2", "", "0 0 0 1 1 -2 -2 POINT(1 -2)"),
    ("1", "", "", "0 0 1 none POINT EMPTY"),
    ("2", "0 0 0 0 4 0 -1 7 -1 7", "", "0 1 0 -1 4 0 7 LINESTRING(0 0,4 0,-1 7)"),
    ("2", "", "", "0 1 1 none LINESTRING EMPTY"),
    ("3", "0 0 4 0 4 4 0 4 0 0 1 1 2 1 2 2 1 1", "5 4", "0 2 0 0 4 0 4 POLYGON((0 0,4 0,4 4,0 4,0 0),(1 1,2 1,2 2,1 1))"),
    ("3", "", "", "0 2 1 none POLYGON EMPTY"),
    ("4", "3 4 3 4 1 9", "", "0 0 0 1 3 4 9 MULTIPOINT((3 4),(3 4),(1 9))"),
    ("4", "", "", "0 0 1 none MULTIPOINT EMPTY"),
    ("5", "0 0 1 1 5 5 5 5 5 6", "2 3", "0 1 0 0 5 0 6 MULTILINESTRING((0 0,1 1),(5 5,5 6))"),
    ("5", "", "", "0 1 1 none MULTILINESTRING EMPTY"),
    (
        "6", "0 0 9 0 9 9 0 0 5 2 6 2 6 3 5 2 20 0 21 0 21 1 20 0", "4 4 4;2 1",
        "0 2 0 0 21 0 9 MULTIPOLYGON(((0 0,9 0,9 9,0 0),(5 2,6 2,6 3,5 2)),((20 0,21 0,21 1,20 0)))",
    ),
    ("6", "", "", "0 2 1 none MULTIPOLYGON EMPTY"),
    ("2", "-10000000 10000000 10000000 -10000000", "", "0 1 0 -10000000 10000000 -10000000 10000000 LINESTRING(-10000000 10000000,10000000 -10000000)"),
    # Faults of the numbers, and of the geometry.
    ("3", TOO_FAR, "5", "1 W3 2 0"),
    ("1", "0 -10000001", "", "1 W3 0 0"),
    ("1", "-2147483648 0", "", "1 W3 0 0"),
    ("2", "5 5 5 5", "", "1 V1 0 0"),
    ("3", "0 0 4 0 4 4 0 4 0 1", "5", "1 V2 0 0"),
    ("3", "0 0 4 4 4 0 0 4 0 0", "5", "1 V3 0 0"),
    ("6", "1 1 2 1 2 2 1 1 0 0 9 0 9 9 0 9 0 0", "4 5;1 1", "1 V8 0 1"),
    # The most positions and parts, and one more.
    ("4", " ".join(["1 1"] * 10_001), "", "1 W4 0 0"),
    ("5", " ".join(["1 1 2 2"] * 1_001), " ".join(["2"] * 1_001), "1 W4 0 0"),
    ("4", "0 10000001 " + " ".join(["1 1"] * 10_000), "", "1 W4 0 0"),
    # No type has such parts.
    ("0", "", "", "4"),
    ("7", "1 2", "", "4"),
    ("1", "1 2 3 4", "", "4"),
    ("1", "1 2", "1", "4"),
    ("2", "1 2 3 4", "2", "4"),
    ("4", "1 2 3 4", "1 1", "4"),
    ("3", "0 0 4 0 4 4 0 0", "", "4"),
    ("3", "0 0 4 0 4 4 0 0", "3", "4"),
    ("3", "0 0 4 0 4 4 0 0", "5", "4"),
    ("3", "0 0 4 0 4 4 0 0", "4 0", "4"),
    ("3", "0 0 4 0 4 4 0 0", "0 4", "4"),
    ("3", "0 0 4 0 4 4 0 0", "18446744073709551615 5", "4"),
    ("3", "0 0 4 0 4 4 0 0", "4;1", "4"),
    ("6", "0 0 4 0 4 4 0 0", "4", "4"),
    ("6", "0 0 4 0 4 4 0 0", "4;2", "4"),
    ("6", "0 0 4 0 4 4 0 0", "4;1 0", "4"),
]

# Two texts, a pattern, and whether the matrix matches it; status 4 where the bytes are no pattern. By hand from the matrices above.
PATTERNS = [
    ("POINT(1 1)", "POLYGON((0 0,4 0,4 4,0 4,0 0))", "T*F**F***", "0 1"),
    ("POINT(1 1)", "POLYGON((0 0,4 0,4 4,0 4,0 0))", "0FFFFF212", "0 1"),
    ("POINT(1 1)", "POLYGON((0 0,4 0,4 4,0 4,0 0))", "0FFFFF202", "0 0"),
    ("POINT(1 1)", "POLYGON((0 0,4 0,4 4,0 4,0 0))", "tffFFFttT", "0 1"),
    ("POLYGON((0 0,4 0,4 4,0 4,0 0))", "POINT(1 1)", "T*F**F***", "0 0"),
    ("POINT(1 1)", "POINT(1 1)", "0FFFFFFF2", "0 1"),
    ("POINT(1 1)", "POINT(1 1)", "F********", "0 0"),
    ("POINT(1 1)", "POINT(1 1)", "T*F**F**", "4"),
    ("POINT(1 1)", "POINT(1 1)", "T*F**F****", "4"),
    ("POINT(1 1)", "POINT(1 2)", "T*F**F**3", "4"),
    ("POINT(1 1)", "POINT(1 2)", "", "4"),
]

# Envelopes by their bounds, a window, and the positions of those that meet it; or 4 with the position of the first that are no
# bounds, or 4 alone where the window has none. Worked out by hand.
SQUARES = "0 2 0 2 4 6 0 2 0 -1 0 -1 2 4 2 2 -3 9 -3 9 5 5 1 1"
INDEXES = [
    (SQUARES, "0 1 0 1", "0 0 4"),
    (SQUARES, "2 4 1 2", "0 0 1 3 4"),
    (SQUARES, "2 2 2 2", "0 0 3 4"),
    (SQUARES, "5 5 1 1", "0 1 4 5"),
    (SQUARES, "6 9 2 9", "0 1 4"),
    (SQUARES, "7 9 -3 9", "0 4"),
    (SQUARES, "10 11 0 1", "0"),
    (SQUARES, "-10000000 10000000 -10000000 10000000", "0 0 1 3 4 5"),
    # Those of empty geometries meet one another alone.
    (SQUARES, "0 -1 0 -1", "0 2"),
    ("0 0 0 0", "0 -1 0 -1", "0"),
    ("0 -1 0 -1 0 -1 0 -1", "0 -1 0 -1", "0 0 1"),
    ("0 -1 0 -1", "-9 9 -9 9", "0"),
    ("", "0 1 0 1", "0"),
    ("", "0 -1 0 -1", "0"),
    # Equal ones are found by each position. Eight make a leaf, and more than 64 three levels.
    (" ".join(["1 1 1 1"] * 9), "1 1 1 1", "0 0 1 2 3 4 5 6 7 8"),
    (" ".join(f"{i} {i} {-i} {-i}" for i in range(200)), "70 73 -72 -10", "0 70 71 72"),
    (" ".join(f"{i * 7 % 100} {i * 7 % 100} {i % 2} 1" for i in range(100)), "0 3 0 0", "0 0 86"),
    # No bounds.
    ("0 1 0 1 1 0 0 1", "0 0 0 0", "4 1"),
    ("0 1 1 0", "0 0 0 0", "4 0"),
    ("0 -1 0 1", "0 0 0 0", "4 0"),
    ("0 -1 0 -2", "0 0 0 0", "4 0"),
    ("0 0 0 0 -10000001 0 0 0 0 10000001 0 0", "0 0 0 0", "4 1"),
    ("0 10000001 0 0", "0 0 0 0", "4 0"),
    ("0 0 -10000001 0", "0 0 0 0", "4 0"),
    ("0 0 0 10000001", "0 0 0 0", "4 0"),
    ("-2147483648 2147483647 0 0", "0 0 0 0", "4 0"),
    (SQUARES, "1 0 0 0", "4"),
    (SQUARES, "0 0 1 0", "4"),
    (SQUARES, "0 0 0 10000001", "4"),
]


def pairs():
    """Returns the required pairs with their matrices, which were worked out by hand."""
    found = re.findall(r"^pair (.*) \| (.*) => ([F012]{9})$", read(f"{ROOT}/tests/required_rows.txt"), re.M)
    return [*found, *((b, a, "".join(it[i] for i in (0, 3, 6, 1, 4, 7, 2, 5, 8))) for a, b, it in found)]


def lines_of_calls():
    """Returns calls of every kind, with what they print: of those that say why, which take many allocations, some small ones."""
    calls = [(f"relate\t{a}\t{b}", f"0 {it}") for a, b, it in pairs()]
    calls += [(f"check\t{a}", "0") for a, _, _ in pairs()]
    calls += [(f"answer\t{a}\t{b}", f"0 {it} {held}") for a, b, it, held in RELATIONS]
    for text, fault in FAULTS:
        calls += [
            (f"check\t{text}", f"1 {fault}"),
            (f"status\t{text}", "1"),
            (f"relate\t{text}\tPOINT(0 0)", f"1 {fault}"),
            (f"relate\tPOINT(0 0)\t{text}", f"2 {fault}"),
            (f"answer\t{text}\t{text}", f"1 {fault}"),
            (f"answer\tPOINT(0 0)\t{text}", f"2 {fault}"),
        ]
    calls += [(f"index\t{bounds}\t{window}", wanted) for bounds, window, wanted in INDEXES]
    return calls + lines_of_kept_calls() + [it for it in lines_of_whys() if len(it[0]) < 200][::10]


def lines_of_kept_calls():
    """Returns calls over geometries that are kept, with what they print."""
    calls = [(f"kept\t{a}\t{b}", f"0 {it} {held}") for a, b, it, held in RELATIONS]
    calls += [(f"match\t{a}\t{b}\t{it}", "0 1") for a, b, it in pairs()]
    calls += [(f"match\t{a}\t{b}\t{it}", wanted) for a, b, it, wanted in PATTERNS]
    calls += [(f"seen\t{text}", f"0 {it}") for text, it in SEEN]
    calls += [(f"array\t{kind}\t{numbers}\t{sizes}", wanted) for kind, numbers, sizes, wanted in ARRAYS]
    calls += [(f"place\t{text}\t{x}\t{y}", it) for text, x, y, it in PLACES]
    # The same geometry twice, by the interior and the boundary that it has.
    calls += [
        ("kept\tPOINT(1 2)\tPOINT(1 2)", "0 0FFFFFFF2 10100110111"),
        ("kept\tPOINT EMPTY\tPOINT EMPTY", "0 FFFFFFFF2 11000000000"),
        ("kept\tLINESTRING(0 0,4 0)\tLINESTRING(0 0,4 0)", "0 1FFF0FFF2 10100110110"),
        (f"kept\t{HOLED}\t{HOLED}", "0 2FFF1FFF2 10100110110"),
        ("without", " ".join("7" * 13)),
    ]
    for text, fault in FAULTS:
        calls += [
            (f"kept\t{text}\tPOINT(0 0)", f"1 {fault}"),
            (f"kept\tPOINT(0 0)\t{text}", f"2 {fault}"),
            (f"seen\t{text}", f"1 {fault}"),
        ]
    return calls


def lines_of_whys():
    """Returns calls that say why, with what they print: the rows that the command `why` has."""
    calls = []
    for words, lines in engine_rows.reasons():
        calls.append(("\t".join(["reason" if len(words) == 1 else "why", *words]), f"0 {lines}".replace("\n", "|")))
    for text, fault in FAULTS:
        calls += [(f"why\t{text}\tPOINT(0 0)", f"1 {fault}"), (f"why\tPOINT(0 0)\t{text}", f"2 {fault}")]
        calls += [(f"reason\t{text}", f"1 {fault}")] if fault[0] == "W" else []
    return calls


# What a program is linked with: both libraries, shared or static.
SHARED = [library.SHARED, library.TABLES.shared, f"-Wl,-rpath,{library.OUT}"]
STATIC = [library.SHAPES.archive, library.TABLES.archive]


class WithLibrary(engine_rows.WithLibrary):
    """Compiles the program tests/library/calls.c, and has it make calls."""

    @classmethod
    def setUpClass(cls):
        super().setUpClass()
        cls.room = tempfile.TemporaryDirectory(prefix="sfq-library-")

    @classmethod
    def tearDownClass(cls):
        cls.room.cleanup()

    def program(self, name, *words, of=("calls", "kept", "whys", "indexes", "binaries", "databases", "rows")):
        """Compiles the program, and returns its path."""
        to = f"{self.room.name}/{name}"
        flags = ["-std=c99", *c_programs.STRICT, "-g", f"-I{ROOT}/bindings/c", "-pthread"]
        sources = [f"{ROOT}/tests/library/{it}.c" for it in of]
        subprocess.run(["cc", *flags, *sources, "-o", to, *words], check=True)
        return to

    def shared(self):
        return self.program("shared", *SHARED)

    def calling(self, words, calls):
        return subprocess.run(words, input="\n".join(calls) + "\n", capture_output=True, text=True)

    def fuzz(self, seed, count, name="fuzz"):
        """Hands in bytes and numbers by chance, to the library and to one in a program that sanitizers watch."""
        for words in (SHARED, [*c_programs.watched(), *STATIC]):
            ran = subprocess.run([self.program(name, *words, of=[name]), str(seed), str(count)], capture_output=True)
            self.assertEqual((ran.returncode, ran.stdout, ran.stderr), (0, b"", b""), f"seed {seed}")

    def compare_with_the_program(self, chance, count, by_the_program):
        """Relates random pairs by the library and by the program."""
        drawn = [[drawing.draw(chance, chance.choice(drawing.TYPES)) for _ in "ab"] for _ in range(count)]
        ran = self.calling([self.shared()], [f"relate\t{a}\t{b}" for a, b in drawn])
        self.assertEqual(ran.returncode, 0, ran.stderr)
        printed = by_the_program(drawn)
        for pair, line, text in zip(drawn, ran.stdout.splitlines(), printed, strict=True):
            self.assertEqual(self.as_the_program(line), text, " ".join(pair))

    @staticmethod
    def one_by_one(drawn):
        """Returns what the program writes of each pair by itself."""

        def relate(pair):
            ran = subprocess.run([repository.PROGRAM, "relate", *pair], stdin=subprocess.DEVNULL, capture_output=True, text=True)
            return (ran.stdout + ran.stderr).strip()

        with ThreadPoolExecutor(os.cpu_count()) as pool:
            return list(pool.map(relate, drawn))

    def all_at_once(self, drawn):
        """Returns the same, of one run over a file of all pairs."""
        path = f"{self.room.name}/pairs.csv"
        with open(path, "w", encoding="ascii") as file:
            file.writelines(f'"{a}","{b}"\n' for a, b in drawn)
        ran = subprocess.run([repository.PROGRAM, "pairs", path], stdin=subprocess.DEVNULL, capture_output=True, text=True)
        self.assertIn(ran.returncode, (0, 5), ran.stderr)
        return [it if re.fullmatch("[F012]{9}", it) else f"sfq: {it}" for it in ran.stdout.splitlines()]

    @staticmethod
    def as_the_program(line):
        """Returns what the program writes where the library has this status and this matrix or fault."""
        status, fault, *places = line.split()
        if status == "0":
            return fault
        used = {"W1": 1, "W2": 1, "W3": 1, "W4": 0, "V4": 2, "V6": 2, "V7": 2, "V8": 2}.get(fault, 1)
        at = ["at"] if fault[0] == "W" and used else []
        return " ".join(["sfq:", "first" if status == "1" else "second", fault, *at, *places[:used]])


class Border(unittest.TestCase):
    """bindings/c/sfq.c and sfq_tables.c beside the calls of their crates, without either proved or made."""

    # How C has what a call takes: a slice is a pointer and a number, and a value that comes back is behind a pointer.
    AS_C = {
        "u32": "uint32_t", "u64": "uint64_t", "i32": "int32_t", "i64": "int64_t", "usize": "size_t", "bool": "bool", "": "void", "KeptGeometry": "struct kept", "&mut Slot": "struct kept *",
        "KeptConnection": "struct kept", "&mut ConnectionSlot": "struct kept *", "&mut TablesFault": "sfq_tables_fault *",
        "KeptIndex": "struct kept", "&mut IndexSlot": "struct kept *", "&[Bounds]": "const struct bounds *, size_t",
        "&Bounds": "const struct bounds *", "&mut [usize]": "size_t *, size_t",
        "&mut [TextPart]": "sfq_text_part *, size_t", "&mut ColumnForm": "sfq_form *", "&mut Origin": "sfq_origin *",
        "&mut QueryForm": "sfq_query_form *", "&mut ConjunctForm": "sfq_conjunct_form *",
        "&mut [OperandForm]": "sfq_operand *, size_t", "&mut [NamedColumn]": "sfq_named_column *, size_t",
        "&GridNumbers": "const struct grid_numbers *", "&mut Notes": "struct notes *",
        "&mut Fault": "sfq_fault *", "&mut bool": "bool *", "&mut u32": "uint32_t *", "&mut u64": "uint64_t *", "&mut i64": "int64_t *", "&mut usize": "size_t *",
        "&mut [u8; 9]": "uint8_t *", "&mut [bool; 11]": "bool *", "&mut [i32; 4]": "int32_t *", "&[u8]": "const uint8_t *, size_t",
        "&mut [u8]": "uint8_t *, size_t", "&[usize]": "const size_t *, size_t", "&[Coordinates]": "const struct position *, size_t",
        "&[Pair]": "const struct pair *, size_t", "&mut [Pair]": "struct pair *, size_t", "&mut [Coordinates]": "struct position *, size_t",
        "&mut Counts": "struct counts *", "&mut Extent": "struct extent *",
    }

    def exports(self, crate):
        """Returns the calls that a crate exports, as C declares them."""
        found = {}
        for it in closure.Closure().functions():
            head = re.fullmatch(r'extern "C" fn (\w+)\((.*)\)(?: -> (\w+))?', it.signature)
            if it.crate == crate and head:
                types = [one.partition(": ")[2] for one in re.split(r", (?=\w+: )", head[2])]
                found[head[1]] = (self.AS_C[head[3] or ""], ", ".join(self.AS_C[one] for one in types if one != "Global"))
        return found

    def test_prototypes_are_those_of_the_exports(self):
        for it, least in ((library.SHAPES, 15), (library.TABLES, 22)):
            text = re.sub(r"\s+", " ", read(f"{ROOT}/bindings/c/{it.name}.c"))
            declared = {}
            for result, name, words in re.findall(r"(?<=[;}] )(\w+) (sfq_proved_\w+)\(([^()]*)\);", text):
                declared[name] = (result, re.sub(r"\b\w+(?=,|$)", "", words).replace(" ,", ",").strip())
            exported = self.exports(it.crate)
            self.assertGreaterEqual(len(exported), least)
            self.assertEqual(declared, exported)

    @needs("gcc", "cc")
    def test_null_texts_and_arrays_are_empty(self):
        with tempfile.TemporaryDirectory(prefix="sfq-border-") as room:
            flags = ["-std=c99", *c_programs.STRICT, *c_programs.watched(), "-ffunction-sections", "-Wl,--gc-sections", f"-I{ROOT}/bindings/c"]
            subprocess.run(["cc", *flags, f"{ROOT}/tests/library/nulls.c", "-o", f"{room}/nulls"], check=True)
            ran = subprocess.run([f"{room}/nulls"], capture_output=True, text=True)
        # Of nulls nothing is handed on, and of texts that are there all their bytes.
        self.assertEqual((ran.returncode, ran.stdout), (0, "0 19\n"))


class PlayedCalls:
    """What holds of all calls of a library: over the shared one and the static one, with each allocation refused in turn, and under
    valgrind. Of these calls at least so many allocations are refused."""

    least = 0

    def calls(self):
        """The calls, each with what it prints."""
        raise NotImplementedError

    def more_calls(self):
        """Calls that are only compared."""
        return []

    def test_rows_and_faults_with_both_libraries(self):
        calls = self.calls() + self.more_calls()
        for program in (self.shared(), self.program("static", *STATIC)):
            ran = self.calling([program], [it for it, _ in calls])
            self.assertEqual(ran.returncode, 0, ran.stderr)
            for (call, wanted), line in zip(calls, ran.stdout.splitlines(), strict=True):
                self.assertEqual(line, wanted, call)

    def test_sanitizers_find_nothing(self):
        if not c_programs.has_sanitizers():
            self.skipTest("needs a compiler with sanitizers")
        calls = self.calls() + self.more_calls()
        ran = self.calling([self.program("watched", *c_programs.SANITIZED, *STATIC)], [it for it, _ in calls])
        self.assertEqual((ran.returncode, ran.stderr), (0, ""))
        self.assertEqual(ran.stdout.splitlines(), [wanted for _, wanted in calls])

    def test_each_allocation_refused_in_turn(self):
        program = self.program("refusing", "-DREFUSES", *SHARED)
        ran = self.calling([program, "refuse"], [it for it, _ in self.calls()])
        self.assertEqual(ran.returncode, 0, ran.stdout + ran.stderr)
        tried, managed = map(int, re.search(r"^(\d+) refused, (\d+) done without, 0 bad$", ran.stdout, re.M).groups())
        self.assertGreater(tried, self.least)
        self.assertLess(managed, tried // 10)

    @needs("valgrind", "valgrind")
    def test_valgrind_finds_nothing(self):
        words = ["valgrind", "-q", "--leak-check=full", "--show-leak-kinds=all", "--error-exitcode=9", self.shared()]
        ran = self.calling(words, [it for it, _ in self.calls()])
        self.assertEqual((ran.returncode, ran.stderr), (0, ""))


@needs("gcc", "cc")
class Library(PlayedCalls, WithLibrary):
    """The calls over geometries."""

    least = 500

    def calls(self):
        return lines_of_calls()

    def more_calls(self):
        return lines_of_whys()

    def test_four_threads_on_small_stacks(self):
        """Small geometries, and some of thousands of positions."""
        teeth = [f"POLYGON(({','.join(f'{i} {i % 2 * 9 + up}' for i in range(2_000))},1999 -50,0 -50,0 {up}))" for up in (0, 5)]
        points = f"MULTIPOINT({','.join(f'({i} {i % 7})' for i in range(0, 9_000, 3))})"
        large = [f"answer\t{a}\t{b}" for a, b in ((teeth[0], teeth[1]), (points, teeth[0]), (teeth[1], points))]
        ran = self.calling([self.shared(), "threads"], [it for it, _ in lines_of_calls()] + large)
        self.assertEqual(ran.returncode, 0, ran.stdout)
        self.assertIn(" 0 differ", ran.stdout)

    def test_the_memory_of_an_index_and_of_a_search(self):
        program = self.program("memory", *SHARED, of=["memory"])
        for count in (0, 1, 64, 65, 1_000, 65_537):
            with self.subTest(count=count):
                ran = subprocess.run([program, str(count)], capture_output=True, text=True, check=True)
                built, kept, searched = map(int, ran.stdout.split())
                # What LIBRARY says, and a page for what an index has at any size.
                self.assertLessEqual(built, 112 * count + 4_096)
                self.assertLessEqual(kept, 28 * count + 4_096)
                self.assertLessEqual(searched, max(512, 24 * count))
                self.assertGreaterEqual(searched, max(512, 8 * count))

    @needs("libc6-dev", "nm")
    def test_only_the_calls_of_the_header_can_be_seen(self):
        for words in (["nm", "-D", "--defined-only", library.SHARED], ["nm", "-g", "--defined-only", f"{library.OUT}/libsfq.a"]):
            ran = subprocess.run(words, capture_output=True, text=True, check=True)
            # A shared library has the version of a call behind it, and the version itself.
            seen = re.findall(r"^[0-9a-f]+ (?!A )[A-Z] ([^@\s]+)\S*$", ran.stdout, re.M)
            self.assertEqual(sorted(seen), sorted(library.seen_calls()))
        declared = re.findall(r"^\w+ (sfq_\w+)\(", read(f"{ROOT}/bindings/c/sfq.h"), re.M)
        self.assertEqual(sorted(declared), sorted(library.seen_calls()))

    @needs("g++", "c++")
    def test_the_header_in_cpp(self):
        with open(f"{self.room.name}/header.cc", "w", encoding="utf-8") as file:
            file.write('#include "sfq.h"\nint main() { return sfq_check("", 0, nullptr) == SFQ_REFUSED ? 0 : 1; }\n')
        program = f"{self.room.name}/header"
        flags = ["-std=c++11", "-Wall", "-Wextra", "-Werror", f"-I{ROOT}/bindings/c"]
        subprocess.run(["c++", *flags, f"{program}.cc", f"{library.OUT}/libsfq.a", "-o", program], check=True)
        self.assertEqual(subprocess.run([program]).returncode, 0)

    def test_examples_of_the_document(self):
        """Each program of docs/C.md prints what is shown after it, from an installed library."""
        prefix = f"{self.room.name}/prefix"
        for source, target, _ in library.FILES:
            os.makedirs(os.path.dirname(f"{prefix}/{target}"), exist_ok=True)
            shutil.copyfile(f"{ROOT}/{source}", f"{prefix}/{target}")
        library.install_made(prefix, "0")
        shown = examples("C", "c")
        self.assertGreaterEqual(len(shown), 2)
        for at, (source, output) in enumerate(shown):
            with open(f"{self.room.name}/example{at}.c", "w", encoding="utf-8") as file:
                file.write(source)
            flags = ["-std=c99", "-Wall", "-Wextra", "-Werror", f"-I{prefix}/include", f"-L{prefix}/lib"]
            program = f"{self.room.name}/example{at}"
            subprocess.run(["cc", *flags, f"{program}.c", "-lsfq", "-lsfq_tables", f"-Wl,-rpath,{prefix}/lib", "-o", program], check=True)
            ran = subprocess.run([program], capture_output=True, text=True)
            self.assertEqual((ran.returncode, ran.stdout), (0, output), source)

    def test_random_pairs_that_are_kept(self):
        """They print what the same texts print that aren't kept."""
        chance = random.Random(40)
        drawn = [[drawing.draw(chance, chance.choice(drawing.TYPES)) for _ in "ab"] for _ in range(2_000)]
        answers, kept = ([f"{how}\t{a}\t{b}" for a, b in drawn] for how in ("answer", "kept"))
        wanted, ran = (self.calling([self.shared()], it) for it in (answers, kept))
        self.assertEqual((wanted.returncode, ran.returncode), (0, 0), ran.stderr)
        for pair, line, text in zip(drawn, ran.stdout.splitlines(), wanted.stdout.splitlines(), strict=True):
            self.assertEqual(line, text, " ".join(pair))

    def test_bytes_and_numbers_by_chance(self):
        for seed in range(1, 5):
            self.fuzz(seed, 20_000)

    @needs_build
    def test_ten_thousand_random_pairs_as_the_program_relates_them(self):
        self.compare_with_the_program(random.Random(39), 10_000, self.one_by_one)


@needs("gcc", "cc")
class ManyPairs(WithLibrary):
    """Other random pairs, bytes and numbers in each run."""

    IS_LONG = True

    @needs_build
    def test_a_million_random_pairs(self):
        for _ in range(100):
            seed = int.from_bytes(os.urandom(4), "big")
            with self.subTest(seed=seed):
                self.compare_with_the_program(random.Random(seed), 10_000, self.all_at_once)

    def test_millions_of_bytes_and_numbers_by_chance(self):
        for _ in range(3):
            self.fuzz(int.from_bytes(os.urandom(4), "big"), 1_000_000)


if __name__ == "__main__":
    unittest.main()
