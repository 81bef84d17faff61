"""examples/draw.py: each picture is XML, and has a mark for each line that shows something."""
import filecmp
import glob
import os
import re
import shutil
import subprocess
import sys
import tempfile
import unittest
import xml.etree.ElementTree as tree
from collections import Counter

from support import ROOT, read

import exact_cells
import exact_places

SCRIPT = f"{ROOT}/examples/draw.py"
KINDS = {"at": "point", "from": "stretch", "around": "ring"}
SQUARE = "POLYGON((0 0,4 0,4 4,0 4,0 0))"
PAIRS = [
    ("LINESTRING(0 0,3 1)", "LINESTRING(0 1,2 0)"),
    ("LINESTRING(-2 2,2 -2)", SQUARE),
    ("MULTIPOINT((1 2),(3 4))", "POINT(1 2)"),
    ("MULTIPOLYGON(((0 0,9 0,9 9,0 9,0 0),(3 3,6 3,6 6,3 6,3 3)),((20 0,29 0,29 9,20 0)))", SQUARE),
    ("POINT EMPTY", "LINESTRING EMPTY"),
]
FAULTY = [
    "POLYGON((0 0,4 4,4 0,0 4,0 0))",
    "POLYGON((0 0,1 1,2 2,0 0))",
    "POLYGON((0 0,4 0,4 4,0 4))",
    "LINESTRING(3 3,3 3)",
    "POLYGON((0 0,4 0,4 4,0 4,0 0),(20 20,21 20,21 21,20 20))",
    "MULTIPOLYGON(((1 1,2 1,2 2,1 1)),((0 0,9 0,9 9,0 9,0 0)))",
]
# The pictures in docs/pictures that the script drew, by their names.
PICTURES = {
    "why-touching-corner": ("LINESTRING(-2 2,2 -2)", SQUARE),
    "why-not-simple": ("POLYGON((0 0,4 4,4 0,0 4,0 0))",),
}


def draw(texts, lines):
    """Returns the picture of texts and of the lines that show them."""
    ran = subprocess.run([sys.executable, "-B", SCRIPT, *texts], input=lines, capture_output=True, text=True, check=True)
    return ran.stdout


def marks(picture):
    """Returns how often each kind of mark is in a picture."""
    return Counter(it.get("class") for it in tree.fromstring(picture).iter() if it.get("class"))


class Drawings(unittest.TestCase):
    def test_a_mark_for_each_line(self):
        for pair in PAIRS:
            lines = exact_cells.lines(*pair)
            wanted = Counter(KINDS[it] for it in re.findall(r"\b(at|from|around)\b", lines))
            found = marks(draw(pair, lines))
            with self.subTest(pair=pair):
                self.assertEqual({it: found[it] for it in KINDS.values()}, {it: wanted[it] for it in KINDS.values()})
                self.assertEqual([found[it] > 0 for it in ("first", "second")], ["EMPTY" not in it for it in pair])

    def test_the_place_of_a_fault(self):
        for text in FAULTY:
            with self.subTest(text=text):
                self.assertEqual(marks(draw([text], exact_places.line(text)))["fault"], 1)
        self.assertEqual(marks(draw([SQUARE], "valid\n"))["fault"], 0)

    def test_where_a_mark_is(self):
        picture = tree.fromstring(draw([SQUARE, "POINT(2 2)"], "interior interior 0 at 2 2\n"))
        dot = next(it for it in picture.iter() if it.get("class") == "point")
        self.assertEqual((dot.get("cx"), dot.get("cy")), ("240.00", "240.00"))

    def test_the_rows_of_an_answer(self):
        for answer, rows in (("id\n1\n3\n", 2), ("b.id,name\n2,x\n", 1), ("id\n", 0), ("id\n5\n", 0)):
            with self.subTest(answer=answer), tempfile.NamedTemporaryFile("w", suffix=".csv") as file:
                file.write('ID,name,geom\n1,a,POINT(1 2)\n2,b,"LINESTRING(0 0,3 1)"\n3,c,"MULTIPOINT((0 0),(5 5))"\n4,d,\n')
                file.flush()
                found = marks(draw(["--rows", file.name], answer))
                self.assertEqual((found["row"], found["other"]), (rows, 3 - rows))

    def test_a_map_of_tables(self):
        with tempfile.TemporaryDirectory() as room:
            for name, text in (("well", 'id,geom,area\n1,POINT(1 2),"POLYGON((0 0,9 0,9 9,0 0))"\n2,,\n'), ("none", "id,geom\n")):
                with open(f"{room}/{name}.csv", "w", encoding="utf-8") as file:
                    file.write(text)
            picture = draw(["--map", f"{room}/well.csv=#123456", f"{room}/none.csv"], "")
        found = marks(picture)
        self.assertEqual((found["table"], found["shape"], found["key"]), (2, 2, 2))
        self.assertEqual([it.text for it in tree.fromstring(picture) if it.tag.endswith("text")], ["well", "none"])
        self.assertIn('fill="#123456"', picture)

    def test_the_pictures_of_the_documents(self):
        for name, texts in PICTURES.items():
            lines = exact_cells.lines(*texts) if len(texts) == 2 else exact_places.line(*texts)
            with self.subTest(name=name):
                self.assertEqual(read(f"{ROOT}/docs/pictures/{name}.svg"), draw(texts, lines))

    def test_the_pictures_of_pairs(self):
        """docs/pictures/draw.py, which reads pairs from a page, draws each picture again."""
        with tempfile.TemporaryDirectory() as room:
            shutil.copytree(f"{ROOT}/docs", f"{room}/docs")
            shutil.copytree(f"{ROOT}/examples/parcels", f"{room}/examples/parcels")
            for it in glob.glob(f"{room}/docs/pictures/elsewhere-*"):
                os.remove(it)
            subprocess.run([sys.executable, "-B", "draw.py"], cwd=f"{room}/docs/pictures", check=True)
            names = sorted(os.listdir(f"{ROOT}/docs/pictures"))
            self.assertEqual(sorted(os.listdir(f"{room}/docs/pictures")), names)
            self.assertEqual(filecmp.cmpfiles(f"{ROOT}/docs/pictures", f"{room}/docs/pictures", names, shallow=False)[1:], ([], []))

    def test_words(self):
        for words in ([], ["--help"], ["--rows"], ["--map"], ["a", "b", "c"]):
            ran = subprocess.run([sys.executable, "-B", SCRIPT, *words], input="", capture_output=True, text=True)
            self.assertEqual((ran.stdout, ran.returncode), ("", 2))
            self.assertIn("sfq why", ran.stderr)

    def test_the_standard_library_is_enough(self):
        used = set(re.findall(r"(?m)^(?:from|import) (\w+)", read(SCRIPT)))
        self.assertLessEqual(used, set(sys.stdlib_module_names))

    @unittest.skipUnless(shutil.which("rsvg-convert"), "needs the package librsvg2-bin")
    def test_it_can_be_rendered(self):
        with tempfile.NamedTemporaryFile("w", suffix=".svg") as file:
            file.write(draw(PAIRS[0], exact_cells.lines(*PAIRS[0])))
            file.flush()
            ran = subprocess.run(["rsvg-convert", file.name], capture_output=True)
        self.assertEqual((ran.stdout[1:4], ran.returncode), (b"PNG", 0))


if __name__ == "__main__":
    unittest.main()
