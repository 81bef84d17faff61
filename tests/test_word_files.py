"""Words that name files by `@`, and standard input."""
import os
import subprocess
import tempfile
import unittest

from support import needs_build

from faults import sweeps

GEOMETRY_BYTES = 16 << 20
QUERY_BYTES = 65_536
SQUARE = b"POLYGON((0 0,4 0,4 4,0 4,0 0))"
INSIDE = (b"0FFFFF212\n", b"", 0)


def unreadable(name):
    return b"", f"sfq: {name} unreadable\n".encode(), 6


class WordFiles(unittest.TestCase):
    ASKS_PROGRAM = True

    def setUp(self):
        room = tempfile.TemporaryDirectory(dir=sweeps.room())
        self.addCleanup(room.cleanup)
        self.folder = room.name
        self.write("s", b"CREATE TABLE t (id INTEGER PRIMARY KEY)")
        os.mkdir(f"{self.folder}/d")
        self.write("d/t.csv", b"id\n1\n2\n")

    def write(self, name, text):
        with open(f"{self.folder}/{name}", "wb") as file:
            file.write(text)

    def ask(self, *words, given=b""):
        """Returns what a command writes in the folder of this test, and its status."""
        ran = subprocess.run([sweeps.program(), *words], capture_output=True, input=given, cwd=self.folder,
                             timeout=sweeps.PATIENCE)
        return ran.stdout, ran.stderr, ran.returncode

    @needs_build
    def test_geometries_in_files(self):
        self.write("square", SQUARE + b"\n")
        self.assertEqual(self.ask("relate", "POINT(2 2)", "@square"), INSIDE)
        self.assertEqual(self.ask("relate", "POINT(2 2)", f"@{self.folder}/square"), INSIDE)
        self.assertEqual(self.ask("relate", "@./square", "@none"), unreadable("second"))
        self.assertEqual(self.ask("relate", "@d", "POINT(2 2)"), unreadable("first"))

    @needs_build
    def test_standard_input(self):
        self.assertEqual(self.ask("relate", "POINT(2 2)", "@-", given=SQUARE), INSIDE)
        self.assertEqual(self.ask("relate", "@-", "@-", given=SQUARE), (b"", b"sfq: second W1 at 0\n", 5))
        self.assertEqual(self.ask("run", "s", "d", "@-", given=b"SELECT id FROM t"), (b"id\n1\n2\n", b"", 0))
        self.write("-", SQUARE)
        self.assertEqual(self.ask("relate", "POINT(2 2)", "@./-"), INSIDE)

    @needs_build
    def test_a_schema_named_like_standard_input_is_a_file(self):
        schema = b"CREATE TABLE t (id INT PRIMARY KEY)"
        self.assertEqual(self.ask("check", "-", "d", given=schema), unreadable("schema"))
        self.write("-", schema)
        self.assertEqual(self.ask("check", "-", "d"), (b"t 2\n", b"", 0))
        self.assertEqual(self.ask("run", "-", "d", "@-", given=b"SELECT id FROM t"), (b"id\n1\n2\n", b"", 0))

    @needs_build
    def test_a_geometry_has_at_most_16_mib(self):
        whole = SQUARE + b" " * (GEOMETRY_BYTES - len(SQUARE))
        self.write("whole", whole)
        self.write("longer", whole + b" ")
        self.assertEqual(self.ask("relate", "POINT(2 2)", "@whole"), INSIDE)
        self.assertEqual(self.ask("relate", "POINT(2 2)", "@longer"), unreadable("second"))
        self.assertEqual(self.ask("relate", "@longer", "POINT(2 2)"), unreadable("first"))
        self.assertEqual(self.ask("relate", "@/dev/zero", "POINT(2 2)"), unreadable("first"))

    @needs_build
    def test_positions_past_the_limit_are_a_fault_of_the_text(self):
        self.write("many", b"MULTIPOINT(" + b",".join([b"1 1"] * 200_000) + b")")
        self.assertEqual(self.ask("relate", "@many", "POINT(2 2)"), (b"", b"sfq: first W4\n", 5))

    @needs_build
    def test_a_query_has_at_most_65536_bytes_of_utf8(self):
        whole = b"SELECT id FROM t LIMIT 1".ljust(QUERY_BYTES)
        self.write("whole", whole)
        self.write("longer", whole + b" ")
        self.write("latin", "SELECT id FROM t WHERE 'é' = 'e'".encode("latin-1"))
        self.assertEqual(self.ask("run", "s", "d", "@whole"), (b"id\n1\n", b"", 0))
        self.assertEqual(self.ask("run", "none", "d", "@longer"), (b"", b"sfq: Q11\n", 5))
        self.assertEqual(self.ask("run", "s", "d", "@latin"), unreadable("query"))
        self.assertEqual(self.ask("run", "none", "d", "@none"), unreadable("query"))
        self.assertEqual(self.ask("run", "none", "d", "@whole"), unreadable("schema"))


if __name__ == "__main__":
    unittest.main()
