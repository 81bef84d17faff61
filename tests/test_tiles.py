"""sfq-tiles: it has the faults of `sfq check`, copies fields as they were read, and splits tables of any number of rows."""
import csv
import os
import resource
import shutil
import signal
import subprocess
import tempfile
import unittest

import scale_programs
from scale_programs import SFQ, TILES

SCHEMA = "CREATE TABLE p (id INTEGER PRIMARY KEY, name TEXT, n INTEGER NOT NULL, geom POLYGON);\nCREATE TABLE q (id INTEGER PRIMARY KEY, at POINT);\n"
SQUARE = '"POLYGON((0 0,4 0,4 4,0 4,0 0))"'
# A table with each fault of a table but that of too many rows and that of a file that can't be read.
FAULTY = {
    "L1": "id,n,geom\n1,1,\n",
    "L2": "id,name,n,geom,n\n1,a,1,,1\n",
    "L3": "id,name,n,geom\n1,a,1\n",
    "L4": b"id,name,n,geom\n1,a,1,\n2,\xff,1,\n",
    "L5": "id,name,n,geom\n1,a,1,\n2,b,x,\n",
    "L6": "id,name,n,geom\n1,a,1,POLYGONE EMPTY\n",
    "L6 validity": 'id,name,n,geom\n1,a,1,"POLYGON((0 0,4 4,4 0,0 4,0 0))"\n',
    "L7": "id,name,n,geom\n1,a,1,POINT(1 1)\n",
    "L8": "id,name,n,geom\n1,a,,\n",
    "L9": "id,name,n,geom\n3,a,1,\n1,b,1,\n2,c,1,\n1,d,1,\n3,e,1,\n",
    "no record": "",
}


def write(path, text):
    os.makedirs(os.path.dirname(path), exist_ok=True)
    with open(path, "wb") as file:
        file.write(text if isinstance(text, bytes) else text.encode())


def read(path):
    with open(path, "rb") as file:
        return file.read()


class Tiles(unittest.TestCase):
    ASKS_PROGRAM = True

    def setUp(self):
        if scale_programs.lacks():
            self.skipTest(f"needs {scale_programs.lacks()}")
        self.folder = tempfile.mkdtemp(prefix="sfq-tiles-test-")
        self.addCleanup(shutil.rmtree, self.folder)
        write(f"{self.folder}/schema.sql", SCHEMA)
        write(f"{self.folder}/t/p.csv", f"id,name,n,geom\n1,a,1,{SQUARE}\n")
        write(f"{self.folder}/t/q.csv", "id,at\n1,POINT(1 1)\n2,POINT(4 4)\n3,\n4,POINT EMPTY\n")

    def ask(self, *words, before=None):
        words = [TILES, "schema.sql", "t", "out", *words]
        ran = subprocess.run(words, cwd=self.folder, capture_output=True, timeout=300, preexec_fn=before)
        return ran.stdout, ran.stderr, ran.returncode

    def rows(self, path):
        with open(f"{self.folder}/out/{path}", encoding="utf-8", newline="") as file:
            return list(csv.reader(file))

    def test_faults_are_those_of_check(self):
        for name, text in FAULTY.items():
            for table in ("p", "q"):
                with self.subTest(name, table=table):
                    if table == "q":
                        text = "id,at\n1,\n1,\n"
                    write(f"{self.folder}/t/{table}.csv", text)
                    words = [SFQ, "check", "schema.sql", "t"]
                    ran = subprocess.run(words, cwd=self.folder, capture_output=True)
                    self.assertEqual(ran.returncode, 4)
                    wanted = (b"", ran.stderr, ran.returncode)
                    self.assertEqual(self.ask("--rows", "9", "--part", "a=p.geom"), wanted)
                    self.assertFalse(os.path.exists(f"{self.folder}/out"))

    def test_missing_files(self):
        os.remove(f"{self.folder}/t/q.csv")
        self.assertEqual(self.ask("--rows", "9", "--part", "a=p"), (b"", b"sfq: q unreadable\n", 6))
        os.mkdir(f"{self.folder}/t/q.csv")
        self.assertEqual(self.ask("--rows", "9", "--part", "a=p"), (b"", b"sfq: q L11\n", 6))
        os.remove(f"{self.folder}/schema.sql")
        self.assertEqual(self.ask("--rows", "9", "--part", "a=p"), (b"", b"sfq: schema unreadable\n", 6))

    def test_double_key_over_the_whole(self):
        rows = "".join(f"{i},,1,\n" for i in range(3000))
        write(f"{self.folder}/t/p.csv", f"id,name,n,geom\n{rows}7,,1,\n8,,1,\n")
        self.assertEqual(self.ask("--rows", "1000", "--part", "a=p"), (b"", b"sfq: p L9 record 3001\n", 4))
        self.assertFalse(os.path.exists(f"{self.folder}/out"))

    def test_more_rows_than_a_table_may_have(self):
        rows = "".join(f"{i},,1,\n" for i in range(150000))
        write(f"{self.folder}/t/p.csv", f"id,name,n,geom\n{rows}")
        wanted = b"part,tile,rows\na,1,100000\na,2,50000\n"
        self.assertEqual(self.ask("--rows", "100000", "--part", "a=p:n"), (wanted, b"", 0))
        with open(f"{self.folder}/t/p.csv", "a") as file:
            file.write("149998,,1,\n7,,1,\n")
        shutil.rmtree(f"{self.folder}/out")
        self.assertEqual(self.ask("--rows", "100000", "--part", "a=p:n"), (b"", b"sfq: p L9 record 150001\n", 4))

    def test_keys_in_any_order(self):
        write(f"{self.folder}/t/p.csv", "id,name,n,geom\n3,,1,\n1,,1,\n2,,1,\n")
        self.assertEqual(self.ask("--rows", "2", "--part", "a=p:"), (b"", b"error: a part names a column that its table doesn't have\n", 2))
        self.assertEqual(self.ask("--rows", "2", "--part", "a=p:n")[2], 0)
        self.assertEqual(self.rows("a-1/a.csv"), [["id", "n"], ["3", "1"], ["1", "1"]])
        self.assertEqual(self.rows("a-2/a.csv"), [["id", "n"], ["2", "1"]])
        self.assertEqual(read(f"{self.folder}/out/schema.sql"), b"CREATE TABLE a (id INTEGER PRIMARY KEY, n INTEGER NOT NULL);\n")

    def test_fields_are_kept(self):
        names = ["a,b", 'say ""x""', "two\r\nlines", " blank ", ""]
        rows = "".join(f'{i},"{name}", 1 ,\n' for i, name in enumerate(names))
        write(f"{self.folder}/t/p.csv", f"id,name,n,geom\n{rows}")
        self.assertEqual(self.ask("--rows", "9", "--part", "a=p")[2], 0)
        wanted = [[str(i), name.replace('""', '"'), " 1 ", ""] for i, name in enumerate(names)]
        self.assertEqual(self.rows("a-1/a.csv"), [["id", "name", "n", "geom"], *wanted])

    def test_header_in_another_order(self):
        write(f"{self.folder}/t/p.csv", f"GEOM,extra,N,Name,ID\n{SQUARE},x,5,a,1\n")
        self.assertEqual(self.ask("--rows", "9", "--part", "a=p")[2], 0)
        self.assertEqual(self.rows("a-1/a.csv"), [["id", "name", "n", "geom"], ["1", "a", "5", SQUARE.strip('"')]])

    def test_one_tile(self):
        out, err, status = self.ask("--rows", "9", "--part", "a=p.geom", "--part", "b=q.at")
        wanted = b"tile,least_x,greatest_x,least_y,greatest_y,a,b\n0,,,,,0,1\n1,-10000000,10000000,-10000000,10000000,1,2\n"
        self.assertEqual((out, err, status), (wanted, b"", 0))
        self.assertEqual(self.rows("tile-0/a.csv"), [["id", "name", "n", "geom", "w", "s"]])
        self.assertEqual(self.rows("tile-0/b.csv"), [["id", "at", "w", "s"], ["4", "POINT EMPTY", "0", "0"]])
        self.assertEqual(self.rows("tile-1/b.csv")[1:], [["1", "POINT(1 1)", "0", "0"], ["2", "POINT(4 4)", "0", "0"]])

    def test_rows_across_cells(self):
        squares = [(i, x, y) for i, (x, y) in enumerate((x, y) for x in range(0, 40, 4) for y in range(0, 40, 4))]
        text = "".join(f'{i},,1,"POLYGON(({x} {y},{x + 4} {y},{x + 4} {y + 4},{x} {y + 4},{x} {y}))"\n' for i, x, y in squares)
        write(f"{self.folder}/t/p.csv", f"id,name,n,geom\n{text}")
        out, err, status = self.ask("--rows", "9", "--part", "a=p.geom:geom")
        self.assertEqual((err, status), (b"", 0))
        tiles = [it.split(",") for it in out.decode().splitlines()[1:]]
        self.assertGreater(len(tiles), 9)
        area = 0
        for number, *sides, count in tiles:
            rows = self.rows(f"tile-{number}/a.csv")[1:]
            self.assertEqual(len(rows), int(count))
            if number == "0":
                self.assertEqual((sides, rows), ([""] * 4, []))
                continue
            x0, x1, y0, y1 = map(int, sides)
            area += (x1 - x0 + 1) * (y1 - y0 + 1)
            wanted = [
                [str(i), str(int(x < x0)), str(int(y < y0))] for i, x, y in squares if x <= x1 and x0 <= x + 4 and y <= y1 and y0 <= y + 4
            ]
            self.assertEqual([[row[0], *row[2:]] for row in rows], wanted)
        self.assertEqual(area, 20000001**2)

    def test_names_of_marks_are_free(self):
        write(f"{self.folder}/schema.sql", "CREATE TABLE p (id INTEGER PRIMARY KEY, W TEXT, w_ TEXT, geom POINT);")
        write(f"{self.folder}/t/p.csv", "id,W,w_,geom\n1,a,b,POINT(1 1)\n")
        self.assertEqual(self.ask("--rows", "9", "--part", "a=p.geom")[2], 0)
        self.assertEqual(self.rows("tile-1/a.csv"), [["id", "W", "w_", "geom", "w__", "s"], ["1", "a", "b", "POINT(1 1)", "0", "0"]])

    def test_mistaken_words(self):
        for words in (
            ("--rows", "0", "--part", "a=p"), ("--rows", "100001", "--part", "a=p"), ("--rows", "x", "--part", "a=p"),
            ("--rows", "9", "--part", "a"), ("--rows", "9", "--part", "a=x"), ("--rows", "9", "--part", "a=p.x"),
            ("--rows", "9", "--part", "a=p.n"), ("--rows", "9", "--part", "a=p", "--part", "A=q"), ("--rows", "9"),
            ("--rows", "9", "--part", "a=p.geom", "--part", "b=q"), ("--rows", "9", "--part", "a b=p"), ("--part", "a=p"),
            ("--rows", "9", "--part", "c (id INTEGER PRIMARY KEY);CREATE TABLE a=p"), ("--rows", "9", "--part", "../a=p"),
            ("--rows", "9", "--part", "select=p"), ("--rows", "9", *["--part", "a=q.at", "--part", "b=q.at", "--part", "c=q.at"]),
        ):
            with self.subTest(words):
                out, err, status = self.ask(*words)
                self.assertEqual((out, status), (b"", 2))
                self.assertTrue(err.startswith(b"error: "), err)
                self.assertFalse(os.path.exists(f"{self.folder}/out"))

    def test_help(self):
        for words, at, status in ([], "stderr", 2), (["--help"], "stdout", 0):
            ran = subprocess.run([TILES, *words], capture_output=True)
            self.assertEqual(ran.returncode, status)
            self.assertIn(b"NAME=TABLE[.COLUMN][:COLUMN,..]", getattr(ran, at))
        ran = subprocess.run([TILES, b"\xff"], capture_output=True)
        wanted = b"error: invalid UTF-8 was detected in one or more arguments\n"
        self.assertEqual((ran.stdout, ran.stderr, ran.returncode), (b"", wanted, 2))

    def test_out_exists(self):
        os.mkdir(f"{self.folder}/out")
        self.assertEqual(self.ask("--rows", "9", "--part", "a=p"), (b"", b"sfq: out unwritable\n", 6))
        self.assertEqual(os.listdir(f"{self.folder}/out"), [])

    def test_out_cannot_be_made(self):
        self.assertEqual(
            subprocess.run([TILES, "schema.sql", "t", "no/out", "--rows", "9", "--part", "a=p"], cwd=self.folder, capture_output=True).stderr,
            b"sfq: out unwritable\n",
        )

    def test_files_cannot_be_written(self):
        """First the schema's file can't be written, then that of a table."""
        rows = "".join(f"{i},a,1,\n" for i in range(100))
        write(f"{self.folder}/t/p.csv", f"id,name,n,geom\n{rows}")
        for size in (0, 200):
            with self.subTest(size=size):

                def before():
                    signal.signal(signal.SIGXFSZ, signal.SIG_IGN)
                    resource.setrlimit(resource.RLIMIT_FSIZE, (size, size))

                wanted = (b"", b"sfq: out unwritable\n", 6)
                self.assertEqual(self.ask("--rows", "99", "--part", "a=p", before=before), wanted)
                shutil.rmtree(f"{self.folder}/out")

    def test_no_rows(self):
        write(f"{self.folder}/t/p.csv", "id,name,n,geom\n")
        self.assertEqual(self.ask("--rows", "9", "--part", "a=p:n"), (b"part,tile,rows\na,1,0\n", b"", 0))
        self.assertEqual(read(f"{self.folder}/out/a-1/a.csv"), b"id,n\n")
        shutil.rmtree(f"{self.folder}/out")
        wanted = b"tile,least_x,greatest_x,least_y,greatest_y,a\n0,,,,,0\n1,-10000000,10000000,-10000000,10000000,0\n"
        self.assertEqual(self.ask("--rows", "9", "--part", "a=p.geom:n"), (wanted, b"", 0))
        self.assertEqual(read(f"{self.folder}/out/tile-1/a.csv"), b"id,n,w,s\n")

    @unittest.skipUnless(os.path.exists("/dev/full"), "needs /dev/full")
    def test_output_cannot_be_written(self):
        with open("/dev/full", "wb") as full:
            words = [TILES, "schema.sql", "t", "out", "--rows", "9", "--part", "a=p"]
            ran = subprocess.run(words, cwd=self.folder, stdout=full, stderr=subprocess.PIPE)
        self.assertEqual((ran.stderr, ran.returncode), (b"sfq: write failed\n", 6))

    def test_memory_is_eight_bytes_a_row(self):
        """Of 400,000 rows 8 bytes each are 3.2 MB; their text has 30 MB. A growing vector may be there twice."""
        rows = "".join(f"{i},{'x' * 60},1,\n" for i in range(400000))
        write(f"{self.folder}/t/p.csv", f"id,name,n,geom\n{rows}")
        limit = 24 << 20
        before = lambda: resource.setrlimit(resource.RLIMIT_DATA, (limit, limit))
        self.assertEqual(self.ask("--rows", "100000", "--part", "a=p", before=before)[1:], (b"", 0))


if __name__ == "__main__":
    unittest.main()
