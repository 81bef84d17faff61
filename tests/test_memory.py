"""How much memory a run takes at most, and what it does where there is less."""
import re
import resource
import shutil
import tempfile
import unittest
from concurrent.futures import ThreadPoolExecutor

from support import ROOT, needs_build, read

import proving
import worst
from faults import deep, sweeps

# The greatest memory of a run, as the README says it: these bytes, and so many for each byte of the tables, for each byte of
# the longest field that is written, and for each pair of rows that a join finds before it sorts them; under LIMIT n for at most
# 2n pairs.
BASE, EACH_BYTE, EACH_WRITTEN, EACH_PAIR = 8 << 20, 64, 6, 48
# Of `pairs` for each byte of the longest record, and of `why` for each point where edges meet.
EACH_READ, EACH_MEETING = 4, 2048

QUERY_BYTES = 65_536


def run(words, folder, room):
    """Runs the program within so much memory, and returns what it wrote and its status."""
    return sweeps.run_within(words, folder, resource.RLIMIT_AS, room)


class WithFolder(unittest.TestCase):
    """A test case with a folder of its own, in which the schema and the tables are written."""

    ASKS_PROGRAM = True

    def setUp(self):
        self.folder = tempfile.mkdtemp(dir=sweeps.room())
        self.addCleanup(shutil.rmtree, self.folder)

    def write(self, schema, **tables):
        """Writes the files, and returns how many bytes the tables have."""
        sweeps.write(f"{self.folder}/schema.sql", schema)
        for name, text in tables.items():
            sweeps.write(f"{self.folder}/{name}.csv", text)
        return sum(len(text.encode()) for text in tables.values())

    def query(self, text, room):
        return run(["run", "schema.sql", ".", text], self.folder, room)


class Tables(WithFolder):
    """Tables that take the most for their size."""

    def loads(self, columns, head, rows, count):
        """Whether a table loads within the memory that its bytes allow."""
        size = self.write(f"CREATE TABLE t (id INTEGER PRIMARY KEY{columns});", t=f"id{head}\n{rows}")
        ran = run(["check", "schema.sql", "."], self.folder, BASE + EACH_BYTE * size)
        self.assertEqual(ran, (f"t {count}\n".encode(), b"", 0))

    @needs_build
    def test_rows_of_short_fields(self):
        # A NULL takes one byte of the file, and a whole value in the row. Rows grow by twice, so that 65,537 take the most.
        names = [f"c{at}" for at in range(31)]
        for kind, cell, count in (
            ("GEOMETRY", "", 100_000),
            ("GEOMETRY", "", 65_537),
            ("TEXT", "a", 100_000),
            ("INTEGER", "1", 65_537),
            ("GEOMETRY", "POINT EMPTY", 9_000),
            ("GEOMETRY", "POINT(0 0)", 9_000),
            ("GEOMETRY", "MULTIPOINT(0 0)", 9_000),
            ("GEOMETRY", '"LINESTRING(0 0,1 1)"', 4_200),
            ("GEOMETRY", '"POLYGON((0 0,1 0,0 1,0 0))"', 4_200),
            ("GEOMETRY", '"MULTIPOLYGON(((0 0,1 0,0 1,0 0)))"', 4_200),
        ):
            columns, head = ("".join(f", {it}{more}" for it in names) for more in (f" {kind}", ""))
            with self.subTest(kind=kind, cell=cell, count=count):
                rows = "".join(f"{at}{f',{cell}' * 31}\n" for at in range(count))
                self.loads(columns, head.replace(", ", ","), rows, count)

    @needs_build
    def test_rows_in_no_order_of_keys(self):
        # Their cells are copied once, into the order of the keys.
        for kind, cell, count in (("GEOMETRY", "", 65_537), ("TEXT", "a", 65_537), ("INTEGER", "1", 65_537)):
            columns, head = ("".join(f", c{at}{more}" for at in range(31)) for more in (f" {kind}", ""))
            with self.subTest(kind=kind):
                rows = "".join(f"{at}{f',{cell}' * 31}\n" for at in reversed(range(count)))
                self.loads(columns, head.replace(", ", ","), rows, count)

    @needs_build
    def test_long_geometries(self):
        for text in (
            f"MULTIPOINT({','.join(['0 0'] * 10_000)})",
            f"LINESTRING({','.join(['0 0,1 1'] * 5_000)})",
            f"MULTILINESTRING({','.join(['(0 0,1 1)'] * 1_000)})",
            deep.multipolygon(1000),
            *(bad.make(2 * bad.size) for bad in worst.SINGLES),
        ):
            with self.subTest(text=text[:30], bytes=len(text)):
                self.loads(", geom GEOMETRY", ",geom", f'1,"{text}"\n', 1)


class Queries(WithFolder):
    """Queries and geometries that take the most for their size: their bytes aren't counted."""

    @needs_build
    def test_the_longest_queries(self):
        size = self.write(deep.ONE_TABLE, t="id,name,geom\n1,a,POINT(0 0)\n")
        room = BASE + EACH_BYTE * size
        points = f"MULTIPOINT({','.join(['0 0'] * 10_000)})"
        head, one = "SELECT id FROM t WHERE id = 1", " AND ST_Touches(geom, ST_GeomFromText('POINT(0 0)')) = 0"
        for text, answer in (
            (deep.longest("AND"), b"id\n1\n"),
            (deep.longest("OR"), b"id\n1\n"),
            (head + one * ((QUERY_BYTES - len(head)) // len(one)), b"id\n1\n"),
            (f"SELECT id FROM t WHERE ST_Within(geom, ST_GeomFromText('{points}'))", b"id\n1\n"),
            (f"SELECT {','.join(['id'] * 21_000)} FROM t LIMIT 0", b",".join([b"id"] * 21_000) + b"\n"),
            (f"SELECT {','.join(['*'])} FROM t WHERE name = '{'a' * 65_000}'", b"id,name,geom\n"),
        ):
            with self.subTest(text=text[:60]):
                self.assertEqual(self.query(text, room), (answer, b"", 0))

    @needs_build
    def test_a_long_record(self):
        # A text that is written over and over, once with nothing but quotes, each of which is written twice.
        for text in ("a" * 1_000_000, '"' * 500_000):
            field = text if text[0] == "a" else f'"{2 * text}"'
            size = self.write("CREATE TABLE t (id INTEGER PRIMARY KEY, name TEXT);", t=f"id,name\n1,{field}\n")
            items = 1000
            room = BASE + EACH_BYTE * size + EACH_WRITTEN * len(text)
            words = ["run", "schema.sql", ".", f"SELECT {','.join(['name'] * items)} FROM t"]
            counted = sweeps.count_within(words, self.folder, resource.RLIMIT_AS, room)
            with self.subTest(text=text[:1]):
                self.assertEqual(counted, (items * len("name,") + items * (len(field) + 1), 0))

    @needs_build
    def test_a_join_of_many_predicates(self):
        schema = "".join(f"CREATE TABLE {table} (id INTEGER PRIMARY KEY, {it} POINT);" for table, it in ("tp", "uq"))
        size = self.write(schema, t="id,p\n1,POINT(0 0)\n", u="id,q\n1,POINT(0 0)\n")
        head, one = "SELECT t.id FROM t, u WHERE t.id = 1", " AND ST_Equals({},ST_GeomFromText('POINT(0 0)'))"
        both = one.format("p") + one.format("q")
        query = head + both * ((QUERY_BYTES - len(head)) // len(both))
        self.assertGreater(query.count("ST_Equals"), 1200)
        self.assertEqual(self.query(query, BASE + EACH_BYTE * size), (b"t.id\n1\n", b"", 0))

    def comb(self, teeth, upright):
        """A line with so many long teeth, which go up, or to the right."""
        tooth, high = ((0, 0), (0, 1), (2, 1), (2, 0)), 4 * teeth
        corners = [(4 * at + x, high * y) for at in range(teeth) for x, y in tooth]
        return f"LINESTRING({','.join(f'{x} {y}' if upright else f'{y} {x + 1}' for x, y in corners)})"

    @needs_build
    def test_why_of_combs(self):
        for teeth in (20, 100):
            room = BASE + EACH_MEETING * 4 * teeth * teeth
            out, err, status = run(["why", self.comb(teeth, True), self.comb(teeth, False)], self.folder, room)
            with self.subTest(teeth=teeth):
                self.assertEqual((out.count(b"\n"), err, status), (9, b"", 0))

    @needs_build
    def test_pairs_of_the_longest_geometries(self):
        for bad in worst.PAIRS:
            record = ",".join(f'"{it}"' for it in bad.make(2 * bad.size)) + "\n"
            sweeps.write(f"{self.folder}/pairs.csv", record)
            out, err, status = run(["pairs", "pairs.csv"], self.folder, BASE + EACH_READ * len(record))
            with self.subTest(pair=bad.label):
                self.assertEqual((len(out), err, status), (10, b"", 0))

    @needs_build
    def test_the_longest_geometries_of_relate(self):
        pairs = [(bad.label, bad.make(2 * bad.size)) for bad in worst.PAIRS]
        with ThreadPoolExecutor(proving.processors()) as pool:
            for (label, _), ran in zip(pairs, pool.map(lambda it: run(["relate", *it[1]], self.folder, BASE), pairs)):
                with self.subTest(pair=label):
                    self.assertEqual((len(ran[0]), *ran[1:]), (10, b"", 0))


class Joins(WithFolder):
    def two_tables(self, first, second):
        """Writes two tables of equal points. Returns the bytes of both, and how many pairs of rows they have."""
        one = "(id INTEGER PRIMARY KEY, p POINT);"
        texts = ("id,p\n" + "".join(f"{at},POINT(1 1)\n" for at in range(count)) for count in (first, second))
        size = self.write(f"CREATE TABLE t {one} CREATE TABLE u {one}", **dict(zip("tu", texts)))
        return size, first * second

    @needs_build
    def test_a_join_that_sorts(self):
        size, pairs = self.two_tables(1000, 525)
        query = "SELECT b.id FROM t a JOIN u b ON ST_Equals(a.p, b.p)"
        room = BASE + EACH_BYTE * size + EACH_PAIR * pairs
        self.assertIn(b"outer b scan", self.query(f"EXPLAIN {query}", room)[0])
        out, err, status = self.query(query, room)
        self.assertEqual((out.count(b"\n"), err, status), (pairs + 1, b"", 0))

    @needs_build
    def test_a_join_that_sorts_under_limit(self):
        # All points are equal, so each pair is found; the list of them all doesn't fit.
        size, _ = self.two_tables(2000, 1050)
        query = "SELECT a.id, b.id FROM t a JOIN u b ON ST_Equals(a.p, b.p)"
        for most in (1, 100):
            room = BASE + EACH_BYTE * size + EACH_PAIR * 2 * most
            self.assertIn(b"outer b scan", self.query(f"EXPLAIN {query}", room)[0])
            first = b"a.id,b.id\n" + b"".join(b"0,%d\n" % at for at in range(most))
            with self.subTest(limit=most):
                self.assertEqual(self.query(f"{query} LIMIT {most}", room), (first, b"", 0))


class TooLittle(unittest.TestCase):
    """Less memory than a run takes, from what the system's loader takes on.

    None of these commands takes more stack than the system sets up for it. Where a condition is nested so deep that it has to grow
    meanwhile, and no room is left for it, the system ends the program by SIGSEGV: docs/FAULT-TESTING.md.
    """

    ASKS_PROGRAM = True
    COMMANDS = ("help", "relate of 400", "relate along a border", "check", "rows", "join", "join that sorts", "COUNT(*)")
    # The status of the loader where it can't begin the program.
    NOT_BEGUN = 127
    LEAST, AMPLE, STEPS = 2 << 20, 64 << 20, 100

    def least(self, words, folder, well):
        """Returns with how much memory the answer is whole, to a page."""
        below, enough = self.LEAST, self.AMPLE
        while enough - below > resource.getpagesize():
            middle = (below + enough) // 2
            below, enough = (below, middle) if run(words, folder, middle) == well else (middle, enough)
        return enough

    def ended(self, words, folder):
        """Returns the runs with too little memory that didn't end as they may, and how many began."""
        well, found, begun = run(words, folder, self.AMPLE), [], 0
        enough = self.least(words, folder, well)
        for step in range(self.STEPS):
            room = enough - (1 << 20) * step // self.STEPS
            ran = run(words, folder, room)
            begun += ran[2] != self.NOT_BEGUN
            is_refused = ran[2] == sweeps.NO_MEMORY and ran[1] in sweeps.OUT_OF_MEMORY and sweeps.beginning_of(ran[0], well[0])
            if ran != well and not is_refused and ran[2] != self.NOT_BEGUN:
                found.append((room, ran))
        return found, begun

    @needs_build
    def test_a_run_is_refused_or_whole(self):
        with ThreadPoolExecutor(proving.processors()) as pool:
            ended = pool.map(lambda it: self.ended(sweeps.COMMANDS[it], sweeps.tables()), self.COMMANDS)
            for name, (found, begun) in zip(self.COMMANDS, ended):
                with self.subTest(name=name):
                    self.assertEqual(found[:3], [])
                    self.assertGreater(begun, 1)


class Readme(unittest.TestCase):
    def numbers_of(self, name):
        """Returns the numbers of a row of the README, with their units."""
        row = re.search(rf"(?m)^\| {name} \| (.*) \| \|$", read(f"{ROOT}/README.md"))
        return re.findall(r"\b(\d[\d,]*) (MiB|KiB|bytes|for each byte)", row[1])

    def test_it_has_these_numbers(self):
        of_runs = [("8", "MiB"), ("64", "bytes"), ("6", "for each byte"), ("48", "bytes")]
        self.assertEqual(self.numbers_of("memory of `run` and `check`"), of_runs)
        self.assertEqual([8 << 20, 64, 6, 48], [BASE, EACH_BYTE, EACH_WRITTEN, EACH_PAIR])
        of_others = [("8", "MiB"), ("4", "bytes"), ("2", "KiB")]
        self.assertEqual(self.numbers_of("memory besides"), of_others)
        self.assertEqual([4, 2 << 10], [EACH_READ, EACH_MEETING])


if __name__ == "__main__":
    unittest.main()
