"""Databases of the C library: what is opened and loaded, each fault, files and pipes, numbers that nothing has, each allocation refused,
four threads and valgrind."""
import os
import re
import subprocess
import tempfile
import threading

from support import ROOT, needs, read

import library
import test_library

SCHEMA = "CREATE TABLE City (Id INTEGER PRIMARY KEY, name TEXT NOT NULL, at POINT); CREATE TABLE road (id INTEGER PRIMARY KEY, way LINESTRING);"
# Its tables, with the names and types of columns, as they are printed: 0 of integers, 1 of texts, 2 of geometries. By hand.
TABLES = "0:City 0:Id=0 0:name=1 0:at=2 0:road 0:id=0 0:way=2"
HEADER = "at,name,Id|"

# The text of a schema, and its first fault: the letter, the number and the byte. Worked out from docs/FAULTS.md.
SCHEMAS = [
    ("TABLE t", "1 S1 0"),
    ("CREATE TABLE t (id INTEGER PRIMARY KEY", "1 S1 38"),
    ("CREATE TABLE t (id INTEGER PRIMARY KEY, ID TEXT);", "1 S2 40"),
    ("CREATE TABLE t (id INTEGER);", "1 S3 26"),
    ("CREATE TABLE t (id INTEGER PRIMARY KEY, n INTEGER PRIMARY KEY);", "1 S4 50"),
    ("CREATE TABLE t (id INTEGER PRIMARY KEY" + "".join(f", c{at} TEXT" for at in range(32)) + ");", "1 S5 340"),
]

# The name of a table, its text, and what is printed of loading it: the status or the fault, and of each table whether it is loaded.
# Worked out from docs/FAULTS.md.
LOADS = [
    ("city", HEADER, "0 loaded not"),
    ("CITY", HEADER + "POINT(1 2),Oslo,7|,Rome,-3|", "0 loaded not"),
    ("road", 'way,id|"LINESTRING(0 0,1 1)",1|', "0 not loaded"),
    ("lake", HEADER, "4 not not"),
    ("city", "", "1 L1 0 not not"),
    ("city", "Id,name|", "1 L1 0 not not"),
    ("city", "Id,name,at,id|", "1 L2 0 not not"),
    ("city", HEADER + ",Oslo,1|,Rome|", "1 L3 2 not not"),
    ("city", HEADER + ",Oslo,1.5|", "1 L5 1 not not"),
    ("city", HEADER + ",Oslo,1|POINT(1,Rome,2|", "1 L6 2 W1 7 0 not not"),
    ("road", 'way,id|"LINESTRING(0 0,0 0)",1|', "1 L6 1 V1 0 0 not not"),
    ("city", HEADER + '"LINESTRING(0 0,1 1)",Oslo,1|', "1 L7 1 not not"),
    ("city", HEADER + ",,1|", "1 L8 1 not not"),
    ("city", HEADER + ",Oslo,1|,Rome,1|", "1 L9 2 not not"),
]

# The text of the first table, a query, and what is printed of it: the status or the fault, how many rows the two statements give, and
# the first once more by steps of one look; `busy`, where rows come one by one or are counted; and its work. By hand.
ROWS = HEADER + "POINT(1 2),Oslo,7|,Rome,-3|POINT(3 4),Bern,8|"
HERE = "ST_Intersects(at, ST_GeomFromText('LINESTRING(0 0, 2 4)'))"
QUERIES = [
    (ROWS, "SELECT name FROM city", "0 3 3 3 busy work 0"),
    (ROWS, "SELECT name FROM city WHERE id > 0 LIMIT 1", "0 1 1 1 busy work 0"),
    (ROWS, f"SELECT name, at FROM city WHERE {HERE}", "0 1 1 1 busy work 2"),
    (ROWS, "SELECT a.id, b.id FROM city a, city b", "0 9 9 9 busy work 0"),
    (ROWS, "SELECT COUNT(*) FROM city", "0 1 1 1 busy work 0"),
    (ROWS, "SELECT COUNT(*) FROM city LIMIT 0", "0 0 0 0 busy work 0"),
    (ROWS, "SELECT name FROM city LIMIT 0", "0 0 0 0 work 0"),
    (HEADER, "SELECT name FROM city", "0 0 0 0 busy work 0"),
    (ROWS, "EXPLAIN SELECT name FROM city WHERE id > 0", "0 3 3 3 work 0"),
    (ROWS, f"EXPLAIN ANALYZE SELECT name FROM city WHERE {HERE}", "0 4 4 4 busy work 2"),
    ("-", "SELECT name FROM city", "9 table 0"),
    (ROWS, "SELECT name FROM city, road", "9 table 1"),
    (ROWS, "SELECT nothing FROM city, road", "9 table 1"),
    (ROWS, "SELECT name FROM city WHERE name = 'Oslo", "1 Q1 35"),
    (ROWS, "SELECT name", "1 Q2 11"),
    (ROWS, "SELECT name FROM lake", "1 Q3 17"),
    (ROWS, "SELECT nothing FROM city", "1 Q5 7"),
    (ROWS, "SELECT id FROM city WHERE ST_Within(at, ST_GeomFromText('POINT(1 2'))", "1 Q8 56 W1 9 0"),
]


# The text of the first table, a query, and what is printed of it: the status; each column with its type; the header; and of each row
# its text and its fields. By hand.
POINTS = HEADER + '"POINT( 1  2)","Os""lo, N",7|,Rome,-3|POINT EMPTY,Bern,8|'
ALL = "0 Id 0 name 1 at 2 Id,name,at|"
ROWS_OF = [
    (POINTS, "SELECT * FROM city", ALL + ' -3,Rome,| -3 Rome - 7,"Os""lo, N",POINT(1 2)| 7 Os"lo, N POINT(1 2) 8,Bern,POINT EMPTY| 8 Bern POINT EMPTY'),
    (POINTS, "SELECT * FROM city LIMIT 0", ALL),
    (POINTS, "SELECT at FROM city WHERE id < 0", '0 at 2 at| ""| -'),
    (POINTS, "SELECT ID, c.id FROM city c WHERE name = 'Rome'", "0 Id 0 Id 0 Id,Id| -3,-3| -3 -3"),
    (POINTS, "SELECT ST_Dimension(at), ST_IsEmpty(at), ST_AsText(at) FROM city",
     "0 ST_Dimension(at) 0 ST_IsEmpty(at) 0 ST_AsText(at) 1 ST_Dimension(at),ST_IsEmpty(at),ST_AsText(at)| ,,| - - - 0,0,POINT(1 2)| 0 0 POINT(1 2) "
     "0,1,POINT EMPTY| 0 1 POINT EMPTY"),
    (POINTS, "SELECT COUNT(*) FROM city WHERE id > 0", "0 COUNT(*) 0 COUNT(*)| 2| 2"),
    (POINTS, "SELECT COUNT(*) FROM city LIMIT 0", "0 COUNT(*) 0 COUNT(*)|"),
    (POINTS, "EXPLAIN SELECT name FROM city", "0 plan 1  cost 3| cost 3 outer City scan| outer City scan filter none| filter none"),
    (POINTS, "SELECT a.id, b.name FROM city a, city b WHERE a.id = 7 AND b.id = 8", "0 a.Id 0 b.name 1 a.Id,b.name| 7,Bern| 7 Bern"),
]

# A query over the same table, values for its constants, and what is printed: the types of the constants, 0 to 2 as those of columns and
# 3 of NULL; the status of each value or the fault, of the query and of the geometry; and the rows. By hand.
AT_POINT = "SELECT id FROM city WHERE ST_Intersects(at, ST_GeomFromText('POINT(1 2)'))"
BINDINGS = [
    ("SELECT id FROM city WHERE id > 0;0=i7", "0 0 8|"),
    ("SELECT id FROM city WHERE id > 0;0=i8;0=i-9223372036854775808", "0 0 0 -3| 7| 8|"),
    ("SELECT id FROM city WHERE id = 7 OR name = 'Rome';1=tBern;0=i-3", "0 1 0 0 -3| 8|"),
    ("SELECT id FROM city WHERE name <> 'Rome';0=t", "1 0 -3| 7| 8|"),
    ("SELECT id FROM city WHERE name = 'Rome';0=tOs\"lo, N", "1 0 7|"),
    ("SELECT a.id FROM city a JOIN city b ON a.id = 7 WHERE b.id = 8;0=i8;1=i-3", "0 0 0 0 8|"),
    ("SELECT COUNT(*) FROM city WHERE id > 9;0=i-3", "0 0 2|"),
    ("SELECT COUNT(*) FROM city WHERE id > 0;0=n", "0 0 0|"),
    ("SELECT id FROM city WHERE name = 'Rome' OR id = 7;0=n", "1 0 0 7|"),
    ("SELECT id FROM city WHERE name = 'Rome';0=n;0=tRome;0=n", "1 0 4 0"),
    ("SELECT id FROM city WHERE id = NULL OR id = 7;0=i8;0=tx;0=n", "3 0 4 4 0 7|"),
    ("SELECT id FROM city WHERE id = 7 AND name <> 'x';0=ta;1=i5;2=i1;0=gPOINT(1 2);1=b", "0 1 4 4 4 4 4 7|"),
    (f"{AT_POINT};0=gLINESTRING(5 5, 6 6)", "2 0"),
    (f"{AT_POINT};0=g POINT EMPTY;0=gPOLYGON((0 0,4 0,4 4,0 4,0 0))", "2 0 0 7|"),
    (f"{AT_POINT};0=n;0=i1;0=tPOINT(1 2)", "2 4 4 4 7|"),
    (f"{AT_POINT};0=gPOINT(1 2;9=gPOINT(1 2;0=gLINESTRING(0 0,0 0)", "2 1 Q8 0 W1 9 1 Q8 0 W1 9 1 Q8 0 V1 0 7|"),
    ("SELECT id FROM city WHERE ST_Relate(at, ST_GeomFromText('POINT(9 9)'), 'T********') = 1 AND ST_IsEmpty(at) = 0 LIMIT 2;"
     "1=i1;1=tT********;0=gPOINT(1 2)", "2 4 4 0 7|"),
]

# The text, and each part by its numbers: the kind, the type of the constant, the first byte and how many bytes. By hand, by
# bindings/c/sfq_tables.h.
PARTS = [
    ("", "0 10.4@0+0"),
    ("a='x''';|--b|LIMIT 5", "0 0.4@0+1 4.4@1+1 3.1@2+5 5.4@7+1 1.4@13+5 2.4@19+1 10.4@20+0"),
    ("a<>?AND", "0 0.4@0+1 4.4@1+2 6.1@3+1"),
    ("ST_GeomFromText( :b_1)", "0 0.4@0+15 4.4@15+1 7.2@17+4"),
    ("x '?", "0 0.4@0+1 8.1@2+2"),
    ("NULL#", "0 1.3@0+4 9.1@4+1"),
    ("IS NOT NULL", "0 1.4@0+2 1.4@3+3 1.4@7+4 10.4@11+0"),
]

# A query over the first table, and what is printed: of each column of the schema the number of its geometries and its marks; of each
# reference its table and its name; of each column of the rows its reference, its column and its function. By hand.
FORMS = "0k 0n 1 0k 2"
DESCRIBED = [
    ("SELECT * FROM city", "0:0=City 0/0/0 0/1/0 0/2/0"),
    ("SELECT ST_IsEmpty(b.at), a.name, ST_AsText(a.at), ST_Dimension(b.at) FROM city a, City AS b", "0:0=a 0:0=b 1/2/3 0/1/0 0/2/1 1/2/2"),
    ("SELECT COUNT(*) FROM CITY Town", "0:0=Town -"),
    ("EXPLAIN SELECT id FROM city", "0:0=City -"),
]

# A query over the first table, and what is printed: the limit, what is asked for, the conjuncts, the operands, and the columns that the
# text names. By hand, by bindings/c/sfq_tables.h.
ASKED = [
    ("SELECT * FROM city", "- rows"),
    ("EXPLAIN SELECT COUNT(*) FROM city LIMIT 3", "3 plan count"),
    ("EXPLAIN ANALYZE SELECT id FROM city LIMIT 0", "0 work 23/23+2"),
    ("SELECT id FROM city WHERE id >= -5 AND NOT 'x' = name", "- rows 5 8 0:5.0=0/0 0:5.0=0 1:0.0=1 1:0.0=0/1 7/7+2 26/26+2 49/49+4"),
    ("SELECT a . id FROM city a JOIN city b ON ST_Touches(b.at, a.at) = 1 AND a.id < b.id WHERE (ST_Disjoint(a.at, b.at) OR a.id = NULL)",
     "- rows 13j 2 8 0:13.0=1/2 0:13.0=0/2 1:2.0=0/0 1:2.0=1/0 2:11.0=0/2 2:11.0=1/2 2:0.0=0/0 2:0.0=3 7/11+2 52/54+2 58/60+2 72/74+2 79/81+2 "
     "103/105+2 109/111+2 118/120+2"),
    ("SELECT ST_AsText(at) FROM city WHERE ST_Dimension(at) <> 2 AND (name IS NOT NULL AND ST_IsEmpty(at) = 0)",
     "- rows 1 8 8 0:1.2=0/2 0:1.0=0 1:6.0=0/1 2:7.0=0/2 17/17+2 50/50+2 64/64+4 96/96+2"),
    ("SELECT COUNT(*) FROM city a, city b WHERE ST_Relate(a.at, b.at, 'T********') AND ST_Relate(a.at, b.at, 'F********') "
     "AND ST_Equals(a.at, ST_GeomFromText('POINT(1 1)'))",
     "- rows count 9j 9 10 0:9.0=0/2 0:9.0=1/2 1:9.0=0/2 1:9.0=1/2 2:10.0=0/2 2:10.0=2 52/54+2 58/60+2 91/93+2 97/99+2 130/132+2"),
]


def row_calls():
    """Returns the calls over rows and constants, each with what it prints."""
    calls = [(f"rows\t{SCHEMA}\t{text}\t{query}", wanted) for text, query, wanted in ROWS_OF]
    calls += [(f"bind\t{SCHEMA}\t{POINTS}\t{words}", wanted) for words, wanted in BINDINGS]
    return calls + [(f"order\t60\t{seed}", "60") for seed in range(8)]


def lines_of_calls():
    """Returns the calls of the tables above, each with what it prints."""
    calls = [(f"database\t{text}\tt\t", wanted) for text, wanted in SCHEMAS]
    calls += [(f"database\t{SCHEMA}\t{name}\t{text}", f"0 {TABLES} {wanted}") for name, text, wanted in LOADS]
    # The empty text is a schema without tables, so the table has no number.
    calls.append(("database\t\tcity\t", "0 4"))
    # Of an empty database nothing is asked; of one that is open nothing has these numbers.
    calls += [(f"query\t{SCHEMA}\t{text}\t{query}", wanted) for text, query, wanted in QUERIES]
    calls += [(f"parts\t{text}", wanted) for text, wanted in PARTS]
    calls += [(f"described\t{SCHEMA}\t{POINTS}\t{query}", f"{FORMS} {wanted}") for query, wanted in DESCRIBED]
    calls += [(f"asked\t{SCHEMA}\t{POINTS}\t{query}", wanted) for query, wanted in ASKED]
    return calls + row_calls() + [("closed", " ".join("7" * 33)), (f"numbers\t{SCHEMA}", " ".join("4" * 64))]


@needs("gcc", "cc")
class Databases(test_library.PlayedCalls, test_library.WithLibrary):
    """The calls over databases."""

    least = 200

    def calls(self):
        return lines_of_calls()

    def more_calls(self):
        return [(f"order\t2000\t{seed}", "2000") for seed in range(100, 400)]

    def printed(self, call):
        ran = self.calling([self.shared()], [call])
        self.assertEqual(ran.returncode, 0, ran.stderr)
        return ran.stdout.rstrip("\n")

    def test_four_threads_on_small_stacks(self):
        """On 64 KB what is refused at opening and the empty database, on 128 KB all, also a geometry of some hundred positions."""
        teeth = f"POLYGON(({','.join(f'{i} {i % 2 * 9}' for i in range(300))},299 -50,0 -50,0 0))"
        large = f'database\tCREATE TABLE t (id INTEGER PRIMARY KEY, at POLYGON);\tt\tid,at|1,"{teeth}"|'
        self.assertEqual(self.printed(large), "0 0:t 0:id=0 0:at=2 0 loaded")
        opening = [f"database\t{text}\tt\t" for text, _ in SCHEMAS] + ["closed"]
        for stack, calls in ((65_536, opening), (131_072, [*(it for it, _ in lines_of_calls()), large])):
            ran = self.calling([self.shared(), "threads", str(stack)], calls)
            self.assertEqual(ran.returncode, 0, ran.stdout)
            self.assertIn(" 0 differ", ran.stdout)

    def test_files(self):
        """A file with rows, an empty one, one that isn't there, a folder, and a pipe that gives its bytes piece by piece."""
        rows = HEADER.replace("|", "\n") + "".join(f"POINT({at} 2),Oslo,{at}\n" for at in range(20_000))
        with tempfile.TemporaryDirectory(prefix="sfq-files-") as room:
            with open(f"{room}/city.csv", "w", encoding="ascii") as file:
                file.write(rows)
            with open(f"{room}/empty", "wb"):
                pass
            os.mkfifo(f"{room}/pipe")

            def feed():
                with open(f"{room}/pipe", "w", encoding="ascii") as pipe:
                    for at in range(0, len(rows), 5_000):
                        pipe.write(rows[at : at + 5_000])
                        pipe.flush()

            feeding = threading.Thread(target=feed)
            feeding.start()
            for name, wanted in (("city.csv", "0 loaded not"), ("empty", "1 L1 0 not not"), ("nothing", "11 not not"), (".", "11 not not"), ("pipe", "0 loaded not")):
                self.assertEqual(self.printed(f"file\t{SCHEMA}\tcity\t{room}/{name}"), f"0 {TABLES} {wanted}", name)
            feeding.join()

    @needs("libc6-dev", "nm")
    def test_only_the_calls_of_the_header_can_be_seen(self):
        for words in (["nm", "-D", "--defined-only", library.TABLES.shared], ["nm", "-g", "--defined-only", library.TABLES.archive]):
            ran = subprocess.run(words, capture_output=True, text=True, check=True)
            seen = re.findall(r"^[0-9a-f]+ (?!A )[A-Z] ([^@\s]+)\S*$", ran.stdout, re.M)
            self.assertEqual(sorted(seen), sorted(library.seen_calls(library.TABLES)))
        declared = re.findall(r"^\w+ (sfq_\w+)\(", read(f"{ROOT}/bindings/c/sfq_tables.h"), re.M)
        self.assertEqual(sorted(declared), sorted(library.seen_calls(library.TABLES)))

    @needs("g++", "c++")
    def test_the_header_in_cpp(self):
        with open(f"{self.room.name}/tables.cc", "w", encoding="utf-8") as file:
            file.write('#include "sfq_tables.h"\nint main() { sfq_database d = SFQ_EMPTY; return sfq_close(&d) == SFQ_NO_GEOMETRY ? 0 : 1; }\n')
        program = f"{self.room.name}/tables"
        flags = ["-std=c++11", "-Wall", "-Wextra", "-Werror", f"-I{ROOT}/bindings/c"]
        subprocess.run(["c++", *flags, f"{program}.cc", library.TABLES.archive, "-o", program], check=True)
        self.assertEqual(subprocess.run([program]).returncode, 0)
