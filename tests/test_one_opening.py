"""What `--why` opens: each file once, whether there is a fault or not, so that pipes are explained too."""
import os
import subprocess
import tempfile
import unittest

from support import needs, needs_build, write

import repository
from faults import sweeps

SCHEMA = "CREATE TABLE t (id INTEGER PRIMARY KEY, name TEXT)"
TABLE = "id,name\n1,a\n2,b\n"
# Of each the schema, the query and how many files are opened: the query's, the schema's and the table's, up to the fault.
FAULTS = (
    ("CREATE TABL t (id INTEGER PRIMARY KEY)", "SELECT id FROM t", 2, "sfq: S1 at 7\n", "sfq: TABL isn't there"),
    (SCHEMA, "SELECT nam FROM t", 3, "sfq: Q5 at 7\n", "sfq: there is no column nam"),
    (SCHEMA, "SELECT id FROM t WERE id = 1", 3, "sfq: Q2 at 22\n", "sfq: "),
)
# Of each a table's text and all that a check writes of it; the schema's file and the table's are opened.
TABLES = (
    ("id,name\n1,a\nx,b\n", """sfq: t L5 record 2
  3 | x,b
    | ^
sfq: column id: "x" isn't a whole number of 64 bits
"""),
    ("id,name\r\n\r\n1,a\r\n2\r\n3,c\r\n", """sfq: t L3 record 2
  4 | 2
    |  ^
sfq: the record has 1 fields, the header 2
"""),
    ("id,name\n1,a\n2,b\n1,c\n", """sfq: t L9 record 3
  4 | 1,c
    | ^
sfq: record 1 has the key 1
"""),
    ("id,nam\n1,a\n", """sfq: t L1
  1 | id,nam
sfq: column name isn't in the header
"""),
    ("", """sfq: t L1
sfq: the file is empty: its first line names the columns
"""),
)
# A table in which a quote isn't closed, and the notes of a check.
OPEN = "id,name\n1,a\n2,\"b\n3,c\n"
OPEN_NOTE = """sfq: note: t record 2: field 2 holds a line end
  3 | 2,"b
    |   ^
sfq: the quote that opens here isn't closed: the rest of the file is one field
"""
# Of each the words, how many files are opened or tried, the line of the fault and its reason.
UNOPENED = (
    (["check", "nope.sql", "."], 1, "sfq: schema unreadable\n", "sfq: nope.sql isn't there\n"),
    (["check", "schema.sql", "nowhere"], 2, "sfq: t unreadable\n", "sfq: nowhere isn't there: it should be a folder\n"),
    (["check", ".", "."], 1, "sfq: schema unreadable\n", "sfq: . is a folder\n"),
    (["run", "schema.sql", ".", "@nope.sql"], 1, "sfq: query unreadable\n", "sfq: nope.sql isn't there\n"),
    (["relate", "POINT(1 2)", "@nope.wkt"], 1, "sfq: second unreadable\n", "sfq: nope.wkt isn't there\n"),
    (["why", "@query.sql/a.wkt"], 1, "sfq: first unreadable\n", "sfq: query.sql isn't a folder\n"),
    (["pairs", "nope.csv"], 1, "sfq: pairs unreadable\n", "sfq: nope.csv isn't there\n"),
)

# A ring that crosses itself, and what explains it; and what explains a coordinate that isn't whole.
RING = "POLYGON((0 0,4 4,4 0,0 4,0 0))"
RING_REASON = "sfq: V3 0: 0 0 to 4 4 and 4 0 to 0 4 share 2 2\nsfq: split the ring where it meets itself\n"
HALF = "1.5 isn't whole: scale the coordinates to a grid of whole numbers, of centimetres say; sfq-import does\n"


# A pair that is refused and a record that is none, with what is written of both; and a join of more rows than go without a note, with its note.
PAIRS = "POINT(1 2),POINT(1.5 2)\nPOINT(1 2)\n"
PAIRS_REASON = f"""sfq: pairs L3 record 2
sfq: record 1: second: {HALF}sfq: record 2: the number of its fields is 1: write two geometries in a record, one with a comma in quotes
"""
JOIN = "SELECT a.id FROM t a, t b LIMIT 1"
JOIN_NOTE = """  1 | SELECT a.id FROM t a, t b LIMIT 1
    |                       ^
sfq: note: no condition joins a and b: each of 1001 rows meets each of 1001
"""


class Openings(unittest.TestCase):
    def setUp(self):
        room = tempfile.TemporaryDirectory(prefix="sfq-opening-", dir=sweeps.room())
        self.addCleanup(room.cleanup)
        self.folder = room.name
        os.chmod(self.folder, 0o755)
        self.make(SCHEMA, "SELECT id FROM t")

    def make(self, schema, query):
        """Writes the files of a query over one table."""
        write(f"{self.folder}/schema.sql", schema)
        write(f"{self.folder}/query.sql", query)
        write(f"{self.folder}/t.csv", TABLE)

    def said(self, words, given):
        """Returns what the program writes to standard error, with --why and with this text as standard input."""
        ran = subprocess.run([repository.PROGRAM, words[0], "--why", *words[1:]], cwd=self.folder, input=given, capture_output=True, text=True, timeout=60)
        return ran.stderr

    @needs_build
    @needs("gcc", "cc")
    def test_a_fault_opens_each_file_once(self):
        for schema, query, opens, line, reason in FAULTS:
            with self.subTest(query=query):
                self.make(schema, query)
                for switch in ([], ["--why"]):
                    ran = sweeps.run(["run", *switch, "schema.sql", ".", "@query.sql"], folder=self.folder)
                    self.assertEqual((ran.counts["open"], ran.counts["statx"]), (opens, 0), switch)
                    first, _, added = ran.err.decode().partition("\n")
                    self.assertEqual(f"{first}\n", line)
                    self.assertEqual(reason in added, bool(switch))

    def of_table(self, text):
        """Returns how many files a check of a table of this text opens, with how many calls of statx, and what it writes."""
        write(f"{self.folder}/t.csv", text)
        ran = sweeps.run(["check", "--why", "schema.sql", "."], folder=self.folder)
        return (ran.counts["open"], ran.counts["statx"]), ran.err.decode()

    @needs_build
    @needs("gcc", "cc")
    def test_a_table_with_a_fault_is_opened_once(self):
        for text, lines in TABLES:
            with self.subTest(text=text):
                counts, err = self.of_table(text)
                self.assertEqual(counts, (2, 0))
                for line in lines.splitlines():
                    self.assertIn(f"{line}\n", err)

    @needs_build
    @needs("gcc", "cc")
    def test_notes_of_a_check_open_each_file_once(self):
        self.assertEqual(self.of_table(OPEN), ((2, 0), OPEN_NOTE))

    @needs_build
    def test_tables_from_pipes_are_explained_as_from_files(self):
        for text in (*(text for text, _ in TABLES), OPEN):
            with self.subTest(text=text):
                write(f"{self.folder}/t.csv", text)
                expected = self.said(["check", "schema.sql", "."], "")
                os.remove(f"{self.folder}/t.csv")
                os.symlink("/dev/stdin", f"{self.folder}/t.csv")
                self.assertEqual(self.said(["check", "schema.sql", "."], text), expected)
                os.remove(f"{self.folder}/t.csv")
                os.mkfifo(f"{self.folder}/t.csv")
                writer = subprocess.Popen(["sh", "-c", 'printf %s "$1" > t.csv', "sh", text], cwd=self.folder)
                self.assertEqual(self.said(["check", "schema.sql", "."], ""), expected)
                writer.wait(timeout=60)
                os.remove(f"{self.folder}/t.csv")

    @needs_build
    @needs("gcc", "cc")
    def test_a_join_with_notes_opens_each_file_once(self):
        self.make(SCHEMA, JOIN)
        write(f"{self.folder}/t.csv", "id,name\n" + "".join(f"{it},a\n" for it in range(1001)))
        for switch in ([], ["--why"]):
            ran = sweeps.run(["run", *switch, "schema.sql", ".", "@query.sql"], folder=self.folder)
            self.assertEqual((ran.counts["open"], ran.counts["statx"]), (3, 0), switch)
            self.assertEqual(ran.err.decode(), JOIN_NOTE * bool(switch))

    @needs_build
    @needs("gcc", "cc")
    def test_pairs_are_opened_once(self):
        write(f"{self.folder}/pairs.csv", PAIRS)
        ran = sweeps.run(["pairs", "--why", "pairs.csv"], folder=self.folder)
        self.assertEqual((ran.counts["open"], ran.counts["statx"]), (1, 0))
        self.assertEqual(ran.err.decode(), PAIRS_REASON)

    @needs_build
    def test_pairs_from_standard_input(self):
        self.assertEqual(self.said(["pairs", "-"], PAIRS), PAIRS_REASON)

    @needs_build
    @needs("gcc", "cc")
    def test_a_check_of_a_schema_with_a_fault_opens_it_once(self):
        self.make("CREATE TABLE t (id INTEGER)", "")
        ran = sweeps.run(["check", "--why", "schema.sql", "."], folder=self.folder)
        self.assertEqual((ran.counts["open"], ran.counts["statx"]), (1, 0))
        self.assertIn("sfq: S3 at 26\n", ran.err.decode())

    @needs_build
    @needs("gcc", "cc")
    def test_a_geometry_that_is_refused_is_opened_once(self):
        write(f"{self.folder}/point.wkt", "POINT(1 2)")
        write(f"{self.folder}/ring.wkt", RING)
        for command in ("relate", "why"):
            with self.subTest(command=command):
                ran = sweeps.run([command, "--why", "@point.wkt", "@ring.wkt"], folder=self.folder)
                self.assertEqual((ran.counts["open"], ran.counts["statx"]), (2, 0))
                self.assertEqual(ran.err.decode(), f"sfq: second V3 0\n{RING_REASON}")

    @needs_build
    @needs("gcc", "cc")
    def test_a_file_that_cannot_be_opened_is_tried_once(self):
        for words, tries, line, reason in UNOPENED:
            with self.subTest(words=words):
                for switch in ([], ["--why"]):
                    ran = sweeps.run([words[0], *switch, *words[1:]], folder=self.folder)
                    self.assertEqual(ran.counts["open"], tries, switch)
                    self.assertEqual(ran.err.decode(), line + reason * bool(switch))

    @needs_build
    def test_a_query_from_standard_input_that_is_not_utf8(self):
        ran = subprocess.run([repository.PROGRAM, "run", "--why", "schema.sql", ".", "@-"], cwd=self.folder, input=b"SELECT \xe4", capture_output=True, timeout=60)
        self.assertEqual((ran.returncode, ran.stderr), (6, b"sfq: query unreadable\nsfq: - isn't UTF-8: save it as UTF-8\n"))

    @needs_build
    def test_a_geometry_from_standard_input_or_a_named_pipe(self):
        self.assertEqual(self.said(["relate", "@-", "POINT(1 2)"], RING), f"sfq: first V3 0\n{RING_REASON}")
        said = self.said(["why", "@-"], "POINT(1.5 2)")
        self.assertEqual(said, f"sfq: first W2 at 6\n  1 | POINT(1.5 2)\n    |       ^\nsfq: {HALF}")
        os.mkfifo(f"{self.folder}/pipe")
        writer = subprocess.Popen(["sh", "-c", 'printf %s "$1" > "$2"', "sh", RING, f"{self.folder}/pipe"])
        said = self.said(["why", "POINT(1 2)", "@pipe"], "")
        writer.wait(timeout=60)
        self.assertEqual(said, f"sfq: second V3 0\n{RING_REASON}")

    @needs_build
    def test_reasons_from_standard_input(self):
        said = self.said(["run", "schema.sql", ".", "@-"], "SELECT nam FROM t")
        self.assertEqual(said, "sfq: Q5 at 7\n  1 | SELECT nam FROM t\n    |        ^\nsfq: there is no column nam: did you mean name?\n")
        said = self.said(["check", "/dev/stdin", "."], "CREATE TABL t (id INTEGER PRIMARY KEY)")
        self.assertRegex(said, r"\Asfq: S1 at 7\n  1 \| CREATE TABL t .*\n    \|        \^\nsfq: TABL isn't there: .*\n\Z")

    @needs_build
    def test_reasons_from_a_named_pipe(self):
        os.mkfifo(f"{self.folder}/pipe")
        for words, text, code in ((["run", "schema.sql", ".", "@pipe"], "SELECT nam FROM t", "Q5 at 7"), (["check", "pipe", "."], "CREATE TABL t", "S1 at 7")):
            with self.subTest(words=words):
                writer = subprocess.Popen(["sh", "-c", 'printf %s "$1" > "$2"', "sh", text, f"{self.folder}/pipe"])
                said = self.said(words, "").splitlines()
                writer.wait(timeout=60)
                self.assertEqual(said[:3], [f"sfq: {code}", f"  1 | {text}", "    |        ^"])
                self.assertEqual(len(said), 4)
