"""sfq-ask over a table of more rows than one run takes: its stretches, whose answers together are that of the whole table."""
import json
import os
import shutil
import subprocess
import sys
import tempfile
import unittest

from made_libraries import over_library
from support import python_command, write

import library
from sfq.commands import endings, stretches

ROWS = 250_000
SCHEMA = "CREATE TABLE t (id INTEGER PRIMARY KEY, name TEXT, geom POINT);\nCREATE TABLE u (id INTEGER PRIMARY KEY, geom POINT);\n"


class Records(unittest.TestCase):
    """The records of a file, without a library."""

    def test_a_line_end_in_quotes_ends_none(self):
        for text, wanted in (
            (b"", []), (b"a\n", [b"a\n"]), (b"a", [b"a"]), (b"a\nb", [b"a\n", b"b"]), (b'1,"x\n""y""\nz",2\n3\n', [b'1,"x\n""y""\nz",2\n', b"3\n"]),
            (b'1,""\n2,"\n",""""\n', [b'1,""\n', b'2,"\n",""""\n']), (b'1,"x\n2\n', [b'1,"x\n2\n']),
        ):
            self.assertEqual(list(stretches.records(text.splitlines(True))), wanted)

    def test_keys_ascend(self):
        self.assertEqual(stretches.need_ascending("t.csv", [b"1,a\n", b"5\n"], 0, None), 5)
        self.assertEqual(stretches.need_ascending("t.csv", [b"6,a\n", b"x,a\n", b"7,\n"], 2, 5), 7)
        self.assertEqual(stretches.need_ascending("t.csv", [], 2, 5), 5)
        for part, last, at in (([b"5,a\n"], 5, 101), ([b"6\n", b"6\n"], 5, 102), ([b"6\n", b"-7\n"], 5, 102)):
            with self.assertRaisesRegex(endings.Stopped, rf"the key of record {at} of t\.csv isn't greater than the one before it"):
                stretches.need_ascending("t.csv", part, 100, last)


def row(at):
    """Returns the record of a row: some names have a line end, and some are missing."""
    name = "" if at % 7 == 0 else f'"n{at % 10}\n""q"""' if at % 1_000 == 3 else f"n{at % 10}"
    return f"{3 * at},{name},POINT({at} {at % 100})\n"


@over_library
class Answers(unittest.TestCase):
    """A table of 250,000 rows with keys 0, 3, 6, .., on a grid of halves."""

    @classmethod
    def setUpClass(cls):
        cls.room = tempfile.mkdtemp(prefix="sfq-stretches-")
        cls.addClassCleanup(shutil.rmtree, cls.room)
        cls.folder = cls.made("whole", [row(at) for at in range(ROWS)])

    @classmethod
    def made(cls, name, rows):
        """Makes a folder as sfq-import does, and returns its path."""
        folder = f"{cls.room}/{name}"
        columns = [{"name": "id", "type": "INTEGER"}, {"name": "name", "type": "TEXT"}, {"name": "geom", "type": "POINT"}]
        layers = [{"layer": it, "table": it, "columns": of, "coordinate_system": None, "rows": count, "records": count, "left_out": 0, "source": "s"}
                  for it, of, count in (("t", columns, len(rows)), ("u", [columns[0], columns[2]], 1))]
        for it, text in (("schema.sql", SCHEMA), ("t.csv", "id,name,geom\n" + "".join(rows)), ("u.csv", "id,geom\n1,POINT(2 2)\n"),
                         ("grid.json", json.dumps({"step": "0.5", "origin": ["0", "0"], "layers": layers})), ("left-out.csv", "layer,record,fid,reason,done,table\n")):
            write(f"{folder}/{it}", text)
        return folder

    def asked(self, query, *words, folder=None):
        """Returns what sfq-ask prints on both streams, and its status."""
        known = {**os.environ, "SFQ_LIBRARY": library.SHARED, "PYTHONDONTWRITEBYTECODE": "1"}
        ran = subprocess.run([*python_command(sys.executable, "sfq-ask"), folder or self.folder, query, *words], env=known, capture_output=True, text=True, cwd=self.room)
        return ran.stdout, ran.stderr, ran.returncode

    def test_rows_come_in_the_order_of_the_key(self):
        wanted = [3 * at for at in range(ROWS) if at % 7 and at % 10 == 4]
        self.assertEqual(self.asked("SELECT id FROM t WHERE name = 'n4'"), ("".join(f"{it}\n" for it in ("id", *wanted)), "", 0))
        self.assertEqual(self.asked("SELECT * FROM t WHERE id = 700009 OR id = 600009 OR id < 0")[0], 'id,name,geom\n600009,"n3\n""q""",POINT(100001.5 1.5)\n')

    def test_counts_are_added(self):
        for where, count in (("", ROWS), (" WHERE name IS NULL", len(range(0, ROWS, 7))), (" WHERE id < 0", 0),
                             (" WHERE ST_Within(geom, ST_GeomFromText('LINESTRING(0 0,124999.5 0)'))", ROWS // 100 - 1)):
            self.assertEqual(self.asked(f"SELECT COUNT(*) FROM t{where}"), (f"COUNT(*)\n{count}\n", "", 0))

    def test_limits(self):
        for limit in (0, 1, 99_999, 100_000, 100_001, 249_999, 250_000, 300_000):
            out, err, status = self.asked(f"SELECT id FROM t LIMIT {limit};")
            self.assertEqual((out.split()[1:], err, status), ([str(3 * at) for at in range(min(limit, ROWS))], "", 0))
        self.assertEqual([self.asked(f"SELECT COUNT(*) FROM t LIMIT {it}")[0] for it in (0, 1, 5)], ["COUNT(*)\n", *2 * [f"COUNT(*)\n{ROWS}\n"]])

    def test_what_takes_all_rows_at_once_is_refused_with_the_way(self):
        for query in ("SELECT COUNT(*) FROM t, u", "SELECT a.id FROM t a, t b WHERE a.id = b.id", "EXPLAIN SELECT id FROM t", "SELECT id FROM t ORDER BY name"):
            out, err, status = self.asked(query)
            self.assertEqual((out, status), ("", 4), query)
            self.assertIn("t has 250,000 rows, and one run of sfq takes at most 100,000. sfq-scale takes more", err)
        self.assertEqual(self.asked("SELECT id FROM u"), ("id\n1\n", "", 0))

    def test_faults_have_their_place_in_the_file(self):
        rows = [row(at) for at in range(120_000)]
        for at, text, said in ((110_003, "330009,x,POINT(1 1\n", "sfq: t L6 record 110004 W1 at 9\n"), (110_003, "329000,x,\n", "the key of record 110,004 of ")):
            folder = self.made(f"fault{text[3]}", [*rows[:at], text, *rows[at + 1:]])
            out, err, status = self.asked("SELECT COUNT(*) FROM t", folder=folder)
            self.assertEqual((out, status), ("", 4))
            self.assertIn(said, err)
        out, err, status = self.asked("SELECT nothing FROM t")
        self.assertEqual((out, status), ("", 5))
        self.assertTrue(err.startswith("sfq: Q5 at 7\n  1 | SELECT nothing FROM t\n    |        ^\nsfq: "), err)


if __name__ == "__main__":
    unittest.main()
