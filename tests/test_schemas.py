"""sfq-schema: what it guesses of columns, what it leaves out, and that its proposals load."""
import re
import subprocess
import sys
import tempfile
import unittest

from support import ROOT, python_command, read, write

import answers


def proposed(folder):
    """Returns what the command writes for a folder, and its status."""
    ran = subprocess.run([*python_command(sys.executable, "sfq-schema"), folder], capture_output=True, text=True)
    return ran.stdout, ran.stderr, ran.returncode


class Guesses(unittest.TestCase):
    def setUp(self):
        room = tempfile.TemporaryDirectory(prefix="sfq-schema-")
        self.addCleanup(room.cleanup)
        self.room = room.name

    def columns(self, text, name="t"):
        """Returns the columns that are proposed for a table: each its name, and type and constraints."""
        write(f"{self.room}/{name}.csv", text)
        out, err, status = proposed(self.room)
        self.assertEqual((err, status), ("", 0))
        return dict(re.findall(r"^  (\w+) +([A-Z ]*[A-Z])", out, re.M))

    def refused(self, text, name="t"):
        """Returns what is said of a table that is left out."""
        write(f"{self.room}/{name}.csv", text)
        out, err, status = proposed(self.room)
        self.assertNotIn("CREATE", out)
        self.assertEqual(status, 4)
        return err.replace(self.room, "DIR")

    def test_types(self):
        head = "id,whole,past,real,day,text,none,point,areas,mixed\n"
        rows = [
            '1,-5,9223372036854775808,1.5,2026-01-31,x,,POINT(1 2),"POLYGON((0 0,1 0,1 1,0 0))",POINT EMPTY',
            "2,,1,2,2026-01-31T07:05:03,7,,point ( 3 4 ),polygon empty,\"linestring(0 0,1 1)\"",
        ]
        self.assertEqual(self.columns(head + "\n".join(rows) + "\n"), {
            "id": "INTEGER PRIMARY KEY", "whole": "INTEGER", "past": "TEXT NOT NULL", "real": "TEXT NOT NULL", "day": "TEXT NOT NULL",
            "text": "TEXT NOT NULL", "none": "TEXT", "point": "POINT NOT NULL", "areas": "POLYGON NOT NULL", "mixed": "GEOMETRY NOT NULL",
        })
        out = proposed(self.room)[0]
        for it in (
            "-- 2 whole numbers, none empty, none twice", "-- 1 whole number, 1 empty", "-- 2 numbers, none empty, not all whole ones of 64 bits: ",
            "-- 2 dates, none empty", "-- every field is empty: the type is open", "-- 2 texts of LINESTRING and POINT, none empty",
        ):
            self.assertIn(it, out)

    def test_keys(self):
        for text, key in (
            ("a,id\n1,1\n2,2\n", "id"), ("a,b\n1,2\n1,3\n", "b"), ("a,t_id\n1,5\n2,6\n", "t_id"), ("a,b\n,2\n1,3\n", "b"), ("a,id\n1,1\n2,1\n", "a"),
            ("a,b\n01,x\n1,y\n", None), ("a\nx\n", None), ("a,id\n", "id"), ("a,b\n1,1\n2,9223372036854775808\n", "a"),
        ):
            if key:
                self.assertEqual([it for it, more in self.columns(text).items() if "KEY" in more], [key], text)
            else:
                self.assertIn("sfq-schema: DIR/t.csv: no column has a whole number of its own in each record", self.refused(text))

    def test_zeros_in_front_are_said(self):
        self.columns("id,code,size\n1,01067,0\n2,7,-5\n3,-007,10\n")
        out = proposed(self.room)[0]
        self.assertIn("-- 3 whole numbers, none empty, 2 with a 0 in front, which TEXT keeps\n", out)
        self.assertEqual(out.count("in front"), 1)

    def test_coordinates_that_are_not_whole_are_said(self):
        self.columns('id,geom\n1,POINT(1.5 2)\n')
        self.assertIn("a coordinate isn't whole, so sfq-import has to bring them to a grid", proposed(self.room)[0])

    def test_what_sfq_refuses_with_any_schema(self):
        self.assertEqual(self.refused("id,a\n1,2\n3\n"), "sfq-schema: DIR/t.csv record 2 has 1 field, the header 2: the table is left out\n")
        self.assertEqual(self.refused(""), "sfq-schema: DIR/t.csv is empty: its first line names the columns: the table is left out\n")
        self.assertIn("column 'id;a' is left out: it isn't a name that sfq takes: is ';' the separator? sfq takes commas\n", self.refused("id;a\n1;2\n"))
        with open(f"{self.room}/t.csv", "wb") as file:
            file.write(b"id,name\n1,M\xfchle\n")
        self.assertIn("t.csv record 1: column name isn't UTF-8: the table is left out\n", proposed(self.room)[1])

    def test_names(self):
        write(f"{self.room}/t.csv", "\ufeffid,no.,select,a,A,größe\n1,2,3,4,5,6\n")
        write(f"{self.room}/2.csv", "id\n1\n")
        out, err, status = proposed(self.room)
        self.assertEqual((re.findall(r"^  (\w+)", out, re.M), status), (["id"], 4))
        for it in ("'no.'", "'select'", "column a is left out: the header has it more than once", "'größe'", "2.csv is left out: '2' isn't a name"):
            self.assertIn(it, err)

    def test_limits(self):
        self.assertEqual(len(self.columns("id," + ",".join(f"c{it}" for it in range(31)) + "\n" + ",".join("1" * 32) + "\n")), 32)
        write(f"{self.room}/t.csv", ",".join(f"c{it}" for it in range(40)) + ",geom,id\n" + "x," * 40 + "POINT(1 1),1\n")
        out, err, _ = proposed(self.room)
        found = re.findall(r"^  (\w+)", out, re.M)
        self.assertEqual((len(found), found[-2:]), (32, ["geom", "id"]))
        self.assertIn("the schema has 32 of 42 columns: sfq takes no more", err)
        for it in range(17):
            write(f"{self.room}/t{it}.csv", "id\n1\n")
        out, err, status = proposed(self.room)
        self.assertEqual((out.count("CREATE TABLE"), err.count("sfq takes 16 tables: this one is left out"), status), (16, 2, 4))

    def test_folders_that_are_none(self):
        self.assertEqual(proposed(self.room)[1:], (f"sfq-schema: {self.room} has no file t.csv of a table t\n", 4))
        self.assertEqual(proposed(f"{self.room}/none")[2], 6)


class Loads(unittest.TestCase):
    """Proposals for the tables of examples/, by the program."""

    ASKS_PROGRAM = True

    def test_proposals_load(self):
        folder = f"{ROOT}/examples/parcels"
        with tempfile.TemporaryDirectory(prefix="sfq-schema-") as room:
            out, err, status = proposed(folder)
            self.assertEqual((err, status), ("", 0))
            write(f"{room}/schema.sql", out)
            found, own = answers.ask([["check", f"{room}/schema.sql", folder], ["check", f"{folder}/schema.sql", folder]])
        self.assertEqual((found.err, found.status), (b"", 0))
        self.assertEqual(sorted(found.out.splitlines()), sorted(own.out.splitlines()))
        # The types are those that the example has itself.
        written = read(f"{folder}/schema.sql")
        for it, more in re.findall(r"^  (\w+) +([A-Z ]*[A-Z])", out, re.M):
            self.assertRegex(written, rf"(?m)^  {it} +{more}\b")


if __name__ == "__main__":
    unittest.main()
