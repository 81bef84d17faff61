"""In Python a folder that isn't there is said to be missing, and not the file that it should have."""
import tempfile
import unittest

import support  # noqa: F401

from sfq import OperationalError
from sfq.tables.sources import Given, read_schema


class OfTables(unittest.TestCase):
    def reason(self, tables):
        """Returns why a table isn't given."""
        with self.assertRaises(OperationalError) as met:
            Given(tables, None, ["t"], [[("id", "INTEGER")]])(0)
        self.assertEqual(met.exception.table, "t")
        return met.exception.reason

    def test_the_folder_of_all_tables(self):
        self.assertEqual(self.reason("/nowhere/survey"), "/nowhere/survey isn't there: it should be a folder")

    def test_the_folder_of_one_table(self):
        self.assertEqual(self.reason({"t": "/nowhere/t.csv"}), "/nowhere isn't there: it should be a folder")

    def test_a_file_that_a_folder_lacks_is_left_to_the_library(self):
        with tempfile.TemporaryDirectory() as room:
            self.assertEqual(Given(room, None, ["t"], [[]])(0), f"{room}/t.csv")
        self.assertEqual(Given({"t": "nothing.csv"}, None, ["t"], [[]])(0), "nothing.csv")


class OfSchemas(unittest.TestCase):
    def test_the_folder_of_the_schema(self):
        with self.assertRaises(OperationalError) as met:
            read_schema("/nowhere/schema.sql")
        self.assertEqual(met.exception.reason, "the schema can't be read: /nowhere isn't there: it should be a folder")


if __name__ == "__main__":
    unittest.main()
