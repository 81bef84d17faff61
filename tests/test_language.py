"""The words of the language are those of the definitions wherever they are listed."""
import unittest

import support

import language
from fuzz import changes, outcomes
from sfq.commands import exports
from sfq.geometry.faults import MEANINGS, Fault


class Words(unittest.TestCase):
    def test_each_list_has_those_of_the_definitions(self):
        for it in language.LISTS:
            with self.subTest(path=it.path, begin=it.begin):
                self.assertIsNone(it.difference())

    def test_a_word_more_or_fewer_is_found(self):
        for it in language.LISTS:
            with self.subTest(path=it.path, begin=it.begin):
                self.assertIn(it.path, it._replace(words=it.words[1:]).difference())
                self.assertIn(it.path, it._replace(words=[*it.words, it.words[0]]).difference())

    def test_the_definitions_are_read(self):
        self.assertEqual(language.SHAPES["MULTIPOINT"], "MultiPoint")
        self.assertEqual(sorted(language.SHAPES.values()), sorted(language.NUMBERED))
        self.assertEqual([f"ST_{it}" for it in language.RELATIONS[: len(language.PREDICATES)]], language.PREDICATES)
        self.assertLess(set(language.PREDICATES), set(language.FUNCTIONS))
        self.assertEqual(language.lower("ContainsProperly"), "contains_properly")
        self.assertEqual((language.FAULTS["W4"], language.FAULTS["V4"], language.FAULTS["L1"]), ("W4", "V4 {} {}", "{table} L1"))


class Faults(unittest.TestCase):
    def test_codes(self):
        self.assertEqual(language.quoted(language.definition("text_commands", "FaultPages", "code_text")), sorted(language.FAULTS, key=place))
        self.assertEqual(language.ranges(language.definition("failures", "Failures", "failure_text")), set(language.FAULTS))
        self.assertEqual(language.ranges(outcomes.LINES[2].pattern.decode()), set(language.FAULTS))

    def test_python_prints_them_as_the_program_does(self):
        self.assertEqual(list(MEANINGS), list(language.GEOMETRY_FAULTS))
        for code in language.GEOMETRY_FAULTS:
            self.assertEqual(Fault(code, 1, 2).place, language.FAULTS[code].format(1, 2))

    def test_the_forms_of_lines_in_the_tests_have_them(self):
        inner = language.FAULTS["V4"].format(0, 1)
        for code, line in language.FAULTS.items():
            text = line.replace("{table}", "t").replace("{fault}", inner).replace("{}", "3")
            text = f"first {text}" if code in language.GEOMETRY_FAULTS else text
            self.assertIsNotNone(outcomes.fault_status(f"sfq: {text}\n".encode()), text)


class Others(unittest.TestCase):
    def test_the_words_that_tests_mix(self):
        self.assertLessEqual({*language.RESERVED, *language.FUNCTIONS, *language.COLUMN_WORDS}, set(changes.SQL))
        self.assertLessEqual(set(language.SHAPES), set(changes.GEOMETRY))

    def test_columns_that_are_exported_as_geometries(self):
        self.assertEqual(exports.GEOMETRIC, {"GEOMETRY", *language.SHAPES})


def place(code):
    """Where a code is in the list of all."""
    return "WVSLQ".index(code[0]), int(code[1:])


if __name__ == "__main__":
    unittest.main()
