"""How much stack the program takes where conditions, schemas and geometries are at their limits."""
import unittest
from concurrent.futures import ThreadPoolExecutor

from support import needs_build

import proving
from faults import deep

# The greatest that was measured, in kilobytes, beside the words of the command line, and some for other processors.
GREATEST = 256


class Stack(unittest.TestCase):
    ASKS_PROGRAM = True

    @needs_build
    def test_twice_the_greatest_that_was_measured_is_enough(self):
        for name, words in (deep.cases() | deep.large_cases()).items():
            with self.subTest(name=name):
                said = deep.run(words, deep.AMPLE)
                self.assertEqual(said[1:], (b"", 0))
                self.assertEqual(deep.run(words, 2 * GREATEST), said)


class Measured(unittest.TestCase):
    ASKS_PROGRAM = True
    IS_LONG = True

    @needs_build
    def test_no_case_takes_more_than_was_measured(self):
        named = deep.cases()
        with ThreadPoolExecutor(proving.processors()) as pool:
            for name, need in zip(named, pool.map(deep.least_stack, named.values())):
                with self.subTest(name=name):
                    self.assertLessEqual(need, GREATEST)


if __name__ == "__main__":
    unittest.main()
