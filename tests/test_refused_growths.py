"""The tests of crates/fault_tests, where growths of memory are refused one after another."""
import os
import subprocess
import tempfile
import unittest

from support import ROOT, needs

from faults import sweeps

# What `rt ci` and `rt test` leave of these tests.
TESTS = f"{ROOT}/crates/fault_tests/out/fault_tests_tests"
# How many growths a sweep refuses, at least. Each is counted by the library, of which the test knows nothing.
SWEEPS = {
    "growth_tests::queries_with_null": 150,
    "growth_tests::equal_empties": 50,
    "growth_tests::points_joined_with_squares": 300,
    "relate_tests::texts_to_a_matrix": 30,
    "schema_tests::schemas_and_their_faults": 25,
}


def names():
    """Returns the names of the tests."""
    lines = subprocess.run([TESTS, "--list"], capture_output=True, text=True, check=True).stdout.splitlines()
    return [it.removesuffix(": test") for it in lines if it.endswith(": test")]


def run(name):
    """Runs a test under the library, and returns what it wrote, its status, and how many growths were refused."""
    with tempfile.TemporaryDirectory(dir=sweeps.room()) as place:
        with open(f"{place}/page", "wb") as page:
            page.truncate(sweeps.PAGE_BYTES)
        environment = {"LD_PRELOAD": sweeps.library(), "FAULT_PAGE": f"{place}/page"}
        how = {"capture_output": True, "text": True, "timeout": sweeps.PATIENCE}
        ran = subprocess.run([TESTS, name], env=environment, stdin=subprocess.DEVNULL, **how)
        return ran.stdout + ran.stderr, ran.returncode, sweeps.read_page(f"{place}/page")[1]


class RefusedGrowths(unittest.TestCase):
    # The tests are built by the gate, so they are run after it.
    ASKS_PROGRAM = True

    @needs("gcc", "cc")
    def test_each_growth_is_refused(self):
        if not os.path.isfile(TESTS):
            self.skipTest("needs rt test in crates/fault_tests, or rt ci")
        found = names()
        self.assertEqual(set(SWEEPS) - set(found), set())
        for name in found:
            with self.subTest(test=name):
                text, status, refused = run(name)
                self.assertEqual(status, 0, text)
                self.assertGreaterEqual(refused, SWEEPS.get(name, 0))


if __name__ == "__main__":
    unittest.main()
