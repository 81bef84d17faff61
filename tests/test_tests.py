"""./test and .ci/run, with a stand-in for `rt`: what is run, in which order, what is said meanwhile, and the closing line."""
import glob
import os
import re
import shutil
import signal
import subprocess
import time
import unittest
from unittest import mock

from support import BUILDS, ROOT, WithCheckout, read, write

import front_door
import parts
import testing

# A crate's tests pass, `rt ci` leaves a program, edits whose name has `kept` aren't refused.
BEHAVES = """
if words[0] == "version":
    finish("rattle-kit-99 logic 0123abcd\\n", "", 0)
if words == ["try", "--test"]:
    finish("test a::one ... ok\\ntest a::two ... ok\\n", "run=ended status=0 runners=1 proved=no\\n", 0)
if words == ["try", "--", "--version"]:
    BUILDS_PROGRAM
if words[0] == "try":
    text = open(data["rows.txt"]).read()
    finish(text, "checked: ended status=0\\nrun=ended status=0 runners=1 proved=no\\n", 0)
if words == ["ci"]:
    os.makedirs("crates/sfq/out", exist_ok=True)
    with open("crates/sfq/out/sfq", "w") as program:
        program.write("#!/bin/sh\\n")
    os.chmod("crates/sfq/out/sfq", 0o755)
    bad = os.path.exists("crates/low/bad")
    finish("rt: proving\\n" + ("7 passed, 2 failed\\n" if bad else "9 passed, 0 failed\\n"), "", 1 if bad else 0)
if words[0] == "must-fail":
    lines = []
    for it in sorted(os.listdir("crates/" + words[1] + "/must-fail")):
        said = "NOT REFUSED: the crate is still proved" if "kept" in it else "refused, as it must be: x"
        lines.append("rt: must-fail " + words[1] + "/" + it + ": " + said)
    finish("\\n".join(lines) + "\\n", "", 1)
""".replace("BUILDS_PROGRAM", BUILDS.replace("\n", "; "))
# A stand-in for the program that is built without proof.
ANSWERS = """#!/bin/sh
case $1 in
--version) echo "sfq 9" ;;
relate) echo 0FFFFFFF2 ;;
*) echo 103 ;;
esac
"""
# A README with two commands, and what the first prints.
README = """# A title

```sh
./sfq run a b "SELECT 1"
```

prints

```text
103
```

```sh
./test
```
"""
SMALL = """
import os, unittest
class Quick(unittest.TestCase):
    def test_one(self):
        self.assertTrue({passes})
    def test_two(self):
        for it in (1, 2):
            with self.subTest(it=it):
                self.assertEqual(it, it)
    @unittest.skip("needs the package nothing")
    def test_three(self):
        pass
class Asks(unittest.TestCase):
    ASKS_PROGRAM = True
    def test_four(self):
        if not os.path.isfile("crates/sfq/out/sfq"):
            self.skipTest("needs ./build")
class Calls(unittest.TestCase):
    ASKS_LIBRARY = True
    def test_seven(self):
        pass
class AsksAndCalls(unittest.TestCase):
    ASKS_PROGRAM, ASKS_LIBRARY = True, True
    def test_eight(self):
        pass
class Long(unittest.TestCase):
    IS_LONG = True
    def test_five(self):
        pass
class LongInTheGate(unittest.TestCase):
    IS_LONG, IN_GATE = True, True
    def test_six(self):
        pass
"""


class RunsTests(WithCheckout):
    def setUp(self):
        super().setUp()
        root = self.checkout.root
        self.checkout.behave(BEHAVES)
        write(f"{self.checkout.room}/bin/program", ANSWERS, 0o755)
        shutil.copy(f"{ROOT}/test", f"{root}/test")
        os.mkdir(f"{root}/.ci")
        shutil.copy(f"{ROOT}/.ci/run", f"{root}/.ci/run")
        shutil.copy(f"{ROOT}/.gitignore", f"{root}/.gitignore")
        write(f"{root}/README.md", README)
        write(f"{root}/tests/packages.txt", "# none\n")
        write(f"{root}/tests/test_small.py", SMALL.replace("{passes}", "True"))
        write(f"{root}/lint", "#!/bin/sh\nexit 0\n", 0o755)
        write(f"{root}/crates/low/src/lib.rt", "//! low\n#[test]\nfn one() {}\n")
        write(f"{root}/crates/scripts/src/main.rt", "//! scripts\n")
        write(f"{root}/crates/scripts/data/rows.txt", "0 differ\n")
        write(f"{root}/crates/scripts/args", "rows.txt\n")
        write(f"{root}/crates/scripts/stdout", "0 differ\n")
        with open(f"{root}/crates.txt", "a", encoding="utf-8") as file:
            file.write("scripts: low\n")

    def commit(self):
        """Makes the checkout a git repository, and commits all that is there."""
        who = ["-c", "user.name=a", "-c", "user.email=b"]
        for words in (["init", "-q"], ["add", "-A"], [*who, "commit", "-q", "-m", "all"]):
            subprocess.run(["git", *words], cwd=self.checkout.root, check=True)

    def run_tests(self, *words, name="test"):
        ran = self.checkout.run([name, *words])
        lines = ran.stdout.decode().splitlines()
        return ran.returncode, lines[-1], lines

    def verbs(self):
        return [words[0] for _, words in self.checkout.calls()]

    def has(self, lines, pattern):
        self.assertTrue(any(re.search(pattern, it) for it in lines), (pattern, lines))


class WithoutProof(RunsTests):
    def test_all_parts(self):
        status, last, lines = self.run_tests()
        # ./lint, two tests of `low`, the program, `scripts`, four tests of the file; one skipped for its package, one for ./build
        self.assertEqual((status, last), (0, "9 passed, 0 failed, 2 skipped"), lines)
        self.has(lines, r"^\[\d of 5, .*\] skipped: test_small, 1 test: needs \./build$")
        self.has(lines, r"^\[\d of 5, .*\] skipped: test_small, 1 test: needs the package nothing$")
        self.assertNotIn("ci", self.verbs())

    def test_named_parts(self):
        self.assertEqual(self.run_tests("scripts")[:2], (0, "1 passed, 0 failed, 0 skipped"))
        self.assertEqual(self.run_tests("lint", "low")[:2], (0, "3 passed, 0 failed, 0 skipped"))
        self.assertEqual(self.run_tests("--long", "test_small")[:2], (0, "6 passed, 0 failed, 2 skipped"))
        ran = self.checkout.run(["test", "nothing"])
        self.assertEqual(ran.returncode, 2)
        self.assertIn(b"no part nothing: the parts are low, program, scripts, lint, test_small", ran.stderr)

    def test_long(self):
        self.assertEqual(self.run_tests("--long")[:2], (0, "11 passed, 0 failed, 2 skipped"))

    def test_what_fails_is_reported_where_it_fails_and_at_the_end(self):
        failing = SMALL.replace("{passes}", "False").replace("assertEqual(it, it)", "assertEqual(it, 0)")
        write(f"{self.checkout.root}/tests/test_small.py", failing)
        status, last, lines = self.run_tests()
        self.assertEqual((status, last), (1, "7 passed, 2 failed, 2 skipped"), lines)
        for it in ("test_one", "test_two"):
            self.assertEqual(lines.count(f"FAILED: test_small.Quick.{it}"), 2)
        self.assertEqual(lines.count("AssertionError: False is not true"), 2)
        self.assertEqual(lines.count("alone: ./test test_small"), 2)
        self.assertIn("failed: test_small.Quick.test_one, test_small.Quick.test_two", lines)

    def test_a_script_that_differs_and_a_failing_lint(self):
        root = self.checkout.root
        write(f"{root}/crates/scripts/data/rows.txt", "1 differ\n")
        write(f"{root}/lint", "#!/bin/sh\necho a finding\nexit 1\n", 0o755)
        status, last, lines = self.run_tests()
        self.assertEqual((status, last), (1, "7 passed, 2 failed, 2 skipped"), lines)
        self.assertIn("a finding", lines)
        self.assertIn("alone: ./test lint", lines)

    def test_a_test_file_that_cannot_be_read_and_one_that_ends_early(self):
        write(f"{self.checkout.root}/tests/test_other.py", "import nothing_of_this_name\n")
        write(f"{self.checkout.root}/tests/test_over.py", SMALL.replace("self.assertTrue({passes})", "os._exit(3)"))
        status, last, lines = self.run_tests()
        self.assertEqual((status, last), (1, "11 passed, 2 failed, 3 skipped"), lines)
        self.assertIn("The tests of this file ended with status 3.", lines)

    def test_a_test_file_that_waits_for_ever_is_ended_and_says_where(self):
        root = self.checkout.root
        write(f"{root}/tools/testing.py", read(f"{root}/tools/testing.py").replace("MOST_SECONDS = 2_700.0", "MOST_SECONDS = 3.0"))
        write(f"{root}/tests/test_small.py", SMALL.replace("self.assertTrue({passes})", "import subprocess; subprocess.run(['sleep', '1000'])"))
        status, last, lines = self.run_tests("test_small")
        self.assertEqual((status, last), (1, "2 passed, 1 failed, 1 skipped"), lines)
        self.assertIn("It was ended after 3 s.", lines)
        self.has(lines, r'test_small.py", line \d+, in test_one')

    def test_tests_run_on_the_main_thread(self):
        """A handler of a signal can be set on no other."""
        write(
            f"{self.checkout.root}/tests/test_small.py",
            SMALL.replace("self.assertTrue({passes})", "import signal; signal.signal(signal.SIGUSR1, signal.SIG_IGN)"),
        )
        self.assertEqual(self.run_tests("test_small")[:2], (0, "4 passed, 0 failed, 2 skipped"))

    def test_the_first_line_comes_at_once_and_others_every_20_seconds(self):
        root = self.checkout.root
        write(f"{root}/tools/parts.py", read(f"{root}/tools/parts.py").replace("PACE = 20.0", "PACE = 0.5"))
        write(f"{root}/tests/test_small.py", SMALL.replace("self.assertTrue({passes})", "import time; time.sleep(3)"))
        begun = time.monotonic()
        with subprocess.Popen([f"{root}/test", "test_small"], cwd=root, stdout=subprocess.PIPE, text=True) as child:
            first, took = child.stdout.readline(), time.monotonic() - begun
            lines = child.stdout.read().splitlines()
        self.assertTrue(first.startswith("sfq: tests without proof"))
        self.assertLess(took, 5)
        self.has(lines, r"^\[0 of 1, \d s\] running: test_small \(\d s\)$")

    def test_interrupted(self):
        root = self.checkout.root
        write(f"{root}/tests/test_small.py", SMALL.replace("self.assertTrue({passes})", "open('pid', 'w').write(str(os.getpid())); import time; time.sleep(60)"))
        with subprocess.Popen([f"{root}/test", "test_small"], cwd=root, stdout=subprocess.PIPE, stderr=subprocess.PIPE) as child:
            for _ in range(400):
                if os.path.isfile(f"{root}/pid") and read(f"{root}/pid"):
                    break
                time.sleep(0.05)
            child.send_signal(signal.SIGINT)
            _, err = child.communicate(timeout=30)
        self.assertEqual((child.returncode, err), (130, b"\nsfq: the tests were interrupted\n"))
        with self.assertRaises(ProcessLookupError):
            os.kill(int(read(f"{root}/pid")), 0)

    def test_misuse(self):
        for words in (["--nothing"], ["x"]):
            self.assertEqual(self.checkout.run(["test", *words]).returncode, 2)


class Gate(RunsTests):
    """./test --all, and .ci/run, which calls it."""

    def test_of_what_is_committed(self):
        self.commit()
        for name, words in (("test", ["--all"]), (".ci/run", [])):
            shutil.rmtree(f"{self.checkout.root}/crates/sfq/out", ignore_errors=True)
            before = len(self.verbs())
            status, last, lines = self.run_tests(*words, name=name)
            # In the clone the first command, and nine tests. Then the nine of rt ci, one test that asks the program, one that calls
            # the library, one that does both, one long one of the gate. One is skipped for its package.
            self.assertEqual((status, last), (0, "23 passed, 0 failed, 1 skipped"), lines)
            self.assertEqual(self.verbs()[before:].count("ci"), 1)
            self.assertLess(lines.index("clone: 9 passed, 0 failed, 2 skipped"), lines.index("rt: proving"))
            self.assertEqual(self.checkout.run(["sfq"]).returncode, 0)

    def test_what_ran_in_the_clone_is_not_run_again(self):
        self.commit()
        _, _, lines = self.run_tests("--all")
        after = lines[lines.index("rt: proving") :]
        self.has(after, r"ok: test_small, 4 passed")
        self.assertFalse([it for it in after if "lint" in it], after)

    def test_with_uncommitted_changes_the_quick_tests_run_here_too(self):
        self.commit()
        write(f"{self.checkout.root}/more.txt", "x\n")
        status, last, lines = self.run_tests("--all")
        self.assertEqual((status, last), (0, "26 passed, 0 failed, 2 skipped"), lines)

    def test_without_a_repository(self):
        status, last, lines = self.run_tests("--all")
        self.assertEqual((status, last), (0, "16 passed, 0 failed, 2 skipped"), lines)
        self.has(lines, r"^skipped: README's two commands in a fresh clone, 1 test: needs git, and a git repository to clone$")

    def test_a_failure_in_the_clone_alone(self):
        """A test that passes only where something was built or left uncommitted fails the gate."""
        write(f"{self.checkout.root}/tests/test_small.py", SMALL.replace("{passes}", "os.path.isfile('out/left')"))
        write(f"{self.checkout.root}/out/left", "")
        self.commit()
        status, _, lines = self.run_tests("--all")
        self.assertEqual(status, 1)
        self.assertEqual(lines.count("FAILED: README's command ./test"), 2, lines)
        self.assertIn("alone: ./test --door", lines)

    def test_a_readme_whose_command_or_output_was_changed(self):
        for old, new in (("103\n", "104\n"), ("./sfq run", "./sfq relate"), ("./sfq run", "./nothing"), ("./test\n", "./test --nothing\n"), ("prints", "## prints")):
            write(f"{self.checkout.root}/README.md", README.replace(old, new))
            shutil.rmtree(f"{self.checkout.root}/.git", ignore_errors=True)
            self.commit()
            status, _, lines = self.run_tests("--door")
            self.assertEqual(status, 1, (new, lines))

    def test_a_gate_that_fails(self):
        write(f"{self.checkout.root}/crates/low/bad", "")
        self.commit()
        status, last, lines = self.run_tests(name=".ci/run")
        self.assertEqual((status, last), (1, "21 passed, 2 failed, 1 skipped"), lines)


class OneUserOfTheDoor(unittest.TestCase):
    """How README's commands are read and run."""

    def test_the_commands_of_the_real_readme(self):
        first, second = front_door.commands(read(f"{ROOT}/README.md"))
        self.assertTrue(first.text.startswith("./sfq run ") and first.prints, first)
        self.assertEqual((second.text, second.prints), ("./test", ""))

    def test_the_environment_is_bare(self):
        with mock.patch.dict(os.environ, {"SFQ_QUIET": "1", "PYTHONPATH": "/x"}):
            self.assertEqual(sorted(front_door.bare_environment("/nowhere")), ["HOME", "LANG", "PATH"])

    def test_the_failures_come_through(self):
        """Of a failed ./test the gate prints the failures, which would else be lost among some hundred lines."""
        out = "[1 of 2, 0 s] FAILED: test_x, 1 failed (0 s)\n[2 of 2, 1 s] ok: test_y, 3 passed (1 s)\n"
        repeated = "\nFAILED: test_x.X.test_a\n2 != 3\nalone: ./test test_x\n\n"
        closing = "failed: test_x.X.test_a\nneeds ./build: 8 tests skipped\n3 passed, 1 failed, 8 skipped\n"
        self.assertEqual(front_door.failures(out + repeated + closing), repeated)
        self.assertEqual(front_door.failures(out + "Killed\n"), "")

    def test_skips_that_a_build_ends_are_left_to_the_gate(self):
        count = lambda line: len(front_door.skips(line))
        self.assertEqual(count("[3 of 9, 1 min 2 s] skipped: test_x, 3 tests: needs the package qgis"), 3)
        self.assertEqual(count("[3 of 9, 2 s] skipped: test_x, 1 test: needs ./build --library"), 0)
        self.assertEqual(count("[3 of 9, 2 s] skipped: test_x, 1 test: needs rt test in crates/fault_tests, or rt ci"), 0)
        self.assertEqual(count("needs the package qgis: 3 tests skipped"), 0)


class Waits(unittest.TestCase):
    """What a file of tests waits for: also what a class asks for that it takes from another file."""

    def test_files_that_call_the_libraries(self):
        waits = {it.name: it.after for it in testing.file_parts("after", testing.PROGRAM, testing.LIBRARIES)}
        for name in ("test_library", "test_python", "test_rims", "test_sqlite", "test_web"):
            self.assertIn(testing.LIBRARIES, waits[name], name)
        self.assertEqual(waits["test_pairs"], (testing.PROGRAM,))
        self.assertEqual(waits["test_common_facts"], ())
        self.assertNotIn("support", waits)


class Boards(unittest.TestCase):
    """Parts that wait for others."""

    def test_order(self):
        order = []
        lines = [parts.Part(name, lambda name=name: order.append(name) or parts.Report(1), after) for name, after in (("b", ("a",)), ("c", ("none",)), ("a", ()))]
        counts = parts.Counts()
        with mock.patch("builtins.print"):
            parts.side_by_side(counts, lines, 1)
        self.assertEqual((order, counts.passed), (["c", "a", "b"], 3))


class Edits(RunsTests):
    def test_edits(self):
        root = self.checkout.root
        for it in ("turns", "kept"):
            write(f"{root}/crates/middle/edits/{it}.edit", "file: src/lib.rt\nold: a\nnew: b\n")
        status, last, lines = self.run_tests("--edits", "middle", "low")
        self.assertEqual((status, last), (1, "1 passed, 1 failed, 1 skipped"), lines)
        self.assertIn("failed: edit middle/kept.edit", lines)
        folder = next(folder for folder, words in self.checkout.calls() if words[0] == "must-fail")
        self.assertFalse(folder.startswith(root))
        self.assertFalse(os.path.exists(f"{root}/crates/middle/must-fail"))


class Packages(unittest.TestCase):
    # What every machine with a clone has, and the name in a test that is made here.
    OTHERS = {"bash", "git", "nothing"}

    def test_the_gate_installs_those_that_tests_want(self):
        listed = {it for it in read(f"{ROOT}/tests/packages.txt").split() if re.fullmatch(r"[a-z0-9.+-]+", it)}
        wanted = set()
        for path in glob.glob(f"{ROOT}/tests/*.py"):
            text = read(path)
            wanted |= set(re.findall(r'needs\("([a-z0-9.+-]+)", "', text))
            for names in re.findall(r'needs the packages? ([a-z0-9.+, -]+)"', text):
                wanted |= set(re.split(", | and | or ", names))
        self.assertGreater(len(wanted), 30)
        self.assertEqual(sorted(wanted - listed - self.OTHERS), [])


if __name__ == "__main__":
    unittest.main()
