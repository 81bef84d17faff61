"""./sfq: how it builds, keeps and runs a program that isn't proved, and when it runs the proved one."""
import os
import signal
import subprocess
import time
import unittest

from support import BUILDS, PROGRAM, WithCheckout, read, write

NOTICE = b"sfq: not the proved program, which ./build makes\n"
BUILDING = b"sfq: building the program without proof, once, which takes one to two minutes; ./build makes the proved one\n"


class Unproved(WithCheckout):
    """Calls where ./build hasn't made the program."""

    def setUp(self):
        super().setUp()
        self.checkout.behave(BUILDS)
        self.kept = f"{self.checkout.root}/out/unproved"

    def call(self, *words, **how):
        return self.checkout.run(["sfq", *(words or ("a", "b"))], **how)

    def builds(self):
        """Returns how many times the program was built so far."""
        return sum(words[0] == "try" for _, words in self.checkout.calls())

    def hasten(self, seconds=0.3):
        """Has a line come more often than each ten seconds."""
        path = f"{self.checkout.root}/tools/unproved.py"
        write(path, read(path).replace("PACE = 10.0", f"PACE = {seconds}"))

    def test_the_first_call_builds_and_the_next_ones_run_what_is_kept(self):
        for building in (BUILDING, b"", b""):
            ran = self.call("a", "b c", "", given=b"given")
            self.assertEqual((ran.stdout, ran.returncode), (b"a|b c||given", 5))
            self.assertEqual(ran.stderr, building + NOTICE + b"an error\n")
        self.assertEqual(self.builds(), 1)
        self.assertEqual(sorted(os.listdir(self.kept)), ["sfq", "stamp"])

    def test_words_pass_through(self):
        words = ["relate", "", "a  b", "it's", 'a "b"', "--", "-x", "two\nlines", "ä"]
        for _ in range(2):
            self.assertEqual(self.call(*words).stdout.decode(), "".join(f"{it}|" for it in words))

    def test_paths_count_from_where_the_user_is(self):
        write(f"{self.checkout.room}/bin/program", "#!/bin/sh\n[ $1 != --version ] || echo sfq 9\n[ $1 = --version ] || pwd\n")
        for _ in range(2):
            self.assertEqual(self.call(folder=self.checkout.room).stdout.decode(), f"{self.checkout.room}\n")

    def test_quiet(self):
        os.environ["SFQ_QUIET"] = "1"
        self.addCleanup(os.environ.pop, "SFQ_QUIET")
        for _ in range(2):
            self.assertEqual(self.call().stderr, b"an error\n")

    def test_the_version_says_that_it_is_not_the_proved_program(self):
        write(f"{self.checkout.root}/crates/command_line/src/command_words.rt", 'pub const VERSION: &str = "9";\n')
        wanted = self.call("--version")
        self.assertEqual((wanted.stderr, wanted.returncode, self.builds()), (NOTICE, 0, 0))
        self.assertEqual(wanted.stdout, b"sfq 9\n")
        self.call()
        os.environ["SFQ_QUIET"] = "1"
        self.addCleanup(os.environ.pop, "SFQ_QUIET")
        for word in ("--version", "-V"):
            self.assertEqual(self.call(word).stderr.partition(b"\n")[0] + b"\n", NOTICE)

    def test_changed_sources_are_built_anew_and_touched_ones_are_not(self):
        source = f"{self.checkout.root}/crates/low/src/lib.rt"
        self.call()
        os.utime(source, (1, 1))
        self.call()
        self.assertEqual(self.builds(), 1)
        write(source, "//! new\n")
        self.assertIn(BUILDING, self.call().stderr)
        self.assertEqual(self.builds(), 2)

    def test_another_program_in_its_place_is_not_run(self):
        self.call()
        write(f"{self.kept}/sfq", PROGRAM + "#\n", 0o755)
        self.call()
        self.assertEqual(self.builds(), 2)

    def test_a_line_for_each_ten_seconds(self):
        self.hasten()
        self.checkout.behave(f"import time\ntime.sleep(1.5)\n{BUILDS}")
        lines = self.call().stderr.decode().splitlines()
        self.assertEqual((lines[0] + "\n").encode(), BUILDING)
        self.assertGreaterEqual(len(lines), 5)
        for it in lines[1:-2]:
            self.assertRegex(it, r"\Asfq: building, \d+ s so far\Z")

    def test_of_two_first_calls_one_builds_and_the_other_waits(self):
        self.hasten()
        self.checkout.behave(f"import time\ntime.sleep(2)\n{BUILDS}")
        environment = {**os.environ, "PATH": f"{self.checkout.room}/bin:{os.environ['PATH']}"}
        pipe = subprocess.PIPE
        how = {"env": environment, "stdin": subprocess.DEVNULL, "stdout": pipe, "stderr": pipe}
        calls = [subprocess.Popen([f"{self.checkout.root}/sfq", "a"], **how) for _ in range(2)]
        ended = [it.communicate(timeout=60) for it in calls]
        self.assertEqual([out for out, _ in ended], [b"a|", b"a|"])
        self.assertEqual(self.builds(), 1)
        self.assertEqual(sum(BUILDING in err for _, err in ended), 1)
        self.assertEqual(sum(b"sfq: another call is building the program, " in err for _, err in ended), 1)

    def test_an_interrupted_build_leaves_nothing_and_ends_rt(self):
        for number in (signal.SIGINT, signal.SIGTERM, signal.SIGHUP):
            path = f"{self.checkout.room}/bin/pid"
            self.checkout.behave(f"import time\nlink()\nopen({path!r}, 'w').write(str(os.getpid()))\ntime.sleep(60)")
            environment = {**os.environ, "PATH": f"{self.checkout.room}/bin:{os.environ['PATH']}"}
            start = lambda: signal.signal(signal.SIGINT, signal.default_int_handler)
            with subprocess.Popen(
                [f"{self.checkout.root}/sfq", "a"], env=environment, stderr=subprocess.DEVNULL, preexec_fn=start
            ) as child:
                for _ in range(400):
                    if os.path.isfile(path) and read(path):
                        break
                    time.sleep(0.05)
                child.send_signal(number)
                self.assertEqual(child.wait(timeout=20), 128 + number)
            builder = int(read(path))
            # On a busy machine it takes a moment until the process that adopted it takes its end.
            for _ in range(400):
                if not os.path.isdir(f"/proc/{builder}"):
                    break
                time.sleep(0.05)
            with self.assertRaises(ProcessLookupError):
                os.kill(builder, 0)
            os.remove(path)
            self.assertEqual(os.listdir(self.kept), [])

    def test_what_a_killed_build_left_is_removed(self):
        write(f"{self.kept}/new-x/program/sfq", "")
        self.call()
        self.assertEqual(sorted(os.listdir(self.kept)), ["sfq", "stamp"])

    def test_where_nothing_can_be_kept_each_call_builds(self):
        write(f"{self.checkout.root}/out", "")
        for count in (1, 2):
            ran = self.call("a", given=b"given")
            self.assertEqual((ran.stdout, ran.returncode, self.builds()), (b"a|given", 5, count))
            self.assertIn(b"sfq: this checkout can't be written, so each call builds the program anew\n", ran.stderr)

    def test_a_source_that_is_edited_during_the_build(self):
        source = f"{self.checkout.root}/crates/low/src/lib.rt"
        self.checkout.behave(f"open({source!r}, 'a').write('//! more\\n')\n{BUILDS}")
        ran = self.call()
        self.assertEqual((ran.stdout, ran.returncode, os.listdir(self.kept)), (b"", 1, []))
        self.assertIn(b"sfq: a source was edited during the build; repeat the call\n", ran.stderr)

    def test_a_build_that_fails(self):
        for last in ("run=fault runners=1 proved=no", "run=none proved=no", ""):
            self.checkout.behave(f"finish('', 'error: a reason\\n{last}\\n', 2)")
            ran = self.call()
            self.assertEqual((ran.stdout, ran.returncode, os.listdir(self.kept)), (b"", 1, []))
            self.assertIn(b"error: a reason\n", ran.stderr)
            self.assertTrue(ran.stderr.endswith(b"\nsfq: the program couldn't be built, as the lines above say\n"))

    def test_a_kit_that_leaves_no_program(self):
        self.checkout.behave(BUILDS.replace("link()", ""))
        ran = self.call()
        self.assertEqual(ran.returncode, 1)
        self.assertTrue(ran.stderr.endswith(b"sfq: this kit's rt builds a program without leaving it; ./build makes the proved one\n"))

    def test_a_program_that_does_not_run_here(self):
        write(f"{self.checkout.room}/bin/program", "#!/bin/sh\necho no >&2\nexit 127\n", 0o755)
        ran = self.call()
        self.assertEqual((ran.returncode, os.listdir(self.kept)), (1, []))
        self.assertTrue(ran.stderr.endswith(b"no\nsfq: the program that was built doesn't run on this machine\n"))

    def test_without_rt(self):
        os.remove(f"{self.checkout.room}/bin/rt")
        for name in ("sh", "dirname", "readlink", "python3"):
            path = subprocess.run(["sh", "-c", f"command -v {name}"], capture_output=True, text=True).stdout.strip()
            if name == "python3":
                path = os.path.realpath(os.sys.executable)
            os.symlink(path, f"{self.checkout.room}/bin/{name}")
        ran = self.call(path=f"{self.checkout.room}/bin")
        self.assertEqual((ran.stdout, ran.returncode), (b"", 1))
        self.assertRegex(ran.stderr.decode(), r"\Asfq: the Rattle kit's command rt isn't found: put the kit's folder bin on your path; README.md says which kit\n\Z")

    def test_closed_and_full_streams(self):
        self.call()
        with open("/dev/full", "wb") as full:
            self.assertEqual(self.call(stderr=full).stdout, b"a|b|")
        closed = subprocess.run(["sh", "-c", f"'{self.checkout.root}/sfq' a 2>&-"], input=b"", stdout=subprocess.PIPE)
        self.assertEqual(closed.stdout, b"a|")


class RunsTheProgram(WithCheckout):
    """Calls once the program is built."""

    def setUp(self):
        super().setUp()
        write(f"{self.checkout.root}/crates/sfq/out/sfq", PROGRAM, 0o755)
        self.tool("stamp", self.tool("sum"))

    def tool(self, *words):
        ran = subprocess.run(
            ["sh", "tools/current.sh", *words], cwd=self.checkout.root, capture_output=True, text=True, check=True
        )
        return ran.stdout.strip()

    def is_run(self):
        ran = self.checkout.run(["sfq", "a", "b c", ""], given=b"given")
        return (ran.stdout, ran.stderr) == (b"a|b c||given", b"an error\n")

    def test_everything_passes_through(self):
        ran = self.checkout.run(["sfq", "a", "b c", ""], given=b"given")
        self.assertEqual((ran.stdout, ran.stderr, ran.returncode), (b"a|b c||given", b"an error\n", 5))
        self.assertEqual(self.checkout.calls(), [])

    def test_by_a_link_and_from_elsewhere(self):
        os.symlink(f"{self.checkout.root}/sfq", f"{self.checkout.room}/bin/sfq")
        ran = subprocess.run(
            [f"{self.checkout.room}/bin/sfq", "x"], cwd="/", stdin=subprocess.DEVNULL, capture_output=True
        )
        self.assertEqual(ran.stdout, b"x|")

    def test_a_touched_file_changes_nothing_and_an_edited_one_does(self):
        source = f"{self.checkout.root}/crates/low/src/lib.rt"
        self.assertTrue(self.is_run())
        os.utime(source, (1, 1))
        self.assertTrue(self.is_run())
        text, times = read(source), os.stat(source).st_mtime_ns
        write(source, text.replace("low", "new"))
        os.utime(source, ns=(times, times))
        os.utime(f"{self.checkout.root}/crates.txt", (2, 2))
        self.assertFalse(self.is_run())
        write(source, text)
        self.assertTrue(self.is_run())

    def test_an_added_and_a_removed_file(self):
        for name, is_run in (("src/more.rt", False), ("specs/More.antt", False), ("proofs/More.antt", True)):
            source = f"{self.checkout.root}/crates/low/{name}"
            write(source, "x\n")
            self.assertEqual(self.is_run(), is_run, name)
            os.remove(source)
            self.assertTrue(self.is_run())

    def test_another_program_is_not_run(self):
        write(f"{self.checkout.root}/crates/sfq/out/sfq", PROGRAM + "#\n", 0o755)
        self.assertFalse(self.is_run())


if __name__ == "__main__":
    unittest.main()
