"""./build, with a stand-in for `rt`: the order of the checks, going on after a break, installing, packages."""
import glob
import gzip
import hashlib
import os
import pty
import re
import shutil
import signal
import subprocess
import sys
import tarfile
import tempfile
import time
import unittest
import zipfile

from support import LANGUAGES, ROOT, WithCheckout, needs, read, read_terminal, write

import debian
import library
import order
import packages
import repository
import wheels

# The crate of sfq-tiles, for tests that make this program too.
WITH_TILES = {"sfq_tiles": ["middle"]}
# Proves crates, one of them with those below it or all by `rt all verdict`, and leaves a program. What was proved is kept in a file,
# by the texts, as the real `rt` keeps it.
PROVES = """
if words[0] == "version":
    finish("rattle-kit-99 logic 0123abcd\\n", "", 0)
if words[0] == "run":
    os.makedirs("out", exist_ok=True)
    name = os.path.basename(os.getcwd())
    with open("out/" + name, "w") as program:
        program.write("#!/bin/sh\\necho proved\\n# GLIBC_2.17 GLIBC_2." + ("34" if name == "sfq" else "4") + "\\n")
    os.chmod("out/" + name, 0o755)
    finish("", "", 0)
if words[0] not in ("all", "lib", "check"):
    finish("", "", 0)
import time
root = os.getcwd()
while not os.path.isfile(root + "/crates.txt"):
    root = os.path.dirname(root)
crates = {}
for line in open(root + "/crates.txt"):
    name, _, libraries = line.partition(":")
    crates[name] = libraries.split()
def below(name):
    return set().union(*({it} | below(it) for it in crates[name] if it in crates))
def source_of(name):
    return root + "/crates/" + name + "/src/" + ("main.rt" if name.startswith("sfq") else "lib.rt")
def text_of(name):
    return open(source_of(name)).read() + "".join(text_of(it) for it in sorted(below(name)))
def is_refused(name, verb):
    kept = root + "/crates/" + name + "/out/kept"
    if name == os.environ.get("BREAKS"):
        sys.stdout.write("low.rt:1:1: error\\nlogic=not-proved\\n")
        return True
    if verb != "verdict" and os.path.isfile(kept) and open(kept).read() == text_of(name):
        return False
    with open(room + "/checked", "a") as checked:
        checked.write(verb + " " + name + "\\n")
    text = text_of(name)
    if name == os.environ.get("WAITS"):
        time.sleep(60)
    if name == os.environ.get("EDITS"):
        open(source_of(name), "a").write("// edited\\n")
    sys.stdout.write("logic=proved functions=3 sum=0123abcd\\n")
    os.makedirs(os.path.dirname(kept), exist_ok=True)
    open(kept, "w").write(text)
    time.sleep(0.05)
    return False
if words[0] != "all":
    name = os.path.basename(os.getcwd())
    for it in [*sorted(below(name), key=lambda it: len(below(it))), name]:
        if is_refused(it, "check"):
            finish("", "", 1)
    finish("", "", 0)
failed, summary = set(), []
for name in sorted(crates, key=lambda it: (len(below(it)), it)):
    lacking = sorted(failed & below(name))
    if lacking:
        failed.add(name)
        summary.append(name + ": not run, since " + lacking[0] + " failed")
        continue
    sys.stdout.write("== " + name + "\\n")
    if is_refused(name, words[1]):
        failed.add(name)
    summary.append(name + (": failed (1)" if name in failed else ": ok"))
    sys.stdout.flush()
sys.stdout.write("== summary\\n" + "\\n".join(summary) + "\\n")
finish("", "", 1 if failed else 0)
"""


class WithBuild(WithCheckout):
    def setUp(self):
        super().setUp()
        self.checkout.behave(PROVES)

    def build(self, *words, **environment):
        os.environ.update(environment)
        try:
            return self.checkout.run(["build", *words])
        finally:
            for name in environment:
                del os.environ[name]

    def installed(self, prefix):
        """Returns the files below a prefix."""
        return sorted(os.path.relpath(f"{at}/{it}", prefix) for at, _, names in os.walk(prefix) for it in names)


class Builds(WithBuild):
    def checked(self, verb="check"):
        """Returns the crates that were checked, in order."""
        path = f"{self.checkout.room}/bin/checked"
        lines = read(path).split("\n") if os.path.isfile(path) else []
        return [it.partition(" ")[2] for it in lines if it.startswith(f"{verb} ")]

    def test_proves_each_crate_after_those_below_and_links(self):
        ran = self.build("--jobs", "2")
        self.assertEqual(ran.returncode, 0, ran.stderr)
        order = self.checked()
        self.assertEqual(sorted(order), ["command_line", "low", "middle", "sfq"])
        self.assertLess(order.index("low"), order.index("middle"))
        self.assertEqual(order[-1], "sfq")
        text = ran.stdout.decode()
        self.assertIn("kit: rattle-kit-99 logic 0123abcd\n", text)
        self.assertIn("proved: 4 crates, 12 functions, by rattle-kit-99 logic 0123abcd, in ", text)
        total = hashlib.sha256(read(f"{self.checkout.root}/crates/sfq/out/sfq").encode()).hexdigest()
        self.assertTrue(text.endswith(f"built: crates/sfq/out/sfq, SHA-256 {total}\n"))
        self.assertEqual(self.checkout.run(["sfq"]).stdout, b"proved\n")

    def test_says_how_far_it_is(self):
        said = re.findall(r"^(\d) of 4 crates proved; last (\w+)$", self.build("--jobs", "1").stdout.decode(), re.M)
        self.assertEqual([it[0] for it in said], ["1", "2", "3", "4"])
        # The longest chain of crates is begun first, and `sfq` uses all others.
        self.assertEqual([said[0][1], said[3][1]], ["low", "sfq"])

    def test_a_second_build_checks_nothing_and_one_after_an_edit_what_it_concerns(self):
        self.build()
        before = len(self.checkout.calls())
        self.assertEqual(self.build().returncode, 0)
        self.assertEqual([words[0] for _, words in self.checkout.calls()[before:]], ["version"])
        write(f"{self.checkout.root}/crates/middle/src/lib.rt", "//! edited\n")
        self.assertNotEqual(self.checkout.run(["sfq"]).stdout, b"proved\n")
        before = len(self.checked())
        self.assertEqual(self.build().returncode, 0)
        self.assertEqual(self.checked()[before:], ["middle", "sfq"])
        self.assertEqual(self.checkout.run(["sfq"]).stdout, b"proved\n")

    def test_a_kit_of_another_name_and_the_same_logic_proves_nothing_anew(self):
        self.build()
        calls = lambda: [words[0] for _, words in self.checkout.calls()].count("lib")
        before = calls()
        self.checkout.behave(PROVES.replace("kit-99", "kit-100"))
        ran = self.build()
        self.assertIn(b"kit: rattle-kit-100 logic 0123abcd\n", ran.stdout)
        self.assertEqual(calls(), before)
        self.checkout.behave(PROVES.replace("0123abcd", "4567"))
        self.build()
        self.assertGreater(calls(), before)

    def test_a_crate_that_is_not_proved(self):
        ran = self.build(BREAKS="low")
        self.assertEqual(ran.returncode, 1)
        text = ran.stdout.decode()
        self.assertEqual(text.count("NOT PROVED: low"), 1)
        self.assertIn("low.rt:1:1: error", text)
        self.assertIn("not reached: middle", text)
        self.assertIn("not reached: sfq", text)
        self.assertRegex(text, r"1 of 4 crates proved; last command_line")
        self.assertIn(b"sfq: 1 of 4 crates proved", ran.stderr)
        self.assertEqual(self.checked(), ["command_line"])

    def test_broken_off_it_goes_on(self):
        environment = {**os.environ, "PATH": f"{self.checkout.room}/bin:{os.environ['PATH']}", "WAITS": "middle"}
        with subprocess.Popen(
            [f"{self.checkout.root}/build"], env=environment, stdout=subprocess.DEVNULL, stderr=subprocess.PIPE
        ) as child:
            for _ in range(400):
                if "middle" in self.checked():
                    break
                time.sleep(0.05)
            time.sleep(1)
            child.send_signal(signal.SIGTERM)
            self.assertEqual(child.wait(timeout=20), 130)
            self.assertIn(b"interrupted", child.stderr.read())
        before = len(self.checked())
        self.assertEqual(self.build().returncode, 0)
        self.assertEqual(self.checked()[before:], ["middle", "sfq"])

    def test_a_source_that_is_edited_meanwhile(self):
        ran = self.build(EDITS="middle")
        self.assertEqual(ran.returncode, 1)
        self.assertTrue(ran.stderr.decode().startswith("sfq: a source was edited meanwhile: run ./build again\n"))
        self.assertEqual(sorted(self.checked()), ["command_line", "low", "middle"])
        self.assertEqual(self.build().returncode, 0)
        self.assertEqual(self.checked()[3:], ["middle", "sfq"])

    def test_a_terminal_shows_one_line_that_renews_itself(self):
        ours, theirs = pty.openpty()
        self.addCleanup(os.close, ours)
        self.assertEqual(self.checkout.run(["build"], stdout=theirs).returncode, 0)
        os.close(theirs)
        shown = read_terminal(ours)
        self.assertRegex(shown, rb"\r\d of 4 crates proved; now [a-z_, ]+\x1b\[K")
        self.assertNotIn(b": proved low", shown)
        self.assertIn(b"\r\x1b[Kproved: 4 crates, ", shown)

    def test_verify_proves_a_copy_from_nothing(self):
        self.build()
        before = len(self.checkout.calls())
        chain = "# P\n\n## The chain\n\n1. [`low`](../crates/low/src/lib.rt)\n2. crates/low/specs/No.antt\n\n"
        write(f"{self.checkout.root}/docs/PROVED.md", chain + "## More\n\n`crates/middle/src/lib.rt`\n")
        ran = self.build("--verify")
        self.assertEqual(ran.returncode, 0, ran.stderr)
        folders = [folder for folder, words in self.checkout.calls()[before:] if words[0] in ("all", "run")]
        self.assertEqual(sorted(self.checked("verdict")), ["command_line", "low", "middle", "sfq"])
        self.assertFalse(any(it.startswith(self.checkout.root) for it in folders))
        text = ran.stdout.decode()
        total = hashlib.sha256(read(f"{self.checkout.root}/crates/low/src/lib.rt").encode()).hexdigest()
        self.assertIn(f"    {total}  crates/low/src/lib.rt\n", text)
        self.assertNotIn("middle/src", text)
        self.assertIn("its libraries: clap, std\n", text)
        self.assertIn("the program sfq is the same as that of ./build\n", text)
        self.assertFalse(os.path.exists(folders[0]))

    def test_misuse(self):
        for words in (["--install"], ["--nothing"], ["--dist", "a", "b"], ["x"]):
            ran = self.build(*words)
            self.assertEqual((ran.returncode, ran.stdout), (2, b""))
            self.assertIn(b"usage: ./build", ran.stderr)

    def test_install_without_what_is_not_made(self):
        prefix = f"{self.checkout.room}/prefix"
        ran = self.build("--install", prefix)
        self.assertEqual(ran.returncode, 0, ran.stderr)
        self.assertEqual(sorted(os.listdir(f"{prefix}/bin")), ["sfq", "sfq-ask", "sfq-audit", "sfq-export", "sfq-import", "sfq-schema", "sfq-shell"])
        for it in ("sfq-tiles and sfq-scale, which need ./build --tiles", "the C libraries and what is over them, which need ./build --library"):
            self.assertIn(f"not installed: {it}\n", ran.stdout.decode())
        self.assertEqual(self.build("--uninstall", prefix).returncode, 0)
        self.assertEqual(os.listdir(prefix), [])

    def test_tiles_that_are_not_there(self):
        ran = self.build("--tiles")
        self.assertEqual((ran.returncode, ran.stderr), (1, b"sfq: no sfq-tiles: crates.txt has no crate sfq_tiles\n"))
        ran = self.checkout.run(["sfq-tiles", "--version"])
        self.assertEqual((ran.returncode, ran.stdout, ran.stderr), (1, b"", b"sfq: ./build --tiles makes sfq-tiles\n"))
        ran = self.checkout.run(["bindings/python/bin/sfq-scale", "run", "s", "d", "q", "--scheduler", "tcp://127.0.0.1:1", "--sfq", "/bin/true"])
        self.assertEqual((ran.returncode, ran.stdout), (2, b""))
        self.assertRegex(ran.stderr, rb"\Asfq-scale: there is no program sfq-tiles beside sfq-scale or on the path: ./build --tiles makes it .*\n\Z")


class Closures(WithBuild):
    """What ./build proves of a repository that has more than the program is made of."""

    MORE_CRATES = {**WITH_TILES, "rest": ["sfq_tiles_only", "low"], "sfq_tiles_only": [], "tests": ["middle"]}

    def checked(self, verb="check"):
        return sorted(it.partition(" ")[2] for it in read(f"{self.checkout.room}/bin/checked").split("\n") if it.startswith(f"{verb} "))

    def test_only_what_the_program_is_made_of(self):
        text = self.build().stdout.decode()
        self.assertEqual(self.checked(), ["command_line", "low", "middle", "sfq"])
        self.assertIn("proved: 4 crates, 12 functions, ", text)

    def test_only_what_sfq_tiles_is_made_of(self):
        self.build("--tiles")
        self.assertEqual(self.checked(), ["low", "middle", "sfq_tiles"])
        self.build()
        self.assertEqual(self.checked(), ["command_line", "low", "middle", "sfq", "sfq_tiles"])

    def test_an_edit_of_another_crate_proves_nothing_anew(self):
        self.build()
        before = self.checked()
        write(f"{self.checkout.root}/crates/tests/src/lib.rt", "//! edited\n")
        ran = self.build()
        self.assertEqual((ran.returncode, self.checked()), (0, before))
        self.assertIn(b"4 of 4 crates are proved already and haven't changed\n", ran.stdout)

    def test_verify_proves_all(self):
        text = self.build("--verify").stdout.decode()
        self.assertEqual(self.checked("verdict"), sorted([*self.checkout.CRATES, *self.MORE_CRATES]))
        self.assertIn("proved: 8 crates and their tests, 24 functions, ", text)
        self.assertRegex(text, r"1 of 8 crates proved; last ")


# A stand-in for the Python of the kit, as far as tools/shared_rt.py relies on it. It notes what reads, begins and ends.
OF_THE_KIT = """
import fcntl, hashlib, os, time
def note(*words):
    with open(os.path.dirname(os.path.realpath(__file__)) + "/notes", "a") as notes:
        notes.write(" ".join(words) + "\\n")
class Crate:
    def __init__(self, folder):
        self.folder, self.name, self.rlib = folder, os.path.basename(folder), folder + "/out/rlib"
        root, crates = os.path.dirname(os.path.dirname(folder)), {}
        for line in open(root + "/crates.txt"):
            name, _, libraries = line.partition(":")
            crates[name] = libraries.split()
        self.deps = [Crate(root + "/crates/" + it) for it in crates[self.name] if it in crates]
    def below(self):
        found = []
        for dep in self.deps:
            found += [it for it in [*dep.below(), dep] if it.name not in [known.name for known in found]]
        return found
    def stamp(self):
        note("read", self.name)
        files = sorted(os.listdir(self.folder + "/src"))
        texts = [open(self.folder + "/src/" + it).read() for it in files]
        return hashlib.sha256(repr([texts, [it.stamp() for it in self.deps]]).encode()).hexdigest()
    def is_built(self):
        return os.path.isfile(self.rlib + "/stamp") and open(self.rlib + "/stamp").read() == self.stamp()
    def build_rlib(self, flags, anew):
        if self.is_built():
            return 0
        note("begin", self.name, *flags)
        time.sleep(0.5)
        if self.name == os.environ.get("EDITS"):
            open(self.deps[0].folder + "/src/lib.rt", "a").write("// edited\\n")
        note("end", self.name)
        print("logic=proved functions=3 sum=0123abcd")
        os.makedirs(self.rlib, exist_ok=True)
        open(self.rlib + "/stamp", "w").write(self.stamp())
        return 0
def lock(crates):
    held = [os.open(it.folder, os.O_RDONLY) for it in crates]
    for it in held:
        fcntl.flock(it, fcntl.LOCK_EX)
    return held
"""
# The stand-in for `rt` itself, over it.
OVER_IT = """#!{python}
import importlib.machinery, importlib.util, os, sys
path = os.path.dirname(os.path.realpath(__file__)) + "/rtlib.py"
rtlib = importlib.util.module_from_spec(importlib.util.spec_from_loader("rtlib", importlib.machinery.SourceFileLoader("rtlib", path)))
rtlib.__spec__.loader.exec_module(rtlib)
def main(words):
    if words[0] == "version":
        print("rattle-kit-99 logic 0123abcd")
        return 0
    crate = rtlib.Crate(os.getcwd())
    crate.held = rtlib.lock([*crate.below(), crate])
    for dep in crate.below():
        dep.build_rlib(["--jobs", "1"], False)
    if words[0] == "run":
        os.makedirs("out", exist_ok=True)
        with open("out/" + crate.name, "w") as program:
            program.write("#!/bin/sh\\necho proved\\n")
        os.chmod("out/" + crate.name, 0o755)
        return 0
    return crate.build_rlib(words[1:], False)
if __name__ == "__main__":
    sys.exit(main(sys.argv[1:]))
"""


class SideBySide(WithBuild):
    """./build over a kit whose checks work side by side."""

    # Many ways lead down from `sfq` to `low`.
    LAYERS = {f"layer_{at}_{side}": [f"layer_{at - 1}_{it}" for it in "ab"] if at else ["low"] for at in range(6) for side in "ab"}
    MORE_CRATES = {**LAYERS, "middle": ["low", "layer_5_a", "layer_5_b"]}

    def setUp(self):
        super().setUp()
        write(f"{self.checkout.room}/bin/rtlib.py", OF_THE_KIT)
        write(f"{self.checkout.room}/bin/rt", OVER_IT.replace("{python}", sys.executable))

    def notes(self, kind):
        return [it.split()[1:] for it in read(f"{self.checkout.room}/bin/notes").splitlines() if it.startswith(kind)]

    def test_libraries_over_the_same_ones_are_proved_at_once(self):
        ran = self.build("--jobs", "2")
        self.assertEqual(ran.returncode, 0, ran.stderr)
        text = read(f"{self.checkout.room}/bin/notes")
        self.assertRegex(text, r"begin layer_0_([ab]) --jobs 1\n((?!end layer_0_).*\n)*begin layer_0_(?!\1)[ab] ")
        self.assertEqual(sorted(it[0] for it in self.notes("begin")), sorted([*self.checkout.CRATES, *self.LAYERS]))

    def test_the_longest_chain_comes_first_and_a_crate_alone_gets_all_processes(self):
        self.assertEqual(self.build("--jobs", "4").returncode, 0)
        begun = self.notes("begin")
        # These two begin together, and which of them notes it first is left open.
        self.assertEqual(sorted(begun[:2]), [["command_line", "--jobs", "2"], ["low", "--jobs", "2"]])
        self.assertEqual([it for it in begun if it[0] in ("middle", "sfq")], [["middle", "--jobs", "4"], ["sfq", "--jobs", "4"]])

    def test_each_crate_is_read_once_for_a_question(self):
        self.build("--jobs", "2")
        before = len(self.notes("read"))
        os.remove(f"{self.checkout.root}/crates/sfq/out/sfq")
        self.assertEqual(self.build("--jobs", "2").returncode, 0)
        # Linking asks of each of 15 libraries whether it is built; over 200 ways lead down from `middle` alone.
        self.assertLess(len(self.notes("read")) - before, 15 * 15)

    def test_a_library_that_was_changed_since_it_was_proved(self):
        ran = self.build("--jobs", "1", EDITS="middle")
        self.assertEqual(ran.returncode, 1)
        self.assertTrue(ran.stderr.decode().startswith("sfq: a source was edited meanwhile: run ./build again\n"), ran.stderr)
        self.assertEqual(self.notes("begin").count(["low", "--jobs", "1"]), 1)
        self.assertEqual(self.build("--jobs", "1").returncode, 0)
        self.assertEqual(self.notes("begin").count(["low", "--jobs", "1"]), 2)

    def test_two_builds_at_once_prove_each_crate_once(self):
        environment = {**os.environ, "PATH": f"{self.checkout.room}/bin:{os.environ['PATH']}"}
        both = [subprocess.Popen([f"{self.checkout.root}/build", "--jobs", "2"], env=environment, stdout=subprocess.DEVNULL) for _ in "ab"]
        self.assertEqual([it.wait(timeout=120) for it in both], [0, 0])
        begun = [it[0] for it in self.notes("begin")]
        self.assertEqual(sorted(begun), sorted({*begun}))

    def test_a_kit_of_another_form_is_called_as_it_is(self):
        write(f"{self.checkout.room}/bin/rtlib.py", OF_THE_KIT.replace("def lock(crates)", "def lock(crates, how=0)"))
        self.assertEqual(self.build("--jobs", "3").returncode, 0)
        self.assertEqual(self.notes("begin")[0], ["low", "--jobs", "3"])


class Orders(unittest.TestCase):
    """Which crate is proved next."""

    def test_the_longest_chain_is_begun_first(self):
        below = {"low": [], "long": ["low"], "short": ["low"], "top": ["long", "short"]}
        plan = order.Plan(below, {"low": 100, "long": 300, "short": 50, "top": 100}, 2, 2, 1)
        self.assertEqual(plan.next(set(), {}), ("low", 1))
        self.assertEqual(plan.next({"low"}, {}), ("long", 1))
        self.assertEqual(plan.next({"low"}, {"long": 1}), ("short", 1))
        self.assertIsNone(plan.next({"low"}, {"long": 1, "short": 1}))


class WithLibrary(WithBuild):
    MORE_CRATES = {"sfq_c": ["middle"]}

    def test_verify_makes_the_library(self):
        ran = self.build("--verify")
        self.assertEqual(ran.returncode, 1)
        self.assertRegex(ran.stdout.decode(), r"proved: 5 crates, \d+ functions, .*\nlinking the program\nlinking the library libsfq.so.0\n\Z")
        # The stand-in for the kit compiles nothing.
        self.assertRegex(ran.stderr.decode(), r"\Asfq: no C library: the kit at \S+ lacks bin/rattle\n\Z")


class Commands(WithBuild):
    """The commands beside sfq: sfq-tiles, which ./build --tiles makes, sfq-scale over it, and those of the Python package."""

    MORE_CRATES = WITH_TILES
    NAMES = ["sfq", "sfq-ask", "sfq-audit", "sfq-export", "sfq-import", "sfq-scale", "sfq-schema", "sfq-shell", "sfq-tiles"]

    def test_tiles_are_made_of_what_is_proved(self):
        ran = self.build("--tiles")
        self.assertEqual(ran.returncode, 0, ran.stderr)
        self.assertTrue(ran.stdout.decode().startswith("proving and linking sfq-tiles\n"))
        self.assertRegex(ran.stdout.decode(), r"made: crates/sfq_tiles/out/sfq_tiles, SHA-256 [0-9a-f]{64}\n\Z")
        self.assertEqual(self.checkout.run(["sfq-tiles"]).stdout, b"proved\n")
        self.assertFalse(os.path.exists(f"{self.checkout.root}/crates/sfq/out/sfq"))
        linked = lambda: [words[0] for _, words in self.checkout.calls()].count("run")
        before = linked()
        self.assertEqual(self.build("--tiles").returncode, 0)
        self.assertEqual(linked(), before)
        write(f"{self.checkout.root}/crates/middle/src/lib.rt", "//! edited\n")
        self.assertEqual(self.build("--tiles").returncode, 0)
        self.assertEqual(linked(), before + 1)

    def test_verify_looks_at_both_programs(self):
        self.build()
        self.build("--tiles")
        ran = self.build("--verify")
        self.assertEqual(ran.returncode, 0, ran.stderr)
        for name, makes in (("sfq", "./build"), ("sfq-tiles", "./build --tiles")):
            path = f"{self.checkout.root}/crates/{name.replace('-', '_')}/out/{name.replace('-', '_')}"
            self.assertIn(f"    {hashlib.sha256(read(path).encode()).hexdigest()}  the program {name}\n", ran.stdout.decode())
            self.assertIn(f"the program {name} is the same as that of {makes}\n", ran.stdout.decode())

    def test_tiles_that_are_not_proved(self):
        ran = self.build("--tiles", BREAKS="middle")
        self.assertEqual((ran.returncode, ran.stderr.decode().splitlines()[-1]), (1, "sfq: no sfq-tiles: the crate sfq_tiles isn't proved"))
        self.assertFalse(os.path.exists(f"{self.checkout.root}/crates/sfq_tiles/out/sfq_tiles"))

    def test_all_are_installed_and_go_again(self):
        prefix = f"{self.checkout.room}/prefix"
        write(f"{prefix}/share/man/man1/other.1", "")
        self.assertEqual(self.build("--tiles").returncode, 0)
        self.assertEqual(self.build("--install", prefix).returncode, 0)
        found = self.installed(prefix)
        self.assertEqual([it[4:] for it in found if it.startswith("bin/")], self.NAMES)
        for it in self.NAMES:
            for path in ("man/man1/{}.1", "bash-completion/completions/{}", "zsh/site-functions/_{}", "fish/vendor_completions.d/{}.fish"):
                self.assertIn(f"share/{path.format(it)}", found)
        for it in ("sfq", "sfq-tiles"):
            self.assertEqual(subprocess.run([f"{prefix}/bin/{it}"], capture_output=True).stdout, b"proved\n")
        for it in ("sfq-ask", "sfq-audit", "sfq-scale", "sfq-import", "sfq-export", "sfq-schema", "sfq-shell"):
            ran = subprocess.run([f"{prefix}/bin/{it}", "--version"], capture_output=True, text=True, cwd="/")
            self.assertEqual((ran.stdout, ran.stderr), (f"{it} {repository.version()}\n", ""))
        self.assertEqual(self.installed(prefix), found)
        self.assertEqual(self.build("--uninstall", prefix).returncode, 0)
        found = [os.path.relpath(f"{at}/{it}", prefix) for at, folders, names in os.walk(prefix) for it in [*folders, *names]]
        self.assertEqual(sorted(found), ["share", "share/man", "share/man/man1", "share/man/man1/other.1"])

    def test_the_sums_of_what_is_installed(self):
        prefix = f"{self.checkout.room}/prefix"
        for makes, names in ([], ["bin/sfq"]), (["--tiles"], ["bin/sfq", "bin/sfq-tiles"]):
            self.build(*makes)
            self.build("--install", prefix)
            sums = read(f"{prefix}/share/sfq/SHA256SUMS")
            self.assertTrue(sums.startswith(f"# programs of sfq {repository.version()} that are proved, by logic 0123abcd\n"), sums)
            ran = subprocess.run(["sha256sum", "-c", "share/sfq/SHA256SUMS"], cwd=prefix, capture_output=True, text=True)
            self.assertEqual((ran.stdout, ran.stderr), ("".join(f"{it}: OK\n" for it in names), ""))

    def test_the_installed_sfq_scale_finds_the_programs_beside_it(self):
        prefix = f"{self.checkout.room}/prefix"
        self.build("--tiles")
        self.build("--install", prefix)
        words = [f"{prefix}/bin/sfq-scale", "run", "s", "d", "q", "--scheduler", "tcp://127.0.0.1:1"]
        for it in ("sfq", "sfq-tiles"):
            os.rename(f"{prefix}/bin/{it}", f"{prefix}/{it}")
            ran = subprocess.run(words, capture_output=True, text=True, env={**os.environ, "PATH": "/usr/bin:/bin"})
            self.assertEqual(ran.returncode, 2)
            self.assertIn(f"sfq-scale: there is no program {it} beside sfq-scale", ran.stderr)
            os.rename(f"{prefix}/{it}", f"{prefix}/bin/{it}")
        ran = subprocess.run(words, capture_output=True, text=True, env={**os.environ, "PATH": "/usr/bin:/bin"})
        self.assertNotIn("there is no program", ran.stderr)


class Packages(WithBuild):
    MORE_CRATES = WITH_TILES

    def make(self, root):
        """Makes the packages in a copy of the checkout, and returns their files."""
        folder = f"{self.checkout.room}/{os.path.basename(root)}-packages"
        environment = {**os.environ, "PATH": f"{self.checkout.room}/bin:{os.environ['PATH']}"}
        subprocess.run([f"{root}/build", "--dist", folder], env=environment, check=True, stdout=subprocess.DEVNULL)
        return {it: f"{folder}/{it}" for it in sorted(os.listdir(folder))}

    def both(self):
        """Makes the packages in two folders, with files of different times and modes."""
        other = f"{self.checkout.room}/other"
        shutil.copytree(self.checkout.root, other, copy_function=shutil.copyfile)
        for name in ("sfq", "build"):
            os.chmod(f"{other}/{name}", 0o700)
        one = self.make(self.checkout.root)
        before = os.umask(0o077)
        try:
            return one, self.make(other)
        finally:
            os.umask(before)

    def test_a_tarball_of_the_same_bytes(self):
        one, other = ({it: path for it, path in found.items() if it.endswith(".tar.gz")} for found in self.both())
        self.assertEqual([*one], [*other])
        for it in one:
            with open(one[it], "rb") as a, open(other[it], "rb") as b:
                self.assertEqual(a.read(), b.read())
            with tarfile.open(one[it]) as archive:
                names = archive.getnames()
                self.assertEqual([it.rpartition("/")[2] for it in names if "/bin/" in it], Commands.NAMES)
                self.assertEqual(names, sorted(names))
                self.assertTrue(all(entry.uid == 0 and entry.uname == "root" for entry in archive))
        self.assertEqual(len(one), 1)

    def test_the_sums_of_the_packages_and_of_the_programs_in_them(self):
        made = self.make(self.checkout.root)
        names = sorted(it for it in made if it != "SHA256SUMS")
        folder = os.path.dirname(made["SHA256SUMS"])
        ran = subprocess.run(["sha256sum", "-c", "SHA256SUMS"], cwd=folder, capture_output=True, text=True)
        self.assertEqual((sorted(ran.stdout.splitlines()), ran.stderr), ([f"{it}: OK" for it in names], ""))
        path = next(it for it in names if it.endswith(".tar.gz"))
        with tarfile.open(f"{folder}/{path}") as archive:
            archive.extractall(folder)
        ran = subprocess.run(
            ["sha256sum", "-c", "share/sfq/SHA256SUMS"], cwd=f"{folder}/{path[:-7]}", capture_output=True, text=True)
        self.assertEqual((ran.stdout, ran.stderr), ("bin/sfq: OK\nbin/sfq-tiles: OK\n", ""))

    @needs("dpkg", "dpkg-deb")
    def test_a_debian_package_of_the_same_bytes(self):
        one, other = ({it: path for it, path in found.items() if it.endswith(".deb")} for found in self.both())
        self.assertEqual(len(one), 1)
        for it in one:
            with open(one[it], "rb") as a, open(other[it], "rb") as b:
                self.assertEqual(a.read(), b.read())
            listed = subprocess.run(["dpkg-deb", "-c", one[it]], capture_output=True, text=True, check=True).stdout
            for name in Commands.NAMES:
                self.assertIn(f"./usr/bin/{name}\n", listed)
                self.assertIn(f"./usr/share/man/man1/{name}.1.gz\n", listed)
                self.assertIn(f"./usr/share/zsh/vendor-completions/_{name}\n", listed)
            self.assertIn("./usr/share/sfq/SHA256SUMS\n", listed)
            self.assertNotIn("site-functions", listed)
            self.assertIn("root/root", listed)
            about = subprocess.run(["dpkg-deb", "-f", one[it]], capture_output=True, text=True, check=True).stdout
            self.assertIn("Depends: libc6 (>= 2.34), python3\n", about)

    @needs("lintian", "lintian")
    def test_lintian_has_no_error_but_for_the_licence(self):
        path = next(it for name, it in self.make(self.checkout.root).items() if name.endswith(".deb"))
        ran = subprocess.run(["lintian", "--allow-root", "--fail-on", "none", path], capture_output=True, text=True, check=True)
        found = [it for it in ran.stdout.splitlines() if it.startswith("E: ")]
        self.assertEqual([it for it in found if "licen" not in it and "copyright" not in it], [])

    @needs("dpkg", "dpkg-deb")
    def test_what_help_and_sentences_name_is_in_the_packages(self):
        made = self.make(self.checkout.root)
        folder = f"{self.checkout.room}/unpacked"
        subprocess.run(["dpkg-deb", "-x", next(it for name, it in made.items() if name.endswith(".deb")), folder], check=True)
        with tarfile.open(next(it for name, it in made.items() if name.endswith(".tar.gz"))) as archive:
            listed = {it.partition("/share/doc/sfq/")[2] for it in archive.getnames()}
        shown = ["crates/command_line/src/command_words.rt", "crates/explanations/src/*.rt", "bindings/python/sfq*/**/*.py"]
        sources = [read(it) for pattern in shown for it in sorted(glob.glob(f"{ROOT}/{pattern}", recursive=True))]
        names = {it for text in sources for it in re.findall(r"(?:examples|docs)/[\w./-]*\w", text)}
        self.assertLessEqual({"docs/FAULTS.md", "docs/LIBRARY.md", "docs/SCALE.md"}, names)
        names |= {f"docs/{it}.md" for it in LANGUAGES}
        for it in sorted(names):
            self.assertTrue(os.path.exists(f"{folder}/usr/share/doc/sfq/{it}"), it)
            self.assertTrue(any(each == it or each.startswith(f"{it}/") for each in listed), it)
        text = gzip.open(f"{folder}/usr/share/doc/sfq/changelog.gz", "rt").read()
        self.assertTrue(text.startswith(f"sfq ({repository.version()}) "), text)
        self.assertEqual(gzip.open(f"{folder}/usr/share/man/man1/sfq.1.gz", "rt").read(), read(f"{ROOT}/packaging/man/sfq.1"))
        self.assertIn("No licence has been chosen yet", read(f"{folder}/usr/share/doc/sfq/copyright"))


class WithLibraries(unittest.TestCase):
    """Has a stand-in for each library."""

    def setUp(self):
        room = tempfile.TemporaryDirectory(prefix="sfq-debian-")
        self.addCleanup(room.cleanup)
        self.room, before = room.name, library.FILES
        self.addCleanup(setattr, library, "FILES", before)
        library.FILES = [self.stand_in(*it) for it in before]
        self.version, self.seconds = packages.released()
        os.mkdir(f"{self.room}/packages")

    def stand_in(self, source, target, mode):
        """Returns what a library's file is installed from: the header of the repository, or a library of one call."""
        name = os.path.basename(target)
        if target.endswith(".h"):
            return source, target, mode
        write(f"{self.room}/it.c", "#include <stdlib.h>\nvoid *it(size_t size);\nvoid *it(size_t size) { return malloc(size); }\n")
        if target.endswith(".so.0"):
            words = ["cc", "-shared", "-fPIC", f"-Wl,-soname,{name}", f"{self.room}/it.c", "-o", f"{self.room}/{name}"]
        else:
            words = ["sh", "-c", f"cc -c {self.room}/it.c -o {self.room}/it.o && ar rcsD {self.room}/{name} {self.room}/it.o"]
        subprocess.run(words, check=True)
        return f"{self.room}/{name}", target, mode


@needs("dpkg", "dpkg-deb")
@needs("gcc", "cc")
class OfLibraries(WithLibraries):
    """The Debian packages of the libraries and of Python."""

    def make(self):
        """Makes the packages, and returns the path of each by its name."""
        made = debian.of_libraries(self.version, packages.wanted_libc)
        return {it.name: debian.make(f"{self.room}/packages", it, self.version, self.seconds) for it in made}

    def test_what_they_have(self):
        found = self.make()
        self.assertEqual([os.path.basename(it) for it in found.values()], [
            f"libsfq0_{self.version}_amd64.deb", f"libsfq-dev_{self.version}_amd64.deb", f"python3-sfq_{self.version}_all.deb",
        ])
        listed = {}
        for name, path in found.items():
            subprocess.run(["dpkg-deb", "-x", path, f"{self.room}/root"], check=True)
            shown = subprocess.run(["dpkg-deb", "-c", path], capture_output=True, text=True, check=True).stdout
            listed[name] = {it.split()[5] for it in shown.splitlines()}
        at = "./usr/lib/x86_64-linux-gnu"
        shared = {f"{at}/{os.path.basename(it)}" for it in wheels.shared()}
        self.assertIn(f"{at}/libsfq.so.0", shared)
        self.assertLessEqual(shared, listed["libsfq0"])
        self.assertLessEqual({"./usr/include/sfq.h", f"{at}/libsfq.a", f"{at}/libsfq.so", f"{at}/pkgconfig/sfq.pc"}, listed["libsfq-dev"])
        modules = {
            f"./usr/lib/python3/dist-packages/{os.path.relpath(it, f'{ROOT}/bindings/python')}"
            for it in glob.glob(f"{ROOT}/bindings/python/sfq/**/*.*", recursive=True) if "__pycache__" not in it
        }
        self.assertIn("./usr/lib/python3/dist-packages/sfq/geometry/shapes.py", modules)
        self.assertLessEqual(modules, listed["python3-sfq"])
        self.assertFalse(any("/bin/" in it or "sfq_scale" in it for it in listed["python3-sfq"]))
        self.assertEqual(os.readlink(f"{self.room}/root/usr/lib/x86_64-linux-gnu/libsfq.so"), "libsfq.so.0")
        self.assertIn("libdir=${prefix}/lib/x86_64-linux-gnu\n", read(f"{self.room}/root/usr/lib/x86_64-linux-gnu/pkgconfig/sfq.pc"))
        self.assertTrue(read(f"{self.room}/root/usr/lib/x86_64-linux-gnu/pkgconfig/sfq.pc").startswith("prefix=/usr\n"))

    def test_the_same_bytes(self):
        sums = [{name: repository.sum_of_file(path) for name, path in self.make().items()} for _ in range(2)]
        self.assertEqual(*sums)

    @needs("lintian", "lintian")
    def test_lintian_prints_nothing(self):
        ran = subprocess.run(["lintian", "--allow-root", "--fail-on", "none", *self.make().values()], capture_output=True, text=True)
        self.assertEqual((ran.stdout, ran.stderr), ("", ""))


# Debian's Python, in whose environments the wheel is installed.
PYTHON = "/usr/bin/python3"
# A stand-in for the program, which an old version of the C library would run: it writes its words and its standard input, and ends with 5.
SHELL = "#!/bin/sh\n[ \"$1\" != --version ] || { echo sfq 9; exit 0; }\necho \"$@\"; cat; exit 5\n# GLIBC_2.17 GLIBC_2.31\n"


@needs("gcc", "cc")
class OfWheel(WithLibraries):
    """The wheel, with a stand-in for the program."""

    def setUp(self):
        super().setUp()
        write(f"{self.room}/programs/sfq", SHELL, 0o755)
        for where, name, value in (
            (repository, "PROGRAM", f"{self.room}/programs/sfq"), (packages, "PROVED", {"bin/sfq": f"{self.room}/programs/sfq"}),
        ):
            self.addCleanup(setattr, where, name, getattr(where, name))
            setattr(where, name, value)

    def make(self):
        return packages.make_wheel(f"{self.room}/packages", self.version, self.seconds)

    def run_clean(self, *words, **how):
        """Runs a command with an environment in which nothing says where sfq is."""
        clean = {it: value for it, value in os.environ.items() if not it.startswith(("PIP_", "PYTHON", "SFQ_"))}
        return subprocess.run(words, cwd=self.room, env=clean, capture_output=True, text=True, **how)

    def test_what_it_is_for(self):
        """The name has the version of the C library that the program and the libraries need, and the file of the wheel the same."""
        path = self.make()
        self.assertTrue(path.endswith(f"/sfq-{self.version}-py3-none-manylinux_2_31_x86_64.whl"), path)
        with zipfile.ZipFile(path) as archive:
            found = {it.filename: it for it in archive.infolist()}
            self.assertIn("Tag: py3-none-manylinux_2_31_x86_64\n", archive.read(f"sfq-{self.version}.dist-info/WHEEL").decode())
        pages = {it.rpartition("/")[2] for it in found if it.startswith(f"sfq-{self.version}.data/data/share/man/man1/")}
        commands = set(Commands.NAMES) - {"sfq-tiles"}
        self.assertEqual(pages, {f"{it}.1" for it in commands})
        programs = [it for it, entry in found.items() if entry.external_attr >> 16 & 0o111]
        self.assertEqual(programs, [f"sfq-{self.version}.data/scripts/sfq"])
        with open(path, "rb") as one, open(self.make(), "rb") as other:
            self.assertEqual(one.read(), other.read())

    def test_installed_it_runs_the_program(self):
        """`python -m sfq` runs the program of the same environment, and says whether it is the one that was packed."""
        if not os.path.isfile(PYTHON) or subprocess.run([PYTHON, "-c", "import venv, ensurepip"], capture_output=True).returncode:
            self.skipTest("needs the package python3-venv")
        python = f"{self.room}/venv/bin/python"
        for words in ([PYTHON, "-m", "venv", f"{self.room}/venv"], [python, "-m", "pip", "install", "-q", "--no-index", self.make()]):
            ran = self.run_clean(*words)
            self.assertEqual((ran.returncode, ran.stderr), (0, ""), words)
        ran = self.run_clean(python, "-m", "sfq", "relate", "a b", input="c")
        self.assertEqual((ran.stdout, ran.stderr, ran.returncode), ("relate a b\nc", "", 5))
        self.assertTrue(os.path.isfile(f"{self.room}/venv/share/man/man1/sfq.1"))
        total = hashlib.sha256(SHELL.encode()).hexdigest()
        ran = self.run_clean(python, "-m", "sfq", "--version")
        self.assertRegex(ran.stdout, rf"\Asfq 9\nthe proved program(?:, by logic [0-9a-f]+)?; SHA-256 {total}\n\Z")
        sums, program = f"{self.room}/venv/share/sfq/SHA256SUMS", f"{self.room}/venv/bin/sfq"
        write(program, SHELL + "# another\n", 0o755)
        self.assertIn(f"\nnot the proved program: {sums} has another sum; SHA-256 ", self.run_clean(python, "-m", "sfq", "--version").stdout)
        os.remove(sums)
        self.assertIn(f"\nnot known as the proved program: {sums} is missing; SHA-256 ", self.run_clean(python, "-m", "sfq", "--version").stdout)
        os.remove(program)
        clean = {"PATH": f"{self.room}/nothing"}
        ran = subprocess.run([python, "-m", "sfq", "--version"], env=clean, cwd=self.room, capture_output=True, text=True)
        self.assertEqual((ran.returncode, ran.stdout), (2, ""))
        self.assertRegex(ran.stderr, r"\Asfq: the program sfq isn't installed: [^\n]+\n\Z")


if __name__ == "__main__":
    unittest.main()
