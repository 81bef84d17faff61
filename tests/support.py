"""What the system tests share."""
import functools
import os
import re
import runpy
import shutil
import stat
import subprocess
import sys
import tempfile
import unittest
from typing import Any, Callable, Mapping, Optional, Sequence, TypeVar, Union

ROOT = os.path.dirname(os.path.dirname(os.path.realpath(__file__)))
runpy.run_path(f"{ROOT}/tools/paths.py")

import answers
import printed
import repository
from repository import read

Tested = TypeVar("Tested", bound=Callable[..., Any])

# Calls whose answers tests look at, beside those that documents show.
HELP_CALLS: list[list[str]] = [
    [], ["--help"], ["--version"], ["run", "--help"], ["check", "-h"], ["help", "relate"], ["why", "--help"], ["help", "pairs"],
    ["rum"], ["relate", "POINT(1 1)"], ["relate", "--help"], ["fault", "-h"], ["-V"], ["fault", "v3"], ["fault", "L10"], ["fault", "V9"],
    ["fault"], ["fault", "V3 0"], ["fault", "first", "W4"], ["fault", "sfq: parcel row 3: V3 0"], ["fault", *"sfq: t L6 record 2 v3 0".split()], ["fault", "V3", "V4", ""],
    ["fault", "sfq: out of memory"], ["fault", "V3\t0", "V3:"],
    *([it] for it in ("relat", "chek", "peirs", "helpp", "h", "flt", "xyz", "-", "", "a b", "Run", "r'un", "ruun")), ["rum", "--help"],
    ["run"], ["run", "--why"], ["run", "a"], ["run", "a", "--why", "b"], ["run", ""], ["check"], ["check", "--why", "a"], ["relate"], ["relate", "--why", "-"],
    ["why"], ["why", "--why"], ["pairs"], ["pairs", "--why"],
]

# The pages of the library, each with the language of the example that it begins with.
LANGUAGES = {"C": "c", "PYTHON": "python", "JAVASCRIPT": "js", "SQLITE": "sql", "POSTGRESQL": "sql"}

# A stand-in for `rt`. It notes each call, and does what the file `behaviour` in its folder says, a piece of Python.
STAND_IN = """#!{python}
import os, subprocess, sys, tempfile
room = "{room}"
words = sys.argv[1:]
with open(room + "/calls", "a") as calls:
    calls.write(repr((os.getcwd(), words)) + "\\n")
data = dict(words[at + 1].split("=", 1) for at, it in enumerate(words) if it == "--data")
def link():
    # Has the linker of the kit in which this file is make a program, as `rt try` does.
    linker = os.path.realpath(os.path.dirname(os.path.realpath(__file__)) + "/..") + "/toolchain/bin/ld.lld"
    with tempfile.TemporaryDirectory() as folder:
        subprocess.run([linker, "-o", "program"], cwd=folder, env=dict(), check=True)
def finish(out, err, status):
    sys.stdout.write(out)
    sys.stderr.write(err)
    sys.stdout.flush()
    sys.exit(status)
exec(open(room + "/behaviour").read())
"""
# What the stand-in does as `rt try` in a call that builds, and the end that it reports then.
BUILDS = "link()\nfinish('sfq 9\\n', 'run=ended status=0 runners=1 proved=no\\n', 0)"
# A stand-in for the program: it writes its words and its standard input, and ends with 5.
PROGRAM = """#!/bin/sh
[ "$1" != --version ] || { echo "sfq 9"; exit 0; }
printf "%s|" "$@"; cat; echo >&2 an error; exit 5
"""


def python_command(python: str, name: str) -> list[str]:
    """Returns the words that run sfq-import, sfq-export, sfq-schema, sfq-shell, sfq-ask, sfq-audit or sfq-scale of this repository by a Python, as the launcher does by Debian's."""
    folder = f"{ROOT}/bindings/python"
    return [python, "-B", folder, f"{folder}/bin/{name}"]


def over_program(python: str, program: str, name: str) -> list[str]:
    """Returns the words that run a command of this repository over a program in place of the libraries."""
    return [python, "-B", f"{ROOT}/tests/over_program.py", program, name]


def needs(package: str, command: str) -> Callable[[Tested], Tested]:
    """Skips a test where the command of a Debian package isn't there."""
    return unittest.skipUnless(shutil.which(command), f"needs the package {package}")


def needs_build(test: Callable[[Any], None]) -> Callable[[Any], None]:
    """Skips a test of the proved program where ./build hasn't made it. This is seen when the test runs: a build may come first."""

    @functools.wraps(test)
    def run(self: Any) -> None:
        if not repository.is_built():
            self.skipTest("needs ./build")
        test(self)

    return run


def read_terminal(ours: int) -> bytes:
    """Returns all that is written on a terminal until its last writer ends."""
    shown = b""
    while True:
        try:
            more = os.read(ours, 1 << 16)
        except OSError:
            return shown
        if not more:
            return shown
        shown += more


@functools.lru_cache(maxsize=None)
def asked() -> tuple[list[printed.Shown], list[answers.Answer], dict[tuple[str, ...], answers.Answer]]:
    """Returns the calls that documents show, their answers, and the answers to the calls of help: asked once, of one build."""
    with tempfile.TemporaryDirectory(prefix="sfq-documents-") as room:
        shown = printed.everything(room)
        given = answers.ask([*(it.words for it in shown), *HELP_CALLS])
    return shown, given[: len(shown)], dict(zip((tuple(it) for it in HELP_CALLS), given[len(shown) :]))


def examples(page: str, language: str, heading: str = "") -> list[tuple[str, str]]:
    """Returns the examples in a language that a page of docs shows, each with its output; those below one heading of the page, if it is named."""
    parts = re.split(r"^(?=## )", read(f"{ROOT}/docs/{page}.md"), flags=re.M)
    text = "".join(it for it in parts if not heading or it.startswith(f"{heading}\n"))
    return re.findall(rf"```{language}\n(.*?)```.*?```text\n(.*?)```", text, re.S)


def write(path: str, text: str, mode: Optional[int] = None) -> None:
    os.makedirs(os.path.dirname(path), exist_ok=True)
    with open(path, "w", encoding="utf-8") as file:
        file.write(text)
    if mode:
        os.chmod(path, mode)


def write_all(room: str, files: Mapping[str, str]) -> None:
    """Writes texts into a folder, by their paths in it."""
    for path, text in files.items():
        write(f"{room}/{path}", text)


def python_with(module: str) -> Optional[str]:
    """Returns a Python that has a module, or None."""
    for it in (sys.executable, "/usr/bin/python3"):
        if os.path.isfile(it) and subprocess.run([it, "-c", f"import {module}"], capture_output=True).returncode == 0:
            return it
    return None


class Checkout:
    """A small repository with the scripts of this one, crates each with the libraries that it uses, and a stand-in for `rt`."""

    CRATES: Mapping[str, Sequence[str]] = {"low": [], "middle": ["low"], "command_line": ["clap"], "sfq": ["middle", "command_line"]}

    def __init__(self, crates: Mapping[str, Sequence[str]] = {}) -> None:
        crates = {**self.CRATES, **crates}
        self.room = tempfile.mkdtemp(prefix="sfq-test-")
        self.root = f"{self.room}/checkout"
        for name in ("sfq", "sfq-tiles", "build"):
            os.makedirs(self.root, exist_ok=True)
            shutil.copy(f"{ROOT}/{name}", f"{self.root}/{name}")
        leave_out = shutil.ignore_patterns("__pycache__")
        for name in ("tools", "packaging", "bindings/python", "docs", "examples"):
            shutil.copytree(f"{ROOT}/{name}", f"{self.root}/{name}", ignore=leave_out)
        for name in ("CHANGELOG.md", "VERSION"):
            shutil.copy(f"{ROOT}/{name}", self.root)
        lines = "".join(f"{it}: {' '.join(used)}\n" for it, used in crates.items())
        write(f"{self.root}/crates.txt", lines)
        write(f"{self.root}/HANDLES", "Handles allowed: none.\n")
        for it in crates:
            name = "main" if it.startswith("sfq") else "lib"
            write(f"{self.root}/crates/{it}/src/{name}.rt", f"//! {it}\n")
        self.behave("finish('', '', 0)")
        stand_in = STAND_IN.replace("{python}", sys.executable).replace("{room}", f"{self.room}/bin")
        write(f"{self.room}/bin/rt", stand_in, stat.S_IRWXU)
        write(f"{self.room}/toolchain/bin/ld.lld", f"#!/bin/sh\ncp '{self.room}/bin/program' program\n", stat.S_IRWXU)
        write(f"{self.room}/bin/program", PROGRAM, stat.S_IRWXU)

    def behave(self, text: str) -> None:
        """Sets what the stand-in does. `words` are its words, `data` the files that it is handed."""
        write(f"{self.room}/bin/behaviour", text)

    def calls(self) -> list[tuple[str, list[str]]]:
        """Returns the calls of the stand-in so far: each a folder and words."""
        path = f"{self.room}/bin/calls"
        return [eval(line) for line in read(path).splitlines()] if os.path.isfile(path) else []

    def run(self, words: Sequence[str], given: Union[bytes, str] = b"", folder: Optional[str] = None, path: Optional[str] = None, **how: Any) -> subprocess.CompletedProcess[Any]:
        """Runs a command of the checkout, and returns what it wrote and its status."""
        path = path or f"{self.room}/bin:{os.environ['PATH']}"
        usual: dict[str, Any] = {
            "cwd": folder or self.root, "input": given, "env": {**os.environ, "PATH": path}, "stdout": subprocess.PIPE, "stderr": subprocess.PIPE,
        }
        return subprocess.run([f"{self.root}/{words[0]}", *words[1:]], **{**usual, **how})

    def remove(self) -> None:
        shutil.rmtree(self.room)


class WithCheckout(unittest.TestCase):
    """A test case that has a small repository of its own, perhaps with more crates."""

    MORE_CRATES: Mapping[str, Sequence[str]] = {}

    def setUp(self) -> None:
        self.checkout = Checkout(self.MORE_CRATES)
        self.addCleanup(self.checkout.remove)
