"""The repository: its crates, the program that a build leaves, and the kit that proves it."""
import contextlib
import glob
import hashlib
import os
import re
import shutil
import stat
import subprocess
import sys
import tempfile
from typing import NoReturn, Optional

ROOT = os.path.dirname(os.path.dirname(os.path.realpath(__file__)))
PROGRAM = f"{ROOT}/crates/sfq/out/sfq"
# What ./lint finds: a file, a line and a text. What it counts: a name, a number and a remark.
Finding = tuple[str, int, str]
Row = tuple[str, float, str]


def fail(text: str) -> NoReturn:
    sys.exit(f"sfq: {text}")


def print_help(text: Optional[str]) -> None:
    """Prints a script's docstring and ends, where the script is asked for help alone."""
    if sys.argv[1:] in (["--help"], ["-h"]):
        print((text or "").strip())
        sys.exit(0)


def read(path: str) -> str:
    """Returns the text of a file."""
    with open(path, encoding="utf-8") as file:
        return file.read()


def write_whole(path: str, text: str) -> None:
    """Writes a file anew, under a name of its own beside it first. It stays as it was where that fails."""
    handle, beside = tempfile.mkstemp(prefix=".new-", dir=os.path.dirname(path))
    try:
        with open(handle, "w", encoding="utf-8") as file:
            file.write(text)
        os.chmod(beside, stat.S_IMODE(os.stat(path).st_mode) if os.path.exists(path) else 0o644)
        os.replace(beside, path)
    finally:
        with contextlib.suppress(FileNotFoundError):
            os.remove(beside)


def need_rt() -> str:
    """Returns the path of the kit's command. The program ends where it isn't on the path."""
    return shutil.which("rt") or fail("the command rt of the Rattle kit isn't on the path")


def kit_line() -> str:
    """Returns the line of `rt version`: the kit's name, which differs between machines, and its logic."""
    need_rt()
    return subprocess.run(["rt", "version"], stdout=subprocess.PIPE, text=True, check=True).stdout.strip()


def logic_of(line: str) -> str:
    """Returns the sum that names the kit's logic: the part of its line that proofs depend on."""
    found = re.search(r"\blogic ([0-9a-f]+)", line)
    return found[1] if found else line


def read_crates(root: str = ROOT) -> dict[str, list[str]]:
    """Returns the libraries that each crate uses, the repository's and the kit's, in the order of crates.txt."""
    crates = {}
    with open(f"{root}/crates.txt", encoding="utf-8") as lines:
        for line in lines:
            head, colon, libraries = line.partition("#")[0].partition(":")
            if colon:
                crates[head.split()[0]] = libraries.split()
    return crates


def files_of(crate: str, root: str = ROOT) -> list[str]:
    """Returns the sources, definitions and proofs of a crate, sorted."""
    found: list[str] = []
    for part in ("src", "specs", "proofs"):
        for at, _, names in os.walk(f"{root}/crates/{crate}/{part}"):
            found += [f"{at}/{it}" for it in names if it.endswith((".rt", ".antt"))]
    return sorted(found)


def sum_of_file(path: str) -> str:
    with open(path, "rb") as file:
        return hashlib.sha256(file.read()).hexdigest()


def current(*words: str, root: str = ROOT) -> tuple[int, str]:
    """Runs tools/current.sh, and returns its status and its line."""
    ran = subprocess.run(["sh", "tools/current.sh", *words], cwd=root, stdout=subprocess.PIPE, text=True)
    return ran.returncode, ran.stdout.strip()


def is_built(root: str = ROOT) -> bool:
    """Whether the program is there and was made from the present sources."""
    return current("is", root=root)[0] == 0


def crates_with_tests(root: str = ROOT) -> list[str]:
    """Returns the crates that have #[test] functions."""
    found = []
    for crate in read_crates(root):
        for path in glob.glob(f"{root}/crates/{crate}/src/**/*.rt", recursive=True):
            with open(path, encoding="utf-8") as text:
                if re.search(r"^\s*#\[test\]", text.read(), re.M):
                    found.append(crate)
                    break
    return found


def version(root: str = ROOT) -> str:
    """Returns the version of all that is here. tools/version.py writes it where it has to be spelled."""
    with open(f"{root}/VERSION", encoding="ascii") as file:
        return file.read().strip()
