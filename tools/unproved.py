"""Builds sfq without proving it, with run-time checks, keeps the program in out/unproved, and runs a call by it.

    python3 tools/unproved.py WORD..     what ./sfq runs where neither the proved program nor a kept one is of the present sources

The kit's `rt try` builds a program, runs it once and removes it. So it is called from a folder of links to the kit in which the
linker leaves a copy of what it linked. Help and other texts that need no program are printed without a build.
"""
import contextlib
import fcntl
import os
import re
import shlex
import shutil
import signal
import subprocess
import sys
import tempfile
import time
from typing import Callable, Iterator, NoReturn, Optional, Sequence

import own_texts

ROOT = os.path.dirname(os.path.dirname(os.path.realpath(__file__)))
FOLDER = f"{ROOT}/out/unproved"
PROGRAM = f"{FOLDER}/sfq"
NO_ANSWER = 1
# Between two lines that say how long a build takes so far, in seconds.
PACE = 10.0
# The last line of `rt try` where the program ended well.
ENDED = re.compile(r"^run=ended status=0 .*proved=no$", re.M)
# The linker of the folder of links: it runs the kit's own, and leaves a copy of the program that it linked.
LINKER = """#!/bin/sh
{linker} "$@" || exit
[ ! -f program ] || {copy} program {kept}
"""
# The builds that run now.
RUNNING: set["subprocess.Popen[bytes]"] = set()


class NotBuilt(Exception):
    """Says why there is no program."""


def is_quiet() -> bool:
    return os.environ.get("SFQ_QUIET", "") not in ("", "0")


def say(text: str) -> None:
    """Prints a line on standard error, where it is open."""
    with contextlib.suppress(OSError, AttributeError):
        print(f"sfq: {text}", file=sys.stderr, flush=True)


def report(text: str) -> None:
    """Prints a line that SFQ_QUIET leaves out."""
    if not is_quiet():
        say(text)


class Pace:
    """Reports every ten seconds how long something takes so far."""

    def __init__(self, what: str) -> None:
        self.what, self.begun = what, time.monotonic()
        self.next = PACE

    def tick(self) -> None:
        seconds = time.monotonic() - self.begun
        if seconds >= self.next:
            report(f"{self.what}, {seconds:.0f} s so far")
            self.next = seconds - seconds % PACE + PACE


def sum_of_sources() -> str:
    return current("sum")[1]


def current(*words: str) -> tuple[int, str]:
    """Runs tools/current.sh, and returns its status and its line."""
    ran = subprocess.run(["sh", "tools/current.sh", *words], cwd=ROOT, stdin=subprocess.DEVNULL, stdout=subprocess.PIPE, text=True)
    return ran.returncode, ran.stdout.strip()


def is_kept() -> bool:
    """Whether a program is kept that was built from the present sources."""
    return current("is-unproved")[0] == 0


def link_all(source: str, folder: str, but: Sequence[str] = ()) -> None:
    """Makes a folder with a link to each entry of another one, but for those that are named."""
    os.makedirs(folder)
    for it in os.listdir(source) if os.path.isdir(source) else ():
        if it not in but:
            os.symlink(f"{source}/{it}", f"{folder}/{it}")


def make_kit(folder: str, kept: str = "") -> str:
    """Makes a folder of links to the kit, and returns the path of `rt` in it. Where a path is given, the linker copies programs to it.

    `rt` finds the kit by where it is itself, so it and its module are copies. Beside a build `rt try` has the prover look for
    reserved names; without a prover that ends at once.
    """
    kit = os.path.dirname(os.path.dirname(os.path.realpath(shutil.which("rt") or "")))
    own = ("rt", "rtlib.py")
    link_all(kit, folder, ("bin", "toolchain"))
    link_all(f"{kit}/bin", f"{folder}/bin", (*own, "rattle"))
    link_all(f"{kit}/toolchain", f"{folder}/toolchain", ("bin",))
    link_all(f"{kit}/toolchain/bin", f"{folder}/toolchain/bin", ("ld.lld",) if kept else ())
    for it in own:
        if os.path.isfile(f"{kit}/bin/{it}"):
            shutil.copy(f"{kit}/bin/{it}", f"{folder}/bin/{it}")
    if kept:
        write_linker(f"{folder}/toolchain/bin/ld.lld", f"{kit}/toolchain/bin/ld.lld", kept)
    return f"{folder}/bin/rt"


def write_linker(path: str, linker: str, kept: str) -> None:
    """Writes the script that takes the place of the kit's linker."""
    parts = {"linker": linker, "copy": shutil.which("cp") or "/bin/cp", "kept": kept}
    with open(path, "w", encoding="utf-8") as script:
        script.write(LINKER.format(**{name: shlex.quote(it) for name, it in parts.items()}))
    os.chmod(path, 0o755)


def run_try(rt: str, room: str, waiting: Callable[[], None]) -> tuple[str, str]:
    """Has `rt try` build the program and ask its version, and returns what it wrote to its two streams. Calls `waiting` meanwhile."""
    paths = f"{room}/stdout", f"{room}/stderr"
    with open(paths[0], "wb") as out, open(paths[1], "wb") as err:
        child = subprocess.Popen(
            [sys.executable, "-B", rt, "try", "--", "--version"],
            cwd=f"{ROOT}/crates/sfq", env={**os.environ, "TMPDIR": room},
            stdin=subprocess.DEVNULL, stdout=out, stderr=err, start_new_session=True,
        )  # fmt: skip
        RUNNING.add(child)
        try:
            while True:
                try:
                    child.wait(timeout=0.2)
                    break
                except subprocess.TimeoutExpired:
                    waiting()
        finally:
            RUNNING.discard(child)
            end(child)
    texts = []
    for path in paths:
        with open(path, encoding="utf-8", errors="replace") as text:
            texts.append(text.read())
    return texts[0], texts[1]


def end(child: "subprocess.Popen[bytes]") -> None:
    """Ends a build that still runs. `rt` removes its own folders when it is asked to stop."""
    if child.poll() is None:
        child.terminate()
        with contextlib.suppress(subprocess.TimeoutExpired):
            child.wait(timeout=10)
    with contextlib.suppress(ProcessLookupError):
        os.killpg(child.pid, signal.SIGKILL)


def build_in(room: str) -> str:
    """Builds the program in a folder, and returns its path."""
    os.mkdir(f"{room}/program")
    kept = f"{room}/program/sfq"
    rt = make_kit(f"{room}/kit", kept)
    report("building the program without proof, once, which takes one to two minutes; ./build makes the proved one")
    out, said = run_try(rt, room, Pace("building").tick)
    if not ENDED.search(said):
        raise NotBuilt(f"{out}{said}".rstrip() + "\nsfq: the program couldn't be built, as the lines above say")
    if not os.path.isfile(kept):
        raise NotBuilt("sfq: this kit's rt builds a program without leaving it; ./build makes the proved one")
    ran = subprocess.run([kept, "--version"], stdin=subprocess.DEVNULL, capture_output=True, text=True)
    if (ran.stdout, ran.returncode) != (out, 0):
        raise NotBuilt(f"{ran.stderr.rstrip()}\nsfq: the program that was built doesn't run on this machine")
    return kept


@contextlib.contextmanager
def held() -> Iterator[None]:
    """Holds the folder of the kept program, so that one call builds and the others wait. Removes what an interrupted build left."""
    os.makedirs(FOLDER, exist_ok=True)
    folder = os.open(FOLDER, os.O_RDONLY)
    try:
        pace = Pace("another call is building the program")
        while True:
            try:
                fcntl.flock(folder, fcntl.LOCK_EX | fcntl.LOCK_NB)
                break
            except BlockingIOError:
                pace.tick()
                time.sleep(0.1)
        for it in os.listdir(FOLDER):
            if it.startswith("new-"):
                shutil.rmtree(f"{FOLDER}/{it}", ignore_errors=True)
        yield
    finally:
        os.close(folder)


def kept_program() -> str:
    """Returns the path of the kept program, and builds it first where none is of the present sources. NotBuilt says why there is none."""
    if is_kept():
        return PROGRAM
    with held():
        if is_kept():
            return PROGRAM
        before = sum_of_sources()
        with tempfile.TemporaryDirectory(prefix="new-", dir=FOLDER) as room:
            made = build_in(room)
            if sum_of_sources() != before:
                raise NotBuilt("sfq: a source was edited during the build; repeat the call")
            with contextlib.suppress(FileNotFoundError):
                os.remove(f"{FOLDER}/stamp")
            os.replace(made, PROGRAM)
        current("stamp-unproved", before)
    return PROGRAM


def can_keep() -> bool:
    """Whether a program can be kept in this checkout."""
    try:
        os.makedirs(FOLDER, exist_ok=True)
    except OSError:
        return False
    return os.access(FOLDER, os.W_OK | os.X_OK)


def run_once(words: Sequence[str]) -> int:
    """Builds the program for one call, where it can't be kept, and returns the status."""
    report("this checkout can't be written, so each call builds the program anew")
    with tempfile.TemporaryDirectory(prefix="sfq-unproved-") as room:
        return subprocess.run(words_of_run(build_in(room), words)).returncode


def words_of_run(program: str, words: Sequence[str]) -> list[str]:
    """Returns the words by which a shell runs the program, after the line that says that it isn't proved."""
    return ["/bin/sh", "-c", '. "$0"; run_unproved "$@"', f"{ROOT}/tools/unproved.sh", program, *words]


def run(words: Sequence[str]) -> int:
    """Runs the call by the kept program, which takes the place of this process."""
    if not can_keep():
        return run_once(words)
    ran = words_of_run(kept_program(), words)
    sys.stdout.flush()
    os.execv(ran[0], ran)


def answer(words: Sequence[str]) -> int:
    """Runs a call, or prints its text, and returns its status where this process isn't replaced."""
    known = own_texts.text_of(words)
    if known:
        return print_text(known, is_version=list(words) in (["--version"], ["-V"]))
    if not shutil.which("rt"):
        say("the Rattle kit's command rt isn't found: put the kit's folder bin on your path; README.md says which kit")
        return NO_ANSWER
    try:
        return run(words)
    except NotBuilt as it:
        with contextlib.suppress(OSError, AttributeError):
            print(it, file=sys.stderr, flush=True)
        return NO_ANSWER


def print_text(known: own_texts.Text, is_version: bool) -> int:
    """Prints a text that needs no program, and returns its status, or that of a program whose output can't be written."""
    if is_version:
        say("not the proved program, which ./build makes")
    with contextlib.suppress(OSError, AttributeError):
        print(known.err, end="", file=sys.stderr, flush=True)
    out = known.out.encode()
    try:
        while out:
            out = out[os.write(1, out) :]
    except OSError:
        say("write failed")
        return known.status or 6
    return known.status


def stop(number: int, _: Optional[object]) -> NoReturn:
    sys.exit(128 + number)


def main() -> int:
    for it in (signal.SIGINT, signal.SIGTERM, signal.SIGHUP):
        signal.signal(it, stop)
    return answer(sys.argv[1:])


if __name__ == "__main__":
    sys.exit(main())
