"""README's two commands, run as a new user runs them: in a fresh clone of what is committed, where nothing was built, with an empty
home folder and no terminal."""
import os
import re
import subprocess
import tempfile
from typing import NamedTuple

import printed
import repository
from parts import Beat, Failure, Report, Skipped

COMMAND = "./test --door"
# The last line of ./test where nothing failed.
CLOSING = re.compile(r"(\d+) passed, 0 failed, (\d+) skipped")
# A line of ./test on tests that were left out for what only a build makes: the gate runs them after the proof.
LEFT_OUT = re.compile(r"(?:\[.*\] )?skipped: (.+), (\d+) tests?: (.*)")


class Command(NamedTuple):
    """A command as README shows it, and what it prints; nothing where README shows only the command."""

    text: str
    prints: str


class Walked(NamedTuple):
    """What a command wrote to each stream, and its status."""

    out: str
    err: str
    status: int


def git(*words: str) -> subprocess.CompletedProcess[str]:
    return subprocess.run(["git", "-C", repository.ROOT, *words], stdin=subprocess.DEVNULL, capture_output=True, text=True)


def is_committed() -> bool:
    """Whether a clone has all that is here: this is a git repository without uncommitted changes."""
    try:
        ran = git("status", "--porcelain")
    except FileNotFoundError:
        return False
    return ran.returncode == 0 and not ran.stdout.strip() and is_top()


def is_top() -> bool:
    """Whether this folder is the top of a git repository, and not a folder within another one."""
    ran = git("rev-parse", "--show-toplevel")
    return ran.returncode == 0 and os.path.realpath(ran.stdout.strip()) == os.path.realpath(repository.ROOT)


def commands(text: str) -> list[Command]:
    """Returns the first two blocks of shell in README, each with the block of output below it."""
    fences = printed.fences(text)
    found = []
    for at, it in enumerate(fences):
        if it.kind == "sh":
            below = fences[at + 1] if at + 1 < len(fences) else None
            prints = below.text if below and below.kind == "text" and printed.follows(below) else ""
            found.append(Command(it.text.strip(), prints))
    return found[:2]


def bare_environment(home: str) -> dict[str, str]:
    """Returns the environment of somebody who has just logged in: a path and a home folder, which is empty."""
    return {"PATH": os.environ.get("PATH", os.defpath), "HOME": home, "LANG": "C.UTF-8"}


def walked(command: str, clone: str, home: str) -> Walked:
    """Runs a command in the clone. Its lines go through, each behind a mark, so that none of them looks like one of the gate."""
    lines = []
    with tempfile.TemporaryFile("w+", errors="replace") as said, Beat(f"{command.split()[0]} in the clone") as beat:
        with subprocess.Popen(
            ["sh", "-c", command], cwd=clone, env=bare_environment(home), stdin=subprocess.DEVNULL, stdout=subprocess.PIPE,
            stderr=said, text=True, errors="replace",
        ) as child:  # fmt: skip
            for line in child.stdout or ():
                lines.append(line)
                print(f"clone: {line}", end="", flush=True)
                beat.note()
        said.seek(0)
        return Walked("".join(lines), said.read(), child.returncode)


def failures(out: str) -> str:
    """Returns what ./test repeats of its failures at its end, or nothing."""
    found = re.search(r"^\nFAILED: .*?(?=^failed: )", out, re.M | re.S)
    return found[0] if found else ""


def failure(it: Command, came: Walked) -> Failure:
    wanted = it.prints or "N passed, 0 failed, N skipped, in its last line"
    last = failures(came.out) or "".join(came.out.splitlines(True)[-60:])
    text = f"README wants that\n{it.text}\nends with status 0 and prints\n{wanted}\nIt ended with {came.status} and printed\n{last}{came.err}"
    return Failure(f"README's command {it.text.split()[0]}", text, COMMAND)


def first(it: Command, came: Walked) -> Report:
    """Returns what came of the first command, which prints what README shows."""
    return Report(1) if (came.out, came.status) == (it.prints, 0) else Report(failures=[failure(it, came)])


def second(it: Command, came: Walked) -> Report:
    """Returns what came of the second command, which is a run of tests, with what it counted."""
    lines = came.out.splitlines() or [""]
    closing = CLOSING.fullmatch(lines[-1])
    if came.status or not closing:
        return Report(failures=[failure(it, came)])
    return Report(int(closing[1]), skipped=[skip for line in lines for skip in skips(line)])


def skips(line: str) -> list[Skipped]:
    """Returns the tests that a line of ./test says were skipped, but for those that the gate runs after the proof."""
    found = LEFT_OUT.fullmatch(line)
    if not found or "./build" in found[3] or "rt ci" in found[3]:
        return []
    return [Skipped(found[1], found[3])] * int(found[2])


def walk() -> Report:
    """Runs README's two commands in a fresh clone, and returns what came of them."""
    two = commands(repository.read(f"{repository.ROOT}/README.md"))
    if len(two) < 2 or not two[0].prints:
        return Report(failures=[Failure("README's two commands", "README.md lacks two blocks of shell, or what the first prints.", COMMAND)])
    with tempfile.TemporaryDirectory(prefix="sfq-clone-") as folder:
        # Tests that take another user's place have to find the clone, as in a folder of one's own that others may pass.
        os.chmod(folder, 0o755)
        clone, home = f"{folder}/sfq", f"{folder}/home"
        os.mkdir(home)
        try:
            cloned = git("clone", "-q", repository.ROOT, clone) if is_top() else None
        except FileNotFoundError:
            cloned = None
        if cloned is None:
            return Report(skipped=[Skipped("README's two commands", "needs git, and a git repository to clone")])
        if cloned.returncode:
            return Report(failures=[Failure("a fresh clone", cloned.stderr, COMMAND)])
        reports = [judge(it, walked(it.text, clone, home)) for it, judge in zip(two, (first, second))]
    return Report(
        sum(it.passed for it in reports),
        [each for it in reports for each in it.failures],
        [each for it in reports for each in it.skipped],
    )  # fmt: skip
