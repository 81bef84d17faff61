"""Makes the program sfq-tiles of its proved crate: crates/sfq_tiles/out/sfq_tiles. `./build --tiles` calls this."""
import os
import shutil
import sys

import calls
import proving
import repository

CRATE = "sfq_tiles"
FOLDER = f"{repository.ROOT}/crates/{CRATE}"
PROGRAM = f"{FOLDER}/out/{CRATE}"
# A link to it, by whose name it calls itself in its help.
NAMED = f"{FOLDER}/out/sfq-tiles"
# What the program was made of, and its own sum.
STAMP = f"{FOLDER}/out/stamp"


def text_of_stamp() -> str:
    return f"{calls.crate_of(CRATE).sum}\n{repository.sum_of_file(PROGRAM)}\n"


def is_made() -> bool:
    """Whether the program is there, made of the present sources. Without the kit this isn't looked at."""
    if not os.access(PROGRAM, os.X_OK) or not os.path.isfile(STAMP):
        return False
    with open(STAMP, encoding="ascii") as file:
        return not shutil.which("rt") or file.read() == text_of_stamp()


def link() -> None:
    """Links the proved program."""
    status, log = proving.link(repository.ROOT, CRATE)
    if status or not os.access(PROGRAM, os.X_OK):
        raise calls.Failure(f"the program couldn't be linked; see {os.path.relpath(log, repository.ROOT)}")
    stamp()


def stamp() -> None:
    """Notes that the program was made of the present sources, and makes the link to it."""
    if not os.path.lexists(NAMED):
        os.symlink(CRATE, NAMED)
    with open(STAMP, "w", encoding="ascii") as file:
        file.write(text_of_stamp())


def make(jobs: int = 0) -> int:
    """Proves what isn't proved yet of the program and what it is made of, and links it. Returns the exit status."""
    print("proving and linking sfq-tiles", flush=True)
    try:
        calls.prove(jobs, CRATE)
        if not is_made():
            link()
    except calls.Failure as it:
        print(f"sfq: no sfq-tiles: {it}", file=sys.stderr)
        return 1
    print(f"made: crates/{CRATE}/out/{CRATE}, SHA-256 {repository.sum_of_file(PROGRAM)}")
    return 0
