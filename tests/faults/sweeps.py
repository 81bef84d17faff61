"""The program under a library that makes its calls of the system fail, and what it may do then."""
import atexit
import functools
import math
import os
import random
import resource
import shutil
import struct
import subprocess
import tempfile
import threading
from typing import NamedTuple

import repository

FOLDER = os.path.dirname(os.path.realpath(__file__))
# The kinds of calls that the library counts, in the order of its page.
CALLS = ("growth", "read", "write", "open", "fstat", "statx")
PAGE_BYTES, PAGE = 4096, struct.Struct(f"={len(CALLS)}QQqq")
# How long a run may take before it counts as hanging, in seconds. It takes some milliseconds.
PATIENCE = 120

OUT_OF_MEMORY = (b"sfq: out of memory\n", b"error: out of memory\n")
WRITE_FAILED = b"sfq: write failed\n"
UNREADABLE, NO_MEMORY = 6, 7


class Fault(NamedTuple):
    """What the library does to the program: from the call of this number on, so many times (0: to all from there on)."""

    call: str
    how: str
    at: int
    times: int = 1
    command: str = ""

    def environment(self):
        parts = {"CALL": self.call, "HOW": self.how, "AT": self.at, "TIMES": self.times, "COMMAND": self.command}
        return {f"FAULT_{name}": str(value) for name, value in parts.items()}


class Ran(NamedTuple):
    """What a run wrote, its status (below 0: its signal), and what the library counted."""

    out: bytes
    err: bytes
    status: int
    counts: dict
    acted: int
    descriptor: int
    offset: int
    path: str

    def said(self):
        return self.out, self.err, self.status


def once(make):
    """Keeps what a function returned for its arguments. Where threads call it at the same time, one makes it and the others wait."""
    kept, lock = functools.lru_cache(maxsize=None)(make), threading.RLock()

    @functools.wraps(make)
    def wait(*arguments):
        with lock:
            return kept(*arguments)

    return wait


@once
def room():
    """Returns a folder that anybody may read, which is removed at the end."""
    path = tempfile.mkdtemp(prefix="sfq-faults-")
    os.chmod(path, 0o755)
    atexit.register(shutil.rmtree, path, True)
    return path


@once
def program():
    """Returns a copy of the program that stays the same while tests run."""
    path = f"{room()}/sfq"
    shutil.copyfile(repository.PROGRAM, path)
    os.chmod(path, 0o755)
    return path


@once
def library():
    """Builds the library by the system's compiler, and returns its path."""
    path = f"{room()}/faults.so"
    subprocess.run(["cc", "-O1", "-fPIC", "-shared", "-o", path, f"{FOLDER}/faults.c", "-ldl"], check=True)
    return path


def run(words, fault=None, folder=None):
    """Runs the program under the library, with its two streams in files, and waits for its end."""
    with tempfile.TemporaryDirectory(dir=room()) as place:
        with open(f"{place}/page", "wb") as page:
            page.truncate(PAGE_BYTES)
        environment = {"LD_PRELOAD": library(), "FAULT_PAGE": f"{place}/page", "PATH": os.defpath}
        environment.update(fault.environment() if fault else {})
        with open(f"{place}/out", "w+b") as out, open(f"{place}/err", "w+b") as err:
            ran = subprocess.run(
                [program(), *words],
                cwd=folder or tables(),
                env=environment,
                stdin=subprocess.DEVNULL,
                stdout=out,
                stderr=err,
                timeout=PATIENCE,
                close_fds=False,
            )
            out.seek(0)
            err.seek(0)
            return Ran(out.read(), err.read(), ran.returncode, *read_page(f"{place}/page"))


def run_within(words, folder, limit, most):
    """Runs the program in a folder within a limit of the system, such as resource.RLIMIT_AS; returns what it wrote, and its status."""
    ran = subprocess.run(
        [program(), *words],
        cwd=folder,
        env={},
        stdin=subprocess.DEVNULL,
        capture_output=True,
        timeout=PATIENCE,
        preexec_fn=lambda: resource.setrlimit(limit, (most, most)),
    )
    return ran.stdout, ran.stderr, ran.returncode


def count_within(words, folder, limit, most):
    """The same of a run that writes too much to be kept: returns how many bytes it wrote, and its status."""
    with subprocess.Popen(
        [program(), *words],
        cwd=folder,
        env={},
        stdin=subprocess.DEVNULL,
        stdout=subprocess.PIPE,
        stderr=subprocess.DEVNULL,
        preexec_fn=lambda: resource.setrlimit(limit, (most, most)),
    ) as ran:
        written = sum(map(len, iter(lambda: ran.stdout.read(1 << 20), b"")))
    return written, ran.returncode


def read_page(path):
    kept = read(path)
    *counts, acted, descriptor, offset = PAGE.unpack_from(kept)
    name = kept[PAGE.size : kept.index(b"\0", PAGE.size)]
    return dict(zip(CALLS, counts)), acted, descriptor, offset, os.fsdecode(name)


def read(path):
    with open(path, "rb") as file:
        return file.read()


def write(path, text):
    os.makedirs(os.path.dirname(path), exist_ok=True)
    with open(path, "w", encoding="utf-8") as file:
        file.write(text)


def star(corners, radius):
    """Returns a star with its middle at 0 0 and so many corners, half of them nearer."""
    turn = 2 * math.pi / corners
    points = [(math.cos(turn * k), math.sin(turn * k), radius * (10 - k % 2) // 10) for k in range(corners)]
    grid = [f"{round(x * far)} {round(y * far)}" for x, y, far in points]
    return f"POLYGON(({','.join([*grid, grid[0]])}))"


def terminal_part(terminal):
    """Reads from a terminal whose other end is closed; nothing is its end."""
    try:
        return os.read(terminal, PAGE_BYTES)
    except OSError:
        return b""


def square(x, y, side):
    """Returns a square whose upper side is ragged."""
    top = [(x + side * k // 8, y + side + k % 2) for k in range(8, -1, -1)]
    corners = [(x, y), (x + side, y), *top, (x, y)]
    return f"POLYGON(({','.join(f'{a} {b}' for a, b in corners)}))"


@once
def tables():
    """Writes a schema and its tables, 300 places, 60 areas and 2 long shores.

    In the folder `bad` an area crosses itself, and in `noted` a place and an area have a name of two lines.
    """
    path, numbers = f"{room()}/tables", random.Random(35)
    places, areas, shores = ["id,name,geom"], ["id,name,geom"], ["id,geom"]
    for it in range(300):
        name = "" if it % 7 == 0 else f"the place with the number {it}"
        places.append(f"{it},{name},POINT({numbers.randrange(1000)} {numbers.randrange(1000)})")
    for it in range(60):
        shape = square(numbers.randrange(900), numbers.randrange(900), numbers.randrange(8, 200))
        areas.append(f'{it},area {it},"{shape}"')
    for it in range(2):
        shores.append(f'{it},"LINESTRING{star(900, 9_000_000 - it)[8:-1]}"')
    bad = [*areas[:50], '50,bad,"POLYGON((0 0,4 4,4 0,0 4,0 0))"', *areas[51:]]
    two_lines = ["id,name,geom", '0,"two\nlines",']
    columns = "id INTEGER PRIMARY KEY, name TEXT"
    schema = f"CREATE TABLE place ({columns}, geom POINT);\nCREATE TABLE area ({columns}, geom POLYGON);\n"
    write(f"{path}/schema.sql", f"{schema}CREATE TABLE shore (id INTEGER PRIMARY KEY, geom LINESTRING);\n")
    for folder, points, shapes in (("good", places, areas), ("bad", places, bad), ("noted", two_lines, two_lines)):
        for name, rows in (("place", points), ("area", shapes), ("shore", shores)):
            write(f"{path}/{folder}/{name}.csv", "\n".join(rows) + "\n")
    return path


def query(text, folder="good"):
    return ["run", "schema.sql", folder, text]


def bordering(count):
    """Returns two areas that have a ragged border in common, of so many edges."""
    border = [(at, at % 2) for at in range(count)]
    below, above = [(count - 1, -9), (0, -9)], [(count - 1, 9), (0, 9)]
    rings = ([*border, *side, border[0]] for side in (below, above))
    return [f"POLYGON(({','.join(f'{x} {y}' for x, y in ring)}))" for ring in rings]


LARGE = square(100, 100, 700)
RING = "POLYGON((0 0,9 0,9 9,0 9,0 0),(2 2,2 7,7 7,7 2,2 2))"
JOIN = "SELECT p.id, p.name, a.name FROM place p JOIN area a ON ST_Within(p.geom, a.geom) WHERE a.id > 3"
# Each command, also with what ends in a fault.
COMMANDS = {
    "help": ["--help"],
    "misuse": ["rum"],
    "relate": ["relate", RING, "MULTILINESTRING((0 0,5 5,9 9),(1 -3,1 12))"],
    "relate of 400": ["relate", star(200, 9000), f"MULTILINESTRING((-9000 1,9000 2),{star(199, 9100)[8:-1]})"],
    "relate along a border": ["relate", *bordering(300)],
    "relate refused": ["relate", RING, "POLYGON((0 0,4 4,4 0,0 4,0 0))"],
    "check": ["check", "schema.sql", "good"],
    "check refused": ["check", "schema.sql", "bad"],
    "check --why": ["check", "--why", "schema.sql", "noted"],
    "check --why refused": ["check", "--why", "schema.sql", "bad"],
    "rows": query(f"SELECT id, name, ST_AsText(geom) FROM place WHERE NOT ST_Touches(geom, ST_GeomFromText('{LARGE}'))"),
    "long rows": query("SELECT id, ST_AsText(geom) FROM shore"),
    "rows refused": query("SELECT id FROM place WHERE ST_Within(geom, ST_GeomFromText('POINT(1'))"),
    "join": query(JOIN),
    "join that sorts": query("SELECT a.id, p.id FROM area a, place p WHERE ST_Contains(a.geom, p.geom)"),
    "LIMIT that sorts": query("SELECT a.id, p.id FROM area a, place p WHERE ST_Contains(a.geom, p.geom) LIMIT 40"),
    "COUNT(*)": query("SELECT COUNT(*) FROM area a JOIN area b ON ST_Overlaps(a.geom, b.geom)"),
    "EXPLAIN": query(f"EXPLAIN {JOIN}"),
    "EXPLAIN ANALYZE": query(f"EXPLAIN ANALYZE {JOIN}"),
}


@once
def whole(name):
    """Returns what a command writes where no call fails."""
    return run(COMMANDS[name])


def beginning_of(part, text):
    return text[: len(part)] == part


def line_of(fault, path):
    """Returns the line that a failed call on a file has to end in."""
    name = os.path.basename(path)
    if name == "schema.sql":
        return b"sfq: schema unreadable\n"
    word = "L11" if fault.call == "read" else "unreadable"
    return f"sfq: {name.removesuffix('.csv')} {word}\n".encode()


def says_less(ran, well):
    """Whether a run did all but write some of the lines that need the text of a table.

    They come after the line of a fault, or on their own at status 0.
    """
    lines = iter(well.err.splitlines())
    is_part = all(it in lines for it in ran.err.splitlines())
    return (ran.out, ran.status) == (well.out, well.status) and is_part and (ran.status == 0 or ran.err != b"")


def without_openings(ran):
    """Returns a run without the lines that say of a file why it can't be opened."""
    kept = [it for it in ran.err.splitlines(keepends=True) if not it.endswith((b" can't be opened\n", b" may not be read by this user\n"))]
    return ran._replace(err=b"".join(kept))


def is_allowed(fault, ran, well, reads_again=False):
    """Whether a run under a fault did what it may do, where `well` is the run without one."""
    if reads_again and fault.call in ("open", "statx"):
        ran = without_openings(ran)
    if ran.acted == 0 or fault.how in ("byte", "EINTR"):
        return ran.said() == well.said()
    if reads_again and fault.call in ("growth", "read", "open", "statx") and says_less(ran, well):
        return True
    if not beginning_of(ran.out, well.out):
        return False
    if fault.call == "growth":
        return ran.said() == well.said() or (ran.status == NO_MEMORY and ran.err in OUT_OF_MEMORY)
    if fault.call == "write" and ran.descriptor == 2:
        # Nothing more is written there; where each write fails from there on, the answer is lost too.
        is_done = ran.status == well.status and (ran.status != 0 or ran.out == well.out)
        is_lost = fault.times != 1 and (well.status, ran.status) == (0, UNREADABLE)
        return (is_done or is_lost) and beginning_of(ran.err, well.err)
    if fault.call == "write":
        # What --why adds comes after the answer, and so not where that is lost.
        is_line = beginning_of(ran.err, WRITE_FAILED) if fault.times != 1 else ran.err == WRITE_FAILED
        return ran.status == UNREADABLE and is_line
    return (ran.out, ran.err, ran.status) == (b"", line_of(fault, ran.path), UNREADABLE)


def places(count, most):
    """Returns the numbers of calls to fail: all and one more, or the first half of `most` and then some of the others."""
    if count <= most:
        return range(1, count + 2)
    step = -(-(count - most // 2) // (most - most // 2))
    return [*range(1, most // 2), *range(most // 2, count + 1, step), count + 1]


def wrong(name, call, how, times, most):
    """Fails a command's calls of a kind one after another, and returns the runs that did what they may not do."""
    well, found = whole(name), []
    for at in places(well.counts[call], most):
        fault = Fault(call, how, at, times)
        ran = run(COMMANDS[name], fault)
        is_met = ran.acted > 0
        if is_met != (at <= well.counts[call]) or not is_allowed(fault, ran, well, "--why" in COMMANDS[name]):
            found.append((fault, ran))
    return found
