"""Small inputs for each command of bindings/python, over a stand-in for the program sfq, and runs of them in surroundings that a test makes."""
import contextlib
import json
import os
import shlex
import shutil
import subprocess
import sys
import tempfile
import time
import unittest
from typing import Any, Optional, Sequence

from support import over_program, python_command, python_with, write

# The program in the commands: it says the same of each query and each pair. Where WAITS names a file it makes that, and waits.
STAND_IN = """#!/bin/sh
if [ -n "$WAITS" ]; then
    : > "$WAITS"
    exec sleep 600
fi
case "$1" in
run) printf 'id,geom\\n1,POINT(1 2)\\n2,POINT(3 4)\\n' ;;
pairs) sed 's/.*/FF0FFF0F2/' ;;
esac
"""
LAYER = {"table": "t", "layer": "t", "rows": 2, "records": 2, "left_out": 0, "coordinate_system": None,
         "columns": [{"name": "id", "type": "INTEGER"}, {"name": "geom", "type": "POINT"}]}
ROWS = "id,geom\n1,POINT(1 2)\n2,POINT(3 4)\n"
FILES = {
    "tables/schema.sql": "CREATE TABLE t (id INTEGER PRIMARY KEY, geom POINT);\n", "tables/t.csv": ROWS,
    "tables/grid.json": json.dumps({"step": "1", "origin": ["0", "0"], "layers": [LAYER]}),
    "tables/left-out.csv": "layer,record,fid,reason,done,table\n", "plain/t.csv": ROWS, "rows.csv": ROWS, "pairs.csv": '"POINT(1 1)","POINT(2 2)"\n',
    "source.geojson": json.dumps({"type": "FeatureCollection", "features": [
        {"type": "Feature", "properties": {}, "geometry": {"type": "Point", "coordinates": [it, it]}} for it in (1, 2)]}),
}
QUERY = "SELECT id, geom FROM t"
GDAL = python_with("osgeo.ogr")
# The Python of the launchers, which any user may run.
PYTHON = "/usr/bin/python3" if os.path.isfile("/usr/bin/python3") else sys.executable
# The beginning of the name of what is being written.
NEW = ".sfq-"


def words_of(name: str, room: str, out: str) -> list[str]:
    """Returns the words of a command that reads from a room. `out` is the path of what it writes, which is nothing where it writes on standard output."""
    python, program = str(GDAL) if name == "sfq-import" else PYTHON, f"{room}/sfq"
    to = ["--output", out] if out else []
    words = {
        "sfq-schema": [f"{room}/plain"], "sfq-export": [f"{room}/rows.csv", "--like", f"{room}/tables", *(["--to", out] if out else ["--svg", "/dev/stdout"])],
        "sfq-import": [f"{room}/source.geojson", "--grid", "1", "--out", out],
        "sfq-ask": [f"{room}/tables", QUERY, "--out", "csv", *to],
        "sfq-shell": [f"{room}/tables/schema.sql", f"{room}/tables", *(["-c", f".output {shlex.quote(out)}"] if out else []), "-c", QUERY],
        "sfq-audit": ["write", f"{room}/pairs.csv", "--format", "csv", "--sfq", program, *to],
        "sfq-scale": ["run", f"{room}/tables/schema.sql", f"{room}/tables", QUERY, "--scheduler", "tcp://127.0.0.1:1", "--sfq", program, "--tiles", program],
    }
    return [*command(python, room, name), *words[name]]


def command(python: str, room: str, name: str) -> list[str]:
    """Returns the words that run a command: one that calls the libraries over the room's stand-in for the program."""
    return over_program(python, f"{room}/sfq", name) if name in ("sfq-import", "sfq-ask", "sfq-shell") else python_command(python, name)


# Those that write into a file that is named, and what it may be called.
WRITE = {"sfq-export": "out.json", "sfq-ask": "ask.csv", "sfq-shell": "shell.csv", "sfq-audit": "audit.csv", **({"sfq-import": "out"} if GDAL else {})}
COMMANDS = ("sfq-schema", "sfq-export", "sfq-ask", "sfq-shell", "sfq-audit", "sfq-scale", *(["sfq-import"] if GDAL else []))


class Room(unittest.TestCase):
    """A test case with a room of inputs, and a folder `place` for what is written."""

    def setUp(self) -> None:
        self.room = tempfile.mkdtemp(prefix="surroundings-")
        self.addCleanup(shutil.rmtree, self.room, ignore_errors=True)
        for name, text in FILES.items():
            write(f"{self.room}/{name}", text)
        write(f"{self.room}/sfq", STAND_IN, 0o755)
        self.place, self.temporary = f"{self.room}/place", f"{self.room}/temporary"
        for it in (self.place, self.temporary):
            os.mkdir(it)
        os.chmod(self.room, 0o755)
        os.chmod(self.temporary, 0o1777)

    def environment(self, **more: Optional[str]) -> dict[str, str]:
        usual: dict[str, Optional[str]] = {"TMPDIR": self.temporary, "XDG_CACHE_HOME": f"{self.room}/cache", "PYTHONDONTWRITEBYTECODE": "1", "PYTHONPATH": None}
        known: dict[str, Optional[str]] = {**os.environ, **usual, **more}
        return {name: it for name, it in known.items() if it is not None}

    def run_words(self, words: Sequence[str], shut: str = "", **how: Any) -> tuple[int, str, str]:
        """Runs words, with the streams closed whose numbers `shut` has, and returns the status and what came on both streams."""
        closed = "".join(f" {it}>&-" for it in shut)
        words = ["sh", "-c", f'exec "$@"{closed}', "sh", *words] if shut else words
        usual: dict[str, Any] = {"stdin": subprocess.DEVNULL, "stdout": subprocess.PIPE, "stderr": subprocess.PIPE, "env": self.environment(), "cwd": self.room}
        ran = subprocess.run(words, timeout=300, **{**usual, **how})
        return ran.returncode, (ran.stdout or b"").decode("utf-8", "surrogateescape"), (ran.stderr or b"").decode("utf-8", "surrogateescape")

    def text_of(self, name: str) -> Any:
        """Returns what a command writes into its file where nothing is amiss."""
        path = f"{self.place}/{WRITE[name]}"
        status, _, err = self.run_words(words_of(name, self.room, path))
        self.assertEqual(status, 0, err)
        return contents(path)

    def need_nothing_left(self, *folders: str) -> None:
        """Fails where a file that was being written is left in the place or in the folder for temporary files."""
        for it in (self.place, self.temporary, *folders):
            self.assertEqual([name for name in os.listdir(it) if name.startswith(NEW) or "sfq" in name or name.endswith(".new")], [], it)

    def waiting(self, words: Sequence[str], **how: Any) -> subprocess.Popen[bytes]:
        """Starts words whose program waits, and returns the process once it does."""
        mark = f"{self.room}/waits"
        with contextlib.suppress(FileNotFoundError):
            os.remove(mark)
        child = subprocess.Popen(words, stdin=subprocess.DEVNULL, stdout=subprocess.PIPE, stderr=subprocess.PIPE, cwd=self.room,
                                 env=self.environment(WAITS=mark), start_new_session=True, **how)
        due = time.monotonic() + 120
        while not os.path.exists(mark) and child.poll() is None and time.monotonic() < due:
            time.sleep(0.02)
        return child


def contents(path: str) -> Any:
    """Returns the text of a file, of a folder those of its files by their names; None where there is nothing."""
    if not os.path.lexists(path):
        return None
    if os.path.isdir(path):
        return {it: contents(f"{path}/{it}") for it in sorted(os.listdir(path))}
    with open(path, encoding="utf-8") as file:
        return file.read()
