"""The rows of the scripts as words over files, and what the program for Node gives for many of them in one process."""
import base64
import json
import os
import re
import subprocess
from typing import NamedTuple, Optional, Sequence

from support import ROOT

import required_rows

PACKAGE = f"{ROOT}/bindings/javascript/out/sfq"
DRIVER = f"{ROOT}/tests/node/rows.mjs"
SCHEMA, FOLDER = "s", "d"
# How long a process may take, in seconds.
PATIENCE = 300


class Row(NamedTuple):
    """The words of a command, its files by their paths, and what it has to print."""

    words: list[str]
    files: dict[str, bytes]
    printed: bytes


class Given(NamedTuple):
    """What a command gave: its status, standard output, standard error, and what explains a fault."""

    status: int
    out: bytes
    err: bytes
    more: bytes

    def printed(self) -> bytes:
        """Returns it as a script has it."""
        err = self.err + self.more
        return self.out + (b"! " + err if err else b"") + (b"status %d\n" % self.status if self.status else b"")


def is_made() -> bool:
    return os.path.isfile(f"{PACKAGE}/sfq_serve.wasm")


def written_out(text: bytes) -> bytes:
    """Returns a text with the short forms of scripts written out, as crates/scripts/src/short_forms.rt does it."""
    def meant(form: re.Match[bytes]) -> bytes:
        repeated = re.fullmatch(rb"(\d+) to (\d+) of (.*)", form[1], re.S)
        if repeated:
            first, last, part = int(repeated[1]), int(repeated[2]), repeated[3]
            return b"".join(part.replace(b"$", b"%d" % it) for it in range(first, last + 1))
        byte = re.fullmatch(rb"byte (\d+)", form[1])
        return bytes([int(byte[1])]) if byte else form[1]

    return re.sub(rb"\{([^}]*)\}", meant, text.replace(b"$S", required_rows.SQUARE.encode()))


def words_of(command: str) -> list[str]:
    """Returns the words of a command of a script, as crates/scripts/src/played_commands.rt reads it."""
    if command == "sfq" or command.startswith("sfq | "):
        return command.split(" | ")
    verb, _, rest = command.partition(" ")
    if verb == "why":
        return ["sfq", "why", "--", *rest.split(" | ", 1)]
    if verb == "relate" and " | " in rest:
        return ["sfq", "relate", "--", *rest.split(" | ", 1)]
    if verb in ("pairs", "fault"):
        return ["sfq", verb, "--", rest]
    return ["sfq", "check", SCHEMA, FOLDER] if command == "check" else ["sfq", "run", "--", SCHEMA, FOLDER, command]


def path_of(head: str) -> Optional[str]:
    """Returns the path of the file that a block gives whose first line is this."""
    kind, _, name = head.partition(" ")
    if head == "schema":
        return SCHEMA
    return {"file": name, "table": f"{FOLDER}/{name}.csv"}.get(kind) if name else None


def rows_of(script: bytes) -> list[Row]:
    """Returns the rows of a script, as crates/scripts/src/blocks.rt reads it."""
    rows: list[Row] = []
    files: dict[str, bytes] = {}
    for lines in script.split(b"\n\n"):
        head, _, body = (lines.strip(b"\n") + b"\n").replace(b"\\\n", b"").partition(b"\n")
        if not head or head.startswith(b"#"):
            continue
        path = path_of(head.decode())
        if path is None:
            rows.append(Row(words_of(written_out(head).decode(errors="replace")), files, written_out(body)))
        else:
            files = {**files, path: written_out(body)}
    return rows


def all_rows() -> list[Row]:
    """Returns the rows of all scripts."""
    found = []
    for it in required_rows.read(f"{required_rows.SCRIPTS}/args").splitlines():
        with open(f"{required_rows.SCRIPTS}/{it if '/' in it else f'data/{it}'}", "rb") as file:
            found += rows_of(file.read())
    return found


def played(cases: Sequence[tuple[list[str], Optional[dict[str, bytes]], bool]]) -> list[Given]:
    """Returns what the proved code gives for each case: words, files, or None where they are on the disk, and whether it asks why."""
    coded = [
        (words, files and {path: base64.b64encode(text).decode() for path, text in files.items()} if files is not None else None, asks)
        for words, files, asks in cases
    ]
    ran = subprocess.run(["node", DRIVER, PACKAGE], input=json.dumps(coded).encode(), capture_output=True, timeout=PATIENCE)
    if ran.returncode:
        raise AssertionError(ran.stderr.decode(errors="replace"))
    found = [Given(status, *(base64.b64decode(it) for it in texts)) for status, *texts in json.loads(ran.stdout)]
    if len(found) != len(cases):
        raise AssertionError(f"{len(found)} answers to {len(cases)} cases")
    return found
