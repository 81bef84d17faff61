"""What runs on a worker. These functions are sent whole, so a worker needs no file of sfq-scale: they use the standard library alone."""
from __future__ import annotations

import errno
import hashlib
import os
import shutil
import subprocess
import tempfile
import time
from typing import IO, Optional, Sequence, Union

# The status of sfq, the text on its standard error, its output, or its path and size, and two times in seconds of processor.
Outcome = tuple[Union[int, str], bytes, Union[None, bytes, tuple[str, int]], float, float]


def other_program(path: str, wanted: str) -> Optional[str]:
    """Returns why the program at a path isn't the one that is wanted, or None.

    A worker keeps the sum of a file, and takes it anew where the file has changed.
    """
    import distributed

    found = shutil.which(path)
    if not found:
        return f"there is no program {path}"
    sums = distributed.get_worker().__dict__.setdefault("sfq_sums", {})
    now = os.stat(found)
    mark = found, now.st_dev, now.st_ino, now.st_size, now.st_mtime_ns
    if mark not in sums:
        with open(found, "rb") as file:
            sums[mark] = hashlib.sha256(file.read()).hexdigest()
    return None if sums[mark] == wanted else f"{found} has the SHA-256 {sums[mark]}, not {wanted}"


def look(path: str, wanted: str, room: str) -> Optional[str]:
    """Returns why this worker can't work, or None: it has another program, or doesn't see the folder of the tiles."""
    return other_program(path, wanted) or (None if os.path.isdir(room) else f"there is no folder {room}")


def given(whole: bytes) -> bytes:
    """Returns its argument: bytes that tasks share, and that are made again where a worker with them dies."""
    return whole


def placed(program: bytes, wanted: str) -> str:
    """Writes the program into the worker's own folder, unless it is there, and returns its path."""
    import distributed

    path = f"{distributed.get_worker().local_directory}/sfq-{wanted}"
    if not os.path.exists(path):
        handle, made = tempfile.mkstemp(dir=os.path.dirname(path))
        with open(handle, "wb") as file:
            file.write(program)
        os.chmod(made, 0o700)
        os.replace(made, path)
    return path


def started(words: list[str], out: IO[bytes]) -> subprocess.Popen[bytes]:
    """Starts a program whose standard output is a file."""
    for _ in range(100):
        try:
            return subprocess.Popen(words, stdin=subprocess.DEVNULL, stdout=out, stderr=subprocess.PIPE)
        except OSError as error:
            # Another thread began a program while this one was being written.
            if error.errno != errno.ETXTBSY:
                raise
            time.sleep(0.05)
    raise OSError(errno.ETXTBSY, "the program is being written")


def run(
    program: Union[str, bytes], wanted: str, schema: str, query: str, tables: Sequence[tuple[str, Union[str, bytes]]], answers: Optional[str]
) -> Outcome:
    """Runs sfq over tables, each a name and a path, or its bytes. Returns its status, the text on its standard error, its
    output, and the seconds of processor that it took, and that this function took.

    `program` is a path, or bytes. `answers` is the folder for the output, whose path and size are returned; without it
    its bytes are. Where the system refuses sfq something, this raises, so that it is tried again.
    """
    begun = time.thread_time()
    room = tempfile.mkdtemp(prefix="sfq-scale-")
    try:
        program = placed(program, wanted) if isinstance(program, bytes) else program
        other = other_program(program, wanted)
        if other:
            return "other", other.encode(), None, 0.0, 0.0
        os.mkdir(f"{room}/tables")
        for name, text in (("schema.sql", schema), ("query.sql", query)):
            with open(f"{room}/{name}", "w", encoding="utf-8", newline="") as file:
                file.write(text)
        for name, table in tables:
            if isinstance(table, bytes):
                with open(f"{room}/tables/{name}.csv", "wb") as file:
                    file.write(table)
            else:
                os.symlink(table, f"{room}/tables/{name}.csv")
        words = [shutil.which(program) or program, "run", f"{room}/schema.sql", f"{room}/tables", f"@{room}/query.sql"]
        handle, path = tempfile.mkstemp(dir=answers or room, suffix=".csv")
        with open(handle, "wb") as out:
            child = started(words, out)
            assert child.stderr
            with child.stderr:
                err = child.stderr.read()
            _, ended, usage = os.wait4(child.pid, 0)
            status = child.returncode = os.waitstatus_to_exitcode(ended)
        seconds = usage.ru_utime + usage.ru_stime
        if status < 0 or status in (6, 7):
            raise RuntimeError(status, err)
        output: Union[bytes, tuple[str, int]]
        if answers:
            output = path, os.path.getsize(path)
        else:
            with open(path, "rb") as file:
                output = file.read()
        return status, err, output, seconds, time.thread_time() - begun
    finally:
        shutil.rmtree(room, ignore_errors=True)
