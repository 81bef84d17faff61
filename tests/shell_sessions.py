"""Sessions of sfq-shell for tests: a stand-in for the program, whose answers are known, and a pseudo-terminal."""
import contextlib
import fcntl
import json
import os
import pty
import re
import select
import shutil
import signal
import struct
import subprocess
import sys
import tempfile
import termios
import time

from support import ROOT, over_program, read, write

import printed

SCHEMA, FOLDER = f"{ROOT}/examples/parcels/schema.sql", f"{ROOT}/examples/parcels"
# The stand-in; blanks and line ends are alike to it. Of a query without an answer it waits, after the header, until it is ended.
STAND_IN = """#!{python}
import json, os, sys, time
room = os.path.dirname(os.path.realpath(__file__))
words = [it for it in sys.argv[1:] if it not in ("--", "--why")]
if words[0] == "fault":
    os.execv({program!r}, [{program!r}, *words])
query = open(words[3][1:], "rb").read().decode("utf-8", "surrogateescape") if words[3].startswith("@") else words[3]
with open(room + "/asked", "a") as file:
    file.write(json.dumps([*words[:3], query]) + "\\n")
known = {{" ".join(text.split()): it for text, it in json.load(open(room + "/answers")).items()}}
query = " ".join(query.split())
if query not in known:
    print("id", flush=True)
    open(room + "/waits", "w").write(str(os.getpid()))
    time.sleep(600)
out, err, status = known[query]
sys.stdout.write(out)
sys.stderr.write(err)
sys.exit(status)
"""


def shown():
    """Returns what the land register's page shows for each query; test_documents compares that with the program's answers."""
    found = printed.of_queries("examples/parcels/README.md", read(f"{FOLDER}/README.md"))
    return {it.words[-1]: (it.text, "", 0) for it in found}


class Program:
    """A folder with the stand-in as the program sfq. `known` has what is written to both streams, and the status, by queries."""

    def __init__(self, known):
        self.room = tempfile.mkdtemp(prefix="sfq-shell-")
        write(f"{self.room}/answers", json.dumps(known))
        write(f"{self.room}/sfq", STAND_IN.format(python=sys.executable, program=f"{ROOT}/sfq"), 0o755)

    def remove(self):
        shutil.rmtree(self.room, ignore_errors=True)

    def asked(self):
        """Returns the queries that were asked so far."""
        path = f"{self.room}/asked"
        return [json.loads(line)[-1] for line in read(path).splitlines()] if os.path.isfile(path) else []

    def waits(self):
        """Returns the number of the process of the stand-in once it waits."""
        path, due = f"{self.room}/waits", time.monotonic() + 120
        while not (os.path.isfile(path) and read(path)) and time.monotonic() < due:
            time.sleep(0.05)
        return int(read(path))

    def words(self, *more, schema=SCHEMA, folder=FOLDER):
        """Returns the words of a session."""
        return [*over_program(sys.executable, f"{self.room}/sfq", "sfq-shell"), schema, folder, *more]

    def environment(self):
        return {**os.environ, "PATH": f"{self.room}:{os.environ['PATH']}", "XDG_STATE_HOME": f"{self.room}/state", "TERM": "dumb"}

    def run(self, text, *more, **where):
        """Runs a session through a pipe, and returns what it wrote and its status."""
        given = text.encode("utf-8", "surrogateescape")
        ran = subprocess.run(self.words(*more, **where), input=given, env=self.environment(), cwd=self.room, capture_output=True, timeout=300)
        return ran.stdout.decode("utf-8", "surrogateescape"), ran.stderr.decode("utf-8", "replace"), ran.returncode


class Terminal:
    """A session in a pseudo-terminal of some columns."""

    def __init__(self, words, environment, columns=80):
        self.process, self.terminal = pty.fork()
        if not self.process:
            os.execvpe(words[0], words, environment)
        fcntl.ioctl(self.terminal, termios.TIOCSWINSZ, struct.pack("HHHH", 24, columns, 0, 0))
        self.text = ""

    def type(self, text):
        os.write(self.terminal, text.encode())

    def until(self, pattern, seconds=120):
        """Reads until the pattern comes, and returns all up to its end, without what moves the cursor."""
        due = time.monotonic() + seconds
        while True:
            found = re.search(pattern, self.text)
            if found:
                before, self.text = self.text[: found.end()], self.text[found.end() :]
                return before
            left = due - time.monotonic()
            if left <= 0 or not select.select([self.terminal], [], [], left)[0]:
                raise AssertionError(f"no {pattern!r} in {self.text!r}")
            try:
                part = os.read(self.terminal, 65536).decode("utf-8", "replace")
            except OSError:
                part = ""
            if not part:
                raise AssertionError(f"it ended, with no {pattern!r} in {self.text!r}")
            # A line that says how far it is goes again; the rest moves the cursor.
            self.text = re.sub(r"\r[^\r\n]*\x1b\[K|\x1b\[[\d;?]*[A-Za-z]|\x07", "", self.text + part).replace("\r\n", "\n")

    def ask(self, line, prompt="sfq> "):
        """Types a line, and returns what is written up to the next prompt."""
        self.type(line + "\r")
        return self.until(f"\n{prompt}\\Z").partition("\n")[2].removesuffix(prompt)

    def interrupt(self):
        """Types Ctrl-C, and returns what is written up to the next prompt. Where it comes between a prompt and the wait for a key, Python
        sees it at the next key only, so it is typed again."""
        for _ in range(24):
            self.type("\x03")
            with contextlib.suppress(AssertionError):
                return self.until("sfq> ", 5)
        raise AssertionError(f"no prompt after Ctrl-C in {self.text!r}")

    def ended(self):
        """Waits for the end, and returns the status."""
        while True:
            try:
                if not os.read(self.terminal, 65536):
                    break
            except OSError:
                break
        return os.waitstatus_to_exitcode(os.waitpid(self.process, 0)[1])

    def stop(self):
        """Ends it if it still runs."""
        try:
            os.kill(self.process, signal.SIGKILL)
            os.waitpid(self.process, 0)
        except (ProcessLookupError, ChildProcessError):
            pass
        os.close(self.terminal)
