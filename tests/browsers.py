"""What the tests of the package for JavaScript and of the web page share: browsers that report, and what modules are asked."""
import http.server
import json
import os
import random
import re
import shutil
import signal
import subprocess
import tempfile
import threading

from support import ROOT, read

import answers
import pairs
import required_rows
import wasm
from fuzz import changes

# A browser may take this long to begin and to do its work, in seconds.
PATIENCE = 300
KINDS = {".html": "text/html", ".js": "text/javascript", ".css": "text/css", ".wasm": "application/wasm"}


class Served(http.server.ThreadingHTTPServer):
    """Serves folders and texts on this machine alone, and takes one report."""

    def __init__(self, folders, texts):
        super().__init__(("127.0.0.1", 0), Handler)
        self.folders, self.texts = folders, texts
        self.report, self.has_report = None, threading.Event()

    def content(self, path):
        """Returns the bytes at a path, or None. The first folder that has it counts."""
        if path in self.texts:
            return self.texts[path]
        for folder in self.folders:
            file = os.path.realpath(f"{folder}{path}")
            if file.startswith(f"{os.path.realpath(folder)}/") and os.path.isfile(file):
                with open(file, "rb") as it:
                    return it.read()
        return None


class Handler(http.server.BaseHTTPRequestHandler):
    def do_GET(self):
        path = self.path.partition("?")[0]
        content = self.server.content(path)
        if content is None:
            self.send_error(404)
            return
        self.send_response(200)
        self.send_header("Content-Type", KINDS.get(os.path.splitext(path)[1], "application/json"))
        self.send_header("Content-Length", str(len(content)))
        self.end_headers()
        self.wfile.write(content)

    def do_POST(self):
        self.server.report = json.loads(self.rfile.read(int(self.headers["Content-Length"])))
        self.send_response(204)
        self.end_headers()
        self.server.has_report.set()

    def log_message(self, *_):
        pass


def chromium(room, address):
    words = ["--headless=new", "--no-sandbox", "--disable-gpu", "--disable-dev-shm-usage", "--no-first-run"]
    return ["chromium", *words, f"--user-data-dir={room}/profile", address]


# Debian's suite sid has Firefox under its own name too, which is the later one.
FIREFOX = "firefox" if shutil.which("firefox") and not shutil.which("firefox-esr") else "firefox-esr"


def firefox(room, address):
    os.mkdir(f"{room}/profile")
    return [FIREFOX, "--headless", "--no-remote", "--profile", f"{room}/profile", address]


# The browsers by their packages.
BROWSERS = {"chromium": chromium, FIREFOX: firefox}


def reported(package, page, folders, texts):
    """Returns what a page reports in the browser of a package, or None where it reports nothing in time."""
    with tempfile.TemporaryDirectory(prefix="sfq-web-test-", ignore_cleanup_errors=True) as room:
        server = Served(folders, texts)
        threading.Thread(target=server.serve_forever, daemon=True).start()
        words = BROWSERS[package](room, f"http://127.0.0.1:{server.server_port}/{page}")
        started = subprocess.Popen(
            words, env={**os.environ, "HOME": room}, stdin=subprocess.DEVNULL, stdout=subprocess.DEVNULL,
            stderr=subprocess.DEVNULL, start_new_session=True,
        )
        try:
            server.has_report.wait(PATIENCE)
        finally:
            os.killpg(started.pid, signal.SIGKILL)
            started.wait()
            server.shutdown()
            server.server_close()
    return server.report


# ---- modules whose memory is short


def leb(value):
    found = bytearray()
    while value >= 0x80:
        found.append(value & 0x7F | 0x80)
        value >>= 7
    return bytes([*found, value])


def limited(module, pages):
    """Returns a module whose memory grows by so many pages at most."""
    begin, end = wasm.sections(module)[5]
    least = wasm.number(module, begin + 2)[0]
    memory = b"\1\1" + leb(least) + leb(least + pages)
    head = begin - len(leb(end - begin))
    return module[:head] + leb(len(memory)) + memory + module[end:]


# ---- what is asked


def rows_of_scripts():
    """Returns the rows of all scripts."""
    names = read(f"{ROOT}/crates/scripts/args").splitlines()
    return [row for name in names for row in required_rows.rows_of(read(f"{ROOT}/crates/scripts/data/{name}"))]


def rows_that_relate():
    """Returns the pairs of the scripts with what they print, but for words that name a file."""
    found = []
    for row in rows_of_scripts():
        if row.command.startswith("relate ") and row.command.isascii():
            pair = row.command.removeprefix("relate ").split(" | ", 1)
            if not any(it.startswith("@") for it in pair):
                found.append((pair, row.output.partition("\n")[0].removeprefix("! ")))
    return found


def rows_that_ask():
    """Returns the queries of the scripts, each with its schema and the texts of its tables, and what they print."""
    found = []
    for row in rows_of_scripts():
        schema = row.files.get("schema", "")
        tables = [row.files.get(f"table {it}") for it in re.findall(r"(?i)CREATE\s+TABLE\s+(\w+)", schema)]
        all_texts = [schema, row.command, *filter(None, tables)]
        if re.match(r"(?i)\s*(SELECT|EXPLAIN)\b", row.command) and tables and None not in tables and all(map(str.isascii, all_texts)):
            is_fault = row.output.startswith("! ")
            printed = row.output.removeprefix("! ").partition("\n")[0] if is_fault else row.output
            found.append(((schema, tables, row.command), printed))
    return found


def databases_of(rows):
    """Returns queries by their database: of each schema with its tables the queries and what they print."""
    found = {}
    for (schema, tables, query), printed in rows:
        found.setdefault((schema, tuple(tables)), []).append((query, printed))
    return found


def random_pairs(count, seed):
    """Returns random pairs of texts. Most are of valid geometries, which touch often; some texts are changed at random."""
    chance, found = random.Random(seed), []
    while len(found) < count:
        texts = [pairs.draw(chance, chance.choice(pairs.TYPES)) for _ in range(2)]
        if chance.random() < 0.15:
            at = chance.randrange(2)
            others = [b"POLYGON((0 0,4 0,4 4,0 0))", b"MULTIPOINT((1 1),(2 2))", b"EMPTY"]
            texts[at] = changes.change(texts[at].encode(), others, "geometry", chance).decode("latin-1")
        if all(it.isascii() and "\0" not in it and len(it) < 10_000 for it in texts):
            found.append(texts)
    return found


def printed_of(command, found):
    """Returns what the program writes for each list of words by a command."""
    given = answers.by_program([[command, "--", *it] for it in found])
    return [(it.out or it.err).decode().rstrip("\n") for it in given]


def with_answers(found):
    """Returns pairs, each with the line that the program writes for it."""
    return list(zip(found, printed_of("relate", found)))
