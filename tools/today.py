"""./test --today: the system tests of everything that sfq is put into, in folders with later suites of Debian.

    ./test --today [--write] [SUITE..] [NAME..]

The suites are trixie and sid, and a NAME is one of C, Python, GeoPandas, SQLite, PostgreSQL, GDAL, QGIS, Node and browsers; without any
all are tried. SFQ_TODAY names the folder that has a folder of each suite; by default it is /var/cache/sfq. A folder that isn't there is
made, in minutes and of some gigabytes, and what is missing in it is installed: so this needs root, a network, and the packages
debootstrap, gpgv and debian-archive-keyring. In it the tests compile by the compiler and headers of the suite over the libraries that
./build --library made here, and run its programs. `--write` writes the rows of what passed in a suite into the table of versions in
docs/LIBRARY.md, with the versions there and on this machine, if nothing failed.

The NAME packages installs what `./build --dist` makes, over the proved program: in folders of bookworm, trixie and sid that have Python
alone, and the wheel also where GeoPandas is (tests/test_installed.py).
"""
import fnmatch
import json
import os
import re
import shutil
import subprocess
import sys
import tempfile
import time
from typing import NamedTuple, Optional, Sequence

import library
import peer_folder
import repository
import version
from parts import Beat, Counts, Failure, Report, Skipped, read
from parts import run as run_command

PLACE = "/var/cache/sfq"
DOCUMENT = f"{repository.ROOT}/docs/LIBRARY.md"
HEAD = "| into | lowest tried | highest tried | by |\n|---|---|---|---|\n"


class Shown(NamedTuple):
    """A program whose version is shown: its name, the Debian packages that may have it, and how many numbers of the version count."""

    name: str
    packages: tuple[str, ...]
    numbers: int = 2


class Rim(NamedTuple):
    """Something that sfq is put into: the packages of a suite that its tests need, the files of tests, one test that takes seconds and
    compiles what there is to compile, and whose versions are shown."""

    name: str
    packages: tuple[str, ...]
    files: tuple[str, ...]
    short: str
    shown: tuple[Shown, ...]


RIMS = (
    Rim("C", ("gcc", "g++", "libc6-dev", "binutils", "make", "pkg-config", "valgrind", "gdb"), ("test_library", "test_databases"),
        "test_library.Library.test_examples_of_the_document", (Shown("gcc", ("gcc",), 1), Shown("glibc", ("libc6",)))),
    Rim("Python", ("python3-venv", "python3-pip", "python3-setuptools", "python3-wheel", "python3-numpy", "python3-pandas"),
        ("test_python", "test_databases_python", "test_dbapi", "test_values"), "test_python.Package.test_the_example_of_the_document",
        (Shown("Python", ("python3",)),)),
    Rim("GeoPandas", ("python3-geopandas", "python3-rtree", "python3-pytest"), ("test_geopandas",), "test_geopandas.GeoPandas.test_the_example_of_the_document",
        (Shown("GeoPandas", ("python3-geopandas",)), Shown("shapely", ("python3-shapely",)))),
    Rim("SQLite", ("sqlite3", "libsqlite3-dev"), ("test_sqlite", "test_sqlite_tables", "test_sqlite_layers"),
        "test_sqlite.Sqlite.test_the_example_of_the_document", (Shown("SQLite", ("sqlite3",)),)),
    Rim("PostgreSQL", ("postgresql", "postgresql-server-dev-all", "postgresql-postgis"), ("test_postgresql",),
        "test_postgresql.Postgresql.test_the_example_of_the_document",
        (Shown("PostgreSQL", ("postgresql-[0-9][0-9]",), 1), Shown("PostGIS", ("postgresql-[0-9][0-9]-postgis-3",)))),
    Rim("GDAL", ("gdal-bin", "python3-gdal"), ("test_import", "test_import_layers", "test_import_parts", "test_import_sources"),
        "test_import.Documents.test_the_example_prints_what_is_shown", (Shown("GDAL", ("gdal-bin",)),)),
    Rim("QGIS", ("qgis", "qgis-providers", "python3-qgis", "r-cran-sf"), ("test_qgis",), "test_qgis.OfTheZip.test_the_counties_of_a_state", (Shown("QGIS", ("qgis",)),)),
    Rim("Node", ("nodejs", "node-typescript"), ("test_node", "test_javascript"), "test_javascript.Installed.test_examples_of_the_document",
        (Shown("Node", ("nodejs",), 1),)),
    Rim("browsers", ("chromium", "chromium-driver", "firefox-esr", "python3-selenium"), ("test_web",), "",
        (Shown("Chromium", ("chromium",), 1), Shown("Firefox", ("firefox", "firefox-esr"), 1))),
)


# The name of what is tried besides, the suites in which it is, the file of its tests, and what two folders of each suite need for it: the
# bare one, and the one where GeoPandas is, for which Debian's pyproj finds its data by the command proj in an environment of its own.
PACKAGES = "packages"
DEBIANS = peer_folder.DEBIANS
INSTALLED = "test_installed"
PYTHON = ("python3", "python3-venv")
JOINS = (*PYTHON, "python3-geopandas", "proj-bin")


class Found(NamedTuple):
    """What came of a suite: the versions there, and the rims of which tests passed and none failed."""

    versions: dict[str, str]
    good: list[str]


# How a package is called in a suite where it has another name.
NAMED = {("sid", "firefox-esr"): "firefox"}


def place() -> str:
    """Returns the folder that has a folder of each suite."""
    return os.environ.get("SFQ_TODAY") or PLACE


def folder_of(suite: str) -> str:
    return f"{place()}/{suite}"


def bare_folder_of(suite: str) -> str:
    """Returns the folder that has a suite's base system and Python alone."""
    return f"{place()}/bare-{suite}"


# ---- versions ----


def versions(folder: str = "") -> dict[str, str]:
    """Returns the version of each program that is shown, in a folder or, without one, on this machine; those of packages that are there."""
    words = ["dpkg-query", "-W", "-f", "${db:Status-Status} ${Package} ${Version}\n", f"--admindir={folder}/var/lib/dpkg"]
    try:
        lines = subprocess.run(words, capture_output=True, text=True).stdout.splitlines()
    except FileNotFoundError:
        return {}
    there = {name: number for state, name, number in (line.split(" ") for line in lines) if state == "installed"}
    found = {}
    for it in (each for rim in RIMS for each in rim.shown):
        known = [there[name] for pattern in it.packages for name in sorted(there) if fnmatch.fnmatchcase(name, pattern)]
        if known:
            found[it.name] = shortened(known[-1], it.numbers)
    return found


def shortened(given: str, count: int) -> str:
    """Returns the first numbers of a package's version, without its epoch and Debian's part."""
    return ".".join(re.findall(r"\d+", given.partition(":")[2] or given)[:count])


# ---- a folder ----


def missing_packages(suite: str, folder: str, packages: Sequence[str]) -> list[str]:
    """Returns those of the packages that a suite's folder lacks, by their names there."""
    wanted = [NAMED.get((suite, it), it) for it in packages]
    words = ["dpkg-query", f"--admindir={folder}/var/lib/dpkg", "-W", "-f", "${db:Status-Status} ${Package}\n", *wanted]
    ran = subprocess.run(words, capture_output=True, text=True)
    there = {line.partition(" ")[2] for line in ran.stdout.splitlines() if line.startswith("installed ")}
    return [it for it in wanted if it not in there]


def run_folder(what: str, *words: str) -> Optional[str]:
    """Runs tools/peer_folder.py, and prints meanwhile what it does. Returns why that failed, if it did: its last line, and debootstrap's."""
    with Beat(what):
        status, out, err = run_command([sys.executable, "-B", f"{repository.ROOT}/tools/peer_folder.py", *words])
    if status == 0:
        return None
    lines = (out + err).splitlines()
    return " ".join([*(it for it in lines[:-1] if it.startswith("E: ")), *lines[-1:]]) or f"peer_folder.py ended with status {status}"


def install(suite: str, folder: str, packages: Sequence[str]) -> None:
    """Installs packages that a suite's folder lacks. Where that fails, the tests say what is missing."""
    missing = missing_packages(suite, folder, packages)
    if missing:
        print(f"sfq: {suite}: installing {', '.join(missing)}", flush=True)
        why = run_folder(f"apt-get in {folder}", "add", folder, *missing)
        if why:
            print(f"sfq: {suite}: not installed: {', '.join(missing)}: {why}", flush=True)


def lacks(folder: str) -> Optional[str]:
    """Returns why a folder isn't there and can't be made, or can't be used; None where it can."""
    if os.geteuid() != 0 or os.path.isdir(folder):
        return peer_folder.lacking_to_run(folder)
    return peer_folder.lacking_to_make()


def make(suite: str, folder: str, packages: Sequence[str] = ()) -> Optional[str]:
    """Makes a suite's folder where it isn't there: with these packages alone, or without any with those of peers. Returns why that failed.

    It gets its name when it is whole, so that one whose making was interrupted is made anew.
    """
    if os.path.isdir(folder):
        return None
    os.makedirs(place(), exist_ok=True)
    print(f"sfq: {suite}: making {folder}, which takes some minutes", flush=True)
    beside = f"{folder}.new"
    shutil.rmtree(beside, ignore_errors=True)
    why = run_folder(f"debootstrap {suite}", "make", beside, "--suite", suite, *(["--bare", *packages] if packages else []))
    if why is None:
        os.rename(beside, folder)
    return why


# ---- the tests ----


def tried(suite: str, rim: Rim, file: str, tests: Sequence[str] = ()) -> Report:
    """Runs a file of tests in a suite's folder, or some of its tests, and returns what came of it."""
    folder = os.path.realpath(folder_of(suite))
    with tempfile.TemporaryDirectory(prefix="sfq-today-", dir=f"{folder}/tmp") as room:
        results = f"{room}/results"
        words = ["python3", "-B", f"{repository.ROOT}/tools/system_tests.py", file, "short", results[len(folder):], *tests]
        words = [sys.executable, "-B", f"{repository.ROOT}/tools/peer_folder.py", "run", folder, *words]
        return reported(suite, rim.name, file, words, results)


def tried_here(suite: str) -> Report:
    """Runs the tests of a suite's packages, which go into its folders themselves, and returns what came of them."""
    with tempfile.TemporaryDirectory(prefix="sfq-today-") as room:
        results = f"{room}/results"
        tests = [f"{INSTALLED}.{it}.test_{suite}" for it in ("Wheel", "DebianPackages", "Joins")]
        words = [sys.executable, "-B", f"{repository.ROOT}/tools/system_tests.py", INSTALLED, "all", results, *tests]
        return reported(suite, PACKAGES, INSTALLED, words, results)


def reported(suite: str, name: str, file: str, words: Sequence[str], results: str) -> Report:
    """Runs a command that runs a file of tests, and returns what it wrote of them."""
    status, out, err = run_command(words)
    rows = [json.loads(it) for it in read(results).splitlines()]
    alone = f"./test --today {suite} {name}"
    failures = [Failure(f"{suite} {it['name']}", it["text"], alone) for it in rows if it["what"] == "failed"]
    if status:
        failures.append(Failure(f"{suite} {file}", f"{out}{err}\nThe tests of this file ended with status {status}.", alone))
    skipped = [Skipped(f"{suite} {it['name']}", f"{suite}: {it['text']}") for it in rows if it["what"] == "skipped"]
    return Report(sum(it["what"] == "passed" for it in rows), failures, skipped)


def try_suite(counts: Counts, suite: str, rims: Sequence[Rim] = RIMS) -> Found:
    """Runs the tests of rims in a suite's folder."""
    folder = folder_of(suite)
    why = lacks(folder) or make(suite, folder)
    if why:
        counts.take(suite, Report(skipped=[Skipped(f"{suite} {it.name}", f"{suite}: {why}") for it in rims]), 0)
        return Found({}, [])
    for rim in rims:
        install(suite, folder, rim.packages)
    known = versions(folder)
    print(f"sfq: {suite}: {', '.join(f'{name} {number}' for name, number in known.items())}", flush=True)
    good = []
    for rim in rims:
        before, begun = (counts.passed, len(counts.failures)), time.monotonic()
        for file in rim.files:
            with Beat(f"{suite}: {file}"):
                counts.take(f"{suite}: {file}", tried(suite, rim, file), time.monotonic() - begun)
            begun = time.monotonic()
        if counts.passed > before[0] and len(counts.failures) == before[1]:
            good.append(rim.name)
    return Found(known, good)


def try_packages(counts: Counts, suite: str) -> None:
    """Installs what `./build --dist` makes in two folders of a suite."""
    is_of_peers = suite in peer_folder.SUITES
    for folder, packages, only in ((bare_folder_of(suite), PYTHON, PYTHON), (folder_of(suite), JOINS, () if is_of_peers else JOINS)):
        why = lacks(folder) or make(suite, folder, only)
        if why:
            counts.take(suite, Report(skipped=[Skipped(f"{suite} {PACKAGES}", f"{suite}: {why}")]), 0)
            return
        install(suite, folder, packages)
    begun, known = time.monotonic(), versions(folder_of(suite))
    print(f"sfq: {suite}: {', '.join(f'{it} {known[it]}' for it in ('Python', 'GeoPandas', 'shapely') if it in known)}", flush=True)
    with Beat(f"{suite}: {INSTALLED}"):
        counts.take(f"{suite}: {INSTALLED}", tried_here(suite), time.monotonic() - begun)


# ---- the table ----


def row(rim: Rim, tries: Sequence[dict[str, str]]) -> str:
    """Returns the row of a rim, where each try has the versions that were there."""
    lowest, highest = [], []
    for it in rim.shown:
        known = sorted((there[it.name] for there in tries if it.name in there), key=version.numbers)
        if known:
            lowest.append(f"{it.name} {known[0]}")
            highest.append(f"{it.name} {known[-1]}")
    return f"| {rim.name} | {', '.join(lowest)} | {', '.join(highest)} | `./test {' '.join(rim.files)}` |\n"


def with_rows(text: str, found: Sequence[Found], here: dict[str, str], rims: Sequence[Rim] = RIMS) -> str:
    """Returns the document with new rows of the rims whose tests passed in a suite: of the versions here and there."""
    head, table, tail = cut(text)
    for rim in (it for it in rims if any(it.name in suite.good for suite in found)):
        new = row(rim, [here, *(it.versions for it in found if rim.name in it.good)])
        table = [new if it.startswith(f"| {rim.name} |") else it for it in table]
    return head + "".join(table) + tail


def cut(text: str) -> tuple[str, list[str], str]:
    """Returns what a document has before the rows of the table, the rows, and what is behind them."""
    before, head, rest = text.partition(HEAD)
    rows = re.match(r"(?:\|.*\n)*", rest)
    count = rows.end() if rows else 0
    return before + head, rest[:count].splitlines(keepends=True), rest[count:]


# ---- the command ----


def main(words: Sequence[str]) -> int:
    """Does what the words behind `--today` say. Returns the status: 2 for words that it doesn't know."""
    rims = [it for it in RIMS if it.name in words]
    suites = [it for it in DEBIANS if it in words] or DEBIANS
    if set(words) - {"--write", *DEBIANS, PACKAGES, *(it.name for it in rims)}:
        return 2
    if not library.are_made():
        print("sfq: no libraries to try: run ./build --library", file=sys.stderr)
        return 1
    counts = Counts()
    tries = rims or ([] if PACKAGES in words else RIMS)
    found = [try_suite(counts, it, tries) for it in peer_folder.SUITES if tries and it in suites]
    for it in suites if PACKAGES in words or not rims else ():
        try_packages(counts, it)
    if "--write" in words:
        write_table(found, tries, counts)
    return counts.close()


def write_table(found: Sequence[Found], rims: Sequence[Rim], counts: Counts) -> None:
    """Writes the rows of rims into the table of the document, if nothing failed, and prints which."""
    good = [] if counts.failures else [it.name for it in rims if any(it.name in suite.good for suite in found)]
    if good:
        repository.write_whole(DOCUMENT, with_rows(repository.read(DOCUMENT), found, versions(), rims))
    name = os.path.relpath(DOCUMENT, repository.ROOT)
    print(f"sfq: {name} has new rows of {', '.join(good)}" if good else f"sfq: {name} is as it was: {'a test failed' if counts.failures else 'nothing passed'}")
