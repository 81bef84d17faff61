"""Other engines, each in a process of its own that reads pairs and writes an answer for each.

A line has two well-known texts with a tab between them; its answer is a line:

    matrix      the nine characters of the DE-9IM matrix, or - where the engine has no answer
    predicates  a character for each of PREDICATES: 1 holds, 0 doesn't, - the engine has no answer, * it isn't asked
    validity    a character for each of the two geometries, in the same way
    ! ..        what the engine says where it refuses the pair

First it says in a line what the engine is, or `! ` and what it needs and isn't installed. An empty line ends a batch, behind which the
answers are written; each at once where the last word is `at-once`.

An engine is added by a class with one method and a line of `ENGINES`. A program of any language needs no class: `command:CMD`.
"""
from __future__ import annotations

import glob
import os
import shutil
import subprocess
import sys
from typing import Any, Callable, Iterator, NamedTuple, Optional, Sequence, TextIO

from .predicates import NAMES as PREDICATES

MATRIX, VALIDITY, OF_PREDICATES = "matrix", "validity", "predicates"
ASKS = (MATRIX, OF_PREDICATES, VALIDITY)
AT_ONCE = "at-once"
# JTS by the method that its `relate` uses, and by the new one.
JTS, JTS_NG = "jts", "jts-ng"
TRUTHS = {True: "1", False: "0", 1: "1", 0: "0"}
Two = tuple[str, str]


class Lacking(Exception):
    """What an engine needs isn't installed; the text says what."""


def truth(value: Any) -> str:
    """Returns the character of a truth: - where it is neither true nor false, such as None or -1."""
    return TRUTHS.get(value, "-")


def one_line(error: BaseException) -> str:
    """Returns what an exception says, on one line."""
    return " ".join(str(error).split()) or type(error).__name__


def each(pairs: Sequence[Two], call: Callable[[str, str], str], refusals: tuple[type[Exception], ...]) -> Iterator[str]:
    """Yields the answer to each pair, of a refusal its reason. `refusals` is what the engine raises where it refuses a pair."""
    for first, second in pairs:
        try:
            yield call(first, second)
        except refusals as error:
            yield f"! {one_line(error)}"


class Shapely:
    """GEOS by the package shapely."""

    def __init__(self, _of: str) -> None:
        try:
            from shapely import errors, geos, wkt
        except ImportError:
            raise Lacking("the package shapely: Debian's python3-shapely has it") from None
        import shapely

        # A text that isn't Unicode is a ValueError.
        self.refusals = (errors.ShapelyError, ValueError)
        self.read, self.version = wkt.loads, f"shapely {shapely.__version__}, GEOS {'.'.join(map(str, geos.geos_version))}"

    def answers(self, ask: str, pairs: Sequence[Two]) -> Iterator[str]:
        read = self.read
        if ask == MATRIX:
            return each(pairs, lambda a, b: str(read(a).relate(read(b))), self.refusals)
        if ask == VALIDITY:
            return each(pairs, lambda a, b: truth(read(a).is_valid) + truth(read(b).is_valid), self.refusals)

        def held(first: str, second: str) -> str:
            a, b = read(first), read(second)
            return "".join(truth(getattr(a, it)(b)) for it in PREDICATES)

        return each(pairs, held, self.refusals)


class Gdal:
    """GDAL's own predicates of two geometries. It has no matrix, and its Equals compares positions."""

    REFUSALS = (RuntimeError, ValueError)
    NAMES = ("", "Disjoint", "Intersects", "Touches", "Crosses", "Within", "Contains", "Overlaps")

    def __init__(self, _of: str) -> None:
        try:
            from osgeo import gdal, ogr
        except ImportError:
            raise Lacking("the package osgeo: Debian's python3-gdal has it") from None
        ogr.UseExceptions()
        self.read, self.version = ogr.CreateGeometryFromWkt, f"GDAL {gdal.__version__}"

    def answers(self, ask: str, pairs: Sequence[Two]) -> Iterator[str]:
        read = self.read
        if ask == VALIDITY:
            return each(pairs, lambda a, b: truth(read(a).IsValid()) + truth(read(b).IsValid()), self.REFUSALS)

        def held(first: str, second: str) -> str:
            a, b = read(first), read(second)
            return "".join(truth(getattr(a, it)(b)) if it else "*" for it in self.NAMES)

        return each(pairs, held, self.REFUSALS)


class Spatialite:
    """SpatiaLite, as an extension of Python's sqlite3."""

    def __init__(self, _of: str) -> None:
        import sqlite3

        try:
            connection = sqlite3.connect(":memory:")
            connection.enable_load_extension(True)
            connection.load_extension("mod_spatialite")
        except (AttributeError, sqlite3.OperationalError):
            raise Lacking("the extension mod_spatialite: Debian's libsqlite3-mod-spatialite has it") from None
        self.call, self.refusals = connection.execute, (sqlite3.Error, ValueError)
        self.version = "SpatiaLite {}, GEOS {}".format(*self.call("SELECT spatialite_version(), geos_version()").fetchone())

    def answers(self, ask: str, pairs: Sequence[Two]) -> Iterator[str]:
        read = "WITH t AS (SELECT GeomFromText(?) AS a, GeomFromText(?) AS b) SELECT"
        if ask == MATRIX:
            query = f"{read} ST_Relate(a, b) FROM t"
        elif ask == VALIDITY:
            query = f"{read} ST_IsValid(a), ST_IsValid(b) FROM t"
        else:
            query = f"{read} {', '.join(f'ST_{it}(a, b)' for it in PREDICATES)} FROM t"

        def asked(first: str, second: str) -> str:
            found = self.call(query, (first, second)).fetchone()
            return str(found[0] or "-") if ask == MATRIX else "".join(map(truth, found))

        return each(pairs, asked, self.refusals)


class Postgis:
    """PostGIS of a running server, by psql; nothing in the database changes."""

    # A fault of one pair ends no query: the function returns it.
    FUNCTION = """CREATE FUNCTION pg_temp.asked(one text, other text) RETURNS text LANGUAGE plpgsql AS $$
        DECLARE a geometry; b geometry; BEGIN a := one::geometry; b := other::geometry; RETURN {};
        EXCEPTION WHEN OTHERS THEN RETURN '! ' || SQLERRM; END $$;"""

    def __init__(self, of: str) -> None:
        if not shutil.which("psql"):
            raise Lacking("the program psql: Debian's postgresql-client has it")
        self.words = ["psql", "-X", "-q", "-A", "-t", "-v", "ON_ERROR_STOP=1", "-d", of]
        self.version = self.run("SELECT 'PostGIS ' || PostGIS_Lib_Version() || ', GEOS ' || PostGIS_GEOS_Version();").strip()

    def run(self, text: str) -> str:
        ran = subprocess.run(self.words, input=text, capture_output=True, text=True)
        if ran.returncode:
            raise Lacking(f"a server with PostGIS: {(ran.stderr.strip().splitlines() or ['psql failed'])[0]}")
        return ran.stdout

    def answers(self, ask: str, pairs: Sequence[Two]) -> Iterator[str]:
        truths = {VALIDITY: ("ST_IsValid(a)", "ST_IsValid(b)"), OF_PREDICATES: tuple(f"ST_{it}(a, b)" for it in PREDICATES)}
        call = "coalesce(ST_Relate(a, b), '-')" if ask == MATRIX else " || ".join(f"coalesce(({it})::int::text, '-')" for it in truths[ask])
        rows = "".join(f"{number}\t{a}\t{b}\n" for number, (a, b) in enumerate(pairs))
        text = (f"SET client_min_messages = error; CREATE TEMP TABLE asked_pairs (number int, one text, other text);\n{self.FUNCTION.format(call)}\n"
                f"COPY asked_pairs FROM stdin;\n{rows}\\.\nSELECT translate(pg_temp.asked(one, other), E'\\n', ' ') FROM asked_pairs ORDER BY number;\n")
        return iter(self.run(text).splitlines())


class Engine(NamedTuple):
    """What is known of an engine before it runs: its class, what it can be asked, what its name is followed by, and whether answers
    are written pair by pair."""

    made: Optional[Callable[[str], Any]]
    asks: tuple[str, ...]
    takes: str = ""
    is_by_line: bool = True


ENGINES = {
    "shapely": Engine(Shapely, ASKS),
    "postgis": Engine(Postgis, ASKS, "DSN", False),
    "spatialite": Engine(Spatialite, ASKS),
    "gdal": Engine(Gdal, (OF_PREDICATES, VALIDITY)),
    JTS: Engine(None, ASKS),
    JTS_NG: Engine(None, ASKS),
    "command": Engine(None, ASKS, "CMD", False),
}


def listed() -> str:
    """Returns how each engine is named on the command line."""
    return ", ".join(f"{name}:{it.takes}" if it.takes else name for name, it in ENGINES.items())


def jts_words(name: str = JTS) -> list[str]:
    """Returns the words that run the class over JTS, which Java compiles as it begins. Lacking where something isn't installed."""
    jars = sorted(glob.glob("/usr/share/java/jts-core.jar") + glob.glob("/usr/share/java/jts.jar"))
    if not jars:
        raise Lacking("JTS: Debian's libjts-java has it")
    if not shutil.which("javac"):
        raise Lacking("a Java that compiles: Debian's default-jdk-headless has it")
    return ["java", f"-Djts.relate={'ng' if name == JTS_NG else 'old'}", "-cp", jars[0], f"{os.path.dirname(os.path.abspath(__file__))}/AskJts.java"]


def serve(words: Sequence[str], lines: TextIO, out: TextIO) -> int:
    """Says what the engine is, and answers pairs, of which an empty line ends a batch. Returns the status."""
    name, of, ask, *rest = words
    made, is_at_once = ENGINES[name].made, rest == [AT_ONCE]
    assert made
    try:
        engine = made(of)
    except Lacking as error:
        print(f"! {error}", file=out)
        return 1
    print(engine.version, file=out, flush=True)
    batch: list[Two] = []
    for line in lines:
        text = line.rstrip("\n")
        if text:
            first, _, second = text.partition("\t")
            batch.append((first, second))
            continue
        try:
            for it in engine.answers(ask, batch):
                out.write(f"{it}\n")
                if is_at_once:
                    out.flush()
        except Lacking:
            # The server is gone.
            return 1
        out.flush()
        batch = []
    return 0


if __name__ == "__main__":
    # What PYTHONUNBUFFERED says of standard output isn't meant for this.
    with open(sys.stdout.fileno(), "w", encoding="utf-8", closefd=False) as output:
        sys.exit(serve(sys.argv[1:], sys.stdin, output))
