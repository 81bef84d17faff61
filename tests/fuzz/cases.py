"""Cases: what the program is given, made by changing rows of the tests' own scripts."""
import functools
import glob
import os
import random
import re
from typing import NamedTuple, Union

import repository
import required_rows

from fuzz import changes

SCRIPTS = f"{repository.ROOT}/crates/scripts/data/*.txt"
# What a row's files may have together, and what a word of the command line may have, in bytes.
FILE_BYTES, WORD_BYTES = 20_000, 60_000
# How many geometries a case of geometries has at most.
GEOMETRIES = 5
HEAD_OF_GEOMETRY = re.compile(rb"(?i)\b((?:multi)?(?:point|linestring|polygon))\s*(?:empty|(?=\())")
# How long a geometry may be that is mixed with others, in bytes.
GEOMETRY_BYTES = 400


class Case(NamedTuple):
    """What a run is given. `seed` is that of what is asked beside it.

    A case of a row has the parts `schema`, `table NAME` and `word 0`, `word 1` .. of the command line; a case of geometries has
    the parts `geometry 0`, `geometry 1` ..
    """

    parts: dict[str, bytes]
    seed: str

    def texts(self, kind: str) -> list[bytes]:
        """Returns the parts of a kind, in order."""
        return [text for name, text in self.parts.items() if name.startswith(f"{kind} ")]

    def is_of_geometries(self) -> bool:
        return bool(self.texts("geometry"))

    def with_part(self, name: str, text: bytes) -> "Case":
        return self._replace(parts={**self.parts, name: text})

    def without(self, name: str) -> "Case":
        return self._replace(parts={part: text for part, text in self.parts.items() if part != name})

    def write(self, folder: str) -> None:
        """Writes the files: s and d/NAME.csv, as for a script."""
        os.makedirs(f"{folder}/d")
        for name, text in self.parts.items():
            path = "s" if name == "schema" else f"d/{name.removeprefix('table ')}.csv"
            if name == "schema" or name.startswith("table "):
                with open(f"{folder}/{path}", "wb") as file:
                    file.write(text)

    def shown(self) -> str:
        return "".join(f"  {name}: {text!r}\n" for name, text in self.parts.items())


def words_of(command: str) -> list[str]:
    """Returns the words of a script's command."""
    if command == "sfq" or command.startswith("sfq | "):
        return command.split(" | ")[1:]
    if command == "check":
        return ["check", "s", "d"]
    if command.startswith("relate "):
        return ["relate", "--", *command.removeprefix("relate ").split(" | ", 1)]
    return ["run", "--", "s", "d", command]


@functools.lru_cache(maxsize=None)
def rows() -> list[dict[str, bytes]]:
    """Returns the parts of each row of the scripts whose files are small. Every character is a byte."""
    found = []
    for path in sorted(glob.glob(SCRIPTS)):
        with open(path, encoding="latin-1") as file:
            for row in required_rows.rows_of(file.read()):
                words = words_of(row.command)
                files = {} if words[:1] == ["relate"] else row.files
                if sum(map(len, files.values())) <= FILE_BYTES:
                    parts = {**files, **{f"word {at}": it for at, it in enumerate(words)}}
                    found.append({name: text.encode("latin-1") for name, text in parts.items()})
    return found


@functools.lru_cache(maxsize=None)
def geometries() -> list[list[bytes]]:
    """Returns the texts of geometries that the scripts have, each once, in lists by their types."""
    found: dict[bytes, set[bytes]] = {}
    for text in {text for row in rows() for text in row.values()}:
        for head in HEAD_OF_GEOMETRY.finditer(text):
            whole = head[0] + in_parentheses(text[head.end() :])
            if len(whole) < GEOMETRY_BYTES:
                found.setdefault(head[1].upper(), set()).add(whole)
    return [sorted(found[word]) for word in sorted(found)]


def in_parentheses(text: bytes) -> bytes:
    """Returns what a text begins with in parentheses, up to the one that closes the first; nothing where it has none."""
    depth = 0
    for at, byte in enumerate(text):
        depth += (byte == ord("(")) - (byte == ord(")"))
        if depth == 0:
            return text[: at + 1] if at else b""
    return text


def drawn_geometries(numbers: random.Random) -> dict[str, bytes]:
    """Returns some geometries, at times two that are much alike. Most changes leave them valid."""
    found: list[bytes] = []
    for _ in range(numbers.randint(2, GEOMETRIES)):
        text = numbers.choice(found) if found and numbers.random() < 0.3 else numbers.choice(numbers.choice(geometries()))
        for _ in range(numbers.choice((0, 0, 1, 2, 4))):
            text = changes.number_moved(text, [], "geometry", numbers)
        if numbers.random() < 0.1:
            text = changes.change(text, other_texts("geometry"), "geometry", numbers)
        found.append(text)
    return {f"geometry {at}": cut("geometry ", text) for at, text in enumerate(found)}


def other_texts(kind: str) -> list[bytes]:
    """Returns what a part of a kind may be mixed with: the same part of other rows."""
    if kind == "geometry":
        return [it for texts in geometries() for it in texts]
    return others_of_rows().get(kind, [b""])


@functools.lru_cache(maxsize=None)
def others_of_rows() -> dict[str, list[bytes]]:
    found: dict[str, set[bytes]] = {}
    for row in rows():
        for name, text in row.items():
            found.setdefault(name.split()[0], set()).add(text)
    return {kind: sorted(texts) for kind, texts in found.items()}


def kind_of(name: str, text: bytes) -> str:
    """Returns the kind of a part, which says how it is changed: a word that looks like a geometry is changed as one."""
    kind = name.split()[0]
    return "geometry" if kind == "word" and HEAD_OF_GEOMETRY.match(text) else kind


def weight(name: str, text: bytes) -> int:
    """Returns how often a part is changed: short words, such as `run`, rarely."""
    if name == "schema":
        return 8
    return 1 if name.startswith("word ") and len(text) < 8 else 30


def changed(parts: dict[str, bytes], numbers: random.Random, count: int) -> dict[str, bytes]:
    """Returns parts after so many changes of one of them each, at times with other words."""
    parts = with_other_words(parts, numbers) if count and numbers.random() < 0.04 else dict(parts)
    # The only word may be the one that was dropped.
    for _ in range(count if parts else 0):
        name = numbers.choices(list(parts), [weight(*it) for it in parts.items()])[0]
        kind = kind_of(name, parts[name])
        parts[name] = changes.change(parts[name], other_texts(kind), kind, numbers)
    return {name: cut(name, text) for name, text in parts.items()}


def with_other_words(parts: dict[str, bytes], numbers: random.Random) -> dict[str, bytes]:
    """Returns parts with a word dropped, doubled, swapped, replaced or added."""
    words = [text for name, text in parts.items() if name.startswith("word ")]
    words = changes.pieces_changed(words, numbers.choice(changes.COMMAND).encode(), numbers)
    files = {name: text for name, text in parts.items() if not name.startswith("word ")}
    return {**files, **{f"word {at}": it for at, it in enumerate(words)}}


def cut(name: str, text: bytes) -> bytes:
    """Returns what can be given: a word has no byte 0, and has to be shorter than the system allows."""
    return text.replace(b"\0", b"")[:WORD_BYTES] if name.startswith(("word ", "geometry ")) else text


def case(seed: Union[int, str], number: int) -> Case:
    """Returns the case of this number: the same one for the same seed and scripts."""
    numbers = random.Random(f"{seed} {number}")
    again = f"{seed} {number} asked"
    if number % 4:
        return Case(changed(numbers.choice(rows()), numbers, numbers.choice((0, 1, 1, 1, 2, 2, 3, 5, 8))), again)
    return Case(drawn_geometries(numbers), again)
