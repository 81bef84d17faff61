"""Finds the calls of sfq that documents show, each with what it prints.

- In a block of shell lines, each line that begins with `./sfq `. Where a block `text` follows, with at most a paragraph
  between and no heading, that text is what the block's calls print.
- In examples/NAME/README.md, a block `sql` that a block `text` follows: the query over the files beside the document.
- In running text, `./sfq ..` prints `..`, and `./sfq ..`: with a block `text` below it.
- In docs/FAULTS.md, rows of tables: a fault line and its examples.
- In a manual page, within .EX and .EE, a line that begins with `$ sfq `, up to the next one or a blank line.
"""
import glob
import os
import re
import shlex
from typing import NamedTuple, Optional

import repository


class Shown(NamedTuple):
    """A call as a document shows it."""

    place: str
    words: list[str]
    text: Optional[str]  # what it prints, on both streams; None where the document shows only the call
    status: Optional[int]  # the status that the document gives; None where it gives none


class Fence(NamedTuple):
    """A block of code, with the text between it and the block before."""

    line: int
    kind: str
    text: str
    before: str


def fences(text: str) -> list[Fence]:
    found: list[Fence] = []
    before: list[str] = []
    inside: Optional[list[str]] = None
    begun, kind = 0, ""
    for number, line in enumerate(text.splitlines(), 1):
        if line.startswith("```") and inside is None:
            inside, begun, kind = [], number, line[3:].strip()
        elif line.startswith("```") and inside is not None:
            found.append(Fence(begun, kind, "".join(f"{it}\n" for it in inside), "\n".join(before)))
            inside, before = None, []
        elif inside is None:
            before.append(line)
        else:
            inside.append(line)
    return found


def follows(fence: Fence) -> bool:
    """Whether the block belongs to the one before it: no heading and at most a paragraph is between."""
    paragraphs = [it for it in re.split(r"\n\s*\n", fence.before.strip()) if it]
    return len(paragraphs) < 2 and not re.search(r"^#", fence.before, re.M)


def calls_of(text: str) -> list[list[str]]:
    """Returns the words of each line that calls ./sfq and nothing else."""
    found = []
    for line in re.sub(r"\\\n", " ", text).splitlines():
        line = re.sub(r"^\$ ", "", line.strip())
        plain = re.sub(r"'[^']*'|\"[^\"]*\"", "", line)
        if line.startswith("./sfq ") and not re.search(r"[|<>;&$`]|\.\.(?!/)", plain):
            found.append(shlex.split(line, comments=True)[1:])
    return found


def of_shell_blocks(path: str, text: str) -> list[Shown]:
    blocks = fences(text)
    found: list[Shown] = []
    for at, it in enumerate(blocks):
        calls = calls_of(it.text) if it.kind in ("sh", "console", "bash") else []
        after = blocks[at + 1] if at + 1 < len(blocks) else None
        shown = after.text if after and after.kind == "text" and follows(after) else None
        if shown is not None and len(calls) > 1:
            raise ValueError(f"{path}:{it.line}: several calls before one block of output")
        found += [Shown(f"{path}:{it.line}", words, shown, None) for words in calls]
    return found


def of_running_text(path: str, text: str) -> list[Shown]:
    found = []
    for it in re.finditer(r"`(\./sfq [^`]+)`\s+prints\s+`([^`]+)`", text):
        line = text.count("\n", 0, it.start()) + 1
        words = shlex.split(" ".join(it[1].split()))[1:]
        found.append(Shown(f"{path}:{line}", words, it[2] + "\n", None))
    for it in re.finditer(r"`(\./sfq [^`]+)`:\n+```text\n(.*?)```", text, re.S):
        line = text.count("\n", 0, it.start()) + 1
        if calls_of(" ".join(it[1].split())):
            found.append(Shown(f"{path}:{line}", shlex.split(it[1])[1:], it[2], None))
    return found


def of_queries(path: str, text: str) -> list[Shown]:
    folder, blocks = os.path.dirname(path), fences(text)
    if not os.path.isfile(f"{repository.ROOT}/{folder}/schema.sql"):
        return []
    return [
        Shown(f"{path}:{it.line}", ["run", f"{folder}/schema.sql", folder, " ".join(it.text.split("\n")).strip()], after.text, None)
        for it, after in zip(blocks, blocks[1:])
        if it.kind == "sql" and after.kind == "text" and follows(after)
    ]


def of_manual(path: str, text: str) -> list[Shown]:
    found: list[Shown] = []
    call: Optional[tuple[int, list[str]]] = None
    printed: list[str] = []
    for number, line in enumerate(text.splitlines(), 1):
        line = line.replace("\\-", "-").replace("\\(aq", "'").replace("\\(dq", '"').replace("\\&", "").replace("\\e", "\\")
        if call and (line.startswith((".EE", "$ ")) or not line.strip()):
            found.append(Shown(f"{path}:{call[0]}", call[1], "".join(printed) or None, None))
            call, printed = None, []
        if line.startswith("$ sfq "):
            call = number, shlex.split(line[2:])[1:]
        elif call:
            printed.append(line + "\n")
    return found


def cells_of(line: str) -> list[str]:
    return [it.strip().replace("\\|", "|").replace("\\*", "*") for it in re.split(r"(?<!\\)\|", line.strip().strip("|"))]


class Faults:
    """The examples of docs/FAULTS.md, made into files and calls in a folder."""

    QUERIED = (
        "CREATE TABLE t (id INTEGER PRIMARY KEY, pop INTEGER, name TEXT, geom GEOMETRY);\n"
        "CREATE TABLE u (id INTEGER PRIMARY KEY, pop INTEGER);\n"
        "CREATE TABLE v (id INTEGER PRIMARY KEY);\n"
    )

    def __init__(self, folder: str) -> None:
        self.folder, self.count = folder, 0
        self.found: list[Shown] = []

    def database(self, schema: str, table: Optional[str] = "id\n") -> list[str]:
        """Writes a schema and its tables, and returns their places."""
        self.count += 1
        place = f"{self.folder}/{self.count}"
        os.makedirs(place)
        with open(f"{place}/schema.sql", "w", encoding="utf-8") as file:
            file.write(schema)
        for name, text in (("t", table), ("u", "id,pop\n"), ("v", "id\n")):
            if text is None:
                os.mkdir(f"{place}/{name}.csv")
                continue
            with open(f"{place}/{name}.csv", "w", encoding="utf-8") as file:
                file.write(text)
        return [f"{place}/schema.sql", place]

    def read(self, path: str, text: str) -> list[Shown]:
        """Collects the examples of every table of the document."""
        part = ""
        header: list[str] = []
        for number, line in enumerate(text.splitlines(), 1):
            if line.startswith("#"):
                part, header = line.lower(), []
            elif line.startswith("|") and not header:
                header = cells_of(line)
            elif line.startswith("| `sfq: ") and any("example" in it for it in header):
                at = next(at for at, it in enumerate(header) if "example" in it)
                cells = cells_of(line)
                self.row(f"{path}:{number}", part, header[at], cells[0].strip("`"), cells[at])
        return self.found

    def row(self, place: str, part: str, header: str, fault: str, cell: str) -> None:
        """Collects the examples of one row: an example ends at a `;`."""
        for it in re.findall(r"(?:`[^`]*`|[^;`])+", cell):
            codes, at = re.findall(r"`([^`]*)`", it), re.search(r"\(at (\d+)", re.sub(r"`[^`]*`", "", it))
            if codes:
                line = re.sub(r" at \d+", f" at {at[1]}", fault) if at else fault
                words, status = self.call(part, header, line, it.strip(), codes)
                self.found.append(Shown(place, words, line + "\n", status))

    def call(self, part: str, header: str, line: str, text: str, codes: list[str]) -> tuple[list[str], int]:
        """Returns the call that the example means, and the status of its part of the document."""
        if "schema" in part:
            return ["run", *self.database(codes[0]), "SELECT id FROM t"], 3
        if "query" in part:
            return ["run", *self.database(self.QUERIED, "id,pop,name,geom\n"), codes[0]], 5
        if "table" in part:
            return ["check", *self.database(*self.loaded(header, line, text, codes))], 6 if "L11" in line else 4
        pair = [codes[0], "POINT(0 0)"]
        return ["relate", *(pair if "first" in line else reversed(pair))], 5

    @staticmethod
    def loaded(header: str, line: str, text: str, codes: list[str]) -> tuple[str, Optional[str]]:
        """Returns the schema and the table of an example of loading."""
        schemas = re.findall(r"`([^`]*)`", header)
        of_geometry = len(schemas) > 1 and re.search(r" L[67]\b", line)
        schema = schemas[1 if of_geometry else 0]
        if codes[0] == "t.csv":
            return schema, None
        if text.startswith("header"):
            return schema, codes[0] + "\n"
        number = re.search(r"record (\d+)", line)
        before = ["1," if of_geometry else "1,8,a"] if number and int(number[1]) > len(codes) else []
        return schema, "\n".join(["id,geom" if of_geometry else "id,pop,name", *before, *codes]) + "\n"


def everything(folder: str) -> list[Shown]:
    """Returns every call that the documents show. Files that examples need are made in the folder."""
    found: list[Shown] = []
    paths = ["README.md", "CONTRIBUTING.md", "CHANGELOG.md", "SECURITY.md"]
    for pattern in ("docs/*.md", "examples/*/README.md", "packaging/man/*.1"):
        paths += sorted(os.path.relpath(it, repository.ROOT) for it in glob.glob(f"{repository.ROOT}/{pattern}"))
    for path in paths:
        if not os.path.isfile(f"{repository.ROOT}/{path}"):
            continue
        with open(f"{repository.ROOT}/{path}", encoding="utf-8") as file:
            text = file.read()
        if path.startswith("packaging/man/"):
            found += of_manual(path, text)
            continue
        found += of_shell_blocks(path, text) + of_running_text(path, text)
        if path.startswith("examples/"):
            found += of_queries(path, text)
        if path == "docs/FAULTS.md":
            found += Faults(folder).read(path, text)
    return found
