#!/usr/bin/env python3
"""Writes the version, which the file VERSION has, where a source or a tool needs it spelled.

    python3 tools/version.py           writes it
    python3 tools/version.py --check   says where another one is spelled
"""
import glob
import os
import re
import sys

import repository


def places(root: str = repository.ROOT) -> list[tuple[str, str]]:
    """Returns where the version is spelled: a file, and a line or a part of one with {} for the version."""
    pages = sorted(os.path.relpath(it, root) for it in glob.glob(f"{root}/packaging/man/*.1"))
    return [
        ("crates/command_line/src/command_words.rt", 'const VERSION: &str = "{}";'),
        ("bindings/c/sfq.h", "#define SFQ_VERSION {}"),
        ("bindings/python/sfq/__init__.py", '__version__ = "{}"'),
        ("bindings/javascript/package.json", '"version": "{}"'),
        ("bindings/qgis/sfq_qgis/metadata.txt", "version={}"),
        ("bindings/postgresql/sfq.control", "default_version = '{}'"),
        ("bindings/postgresql/sfq_postgis.control", "default_version = '{}'"),
        *((it, '"sfq {}" "User Commands"') for it in pages),
    ]


def of_extension(name: str, root: str = repository.ROOT) -> str:
    """Returns the version of an extension of PostgreSQL."""
    found: list[str] = re.findall(r"default_version = '([\d.]+)'", repository.read(f"{root}/bindings/postgresql/{name}.control"))
    return found[0]


def numbers(version: str) -> tuple[int, ...]:
    """Returns the numbers of a version, by which versions are in order."""
    return tuple(map(int, version.split(".")))


def spelled(path: str, version: str) -> str:
    """Returns the version as a file spells it: the header of C counts it, 1,000 times the second number and so on."""
    if not path.endswith(".h"):
        return version
    first, second, third = numbers(version)
    return str(1_000_000 * first + 1_000 * second + third)


def renewed(path: str, form: str, text: str, version: str) -> str:
    """Returns a file's text with this version. An extension of PostgreSQL keeps a later one, which it has from the first change of its
    functions on. ValueError where the version isn't once in the text."""
    before, _, after = form.partition("{}")
    pattern = rf"({re.escape(before)})([\d.]+)({re.escape(after)})"
    found = re.findall(pattern, text)
    if len(found) != 1:
        raise ValueError(f"{path} has the version {len(found)} times")
    if path.endswith(".control") and numbers(found[0][1]) > numbers(version):
        return text
    return re.sub(pattern, rf"\g<1>{spelled(path, version)}\g<3>", text)


def main(words: list[str]) -> int:
    version, status = repository.version(), 0
    for path, form in places():
        with open(f"{repository.ROOT}/{path}", encoding="utf-8") as file:
            text = file.read()
        new = renewed(path, form, text, version)
        if new == text:
            continue
        if words == ["--check"]:
            print(f"{path} has another version than {version}: run python3 tools/version.py")
            status = 1
        else:
            repository.write_whole(f"{repository.ROOT}/{path}", new)
    return status


if __name__ == "__main__":
    repository.print_help(__doc__)
    sys.exit(main(sys.argv[1:]))
