"""Folders of tables that are kept between calls, each under the sum of what it was made of.

An entry is made beside its place and put there by one renaming, so it is there as a whole or not at all, whoever else makes the same one.
It lists the sums of its files: one that isn't as it was made is made anew. An entry that nobody used for some days goes when the next
one is made. None of it is proved.
"""
from __future__ import annotations

import contextlib
import hashlib
import json
import os
import shutil
import tempfile
import time
from typing import Any, Optional

from . import places
from .endings import held

# How long an entry is kept that isn't used, and what a run that was broken off left, in seconds.
KEPT, LEFT = 30 * 86_400, 86_400
# The file of an entry with the sums of the others, and the beginning of the name of what is no entry yet.
SUMS, NEW = "sums.json", ".new-"
# How many letters of a sum are the name of an entry.
LENGTH = 20
# How much of a file is read at a time.
BLOCK = 1 << 20


def root() -> str:
    """Returns the folder of the entries. OSError where the user has no folder."""
    return os.path.join(places.of_user("XDG_CACHE_HOME", ".cache"), "sfq", "tables")


def sum_of_file(path: str) -> str:
    """Returns the sum of a file's bytes."""
    found = hashlib.sha256()
    with open(path, "rb") as file:
        for block in iter(lambda: file.read(BLOCK), b""):
            found.update(block)
    return found.hexdigest()


def files_in(folder: str, beginnings: tuple[str, ...] = ("",)) -> list[str]:
    """Returns the paths of the files of a folder whose names begin so, in an order that doesn't depend on the system."""
    paths = [os.path.join(folder, it) for it in sorted(os.listdir(folder or os.curdir)) if it.startswith(beginnings)]
    return [it for it in paths if os.path.isfile(it)]


def files_of(source: str) -> Optional[list[str]]:
    """Returns the files that a source may be made of: those of a folder, or a file and those of its stem beside it; None of another source."""
    if os.path.isdir(source):
        return files_in(source)
    if not os.path.isfile(source):
        return None
    folder, name = os.path.split(source)
    return files_in(folder, (name, os.path.splitext(name)[0] + "."))


def sum_of(sources: list[str], said: Any) -> Optional[str]:
    """Returns the sum of sources and of all else that an import depends on; None where a source isn't made of files."""
    found = hashlib.sha256(json.dumps(said, sort_keys=True).encode())
    for source in sources:
        files = files_of(source)
        if files is None:
            return None
        top = os.path.dirname(os.path.abspath(source))
        parts = [[os.path.relpath(os.path.abspath(it), top), sum_of_file(it)] for it in files]
        found.update(json.dumps(parts).encode("utf-8", "surrogateescape"))
    return found.hexdigest()[:LENGTH]


def sealed(folder: str) -> None:
    """Writes the sums of the files of a folder into it."""
    sums = {os.path.relpath(it, folder): sum_of_file(it) for it in files_in(folder)}
    with open(os.path.join(folder, SUMS), "w", encoding="utf-8") as file:
        json.dump(sums, file, indent=1, sort_keys=True)
        file.write("\n")


def is_whole(folder: str) -> bool:
    """Whether a folder has the files that were put into it, as they were."""
    try:
        with open(os.path.join(folder, SUMS), encoding="utf-8") as file:
            sums = json.load(file)
        return bool(sums) and all(sum_of_file(os.path.join(folder, it)) == found for it, found in sums.items())
    except (OSError, ValueError, AttributeError, TypeError, RecursionError):
        return False


class Cache:
    """The entries below a folder, which is made. OSError where it can't be."""

    def __init__(self, folder: str) -> None:
        self.folder = folder
        os.makedirs(folder, 0o700, exist_ok=True)

    def room(self) -> str:
        """Returns a new folder beside the entries, in which one can be made."""
        return tempfile.mkdtemp(prefix=NEW, dir=self.folder)

    def found(self, name: str) -> Optional[str]:
        """Returns the folder of an entry that is there, which is used from now on; None where it isn't there, or isn't as it was made."""
        folder = os.path.join(self.folder, name)
        if not os.path.isdir(folder):
            return None
        with contextlib.suppress(OSError):
            os.utime(folder)
        if is_whole(folder):
            return folder
        self.remove(name)
        return None

    def keep(self, folder: str, name: str) -> str:
        """Moves a folder that was made in a room to the place of an entry, and returns that: of two that are made at once, one stays."""
        sealed(folder)
        place = os.path.join(self.folder, name)
        try:
            os.rename(folder, place)
        except OSError:
            if not is_whole(place):
                raise
        return place

    def remove(self, name: str) -> None:
        """Removes an entry, or what was left of one: nobody sees a part of it. One that somebody else removes, or can't be, is passed over."""
        with held(), contextlib.suppress(OSError):
            room = self.room()
            with contextlib.suppress(OSError):
                os.rename(os.path.join(self.folder, name), os.path.join(room, "gone"))
            shutil.rmtree(room, ignore_errors=True)

    def clean(self) -> None:
        """Removes the entries that nobody used for long, and what runs that were broken off left."""
        now = time.time()
        for name in os.listdir(self.folder):
            with contextlib.suppress(OSError):
                age = now - os.stat(os.path.join(self.folder, name)).st_mtime
                if age > (LEFT if name.startswith(NEW) else KEPT):
                    self.remove(name)
