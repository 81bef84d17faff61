"""How a file is written: beside its place, under a name that nobody can know before, and moved to its place as a whole.

Until then what was there stays as it was, and where the command fails nothing is left beside it. None of it is proved.
"""
from __future__ import annotations

import contextlib
import errno
import io
import os
import shutil
import stat
import tempfile
from typing import Any, Iterator, Optional, Sequence, TextIO

from .endings import held

# The beginning of the name of a file or a folder that is being written.
NEW = ".sfq-"
# How many links lead to a file at most.
MOST_LINKS = 40


class Named(io.FileIO):
    """A file whose faults say what a person calls it."""

    def __init__(self, number: int, called: str) -> None:
        super().__init__(number, "w")
        self.called = called

    def write(self, data: Any) -> int:
        try:
            found = super().write(data)
        except OSError as error:
            raise OSError(error.errno, error.strerror, self.called) from None
        if found is None:
            raise OSError(errno.EAGAIN, os.strerror(errno.EAGAIN), self.called)
        return found


def mask() -> int:
    """Returns the mask that new files get."""
    found = os.umask(0o077)
    os.umask(found)
    return found


def descriptor(path: str) -> Optional[int]:
    """Returns the number of the open file that a path names, as /dev/stdout does; None of another path."""
    for _ in range(MOST_LINKS):
        folder, name = os.path.split(path)
        folder = os.path.realpath(folder or os.curdir)
        if name.isdigit() and folder == f"/proc/{os.getpid()}/fd":
            return int(name)
        try:
            path = os.path.join(folder, os.readlink(os.path.join(folder, name)))
        except OSError:
            return None
    return None


def place_of(path: str) -> Optional[str]:
    """Returns the path of the file to be replaced, which a link leads to; None of a device or a pipe. IsADirectoryError of a folder."""
    place = os.path.realpath(path)
    try:
        mode = os.stat(place).st_mode
    except FileNotFoundError:
        mode = stat.S_IFREG
    if stat.S_ISDIR(mode) or path.endswith("/"):
        raise IsADirectoryError(errno.EISDIR, os.strerror(errno.EISDIR), path)
    return place if stat.S_ISREG(mode) else None


def settle(handle: int, place: str) -> None:
    """Gives a new file the mode of the one whose place it takes, else that of any new file, and waits until it is on the disk."""
    try:
        mode = stat.S_IMODE(os.stat(place).st_mode) & 0o777
    except FileNotFoundError:
        mode = 0o666 & ~mask()
    os.fchmod(handle, mode)
    os.fsync(handle)


def sync(path: str) -> None:
    """Waits until a file is on the disk, or the names in a folder are. OSError where the disk fails; some systems can't wait for a folder."""
    handle = os.open(path, os.O_RDONLY)
    try:
        os.fsync(handle)
    except OSError as error:
        if error.errno not in (errno.EINVAL, errno.ENOTSUP):
            raise OSError(error.errno, error.strerror, path) from None
    finally:
        os.close(handle)


class Output:
    """A file that takes its place as a whole once it is kept.

    A link stays, and what it leads to is replaced. A device, a pipe, and an open file such as /dev/stdout, are written as they are.
    """

    def __init__(self, path: str, is_by_name: bool = False) -> None:
        """Makes it; an empty path is no file. OSError, which names the path, where it can't be made.

        `is_by_name` is for what a library writes that opens files by their names: `new` is the path that it gets.
        """
        self.path, self.place, self.new, self.room = path, "", "", ""
        self.file: Optional[TextIO] = None
        try:
            if path:
                with held():
                    self.begin(is_by_name)
        except OSError as error:
            raise OSError(error.errno, error.strerror, path) from None

    def __del__(self) -> None:
        """Removes what a signal came upon before anybody knew it."""
        if self.new or self.room:
            self.drop()

    def begin(self, is_by_name: bool) -> None:
        """Makes the file beside its place, or opens what is written as it is."""
        number, place = descriptor(self.path), place_of(self.path)
        if number is None and place is not None:
            self.place, folder = place, os.path.dirname(place)
            if is_by_name:
                self.room = tempfile.mkdtemp(prefix=NEW, dir=folder)
                self.new = os.path.join(self.room, os.path.basename(place))
                return
            handle, self.new = tempfile.mkstemp(prefix=NEW, dir=folder)
        elif is_by_name:
            raise OSError(errno.EINVAL, "it isn't a file, and can't be written as it is")
        else:
            handle = os.open(self.path, os.O_WRONLY) if number is None else os.dup(number)
        self.file = io.TextIOWrapper(io.BufferedWriter(Named(handle, self.path)), encoding="utf-8", errors="surrogateescape", newline="\n")

    def finish(self) -> None:
        """Writes the rest of it, up to the disk."""
        try:
            if self.file:
                self.file.flush()
                if self.new:
                    settle(self.file.fileno(), self.place)
                self.file.close()
            elif self.new:
                handle = os.open(self.new, os.O_RDONLY)
                with contextlib.closing(os.fdopen(handle, "rb")):
                    settle(handle, self.place)
        except OSError as error:
            raise OSError(error.errno, error.strerror, self.path) from None

    def put(self) -> None:
        """Moves it to its place."""
        if not self.new:
            return
        try:
            with held():
                os.replace(self.new, self.place)
                self.new = ""
            sync(os.path.dirname(self.place))
        except OSError as error:
            raise OSError(error.errno, error.strerror, self.path) from None

    def keep(self) -> None:
        """Has it take its place."""
        keep([self])

    def drop(self) -> None:
        """Removes what was written, unless it has taken its place."""
        with held(), contextlib.suppress(OSError):
            new, room, self.new, self.room = self.new, self.room, "", ""
            if room:
                shutil.rmtree(room, ignore_errors=True)
            elif new:
                os.remove(new)
        if self.file:
            with contextlib.suppress(OSError):
                self.file.close()


@contextlib.contextmanager
def made_by_gdal(path: str) -> Iterator[str]:
    """Hands out the path of a file that GDAL makes and closes, which is there as a whole at the end or not at all. OSError where it can't."""
    output = Output(path, True)
    try:
        yield output.new
        output.keep()
    except RuntimeError as error:
        raise OSError(f"{path}: GDAL can't write it: {error}") from None
    finally:
        output.drop()


def keep(outputs: Sequence[Output]) -> None:
    """Has files take their places once all of them are written."""
    for it in outputs:
        it.finish()
    for it in outputs:
        it.put()
        it.drop()


def are_one(paths: Sequence[str]) -> Optional[str]:
    """Returns the first of some paths that names the file of one before it, None where there is none. Empty paths are none."""
    known: list[str] = []
    for it in paths:
        if it and os.path.realpath(it) in known:
            return it
        known.append(os.path.realpath(it) if it else "")
    return None
