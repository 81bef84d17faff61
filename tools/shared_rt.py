"""The kit's `rt`, so that several can work side by side over the same libraries.

usage: shared_rt.py WORD..      in a crate's folder, as `rt WORD..` is called there
       shared_rt.py             ends with status 0 where the kit's `rt` has the form that this file relies on

`rt` holds the crates below one as long as it works on that one, so no two of its checks run side by side. And it reads the
sources below once for each way that leads down to them. Here a crate below is held together with others, since nobody writes
there, and is read once. Where one of them isn't built, the status is CHANGED. All that is proved and kept is the kit's own work.
"""
import fcntl
import importlib.machinery
import importlib.util
import inspect
import os
import shutil
import sys
from typing import Any, Callable, Iterable

# The status where a crate below was changed since it was built, and where the kit's `rt` has another form.
CHANGED, UNKNOWN = 75, 76
# The functions of the kit that are replaced here or that a replacement calls, with their parameters.
FORM = {"lock": ["crates"], "Crate.stamp": ["self"], "Crate.build_rlib": ["self", "flags", "anew"], "Crate.is_built": ["self"]}


def load() -> Any:
    """Returns the kit's `rt` as a module, or None where it has another form."""
    path = os.path.realpath(shutil.which("rt") or "")
    if not os.path.isfile(f"{os.path.dirname(path)}/rtlib.py"):
        return None
    loader = importlib.machinery.SourceFileLoader("rt_of_the_kit", path)
    spec = importlib.util.spec_from_loader(loader.name, loader)
    if spec is None:
        return None
    rt = importlib.util.module_from_spec(spec)
    loader.exec_module(rt)
    return rt if has_form(rt) else None


def has_form(rt: Any) -> bool:
    try:
        for name, parameters in FORM.items():
            found = rt.rtlib
            for it in name.split("."):
                found = getattr(found, it)
            if [*inspect.signature(found).parameters] != parameters:
                return False
        return callable(rt.main)
    except (AttributeError, TypeError):
        return False


def reading_once(stamp: Callable[[Any], Any]) -> Callable[[Any], Any]:
    """Returns `stamp`, the sum over a crate's files and those below it, so that each call reads a crate once."""
    known: dict[str, Any] = {}
    depth = 0

    def read(crate: Any) -> Any:
        nonlocal depth
        depth += 1
        try:
            if crate.folder not in known:
                known[crate.folder] = stamp(crate)
            return known[crate.folder]
        finally:
            depth -= 1
            if not depth:
                known.clear()

    return read


def hold(crates: Iterable[Any]) -> list[int]:
    """Waits until nobody else works in these crates. Holds the one of this folder alone, and the others together with who only reads them."""
    held: list[int] = []
    # In one order everywhere, that of `rt`, so that no two wait for each other.
    for folder in sorted({os.path.realpath(it.folder) for it in crates}):
        kind = fcntl.LOCK_EX if folder == os.path.realpath(os.getcwd()) else fcntl.LOCK_SH
        held.append(os.open(folder, os.O_RDONLY))
        try:
            fcntl.flock(held[-1], kind)
        except OSError:
            # Some file systems have no locks.
            pass
    return held


def only_here(build: Callable[[Any, Any, Any], Any]) -> Callable[[Any, Any, Any], Any]:
    """Returns `build_rlib` so that it builds the crate of this folder alone."""

    def build_here(crate: Any, flags: Any, anew: Any) -> Any:
        if os.path.realpath(crate.folder) == os.path.realpath(os.getcwd()):
            return build(crate, flags, anew)
        if crate.is_built():
            return 0
        print(f"{crate.name} was changed since it was proved", flush=True)
        sys.exit(CHANGED)

    return build_here


def main(words: list[str]) -> int:
    rt = load()
    if rt is None:
        return UNKNOWN
    if not words:
        return 0
    crate = rt.rtlib.Crate
    crate.stamp = reading_once(crate.stamp)
    crate.build_rlib = only_here(crate.build_rlib)
    rt.rtlib.lock = hold
    status: int = rt.main(words)
    return status


if __name__ == "__main__":
    sys.dont_write_bytecode = True
    sys.exit(main(sys.argv[1:]))
