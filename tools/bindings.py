"""Makes and installs what is over the C library: the Python package, the extension of SQLite, and those of PostgreSQL.

Each is installed where what it needs is there. Where it isn't, a line says what is missing.
"""
import glob
import os
import shutil
import subprocess
import sys
import tempfile
from typing import Optional

import calls
import library
import repository

# The Python that installs is the one that gets the package.
PACKAGES = f"lib/python{sys.version_info[0]}.{sys.version_info[1]}/site-packages"
# The commands of the package, which are installed without it too.
COMMANDS = ("sfq-import", "sfq-export", "sfq-schema", "sfq-shell", "sfq-ask", "sfq-audit")
SQLITE = "lib/sfq0.so"
# What the extensions of SQLite and PostgreSQL share.
SHARED = ("faults.c", "keeping.c")
# What is copied: where it lies in the repository, where under the prefix, and its mode.
File = tuple[str, str, int]


def of_package(name: str, to: str) -> list[File]:
    """Returns the files of a package of Python's and of those within it, for a folder under the prefix."""
    top = f"{repository.ROOT}/bindings/python"
    found = sorted(it for it in glob.glob(f"{top}/{name}/**", recursive=True) if os.path.isfile(it) and "__pycache__" not in it)
    return [(os.path.relpath(it, repository.ROOT), f"{to}/{os.path.relpath(it, top)}", 0o644) for it in found]


def files() -> list[File]:
    """Returns what is copied for programs in Python."""
    return of_package("sfq", PACKAGES)


# ---- SQLite ----


def has_sqlite() -> bool:
    """Whether the header of SQLite's extensions is there."""
    text = "#include <sqlite3ext.h>\n"
    words = ["cc", "-E", "-x", "c", "-"]
    return bool(shutil.which("cc")) and subprocess.run(words, input=text, text=True, capture_output=True).returncode == 0


def of_sqlite() -> list[str]:
    """Returns the files of C that the extension is made of."""
    return sorted(glob.glob(f"{repository.ROOT}/bindings/sqlite/*.c")) + [f"{library.FOLDER}/{it}" for it in SHARED]


def make_sqlite(path: str) -> None:
    """Compiles the extension. Both libraries are within it, and only the entry that SQLite looks for can be seen from outside."""
    flags = [*library.FLAGS, "-fvisibility=hidden", "-shared", f"-I{library.FOLDER}"]
    made = [*of_sqlite(), *(it.archive for it in library.ALL)]
    calls.run(["cc", *flags, *made, "-Wl,--exclude-libs,ALL", "-Wl,-z,defs", "-o", path])


def make_module() -> int:
    """Makes the extension beside the libraries, where sfq-ask of a checkout looks for it; a line says where it can't be made. Returns 0."""
    path = f"{library.OUT}/{os.path.basename(SQLITE)}"
    if has_sqlite():
        make_sqlite(f"{path}.new")
        os.replace(f"{path}.new", path)
    else:
        print("not made: the extension of SQLite, which needs cc and sqlite3ext.h of libsqlite3-dev")
    return 0


# ---- PostgreSQL ----


def configured(name: str) -> Optional[str]:
    """Returns a folder of PostgreSQL by pg_config, or None where pg_config isn't there or fails."""
    if not shutil.which("pg_config"):
        return None
    ran = subprocess.run(["pg_config", f"--{name}"], capture_output=True, text=True)
    return ran.stdout.strip() if ran.returncode == 0 else None


def has_postgresql() -> bool:
    """Whether extensions of PostgreSQL can be made: its makefiles are there, and make and a compiler."""
    pgxs = configured("pgxs")
    return pgxs is not None and os.path.isfile(pgxs) and bool(shutil.which("make")) and bool(shutil.which("cc"))


def of_postgresql() -> list[str]:
    """Returns where PostgreSQL looks for what the extensions are made of."""
    found = glob.glob(f"{repository.ROOT}/bindings/postgresql/sfq*")
    names = sorted(os.path.basename(it) for it in found if it.endswith((".control", ".sql")))
    return [f"{configured('pkglibdir')}/sfq.so", *(f"{configured('sharedir')}/extension/{it}" for it in names)]


def make_postgresql(*words: str) -> None:
    """Makes the extensions in a copy of their folder, by the words of make, over the library that ./build --library made."""
    with tempfile.TemporaryDirectory(prefix="sfq-postgresql-") as room:
        for it in ("c", "postgresql", "python/sfq"):
            shutil.copytree(f"{repository.ROOT}/bindings/{it}", f"{room}/{it}", ignore=shutil.ignore_patterns("out", "*.py"))
        os.makedirs(f"{room}/prefix/lib")
        shutil.copyfile(f"{library.OUT}/libsfq.a", f"{room}/prefix/lib/libsfq.a")
        calls.run(["make", "-s", "-C", f"{room}/postgresql", f"SFQ={room}/prefix", *words])


def is_below(path: str, prefix: str) -> bool:
    return os.path.realpath(path).startswith(os.path.join(os.path.realpath(prefix), ""))


# ---- installing ----


def install_made(prefix: str) -> list[str]:
    """Makes the extensions under a prefix, and returns their paths. Those of PostgreSQL only where it looks below the prefix."""
    paths = []
    if has_sqlite():
        paths.append(os.path.join(prefix, SQLITE))
        make_sqlite(paths[0] + ".new")
        os.replace(paths[0] + ".new", paths[0])
    else:
        print("not installed: the extension of SQLite, which needs cc and sqlite3ext.h")
    if not has_postgresql():
        print("not installed: the extensions of PostgreSQL, which need pg_config, PGXS, make and cc")
    elif not all(is_below(it, prefix) for it in of_postgresql()):
        print(f"not installed: the extensions of PostgreSQL, which looks in {configured('sharedir')}: "
              f"make -C bindings/postgresql install SFQ={os.path.abspath(prefix)}")
    else:
        make_postgresql("install")
        paths += of_postgresql()
    return paths


def made(prefix: str) -> list[str]:
    """Returns what install_made may have made, relative to the prefix."""
    of_server = [it for it in of_postgresql() if is_below(it, prefix)] if has_postgresql() else []
    return [SQLITE, *(os.path.relpath(it, os.path.realpath(prefix)) for it in of_server)]


def remove_compiled(prefix: str) -> None:
    """Removes what Python leaves beside the package when it is used."""
    for it in glob.glob(os.path.join(glob.escape(os.path.join(prefix, PACKAGES, "sfq")), "**", "__pycache__"), recursive=True):
        shutil.rmtree(it, ignore_errors=True)
