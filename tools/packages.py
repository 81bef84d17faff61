"""Installs the program with its manual page and its shell completions, the commands of the Python package, sfq-tiles with sfq-scale and the C
library with what is over it where they are made; makes a tarball and a Debian package of the programs."""
import datetime
import io
import os
import re
import shutil
import tarfile
from typing import Iterable

import bindings
import debian
import library
import proving
import repository
import tiles
import wheels

# Where Python's modules of programs are installed, a folder for each package. The launchers have Python run this folder.
SHARE = "share/sfq"
# The sums of the programs as installed, which `sha256sum -c` reads in the prefix. `python3 -m sfq --version` looks for this file.
SUMS = f"{SHARE}/SHA256SUMS"
# Where each shell looks for the completions of a command.
SHELLS = {
    "{}.bash": "share/bash-completion/completions/{}",
    "_{}": "share/zsh/site-functions/_{}",
    "{}.fish": "share/fish/vendor_completions.d/{}.fish",
}


def described(name: str) -> list[bindings.File]:
    """Returns the manual page and the completions of a command: where each lies in the repository, where under the prefix, its mode."""
    found = [(f"packaging/completions/{source}", target) for source, target in SHELLS.items()]
    return [(source.format(name), target.format(name), 0o644) for source, target in [("packaging/man/{}.1", "share/man/man1/{}.1"), *found]]


def documents() -> list[bindings.File]:
    """Returns the documents for users, their pictures, and the examples, which lie under the prefix as in the repository."""
    found = ["CHANGELOG.md", *(f"docs/{it}.md" for it in ("AUDIT", "C", "DATA", "FAULTS", "JAVASCRIPT", "LIBRARY", "POSTGRESQL", "PYTHON", "SCALE", "SQLITE"))]
    found += [f"docs/pictures/{it}" for it in ("cells.svg", "qgis.png", "scale.svg", "why-not-simple.svg")]
    for at, folders, names in os.walk(f"{repository.ROOT}/examples"):
        folders[:] = sorted(it for it in folders if not it.startswith(("_", ".")))
        found += [os.path.relpath(f"{at}/{it}", repository.ROOT) for it in sorted(names)]
    return [(it, f"{debian.DOCUMENTS}/{it}", 0o644) for it in found]


# What is installed: where it lies in the repository, where under the prefix, and its mode.
PROGRAM = [("crates/sfq/out/sfq", "bin/sfq", 0o755), *described("sfq"), *documents()]
# sfq-scale is of no use without sfq-tiles.
TILES = [
    (tiles.PROGRAM, "bin/sfq-tiles", 0o755), *described("sfq-tiles"),
    ("bindings/python/bin/sfq-scale", "bin/sfq-scale", 0o755), *described("sfq-scale"), *bindings.of_package("sfq_scale", SHARE),
]
DATA = [(f"bindings/python/bin/{it}", f"bin/{it}", 0o755) for it in bindings.COMMANDS]
DATA += [*(file for it in bindings.COMMANDS for file in described(it)), *bindings.of_package("sfq", SHARE), *bindings.of_package("sfq_audit", SHARE)]
DATA.append(("bindings/python/__main__.py", f"{SHARE}/__main__.py", 0o644))
FILES = PROGRAM + TILES + DATA
# The programs among them, which are proved, by their places under the prefix.
PROVED = {"bin/sfq": repository.PROGRAM, "bin/sfq-tiles": tiles.PROGRAM}
# Debian's zsh looks elsewhere for the completions of its packages.
OF_DEBIAN = {"share/zsh/site-functions/": "share/zsh/vendor-completions/"}


def sums(places: Iterable[str]) -> bytes:
    """Returns the file of the sums of proved programs, by their places under the prefix. Its first line says by which logic they are proved."""
    logic = re.search(r"\bsum=([0-9a-f]+)", proving.read_mark("sfq")[1])
    head = f"# programs of sfq {repository.version()} that are proved" + (f", by logic {logic[1]}" if logic else "")
    return "".join([f"{head}\n", *(f"{repository.sum_of_file(PROVED[it])}  {it}\n" for it in places)]).encode()


def put(prefix: str, target: str, text: bytes, mode: int) -> None:
    """Writes a file under the prefix, a file in use by replacing it, and prints its path."""
    to = os.path.join(prefix, target)
    os.makedirs(os.path.dirname(to), exist_ok=True)
    with open(to + ".new", "wb") as file:
        file.write(text)
    os.chmod(to + ".new", mode)
    os.replace(to + ".new", to)
    print(f"installed {to}")


def copy(files: Iterable[bindings.File], prefix: str) -> None:
    """Copies each file under the prefix."""
    for source, target, mode in files:
        put(prefix, target, debian.read(source), mode)


def install(prefix: str) -> int:
    """Installs the program, and sfq-tiles with sfq-scale and the C libraries with what is over them where they are made."""
    with_library, with_tiles = library.are_made(), tiles.is_made()
    copy(PROGRAM + DATA + TILES * with_tiles + (library.FILES + bindings.files()) * with_library, prefix)
    put(prefix, SUMS, sums([*PROVED][:1 + with_tiles]), 0o644)
    made = library.install_made(prefix, repository.version()) + bindings.install_made(prefix) if with_library else []
    for it in made:
        print(f"installed {it}")
    if not with_tiles:
        print("not installed: sfq-tiles and sfq-scale, which need ./build --tiles")
    if not with_library:
        print("not installed: the C libraries and what is over them, which need ./build --library")
    return 0


def uninstall(prefix: str) -> int:
    """Removes each installed file, and the folders below the prefix that are empty then."""
    bindings.remove_compiled(prefix)
    made = [SUMS, *library.MADE, *bindings.made(prefix)]
    for target in [*(it[1] for it in FILES + library.FILES + bindings.files()), *made]:
        path = os.path.join(prefix, target)
        if os.path.lexists(path):
            os.remove(path)
            print(f"removed {path}")
        folder = os.path.dirname(target)
        while folder:
            try:
                os.rmdir(os.path.join(prefix, folder))
            except OSError:
                break
            folder = os.path.dirname(folder)
    return 0


def released() -> tuple[str, int]:
    """Returns the version and its date, in seconds, which its entry of CHANGELOG.md has."""
    version = repository.version()
    with open(f"{repository.ROOT}/CHANGELOG.md", encoding="utf-8") as text:
        day = re.findall(rf"^## {re.escape(version)} \((\d+-\d+-\d+)\)", text.read(), re.M)[0]
    date = datetime.datetime.fromisoformat(f"{day}T00:00:00+00:00")
    return version, int(date.timestamp())


def packed_files() -> list[debian.File]:
    """Returns what a package of the programs has: places under the prefix, bytes and modes."""
    found = [debian.File(target, debian.read(source), mode) for source, target, mode in FILES]
    return [*found, debian.File(SUMS, sums(PROVED))]


def make_tarball(path: str, top: str, seconds: int) -> None:
    """Writes the files below the folder `top`, with nothing in it that differs from one machine to another."""
    room = io.BytesIO()
    with tarfile.open(fileobj=room, mode="w", format=tarfile.USTAR_FORMAT) as archive:
        for target, text, mode in sorted(packed_files()):
            entry = tarfile.TarInfo(f"{top}/{target}")
            entry.size, entry.mode, entry.mtime = len(text), mode, seconds
            entry.uname = entry.gname = "root"
            archive.addfile(entry, io.BytesIO(text))
    with open(path, "wb") as made:
        made.write(debian.packed(room.getvalue(), seconds))


def wanted_libc(programs: Iterable[str]) -> str:
    """Returns the oldest version of the C library that the programs' symbols allow."""
    found = []
    for it in programs:
        with open(it, "rb") as file:
            found += re.findall(rb"GLIBC_(\d+)\.(\d+)", file.read())
    return ".".join(map(str, max((int(a), int(b)) for a, b in found))) if found else "2.17"


def package() -> debian.Package:
    """Returns the Debian package of the commands. Manual pages are compressed."""
    files = []
    for target, text, mode in packed_files():
        for usual, other in OF_DEBIAN.items():
            target = target.replace(usual, other)
        is_page = target.startswith("share/man/")
        files.append(debian.File(f"{target}.gz", debian.packed(text, 0), mode) if is_page else debian.File(target, text, mode))
    libc = wanted_libc(PROVED.values())
    return debian.Package(
        "sfq",
        {"Architecture": "amd64", "Section": "database", "Depends": f"libc6 (>= {libc}), python3",
         "Suggests": "python3-gdal, gdal-bin, python3-dask, python3-distributed, python3-shapely"},
        "SQL over tables of an integer grid, by exact geometry\n"
        " sfq reads a schema, one CSV file per table and a SELECT, and writes the rows\n"
        " that the SELECT means. Its spatial predicates are exact, and what it writes is\n"
        " proved by machine. sfq-import and sfq-export, which need GDAL, bring data in\n"
        " and answers out; sfq-schema proposes a schema for CSV files; sfq-shell is a\n"
        " prompt; sfq-ask asks layers a query in one call; sfq-scale runs a query over\n"
        " more rows on a Dask cluster; sfq-audit compares other engines with sfq.\n",
        files,
    )


def make_wheel(folder: str, version: str, seconds: int) -> str:
    """Makes the wheel in the folder, with the program and the manual pages of the commands that it has, and returns its path."""
    beside = {"scripts/sfq": debian.read(repository.PROGRAM), f"data/{SUMS}": sums(["bin/sfq"])}
    for it in ("sfq", "sfq-scale", *bindings.COMMANDS):
        source, target, _ = described(it)[0]
        beside[f"data/{target}"] = debian.read(source)
    return wheels.make(folder, version, seconds, wanted_libc([repository.PROGRAM, *wheels.shared()]), beside)


def make_packages(folder: str) -> int:
    """Makes the packages in the folder, with a file of their sums: the same bytes from the same sources, wherever they are made."""
    version, seconds = released()
    os.makedirs(folder, exist_ok=True)
    top = f"sfq-{version}-linux-x86_64"
    made = [f"{folder}/{top}.tar.gz"]
    make_tarball(made[0], top, seconds)
    debs = [package()]
    if library.is_made() and all(os.path.isfile(it) for it in wheels.shared()):
        debs += debian.of_libraries(version, wanted_libc)
        made.append(make_wheel(folder, version, seconds))
    else:
        print("sfq: no wheel and no Debian packages of the libraries and of Python are made, which need ./build --library")
    if shutil.which("dpkg-deb"):
        made += [debian.make(folder, it, version, seconds) for it in debs]
    else:
        print("sfq: no dpkg-deb here, so no Debian package is made")
    for it in made:
        print(f"{repository.sum_of_file(it)}  {os.path.relpath(it)}")
    with open(f"{folder}/SHA256SUMS", "w", encoding="ascii") as file:
        file.writelines(f"{repository.sum_of_file(it)}  {os.path.basename(it)}\n" for it in made)
    return 0
