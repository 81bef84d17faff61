"""Makes Debian packages, the same bytes from the same files: of the commands, and of the C libraries and the Python package, where they
are made."""
import datetime
import gzip
import hashlib
import io
import os
import shutil
import subprocess
import tempfile
from typing import Callable, Iterable, NamedTuple

import bindings
import library
import repository
import wheels

# Where documents are installed.
DOCUMENTS = "share/doc/sfq"
MAINTAINER = "The sfq project <sfq@localhost.localdomain>"
COPYRIGHT = """\
Format: https://www.debian.org/doc/packaging-manuals/copyright-format/1.0/
Upstream-Name: sfq

Files: *
Copyright: 2026 The sfq project
License: not-chosen-yet
 No licence has been chosen yet: nobody but its authors may copy or change sfq.
"""
# What lintian is to leave out.
NO_ADDRESS = ["bogus-mail-host *", "bogus-mail-host-in-debian-changelog *"]
# Where a package has libraries of this machine's kind, and modules of Python.
LIBRARIES, MODULES = "lib/x86_64-linux-gnu", "lib/python3/dist-packages"
# What Python's packages of Debian do when they are installed and removed: compile the modules, and remove what is compiled.
COMPILE = "#!/bin/sh\nset -e\nif command -v py3compile >/dev/null 2>&1; then\n\tpy3compile -p python3-sfq\nfi\n"
CLEAN = "#!/bin/sh\nset -e\nif command -v py3clean >/dev/null 2>&1; then\n\tpy3clean -p python3-sfq\nfi\n"


class File(NamedTuple):
    """A file of a package: its place under /usr, its bytes, its mode."""

    place: str
    text: bytes
    mode: int = 0o644


class Package(NamedTuple):
    """What a package has of its own: its name, its fields but those of each package, its description, its files, its links by their
    places, and what dpkg reads of it."""

    name: str
    fields: dict[str, str]
    description: str
    files: list[File]
    links: dict[str, str] = {}
    control: dict[str, str] = {}

    def file_name(self, version: str) -> str:
        return f"{self.name}_{version}_{self.fields['Architecture']}.deb"


def packed(text: bytes, seconds: int) -> bytes:
    """Returns a text compressed by gzip, the same bytes on each machine."""
    room = io.BytesIO()
    with gzip.GzipFile("", "wb", 9, room, mtime=seconds) as file:
        file.write(text)
    return room.getvalue()


def read(path: str) -> bytes:
    with open(os.path.join(repository.ROOT, path), "rb") as file:
        return file.read()


def changelog(name: str, version: str, seconds: int) -> str:
    """Returns the changelog of Debian's form: the entry of this version, which says where the others are."""
    day = datetime.datetime.fromtimestamp(seconds, datetime.timezone.utc).strftime("%a, %d %b %Y %H:%M:%S +0000")
    where = f"/usr/{DOCUMENTS}/CHANGELOG.md" if name == "sfq" else "CHANGELOG.md of sfq"
    return f"{name} ({version}) unstable; urgency=medium\n\n  * Version {version}: {where} says what is new.\n\n -- {MAINTAINER}  {day}\n"


def control(package: Package, version: str, size: int) -> str:
    """Returns what dpkg shows of a package."""
    fields = {"Package": package.name, "Version": version, "Priority": "optional", "Maintainer": MAINTAINER, **package.fields}
    lines = "".join(f"{name}: {value}\n" for name, value in fields.items())
    return f"{lines}Installed-Size: {(size + 1023) // 1024}\nDescription: {package.description} .\n No licence has been chosen yet.\n"


def with_papers(package: Package, version: str, seconds: int) -> list[File]:
    """Returns the files of a package with its changelog, its copyright and what lintian is to leave out."""
    overrides = "# The project has no address for mail yet.\n" + "".join(f"{package.name}: {it}\n" for it in NO_ADDRESS)
    return [
        *package.files,
        File(f"share/doc/{package.name}/changelog.gz", packed(changelog(package.name, version, seconds).encode(), 0)),
        File(f"share/doc/{package.name}/copyright", COPYRIGHT.encode()),
        File(f"share/lintian/overrides/{package.name}", overrides.encode()),
    ]


def sums(room: str) -> str:
    """Returns the sums of the files below a folder, as dpkg has them."""
    found = sorted(os.path.relpath(f"{at}/{it}", room) for at, _, names in os.walk(f"{room}/usr") for it in names)
    lines = []
    for it in found:
        if not os.path.islink(f"{room}/{it}"):
            with open(f"{room}/{it}", "rb") as file:
                lines.append(f"{hashlib.md5(file.read()).hexdigest()}  {it}\n")
    return "".join(lines)


def write(path: str, text: bytes, mode: int) -> None:
    os.makedirs(os.path.dirname(path), 0o755, exist_ok=True)
    with open(path, "wb") as made:
        made.write(text)
    os.chmod(path, mode)


def make(folder: str, package: Package, version: str, seconds: int) -> str:
    """Makes a package by dpkg-deb in a folder, and returns its path."""
    path = f"{folder}/{package.file_name(version)}"
    files = with_papers(package, version, seconds)
    with tempfile.TemporaryDirectory(prefix="sfq-deb-") as room:
        os.chmod(room, 0o755)
        for it in files:
            write(f"{room}/usr/{it.place}", it.text, it.mode)
        for place, target in package.links.items():
            os.makedirs(os.path.dirname(f"{room}/usr/{place}"), 0o755, exist_ok=True)
            os.symlink(target, f"{room}/usr/{place}")
        texts = {"control": control(package, version, sum(len(it.text) for it in files)), "md5sums": sums(room), **package.control}
        for name, text in texts.items():
            write(f"{room}/DEBIAN/{name}", text.encode(), 0o755 if text.startswith("#!") else 0o644)
        for at, _, names in os.walk(room):
            os.chmod(at, 0o755)
            for each in [at, *(f"{at}/{name}" for name in names)]:
                os.utime(each, (seconds, seconds), follow_symlinks=False)
        subprocess.run(
            ["dpkg-deb", "--root-owner-group", "-Zgzip", "-z9", "--build", room, path],
            env={**os.environ, "SOURCE_DATE_EPOCH": str(seconds), "LC_ALL": "C"},
            stdout=subprocess.DEVNULL,
            check=True,
        )
    return path


# ---- the packages of the libraries ----


def stripped(path: str) -> bytes:
    """Returns a library without the names of what nobody can see from outside."""
    with tempfile.TemporaryDirectory(prefix="sfq-strip-") as room:
        copy = shutil.copy(path, room)
        subprocess.run(["strip", "--strip-unneeded", "--enable-deterministic-archives", copy], check=True)
        return read(copy)


def of_library(ending: str) -> list[str]:
    """Returns the paths of the libraries' files that have this ending where they are installed."""
    return [os.path.join(repository.ROOT, source) for source, target, _ in library.FILES if target.endswith(ending)]


def shared(version: str, libc: str) -> Package:
    """Returns libsfq0: the shared libraries."""
    names = [os.path.basename(it).partition(".")[0] for it in of_library(".so.0")]
    return Package(
        "libsfq0",
        {"Architecture": "amd64", "Multi-Arch": "same", "Section": "libs", "Depends": f"libc6 (>= {libc})"},
        "exact geometry and SQL over an integer grid: the C libraries\n"
        " libsfq gives the DE-9IM matrix of two geometries in well-known text, and\n"
        " libsfq_tables keeps tables and asks them in SQL. What they return is proved\n"
        " by machine.\n",
        [File(f"{LIBRARIES}/{os.path.basename(it)}", stripped(it)) for it in of_library(".so.0")],
        control={
            "shlibs": "".join(f"{it} 0 libsfq0 (>= {version})\n" for it in names),
            "triggers": "activate-noawait ldconfig\n",
        },
    )


def headers(version: str) -> Package:
    """Returns libsfq-dev: headers, static libraries, the links that the linker looks for, and what pkg-config reads."""
    files = [File(f"include/{os.path.basename(it)}", read(it)) for it in of_library(".h")]
    files += [File(f"{LIBRARIES}/{os.path.basename(it)}", read(it)) for it in of_library(".a")]
    with tempfile.TemporaryDirectory(prefix="sfq-dev-") as room:
        made = library.install_made(room, version)
        for it in made:
            if it.endswith(".pc"):
                text = read(it).decode().replace(os.path.abspath(room), "/usr").replace("${prefix}/lib\n", f"${{prefix}}/{LIBRARIES}\n")
                files.append(File(f"{LIBRARIES}/pkgconfig/{os.path.basename(it)}", text.encode()))
        links = {f"{LIBRARIES}/{os.path.basename(it)}": os.readlink(it) for it in made if os.path.islink(it)}
    return Package(
        "libsfq-dev",
        {"Architecture": "amd64", "Multi-Arch": "same", "Section": "libdevel", "Depends": f"libsfq0 (= {version})"},
        "exact geometry and SQL over an integer grid: for C programs\n"
        " The headers of libsfq and libsfq_tables, their static libraries, and what\n"
        " pkg-config reads.\n",
        files, links,
    )


def python(version: str) -> Package:
    """Returns python3-sfq: the Python package sfq. The commands beside it are in the package sfq."""
    files = [File(target, read(source), mode) for source, target, mode in bindings.of_package("sfq", MODULES)]
    files.append(File(f"{MODULES}/sfq-{version}.dist-info/METADATA", wheels.about(version, "2.17")["METADATA"].encode()))
    return Package(
        "python3-sfq",
        {"Architecture": "all", "Section": "python", "Depends": f"python3:any, libsfq0 (>= {version})",
         "Suggests": "python3-geopandas, python3-numpy, python3-pandas, python3-shapely, sfq"},
        "exact geometry and SQL over an integer grid: the Python package\n"
        " sfq.Geometry relates two geometries, and sfq.connect opens tables by PEP 249,\n"
        " over the proved C libraries.\n",
        files,
        control={"postinst": COMPILE, "prerm": CLEAN},
    )


def of_libraries(version: str, libc: Callable[[Iterable[str]], str]) -> list[Package]:
    """Returns the packages of the C libraries and of Python."""
    return [shared(version, libc(wheels.shared())), headers(version), python(version)]
