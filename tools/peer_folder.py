#!/usr/bin/env python3
"""Makes a folder with newer versions of the engines that sfq is compared with, those of Debian's trixie or sid, and runs commands in it.

usage: peer_folder.py make DIR [--suite bookworm|trixie|sid] [--bare] [--mirror URL] [PACKAGE ..]
       peer_folder.py add DIR PACKAGE ..
       peer_folder.py run DIR COMMAND ..

`make` takes some minutes and 3 GB. The folder gets GEOS, JTS with Java, PostGIS, SpatiaLite, sqlite3, shapely, GeoPandas, GDAL, gcc, Python
and valgrind, in sid DuckDB too, and the packages that you name; with `--bare` it gets only these and the base system. Debian's archive keyring has to confirm the suite, and
apt confirms each package. `add` installs more packages.
`run` runs a command in the folder, with this repository under its own path, and returns the command's status. What is mounted for that
is gone when the command ends, so the folder can be removed at any time.

It needs root, and the packages `debootstrap`, `gpgv` and `debian-archive-keyring` for `make`. The machine's own packages stay as they are.
"""
import argparse
import os
import shutil
import subprocess
import sys
from typing import NoReturn, Optional, Sequence

ROOT = os.path.dirname(os.path.dirname(os.path.realpath(__file__)))
# The suites with newer versions, and all of which a folder can be made.
SUITES = ("trixie", "sid")
DEBIANS = ("bookworm", *SUITES)
MIRROR = "http://deb.debian.org/debian"
KEYRING = "/usr/share/keyrings/debian-archive-keyring.gpg"
PACKAGES = (
    "libgeos-dev", "gcc", "libc6-dev", "python3", "python3-shapely", "python3-geopandas", "python3-gdal", "sqlite3", "libsqlite3-dev",
    "libsqlite3-mod-spatialite", "postgresql-postgis", "valgrind", "libjts-java", "default-jdk-headless",
)  # fmt: skip
# What one suite alone has besides.
MORE_OF = {"sid": ("duckdb",)}
# Says to the packages of servers that none is started when they are installed.
POLICY = "usr/sbin/policy-rc.d"
# Mounts what a program wants in the folder $1, and the repository $2, and runs the rest of the words there, in $3.
ENTER = """set -e
folder=$1 root=$2 here=$3
shift 3
mount --bind /proc "$folder/proc"
mount --rbind /dev "$folder/dev"
mkdir -p "$folder$root"
mount --bind "$root" "$folder$root"
exec chroot "$folder" env -C "$here" "$@"
"""
# The variable that names the folder to a command in it.
INSIDE = "SFQ_IN_PEER_FOLDER"


def packages_of(suite: str) -> tuple[str, ...]:
    """Returns the packages that a suite's folder gets without `--bare`."""
    return PACKAGES + MORE_OF.get(suite, ())


def fail(text: str) -> NoReturn:
    """Ends the program with a line on standard error."""
    sys.exit(f"peer_folder.py: {text}")


def lacking_to_make() -> Optional[str]:
    """Returns what `make` needs and isn't there, with the package that brings it; None where nothing is missing."""
    for tool, package in (("debootstrap", "debootstrap"), ("gpgv", "gpgv"), ("unshare", "util-linux")):
        if not shutil.which(tool, path=f"{os.environ.get('PATH', '')}:/usr/sbin:/sbin"):
            return f"{tool} is missing: apt-get install {package}"
    return None if os.path.isfile(KEYRING) else f"{KEYRING} is missing: apt-get install debian-archive-keyring"


def lacking_to_run(folder: str) -> Optional[str]:
    """Returns what a run in a folder needs and isn't there; None where nothing is missing."""
    if os.geteuid() != 0:
        return "needs root, which mounts and changes the root folder"
    if not shutil.which("unshare"):
        return "unshare is missing: apt-get install util-linux"
    return None if os.path.isfile(f"{folder}/usr/bin/env") else f"{folder} isn't a folder that `make` made"


def words_in(folder: str, words: Sequence[str]) -> list[str]:
    """Returns the words that run a command in a folder, in the present working folder where that is in this repository, else in its root."""
    here = os.getcwd() if f"{os.getcwd()}/".startswith(f"{ROOT}/") else ROOT
    return ["unshare", "--mount", "sh", "-c", ENTER, "sh", os.path.realpath(folder), ROOT, here, *words]


def environment(folder: str) -> dict[str, str]:
    """Returns the environment of a command in a folder: this one's, with the folder's programs."""
    kept = {name: it for name, it in os.environ.items() if name not in ("TMPDIR", "LD_PRELOAD", "LD_LIBRARY_PATH")}
    return {**kept, "PATH": "/usr/sbin:/usr/bin:/sbin:/bin", "LC_ALL": "C.UTF-8", INSIDE: os.path.realpath(folder)}


def apt_get(folder: str, *words: str) -> int:
    """Runs apt-get in a folder, and returns the status."""
    words_there = words_in(folder, ["apt-get", "-y", "-q", "--no-install-recommends", *words])
    return subprocess.run(words_there, env={**environment(folder), "DEBIAN_FRONTEND": "noninteractive"}).returncode


def make(folder: str, suite: str, mirror: str, packages: Sequence[str]) -> int:
    """Makes a folder with the base system of a suite and packages, and returns the status."""
    if missing := lacking_to_make():
        fail(missing)
    if os.path.exists(folder) and (not os.path.isdir(folder) or os.listdir(folder)):
        fail(f"{folder} is there already, and isn't an empty folder")
    # What debootstrap mounts in the folder is seen by itself alone, so nothing stays mounted where it is interrupted.
    words = ["unshare", "--mount", "debootstrap", "--variant=minbase", "--force-check-gpg", f"--keyring={KEYRING}", suite, folder, mirror]
    ran = subprocess.run(words, env={**os.environ, "PATH": f"{os.environ.get('PATH', '')}:/usr/sbin:/sbin"})
    if ran.returncode:
        fail(f"debootstrap ended with status {ran.returncode}; {folder} can be removed")
    with open(f"{folder}/{POLICY}", "w", encoding="ascii") as file:
        file.write("#!/bin/sh\nexit 101\n")
    os.chmod(f"{folder}/{POLICY}", 0o755)
    return apt_get(folder, "install", *packages) if packages else 0


def main() -> int:
    about = (__doc__ or "").split("\n\n")
    parser = argparse.ArgumentParser(description=about[0], epilog=about[2])
    commands = parser.add_subparsers(dest="command", required=True)
    making, adding, running = (commands.add_parser(it) for it in ("make", "add", "run"))
    for it in (making, adding, running):
        it.add_argument("folder", metavar="DIR")
    making.add_argument("--suite", choices=DEBIANS, default="sid", help="the suite of Debian (sid)")
    making.add_argument("--bare", action="store_true", help="only the base system and the named packages")
    making.add_argument("--mirror", default=MIRROR, help=f"where packages come from ({MIRROR})")
    making.add_argument("words", metavar="PACKAGE", nargs="*")
    adding.add_argument("words", metavar="PACKAGE", nargs="+")
    running.add_argument("words", metavar="COMMAND", nargs=argparse.REMAINDER)
    # argparse takes no packages behind an option: those are left over.
    options, left = parser.parse_known_args()
    if left and (options.command != "make" or any(it.startswith("-") for it in left)):
        parser.error(f"unrecognized arguments: {' '.join(left)}")
    if options.command == "make":
        if os.geteuid() != 0:
            fail("needs root, which mounts and changes the root folder")
        return make(options.folder, options.suite, options.mirror, [*(() if options.bare else packages_of(options.suite)), *options.words, *left])
    if missing := lacking_to_run(options.folder):
        fail(missing)
    if options.command == "add":
        # Which packages the suite has may have changed since the folder was made. apt keeps the lists that it has where it takes no newer
        # ones, as of a mirror whose lists have expired; what these name is installed.
        apt_get(options.folder, "update")
        return apt_get(options.folder, "install", *options.words)
    if not options.words:
        parser.error("name a command")
    return subprocess.run(words_in(options.folder, options.words), env=environment(options.folder)).returncode


if __name__ == "__main__":
    sys.exit(main())
