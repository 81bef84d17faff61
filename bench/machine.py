"""Where and when figures are taken: the machine, its system, the commit and the day."""

import datetime
import functools
import os
import pathlib
import platform
import re
import subprocess

ROOT = pathlib.Path(__file__).resolve().parent.parent

# The variable that names the commit to a measure in a folder of peers, which has no git.
COMMIT = "SFQ_COMMIT"
# The variable that a command in such a folder has: tools/peer_folder.py sets it.
INSIDE = "SFQ_IN_PEER_FOLDER"
# What is called a peer, by Debian's packages.
PEERS = {
    "libgeos-dev": "GEOS", "sqlite3": "sqlite3", "libsqlite3-mod-spatialite": "SpatiaLite", "libjts-java": "JTS",
    "python3-geopandas": "GeoPandas",
}  # fmt: skip


def day() -> str:
    """The day of today, such as 2026-11-23."""
    return datetime.date.today().isoformat()


def git(*words: str) -> str:
    """What a command of git prints of this repository; nothing where it can't be asked."""
    try:
        ran = subprocess.run(["git", "-C", str(ROOT), *words], capture_output=True, text=True)
    except OSError:
        return ""
    return ran.stdout.strip() if ran.returncode == 0 else ""


def commit() -> str:
    """The commit of this repository, and whether its crates or its C were changed since."""
    if COMMIT in os.environ:
        return os.environ[COMMIT]
    found = git("rev-parse", "--short=8", "HEAD") or "unknown"
    return f"{found} with changes" if git("status", "--porcelain", "--", "crates", "bindings/c") else found


def processor() -> str:
    """The processor as it calls itself, and how many of it there are."""
    name = said_in("/proc/cpuinfo", r"^model name\s*: (.+)") or platform.machine()
    return f"{' '.join(name.split())}, {os.cpu_count()} processors"


def system() -> str:
    """The system and its kernel."""
    name = said_in("/etc/os-release", r'^PRETTY_NAME="?([^"\n]+)')
    return ", ".join(filter(None, [name, f"{platform.system()} {platform.release()} {platform.machine()}"]))


def is_beside_newer() -> bool:
    """Whether this runs in a folder of newer peers."""
    return INSIDE in os.environ


@functools.lru_cache
def versions() -> dict[str, str]:
    """The versions of the peers that are installed by Debian's packages, by their names."""
    try:
        ran = subprocess.run(["dpkg-query", "-W", "-f", "${Package} ${Version}\n", *PEERS], capture_output=True, text=True)
    except OSError:
        return {}
    found = re.findall(r"^(\S+) (?:\d+:)?([^-+~\s]+)", ran.stdout, re.M)
    return {PEERS[name]: version for name, version in found}


def peers() -> str:
    """The peers that are installed by Debian's packages, each with its version."""
    return ", ".join(f"{name} {version}" for name, version in versions().items()) or "unknown"


def versioned(text: str) -> str:
    """A text in which each peer that is installed has its version behind its name."""
    return re.sub(rf"\b({'|'.join(PEERS.values())})\b(?! \d)", lambda it: " ".join(filter(None, [it[1], versions().get(it[1])])), text)


def said_in(path: str, pattern: str) -> str:
    """What a pattern finds in a file of the system; nothing where it isn't there."""
    try:
        found = re.search(pattern, pathlib.Path(path).read_text(), re.M)
    except OSError:
        return ""
    return found[1] if found else ""


def described() -> str:
    """All of it in a line."""
    return f"{processor()}; {system()}; commit {commit()}; {day()}"
