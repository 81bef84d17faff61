"""Makes a wheel of the Python package with the C libraries, the program and the manual pages inside: pip installs it where neither the
kit nor a compiler is."""
import base64
import datetime
import hashlib
import io
import os
import re
import zipfile
from typing import Iterable

import bindings
import library
import repository

PROJECT = f"{repository.ROOT}/bindings/python/pyproject.toml"


def described(name: str) -> str:
    """Returns what pyproject.toml says under a name, of the project or of its scripts."""
    with open(PROJECT, encoding="utf-8") as text:
        return str(re.findall(rf'^{re.escape(name)} = "(.*)"$', text.read(), re.M)[0])


def scripts() -> str:
    """Returns the commands of pyproject.toml as an installer reads them."""
    with open(PROJECT, encoding="utf-8") as text:
        part = text.read().split("[project.scripts]\n")[1].split("\n\n")[0]
    return "[console_scripts]\n" + part.replace('"', "") + "\n"


def tag(libc: str) -> str:
    """Returns for which Pythons and systems the wheel is: any Python 3, on x86-64 with a C library of this version or later."""
    return f"py3-none-manylinux_{libc.replace('.', '_')}_x86_64"


def about(version: str, libc: str) -> dict[str, str]:
    """Returns the files that say what the wheel is."""
    metadata = f"Metadata-Version: 2.1\nName: sfq\nVersion: {version}\nSummary: {described('description')}\n"
    return {
        "METADATA": f"{metadata}Requires-Python: {described('requires-python')}\n",
        "WHEEL": f"Wheel-Version: 1.0\nGenerator: sfq {version}\nRoot-Is-Purelib: false\nTag: {tag(libc)}\n",
        "entry_points.txt": scripts(),
        "top_level.txt": "sfq\nsfq_audit\nsfq_scale\n",
    }


def shared() -> list[str]:
    """Returns the paths of the shared libraries that are installed."""
    return [os.path.join(repository.ROOT, source) for source, target, _ in library.FILES if target.endswith(".so.0")]


def files(version: str, libc: str) -> Iterable[tuple[str, bytes]]:
    """Returns each file of the wheel but the list of them: its place and its bytes."""
    for name in ("sfq", "sfq_audit", "sfq_scale"):
        for source, target, _ in bindings.of_package(name, "."):
            with open(f"{repository.ROOT}/{source}", "rb") as file:
                yield target[2:], file.read()
    for source in shared():
        with open(source, "rb") as file:
            yield f"sfq/{os.path.basename(source)}", file.read()
    for name, text in about(version, libc).items():
        yield f"sfq-{version}.dist-info/{name}", text.encode()


def listed(place: str, text: bytes) -> str:
    """Returns the line of a file in the list of the wheel's files."""
    digest = base64.urlsafe_b64encode(hashlib.sha256(text).digest()).rstrip(b"=").decode()
    return f"{place},sha256={digest},{len(text)}\n"


def zipped(files: dict[str, bytes], seconds: int, programs: str = "") -> bytes:
    """Returns a zip of files by their places, in their order: the same bytes from the same files and the same date. Those in the folder
    `programs` are programs."""
    room, day = io.BytesIO(), datetime.datetime.fromtimestamp(seconds, datetime.timezone.utc)
    with zipfile.ZipFile(room, "w") as archive:
        for place, text in files.items():
            entry = zipfile.ZipInfo(place, (day.year, day.month, day.day, day.hour, day.minute, day.second))
            mode = 0o100755 if programs and place.startswith(programs) else 0o100644
            entry.compress_type, entry.external_attr = zipfile.ZIP_DEFLATED, mode << 16
            archive.writestr(entry, text)
    return room.getvalue()


def make(folder: str, version: str, seconds: int, libc: str, beside: dict[str, bytes]) -> str:
    """Makes the wheel in the folder, the same bytes from the same files, and returns its path.

    `beside` has what pip installs beside the package: programs by `scripts/NAME`, and files under the prefix by `data/PLACE`.
    """
    found, record = dict(files(version, libc)), f"sfq-{version}.dist-info/RECORD"
    found.update({f"sfq-{version}.data/{place}": text for place, text in beside.items()})
    found[record] = ("".join(listed(place, text) for place, text in found.items()) + f"{record},,\n").encode()
    path = f"{folder}/sfq-{version}-{tag(libc)}.whl"
    with open(path, "wb") as made:
        made.write(zipped(found, seconds, f"sfq-{version}.data/scripts/"))
    return path
