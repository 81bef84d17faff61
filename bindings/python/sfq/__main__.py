"""`python3 -m sfq` runs the program sfq that is installed with this package: its words, its streams and its status.

With `--version` alone a second line says whether the program is the proved one: whether it has the sum in the file SHA256SUMS, which
`./build` writes beside a proved program when it packs or installs one. In a checkout `./sfq` is run, which says this itself.
"""
from __future__ import annotations

import hashlib
import os
import re
import shutil
import subprocess
import sys
import sysconfig
from typing import Optional

NO_PROGRAM = 2
# The folder in which Python found this package, and the folder above it by two: lib of a prefix, or the top of a prefix or of a checkout.
FOLDER = os.path.dirname(os.path.dirname(os.path.abspath(__file__)))
ABOVE = os.path.dirname(os.path.dirname(FOLDER))


def launcher() -> Optional[str]:
    """Returns the path of ./sfq where this package is in bindings/python of a checkout, else None."""
    return f"{ABOVE}/sfq" if os.path.isfile(f"{ABOVE}/tools/current.sh") else None


def program() -> Optional[str]:
    """Returns the path of the program: of the one in the prefix of this package, among the scripts of this Python, or on the path.

    None where there is none.
    """
    # `pip install --target` makes a folder bin beside the package. In a prefix the package is in lib/python3.N/site-packages,
    # lib/python3/dist-packages or share/sfq.
    prefix = os.path.dirname(ABOVE) if re.fullmatch("lib(64)?", os.path.basename(ABOVE)) else ABOVE
    found = [shutil.which(it) for it in (f"{FOLDER}/bin/sfq", f"{prefix}/bin/sfq", f"{sysconfig.get_path('scripts')}/sfq", "sfq")]
    return next((it for it in found if it), None)


def verdict(path: str) -> str:
    """Returns the line that says whether a program is a proved one."""
    with open(path, "rb") as file:
        found = hashlib.sha256(file.read()).hexdigest()
    prefix = os.path.dirname(os.path.dirname(os.path.realpath(path)))
    try:
        with open(f"{prefix}/share/sfq/SHA256SUMS", encoding="utf-8", errors="replace") as text:
            sums = text.read()
    except FileNotFoundError:
        return f"not known as the proved program: {prefix}/share/sfq/SHA256SUMS is missing; SHA-256 {found}"
    if f"\n{found}  bin/sfq\n" not in sums:
        return f"not the proved program: {prefix}/share/sfq/SHA256SUMS has another sum; SHA-256 {found}"
    by = sums.partition("\n")[0].partition("proved")[2]
    return f"the proved program{by}; SHA-256 {found}"


def main() -> int:
    words, path = sys.argv[1:], launcher() or program()
    if path is None:
        print("sfq: the program sfq isn't installed: the wheel and the Debian package sfq of ./build --dist have it", file=sys.stderr)
        return NO_PROGRAM
    if launcher() or words not in (["--version"], ["-V"]):
        os.execv(path, [path, *words])
    status = subprocess.run([path, *words]).returncode
    if status == 0:
        print(verdict(path))
    return status


if __name__ == "__main__":
    sys.exit(main())
