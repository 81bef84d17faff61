"""Which program sfq is asked, and whether it is a proved one."""
from __future__ import annotations

import os
import shutil
import subprocess
import sys
from typing import Optional

# The checkout that this package is in, if it is in one.
ABOVE = os.path.normpath(os.path.join(os.path.dirname(os.path.abspath(__file__)), *[os.pardir] * 3))


def beside() -> Optional[str]:
    """Returns the program beside this command or on the path, None where there is none."""
    return shutil.which(f"{os.path.dirname(os.path.realpath(sys.argv[0]))}/sfq") or shutil.which("sfq")


def unproved(path: str) -> str:
    """Returns why a program isn't asked, or nothing: it is the script of a checkout, or what that keeps, and isn't proved there.

    Nothing of a checkout is run for this, but of the one that this package is in.
    """
    folder, _, rest = os.path.realpath(path).rpartition("/")
    is_kept = f"{folder}/{rest}".endswith("/out/unproved/sfq")
    checkout = folder.removesuffix("/out/unproved") if is_kept else folder
    if not os.path.isfile(f"{checkout}/tools/current.sh"):
        return ""
    if checkout != ABOVE and not is_kept:
        return f"{path} is the script of another checkout: run {checkout}/bindings/python/bin/sfq-audit, or name the program that it installs"
    if is_kept or subprocess.run(["sh", "tools/current.sh", "is"], cwd=checkout, stdin=subprocess.DEVNULL).returncode:
        return f"{path} isn't the proved program: run {checkout}/build first"
    return ""
