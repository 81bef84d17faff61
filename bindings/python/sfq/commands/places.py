"""Where a command keeps files of its own."""
from __future__ import annotations

import os


def of_user(variable: str, usual: str) -> str:
    """Returns a folder of the user: that of a variable, else the usual one in the home folder (XDG Base Directory Specification).

    OSError where there is no home folder: a relative one would be somewhere else for each working folder.
    """
    found = os.environ.get(variable, "")
    if os.path.isabs(found):
        return found
    home = os.environ.get("HOME", os.path.expanduser("~"))
    if not os.path.isabs(home):
        raise OSError(f"there is no home folder: set HOME or {variable}")
    return os.path.join(home, usual)
