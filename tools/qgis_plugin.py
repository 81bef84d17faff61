"""Makes the plugin for QGIS: a zip that QGIS installs, with the Python package and the C library within. `./build --qgis` calls this."""
import glob
import os
import sys

import bindings
import debian
import library
import packages
import repository
import wheels

# The folder of the plugin, in the repository and in the zip.
FOLDER = f"{repository.ROOT}/bindings/qgis/sfq_qgis"
NAME = os.path.basename(FOLDER)


def files() -> dict[str, bytes]:
    """Returns the files of the zip by their places in it. The first one names the plugin to QGIS."""
    found = {f"{NAME}/{os.path.basename(it)}": it for it in sorted(glob.glob(f"{FOLDER}/*")) if os.path.isfile(it)}
    found.update({target: source for source, target, _ in bindings.of_package("sfq", f"{NAME}/package")})
    found[f"{NAME}/package/sfq/{library.NAME}"] = library.SHARED
    return {place: debian.read(path) for place, path in found.items()}


def make(folder: str) -> int:
    """Makes the zip in the folder: the same bytes from the same sources, wherever it is made. Returns the exit status."""
    version, seconds = packages.released()
    os.makedirs(folder, exist_ok=True)
    path = f"{folder}/{NAME}-{version}.zip"
    with open(path, "wb") as made:
        made.write(wheels.zipped(files(), seconds))
    print(f"{repository.sum_of_file(path)}  {os.path.relpath(path)}")
    print("in QGIS: Plugins, Manage and Install Plugins, Install from ZIP", file=sys.stderr)
    return 0
