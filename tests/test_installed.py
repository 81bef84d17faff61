"""What ./build --dist makes, installed in folders of three suites of Debian: the wheel and the Debian packages where only Python is, and
the wheel beside Debian's GeoPandas, for which README has three commands. No index of packages and no network is used.

`./test --today packages` makes the folders, and runs these tests.
"""
import os
import shutil
import subprocess
import tempfile
import unittest

from support import ROOT, needs, needs_build

import debian
import engine_rows
import front_door
import packages
import peer_folder
import repository
import test_readme
import tiles
import today

# Asks the library by the package.
RELATES = "import sfq; print(sfq.relate('POINT(1 1)', 'POINT(1 1)'))"


class InFolder(engine_rows.WithLibrary):
    """A test case that goes into folders, in which each test has a folder of its own for files."""

    ASKS_PROGRAM, IS_LONG = True, True

    def enter(self, folder):
        """Chooses the folder. The test is skipped where it isn't there or can't be used."""
        if missing := peer_folder.lacking_to_run(folder):
            self.skipTest(missing if missing.startswith("needs") else f"needs ./test --today packages, which makes {folder}")
        self.folder = os.path.realpath(folder)
        room = tempfile.TemporaryDirectory(prefix="sfq-installed-", dir=f"{self.folder}/tmp")
        self.addCleanup(room.cleanup)
        os.chmod(room.name, 0o755)
        self.room = room.name

    def end_of(self, *words, at=None):
        """Runs a command in the folder, where no variable says where sfq is, and returns how it ended.

        pip takes Debian's packages as they are: sid's shapely names no version, for which pip would look for another one in an index.
        """
        known = ["PATH=/usr/sbin:/usr/bin:/sbin:/bin", "HOME=/root", "LANG=C.UTF-8", "DEBIAN_FRONTEND=noninteractive"]
        inside = ["env", "-i", "-C", at or self.room[len(self.folder):], *known, "PIP_NO_INDEX=1", "PIP_NO_DEPS=1", *words]
        return subprocess.run(peer_folder.words_in(self.folder, inside), stdin=subprocess.DEVNULL, capture_output=True, text=True)

    def run_in(self, *words, at=None):
        """Runs a command in the folder, which has to end well, and returns what it printed."""
        ran = self.end_of(*words, at=at)
        self.assertEqual(ran.returncode, 0, f"{' '.join(words)}\n{ran.stdout}{ran.stderr}")
        return ran.stdout

    def first_command(self, program):
        """Returns README's first command by an installed program, and what it prints."""
        first = front_door.commands(test_readme.README)[0]
        self.assertTrue(first.text.startswith("./sfq "), first.text)
        return ["sh", "-c", first.text.replace("./sfq", program, 1)], first.prints


class EachSuite:
    """A test in each suite of what `check` does in one."""

    @needs_build
    def test_bookworm(self):
        self.check("bookworm")

    @needs_build
    def test_trixie(self):
        self.check("trixie")

    @needs_build
    def test_sid(self):
        self.check("sid")


class Wheel(EachSuite, InFolder):
    """pip installs the wheel where only Python is: it has the program, the package and the libraries."""

    def check(self, suite):
        self.enter(today.bare_folder_of(suite))
        path = packages.make_wheel(self.room, *packages.released())
        self.run_in("python3", "-m", "venv", "venv")
        self.run_in("venv/bin/pip", "install", "-q", f"./{os.path.basename(path)}")
        self.assertRegex(self.run_in("venv/bin/python", "-m", "sfq", "--version"), test_readme.says_proved(repository.sum_of_file(repository.PROGRAM)))
        shutil.copytree(f"{ROOT}/examples/parcels", f"{self.room}/examples/parcels")
        words, prints = self.first_command("venv/bin/sfq")
        self.assertEqual(self.run_in(*words), prints)
        self.assertEqual(self.run_in("venv/bin/python", "-c", RELATES), "0FFFFFFF2\n")


@needs("dpkg", "dpkg-deb")
class DebianPackages(EachSuite, InFolder):
    """apt installs the packages where only Python is, and takes them away again."""

    NAMES = ("sfq", "libsfq0", "libsfq-dev", "python3-sfq")

    def check(self, suite):
        if not tiles.is_made():
            self.skipTest("needs ./build --tiles")
        self.enter(today.bare_folder_of(suite))
        version, seconds = packages.released()
        for it in (packages.package(), *debian.of_libraries(version, packages.wanted_libc)):
            debian.make(self.room, it, version, seconds)
        self.addCleanup(self.end_of, "apt-get", "-y", "-q", "purge", *self.NAMES)
        self.run_in("sh", "-c", "apt install -y ./sfq_*.deb")
        self.assertEqual(self.run_in("sfq", "--version"), f"sfq {version}\n")
        words, prints = self.first_command("sfq")
        self.assertEqual(self.run_in(*words, at=f"/usr/{debian.DOCUMENTS}"), prints)
        self.run_in("sha256sum", "-c", "--strict", packages.SUMS, at="/usr")
        self.run_in("sh", "-c", "apt install -y ./libsfq0_*.deb ./libsfq-dev_*.deb ./python3-sfq_*.deb")
        self.assertRegex(self.run_in("python3", "-m", "sfq", "--version"), test_readme.says_proved(repository.sum_of_file(repository.PROGRAM)))
        self.assertEqual(self.run_in("python3", "-c", RELATES), "0FFFFFFF2\n")
        self.run_in("apt-get", "-y", "-q", "purge", *self.NAMES)
        self.assertEqual(self.run_in("sh", "-c", "find /usr -name '*sfq*'"), "")


class Joins(EachSuite, InFolder):
    """README's three commands go from pip to a spatial join by GeoPandas' words, where Debian's GeoPandas is."""

    def check(self, suite):
        self.enter(today.folder_of(suite))
        if missing := today.missing_packages(suite, self.folder, today.JOINS):
            self.skipTest(f"needs the packages {', '.join(missing)} in {self.folder}, which ./test --today packages installs")
        packages.make_wheel(self.room, *packages.released())
        self.run_in("python3", "-c", test_readme.MAKES_PARCELS)
        shown = [self.run_in("sh", "-c", it) for it in test_readme.commands_without_the_kit()][2]
        self.assertEqual(test_readme.pairs_in(shown), test_readme.PAIRS, shown)


if __name__ == "__main__":
    unittest.main()
