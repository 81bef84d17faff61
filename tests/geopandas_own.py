"""Runs GeoPandas' own tests over sfq.geopandas, for test_geopandas.py: by a Python that has GeoPandas with its tests, and pytest.

usage: geopandas_own.py [WORD]   runs the tests whose name has the word, all of them without one

In place of GeoPandas' join, its predicates, `relate` and `is_valid` are those of sfq.geopandas, for frames, series and arrays. Of the
tests in FILES those count that call one of these. What geopandas_failures.txt says of this version of GeoPandas has to be what fails.
Each other failure is printed, and each line of the list without a failure; the status is 1 then, and 3 where the list has nothing of
this version.
"""
import functools
import os
import re
import sys
import warnings

import geopandas
import geopandas.base
import pytest

import sfq.geopandas
from sfq.geometry import library

FILES = ("tools/tests/test_sjoin.py", "tests/test_geom_methods.py", "tests/test_array.py", "tests/test_geodataframe.py", "tests/test_geoseries.py")
LIST = os.path.join(os.path.dirname(os.path.abspath(__file__)), "geopandas_failures.txt")
# What sfq.geopandas has in place of GeoPandas' own, by GeoPandas' names.
ASKED = {it: it for it in (*library.RELATIONS, "relate", "is_valid") if it != "equals"} | {"geom_equals": "equals"}
NO_LIST = 3
VERSION = ".".join(geopandas.__version__.split(".")[:2])


class Original:
    """The module geopandas with the join that it had, for sfq.geopandas."""

    def __init__(self):
        self.sjoin = geopandas.sjoin

    def __getattr__(self, name):
        return getattr(geopandas, name)


class Run:
    """What pytest calls: it notes which tests ask sfq, and what each that fails says."""

    def __init__(self):
        self.is_asked, self.passed, self.failed = False, set(), {}

    def asked(self, ask):
        """Returns a function that notes that it was called, and asks. What is rounded is no warning here: tests count those of GeoPandas."""

        @functools.wraps(ask)
        def noting(*words, **more):
            self.is_asked = True
            with warnings.catch_warnings():
                warnings.simplefilter("ignore", sfq.geopandas.RoundingWarning)
                return ask(*words, **more)

        return noting

    def replace(self):
        """Has GeoPandas ask sfq."""
        sfq.geopandas.geopandas = Original()
        geopandas.sjoin = geopandas.tools.sjoin = self.asked(sfq.geopandas.sjoin)
        for name, ours in ASKED.items():
            ask = self.asked(getattr(sfq.geopandas, ours))
            is_property = isinstance(getattr(geopandas.base.GeoPandasBase, name, None), property)
            for owner, whole in ((geopandas.base.GeoPandasBase, ask), (geopandas.array.GeometryArray, over_arrays(ask))):
                if hasattr(owner, name):
                    setattr(owner, name, property(whole) if is_property else whole)

    def pytest_runtest_setup(self):
        self.is_asked = False

    def pytest_runtest_logreport(self, report):
        name = re.sub(r"^.*?((?:tools/)?tests/test_\w+\.py)", r"\1", report.nodeid)
        if self.is_asked and report.failed:
            crash = getattr(report.longrepr, "reprcrash", None)
            self.failed[name] = (crash.message if crash else str(report.longrepr)).partition("\n")[0]
        elif self.is_asked and report.passed and report.when == "call":
            self.passed.add(name)


def over_arrays(ask):
    """Returns what asks for arrays of geometries. They have no labels, so rows are brought together by their places."""

    def whole(array, *others):
        one, *rest = (geopandas.GeoSeries(it, crs=it.crs) if isinstance(it, geopandas.array.GeometryArray) else it for it in (array, *others))
        return ask(one, *rest, **({"align": False} if rest else {})).to_numpy()

    return whole


def listed():
    """Returns what the list says of this version: the name of each test, without its parameters, and a pattern of what it says."""
    found = {}
    with open(LIST, encoding="utf-8") as lines:
        for line in lines:
            if not line.startswith("#"):
                versions, name, said, _ = line.rstrip("\n").split(" | ")
                if VERSION in versions.split():
                    found[name] = said
    return found


def main(words):
    run, known = Run(), listed()
    if not known:
        print(f"{os.path.basename(LIST)} has nothing of GeoPandas {VERSION}")
        return NO_LIST
    run.replace()
    folder = os.path.dirname(geopandas.__file__)
    choice = ["-k", words[0]] if words else []
    pytest.main(["-p", "no:cacheprovider", "-p", "no:terminal", *choice, *(f"{folder}/{it}" for it in FILES)], plugins=[run])
    names = {it.partition("[")[0] for it in run.failed}
    wrong = [f"{it}: {said}" for it, said in sorted(run.failed.items()) if not re.search(known.get(it.partition("[")[0], r"\A(?!)"), said)]
    wrong += [f"{it}: listed, and doesn't fail" for it in sorted(known) if it not in names and not words]
    for it in wrong:
        print(it)
    print(f"GeoPandas {geopandas.__version__}: {len(run.passed)} tests passed, {len(run.failed)} failed, {len(wrong)} not as listed")
    return 1 if wrong or not run.passed else 0


if __name__ == "__main__":
    sys.exit(main(sys.argv[1:]))
