"""The Python of bindings/, tools/, bench/ and part of tests/ has types, which mypy checks, and one file says where modules are looked for."""
import ast
import configparser
import os
import re
import shutil
import subprocess
import tempfile
import unittest

from support import ROOT, needs, read

# What each folder has of a file of modules that mypy has to check.
CHECKED = ("tools", "bindings", "bench")


def sources(*folders):
    """Returns the Python files in folders of the repository, and the programs of its root, by their paths."""
    found = [it for it in ("build", "lint", "test") if "python" in read(f"{ROOT}/{it}").partition("\n")[0]]
    for folder in folders:
        for at, inner, names in os.walk(f"{ROOT}/{folder}"):
            inner[:] = [it for it in inner if it not in ("out", "build", "__pycache__")]
            found += [os.path.relpath(f"{at}/{it}", ROOT) for it in names if it.endswith(".py")]
    return sorted(found)


def checked_tests():
    """Returns the files of tests that mypy checks, which its options name one by one."""
    options = configparser.ConfigParser()
    options.read(f"{ROOT}/tools/mypy.ini")
    return [it for it in options["mypy"]["files"].split(", ") if it.startswith("tests/")]


class Types(unittest.TestCase):
    @needs("mypy", "mypy")
    def test_mypy_finds_nothing(self):
        ran = subprocess.run(["mypy", "--config-file", "tools/mypy.ini"], cwd=ROOT, capture_output=True, text=True)
        self.assertEqual((ran.returncode, ran.stderr), (0, ""), ran.stdout)
        checked = [it for it in sources(*CHECKED) if it.endswith(".py")] + checked_tests()
        self.assertIn(f" {len(checked)} source files", ran.stdout)

    @needs("mypy", "mypy")
    def test_a_type_that_is_missing_or_wrong_is_found(self):
        """In a copy, one mistake at a time."""
        with tempfile.TemporaryDirectory(prefix="sfq-types-") as room:
            # The modules of bench use some of tests.
            for it in (*CHECKED, "tests"):
                shutil.copytree(f"{ROOT}/{it}", f"{room}/{it}", ignore=shutil.ignore_patterns("out", "build", "__pycache__"))
            for path, old, new, said in (
                ("tools/tiles.py", "def stamp() -> None:", "def stamp():", "no-untyped-def"),
                ("bindings/python/sfq_scale/query.py", "return f\"{self.name}.{name}\"", "return bool(name)", "return-value"),
                ("bench/machine.py", "def day() -> str:", "def day():", "no-untyped-def"),
                ("bindings/web/web_page.py", "import base64\n", "import base64\nimport nothing_of_this_name\n", "import"),
            ):
                text = read(f"{room}/{path}")
                self.assertEqual(text.count(old), 1, path)
                with open(f"{room}/{path}", "w", encoding="utf-8") as file:
                    file.write(text.replace(old, new))
                ran = subprocess.run(["mypy", "--config-file", "tools/mypy.ini"], cwd=room, capture_output=True, text=True)
                self.assertEqual(ran.returncode, 1, ran.stdout)
                self.assertRegex(ran.stdout, rf"(?m)^{path}:\d+: error: .*\[{said}\]$")
                with open(f"{room}/{path}", "w", encoding="utf-8") as file:
                    file.write(text)

    def test_imports_without_types_are_in_one_list(self):
        """No other module is left out of the check, and no line is."""
        known = configparser.ConfigParser()
        known.read(f"{ROOT}/tools/mypy.ini")
        own, others = known.sections()
        self.assertEqual((own, known[own]["strict"], dict(known[others])), ("mypy", "True", {"ignore_missing_imports": "True"}))
        for path in [*sources(*CHECKED), *checked_tests()]:
            self.assertIsNone(re.search(r"#\s*(type: ignore|mypy:)", read(f"{ROOT}/{path}")), path)


# What catches each exception and goes on, with why: the file and the function.
CATCHES_ALL = {
    ("bindings/python/sfq/commands/child.py", "of_child"): "what a child raises is never its parent's: it is printed, and the child ends",
    ("bindings/python/sfq/layers/relating.py", "holds"): "GDAL and each version of shapely have exceptions of their own; where GEOS fails, the relation is computed exactly",
    ("bindings/python/sfq/layers/relating.py", "is_valid"): "GEOS may fail at what is no valid geometry, and then it is asked nothing else about it",
    ("bindings/python/sfq_scale/cluster.py", "submit"): "Dask raises Exception itself where its connection is closed; others are raised again",
}


def catching_all(text):
    """Returns the functions of a Python file that catch each exception, or all but those of Ctrl-C and of an end, and go on."""
    found = []
    for function in ast.walk(ast.parse(text)):
        if isinstance(function, (ast.FunctionDef, ast.AsyncFunctionDef)):
            for it in ast.walk(function):
                if isinstance(it, ast.ExceptHandler):
                    names = {name.id for name in ast.walk(it.type) if isinstance(name, ast.Name)} if it.type else {"BaseException"}
                    is_raised_again = isinstance(it.body[-1], ast.Raise) and not it.body[-1].exc
                    found += [function.name] if names & {"Exception", "BaseException"} and not is_raised_again else []
                elif isinstance(it, ast.Call) and ast.unparse(it.func) == "contextlib.suppress":
                    found += [function.name] if {ast.unparse(word) for word in it.args} & {"Exception", "BaseException"} else []
    return found


class Handlers(unittest.TestCase):
    """Handlers of exceptions name what they catch, so that nobody's mistake is lost in one."""

    def test_none_catches_all(self):
        folders = ("bindings", "tools", "bench", "docs", "examples")
        found = {(path, name) for path in [*sources(*folders), "build", "lint", "test"] for name in catching_all(read(f"{ROOT}/{path}"))}
        self.assertEqual(found, set(CATCHES_ALL))

    def test_one_that_does_is_found(self):
        text = "def one():\n    try:\n        two()\n    except {}:\n        {}\n"
        for what, body, is_found in (
            ("Exception", "pass", True), ("(OSError, Exception) as it", "pass", True), ("BaseException", "raise", False), ("OSError", "pass", False),
            ("Exception as it", "raise it", True), ("BaseException", "raise OSError() from None", True), ("ValueError", "raise", False),
        ):
            self.assertEqual(catching_all(text.format(what, body)), ["one"] if is_found else [], what)
        self.assertEqual(catching_all(text.replace(" {}", "", 1).format("pass")), ["one"])
        self.assertEqual(catching_all("def one():\n    with contextlib.suppress(Exception):\n        two()\n"), ["one"])


# The packages within sfq: each uses those before it alone.
PACKAGES = ("geometry", "tables", "layers", "commands")


def packages_of(path):
    """Returns which packages within sfq a file of one of them uses."""
    found, own = set(), os.path.basename(os.path.dirname(path))
    for it in ast.walk(ast.parse(read(path))):
        if isinstance(it, ast.ImportFrom):
            full = ["sfq", own] if it.level == 1 else ["sfq"] if it.level == 2 else []
            full += (it.module or "").split(".") if it.module else []
            found |= {full[1]} if len(full) > 1 else {each.name for each in it.names} if full == ["sfq"] else set()
        elif isinstance(it, ast.Import):
            found |= {each.name.split(".")[1] for each in it.names if each.name.startswith("sfq.")}
    return found & set(PACKAGES)


class Modules(unittest.TestCase):
    def test_each_package_of_sfq_uses_those_before_it_alone(self):
        """And a module's name has no underscore in front: what lies directly in sfq is public, and the packages are private as they are."""
        for at, name in enumerate(PACKAGES):
            folder = f"{ROOT}/bindings/python/sfq/{name}"
            files = [it for it in os.listdir(folder) if it.endswith(".py")]
            self.assertGreater(len(files), 5, name)
            self.assertEqual([it for it in files if it.startswith("_")], ["__init__.py"])
            for it in files:
                self.assertLessEqual(packages_of(f"{folder}/{it}"), set(PACKAGES[: at + 1]), f"{name}/{it}")
        self.assertEqual(packages_of(f"{ROOT}/bindings/python/sfq/commands/ask.py"), {"geometry", "tables", "layers", "commands"})
        self.assertEqual({it for it in os.listdir(f"{ROOT}/bindings/python/sfq") if it.endswith(".py")}, {
            "__init__.py", "__main__.py", "ask.py", "exports.py", "geopandas.py", "imports.py", "schemas.py", "shell.py",
        })

    def test_one_file_says_where_modules_are(self):
        word = "sys." + "path"
        found = [it for it in sources("tools", "bindings", "tests", "bench", "docs", "examples") if word in read(f"{ROOT}/{it}")]
        # QGIS loads the plugin by itself.
        self.assertEqual(found, ["bindings/qgis/sfq_qgis/__init__.py", "tools/paths.py"])


if __name__ == "__main__":
    unittest.main()
