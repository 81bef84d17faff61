#!/usr/bin/env python3
"""Makes the web page in bindings/web/out: the package for JavaScript in one script, its modules, the examples, and the files beside this
one.

usage: bindings/web/web_page.py [--jobs N]      or ./build --web

A browser takes no script with imports from a file, so the package's scripts are one script here, in which all that they export is in
the constant `sfq`; and it fetches no file, so a module is a text in a script.
"""
import base64
import json
import os
import re
import runpy
import shutil
import sys
from typing import Any

WEB = os.path.dirname(os.path.realpath(__file__))
runpy.run_path(f"{os.path.dirname(os.path.dirname(WEB))}/tools/paths.py")

import fault_pages
import javascript_package
import repository
import wasm
from calls import Failure

OUT = f"{WEB}/out"
FILES = [
    "index.html", "tables.html", "style.css", "engine.js", "shapes.js", "sheet.js", "page.js", "tables_engine.js", "map.js",
    "tables.js",
]
# The script of each module, and its constant there.
MODULES = {javascript_package.SHAPES: ("module.js", "MODULE"), javascript_package.TABLES: ("tables_module.js", "TABLES_MODULE")}
IMPORT = re.compile(r"^import [^;]*;\n", re.M)
EXPORT = re.compile(r"^export (?=(?:const|class|function|async function) (\w+))", re.M)


def package_script() -> str:
    """Returns the package's scripts as one, but for that which finds its modules."""
    texts = [javascript_package.sentences_script()]
    texts += [repository.read(f"{javascript_package.HERE}/{it}") for it in javascript_package.SCRIPTS if it != "index.js"]
    exported = ", ".join(name for text in texts for name in EXPORT.findall(text))
    whole = "\n".join(EXPORT.sub("", IMPORT.sub("", it)) for it in texts)
    return f'// The package sfq, made by bindings/web/web_page.py.\n"use strict";\nconst sfq = (() => {{\n{whole}\nreturn {{ {exported} }};\n}})();\n'


def module_script(module: wasm.Module, content: bytes) -> str:
    """Returns the script with a module: its bytes in base64, and what it is."""
    spelled, text = json.dumps(javascript_package.about(module, content)), base64.b64encode(content).decode()
    what = f'{{ about: {spelled}, bytes: Uint8Array.from(atob("{text}"), (it) => it.charCodeAt(0)) }}'
    return f'// The module, made by bindings/web/web_page.py.\n"use strict";\nconst {MODULES[module][1]} = {what};\n'


def plain(text: str) -> str:
    """Returns text of a document without its marks."""
    return re.sub(r"\s+", " ", re.sub(r"[`*]", "", text)).strip()


def pairs_elsewhere() -> list[dict[str, str]]:
    """Returns the pairs that other engines get wrong as examples, read from the document that lists them."""
    with open(f"{repository.ROOT}/docs/WRONG-ELSEWHERE.md", encoding="utf-8") as file:
        text = file.read()
    engines = re.search(r"whole coordinates\.\s+(.*?) all print the same", text, re.S)
    rows = re.findall(r"^\| (\d+) \| `(.*?)` \| `(.*?)` \| (.*?) \|.*\| (.*?) \|$", text, re.M)
    if not engines or not rows:
        raise Failure("docs/WRONG-ELSEWHERE.md has another form than bindings/web/web_page.py reads")
    names = re.sub(r" [\d.]+", "", plain(engines[1]))
    found = []
    for place, a, b, theirs, ours in rows:
        says = re.search(rf"^\*\*{place}\.\*\* (.*?)\n\n", text, re.M | re.S)
        if not says:
            raise Failure(f"docs/WRONG-ELSEWHERE.md says nothing of pair {place}")
        it = {"title": f"Wrong elsewhere {place}", "a": a, "b": b, "says": plain(says[1])}
        found.append({**it, "elsewhere": plain(theirs), "engines": names, "sfq": plain(ours)})
    return found


def examples() -> list[dict[str, str]]:
    """Returns our own examples and the pairs that other engines get wrong."""
    with open(f"{WEB}/examples.json", encoding="utf-8") as file:
        own: list[dict[str, str]] = json.load(file)
    return own + pairs_elsewhere()


def examples_script() -> str:
    shown = json.dumps(examples(), indent=2, ensure_ascii=False)
    return f'// Made by bindings/web/web_page.py of bindings/web/examples.json and docs/WRONG-ELSEWHERE.md.\n"use strict";\nconst EXAMPLES = {shown};\n'


def town() -> dict[str, Any]:
    """Returns what the page of tables shows at first: the land register of examples/parcels, with its schema, its tables and its
    queries, and what each fault means and what to do."""
    folder, tables = f"{repository.ROOT}/examples/parcels", {}
    with open(f"{folder}/schema.sql", encoding="utf-8") as file:
        schema = file.read()
    for name in re.findall(r"^CREATE TABLE (\w+)", schema, re.M):
        with open(f"{folder}/{name}.csv", encoding="utf-8") as file:
            tables[name] = file.read()
    with open(f"{folder}/README.md", encoding="utf-8") as file:
        asked = re.findall(r"^\*\*\d+\. (.*?)\*\*(.*?)^```sql\n(.*?)\n```", file.read(), re.M | re.S)
    with open(fault_pages.DOCUMENT, encoding="utf-8") as file:
        faults = {it.code: {"means": it.means, "remedy": it.remedy} for it in reversed(fault_pages.rows_of(file.read()))}
    queries = [{"title": plain(title), "says": plain(says), "query": " ".join(query.split())} for title, says, query in asked]
    if not tables or not queries or not faults:
        raise Failure("examples/parcels or docs/FAULTS.md has another form than bindings/web/web_page.py reads")
    return {"schema": schema, "tables": tables, "queries": queries, "faults": faults}


def town_script() -> str:
    shown = json.dumps(town(), indent=2, ensure_ascii=False)
    return f'// Made by bindings/web/web_page.py of examples/parcels and docs/FAULTS.md.\n"use strict";\nconst TOWN = {shown};\n'


def write_page(modules: javascript_package.Modules, to: str = OUT) -> None:
    """Writes all files of the page into a folder, which a copy of is the whole site, given the bytes of each module by its file."""
    texts = {script: module_script(it, modules[it.file]) for it, (script, _) in MODULES.items()}
    texts |= {"sfq.js": package_script(), "examples.js": examples_script(), "town.js": town_script()}
    shutil.rmtree(to, ignore_errors=True)
    os.makedirs(to)
    for it in FILES:
        shutil.copyfile(f"{WEB}/{it}", f"{to}/{it}")
    for name, text in texts.items():
        with open(f"{to}/{name}", "w", encoding="utf-8") as file:
            file.write(text)


def write_both(modules: javascript_package.Modules) -> None:
    """Writes the package and the page."""
    javascript_package.write_package(modules)
    write_page(modules)


if __name__ == "__main__":
    maker = javascript_package.Maker(__doc__, "web page", tuple(MODULES), f"{OUT}/index.html", write_both)
    sys.exit(maker.main(sys.argv[1:]))
