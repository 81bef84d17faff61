"""The words of the language, by the definitions in crates/, and the lists elsewhere that repeat them.

`LISTS` has each other place with a list of such words, and what the list has to be. tests/test_language.py compares them.
"""
import glob
import re
from typing import Any, NamedTuple, Optional

import repository


def read(path: str) -> str:
    """Returns the text of a file, or of all files of a pattern, the shortest name first."""
    found = sorted(glob.glob(f"{repository.ROOT}/{path}"), key=lambda it: (len(it), it))
    return "".join(map(repository.read, found))


def part_of(text: str, begin: str, end: str = r"\n\n|\Z") -> str:
    """Returns the part of a text from the first match of a pattern up to the next one of another."""
    at = re.search(begin, text, re.M)
    if not at:
        raise ValueError(f"nothing matches {begin}")
    after = re.compile(end).search(text, at.end())
    return text[at.start() : after.start() if after else len(text)]


def definition(crate: str, module: str, name: str) -> str:
    """Returns the equations of a definition."""
    return part_of(read(f"crates/{crate}/specs/{module}.antt"), rf"^{name} ?[\w.(=]")


def quoted(text: str) -> list[str]:
    """Returns the texts that a definition names as `codes`."""
    return re.findall(r'codes "([^"]*)"', text)


def lower(name: str) -> str:
    """Returns a name such as CoveredBy in lower case, with `_` between its words."""
    return re.sub(r"\B(?=[A-Z])", "_", name).lower()


# The types of geometry by the words of schemas, with the names that the definitions give them; GEOMETRY is all of them.
SHAPES = dict(re.findall(r'codes "(\w+)"\) then Some \(Some shapes\.(\w+)\)', definition("table_model", "GeometryColumns", "shape_named")))
SHAPE_WORDS = list(SHAPES)
# The words of the types of columns.
COLUMN_WORDS = [*quoted(definition("table_model", "SchemaReading", "type_named")), "GEOMETRY", *SHAPES]
# The words that are never names.
RESERVED = quoted(definition("table_model", "Tokens", "reserved_words"))
# The functions of the predicates of two geometries that have a name of their own, and all functions of the grammar.
PREDICATES = quoted(definition("table_model", "QueryGrammar", "function_of"))
FUNCTIONS = list(dict.fromkeys(re.findall(r'codes "(ST_\w+)"', read("crates/table_model/specs/QueryGrammar.antt"))))
# The relations and the types of the library, by their numbers, which begin with 0 and 1.
RELATIONS = re.findall(r"relations\.(\w+)", definition("library_calls", "Relations", "relation_of"))
NUMBERED = re.findall(r"types\.(\w+)", definition("library_calls", "Written", "type_numbered"))


def fault_lines() -> dict[str, str]:
    """Returns the line of each fault by its code, with `{}` for a number, {table} for a table's name and {fault} for another fault."""
    lines = read("crates/table_model/specs/FaultLines.antt")
    found: dict[str, str] = {}
    for body in re.findall(r"^(?:schema|geometry|load|query)_text .*? = (.*)$", lines, re.M):
        words = re.findall(r'codes "([^"]*)"|(decimal \w+)|(table)|(geometry_text)', body)
        line = "".join(text or (number and "{}") or (table and "{table}") or "{fault}" for text, number, table, _ in words)
        code = re.match(r"(?:\{table\} )?([A-Z]\d+)", line)
        if code:
            found[code[1]] = line
    return found


FAULTS = fault_lines()
# The codes of the faults of a geometry, and how many numbers each has.
GEOMETRY_FAULTS = {code: line.count("{}") for code, line in FAULTS.items() if code[0] in "WV"}


def ranges(text: str) -> set[str]:
    """Returns the codes of ranges such as `S1 to S6`."""
    found = re.findall(r"([A-Z])(\d+) to \1(\d+)", text)
    return {f"{letter}{number}" for letter, first, last in found for number in range(int(first), int(last) + 1)}


class Place(NamedTuple):
    """A list in a file: the part between two patterns has these matches of a third one, in this order or in any."""

    path: str
    begin: str
    word: str
    words: list[Any]
    end: str = r"\n\n|\Z"
    in_any_order: bool = False

    def difference(self) -> Optional[str]:
        """Returns what is wrong with the list, or None."""
        found, wanted = re.findall(self.word, part_of(read(self.path), self.begin, self.end)), self.words
        if self.in_any_order:
            found, wanted = sorted(set(found)), sorted(wanted)
        return None if found == wanted else f"{self.path} has {found}, the definitions have {wanted}"


# The relations as methods in JavaScript, and the faults of schemas, tables and queries that have no place.
CAMEL_RELATIONS = [it[0].lower() + it[1:] for it in RELATIONS]
WITHOUT_PLACE = [code for code, line in FAULTS.items() if code[0] in "SLQ" and "{}" not in line]
CONSTANTS = [f"SFQ_{lower(it).upper()}" for it in RELATIONS]
OPENED = [f"{it}(" for it in SHAPES]
# How many faults each letter has.
CODES = [(letter, str(sum(it[0] == letter for it in FAULTS))) for letter in "SLQWV"]
SQL_RELATIONS = [f"ST_{it}" for it in RELATIONS]
# The types by their words, as definitions name both.
TYPED = [(name, word) for word, name in SHAPES.items()]
HEADER, LIBRARY, PAGE = "bindings/c/sfq.h", "bindings/python/sfq/geometry/library.py", "bindings/web/page.js"
LISTS = [
    Place(HEADER, r"^enum sfq_relation", r"(SFQ_\w+) = (\d+)", [(it, str(at)) for at, it in enumerate(CONSTANTS)]),
    Place(HEADER, r"^#define SFQ_RELATIONS", r"(\d+)$", [str(len(RELATIONS))]),
    Place(HEADER, r"^enum sfq_type", r"SFQ_(\w+) = (\d+)", [(it.upper(), str(at)) for at, it in enumerate(NUMBERED, 1)]),
    Place(HEADER, r"^ \* Why a text is refused", r"(?m)^ \*     (\w\d)  ", list(GEOMETRY_FAULTS), r"\*/"),
    Place(
        HEADER, r"^ \* Why a text is refused", r"(\w\d)  first and second: ", [it for it, count in GEOMETRY_FAULTS.items() if count == 2],
        r"\*/",
    ),
    Place("bindings/python/sfq/fault_words.h", r"^FAULT", r"(?m)^FAULT\('(\w)', (\d),", [(it[0], it[1:]) for it in GEOMETRY_FAULTS]),
    Place(
        "bindings/python/sfq/fault_words.h", r"^TABLE_FAULT", r"TABLE_FAULT\('(\w)', (\d+),", [(it[0], it[1:]) for it in FAULTS if it[0] in "SLQ"]
    ),
    Place(LIBRARY, r"^TYPES = ", r'"(\w+)"', NUMBERED, r"\)\n"),
    Place(LIBRARY, r"^RELATIONS = ", r'"(\w+)"', [lower(it) for it in RELATIONS], r"\)\n"),
    Place("bindings/python/sfq/geometry/shapes.py", r"^    def _holds", r'_holds\("(\w+)"', [lower(it) for it in RELATIONS], r"\n\n\n"),
    Place("bindings/python/sfq/geopandas.py", r"^equals = ", r'predicate_of\("(\w+)"', [lower(it) for it in RELATIONS]),
    Place("bindings/python/sfq/geometry/texts.py", r"^TYPES = ", r'"(\w+)":', list(SHAPES.values()), r"\}\n", True),
    Place(
        "bindings/python/sfq/geometry/binary.py", r"^WORDS = ", r'(\d): "(\w+)"', [(str(at), it.upper()) for at, it in enumerate(NUMBERED, 1)], r"\}\n"
    ),
    Place("bindings/python/sfq/commands/prompt.py", r"^FUNCTIONS = ", r'"(ST_\w+)"', FUNCTIONS, r"\)\n", True),
    Place("bindings/python/sfq/tables/databases.py", r"^PREDICATES = ", r'"(ST_\w+)"', ["ST_Relate", *PREDICATES], r"\)\n"),
    Place("bindings/python/sfq/tables/rules.py", r"^RESERVED = ", r'"(\w+)"', [it.lower() for it in RESERVED], r"\}\n"),
    Place(
        "bindings/sqlite/functions.c", r'^ +\{ "ST_Equals"', r'"(\w+)", 2, relation, (\w+)',
        list(zip(SQL_RELATIONS, CONSTANTS)), r"\n\};",
    ),
    Place(
        "bindings/postgresql/sfq--*.sql", r"^CREATE", r"ST_(\w+)\(a text, b text\) RETURNS boolean\n.*'sql_sfq_(\w+)'",
        [(it, lower(it)) for it in RELATIONS], r"\Z",
    ),
    Place(
        "bindings/postgresql/sfq_postgis--*.sql", r"^CREATE",
        r"(ST_\w+)\(a geometry, b geometry\).*\n.*\n.*\n.*binary_holds\(.*, (\d+)\),\n.*@\.(ST_\w+)\(",
        [(it, str(at), it) for at, it in enumerate(SQL_RELATIONS)], r"\Z",
    ),
    Place("bindings/javascript/geometries.js", r"^const RELATIONS", r'"(\w+)"', CAMEL_RELATIONS, r"\];"),
    Place("bindings/javascript/geometries.js", r"^const TYPES", r'"(\w+)"', NUMBERED, r"\];"),
    Place("bindings/javascript/index.d.ts", r"^export type RelationName", r'"(\w+)"', CAMEL_RELATIONS, r";"),
    Place("bindings/javascript/index.d.ts", r"^  /\*\* Whether both are the same set", r"(?m)^  (\w+)\(other: Shape\)", CAMEL_RELATIONS),
    Place("bindings/javascript/index.d.ts", r"^export type TypeName", r'"(\w+)"', NUMBERED, r";"),
    Place("bindings/javascript/geojson.js", r"^const DEPTHS", r"(\w+):", list(SHAPES.values()), r"\};", True),
    Place(
        "bindings/javascript/faults.js", r"^const USED", r"(\w\d): (\d)", [(it, str(count)) for it, count in GEOMETRY_FAULTS.items()], r";"
    ),
    Place("bindings/javascript/faults.js", r"^const WITHOUT_PLACE", r'"(\w+)"', WITHOUT_PLACE, r"\];", True),
    Place("bindings/python/sfq/tables/errors.py", r"^WITHOUT_PLACE", r'"(\w+)"', WITHOUT_PLACE, r"\)\n", True),
    Place("bindings/web/shapes.js", r"^  const NESTING", r"(\w+):", SHAPE_WORDS, r"\};"),
    Place(PAGE, r"^const SPOKEN", r"(\w+): \"", [it.removeprefix("ST_") for it in PREDICATES], r"\};"),
    Place("packaging/completions/sfq.bash", r"relate:2", r"([A-Z]+\()", OPENED, r";;"),
    Place("packaging/completions/sfq.bash", r"fault:2", r"([A-Z])\{1\.\.(\d+)\}", CODES, r";;"),
    Place("packaging/completions/sfq.fish", r"^function __sfq_geometries", r"'([A-Z]+\()'", OPENED, r"\nend"),
    Place("packaging/completions/sfq.fish", r"^set -l codes", r"([A-Z])\(seq (\d+)\)", CODES, r"\n"),
    Place("packaging/completions/_sfq", r"^ +geometries=\(", r"'([A-Z]+\()'", OPENED, r"\n"),
    Place("packaging/completions/_sfq", r"^ +codes=\(", r"([A-Z])\{1\.\.(\d+)\}", CODES, r"\n"),
    Place("docs/FAULTS.md", r"Q2 at 23` \| the query has an unknown function", r"(ST_\w+)", FUNCTIONS, r" \| `", True),
    Place("docs/FAULTS.md", r"\| use POINT, ", r"\b([A-Z]{5,})\b", SHAPE_WORDS, r" \|\n", True),
    Place("docs/FAULTS.md", r"^#", r"(?m)^\| `sfq: (?:first |second |t )?([A-Z]\d+)\b", list(FAULTS), r"\Z", True),
    Place("docs/LIBRARY.md", r"^\| ST_Equals \|", r"\b(ST_\w+)", SQL_RELATIONS, r"\n\| ST_IsValid", True),
    Place("packaging/man/sfq.1", r"^Types are INTEGER", r"\b([A-Z]{3,})\b", COLUMN_WORDS, r"\.\n", True),
    Place("packaging/man/sfq.1", r"^\.BR ST_Equals", r"(ST_\w+)", PREDICATES, r"\nST_Relate|\.BI ST_Relate", True),
    Place("packaging/man/sfq.1", r"^\.SH", r"\b(ST_[A-Z]\w+)\b", FUNCTIONS, r"\Z", True),
    Place("packaging/man/sfq.1", r"^\.SH", r"(?m)^\.B .*\b([SLQWV]\d+)\b", list(FAULTS), r"\Z", True),
    Place("README.md", r"^\| column types", r"\b([A-Z]{3,})\b", [it for it in COLUMN_WORDS if it not in SHAPES], r"\n", True),
    Place("README.md", r"^\| geometry \|", r"\b([A-Z]{5,})\b", [*SHAPE_WORDS, "EMPTY"], r"\n", True),
    Place("README.md", r"^\| item \|", r"\b(ST_\w+)\b", FUNCTIONS, r"\n\| geometry", True),
    Place("crates/geometry_model/specs/WellKnownText.antt", r"^TaggedText", r'\((\w+) \w+\) = Word \(codes "(\w+)"\)', TYPED, in_any_order=True),
    Place("crates/geometry_model/specs/CanonicalText.antt", r"^canonical_text \(", r'\((\w+) .*?tagged_text \(codes "(\w+)"\)', TYPED, in_any_order=True),
    Place("crates/geometry_model/specs/TextReading.antt", r"^typed at name", r'codes "(\w+)"\) then .*pure \((\w+) ', list(SHAPES.items())),
    Place("crates/explanations/src/geometry_sentences.rt", r"^pub\(crate\) const TYPES", r'b"(\w+)"', SHAPE_WORDS, r"\n\];"),
    Place("crates/explanations/src/query_words.rt", r"^pub\(crate\) const OWN_FUNCTIONS", r'b"(\w+)"', [*FUNCTIONS, "COUNT"], r"\n\];", True),
    Place("crates/explanations/src/sentences.rt", r"isn't a type here: there are ", r"\b([A-Z]{3,})\b", COLUMN_WORDS, r'"', True),
    Place("crates/explanations/src/schema_explanations.rt", r"^const TYPES", r'b"(\w+)"', COLUMN_WORDS, r"\n\];", True),
    Place("crates/record_reasons/specs/ReasonTexts.antt", r"^type_word", r'shapes\.(\w+) = codes "(\w+)"', TYPED),
    Place("crates/sfq_tiles/specs/SchemaTexts.antt", r"^shape_text", r'shapes\.(\w+)\) = codes "(\w+)"', TYPED),
    Place("bindings/python/sfq_audit/predicates.py", r"^NAMES = ", r'"(\w+)"', [it[3:].lower() for it in PREDICATES], r"\)\n", True),
]
