"""What takes the most stack, and how much that is."""
import resource

from faults import sweeps

KB = 1024
ONE_TABLE = "CREATE TABLE t (id INTEGER PRIMARY KEY, name TEXT, geom GEOMETRY);"
# How deep a condition may be nested, and how many bytes a query may have.
LEVELS, QUERY_BYTES = 64, 65_536
# A stack that is ample, in kilobytes.
AMPLE = 8192


def nested(before, inner, after, levels=LEVELS):
    return f"SELECT id FROM t WHERE {before * levels}{inner}{after * levels}"


def longest(word):
    """Returns the longest query of conditions with a word between them."""
    head, one = "SELECT id FROM t WHERE id = 1", f" {word} id = 1"
    return head + one * ((QUERY_BYTES - len(head)) // len(one))


def literal(corners):
    return f"ST_GeomFromText('{sweeps.star(corners, 9_000_000)}')"


def multipolygon(count):
    return f"MULTIPOLYGON({','.join(f'(({9 * k} 0,{9 * k + 5} 0,{9 * k + 5} 5,{9 * k} 0))' for k in range(count))})"


@sweeps.once
def folder():
    """Writes the schemas and tables of the cases."""
    path = f"{sweeps.room()}/deep"
    sweeps.write(f"{path}/schema.sql", ONE_TABLE)
    few = "".join(f"{it},{it},POINT({it} {it})\n" for it in range(3000))
    sweeps.write(f"{path}/few/t.csv", f"id,name,geom\n{few}")
    many = "".join(f"{it},,POINT({it % 1000} {it // 1000})\n" for it in range(100_000))
    sweeps.write(f"{path}/many/t.csv", f"id,name,geom\n{many}")
    shapes = [sweeps.star(9_999, 9_000_000), sweeps.star(9_999, 8_900_000), multipolygon(1000)]
    large = "".join(f'{at},,"{it}"\n' for at, it in enumerate([*shapes, sweeps.star(5, 100)]))
    sweeps.write(f"{path}/large/t.csv", f"id,name,geom\n{large}")
    names = [f"c{it}" for it in range(31)]
    columns = ", ".join(f"{it} GEOMETRY" for it in names)
    wide = "".join(f"CREATE TABLE t{it} (id INTEGER PRIMARY KEY, {columns});\n" for it in range(16))
    sweeps.write(f"{path}/wide.sql", wide)
    for it in range(16):
        sweeps.write(f"{path}/wide/t{it}.csv", f"id,{','.join(names)}\n1{',POINT(1 2)' * 31}\n")
    return path


def over(tables, text, schema="schema.sql"):
    return ["run", schema, tables, text]


def cases():
    """Returns the words of each case by its name."""
    join = "SELECT a.id FROM t a JOIN t b ON ST_Equals(a.geom, b.geom)"
    shapes = "SELECT a.id FROM t a JOIN t b ON NOT ST_Touches(a.geom, b.geom) WHERE a.id < b.id"
    parted = "(" * LEVELS + "a.id = 1 OR b.id = 1" + ")" * LEVELS
    return {
        "64 parentheses": over("few", nested("(", "id = 1", ")")),
        "64 NOTs": over("few", nested("NOT ", "id = 1", "")),
        "NOT and parentheses": over("few", nested("NOT (", "id = 1", ")", LEVELS // 2)),
        "AND and OR by turns": over("few", nested("(id = 1 AND (id = 1 OR ", "id = 1", "))", LEVELS // 2)),
        "a geometry in 64 parentheses": over("few", nested("(", f"ST_Touches(geom, {literal(5)})", ")")),
        "a large one in 64 NOTs": over("few", nested("NOT ", f"ST_Touches(geom, {literal(3500)})", "")),
        "a join in 64 parentheses": over("few", f"{join} WHERE {parted}"),
        "its plan": over("few", f"EXPLAIN ANALYZE {join} WHERE {parted}"),
        "the longest query of ANDs": over("few", longest("AND")),
        "the longest query of ORs": over("few", longest("OR")),
        "16 tables of 32 columns": ["check", "wide.sql", "wide"],
        "all columns of two of them": over("wide", "SELECT * FROM t0 a, t15 b", "wide.sql"),
        "10,000 positions": over("large", shapes),
        "help": ["--help"],
        "relate": ["relate", sweeps.star(999, 9_000_000), sweeps.star(999, 8_900_000)],
    }


def large_cases():
    """Returns those that take longer."""
    text = "SELECT COUNT(*) FROM t a JOIN t b ON ST_Within(a.geom, b.geom)"
    return {"an index of 100,000 rows": over("many", text)}


def run(words, stack):
    """Runs the program with so many kilobytes of stack beside its words, and returns what it wrote and its status."""
    limit = stack * KB + sum(len(it) + 1 for it in words)
    return sweeps.run_within(words, folder(), resource.RLIMIT_STACK, limit)


def least_stack(words):
    """Returns how many kilobytes of stack a call needs, to four of them."""
    said, below, enough = run(words, AMPLE), 4, AMPLE
    while enough - below > 4:
        middle = (below + enough) // 2
        if run(words, middle) == said:
            enough = middle
        else:
            below = middle
    return enough
