"""What is asked of a case. Each check returns None, or a text that says what is wrong."""
import os
import random
import re
import shutil
import subprocess

from fuzz import conditions, outcomes
from fuzz.outcomes import Ran
from sfq_audit import predicates

# How long a run may take, in seconds. It takes some milliseconds.
PATIENCE = 60
CODE = re.compile(r"\b[SLQWV]\d+")
# Faults of queries that are found after the tables have loaded.
LATE = re.compile(r"Q[3-9]\b")
# Queries behind which LIMIT can be written. COUNT(*) has one row.
UNLIMITED = re.compile(rb"(?is)select(?!.*(?:limit|;|--)).*")
# How long a query may be, in bytes: past it EXPLAIN is refused where the query isn't.
QUERY_BYTES = 65_536


class Programs:
    """The two programs, sfq and gauge (None where it isn't there), and a folder to run them in."""

    def __init__(self, sfq, gauge, folder):
        self.sfq, self.gauge, self.folder = sfq, gauge, folder
        self.runs, self.kinds = 0, {}

    def prepare(self, case):
        """Writes the files of a case."""
        shutil.rmtree(self.folder, ignore_errors=True)
        case.write(self.folder)

    def run(self, *words):
        """Runs sfq with some words, and counts what it ends in."""
        ran = self.run_program([self.sfq, *words], b"")
        self.runs += 1
        code = CODE.search(ran.line()) if ran.status in outcomes.LINES else None
        kind = code[0] if code else f"status {ran.status}"
        self.kinds[kind] = self.kinds.get(kind, 0) + 1
        return ran

    def run_program(self, words, given):
        try:
            ran = subprocess.run(words, cwd=self.folder, input=given, capture_output=True, timeout=PATIENCE)
        except subprocess.TimeoutExpired as late:
            return Ran(late.stdout or b"", late.stderr or b"", None)
        return Ran(ran.stdout, ran.stderr, ran.returncode)


def wrong(case, programs):
    """Returns what is wrong with what the programs do with a case, or None."""
    programs.prepare(case)
    return wrong_geometries(case, programs) if case.is_of_geometries() else wrong_row(case, programs)


def said(words, ran, what):
    """Returns a text of a run that did what it may not do."""
    return f"{what}\n  words {words!r}\n  status {ran.status}, output {ran.out!r}, error {ran.err!r}"


def wrong_run(words, programs):
    """Runs a command twice; returns the run, and what is wrong with it by itself."""
    ran = programs.run(*words)
    what = outcomes.wrong_outcome(ran, words)
    if what is None and programs.run(*words) != ran:
        what = "a second run does something else"
    return ran, what and said(words, ran, what)


def wrong_row(case, programs):
    """Runs a command, and then others whose answers follow from its."""
    words = case.texts("word")
    ran, what = wrong_run(words, programs)
    if what is None and words[:2] == [b"relate", b"--"] and len(words) == 4:
        return wrong_pair(words[2:], ran, programs)
    if what is None and words[:4] == [b"run", b"--", b"s", b"d"] and len(words) == 5:
        return wrong_check(ran, programs) or wrong_explanation(words[4], ran, programs) or wrong_limit(words[4], ran, programs)
    return what


def wrong_pair(texts, ran, programs):
    """Relates the two the other way round."""
    other = programs.run(b"relate", b"--", *reversed(texts))
    what = outcomes.wrong_outcome(other, [b"relate"])
    if what is None and not fit(ran, other):
        what = f"the other way round it doesn't fit {ran.out!r}, {ran.err!r}"
    return what and said([b"relate", b"--", *reversed(texts)], other, what)


def fit(ran, other):
    """Whether what is printed of two geometries fits what is printed of them the other way round."""
    if outcomes.MISUSE in (ran.status, other.status):
        return ran.err == other.err
    if ran.status == 0:
        return other.out.decode() == outcomes.transposed(ran.out.decode().strip()) + "\n"
    place, reason = ran.line().split(" ", 1)
    other_place, other_reason = other.line().split(" ", 1) if other.status else ("", "")
    if place == "first":
        return other_place == "first" or (other_place, other_reason) == ("second", reason)
    return (other_place, other_reason) == ("first", reason)


def wrong_check(ran, programs):
    """Checks the tables of a query: they load if it has rows or a fault of names, and else end in the query's fault. A query
    whose text can't be read is refused before."""
    words = [b"check", b"s", b"d"]
    checked = programs.run(*words)
    what = outcomes.wrong_outcome(checked, words)
    if ran.status == 0 or LATE.match(ran.line()):
        is_well = checked.status == 0
    elif ran.line() == "query unreadable":
        is_well = True
    else:
        is_well = ran.status == 5 or ran.status == outcomes.MISUSE or checked == ran
    if what is None and not is_well:
        what = f"it doesn't fit the query, of status {ran.status}, {ran.err!r}"
    return what and said(words, checked, what)


def wrong_limit(query, ran, programs):
    """LIMIT behind a query leaves its first rows. With a quote in them, a row may be several lines, and isn't looked at."""
    if ran.status != 0 or b'"' in ran.out or UNLIMITED.fullmatch(query) is None:
        return None
    words = [b"run", b"--", b"s", b"d", query + b" LIMIT 2"]
    limited, wanted = programs.run(*words), b"".join(it + b"\n" for it in ran.out.split(b"\n")[:-1][:3])
    return None if limited == Ran(wanted, b"", 0) else said(words, limited, f"without LIMIT it is {ran.out!r}")


def wrong_explanation(query, ran, programs):
    """EXPLAIN before a SELECT ends in the same fault, whose places are those of the query, or in a plan."""
    head = b"EXPLAIN "
    if not query[:6].upper() == b"SELECT" or len(query) > QUERY_BYTES - len(head):
        return None
    words = [b"run", b"--", b"s", b"d", head + query]
    plan, what = wrong_run(words, programs)
    if what:
        return what
    if ran.status == 0:
        is_well = plan.status == 0 and outcomes.EXPLAINED.fullmatch(plan.out)
    else:
        is_well = (plan.status, plan.line()) == (ran.status, moved(ran.line(), len(head)))
    return None if is_well else said(words, plan, f"EXPLAIN doesn't fit the query, of status {ran.status}, {ran.err!r}")


def moved(line, by):
    """Returns a fault's line with its place in the query so many bytes further."""
    code, word, rest = line.partition(" at ")
    if not word or not code.startswith("Q"):
        return line
    place, *more = rest.split(" ", 1)
    return " ".join([f"{code} at {int(place) + by}", *more])


def wrong_geometries(case, programs):
    """Relates each two geometries, by edges and by labels, and asks queries whose rows follow from their matrices."""
    texts, found, what = [], {}, None
    for text in case.texts("geometry"):
        what = what or add_matrices(text, texts, found, programs)
    what = what or wrong_labels(texts, found, programs)
    return what or wrong_queries(texts, found, programs, random.Random(case.seed))


def add_matrices(text, texts, found, programs):
    """Relates a geometry to itself, and if it is accepted to those before it; returns what is wrong."""
    ran = programs.run(b"relate", b"--", text, text)
    what = outcomes.wrong_outcome(ran, [b"relate"])
    if what is None and ran.status == 0 and not predicates.matches("**F**FFF*", ran.out.decode()):
        what = "a geometry isn't equal to itself"
    if what or ran.status != 0:
        return what and said([b"relate", b"--", text, text], ran, what)
    texts.append(text)
    last = len(texts) - 1
    found[last, last] = ran.out.decode().strip()
    for at, other in enumerate(texts[:-1]):
        ran = programs.run(b"relate", b"--", other, text)
        what = outcomes.wrong_outcome(ran, [b"relate"]) or (ran.status and "both geometries are accepted alone")
        if what:
            return said([b"relate", b"--", other, text], ran, what)
        what = wrong_pair([other, text], ran, programs)
        if what:
            return what
        found[at, last] = ran.out.decode().strip()
        found[last, at] = outcomes.transposed(found[at, last])
    return None


def wrong_labels(texts, matrices, programs):
    """Compares the matrices with those that labels and edges give in gauge, a line of whose input is a geometry."""
    if programs.gauge is None or any(it in text for text in texts for it in (b"\n", b"\r")):
        return None
    pairs = [(at, to) for at in range(len(texts)) for to in range(len(texts))]
    ran = programs.run_program([programs.gauge, "pairs"], b"".join(b"%s\n%s\n" % (texts[at], texts[to]) for at, to in pairs))
    wanted = "".join(f"{matrices[it]} {matrices[it]}\n" for it in pairs) + "\n"
    return None if ran == Ran(wanted.encode(), b"", 0) else said(texts, ran, f"by edges and by labels it has to be {wanted}")


def wrong_queries(texts, matrices, programs, numbers):
    """Asks some queries over a table of the geometries and of a row without one."""
    os.makedirs(f"{programs.folder}/d", exist_ok=True)
    with open(f"{programs.folder}/s", "wb") as file:
        file.write(b"CREATE TABLE g (id INTEGER PRIMARY KEY, geom GEOMETRY)")
    with open(f"{programs.folder}/d/g.csv", "wb") as file:
        rows = [b'%d,"%s"\n' % (at, text) for at, text in enumerate(texts)]
        numbers.shuffle(rows)
        file.write(b"".join([b"id,geom\n%d,\n" % len(texts), *rows]))
    for _ in range(4):
        query, wanted = conditions.query(texts, matrices, numbers)
        words = [b"run", b"--", b"s", b"d", query]
        ran, what = wrong_run(words, programs)
        if what is None and (ran.out, ran.status) != (wanted, 0):
            what = said(words, ran, f"by the matrices {matrices} it has to be {wanted!r}")
        if what:
            return what
    return None
