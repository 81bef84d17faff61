"""What the program may write, as docs/FAULTS.md and the README say, and whether predicates hold, named as in SQL."""
import re
from typing import NamedTuple, Optional, Sequence

from sfq_audit import predicates

MATRIX = re.compile(rb"[F012]{8}2\n")
# Why a geometry is refused.
REASON = r"(?:W[123] at \d+|W4|V[1235] \d+|V[4678] \d+ \d+)"
NAME = r"[A-Za-z_]\w*"
# The lines of faults by their statuses. Nothing fails here, so `write failed` and `out of memory` aren't among them.
WORDS = {
    2: r"unknown code: there are S1 to S6, L1 to L11, Q1 to Q12, W1 to W4 and V1 to V8",
    3: r"S[1-5] at \d+|S6",
    4: rf"{NAME} (?:L[12]|L[345789] record \d+|L6 record \d+ {REASON}|L10)",
    5: rf"Q(?:[1-79]|1[02]) at \d+|Q8 at \d+ {REASON}|Q11|(?:first|second) {REASON}",
    6: rf"schema unreadable|{NAME} (?:L11|unreadable)",
}
LINES = {status: re.compile(f"sfq: (?:{lines})\n".encode()) for status, lines in WORDS.items()}
# The line that `--why` adds of a table, by the code of the first, and that of a file that is empty.
SENTENCES = {
    "L1": rf"column {NAME} isn't in the header",
    "L2": rf"column {NAME} is in the header more than once",
    "L3": r"the record has \d+ fields, the header \d+",
    "L4": rf"column {NAME} isn't UTF-8",
    "L5": rf"column {NAME}: \"[ -~]+\" isn't a whole number of 64 bits",
    "L6": rf"column {NAME}: (?:V\d [ \d]+: .*|W[123] at \d+|W4)",
    "L7": rf"column {NAME} has a [A-Z]+, not a [A-Z]+",
    "L8": rf"column {NAME} is empty",
    "L9": r"record \d+ has the key -?\d+",
}
REASONS = {code: re.compile(f"sfq: (?:{text})\n".encode(), re.DOTALL) for code, text in SENTENCES.items()}
EMPTY = b"sfq: the file is empty: its first line names the columns\n"
# The lines that show a place: the line of a text, and a caret below it.
PLACE = r" *\d+ \|[^\n]*\n *\| *\^\n"
# The lines that `check --why` may write of tables that load.
NOTES = re.compile(
    rf"(?:sfq: note: {NAME} (?:header|record \d+): field \d+ holds a line end\n"
    rf"(?:{PLACE}sfq: the quote that opens here isn't closed: the rest of the file is one field\n)?)+".encode()
)
# What `run --why` may write of queries without a fault.
QUERY_NOTES = re.compile(rf"(?:{PLACE}sfq: note: [^\n]*\n){{1,2}}".encode())
# What `--why` may add of faults: the line of a text and a caret below it, or of a table the line alone, and sentences.
EXPLANATION = re.compile(rb"(?: *\d+ \|[^\n]*\n(?: *\| *\^\n)?)?(?:sfq: [^\n]*\n)*")
MOST_LINES, MOST_COLUMNS = 8, 200
MISUSE, REFUSED = 2, 5
# The statuses of faults of each command.
STATUSES = {b"run": (3, 4, 5, 6), b"check": (3, 4, 6), b"relate": (5, 6), b"why": (5, 6), b"pairs": (4, 5, 6), b"fault": (2,)}
# The commands whose faults name one of two geometries.
OF_TWO = (b"relate", b"why")
METHOD = r"\w+ (?:scan|probe \d+)\n"
EXPLAINED = re.compile(
    rf"cost \d+\nouter {METHOD}(?:inner {METHOD})?filter (?:none|\d+(?: \d+)*)\n(?:count\n)?(?:limit \d+\n)?(?:work \d+\n)?".encode()
)
CHECKED = re.compile(rb"(?:\w+ \d+\n)*")
PREDICATES = tuple(f"ST_{it.capitalize()}" for it in predicates.NAMES)


class Ran(NamedTuple):
    """What a run wrote, and its status: below 0 its signal, None where it didn't end."""

    out: bytes
    err: bytes
    status: int

    def line(self) -> str:
        """Returns the fault's line without the program's name and line feed."""
        return self.err.decode("latin-1").removeprefix("sfq: ").removesuffix("\n")


def fault_status(line: bytes) -> Optional[int]:
    """Returns the status of a line of standard error, or None where no fault has such a line."""
    return next((status for status, form in LINES.items() if form.fullmatch(line)), None)


def is_explanation(text: bytes) -> bool:
    """Whether the text is what `--why` may add to the line of a fault: few lines, none of them long."""
    lines = text.decode("utf-8", "replace").splitlines()
    return EXPLANATION.fullmatch(text) is not None and len(lines) <= MOST_LINES and all(len(it) <= MOST_COLUMNS for it in lines)


def without_reason(err: bytes, words: Sequence[bytes]) -> bytes:
    """Returns standard error without what `--why` may add: lines behind that of a fault, or notes of tables that load or on a query."""
    if not err or b"--why" not in words:
        return err
    notes = {b"check": NOTES, b"run": QUERY_NOTES}.get(b"".join(words[:1]))
    if notes and notes.fullmatch(err):
        return b""
    first, _, rest = err.partition(b"\n")
    code = re.match(rb"sfq: \w+ (L\d+)", first)
    return first + b"\n" if is_explanation(rest) and has_reason(rest, code[1].decode() if code else "") else err


def has_reason(text: bytes, code: str) -> bool:
    """Whether what `--why` adds has the line of a table's fault with this code, if such a fault has one."""
    reason = REASONS.get(code)
    return reason is None or text == EMPTY or any(reason.fullmatch(it) for it in text.splitlines(keepends=True))


def wrong_outcome(ran: Ran, words: Sequence[bytes]) -> Optional[str]:
    """Returns what is wrong with the status and the two streams of a run of sfq with these words, or None."""
    ran = ran._replace(err=without_reason(ran.err, words))
    if ran.status is None:
        return "it didn't end"
    if ran.status < 0:
        return f"it ended by signal {-ran.status}"
    if ran.status == 0:
        return wrong_answer(ran, words)
    if ran.out:
        return "there is a fault, and standard output isn't empty"
    if ran.status == MISUSE and fault_status(ran.err) != MISUSE:
        return None if ran.err.startswith(b"error: ") or b"Usage: " in ran.err else "no text of a misuse"
    if fault_status(ran.err) != ran.status or ran.status not in STATUSES.get(b"".join(words[:1]), ()):
        return "no fault has this line and status"
    if ran.status == REFUSED and (words[0] in OF_TWO) != ran.err.startswith((b"sfq: first ", b"sfq: second ")):
        return "another command has faults like this"
    return None


def wrong_answer(ran: Ran, words: Sequence[bytes]) -> Optional[str]:
    """Returns what is wrong with the two streams of a run without a fault, or None. Help may have any form."""
    if ran.err:
        return "standard error isn't empty, and the status is 0"
    if not ran.out.endswith(b"\n") and words[:1] != [b"check"]:
        return "the output isn't lines"
    forms = {b"relate": MATRIX, b"check": CHECKED}
    is_plain = words[1:2] == [b"--"] or not any(it.startswith(b"-") for it in words)
    form = forms.get(words[0]) if words and is_plain else None
    return None if form is None or form.fullmatch(ran.out) else "the output has another form"


def transposed(matrix: str) -> str:
    return "".join(matrix[it] for it in (0, 3, 6, 1, 4, 7, 2, 5, 8))


def holds(predicate: str, matrix: str, dimensions: tuple[int, int]) -> bool:
    """Whether a predicate holds of two geometries. One that isn't named is the pattern of an ST_Relate."""
    return predicates.holds(predicate[3:].lower(), matrix, dimensions) if predicate in PREDICATES else predicates.matches(predicate, matrix)
