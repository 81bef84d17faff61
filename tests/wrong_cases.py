"""The cases of tests/wrong_inputs: commands with their files and all that they write; and where a byte is in a text that is shown."""
import glob
import os
import re
import shlex
from typing import NamedTuple, Optional

from support import ROOT, read

FOLDER = f"{ROOT}/tests/wrong_inputs"
# How many columns of a line are shown before the place and from there on.
BEFORE, BEHIND = 100, 60
# Characters that a terminal obeys, or doesn't show, or that turn those around them.
UNSEEN = re.compile("[\x80-\x9f\u061c\u200b-\u200f\u2028-\u202e\u2060-\u206f\ufeff\U000e0000-\U000e007f]")


class Case(NamedTuple):
    """A command without the switch, its files, and what it writes: standard output, standard error, and what the switch adds to it."""

    name: str
    words: list[str]
    files: dict[str, Optional[bytes]]
    out: str
    fault: str
    added: list[str]
    status: int
    # Whether the switch adds something else yet, or nothing.
    is_later: bool = False

    def make(self, folder: str) -> list[str]:
        """Makes a folder with the files, and returns the words with its path before each file's name."""
        os.makedirs(folder, exist_ok=True)
        for name, text in self.files.items():
            path = f"{folder}/{name}"
            os.makedirs(os.path.dirname(path), exist_ok=True)
            if text is None:
                os.makedirs(path)
                continue
            with open(path, "wb") as file:
                file.write(text)
        return [placed(folder, self.words[0], at, it) for at, it in enumerate(self.words)]


def placed(folder: str, command: str, at: int, word: str) -> str:
    """Returns a word of a command; one that names a file has the folder's path before it."""
    if word.startswith("@") and word != "@-" and at:
        return f"@{folder}/{word[1:]}"
    names = command in ("run", "check") and at in (1, 2) or command == "pairs" and at == 1 and word != "-"
    return f"{folder}/{word}" if names and not word.startswith("--") else word


def repeated(text: str) -> str:
    """Returns the text with each `{N times TEXT}` written out; `#` in TEXT is the number of the time, from 1."""
    def all_times(found: re.Match[str]) -> str:
        return "".join(found[2].replace("#", str(it)) for it in range(1, int(found[1]) + 1))

    return re.sub(r"\{(\d+) times ([^}]*)\}", all_times, text)


def content(lines: list[str], is_escaped: bool) -> bytes:
    """Returns the bytes of a file: of lines as they are, or of escaped ones, which are joined as they are."""
    if not is_escaped:
        return "".join(f"{repeated(it)}\n" for it in lines).encode()
    text = "".join(map(repeated, lines)).encode()
    return re.sub(rb"\\(x[0-9a-f]{2}|.)", lambda it: bytes.fromhex(it[1][1:].decode()) if len(it[1]) > 1 else {b"n": b"\n", b"r": b"\r", b"t": b"\t"}.get(it[1], it[1]), text)


def blocks(text: str) -> list[tuple[int, list[str]]]:
    """Returns the paragraphs of a file without its comments, each with the number of its first line."""
    found: list[tuple[int, list[str]]] = []
    is_open = False
    for number, line in enumerate(text.split("\n"), 1):
        if not line.strip() or line.startswith("# "):
            is_open = is_open and bool(line.strip())
            continue
        if not is_open:
            found.append((number, []))
        found[-1][1].append(line)
        is_open = True
    return found


def cases_of(path: str) -> list[Case]:
    """Returns the cases of a file, each with the files that are there by then."""
    found: list[Case] = []
    files: dict[str, Optional[bytes]] = {}
    for number, lines in blocks(read(path)):
        head = lines[0].split(" ")
        if head[0] == "fresh":
            files = {}
        elif head[0] == "folder":
            files = {**files, head[1]: None}
        elif head[0] == "file":
            assert all(it.startswith("|") for it in lines[1:]), f"{path}:{number}"
            files = {**files, head[1]: content([it[1:] for it in lines[1:]], head[2:] == ["escaped"])}
        else:
            assert head[0] == "sfq", f"{path}:{number}: {lines[0]}"
            kinds = {sign: [it[2:] for it in lines[1:] if it.startswith(f"{sign} ")] for sign in ">!+"}
            status = next((int(it.split()[1]) for it in lines if it.startswith("status ")), 0)
            out, err = ("".join(f"{it}\n" for it in kinds[sign]) for sign in ">!")
            words = [repeated(it) for it in shlex.split(lines[0])[1:]]
            found.append(Case(f"{os.path.basename(path)}:{number}", words, files, out, err, kinds["+"], status, "later" in lines))
    return found


def all_cases() -> list[Case]:
    return [it for path in sorted(glob.glob(f"{FOLDER}/*.txt")) for it in cases_of(path)]


# ---- the place of a byte ----


def cells(line: bytes) -> list[tuple[int, str]]:
    """Returns a line as it is shown: for each character the place of its first byte, and the text that stands for it.

    In a line that is UTF-8 and has no character that isn't seen, each character stands for itself. Any other byte that isn't printable
    ASCII is an escape.
    """
    found: list[tuple[int, str]] = []
    try:
        text = line.decode()
        is_utf8 = not UNSEEN.search(text)
    except UnicodeDecodeError:
        is_utf8 = False
    at = 0
    for it in text if is_utf8 else line.decode("latin-1"):
        is_plain = " " <= it <= "~" or is_utf8 and it >= "\x80"
        found.append((at, it if is_plain else {9: "\\t", 13: "\\r"}.get(line[at], f"\\x{line[at]:02x}")))
        at += len(it.encode()) if is_utf8 else 1
    return found


def place_lines(text: bytes, at: int, has_caret: bool = True) -> list[str]:
    """Returns the two lines that show a byte of a text: its line with its number, cut around the place, and a caret below the place."""
    if at >= len(text):
        at = len(text.rstrip())
    begin = text.rfind(b"\n", 0, at) + 1
    end = text.find(b"\n", at)
    line = text[begin : len(text) if end < 0 else end]
    line = line[:-1] if line.endswith(b"\r") and at - begin < len(line) else line
    shown = cells(line)
    first = here = next((it for it, (place, _) in enumerate(shown) if place >= at - begin), len(shown))
    last, before, behind = here, 0, 0
    while first and before + len(shown[first - 1][1]) <= BEFORE:
        first -= 1
        before += len(shown[first][1])
    while last < len(shown) and behind + len(shown[last][1]) <= BEHIND:
        behind += len(shown[last][1])
        last += 1
    head = f"{text.count(10, 0, begin) + 1:>3} | "
    dots = ".." if first else ""
    rest = "".join(it for _, it in shown[first:last])
    lines = [f"{head}{dots}{f'{rest}..' if last < len(shown) else rest.rstrip()}"]
    return lines + [" " * (len(head) - 2) + "| " + " " * (len(dots) + before) + "^"] * has_caret


def records(text: bytes) -> list[list[tuple[int, bytes]]]:
    """Returns the records of a CSV file, the header first: each field with the place where it begins and its bytes in the file.

    A quote at a field's begin opens it up to the next quote that isn't doubled. Blank lines are no records.
    """
    found: list[list[tuple[int, bytes]]] = []
    at = 3 if text.startswith(b"\xef\xbb\xbf") else 0
    while at < len(text):
        if text[at] in b"\r\n":
            at += 1
            continue
        fields: list[tuple[int, bytes]] = []
        while True:
            begin, is_quoted = at, False
            while at < len(text) and (is_quoted or text[at] not in b",\r\n"):
                is_quoted ^= text[at] == 34 and (is_quoted or text[begin] == 34)
                at += 1
            fields.append((begin, text[begin:at]))
            if at == len(text) or text[at] != 44:
                break
            at += 1
        found.append(fields)
    return found


def of_table(case: Case, fault: str, reason: str) -> list[str]:
    """Returns the lines that show the place of a table's fault; `reason` is the first line of what is said of it."""
    name, code, rest = re.match(r"sfq: (\w+) (L\d+)(.*)", fault).groups()
    path = f"{case.words[2]}/{name}.csv" if case.words[0] in ("run", "check") else case.words[1]
    text = case.files[os.path.normpath(path)] or b""
    found = records(text)
    if code in ("L1", "L2"):
        if not found:
            return []
        names = [it[1].strip(b'"').decode("latin-1").lower() for it in found[0]]
        column = reason.split(" ")[2] if code == "L2" else None
        at = [found[0][it][0] for it, name in enumerate(names) if name == column]
        return place_lines(text, at[1] if at else found[0][0][0], bool(at))
    if code == "L10":
        return place_lines(text, found[100_001][0][0], False)
    if code == "L11":
        at = next((begin for it in found for number, (begin, field) in enumerate(it) if len(field) > 1 << 20 or number == 100_000), None)
        return [] if at is None else place_lines(text, at)
    record = found[int(re.match(r" record (\d+)", rest)[1])]
    if code == "L3":
        width = len(found[0])
        end = record[-1][0] + len(record[-1][1])
        return place_lines(text, record[width][0] if len(record) > width else end)
    column = re.search(r"column (\w+)", reason)
    header = [it[1].strip(b'"').decode().lower() for it in found[0]]
    at, field = record[header.index(column[1].lower() if column else "id")]
    byte = re.search(r"W\d at (\d+)", rest)
    return place_lines(text, at + field.startswith(b'"') + int(byte[1]) if byte else at)


def text_of(case: Case, word: str) -> bytes:
    """Returns the text of a word that may name a file by `@`."""
    return case.files[word[1:]] or b"" if word.startswith("@") else word.encode()


def shown_place(case: Case) -> list[str]:
    """Returns the lines that show the place of a case's fault, none where it has no place."""
    fault, said = case.fault.rstrip("\n"), [it for it in case.added if it.startswith("sfq: ")]
    if fault.startswith("sfq: pairs "):
        return []
    if re.match(r"sfq: \w+ L\d+", fault):
        return of_table(case, fault, said[0] if said else "")
    at = re.match(r"sfq: (?:(first|second) )?([SQW])\d+ at (\d+)", fault)
    if not at:
        return []
    if at[2] == "S":
        return place_lines(case.files[case.words[1]] or b"", int(at[3]))
    if at[2] == "Q":
        return place_lines(text_of(case, case.words[3]), int(at[3]))
    return place_lines(text_of(case, case.words[1 + (at[1] == "second")]), int(at[3]))
