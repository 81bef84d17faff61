"""A model of what the library says of a text: its tokens by regular expressions, and which of them are constants by the tokens before."""
import re

WORD, RESERVED, DIGITS, STRING, SYMBOL, SEMICOLON, PARAMETER, NAMED, OPEN, NONE, END = range(11)
INTEGER, TEXT, GEOMETRY, NULL, NO_CONSTANT = range(5)
KEYWORDS = set(b"SELECT FROM WHERE AND OR NOT IS NULL JOIN INNER CROSS ON AS LIMIT".split())
PASSED = re.compile(rb"(?:[ \t\r\n]|--[^\n]*)+")
TOKEN = re.compile(rb"(?P<word>[A-Za-z_][A-Za-z_0-9]*)|(?P<digits>[0-9]+)|(?P<string>'(?:[^']|'')*'(?!'))|(?P<symbol><=|<>|>=|!=|[(),.;*+=<>-])")
NAME = re.compile(rb":[A-Za-z_][A-Za-z_0-9]*")


def parts_of(text):
    """Returns the parts up to the first that is no token, or to the end: the kind, the constant, the first byte and the number of bytes."""
    found, before, at = [], [], 0
    while True:
        passed = PASSED.match(text, at)
        at = passed.end() if passed else at
        token = TOKEN.match(text, at)
        if not token:
            kind, size = unread(text, at)
            return [*found, (kind, NO_CONSTANT if kind == END else string_in(before), at, size)]
        word = token[0].upper()
        kind = kind_of(token.lastgroup, word)
        found.append((kind, constant_of(kind, word, before), at, len(token[0])))
        before.append(word)
        at = token.end()


def kind_of(group, word):
    if group == "word":
        return RESERVED if word in KEYWORDS else WORD
    return SEMICOLON if word == b";" else {"digits": DIGITS, "string": STRING, "symbol": SYMBOL}[group]


def unread(text, at):
    """Returns what is where no token begins, and how many bytes it has."""
    if at == len(text):
        return END, 0
    name = NAME.match(text, at)
    if name:
        return NAMED, len(name[0])
    return {b"?": (PARAMETER, 1), b"'": (OPEN, len(text) - at)}.get(text[at : at + 1], (NONE, 1))


def string_in(before):
    """Returns the type of a string behind these tokens."""
    if before[-1:] == [b","]:
        return NO_CONSTANT
    return GEOMETRY if before[-2:] == [b"ST_GEOMFROMTEXT", b"("] else TEXT


def constant_of(kind, word, before):
    if kind == STRING:
        return string_in(before)
    if kind == DIGITS:
        return NO_CONSTANT if before[-1:] == [b"LIMIT"] or is_truth(before) else INTEGER
    if word == b"NULL":
        return NO_CONSTANT if before[-1:] == [b"IS"] or before[-2:] == [b"IS", b"NOT"] else NULL
    return NO_CONSTANT


def is_truth(before):
    """Whether a number behind these tokens says that a predicate is to be true or false."""
    if before[-2:] != [b")", b"="]:
        return False
    calls = [name for name, mark in zip(before, before[1:]) if mark == b"(" and re.match(rb"[A-Z_]", name) and name not in KEYWORDS]
    calls = [it for it in calls if it != b"ST_GEOMFROMTEXT"]
    return bool(calls) and calls[-1] not in (b"ST_ASTEXT", b"ST_DIMENSION")
