"""Changes of a text: its bytes, tokens and records are swapped, cut, doubled, or replaced by words of the grammar."""
import random
import re
from typing import Sequence

TOKEN = re.compile(rb"\w+|\s+|'[^']*'|\"[^\"]*\"|[<>!]=|<>|.", re.S)
NUMBER = re.compile(rb"[-+]?\d+")

SQL = (
    "SELECT FROM WHERE AND OR NOT IS NULL JOIN CROSS INNER ON AS LIMIT COUNT ( ) * , . ; = <> != < <= > >= + - -- ' ''"
    " EXPLAIN ANALYZE CREATE TABLE PRIMARY KEY INTEGER INT BIGINT TEXT GEOMETRY POINT MULTIPOINT LINESTRING MULTILINESTRING"
    " POLYGON MULTIPOLYGON ST_Equals ST_Disjoint ST_Intersects ST_Touches ST_Crosses ST_Within ST_Contains ST_Overlaps"
    " ST_Relate ST_IsEmpty ST_AsText ST_Dimension ST_GeomFromText id geom name pop t a b t.id a.geom 'a' 'T*F**F***'"
    " 'FF*FF****' COUNT(*) DISTINCT ORDER BY OFFSET IN LIKE"
).split()
GEOMETRY = "POINT MULTIPOINT LINESTRING MULTILINESTRING POLYGON MULTIPOLYGON EMPTY Z M ( ) , (( )) . - + 1e0 SRID=4326;".split()
RECORD = ['""', '"', ",", "id", "geom", "name", "\r", "\n", "\r\n", "\n\n", "POINT EMPTY", '"POINT(1 1)"', "\ufeff", " ", "\t"]
COMMAND = "run check relate help -- - -h --help --version -V s d / . .. s/ --=x".split()
WORDS = {"schema": SQL, "table": RECORD, "word": SQL + GEOMETRY + COMMAND, "geometry": GEOMETRY}
# Numbers at and past limits: of 64 bits, of coordinates, of rows, bytes and levels; and spellings of one number.
NUMBERS = (
    "0 1 2 3 4 7 8 9 10 -1 -0 +1 00 01 1. 1.0 .0 . 1.5 0.50 1e1 16 17 32 33 64 65 255 256 1000 1001 10000 10001 65535 65536"
    " 65537 100000 100001 10000000 10000001 -10000000 -10000001 9999999 2147483647 2147483648 -2147483649 4294967296"
    " 9223372036854775806 9223372036854775807 9223372036854775808 -9223372036854775808 -9223372036854775809"
    " 18446744073709551616 99999999999999999999999999 1000000000000000000000000000000000000000000"
).split()
BYTES = [b"\0", b"\n", b"\r", b"\t", b"\x0b", b" ", b'"', b"'", b",", b"(", b")", b";", b"-", b".", b"\x7f", b"\x80", b"\xc3", b"\xff", b"\xef\xbb\xbf"]


def change(text: bytes, others: Sequence[bytes], kind: str, numbers: random.Random) -> bytes:
    """Returns a text after one change. `others` are texts of its kind, of which it may get a part."""
    ways = [bytes_changed, token_changed, token_changed, number_changed, number_changed, mixed]
    ways += [record_changed] * 4 if kind == "table" else []
    ways += [number_moved] * 4 if kind == "geometry" else []
    return numbers.choice(ways)(text, others, kind, numbers)


def bytes_changed(text: bytes, others: Sequence[bytes], kind: str, numbers: random.Random) -> bytes:
    """Drops, doubles, replaces or adds some bytes, or ends the text here."""
    first = numbers.randint(0, len(text))
    last = min(len(text), first + numbers.choice((0, 1, 1, 2, 5)))
    new = numbers.choice((b"", text[first:last] * 2, numbers.choice(BYTES), bytes([numbers.randrange(256)])))
    return text[:first] + new + (b"" if numbers.random() < 0.1 else text[last:])


def pieces_changed(pieces: Sequence[bytes], new: bytes, numbers: random.Random) -> list[bytes]:
    """Drops, doubles, replaces or swaps pieces of a text, or moves one."""
    if not pieces:
        return [new]
    first, second = numbers.randrange(len(pieces)), numbers.randrange(len(pieces))
    pieces, way = list(pieces), numbers.randrange(6)
    if way == 0:
        del pieces[first]
    elif way == 1:
        pieces.insert(first, pieces[first])
    elif way == 2:
        pieces[first] = new
    elif way == 3:
        pieces.insert(first, new)
    elif way == 4:
        pieces[first], pieces[second] = pieces[second], pieces[first]
    else:
        first, second = sorted((first, second))
        pieces[first:second] = [] if numbers.random() < 0.5 else pieces[first:second] * 2
    return pieces


def token_changed(text: bytes, others: Sequence[bytes], kind: str, numbers: random.Random) -> bytes:
    word = numbers.choice(WORDS[kind]).encode()
    new = b" " + word + b" " if numbers.random() < 0.3 else word
    return b"".join(pieces_changed(TOKEN.findall(text), new, numbers))


def number_changed(text: bytes, others: Sequence[bytes], kind: str, numbers: random.Random) -> bytes:
    """Replaces a number by one at a limit or by one more or less."""
    found = list(NUMBER.finditer(text))
    if not found:
        return token_changed(text, others, kind, numbers)
    at = numbers.choice(found)
    new = numbers.choice(NUMBERS) if numbers.random() < 0.6 else str(int(at[0][:50]) + numbers.choice((-1, 1)))
    return text[: at.start()] + new.encode() + text[at.end() :]


def number_moved(text: bytes, others: Sequence[bytes], kind: str, numbers: random.Random) -> bytes:
    """Replaces each number that is equal to one of the text by a small one, so that rings stay closed."""
    found = NUMBER.findall(text)
    if not found:
        return text
    old, new = numbers.choice(found), str(numbers.randint(-1, 9)).encode()
    return NUMBER.sub(lambda at: new if at[0] == old else at[0], text)


def record_changed(text: bytes, others: Sequence[bytes], kind: str, numbers: random.Random) -> bytes:
    """Changes records or the fields of one; fields aren't told apart by quotes."""
    records = text.splitlines(keepends=True)
    other = numbers.choice(others).splitlines(keepends=True) or [b"\n"]
    if not records or numbers.random() < 0.5:
        return b"".join(pieces_changed(records, numbers.choice(other), numbers))
    at = numbers.randrange(len(records))
    fields = pieces_changed(records[at].split(b","), numbers.choice(numbers.choice(other).split(b",")), numbers)
    return b"".join([*records[:at], b",".join(fields), *records[at + 1 :]])


def mixed(text: bytes, others: Sequence[bytes], kind: str, numbers: random.Random) -> bytes:
    """Returns the beginning of the text and the end of another, or the text with a stretch of tokens of another."""
    own, other = TOKEN.findall(text), TOKEN.findall(numbers.choice(others))
    first, last = sorted((numbers.randint(0, len(own)), numbers.randint(0, len(own))))
    begin, end = sorted((numbers.randint(0, len(other)), numbers.randint(0, len(other))))
    if numbers.random() < 0.5:
        return b"".join(own[:first] + other[begin:])
    return b"".join(own[:first] + other[begin:end] + own[last:])
