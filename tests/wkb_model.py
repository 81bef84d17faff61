"""A model of reading well-known binary (06-103r4, 8.2) on a grid, by fractions: what docs/DEFINITIONS-LIBRARY.md defines, without the
checks of a geometry's validity. Tests compare the library with it."""
import math
import random
import struct
from fractions import Fraction

MOST, MOST_POSITIONS, MOST_PARTS = 10_000_000, 10_000, 1_000
WORDS = {1: "POINT", 2: "LINESTRING", 3: "POLYGON", 4: "MULTIPOINT", 5: "MULTILINESTRING", 6: "MULTIPOLYGON"}
SYSTEM = 1 << 29


class Refused(Exception):
    """The bytes are refused: by the code and the place of a fault, or by the code of a status."""


class Reader:
    """Reads the geometry of bytes. The grid is None, or a step, the coordinates of an origin, and the parts that they count."""

    def __init__(self, data, grid=None):
        self.data, self.at, self.grid = data, 0, grid
        self.step, *self.origin, self.parts = grid or (1, 0, 0, 1)
        self.count, self.kept, self.lines, self.polygons = 0, 0, 0, 0

    def take(self, size):
        if len(self.data) - self.at < size:
            raise Refused("W1", len(self.data))
        self.at += size
        return self.data[self.at - size:self.at]

    def word(self, order):
        return struct.unpack(f"{order}I", self.take(4))[0]

    def head(self):
        """Returns the order of bytes, the type and the number of the reference system."""
        at, order = self.at, self.take(1)[0]
        if order > 1:
            raise Refused("W1", at)
        order = "><"[order]
        code = self.word(order)
        system = self.word(order) if code & SYSTEM else 0
        if code & ~SYSTEM not in WORDS:
            raise Refused("4")
        return order, code & ~SYSTEM, system

    def element(self, kind):
        at = self.at
        order, found, _ = self.head()
        if found != kind:
            raise Refused("W1", at)
        return order

    def rounded(self, value, origin):
        exact = (Fraction(value) * self.parts - origin) / self.step
        found = math.floor(exact + Fraction(1, 2))
        return found, exact == found

    def placed(self, at, pair):
        if not all(map(math.isfinite, pair)):
            raise Refused("W1", at)
        both = [self.rounded(*it) for it in zip(pair, self.origin)]
        if any(abs(it) > MOST for it, _ in both):
            raise Refused("W3", self.count)
        if self.grid is None and not all(is_on for _, is_on in both):
            raise Refused("W2", self.count)
        self.count += 1
        return both[0][0], both[1][0]

    def keep(self):
        if self.kept == MOST_POSITIONS:
            raise Refused("W4", 0)
        self.kept += 1

    def pair(self, order):
        return self.at, struct.unpack(f"{order}2d", self.take(16))

    def point(self, order, empty):
        at, pair = self.pair(order)
        if all(map(math.isnan, pair)):
            return empty()
        found = self.placed(at, pair)
        self.keep()
        return found

    def positions(self, order, count):
        found = []
        for _ in range(count):
            position = self.placed(*self.pair(order))
            if not found or position != found[-1]:
                self.keep()
                found.append(position)
        return found

    def part(self, order):
        count = self.word(order)
        if self.lines == MOST_PARTS:
            raise Refused("W4", 0)
        self.lines += 1
        if not count:
            raise Refused("4")
        return self.positions(order, count)

    def refuse(self):
        raise Refused("4")

    def polygon(self):
        order = self.element(3)
        if self.polygons == MOST_PARTS:
            raise Refused("W4", 0)
        self.polygons += 1
        count = self.word(order)
        if not count:
            self.refuse()
        return [self.part(order) for _ in range(count)]

    def read(self):
        """Returns the type, its positions, nested as in a text, and the number of the reference system."""
        order, kind, system = self.head()
        if kind == 1:
            found = self.point(order, lambda: None)
        elif kind == 2:
            found = self.positions(order, self.word(order))
        elif kind == 3:
            found = [self.part(order) for _ in range(self.word(order))]
        else:
            one = {4: lambda: self.point(self.element(1), self.refuse), 5: lambda: self.part(self.element(2)), 6: self.polygon}[kind]
            found = [one() for _ in range(self.word(order))]
        if self.at != len(self.data):
            raise Refused("W1", self.at)
        return kind, found, system


def listed(each, spelled):
    return f"({','.join(map(spelled, each))})"


def text_of(kind, found):
    """Returns the canonical text."""
    def position(it):
        return "%d %d" % it

    def line(it):
        return listed(it, position)

    def polygon(it):
        return listed(it, line)

    if not found:
        return f"{WORDS[kind]} EMPTY"
    if kind == 1:
        return f"POINT({position(found)})"
    of = {2: position, 3: line, 4: lambda it: f"({position(it)})", 5: line, 6: polygon}
    return WORDS[kind] + listed(found, of[kind])


def said(data, grid=None):
    """Returns a fault's code and place, the code of a status, or the number of the reference system, how many positions were read and
    merged, and the text."""
    reader = Reader(data, grid)
    try:
        kind, found, system = reader.read()
    except Refused as why:
        return " ".join(map(str, why.args))
    return f"0 {system - (1 << 32) * (system >> 31)} {reader.count} {reader.count - reader.kept} {text_of(kind, found)}"


class Drawn:
    """Values by chance, in both orders of bytes, with the numbers of reference systems here and there."""

    def __init__(self, chance):
        self.chance = chance

    def order(self):
        return self.chance.choice("<>")

    def head(self, kind, order):
        system = self.chance.random() < 0.2
        words = [kind | SYSTEM, self.chance.choice((0, 4326, 2**32 - 1))] if system else [kind]
        return struct.pack("B", order == "<") + struct.pack(f"{order}{len(words)}I", *words)

    def number(self):
        chance = self.chance
        if chance.random() < 0.97:
            return float(chance.randint(-9, 9))
        return chance.choice((-0.0, 1e7, -1e7, 0.005, 1.005, chance.randint(-40, 40) / 4, chance.uniform(-99, 99)))

    def line(self, order, least=1):
        count = self.chance.randint(least, 6)
        each = [self.number() for _ in range(2 * count)]
        if count > 1 and self.chance.random() < 0.7:
            each[-2:] = each[:2]
        return struct.pack(f"{order}I{2 * count}d", count, *each)

    def rings(self, order, least=0):
        count = self.chance.randint(least, 2)
        return struct.pack(f"{order}I", count) + b"".join(self.line(order) for _ in range(count))

    def value(self, kind=0):
        """Returns a value of a type, or of any."""
        kind, order = kind or self.chance.randint(1, 6), self.order()
        head = self.head(kind, order)
        if kind == 1:
            pair = [math.nan] * 2 if self.chance.random() < 0.1 else [self.number(), self.number()]
            return head + struct.pack(f"{order}2d", *pair)
        if kind == 2:
            return head + self.line(order, 0)
        if kind == 3:
            return head + self.rings(order)
        each = [self.value(kind - 3) for _ in range(self.chance.randint(0, 3))]
        return head + struct.pack(f"{order}I", len(each)) + b"".join(each)

    def broken(self, data):
        """Returns a value with some of its bytes changed, added, left out or cut off."""
        chance, found = self.chance, bytearray(data)
        for _ in range(chance.choice((1, 1, 2))):
            at, byte = chance.randint(0, max(len(found) - 1, 0)), chance.choice((0, 1, 2, 3, 7, 0x20, 0x7F, 0x80, 0xF0, 0xFF, chance.randint(0, 255)))
            turn = chance.randint(0, 4)
            if turn == 0 and found:
                found[at] = byte
            elif turn == 1:
                found.insert(at, byte)
            elif turn == 2 and found:
                del found[at]
            elif turn == 3:
                found[at:at + 4] = bytes([byte] * 4)
            else:
                del found[at:]
        return bytes(found)


def drawn(seed, count):
    """Returns values by chance, every second one broken."""
    chance = random.Random(seed)
    by = Drawn(chance)
    return [by.broken(by.value()) if at % 2 else by.value() for at in range(count)]
