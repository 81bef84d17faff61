"""The parts of a text: its tokens, with their places, as the library cuts them. Schemas and queries have the same.

The library stops at a byte that begins no token: here the parts behind it follow, so that a text has all of them, whatever it is.
"""
from __future__ import annotations

import codecs
import ctypes
import struct
from typing import Callable, Iterator, NamedTuple, Union

from ..geometry.library import TOO_SMALL
from . import databases

# What a part is, by the numbers of sfq_part_kind.
WORD, RESERVED, DIGITS, STRING, SYMBOL, SEMICOLON, PARAMETER, NAMED_PARAMETER, OPEN_STRING, NO_TOKEN, END = range(11)
# The types of constants, by the numbers of sfq_column_type, and what no constant has.
INTEGER, TEXT, GEOMETRY, NULL, NO_CONSTANT = range(5)
# How many parts are asked for at first.
FIRST_PARTS = 64
# A struct sfq_text_part.
LAYOUT = struct.Struct("@IINN")
# A struct sfq_named_column.
NAMED = struct.Struct("@NNN")
# What a character beyond ASCII is handed over as: one byte that begins no token, so that places count characters.
BEYOND = "sfq_beyond"



def one_byte_each(error: UnicodeError) -> tuple[Union[str, bytes], int]:
    """Returns the bytes for characters that ASCII lacks, and the place behind them."""
    if not isinstance(error, UnicodeEncodeError):
        raise error
    return b"\x80" * (error.end - error.start), error.end


codecs.register_error(BEYOND, one_byte_each)


class Part(NamedTuple):
    """A part of a text: what it is, the type of the constant that it is in a query, its first character, and the one behind it.

    A parameter has the type that a string would have in its place.
    """

    kind: int
    constant: int
    at: int
    end: int


class Named(NamedTuple):
    """A column that a query names: its first character, and the one behind it."""

    at: int
    end: int


class Room:
    """Room for what the library writes of a text, each as a struct, which grows as needed."""

    def __init__(self, layout: struct.Struct = LAYOUT) -> None:
        self.layout, self.count = layout, ctypes.c_size_t()
        self.grow(FIRST_PARTS)

    def grow(self, size: int) -> None:
        self.bytes, self.size = ctypes.create_string_buffer(size * self.layout.size), size

    def filled(self, call: Callable[..., int], text: int, length: int) -> Iterator[tuple[int, ...]]:
        """Returns what a call of the library writes of a text at an address."""
        status = call(text, length, self.bytes, self.size, ctypes.byref(self.count))
        if status == TOO_SMALL:
            self.grow(self.count.value)
            status = call(text, length, self.bytes, self.size, ctypes.byref(self.count))
        databases.need_ok(status)
        return self.layout.iter_unpack(memoryview(self.bytes)[: self.count.value * self.layout.size])


def parts(text: str) -> Iterator[Part]:
    """Returns the parts of a text, one after another; the last is its end."""
    given, room, begun = text.encode("ascii", BEYOND), Room(), 0
    address = ctypes.cast(ctypes.c_char_p(given), ctypes.c_void_p).value or 0
    is_over = False
    while not is_over:
        at = begun
        for kind, constant, place, size in list(room.filled(databases.library().sfq_text_parts, address + at, len(given) - at)):
            begun = at + place + size
            is_over = kind == END
            yield Part(kind, constant, at + place, begun)


def columns(query: str) -> list[Named]:
    """Returns the columns that a query names, in its select list, in ON and in WHERE, with their references. InternalError of another text.

    A character beyond ASCII is within a string or a comment, where any other does as well.
    """
    given = query.encode("ascii", "replace")
    address = ctypes.cast(ctypes.c_char_p(given), ctypes.c_void_p).value or 0
    return [Named(at, name + size) for at, name, size in Room(NAMED).filled(databases.library().sfq_named_columns, address, len(given))]


def tokens(text: str) -> list[str]:
    """Returns the texts of the parts of a text."""
    return [text[it.at : it.end] for it in parts(text) if it.kind != END]
