"""What the library's structs look like in memory: the numbers, structs and calls of `interface`, and what follows from them."""

from __future__ import annotations

import functools
import struct

from . import interface
from .interface import *  # noqa: F401, F403 # all of it is found here too

# How many CPUs there can be, and how many numbers histdesk_waits_events has.
CPUS = 8192
# The kind of a key's part that is a plain number.
PLAIN = interface.NUMBER
# A line of a text.
LINE, LINE_FIELDS = interface.TEXT_LINE, interface.TEXT_LINE_FIELDS

# A name is 31 bytes and its length.
NAME_CODE, NAME_WORDS = "31sB", 4

# Where the parts of a key stand among the fields of a row, and how many fields each part has.
FIRST_PART, PART_FIELDS, SUMS = 1, 5, 1 + 3 * 5


def _offset(name: str) -> int:
    """Return where a member of an event begins, in bytes."""
    offset: int = getattr(interface.Event, name).offset
    return offset


# Where an event's name and its texts begin, in bytes.
NAME_AT = _offset("name")
TEXTS_AT = {name: _offset(name) for name in ("task", "comm", "prev_comm", "prev_state")}


@functools.lru_cache(maxsize=None)
def name_struct(field: str) -> struct.Struct:
    """Return the struct of an event's name and one of its texts, with the length after it."""
    at = TEXTS_AT[field]
    return struct.Struct(f"={NAME_AT}xI{at - NAME_AT - 4}x{NAME_CODE}{interface.EVENT.size - at - 32}x")


@functools.lru_cache(maxsize=16384)
def text_of(name: bytes, length: int) -> str:
    """Return a name of the library as a text. Bytes that aren't UTF-8 are kept, as `surrogateescape` keeps them."""
    return decode(name[:length])


def decode(text: bytes) -> str:
    """Return a text of the library as a `str`, of which `encode` makes the same bytes."""
    return text.decode("utf-8", "surrogateescape")


def encode(text: str) -> bytes:
    """Return a `str` as bytes for the library."""
    return text.encode("utf-8", "surrogateescape")
