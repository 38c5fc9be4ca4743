"""What each line of a trace's text is, as the engine reads it."""

from __future__ import annotations

import ctypes
from collections.abc import Iterator
from typing import TYPE_CHECKING, Any, NamedTuple

import numpy as np

from .. import _schema
from ..native import layout
from ..native.arrays import LINE_TYPE
from ..native.buffers import bytes_of
from ..native.library import library
from ..native.session import Session

if TYPE_CHECKING:
    from numpy.typing import NDArray

    from ..native.memory import Searchable

NONE = -1
# How many bytes the engine is asked about at once.
BYTES_AT_ONCE = 1 << 20


class Lines(NamedTuple):
    """What each line of a text is, in arrays with one element for each line.

    Attributes
    ----------
    ends
        Where it ends, after its line break: bytes from the beginning of the text.
    cpus
        The CPU of its event; -1 if it holds none.
    stamps
        The stamp of its event, in microseconds.
    names
        The name of its event, by its number.
    bad
        Whether it can't be read.
    """

    ends: NDArray[np.int64]
    cpus: NDArray[np.int64]
    stamps: NDArray[np.int64]
    names: NDArray[np.uint8]
    bad: NDArray[np.bool_]


def lines_in(text: Searchable) -> Lines:
    """Return what each line of a text is. Raises `MemoryError` if memory ran out."""
    parts = list(lines_by_part(text))
    if not parts:
        return Lines(*(np.zeros(0, kind) for kind in ("i8", "i8", "i8", "u1", "?")))
    return parts[0] if len(parts) == 1 else Lines._make(map(np.concatenate, zip(*parts)))


def lines_by_part(text: Searchable) -> Iterator[Lines]:
    """Yield what each line of a text is, part by part."""
    for start, part in line_parts(text):
        lines = read_lines(part)
        event = lines["event"]
        is_event, is_bad = event <= _schema.OTHER, event == layout.LINE_BAD
        is_unknown = ~(is_event | is_bad | (event == layout.LINE_SKIPPED))
        if is_unknown.any():
            raise NotImplementedError(f"the library has an event {event[is_unknown][0]}, which this package doesn't know")
        cpus = np.where(is_event, lines["cpu"].astype("i8"), NONE)
        names = np.where(is_event, event, _schema.OTHER).astype("u1")
        yield Lines(lines["end"] + start, cpus, lines["stamp"], names, is_bad)


def line_parts(text: Searchable) -> Iterator[tuple[int, Searchable]]:
    """Yield a text in parts of whole lines, each with the byte at which it begins."""
    start = 0
    while start < len(text):
        end = min(start + BYTES_AT_ONCE, len(text))
        end = text.rfind(b"\n", start, end) + 1 or text.find(b"\n", end) + 1 or len(text)
        yield start, text[start:end]
        start = end


def read_lines(text: Searchable) -> NDArray[Any]:
    """Return what the engine reports about the lines of a text, as an array of its structs."""
    session = Session()
    with bytes_of(text) as (address, length):
        ask = library.histdesk_lines, ctypes.c_void_p(address), length
        lines = session.array(library.histdesk_lines_copy, LINE_TYPE, *ask)
    session.close()
    return lines


def bad_lines(text: Searchable) -> list[int]:
    """Return the numbers, from 1, of the lines that can't be read. Raises `MemoryError` if memory ran out."""
    numbers: list[int] = []
    count = 0
    for _, part in line_parts(text):
        lines = read_lines(part)
        numbers += (np.flatnonzero(lines["event"] == layout.LINE_BAD) + count + 1).tolist()
        count += len(lines)
    return numbers
