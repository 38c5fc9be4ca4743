"""What callers hand in, as the library takes it."""

from __future__ import annotations

import operator
from collections.abc import Iterable
from typing import TYPE_CHECKING, Any, Protocol, TypeAlias

import numpy as np

from .. import _schema
from . import layout
from .arrays import PLACE_TYPE

if TYPE_CHECKING:
    from numpy.typing import NDArray

# A line, a trigger or a filter: bytes are taken as they are.
Text: TypeAlias = str | bytes
MOST = 2**32 - 1


class Located(Protocol):
    """What has a CPU and a line: an `Event`, a `Place`, or a record of an array."""

    @property
    def cpu(self) -> int:
        """The CPU, from 0."""

    @property
    def line(self) -> int:
        """The line on that CPU, from 1."""


def whole(value: int, name: str) -> int:
    """Return a whole number that a caller has passed.

    Parameters
    ----------
    value
        The number, or what has `__index__`.
    name
        What it is, for the message.

    Raises
    ------
    TypeError
        If it is no whole number.
    """
    try:
        return operator.index(value)
    except TypeError:
        raise TypeError(f"{name} is {value!r}, which is no whole number") from None


def number(value: int, name: str) -> int:
    """Return a number as the library takes it.

    Parameters
    ----------
    value
        The number, or what has `__index__`.
    name
        What it is, for the message.

    Raises
    ------
    TypeError
        If it is no whole number.
    ValueError
        If it is out of range.
    """
    result = whole(value, name)
    if not 0 <= result <= MOST:
        raise ValueError(f"{name} is {result}, which isn't from 0 to {MOST}")
    return result


def pack_places(places: NDArray[Any] | Iterable[Located]) -> tuple[NDArray[Any] | bytes, int]:
    """Return places as the library takes them, in a buffer, and how many they are.

    Parameters
    ----------
    places
        What `Desk.matching` returns, an array with the fields `cpu` and `line`, or anything with these attributes, one by one.

    Raises
    ------
    TypeError, ValueError
        As `number` raises them.
    """
    if isinstance(places, np.ndarray):
        if places.dtype == PLACE_TYPE:
            return np.require(places, requirements=["C", "A"]), places.size
        pairs: Iterable[tuple[int, int]] = zip(places["cpu"].tolist(), places["line"].tolist())
    else:
        pairs = ((place.cpu, place.line) for place in places)
    structs = b"".join(layout.PLACE.pack(0, number(cpu, "cpu"), number(line, "line")) for cpu, line in pairs)
    return structs, len(structs) // layout.PLACE.size


def as_bytes(text: Text) -> bytes:
    """Return a text as the library takes it.

    Raises
    ------
    TypeError
        If it is no text.
    """
    if isinstance(text, str):
        return layout.encode(text)
    if isinstance(text, (bytes, bytearray, memoryview)):
        return bytes(text)
    raise TypeError(f"expected a text, str or bytes, and not {type(text).__name__}")


def event_number(event: str) -> int:
    """Return the number of an event that triggers can be attached to; for any other name, one that the library refuses."""
    return _schema.NUMBERS[event] if event in _schema.ATTACHABLE_EVENTS else layout.NONE
