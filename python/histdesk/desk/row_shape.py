"""What a trigger counts by and sums, from its canonical text (docs/REFERENCE.md, Canonical triggers)."""

from __future__ import annotations

import keyword
from collections import namedtuple
from collections.abc import Callable, Sequence
from typing import Any, NamedTuple, TypeAlias

from .._schema import TEXT_FIELDS
from ..native import layout
from .values import Bucket, KeyPart, KeyParts, Log2

STAMP = "common_timestamp.usecs"
HITCOUNT = "hitcount"

# The fields of a struct, and a row: a named tuple whose fields are those of one trigger.
RowFields: TypeAlias = Sequence[Any]
Row: TypeAlias = tuple[KeyPart, ...]


class ShapeKey(NamedTuple):
    """A key's part.

    Attributes
    ----------
    field
        Its field.
    modifier
        Its modifier, such as `log2` or `buckets=32`; empty if there is none.
    """

    field: str
    modifier: str

    def kind(self) -> str:
        """Return what pandas takes it for."""
        if self.field in TEXT_FIELDS:
            return "object"
        return "uint64" if self.modifier.startswith("buckets=") else "int64"

    def reader(self, at: int) -> Callable[[RowFields], KeyPart]:
        """Return what takes this part out of the fields of a struct, in which it begins with field `at`."""
        if self.modifier == "log2":
            return lambda fields: Log2(fields[at])
        if self.modifier.startswith("buckets="):
            size = int(self.modifier.partition("=")[2])
            return lambda fields: Bucket(fields[at + 1], size)
        return lambda fields: fields[at] if fields[at + 4] == layout.PLAIN else layout.text_of(fields[at + 2], fields[at + 3])


class Shape:
    """What doesn't change while a trigger is attached: all of its text except the filter.

    Parameters
    ----------
    canonical
        The trigger's text as the desk writes it.

    Attributes
    ----------
    keys
        The parts of its keys.
    values
        The titles of its sums.
    names
        The names of a row's parts in order.
    kinds
        What pandas takes them for.
    reads
        The variable that it reads, or None.
    """

    def __init__(self, canonical: str) -> None:
        parts = canonical.partition(" ")[0].split(":")
        items = parts[1].partition("=")[2].split(",")
        self.keys = [ShapeKey(field, modifier) for field, _, modifier in (item.partition(".") for item in items)]
        self.values = [title.lstrip("$") for title in parts[2].partition("=")[2].split(",")[1:]]
        variable = parts[3] if not parts[3].startswith("sort=") else ""
        self.reads: str | None = variable.partition(f"={STAMP}-$")[2] or None
        self.names = distinct([key.field for key in self.keys], [HITCOUNT, *self.values])
        self.kinds = [*(key.kind() for key in self.keys), "int64", *("uint64" for _ in self.values)]
        self.row = row_type(self.names)
        self.readers = [key.reader(layout.FIRST_PART + layout.PART_FIELDS * at) for at, key in enumerate(self.keys)]

    def key_of(self, fields: RowFields) -> KeyParts:
        """Return the key of a row. `fields` are those of its struct, from the number of the key's parts on."""
        return tuple([reader(fields) for reader in self.readers])

    def row_of(self, fields: RowFields) -> Row:
        """Return a row, made from the fields of its struct."""
        sums = fields[layout.SUMS : layout.SUMS + 1 + len(self.values)]
        return self.row(*[reader(fields) for reader in self.readers], *sums)


def filter_of(canonical: str) -> str | None:
    """Return the filter's text, or None if there is none. No space stands before it."""
    return canonical.partition(" if ")[2] or None


def distinct(keys: list[str], values: list[str]) -> tuple[str, ...]:
    """Return the names of a row's parts. A value that is a key too has `_sum` after its name."""
    names = [*keys, *(f"{name}_sum" if name in keys else name for name in values)]
    for at, name in enumerate(names):
        while names[at] in names[:at]:
            names[at] += "_"
    return tuple(names)


def row_type(names: Sequence[str]) -> Callable[..., Row]:
    """Return a type of named tuples of these names, as Python takes them for attributes: a keyword gets a `_` after it, and a
    name that begins with a `_` is replaced by its place."""
    attributes = [f"{name}_" if keyword.iskeyword(name) else name for name in names]
    return namedtuple("Row", attributes, rename=True)
