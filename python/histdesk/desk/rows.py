"""Rows of one trigger over many recordings, added up."""

from __future__ import annotations

from collections.abc import Callable, Iterable, Sequence
from typing import TYPE_CHECKING, Any, TypeAlias, overload

from .._public import public
from ..native import layout
from ..show import tables
from .row_shape import HITCOUNT, Row, Shape
from .values import KeyPart, KeyParts

if TYPE_CHECKING:
    from pandas import DataFrame  # type: ignore[import]

    from .trigger import Trigger

# The hitcount and the sums of each key.
RowSums: TypeAlias = dict[KeyParts, list[int]]
# A part of a key as it is compared: a number, or the bytes of a text.
Comparable: TypeAlias = int | bytes
MASK = 2**64 - 1
DOWN = ".descending"


@public
class Rows(Sequence[Any]):
    """The rows of a trigger's table, of one recording or added up over several: a sequence of named tuples, as `Trigger.rows`
    has them, in the order for which the trigger asks. It can be pickled, and two are equal if they hold the same.

    Parameters
    ----------
    event
        The trigger's event.
    canonical
        The trigger's text as the desk writes it.
    sums
        The hitcount and the sums of each key.
    dropped
        How many events found no room in the table of their recording.

    Attributes
    ----------
    event, canonical, dropped
        As the parameters.
    """

    def __init__(self, event: str, canonical: str, sums: RowSums, dropped: int = 0) -> None:
        self.event, self.canonical, self.dropped = event, canonical, dropped
        self._sums = sums
        self._shape = Shape(canonical)
        self._keys = keys_in_order(self._shape, canonical, sums)

    @classmethod
    def of(cls, trigger: Trigger) -> Rows:
        """Return the rows of an attached trigger.

        Parameters
        ----------
        trigger
            The trigger.

        Returns
        -------
        Rows
            Its rows at this moment.

        Raises
        ------
        Refused
            If it isn't attached any more.
        """
        rows, canonical = trigger.rows(), trigger.canonical
        parts = len(Shape(canonical).keys)
        return cls(trigger.event, canonical, {row[:parts]: list(row[parts:]) for row in rows}, trigger.totals().dropped)

    @classmethod
    def merged(cls, many: Iterable[Rows]) -> Rows:
        """Return all rows of several tables added up.

        Parameters
        ----------
        many
            The tables, of one trigger.

        Returns
        -------
        Rows
            A row for each key, with the hitcounts added up, and the sums modulo 2^64.

        Raises
        ------
        ValueError
            If there are none, or they are of different triggers.
        """
        parts = list(many)
        kinds = {(part.event, part.canonical) for part in parts}
        if len(kinds) != 1:
            raise ValueError(f"rows of one trigger can be added up, and these are of {sorted(kinds)}")
        sums: RowSums = {}
        for part in parts:
            add(sums, part._sums)
        return cls(*kinds.pop(), sums, sum(part.dropped for part in parts))

    @property
    def names(self) -> tuple[str, ...]:
        """The names of a row's parts: the fields of the keys, `hitcount`, and what is summed."""
        return self._shape.names

    @property
    def hits(self) -> int:
        """How many events were counted."""
        return sum(sums[0] for sums in self._sums.values())

    def __len__(self) -> int:
        return len(self._keys)

    @overload
    def __getitem__(self, at: int) -> Any:
        """Return the row at this place."""

    @overload
    def __getitem__(self, at: slice) -> list[Any]:
        """Return the rows at these places."""

    def __getitem__(self, at: int | slice) -> Any:
        if isinstance(at, slice):
            return [self._row(key) for key in self._keys[at]]
        return self._row(self._keys[at])

    def _row(self, key: KeyParts) -> Row:
        """Return the row of a key."""
        return self._shape.row(*key, *self._sums[key])

    def to_pandas(self) -> DataFrame:
        """Return the table.

        Returns
        -------
        pandas.DataFrame
            A row for each key, with `names` as columns; see `Trigger.to_pandas`.

        Raises
        ------
        ImportError
            If pandas is missing.
        """
        return frame_of(self._shape, self)

    def __reduce__(self) -> tuple[type[Rows], tuple[str, str, RowSums, int]]:
        return Rows, (self.event, self.canonical, self._sums, self.dropped)

    def __eq__(self, other: object) -> bool:
        if not isinstance(other, Rows):
            return NotImplemented
        mine = self.event, self.canonical, self.dropped, self._sums
        return mine == (other.event, other.canonical, other.dropped, other._sums)

    __hash__ = None  # type: ignore[assignment]

    def _display(self) -> tuple[str, tables.Table, str]:
        """Return what is shown: a title, the table, and the totals."""
        title = f"histdesk.Rows of {self.event}: {self.canonical}"
        totals = f"hits {self.hits}, entries {len(self)}, dropped {self.dropped}"
        return title, tables.table_of(self.names, len(self), self.__getitem__), totals

    def __repr__(self) -> str:
        title, table, totals = self._display()
        return "\n".join([tables.printable(title), tables.in_text(table), totals])

    def _repr_html_(self) -> str:
        title, table, totals = self._display()
        return tables.in_html(title, [table], totals)


def frame_of(shape: Shape, rows: Sequence[Row]) -> DataFrame:
    """Return rows of a trigger as a DataFrame, with the names of their parts as columns."""
    import pandas

    columns = list(zip(*rows)) or [()] * len(shape.names)
    kinds = zip(shape.names, columns, shape.kinds)
    return pandas.DataFrame({name: pandas.Series(column, dtype=kind) for name, column, kind in kinds})


def add(sums: RowSums, others: RowSums) -> None:
    """Add some sums to others, key by key, modulo 2^64."""
    for key, numbers in others.items():
        had = sums.get(key)
        sums[key] = list(numbers) if had is None else [one + other & MASK for one, other in zip(had, numbers)]


def keys_in_order(shape: Shape, canonical: str, sums: RowSums) -> list[KeyParts]:
    """Return the keys in the order of their rows (docs/REFERENCE.md, Order of rows): by the trigger's sort items, and otherwise
    by key."""
    head = canonical.partition(" ")[0]
    items = next(part for part in head.split(":") if part.startswith("sort="))[len("sort=") :].split(",")
    keys = sorted(sums, key=comparable_key)
    for item in reversed(items):
        is_down = item.endswith(DOWN)
        name = item[: -len(DOWN)] if is_down else item
        keys.sort(key=sort_key(shape, name, sums), reverse=is_down)
    return keys


def sort_key(shape: Shape, name: str, sums: RowSums) -> Callable[[KeyParts], Any]:
    """Return what a sort item compares of a key's row. A name that is both a key and a value is the key."""
    fields = [key.field for key in shape.keys]
    if name in fields:
        place = fields.index(name)
        return lambda key: comparable(key[place])
    column = [HITCOUNT, *shape.values].index(name.lstrip("$"))
    return lambda key: sums[key][column]


def comparable(part: KeyPart) -> Comparable:
    """Return a part of a key as it is compared: a number as it is, a text by its bytes."""
    return layout.encode(part) if isinstance(part, str) else part


def comparable_key(key: KeyParts) -> tuple[Comparable, ...]:
    """Return a key as it is compared."""
    return tuple(map(comparable, key))
