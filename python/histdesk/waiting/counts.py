"""Waits counted by key and by microsecond: counts that add up exactly, over however many recordings."""

from __future__ import annotations

import itertools
from collections.abc import Iterable, Iterator, Sequence
from fractions import Fraction
from typing import TYPE_CHECKING, Any, NamedTuple

import numpy as np

from .._public import public
from ..desk.values import Log2
from ..show import tables

if TYPE_CHECKING:
    from numpy.typing import NDArray

Key = tuple[int | str, ...]
Percent = int | float | str | Fraction

# The percentiles of a row.
PERCENTS = (50, 90, 99)
# Products of microseconds and counts may pass 64 bits, so they are summed in two parts: for this many low bits of the
# microseconds, and for the other bits.
LOW_BITS = 26
# How many bits of a number are used when two numbers are joined into one.
BITS = 63


@public
class Greatest(NamedTuple):
    """A key's longest wait; of waits that are equally long, the one that ended first.

    Attributes
    ----------
    micros
        How long it was, in microseconds.
    stamp, cpu, line
        The timestamp, in microseconds, and the place of the switch that ended it.
    name, pid
        The task's name, as that switch has it, and its PID.
    source
        The recording that it is of, if several were counted; otherwise empty.
    """

    micros: int
    stamp: int
    cpu: int
    line: int
    name: str = ""
    source: str = ""
    pid: int = 0


@public
class CountsRow(NamedTuple):
    """The waits that are counted under a key. Times are in microseconds, and None if nothing is counted.

    Attributes
    ----------
    key
        The parts of the key.
    count, total, mean
        How many waits there are, how long they are together, and on average.
    p50, p90, p99
        Percentiles by nearest rank: `p90` is the least value such that at least 90 % of the values are not above it.
    max, greatest
        How long the longest wait is, and which one it is.
    doubtful
        How many waits were doubtful, counted or not.
    """

    key: Key
    count: int  # type: ignore[assignment]
    total: int
    mean: float | None
    p50: int | None
    p90: int | None
    p99: int | None
    max: int | None
    greatest: Greatest | None
    doubtful: int


class CountColumns(NamedTuple):
    """How many waits each key, by its number, has of each length in microseconds: arrays, ordered by key and microseconds, in
    which no pair stands twice and no count is 0."""

    key: NDArray[np.int64]
    micros: NDArray[np.int64]
    count: NDArray[np.int64]  # type: ignore[assignment]


@public
class Counts:
    """Waits counted by key and by length in microseconds, with the longest of each key, and how many were doubtful.

    `Waits.counts` makes it. A key is a tuple of numbers and texts, which `fields` names. What several recordings give is added
    up exactly, so percentiles of all together are exact too. Counts can be pickled, and two are equal if they hold the same.

    | Form | What it gives |
    |---|---|
    | `counts.rows()` | a `CountsRow` for each key, the greatest wait first |
    | `counts.row(key)`, `counts.whole()` | that of one key, or None; that of all keys together |
    | `counts.by("kind")` | the same waits counted by only some of the fields |
    | `counts.merge(other)`, `Counts.merged(many)` | all of them together |
    | `counts.percentile(99.9)`, `counts.longer(1000)`, `counts.histogram()` | of all keys together; with a key, of one |
    """

    def __init__(
        self,
        fields: Sequence[str],
        keys: Sequence[Key],
        columns: CountColumns,
        greatest: Sequence[Greatest | None],
        doubtful: NDArray[np.int64],
    ) -> None:
        """Take sorted keys, columns in which keys stand by their number, and for each key the greatest wait and how many of all
        its waits were doubtful."""
        self.fields = tuple(fields)
        self.keys = tuple(keys)
        self._number = {key: at for at, key in enumerate(self.keys)}
        self._columns = columns
        self._greatest = tuple(greatest)
        self._doubtful = doubtful

    @classmethod
    def empty(cls, fields: Sequence[str]) -> Counts:
        """Return counts of no waits.

        Parameters
        ----------
        fields
            The names of a key's parts.

        Returns
        -------
        Counts
            Counts without a key.
        """
        nothing = np.zeros(0, "int64")
        return cls(fields, (), CountColumns(nothing, nothing, nothing), (), nothing)

    @classmethod
    def merged(cls, many: Iterable[Counts]) -> Counts:
        """Return several counts as one.

        Parameters
        ----------
        many
            Counts by the same fields.

        Returns
        -------
        Counts
            What they count together, key by key.

        Raises
        ------
        ValueError
            If there are none, or if they are counted by different fields.
        """
        parts = list(many)
        fields = {part.fields for part in parts}
        if len(fields) != 1:
            raise ValueError(f"counts by one list of fields can be merged, and these are by {sorted(fields)}")
        return combine(fields.pop(), [(part, part.keys) for part in parts])

    def merge(self, *others: Counts) -> Counts:
        """Return these counts and others as one.

        Parameters
        ----------
        others
            Counts by the same fields.

        Returns
        -------
        Counts
            What they count together, key by key.

        Raises
        ------
        ValueError
            If they are counted by different fields.
        """
        return Counts.merged([self, *others])

    def by(self, *fields: str) -> Counts:
        """Return the same waits, counted by some of the fields.

        Parameters
        ----------
        fields
            The fields; without any, all waits are counted under one key, `()`.

        Returns
        -------
        Counts
            The same waits by these fields.

        Raises
        ------
        ValueError
            If they aren't counted by one of these fields.
        """
        unknown = set(fields) - set(self.fields)
        if unknown:
            raise ValueError(f"these waits aren't counted by {min(unknown)!r}; they are by {', '.join(self.fields)}")
        places = [self.fields.index(field) for field in fields]
        return combine(fields, [(self, [tuple(key[at] for at in places) for key in self.keys])])

    def named(self, source: str) -> Counts:
        """Return the same counts as those of a recording.

        Parameters
        ----------
        source
            The recording, which each longest wait then names.

        Returns
        -------
        Counts
            The same counts.
        """
        greatest = [wait and wait._replace(source=source) for wait in self._greatest]
        return Counts(self.fields, self.keys, self._columns, greatest, self._doubtful)

    # ---- answers

    def __len__(self) -> int:
        return len(self.keys)

    @property
    def count(self) -> int:
        """How many waits are counted."""
        return int(self._columns.count.sum())

    @property
    def doubtful(self) -> int:
        """How many waits were doubtful."""
        return int(self._doubtful.sum())

    def rows(self) -> list[CountsRow]:
        """Return what is counted under each key.

        Returns
        -------
        list of CountsRow
            A row for each key, the longest wait first; of equal ones, the first key. Keys whose waits were all left out
            come last.
        """
        return sorted(self._rows(), key=lambda row: -1 if row.max is None else row.max, reverse=True)

    def row(self, key: Key) -> CountsRow | None:
        """Return what is counted under a key.

        Parameters
        ----------
        key
            The parts of the key, as `fields` names them.

        Returns
        -------
        CountsRow or None
            Its row; None if there is no such key.

        Raises
        ------
        ValueError
            If it is no tuple of as many parts as there are fields.
        """
        part = self._part(key)
        return next(part._rows(), None)

    def whole(self) -> CountsRow:
        """Return what is counted under all keys together.

        Returns
        -------
        CountsRow
            A row with an empty key.
        """
        nothing = CountsRow((), 0, 0, None, None, None, None, None, None, 0)
        return next(self.by()._rows(), nothing)

    def percentile(self, percent: Percent, key: Key | None = None) -> int | None:
        """Return a percentile, in microseconds: the least value such that at least so many per cent of the waits aren't longer.

        Parameters
        ----------
        percent
            Above 0 and at most 100. A number with a point is taken as it is written: 99.9 is 999/10.
        key
            The key whose waits are meant; None for all.

        Returns
        -------
        int or None
            None if there are no waits.

        Raises
        ------
        ValueError
            If `percent` isn't in that range, or the key is no tuple of as many parts as there are fields.
        """
        part = self.by() if key is None else self._part(key)
        values = part._percentiles(percent)
        return values[0] if values else None

    def longer(self, micros: int, key: Key | None = None) -> int:
        """Return how many waits are longer than so many microseconds.

        Parameters
        ----------
        micros
            The number of microseconds.
        key
            The key whose waits are meant; None for all.

        Returns
        -------
        int
            The number of waits.

        Raises
        ------
        ValueError
            If the key is no tuple of as many parts as there are fields.
        """
        columns = (self if key is None else self._part(key))._columns
        return int(columns.count[columns.micros > micros].sum())

    def histogram(self, key: Key | None = None) -> list[tuple[Log2, int]]:
        """Return the waits by power of two, from the least power to the greatest.

        Parameters
        ----------
        key
            The key whose waits are meant; None for all.

        Returns
        -------
        list of tuples
            Pairs of n, whose `low` and `high` are the bounds in microseconds, and how many waits are at most 2^n microseconds
            long and longer than 2^(n-1). For waits of 0 and 1, n is 0.

        Raises
        ------
        ValueError
            If the key is no tuple of as many parts as there are fields.
        """
        columns = (self if key is None else self._part(key))._columns
        if not len(columns.micros):
            return []
        # The number of bits of the microseconds less one; whole numbers below 2^53 are exact as floats.
        powers = np.frexp(np.maximum(columns.micros - 1, 0).astype("float64"))[1]
        counts = np.zeros(int(powers.max()) + 1, "int64")
        np.add.at(counts, powers, columns.count)
        first = int(powers.min())
        return [(Log2(power), count) for power, count in enumerate(counts[first:].tolist(), first)]

    # ---- how

    def _part(self, key: Key) -> Counts:
        """Return the counts of one key only; empty ones if it isn't there. Raises `ValueError` if it has other fields."""
        if not isinstance(key, tuple) or len(key) != len(self.fields):
            raise ValueError(f"a key of these counts is a tuple of {', '.join(self.fields) or 'nothing'}, and not {key!r}")
        at = self._number.get(key)
        if at is None:
            return Counts.empty(self.fields)
        column = self._columns
        part = slice(*column.key.searchsorted([at, at + 1]))
        columns = CountColumns(column.key[part] - at, column.micros[part], column.count[part])
        return Counts(self.fields, [key], columns, [self._greatest[at]], self._doubtful[at : at + 1])

    def _sums(self, numbers: NDArray[np.int64]) -> NDArray[np.int64]:
        """Return the sums by key of some numbers, of which each pair of the columns has one."""
        # Where each key begins in the columns, and after that their length.
        bounds = self._columns.key.searchsorted(np.arange(len(self.keys) + 1))
        return np.diff(np.concatenate([[0], numbers.cumsum()])[bounds])

    def _totals(self) -> list[int]:
        """Return how many microseconds all waits of each key are together."""
        micros, count = self._columns.micros, self._columns.count
        high, low = self._sums((micros >> LOW_BITS) * count), self._sums((micros & ((1 << LOW_BITS) - 1)) * count)
        return [(above << LOW_BITS) + below for above, below in zip(high.tolist(), low.tolist())]

    def _percentiles(self, percent: Percent) -> list[int | None]:
        """Return a percentile of each key; None if a key has no waits."""
        share = Fraction(str(percent)) / 100
        if not 0 < share <= 1:
            raise ValueError(f"a percentile is above 0 and at most 100, and this is {percent}")
        counts = self._sums(self._columns.count).tolist()
        ranks = np.array([-(-count * share.numerator // share.denominator) for count in counts], "int64")
        # How many waits come before those of each key. The pair of a rank is the first one at which the running count reaches
        # this number plus the rank.
        before = np.cumsum([0, *counts])[:-1]
        places = self._columns.count.cumsum().searchsorted(before + ranks)
        return [int(self._columns.micros[at]) if count else None for at, count in zip(places.tolist(), counts)]

    def _rows(self) -> Iterator[CountsRow]:
        """Return the rows, ordered by key."""
        counts, totals = self._sums(self._columns.count).tolist(), self._totals()
        means = [total / count if count else None for total, count in zip(totals, counts)]
        percentiles = [self._percentiles(percent) for percent in PERCENTS]
        most = [wait.micros if wait else None for wait in self._greatest]
        columns = [self.keys, counts, totals, means, *percentiles, most, self._greatest, self._doubtful.tolist()]
        return itertools.starmap(CountsRow, zip(*columns))

    def __eq__(self, other: object) -> bool:
        if not isinstance(other, Counts):
            return NotImplemented
        alike = (self.fields, self.keys, self._greatest) == (other.fields, other.keys, other._greatest)
        pairs = zip([*self._columns, self._doubtful], [*other._columns, other._doubtful])
        return alike and all(np.array_equal(one, another) for one, another in pairs)

    __hash__ = None  # type: ignore[assignment]

    def _display(self) -> tuple[str, tables.Table]:
        """Return what is shown: a title, and the table, with the recordings of the greatest waits if these have any."""
        rows, has_sources = self.rows(), any(wait and wait.source for wait in self._greatest)
        names = [*self.fields, "count", "mean", *(f"p{percent}" for percent in PERCENTS), "max", "doubtful"]
        names += ["where"] * has_sources
        table = tables.table_of(names, len(rows), lambda at: cells_of(rows[at], has_sources))
        return f"histdesk.Counts: {self.count} waits, {self.doubtful} doubtful, {len(self)} keys", table

    def __repr__(self) -> str:
        title, table = self._display()
        return f"{title}\n{tables.in_text(table)}"

    def _repr_html_(self) -> str:
        title, table = self._display()
        return tables.in_html(title, [table])


def cells_of(row: CountsRow, has_source: bool) -> list[object]:
    """Return a row as it is shown; if it has a source, with the recording of the greatest wait and the switch that ended it."""
    mean = None if row.mean is None else round(row.mean)
    wait = row.greatest
    where = [f"{wait.source} {wait.cpu}:{wait.line}" if wait else None] if has_source else []
    return [*row.key, row.count, mean, row.p50, row.p90, row.p99, row.max, row.doubtful, *where]


# ---- how they are made


def count_pairs(key: NDArray[np.int64], micros: NDArray[np.int64]) -> CountColumns:
    """Count pairs, which may be in any order; each counts once."""
    bits = bits_of(micros)
    if bits_of(key) + bits > BITS:
        return sum_pairs(key, micros, np.ones(len(key), "int64"))
    pairs = join_pairs(key, micros, bits)
    pairs.sort()
    starts = starts_of(pairs)
    distinct = pairs[starts].astype("int64")
    return CountColumns(distinct >> bits, distinct & ((1 << bits) - 1), np.diff(starts, append=len(pairs)))


def sum_pairs(key: NDArray[np.int64], micros: NDArray[np.int64], count: NDArray[np.int64]) -> CountColumns:
    """Add up the counts of pairs, which may be in any order and stand there more than once."""
    bits, low = bits_of(micros), micros
    if bits_of(key) + bits > BITS:
        # Numbers in the order of the microseconds will do.
        low = np.unique(micros, return_inverse=True)[1]
        bits = bits_of(low)
    pairs = join_pairs(key, low, bits)
    # This is quick if the pairs of several `CountColumns` stand one after the other, each of them in order.
    order = pairs.argsort(kind="stable")
    pairs = pairs[order]
    starts = starts_of(pairs)
    first = order[starts]
    return CountColumns(key[first], micros[first], np.add.reduceat(count[order], starts) if len(starts) else count)


def bits_of(numbers: NDArray[np.integer[Any]]) -> int:
    """Return how many bits the greatest of some numbers has."""
    return int(numbers.max(initial=0)).bit_length()


def join_pairs(key: NDArray[np.int64], low: NDArray[np.int64], bits: int) -> NDArray[np.integer[Any]]:
    """Return each pair as one number, the key above a number of `bits` bits; in 32 bits if they fit, as these sort quickest."""
    pairs = key << bits | low
    return pairs.astype("u4") if bits_of(pairs) <= 32 else pairs


def starts_of(ascending: NDArray[np.integer[Any]]) -> NDArray[np.intp]:
    """Return where each different one of ascending numbers stands first."""
    is_first = np.ones(len(ascending), bool)
    np.not_equal(ascending[1:], ascending[:-1], out=is_first[1:])
    return np.flatnonzero(is_first)


def combine(fields: Sequence[str], parts: Sequence[tuple[Counts, Sequence[Key]]]) -> Counts:
    """Add up some counts, each with the keys under which its own keys are counted."""
    keys = sorted({key for _, names in parts for key in names})
    number = {key: at for at, key in enumerate(keys)}
    places = [np.array([number[key] for key in names], "int64") for _, names in parts]
    key = [place[part._columns.key] for place, (part, _) in zip(places, parts)]
    columns = [np.concatenate(column) for column in (key, *zip(*(part._columns[1:] for part, _ in parts)))]
    doubtful = np.zeros(len(keys), "int64")
    for place, (part, _) in zip(places, parts):
        np.add.at(doubtful, place, part._doubtful)
    waits = ((to, wait) for part, names in parts for to, wait in zip(names, part._greatest))
    greatest = greatest_of(waits)
    return Counts(fields, keys, sum_pairs(*columns), [greatest.get(key) for key in keys], doubtful)


def greatest_of(waits: Iterable[tuple[Key, Greatest | None]]) -> dict[Key, Greatest]:
    """Return the greatest wait of each key."""
    greatest: dict[Key, Greatest] = {}
    for key, wait in waits:
        if wait is not None and (key not in greatest or order(wait) < order(greatest[key])):
            greatest[key] = wait
    return greatest


def order(wait: Greatest) -> tuple[int, int, int, int, str, str, int]:
    """Return a sort key that puts the longest wait first, and of equal ones the one that ended first."""
    return (-wait.micros, *wait[1:])
