"""Waits counted as they come, so that none of them need be kept."""

from __future__ import annotations

import itertools
from typing import TYPE_CHECKING, TypeVar

import numpy as np

from ..native import layout
from ..native.numbering import Numbers
from ..trace.wait_records import KINDS, RECORD_FIELDS
from .counts import CountColumns, Counts, Greatest, Key, count_pairs, starts_of, sum_pairs

if TYPE_CHECKING:
    from numpy.typing import NDArray

    from ..trace.wait_records import Structs

Item = TypeVar("Item", bound=np.generic)

# The field of a record by which waits can be counted; none for the kind by itself.
FIELDS: dict[str, str | None] = {"task": "pid", "name": "name", "cpu": "end_cpu", "prio": "prio", "kind": None}
# How many bits a kind's number has, below what else a key has.
KIND_BITS = 2
# How many pairs of a key and microseconds are added, at least, before they are joined.
LEAST = 1 << 16


class Tally:
    """Counts waits by kind and one of `FIELDS`, and by microsecond, and notes the greatest of each key.

    Of equal waits the one that is added first is the greatest, so they are added in the order in which they ended. Doubtful
    ones are counted by key only, unless it takes them too."""

    def __init__(self, by: str, doubtful: bool = False) -> None:
        """Count by one of `FIELDS`. Raises `ValueError` if it is another word."""
        if by not in FIELDS:
            raise ValueError(f"waits aren't counted by {by!r}; they are by {', '.join(FIELDS)}")
        self._by, self._takes_doubtful = by, doubtful
        # A key's number and its kind's, as one number of 64 bits.
        self._keys = Numbers(1)
        # By the number of a key: how long its greatest wait was (-1 if there is none), that wait, and how many are doubtful.
        self._most = np.zeros(0, "int64")
        self._greatest = np.zeros(0, RECORD_FIELDS)
        self._doubtful = np.zeros(0, "int64")
        # Pairs of a key's number and microseconds: joined ones, and some that aren't joined yet.
        nothing = np.zeros(0, "int64")
        self._pairs = CountColumns(nothing, nothing, nothing)
        self._new: list[CountColumns] = []

    def add(self, records: Structs) -> None:
        """Count some records."""
        key = self._numbers(records)
        micros = records["end_stamp"] - records["begin_stamp"]
        is_doubtful = records["doubt"] != layout.SURE
        if is_doubtful.any():
            self._doubtful += np.bincount(key[is_doubtful], minlength=len(self._doubtful))
            if not self._takes_doubtful:
                sure = ~is_doubtful
                records, key, micros = records[sure], key[sure], micros[sure]
        self._note_greatest(records, key, micros)
        self._new.append(count_pairs(key, micros))
        if sum(len(new.key) for new in self._new) > max(len(self._pairs.key), LEAST):
            self._join()

    def counts(self, names: NDArray[np.object_]) -> Counts:
        """Return what is counted. `names` are those of tasks, by their numbers in records."""
        keys = self._key_list(names)
        order = sorted(range(len(keys)), key=keys.__getitem__)
        places = np.empty(len(keys), "int64")
        places[order] = np.arange(len(keys))
        self._join()
        columns = sum_pairs(places[self._pairs.key], *self._pairs[1:])
        greatest = self._greatest_waits(names)
        fields = ("pid" if self._by == "task" else self._by, "kind")[self._by == "kind" :]
        return Counts(fields, [keys[at] for at in order], columns, [greatest[at] for at in order], self._doubtful[order])

    def _numbers(self, records: Structs) -> NDArray[np.int64]:
        """Return the number of each record's key, and make room for all keys."""
        field = FIELDS[self._by]
        keys = records["kind"].astype("int64")
        if field:
            keys |= records[field].astype("int64") << KIND_BITS
        numbers = self._keys.of(keys.view("u8")[:, None])
        if len(self._keys) > len(self._most):
            room = 2 * len(self._keys)
            self._most, self._doubtful = enlarge(self._most, room, -1), enlarge(self._doubtful, room)
            self._greatest = enlarge(self._greatest, room)
        return numbers.astype("int64")

    def _note_greatest(self, records: Structs, key: NDArray[np.int64], micros: NDArray[np.int64]) -> None:
        """Note the greatest record of each key, if it is greater than those before."""
        greater = np.flatnonzero(micros > self._most[key])
        if len(greater):
            key, micros = key[greater], micros[greater]
            # The first of equal ones.
            order = np.lexsort((-micros, key))
            order = order[starts_of(key[order])]
            self._most[key[order]] = micros[order]
            self._greatest[key[order]] = records[greater[order]]

    def _join(self) -> None:
        """Join all pairs."""
        if self._new:
            # What is joined needn't be in memory twice.
            self._pairs = CountColumns(*(np.concatenate(columns) for columns in zip(self._pairs, *self._new)))
            self._new = []
            self._pairs = sum_pairs(*self._pairs)

    def _key_list(self, names: NDArray[np.object_]) -> list[Key]:
        """Return the keys by their numbers."""
        numbers = self._keys.rows[:, 0].view("int64")
        kinds = [KINDS[kind] for kind in (numbers & ((1 << KIND_BITS) - 1)).tolist()]
        if self._by == "kind":
            return [(kind,) for kind in kinds]
        values = numbers >> KIND_BITS
        return list(zip((names[values] if self._by == "name" else values).tolist(), kinds))

    def _greatest_waits(self, names: NDArray[np.object_]) -> list[Greatest | None]:
        """Return the greatest wait of each key, by the key's number."""
        waits = self._greatest[: len(self._keys)]
        ends = [waits[field].tolist() for field in ("end_stamp", "end_cpu", "end_line")]
        whose = names[waits["name"]].tolist(), itertools.repeat(""), waits["pid"].tolist()
        rows = zip(self._most.tolist(), *ends, *whose)
        return [None if row[0] < 0 else Greatest(*row) for row in rows]


class LastNames:
    """The last name of each task of some waits."""

    def __init__(self) -> None:
        self._pids = Numbers(1)
        # By the number that a PID has in `_pids`.
        self._names = np.zeros(0, "u4")

    def add(self, records: Structs) -> None:
        """Take the names of some records, which come after those that were taken before."""
        tasks = self._pids.of(records["pid"].astype("int64").view("u8")[:, None])
        if len(self._pids) > len(self._names):
            self._names = enlarge(self._names, 2 * len(self._pids))
        # Of several waits of a task the last one stays.
        self._names[tasks] = records["name"]

    def by_pid(self, names: NDArray[np.object_]) -> dict[int, str]:
        """Return the names by PID. `names` are those of tasks, by their numbers in records."""
        pids = self._pids.rows[:, 0].view("int64")
        return dict(zip(pids.tolist(), names[self._names[: len(pids)]].tolist()))


def enlarge(array: NDArray[Item], room: int, start: int = 0) -> NDArray[Item]:
    """Return an array with room for so many items, with `start` in the new ones."""
    copy = np.zeros(room, array.dtype)
    copy[: len(array)] = array
    if start:
        copy[len(array) :] = start
    return copy
