"""Waits as the engine reports them, and what is kept of each."""

from __future__ import annotations

import functools
import tempfile
from collections.abc import Collection, Iterator
from typing import TYPE_CHECKING, Any, NamedTuple, TypeAlias

import numpy as np

from .._schema import WAIT_KINDS
from ..native import layout
from ..native.arrays import WAIT_TYPE, texts_of_names, words_of_names
from ..native.library import library
from ..native.numbering import Numbers
from .text import in_temporary_folder

if TYPE_CHECKING:
    from numpy.typing import NDArray

    # Waits as the library has them, and records of them: arrays of structs.
    Structs: TypeAlias = NDArray[np.void]

# For how many waits there is room at first; how many are given at once; and how many bytes of those put aside are in memory.
ROOM, PART, ASIDE = 1 << 16, 1 << 14, 1 << 22

# The kinds of waits, by their numbers.
KINDS = WAIT_KINDS
# What is kept of a wait, in 48 bytes: its ends, its task, the number of the task's name, the number of its kind, how sure it
# is, and whether its task was left asleep after it began.
RECORD_FIELDS = [
    *((f"{end}_{name}", kind) for end in ("end", "begin") for name, kind in layout.PLACE_FIELDS),
    ("pid", "=i4"),
    ("prio", "=i4"),
    ("name", "=u4"),
    ("kind", "u1"),
    ("doubt", "u1"),
    ("slept", "u1"),
    ("spare", "S1"),
]
# What is alike in a wait of the engine's and in what is kept of it, and where that begins in both: the two ends, and the task
# with its priority.
ALIKE = {"ends": ("V32", "ended_stamp", "end_stamp"), "task": ("V8", "pid")}


class ChosenWaits(NamedTuple):
    """Which waits are chosen: those of these kinds, that ended on these CPUs, and of these tasks, by name or number. None is
    all."""

    kinds: Collection[str] | None = None
    cpus: Collection[int] | None = None
    tasks: Collection[str | int] | None = None

    def is_all(self) -> bool:
        """Return whether all waits are chosen."""
        return self == ChosenWaits()

    def name_numbers(self, names: NDArray[np.object_]) -> list[int]:
        """Return the numbers of the chosen names. `names` are those of tasks, by their numbers in records."""
        chosen = {task for task in self.tasks or () if isinstance(task, str)}
        return [number for number, name in enumerate(names.tolist()) if name in chosen] if chosen else []

    def mask(self, records: Structs, numbers: Collection[int]) -> NDArray[np.bool_]:
        """Return which records are chosen, as a mask. `numbers` are what `name_numbers` returns."""
        mask = np.ones(len(records), bool)
        if self.kinds is not None:
            mask &= np.isin(records["kind"], [KINDS.index(kind) for kind in self.kinds])
        if self.cpus is not None:
            mask &= np.isin(records["end_cpu"], list(self.cpus))
        if self.tasks is not None:
            pids = [task for task in self.tasks if isinstance(task, int)]
            mask &= np.isin(records["name"], list(numbers)) | np.isin(records["pid"], pids)
        return mask


class WaitSink:
    """Takes waits as the engine reports them, and makes records of them (`RECORD_FIELDS`), which go to `take`."""

    def __init__(self, most: int) -> None:
        """Take at most so many waits at once."""
        # For waits as the engine has them.
        self._room = np.empty(most, WAIT_TYPE)
        self.numbers = Numbers(layout.NAME_WORDS)
        # Whether any wait isn't sure, whatever the holes.
        self.is_doubtful = False

    @property
    def name_rows(self) -> NDArray[np.uint64]:
        """The names of tasks as 64-bit words, by their numbers."""
        return self.numbers.rows

    def names(self) -> NDArray[np.object_]:
        """Return the names of tasks, as an array of texts."""
        return texts_of_names(self.name_rows)

    def all(self) -> Structs:
        """Return an array of all records."""
        raise NotImplementedError

    def parts(self) -> Iterator[Structs]:
        """Yield copies of all records, in arrays."""
        raise NotImplementedError

    def portions(self) -> list[Iterator[Structs]]:
        """Return the same in several portions, in order. They may be gone through at once, after `names` was asked for."""
        return [self.parts()]

    def __len__(self) -> int:
        """Return how many waits were taken."""
        raise NotImplementedError

    def copy_waits(self, handle: layout.Handle) -> None:
        """Take the waits that the last call of a desk or a stream reported."""
        start, most = 0, len(self._room)
        count = most
        while count == most:
            count = library.histdesk_waits_copy(handle, start, self._room.ctypes.data, most)
            self.take(self._room[:count])
            start += count

    def take(self, waits: Structs) -> None:
        """Take some waits of the engine's, which are there only during this call."""
        raise NotImplementedError

    def write(self, waits: Structs, records: Structs) -> None:
        """Write the records of as many waits. How sure they are isn't known yet, but for those that can't be sure."""
        copy_alike(waits, records)
        records["name"] = self.numbers.of(words_of_names(waits, "name"))
        records["kind"] = waits["cause"] - 1
        records["slept"] = waits["slept"]
        records["doubt"] = lowest_doubts(records)
        self.is_doubtful |= bool(waits["slept"].any())


class Nobody(WaitSink):
    """Takes no waits."""

    def __init__(self) -> None:
        super().__init__(1)

    def __len__(self) -> int:
        return 0

    def copy_waits(self, handle: layout.Handle) -> None:
        pass

    def parts(self) -> Iterator[Structs]:
        return iter(())


def copy_alike(source: Structs, target: Structs) -> None:
    """Copy what is alike from waits of the engine's to their records, or from records to waits."""
    for field in ALIKE:
        target.view(alike(target.dtype))[field] = source.view(alike(source.dtype))[field]


@functools.lru_cache(maxsize=None)
def alike(kind: np.dtype[Any]) -> np.dtype[np.void]:
    """Return numpy's type of what is alike in waits of the engine's or in records, by their type."""
    fields = kind.fields
    assert fields is not None
    names = [next(name for name in at if name in fields) for _, *at in ALIKE.values()]
    offsets, formats = [fields[name][1] for name in names], [form for form, *_ in ALIKE.values()]
    return np.dtype({"names": list(ALIKE), "formats": formats, "offsets": offsets, "itemsize": kind.itemsize})


def lowest_doubts(records: Structs) -> NDArray[np.int64]:
    """Return how sure waits are at most: likely, if their tasks were left asleep after they began."""
    return np.where(records["slept"] != 0, layout.LIKELY, layout.SURE)


class Kept(WaitSink):
    """What is kept of waits, 48 bytes of each."""

    def __init__(self, most: int) -> None:
        super().__init__(most)
        self._records = np.zeros(ROOM, RECORD_FIELDS)
        self._count = 0

    def __len__(self) -> int:
        return self._count

    def records(self) -> Structs:
        """Return an array of the records."""
        return self._records[: self._count]

    def take(self, waits: Structs) -> None:
        start, self._count = self._count, self._count + len(waits)
        if self._count > len(self._records):
            # In place if it can be: no other array stands on this one's memory yet.
            self._records.resize(max(self._count, len(self._records) * 9 // 8), refcheck=False)
        self.write(waits, self._records[start : self._count])

    def all(self) -> Structs:
        return self.records()

    def parts(self) -> Iterator[Structs]:
        for start in range(0, self._count, PART):
            yield self._records[start : min(start + PART, self._count)].copy()


class Aside(WaitSink):
    """What is kept of waits, put aside until all of them are there: in a temporary file without a name, if they are many."""

    def __init__(self, most: int) -> None:
        super().__init__(most)
        self._records = np.empty(most, RECORD_FIELDS)
        self._file = tempfile.SpooledTemporaryFile(ASIDE)
        self._count = 0

    def __del__(self) -> None:
        if hasattr(self, "_file"):
            self._file.close()

    def __len__(self) -> int:
        return self._count

    def take(self, waits: Structs) -> None:
        records = self._records[: len(waits)]
        self.write(waits, records)
        self._count += len(waits)
        with in_temporary_folder():
            self._file.write(records.view("u1").data)

    def parts(self) -> Iterator[Structs]:
        size = self._records.nbytes
        self._file.seek(0)
        for _ in range(0, self._count, len(self._records)):
            yield np.frombuffer(bytearray(self._file.read(size)), RECORD_FIELDS)


def engine_waits(records: Structs) -> Structs:
    """Return waits as the engine has them, without names, by their records."""
    waits = np.zeros(len(records), WAIT_TYPE)
    copy_alike(records, waits)
    waits["cause"] = records["kind"] + 1
    waits["slept"] = records["slept"]
    return waits
