"""Waits of a text whose parts were read apart, in the order in which they ended."""

from __future__ import annotations

from collections.abc import Iterator
from typing import TYPE_CHECKING, Any

import numpy as np

from .wait_records import RECORD_FIELDS, Kept, WaitSink

if TYPE_CHECKING:
    from numpy.typing import NDArray

    from ..native.numbering import Numbers
    from .wait_records import Structs

# The greatest line that an event can have.
LAST_LINE = (1 << 32) - 1


class PartWaits:
    """The waits of a part that was read apart: those that it reported itself, whose places are counted from its own start, and
    those that the join completed, whose places are those of the whole text."""

    def __init__(self, own: WaitSink, completions: Kept, before: NDArray[np.integer[Any]]) -> None:
        """Take both kinds of waits, and how many events each CPU had before the part, by the CPU's number."""
        self._own, self._completions, self._before = own, completions, before

    def __len__(self) -> int:
        return len(self._own) + len(self._completions)

    @property
    def is_doubtful(self) -> bool:
        """Whether any of them isn't sure, whatever the holes."""
        return self._own.is_doubtful or self._completions.is_doubtful

    def add_names(self, names: Numbers) -> None:
        """Add the names of its tasks to others."""
        names.of(self._own.name_rows)
        names.of(self._completions.name_rows)

    def parts(self, names: Numbers) -> Iterator[Structs]:
        """Yield arrays of all of them. The names of tasks get their numbers among the `names` of the whole text."""
        more = self._completions.records().copy()
        more["name"] = names.of(self._completions.name_rows)[more["name"]]
        start = 0
        for records in rename(self._own, names):
            for end in ("begin", "end"):
                self._move(records, end)
            end_at = start + int(places_in(more[start:], records[-1:])[0])
            yield merge(records, more[start:end_at])
            start = end_at
        if start < len(more):
            yield more[start:]

    def _move(self, structs: Structs, end: str) -> None:
        """Count the lines of an end from the beginning of the whole text."""
        lines = self._before[structs[f"{end}_cpu"]] + structs[f"{end}_line"]
        structs[f"{end}_line"] = np.minimum(lines, LAST_LINE)


class LaterWaits:
    """Waits that follow others of the same text, with its places."""

    def __init__(self, sink: WaitSink) -> None:
        """Take the sink of these waits."""
        self._sink = sink

    def __len__(self) -> int:
        return len(self._sink)

    @property
    def is_doubtful(self) -> bool:
        """Whether any of them isn't sure, whatever the holes."""
        return self._sink.is_doubtful

    def add_names(self, names: Numbers) -> None:
        """Add the names of their tasks to others."""
        names.of(self._sink.name_rows)

    def parts(self, names: Numbers) -> Iterator[Structs]:
        """Yield all of them, as `PartWaits.parts` does."""
        return rename(self._sink, names)


class JoinedWaits:
    """The waits of a text, of which some parts may have been read apart."""

    def __init__(self, first: WaitSink) -> None:
        """Begin with the sink that takes the waits of the text's beginning."""
        self._first = first
        self._parts: list[LaterWaits | PartWaits] = []

    def add(self, part: LaterWaits | PartWaits) -> None:
        """Add the waits that follow."""
        self._parts.append(part)

    def __len__(self) -> int:
        return len(self._first) + sum(map(len, self._parts))

    @property
    def is_doubtful(self) -> bool:
        """Whether any of them isn't sure, whatever the holes."""
        return self._first.is_doubtful or any(part.is_doubtful for part in self._parts)

    def names(self) -> NDArray[np.object_]:
        """Return the names of tasks, as an array of texts."""
        for part in self._parts:
            part.add_names(self._first.numbers)
        return self._first.names()

    def all(self) -> Structs:
        """Return an array of all records."""
        records_of_all, count = np.empty(len(self), RECORD_FIELDS), 0
        for records in self.parts():
            records_of_all[count : count + len(records)] = records
            count += len(records)
        return records_of_all

    def parts(self) -> Iterator[Structs]:
        """Yield copies of all records, in arrays."""
        for portion in self.portions():
            yield from portion

    def portions(self) -> list[Iterator[Structs]]:
        """Return the same in several portions, in order, which may be gone through at once after `names` was called."""
        return [self._first.parts(), *(part.parts(self._first.numbers) for part in self._parts)]


def rename(sink: WaitSink, names: Numbers) -> Iterator[Structs]:
    """Yield all records of a sink, with the numbers that their names have among `names`."""
    own_names = names.of(sink.name_rows)
    for records in sink.parts():
        records["name"] = own_names[records["name"]]
        yield records


def merge(records: Structs, more: Structs) -> Structs:
    """Merge two arrays of records, both in the order in which their waits ended."""
    if not len(more):
        return records
    where = places_in(records, more) + np.arange(len(more))
    result = np.empty(len(records) + len(more), records.dtype)
    is_own = np.ones(len(result), bool)
    is_own[where] = False
    result[where], result[is_own] = more, records
    return result


def places_in(records: Structs, others: Structs) -> NDArray[np.intp]:
    """Return how many records come before each of some others, by where their waits ended; no two ended at one place."""
    stamps = records["end_stamp"]
    places, most = stamps.searchsorted(others["end_stamp"]), stamps.searchsorted(others["end_stamp"], side="right")
    for number in np.flatnonzero(places < most).tolist():
        other = others[number]
        equal = records[places[number] : most[number]]
        is_before = (equal["end_cpu"] < other["end_cpu"]) | (
            (equal["end_cpu"] == other["end_cpu"]) & (equal["end_line"] < other["end_line"])
        )
        places[number] += int(is_before.sum())
    return places
