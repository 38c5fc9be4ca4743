"""What becomes of a recording's waits without some of its events: how many are gone, and the counts of each task."""

from __future__ import annotations

from collections.abc import Sequence
from typing import TYPE_CHECKING, NamedTuple

import numpy as np

from .._public import public
from ..waiting.counts import CountsRow
from ..waiting.wait_answer import KINDS
from ..waiting.waits import Waits
from .places import Places

if TYPE_CHECKING:
    from numpy.typing import NDArray


@public
class Fate(NamedTuple):
    """What became of a recording's waits without some events.

    Attributes
    ----------
    gone
        How many are gone.
    moved
        How many still end at the same switch, and begin with another event.
    new
        How many are new.
    """

    gone: int
    moved: int
    new: int

    def __str__(self) -> str:
        return f"{self.gone} waits are gone, {self.moved} begin with another event, and {self.new} are new"


class Change(NamedTuple):
    """What became of waits: which of the waits before are gone or have changed, and which of those after are new or have
    changed, both as ascending indices; and how many are gone, moved and new."""

    taken: NDArray[np.int64]
    new: NDArray[np.int64]
    fate: Fate


class WaitCounts(NamedTuple):
    """How many waits there are, and how long they are, in microseconds; doubtful ones are left out."""

    count: int  # type: ignore[assignment]
    total: int
    p50: int
    p99: int
    max: int


class FateRow(NamedTuple):
    """A task and a kind of which a wait has changed, and the counts of these waits before and after; None if there are none."""

    task: str
    pid: int
    kind: str
    before: WaitCounts | None
    after: WaitCounts | None


def change_of(before: Waits, after: Waits, ends: Places | None = None) -> Change:
    """Return what became of the waits of a recording without some events. A wait is identified by the switch that ends it;
    `ends` are the switches that end the waits before, if they are known."""
    was, now = before._records, after._records
    old = (ends or Places(was["end_cpu"], was["end_line"])).index(now["end_cpu"], now["end_line"])
    left = np.flatnonzero(old >= 0)
    old = old[left]
    begins, like = (are_alike(was, old, now, left, fields) for fields in (["begin_cpu", "begin_line"], ["kind", "doubt"]))
    is_taken, is_new = np.ones(len(was), bool), np.ones(len(now), bool)
    is_taken[old[begins & like]] = is_new[left[begins & like]] = False
    fate = Fate(len(was) - len(left), int((~begins).sum()), len(now) - len(left))
    return Change(np.flatnonzero(is_taken), np.flatnonzero(is_new), fate)


def are_alike(
    was: NDArray[np.void],
    old: NDArray[np.int32],
    now: NDArray[np.void],
    new: NDArray[np.int64],
    fields: Sequence[str],
) -> NDArray[np.bool_]:
    """Return for which pairs of records, by their indices, some fields are the same."""
    mask: NDArray[np.bool_] = np.logical_and.reduce([was[field][old] == now[field][new] for field in fields])
    return mask


def fate_rows_of(before: Waits, after: Waits, change: Change) -> list[FateRow]:
    """Return the counts of the tasks and kinds of which waits have changed, by pid and kind."""
    sides = (before, change.taken), (after, change.new)
    keys = np.unique(np.concatenate([keys_of(side._records[at]) for side, at in sides]))
    some = [side[np.isin(side._records["pid"], keys >> 2)] for side, _ in sides]
    names = {**some[1]._last_names(), **some[0]._last_names()}
    was, now = ({row.key: row for row in side.counts("task").rows() if row.count} for side in some)
    pairs = [(key >> 2, KINDS[key & 3]) for key in keys.tolist()]
    return [FateRow(names[key[0]], *key, wait_counts_of(was.get(key)), wait_counts_of(now.get(key))) for key in pairs]


def keys_of(records: NDArray[np.void]) -> NDArray[np.int64]:
    """Return a number for the task and the kind of each wait."""
    keys: NDArray[np.int64] = (records["pid"].astype("i8") << 2) + records["kind"]
    return keys


def wait_counts_of(row: CountsRow | None) -> WaitCounts | None:
    """Return the counts of a row."""
    return row and WaitCounts(*(getattr(row, field) for field in WaitCounts._fields))
