"""Finds which of some events are at given places."""

from __future__ import annotations

from typing import TYPE_CHECKING, Any

import numpy as np

if TYPE_CHECKING:
    from numpy.typing import NDArray


class Places:
    """Where some events are, no two of them at one place."""

    def __init__(self, cpus: NDArray[np.integer[Any]], lines: NDArray[np.integer[Any]]) -> None:
        """Take the CPUs of events, and their lines on these, from 1."""
        count = int(cpus.max()) + 1 if len(cpus) else 0
        # The last line of each CPU, and where its lines begin in the table below.
        self._last = np.zeros(count + 1, "i8")
        np.maximum.at(self._last, cpus, lines)
        self._starts = np.concatenate([[0], self._last.cumsum()])
        self._index = np.full(int(self._starts[-1]) + 1, -1, "i4")
        self._index[self._starts[cpus] + lines - 1] = np.arange(len(cpus), dtype="i4")

    def index(self, cpus: NDArray[np.integer[Any]], lines: NDArray[np.integer[Any]]) -> NDArray[np.int32]:
        """Return which of these events are at given places: the index of the one at each, and -1 if none is there."""
        # The last CPU of the table has no lines.
        cpus = np.minimum(cpus, len(self._last) - 1)
        is_known = lines <= self._last[cpus]
        index: NDArray[np.int32] = self._index[np.where(is_known, self._starts[cpus] + lines - 1, -1)]
        return index
