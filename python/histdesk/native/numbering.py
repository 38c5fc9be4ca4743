"""Small numbers for values that come often but in few forms, such as names of tasks."""

from __future__ import annotations

from typing import TYPE_CHECKING

import numpy as np

if TYPE_CHECKING:
    from numpy.typing import NDArray


# Odd numbers, by which the words of a row are mixed.
FACTORS = (0x9E3779B97F4A7C15, 0xC2B2AE3D27D4EB4F, 0x165667B19E3779F9, 0x27D4EB2F165667C5)
# How many numbers the table has at first, as a power of two, and how many it has at least for each row that is known.
LEAST_BITS, SPARE = 16, 64


class Numbers:
    """Gives each different row of some 64-bit words a number from 0 on, in the order in which rows are first looked up.

    A table has the number of one row for each value of a hash. That row is compared with the one that is looked up, since
    different rows may have the same hash; if it is another one, the row is looked up by its bytes."""

    def __init__(self, words: int) -> None:
        """Take rows of so many words, four at most."""
        self._factors = np.array(FACTORS[:words], "u8")
        self._known: dict[bytes, int] = {}
        self._bits = LEAST_BITS
        self._table = np.zeros(1 << self._bits, "i4")
        self._rows = np.zeros((len(self._table) // SPARE, words), "u8")

    def __len__(self) -> int:
        return len(self._known)

    @property
    def rows(self) -> NDArray[np.uint64]:
        """The rows by their numbers."""
        return self._rows[: len(self)]

    def of(self, rows: NDArray[np.uint64]) -> NDArray[np.int32]:
        """Return the number of each of some rows, which are an array with the words of each."""
        rows = np.ascontiguousarray(rows)
        numbers = self._table[self._places(rows)]
        is_other = self._rows.take(numbers, axis=0) != rows
        if not self._known:
            is_other[:] = True
        if is_other.any():
            others = np.flatnonzero(is_other.any(axis=1))
            numbers[others] = self._look_up(rows[others])
        return numbers

    def _look_up(self, rows: NDArray[np.uint64]) -> NDArray[np.int32]:
        """Return the number of each of some rows by its bytes, and put these numbers into the table."""
        first, codes = distinct_rows(rows, self._hashes(rows))
        rows = rows[first]
        numbers = np.array([self._number(row.tobytes()) for row in rows], "i4")
        self._table[self._places(rows)] = numbers
        return numbers[codes]

    def _number(self, row: bytes) -> int:
        """Return the number of a row by its bytes; a new row gets the next one."""
        number = self._known.setdefault(row, len(self))
        if number == len(self._rows):
            self._grow()
        self._rows[number] = np.frombuffer(row, "u8")
        return number

    def _grow(self) -> None:
        """Make room for twice as many rows."""
        count = len(self._rows)
        rows, self._rows = self._rows, np.zeros((2 * count, self._rows.shape[1]), "u8")
        self._rows[:count] = rows
        self._bits += 1
        self._table = np.zeros(1 << self._bits, "i4")
        self._table[self._places(rows)] = np.arange(count)

    def _hashes(self, rows: NDArray[np.uint64]) -> NDArray[np.uint64]:
        """Return a hash of each row, modulo 2^64, which other rows may have too."""
        hashes: NDArray[np.uint64] = rows @ self._factors
        return hashes

    def _places(self, rows: NDArray[np.uint64]) -> NDArray[np.uint64]:
        """Return where the table has the number of each row."""
        places: NDArray[np.uint64] = self._hashes(rows) >> np.uint64(64 - self._bits)
        return places


def distinct_rows(rows: NDArray[np.uint64], hashes: NDArray[np.uint64]) -> tuple[NDArray[np.intp], NDArray[np.intp]]:
    """Return where each different one of some rows stands first, and which of these each row is, by a hash of each row."""
    _, first, codes = np.unique(hashes, return_index=True, return_inverse=True)
    if not np.array_equal(rows[first][codes], rows):
        _, first, codes = np.unique(rows, axis=0, return_index=True, return_inverse=True)
    return first, codes.reshape(len(rows))
