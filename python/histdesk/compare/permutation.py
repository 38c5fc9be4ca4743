"""Whether figures differ more between two sides of recordings than among the recordings of a side.

The test is a permutation test (Fisher, 1935; Pitman, 1937). It splits all recordings anew into two sides of the same sizes,
and asks in how many of these splits the means of a figure are as far apart as in the actual one. It assumes that the recordings
are exchangeable: without a change, each of them could as well have been made on the other side. Several figures are tested at
once by the clearest difference of each split (Westfall and Young, 1993, single-step maxT), so the chance that any of them is
reported without a change is at most `LEVEL`, however many there are and however they depend on each other.
"""

from __future__ import annotations

import itertools
import math
from typing import TYPE_CHECKING, Iterable, Mapping, NamedTuple, Sequence

import numpy as np

from .._public import public
from ..waiting.counts import Counts, Key

if TYPE_CHECKING:
    from numpy.typing import NDArray

    from ..waiting.waits import Waits

# A difference is within the spread if more than this share of all splits has one as clear.
LEVEL = 0.05
# How many splits are all gone through at most; of more, how many are drawn at random, and from which seed.
MOST_SPLITS, DRAWN, SEED = 20_000, 9_999, 1
# Only rows with at least this share of the time that all rows waited are tested: hundreds of others would hide differences.
LEAST_SHARE = 0.01
# How far apart equal differences may be, since they are computed in different orders.
ROUNDING = 1e-9
# How many numbers are computed at once.
NUMBERS_AT_ONCE = 1 << 22
# Into how many parts of equal time one recording is cut.
PARTS = 8
MICROS = 1_000_000

# The figures that are compared, and what tables call them.
FIGURES = {"per_second": "waits/s", "mean": "mean", "p99": "p99", "max": "max", "waited": "waited/s"}


# ---- figures of several recordings


@public
class Spread(NamedTuple):
    """A figure in the recordings of one side.

    Attributes
    ----------
    values
        The figure in each recording, in their order; None if a recording has no waits to take it from.
    """

    values: tuple[float | None, ...]

    @property
    def numbers(self) -> list[float]:
        """The values that aren't None."""
        return [value for value in self.values if value is not None]

    @property
    def mean(self) -> float | None:
        """The mean of the values; None if there are none."""
        return math.fsum(self.numbers) / len(self.numbers) if self.numbers else None

    @property
    def least(self) -> float | None:
        """The least value; None if there are none."""
        return min(self.numbers, default=None)

    @property
    def greatest(self) -> float | None:
        """The greatest value; None if there are none."""
        return max(self.numbers, default=None)

    @property
    def width(self) -> float | None:
        """The greatest value less the least one; None if there are fewer than two."""
        return max(self.numbers) - min(self.numbers) if len(self.numbers) > 1 else None


@public
class FigureComparison(NamedTuple):
    """A figure on both sides.

    Attributes
    ----------
    before, after
        Its values in the recordings of each side.
    p
        The share of all splits of the recordings in which some figure that was tested along with this one differs as clearly;
        None if it wasn't tested.
    """

    before: Spread
    after: Spread
    p: float | None = None

    @property
    def change(self) -> float | None:
        """By how much the mean of the recordings grew; None if a side has no values."""
        before, after = self.before.mean, self.after.mean
        return None if before is None or after is None else after - before

    @property
    def is_within(self) -> bool | None:
        """Whether the difference is within the spread of the recordings.

        If the figure was tested, the test decides. If it wasn't, the difference is within the spread if some value of one side
        lies among those of the other. None if neither says anything.
        """
        if self.p is not None:
            return self.p > LEVEL
        before, after = self.before.numbers, self.after.numbers
        is_overlap = before and after and max(min(before), min(after)) <= min(max(before), max(after))
        return True if is_overlap else None


@public
class ComparisonRow(NamedTuple):
    """The waits of a key, in the recordings of both sides. Times are in microseconds.

    Attributes
    ----------
    key
        The key's parts; empty for all waits together.
    per_second
        How many waits there are in each second of a recording.
    mean, p99, max
        Their mean, 99th percentile and maximum.
    waited
        How long all of them took together in each second of a recording.
    present
        In how many recordings the key has waits.
    """

    key: Key
    per_second: FigureComparison
    mean: FigureComparison
    p99: FigureComparison
    max: FigureComparison
    waited: FigureComparison
    present: int

    def figure(self, name: str) -> FigureComparison:
        """Return a figure by its name.

        Parameters
        ----------
        name
            `"per_second"`, `"mean"`, `"p99"`, `"max"` or `"waited"`.

        Returns
        -------
        FigureComparison
            That figure on both sides.

        Raises
        ------
        ValueError
            If there is no such figure.
        """
        if name not in FIGURES:
            raise ValueError(f"the figures are {', '.join(FIGURES)}, and not {name!r}")
        figure: FigureComparison = getattr(self, name)
        return figure

    def beyond(self) -> list[str]:
        """Return the names of the figures whose difference is beyond the spread of the recordings.

        Returns
        -------
        list[str]
            Names that `figure` takes.
        """
        return [name for name in FIGURES if self.figure(name).is_within is False]


class Sample(NamedTuple):
    """What is counted of the waits of one recording, or of a part of one.

    Attributes
    ----------
    counts
        The waits by key.
    seconds
        How long the recording is, in seconds; above 0.
    """

    counts: Counts
    seconds: float

    def figures(self) -> dict[Key, tuple[float | None, ...]]:
        """Return the figures of each key that has waits, in the order of `FIGURES`."""
        return {
            row.key: (row.count / self.seconds, row.mean, row.p99, row.max, row.total / self.seconds)
            for row in self.counts.rows()
            if row.count
        }

    def together(self) -> Sample:
        """Return what is counted of all waits together, under the key `()`."""
        return self._replace(counts=self.counts.by())


# The figures of a key without waits.
NO_FIGURES: tuple[float | None, ...] = (0.0, None, None, None, 0.0)


def rows_of(before: Sequence[Sample], after: Sequence[Sample]) -> list[ComparisonRow]:
    """Return a row for each key that has waits in some recording; nothing is tested yet.

    Parameters
    ----------
    before, after
        The recordings of each side, counted by the same fields.

    Returns
    -------
    list[ComparisonRow]
        The rows, ordered by key.
    """
    tables = [sample.figures() for sample in (*before, *after)]
    rows = []
    for key in sorted({key for table in tables for key in table}):
        columns = list(zip(*(table.get(key, NO_FIGURES) for table in tables)))
        sides = [FigureComparison(Spread(column[: len(before)]), Spread(column[len(before) :])) for column in columns]
        rows.append(comparison_row_of(key, sides, sum(key in table for table in tables)))
    return rows


def comparison_row_of(key: Key, figures: Iterable[FigureComparison], present: int) -> ComparisonRow:
    """Return a row of figures in the order of `FIGURES`."""
    per_second, mean, p99, most, waited = figures
    return ComparisonRow(key, per_second, mean, p99, most, waited, present)


def without_waits(before: int, after: int) -> ComparisonRow:
    """Return the row of all waits together if no recording has any. The arguments are how many recordings each side has."""
    columns = ((figure,) * (before + after) for figure in NO_FIGURES)
    return comparison_row_of((), (FigureComparison(Spread(column[:before]), Spread(column[before:])) for column in columns), 0)


# ---- parts of one recording


def parts_of(waits: Waits, by: str) -> list[Sample]:
    """Return what is counted in parts of equal time of a recording. A wait belongs to the part in which it ends.

    Parameters
    ----------
    waits
        The waits of the recording.
    by
        What they are counted by, as in `Waits.counts`.

    Returns
    -------
    list[Sample]
        `PARTS` parts in order of time; none if all events of the recording have the same timestamp.
    """
    first, last = waits.held.first, waits.held.last
    if first is None or last is None or first == last:
        return []
    span = last - first
    ends: NDArray[np.int64] = waits._records["end_stamp"]
    # Waits stand in the order in which they ended. A part begins at the first stamp that isn't in the one before.
    starts = ends.searchsorted([first - (-span * number // PARTS) for number in range(1, PARTS)]).tolist()
    bounds = zip([0, *starts], [*starts, len(ends)])
    return [Sample(waits[start:end].counts(by), span / PARTS / MICROS) for start, end in bounds]


def parts_rows(before: Sequence[Sample], after: Sequence[Sample]) -> dict[Key, ComparisonRow]:
    """Return the figures in the parts of two recordings, which are not tested.

    Parameters
    ----------
    before, after
        What `parts_of` returns of each.

    Returns
    -------
    dict[Key, ComparisonRow]
        By key, in which `()` stands for all waits together.
    """
    together = [[part.together() for part in side] for side in (before, after)]
    return {row.key: row for row in (*rows_of(*together), *rows_of(before, after))}


# ---- the test


class Splits:
    """The ways to split recordings into two sides of given sizes.

    Attributes
    ----------
    sizes
        How many recordings there are on each side.
    count
        How many ways there are.
    """

    def __init__(self, before: int, after: int) -> None:
        self.sizes = (before, after)
        self.count = math.comb(before + after, before)

    @property
    def is_exact(self) -> bool:
        """Whether the test goes through all of them, and not through some that are drawn at random."""
        return self.count <= MOST_SPLITS

    @property
    def trials(self) -> int:
        """How many of them the test goes through, the actual one included."""
        return self.count if self.is_exact else DRAWN + 1

    @property
    def least(self) -> float:
        """The share of splits that look as clear as the clearest difference: no p is less.

        If both sides have the same size, exchanging them gives a second split that is as clear as the first.
        """
        before, after = self.sizes
        return max((2 if before == after else 1) / self.count, 1 / self.trials) if before and after else 1.0

    @property
    def can_tell(self) -> bool:
        """Whether there are enough recordings for a test."""
        return self.least <= LEVEL

    def members(self) -> NDArray[np.bool_]:
        """Return which recordings are before, in a row for each split that is gone through, the actual one first."""
        before, after = self.sizes
        total = before + after
        if self.is_exact:
            picks = np.array(list(itertools.combinations(range(total), before)))
            members: NDArray[np.bool_] = np.zeros((len(picks), total), bool)
            np.put_along_axis(members, picks, True, axis=1)
            return members
        order = np.random.default_rng(SEED).random((DRAWN, total)).argsort(axis=1)
        actual = np.arange(total)[None, :] < before
        drawn: NDArray[np.bool_] = np.concatenate([actual, order < before])
        return drawn


def enough_recordings() -> int:
    """Return how many recordings on each side are enough for a test."""
    return next(size for size in itertools.count(1) if Splits(size, size).can_tell)


def p_values(values: NDArray[np.float64], splits: Splits) -> NDArray[np.float64]:
    """Return what share of the splits has a difference as clear as the actual one, for several figures together.

    The clearness of a difference is the share of a figure's sum of squares that lies between the sides. It ranks differences
    of one figure as the difference of the means does, and is the same for a figure in other units.

    Parameters
    ----------
    values
        A row for each recording, those before first, and a column for each figure.
    splits
        The splits of these recordings.

    Returns
    -------
    NDArray[np.float64]
        For each figure, the share of splits in which some figure differs as clearly as this one does in the actual split.
    """
    before, after = splits.sizes
    if not values.shape[1]:
        return np.zeros(0)
    scaled = values - values.mean(axis=0)
    length = np.sqrt((scaled**2).sum(axis=0))
    # A figure that is the same in all recordings differs in no split.
    is_constant = values.max(axis=0) == values.min(axis=0)
    scaled = np.where(is_constant, 0, scaled) / np.where(is_constant, 1, length)
    factor, members = (before + after) / (before * after), splits.members()
    step = max(NUMBERS_AT_ONCE // values.shape[1], 1)
    pieces = (members[start : start + step] for start in range(0, len(members), step))
    clearest = np.concatenate([((piece @ scaled) ** 2).max(axis=1) for piece in pieces]) * factor
    actual = (members[0] @ scaled) ** 2 * factor
    shares = (len(members) - np.sort(clearest).searchsorted(actual - ROUNDING)) / len(members)
    return shares  # type: ignore[no-any-return]


def test_rows(rows: Sequence[ComparisonRow], splits: Splits) -> list[ComparisonRow]:
    """Return rows with what the test says of their figures, all of them tested at once.

    A row is left out of the test if its key has waits in fewer recordings than the smaller side has, or less than `LEAST_SHARE`
    of the time that all rows waited in all recordings. A mean, percentile or maximum is left out if the key has no waits in
    some recording. None of this depends on which recordings are before, so the test is as valid as one of all rows.

    Parameters
    ----------
    rows
        Rows of `rows_of`.
    splits
        The splits of their recordings.

    Returns
    -------
    list[ComparisonRow]
        The same rows, unchanged if there are too few recordings for a test.
    """
    if not splits.can_tell:
        return list(rows)
    places = [(at, name) for at in testable_rows(rows, splits) for name in testable_figures(rows[at])]
    values = [[*side.before.values, *side.after.values] for side in (rows[at].figure(name) for at, name in places)]
    shares = p_values(np.array(values, "float64").reshape(len(values), sum(splits.sizes)).T, splits)
    by_row: dict[int, dict[str, float]] = {}
    for (at, name), share in zip(places, shares.tolist()):
        by_row.setdefault(at, {})[name] = share
    return [with_p(row, by_row.get(at, {})) for at, row in enumerate(rows)]


def testable_rows(rows: Sequence[ComparisonRow], splits: Splits) -> list[int]:
    """Return the indices of the rows that are tested."""
    waited = [math.fsum([*row.waited.before.numbers, *row.waited.after.numbers]) for row in rows]
    least = LEAST_SHARE * math.fsum(waited)
    return [at for at, row in enumerate(rows) if row.present >= min(splits.sizes) and waited[at] >= least]


def testable_figures(row: ComparisonRow) -> Iterable[str]:
    """Return the names of the figures of a row that are tested."""
    return [name for name in FIGURES if None not in (*row.figure(name).before.values, *row.figure(name).after.values)]


def with_p(row: ComparisonRow, shares: Mapping[str, float]) -> ComparisonRow:
    """Return a row with what the test says of some of its figures."""
    return comparison_row_of(row.key, (row.figure(name)._replace(p=shares.get(name)) for name in FIGURES), row.present)
