"""How waits differ between several recordings before a change and several after it."""

from __future__ import annotations

from functools import cached_property
from typing import TYPE_CHECKING, Collection, Protocol, Sequence

from .._public import public
from .._schema import DIFFERENCE_ORDERS, WAIT_GROUPS
from ..show import tables
from ..waiting.counts import Counts
from ..waiting.wait_answer import BY, Held
from ..waiting.waits import Waits, chosen_of
from . import permutation
from .permutation import FIGURES, ComparisonRow, FigureComparison, Sample, Splits

if TYPE_CHECKING:
    import pandas  # type: ignore[import]

# How many rows are printed in a notebook or at a prompt.
SHOWN = 20
# How many remarks on recordings are printed one by one.
MOST_REMARKS = 5
# What tables say of a difference.
WITHIN, BEYOND, TOO_FEW = "within the spread of the recordings", "beyond the spread", "apart, but too few recordings to tell"
# The columns of a row's figures, by figure; the tool adds them to CSV and JSON.
FORMS = ("before", "after", "least_before", "least_after", "greatest_before", "greatest_after", "p", "within")
COLUMNS = [f"{name}_{form}" for name in FIGURES for form in FORMS]


class RecordingWaits(Protocol):
    """The waits of a recording, kept or counted, as far as a comparison needs them."""

    @property
    def path(self) -> str | None:
        """The file that the waits are of."""

    @property
    def held(self) -> Held:
        """What the recording holds."""

    @property
    def warning(self) -> str | None:
        """What was lost."""

    @property
    def doubtful(self) -> int:
        """How many of the waits are doubtful."""

    def __len__(self) -> int:
        """Return how many waits there are."""

    def counts(self, by: str = "task", doubtful: bool = False) -> Counts:
        """Return the waits by key."""

    def omissions(self) -> list[str]:
        """Return what the figures lack."""

    def remarks(self) -> list[str]:
        """Return what has to be known besides `omissions` before the numbers are believed."""


@public
class Comparison:
    """How waits differ between several recordings on each side; `diff` makes it. Doubtful waits are left out.

    | Form | What it gives |
    |---|---|
    | `comparison.before`, `comparison.after` | the `Waits` of the recordings of each side |
    | `comparison.whole()` | a `ComparisonRow` of all waits together |
    | `comparison.table("name")` | a `ComparisonRow` for each name and kind; other groups as in `Waits.table` |
    | `comparison.can_tell` | whether there are enough recordings for a test |
    | `comparison.only(kinds="woken", cpus=[2], tasks="init")` | the comparison of some of the waits; see `Waits.only` |
    | `comparison.to_pandas("name")` | a DataFrame of that table |

    The figures of a row are tested by a permutation test (Fisher and Pitman): all recordings are split anew into two sides of
    the same sizes, and `p` is the share of the splits in which some figure differs as clearly. Of several figures and rows, the
    clearest difference of each split counts (Westfall and Young's maxT), so that the chance that any figure of the table is
    reported without a change is at most 5 %, and likewise any figure of `whole`. The test assumes that without a change, each
    recording could as well have been made on the other side. Up to 20,000 splits are all gone through; of more, 9,999 are drawn
    from a fixed seed. A row of a table isn't tested if its key has less than 1 % of the time that all rows waited in all
    recordings, or waits in fewer recordings than the smaller side has.
    """

    def __init__(self, before: Sequence[RecordingWaits], after: Sequence[RecordingWaits]) -> None:
        """Compare the waits of recordings.

        Parameters
        ----------
        before, after
            The recordings of each side. Those without two timestamps have no waits per second, and are left out.

        Raises
        ------
        ValueError
            If a recording is given twice.
        """
        check_distinct([*before, *after])
        self.before, self.after = tuple(before), tuple(after)

    @property
    def can_tell(self) -> bool:
        """Whether there are enough recordings for a test; 4 on each side are enough."""
        return self.splits.can_tell

    @cached_property
    def splits(self) -> Splits:
        """The ways to split the recordings into two sides of the same sizes."""
        before, after = (sum(seconds_of(one) > 0 for one in side) for side in (self.before, self.after))
        return Splits(before, after)

    def only(
        self,
        *,
        kinds: str | Collection[str] | None = None,
        cpus: int | Collection[int] | None = None,
        tasks: str | int | Collection[str | int] | None = None,
    ) -> Comparison:
        """Return the comparison of some of the waits.

        Parameters
        ----------
        kinds
            Only waits of these kinds; None for all.
        cpus
            Only waits that ended on these CPUs; None for all.
        tasks
            Only waits of tasks with these names or PIDs; None for all.

        Returns
        -------
        Comparison
            The comparison of these waits.

        Raises
        ------
        ValueError
            If there is no such kind.
        TypeError
            If the waits were counted, and not kept; if a CPU is no number, or a task neither a name nor a number.
        """
        chosen = chosen_of(kinds, cpus, tasks)
        waits = [[one for one in side if isinstance(one, Waits)] for side in self.sides()]
        sides = [[one.only(**chosen._asdict()) for one in side] for side in waits]
        if sum(map(len, sides)) < sum(map(len, self.sides())):
            raise TypeError("these waits were counted and not kept, so none of them can be selected")
        return Comparison(*sides)

    def sides(self) -> tuple[tuple[RecordingWaits, ...], tuple[RecordingWaits, ...]]:
        """Return the recordings of both sides.

        Returns
        -------
        tuple of tuples
            The recordings before the change, and those after it.
        """
        return self.before, self.after

    # ---- the answers

    def whole(self, by: str = "kind") -> ComparisonRow:
        """Return the figures of all waits together; their test is apart from that of a table.

        Parameters
        ----------
        by
            What the waits are counted by first, as in `table`; the answer is the same.

        Returns
        -------
        ComparisonRow
            Its key is `()`.

        Raises
        ------
        ValueError
            If waits can't be grouped so.
        """
        sides = [[sample.together() for sample in side] for side in self._samples(by)]
        nothing = permutation.without_waits(*map(len, sides))
        (row,) = permutation.test_rows(permutation.rows_of(*sides) or [nothing], self.splits)
        return row

    def table(self, by: str = "name", *, sort: str = "waited") -> list[ComparisonRow]:
        """Return the figures of each key.

        Parameters
        ----------
        by
            What waits are grouped by: `"name"`, `"task"`, `"cpu"`, `"prio"` or `"kind"`; `names` says what a key's parts are.
        sort
            The figure whose change orders the rows: `"waited"` or `"max"`. Rows in which it is beyond the spread come first,
            and rows that aren't tested last.

        Returns
        -------
        list[ComparisonRow]
            A row for each key with waits that aren't doubtful in some recording.

        Raises
        ------
        ValueError
            If rows can't be grouped or sorted so.
        """
        if sort not in DIFFERENCE_ORDERS:
            raise ValueError(f"rows can be sorted by {' or '.join(DIFFERENCE_ORDERS)}, not by {sort!r}")
        samples = self._samples(by)
        rows = permutation.test_rows(permutation.rows_of(*samples), self.splits)
        rows.sort(key=lambda row: (rank_of(row, sort), -abs(row.figure(sort).change or 0), row.key))
        if by != "task":
            return rows
        names = {row.key: row.greatest.name for side in samples for one in side for row in one.counts.rows() if row.greatest}
        return [row._replace(key=(names[row.key], *row.key)) for row in rows]

    def names(self, by: str = "name") -> tuple[str, ...]:
        """Return the names of a key's parts.

        Parameters
        ----------
        by
            As in `table`.

        Returns
        -------
        tuple[str, ...]
            Such as `("name", "kind")`.
        """
        return (*BY[by][0], "kind")

    def _samples(self, by: str) -> tuple[list[Sample], list[Sample]]:
        """Return what is counted in the recordings of both sides, except in those that have no length."""
        if by not in WAIT_GROUPS:
            raise ValueError(f"waits can be grouped by {', '.join(WAIT_GROUPS)}, not by {by!r}")
        before, after = ([Sample(one.counts(by), seconds_of(one)) for one in side if seconds_of(one)] for side in self.sides())
        return before, after

    def to_pandas(self, by: str = "name", *, sort: str = "waited") -> pandas.DataFrame:
        """Return a table as a DataFrame.

        Parameters
        ----------
        by, sort
            As in `table`.

        Returns
        -------
        pandas.DataFrame
            The key's parts, and for each figure its mean, least and greatest value on both sides (`waited_before`,
            `waited_least_before`, `waited_greatest_before`), `waited_p` and `waited_within`.

        Raises
        ------
        ImportError
            If pandas is missing.
        ValueError
            If rows can't be grouped or sorted so.
        """
        import pandas

        frame = pandas.DataFrame(
            [flat_comparison(row) for row in self.table(by, sort=sort)], columns=[*self.names(by), *COLUMNS]
        )
        return frame.astype({name: "boolean" if name.endswith("_within") else "float64" for name in COLUMNS})

    # ---- as people read it

    def lines(self) -> list[str]:
        """Return what is compared, what you need to know before you trust the numbers, and how figures are tested.

        Returns
        -------
        list[str]
            Lines of text.
        """
        lines = [f"{name}: {recordings_of(side)}" for name, side in zip(("before", "after"), self.sides())]
        remarks = [f"{title}: {remark}" for title, one in self._titles() for remark in recording_remarks(one)]
        more = len(remarks) - MOST_REMARKS
        lines += remarks[:MOST_REMARKS] + ([f"and {tables.count_of(more, 'more remark')}"] if more > 0 else [])
        doubts = [sum(one.doubtful for one in side) for side in self.sides()]
        if any(doubts):
            lines.append(f"doubtful waits are left out, {doubts[0]} before and {doubts[1]} after: events were lost meanwhile")
        return [*map(tables.printable, lines), *method_of(self.splits)]

    def _titles(self) -> list[tuple[str, RecordingWaits]]:
        """Return the recordings of both sides, each with its title."""
        return [
            (one.path or f"recording {number} {name}", one)
            for name, side in zip(("before", "after"), self.sides())
            for number, one in enumerate(side, 1)
        ]

    def _output(self) -> tuple[list[str], list[tables.Table], list[str]]:
        """Return what is printed: lines, the tables, and what they lack."""
        shown = [whole_table(self.whole()), comparison_table(self, self.table(), most=SHOWN)]
        omissions = [tables.printable(f"{title}: {told}") for title, one in self._titles() for told in one.omissions()]
        return self.lines(), shown, omissions

    def __repr__(self) -> str:
        lines, shown, foot = self._output()
        return "\n".join(["histdesk.Comparison", *lines, *map(tables.in_text, shown), *foot])

    def _repr_html_(self) -> str:
        lines, shown, foot = self._output()
        return tables.in_html("; ".join(lines), shown, "; ".join(foot))


def rank_of(row: ComparisonRow, sort: str) -> int:
    """Return where a row stands: first if a figure is beyond the spread, last if the row isn't tested."""
    return 0 if row.figure(sort).is_within is False else 1 if row.waited.p is not None else 2


def flat_comparison(row: ComparisonRow) -> list[int | str | float | bool | None]:
    """Return a row's key, and its figures in the order of `COLUMNS`."""
    figures = [row.figure(name) for name in FIGURES]
    return [*row.key, *(value for figure in figures for value in flat_figure(figure))]


def flat_figure(figure: FigureComparison) -> tuple[float | bool | None, ...]:
    """Return what CSV and JSON have of a figure, in the order of `FORMS`."""
    before, after = figure.before, figure.after
    values = (before.mean, after.mean, before.least, after.least, before.greatest, after.greatest)
    return (*values, figure.p, figure.is_within)


# ---- the recordings


def seconds_of(waits: RecordingWaits) -> float:
    """Return how long a recording is, in seconds, from its first event to its last one."""
    return ((waits.held.last or 0) - (waits.held.first or 0)) / permutation.MICROS


def check_distinct(recordings: Sequence[RecordingWaits]) -> None:
    """Check that no recording is given twice, under its own name or another one.

    Raises
    ------
    ValueError
        If two hold as many events and waits from and to the same timestamps.
    """
    known: dict[tuple[Held, int], RecordingWaits] = {}
    for one in recordings:
        mark = (one.held, len(one))
        if mark in known and seconds_of(one):
            names = sorted({waits.path or "a recording without a path" for waits in (one, known[mark])})
            raise ValueError(f"{' and '.join(names)}: the same recording is given twice, and a test would count it twice")
        known[mark] = one


def recording_remarks(waits: RecordingWaits) -> list[str]:
    """Return what has to be known of a recording before the numbers are believed."""
    return waits.remarks() if seconds_of(waits) else ["it has no two timestamps, and so no waits per second; it is left out"]


def recordings_of(side: Sequence[RecordingWaits]) -> str:
    """Return how many recordings a side has, and how long they are."""
    lengths = sorted(seconds_of(one) for one in side)
    events = tables.count_of(sum(one.held.events for one in side), "event")
    if not side:
        return "no recordings"
    span = f"{lengths[0]:.6f} s" if lengths[0] == lengths[-1] else f"{lengths[0]:.6f} to {lengths[-1]:.6f} s"
    return f"{tables.count_of(len(side), 'recording')} of {span}, {events}"


def method_of(splits: Splits) -> list[str]:
    """Return how figures are tested, or why they aren't."""
    before, after = splits.sizes
    if not (before and after):
        return ["a side has no recording that can be compared"]
    if not splits.can_tell:
        chance = f"even the clearest difference comes about by chance in 1 of {round(1 / splits.least)} cases"
        size = permutation.enough_recordings()
        return [
            f"{before} against {tables.count_of(after, 'recording')} are too few for a test: {chance}.",
            f"{size} recordings on each side are enough.",
        ]
    ways = f"all {splits.count}" if splits.is_exact else f"{splits.trials} of the {splits.count:.3g}"
    level = 100 * permutation.LEVEL
    return [
        f"A difference is within the spread of the recordings if p is above {level:g} %: the share of {ways} ways",
        f"to split them into {before} and {after} in which some figure differs as clearly. All waits together are tested by",
        "themselves, and the rows together (permutation test of Fisher and Pitman; maxT of Westfall and Young).",
    ]


# ---- tables


def ranges_of(figures: Sequence[tuple[float | None, float | None, float | None]]) -> list[str]:
    """Return cells of means with the least and the greatest value, below each other."""
    texts = [["" if value is None else tables.rate(value) for value in values] for values in figures]
    widths = [max(map(len, column)) for column in zip(*texts)]
    cells = []
    for mean, least, greatest in texts:
        padded = [text.rjust(width) for text, width in zip((mean, least, greatest), widths)]
        cells.append("{} ({} to {})".format(*padded) if mean else "-")
    return cells


def changes_of(figures: Sequence[FigureComparison]) -> list[str]:
    """Return by how much the means grew, and by what share of what they were."""
    changes = ["" if one.change is None else f"{'+' if one.change >= 0 else ''}{tables.rate(one.change)}" for one in figures]
    relative = [None if one.change is None or not one.before.mean else one.change / one.before.mean for one in figures]
    shares = ["" if share is None else f"({tables.percent(share)})" for share in relative]
    left, right = (max(map(len, texts)) for texts in (changes, shares))
    return [f"{change:>{left}} {share:>{right}}" for change, share in zip(changes, shares)]


def sides_of(figures: Sequence[FigureComparison]) -> list[tuple[str, str, str]]:
    """Return cells of both sides of figures, and of their changes."""
    before, after = (
        ranges_of([(side.mean, side.least, side.greatest) for side in sides])
        for sides in ([one.before for one in figures], [one.after for one in figures])
    )
    return list(zip(before, after, changes_of(figures)))


def verdict_of(figure: FigureComparison) -> str:
    """Return whether a figure differs by more than the recordings do, in words."""
    p = "" if figure.p is None else f" (p {figure.p:.3f})" if figure.p >= 0.001 else f" (p {figure.p:.1g})"
    if figure.is_within is None:
        return "" if figure.change is None else TOO_FEW
    return f"{WITHIN if figure.is_within else BEYOND}{p}"


def whole_table(row: ComparisonRow) -> tables.Table:
    """Return the table of all waits together, with a line for each figure."""
    figures = [row.figure(name) for name in FIGURES]
    cells = zip(FIGURES.values(), sides_of(figures), figures)
    lines: list[Sequence[object]] = [[title, *sides, verdict_of(figure)] for title, sides, figure in cells]
    return tables.Table(["all waits", "before", "after", "change", "difference"], lines, [], 0)


def comparison_table(
    comparison: Comparison, rows: Sequence[ComparisonRow], *, by: str = "name", sort: str = "waited", most: int | None = None
) -> tables.Table:
    """Return the first rows of a table, with the figure by which they are sorted."""
    front = rows[:most]
    title = FIGURES[sort]
    names = [*comparison.names(by), f"{title} before", f"{title} after", "change", "difference"]
    cells = sides_of([row.figure(sort) for row in front]) if front else []
    pairs = zip(front, cells)
    lines: list[Sequence[object]] = [[*row.key, *sides, row_verdict(row, comparison.splits)] for row, sides in pairs]
    return tables.Table(names, lines, [], len(rows) - len(front))


def row_verdict(row: ComparisonRow, splits: Splits) -> str:
    """Return which figures of a row differ by more than the recordings do, in words."""
    beyond = row.beyond()
    if beyond:
        return f"{BEYOND}: {', '.join(FIGURES[name] for name in beyond)}"
    if splits.can_tell and row.waited.p is None:
        is_rare = row.present < min(splits.sizes)
        share = f"under {100 * permutation.LEAST_SHARE:g} % of the time waited"
        why = f"in {row.present} of {sum(splits.sizes)} recordings" if is_rare else share
        return f"not tested: {why}"
    is_apart = any(verdict_of(row.figure(name)) == TOO_FEW for name in FIGURES)
    return TOO_FEW if is_apart and not splits.can_tell else WITHIN
