"""How waits changed: between recordings, or in one recording without some of its events."""

from __future__ import annotations

import warnings
from functools import cached_property
from typing import TYPE_CHECKING, Callable, Collection, Iterable, Mapping, NamedTuple, Sequence, TypeVar, Union, overload

from .._public import public
from .._schema import DIFFERENCE_ORDERS
from ..desk.desk import Desk, Trace
from ..desk.recording import Recording
from ..show import tables
from ..show.frames import Times, finished
from ..trace.losses import LossWarning
from ..waiting.counts import Counts, CountsRow, Key
from ..waiting.wait_answer import BY
from ..waiting.waits import Waits, chosen_of, waits
from . import permutation
from .fate import Fate, change_of
from .permutation import ComparisonRow, Sample
from .several import Comparison
from .without import Chosen, check_chosen, read_chosen, waits_without

if TYPE_CHECKING:
    import pandas  # type: ignore[import]

    from ..trace.text import Piece

Compared = Union[Trace, Recording, Desk, Waits]
SomeSide = TypeVar("SomeSide", bound=Compared)

# What rows may be sorted by, and the title of the changes of each.
TITLES = dict(zip(DIFFERENCE_ORDERS, ("change of waited/s", "change of max")))
SIDES = ("before", "after")
# How many rows are shown in a notebook or at a prompt.
SHOWN = 20
MICROS = 1_000_000


@public
class Figures(NamedTuple):
    """What is counted of the waits of one side. Times are in microseconds; they are None if there are no waits.

    Attributes
    ----------
    count
        How many waits there are.
    per_second
        How many there are in each second of the recording; None if it has no length.
    waited
        How long all of them took together in each second of the recording; None if it has no length.
    mean, p50, p90, p99, max
        Their mean, percentiles and maximum. `p99` is the least of them such that at least 99 % aren't longer (nearest rank).
    above
        The share, from 0 to 1, of those that are longer than was asked for; None if nothing was asked.
    doubtful
        How many doubtful waits were left out.
    """

    count: int  # type: ignore[assignment]
    per_second: float | None
    waited: float | None
    mean: float | None
    p50: int | None
    p90: int | None
    p99: int | None
    max: int | None
    above: float | None
    doubtful: int


@public
class DifferenceRow(NamedTuple):
    """What is counted under a key on both sides.

    Attributes
    ----------
    key
        The key's parts; empty for all waits together.
    before, after
        The figures of each side.
    """

    key: Key
    before: Figures
    after: Figures

    def change(self, figure: str) -> float:
        """Return by how much a figure grew.

        Parameters
        ----------
        figure
            The figure, by its name in `Figures`.

        Returns
        -------
        float
            The difference; a figure that is None counts as 0.
        """
        before, after = (getattr(side, figure) or 0 for side in (self.before, self.after))
        difference: float = after - before
        return difference


@public
class Struck(NamedTuple):
    """Events that were left out of the recording.

    Attributes
    ----------
    event
        Their name.
    filter
        The filter that selected them; None for all of that name.
    count
        How many events were left out.
    of
        How many events of that name the recording has.
    """

    event: str
    filter: str | None
    count: int  # type: ignore[assignment]
    of: int

    def __str__(self) -> str:
        return f"{self.count} of {self.of} {self.event}" + ("" if self.filter is None else f" if {self.filter}")


@public
class Difference:
    """How waits changed; `diff` makes it. Doubtful waits are left out on both sides.

    | Form | What it gives |
    |---|---|
    | `difference.before`, `difference.after` | the `Waits` of both sides |
    | `difference.struck` | what was taken away, a `Struck` for each of `without`; None for two recordings |
    | `difference.fate` | what became of the waits then, as a `Fate`; None for two recordings |
    | `difference.whole()` | a `DifferenceRow` of all waits together |
    | `difference.table("name")` | a `DifferenceRow` for each name and kind that changed; other groups as in `Waits.table` |
    | `difference.parts("name")` | how much 8 parts of each recording differ among themselves |
    | `difference.only(kinds="woken", cpus=[2], tasks="init")` | the difference of some of the waits; see `Waits.only` |
    | `difference.to_pandas("name")` | a DataFrame of that table |
    """

    def __init__(self, before: Waits, after: Waits, struck: Sequence[Struck] | None = None) -> None:
        """Compare the waits of two recordings, or those of one recording with and without some events.

        Parameters
        ----------
        before, after
            The waits of each side.
        struck
            What was taken away; None for two recordings.
        """
        self.before, self.after = before, after
        self.struck = None if struck is None else tuple(struck)
        # What is counted on both sides, for each grouping of the waits.
        self._groups: dict[str, tuple[SideCounts, SideCounts]] = {}

    @property
    def by(self) -> str:
        """What waits are grouped by if nothing else is asked for: by name for two recordings, since the PIDs of the same tasks
        differ between them, and otherwise by task."""
        return "name" if self.struck is None else "task"

    @property
    def seconds(self) -> tuple[float, float]:
        """How long both recordings are, in seconds, from the first event that was taken to the last one. Without some events, a
        recording is as long as with them."""
        before, after = (((side.held.last or 0) - (side.held.first or 0)) / MICROS for side in (self.before, self.after))
        return before, before if self.struck is not None else after

    def only(
        self,
        *,
        kinds: str | Collection[str] | None = None,
        cpus: int | Collection[int] | None = None,
        tasks: str | int | Collection[str | int] | None = None,
    ) -> Difference:
        """Return the difference of some of the waits.

        Parameters
        ----------
        kinds
            Only waits of these kinds; None for all.
        cpus
            Only waits that ended on these CPUs; None for all.
        tasks
            Only waits of tasks with these names or PIDs; None for all.

        Returns
        -------
        Difference
            The difference of these waits.

        Raises
        ------
        ValueError
            If there is no such kind.
        TypeError
            If a CPU is no number, or a task neither a name nor a number.
        """
        chosen = chosen_of(kinds, cpus, tasks)
        before, after = (side.only(**chosen._asdict()) for side in (self.before, self.after))
        return Difference(before, after, self.struck)

    # ---- the answers

    @cached_property
    def fate(self) -> Fate | None:
        """What became of the waits without the events; None for two recordings."""
        return None if self.struck is None else change_of(self.before, self.after).fate

    def whole(self, *, above: int | None = None) -> DifferenceRow:
        """Return what is counted of all waits together.

        Parameters
        ----------
        above
            As in `table`.

        Returns
        -------
        DifferenceRow
            Its key is `()`.
        """
        # What was counted before needn't be counted again.
        before, after = self._sides(next(iter(self._groups), "kind"))
        return DifferenceRow((), before.together().figures((), above), after.together().figures((), above))

    def table(self, by: str | None = None, *, sort: str = "waited", above: int | None = None) -> list[DifferenceRow]:
        """Return what is counted under each key for which something changed, the greatest change first.

        Parameters
        ----------
        by
            What waits are grouped by, as in `Waits.table`; None for `self.by`. `names` says what a key's parts are.
        sort
            The figure whose change orders the rows: `"waited"`, how long all waits of a row took per second of the recording,
            or `"max"`, the longest wait.
        above
            The figures have the share of the waits that are longer than so many microseconds; None for no share.

        Returns
        -------
        list[DifferenceRow]
            The rows.

        Raises
        ------
        ValueError
            If rows can't be grouped or sorted so.
        """
        if sort not in DIFFERENCE_ORDERS:
            raise ValueError(f"rows can be sorted by {' or '.join(DIFFERENCE_ORDERS)}, not by {sort!r}")
        by = by or self.by
        before, after = self._sides(by)
        keys = {**before.rows, **after.rows}
        rows = [DifferenceRow(key, before.figures(key, above), after.figures(key, above)) for key in keys]
        changes = [row for row in rows if row.before[:-1] != row.after[:-1]]
        changes.sort(key=lambda row: (-abs(row.change(sort)), row.key))
        return [row._replace(key=self._named(row.key)) for row in changes] if by == "task" else changes

    def parts(self, by: str | None = None) -> dict[Key, ComparisonRow]:
        """Return the figures in 8 parts of equal time of each recording.

        If the parts of one recording differ by as much as the recordings do, the change may be chance. They are not 8
        recordings, though: what happens in one part goes on in the next, so they say nothing about the next recording.

        Parameters
        ----------
        by
            As in `table`.

        Returns
        -------
        dict[Key, ComparisonRow]
            By the keys of `table` and by `()`, all waits together: for each figure its values in the parts. It is empty if some
            events of one recording were taken away, since such a difference isn't due to chance.

        Raises
        ------
        ValueError
            If rows can't be grouped so.
        """
        by = by or self.by
        if self.struck is not None:
            return {}
        before, after = self._sides(by, has_parts=True)
        rows = permutation.parts_rows(before.parts, after.parts)
        return {self._named(key): row for key, row in rows.items()} if by == "task" else rows

    def names(self, by: str | None = None) -> tuple[str, ...]:
        """Return the names of a key's parts.

        Parameters
        ----------
        by
            As in `table`.

        Returns
        -------
        tuple[str, ...]
            Such as `("name", "kind")`.
        """
        return (*BY[by or self.by][0], "kind")

    @cached_property
    def _last_names(self) -> dict[int, str]:
        """The last name of each task."""
        return {**self.after._last_names(), **self.before._last_names()}

    def _named(self, key: Key) -> Key:
        """Return a task's key with the task's name in front."""
        return (self._last_names[int(key[0])], *key) if key else key

    def _sides(self, by: str, has_parts: bool = False) -> tuple[SideCounts, SideCounts]:
        """Return what is counted on both sides and, if `has_parts`, in parts of both recordings. If parts are asked for first,
        the waits are counted only once."""
        known = self._groups.get(by)
        if known is None or has_parts and not known[0].has_parts:
            lengths = self.seconds
            before = side_counts(self.before, by, lengths[0], has_parts)
            known = self._groups[by] = before, side_counts(self.after, by, lengths[1], has_parts)
        return known

    def to_pandas(
        self, by: str | None = None, *, sort: str = "waited", above: int | None = None, times: Times = "micros"
    ) -> pandas.DataFrame:
        """Return a table as a DataFrame.

        Parameters
        ----------
        by, sort, above
            As in `table`.
        times
            Whether times are numbers of microseconds, or `timedelta64` (`"timedelta"`).

        Returns
        -------
        pandas.DataFrame
            The key's parts, and each figure of both sides, as `count_before` and `count_after`. Names and CPUs are
            categories.

        Raises
        ------
        ImportError
            If pandas is missing.
        ValueError
            If rows can't be grouped or sorted so.
        """
        import pandas

        rows = [flat(row) for row in self.table(by, sort=sort, above=above)]
        frame = pandas.DataFrame(rows, columns=[*self.names(by), *COLUMNS])
        kinds = {f"{name}_{side}": "Int64" for name in ("p50", "p90", "p99", "max") for side in SIDES}
        kinds.update({f"{name}_{side}": "float64" for name in ("per_second", "waited", "mean", "above") for side in SIDES})
        return finished(frame.astype(kinds), times)

    # ---- as people read it

    def lines(self) -> list[str]:
        """Return what is compared, and what has to be known before the numbers are believed.

        Returns
        -------
        list[str]
            Lines of text.
        """
        before, after = ([side.heading(), *side.remarks()] for side in (self.before, self.after))
        if self.struck is None:
            lines = [*(f"before: {line}" for line in before), *(f"after: {line}" for line in after)]
        else:
            lines = [*before, *(f"without {one}" for one in self.struck), str(self.fate)]
        doubts = [side.doubtful for side in (self.before, self.after)]
        if any(doubts):
            counts = f"{doubts[0]} before and {doubts[1]} after"
            lines.append(f"doubtful waits are left out, {counts}: events of their time may be missing")
        return list(map(tables.printable, lines))

    def _output(self) -> tuple[list[str], tables.Table, list[str]]:
        """Return what is printed: lines, the table, what it means, and what it lacks."""
        parts, rows = self.parts(), self.table()
        table = table_of(self, rows, most=SHOWN, parts=parts)
        sides = [("before: ", self.before), ("after: ", self.after)] if self.struck is None else [("", self.before)]
        omissions = [f"{name}{told}" for name, side in sides for told in side.omissions()]
        return self.lines(), table, [*(parts_lines("waited") if parts else []), *omissions]

    def __repr__(self) -> str:
        lines, table, foot = self._output()
        return "\n".join(["histdesk.Difference", *lines, tables.in_text(table), *foot])

    def _repr_html_(self) -> str:
        lines, table, foot = self._output()
        return tables.in_html("; ".join(lines), [table], " ".join(foot))


class SideCounts:
    """What is counted of the waits of one side.

    Attributes
    ----------
    rows
        The rows by key.
    parts
        What is counted in parts of equal time; empty if the recording has no length.
    has_parts
        Whether the parts were counted.
    """

    def __init__(self, counts: Counts, seconds: float, parts: Sequence[Sample] | None = None) -> None:
        """Take the counts of a recording that is so many seconds long, and those of its parts, if these were counted."""
        self._counts, self._seconds = counts, seconds
        self.rows: dict[Key, CountsRow] = {row.key: row for row in counts.rows()}
        self.has_parts, self.parts = parts is not None, parts or []

    def together(self) -> SideCounts:
        """Return what is counted of all waits together, under the key `()`."""
        return SideCounts(self._counts.by(), self._seconds)

    def figures(self, key: Key, above: int | None) -> Figures:
        """Return the figures of a key, with the share of waits longer than so many microseconds."""
        row = self.rows.get(key) or CountsRow(key, 0, 0, None, None, None, None, None, None, 0)
        share = None if above is None or not row.count else self._counts.longer(above, key) / row.count
        per_second, waited = (number / self._seconds if self._seconds else None for number in (row.count, row.total))
        return Figures(row.count, per_second, waited, row.mean, row.p50, row.p90, row.p99, row.max, share, row.doubtful)


def side_counts(waits: Waits, by: str, seconds: float, has_parts: bool) -> SideCounts:
    """Return what is counted of the waits of one side; if `has_parts`, its parts are counted and added up."""
    parts = permutation.parts_of(waits, by) if has_parts else None
    counts = Counts.merged([part.counts for part in parts]) if parts else waits.counts(by)
    return SideCounts(counts, seconds, parts)


COLUMNS = [f"{name}_{side}" for name in Figures._fields for side in SIDES]
# The columns of how much parts of each recording differ; the tool adds them to CSV and JSON.
SPREAD_COLUMNS = [f"{name}_spread_{side}" for name in permutation.FIGURES for side in SIDES]


def flat(row: DifferenceRow) -> list[int | str | float | None]:
    """Return a row's key, and its figures in the order of `COLUMNS`."""
    return [*row.key, *(figure for pair in zip(row.before, row.after) for figure in pair)]


def spread_columns(difference: Difference) -> list[str]:
    """Return the names of what `flat_spreads` returns; there are none if events were taken away from one recording."""
    return SPREAD_COLUMNS if difference.struck is None else []


def flat_spreads(parts: ComparisonRow | None) -> list[float | None]:
    """Return by how much the parts of each recording differ, in the order of `SPREAD_COLUMNS`."""
    if parts is None:
        return [None] * len(SPREAD_COLUMNS)
    figures = [parts.figure(name) for name in permutation.FIGURES]
    return [side.width for figure in figures for side in (figure.before, figure.after)]


# ---- as people read it


class Column(NamedTuple):
    """A column of a table that has both sides.

    Attributes
    ----------
    title
        Its title.
    figure
        The figure that it shows, by its name in `Figures`.
    form
        Makes the text of a value.
    """

    title: str
    figure: str
    form: Callable[[float], str] = str


def columns_of(difference: Difference, above: int | None) -> list[Column]:
    """Return the columns after the key."""
    is_one = difference.struck is not None
    count = Column("waits", "count") if is_one else Column("waits/s", "per_second", tables.rate)
    share = [] if above is None else [Column(f"above {above}", "above", "{:.3%}".format)]
    whole = [Column(name, name) for name in ("p50", "p90", "p99", "max")]
    return [count, Column("mean", "mean", tables.rate), *whole, *share]


def table_of(
    difference: Difference,
    rows: Sequence[DifferenceRow],
    *,
    by: str | None = None,
    sort: str = "waited",
    above: int | None = None,
    most: int | None = None,
    parts: Mapping[Key, ComparisonRow] | None = None,
) -> tables.Table:
    """Return the first rows of a table, below one of all waits together. A figure that changed is shown on both sides.

    Parameters
    ----------
    difference
        The difference that the table is of.
    rows
        Rows of its `table`.
    by, sort, above
        What the rows were made with.
    most
        How many rows there are at most; None for all.
    parts
        What `Difference.parts` returns; if there are any, columns say how much they differ.
    """
    names = difference.names(by)
    front = [difference.whole(above=above), *rows[:most]]
    keys = [["all", *[None] * (len(names) - 1)], *(row.key for row in rows[:most])]
    columns = columns_of(difference, above)
    pairs = [pair_cells([figures_of(row, column) for row in front]) for column in columns]
    titles = [*names, *(column.title for column in columns), TITLES[sort]]
    cells: list[Sequence[object]] = [*pairs, change_texts_of(front, sort)]
    if parts:
        titles += ["spread before", "spread after", ""]
        cells += spreads_of(front, parts, sort)
    lines: list[Sequence[object]] = [[*key, *line] for key, *line in zip(keys, *cells)]
    return tables.Table(titles, lines, [], len(rows) - len(rows[:most]))


def change_texts_of(rows: Sequence[DifferenceRow], sort: str) -> list[str]:
    """Return by how much the figure by which rows are sorted grew, and by what share of its value before."""
    changes = [f"{row.change(sort):+.0f}" for row in rows]
    values = [getattr(row.before, sort) for row in rows]
    shares = [f"({tables.percent(row.change(sort) / before)})" if before else "" for row, before in zip(rows, values)]
    left, right = (max(map(len, texts)) for texts in (changes, shares))
    return [f"{change:>{left}} {share:>{right}}" for change, share in zip(changes, shares)]


def spreads_of(rows: Sequence[DifferenceRow], parts: Mapping[Key, ComparisonRow], sort: str) -> list[list[object]]:
    """Return columns that say how much the parts of each recording differ in a figure, and in which rows by as much as the two
    recordings do."""
    figures = [parts[row.key].figure(sort) if row.key in parts else None for row in rows]
    widths = [(None, None) if figure is None else (figure.before.width, figure.after.width) for figure in figures]
    is_within = [abs(row.change(sort)) <= max(pair[0] or 0, pair[1] or 0) for row, pair in zip(rows, widths)]
    before, after = ([None if width is None else round(width) for width in side] for side in zip(*widths))
    return [[*before], [*after], ["within" if mark else "" for mark in is_within]]


def parts_lines(sort: str) -> list[str]:
    """Return what the columns of `spreads_of` mean."""
    figure, parts = permutation.FIGURES[sort], permutation.PARTS
    return [
        f"spread: the greatest {figure} less the least of {parts} parts of equal time of a recording.",
        "within: parts of one recording differ by as much as the two recordings do, so the change may be chance.",
        "Parts of one recording are not independent recordings; a test needs several recordings of each side.",
    ]


def figures_of(row: DifferenceRow, column: Column) -> tuple[str, str]:
    """Return the texts of a figure before and after."""
    figures = [getattr(side, column.figure) for side in (row.before, row.after)]
    before, after = ("-" if figure is None else column.form(figure) for figure in figures)
    return before, after


def pair_cells(pairs: Sequence[tuple[str, str]]) -> list[str]:
    """Return the cells of a column, with each side's values aligned; a cell has one number if both sides have the same."""
    left, right = (max(map(len, side)) for side in zip(*pairs))
    return [
        f"{after:>{left + 4 + right}}" if before == after else f"{before:>{left}} -> {after:>{right}}"
        for before, after in pairs
    ]


# ---- how it is computed


@overload
def diff(before: Compared, after: Compared | None = None, *, without: str | Iterable[str] = ()) -> Difference:
    """Compare two recordings, or one with itself without some events."""


@overload
def diff(before: list[SomeSide] | tuple[SomeSide, ...], after: list[SomeSide] | tuple[SomeSide, ...]) -> Comparison:
    """Compare several recordings on each side."""


@public
def diff(
    before: Compared | list[SomeSide] | tuple[SomeSide, ...],
    after: Compared | list[SomeSide] | tuple[SomeSide, ...] | None = None,
    *,
    without: str | Iterable[str] = (),
) -> Difference | Comparison:
    """Return how waits changed.

    From one recording to another: `diff("old.trace", "new.trace")`. In one recording without some of its events:
    `diff("my.trace", without="sched_waking if common_pid == 0")`. The waits are then those of the events that are left, as if
    the others weren't in the recording: without a waking, the task waits from an earlier one on, or its wait is gone. From
    several recordings to several others: `diff(["old1.trace", "old2.trace"], ["new1.trace", "new2.trace"])`. Only this
    last form can tell whether the difference is greater than that between recordings of the same load.

    Parameters
    ----------
    before
        A recording: what `waits` takes, or `Waits`; or several of them, in a list or tuple.
    after
        The other recording, or several of them; None with `without`. A recording may be of any length, as with `waits`.
    without
        The name of an event, with ` if ` and a filter after it if not all of that name are meant, as `Desk.matching` takes it;
        or several of these. The recording is read once.

    Returns
    -------
    Difference | Comparison
        A `Comparison` if `before` or `after` is a list or tuple; otherwise a `Difference`.

    Raises
    ------
    ValueError
        If there is neither `after` nor `without`, or both; if `without` names an event with which no wait begins or ends; if
        one of several recordings is given twice; and as in `waits`.
    Refused
        With number 9 if a filter can't be read; and as in `waits`.
    OSError, ImportError
        As in `waits`.
    TypeError
        If events are to be taken away from several recordings, from a desk or from `Waits`.
    """
    filters = [without] if isinstance(without, str) else list(without)
    if (after is None) == (not filters):
        raise ValueError("a difference is one between two recordings, or of one without some events")
    if isinstance(before, (list, tuple)) or isinstance(after, (list, tuple)):
        if after is None:
            raise TypeError("events are taken away from one recording, not from several")
        return Comparison(waits_on_side(before), waits_on_side(after))
    if after is not None:
        return Difference(waits_on(before), waits_on(after))
    is_reported = isinstance(before, Recording) and before.is_reported
    if isinstance(before, (Desk, Waits)):
        raise TypeError("events are taken away from a recording: a trace, or what read() has read")
    difference = diff_without(before, [read_chosen(text) for text in filters])
    if difference.before.warning and not is_reported:
        warnings.warn(difference.before.warning, LossWarning, stacklevel=2)
    if isinstance(before, Recording):
        before.is_reported = True
    return difference


def waits_on_side(side: Compared | list[SomeSide] | tuple[SomeSide, ...]) -> list[Waits]:
    """Return the waits of each recording of a side, which may be one."""
    return [waits_on(one) for one in side] if isinstance(side, (list, tuple)) else [waits_on(side)]


def waits_on(side: Compared) -> Waits:
    """Return the waits of a recording."""
    return side if isinstance(side, Waits) else waits(side)


def diff_without(
    trace: Trace | Recording,
    chosen: Sequence[Chosen],
    lenient: bool = False,
    watch: Callable[[Piece], None] | None = None,
    path: str | None = None,
) -> Difference:
    """Return how waits change in a recording without some events. The other parameters are those of `waits_without`."""
    # What can't be read is refused before anything takes long.
    check_chosen(chosen)
    before, (after, counts) = waits_without(trace, chosen, lenient, watch, path)
    struck = [Struck(one.event, one.text or None, left_out.count, left_out.of) for one, left_out in zip(chosen, counts)]
    return Difference(before, after, struck)
