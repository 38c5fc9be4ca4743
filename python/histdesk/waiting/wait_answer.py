"""What every answer about the waits of a recording has in common: what was read, what was lost, and tables of counts."""

from __future__ import annotations

import itertools
import operator
from collections import namedtuple
from typing import TYPE_CHECKING, Any, NamedTuple, Sequence, TypeVar

from .._schema import BEGINS_WITH, WAIT_GROUPS, WAIT_KINDS
from ..desk.recording import counted_from
from ..show import tables
from ..trace.losses import Hole, Losses, seconds
from ..trace.places import Place
from ..trace.times import Stamp

if TYPE_CHECKING:
    from .counts import Counts, CountsRow

SomeRow = TypeVar("SomeRow")

KINDS = WAIT_KINDS
# The kind of a row that has waits of all kinds.
ALL_KINDS = "all"
# How many tasks a trigger's table of the greatest size has.
SIZE = 131_072

# What waits can be counted by: the names of the first columns, and what a row has about the longest wait after its place.
BY: dict[str, tuple[tuple[str, ...], tuple[str, ...]]] = {
    "task": (("task", "pid"), ()),
    "name": (("name",), ("pid",)),
    "cpu": (("cpu",), ("task", "pid")),
    "prio": (("prio",), ("task", "pid")),
    "kind": ((), ("task", "pid")),
}
assert tuple(BY) == WAIT_GROUPS
FIGURES = ("count", "total", "mean", "p50", "p90", "p99", "max")
ENDED = ("end_stamp", "end_cpu", "end_line")
NAMES = {by: (*keys, "kind", *FIGURES, *ENDED, *after, "doubtful") for by, (keys, after) in BY.items()}
TaskRow, NameRow, CpuRow, PrioRow, KindRow = (namedtuple(f"{by.title()}Row", names) for by, names in NAMES.items())
ROWS: dict[str, Any] = dict(zip(BY, (TaskRow, NameRow, CpuRow, PrioRow, KindRow)))


class Held(NamedTuple):
    """The events that an answer is about.

    Attributes
    ----------
    events
        How many there are.
    first, last
        The first and the last timestamp among them, in microseconds; None if there are no events.
    cpus
        Their CPUs, ascending.
    """

    events: int
    first: Stamp | None
    last: Stamp | None
    cpus: tuple[int, ...]


class About(NamedTuple):
    """What is known about an answer besides its figures.

    Attributes
    ----------
    path
        The file that it is about, or None.
    held
        The events that it is about.
    losses
        The events that were lost.
    rest
        The timestamp in microseconds with which the next part of the recording begins; None if nothing is left.
    unknown
        The kinds of waits that no event began.
    dropped
        How many events that would begin a wait found no room.
    bad_lines, first_bad_line
        How many lines can't be read, and the number of the first one.
    missing, first_missing
        How many events show that a switch is missing although no line reports a loss, and where the first one is; None if
        that isn't known.
    lines_from
        The timestamp in microseconds from which the lines of each CPU are counted; None for the recording's beginning.
    """

    path: str | None
    held: Held
    losses: Losses
    rest: Stamp | None = None
    unknown: tuple[str, ...] = ()
    dropped: int = 0
    bad_lines: int = 0
    first_bad_line: int | None = None
    missing: int | None = 0
    first_missing: Place | None = None
    lines_from: Stamp | None = None


def remarks_of(about: About) -> list[str]:
    """Return what a reader has to know before the figures are believed, a line each."""
    lines = []
    if about.dropped:
        lines.append(f"{about.dropped} waits are missing: of more than {SIZE} tasks, only the first ones are told apart")
    for kind in (kind for kind in ("woken", "preempted") if about.held.events and kind in about.unknown):
        lines.append(f"no {BEGINS_WITH[kind]} began a wait, so nothing is known of {kind} ones")
    if about.missing and about.first_missing:
        lines.append(missing_remark(about.missing, about.first_missing))
    if about.rest is not None:
        lines.append(f"this is a part of the recording; the next one begins at {seconds(about.rest)}")
    if about.lines_from is not None:
        lines.append(counted_from(about.lines_from))
    return lines


def bad_lines_remark(count: int, first: int | None) -> str:
    """Return the remark that so many lines were left out, of which this is the first; empty if none were."""
    if not count:
        return ""
    which = first if count == 1 else f"the first is {first}"
    return f"{tables.count_of(count, 'line')} can't be read and {tables.are(count)} left out: {which}"


def missing_remark(count: int, first: Place) -> str:
    """Return the remark that so many switches are missing, of which this is the first."""
    what = "1 switch was" if count == 1 else f"{count} switches were"
    remark = f"at least {what} not recorded (the first one before {first.cpu}:{first.line})"
    return f"{remark}: waits that such a switch ended are not counted, and others may be too long"


class Answer:
    """What an answer about the waits of a recording says of the recording."""

    _about: About

    @property
    def path(self) -> str | None:
        """The file, or None."""
        return self._about.path

    @property
    def lines_from(self) -> Stamp | None:
        """The timestamp, in microseconds, from which the lines of each CPU are counted; None for the recording's beginning."""
        return self._about.lines_from

    @property
    def held(self) -> Held:
        """How many events the answer is about, from when to when, and the CPUs of these."""
        return self._about.held

    @property
    def holes(self) -> tuple[Hole, ...]:
        """Where events are missing: where lines report that they were lost, and where only events show it."""
        return self._about.losses.holes

    @property
    def warning(self) -> str | None:
        """What lines report lost, in one line; None if they report nothing."""
        return self._about.losses.warning

    @property
    def dropped(self) -> int:
        """How many events that would begin a wait found no room, so that these waits are missing."""
        return self._about.dropped

    @property
    def bad_lines(self) -> int:
        """How many lines were left out because they can't be read."""
        return self._about.bad_lines

    @property
    def first_bad_line(self) -> int | None:
        """The number of the first of these lines, from 1; None if there is none."""
        return self._about.first_bad_line

    @property
    def missing(self) -> int | None:
        """How many switches are missing although no line reports a loss: at how many events another task ran than the one that
        their CPU went to last. None for the waits of a desk, of which that isn't known."""
        return self._about.missing

    @property
    def first_missing(self) -> Place | None:
        """Where the first event that shows such a switch stands; None if there is none."""
        return self._about.first_missing

    def omissions(self) -> list[str]:
        """Return what the figures lack, a line each: the events that were lost, and the lines that were left out because they
        can't be read."""
        return list(filter(None, [self.warning, bad_lines_remark(self.bad_lines, self.first_bad_line)]))

    def remarks(self) -> list[str]:
        """Return what a reader has to know besides `omissions` before the figures are believed, a line each."""
        return remarks_of(self._about)

    def heading(self) -> str:
        """Return which recording, or part of one, the answer is about, in a line."""
        text = extent(self.held)
        return tables.printable(f"{self.path}: {text}" if self.path else text)


class WaitAnswer(Answer):
    """Waits that can be counted, and what is known about them."""

    def __len__(self) -> int:
        """How many waits there are."""
        raise NotImplementedError

    @property
    def doubtful(self) -> int:
        """How many of the waits are doubtful."""
        raise NotImplementedError

    @property
    def likely(self) -> int:
        """How many of the doubtful waits are likely true."""
        raise NotImplementedError

    def counts(self, by: str = "task", doubtful: bool = False) -> Counts:
        """Return the waits counted by kind and by one more thing.

        Parameters
        ----------
        by
            `"task"` (the key has its PID), `"name"`, the `"cpu"` on which they ended, the `"prio"` with which the task ran
            then, or `"kind"` for nothing more.
        doubtful
            Whether doubtful waits are counted too.

        Returns
        -------
        Counts
            How many waits of which length there are under each key.

        Raises
        ------
        ValueError
            If they can't be counted by that.
        """
        raise NotImplementedError

    def _last_names(self) -> dict[int, str]:
        """Return the last name of each task."""
        raise NotImplementedError

    def _by_kind(self, doubtful: bool) -> list[int]:
        """Return how many waits of each kind are counted, with doubtful ones or without them."""
        raise NotImplementedError

    # ---- the table

    def table(
        self, by: str = "task", doubtful: bool = False, *, sort: str | None = None, kinds_apart: bool = True
    ) -> list[Any]:
        """Return the waits as a table, the row with the longest wait first.

        Parameters
        ----------
        by, doubtful
            As for `counts`.
        sort
            The column that rows are sorted by instead, or `"at"` for where the longest wait ended: names, kinds, PIDs, CPUs,
            priorities and timestamps go up, figures go down, and rows without a figure come last.
        kinds_apart
            Whether there is a row for each kind; otherwise a row has all kinds, and `"all"` as its kind.

        Returns
        -------
        list of named tuples
            The key and the kind; `count`, `total`, `mean`, `p50`, `p90`, `p99` and `max`, in microseconds; where the longest
            wait ended (`end_stamp`, `end_cpu`, `end_line`) and whose it was; and how many waits were `doubtful`. Percentiles
            are by nearest rank: `p99` is the least wait such that at least 99 % of the row's waits aren't longer. By
            `"task"`, the name is the one at the longest wait, since a task may change it. Figures are None if all waits of a
            row are doubtful.

        Raises
        ------
        ValueError
            If they can't be counted by that, or there is no such column.
        """
        counts = self.counts(by, doubtful)
        if sort is not None and sort not in orders_of(by):
            raise ValueError(f"waits by {by} aren't sorted by {sort!r}; they are by {', '.join(orders_of(by))}")
        if not kinds_apart:
            counts = counts.by(*(field for field in counts.fields if field != "kind"))
        rows = counts.rows()
        names = self._last_names() if by == "task" and any(row.greatest is None for row in rows) else {}
        table = [self._row(by, row, names, kinds_apart) for row in rows]
        return table if sort is None else sorted_rows(table, sort)

    def _row(self, by: str, row: CountsRow, names: dict[int, str], has_kind: bool) -> Any:
        """Return a row of the table."""
        wait = row.greatest
        ended = (Stamp(wait.stamp), wait.cpu, wait.line) if wait else (None, None, None)
        whose = {"task": wait.name, "pid": wait.pid} if wait else {}
        key: Sequence[Any] = row.key if has_kind else (*row.key, ALL_KINDS)
        if by == "task":
            key = (wait.name if wait else names[key[0]], *key)
        after = [whose.get(field) for field in BY[by][1]]
        figures = (getattr(row, name) for name in FIGURES)
        return ROWS[by](*key, *figures, *ended, *after, row.doubtful)

    # ---- in lines

    def lines(self, doubtful: bool = False) -> list[str]:
        """Return what the waits are of and how many there are of each kind, in lines of text.

        Parameters
        ----------
        doubtful
            Whether doubtful waits are counted.
        """
        counts = self._by_kind(doubtful)
        each = ", ".join(f"{count} {kind}" for count, kind in zip(counts, KINDS))
        lines = [self.heading(), f"{tables.count_of(sum(counts), 'wait')}: {each}; times in microseconds"]
        if self.doubtful:
            lines.append(doubt_remark(self.doubtful, self.likely, doubtful))
        return [*lines, *self.remarks()]


def doubt_remark(count: int, likely: int, are_counted: bool) -> str:
    """Return the remark that so many waits are doubtful, and how many of them are likely true."""
    they, their = ("it", "its") if count == 1 else ("they", "their")
    how = f"counted, though {they}" if are_counted else f"left out: {they}"
    remark = f"{tables.count_of(count, 'doubtful wait')} {tables.are(count)} {how}"
    return f"{remark} may be false, since events of {their} time may be missing{likely_remark(count, likely)}"


def likely_remark(count: int, likely: int) -> str:
    """Return how many of so many doubtful waits are likely true; empty if none is."""
    if not likely:
        return ""
    return f"; {'it' if count == 1 else f'{likely} of them'} {tables.are(likely)} likely true"


def orders_of(by: str) -> tuple[str, ...]:
    """Return the columns by which the rows of a table of waits can be sorted."""
    keys, after = BY[by]
    return (*keys, "kind", *FIGURES, "at", *after, "doubtful")


# ---- rows in order

# Columns that are sorted upwards; all others are figures.
UPWARDS = ("task", "name", "kind", "pid", "cpu", "prio", "at")


def sorted_rows(rows: Sequence[SomeRow], column: str) -> list[SomeRow]:
    """Return rows sorted by a column; rows with equal values stay in order, and those without a value come last.

    Parameters
    ----------
    rows
        Named tuples of one kind.
    column
        Names, kinds, PIDs, CPUs, priorities and `at`, the timestamp at which the longest wait ended, go up; other figures go
        down, so that the greatest comes first.
    """
    field = "end_stamp" if column == "at" else column
    present = [row for row in rows if getattr(row, field) is not None]
    absent = [row for row in rows if getattr(row, field) is None]
    return [*sorted(present, key=operator.attrgetter(field), reverse=column not in UPWARDS), *absent]


# ---- as people read it


def extent(held: Held) -> str:
    """Return how many events there are, from when to when and on which CPUs, in words."""
    if held.first is None or held.last is None:
        return "no events"
    stretch = f"from {seconds(held.first)} to {seconds(held.last)} ({seconds(held.last - held.first)} s)"
    return f"{tables.count_of(held.events, 'event')} {stretch} on CPU{'s' * (len(held.cpus) > 1)} {ranges(held.cpus)}"


def ranges(numbers: Sequence[int]) -> str:
    """Return ascending numbers as ranges: 0-3,6."""
    parts = []
    for _, run in itertools.groupby(enumerate(numbers), lambda pair: pair[1] - pair[0]):
        members = [number for _, number in run]
        parts.append(str(members[0]) if len(members) == 1 else f"{members[0]}-{members[-1]}")
    return ",".join(parts)


def table_of(by: str, rows: Sequence[Any], most: int | None) -> tables.Table:
    """Return the first rows of a table as people read them; the column of doubtful waits is there if some are."""
    keys, after = BY[by]
    has_doubtful = any(row.doubtful for row in rows)
    names = [*keys, "kind", *FIGURES, "at", "where", *after, *["doubtful"] * has_doubtful]
    front: list[Sequence[Any]] = [table_cells(row, after, has_doubtful) for row in rows[:most]]
    return tables.Table(names, front, [], len(rows) - len(front))


def table_cells(row: Any, after: Sequence[str], has_doubtful: bool) -> list[Any]:
    """Return the cells of a row."""
    where = None if row.end_stamp is None else f"{row.end_cpu}:{row.end_line}"
    key = row[: row._fields.index("count")]
    figures = row._replace(mean=None if row.mean is None else round(row.mean, 1))
    last = [getattr(row, name) for name in after] + [row.doubtful] * has_doubtful
    return [*key, *(getattr(figures, name) for name in FIGURES), row.end_stamp, where, *last]
