"""Summaries: how long each task of a recording ran and waited, how often it was switched to, preempted and moved, and how long
each CPU was busy and idle."""

from __future__ import annotations

import contextlib
import itertools
import warnings
from collections import Counter
from typing import TYPE_CHECKING, Any, Iterator, NamedTuple, Sequence, cast

import numpy as np

from .._invocation import tool
from .._public import public
from .._schema import SUMMARY_GROUPS, SWITCH
from ..desk.desk import Desk, Trace
from ..desk.recording import Choice, Recording, path_of, read_whole
from ..show import tables
from ..show.frames import Times, finished
from ..trace.lines import lines_in
from ..trace.losses import LossWarning, reported
from ..trace.stream import Backwards, ReadText, Sums
from ..trace.text import Text
from ..trace.times import Stamp
from .counting import Kinds, put_aside
from .counting import CountBy as CountChoice
from .counts import Counts, CountsRow, combine
from .tally import LastNames, Tally
from .wait_answer import KINDS, About, Answer, doubt_remark, sorted_rows
from .waits import FRAMED, ReadOptions, WatchCall, about_text, answer_of, stream_slice, unknown_of

if TYPE_CHECKING:
    from numpy.typing import NDArray

    from pandas import DataFrame  # type: ignore[import]

# How many bytes at the beginning of a text and at its end are searched for the names of tasks that have no wait.
EDGE = 1 << 20
# How many waits are counted at once.
PORTION = 1 << 14
# How many rows are shown in a notebook or at a prompt.
MOST_ROWS = 20


@public
class TaskSummary(NamedTuple):
    """What a recording sums up to for a task. Times are in microseconds.

    Attributes
    ----------
    task, pid
        The task's last name in the recording, and its PID. The name is `:PID` if the recording doesn't have it.
    run_time
        How long it ran, in runs of which both switches were recorded.
    switches
        How often a CPU switched to it.
    waits, total, mean, p99, max
        How many waits for a processor it had; how long these were together, on average, by the 99th percentile and at most.
        The percentile is by nearest rank: the least wait such that at least 99 % aren't longer. The last three are None if
        there is no wait.
    end_stamp, end_cpu, end_line
        Where the longest of these waits ended; None if there is none.
    preempted
        How often a switch to another task left it while it could run.
    moved
        How often it ran on another CPU than before.
    slept, blocked
        How often a switch left it asleep (in state S or I), or blocked (in state D).
    doubtful
        How many of its waits are doubtful.
    """

    task: str
    pid: int
    run_time: int
    switches: int
    waits: int
    total: int
    mean: float | None
    p99: int | None
    max: int | None
    end_stamp: Stamp | None
    end_cpu: int | None
    end_line: int | None
    preempted: int
    moved: int
    slept: int
    blocked: int
    doubtful: int


@public
class NameSummary(NamedTuple):
    """What a recording sums up to for all tasks of a name. Times are in microseconds.

    Attributes
    ----------
    name
        The last name of these tasks in the recording.
    tasks
        How many tasks these are.
    run_time, switches, waits, total, mean, p99, max, end_stamp, end_cpu, end_line, preempted, moved, slept, blocked, doubtful
        As in `TaskSummary`, of all of them together.
    pid
        The PID of the task with the longest wait; None if there is no wait.
    """

    name: str
    tasks: int
    run_time: int
    switches: int
    waits: int
    total: int
    mean: float | None
    p99: int | None
    max: int | None
    end_stamp: Stamp | None
    end_cpu: int | None
    end_line: int | None
    pid: int | None
    preempted: int
    moved: int
    slept: int
    blocked: int
    doubtful: int


@public
class CpuSummary(NamedTuple):
    """What a recording sums up to for a CPU. Times are in microseconds.

    Attributes
    ----------
    cpu
        Its number.
    busy
        How long it ran tasks: the time from its first switch to its last one, without `idle` and `unknown`.
    idle
        How long it was idle, in runs of task 0 of which both switches were recorded.
    idle_with_waiters
        For how much of that time some task, on whatever CPU, waited for a processor.
    longest
        The most of that time within a single idle run.
    longest_from
        When the first idle run with that much of it began; None if `longest` is 0.
    unknown
        For how much of the time from its first switch to its last one it isn't known what it ran.
    switches
        How many switches it has.
    waits, total, mean, p99, max
        As in `TaskSummary`, of the waits that ended on it.
    end_stamp, end_cpu, end_line, task, pid
        Where the longest of these waits ended, and whose it was; None if there is none.
    doubtful
        How many of these waits are doubtful.
    """

    cpu: int
    busy: int
    idle: int
    idle_with_waiters: int
    longest: int
    longest_from: Stamp | None
    unknown: int
    switches: int
    waits: int
    total: int
    mean: float | None
    p99: int | None
    max: int | None
    end_stamp: Stamp | None
    end_cpu: int | None
    end_line: int | None
    task: str | None
    pid: int | None
    doubtful: int


SummaryRow = TaskSummary | NameSummary | CpuSummary
ROW_TYPES: dict[str, type[SummaryRow]] = {"task": TaskSummary, "name": NameSummary, "cpu": CpuSummary}
assert tuple(ROW_TYPES) == SUMMARY_GROUPS
# The sums of a CPU.
CPU_SUMS = ("cpu", "idle", "idle_with_waiters", "longest", "longest_from", "unknown")
# The sums of a task that its row has as they are.
TASK_SUMS = ("run_time", "switches", "preempted", "moved", "slept", "blocked")


def fields_of(by: str) -> tuple[str, ...]:
    """Return the fields of a row. Raises `ValueError` if there are no such rows."""
    if by not in ROW_TYPES:
        raise ValueError(f"a summary isn't by {by!r}; it is by {', '.join(ROW_TYPES)}")
    return ROW_TYPES[by]._fields


def figure_columns_of(by: str) -> tuple[str, ...]:
    """Return the columns of a table as people read it: `at` and `where` stand for the place of a switch."""
    names = {"end_stamp": "at", "end_cpu": "where", "end_line": None}
    return tuple(name for name in (names.get(field, field) for field in fields_of(by)) if name)


def orders_of(by: str) -> tuple[str, ...]:
    """Return the columns by which rows can be sorted."""
    return tuple(name for name in figure_columns_of(by) if name != "where")


@public
class Summary(Answer):
    """What a recording sums up to, by task, by name and by CPU; `summary` makes it.

    | Form | What it gives |
    |---|---|
    | `answer.tasks`, `answer.names`, `answer.cpus` | a list of `TaskSummary`, `NameSummary` or `CpuSummary` |
    | `answer.table("name", sort="max")` | the same, in another order |
    | `answer.to_pandas("cpu")` | a DataFrame of them |
    | `answer.doubtful`, `answer.likely` | how many waits are doubtful, and how many of these are likely true |
    | `answer.held`, `answer.holes`, `answer.warning` | what was read, and what was lost |
    | `answer.omissions()`, `answer.remarks()` | what was lost or left out, and what else has to be known |

    docs/REFERENCE.md, Sums, has the exact meaning of each figure.
    """

    def __init__(self, about: About, sums: Sums, tallies: Tallies, notes: Notes) -> None:
        """Make the rows of what was read, what it sums up to, its waits, and what was noted of its text."""
        notes.finish()
        self._about = about
        self._by_kind, self._doubtful, self._likely = tallies.by_kind, tallies.doubtful, tallies.likely
        self._takes_doubtful = tallies.takes_doubtful
        nameless = set(sums.tasks["pid"].tolist()) - set(tallies.names)
        names = {**names_in(notes.edges, nameless), **tallies.names}
        self._rows: dict[str, Sequence[SummaryRow]] = {
            "task": task_rows(sums.tasks, tallies.by_task, names),
            "name": name_rows(sums.tasks, tallies.by_task, names),
            "cpu": cpu_rows(sums.cpus, tallies.by_cpu, notes.spans) if notes.has_cpus else [],
        }

    @property
    def doubtful(self) -> int:
        """How many waits are doubtful."""
        return self._doubtful

    @property
    def likely(self) -> int:
        """How many of the doubtful waits are likely true."""
        return self._likely

    @property
    def tasks(self) -> list[TaskSummary]:
        """A row for each task, the one that waited longest in all first."""
        return cast("list[TaskSummary]", self.table("task"))

    @property
    def names(self) -> list[NameSummary]:
        """A row for each name, the one whose tasks waited longest in all first."""
        return cast("list[NameSummary]", self.table("name"))

    @property
    def cpus(self) -> list[CpuSummary]:
        """A row for each CPU, by number."""
        return cast("list[CpuSummary]", self.table("cpu"))

    def table(self, by: str = "task", sort: str | None = None) -> list[SummaryRow]:
        """Return the rows.

        Parameters
        ----------
        by
            `"task"`, `"name"` or `"cpu"`.
        sort
            The column that they are sorted by, or `"at"` for where the longest wait ended: names, PIDs, CPUs and timestamps go
            up, other figures down, and rows without a figure come last. Rows with equal figures are in the usual order: the
            greatest `total` first, and CPUs by number.

        Returns
        -------
        list of TaskSummary, NameSummary or CpuSummary
            The rows, in that order.

        Raises
        ------
        ValueError
            If there is no such column, or there are no such rows.
        """
        orders = orders_of(by)
        rows = sorted_rows(self._rows[by], "cpu" if by == "cpu" else "total")
        if sort is not None and sort not in orders:
            raise ValueError(f"a summary by {by} isn't sorted by {sort!r}; it is by {', '.join(orders)}")
        return rows if sort is None else sorted_rows(rows, sort)

    def to_pandas(self, by: str = "task", sort: str | None = None, *, times: Times = "micros") -> DataFrame:
        """Return the rows as a DataFrame, with names and CPUs as categories.

        Parameters
        ----------
        by, sort
            As for `table`.
        times
            `"micros"` for whole microseconds, `"timedelta"` for `timedelta64`.

        Returns
        -------
        pandas.DataFrame
            A row for each of `table`, with its fields as columns.

        Raises
        ------
        ImportError
            If there is no pandas.
        """
        import pandas

        fields = fields_of(by)
        rows = pandas.DataFrame(self.table(by, sort), columns=fields)
        return finished(rows.astype({field: FRAMED.get(field, "Int64") for field in fields}), times)

    # ---- as people read it

    def lines(self) -> list[str]:
        """Return what was read and what it sums up to in all, in lines of text.

        Returns
        -------
        list of str
            The lines.
        """
        tasks = cast("Sequence[TaskSummary]", self._rows["task"])
        run_time, switches = sum(row.run_time for row in tasks), sum(row.switches for row in tasks)
        ran = f"{tables.count_of(len(tasks), 'task')} ran {run_time} us, in {tables.count_of(switches, 'switch', 'es')}"
        each = ", ".join(f"{count} {kind}" for count, kind in zip(self._by_kind, KINDS))
        took = f"{tables.count_of(sum(self._by_kind), 'wait')} took {sum(row.total for row in tasks)} us: {each}"
        lines = [self.heading(), f"{ran}; {took}; times in microseconds"]
        if self.doubtful:
            lines.append(doubt_remark(self.doubtful, self.likely, self._takes_doubtful))
        return [*lines, *self.remarks()]

    def remarks(self) -> list[str]:
        """Return what a reader has to know before trusting the figures, a line each.

        Returns
        -------
        list of str
            The remarks; none if nothing has to be known.
        """
        remarks = super().remarks()
        if reported(self._about.losses).holes:
            remarks.append("run, busy and idle times across lost events may be false, and switches there aren't counted")
        return remarks

    def _shown(self) -> tuple[list[str], list[tables.Table], list[str]]:
        """Return what is shown: lines, tables, and what these lack."""
        shown = [table_of("task", self.tasks, MOST_ROWS), table_of("cpu", self.cpus, MOST_ROWS)]
        return self.lines(), shown, self.omissions()

    def __repr__(self) -> str:
        lines, shown, foot = self._shown()
        return "\n".join(["histdesk.Summary of " + lines[0], *lines[1:], *map(tables.in_text, shown), *foot])

    def _repr_html_(self) -> str:
        lines, shown, foot = self._shown()
        return tables.in_html("; ".join(lines), shown, "; ".join(foot))


def table_of(by: str, rows: Sequence[SummaryRow], most: int | None) -> tables.Table:
    """Return the first rows as people read them; the column of doubtful waits is there if some are."""
    names = [name for name in figure_columns_of(by) if name != "doubtful" or any(row.doubtful for row in rows)]
    front: list[Sequence[Any]] = [[cell_of(row, name) for name in names] for row in rows[:most]]
    return tables.Table(names, front, [], len(rows) - len(front))


def cell_of(row: SummaryRow, name: str) -> Any:
    """Return the value of a column as people read it."""
    if name == "at":
        return row.end_stamp
    if name == "where":
        return None if row.end_stamp is None else f"{row.end_cpu}:{row.end_line}"
    value = getattr(row, name)
    return round(value, 1) if name == "mean" and value is not None else value


# ---- rows


def wait_figures_of(row: CountsRow | None) -> dict[str, Any]:
    """Return the figures of the waits that are counted in a row, by the names of columns."""
    if row is None:
        row = CountsRow((), 0, 0, None, None, None, None, None, None, 0)
    wait = row.greatest
    stamp, cpu, line = (Stamp(wait.stamp), wait.cpu, wait.line) if wait else (None, None, None)
    return {
        **{"waits": row.count, "total": row.total, "mean": row.mean, "p99": row.p99, "max": row.max},
        **{"end_stamp": stamp, "end_cpu": cpu, "end_line": line, "doubtful": row.doubtful},
    }


def rows_by_key(counts: Counts) -> dict[Any, CountsRow]:
    """Return the rows of counts by one field, by its value."""
    return {row.key[0]: row for row in counts.rows()}


def task_rows(sums: NDArray[Any], waits: Counts, names: dict[int, str]) -> list[TaskSummary]:
    """Return a row for each task."""
    rows = rows_by_key(waits)
    return [
        TaskSummary(task=name_of(pid, names), pid=pid, **own, **wait_figures_of(rows.get(pid)))
        for pid, own in sums_by_task(sums)
    ]


def sums_by_task(sums: NDArray[Any]) -> Iterator[tuple[int, dict[str, Any]]]:
    """Go through the sums of tasks: the PID of each, and its `TASK_SUMS` by name."""
    for pid, *figures in zip(sums["pid"].tolist(), *(sums[field].tolist() for field in TASK_SUMS)):
        yield pid, dict(zip(TASK_SUMS, figures))


def name_rows(sums: NDArray[Any], waits: Counts, names: dict[int, str]) -> list[NameSummary]:
    """Return a row for each name."""
    totals: dict[str, Counter[str]] = {}
    for pid, own in sums_by_task(sums):
        totals.setdefault(name_of(pid, names), Counter()).update(own, tasks=1)
    rows = rows_by_key(combine(("name",), [(waits, [(name_of(int(pid), names),) for (pid,) in waits.keys])]))
    found = []
    for name, total in sorted(totals.items()):
        figures: dict[str, Any] = {**total, **wait_figures_of(rows.get(name))}
        found.append(NameSummary(name=name, pid=greatest_pid(rows.get(name)), **figures))
    return found


def cpu_rows(sums: NDArray[Any], waits: Counts, spans: Spans) -> list[CpuSummary]:
    """Return a row for each CPU."""
    rows = rows_by_key(waits)
    found = []
    for sum_of_cpu in sums:
        cpu, idle, idle_with_waiters, longest, longest_from, unknown = (int(sum_of_cpu[field]) for field in CPU_SUMS)
        row, span = rows.get(cpu), spans.of(cpu)
        wait = row and row.greatest
        found.append(
            CpuSummary(
                cpu=cpu,
                busy=max(span.last - span.first - idle - unknown, 0),
                idle=idle,
                idle_with_waiters=idle_with_waiters,
                longest=longest,
                longest_from=Stamp(longest_from) if longest else None,
                unknown=unknown,
                switches=span.switches,
                task=wait.name if wait else None,
                pid=wait.pid if wait else None,
                **wait_figures_of(row),
            )
        )
    return found


def greatest_pid(row: CountsRow | None) -> int | None:
    """Return the PID of the task with the longest wait of a row; None if there is none."""
    return row.greatest.pid if row and row.greatest else None


def name_of(pid: int, names: dict[int, str]) -> str:
    """Return the name of a task, or what perf calls it if its name isn't known."""
    return names.get(pid, f":{pid}")


# ---- waits


class Tallies:
    """Counts the waits of a recording by task and by CPU, in the order in which they ended."""

    def __init__(self, takes_doubtful: bool) -> None:
        self.takes_doubtful = takes_doubtful
        self._tallies = Tally("task", takes_doubtful), Tally("cpu", takes_doubtful)
        self._last, self._kinds = LastNames(), Kinds(CountChoice("task", takes_doubtful))
        self.by_task, self.by_cpu = Counts.empty(("pid",)), Counts.empty(("cpu",))
        self.names: dict[int, str] = {}

    def add(self, records: Any) -> None:
        """Count some waits, of which it is known how sure they are."""
        for tally in self._tallies:
            tally.add(records)
        self._last.add(records)
        self._kinds.add_all(records)
        self._kinds.add_chosen(records)

    def finish(self, names: Any) -> None:
        """Count all that were added.

        Parameters
        ----------
        names
            The names of tasks, by their numbers in records.
        """
        by_task, by_cpu = self._tallies
        self.by_task, self.by_cpu = by_task.counts(names).by("pid"), by_cpu.counts(names).by("cpu")
        self.names = self._last.by_pid(names)

    @property
    def doubtful(self) -> int:
        """How many of the waits are doubtful."""
        return self.by_task.doubtful

    @property
    def likely(self) -> int:
        """How many of the doubtful waits are likely true."""
        return self._kinds.likely

    @property
    def by_kind(self) -> list[int]:
        """How many waits of each kind are counted."""
        return self._kinds.counts

    @property
    def unknown(self) -> tuple[str, ...]:
        """The kinds that no wait is of."""
        return unknown_of(self._kinds.all)


# ---- what is noted of a text while it is read


class Span(NamedTuple):
    """The timestamps of a CPU's first and last switch, in microseconds, and how many switches it has."""

    first: int = 0
    last: int = 0
    switches: int = 0


class Spans:
    """Notes from when to when each CPU has switches."""

    def __init__(self) -> None:
        self._spans: dict[int, Span] = {}
        self._tail = b""

    def see(self, piece: Any) -> None:
        """Look at the next piece of the text."""
        content = self._tail + bytes(piece)
        end = content.rfind(b"\n") + 1
        self._tail = content[end:]
        self._add(content[:end])

    def finish(self) -> None:
        """Look at a last line without a line break."""
        self._add(self._tail)
        self._tail = b""

    def of(self, cpu: int) -> Span:
        """Return the span of a CPU."""
        return self._spans.get(cpu, Span())

    def _add(self, text: bytes) -> None:
        """Look at whole lines."""
        lines = lines_in(text)
        is_switch = lines.names == SWITCH
        cpus, stamps = lines.cpus[is_switch], lines.stamps[is_switch]
        order = cpus.argsort(kind="stable")
        for cpu, own in zip(np.unique(cpus).tolist(), np.split(stamps[order], np.flatnonzero(np.diff(cpus[order])) + 1)):
            before = self._spans.get(cpu)
            first = int(own[0]) if before is None else before.first
            self._spans[cpu] = Span(first, int(own[-1]), len(own) + (before.switches if before else 0))


class Edges:
    """Keeps the beginning and the end of a text."""

    def __init__(self) -> None:
        self._head = self._tail = b""
        self._size = 0

    def see(self, piece: Any) -> None:
        """Take the next piece of the text."""
        if len(self._head) < EDGE:
            self._head += bytes(piece[: EDGE - len(self._head)])
        self._tail = (self._tail + bytes(piece[-EDGE:]))[-EDGE:]
        self._size += len(piece)

    def text(self) -> bytes:
        """Return the whole lines of both."""
        if self._size <= EDGE:
            return self._head
        return self._head[: self._head.rfind(b"\n") + 1] + self._tail[self._tail.find(b"\n") + 1 :]


def names_in(edges: Edges, pids: set[int]) -> dict[int, str]:
    """Return the last name of each of some tasks at the beginning of a text and at its end, as far as it has one there."""
    if not pids:
        return {}
    recording = read_whole(None, edges.text(), Choice(), True)
    # What was lost isn't reported here.
    recording.is_reported = True
    names: dict[int, str] = {}
    with recording.desk() as desk:
        events = desk.events()
        left, run = (zip(events[f"{side}pid"].tolist(), events[f"{side}comm"]) for side in ("prev_", ""))
        for pid, name in itertools.chain.from_iterable(zip(left, run)):
            if pid in pids and name is not None:
                names[pid] = name
    return names


# ---- how it is made


@public
def summary(trace: Trace | Recording, *, doubtful: bool = False, lenient: bool = False) -> Summary:
    """Sum a recording up: how long each task ran and waited, and how long each CPU was busy and idle.

    The recording is read once, in pieces, and may be of any length.

    Parameters
    ----------
    trace
        A path, the bytes of a trace, or an open file, packed by gzip or not; or what `read` has read of a stretch of time.
    doubtful
        Whether waits that may be false, since events were lost, are counted too.
    lenient
        Whether lines that can't be read are left out.

    Returns
    -------
    Summary
        Its rows by task, by name and by CPU.

    Warns
    -----
    LossWarning
        If lines report that events were lost.

    Raises
    ------
    Refused
        If a line can't be read.
    OSError
        If the file can't be read.
    ValueError
        If it is a recording of perf or trace-cmd, with the tool that converts it; if its events aren't in time order; or if a
        `Recording` holds only some CPUs or events.
    TypeError
        If it is a `Desk`, since what a desk holds isn't summed up; or if it is no trace.
    ImportError
        If there is no numpy.

    >>> answer = summary(b'''
    ... a-1 [0] 1.000100: sched_waking: comm=w pid=42 prio=120 target_cpu=000
    ... a-1 [0] 1.000150: sched_switch: prev_comm=a prev_pid=1 prev_prio=9 prev_state=R ==> next_comm=w next_pid=42 next_prio=8
    ... w-42 [0] 1.000170: sched_switch: prev_comm=w prev_pid=42 prev_prio=8 prev_state=S ==> next_comm=a next_pid=1 next_prio=9
    ... ''')  # doctest: +SKIP
    >>> [(row.task, row.run_time, row.waits, row.total, row.preempted) for row in answer.tasks]  # doctest: +SKIP
    [('w', 20, 1, 50, 0), ('a', 0, 1, 20, 1)]
    """
    if isinstance(trace, Desk):
        raise TypeError("what a desk holds isn't summed up; pass the trace that it was loaded from")
    if isinstance(trace, Recording):
        answer, is_reported = summary_of_recording(trace, SummaryOptions(doubtful, lenient)), trace.is_reported
        trace.is_reported = True
    else:
        answer, is_reported = summary_of_text(trace, SummaryOptions(doubtful, lenient)), False
    if answer.warning and not is_reported:
        warnings.warn(answer.warning, LossWarning, stacklevel=2)
    return answer


class SummaryOptions(NamedTuple):
    """How a recording is summed up.

    Attributes
    ----------
    doubtful
        Whether doubtful waits are counted.
    lenient
        Whether lines that can't be read are left out.
    watch
        What is called with each piece before it is read, or None.
    path
        The path by which the recording is called, if that isn't its own.
    has_cpus
        Whether there are rows of CPUs, which take as much time as all the rest.
    """

    doubtful: bool = False
    lenient: bool = False
    watch: WatchCall | None = None
    path: str | None = None
    has_cpus: bool = True


class Notes:
    """What is noted of a text while it is read, besides what the engine reads."""

    def __init__(self, watch: WatchCall | None, has_cpus: bool) -> None:
        self.spans, self.edges = Spans(), Edges()
        self.has_cpus, self._watch = has_cpus, watch

    def see(self, piece: Any) -> None:
        """Look at the next piece."""
        if self._watch:
            self._watch(piece)
        self.edges.see(piece)
        if self.has_cpus:
            self.spans.see(piece)

    def finish(self) -> None:
        """Take the end of the text."""
        self.spans.finish()


def summary_of_text(trace: Trace, options: SummaryOptions) -> Summary:
    """Sum up a whole text; see `summary`."""
    path = path_of(trace) if options.path is None else options.path
    notes, tallies = Notes(options.watch, options.has_cpus), Tallies(options.doubtful)

    def answer(text: ReadText, _: Text | None) -> Summary:
        with contextlib.closing(text.feed):
            names = text.waits.names()
            for records in text.waits.parts():
                if text.read.losses.holes:
                    text.feed.judge(records)
                tallies.add(records)
            sums = text.feed.sums()
        tallies.finish(names)
        return Summary(about_text(path, text.read, tallies.unknown), sums, tallies, notes)

    read_options = ReadOptions(options.lenient, notes.see, path, keeps=False, sums=True)
    try:
        return cast(Summary, answer_of(answer, put_aside, trace, read_options))
    except Backwards as error:
        raise not_in_order(path, error) from None


def summary_of_recording(recording: Recording, options: SummaryOptions) -> Summary:
    """Sum up a stretch of a text; see `summary`."""
    if recording.choice.cpus is not None or recording.choice.events is not None:
        raise ValueError("a summary needs all events of a stretch of time, and not only some CPUs or events")
    notes, tallies = Notes(options.watch, options.has_cpus), Tallies(options.doubtful)
    part = recording._slice
    if part is None:
        raise not_in_order(recording.path)
    try:
        stream = stream_slice(recording, part, options.lenient, notes.see, True)
    except Backwards as error:
        raise not_in_order(recording.path, error) from None
    assert stream.sums
    for start in range(0, len(stream.records), PORTION):
        tallies.add(stream.records[start : start + PORTION])
    tallies.finish(stream.names)
    about = about_text(recording.path, stream.read, tallies.unknown, recording.lines_from)
    return Summary(about, stream.sums, tallies, notes)


def not_in_order(path: str | None, error: Backwards | None = None) -> ValueError:
    """Return the exception for a text that isn't in time order; `error` has the line that shows it."""
    what = "its events aren't" if error is None else f"line {error} isn't"
    file = " if it is a file" if path == "-" else ""
    message = f"{what} in time order, so it can't be summed up; {tool('waits')} takes such a trace{file}"
    return ValueError(f"{path}: {message}" if path else message)
