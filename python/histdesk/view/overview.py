"""The timeline of all CPUs of a recording: in each of so many equal parts of a stretch of time, how long each CPU ran tasks,
how long it idled, and how long it did so while a task waited for a processor; and how many tasks waited. Needs numpy.

Sums are kept from the beginning up to each run, so that an answer takes two look-ups for each part, however many events lie in
it."""

from __future__ import annotations

import base64
from typing import TYPE_CHECKING, Any, Literal, NamedTuple, Union

import numpy as np
from numpy.typing import NDArray

from .runs import FIRST, IDLE, SHORT, UNKNOWN, RunLane, Runs, RunTask, RunTimes, time_type

if TYPE_CHECKING:
    from .timeline import Json

# Sums of times, in microseconds: floating-point numbers if the product of all tasks and all the time doesn't fit into 64 bits.
Areas = NDArray[Union[np.int64, np.float64]]
# The most parts that a stretch of time is divided into.
WIDEST = 8192
# How many of the longest stretches of idle time with waiters are reported at most.
WORST = 20
# The numbers that stay the same in an answer, which numbers its own tasks: those of what is no task.
ALIKE = (IDLE, UNKNOWN)
# A share of a part is reported as a number up to this.
WHOLE = 255


class Waiting:
    """How many tasks waited for a processor at each time; times are in microseconds since the recording's first event.

    Between two steps, the number stays the same."""

    def __init__(self, begins: NDArray[np.int64], ends: NDArray[np.int64], length: int) -> None:
        """Take the times at which waits begin and end, in any order, and how long the recording is."""
        at = np.concatenate([begins, ends])
        order = at.argsort(kind="stable")
        at, changes = at[order], np.where(order < len(begins), 1, -1).cumsum()
        is_last = np.append(at[1:] != at[:-1], True) if len(at) else np.zeros(0, bool)
        self.at = np.append(0, at[is_last]).astype(time_type(length))
        self.count = np.append(0, changes[is_last]).astype("u4")
        spans = np.diff(self.at.astype("i8"))
        # For how long some task waited before each step, and how long all tasks did together.
        self.some = np.append(0, (spans * (self.count[:-1] > 0)).cumsum()).astype(self.at.dtype)
        exact = "i8" if length * max(int(self.count.max()), 1) < 1 << 62 else "f8"
        self.area = np.append(0, (spans.astype(exact) * self.count[:-1]).cumsum())

    def step(self, at: NDArray[np.int64]) -> NDArray[np.int64]:
        """Return, for each of some times, the last step that isn't after it."""
        return self.at.searchsorted(at.astype(self.at.dtype), "right") - 1

    def some_before(self, at: NDArray[np.int64]) -> NDArray[np.int64]:
        """Return, for each of some times, how long some task waited before it."""
        step = self.step(at)
        result: NDArray[np.int64] = self.some[step].astype("i8") + (at - self.at[step].astype("i8")) * (self.count[step] > 0)
        return result

    def area_before(self, at: NDArray[np.int64]) -> Areas:
        """Return how long all tasks together waited before each of some times."""
        step = self.step(at)
        result: Areas = self.area[step] + (at - self.at[step].astype("i8")) * self.count[step]
        return result

    def most_in(self, begins: NDArray[np.int64], ends: NDArray[np.int64]) -> NDArray[np.uint32]:
        """Return the greatest number of tasks that waited at once in some stretches, which begin and end at these times."""
        first, after = self.step(begins), self.at.searchsorted(ends.astype(self.at.dtype), "left")
        return greatest_in(self.count, first, np.maximum(after, first + 1))

    def most_between(self, edges: NDArray[np.int64]) -> NDArray[np.uint32]:
        """Return the greatest number of tasks that waited at once between each two edges that follow one another."""
        return self.most_in(edges[:-1], edges[1:])


class CellSums:
    """A lane, and for each of its runs, how long the CPU idled before it, and how long it did so while a task waited.

    If the CPU idles in a run, what grows with the time has already been subtracted: when the run begins, and for how long a
    task had waited then. So an answer is what is kept plus what grows. Numbers of 32 bits may overflow on the way; the answer
    fits again."""

    def __init__(self, lane: RunLane, length: int, waiting: Waiting) -> None:
        self.lane, self.length = lane, length
        time = lane.begin.dtype
        bounds = np.append(lane.begin.astype("i8"), length)
        spans, is_idle = np.diff(bounds), lane.task == IDLE
        some = waiting.some_before(bounds)
        micros = np.diff(some) * is_idle
        self.idle = ((spans * is_idle).cumsum() - (spans + bounds[:-1]) * is_idle).astype(time)
        self.waited = (micros.cumsum() - micros - some[:-1] * is_idle).astype(time)
        # For how long a task waited in each run in which the CPU idles.
        self.micros = micros.astype(time)
        # Few runs are of something unknown.
        lost = np.flatnonzero(lane.task == UNKNOWN)
        self.lost_begin, self.lost_span = lane.begin[lost], spans[lost]
        self.lost_sum = np.append(0, spans[lost].cumsum())

    def run(self, at: RunTimes, side: Literal["left", "right"] = "right") -> NDArray[np.int64]:
        """Return the run at each of some times; with `left`, the one just before it. The times have the type of the lane's."""
        return self.lane.begin.searchsorted(at, side) - 1

    def lost_before(self, at: RunTimes) -> NDArray[np.int64]:
        """Return for how long before each of some times it isn't known what the CPU did."""
        if not len(self.lost_begin):
            return np.zeros(len(at), "i8")
        last = self.lost_begin.searchsorted(at, "right") - 1
        inside = np.minimum(at.astype("i8") - self.lost_begin[last], self.lost_span[last])
        return np.where(last < 0, 0, self.lost_sum[last] + inside)

    def end(self, run: NDArray[np.int64]) -> NDArray[np.int64]:
        """Return when each of some runs ends."""
        after = np.minimum(run + 1, len(self.lane.begin) - 1)
        return np.where(run + 1 < len(self.lane.begin), self.lane.begin[after].astype("i8"), self.length)


class Cells(NamedTuple):
    """A stretch of time in parts, for each CPU; all times are in microseconds.

    Attributes
    ----------
    edges
        Where the parts begin, and where the last one ends, since the recording's first event.
    idle
        How long each CPU idled in each part: a row for each CPU.
    waited
        For how much of that time a task waited for a processor.
    unknown
        For how much of each part it isn't known what the CPU did. In the rest it ran tasks.
    task
        The number of the task with the longest run within the part, `IDLE` if none ran.
    most
        The most tasks that waited at once in each part.
    area
        How long all tasks together waited in each part.
    """

    edges: NDArray[np.int64]
    idle: NDArray[np.int64]
    waited: NDArray[np.int64]
    unknown: NDArray[np.int64]
    task: NDArray[np.uint32]
    most: NDArray[np.uint32]
    area: Areas

    @property
    def busy(self) -> NDArray[np.int64]:
        """How long each CPU ran tasks in each part."""
        result: NDArray[np.int64] = np.diff(self.edges) - self.idle - self.unknown
        return result


class EdgeRuns(NamedTuple):
    """The runs of a lane at the edges of parts.

    Attributes
    ----------
    at
        The run at each edge.
    last
        The run just before each edge but the first, which is the last one of a part.
    """

    at: NDArray[np.int64]
    last: NDArray[np.int64]

    @property
    def first(self) -> NDArray[np.int64]:
        """The first run of each part."""
        return self.at[:-1]


class RunPlaces(NamedTuple):
    """Runs of several CPUs that are reported one by one: the index of each one's lane, and of the run in it."""

    lane: NDArray[np.int64]
    run: NDArray[np.int64]


class WorstStretch(NamedTuple):
    """A stretch in which a CPU idled, though a task waited for a processor in it. Times are in microseconds: the stamps at
    which it begins and ends, for how long a task waited, and how many did at once at most."""

    cpu: int
    begin: int
    end: int
    micros: int
    most: int


class Overview:
    """The timeline of a recording."""

    def __init__(self, runs: Runs, begins: NDArray[np.int64], ends: NDArray[np.int64]) -> None:
        """Take what its CPUs ran, and the stamps at which waits begin and end, in microseconds and in any order."""
        self.runs = runs
        self.waiting = Waiting(begins - runs.first, ends - runs.first, runs.length)
        self.sums = [CellSums(lane, runs.length, self.waiting) for lane in runs.lanes]

    def edges(self, start: int, stop: int, width: int) -> NDArray[np.int64]:
        """Return the edges of so many parts of a stretch of time, or of fewer parts that have a microsecond each.

        Parameters
        ----------
        start, stop
            The stamps at which it begins and ends, in microseconds. What is outside of the recording is left out.
        width
            How many parts are wanted.

        Raises
        ------
        ValueError
            If it doesn't end after it begins, or if `width` is out of range.
        """
        if start >= stop:
            raise ValueError("until must be after from")
        if not 1 <= width <= WIDEST:
            raise ValueError(f"width must be 1 to {WIDEST}")
        low = min(max(start - self.runs.first, 0), self.runs.length)
        high = max(min(stop - self.runs.first, self.runs.length), low)
        count = min(width, high - low)
        # Without a product that might not fit into 64 bits.
        whole, rest = divmod(high - low, max(count, 1))
        at = np.arange(count + 1)
        result: NDArray[np.int64] = low + at * whole + at * rest // max(count, 1)
        return result

    def places(self, edges: NDArray[np.int64]) -> list[EdgeRuns]:
        """Return the runs of each lane at the edges of parts, as `edges` returns them."""
        times = edges.astype(self.waiting.at.dtype)
        return [EdgeRuns(sums.run(times), sums.run(times[1:], "left")) for sums in self.sums] if len(edges) > 1 else []

    def cells(self, edges: NDArray[np.int64], places: list[EdgeRuns] | None = None) -> Cells:
        """Return what there is between each two edges that follow one another.

        Parameters
        ----------
        edges
            What `edges` returned.
        places
            What `places` returned for these edges, if that is known.
        """
        shape = (len(self.sums), max(len(edges) - 1, 0))
        idle, waited, unknown = (np.zeros(shape, "i8") for _ in range(3))
        task = np.zeros(shape, "u4")
        if not shape[1]:
            return Cells(edges, idle, waited, unknown, task, *(np.zeros(0, "i8") for _ in range(2)))
        times = edges.astype(self.waiting.at.dtype)
        some = self.waiting.some_before(edges).astype(times.dtype)
        for at, (sums, runs) in enumerate(zip(self.sums, self.places(edges) if places is None else places)):
            is_idle = sums.lane.task[runs.at] == IDLE
            idle[at] = np.diff(sums.idle[runs.at] + times * is_idle)
            waited[at] = np.diff(sums.waited[runs.at] + some * is_idle)
            unknown[at] = np.diff(sums.lost_before(times))
            task[at] = longest_tasks(sums, times, runs)
        area = np.diff(self.waiting.area_before(edges))
        return Cells(edges, idle, waited, unknown, task, self.waiting.most_between(edges), area)

    def single_runs(self, places: list[EdgeRuns]) -> RunPlaces:
        """Return the runs of tasks that fill one of the parts between edges. For a CPU that has no more runs in all of them
        than there are parts, return all runs of tasks there."""
        lanes, numbers = [np.zeros(0, "i8")], [np.zeros(0, "i8")]
        for lane, (sums, edge_runs) in enumerate(zip(self.sums, places)):
            first, last = edge_runs.first, edge_runs.last
            if last[-1] - first[0] < len(first):
                runs = np.arange(first[0], last[-1] + 1)
            else:
                single = first[first == last]
                runs = single[np.append(True, single[1:] != single[:-1])[: len(single)]]
            runs = runs[sums.lane.task[runs] >= FIRST]
            lanes.append(np.full(len(runs), lane))
            numbers.append(runs)
        return RunPlaces(np.concatenate(lanes), np.concatenate(numbers))

    def worst(self, start: int, stop: int, most: int = WORST) -> list[WorstStretch]:
        """Return the stretches of idle time in which tasks waited longest, at most `most` of them, the longest first.

        Parameters
        ----------
        start, stop
            When the time that is looked at begins and ends, in microseconds since the recording's first event. Of a stretch
            that goes on outside of it, only the part inside counts.
        most
            How many are wanted.
        """
        rows: list[WorstStretch] = []
        least = 0
        for sums in self.sums if start < stop else ():
            rows += self._worst_of(sums, start, stop, least)
            if len(rows) > most:
                rows.sort(key=lambda row: (-row.micros, row.begin, row.cpu))
                del rows[most:]
                # Of stretches of equal length, the first one counts.
                least = rows[-1].micros - 1
        rows.sort(key=lambda row: (-row.micros, row.begin, row.cpu))
        if not rows:
            return []
        first, bounds = self.runs.first, np.array([(row.begin, row.end) for row in rows])
        greatest = self.waiting.most_in(bounds[:, 0], bounds[:, 1]).tolist()
        return [row._replace(begin=first + row.begin, end=first + row.end, most=most) for row, most in zip(rows, greatest)]

    def _worst_of(self, sums: CellSums, start: int, stop: int, least: int) -> list[WorstStretch]:
        """Return the longest of these stretches of a CPU with more than `least` microseconds, and those of equal length."""
        bounds = np.array([start, stop], sums.lane.begin.dtype)
        low, high = int(sums.run(bounds[:1])[0]), int(sums.run(bounds[1:], "left")[0])
        inside = sums.micros[low + 1 : high]
        longer = np.flatnonzero(inside > least)
        if len(longer) > WORST:
            least = int(np.partition(inside[longer], -WORST)[-WORST]) - 1
            longer = longer[inside[longer] > least]
        runs = np.concatenate([np.unique([low, high]), low + 1 + longer])
        runs = runs[sums.lane.task[runs] == IDLE]
        begins, ends = np.maximum(sums.lane.begin[runs], start).astype("i8"), np.minimum(sums.end(runs), stop)
        micros = self.waiting.some_before(ends) - self.waiting.some_before(begins)
        rows = zip(begins.tolist(), ends.tolist(), micros.tolist())
        return [WorstStretch(sums.lane.cpu, *row, 0) for row in rows if row[2] > least]

    def window(self, start: int, stop: int, width: int) -> Json:
        """Return a stretch of time as plain data, which page/timeline.js reads. The arguments are those of `edges`, and it
        raises the same."""
        edges = self.edges(start, stop, width)
        places = self.places(edges)
        cells, single = self.cells(edges, places), self.single_runs(places)
        spans = np.diff(edges)
        runs = self._columns(single)
        is_there = np.zeros(FIRST + len(self.runs.tasks), bool)
        for tasks in (ALIKE, cells.task, runs["task"]):
            is_there[np.asarray(tasks)] = True
        numbers, local = np.flatnonzero(is_there), is_there.cumsum().astype("<u4") - np.uint32(1)
        runs["task"] = local[runs["task"]]
        low, high = int(edges[0]), int(edges[-1])
        return {
            "from": self.runs.first + low,
            "until": self.runs.first + high,
            "width": len(spans),
            "cpus": [sums.lane.cpu for sums in self.sums],
            "idle": base64_of(shares(cells.idle, spans)),
            "waited": base64_of(shares(cells.waited, spans)),
            "unknown": base64_of(shares(cells.unknown, spans)),
            "task": base64_of(local[cells.task]),
            "tasks": [self._name(number) for number in numbers.tolist()],
            "runs": {name: base64_of(column) for name, column in runs.items()},
            "most": base64_of(cells.most.astype("<u4")),
            "mean": base64_of((cells.area / spans).astype("<f4")),
            "worst": [stretch._asdict() for stretch in self.worst(low, high)],
        }

    def _columns(self, single: RunPlaces) -> dict[str, NDArray[Any]]:
        """Return runs as columns: the lane's index, when each begins and ends since the recording's first event, the number of
        its task, and the line of the switch that began it."""
        count = len(single.run)
        result = {
            "lane": single.lane.astype("<u2"),
            "begin": np.zeros(count, "<f8"),
            "end": np.zeros(count, "<f8"),
            "task": np.zeros(count, "<u4"),
            "line": np.zeros(count, "<u4"),
        }
        for at, sums in enumerate(self.sums):
            own = slice(*single.lane.searchsorted([at, at + 1]))
            runs = single.run[own]
            result["begin"][own], result["end"][own] = sums.lane.begin[runs], sums.end(runs)
            result["task"][own], result["line"][own] = sums.lane.task[runs], sums.lane.line[runs]
        return result

    def _name(self, number: int) -> tuple[int | None, str]:
        """Return the PID and the name of a task, by its number; the PID of what is unknown is None."""
        if number >= FIRST:
            return self.runs.task(number)
        return RunTask(0, "<idle>") if number == IDLE else (None, "")


def longest_tasks(sums: CellSums, edges: RunTimes, runs: EdgeRuns) -> NDArray[np.uint32]:
    """Return, for each part between two edges, the task with the longest run in it; `IDLE` if it has none. Only what lies
    inside the part counts. The edges have the type of the lane's times."""
    begin, tasks, (first, last) = sums.lane.begin, sums.lane.task, (runs.first, runs.last)
    low, high = int(first[0]), int(last[-1])
    # How long each run is and, in the lower half, its place; nothing for the last one, since it may go on outside.
    keys = np.zeros((high - low + 2, 2), "<u4")
    keys[:-2, 1] = np.minimum(begin[low + 1 : high + 1] - begin[low:high], SHORT - 1) * (tasks[low:high] >= FIRST)
    keys[:, 0] = np.arange(len(keys))
    inner = greatest_in(keys.view("<u8")[:, 0], first - low + 1, last - low).view("<u4")
    best, result = inner[1::2].astype("i8"), np.where(inner[1::2], tasks[low:][inner[::2]], IDLE)
    for run, begins, ends in (
        (first, edges[:-1], np.minimum(sums.end(first), edges[1:])),
        (last, np.maximum(begin[last], edges[:-1]), edges[1:]),
    ):
        micros = (ends.astype("i8") - begins) * (tasks[run] >= FIRST)
        result, best = np.where(micros > best, tasks[run], result), np.maximum(micros, best)
    numbers: NDArray[np.uint32] = result.astype("u4")
    return numbers


def greatest_in(values: NDArray[Any], first: NDArray[np.int64], after: NDArray[np.int64]) -> NDArray[Any]:
    """Return, for each pair of indices, the greatest value from the first one on and before the second one; 0 if there is none.
    The indices ascend, or there are few of them."""
    low, high = int(first.min()), max(int(after.max()), int(first.max())) + 1
    inside = values[low:high]
    if len(inside) < high - low:
        inside = np.append(inside, np.zeros(high - low - len(inside), values.dtype))
    bounds = np.empty(2 * len(first), "i8")
    bounds[::2], bounds[1::2] = first - low, (after - low).clip(0)
    return np.where(first < after, np.maximum.reduceat(inside, bounds)[::2], values.dtype.type(0))


def shares(parts: NDArray[np.int64], spans: NDArray[np.int64]) -> NDArray[np.uint8]:
    """Return the shares that parts are of their spans, as numbers up to `WHOLE`: only nothing is 0, and only all is `WHOLE`."""
    result = np.rint(parts / spans * WHOLE).clip(1, WHOLE - 1)
    return np.where(parts <= 0, 0, np.where(parts >= spans, WHOLE, result)).astype("u1")


def base64_of(column: NDArray[Any]) -> str:
    """Return a column of numbers as text: its bytes in base 64."""
    return base64.b64encode(column.tobytes()).decode()
