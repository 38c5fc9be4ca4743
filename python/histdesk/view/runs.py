"""What each CPU of a recording ran from its beginning to its end; needs numpy."""

from __future__ import annotations

from typing import Any, Iterable, NamedTuple, Sequence, Union

import numpy as np
from numpy.typing import NDArray

from .._schema import SWITCH
from ..native import layout
from ..native.arrays import texts_of_names, words_of_names
from ..native.numbering import Numbers
from ..trace.losses import Hole

Integers = NDArray[np.integer[Any]]
# Offsets in microseconds from a recording's first event: of 32 bits if all of them fit, else of 64.
RunTimes = NDArray[Union[np.uint32, np.int64]]
# The numbers of what is no task: an idle CPU, and a time of which it isn't known what ran. Tasks have numbers from FIRST on.
IDLE, UNKNOWN, FIRST = 0, 1, 2
# The last stamp of a CPU that has had no event yet.
NO_STAMP = -1
# Recordings that last at least this many microseconds have offsets of 64 bits.
SHORT = 1 << 32
# A time at which a CPU begins or stops running something: the stamp in microseconds, what ran before it, the line of the switch
# that is there, or 0 if there is none, and the CPU.
CUT_FIELDS = [("stamp", "=i8"), ("task", "=u4"), ("line", "=u4"), ("cpu", "=u2")]


class RunTask(NamedTuple):
    """A task: its PID, and its name."""

    pid: int
    name: str


class RunLane(NamedTuple):
    """What a CPU ran: runs that follow one another without a gap. Times are in microseconds since the recording's first event,
    and have 32 bits if all of them fit.

    Attributes
    ----------
    cpu
        The CPU.
    begin
        When each run begins. It ends when the next one begins.
    task
        The number of its task, or `IDLE`, or `UNKNOWN`.
    line
        The line of the switch that began it, counted from 1 on its CPU; 0 if no switch did.
    """

    cpu: int
    begin: RunTimes
    task: NDArray[np.uint32]
    line: NDArray[np.uint32]


class Runs(NamedTuple):
    """What all CPUs of a recording ran.

    Attributes
    ----------
    first
        The stamp of the first event in microseconds, at which all lanes begin.
    length
        For how many microseconds they last.
    lanes
        The lane of each CPU.
    tasks
        The tasks by their numbers from `FIRST` on.
    """

    first: int
    length: int
    lanes: Sequence[RunLane]
    tasks: Sequence[RunTask]

    def task(self, number: int) -> RunTask:
        """Return a task by its number."""
        return self.tasks[number - FIRST]


def time_type(length: int) -> str:
    """Return the type of the times of a recording that lasts so many microseconds."""
    return "=u4" if length < SHORT else "=i8"


class Gatherer:
    """Makes runs from events that come in parts, in which those of each CPU are in the order of time.

    A run ends at a cut. Each switch is one. If an event names another task than the one that its CPU went to last, a switch is
    missing, and nothing is known of the time between that event and the one before it."""

    def __init__(self) -> None:
        self._names, self._pairs = Numbers(layout.NAME_WORDS), Numbers(1)
        self._cuts: list[NDArray[np.void]] = [np.zeros(0, CUT_FIELDS)]
        # For each CPU, by its number: the stamp of its last event, the PID of what it ran then, and the number of that task.
        self._stamp = np.full(layout.CPUS, NO_STAMP, "i8")
        self._pid = np.zeros(layout.CPUS, "i8")
        self._task = np.full(layout.CPUS, UNKNOWN, "u4")

    def add(self, events: NDArray[np.void], lines: Integers) -> None:
        """Take the next events.

        Parameters
        ----------
        events
            As `Events.array` has them, in the order of time.
        lines
            The line of each in the whole recording, counted from 1 on its CPU.
        """
        if len(events):
            part = RunPart(events, lines, self._stamp, self._pid)
            self._cuts.append(self._cuts_of(part))
            last = part.last
            cpus = part.cpu[last]
            task = self._after(part, last)
            self._stamp[cpus], self._pid[cpus], self._task[cpus] = part.stamp[last], part.goes_to[last], task

    def _cuts_of(self, part: RunPart) -> NDArray[np.void]:
        """Return the cuts of a part, CPU by CPU."""
        lost, switches = np.flatnonzero(part.is_lost), np.flatnonzero(part.is_switch)
        result = np.zeros(2 * len(lost) + len(switches), CUT_FIELDS)
        loss, back, switched = np.split(result, [len(lost), 2 * len(lost)])
        loss["stamp"], loss["task"], loss["cpu"] = part.stamp_before[lost], self._before(part, lost), part.cpu[lost]
        back["stamp"], back["task"], back["cpu"] = part.stamp[lost], UNKNOWN, part.cpu[lost]
        switched["stamp"], switched["cpu"], switched["line"] = part.stamp[switches], part.cpu[switches], part.line[switches]
        switched["task"] = self._numbers(part.field("prev_pid", switches), part.words("prev_comm", switches))
        cuts: NDArray[np.void] = result[np.concatenate([3 * lost, 3 * lost + 1, 3 * switches + 2]).argsort(kind="stable")]
        return cuts

    def _after(self, part: RunPart, rows: NDArray[np.int64]) -> NDArray[np.uint32]:
        """Return the numbers of the tasks that ran after some events of a part."""
        setters = part.setter[rows]
        result: NDArray[np.uint32] = self._task[part.cpu[rows]]
        for is_switch, name in ((True, "comm"), (False, "task")):
            own = np.flatnonzero(part.sets[setters] & (part.is_switch[setters] == is_switch))
            result[own] = self._numbers(part.goes_to[setters[own]], part.words(name, setters[own]))
        return result

    def _before(self, part: RunPart, rows: NDArray[np.int64]) -> NDArray[np.uint32]:
        """Return the numbers of the tasks that ran before some events of a part, by the events before these."""
        inside = ~part.is_first[rows]
        result: NDArray[np.uint32] = np.where(inside, UNKNOWN, self._task[part.cpu[rows]])
        result[inside] = self._after(part, rows[inside] - 1)
        return result

    def _numbers(self, pids: Integers, names: NDArray[np.uint64]) -> NDArray[np.uint32]:
        """Return the numbers of tasks, by their PIDs and the words of their names."""
        if not len(pids):
            return np.zeros(0, "u4")
        pairs = pids.astype("i8") << 32 | self._names.of(names)
        result: NDArray[np.uint32] = np.where(pids == 0, IDLE, self._pairs.of(pairs.view("u8")[:, None]) + FIRST)
        return result

    def tasks(self) -> list[RunTask]:
        """Return the tasks by their numbers from `FIRST` on."""
        pairs = self._pairs.rows[:, 0].view("i8")
        names = texts_of_names(self._names.rows)[pairs & 0xFFFFFFFF].tolist()
        return [RunTask(pid, name) for pid, name in zip((pairs >> 32).tolist(), names)]

    def finish(self, cpus: Iterable[int], first: int, last: int, holes: Sequence[Hole]) -> Runs:
        """Return the runs of all events.

        Parameters
        ----------
        cpus
            The CPUs that have events.
        first, last
            The stamps of the first event of all and of the last one, in microseconds.
        holes
            Where events were lost. It isn't known what ran there.
        """
        cuts = np.concatenate(self._cuts)
        self._cuts = [cuts[:0]]
        cuts = cuts[cuts["cpu"].argsort(kind="stable")]
        of = cuts["cpu"].copy()
        lanes = []
        for cpu in cpus:
            own = cuts[slice(*of.searchsorted(np.array([cpu, cpu + 1], of.dtype)))]
            lane = lane_of(cpu, own, int(self._task[cpu]), (first, last))
            lanes.append(with_holes(lane, [hole for hole in holes if hole.cpu == cpu], (first, last)))
        return Runs(first, last - first, lanes, self.tasks())


class RunPart:
    """Some events, CPU by CPU, and what each says of what its CPU ran."""

    def __init__(self, events: NDArray[np.void], lines: Integers, stamps: NDArray[np.int64], pids: NDArray[np.int64]) -> None:
        """Take events, their lines, and for each CPU the stamp of its last event before these and the PID of what it ran."""
        self._events, self._order = events, events["cpu"].astype("u2").argsort(kind="stable")
        self.line = lines[self._order]
        self.cpu, self.stamp = self.field("cpu"), self.field("stamp")
        self.is_switch = self.field("name") == SWITCH
        runs = self.field("common_pid").astype("i8")
        self.goes_to = np.where(self.is_switch, self.field("pid"), runs)
        # Which are the first ones of their CPUs here, and where the last ones stand.
        self.is_first = np.ones(len(runs), bool)
        self.is_first[1:] = self.cpu[1:] != self.cpu[:-1]
        self.last = np.append(np.flatnonzero(self.is_first)[1:], len(runs)) - 1
        first = np.flatnonzero(self.is_first)
        # The stamp of the event before each one, and the PID of the task that, according to it, runs on.
        self.stamp_before, before = previous(self.stamp), previous(self.goes_to)
        self.stamp_before[first], before[first] = stamps[self.cpu[first]], pids[self.cpu[first]]
        self.is_lost = (self.stamp_before != NO_STAMP) & (runs != before)
        # The event that says what runs after an event; the first one of a CPU here may leave that to an earlier part.
        self.sets = self.is_switch | self.is_lost | (self.stamp_before == NO_STAMP)
        self.setter = np.maximum.accumulate(np.where(self.sets | self.is_first, np.arange(len(runs)), 0))

    def field(self, name: str, rows: NDArray[np.int64] | slice = slice(None)) -> Integers:
        """Return a field of some of the events."""
        result: Integers = self._events[name][self._order[rows]]
        return result

    def words(self, name: str, rows: NDArray[np.int64]) -> NDArray[np.uint64]:
        """Return a name of some of the events, as 64-bit words."""
        result: NDArray[np.uint64] = words_of_names(self._events, name)[self._order[rows]]
        return result


def previous(column: Integers) -> Integers:
    """Return a column in which each row after the first has what was in the row before it."""
    result = column.copy()
    result[1:] = column[:-1]
    return result


def lane_of(cpu: int, cuts: NDArray[np.void], last_task: int, bounds: tuple[int, int]) -> RunLane:
    """Return what a CPU ran between two stamps, given its cuts and the number of the task that it ran at the end."""
    first, last = bounds
    ends = np.maximum.accumulate(np.append(cuts["stamp"], last)).clip(first, last) - first
    begins = np.append(0, ends[:-1])
    # A run of no length isn't kept; of several switches at one stamp, the last one counts.
    kept = np.flatnonzero(begins < ends)
    tasks, lines = np.append(cuts["task"], last_task), np.append(0, cuts["line"])
    # A CPU that goes on idling after a switch idles in one run.
    of = tasks[kept]
    kept = kept[np.append(True, (of[1:] != of[:-1]) | (of[1:] >= FIRST))[: len(kept)]]
    return RunLane(cpu, begins[kept].astype(time_type(last - first)), tasks[kept].astype("u4"), lines[kept].astype("u4"))


def with_holes(lane: RunLane, holes: Sequence[Hole], bounds: tuple[int, int]) -> RunLane:
    """Return a lane in which it isn't known what ran during holes; the bounds are the stamps at which it begins and ends."""
    first, last = bounds
    known = (
        (max(hole.after or first, first) - first, min(last if hole.before is None else hole.before, last) - first)
        for hole in holes
    )
    spans = [span for span in sorted(known) if span[0] < span[1]]
    if not spans or not len(lane.begin):
        return lane
    begins, ends = np.array(spans, "i8").T
    # Holes that overlap are one.
    reach = np.maximum.accumulate(ends)
    starts = np.append(True, begins[1:] > reach[:-1])
    begins, ends = begins[starts], reach[np.append(starts[1:], True)]
    time = lane.begin.dtype
    at = (lane.begin.searchsorted(ends.astype(time), "right") - 1).clip(0)
    hole = begins.searchsorted(lane.begin, "right") - 1
    is_outside = (hole < 0) | (lane.begin >= ends[hole])
    # A run that begins with the end of a hole is there already.
    goes_on = (lane.begin[at] != ends) & (ends < last - first)
    begin = np.concatenate([lane.begin[is_outside], begins, ends[goes_on]])
    task = np.concatenate([lane.task[is_outside], np.full(len(begins), UNKNOWN), lane.task[at[goes_on]]])
    line = np.concatenate([lane.line[is_outside], np.zeros(len(begins) + int(goes_on.sum()), "i8")])
    order = begin.argsort(kind="stable")
    return RunLane(lane.cpu, begin[order].astype(time), task[order].astype("u4"), line[order].astype("u4"))
