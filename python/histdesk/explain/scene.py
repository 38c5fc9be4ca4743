"""Events as the explanation of a wait needs them: in order, and what ran on a CPU between two of them."""

from __future__ import annotations

import functools
import itertools
import re
from collections.abc import Callable, Iterable, Iterator
from typing import TYPE_CHECKING, Any, NamedTuple, cast

import numpy as np

from .._schema import SWITCH, WAIT_KINDS, WAKEUP, WAKEUP_NEW, WAKING
from ..desk.events import Events, texts
from ..desk.recording import Recording
from ..desk.values import Event
from ..native import layout
from ..trace.lines import lines_in
from ..trace.losses import Hole, seconds
from ..trace.places import Place
from ..trace.source import searchable
from .stretches import IDLE, NOTHING, Columns, Runner, Stretch, Stretches, Wakings, stretches_of

if TYPE_CHECKING:
    from numpy.typing import NDArray

    from ..desk.desk import Desk
    from ..native.memory import Buffer

WOKEN, FORKED, PREEMPTED = WAIT_KINDS
# What the kernel prints if it hasn't kept a task's name.
NO_NAME = "<...>"
# Letters of the kernel's flags that say in which context an event was, and how the context is called here.
CONTEXTS = (("zZ", "nmi"), ("hH", "hardirq"), ("s", "softirq"))
# What stands around the flags of a line: its CPU, its stamp, the event's name, and what follows that.
FLAGS = re.compile(rb"\[0*([0-9]+)\] +(?:([^ :\n]+) +)?0*([0-9]+\.[0-9]{6}:) *([a-z_]+): *(.*)")
# The names of tasks and states, most of which are decoded again and again.
text_of = functools.lru_cache(1 << 12)(layout.text_of)
# Stamps before all others and after them.
NEVER, FOREVER = -1, 1 << 62
# For so many events a text is searched, which takes a tenth of reading the stamps of its lines.
SOUGHT = 10
# What finds in which context an event was, as `context_of` returns it.
Contexts = Callable[[Event], str | None]
# For the events of a CPU: before which ones something was lost, from when on, and until when.
HoleColumns = tuple["NDArray[np.bool_]", "NDArray[np.int64]", "NDArray[np.int64]"]


class FoundWait(NamedTuple):
    """A wait as the engine has found it: its kind, its task, and the places in the whole recording of the events at which it
    begins and ends; `end` is None if the recording ends before it does."""

    kind: str
    pid: int
    begin: Place
    end: Place | None


class Steps(NamedTuple):
    """The events of a wait, by their numbers: the one at which it begins, the one at which it ends (the last one of all if the
    recording ends before that), the `sched_wakeup` by which the task was queued, and the switch by which it left its CPU if it
    was woken before that; then the CPU where it was queued, None if no event shows it, and the one where it ran or still
    waits."""

    begin: int
    end: int
    queued: int | None
    slept: int | None
    queue_cpu: int | None
    cpu: int


class Bounds(NamedTuple):
    """What a scene has of a recording: all events from one stamp on and below another one, and also the last events of some
    CPUs before that, and the first ones of some after it. If `only` isn't None, it has all events of these CPUs only."""

    start: int = NEVER
    until: int = FOREVER
    before: frozenset[int] = frozenset()
    after: frozenset[int] = frozenset()
    only: frozenset[int] | None = None


class Wants:
    """What was asked of a scene that it doesn't have, though the recording may: the last events before it of some CPUs, the
    first ones after it of some, and switches."""

    def __init__(self) -> None:
        self.before: set[int] = set()
        self.after: set[int] = set()
        self.turn_before = self.turn_after = False

    def add(self, other: Wants) -> None:
        """Add what another one has."""
        self.before |= other.before
        self.after |= other.after
        self.turn_before |= other.turn_before
        self.turn_after |= other.turn_after

    def any(self) -> bool:
        """Return whether anything was wanted."""
        return bool(self.before or self.after or self.turn_before or self.turn_after)


class Scene:
    """Events in merged order, by number from 0: those of a desk, or those of a recording that explain a wait."""

    def __init__(
        self,
        events: Events,
        lines: NDArray[np.integer[Any]],
        holes: tuple[Hole, ...] = (),
        text: Buffer | Contexts | None = None,
        wakings: Wakings | None = None,
        bounds: Bounds = Bounds(),
    ) -> None:
        """Take some events.

        Parameters
        ----------
        events
            The events.
        lines
            Their lines in the whole recording.
        holes
            Where events of the recording were lost.
        text
            A text with the lines of those events that begin waits, or what finds the context of an event; None if neither is
            known.
        wakings
            Who was woken between the ends of the wait; if None, that is found among the events.
        bounds
            Between which stamps the scene has all events.
        """
        self.events, self.line, self.holes = events, lines, holes
        self.array = events.array
        # The same without attributes, which take longer to look up.
        self._structs = events.array.view(np.ndarray)
        self.stamp, self.cpu, self.name, self.pid, self.prev_pid, self.prev_prio, self.common_pid = (
            self._structs[field].copy() for field in ("stamp", "cpu", "name", "pid", "prev_pid", "prev_prio", "common_pid")
        )
        self._text, self._wakings, self._bounds = text, wakings, bounds
        self._places: dict[int, NDArray[np.int64]] = {}
        self._turns: dict[int, NDArray[np.int64]] = {}
        self._acts: dict[int, NDArray[np.int64]] = {}
        self._runs: dict[int, NDArray[np.int64]] = {}
        # For each CPU: the lines of its events in ascending order, and which of its events these are.
        self._lines: dict[int, tuple[NDArray[np.integer[Any]], NDArray[np.int64]]] = {}
        self._holes: dict[int, list[tuple[int, int]]] = {}
        self._steps: dict[FoundWait, Steps] = {}
        # The texts of fields of all events, if many are asked for, and how many were asked for.
        self._texts: dict[str, NDArray[np.object_]] = {}
        self._asked: dict[str, int] = {}
        self.wants = Wants()

    def event(self, at: int) -> Event:
        """Return an event, with its line in the whole recording."""
        return self.events[at]._replace(line=int(self.line[at]))

    def at(self, cpu: int, line: int) -> int | None:
        """Return the event of a CPU at a line of the whole recording; None if it isn't there."""
        if cpu not in self._lines:
            places = self.places_of(cpu)
            lines = self.line[places]
            # They ascend unless the text isn't in the order of time.
            order = lines.argsort(kind="stable")
            self._lines[cpu] = lines[order], places[order]
        lines, events = self._lines[cpu]
        at = int(lines.searchsorted(line))
        return int(events[at]) if at < len(lines) and lines[at] == line else None

    def steps(self, wait: FoundWait) -> Steps:
        """Return the events of a wait. Raises `LookupError` if those of its ends aren't here."""
        if wait not in self._steps:
            self._steps[wait] = self._find_steps(wait)
        return self._steps[wait]

    def _find_steps(self, wait: FoundWait) -> Steps:
        """Return the same, found anew."""
        begin = self.at(wait.begin.cpu, wait.begin.line)
        end = self.at(wait.end.cpu, wait.end.line) if wait.end else len(self.events)
        if begin is None or end is None:
            raise LookupError(f"the events of the wait of task {wait.pid} aren't all there")
        return self.steps_from(wait, begin, end)

    def steps_from(self, wait: FoundWait, begin: int, end: int) -> Steps:
        """Return the events of a wait from one event on, as far as another one."""
        inside = slice(begin + 1, end)
        of_task = (self.pid[inside] == wait.pid).nonzero()[0] + begin + 1
        queued = next(iter(of_task[self.name[of_task] == WAKEUP].tolist()), None) if wait.kind == WOKEN else None
        slept = first_true(self.prev_pid[inside] == wait.pid, begin + 1)
        placed = begin if wait.kind == FORKED else queued
        queue_cpu = int(self.cpu[begin]) if wait.kind == PREEMPTED else None if placed is None else self.target(placed)
        # Without a sched_wakeup, the best that is known of a task that still waits is where it last ran.
        waits_on = self.target(begin) if queue_cpu is None else queue_cpu
        return Steps(begin, min(end, len(self.events) - 1), queued, slept, queue_cpu, wait.end.cpu if wait.end else waits_on)

    def target(self, at: int) -> int:
        """Return the CPU for which a task is woken or created."""
        return int(self._structs[at]["target_cpu"])

    # ---- tasks

    def running(self, at: int) -> Runner:
        """Return the task that ran on its CPU before an event."""
        event = self.events[at]
        if event.name == "sched_switch":
            return runner_of(event.prev_comm, event.prev_pid, event.prev_prio)
        return runner_of(self.name_of(at, event), event.common_pid, None)

    def next_of(self, at: int) -> Runner:
        """Return the task that ran on its CPU after an event."""
        event = self.events[at]
        if event.name != "sched_switch":
            return self.running(at)
        return runner_of(event.comm, event.pid, event.prio)

    def name_of(self, at: int, event: Event) -> str:
        """Return the name of the task that ran at an event, which is no switch. If the kernel hasn't kept it, the next switch
        of that CPU may have it, or the last one before."""
        if event.task != NO_NAME or not event.common_pid:
            return event.task
        turns = self.turns_of(event.cpu)
        after = int(turns.searchsorted(at))
        if after < len(turns) and self.stamp[turns[after]] < self._bounds.until:
            if self.prev_pid[turns[after]] == event.common_pid:
                return self.events[turns[after]].prev_comm or ""
        else:
            self.wants.turn_after = True
        if after > 0 and self.stamp[turns[after - 1]] >= self._bounds.start:
            if self.pid[turns[after - 1]] == event.common_pid:
                return self.events[turns[after - 1]].comm or ""
        else:
            self.wants.turn_before = True
        return event.task

    def goes_to(self, at: int) -> int:
        """Return the number of the task that ran on its CPU after an event."""
        return int((self.pid if self.name[at] == SWITCH else self.common_pid)[at])

    # ---- what ran

    def stretches(self, cpu: int, begin: int, end: int) -> Stretches:
        """Return what ran on a CPU between two events, in order; together they are as long as the time between these."""
        stretches = self.between(cpu, range(begin + 1, end + 1), int(self.stamp[begin]), int(self.stamp[end]))
        return stretches.after(self.wakings(begin, end) if self._wakings is None else self._wakings)

    def between(self, cpu: int, events: range, start: int, stop: int) -> Stretches:
        """Return what ran on a CPU between two stamps, in order; `events` has the numbers of the events there."""
        if not self.knows(cpu):
            return stretches_of([Stretch(cpu, start, stop, None, None, None)])
        places = self.places_of(cpu)
        first, after = places.searchsorted([events.start, events.stop]).tolist()
        before = self.before(cpu, first)
        walk = SceneWalk(self, cpu, start, stop)
        walk.go(places[first - (before is not None) : after], before is not None)
        if walk.since < stop:
            walk.pass_by(self.after(cpu, after))
        return walk.stretches()

    def look(self, cpu: int, begin: int, end: int) -> None:
        """Find out whether those events of a CPU are here that show what ran at the ends of the time between two events."""
        if not self.knows(cpu):
            return
        places = self.places_of(cpu)
        first, after = places.searchsorted([begin + 1, end + 1]).tolist()
        self.before(cpu, first)
        last = places[first:after][-1:]
        if not (self.name[last] == SWITCH).any() or self.stamp[last[0]] < self.stamp[end]:
            self.after(cpu, after)

    def before(self, cpu: int, first: int) -> int | None:
        """Return the last event of a CPU before the one with this place among its events; None if it isn't there."""
        places = self.places_of(cpu)
        if first and (cpu in self._bounds.before or self.stamp[places[first - 1]] >= self._bounds.start):
            return int(places[first - 1])
        if cpu not in self._bounds.before:
            self.wants.before.add(cpu)
        return None

    def after(self, cpu: int, after: int) -> int | None:
        """Return the event of a CPU with this place among its events, the first after some others; None if it isn't there."""
        places = self.places_of(cpu)
        if after < len(places) and (cpu in self._bounds.after or self.stamp[places[after]] < self._bounds.until):
            return int(places[after])
        if cpu not in self._bounds.after:
            self.wants.after.add(cpu)
        return None

    def knows(self, cpu: int) -> bool:
        """Return whether it has all events that a CPU had meanwhile."""
        return self._bounds.only is None or cpu in self._bounds.only

    def places_of(self, cpu: int) -> NDArray[np.int64]:
        """Return the events of a CPU."""
        if cpu not in self._places:
            self._places[cpu] = (self.cpu == cpu).nonzero()[0]
        return self._places[cpu]

    def turns_of(self, cpu: int) -> NDArray[np.int64]:
        """Return the switches of a CPU."""
        if cpu not in self._turns:
            places = self.places_of(cpu)
            self._turns[cpu] = places[self.name[places] == SWITCH]
        return self._turns[cpu]

    def acts_of(self, pid: int) -> NDArray[np.int64]:
        """Return the switches to a task and from it."""
        if pid not in self._acts:
            is_of = (self.pid == pid) | (self.prev_pid == pid)
            self._acts[pid] = ((self.name == SWITCH) & is_of).nonzero()[0]
        return self._acts[pid]

    def runs_of(self, pid: int) -> NDArray[np.int64]:
        """Return the events that happened while a task ran."""
        if pid not in self._runs:
            self._runs[pid] = (self.common_pid == pid).nonzero()[0]
        return self._runs[pid]

    def count_before(self, place: Place) -> int:
        """Return how many of the events come before a place in merged order."""
        low = int(self.stamp.searchsorted(place.stamp))
        high = int(self.stamp.searchsorted(place.stamp, "right"))
        cpus, lines = self.cpu[low:high], self.line[low:high]
        is_before = (cpus < place.cpu) | (cpus == place.cpu) & (lines < place.line)
        return low + int(is_before.sum())

    def wakings(self, begin: int, end: int) -> Wakings:
        """Return who was woken or created after one event, up to and including another one."""
        inside = slice(begin + 1, end + 1)
        names = self.name[inside]
        woken = (names == WAKING) | (names == WAKEUP_NEW)
        return Wakings(self.pid[inside][woken], self.stamp[inside][woken])

    # ---- in which context

    def context(self, at: int) -> str | None:
        """Return whether an event was in an interrupt: `nmi`, `hardirq`, `softirq`, or `task` if it was in none; None if the
        text has no flags, or isn't known."""
        return self.context_of(self.events[at])

    def context_of(self, event: Event) -> str | None:
        """Return the same for an event."""
        if self._text is None:
            return None
        if callable(self._text):
            return self._text(event)
        return context_of(event, lines_with(self._text, stamp_of(event).encode()))

    # ---- what is found once for all waits

    def holes_of(self, cpu: int) -> list[tuple[int, int]]:
        """Return from when to when events of a CPU were lost."""
        if cpu not in self._holes:
            self._holes[cpu] = [times_of(hole) for hole in self.holes if hole.cpu == cpu]
        return self._holes[cpu]

    def texts(self, field: str, events: NDArray[np.int64]) -> list[str] | NDArray[np.object_]:
        """Return a field of some events, which holds a text. If many are asked for, all are decoded together."""
        self._asked[field] = self._asked.get(field, 0) + len(events)
        if field not in self._texts and self._asked[field] <= len(self.events):
            array = self._structs[events]
            return list(map(text_of, array[field].tolist(), array[f"{field}_length"].tolist()))
        if field not in self._texts:
            self._texts[field] = texts(self.array, field)
        return self._texts[field][events]


class SceneWalk:
    """Cuts a stretch of time of one CPU into stretches of tasks.

    A stretch ends at a cut. Each switch is one; and if events were lost, there is one from which on it isn't known what ran,
    and one from which on it is known again. Events were lost if there is a hole, or if an event names another task than the one
    that the CPU went to last. What ran up to a cut is known from an event: before the event if the cut is its switch, else
    after it."""

    def __init__(self, scene: Scene, cpu: int, start: int, stop: int) -> None:
        self.scene, self.cpu, self.start, self.stop = scene, cpu, start, stop
        self.holes = scene.holes_of(cpu)
        # The end of the last stretch, the stamp of the last event of the CPU, and the event that shows what ran since then: its
        # number, or ~ of that if it shows what ran before it.
        self.since, self.seen, self.setter = start, NEVER, NOTHING
        # The cuts: the switches among them; the stamps of these, and then of the others; the order of all of them; and for the
        # others, the events that show what ran.
        self.turns = self.at = self.order = self.setters = np.zeros(0, "i8")

    def go(self, places: NDArray[np.int64], has_before: bool) -> None:
        """Take the events of the stretch of time, in order; the last event before it comes first if there is one."""
        if not len(places):
            return
        scene = self.scene
        stamps, runs = scene.stamp[places], scene.common_pid[places]
        is_switch = scene.name[places] == SWITCH
        goes_to = np.where(is_switch, scene.pid[places], runs)
        is_lost = np.zeros(len(places), bool)
        is_lost[1:] = runs[1:] != goes_to[:-1]
        # For each event before which something was lost: from when on, and until when.
        gone, back = np.concatenate([[NEVER], stamps[:-1]]), stamps.copy()
        self.add_holes(stamps, int(has_before), (is_lost, gone, back))
        is_setter = is_switch | is_lost
        is_setter[0] = True
        setters = np.maximum.accumulate(np.where(is_setter, np.arange(len(places)), 0))
        turns = np.flatnonzero(is_switch[int(has_before) :]) + int(has_before)
        lost = np.flatnonzero(is_lost)
        before = np.where(lost, places[setters[lost - 1]], NOTHING)
        self.turns = places[turns]
        self.at = np.concatenate([stamps[turns], gone[lost], back[lost]])
        self.order = np.concatenate([3 * turns + 2, 3 * lost, 3 * lost + 1]).argsort(kind="stable")
        self.setters = np.concatenate([before, np.full(len(lost), NOTHING)])
        self.since = min(max(int(self.at.max(initial=NEVER)), self.start), self.stop)
        self.seen, self.setter = int(stamps[-1]), int(places[setters[-1]])

    def add_holes(self, stamps: NDArray[np.int64], first: int, losses: HoleColumns) -> None:
        """Note before which events there is a hole, from the event with index `first` on."""
        if not self.holes:
            return
        is_lost, gone, back = losses
        is_hole = np.zeros(len(stamps), bool)
        holes = np.array(self.holes)
        lows = stamps.searchsorted(holes[:, 1]).clip(first)
        highs = stamps.searchsorted(holes[:, 0], "right") + 1
        for at in np.flatnonzero(lows < highs.clip(0, len(stamps))).tolist():
            (after, before), inside = self.holes[at], slice(lows[at], highs[at])
            gone[inside] = np.where(is_hole[inside], gone[inside].clip(None, after), after)
            back[inside] = np.where(is_hole[inside], back[inside].clip(before), before)
            is_lost[inside] = is_hole[inside] = True

    def pass_by(self, at: int | None) -> None:
        """Take the first event after the stretch of time, if it is there."""
        if at is None:
            return
        stamp, pid = int(self.scene.stamp[at]), int(self.scene.common_pid[at])
        if not self.look(stamp) and self.setter != NOTHING and self.scene.goes_to(self.setter) != pid:
            # A switch is missing, and no line reports it.
            self.lose(self.seen, stamp)
        if self.setter == NOTHING:
            self.setter = ~at
        self.seen = stamp

    def look(self, stamp: int) -> bool:
        """Find out from the holes whether events were lost between the last event and the next one, and return that."""
        lost = [(after, before) for after, before in self.holes if self.seen <= after and before <= stamp]
        if lost:
            self.lose(min(after for after, _ in lost), max(before for _, before in lost))
        return bool(lost)

    def lose(self, after: int, before: int) -> None:
        """Note that it isn't known what ran between two stamps after the events."""
        self.cut(after)
        self.setter = NOTHING
        self.cut(before)

    def cut(self, stamp: int) -> None:
        """End a stretch after the events."""
        self.order = np.append(self.order, len(self.at))
        self.at, self.setters = np.append(self.at, stamp), np.append(self.setters, self.setter)

    def stretches(self) -> Stretches:
        """Return the stretches up to the end."""
        if self.seen < self.stop:
            self.look(FOREVER)
        self.cut(self.stop)
        count = len(self.turns)
        ends = np.maximum.accumulate(self.at[self.order]).clip(self.start, self.stop)
        begins = np.concatenate([[self.start], ends[:-1]])
        # A stretch of no length counts only if a switch ends it.
        kept = (begins < ends) | (self.order < count)
        columns = self.columns(self.order[kept])
        return Stretches(self.cpu, columns._replace(begin=begins[kept], end=ends[kept]))

    def columns(self, cuts: NDArray[np.int64]) -> Columns:
        """Return what ran up to some cuts, but not when."""
        scene = self.scene
        columns = Columns.empty(len(cuts))
        is_turn = cuts < len(self.turns)
        turns = self.turns[cuts[is_turn]]
        pids = scene.prev_pid[turns]
        columns.pid[is_turn], columns.prio[is_turn] = pids, np.where(pids, scene.prev_prio[turns], NOTHING)
        columns.line[is_turn] = scene.line[turns]
        columns.task[is_turn] = scene.texts("prev_comm", turns)
        columns.task[is_turn & (columns.pid == 0)] = IDLE.task
        columns.left[is_turn] = scene.texts("prev_state", turns)
        for at in np.flatnonzero(~is_turn).tolist():
            setter = int(self.setters[cuts[at] - len(self.turns)])
            if setter != NOTHING:
                columns.put(at, scene.running(~setter) if setter < 0 else scene.next_of(setter))
        return columns


def of_desk(desk: Desk, recording: Recording | None = None) -> Scene:
    """Return the events that a desk holds now. Their lines are those of the recording, if it was made for one."""
    events = desk.events()
    lines = events.array["line"].copy()
    if recording is None:
        return Scene(events, lines, desk.holes)
    contexts = LineContexts(recording.text)
    return Scene(events, recording.lines(events.array["cpu"], lines), recording.holes, contexts)


class LineContexts:
    """Finds the contexts of events by the lines of a text, whose stamps are read once if events are more than `SOUGHT`."""

    def __init__(self, text: Buffer) -> None:
        """Take a text, which stays as it is."""
        self._text = searchable(text)
        self._asked = 0
        # The stamps in order, and for each of them where its line begins and ends.
        self._stamps: NDArray[np.int64] | None = None
        self._begins = self._ends = np.zeros(0, "i8")

    def __call__(self, event: Event) -> str | None:
        """Return the context of an event."""
        self._asked += 1
        if self._asked <= SOUGHT:
            return context_of(event, lines_with(self._text, stamp_of(event).encode()))
        if self._stamps is None:
            self._read()
        assert self._stamps is not None
        low, high = int(self._stamps.searchsorted(event.stamp)), int(self._stamps.searchsorted(event.stamp, "right"))
        lines = zip(self._begins[low:high].tolist(), self._ends[low:high].tolist())
        return context_of(event, (self._text[begin:end] for begin, end in lines))

    def _read(self) -> None:
        """Read the stamps of all lines."""
        lines = lines_in(self._text)
        order = lines.stamps.argsort(kind="stable")
        begins = np.concatenate([np.zeros(1, "i8"), lines.ends[:-1]])[: len(lines.ends)]
        self._stamps, self._begins, self._ends = lines.stamps[order], begins[order], lines.ends[order]


def runner_of(task: str | None, pid: int | None, prio: int | None) -> Runner:
    """Return one of the tasks that an event names."""
    return Runner(task or "", pid, prio) if pid else IDLE


def times_of(hole: Hole) -> tuple[int, int]:
    """Return from when to when a hole lasts."""
    return NEVER if hole.after is None else hole.after, FOREVER if hole.before is None else hole.before


def spanned(holes: tuple[Hole, ...], begin: int, end: int) -> tuple[Hole, ...]:
    """Return the holes that a wait spans, by the stamps at which it begins and ends."""
    return tuple(hole for hole in holes if begin < times_of(hole)[1] and times_of(hole)[0] < end)


def stamp_of(event: Event) -> str:
    """Return an event's stamp as the text has it."""
    return f"{seconds(event.stamp)}:"


def context_of(event: Event, lines: Iterable[bytes]) -> str | None:
    """Return in which context an event was, by the flags of its line.

    Parameters
    ----------
    event
        A waking or a creation.
    lines
        Lines of the text, among which its own may be.

    Returns
    -------
    str or None
        `nmi`, `hardirq` or `softirq`, or `task` if the event was in no interrupt; None if its line isn't there or has no flags.
    """
    stamp, name, pid = stamp_of(event).encode(), event.name.encode(), b"pid=%d " % (event.pid or 0)
    for line in lines:
        # A task's name may have brackets too.
        for match in map(FLAGS.match, itertools.repeat(line), positions(line, b"[")):
            if match and int(match[1]) == event.cpu and match.group(3, 4) == (stamp, name) and pid in match[5]:
                return context_by(match[2]) if match[2] else None
    return None


def context_by(flags: bytes) -> str:
    """Return the context that flags of a line show."""
    return next((name for signs, name in CONTEXTS if set(signs.encode()) & set(flags)), "task")


def positions(text: bytes, sign: bytes) -> Iterator[int]:
    """Go through the places of a sign in a text."""
    at = text.find(sign)
    while at >= 0:
        yield at
        at = text.find(sign, at + 1)


def lines_with(content: Buffer, sign: bytes, start: int = 0) -> Iterator[bytes]:
    """Go through the lines of a text that contain a sign, from a byte on."""
    # A text is anything that has `find`.
    text = cast("bytes", content)
    at = text.find(sign, start)
    while at >= 0:
        end = text.find(b"\n", at)
        end = len(text) if end < 0 else end
        yield bytes(text[text.rfind(b"\n", 0, at) + 1 : end])
        at = text.find(sign, end)


def first_true(mask: NDArray[np.bool_], start: int) -> int | None:
    """Return the first of some events, numbered from a start on, on which a mask holds; None if it holds on none."""
    at = numbers(mask)
    return at[0] + start if at else None


def numbers(mask: NDArray[np.bool_]) -> list[int]:
    """Return where a mask holds."""
    at: list[int] = mask.nonzero()[0].tolist()
    return at
