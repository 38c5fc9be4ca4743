"""Explains waits of a recording: which wait an event belongs to, and why its task waited."""

from __future__ import annotations

from collections.abc import Iterator
from typing import TYPE_CHECKING, Any

import numpy as np

from .._schema import SWITCH
from ..desk.desk import Desk, Trace
from ..desk.recording import Choice, Recording, path_of, read_text
from ..desk.slices import Source
from ..desk.values import Event
from ..trace.losses import seconds
from ..trace.places import Place
from ..trace.stream import held_waits
from ..trace.text import is_read_once, text_again
from ..waiting.wait_answer import KINDS
from ..waiting.waits import ReadOptions, Waits, waits_of, waits_of_recording, waits_of_text
from . import surroundings, why_text
from .chain import Chain, Follower, Past, place_of, scenes_before
from .scene import Contexts, Scene, FoundWait, numbers, of_desk
from .why import Why, scene_in, why_in, why_of, whys_in

if TYPE_CHECKING:
    from numpy.typing import NDArray


class Explainer:
    """Explains the waits of a recording, as the engine has found them."""

    def __init__(self, waits: Waits) -> None:
        self.waits = waits

    def explain_at(self, cpu: int, line: int, stamp: int | None = None) -> Why:
        """Explain the wait of the event of a CPU at a line.

        Raises
        ------
        LookupError
            What `wait_at` raises; or if the event should have another stamp.
        """
        wait = self.wait_at(cpu, line)
        if stamp is not None:
            self._check_stamp(wait, Place(stamp, cpu, line))
        return self.explain(wait)

    def _check_stamp(self, wait: FoundWait, place: Place) -> None:
        """Raise `LookupError` if an event of a wait isn't at this place, although one is at this line."""
        ends = [end for end in (wait.begin, wait.end) if end and end[1:] == place[1:]]
        found = ends[0] if ends else self.event(place.cpu, place.line)
        if found and found.stamp != place.stamp:
            stamps = f"{seconds(found.stamp)}, and not {seconds(place.stamp)}"
            raise LookupError(f"the event at {place.cpu}:{place.line} is at {stamps}: that place is of another recording")

    def explain_longest(self) -> Why:
        """Explain the longest of its waits that aren't doubtful. Raises `LookupError` if there is none."""
        for why in self.explain_each(greatest(self.waits, 1, doubtful=False)):
            return why
        raise LookupError("there is no wait that isn't doubtful")

    def wait_at(self, cpu: int, line: int) -> FoundWait:
        """Return the wait that the event of a CPU at a line ends or begins, or in which the task that it wakes is waiting.

        Raises
        ------
        LookupError
            If there is none; the message has the reason.
        """
        wait = self.wait_with("end", cpu, line) or self.wait_with("begin", cpu, line)
        if wait is None:
            event = self.event(cpu, line)
            if event is None:
                raise LookupError(f"no event of CPU {cpu} is at line {line}: {self._lines_text(cpu)}")
            wait = self._wait_around(event)
            if wait is None:
                raise LookupError(self._reason(event))
        return wait

    def explain_each(self, waits: Waits) -> Iterator[Why]:
        """Explain some of its waits, one after the other."""
        for row in waits.array:
            yield self.explain(wait_of(row))

    def explain_together(self, waits: Waits) -> Iterator[tuple[int, Why]]:
        """Explain some of its waits, in the order that takes least time. Each comes with its index among them."""
        return enumerate(self.explain_each(waits))

    def explain(self, wait: FoundWait) -> Why:
        """Explain one of its waits."""
        return why_of(self.scene(wait), wait)._known_to(self)

    def chain(self, why: Why, steps: int, beyond: bool) -> Chain:
        """Return the chain of wakings of one of its waits. Raises what `past` raises."""
        return Follower(self.past(why.begin.stamp), self.waits, self.contexts()).chain(why, steps, beyond)

    # ---- what is asked of a recording

    def past(self, stamp: int) -> Past:
        """Return the events up to a stamp."""
        raise NotImplementedError

    def contexts(self) -> Contexts:
        """Return what finds the context of a waking."""
        raise NotImplementedError

    def scene(self, wait: FoundWait) -> Scene:
        """Return the events that explain a wait."""
        raise NotImplementedError

    def event(self, cpu: int, line: int) -> Event | None:
        """Return the event of a CPU at a line; None if it isn't there."""
        raise NotImplementedError

    def acts(self, pid: int, start: int, until: int) -> Scene:
        """Return the events that say of a task when it ran or waited, with stamps from `start` on and below `until`."""
        raise NotImplementedError

    def lines(self, cpu: int) -> tuple[int, int] | None:
        """Return the first and the last line of a CPU; None if it has no events."""
        raise NotImplementedError

    # ---- the wait of an event

    def wait_with(self, end: str, cpu: int, line: int) -> FoundWait | None:
        """Return the wait that begins, or ends, at the event of a CPU at a line."""
        mask = self.waits._column(f"{end}_line") == line
        mask &= self.waits._column(f"{end}_cpu") == cpu
        rows = self.waits[mask].array
        return wait_of(rows[0]) if len(rows) else None

    def _wait_around(self, event: Event) -> FoundWait | None:
        """Return the wait in which an event lies, or the one that it begins if that wait lasts to the end of the recording."""
        is_switch = event.name == "sched_switch"
        pid, at = event.prev_pid if is_switch else event.pid, place_of(event)
        if not pid:
            return None
        after = self._first_after(pid, at)
        if after:
            # The task ran later on, so no wait lasts from here to the end.
            return after if after.begin < at and not is_switch else None
        wait = self._lasting(pid, event)
        return wait if wait and (wait.begin == at if is_switch else wait.begin <= at) else None

    def _first_after(self, pid: int, at: Place) -> FoundWait | None:
        """Return the first wait of a task that ends after a place."""
        mask = (self.waits._column("pid") == pid) & (self.waits._column("end_stamp") >= at.stamp)
        for number in np.flatnonzero(mask).tolist():
            wait = wait_of(self.waits[[number]].array[0])
            if wait.end and wait.end > at:
                return wait
        return None

    def _lasting(self, pid: int, event: Event) -> FoundWait | None:
        """Return the wait of a task that lasts from an event, or from before it, to the end of the recording."""
        last = self.waits.held.last or 0
        return lasting_wait(self.acts(pid, self._run_before(pid, event), last + 1), pid, last)

    def _run_before(self, pid: int, event: Event) -> int:
        """Return a stamp at which a task ran before an event, if one of its waits shows that; otherwise 0."""
        ended = self.waits._column("end_stamp")[self.waits._column("pid") == pid]
        return int(ended[ended < event.stamp].max(initial=0))

    # ---- why there is none

    def _lines_text(self, cpu: int) -> str:
        """Return which lines a CPU has."""
        lines = self.lines(cpu)
        return f"its lines are {lines[0]} to {lines[1]}" if lines else "the trace has none of that CPU"

    def _reason(self, event: Event) -> str:
        """Return why an event belongs to no wait."""
        where = f"{event.name} at {event.cpu}:{event.line}"
        if event.pid is None:
            return (
                f"the event at {event.cpu}:{event.line} is none of the scheduler's four: it neither ends a wait nor begins one"
            )
        name = why_text.named(event.comm, event.pid)
        if event.name == "sched_switch" and event.pid:
            reason = f"nothing before the {where} shows what made {name} runnable"
            return f"{reason}: it was lost or left out, or the trace begins later"
        if event.name == "sched_switch":
            before = f"{why_text.named(event.prev_comm, event.prev_pid)} {why_text.way_out(event.prev_state or '')}"
            return f"the {where} ends no wait and begins none: it runs no task, and {before}"
        if not event.pid:
            return f"the {where} wakes the idle task, which waits for nothing"
        cpu = self._running(event.pid, event)
        if cpu is not None:
            return f"the {where} begins no wait: {name} still ran, on CPU {cpu}"
        return f"the {where} begins no wait: {name} is woken again before it runs"

    def _running(self, pid: int, event: Event) -> int | None:
        """Return the CPU on which a task ran at an event; None if it didn't."""
        acts = self.acts(pid, self._run_before(pid, event), event.stamp + 1)
        turns = [acts.event(at) for at in numbers((acts.name == SWITCH) & ((acts.pid == pid) | (acts.prev_pid == pid)))]
        before = [turn for turn in turns if place_of(turn) < place_of(event)]
        return before[-1].cpu if before and before[-1].pid == pid else None


class DeskExplainer(Explainer):
    """Explains the waits of the events that a desk holds."""

    def __init__(self, desk: Desk, recording: Recording | None = None) -> None:
        """Take a desk, and the recording for which it was made."""
        super().__init__(waits_of(desk, recording))
        self._scene = of_desk(desk, recording)

    def past(self, stamp: int) -> Past:
        return Past(iter([self._scene]), self._scene.holes)

    def contexts(self) -> Contexts:
        return self._scene.context_of

    def scene(self, wait: FoundWait) -> Scene:
        return self._scene

    def event(self, cpu: int, line: int) -> Event | None:
        at = self._scene.at(cpu, line)
        return None if at is None else self._scene.event(at)

    def acts(self, pid: int, start: int, until: int) -> Scene:
        mask = (self._scene.stamp >= start) & (self._scene.stamp < until)
        mask &= surroundings.is_act_of(self._scene.array, pid)
        return Scene(*surroundings.ScenePiece(self._scene.events, self._scene.line).only(mask), self._scene.holes)

    def lines(self, cpu: int) -> tuple[int, int] | None:
        lines = self._scene.line[self._scene.cpu == cpu]
        return (int(lines.min()), int(lines.max())) if len(lines) else None


class SourceExplainer(Explainer):
    """Explains the waits of a whole recording; for each, it reads the events around it."""

    def __init__(self, waits: Waits, source: Source) -> None:
        super().__init__(waits)
        self._source = source

    def explain(self, wait: FoundWait) -> Why:
        return why_in(self._source, wait)._known_to(self)

    def explain_together(self, waits: Waits) -> Iterator[tuple[int, Why]]:
        for at, why in whys_in(self._source, list(map(wait_of, waits.array))):
            yield at, why._known_to(self)

    def past(self, stamp: int) -> Past:
        return Past(scenes_before(self._source, stamp + 1), self._source.losses.holes)

    def contexts(self) -> Contexts:
        return surroundings.contexts_in(self._source)

    def scene(self, wait: FoundWait) -> Scene:
        return scene_in(self._source, wait)

    def event(self, cpu: int, line: int) -> Event | None:
        stamp = self._source.stamp_of(cpu, line)
        if stamp is None:
            return None
        scene = Scene(*surroundings.piece_of(self._source.between_micros(stamp, stamp + 1)))
        at = scene.at(cpu, line)
        return None if at is None else scene.event(at)

    def acts(self, pid: int, start: int, until: int) -> Scene:
        return surroundings.acts_of(self._source, pid, start, until)

    def lines(self, cpu: int) -> tuple[int, int] | None:
        count = surroundings.known(self._source)[-1].events.get(cpu, 0)
        return (1, count) if count else None


def explainer_of(trace: Desk | Trace | Recording | Waits) -> Explainer:
    """Return what explains these waits, or those of a desk or of what `waits` takes.

    Raises
    ------
    ValueError
        If the recording of these waits can't be read again.

    It also raises what `waits` raises, except that it takes a recording of some CPUs.
    """
    if isinstance(trace, Desk):
        return DeskExplainer(trace)
    if isinstance(trace, Waits):
        if trace.source is None:
            raise ValueError("the recording of these waits can't be read again: they were pickled, or come from a desk")
        return SourceExplainer(trace, trace.source)
    if isinstance(trace, Recording):
        if trace.choice.cpus is not None:
            return part_explainer(trace)
        return explainer_with(waits_of_recording(trace), trace)
    return explainer_with(waits_of_text(trace, ReadOptions(jobs=None)), trace)


def part_explainer(recording: Recording) -> Explainer:
    """Return what explains the waits of those events of a recording that a desk holds."""
    # Who asks reports what was lost.
    recording.is_reported = True
    with recording.desk() as desk:
        return DeskExplainer(desk, recording)


def explainer_with(waits: Waits, trace: Trace | Recording, lenient: bool = False) -> Explainer:
    """Return what explains the waits of a trace.

    Raises
    ------
    ValueError
        If its events aren't in the order of time, so that a desk has to hold them, and it can't be read again.
    """
    if waits.source:
        return SourceExplainer(waits, waits.source)
    if not isinstance(trace, Recording) and is_read_once(trace):
        raise ValueError("its events aren't in the order of time; such a trace must be a file")
    recording = trace if isinstance(trace, Recording) else read_text(path_of(trace), text_again(trace), Choice(), lenient)
    # The waits have reported what was lost.
    recording.is_reported = True
    return part_explainer(recording)


# ---- waits


def lasting_at(waits: Waits, stamp: int | None) -> Waits:
    """Return the waits that begin, last or end at a stamp; all of them if it is None."""
    if stamp is None:
        return waits
    return waits[(waits._column("begin_stamp") <= stamp) & (stamp <= waits._column("end_stamp"))]


def greatest(waits: Waits, most: int | None, doubtful: bool) -> Waits:
    """Return the `most` longest waits, or all if it is None, the longest first; doubtful ones only if they are asked for."""
    waits = waits if doubtful else waits[~waits._column("doubtful")]
    micros = waits._column("micros")
    if most is not None and most < len(waits):
        # Only those that may be among them are put in order.
        at = np.flatnonzero(micros >= np.partition(micros, len(waits) - most)[len(waits) - most])
        waits, micros = waits[at], micros[at]
    longest: NDArray[np.int64] = (-micros).argsort(kind="stable")[:most]
    return waits[longest]


def wait_of(row: Any) -> FoundWait:
    """Return the wait of a row of `Waits.array`."""
    begin, end = (Place(*(int(row[f"{end}_{name}"]) for name in Place._fields)) for end in ("begin", "end"))
    return FoundWait(str(row.kind), int(row.pid), begin, end)


def lasting_wait(acts: Scene, pid: int, last: int) -> FoundWait | None:
    """Return the wait of a task that lasts to the end of a recording: the one that the engine finds if a switch to the task
    comes last. `acts` has all events that say of the task since it last ran when it ran or waited, and `last` is the last
    stamp."""
    turns = numbers((acts.name == SWITCH) & (acts.pid == pid))
    events = [acts.event(at) for at in range(turns[-1] if turns else 0, len(acts.events))]
    cpu = max((event.cpu for event in events), default=0)
    other = pid + 1
    front = f"x-{other} [{cpu}] {seconds(last)}: sched_switch: prev_comm=x prev_pid={other} prev_prio=0 prev_state=S"
    lines = [*map(line_text, events), f"{front} ==> next_comm=x next_pid={pid} next_prio=0"]
    with Desk() as desk:
        desk.load("\n".join(lines).encode())
        records = held_waits(desk._session).records()
    count = 1 + sum(event.cpu == cpu for event in events)
    for record in records[(records["end_cpu"] == cpu) & (records["end_line"] == count)]:
        of_cpu = [event for event in events if event.cpu == record["begin_cpu"]]
        return FoundWait(KINDS[record["kind"]], pid, place_of(of_cpu[record["begin_line"] - 1]), None)
    return None


def line_text(event: Event) -> str:
    """Return an event as a line of a trace, with as much of it as a wait needs."""
    front = f"x-{max(event.common_pid, 0)} [{event.cpu}] {seconds(event.stamp)}: {event.name}:"
    if event.name != "sched_switch":
        return f"{front} comm=x pid={event.pid} prio=0 target_cpu=0"
    left = f"prev_comm=x prev_pid={event.prev_pid} prev_prio=0 prev_state={event.prev_state}"
    return f"{front} {left} ==> next_comm=x next_pid={event.pid} next_prio=0"
