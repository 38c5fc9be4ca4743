"""One wait as plain data: who woke the task, and what ran on all CPUs from before it began until after it ended."""

from __future__ import annotations

from typing import Any, Iterator, NamedTuple, Sequence

from ..desk.slices import Source
from ..explain.scene import FORKED, PREEMPTED, WOKEN, Scene, FoundWait, Wants, spanned
from ..explain.surroundings import gather
from ..explain.why import Why, why_in
from ..explain.why import why_of as explain
from ..trace.losses import Hole
from ..waiting.wait_answer import Held

Json = dict[str, Any]

# How wide a text is, in columns, so that its sentences stay whole.
WIDE = 1 << 16
# What is reported before and after a wait: its length divided by PART, and at least LEAST microseconds.
PART, LEAST = 5, 50
# About how many stretches are reported at most, and how many each CPU may have in any case; about how many events are looked at
# around a wait, and about how many at once around waits that lie close together.
MOST, LANE, ROOM, GROUP = 5000, 100, 1 << 17, 1 << 16
# About how many events before and after are read at once: most CPUs have one among them that says what ran there.
EDGE_EVENTS = 1 << 13
KIND_NAMES = {WOKEN: "woken", FORKED: "forked", PREEMPTED: "preempted"}


class Window(NamedTuple):
    """The stretch of time that is asked for.

    Attributes
    ----------
    start, stop
        Its first stamp and its last one, in microseconds; None is some time before the wait, or after it.
    """

    start: int | None = None
    stop: int | None = None


class Extent(NamedTuple):
    """The stretch of time that is reported.

    Attributes
    ----------
    start, stop
        The stamps at which it begins and ends, in microseconds.
    is_cut
        Whether more was asked for.
    """

    start: int
    stop: int
    is_cut: bool = False


def strip_in(source: Source, wait: FoundWait, window: Window, held: Held, most: int = MOST) -> Json:
    """Return a wait of a whole recording, and what ran around it.

    Parameters
    ----------
    source
        The recording.
    wait
        The wait.
    window
        The stretch of time that is asked for.
    held
        What is known of the recording's events.
    most
        About how many stretches are reported at most.

    Raises
    ------
    OSError
        If the recording can't be read again.
    ValueError
        If its file has changed, or if the window ends before it begins.
    """
    extent = extent_of(wait, window, held)
    until = held.last if wait.end is None else wait.end.stamp
    margin = max(wait.begin.stamp - extent.start, extent.stop - (until or 0)) + room_of(held, EDGE_EVENTS)
    if window == Window() and not extent.is_cut:
        return gather(source, wait, lambda scene: strip_of(scene, explain(scene, wait), extent, held.cpus, most), margin)
    # The extent may be elsewhere, or a part of the wait.
    why, stretch = why_in(source, wait), stretch_as(wait, extent.start, extent.stop)
    return gather(source, stretch, lambda scene: strip_of(scene, why, extent, held.cpus, most), room_of(held, EDGE_EVENTS))


def strips_in(source: Source, waits: Sequence[FoundWait], held: Held, most: int = MOST) -> Iterator[Json]:
    """Return what `strip_in` returns for several waits, in the order in which they begin. Events around waits that lie close
    together are read once."""
    for group in request_groups_of(waits, held):
        if len(group) == 1:
            yield strip_in(source, group[0].wait, Window(), held, most)
        else:
            yield from together(source, group, held, most)


class Request(NamedTuple):
    """A wait, and the stretch of time to report."""

    wait: FoundWait
    extent: Extent


def request_groups_of(waits: Sequence[FoundWait], held: Held) -> Iterator[list[Request]]:
    """Return waits in groups, each of which has few enough events in what is to be reported."""
    group: list[Request] = []
    for wait in waits:
        one = Request(wait, extent_of(wait, Window(), held))
        if group and max(other.extent.stop for other in [*group, one]) - group[0].extent.start > room_of(held, GROUP):
            yield group
            group = []
        group.append(one)
    if group:
        yield group


def together(source: Source, group: Sequence[Request], held: Held, most: int) -> list[Json]:
    """Return what `strip_in` returns for some waits that lie close together."""
    strips: dict[int, Json] = {}

    def tell(scene: Scene) -> None:
        wants = Wants()
        for at, (wait, extent) in enumerate(group):
            if at not in strips:
                scene.wants = Wants()
                strip = strip_of(scene, explain(scene, wait), extent, held.cpus, most)
                if not scene.wants.any():
                    strips[at] = strip
                wants.add(scene.wants)
        scene.wants = wants

    first, last = (edge(getattr(one.extent, end) for one in group) for edge, end in ((min, "start"), (max, "stop")))
    gather(source, stretch_as(group[0].wait, first, last), tell, room_of(held, EDGE_EVENTS))
    return [strips[at] for at in range(len(group))]


def stretch_as(wait: FoundWait, start: int, stop: int) -> FoundWait:
    """Return a stretch of time in the form of a wait, by which events are gathered."""
    return wait._replace(begin=wait.begin._replace(stamp=start), end=wait.begin._replace(stamp=stop))


def room_of(held: Held, events: int) -> int:
    """Return how many microseconds have about so many events, if events are strewn evenly."""
    return max(((held.last or 0) - (held.first or 0)) * events // max(held.events, 1), 1)


def extent_of(wait: FoundWait, window: Window, held: Held) -> Extent:
    """Return what is to be reported of a wait, as far as the recording goes: all of the wait, and beside it no more than has
    about `ROOM` events.

    Raises
    ------
    ValueError
        If the window ends before it begins.
    """
    first, last = held.first or 0, held.last or 0
    begin, until = wait.begin.stamp, last if wait.end is None else wait.end.stamp
    margin = max((until - begin) // PART, LEAST)
    start = begin - margin if window.start is None else window.start
    stop = until + margin if window.stop is None else window.stop
    if start >= stop:
        raise ValueError("until must be after from")
    start, stop = min(max(start, first), last), max(min(stop, last), first)
    room = max(room_of(held, ROOM), until - begin + 2 * LEAST)
    if stop - start <= room:
        return Extent(start, stop)
    spare = (room - (until - begin)) // 2
    start = max(min(begin - spare, stop - room), start)
    return Extent(start, start + room, window != Window())


def strip_of(scene: Scene, why: Why, extent: Extent, cpus: Sequence[int], most: int = MOST) -> Json:
    """Return a wait, and what ran around it.

    Parameters
    ----------
    scene
        The events; those of the extent are among them.
    why
        What is known of the wait.
    extent
        The stretch of time to report.
    cpus
        The CPUs to report.
    most
        About how many stretches are reported at most.
    """
    own = lanes(scene, extent, cpus, why.pid, most)
    return {
        # A page breaks lines itself.
        "text": why.text(width=WIDE),
        "kind": why.kind,
        "task": why.task,
        "pid": why.pid,
        "prio": why.prio,
        "begin": why.begin.stamp,
        "end": why.until,
        "is_over": why.end is not None,
        "doubtful": why.doubtful,
        "cpu": why.cpu,
        "who": {**why.waker._asdict(), "cpu": why.begin.cpu, "context": why.context},
        "from": extent.start,
        "until": extent.stop,
        "cut": extent.is_cut,
        "thin": any("count" in stretch for lane in own for stretch in lane["stretches"]),
        "cpus": own,
        "holes": [hole_json(hole) for hole in spanned(scene.holes, extent.start, extent.stop)],
        "marks": marks(why),
        "shares": [share._asdict() for share in why.shares],
    }


def lanes(scene: Scene, extent: Extent, cpus: Sequence[int], own: int, most: int) -> list[Json]:
    """Return what ran on each CPU, in about `most` stretches together at most; those of the task `own` are all there."""
    # A Python without numpy may import this module.
    from .thinning import thin

    low, high = scene.stamp.searchsorted(extent.start), scene.stamp.searchsorted(extent.stop, "right")
    events = range(int(low), int(high))
    # If a wait has very many events, only those of its CPUs are there.
    known = [cpu for cpu in cpus if scene.knows(cpu)] or cpus
    ran = ((cpu, scene.between(cpu, events, extent.start, extent.stop)) for cpu in known)
    return [{"cpu": cpu, "stretches": thin(one, max(most // len(cpus), LANE), own)} for cpu, one in ran]


def hole_json(hole: Hole) -> Json:
    """Return a stretch of time in which events were lost."""
    return {"cpu": hole.cpu, "after": hole.after, "before": hole.before}


def marks(why: Why) -> list[Json]:
    """Return what happened to the task, and where, in order."""
    events: list[tuple[int, int, str]] = [(why.begin.stamp, why.begin.cpu, KIND_NAMES[why.kind])]
    if why.slept:
        events.append((why.slept.stamp, why.slept.cpu, "slept"))
    if why.queued:
        events.append((why.queued.stamp, why.queued.target_cpu or 0, "queued"))
    if why.end:
        events.append((why.end.stamp, why.end.cpu, "ran"))
    # Events with the same stamp stay in this order.
    events.sort(key=lambda event: event[0])
    return [{"cpu": cpu, "stamp": stamp, "what": what} for stamp, cpu, what in events]
