"""A plain reckoning of what each CPU did in each microsecond of a recording. It reads the lines by regular expressions
(plain_waits.py), and uses neither the package nor the program; it was written from what docs/GUIDE.md says of the timeline."""

from typing import Dict, List, NamedTuple, Optional, Tuple

from plain_waits import LINE, SWITCH, gaps_of, lines_of, waits_of
from recordings import Gap, spans

UNKNOWN = (None, "")


class Event(NamedTuple):
    """A line of a CPU: its stamp, the task that ran when it was written, and the one that runs after it."""

    stamp: int
    before: Tuple[int, str]
    runs: int
    after: Tuple[int, str]
    is_switch: bool


class Timeline(NamedTuple):
    """What a recording did: the stamp of its first event; for each CPU the PID and the name of what it ran in each microsecond,
    or `UNKNOWN`; and how many tasks waited in each."""

    first: int
    ran: Dict[int, List[Tuple[Optional[int], str]]]
    waiting: List[int]


class Part(NamedTuple):
    """A part of the time of a CPU, in microseconds; in the rest it ran tasks."""

    idle: int
    waited: int
    unknown: int


def task_of(pid: str, name: str) -> Tuple[int, str]:
    """A task; an idle CPU has no name."""
    return (int(pid), name) if int(pid) else (0, "")


def lanes_of(text: bytes) -> Dict[int, List[Event]]:
    """The events of each CPU, in the order of time."""
    lanes: Dict[int, List[Event]] = {}
    for line in filter(None, map(LINE.fullmatch, lines_of(text))):
        switch = SWITCH.fullmatch(line["rest"]) if line["event"] == "sched_switch" else None
        runs = task_of(line["runs"], line["task"])
        before, after = runs, runs
        if switch:
            name = line["rest"].split("prev_comm=", 1)[1].split(" prev_pid=", 1)[0]
            before, after = task_of(switch[1], name), task_of(switch[4], switch[3])
        stamp = int(line["s"]) * 1000000 + int(line["us"])
        lanes.setdefault(int(line["cpu"]), []).append(Event(stamp, before, runs[0], after, bool(switch)))
    return {cpu: sorted(events, key=lambda event: event.stamp) for cpu, events in sorted(lanes.items())}


def ran_on(events: List[Event], gaps: List[Gap], first: int, last: int) -> List[Tuple[Optional[int], str]]:
    """What a CPU ran in each microsecond between two stamps. What ran after an event is what it says, up to the next event; a
    switch there knows the name better. If that event was written by another task, nothing is known between them."""
    ran: List[Tuple[Optional[int], str]] = []
    now = events[0].before
    for at, event in enumerate(events):
        known = not at or events[at - 1].after[0] == event.runs
        if not known:
            # Up to the last event before, the CPU ran what that event says.
            ran += [now] * (events[at - 1].stamp - first - len(ran))
            ran += [UNKNOWN] * (event.stamp - first - len(ran))
            now = event.before
        if event.is_switch:
            ran += [event.before] * (event.stamp - first - len(ran))
            now = event.after
    ran += [now] * (last - first - len(ran))
    for gap in gaps:
        low = first if gap.after is None else gap.after
        high = last if gap.before is None else gap.before
        ran[low - first : high - first] = [UNKNOWN] * (high - low)
    return ran


def timeline_of(text: bytes) -> Timeline:
    """What a recording did. A wait doesn't count if the CPU on which it began or ended lost events during it."""
    lanes, gaps = lanes_of(text), gaps_of(text)
    stamps = [event.stamp for events in lanes.values() for event in events]
    first, last = min(stamps), max(stamps)
    changes = [0] * (last - first + 1)
    for wait in waits_of(text):
        if not any(spans(wait, gap) for gap in gaps if gap.cpu in (wait.begin.cpu, wait.end.cpu)):
            changes[wait.begin.stamp - first] += 1
            changes[wait.end.stamp - first] -= 1
    waiting, count = [], 0
    for change in changes[:-1]:
        count += change
        waiting.append(count)
    ran = {cpu: ran_on(events, [gap for gap in gaps if gap.cpu == cpu], first, last) for cpu, events in lanes.items()}
    return Timeline(first, ran, waiting)


def part_of(timeline: Timeline, cpu: int, low: int, high: int) -> Part:
    """What a CPU did between two times, which are counted from the first event."""
    both = list(zip(timeline.ran[cpu][low:high], timeline.waiting[low:high]))
    idle = [count for (pid, _), count in both if pid == 0]
    return Part(len(idle), sum(count > 0 for count in idle), sum(pid is None for (pid, _), _ in both))


def runs_of(timeline: Timeline, cpu: int) -> List[Tuple[int, int, Tuple[Optional[int], str]]]:
    """What a CPU ran, as stretches: when each begins and ends, and what ran in it. Equal neighbours are one."""
    runs: List[Tuple[int, int, Tuple[Optional[int], str]]] = []
    for at, task in enumerate(timeline.ran[cpu]):
        if runs and runs[-1][2] == task:
            runs[-1] = (runs[-1][0], at + 1, task)
        else:
            runs.append((at, at + 1, task))
    return runs
