"""A plain reckoning of what a trace sums up to, by task and by CPU: it goes through the events of plain_waits.py one by one. It
uses neither the package nor the program; it was written from what include/histdesk.h says that the figures are."""

from collections import Counter
from typing import Callable, Dict, List, NamedTuple, Set, Tuple

from plain_waits import Event, events_of


class Task(NamedTuple):
    """What a trace sums up to for a task, by its PID."""

    run_time: int
    switches: int
    preempted: int
    slept: int
    blocked: int
    moved: int
    pid: int


class Cpu(NamedTuple):
    """What a trace sums up to for a CPU, by its number."""

    idle: int
    unknown: int
    idle_with_waiters: int
    longest: int
    longest_from: int
    cpu: int


class Run(NamedTuple):
    """A run of a task on a CPU of which both switches are known."""

    pid: int
    cpu: int
    begin: int
    end: int


def runs_of(events: List[Event]) -> List[Run]:
    """The runs of which both switches are known: the CPU went to the task that it leaves next."""
    last: Dict[int, Event] = {}
    found = []
    for event in events:
        if event.event == "sched_switch":
            begun = last.get(event.place.cpu)
            if begun and begun.pid == event.before:
                found.append(Run(begun.pid, event.place.cpu, begun.place.stamp, event.place.stamp))
            last[event.place.cpu] = event
    return found


def unknown_on(cpu: int, events: List[Event]) -> int:
    """How long it isn't known what a CPU ran: between two switches of it of which the second leaves another task than the first
    one went to."""
    own = [event for event in events if event.event == "sched_switch" and event.place.cpu == cpu]
    return sum(later.place.stamp - event.place.stamp for event, later in zip(own, own[1:]) if later.before != event.pid)


def spans_with_waiters(events: List[Event]) -> List[Tuple[int, int]]:
    """The stretches from the stamp of one event to that of the next in which some task waits: it doesn't run, and the last
    event that names it woke it, created it, or left it in a state in which it can run."""
    running: Set[int] = set()
    runnable: Set[int] = set()
    found = []
    for event, later in zip(events, [*events[1:], None]):
        if event.event != "sched_switch":
            runnable.add(event.pid)
        else:
            running.discard(event.before)
            (runnable.add if event.state in ("R", "R+") else runnable.discard)(event.before)
            running.add(event.pid)
        if later and runnable - running - {0}:
            found.append((event.place.stamp, later.place.stamp))
    return found


def ended_as(state: str) -> str:
    """Which figure counts that a task is left in a state, if one does."""
    figures = {"R": "preempted" if state in ("R", "R+") else "", "S": "slept", "I": "slept", "D": "blocked"}
    return figures.get(state[:1], "")


def longest_of(idle: List[Tuple[Run, int]]) -> Tuple[int, int]:
    """The most time with waiters that one idle run has, and when the first such run began; zeros if none has any."""
    found = (0, 0)
    for run, waited in reversed(idle):
        if waited and waited >= found[0]:
            found = (waited, run.begin)
    return found


def sums_of(text: bytes, without: Callable[[str], bool] = lambda line: False) -> Tuple[List[Task], List[Cpu]]:
    """What a trace sums up to by task and by CPU; lines that are left out wake, create and switch nothing."""
    events = sorted(events_of(text, without))
    switches = [event for event in events if event.event == "sched_switch"]
    figures: Dict[int, Counter] = {pid: Counter() for event in events for pid in (event.pid, event.before) if pid != 0}
    on: Dict[int, int] = {}
    for event in switches:
        if event.before != event.pid:
            figures.get(event.before, Counter())[ended_as(event.state)] += 1
            figures.get(event.pid, Counter())["moved"] += on.get(event.pid, event.place.cpu) != event.place.cpu
        figures.get(event.pid, Counter())["switches"] += 1
        on[event.before] = on[event.pid] = event.place.cpu
    runs, spans = runs_of(events), spans_with_waiters(events)
    for run in runs:
        figures.get(run.pid, Counter())["run_time"] += run.end - run.begin
    idle = [(run, sum(end - begin for begin, end in spans if run.begin <= begin < run.end)) for run in runs if run.pid == 0]
    tasks = [Task(*(figures[pid][field] for field in Task._fields[:-1]), pid) for pid in sorted(figures)]
    cpus = []
    for cpu in sorted({event.place.cpu for event in switches}):
        own = [(run, waited) for run, waited in idle if run.cpu == cpu]
        idle_time, waited = sum(run.end - run.begin for run, _ in own), sum(waited for _, waited in own)
        cpus.append(Cpu(idle_time, unknown_on(cpu, events), waited, *longest_of(own), cpu))
    return tasks, cpus
