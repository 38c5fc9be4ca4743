"""A plain reckoning of chains of wakings: it reads a trace's text by regular expressions and goes once through its events, and
at each waking notes what the waker has done until then. It uses neither the package nor the program; it was written from what
docs/REFERENCE.md says that a chain is. Chains are found from the wakings on, not from a wait backwards as in the package."""

from __future__ import annotations

import random
import re
from typing import NamedTuple

import recordings
from plain_waits import LINE, SWITCH, WAKE, Lives, acts_of, lines_of
from recordings import Place

# A chain has at most so many steps.
STEPS = 32
INTERRUPT = re.compile(r"\] +[^ ]{2}[hHszZ]")
# A waking of a simulated machine, with its CPU.
WAKING = re.compile(r" *<idle>-0 \[([0-9]+)\] d\.h2\. (.* sched_wak.*)")
SWITCHED = re.compile(r".*\[([0-9]+)\] .* sched_switch: .* next_comm=(.*) next_pid=([0-9]+) next_prio=.*")


class Step(NamedTuple):
    """A step of a chain, in microseconds; `slept` is None if it isn't known."""

    pid: int
    cpu: int
    since: int
    until: int
    waited: int
    ran: int
    preemptions: int
    slept: int | None


class Known(NamedTuple):
    """The steps of a chain, and why it ends."""

    steps: list[Step]
    end: str


class Link(NamedTuple):
    """A step, whether it begins with a creation, and what it follows from: another link, or why there is none."""

    step: Step
    is_new: bool
    cause: Link | str


class Begin(NamedTuple):
    """A waking or creation of a task: when it was, and what it follows from; and how long the task had slept."""

    stamp: int
    cause: Link | str
    slept: int | None


class Task:
    """What is known of a task at a moment."""

    def __init__(self) -> None:
        # Since it last ran: the last waking, and the last creation.
        self.waking: Begin | None = None
        self.creation: Begin | None = None
        # Its last switch: whether it was one to it, and when.
        self.act: tuple[bool, int] | None = None
        # Since when it runs, if it does.
        self.runs_since: int | None = None
        self.starts(0, "start", None)

    def starts(self, since: int, cause: Link | str, slept: int | None, is_new: bool = False) -> None:
        """From now on the task is runnable, by a cause that is known or not."""
        self.since, self.cause, self.slept, self.is_new = since, cause, slept, is_new
        self.waited = self.ran = self.preemptions = 0

    def link(self, pid: int, cpu: int, now: int) -> Link:
        """What the task has done until now."""
        ran = self.ran + (0 if self.runs_since is None else now - self.runs_since)
        step = Step(pid, cpu, self.since, now, self.waited, ran, self.preemptions, self.slept)
        return Link(step, self.is_new, self.cause)


class Machine:
    """Goes through the events of a trace."""

    def __init__(self) -> None:
        # What waits begin with.
        self.lives = Lives()
        self.tasks: dict[int, Task] = {}
        self.running: dict[int, int] = {}
        # The tasks that have run at some event.
        self.seen: set[int] = set()
        # The waits that have ended, by the places of the switches.
        self.links: dict[tuple[int, int, int], Link] = {}

    def task(self, pid: int) -> Task:
        return self.tasks.setdefault(pid, Task())

    def at_event(self, cpu: int, pid: int, now: int) -> None:
        """A task runs at an event. If nothing was known of the CPU, it has run since before the recording."""
        if cpu not in self.running and pid:
            self.task(pid).starts(now, "start", None)
            self.task(pid).runs_since = now
        self.running[cpu] = pid
        self.seen.add(pid)

    def wakes(self, cpu: int, waker: int, pid: int, now: int, is_new: bool, has_interrupt: bool) -> None:
        task = self.task(pid)
        if has_interrupt and not is_new:
            cause: Link | str = "interrupt"
        elif not waker:
            cause = "idle"
        else:
            cause = "interrupt" if waker == pid else self.task(waker).link(waker, cpu, now)
        if is_new:
            task.creation = Begin(now, cause, None)
            return
        slept = None if task.act is None else 0 if task.act[0] else now - task.act[1]
        task.waking = Begin(now, cause, slept)

    def leaves(self, pid: int, now: int) -> None:
        """A CPU is taken from a task."""
        task = self.task(pid)
        if task.runs_since is not None:
            task.ran += now - task.runs_since
        task.runs_since, task.act = None, (False, now)

    def runs(self, cpu: int, pid: int, now: int, line: int) -> None:
        """A CPU goes to a task."""
        task, life = self.task(pid), self.lives.of(pid)
        kind, begin = life.begins() or ("", None)
        is_sure = begin is not None and not life.slept_after(kind, begin)
        if begin is None:
            task.starts(now, "missing" if task.act or pid in self.seen else "start", None)
        elif kind == "preempted":
            task.waited += now - begin.stamp
            task.preemptions += 1
        else:
            begun = task.creation if kind == "new" else task.waking
            assert begun and begun.stamp == begin.stamp
            if kind == "new" or is_sure and (life.left is None or life.is_left_asleep()):
                task.starts(begun.stamp, begun.cause, begun.slept, kind == "new")
            else:
                # When it fell asleep before that, or what woke it last, isn't known.
                task.starts(begun.stamp, "missing", None)
            task.waited = now - begun.stamp
        if begin is not None:
            self.links[now, cpu, line] = task.link(pid, cpu, now)
            if not is_sure:
                task.starts(now, "missing", None)
        task.waking = task.creation = None
        task.runs_since, task.act = now, (True, now)


def machine_of(text: bytes) -> Machine:
    """The machine after all events of a text, which are in the order of time."""
    machine, counts = Machine(), {}
    acts = {act.place: act for act in acts_of(text)}
    for found in filter(None, map(LINE.fullmatch, lines_of(text))):
        cpu, pid, now = int(found["cpu"]), int(found["runs"]), int(found["s"]) * 1000000 + int(found["us"])
        counts[cpu] = counts.get(cpu, 0) + 1
        machine.at_event(cpu, pid, now)
        act = acts.get(Place(now, cpu, counts[cpu]))
        if act is None:
            continue
        if act.event in ("sched_waking", "sched_wakeup_new"):
            is_new = act.event == "sched_wakeup_new"
            machine.wakes(cpu, pid, act.pid, now, is_new, bool(INTERRUPT.search(found[0])))
        elif act.event == "sched_switch":
            if act.before:
                machine.leaves(act.before, now)
            if act.pid:
                machine.runs(cpu, act.pid, now, counts[cpu])
            machine.running[cpu] = act.pid
        machine.lives.take(act)
    return machine


def chains_of(text: bytes, beyond: bool) -> dict[tuple[int, int, int], Known]:
    """The chain of each wait, by stamp, CPU and line of the switch that ends it."""
    return {place: chain_of(link, beyond) for place, link in machine_of(text).links.items()}


def chain_of(link: Link, beyond: bool) -> Known:
    """The chain that begins with a link."""
    first, steps = link, [link.step]
    slept = 0 if first.is_new else first.step.slept
    while True:
        if link.cause in ("interrupt", "idle"):
            return Known(steps, str(link.cause))
        is_awake = link is not first and slept is not None and link.step.since <= first.step.since - slept
        if is_awake and not beyond:
            return Known(steps, "awake")
        if not isinstance(link.cause, Link):
            return Known(steps, link.cause)
        if len(steps) == STEPS:
            return Known(steps, "limit")
        link = link.cause
        steps.append(link.step)


# ---- recordings


def simulated(seed: int, steps: int, wakes_preempted: bool = True) -> bytes:
    """What a simulated machine writes down, with each waking by the task that runs on its CPU, or by an interrupt there. The
    first quarter is cut off for every other machine. Unless it is asked for, no task that was preempted is woken: such a waking
    changes nothing, but if the switch is lost, nobody can know that."""
    chance, running, preempted, lines = random.Random(seed), {}, set(), []
    for text in recordings.simulated(seed, steps).text.decode("utf-8", "surrogateescape").split("\n"):
        waking, switch, wake = WAKING.fullmatch(text), SWITCHED.fullmatch(text), WAKE.search(text)
        if switch:
            running[switch[1]] = f"{switch[2]}-{switch[3]}"
            left = SWITCH.search(text)
            preempted -= {left[4]}
            preempted |= {left[1]} if left[2] in ("R", "R+") else set()
        elif wake and wake[2] in preempted and not wakes_preempted:
            continue
        elif waking and not running.get(waking[1], "-0").endswith("-0"):
            flags = chance.choice(["d..2.", "d..2.", "d..2.", "d..2.", "d..2.", "d.h2.", "d.s2."])
            text = f"{running[waking[1]]:>23} [{waking[1]}] {flags} {waking[2]}"
        lines.append(text)
    events = [text for text in lines if ": sched_" in text]
    return "\n".join(events[len(events) // 4 * (seed % 2) :] + [""]).encode("utf-8", "surrogateescape")


def damaged(text: bytes, seed: int) -> tuple[bytes, dict[int, list[int]]]:
    """A text that has lost events of some CPUs, and says so; and for each CPU, which lines its events had before."""
    chance, lines = random.Random(seed), text.decode("utf-8", "surrogateescape").split("\n")[:-1]
    lanes: dict[int, list[int]] = {}
    for at, line in enumerate(lines):
        lanes.setdefault(int(line.partition("[")[2][:3]), []).append(at)
    lost: dict[int, str] = {}
    for cpu, lane in lanes.items():
        for _ in range(2):
            first, count = chance.randrange(1, len(lane) - 12), chance.randrange(1, 10)
            if not any(at in lost for at in lane[first - 1 : first + count + 1]):
                lost.update({at: "" for at in lane[first : first + count]})
                lost[lane[first + count]] = f"CPU:{cpu} [LOST {count} EVENTS]\n{lines[lane[first + count]]}"
    kept = {cpu: [number for number, at in enumerate(lane, 1) if lost.get(at, "x")] for cpu, lane in lanes.items()}
    rest = [lost.get(at, line) for at, line in enumerate(lines)]
    return "".join(f"{line}\n" for line in rest if line).encode("utf-8", "surrogateescape"), kept
