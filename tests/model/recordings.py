"""Small recordings of which it is known what is true: by hand, or because a simulated scheduler wrote them.

    recordings.py FOLDER

writes them all into a folder, as NAME.trace. What tests import from here uses neither the package nor the program.
"""

import os
import random
import sys
from typing import Callable, Dict, List, NamedTuple, Optional, Tuple

HEADER = """# tracer: nop
#
# entries-in-buffer/entries-written: {in_buffer}/{written}   #P:4
#
#                                _-----=> irqs-off/BH-disabled
#                               / _----=> need-resched
#                              | / _---=> hardirq/softirq
#                              || / _--=> preempt-depth
#                              ||| / _-=> migrate-disable
#                              |||| /     delay
#           TASK-PID     CPU#  |||||  TIMESTAMP  FUNCTION
#              | |         |   |||||     |         |
"""


class Place(NamedTuple):
    """Where an event stands: its stamp in microseconds, its CPU, and which event of that CPU it is, counted from 1."""

    stamp: int
    cpu: int
    line: int


class Wait(NamedTuple):
    """A wait: its kind, whose it was, and where the events stand that begin and end it."""

    kind: str
    pid: int
    name: str
    prio: int
    begin: Place
    end: Place
    doubtful: bool = False

    @property
    def micros(self) -> int:
        return self.end.stamp - self.begin.stamp


class Gap(NamedTuple):
    """A stretch of time of which events of a CPU are missing, as the package's `Hole` tells it, without the line. The CPU may
    be unknown."""

    cpu: Optional[int]
    after: Optional[int]
    before: Optional[int]
    lost: Optional[int]


class Known(NamedTuple):
    """A trace, and what is true of it: the waits that its events tell of, in the order in which they end, and its gaps."""

    text: bytes
    waits: Tuple[Wait, ...]
    gaps: Tuple[Gap, ...] = ()


# ---- lines


def stamp(micros: int) -> str:
    """A stamp as the kernel prints it."""
    return f"{micros // 1000000}.{micros % 1000000:06}"


def line(task: str, cpu: int, micros: int, event: str) -> str:
    """A line of a trace; `task` is its name, `-` and its number."""
    return f"{task:>23} [{cpu:03}] d.h2. {stamp(micros):>12}: {event}"


def waking(cpu: int, micros: int, pid: int, *, name: str = "w", target: int = 0, event: str = "sched_waking") -> str:
    """A waking, or another event with its fields."""
    return line("<idle>-0", cpu, micros, f"{event}: comm={name} pid={pid} prio=120 target_cpu={target:03}")


def switch(
    cpu: int, micros: int, before: str, after: str, *, state: str = "S", prio: int = 120, task: Optional[str] = None
) -> str:
    """A switch from a task to another one, each given as its name, `-` and its number; `task` is what stands at the line's
    beginning, if not the first one."""
    (old, old_pid), (new, new_pid) = (task.rsplit("-", 1) for task in (before, after))
    left = f"prev_comm={old} prev_pid={old_pid} prev_prio=120 prev_state={state}"
    return line(task or before, cpu, micros, f"sched_switch: {left} ==> next_comm={new} next_pid={new_pid} next_prio={prio}")


def text_of(lines: List[str], *, in_buffer: Optional[int] = None, lost: int = 0) -> bytes:
    """A trace with the kernel's header, of lines; `surrogateescape` turns names that aren't UTF-8 into their bytes."""
    events = sum(": sched_" in text for text in lines)
    held = events if in_buffer is None else in_buffer
    header = HEADER.format(in_buffer=held, written=held + lost)
    return (header + "".join(text + "\n" for text in lines)).encode("utf-8", "surrogateescape")


# ---- known by hand


def hole_at_start() -> Known:
    """CPU 2's buffer begins 1.25 s late. Task 42 is woken, and ran on CPU 2, slept and was woken there, which nobody sees any
    more; the switch that runs it on CPU 0 then pairs with the old waking. So does a new task's, and one that was preempted."""
    lines = [
        switch(0, 1000000, "<idle>-0", "first-7", state="R"),
        waking(0, 1000100, 42, name="victim", target=2),
        waking(1, 1000200, 43, name="child", target=2, event="sched_wakeup_new"),
        switch(1, 1000300, "thrown-44", "<idle>-0", state="R+"),
        switch(0, 2130499, "first-7", "victim-42"),
        switch(1, 2150000, "<idle>-0", "child-43", state="R"),
        switch(1, 2160000, "child-43", "thrown-44"),
        "##### CPU 2 buffer started ####",
        switch(2, 2250000, "<idle>-0", "late-8", state="R"),
        waking(1, 2250000, 45, name="edge", target=1),
        waking(0, 2300000, 46, name="true", target=2),
        switch(1, 2310000, "thrown-44", "edge-45"),
        switch(2, 2620761, "late-8", "true-46"),
    ]
    waits = [
        Wait("woken", 42, "victim", 120, Place(1000100, 0, 2), Place(2130499, 0, 3), True),
        Wait("new", 43, "child", 120, Place(1000200, 1, 1), Place(2150000, 1, 3), True),
        Wait("preempted", 44, "thrown", 120, Place(1000300, 1, 2), Place(2160000, 1, 4), True),
        # It begins with the stamp at which the hole ends.
        Wait("woken", 45, "edge", 120, Place(2250000, 1, 5), Place(2310000, 1, 6)),
        Wait("woken", 46, "true", 120, Place(2300000, 0, 4), Place(2620761, 2, 2)),
    ]
    return Known(text_of(lines, in_buffer=12, lost=474361), tuple(waits), (Gap(2, None, 2250000, None),))


def lost_in_middle() -> Known:
    """CPU 3 lost 5,948 events, in which task 51 ran and slept: its wait of 644,589 us is false. What began and ended before the
    hole, or after it, or began at its last moment, is true."""
    lines = [
        waking(0, 5000000, 50, name="before", target=3),
        switch(3, 5000040, "<idle>-0", "before-50", state="R"),
        waking(0, 5000050, 51, name="within", target=3),
        waking(0, 5000060, 52, name="meanwhile", target=1),
        switch(3, 5000100, "before-50", "<idle>-0"),
        switch(1, 5300000, "<idle>-0", "meanwhile-52", state="R"),
        "CPU:3 [LOST 5948 EVENTS]",
        switch(3, 5600000, "<idle>-0", "other-53", state="R"),
        switch(3, 5644639, "other-53", "within-51"),
        waking(0, 5700000, 50, name="before", target=3),
        switch(3, 5835938, "within-51", "before-50"),
    ]
    waits = [
        Wait("woken", 50, "before", 120, Place(5000000, 0, 1), Place(5000040, 3, 1)),
        Wait("woken", 52, "meanwhile", 120, Place(5000060, 0, 3), Place(5300000, 1, 1), True),
        Wait("woken", 51, "within", 120, Place(5000050, 0, 2), Place(5644639, 3, 4), True),
        Wait("woken", 50, "before", 120, Place(5700000, 0, 4), Place(5835938, 3, 5)),
    ]
    return Known(text_of(lines), tuple(waits), (Gap(3, 5000100, 5600000, 5948),))


ODD_NAMES = (
    "a b",
    " lead",
    "a-12 [003] x",
    "[kworker/0:1]",
    "comm=x pid=9",
    "bad\udcff\udcfe",
    "\u00fcmlaut",
    "",
    "x\ty",
    '"q",',
    "\x1b[31mred",
    "back\\x41slash",
)


def odd_names() -> Known:
    """Names with spaces, brackets, what looks like fields, bytes that aren't UTF-8, quotes, and what a terminal takes for a
    command. The n-th task waits 110 us, and ten more for each one before it. `[003]` would spoil the beginning of a line."""
    lines, waits = [], []
    for at, name in enumerate(ODD_NAMES):
        pid, begin, end = 100 + at, 1000000 + 1000 * at, 1000000 + 1010 * at + 110
        lines += [waking(0, begin, pid, name=name, target=1), switch(1, end, "<idle>-0", f"{name}-{pid}", state="R", prio=at)]
        lines.append(switch(1, end + 5, f"{name}-{pid}", "<idle>-0", task=f"<...>-{pid}" if " [" in name else None))
        waits.append(Wait("woken", pid, name, at, Place(begin, 0, at + 1), Place(end, 1, 2 * at + 1)))
    return Known(text_of(lines), tuple(waits))


def kinds() -> Known:
    """What begins a wait, and what doesn't: see the comment at each line."""
    lines = [
        # Each CPU is there from the beginning on.
        line("<idle>-0", 2, 999990, "sched_stat: y"),
        line("<idle>-0", 3, 999990, "sched_stat: y"),
        # Task 0 is switched out runnable, and waits for nothing.
        switch(0, 1000000, "<idle>-0", "a-10", state="R"),
        # A waking of a task that runs, and goes on running, is no wait.
        waking(1, 1000010, 10, name="a"),
        # It is preempted, on its way to sleep.
        switch(0, 1000020, "a-10", "b-11", state="R+"),
        # And woken after that: its wait begins here.
        waking(1, 1000025, 10, name="a"),
        # This one is preempted: that is where its wait begins.
        switch(0, 1000050, "b-11", "a-10", state="R+"),
        # It runs on another CPU.
        switch(1, 1000090, "<idle>-0", "b-11", state="R"),
        # A task is woken while it runs and is about to sleep, which is a race in the kernel. It waits from the waking on, which
        # ends after it has left its CPU.
        waking(2, 1000100, 10, name="a"),
        switch(0, 1000101, "a-10", "<idle>-0", state="S"),
        waking(2, 1000102, 10, name="a", event="sched_wakeup"),
        switch(2, 1000130, "<idle>-0", "a-10", state="R"),
        # Two wakings: the later one counts, and the task has run unseen in between.
        waking(0, 1000200, 12, name="c"),
        waking(0, 1000210, 12, name="c"),
        switch(0, 1000215, "<idle>-0", "c-12", state="R"),
        # A new task: its wakeup_new counts, and a plain wakeup never does.
        waking(0, 1000300, 13, name="d", event="sched_wakeup_new"),
        waking(0, 1000305, 13, name="d", event="sched_wakeup"),
        switch(3, 1000340, "<idle>-0", "d-13", state="R"),
        # It dies; a new one gets its number, and a waking that came too late isn't one of the new task.
        waking(0, 1000350, 13, name="d"),
        switch(3, 1000360, "d-13", "<idle>-0", state="X"),
        waking(0, 1000400, 13, name="e", event="sched_wakeup_new"),
        switch(3, 1000407, "<idle>-0", "e-13", state="R"),
        # At equal stamps the lower CPU goes first: this waking is on CPU 0, and its switch on CPU 2.
        waking(0, 1000500, 14, name="f", target=2),
        switch(2, 1000500, "a-10", "f-14"),
        # And here the switch goes first, so that the waking is one of a running task.
        waking(3, 1000600, 15, name="g"),
        switch(1, 1000600, "b-11", "g-15"),
        # No waking at all: nothing is known of when its wait began.
        switch(1, 1000700, "g-15", "h-16"),
        # A task changes its name.
        waking(0, 1000800, 10, name="a"),
        switch(0, 1000803, "c-12", "renamed-10", prio=98),
    ]
    waits = [
        Wait("woken", 10, "a", 120, Place(1000025, 1, 2), Place(1000050, 0, 3)),
        Wait("preempted", 11, "b", 120, Place(1000050, 0, 3), Place(1000090, 1, 3)),
        Wait("woken", 10, "a", 120, Place(1000100, 2, 2), Place(1000130, 2, 4)),
        Wait("woken", 12, "c", 120, Place(1000210, 0, 6), Place(1000215, 0, 7)),
        Wait("new", 13, "d", 120, Place(1000300, 0, 8), Place(1000340, 3, 2)),
        Wait("new", 13, "e", 120, Place(1000400, 0, 11), Place(1000407, 3, 4)),
        Wait("woken", 14, "f", 120, Place(1000500, 0, 12), Place(1000500, 2, 5)),
        Wait("woken", 10, "renamed", 98, Place(1000800, 0, 13), Place(1000803, 0, 14)),
    ]
    return Known(text_of(lines), tuple(waits), (Gap(None, 1000200, 1000210, None),))


def many_waits(count: int = 1000) -> Known:
    """So many waits of task 7, of 1 to `count` microseconds, in a mixed order; and one of task 8, of 5 microseconds."""
    lines, waits, at = [waking(0, 1000, 8, name="b"), switch(1, 1005, "<idle>-0", "b-8", state="R")], [], 10000
    waits.append(Wait("woken", 8, "b", 120, Place(1000, 0, 1), Place(1005, 1, 1)))
    lengths = random.Random(1).sample(range(1, count + 1), count)
    for number, length in enumerate(lengths):
        lines += [waking(0, at, 7, name="a"), switch(0, at + length, "<idle>-0", "a-7", state="R")]
        lines.append(switch(0, at + length + 1, "a-7", "<idle>-0"))
        waits.append(Wait("woken", 7, "a", 120, Place(at, 0, 3 * number + 2), Place(at + length, 0, 3 * number + 3)))
        at += length + 10
    return Known(text_of(lines), tuple(waits))


# ---- known by simulating


class Task:
    """A task of the simulated machine."""

    def __init__(self, pid: int) -> None:
        self.pid = pid
        self.name = f"task {pid % 7}"
        self.prio = 100 + pid % 40
        self.cpu: Optional[int] = None
        # Where its wait began, and of which kind it is, while it waits.
        self.waits: Optional[Tuple[str, Place]] = None
        # Whether it was woken since it last ran, or was run, and in which state it was left.
        self.is_woken = False
        self.state = ""

    def __str__(self) -> str:
        return f"{self.name}-{self.pid}"


class Machine:
    """Some CPUs that run tasks by chance, and write down what they do. No two events have the same stamp."""

    def __init__(self, seed: int, cpus: int = 4) -> None:
        self.chance = random.Random(seed)
        self.now = 1000000
        self.next_pid = 100
        self.running: List[Optional[Task]] = [None] * cpus
        self.queued: List[Task] = []
        self.asleep: List[Task] = []
        self.counts: Dict[int, int] = dict.fromkeys(range(cpus), 0)
        # Each event: its place, and its line.
        self.events: List[Tuple[Place, str]] = []
        self.waits: List[Wait] = []

    def write(self, cpu: int, make: Callable[[int, int], str]) -> Place:
        """Write an event of a CPU, with the line that `make` makes."""
        self.now += self.chance.randrange(1, 40)
        self.counts[cpu] += 1
        place = Place(self.now, cpu, self.counts[cpu])
        self.events.append((place, make(cpu, self.now)))
        return place

    def wake(self, task: Task, event: str = "sched_waking") -> Place:
        """Write that a task is woken by some CPU."""
        task.is_woken = True
        cpu = self.chance.randrange(len(self.running))
        return self.write(cpu, lambda cpu, now: waking(cpu, now, task.pid, name=task.name, event=event))

    def queue(self, task: Task, kind: str, place: Place) -> None:
        """Let a task wait."""
        task.waits = (kind, place)
        self.queued.append(task)

    def switch(self, cpu: int, state: str) -> Place:
        """Let a CPU leave what it runs, in that state, and run something that waits, if there is something."""
        old, new = self.running[cpu], None
        if self.queued:
            new = self.queued.pop(self.chance.randrange(len(self.queued)))
        if old is None and new is None:
            return Place(self.now, cpu, 0)
        before, after, prio = str(old or "<idle>-0"), str(new or "<idle>-0"), new.prio if new else 120
        place = self.write(cpu, lambda cpu, now: switch(cpu, now, before, after, state=state if old else "R", prio=prio))
        self.running[cpu] = new
        if old:
            old.state = state
        if new:
            new.is_woken = False
        if new and new.waits:
            self.waits.append(Wait(new.waits[0], new.pid, new.name, new.prio, new.waits[1], place))
            new.waits = None
        return place

    def step(self) -> None:
        """Let something happen."""
        what, cpu = self.chance.random(), self.chance.randrange(len(self.running))
        task = self.running[cpu]
        if what < 0.08 or not (self.asleep or self.queued or any(self.running)):
            new, self.next_pid = Task(self.next_pid), self.next_pid + 1
            self.queue(new, "new", self.wake(new, "sched_wakeup_new"))
        elif what < 0.4 and self.asleep:
            woken = self.asleep.pop(self.chance.randrange(len(self.asleep)))
            self.queue(woken, "woken", self.wake(woken))
        elif what < 0.43 and self.queued:
            # A waking of a task that is queued and has set its state; only one that was preempted can be.
            self.wake_queued()
        elif task is None:
            self.switch(cpu, "R")
        elif what < 0.5 and not task.is_woken:
            # It is woken while it runs, before it sleeps, and goes on.
            self.wake(task)
        elif what < 0.65:
            place = self.switch(cpu, self.chance.choice(["R", "R+"]))
            self.queue(task, "preempted", place)
        elif what < 0.7 and not task.is_woken:
            # The waking comes first, and the switch after it still says that it sleeps; then the waking ends.
            place = self.wake(task)
            self.switch(cpu, "S")
            self.wake(task, "sched_wakeup")
            self.queue(task, "woken", place)
        elif what < 0.75:
            self.switch(cpu, "X")
        else:
            self.switch(cpu, self.chance.choice("SDI"))
            self.asleep.append(task)

    def wake_queued(self) -> None:
        """Write a waking of a task that was preempted on its way to sleep: it waits since then."""
        preempted = [task for task in self.queued if task.waits and task.waits[0] == "preempted" and task.state == "R+"]
        if preempted:
            task = self.chance.choice(preempted)
            task.waits = "woken", self.wake(task)


def simulated(seed: int, steps: int = 400, *, holes: int = 0) -> Known:
    """What a machine that runs tasks by chance writes down, and the waits that its tasks had, even if the trace has lost events
    of some CPUs. `doubtful` is set for the waits that span a gap, also one that no line reports; a wait whose events are lost
    is among them, and has the lines that it had before."""
    machine = Machine(seed)
    for _ in range(steps):
        machine.step()
    events, lines = machine.events, [text for _, text in machine.events]
    gaps: List[Gap] = []
    for _ in range(holes):
        gap = damaged(machine.chance, events, lines)
        gaps += [gap] if gap else []
    text = text_of([text for text in lines if text])
    gaps += gaps_shown(text)
    waits = [wait._replace(doubtful=any(spans(wait, gap) for gap in gaps)) for wait in machine.waits]
    return Known(text, tuple(waits), tuple(gaps))


def gaps_shown(text: bytes) -> List[Gap]:
    """The gaps that no line reports, by the plain reckoning: the machine doesn't know of them, since it lost nothing there."""
    from plain_waits import gaps_of, lost_in

    return gaps_of(text)[len(lost_in(text)) :]


def damaged(chance: random.Random, events: List[Tuple[Place, str]], lines: List[str]) -> Optional[Gap]:
    """Take away some events of a CPU that stand side by side there, and have the line after them say so; lines that are taken
    are empty. If that would meet another gap, nothing is taken."""
    cpu, count = chance.randrange(4), chance.randrange(1, 30)
    lane = [at for at, (place, _) in enumerate(events) if place.cpu == cpu]
    if len(lane) < count + 3:
        return None
    first = chance.choice([0, chance.randrange(1, len(lane) - count - 1)])
    following = lane[first + count]
    if any(not lines[at] or lines[at].startswith(("CPU:", "#")) for at in lane[max(first - 1, 0) : first + count + 1]):
        return None
    for at in lane[first : first + count]:
        lines[at] = ""
    told = f"CPU:{cpu} [LOST {count} EVENTS]" if first else f"##### CPU {cpu} buffer started ####"
    lines[following] = f"{told}\n{lines[following]}"
    after = events[lane[first - 1]][0].stamp if first else None
    return Gap(cpu, after, events[following][0].stamp, count if first else None)


def spans(wait: Wait, gap: Gap) -> bool:
    """Whether a gap lies in the time of a wait, or a part of it."""
    return (gap.before is None or wait.begin.stamp < gap.before) and (gap.after is None or gap.after < wait.end.stamp)


# ---- all


def all_known() -> Dict[str, Known]:
    """The recordings by name."""
    by_hand = [hole_at_start, lost_in_middle, odd_names, kinds, many_waits]
    known = {make.__name__: make() for make in by_hand}
    known.update({f"simulated_{seed}": simulated(seed) for seed in range(3)})
    known.update({f"damaged_{seed}": simulated(seed, holes=3) for seed in range(3)})
    return known


def main() -> None:
    folder = sys.argv[1]
    for name, known in all_known().items():
        with open(os.path.join(folder, f"{name}.trace"), "wb") as file:
            file.write(known.text)


if __name__ == "__main__":
    main()
