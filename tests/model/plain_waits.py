"""A plain reckoning of waits: it reads a trace's text by regular expressions and goes through its events one by one. It uses
neither the package nor the program; it was written from what the package says that a wait is."""

import re
from typing import Callable, Dict, Iterator, List, NamedTuple, Optional, Pattern, Sequence, Tuple

from recordings import Gap, Place, Wait, spans

FRONT = (
    r" *(?P<task>.*)-(?P<runs>[0-9]+) +(?:\( *[0-9-]+\) +)?\[(?P<cpu>[0-9]+)\] +(?:[^ :]+ +)?(?P<s>[0-9]+)\.(?P<us>[0-9]{6}): "
)
LINE = re.compile(FRONT + r"(?P<event>[^ :]+): *(?P<rest>.*?) *", re.DOTALL)
WAKE = re.compile(r"comm=(.*) pid=(-?[0-9]+) prio=(-?[0-9]+)(?: success=-?[0-9]+)? target_cpu=[0-9]+", re.DOTALL)
SWITCH = re.compile(
    r"prev_comm=.* prev_pid=(-?[0-9]+) prev_prio=-?[0-9]+ prev_state=([^ ]+) ==> "
    r"next_comm=(.*) next_pid=(-?[0-9]+) next_prio=(-?[0-9]+)",
    re.DOTALL,
)
LOST = re.compile(r"CPU:([0-9]+) \[LOST (?:([0-9]+) )?EVENTS\]")
BEGUN = re.compile(r"##### CPU ([0-9]+) buffer started ####")
# What the recorder says of a CPU that was only idle.
KEPT = re.compile(r"# CPU ([0-9]+): 0 events overwritten")


class Event(NamedTuple):
    """What matters of a line."""

    place: Place
    event: str
    # The task that is woken or run, and the one that leaves.
    pid: int
    name: str
    prio: int
    before: int
    state: str
    # The task of the line.
    by: int = 0


def lines_of(text: bytes) -> List[str]:
    return text.decode("utf-8", "surrogateescape").split("\n")


def acts_of(text: bytes, without: Callable[[str], bool] = lambda line: False) -> Iterator[Event]:
    """The events that matter here, in the order of the lines; those of other names, and of lines that are left out, count
    only as lines of their CPU."""
    counts: Dict[int, int] = {}
    for found in filter(None, map(LINE.fullmatch, lines_of(text))):
        cpu = int(found["cpu"])
        counts[cpu] = counts.get(cpu, 0) + 1
        place = Place(int(found["s"]) * 1000000 + int(found["us"]), cpu, counts[cpu])
        if without(found[0]):
            continue
        wake, switch = WAKE.fullmatch(found["rest"]), SWITCH.fullmatch(found["rest"])
        event, by = found["event"], int(found["runs"])
        if event in ("sched_waking", "sched_wakeup_new", "sched_wakeup") and wake:
            yield Event(place, event, int(wake[2]), wake[1], int(wake[3]), 0, "", by)
        elif event == "sched_switch" and switch:
            yield Event(place, event, int(switch[4]), switch[3], int(switch[5]), int(switch[1]), switch[2], by)


def events_of(text: bytes, without: Callable[[str], bool] = lambda line: False) -> Iterator[Event]:
    """The same without those that end a waking: a wait begins or ends with none of these."""
    return (event for event in acts_of(text, without) if event.event != "sched_wakeup")


def lost_in(text: bytes) -> List[Gap]:
    """Where events were lost, by the lines that say so."""
    gaps: List[Gap] = []
    last: Dict[int, int] = {}
    for line in lines_of(text):
        lost, begun, event = LOST.fullmatch(line), BEGUN.fullmatch(line), LINE.fullmatch(line)
        if lost:
            gaps.append(Gap(int(lost[1]), last.get(int(lost[1])), None, int(lost[2]) if lost[2] else None))
        elif begun:
            gaps.append(Gap(int(begun[1]), None, None, None))
        elif event:
            cpu = int(event["cpu"])
            last[cpu] = int(event["s"]) * 1000000 + int(event["us"])
            gaps = [gap._replace(before=last[cpu]) if gap.cpu == cpu and gap.before is None else gap for gap in gaps]
    kept = {int(found[1]) for found in map(KEPT.fullmatch, lines_of(text)) if found}
    return [gap for gap in gaps if gap.cpu not in kept or gap.after is not None or gap.lost is not None]


def gaps_of(text: bytes, without: Callable[[str], bool] = lambda line: False) -> List[Gap]:
    """Where events are missing: where they were lost, and what others show of a text in the order of time. Lines that are left
    out show no task that ran unseen."""
    lost = lost_in(text)
    if not is_in_order(text):
        return lost
    shown = runs_shown(sorted(acts_of(text, without)))
    gaps = lost + edges_shown(text, shown)
    unseen = [Gap(None, since, until, None) for since, until in sorted(set(shown))]
    return gaps + [one for one in unseen if not any(gap_meets(gap, one.after, one.before) for gap in gaps)]


def gap_meets(gap: Gap, since: int, until: int) -> bool:
    """Whether a gap lies in a stretch of time, or a part of it."""
    return (gap.before is None or since < gap.before) and (gap.after is None or gap.after < until)


def is_in_order(text: bytes) -> bool:
    stamps = [int(found["s"] + found["us"]) for found in filter(None, map(LINE.fullmatch, lines_of(text)))]
    return stamps == sorted(stamps)


class Life:
    """What is known of a task since it last ran: where it was woken, created and left, where an event on a line of its own
    stands, and where its waking ended; each the last one, but the first end of the last waking."""

    def __init__(self) -> None:
        self.woken: Optional[Place] = None
        self.created: Optional[Place] = None
        self.left: Optional[Place] = None
        self.state = ""
        self.own: Optional[Place] = None
        self.roused: Optional[Place] = None

    def made(self) -> Tuple[str, Optional[Place]]:
        """How and where it was made runnable while it wasn't."""
        if self.created and (self.woken is None or self.woken < self.created):
            return "new", self.created
        return "woken", self.woken

    def has_run_since(self, place: Place) -> bool:
        """Whether an event of its own has a later stamp."""
        return self.own is not None and place.stamp < self.own.stamp

    def is_left_asleep(self) -> bool:
        return self.left is not None and self.state not in ("R", "R+")

    def begins(self) -> Optional[Tuple[str, Place]]:
        """How and where its wait began, if it waits."""
        kind, begin = self.made()
        if self.left and not self.is_left_asleep() and (begin is None or begin < self.left):
            kind, begin = "preempted", self.left
        if begin is None:
            return None
        is_asleep = self.is_left_asleep() and self.left and not self.has_run_since(self.left)
        return None if self.has_run_since(begin) and not is_asleep else (kind, begin)

    def slept_after(self, kind: str, begin: Place) -> bool:
        """Whether it was left asleep after its wait began, and wasn't about to sleep when it was woken."""
        if not self.is_left_asleep() or self.left is None or self.left.stamp <= begin.stamp:
            return False
        is_late = kind == "woken" and self.roused is not None and self.left.stamp <= self.roused.stamp
        return not is_late or self.has_run_since(begin)

    def ready(self) -> Optional[Place]:
        """Since where it can't be woken without having run."""
        _, place = self.made()
        if self.left and (place is None or place < self.left):
            place = self.left if self.state == "R" else None
        return None if place is None or self.own and place.stamp <= self.own.stamp else place


class Lives:
    """What is known of each task, of events that come in order."""

    def __init__(self) -> None:
        self._lives: Dict[int, Life] = {}

    def of(self, pid: int) -> Life:
        return self._lives.setdefault(pid, Life())

    def take(self, event: Event) -> None:
        """Take the next event."""
        life = self.of(event.pid)
        if event.event == "sched_waking":
            life.woken, life.roused = event.place, None
        elif event.event == "sched_wakeup_new":
            life.created = event.place
        elif event.event == "sched_wakeup":
            life.roused = life.roused or event.place
        else:
            left = self.of(event.before)
            left.left, left.state = event.place, event.state
        if event.event != "sched_switch" or event.before != event.by:
            self.of(event.by).own = event.place
        if event.event == "sched_switch":
            self._lives[event.pid] = Life()
            self._lives[event.pid].own = event.place


def runs_shown(events: Sequence[Event]) -> List[Tuple[int, int]]:
    """From when to when some task ran unseen: another one wakes it, although it was runnable."""
    lives = Lives()
    shown = []
    for event in events:
        if event.event == "sched_waking" and event.pid not in (0, event.by):
            ready = lives.of(event.pid).ready()
            if ready and ready.stamp < event.place.stamp:
                shown.append((ready.stamp, event.place.stamp))
        lives.take(event)
    return shown


def edges_shown(text: bytes, shown: List[Tuple[int, int]]) -> List[Gap]:
    """The gaps of CPUs that begin late, and of those that end early: the task that ran there is named elsewhere, or some task
    ran unseen there."""
    named: Dict[int, List[int]] = {}
    first: Dict[int, Tuple[int, int]] = {}
    last: Dict[int, Tuple[int, int]] = {}
    for found in filter(None, map(LINE.fullmatch, lines_of(text))):
        cpu, stamp, by = int(found["cpu"]), int(found["s"] + found["us"]), int(found["runs"])
        wake, switch = WAKE.fullmatch(found["rest"]), SWITCH.fullmatch(found["rest"])
        is_switch = found["event"] == "sched_switch" and switch
        others = []
        if is_switch:
            others = [int(switch[1]), int(switch[4])]
        elif found["event"] in ("sched_waking", "sched_wakeup_new", "sched_wakeup") and wake:
            others = [int(wake[2])]
        for pid in {by, *others}:
            named.setdefault(pid, []).append(stamp)
        first.setdefault(cpu, (stamp, by))
        last[cpu] = stamp, int(switch[4]) if is_switch else by
    gaps = []
    for cpu, (stamp, pid) in sorted(first.items()):
        if pid > 0 and min(named[pid]) < stamp or any(until < stamp for _, until in shown):
            gaps.append(Gap(cpu, None, stamp, None))
    for cpu, (stamp, pid) in sorted(last.items()):
        if pid > 0 and max(named[pid]) > stamp or any(since >= stamp for since, _ in shown):
            gaps.append(Gap(cpu, stamp, None, None))
    return gaps


def missing_told(text: bytes) -> List[str]:
    """The line about missing switches, if a CPU runs another task than the one that its last switch went to, and no line
    between says that it lost events. Nothing is told of a text that isn't in the order of time."""
    if not is_in_order(text):
        return []
    running: Dict[int, int] = {}
    counts: Dict[int, int] = {}
    count, first = 0, ""
    for line in lines_of(text):
        lost, found = LOST.fullmatch(line) or BEGUN.fullmatch(line), LINE.fullmatch(line)
        if lost:
            running.pop(int(lost[1]), None)
        if not found:
            continue
        cpu, runs, switch = int(found["cpu"]), int(found["runs"]), SWITCH.fullmatch(found["rest"])
        counts[cpu] = counts.get(cpu, 0) + 1
        if running.get(cpu, runs) != runs:
            count, first = count + 1, first or f"{cpu}:{counts[cpu]}"
        running[cpu] = int(switch[4]) if found["event"] == "sched_switch" and switch else runs
    if not count:
        return []
    told = f"at least {'1 switch was' if count == 1 else f'{count} switches were'} not recorded (the first one before {first})"
    return [f"{told}: waits that such a switch ended are not counted, and others may be too long"]


def waits_of(text: bytes, without: Callable[[str], bool] = lambda line: False, gaps: Optional[List[Gap]] = None) -> List[Wait]:
    """The waits that a trace tells of, in the order in which they end; lines that are left out wake, create and switch
    nothing. Which of them are doubtful is by the gaps of the trace, if no others are given."""
    gaps = gaps_of(text, without) if gaps is None else gaps
    lives = Lives()
    found = []
    for event in sorted(acts_of(text, without)):
        if event.event == "sched_switch" and event.pid:
            life = lives.of(event.pid)
            if event.before == event.pid:
                # It is left here, and waits for nothing.
                life.left, life.state = event.place, "S"
            begins = life.begins()
            if begins:
                wait = Wait(begins[0], event.pid, event.name, event.prio, begins[1], event.place)
                is_doubtful = life.slept_after(*begins) or any(spans(wait, gap) for gap in gaps)
                found.append(wait._replace(doubtful=is_doubtful))
        lives.take(event)
    return found


def like(patterns: Sequence[Pattern[bytes]]) -> Callable[[str], bool]:
    """Whether one of some patterns is found in a line."""
    return lambda line: any(pattern.search(line.encode("utf-8", "surrogateescape")) for pattern in patterns)


# ---- figures


def percentile(values: List[int], percent: int) -> int:
    """The percentile by nearest rank, as it is defined: the least value such that at least so many per cent aren't above it."""
    return next(value for value in sorted(values) if 100 * sum(other <= value for other in values) >= percent * len(values))


def keys_of(waits: List[Wait], by: str) -> Dict[Tuple, List[Wait]]:
    """The waits by what they are counted by."""
    parts = {
        "task": lambda wait: (wait.pid, wait.kind),
        "name": lambda wait: (wait.name, wait.kind),
        "cpu": lambda wait: (wait.end.cpu, wait.kind),
        "prio": lambda wait: (wait.prio, wait.kind),
        "kind": lambda wait: (wait.kind,),
    }
    found: Dict[Tuple, List[Wait]] = {}
    for wait in waits:
        found.setdefault(parts[by](wait), []).append(wait)
    return found


def figures_of(waits: List[Wait], with_doubtful: bool) -> Dict[str, object]:
    """The figures of a row."""
    counted = [wait for wait in waits if with_doubtful or not wait.doubtful]
    values = [wait.micros for wait in counted]
    figures: Dict[str, object] = {"count": len(values), "total": sum(values), "doubtful": sum(wait.doubtful for wait in waits)}
    if values:
        greatest = min(counted, key=lambda wait: (-wait.micros, wait.end))
        figures.update(mean=sum(values) / len(values), max=max(values))
        figures.update({f"p{percent}": percentile(values, percent) for percent in (50, 90, 99)})
        figures.update({f"end_{field}": part for field, part in greatest.end._asdict().items()})
        figures.update(greatest_name=greatest.name, greatest_pid=greatest.pid)
    return figures


def histogram_of(values: List[int]) -> List[Tuple[int, int, int]]:
    """The least and the greatest value of each power of two between the first and the last, and how many values there are."""
    bounds = [(0, 1)] + [(2 ** (power - 1) + 1, 2**power) for power in range(1, 60)]
    counts = [(low, high, sum(low <= value <= high for value in values)) for low, high in bounds]
    filled = [at for at, (_, _, count) in enumerate(counts) if count]
    return counts[filled[0] : filled[-1] + 1] if filled else []
