"""Holds the waits of a recording against what the kernel says of them by itself.

A recording is a folder: `text` is that of the trace, with the kernel's reports of who ran (sched_stat_runtime); `readings` is
the kernel's account of waits (account.py); both have stamps of CLOCK_MONOTONIC. The waits are those of the text without these
reports, as people record it. `plan` has, a line each, the kind of recording (kinds.py), the parts of its load, those under a
quota, and how many microseconds the account may lack for each wait, if these aren't EACH.

Two things stand against a sure wait:

- Run: the kernel reports that its task ran in it.
- Account: of the sure waits of a task that end between two readings, the kernel has surely counted more than it has added to
  the task's account (`counted_from`, `counted_until`), and than the slack.
"""

import math
import os
import re
import warnings
from bisect import bisect_left, bisect_right
from collections import defaultdict
from itertools import pairwise
from typing import Dict, Iterator, List, NamedTuple, Optional, Sequence, Set, Tuple

import histdesk
from account import Reading, Readings, readings_of, taken

# Stamps are rounded to microseconds, and a report is written a moment before the switch that it belongs to.
NEAR = 2
# A kernel's tick is at most so long, in microseconds.
TICK = 10_000
# A task that was interrupted on its way to sleep sleeps within so many microseconds of running again.
SOON = 1_000
# So much may be missing in the account: microseconds between two readings, a share, and microseconds for each wait, unless a
# recording says that its machine is slower.
SLACK, SHARE, EACH = 2_000, 0.02, 20

RUN = b": sched_stat_runtime: "
# The form of an event: CPU, seconds, microseconds, name, and its task; of a waking, the CPU; of a switch, the state and the
# task that runs; of a report of who ran, for how many nanoseconds.
EVENT = re.compile(
    rb"\[(\d+)\] .*?(\d+)\.(\d{6}): (sched_\w+): +(?:prev_)?comm=.*? (?:prev_)?pid=(-?\d+) "
    rb"(?:prio=-?\d+ (?:success=\d )?target_cpu=(\d+)|prev_prio=-?\d+ prev_state=(\S+) .* next_pid=(\d+) |runtime=(\d+))"
)
LOSS = re.compile(rb"^CPU:\d+ \[LOST |^# CPU \d+: [1-9]\d* events overwritten", re.MULTILINE)
WRITTEN = re.compile(rb"^# entries-in-buffer/entries-written: (\d+)/(\d+) ", re.MULTILINE)

# A task that is woken so often, and that no switch leaves, is hidden (`hidden_tasks`).
HIDDEN = 2

Stamps = Dict[int, List[int]]
# From when until when.
Stretch = Tuple[float, float]


class Wait(NamedTuple):
    """A wait, as the tools report it; stamps are in microseconds."""

    pid: int
    kind: str
    begin: int
    end: int
    cpu: int
    is_sure: bool


class Told(NamedTuple):
    """What the text says besides waits.

    Attributes
    ----------
    first, last
        The first and the last stamp.
    roused, woken
        For each task, when a waking names it, and when a wakeup does.
    ran
        For each task, when a report says that it ran, and for how many microseconds.
    called
        For each CPU, when a task was woken there.
    left
        For each task, when a switch left it, and in which state.
    entered
        For each task, when a switch went to it.
    has_losses
        Whether the text reports that events were lost.
    """

    first: int
    last: int
    roused: Stamps
    woken: Stamps
    ran: Dict[int, List[Tuple[int, int]]]
    called: Stamps
    left: Dict[int, List[Tuple[int, str]]]
    entered: Stamps
    has_losses: bool


class Verdict(NamedTuple):
    """What came of a recording.

    Attributes
    ----------
    waits, sure
        How many waits there are, without those of hidden tasks and those that aren't sure because such a task ran, and how
        many of them are sure.
    said, counted
        How long tasks have waited, in microseconds: the sum of sure waits, and the kernel's, over the same time.
    false
        What stands against sure waits, a line each.
    has_losses
        Whether the text reports that events were lost.
    """

    waits: int
    sure: int
    said: float
    counted: float
    false: List[str]
    has_losses: bool


def read(path: str) -> Tuple[List[Wait], List[Stretch]]:
    """Return the waits that the package reads in a text, and when tasks ran unseen on a CPU that isn't known."""
    with warnings.catch_warnings():
        warnings.simplefilter("ignore", histdesk.LossWarning)
        read = histdesk.waits(path)
    columns = (read.array[name].tolist() for name in ("pid", "kind", "begin_stamp", "end_stamp", "end_cpu"))
    waits = list(map(Wait, *columns, (~read.array["doubtful"]).tolist()))
    return waits, [(float(hole.after), float(hole.before)) for hole in read.holes if hole.cpu is None]


# ---- the text


def write_without_runs(text: bytes, path: str) -> None:
    """Write a text as people record it."""
    with open(path, "wb") as file:
        file.writelines(line + b"\n" for line in text.split(b"\n") if line and RUN not in line)


def told_by(text: bytes) -> Told:
    """Return what a text says besides waits."""
    roused, woken, called, entered = (defaultdict(list) for _ in range(4))
    left: Dict[int, List[Tuple[int, str]]] = defaultdict(list)
    ran: Dict[int, List[Tuple[int, int]]] = defaultdict(list)
    first, last = None, 0
    for line in text.split(b"\n"):
        found = EVENT.search(line)
        if not found:
            continue
        stamp, pid, name = int(found[2]) * 10**6 + int(found[3]), int(found[5]), found[4]
        first, last = min(first or stamp, stamp), max(last, stamp)
        if name == b"sched_waking":
            roused[pid].append(stamp)
        elif name == b"sched_wakeup":
            woken[pid].append(stamp)
            called[int(found[6])].append(stamp)
        elif name == b"sched_wakeup_new":
            called[int(found[6])].append(stamp)
        elif name == b"sched_switch":
            left[pid].append((stamp, found[7].decode()))
            entered[int(found[8])].append(stamp)
        elif name == b"sched_stat_runtime":
            ran[pid].append((stamp, int(found[9]) // 1000))
    for stamps in (*roused.values(), *woken.values(), *called.values(), *entered.values()):
        stamps.sort()
    for leavings in left.values():
        leavings.sort()
    for reports in ran.values():
        reports.sort()
    return Told(first or 0, last, roused, woken, ran, called, left, entered, has_losses(text))


def has_losses(text: bytes) -> bool:
    """Return whether a text reports that events were lost."""
    written = WRITTEN.search(text)
    return bool(LOSS.search(text)) or written is not None and int(written[1]) < int(written[2])


def first_in(stamps: List[int], begin: int, end: float) -> Optional[int]:
    """Return the first stamp from `begin` to `end`, or None."""
    at = bisect_left(stamps, begin)
    return stamps[at] if at < len(stamps) and stamps[at] <= end else None


def last_in(stamps: List[int], begin: int, end: int) -> Optional[int]:
    """Return the last stamp from `begin` to `end`, or None."""
    at = bisect_right(stamps, end)
    return stamps[at - 1] if at and stamps[at - 1] >= begin else None


def leaving(told: Told, pid: int, since: int) -> Optional[Tuple[int, str]]:
    """Return the first switch from a task that isn't earlier: its stamp, and the state; or None."""
    left = told.left.get(pid, [])
    at = bisect_left(left, (since, ""))
    return left[at] if at < len(left) else None


def report_since(told: Told, pid: int, since: int) -> Optional[Tuple[int, int]]:
    """Return the first report of who ran that isn't earlier: its stamp, and for how long; or None."""
    ran = told.ran.get(pid, [])
    at = bisect_left(ran, (since, 0))
    return ran[at] if at < len(ran) else None


# ---- who ran


def ran_in(wait: Wait, told: Told) -> Optional[int]:
    """Return when the kernel reports that a wait's task ran in it, or None.

    If a task is woken while it goes to sleep, the kernel tells the waking, then the switch, and after it the wakeup: until the
    switch, the task runs.
    """
    begin = wait.begin
    left = leaving(told, wait.pid, begin)
    if wait.kind == "woken" and left is not None:
        woken = first_in(told.woken.get(wait.pid, []), begin, wait.end)
        if woken is not None and woken >= left[0]:
            begin = left[0]
    report = report_since(told, wait.pid, begin + NEAR + 1)
    return report[0] if report is not None and report[0] < wait.end - NEAR else None


# ---- the account


def counted_from(wait: Wait, told: Told) -> int:
    """Return from when on the kernel counts a wait: it has queued the task when it tells the wakeup."""
    woken = first_in(told.woken.get(wait.pid, []), wait.begin, wait.end) if wait.kind == "woken" else None
    return wait.begin if woken is None else woken


def counted_until(wait: Wait, told: Told) -> int:
    """Return until when the kernel surely counts a wait.

    At a switch it reads its clock, but not if a waking has asked the CPU for the switch: then the clock is as old as that
    waking, or as the last tick. The next report of who ran says from when on the kernel has counted that the task ran.
    """
    called = last_in(told.called.get(wait.cpu, []), wait.begin, wait.end)
    until = wait.end if called is None or wait.end - called > TICK else called
    report = report_since(told, wait.pid, wait.end)
    return until if report is None else min(until, report[0] - report[1])


def was_interrupted(wait: Wait, told: Told) -> bool:
    """Return whether a wait began with an interruption in the kernel.

    The switch shows R+ then, even if the task's state is already that of sleep.
    """
    before = leaving(told, wait.pid, wait.begin)
    return wait.kind == "preempted" and before is not None and before[1] == "R+"


def was_woken_early(wait: Wait, told: Told) -> bool:
    """Return whether a task was interrupted on its way to sleep, and woken before it slept: no other can be woken then."""
    left = told.left.get(wait.pid, [])
    at = bisect_left(left, (wait.begin, ""))
    is_left = (
        at > 0 and left[at - 1][1] == "R+" and first_in(told.entered.get(wait.pid, []), left[at - 1][0], wait.begin) is None
    )
    return wait.kind == "woken" and is_left


def is_counted(wait: Wait, told: Told) -> bool:
    """Return whether the kernel counts a wait: not if its task was interrupted on its way to sleep.

    Then it sleeps at once when it runs again, unless it is woken before.
    """
    after = leaving(told, wait.pid, wait.end)
    sleeps = after is not None and after[1] not in ("R", "R+") and after[0] <= wait.end + SOON
    return not was_woken_early(wait, told) and not (was_interrupted(wait, told) and sleeps)


def uncounted(waits: List[Wait], told: Told, since: float, are_many: bool) -> float:
    """Return how much the kernel may not have counted of waits that began with an interruption.

    If what the task wanted to sleep for comes while it waits, it doesn't sleep then, and nothing tells its wait from others.
    That is rare, so that there is at most one such wait between two neighbouring readings.
    """
    parts = [least([wait], told, since) for wait in waits if was_interrupted(wait, told)]
    return sum(parts) if are_many else max(parts, default=0.0)


def least(waits: List[Wait], told: Told, since: float) -> float:
    """Return how long the kernel must have counted of these waits at least, from `since` on.

    Of a task that is moved while it waits, it has counted the time before at the move.
    """
    counted = [wait for wait in waits if is_counted(wait, told)]
    return sum(max(0.0, counted_until(wait, told) - max(counted_from(wait, told), since)) for wait in counted)


def between(waits: List[Wait], first: Reading, last: Reading) -> List[Wait]:
    """Return those of a task's waits, in order, that end between two readings."""
    ends = [wait.end for wait in waits]
    return waits[bisect_right(ends, first.ended) : bisect_left(ends, last.began)]


def exceeding(waits: List[Wait], told: Told, reads: List[Reading], readings: Readings, each: int) -> Iterator[str]:
    """Return where the account of a task says less than its sure waits, and `each` for each of them."""
    whole = [(reads[0], reads[-1])] if len(reads) > 2 else []
    for first, last in [*pairwise(reads), *whole]:
        some = between(waits, first, last)
        said = least(some, told, first.ended) - uncounted(some, told, first.ended, (first, last) in whole)
        counted = last.delay - first.delay
        most = counted * (1 + SHARE) + SLACK + each * len(some)
        if said > most and said > most + taken(readings, first.began, last.ended):
            longest = max(some, key=lambda wait: wait.end - wait.begin)
            yield (
                f"task {longest.pid}: from {first.began:.0f} to {last.ended:.0f} us the kernel counted {counted:.0f} us, but"
                f" {len(some)} sure waits have {said:.0f}; the longest is {shown(longest)}"
            )


def waiting_at(waits: List[Wait], read: Reading) -> Optional[Wait]:
    """Return the wait, of a task's waits in order, in which its account is read; None if it doesn't wait."""
    at = bisect_right([wait.end for wait in waits], read.began)
    return waits[at] if at < len(waits) and waits[at].begin <= read.ended else None


def gaps(told: Told, pid: int) -> List[Stretch]:
    """Return when it isn't known whether a task waits.

    That is before the first switch that names it, after the last one, and between two switches that leave it if none goes to
    it in between: some kernels don't record switches from idle.
    """
    left, entered = [stamp for stamp, _ in told.left.get(pid, [])], told.entered.get(pid, [])
    named = sorted([*left, *entered])
    if not named:
        return [(0, math.inf)]
    missing = [(one, other) for one, other in pairwise(left) if first_in(entered, one, other) is None]
    return [(0, named[0]), *missing, (named[-1], math.inf)]


def known_pairs(waits: List[Wait], told: Told, reads: List[Reading]) -> Iterator[Tuple[Reading, Reading]]:
    """Return the neighbouring readings of a task between which all its waits are known, from one at which it doesn't wait."""
    if not waits:
        return
    unknown, is_settled = gaps(told, waits[0].pid), False
    for first, last in pairwise(reads):
        is_known = not any(begin < last.ended and first.began < end for begin, end in unknown)
        is_settled = is_known and (is_settled or waiting_at(waits, first) is None)
        if is_settled:
            yield first, last


def shown(wait: Wait) -> str:
    return f"{wait.kind} from {wait.begin} to {wait.end} on CPU {wait.cpu}"


def lives(told: Told, pid: int, reads: List[Reading]) -> List[List[Reading]]:
    """Return the readings of a number apart for each task that has had it.

    If a thread calls exec, it takes over the number of its process, whose first task ends. From the end of a task to the first
    switch of the next one, it isn't known whose account is read.
    """
    left = told.left.get(pid, [])
    ends = [stamp for stamp, state in left if state[0] in "XZ"]
    named = sorted([*(stamp for stamp, _ in left), *told.entered.get(pid, [])])
    found: Dict[int, List[Reading]] = defaultdict(list)
    for read in reads:
        number = bisect_left(ends, read.ended)
        begin = first_in(named, ends[number - 1] + 1, math.inf) if number else 0
        if begin is not None and begin < read.began:
            found[number].append(read)
    return list(found.values())


# ---- the verdict


def by_task(waits: List[Wait]) -> Dict[int, List[Wait]]:
    """Return the waits of each task, in the order of their ends."""
    found: Dict[int, List[Wait]] = defaultdict(list)
    for wait in sorted(waits, key=lambda wait: wait.end):
        found[wait.pid].append(wait)
    return found


def run_in(waits: List[Wait], told: Told) -> Iterator[str]:
    """Return in which of these waits their task ran."""
    for wait in waits:
        ran = ran_in(wait, told)
        if ran is not None:
            yield f"task {wait.pid} ran at {ran}: {shown(wait)}"


def hidden_tasks(told: Told) -> Set[int]:
    """Return the tasks of which the kernel records no events, as on some virtual machines those of the machine's host.

    Others wake them again, but no switch leaves them. Nothing tells when they run, so their waits aren't judged; and that they
    have run says nothing of the events of other tasks.
    """
    return {pid for pid, stamps in told.roused.items() if len(stamps) >= HIDDEN and not told.left.get(pid)}


def by_hidden(told: Told, unseen: Sequence[Stretch]) -> List[Stretch]:
    """Return in which of these stretches it was a hidden task that ran unseen: the waking at the end shows that it ran."""
    ends = {stamp for pid in hidden_tasks(told) for stamp in told.roused[pid]}
    return [(begin, end) for begin, end in unseen if end in ends]


def is_excused(wait: Wait, hidden: List[Stretch]) -> bool:
    """Return whether a wait isn't sure because a hidden task ran in one of these stretches."""
    return not wait.is_sure and any(wait.begin < end and begin < wait.end for begin, end in hidden)


def shares(waits: List[Wait], told: Told, reads: List[Reading], hidden: List[Stretch]) -> Tuple[float, float]:
    """Return how long a task has waited by its sure waits, and by the kernel, over the same time."""
    said = counted = 0.0
    for first, last in known_pairs(waits, told, reads):
        if any(is_excused(wait, hidden) for wait in between(waits, first, last)):
            continue
        wait = waiting_at(waits, first)
        possible = last.ended - (first.began if wait is None else wait.begin)
        # The kernel's count has been seen to grow by half a second in 70 ms.
        if last.delay - first.delay <= possible + SLACK:
            said += sum(wait.end - wait.begin for wait in between(waits, first, last) if wait.is_sure)
            counted += last.delay - first.delay
    return said, counted


def verdict_of(waits: List[Wait], text: bytes, readings: Readings, each: int = EACH, unseen: Sequence[Stretch] = ()) -> Verdict:
    """Hold the waits of a text, in which tasks ran `unseen`, against its runs, and against the kernel's account."""
    told = told_by(text)
    hidden = by_hidden(told, unseen)
    nobodys = hidden_tasks(told)
    waits = [wait for wait in waits if wait.pid not in nobodys]
    sure = [wait for wait in waits if wait.is_sure]
    false, said, counted = list(run_in(sure, told)), 0.0, 0.0
    for pid, some in by_task(waits).items():
        within = [read for read in readings.get(pid, []) if told.first < read.began and read.ended < told.last]
        for reads in lives(told, pid, within):
            if len(reads) > 1:
                false.extend(exceeding([wait for wait in some if wait.is_sure], told, reads, readings, each))
            ours, kernels = shares(some, told, reads, hidden)
            said, counted = said + ours, counted + kernels
    judged = len(waits) - sum(is_excused(wait, hidden) for wait in waits)
    return Verdict(judged, len(sure), said, counted, false, told.has_losses)


def verdict_on(folder: str, each: int = EACH) -> Verdict:
    """Return what comes of the recording in a folder."""
    with open(os.path.join(folder, "text"), "rb") as file:
        text = file.read()
    trace = os.path.join(folder, "trace")
    write_without_runs(text, trace)
    waits, unseen = read(trace)
    return verdict_of(waits, text, readings_of(os.path.join(folder, "readings")), each, unseen)
