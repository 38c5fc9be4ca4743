"""A wait as a text for people: what it was, why, its steps, and what ran meanwhile, as a picture and in order."""

from __future__ import annotations

from collections.abc import Sequence
from typing import TYPE_CHECKING, Any

import numpy as np

from ..desk.values import Event
from ..show import tables
from ..show.width import wrapped
from ..trace.losses import Hole, seconds
from .scene import FORKED, PREEMPTED, WOKEN
from .stretches import NOTHING, Columns, Share, Stretch, shares_of, stretches_of

if TYPE_CHECKING:
    from numpy.typing import NDArray

    from .why import Why

# How many columns the bars of a picture have at most, and how many at least.
LONGEST_BAR, SHORTEST_BAR = 60, 24
# How many columns a task's name and number have at least.
SHORTEST_NAME = 8
# Tasks of real time have a prio below this one; a lower prio is more urgent.
NORMAL = 100
# How many places where events were lost are listed at most.
HOLES = 3
# How a task left its CPU, in a sentence and in a table.
LEFT = {
    "R": "stayed runnable (R)",
    "R+": "was preempted (R+)",
    "X": "exited (X)",
    "Z": "exited (Z)",
    "T": "stopped (T)",
    "t": "was traced (t)",
}
LEFT_SHORT = {"R": "runnable (R)", "R+": "preempted (R+)", "t": "traced (t)"}
SLEEPS = ("S", "D", "I", "P")
CONTEXT_NAMES = {"hardirq": "an interrupt", "softirq": "a softirq", "nmi": "a non-maskable interrupt"}


def why_text_of(why: Why, all_stretches: bool, width: int) -> str:
    """Return the whole text, without a line break at its end, in lines of so many columns."""
    lines = [line for sentence in reasons(why) for line in wrapped(sentence, width)]
    parts = [lines, steps(why, width)]
    if why.elsewhere:
        was = "before" if why.kind == PREEMPTED else "queued"
        parts.append([f"CPU {why.queue_cpu}, where it was {was}:", *picture(why, why.elsewhere, width)])
    parts.append([f"CPU {why.cpu}, where it {'ran' if why.end else 'waits'}:", *picture(why, why.stretches, width)])
    for stretches in (why.elsewhere, why.stretches):
        # The sentences say everything about a single one.
        if len(stretches) > 1:
            rows = stretch_lines(why, stretches, all_stretches, width)
            parts.append([f"What ran on CPU {stretches[0].cpu}, in order:", *rows])
    return "\n\n".join("\n".join(part) for part in parts)


# ---- in sentences


def reasons(why: Why) -> list[str]:
    """Return what the wait was, and what it was for, as sentences."""
    lines = [head(why), *doubt_lines(why)]
    for stretches in (why.elsewhere, why.stretches):
        lines += busy(why, stretches)
    return [*lines, *filter(None, [later(why), urgent(why)])]


def head(why: Why) -> str:
    """Return who waited, and how long."""
    name = f"{named(why.task, why.pid)} (prio {why.prio})"
    after = {WOKEN: "was woken", FORKED: "was forked", PREEMPTED: put_out(why)}[why.kind]
    begin, until = seconds(why.begin.stamp), seconds(why.until)
    if why.end:
        return f"{name} waited {why.micros} us for CPU {why.cpu}, from {begin} to {until}, after it {after}."
    return f"{name} has waited {why.micros} us for CPU {why.cpu}, from {begin} to the trace's end at {until}, after it {after}."


def put_out(why: Why) -> str:
    """Return how a task that could have run on lost its CPU. The kernel prints `R` for one that was on its way back to user
    space, or that gave way by itself."""
    return "was preempted (R+)" if why.begin.prev_state == "R+" else "was switched out, still runnable (R)"


def doubt_lines(why: Why) -> list[str]:
    """Return why the wait may be false, or too long: where events of its time are missing, and whether its task slept once
    more."""
    lines = [f"Doubtful: {hole_text(hole)}; the wait may be false." for hole in why.holes[:HOLES]]
    more = len(why.holes) - HOLES
    if more > 0:
        lines.append(f"Events are missing in {counted(more, 'place', 'places')} more within it.")
    if why.slept and why.is_before_sleep:
        left = f"it {way_out(why.slept.prev_state or '')} at {seconds(why.slept.stamp)}"
        lines.append(f"Doubtful: {left}, and what woke it after that may be missing; then it waited for less time.")
    return lines


def hole_text(hole: Hole) -> str:
    """Return where events are missing; lines of the text report it, or other events show it."""
    since = "the beginning" if hole.after is None else seconds(hole.after)
    until = "the end" if hole.before is None else seconds(hole.before)
    if hole.cpu is None:
        return f"between {since} and {until} a task ran unseen, on a CPU that isn't known"
    if hole.line is None and hole.lost is None:
        return f"events of CPU {hole.cpu} are missing between {since} and {until}"
    count = "events" if hole.lost is None else f"{hole.lost} events"
    line = f" (line {hole.line} of the text)" if hole.line else ""
    return f"CPU {hole.cpu} lost {count} between {since} and {until}{line}"


def busy(why: Why, stretches: Sequence[Stretch]) -> list[str]:
    """Return what a CPU did meanwhile, in a line or two."""
    if not stretches:
        return []
    cpu, shares = stretches[0].cpu, shares_of(stretches)
    others = [share for share in shares if share.pid and share.pid != why.pid and share.micros]
    idle, own, unknown = (sum_of(shares, pid) for pid in (0, why.pid, None))
    sentences = [several(why, cpu, others)] if others else []
    if len(stretches) == 1 and others:
        sentences = [f"{named(others[0].task, others[0].pid)} ran on CPU {cpu} all the while{after(stretches[0])}."]
    if idle == why.micros:
        sentences = [always_idle(why, cpu)]
    elif idle:
        sentences.append(f"{'It' if sentences else f'CPU {cpu}'} was idle for {part_of(why, idle)}.")
    if own:
        sentences.append(f"For {part_of(why, own)} the task itself {own_run(why, stretches)}.")
    lines = [" ".join(sentences)] if sentences else []
    if unknown:
        lines.append(f"What ran on CPU {cpu} for {part_of(why, unknown)} isn't known: {why_unknown(why, stretches)}.")
    return lines


def always_idle(why: Why, cpu: int) -> str:
    """Return what is known of a CPU that was idle all the while, and what may have kept the task from running there."""
    front = f"CPU {cpu} was idle all the while"
    if why.elsewhere and cpu == why.cpu:
        return f"{front}, until it ran the task." if why.end else f"{front}."
    # A CPU that has just left a task needn't be woken.
    causes = ["the time went into waking the CPU"] if why.kind != PREEMPTED and not why.elsewhere else []
    causes.append("a quota held the task back")
    if why.kind == PREEMPTED or why.elsewhere or why.queue_cpu is None:
        causes.append("it was queued on another CPU")
    return f"{front}: {', or '.join(causes)}."


def own_run(why: Why, stretches: Sequence[Stretch]) -> str:
    """Return how the task that waits came to run meanwhile: it ran on, or a switch to it is missing, and it didn't wait so
    long."""
    if stretches[0].pid == why.pid:
        return "still ran" if why.is_before_sleep else "still ran: it was woken on its way to sleep"
    return "ran, though no switch to it was recorded: this wait is too long, or false"


def why_unknown(why: Why, stretches: Sequence[Stretch]) -> str:
    """Return why it isn't known what ran on a CPU."""
    if stretches[0].cpu in why.unknown_cpus:
        return "the wait has more events of it than a desk holds"
    if any(hole.cpu == stretches[0].cpu for hole in why.holes):
        return "events of it were lost"
    if len(stretches) == 1:
        return "no event in the trace tells"
    return "a switch there was not recorded"


def several(why: Why, cpu: int, others: Sequence[Share]) -> str:
    """Return which tasks ran, if there is more than one stretch."""
    most, runs = others[0], sum(share.runs for share in others)
    name, part = named(most.task, most.pid), part_of(why, most.micros)
    if len(others) == 1:
        return f"{name} ran on CPU {cpu} for {part}, in {counted(runs, 'stretch', 'stretches')}."
    return f"{len(others)} tasks ran on CPU {cpu} meanwhile, in {runs} stretches; {name} the longest, {part}."


def after(stretch: Stretch) -> str:
    """Return how the only task that ran left."""
    return "" if stretch.left is None else f", and then {way_out(stretch.left)}"


def later(why: Why) -> str | None:
    """Return how long those tasks ran that became runnable later than this one, and yet ran before it."""
    ran = stretches_of(why.stretches)
    micros = int(ran.micros[(ran.columns.runnable != NOTHING) & (ran.columns.pid != why.pid)].sum())
    return f"Tasks that became runnable later than it had {part_of(why, micros)} of that time." if micros else None


def urgent(why: Why) -> str | None:
    """Return how long tasks ran to which others give way, or that should have given way."""
    if why.prio is None:
        return None
    ran = stretches_of(why.stretches)
    pids, prios = ran.columns.pid, ran.columns.prio
    is_other = (pids != 0) & (pids != NOTHING) & (pids != why.pid) & (prios != NOTHING)
    if why.prio >= NORMAL:
        micros = int(ran.micros[is_other & (prios < NORMAL)].sum())
        return f"Tasks of real time (prio below {NORMAL}) had {part_of(why, micros)} of it." if micros else None
    micros = int(ran.micros[is_other & (prios > why.prio)].sum())
    return f"Tasks less urgent than it (a greater prio) had {part_of(why, micros)} of it." if micros else None


def part_of(why: Why, micros: int) -> str:
    """Return a part of the wait."""
    return f"{micros} us ({percent_of(why, micros)} %)"


def percent_of(why: Why, micros: int) -> int:
    """Return a part of the wait in per cent, rounded."""
    return (200 * micros + why.micros) // (2 * why.micros) if why.micros else 0


def sum_of(shares: Sequence[Share], pid: int | None) -> int:
    """Return how long a task ran, in microseconds."""
    return sum(share.micros for share in shares if share.pid == pid)


def named(task: str | None, pid: int | None) -> str:
    """Return a task as the trace names it."""
    if pid is None:
        return "?"
    return f"{tables.printable(task)}-{pid}" if pid else "(idle)"


def way_out(state: str) -> str:
    """Return how a task left its CPU."""
    return f"slept ({state})" if state in SLEEPS else LEFT.get(state, f"left ({state})")


def counted(count: int, one: str, more: str) -> str:
    """Return how many of something there are."""
    return f"{count} {one if count == 1 else more}"


# ---- its steps


def steps(why: Why, width: int) -> list[str]:
    """Return what happened to the task: when, where, and what."""
    acts: list[tuple[Event, str]] = [(why.begin, start(why))]
    if why.slept:
        left = way_out(why.slept.prev_state or "")
        acts.append((why.slept, f"it {left} on CPU {why.slept.cpu}, having been woken before that"))
    if why.queued:
        micros = why.queued.stamp - why.begin.stamp
        acts.append((why.queued, f"it was queued on CPU {why.queued.target_cpu}, {micros} us after the waking"))
    if why.end:
        acts.append((why.end, end(why, why.end)))
    acts.sort(key=lambda act: act[0][:3])
    places = [f"{event.cpu}:{event.line}" for event, _ in acts]
    room = max(map(len, places))
    fronts = [f"  {seconds(event.stamp)}  {place:{room}}  " for (event, _), place in zip(acts, places)]
    return [line for (_, text), front in zip(acts, fronts) for line in wrapped(text, width, front, " " * len(front))]


def start(why: Why) -> str:
    """Return how the wait began."""
    cpu, waker = why.begin.cpu, named(why.waker.task, why.waker.pid)
    if why.kind == PREEMPTED:
        then = f"where {waker} (prio {why.waker.prio}) ran then" if why.waker.pid else "which then was idle"
        return f"it {put_out(why)}, on CPU {cpu}, {then}"
    if why.kind == FORKED:
        return f"{waker} on CPU {cpu} forked it, and it was queued on CPU {why.begin.target_cpu}"
    last = why.begin.target_cpu
    return f"{waking(why, waker)}{'' if last == why.cpu else f'; it had last run on CPU {last}'}"


def waking(why: Why, waker: str) -> str:
    """Return who woke it, as far as the trace shows."""
    cpu, is_idle = why.begin.cpu, not why.waker.pid
    where = f"CPU {cpu}, which was idle," if is_idle else f"CPU {cpu}, where {waker} ran,"
    if why.context in CONTEXT_NAMES:
        return f"{CONTEXT_NAMES[why.context]} on {where} woke it"
    if is_idle:
        return f"{where} woke it"
    return f"{waker} on CPU {cpu} woke it" if why.context else f"{waker} on CPU {cpu}, or an interrupt there, woke it"


def end(why: Why, switch: Event) -> str:
    """Return how the wait ended."""
    queue = why.queue_cpu
    moved = f", moved over from CPU {queue}" if queue is not None and queue != switch.cpu else ""
    front = named(switch.prev_comm, switch.prev_pid)
    before = f"after {front}, which {way_out(switch.prev_state or '')}" if switch.prev_pid else "which was idle"
    return f"it ran on CPU {switch.cpu}{moved}, {before}"


# ---- what ran


def picture(why: Why, stretches: Sequence[Stretch], width: int) -> list[str]:
    """Return a row for each task: how long it ran, and when."""
    shares, columns = shares_of(stretches), stretches_of(stretches).columns
    begin, until = seconds(why.begin.stamp), seconds(why.until)
    least = max(len(begin) + len(until) - 1, SHORTEST_BAR)
    names = ["task", "prio", "us", "%", "runs"]

    def figures(at: int) -> list[Any]:
        share = shares[at]
        return [named(share.task, share.pid), share.prio, share.micros, percent_of(why, share.micros), share.runs]

    table = tables.table_of(names, len(shares), figures)
    # Two columns stand before a table and between two columns of it, and two around a bar.
    front = max(map(len, fitted(table, width - 6 - least).split("\n")))
    size = max(min(width - 6 - front, LONGEST_BAR), least)

    def row(at: int) -> list[Any]:
        pid = shares[at].pid
        return [*figures(at), bar(why, columns, columns.pid == (NOTHING if pid is None else pid), size)]

    title = f"{begin}{until:>{size - len(begin) + 2}}"
    return indented(fitted(tables.table_of([*names, title], len(shares), row), width - 2))


def bar(why: Why, ran: Columns, own: NDArray[np.bool_], size: int) -> str:
    """Return when a task ran, in some of the stretches, in so many columns: `#` if it ran for half of a column's time or more,
    `-` if for less."""
    # In parts of a microsecond, so that a column's ends are whole numbers too.
    begins, ends = ((stamps[own] - why.begin.stamp) * size for stamps in (ran.begin, ran.end))
    # How long it ran up to each column's end: in the stretches that end before, and in the one that doesn't.
    edges = np.arange(size + 1) * why.micros
    before = ends.searchsorted(edges, "right")
    sums = np.concatenate([[0], (ends - begins).cumsum()])[before]
    filled = np.diff(sums + (edges - np.append(begins, edges[-1])[before]).clip(0)).tolist()
    signs = (" " if not part else "#" if 2 * part >= why.micros else "-" for part in filled)
    return f"|{''.join(signs)}|"


def stretch_lines(why: Why, stretches: Sequence[Stretch], all_stretches: bool, width: int) -> list[str]:
    """Return the stretches, a line each."""
    names = ("from", "us", "task", "prio", "then", "runnable", "switch")

    def row(at: int) -> Sequence[Any]:
        stretch = stretches[at]
        then = "" if stretch.left is None or not stretch.pid else short_way_out(stretch.left)
        place = "" if stretch.line is None else f"{stretch.cpu}:{stretch.line}"
        since = runnable_since(why, stretch) if at and stretch.pid else ""
        return (seconds(stretch.begin), stretch.micros, named(stretch.task, stretch.pid), stretch.prio, then, since, place)

    table = tables.table_of(names, len(stretches), row)
    if all_stretches:
        table = tables.Table(names, list(map(row, range(len(stretches)))), [], 0)
    return indented(fitted(table, width - 2))


def short_way_out(state: str) -> str:
    """Return how a task left its CPU, in few words."""
    return LEFT_SHORT.get(state) or way_out(state)


def runnable_since(why: Why, stretch: Stretch) -> str:
    """Return since when a task was runnable, seen from the one that waits."""
    return "before it" if stretch.runnable is None else f"+{stretch.runnable - why.begin.stamp} us"


def indented(text: str) -> list[str]:
    """Return a table's lines, with two spaces before each."""
    return [f"  {line}" for line in text.split("\n")]


# ---- as wide as is allowed


def fitted(table: tables.Table, width: int) -> str:
    """Return a table in so many columns. If it is wider, the names of tasks in its column `task` are shortened."""
    text = tables.in_text(table)
    excess = max(map(len, text.split("\n"))) - width
    if excess <= 0:
        return text
    at = list(table.names).index("task")
    room = max(max(len(str(row[at])) for row in [*table.front, *table.back]) - excess, SHORTEST_NAME)

    def short(row: Sequence[Any]) -> Sequence[Any]:
        return [*row[:at], shortened(str(row[at]), room), *row[at + 1 :]]

    return tables.in_text(table._replace(front=list(map(short, table.front)), back=list(map(short, table.back))))


def shortened(name: str, room: int) -> str:
    """Return a task's name and number in so many columns, without the end of the name if they have more."""
    if len(name) <= room:
        return name
    front, sign, number = name.rpartition("-")
    return f"{front[: max(room - len(number) - 3, 1)]}..{sign}{number}"
