"""A chain of wakings as a text for people: its steps as a table, and why it has no further step."""

from __future__ import annotations

from collections.abc import Sequence
from typing import TYPE_CHECKING

from ..show import tables
from ..show.width import wrapped
from ..trace.losses import Hole, seconds
from ..trace.places import Place
from .stretches import Runner
from .why_text import CONTEXT_NAMES, counted, fitted, hole_text, indented, named

if TYPE_CHECKING:
    from .chain import Chain, ChainStep

# The table's words for where a waking came from.
ORIGINS = {"task": "task", "hardirq": "interrupt", "softirq": "softirq", "nmi": "NMI", None: "task?"}
# The column that says how many times a task was preempted.
LOST_CPU = "lost CPU"
NOTE = "The lines have no flags: an interrupt, and not the next task, may have woken a task that has task? here."


def chain_text_of(chain: Chain, width: int, all_steps: bool) -> str:
    """Return the text of a chain, without a line break at its end."""
    title = f"The chain of wakings back from this wait: {counted(len(chain), 'step', 'steps')}, {chain.micros} us"
    rows = [step_row_of(step) for step in chain]
    notes = [chain.remark, *[NOTE] * any(row["by"] == ORIGINS[None] for row in rows)]
    lines = [f"{title} (times in us)", *indented(step_table(rows, width - 2, all_steps)), ""]
    return "\n".join([*lines, *(line for note in notes for line in wrapped(note, width))])


def step_table(rows: Sequence[dict[str, object]], width: int, all_steps: bool) -> str:
    """Return the steps as a table for lines of `width` columns; if it would be wider, less is shown of each step."""
    names = [name for name in rows[0] if name != LOST_CPU or any(row[name] for row in rows)]
    ends = tables.ENDS
    text = ""
    for spare in (None, LOST_CPU, "since"):
        names = [name for name in names if name != spare]
        cells = [[row[name] for name in names] for row in rows]
        front, back = (cells, []) if all_steps or len(cells) <= 2 * ends else (cells[:ends], cells[-ends:])
        text = fitted(tables.Table(names, [*front], [*back], len(cells) - len(front) - len(back)), width)
        if max(map(len, text.split("\n"))) <= width:
            break
    return text


def step_row_of(step: ChainStep) -> dict[str, object]:
    """Return a step as a row of the table, by the names of the columns."""
    return {
        "task": named(step.task, step.pid),
        "CPU": step.cpu,
        "since": seconds(step.since),
        "event": f"{step.begin.cpu}:{step.begin.line}" if step.begin else "",
        "by": origin(step),
        "slept": sleep(step),
        "waited": step.waited,
        "ran": step.ran,
        LOST_CPU: step.preemptions,
    }


def origin(step: ChainStep) -> str:
    """Return the table's word for what made a task runnable."""
    if step.begin is None or step.waker is None:
        return "?"
    if step.is_new:
        return "fork"
    return "idle CPU" if step.context in (None, "task") and not step.waker.pid else ORIGINS[step.context]


def sleep(step: ChainStep) -> str:
    """Return how long a task slept, and its state."""
    if step.is_new:
        return ""
    if step.slept is None:
        return "?"
    return f"{step.slept} {step.asleep.prev_state}" if step.asleep else str(step.slept)


# ---- why a chain ends


def by_interrupt(runner: Runner, context: str | None, cpu: int, waker: Runner) -> str:
    """Return that an interrupt woke a task."""
    what = f"{CONTEXT_NAMES[context or 'hardirq']} on CPU {cpu} woke {name(runner)}"
    if not waker.pid:
        return f"The chain ends here: {what}."
    return f"The chain ends here: {what}. What it interrupted there, {name(waker)}, is not the cause."


def on_idle_cpu(runner: Runner, cpu: int) -> str:
    """Return that a task was woken on an idle CPU."""
    return f"The chain ends here: CPU {cpu} was idle when {name(runner)} was woken there, so an interrupt or a timer woke it."


def by_itself(runner: Runner, cpu: int) -> str:
    """Return that a task ran where it was woken."""
    return f"The chain ends here: {name(runner)} itself still ran on CPU {cpu}, where it was woken, so an interrupt woke it."


def awake(last: Runner, first: Runner, fell: int, is_new: bool) -> str:
    """Return that a task was awake since before another one fell asleep or was created."""
    what = "was created" if is_new else "fell asleep"
    return f"The chain ends here: {name(last)} was already awake when {name(first)} {what} at {seconds(fell)}."


def no_switch_before(runner: Runner, since: int) -> str:
    """Return that a task ran already when the recording began."""
    return f"The chain stops here: {name(runner)} ran from {seconds(since)} or before, and no earlier switch to it is recorded."


def no_waking(runner: Runner, switch: Place, has_run: bool) -> str:
    """Return that no waking of a task was recorded; `has_run` says whether the task ran before."""
    place = f"{switch.cpu}:{switch.line}"
    if has_run:
        return f"The chain stops here: no event shows what made {name(runner)} runnable before it ran at {place}."
    return f"The chain stops here: nothing is recorded of {name(runner)} before it ran at {place}."


def missing_switch(runner: Runner, cpu: int, since: int) -> str:
    """Return that a switch to a task is missing."""
    return f"The chain stops here: {name(runner)} ran on CPU {cpu} at {seconds(since)}, and the switch to it was not recorded."


def lost_in_run(runner: Runner, hole: Hole) -> str:
    """Return that events were lost while a task ran, or before."""
    return f"The chain stops here: {hole_text(hole)}, so it isn't known since when {name(runner)} ran."


def lost_in_wait(runner: Runner, hole: Hole) -> str:
    """Return that events were lost while a task waited."""
    return f"The chain stops here: {hole_text(hole)}, while {name(runner)} waited, so its waking may be another one."


def slept_in_wait(runner: Runner) -> str:
    """Return that a task slept once more after its wait seems to have begun."""
    return f"The chain stops here: {name(runner)} slept once more after its waking, and what woke it then may be missing."


def woken_in_queue(runner: Runner, left: int) -> str:
    """Return that a task was woken although it was left runnable."""
    return (
        f"The chain stops here: {name(runner)} could still run when it left its CPU at {seconds(left)}, and was woken after "
        "that; when it fell asleep isn't known."
    )


def lost_before_run(runner: Runner, switch: Place, hole: Hole) -> str:
    """Return that events were lost before a task ran."""
    place = f"{switch.cpu}:{switch.line}"
    return f"The chain stops here: {hole_text(hole)}, so it isn't known what made {name(runner)} runnable before {place}."


def too_many_steps(steps: int) -> str:
    """Return that a chain is cut after so many steps."""
    return f"The chain is cut here, after {counted(steps, 'step', 'steps')}: it goes on before that."


def too_many_events(runner: Runner, events: int) -> str:
    """Return that too many events were read."""
    return f"The chain is cut here: what {name(runner)} did before is more than {events:,} events back."


def too_many_runs(runner: Runner, runs: int) -> str:
    """Return that a task was preempted too often."""
    return f"The chain is cut here: its tasks ran more than {runs:,} times, and {name(runner)} was runnable before that."


def name(runner: Runner) -> str:
    """Return a task as the trace names it."""
    return named(runner.task, runner.pid)
