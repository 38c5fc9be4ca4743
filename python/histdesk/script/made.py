"""The script for the program that gives what a page shows, and the shell's line that runs it.

A script has only triggers, so it says by triggers what a wait of a woken or new task is; the package asks the engine."""

from __future__ import annotations

import itertools
import shlex
from typing import NamedTuple, Sequence

from ..desk.recording import Recording
from ..desk.row_shape import STAMP
from ..show import tables
from ..trace.kind import is_gzip_file

NAME = "view.script"
# A table's greatest size.
SIZE = 131_072
# For each kind of waits that a script measures: the event with which they begin, the field with the task, and the filter for
# what begins one. Task 0 is what a CPU runs if nothing waits; it is always runnable, and waits for nothing.
BEGINS = {"woken": ("sched_waking", "pid", "pid != 0"), "new": ("sched_wakeup_new", "pid", "pid != 0")}
# Filters for the switches away from a task that could run on, and for those to a task.
RUNNABLE = 'prev_state == "R" || prev_state == "R+"'
ENDS = "next_pid != 0"


class NoScript(LookupError):
    """There is no script that gives what is asked for; the message says why."""


def check_loads(recording: Recording, is_whole: bool) -> None:
    """Check that the program can load what a desk holds of a recording.

    Parameters
    ----------
    recording
        What was read of it.
    is_whole
        Whether that is all of it.

    Raises
    ------
    NoScript
        If the program can't.
    """
    if recording.bad_lines:
        raise NoScript("the program refuses a trace that has lines which can't be read")
    if not is_whole:
        raise NoScript("the program loads whole traces, and this is a part of one")


class AskedTrigger(NamedTuple):
    """What is asked for; each may be empty.

    Attributes
    ----------
    event
        The name of an event.
    filter
        A filter of waits that begin or end with it.
    trigger
        A trigger on it.
    """

    event: str
    filter: str
    trigger: str


def script_of(struck: Sequence[tuple[int, int]], asked: AskedTrigger) -> str:
    """Return the commands, a line each: the strikes, the table of the waits, and that of the trigger.

    Parameters
    ----------
    struck
        The CPUs and lines of the events to strike.
    asked
        What is asked for.

    Raises
    ------
    NoScript
        If a line of it would hold a line break.
    """
    lines = ["load @1", *(f"strike {cpu}:{line}" for cpu, line in struck)]
    triggers = wait_triggers_of(asked)
    lines.append(f"# of each task: how many {kind_of(asked)} waits, and how long they are together")
    lines += [*(f"attach {trigger}" for trigger in triggers), f"hist {len(triggers)}", f"totals {len(triggers)}"]
    if asked.trigger:
        number = len(triggers) + 1
        lines += ["# the trigger", f"attach {asked.event} {trigger_of(asked)}", f"hist {number}", f"totals {number}"]
    if any("\n" in line for line in lines):
        raise NoScript("a line of a script holds no line break")
    return "".join(f"{line}\n" for line in lines)


def kind_of(asked: AskedTrigger) -> str:
    """Return the kind of the waits that a script measures."""
    return "new" if asked.event == BEGINS["new"][0] else "woken"


def wait_triggers_of(asked: AskedTrigger) -> list[str]:
    """Return the triggers that measure waits of a kind, each after its event; the last one has the table.

    A stamp of a waking that begins no wait, or an unwanted one, is read by another trigger, so that none reads it later."""
    begins, key, condition = BEGINS[kind_of(asked)]
    name = next(name for name in map("begin{}".format, itertools.count()) if name not in asked.trigger)
    take, at_begin, at_end = f"={STAMP}-${name}", asked.event == begins, asked.event == "sched_switch"
    wanted = f" && ({asked.filter})" if asked.filter else ""
    triggers = [f"{begins} hist:keys={key}:size={SIZE}:{name}={STAMP} if {condition}{wanted if at_begin else ''}"]
    if wanted and at_begin:
        triggers.append(f"{begins} hist:keys={key}:other{take} if {condition} && !({asked.filter})")
    if begins == "sched_waking":
        # The task still ran when it was woken, and was preempted later.
        triggers.append(f"sched_switch hist:keys=prev_pid:ran{take} if prev_pid != 0 && ({RUNNABLE})")
    reader = f"sched_switch hist:keys=next_pid:vals=$waited:size={SIZE}:waited{take} if {ENDS}"
    if wanted and at_end:
        return [*triggers, f"sched_switch hist:keys=next_pid:other{take} if {ENDS} && !({asked.filter})", reader]
    return [*triggers, reader]


def trigger_of(asked: AskedTrigger) -> str:
    """Return the trigger, with the filter."""
    return f"{asked.trigger} if {asked.filter}" if asked.filter else asked.trigger


def command_of(program: str, path: str | None, lines: int | None = None) -> str:
    """Return the shell's line that runs a script over a trace; the script is in a file of the name `NAME`.

    Parameters
    ----------
    program
        The program that runs it.
    path
        The trace; None or `-` if it is no file.
    lines
        How many of its first lines are meant; None is all.
    """
    is_file = path is not None and path != "-"
    trace = shlex.quote(tables.printable(path)) if path is not None and is_file else "TRACE"
    unpack = f"zcat {trace}" if path is not None and is_file and is_gzip_file(path) else ""
    if lines is not None:
        return f"{program} {NAME} <({f'{unpack} | head -n {lines}' if unpack else f'head -n {lines} {trace}'})"
    return f"{program} {NAME} {f'<({unpack})' if unpack else trace}"
