"""The arguments that several tools take, and their `--help`."""

from __future__ import annotations

import argparse
import re
import sys
from typing import NoReturn

from .._invocation import as_called
from .._invocation import tool as tool_command
from .._schema import LINE_EVENTS, WAIT_EVENTS, WAIT_KINDS

STAMP = re.compile(r"([0-9]{1,10})(?:\.([0-9]{1,6}))?")
# The most parts of a trace that are read at once.
MOST_JOBS = 512


class Parser(argparse.ArgumentParser):
    """Reports in one line what is wrong with the arguments, and where to read more.

    Attributes
    ----------
    tool
        The name with which messages begin.
    """

    tool = ""

    def error(self, message: str) -> NoReturn:
        """End the tool with a message and status 2."""
        self.exit(2, f"{self.tool}: {message}; --help says more\n")


def parser(tool: str, description: str, usage: str | None = None) -> Parser:
    """Return a parser of the arguments of a tool.

    Parameters
    ----------
    tool
        The name with which messages begin.
    description
        What `--help` prints; it names tools as in a checkout, and the parser names them as they are called here.
    usage
        The usage after the tool's name, a line for each form; by default, it is made from the arguments.

    Returns
    -------
    Parser
        The parser, to which the tool adds its arguments.
    """
    prog = tool_command(tool)
    result = Parser(
        prog=prog,
        usage=None if usage is None else "\n       ".join(f"{prog} {form}" for form in usage.split("\n")),
        description=as_called(description),
        formatter_class=argparse.RawDescriptionHelpFormatter,
        allow_abbrev=False,
    )
    result.tool = tool
    return result


# ---- options of several tools


def add_choice(
    to: argparse.ArgumentParser, cpus: str = "only events of these CPUs, such as 0,2,4-7", has_events: bool = True
) -> None:
    """Add the options that choose events of a trace; `cpus` is the help of `--cpu`, and `--events` may be left out."""
    group = to.add_argument_group("which events of a trace to use")
    group.add_argument("--from", dest="start", metavar="STAMP", type=stamp, help="from this timestamp on, in seconds")
    group.add_argument("--until", metavar="STAMP", type=stamp, help="only before this timestamp, in seconds")
    group.add_argument("--cpu", dest="cpus", metavar="CPUS", type=cpu_list, help=cpus)
    some = f"only these events, such as {WAIT_EVENTS[0]},{WAIT_EVENTS[-1]}"
    if has_events:
        group.add_argument("--events", metavar="NAMES", type=event_names, help=some)
    group.add_argument("--lenient", action="store_true", help="skip lines that can't be read, and report which")


def add_jobs(to: argparse.ArgumentParser) -> None:
    """Add the option that says how many processors read a trace."""
    help = "read N parts of TRACE at once; by default 1, or above 200 MB as many as there are processors, up to 16"
    to.add_argument("--jobs", metavar="N", type=job_count, help=help)


def add_kinds(to: argparse._ActionsContainer, help: str) -> None:
    """Add the option that chooses kinds of waits."""
    to.add_argument("--kind", dest="kinds", metavar="KINDS", type=wait_kinds, help=help)


def add_task(to: argparse._ActionsContainer) -> None:
    """Add the option that chooses tasks. What it names each time it is given adds up."""
    help = "only waits of tasks with this name or PID; NAME-PID is one task; several times for several tasks"
    to.add_argument("--task", dest="tasks", metavar="TASK", type=named_tasks, action="extend", help=help)


def add_table_size(to: argparse.ArgumentParser, in_terminal: int) -> None:
    """Add the option that says how many rows of a table are printed."""
    help = f"the first N rows, or all ({in_terminal} in a terminal, else all)"
    to.add_argument("--top", metavar="N", type=row_count, help=help)


def table_size(arguments: argparse.Namespace, in_terminal: int) -> int | None:
    """Return how many rows of a table are printed, or None for all."""
    if arguments.top is None:
        return in_terminal if sys.stdout.isatty() and not (arguments.csv or arguments.json) else None
    return arguments.top or None


# ---- values


def fault(message: str) -> argparse.ArgumentTypeError:
    """Return the exception for a value that can't be read; argparse reports its message after the option's name."""
    return argparse.ArgumentTypeError(message)


def stamp(text: str) -> int:
    """Return a timestamp in microseconds; the text is in seconds."""
    match = STAMP.fullmatch(text)
    if not match:
        raise fault(f"{text} is not a timestamp such as 6012.000100")
    return int(match[1]) * 1_000_000 + int((match[2] or "").ljust(6, "0"))


def cpu_list(text: str) -> list[int]:
    """Return the CPUs of a list of numbers and ranges."""
    matches = [re.fullmatch("([0-9]{1,4})(?:-([0-9]{1,4}))?", part) for part in text.split(",")]
    if not all(matches):
        raise fault(f"{text} is not a list of CPUs such as 0,2,4-7")
    bounds = [(int(match[1]), int(match[2] or match[1])) for match in matches if match]
    return [cpu for first, last in bounds for cpu in range(first, last + 1)]


def event_names(text: str) -> list[str]:
    """Return the events of a list of names; those of the scheduler may be named without `sched_`."""
    names = [name if name in LINE_EVENTS else f"sched_{name}" for name in text.split(",")]
    for name in names:
        if name not in LINE_EVENTS:
            raise fault(f"there is no event {text}; the events are {', '.join(LINE_EVENTS)}")
    return names


def wait_kinds(text: str) -> list[str]:
    """Return the kinds of waits in a list."""
    kinds = text.split(",")
    for kind in kinds:
        if kind not in WAIT_KINDS:
            raise fault(f"there is no kind {kind}; the kinds are {', '.join(WAIT_KINDS)}")
    return kinds


def named_tasks(text: str) -> list[str | int]:
    """Return a task's name, and its PID if the text may be one or ends with one, as in `make-24658`."""
    last = text.rpartition("-")[2]
    return [text, int(last)] if last.isdecimal() and last == str(int(last)) else [text]


def row_count(text: str) -> int:
    """Return a number of rows, or 0 for `all`."""
    if text == "all":
        return 0
    if not text.isdecimal() or int(text) == 0:
        raise fault(f"{text} is neither a number from 1 on nor all")
    return int(text)


def positive(text: str) -> int:
    """Return a number from 1 on."""
    if not text.isdecimal() or int(text) == 0:
        raise fault(f"{text} is not a number from 1 on")
    return int(text)


def port(text: str) -> int:
    """Return the number of a TCP port."""
    if not text.isdecimal() or not 0 < int(text) < 65536:
        raise fault(f"{text} is not a port such as 8000")
    return int(text)


def job_count(text: str) -> int:
    """Return a number of parts that are read at once."""
    if not re.fullmatch("[0-9]{1,3}", text) or not 1 <= int(text) <= MOST_JOBS:
        raise fault(f"{text} is not a number from 1 to {MOST_JOBS}")
    return int(text)


def place(text: str) -> tuple[int, int]:
    """Return a CPU and a line of it, from CPU:LINE."""
    match = re.fullmatch("([0-9]{1,4}):([0-9]{1,10})", text)
    if not match:
        raise fault(f"{text} is not a place CPU:LINE such as 2:1042")
    return int(match[1]), int(match[2])
