"""why TRACE [CPU:LINE]...: why a task waited for a processor."""

from __future__ import annotations

import argparse
import json
from typing import TYPE_CHECKING, Any, Callable, Iterator, Sequence

from ..script.words import columns
from . import arguments, process

if TYPE_CHECKING:
    from ..desk.values import Event
    from ..explain.chain import Chain, ChainStep
    from ..explain.explainer import Explainer
    from ..explain.why import Why
    from ..waiting.waits import Waits

DESCRIPTION = """Why a task waited for a processor: who woke it, where it was queued and where it ran, and what
ran there meanwhile and for how long, in words, as a picture, and in order. TRACE is the text of
the kernel's trace file, compressed by gzip or not, or a recording of perf or trace-cmd; - is
standard input. TRACE may be of any length: the events around a wait are read again.

CPU:LINE names an event, the LINEth of its CPU in the whole trace, as tools/waits prints it. It
selects the wait that this event ends, or else the one that it begins; a waking of a task that
already waits selects that wait. Without a place, it is the longest wait; the options select others.
REFERENCE.md, Waits, defines what a wait is.

In the picture, a column has # if the task ran for at least half of the column's time, and - if it
ran for less. The state in which a task left its CPU is in parentheses, as in the trace: R+ was preempted
in the kernel; R was preempted on its way back to user space, or yielded; S, D and I
slept; X and Z exited. Only sched_wakeup shows on which CPU a task was queued. Only the flags of a
line show that an interrupt woke a task, and perf's text has no flags.

--chain also follows the wakings back: who woke the task that woke this one, and so on. Each step is
a task from its own waking or creation until it woke the one above it: how long it had slept before
that, waited for a processor, and run. The chain ends with an interrupt, or with a task that was
already awake when the first one fell asleep; the last line says why. Recordings don't show what a
task waited for in its sleep, only who ended it: a task that is woken by another one need not have
been waiting for it. A waking from an interrupt names the task that was interrupted, which has
nothing to do with it: the chain ends there if the line has flags. Without flags, it goes on with
that task, and marks the waking as `task?`."""
LINE = "-" * 72
# How many steps a chain has at most by default.
DEFAULT_STEPS = 32


def parsed(argv: Sequence[str] | None) -> argparse.Namespace:
    """Return the arguments."""
    parser = arguments.parser("why", DESCRIPTION)
    parser.add_argument("trace", metavar="TRACE")
    place_help = "an event of a wait"
    parser.add_argument("places", metavar="CPU:LINE", nargs="*", default=[], type=arguments.place, help=place_help)
    parser.add_argument("--all", action="store_true", help="show everything that ran, in order (otherwise 10 from each end)")
    parser.add_argument("--chain", action="store_true", help="also show who woke the task that woke it, and so on")
    beyond_help = "with --chain: also what came before the waiting task fell asleep"
    parser.add_argument("--beyond", action="store_true", help=beyond_help)
    steps_help = f"with --chain: at most N steps ({DEFAULT_STEPS})"
    parser.add_argument("--steps", metavar="N", type=arguments.positive, help=steps_help)
    parser.add_argument("--json", action="store_true", help="one JSON object, with an object for each wait")
    chosen = parser.add_argument_group("which waits to explain if no place is given")
    chosen.add_argument("--worst", metavar="N", type=arguments.positive, help="the N longest (1, or all with --at)")
    at_help = "those in progress or ending at this timestamp"
    chosen.add_argument("--at", metavar="STAMP", type=arguments.stamp, help=at_help)
    arguments.add_task(chosen)
    arguments.add_kinds(chosen, "only of these kinds, such as woken,new")
    chosen.add_argument("--doubtful", action="store_true", help="also waits that may be false")
    arguments.add_choice(parser, cpus="only waits that ended on these CPUs, such as 0,2,4-7")
    arguments.add_jobs(parser)
    options = parser.parse_intermixed_args(argv)
    check_options(parser, options)
    options.steps = options.steps or DEFAULT_STEPS
    return options


def check_options(parser: arguments.Parser, options: argparse.Namespace) -> None:
    """End the tool if an option would do nothing."""
    choosing = (options.worst, options.at, options.tasks, options.kinds, options.cpus)
    if options.places and (options.doubtful or any(value is not None for value in choosing)):
        parser.error("a place names one wait: --worst, --at, --task, --kind, --cpu and --doubtful go without one")
    if not options.chain and (options.beyond or options.steps is not None):
        parser.error("--beyond and --steps go with --chain")


def chosen_explainer(options: argparse.Namespace) -> Explainer:
    """Return what explains the waits of the trace, of a stretch of it, or of the events that are chosen."""
    from ..desk.recording import Choice, counted_from, read_text
    from ..explain.explainer import explainer_with, part_explainer
    from . import traces

    if options.events is not None:
        return part_explainer(traces.recording(options, options.trace, "why", cpus=None))
    waits = traces.whole_waits(options, options.trace, "why")
    if waits.lines_from is not None:
        process.say("why", f"{options.trace}: {counted_from(waits.lines_from)}")
    if waits.source or options.trace == "-":
        return explainer_with(waits, traces.source_of(options.trace), options.lenient)
    # The trace isn't in the order of time. What was lost has been reported.
    choice = Choice(options.start, options.until)
    text = traces.checked_text(options.trace)
    return part_explainer(read_text(options.trace, text, choice, options.lenient))


def longest_waits(options: argparse.Namespace, explainer: Explainer) -> Waits:
    """Return the longest of the waits that are chosen, in order. Raises `Stop` if there are none."""
    from ..explain.explainer import greatest, lasting_at
    from ..show.tables import are, count_of

    waits = explainer.waits.only(kinds=options.kinds, cpus=options.cpus, tasks=options.tasks)
    waits = lasting_at(waits, options.at)
    doubtful = waits.doubtful
    if doubtful and not options.doubtful:
        them = "it" if doubtful == 1 else "them"
        left_out = f"{count_of(doubtful, 'wait')} may be false and {are(doubtful)} left out"
        process.say("why", f"{options.trace}: {left_out}; --doubtful explains {them} too")
    most = options.worst or (1 if options.at is None else None)
    waits = greatest(waits, most, options.doubtful)
    if not len(waits):
        raise process.Stop("there is no such wait", process.PARTIAL)
    return waits


# ---- output


def text_of(why: Why, options: argparse.Namespace, width: int) -> str:
    """Return a wait in words."""
    text = why.text(options.all, width)
    return f"{text}\n\n{why.chain(options.steps, options.beyond).text(width, options.all)}" if options.chain else text


def write_text(waits: Iterator[str]) -> None:
    """Print each wait for people."""
    for at, text in enumerate(waits):
        print(*[LINE] * (at > 0), text, sep="\n")


def write_json(path: str | None, waits: Iterator[str]) -> None:
    """Print an object on several lines, one for each wait. It is complete even if a later wait can't be explained."""
    print(f'{{"trace": {json.dumps(path)}, "waits": [', end="")
    before = "\n"
    try:
        for text in waits:
            print(before + text, end="")
            before = ",\n"
    finally:
        print("\n]}")


def why_json(why: Why, options: argparse.Namespace) -> dict[str, Any]:
    """Return a wait as plain data. Stamps are in microseconds, like all times."""
    events = {name: json_of_event(getattr(why, name)) for name in ("begin", "end", "queued", "slept")}
    lists: dict[str, Sequence[Any]] = {"holes": why.holes}
    if options.all:
        lists["stretches"] = why.stretches
    # There may be many, and this is the quickest way to a dictionary.
    shares = [{"task": task, "pid": pid, "prio": prio, "micros": us, "runs": runs} for task, pid, prio, us, runs in why.shares]
    return {
        **{name: getattr(why, name) for name in ("kind", "task", "pid", "prio", "micros", "until", "cpu", "queue_cpu")},
        **events,
        "waker": why.waker._asdict(),
        "context": why.context,
        "doubtful": why.doubtful,
        "unknown_cpus": why.unknown_cpus,
        "shares": shares,
        **{name: [one._asdict() for one in items] for name, items in lists.items()},
        **({"chain": json_of_chain(why.chain(options.steps, options.beyond))} if options.chain else {}),
    }


def json_of_chain(chain: Chain) -> dict[str, Any]:
    """Return a chain as plain data."""
    return {"micros": chain.micros, "end": chain.end, "remark": chain.remark, "steps": list(map(json_of_step, chain))}


def json_of_step(step: ChainStep) -> dict[str, Any]:
    """Return a step of a chain as plain data."""
    events = {name: json_of_event(getattr(step, name)) for name in ("begin", "asleep")}
    return {**step._asdict(), **events, "waker": step.waker and step.waker._asdict()}


def json_of_event(event: Event | None) -> dict[str, Any] | None:
    """Return the fields that an event has."""
    return event and {name: value for name, value in event._asdict().items() if value is not None}


def explanations(options: argparse.Namespace, explainer: Explainer, text_of: Callable[[Why], str]) -> Iterator[str]:
    """Return the waits that are asked for, each as a text."""
    if options.places:
        return (text_of(explainer.explain_at(*place)) for place in options.places)
    return texts_in_order(explainer, longest_waits(options, explainer), text_of)


def texts_in_order(explainer: Explainer, waits: Waits, text_of: Callable[[Why], str]) -> Iterator[str]:
    """Go through waits, each as a text. They are explained in another order, so that texts are kept meanwhile."""
    from ..trace.text import KeptText

    kept, ends = KeptText(), {}
    for at, why in explainer.explain_together(waits):
        start = kept.size or 0
        kept.add(text_of(why).encode("utf-8", "surrogatepass"))
        ends[at] = (start, kept.size or 0)
    for at in range(len(waits)):
        yield kept.read(*ends[at]).decode("utf-8", "surrogatepass")


def work(argv: Sequence[str] | None) -> int:
    """Print an explanation of each wait, and return the exit status."""
    options = parsed(argv)
    explainer = chosen_explainer(options)
    try:
        if options.json:
            write_json(explainer.waits.path, explanations(options, explainer, lambda why: json.dumps(why_json(why, options))))
        else:
            width = columns()
            write_text(explanations(options, explainer, lambda why: text_of(why, options, width)))
    except LookupError as error:
        # A place that belongs to no wait.
        raise process.Stop(error.args[0], process.PARTIAL) from None
    return process.SUCCESS


def main(argv: Sequence[str] | None = None) -> int:
    """Run the tool; see `process.run`."""
    return process.run("why", lambda: work(argv))
