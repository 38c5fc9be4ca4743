"""waits TRACE: how long tasks that could run waited for a processor."""

from __future__ import annotations

import argparse
import shlex
import sys
from collections.abc import Sequence
from typing import TYPE_CHECKING, Any, NamedTuple

from .._invocation import tool
from .._schema import WAIT_GROUPS
from ..export import json_output
from . import arguments, process

if TYPE_CHECKING:
    from ..waiting.wait_answer import WaitAnswer

DESCRIPTION = """How long tasks that could run waited for a processor: a row for each task and kind of wait,
the longest wait first. Times are in microseconds. TRACE is the text of the kernel's trace file,
compressed by gzip or not, or a recording of perf or trace-cmd; - is standard input. TRACE may be
of any length.

The kind of a wait (woken, new, preempted) depends on the event that it begins with. A wait is
doubtful, and left out, if it may be false or too long, because events of its time may be missing;
REFERENCE.md, Waits, has the rules.
Percentiles are by nearest rank: p99 is the least wait of the row such that at least 99 % of its
waits aren't longer, and so on.
The columns `at` and `where` are the timestamp and the CPU:LINE of the switch that ended the
longest wait: tools/why explains that wait, and what ran meanwhile."""
# How many rows are shown in a terminal, and how many signs the greatest bar of a histogram has.
ROWS, BAR_WIDTH = 30, 40
# What --kind names if a row has all kinds.
ALL = "all"


def parsed(argv: Sequence[str] | None) -> argparse.Namespace:
    """Return the arguments."""
    parser = arguments.parser("waits", DESCRIPTION)
    parser.add_argument("trace", metavar="TRACE")
    parser.add_argument("--by", choices=WAIT_GROUPS, help="what to group waits by (task; for --histogram, all together)")
    kinds_help = "only waits of these kinds, such as woken,new; or all, for all kinds in one row"
    parser.add_argument("--kind", dest="kinds", metavar="KINDS", type=kinds_or_all, help=kinds_help)
    arguments.add_task(parser)
    sort_help = "sort rows by this column: figures descending, names and numbers ascending (otherwise by max)"
    parser.add_argument("--sort", metavar="COLUMN", help=sort_help)
    parser.add_argument("--doubtful", action="store_true", help="also count waits that may be false")
    arguments.add_table_size(parser, ROWS)
    bars_help = "bars by power of two: for all waits, or with --by, one histogram per row"
    parser.add_argument("--histogram", action="store_true", help=bars_help)
    forms = parser.add_mutually_exclusive_group()
    forms.add_argument("--csv", action="store_true", help="comma-separated values, with a line of names")
    forms.add_argument("--json", action="store_true", help="one JSON object: what was read, what was lost, and the rows")
    arguments.add_choice(parser, cpus="only waits that ended on these CPUs, such as 0,2,4-7")
    arguments.add_jobs(parser)
    options = parser.parse_args(argv)
    options.kinds_apart = options.kinds != ALL
    if not options.kinds_apart:
        options.kinds = None
    if options.sort is not None:
        check_sort(parser, options)
    return options


def kinds_or_all(text: str) -> list[str] | str:
    """Return the kinds of waits in a list, or `ALL`."""
    return ALL if text == ALL else arguments.wait_kinds(text)


def check_sort(parser: arguments.Parser, options: argparse.Namespace) -> None:
    """End the tool if the table doesn't have the column that it is to be sorted by."""
    from ..waiting.wait_answer import orders_of

    orders = orders_of(options.by or "task")
    if options.histogram:
        parser.error("argument --sort: a histogram isn't sorted by a column")
    if options.sort not in orders:
        parser.error(f"argument --sort: with --by {options.by or 'task'}, it is one of {', '.join(orders)}")


# ---- tables


class Printout(NamedTuple):
    """What is printed: rows with the names of their columns; the same as text; and how many keys are left out."""

    names: Sequence[str]
    rows: Sequence[Any]
    text: str
    left_out: int


def table_of(answer: WaitAnswer, options: argparse.Namespace, most: int | None) -> Printout:
    """Return a row for each key, at most so many."""
    from ..show import tables
    from ..waiting import wait_answer

    by = options.by or "task"
    rows = answer.table(by, options.doubtful, sort=options.sort, kinds_apart=options.kinds_apart)
    table = wait_answer.table_of(by, rows, most)
    return Printout(wait_answer.NAMES[by], rows[:most], tables.in_text(table._replace(left_out=0)), table.left_out)


def histogram_of(answer: WaitAnswer, options: argparse.Namespace, most: int | None) -> Printout:
    """Return a histogram of all waits, or of those of each key."""
    counts = answer.counts(options.by or "kind", options.doubtful)
    if not options.by:
        counts = counts.by()
    elif not options.kinds_apart:
        counts = counts.by(*(field for field in counts.fields if field != "kind"))
    groups = [row for row in counts.rows() if row.count]
    # A task's name stands before its number.
    fields = [*["task"] * (options.by == "task"), *counts.fields]
    rows, texts = [], []
    for row in groups[:most]:
        name = row.greatest.name if row.greatest else ""
        key = [*[name] * (options.by == "task"), *row.key]
        bars = [(power.low, power.high, count) for power, count in counts.histogram(row.key)]
        rows += [(*key, *bar) for bar in bars]
        texts.append("\n".join([*title_of(fields, key), *bar_lines(bars)]))
    names = [*fields, "low", "high", "count"]
    return Printout(names, rows, "\n\n".join(texts), len(groups[most:]) if most else 0)


def title_of(fields: Sequence[str], key: Sequence[Any]) -> list[str]:
    """Return the line above a histogram, if it has one."""
    from ..show.tables import printable

    return [", ".join(f"{field} {printable(part)}" for field, part in zip(fields, key))] if key else []


def bar_lines(bars: Sequence[tuple[int, int, int]]) -> list[str]:
    """Return a line for each power of two, with a bar as long as its share of the greatest count, rounded up."""
    most = max(count for _, _, count in bars)
    ranges = [str(low) if low == high else f"{low}-{high}" for low, high, _ in bars]
    width = max(map(len, ranges))
    signs = ["@" * -(-BAR_WIDTH * count // most) for _, _, count in bars]
    return [f"{text:>{width}} us {count:10}  {bar}".rstrip() for text, (_, _, count), bar in zip(ranges, bars, signs)]


# ---- output


def write_text(answer: WaitAnswer, options: argparse.Namespace, table: Printout) -> None:
    """Print the table for people."""
    from ..show.tables import printable
    from ..trace.losses import seconds

    print("\n".join([*answer.lines(options.doubtful), *(["", table.text] if table.rows else [])]))
    if table.left_out:
        print(f"{table.left_out} more are not shown; --top all shows them")
    # Whoever reads this in a terminal may want to know more at once.
    longest = table.rows[0] if table.rows and not options.histogram and options.sort is None else None
    if sys.stdout.isatty() and longest and longest.count and options.trace != "-":
        place = f"{longest.end_cpu}:{longest.end_line}"
        # The lines are counted from the same stamp there.
        start = "" if answer.lines_from is None else f"--from {seconds(options.start)} "
        print(f"{tool('why')} {start}{shlex.quote(printable(options.trace))} {place} explains the longest")


def about_waits(answer: WaitAnswer) -> dict[str, Any]:
    """Return what a table is about, for JSON."""
    return {
        **json_output.about(answer),
        "holes": [hole._asdict() for hole in answer.holes],
        "waits": len(answer),
        "doubtful": answer.doubtful,
        "missing": answer.dropped,
        "missing_switches": answer.missing,
        "remarks": answer.remarks(),
    }


def answer_of(options: argparse.Namespace) -> WaitAnswer:
    """Return the waits of the trace, or of the events that are chosen."""
    from ..trace.wait_records import ChosenWaits
    from ..waiting import counting, waits
    from . import traces

    chosen = ChosenWaits(options.kinds, options.cpus, options.tasks)
    if options.events is None:
        by = options.by or ("kind" if options.histogram else "task")
        choice = counting.CountBy(by, options.doubtful, chosen)
        return traces.counted_waits(options, options.trace, "waits", choice)
    recording = traces.recording(options, options.trace, "waits", cpus=None, spare=waits.SPARE)
    return waits.waits(recording).only(**chosen._asdict())


def work(argv: Sequence[str] | None) -> int:
    """Print what the arguments ask for, and return the exit status."""
    options = parsed(argv)
    most = arguments.table_size(options, ROWS)
    from . import conversion

    conversion.begin(options)
    answer = answer_of(options)
    table = (histogram_of if options.histogram else table_of)(answer, options, most)
    if not table.rows:
        from . import traces

        process.note_missing(traces.why_empty(answer, options, "no wait ended"))
    if options.json:
        json_output.write_rows(about_waits(answer), table.names, table.rows)
    elif options.csv:
        from ..export.csv import write_csv

        for remark in answer.remarks():
            process.say("waits", f"{options.trace}: {remark}")
        sys.stdout.flush()
        write_csv(sys.stdout.buffer, table.names, table.rows)
    else:
        write_text(answer, options, table)
    return process.SUCCESS


def main(argv: Sequence[str] | None = None) -> int:
    """Run the tool; see `process.run`."""
    return process.run("waits", lambda: work(argv))
