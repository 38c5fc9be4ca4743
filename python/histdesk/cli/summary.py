"""summary TRACE: what a recording sums up to by task, by name or by CPU."""

from __future__ import annotations

import argparse
import sys
from typing import TYPE_CHECKING, Any, Sequence

from .._schema import SUMMARY_GROUPS
from ..export import json_output
from . import arguments, process

if TYPE_CHECKING:
    from ..waiting.summary import SummaryRow, Summary

DESCRIPTION = """How long each task ran and waited for a processor, and how often it was switched to, preempted,
moved to another CPU, put to sleep and blocked: a row for each task over all kinds of waits, the one
that waited longest in all first. --by name adds up the tasks of a name; --by cpu prints how long
each CPU was busy and idle, and idle while some task, queued on whatever CPU, waited: `longest` is
the most of this in one run of the idle task, which began at `longest_from`. For the time `unknown`,
it isn't known what the CPU ran. Times are in microseconds. TRACE is the text of the kernel's trace
file, compressed by gzip or not, or a recording of perf or trace-cmd; - is standard input. TRACE may
be of any length.

A run counts if both of its switches were recorded, and a wait as in tools/waits, which also prints
the waits by kind. p99 is a percentile by nearest rank: the least wait of the row such that at least
99 % of its waits aren't longer. The columns `at` and `where` are the timestamp and the CPU:LINE of
the switch that ended the longest wait: tools/why explains that wait. REFERENCE.md, Sums, has the
rules."""
# How many rows are shown in a terminal.
ROWS = 30


def parsed(argv: Sequence[str] | None) -> argparse.Namespace:
    """Return the arguments."""
    parser = arguments.parser("summary", DESCRIPTION)
    parser.add_argument("trace", metavar="TRACE")
    parser.add_argument("--by", choices=SUMMARY_GROUPS, default=SUMMARY_GROUPS[0], help="what each row covers (task)")
    sort_help = "sort rows by this column: figures descending, names and numbers ascending (total; for --by cpu, cpu)"
    parser.add_argument("--sort", metavar="COLUMN", help=sort_help)
    parser.add_argument("--doubtful", action="store_true", help="also count waits that may be false")
    arguments.add_table_size(parser, ROWS)
    forms = parser.add_mutually_exclusive_group()
    forms.add_argument("--csv", action="store_true", help="comma-separated values, with a line of names")
    forms.add_argument("--json", action="store_true", help="one JSON object: what was read, what was lost, and the rows")
    arguments.add_choice(parser, cpus="with --by cpu: only these CPUs, such as 0,2,4-7", has_events=False)
    options = parser.parse_args(argv)
    if options.sort is not None:
        from ..waiting.summary import orders_of

        if options.sort not in orders_of(options.by):
            parser.error(f"argument --sort: with --by {options.by}, it is one of {', '.join(orders_of(options.by))}")
    if options.cpus is not None and options.by != "cpu":
        parser.error("argument --cpu: the sums of a task are over all CPUs; --by cpu has those of CPUs")
    return options


# ---- output


def write_text(answer: Summary, options: argparse.Namespace, rows: Sequence[SummaryRow], most: int | None) -> None:
    """Print the table for people."""
    from ..show import tables
    from ..waiting import summary

    table = summary.table_of(options.by, rows, most)
    print("\n".join([*answer.lines(), *(["", tables.in_text(table._replace(left_out=0))] if rows else [])]))
    if table.left_out:
        print(f"{table.left_out} more are not shown; --top all shows them")


def about_summary(answer: Summary) -> dict[str, Any]:
    """Return what was read, for JSON."""
    return {
        **json_output.about(answer),
        "holes": [hole._asdict() for hole in answer.holes],
        "doubtful": answer.doubtful,
        "missing_switches": answer.missing,
        "remarks": answer.remarks(),
    }


def write_csv(answer: Summary, options: argparse.Namespace, rows: Sequence[SummaryRow]) -> None:
    """Print the rows below their names; remarks go to standard error."""
    from ..export import csv
    from ..waiting import summary

    for remark in answer.remarks():
        process.say("summary", f"{options.trace}: {remark}")
    sys.stdout.flush()
    csv.write_csv(sys.stdout.buffer, summary.fields_of(options.by), rows)


def work(argv: Sequence[str] | None) -> int:
    """Print what the arguments ask for, and return the exit status."""
    options = parsed(argv)
    from . import conversion

    conversion.begin(options)
    from ..waiting import summary
    from . import traces

    most = arguments.table_size(options, ROWS)
    answer = traces.summary_of(options, options.trace, "summary")
    rows = answer.table(options.by, options.sort)
    if options.cpus is not None:
        rows = [row for row in rows if getattr(row, "cpu") in options.cpus]
    if not rows:
        what = "no switch is" if options.by == "cpu" else "no task ran or was woken"
        process.note_missing(traces.why_empty(answer, options, what))
    if options.json:
        json_output.write_rows(about_summary(answer), summary.fields_of(options.by), rows[:most])
    elif options.csv:
        write_csv(answer, options, rows[:most])
    else:
        write_text(answer, options, rows, most)
    return process.SUCCESS


def main(argv: Sequence[str] | None = None) -> int:
    """Run the tool; see `process.run`."""
    return process.run("summary", lambda: work(argv))
