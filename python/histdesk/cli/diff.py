"""diff TRACE TRACE, diff BEFORE.. -- AFTER.., or diff TRACE --without 'EVENT if FILTER': how waits changed."""

from __future__ import annotations

import argparse
import sys
from pathlib import Path
from typing import TYPE_CHECKING, Iterable, Mapping, Sequence

from .._schema import DIFFERENCE_ORDERS, WAIT_GROUPS
from ..export import json_output
from . import arguments, process

if TYPE_CHECKING:
    from ..compare.diff import Difference, DifferenceRow
    from ..compare.permutation import ComparisonRow, Splits
    from ..compare.several import Comparison, RecordingWaits
    from ..desk.recording import Recording
    from ..waiting.counts import Key
    from ..waiting.waits import Waits

USAGE = """[option ..] TRACE TRACE
[option ..] BEFORE.. -- AFTER..
[option ..] TRACE --without 'EVENT if FILTER'"""
DESCRIPTION = """How the waits of tasks changed: from one recording to another, from several recordings to several
others, or in one recording without some of its events.

  tools/diff old.trace new.trace
  tools/diff old1.trace old2.trace old3.trace old4.trace -- new1.trace new2.trace new3.trace new4.trace
  tools/diff my.trace --without 'sched_waking if common_pid == 0'

The first row is for all waits. Then come the rows that changed: by name for two recordings, because
PIDs differ between them, otherwise by task. A figure that changed is shown as BEFORE -> AFTER.
Times are in microseconds. waited/s is how long all waits of a row took together per second of the
recording: at 1000000, one task is waiting all the time. Rows are sorted by how much this changed.
Percentiles are by nearest rank: p99 is the least wait such that at least 99 % aren't longer.
Recordings may be of any length, and need not be equally long: waits are counted per second.
Doubtful waits are left out.

Two recordings of the same load differ too. Each of two recordings is therefore cut into 8 parts of
equal time, and the columns of spread say how much its parts differ. If one recording's parts differ
by as much as the two recordings do, the row is marked `within`: the change may be chance. Parts of
one recording are not independent recordings, so a row without the mark may be chance as well.

With several recordings on each side, the table has the mean of the recordings, and the least and the
greatest value. A permutation test (Fisher and Pitman) says which differences are within the spread
of the recordings: it regroups all of them into two sides of these sizes, and p is the share of
the splits in which some figure differs as clearly. The figures of all waits are tested together,
and so are those of the rows with at least 1 % of the time waited (maxT of Westfall and Young): if
nothing has changed, the chance that any of them is reported is at most 5 %. The test assumes that
if nothing has changed, each recording could as well have been made on the other side, so take turns
in recording before and after. It needs 4 recordings on each side.

With --without, some events are not counted, and the waits are those of the remaining events. All
else stays as it was recorded: no task runs sooner. If a waking is left out, its wait is gone; but
if another waking came before it, the wait begins there and is longer, even if the task was still
running then. A line reports how many waits are gone, begin with another event, or are new.

TRACE is the text of the kernel's trace file, compressed by gzip or not, or a recording of perf or
trace-cmd; - is standard input.
tools/waits --help says what a wait is."""
# How many rows are printed in a terminal.
ROWS = 30
# Stands for `--` among the recordings, so that options may follow; no argument can contain it.
SEPARATOR = "\0"


# ---- the arguments


def parse(argv: Sequence[str] | None) -> argparse.Namespace:
    """Return the arguments; `before` and `after` are the recordings of each side."""
    parser = arguments.parser("diff", DESCRIPTION, USAGE)
    parser.add_argument("traces", metavar="TRACE", nargs="*", help="a recording; -- separates several before from those after")
    parser.add_argument(
        "--without",
        metavar="'EVENT if FILTER'",
        action="append",
        default=[],
        help="leave out these events; ` if FILTER` is optional, and --without may be repeated",
    )
    parser.add_argument("--by", choices=WAIT_GROUPS, help="what to group waits by")
    arguments.add_kinds(parser, "only waits of these kinds, such as woken,new")
    sort_help = "sort rows by the change of this (waited)"
    parser.add_argument("--sort", choices=DIFFERENCE_ORDERS, default=DIFFERENCE_ORDERS[0], help=sort_help)
    above_help = "also show the share of waits longer than this; not with several recordings"
    parser.add_argument("--above", metavar="MICROS", type=int, help=above_help)
    arguments.add_table_size(parser, ROWS)
    forms = parser.add_mutually_exclusive_group()
    forms.add_argument("--csv", action="store_true", help="comma-separated values, with a line of names")
    forms.add_argument("--json", action="store_true", help="one JSON object: what was compared, what was lost, and the rows")
    arguments.add_choice(parser, cpus="only waits that ended on these CPUs, such as 0,2,4-7")
    arguments.add_jobs(parser)
    given = sys.argv[1:] if argv is None else argv
    options = parser.parse_intermixed_args([SEPARATOR if argument == "--" else argument for argument in given])
    options.before, options.after = sides_in(options.traces, bool(options.without), parser)
    if options.above is not None and is_several(options):
        parser.error("--above takes two recordings, and not several of each side")
    return options


def sides_in(traces: Sequence[str], has_filter: bool, parser: argparse.ArgumentParser) -> tuple[list[str], list[str]]:
    """Return the recordings before and after. If they can't be told apart, the tool ends with a message."""
    if not traces:
        parser.error("TRACE is missing")
    before, after = split_traces(traces, parser)
    if bool(after) == has_filter:
        parser.error("another TRACE or --without has to say what is compared, and not both")
    if [*before, *after].count("-") > 1:
        parser.error("only one TRACE can be standard input")
    if len(before) + len(after) > 2:
        check_given_once([*before, *after], parser)
    return before, after


def split_traces(traces: Sequence[str], parser: argparse.ArgumentParser) -> tuple[list[str], list[str]]:
    """Return the recordings before `--` and those after it; without it, the first one and the second one."""
    if SEPARATOR not in traces:
        if len(traces) > 2:
            advice = "a -- between those before the change and those after it, as in BEFORE1 BEFORE2 -- AFTER1 AFTER2"
            parser.error(f"{len(traces)} recordings need {advice}")
        return [*traces[:1]], [*traces[1:]]
    at = traces.index(SEPARATOR)
    before, after = [*traces[:at]], [*traces[at + 1 :]]
    if SEPARATOR in after:
        parser.error("-- stands there twice; it separates the recordings before the change from those after it")
    if not (before and after):
        parser.error(f"no TRACE stands {'after' if before else 'before'} --")
    return before, after


def check_given_once(paths: Sequence[str], parser: argparse.ArgumentParser) -> None:
    """End the tool with a message if two paths lead to one file."""
    known: dict[tuple[int, int], str] = {}
    for path in filter(is_file, paths):
        status = Path(path).stat()
        other = known.setdefault((status.st_dev, status.st_ino), path)
        if other is not path:
            parser.error(f"{path} is given twice{'' if path == other else f', also as {other}'}; a test would count it twice")


def is_file(path: str) -> bool:
    """Return whether a path leads to a file, and not to a pipe."""
    return path != "-" and Path(path).is_file()


def is_several(options: argparse.Namespace) -> bool:
    """Return whether there are several recordings on a side."""
    return len(options.before) + len(options.after) > 2


# ---- what is compared


def difference_of(options: argparse.Namespace) -> Difference:
    """Return what is asked for of one recording or two."""
    from ..compare import diff

    if options.without:
        difference = difference_without(options)
    else:
        difference = diff.diff(waits_in(options, options.before[0]), waits_in(options, options.after[0]))
    return difference.only(kinds=options.kinds, cpus=options.cpus)


def waits_in(options: argparse.Namespace, path: str) -> Waits:
    """Return the waits of a trace."""
    from ..waiting import waits
    from . import traces

    if options.events is None:
        return traces.whole_waits(options, path, "diff", keeps=False)
    return waits.waits(recording_of(options, path))


def comparison_of(options: argparse.Namespace, by: str) -> Comparison:
    """Return what is asked for of several recordings; their waits are counted and not kept."""
    from ..compare.several import Comparison

    before, after = ([counts_in(options, path, by) for path in side] for side in (options.before, options.after))
    return Comparison(before, after)


def counts_in(options: argparse.Namespace, path: str, by: str) -> RecordingWaits:
    """Return the waits of a trace, counted."""
    from ..trace.wait_records import ChosenWaits
    from ..waiting import counting
    from . import traces

    if options.events is not None:
        return waits_in(options, path).only(kinds=options.kinds, cpus=options.cpus)
    return traces.counted_waits(options, path, "diff", counting.CountBy(by, chosen=ChosenWaits(options.kinds, options.cpus)))


def difference_without(options: argparse.Namespace) -> Difference:
    """Return how waits change without some events."""
    from ..compare import diff, without
    from . import traces

    [path] = options.before
    if options.events is not None:
        return diff.diff(recording_of(options, path), without=options.without)
    chosen = [without.read_chosen(text) for text in options.without]
    # What is wrong with them is reported before anything takes long.
    without.check_chosen(chosen)
    watch = traces.Watch(path, "diff")
    is_whole = options.start is None and options.until is None
    trace = traces.source_of(path) if is_whole else traces.stretch(options, path)
    try:
        difference = diff.diff_without(trace, chosen, options.lenient, watch, path)
    finally:
        watch.end()
    traces.report_losses(difference.before, path, "diff")
    return difference


def recording_of(options: argparse.Namespace, path: str) -> Recording:
    """Return the events of a trace that are chosen."""
    from ..waiting import waits
    from . import traces

    return traces.recording(options, path, "diff", cpus=None, spare=waits.SPARE)


# ---- output


def write_text(
    difference: Difference, rows: Sequence[DifferenceRow], parts: Mapping[Key, ComparisonRow], options: argparse.Namespace
) -> None:
    """Print the table of one recording or two for people."""
    from ..compare import diff
    from ..show import tables

    most = arguments.table_size(options, ROWS)
    table = diff.table_of(difference, rows[:most], by=options.by, sort=options.sort, above=options.above, parts=parts)
    print("\n".join([*difference.lines(), "", tables.in_text(table)]))
    if not rows:
        print("nothing changed")
    write_rest(len(rows), most, "changed and ")
    if rows and parts:
        print("\n".join(["", *diff.parts_lines(options.sort)]))


def write_rest(count: int, most: int | None, what: str) -> None:
    """Print how many rows were left out."""
    from ..show.tables import are, count_of

    if most and count > most:
        left = count - most
        print(f"{count_of(left, 'more row')} {what}{are(left)} not shown; --top all shows {'it' if left == 1 else 'them'}")


def write_comparison(comparison: Comparison, rows: Sequence[ComparisonRow], options: argparse.Namespace, by: str) -> None:
    """Print the tables of several recordings for people."""
    from ..compare import several
    from ..show import tables

    most = arguments.table_size(options, ROWS)
    whole = several.whole_table(comparison.whole(by))
    print("\n".join([*comparison.lines(), "", tables.in_text(whole)]))
    if rows:
        table = several.comparison_table(comparison, rows[:most], by=by, sort=options.sort)
        print("\n".join(["", tables.in_text(table)]))
    write_rest(len(rows), most, "")


def about_side(side: RecordingWaits) -> dict[str, object]:
    """Return what a side is, for JSON."""
    return {**json_output.about(side), "doubtful": side.doubtful, "remarks": side.remarks()}


def write(names: Sequence[str], rows: Iterable[Sequence[object]], front: Mapping[str, object] | None) -> None:
    """Print rows as JSON below the other members of an object; as CSV if there are none."""
    from ..export.csv import write_csv

    if front is None:
        write_csv(sys.stdout.buffer, names, rows)
    else:
        json_output.write_rows(front, names, rows)


def json_front_of(difference: Difference, parts: Mapping[Key, ComparisonRow], options: argparse.Namespace) -> dict[str, object]:
    """Return what JSON has of one recording or two besides the rows."""
    from ..compare import diff, permutation

    columns = [*diff.COLUMNS, *diff.spread_columns(difference)]
    whole = [*diff.flat(difference.whole(above=options.above)), *diff.flat_spreads(parts.get(()))]
    return {
        "before": about_side(difference.before),
        "after": about_side(difference.after),
        "without": None if difference.struck is None else [one._asdict() for one in difference.struck],
        "fate": difference.fate and difference.fate._asdict(),
        "parts": permutation.PARTS if parts else 0,
        "all": dict(zip(columns, whole)),
    }


def test_of(splits: Splits) -> dict[str, object]:
    """Return how several recordings are tested, for JSON."""
    from ..compare import permutation

    return {
        "test": "permutation test (Fisher, Pitman)",
        "adjustment": "maxT (Westfall, Young)",
        "level": permutation.LEVEL,
        "splits": splits.count,
        "trials": splits.trials,
        "least_p": splits.least,
        "can_tell": splits.can_tell,
    }


def compare_sides(options: argparse.Namespace) -> None:
    """Print how one recording or two differ."""
    from ..compare import diff

    difference = difference_of(options)
    # This comes first, so that waits are counted only once.
    parts = difference.parts(options.by)
    rows = difference.table(options.by, sort=options.sort, above=options.above)
    if not (options.json or options.csv):
        write_text(difference, rows, parts, options)
        return
    most = arguments.table_size(options, ROWS)
    names = [*difference.names(options.by), *diff.COLUMNS, *diff.spread_columns(difference)]
    lines = ([*diff.flat(row), *diff.flat_spreads(parts.get(row.key))][: len(names)] for row in rows[:most])
    write(names, lines, json_front_of(difference, parts, options) if options.json else None)


def compare_several(options: argparse.Namespace) -> None:
    """Print how several recordings differ."""
    from ..compare import several

    by = options.by or "name"
    comparison = comparison_of(options, by)
    rows = comparison.table(by, sort=options.sort)
    if not (options.json or options.csv):
        write_comparison(comparison, rows, options, by)
        return
    front = {
        "before": [about_side(one) for one in comparison.before],
        "after": [about_side(one) for one in comparison.after],
        "test": test_of(comparison.splits),
        "all": dict(zip(several.COLUMNS, several.flat_comparison(comparison.whole(by)))),
    }
    most = arguments.table_size(options, ROWS)
    names = [*comparison.names(by), *several.COLUMNS]
    write(names, map(several.flat_comparison, rows[:most]), front if options.json else None)


def work(argv: Sequence[str] | None) -> int:
    """Print what the arguments ask for, and return the exit status."""
    options = parse(argv)
    if is_several(options):
        compare_several(options)
    else:
        compare_sides(options)
    return process.SUCCESS


def main(argv: Sequence[str] | None = None) -> int:
    """Run the tool; see `process.run`."""
    return process.run("diff", lambda: work(argv))
