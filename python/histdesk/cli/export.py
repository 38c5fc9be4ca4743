"""export TRACE WHAT [EVENT TRIGGER]...: events, waits, rows or latencies of a trace as CSV or JSON lines."""

from __future__ import annotations

import argparse
import sys
from typing import TYPE_CHECKING, Iterator, Sequence

from . import arguments, process

if TYPE_CHECKING:
    from ..export.records import Records
    from ..waiting.wait_answer import WaitAnswer
    from ..waiting.waits import Waits
    from .traces import Watch

DESCRIPTION = """Writes what a trace contains, or the answer to a trigger, as CSV, or with --json as JSON lines: one
object per line. TRACE is the text of the kernel's trace file, compressed by gzip or not, or a
recording of perf or trace-cmd; - is standard input.

WHAT is one of
  events     each event, in time order
  waits      each wait of a task for a processor, as tools/waits finds them; TRACE may be of any
             length
  rows       the table of a hist trigger
  latencies  the times that a hist trigger measured, one by one, with the task at the event that
             ends each: the task that the trigger's first key is about
For rows and latencies, EVENT and TRIGGER follow, as in a script's `attach`. Several pairs are
attached in order, and the answer of the last one is written:

  tools/export my.trace latencies sched_waking 'hist:keys=pid:ts0=common_timestamp.usecs' \\
      sched_switch 'hist:keys=next_pid:lat=common_timestamp.usecs-$ts0'

Timestamps and latencies are in microseconds. The line of an event is its number among the events
of its CPU in the whole trace, counted from 1. The task that a switch runs is comm, pid and prio, as
for a waking, and also next_comm, next_pid and next_prio, as in the trace. A column is empty (null)
if an event has no such field. doubtful is true if events between the two may be missing. Names can
be read back: in JSON they are strings, and bytes that aren't UTF-8 are \\udc80 to \\udcff. In CSV,
such bytes and control characters are \\xNN, and a backslash is doubled; histdesk.unescaped reverses
this.
pandas takes some names for missing values, unless you use read_csv(PATH, keep_default_na=False)."""


def parse(argv: Sequence[str] | None) -> argparse.Namespace:
    """Return the arguments."""
    parser = arguments.parser("export", DESCRIPTION)
    parser.add_argument("trace", metavar="TRACE")
    parser.add_argument("what", metavar="WHAT", choices=["events", "waits", "rows", "latencies"])
    triggers_help = "triggers to attach, with their events"
    parser.add_argument("triggers", metavar="EVENT TRIGGER", nargs="*", default=[], help=triggers_help)
    forms = parser.add_mutually_exclusive_group()
    forms.add_argument("--csv", action="store_true", help="comma-separated values, with a line of names (default)")
    forms.add_argument("--json", action="store_true", help="JSON, one object per line")
    arguments.add_choice(parser, cpus="only events of these CPUs, such as 0,2,4-7; of waits, those that ended there")
    arguments.add_jobs(parser)
    options = parser.parse_intermixed_args(argv)
    needs_triggers = options.what in ("rows", "latencies")
    if len(options.triggers) % 2 or needs_triggers != bool(options.triggers):
        parser.error(f"{options.what} {'needs EVENT and TRIGGER' if needs_triggers else 'takes nothing'} after it")
    return options


def waits_in_turn(options: argparse.Namespace) -> Iterator[Waits]:
    """Return the waits of the trace, in parts, and report what the user has to know of them."""
    from ..waiting import waits_in_parts

    answer = whole_answer(options)
    for remark in answer.remarks() if options.events is None else ():
        process.say("export", f"{options.trace}: {remark}")
    for part in waits_in_parts.parts_of(answer):
        yield part.only(cpus=options.cpus)


def whole_answer(options: argparse.Namespace) -> WaitAnswer:
    """Return the waits of the whole trace, of a stretch of time, or of the events that are chosen."""
    from ..waiting import waits, waits_in_parts
    from . import traces

    if options.events is not None:
        return waits.waits(traces.recording(options, options.trace, "export", cpus=None))
    if options.start is not None or options.until is not None:
        return traces.whole_waits(options, options.trace, "export", keeps=False)

    def read(watch: Watch) -> WaitAnswer:
        reread = traces.rereader_of(options.trace)
        read_options = waits.ReadOptions(options.lenient, watch, options.trace, jobs=options.jobs, reread=reread)
        return waits_in_parts.waits_in_parts(watch.source(False), read_options)

    return traces.read_watched(read, options.trace, "export")


def records_of(options: argparse.Namespace) -> Records:
    """Return what the trace holds, or the answer of the last trigger."""
    from ..export import records
    from ..show.tables import count_of
    from . import traces

    recording = traces.recording(options, options.trace, "export")
    desk = recording.desk()
    if options.what == "events":
        return records.events_table(desk, recording)
    triggers = [desk.attach(*pair) for pair in zip(options.triggers[::2], options.triggers[1::2])]
    dropped = triggers[-1].totals().dropped
    if dropped and options.what == "rows":
        process.say("export", f"{count_of(dropped, 'hit')} found no room in the table; a greater size= has it")
    if options.what == "rows":
        return records.rows_table(triggers[-1])
    return records.latencies_table(desk, triggers[-1], recording)


def work(argv: Sequence[str] | None) -> int:
    """Write what the arguments ask for, and return the exit status."""
    options = parse(argv)
    from . import conversion

    if options.what == "waits":
        conversion.begin(options)
    from ..export import csv, records

    table = records.waits_table(waits_in_turn(options)) if options.what == "waits" else records_of(options)
    write = csv.write_json_lines if options.json else csv.write_csv
    write(sys.stdout.buffer, *table)
    return process.SUCCESS


def main(argv: Sequence[str] | None = None) -> int:
    """Run the tool; see `process.run`."""
    return process.run("export", lambda: work(argv))
