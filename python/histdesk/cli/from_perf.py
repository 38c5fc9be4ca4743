"""from-perf [FILE]: converts a recording of perf, or its text, into a trace."""

from __future__ import annotations

import sys
from typing import Sequence

from . import arguments, converting

DESCRIPTION = """\
Converts a recording of perf, or the text that perf printed from it, into a trace, which `load` reads. FILE is a recording
(perf.data, for which `perf script` is called) or a text; standard input is a text:

  sudo perf record -a -e sched:sched_waking,sched:sched_wakeup,sched:sched_wakeup_new,sched:sched_switch sleep 1
  sudo perf script --ns --show-lost-events -F comm,tid,cpu,time,event,trace >my.text

Each line becomes COMM-PID [CPU] STAMP: NAME: PAYLOAD. Timestamps of nine digits (--ns) are rounded as in the kernel;
without --ns, perf truncates them, and up to a microsecond is lost. Ask perf for `tid`, the number of the thread, as in the
kernel's text: its `pid` is that of the process. If a task has exited, perf shows its events with the TID -1. The last
switch of the task still names it; any other such event is attributed to the task that its CPU last switched to. So is each
event of a perf that ran in a container, where tasks have other numbers than in the fields of events; standard error says
so. If no switch tells the task, it is `<...>-0`. Events other than the scheduler's are also converted. Comments and empty
lines are passed on. If perf lost events, a line such as `CPU:3 [LOST 5948 EVENTS]` says so. If it was run with --overwrite,
`##### CPU 3 buffer started ####` stands before the first event of each CPU.

`load` can read everything that is printed. Bytes of a name that would mislead it, such as a line break, are replaced with
a ?. Lines that can't be converted are left out. Standard error reports how many such lines there are, shows the first five
with their numbers, and reports how many events were lost. The status is 1 if lines were left out, if FILE can't be read,
or if perf fails."""


def main(argv: Sequence[str] | None = None) -> int:
    """Run the tool; see `process.run`."""
    parser = arguments.parser("from-perf", DESCRIPTION, "[FILE] >my.trace")
    parser.add_argument("file", metavar="FILE", nargs="?", default="-", help="the recording or the text; - is standard input")
    path = parser.parse_args(argv).file
    from ..convert.perf import PerfFormat

    return converting.run("from-perf", PerfFormat(), path)


if __name__ == "__main__":
    sys.exit(main())
