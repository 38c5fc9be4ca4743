"""from-trace-cmd [--buffer NAME] [FILE]: converts a recording of trace-cmd, or its text, into a trace."""

from __future__ import annotations

import sys
from typing import Sequence

from . import arguments, converting

DESCRIPTION = """\
Converts a recording of trace-cmd, or the text that trace-cmd printed from it, into a trace, which `load` reads. FILE is a
recording (trace.dat, for which `trace-cmd report` is called) or a text; standard input is a text:

  sudo trace-cmd record -e sched_waking -e sched_wakeup -e sched_wakeup_new -e sched_switch sleep 1
  trace-cmd report -N -t >my.text

Without -N, trace-cmd's plugins print switches and wakeups in a layout of their own. This is converted too, but shows the
state R+ as R, and some other states by other letters than the kernel's. Of a recording, each event also gets the flags that
show whether it was in an interrupt, which that text doesn't have. Timestamps of nine digits (-t) are rounded as in the
kernel; without -t, trace-cmd does the same. The first lines, such as `cpus=4`, become comments, and
`CPU:1 [7 EVENTS DROPPED]` becomes `CPU:1 [LOST 7 EVENTS]`. If a recording has fewer events than the kernel counted, the
last line is `CPU:8191 [LOST 7 EVENTS]`: nothing says when they were lost, so no wait is sure. Other events are kept.
Comments and empty lines are passed on. The text of the kernel's own trace file is also converted.

`load` can read everything that is printed. Bytes of a name that would mislead it, such as a line break, are replaced with
a ?. Lines that can't be converted are left out. Standard error reports how many such lines there are, shows the first five
with their numbers, and reports how many events were lost. The status is 1 if lines were left out, if FILE can't be read,
if trace-cmd fails, or if several buffers have events and none is named."""
BUFFER = """take only the events of this buffer, if several were recorded (trace-cmd record -B, extract -a); / is
the top-level one. Buffers are never mixed, because they record the same times"""


def main(argv: Sequence[str] | None = None) -> int:
    """Run the tool; see `process.run`."""
    parser = arguments.parser("from-trace-cmd", DESCRIPTION, "[--buffer NAME] [FILE] >my.trace")
    parser.add_argument("--buffer", metavar="NAME", help=BUFFER)
    parser.add_argument("file", metavar="FILE", nargs="?", default="-", help="the recording or the text; - is standard input")
    options = parser.parse_args(argv)
    from ..convert.trace_cmd import TraceCmdFormat

    return converting.run("from-trace-cmd", TraceCmdFormat(options.buffer), options.file)


if __name__ == "__main__":
    sys.exit(main())
