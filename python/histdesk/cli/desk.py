"""desk [TRACE]...: a prompt for the commands of scripts, and some more."""

from __future__ import annotations

from typing import Sequence

from . import arguments, process

DESCRIPTION = """\
A prompt for hist triggers over traces. The Nth TRACE is @N: `load @1` loads the first one, and `load PATH` any other
file, compressed by gzip or not. `help` lists the commands, which are those of scripts and some more.

On a terminal, Tab completes words, the arrow keys recall earlier lines, including those of earlier runs, and long answers
are shown page by page (by PAGER, or less). Ctrl-C ends the running command, Ctrl-D the desk. The history is kept in the
file histdesk/history below XDG_STATE_HOME, or below ~/.local/state.

From a pipe, it reads a script: standard output is what histdesk prints for it, byte for byte, and the exit status is the
same. Standard error explains refused lines, and reports where events were lost.
"""


def work(argv: Sequence[str] | None) -> int:
    """Run the prompt, and return the exit status."""
    parser = arguments.parser("desk", DESCRIPTION)
    parser.add_argument("traces", metavar="TRACE", nargs="*", help="the text of a trace, compressed by gzip or not")
    arguments.add_choice(parser)
    options = parser.parse_args(argv)
    from ..trace import source
    from . import traces
    from .prompt import Prompt, check_readable

    for path in options.traces:
        check_readable(path)
    chosen = (options.start, options.until, options.cpus, options.events)
    if options.lenient or any(choice is not None for choice in chosen):
        return Prompt(options.traces, lambda path: traces.recording(options, path, "desk")).run()
    return Prompt(options.traces, source.content_of).run()


def main(argv: Sequence[str] | None = None) -> int:
    """Run the tool; see `process.run`."""
    return process.run("desk", lambda: work(argv))
