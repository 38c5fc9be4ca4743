"""explain [--strict] [SCRIPT [TRACE]...]: runs the program, and says after each refused line what it means."""

from __future__ import annotations

import os
import shlex
import shutil
import stat
import subprocess
import sys
import threading
from typing import TYPE_CHECKING, NamedTuple, Sequence

from .._invocation import PACKAGE, tool
from ..trace.kind import first_bytes, for_program, looks_like_trace
from . import arguments, process

if TYPE_CHECKING:
    from ..script.output import Script, OutputWalk

DESCRIPTION = """\
Runs histdesk, or the program that the variable HISTDESK names, with the same arguments, and prints what it prints. After
each refused line, it explains what the line means:

  refused 9: filter 2 at 4
    line 4: filter 1 if pid = 5
                            ^
      unexpected token: = is not an operator; did you mean ==?

It shows the script's line, which byte of the command is meant, and a similar word that may have been intended. For a
refused trace, it shows the line of the trace. Bytes that aren't printable ASCII are shown as \\xNN, and of a text that
is longer than a line only the part around the place is shown. Lines have 80 columns, or as many as the terminal.

The program may also be histwatch; its lines of changed rows are passed on:

  HISTDESK=./histwatch tools/explain my.script my.trace

If SCRIPT is - or left out, the script is read from standard input, and each output is explained as it comes. The exit
status and standard error are the program's. But if SCRIPT is a trace or a recording, explain says so, runs nothing and
ends with status 2. docs/REFERENCE.md decides which line belongs to which command. If the output has a line of a form
that the command doesn't print, explain says so and passes the rest on unchanged. For a TRACE that can be read only once,
such as a pipe, only the line number is given.

The messages are those of the library, which the Python package beside it finds; what follows : or ; is explain's own
reading of the text. Without the library, explain says so and ends with status 2."""
STRICT = """stop at the first refused line, with status 1, so that a refused `load` isn't followed by empty tables"""


class ScriptFeed(NamedTuple):
    """Where a script that can be read only once comes from, and the arguments of the program that is fed with it."""

    source: int
    words: list[str]


def program_path() -> str:
    """Return the program: the one that HISTDESK names, the one that belongs to this package, or one on the PATH."""
    beside = os.path.join(os.path.dirname(os.path.dirname(PACKAGE)), "histdesk")
    named = os.environ.get("HISTDESK") or (beside if os.path.isfile(beside) else shutil.which("histdesk"))
    return named or beside


def is_pipe(path: str) -> bool:
    """Return whether a file is no regular one, such as a pipe."""
    try:
        mode = os.stat(path).st_mode
    except OSError:
        return False
    return not stat.S_ISREG(mode) and not stat.S_ISDIR(mode)


def why_no_script(path: str | None) -> str | None:
    """Return why a file can't be the script, or None if it may be one; the path is None for standard input."""
    front = first_bytes(0 if path is None else path)
    kind = None if path is None else for_program(front, path)
    if kind is None and looks_like_trace(front):
        name = shlex.quote("/dev/stdin" if path is None else path)
        kind = f"it looks like a trace, and the script stands before it: {tool('explain')} SCRIPT {name}"
    return kind and f"{path or 'standard input'} is no script: {kind}"


def read_script(script: Script, path: str | None, traces: list[str]) -> ScriptFeed | None:
    """Read a script that can be read at once; otherwise return how the program is fed with it."""
    if path is None:
        return ScriptFeed(0, ["-", *traces] if traces else [])
    try:
        if is_pipe(path):
            return ScriptFeed(os.open(path, os.O_RDONLY), ["--", "-", *traces])
        if os.path.isfile(path):
            with open(path, "rb") as file:
                script.add(file.read())
    except OSError:
        # The program reports it.
        pass
    return None


def feed(script: Script, source: int, sink: int) -> None:
    """Hand a script on to the program. `script` has each byte before the program can answer to it."""
    try:
        while data := os.read(source, 65536):
            script.add(data)
            while data:
                data = data[os.write(sink, data) :]
    except OSError:
        # The program has ended, or reports itself that its input can't be read.
        pass
    os.close(sink)


def explain(running: subprocess.Popen[bytes], walk: OutputWalk, at_once: bool, is_strict: bool) -> int:
    """Print what the program prints, and explanations after refused lines, and return the exit status."""
    assert running.stdout
    is_whole = True
    try:
        for line in running.stdout:
            sys.stdout.buffer.write(line)
            for text in walk.take(line):
                sys.stdout.buffer.write(os.fsencode(text) + b"\n")
            if at_once:
                sys.stdout.flush()
            if is_strict and (walk.refused or walk.lost):
                is_whole = False
                break
        sys.stdout.flush()
    except OSError:
        running.kill()
        raise
    if not is_whole:
        running.kill()
    status = running.wait()
    if walk.lost:
        process.say("explain", f"{walk.lost}; nothing after it is explained")
    if not is_whole:
        if walk.refused:
            process.say("explain", f"--strict ends at line {walk.refused}, which was refused")
        return process.PARTIAL if walk.refused else process.FAILURE
    return status if status >= 0 else 128 - status


def work(argv: Sequence[str] | None) -> int:
    """Run the program with explanations, and return the exit status."""
    parser = arguments.parser("explain", DESCRIPTION, "[--strict] [SCRIPT [TRACE]...]")
    parser.add_argument("--strict", action="store_true", help=STRICT)
    parser.add_argument("script", metavar="SCRIPT", nargs="?", help="the script; - is standard input")
    parser.add_argument("traces", metavar="TRACE", nargs="*", help="the text of a trace")
    options = parser.parse_intermixed_args(argv)
    from ..native.library import library
    from ..script.output import Script, OutputWalk
    from ..script.words import columns

    # A missing library is reported before anything runs.
    library.load()
    path = None if options.script in (None, "-") else options.script
    wrong = why_no_script(path)
    if wrong:
        raise process.Stop(wrong)
    script = Script()
    fed = read_script(script, path, options.traces)
    command = program_path()
    words = fed.words if fed else ["--", options.script, *options.traces]
    if path is None and sys.stdin.isatty() and sys.stderr.isatty():
        process.say("explain", f"reads commands from the terminal until Ctrl-D; {tool('desk')} has a prompt, with help")
    try:
        running = subprocess.Popen([command, *words], stdin=subprocess.PIPE if fed else None, stdout=subprocess.PIPE)
    except OSError as error:
        raise process.Stop(f"cannot run {command}: {error.strerror}") from None
    if fed:
        assert running.stdin
        sink = os.dup(running.stdin.fileno())
        running.stdin.close()
        threading.Thread(target=feed, args=(script, fed.source, sink), daemon=True).start()
    return explain(running, OutputWalk(script, options.traces, columns()), fed is not None, options.strict)


def main(argv: Sequence[str] | None = None) -> int:
    """Run the tool; see `process.run`."""
    return process.run("explain", lambda: work(argv))
