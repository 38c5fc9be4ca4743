"""How a tool runs and ends: messages on standard error, exit statuses and signals.

| Exit status | |
|---|---|
| 0 | the tool did what was asked |
| 1 | it did a part of it, or there is no answer: a line on standard error says why |
| 2 | it did nothing: the arguments are wrong, or something can't be read or written |
| 141 | nobody reads its output any more (SIGPIPE) |
| 130 | Ctrl-C (SIGINT) |
"""

from __future__ import annotations

import gzip
import io
import os
import signal
import sys
from typing import TYPE_CHECKING, Callable

from . import interpreter

if TYPE_CHECKING:
    from ..native.refusals import Refused

SUCCESS, PARTIAL, FAILURE = 0, 1, 2
# What is missing in the answer, which is reported at the end.
_missing: list[str] = []


class Stop(Exception):
    """Ends the tool with a line on standard error.

    Attributes
    ----------
    status
        The exit status.
    """

    def __init__(self, message: str, status: int = FAILURE) -> None:
        """Make the exception from the line and the exit status."""
        super().__init__(message)
        self.status = status


def run(tool: str, work: Callable[[], int]) -> int:
    """Run a tool, and report what goes wrong in one line on standard error. If a package is missing that this Python should
    have, another Python may take its place (`interpreter.run_next`).

    Parameters
    ----------
    tool
        The name with which messages begin.
    work
        What the tool does; it returns the exit status.

    Returns
    -------
    int
        The exit status. If nobody reads the output, or on Ctrl-C, the process ends by the signal instead.
    """
    if isinstance(sys.stdout, io.TextIOWrapper):
        # A character that the terminal's encoding doesn't have is escaped.
        sys.stdout.reconfigure(errors="backslashreplace")
    status = FAILURE
    try:
        status = work()
        for message in _missing:
            say(tool, message)
            status = status or PARTIAL
        sys.stdout.flush()
    except BrokenPipeError:
        end_by(signal.SIGPIPE)
    except KeyboardInterrupt:
        end_by(signal.SIGINT)
    except SystemExit:
        # argparse has printed the message.
        raise
    except Exception as error:
        status = report(tool, error)
    discard_output()
    return status


def report(tool: str, error: Exception) -> int:
    """Print why a tool failed, and return the exit status. Raises the error itself if it is a fault of the program."""
    from .._requirements import is_missing

    if isinstance(error, Stop):
        say(tool, str(error))
        return error.status
    if is_missing(error):
        interpreter.run_next()
    line = message_of(error)
    if line is None:
        raise error
    say(tool, line)
    return FAILURE


def note_missing(message: str) -> None:
    """Have a message printed when the tool ends, and the exit status be 1, because the answer isn't complete."""
    if message not in _missing:
        _missing.append(message)


def say(tool: str, message: str) -> None:
    """Print a message of a tool on standard error."""
    print(f"{tool}: {message}", file=sys.stderr)


def message_of(error: Exception) -> str | None:
    """Return a failure that isn't a fault of the program in one line, or None if it is one."""
    from .._requirements import explained
    from ..native.refusals import Refused, refusal_words

    if isinstance(error, MemoryError):
        return refusal_words("refused 1")
    if isinstance(error, Refused):
        return refusal_text(error)
    if isinstance(error, gzip.BadGzipFile):
        return f"what is packed in the trace can't be unpacked: {error}"
    if isinstance(error, OSError):
        return f"{error.filename or 'standard output'}: {error.strerror or error}"
    if isinstance(error, ImportError):
        return str(explained(error, interpreter.tried()))
    return str(error) if isinstance(error, ValueError) else None


def refusal_text(error: Refused) -> str:
    """Return a refusal in one line, and below it the line of the trace or the text that it is about."""
    hint = ""
    if error.line:
        from ..script.hints import lenient_hint

        hint = f"; {lenient_hint(error.path)}"
    return "\n".join([f"{error}{hint}", *getattr(error, "__notes__", [])])


def end_by(number: signal.Signals) -> None:
    """End the process as a signal does, so that a shell knows."""
    signal.signal(number, signal.SIG_DFL)
    os.kill(os.getpid(), number)


def discard_output() -> None:
    """Let the process end without another message if what it printed can't be written."""
    try:
        sys.stdout.flush()
    except OSError:
        os.dup2(os.open(os.devnull, os.O_WRONLY), sys.stdout.fileno())
