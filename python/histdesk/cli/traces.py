"""How tools read traces: as their options say, and with a report on standard error of what was lost or left out."""

from __future__ import annotations

import argparse
import os
import sys
import time
from collections.abc import Callable
from typing import IO, TYPE_CHECKING, Any, TypeVar, cast

from ..desk.recording import Choice, Recording, counted_from, read_text
from ..show.tables import are, count_of, printable
from ..trace.kind import FRONT_ROOM, why_no_trace
from ..trace.losses import seconds
from ..trace.text import Piece, Text, text_again
from . import conversion
from .process import Stop, say

if TYPE_CHECKING:
    from ..trace.source import Trace
    from ..waiting.counting import CountBy as CountChoice
    from ..waiting.summary import Summary
    from ..waiting.wait_answer import Answer, WaitAnswer
    from ..waiting.waits import Waits

SomeAnswer = TypeVar("SomeAnswer", bound="Answer")

# How many numbers of lines are printed.
MOST_LINES = 5
# After how many seconds a tool reports how far it is, and how many seconds later it does so again.
PATIENCE, AGAIN = 2.0, 0.5


# ---- events


def recording(arguments: argparse.Namespace, path: str, tool: str, **choice: Any) -> Recording:
    """Read a trace, and report what was lost or left out.

    Parameters
    ----------
    arguments
        The options of `arguments.add_choice`.
    path
        The trace; `-` is standard input.
    tool
        The name with which messages begin.
    choice
        What is chosen instead of what the options say, by the fields of `Choice`.
    """
    of_options = {"start": arguments.start, "until": arguments.until, "cpus": arguments.cpus, "events": arguments.events}
    chosen = Choice(**{**of_options, **choice})
    read = read_text(path, checked_text(path), chosen, arguments.lenient)
    # The remarks say what was lost.
    read.is_reported = True
    for remark in remarks(read, chosen):
        say(tool, f"{path}: {remark}")
    return read


def checked_text(path: str) -> Text:
    """Return the text of a trace, or of standard input if its path is `-`. Raises `Stop` if it is no trace."""
    text = text_again(source_of(path))
    check_is_trace(text.read(0, FRONT_ROOM), path)
    return text


def stretch(arguments: argparse.Namespace, path: str) -> Recording:
    """Return the stretch of time of a trace that the options choose. It isn't read yet."""
    from ..desk.slices import find_stretch

    return find_stretch(path, checked_text(path), Choice(arguments.start, arguments.until), arguments.lenient)


def remarks(read: Recording, choice: Choice) -> list[str]:
    """Return what the user has to know before an answer is believed, a line each."""
    lines = [*([read.warning] if read.warning else []), *bad_line_remarks(read)]
    if read.lines_from is not None:
        lines.append(counted_from(read.lines_from))
    part = read.taken
    if part and part.rest is not None and part.first is not None and part.last is not None:
        length = seconds(part.last - part.first)
        lines.append(
            f"a desk holds no more than {count_of(part.events, 'event')} of it, {length} s from {seconds(part.first)} on; "
            f"--from {seconds(part.rest)} gives the next part"
        )
    elif part and part.events == 0 and not choice.is_all():
        lines.append("no event of it is taken")
    return lines


def bad_line_remarks(read: Recording) -> list[str]:
    """Return which lines were left out because they can't be read, in a line, or nothing."""
    if not read.bad_lines:
        return []
    count = len(read.bad_lines)
    numbers = ", ".join(map(str, read.bad_lines[:MOST_LINES])) + (", .." if count > MOST_LINES else "")
    return [f"{count_of(count, 'line')} can't be read and {are(count)} left out: {numbers}"]


# ---- waits


def whole_waits(arguments: argparse.Namespace, path: str, tool: str, keeps: bool = True) -> Waits:
    """Return the waits of a trace, or of the stretch of time that the options choose, and report what was lost or left out.

    Parameters
    ----------
    arguments
        The options of `arguments.add_choice` and `arguments.add_jobs`.
    path
        The trace; `-` is standard input.
    tool
        The name with which messages begin.
    keeps
        Whether a whole standard input is kept, so that it can be read again.
    """
    from ..waiting.waits import ReadOptions, waits_of_recording, waits_of_text

    def read(watch: Watch) -> Waits:
        if arguments.start is None and arguments.until is None:
            options = ReadOptions(arguments.lenient, watch, path, keeps, arguments.jobs, reread=rereader_of(path))
            return waits_of_text(watch.source(keeps), options)
        part = stretch(arguments, path)
        watch.size = part.size
        return waits_of_recording(part, arguments.lenient, watch)

    return read_watched(read, path, tool)


def counted_waits(arguments: argparse.Namespace, path: str, tool: str, choice: CountChoice) -> WaitAnswer:
    """Return the same waits, counted; those of a whole trace are not kept."""
    from ..waiting.counting import count_waits
    from ..waiting.waits import ReadOptions

    def read(watch: Watch) -> WaitAnswer:
        options = ReadOptions(arguments.lenient, watch, path, jobs=arguments.jobs, reread=rereader_of(path))
        return count_waits(watch.source(False), choice, options)

    if arguments.start is None and arguments.until is None:
        return read_watched(read, path, tool)
    return whole_waits(arguments, path, tool, keeps=False).only(**choice.chosen._asdict())


def summary_of(arguments: argparse.Namespace, path: str, tool: str) -> Summary:
    """Return what a trace, or the stretch of time that the options choose, sums up to, and report what was lost or left out.

    Parameters
    ----------
    arguments
        The options of `arguments.add_choice`, `doubtful` and `by`.
    path
        The trace; `-` is standard input.
    tool
        The name with which messages begin.
    """
    from ..waiting.summary import SummaryOptions, summary_of_recording, summary_of_text

    def read(watch: Watch) -> Summary:
        options = SummaryOptions(arguments.doubtful, arguments.lenient, watch, path, arguments.by == "cpu")
        if arguments.start is None and arguments.until is None:
            return summary_of_text(watch.source(False), options)
        part = stretch(arguments, path)
        watch.size = part.size
        return summary_of_recording(part, options)

    return read_watched(read, path, tool)


def read_watched(read: Callable[[Watch], SomeAnswer], path: str, tool: str) -> SomeAnswer:
    """Return what `read` makes of a trace while its reading is watched, and report what was lost or left out."""
    watch = Watch(path, tool)
    try:
        answer = read(watch)
    finally:
        watch.end()
    report_losses(answer, path, tool)
    return answer


def report_losses(answer: Answer, path: str, tool: str) -> None:
    """Report what was lost or left out of the trace of an answer."""
    for omission in answer.omissions():
        say(tool, f"{path}: {omission}")


def why_empty(answer: Answer, options: argparse.Namespace, what: str) -> str:
    """Return why an answer has no rows, in a line.

    Parameters
    ----------
    answer
        The answer.
    options
        Those of `arguments.add_choice`, `trace`, and perhaps `kinds` and `tasks`.
    what
        What there is none of, such as `no wait ended`.
    """
    from ..waiting.wait_answer import ranges

    if not answer.held.events:
        return f"{options.trace}: {why_no_events(options)}"
    kinds, cpus = getattr(options, "kinds", None), sorted(set(options.cpus or ()))
    kind = f" of kind {' or '.join(kinds)}" if kinds else ""
    # A PID is among the tasks as a text, too.
    tasks = [printable(task) for task in getattr(options, "tasks", None) or () if isinstance(task, str)]
    task = f" of task {' or '.join(tasks)}" if tasks else ""
    place = f" on CPU{'s' * (len(cpus) > 1)} {ranges(cpus)}" if cpus else " in it"
    has_other = cpus and not set(cpus) & set(answer.held.cpus)
    hint = f"; its events are on CPU{'s' * (len(answer.held.cpus) > 1)} {ranges(answer.held.cpus)}" if has_other else ""
    return f"{options.trace}: {what.replace('no wait', f'no wait{kind}{task}')}{place}{hint}"


def why_no_events(options: argparse.Namespace) -> str:
    """Return why a trace has no events, in words."""
    from ..trace.time_range import ends_of

    if options.start is None and options.until is None:
        return "it has no events" if getattr(options, "events", None) is None else "it has no such events"
    bounds = (("from", options.start), ("before", options.until))
    limits = [f"{word} {seconds(bound)}" for word, bound in bounds if bound is not None]
    first, last = (None, None) if options.trace == "-" else ends_of(checked_text(options.trace))
    extent = "" if first is None or last is None else f"; its events are from {first} to {last}"
    return f"no event is {' and '.join(limits)}{extent}"


# ---- reading


class Watch:
    """Sees the pieces of a text as they are read: ends the tool if it is no trace, and says on a terminal how far the reading
    is once it has taken some time."""

    def __init__(self, path: str, tool: str) -> None:
        self._path, self._tool = path, tool
        # The size of what is read, in bytes, or 0 if it isn't known.
        self.size = 0
        self._read, self._since, self._reported = 0, time.monotonic(), 0.0

    def source(self, is_read_again: bool) -> Trace:
        """Return what is read for the path, as `source_of` does."""
        trace = source_of(self._path, is_read_again)
        self.size = os.path.getsize(trace) if isinstance(trace, str) and os.path.isfile(trace) else 0
        return trace

    def __call__(self, piece: Piece) -> None:
        if not self._read:
            check_is_trace(piece, self._path)
        self._read += len(piece)
        now = time.monotonic()
        if now - self._since >= PATIENCE and now - self._reported >= AGAIN and sys.stderr.isatty():
            self._reported = now
            # What is packed is longer than its file.
            share = f" of {self.size / 1e6:.0f}" if self._read <= self.size else ""
            print(f"\r{self._tool}: {self._read / 1e6:.0f}{share} MB read\x1b[K", end="", file=sys.stderr, flush=True)

    def end(self) -> None:
        """Erase what it said."""
        if self._reported:
            print("\r\x1b[K", end="", file=sys.stderr, flush=True)


def source_of(path: str, is_read_again: bool = True) -> Trace:
    """Return what is read for an argument TRACE: standard input, a path, or the text of another tool's recording, which is in
    memory if it `is_read_again`."""
    if path == "-":
        return sys.stdin.buffer
    converter = conversion.converter_of(path)
    if converter is None:
        return path
    if is_read_again:
        return conversion.converted_text(path, converter)
    return cast("IO[bytes]", conversion.piped_text(path, converter))


def rereader_of(path: str) -> Callable[[], Text] | None:
    """Return what makes the text of another tool's recording once more, in memory, after the converter has written it to its
    end; None if an argument TRACE isn't such a recording."""
    converter = None if path == "-" else conversion.converter_of(path)
    if converter is None:
        return None
    name = converter
    return lambda: text_again(conversion.converted_text(path, name, is_repeated=True))


def check_is_trace(text: Piece, path: str) -> None:
    """Raise `Stop` if a text with this beginning is packed, or is another tool's recording or what that tool printed."""
    message = why_no_trace(bytes(text[:FRONT_ROOM]), path)
    if message:
        raise Stop(message)
