"""The text of `trace-cmd report`."""

from __future__ import annotations

import collections
import contextlib
import io
import re
import subprocess
from collections.abc import Iterator, Sequence
from concurrent.futures import ThreadPoolExecutor

from . import plugin_layout
from .blocks import MEMORY, front_of, widen
from .columns import COLUMNS, LOST, ColumnFormat
from .helpers import helper
from .latency import Flagged
from .lines import CARRIED, ODD, REST, ROUNDED, STAMP, round_up
from .report import ConversionError, Report, printable
from .text_format import Groups, Readable

# The program that converts plain events itself; build/build makes it of helpers/trace_cmd_lines.c.
PROGRAM = "trace_cmd_lines"
PLAIN = (
    rb"^(?![ ]*\#)([^\[\n]{16})(-[0-9]{1,9}[ ]{1,64}(?:\([ ]{0,32}[0-9-]{1,16}\)[ ]{1,64})?\[[0-7]?[0-9]{1,3}\][ ]{1,64}"
    rb"(?:[^ :\n0-9][^ :\n]{0,15}[ ]{1,64})?)" + STAMP + rb"[ ]{1,64}" + REST + ODD
)  # fmt: skip
# The blanks that trace-cmd puts between a label and its fields aren't needed. No name has room for the text that is replaced.
FIRST = {b"sched_switch": b"prev_comm", b"sched_waking": b"comm", b"sched_wakeup": b"comm", b"sched_wakeup_new": b"comm"}
PADDED = [(b": %-21s %b=" % (label + b":", field), b": %b: %b=" % (label, field)) for label, field in FIRST.items()]
HEAD = re.compile(rb"(?:cpus|version) ?= ?[0-9]+|CPU [0-9]+ is empty")
FRONT = re.compile(rb"(?:(?:%b)\n)*" % HEAD.pattern)
# The last dash before the first [ ends the name. A line after one of lost events is passed by.
DASH = re.compile(rb"^(?:[^\n]*EVENTS DROPPED\]\n.*|([^\[\n]*)-[0-9]+ +(?:\( *[0-9-]+\) +)?\[[0-9]+\] )", re.MULTILINE)
# What stands for a line of a buffer that isn't wanted. No text has it.
ELSEWHERE = b"\0"
TOP = b"/"
# What trace-cmd reports of a CPU: which events it has read, and which were left when it ended; and what the kernel lost.
COUNT = re.compile(rb"^([a-z][a-z ]*): ([0-9]+)$", re.MULTILINE)
RECORDED, LOSSES = (b"read events", b"entries"), (b"overrun", b"commit overrun", b"dropped events")
# The last CPU that a line may name. If it isn't known where events are missing, it has a hole as long as the recording.
NO_CPU = 8191
# How many bytes of what trace-cmd prints are read at once.
AT_ONCE = 1 << 18


class TraceCmdFormat(ColumnFormat):
    """The text of `trace-cmd report`.

    If it has buffers, each line begins with the name of its buffer in columns of their own, a colon and a blank; for the top
    one, only with blanks. But a line after one of lost events has no such columns: it is of the same buffer."""

    pattern = re.compile(PLAIN, re.MULTILINE | re.VERBOSE)
    name = "trace-cmd report"
    advice = "report it with -N"
    program = "trace-cmd"
    command = ("trace-cmd", "report", "-N", "-t", "-i")
    # The command by which it prints the flags too, but cuts off names.
    latency = ("trace-cmd", "report", "-N", "-t", "-l", "-i")

    def __init__(self, buffer: str | None) -> None:
        """Take the events of a buffer, or of the only one for None."""
        self.choice = None if buffer is None else buffer.encode(errors="surrogateescape")
        self.is_chosen = buffer is not None
        # How many columns stand before the name, once that is known; some of the buffers; the buffer of the line before; and
        # how many lines each buffer has.
        self.width: int | None = None
        self.buffers: set[bytes | None] = set()
        self.buffer: bytes | None = None
        self.lines: collections.Counter[bytes | None] = collections.Counter()
        self.is_bare = False
        # The recording, and its text with flags, which counts the events if the quick way doesn't.
        self.path = ""
        self.flagged: Flagged | None = None

    @property
    def holds_back(self) -> bool:
        return bool(self.width) and not self.is_chosen

    def begin(self, path: str) -> None:
        self.path = path

    def prepared(self, text: bytes, has_all: bool = True) -> bytes:
        for padded, plain in PADDED:
            text = text.replace(padded, plain)
        text = plugin_layout.in_kernel_layout(text)
        if self.width is None:
            self.width, self.buffers = buffers_of(text)
            self.is_loose = not self.width
        if not self.width:
            return text
        return b"".join([self.own(line) + b"\n" for line in text[:-1].split(b"\n")]) if text else text

    @contextlib.contextmanager
    def completed(self, source: Readable, path: str) -> Iterator[Readable]:
        null = subprocess.DEVNULL
        with subprocess.Popen([*self.latency, path], stdin=null, stdout=subprocess.PIPE, stderr=null, bufsize=0) as tool:
            assert tool.stdout
            widen(tool.stdout)
            try:
                self.flagged = Flagged(source, tool.stdout, AT_ONCE)
                yield self.flagged
            finally:
                tool.kill()

    def front(self, path: str) -> bytes:
        # The lines of the latency layout are shorter.
        with ThreadPoolExecutor() as pool:
            text, latency = map(io.BytesIO, pool.map(front_of, ([*self.command, path], [*self.latency, path])))
        flagged = Flagged(text, latency, AT_ONCE)
        return b"".join(iter(lambda: flagged.read(AT_ONCE), b""))

    # What trace_cmd_lines writes first is compared with what trace-cmd prints first.
    is_apart = True

    def quick_command(self, path: str) -> list[str] | None:
        compiled = helper(PROGRAM)
        return [compiled, path, MEMORY] if compiled and not self.is_chosen else None

    def head_of(self, text: bytes) -> bytes:
        front = FRONT.match(text)
        return front[0] if front else b""

    def own(self, line: bytes) -> bytes:
        """Return a line without the columns of its buffer, or what stands for one of another buffer."""
        buffer, content = self.buffer, line
        if not self.is_bare:
            buffer, content = self.cut(line)
        is_lost = bool(LOST.fullmatch(content))
        if is_lost or content[COLUMNS : COLUMNS + 1] == b"-":
            self.lines[buffer] += not is_lost
            self.buffers.add(buffer)
        self.buffer, self.is_bare = buffer, is_lost
        self.choice = buffer if self.choice is None else self.choice
        return content if buffer in (self.choice, None) else ELSEWHERE

    def cut(self, line: bytes) -> tuple[bytes | None, bytes]:
        """Return a line's buffer and the rest of the line. One without such columns is a piece of the line before, as it is."""
        buffer, rest = buffer_of(line[: self.width]), line[self.width :]
        is_whole = rest[COLUMNS : COLUMNS + 1] == b"-" or LOST.fullmatch(rest)
        # The first piece of a line that a name has torn.
        is_torn = buffer in self.buffers and rest.startswith(b" ") and len(rest) < COLUMNS
        return (buffer, rest) if buffer and (is_whole or is_torn) else (self.buffer, line)

    def plain(self, matches: Sequence[Groups]) -> list[bytes]:
        return [
            b"%s%s%s: %s" % (task.lstrip(b" "), middle, stem + ROUNDED[two] if two < CARRIED else round_up(stem), rest)
            for task, middle, stem, two, rest, _ in matches
        ]

    def fields(self, label: bytes, text: bytes) -> bytes:
        return plugin_layout.kernel_fields(label, text)

    def aside(self, line: bytes, report: Report) -> bytes | None:
        if line == ELSEWHERE:
            return b""
        return b"# %s\n" % line if HEAD.fullmatch(line) else super().aside(line, report)

    def check_end(self, name: str) -> None:
        if self.width == 0:
            self.lines[TOP] = 1
        if self.is_chosen and not self.lines[self.choice]:
            choice = printable(self.choice or b"")
            raise ConversionError(f"{name} has no events of a buffer {choice}; it has those of {self.buffer_list() or 'none'}")
        if not self.is_chosen and len(self.lines) > 1:
            count = len(self.lines)
            raise ConversionError(f"{name} has the events of {count} buffers; --buffer takes one, such as {self.buffer_list()}")

    def ended(self, report: Report) -> bytes:
        events = self.flagged.count if self.flagged else self.events
        if not self.path or self.width or not events or report.is_more_lost:
            return b""
        counts = kernel_counts(self.path)
        lost = {cpu: sum(some.get(name, 0) for name in LOSSES) for cpu, some in counts.items()}
        recorded = sum(some.get(name, 0) for some in counts.values() for name in RECORDED)
        # Of what trace-cmd reads while it records, some may not come into its file; and what the kernel drops has no line.
        missing = recorded + sum(lost.values()) - events - sum(report.lost.values())
        if missing > 0:
            report.say(f"{missing} events are missing, and trace-cmd doesn't say where: no wait is sure")
            return b"# %d events are missing, at any time and on any CPU\nCPU:%d [LOST %d EVENTS]\n" % (
                missing,
                NO_CPU,
                missing,
            )
        # A recording begins on all CPUs at once, so nothing is missing before the first event of such a CPU.
        whole = [cpu for cpu in sorted(counts) if not missing and not lost[cpu]]
        return b"".join(b"# CPU %d: 0 events overwritten\n" % cpu for cpu in whole)

    def buffer_list(self) -> str:
        """Return the buffers that have events, as text."""
        counts = {buffer: f"{count} lines" if self.width else "the only one" for buffer, count in self.lines.items() if count}
        names = {buffer: printable(buffer or b"") for buffer in counts}
        return ", ".join(f"{names[at]} ({'the top one, ' * (at == TOP)}{count})" for at, count in counts.items())


def kernel_counts(path: str) -> dict[int, dict[bytes, int]]:
    """Return what trace-cmd reports of each CPU in the recording of that path, by name."""
    words = ["trace-cmd", "report", "--stat", "-i", path]
    ran = subprocess.run(words, stdin=subprocess.DEVNULL, stdout=subprocess.PIPE, stderr=subprocess.DEVNULL, check=False)
    parts = re.split(rb"^CPU: ([0-9]+)$", ran.stdout, flags=re.MULTILINE)
    return {int(cpu): {name: int(count) for name, count in COUNT.findall(text)} for cpu, text in zip(parts[1::2], parts[2::2])}


def buffer_of(front: bytes) -> bytes | None:
    """Return the buffer that columns name, or None if they name none."""
    if front.endswith(b": "):
        return front[:-2].lstrip(b" ")
    return None if front.strip(b" ") else TOP


def buffers_of(text: bytes) -> tuple[int | None, set[bytes | None]]:
    """Return how many columns stand before those of the name in most lines, and which buffers they name; None if no line has a
    name."""
    fronts = [front for front in DASH.findall(text) if front]
    if not fronts:
        return None, set()
    ((column, count),) = collections.Counter(map(len, fronts)).most_common(1)
    width = column - COLUMNS
    buffers = {buffer_of(front[:width]) for front in fronts if len(front) == column}
    is_named = width > 2 and 2 * count > len(fronts) and None not in buffers
    return (width, buffers) if is_named else (0, set())
