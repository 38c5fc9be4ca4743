"""The quick way from a recording to its lines.

A program that reads the recording, perf with perf_filter.so or trace_cmd_lines, converts plain events itself and writes blocks
(event_lines.h): converted lines, and what the tool prints of other events, which is converted as always. Some lines are made
both ways and compared. If anything is not as it should be, the recording is converted the slow way, and what was written
already is compared with that.
"""

from __future__ import annotations

import collections
import copy
import fcntl
import mmap
import os
import re
import struct
import subprocess
import tempfile
import zlib
from types import TracebackType
from collections.abc import Iterable, Iterator, Sequence
from typing import IO, TYPE_CHECKING, Protocol, TypeAlias

from .report import ConversionError

if TYPE_CHECKING:
    from .conversion import Converter

# Converted lines: bytes, or a piece of memory that another program writes into.
Lines: TypeAlias = bytes | memoryview

HEAD = struct.Struct("<3scIII")
MARK = b"\0hd"
LINES, MAPPED, AWAITED, PRINTED, END = b"L", b"M", b"A", b"T", b"E"
# The pieces of memory into which lines are written, and what stands in a command for the argument that names it.
PIECES, PIECE_ROOM, MEMORY = 32, (1 << 18) + 512, "memory"
# How many bytes the pipe from a tool is to hold, and Linux's number of the call that sets this.
PIPE, SET_PIPE_SIZE = 1 << 20, getattr(fcntl, "F_SETPIPE_SZ", 1031)
# No block is larger.
MOST = 1 << 24
# How many bytes of converted lines are kept, in which the lines before an event are looked for.
KEPT = 1 << 20
# How many bytes wait before what the tool printed among them is converted, all at once.
WAITING = 1 << 18
# How many bytes of what a tool prints first are compared.
FRONT = 1 << 16
# The front of a converted line, up to its CPU.
EVENT_CPU = re.compile(rb"^(?!#)[^\n]*?-[0-9]+ +\[([0-9]+)\](?= )", re.MULTILINE)


def widen(pipe: IO[bytes]) -> None:
    """Give a pipe more room, if the system lets it have some."""
    try:
        fcntl.fcntl(pipe, SET_PIPE_SIZE, PIPE)
    except OSError:
        pass


class Unfit(Exception):
    """The recording can't be converted the quick way; the message says why."""


class Writer(Protocol):
    """What lines are written to."""

    def write(self, text: Lines) -> None:
        """Write lines."""


class Sink:
    """A file that is written once. What is written once more is compared with what it has."""

    def __init__(self, file: IO[bytes]) -> None:
        self.file = file
        self.size, self.sum = 0, 0
        # How many bytes are still to be compared, the sum of those that were compared, and what it is to be in the end.
        self.remaining, self.again, self.expected = 0, 0, 0

    def write(self, text: Lines) -> None:
        """Write a text at once, except for what is there already. Raises `ConversionError` if something else is there."""
        if self.remaining:
            part = text[: self.remaining]
            self.again = zlib.crc32(part, self.again)
            self.remaining -= len(part)
            if not self.remaining:
                self.check()
            text = text[len(part) :]
        self.size += len(text)
        self.sum = zlib.crc32(text, self.sum)
        self.file.write(text)
        self.file.flush()

    def begin_again(self) -> None:
        """Expect that all is written once more from now on."""
        self.remaining, self.again, self.expected = self.size, 0, self.sum

    def check(self) -> None:
        """Raise `ConversionError` if what was written is not what was written once more."""
        if self.remaining or self.again != self.expected:
            raise ConversionError("what was written first is not what the tool prints; take it away, and try again")


class CheckedSink:
    """A sink, and what its text must begin with. Nothing is passed on to it before that is compared."""

    def __init__(self, sink: Writer, expected: bytes) -> None:
        self.sink, self.expected, self.start = sink, expected, b""

    def write(self, text: Lines) -> None:
        """Write a text. Raises `Unfit` if what is written begins otherwise."""
        if not self.expected:
            self.sink.write(text)
            return
        self.start += text
        if len(self.start) >= len(self.expected):
            self.check()
            self.sink.write(self.start)
            self.expected, self.start = b"", b""

    def check(self) -> None:
        """Raise `Unfit` if what was written begins otherwise, or ended too early."""
        if not self.start.startswith(self.expected):
            raise Unfit("the tool prints other lines first")


class Starts:
    """Writes lines, and before the first event of each CPU one that says that its buffer begins there."""

    def __init__(self, sink: Writer) -> None:
        self.sink = sink
        self.seen: set[bytes] = set()

    def write(self, text: Lines) -> None:
        """Write whole lines."""
        self.sink.write(EVENT_CPU.sub(self.started, bytes(text)))

    def started(self, match: re.Match[bytes]) -> bytes:
        """Return the front of an event's line, after a line about its CPU's buffer if it is the first one."""
        cpu = match[1].lstrip(b"0") or b"0"
        if cpu in self.seen:
            return match[0]
        self.seen.add(cpu)
        return b"##### CPU %s buffer started ####\n%s" % (cpu, match[0])


class Memory:
    """Memory in pieces, into which another program writes lines, in turn."""

    def __init__(self) -> None:
        try:
            self.file = os.memfd_create("lines")
        except (AttributeError, OSError):
            raise Unfit("no file of memory") from None
        os.ftruncate(self.file, PIECES * PIECE_ROOM)
        self.pieces = memoryview(mmap.mmap(self.file, PIECES * PIECE_ROOM))
        # Both ends are held, so that nothing goes wrong if that program has ended.
        self.freed, self.freeing = os.pipe()
        self.count = 0

    def __enter__(self) -> Memory:
        return self

    def __exit__(self, kind: type[BaseException] | None, error: BaseException | None, trace: TracebackType | None) -> None:
        for file in (self.file, self.freed, self.freeing):
            os.close(file)

    def command(self, words: Iterable[str]) -> list[str]:
        """Return the words of a command, of which one names this memory."""
        return [f"{MEMORY}:{self.file}:{self.freed}" if word == MEMORY else word for word in words]

    def next(self, length: int) -> memoryview:
        """Return the lines in the next piece, which are there until it is freed."""
        if length > PIECE_ROOM:
            raise Unfit("a block without end")
        at = self.count % PIECES * PIECE_ROOM
        self.count += 1
        return self.pieces[at : at + length]

    def free(self) -> None:
        """Of the pieces that aren't free, free the one that was taken first."""
        os.write(self.freeing, b"f")


class Before:
    """The lines of the last blocks, backwards; they are cut only when they are looked at. If these are not all lines, going
    back further raises `Unfit`."""

    def __init__(self, blocks: Sequence[Lines], are_all: bool) -> None:
        self.blocks, self.are_all = blocks, are_all

    def __reversed__(self) -> Iterator[bytes]:
        for block in reversed(self.blocks):
            yield from reversed(bytes(block).split(b"\n"))
        if not self.are_all:
            raise Unfit("a line from long before is looked for")

    def __iter__(self) -> Iterator[bytes]:
        # Nothing of them is kept: they are at hand, or not.
        return iter(())


class BlockWriter:
    """Takes blocks, and writes what they hold. What the tool printed is converted by `converter`, for many blocks at once."""

    def __init__(self, converter: Converter, sink: Writer, memory: Memory) -> None:
        self.converter, self.sink, self.memory = converter, sink, memory
        # What waits: pairs of converted lines and their count, and what the tool printed between them.
        self.waiting: list[Printed | tuple[Lines, int]] = []
        self.length = 0
        self.blocks: collections.deque[Lines] = collections.deque()
        self.size, self.are_all = 0, True
        self.is_empty = True

    def take(self, what: bytes, text: Lines, lines: int) -> None:
        """Take a block. Raises `Unfit`."""
        last = self.waiting[-1] if self.waiting else None
        if what == AWAITED:
            self.waiting.append(Printed(bytes(text)))
        elif what == PRINTED and isinstance(last, Printed):
            last.printed += text
        elif what == PRINTED:
            self.waiting.append(Printed(b"", bytes(text)))
        elif what == LINES and len(text):
            self.waiting.append((text, lines))
        self.length += len(text)
        if what == END:
            self.converter.form.events = lines
        # What a tool printed is in whole lines. Lines in memory don't wait, since their piece is to be freed.
        if what == END or isinstance(text, memoryview) or what != AWAITED and self.length > WAITING:
            self.settle()

    def settle(self) -> None:
        """Write what waits, once what the tool has printed is converted and compared. Raises `Unfit`."""
        waiting, self.waiting, self.length = self.waiting, [], 0
        form = self.converter.form
        text = form.prepared(b"".join([one.printed for one in waiting if isinstance(one, Printed)]), has_all=False)
        lines = form.plain(form.find(text)) if text else []
        if self.converter.odd in lines:
            for one in waiting:
                self.write([self.convert(one) if isinstance(one, Printed) else self.note(*one)])
            return
        at = 0
        parts: list[Lines] = []
        for one in waiting:
            if isinstance(one, Printed):
                count = one.printed.count(b"\n")
                text = b"".join(lines[at : at + count])
                self.note(text, count)
                parts.append(one.checked(text))
                at += count
            else:
                parts.append(self.note(*one))
        self.write(parts)

    def note(self, text: Lines, lines: int) -> Lines:
        """Take note of lines that are converted, and return them."""
        self.converter.number += lines
        self.converter.report.has_events |= lines > 0
        return text

    def convert(self, one: Printed) -> bytes:
        """Return what the tool has printed, converted line by line. Raises `Unfit`."""
        self.converter.before = Before(self.blocks, self.are_all)
        lines, rest = self.converter.convert(self.converter.form.prepared(one.printed, has_all=False), True)
        if rest:
            raise Unfit(f"{one.printed!r} is not converted")
        return one.checked(lines)

    def write(self, parts: Sequence[Lines]) -> None:
        """Write converted lines, and keep them for a while."""
        for text in (b"".join(parts[:-1]), *parts[-1:]):
            if len(text):
                self.is_empty = False
                self.sink.write(text)
                self.blocks.append(text)
                self.size += len(text)
        while self.blocks and self.size - len(self.blocks[0]) > KEPT:
            block = self.blocks.popleft()
            self.size -= len(block)
            self.are_all = False
            if isinstance(block, memoryview):
                self.memory.free()


class Printed:
    """What the tool printed between converted lines, which begins with the event that is awaited, if one is."""

    def __init__(self, awaited: bytes, printed: bytes = b"") -> None:
        self.awaited, self.printed = awaited, printed

    def checked(self, lines: bytes) -> bytes:
        """Return what was made of it. Raises `Unfit` if that doesn't begin as it should."""
        if not self.printed.endswith(b"\n") or not lines.startswith(self.awaited):
            raise Unfit(f"{self.awaited!r} stands for {self.printed!r}")
        return lines


def blocks(file: IO[bytes], memory: Memory) -> Iterator[tuple[bytes, Lines, int]]:
    """Go through the blocks of an open file: what each is, its text, and how many lines it stands for; the last one has the
    count of events instead, or 0. Raises `Unfit`."""
    what = b""
    while what != END:
        head = file.read(HEAD.size)
        if len(head) < HEAD.size or head[:3] != MARK:
            raise Unfit("no block")
        _, what, length, lines, _ = HEAD.unpack(head)
        if what == MAPPED:
            yield LINES, memory.next(length), lines
            continue
        text = file.read(length) if length <= MOST else b""
        if len(text) < length:
            raise Unfit("a block ends too early")
        yield what, text, lines
    # What the tool prints at its end.
    rest = file.read()
    if rest:
        yield PRINTED, rest, 0
    yield END, b"", lines


def front_of(command: Sequence[str]) -> bytes:
    """Return what a command prints first, in whole lines. Raises `Unfit` if it prints something on standard error too."""
    with tempfile.TemporaryFile() as errors:
        try:
            with subprocess.Popen(command, stdin=subprocess.DEVNULL, stdout=subprocess.PIPE, stderr=errors) as tool:
                assert tool.stdout
                text = tool.stdout.read(FRONT)
                tool.kill()
        except OSError as error:
            raise Unfit(f"{command[0]}: {error.strerror}") from None
        if errors.seek(0, 2):
            raise Unfit(f"{command[0]} says something")
    return text[: text.rfind(b"\n") + 1]


def begin(converter: Converter, path: str, sink: CheckedSink, memory: Memory) -> BlockWriter:
    """Return the writer that takes the blocks of a recording. What it writes is compared with what the tool itself prints
    first. Raises `Unfit`."""
    text = converter.form.front(path)
    form, report = copy.deepcopy((converter.form, converter.report))
    sink.expected, _ = type(converter)(form, report).convert(form.prepared(text), False)
    # Now this format knows the columns too.
    converter.form.prepared(text)
    if converter.form.holds_back:
        raise Unfit("several buffers")
    writer = BlockWriter(converter, sink, memory)
    writer.take(PRINTED, converter.form.head_of(text), 0)
    return writer


def convert_quickly(converter: Converter, command: Sequence[str], path: str, sink: Sink) -> list[str]:
    """Convert a recording by a command that writes blocks, and return what is to be reported of it. Raises `Unfit`."""
    form = converter.form
    with tempfile.TemporaryFile() as errors, Memory() as memory:
        try:
            tool = subprocess.Popen(
                memory.command(command),
                stdin=subprocess.DEVNULL,
                stdout=subprocess.PIPE,
                stderr=errors,
                pass_fds=(memory.file, memory.freed),
            )
        except OSError as error:
            raise Unfit(f"{command[0]}: {error.strerror}") from None
        assert tool.stdout
        try:
            widen(tool.stdout)
            # If there is nothing that it must begin with, all is passed on.
            checked = CheckedSink(form.writer(sink), b"")
            is_apart = form.is_apart
            writer = begin(converter, path, checked, memory) if is_apart else BlockWriter(converter, checked, memory)
            for block in blocks(tool.stdout, memory):
                writer.take(*block)
            checked.check()
            sink.check()
            if tool.wait() != 0 or writer.is_empty or is_apart and errors.seek(0, 2):
                raise Unfit(f"{command[0]} failed")
        finally:
            tool.kill()
            tool.stdout.close()
            tool.wait()
        errors.seek(0)
        messages = [form.message(line.strip(), path) for line in errors]
    form.check_end(converter.report.path)
    checked.write(form.ended(converter.report))
    converter.report.finish()
    return [text for text in messages if text]
