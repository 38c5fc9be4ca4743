"""Converts a text in pieces of whole lines: the plain lines of a piece at once, odd ones one by one. The desk loads what is
written; what can't be converted is left out and reported."""

from __future__ import annotations

import copy
import ctypes
import os
import queue
import select
import shutil
import stat
import subprocess
import sys
import tempfile
import threading
import time
from collections.abc import Iterator, Sequence
from typing import IO, Protocol

from .. import _invocation
from ..trace.kind import packer_of, recording_origin
from .blocks import Sink, Unfit, Writer, convert_quickly, widen
from .lines import NotConvertible, complete_line
from .report import ConversionError, Report
from .text_format import Groups, Readable, TextFormat

# How many bytes are converted at once.
SIZE = 1 << 18
# How many seconds a pipe that had less is left alone, for as long as more comes.
PAUSE = 0.002
# How many pieces of a file are read ahead.
AHEAD = 8
# The line breaks in the names of a line tear it into at most so many pieces, and as a whole it has at most so many bytes.
PIECES, JOINED_ROOM = 46, 512


class NeedsMore(Exception):
    """More lines are needed before a line can be converted."""


class LinesBefore(Protocol):
    """Converted lines, which can be looked through from both ends."""

    def __iter__(self) -> Iterator[bytes]:
        """Go through them."""

    def __reversed__(self) -> Iterator[bytes]:
        """Go through them backwards."""


class Converter:
    """Converts a text of a format, piece by piece."""

    def __init__(self, form: TextFormat, report: Report) -> None:
        self.form = form
        self.report = report
        self.number = 1
        self.odd = form.plain([(b"",) * form.pattern.groups])[0]
        # The lines that were converted last, those that are being converted, and how many of these precede the current one.
        self.before: LinesBefore = []
        self.current: list[bytes] = []
        self.at = 0
        # The last line of each place among the lines before those, with the latest at the end.
        self.last_of: dict[bytes, bytes] = {}

    def earlier(self) -> Iterator[bytes]:
        """Go backwards through the converted lines before the current one; of those from long before, only through the last
        ones that say who runs."""
        yield from reversed(self.current[: self.at])
        yield from reversed(self.before)
        yield from self.older()

    def older(self) -> Iterator[bytes]:
        """Go through the lines from long before."""
        return reversed(self.last_of.values())

    def keep(self) -> None:
        """Keep what the lines that were converted last say about who runs."""
        for line in self.before:
            for place in self.form.places(line):
                self.last_of.pop(place, None)
                self.last_of[place] = line

    def convert(self, text: bytes, is_last: bool) -> tuple[bytes, bytes]:
        """Return whole lines converted, and those of them that have to be seen again with the lines that follow."""
        count = self.form.unchanged(text)
        if count:
            self.report.has_events = True
            self.number += count
            return text, b""
        matches = self.form.find(text)
        lines = self.form.plain(matches)
        self.current = lines
        odd = [at for at, line in enumerate(lines) if line == self.odd] if self.odd in lines else []
        if len(odd) < len(lines):
            self.report.has_events = True
        end, after = len(lines), 0
        for at in odd:
            try:
                if at >= after:
                    after = at + self.convert_odd(matches, lines, at, is_last)
            except NeedsMore:
                end = at
                break
        self.number += end
        if end:
            self.keep()
            self.before = lines[:end]
        return b"".join(lines[:end]), b"".join(parts[-1] + b"\n" for parts in matches[end:])

    def convert_odd(self, matches: Sequence[Groups], lines: list[bytes], at: int, is_last: bool) -> int:
        """Convert the odd line at a place, and return how many lines it took."""
        line, number, self.at = matches[at][-1], self.number + at, at
        aside = self.form.aside(line, self.report)
        if aside is not None:
            lines[at] = aside
            return 1
        try:
            text, is_masked, count = *self.complete(line), 1
        except NotConvertible as fault:
            torn = self.join(matches, at, is_last)
            if torn is None:
                lines[at] = b"" if line.strip() else b"\n"
                if line.strip():
                    self.report.leave_out(number, fault, line)
                return 1
            text, is_masked, count = torn
        self.report.has_events = True
        if is_masked:
            self.report.mask(number, text)
        lines[at : at + count] = [text + b"\n", *[b""] * (count - 1)]
        return count

    def complete(self, line: bytes) -> tuple[bytes, bool]:
        """Return a line converted, and whether a name in it was masked. Raises `NotConvertible`."""
        return complete_line(self.form.parts(line, self.earlier), self.form.advice)

    def join(self, matches: Sequence[Groups], at: int, is_last: bool) -> tuple[bytes, bool, int] | None:
        """Return the line whose first piece is at a place: its converted text, whether a name was masked, and how many pieces
        it had; None if no such line is there. Raises `NeedsMore` if that isn't known yet."""
        text = matches[at][-1]
        if not self.form.may_follow(text, None):
            return None
        for count in range(2, PIECES + 1):
            if at + count > len(matches):
                if is_last:
                    return None
                raise NeedsMore
            *groups, piece = matches[at + count - 1]
            if any(groups) or not self.form.may_follow(text, piece) or len(text) + len(piece) > JOINED_ROOM:
                return None
            text += b"\n" + piece
            try:
                return (*self.complete(text), count)
            except NotConvertible:
                pass
        return None


class Source:
    """A file that gives many bytes at once, though a tool may write few at a time into a pipe, and tracefs has 4 KiB a call."""

    def __init__(self, file: IO[bytes]) -> None:
        self.file = file
        self.is_pipe = not stat.S_ISREG(os.fstat(file.fileno()).st_mode)

    def read(self, size: int) -> bytes:
        """Return so many bytes, or fewer if no more are there for a moment; none at the end."""
        parts: list[bytes] = []
        count = 0
        while count < size:
            if parts and self.is_pipe:
                time.sleep(PAUSE)
                if not select.select([self.file], [], [], 0)[0]:
                    break
            parts.append(self.file.read(size - count))
            count += len(parts[-1])
            if not parts[-1]:
                break
        return b"".join(parts)


class Ahead:
    """The rest of a source that is no pipe, which a thread reads ahead. The C library reads whole pieces, without Python
    between its calls, so that one piece is converted while the kernel makes the next ones."""

    def __init__(self, source: Source) -> None:
        self.library = ctypes.CDLL(None, use_errno=True)
        self.library.fdopen.restype = ctypes.c_void_p
        self.library.fread.restype = ctypes.c_size_t
        self.library.fread.argtypes = ctypes.c_void_p, ctypes.c_size_t, ctypes.c_size_t, ctypes.c_void_p
        self.stream = self.library.fdopen(os.dup(source.file.fileno()), b"r")
        if not self.stream:
            raise OSError(ctypes.get_errno(), os.strerror(ctypes.get_errno()))
        self.pieces: queue.Queue[bytes | OSError] = queue.Queue(AHEAD)
        threading.Thread(target=self.read_ahead, daemon=True).start()

    def read(self, size: int) -> bytes:
        """Return the next bytes, of which there may be more or fewer than are asked for; none at the end."""
        piece = self.pieces.get()
        if isinstance(piece, OSError):
            raise piece
        return piece

    def read_ahead(self) -> None:
        """Read pieces, to the end or the error that ends them."""
        room = ctypes.create_string_buffer(SIZE)
        count = SIZE
        while count:
            ctypes.set_errno(0)
            count = self.library.fread(room, 1, SIZE, self.stream)
            number = 0 if count else ctypes.get_errno()
            self.pieces.put(OSError(number, os.strerror(number)) if number else ctypes.string_at(room, count))


def pieces(first: bytes, source: Readable) -> Iterator[tuple[bytes, bool]]:
    """Go through an open file, of which the first bytes are read already, in pieces of whole lines; each comes with whether it
    is the last one."""
    parts: list[bytes] = []
    chunk = first
    while chunk:
        end = chunk.rfind(b"\n") + 1
        if end:
            yield b"".join([*parts, chunk[:end]]), False
            parts = []
        parts.append(chunk[end:])
        chunk = source.read(SIZE)
    rest = b"".join(parts)
    yield rest + b"\n" if rest else b"", True


def convert_text(form: TextFormat, report: Report, first: bytes, source: Readable, sink: Writer | None = None) -> None:
    """Convert a text onto standard output, or into `sink`.

    Raises
    ------
    ConversionError
        If it isn't of the format.
    """
    converter, rest = Converter(form, report), b""
    spool: IO[bytes] | None = None
    sink = form.writer(sink or Sink(sys.stdout.buffer))
    for text, is_last in pieces(first, source):
        lines, rest = converter.convert(rest + form.prepared(text), is_last)
        if form.holds_back and spool is None:
            spool = tempfile.TemporaryFile()
        (spool or sink).write(lines)
        if spool is None:
            report.say_first()
    form.check_end(report.path)
    lines = form.ended(report)
    report.finish()
    if spool:
        spool.seek(0)
        shutil.copyfileobj(spool, sink, SIZE)
    sink.write(lines)


def convert_recording(form: TextFormat, report: Report, path: str) -> int:
    """Convert a recording, quickly if that is possible, otherwise by what the tool prints of it, and return the exit status."""
    sink = Sink(sys.stdout.buffer)
    form.begin(path)
    command = form.quick_command(path)
    if command:
        again = copy.deepcopy((form, report))
        try:
            for text in convert_quickly(Converter(form, report), command, path, sink):
                report.say(text)
            return status_of(report)
        except (Unfit, ConversionError):
            (form, report) = again
            sink.begin_again()
    is_good = convert_printed(form, report, path, sink)
    sink.check()
    return status_of(report, is_good)


def convert_printed(form: TextFormat, report: Report, path: str, sink: Sink) -> bool:
    """Convert what the tool prints of a recording, pass on what it says, and return whether the tool succeeded."""
    with tempfile.TemporaryFile() as errors:
        try:
            tool = subprocess.Popen(
                [*form.command, path], stdin=subprocess.DEVNULL, stdout=subprocess.PIPE, stderr=errors, bufsize=0
            )
        except FileNotFoundError:
            raise ConversionError(f"{path} is a recording, and {form.program} is not installed, which reads it") from None
        assert tool.stdout
        try:
            widen(tool.stdout)
            with form.completed(Source(tool.stdout), path) as source:
                # If a recording ends too early, trace-cmd prints nothing, and calls that good.
                first = source.read(SIZE)
                if first:
                    convert_text(form, report, first, source, sink)
            status = tool.wait()
        finally:
            tool.kill()
        errors.seek(0)
        for line in errors:
            text = form.message(line.strip(), path)
            if text:
                report.say(text)
    if status != 0 or not first:
        report.say(f"{form.program} {'failed on' if status else 'printed nothing of'} {path}")
    return status == 0 and bool(first)


def status_of(report: Report, is_good: bool = True) -> int:
    """Return the exit status once all is converted."""
    return 0 if is_good and not report.left_out else 1


def check_first(form: TextFormat, path: str, first: bytes) -> bool:
    """Return whether a file with these first bytes is a recording. Raises `ConversionError` if the tool doesn't convert it."""
    name = "standard input" if path == "/dev/stdin" else path
    if not first:
        raise ConversionError(f"{name} is empty")
    packer = packer_of(first)
    if packer:
        raise ConversionError(f"{name} is packed by {packer.name}: unpack it first, by {packer.name} -d")
    origin = recording_origin(first)
    if origin:
        if origin.program != form.program:
            raise ConversionError(f"{name} is {origin.what}, which {_invocation.tool(origin.converter)} converts")
        if path == "/dev/stdin":
            raise ConversionError("standard input is a recording; name its file instead")
        return True
    if b"\0" in first:
        raise ConversionError(f"{name} is neither a recording of {form.program} nor a text")
    return False


def convert_file(form: TextFormat, tool: str, path: str) -> int:
    """Convert a file onto standard output, and report what is left out or lost.

    Parameters
    ----------
    form
        The format of its text.
    tool
        The name with which messages begin.
    path
        The file.

    Returns
    -------
    int
        The exit status: 0, or 1 if lines were left out or the program that reads the recording failed.

    Raises
    ------
    ConversionError
        If it can't be converted.
    OSError
        If it can't be read, or if the trace can't be written.
    """
    report = Report(tool, form.name, path)
    try:
        stream = open(path, "rb", buffering=0)
    except PermissionError as error:
        raise ConversionError(f"{path}: {error.strerror}; if root recorded it, sudo chown it") from None
    with stream as file:
        source = Source(file)
        first = source.read(SIZE)
        if check_first(form, path, first):
            return convert_recording(form, report, path)
        rest: Readable = source
        if not source.is_pipe:
            rest = Ahead(source)
        convert_text(form, report, first, rest)
    return status_of(report)
