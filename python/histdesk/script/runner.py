"""The commands of scripts over a desk of the Python package: what each prints, byte for byte as the program prints it.

Texts of commands are Latin-1, a character for each byte.
"""

from __future__ import annotations

import contextlib
import errno
import os
import signal
import warnings
from typing import Callable, Iterator, NamedTuple

from .._schema import ATTACHABLE_EVENTS
from ..desk.desk import Desk, Trace
from ..desk.loaded import Loaded
from ..desk.recording import Recording
from ..native import layout
from ..native.refusals import Refused
from ..trace import source
from ..trace.losses import LossWarning
from .commands import SCRIPT_COMMANDS
from .forms import LONGEST, numbers_of, split_command


class CommandRefused(Exception):
    """A line is refused.

    Attributes
    ----------
    text
        What is printed, such as `refused 16`.
    path
        The trace that the line names, or None.
    """

    def __init__(self, text: str, path: str | None = None) -> None:
        super().__init__(text)
        self.text, self.path = text, path


class Output(NamedTuple):
    """What an accepted line gives.

    Attributes
    ----------
    output
        What is printed.
    path
        For a `load`, the path of the trace; otherwise None.
    loaded
        For a `load`, what `Desk.load` returns; otherwise None.
    """

    output: bytes = b""
    path: str | None = None
    loaded: Loaded | None = None


class Commands:
    """Performs the lines of a script, one by one.

    Attributes
    ----------
    desk
        The desk that they edit and ask.
    traces
        The paths of the traces that have a number, from 1.
    was_interrupted
        Whether Ctrl-C came while an edit was made.
    """

    def __init__(self, traces: list[str], read: Callable[[str], Trace | Recording] = source.content_of) -> None:
        """Begin with an empty desk; `read` returns what is loaded of a path."""
        self.desk, self.traces, self.read = Desk(), traces, read
        self.was_interrupted = False
        # The method of this class that has a command's name performs it.
        others = (name for name in SCRIPT_COMMANDS if name not in ("load", "insert"))
        self.methods: dict[str, Callable[[str], bytes]] = {name: getattr(self, name) for name in others}

    def answer(self, line: bytes) -> Output:
        """Perform a line, and return what it prints.

        Raises
        ------
        CommandRefused
            If it is refused.
        OSError
            If a trace can't be read.
        MemoryError
            If memory runs out.
        """
        if len(line) > LONGEST:
            raise CommandRefused("refused 16")
        text = line.decode("latin-1")
        if not text.strip(" ") or text.startswith("#"):
            return Output()
        if text == "insert" or text.startswith("insert "):
            return Output(self.perform(self.insert, text[7:], is_edit=True))
        word, rest = split_command(text)
        if word == "load":
            return self.load(rest)
        if word not in self.methods:
            raise CommandRefused("refused 16")
        return Output(self.perform(self.methods[word], rest, SCRIPT_COMMANDS[word].is_edit))

    def perform(self, method: Callable[[str], bytes], rest: str, is_edit: bool) -> bytes:
        """Perform a command, and return what it prints. Raises `CommandRefused` if the desk refuses it."""
        try:
            if not is_edit:
                return method(rest)
            with self.whole():
                return method(rest)
        except Refused as refused:
            raise CommandRefused(refused.text) from None

    @contextlib.contextmanager
    def whole(self) -> Iterator[None]:
        """Let an edit that the library has begun come to its end and be reported: Ctrl-C is only noted."""
        handler = signal.signal(signal.SIGINT, self.interrupted)
        try:
            yield
        finally:
            signal.signal(signal.SIGINT, handler)

    def interrupted(self, *_: object) -> None:
        """Take note of Ctrl-C."""
        self.was_interrupted = True

    # ---- edits

    def load(self, rest: str) -> Output:
        """Load a trace, by its number or by its path."""
        path = self.path_of(rest)
        try:
            content = self.read(path)
        except OSError as error:
            # The exception for a torn packed file has neither a number nor the path.
            raise OSError(error.errno or errno.EIO, error.strerror or str(error), path) from None
        try:
            with self.whole(), warnings.catch_warnings():
                # The prompt reports losses in a line of its own.
                warnings.simplefilter("ignore", LossWarning)
                loaded = self.desk.load(content)
        except Refused as refused:
            raise CommandRefused(refused.text, path) from None
        return Output(b"loaded %d\n" % loaded, path, loaded)

    def path_of(self, rest: str) -> str:
        """Return the path of the trace that a `load` names. A path that is new gets the next number."""
        if rest.startswith("@") and numbers_of(rest[1:]):
            (number,) = numbers_of(rest[1:])
            if not 1 <= number <= len(self.traces):
                raise CommandRefused("refused 2")
            return self.traces[number - 1]
        path = os.path.expanduser(os.fsdecode(rest.encode("latin-1")))
        if not rest or not os.path.exists(path) or os.path.isdir(path):
            raise CommandRefused("refused 16")
        if path not in self.traces:
            self.traces.append(path)
        return path

    def attach(self, rest: str) -> bytes:
        """Attach a trigger to an event."""
        event, trigger = split_command(rest)
        if event not in ATTACHABLE_EVENTS:
            raise CommandRefused("refused 16")
        return b"attached %d\n" % self.desk.attach(event, trigger.encode("latin-1")).id

    def unload(self, rest: str) -> bytes:
        """Remove the events of a CPU."""
        return b"unloaded %d\n" % self.desk.unload(number_of(rest))

    def insert(self, line: str) -> bytes:
        """Insert the event of a trace line."""
        edit = self.desk.insert(line.encode("latin-1"))
        return b"inserted %d:%d\n" % (edit.cpu, edit.line)

    def strike(self, rest: str) -> bytes:
        """Remove an event."""
        cpu, sign, line = rest.partition(":")
        if not sign:
            raise CommandRefused("refused 16")
        edit = self.desk.strike(number_of(cpu), number_of(line))
        return b"struck %d:%d\n" % (edit.cpu, edit.line)

    def filter(self, rest: str) -> bytes:
        """Change or remove the filter of a trigger."""
        number, rest = split_command(rest)
        how, text = split_command(rest)
        id = number_of(number)
        if how != "if" and (how != "none" or text):
            raise CommandRefused("refused 16")
        # As in all calls of the package, a text may be bytes.
        self.desk.trigger(id).filter = text.encode("latin-1") if how == "if" else None  # type: ignore[assignment]
        return b"refiltered %d\n" % id

    def remove(self, rest: str) -> bytes:
        """Remove a trigger."""
        id = number_of(rest)
        self.desk.trigger(id).remove()
        return b"removed %d\n" % id

    # ---- answers

    def hist(self, rest: str) -> bytes:
        """Return the table of a trigger."""
        return layout.encode(self.desk.trigger(number_of(rest)).text())

    def totals(self, rest: str) -> bytes:
        """Return the totals of a trigger."""
        return b"hits %d entries %d dropped %d\n" % self.desk.trigger(number_of(rest)).totals()

    def lat(self, rest: str) -> bytes:
        """Return the latencies of a trigger."""
        latencies = self.desk.trigger(number_of(rest)).latencies()
        # Numbers of Python are formatted many times as fast as those of numpy.
        rows = latencies if isinstance(latencies, list) else latencies.tolist()
        lines = [b"%d:%d -> %d:%d: %d us\n" % (row[1], row[2], row[4], row[5], row[6]) for row in rows]
        return b"".join([*lines, b"Latencies: %d\n" % len(lines)])

    def list(self, rest: str) -> bytes:
        """Return the events of a CPU."""
        return layout.encode(self.desk.list(number_of(rest)))


def number_of(text: str) -> int:
    """Return the number that an argument is. Raises `CommandRefused` if it is none."""
    numbers = numbers_of(text)
    if not numbers:
        raise CommandRefused("refused 16")
    return numbers[0]
