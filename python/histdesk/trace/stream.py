"""Waits of a trace's text, as the engine reports them while it reads the text piece by piece."""

from __future__ import annotations

import contextlib
import ctypes
import threading
from collections.abc import Callable, Iterator
from typing import TYPE_CHECKING, Any, NamedTuple

import numpy as np

from ..native import layout
from ..native.buffers import bytes_of
from ..native.library import library, unlocked
from ..native.refusals import exception_of
from ..native.session import Session
from . import text as trace_text
from .losses import Losses, copy_losses, reported
from .places import Place
from .text import Piece, Text, pieces_of
from .times import Stamp
from .wait_records import Kept, Nobody, WaitSink, engine_waits

if TYPE_CHECKING:
    from numpy.typing import NDArray

    from .joined_parts import JoinedWaits
    from .source import Trace
    from .wait_records import Structs

# How many waits are copied at once.
CHUNK = 1 << 14


class Checkpoint(NamedTuple):
    """What is known of the lines before a byte of a text, which is its first one or stands after a line break: the stamp of
    their last event in microseconds, -1 if there is none, and how many events each CPU has in them."""

    at: int
    last: int
    events: dict[int, int]

    @property
    def total(self) -> int:
        """How many events all CPUs have."""
        return sum(self.events.values())


class Backwards(Exception):
    """A text isn't in the order of time; the argument is the number of a line with a stamp before that of the event above."""


class NotJoined(Exception):
    """A part of a text doesn't fit what was read before it."""


class Read(NamedTuple):
    """What was read of a text: how many events each CPU has, the stamps of the first and the last one in microseconds (None if
    there are none), what is known about lost events, how many lines can't be read and the first of these, and how many switches
    are missing though no line reports it, and where the first event that shows it stands."""

    events: dict[int, int]
    first: Stamp | None
    last: Stamp | None
    losses: Losses
    bad_lines: int
    first_bad_line: int | None
    missing: int
    first_missing: Place | None


class Sums(NamedTuple):
    """The sums of a text.

    Attributes
    ----------
    tasks
        A row for each task, by PID: an array with the members of `histdesk_task_sum`.
    cpus
        A row for each CPU, by number: an array with the members of `histdesk_cpu_sum`.
    """

    tasks: Structs
    cpus: Structs


class StreamWaits(NamedTuple):
    """The waits of a text.

    Attributes
    ----------
    records
        An array of what is kept of each wait.
    names
        The names of tasks, by their numbers.
    read
        What was read.
    checkpoints
        Checkpoints of the text, from its beginning to its end.
    sums
        The sums of the text, if they were asked for.
    """

    records: Structs
    names: NDArray[np.object_]
    read: Read
    checkpoints: tuple[Checkpoint, ...] = ()
    sums: Sums | None = None


class ReadText(NamedTuple):
    """What was read of a text that has ended: the stream, which finds out how sure its waits are until it is closed; what was
    read; what has taken the waits; and checkpoints of the text."""

    feed: Feed
    read: Read
    waits: WaitSink | JoinedWaits
    checkpoints: tuple[Checkpoint, ...]


def read_pieces(pieces: Iterator[Piece], lenient: bool, sink: WaitSink, sums: bool = False) -> ReadText:
    """Read a text that comes in pieces.

    Parameters
    ----------
    pieces
        The pieces, unpacked.
    lenient
        Whether lines that can't be read are counted and skipped.
    sink
        What takes the waits.
    sums
        Whether the text is also summed up by task and by CPU, for `Feed.sums`.

    Raises
    ------
    Refused
        For the first line that can't be read, unless such lines are skipped.
    Backwards
        If the text isn't in time order.
    OSError, MemoryError
        If it can't be read. The stream is closed then, as after the other two.
    """
    with contextlib.ExitStack() as failing:
        feed = Feed(lenient, sink)
        failing.callback(feed.close)
        if sums:
            feed.sum_up()
        notes = CheckpointNotes(feed)
        for piece in pieces:
            feed.feed(piece)
            notes.add(piece)
        read = feed.end()
        failing.pop_all()
    return ReadText(feed, read, sink, notes.finish(read))


def read_waits(pieces: Iterator[Piece], lenient: bool = False, judges: bool = True, sums: bool = False) -> StreamWaits:
    """Return the waits of a text that comes in pieces.

    Parameters
    ----------
    pieces, lenient, sums
        As for `read_pieces`, which also says what is raised.
    judges
        Whether it is found out how sure the waits are, by what the text itself says of losses.
    """
    return end_waits(read_pieces(pieces, lenient, Kept(CHUNK), sums), judges, sums)


def end_waits(text: ReadText, judges: bool = True, sums: bool = False) -> StreamWaits:
    """Return the waits of a text that was read, and close its stream; the parameters are those of `read_waits`."""
    with contextlib.closing(text.feed) as feed:
        records = text.waits.all()
        if text.read.losses.holes and judges:
            judge_all(feed, records)
        names = ordered_names(records, text.waits.names())
        return StreamWaits(records, names, text.read, text.checkpoints, feed.sums() if sums else None)


def ordered_names(records: Structs, names: NDArray[np.object_]) -> NDArray[np.object_]:
    """Return the names of tasks in the order in which waits have them first, and give records their new numbers."""
    first = np.full(len(names), len(records))
    # Of several waits with one name the first one of all is written last.
    first[records["name"][::-1]] = np.arange(len(records) - 1, -1, -1)
    order = first.argsort(kind="stable")
    numbers = np.empty(len(names), "u4")
    numbers[order] = np.arange(len(names))
    records["name"] = numbers[records["name"]]
    ordered: NDArray[np.object_] = names[order]
    return ordered


def judge_all(feed: Feed, records: Structs) -> None:
    """Find out how sure all waits of a text are."""
    for start in range(0, len(records), CHUNK):
        feed.judge(records[start : start + CHUNK])


def losses_of_pieces(pieces: Iterator[Piece]) -> Losses:
    """Return what lines of a text in the order of time report lost; those that can't be read are skipped. Raises `Backwards` if
    it is in another order."""
    with contextlib.closing(Feed(True, Nobody())) as feed:
        for piece in pieces:
            feed.feed(piece)
        return reported(feed.end().losses)


class CheckpointNotes:
    """Checkpoints of a text, which are noted while a stream reads it."""

    def __init__(self, feed: Feed, at: int = 0) -> None:
        """Begin at the byte of the text from which on the stream reads."""
        self._feed = feed
        # How many bytes were read, and how many until the last line break.
        self._read = self._ended = at
        self.checkpoints = [Checkpoint(at, *feed.so_far())]

    def add(self, piece: Piece) -> None:
        """Note a checkpoint after a piece that the stream has taken, if many bytes came since the last one."""
        line = last_break(piece)
        self._ended = self._read + line if line else self._ended
        self._read += len(piece)
        if line and self._ended >= self.checkpoints[-1].at + trace_text.PIECE:
            self.checkpoints.append(Checkpoint(self._ended, *self._feed.so_far()))

    def finish(self, read: Read) -> tuple[Checkpoint, ...]:
        """Note a checkpoint at the text's end, and return all of them."""
        last = -1 if read.last is None else read.last
        return (*self.checkpoints, Checkpoint(self._read, last, read.events))


def last_break(piece: Piece) -> int:
    """Return how many bytes of a piece its last line break ends; 0 if it has none."""
    room = 4096
    with memoryview(piece) as content:
        while True:
            at = bytes(content[-room:]).rfind(b"\n")
            if at >= 0:
                return max(len(content) - room, 0) + at + 1
            if room >= len(content):
                return 0
            room *= 16


def line_at(trace: Trace | Text, number: int) -> bytes:
    """Return a line of a trace's text that can be read again, by its number from 1."""
    left, tail = number - 1, b""
    for piece in pieces_of(trace):
        lines = (tail + bytes(piece)).split(b"\n")
        if left < len(lines) - 1:
            return lines[left]
        left, tail = left - (len(lines) - 1), lines[-1]
    return tail


def held_waits(session: Session) -> Kept:
    """Return the waits of the events that a desk holds. Raises `MemoryError` if memory ran out."""
    session.holds(library.histdesk_waits_held, ctypes.c_uint64())
    kept = Kept(CHUNK)
    kept.copy_waits(session.handle)
    return kept


class Feed:
    """A stream of the engine's, and what takes the waits that it reports."""

    def __init__(self, lenient: bool, sink: WaitSink, is_part: bool = False) -> None:
        """Begin to read a whole text, or a part of one that begins later and is to be joined."""
        self._session = Session()
        self._lock = threading.Lock()
        self.sink = sink
        self._call(library.histdesk_waits_part if is_part else library.histdesk_waits_new, lenient)

    def close(self) -> None:
        """Free its memory."""
        self._session.close()

    def feed(self, piece: Piece) -> None:
        """Take the next piece of the text, a buffer."""
        with bytes_of(piece) as (address, length):
            self._call(unlocked.histdesk_waits_feed, ctypes.c_void_p(address), length, ctypes.c_uint64())
        self.sink.copy_waits(self._session.handle)

    def join(self, part: Feed, completions: WaitSink) -> bool:
        """Take the text of a part, which another stream has read from its own start, and return whether the two fit together.
        The waits that end there with the first switch to each task go to `completions`. The part is closed in either case."""
        try:
            self._call(library.histdesk_waits_join, part._session.handle, ctypes.c_uint64())
        except NotJoined:
            return False
        completions.copy_waits(self._session.handle)
        return True

    def end(self) -> Read:
        """Take the end of the text, and return what was read."""
        read = layout.WaitsRead()
        self._call(library.histdesk_waits_finish, read, ctypes.c_uint64())
        self.sink.copy_waits(self._session.handle)
        return self._read(read)

    def sum_up(self) -> None:
        """Have the text summed up by task and by CPU. It is called before the first piece."""
        self._call(library.histdesk_waits_sum_up)

    def sums(self) -> Sums:
        """Return the sums of the text, which has ended; they are empty if `sum_up` wasn't called."""
        tasks = self._every(library.histdesk_waits_tasks, layout.TaskSum)
        return Sums(tasks, self._every(library.histdesk_waits_cpus, layout.CpuSum))

    def judge(self, records: Structs) -> None:
        """Write to the records of waits how sure they are, by the holes of the text, which has ended."""
        waits = engine_waits(records)
        # Several threads may judge.
        with self._lock:
            self._call(unlocked.histdesk_waits_doubt, waits.ctypes.data, len(waits))
        records["doubt"] = waits["doubt"]

    def so_far(self) -> tuple[int, dict[int, int]]:
        """Return the stamp of the last event in the lines that have ended, -1 if there is none, and how many events each CPU
        has in them."""
        last, has_last = ctypes.c_uint64(), ctypes.c_bool()
        self._call(library.histdesk_waits_last, last, has_last)
        return last.value if has_last.value else -1, self._events()

    def _events(self) -> dict[int, int]:
        """Return how many events each CPU has."""
        counts = self._copy(library.histdesk_waits_events, "=u4", layout.CPUS)
        return {cpu: int(counts[cpu]) for cpu in np.flatnonzero(counts).tolist()}

    def _call(self, call: Callable[..., int], *arguments: object) -> None:
        """Make a call, and raise what it is refused with."""
        handle = self._session.handle
        if call(handle, *arguments) != layout.OK:
            refusal = layout.Refusal()
            library.histdesk_waits_refused(handle, refusal)
            if refusal.number == layout.BACKWARDS:
                raise Backwards(refusal.line)
            raise NotJoined() if refusal.number == layout.NOT_JOINED else exception_of(refusal)

    def _copy(self, copy: Callable[..., int], kind: str, count: int) -> NDArray[np.uint32]:
        """Return so many items that a call copies."""
        items = np.empty(count, kind)
        copy(self._session.handle, 0, items.ctypes.data, count)
        return items

    def _every(self, copy: Callable[..., int], kind: type[ctypes.Structure]) -> Structs:
        """Return all structs that a call copies."""
        count = CHUNK
        parts: list[NDArray[Any]] = []
        while count == CHUNK:
            room = np.empty(CHUNK, np.dtype(kind))
            count = copy(self._session.handle, CHUNK * len(parts), room.ctypes.data, CHUNK)
            parts.append(room[:count])
        return np.concatenate(parts)

    def _read(self, read: layout.WaitsRead) -> Read:
        """Return what was read."""
        losses = copy_losses(library.histdesk_waits_holes, self._session.handle, read)
        events = self._events()
        first, last = (Stamp(read.first), Stamp(read.last)) if read.has_first else (None, None)
        at = read.missing_at
        first_missing = Place(Stamp(at.stamp), at.cpu, at.line) if read.missing else None
        return Read(events, first, last, losses, read.bad, read.bad_line or None, read.missing, first_missing)


class Stream(Feed):
    """A stream whose waits are kept."""

    def __init__(self, lenient: bool) -> None:
        self._kept = Kept(CHUNK)
        super().__init__(lenient, self._kept)

    def finish(self, judges: bool) -> StreamWaits:
        """Take the end of the text, and return its waits and what was read. With `judges`, find out how sure they are."""
        read = self.end()
        records = self._kept.all()
        if read.losses.holes and judges:
            judge_all(self, records)
        return StreamWaits(records, self._kept.names(), read)
