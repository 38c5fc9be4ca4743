"""Texts of which several parts are read at once and joined, as if they had been read one after the other."""

from __future__ import annotations

import contextlib
import os
import threading
from collections.abc import Callable, Iterator, Sequence
from typing import TYPE_CHECKING

import numpy as np

from ..native import layout
from ..native.arguments import whole
from ..native.refusals import Refused
from ..trace.joined_parts import JoinedWaits, LaterWaits, PartWaits
from ..trace.stream import CHUNK, Backwards, Checkpoint, CheckpointNotes, Feed, ReadText
from ..trace.text import Piece, Text
from ..trace.time_range import Halves
from ..trace.wait_records import Kept, WaitSink

if TYPE_CHECKING:
    from numpy.typing import NDArray

# A text of more bytes than `LARGE` is read in as many parts as there are processors, but `USUAL` at most, unless another number
# is asked for: each part takes some 10 MB.
LARGE, USUAL = 200_000_000, 16
# In how many parts a text may be read at most.
MOST_PARTS = 512

OptionalWatch = Callable[[Piece], None] | None


def check_jobs(jobs: int | None) -> int | None:
    """Return in how many parts a caller wants a text to be read. Raises `TypeError` if that is neither a whole number nor None,
    and `ValueError` if it isn't from 1 to 512."""
    if jobs is None:
        return None
    count = whole(jobs, "jobs")
    if not 1 <= count <= MOST_PARTS:
        raise ValueError(f"a text is read in 1 to {MOST_PARTS} parts at once, not in {count}")
    return count


def jobs_for(text: Text | None, jobs: int | None) -> int:
    """Return in how many parts a text is read at once: `jobs`, if it can be read from any byte on, and otherwise 1. If `jobs`
    is None, a large text is read in as many parts as there are processors, 16 at most, and any other one in 1."""
    if text is None or text.size is None:
        return 1
    if jobs is None:
        jobs = min(len(os.sched_getaffinity(0)), USUAL) if text.size > LARGE else 1
    return jobs


def read_in_parts(text: Text, jobs: int, lenient: bool, make_sink: Callable[[], WaitSink], watch: OptionalWatch) -> ReadText:
    """Read a text whose size is known in `jobs` parts at once, each in a thread of its own. `make_sink` makes what takes the
    waits of one; `watch` is called with each piece, one at a time, and with the text's first piece first.

    A part that can't be joined, for example because a CPU lost events where the text was cut, is read once more, after the
    text before it. Raises what `stream.read_pieces` raises."""
    cuts = [0, *Halves(text, text.size or 0).seams(jobs), text.size or 0]
    reader = PartReader(lenient, make_sink, watch)
    parts = [TextPart(reader, text, *bounds) for bounds in zip(cuts, cuts[1:])]
    with contextlib.ExitStack() as closing:
        for part in parts[1:]:
            closing.callback(part.feed.close)
        with contextlib.ExitStack() as failing:
            failing.callback(parts[0].feed.close)
            read_all(reader, parts)
            result = join_parts(reader, parts)
            failing.pop_all()
    return result


class PartReader:
    """What all parts have in common."""

    def __init__(self, lenient: bool, make_sink: Callable[[], WaitSink], watch: OptionalWatch) -> None:
        self.lenient, self.make_sink, self._watch = lenient, make_sink, watch
        # Whether reading ends early, since another part can't be read.
        self.has_stopped = False
        self._lock = threading.Lock()

    def see(self, piece: Piece) -> None:
        """Call the watcher with a piece, if there is one."""
        if self._watch:
            with self._lock:
                self._watch(piece)


class TextPart:
    """A part of a text: its bytes from `at` on and before `end`."""

    def __init__(self, reader: PartReader, text: Text, at: int, end: int) -> None:
        self._reader, self._text = reader, text
        self.at, self.end = at, end
        self.sink = reader.make_sink()
        self.feed = Feed(reader.lenient, self.sink, is_part=at > 0)
        self.notes = CheckpointNotes(self.feed)
        # What went wrong, and whether the part itself is refused.
        self.error: BaseException | None = None
        self.is_refused = False

    def pieces(self) -> Iterator[Piece]:
        """Return the pieces of its bytes."""
        return self._text.pieces(self.at, self.end)

    def read(self, pieces: Iterator[Piece]) -> None:
        """Read some pieces of it, until another part can't be read."""
        for piece in pieces:
            if self._reader.has_stopped:
                return
            self._reader.see(piece)
            self.feed.feed(piece)
            self.notes.add(piece)

    def run(self) -> None:
        """Read all of it in a thread, and keep what goes wrong."""
        try:
            self.read(self.pieces())
        except (Refused, Backwards):
            # Where that is, counted from the text's beginning, shows when the part is read again.
            self.is_refused = True
        except BaseException as error:  # pylint: disable=broad-except
            self.error, self._reader.has_stopped = error, True


def call_at_once(calls: Sequence[Callable[[], None]]) -> None:
    """Make calls at once, each in a thread of its own except the last one, and raise what one of them raises."""
    errors: list[BaseException] = []

    def make(call: Callable[[], None]) -> None:
        try:
            call()
        except BaseException as error:  # pylint: disable=broad-except
            errors.append(error)

    threads = [threading.Thread(target=make, args=(call,), daemon=True) for call in calls[:-1]]
    for thread in threads:
        thread.start()
    make(calls[-1])
    for thread in threads:
        thread.join()
    for error in errors:
        raise error


def read_all(reader: PartReader, parts: list[TextPart]) -> None:
    """Read all parts at once, the first one in this thread."""
    first = parts[0].pieces()
    piece = next(first, None)
    threads = [threading.Thread(target=part.run, daemon=True) for part in parts[1:]]
    try:
        if piece is not None:
            # The watcher gets the text's beginning first.
            parts[0].read(iter([piece]))
        for thread in threads:
            thread.start()
        parts[0].read(first)
        for thread in threads:
            thread.join()
    finally:
        reader.has_stopped = True
        for thread in threads:
            if thread.ident is not None:
                thread.join()
    for part in parts[1:]:
        if part.error is not None:
            raise part.error


def join_parts(reader: PartReader, parts: list[TextPart]) -> ReadText:
    """Join the parts, and return what was read of the whole text."""
    feed, waits = parts[0].feed, JoinedWaits(parts[0].sink)
    checkpoints = list(parts[0].notes.checkpoints)
    for part in parts[1:]:
        last, events = feed.so_far()
        before = event_counts_of(events)
        completions = Kept(CHUNK)
        if not part.is_refused and feed.join(part.feed, completions):
            waits.add(PartWaits(part.sink, completions, before))
            checkpoints += [shift(checkpoint, part.at, last, events) for checkpoint in part.notes.checkpoints]
        else:
            checkpoints += read_again(reader, part, feed, waits)
    tail = reader.make_sink()
    waits.add(LaterWaits(tail))
    feed.sink = tail
    read = feed.end()
    checkpoints.append(Checkpoint(parts[-1].end, -1 if read.last is None else read.last, read.events))
    return ReadText(feed, read, waits, tuple(checkpoints))


def read_again(reader: PartReader, part: TextPart, feed: Feed, waits: JoinedWaits) -> list[Checkpoint]:
    """Read a part after the text before it, and return its checkpoints."""
    feed.sink = reader.make_sink()
    waits.add(LaterWaits(feed.sink))
    notes = CheckpointNotes(feed, part.at)
    for piece in part.pieces():
        feed.feed(piece)
        notes.add(piece)
    return notes.checkpoints


def event_counts_of(events: dict[int, int]) -> NDArray[np.uint64]:
    """Return how many events each CPU has, as an array by the CPU's number."""
    counts = np.zeros(layout.CPUS, "u8")
    for cpu, count in events.items():
        counts[cpu] = count
    return counts


def shift(checkpoint: Checkpoint, at: int, last: int, events: dict[int, int]) -> Checkpoint:
    """Return a part's checkpoint as one of the whole text: the part begins at a byte, after so many events of each CPU."""
    cpus = sorted({*events, *checkpoint.events})
    counts = {cpu: events.get(cpu, 0) + checkpoint.events.get(cpu, 0) for cpu in cpus}
    return Checkpoint(at + checkpoint.at, max(last, checkpoint.last), counts)
