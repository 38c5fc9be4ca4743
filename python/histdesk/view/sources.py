"""What a recording answers when it is read again: its waits without some events, the events that pass a filter, all its events,
and a desk of its first events; needs numpy."""

from __future__ import annotations

from functools import cached_property
from typing import TYPE_CHECKING, Any, Iterable, Iterator, NamedTuple, Sequence, Union

import numpy as np

from ..compare.without import Chosen, Less, again_without, held_without, strike
from ..desk import recording as desk_recording
from ..desk.desk import Desk
from ..desk.recording import Recording, leave_out_bad_lines
from ..desk.slices import Source
from ..explain.explainer import SourceExplainer, Explainer, part_explainer
from ..explain.scene import FoundWait
from ..explain.why import why_of as explain
from ..native import layout
from ..trace.losses import Losses, seconds
from ..trace.text import PartText, whole_lines
from ..waiting.waits import Waits
from .timeline import Json, Window, extent_of, strip_in, strip_of, strips_in


if TYPE_CHECKING:
    from numpy.typing import NDArray


# A part of a text, as it is read.
Piece = Union[bytes, memoryview]


class Matches(NamedTuple):
    """Where some events stand: their CPUs, and their lines in the whole recording, from 1."""

    cpus: NDArray[np.integer[Any]]
    lines: NDArray[np.integer[Any]]


# The desks of a recording are kept if there are at most this many of them. A filter needn't read the recording again then. A
# full desk takes some 230 MB.
KEPT = 2


class HeldDesk:
    """A desk of the first events of a recording, or of all, from which others are made without some events."""

    def __init__(self, recording: Recording, lines: int | None = None) -> None:
        """Take what a desk holds of a recording: so many lines of it, or all that is asked for."""
        self.recording, self.lines = recording, lines
        self._without: tuple[frozenset[Chosen], Desk | None] = frozenset(), None

    @cached_property
    def desk(self) -> Desk:
        """The desk of all its events."""
        return self.recording.desk()

    @property
    def is_all(self) -> bool:
        """Whether it holds all that is asked for."""
        return self.lines is None

    @cached_property
    def description(self) -> str | None:
        """Which events it holds, in words; None if these are all."""
        if self.is_all:
            return None
        stamps = self.desk.events().array["stamp"]
        return f"the first {len(stamps):,} events, to {seconds(int(stamps[-1]))}" if len(stamps) else "no event"

    def places(self, chosen: Iterable[Chosen]) -> list[tuple[int, int]]:
        """Return the CPUs and lines of some of its events, in order. Raises `Refused` if a filter can't be read."""
        parts = [self.desk.matching(one.event, one.filter) for one in chosen]
        return sorted({place for part in parts for place in zip(part.cpu.tolist(), part.line.tolist())})

    def without(self, chosen: Iterable[Chosen]) -> Desk:
        """Return a desk without some events. It may be used until another one is asked for."""
        strikes = frozenset(chosen)
        if not strikes:
            return self.desk
        before, desk = self._without
        if desk is None or not before <= strikes:
            before, desk = frozenset(), self.recording.desk()
        # If memory runs out, the desk is of no use any more.
        self._without = frozenset(), None
        strike(desk, [one for one in strikes if one not in before])
        self._without = strikes, desk
        return desk


class Whole:
    """A recording of any length whose waits are all known, or a stretch of time of one."""

    def __init__(self, waits: Waits, source: Source) -> None:
        self._waits, self._source = waits, source

    @property
    def is_whole(self) -> bool:
        """Whether it is all of a recording."""
        return not isinstance(self._source._text, PartText)

    @property
    def _fits(self) -> bool:
        """Whether a desk holds all of it."""
        return self._waits.held.events <= desk_recording.LIMIT

    @property
    def _is_lenient(self) -> bool:
        return self._waits.bad_lines > 0

    def _pieces(self) -> Iterator[Piece]:
        """Return its text, in pieces."""
        return self._source.pieces()

    def without(self, chosen: Sequence[Chosen]) -> Less:
        """Return its waits without some events."""
        return again_without(self._waits, self._pieces(), self._is_lenient, chosen)

    @cached_property
    def held(self) -> HeldDesk:
        """The desk of its first events."""
        if self._fits:
            return HeldDesk(self._recording(b"".join(map(bytes, self._pieces()))))
        return HeldDesk(self._recording(next(in_parts(self._pieces(), desk_recording.LIMIT), b"")), desk_recording.LIMIT)

    @cached_property
    def teller(self) -> Explainer:
        """What explains its waits."""
        return SourceExplainer(self._waits, self._source)

    def strip(self, wait: FoundWait, window: Window, most: int) -> Json:
        """Return a wait, and what ran around it."""
        return strip_in(self._source, wait, window, self._waits.held, most)

    def strips(self, waits: Sequence[FoundWait], most: int) -> Iterator[Json]:
        """Return what `strip` returns for several waits, in the order in which they begin."""
        return strips_in(self._source, waits, self._waits.held, most)

    def matching(self, one: Chosen) -> Matches:
        """Return where those events of a name stand that pass a filter. Raises `Refused` if the filter can't be read."""
        cpus, lines = [np.zeros(0, "u4")], [np.zeros(0, "i8")]
        for desk, before in self._desks():
            places = desk.matching(one.event, one.filter)
            cpus.append(places.cpu)
            lines.append(before[places.cpu] + places.line)
        return Matches(np.concatenate(cpus), np.concatenate(lines))

    def events(self) -> Iterator[tuple[NDArray[np.void], NDArray[np.integer[Any]]]]:
        """Return its events part by part, as `Events.array` has them, and their lines in the whole recording. Those of a CPU
        are in the order of time."""
        # A copy of many events takes much room.
        is_kept = self._waits.held.events <= KEPT * desk_recording.LIMIT
        for desk, before in self._desks():
            for cpu in desk.cpus() if is_kept else [None]:
                part = desk.events(cpu).array
                yield part, before[part.cpu] + part.line

    def _desks(self) -> Iterator[tuple[Desk, NDArray[np.int64]]]:
        """Return desks that together hold all its events, and how many events each CPU has before each of them. A desk may be
        used until the next one is asked for."""
        if self._waits.held.events <= KEPT * desk_recording.LIMIT:
            yield from self._kept
            return
        before = np.zeros(layout.CPUS, "i8")
        for text in whole_lines(self._pieces()):
            with self._recording(text).desk() as desk:
                yield desk, before
                before += counts_of(desk)

    @cached_property
    def _kept(self) -> list[tuple[Desk, NDArray[np.int64]]]:
        """What `_desks` returns for a recording whose desks are kept."""
        before = np.zeros(layout.CPUS, "i8")
        if self._fits:
            return [(self.held.desk, before)]
        desks: list[tuple[Desk, NDArray[np.int64]]] = []
        for text in in_parts(self._pieces(), desk_recording.LIMIT):
            desk = self._recording(text).desk() if desks else self._held_of(text).desk
            desks.append((desk, before))
            before = before + counts_of(desk)
        return desks

    def _held_of(self, text: bytes) -> HeldDesk:
        """Return the desk of its first events, whose text this is."""
        self.__dict__.setdefault("held", HeldDesk(self._recording(text), desk_recording.LIMIT))
        return self.held

    def _recording(self, text: bytes) -> Recording:
        """Return a part of its text, for a desk. Losses are reported for the whole."""
        recording = Recording(self._waits.path, text, Losses())
        if self._is_lenient:
            leave_out_bad_lines(recording)
        return recording


class Selected:
    """Selected events of a recording, or all if they aren't in the order of time: as many as a desk holds."""

    def __init__(self, recording: Recording) -> None:
        self.recording = recording

    @property
    def is_whole(self) -> bool:
        """Whether it is all of a recording."""
        return self.recording.is_whole

    def without(self, chosen: Sequence[Chosen]) -> Less:
        """Return its waits without some events."""
        return held_without(self.recording, chosen)

    @cached_property
    def held(self) -> HeldDesk:
        """The desk."""
        return HeldDesk(self.recording)

    @cached_property
    def teller(self) -> Explainer:
        """What explains its waits."""
        return part_explainer(self.recording)

    def strip(self, wait: FoundWait, window: Window, most: int) -> Json:
        """Return a wait, and what ran around it."""
        held, scene = self.teller.waits.held, self.teller.scene(wait)
        return strip_of(scene, explain(scene, wait), extent_of(wait, window, held), held.cpus, most)

    def strips(self, waits: Sequence[FoundWait], most: int) -> Iterator[Json]:
        """Return what `strip` returns for several waits."""
        return (self.strip(wait, Window(), most) for wait in waits)

    def events(self) -> Iterator[tuple[NDArray[np.void], NDArray[np.integer[Any]]]]:
        """Return its events, in the order of time, as `Events.array` has them; and their lines in the whole recording."""
        events = self.held.desk.events().array
        yield events, self.recording.lines(events.cpu, events.line.copy())

    def matching(self, one: Chosen) -> Matches:
        """Return where those events of a name stand that pass a filter. Raises `Refused` if the filter can't be read."""
        places = self.held.desk.matching(one.event, one.filter)
        return Matches(places.cpu, self.recording.lines(places.cpu, places.line))


def counts_of(desk: Desk) -> NDArray[np.int64]:
    """Return how many events a desk holds of each CPU, by its number."""
    counts: NDArray[np.int64] = np.zeros(layout.CPUS, "i8")
    for cpu, count in desk.cpus().items():
        counts[cpu] = count
    return counts


def in_parts(pieces: Iterable[Piece], count: int) -> Iterator[bytes]:
    """Return a text in parts of so many lines; the last one may have fewer."""
    left = count
    parts: list[bytes] = []
    for piece in pieces:
        ends, start = np.flatnonzero(np.frombuffer(piece, "u1") == ord("\n")) + 1, 0
        while len(ends) >= left:
            cut = int(ends[left - 1])
            yield b"".join([*parts, bytes(piece[start:cut])])
            parts, ends, start, left = [], ends[left:], cut, count
        parts.append(bytes(piece[start:]))
        left -= len(ends)
    if any(parts):
        yield b"".join(parts)
