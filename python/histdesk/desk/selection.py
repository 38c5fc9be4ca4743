"""Chooses events of a trace's text, line by line."""

from __future__ import annotations

from collections.abc import Callable, Collection, Iterator
from typing import TYPE_CHECKING

import numpy as np

from .. import _schema
from ..trace.lines import NONE, Lines, lines_in
from ..trace.times import Stamp
from .recording import LIMIT, Choice, Part, Recording

if TYPE_CHECKING:
    from numpy.typing import NDArray

    from ..native.memory import Buffer


def take(recording: Recording, choice: Choice, lines: Lines | None = None) -> None:
    """Keep the events that are wanted and fit into a desk, and note what was taken. `lines` is what `lines_in` returns of the
    text, if that is known already."""
    lines = lines or lines_in(recording.text)
    is_event = lines.cpus != NONE
    is_wanted = is_event & mask_of(lines, choice)
    rest: Stamp | None = None
    until = choice.until
    recording._is_part = bool(np.count_nonzero(is_wanted) > LIMIT)
    if choice.spare and recording._is_part:
        is_wanted &= ~mask_of_names(lines, choice.spare)
    if np.count_nonzero(is_wanted) > LIMIT:
        rest = until = first_left(lines.stamps[is_wanted])
        is_wanted &= lines.stamps < until
    is_kept = is_wanted | (~is_event & mask_near(lines, choice._replace(until=until)))
    recording.text = only(recording.text, lines.ends, is_kept)
    stamps = lines.stamps[is_wanted]
    first, last = (Stamp(stamps.min()), Stamp(stamps.max())) if len(stamps) else (None, None)
    recording.taken = Part(len(stamps), first, last, rest)
    if len(stamps) < np.count_nonzero(is_event):
        recording._lines = {int(cpu): places(lines.cpus, is_wanted, cpu) for cpu in np.unique(lines.cpus[is_wanted])}


def take_from(recording: Recording, choice: Choice, pieces: Callable[[], Iterator[bytes]]) -> bool:
    """Do the same with a long text in the order of time, of which no more lines are read than a desk holds. Return false, and
    take nothing, if these are in another order."""
    selection = collect(pieces(), choice, ())
    is_part = selection.is_full()
    if is_part and choice.spare:
        selection = collect(pieces(), choice, choice.spare)
    if not selection.is_in_order:
        return False
    recording.text = selection.text()
    if selection.is_full():
        take(recording, choice)
    else:
        recording.taken = selection.part()
    recording._is_part = is_part
    recording._lines = selection.lines(recording._lines)
    return True


class Selection:
    """Lines of a long text that are wanted, until they have more events than a desk holds."""

    def __init__(self, choice: Choice, left_out: Collection[str]) -> None:
        self._choice, self._left_out = choice, left_out
        self._pieces: list[bytes] = []
        self._count = 0
        self._first: Stamp | None = None
        self._last: Stamp | None = None
        # For each CPU: which of its lines the events are, and how many events it has.
        self._places: dict[int, list[NDArray[np.int64]]] = {}
        self._events: dict[int, int] = {}
        # Whether no event has been left out yet.
        self._is_all = True
        self.is_in_order = True
        self._latest = 0

    def add(self, piece: bytes) -> None:
        """Take the next lines."""
        lines = lines_in(piece)
        is_event = lines.cpus != NONE
        self._check_order(lines.stamps[is_event])
        is_wanted = is_event & mask_of(lines, self._choice) & ~mask_of_names(lines, self._left_out)
        for cpu in np.unique(lines.cpus[is_event]).tolist():
            before = self._events.get(cpu, 0)
            self._places.setdefault(cpu, []).append(before + places(lines.cpus, is_wanted, cpu))
            self._events[cpu] = before + int(np.count_nonzero(lines.cpus == cpu))
        stamps = lines.stamps[is_wanted]
        self._count += len(stamps)
        if len(stamps):
            self._first = Stamp(stamps[0]) if self._first is None else self._first
            self._last = Stamp(stamps[-1])
        self._is_all &= bool((is_wanted == is_event).all())
        is_kept = is_wanted | (~is_event & mask_near(lines, self._choice))
        self._pieces.append(piece if is_kept.all() else only(piece, lines.ends, is_kept))

    def _check_order(self, stamps: NDArray[np.int64]) -> None:
        """Note whether these stamps follow on those before."""
        if len(stamps):
            self.is_in_order &= bool(self._latest <= stamps[0] and (stamps[:-1] <= stamps[1:]).all())
            self._latest = int(stamps[-1])

    def is_full(self) -> bool:
        """Return whether they have more events than a desk holds."""
        return self._count > LIMIT

    def part(self) -> Part:
        """Return what was selected, if a desk holds it all."""
        return Part(self._count, self._first, self._last, None)

    def text(self) -> bytes:
        """Return the text of the selection, with empty lines in place of what was left out."""
        return b"".join(self._pieces)

    def lines(self, known: dict[int, NDArray[np.int64]] | None) -> dict[int, NDArray[np.int64]] | None:
        """Return for each CPU which of its lines in the long text the lines of the selection are; None stands for all."""
        if self._is_all:
            return known
        known_lines = {}
        for cpu, parts in self._places.items():
            of_cpu = np.concatenate(parts)
            known_lines[cpu] = of_cpu if known is None else of_cpu[known[cpu] - 1] if cpu in known else of_cpu[:0]
        return known_lines


def collect(pieces: Iterator[bytes], choice: Choice, left_out: Collection[str]) -> Selection:
    """Return the lines of a long text that are wanted, except events of some names."""
    selection = Selection(choice, left_out)
    for piece in pieces:
        selection.add(piece)
        if selection.is_full():
            break
    return selection


def mask_of(lines: Lines, choice: Choice) -> NDArray[np.bool_]:
    """Return which events are wanted, as a mask; what it says of lines without an event doesn't matter."""
    mask = mask_in_time(lines.stamps, choice)
    if choice.cpus is not None:
        mask &= np.isin(lines.cpus, list(choice.cpus))
    if choice.events is not None:
        mask &= mask_of_names(lines, choice.events)
    return mask


def mask_of_names(lines: Lines, events: Collection[str]) -> NDArray[np.bool_]:
    """Return which events have one of these names, as a mask."""
    unknown = set(events) - set(_schema.LINE_EVENTS)
    if unknown:
        raise ValueError(f"a trace has no event {', '.join(sorted(unknown))}")
    return np.isin(lines.names, [_schema.NUMBERS[name] for name in events])


def mask_in_time(stamps: NDArray[np.int64], choice: Choice) -> NDArray[np.bool_]:
    """Return which stamps are wanted."""
    mask = np.ones(len(stamps), bool)
    if choice.start is not None:
        mask &= stamps >= choice.start
    if choice.until is not None:
        mask &= stamps < choice.until
    return mask


def mask_near(lines: Lines, choice: Choice) -> NDArray[np.bool_]:
    """Return which lines stand in the stretch of time that is wanted; a line without an event goes with the event before it.
    A line that can't be read is refused only there."""
    at = np.where(lines.cpus != NONE, np.arange(len(lines.cpus)), -1)
    before = np.maximum.accumulate(at) if len(at) else at
    return (before < 0) | mask_in_time(lines.stamps[before], choice)


def first_left(stamps: NDArray[np.int64]) -> Stamp:
    """Return the least stamp of which not all events fit into a desk."""
    cut = Stamp(np.partition(stamps, LIMIT)[LIMIT])
    if cut == stamps.min():
        raise ValueError(f"more than {LIMIT} events have one stamp, which no desk holds")
    return cut


def only(text: Buffer, ends: NDArray[np.int64], is_kept: NDArray[np.bool_]) -> bytes:
    """Return the text with empty lines in place of those that aren't kept."""
    if not len(ends):
        return b""
    # Where lines that are kept follow on lines that aren't, and the other way round.
    turns = [0, *(np.flatnonzero(is_kept[1:] != is_kept[:-1]) + 1).tolist(), len(ends)]
    starts = np.concatenate([[0], ends])[turns].tolist()
    keeps, pieces, view = bool(is_kept[0]), [], memoryview(text)
    for turn, start, next_turn, next_start in zip(turns, starts, turns[1:], starts[1:]):
        pieces.append(view[start:next_start] if keeps else b"\n" * (next_turn - turn))
        keeps = not keeps
    return b"".join(pieces)


def places(cpus: NDArray[np.int64], is_wanted: NDArray[np.bool_], cpu: int | None) -> NDArray[np.int64]:
    """Return the lines of a CPU in the whole text that are wanted, from 1."""
    return np.flatnonzero(is_wanted[cpus == cpu]) + 1
