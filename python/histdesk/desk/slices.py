"""Recordings that can be read again, and slices of them."""

from __future__ import annotations

import bisect
from collections.abc import Iterator, Sequence
from typing import Any

import numpy as np

from .._public import public
from ..trace.lines import NONE, Lines, lines_in
from ..trace.losses import Hole, Losses
from ..trace.stream import Checkpoint
from ..trace.text import Text, is_long, text_again, whole_lines
from ..trace.time_range import Bounds, bounds_of, is_in_order, losses_near, losses_of_text
from ..trace.times import Stamp, Time
from . import selection
from .recording import Choice, Recording, choice_of, read_whole

# Later than all stamps.
LATE = 1 << 62


@public
class Source:
    """A recording that can be read again: a file, a buffer, or what was kept of a pipe. `Waits.source` is one.

    Timestamps are in microseconds; the lines of a CPU are those of the whole recording.

    Attributes
    ----------
    path
        The file's name; None if there is none.
    """

    def __init__(
        self,
        trace: Any,
        path: str | None = None,
        losses: Losses = Losses(),
        lenient: bool = False,
        checkpoints: Sequence[Checkpoint] = (),
    ) -> None:
        """Take a trace.

        Parameters
        ----------
        trace
            What `waits` takes, if it can be read again.
        path
            The name by which it is called.
        losses
            What is known about the events that it lacks.
        lenient
            Whether lines that can't be read are left out.
        checkpoints
            What was noted when it was read; without any, it is read for them.
        """
        self.path = path
        self._text = text_again(trace)
        self._losses, self._lenient = losses, lenient
        self._checkpoints = list(checkpoints)

    @property
    def losses(self) -> Losses:
        """What is known about the events that it lacks."""
        return self._losses

    def pieces(self) -> Iterator[Any]:
        """Go through its text in pieces.

        Returns
        -------
        Iterator
            The pieces, as objects with the buffer protocol. A piece may be used until the next one is asked for.

        Raises
        ------
        OSError, ValueError
            As `between`.
        """
        return self._text.pieces()

    def checkpoints(self) -> list[Checkpoint]:
        """Return what is known of its text at some bytes.

        Returns
        -------
        list of Checkpoint
            From the beginning of the text to its end.

        Raises
        ------
        OSError, ValueError
            As `between`.
        """
        return self._known()

    def between(self, start: Time, until: Time, lead: int = 0) -> Recording:
        """Return the events of a stretch of time.

        `Recording.line` and the like give the lines of the whole recording, and `losses` what was lost in all of it.

        Parameters
        ----------
        start, until
            From which timestamp on, and before which one, as `read` takes them.
        lead
            At least so many events before them come too, if there are so many; with the first of them come all that have its
            timestamp.

        Returns
        -------
        Recording
            The events. If they are more than a desk holds, `taken.rest` is where the next part begins.

        Raises
        ------
        OSError
            If the recording can't be read again.
        ValueError
            If its file has changed since it was read, or no trace has such a time.
        """
        choice = choice_of(self._text, start, until)
        return self.between_micros(choice.start or 0, choice.until or 0, lead)

    def between_micros(self, start: int, until: int, lead: int = 0) -> Recording:
        """Return the events of a stretch of time, as `between`, by timestamps in microseconds.

        Parameters
        ----------
        start, until
            From which timestamp on, and before which one, in microseconds.
        lead
            As for `between`.

        Returns
        -------
        Recording
            The events.
        """
        first, last = self._around(start, until, lead)
        part = Recording(self.path, None, self._losses)
        # The waits have reported what was lost.
        part.is_reported = part.is_of_source = True
        lines = self._read(part, first, last)
        if lead:
            start = start_with_lead(lines, start, lead)
            if start == first.last:
                # The checkpoint stands between events of that stamp.
                first, _ = self._around(start, start, 0)
                lines = self._read(part, first, last)
        part.choice = Choice(start, until)
        selection.take(part, part.choice, lines)
        known = part._lines
        if known is None:
            known = {cpu: selection.places(lines.cpus, lines.cpus != NONE, cpu) for cpu in cpus_of(lines)}
        part._lines = {cpu: first.events.get(cpu, 0) + places for cpu, places in known.items()}
        return part

    def _read(self, part: Recording, first: Checkpoint, last: Checkpoint) -> Lines:
        """Read what is between two checkpoints, and return what its lines are."""
        part._slice = Slice(self._text, Bounds(first.at, last.at), self._lenient)
        return part._slice.read_lines(part)

    def stamp_of(self, cpu: int, line: int) -> int | None:
        """Return the timestamp of an event.

        Parameters
        ----------
        cpu, line
            Its CPU, and its line there, from 1.

        Returns
        -------
        int or None
            The timestamp, in microseconds; None if there is no such event.
        """
        checkpoints = self._known()
        counts = [checkpoint.events.get(cpu, 0) for checkpoint in checkpoints]
        if not 1 <= line <= counts[-1]:
            return None
        at = bisect.bisect_left(counts, line)
        lines = lines_in(self._text.read(checkpoints[at - 1].at, checkpoints[at].at))
        return int(lines.stamps[np.flatnonzero(lines.cpus == cpu)[line - counts[at - 1] - 1]])

    def _around(self, start: int, until: int, lead: int) -> tuple[Checkpoint, Checkpoint]:
        """Return the checkpoints between which these events are. A text that isn't in the order of time is between them as a
        whole."""
        checkpoints = self._known()
        stamps = [checkpoint.last for checkpoint in checkpoints]
        if stamps != sorted(stamps):
            return checkpoints[0], checkpoints[-1]
        first = max(bisect.bisect_left(stamps, start) - 1, 0)
        last = min(bisect.bisect_left(stamps, max(until, start)), len(stamps) - 1)
        before = checkpoints[first].total
        while first > 0 and before - checkpoints[first].total < lead:
            first -= 1
        return checkpoints[first], checkpoints[last]

    def _known(self) -> list[Checkpoint]:
        """Return the checkpoints, with the text's beginning and its end."""
        if not self._checkpoints:
            self._checkpoints = list(checkpoints_of(self._text))
        return self._checkpoints


def cpus_of(lines: Lines) -> list[int]:
    """Return the CPUs that have events on some lines."""
    cpus: list[int] = np.unique(lines.cpus[lines.cpus != NONE]).tolist()
    return cpus


def start_with_lead(lines: Lines, start: int, lead: int) -> int:
    """Return the stamp from which on there are so many events before another stamp; that of the first one if they are fewer."""
    stamps = np.sort(lines.stamps[(lines.cpus != NONE) & (lines.stamps < start)])
    return int(stamps[-min(lead, len(stamps))]) if len(stamps) else start


def checkpoints_of(text: Text) -> Iterator[Checkpoint]:
    """Go through the checkpoints of a text, one for each piece of it. If it isn't in the order of time, their stamps aren't
    either."""
    events: dict[int, int] = {}
    at, last = 0, -1
    yield Checkpoint(at, last, dict(events))
    for piece in whole_lines(text.pieces()):
        lines = lines_in(piece)
        stamps = lines.stamps[lines.cpus != NONE]
        at += len(piece)
        for cpu in cpus_of(lines):
            events[cpu] = events.get(cpu, 0) + int((lines.cpus == cpu).sum())
        is_in_order = not len(stamps) or (last <= stamps[0] and (stamps[:-1] <= stamps[1:]).all())
        last = int(stamps[-1]) if len(stamps) else last
        # What isn't in order within a piece has a stamp that no other one follows.
        yield Checkpoint(at, last if is_in_order else LATE, dict(events))


# ---- slices that are read for a desk


class Slice:
    """A stretch of a text that can be read again."""

    def __init__(self, text: Text, bounds: Bounds, lenient: bool) -> None:
        self.whole, self.bounds, self.lenient = text, bounds, lenient
        self.is_whole = not bounds.at and bounds.end is None
        self.text = text if self.is_whole else text.between(bounds.at, bounds.end)

    def read_into(self, recording: Recording) -> None:
        """Read what is wanted of it, and no more than a desk holds."""
        if is_long(self.text) and is_in_order(self.text):
            is_read = selection.take_from(recording, recording.choice, lambda: self._pieces(recording))
            self._number(recording)
        else:
            is_read = False
        if not is_read:
            selection.take(recording, recording.choice, self.read_lines(recording))
        if recording.choice.is_all() and not recording._is_part:
            recording.taken = None

    def read_lines(self, recording: Recording) -> Lines:
        """Read all of it, and return what its lines are."""
        recording.text = b"".join(self._pieces(recording))
        self._number(recording)
        return lines_in(recording.text)

    def _pieces(self, recording: Recording) -> Iterator[bytes]:
        """Go through its lines in pieces, with empty ones in place of those that can't be read if these are left out."""
        recording.bad_lines = ()
        count = 0
        for piece in whole_lines(self.text.pieces()):
            if self.lenient:
                lines = lines_in(piece)
                bad = np.flatnonzero(lines.bad) + 1
                if len(bad):
                    piece = selection.only(piece, lines.ends, ~lines.bad)
                    recording.bad_lines = (*recording._bad_lines, *(count + bad).tolist())
                count += len(lines.ends)
            yield piece

    def _number(self, recording: Recording) -> None:
        """Number the lines that were left out as in the whole text."""
        if recording._bad_lines:
            before = self.lines_before()
            recording.bad_lines = tuple(before + line for line in recording._bad_lines)

    def lines_before(self) -> int:
        """Return how many lines come before it."""
        return sum(bytes(piece).count(b"\n") for piece in self.whole.pieces(0, self.bounds.at)) if self.bounds.at else 0

    def losses(self, choice: Choice, inside: Losses | None = None) -> Losses:
        """Return the losses that lines of it and near it report; `inside` is what its own lines report, if that is known."""
        if self.is_whole:
            return losses_of_text(self.text)
        return losses_near(self.whole, self.bounds, choice.start, choice.until, inside)

    def shown(self, losses: Losses) -> tuple[Hole, ...]:
        """Return the holes that events of it show, of what its stream says is missing. A CPU that begins late, or ends early,
        has one only if the text begins or ends there too."""
        holes = []
        for hole in losses.holes:
            is_cut = hole.after is None and self.bounds.at or hole.before is None and self.bounds.end is not None
            if hole.line is None and not is_cut:
                holes.append(hole)
        return tuple(holes)


def slice_of(text: Text, lenient: bool) -> Slice:
    """Return all of a text."""
    return Slice(text, Bounds(), lenient)


def find_stretch(path: str | None, text: Text, choice: Choice, lenient: bool) -> Recording:
    """Return what is wanted of a text. The stretch of time that is asked for is found by binary search, and not read yet."""
    bounds = bounds_of(text, choice.start, choice.until)
    if bounds is None:
        return read_whole(path, text.read(), choice, lenient)
    part = Recording(path, None, None)
    part.choice = choice
    part.lines_from = None if bounds.first is None else Stamp(bounds.first)
    part._slice = Slice(text, bounds, lenient)
    return part


def read_stretch(path: str | None, text: Text, choice: Choice, lenient: bool) -> Recording:
    """Return the same, read now unless it is long."""
    part = find_stretch(path, text, choice, lenient)
    if part._slice and not is_long(part._slice.text):
        part._read_all()
    return part
