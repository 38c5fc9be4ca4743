"""A trace's text, or a part of it, before it is loaded: what it reports about losses, and which events are chosen."""

from __future__ import annotations

import operator
import os
import warnings
from collections.abc import Collection, Iterable, Sequence
from typing import TYPE_CHECKING, Any, NamedTuple, cast

from .._public import public
from ..show.tables import count_of
from ..trace.kind import check_kind
from ..trace.lines import bad_lines
from ..trace.losses import Hole, Losses, LossWarning, losses_of, seconds
from ..trace.source import lines_of, searchable
from ..trace.text import BufferText, Text, is_long, text_again
from ..trace.times import Stamp, Time, is_plain, micros_of

if TYPE_CHECKING:
    import numpy as np
    from numpy.typing import NDArray

    from ..native.memory import Buffer
    from ..trace.source import Trace
    from .desk import Desk
    from .slices import Slice

# How many events a desk holds at most.
LIMIT = 1_048_576


@public
class Part(NamedTuple):
    """What was taken of a trace.

    Attributes
    ----------
    events
        How many events.
    first, last
        The least and the greatest timestamp among them, in microseconds; None if there are no events.
    rest
        The timestamp at which the next part begins, to pass to `read` as `start`; None if nothing is left.
    """

    events: int
    first: Stamp | None
    last: Stamp | None
    rest: Stamp | None


class Choice(NamedTuple):
    """Which events of a trace are wanted.

    Attributes
    ----------
    start, until
        From which timestamp on, and below which one, in microseconds; None for no bound.
    cpus, events
        The CPUs, and the names; None for all.
    spare
        The names of events that are left out first if all together are more than a desk holds.
    """

    start: int | None = None
    until: int | None = None
    cpus: Collection[int] | None = None
    events: Collection[str] | None = None
    spare: Collection[str] = ()

    def is_all(self) -> bool:
        """Return whether every event is wanted."""
        return self._replace(spare=()) == Choice()

    def is_in_time(self) -> bool:
        """Return whether a stretch of time is wanted."""
        return self.start is not None or self.until is not None


@public
class Recording:
    """The text of a trace or of a part of it; `read` makes it. `Desk.load` takes it, and so does whatever takes a trace.

    A long file is read when `text`, `bad_lines` or `taken` is first asked for, and looked through when `losses` is. What goes
    wrong then is raised there.

    Parameters
    ----------
    path
        The file's name, or None.
    text
        What a desk loads; None if it is still to be read from a slice of another text.
    losses
        What the text reports about lost events; None if that is still to be read.
    bad_lines
        The numbers, from 1, of the lines that were left out since they can't be read.

    Attributes
    ----------
    path
        The file's name, or None.
    choice
        Which events were asked for: `start`, `until`, `cpus`, `events`, each None if all were.
    lines_from
        The stamp from which on the lines of each CPU are counted, in microseconds; None if that is from the trace's beginning.
    """

    def __init__(self, path: str | None, text: Buffer | None, losses: Losses | None, bad_lines: tuple[int, ...] = ()) -> None:
        self.path = path
        self.choice = Choice()
        self.lines_from: Stamp | None = None
        self._text, self._losses, self._bad_lines = text, losses, bad_lines
        self._taken: Part | None = None
        # For each CPU: which lines of the whole text a desk's lines are, if some were left out.
        self._lines: dict[int, NDArray[np.int64]] | None = None
        # Whether the events that were asked for are more than a desk holds.
        self._is_part = False
        # Whether what was lost was reported already.
        self.is_reported = False
        # Whether it is of a source, whose losses also have what the events of the whole text show.
        self.is_of_source = False
        # The slice of a text that it is, if it is one.
        self._slice: Slice | None = None

    def _read(self) -> Recording:
        """Read it, unless it was read, and return it."""
        if self._text is None and self._slice:
            self._slice.read_into(self)
        return self

    def _read_all(self) -> Losses:
        """Read it, and return what its text reports about lost events."""
        return self._read().losses

    @property
    def is_read(self) -> bool:
        """Whether its text is in memory already."""
        return self._text is not None

    @property
    def text(self) -> Buffer:
        """What a desk loads: a line that was left out is an empty one, so that lines keep their numbers."""
        text = self._read()._text
        assert text is not None
        return text

    @text.setter
    def text(self, text: Buffer) -> None:
        self._text = text

    @property
    def bad_lines(self) -> tuple[int, ...]:
        """The numbers, from 1, of the lines that were left out since they can't be read."""
        return self._read()._bad_lines

    @bad_lines.setter
    def bad_lines(self, lines: tuple[int, ...]) -> None:
        self._bad_lines = lines

    @property
    def taken(self) -> Part | None:
        """What was taken, if that is less than the whole, or may be."""
        return self._read()._taken

    @taken.setter
    def taken(self, part: Part | None) -> None:
        self._taken = part

    @property
    def losses(self) -> Losses:
        """What the text reports about lost events."""
        if self._losses is None:
            self._losses = self._slice.losses(self.choice) if self._slice else Losses()
        return self._losses

    @losses.setter
    def losses(self, losses: Losses) -> None:
        self._losses = losses

    @property
    def holes(self) -> tuple[Hole, ...]:
        """Where events were lost."""
        return self.losses.holes

    @property
    def warning(self) -> str | None:
        """What lines report lost, in one line; None if they report nothing."""
        return self.losses.warning

    @property
    def is_whole(self) -> bool:
        """Whether a desk that holds it has all events of the trace, at the lines of the trace."""
        return self.choice.is_all() and not self.is_part

    @property
    def is_part(self) -> bool:
        """Whether the trace has more of the events that were asked for than a desk holds, so that some were left out."""
        return self._read()._is_part

    def desk(self) -> Desk:
        """Return a new desk that holds it.

        Returns
        -------
        Desk
            The desk, which the caller closes.

        Raises
        ------
        Refused
            3 if a line can't be read, with its number in the whole text; 7 if there is no room.
        """
        from .desk import Desk

        if self.warning and not self.is_reported:
            warnings.warn(self.warning, LossWarning, stacklevel=2)
        self.is_reported = True
        desk = Desk()
        desk.load(self)
        return desk

    @property
    def size(self) -> int:
        """How many bytes of text its slice has; 0 if that isn't known, or if it is no slice."""
        return self._slice.text.size or 0 if self._slice else 0

    def lines_before(self) -> int:
        """Return how many lines of the whole text stand before `text`.

        Returns
        -------
        int
            The number of lines; 0 unless it is a slice of a text.
        """
        return self._slice.lines_before() if self._slice else 0

    def line(self, cpu: int, line: int) -> int:
        """Return the line of a CPU in the whole text for a line of the desk that holds this.

        Parameters
        ----------
        cpu
            The CPU, from 0.
        line
            The line of that CPU on the desk, from 1.

        Returns
        -------
        int
            Its line in the whole text, from 1; in a slice of a file, lines are counted from `lines_from` on.

        Raises
        ------
        IndexError
            If the desk has no such line.
        """
        whole_lines = self._read()._lines
        if whole_lines is None:
            return line
        if line < 1:
            raise IndexError(line)
        return int(whole_lines.get(cpu, ())[line - 1])

    def lines(self, cpus: NDArray[np.integer[Any]], lines: NDArray[np.integer[Any]]) -> NDArray[np.integer[Any]]:
        """Return the lines of CPUs in the whole text for lines of the desk that holds this; see `line`.

        Parameters
        ----------
        cpus
            The CPU of each event.
        lines
            The line of each event on the desk, an array of the same shape.

        Returns
        -------
        numpy.ndarray
            The line of each event in the whole text, an array of the same shape.
        """
        whole_lines = self._read()._lines
        if whole_lines is None:
            return lines
        own = lines.copy()
        for cpu, whole in whole_lines.items():
            of_cpu = cpus == cpu
            own[of_cpu] = whole[lines[of_cpu] - 1]
        return own

    def desk_line(self, cpu: int, line: int) -> int | None:
        """Return the line of the desk that holds this for a line of a CPU in the whole text.

        Parameters
        ----------
        cpu
            The CPU, from 0.
        line
            The line of that CPU in the whole text, from 1.

        Returns
        -------
        int or None
            The desk's line, from 1; None if that event was left out.
        """
        whole_lines = self._read()._lines
        if whole_lines is None:
            return line
        whole = whole_lines.get(cpu)
        if whole is None:
            return None
        at = int(whole.searchsorted(line))
        return at + 1 if at < len(whole) and whole[at] == line else None

    def __repr__(self) -> str:
        parts = [f"histdesk.Recording of {self.path or 'a text'}"]
        if self._text is None:
            return f"<{parts[0]}; not read yet>"
        if self.taken:
            parts.append(f"{count_of(self.taken.events, 'event')} taken" + stretch_text(self.taken))
        if self.bad_lines:
            parts.append(f"{count_of(len(self.bad_lines), 'line')} left out that can't be read")
        return "<" + "; ".join([*parts, *filter(None, [self.warning])]) + ">"


def path_of(trace: object) -> str | None:
    """Return the file that a trace is read from, or None if it is no file's name."""
    if isinstance(trace, Recording):
        return trace.path
    return os.fsdecode(trace) if isinstance(trace, (str, os.PathLike)) else None


def stretch_text(part: Part) -> str:
    """Return from when to when a part goes, and where the next one begins."""
    if part.first is None or part.last is None:
        return ""
    ends = f", {seconds(part.first)} to {seconds(part.last)}"
    return ends if part.rest is None else f"{ends}; the next part begins at {seconds(part.rest)}"


@public
def read(
    trace: Trace | Recording,
    *,
    start: Time | None = None,
    until: Time | None = None,
    cpus: int | Collection[int] | None = None,
    events: str | Collection[str] | None = None,
    lenient: bool = False,
    spare: Collection[str] = (),
) -> Recording:
    """Read a trace's text, or a part of it, for a desk.

    A stretch of time is found by binary search, so that its cost depends only on its own length. The events before it aren't
    counted: the lines of each CPU begin with 1 at the first event from `start` on, and `losses` is what lines of the stretch
    and near it report. Only a text that isn't in time order is read completely. A file of more than 64 MB (8 MB if it is
    packed) is read when something of the answer is used, so that `waits` of it needs no room for its text; in that case `waits`
    and `many` warn of lost events.

    Parameters
    ----------
    trace
        What `Desk.load` takes; a `Recording` is passed on.
    start, until
        From which timestamp on, and before which one. A number or a text is in seconds, as in the trace and for the tools:
        `2217.6`, `"2217.600000"`, `Decimal("2217.6")`, `2218`. A `timedelta` of the standard library, of numpy or of pandas
        counts from the clock's zero. Timestamps in answers, such as `taken.rest`, are a `Stamp`, which is taken as it is.
    cpus
        Only events of these CPUs, or of one.
    events
        Only events of these names, or of one; `other` is for all except `sched_waking`, `sched_wakeup`, `sched_wakeup_new` and
        `sched_switch`.
    lenient
        Whether lines that can't be read are left out; `bad_lines` has their numbers.
    spare
        The names of events that are left out first if all together are more than a desk holds. If that isn't enough, the first
        stretch that fits is taken, and `taken.rest` is the `start` of the next one.

    Returns
    -------
    Recording
        The text, and what was taken of it: what `Desk.load` takes.

    Warns
    -----
    LossWarning
        If lines report that events were lost.

    Raises
    ------
    OSError
        If the trace can't be read.
    ValueError
        If no trace has such a timestamp, or a whole number can only be microseconds of this trace; if more events than a desk
        holds have one timestamp; or if it is a recording of perf or trace-cmd, with the tool that converts it.
    TypeError
        If it is no trace, a timestamp is none of these, or a CPU is no number.
    """
    if isinstance(trace, Recording):
        return trace
    path, text = path_of(trace), text_again(trace)
    check_kind(text, path)
    recording = read_text(path, text, choice_of(text, start, until, cpus, events, spare), lenient)
    if recording._losses is not None:
        recording.is_reported = True
        if recording.warning:
            warnings.warn(recording.warning, LossWarning, stacklevel=2)
    return recording


def cpu_numbers(cpus: int | Collection[int] | None) -> list[int] | None:
    """Return CPUs that were asked for, as a list; None for all. Raises `TypeError` if one is no number."""
    if cpus is None:
        return None
    is_one = isinstance(cpus, bytes) or not isinstance(cpus, Iterable)
    numbers: Iterable[Any] = [cpus] if is_one else cast("Collection[int]", cpus)
    return [operator.index(cpu) for cpu in numbers]


def choice_of(
    text: Text,
    start: Time | None = None,
    until: Time | None = None,
    cpus: int | Collection[int] | None = None,
    events: str | Collection[str] | None = None,
    spare: Collection[str] = (),
) -> Choice:
    """Return which events of a text are wanted, by the parameters of `read`, which also says what is raised."""
    times = {"start": start, "until": until}
    micros = {name: micros_of(time, name) for name, time in times.items()}
    plain = {name: int(cast(int, time)) for name, time in times.items() if is_plain(time)}
    if plain:
        from ..trace.time_range import check_seconds

        check_seconds(text, plain)
    names = None if events is None else [events] if isinstance(events, str) else list(events)
    return Choice(micros["start"], micros["until"], cpu_numbers(cpus), names, spare)


def read_text(path: str | None, text: Text, choice: Choice, lenient: bool) -> Recording:
    """Return what is wanted of a text, with that path as its name. It is read now unless it is long."""
    if not choice.is_in_time() and not is_long(text):
        return read_whole(path, text.content(), choice, lenient)
    from .slices import read_stretch

    return read_stretch(path, text, choice, lenient)


def read_whole(path: str | None, content: Buffer, choice: Choice, lenient: bool) -> Recording:
    """Return what is wanted of a text that is in memory, and what the whole of it reports about lost events."""
    text = searchable(content)
    recording = Recording(path, text, losses_of(text))
    recording.choice = choice
    if lenient:
        leave_out_bad_lines(recording)
    if not choice.is_all() or lines_of(text) > LIMIT:
        from . import selection

        selection.take(recording, choice)
    if not choice.is_in_time():
        from .slices import slice_of

        recording._slice = slice_of(BufferText(text), lenient)
    return recording


def counted_from(stamp: int) -> str:
    """Return what has to be known of the lines of a slice."""
    return f"lines are counted from {seconds(stamp)} on"


def leave_out_bad_lines(recording: Recording) -> None:
    """Replace the lines that can't be read by empty ones."""
    leave_out(recording, bad_lines(searchable(recording.text)))


def leave_out(recording: Recording, bad: Sequence[int]) -> None:
    """Replace the lines with these numbers by empty ones."""
    if bad:
        lines: list[bytes] = bytes(recording.text).split(b"\n")
        for number in bad:
            lines[number - 1] = b""
        recording.text = b"\n".join(lines)
        recording.bad_lines = tuple(bad)
