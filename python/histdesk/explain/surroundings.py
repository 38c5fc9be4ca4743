"""The events around a wait, of a recording of any length."""

from __future__ import annotations

import bisect
from collections.abc import Callable, Iterable, Iterator, Sequence
from typing import TYPE_CHECKING, Any, NamedTuple, TypeVar

import numpy as np

from .._schema import SWITCH, WAKEUP, WAKEUP_NEW, WAKING
from ..desk.events import Events
from ..desk.recording import LIMIT, Recording
from ..desk.slices import Source
from ..native.arrays import EVENT_TYPE
from ..trace.losses import seconds
from ..trace.places import Place
from ..trace.stream import Checkpoint
from .scene import FOREVER, NEVER, Bounds, Contexts, Scene, FoundWait, context_of, lines_with
from .stretches import Wakings

if TYPE_CHECKING:
    from numpy.typing import NDArray

    from ..desk.values import Event
    from ..native.memory import Buffer

Result = TypeVar("Result")

# The events that say which task runs or waits.
ACTS = (WAKING, WAKEUP, WAKEUP_NEW, SWITCH)
# How many events before a wait are read at first, and how many microseconds after it if they are wanted; and how many times
# more are read each time.
LEAD, WIDTH, GROWTH = 2048, 1000, 8
# About how many events are read at once.
PART = 1 << 18
# About how many events waits have together that are explained together, and how many events may be between two of them.
GROUP, GAP = 1 << 19, 1 << 16
# For how many more there is room at both ends of those that are kept.
SPARE = 1 << 10


class ScenePiece(NamedTuple):
    """Events in merged order, and their lines in the whole recording."""

    events: Events
    lines: NDArray[np.integer[Any]]

    def only(self, mask: NDArray[np.bool_]) -> ScenePiece:
        """Return those on which a mask holds."""
        return ScenePiece(Events(self.events.array[mask].view("u1", np.ndarray)), self.lines[mask])


def gather(
    source: Source,
    wait: FoundWait,
    answer: Callable[[Scene], Result],
    margin: int = 0,
    look: Callable[[Scene], None] | None = None,
) -> Result:
    """Return what can be answered from the events around a wait of a recording: those of its time, and those before and after
    that are wanted.

    If they are more than a desk holds, they are only those of the wait's CPUs and of its task; with `look`, which is for a wait
    that is explained by itself, they are only those as soon as they are many.

    Parameters
    ----------
    source
        The recording.
    wait
        The wait.
    answer
        Makes the answer from events. It is called with ever more of them, until it wants no others.
    margin
        How many microseconds before and after the wait are read too.
    look
        Only finds out which events `answer` will want.

    Raises
    ------
    ValueError, OSError
        What `Source.between` raises.
    """
    around = Around(source, wait, margin, look is not None)
    around.read()
    while True:
        scene = around.settled(look) if look else around.scene()
        found = answer(scene)
        if not around.reads_more(scene):
            return found
        # There is no room for two of them.
        del scene


def shared_scene(source: Source, waits: Sequence[FoundWait], look: Callable[[Scene], None]) -> Scene:
    """Return the events around waits that are near each other, which begin in this order: one scene for all of them.

    Parameters
    ----------
    source
        The recording.
    waits
        The waits; a desk holds their events.
    look
        Finds out which events are wanted.

    Raises
    ------
    ValueError, OSError
        What `Source.between` raises.
    """
    last = max(wait.end or wait.begin for wait in waits)
    around = Around(source, FoundWait("", 0, waits[0].begin, last), 0, is_alone=False, contexts=contexts_in(source))
    around.read()
    return around.settled(look)


def groups_of(source: Source, waits: Sequence[FoundWait]) -> Iterator[list[int]]:
    """Go through waits in groups of those that are near each other, as indices in the order in which they begin. A group has
    about `GROUP` events at most, unless it is a single wait."""
    stamps = [checkpoint.last for checkpoint in known(source)]
    totals = [checkpoint.total for checkpoint in known(source)]

    def before(stamp: int) -> int:
        return totals[min(bisect.bisect_left(stamps, stamp), len(totals) - 1)]

    group: list[int] = []
    first = last = 0
    for at in sorted(range(len(waits)), key=lambda at: waits[at].begin):
        begin, end = before(waits[at].begin.stamp), before((waits[at].end or waits[at].begin).stamp)
        if group and (begin - last > GAP or max(last, end) - first > GROUP):
            yield group
            group = []
        if not group:
            first = last = begin
        group.append(at)
        last = max(last, end)
    if group:
        yield group


def acts_of(source: Source, pid: int, start: int, until: int) -> Scene:
    """Return the events that say of a task when it ran or waited, with stamps from `start` on and below `until`."""
    pieces = map(piece_of, parts_of(source, start, until))
    return Scene(*join([piece.only(is_act_of(piece.events.array, pid)) for piece in pieces]), source._losses.holes)


def acts_in(pieces: Iterable[ScenePiece], pid: int) -> Scene:
    """Return the events about a task among those of pieces."""
    return Scene(*join([piece.only(is_about(piece.events.array, pid)) for piece in pieces]))


def is_about(array: np.recarray[Any, Any], pid: int) -> NDArray[np.bool_]:
    """Return which events are about a task, as a mask."""
    mask: NDArray[np.bool_] = (array["pid"] == pid) | (array["prev_pid"] == pid)
    return mask


def is_act_of(array: np.recarray[Any, Any], pid: int) -> NDArray[np.bool_]:
    """Return which events say of a task when it ran or waited, as a mask: those about it, and those of the scheduler that stand
    on a line of it."""
    own: NDArray[np.bool_] = (array["common_pid"] == pid) & np.isin(array["name"], ACTS)
    mask: NDArray[np.bool_] = is_about(array, pid) | own
    return mask


class Around:
    """The events around a wait: those of a stretch of time, and those of some moments before and after it."""

    def __init__(self, source: Source, wait: FoundWait, margin: int, is_alone: bool, contexts: Contexts | None = None) -> None:
        """Take a wait, and how many microseconds on both sides of it are read too. If it is explained by itself (`is_alone`),
        the events are for nothing else. If it stands for several waits, `contexts` finds the contexts of their events, and no
        event is left out."""
        self._source, self._wait, self._is_alone = source, wait, is_alone
        self._start = wait.begin.stamp - margin
        self._until = (wait.end.stamp if wait.end else last_stamp_of(source)) + margin + 1
        self._pieces: list[ScenePiece] = []
        # The moments by their stamps; the CPUs of which they have the last events before, and those of which the first ones
        # after.
        self._moments: dict[int, ScenePiece] = {}
        self._before: set[int] = set()
        self._after: set[int] = set()
        self._text: Buffer | Contexts | None = contexts
        # With more events than this, only those are kept that the wait needs.
        self._room = FOREVER if contexts else PART if is_alone else LIMIT
        self._long: Long | None = None
        # What was read, in one array, once that is asked for.
        self._store: Store | None = None
        self._lead, self._width = LEAD, WIDTH

    def scene(self) -> Scene:
        """Return what was read."""
        moments = sorted(self._moments.items())
        before = [piece for stamp, piece in moments if stamp < self._start]
        after = [piece for stamp, piece in moments if stamp >= self._until]
        wakings, only = (self._long.wakings(), self._long.known_cpus()) if self._long else (None, None)
        bounds = Bounds(self._start, self._until, frozenset(self._before), frozenset(self._after), only)
        if self._store is None:
            self._store = Store(self._pieces)
        return Scene(*self._store.between(before, after), self._source._losses.holes, self._text, wakings, bounds)

    def settled(self, look: Callable[[Scene], None]) -> Scene:
        """Return what was read, after reading all that `look` wants."""
        while True:
            scene = self.scene()
            look(scene)
            if not self.reads_more(scene):
                return scene
            # There is no room for two of them.
            del scene

    def read(self) -> None:
        """Read the wait's own time, and some events before it."""
        count, begin = 0, self._wait.begin.stamp
        for recording in parts_of(self._source, self._start, self._until, self._lead):
            piece = piece_of(recording)
            stamps = piece.events.array.stamp
            if not count and len(stamps):
                self._start = int(stamps[0])
            # The lines of the moment at which the wait begins have its flags.
            if self._text is None and (stamps[-1:] >= begin).any():
                self._text = lines_at(recording.text, begin) if self._is_alone else recording.text
            # Another text is read next.
            del recording
            count += len(stamps)
            self._pieces.append(self._long.keep(piece) if self._long else piece)
            if self._long is None and count > self._room:
                self._leave_out(count)

    def _leave_out(self, count: int) -> None:
        """Keep only what a long wait needs of so many events that were read, or all of them if a desk holds so many and it
        isn't known yet where the task was queued."""
        long = Long(self._wait, acts_in(self._pieces, self._wait.pid))
        if count > LIMIT or long.is_known:
            self._long = long
            for at, piece in enumerate(self._pieces):
                self._pieces[at] = long.keep(piece)

    def reads_more(self, scene: Scene) -> bool:
        """Read more if something was wanted that isn't there, and return whether that was so."""
        if scene.wants.turn_after and self._until <= last_stamp_of(self._source):
            self._read_after()
        elif scene.wants.turn_before and self._start > NEVER:
            self._read_before()
        else:
            return self._reads_moments(scene)
        for stamp in [stamp for stamp in self._moments if self._start <= stamp < self._until]:
            del self._moments[stamp]
        return True

    def _read_before(self) -> None:
        """Read events before the stretch of time."""
        lead, self._lead = self._lead, min(self._lead * GROWTH, PART)
        piece = piece_of(self._source.between_micros(self._start, self._start, lead))
        self._store = Store([piece, *self._stored()])
        self._start = int(piece.events.array.stamp[0]) if len(piece.lines) >= lead else NEVER

    def _read_after(self) -> None:
        """Read events after it."""
        start, self._until, self._width = self._until, self._until + self._width, self._width * GROWTH
        self._store = Store([*self._stored(), *map(piece_of, parts_of(self._source, start, self._until))])

    def _stored(self) -> list[ScenePiece]:
        """Return what was read until now, and keep it no longer."""
        store, self._store = self._store, None
        return [store.between([], [])] if store else []

    def _reads_moments(self, scene: Scene) -> bool:
        """Read the last events before it, and the first ones after it, of CPUs of which they are wanted. Return whether there
        are such CPUs."""
        stamps = {stamp_before(self._source, cpu, self._start) for cpu in scene.wants.before}
        stamps |= {stamp_after(self._source, cpu, self._until) for cpu in scene.wants.after}
        self._before |= scene.wants.before
        self._after |= scene.wants.after
        new = {stamp for stamp in stamps if stamp is not None} - set(self._moments)
        for stamp in new:
            self._moments[stamp] = piece_of(self._source.between_micros(stamp, stamp + 1))
        return bool(scene.wants.before or scene.wants.after)


class Store:
    """Events in merged order, and their lines, in one array that has room for more of them at both ends."""

    def __init__(self, pieces: list[ScenePiece]) -> None:
        """Take the events of pieces, which aren't kept: the list is empty afterwards."""
        count = sum(len(piece.lines) for piece in pieces)
        self._lines = join_lines(pieces)
        self._room = np.empty(count + 2 * SPARE, EVENT_TYPE)
        self._low, self._high = SPARE, SPARE + count
        at = self._high
        while pieces:
            # What was allocated last is given back first.
            at -= len(pieces[-1].lines)
            self._put(at, pieces.pop())

    def _put(self, at: int, piece: ScenePiece) -> int:
        """Put events into the room, and return where it goes on behind them."""
        self._room[at : at + len(piece.lines)] = piece.events.array
        return at + len(piece.lines)

    def between(self, before: list[ScenePiece], after: list[ScenePiece]) -> ScenePiece:
        """Return all of them between some more. What an earlier call returned changes if it had others before or after."""
        low, high = self._low - len(join_lines(before)), self._high + len(join_lines(after))
        if low < 0 or high > len(self._room):
            return join([*before, self.between([], []), *after])
        for at, pieces in ((low, before), (self._high, after)):
            for piece in pieces:
                at = self._put(at, piece)
        lines = np.concatenate([join_lines(before), self._lines, join_lines(after)])
        return ScenePiece(Events(self._room[low:high].view("u1")), lines)


class Long:
    """What is kept of a wait that has many events, such as more than a desk holds: those of its CPUs and of its task, and who
    was woken meanwhile."""

    def __init__(self, wait: FoundWait, scene: Scene) -> None:
        """Take a wait, and the first events about its task: if it begins among them, they may show where it was queued."""
        self._wait, self._count = wait, 0
        cpus = {wait.begin.cpu, *([wait.end.cpu] if wait.end else [])}
        # Whether these are all of its CPUs, and it doesn't last to the end of the recording.
        self.is_known = False
        begin = scene.at(wait.begin.cpu, wait.begin.line)
        if begin is not None:
            steps = scene.steps_from(wait, begin, len(scene.events))
            cpus |= {steps.cpu} if steps.queue_cpu is None else {steps.cpu, steps.queue_cpu}
            self.is_known = wait.end is not None and steps.queue_cpu is not None
        self._cpus = frozenset(cpus)
        self._woken: list[Wakings] = []

    def keep(self, piece: ScenePiece) -> ScenePiece:
        """Return those of some events that are kept."""
        array = piece.events.array
        woken = (array.name == WAKING) | (array.name == WAKEUP_NEW)
        woken &= is_after(array, piece.lines, self._wait.begin)
        if self._wait.end:
            woken &= ~is_after(array, piece.lines, self._wait.end)
        self._woken.append(Wakings(array.pid[woken], array.stamp[woken]))
        mask = is_about(array, self._wait.pid)
        if self._count <= LIMIT:
            mask |= np.isin(array.cpu, list(self._cpus))
        self._count += int(mask.sum())
        return piece.only(mask)

    def known_cpus(self) -> frozenset[int]:
        """Return the CPUs of which all events are kept."""
        return self._cpus if self._count <= LIMIT else frozenset()

    def wakings(self) -> Wakings:
        """Return who was woken."""
        return Wakings._make(map(np.concatenate, zip(*self._woken)))


def is_after(array: np.recarray[Any, Any], lines: NDArray[np.integer[Any]], place: Place) -> NDArray[np.bool_]:
    """Return which events come after a place, as a mask."""
    mask: NDArray[np.bool_] = lines > place.line
    for column, value in ((array["cpu"], place.cpu), (array["stamp"], place.stamp)):
        mask = (column > value) | (column == value) & mask
    return mask


def contexts_in(source: Source) -> Contexts:
    """Return what finds the contexts of a recording's wakings, by the flags of their lines."""
    # The part of its text that was read last, by its ends, and where the last event was found in it: wakings are often near the
    # one before, and asked for in the order of time, in which the text is.
    ends: tuple[int, int] | None = None
    text, found, latest = b"", 0, NEVER

    def context(event: Event) -> str | None:
        nonlocal ends, text, found, latest
        first, last = source._around(event.stamp, event.stamp + 1, 0)
        if ends != (first.at, last.at):
            ends, text, latest = (first.at, last.at), source._text.read(first.at, last.at), NEVER
        sign = f"{seconds(event.stamp)}:".encode()
        found = max(text.find(sign, found if latest <= event.stamp and latest != NEVER else 0), 0)
        latest = event.stamp
        return context_of(event, lines_with(text, sign, found))

    return context


def lines_at(text: Buffer, stamp: int) -> bytes:
    """Return the lines of a text that have a stamp."""
    return b"\n".join(lines_with(text, f"{seconds(stamp)}:".encode()))


# ---- from a source


def piece_of(recording: Recording) -> ScenePiece:
    """Return the events of what was read of a recording."""
    with recording.desk() as desk:
        events = desk.events()
    return ScenePiece(events, recording.lines(events.array.cpu, events.array.line.copy()))


def join(pieces: list[ScenePiece]) -> ScenePiece:
    """Return the events of pieces, which are in order."""
    return ScenePiece(Events(b"".join(piece.events.array.data for piece in pieces)), join_lines(pieces))


def join_lines(pieces: list[ScenePiece]) -> NDArray[np.uint32]:
    """Return the lines of pieces."""
    lines: NDArray[np.uint32] = np.concatenate([np.zeros(0, "u4"), *(piece.lines for piece in pieces)])
    return lines


def parts_of(source: Source, start: int, until: int, lead: int = 0) -> Iterator[Recording]:
    """Go through the events with stamps from `start` on and below `until`, in parts that a desk holds; `lead`, as for
    `Source.between`, is for the first of them."""
    while start < until:
        end = cut_of(source, start, until)
        recording = source.between_micros(start, end, lead)
        rest = recording.taken.rest if recording.taken else None
        yield recording
        # There is no room for two texts.
        del recording
        start, lead = end if rest is None else rest, 0


def cut_of(source: Source, start: int, until: int) -> int:
    """Return the end of a part of a stretch of time, which begins at a stamp."""
    checkpoints = known(source)
    stamps = [checkpoint.last for checkpoint in checkpoints]
    first = checkpoints[max(bisect.bisect_left(stamps, start) - 1, 0)].total
    last = bisect.bisect_right([checkpoint.total - first for checkpoint in checkpoints], PART) - 1
    # At least up to the next checkpoint whose stamp is another one.
    last = max(last, bisect.bisect_right(stamps, start))
    return until if last >= len(stamps) - 1 else min(stamps[last], until)


def last_stamp_of(source: Source) -> int:
    """Return the last stamp of a recording; -1 if it has no events."""
    return known(source)[-1].last


def stamp_before(source: Source, cpu: int, stamp: int) -> int | None:
    """Return the stamp of the last event of a CPU before a stamp; None if there is none."""
    before = known(source)[bisect.bisect_left([checkpoint.last for checkpoint in known(source)], stamp) - 1]
    stamps = stamps_of(source.between_micros(max(before.last, 0), stamp), cpu)
    return int(stamps[-1]) if len(stamps) else source.stamp_of(cpu, before.events.get(cpu, 0))


def stamp_after(source: Source, cpu: int, stamp: int) -> int | None:
    """Return the stamp of the first event of a CPU from a stamp on; None if there is none."""
    for after in known(source)[bisect.bisect_left([checkpoint.last for checkpoint in known(source)], stamp) :][:1]:
        stamps = stamps_of(source.between_micros(stamp, after.last + 1), cpu)
        return int(stamps[0]) if len(stamps) else source.stamp_of(cpu, after.events.get(cpu, 0) + 1)
    return None


def stamps_of(recording: Recording, cpu: int) -> NDArray[np.uint64]:
    """Return the stamps of a CPU's events, in order."""
    array = piece_of(recording).events.array
    stamps: NDArray[np.uint64] = array.stamp[array.cpu == cpu]
    return stamps


def known(source: Source) -> list[Checkpoint]:
    """Return the checkpoints of a recording, in order."""
    return source.checkpoints()
