"""Where a stretch of time stands in a text, by binary search."""

from __future__ import annotations

import itertools
from collections.abc import Callable, Iterator, Sequence
from typing import NamedTuple

import numpy as np

from .lines import NONE, Lines, lines_in
from .losses import HEADER_ROOM, SIGNS, Losses, has_signs, losses_of
from .stream import Backwards, losses_of_pieces
from .text import Piece, Text, whole_lines
from .times import Stamp

# In how many places a text is looked at before it is taken to be in the order of time, and how many bytes are read in each.
PLACES, ROOM = 64, 1 << 13
# How many bytes before and after a stretch of time are searched for lines that report lost events.
NEAR = 1 << 20
# The beginning of a line from which on a CPU has all events, and that of one of the last lines, which tell what the recorder
# knows of a CPU.
CPU_BEGIN, CPU_STATS = b"##### CPU ", b"\n# CPU "
LONGEST_SIGN = max(map(len, (*SIGNS, CPU_BEGIN)))


class At(NamedTuple):
    """An event: the byte at which its line begins, and its stamp in microseconds; None if there is no such event."""

    byte: int
    stamp: int | None


class Bounds(NamedTuple):
    """The byte of a text at which a stretch of time begins, and the one at which it ends; None is the text's end. If events
    stand before the stretch, `first` is the stamp of its first event, or None if it has none."""

    at: int = 0
    end: int | None = None
    first: int | None = None


def bounds_of(text: Text, start: int | None, until: int | None) -> Bounds | None:
    """Return where the lines of the events with a stamp from `start` on and below `until` stand, with those lines after each
    that hold no event; None if the text is seen not to be in the order of time.

    A text that can be read from anywhere is looked at in some places only, so it may yet be in another order between them."""
    if start is None and until is None:
        return Bounds()
    if start is not None and until is not None:
        until = max(start, until)
    if text.size is None:
        return bounds_in_passing(text, start, until)
    return Halves(text, text.size).bounds(start, until)


def check_seconds(text: Text, given: dict[str, int]) -> None:
    """Check that whole numbers, which are taken for seconds, aren't meant as microseconds.

    Parameters
    ----------
    text
        The text whose timestamps they are. One that can be read only from its beginning isn't checked.
    given
        The numbers, by the names of the parameters.

    Raises
    ------
    ValueError
        If one is after the text's end in seconds, and within the text in microseconds.
    """
    first, last = ends_of(text)
    for name, number in given.items():
        if first is not None and last is not None and first <= number <= last < number * 1_000_000:
            hint = f"for microseconds, pass timedelta(microseconds={number}) or histdesk.Stamp({number})"
            raise ValueError(f"{name}={number} is in seconds, and the trace ends at {last}; {hint}")


def ends_of(text: Text) -> tuple[Stamp | None, Stamp | None]:
    """Return the timestamps of a text's first and last event; None for a text that can be read only from its beginning, or if
    there is no event near that end."""
    if text.size is None:
        return None, None
    first, last = Halves(text, text.size).event_from(0).stamp, last_stamp(text.read(max(text.size - ROOM, 0)))
    return first if first is None else Stamp(first), last if last is None else Stamp(last)


def is_in_order(text: Text) -> bool:
    """Return whether a text is in the order of time in some places, or it can't be looked at there."""
    return text.size is None or Halves(text, text.size).is_in_order()


class Halves:
    """A text of so many bytes, in which stamps are searched for by halves."""

    def __init__(self, text: Text, size: int) -> None:
        self._text, self._size = text, size

    def bounds(self, start: int | None, until: int | None) -> Bounds | None:
        """Return where the events from `start` on and below `until` stand; None if the text isn't in the order of time."""
        if not self.is_in_order():
            return None
        first = At(0, None) if start is None else self.first_from(start, 0)
        end = None if until is None else self.first_from(until, first.byte).byte
        return Bounds(first.byte, end, first.stamp if first.byte else None)

    def is_in_order(self) -> bool:
        """Return whether the events in some places come in the order of time."""
        last = At(-1, 0)
        for place in range(PLACES):
            event = self.event_from(max(self._size * place // PLACES, last.byte + 1))
            if event.stamp is None:
                return True
            if event.stamp < (last.stamp or 0):
                return False
            last = event
        return True

    def seams(self, count: int) -> list[int]:
        """Return the bytes at which the text is cut into so many parts of about one size, or fewer if there are no such places.

        A text that is seen not to be in the order of time is not cut."""
        if not self.is_in_order():
            return []
        seams = [0]
        for number in range(1, count):
            seam = self.seam_from(max(self._size * number // count, seams[-1] + 1))
            if seam is None:
                break
            seams.append(seam)
        return seams[1:]

    def seam_from(self, byte: int) -> int | None:
        """Return the first byte from one on at which an event's line begins directly after that of an event with an earlier
        stamp."""
        for at, lines in self._lines_from(byte):
            is_event = lines.cpus != NONE
            # The first line may be the end of one.
            is_event[:1] = False
            rows = np.flatnonzero(is_event[1:] & is_event[:-1] & (lines.stamps[1:] > lines.stamps[:-1]))
            if len(rows):
                return at + start_of(lines, int(rows[0]) + 1)
        return None

    def first_from(self, stamp: int, low: int) -> At:
        """Return the first event with a stamp from this one on, not before `low`, which is the first byte of a line. If it is
        the first event of all, the lines before it are taken for its own; if there is none, it is at the text's end."""
        # All events that begin before `low` are earlier, and all that begin at `high` or later aren't.
        high = self._size
        while high - low > ROOM:
            middle = (low + high) // 2
            event = self.event_from(middle)
            if event.stamp is not None and event.byte < high and event.stamp < stamp:
                low = event.byte
            else:
                high = middle
        has_earlier = low > 0
        for at, lines in self._lines_from(low):
            is_event = lines.cpus != NONE
            rows = np.flatnonzero(is_event & (lines.stamps >= stamp))
            has_earlier = has_earlier or bool(is_event[: rows[0] if len(rows) else None].any())
            if len(rows):
                return At(at + start_of(lines, int(rows[0])) if has_earlier else 0, int(lines.stamps[rows[0]]))
        return At(self._size, None)

    def event_from(self, byte: int) -> At:
        """Return the first event of a line that begins at a byte or later."""
        # The line that has the byte before is left out.
        for at, lines in self._lines_from(byte - 1 if byte else 0):
            rows = np.flatnonzero(lines.cpus != NONE)
            rows = rows[rows > 0] if byte and at == byte - 1 else rows
            if len(rows):
                return At(at + start_of(lines, int(rows[0])), int(lines.stamps[rows[0]]))
        return At(self._size, None)

    def _lines_from(self, at: int) -> Iterator[tuple[int, Lines]]:
        """Yield the lines from a byte on in parts, each with its first byte. The first line may be the end of one."""
        room = ROOM
        while at < self._size:
            content = self._text.read(at, at + room)
            end = len(content) if at + len(content) >= self._size else content.rfind(b"\n") + 1
            if end:
                yield at, lines_in(content[:end])
                at += end
            # A line that is longer than the room is read with more.
            room *= 2


def bounds_in_passing(text: Text, start: int | None, until: int | None) -> Bounds | None:
    """Return the same as `bounds_of`, for a text that can be read only from its beginning, by the last event of each piece."""
    begin = At(0, None) if start is None else None
    at, last = 0, -1
    for piece in whole_lines(text.pieces()):
        stamp = last_stamp(piece)
        if stamp is not None and stamp < last:
            return None
        is_first, last = last < 0, last if stamp is None else stamp
        if begin is None and start is not None and last >= start:
            event = first_in(piece, start)
            is_first &= not has_event(piece[: event.byte])
            begin = At(0 if is_first else at + event.byte, event.stamp)
        if until is not None and last >= until:
            return bounds_from(begin, at + first_in(piece, until).byte)
        at += len(piece)
    return bounds_from(begin or At(at, None), None)


def bounds_from(begin: At | None, end: int | None) -> Bounds:
    """Return the bounds of a stretch that begins with an event."""
    begin = begin or At(0, None)
    return Bounds(begin.byte, end, begin.stamp if begin.byte else None)


def last_stamp(piece: bytes) -> int | None:
    """Return the stamp of the last event of some lines, or None."""
    room = ROOM
    while True:
        at = piece.find(b"\n", len(piece) - room) + 1 if room < len(piece) else 0
        lines = lines_in(piece[at:])
        rows = np.flatnonzero(lines.cpus != NONE)
        if len(rows):
            return int(lines.stamps[rows[-1]])
        if room >= len(piece):
            return None
        room *= 4


def first_in(piece: bytes, stamp: int) -> At:
    """Return the first event of some lines with a stamp from this one on."""
    lines = lines_in(piece)
    rows = np.flatnonzero((lines.cpus != NONE) & (lines.stamps >= stamp))
    if not len(rows):
        return At(len(piece), None)
    return At(start_of(lines, int(rows[0])), int(lines.stamps[rows[0]]))


def has_event(piece: bytes) -> bool:
    """Return whether some lines hold an event."""
    return bool((lines_in(piece).cpus != NONE).any())


def start_of(lines: Lines, at: int) -> int:
    """Return the byte at which a line begins."""
    return int(lines.ends[at - 1]) if at else 0


# ---- what was lost in it


def losses_of_text(text: Text) -> Losses:
    """Return what a text reports lost, with only pieces of it in memory."""
    head = losses_of(text.read(0, HEADER_ROOM))
    is_complete = not head.overwritten and not any(has_signs(piece) for _, piece in overlaps(text.pieces()))
    return head._replace(holes=(), shown=0) if is_complete else losses_of_lines(text.pieces)


def losses_near(text: Text, bounds: Bounds, start: int | None, until: int | None, inside: Losses | None = None) -> Losses:
    """Return which events were lost in a stretch of time, by its lines and those not far from it; `inside` is what the lines
    of the stretch itself report, if that is known.

    The kernel's header counts the events that were overwritten before the text begins. If some were, a line for each CPU
    shows from when on it has all; these are searched for in the whole text, and what the recorder knows at its end."""
    low, high = max(bounds.at - NEAR, 0), None if bounds.end is None else bounds.end + NEAR
    head, far = losses_of(text.read(0, HEADER_ROOM)), []
    if head.overwritten:
        places, end = cpu_begins(text)
        if not places:
            return in_stretch(losses_of_text(text), start, until)
        # The lines before may end with a part of one.
        far = [] if high is None else [b"\n", *far_lines(text, places, high), end]

    def pieces() -> Iterator[Piece]:
        return itertools.chain(text.pieces(low, high), far)

    def search_pieces() -> Iterator[Piece]:
        """Return the pieces in which signs are searched for."""
        if inside is None:
            return pieces()
        after = () if bounds.end is None else text.pieces(bounds.end, high)
        return itertools.chain(text.pieces(low, bounds.at), after, far)

    if not (inside and inside.holes) and not any(has_signs(piece) for _, piece in overlaps(search_pieces())):
        return Losses()
    return in_stretch(losses_of_lines(pieces)._replace(in_buffer=head.in_buffer, written=head.written), start, until)


def losses_of_lines(pieces: Callable[[], Iterator[Piece]]) -> Losses:
    """Return what lines report lost; `pieces` makes the pieces of them anew each time."""
    try:
        return losses_of_pieces(pieces())
    except Backwards:
        return losses_of(b"".join(map(bytes, pieces())))


def in_stretch(losses: Losses, start: int | None, until: int | None) -> Losses:
    """Return what was lost in a stretch of time. It isn't known which lines of the text report it."""
    holes = [
        hole._replace(line=None)
        for hole in losses.holes
        if (start is None or hole.before is None or hole.before > start)
        and (until is None or hole.after is None or hole.after < until)
    ]
    is_late = any(hole.after is None for hole in holes)
    return Losses(tuple(holes), losses.in_buffer, losses.written) if is_late else Losses(tuple(holes))


def overlaps(pieces: Iterator[Piece]) -> Iterator[tuple[int, bytes]]:
    """Yield pieces of a text, each with the byte at which it begins, and what stands around each cut, so that every sign is in
    one of them."""
    at, tail = 0, b""
    for piece in pieces:
        content = bytes(piece)
        yield at - len(tail), tail + content[: LONGEST_SIGN - 1]
        yield at, content
        at, tail = at + len(content), (tail + content[1 - LONGEST_SIGN :])[1 - LONGEST_SIGN :]


def cpu_begins(text: Text) -> tuple[list[int], bytes]:
    """Return where the lines begin from which on a CPU has all events, and what the last lines of a text say of CPUs."""
    places: list[int] = []
    end, read = b"", 0
    for at, piece in overlaps(text.pieces()):
        place = piece.find(CPU_BEGIN)
        while place >= 0:
            if not places or at + place > places[-1]:
                places.append(at + place)
            place = piece.find(CPU_BEGIN, place + 1)
        if at + len(piece) > read:
            end, read = (end + piece[read - at :])[-HEADER_ROOM:], at + len(piece)
    stats = end.find(CPU_STATS)
    return places, end[stats + 1 :] if stats >= 0 else b""


def far_lines(text: Text, places: Sequence[int], high: int) -> Iterator[bytes]:
    """Yield the lines at byte `high` or later from which on a CPU has all events, each with some that follow."""
    for place in places:
        if place >= high:
            content = text.read(place, place + ROOM)
            high = place + content.rfind(b"\n") + 1
            yield content[: high - place]
