"""Where events of a recording are missing: where they were lost, as its text reports it, and what its events show."""

from __future__ import annotations

import ctypes
from typing import TYPE_CHECKING, NamedTuple, Protocol

from .._public import public
from ..native import layout
from ..native.buffers import bytes_of
from ..native.library import Call, library
from ..native.session import Session, check_copied
from .times import Stamp

if TYPE_CHECKING:
    from ..native.memory import Searchable

# How many bytes at the top of a text hold the kernel's header.
HEADER_ROOM = 65536
# Each line that reports a loss, apart from the header, has one of these; other lines seldom do.
SIGNS = (b"#####", b"[LOST")


class Piece(Protocol):
    """A text, or a piece of one, that can be searched."""

    def find(self, sign: bytes, /) -> int:
        """Return where something stands first in it; -1 if it doesn't."""


@public
class LossWarning(UserWarning):
    """Lines of a recording report that events were lost, so that some of its waits may be false."""


@public
class Hole(NamedTuple):
    """A stretch of time of which events of a CPU are missing: they were lost, or events show that they aren't there.

    Attributes
    ----------
    cpu
        The CPU; None if it isn't known, since only a task is shown that ran between two stamps, unseen.
    after
        The stamp of the CPU's last event before it, in microseconds; None if it begins with the recording.
    before
        The stamp of the CPU's first event after it, in microseconds; None if it lasts to the end.
    lost
        How many events were lost; None if the text doesn't say how many.
    line
        Which line of the text, from 1, reports it first; None if no line does, or in a slice, before which lines aren't
        counted.
    """

    cpu: int | None
    after: int | None
    before: int | None
    lost: int | None = None
    line: int | None = None


@public
class Losses(NamedTuple):
    """What is known about the events that a text lacks.

    Attributes
    ----------
    holes
        When events of which CPU are missing.
    in_buffer
        How many events the kernel's buffers held; None without the kernel's header.
    written
        How many events the kernel wrote into them; None without the kernel's header.
    shown
        How many of the holes, the last ones, no line reports: only events show them.
    """

    holes: tuple[Hole, ...] = ()
    in_buffer: int | None = None
    written: int | None = None
    shown: int = 0

    @property
    def overwritten(self) -> int:
        """How many events the kernel's buffers no longer held."""
        return max((self.written or 0) - (self.in_buffer or 0), 0)

    @property
    def warning(self) -> str | None:
        """What lines report lost, in one line; None if they report nothing. It says nothing of holes that only events show."""
        parts = [f"{self.overwritten} of {self.written} events were overwritten before it begins"] if self.overwritten else []
        late: dict[int, int] = {}
        torn: dict[int, list[Hole]] = {}
        for hole in reported(self).holes:
            if hole.cpu is None:
                continue
            if hole.after is None and hole.before is not None:
                late[hole.cpu] = hole.before
            else:
                torn.setdefault(hole.cpu, []).append(hole)
        if late:
            parts.append("the events begin late on " + few([f"CPU {cpu} (at {seconds(stamp)})" for cpu, stamp in late.items()]))
        if torn:
            parts.append(few([loss_on(cpu, holes) for cpu, holes in torn.items()]))
        return f"events were lost: {'; '.join(parts)}; a wait across such a time may be false" if parts else None


def seconds(stamp: int) -> str:
    """Return a stamp, in microseconds, as traces print it."""
    return f"{stamp // 1_000_000}.{stamp % 1_000_000:06}"


def few(texts: list[str]) -> str:
    """Return the first of some texts, and how many more there are."""
    return ", ".join(texts if len(texts) <= 4 else [*texts[:3], f"{len(texts) - 3} more"])


def loss_on(cpu: int, holes: list[Hole]) -> str:
    """Return what a CPU lost, from when on, and until when."""
    total = sum(hole.lost or 0 for hole in holes)
    count = f"{total}{'' if all(hole.lost for hole in holes) else ' and more'}" if total else "some"
    first = holes[0]
    since = "the beginning" if first.after is None else seconds(first.after)
    until = "the end" if first.before is None else seconds(first.before)
    places = "" if len(holes) == 1 else f"in {len(holes)} places, the first "
    return f"CPU {cpu} lost {count} {places}between {since} and {until}"


def reported(losses: Losses) -> Losses:
    """Return what lines of a text report, of what is known to be missing."""
    return losses._replace(holes=losses.holes[: len(losses.holes) - losses.shown], shown=0)


def has_signs(text: Piece) -> bool:
    """Return whether a text may have lines that report losses, besides the header."""
    return any(text.find(sign) >= 0 for sign in SIGNS)


def losses_of(text: Searchable) -> Losses:
    """Return what a text reports about lost events.

    A line `CPU:3 [LOST 9 EVENTS]` stands between the events of its CPU that were kept; `##### CPU 3 buffer started ####` stands
    before the first event of a CPU whose earlier ones may be overwritten. If the header says that some were overwritten, and
    no such line is there, each CPU that begins late may have lost those before its first event. Holes of such CPUs come first,
    then those that an event ends, in the order of these events, then those that last to the end.

    Raises
    ------
    MemoryError
        If memory ran out.
    """
    if not has_signs(text):
        # Then the header says all.
        head = read_losses(text[:HEADER_ROOM])
        if not head.overwritten:
            return head._replace(holes=(), shown=0)
    return read_losses(text)


def read_losses(text: Searchable) -> Losses:
    """Return what the engine reports about a text."""
    session, read = Session(), layout.LossesRead()
    with bytes_of(text) as (address, length):
        session.call(library.histdesk_losses, ctypes.c_void_p(address), length, read)
    losses = copy_losses(library.histdesk_losses_copy, session.handle, read)
    session.close()
    return losses


def copy_losses(copy: Call, handle: layout.Handle, read: layout.LossesRead | layout.WaitsRead) -> Losses:
    """Return what the engine has reported about a text; `copy` is the call that copies the holes."""
    holes = (layout.Hole * read.holes)()
    check_copied(copy(handle, 0, holes, read.holes), read.holes)
    # Those that only events show come last.
    known = sorted(map(hole_of, holes), key=lambda hole: hole.line is None)
    shown = sum(hole.line is None for hole in known)
    return Losses(tuple(known), *((read.held, read.written) if read.has_written else (None, None)), shown)


def hole_of(hole: layout.Hole) -> Hole:
    """Return a hole from the engine's struct."""
    after, before = (Stamp(getattr(hole, name)) if getattr(hole, f"has_{name}") else None for name in ("after", "before"))
    cpu, count = hole.cpu if hole.has_cpu else None, hole.count if hole.has_count else None
    return Hole(cpu, after, before, count, hole.line or None)
