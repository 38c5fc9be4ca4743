"""What loading a trace reports."""

from __future__ import annotations

from typing import NamedTuple

from .._public import public
from ..trace.losses import Hole, Losses


@public
class Lane(NamedTuple):
    """The events of one CPU of a trace.

    Attributes
    ----------
    cpu
        The CPU.
    events
        How many events it has.
    first, last
        The stamps of the first and the last one by line, in microseconds.
    """

    cpu: int
    events: int
    first: int
    last: int


@public
class Loaded(int):
    """How many events a trace has, as a number, and what else loading it reports.

    Parameters
    ----------
    events
        How many events it has.
    skipped
        How many lines hold no event: comments, empty lines and lost-events lines.
    lanes
        The CPUs of its events.
    losses
        Where events were lost.

    Examples
    --------
    >>> loaded = Desk().load(b'''sim-1 [000] d.h.. 1.000100: sched_waking: comm=w pid=42 prio=120 target_cpu=000
    ... CPU:0 [LOST 7 EVENTS]
    ... sim-1 [000] d.h.. 1.000300: sched_waking: comm=w pid=42 prio=120 target_cpu=000''')
    >>> loaded, loaded.skipped, loaded.lanes, loaded.holes
    (2, 1, (Lane(cpu=0, events=2, first=1000100, last=1000300),), (Hole(cpu=0, after=1000100, before=1000300, lost=7, line=2),))
    """

    skipped: int
    lanes: tuple[Lane, ...]
    losses: Losses

    def __new__(cls, events: int, skipped: int = 0, lanes: tuple[Lane, ...] = (), losses: Losses = Losses()) -> Loaded:
        loaded = super().__new__(cls, events)
        loaded.skipped, loaded.lanes, loaded.losses = skipped, lanes, losses
        return loaded

    def __getnewargs__(self) -> tuple[int, int, tuple[Lane, ...], Losses]:  # type: ignore[override]
        return int(self), self.skipped, self.lanes, self.losses

    @property
    def events(self) -> int:
        """How many events it has."""
        return int(self)

    @property
    def holes(self) -> tuple[Hole, ...]:
        """Where events were lost."""
        return self.losses.holes

    @property
    def in_buffer(self) -> int | None:
        """How many events the kernel's buffers held, if the text has the kernel's header."""
        return self.losses.in_buffer

    @property
    def written(self) -> int | None:
        """How many events the kernel wrote, if the text has the kernel's header."""
        return self.losses.written

    @property
    def warning(self) -> str | None:
        """What was lost, in one line; None if nothing was."""
        return self.losses.warning
