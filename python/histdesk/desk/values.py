"""What the desk answers with: named tuples, and numbers that know what they stand for."""

from __future__ import annotations

from typing import NamedTuple, TypeAlias

from .._public import public
from .._schema import ENDS_WITH as SWITCH
from ..trace.places import Place

GREATEST = 2**64 - 1


@public
class Log2(int):
    """A key's part under `.log2`: the number n for the values above 2^(n-1), up to 2^n; 0 for the values 0 and 1.

    Examples
    --------
    >>> waited = Log2(6)
    >>> waited == 6, waited.low, waited.high, str(waited)
    (True, 33, 64, '2^6')
    """

    @property
    def low(self) -> int:
        """The least value."""
        return (1 << (int(self) - 1)) + 1 if self else 0

    @property
    def high(self) -> int:
        """The greatest value. Values are taken modulo 2^64, so that it is never above 2^64-1."""
        return min(1 << int(self), GREATEST)

    def __repr__(self) -> str:
        return f"Log2({int(self)})"

    def __str__(self) -> str:
        return f"2^{int(self)}"


@public
class Bucket(int):
    """A key's part under `.buckets=SIZE`: the least of the values that it stands for.

    Parameters
    ----------
    low
        The least value.
    size
        How many values there are.

    Examples
    --------
    >>> pids = Bucket(32, 16)
    >>> pids == 32, pids.low, pids.high, str(pids)
    (True, 32, 47, '32-47')
    """

    size: int

    def __new__(cls, low: int, size: int) -> Bucket:
        bucket = super().__new__(cls, low)
        bucket.size = size
        return bucket

    def __getnewargs__(self) -> tuple[int, int]:  # type: ignore[override]
        return int(self), self.size

    @property
    def low(self) -> int:
        """The least value."""
        return int(self)

    @property
    def high(self) -> int:
        """The greatest value. Values are taken modulo 2^64, so that it is never above 2^64-1."""
        return min(int(self) + self.size - 1, GREATEST)

    def __repr__(self) -> str:
        return f"Bucket({int(self)}, {self.size})"

    def __str__(self) -> str:
        return f"{self.low}-{self.high}"


# A part of a key, and a key: a number, also a `Log2` or `Bucket`, or a name.
KeyPart: TypeAlias = int | str
KeyParts: TypeAlias = tuple[KeyPart, ...]


@public
class Totals(NamedTuple):
    """The totals of a trigger's table.

    Attributes
    ----------
    hits
        How many events were counted.
    entries
        How many keys are in the table.
    dropped
        How many events found no room in it.
    """

    hits: int
    entries: int
    dropped: int


@public
class Wait(NamedTuple):
    """A wait of a task for a processor.

    Attributes
    ----------
    task
        The task's name, as given by the switch that runs it.
    pid, prio
        Its PID and its priority.
    kind
        `woken`, `new` or `preempted`.
    begin, end
        The events with which it begins and ends.
    micros
        How long it lasted, in microseconds.
    doubtful
        Whether it may be false, or too long, since events of its time may be missing.
    likely
        Whether it is doubtful but probably true: the missing events are of other CPUs than those on which it began and ended,
        or only what woke its task last isn't known.
    """

    task: str
    pid: int
    prio: int
    kind: str
    begin: Place
    end: Place
    micros: int
    doubtful: bool
    likely: bool


@public
class Latency(NamedTuple):
    """The time between two events that a trigger measured.

    Attributes
    ----------
    saved_stamp, saved_cpu, saved_line
        The event whose stamp was saved: its stamp in microseconds, its CPU, and its line there, from 1.
    read_stamp, read_cpu, read_line
        The event at which it was read.
    micros
        The time between them, in microseconds.
    """

    saved_stamp: int
    saved_cpu: int
    saved_line: int
    read_stamp: int
    read_cpu: int
    read_line: int
    micros: int


@public
class Event(NamedTuple):
    """An event that a desk holds. What an event of its name doesn't have is None.

    Attributes
    ----------
    stamp
        Its stamp, in microseconds.
    cpu, line
        Its CPU, and its line there, from 1.
    name
        The kernel's name, or `other` for an event of which the desk holds only the common part.
    task, common_pid
        The task that ran: its name and its PID.
    comm, pid, prio
        The task that was woken, or that was switched to: its name, its PID and its priority.
    target_cpu
        The CPU on which a woken task is to run.
    prev_comm, prev_pid, prev_prio, prev_state
        The task that was switched from, and its state.
    next_comm, next_pid, next_prio
        The task that was switched to, as `comm`, `pid` and `prio` of a switch.
    """

    stamp: int
    cpu: int
    line: int
    name: str
    task: str
    common_pid: int
    comm: str | None = None
    pid: int | None = None
    prio: int | None = None
    target_cpu: int | None = None
    prev_comm: str | None = None
    prev_pid: int | None = None
    prev_prio: int | None = None
    prev_state: str | None = None

    @property
    def next_comm(self) -> str | None:
        """The name of the task that was switched to."""
        return self.comm if self.name == SWITCH else None

    @property
    def next_pid(self) -> int | None:
        """The PID of the task that was switched to."""
        return self.pid if self.name == SWITCH else None

    @property
    def next_prio(self) -> int | None:
        """The priority of the task that was switched to."""
        return self.prio if self.name == SWITCH else None


@public
class Changed(NamedTuple):
    """A row that an edit may have changed.

    Attributes
    ----------
    trigger
        Its trigger's id.
    key
        Its key, part by part as in `Trigger.rows`.
    """

    trigger: int
    key: KeyParts


@public
class Edits(NamedTuple):
    """What an accepted `strike_events` did.

    Attributes
    ----------
    struck
        How many events were struck.
    changed
        The rows that went or may have changed by all of these strikes together, each once; all others are as they were. None if
        there is no such report, and then any row may have changed.
    deferred
        Whether there was no memory for the tables: the edits stand, and the next answer builds them anew.
    """

    struck: int
    changed: list[Changed] | None
    deferred: bool


@public
class Edit(NamedTuple):
    """What an accepted `insert` or `strike` did.

    Attributes
    ----------
    cpu, line
        Where the event stands, or stood.
    changed
        The rows that came, went or may have changed; all others are as they were. None if there is no such report, and then
        any row may have changed.
    deferred
        Whether there was no memory for the tables: the edit stands, and the next answer builds them anew.
    """

    cpu: int
    line: int
    changed: list[Changed] | None
    deferred: bool
