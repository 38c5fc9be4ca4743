"""What ran on a CPU, stretch by stretch, in columns."""

from __future__ import annotations

from collections.abc import Iterator, Sequence
from typing import TYPE_CHECKING, Any, NamedTuple, overload

import numpy as np

from .._public import public

if TYPE_CHECKING:
    from numpy.typing import NDArray

# What stands in a column for a number that isn't there; no stamp, pid, prio or line is as small.
NOTHING = -1 << 62
# Up to how many wakings are put in order without a look at whose they are.
FEW = 256


@public
class Runner(NamedTuple):
    """A task that ran.

    Attributes
    ----------
    task
        Its name; `<idle>` for an idle CPU.
    pid
        Its PID; 0 for an idle CPU.
    prio
        Its priority; None for an idle CPU, or if no switch has it.
    """

    task: str
    pid: int
    prio: int | None


IDLE = Runner("<idle>", 0, None)


@public
class Stretch(NamedTuple):
    """A stretch of time in which one task ran on a CPU, or the CPU was idle.

    Attributes
    ----------
    cpu
        The CPU.
    begin, end
        The stamps between which it is, in microseconds.
    task, pid, prio
        The task: its name, its PID, which is 0 for an idle CPU, and its priority. All are None if it isn't known what ran,
        since events were lost.
    left
        The state in which the task was switched out, as the trace has it; None if it ran on, or that switch is lost.
    line
        The line of that switch on the CPU in the whole trace, from 1; None if `left` is.
    runnable
        The stamp at which the task was woken or forked, in microseconds, if that was within the wait, so that it came later
        than the task that waits; None otherwise.
    """

    cpu: int
    begin: int
    end: int
    task: str | None
    pid: int | None
    prio: int | None
    left: str | None = None
    line: int | None = None
    runnable: int | None = None

    @property
    def micros(self) -> int:
        """How long it is, in microseconds."""
        return self.end - self.begin


@public
class Share(NamedTuple):
    """How long a task ran during a wait.

    Attributes
    ----------
    task, pid, prio
        The task: its name, its PID, which is 0 for an idle CPU, and its priority. All are None if it isn't known what ran.
    micros
        How long it ran, in microseconds.
    runs
        In how many stretches.
    """

    task: str | None
    pid: int | None
    prio: int | None
    micros: int
    runs: int


class Wakings(NamedTuple):
    """Which tasks were woken or created, and when: their numbers, and the stamps in microseconds, in order."""

    pids: NDArray[np.int64]
    stamps: NDArray[np.int64]


class Columns(NamedTuple):
    """Stretches of a CPU, each field of all as a numpy array: of numbers, with `NOTHING` for none; or of texts and None."""

    begin: NDArray[np.int64]
    end: NDArray[np.int64]
    task: NDArray[np.object_]
    pid: NDArray[np.int64]
    prio: NDArray[np.int64]
    left: NDArray[np.object_]
    line: NDArray[np.int64]
    runnable: NDArray[np.int64]

    @classmethod
    def empty(cls, count: int) -> Columns:
        """Return so many stretches of which nothing is known."""
        is_text = (name in ("task", "left") for name in cls._fields)
        return cls(*(np.full(count, None, object) if text else np.full(count, NOTHING, "i8") for text in is_text))

    def put(self, at: int, runner: Runner) -> None:
        """Note which task ran in one of them."""
        self.task[at], self.pid[at] = runner.task, runner.pid
        self.prio[at] = NOTHING if runner.prio is None else runner.prio

    def rows(self, chosen: slice) -> Iterator[tuple[Any, ...]]:
        """Yield some of them, each as its fields."""
        return zip(*(values(column[chosen]) for column in self))


def values(column: NDArray[Any]) -> list[Any]:
    """Return a column as a list, with None if nothing is there."""
    return [None if value == NOTHING else value for value in column.tolist()]


class Stretches(Sequence[Stretch]):
    """What ran on a CPU, in order: a sequence, equal to a tuple of the same. A `Stretch` is made when it is asked for."""

    def __init__(self, cpu: int, columns: Columns, wakings: Wakings | None = None) -> None:
        """Take the CPU, and the stretches. Wakings say when tasks became runnable, which is found once it is asked for."""
        self.cpu, self._columns, self._wakings = cpu, columns, wakings
        self._shares: list[Share] | None = None

    @property
    def columns(self) -> Columns:
        """The stretches, in columns."""
        if self._wakings is not None:
            self._columns, self._wakings = runnable_by(self._wakings, self._columns), None
        return self._columns

    def __len__(self) -> int:
        return len(self._columns.begin)

    @overload
    def __getitem__(self, at: int) -> Stretch:
        """Return the stretch at this place."""

    @overload
    def __getitem__(self, at: slice) -> tuple[Stretch, ...]:
        """Return the stretches at these places."""

    def __getitem__(self, at: int | slice) -> Stretch | tuple[Stretch, ...]:
        if isinstance(at, slice):
            return tuple(self._rows(at))
        # This gives the index from the beginning, or raises `IndexError`.
        place = range(len(self))[at]
        fields = (column.item(place) for column in self.columns)
        row: list[Any] = [None if value == NOTHING else value for value in fields]
        return Stretch(self.cpu, *row)

    def __iter__(self) -> Iterator[Stretch]:
        return self._rows(slice(None))

    def _rows(self, chosen: slice) -> Iterator[Stretch]:
        """Yield some of them."""
        return (Stretch(self.cpu, *row) for row in self.columns.rows(chosen))

    def __eq__(self, other: object) -> bool:
        if not isinstance(other, (Stretches, tuple)):
            return NotImplemented
        return len(self) == len(other) and tuple(self) == tuple(other)

    def __hash__(self) -> int:
        return hash(tuple(self))

    def __repr__(self) -> str:
        return repr(tuple(self))

    @property
    def micros(self) -> NDArray[np.int64]:
        """How long each is, in microseconds."""
        return self._columns.end - self._columns.begin

    def after(self, wakings: Wakings) -> Stretches:
        """Return the same, each with the stamp at which its task was last woken or created before it began."""
        return Stretches(self.cpu, self.columns, wakings)

    @property
    def shares(self) -> list[Share]:
        """How long each task ran, the longest first; of equal ones, the one that ran first. Name and prio are the last that are
        known of a task."""
        if self._shares is None:
            columns = self._columns
            pids, first, codes = np.unique(columns.pid, return_index=True, return_inverse=True)
            micros = np.bincount(codes, self.micros).astype("i8")
            tasks = columns.task[last_of(codes, len(pids))]
            prios = np.full(len(pids), NOTHING)
            places = np.flatnonzero(columns.prio != NOTHING)
            of = last_of(codes[places], len(pids))
            prios[of >= 0] = columns.prio[places[of[of >= 0]]]
            order = np.lexsort((first, -micros))
            fields = (tasks, pids, prios, micros, np.bincount(codes))
            self._shares = list(map(Share, *(values(field[order]) for field in fields)))
        return list(self._shares)


def runnable_by(wakings: Wakings, columns: Columns) -> Columns:
    """Return stretches, each with the stamp at which its task was last woken or created before it began."""
    if len(wakings.pids) > FEW:
        is_of = np.isin(wakings.pids, columns.pid)
        wakings = Wakings(wakings.pids[is_of], wakings.stamps[is_of])
    pids = np.concatenate([wakings.pids, columns.pid])
    stamps = np.concatenate([wakings.stamps, columns.begin])
    # By task and in the order of time; at one stamp, what was woken comes before what began to run.
    count, order = len(wakings.pids), np.lexsort((stamps, pids))
    last = np.maximum.accumulate(np.where(order < count, np.arange(len(order)), 0))
    before = order[last]
    has_waking = (order >= count) & (before < count) & (pids[before] == pids[order]) & (pids[order] != 0)
    runnable = columns.runnable.copy()
    runnable[order[has_waking] - count] = stamps[before[has_waking]]
    return columns._replace(runnable=runnable)


def last_of(codes: NDArray[np.intp], count: int) -> NDArray[np.intp]:
    """Return where each of the numbers below `count` stands last; -1 if it isn't there."""
    places = np.full(count, -1)
    # Of several values for one place, the last one stays.
    places[codes] = np.arange(len(codes))
    return places


def stretches_of(stretches: Sequence[Stretch]) -> Stretches:
    """Return stretches of a CPU as `Stretches`; they are in order, and there is at least one."""
    if isinstance(stretches, Stretches):
        return stretches
    columns = Columns.empty(len(stretches))
    for name, column in zip(Columns._fields, columns):
        items = [getattr(stretch, name) for stretch in stretches]
        column[:] = items if column.dtype == object else [NOTHING if value is None else value for value in items]
    return Stretches(stretches[0].cpu, columns)


def shares_of(stretches: Sequence[Stretch]) -> list[Share]:
    """Return how long each task ran in some stretches of a CPU, as `Stretches.shares` does."""
    return stretches_of(stretches).shares if stretches else []
