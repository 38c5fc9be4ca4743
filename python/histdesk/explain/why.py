"""One wait, explained: who woke the task, where it was queued, and what ran on its CPU meanwhile."""

from __future__ import annotations

import html
import warnings
from collections.abc import Iterator, Sequence
from typing import TYPE_CHECKING, Any, NamedTuple, Protocol, cast, overload

from .._public import public
from ..desk.recording import Recording
from ..desk.slices import Source
from ..desk.values import Event, Wait
from ..native.arguments import Located, whole
from ..show.width import COLUMNS
from ..trace.losses import Hole, LossWarning
from . import why_text
from .chain import STEPS, Chain
from .scene import FORKED, PREEMPTED, WOKEN, Scene, Steps, Wants, spanned
from .scene import FoundWait
from .stretches import Runner, Share, Stretch, shares_of
from .surroundings import gather, groups_of, shared_scene

if TYPE_CHECKING:
    from ..desk.desk import Desk, Trace
    from ..waiting.waits import Waits


class ChainFinder(Protocol):
    """What knows the recording of an explained wait."""

    def chain(self, why: Why, steps: int, beyond: bool) -> Chain:
        """Return the chain of wakings of the wait."""


class Fields(NamedTuple):
    """The fields of `Why`."""

    kind: str
    task: str
    pid: int
    prio: int | None
    begin: Event
    end: Event | None
    until: int
    waker: Runner
    context: str | None
    queued: Event | None
    slept: Event | None
    cpu: int
    stretches: Sequence[Stretch]
    elsewhere: Sequence[Stretch]
    holes: tuple[Hole, ...]
    unknown_cpus: tuple[int, ...] = ()


@public
class Why(Fields):
    """One wait of a task, and what ran instead of it. `str()` of it is a text for people, with a picture.

    Timestamps and durations are in microseconds, and lines are those of the whole trace.

    Attributes
    ----------
    kind
        `woken`, `new` or `preempted`: what made the task runnable.
    task, pid, prio
        The task that waited.
    begin, end
        The two events between which it waited; `end` is None if the trace ends before it ran.
    until
        The timestamp at which the wait ends, or the trace.
    waker
        The task that woke or forked it, or that ran in its place. If an interrupt woke it (`context`), this is the task that
        was interrupted, which may have nothing to do with it.
    context
        `task`, `softirq`, `hardirq` or `nmi`: where the waking came from, by the flags of its line. None if the line has no
        flags, and for a desk, which has no text.
    queued
        The `sched_wakeup` by which it was queued, or None.
    slept
        The switch at which it left its CPU to sleep, if it was woken before that; or None.
    cpu
        The CPU on which it ran in the end; if it didn't run, the one where it waits.
    stretches
        What ran on that CPU: a sequence of each `Stretch` in order, all together as long as the wait.
    elsewhere
        The same for the CPU where it was queued, if that is another one.
    holes
        Where events are missing within the wait, which may then be false.
    unknown_cpus
        The CPUs on which the wait has more events than a desk holds, so that it isn't known what ran there.
    """

    # What knows the recording. It is no part of the value, and isn't pickled or copied.
    _finder: ChainFinder | None = None

    def _known_to(self, finder: ChainFinder) -> Why:
        """Return the same, with what finds its chain."""
        self._finder = finder
        return self

    def __reduce__(self) -> tuple[type[Why], tuple[Any, ...]]:
        return type(self), tuple(self)

    def chain(self, steps: int = STEPS, beyond: bool = False) -> Chain:
        """Return the chain of wakings that led to this wait: who woke the task that woke this one, and so on.

        Parameters
        ----------
        steps
            How many steps it has at most.
        beyond
            Whether it goes on before this task fell asleep. What happened earlier didn't keep the task asleep, but may show
            where a request came from.

        Returns
        -------
        Chain
            A sequence of `ChainStep`, beginning with this wait.

        Raises
        ------
        ValueError
            If the wait was pickled or copied, so that its recording isn't known; if its file has changed since it was read; or
            if `steps` is less than 1.
        OSError
            If the recording can't be read again.
        """
        if steps < 1:
            raise ValueError(f"a chain has at least 1 step, and not {steps}")
        if self._finder is None:
            raise ValueError("the recording of this wait isn't known: it was pickled or copied")
        return self._finder.chain(self, steps, beyond)

    @property
    def micros(self) -> int:
        """How long the task waited, in microseconds."""
        return self.until - self.begin.stamp

    @property
    def queue_cpu(self) -> int | None:
        """The CPU where it was queued first; None if the trace doesn't show it, which takes a `sched_wakeup`."""
        if self.kind == PREEMPTED:
            return self.begin.cpu
        placed = self.begin if self.kind == FORKED else self.queued
        return placed.target_cpu if placed else None

    @property
    def is_before_sleep(self) -> bool:
        """Whether its task was left asleep after it began, and what woke the task after that may be missing."""
        if self.slept is None or self.slept.stamp <= self.begin.stamp:
            return False
        # The kernel ends the waking of a task that is about to sleep once the task has left its CPU.
        return not (self.kind == WOKEN and self.queued and self.queued.stamp >= self.slept.stamp)

    @property
    def doubtful(self) -> bool:
        """Whether it may be false or too long: events of its time are missing, or it begins before a sleep."""
        return bool(self.holes) or self.is_before_sleep

    @property
    def shares(self) -> list[Share]:
        """How long each task ran on its CPU meanwhile, the longest first."""
        return shares_of(self.stretches)

    def text(self, all_stretches: bool = False, width: int = COLUMNS) -> str:
        """Return a text for people.

        Parameters
        ----------
        all_stretches
            Whether all stretches are shown, and not only 10 from each end.
        width
            How many columns a line may have.

        Returns
        -------
        str
            The text, without a line break at its end.
        """
        return why_text.why_text_of(self, all_stretches, width)

    def __str__(self) -> str:
        return self.text()

    def __repr__(self) -> str:
        return self.text()

    def _repr_html_(self) -> str:
        return f"<pre>{html.escape(self.text())}</pre>"


@overload
def why(trace: Desk | Trace | Recording | Waits, event: int | None = None, line: int | None = None) -> Why:
    """Explain the wait of the event of a CPU at a line, or the longest one."""


@overload
def why(trace: Desk | Trace | Recording | Waits, event: Wait | Located) -> Why:
    """Explain a wait, or that of an event."""


@overload
def why(trace: Desk | Trace | Recording | Waits, *, cpu: int | None, line: int | None) -> Why:
    """Explain the wait of the event of a CPU at a line."""


@public
def why(
    trace: Desk | Trace | Recording | Waits,
    event: Wait | Located | int | None = None,
    line: int | None = None,
    *,
    cpu: int | None = None,
) -> Why:
    """Explain a wait.

    The wait is the one that an event ends, or else the one that it begins, or in which the task that it wakes is waiting
    already; without an event, it is the longest wait that isn't doubtful. If events were lost, a `LossWarning` is issued, as by
    `waits`.

    Parameters
    ----------
    trace
        What `waits` takes, of any length; or the `Waits` of a trace, of which only the events around the wait are read then.
    event
        The wait, as a `Wait`, such as `waits[3]`; or an event, as a `Place`, such as `wait.begin`, an `Event`, or anything else
        that has a CPU and a line; or the event's CPU, and then its `line` follows.
    line
        The event's line on that CPU, as `Waits` and the tools print places.
    cpu
        The event's CPU, as another name for `event`.

    Returns
    -------
    Why
        What happened during the wait.

    Raises
    ------
    LookupError
        If no event is there, or it belongs to no wait, or a `Wait` or a `Place` is of another recording; the message has the
        reason. Without an event, if there is no wait that isn't doubtful.
    TypeError
        If a CPU is given without a line, or a line without a CPU, or one is no number.
    ValueError
        If `trace` is `Waits` that have no `source`; or without an event, if it is a `Recording` of only some CPUs.

    It also raises what `waits` raises.

    Examples
    --------
    >>> wait = why(b'''
    ... sim-1 [000] d.h.. 1.000100: sched_waking: comm=w pid=42 prio=120 target_cpu=000
    ... sim-1 [000] d.... 1.000150: sched_switch: prev_comm=sim prev_pid=1 prev_prio=120 prev_state=S ==> next_comm=w next_pid=42 next_prio=120
    ... ''', 0, 2)  # doctest: +SKIP
    >>> wait.micros, wait.kind, wait.waker.task, wait.context, wait.shares  # doctest: +SKIP
    (50, 'woken', 'sim', 'hardirq', [Share(task='sim', pid=1, prio=120, micros=50, runs=1)])
    """
    from ..desk.desk import Desk
    from ..waiting.waits import Waits
    from .explainer import explainer_of

    chosen = chosen_by(event, line, cpu)
    if chosen is None and isinstance(trace, Recording) and trace.choice.cpus is not None:
        raise ValueError("the longest wait needs the events of all CPUs, since tasks are woken from any; pass a CPU and a line")
    has_warned = isinstance(trace, (Desk, Waits))
    if isinstance(trace, Recording):
        has_warned, trace.is_reported = trace.is_reported, True
    explainer = explainer_of(trace)
    if explainer.waits.warning and not has_warned:
        warnings.warn(explainer.waits.warning, LossWarning, stacklevel=2)
    return explainer.explain_longest() if chosen is None else explainer.explain_at(*chosen)


def chosen_by(event: Wait | Located | int | None, line: int | None, cpu: int | None) -> tuple[int, int, int | None] | None:
    """Return the CPU and the line of the event by which a wait is chosen, and its stamp if that is known; None if no event is
    given. Raises `TypeError` if a part of it is missing, or isn't a number."""
    if isinstance(event, Wait):
        event = event.end
    if event is not None and not hasattr(event, "__index__"):
        if line is not None or cpu is not None:
            raise TypeError("a Wait or a Place stands by itself, without another CPU or line")
        if not (hasattr(event, "cpu") and hasattr(event, "line")):
            raise TypeError(f"{event!r} is neither a Wait, nor a Place, nor the number of a CPU")
        stamp = getattr(event, "stamp", None)
        return whole(event.cpu, "cpu"), whole(event.line, "line"), None if stamp is None else whole(stamp, "stamp")
    if event is not None and cpu is not None:
        raise TypeError("the CPU of an event is given twice")
    number = cpu if event is None else cast(int, event)
    if number is None and line is None:
        return None
    if number is None or line is None:
        raise TypeError("an event has both a CPU and a line; without both, the longest wait is explained")
    return whole(number, "cpu"), whole(line, "line"), None


def whys_in(source: Source, waits: Sequence[FoundWait]) -> Iterator[tuple[int, Why]]:
    """Explain waits of a recording, of which events are read once for all that are near each other. Each comes with its index,
    in the order of time. Raises what `Source.between` raises."""
    for group in groups_of(source, waits):
        some = [waits[at] for at in group]
        if len(some) == 1:
            yield group[0], why_in(source, some[0])
            continue

        def look_at_all(scene: Scene, some: Sequence[FoundWait] = some) -> None:
            for wait in some:
                look(scene, wait)

        scene = shared_scene(source, some, look_at_all)
        for at in group:
            scene.wants = Wants()
            why = why_of(scene, waits[at])
            # What is wanted at the ends of the scene is read for this wait.
            yield at, why_in(source, waits[at]) if scene.wants.any() else why


def scene_in(source: Source, wait: FoundWait) -> Scene:
    """Return the events of a recording that explain a wait. Raises what `Source.between` raises."""

    def answer(scene: Scene) -> Scene:
        why_of(scene, wait)
        return scene

    return gather(source, wait, answer, look=lambda scene: look(scene, wait))


def why_in(source: Source, wait: FoundWait) -> Why:
    """Explain a wait of a recording. Raises what `Source.between` raises."""
    return gather(source, wait, lambda scene: why_of(scene, wait), look=lambda scene: look(scene, wait))


def look(scene: Scene, wait: FoundWait) -> None:
    """Find out what is missing at the ends of a wait. Raises what `why_of` raises."""
    steps = scene.steps(wait)
    for cpu in step_cpus(steps):
        scene.look(cpu, steps.begin, steps.end)
    if wait.kind != PREEMPTED:
        scene.running(steps.begin)


def step_cpus(steps: Steps) -> list[int]:
    """Return the CPU where a task ran in the end, and the one where it was queued if that is another one."""
    return [steps.cpu, *(cpu for cpu in [steps.queue_cpu] if cpu is not None and cpu != steps.cpu)]


def why_of(scene: Scene, wait: FoundWait) -> Why:
    """Explain a wait. Raises `LookupError` if the scene doesn't have its events."""
    steps = scene.steps(wait)
    begin, end = scene.event(steps.begin), scene.event(steps.end) if wait.end else None
    is_preempted = wait.kind == PREEMPTED
    comm, prio = (begin.prev_comm, begin.prev_prio) if is_preempted else (begin.comm, begin.prio)
    until = end.stamp if end else int(scene.stamp[-1])
    cpus = step_cpus(steps)
    stretches, *elsewhere = (scene.stretches(cpu, steps.begin, steps.end) for cpu in cpus)
    return Why(
        kind=wait.kind,
        task=(end.comm if end else comm) or "",
        pid=wait.pid,
        prio=end.prio if end else prio,
        begin=begin,
        end=end,
        until=until,
        waker=scene.next_of(steps.begin) if is_preempted else scene.running(steps.begin),
        context=None if is_preempted else scene.context(steps.begin),
        queued=None if steps.queued is None else scene.event(steps.queued),
        slept=None if steps.slept is None else scene.event(steps.slept),
        cpu=steps.cpu,
        stretches=stretches,
        elsewhere=elsewhere[0] if elsewhere else (),
        holes=tuple(sorted(spanned(scene.holes, begin.stamp, until), key=lambda hole: hole.line or 0)),
        unknown_cpus=tuple(cpu for cpu in cpus if not scene.knows(cpu)),
    )
