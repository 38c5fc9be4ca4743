"""Chains of wakings: who woke the task that woke a task, back to an interrupt or as far as the recording shows; needs numpy."""

from __future__ import annotations

import html
from collections.abc import Callable, Iterator, Sequence
from typing import TYPE_CHECKING, NamedTuple, Union, overload

from .._public import public
from .._schema import EVENT_NAMES, WAKEUP_NEW, WAKING
from ..desk.recording import LIMIT
from ..desk.values import Event
from ..native import layout
from ..show.width import COLUMNS
from ..trace.losses import Hole
from ..trace.places import Place
from ..trace.wait_records import KINDS
from . import chain_text
from .scene import FORKED, NEVER, NO_NAME, PREEMPTED, Scene, FoundWait, spanned
from .stretches import Runner
from .surroundings import GROWTH, LEAD, piece_of

if TYPE_CHECKING:
    import numpy
    from numpy.typing import NDArray

    from ..desk.slices import Source
    from ..waiting.waits import Waits
    from .why import Why

# How many steps a chain has at most, unless another number is asked for.
STEPS = 32
# How many runs of its tasks a chain goes back through at most.
RUNS = 10_000
# How many events before a wait are read if they only show since when a task had slept; and about how many at once.
SLEEP_ROOM, CHUNK = 1 << 16, 1 << 15
INTERRUPTS = ("hardirq", "softirq", "nmi")
# The states in which a switch leaves a task that could run on.
RUNNABLE = ("R", "R+")


@public
class ChainStep(NamedTuple):
    """A task of a chain, from the event that made it runnable until it woke the task of the step before.

    The first step is that of the task whose wait is explained, and lasts until the end of this wait. Stamps are in microseconds
    since the clock's zero, and durations in microseconds; lines are those of the whole trace.

    Attributes
    ----------
    task, pid, prio
        The task. `prio` is None if no event has it.
    cpu
        The CPU on which it ran when it woke the next task; in the first step, the one on which it ran in the end or waits.
    since, until
        From when to when the step lasts. `since` is the stamp of `begin`, or the first stamp at which the task is known to have
        been runnable.
    begin
        The `sched_waking` or `sched_wakeup_new` that made it runnable; None if it isn't known.
    waker
        The task that ran where it was woken or created; None if `begin` is None.
    context
        `task`, `softirq`, `hardirq` or `nmi`: where the waking came from, by the flags of its line; None if the line has
        none. Unless it is `task`, the waker was only interrupted.
    asleep
        The switch at which it had left its CPU before it was woken; None if it was created, still ran when it was woken, or no
        such switch is known.
    slept
        How long it had slept when it was woken; 0 if it still ran then, and None if it isn't known.
    waited
        How long it waited for a processor within the step, all of its waits together.
    ran
        How long it ran within the step.
    preemptions
        How many times it lost its CPU within the step while it was runnable.
    """

    task: str
    pid: int
    prio: int | None
    cpu: int
    since: int
    until: int
    begin: Event | None
    waker: Runner | None
    context: str | None
    asleep: Event | None
    slept: int | None
    waited: int
    ran: int
    preemptions: int

    @property
    def micros(self) -> int:
        """How long the step lasts, in microseconds: the sum of `waited` and `ran`."""
        return self.until - self.since

    @property
    def is_new(self) -> bool:
        """Whether the task was created, and not woken, at the beginning of the step."""
        return self.begin is not None and self.begin.name == "sched_wakeup_new"


@public
class Chain(Sequence[ChainStep]):
    """Who woke the task that woke a task, and so on: a sequence of `ChainStep`, from an explained wait back in time.

    Each step begins when its task was woken or created, and ends when that task woke the one of the step before, so that no
    time is left out between steps. `Why.chain` makes it, and `str()` of it is a text for people.

    Attributes
    ----------
    end
        Why the chain has no further step:

        | `end` | What it means |
        |---|---|
        | `interrupt` | an interrupt or a softirq woke the last task |
        | `idle` | the last task was woken on an idle CPU, so by an interrupt or a timer |
        | `awake` | the last task was awake since before the first one fell asleep or was created |
        | `start` | the recording begins later than what would come next |
        | `missing` | a switch or a waking was not recorded |
        | `lost` | events were lost there |
        | `limit` | no more steps, or no more events of the recording, are looked at |
    remark
        The same reason, as a sentence.
    """

    def __init__(self, steps: Sequence[ChainStep], end: str, remark: str) -> None:
        self._steps = tuple(steps)
        self.end = end
        self.remark = remark

    def __len__(self) -> int:
        return len(self._steps)

    @overload
    def __getitem__(self, at: int) -> ChainStep:
        """Return the step at this place."""

    @overload
    def __getitem__(self, at: slice) -> tuple[ChainStep, ...]:
        """Return the steps at these places."""

    def __getitem__(self, at: Union[int, slice]) -> ChainStep | tuple[ChainStep, ...]:
        return self._steps[at]

    def __eq__(self, other: object) -> bool:
        if not isinstance(other, Chain):
            return NotImplemented
        return (self._steps, self.end, self.remark) == (other._steps, other.end, other.remark)

    def __hash__(self) -> int:
        return hash((self._steps, self.end))

    @property
    def micros(self) -> int:
        """How long all steps last together, in microseconds."""
        return self._steps[0].until - self._steps[-1].since

    def text(self, width: int = COLUMNS, all_steps: bool = False) -> str:
        """Return a text for people.

        Parameters
        ----------
        width
            How many columns it may have.
        all_steps
            Whether all steps are shown, and not only 10 from each end.

        Returns
        -------
        str
            The text, without a line break at its end.
        """
        return chain_text.chain_text_of(self, width, all_steps)

    def __str__(self) -> str:
        return self.text()

    def __repr__(self) -> str:
        return self.text()

    def _repr_html_(self) -> str:
        return f"<pre>{html.escape(self.text())}</pre>"


class ChainStop(NamedTuple):
    """Why a chain has no further step: `Chain.end`, and a sentence."""

    end: str
    remark: str


# ---- the events before a wait


class Spot(NamedTuple):
    """Where an event is among those that were read: in which scene, and which of its events it is."""

    scene: int
    at: int


class Run(NamedTuple):
    """A task's run up to an event: since when the task is known to have run, and the switch to it, or why that isn't known."""

    since: int
    switch: Event | None
    stop: ChainStop | None = None


class Past:
    """The events up to some moment, in scenes of which each is earlier than the one before. More are read if needed."""

    def __init__(self, scenes: Iterator[Scene], holes: Sequence[Hole]) -> None:
        """Take scenes, the latest one first, and the places where events of the recording were lost."""
        self._unread = scenes
        self._holes = tuple(holes)
        self._scenes: list[Scene] = []
        self._count = 0
        # Whether all events up to that moment were read.
        self.is_whole = False

    def read_more(self, most: int) -> bool:
        """Read the next scene, unless there is none or `most` events were read already, and return whether one was read."""
        if self.is_whole or self._count >= most:
            return False
        scene = next(self._unread, None)
        self.is_whole = scene is None
        if scene is not None:
            self._scenes.append(scene)
            self._count += len(scene.events)
        return scene is not None

    def spot(self, place: Place) -> Spot | None:
        """Return where the event at a place is; None if it isn't among the events that may be read."""
        number = 0
        while number < len(self._scenes) or self.read_more(LIMIT):
            at = self._scenes[number].at(place.cpu, place.line)
            if at is not None:
                return Spot(number, at)
            number += 1
        return None

    def event(self, spot: Spot) -> Event:
        """Return an event that was read."""
        return self._scenes[spot.scene].event(spot.at)

    def runner(self, spot: Spot) -> Runner:
        """Return the task that ran at an event that was read."""
        return self._scenes[spot.scene].running(spot.at)

    def last_act(self, pid: int, place: Place, most: int | None = None) -> Spot | None:
        """Return the last switch to a task, or from it, before a place; None if there is none among the events that were read
        already or may be read: `most` in all, or `LIMIT` if that is None."""
        number, room = 0, LIMIT if most is None else most
        while number < len(self._scenes) or self.read_more(room):
            scene = self._scenes[number]
            acts = scene.acts_of(pid)
            count = int(acts.searchsorted(scene.count_before(place)))
            if count:
                return Spot(number, int(acts[count - 1]))
            number += 1
        return None

    def has_run(self, pid: int, before: Place) -> bool:
        """Return whether a task ran at an event before a place, of those that were read, by what the events say."""
        return any(scene.runs_of(pid).searchsorted(scene.count_before(before)) > 0 for scene in self._scenes)

    def steady_since(self, pid: int, place: Place, after: Spot | None) -> tuple[int, bool]:
        """Look at the events of a place's CPU up to that place: those after the event `after`, or all that were read if it is
        None. Return the stamp since which a task ran at each of them, and whether it ran at all of them."""
        since = place.stamp
        for number, scene in enumerate(self._scenes[: None if after is None else after.scene + 1]):
            places = scene.places_of(place.cpu)
            high = int(places.searchsorted(scene.count_before(place)))
            low = int(places.searchsorted(after.at, "right")) if after and after.scene == number else 0
            others = (scene.common_pid[places[low:high]] != pid).nonzero()[0]
            low += int(others[-1]) + 1 if len(others) else 0
            if low < high:
                since = int(scene.stamp[places[low]])
            if len(others):
                return since, False
        return since, True

    def holes(self, after: int, before: int, cpu: int | None = None) -> tuple[Hole, ...]:
        """Return where events were lost between two stamps, on one CPU or on any."""
        holes = self._holes if cpu is None else tuple(hole for hole in self._holes if hole.cpu == cpu)
        return spanned(holes, after, before)

    def run(self, runner: Runner, place: Place) -> Run:
        """Return a task's run on a CPU up to an event there, which happened while it ran."""
        spot = self.last_act(runner.pid, place)
        act = None if spot is None else self.event(spot)
        is_switch = act is not None and act.pid == runner.pid and act.cpu == place.cpu
        since, is_steady = self.steady_since(runner.pid, place, spot)
        holes = self.holes(NEVER if act is None else act.stamp, place.stamp, place.cpu)
        if holes:
            since = max(since, *(hole.before or since for hole in holes if (hole.before or since) <= place.stamp), since)
            return Run(since, None, ChainStop("lost", chain_text.lost_in_run(runner, holes[-1])))
        if act is None and not self.is_whole:
            return Run(since, None, ChainStop("limit", chain_text.too_many_events(runner, LIMIT)))
        if act is None:
            return Run(since, None, ChainStop("start", chain_text.no_switch_before(runner, since)))
        if is_switch and is_steady:
            return Run(act.stamp, act)
        return Run(since, None, ChainStop("missing", chain_text.missing_switch(runner, place.cpu, since)))


def scenes_before(source: Source, until: int) -> Iterator[Scene]:
    """Go through the events of a recording before a stamp, the latest ones first, in ever larger scenes."""
    lead = LEAD
    while True:
        piece = piece_of(source.between_micros(until, until, lead))
        if not len(piece.lines):
            return
        until = int(piece.events.array.stamp[0])
        scene = Scene(*piece, source.losses.holes)
        # There is no room for two of them.
        del piece
        yield scene
        lead = min(lead * GROWTH, CHUNK)


def place_of(event: Event) -> Place:
    """Return where an event stands."""
    return Place(event.stamp, event.cpu, event.line)


# ---- the waits that the engine has found


class KnownWait(NamedTuple):
    """A wait, and whether lost events may have made it false."""

    wait: FoundWait
    is_doubtful: bool


class Ends(NamedTuple):
    """The waits of a task, with numbers for the places at which they end, in ascending order, and the wait of each number."""

    waits: Waits
    numbers: NDArray[numpy.int64]
    order: NDArray[numpy.int64]


class WaitsByTask:
    """The waits of each task, by the switches that end them. Those of a task are put in order when they are first needed."""

    def __init__(self, waits: Waits) -> None:
        self._waits = waits
        self._of: dict[int, Ends] = {}

    def ending(self, pid: int, place: Place) -> KnownWait | None:
        """Return the wait of a task that ends at a place; None if there is none."""
        if pid not in self._of:
            waits = self._waits[self._waits._column("pid") == pid]
            numbers = waits._column("end_cpu").astype("i8") << 32 | waits._column("end_line")
            order = numbers.argsort()
            self._of[pid] = Ends(waits, numbers[order], order)
        ends, number = self._of[pid], place.cpu << 32 | place.line
        at = int(ends.numbers.searchsorted(number))
        if at == len(ends.numbers) or ends.numbers[at] != number:
            return None
        row = ends.waits._records[ends.order[at]]
        begin = Place(*(int(row[f"begin_{field}"]) for field in Place._fields))
        return KnownWait(FoundWait(KINDS[row["kind"]], pid, begin, place), bool(row["doubt"] != layout.SURE))


# ---- the steps


class Draft:
    """A step that is followed back in time."""

    def __init__(self, runner: Runner, cpu: int, until: int) -> None:
        self.runner, self.cpu, self.until = runner, cpu, until
        self.since = until
        self.waited = self.ran = self.preemptions = 0
        self.begin: Event | None = None
        self.waker: Runner | None = None
        self.context: str | None = None

    def name(self, switch: Event) -> None:
        """Take the name and the prio of the task from a switch to it, if they aren't known."""
        task, pid, prio = self.runner
        self.runner = Runner(switch.comm or "" if task == NO_NAME else task, pid, switch.prio if prio is None else prio)

    def step(self, asleep: Event | None, slept: int | None) -> ChainStep:
        """Return the step, with what is known of the sleep before it."""
        return ChainStep(
            *self.runner,
            cpu=self.cpu,
            since=self.since,
            until=self.until,
            begin=self.begin,
            waker=self.waker,
            context=self.context,
            asleep=asleep,
            slept=slept,
            waited=self.waited,
            ran=self.ran,
            preemptions=self.preemptions,
        )


class Follower:
    """Follows tasks back in time from one wait."""

    def __init__(self, past: Past, waits: Waits, context: Callable[[Event], str | None]) -> None:
        """Take the events up to the beginning of the wait, the recording's waits, and what finds the context of a waking."""
        self._past, self._waits, self._context = past, WaitsByTask(waits), context
        self._runs = 0

    def chain(self, why: Why, steps: int, beyond: bool) -> Chain:
        """Return the chain of an explained wait."""
        drafts = [Draft(Runner(why.task, why.pid, why.prio), why.cpu, why.until)]
        stop = self._follow_first(drafts[0], why)
        while True:
            last = drafts[-1]
            # That the chain explains all of the sleep matters more than what is missing before.
            stop = end_at(last) or (None if beyond else self._awake(drafts)) or stop or stop_of_length(drafts, steps)
            if stop is not None or last.begin is None or last.waker is None:
                break
            drafts.append(Draft(last.waker, last.begin.cpu, last.begin.stamp))
            stop = self._follow(drafts[-1], self._wait_before(drafts[-1], place_of(last.begin)))
            last.waker = last.waker._replace(task=drafts[-1].runner.task)
        stop = stop or ChainStop("missing", "")
        return Chain([draft.step(*self._sleep(draft)) for draft in drafts], stop.end, stop.remark)

    # ---- back to what made a task runnable

    def _follow_first(self, draft: Draft, why: Why) -> ChainStop | None:
        """Follow the task of an explained wait back to the event that made it runnable. Return why that isn't possible, or
        None."""
        wait = FoundWait(why.kind, why.pid, place_of(why.begin), place_of(why.end) if why.end else None)
        if why.doubtful:
            draft.waited, draft.since = why.micros, why.begin.stamp
            return doubtful_stop(draft.runner, why.holes)
        stop = self._follow(draft, wait)
        if draft.begin and draft.waker and wait.kind != PREEMPTED:
            # The explanation looked for the waker in more of the recording.
            draft.waker = why.waker
        return stop

    def _follow(self, draft: Draft, wait: FoundWait | ChainStop) -> ChainStop | None:
        """Follow a task back from the end of a wait to the event that made it runnable. Return why that isn't possible, or
        None."""
        while isinstance(wait, FoundWait):
            draft.waited += draft.since - wait.begin.stamp
            draft.since = wait.begin.stamp
            if wait.kind != PREEMPTED:
                return self._begin(draft, wait)
            draft.preemptions += 1
            wait = self._wait_before(draft, wait.begin)
        return wait

    def _begin(self, draft: Draft, wait: FoundWait) -> ChainStop | None:
        """Note the event that made a task runnable. Return why it isn't known, or None."""
        spot = self._past.spot(wait.begin)
        if spot is None:
            return ChainStop("limit", chain_text.too_many_events(draft.runner, LIMIT))
        last = None if wait.kind == FORKED else self._past.last_act(wait.pid, wait.begin, SLEEP_ROOM)
        act = None if last is None else self._past.event(last)
        if act is not None and act.pid != wait.pid and act.prev_state in RUNNABLE:
            # A task that was left runnable, and woken later, has run in between, unless it was preempted on its way to sleep.
            holes = self._past.holes(act.stamp, wait.begin.stamp)
            if holes:
                return ChainStop("lost", chain_text.lost_in_wait(draft.runner, holes[0]))
            return ChainStop("missing", chain_text.woken_in_queue(draft.runner, act.stamp))
        draft.begin, draft.waker = self._past.event(spot), self._past.runner(spot)
        draft.context = "task" if wait.kind == FORKED else self._context(draft.begin)
        return None

    def _wait_before(self, draft: Draft, place: Place) -> FoundWait | ChainStop:
        """Follow a task back through its run up to a place, and return the wait before that, or why it isn't known."""
        self._runs += 1
        if self._runs > RUNS:
            return ChainStop("limit", chain_text.too_many_runs(draft.runner, RUNS))
        run = self._past.run(draft.runner, place)
        draft.ran += draft.since - run.since
        draft.since = run.since
        if run.switch is None:
            return run.stop or ChainStop("missing", "")
        draft.name(run.switch)
        return self._wait_until(draft.runner, place_of(run.switch))

    def _wait_until(self, runner: Runner, switch: Place) -> FoundWait | ChainStop:
        """Return the wait of a task that a switch ends, or why it isn't known."""
        known = self._waits.ending(runner.pid, switch)
        if known is None:
            return self._no_wait(runner, switch)
        if known.is_doubtful:
            return doubtful_stop(runner, self._past.holes(known.wait.begin.stamp, switch.stamp))
        return known.wait

    def _no_wait(self, runner: Runner, switch: Place) -> ChainStop:
        """Return why it isn't known what made a task runnable before a switch to it."""
        spot = self._past.last_act(runner.pid, switch)
        holes = self._past.holes(NEVER if spot is None else self._past.event(spot).stamp, switch.stamp)
        if holes:
            return ChainStop("lost", chain_text.lost_before_run(runner, switch, holes[-1]))
        if spot is None and not self._past.is_whole:
            return ChainStop("limit", chain_text.too_many_events(runner, LIMIT))
        has_run = spot is not None or self._past.has_run(runner.pid, switch)
        return ChainStop("missing" if has_run else "start", chain_text.no_waking(runner, switch, has_run))

    # ---- what else ends a chain, and sleep

    def _awake(self, drafts: Sequence[Draft]) -> ChainStop | None:
        """Return the stop if the last task was awake since before the first one fell asleep or was created; else None."""
        first, last = drafts[0], drafts[-1]
        if first is last or first.begin is None:
            return None
        asleep, slept = self._sleep(first, 0)
        is_new = first.begin.name == EVENT_NAMES[WAKEUP_NEW]
        if slept is None and not is_new:
            return None
        fell = asleep.stamp if asleep else first.since
        return ChainStop("awake", chain_text.awake(last.runner, first.runner, fell, is_new)) if last.since <= fell else None

    def _sleep(self, draft: Draft, most: int = SLEEP_ROOM) -> tuple[Event | None, int | None]:
        """Return the switch at which a task fell asleep before it was woken, and how long it had slept, as far as they are
        known from the events that were read already, or from `most` events."""
        if draft.begin is None or draft.begin.name != EVENT_NAMES[WAKING]:
            return None, None
        spot = self._past.last_act(draft.runner.pid, place_of(draft.begin), most)
        act = None if spot is None else self._past.event(spot)
        if act is None or self._past.holes(act.stamp, draft.begin.stamp):
            return None, None
        return (None, 0) if act.pid == draft.runner.pid else (act, draft.begin.stamp - act.stamp)


def doubtful_stop(runner: Runner, holes: Sequence[Hole]) -> ChainStop:
    """Return why the beginning of a doubtful wait isn't known, by the holes in its time."""
    if holes:
        return ChainStop("lost", chain_text.lost_in_wait(runner, holes[0]))
    return ChainStop("missing", chain_text.slept_in_wait(runner))


def end_at(draft: Draft) -> ChainStop | None:
    """Return the stop if an interrupt, and not a task, woke the task of a step; else None."""
    begin, waker = draft.begin, draft.waker
    if begin is None or waker is None:
        return None
    if draft.context in INTERRUPTS:
        return ChainStop("interrupt", chain_text.by_interrupt(draft.runner, draft.context, begin.cpu, waker))
    if not waker.pid:
        return ChainStop("idle", chain_text.on_idle_cpu(draft.runner, begin.cpu))
    # A task that sleeps can't wake itself.
    return ChainStop("interrupt", chain_text.by_itself(draft.runner, begin.cpu)) if waker.pid == draft.runner.pid else None


def stop_of_length(drafts: Sequence[Draft], steps: int) -> ChainStop | None:
    """Return the stop if there are `steps` steps or more; else None."""
    return ChainStop("limit", chain_text.too_many_steps(len(drafts))) if len(drafts) >= steps else None
