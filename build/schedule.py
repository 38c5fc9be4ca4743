"""Which crates are proved next and how they share the processors, and how long a build takes by these rules."""

from collections.abc import Collection, Iterable, Mapping
from typing import NamedTuple

import graph

# As measured: a crate uses one processor in its first seconds, and then so many at most, however many jobs it has; each job
# beyond the first one adds this part to its processor time. A product is mostly compiled and linked, on one processor.
FIRST = 9
MOST_USED = 1.5
DEARER = 0.06
ON_ONE = {product.crate for product in graph.PRODUCTS.values()}
# What a job gets of a processor, compared with one that gives way by a step less.
STEP = 0.8
# This many seconds that take as long as expected are added to what a build has shown: its first crates, which are short, don't
# decide by themselves.
KNOWN = 60
# The machine is not taken to be more than twice as fast as the measured one, nor a crate that runs to be almost done.
LEAST_PACE = 0.5
LEAST_LEFT = 0.1


class Share(NamedTuple):
    """How a crate is proved beside others: by how many jobs, and by how many steps these give way."""

    jobs: int
    steps: int


class Span(NamedTuple):
    """When the proof of a crate begins and ends, in seconds, and by how many steps it gives way."""

    begin: float
    end: float
    steps: int


class Rules(NamedTuple):
    """What decides which crate is next and what it gets: what each depends on, the chain above each, and how many may run."""

    below: graph.Below
    chain: dict[str, int]
    most: int

    def ranked(self, names: Iterable[str]) -> list[str]:
        """Return crates with the longest chain first."""
        return sorted(names, key=lambda name: (-self.chain[name], name))

    def ready(self, waiting: Iterable[str], left: Collection[str]) -> list[str]:
        """Return which of the waiting crates depend on none that is left."""
        return [name for name in waiting if all(dep not in left for dep in self.below[name])]

    def share(self, name: str, running: Iterable[str]) -> Share:
        """Return what a crate gets that starts beside these. One whose chain is not a tenth shorter than the longest one gets
        all processors; any other one gets two jobs, which give way by a step for each tenth."""
        longest = max(self.chain[other] for other in [name, *running])
        steps = 10 * (longest - self.chain[name]) // longest
        return Share(self.most if steps == 0 or self.most < 2 else 2, steps)


class Work:
    """A crate that is being proved in a simulated build: how much processor time each part of it still takes, and how many
    processors it can use and gets."""

    def __init__(self, name: str, seconds: float, share: Share) -> None:
        jobs = 1 if name in ON_ONE else share.jobs
        first = min(FIRST, seconds / 2)
        self.parts = [(first, 1.0), ((seconds - first) * (1 + DEARER * (jobs - 1)), min(jobs, MOST_USED))]
        self.steps, self.got = share.steps, 0.0

    @property
    def usable(self) -> float:
        """How many processors it can use."""
        return self.parts[0][1]

    @property
    def weight(self) -> float:
        """Its weight when processors are shared out."""
        return self.usable * STEP**self.steps

    def ends_in(self) -> float:
        """Return the seconds until a part of it ends."""
        return self.parts[0][0] / self.got

    def move(self, seconds: float) -> None:
        """Let it run for so many seconds, at most until a part of it ends."""
        left = self.parts[0][0] - seconds * self.got
        # What is left by rounding is nothing.
        self.parts[:1] = [(left, self.usable)] if left > 1e-6 else []


def share_out(running: Collection[Work], processors: int) -> None:
    """Give processors to what runs, by its weight, and nothing more than it can use."""
    room, weight = float(processors), sum(work.weight for work in running)
    # What gives way least is the first to have all that it can use.
    for work in sorted(running, key=lambda work: work.steps):
        work.got = min(work.usable, room * work.weight / weight)
        room, weight = room - work.got, weight - work.weight


def simulate(rules: Rules, names: Iterable[str], seconds: Mapping[str, float], processors: int) -> dict[str, Span]:
    """Return when the proof of each crate begins and ends.

    Parameters
    ----------
    rules
        The rules by which crates are started.
    names
        What is to be proved, in the order in which crates are started that are ready.
    seconds
        The processor seconds of each, with one job.
    processors
        How many processors there are.
    """
    waiting, now = list(names), 0.0
    left, running = set(waiting), dict[str, Work]()
    begun, spans = dict[str, float](), dict[str, Span]()
    while left:
        for name in rules.ready(waiting, left)[: rules.most - len(running)]:
            running[name], begun[name] = Work(name, seconds[name], rules.share(name, running)), now
            waiting.remove(name)
        share_out(running.values(), processors)
        step = min(work.ends_in() for work in running.values())
        now += step
        for name, work in list(running.items()):
            work.move(step)
            if not work.parts:
                del running[name]
                left.remove(name)
                spans[name] = Span(begun[name], now, work.steps)
    return spans


def last(spans: Mapping[str, Span]) -> float:
    """Return when the last crate ends."""
    return max((span.end for span in spans.values()), default=0.0)


class Estimate:
    """How long a build takes.

    Parameters
    ----------
    rules
        The rules by which crates are started.
    names
        What is to be proved.
    seconds
        The processor seconds of each crate that was measured.
    processors
        How many processors there are.
    """

    def __init__(self, rules: Rules, names: Iterable[str], seconds: Mapping[str, float], processors: int) -> None:
        self.rules, self.names, self.processors = rules, rules.ranked(names), processors
        self.seconds = {name: max(1.0, seconds.get(name, graph.UNMEASURED)) for name in self.names}
        spans = simulate(rules, self.names, self.seconds, processors)
        self.expected = {name: span.end - span.begin for name, span in spans.items()}
        # What gives way in the build gives way to all that runs on the machine, and says less of what doesn't.
        self.weight = {name: STEP**span.steps for name, span in spans.items()}
        self.whole = last(spans)

    def pace(self, took: Mapping[str, float]) -> float:
        """Return how many times as long as expected the present build takes, by what some of its crates took."""
        expected = sum(self.weight[name] * self.expected[name] for name in took)
        found = sum(self.weight[name] * seconds for name, seconds in took.items())
        return max((KNOWN + found) / (KNOWN + expected), LEAST_PACE)

    def left(self, took: Mapping[str, float], running: Mapping[str, float]) -> float:
        """Return the seconds that the present build still takes.

        Parameters
        ----------
        took
            By the clock, the seconds that each crate took that is done.
        running
            The same of each crate that is being proved, until now.
        """
        late = {name: it for name, it in running.items() if it > self.expected[name]}
        pace = self.pace({**took, **late})
        seconds = dict(self.seconds)
        for name, it in running.items():
            seconds[name] *= max(1 - it / (pace * self.expected[name]), LEAST_LEFT)
        names = [*running, *(name for name in self.names if name not in took and name not in running)]
        return pace * last(simulate(self.rules, names, seconds, self.processors))


def in_minutes(seconds: float) -> str:
    """Return a time in words."""
    minutes = round(seconds / 60)
    return f"about {minutes} minute{'s' if minutes > 1 else ''}" if minutes else "less than a minute"
