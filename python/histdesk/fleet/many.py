"""The same question to many recordings, and one answer."""

from __future__ import annotations

import contextlib
import html
import inspect
import os
import sys
import time
import warnings
from typing import TYPE_CHECKING, Any, Callable, Generator, Iterable, Protocol, Sequence, Union

from .._public import public
from ..desk.recording import Recording, read
from ..show import tables
from ..trace.losses import LossWarning
from .questions import Asked, Failed, Outcome

if TYPE_CHECKING:
    from .workers import Client

Path = Union[str, bytes, "os.PathLike[str]", "os.PathLike[bytes]"]

# How many of the recordings that were left out are named.
MOST_NAMED = 5
# If there are more parts than this, they are added up.
BATCH = 32
# How many seconds pass until progress is printed, and between two lines of it if they stay.
PATIENCE, BETWEEN = 1.0, 10.0


class Question(Protocol):
    """What can be asked of a recording; `many` says what else it may have."""

    @property
    def ask(self) -> Callable[[Recording], object]:
        """The function that answers for one recording."""


@public
class LeftOutWarning(UserWarning):
    """Some of many recordings were left out or read in part, or their tables had no room for all keys."""


@public
class Many:
    """What many recordings have answered together; `many` makes it.

    Attributes
    ----------
    answer
        The answer of all recordings together.
    asked
        An `Asked` for each recording that answered, in the order of their paths.
    failed
        A `Failed` for each that was left out: its `path`, and `why` in one line.
    remarks
        What has to be known before the answer is believed, a line each.
    """

    # What `merge` of the question returns, which may be anything.
    answer: Any

    def __init__(self, answer: object, asked: Sequence[Asked], failed: Sequence[Failed]) -> None:
        """Take the answer, the recordings that it is of, and those that were left out."""
        self.answer, self.asked, self.failed = answer, tuple(asked), tuple(failed)

    @property
    def remarks(self) -> tuple[str, ...]:
        """What has to be known before the answer is believed, a line each: recordings that were left out, lost events, doubtful
        waits, missing switches, hits that found no room, lines that were left out, and recordings of which a part was read."""
        failures = failure_remarks(self.failed, len(self.asked) + len(self.failed))
        return (*failures, *loss_remarks(self.asked), *missing_remarks(self.asked), *partial_remarks(self.asked))

    def _lines(self) -> list[str]:
        """Return what is printed above the answer."""
        count = len(self.asked) + len(self.failed)
        lines = [f"histdesk.Many: {len(self.asked)} of {count} recordings answered", *self.remarks]
        return list(map(tables.printable, lines))

    def __repr__(self) -> str:
        return "\n".join([*self._lines(), repr(self.answer)])

    def _repr_html_(self) -> str:
        front = "\n".join(self._lines())
        make = getattr(self.answer, "_repr_html_", None)
        return f"<pre>{html.escape(front)}</pre>{make() if make else f'<pre>{html.escape(repr(self.answer))}</pre>'}"


# ---- remarks


def failure_remarks(failed: Sequence[Failed], count: int) -> list[str]:
    """Return which of so many recordings were left out, and why."""
    if not failed:
        return []
    more = [f"and {len(failed) - MOST_NAMED} more"] if len(failed) > MOST_NAMED else []
    return [f"{len(failed)} of {count} recordings were left out:", *(f"  {one}" for one in [*failed[:MOST_NAMED], *more])]


def loss_remarks(asked: Sequence[Asked]) -> list[str]:
    """Return in which recordings events were lost, and how many waits are doubtful because of that."""
    paths, remarks = [one.path for one in asked if one.warning], []
    if paths:
        first = paths[0] if len(paths) == 1 else f"{paths[0]}, .."
        remarks.append(
            f"events were lost in {len(paths)} of {len(asked)} recordings ({first}): waits during such a time are doubtful"
        )
    doubtful = [one.doubtful for one in asked if one.doubtful]
    if doubtful:
        remarks.append(f"{total_of(doubtful, 'wait')} {tables.are(sum(doubtful))} doubtful")
    return remarks


def missing_remarks(asked: Sequence[Asked]) -> list[str]:
    """Return how many switches are missing although no line reports a loss."""
    missing = [one.missing for one in asked if one.missing]
    if not missing:
        return []
    switches, were = ("1 switch", "was") if sum(missing) == 1 else (f"{sum(missing)} switches", "were")
    recordings = tables.count_of(len(missing), "recording")
    result = "waits that such a switch ended are not counted, and others may be too long"
    return [f"at least {switches} of {recordings} {were} not recorded: {result}"]


def total_of(counts: Sequence[int], what: str) -> str:
    """Return the sum of the counts of some recordings, in words."""
    return f"{tables.count_of(sum(counts), what)} of {tables.count_of(len(counts), 'recording')}"


def partial_remarks(asked: Sequence[Asked]) -> list[str]:
    """Return what the answer lacks of the recordings, because there was no room for it or it can't be read."""
    remarks = []
    dropped = [one.dropped for one in asked if one.dropped]
    if dropped:
        remarks.append(f"{total_of(dropped, 'hit')} found no room in the table")
    bad = [one.bad_lines for one in asked if one.bad_lines]
    if bad:
        remarks.append(f"{total_of(bad, 'line')} can't be read and {'was' if sum(bad) == 1 else 'were'} left out")
    cut = [one.path for one in asked if one.taken and one.taken.rest is not None]
    if cut:
        count = tables.count_of(len(cut), "recording")
        remarks.append(f"only the first part of {count} was read ({cut[0]}), since a desk holds no more")
    return remarks


# ---- how they are asked


@public
def many(
    paths: Iterable[Path],
    question: Question | Callable[[Recording], object],
    *,
    processes: int | None = None,
    client: Client | None = None,
    progress: bool | None = None,
    **choice: Any,
) -> Many:
    """Ask each of many recordings the same question, and add up the answers.

    `AskWaits` and `AskRows` are such questions:

        if __name__ == "__main__":
            fleet = histdesk.many(glob.glob("*.trace"), histdesk.AskWaits(by="name"))
            fleet.answer.percentile(99.9)

    A recording that can't be read, or for which the question raises an exception, is left out, and so is one whose worker is
    killed twice while asking it: `Many.failed` says why. All others have their answers: if a worker is killed, its
    recordings are asked again. The order of the paths doesn't matter.

    What was lost is reported by one `LossWarning`, and what was left out by one `LeftOutWarning`.

    Parameters
    ----------
    paths
        The recordings.
    question
        An object that can be pickled and has the method `ask(recording)`, which gets a `Recording` and returns an answer that
        can be pickled, and perhaps `merge(parts)`, which gets the answers in the order of their paths and makes one of them. If
        the attribute `adds_up` of the question is true, `merge` also gets its own answers, in any order, so that not all of
        them have to be held at once. Without `merge`, the answer is a dictionary with the answer of each path. The question may
        also be a function that gets a `Recording`.
    processes
        How many processes of this machine ask; None for as many as there are processors, 0 for this process.
    client
        A client of Dask: the workers of its cluster ask. They must find the files by the same paths.
    progress
        Whether progress is printed on standard error; if None, only on a terminal, once it takes longer than a second.
    choice
        What part of each recording is read, by the keywords of `read`.

    Returns
    -------
    Many
        The answer, and what you need to know about it.

    Raises
    ------
    TypeError
        If `paths` is one path, if the question can't be handed to workers, if `processes` is no whole number, or if both
        `processes` and `client` are given.
    ValueError
        If a path is given twice, or `processes` is negative.
    RuntimeError
        If no worker can begin.

    Notes
    -----
    A worker needs this package and the library `libhistdesk.so.0`, and what the question needs. `AskWaits` needs numpy; it
    reads recordings of any length in pieces, and takes 60 MB. The desk of another question holds the first part of a long
    recording, and takes 300 to 600 MB for a million events.
    """
    names = names_of(paths)
    inspect.signature(read).bind(None, **choice)
    answers = Answers(question)
    outcomes = outcomes_of(answers.question, names, choice, processes=processes, client=client)
    # If anything goes wrong here, the workers stop at once.
    with contextlib.closing(outcomes), Progress(len(names), progress) as line:
        for outcome in outcomes:
            answers.add(outcome)
            line.step(isinstance(outcome[0], Failed))
    result = answers.together()
    warn_of(result)
    return result


def names_of(paths: Iterable[Path]) -> list[str]:
    """Return paths as texts, in order.

    Raises
    ------
    TypeError
        If it is one path.
    ValueError
        If one is given twice.
    """
    if isinstance(paths, (str, bytes, os.PathLike)):
        raise TypeError(f"give several paths, in a list; glob.glob({os.fsdecode(paths)!r}) returns those of a pattern")
    names = sorted(map(os.fsdecode, paths))
    for one, other in zip(names, names[1:]):
        if one == other:
            raise ValueError(f"{one} is named twice")
    return names


def outcomes_of(
    question: Question,
    names: Sequence[str],
    choice: dict[str, Any],
    *,
    processes: int | None,
    client: Client | None,
) -> Generator[Outcome, None, None]:
    """Ask recordings, and go through their answers as they come."""
    # This is imported here, since few need processes, and it takes long.
    from ..native.arguments import whole
    from .workers import by_dask, by_pool, by_this_process, task_of

    if client is not None:
        if processes is not None:
            raise TypeError("give either processes of this machine or a client, whose cluster has its own")
        if client.asynchronous:
            raise TypeError("many() waits for answers, so the client must not be asynchronous")
        return by_dask(client, task_of(question, choice, True), names)
    count = len(os.sched_getaffinity(0)) if processes is None else whole(processes, "processes")
    if count < 0:
        raise ValueError(f"processes must be a number from 0 on, not {count}")
    return by_pool(task_of(question, choice, False), names, count) if count else by_this_process(question, names, choice)


class Function:
    """A function as a question."""

    def __init__(self, function: Callable[[Recording], object]) -> None:
        """Take the function."""
        self.ask = function


class Answers:
    """What has been answered so far."""

    def __init__(self, question: Question | Callable[[Recording], object]) -> None:
        """Begin with no answers.

        Raises
        ------
        TypeError
            If that is no question.
        """
        if not hasattr(question, "ask") and not callable(question):
            raise TypeError("a question must have a method `ask` or be a function")
        self.question: Question = question if hasattr(question, "ask") else Function(question)
        self.adds_up: bool = getattr(question, "adds_up", False)
        self.merge: Callable[[list[object]], object] | None = getattr(question, "merge", None)
        self.asked: list[Asked] = []
        self.failed: list[Failed] = []
        # The answers, by path; if they add up, only those that aren't added up yet, and the sum of the others.
        self.parts: list[tuple[str, object]] = []

    def add(self, outcome: Outcome) -> None:
        """Take the answer of one recording."""
        known, part = outcome
        if isinstance(known, Failed):
            self.failed.append(known)
            return
        self.asked.append(known)
        self.parts.append((known.path, part))
        if self.merge and self.adds_up and len(self.parts) > BATCH:
            self.parts = [("", self.merge([part for _, part in self.parts]))]

    def together(self) -> Many:
        """Return the answer of all."""
        self.parts.sort(key=lambda pair: pair[0])
        answer = self.merge([part for _, part in self.parts]) if self.merge else dict(self.parts)
        return Many(answer, sorted(self.asked), sorted(self.failed))


def warn_of(result: Many) -> None:
    """Warn of what was lost, and of what was left out."""
    failures = failure_remarks(result.failed, len(result.asked) + len(result.failed))
    warning_lines = [
        (LossWarning, loss_remarks(result.asked)),
        (LeftOutWarning, [*failures, *partial_remarks(result.asked)]),
    ]
    for kind, lines in warning_lines:
        if lines:
            # The recordings that were left out stand on lines of their own, after the line with their number.
            text = "; ".join(line.strip() for line in lines).replace("out:; ", "out: ")
            warnings.warn(tables.printable(text), kind, stacklevel=3)


# ---- progress


class Progress:
    """A line on standard error that says how many recordings are done."""

    def __init__(self, count: int, is_wanted: bool | None) -> None:
        """Begin with the number of recordings, and whether a line is wanted; None for a line only on a terminal."""
        self.count, self.done, self.failed = count, 0, 0
        # There may be no standard error.
        self.is_terminal = bool(sys.stderr and sys.stderr.isatty())
        self.is_wanted = self.is_terminal if is_wanted is None else is_wanted
        self.begun = time.monotonic()
        self.next = self.begun + (PATIENCE if self.is_terminal else BETWEEN)

    def __enter__(self) -> Progress:
        return self

    def step(self, is_failed: bool) -> None:
        """Count one more recording, and print a line if it is time."""
        self.done += 1
        self.failed += is_failed
        now = time.monotonic()
        if self.is_wanted and now >= self.next:
            self.next = now + (0.1 if self.is_terminal else BETWEEN)
            self.write(self.line(now))

    def line(self, now: float) -> str:
        """Return the line: how many recordings are done, and about how long the others take."""
        left = (now - self.begun) / self.done * (self.count - self.done)
        failed = f", {self.failed} left out" if self.failed else ""
        return f"histdesk: {self.done} of {self.count} recordings{failed}, about {round(left)} s left"

    def write(self, line: str) -> None:
        """Print a line; on a terminal, it replaces the last one."""
        print(
            f"\r{line}\x1b[K" if self.is_terminal else line, end="" if self.is_terminal else "\n", file=sys.stderr, flush=True
        )

    def __exit__(self, *_: object) -> None:
        if self.is_wanted and self.is_terminal:
            self.write("")
