"""What can be asked of many recordings."""

from __future__ import annotations

from collections.abc import Collection, Sequence
from typing import Any, NamedTuple, TypeAlias

from .._public import public
from ..desk.desk import Desk
from ..desk.recording import Part, Recording, choice_of, cpu_numbers, read_text
from ..desk.rows import Rows
from ..trace.text import text_again
from ..trace.wait_records import ChosenWaits
from ..waiting import counting
from ..waiting.counts import Counts
from ..waiting.parallel import check_jobs
from ..waiting.wait_answer import WaitAnswer
from ..waiting.waits import SPARE, ReadOptions, Waits, kind_names, waits, waits_of_recording


class Reply(NamedTuple):
    """What a recording answers.

    Attributes
    ----------
    part
        The answer.
    doubtful
        How many of its waits are doubtful.
    dropped
        How many events found no room in a table.
    """

    part: object
    doubtful: int = 0
    dropped: int = 0


@public
class Asked(NamedTuple):
    """A recording that has answered, and what you need to know about it.

    Attributes
    ----------
    path
        Its path.
    warning
        What was lost, in one line; None if nothing was.
    doubtful
        How many of its waits are doubtful.
    dropped
        How many events found no room in the table.
    bad_lines
        How many lines were left out since they can't be read.
    taken
        What was taken, if that is less than the whole, or may be.
    missing
        How many switches are missing though no line reports it, as far as that is known; for waits only.
    """

    path: str
    warning: str | None = None
    doubtful: int = 0
    dropped: int = 0
    bad_lines: int = 0
    taken: Part | None = None
    missing: int = 0


@public
class Failed(NamedTuple):
    """A recording that was left out.

    Attributes
    ----------
    path
        Its path.
    why
        Why, in one line.
    detail
        Where in the program that was, as Python prints it.
    """

    path: str
    why: str
    detail: str = ""

    def __str__(self) -> str:
        return f"{self.path}: {self.why}"


# What a recording has answered, which is of any type, or why it hasn't.
Outcome: TypeAlias = tuple[Asked | Failed, Any]


@public
class AskRows:
    """Asks each recording for the rows of a trigger's table, for `many`. The answer is `Rows`: rows of the same key are added
    up.

    Parameters
    ----------
    event
        The event that the trigger is attached to.
    trigger
        The trigger's text.
    needs
        Triggers that are attached before it, pairs of an event and a text: a saver for a trigger that reads, and so on.

    Raises
    ------
    Refused
        If a trigger can't be attached, before any recording is asked.

    Examples
    --------
    >>> AskRows("wakeup_latency", "hist:keys=lat.log2:sort=lat", needs=[
    ...     ("sched_waking", "hist:keys=pid:ts0=common_timestamp.usecs"),
    ...     ("sched_switch", "hist:keys=next_pid:lat=common_timestamp.usecs-$ts0:"
    ...         "onmatch(sched.sched_waking).wakeup_latency($lat,next_pid,next_prio)"),
    ... ])
    AskRows('wakeup_latency', 'hist:keys=lat.log2:vals=hitcount:sort=lat:size=2048')
    """

    adds_up = True

    def __init__(self, event: str, trigger: str, *, needs: Sequence[tuple[str, str]] = ()) -> None:
        self.event, self.trigger, self.needs = event, trigger, tuple(needs)
        with Desk() as desk:
            self.nothing = self._rows(desk)

    def _rows(self, desk: Desk) -> Rows:
        """Return the rows over what a desk holds."""
        for event, trigger in self.needs:
            desk.attach(event, trigger)
        return Rows.of(desk.attach(self.event, self.trigger))

    def ask(self, recording: Recording) -> Reply:
        """Ask one recording.

        Parameters
        ----------
        recording
            What was read of it.

        Returns
        -------
        Reply
            Its rows.

        Raises
        ------
        Refused
            3 if a line can't be read.
        """
        with recording.desk() as desk:
            rows = self._rows(desk)
        return Reply(rows, dropped=rows.dropped)

    def merge(self, parts: Sequence[Rows]) -> Rows:
        """Add up the rows of several recordings.

        Parameters
        ----------
        parts
            The rows of each.

        Returns
        -------
        Rows
            The sum, which has no row if there are none.
        """
        return Rows.merged([self.nothing, *parts])

    def __repr__(self) -> str:
        return f"AskRows({self.event!r}, {self.nothing.canonical!r})"


@public
class AskWaits:
    """Asks each recording how long its tasks waited, for `many`. The answer is `Counts`: waits counted by key and by
    microsecond, so that percentiles of all recordings together are exact.

    A recording may be of any length: it is read in pieces, and its waits are counted, and not kept. A key's greatest wait has
    the path of its recording as `source`.

    Parameters
    ----------
    by
        What waits are counted by, as `Waits.counts` takes it.
    kinds, cpus
        Which waits are counted, as `Waits.only` takes them; all if they are None.
    doubtful
        Whether doubtful waits are counted too.
    jobs
        How many parts of each recording are read at once, by threads of the process that reads it, as `waits` takes it.

    Raises
    ------
    ValueError
        If one of them can't be asked for.
    TypeError
        If a CPU or `jobs` is no whole number.
    """

    adds_up = True
    # What `many` reads a recording with, unless it is told otherwise: events that no wait needs are left out first.
    reading = {"spare": SPARE}

    def __init__(
        self,
        by: str = "name",
        *,
        kinds: str | Collection[str] | None = None,
        cpus: int | Collection[int] | None = None,
        doubtful: bool = False,
        jobs: int | None = 1,
    ) -> None:
        self.by, self.doubtful, self.jobs = by, doubtful, check_jobs(jobs)
        self.kinds, self.cpus = kind_names(kinds), cpu_numbers(cpus)
        self.nothing = self._counts(waits(b""))

    def _counts(self, result: Waits) -> Counts:
        """Return the counts of the waits that are asked for."""
        return result.only(kinds=self.kinds, cpus=self.cpus).counts(self.by, self.doubtful)

    def ask(self, recording: Recording) -> Reply:
        """Ask what was read of one recording.

        Parameters
        ----------
        recording
            What was read of it.

        Returns
        -------
        Reply
            The counts of its waits.

        Raises
        ------
        Refused
            3 if a line can't be read.
        """
        result = waits_of_recording(recording)
        counts = self._counts(result).named(recording.path or "")
        return Reply(counts, doubtful=counts.doubtful, dropped=result.dropped)

    def ask_path(
        self,
        path: str,
        *,
        lenient: bool = False,
        **choice: Any,
    ) -> tuple[Asked, Counts]:
        """Ask one recording, which is read here.

        Parameters
        ----------
        path
            Its path.
        lenient
            As for `read`.
        choice
            Other arguments of `read`, which choose a part. Without a `spare`, events that no wait needs are spared.

        Returns
        -------
        tuple of Asked and Counts
            What has to be known of it, and the counts of its waits.

        Raises
        ------
        OSError
            If it can't be read.
        Refused
            3 if a line can't be read.
        """
        if all(value is None for value in choice.values()):
            counts_choice = counting.CountBy(self.by, self.doubtful, ChosenWaits(self.kinds, self.cpus))
            answer = counting.count_waits(path, counts_choice, ReadOptions(lenient, jobs=self.jobs))
            return self._about(path, answer, answer.counts(self.by, self.doubtful))
        words: dict[str, Any] = {**self.reading, **choice}
        text = text_again(path)
        part = choice_of(text, **words)
        recording = read_text(path, text, part, lenient)
        result = waits_of_recording(recording)
        asked, counts = self._about(path, result, self._counts(result))
        if part.events is None:
            return asked, counts
        # A desk holds these events.
        return asked._replace(bad_lines=len(recording.bad_lines), taken=recording.taken), counts

    def _about(self, path: str, answer: WaitAnswer, counts: Counts) -> tuple[Asked, Counts]:
        """Return what has to be known of a recording, and its counts under its path."""
        asked = Asked(path, answer.warning, counts.doubtful, answer.dropped, answer.bad_lines, missing=answer.missing or 0)
        return asked, counts.named(path)

    def merge(self, parts: Sequence[Counts]) -> Counts:
        """Add up the counts of several recordings.

        Parameters
        ----------
        parts
            The counts of each.

        Returns
        -------
        Counts
            The sum, which counts nothing if there are none.
        """
        return Counts.merged([self.nothing, *parts])

    def __repr__(self) -> str:
        return f"AskWaits({self.by!r})"
