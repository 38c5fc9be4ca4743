"""Waits of a text that are counted, and not kept."""

from __future__ import annotations

import contextlib
import functools
from collections.abc import Collection, Iterator
from typing import TYPE_CHECKING, NamedTuple

import numpy as np

from ..desk.desk import Trace
from ..native import layout
from ..trace import stream
from ..trace.stream import ReadText
from ..trace.wait_records import KINDS, Aside, ChosenWaits
from .counts import Counts
from .parallel import call_at_once
from .tally import LastNames, Tally
from .wait_answer import About, WaitAnswer
from .waits import ReadOptions, about_text, answer_of, unknown_of

if TYPE_CHECKING:
    from ..trace.text import Text
    from ..trace.wait_records import Structs


class CountBy(NamedTuple):
    """What waits are counted by, whether doubtful ones are counted, and which waits are chosen."""

    by: str
    doubtful: bool = False
    chosen: ChosenWaits = ChosenWaits()


class CountedWaits(WaitAnswer):
    """Waits that were counted by one field, with doubtful ones or without them."""

    def __init__(self, about: About, choice: CountBy, counts: Counts, kinds: Kinds, names: dict[int, str]) -> None:
        """Take what else is known, the counts, how many waits there are of each kind, and the last name of each task if some
        waits are doubtful."""
        self._about, self._choice = about, choice
        self._counts, self._kinds, self._names = counts, kinds, names

    def __len__(self) -> int:
        return self._counts.count + (0 if self._choice.doubtful else self._counts.doubtful)

    @property
    def doubtful(self) -> int:
        return self._counts.doubtful

    @property
    def likely(self) -> int:
        return self._kinds.likely

    def counts(self, by: str = "task", doubtful: bool = False) -> Counts:
        self._check(by, doubtful)
        return self._counts

    def _last_names(self) -> dict[int, str]:
        return self._names

    def _by_kind(self, doubtful: bool) -> list[int]:
        self._check(self._choice.by, doubtful)
        return self._kinds.counts

    def _check(self, by: str, doubtful: bool) -> None:
        """Raise `ValueError` if they were counted by another field, or doubtful ones weren't counted or left out as asked."""
        if (by, doubtful) != self._choice[:2]:
            how = "with" if self._choice.doubtful else "without"
            raise ValueError(f"these waits were counted by {self._choice.by!r}, {how} doubtful ones, and in no other way")


class Kinds:
    """How many waits there are of each kind: of all, and of those that are chosen and counted; and how many of the chosen ones
    are likely."""

    def __init__(self, choice: CountBy) -> None:
        self._choice = choice
        self.all, self.counts, self.likely = [0] * len(KINDS), [0] * len(KINDS), 0

    def add_all(self, records: Structs) -> None:
        """Count some records."""
        self.all = add_kind_counts(self.all, records)

    def add(self, other: Kinds) -> None:
        """Add the counts of another `Kinds`."""
        self.all = [count + more for count, more in zip(self.all, other.all)]
        self.counts = [count + more for count, more in zip(self.counts, other.counts)]
        self.likely += other.likely

    def add_chosen(self, records: Structs) -> None:
        """Count some records of chosen waits."""
        doubt = records["doubt"]
        self.counts = add_kind_counts(self.counts, records if self._choice.doubtful else records[doubt == layout.SURE])
        self.likely += int(np.count_nonzero(doubt == layout.LIKELY))


def add_kind_counts(counts: list[int], records: Structs) -> list[int]:
    """Return how many waits there are of each kind, with those of some records."""
    more_of_each = np.bincount(records["kind"], minlength=len(KINDS)).tolist()
    return [count + more for count, more in zip(counts, more_of_each)]


def count_waits(trace: Trace, choice: CountBy, options: ReadOptions = ReadOptions()) -> WaitAnswer:
    """Count the waits of a whole text.

    How sure a wait is shows only at the text's end, so until then 48 bytes of each are put aside, in a temporary file if they
    are many. Raises what `waits.waits_of_text` does."""

    def count(text: ReadText, _: Text | None) -> CountedWaits:
        return count_text(text, choice, options.path)

    answer = answer_of(count, put_aside, trace, options._replace(keeps=False))
    return answer if isinstance(answer, CountedWaits) else answer.only(**choice.chosen._asdict())


def put_aside() -> Aside:
    """Return what puts waits aside until all of them are there."""
    return Aside(stream.CHUNK)


class Portion:
    """What is counted of some of the waits of a text, in the order in which they ended."""

    def __init__(self, choice: CountBy) -> None:
        self._choice = choice
        self.tally, self.last, self.kinds = Tally(choice.by, choice.doubtful), LastNames(), Kinds(choice)

    def add(self, parts: Iterator[Structs], text: ReadText, numbers: Collection[int]) -> None:
        """Count the waits of a text that was read. `numbers` are those of the chosen names."""
        chosen = self._choice.chosen
        for records in parts:
            if text.read.losses.holes:
                text.feed.judge(records)
            self.kinds.add_all(records)
            if not chosen.is_all():
                records = records[chosen.mask(records, numbers)]
            self.kinds.add_chosen(records)
            self.tally.add(records)
            if text.read.losses.holes or text.waits.is_doubtful:
                self.last.add(records)


def count_text(text: ReadText, choice: CountBy, path: str | None) -> CountedWaits:
    """Count the waits of a text that was read, and close its stream."""
    with contextlib.closing(text.feed):
        names = text.waits.names()
        portions = [(Portion(choice), parts) for parts in text.waits.portions()]
        numbers = choice.chosen.name_numbers(names)
        call_at_once([functools.partial(portion.add, parts, text, numbers) for portion, parts in portions])
    counts = Counts.merged([portion.tally.counts(names) for portion, _ in portions])
    kinds, last = Kinds(choice), {}
    for portion, _ in portions:
        kinds.add(portion.kinds)
        last.update(portion.last.by_pid(names))
    return CountedWaits(about_text(path, text.read, unknown_of(kinds.all)), choice, counts, kinds, last)
