"""Waits of a text in parts, of which no more than one is in memory."""

from __future__ import annotations

from collections.abc import Iterator
from ..desk.desk import Trace
from ..trace.stream import ReadText
from ..trace.text import Text
from .counting import put_aside
from .wait_answer import WaitAnswer
from .waits import ReadOptions, Waits, about_text, answer_of

# How many waits a part has.
PART = 1 << 14


class InParts(WaitAnswer):
    """Waits of a text that are put aside until its end: before that nobody knows how sure they are."""

    def __init__(self, text: ReadText, path: str | None) -> None:
        """Take a text that was read. Its stream is asked later how sure the waits are."""
        self._text = text
        self._about = about_text(path, text.read, ())

    def __len__(self) -> int:
        return len(self._text.waits)

    def parts(self) -> Iterator[Waits]:
        """Yield the waits, in the order in which they ended."""
        names = self._text.waits.names()
        for records in self._text.waits.parts():
            if self.holes:
                self._text.feed.judge(records)
            yield Waits(records, names, self._about)


def waits_in_parts(trace: Trace, options: ReadOptions = ReadOptions()) -> WaitAnswer:
    """Return the waits of a whole text, for `parts_of`; the parameters are those of `waits_of_text`."""

    def answer(text: ReadText, _: Text | None) -> InParts:
        return InParts(text, options.path)

    return answer_of(answer, put_aside, trace, options._replace(keeps=False))


def parts_of(answer: WaitAnswer) -> Iterator[Waits]:
    """Yield waits in parts: those of a text that were put aside, or others."""
    if isinstance(answer, InParts):
        yield from answer.parts()
    elif isinstance(answer, Waits):
        for start in range(0, len(answer), PART):
            yield answer[start : start + PART]
