"""Long recordings: copies of a small one, one after the other, so that what is true of two and three of them tells what is true
of many. What tests import from here uses neither the package nor the program."""

import re
from typing import Callable, Dict, List

from plain_waits import LINE
from recordings import Place, Wait

STAMP = re.compile(rb" ([0-9]+)\.([0-9]{6}): ")
# How many microseconds lie between two copies.
APART = 10


class Copies:
    """Copies of the events of a recording. Each event stands so many microseconds later than in the copy before."""

    def __init__(self, text: bytes) -> None:
        self.lines = [line for line in text.split(b"\n") if LINE.fullmatch(line.decode("utf-8", "surrogateescape"))]
        found = [STAMP.search(line) for line in self.lines]
        self.stamps = [int(stamp[1]) * 1000000 + int(stamp[2]) for stamp in found if stamp]
        self.after = max(self.stamps) - min(self.stamps) + APART
        self.counts: Dict[int, int] = {}
        for line in self.lines:
            cpu = int(line.partition(b"[")[2].partition(b"]")[0])
            self.counts[cpu] = self.counts.get(cpu, 0) + 1
        fronts, rests = zip(*((line[: stamp.start()], line[stamp.end() :]) for line, stamp in zip(self.lines, found) if stamp))
        # One copy, as the operator % takes it.
        parts = [part.replace(b"%", b"%%") for pair in zip(fronts, rests) for part in pair]
        self._form = b"".join(b"%b %%d.%%06d: %b\n" % pair for pair in zip(parts[::2], parts[1::2]))

    def text(self, count: int) -> bytes:
        """Return the text of so many copies."""
        return b"".join(self._form % tuple(self._split(at * self.after)) for at in range(count))

    def _split(self, later: int) -> List[int]:
        """The seconds and microseconds of all stamps of a copy."""
        return [part for stamp in self.stamps for part in divmod(stamp + later, 1000000)]

    def later(self, wait: Wait, copies: int) -> Wait:
        """A wait as it is so many copies later."""
        return wait._replace(begin=self._later(wait.begin, copies), end=self._later(wait.end, copies))

    def _later(self, place: Place, copies: int) -> Place:
        return Place(place.stamp + copies * self.after, place.cpu, place.line + copies * self.counts[place.cpu])

    def waits(self, fold: Callable[[bytes], List[Wait]], count: int) -> List[Wait]:
        """Return the waits of so many copies, from what a fold says of two and of three. It says that the third copy adds what
        the second one adds, later; and so does each further one, since it begins as the third one begins."""
        two, three = fold(self.text(2)), fold(self.text(3))
        second = min(self.stamps) + self.after
        added = [wait for wait in two if wait.end.stamp >= second]
        assert three == [*two, *(self.later(wait, 1) for wait in added)], "the third copy adds something else"
        return [*two, *(self.later(wait, copy) for copy in range(1, count - 1) for wait in added)]
