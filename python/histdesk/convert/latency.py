"""The flags of events, such as `d.h2.`, which trace-cmd prints only in its latency layout, where names are cut off."""

from __future__ import annotations

import re
from collections.abc import Iterator

from .text_format import Readable

# The CPU of an event in a text with stamps of nine digits; then its stamp, before which its flags go. No name has room for it.
EVENT = re.compile(rb"(\[[0-9]+\] )(?= *([0-9]+\.[0-9]{9}): )")
# The same in the latency layout: its flags, which follow its CPU directly, with a blank; and its stamp.
LATENCY = re.compile(rb"-[0-9]+ +[0-9]+([^ :0-9\n][^ :\n]{1,13} ) *([0-9]+\.[0-9]{9}): ")
# Among how many events of the latency layout one of the text is looked for.
MOST = 64


def whole_lines(source: Readable, size: int) -> Iterator[bytes]:
    """Yield what is read of a source, so many bytes at once, in whole lines, except at its end."""
    rest = b""
    while chunk := source.read(size):
        end = chunk.rfind(b"\n") + 1
        if end:
            yield rest + chunk[:end]
            rest = b""
        rest += chunk[end:]
    if rest:
        yield rest


class Flagged:
    """A text of `trace-cmd report` in which each event has its flags, which stand in the same report's latency layout."""

    def __init__(self, source: Readable, latency: Readable, size: int) -> None:
        """Take both texts, of which so many bytes are read at once."""
        self._lines, self._latency = whole_lines(source, size), whole_lines(latency, size)
        # How many events were read.
        self.count = 0
        # The next events of the latency layout: their stamps and flags.
        self._stamps: list[bytes] = []
        self._flags: list[bytes] = []

    def read(self, size: int) -> bytes:
        """Return the next lines, however many bytes these are; none at the end."""
        # What stands before the CPU of an event, that CPU, and the stamp, in turn.
        parts = EVENT.split(next(self._lines, b""))
        stamps = parts[2::3]
        self.count += len(stamps)
        self._fill(len(stamps))
        if stamps == self._stamps[: len(stamps)]:
            parts[2::3] = self._flags[: len(stamps)]
            del self._stamps[: len(stamps)], self._flags[: len(stamps)]
        else:
            parts[2::3] = map(self._flags_of, stamps)
        return b"".join(parts)

    def _flags_of(self, stamp: bytes) -> bytes:
        """Return the flags of the next event with a stamp, with a blank; nothing if it isn't there."""
        self._fill(MOST)
        if stamp not in self._stamps[:MOST]:
            return b""
        at = self._stamps.index(stamp)
        flags = self._flags[at]
        del self._stamps[: at + 1], self._flags[: at + 1]
        return flags

    def _fill(self, count: int) -> None:
        """Read the latency layout until so many events of it are at hand, or to its end."""
        while len(self._stamps) < count:
            lines = next(self._latency, None)
            if lines is None:
                return
            found = LATENCY.findall(lines)
            self._flags += [flags for flags, _ in found]
            self._stamps += [stamp for _, stamp in found]
