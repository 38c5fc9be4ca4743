"""What a converter reports on standard error: a line for each of the first lines that it leaves out, and how many more."""

from __future__ import annotations

import sys

from .. import _invocation
from ..trace.kind import origin_of_lines

# How many lines that can't be converted are shown, and how many bytes of each.
MOST, ROOM = 5, 120
# If so many lines come and no event is among them, it is another text.
FOREIGN = 200


class ConversionError(Exception):
    """The whole file can't be converted; the message is one line."""


def printable(line: bytes) -> str:
    """Return a line, or the beginning of a long one, in printable ASCII; other bytes are `\\xNN`."""
    text = "".join(chr(byte) if 32 <= byte < 127 and byte != 92 else f"\\x{byte:02x}" for byte in line[:ROOM])
    return text + (" .." if len(line) > ROOM else "")


class Report:
    """Counts what is left out, masked and lost, and prints it."""

    def __init__(self, tool: str, form: str, path: str) -> None:
        """Start a report.

        Parameters
        ----------
        tool
            The name with which messages begin.
        form
            What prints the kind of text that is converted, such as `perf script`.
        path
            The file.
        """
        self.tool, self.form = tool, form
        self.path = "standard input" if path == "/dev/stdin" else path
        # Whether a line was converted.
        self.has_events = False
        self.left_out = 0
        self.masked = 0
        # In how many places events were lost, how many of each CPU, and whether more of them were lost than is known.
        self.places = 0
        self.lost: dict[int, int] = {}
        self.is_more_lost = False
        self._first_masked = ""
        # The messages about the first lines that were left out, until something is converted.
        self._first: list[str] = []
        self._sample: list[bytes] = []

    def say(self, text: str) -> None:
        """Print a line."""
        print(f"{self.tool}: {text}", file=sys.stderr)

    def leave_out(self, number: int, why: Exception, line: bytes) -> None:
        """Take note of a line that is left out. Raises `ConversionError` if many were and none was converted."""
        self.left_out += 1
        if self.left_out <= MOST:
            self._first.append(f"line {number}: {why}: {printable(line)}")
        if not self.has_events:
            self._sample.append(line)
            self.check_kind(FOREIGN)

    def check_kind(self, most: int) -> None:
        """Raise `ConversionError` if so many lines were left out and none was converted."""
        if self.has_events or self.left_out < most:
            return
        origin = origin_of_lines(self._sample)
        if origin and self.form not in origin.what:
            what, tool = origin.what.removeprefix("what ").removesuffix(" printed"), _invocation.tool(origin.converter)
            raise ConversionError(f"{self.path} is no text of {self.form}, but of {what} or like it; {tool} converts that")
        raise ConversionError(f"{self.path} is no text of {self.form}; {self._first[0]}")

    def say_first(self) -> None:
        """Print the first lines that were left out, unless they were printed or nothing is converted yet."""
        while self._first and self.has_events:
            self.say(self._first.pop(0))

    def mask(self, number: int, line: bytes) -> None:
        """Take note of a name that was masked in a line."""
        if not self.masked:
            self._first_masked = f"line {number}: {printable(line)}"
        self.masked += 1

    def lose(self, cpu: int, count: int | None) -> None:
        """Take note of a place at which events of a CPU were lost; the count is None if it isn't known."""
        self.places += 1
        self.lost[cpu] = self.lost.get(cpu, 0) + (count or 0)
        self.is_more_lost |= count is None

    def finish(self) -> None:
        """Print the sums. Raises `ConversionError` if there were lines and none was converted."""
        self.check_kind(1)
        self.say_first()
        if self.left_out > MOST:
            self.say(f"{self.left_out - MOST} more lines can't be converted and are left out too")
        if self.masked:
            lines = f"{self.masked} lines" if self.masked > 1 else "a line"
            self.say(f"names in {lines} would mislead the desk and are masked with ?; the first, {self._first_masked}")
        if self.places:
            count = f"{sum(self.lost.values()) or 'some'} events{' and more' * (self.is_more_lost and any(self.lost.values()))}"
            places = f"{self.places} places" if self.places > 1 else "one place"
            cpus = ", ".join(f"CPU {cpu}" for cpu in sorted(self.lost))
            self.say(f"{count} were lost at {places} ({cpus}); lines of the trace say where")
