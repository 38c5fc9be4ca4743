"""What a converter has to know of the text that it converts."""

from __future__ import annotations

import contextlib
import re
from collections.abc import Callable, Iterable, Sequence
from typing import Protocol, TypeAlias

from .blocks import Writer, front_of
from .lines import Line
from .report import Report, printable

# What the groups of a pattern match in a line; those that match nothing are empty.
Groups: TypeAlias = tuple[bytes, ...]


class Readable(Protocol):
    """What gives bytes, and none at its end."""

    def read(self, size: int, /) -> bytes:
        """Return the next bytes."""


class TextFormat:
    """The text that a tool prints, and how its lines are converted.

    Attributes
    ----------
    pattern
        For `findall`: it matches each line with its line break, and the last group is an odd line without it.
    name
        What prints the text.
    advice
        What to do if the fields of an event have another layout.
    program, command
        The program that reads a recording, and the command by which it prints the text of one, without the recording's path.
    is_apart
        Whether the program of `quick_command` reads recordings by itself, so that what it writes first is compared with what
        the tool prints first.
    events
        How many events a recording has, once it is converted and if they are counted.
    """

    pattern: re.Pattern[bytes]
    name = advice = ""
    program = ""
    command: tuple[str, ...] = ()
    is_apart = False
    events = 0

    @property
    def holds_back(self) -> bool:
        """Whether nothing may be written before the end is known."""
        return False

    def begin(self, path: str) -> None:
        """Take note of the recording that is converted. Raises `OSError` if it can't be read."""

    def prepared(self, text: bytes, has_all: bool = True) -> bytes:
        """Return whole lines, prepared for conversion; `has_all` says whether all lines of the text are prepared, in turn."""
        return text

    def writer(self, sink: Writer) -> Writer:
        """Return what takes the converted lines, for a sink in which they end."""
        return sink

    def unchanged(self, text: bytes) -> int:
        """Return how many lines a text has if each of them stays as it is; 0 if one doesn't, or if that isn't known quickly."""
        return 0

    def find(self, text: bytes) -> Sequence[Groups]:
        """Return the matches of the pattern in whole lines."""
        return self.pattern.findall(text)

    def places(self, line: bytes) -> Sequence[bytes]:
        """Return the places about which a converted line says something to later lines."""
        return ()

    def plain(self, matches: Sequence[Groups]) -> list[bytes]:
        """Return matches of the pattern as converted lines with line breaks. Odd lines become what empty groups become."""
        raise NotImplementedError

    def aside(self, line: bytes, report: Report) -> bytes | None:
        """Return what a line that holds no event becomes, with its line break, or empty; None for a line of an event."""
        raise NotImplementedError

    def parts(self, line: bytes, earlier: Callable[[], Iterable[bytes]]) -> Line:
        """Return the parts of an odd line, or of one that the line breaks of names have torn.

        Parameters
        ----------
        line
            The line, without its line break.
        earlier
            Goes through the converted lines before it, backwards, as far as they are at hand.

        Raises
        ------
        NotConvertible
            If it isn't of this form.
        """
        raise NotImplementedError

    def may_follow(self, text: bytes, piece: bytes | None) -> bool:
        """Return whether a piece may stand after a line break in a name of `text`, which begins a line; for None, whether
        `text` may begin such a line."""
        raise NotImplementedError

    def message(self, line: bytes, path: str) -> str | None:
        """Return what is reported if the tool prints a line on standard error, or None for nothing.

        Raises
        ------
        ConversionError
            If the recording of that path can't be read.
        """
        return f"{self.program} says: {printable(line)}" if line else None

    def ended(self, report: Report) -> bytes:
        """Return the lines after the last event, once all is converted, and report what isn't in the lines."""
        return b""

    def check_end(self, name: str) -> None:
        """Raise `ConversionError` if what was read of the file of that name can't be one trace."""

    def quick_command(self, path: str) -> list[str] | None:
        """Return the command that reads the recording of that path and writes blocks, or None if there is none."""
        return None

    def completed(self, source: Readable, path: str) -> contextlib.AbstractContextManager[Readable]:
        """Return what `command` prints of the recording of that path, with what the program prints only in another way."""
        return contextlib.nullcontext(source)

    def front(self, path: str) -> bytes:
        """Return the first whole lines of that. Raises `Unfit`."""
        return front_of([*self.command, path])

    def head_of(self, text: bytes) -> bytes:
        """Return the lines before the first event in what the tool prints first, which the program of `quick_command` doesn't
        write."""
        return b""
