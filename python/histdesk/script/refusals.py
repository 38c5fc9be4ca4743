"""What refusals mean, for explain and desk: the library's message, what follows from the command and from what is attached, and
the place that is meant. Texts are Latin-1, a character for each byte."""

from __future__ import annotations

import gzip
import itertools
import os
import re
import zlib
from collections.abc import Mapping, Sequence
from typing import NamedTuple

from ..native.refusals import refusal_words
from ..show.width import COLUMNS
from ..trace.kind import GZIP, first_bytes, for_program
from .forms import bad_command, filter_start, matched_event, numbers_of, split_command, trigger_start, variable_of
from .hints import crlf_hint, filter_hint, line_hint, no_trace_hint, trigger_hint
from .words import INDENT, near, excerpt, with_caret

# The refusals of a line, a trigger and a filter that can't be read.
UNREADABLE = (3, 8, 9)
# How to take less of a trace that has more events than a desk holds.
TAKE_LESS_OF_IT = "take the events that you ask about, as grep -E 'sched_(waking|switch):' does, or a stretch of it"


class Attached(NamedTuple):
    """A trigger as it was attached: by which line of the script, to which event, and its text."""

    number: int
    event: str
    text: str


class Refusals:
    """Knows the traces and the attached triggers, and explains refusals of commands."""

    def __init__(self, traces: Sequence[str], less: str = TAKE_LESS_OF_IT, unpacks: bool = False, width: int = COLUMNS) -> None:
        """Begin with some traces.

        Parameters
        ----------
        traces
            Their paths, in the order of their numbers.
        less
            How to take less of a trace.
        unpacks
            Whether traces that gzip has packed are read.
        width
            How many columns a line may have.
        """
        self.traces, self.less, self.unpacks, self.width = traces, less, unpacks, width
        self.triggers: dict[int, Attached] = {}

    def note_accepted(self, number: int, asked: str, text: str) -> None:
        """Note a command that attaches a trigger or removes one, by its line in the script, and what it printed."""
        word, rest = split_command(asked)
        if word == "attach":
            self.triggers[int(text.split()[1])] = Attached(number, *split_command(rest))
        elif word == "remove":
            self.triggers.pop(int(text.split()[1]), None)

    def explain(self, front: str, asked: str, text: str, path: str | None = None) -> list[str]:
        """Return the lines that explain a refusal: the command, a caret under the place that is meant, and the library's
        message with a hint; for a trace, also its line.

        Parameters
        ----------
        front
            What stands before the command.
        asked
            The command.
        text
            What was printed of the refusal.
        path
            The trace that the command loads, if the command doesn't name it by its number.
        """
        command = asked.strip(" ")
        try:
            words = refusal_words(text)
        except ValueError:
            return self.lines(front, command, None, "no refusal that the library knows")
        numbers = {name: int(digits) for name, digits in re.findall("([a-z]+) ([0-9]+)", text)}
        loads = asked.lstrip(" ").startswith("load")
        if loads and path is None and numbers["refused"] in (3, 7) and "@" in command:
            path = self.traces[int(command.partition("@")[2]) - 1]
        if numbers["refused"] == 3 and path is not None:
            meaning, *line = self.bad_trace(path, words, numbers)
            return [*self.lines(front, command, None, meaning), *line]
        if numbers["refused"] in UNREADABLE:
            # The message begins with what can't be read, which the command shows.
            words = words.partition(": ")[2]
        hint, place = self.hint(asked, numbers)
        return self.lines(front, command, place, words + hint)

    def lines(self, front: str, command: str, place: int | None, meaning: str) -> list[str]:
        """Return the lines that show a command and explain it, with a caret under the place, if there is one."""
        return with_caret(front, command, place, meaning, self.width)

    def bad_trace(self, path: str, words: str, numbers: Mapping[str, int]) -> list[str]:
        """Return what is wrong with a trace, and its line."""
        kind = for_program(first_bytes(path), path, self.unpacks) if numbers["line"] == 1 else None
        if kind:
            return [f"{path}, {words}; {kind}"]
        line = line_in(path, numbers["line"], self.unpacks)
        if line is None:
            return [f"{path}, {words}"]
        text = line.removesuffix("\n")
        of_line = line_hint(numbers["fault"], text, is_cut=text == line)
        of_file = crlf_hint(path) or (None if of_line else no_trace_hint(path))
        hint = f"; {of_file}" if of_file else of_line
        room = self.width - len(INDENT) - 4
        return [f"{path}, {words}{hint}", f"{INDENT}{excerpt(text, most=room)[0]}"]

    def hint(self, asked: str, numbers: Mapping[str, int]) -> tuple[str, int | None]:
        """Return what follows from the command for the refusal, and the place that is meant in it, or None."""
        _, rest = split_command(asked)
        if numbers["refused"] == 3:
            return line_hint(numbers["fault"], asked[7:]), None
        if numbers["refused"] == 8:
            event, trigger = split_command(rest)
            hint, place = trigger_hint(event, trigger, numbers)
            return hint, None if place is None else trigger_start(asked) + place
        if numbers["refused"] == 9:
            attachment = self.triggers.get(numbers_of(split_command(rest)[0])[0])
            start, place = filter_start(asked), numbers.get("at")
            hint = filter_hint(attachment.event if attachment else None, asked.strip(" ")[start:], numbers["filter"], place)
            return hint, None if place is None else start + place
        if numbers["refused"] == 16:
            return bad_command(asked, self.traces)
        return self.held_hint(asked, numbers), None

    def held_hint(self, asked: str, numbers: Mapping[str, int]) -> str:
        """Return what follows from what is held and attached."""
        word, rest = split_command(asked)
        refused, trigger = numbers["refused"], numbers.get("trigger")
        if refused == 2:
            return f": {self.traces_named()}"
        if refused == 4:
            return f"; unload {numbers['cpu']} removes them"
        if refused == 5:
            return ": none was loaded or inserted, or they were unloaded"
        if refused == 6 and word == "insert":
            return ": a trace may have empty lines, comments and lines of lost events, which are skipped"
        if refused == 6:
            return f": that CPU has no line {rest.partition(':')[2].lstrip('0') or '0'}, or it was struck"
        if refused == 7:
            return f"; {self.less}" if word == "load" else ""
        if refused == 10:
            return f"; {self.attached_ids()}"
        if trigger in self.triggers:
            return f"; {self.origin(trigger)}"
        if refused in (13, 14):
            return self.why_unmatched(refused, split_command(rest)[1])
        return self.readers() if refused == 17 else ""

    def traces_named(self) -> str:
        """Return how many traces there are."""
        if not self.traces:
            return "no trace is named after the script"
        count = len(self.traces)
        return "the only trace is @1" if count == 1 else f"the traces are @1 to @{count}"

    def attached_ids(self) -> str:
        """Return which triggers are attached."""
        if not self.triggers:
            return "none is"
        return f"those that are: {', '.join(str(id) for id in sorted(self.triggers))}"

    def origin(self, id: int) -> str:
        """Return where an attached trigger comes from."""
        return f"line {self.triggers[id].number} attached trigger {id}"

    def line_of_trigger(self, id: int) -> str:
        """Return which line attached a trigger, in brackets."""
        return f" (line {self.triggers[id].number})" if id in self.triggers else ""

    def readers(self) -> str:
        """Return which triggers read a variable."""
        readers = [str(id) for id, trigger in sorted(self.triggers.items()) if variable_of(trigger.text)[1]]
        return f"; those that do: {', '.join(readers)}" if readers else ""

    def savers(self) -> dict[str, int]:
        """Return the variables that are saved, and by which trigger."""
        variables = {id: variable_of(trigger.text) for id, trigger in sorted(self.triggers.items())}
        return {own: id for id, (own, other) in variables.items() if own and not other}

    def why_unmatched(self, refused: int, trigger: str) -> str:
        """Return why no trigger saves what another one reads, or which trigger saves it by other keys."""
        savers, read = self.savers(), variable_of(trigger)[1] or ""
        event = matched_event(trigger)
        if refused == 13 and event and read in savers:
            return f": {self.elsewhere(savers[read], read, event)}"
        if refused == 13:
            return f": {excerpt(read)[0]}{near(read, savers)}"
        id = savers.get(read)
        if id is None:
            return ""
        keys = re.search(r":keys?=([^: \t]*)", self.triggers[id].text)
        return (
            f": trigger {id}{self.line_of_trigger(id)} saves {read} by {keys[1] if keys else ''}; "
            "the reader needs as many keys, of the same types and modifiers in the same order"
        )

    def elsewhere(self, id: int, read: str, event: str) -> str:
        """Return which trigger saves a variable on another event than the one that is named."""
        saved = f"trigger {id}{self.line_of_trigger(id)} saves {excerpt(read)[0]}, on {self.triggers[id].event}"
        return f"{saved} and not on {event}, which onmatch names; did you mean sched.{self.triggers[id].event}?"


def line_in(path: str, number: int, unpacks: bool) -> str | None:
    """Return a line of a trace with its line break, or None if it can't be read again."""
    is_packed = unpacks and first_bytes(path).startswith(GZIP)
    try:
        with gzip.open(path, "rb") if is_packed else open(path, "rb") as source:
            line = next(itertools.islice(source, number - 1, None), None) if os.path.isfile(path) else None
    except (OSError, EOFError, zlib.error):
        return None
    return None if line is None else line.decode("latin-1")
