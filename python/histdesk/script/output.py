"""Script and output of the program, side by side: which command a printed line belongs to.

Texts are Latin-1, a character for each byte.
"""

from __future__ import annotations

import re
from collections import deque

from ..show.width import COLUMNS
from .commands import COMMANDS
from .forms import LONGEST, numbers_of, split_command
from .refusals import Refusals

LATENCY = re.compile(r"[0-9]+:[0-9]+ -> [0-9]+:[0-9]+: [0-9]+ us")
LISTED = re.compile(r"([0-9]+):([0-9]+) .*", re.DOTALL)
# What histwatch prints of a row after an accepted insert or strike, and at the end, how many rows differ.
CHANGED_ROW = re.compile(r"[-+] [0-9]+ \{ .*")
CHANGED_COUNT = re.compile(r"changed [0-9]+")


class Script:
    """The lines of a script, which may come while the program runs.

    Attributes
    ----------
    number
        The number of the line that was taken last, from 1.
    """

    def __init__(self) -> None:
        self.lines: deque[bytes] = deque()
        self.rest, self.number = b"", 0

    def add(self, data: bytes) -> None:
        """Add a piece of the script."""
        *lines, self.rest = (self.rest + data).split(b"\n")
        self.lines.extend(lines)

    def next_command(self) -> tuple[int, str] | None:
        """Return the next line that prints something, after its number, or None if there is none."""
        while self.lines or self.rest:
            if self.lines:
                line = self.lines.popleft()
            else:
                # The program answers the last piece, which has no line break, at the end of the script.
                line, self.rest = self.rest, b""
            self.number += 1
            text = line.decode("latin-1")
            if len(text) > LONGEST or text.strip(" ") and not text.startswith("#"):
                return self.number, text
        return None


class OutputWalk:
    """Goes through the output line by line, and takes commands from the script as they are answered.

    Attributes
    ----------
    refused
        The line of the script that was refused last, or None.
    lost
        Why it isn't known any more which command a line belongs to, or None.
    """

    def __init__(self, script: Script, traces: list[str], width: int = COLUMNS) -> None:
        """Begin to go through the output of a script over traces, whose explanations have lines of this width."""
        self.script, self.refusals = script, Refusals(traces, width=width)
        # What the answer that is being printed ends with, or the lane and line that were listed last.
        self.end: str | None = None
        self.list_place: tuple[int, int] | None = None
        # Whether rows that changed may come, and then how many they are.
        self.rows = False
        self.refused: int | None = None
        self.lost: str | None = None
        self.count = 0

    def take(self, line: bytes) -> list[str]:
        """Return the texts to be printed after a line of the output."""
        self.count += 1
        text = line.removesuffix(b"\n").decode("latin-1")
        if self.lost or self.goes_on(text):
            return []
        while command := self.script.next_command():
            number, command_line = command
            if self.is_silent_list(command_line, text):
                continue
            if text.startswith("refused "):
                self.refused = number
                return self.refusals.explain(f"  line {number}: ", command_line, text)
            if self.answers(command_line, text):
                return []
            break
        where = f"the command on line {command[0]}" if command else "any command that is left"
        self.lost = f"line {self.count} of the output is no answer to {where}"
        return []

    def goes_on(self, text: str) -> bool:
        """Return whether the line belongs to the answer that is being printed."""
        if self.end:
            if text.startswith(self.end):
                self.end = None
            return True
        if self.list_place:
            match = LISTED.fullmatch(text)
            cpu, line = self.list_place
            if match and not LATENCY.fullmatch(text) and int(match[1]) == cpu and int(match[2]) > line:
                self.list_place = cpu, int(match[2])
                return True
            self.list_place = None
        if self.rows:
            self.rows = CHANGED_ROW.fullmatch(text) is not None
            return self.rows or CHANGED_COUNT.fullmatch(text) is not None
        return False

    def is_silent_list(self, command_line: str, text: str) -> bool:
        """Return whether the command lists a lane without events, and so prints nothing."""
        word, rest = split_command(command_line)
        numbers = numbers_of(rest)
        if word != "list" or len(command_line) > LONGEST or not numbers:
            return False
        if text == f"refused 5: cpu {numbers[0]}":
            return False
        self.list_place = numbers[0], -1
        if self.goes_on(text):
            return False
        return True

    def answers(self, command_line: str, text: str) -> bool:
        """Return whether the line is the answer of the accepted command, or its first line."""
        word, _ = split_command(command_line)
        if word == "list":
            return self.list_place is not None
        if word == "lat":
            if LATENCY.fullmatch(text):
                self.end = "Latencies: "
            return bool(self.end) or text.startswith("Latencies: ")
        answer = COMMANDS[word].answer if word in COMMANDS else None
        if answer is None or not text.startswith(answer):
            return False
        self.rows = word in ("insert", "strike")
        if word == "hist":
            self.end = "    Dropped: "
        self.refusals.note_accepted(self.script.number, command_line, text)
        return True
