"""The prompt of desk: takes lines from a terminal or a pipe, shows what they print, and says what a refusal means."""

from __future__ import annotations

import os
import shutil
import sys
from pathlib import Path
from collections.abc import Callable, Mapping, Sequence

from .._invocation import tool
from .._schema import WAIT_GROUPS
from ..desk.desk import Desk, Trace
from ..desk.loaded import Loaded
from ..desk.recording import Recording
from ..native.library import library
from ..native.refusals import Refused, refusal_words
from ..script.commands import COMMANDS, PROMPT_COMMANDS, forms_of
from ..script.forms import LONGEST, bad_command, numbers_of, split_command, start_of_rest
from ..script.refusals import Refusals
from ..script.runner import Output, Commands, CommandRefused
from ..script.words import near, excerpt
from ..show import tables
from ..trace.losses import seconds
from . import process
from .completion import History, Names, complete_by
from .prompt_help import help_of
from .screen import note, write

PROMPT = "desk> "
# The indent of remarks about a line that was typed.
TYPED = "  "
TAKE_LESS = f"{tool('desk')} --from STAMP --until STAMP, or --events sched_waking,sched_switch, takes less of it"


class DeskRefusals(Refusals):
    """What refusals of typed commands mean: triggers are named by their ids, and traces also by their paths."""

    def __init__(self, traces: list[str]) -> None:
        super().__init__(traces, TAKE_LESS, unpacks=True)

    def lines(self, front: str, command: str, place: int | None, meaning: str) -> list[str]:
        """Return what is shown after a refused line: its meaning and, if a place is known, as much of the line as fits."""
        if front != TYPED:
            return super().lines(front, command, place, meaning)
        if place is None:
            return [front + meaning]
        line, column = excerpt(command, place, max(shutil.get_terminal_size().columns - len(front) - 5, 20))
        return [front + line, front + " " * (column or 0) + "^", front + meaning]

    def hint(self, asked: str, numbers: Mapping[str, int]) -> tuple[str, int | None]:
        """Return what follows from the command for the refusal, and the place that is meant in it, or None."""
        if numbers["refused"] != 16:
            return super().hint(asked, numbers)
        word, rest = split_command(asked)
        at = start_of_rest(asked, 1)
        if word in PROMPT_COMMANDS and len(asked) <= LONGEST:
            groups = f", and BY is {', '.join(WAIT_GROUPS)}{near(rest, WAIT_GROUPS)}" if word == "waits" else ""
            return f": the form is {forms_of(COMMANDS[word])}{groups}", at
        if word != "load" or asked.endswith("\r"):
            return bad_command(asked, self.traces, COMMANDS)
        meant = f"; did you mean load @{rest}?" if numbers_of(rest) else ""
        what = f"there is no file {excerpt(rest)[0]}" if rest else "no trace is named"
        return f": {what}; the form is {forms_of(COMMANDS[word], is_typed=True)}{meant}", at

    def traces_named(self) -> str:
        """Return how many traces there are."""
        return super().traces_named() if self.traces else "no trace is named; load PATH takes one"

    def origin(self, id: int) -> str:
        """Return which trigger has an id."""
        return f"trigger {id} is {excerpt(' '.join(self.triggers[id][1:]))[0]}"

    def line_of_trigger(self, id: int) -> str:
        """Return nothing, since lines that are typed have no numbers."""
        return ""


class End(Exception):
    """Ends the run.

    Attributes
    ----------
    status
        The exit status.
    """

    def __init__(self, status: int) -> None:
        super().__init__(status)
        self.status = status


class Prompt:
    """A desk that takes commands from a terminal or a pipe.

    Attributes
    ----------
    is_typed
        Whether input and output are a terminal.
    number
        The number of the line that was taken last, from 1.
    status
        The exit status so far.
    """

    def __init__(self, traces: Sequence[str], read: Callable[[str], Trace | Recording]) -> None:
        """Begin with the paths of traces; `read` returns what is loaded of one."""
        self.commands = Commands(list(traces), read)
        self.refusals = DeskRefusals(self.commands.traces)
        self.is_typed = sys.stdin.isatty() and sys.stdout.isatty()
        self.number, self.status = 0, 0
        # What performs the commands that only the prompt has, except `quit`.
        self.methods: dict[str, Callable[[str], str]] = {
            "triggers": self.triggers,
            "cpus": self.cpus,
            "waits": self.waits,
            "why": self.why,
            "help": help_of,
        }

    # ---- lines

    def run(self) -> int:
        """Perform all lines, and return the exit status."""
        history = None
        if self.is_typed:
            sys.stdin.reconfigure(errors="surrogateescape")  # type: ignore[attr-defined]
            history = History()
            complete_by(self.names)
            self.greet()
        try:
            while True:
                line = self.next_line()
                if line is None:
                    return 0 if self.is_typed else self.status
                self.number += 1
                self.perform(line)
        except End as end:
            return end.status
        finally:
            if history:
                history.keep()

    def next_line(self) -> bytes | None:
        """Return the next line without its line break, or None after the last one. Ctrl-C drops what was typed of it."""
        if not self.is_typed:
            line = sys.stdin.buffer.readline()
            return line.removesuffix(b"\n") if line else None
        while True:
            try:
                return os.fsencode(input(PROMPT))
            except EOFError:
                note("")
                return None
            except KeyboardInterrupt:
                note("")

    def greet(self) -> None:
        """Print what is said before the first prompt."""
        for number, path in enumerate(self.commands.traces, 1):
            note(f"@{number} is {path}; load @{number} loads it")
        first = "" if self.commands.traces else "load PATH loads a trace, "
        note(f"{first}help lists the commands, Tab completes them, Ctrl-D ends")

    def names(self) -> Names:
        """Return what Tab may complete."""
        triggers = {id: (trigger.event, trigger.text) for id, trigger in self.refusals.triggers.items()}
        return Names(len(self.commands.traces), triggers, sorted(self.commands.desk.cpus()))

    # ---- what they do

    def perform(self, line: bytes) -> None:
        """Perform a line: show what it prints, and what else is to be said of it."""
        try:
            self.answer(line)
        except KeyboardInterrupt:
            if not self.is_typed:
                raise
            note(f"{TYPED}interrupted")
        except (OSError, ImportError, MemoryError, ValueError) as error:
            # If the output can't be written, the run ends. If a line fails, the user may type another one, but the answers to
            # the rest of a script would be wrong.
            if isinstance(error, OSError) and not error.filename:
                raise
            if not self.is_typed:
                raise process.Stop(f"line {self.number}: {error_text(error)}") from None
            note(f"{TYPED}{error_text(error)}")
        # Ctrl-C ends a script.
        if self.commands.was_interrupted and not self.is_typed:
            raise KeyboardInterrupt

    def answer(self, line: bytes) -> None:
        """Do the same, for a line that neither fails nor is interrupted."""
        asked = line.decode("latin-1")
        word, rest = split_command(asked)
        try:
            if word in ("quit", "exit") and not rest:
                raise End(0 if self.is_typed else self.status)
            if word in self.methods:
                write(self.prompt_answer(word, os.fsdecode(rest.encode("latin-1"))))
                return
            answer = self.commands.answer(line)
        except CommandRefused as refusal:
            self.status = 1
            self.say_refused(asked, refusal)
            return
        write(answer.output)
        if word in ("attach", "remove") and answer.output:
            self.refusals.note_accepted(self.number, asked, answer.output.decode("latin-1"))
        self.say_of(word, answer)

    def prompt_answer(self, word: str, rest: str) -> bytes:
        """Return what a command that scripts don't have prints."""
        try:
            text = self.methods[word](rest)
        except Refused as refused:
            raise CommandRefused(refused.text) from None
        except LookupError as error:
            # Scripts have no refusal for a wait that isn't there.
            self.status = 1
            note(f"{self.front()}{error}")
            return b""
        return os.fsencode(text if text.endswith("\n") or not text else text + "\n")

    def front(self) -> str:
        """Return how a remark about a line begins."""
        return TYPED if self.is_typed else f"{TYPED}line {self.number}: "

    def say_refused(self, asked: str, refusal: CommandRefused) -> None:
        """Show the line of a refusal, and what it means."""
        write(refusal.text.encode() + b"\n")
        note("\n".join(self.refusals.explain(self.front(), asked, refusal.text, refusal.path)))

    def say_of(self, word: str, answer: Output) -> None:
        """Show remarks about an answer: what a trace holds and lost, or that there are no events to ask about."""
        loaded = answer.loaded
        if loaded is not None and answer.path is not None:
            if self.is_typed:
                note(f"{TYPED}{loaded_text(loaded)}")
            if loaded.warning:
                note(f"{TYPED}{answer.path}: {loaded.warning}")
        elif self.is_typed and word in ("hist", "totals", "lat") and not self.commands.desk.cpus():
            example = "load @1" if self.commands.traces else "load PATH"
            note(f"{TYPED}no events are held; {example} loads a trace")

    # ---- answers that scripts don't have

    def triggers(self, rest: str) -> str:
        """Return a table of the attached triggers."""
        check_empty(rest)
        rows = [(trigger.id, trigger.event, trigger.canonical) for trigger in self.commands.desk.triggers()]
        return in_columns(("id", "event", "trigger"), rows) if rows else "no trigger is attached"

    def cpus(self, rest: str) -> str:
        """Return a table of the CPUs whose events are held."""
        check_empty(rest)
        desk = self.commands.desk
        holes = [hole.cpu for hole in desk.holes]
        rows = [(cpu, count, *ends(desk, cpu), holes.count(cpu)) for cpu, count in desk.cpus().items()]
        return in_columns(("CPU", "events", "first", "last", "losses"), rows) if rows else "no events are held"

    def waits(self, rest: str) -> str:
        """Return a table of how long tasks waited."""
        by = rest or "task"
        if by not in WAIT_GROUPS:
            raise CommandRefused("refused 16")
        from ..waiting.wait_answer import table_of
        from ..waiting.waits import waits as waits_of

        waits = waits_of(self.commands.desk)
        rows = waits.table(by)
        foot = [waits.warning] if waits.warning else []
        return "\n".join([*waits.lines(), tables.in_text(table_of(by, rows, len(rows))), *foot])

    def why(self, rest: str) -> str:
        """Return the explanation of one wait."""
        cpu, _, line = rest.partition(":")
        if not numbers_of(cpu) or not numbers_of(line):
            raise CommandRefused("refused 16")
        from ..explain import why

        return str(why.why(self.commands.desk, int(cpu), int(line)))


def check_empty(rest: str) -> None:
    """Raise `CommandRefused` if something follows a command that has no arguments."""
    if rest:
        raise CommandRefused("refused 16")


def in_columns(names: tuple[str, ...], rows: Sequence[tuple[object, ...]]) -> str:
    """Return a table with all rows under the names of its columns."""
    return tables.in_text(tables.Table(names, list(rows), [], 0))


def ends(desk: Desk, cpu: int) -> tuple[str, str]:
    """Return the first and the last timestamp of a CPU by line, in seconds; empty texts if none of its events is held."""
    lane = desk._session.ends(library.histdesk_lane, cpu, 1)
    return (seconds(lane[1]), seconds(lane[2])) if lane else ("", "")


def loaded_text(loaded: Loaded) -> str:
    """Return what a trace holds, in one line."""
    if not loaded.lanes:
        return "it has no events"
    first, last = min(lane.first for lane in loaded.lanes), max(lane.last for lane in loaded.lanes)
    cpus = f"{len(loaded.lanes)} CPUs" if len(loaded.lanes) > 1 else f"CPU {loaded.lanes[0].cpu}"
    return f"{cpus}, from {seconds(first)} to {seconds(last)}"


def error_text(error: BaseException) -> str:
    """Return a failure in one line."""
    if isinstance(error, MemoryError):
        return refusal_words("refused 1")
    if isinstance(error, OSError):
        return f"{error.filename}: {error.strerror}"
    return str(error)


def check_readable(path: str) -> None:
    """Raise `OSError` if a trace can't be read. A pipe isn't tried, since it can be opened only once."""
    Path(path).stat()
    if Path(path).is_file() or Path(path).is_dir():
        with open(path, "rb"):
            pass
