"""Lines that are typed into desk: their history, and what Tab completes."""

from __future__ import annotations

import contextlib
import glob
import os
import re
from pathlib import Path
from typing import Callable, Iterable, Mapping, NamedTuple, Sequence

from .._schema import ATTACHABLE_EVENTS, MADE_EVENT, TEXT_FIELDS, TRACED_EVENTS, WAIT_GROUPS, field_names
from ..script.commands import COMMANDS
from ..script.forms import variable_of

try:
    import readline
except ImportError:
    # Then the terminal edits the line.
    readline = None  # type: ignore[assignment]

# How many lines of the history are kept.
MOST_LINE_NUMBERS = 1000
# A word of a trigger or a filter begins after one of these.
DELIMITERS = " \t,:=(.$!&|<>-@/"
TRIGGER_PARTS = ["keys=", "vals=", "sort=", "size=", "onmatch(sched."]
KEY_MODIFIERS = ["hex", "log2", "buckets="]
STAMP_FIELD = "common_timestamp.usecs"


class Names(NamedTuple):
    """What the arguments of commands may name.

    Attributes
    ----------
    traces
        How many traces have a number.
    triggers
        The event and the text of each attached trigger, by its id.
    cpus
        The CPUs that have events.
    """

    traces: int
    triggers: Mapping[int, tuple[str, str]]
    cpus: Sequence[int]


def history_path() -> Path:
    """Return where the history is kept: in the folder for what programs remember."""
    state = os.environ.get("XDG_STATE_HOME")
    return (Path(state) if state else Path.home() / ".local" / "state") / "histdesk" / "history"


class History:
    """The lines that were typed before, from the file and back into it. A file that can't be read or written is ignored."""

    def __init__(self) -> None:
        """Read the history."""
        self.path, self.length_before = history_path(), 0
        if readline is None:
            return
        with contextlib.suppress(OSError):
            readline.read_history_file(self.path)
        self.length_before = readline.get_current_history_length()

    def keep(self) -> None:
        """Add the new lines to the file, to which another desk may have added some."""
        if readline is None:
            return
        with contextlib.suppress(OSError):
            self.path.parent.mkdir(mode=0o700, parents=True, exist_ok=True)
            # Others may not read it.
            self.path.touch(mode=0o600)
            readline.set_history_length(MOST_LINE_NUMBERS)
            readline.append_history_file(readline.get_current_history_length() - self.length_before, self.path)


def complete_by(names: Callable[[], Names]) -> None:
    """Have Tab complete the names that `names` returns."""
    if readline is None:
        return
    choices: list[str] = []

    def completer(_: str, state: int) -> str | None:
        if state == 0:
            line, start = readline.get_line_buffer(), readline.get_begidx()
            choices[:] = completions(line[:start], line[start : readline.get_endidx()], names())
        return choices[state] if state < len(choices) else None

    readline.set_completer_delims(DELIMITERS)
    readline.set_completer(completer)
    is_libedit = "libedit" in (readline.__doc__ or "")
    readline.parse_and_bind("bind ^I rl_complete" if is_libedit else "tab: complete")


def completions(before: str, prefix: str, names: Names) -> list[str]:
    """Return what the word at the cursor may become.

    Parameters
    ----------
    before
        The line up to that word.
    prefix
        As much of the word as was typed.
    names
        What it may name.

    Returns
    -------
    list of str
        The words, each with a space if another word may follow.
    """
    words = before.split()
    if not words:
        return [f"{word} " for word in sorted(COMMANDS) if word.startswith(prefix)]
    word, after = words[0], before.lstrip()[len(words[0]) :].lstrip()
    if word == "load":
        return loads(after, prefix, names)
    if word == "attach":
        choices = of_attach(after, names)
    elif word == "filter" and len(words) > 1:
        choices = of_filter(words, after, names)
    elif after:
        return []
    else:
        choices = of_argument(COMMANDS[word].argument if word in COMMANDS else "", names)
    return [choice for choice in choices if choice.startswith(prefix) and choice != prefix]


def of_argument(argument: str, names: Names) -> list[str]:
    """Return what an argument may be, by its name in the form of the command."""
    choices: dict[str, Iterable[object]] = {
        "ID": names.triggers,
        "C": names.cpus,
        "C:L": names.cpus,
        "BY": WAIT_GROUPS,
        "COMMAND": sorted(COMMANDS),
    }
    return [str(choice) for choice in choices.get(argument, ())]


def loads(after: str, prefix: str, names: Names) -> list[str]:
    """Return the numbers of traces, or paths, that may follow `load`."""
    if after.startswith("@") or not after and not prefix and names.traces:
        front = "" if after else "@"
        return [f"{front}{number}" for number in range(1, names.traces + 1) if str(number).startswith(prefix)]
    # A delimiter may be a part of a path, of which the word is then only the end.
    typed = os.path.expanduser(after) + prefix
    paths = [f"{path}/" if os.path.isdir(path) else path for path in glob.glob(glob.escape(typed) + "*")]
    return sorted(path[len(typed) - len(prefix) :] for path in paths)


def of_attach(after: str, names: Names) -> list[str]:
    """Return what may follow in an `attach`: the event, then the trigger."""
    event, gap, trigger = after.partition(" ")
    if not gap:
        return [f"{name} " for name in ATTACHABLE_EVENTS]
    if event not in ATTACHABLE_EVENTS:
        return []
    trigger = trigger.lstrip(" ")
    if re.search("[ \t]if[ \t]", trigger):
        return field_names(event)
    if " " in trigger:
        return ["if "]
    return of_trigger(event, trigger, names) if trigger else ["hist:keys="]


def of_trigger(event: str, trigger: str, names: Names) -> list[str]:
    """Return what may follow the beginning of a trigger, before its filter."""
    part = trigger.rpartition(":")[2]
    kind, sign, rest = part.partition("=")
    if part.startswith("onmatch("):
        return of_onmatch(event, part, variable_of(trigger)[0])
    if not sign:
        return TRIGGER_PARTS
    if rest.endswith("$") and kind not in ("vals", "values", "val", "sort"):
        pairs = [variable_of(text) for _, text in names.triggers.values()]
        return [own for own, read in pairs if own and not read]
    own = variable_of(trigger)[0] or "lat"
    if rest.endswith("."):
        return {"sort": ["ascending", "descending"], "keys": KEY_MODIFIERS, "key": KEY_MODIFIERS}.get(kind, ["usecs"])
    if kind in ("keys", "key"):
        return field_names(event)
    if kind in ("vals", "values", "val", "sort"):
        numbers = [name for name in field_names(event) if kind == "sort" or name not in TEXT_FIELDS]
        return [own] if rest.endswith("$") else ["hitcount", *numbers, f"${own}"]
    return [] if kind == "size" or event == MADE_EVENT else [STAMP_FIELD]


def of_onmatch(event: str, part: str, own: str | None) -> list[str]:
    """Return what may follow in the part `onmatch` of a trigger, which has one form."""
    if part.endswith("sched."):
        return [f"{name}).wakeup_latency(${own or 'lat'}," for name in TRACED_EVENTS]
    return [name for name in field_names(event) if name not in TEXT_FIELDS] if "," in part else []


def of_filter(words: Sequence[str], after: str, names: Names) -> list[str]:
    """Return what may follow in a `filter`: `if` or `none`, then the fields of the trigger's event."""
    if len(words) == 2 and after.endswith(" "):
        return ["if ", "none"]
    if len(words) < 3 or words[2] != "if" or not words[1].isdigit():
        return []
    event = names.triggers.get(int(words[1]), (None, ""))[0]
    return field_names(event) if event else []
