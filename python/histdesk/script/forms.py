"""The commands of a script, for explain and desk: where their parts are, and why a line is no command.

Texts are Latin-1, a character for each byte.
"""

from __future__ import annotations

import os
import re
from typing import Iterable, Sequence

from .._schema import ATTACHABLE_EVENTS, TRACED_EVENTS
from .commands import COMMANDS, SCRIPT_COMMANDS, forms_of
from .words import beginning, near, nearest, excerpt

# What is said of a line after the library's words, and the place that is meant, counted in bytes, or None.
Hint = tuple[str, int | None]
# No line of a script is longer, in bytes.
LONGEST = 8192
NUMBER = re.compile("[0-9]{1,10}")
NAME = "[A-Za-z_][A-Za-z0-9_]*"
VARIABLE = re.compile(rf"({NAME})=common_timestamp\.usecs(?:-\$({NAME}))?")
ONMATCH = re.compile(rf"onmatch\(sched\.({'|'.join(TRACED_EVENTS)})\)\.wakeup_latency\(\$({NAME}),({NAME}),({NAME})\)")


def split_command(text: str) -> tuple[str, str]:
    """Return the first word of a text, and the rest after the spaces."""
    word, _, rest = text.strip(" ").partition(" ")
    return word, rest.lstrip(" ")


def numbers_of(text: str) -> list[int]:
    """Return the number that a text is, in a list, which is empty if it is none."""
    return [int(text)] if NUMBER.fullmatch(text) and int(text) < 2**32 else []


def start_of_rest(text: str, words: int) -> int:
    """Return where the rest after so many words begins, in a command without the spaces at its ends."""
    return len(beginning("[^ ]* *" * words, text.strip(" ")))


def trigger_start(command: str) -> int:
    """Return where the trigger begins in an `attach`."""
    return start_of_rest(command, 2)


def filter_start(command: str) -> int:
    """Return where the filter begins in a `filter`."""
    return start_of_rest(command, 3)


def variable_of(trigger: str) -> tuple[str | None, str | None]:
    """Return the own variable of a trigger's text and the one that it reads, each None if there is none."""
    for part in beginning("[^ \t]*", trigger).split(":"):
        match = VARIABLE.fullmatch(part)
        if match:
            return match[1], match[2]
    return None, None


def matched_event(trigger: str) -> str | None:
    """Return the event that the part `onmatch` of a trigger names, or None if there is no such part."""
    for part in beginning("[^ \t]*", trigger).split(":"):
        match = ONMATCH.fullmatch(part)
        if match:
            return match[1]
    return None


def bad_command(command: str, traces: Sequence[str], names: Iterable[str] = SCRIPT_COMMANDS) -> Hint:
    """Return why a line is no command.

    Parameters
    ----------
    command
        The line.
    traces
        The paths of the traces that it may name by a number.
    names
        The commands that may have been meant.

    Returns
    -------
    tuple
        What is said of it, after a sign, and the place of the part that is wrong, if it is known.
    """
    if len(command) > LONGEST:
        return ": the line has more than 8,192 bytes", None
    text = command.strip(" ")
    word, rest = split_command(text)
    at_rest = start_of_rest(text, 1)
    if text.startswith("#"):
        return ": a comment begins at the line's first byte, without a space in front", None
    if text.endswith("\r"):
        return ": a carriage return ends the line, and is a part of its last word", len(text) - 1
    if "\t" in beginning("[^ ]*( +[^ ]*)?", text):
        return ": words are separated by spaces, not by tabs", text.index("\t")
    if word == "insert":
        return ": insert begins at the line's first byte", None
    if word == "attach":
        return bad_event(rest, at_rest)
    if word == "load":
        return bad_load(rest, at_rest, traces)
    if word in SCRIPT_COMMANDS:
        return bad_form(word, rest, at_rest)
    return near(word, names), 0


def bad_event(rest: str, at: int) -> Hint:
    """Return why the rest of an `attach`, which is at a place of the line, names no event."""
    event, _ = split_command(rest)
    if not event:
        return f": no event is named; the form is {forms_of(COMMANDS['attach'])}", at
    # The kernel has several ways to name an event with its system before it.
    last = re.split("[:/.]", event)[-1]
    if last in ATTACHABLE_EVENTS:
        return f"; did you mean {last}?", at
    meant = near(last, ATTACHABLE_EVENTS) or near("sched_" + last, TRACED_EVENTS)
    return f": triggers are attached to {', '.join(ATTACHABLE_EVENTS)}{meant}", at


def bad_load(rest: str, at: int, traces: Sequence[str]) -> Hint:
    """Return why the rest of a `load` names no trace."""
    form = f": the form is {forms_of(COMMANDS['load'])}, with N the number of a TRACE after the script"
    if re.fullmatch("@?[0-9]+", rest):
        if numbers_of(rest.lstrip("@")):
            return f"{form}; did you mean load @{rest}?", at
        return f"{form}, of at most ten digits and 4,294,967,295 at most", at
    for number, path in enumerate(traces, 1):
        if rest in (os.fsencode(name).decode("latin-1") for name in (path, os.path.basename(path))):
            return f"{form}; did you mean load @{number}?", at
    if not traces:
        return f"{form}; none is named there", at
    return form + ("; did you mean load @1?" if len(traces) == 1 and rest else ""), at


def bad_form(word: str, rest: str, at: int) -> Hint:
    """Return why the rest of a command doesn't have its form."""
    form = f": the form is {forms_of(COMMANDS[word])}"
    long = [digits for digits in re.findall("[0-9]+", rest.split(" ")[0]) if not numbers_of(digits)]
    if long and not re.search("[^0-9:]", rest.split(" ")[0]):
        return f"{form}, with numbers of at most ten digits and 4,294,967,295 at most", at
    numbers = re.findall("[0-9]+", rest)
    if word == "strike" and len(numbers) == 2:
        return f"{form}; did you mean strike {numbers[0]}:{numbers[1]}?", at
    if word == "filter":
        return bad_filter(form, rest, at)
    if len(numbers) == 1:
        return f"{form}; did you mean {word} {numbers[0]}?", at
    return form, at


def bad_filter(form: str, rest: str, at: int) -> Hint:
    """Return why the rest of a `filter` doesn't have its form."""
    number, how = split_command(rest)
    if not numbers_of(number):
        return form, at
    at += start_of_rest(rest, 1)
    if not how:
        return form, at
    if re.match("none[^A-Za-z0-9_]", how):
        return f"{form}, and nothing stands after none", at
    meant = nearest(how, ["none"])
    if re.search("[=<>&~]", how):
        how = re.sub(r"^if\b[ \t]*", "", how)
        return f"{form}; did you mean filter {number} if {excerpt(how)[0]}?", at
    return f"{form}{f'; did you mean filter {number} none?' if meant else ''}", at
