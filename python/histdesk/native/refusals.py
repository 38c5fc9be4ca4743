"""What the desk refuses, as exceptions."""

from __future__ import annotations

import ctypes
import itertools
import re
from typing import TYPE_CHECKING

from .. import _schema
from .._public import public
from ..show import tables
from . import layout
from .library import Call, library

if TYPE_CHECKING:
    from .memory import Buffer

TEXT_ROOM, WORDS_ROOM = 64, 160
# How many bytes of a trace's line are shown at most.
MOST_SHOWN = 200
BAD_LINE, LANE_HELD, NO_LANE, BAD_TRIGGER, BAD_FILTER, IN_USE, NAME_TAKEN, BAD_COMMAND = 3, 4, 5, 8, 9, 11, 12, 16
FILTER_OF_TRIGGER = 11
# What stands before a trigger's filter.
FILTER_FRONT = re.compile(rb"[^ \t]*[ \t]+if[ \t]+")
# The words of a refusal's text, each of which stands before a number, and the members in which the library has these numbers.
NUMBERED_PARTS = {
    "refused": "number",
    "line": "line",
    "fault": "fault",
    "filter": "filter_fault",
    "cpu": "cpu",
    "trigger": "trigger",
    "at": "place",
}


@public
class Refused(Exception):
    """The desk refused a call. Except for `strike_events`, nothing that it holds has changed. `str()` of it says why, and names
    the file if the call was given one that can't be loaded.

    Attributes that don't belong to the number are None. The numbers are those of docs/REFERENCE.md, in Refusals and in the
    three sections of faults.

    Attributes
    ----------
    number
        Why, as a script's line `refused N`.
    text
        What a script prints, as `refused 8: fault 3`.
    line
        The first line that can't be read, from 1 (number 3).
    path
        The file that was to be loaded (3, 4 and 7), if the call was given a path, or what `read` made of one.
    fault
        What is wrong with that line (3), or with the trigger's text (8).
    filter_fault
        What is wrong with a filter's text (9, and 8 if the fault is 11).
    place
        The byte of that text, from 0, at which it is wrong (8 and 9, for some faults).
    cpu
        The CPU that is held already (4), or isn't held (5).
    trigger
        The id of the trigger that reads (11), or that saves under the name already (12).
    struck
        How many events `strike_events` struck before, which stay struck (5 and 6).

    Examples
    --------
    >>> desk = Desk()
    >>> try:
    ...     desk.attach("sched_waking", "hist:keys=pid:pause")
    ... except Refused as refused:
    ...     print(refused.text)
    refused 8: fault 10 at 14
    """

    number: int = 0
    fault: int | None = None
    filter_fault: int | None = None
    place: int | None = None
    line: int | None = None
    cpu: int | None = None
    trigger: int | None = None
    text: str = ""
    path: str | None = None
    struck: int | None = None

    @property
    def words(self) -> str:
        """Why, in one line, without the file, as `refusal_words` returns it."""
        return super().__str__()

    def __str__(self) -> str:
        return f"{tables.printable(self.path)}: {self.words}" if self.path else self.words


@public
def refusal_words(text: str) -> str:
    """Return what a refusal means, as `Refused.words` has it. No desk is needed.

    Parameters
    ----------
    text
        What a script prints of it, and what `Refused.text` is.

    Returns
    -------
    str
        What it means, in one line.

    Raises
    ------
    ValueError
        If no refusal has that text.

    Examples
    --------
    >>> refusal_words("refused 8: fault 11 filter 2 at 5")
    "the trigger can't be read: its filter: unexpected token"
    """
    refusal = refusal_in(text)
    words = library_text(library.histdesk_refusal_words, refusal, WORDS_ROOM)
    # The library's own text of it says whether this one was read as a whole.
    if not words or library_text(library.histdesk_refusal_text, refusal, TEXT_ROOM) != text:
        raise ValueError(f"no refusal has the text {text!r}")
    return words


def refusal_in(text: str) -> layout.Refusal:
    """Return the refusal whose text has these numbers, if there is one."""
    refusal = layout.Refusal()
    for name, digits in re.findall("([a-z]+) ([0-9]{1,20})", text):
        if name in NUMBERED_PARTS:
            setattr(refusal, NUMBERED_PARTS[name], int(digits))
        refusal.has_place |= name == "at"
    return refusal


def exception_of(refusal: layout.Refusal, text: Buffer | None = None) -> Exception:
    """Return the exception for a refusal: `MemoryError` if memory ran out.

    Parameters
    ----------
    refusal
        The refusal.
    text
        The text that was handed in. If Python prints notes under exceptions, it stands there with a mark at the place, or the
        line of it that can't be read.
    """
    words = library_text(library.histdesk_refusal_words, refusal, WORDS_ROOM)
    if refusal.number == layout.MEMORY:
        # If there is no room for words either, the exception has none, like Python's own.
        return MemoryError(words)
    refused = Refused(words)
    refused.number = refusal.number
    refused.text = library_text(library.histdesk_refusal_text, refusal, TEXT_ROOM)
    set_details(refused, refusal)
    if hasattr(refused, "add_note"):
        message = note_of(refused, b"" if text is None else text)
        if message:
            refused.add_note(message)
    return refused


def at_later_line(refused: Refused, lines: int) -> Refused:
    """Return the same refusal of a line that stands so many lines later in the text."""
    if not (refused.line and lines):
        return refused
    refusal = layout.Refusal(number=refused.number, fault=refused.fault or 0, line=refused.line + lines)
    later = exception_of(refusal)
    if isinstance(later, Refused):
        later.path = refused.path
        for message in getattr(refused, "__notes__", []):
            later.add_note(message)
        return later
    return refused


def note_of(refused: Refused, text: Buffer) -> str:
    """Return what helps to see what is wrong with a text that was handed in; empty if there is nothing more to say."""
    if refused.line:
        return tables.printable(layout.decode(line_at_fault(text, refused.line)))
    if refused.number == BAD_COMMAND:
        return f"triggers are attached to {', '.join(_schema.ATTACHABLE_EVENTS)}"
    place = place_in(refused, text)
    return "" if place is None else with_mark(bytes(text), place)


def place_in(refused: Refused, text: Buffer) -> int | None:
    """Return the byte at which a text that was handed in is wrong, or None."""
    if refused.place is None:
        return None
    # A place of a trigger's filter counts from the filter's first byte.
    front = FILTER_FRONT.match(text) if refused.fault == FILTER_OF_TRIGGER else None
    return refused.place + (front.end() if front else 0)


def set_details(refused: Refused, refusal: layout.Refusal) -> None:
    """Set what belongs to the refusal's number."""
    number = refusal.number
    if number in (BAD_LINE, BAD_TRIGGER):
        refused.fault = refusal.fault
    if number == BAD_LINE:
        refused.line = refusal.line
    elif number in (LANE_HELD, NO_LANE):
        refused.cpu = refusal.cpu
    elif number in (IN_USE, NAME_TAKEN):
        refused.trigger = refusal.trigger
    elif number == BAD_FILTER or refused.fault == FILTER_OF_TRIGGER:
        refused.filter_fault = refusal.filter_fault
    if refusal.has_place:
        refused.place = refusal.place


def library_text(call: Call, refusal: layout.Refusal, room: int) -> str:
    """Return what one of the two calls on a refusal writes."""
    buffer = ctypes.create_string_buffer(room)
    length = call(refusal, buffer, room)
    return layout.decode(buffer.raw[:length])


def line_at_fault(content: Buffer, line: int) -> bytes:
    """Return the beginning of a line of a buffer, by its number."""
    ends = itertools.islice(re.finditer(rb"\n", content), line - 2, line - 1) if line > 1 else iter(())
    start = max((end.end() for end in ends), default=0)
    return bytes(memoryview(content)[start : start + MOST_SHOWN]).partition(b"\n")[0]


def with_mark(text: bytes, place: int) -> str:
    """Return a text on one line, and under it a mark at the place."""
    front = tables.printable(layout.decode(text[:place]))
    return tables.printable(layout.decode(text)) + "\n" + " " * len(front) + "^"
