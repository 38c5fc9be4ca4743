"""How a text and a place in it are shown, and which name is close to a mistyped word."""

from __future__ import annotations

import difflib
import re
import shutil
import sys
from collections.abc import Iterable, Sequence

from .._schema import MADE_EVENT, field_names
from ..show.width import COLUMNS, wrapped

# How many columns of a long text are shown, unless a line has fewer.
MOST_COLUMNS = 300
# The narrowest terminal that lines are fitted to.
NARROWEST = 40
# What stands before an explanation.
INDENT = "    "


def columns() -> int:
    """Return how many columns a line may have: as many as the terminal has, or 80 if standard output is none."""
    return max(shutil.get_terminal_size().columns, NARROWEST) if sys.stdout.isatty() else COLUMNS


def beginning(pattern: str, text: str) -> str:
    """Return as much of a text as a pattern matches from its beginning on."""
    match = re.match(pattern, text)
    return match[0] if match else ""


def excerpt(text: str, place: int | None = None, most: int = MOST_COLUMNS) -> tuple[str, int | None]:
    """Return a text on one line of printable ASCII, and the column of a place in it.

    Parameters
    ----------
    text
        The text, in Latin-1: a character for each byte.
    place
        The number of a byte in it.
    most
        How many columns are shown. A longer text is cut around the place, with `..` for each part that is left out.
    """
    at = place or 0
    # No more of a very long text can be shown.
    start = max(at - most, 0)
    pieces = [in_ascii(byte) for byte in text[start : at + most + 1]]
    low, high = window([len(piece) for piece in pieces], at - start, most)
    front, back = "." * 2 * (start + low > 0), "." * 2 * (start + high < len(text))
    column = None if place is None else len(front) + sum(map(len, pieces[low : at - start]))
    return front + "".join(pieces[low:high]) + back, column


def window(widths: Sequence[int], at: int, most: int) -> tuple[int, int]:
    """Return which of some pieces, by their widths, are shown around one of them in so many columns: from which on, and before
    which."""
    low, room = at, most // 2
    while low > 0 and widths[low - 1] <= room:
        low -= 1
        room -= widths[low]
    high, room = low, most
    while high < len(widths) and widths[high] <= room:
        room -= widths[high]
        high += 1
    while low > 0 and widths[low - 1] <= room:
        low -= 1
        room -= widths[low]
    return low, high


def in_ascii(text: str) -> str:
    """Return a text in printable ASCII."""
    return re.sub(r"[^ -~]", lambda byte: {"\t": "\\t", "\r": "\\r"}.get(byte[0], f"\\x{ord(byte[0]):02x}"), text)


def with_caret(front: str, text: str, place: int | None, meaning: str, width: int = COLUMNS) -> list[str]:
    """Return the lines that show a text and explain it.

    Parameters
    ----------
    front
        What stands before the text.
    text
        The text; if it is too long for a line, it is cut around the place.
    place
        The number of a byte in the text, under which a line has a caret; None if it has no such place.
    meaning
        The explanation. If it doesn't fit beside the text, it follows in lines of its own.
    width
        How many columns a line may have.
    """
    line, column = excerpt(text, place, max(width - len(front) - 4, 20))
    caret = [] if column is None else [" " * (len(front) + column) + "^"]
    if len(front) + len(line) + 2 + len(meaning) <= width:
        return [f"{front}{line}: {meaning}", *caret]
    return [front + line, *caret, *wrapped(meaning, width, INDENT, INDENT)]


def nearest(word: str, choices: Sequence[str]) -> str | None:
    """Return the choice that is close to a word, or None: it is a few letters off, or one begins the other."""
    close = difflib.get_close_matches(word.lower(), choices, 1, 0.6)
    if close:
        return close[0]
    if len(word) >= 3:
        for choice in choices:
            if word.lower().startswith(choice) or choice.startswith(word.lower()):
                return choice
    return None


def near(word: str, choices: Iterable[str]) -> str:
    """Return the question whether a close choice was meant, to follow an explanation; empty if none is close."""
    choice = nearest(word, list(choices))
    return f"; did you mean {choice}?" if choice and choice != word else ""


def field_meant(word: str, event: str | None) -> str:
    """Return what follows the explanation of an unknown field of an event: which event has it, and which field was meant or
    which fields there are."""
    if event is None:
        return ""
    # All wake events have the same fields.
    owners = [("sched_switch", "sched_switch has"), ("sched_waking", "the wake events have"), (MADE_EVENT, f"{MADE_EVENT} has")]
    elsewhere = [f"; {owner} it" for other, owner in owners if word in field_names(other)]
    return "".join(elsewhere[:1]) + (near(word, field_names(event)) or f"; {event} has {', '.join(field_names(event))}")
