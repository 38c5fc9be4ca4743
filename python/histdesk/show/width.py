"""Texts in lines of a given number of columns."""

from __future__ import annotations

import re
import textwrap

# How many columns a line has, unless another width is asked for.
COLUMNS = 80


def wrapped(text: str, width: int, front: str = "", rest: str = "  ") -> list[str]:
    """Return a text in lines of at most `width` columns, if its words allow it.

    Parameters
    ----------
    text
        The text. A number stays on one line with its unit.
    width
        How many columns a line may have.
    front, rest
        What stands before the first line, and before the others.
    """
    text = re.sub(r"(?<=\d) (?=us\b|%)|(?<=CPU) (?=\d)", "\xa0", text)
    lines = textwrap.wrap(
        text, width, initial_indent=front, subsequent_indent=rest, break_long_words=False, break_on_hyphens=False
    )
    return [line.replace("\xa0", " ") for line in lines]
