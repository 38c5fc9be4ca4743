"""Where an event stands in a trace."""

from __future__ import annotations

from typing import NamedTuple

from .._public import public


@public
class Place(NamedTuple):
    """Where an event stands. Places sort in the order in which the events go past the triggers.

    Attributes
    ----------
    stamp
        Its stamp, in microseconds.
    cpu
        Its CPU, from 0.
    line
        Its line on that CPU, from 1.
    """

    stamp: int
    cpu: int
    line: int
