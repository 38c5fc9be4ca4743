"""What was probably meant by a filter or a trigger that is refused, as explain says it."""

from __future__ import annotations

from ..native import layout
from ..native.refusals import Refused, place_in


def hint_of(refused: Refused, event: str, text: str) -> str:
    """Return what explain says after the library's words.

    Parameters
    ----------
    refused
        The refusal.
    event
        The name of the event to which the filter or trigger was to be attached.
    text
        The filter or the trigger.

    Returns
    -------
    str
        The hint, which begins with a sign; empty if there is none.
    """
    from ..script.hints import filter_hint, trigger_hint

    given = layout.encode(text)
    place = place_in(refused, given)
    # Hints are made from Latin-1 texts, in which a character is a byte.
    line = given.decode("latin-1")
    if refused.fault is not None:
        numbers = {"fault": refused.fault, "filter": refused.filter_fault, "at": refused.place}
        return trigger_hint(event, line, {name: value for name, value in numbers.items() if value is not None})[0]
    if refused.filter_fault is not None:
        return filter_hint(event, line, refused.filter_fault, place)
    return ""
