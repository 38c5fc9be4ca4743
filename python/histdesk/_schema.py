"""The table of events, of their fields, and of the kinds of waits that begin with them.

All lists of events and fields in the package, in the tools and on the page are made from this table; tests compare it with
`include/histdesk.h` and with the engine's own definitions.
"""

from __future__ import annotations

from typing import NamedTuple


class Field(NamedTuple):
    """A field of an event, by which triggers count and filters choose.

    Attributes
    ----------
    name
        Its name, as in triggers and filters.
    column
        The attribute of `Event` that has its value, and the member of `histdesk_event`; None if there is none.
    is_text
        Whether it holds a text, and not a number.
    size
        How many bytes it has in the kernel's record; None if that depends on the kernel.
    """

    name: str
    column: str | None
    is_text: bool = False
    size: int | None = 4


class EventKind(NamedTuple):
    """A kind of events.

    Attributes
    ----------
    name
        Its name in traces and scripts.
    fields
        The fields of its own, in the order in which the kernel prints them.
    is_traced
        Whether lines of a trace are of it, and the engine keeps their fields.
    is_attachable
        Whether triggers can be attached to it.
    """

    name: str
    fields: tuple[Field, ...]
    is_traced: bool = True
    is_attachable: bool = True

    @property
    def columns(self) -> frozenset[str]:
        """The attributes of `Event` that hold its fields."""
        return frozenset(field.column for field in self.fields if field.column)


class WaitKind(NamedTuple):
    """A kind of waits.

    Attributes
    ----------
    name
        Its name.
    begins_with
        The event with which such a wait begins.
    """

    name: str
    begins_with: str


def _text(name: str, column: str, size: int | None = 16) -> Field:
    """Return a field that holds a text."""
    return Field(name, column, True, size)


_WAKE = (_text("comm", "comm"), Field("pid", "pid"), Field("prio", "prio"), Field("target_cpu", "target_cpu"))
_SWITCH = (
    _text("prev_comm", "prev_comm"),
    Field("prev_pid", "prev_pid"),
    Field("prev_prio", "prev_prio"),
    _text("prev_state", "prev_state", None),
    # The task that is switched to has the columns of the task that is woken.
    _text("next_comm", "comm"),
    Field("next_pid", "pid"),
    Field("next_prio", "prio"),
)
# Triggers make this event from a latency; no `Event` is of this kind.
_LATENCY = (Field("lat", None), Field("pid", None), Field("prio", None))

# The fields that filters and triggers on any event may name.
COMMON_FIELDS = (Field("common_pid", "common_pid"), Field("common_cpu", "cpu"))
# An event's number in the library is its place here.
EVENTS = (
    EventKind("sched_waking", _WAKE),
    EventKind("sched_wakeup", _WAKE),
    EventKind("sched_wakeup_new", _WAKE),
    EventKind("sched_switch", _SWITCH),
    EventKind("wakeup_latency", _LATENCY, is_traced=False),
    EventKind("other", (), is_traced=False, is_attachable=False),
)
# A wait's kind in the library is its place here, counted from 1. All waits end with ENDS_WITH.
WAITS = (WaitKind("woken", "sched_waking"), WaitKind("new", "sched_wakeup_new"), WaitKind("preempted", "sched_switch"))
ENDS_WITH = "sched_switch"

# ---- what follows from the table

EVENT_NAMES = tuple(event.name for event in EVENTS)
NUMBERS = {event.name: number for number, event in enumerate(EVENTS)}
WAKING, WAKEUP, WAKEUP_NEW, SWITCH, WAKEUP_LATENCY, OTHER = range(len(EVENTS))
# The events whose fields lines of a trace tell; those to which triggers can be attached; and those that lines can be of.
TRACED_EVENTS = tuple(event.name for event in EVENTS if event.is_traced)
ATTACHABLE_EVENTS = tuple(event.name for event in EVENTS if event.is_attachable)
LINE_EVENTS = (*TRACED_EVENTS, EVENT_NAMES[OTHER])
MADE_EVENT = EVENT_NAMES[WAKEUP_LATENCY]
TEXT_FIELDS = frozenset(field.name for event in EVENTS for field in event.fields if field.is_text)
# The fields whose values an attribute of another name holds, and that attribute.
RENAMED = {field.name: field.column for event in EVENTS for field in event.fields if field.column not in (None, field.name)}

WAIT_KINDS = tuple(wait.name for wait in WAITS)
WOKEN, NEW, PREEMPTED = range(len(WAITS))
BEGINS_WITH = {wait.name: wait.begins_with for wait in WAITS}
# What waits are grouped by, and what differences of waits are sorted by.
WAIT_GROUPS = ("task", "name", "cpu", "prio", "kind")
DIFFERENCE_ORDERS = ("waited", "max")
# What a summary is grouped by.
SUMMARY_GROUPS = ("task", "name", "cpu")
# The events with which waits begin and end, and those without which all waits are the same.
WAIT_EVENTS = tuple(name for name in TRACED_EVENTS if name in (*BEGINS_WITH.values(), ENDS_WITH))
SPARE_EVENTS = tuple(name for name in LINE_EVENTS if name not in WAIT_EVENTS)


def event(name: str) -> EventKind:
    """Return the kind of events that has a name.

    Raises
    ------
    KeyError
        If no event has that name.
    """
    return EVENTS[NUMBERS[name]]


def field_names(name: str) -> list[str]:
    """Return the fields by which triggers on an event count, those of its own first.

    Raises
    ------
    KeyError
        If no event has that name.
    """
    return [field.name for field in (*event(name).fields, *COMMON_FIELDS)]
