"""What the page knows of events: those with which waits begin and end, their fields, and the kinds of waits."""

from __future__ import annotations

from typing import Any

from .. import _schema


def schema() -> dict[str, Any]:
    """Return the events with which waits begin and end, and the kinds of waits.

    Returns
    -------
    dict
        `events`, each with its `name`, its `fields` and the field that has the name of the `task` which waits; `ends_with`,
        the event that ends all waits; and `kinds` of waits by their numbers, each with its `name` and the event that it
        `begins_with`.
    """
    return {
        "events": [event_json(name) for name in _schema.WAIT_EVENTS],
        "ends_with": _schema.ENDS_WITH,
        "kinds": [kind._asdict() for kind in _schema.WAITS],
    }


def event_json(name: str) -> dict[str, Any]:
    """Return an event, its fields, and the field with the name of its task."""
    task = next(field.name for field in _schema.event(name).fields if field.column == "comm")
    return {"name": name, "task": task, "fields": _schema.field_names(name)}
