"""What a desk holds and answers, as tables of plain values: for CSV and JSON lines."""

from __future__ import annotations

import itertools
from typing import TYPE_CHECKING, Iterable, Iterator, NamedTuple, Sequence, Union

import numpy as np

from .. import _schema
from ..desk.events import COLUMNS, COMMON, NAMES, RENAMED, Events, having, texts
from ..desk.recording import Recording
from ..desk.values import Latency
from ..trace.losses import Hole

if TYPE_CHECKING:
    from numpy.typing import NDArray

    from ..desk.desk import Desk
    from ..desk.trigger import Trigger
    from ..waiting.waits import Waits

    # Values of one column.
    Column = Union[NDArray[np.generic], list[object]]

# How many events are decoded at once.
EVENTS_AT_ONCE = 1 << 16
# Selects every event.
EVERY = "common_cpu >= 0"
# The columns that name a task, and the fields of an event that do: of the task that it is about, of the one that leaves, and
# of the one that runs, whose prio isn't known.
TASK = ("task", "pid", "prio")
WOKEN, LEAVING, RUNNING = ("comm", "pid", "prio"), ("prev_comm", "prev_pid", "prev_prio"), ("task", "common_pid")


class Records(NamedTuple):
    """A table of plain values.

    Attributes
    ----------
    names
        The names of its columns.
    rows
        Its rows, of numbers, texts, truth values and None.
    """

    names: Sequence[str]
    rows: Iterator[Sequence[object]]


# ---- events


def events_table(desk: Desk, recording: Recording | None = None) -> Records:
    """Return all events of a desk in merged order, with the fields of `Event`, and the task of a switch by its own names too.

    Parameters
    ----------
    desk
        The desk.
    recording
        What the desk was made for; lines are then those of the whole recording.
    """
    return Records(COLUMNS, event_rows(desk.events(), recording))


def event_rows(events: Events, recording: Recording | None) -> Iterator[Sequence[object]]:
    """Go through events as rows."""
    for start in range(0, len(events), EVENTS_AT_ONCE):
        part = events[start : start + EVENTS_AT_ONCE]
        yield from zip(*event_columns(part, recording))


def event_columns(events: Events, recording: Recording | None) -> list[list[object]]:
    """Return the fields of events, each as a list."""
    array = events.array
    columns = {field: event_column(array, field) for field in COLUMNS}
    if recording:
        columns["line"] = recording.lines(array.cpu, array.line).tolist()
    return [*columns.values()]


def event_column(array: np.recarray[tuple[int], np.dtype[np.void]], field: str) -> list[object]:
    """Return a field of events; it is None for an event that doesn't have it."""
    held = RENAMED.get(field, field)
    names = np.array(_schema.EVENT_NAMES, dtype=object)
    column = names[array["name"]] if field == "name" else texts(array, held) if held in NAMES else array[held]
    if COLUMNS.index(field) > COMMON:
        column = column.astype(object)
        column[~having(array, field)] = None
    values: list[object] = column.tolist()
    return values


# ---- waits


def waits_table(parts: Iterable[Waits]) -> Records:
    """Return waits one by one, in the order in which they ended: the task's name, and the fields of `Waits.array`.

    Parameters
    ----------
    parts
        The waits; each part is asked for when the one before it has been written.
    """
    from ..waiting.waits import FIELDS

    names = [name for name, _ in FIELDS]
    rows = (zip(part.names.tolist(), *(part.array[name].tolist() for name in names)) for part in parts)
    return Records(("task", *names), itertools.chain.from_iterable(rows))


# ---- answers of triggers


def rows_table(trigger: Trigger) -> Records:
    """Return the rows of a trigger.

    The columns have the names of its parts; those of keys with their modifiers: a column `lat.log2` has the powers, and
    `pid.buckets=32` the least number of each bucket.
    """
    shape = trigger._session.shape(trigger.id)
    keys = [key.field if key.modifier in ("", "hex") else f"{key.field}.{key.modifier}" for key in shape.keys]
    rows = ([int(value) if isinstance(value, int) else value for value in row] for row in trigger.rows())
    return Records((*keys, *trigger.names[len(keys) :]), rows)


def latencies_table(desk: Desk, trigger: Trigger, recording: Recording | None = None) -> Records:
    """Return the latencies of a trigger, in the order of the events that end them.

    The columns are the task that the trigger's first key is of, as the event that ends the latency has it, the fields of
    `Latency`, and whether events were lost meanwhile.

    Parameters
    ----------
    desk
        The desk that holds the events.
    trigger
        One of its triggers.
    recording
        What the desk was made for; lines are then those of the whole recording.
    """
    latencies, events = trigger.latencies(), desk.events_matching(trigger.event, EVERY)
    holes = recording.holes if recording else desk.holes
    at = {place: index for index, place in enumerate(zip(as_list(events["cpu"]), as_list(events["line"])))}
    columns = {field: latencies[field].tolist() for field in Latency._fields}
    ends = [at[place] for place in zip(columns["read_cpu"], columns["read_line"])]
    task = [[column[index] for index in ends] for column in (as_list(events[field]) for field in task_fields(trigger))]
    doubtful = latency_doubts_of(latencies, holes)
    if recording:
        for end in ("saved", "read"):
            columns[f"{end}_line"] = recording.lines(latencies[f"{end}_cpu"], latencies[f"{end}_line"]).tolist()
    prio: list[list[object]] = [] if len(task) == len(TASK) else [[None] * len(ends)]
    return Records((*TASK, *Latency._fields, "doubtful"), zip(*task, *prio, *columns.values(), doubtful))


def task_fields(trigger: Trigger) -> tuple[str, ...]:
    """Return the fields of an event that name the task which the first key of a trigger is of."""
    field = trigger._session.shape(trigger.id).keys[0].field
    return LEAVING if field.startswith("prev_") else RUNNING if field.startswith("common_") else WOKEN


def latency_doubts_of(latencies: NDArray[np.void], holes: tuple[Hole, ...]) -> list[bool]:
    """Return which latencies span lost events."""
    if not holes:
        return [False] * len(latencies)
    from ..waiting import waits

    doubts: list[bool] = waits.doubts(latencies["saved_stamp"], latencies["read_stamp"], holes).tolist()
    return doubts


def as_list(column: Column) -> list[object]:
    """Return a column as a list of Python's own values."""
    values: list[object] = column if isinstance(column, list) else column.tolist()
    return values
