"""Held events, as a sequence over the library's structs."""

from __future__ import annotations

from collections.abc import Iterator, Sequence
from typing import TYPE_CHECKING, Any, overload

import numpy as np

from .. import _schema
from .._public import public
from ..native import layout
from ..native.arrays import EVENT_TYPE, texts_of_names, words_of_names
from ..native.numbering import Numbers
from ..show import tables
from ..show.frames import Times, finished, from_codes
from .values import Event

if TYPE_CHECKING:
    from numpy.typing import NDArray
    from pandas import DataFrame  # type: ignore[import]
    from pandas.api.extensions import ExtensionArray  # type: ignore[import]

    from ..native.memory import Buffer

NUMBERS = ("stamp", "cpu", "line", "common_pid", "pid", "prio", "target_cpu", "prev_pid", "prev_prio")
COMMON_NUMBERS = ("stamp", "cpu", "line", "common_pid")
NAMES = ("task", "comm", "prev_comm", "prev_state")
# The columns of a table of all fields: those of `Event`, and fields that have the values of a column of another name.
RENAMED = _schema.RENAMED
COLUMNS = (*Event._fields, *RENAMED)
# What a table of events shows of each.
SHOWN = ("stamp", "cpu", "line", "name", "task", "common_pid", "comm", "pid", "prio")
# The last field of the common part; only some names have the fields after it.
COMMON = Event._fields.index("common_pid")
# Which of the fields after the common part each event has, by the event's number.
OWN = [tuple(column in event.columns for column in Event._fields[COMMON + 1 :]) for event in _schema.EVENTS]


@public
class Events(Sequence[Event]):
    """Events as they were held when they were asked for; `Desk.events` makes it. Nothing is decoded before it is looked at.

    `events[3]` is an `Event`, `events[2:9]` is `Events`, and `events["pid"]` is one field of all: an array of numbers, with 0
    for an event that has no such field, or a list of names, with None. The task that a switch runs is both `"pid"` and
    `"next_pid"`, and so on; only switches have the latter.

    Parameters
    ----------
    content
        The library's structs, in bytes.

    Examples
    --------
    >>> desk = Desk()
    >>> edit = desk.insert(" sim-1 [000] d.h.. 1.000100: sched_waking: comm=w pid=42 prio=120 target_cpu=001")
    >>> events = desk.events()
    >>> events[0].comm, events[0].pid, events[0].stamp, events["comm"]
    ('w', 42, 1000100, ['w'])
    >>> events["pid"]
    array([42], dtype=int32)
    """

    def __init__(self, content: Buffer | NDArray[np.uint8]) -> None:
        self._content = np.frombuffer(content, "u1")
        self._count = len(content) // layout.EVENT.size

    def __len__(self) -> int:
        return self._count

    @overload
    def __getitem__(self, at: int) -> Event:
        """Return the event at this place."""

    @overload
    def __getitem__(self, at: slice) -> Events:
        """Return the events at these places."""

    @overload
    def __getitem__(self, at: str) -> Any:
        """Return the field of this name, of all events."""

    def __getitem__(self, at: int | slice | str) -> Any:
        if isinstance(at, str):
            return self._column(at)
        if isinstance(at, slice):
            return self._part(range(self._count)[at])
        # The range gives the index from the beginning, or raises `IndexError`.
        return event_of(layout.EVENT.unpack_from(self._content.data, layout.EVENT.size * range(self._count)[at]))

    def __iter__(self) -> Iterator[Event]:
        return map(event_of, layout.EVENT.iter_unpack(self._content.data))

    def __eq__(self, other: object) -> bool:
        if not isinstance(other, Events):
            return NotImplemented
        return np.array_equal(self._content, other._content)

    __hash__ = None  # type: ignore[assignment]

    @property
    def array(self) -> np.recarray[Any, Any]:
        """The events as a record array over the same memory, without a copy: numbers as they are held, 0 if an event has no
        such field; names as bytes, with their lengths after them (`comm`, `comm_length`)."""
        return np.frombuffer(self._content, EVENT_TYPE).view(np.recarray)

    def to_pandas(self, *, times: Times = "micros") -> DataFrame:
        """Return the events as a DataFrame.

        Parameters
        ----------
        times
            Whether timestamps are numbers of microseconds, or `timedelta64` (`"timedelta"`).

        Returns
        -------
        pandas.DataFrame
            A row for each event, with the fields of `Event` as columns, and `next_comm`, `next_pid` and `next_prio`: texts and
            CPUs as categories, numbers of the common part as `int64`, and others as `Int64`. A field is NA if the event doesn't
            have it.

        Raises
        ------
        ImportError
            If pandas is missing.
        """
        import pandas

        columns = {field: frame_column(self.array, field) for field in COLUMNS}
        return finished(pandas.DataFrame(columns, copy=False), times)

    def _part(self, places: range) -> Events:
        """Return the events at these places."""
        size = layout.EVENT.size
        if places.step == 1:
            return Events(self._content[size * places.start : size * places.stop])
        return Events(self._content.reshape(-1, size)[np.arange(places.start, places.stop, places.step)].reshape(-1))

    def _column(self, field: str) -> NDArray[Any] | list[Any]:
        """Return a field of all events. Raises `KeyError` if there is none of that name."""
        if field not in COLUMNS:
            raise KeyError(field)
        held = RENAMED.get(field, field)
        if held in NUMBERS:
            column: NDArray[Any] = self.array[held]
            return column if held == field else np.where(having(self.array, field), column, 0).astype(column.dtype)
        if held in NAMES:
            structs = layout.name_struct(held).iter_unpack(self._content.data)
            return [layout.text_of(text, length) if has(name, field) else None for name, text, length in structs]
        at = Event._fields.index(field)
        return [event[at] for event in self]

    def _table(self) -> tables.Table:
        """Return the table, with its first and its last events."""
        fields = [Event._fields.index(field) for field in SHOWN]
        return tables.table_of(SHOWN, self._count, lambda at: [self[at][field] for field in fields])

    def __repr__(self) -> str:
        return f"<histdesk.Events: {self._count}>\n{tables.in_text(self._table())}"

    def _repr_html_(self) -> str:
        return tables.in_html(tables.count_of(self._count, "event"), [self._table()])


def event_of(fields: Sequence[Any]) -> Event:
    """Return an event from the fields of its struct."""
    stamp, cpu, line, name, common_pid, pid, prio, target_cpu, prev_pid, prev_prio = fields[:10]
    task, comm, prev_comm, prev_state = map(layout.text_of, fields[10::2], fields[11::2])
    own = (comm, pid, prio, target_cpu, prev_comm, prev_pid, prev_prio, prev_state)
    common = (stamp, cpu, line, _schema.EVENT_NAMES[name], task, common_pid)
    return Event(*common, *[value if is_own else None for value, is_own in zip(own, OWN[name])])


def has(name: int, field: str) -> bool:
    """Return whether events whose name has this number have a field."""
    if field in RENAMED:
        return any(own.name == field for own in _schema.EVENTS[name].fields)
    at = Event._fields.index(field)
    return at <= COMMON or OWN[name][at - COMMON - 1]


def having(array: np.recarray[Any, Any], field: str) -> NDArray[np.bool_]:
    """Return which events have a field, as a mask."""
    mask: NDArray[np.bool_] = np.array([has(name, field) for name in range(len(_schema.EVENT_NAMES))])[array["name"]]
    return mask


# ---- columns of a DataFrame


def frame_column(array: np.recarray[Any, Any], field: str) -> NDArray[Any] | ExtensionArray:
    """Return a field of all events, which is NA for events that don't have it."""
    import pandas

    if field == "name":
        return from_codes(array["name"].astype("i8"), _schema.EVENT_NAMES)
    held = RENAMED.get(field, field)
    if held in NAMES:
        names, codes = name_codes(array, held)
        return from_codes(np.where(having(array, field), codes, -1), names.tolist())
    numbers: NDArray[np.int64] = array[held].astype("int64")
    return numbers if field in COMMON_NUMBERS else pandas.arrays.IntegerArray(numbers, ~having(array, field))


def texts(array: NDArray[Any], field: str) -> NDArray[np.object_]:
    """Return a field of names, of all events, as texts."""
    names, codes = name_codes(array, field)
    return names[codes]


def name_codes(array: NDArray[Any], field: str) -> tuple[NDArray[np.object_], NDArray[np.int32]]:
    """Return the different texts of a field of names, and which one each event has. Each text is decoded once."""
    names = Numbers(layout.NAME_WORDS)
    codes = names.of(words_of_names(array, field))
    return texts_of_names(names.rows), codes
