"""A desk as the library has it, with its triggers and edits."""

from __future__ import annotations

import ctypes
from collections.abc import Sequence
from typing import TYPE_CHECKING, Any

from ..native import layout
from ..native.arguments import pack_places
from ..native.arrays import EVENT_TYPE
from ..native.buffers import bytes_of
from ..native.library import Call, library
from ..native.refusals import Refused
from ..native.session import Session, check_copied
from .events import Events
from .row_shape import Shape
from .values import Changed, Edit, Edits

if TYPE_CHECKING:
    from collections.abc import Iterable

    from numpy.typing import NDArray

    from ..native.arguments import Located
    from ..native.memory import Buffer


class DeskSession(Session):
    """The library's desk, the thread that made it, and what its triggers count by.

    Raises
    ------
    MemoryError
        If memory ran out.
    """

    def __init__(self) -> None:
        super().__init__()
        self._shapes: dict[int, Shape] = {}

    def events(self, ask: Call, *arguments: object, text: Buffer | None = None) -> Events:
        """Return the events at the places that `ask` answers."""
        return Events(self.array(library.histdesk_events_copy, EVENT_TYPE, ask, *arguments, text=text).view("u1"))

    # ---- of triggers

    def trigger_text(self, trigger: int) -> str:
        """Return the canonical text of a trigger."""
        return self.text(library.histdesk_trigger_text, trigger)

    def shape(self, trigger: int) -> Shape:
        """Return what a trigger counts by and sums. An id is never given twice, so it is read once."""
        if trigger not in self._shapes:
            self._shapes[trigger] = Shape(self.trigger_text(trigger))
        return self._shapes[trigger]

    def remove(self, trigger: int) -> None:
        """Remove a trigger."""
        self.call(library.histdesk_remove, trigger)
        self._shapes.pop(trigger, None)

    # ---- of edits

    def edit(self, cpu: int, line: int) -> Edit:
        """Return what the last edit did, which was an accepted one at that place."""
        return Edit(cpu, line, *self._report())

    def strike_events(self, places: NDArray[Any] | Iterable[Located], reports: bool) -> Edits:
        """Strike the events at places.

        Parameters
        ----------
        places
            As `pack_places` takes them.
        reports
            Whether the rows that may have changed are reported. Otherwise any row may have changed.

        Raises
        ------
        Refused
            At the first place that is refused. Its `struck` is how many events were struck before.
        """
        content, count = pack_places(places)
        struck = ctypes.c_uint64()
        try:
            with bytes_of(content) as (address, _):
                self.call(library.histdesk_strike_events, address, count, reports, struck)
        except Refused as refused:
            refused.struck = struck.value
            raise
        if not struck.value:
            # The report is still that of the edit before.
            return Edits(0, [] if reports else None, bool(library.histdesk_is_deferred(self.handle)))
        return Edits(struck.value, *self._report())

    def _report(self) -> tuple[list[Changed] | None, bool]:
        """Return which rows the last edit may have changed, if that is known, and whether the tables lack it."""
        deferred = bool(library.histdesk_is_deferred(self.handle))
        try:
            return self._changed(), deferred
        except MemoryError:
            # The edit stands, and its report is lost.
            return None, deferred

    def _changed(self) -> list[Changed] | None:
        """Return the rows that the report of the last edit names; None if it lacks those of some triggers."""
        report = layout.Report()
        self.call(library.histdesk_report_of, report)
        if not (report.has_rows and report.has_made):
            return None
        # Both kinds are copied before their triggers are asked for.
        copies = (library.histdesk_rows_changed_copy, report.rows), (library.histdesk_made_changed_copy, report.made)
        structs = b"".join([self._copy_report(copy, count) for copy, count in copies])
        return [self._row_name(fields) for fields in layout.CHANGED.iter_unpack(structs)]

    def _copy_report(self, copy: Call, count: int) -> bytes:
        """Return so many structs of the report."""
        if not count:
            return b""
        room = ctypes.create_string_buffer(count * layout.CHANGED.size)
        check_copied(copy(self.handle, 0, room, count), count)
        return room.raw

    def _row_name(self, fields: Sequence[Any]) -> Changed:
        """Return the row that a struct of the report names."""
        return Changed(fields[0], self.shape(fields[0]).key_of(fields[1:]))
