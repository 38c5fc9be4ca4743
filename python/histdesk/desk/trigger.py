"""An attached trigger."""

from __future__ import annotations

from collections.abc import Sequence
from typing import TYPE_CHECKING, Any

from .._public import public
from ..native import layout
from ..native.arguments import Text, as_bytes
from ..native.arrays import LATENCY_TYPE
from ..native.library import library
from ..show import tables
from ..show.frames import Times, finished
from . import row_shape
from .rows import frame_of
from .session import DeskSession
from .values import Latency, Totals

if TYPE_CHECKING:
    import numpy as np
    from pandas import DataFrame  # type: ignore[import]


@public
class Trigger:
    """A trigger that is attached to a desk; `Desk.attach` and `Desk.trigger` make it.

    Each answer is that of the events and triggers present at that moment. If it is no longer attached, all calls
    raise `Refused` with number 10. If memory runs out they raise `MemoryError`, and the desk is as before.

    Parameters
    ----------
    session
        The desk that it is attached to.
    number
        Its id.
    event
        The name of the event that it is attached to.

    Examples
    --------
    >>> desk = Desk()
    >>> edit = desk.insert(" sim-1 [000] d.h.. 1.000100: sched_waking: comm=w pid=42 prio=120 target_cpu=001")
    >>> wakings = desk.attach("sched_waking", "hist:keys=pid:vals=prio")
    >>> wakings.rows()
    [Row(pid=42, hitcount=1, prio=120)]
    >>> wakings.filter = "prio < 100"
    >>> wakings.totals()
    Totals(hits=0, entries=0, dropped=0)
    """

    def __init__(self, session: DeskSession, number: int, event: str) -> None:
        self._session = session
        self._id = number
        self._event = event

    @property
    def id(self) -> int:
        """Its number, from 1, which no other trigger of the desk gets."""
        return self._id

    @property
    def event(self) -> str:
        """The name of the event that it is attached to."""
        return self._event

    @property
    def canonical(self) -> str:
        """Its text as the desk writes it, with all defaults filled in. Attaching it gives the same trigger."""
        return self._session.trigger_text(self._id)

    @property
    def names(self) -> tuple[str, ...]:
        """The names of a row's parts: the fields of its keys, `hitcount`, and the fields or variables that it sums. A value
        that is a key too has `_sum` after its name."""
        return self._session.shape(self._id).names

    @property
    def filter(self) -> str | None:
        """The filter's text as the desk writes it, or None. It can be set to another text, or to None; a text that can't be
        read is refused with number 9, and the filter stays."""
        return row_shape.filter_of(self.canonical)

    @filter.setter
    def filter(self, text: Text | None) -> None:
        if text is None:
            self._session.call(library.histdesk_unfilter, self._id)
        else:
            content = as_bytes(text)
            self._session.call(library.histdesk_refilter, self._id, content, len(content), text=content)

    def text(self) -> str:
        """Return the table as text.

        Returns
        -------
        str
            What the kernel's `hist` file shows, with the totals.

        Raises
        ------
        Refused
            10 if the trigger isn't attached any more.
        """
        return self._session.text(library.histdesk_hist, self._id)

    def rows(self) -> list[Any]:
        """Return the rows of the table, in the order of `text`.

        Returns
        -------
        list of Row
            Named tuples of the key's parts, `hitcount`, and the sums. Numbers are `int`, with their sign; under `.log2` they
            are `Log2`, under `.buckets` `Bucket`; names are `str`. Sums are modulo 2^64, of stamps and latencies in
            microseconds. A variable that Python doesn't take for a name has another one in the tuple (`_2` by its place, or a
            `_` after a keyword); `names` has them as they are.

        Raises
        ------
        Refused
            10 if the trigger isn't attached any more.
        """
        shape = self._session.shape(self._id)
        return [shape.row_of(fields) for fields in layout.ROW.iter_unpack(self._structs())]

    def totals(self) -> Totals:
        """Return the totals of the table.

        Returns
        -------
        Totals
            How many events were counted, how many keys are in the table, and how many events found no room in it.

        Raises
        ------
        Refused
            10 if the trigger isn't attached any more.
        """
        totals = layout.Totals()
        self._session.call(library.histdesk_totals_of, self._id, totals)
        return Totals(totals.hits, totals.entries, totals.dropped)

    def latencies(self) -> np.recarray[Any, Any]:
        """Return the times that the trigger measured, one by one, in the order of the events that end them.

        Returns
        -------
        numpy.recarray
            An element for each latency, with the fields of `Latency`. Stamps and `micros` are in microseconds.

        Raises
        ------
        Refused
            17 if the trigger reads no variable, and 10 if it isn't attached any more.
        """
        return self._session.records(library.histdesk_latencies_copy, LATENCY_TYPE, library.histdesk_latencies, self._id)

    def to_pandas(self) -> DataFrame:
        """Return the table.

        Returns
        -------
        pandas.DataFrame
            A row for each key, with `names` as columns. `.log2` gives the power, `.buckets` the least value of each bucket.
            Sums are unsigned numbers of 64 bits, all others signed ones.

        Raises
        ------
        Refused
            10 if the trigger isn't attached any more.
        ImportError
            If pandas is missing.
        """
        return frame_of(self._session.shape(self._id), self.rows())

    def latencies_to_pandas(self, *, times: Times = "micros") -> DataFrame:
        """Return the latencies.

        Parameters
        ----------
        times
            `"micros"` for whole microseconds, `"timedelta"` for `timedelta64`.

        Returns
        -------
        pandas.DataFrame
            A row for each latency, in the order in which they were measured: where the stamp was saved, where it was read, and
            `micros`, their difference in microseconds.

        Raises
        ------
        Refused
            17 if the trigger reads no variable, and 10 if it isn't attached any more.
        ImportError
            If pandas is missing.
        """
        import pandas

        return finished(pandas.DataFrame(self.latencies(), columns=Latency._fields).astype("int64"), times)

    def remove(self) -> None:
        """Remove the trigger from its desk.

        Raises
        ------
        Refused
            11 if another trigger reads what it saves, and 10 if it isn't attached any more.
        """
        self._session.remove(self._id)

    def _structs(self) -> bytearray:
        """Return the structs of the rows."""
        return self._session.content(library.histdesk_rows_copy, layout.ROW.size, library.histdesk_rows, self._id)

    def _table(self) -> tables.Table:
        """Return the ends of the table."""
        shape, structs = self._session.shape(self._id), self._structs()
        size = layout.ROW.size

        def row(at: int) -> Sequence[Any]:
            return shape.row_of(layout.ROW.unpack_from(structs, at * size))

        return tables.table_of(shape.names, len(structs) // size, row)

    def _display(self) -> tuple[str, list[tables.Table], str]:
        """Return what is shown: a title, the table, and the totals; or why there are none, as the title."""
        title = f"histdesk.Trigger {self._id} on {self._event}"
        try:
            totals = self.totals()
            foot = f"hits {totals.hits}, entries {totals.entries}, dropped {totals.dropped}"
            return f"{title}: {self.canonical}", [self._table()], foot
        except Exception as error:
            return f"<{title}: {error}>", [], ""

    def __repr__(self) -> str:
        title, shown, foot = self._display()
        return "\n".join([tables.printable(title), *map(tables.in_text, shown), *filter(None, [foot])])

    def _repr_html_(self) -> str:
        return tables.in_html(*self._display())

    def __eq__(self, other: object) -> bool:
        if not isinstance(other, Trigger):
            return NotImplemented
        return self._session is other._session and self._id == other._id

    def __hash__(self) -> int:
        return hash((id(self._session), self._id))
