"""A desk: what is held and attached, and what it answers."""

from __future__ import annotations

import builtins
import ctypes
import warnings
from collections.abc import Iterable
from typing import TYPE_CHECKING, Any, NoReturn

from .. import _schema
from .._public import public
from ..native import layout
from ..native.arguments import Located, Text, as_bytes, event_number, number
from ..native.arrays import PLACE_TYPE
from ..native.buffers import bytes_of
from ..native.library import library
from ..native.refusals import Refused, at_later_line
from ..show import tables
from ..show.frames import Times
from ..trace.losses import Hole, LossWarning, losses_of
from ..trace.source import content_of, lines_of, searchable
from ..trace.source import Trace as Trace
from .events import Events
from .loaded import Lane, Loaded
from .recording import Recording, path_of
from .session import DeskSession
from .trigger import Trigger
from .values import Edit, Edits, Event

if TYPE_CHECKING:
    import numpy as np
    from numpy.typing import NDArray
    from pandas import DataFrame  # type: ignore[import]

CPUS = 8192


@public
class Desk:
    """Holds the events of traces and the hist triggers that are attached to them, and answers from both.

    Each answer is that of replaying the events held at that moment past the triggers attached at that moment. A call that
    is refused raises `Refused`, and one that finds no memory raises `MemoryError`; the desk is then as before. Stamps are in
    microseconds, and lines are numbered from 1 on each CPU.

    A desk stays with the thread that made it: a call from another one raises `RuntimeError`, and so does closing it there.
    The collector may free it in any thread. A closed desk raises `ValueError`. A desk is a context manager: `with` closes it.

    Examples
    --------
    >>> with Desk() as desk:
    ...     desk.load(b"sim-1 [000] d.h.. 1.000100: sched_waking: comm=w pid=42 prio=120 target_cpu=000")
    ...     wakings = desk.attach("sched_waking", "hist:keys=pid")
    ...     wakings.totals()
    1
    Totals(hits=1, entries=1, dropped=0)
    """

    def __init__(self) -> None:
        self._session = DeskSession()
        # The CPUs whose events are held, or None if there was no memory to find them; and where events of theirs were lost.
        self._held: set[int] | None = set()
        self._holes: dict[int | None, list[Hole]] = {}

    def close(self) -> None:
        """Give back its memory. Closing it again does nothing.

        Raises
        ------
        RuntimeError
            If it is called in a thread that didn't make the desk.
        """
        self._session.close()

    @property
    def closed(self) -> bool:
        """Whether it is closed."""
        return self._session.closed

    def __enter__(self) -> Desk:
        self._session.check()
        return self

    def __exit__(self, *_: object) -> None:
        self.close()

    def __reduce__(self) -> NoReturn:
        raise TypeError("a desk can't be copied or pickled")

    # ---- edits

    def load(self, trace: Trace | Recording) -> Loaded:
        """Load a trace. If lines of it report lost events, a one-line `LossWarning` is issued.

        Parameters
        ----------
        trace
            A path (`str` or `os.PathLike`), the text itself as bytes or another buffer, an open file, which is read to its end,
            or what `read` has returned, which has warned already. Gzipped data is unpacked, whatever the file's name. A
            buffer isn't copied; nothing may change it until the call is done.

        Returns
        -------
        Loaded
            How many events it has: a number that also says how many lines hold no event, what the first and the last stamp of
            each CPU are, in microseconds, and where events were lost.

        Raises
        ------
        Refused
            3 if a line can't be read, 4 if events of one of its CPUs are held, 7 if there is no room.
        OSError
            If the file can't be read.
        TypeError
            If it is no trace.
        """
        self._session.check()
        content = trace.text if isinstance(trace, Recording) else content_of(trace)
        with bytes_of(content) as (address, length):
            text = searchable(content)
            losses = trace.losses if isinstance(trace, Recording) else losses_of(text)
            lines = lines_of(text)
            try:
                count = self._session.count(library.histdesk_load, address, length, text=content)
            except Refused as refused:
                refused.path = path_of(trace)
                if isinstance(trace, Recording) and refused.line:
                    raise at_later_line(refused, trace.lines_before()) from None
                raise
        loaded = Loaded(count, lines - count, self._lanes_of(count), losses)
        for hole in losses.holes:
            self._holes.setdefault(hole.cpu, []).append(hole)
        if losses.warning and not (isinstance(trace, Recording) and trace.is_reported):
            warnings.warn(losses.warning, LossWarning, stacklevel=2)
        if isinstance(trace, Recording):
            trace.is_reported = True
        return loaded

    def _lanes_of(self, count: int) -> tuple[Lane, ...]:
        """Return what is known of each CPU of a trace of so many events, which has just been loaded; nothing if there is no
        memory to ask."""
        if self._held is None:
            return ()
        lanes: list[Lane] = []
        try:
            for cpu in (cpu for cpu in range(CPUS) if cpu not in self._held):
                if not count:
                    break
                lane = self._session.ends(library.histdesk_lane, cpu, 1)
                if lane:
                    lanes.append(Lane(cpu, *lane))
                    count -= lane[0]
        except MemoryError:
            # From here on it isn't known any more which CPUs are held, and `cpus` has to ask.
            self._held = None
            return ()
        self._note(lane.cpu for lane in lanes)
        return tuple(lanes)

    def _note(self, cpus: Iterable[int]) -> None:
        """Take note of CPUs that are held now."""
        if self._held is not None:
            self._held.update(cpus)

    def _count(self, cpu: int) -> int:
        """Return how many events of a CPU are held; also 0 if it isn't held."""
        count = ctypes.c_uint64()
        return count.value if self._session.holds(library.histdesk_lane, cpu, 1, count) else 0

    @property
    def holes(self) -> tuple[Hole, ...]:
        """Where events of the loaded traces are missing, by CPU; those of a CPU that isn't known come last. Unloading a CPU
        takes its holes away."""
        cpus = sorted(self._holes, key=lambda cpu: (cpu is None, cpu))
        return tuple(hole for cpu in cpus for hole in self._holes[cpu])

    def unload(self, cpu: int) -> int:
        """Remove all events of a CPU. Its line numbers begin at 1 again.

        Parameters
        ----------
        cpu
            The CPU, from 0.

        Returns
        -------
        int
            How many events were removed.

        Raises
        ------
        Refused
            5 if no events of the CPU are held.
        """
        count = self._session.count(library.histdesk_unload, number(cpu, "cpu"))
        if self._held is not None:
            self._held.discard(cpu)
        self._holes.pop(cpu, None)
        return count

    def insert(self, line: Text) -> Edit:
        """Insert one line of a trace.

        Parameters
        ----------
        line
            The line, without its line break.

        Returns
        -------
        Edit
            Where the event stands, and which rows may have changed.

        Raises
        ------
        Refused
            3 if it can't be read, 6 if it holds no event, 7 if there is no room.
        """
        at, text = layout.Line(), as_bytes(line)
        self._session.call(library.histdesk_insert, text, len(text), at, text=text)
        self._note([at.cpu])
        return self._session.edit(at.cpu, at.line)

    def strike(self, cpu: int, line: int) -> Edit:
        """Remove one event. Its line number isn't used again while events of the CPU are held.

        Parameters
        ----------
        cpu
            The event's CPU, from 0.
        line
            Its line there, from 1.

        Returns
        -------
        Edit
            Where the event stood, and which rows may have changed.

        Raises
        ------
        Refused
            5 if no events of the CPU are held, 6 if none stands at the line.
        """
        cpu, line = number(cpu, "cpu"), number(line, "line")
        self._session.call(library.histdesk_strike, cpu, line)
        return self._session.edit(cpu, line)

    def strike_events(self, places: NDArray[Any] | Iterable[Located]) -> Edits:
        """Remove the events at the given places, one after the other, in one call.

        Parameters
        ----------
        places
            What `matching` returns, an array with the fields `cpu` and `line`, or `Event`s or `Place`s: CPUs from 0, and lines
            from 1. Stamps are not looked at, and no place may be there twice.

        Returns
        -------
        Edits
            How many events were struck, and which rows may have changed.

        Raises
        ------
        Refused
            5 or 6, as in `strike`, at the first place at which no event is held: the events before it stay struck, and
            `struck` of the exception is how many these are.
        ValueError
            If a CPU or a line is out of range; then none was struck.
        """
        return self._session.strike_events(places, reports=True)

    def attach(self, event: str, trigger: Text) -> Trigger:
        """Attach a hist trigger to an event. It also counts the events that are held already.

        Parameters
        ----------
        event
            One of `sched_waking`, `sched_wakeup`, `sched_wakeup_new`, `sched_switch`, or `wakeup_latency`, which triggers make.
        trigger
            The trigger's text, such as `hist:keys=pid`.

        Returns
        -------
        Trigger
            The attached trigger.

        Raises
        ------
        Refused
            16 for another event, 8 if the text can't be read, 15 if 64 are attached, 12 if another trigger saves a variable of
            the same name, 13 if no trigger saves what it reads, 14 if its keys don't match the saver's.
        """
        id, text = ctypes.c_uint32(), as_bytes(trigger)
        self._session.call(library.histdesk_attach, event_number(event), text, len(text), id, text=text)
        return Trigger(self._session, id.value, event)

    # ---- answers

    def trigger(self, id: int) -> Trigger:
        """Return an attached trigger.

        Parameters
        ----------
        id
            Its id, from 1.

        Returns
        -------
        Trigger
            The trigger with that id.

        Raises
        ------
        Refused
            10 if there is none.
        """
        trigger_id = number(id, "id")
        # This is refused if the trigger isn't attached.
        self._session.trigger_text(trigger_id)
        return next(trigger for trigger in self.triggers() if trigger.id == trigger_id)

    def triggers(self) -> builtins.list[Trigger]:
        """Return the attached triggers.

        Returns
        -------
        list of Trigger
            All of them, by id.
        """
        content = self._session.content(library.histdesk_triggers_copy, layout.TRIGGER.size, library.histdesk_triggers)
        pairs = layout.TRIGGER.iter_unpack(content)
        return [Trigger(self._session, id, _schema.EVENT_NAMES[event]) for id, event in pairs]

    def cpus(self) -> dict[int, int]:
        """Return the CPUs whose events are held.

        Returns
        -------
        dict of int to int
            How many events of each CPU are held. A CPU whose events were all struck is among them.
        """
        self._session.check()
        if self._held is None:
            self._held = {cpu for cpu in range(CPUS) if self._session.holds(library.histdesk_lane, cpu, 1, ctypes.c_uint64())}
        return {cpu: self._count(cpu) for cpu in sorted(self._held)}

    def list(self, cpu: int) -> str:
        """Return the events of a CPU as text.

        Parameters
        ----------
        cpu
            The CPU, from 0.

        Returns
        -------
        str
            A line of text for each event, in the order of the events' lines.

        Raises
        ------
        Refused
            5 if no events of the CPU are held.
        """
        return self._session.text(library.histdesk_list, number(cpu, "cpu"))

    def events(self, cpu: int | None = None, from_line: int = 1) -> Events:
        """Return held events.

        Parameters
        ----------
        cpu
            The CPU, from 0; all if it is None.
        from_line
            The line of that CPU, from 1, with which they begin.

        Returns
        -------
        Events
            All events, in the order in which they go past the triggers: by stamp, then CPU, then line; or those of one CPU by
            line.

        Raises
        ------
        Refused
            5 if no events of the CPU are held.
        ValueError
            If `from_line` is given without a CPU.
        """
        line = number(from_line, "from_line")
        if cpu is not None:
            return self._session.events(library.histdesk_lane, number(cpu, "cpu"), line)
        if line != 1:
            raise ValueError("from_line counts the lines of one CPU, and no CPU is named")
        return self._session.events(library.histdesk_events)

    def event(self, cpu: int, line: int) -> Event | None:
        """Return one event.

        Parameters
        ----------
        cpu
            Its CPU, from 0.
        line
            Its line there, from 1.

        Returns
        -------
        Event or None
            The event, or None if none is held there.
        """
        room = ctypes.create_string_buffer(layout.EVENT.size)
        is_held = self._session.holds(library.histdesk_event_at, number(cpu, "cpu"), number(line, "line"), room)
        return Events(room.raw)[0] if is_held else None

    def matching(self, event: str, filter: Text) -> np.recarray[Any, Any]:
        """Return the places of the events that pass a filter.

        Parameters
        ----------
        event
            The name of the events, one that `attach` takes.
        filter
            The filter, such as `pid == 42 && prio < 100`.

        Returns
        -------
        numpy.recarray
            An element for each event, with the fields of `Place`, in the order in which they go past the triggers.

        Raises
        ------
        Refused
            16 for another name, 9 if the filter can't be read.
        """
        text = as_bytes(filter)
        ask = library.histdesk_matching, event_number(event), text, len(text)
        return self._session.records(library.histdesk_places_copy, PLACE_TYPE, *ask, text=text)

    def events_matching(self, event: str, filter: Text) -> Events:
        """Return the events that pass a filter.

        Parameters
        ----------
        event, filter
            As `matching` takes them.

        Returns
        -------
        Events
            The events at the places of `matching`.

        Raises
        ------
        Refused
            16 for another name, 9 if the filter can't be read.
        """
        text = as_bytes(filter)
        return self._session.events(library.histdesk_matching, event_number(event), text, len(text), text=text)

    def to_pandas(self, cpu: int | None = None, *, times: Times = "micros") -> DataFrame:
        """Return held events.

        Parameters
        ----------
        cpu
            The CPU, from 0; all if it is None.
        times
            Whether timestamps are numbers of microseconds, or `timedelta64` (`"timedelta"`).

        Returns
        -------
        pandas.DataFrame
            A row for each event; see `Events.to_pandas`.

        Raises
        ------
        Refused
            5 if no events of the CPU are held.
        ImportError
            If pandas is missing.
        """
        return self.events(cpu).to_pandas(times=times)

    @property
    def is_deferred(self) -> bool:
        """Whether the next answer of a trigger has to build the tables anew, since there was no memory for them."""
        return bool(self._session.code(library.histdesk_is_deferred))

    # ---- how it is shown

    def _display(self) -> tuple[str, builtins.list[tables.Table]]:
        """Return what is shown: a title, and the tables; or why there are none, as the title."""
        try:
            lanes = [*self.cpus().items()]
            triggers = [(trigger.id, trigger.event, trigger.canonical) for trigger in self.triggers()]
        except Exception as error:
            return f"<histdesk.Desk: {error}>", []
        shown = [
            tables.table_of(("CPU", "events"), len(lanes), lanes.__getitem__),
            tables.table_of(("id", "event", "trigger"), len(triggers), triggers.__getitem__),
        ]
        count = tables.count_of(sum(count for _, count in lanes), "event")
        return f"histdesk.Desk: {count}", [table for table in shown if table.front]

    def __repr__(self) -> str:
        title, shown = self._display()
        return "\n".join([title, *map(tables.in_text, shown)])

    def _repr_html_(self) -> str:
        return tables.in_html(*self._display())
