"""The waits of a recording without some of its events."""

from __future__ import annotations

import contextlib
import ctypes
import re
from typing import Callable, Iterable, NamedTuple, Sequence, Union, cast

import numpy as np

from .._schema import WAIT_EVENTS
from ..desk.desk import Desk, Trace
from ..desk.recording import Choice, Recording, read_whole
from ..native import layout
from ..native.arguments import as_bytes, event_number
from ..native.library import library
from ..native.refusals import Refused
from ..trace.stream import Backwards, Stream
from ..trace.text import text_again
from ..waiting.waits import SPARE, ReadOptions, Waits, judge, numbers_of, unknown_kinds, waits_of, waits_of_recording
from ..waiting.waits import waits_of_text

# An event, and perhaps which ones of its name.
WITHOUT = re.compile(r"\s*(\S+)(?:\s+if\s+(.*\S))?\s*", re.DOTALL)
# A filter that selects every event.
ALWAYS = "common_cpu >= 0"
# A piece of a text.
Piece = Union[bytes, memoryview]


class Chosen(NamedTuple):
    """Events that are left out.

    Attributes
    ----------
    event
        Their name.
    text
        The filter that selects them; empty for all of that name.
    """

    event: str
    text: str = ""

    @property
    def filter(self) -> str:
        """A filter that selects them, which is never empty."""
        return self.text or ALWAYS


class LeftOut(NamedTuple):
    """How many events a filter left out.

    Attributes
    ----------
    of
        How many events of its name the recording has.
    count
        How many of these it left out.
    """

    of: int
    count: int  # type: ignore[assignment]


def read_chosen(text: str) -> Chosen:
    """Return the events that a text names, such as `sched_waking if common_pid == 0`."""
    match = WITHOUT.fullmatch(text)
    return Chosen(match[1], match[2] or "") if match else Chosen(text)


def check_events(chosen: Iterable[Chosen]) -> None:
    """Check that waits begin or end with some events.

    Raises
    ------
    ValueError
        If no wait begins or ends with one of them.
    """
    for one in chosen:
        if one.event not in WAIT_EVENTS:
            rule = f"waits begin and end with {', '.join(WAIT_EVENTS)}"
            raise ValueError(f"{one.event!r}: {rule}, so name one of these, with ` if ` and a filter after it for some of them")


def check_chosen(chosen: Sequence[Chosen]) -> None:
    """Check that waits begin or end with some events, and that their filters can be read.

    Raises
    ------
    ValueError
        If no wait begins or ends with one of them.
    Refused
        If a filter can't be read; its attribute `which` is the index of the filter.
    """
    check_events(chosen)
    with Desk() as empty:
        for number, one in enumerate(chosen):
            try:
                empty.matching(one.event, one.filter)
            except Refused as refused:
                refused.which = number  # type: ignore[attr-defined]
                raise


# ---- from a text, as it is read


class Without(Stream):
    """A stream that leaves events out."""

    def __init__(self, lenient: bool, chosen: Sequence[Chosen]) -> None:
        """Begin a text.

        Parameters
        ----------
        lenient
            Whether lines that can't be read are left out.
        chosen
            The events that are left out.

        Raises
        ------
        Refused
            If a filter can't be read.
        """
        super().__init__(lenient)
        self._count = len(chosen)
        for one in chosen:
            text = as_bytes(one.text)
            self._call(library.histdesk_waits_without, event_number(one.event), text, len(text))

    def left_out(self) -> list[LeftOut]:
        """Return how many events each filter left out of the text, which has ended."""
        items = (layout.LeftOut * self._count)()
        library.histdesk_waits_left_out(self._session.handle, 0, ctypes.addressof(items), self._count)
        return [LeftOut(item.events, item.left_out) for item in items]


class Less(NamedTuple):
    """The waits of a recording without some events.

    Attributes
    ----------
    waits
        The waits.
    left_out
        How many events each filter left out.
    """

    waits: Waits
    left_out: list[LeftOut]


def waits_without(
    trace: Trace | Recording,
    chosen: Sequence[Chosen],
    lenient: bool = False,
    watch: Callable[[Piece], None] | None = None,
    path: str | None = None,
) -> tuple[Waits, Less]:
    """Return the waits of a recording, and those without some events; a text is read once for both.

    Parameters
    ----------
    trace
        The recording.
    chosen
        The events that are left out.
    lenient, watch, path
        As in `ReadOptions`.

    Returns
    -------
    tuple[Waits, Less]
        The waits of all events, and those without some.

    Raises
    ------
    Refused, OSError, ValueError
        As in `waits_of_text`.
    """
    part = trace._slice if isinstance(trace, Recording) and trace.choice.events is None else None
    if isinstance(trace, Recording) and part is None:
        return waits_of_recording(trace), held_without(trace, chosen)
    lenient = lenient or part is not None and part.lenient
    with contextlib.closing(Without(lenient, chosen)) as stream:

        def see(piece: Piece) -> None:
            if watch:
                watch(piece)
            stream.feed(piece)

        if isinstance(trace, Recording):
            whole = waits_of_recording(trace, lenient, see)
        else:
            whole = waits_of_text(trace, ReadOptions(lenient, see, path, keeps=False))
        try:
            return whole, less_of(whole, stream)
        except Backwards:
            # A desk has found the waits of all events, so a desk finds these too.
            choice = trace.choice if isinstance(trace, Recording) else Choice()
            content = (part.whole if part else text_again(cast("Trace", trace))).read()
            return whole, held_without(read_whole(whole.path, content, choice._replace(spare=SPARE), lenient), chosen)


def again_without(whole: Waits, pieces: Iterable[Piece], lenient: bool, chosen: Sequence[Chosen]) -> Less:
    """Return the waits without some events of a text that is read again, in pieces, and has the waits `whole`."""
    with contextlib.closing(Without(lenient, chosen)) as stream:
        for piece in pieces:
            stream.feed(piece)
        return less_of(whole, stream)


def less_of(whole: Waits, stream: Without) -> Less:
    """Return what a stream has found in a text that has ended, whose waits are `whole` if no event is left out."""
    result = stream.finish(False)
    judge(result.records, whole.holes)
    about = whole._about._replace(unknown=unknown_kinds(result.records))
    return Less(Waits(result.records, result.names, about), stream.left_out())


# ---- from a desk


def held_without(recording: Recording, chosen: Sequence[Chosen]) -> Less:
    """Return the waits of what a desk holds of a recording, without some events."""
    # Who asks reports what was lost.
    recording.is_reported = True
    with recording.desk() as desk:
        counts = strike(desk, chosen)
        return Less(waits_of(desk, recording), counts)


def strike(desk: Desk, chosen: Sequence[Chosen]) -> list[LeftOut]:
    """Strike events from a desk, each once, and return how many each filter selected."""
    places = [desk.matching(one.event, one.filter) for one in chosen]
    counts = [LeftOut(len(desk.matching(one.event, ALWAYS)), len(some)) for one, some in zip(chosen, places)]
    if places:
        every = np.concatenate(places)
        once = every[np.unique(numbers_of(every["cpu"], every["line"]), return_index=True)[1]]
        # Nobody wants to know what the strikes change, so it isn't asked for.
        desk._session.strike_events(once, reports=False)
    return counts
