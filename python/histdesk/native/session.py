"""A desk as the library has it: calls on it, refusals as exceptions, and answers copied out of it."""

from __future__ import annotations

import ctypes
import threading
from typing import TYPE_CHECKING, Any

import numpy as np

from . import layout
from .library import Call, library
from .refusals import exception_of

if TYPE_CHECKING:
    from numpy.typing import NDArray

    from .memory import Buffer

# Each thread has an object of its own here, by which a desk knows the thread that made it.
here = threading.local()


class Session:
    """The library's desk, and the thread that made it.

    Raises
    ------
    MemoryError
        If memory ran out.
    """

    def __init__(self) -> None:
        # Kept here for the collector, which may come when the modules are gone.
        self._free = library.histdesk_free
        self.handle = layout.Handle()
        self._thread = this_thread()
        if library.histdesk_new(self.handle) != layout.OK:
            raise exception_of(layout.Refusal(layout.MEMORY))

    def __del__(self) -> None:
        # Nobody else has it any more, so it may be freed in whichever thread the collector runs.
        if hasattr(self, "handle"):
            self._free(self.handle)

    def close(self) -> None:
        """Give back its memory."""
        self.check_thread()
        self._free(self.handle)

    @property
    def closed(self) -> bool:
        """Whether it is closed."""
        return not self.handle.at

    def check_thread(self) -> None:
        """Raise `RuntimeError` in a thread that didn't make it."""
        if self._thread is not this_thread():
            raise RuntimeError("a desk can be used only in the thread that made it")

    def check(self) -> None:
        """Raise `RuntimeError` in a thread that didn't make it, and `ValueError` if it is closed."""
        self.check_thread()
        if self.closed:
            raise ValueError("the desk is closed")

    # ---- calls

    def code(self, call: Call, *arguments: object) -> int:
        """Return what a call returns: 0, or why it is refused. Structs are passed by their address."""
        self.check()
        return call(self.handle, *arguments)

    def holds(self, call: Call, *arguments: object) -> bool:
        """Return whether a call is accepted. Raises `MemoryError` if memory ran out."""
        code = self.code(call, *arguments)
        if code == layout.MEMORY:
            raise exception_of(layout.Refusal(layout.MEMORY))
        return code == layout.OK

    def call(self, call: Call, *arguments: object, text: Buffer | None = None) -> None:
        """Make a call.

        Parameters
        ----------
        call
            The call.
        arguments
            What it takes after the desk.
        text
            The text that may be at fault.

        Raises
        ------
        Refused
            If it is refused.
        MemoryError
            If memory ran out.
        """
        if self.code(call, *arguments) != layout.OK:
            refusal = layout.Refusal()
            library.histdesk_refused(self.handle, refusal)
            raise exception_of(refusal, text)

    def count(self, ask: Call, *arguments: object, text: Buffer | None = None) -> int:
        """Return the number that a call writes into its last argument; see `call`."""
        count = ctypes.c_uint64()
        self.call(ask, *arguments, count, text=text)
        return count.value

    # ---- answers

    def text(self, ask: Call, *arguments: object) -> str:
        """Return a text that the library answers."""
        return layout.decode(self.content(library.histdesk_text_copy, 1, ask, *arguments))

    def content(self, copy: Call, size: int, ask: Call, *arguments: object) -> bytearray:
        """Return what `ask` answers, copied into a buffer of structs of so many bytes; the library forgets it."""
        count = self.count(ask, *arguments)
        try:
            room = bytearray(count * size)
            check_copied(copy(self.handle, 0, (ctypes.c_char * len(room)).from_buffer(room), count), count)
            return room
        finally:
            library.histdesk_forget(self.handle)

    def array(self, copy: Call, kind: np.dtype[Any], ask: Call, *arguments: object, text: Buffer | None = None) -> NDArray[Any]:
        """Return the same as an array of structs of this type, without filling its memory first."""
        count = self.count(ask, *arguments, text=text)
        try:
            room = np.empty(count, kind)
            check_copied(copy(self.handle, 0, room.ctypes.data, count), count)
            return room
        finally:
            library.histdesk_forget(self.handle)

    def records(
        self, copy: Call, kind: np.dtype[Any], ask: Call, *arguments: object, text: Buffer | None = None
    ) -> np.recarray[Any, np.dtype[Any]]:
        """Return the same as a record array."""
        return self.array(copy, kind, ask, *arguments, text=text).view(np.recarray)

    def ends(self, ask: Call, *arguments: object) -> tuple[int, int, int] | None:
        """Return how many events are at the places that `ask` answers, and the stamps of the first and the last of them; None
        if there is none, or `ask` is refused. Raises `MemoryError` if memory ran out."""
        count, room = ctypes.c_uint64(), ctypes.create_string_buffer(layout.EVENT.size)
        if not self.holds(ask, *arguments, count):
            return None
        try:
            stamps = []
            for at in (0, count.value - 1) if count.value else ():
                check_copied(library.histdesk_events_copy(self.handle, at, room, 1), 1)
                stamps.append(layout.EVENT.unpack(room.raw)[0])
            return (count.value, stamps[0], stamps[1]) if stamps else None
        finally:
            library.histdesk_forget(self.handle)


def this_thread() -> object:
    """Return the object of the thread that runs."""
    if not hasattr(here, "thread"):
        here.thread = object()
    return here.thread


def check_copied(copied: int, count: int) -> None:
    """Raise `RuntimeError` if less was copied than was answered: a signal's handler has used the desk meanwhile."""
    if copied != count:
        raise RuntimeError("the desk was used while an answer was copied")
