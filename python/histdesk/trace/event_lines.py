"""Whether a text holds an event, as the engine reads it. Tools that look at how a file begins need no numpy for this."""

from __future__ import annotations

import ctypes

from .. import _schema
from ..native import layout
from ..native.library import library

# Where the number of a line's event is among the line's fields.
EVENT_AT = [name for name, _ in layout.LINE_FIELDS].index("event")


def holds_event(text: bytes) -> bool:
    """Return whether a line of a text holds an event that can be read. Raises `MemoryError` if memory ran out."""
    handle, count = layout.Handle(), ctypes.c_uint64()
    if library.histdesk_new(handle) != layout.OK:
        raise MemoryError
    try:
        if library.histdesk_lines(handle, text, len(text), count) != layout.OK:
            raise MemoryError
        lines = ctypes.create_string_buffer(count.value * layout.LINE.size)
        library.histdesk_lines_copy(handle, 0, lines, count.value)
    finally:
        library.histdesk_free(handle)
    return any(line[EVENT_AT] <= _schema.OTHER for line in layout.LINE.iter_unpack(lines.raw))
