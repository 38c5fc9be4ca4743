"""Where traces come from: paths, buffers and open files, packed by gzip or not."""

from __future__ import annotations

import ctypes
import gzip
import mmap
import os
import zlib
from typing import IO, TypeAlias, cast

import numpy as np

from ..native import layout
from ..native.buffers import bytes_of
from ..native.memory import Buffer, Searchable
from .kind import GZIP

# What a trace is read from: a path, the text itself, or an open file.
Trace: TypeAlias = str | os.PathLike[str] | Buffer | IO[bytes] | IO[str]

NEWLINE = ord("\n")
# How many bytes the processor's caches hold.
CACHE_BYTES = 1 << 18


def content_of(trace: Trace) -> Buffer:
    """Return the bytes of a trace, unpacked if gzip has packed them. A buffer is passed on as it is.

    Raises
    ------
    OSError
        If a file can't be read, or what is packed in it is torn.
    TypeError
        If it is no trace.
    """
    if isinstance(trace, (str, os.PathLike)):
        with open(trace, "rb", buffering=0) as file:
            return unpack(file.readall())
    if is_buffer(trace) or not hasattr(trace, "read"):
        return unpack(buffer_of(trace))
    content = cast("IO[bytes] | IO[str]", trace).read()
    return unpack(layout.encode(content) if isinstance(content, str) else content)


def searchable(content: Buffer) -> Searchable:
    """Return a buffer that has the searches of `bytes`: the buffer itself, or a copy of one that hasn't."""
    return content if isinstance(content, (bytes, bytearray, mmap.mmap)) else bytes(memoryview(content))


def lines_of(text: Searchable) -> int:
    """Return how many lines a text has: pieces that a line break ends, and a last one that isn't empty."""
    return newlines(text, 0, len(text)) + (len(text) > 0 and text[-1] not in (10, b"\n"))


def newlines(text: Searchable, start: int, end: int) -> int:
    """Return how many line breaks are in a part of a text."""
    if end <= start:
        return 0
    part = np.frombuffer(text, "u1")[start:end]
    return sum(int(np.count_nonzero(part[at : at + CACHE_BYTES] == NEWLINE)) for at in range(0, len(part), CACHE_BYTES))


def is_buffer(trace: object) -> bool:
    """Return whether a trace hands out its bytes. A mapped file does, though it can also be read as an open one."""
    try:
        memoryview(cast("Buffer", trace)).release()
    except TypeError:
        return False
    return True


def buffer_of(trace: object) -> Buffer:
    """Return a trace that is neither a path nor an open file, which has to be a buffer. Raises `TypeError` if it is none."""
    if is_buffer(trace):
        return cast("Buffer", trace)
    several = "; histdesk.many asks about several traces" if isinstance(trace, (list, tuple)) else ""
    raise TypeError(f"a trace is a path, bytes, or a file that is open for reading, and not {type(trace).__name__}{several}")


def unpack(content: Buffer) -> Buffer:
    """Return the content of a buffer that gzip has packed, or any other buffer itself."""
    with bytes_of(content) as (address, length):
        if ctypes.string_at(address, min(length, len(GZIP))) != GZIP:
            return content
    try:
        return gzip.decompress(content)
    except (EOFError, zlib.error) as error:
        raise gzip.BadGzipFile(str(error)) from None
