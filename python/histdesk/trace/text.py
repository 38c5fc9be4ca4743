"""The bytes of traces in pieces, unpacked; and texts that can be read again."""

from __future__ import annotations

import bisect
import contextlib
import gzip
import io
import itertools
import os
import tempfile
import threading
import zlib
from collections.abc import Iterator
from pathlib import Path
from typing import IO, TYPE_CHECKING, NamedTuple, TypeAlias, cast

from ..native import layout
from .kind import GZIP
from .source import buffer_of, is_buffer

if TYPE_CHECKING:
    from zlib import _Decompress as Unpacker

    from ..native.memory import Buffer
    from .source import Trace

# A part of a text, which may be used until the next one is asked for.
Piece: TypeAlias = bytes | memoryview

# How many bytes of a text are read at once.
PIECE = 1 << 22
# How many bytes of what came by a pipe are kept in memory, at most; a longer text is in a temporary file as a whole.
KEPT = 1 << 24
# A text of more bytes than this is read in parts; and how many times the bytes of its file a packed one is taken to have.
LONG, UNPACKED = 1 << 26, 8
# After how many unpacked bytes a place is noted from which unpacking can go on; a place takes some 40 KB.
RESTART = 1 << 25


def pieces_of(trace: Trace | Text) -> Iterator[Piece]:
    """Yield the bytes of a trace in pieces, unpacked if they are packed.

    Raises
    ------
    OSError
        If a file can't be read, or what is packed in it is torn.
    TypeError
        If it is no trace.
    """
    if isinstance(trace, Text):
        yield from trace.pieces()
        return
    pieces = read_pieces(trace)
    first = next(pieces, b"")
    whole = itertools.chain([first], pieces)
    if bytes(first[: len(GZIP)]) == GZIP:
        yield from Unpacked(whole)
    else:
        yield from whole


def read_pieces(trace: Trace) -> Iterator[Piece]:
    """Yield the bytes of a path, a buffer or an open file, as they are."""
    if isinstance(trace, (str, os.PathLike)):
        with open(trace, "rb", buffering=0) as file:
            yield from file_pieces(file)
    elif is_buffer(trace) or not hasattr(trace, "read"):
        with memoryview(buffer_of(trace)).cast("B") as content:
            for start in range(0, len(content), PIECE):
                yield content[start : start + PIECE]
    else:
        source = cast("IO[bytes] | IO[str]", trace)
        while piece := source.read(PIECE):
            yield layout.encode(piece) if isinstance(piece, str) else piece


def file_pieces(file: io.FileIO, end: int | None = None) -> Iterator[memoryview]:
    """Yield the bytes of a file from where it stands, at most `end` of them. All pieces are in the same room."""
    room = bytearray(PIECE if end is None else min(end, PIECE))
    with memoryview(room) as whole:
        while end is None or end > 0:
            count = file.readinto(whole if end is None else whole[:end])
            if not count:
                return
            end = None if end is None else end - count
            yield whole[:count]


class Unpacked:
    """Packed bytes, which come in pieces and may be several members one after the other, unpacked piece by piece.

    Parameters
    ----------
    pieces
        What is packed.
    unpacker
        One that has taken what was before these pieces; None at the beginning.
    """

    def __init__(self, pieces: Iterator[Piece], unpacker: Unpacker | None = None) -> None:
        self._pieces = pieces
        self._unpacker = unpacker or new_unpacker()
        # Packed bytes that aren't unpacked yet, and how many have come in all, with these.
        self._rest, self._count = b"", 0

    def _take(self) -> None:
        """Take the next packed piece, if nothing is left of the last one."""
        if not self._rest:
            self._rest = bytes(next(self._pieces, b""))
            self._count += len(self._rest)

    def __iter__(self) -> Iterator[bytes]:
        self._take()
        try:
            while self._rest:
                piece = self._unpacker.decompress(self._rest, PIECE)
                self._rest = self._unpacker.unconsumed_tail or self._unpacker.unused_data
                if self._unpacker.eof:
                    # Zeros may fill the end up.
                    self._take()
                    self._rest = self._rest.lstrip(b"\0")
                    self._unpacker = new_unpacker() if self._rest else self._unpacker
                self._take()
                yield piece
        except zlib.error as error:
            raise gzip.BadGzipFile(str(error)) from None
        if not self._unpacker.eof:
            raise gzip.BadGzipFile("Compressed file ended before the end-of-stream marker was reached")

    def place(self) -> tuple[int, Unpacker | None]:
        """Return how many packed bytes were unpacked, and an unpacker that goes on there, which is None if all were."""
        return self._count - len(self._rest), self._unpacker.copy() if self._rest else None


def new_unpacker() -> Unpacker:
    """Return what unpacks a member."""
    return zlib.decompressobj(zlib.MAX_WBITS | 16)


# ---- texts that can be read again


class Text:
    """The bytes of a text, unpacked, which can be read again and from any byte on."""

    # How many bytes it has, if that is known without reading it.
    size: int | None = None

    def pieces(self, at: int = 0, end: int | None = None) -> Iterator[Piece]:
        """Yield the bytes from one on and before another one, or to the end if that is None.

        Raises
        ------
        OSError
            If they can't be read.
        ValueError
            If they have changed since they were read first.
        """
        raise NotImplementedError

    def read(self, at: int = 0, end: int | None = None) -> bytes:
        """Return the same bytes in one."""
        return b"".join(bytes(piece) for piece in self.pieces(at, end))

    def content(self) -> Buffer:
        """Return all of it, as a buffer."""
        return self.read()

    def about(self) -> int:
        """Return about how many bytes it has; 0 if they are in memory already."""
        return self.size or 0

    def between(self, at: int, end: int | None) -> Text:
        """Return a part of it, as a text."""
        return PartText(self, at, end)


class FileText(Text):
    """The text of a file: as much as it has now."""

    def __init__(self, path: str) -> None:
        # Where it is, also from another folder.
        self._path, self._name = Path(path).absolute(), path
        with open(path, "rb") as file:
            self._status = os.fstat(file.fileno())
        self.size: int = self._status.st_size

    def pieces(self, at: int = 0, end: int | None = None) -> Iterator[Piece]:
        with self._open() as file:
            file.seek(at)
            yield from file_pieces(file, max((self.size if end is None else min(end, self.size)) - at, 0))

    def read(self, at: int = 0, end: int | None = None) -> bytes:
        if end is None or end - at > PIECE:
            return super().read(at, end)
        # A short part needs no room beside it.
        with self._open() as file:
            return os.pread(file.fileno(), max(min(end, self.size) - at, 0), at)

    def _open(self) -> io.FileIO:
        """Return the file, which may have got longer."""
        file = open(self._path, "rb", buffering=0)
        now, then = os.fstat(file.fileno()), self._status
        is_same = (now.st_dev, now.st_ino) == (then.st_dev, then.st_ino)
        if is_same and (now.st_size > then.st_size or (now.st_size, now.st_mtime_ns) == (then.st_size, then.st_mtime_ns)):
            return file
        file.close()
        raise ValueError(f"{self._name} has changed since it was read")


class Restart(NamedTuple):
    """A place from which a packed text can be unpacked.

    Attributes
    ----------
    at
        How many bytes are before it, unpacked.
    packed
        How many bytes are before it, packed.
    unpacker
        An unpacker that has taken these; None at the beginning.
    """

    at: int
    packed: int
    unpacker: Unpacker | None


class PackedText(Text):
    """A text that is packed by gzip. It is unpacked from the last place before what is wanted from which unpacking can go on;
    such places are noted when it is first unpacked."""

    def __init__(self, packed: Text) -> None:
        self._packed = packed
        self._restarts = [Restart(0, 0, None)]

    def about(self) -> int:
        return UNPACKED * self._packed.about()

    def pieces(self, at: int = 0, end: int | None = None) -> Iterator[Piece]:
        restart = self._restarts[bisect.bisect_right([known.at for known in self._restarts], at) - 1]
        whole = Unpacked(self._packed.pieces(restart.packed), restart.unpacker and restart.unpacker.copy())
        position = restart.at
        for piece in whole:
            inside = piece[max(at - position, 0) : None if end is None else max(end - position, 0)]
            position += len(piece)
            self._note(position, whole)
            if len(inside):
                yield inside
            if end is not None and position >= end:
                return

    def _note(self, at: int, whole: Unpacked) -> None:
        """Note the place after so many bytes, if many came since the last one."""
        if at >= self._restarts[-1].at + RESTART:
            place, unpacker = whole.place()
            if unpacker:
                self._restarts.append(Restart(at, place, unpacker))


class BufferText(Text):
    """The text of a buffer."""

    def __init__(self, buffer: Buffer) -> None:
        self._buffer = buffer
        with memoryview(buffer) as content:
            self.size = content.nbytes

    def content(self) -> Buffer:
        return self._buffer

    def about(self) -> int:
        return 0

    def pieces(self, at: int = 0, end: int | None = None) -> Iterator[Piece]:
        with memoryview(self._buffer).cast("B") as content:
            stop = len(content) if end is None else min(end, len(content))
            for start in range(at, stop, PIECE):
                yield content[start : min(start + PIECE, stop)]


class KeptText(Text):
    """What came by a pipe, kept in a temporary file without a name, or in memory if it is short."""

    def __init__(self) -> None:
        # It stays open, since it has no name by which it could be opened again.
        self._file = tempfile.SpooledTemporaryFile(KEPT)
        self._lock = threading.Lock()
        self.size = 0

    def __del__(self) -> None:
        if hasattr(self, "_file"):
            self._file.close()

    def add(self, piece: Piece) -> None:
        """Keep the next piece."""
        with in_temporary_folder():
            self._file.write(piece)
        self.size = (self.size or 0) + len(piece)

    def pieces(self, at: int = 0, end: int | None = None) -> Iterator[Piece]:
        stop = self.size or 0 if end is None else min(end, self.size or 0)
        while at < stop:
            # Others may read it meanwhile, in other threads too.
            with self._lock:
                self._file.seek(at)
                piece = self._file.read(min(PIECE, stop - at))
            if not piece:
                raise OSError("a temporary file has lost what was kept in it")
            at += len(piece)
            yield piece


@contextlib.contextmanager
def in_temporary_folder() -> Iterator[None]:
    """Name the folder if a file there, which has no name, can't be written."""
    try:
        yield
    except OSError as error:
        raise OSError(error.errno, error.strerror, tempfile.gettempdir()) from None


class PartText(Text):
    """A part of another text."""

    def __init__(self, text: Text, at: int, end: int | None) -> None:
        self.whole, self.at, self.end = text, at, text.size if end is None else end
        self.size = None if self.end is None else max(self.end - at, 0)

    def about(self) -> int:
        return self.whole.about() if self.size is None else min(self.size, self.whole.about())

    def pieces(self, at: int = 0, end: int | None = None) -> Iterator[Piece]:
        stop = self.end if end is None else self.at + end
        if stop is not None and self.end is not None:
            stop = min(stop, self.end)
        if stop is None or self.at + at < stop:
            yield from self.whole.pieces(self.at + at, stop)


def is_long(text: Text) -> bool:
    """Return whether a text is too long to be in memory as a whole."""
    return text.about() > LONG


def is_read_once(trace: Trace | Text) -> bool:
    """Return whether a trace is gone once it was read: an open file, or the path of a pipe or anything else that is no file."""
    if isinstance(trace, (str, os.PathLike)):
        path = Path(trace)
        return path.exists() and not path.is_file()
    return not isinstance(trace, Text) and not is_buffer(trace)


def text_again(trace: Trace | Text) -> Text:
    """Return the text of a trace as one that can be read again. What is gone once it was read is kept in a temporary file.

    Raises
    ------
    OSError
        If it can't be read.
    TypeError
        If it is no trace.
    """
    if isinstance(trace, Text):
        return trace
    if is_read_once(trace):
        copy = KeptText()
        for piece in pieces_of(trace):
            copy.add(piece)
        return copy
    if isinstance(trace, (str, os.PathLike)):
        with open(trace, "rb") as file:
            is_packed = file.read(len(GZIP)) == GZIP
        text: Text = FileText(os.fsdecode(trace))
    else:
        buffer = buffer_of(trace)
        with memoryview(buffer).cast("B") as content:
            is_packed = bytes(content[: len(GZIP)]) == GZIP
        text = BufferText(buffer)
    return PackedText(text) if is_packed else text


def whole_lines(pieces: Iterator[Piece]) -> Iterator[bytes]:
    """Yield the same bytes in pieces that end at line breaks, except the last one."""
    tail = b""
    for piece in pieces:
        content = tail + bytes(piece)
        end = content.rfind(b"\n") + 1
        if end:
            yield content[:end]
        tail = content[end:]
    if tail:
        yield tail
