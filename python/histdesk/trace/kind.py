"""What a file is if it is no trace: packed, a recording of another tool, or what such a tool printed.

Every part of histdesk asks here. The first bytes of a file decide. Only `printed_origin` needs the engine, which says whether
a line is one of a trace.
"""

from __future__ import annotations

import contextlib
import os
import re
import shlex
import stat
from collections.abc import Iterable
from typing import TYPE_CHECKING, NamedTuple

from .. import _invocation

if TYPE_CHECKING:
    from .text import Text


class Packer(NamedTuple):
    """A program that packs files, and the one that unpacks them."""

    name: str
    unpacker: str


class Origin(NamedTuple):
    """Where a file that is no trace comes from.

    Attributes
    ----------
    what
        What it is, such as `a recording of perf`.
    program
        The program that reads or printed it: `perf` or `trace-cmd`.
    converter
        The tool that makes a trace of it, such as `from-perf`.
    """

    what: str
    program: str
    converter: str


# gzip's magic bytes, and the one method that there is. Files that it has packed are read as if they weren't packed.
GZIP = b"\x1f\x8b\x08"
# The first bytes of files that are packed, and of other tools' recordings.
PACKERS = {
    GZIP: Packer("gzip", "zcat"),
    b"\x28\xb5\x2f\xfd": Packer("zstd", "zstdcat"),
    b"\xfd7zXZ": Packer("xz", "xzcat"),
    b"BZh": Packer("bzip2", "bzcat"),
}
BY_PERF = Origin("a recording of perf", "perf", "from-perf")
BY_TRACE_CMD = Origin("a recording of trace-cmd", "trace-cmd", "from-trace-cmd")
# perf's magic bytes are in the order of the machine that has recorded.
RECORDINGS = {b"PERFILE2": BY_PERF, b"2ELIFREP": BY_PERF, b"\x17\x08\x44tracing": BY_TRACE_CMD}
PRINTED_BY_PERF = Origin("what perf script printed", "perf", "from-perf")
PRINTED_BY_TRACE_CMD = Origin("what trace-cmd report printed", "trace-cmd", "from-trace-cmd")
# The first line of such texts that isn't a comment, and any of their lines. The kernel's stamps have six digits.
_STAMP = rb"[0-9]+\.[0-9]{6,9}: +"
_FRONT = rb".*-[0-9]+ +(?:\( *[0-9-]+\) +)?\[[0-9]+\] +(?:[^ :]+ +)?"
FIRST_LINES = {
    PRINTED_BY_PERF: re.compile(rb".* (?:-?[0-9]+/)?-?[0-9]+ +\[[0-9]+\] +[0-9]+\.[0-9]+: +[^ ]+:"),
    PRINTED_BY_TRACE_CMD: re.compile(rb"cpus=[0-9]|version = [0-9]|%b[0-9]+\.[0-9]{9}: " % _FRONT),
}
LINES = {
    PRINTED_BY_PERF: re.compile(rb".*[^ ] +(?:-?[0-9]+/)?-?[0-9]+ +\[[0-9]+\] +%b[^ ]+:.*" % _STAMP),
    PRINTED_BY_TRACE_CMD: re.compile(_FRONT + _STAMP + rb".*"),
}
# What trace-cmd prints of a switch without -N, after the blanks with which it fills up the name of an event: no prev_comm=.
PLUGIN_SWITCH = re.compile(rb": sched_switch: {9}(?:[^p]|p[^r])")
# A line of an event in the kernel's text, in that of perf script or in that of trace-cmd report.
EVENT_LINE = re.compile(rb"[ -][0-9]+ .*\[[0-9]+\] .*[0-9]\.[0-9]{6,9}: +[A-Za-z_0-9:]+:")

# How many bytes of a file are looked at.
FRONT_ROOM = 1 << 16
# What comes before the first line that isn't a comment, and that line, as far as a desk reads one.
COMMENTS, LINE = re.compile(rb"(?:#[^\n]*\n|\n)*"), re.compile(rb"[^\n]{0,8192}")


# ---- detection


def packer_of(front: bytes) -> Packer | None:
    """Return what has packed a file that begins with `front`, or None."""
    return next((packer for magic, packer in PACKERS.items() if front.startswith(magic)), None)


def recording_origin(front: bytes) -> Origin | None:
    """Return where a file that begins with `front` comes from if it is another tool's recording, or None."""
    return next((origin for magic, origin in RECORDINGS.items() if front.startswith(magic)), None)


def printed_origin(front: bytes) -> Origin | None:
    """Return where a text that begins with `front` comes from, or None if it is no text of perf or trace-cmd, or is a trace."""
    from .event_lines import holds_event

    start = COMMENTS.match(front)
    line = LINE.match(front, start.end() if start else 0)
    for origin, pattern in FIRST_LINES.items():
        if line and pattern.match(line[0]) and not holds_event(line[0]):
            return origin
    return PRINTED_BY_TRACE_CMD if PLUGIN_SWITCH.search(front) else None


def origin_of(front: bytes) -> Origin | None:
    """Return where a file that begins with `front` comes from, or None if neither perf nor trace-cmd made it."""
    return recording_origin(front) or printed_origin(front)


def origin_of_lines(lines: Iterable[bytes]) -> Origin | None:
    """Return which program most likely printed a text with these lines: the one whose form more than a quarter of them have."""
    sample = list(lines)
    for origin, pattern in LINES.items():
        if 4 * sum(1 for line in sample if pattern.fullmatch(line)) > len(sample):
            return origin
    return None


def looks_like_trace(front: bytes) -> bool:
    """Return whether a text that begins with `front` is probably a trace, and no script: it has the header's first line, or
    its first line that isn't a comment is of an event. In a script, `insert` stands before such a line."""
    for line in front.split(b"\n"):
        if line.startswith(b"# tracer: "):
            return True
        if line.strip(b" \t") and not line.startswith(b"#"):
            return not line.startswith(b"insert ") and EVENT_LINE.search(line) is not None
    return False


def first_bytes(file: str | int) -> bytes:
    """Return how a file begins, by its path or by its descriptor, which can be read on as before; nothing if it isn't a regular
    file or can't be read."""
    try:
        if not stat.S_ISREG(os.stat(file).st_mode):
            return b""
        if isinstance(file, int):
            return os.pread(file, FRONT_ROOM, os.lseek(file, 0, os.SEEK_CUR))
        with open(file, "rb", buffering=0) as source:
            return source.read(FRONT_ROOM) or b""
    except OSError:
        return b""


def is_gzip_file(path: str | None) -> bool:
    """Return whether gzip has packed the file of that path; False if there is no such file."""
    return path is not None and first_bytes(path).startswith(GZIP)


# ---- messages


def conversion(origin: Origin, path: str | None = None) -> str:
    """Return how a trace is made of a file."""
    name = "" if path is None else f" {shlex.quote(path)}"
    return f"{_invocation.tool(origin.converter)}{name} >my.trace makes a trace of it"


def why_no_trace(front: bytes, path: str | None) -> str | None:
    """Return what a file is if it is no trace, and what makes a trace of it.

    Parameters
    ----------
    front
        How it begins, unpacked if gzip has packed it.
    path
        Its path; `-` for standard input, and None if it has none.

    Returns
    -------
    str or None
        One line; None if it may be a trace.
    """
    name = {None: "it", "-": "standard input"}.get(path) or str(path)
    own_path = None if path in (None, "-") else path
    packer = packer_of(front)
    if packer:
        argument = "" if own_path is None else f" {shlex.quote(own_path)}"
        return f"{name} is packed by {packer.name}; {packer.unpacker}{argument} >my.trace unpacks it"
    origin = origin_of(front)
    if origin is None:
        return None
    if is_gzip_file(own_path):
        return f"{name} is {origin.what}, packed by gzip; unpack it first, by gzip -d"
    if path == "-" and origin in RECORDINGS.values():
        return f"{name} is {origin.what}; name its file instead"
    return f"{name} is {origin.what}; {conversion(origin, own_path)}"


def check_kind(text: Text, path: str | None) -> None:
    """Raise `ValueError` if a text is a recording of another tool, or what such a tool printed.

    A text that can't be read isn't reported here.
    """
    front = b""
    with contextlib.suppress(OSError):
        front = bytes(text.read(0, FRONT_ROOM))
    message = why_no_trace(front, path)
    if message:
        raise ValueError(message)


def for_program(front: bytes, path: str, reads_gzip: bool = False) -> str | None:
    """Return what a file is if it is no text, and how the program gets a trace of it.

    Parameters
    ----------
    front
        How it begins.
    path
        Its path.
    reads_gzip
        Whether what gzip has packed is read too, and no shell is at hand.

    Returns
    -------
    str or None
        One line without the path; None if it may be a text.
    """
    packer, name = packer_of(front), shlex.quote(path)
    if packer and not (reads_gzip and front.startswith(GZIP)):
        substitution = f"write <({packer.unpacker} {name}) in its place"
        return f"it is packed by {packer.name}; " + (
            f"{packer.unpacker} {name} >my.trace makes a trace of it" if reads_gzip else substitution
        )
    origin = recording_origin(front)
    return f"it is {origin.what}; {conversion(origin, path)}" if origin else None
