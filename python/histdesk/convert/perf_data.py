"""What a recording of perf says besides its events: the kernel's formats, how it was recorded, and what was lost."""

from __future__ import annotations

import mmap
import os
import re
import struct
from collections import Counter
from collections.abc import Iterator
from typing import IO, NamedTuple

# The header with which a recording begins: magic, sizes, three sections and the bits of what follows the data.
HEADER = struct.Struct("<8s8Q4Q")
SECTION = struct.Struct("<QQ")
# The second bit says that the kernel's formats follow; sections stand in the order of their bits.
TRACING = 2
# No header of formats is larger.
MOST = 1 << 26
# How each kind of event was recorded: its type, what each of its samples has, and flags; and the first one's type that is the
# kernel's own event, and the flag that says that a full buffer has overwritten its oldest events.
ATTRIBUTE = struct.Struct("<I4x16xQ8xQ")
TRACEPOINT, BACKWARD = 2, 1 << 27
# A record: its type, two bytes, and its size.
RECORD = struct.Struct("<I2xH")
SAMPLE, LOST_SAMPLES, ID_INDEX = 9, 13, 69
# What may stand in a sample before its raw bytes, in its order, as bits of eight bytes each; then two that aren't of one size.
IDENTIFIER, TASK, READ, CALLCHAIN, RAW = 1 << 16, 1 << 1, 1 << 4, 1 << 5, 1 << 10
FIXED = (IDENTIFIER, 1 << 0, TASK, 1 << 2, 1 << 3, 1 << 6, 1 << 9, 1 << 7, 1 << 8)
# A record that says how many events were lost of one kind and CPU begins so; none of these is of another size.
LOST_FRONT = re.compile(rb"\x0d\0{5}[\x18-\x60]\0")
# How many bytes at the beginning and at the end of the data are looked at, and how many switches are enough.
FRONT, TAIL, ENOUGH = 1 << 24, 1 << 20, 1000


class Unknown(Exception):
    """The recording can't be understood; the message says why."""


class Header(NamedTuple):
    """Where the parts of a recording are, in bytes, how large one attribute is, and the bits of what follows the data."""

    attribute: int
    attributes_at: int
    attributes_size: int
    data_at: int
    data_size: int
    flags: int


def header_of(file: IO[bytes]) -> Header:
    """Return the header of an open recording. Raises `Unknown`."""
    head = file.read(HEADER.size)
    if len(head) < HEADER.size or head[:8] != b"PERFILE2":
        raise Unknown("no header of this byte order")
    _, size, attribute, attributes_at, attributes_size, data_at, data_size, _, _, flags, *_ = HEADER.unpack(head)
    if size < HEADER.size:
        raise Unknown("recorded into a pipe")
    return Header(attribute, attributes_at, attributes_size, data_at, data_size, flags)


def read_at(file: IO[bytes], at: int, size: int) -> bytes:
    """Return so many bytes of an open file, from there on. Raises `Unknown`."""
    if size > MOST or at + size > os.fstat(file.fileno()).st_size:
        raise Unknown("the recording ends too early")
    file.seek(at)
    return file.read(size)


def tracing_data(path: str) -> bytes:
    """Return what perf has written of the kernel's formats into the recording of that path. Raises `Unknown` and `OSError`."""
    with open(path, "rb") as file:
        header = header_of(file)
        if not header.flags & TRACING:
            raise Unknown("no formats")
        sections = header.data_at + header.data_size
        at, size = SECTION.unpack(read_at(file, sections + SECTION.size * (header.flags & 1), SECTION.size))
        return read_at(file, at, size)


class Attribute(NamedTuple):
    """How a kind of event was recorded: its type, what its samples have, and flags."""

    type: int
    sample: int
    flags: int


def attributes(file: IO[bytes], header: Header) -> list[Attribute]:
    """Return how each kind of event was recorded that is the kernel's own. Raises `Unknown`."""
    content = read_at(file, header.attributes_at, header.attributes_size)
    if header.attribute < ATTRIBUTE.size:
        raise Unknown("attributes of another layout")
    ends = range(header.attribute, len(content) + 1, header.attribute)
    found = [Attribute(*ATTRIBUTE.unpack_from(content, end - header.attribute)) for end in ends]
    return [one for one in found if one.type == TRACEPOINT]


def is_backward(path: str) -> bool:
    """Return whether full buffers have overwritten the oldest events in the recording of that path. Raises `OSError`."""
    with open(path, "rb") as file:
        try:
            return any(one.flags & BACKWARD for one in attributes(file, header_of(file)))
        except Unknown:
            return False


def records(content: bytes | mmap.mmap, at: int, end: int) -> Iterator[tuple[int, int, int]]:
    """Go through the records from `at` on, up to `end`, as far as they are whole: the type of each, and where it begins and
    ends."""
    while at + RECORD.size <= end:
        kind, size = RECORD.unpack_from(content, at)
        if size < RECORD.size or at + size > end:
            return
        yield kind, at, at + size
        at += size


def lost_events(path: str) -> dict[int, int]:
    """Return how many events were lost of each CPU in the recording of that path, as the kernel counts them.

    Newer versions of perf write these counts when the recording ends. Raises `OSError`.
    """
    with open(path, "rb") as file:
        try:
            header = header_of(file)
            end = header.data_at + header.data_size
            front = read_at(file, header.data_at, min(header.data_size, TAIL))
            skipped = max(0, header.data_size - TAIL)
            tail = read_at(file, header.data_at + skipped, end - header.data_at - skipped)
        except Unknown:
            return {}
    last = last_records(tail)
    if not any(kind == LOST_SAMPLES for kind, _, _ in last):
        return {}
    cpus = {**cpus_of_samples(front, list(records(front, 0, len(front)))), **cpus_of_samples(tail, last)}
    lost: Counter[int] = Counter()
    for kind, at, after in last:
        number = int.from_bytes(tail[after - 8 : after], "little")
        if kind == LOST_SAMPLES and number in cpus:
            lost[cpus[number]] += int.from_bytes(tail[at + RECORD.size : at + RECORD.size + 8], "little")
    return dict(lost)


def last_records(content: bytes) -> list[tuple[int, int, int]]:
    """Return the records at the end of some data, from the first one on that counts lost events; none if there is none."""
    for match in LOST_FRONT.finditer(content):
        found = list(records(content, match.start(), len(content)))
        if found and found[-1][-1] == len(content):
            return found
    return []


def cpus_of_samples(content: bytes, some: list[tuple[int, int, int]]) -> dict[int, int]:
    """Return the CPU of each number that samples are counted by, as records say it."""
    found: dict[int, int] = {}
    for kind, at, after in some:
        if kind == ID_INDEX:
            # The count of entries, and then of each the number, an index, the CPU and the task; newer versions add more.
            words = struct.unpack_from(f"<{(after - at - RECORD.size) // 8}Q", content, at + RECORD.size)
            entries = words[1 : 1 + 4 * words[0]] if words else ()
            found.update(zip(entries[0::4], entries[2::4]))
    return found


def switched(path: str, number: int, place: int) -> list[tuple[int, int]]:
    """Return the first switches in the recording of that path: the task of each sample, and the one that it leaves.

    Parameters
    ----------
    path
        The recording.
    number
        The number of the event of a switch, in this recording.
    place
        The offset of the task that it leaves in the raw bytes of a switch.

    Returns
    -------
    list[tuple[int, int]]
        At most 1000 of them.

    Raises
    ------
    Unknown
        If the samples aren't understood, or there are none.
    OSError
        If the recording can't be read.
    """
    with open(path, "rb") as file:
        header = header_of(file)
        samples = {one.sample for one in attributes(file, header)}
        sample = samples.pop() if len(samples) == 1 else 0
        end = min(header.data_at + header.data_size, header.data_at + FRONT, os.fstat(file.fileno()).st_size)
        if not sample & TASK or not sample & RAW or sample & READ:
            raise Unknown("samples of another layout")
        with mmap.mmap(file.fileno(), 0, access=mmap.ACCESS_READ) as content:
            return first_switches(content, header.data_at, end, sample, (number, place))


def first_switches(content: mmap.mmap, at: int, end: int, sample: int, switch: tuple[int, int]) -> list[tuple[int, int]]:
    """Return the first switches among the records from `at` on, as `switched` does; `sample` is what each sample has."""
    task_at = RECORD.size + 8 * sum(bool(sample & bit) for bit in FIXED[: FIXED.index(TASK)]) + 4
    raw_at = RECORD.size + 8 * sum(bool(sample & bit) for bit in FIXED)
    number, place = switch
    found: list[tuple[int, int]] = []
    has_samples = False
    for kind, begin, after in records(content, at, end):
        if kind != SAMPLE or after - begin < raw_at + 8:
            continue
        has_samples = True
        raw = begin + raw_at
        if sample & CALLCHAIN:
            raw += 8 + 8 * int.from_bytes(content[raw : raw + 8], "little")
        if raw + 4 + place + 4 <= after and int.from_bytes(content[raw + 4 : raw + 6], "little") == number:
            task, left = content[begin + task_at : begin + task_at + 4], content[raw + 4 + place : raw + 8 + place]
            found.append((int.from_bytes(task, "little", signed=True), int.from_bytes(left, "little", signed=True)))
            if len(found) == ENOUGH:
                break
    if not has_samples:
        raise Unknown("no samples at the beginning")
    return found
