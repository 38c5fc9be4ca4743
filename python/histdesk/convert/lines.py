"""A line of a trace for the converters: patterns of plain lines, and how odd ones are put together, so that the desk reads from
them what the tool has printed."""

from __future__ import annotations

import re
from typing import NamedTuple

from . import line_patterns

# What stands after a stamp and its blanks, with the line break, as one group. Torn lines of the four events don't match.
REST = rb"((?:sched_(?:switch:[ ]{1,64}%b|wak(?:ing|eup(?:_new)?):[ ]{1,64}%b)|(?!sched:|%b:)[^ \n]{1,64}:[^\n]{0,2048})\n)" % (
    line_patterns.SWITCH,
    line_patterns.WAKE,
    line_patterns.LABELS,
)
# A stamp of six or nine digits, as two groups: all digits but the sixth after the point, then that one, and the next one too
# if there are nine.
STAMP = rb"([0-9]{1,9}\.[0-9]{5})([0-9](?=:)|[0-9]{2}(?=[0-9]{2}:))[0-9]*:"
# An odd line, as one group: one that isn't plain.
ODD = rb"|^([^\n]*)\n"
# What stands for the second group of a stamp, rounded as the kernel rounds; from 95 on, `round_up` does it.
ROUNDED = {b"%d%d" % (digit, after): b"%d" % (digit + (after >= 5)) for digit in range(10) for after in range(10)}
ROUNDED.update({b"": b"", **{b"%d" % digit: b"%d" % digit for digit in range(10)}})
CARRIED = b"95"

OWN = re.compile(line_patterns.LABELS)
# As the desk cuts a line: the task ends at the first dash after which the rest has its form.
TASK = re.compile(rb"(.*?)-[0-9]+ +(?:\( *[0-9-]+\) +)?\[[0-9]+\] ", re.DOTALL)
WAKE = re.compile(rb"(comm=)(.*)( pid=-?[0-9]+ prio=-?[0-9]+(?: success=-?[0-9]+)? target_cpu=[0-9]+ *)", re.DOTALL)
SWITCH = re.compile(
    rb"(prev_comm=)(.*)( prev_pid=-?[0-9]+ prev_prio=-?[0-9]+ prev_state=[^ \n]+ ==> next_comm=)(.*)"
    rb"( next_pid=-?[0-9]+ next_prio=-?[0-9]+ *)",
    re.DOTALL,
)
ARROW = b" ==> next_comm="
# The most bytes of a name for the desk, and in the kernel.
LONGEST, KERNEL_LONGEST = 31, 15


class NotConvertible(Exception):
    """A line can't be converted; the message says why."""


class Line(NamedTuple):
    """A line's parts. `middle` is what stands between the task's name and the stamp, with the dash; a label has no colon,
    and is empty if there is none; `lead` stands before the name."""

    task: bytes
    middle: bytes
    stamp: bytes
    label: bytes
    fields: bytes
    lead: bytes = b""

    def text(self, task: bytes, fields: bytes) -> bytes:
        """Return the line with this name and these fields."""
        # A name that begins with # would make it a comment.
        lead = self.lead or (b" " if task.startswith(b"#") else b"")
        label = self.label + b": " if self.label else b""
        return b"%s%s%s%s: %s%s" % (lead, task, self.middle, self.stamp, label, fields)


def round_up(stem: bytes) -> bytes:
    """Return a stamp of six digits, of which five are given, rounded up."""
    seconds, _, digits = stem.partition(b".")
    return b"%d.%05d0" % divmod(int(seconds + digits) + 1, 10**5)


def round_stamp(seconds: bytes, fraction: bytes) -> bytes:
    """Return a stamp of six digits. One of nanoseconds is rounded as the kernel's own text rounds it, up from the half."""
    if len(fraction) == 6:
        return b"%s.%s" % (seconds, fraction)
    whole = (int(seconds) * 10**9 + int(fraction) + 500) // 1000
    return b"%d.%06d" % divmod(whole, 10**6)


def complete_line(line: Line, advice: str) -> tuple[bytes, bool]:
    """Return a line as the desk reads it, and whether a name in it was masked.

    Parameters
    ----------
    line
        Its parts.
    advice
        What to do if its fields have another layout.

    Raises
    ------
    NotConvertible
        If the desk can't read it.
    """
    pieces = pieces_of(line, advice)
    names = [line.task, *pieces[1::2]]
    if any(b"\n" in name and len(name) > KERNEL_LONGEST for name in names):
        raise NotConvertible("the line is torn")
    task = masked_task(line)
    pieces[1::2] = [name.replace(b"\n", b"?") for name in names[1:]]
    if len(names) == 3 and ARROW in names[2]:
        # The desk takes the last arrow.
        pieces[3] = pieces[3].replace(b">", b"?")
    check(line, task, pieces)
    text = line.text(task, b"".join(pieces)).rstrip(b" ")
    return text, [task, *pieces[1::2]] != names


def pieces_of(line: Line, advice: str) -> list[bytes]:
    """Return the fields in pieces, of which every second one is a name. Events other than the four have only one piece."""
    if not OWN.fullmatch(line.label):
        return [line.fields]
    pattern, start = (SWITCH, b"prev_comm=") if line.label == b"sched_switch" else (WAKE, b"comm=")
    match = pattern.fullmatch(line.fields)
    if match:
        return list(match.groups())
    if line.fields.startswith(start):
        raise NotConvertible(f"the fields of {line.label.decode()} are not whole")
    raise NotConvertible(f"the fields of {line.label.decode()} are not in the kernel's layout; {advice}")


def masked_task(line: Line) -> bytes:
    """Return the task's name without what misleads the desk, and no longer than a name may be for the desk."""
    task = line.task.replace(b"\n", b"?")[:LONGEST]
    match = TASK.match(line.text(task, b""))
    if match and match[1].lstrip(b" ") == task:
        return task
    return task.replace(b"[", b"?")


def check(line: Line, task: bytes, pieces: list[bytes]) -> None:
    """Raise `NotConvertible` if the desk can't read the line, whatever its names are."""
    names = pieces[1::2]
    plain = pieces[:]
    plain[1::2] = [b"x" * len(name) for name in names]
    if line_patterns.SURE.fullmatch(line.text(b"x" * len(task), b"".join(plain))):
        return
    if any(len(name) > LONGEST for name in names):
        raise NotConvertible(f"a name has more than {LONGEST} bytes")
    raise NotConvertible("a number is out of range, or the line is too long")
