"""Patterns of the trace lines that the desk reads, by which the converters see that they print such lines. The grammar is that
of docs/REFERENCE.md, Trace lines."""

import re

# Pieces of patterns, in which blanks and comments mean nothing (`re.VERBOSE`). All repeats have bounds, whose sum over a
# line is below the 4,096 bytes that it may have.
_NUMBER = rb"-?[0-9]{1,9}"
_NAME = rb"[^\n]{0,31}"
LABELS = rb"sched_(?:switch|wak(?:ing|eup(?:_new)?))"
WAKE = rb"comm=%(name)b[ ]pid=%(number)b[ ]prio=%(number)b(?:[ ]success=%(number)b)?[ ]target_cpu=[0-9]{1,9}[ ]{0,64}" % {
    b"name": _NAME,
    b"number": _NUMBER,
}
"""The fields of a waking, after their label and its colon."""
# The name after the arrow holds no `>`, so the arrow is the last one.
SWITCH = (
    rb"prev_comm=%(name)b[ ]prev_pid=%(number)b[ ]prev_prio=%(number)b[ ]prev_state=[^ \n]{1,31}"
    rb"[ ]==>[ ]next_comm=[^>\n]{0,31}[ ]next_pid=%(number)b[ ]next_prio=%(number)b[ ]{0,64}"
) % {b"name": _NAME, b"number": _NUMBER}
"""The fields of a switch."""
# The first `[` is that of the CPU, so the dash before it is the only one with the form of a task's end after it. A first word
# without `:` is that of the flags.
_FRONT = (
    rb"(?!\#)[ ]{0,32}[^\[\n]{0,31}-[0-9]{1,9}[ ]{1,64}(?:\([ ]{0,32}[0-9-]{1,16}\)[ ]{1,64})?"
    rb"\[[0-7]?[0-9]{1,3}\][ ]{1,64}(?:[^ :\n0-9][^ :\n]{0,15}[ ]{1,64})?[0-3]?[0-9]{1,9}\.[0-9]{6}:"
)
_OWN = rb"[ ]{1,64}sched_(?:switch:[ ]{0,64}" + SWITCH + rb"|wak(?:ing|eup(?:_new)?):[ ]{0,64}" + WAKE + rb")"
_OTHER = rb"(?![ ]*" + LABELS + rb":)(?:[ ][^\n]{0,2048})?"

SURE = re.compile(rb"^" + _FRONT + rb"(?:" + _OWN + rb"|" + _OTHER + rb")$", re.VERBOSE | re.MULTILINE)
"""Matches lines that hold an event which the desk reads, and no others. A few that it reads don't match: those with odd names,
very long ones, and those with numbers near their limits. It matches a line by itself (`SURE.fullmatch(line)`, without its
line break) and the lines of a whole text: `SURE.sub(b"", text)` leaves those that are not sure, each at its number."""

SKIPPED = re.compile(
    rb"^(?:[ \t]{0,4096}|\#[^\n]{0,4095}|CPU:[0-9]{1,64}[ ]\[LOST[ ](?:[0-9]{1,64}[ ])?EVENTS\])$", re.VERBOSE | re.MULTILINE
)
"""Matches lines that hold no event and are good: empty ones, comments, lost-events lines; in a text too, as `SURE` does."""
