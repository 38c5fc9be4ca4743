"""The layout in which trace-cmd's plugins print switches and wakeups unless it is run with -N: `a:1 [120] R ==> b:2 [120]`."""

from __future__ import annotations

import re

# What trace-cmd prints between an event's name and its fields fills these columns, with the name and its colon.
LABEL_COLUMNS = 22
_NUMBER = rb"-?[0-9]{1,10}"
# A task: its name, which has at most as many bytes as in the kernel, its PID and its priority.
_TASK = rb"(.{0,15}):(" + _NUMBER + rb") \[(" + _NUMBER + rb")\]"
_SWITCH = _TASK + rb" ([A-Za-z|+]{1,31}) ==> " + _TASK + rb" *"
_WAKEUP = _TASK + rb"((?: success=" + _NUMBER + rb")?) CPU:([0-9]{1,9}) *"
# The fields in the kernel's layout, with the groups of these patterns.
_SWITCHED = rb"prev_comm=\1 prev_pid=\2 prev_prio=\3 prev_state=\4 ==> next_comm=\5 next_pid=\6 next_prio=\7"
_WOKEN = rb"comm=\1 pid=\2 prio=\3\4 target_cpu=\5"
_LAYOUTS = {b"sched_switch": (_SWITCH, _SWITCHED), b"sched_wakeup": (_WAKEUP, _WOKEN), b"sched_wakeup_new": (_WAKEUP, _WOKEN)}


def blanks_after(label: bytes) -> bytes:
    """Return the blanks that trace-cmd prints after an event's name and its colon."""
    return b" " * (LABEL_COLUMNS - len(label) - 1)


def front_of(label: bytes) -> bytes:
    """Return what stands before the fields of an event in such a text, from the colon before its name on."""
    return b": " + label + b":" + blanks_after(label)


# The ends of lines in a text, by what they begin with; and the fields of one event, which line breaks of names may have torn.
_LINES = {
    front_of(label): (re.compile(front_of(label) + pattern + b"$", re.MULTILINE), b": " + label + b": " + fields)
    for label, (pattern, fields) in _LAYOUTS.items()
}
_FIELDS = {label: (re.compile(pattern, re.DOTALL), fields) for label, (pattern, fields) in _LAYOUTS.items()}


def in_kernel_layout(text: bytes) -> bytes:
    """Return whole lines, with the events that the plugins have printed in the kernel's layout."""
    for front, (pattern, line) in _LINES.items():
        if front in text:
            text = pattern.sub(line, text)
    return text


def kernel_fields(label: bytes, text: bytes) -> bytes:
    """Return the fields of an event in the kernel's layout, by what stands after its label and the colon; as they are, without
    the blanks around them, if the plugins haven't printed them."""
    if label in _FIELDS:
        (pattern, fields), blanks = _FIELDS[label], blanks_after(label)
        # A name may begin with blanks too.
        match = pattern.fullmatch(text[len(blanks) :] if text.startswith(blanks) else text.lstrip(b" "))
        if match:
            return match.expand(fields)
    return text.strip(b" ")
