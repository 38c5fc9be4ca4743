"""Trace lines, for model.py: docs/REFERENCE.md, Trace lines. Texts are Latin-1, a character for each byte."""

import re

NUMBER = "(-?[0-9]+)"
LOST = re.compile(r"CPU:[0-9]+ \[LOST ([0-9]+ )?EVENTS\]")
FRONT = re.compile(r"(.*?)-([0-9]+) +(?:\( *[0-9-]+\) +)?\[([0-9]+)\] ", re.DOTALL)
STAMP = re.compile(r"([0-9]{1,10})\.([0-9]{6}):")
WAKE = re.compile(rf"comm=(.*) pid={NUMBER} prio={NUMBER}(?: success={NUMBER})? target_cpu=([0-9]+)", re.DOTALL)
PREV = re.compile(rf"prev_comm=(.*) prev_pid={NUMBER} prev_prio={NUMBER} prev_state=([^ ]+)", re.DOTALL)
NEXT = re.compile(rf"(.*) next_pid={NUMBER} next_prio={NUMBER}", re.DOTALL)
WAKE_FIELDS = ["comm", "pid", "prio", "success", "target_cpu"]
TURN_FIELDS = ["prev_comm", "prev_pid", "prev_prio", "prev_state", "next_comm", "next_pid", "next_prio"]
TEXTS = {"comm", "prev_comm", "prev_state", "next_comm"}
EVENTS = ["sched_waking", "sched_wakeup", "sched_wakeup_new", "sched_switch"]
# The event that triggers make: no line is read as one.
MADE, MADE_FIELDS = "wakeup_latency", ["lat", "pid", "prio"]


class LineFault(Exception):
    """A line has a fault: its number."""


def fields_of(name):
    """The fields of an event's name, those of every event first."""
    own = {"sched_switch": TURN_FIELDS, MADE: MADE_FIELDS}.get(name) or [field for field in WAKE_FIELDS if field != "success"]
    return ["common_pid", "common_cpu"] + own


def is_skipped(line):
    return not line.strip(" \t") or line.startswith("#") or LOST.fullmatch(line) is not None


def fail_if(met, fault):
    if met:
        raise LineFault(fault)


def read_line(line):
    """The line's event, or None if the line is skipped."""
    fail_if(len(line) > 4096, 7)
    if is_skipped(line):
        return None
    line = line.lstrip(" ")
    front = FRONT.match(line)
    fail_if(front is None, 1)
    task, pid, cpu = front[1], int(front[2]), int(front[3])
    fail_if(len(task) > 31, 6)
    fail_if(pid >= 2**31, 5)
    fail_if(cpu > 8191, 2)
    stamp, rest = read_stamp(line[front.end() :])
    name, said = read_payload(rest.lstrip(" "))
    return {"task": task, "line_pid": pid, "cpu": cpu, "stamp": stamp, "name": name, "said": said}


def read_stamp(text):
    """The stamp in microseconds, and what stands after it."""
    word, _, rest = text.lstrip(" ").partition(" ")
    if ":" not in word:
        fail_if(len(word) > 16, 3)
        word, _, rest = rest.lstrip(" ").partition(" ")
    stamp = STAMP.fullmatch(word)
    fail_if(stamp is None or int(stamp[1]) >= 2**32, 3)
    return int(stamp[1]) * 10**6 + int(stamp[2]), rest


def read_payload(text):
    name, colon, payload = text.partition(":")
    if not colon or name not in EVENTS:
        return "other", {}
    parts = (turn_parts if name == "sched_switch" else wake_parts)(payload.strip(" "))
    fail_if(parts is None, 4)
    said = {}
    for field, part in zip(TURN_FIELDS if name == "sched_switch" else WAKE_FIELDS, parts):
        said[field] = read_part(field, part)
    said.pop("success", None)
    return name, said


def wake_parts(payload):
    wake = WAKE.fullmatch(payload)
    return wake and wake.groups()


def turn_parts(payload):
    """The parts, cut at the last place of the arrow and no earlier one."""
    right = NEXT.fullmatch(payload)
    if not right:
        return None
    before, arrow, next_comm = right[1].rpartition(" ==> next_comm=")
    left = PREV.fullmatch(before)
    if not arrow or not left:
        return None
    return (*left.groups(), next_comm, right[2], right[3])


def read_part(field, part):
    if part is None:
        return None
    if field in TEXTS:
        fail_if(len(part) > 31, 6)
        return part
    number = int(part)
    fail_if(not -(2**31) <= number < 2**31, 5)
    return number


def line_text(event):
    """The event's text in `list`, after its place."""
    said, stamp = event["said"], event["stamp"]
    head = f"{event['task']}-{event['line_pid']} [{event['cpu']:03}] {stamp // 10**6}.{stamp % 10**6:06}:"
    if event["name"] == "other":
        return head
    fields = [f"{field}={value:03}" if field == "target_cpu" else f"{field}={value}" for field, value in said.items()]
    if event["name"] == "sched_switch":
        fields.insert(4, "==>")
    return f"{head} {event['name']}: {' '.join(fields)}"
