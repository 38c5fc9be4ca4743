"""Triggers, for model.py: docs/REFERENCE.md, Triggers and What triggers count."""

import re

from model_filter import FilterFault, filter_text, passes, read_filter
from model_line import EVENTS, MADE, TEXTS, fields_of

MASK = (1 << 64) - 1
NAME = "[A-Za-z_][A-Za-z0-9_]*"
ITEM = re.compile(rf"(\$?{NAME})(?:\.(.+))?", re.DOTALL)
VARIABLE = re.compile(rf"({NAME})=common_timestamp\.usecs(?:-\$({NAME}))?")
ASSIGNED = re.compile(f"{NAME}=")
MAKING = re.compile(rf"onmatch\(sched\.({'|'.join(EVENTS)})\)\.wakeup_latency\(\$({NAME}),({NAME}),({NAME})\)")
KINDS = {"keys": "keys", "key": "keys", "values": "vals", "vals": "vals", "val": "vals", "sort": "sort", "size": "size"}
LEFT_OUT = ["pause", "cont", "clear", "nohitcount"]
LEFT_OUT_BEGINS = ("name=", "clock=", "onmax(", "onchange(", "onmatch(")
LEFT_OUT_MODIFIERS = ["execname", "sym", "sym-offset", "syscall", "percent", "graph", "stacktrace"]


class TriggerFault(Exception):
    """A trigger's text has a fault: what `refused 8` tells of it."""


def fail_if(met, fault, place=None):
    if met:
        raise TriggerFault(f"fault {fault}" + ("" if place is None else f" at {place}"))


class Trigger:
    def __init__(self, event, text):
        self.event, self.fields = event, fields_of(event)
        self.parts, self.keys, self.values, self.sort, self.size = set(), [], [], [], 2048
        self.own = self.saves = self.reads = self.filter = None
        self.value_items, self.variable = set(), ""
        # What events are made of at latencies: the event that must have saved, and the variable and fields that are handed on.
        self.making, self.matched, self.handed = "", None, ()
        head = re.match("[^ \t]*", text)[0]
        self.read_head(head)
        self.read_tail(text.rstrip(" \t"), len(head))

    # ---- reading

    def read_head(self, head):
        fail_if(not head.startswith("hist:"), 2, 0)
        at = 5
        for part in head[5:].split(":"):
            self.read_part(part, at)
            at += len(part) + 1
        fail_if(not self.keys, 2, len(head))
        for value in self.values:
            fail_if(value.startswith("$") and value[1:] != self.own, 3)
        fail_if(self.making and not (self.reads and self.own == self.handed[0]), 3)
        self.sort = self.sort or [("hitcount", False)]
        names = ["hitcount", *self.values, *(field for field, _ in self.keys)]
        for name, _ in self.sort:
            fail_if(name not in names, 8)

    def read_tail(self, text, end):
        tail = text[end:].lstrip(" \t")
        if not tail:
            return
        fail_if(not re.match("if[ \t]", tail), 2, len(text) - len(tail))
        try:
            self.filter = read_filter(tail[2:].lstrip(" \t"), self.fields)
        except FilterFault as fault:
            raise TriggerFault(f"fault 11 {fault.text()}")

    def read_part(self, part, at):
        making = MAKING.fullmatch(part)
        if making and self.event != MADE:
            self.read_making(part, making)
            return
        word, _, rest = part.partition("=")
        kind = KINDS.get(word) if "=" in part else None
        variable = VARIABLE.fullmatch(part)
        left_out = part in LEFT_OUT or part.startswith(LEFT_OUT_BEGINS)
        fail_if(not (kind or left_out or ASSIGNED.match(part)), 2, at)
        fail_if(left_out or not kind and (not variable or self.own or self.event == MADE), 10, at)
        if not kind:
            self.read_variable(part, variable)
            return
        fail_if(kind in self.parts, 6)
        self.parts.add(kind)
        if kind == "size":
            self.read_size(rest)
            return
        at += len(word) + 1
        for number, item in enumerate(rest.split(","), 1):
            found = ITEM.fullmatch(item)
            fail_if(not found, 2, at)
            {"keys": self.read_key, "vals": self.read_value, "sort": self.read_sort}[kind](*found.groups(), at, number)
            at += len(item) + 1

    def read_variable(self, part, variable):
        own, other = variable.groups()
        fail_if(own in self.fields or own in ("hitcount", other), 6)
        self.own, self.reads, self.saves, self.variable = own, other, None if other else own, f":{part}"

    def read_making(self, part, making):
        fail_if(self.making, 6)
        self.making, self.matched, self.handed = f":{part}", making[1], making.groups()[1:]
        for field in self.handed[1:]:
            fail_if(field not in self.fields, 3)
            fail_if(field in TEXTS, 4)

    def read_key(self, name, modifier, at, number):
        fail_if(number > 3, 5)
        fail_if(name.startswith("$") or name in ("common_timestamp", "stacktrace", "common_stacktrace"), 10, at)
        fail_if(name not in self.fields, 3)
        fail_if(modifier in LEFT_OUT_MODIFIERS, 10, at)
        if modifier and modifier.startswith("buckets="):
            digits = re.fullmatch("[0-9]+", modifier[8:])
            fail_if(not digits or not 1 <= int(digits[0]) < 2**32, 9)
            modifier = f"buckets={int(digits[0])}"
        else:
            fail_if(modifier not in (None, "hex", "log2"), 9)
        fail_if(modifier and name in TEXTS, 9)
        fail_if(name in (field for field, _ in self.keys), 6)
        self.keys.append((name, modifier or ""))

    def read_value(self, name, modifier, at, number):
        fail_if(name != "hitcount" and len(self.values) == 3, 5)
        fail_if(name == "common_timestamp", 10, at)
        fail_if(modifier in LEFT_OUT_MODIFIERS, 10, at)
        fail_if(modifier, 9)
        if not name.startswith("$") and name != "hitcount":
            fail_if(name not in self.fields, 3)
            fail_if(name in TEXTS, 4)
        fail_if(name in self.value_items, 6)
        self.value_items.add(name)
        if name != "hitcount":
            self.values.append(name)

    def read_sort(self, name, suffix, at, number):
        fail_if(number > 2, 5)
        fail_if(suffix not in (None, "ascending", "descending"), 8)
        fail_if(name in (other for other, _ in self.sort), 6)
        self.sort.append((name, suffix == "descending"))

    def read_size(self, text):
        fail_if(not re.fullmatch("[0-9]+", text) or int(text) == 0, 7)
        self.size = 1 << (int(text) - 1).bit_length()
        fail_if(not 128 <= self.size <= 131072, 7)

    # ---- what it says

    def text(self):
        keys = ",".join(field + ("." + mode if mode else "") for field, mode in self.keys)
        values = "".join("," + value for value in self.values)
        sort = ",".join(name + (".descending" if down else "") for name, down in self.sort)
        head = f"hist:keys={keys}:vals=hitcount{values}{self.variable}:sort={sort}:size={self.size}{self.making}"
        return head + (f" if {filter_text(self.filter)}" if self.filter else "")

    def kinds(self):
        return [(field in TEXTS, mode if mode != "hex" else "") for field, mode in self.keys]

    def is_hit(self, event):
        return self.event == event["name"] and (not self.filter or passes(self.filter, lambda field: field_of(event, field)))

    def made_of(self, event, latency):
        """The event that is made of a latency, which has what the reading event has in front."""
        _, pid, prio = self.handed
        said = {"lat": latency, "pid": field_of(event, pid), "prio": field_of(event, prio)}
        return event | {"name": MADE, "said": said}

    def key_of(self, event):
        return tuple(component(field_of(event, field), mode) for field, mode in self.keys)

    def key_text(self, key):
        parts = [f"{field}: {component_text(mode, value)}" for (field, mode), (_, value) in zip(self.keys, key)]
        return "{ " + ", ".join(parts) + " }"


def field_of(event, field):
    if field == "common_pid":
        return event["line_pid"]
    return event["cpu"] if field == "common_cpu" else event["said"][field]


def component(value, mode):
    """A component of a key, with its kind in front, so that components are ordered as they should be."""
    if isinstance(value, str):
        return (3, value)
    if mode == "log2":
        whole = value & MASK
        return (1, 0 if whole == 0 else (whole - 1).bit_length())
    if mode.startswith("buckets="):
        whole, size = value & MASK, int(mode[8:])
        return (2, whole - whole % size)
    return (0, value)


def component_text(mode, value):
    if isinstance(value, str):
        return f"{value:<50}"
    if mode == "hex":
        return f"{value & MASK:x}"
    if mode == "log2":
        return f"~ 2^{value:<2}"
    if mode.startswith("buckets="):
        return f"~ {value}-{min(value + int(mode[8:]) - 1, MASK)}"
    return f"{value & MASK:10}"
