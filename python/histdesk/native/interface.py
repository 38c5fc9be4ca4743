"""The library's numbers, structs and calls, which `histdesk.h` describes. build/schema makes this file of the folder schema.

Structs that come in great numbers also have a `struct.Struct`, and fields from which `arrays` makes types for numpy: both flat,
with members of members as fields of their own.
"""

from ctypes import POINTER, Structure, c_bool, c_int32, c_int64, c_size_t, c_uint32, c_uint64, c_uint8, c_void_p
from struct import Struct

# Codes of calls. 1 to 17 are the numbers after `refused` in the output of scripts.
OK = 0
MEMORY = 1
NO_FILE = 2
BAD_LINE = 3
LANE_HELD = 4
NO_LANE = 5
NO_EVENT = 6
FULL = 7
BAD_TRIGGER = 8
BAD_FILTER = 9
NO_TRIGGER = 10
IN_USE = 11
NAME_TAKEN = 12
NO_VARIABLE = 13
KEY_MISMATCH = 14
TOO_MANY_TRIGGERS = 15
BAD_COMMAND = 16
NOT_READING = 17
BACKWARDS = 18
NO_STREAM = 19
NOT_JOINED = 20
CLOSED = 255

# Why a part can't follow the text that another stream has read: the fault of HISTDESK_NOT_JOINED.
PART_REFUSED = 1
UNENDED = 2
DIFFERS = 3
SUMMED = 4
TOO_LONG = 5
OVERLAPS = 6
TORN = 7

# Causes of a wait.
WOKEN = 1
CREATED = 2
PREEMPTED = 3

# How sure a wait is.
SURE = 0
LIKELY = 1
DOUBTFUL = 2

# Names of events. Triggers are attached to the first five. For any other event, only the task, PID, CPU and stamp are held.
WAKING = 0
WAKEUP = 1
WAKEUP_NEW = 2
SWITCH = 3
WAKEUP_LATENCY = 4
OTHER = 5
NONE = 255

# Used instead of an event's name if a line of a text has no event that can be read.
LINE_SKIPPED = 253
LINE_BAD = 254

# Kinds of a key's parts.
NUMBER = 0
LOG2 = 1
BUCKET = 2
TEXT = 3


class Handle(Structure):
    """A desk's handle: {0} has no desk."""

    _fields_ = [("at", c_void_p)]


class Name(Structure):
    """The name of a task, or a state: `length` bytes. The bytes after them are zero; there may be none."""

    _fields_ = [("bytes", c_uint8 * 31), ("length", c_uint8)]


class Line(Structure):
    """Where an event is: its CPU, and its line number in the CPU's lane."""

    _fields_ = [("cpu", c_uint32), ("line", c_uint32)]


class Place(Structure):
    """A place in the merged order, which is by stamp, then CPU, then line."""

    _fields_ = [("stamp", c_uint64), ("cpu", c_uint32), ("line", c_uint32)]


class Totals(Structure):
    """Of one trigger: the hits that were counted, the keys in its table, the hits for which the table had no space."""

    _fields_ = [("hits", c_uint64), ("entries", c_uint64), ("dropped", c_uint64)]


class Part(Structure):
    """One part of a key. Members that its kind doesn't use are zero."""

    _fields_ = [("number", c_int64), ("bucket", c_uint64), ("text", Name), ("kind", c_uint64)]


class Key(Structure):
    """A key of 1 to 3 parts, in the trigger's order; unused parts are zero. Equal keys have equal bytes."""

    _fields_ = [("parts", c_uint64), ("part", Part * 3)]


class Row(Structure):
    """A row of a table: the key, its hits, and the sum modulo 2^64 of each value besides hitcount, in the trigger's order;
    unused sums are zero. Equal rows have equal bytes."""

    _fields_ = [("key", Key), ("hitcount", c_uint64), ("sums", c_uint64 * 3)]


class Latency(Structure):
    """A latency: the places of the event whose stamp was saved and of the one that read it, and the difference of their
    stamps."""

    _fields_ = [("saved", Place), ("read", Place), ("micros", c_uint64)]


class Event(Structure):
    """An event. Members that its name doesn't have are zero; if the name is HISTDESK_NONE, all but the place are."""

    _fields_ = [
        ("place", Place),
        ("name", c_uint32),
        ("common_pid", c_int32),
        ("pid", c_int32),
        ("prio", c_int32),
        ("target_cpu", c_int32),
        ("prev_pid", c_int32),
        ("prev_prio", c_int32),
        ("task", Name),
        ("comm", Name),
        ("prev_comm", Name),
        ("prev_state", Name),
    ]


class Trigger(Structure):
    """An attached trigger: its id, and the name of the event that it is attached to."""

    _fields_ = [("id", c_uint32), ("event", c_uint32)]


class Changed(Structure):
    """A row that an edit may have changed: the trigger's id, and the row's key."""

    _fields_ = [("id", c_uint64), ("key", Key)]


class Report(Structure):
    """How many rows the last accepted insert or strike may have changed, or the strikes of one histdesk_strike_events together.
    `rows` is about the triggers that count held events: each of their rows that changed, appeared or disappeared is among the
    reported ones. `made` is the same for the triggers on wakeup_latency. If has_rows or has_made is false, there is no such
    list, its number is 0, and any row may have changed."""

    _fields_ = [("has_rows", c_bool), ("has_made", c_bool), ("rows", c_uint64), ("made", c_uint64)]


class Refusal(Structure):
    """Why a call was refused. number is its code, 0 if it was accepted. Members that the number doesn't use are 0."""

    _fields_ = [
        ("number", c_uint32),
        ("fault", c_uint32),
        ("filter_fault", c_uint32),
        ("cpu", c_uint32),
        ("trigger", c_uint32),
        ("has_place", c_bool),
        ("line", c_uint64),
        ("place", c_uint64),
    ]


class Wait(Structure):
    """A wait for a processor: a switch runs a task that something made runnable before."""

    _fields_ = [
        ("ended", Place),
        ("began", Place),
        ("pid", c_int32),
        ("prio", c_int32),
        ("cause", c_uint32),
        ("doubt", c_uint32),
        ("slept", c_uint32),
        ("zero", c_uint32),
        ("name", Name),
    ]


class Hole(Structure):
    """A stretch of time in which a CPU lost events, as reported by lines of the text or shown by its events. It overlaps a wait
    if it begins before the wait ends and ends after the wait began. Members that it doesn't have are 0."""

    _fields_ = [
        ("line", c_uint64),
        ("after", c_uint64),
        ("before", c_uint64),
        ("count", c_uint64),
        ("cpu", c_uint32),
        ("has_after", c_bool),
        ("has_before", c_bool),
        ("has_count", c_bool),
        ("has_cpu", c_bool),
    ]


class WaitsRead(Structure):
    """What was read of a text. What isn't there is 0."""

    _fields_ = [
        ("lines", c_uint64),
        ("bad", c_uint64),
        ("bad_line", c_uint64),
        ("missing", c_uint64),
        ("holes", c_uint64),
        ("held", c_uint64),
        ("written", c_uint64),
        ("first", c_uint64),
        ("last", c_uint64),
        ("missing_at", Place),
        ("bad_fault", c_uint32),
        ("has_first", c_bool),
        ("has_written", c_bool),
    ]


class TextLine(Structure):
    """A line of a text."""

    _fields_ = [
        ("end", c_uint64),
        ("stamp", c_uint64),
        ("cpu", c_uint32),
        ("event", c_uint32),
        ("fault", c_uint32),
        ("zero", c_uint32),
    ]


class LossesRead(Structure):
    """What the lines of a text report as lost. What isn't there is 0."""

    _fields_ = [("holes", c_uint64), ("held", c_uint64), ("written", c_uint64), ("has_written", c_bool)]


class LeftOut(Structure):
    """How many events one histdesk_waits_without left out of a text."""

    _fields_ = [("events", c_uint64), ("left_out", c_uint64)]


class TaskSum(Structure):
    """The sums of a text for one task. Each figure stops at the largest 64-bit number."""

    _fields_ = [
        ("run_time", c_uint64),
        ("switches", c_uint64),
        ("preempted", c_uint64),
        ("slept", c_uint64),
        ("blocked", c_uint64),
        ("moved", c_uint64),
        ("pid", c_int32),
        ("zero", c_uint32),
    ]


class CpuSum(Structure):
    """The sums of a text for one CPU. Each figure stops at the largest 64-bit number."""

    _fields_ = [
        ("idle", c_uint64),
        ("unknown", c_uint64),
        ("idle_with_waiters", c_uint64),
        ("longest", c_uint64),
        ("longest_from", c_uint64),
        ("cpu", c_uint32),
        ("zero", c_uint32),
    ]


PLACE = Struct("=QII")
PLACE_FIELDS = [("stamp", "=i8"), ("cpu", "=u4"), ("line", "=u4")]
ROW = Struct("=QqQ31sBQqQ31sBQqQ31sBQQ3Q")
ROW_FIELDS = [
    ("parts", "=u8"),
    ("part0_number", "=i8"),
    ("part0_bucket", "=u8"),
    ("part0_text", "S31"),
    ("part0_text_length", "=u1"),
    ("part0_kind", "=u8"),
    ("part1_number", "=i8"),
    ("part1_bucket", "=u8"),
    ("part1_text", "S31"),
    ("part1_text_length", "=u1"),
    ("part1_kind", "=u8"),
    ("part2_number", "=i8"),
    ("part2_bucket", "=u8"),
    ("part2_text", "S31"),
    ("part2_text_length", "=u1"),
    ("part2_kind", "=u8"),
    ("hitcount", "=u8"),
    ("sums", "=u8", (3,)),
]
LATENCY = Struct("=QIIQIIQ")
LATENCY_FIELDS = [
    ("saved_stamp", "=i8"),
    ("saved_cpu", "=u4"),
    ("saved_line", "=u4"),
    ("read_stamp", "=i8"),
    ("read_cpu", "=u4"),
    ("read_line", "=u4"),
    ("micros", "=i8"),
]
EVENT = Struct("=QIIIiiiiii31sB31sB31sB31sB4x")
EVENT_FIELDS = [
    ("stamp", "=i8"),
    ("cpu", "=u4"),
    ("line", "=u4"),
    ("name", "=u4"),
    ("common_pid", "=i4"),
    ("pid", "=i4"),
    ("prio", "=i4"),
    ("target_cpu", "=i4"),
    ("prev_pid", "=i4"),
    ("prev_prio", "=i4"),
    ("task", "S31"),
    ("task_length", "=u1"),
    ("comm", "S31"),
    ("comm_length", "=u1"),
    ("prev_comm", "S31"),
    ("prev_comm_length", "=u1"),
    ("prev_state", "S31"),
    ("prev_state_length", "=u1"),
]
TRIGGER = Struct("=II")
TRIGGER_FIELDS = [("id", "=u4"), ("event", "=u4")]
CHANGED = Struct("=QQqQ31sBQqQ31sBQqQ31sBQ")
CHANGED_FIELDS = [
    ("id", "=u8"),
    ("parts", "=u8"),
    ("part0_number", "=i8"),
    ("part0_bucket", "=u8"),
    ("part0_text", "S31"),
    ("part0_text_length", "=u1"),
    ("part0_kind", "=u8"),
    ("part1_number", "=i8"),
    ("part1_bucket", "=u8"),
    ("part1_text", "S31"),
    ("part1_text_length", "=u1"),
    ("part1_kind", "=u8"),
    ("part2_number", "=i8"),
    ("part2_bucket", "=u8"),
    ("part2_text", "S31"),
    ("part2_text_length", "=u1"),
    ("part2_kind", "=u8"),
]
WAIT = Struct("=QIIQIIiiIIII31sB")
WAIT_FIELDS = [
    ("ended_stamp", "=i8"),
    ("ended_cpu", "=u4"),
    ("ended_line", "=u4"),
    ("began_stamp", "=i8"),
    ("began_cpu", "=u4"),
    ("began_line", "=u4"),
    ("pid", "=i4"),
    ("prio", "=i4"),
    ("cause", "=u4"),
    ("doubt", "=u4"),
    ("slept", "=u4"),
    ("zero", "=u4"),
    ("name", "S31"),
    ("name_length", "=u1"),
]
HOLE = Struct("=QQQQI????")
HOLE_FIELDS = [
    ("line", "=u8"),
    ("after", "=i8"),
    ("before", "=i8"),
    ("count", "=u8"),
    ("cpu", "=u4"),
    ("has_after", "=?"),
    ("has_before", "=?"),
    ("has_count", "=?"),
    ("has_cpu", "=?"),
]
TEXT_LINE = Struct("=QQIIII")
TEXT_LINE_FIELDS = [("end", "=i8"), ("stamp", "=i8"), ("cpu", "=u4"), ("event", "=u4"), ("fault", "=u4"), ("zero", "=u4")]
LEFT_OUT = Struct("=QQ")
LEFT_OUT_FIELDS = [("events", "=u8"), ("left_out", "=u8")]
TASK_SUM = Struct("=QQQQQQiI")
TASK_SUM_FIELDS = [
    ("run_time", "=i8"),
    ("switches", "=u8"),
    ("preempted", "=u8"),
    ("slept", "=u8"),
    ("blocked", "=u8"),
    ("moved", "=u8"),
    ("pid", "=i4"),
    ("zero", "=u4"),
]
CPU_SUM = Struct("=QQQQQII")
CPU_SUM_FIELDS = [
    ("idle", "=i8"),
    ("unknown", "=i8"),
    ("idle_with_waiters", "=i8"),
    ("longest", "=i8"),
    ("longest_from", "=i8"),
    ("cpu", "=u4"),
    ("zero", "=u4"),
]

# What each call returns, and what it takes.
CALLS = {
    "histdesk_new": (c_uint32, [POINTER(Handle)]),
    "histdesk_free": (None, [POINTER(Handle)]),
    "histdesk_load": (c_uint32, [POINTER(Handle), c_void_p, c_size_t, POINTER(c_uint64)]),
    "histdesk_unload": (c_uint32, [POINTER(Handle), c_uint32, POINTER(c_uint64)]),
    "histdesk_insert": (c_uint32, [POINTER(Handle), c_void_p, c_size_t, POINTER(Line)]),
    "histdesk_strike": (c_uint32, [POINTER(Handle), c_uint32, c_uint32]),
    "histdesk_strike_events": (c_uint32, [POINTER(Handle), c_void_p, c_size_t, c_bool, POINTER(c_uint64)]),
    "histdesk_attach": (c_uint32, [POINTER(Handle), c_uint32, c_void_p, c_size_t, POINTER(c_uint32)]),
    "histdesk_refilter": (c_uint32, [POINTER(Handle), c_uint32, c_void_p, c_size_t]),
    "histdesk_unfilter": (c_uint32, [POINTER(Handle), c_uint32]),
    "histdesk_remove": (c_uint32, [POINTER(Handle), c_uint32]),
    "histdesk_report_of": (c_uint32, [POINTER(Handle), POINTER(Report)]),
    "histdesk_rows_changed_copy": (c_size_t, [POINTER(Handle), c_uint64, c_void_p, c_size_t]),
    "histdesk_made_changed_copy": (c_size_t, [POINTER(Handle), c_uint64, c_void_p, c_size_t]),
    "histdesk_is_deferred": (c_bool, [POINTER(Handle)]),
    "histdesk_totals_of": (c_uint32, [POINTER(Handle), c_uint32, POINTER(Totals)]),
    "histdesk_hist": (c_uint32, [POINTER(Handle), c_uint32, POINTER(c_uint64)]),
    "histdesk_trigger_text": (c_uint32, [POINTER(Handle), c_uint32, POINTER(c_uint64)]),
    "histdesk_list": (c_uint32, [POINTER(Handle), c_uint32, POINTER(c_uint64)]),
    "histdesk_text_copy": (c_size_t, [POINTER(Handle), c_uint64, c_void_p, c_size_t]),
    "histdesk_rows": (c_uint32, [POINTER(Handle), c_uint32, POINTER(c_uint64)]),
    "histdesk_rows_copy": (c_size_t, [POINTER(Handle), c_uint64, c_void_p, c_size_t]),
    "histdesk_latencies": (c_uint32, [POINTER(Handle), c_uint32, POINTER(c_uint64)]),
    "histdesk_latencies_copy": (c_size_t, [POINTER(Handle), c_uint64, c_void_p, c_size_t]),
    "histdesk_triggers": (c_uint32, [POINTER(Handle), POINTER(c_uint64)]),
    "histdesk_triggers_copy": (c_size_t, [POINTER(Handle), c_uint64, c_void_p, c_size_t]),
    "histdesk_event_at": (c_uint32, [POINTER(Handle), c_uint32, c_uint32, c_void_p]),
    "histdesk_events": (c_uint32, [POINTER(Handle), POINTER(c_uint64)]),
    "histdesk_lane": (c_uint32, [POINTER(Handle), c_uint32, c_uint32, POINTER(c_uint64)]),
    "histdesk_matching": (c_uint32, [POINTER(Handle), c_uint32, c_void_p, c_size_t, POINTER(c_uint64)]),
    "histdesk_places_copy": (c_size_t, [POINTER(Handle), c_uint64, c_void_p, c_size_t]),
    "histdesk_events_copy": (c_size_t, [POINTER(Handle), c_uint64, c_void_p, c_size_t]),
    "histdesk_lines": (c_uint32, [POINTER(Handle), c_void_p, c_size_t, POINTER(c_uint64)]),
    "histdesk_lines_copy": (c_size_t, [POINTER(Handle), c_uint64, c_void_p, c_size_t]),
    "histdesk_losses": (c_uint32, [POINTER(Handle), c_void_p, c_size_t, POINTER(LossesRead)]),
    "histdesk_losses_copy": (c_size_t, [POINTER(Handle), c_uint64, c_void_p, c_size_t]),
    "histdesk_forget": (None, [POINTER(Handle)]),
    "histdesk_waits_new": (c_uint32, [POINTER(Handle), c_bool]),
    "histdesk_waits_part": (c_uint32, [POINTER(Handle), c_bool]),
    "histdesk_waits_join": (c_uint32, [POINTER(Handle), POINTER(Handle), POINTER(c_uint64)]),
    "histdesk_waits_without": (c_uint32, [POINTER(Handle), c_uint32, c_void_p, c_size_t]),
    "histdesk_waits_sum_up": (c_uint32, [POINTER(Handle)]),
    "histdesk_waits_feed": (c_uint32, [POINTER(Handle), c_void_p, c_size_t, POINTER(c_uint64)]),
    "histdesk_waits_finish": (c_uint32, [POINTER(Handle), POINTER(WaitsRead), POINTER(c_uint64)]),
    "histdesk_waits_copy": (c_size_t, [POINTER(Handle), c_uint64, c_void_p, c_size_t]),
    "histdesk_waits_holes": (c_size_t, [POINTER(Handle), c_uint64, c_void_p, c_size_t]),
    "histdesk_waits_left_out": (c_size_t, [POINTER(Handle), c_uint64, c_void_p, c_size_t]),
    "histdesk_waits_tasks": (c_size_t, [POINTER(Handle), c_uint64, c_void_p, c_size_t]),
    "histdesk_waits_cpus": (c_size_t, [POINTER(Handle), c_uint64, c_void_p, c_size_t]),
    "histdesk_waits_events": (c_size_t, [POINTER(Handle), c_uint64, c_void_p, c_size_t]),
    "histdesk_waits_last": (c_uint32, [POINTER(Handle), POINTER(c_uint64), POINTER(c_bool)]),
    "histdesk_waits_held": (c_uint32, [POINTER(Handle), POINTER(c_uint64)]),
    "histdesk_waits_doubt": (c_uint32, [POINTER(Handle), c_void_p, c_size_t]),
    "histdesk_waits_refused": (c_uint32, [POINTER(Handle), POINTER(Refusal)]),
    "histdesk_waits_free": (None, [POINTER(Handle)]),
    "histdesk_refused": (c_uint32, [POINTER(Handle), POINTER(Refusal)]),
    "histdesk_refusal_text": (c_size_t, [POINTER(Refusal), c_void_p, c_size_t]),
    "histdesk_refusal_words": (c_size_t, [POINTER(Refusal), c_void_p, c_size_t]),
}
