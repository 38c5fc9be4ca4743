#!/usr/bin/env python3
"""Hands made-up events to perf_filter.so, as perf does, and looks at what it makes of them.

    filtered.py TOOLS

TOOLS is the folder of the tools; helpers/perf_filter.c is compiled here. The events have short structs, as those of an older
perf, raw bytes that end early or are of another kind, numbers at their limits, odd names, and tasks that are gone. What this
machine lacks is not tried, and a line says so. The last line says how many of how many things hold."""

import ast
import ctypes
import io
import os
import struct
import subprocess
import sys
import tempfile
from typing import Any, Dict, List, Tuple

# Nothing is written beside the sources.
sys.dont_write_bytecode = True

TOOLS = os.path.realpath(sys.argv[1])
FILTER = os.path.join(os.path.dirname(TOOLS), "helpers", "perf_filter.c")
sys.path.insert(0, os.path.join(os.path.dirname(TOOLS), "python"))

from checks import check, finish
from histdesk.convert import blocks as block_format

WORDS = [b"sched_waking:7:36:0:8,24,28,32,-1", b"sched_switch:9:64:8:8,24,28,32,40,56,60", b"states:255:256:1=S,2=D"]
WORDS += [
    b"other:sched:sched_stat_runtime:11:24:comm=%t8.4; pid=%d12.4; runtime=%u16.8; [ns]",
    b"other:irq:irq_handler_entry:12:40:irq=%d8.8; name=%s16.16; at=0x%x32.8;",
    b"other:irq:plain:13:8:",
]
WAKING, SWITCH = b"sched:sched_waking", b"sched:sched_switch"
RUNTIME, IRQ = b"sched:sched_stat_runtime", b"irq:irq_handler_entry"
# What perf prints for an event that is left to it.
PRINTED = b"perf's own line\n"


class Sample(ctypes.Structure):
    """perf's struct of an event."""

    _fields_ = [
        *(("size", ctypes.c_uint32), ("ins_lat", ctypes.c_uint16), ("p_stage_cyc", ctypes.c_uint16), ("ip", ctypes.c_uint64)),
        *(("pid", ctypes.c_int32), ("tid", ctypes.c_int32), ("time", ctypes.c_uint64), ("numbers", ctypes.c_uint64 * 8)),
        *(("cpu", ctypes.c_int32), ("flags", ctypes.c_uint32), ("more", ctypes.c_uint64 * 5), ("modes", ctypes.c_uint32)),
        *(("raw_size", ctypes.c_uint32), ("raw_data", ctypes.c_char_p), ("stacks", ctypes.c_uint64 * 4)),
        *(("event", ctypes.c_char_p), ("machine_pid", ctypes.c_int32), ("vcpu", ctypes.c_int32)),
    ]


class Location(ctypes.Structure):
    """perf's struct of where an event was, from which the filter takes the task's name."""

    _fields_ = [("size", ctypes.c_uint32), ("symoff", ctypes.c_uint32), ("more", ctypes.c_uint64 * 5)]
    _fields_ += [("bits", ctypes.c_uint32), ("buildid_size", ctypes.c_uint32), ("buildid", ctypes.c_char_p)]
    _fields_ += [("filtered", ctypes.c_uint64), ("comm", ctypes.c_char_p)]


def waking(comm: bytes = b"w", pid: int = 7, prio: int = 120, cpu: int = 1, number: int = 7) -> bytes:
    return struct.pack("<HHi16siii", number, 0, 0, comm, pid, prio, cpu)


def switch(comm: bytes = b"p", state: int = 1, next_comm: bytes = b"n", pid: int = 5, next_pid: int = 6) -> bytes:
    return struct.pack("<HHi16siiq16sii", 9, 0, 0, comm, pid, 120, state, next_comm, next_pid, 100)


def runtime(comm: bytes = b"w\0", pid: int = 7, nanos: int = 1234, number: int = 11, at: int = 24) -> bytes:
    return struct.pack("<HHiIiQ", number, 0, 0, at | len(comm) << 16, pid, nanos) + comm


def irq(number: int = 1, name: bytes = b"disk", at: int = 0) -> bytes:
    return struct.pack("<HHiq16sQ", 12, 0, 0, number, name, at)


Event = Dict[str, Any]


def event(raw: bytes, name: bytes = WAKING, **more: Any) -> Event:
    """Return an event; `more` says how it differs from a good one, `task` and `place` what perf tells of its task, and `said`
    what perf prints before it."""
    return {
        "raw": raw,
        "event": name,
        "tid": 3,
        "cpu": 2,
        "time": 1_000_000_500,
        "task": b"t",
        "size": ctypes.sizeof(Sample),
        **more,
    }


def run_child(path: str, words: List[bytes], events: List[Event]) -> None:
    """Call the filter as perf does, and write each answer to standard error."""
    library = ctypes.CDLL(path)
    functions = (ctypes.c_void_p * 128).in_dll(library, "perf_dlfilter_fns")
    library_c = ctypes.CDLL(None)
    place = Location()
    kept = [ctypes.create_string_buffer(word) for word in words]
    told = (ctypes.c_void_p * len(words))(*map(ctypes.addressof, kept))

    def args(_: Any, count: Any) -> int:
        count[0] = len(words)
        return ctypes.addressof(told)

    calls = [
        ctypes.CFUNCTYPE(ctypes.c_void_p, ctypes.c_void_p)(lambda _: ctypes.addressof(place) if place.comm else None),
        ctypes.CFUNCTYPE(ctypes.c_void_p, ctypes.c_void_p, ctypes.POINTER(ctypes.c_int))(args),
    ]
    functions[0], functions[2] = (ctypes.cast(call, ctypes.c_void_p).value for call in calls)
    started = library.start(None, None)
    print(started, file=sys.stderr)
    for one in events if started == 0 else []:
        place.size, place.comm = one.get("place", ctypes.sizeof(Location)), one["task"]
        raw, left = one["raw"], {name: value for name, value in one.items() if name not in ("raw", "task", "place", "said")}
        library_c.printf(one.get("said", b""))
        answer = library.filter_event_early(None, ctypes.byref(Sample(raw_data=raw, raw_size=len(raw), **left)), None)
        print(answer, file=sys.stderr, flush=True)
        if answer == 0:
            library_c.printf(PRINTED)
    if started == 0:
        print(library.stop(None, None), file=sys.stderr)


def filtered(path: str, words: List[bytes], events: List[Event]) -> Tuple[List[int], List[Tuple[bytes, bytes]]]:
    """Return what the filter answers at its start, for each event and at its end, and the blocks that it writes."""
    ran = subprocess.run(
        [sys.executable, __file__, TOOLS, path], input=repr((words, events)).encode(), capture_output=True, timeout=100
    )
    answers = [int(line) for line in ran.stderr.split()] if ran.returncode == 0 else [ran.returncode]
    try:
        blocks = [(what, bytes(text)) for what, text, _ in block_format.blocks(io.BytesIO(ran.stdout), None)]
    except block_format.Unfit:
        blocks = []
    return answers, blocks


def line(fields: bytes, task: bytes = b"t-3", cpu: int = 2, name: bytes = b"sched_waking") -> bytes:
    return b"%s [%03d] 1.000001: %s: %s\n" % (task, cpu, name, fields)


WOKEN = b"comm=w pid=7 prio=120 target_cpu=001"
LEFT = b"prev_comm=p prev_pid=5 prev_prio=120 prev_state=%s ==> next_comm=n next_pid=6 next_prio=100"
# Events, each with the line that the filter makes of it.
GOOD = [
    (event(waking()), line(WOKEN)),
    (event(switch(), SWITCH), line(LEFT % b"S", name=b"sched_switch")),
    (event(switch(state=0x103), SWITCH), line(LEFT % b"S|D+", name=b"sched_switch")),
    (event(switch(state=0), SWITCH), line(LEFT % b"R", name=b"sched_switch")),
    (event(waking(), size=200), line(WOKEN)),
    (event(waking(b"a b:1/x"), task=b"a-b c"), line(WOKEN.replace(b"=w", b"=a b:1/x"), b"a-b c-3")),
    (event(waking(pid=-5, prio=-1)), line(WOKEN.replace(b"=7", b"=-5").replace(b"=120", b"=-1"))),
    (event(waking(), cpu=7999), line(WOKEN, cpu=7999)),
    (event(switch(), SWITCH, tid=-1), line(LEFT % b"S", b"p-5", name=b"sched_switch")),
    (event(waking(), task=b"x" * 30), line(WOKEN, b"x" * 30 + b"-3")),
    (event(waking() + bytes(4)), line(WOKEN)),
    # Other kinds of events.
    (event(runtime(), RUNTIME), line(b"comm=w pid=7 runtime=1234 [ns]", name=b"sched_stat_runtime")),
    (event(runtime(pid=-5), RUNTIME), line(b"comm=w pid=-5 runtime=1234 [ns]", name=b"sched_stat_runtime")),
    (
        event(runtime(b"=> [x] \0", -(1 << 31), (1 << 64) - 1), RUNTIME),
        line(b"comm==> [x]  pid=-2147483648 runtime=18446744073709551615 [ns]", name=b"sched_stat_runtime"),
    ),
    (
        event(runtime(b"x" * 64 + b"\0"), RUNTIME),
        line(b"comm=%b pid=7 runtime=1234 [ns]" % (b"x" * 64), name=b"sched_stat_runtime"),
    ),
    (event(runtime(b"\0"), RUNTIME), line(b"comm= pid=7 runtime=1234 [ns]", name=b"sched_stat_runtime")),
    (event(irq(), IRQ), line(b"irq=1 name=disk at=0x0", name=IRQ)),
    (
        event(irq(-(1 << 63), b"x" * 16, 0xFEDCBA9876543210), IRQ),
        line(b"irq=-9223372036854775808 name=%b at=0xfedcba9876543210" % (b"x" * 16), name=IRQ),
    ),
    (event(struct.pack("<HHi", 13, 0, 0), b"irq:plain"), line(b"", name=b"irq:plain")),
]
# These are left to perf.
OTHER = [
    event(waking()[:35]),
    event(b""),
    event(waking(number=8)),
    event(waking(), b"sched:sched_wakeup"),
    event(waking(), b"irq:irq_handler_entry"),
    event(waking(), None),
    event(waking(), cpu=-1),
    event(waking(), cpu=8000),
    event(waking(), tid=-2),
    event(waking(), tid=-1),
    event(waking(), tid=2_000_000_000),
    event(waking(), time=(1 << 64) - 1),
    event(waking(), task=None),
    event(waking(), place=64),
    event(waking(), machine_pid=5),
    event(waking(), task=b"x" * 31),
    event(waking(), task=b""),
    event(waking(pid=1_000_000_000)),
    event(waking(cpu=-1)),
    event(switch(state=0x40), SWITCH),
    *(event(waking(comm)) for comm in (b"", b" a", b"a ", b"a\nb", b"a[", b"a=b", b"a>", b"#", b"\xe9", b'"', b"x" * 16)),
    *(event(switch(next_comm=comm), SWITCH) for comm in (b"a ==> b", b"x" * 16)),
    *(event(runtime(comm), RUNTIME) for comm in (b"a\nb\0", b"\xe9\0", b"\x7f\0", b"x" * 65 + b"\0")),
    event(runtime(number=12), RUNTIME),
    event(runtime()[:23], RUNTIME),
    event(runtime(at=25), RUNTIME),
    event(runtime(at=65535), RUNTIME),
    event(runtime(), RUNTIME, tid=-1),
    event(runtime(), b"sched_stat_runtime"),
    event(runtime(), b"other:sched_stat_runtime"),
    event(irq(name=b"a\tb"), IRQ),
]


def check_events(path: str) -> None:
    """Check that good events are converted and compared, and that others are left to perf."""
    for one, wanted in GOOD:
        answers, blocks = filtered(path, WORDS, [one])
        found = [text for what, text in blocks if what == b"A"]
        check(answers == [0, 0, 0] and found == [wanted], f"{one}: {answers}, {blocks}")
    for one in OTHER:
        answers, blocks = filtered(path, WORDS, [one])
        check(answers == [0, 0, 0] and [what for what, text in blocks if text] == [b"T"], f"{one}: {answers}, {blocks}")
    for size in (0, 8, 199):
        answers, _ = filtered(path, WORDS, [event(waking(), size=size)])
        check(answers[:2] == [0, -1], f"a struct of {size} bytes: {answers}")


def check_stream(path: str) -> None:
    """Check that the first events are compared, and then one of many; that what is left to perf stands in its place; that a
    task that is gone is the one to which its CPU has switched; and that all events are left to perf for a while if most are."""
    many = [event(waking())] * 4200
    answers, blocks = filtered(path, WORDS, many)
    compared = [at for at, answer in enumerate(answers[1:-1]) if answer == 0]
    check(compared == [*range(64), 4095], f"compared are {compared}")
    lines = b"".join(text for what, text in blocks if what in (b"L", b"A"))
    check(lines == line(WOKEN) * 4200, f"{len(lines)} bytes of lines")
    gone = [*[event(switch(), SWITCH)] * 65, event(waking(), tid=-1), event(waking(), tid=-1, cpu=3)]
    answers, blocks = filtered(path, WORDS, gone)
    found = [text for what, text in blocks if what == b"A"][-1:]
    check(found == [line(WOKEN, b"n-6")] and answers[-2] == 0, f"a task that is gone: {found}")
    answers, blocks = filtered(path, WORDS, [event(runtime(), RUNTIME), event(irq(), IRQ)] * 2100)
    compared = [at for at, answer in enumerate(answers[1:-1]) if answer == 0]
    check(compared == list(range(128)), f"of other kinds are compared {compared}")
    gone = [*[event(switch(), SWITCH)] * 65, event(runtime(), RUNTIME, tid=-1)]
    found = [text for what, text in filtered(path, WORDS, gone)[1] if what == b"A"][-1:]
    check(
        found == [line(b"comm=w pid=7 runtime=1234 [ns]", b"n-6", name=b"sched_stat_runtime")], f"a task that is gone: {found}"
    )
    check_unknown(path)
    mixed = [event(waking(), b"irq:x" if at % 4 else WAKING) for at in range(3000)]
    answers, blocks = filtered(path, WORDS, mixed)
    check(sum(answers[1000:1024]) > 0 and sum(answers[1030:]) == 0, f"many are left to perf: {sum(answers)} are not")
    check(sum(text.count(PRINTED) for what, text in blocks if what == b"T") == answers[1:-1].count(0), "perf's lines are lost")


def check_unknown(path: str) -> None:
    """Check when it is known which task a CPU runs, also if the numbers of all events are those of another PID namespace."""
    to_n, odd = event(switch(), SWITCH, tid=99), event(switch(next_comm=b"a ==> b"), SWITCH, tid=99)
    for what, before, more, is_known in (
        ("a switch", [to_n], {}, True),
        ("nothing", [], {}, False),
        ("a switch of another CPU", [{**to_n, "cpu": 3}], {}, False),
        ("a switch that is left to perf", [to_n, odd], {}, False),
        ("a switch that isn't read", [to_n, event(switch()[:63], SWITCH, tid=99)], {}, False),
        ("an event that is left to perf", [to_n, event(waking(b"a["), cpu=3)], {}, True),
        ("perf's words", [to_n], {"said": b"some words\n"}, True),
        ("lost events", [to_n], {"said": b" a 1 [003] 1.0: PERF_RECORD_LOST lost 3\n"}, False),
    ):
        wanted = [line(WOKEN, b"n-6")] if is_known else []
        for words, tid in ((WORDS, -1), ([*WORDS, b"strange"], 99), ([*WORDS, b"strange"], -1)):
            _, blocks = filtered(path, words, [*before, event(waking(), tid=tid, **more)])
            found = [text for what, text in blocks if what == b"A" and text.endswith(WOKEN + b"\n")]
            check(found == wanted, f"after {what}: {found}, by {words[-1]!r} and task {tid}")
    _, blocks = filtered(path, [*WORDS, b"strange"], [to_n])
    found = [text for what, text in blocks if what == b"A"]
    check(found == [line(LEFT % b"S", b"p-5", name=b"sched_switch")], f"a switch of another number: {found}")


# Arguments that the filter refuses.
BAD = [
    b"",
    b"x",
    b"strange:1",
    b"other:1",
    b"states:1",
    b"states:1:2:3",
    b"states:1:2:1=toolongname",
    b"states:1:2:" + b"1=S," * 30,
]
BAD += [b"sched_waking:7", b"sched_waking:7:36:0", b"sched_waking:7:36:0:8,24,28", b"sched_waking:7:36:0:8,24,28,32,-1,5"]
BAD += [
    b"sched_waking:7:36:0:8,24,28,33,-1",
    b"sched_waking:7:36:0:-1,24,28,32,-1",
    b"sched_waking:7:99999:0:90000,24,28,32,-1",
]
BAD += [b"sched_switch:9:64:2:8,24,28,32,40,56,60", b"memory:99:98", b"memory:0:0", b"memory:1"]
BAD += [b"other:" + word for word in (b"", b"a", b"a:b", b"a:b:1", b"a:b:1:24", b"a:b:1:1:", b"a:%b:1:24:x" % (b"b" * 48))]
BAD += [
    b"other:a:b:1:24:" + text
    for text in (b"%", b"%d", b"%d8", b"%d8.4", b"%d8.2;", b"%q8.4;", b"%t8.8;", b"%d21.4;", b"%s8.17;", b"%d-1.4;", b"%d8.-4;")
]
BAD += [b"other:a:b:1:24:" + text for text in (b"%d8.4;" * 17, b"x" * 321, b"x" * 301 + b"%d8.4;", b"x" * 257 + b"%s8.4;")]


def main() -> None:
    with tempfile.TemporaryDirectory() as folder:
        path = os.path.join(folder, "perf_filter.so")
        words = ["cc", "-std=c11", "-O1", "-fPIC", "-shared", "-Wall", "-Wextra", "-Werror", "-pedantic", "-o", path]
        try:
            made = subprocess.run([*words, FILTER], capture_output=True)
        except FileNotFoundError:
            print("not tried: perf's filter: no compiler")
            return
        if b"perf_dlfilter.h: No such file" in made.stderr:
            print("not tried: perf's filter: no header of perf")
            return
        check(made.returncode == 0 and not made.stderr, f"not compiled: {made.stderr.decode()}")
        check_events(path)
        check_stream(path)
        for word in BAD:
            answers, _ = filtered(path, [*WORDS, word], [])
            check(answers == [-1], f"{word!r} is taken: {answers}")


if len(sys.argv) > 2:
    run_child(sys.argv[2], *ast.literal_eval(sys.stdin.read()))
else:
    main()
    finish()
