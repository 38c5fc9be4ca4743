#!/usr/bin/env python3
"""Checks that from-perf and from-trace-cmd tell what recordings know of losses, and of whose numbers they have.

    losses_told.py TOOLS

TOOLS is the folder of the scripts. Recordings of perf are written by hand, and programs stand in for perf and trace-cmd, so it
is known what was lost, and of which task each event is. The last line says how many of how many things hold."""

import os
import struct
import subprocess
import sys
import tempfile
from typing import Dict, List, NamedTuple, Tuple

# Nothing is written beside the sources.
sys.dont_write_bytecode = True

TOOLS = os.path.realpath(sys.argv[1])
sys.path.insert(0, os.path.join(os.path.dirname(TOOLS), "python"))

from checks import check, finish
from histdesk.convert import perf_data

LIMIT = 100
# What the samples have: IP, TID, TIME, CPU, PERIOD, RAW and IDENTIFIER, as perf asks for.
SAMPLE = 1 << 16 | 1 << 10 | 1 << 8 | 1 << 7 | 1 << 2 | 1 << 1 | 1 << 0
# The numbers of records and of an event, and where it has the task that a switch leaves.
SAMPLES, LOST_SAMPLES, COMM, ID_INDEX = 9, 13, 3, 69
SWITCH, PREV_PID = 300, 24


class Turned(NamedTuple):
    """What a tool writes on standard output and on standard error, and its status."""

    trace: str
    said: str
    status: int


def run(tool: str, path: str, programs: str = "", text: str = "") -> Turned:
    """Return what a converter makes of a recording or a text, with the programs in a folder."""
    environ = {**os.environ, "PATH": f"{programs}:{os.environ['PATH']}"}
    words = [os.path.join(TOOLS, tool), path]
    ran = subprocess.run(words, input=text, capture_output=True, timeout=LIMIT, env=environ, encoding="latin-1")
    return Turned(ran.stdout, ran.stderr, ran.returncode)


def program(folder: str, name: str, lines: List[str]) -> str:
    """Make a program of that name from lines of bash, and return the folder."""
    path = os.path.join(folder, name)
    with open(path, "w", encoding="ascii") as file:
        file.write("\n".join(["#!/bin/bash", *lines, ""]))
    os.chmod(path, 0o755)
    return folder


# ---- recordings of perf


def record(kind: int, content: bytes) -> bytes:
    return struct.pack("<IHH", kind, 0, 8 + len(content)) + content


def sample(task: int, left: int, number: int = SWITCH, calls: bool = False) -> bytes:
    """Return a sample of an event, by a task, that has the number of a task where a switch has it."""
    raw = struct.pack("<H", number).ljust(PREV_PID, b"\xff") + struct.pack("<i", left) + b"\xff" * 36
    chain = struct.pack("<3Q", 2, 1, 1) if calls else b""
    front = struct.pack("<QQiiQIIQ", 1, 2, 3, task, 4, 5, 6, 7)
    return record(SAMPLES, front + chain + struct.pack("<I", len(raw)) + raw)


def lost(number: int, count: int) -> bytes:
    return record(LOST_SAMPLES, struct.pack("<QiiQIIQ", count, 0, 0, 0, 0, 0, number))


def cpus(numbers: Dict[int, int]) -> bytes:
    """Return the record that says which CPU each number is of."""
    entries = [struct.pack("<4Q", number, 0, cpu, (1 << 64) - 1) for number, cpu in numbers.items()]
    # Newer versions of perf add two words for each entry.
    more = struct.pack("<4Q", 8, 0, 5, 0) * (len(entries) // 2)
    return record(ID_INDEX, struct.pack("<Q", len(entries)) + b"".join(entries) + more)


def write(path: str, data: bytes, flags: int = 0, samples: Tuple[int, ...] = (SAMPLE,), pipe: bool = False) -> str:
    """Write a recording of perf with an attribute for each of `samples`, and one of perf's own; return its path."""
    kinds = [(2, one, flags) for one in samples] + [(1, 1, 1 << 27)]
    attributes = [struct.pack("<IIQQQQQ", kind, 128, 1, 1, one, 0, flags).ljust(144, b"\0") for kind, one, flags in kinds]
    size, at = (16 if pipe else 104), 104 + 144 * len(kinds)
    head = struct.pack("<8s8Q4Q", b"PERFILE2", size, 144, 104, 144 * len(kinds), at, len(data), 0, 0, 0, 0, 0, 0)
    with open(path, "wb") as file:
        file.write(head + b"".join(attributes) + data)
    return path


# Two CPUs: what perf prints of them, and the lines of a trace.
PRINTED = """\
               a     1 [001]     1.000000100:          sched:sched_waking: comm=b pid=2 prio=120 target_cpu=001
               c     3 [000]     1.000001000: PERF_RECORD_LOST lost 5
               c     3 [000]     1.000002100:          sched:sched_waking: comm=b pid=2 prio=120 target_cpu=001
               a     1 [001]     1.000003100:          sched:sched_waking: comm=b pid=2 prio=120 target_cpu=001
"""
FRONTS = ["a-1 [001] 1.000000", "c-3 [000] 1.000002", "a-1 [001] 1.000003"]
LINES = [f"{front}: sched_waking: comm=b pid=2 prio=120 target_cpu=001" for front in FRONTS]
LOSS = "CPU:0 [LOST 5 EVENTS]"


def check_perf(folder: str) -> None:
    """Check what is told of recordings of perf."""
    with open(os.path.join(folder, "printed"), "w", encoding="ascii") as file:
        file.write(PRINTED)
    programs = program(folder, "perf", [f"cat '{folder}/printed'"])
    path, index = os.path.join(folder, "perf.data"), cpus({7: 0, 8: 1, 9: 0})
    plain = [LINES[0], LOSS, *LINES[1:]]
    starts = ["##### CPU {} buffer started ####".format(cpu) for cpu in range(2)]
    backward = [starts[1], LINES[0], LOSS, starts[0], *LINES[1:]]
    comm, ends = record(COMM, b"\0" * 40), ["CPU:0 [LOST 6 EVENTS]", "CPU:1 [LOST 3 EVENTS]"]
    for what, data, flags, wanted in (
        ("nothing more", index, 0, plain),
        ("oldest events are overwritten", index, 1 << 27, backward),
        # Of CPU 0, perf has reported 5 of 11, so 6 were lost at its end; of CPU 1, none.
        ("lost at the end", index + lost(7, 4) + lost(8, 3) + lost(9, 7), 0, [*plain, *ends]),
        ("all is reported", index + lost(7, 2) + lost(9, 3), 0, plain),
        ("other records after that", lost(7, 11) + comm + index, 0, [*plain, ends[0]]),
        ("like such a record in another one", index + record(COMM, lost(7, 11)[8:] + lost(7, 11) + b"\0" * 8), 0, plain),
        ("a number of no CPU", index + lost(6, 11), 0, plain),
        ("too short", index + lost(7, 11)[:-8], 0, plain),
    ):
        found = run("from-perf", write(path, data, flags), programs)
        check(found.status == 0 and found.trace.splitlines() == wanted, f"{what}: {found}")
    found = run("from-perf", write(path, index + lost(8, 3)), programs)
    check("8 events were lost at 2 places (CPU 0, CPU 1)" in found.said, f"the sum of what was lost: {found.said}")
    found = run("from-perf", write(path, index + lost(7, 11), 1 << 27, pipe=True), programs)
    check(found.trace.splitlines() == plain, f"recorded into a pipe: {found}")


def check_switches(folder: str) -> None:
    """Check which tasks switches are found to have."""
    path = os.path.join(folder, "switches.data")
    data = record(COMM, b"\0" * 40) + sample(1, 2) + sample(3, 4, 301) + sample(-1, 5) + sample(0, 0)
    found = perf_data.switched(write(path, data), SWITCH, PREV_PID)
    check(found == [(1, 2), (-1, 5), (0, 0)], f"switches: {found}")
    found = perf_data.switched(write(path, sample(1, 2, calls=True), samples=(SAMPLE | 1 << 5,)), SWITCH, PREV_PID)
    check(found == [(1, 2)], f"switches with call chains: {found}")
    found = perf_data.switched(write(path, sample(1, 2) * 2000), SWITCH, PREV_PID)
    check(len(found) == 1000, f"{len(found)} of many switches")
    found = perf_data.switched(write(path, sample(1, 2) + sample(3, 4)[:-1]), SWITCH, PREV_PID)
    check(found == [(1, 2)], f"a torn switch: {found}")
    for what, data, samples in (
        ("no samples", b"", (SAMPLE,)),
        ("samples of two layouts", sample(1, 2), (SAMPLE, SAMPLE | 1 << 5)),
        ("values that are read with samples", sample(1, 2), (SAMPLE | 1 << 4,)),
        ("samples without a task", sample(1, 2), (SAMPLE & ~2,)),
    ):
        try:
            told = str(perf_data.switched(write(path, data, samples=samples), SWITCH, PREV_PID))
        except perf_data.Unknown:
            told = ""
        check(not told, f"{what}: {told}")


# ---- numbers of a container

# Tasks by the machine's number: a name, and the number in the container. What isn't in it has 0 there.
TASKS = {0: ("swapper/1", 0), 70: ("in", 1), 71: ("in too", 2), 80: ("out", 0)}


def switch_of(cpu: int, micros: int, left: int, next_one: int, is_own: bool) -> str:
    front = f"prev_comm={TASKS[left][0]} prev_pid={left} prev_prio=120 prev_state=S"
    fields = f"{front} ==> next_comm={TASKS[next_one][0]} next_pid={next_one} next_prio=120"
    return printed(cpu, micros, left, "sched:sched_switch", fields, is_own)


def waking_by(cpu: int, micros: int, task: int, is_own: bool) -> str:
    return printed(cpu, micros, task, "sched:sched_waking", "comm=in pid=70 prio=120 target_cpu=001", is_own)


def printed(cpu: int, micros: int, task: int, event: str, fields: str, is_own: bool) -> str:
    """Return what perf prints of an event of a task, with the machine's number or that of the container."""
    name, number = (TASKS[task][0], task) if is_own else (TASKS[task][0] if TASKS[task][1] else "swapper", TASKS[task][1])
    return f"{name:>16} {number:5} [{cpu:03}] {1:5}.{micros:06}000: {event:>24}: {fields}\n"


def text_of(is_own: bool, rounds: int = 20) -> str:
    """Return what perf prints of two CPUs, on which tasks run in turn and wake others, and events are lost once."""
    text, at = waking_by(1, 1, 80, is_own), 2
    for turn in range(rounds):
        for left, next_one in ((80, 70), (70, 0), (0, 71), (71, 80)):
            text += switch_of(1, at, left, next_one, is_own) + waking_by(1, at + 1, next_one, is_own)
            at += 2
        if turn == rounds // 2:
            text += printed(1, at, 80, "PERF_RECORD_LOST lost 3", "", is_own).replace(": \n", "\n")
            text += waking_by(1, at + 1, 71, is_own) + switch_of(1, at + 2, 71, 80, is_own)
            at += 3
    return text + switch_of(0, at, 80, 71, is_own) + waking_by(0, at + 1, 71, is_own)


def check_container() -> None:
    """Check that events of a container's perf get the numbers of the machine, as far as switches tell them."""
    own, strange = run("from-perf", "-", text=text_of(True)), run("from-perf", "-", text=text_of(False))
    wanted, found = own.trace.splitlines(), strange.trace.splitlines()
    # Before its first switch, and after a loss, it isn't known what a CPU runs.
    for at, task in ((0, "out-80"), (wanted.index("CPU:1 [LOST 3 EVENTS]") + 1, "in too-71")):
        check(wanted[at].startswith(f"{task} [001]"), f"line {at}: {wanted[at]}")
        wanted[at] = wanted[at].replace(task, "<...>-0", 1)
    check(found == wanted and len(found) == len(text_of(True).splitlines()), f"tasks: {found[:9]}, not {wanted[:9]}")
    check(strange.status == 0 and strange.said.count("\n") == 2, f"status {strange.status}, {strange.said}")
    check("from-perf: its numbers of tasks are those of a container: " in strange.said, f"what is said: {strange.said}")
    check("container" not in own.said, f"what is said of the machine's own numbers: {own.said}")
    few = run("from-perf", "-", text=text_of(False, 2))
    check("container" not in few.said and "in-1 [001]" in few.trace, f"a few switches: {few}")
    exited = text_of(True).replace("              in    70 [001]", "             :-1    -1 [001]")
    check("container" not in run("from-perf", "-", text=exited).said, "tasks that have exited are those of a container")


# ---- recordings of trace-cmd

REPORTED = """\
cpus=2
               a-1     [001]     1.000000100: sched_waking:         comm=b pid=2 prio=120 target_cpu=001
CPU:0 [5 EVENTS DROPPED]
               c-3     [000]     1.000002100: sched_waking:         comm=b pid=2 prio=120 target_cpu=001
"""
LATENCY = """\
       a-1       1d..2.     1.000000100: sched_waking:         comm=b pid=2 prio=120 target_cpu=001
       c-3       0d..2.     1.000002100: sched_waking:         comm=b pid=2 prio=120 target_cpu=001
"""
COUNTS = "CPU: {}\nentries: {}\noverrun: {}\ncommit overrun: {}\nbytes: 9\ndropped events: {}\nread events: {}\n"


def check_trace_cmd(folder: str) -> None:
    """Check what is told of events that a recording of trace-cmd doesn't have, though the kernel has counted them."""
    for name, text in {"reported": REPORTED, "latency": LATENCY}.items():
        with open(os.path.join(folder, name), "w", encoding="ascii") as file:
            file.write(text)
    path = os.path.join(folder, "trace.dat")
    with open(path, "wb") as file:
        file.write(b"\x17\x08\x44tracing6\0")
    texts = (
        f"case $* in *--stat*) cat '{folder}/stat' ;; *' -l '*) cat '{folder}/latency' ;; *) cat '{folder}/reported' ;; esac"
    )
    programs = program(folder, "trace-cmd", [texts])
    said = "from-trace-cmd: {} events are missing, and trace-cmd doesn't say where: no wait is sure\n"
    for what, counts, missing in (
        ("none", [(0, 1, 5, 0, 0, 0), (1, 0, 0, 0, 0, 1)], 0),
        ("read, but not written", [(0, 1, 5, 0, 0, 0), (1, 0, 0, 0, 0, 8)], 7),
        ("overwritten without a line", [(0, 1, 9, 0, 0, 0), (1, 0, 0, 0, 0, 1)], 4),
        ("dropped", [(0, 1, 5, 0, 2, 0), (1, 0, 0, 1, 0, 1)], 3),
        ("no counts", [], 0),
    ):
        with open(os.path.join(folder, "stat"), "w", encoding="ascii") as file:
            file.write("\n".join(COUNTS.format(*one) for one in counts))
        found = run("from-trace-cmd", path, programs)
        lines, wanted = found.trace.splitlines(), ["# cpus=2", "a-1", "CPU:0 [LOST 5 EVENTS]", "c-3"]
        # Nothing is missing before the first event of CPU 1.
        wanted += ["# CPU 1: 0 events overwritten"] * (what == "none")
        if missing:
            wanted += [f"# {missing} events are missing, at any time and on any CPU", f"CPU:8191 [LOST {missing} EVENTS]"]
        is_good = [line.split(" ")[0] if "sched_" in line else line for line in lines] == wanted
        check(found.status == 0 and is_good, f"trace-cmd, {what}: {found}")
        check((said.format(missing) in found.said) == bool(missing), f"trace-cmd, {what}: {found.said}")


with tempfile.TemporaryDirectory() as made:
    check_perf(made)
    check_switches(made)
    check_container()
    check_trace_cmd(made)
finish()
