#!/usr/bin/env python3
"""Prints how the time of a program grows with hostile input, for hostile.sh, which says what is printed.

    hostile.py PROGRAM FOLDER
"""

import os
import resource
import subprocess
import sys

TIMES = 3
SAVER = "attach sched_waking hist:keys=pid:ts0=common_timestamp.usecs"
READER = "attach sched_switch hist:keys=next_pid:vals=$lat:lat=common_timestamp.usecs-$ts0"
PAIR = [SAVER, READER]
MAKER = f"{READER}:onmatch(sched.sched_waking).wakeup_latency($lat,next_pid,next_prio)"
MADE = "attach wakeup_latency hist:keys=pid"
PACKAGE = os.path.join(os.path.dirname(os.path.realpath(__file__)), "..", "python")


def stamp(micros):
    return f"{micros // 10**6}.{micros % 10**6:06}"


def waking(micros, pid, comm="w", cpu=0):
    return f" sim-1 [{cpu:03}] d.h.. {stamp(micros)}: sched_waking: comm={comm} pid={pid} prio=120 target_cpu=000"


def switch(micros, pid, cpu=0):
    said = "prev_comm=sim prev_pid=1 prev_prio=120 prev_state=S ==> next_comm=w"
    return f" sim-1 [{cpu:03}] d.h.. {stamp(micros)}: sched_switch: {said} next_pid={pid} next_prio=120"


# Each of these returns, for a size: a script that is measured, one whose time is subtracted, and the traces of both.


def filtered(text, events=2000, again=100):
    """The filter given again and again, against one that looks once at each event."""
    front = ["load @1", "attach sched_waking hist:keys=pid"]
    trace = [waking(n, 5, "a" * 31) for n in range(events)]
    return front + [f"filter 1 if {text}"] * again, front + ["filter 1 if pid<0"] * again, trace


def operands(count):
    """Return so many operands on 32 levels, each of which is looked at."""
    text = ""
    for level in range(33):
        text = "&&".join(["pid<9"] * ((count + level) // 33) + [f"({text})"] * (level > 0))
    return text


def refused(text, count=2000):
    return [f"attach sched_waking {text}"] * count, [], []


def named(length):
    """A trigger with a long name, which comes and goes."""
    name = "v" * length
    text = f"attach sched_waking hist:keys=pid:{name}=common_timestamp.usecs:vals=${name}:sort=${name}"
    return [line for number in range(1, 1001) for line in (text, f"remove {number}")], [], []


def traced(count, micros, keys=2000, size=2048):
    """Wakings and switches in turn, at the stamps that `micros` gives."""
    half = count // 2
    turns = ((waking(micros(2 * n), n % keys), switch(micros(2 * n + 1), n % keys)) for n in range(half))
    trace = [line for turn in turns for line in turn]
    return ["load @1", *(f"{one}:size={size}" for one in PAIR), "totals 2"], [], trace


def edited(times, *commands):
    """Return the commands so many times, each time with its number."""
    return [command.format(number) for number in range(1, times + 1) for command in commands]


def hot_key(operations, edits=10):
    """A saver's full table. A key with so many operations goes out when an event of a new key comes before all others, and
    in again when that one is struck."""
    trace = [waking(10**6 + n, n) for n in range(127)]
    for n in range(operations // 2):
        trace += [waking(2 * 10**6 + 2 * n, 999), switch(2 * 10**6 + 2 * n + 1, 999)]
    front = ["load @1", f"{SAVER}:size=128", READER, "totals 2"]
    return front + edited(edits, f"insert {waking(0, 2000, cpu=1)}", "strike 1:{}", "totals 2"), front, trace


def first_of_many(keys, edits=500):
    """A full table of so many keys, and one more key that waits; the first event goes and comes again."""
    trace = [waking(0, 0, cpu=1), *(waking(n, n) for n in range(1, keys + 1))]
    front = ["load @1", f"{SAVER}:size={keys}", READER, "totals 1"]
    return front + edited(edits, "strike 1:{}", f"insert {waking(0, 0, cpu=1)}", "totals 1"), front, trace


def other_keys(keys):
    """Return a lane that wakes so many tasks, and one that then wakes other tasks, one more of them."""
    return [waking(n, n) for n in range(keys)], [waking(10**7 + n, keys + n, cpu=1) for n in range(keys + 1)]


def unloaded(keys):
    """The first of two lanes goes; the other one has none of its keys."""
    front = ["load @1", "attach sched_waking hist:keys=pid"]
    return [*front, "unload 0", "totals 1"], [*front, "totals 1"], [line for lane in other_keys(keys) for line in lane]


def loaded(keys):
    """The first of two lanes comes; the other one has none of its keys."""
    front = ["load @2", "attach sched_waking hist:keys=pid"]
    return [*front, "load @1", "totals 1"], [*front, "totals 1"], *other_keys(keys)


def edited_among(keys, edits=20000):
    """In a table with room for so many keys, the first one goes and comes."""
    trace = [waking(0, 0, cpu=1), *(waking(n, n) for n in range(1, keys))]
    front = ["load @1", "attach sched_waking hist:keys=pid:size=131072", "totals 1"]
    return front + edited(edits, "strike 1:{}", f"insert {waking(0, 0, cpu=1)}", "totals 1"), front, trace


def woken_in_turn(wakings):
    """A full table but for one key, then wakings of two tasks in turn on CPU 0, each before a switch to its task on CPU 1: the
    first of these wakings decides which of the two tasks is in the table."""
    trace = [waking(n, n, cpu=1) for n in range(127)]
    for n in range(wakings):
        trace += [waking(10**6 + 2 * n, 1000 + n % 2), switch(10**6 + 2 * n + 1, 1000 + n % 2, cpu=1)]
    return trace


def unloaded_in_turn(wakings, *triggers):
    """The lane of these wakings goes."""
    front = ["load @1", f"{SAVER}:size=128", *triggers]
    asked = f"totals {len(front) - 1}"
    return [*front, asked, "unload 0", asked], [*front, asked], woken_in_turn(wakings)


def unloaded_of_busy(events):
    """More tasks than a saver's table has room for: 120 on CPU 1, and 12 on CPU 0, whose lane goes."""
    trace = []
    for n in range(events // 2):
        for cpu, pid in ((0, 1 + n % 12), (1, 100 + n % 120)):
            at = 4 * n + 2 * cpu
            trace += [waking(at, pid, cpu=cpu), switch(at + 1, pid, cpu=cpu)]
    front = ["load @1", f"{SAVER}:size=128", READER, "totals 2"]
    return [*front, "unload 0", "totals 2"], front, [*trace, waking(4 * events, 100, cpu=1)]


def struck_in_turn(wakings):
    """The wakings that tasks have in turn are struck by one call of the library, in the order in which it finds them."""
    front = ["import sys", f"sys.path.insert(0, {PACKAGE!r})", "import histdesk"]
    front += ["desk = histdesk.Desk()", "desk.load(sys.argv[1])"]
    for command in (f"{SAVER}:size=128", READER):
        event, text = command.split()[1:]
        front.append(f"desk.attach({event!r}, {text!r})")
    found = 'desk.matching("sched_waking", "pid >= 1000")'
    return [*front, f"desk.strike_events({found})"], [*front, found], woken_in_turn(wakings)


CASES = [
    ("stars of a pattern, then b, against 31 bytes", 1000, lambda n: filtered(f'comm ~ "{"*" * n}b"')),
    ("bytes of a class after a star, against 31 bytes", 1000, lambda n: filtered(f'comm ~ "*[{"x" * n}]"')),
    ("`*a` again and again, against 31 times a", 1000, lambda n: filtered(f'comm ~ "{"*a" * n}"', again=1000)),
    ("operands of a filter of 32 levels", 288, lambda n: filtered(operands(n), again=20)),
    ("events at a filter of 32 levels and 1,152 operands", 2000, lambda n: filtered(operands(1152), n, 10)),
    ("commas of a trigger", 2000, lambda n: refused("hist:keys=" + "," * n)),
    ("digits of a trigger's size", 2000, lambda n: refused("hist:keys=pid:size=" + "0" * n)),
    ("bytes of a trigger's name", 650, named),
    ("lines of a script, each refused", 250000, lambda n: (["x"] * n, [], [])),
    ("events whose stamps ascend, with a saver and a reader", 100000, lambda n: traced(n, lambda at: at)),
    ("events whose stamps descend, the same", 100000, lambda n: traced(n, lambda at: n - at)),
    ("events whose stamps are equal, the same", 100000, lambda n: traced(n, lambda at: 7)),
    ("events with a key for each two, size 131,072", 131072, lambda n: traced(n, lambda at: at, n, 131072)),
    ("operations of a key that goes out and comes in", 10000, hot_key),
    ("edits by which such a key of 10,000 operations moves", 5, lambda n: hot_key(10000, n)),
    ("keys of a full table whose first event goes and comes", 32768, first_of_many),
    ("edits by which such a table of 32,768 keys moves", 500, lambda n: first_of_many(32768, n)),
    ("keys of a lane that is unloaded", 100000, unloaded),
    ("keys of a lane that is loaded", 100000, loaded),
    ("keys among which the first one goes and comes", 100000, edited_among),
    ("wakings of two keys in turn that are unloaded, full saver", 25000, unloaded_in_turn),
    ("the same with a reader", 25000, lambda n: unloaded_in_turn(n, READER)),
    ("the same with a maker, and a table of what it makes", 25000, lambda n: unloaded_in_turn(n, MAKER, MADE)),
    ("events of twelve tasks that are unloaded, full saver, reader", 50000, unloaded_of_busy),
]
# The same of scripts for the package.
PACKAGE_CASES = [
    ("wakings of two keys in turn that one call strikes, the same", 25000, struck_in_turn),
]


def write(path, lines):
    with open(path, "w", encoding="ascii") as file:
        file.writelines(line + "\n" for line in lines)
    return path


def least(program, folder, script, traces):
    """Return the least processor time of some runs."""
    words = [program, write(f"{folder}/script", script)]
    words += [write(f"{folder}/trace{number}", trace) for number, trace in enumerate(traces, 1)]
    times = []
    for _ in range(TIMES):
        before = resource.getrusage(resource.RUSAGE_CHILDREN)
        ran = subprocess.run(words, stdout=subprocess.DEVNULL)
        after = resource.getrusage(resource.RUSAGE_CHILDREN)
        if ran.returncode > 1:
            sys.exit(f"status {ran.returncode}")
        times.append(after.ru_utime - before.ru_utime + after.ru_stime - before.ru_stime)
    return min(times)


def main():
    program, folder = sys.argv[1:]
    print(f"{'what grows':60} {'at first':>8} {'once':>6} {'twice':>6} {'four times':>10}")
    cases = [(program, *case) for case in CASES] + [(sys.executable, *case) for case in PACKAGE_CASES]
    for runs, what, first, make in cases:
        times = []
        for size in first, 2 * first, 4 * first:
            script, without, *traces = make(size)
            times.append(least(runs, folder, script, traces) - least(runs, folder, without, traces))
        print(f"{what:60} {first:8} {1:6} {times[1] / times[0]:6.2f} {times[2] / times[0]:10.2f}", flush=True)


if __name__ == "__main__":
    main()
