#!/usr/bin/env python3
"""Checks that what many distinct keys, or many events of two keys, cost stays in proportion to these, and what is printed.

    keys.py PROGRAM

The keys are those of a lane that goes or comes, or those under which made events are counted, all of which go by one strike.
A table of 80,000 keys takes four times as long as one of 20,000 if each key costs the same. If the cost of
each key is in proportion to the keys, it takes 16 times as long. Here half of that is too long, since the machine may be busy.
The same goes for 8,000 and 2,000 events of two keys in turn, of which only one finds room in a table.
"""

import resource
import subprocess
import sys
import tempfile

FEW = 20_000
MANY = 80_000
TIMES = 3
TOO_LONG = 8
TRIGGER = "attach sched_waking hist:keys=pid"
SAVER = f"{TRIGGER}:ts0=common_timestamp.usecs:size=128"
MADE = "onmatch(sched.sched_waking).wakeup_latency($lat,next_pid,next_prio)"
READER = "attach sched_switch hist:keys=next_pid:lat=common_timestamp.usecs-$ts0"
MAKER = f"{READER}:{MADE}"
# For how many keys there is one waking of two tasks in turn.
EACH = 10


def stamp(micros):
    return f"{micros // 10**6}.{micros % 10**6:06}"


def waking(micros, pid, cpu):
    return f" sim-1 [{cpu:03}] d.h.. {stamp(micros)}: sched_waking: comm=w pid={pid} prio=120 target_cpu=000\n"


def switch(micros, pid, cpu=0):
    said = "prev_comm=sim prev_pid=1 prev_prio=120 prev_state=S ==> next_comm=w"
    return f" sim-1 [{cpu:03}] d.h.. {stamp(micros)}: sched_switch: {said} next_pid={pid} next_prio=120\n"


def of_lanes(keys):
    """Yield scripts, each with what it prints: the lane of CPU 0, which wakes `keys` tasks before CPU 1 wakes others, goes, or
    comes to the lane of CPU 1; in a table of the usual size, and in one that has room for all."""
    for size in "", f":size={1 << 17}":
        room = min(keys + 1, 131072 if size else 2048)
        totals = f"hits {room} entries {room} dropped {keys + 1 - room}\n"
        every = min(2 * keys + 1, 131072 if size else 2048)
        both = f"hits {every} entries {every} dropped {2 * keys + 1 - every}\n"
        load = [f"loaded {keys}\n", f"loaded {keys + 1}\n"]
        yield [
            f"load @1\nload @2\n{TRIGGER}{size}\nunload 0\ntotals 1\n",
            "".join([*load, "attached 1\n", f"unloaded {keys}\n", totals]),
        ]
        yield [f"load @2\n{TRIGGER}{size}\nload @1\ntotals 1\n", "".join([load[1], "attached 1\n", load[0], both])]


def of_turns(keys):
    """Yield a script with what it prints: the lane of CPU 0, which wakes two tasks in turn, goes."""
    wakings = keys // EACH
    script = ["load @1", SAVER, READER, "totals 2", "unload 0", "totals 1", "totals 2"]
    printed = [f"loaded {127 + 2 * wakings}", "attached 1", "attached 2", f"hits {wakings // 2} entries 1 dropped 0"]
    printed += [f"unloaded {wakings}", "hits 127 entries 127 dropped 0", "hits 0 entries 0 dropped 0"]
    yield ["\n".join([*script, ""]), "\n".join([*printed, ""])]


def of_strike(keys):
    """Yield a script with what it prints: the waits of a task have `keys` lengths, and one is counted under each. The task is
    the first of 129, of which a table has room for 128. If its first waking is struck, it is the last: its wakings aren't
    saved, and no wait of it is measured."""
    counters = ["attach wakeup_latency hist:keys=lat", "attach wakeup_latency hist:keys=lat:size=131072"]
    totals = [f"hits {room} entries {room} dropped {keys - room}\n" for room in (2048, keys)]
    asked, none = ["totals 3", "totals 4"], "hits 0 entries 0 dropped 0\n"
    script = ["load @1", "load @2", SAVER, MAKER, *counters, *asked, "strike 1:1", *asked]
    printed = ["loaded 1\n", f"loaded {2 * keys + 128}\n", *(f"attached {number}\n" for number in range(1, 5))]
    yield ["\n".join([*script, ""]), "".join([*printed, *totals, "struck 1:1\n", none, none])]


def lanes(keys):
    """Yield the lines of two traces, one after the other."""
    yield (waking(n, n, 0) for n in range(keys))
    yield (waking(10**7 + n, keys + n, 1) for n in range(keys + 1))


def turns(keys):
    """Yield the lines of a trace: the wakings of 127 tasks, and then those of two more in turn on CPU 0, each before the switch
    to its task. A table of 128 keys has room for one of the two: the one that is woken first."""
    lines = [waking(n, n, 1) for n in range(127)]
    for n in range(keys // EACH):
        lines += [waking(10**8 + 2 * n, 1000 + n % 2, 0), switch(10**8 + 2 * n + 1, 1000 + n % 2, 1)]
    yield lines


def waits(keys):
    """Yield the lines of two traces: the first waking of task 999, and then those of 128 others, before it waits `keys` times,
    each time a microsecond longer."""
    yield [waking(0, 999, 1)]
    others = [waking(1 + n, 1 + n, 0) for n in range(128)]
    starts = [10**6 + 10**5 * n for n in range(keys)]
    yield others + [line for n, at in enumerate(starts) for line in (waking(at, 999, 0), switch(at + 1 + n, 999))]


def run(program, folder, script):
    """Return the least processor time of some runs, and what one of them printed."""
    least, printed = float("inf"), ""
    with open(f"{folder}/script", "w", encoding="ascii") as file:
        file.write(script)
    for _ in range(TIMES):
        before = resource.getrusage(resource.RUSAGE_CHILDREN)
        words = [program, f"{folder}/script", f"{folder}/trace1", f"{folder}/trace2"]
        printed = subprocess.run(words, stdout=subprocess.PIPE, text=True, check=False).stdout
        after = resource.getrusage(resource.RUSAGE_CHILDREN)
        least = min(least, after.ru_utime - before.ru_utime + after.ru_stime - before.ru_stime)
    return least, printed


def measure(program, folder, keys, wrong):
    """Return the time of each script with that many keys. Output that isn't expected is added to `wrong`."""
    times = []
    for scripts, traces in (of_lanes, lanes), (of_strike, waits), (of_turns, turns):
        for number, lines in enumerate(traces(keys), 1):
            with open(f"{folder}/trace{number}", "w", encoding="ascii") as file:
                file.writelines(lines)
        for script, expected in scripts(keys):
            time, printed = run(program, folder, script)
            times.append(time)
            if printed != expected:
                wrong.append(f"{script!r} prints {printed!r}, not {expected!r}")
    return times


def main():
    program, wrong = sys.argv[1], []
    with tempfile.TemporaryDirectory() as folder:
        few, many = (measure(program, folder, keys, wrong) for keys in (FEW, MANY))
    for number, (short, long) in enumerate(zip(few, many)):
        if long > TOO_LONG * short:
            wrong.append(f"script {number}: {MANY} keys take {long:.2f} s, {FEW} keys {short:.2f} s")
    tests = len(few) + len(many) + len(few)
    print("\n".join([*wrong, f"{tests - len(wrong)} of {tests} tests hold"]))
    sys.exit(bool(wrong))


if __name__ == "__main__":
    main()
