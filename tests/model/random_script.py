#!/usr/bin/env python3
"""Writes a random script of edits and answers, and the traces that it loads, for comparing with model.py.

    random_script.py COMMANDS EVENTS SEED FOLDER

writes FOLDER/script and FOLDER/trace1 and on, one for each CPU, of so many events together. Tables of the least size fill
up, since keys are many; triggers save and read variables, lanes go and come again, and each kind of edit comes, some of
them refused. Triggers and filters have every form that random_texts.py draws.
"""

import random
import sys

# Nothing is written beside the sources.
sys.dont_write_bytecode = True

import random_texts
from random_texts import ATTACHED, COMMS, EVENTS, STATES

CPUS, STAMPS = 3, 3 * 10**6
# What the first reader makes of its latencies, in some scripts.
FIRST_MAKING = "onmatch(sched.sched_waking).wakeup_latency($lat,next_pid,next_prio)"


def line(draw, cpu):
    stamp, pid = draw.randrange(STAMPS), draw.randrange(160)
    comm, prio, name = draw.choice(COMMS), draw.randrange(-2, 140), draw.choice(EVENTS)
    head = f" sim-{draw.randrange(9)} [{cpu:03}] d.h.. {stamp // 10**6}.{stamp % 10**6:06}: {name}: "
    if name == "sched_switch":
        before = f"prev_comm=sim prev_pid=1 prev_prio=120 prev_state={draw.choice(STATES)}"
        return f"{head}{before} ==> next_comm={comm} next_pid={pid} next_prio={prio}"
    return head + f"comm={comm} pid={pid} prio={prio} target_cpu=001"


def trigger(draw):
    """A trigger's text: one of any form, or a saver on some event, a reader or a plain one, whose keys often match."""
    event = draw.choice(ATTACHED)
    if event == "wakeup_latency" and draw.randrange(2):
        key = draw.choice(["lat.log2", "lat.log2,pid", "pid", "prio,lat.buckets=100000", "lat", "common_cpu"])
        tail = draw.choice(["", ":vals=lat", ":vals=lat,prio:sort=lat.descending", ":size=128", " if lat < 500000"])
        return f"attach {event} hist:keys={key}{tail}"
    if draw.randrange(3) == 0 or event == "wakeup_latency":
        return f"attach {event} {random_texts.trigger(draw, event)}"
    side = "next_" if event == "sched_switch" else ""
    key = draw.choice(["pid"] * 8 + ["comm", "prio.log2", "pid.buckets=8", "comm,pid", "pid.hex"])
    keys = ",".join(side + item for item in key.split(","))
    value = draw.choice(["", f":vals={side}prio", f":vals={side}pid,{side}prio"])
    sort = draw.choice(["", ":sort=hitcount.descending", f":sort={keys.split(',')[0].split('.')[0]}.descending,hitcount"])
    size = draw.choice(["", ":size=65", ":size=128"])
    name = draw.choice(["a", "b"])
    kind = draw.randrange(4)
    if kind == 0:
        value, variable = draw.choice(["", f":vals=${name}"]), f":{name}=common_timestamp.usecs"
    elif kind < 3:
        name = draw.choice(["a", name])
        value, variable = draw.choice(["", ":vals=$lat"]), f":lat=common_timestamp.usecs-${name}"
        if draw.randrange(2):
            variable += ":" + random_texts.making(draw, event, "lat")
    else:
        variable = ""
    return f"attach {event} hist:keys={keys}{value}{variable}{sort}{size}"


def condition(draw):
    """A filter with fields that each event has, or one of any form on some event."""
    if draw.randrange(2):
        return random_texts.condition(draw, draw.choice(ATTACHED))
    return draw.choice(["common_pid < 6", "common_cpu == 0", "common_cpu != 1 && common_pid & 3", "common_pid >= 2"])


def command(draw, lines, ids):
    kind = draw.randrange(1000) / 10
    number = draw.randrange(1, max(2, 2 + ids[0] // 2))
    if kind < 30:
        return "insert " + line(draw, draw.randrange(CPUS))
    if kind < 55:
        return f"strike {draw.randrange(CPUS)}:{draw.randrange(1, lines)}"
    if kind < 62:
        ids[0] += 1
        return trigger(draw)
    if kind < 68:
        return f"filter {number} " + draw.choice(["none", "if " + condition(draw)])
    if kind < 73:
        return f"remove {number}"
    if kind < 75:
        cpu = draw.randrange(CPUS)
        # An insert makes the lane anew, so a load is accepted only soon after.
        return f"unload {cpu}" + draw.choice(["", f"\nload @{cpu + 1}"])
    if kind < 77:
        return f"load @{draw.randrange(1, CPUS + 1)}"
    if kind < 80:
        return f"list {draw.randrange(CPUS)}"
    return draw.choice(["hist", "totals", "totals", "lat", "lat"]) + f" {number}"


def main():
    commands, events, seed, folder = int(sys.argv[1]), int(sys.argv[2]), int(sys.argv[3]), sys.argv[4]
    draw, ids = random.Random(seed), [2]
    for cpu in range(CPUS):
        with open(f"{folder}/trace{cpu + 1}", "w") as trace:
            for _ in range(events // CPUS):
                trace.write(line(draw, cpu) + "\n")
    with open(f"{folder}/script", "w") as script:
        for cpu in range(CPUS):
            script.write(f"load @{cpu + 1}\n")
        script.write("attach sched_waking hist:keys=pid:a=common_timestamp.usecs:size=128\n")
        making = draw.choice(["", ":" + FIRST_MAKING, ":" + FIRST_MAKING])
        reader = "hist:keys=next_pid:vals=$lat:lat=common_timestamp.usecs-$a:size=128"
        script.write(f"attach sched_switch {reader}{making}\n")
        if making:
            script.write("attach wakeup_latency hist:keys=lat.log2:vals=lat\n")
        for _ in range(commands):
            script.write(command(draw, 2 * events // CPUS, ids) + "\n")


main()
