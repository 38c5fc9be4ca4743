#!/usr/bin/env python3
"""Writes a row of edits over tables that are full, with what it must print by the plain model.

    crowded_script.py EDITS SEED FOLDER > COUNTS

writes FOLDER/script, FOLDER/trace1 and on, one for each CPU, FOLDER/expected and FOLDER/status. More keys are held
than the tables have room for, savers and readers among them, some of which make events that are counted, and events
come and go about where the tables are full, so that keys of savers are taken in and out. After each edit all
attached triggers' totals are asked, and one table or list of latencies. The one line that is printed says how many
edits were accepted, how many keys were held at the most and how many of the edits switched a key of some saver.
"""

import os
import random
import sys

sys.dont_write_bytecode = True

from model import Desk, Refused

KEYS, EVENTS, CPUS = 500, 900, 3
# Microseconds over which events come; the first third of them fills the tables.
SPAN = 3 * 10**6
# What some readers make of their latencies, and the size of their tables.
MAKES = "wakeup_latency($lat,next_pid,next_prio):size=128"
TRIGGERS = [
    "sched_waking hist:keys=pid:a=common_timestamp.usecs:size=128",
    f"sched_switch hist:keys=next_pid:vals=$lat:lat=common_timestamp.usecs-$a:onmatch(sched.sched_waking).{MAKES}",
    "sched_switch hist:keys=next_pid:lat=common_timestamp.usecs-$a:sort=next_pid",
    "sched_wakeup hist:keys=pid:vals=$b:b=common_timestamp.usecs:size=128 if prio < 130",
    f"sched_switch hist:keys=next_pid:vals=$lat:lat=common_timestamp.usecs-$b:onmatch(sched.sched_wakeup).{MAKES}",
    "sched_switch hist:keys=next_pid:vals=next_prio:size=128:sort=next_prio.descending",
    "wakeup_latency hist:keys=pid:vals=lat:size=128",
    "wakeup_latency hist:keys=lat.log2,prio:vals=lat:sort=lat if lat > 1000",
]
FILTERS = ["none", "if common_cpu != 1", "if common_pid < 7", "if common_pid & 3 || common_cpu == 0"]


def line(draw, cpu):
    """A trace line; half of them come early."""
    pid, prio = draw.randrange(KEYS), draw.randrange(90, 140)
    stamp = draw.randrange(SPAN // 3 if draw.random() < 0.5 else SPAN)
    head = f" sim-{draw.randrange(9)} [{cpu:03}] d.h.. {stamp // 10**6}.{stamp % 10**6:06}: "
    name = draw.choice(["sched_waking", "sched_wakeup", "sched_switch"])
    if name == "sched_switch":
        before = "prev_comm=sim prev_pid=1 prev_prio=120 prev_state=S"
        return f"{head}{name}: {before} ==> next_comm=w next_pid={pid} next_prio={prio}"
    return f"{head}{name}: comm=w pid={pid} prio={prio} target_cpu=001"


class Script:
    """The lines of a script, what they print, and what the edits among them did."""

    def __init__(self, draw, traces):
        self.draw, self.traces = draw, traces
        self.desk, self.lines, self.printed, self.refused = Desk(), [], [], False
        self.edits = self.accepted = self.switched = self.most_keys = 0

    def perform(self, text):
        """Add a line to the script; return whether it is accepted."""
        self.lines.append(text)
        try:
            told = self.desk.perform(text, self.traces)
            accepted = True
        except Refused as refused:
            told, accepted, self.refused = f"refused {refused}", False, True
        if told:
            self.printed.append(told)
        return accepted

    def keys_of_savers(self):
        state = self.desk.replay()
        return {number: frozenset(state[number]["table"]) for number, trigger in self.desk.triggers.items() if trigger.saves}

    def edit(self, text):
        """Add an edit, and the answers after it."""
        before = self.keys_of_savers()
        self.edits += 1
        self.accepted += self.perform(text)
        after = self.keys_of_savers()
        if text.startswith(("insert", "strike")):
            self.switched += any(before[number] != keys for number, keys in after.items())
        for number in sorted(self.desk.triggers):
            self.perform(f"totals {number}")
        if self.desk.triggers:
            number = self.draw.choice(sorted(self.desk.triggers))
            asked = "lat" if self.desk.triggers[number].reads and self.draw.random() < 0.5 else "hist"
            self.perform(f"{asked} {number}")
        held = [event["said"] for lane in self.desk.lanes.values() for event in lane["events"].values()]
        self.most_keys = max(self.most_keys, len({said["pid"] for said in held if "pid" in said}))

    def held_line(self):
        """A line that is held, an early one if the draw says so."""
        held = [(e["stamp"], cpu, at) for cpu, lane in self.desk.lanes.items() for at, e in lane["events"].items()]
        if self.draw.random() < 0.6:
            held = sorted(held)[: len(held) // 3]
        _, cpu, at = self.draw.choice(held)
        return f"{cpu}:{at}"

    def any_edit(self):
        kind, draw = self.draw.random(), self.draw
        unheld = sorted(set(range(CPUS)) - set(self.desk.lanes))
        if unheld and kind < 0.3:
            return f"load @{unheld[0] + 1}"
        if kind < 0.47:
            return "insert " + line(draw, draw.randrange(CPUS))
        if kind < 0.92:
            return "strike " + self.held_line()
        if kind < 0.94:
            return f"filter {draw.choice(sorted(self.desk.triggers))} {draw.choice(FILTERS)}"
        if kind < 0.95:
            return f"unload {draw.choice(sorted(self.desk.lanes))}"
        if len(self.desk.triggers) >= len(TRIGGERS):
            return f"remove {draw.choice(sorted(self.desk.triggers))}"
        return "attach " + draw.choice(TRIGGERS)


def write(path, text):
    with open(path, "w", encoding="latin-1", newline="") as file:
        file.write(text)


def main():
    edits, seed, folder = int(sys.argv[1]), int(sys.argv[2]), sys.argv[3]
    draw = random.Random(seed)
    traces = [[line(draw, cpu) for _ in range(EVENTS // CPUS)] for cpu in range(CPUS)]
    script = Script(draw, traces)
    for cpu in range(CPUS):
        script.perform(f"load @{cpu + 1}")
    for trigger in TRIGGERS:
        script.perform("attach " + trigger)
    while script.edits < edits:
        script.edit(script.any_edit())
    os.makedirs(folder, exist_ok=True)
    write(f"{folder}/script", "\n".join(script.lines) + "\n")
    for number, trace in enumerate(traces, 1):
        write(f"{folder}/trace{number}", "\n".join(trace) + "\n")
    write(f"{folder}/expected", "\n".join(script.printed) + "\n")
    write(f"{folder}/status", f"{int(script.refused)}\n")
    accepted = f"{script.accepted} of {script.edits} edits accepted"
    print(f"{accepted}, {script.most_keys} keys, {script.switched} switched a saver's key")


main()
