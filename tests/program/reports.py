#!/usr/bin/env python3
"""Checks the reports of a desk's inserts and strikes against the tables before and after each.

    reports.py ASKAGAIN [EDITS]

ASKAGAIN is the program of that crate, which prints after an accepted insert or strike `-- rows ID:KEY ..`, the rows that
may have changed, or `-- no report`. The tables that are asked for after each edit show whether each report holds:

- each row that came, went or changed is in it, if its trigger is on an event of the trace, and no row is in it twice;
- it has at most 2 rows of a trigger that reads no variable; of one that reads a variable it has at most 4, and 2 more for
  each trigger that reads the same variable; and it has none of a trigger on `wakeup_latency`.

First come three edits whose rows are known by hand, then EDITS random ones (500 if none are given), over full tables, with
two readers of one variable, one of which makes events. `asked_again.py` checks that a report is the same or none if
growths are refused.
"""

import os
import random
import re
import subprocess
import sys
import tempfile

TRIGGERS = [
    ("sched_waking", "hist:keys=pid:ts0=common_timestamp.usecs:size=128"),
    (
        "sched_switch",
        "hist:keys=next_pid:vals=$lat:lat=common_timestamp.usecs-$ts0:size=128"
        ":onmatch(sched.sched_waking).wakeup_latency($lat,next_pid,next_prio)",
    ),
    ("sched_switch", "hist:keys=next_pid:vals=$l:l=common_timestamp.usecs-$ts0 if prev_pid<50"),
    ("sched_waking", "hist:keys=pid,prio:vals=target_cpu:size=128"),
    ("sched_switch", "hist:keys=prev_pid,next_pid:size=128"),
    ("wakeup_latency", "hist:keys=lat:vals=pid"),
]
READERS, READS, MADE = 2, {2, 3}, {6}


def waking(cpu, micros, pid, prio=120):
    return (
        f" sim-1 [{cpu:03}] d.h.. {micros // 1000000}.{micros % 1000000:06}: sched_waking: comm=w pid={pid} prio={prio} "
        f"target_cpu=000"
    )


def switch(cpu, micros, before, pid):
    return (
        f" sim-1 [{cpu:03}] d.h.. {micros // 1000000}.{micros % 1000000:06}: sched_switch: prev_comm=sim prev_pid={before} "
        f"prev_prio=120 prev_state=S ==> next_comm=w next_pid={pid} next_prio=120"
    )


def answers(program, script, trace):
    """Return what each command of a script prints, its report (None if it has none), and `now`, `later` or `none`."""
    with tempfile.TemporaryDirectory() as folder:
        paths = [os.path.join(folder, name) for name in ["script", "trace1"]]
        for path, lines in zip(paths, [script, trace]):
            with open(path, "w") as file:
                file.write("".join(line + "\n" for line in lines))
        ran = subprocess.run([program, *paths], stdin=subprocess.DEVNULL, capture_output=True, check=True)
    form = r"(.*?)^(?:-- (rows[^\n]*|no report)\n)?-- (now|later|none) (deferred|kept)\n"
    found = re.findall(form, ran.stdout.decode(), re.MULTILINE | re.DOTALL)
    return [(text, report_of(report), kept) for text, report, kept, _ in found]


def report_of(text):
    if not text.startswith("rows"):
        return None
    rows = [row.split(":") for row in text.split()[1:]]
    return [(int(number), tuple(map(int, key.split(",")))) for number, key in rows]


def rows_of(text):
    """Return the rows of a table: what stands after the key, by key."""
    rows = re.findall(r"^\{ (.*?) \} (.*)$", text, re.MULTILINE)
    return {tuple(map(int, re.findall(r": *(-?\d+)", key))): rest for key, rest in rows}


def demand(holds, otherwise):
    if not holds:
        sys.exit(f"reports: {otherwise}")


def most(number, readers=READERS, reads=READS):
    return 4 + 2 * readers if number in reads else 2


def hold(command, report, before, after):
    """Check a report against the tables by trigger, before an edit and after it, and return how many rows changed."""
    demand(report is not None, f"{command}: no report")
    demand(len(set(report)) == len(report), f"{command}: a row twice")
    changed = {
        (number, key)
        for number in before
        for key in {**before[number], **after[number]}
        if number not in MADE and before[number].get(key) != after[number].get(key)
    }
    demand(changed <= set(report), f"{command}: {sorted(changed - set(report))} changed, and are not in {report}")
    for number in range(1, len(TRIGGERS) + 1):
        count = sum(row[0] == number for row in report)
        demand(count <= (0 if number in MADE else most(number)), f"{command}: {count} rows of {number}")
    return len(changed)


def by_hand(program):
    """Check three edits whose rows are known by hand."""
    saver = (
        "attach sched_waking hist:keys=pid:ts0=common_timestamp.usecs{}",
        "attach sched_switch hist:keys=next_pid:vals=$lat:lat=common_timestamp.usecs-$ts0",
    )
    latency = [waking(0, 1000100, 42), switch(0, 1000150, 1, 42), switch(0, 1000170, 1, 42)]
    *_, (_, report, _) = answers(program, ["load @1", saver[0].format(""), saver[1], "strike 0:2"], latency)
    demand(report is not None and (2, (42,)) in report and len(set(report)) == len(report), f"one latency: {report}")
    demand(sum(row[0] == 1 for row in report) <= 2 and sum(row[0] == 2 for row in report) <= 6, f"one latency: {report}")

    dropped = [waking(0, 1000000 + pid, pid) for pid in range(1, 129)]
    dropped += [waking(0, 2000000, 300), switch(0, 2000040, 1, 300)]
    *_, (_, report, _) = answers(program, ["load @1", saver[0].format(":size=128"), saver[1], "strike 0:1"], dropped)
    demand(report is not None and len(set(report)) == len(report), f"dropped saver: {report}")
    demand({row for row in report if row[0] == 1} == {(1, (1,)), (1, (300,))}, f"dropped saver: {report}")
    demand((2, (300,)) in report and sum(row[0] == 2 for row in report) <= 6, f"dropped saver: {report}")

    two = [waking(0, 1000001, 8), waking(0, 1000002, 9)]
    script = ["load @1", "attach sched_waking hist:keys=pid", "insert " + waking(0, 1000003, 9)]
    *_, (_, report, _) = answers(program, script, two)
    demand(report is not None and (1, (9,)) in report and len(set(report)) == len(report) <= 2, f"two tasks: {report}")


def by_chance(program, edits, seed=1):
    """Check random edits, and return how many there were, and how many rows changed."""
    chance = random.Random(seed)

    def event():
        cpu, micros, pid = chance.randrange(2), 1000000 + chance.randrange(3000), chance.randrange(1, 200)
        if chance.random() < 0.5:
            return waking(cpu, micros, pid, chance.randrange(100, 103))
        return switch(cpu, micros, chance.randrange(1, 100), pid)

    trace = [event() for _ in range(600)]
    hists = [f"hist {number}" for number in range(1, len(TRIGGERS) + 1)]
    script = ["load @1", *(f"attach {name} {text}" for name, text in TRIGGERS), *hists]
    for _ in range(edits):
        insert = chance.random() < 0.5
        script.append("insert " + event() if insert else f"strike {chance.randrange(2)}:{chance.randrange(1, 400)}")
        script += hists
    found = answers(program, script, trace)
    demand(len(found) == len(script), "another number of answers than of commands")
    before, held, rows = None, 0, 0
    step = len(hists) + 1
    for at in range(len(TRIGGERS), len(script) - len(hists) + 1, step):
        after = {number: rows_of(found[at + number][0]) for number in range(1, len(hists) + 1)}
        if before is not None and not found[at][0].startswith("refused"):
            rows += hold(script[at], found[at][1], before, after)
            held += 1
        before = after
    return held, rows


def main():
    program, edits = sys.argv[1], int(sys.argv[2]) if len(sys.argv) > 2 else 500
    by_hand(os.path.abspath(program))
    held, rows = by_chance(os.path.abspath(program), edits)
    demand(held > edits // 3 and rows > held, f"{held} edits held, with {rows} rows that changed")
    print(f"reports: {held} edits by chance, {rows} rows changed")
    print(f"{held + 3} of {held + 3} edits hold")


main()
