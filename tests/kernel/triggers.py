#!/usr/bin/env python3
"""Writes the triggers for which kernel.sh compares the kernel's tables with the desk's: the fixed ones of
fixed.py, and COUNT random ones.

    triggers.py CPUS SEED COUNT FOLDER

It writes FOLDER/cases, the lines that the guest writes to tracefs, and FOLDER/cases.json for compare.py. A case is a
dictionary:

    event, text      what the desk is given
    kernel           what the kernel is given: the same, except for a reader of a variable, see reader()
    synthetic        the name of a reader's synthetic event
    group            savers and their readers have one group, and go to one desk
    known, why       how the two sides are known to differ, and why; see fixed.py
"""

import json
import os
import random
import re
import sys

# Nothing is written beside the sources.
sys.dont_write_bytecode = True

sys.path.insert(0, os.path.join(os.path.dirname(os.path.realpath(__file__)), "..", "model"))
from fixed import fixed
from model_line import TEXTS
from model_trigger import Trigger

WAKES = ["sched_waking", "sched_wakeup", "sched_wakeup_new"]
FIELDS = {name: ["pid", "prio", "target_cpu", "comm", "common_pid", "common_cpu"] for name in WAKES}
FIELDS["sched_switch"] = [side + field for side in ("prev_", "next_") for field in ("pid", "prio", "comm")]
FIELDS["sched_switch"] += ["common_pid", "common_cpu"]
TYPES = {"pid": "pid_t", "prio": "int", "target_cpu": "int", "comm": "char"}
NAMES = ["job boss", "job ping a", "job pong c", "job-b,left", "job-b: right", "job c pid=7 x", "job [c] nap*", "job kid 3"]
NAMES += ["job 15 bytes ab", "job fifo", "swapper/0"]
# The kernel reads each of them as the desk does: none is `*x`, none has a digit in front, and none has a class `[!x]` at
# which a name may have ended.
GLOBS = ["job*", "job k*", "*kid*", "job ?id*", "job-b*", "job [a-m]*", "job[ -]*p*", "*o*g*", "job kid [0-9]", "*", "j*b*"]
GLOBS += ["job kid [0-9][0-9]", "job [!a-m]*", "job [[]c] nap?", "?????????*", "job 15*ab", "job c pid=[5-9] x", "job boss"]
# Events after which a reader's event comes, on whatever CPU: its tracepoint waits for a lock that the first one's has.
BEHIND = [("sched_waking", ""), ("sched_wakeup", ""), ("sched_wakeup_new", ""), ("sched_switch", "prev_")]


def number(draw, field):
    if field.endswith("prio"):
        return draw.choice([0, 49, 89, 100, 113, 119, 120, 121, 125, 139])
    if field.endswith("cpu"):
        return draw.choice([0, 1])
    return draw.choice([1, 90, 100, 128, 150, 200, 255, 256, 300])


def atom(draw, event):
    field = draw.choice(FIELDS[event])
    if field in TEXTS:
        quote = draw.choice("\"'")
        if draw.random() < 0.5:
            return f"{field} ~ {quote}{draw.choice(GLOBS)}{quote}"
        return f"{field} {draw.choice(['==', '!='])} {quote}{draw.choice(NAMES)}{quote}"
    value = draw.choice([str, hex])(number(draw, field))
    if draw.random() < 0.2 and field != "common_cpu":
        return f"{field} & {draw.choice(['1', '2', '3', '0x40', '0x1f'])}"
    return f"{field}{draw.choice(['', ' '])}{draw.choice(['==', '!=', '<', '<=', '>', '>='])} {value}"


def condition(draw, event, depth):
    kind = draw.randrange(4) if depth else 0
    if kind == 0:
        return atom(draw, event)
    if kind == 1:
        return draw.choice(["!", ""]) + f"({condition(draw, event, depth - 1)})"
    return draw.choice([" && ", " || "]).join(condition(draw, event, depth - 1) for _ in range(2))


def tail(draw, event, side):
    """Return a filter that lets only events of the workload's tasks pass."""
    base = f'{side}comm ~ "job*"'
    return f" if {base}" + (f" && ({condition(draw, event, 3)})" if draw.random() < 0.6 else "")


def modified(draw, field, side):
    """Return a field, maybe with a modifier: no buckets for the priority of the other task, which may be -1: see fixed.py."""
    if field in TEXTS:
        return field
    buckets = f".buckets={draw.choice([1, 2, 3, 7, 10, 16, 100])}" if field.startswith(side) or "prio" not in field else ""
    return field + draw.choice(["", "", "", ".hex", ".log2", buckets])


def size(draw, cpus):
    """Return a size, or none. On several CPUs no table overflows: which keys fit depends on an order that the stamps don't
    show."""
    return draw.choice(["", "", ":size=128", ":size=65", ":size=200"] if cpus == 1 else [":size=8192", ":size=5000"])


def sort(draw, keys, values):
    """Return what the rows are sorted by, or nothing: not by a name that is a key and a value, which each side takes for
    another column."""
    names = [name for name in ["hitcount"] * 2 + keys + values if (name in keys) + (name in values) < 2]
    items = dict.fromkeys(draw.choices(names, k=draw.randrange(3)))
    items = [name + draw.choice(["", ".ascending", ".descending", ".descending"]) for name in items]
    return f":sort={','.join(items)}" if items else ""


def plain(draw, cpus):
    event = draw.choice(WAKES[:2] + WAKES[:2] + WAKES[2:] + ["sched_switch"] * 3)
    side = draw.choice(["prev_", "next_"]) if event == "sched_switch" else ""
    fields = draw.sample(FIELDS[event], draw.randint(1, 3))
    values = draw.sample([field for field in FIELDS[event] if field not in TEXTS], draw.randrange(3))
    keys = draw.choice(["key", "keys"]) + "=" + ",".join(modified(draw, field, side) for field in fields)
    parts = [draw.choice([":val=", ":vals=", ":values=", ":vals=hitcount,"]) + ",".join(values) if values else ""]
    parts += [sort(draw, fields, values), size(draw, cpus)]
    draw.shuffle(parts)
    return [{"event": event, "text": f"hist:{keys}{''.join(parts)}" + tail(draw, event, side)}]


def pair(draw, cpus, count):
    """Return a saver and its reader, with matching keys."""
    if cpus == 1:
        ends = [(name, "") for name in WAKES] + [("sched_switch", "prev_"), ("sched_switch", "next_")]
        (saver, front), (reader, after) = draw.choice(ends), draw.choice(ends)
        keys = draw.choice(["pid", "comm", "prio", "prio,pid", "comm,pid", "prio.log2", "pid.buckets=16", "comm,prio.log2"])
    else:
        (saver, front), (reader, after) = draw.choice(BEHIND), ("sched_switch", "next_")
        if saver == "sched_waking" and draw.random() < 0.3:
            reader, after = "sched_wakeup", ""
        keys = draw.choice(["pid", "pid", "comm,pid", "pid,prio", "pid.hex", "prio.log2,pid"])
    name, own = f"v{count}", f"w{count}"
    left, right = (",".join(side + item for item in keys.split(",")) for side in (front, after))
    fields = [item.split(".")[0] for item in right.split(",")]
    order = draw.choice(["", f"${own}.descending", "hitcount.descending", fields[0], f"hitcount,${own}"])
    more = "".join(f",{after}{field}" for field in draw.choice([[], ["prio"], ["pid"]]) if after + field not in fields)
    first = f"hist:keys={left}{size(draw, cpus)}{draw.choice(['', f':vals=${name}'])}:{name}=common_timestamp.usecs"
    second = f"hist:keys={right}:vals=${own}{more}:{own}=common_timestamp.usecs-${name}"
    second += (f":sort={order}" if order else "") + size(draw, cpus)
    first, second = first + tail(draw, saver, front), second + tail(draw, reader, after)
    return [{"event": saver, "text": first}, {"event": reader, "text": second, "saver": saver}]


def reader(case, name):
    """Return what the kernel is given in place of a reader. It takes no `vals=$own`, so the reader makes an event of each of
    its latencies, which the trace shows, and a trigger on these events sums them. The lines are (file, text)."""
    text, at = case["text"], case["text"].index("-$")
    own = case["text"][:at].rpartition(":")[2].partition("=")[0]
    head, _, rest = text.partition(" if ")
    parts = head.split(":")[1:]
    found = {part.partition("=")[0]: part.partition("=")[2] for part in parts}
    fields = [item.split(".")[0] for item in found["keys"].split(",")]
    values = [value for value in found["vals"].split(",") if value != f"${own}"]
    kept = [part for part in parts if not part.startswith("vals=") and not (part.startswith("sort=") and "$" in part)]
    kept += [f"vals={','.join(values)}"] if values else []
    kept.append(f"onmatch(sched.{case['saver']}).{name}(${own},{','.join(fields)})")
    kinds = [TYPES[re.sub("prev_|next_", "", field)] + f" {field}" + ("[16]" if field in TEXTS else "") for field in fields]
    summed = f"hist:keys={found['keys']}:vals=lat"
    summed += f":sort={found['sort'].replace('$' + own, 'lat')}" if "sort" in found else ""
    summed += f":size={found['size']}" if "size" in found else ""
    case["synthetic"], case["kernel"] = name, f"hist:{':'.join(kept)} if {rest}"
    return [
        ("synthetic_events", f"{name} u64 lat; {'; '.join(kinds)}"),
        (f"events/sched/{case['event']}/trigger", case["kernel"]),
        (f"events/synthetic/{name}/trigger", summed),
        (f"events/synthetic/{name}/enable", "1"),
    ]


def with_clock(cpus, text):
    """Return a trigger's text for the kernel. A trigger with a stamp sets the clock, to `global` if it names none. On several
    CPUs that clock stands still on a CPU whose own clock is behind, so that many events have one stamp."""
    head, _, rest = text.partition(" if ")
    return f"{head}:clock=mono if {rest}" if cpus > 1 and "=common_timestamp" in head else text


def same_to_the_kernel(case):
    """Return what tells two triggers apart for the kernel, which takes no equal one: not the size, nor that of buckets."""
    trigger = Trigger(case["event"], case["text"])
    keys = [(field, mode.split("=")[0]) for field, mode in trigger.keys]
    return repr((case["event"], keys, trigger.values, trigger.variable, trigger.sort, case["text"].partition(" if ")[2]))


def cases_of(cpus, seed, count):
    draw, cases, seen, groups = random.Random(seed), [], set(), 0
    for group in fixed(cpus):
        groups += 1
        cases += [case | {"group": groups} for case in group]
        seen |= {same_to_the_kernel(case) for case in group if "refuse" not in case.get("known", "")}
    while count > 0:
        group = pair(draw, cpus, count) if count > 1 and draw.random() < 0.25 else plain(draw, cpus)
        if seen & {same_to_the_kernel(case) for case in group}:
            continue
        seen |= {same_to_the_kernel(case) for case in group}
        groups, count = groups + 1, count - len(group)
        cases += [case | {"group": groups} for case in group]
    return cases


def main():
    cpus, seed, count, folder = int(sys.argv[1]), int(sys.argv[2]), int(sys.argv[3]), sys.argv[4]
    cases, lines = cases_of(cpus, seed, count), []
    for number, case in enumerate(cases, 1):
        case["number"] = number
        if "saver" in case:
            told = reader(case, f"hd{number}")
        else:
            case["kernel"] = case["text"]
            told = [(f"events/sched/{case['event']}/trigger", case["kernel"])]
        lines += [f"{number}\t{file}\t{with_clock(cpus, text)}\n" for file, text in told]
    with open(f"{folder}/cases", "w") as file:
        file.writelines(lines)
    with open(f"{folder}/cases.json", "w") as file:
        json.dump(cases, file, indent=1)


main()
