#!/usr/bin/env python3
"""Compares the tables of a real kernel with the desk's, for kernel.sh.

    compare.py CPUS FOLDER PROGRAM

FOLDER has cases.json (see triggers.py) and `out` with what the guest showed, and gets the scripts that PROGRAM runs,
with what it printed. A test is a trigger's table (its head, its rows, their order, its totals), its list of latencies, or
a refusal. It prints each difference with its trigger and both rows, known differences marked as such, and the counts at
the end.
"""

import collections
import json
import os
import re
import subprocess
import sys

sys.dont_write_bytecode = True

sys.path.insert(0, os.path.join(os.path.dirname(os.path.realpath(__file__)), "..", "model"))
from releases import expects_of
from shown import desk_runs, kernel_blocks, refusals, text_of, what_is_lost
from tables import key_of, read_table, read_trace, replayed, with_ends
from model_trigger import Trigger

# How many rows of a difference are shown, and how many bytes of a trigger.
MOST_SHOWN, MOST_TEXT = 3, 200
TIE = "stamps of two CPUs tie, and the desk goes by CPU"
INHERITED = "a task has inherited the priority -1, and the end of its bucket is modulo 2^64"
RACE = "two CPUs have inserted a new key at once, and the kernel has dropped a hit"
counts = collections.Counter()


def text_shown(case):
    """Return the text of a case's trigger; of a very long one, both ends."""
    text = f"{case['event']} {case['text']}"
    return text if len(text) <= MOST_TEXT else f"{text[: MOST_TEXT // 2]} .. {text[-MOST_TEXT // 2 :]}"


def passes():
    counts["passed"] += 1


def fails(case, what, lines):
    counts["failed"] += 1
    print(f"DIFFERS: {what}: {text_shown(case)}")
    print("\n".join(f"    {line}" for line in lines))


def is_known(case, what, why, lines):
    """Count and print a known difference, which is what is wanted there, so that it passes."""
    counts["known"] += 1
    passes()
    print(f"known: {what}: {text_shown(case)}: {why}")
    for line in lines[: 2 * MOST_SHOWN]:
        print(f"    {line}")


def row_lines(kernel, desk):
    """Return the first rows in which two tables differ, those of one key together."""
    left, right, lines = dict(kernel.rows), dict(desk.rows), []
    keys = [key for key in dict.fromkeys([*left, *right]) if left.get(key) != right.get(key)]
    for key in keys[:MOST_SHOWN]:
        for side, rows in (("kernel", left), ("desk", right)):
            lines.append(f"{side:6}: {row_text(key, rows[key])}" if key in rows else f"{side:6}: no row {row_text(key, {})}")
    if len(keys) > MOST_SHOWN:
        lines.append(f"and {len(keys) - MOST_SHOWN} more keys")
    return lines


def row_text(key, sums):
    return " ".join(f"{name}={value}" for name, value in [*key, *sums.items()])


def table_lines(kernel, desk, sort, with_totals):
    """Return how two tables differ, in the rows, in their order or in the totals."""
    if len(kernel.rows) != len(desk.rows) or dict(kernel.rows) != dict(desk.rows):
        return "rows", row_lines(kernel, desk)
    if with_totals and kernel.totals != desk.totals:
        told = ["hits {} entries {} dropped {}".format(*table.totals) for table in (kernel, desk)]
        return "totals", [f"kernel: {told[0]}", f"desk  : {told[1]}"]
    left, right = kernel.order(sort), desk.order(sort)
    if left != right and desk.head:
        at = next(i for i in range(len(left)) if left[i] != right[i])
        return "order", [f"row {at + 1}, by {sort}", f"kernel: {left[at]}", f"desk  : {right[at]}"]
    return None, []


def differs(case, trigger, desk):
    """Return in what the kernel's table differs from this one, and the lines that show it. A reader's own variable is summed
    by its synthetic event's trigger."""
    kernel, own = read_table(case["block"], trigger.keys), []
    if trigger.saves:
        kernel = kernel.renamed("common_timestamp", trigger.saves)
    if trigger.reads:
        own = [value for value in trigger.values if value.startswith("$")]
    plain = [value.lstrip("$") for value in trigger.values if value not in own]
    told = table_lines(kernel, desk.only(plain), trigger.sort if not own else [], True)
    if not told[0] and own:
        summed = read_table(case["summed"], trigger.keys).renamed("lat", own[0][1:])
        told = table_lines(summed, desk.only([own[0][1:]]), trigger.sort, False)
    if not told[0] and desk.head and not own and kernel.head != desk.head:
        told = "head", [f"kernel: {kernel.head}", f"desk  : {desk.head}"]
    return told


def compares(case, trigger, group, events, cpus):
    """Compare a case that both sides took."""
    desk = read_table(case["answer"], trigger.keys)
    counts.update(tables=1, rows=len(desk.rows), empty=not desk.rows)
    if not trigger.own and "known" not in case:
        lines = [{line for line in side if line.startswith("{ ")} for side in (case["block"], case["answer"])]
        counts.update(plain=len(lines[1]), same=len(lines[0] & lines[1]))
    what, lines = differs(case, trigger, desk)
    if case["totals"] != "hits {} entries {} dropped {}".format(*desk.totals):
        what, lines = "totals", [f"desk's hist  : {desk.totals}", f"desk's totals: {case['totals']}"]
    if "known" in case and what == case["known"]:
        is_known(case, what, case["why"], lines)
    elif "known" in case:
        fails(case, f"not as known: {case['known']}: {case['why']}", lines or ["both sides are the same"])
    elif what:
        why = may_differ(case, trigger, desk, lambda: in_line_order(case, group, events)[0], cpus)
        is_known(case, what, why, lines) if why else fails(case, what, lines)
    else:
        passes()


def may_differ(case, trigger, desk, replayed_table, cpus):
    """Return why this table of the kernel may differ from the desk's, or None."""
    if case["inherits"]:
        case = with_ends(case)
        if not differs(case, trigger, desk)[0]:
            return INHERITED
    if cpus > 1 and not differs(case, trigger, replayed_table())[0]:
        return TIE
    if cpus > 1 and not trigger.own and has_dropped(read_table(case["block"], trigger.keys), desk):
        return RACE
    return None


def has_dropped(kernel, desk):
    """Return whether the kernel's table lacks exactly as many hits as the kernel has dropped, while the desk, whose table
    isn't full, has dropped none."""
    counted = {key: sums["hitcount"] for key, sums in kernel.rows}
    missing = [sums["hitcount"] - counted.pop(key, 0) for key, sums in desk.rows]
    return not counted and min(missing, default=0) >= 0 and kernel.totals[2] == sum(missing) > desk.totals[2] == 0


def in_line_order(case, group, events):
    """Return the case's table and latencies from a replay in the order of the trace's lines, from which the desk's order
    differs only in ties. The table's rows have no order."""
    return replayed(group, events)[group.index(case)]


def compares_latencies(case, trigger, group, events, cpus):
    """Compare the kernel's synthetic events, one for each latency, with the desk's list, CPU by CPU: between two CPUs the
    events may stand in another order than the switches that made them, since each has a stamp of its own. What a full table
    has dropped makes no event; the desk lists it."""
    form = re.compile(rf"\[(\d+)\] .*: {case['synthetic']}: lat=(\d+) ")
    found = [form.search(event["text"] + " ") for event in events]
    kernel = by_cpu((int(one[1]), int(one[2])) for one in found if one)
    places = {(event["cpu"], event["line"]): event for event in events}
    kept = {key for key, _ in read_table(case["answer"], trigger.keys).rows}
    desk, dropped = [], 0
    for line in case["lat"]:
        cpu, at, latency = (int(text) for text in re.fullmatch(r"\d+:\d+ -> (\d+):(\d+): (\d+) us", line).groups())
        if key_of(trigger, trigger.key_of(places[cpu, at])) in kept:
            desk.append((cpu, latency))
        else:
            dropped += 1
    desk = by_cpu(desk)
    counts.update(lists=1, latencies=len(kernel))
    if kernel == desk:
        if dropped:
            is_known(case, "latencies", f"the desk lists {dropped} more, of dropped hits", [])
        else:
            passes()
        return
    at = next((i for i, (left, right) in enumerate(zip(kernel, desk)) if left != right), min(len(kernel), len(desk)))
    lines = [f"{len(kernel)} and {len(desk)} latencies; number {at + 1}, CPU and microseconds:"]
    lines += [f"{side}: {found[at : at + 1]}" for side, found in (("kernel", kernel), ("desk  ", desk))]
    if cpus > 1 and by_cpu(in_line_order(case, group, events)[1]) == kernel:
        is_known(case, "latencies", TIE, lines)
    else:
        fails(case, "latencies", lines)


def by_cpu(latencies):
    """Return the latencies in the order of the CPUs, and on each CPU in the order given."""
    return sorted(latencies, key=lambda latency: latency[0])


def compares_case(case, group, events, cpus):
    known, refused = case.get("known", ""), [side for side in ("kernel refuses", "desk refuses") if side in case]
    counts.update(refusals=bool(refused))
    told = [f"{side}: {case[side]}" for side in refused]
    if "synthetic refused" in case:
        fails(case, "synthetic event refused", [case["synthetic refused"]])
    elif known == "both refuse" and len(refused) == 2:
        passes()
    elif refused == [known]:
        is_known(case, known, case["why"], told)
    elif refused:
        fails(case, " and ".join(refused), told)
    elif "refuse" in known:
        fails(case, f"not as known: {known}: {case['why']}", ["both sides take it"])
    else:
        trigger = Trigger(case["event"], case["text"])
        compares(case, trigger, group, events, cpus)
        if "synthetic" in case:
            compares_latencies(case, trigger, group, events, cpus)


def has_whole_trace(out, events, loaded):
    """Return whether no event was lost, the trace has each that the buffers held, in the order of their stamps, and the desk
    has read all; and whether the workload ended well."""
    lost, held = what_is_lost(out)
    print("".join(f"{line}\n" for line in lost), end="")
    print(f"{held} events held, {len(events)} lines in the trace, {loaded} events loaded")
    stamps = [event["stamp"] for event in events]
    if stamps != sorted(stamps):
        print("the lines of the trace don't stand by their stamps")
    return not lost and held == len(events) == loaded and stamps == sorted(stamps)


def compares_all(cpus, folder, program):
    out = f"{folder}/out"
    with open(f"{folder}/cases.json") as file:
        cases = json.load(file)
    version = text_of(f"{out}/version").strip()
    print(f"kernel {version}, {cpus} CPUs, {len(cases)} triggers")
    for case in cases:
        expects_of(case, version)
    events = read_trace(text_of(f"{out}/trace").split("\n"))
    refusals(cases, out)
    kernel_blocks(cases, out)
    loaded = desk_runs(cases, folder, program)
    counts["passed" if has_whole_trace(out, events, loaded) else "failed"] += 1
    for case in cases:
        compares_case(case, [other for other in cases if other["group"] == case["group"]], events, cpus)
    print("{tables} tables ({empty} without a row) with {rows} rows,".format_map(counts), end=" ")
    print("{lists} lists with {latencies} latencies, {refusals} refusals;".format_map(counts), end=" ")
    print(f"{counts['known']} known differences")
    print("{same} of {plain} rows of triggers without a variable are the same byte by byte".format_map(counts))


def main():
    try:
        compares_all(int(sys.argv[1]), sys.argv[2], sys.argv[3])
    except (OSError, ValueError, subprocess.TimeoutExpired) as error:
        counts["failed"] += 1
        print(f"not compared: {error}")
    print(f"{counts['passed']} passed, {counts['failed']} failed")
    return counts["failed"] > 0


sys.exit(main())
