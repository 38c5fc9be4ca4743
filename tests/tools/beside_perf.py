#!/usr/bin/env python3
"""Compares the waits and the summary of a recording of this machine with what perf says of the same recording.

    beside_perf.py [SECONDS]

It is run by hand, as root, and needs perf. It records the scheduler's events, of one second if SECONDS isn't given. For each
task, `perf sched latency` reports how many waits it had and how long the greatest was, and so does the package, from the same
events, converted by from-perf. perf counts from the sched_wakeup on, takes a task that left in state R+ for one that sleeps,
has no wait of a task that was woken just before it slept, and has one of 0 us for a task of which it hasn't heard before it
runs. For the comparison the text is changed to fit this, and the differences that are left are printed.

`perf sched timehist -s` says how often each task was switched from, and how long it ran. If a switch is missing, perf counts
the time since the CPU's last switch for the task that the next one leaves, and the summary counts it for none: such tasks are
compared only by the count. perf's stamps have nanoseconds, so a run may differ by a microsecond. The last lines say for how
many tasks the numbers are the same."""

import collections
import os
import re
import subprocess
import sys
import tempfile

# Nothing is written beside the sources.
sys.dont_write_bytecode = True

HERE = os.path.dirname(os.path.realpath(__file__))
sys.path[:0] = [os.path.join(HERE, "..", "..", "python"), os.path.join(HERE, "..", "model")]

import histdesk
import plain_waits

EVENTS = ("sched_waking", "sched_wakeup", "sched_wakeup_new", "sched_switch")
# A task's name and number, how many waits, their mean and the greatest in milliseconds.
ROW = re.compile(r" +(.*):([0-9]+) +\|[^|]*\| +([0-9]+) \| avg: *[0-9.]+ ms \| max: *([0-9.]+) ms \|.*")
# A task's name and number, how often it was switched from, and how long it ran, in milliseconds.
RUN = re.compile(r" +(.*)\[([0-9]+)(?:/[0-9]+)?\] +-?[0-9]+ +([0-9]+) +([0-9.]+) .*")


def told_by(*words):
    return subprocess.run(words, stdout=subprocess.PIPE, stderr=subprocess.PIPE, check=True).stdout


def by_perf(path):
    """Return what perf reports for each task: its name, how many waits it had, and the greatest in microseconds."""
    rows = map(ROW.fullmatch, told_by("perf", "sched", "latency", "-p", "-i", path).decode().split("\n"))
    return {int(row[2]): (row[1], int(row[3]), round(float(row[4]) * 1000)) for row in rows if row}


def as_perf_counts(text):
    """Return the text, changed so that it has the waits that perf counts."""
    lines = [line for line in text.split(b"\n") if b": sched_waking:" not in line]
    return b"\n".join(lines).replace(b": sched_wakeup:", b": sched_waking:").replace(b" prev_state=R+ ", b" prev_state=P ")


def unheard(text):
    """Return the tasks that are first heard of as they run."""
    heard, found = set(), set()
    for event in plain_waits.events_of(text):
        found |= {event.pid} - heard if event.event == "sched_switch" else set()
        heard |= {event.pid, event.before}
    return found


def by_us(text):
    """Return what the package reports for each task: how many waits it had, and the greatest in microseconds."""
    waits = histdesk.waits(text)
    rows, late = {}, unheard(text)
    for row in waits.counts("task").by("pid").rows():
        rows[row.key[0]] = (row.count, row.max)
    return {pid: (rows.get(pid, (0, 0))[0] + (pid in late), rows.get(pid, (0, 0))[1]) for pid in {*rows, *late}}


def runs_by_perf(path):
    """Return what perf reports for each task: its name, how often it was switched from, and how many microseconds it ran."""
    rows = map(RUN.fullmatch, told_by("perf", "sched", "timehist", "-s", "-i", path).decode().split("\n"))
    return {int(row[2]): (row[1].strip(), int(row[3]), round(float(row[4]) * 1000)) for row in rows if row}


def left(text):
    """Return how often each task was switched from, and the tasks that a CPU left without having switched to them."""
    running, counts, unknown = {}, collections.Counter(), set()
    for event in plain_waits.events_of(text):
        if event.event == "sched_switch":
            counts[event.before] += 1
            if running.get(event.place.cpu, event.before) != event.before:
                unknown.add(event.before)
            running[event.place.cpu] = event.pid
    return counts, unknown


def hold_runs(path, text):
    """Compare how often each task was switched from, and how long it ran."""
    theirs, (counts, unknown) = runs_by_perf(path), left(text)
    ours = {row.pid: row.run_time for row in histdesk.summary(text).tasks}
    same = 0
    for pid, (name, count, micros) in theirs.items():
        is_same = counts[pid] == count and (pid in unknown or abs(ours[pid] - micros) <= max(count, 2))
        same += is_same
        if not is_same:
            print(f"{name}-{pid}: perf {count} switches, {micros} us; here {counts[pid]}, {ours[pid]} us")
    print(f"runs: {same} of {len(theirs)} tasks hold, {len(unknown)} of them with a missing switch")


def main():
    seconds = sys.argv[1] if len(sys.argv) > 1 else "1"
    with tempfile.TemporaryDirectory() as folder:
        path = os.path.join(folder, "perf.data")
        names = ",".join(f"sched:{name}" for name in EVENTS)
        told_by("perf", "record", "-q", "-a", "-m", "16M", "-o", path, "-e", names, "sleep", seconds)
        theirs = by_perf(path)
        text = told_by(os.path.join(HERE, "..", "..", "tools", "from-perf"), path)
        hold_runs(path, text)
    ours = by_us(as_perf_counts(text))
    same = 0
    for pid, (name, count, most) in theirs.items():
        own_count, own_most = ours.get(pid, (0, 0))
        # perf's stamps are cut to microseconds, and the text's are rounded.
        is_same = own_count == count and abs(own_most - most) <= 2
        same += is_same
        if not is_same:
            print(f"{name}-{pid}: perf {count} waits, the greatest {most} us; here {own_count}, {own_most} us")
    whole = histdesk.waits(text)
    print(f"all waits: {len(whole)}; of perf {sum(count for _, count, _ in theirs.values())}")
    print(f"{same} of {len(theirs)} tasks hold")


main()
