#!/usr/bin/env python3
"""Compares the tables of the guide's recipes with a calculation that knows nothing of triggers.

    recipes.py HISTDESK HISTWATCH

The recipes are the sections of docs/GUIDE.md that have a number; sessions.py checks that they show what their commands print.
Here all rows of each table that a command prints are compared with a calculation over the lines of the trace, from what
happened to each task, in order. Each script of examples/recipes stands in the guide, and runs over every example without a
refusal, whatever its CPUs and tasks. The last line says how many things hold.
"""

import os
import re
import sys
import tempfile
from collections import Counter, defaultdict, namedtuple

# Nothing is written beside the sources.
sys.dont_write_bytecode = True

from pages import ROOT, text_of
from sessions import Count, Place, blocks, lacking, steps

GUIDE = "docs/GUIDE.md"
BEFORE, AFTER = "recipes-before.trace", "recipes.trace"
# Among these are recordings of other machines, CPUs and tasks.
TRACES = [BEFORE, AFTER, "wakeups.trace", "who-wakes.trace", "full-table.trace", "two-wakings.trace"]

# ---- what the recipes print


def recipes(text):
    """Yield the number of each recipe, and the commands of its sessions."""
    for part in re.split(r"^##+ ", text, flags=re.MULTILINE):
        number = re.match(r"[0-9]+(?=\.)", part)
        if number:
            yield number[0], [step for _, _, kind, block, _ in blocks(part) if kind == "console" for step, _ in steps(block)]


def tables(output):
    """Return the rows of each table that was printed: the parts of the key as text, and the numbers."""
    result = []
    for part in output.split("# event histogram\n")[1:]:
        rows = re.findall(r"^\{ (.*) \} hitcount: +([0-9]+)(?:  \w+: +([0-9]+))?$", part, re.MULTILINE)
        keys = (tuple(re.split(r" *, (?=\w+: )", key)) for key, _, _ in rows)
        texts = (tuple(piece.partition(": ")[2].strip() for piece in key) for key in keys)
        result.append({key: tuple(int(number) for number in row[1:] if number) for key, row in zip(texts, rows)})
    return result


# ---- the calculation

# What happened: a task (name, pid) was `woken`, made (`new`), switched to (`in`) or away from (`out`, with its state). `by` is
# the task that ran, and `flag` the third flag, which is h or s in interrupts.
Happened = namedtuple("Happened", "stamp cpu what name pid state by flag")
LINE = re.compile(r" *(.+)-(\d+) +\[(\d+)\] ..(.).. +(\d+)\.(\d{6}): (\w+): (.*)")
WAKE = re.compile(r"comm=(.*) pid=(\d+) prio=")
SWITCH = re.compile(r"prev_comm=(.*) prev_pid=(\d+) prev_prio=\d+ prev_state=(\S+) ==> next_comm=(.*) next_pid=(\d+) next")


def things_of(line):
    _, by, cpu, flag, seconds, micros, event, fields = LINE.fullmatch(line).groups()
    at = int(seconds + micros), cpu
    if event != "sched_switch":
        name, pid = WAKE.match(fields).groups()
        return [Happened(*at, "new" if event == "sched_wakeup_new" else "woken", name, pid, "", by, flag)]
    old, old_pid, state, new, new_pid = SWITCH.match(fields).groups()
    return [Happened(*at, "out", old, old_pid, state, by, flag), Happened(*at, "in", new, new_pid, "", by, flag)]


def things_in(name):
    """Return all things of a trace, in order of time, and at one time in order of CPUs, without those of the idle task."""
    with open(os.path.join(ROOT, "examples", name), encoding="latin-1") as file:
        things = [thing for line in file if line[0] != "#" for thing in things_of(line.rstrip("\n"))]
    return [thing for thing in sorted(things, key=lambda thing: thing[:2]) if thing.pid != "0"]


def by_task(things):
    lives = defaultdict(list)
    for thing in things:
        lives[thing.pid].append(thing)
    return lives.values()


def neighbours(things, first, second, among):
    """Yield, for each task, a `first` thing and a `second` one that follows it among those of some kinds."""
    for life in by_task(things):
        life = [thing for thing in life if thing.what in among]
        for one, two in zip(life, life[1:]):
            if one.what == first and two.what == second:
                yield one, two


def summed(pairs, key):
    """Return how many pairs there are under each key, and the sum of their times."""
    table = {}
    for one, two in pairs:
        count, total = table.get(key(one, two), (0, 0))
        table[key(one, two)] = count + 1, total + two.stamp - one.stamp
    return table


def counts_of(keys):
    return {key: (count,) for key, count in Counter(keys).items()}


def task(_, two):
    return two.name, two.pid


def runs(things):
    return neighbours(things, "in", "out", ("in", "out"))


def sleeps(things, state):
    return [(one, two) for one, two in neighbours(things, "out", "woken", ("in", "out", "woken")) if one.state == state]


def preemptions(things):
    return [(one, two) for one, two in neighbours(things, "out", "in", ("in", "out")) if one.state[0] == "R"]


def waits(things):
    """Return waits from the last waking before a switch to the task, unless the task ran as it was woken, and was then
    switched from while it could run on."""
    kept = [thing for thing in things if thing.what != "out" or thing.state[0] == "R"]
    return neighbours(kept, "woken", "in", ("in", "out", "woken"))


def stamps_by(things, save, read_at, key):
    """Yield what stamps give that are kept by key: the last saved one is read once."""
    saved = {}
    for thing in things:
        if save(thing):
            saved[key(thing)] = thing
        if read_at(thing) and key(thing) in saved:
            yield saved.pop(key(thing)), thing


def runs_by_name(things):
    """Yield what stamps by name give. A switch saves before it reads, so its `in` stands before its `out`."""
    in_order = sorted(things, key=lambda thing: (thing.stamp, thing.cpu, thing.what))
    return stamps_by(in_order, lambda thing: thing.what == "in", lambda thing: thing.what == "out", lambda thing: thing.name)


def careless_waits(things, cpu=None):
    """Yield what stamps by pid give with no reader that clears them, and without regard to what is read elsewhere."""

    def ends(thing):
        return thing.what == "in" and cpu in (None, thing.cpu)

    return stamps_by(things, lambda thing: thing.what == "woken", ends, lambda thing: thing.pid)


def powers(pairs):
    return counts_of((f"~ 2^{(two.stamp - one.stamp - 1).bit_length() if two.stamp > one.stamp else 0}",) for one, two in pairs)


def wakings(things, key, flags=None):
    return counts_of(key(thing) for thing in things if thing.what == "woken" and (flags is None or thing.flag in flags))


def takers(things):
    """Count who was preempted, and by whom: the two halves of a switch."""
    turns = zip(things, things[1:])
    return counts_of(
        (one.name, two.name) for one, two in turns if one.what == "out" and one.state[0] == "R" and two.what == "in"
    )


def expected_tables():
    """Return, for each recipe, the tables of each of its commands that prints tables."""
    all_of = things_in(AFTER)
    on_one = [(one, two) for one, two in waits(all_of) if two.cpu == "001"]
    waker = lambda thing: (thing.by, thing.name)
    cyclic = [powers(pair for pair in waits(things_in(name)) if pair[1].name == "cyclictest") for name in (BEFORE, AFTER)]
    soft = [pair for pair in waits(all_of) if pair[1].name == "ksoftirqd/3"]
    soft_runs = [pair for pair in runs(all_of) if pair[1].name == "ksoftirqd/3"]
    name = lambda _, two: (two.name,)
    pid = lambda _, two: (two.pid,)
    cleared = [(one, two) for one, two in neighbours(all_of, "woken", "out", ("in", "out", "woken")) if two.state[0] == "R"]
    of_group = lambda pairs: [pair for pair in pairs if pair[1].pid in ("24650", "24652", "24654")]
    waits_and_cleared = lambda some: [summed(some(waits(all_of)), task), counts_of(task(*pair) for pair in some(cleared))]
    return {
        "1": [[summed(runs(all_of), pid)], [summed(runs_by_name(all_of), name)]],
        "2": [[summed(sleeps(all_of, "S"), task), summed(sleeps(all_of, "D"), task)]],
        "3": [[summed(preemptions(all_of), task), takers(all_of)]],
        "4": [[summed(neighbours(all_of, "new", "in", ("new", "in")), task)]],
        "5": [waits_and_cleared(list), [summed(careless_waits(all_of), task)]],
        "6": [[wakings(all_of, waker)], [wakings(all_of, waker, ".")]],
        "7": [
            [summed(soft, name), summed(soft_runs, name)],
            [wakings(all_of, lambda thing: (str(int(thing.cpu)), thing.name), "sH")],
        ],
        "8": [[powers(on_one), summed(on_one, pid)], [summed(careless_waits(all_of, "001"), task)]],
        "9": [waits_and_cleared(of_group)],
        "10": [cyclic],
    }


def main():
    histdesk, histwatch = map(os.path.realpath, sys.argv[1:3])
    expected, count, text = expected_tables(), Count(), text_of(GUIDE)
    with tempfile.TemporaryDirectory() as folder:
        place = Place(folder, histdesk, histwatch)
        for number, commands in recipes(text):
            outputs = [place.printed("bash", "-c", command)[0] for command in commands if not lacking("console", command)]
            rows = [tables(output) for output in outputs if tables(output)]
            if number in expected:
                count.hold(rows == expected.pop(number), f"recipe {number}: other rows than expected: {rows}")
        for name in os.listdir(os.path.join(ROOT, "examples", "recipes")):
            count.hold(f"examples/recipes/{name}" in text, f"{GUIDE} lacks examples/recipes/{name}")
            for trace in TRACES:
                output, status = place.printed("./histdesk", f"examples/recipes/{name}", f"examples/{trace}")
                count.hold(status == 0 and output.startswith("loaded "), f"{name} over {trace}: status {status}, {output}")
    count.hold(not expected, f"{GUIDE} lacks recipe {', '.join(expected)}")
    print("\n".join([*count.wrong, f"{count.things - len(count.wrong)} of {count.things} recipes hold"]))
    return 1 if count.wrong else 0


sys.exit(main())
