#!/usr/bin/env python3
"""Records this machine, and holds the waits that are reported as sure against the kernel's own account of them, for judge.sh.

    judge.py [--minutes N] [--seed N] [--keep FOLDER] [RECORDING..]

Each RECORDING is the folder of a recording (verdict.py) that was made before: only these are judged then. It prints a line for
each recording, what stands against its waits, and a last line with the counts.
"""

import argparse
import contextlib
import os
import random
import shutil
import signal
import subprocess
import sys
import tempfile
import time
from collections import defaultdict
from typing import DefaultDict, Iterator, List, NamedTuple

# Nothing is written beside the sources.
sys.dont_write_bytecode = True

HERE = os.path.dirname(os.path.realpath(__file__))
ROOT = os.path.dirname(os.path.dirname(HERE))
sys.path[1:1] = [os.path.join(ROOT, "python"), os.path.join(ROOT, "tests", "tools")]

import account
from checks import check, finish
from kinds import KINDS, NotRecorded
from load import LOADS, Load, random_load, running
from verdict import EACH, Verdict, verdict_on

# What the gate records, under which load and for how many seconds. A quiet recording has to last, and so has one of perf, which
# takes a while to begin and to end on all CPUs, and one with a quota, under which a wait lasts most of a tenth of a second:
# waits at the ends of such a recording aren't sure.
GATE = [
    ("perf", "loaded", 2.5),
    ("perf", "quota", 4),
    ("perf-overwrite", "loaded", 2.5),
    ("record", "loaded", 1.2),
    ("tracefs", "quiet", 2.5),
    ("tracefs-full", "loaded", 1.2),
    ("trace-cmd", "quiet", 2.5),
]
# So many of what stands against waits is shown of a recording.
MOST = 5
# Of an ordinary recording, this share of the waits must be sure, and they must have this share of the time that the kernel
# counted, or that if tasks are under a quota.
SURE, COVERED, LIMITED = 0.95, 0.95, 0.93
# So many waits, and so many microseconds that the kernel counted, are enough for that.
ENOUGH, ENOUGH_TIME = 500, 50_000


# The verdicts on recordings, by their kinds.
Verdicts = DefaultDict[str, List[Verdict]]


class Plan(NamedTuple):
    """A recording that is to be made: its name, its kind, its load, and for how long."""

    name: str
    kind: str
    load: Load
    seconds: float


def gate_plans() -> Iterator[Plan]:
    for kind, load, seconds in GATE:
        yield Plan(f"{kind}-{load}", kind, LOADS[load], seconds)


def random_plans(seed: int, minutes: float) -> Iterator[Plan]:
    """Return recordings of any kind under any load, until so many minutes have passed."""
    draw, end, number = random.Random(seed), time.monotonic() + 60 * minutes, 0
    while time.monotonic() < end:
        number += 1
        kind = draw.choice(sorted(KINDS))
        load = draw.choice([*LOADS.values(), *[random_load(draw)] * 3])
        yield Plan(f"{kind}-{seed}-{number}", kind, load, draw.uniform(2, 3))


def record(plan: Plan, folder: str) -> None:
    """Make a recording in a folder."""
    os.makedirs(folder)
    with running(plan.load, plan.seconds + 60):
        readings = os.path.join(folder, "readings")
        text = KINDS[plan.kind].record(folder, lambda: account.watch(readings, plan.seconds))
    with open(os.path.join(folder, "text"), "wb") as file:
        file.write(text)
    with open(os.path.join(folder, "plan"), "w", encoding="ascii") as file:
        file.write(f"{plan.kind}\n{' '.join(plan.load.free)}\n{' '.join(plan.load.limited)}\n")


def faults(verdict: Verdict, kind: str, is_limited: bool) -> List[str]:
    """Return what is wrong with a recording's waits."""
    found = list(verdict.false)
    # Of a kind that isn't known, nothing but what is false is judged.
    is_ordinary = kind in KINDS and KINDS[kind].is_ordinary and not verdict.has_losses
    if is_ordinary and verdict.waits >= ENOUGH and verdict.sure < SURE * verdict.waits:
        found.append(f"only {verdict.sure} of {verdict.waits} waits are sure")
    wanted = LIMITED if is_limited else COVERED
    if is_ordinary and verdict.counted >= ENOUGH_TIME and verdict.said < wanted * verdict.counted:
        found.append(f"sure waits have {verdict.said:.0f} of the {verdict.counted:.0f} us that the kernel counted")
    return found


def judge(folder: str, name: str, all_of: Verdicts) -> bool:
    """Judge the recording in a folder, and return whether nothing is wrong with it."""
    with open(os.path.join(folder, "plan"), encoding="ascii") as file:
        kind, _, limited, each = (file.read().split("\n") + [""])[:4]
    verdict = verdict_on(folder, int(each or EACH))
    found = faults(verdict, kind, bool(limited))
    print(f"{name}: {figures([verdict])}", flush=True)
    check(verdict.waits, f"{name}: no waits")
    check(not found, "\n".join(f"{name}: {fault}" for fault in found[:MOST]))
    losses = " with losses" if verdict.has_losses else ""
    all_of[f"{kind}{losses}{', under a quota' if limited else ''}"].append(verdict)
    return verdict.waits > 0 and not found


def judge_plan(plan: Plan, folder: str, keep: str, all_of: Verdicts) -> None:
    """Make a recording and judge it; keep it if something is wrong."""
    path = os.path.join(folder, plan.name)
    try:
        record(plan, path)
        if not judge(path, plan.name, all_of) and keep:
            shutil.copytree(path, os.path.join(keep, plan.name), dirs_exist_ok=True)
    except (NotRecorded, OSError, subprocess.SubprocessError) as error:
        print(f"not tried: {plan.name}: {error}")
    finally:
        shutil.rmtree(path, ignore_errors=True)


def figures(verdicts: List[Verdict]) -> str:
    """Return how many waits some recordings have, and how sure and how true they are."""
    waits, sure = sum(one.waits for one in verdicts), sum(one.sure for one in verdicts)
    said, counted = sum(one.said for one in verdicts), sum(one.counted for one in verdicts)
    share, covered = sure / waits if waits else 0, said / counted if counted else 0
    false = sum(len(one.false) for one in verdicts)
    return f"{waits} waits, {share:.4f} sure, {covered:.4f} of the kernel's time, {false} false"


def print_all(all_of: Verdicts) -> None:
    """Print the figures of each kind of recording, and the least share of a recording."""
    for name, verdicts in sorted(all_of.items()):
        least = min(one.sure / one.waits if one.waits else 1 for one in verdicts)
        print(f"all of {name}: {len(verdicts)} recordings, {figures(verdicts)}, at least {least:.4f} sure in each")


def main() -> None:
    # Recorders end by the first, also if what has started this ignores it. The second ends all that was started.
    signal.signal(signal.SIGINT, signal.default_int_handler)
    signal.signal(signal.SIGTERM, lambda *_: sys.exit(143))
    parser = argparse.ArgumentParser(usage="judge.py [--minutes N] [--seed N] [--keep FOLDER] [RECORDING..]")
    parser.add_argument("--minutes", type=float, default=0)
    parser.add_argument("--seed", type=int, default=int(time.time()))
    parser.add_argument("--keep", default="")
    parser.add_argument("recordings", nargs="*")
    chosen = parser.parse_args()
    all_of: Verdicts = defaultdict(list)
    plans = random_plans(chosen.seed, chosen.minutes) if chosen.minutes else gate_plans()
    with contextlib.suppress(KeyboardInterrupt), tempfile.TemporaryDirectory() as folder:
        for path in chosen.recordings:
            judge(path, os.path.basename(os.path.normpath(path)), all_of)
        for plan in [] if chosen.recordings else plans:
            judge_plan(plan, folder, chosen.keep, all_of)
    print_all(all_of)


if __name__ == "__main__":
    main()
    finish()
