#!/usr/bin/env python3
"""Checks that verdict.py finds false waits, and what the kernel's account lacks, in recordings written by hand.

It needs neither root nor a recording. The last line says how many of how many things hold."""

import os
import sys
from typing import List, Sequence, Tuple

# Nothing is written beside the sources.
sys.dont_write_bytecode = True

ROOT = os.path.dirname(os.path.dirname(os.path.dirname(os.path.realpath(__file__))))
sys.path[1:1] = [os.path.join(ROOT, "python"), os.path.join(ROOT, "tests", "tools")]

from account import TAKEN, Reading, Readings
from checks import check, finish
from verdict import Stretch, Verdict, Wait, verdict_of

# The task that is judged.
PID = 7


def line(cpu: int, task: int, stamp: int, what: str) -> str:
    return f"a-{task} [{cpu:03}] {stamp // 10**6}.{stamp % 10**6:06}: {what}"


def waking(name: str, cpu: int, stamp: int, target: int = 1) -> str:
    return line(cpu, 9, stamp, f"sched_{name}: comm=a b pid={PID} prio=120 target_cpu={target:03}")


def switch(cpu: int, stamp: int, prev: int, state: str, following: int) -> str:
    front = f"prev_comm=a prev_pid={prev} prev_prio=120 prev_state={state}"
    return line(cpu, prev, stamp, f"sched_switch: {front} ==> next_comm=a b next_pid={following} next_prio=120")


def ran(cpu: int, stamp: int, pid: int = PID, micros: int = 1) -> str:
    return line(cpu, pid, stamp, f"sched_stat_runtime:   comm=a b pid={pid} runtime={1000 * micros} [ns]")


def readings(*delays: int, pid: int = PID) -> Readings:
    """Return readings of an account, 50 ms from one to the next, from 1 ms on."""
    return {pid: [Reading(1000 + 50_000 * at, delay, 1010 + 50_000 * at) for at, delay in enumerate(delays)]}


def judged(
    waits: List[Tuple[str, int, int, bool]], lines: List[str], account: Readings, unseen: Sequence[Stretch] = ()
) -> Verdict:
    """Judge waits of the task, each by its kind, its ends and whether it is sure, in a text of these lines, which two switches
    enclose, and in which tasks ran `unseen`."""
    text = [switch(1, 1, PID, "S", 8), *lines, switch(1, 999_999, 8, "R", PID)]
    all_of = [Wait(PID, kind, begin, end, 1, is_sure) for kind, begin, end, is_sure in waits]
    return verdict_of(all_of, "\n".join(text).encode(), account, unseen=unseen)


def false(waits: List[Tuple[str, int, int, bool]], lines: List[str], account: Readings) -> int:
    return len(judged(waits, lines, account).false)


# A wait from 10 to 40 ms, whose task then runs for a millisecond.
WAIT = [("woken", 10_000, 40_000, True)]
WOKEN = [waking("waking", 0, 10_000), waking("wakeup", 0, 10_003)]
RUN = [switch(1, 40_000, 8, "R", PID), switch(1, 41_000, PID, "S", 8)]


def check_runs() -> None:
    """Check reports that the task ran in its wait."""
    account = readings(0, 30_000)
    check(false(WAIT, [*WOKEN, *RUN], account) == 0, "a true wait is false")
    check(false(WAIT, [*WOKEN, ran(0, 20_000), *RUN], account) == 1, "a run in a wait is missed")
    check(false(WAIT, [*WOKEN, ran(0, 20_000, 8), *RUN], account) == 0, "another's run is taken for the task's")
    check(false([("woken", 10_000, 40_000, False)], [*WOKEN, ran(0, 20_000), *RUN], account) == 0, "an unsure wait is false")
    check(false(WAIT, [*WOKEN, ran(1, 9_998), ran(1, 39_999), *RUN], account) == 0, "a run at an end of a wait is in it")
    sleeps = [waking("waking", 0, 10_000), ran(1, 10_005), switch(1, 10_007, PID, "S", 8), waking("wakeup", 0, 10_009)]
    check(false(WAIT, [*sleeps, *RUN], account) == 0, "a task that was woken as it went to sleep ran in its wait")
    late = [*WOKEN, ran(1, 20_005), switch(1, 20_007, PID, "S", 8), *RUN]
    check(false(WAIT, late, account) == 1, "a run before the task slept is missed")


def check_account() -> None:
    """Check waits that the kernel's account doesn't have, between two readings and over all of them."""
    check(false(WAIT, [*WOKEN, *RUN], readings(0, 1_000)) == 1, "a wait that the account lacks is missed")
    check(false(WAIT, [*WOKEN, *RUN], readings(0, 27_800)) == 0, "the slack is no slack")
    check(false(WAIT, [*WOKEN, *RUN], readings(0, 0, 30_000)) == 1, "what was counted later excuses a wait")
    before = [("woken", 10_000, 60_000, True)]
    then = [switch(1, 60_000, 8, "R", PID), switch(1, 61_000, PID, "S", 8)]
    check(false(before, [*WOKEN, *then], readings(0, 41_000, 50_000)) == 0, "what was counted at a move counts twice")
    unknown = {**readings(0, 1_000), **readings(0, 50_000, pid=TAKEN)}
    check(false(WAIT, [*WOKEN, *RUN], unknown) == 0, "time that the host took is false")
    taken = {**readings(0, 1_000), **readings(90_000, 92_000, pid=TAKEN - 3)}
    check(false(WAIT, [*WOKEN, *RUN], taken) == 1, "time that the host took before excuses a wait")


def check_uncounted() -> None:
    """Check what the kernel doesn't count."""
    none = readings(0, 0)
    stale = [*WOKEN, line(0, 9, 35_000, "sched_wakeup: comm=a pid=5 prio=120 target_cpu=001"), *RUN]
    check(false(WAIT, stale, readings(0, 24_000)) == 0, "what an old clock lacks is false")
    check(false(WAIT, stale, none) == 1, "an old clock excuses a whole wait")
    late = [*WOKEN, RUN[0], ran(1, 40_500, micros=20_400), RUN[1]]
    check(false(WAIT, late, readings(0, 8_200)) == 0, "what the kernel counts as a run is false")
    check(false(WAIT, late, none) == 1, "what the kernel counts as a run excuses a whole wait")
    wait = [("preempted", 10_000, 40_000, True)]
    for state, after, wanted in (("R+", "S", 0), ("R", "S", 1), ("R+", "R", 0), ("R", "R", 1)):
        lines = [switch(1, 10_000, PID, state, 8), switch(1, 40_000, 8, "R", PID), switch(1, 40_050, PID, after, 8)]
        check(false(wait, lines, none) == wanted, f"left in {state}, then in {after}: not {wanted} false")
    # A task that is interrupted on its way to sleep, and woken before it sleeps; and one that is woken when it has slept.
    for state, wanted in (("R+", 0), ("S", 1)):
        lines = [switch(1, 9_000, PID, state, 8), *WOKEN, *RUN]
        check(false(WAIT, lines, none) == wanted, f"left in {state}, then woken: not {wanted} false")
    runs = [switch(1, 8_000, PID, "R+", 8), switch(1, 9_000, 8, "R", PID), *WOKEN, switch(1, 10_005, PID, "S", 8), *RUN]
    check(false(WAIT, runs, none) == 1, "an interruption before the task ran again excuses a wait")
    # Two waits that began with an interruption, of which one may not be counted, and that wasn't on its way to sleep.
    two = [*wait, ("preempted", 41_000, 49_000, True)]
    ends = [switch(1, 10_000, PID, "R+", 8), switch(1, 40_000, 8, "R", PID), switch(1, 41_000, PID, "R+", 8)]
    ends += [switch(1, 49_000, 8, "R", PID), switch(1, 50_000, PID, "R", 8)]
    check(false(two, ends, none) == 1, "two interruptions excuse two waits")
    check(false(two, ends, readings(0, 8_000)) == 0, "a wait that began with an interruption is counted")
    sleeps = [*ends[:-1], switch(1, 49_500, PID, "S", 8)]
    check(false(two, sleeps, none) == 0, "an interruption on the way to sleep is counted")


def check_numbers() -> None:
    """Check numbers that go over to another task, whose account has nothing of the one before."""
    account, runs = readings(0, 1_000, 2_000), switch(1, 60_000, 8, "R", PID)
    for state, is_false in (("S", True), ("Z", False), ("X", False)):
        ends = [*WOKEN, RUN[0], switch(1, 41_000, PID, state, 8), runs]
        check((false(WAIT, ends, account) > 0) == is_false, f"left in {state}: not {is_false}")
    # Before the next task runs, the account may be that of the one that has ended.
    then = [("woken", 60_000, 90_000, True)]
    dead = [*WOKEN, RUN[0], switch(1, 41_000, PID, "Z", 8), waking("waking", 0, 60_000), switch(1, 90_000, 8, "R", PID)]
    check(false(then, dead, readings(0, 30_000, 31_000, 31_000)) == 0, "another task's account stands against a wait")
    late = [*WOKEN, RUN[0], switch(1, 41_000, PID, "Z", 8), runs, switch(1, 61_000, PID, "S", 8)]
    later = [waking("waking", 0, 110_000), switch(1, 140_000, 8, "R", PID)]
    then = [("woken", 110_000, 140_000, True)]
    check(false(then, [*late, *later], readings(0, 0, 0, 0)) == 1, "a wait of the next task is missed")


def check_shares() -> None:
    """Check how much is sure, and how much of the kernel's time that is."""
    lines, account = [*WOKEN, *RUN], readings(0, 30_000, 30_000)
    sure = judged(WAIT, lines, account)
    check((sure.waits, sure.sure, sure.said, sure.counted) == (1, 1, 30_000, 30_000), f"shares of a sure wait: {sure}")
    unsure = judged([("woken", 10_000, 40_000, False)], lines, account)
    check((unsure.sure, unsure.said, unsure.counted) == (0, 0, 30_000), f"shares of an unsure wait: {unsure}")
    more = judged(WAIT, lines, readings(0, 90_000))
    check(more.counted == 0, f"more than there was time for: {more}")
    # The switch that ends the wait isn't there.
    missing = judged([], [*WOKEN, switch(1, 41_000, PID, "S", 8)], account)
    check(missing.counted == 0, f"a wait that a missing switch ends: {missing}")
    for text, wanted in {
        "CPU:1 [LOST 5 EVENTS]": True,
        "# CPU 1: 5 events overwritten": True,
        "# CPU 1: 0 events overwritten": False,
        "# entries-in-buffer/entries-written: 5/6   #P:4": True,
        "# entries-in-buffer/entries-written: 6/6   #P:4": False,
    }.items():
        check(judged(WAIT, [*lines, text], account).has_losses == wanted, f"losses of: {text}")


check_runs()
check_account()


def check_hidden() -> None:
    """Check that a wait isn't judged if it isn't sure because a task ran of which the kernel records nothing."""
    # A wait of such a task itself isn't judged either.
    own = [line(0, 9, 9_000 + at, "sched_waking: comm=a pid=7 prio=120 target_cpu=000") for at in range(3)]
    only = "\n".join([switch(1, 1, 8, "S", 6), *own, *WOKEN, ran(0, 20_000), RUN[0], switch(1, 999_999, 8, "R", 6)])
    found = verdict_of([Wait(PID, "woken", 10_000, 40_000, 1, True)], only.encode(), readings(0, 30_000))
    check((found.waits, found.false) == (0, []), f"a wait of a hidden task: {found}")
    roused = ["sched_waking: comm=h pid=30 prio=120 target_cpu=000" for _ in range(2)]
    lines = [line(0, 9, 15_000 + 10_000 * at, what) for at, what in enumerate(roused)]
    text, account = [*WOKEN, *RUN, *lines], readings(0, 30_000, 30_000)
    unsure = [("woken", 10_000, 40_000, False)]
    left = switch(0, 50_000, 30, "S", 8)
    for what, waits, lines, unseen, wanted in (
        ("a hidden task", unsure, text, [(15_000, 25_000)], (0, 0)),
        ("a sure wait", WAIT, text, [(15_000, 25_000)], (1, 1)),
        ("at another time", unsure, text, [(1_000, 5_000)], (1, 0)),
        ("a task that is left", unsure, [*text, left], [(15_000, 25_000)], (1, 0)),
        ("woken once", unsure, [line for line in text if "0.015000" not in line], [(15_000, 25_000)], (1, 0)),
        ("another task", unsure, text, [(15_000, 24_000)], (1, 0)),
    ):
        found = judged(waits, lines, account, unseen)
        check((found.waits, found.sure) == wanted, f"{what}: {found}")
        check((found.counted == 0) == (wanted == (0, 0)), f"the kernel's time, {what}: {found}")


check_uncounted()
check_numbers()
check_hidden()
check_shares()
finish()
