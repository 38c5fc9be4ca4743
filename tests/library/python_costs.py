#!/usr/bin/env python3
"""Tests that a call of the package takes time in proportion to what it is given.

    python_costs.py [TEST]...

The library is found as the package finds it. If each event costs the same, four times as many take four times as long, and
sixteen times if its cost is in proportion to their number. Half of that is too long here, since the machine may be busy.
"""

import os
import sys
import time
import unittest

# Nothing is written beside the sources.
sys.dont_write_bytecode = True

HERE = os.path.dirname(os.path.realpath(__file__))
sys.path[:0] = [os.path.join(HERE, "..", "..", "python"), os.path.join(HERE, "..", "model")]

import histdesk
from python_runner import main

SAVER = "hist:keys=pid:ts0=common_timestamp.usecs:size=128"
READER = "hist:keys=next_pid:lat=common_timestamp.usecs-$ts0"
FEW, TOO_LONG, RUNS = 1000, 8, 3


def line(micros, cpu, event):
    """Return the line of an event."""
    return f" sim-1 [{cpu:03}] d.h.. {micros // 10**6}.{micros % 10**6:06}: {event}\n"


def waking(micros, cpu, pid):
    """Return the line of a waking."""
    return line(micros, cpu, f"sched_waking: comm=w pid={pid} prio=120 target_cpu=000")


def switch(micros, cpu, pid):
    """Return the line of a switch to a task."""
    left = "prev_comm=sim prev_pid=1 prev_prio=120 prev_state=S"
    return line(micros, cpu, f"sched_switch: {left} ==> next_comm=w next_pid={pid} next_prio=120")


def in_turn(wakings):
    """Return a desk with the wakings of 127 tasks, and then those of two more in turn, each before the switch to its task; and
    its saver, whose table has room for one of the two, and its reader."""
    text = "".join(waking(n, 1, n) for n in range(127))
    for n in range(wakings):
        text += waking(10**6 + 2 * n, 0, 1000 + n % 2) + switch(10**6 + 2 * n + 1, 1, 1000 + n % 2)
    desk = histdesk.Desk()
    desk.load(text.encode())
    return desk, [desk.attach("sched_waking", SAVER), desk.attach("sched_switch", READER)]


class Strikes(unittest.TestCase):
    """Strikes of many events by one call."""

    def seconds(self, wakings):
        """Strike so many wakings, and return how long that took, in processor seconds."""
        desk, triggers = in_turn(wakings)
        found = desk.matching("sched_waking", "pid >= 1000")
        begun = time.process_time()
        struck = desk.strike_events(found).struck
        took = time.process_time() - begun
        self.assertEqual(struck, wakings)
        self.assertEqual([tuple(trigger.totals()) for trigger in triggers], [(127, 127, 0), (0, 0, 0)])
        return took

    def test_keys_that_take_turns(self):
        few, many = (min(self.seconds(count) for _ in range(RUNS)) for count in (FEW, 4 * FEW))
        self.assertLess(many, TOO_LONG * few, f"{few:.4f} s for {FEW}, {many:.4f} s for {4 * FEW}")


if __name__ == "__main__":
    sys.exit(main())
