#!/usr/bin/env python3
"""Compares what a stream of waits sums up by task and by CPU with a plain reckoning (plain_sums.py), also if the stream leaves
events out (model_filter.py).

    python_sums.py [TEST]...

The recordings and the filters come by chance, and the text is cut anywhere."""

import os
import random
import sys
import unittest

# Nothing is written beside the sources.
sys.dont_write_bytecode = True

HERE = os.path.dirname(os.path.realpath(__file__))
sys.path[:0] = [os.path.join(HERE, "..", "..", "python"), os.path.join(HERE, "..", "model")]

import plain_sums
import random_texts
import recordings
from histdesk.native import layout
from histdesk.native.library import library
from plain_sums import Cpu, Task
from python_runner import main
from python_without import Stream, passing

NO_STREAM = 19
STATES = ["R", "R+", "S", "S|K", "I", "D", "DK", "T", "Z", "X"]


def sums(stream, chance):
    """What a stream sums up to, copied into rooms of random sizes."""
    tasks, cpus = [], []
    for call, struct, kind, into in (
        (library.histdesk_waits_tasks, layout.TaskSum, Task, tasks),
        (library.histdesk_waits_cpus, layout.CpuSum, Cpu, cpus),
    ):
        room = (struct * 9)()
        while count := call(stream.desk, len(into), room, chance.randrange(1, 10)):
            assert all(one.zero == 0 for one in room[:count])
            into += [kind(*(getattr(one, field) for field in kind._fields)) for one in room[:count]]
    return tasks, cpus


def recording(chance):
    """A trace by chance, in the order of time: few tasks, CPUs that are idle now and then, and here and there a switch is
    missing. Some tasks are woken or run on another CPU while they run."""
    lines, at, runs = [], 1000, [0] * 3
    for _ in range(chance.randrange(1, 200)):
        at += chance.choice([0, 0, 0, 1, 5, 100])
        cpu, pid = chance.randrange(3), chance.randrange(1, 8)
        if chance.random() < 0.5:
            event = chance.choice(["sched_waking", "sched_waking", "sched_wakeup", "sched_wakeup_new"])
            lines.append(recordings.waking(cpu, at, pid, name="a", target=pid, event=event))
            continue
        before = runs[cpu] if chance.random() < 0.9 else chance.randrange(8)
        runs[cpu] = chance.choice([0, 0, pid, pid, pid, before])
        state = "R" if before == 0 else chance.choice(STATES)
        lines.append(recordings.switch(cpu, at, f"p-{before}", f"a-{runs[cpu]}", state=state, prio=120))
    return recordings.text_of(lines)


class Sums(unittest.TestCase):
    """What a recording sums up to."""

    def hold(self, seed):
        """Check one recording, under some filters."""
        chance = random.Random(seed)
        text, filters = recording(chance), []
        with Stream() as stream:
            first = chance.random() < 0.5
            if first:
                self.assertEqual(library.histdesk_waits_sum_up(stream.desk), 0)
            for _ in range(chance.choice([0, 0, 1, 2])):
                event = chance.choice(["sched_waking", "sched_switch", "sched_wakeup_new"])
                asked = random_texts.condition(chance, event) if chance.random() < 0.8 else ""
                if stream.leave_out(event, asked) is None:
                    filters.append(passing(event, asked))
            if not first:
                self.assertEqual(library.histdesk_waits_sum_up(stream.desk), 0)
            stream.read(text, chance)
            found = sums(stream, chance)
            self.assertEqual(library.histdesk_waits_sum_up(stream.desk), NO_STREAM)
        wanted = plain_sums.sums_of(text, lambda line: any(passes(line) for passes in filters))
        self.assertEqual(found, wanted, seed)
        return wanted

    def test_by_chance(self):
        told = [self.hold(seed) for seed in range(400)]
        tasks = [one for found, _ in told for one in found]
        cpus = [one for _, found in told for one in found]
        # Each figure is more than 0 in many of the recordings, and not all idle time has waiters.
        for field in Task._fields[:-1]:
            self.assertGreater(sum(getattr(one, field) > 0 for one in tasks), 100, field)
        self.assertGreater(sum(0 < one.idle_with_waiters < one.idle for one in cpus), 100)
        self.assertGreater(sum(0 < one.longest < one.idle_with_waiters for one in cpus), 100)

    def test_of_a_simulated_scheduler(self):
        """If no switch is missing, a CPU runs a task or is idle from its first switch to its last."""
        known = recordings.simulated(1)
        with Stream() as stream:
            self.assertEqual(library.histdesk_waits_sum_up(stream.desk), 0)
            stream.read(known.text, random.Random(1))
            tasks, cpus = sums(stream, random.Random(1))
        self.assertEqual((tasks, cpus), plain_sums.sums_of(known.text))
        stamps = {}
        for event in plain_sums.events_of(known.text):
            if event.event == "sched_switch":
                stamps.setdefault(event.place.cpu, []).append(event.place.stamp)
        busy = sum(one.run_time for one in tasks)
        self.assertEqual(busy + sum(one.idle for one in cpus), sum(max(all_) - min(all_) for all_ in stamps.values()))

    def test_not_asked_for(self):
        with Stream() as stream:
            stream.read(recordings.simulated(1).text, random.Random(1))
            self.assertEqual(sums(stream, random.Random(1)), ([], []))


if __name__ == "__main__":
    sys.exit(main())
