#!/usr/bin/env python3
"""Tests chains of wakings, by the package and by tools/why --chain. The values of small traces are written by hand; those of
simulated machines come from a plain fold over their events (plain_chains.py). The last line says how many of the tests hold.

    python_chain.py [TEST]...
"""

import json
import os
import pickle
import random
import subprocess
import sys
import tempfile
import time
import unittest
import warnings
from unittest import mock

# Nothing is written beside the sources.
sys.dont_write_bytecode = True

HERE = os.path.dirname(os.path.realpath(__file__))
PYTHON = os.path.realpath(os.path.join(HERE, "..", "..", "python"))
TOOL = os.path.realpath(os.path.join(HERE, "..", "..", "tools", "why"))
sys.path[:0] = [PYTHON, os.path.join(HERE, "..", "model")]

import histdesk
import plain_chains
import plain_waits
from histdesk import Runner
from histdesk.explain import surroundings
from histdesk.explain import chain as explain_chain
from histdesk.explain import explainer as explain_explainer
from histdesk.trace import text as trace_text
from python_runner import main
from why_slices import held_by_desk, noise
from why_traces import line, switch, trace, waking

# The idle task, as it stands at a line's beginning.
IDLE = "<idle>-0"

# Little is read at once, and no more than 30 events or so.
SMALL = {"LIMIT": 30, "SLEEP_ROOM": 20, "LEAD": 10, "GROWTH": 1}

# An interrupt wakes n on CPU 1, n wakes p on CPU 2, and p wakes w on CPU 0.
THREE = (
    switch(1, 1000000, "n-10", "D", "x-5"),
    switch(2, 1000002, "p-11", "S", "swapper/2-0"),
    switch(0, 1000004, "w-12", "S", "swapper/0-0"),
    waking("y-9", 3, 1000100, "n", 10, 1, flags="d.h2."),
    switch(1, 1000105, "x-5", "R", "n-10"),
    waking("n-10", 1, 1000155, "p", 11, 2),
    switch(2, 1000158, "swapper/2-0", "R", "p-11", task=IDLE, next_prio=19),
    waking("p-11", 2, 1000188, "w", 12, 0),
    switch(0, 1000190, "swapper/0-0", "R", "w-12", task=IDLE),
)
THREE_TEXT = """\
The chain of wakings back from this wait: 3 steps, 90 us (times in us)
  task  CPU  since     event  by         slept  waited  ran
  w-12    0  1.000188  2:3    task       184 S       2    0
  p-11    2  1.000155  1:3    task       153 S       3   30
  n-10    1  1.000100  3:1    interrupt  100 D       5   50

The chain ends here: an interrupt on CPU 3 woke n-10. What it interrupted there,
  y-9, is not the cause."""


def ring(rounds):
    """a on CPU 0 and b on CPU 1 wake each other: each wakes the other one 7 us after it began to run, and sleeps 1 us later;
    the other one runs 3 us after its waking."""
    lines = [switch(0, 999993, "swapper/0-0", "R", "a-10", task=IDLE)]
    for number in range(rounds):
        now, (cpu, one, other) = 1000000 + 10 * number, [(0, "a-10", "b-11"), (1, "b-11", "a-10")][number % 2]
        name, pid = other.split("-")
        lines.append(waking(one, cpu, now, name, int(pid), 1 - cpu))
        lines.append(switch(cpu, now + 1, one, "S", f"swapper/{cpu}-0"))
        lines.append(switch(1 - cpu, now + 3, f"swapper/{1 - cpu}-0", "R", other, task=IDLE))
    return trace(*lines)


def why_of(text, cpu, place):
    with warnings.catch_warnings():
        warnings.simplefilter("ignore", histdesk.LossWarning)
        return histdesk.why(text, cpu, place)


def chain_of(text, cpu, place, **options):
    return why_of(text, cpu, place).chain(**options)


def figures(chain):
    """What a chain's steps are, in short: the task, its CPU, how long it slept, waited and ran, and its preemptions."""
    return [(step.task, step.cpu, step.slept, step.waited, step.ran, step.preemptions) for step in chain]


class ByHand(unittest.TestCase):
    """Chains that end with what woke the last task."""

    def test_three_steps(self):
        chain = chain_of(trace(*THREE), 0, 2)
        self.assertEqual((len(chain), chain.end, chain.micros), (3, "interrupt", 90))
        self.assertEqual(figures(chain), [("w", 0, 184, 2, 0, 0), ("p", 2, 153, 3, 30, 0), ("n", 1, 100, 5, 50, 0)])
        self.assertEqual(
            [(step.since, step.until, step.micros) for step in chain],
            [(1000188, 1000190, 2), (1000155, 1000188, 33), (1000100, 1000155, 55)],
        )
        self.assertEqual(
            [step.begin[:4] for step in chain][1:], [(1000155, 1, 3, "sched_waking"), (1000100, 3, 1, "sched_waking")]
        )
        self.assertEqual([step.asleep[:3] for step in chain], [(1000004, 0, 1), (1000002, 2, 1), (1000000, 1, 1)])
        self.assertEqual([step.asleep.prev_state for step in chain], ["S", "S", "D"])
        self.assertEqual([step.waker for step in chain], [Runner("p", 11, None), Runner("n", 10, None), Runner("y", 9, None)])
        self.assertEqual([step.context for step in chain], ["task", "task", "hardirq"])
        self.assertEqual(
            [(step.pid, step.prio, step.is_new) for step in chain], [(12, 120, False), (11, 19, False), (10, 120, False)]
        )
        self.assertEqual(str(chain), THREE_TEXT)
        self.assertEqual((repr(chain), chain.text()), (str(chain), str(chain)))
        self.assertEqual(chain._repr_html_(), f"<pre>{THREE_TEXT}</pre>")
        # It is a sequence, equal to one with the same steps and the same end.
        self.assertEqual((chain[0], chain[-1], chain[1:]), (list(chain)[0], list(chain)[2], tuple(chain)[1:]))
        self.assertEqual((chain, hash(chain)), (chain_of(trace(*THREE), 0, 2), hash(chain_of(trace(*THREE), 0, 2))))
        self.assertNotEqual(chain, chain_of(trace(*THREE), 2, 2))
        self.assertNotEqual(chain, tuple(chain))

    def test_softirq_and_nmi(self):
        for sign, context, what in (
            ("s", "softirq", "a softirq"),
            ("H", "hardirq", "an interrupt"),
            ("Z", "nmi", "a non-maskable"),
        ):
            text = trace(*(each.replace("d.h2.", f"d.{sign}2.") for each in THREE))
            chain = chain_of(text, 0, 2)
            self.assertEqual((len(chain), chain.end, chain[-1].context), (3, "interrupt", context))
            self.assertIn(f"The chain ends here: {what}", chain.remark)

    def test_interrupt_on_an_idle_cpu(self):
        chain = chain_of(trace(*(each.replace("y-9", IDLE) for each in THREE)), 0, 2)
        self.assertEqual((chain.end, chain[-1].waker), ("interrupt", Runner("<idle>", 0, None)))
        self.assertEqual(chain.remark, "The chain ends here: an interrupt on CPU 3 woke n-10.")

    def test_idle(self):
        """Without flags nothing says that it was an interrupt, but the idle task wakes nobody."""
        lines = [each.replace("y-9", IDLE).replace("d.h2. ", "").replace("d..2. ", "") for each in THREE]
        chain = chain_of(trace(*lines), 0, 2)
        self.assertEqual((len(chain), chain.end, chain[-1].context), (3, "idle", None))
        self.assertEqual(
            chain.remark, "The chain ends here: CPU 3 was idle when n-10 was woken there, so an interrupt or a timer woke it."
        )
        # The end is the same if the flags say that there was no interrupt.
        chain = chain_of(trace(*(each.replace("y-9", IDLE).replace("d.h2.", "d..2.") for each in THREE)), 0, 2)
        self.assertEqual((chain.end, chain[-1].context), ("idle", "task"))
        self.assertIn("idle CPU", str(chain))

    def test_without_flags(self):
        """An interrupt can't be told apart: the chain goes on with the task that ran, and says so."""
        lines = [each.replace("d.h2. ", "").replace("d..2. ", "") for each in THREE]
        chain = chain_of(trace(switch(3, 1000050, "swapper/3-0", "R", "y-9", task=IDLE), *lines), 0, 2)
        self.assertEqual((len(chain), chain.end), (4, "start"))
        self.assertEqual([step.context for step in chain], [None, None, None, None])
        self.assertEqual(figures(chain)[3], ("y", 3, None, 0, 50, 0))
        self.assertEqual(str(chain).count(" task? "), 4)
        self.assertIn("may have woken a task that has task? here.", " ".join(str(chain).split()))

    def test_self(self):
        """If a task is woken on the CPU on which it runs itself, an interrupt woke it, whether there are flags or not."""
        text = trace(
            switch(1, 999990, "swapper/1-0", "R", "w-12", task=IDLE),
            line("w-12", 1, 1000000, "sched_waking: comm=w pid=12 prio=120 target_cpu=001", flags=""),
            switch(1, 1000001, "w-12", "S", "x-5"),
            # It was woken on its way to sleep: its waking ended only then.
            line("x-5", 1, 1000001, "sched_wakeup: comm=w pid=12 prio=120 target_cpu=001", flags=""),
            switch(1, 1000009, "x-5", "S", "w-12"),
        )
        chain = chain_of(text, 1, 5)
        self.assertEqual((figures(chain), chain.end), ([("w", 1, 0, 9, 0, 0)], "interrupt"))
        self.assertIn("w-12 itself still ran on CPU 1, where it was woken, so an interrupt woke it", chain.remark)

    def test_preempted_waker(self):
        """b was woken, ran, was preempted twice, and woke w only then."""
        chain = chain_of(
            trace(
                switch(1, 1000000, "b-11", "S", "x-5"),
                switch(0, 1000000, "w-12", "S", "swapper/0-0"),
                waking(IDLE, 2, 1000100, "b", 11, 1, flags="d.s2."),
                switch(1, 1000110, "x-5", "R", "b-11"),
                switch(1, 1000130, "b-11", "R+", "x-5"),
                switch(1, 1000170, "x-5", "S", "b-11"),
                switch(1, 1000180, "b-11", "R", "y-6"),
                # It is moved to another CPU.
                switch(2, 1000200, "swapper/2-0", "R", "b-11", task=IDLE),
                waking("b-11", 2, 1000250, "w", 12, 0),
                switch(0, 1000260, "swapper/0-0", "R", "w-12", task=IDLE),
            ),
            0,
            2,
        )
        self.assertEqual(figures(chain), [("w", 0, 250, 10, 0, 0), ("b", 2, 100, 10 + 40 + 20, 20 + 10 + 50, 2)])
        self.assertEqual((chain.end, chain[1].since, chain[1].until), ("interrupt", 1000100, 1000250))
        row = [each.split() for each in str(chain).split("\n") if "b-11" in each][0]
        self.assertEqual(row, ["b-11", "2", "1.000100", "2:1", "softirq", "100", "S", "70", "80", "2"])

    def test_preempted_wait(self):
        """The wait itself began with a preemption: its chain goes back to the waking before."""
        chain = chain_of(
            trace(
                switch(1, 999900, "w-12", "S", "x-5"),
                waking(IDLE, 0, 1000000, "w", 12, 1, flags="d.h2."),
                switch(1, 1000010, "x-5", "R", "w-12"),
                switch(1, 1000040, "w-12", "R+", "x-5"),
                switch(1, 1000140, "x-5", "S", "w-12"),
            ),
            1,
            4,
        )
        self.assertEqual((figures(chain), chain.end), ([("w", 1, 100, 110, 30, 1)], "interrupt"))
        self.assertEqual((chain[0].begin[:3], chain[0].since, chain[0].micros), ((1000000, 0, 1), 1000000, 140))

    def test_creation(self):
        """m forks c, which wakes w; m itself was woken by an interrupt."""
        lines = (
            switch(2, 1000000, "w-12", "S", "swapper/2-0"),
            switch(0, 1000005, "m-8", "S", "swapper/0-0"),
            waking(IDLE, 0, 1000010, "m", 8, 0, flags="d.h2."),
            switch(0, 1000012, "swapper/0-0", "R", "m-8", task=IDLE),
            waking("m-8", 0, 1000030, "m", 20, 1, event="sched_wakeup_new"),
            switch(1, 1000034, "swapper/1-0", "R", "c-20", task=IDLE),
            waking("c-20", 1, 1000094, "w", 12, 2),
            switch(2, 1000095, "swapper/2-0", "R", "w-12", task=IDLE),
        )
        chain = chain_of(trace(*lines), 2, 2)
        self.assertEqual(figures(chain), [("w", 2, 94, 1, 0, 0), ("c", 1, None, 4, 60, 0), ("m", 0, 5, 2, 18, 0)])
        self.assertEqual([(step.is_new, step.context) for step in chain], [(False, "task"), (True, "task"), (False, "hardirq")])
        self.assertEqual(
            (chain[1].asleep, chain[1].begin[:4], chain.end), (None, (1000030, 0, 4, "sched_wakeup_new"), "interrupt")
        )
        self.assertIn("  fork  ", str(chain))
        # The wait of the new task.
        chain = chain_of(trace(*lines), 1, 1)
        self.assertEqual((figures(chain), chain.end), ([("c", 1, None, 4, 0, 0), ("m", 0, 5, 2, 18, 0)], "interrupt"))
        # If a task woke the parent, that doesn't matter: the parent was awake when it forked.
        text = trace(lines[0], lines[1], waking("x-5", 1, 1000010, "m", 8, 0), *lines[3:])
        chain = chain_of(text, 1, 2)
        self.assertEqual((figures(chain), chain.end), ([("c", 1, None, 4, 0, 0), ("m", 0, 5, 2, 18, 0)], "awake"))
        self.assertEqual(chain.remark, "The chain ends here: m-8 was already awake when c-20 was created at 1.000030.")
        self.assertEqual(chain_of(text, 1, 2, beyond=True).end, "start")

    def test_woken_on_its_way_to_sleep(self):
        """p is woken while it still runs, and so is w: neither has slept."""
        text = trace(
            switch(1, 999900, "swapper/1-0", "R", "p-11", task=IDLE),
            switch(0, 999950, "swapper/0-0", "R", "w-12", task=IDLE),
            waking(IDLE, 2, 1000000, "p", 11, 1, flags="d.h2."),
            switch(1, 1000002, "p-11", "S", "swapper/1-0"),
            waking(IDLE, 2, 1000003, "p", 11, 1, flags="d.h2.", event="sched_wakeup"),
            switch(1, 1000010, "swapper/1-0", "R", "p-11", task=IDLE),
            waking("p-11", 1, 1000030, "w", 12, 0),
            switch(0, 1000031, "w-12", "S", "x-5"),
            waking("p-11", 1, 1000032, "w", 12, 0, event="sched_wakeup"),
            switch(0, 1000045, "x-5", "S", "w-12"),
        )
        chain = chain_of(text, 0, 3)
        self.assertEqual(figures(chain), [("w", 0, 0, 15, 0, 0), ("p", 1, 0, 10, 20, 0)])
        self.assertEqual(([step.asleep for step in chain], chain.end), ([None, None], "interrupt"))


class Ends(unittest.TestCase):
    """Chains that end otherwise."""

    def test_awake(self):
        """b ran all the time that w slept."""
        text = trace(
            waking(IDLE, 2, 999000, "b", 11, 1, flags="d.h2."),
            switch(1, 999001, "swapper/1-0", "R", "b-11", task=IDLE),
            switch(0, 1000000, "w-12", "S", "swapper/0-0"),
            waking("b-11", 1, 1000500, "w", 12, 0),
            switch(0, 1000502, "swapper/0-0", "R", "w-12", task=IDLE),
        )
        chain = chain_of(text, 0, 2)
        self.assertEqual((figures(chain), chain.end), ([("w", 0, 500, 2, 0, 0), ("b", 1, None, 1, 1499, 0)], "interrupt"))
        # If a task woke it, and not an interrupt, that task doesn't matter any more.
        text = text.replace(b"<idle>-0 [002] d.h2.", b"c-13 [002] d..2.")
        chain = chain_of(text, 0, 2)
        self.assertEqual((len(chain), chain.end), (2, "awake"))
        self.assertEqual(chain.remark, "The chain ends here: b-11 was already awake when w-12 fell asleep at 1.000000.")
        chain = chain_of(text, 0, 2, beyond=True)
        self.assertEqual((len(chain), chain.end, figures(chain)[2]), (3, "start", ("c", 2, None, 0, 0, 0)))

    def test_awake_at_that_moment(self):
        """b is woken in the microsecond in which w falls asleep."""
        lines = [
            switch(0, 1000000, "w-12", "S", "swapper/0-0"),
            waking("c-13", 2, 1000000, "b", 11, 1),
            switch(1, 1000001, "swapper/1-0", "R", "b-11", task=IDLE),
            waking("b-11", 1, 1000500, "w", 12, 0),
            switch(0, 1000502, "swapper/0-0", "R", "w-12", task=IDLE),
        ]
        self.assertEqual(chain_of(trace(*lines), 0, 2).end, "awake")
        lines[1] = waking("c-13", 2, 1000001, "b", 11, 1)
        self.assertEqual(chain_of(trace(*lines), 0, 2).end, "start")

    def test_ring(self):
        """What came before the task fell asleep is left out; if asked for, the chain goes on for at most so many steps."""
        text = ring(101)
        chain = chain_of(text, 1, 151)
        self.assertEqual((figures(chain), chain.end), ([("b", 1, 9, 3, 0, 0), ("a", 0, 9, 3, 7, 0)], "awake"))
        chain = chain_of(text, 1, 151, beyond=True)
        self.assertEqual((len(chain), chain.end), (32, "limit"))
        self.assertEqual(chain.remark, "The chain is cut here, after 32 steps: it goes on before that.")
        self.assertEqual(figures(chain)[1:], [(("a", "b")[at % 2], at % 2, 9, 3, 7, 0) for at in range(31)])
        self.assertEqual(chain.micros, 31 * 10 + 3)
        # Of many steps only those at both ends are shown, unless all are asked for.
        self.assertEqual((len(str(chain).split("\n")), len(chain.text(all_steps=True).split("\n"))), (25, 36))
        # The first a has run since the recording began.
        chain = chain_of(text, 1, 151, beyond=True, steps=1000)
        self.assertEqual((len(chain), chain.end, figures(chain)[-1]), (102, "start", ("a", 0, None, 0, 7, 0)))
        self.assertEqual(chain.remark, "The chain stops here: nothing is recorded of a-10 before it ran at 0:1.")
        for steps in (1, 2, 102):
            self.assertEqual((len(chain_of(text, 1, 151, beyond=True, steps=steps)), steps), (steps, steps))

    def test_start(self):
        """The waker had run since before the recording began."""
        text = trace(
            waking("b-11", 1, 1000100, "z", 9, 1),
            waking("b-11", 1, 1000500, "w", 12, 0),
            switch(0, 1000502, "swapper/0-0", "R", "w-12", task=IDLE),
        )
        chain = chain_of(text, 0, 1)
        self.assertEqual((figures(chain), chain.end), ([("w", 0, None, 2, 0, 0), ("b", 1, None, 0, 400, 0)], "start"))
        self.assertEqual((chain[1].begin, chain[1].waker, chain[1].since), (None, None, 1000100))
        self.assertEqual(
            chain.remark, "The chain stops here: b-11 ran from 1.000100 or before, and no earlier switch to it is recorded."
        )

    def test_missing_switch(self):
        """CPU 1 switched to b, and yet c woke w there."""
        text = trace(
            switch(0, 1000000, "w-12", "S", "swapper/0-0"),
            switch(1, 1000100, "c-13", "S", "b-11"),
            waking("b-11", 1, 1000110, "y", 8, 1),
            waking("c-13", 1, 1000130, "z", 9, 1),
            waking("c-13", 1, 1000150, "w", 12, 0),
            switch(0, 1000152, "swapper/0-0", "R", "w-12", task=IDLE),
        )
        chain = chain_of(text, 0, 2)
        self.assertEqual((figures(chain), chain.end), ([("w", 0, 150, 2, 0, 0), ("c", 1, None, 0, 20, 0)], "missing"))
        self.assertEqual(
            chain.remark, "The chain stops here: c-13 ran on CPU 1 at 1.000130, and the switch to it was not recorded."
        )

    def test_missing_switch_elsewhere(self):
        """The last switch to b was on another CPU."""
        text = trace(
            switch(1, 1000000, "c-13", "S", "swapper/1-0"),
            switch(2, 1000100, "x-5", "S", "b-11"),
            waking("b-11", 1, 1000150, "w", 12, 0),
            switch(0, 1000152, "swapper/0-0", "R", "w-12", task=IDLE),
            waking("b-11", 2, 1000160, "z", 9, 1),
            switch(1, 1000170, "b-11", "S", "swapper/1-0"),
        )
        self.assertEqual((chain_of(text, 0, 1).end, len(chain_of(text, 0, 1))), ("missing", 2))

    def test_another_task_ran_meanwhile(self):
        """CPU 1 switched to b, another task ran there, and b again: two switches are missing."""
        text = trace(
            waking(IDLE, 2, 1000090, "b", 11, 1, flags="d.h2."),
            switch(1, 1000100, "c-13", "S", "b-11"),
            waking("d-14", 1, 1000110, "y", 8, 1),
            waking("b-11", 1, 1000140, "z", 9, 1),
            waking("b-11", 1, 1000150, "w", 12, 0),
            switch(0, 1000152, "swapper/0-0", "R", "w-12", task=IDLE),
        )
        chain = chain_of(text, 0, 1)
        self.assertEqual((chain.end, figures(chain)[1]), ("missing", ("b", 1, None, 0, 10, 0)))

    def test_ran_while_it_seemed_to_wait(self):
        """b was woken and ran, without a switch to it, before the switch that seems to end its wait: it ends none."""
        lines = (
            switch(1, 1000000, "swapper/1-0", "R", "c-13", task=IDLE),
            waking(IDLE, 2, 1000050, "b", 11, 1, flags="d.h2."),
            waking("b-11", 1, 1000070, "z", 9, 1),
            switch(1, 1000100, "c-13", "S", "b-11"),
            waking("b-11", 1, 1000150, "w", 12, 0),
            switch(0, 1000152, "swapper/0-0", "R", "w-12", task=IDLE),
        )
        chain = chain_of(trace(*lines), 0, 1)
        self.assertEqual((chain.end, figures(chain)[1]), ("missing", ("b", 1, None, 0, 50, 0)))
        self.assertEqual(chain.remark, "The chain stops here: no event shows what made b-11 runnable before it ran at 1:3.")
        # An event of another name shows nothing.
        chain = chain_of(trace(*lines[:2], line("b-11", 1, 1000070, "console: x"), *lines[3:]), 0, 1)
        self.assertEqual((chain.end, figures(chain)[1]), ("interrupt", ("b", 1, None, 50, 50, 0)))

    def test_missing_waking(self):
        """b slept and ran again, and nothing woke it."""
        text = trace(
            switch(0, 1000000, "w-12", "S", "swapper/0-0"),
            switch(1, 1000050, "b-11", "S", "c-13"),
            switch(1, 1000100, "c-13", "S", "b-11"),
            waking("b-11", 1, 1000150, "w", 12, 0),
            switch(0, 1000152, "swapper/0-0", "R", "w-12", task=IDLE),
        )
        chain = chain_of(text, 0, 2)
        self.assertEqual((figures(chain)[1], chain.end), (("b", 1, None, 0, 50, 0), "missing"))
        self.assertEqual(chain.remark, "The chain stops here: no event shows what made b-11 runnable before it ran at 1:2.")

    def test_lost_in_a_run(self):
        """CPU 1 lost events while b seemed to run there; those that another CPU lost don't matter."""
        lines = (
            waking(IDLE, 2, 1000090, "b", 11, 1, flags="d.h2."),
            switch(1, 1000100, "c-13", "S", "b-11"),
            waking("b-11", 1, 1000110, "y", 8, 1),
            "CPU:1 [LOST 7 EVENTS]",
            waking("b-11", 1, 1000140, "z", 9, 1),
            waking("b-11", 1, 1000150, "w", 12, 0),
            switch(0, 1000152, "swapper/0-0", "R", "w-12", task=IDLE),
        )
        chain = chain_of(trace(*lines), 0, 1)
        self.assertEqual((chain.end, figures(chain)[1]), ("lost", ("b", 1, None, 0, 10, 0)))
        self.assertEqual(
            chain.remark,
            "The chain stops here: CPU 1 lost 7 events between 1.000110 and 1.000140 (line 4 of the text), "
            "so it isn't known since when b-11 ran.",
        )
        other = [*lines[:3], waking("x-5", 3, 1000111, "v", 6, 1), "CPU:3 [LOST 7 EVENTS]", *lines[4:]]
        other.insert(5, waking("x-5", 3, 1000120, "u", 7, 1))
        self.assertEqual((chain_of(trace(*other), 0, 1).end, len(chain_of(trace(*other), 0, 1))), ("interrupt", 2))

    def test_lost_in_a_wait(self):
        """Events were lost while b waited, so that it may have run, slept and been woken again."""
        lines = (
            waking("x-5", 2, 1000050, "b", 11, 1),
            "CPU:2 [LOST EVENTS]",
            waking("x-5", 2, 1000090, "z", 9, 1),
            switch(1, 1000100, "c-13", "S", "b-11"),
            waking("b-11", 1, 1000150, "w", 12, 0),
            switch(0, 1000152, "swapper/0-0", "R", "w-12", task=IDLE),
        )
        chain = chain_of(trace(*lines), 0, 1)
        self.assertEqual((chain.end, figures(chain)[1]), ("lost", ("b", 1, None, 0, 50, 0)))
        self.assertIn("while b-11 waited, so its waking may be another one", chain.remark)
        # If this wait is the one that is explained, the chain has only this step.
        chain = chain_of(trace(*lines), 1, 1)
        self.assertEqual((figures(chain), chain.end, chain[0].begin), ([("b", 1, None, 50, 0, 0)], "lost", None))

    def test_lost_since_a_preemption(self):
        """b was preempted, and events were lost before a waking of it: the wait since then is true, but b may have been
        runnable before."""
        text = trace(
            switch(1, 1000010, "b-11", "R+", "c-13"),
            "CPU:1 [LOST EVENTS]",
            waking("c-13", 1, 1000040, "z", 9, 1),
            waking("x-5", 2, 1000050, "b", 11, 1),
            switch(1, 1000100, "c-13", "S", "b-11"),
            waking("b-11", 1, 1000150, "w", 12, 0),
            switch(0, 1000152, "swapper/0-0", "R", "w-12", task=IDLE),
        )
        chain = chain_of(text, 0, 1)
        self.assertEqual((figures(chain)[1], chain.end, chain[1].begin), (("b", 1, None, 50, 50, 0), "lost", None))
        self.assertIn("between 1.000010 and 1.000040", chain.remark)

    def test_lost_before_a_run(self):
        """b slept, and CPU 2 lost events before b ran again."""
        text = trace(
            switch(1, 1000010, "b-11", "S", "c-13"),
            waking("x-5", 2, 1000050, "y", 8, 1),
            "CPU:2 [LOST EVENTS]",
            waking("x-5", 2, 1000090, "z", 9, 1),
            switch(1, 1000100, "c-13", "S", "b-11"),
            waking("b-11", 1, 1000150, "w", 12, 0),
            switch(0, 1000152, "swapper/0-0", "R", "w-12", task=IDLE),
        )
        chain = chain_of(text, 0, 1)
        self.assertEqual((chain.end, figures(chain)[1]), ("lost", ("b", 1, None, 0, 50, 0)))
        self.assertIn("so it isn't known what made b-11 runnable before 1:2", chain.remark)

    def test_lost_in_sleep(self):
        """How long a task has slept isn't known if events were lost meanwhile: it may have run."""
        text = trace(
            switch(0, 1000000, "w-12", "S", "swapper/0-0"),
            waking("x-5", 2, 1000050, "y", 8, 1),
            "CPU:2 [LOST EVENTS]",
            waking("x-5", 2, 1000090, "z", 9, 1),
            waking(IDLE, 1, 1000150, "w", 12, 0, flags="d.h2."),
            switch(0, 1000152, "swapper/0-0", "R", "w-12", task=IDLE),
        )
        chain = chain_of(text, 0, 2)
        self.assertEqual((figures(chain), chain[0].asleep, chain.end), ([("w", 0, None, 2, 0, 0)], None, "interrupt"))

    def test_limits(self):
        """A chain doesn't read on and on, and doesn't follow a task that is preempted again and again."""
        lines = [waking(IDLE, 2, 999000, "b", 11, 1, flags="d.h2."), switch(1, 999010, "x-5", "R", "b-11")]
        for number in range(50):
            now = 1000000 + 10 * number
            lines += [switch(1, now, "b-11", "R", "x-5"), switch(1, now + 4, "x-5", "R", "b-11")]
        lines += [waking("b-11", 1, 1001000, "w", 12, 0), switch(0, 1001001, "swapper/0-0", "R", "w-12", task=IDLE)]
        chain = chain_of(trace(*lines), 0, 1)
        self.assertEqual((figures(chain)[1], chain.end), (("b", 1, None, 210, 1790, 50), "interrupt"))
        with mock.patch.object(explain_chain, "RUNS", 20):
            chain = chain_of(trace(*lines), 0, 1)
        self.assertEqual((figures(chain)[1], chain.end), (("b", 1, None, 80, 620, 20), "limit"))
        self.assertIn("its tasks ran more than 20 times", chain.remark)
        patches = [mock.patch.object(explain_chain, name, size) for name, size in SMALL.items()]
        for patch in patches:
            patch.start()
            self.addCleanup(patch.stop)
        chain = chain_of(trace(*lines), 0, 1)
        self.assertEqual((chain.end, len(chain)), ("limit", 2))
        self.assertIn("what b-11 did before is more than 30 events back", chain.remark)


class Sources(unittest.TestCase):
    """Where the recording comes from."""

    def test_sources(self):
        text = trace(*THREE)
        whole = chain_of(text, 0, 2)
        with tempfile.TemporaryDirectory() as folder:
            path = os.path.join(folder, "my.trace")
            with open(path, "wb") as file:
                file.write(text)
            self.assertEqual(chain_of(path, 0, 2), whole)
            why = why_of(path, 0, 2)
            with open(path, "ab") as file:
                file.write(text)
            self.assertEqual(why.chain(), whole)
            with open(path, "wb") as file:
                file.write(text[:-10])
            with self.assertRaisesRegex(ValueError, "has changed since it was read"):
                why.chain()
        self.assertEqual(chain_of(histdesk.waits(text), 0, 2), whole)
        self.assertEqual(chain_of(histdesk.read(text), 0, 2), whole)
        # Events that aren't in the order of time are held by a desk.
        self.assertEqual(chain_of(trace(*reversed(THREE)), 0, 1).remark, whole.remark)
        # A desk has no text, and so no flags; it may hold other events later.
        desk = histdesk.Desk()
        desk.load(text)
        why = histdesk.why(desk, 0, 2)
        desk.strike(1, 3)
        chain = why.chain()
        self.assertEqual((figures(chain)[:3], chain.end), (figures(whole), "start"))
        self.assertEqual(histdesk.why(desk, 0, 2).chain().end, "missing")

    def test_slice(self):
        """What came before a slice is not looked at."""
        whole = trace(*THREE)
        part = histdesk.read(whole, start="1.000150")
        chain = chain_of(part, 0, 1)
        self.assertEqual(
            (figures(chain), chain.end), ([("w", 0, None, 2, 0, 0), ("p", 2, None, 3, 30, 0), ("n", 1, None, 0, 0, 0)], "start")
        )

    def test_copies(self):
        """A copy doesn't know its recording."""
        why = why_of(trace(*THREE), 0, 2)
        for other in (pickle.loads(pickle.dumps(why)), why._replace(task="x")):
            self.assertIsInstance(other, histdesk.Why)
            with self.assertRaisesRegex(ValueError, "the recording of this wait isn't known"):
                other.chain()
        chain = why.chain()
        self.assertEqual(pickle.loads(pickle.dumps(chain)), chain)

    def test_steps(self):
        with self.assertRaisesRegex(ValueError, "at least 1 step, and not 0"):
            why_of(trace(*THREE), 0, 2).chain(steps=0)

    def test_slices(self):
        """A chain is the same from slices as from the whole, whatever the events are."""
        ends = {}
        for seed in range(30):
            # What happens by chance shows holes nearly everywhere; what a simulated machine does shows few.
            text = noise(seed, 200) if seed % 3 else plain_chains.simulated(seed, 60)
            whole = held_by_desk(text)
            chance = random.Random(seed)
            sizes = {"LEAD": chance.choice([1, 5]), "GROWTH": chance.choice([1, 2]), "CHUNK": chance.choice([4, 30])}
            patches = [mock.patch.object(explain_chain, name, size) for name, size in sizes.items()]
            patches += [
                mock.patch.object(trace_text, "PIECE", chance.choice([200, 1 << 20])),
                mock.patch.object(surroundings, "PART", 50),
            ]
            for patch in patches:
                patch.start()
            slices = explain_explainer.explainer_of(text)
            for why, same in zip(slices.explain_each(slices.waits), whole.explain_each(whole.waits)):
                beyond = chance.random() < 0.7
                chain = why.chain(beyond=beyond)
                self.assertEqual(chain, same.chain(beyond=beyond), (seed, why))
                self.assertEqual([later.since for later in chain[:-1]], [step.until for step in chain[1:]])
                self.assertEqual([step.micros for step in chain], [step.waited + step.ran for step in chain])
                ends[chain.end] = ends.get(chain.end, 0) + 1
            for patch in patches:
                patch.stop()
        self.assertGreater(min(ends.get(end, 0) for end in ("interrupt", "awake", "start", "missing", "lost")), 3, ends)


class Folded(unittest.TestCase):
    """Simulated machines, whose chains a plain fold over all events finds."""

    def test_simulated(self):
        ends, steps = {}, 0
        for seed in range(16):
            text = plain_chains.simulated(seed, 400)
            if plain_waits.gaps_of(text):
                # The machine doesn't know that a CPU seems to begin late or to end early.
                continue
            for beyond in (False, True):
                chains = plain_chains.chains_of(text, beyond)
                waits = explain_explainer.explainer_of(text)
                self.assertEqual(len(chains), len(waits.waits))
                for why in waits.explain_each(waits.waits):
                    chain, known = why.chain(beyond=beyond), chains[why.end[:3]]
                    self.assertEqual([plain_of(step) for step in chain], known.steps, (seed, why.end))
                    self.assertEqual(chain.end, known.end, (seed, why.end))
                    ends[chain.end] = ends.get(chain.end, 0) + 1
                    steps += len(chain)
        self.assertGreater(min(ends.get(end, 0) for end in ("interrupt", "idle", "awake", "start")), 50, ends)
        self.assertGreater(steps, 5000)

    def test_lost(self):
        """If a recording has lost events, its chains have no false step: each step is that of the whole recording, except for
        the last one, whose beginning isn't known."""
        ends, steps = {}, 0
        for seed in range(16):
            text = plain_chains.simulated(seed, 400, wakes_preempted=False)
            chains = plain_chains.chains_of(text, True)
            damaged, lines = plain_chains.damaged(text, seed)
            with warnings.catch_warnings():
                warnings.simplefilter("ignore", histdesk.LossWarning)
                waits = explain_explainer.explainer_of(damaged)
            for why in waits.explain_each(waits.waits):
                chain = why.chain(beyond=True, steps=8)
                ends[chain.end] = ends.get(chain.end, 0) + 1
                whole = chains.get((why.end.stamp, why.end.cpu, lines[why.end.cpu][why.end.line - 1]))
                if whole is None or chain[0].begin is None:
                    continue
                steps += len(chain)
                for step, known in zip(chain, whole.steps):
                    if step.begin is not None:
                        self.assertEqual(plain_of(step)[:6], known[:6], (seed, why.end, chain))
                    else:
                        self.assertEqual(step.pid, known.pid)
        self.assertGreater(min(ends.get(end, 0) for end in ("interrupt", "idle", "lost")), 50, ends)
        self.assertGreater(steps, 1000)


def plain_of(step):
    """A step as the plain fold has it."""
    return plain_chains.Step(step.pid, step.cpu, step.since, step.until, step.waited, step.ran, step.preemptions, step.slept)


class Command(unittest.TestCase):
    """What the tool prints."""

    def setUp(self):
        folder = tempfile.TemporaryDirectory()
        self.addCleanup(folder.cleanup)
        self.path = os.path.join(folder.name, "my.trace")

    def ran(self, text, *options):
        """Run the tool; return its status, what it prints, and its messages."""
        with open(self.path, "wb") as file:
            file.write(text)
        ran = subprocess.run(
            [sys.executable, "-B", TOOL, self.path, *options], stdin=subprocess.DEVNULL, capture_output=True, check=False
        )
        return ran.returncode, ran.stdout.decode(), ran.stderr.decode().replace(self.path, "TRACE")

    def test_text(self):
        status, out, messages = self.ran(trace(*THREE), "0:2", "--chain")
        self.assertEqual((status, messages), (0, ""))
        why, _, chain = out.partition("\n\nThe chain ")
        self.assertEqual(why, self.ran(trace(*THREE), "0:2")[1].rstrip("\n"))
        self.assertEqual("The chain " + chain, THREE_TEXT + "\n")

    def test_longest(self):
        """If no place is named, the chain is that of the longest wait; of two waits, each has its own."""
        out = self.ran(trace(*THREE), "--chain", "--worst", "2")[1]
        self.assertEqual([part.count("The chain of wakings") for part in out.split("-" * 72 + "\n")], [1, 1])
        self.assertIn("1 step, 5 us (times in us)", out.split("-" * 72)[0])

    def test_options(self):
        text = ring(101)
        self.assertIn("a-10 was already awake when b-11 fell asleep", " ".join(self.ran(text, "1:151", "--chain")[1].split()))
        self.assertIn("after 32 steps", self.ran(text, "1:151", "--chain", "--beyond")[1])
        out = self.ran(text, "1:151", "--chain", "--beyond", "--steps", "50", "--all")[1]
        self.assertEqual(out.partition("The chain")[2].count(" task  9 S "), 50)
        self.assertEqual(self.ran(text, "--steps", "0")[0], 2)

    def test_json(self):
        status, out, messages = self.ran(trace(*THREE), "0:2", "--chain", "--json")
        self.assertEqual((status, messages), (0, ""))
        answer = json.loads(out)
        self.assertEqual((answer["trace"], len(answer["waits"])), (self.path, 1))
        why = answer["waits"][0]
        self.assertEqual((why["kind"], why["task"], why["pid"], why["micros"], why["doubtful"]), ("woken", "w", 12, 2, False))
        self.assertEqual(why["begin"]["stamp"], 1000188)
        self.assertEqual(why["waker"], {"task": "p", "pid": 11, "prio": None})
        self.assertEqual(why["shares"], [{"task": "<idle>", "pid": 0, "prio": None, "micros": 2, "runs": 1}])
        self.assertNotIn("stretches", why)
        chain = why["chain"]
        self.assertEqual((chain["end"], chain["micros"], len(chain["steps"])), ("interrupt", 90, 3))
        step = chain["steps"][2]
        figures = {name: step[name] for name in ("task", "pid", "cpu", "since", "until", "slept", "waited", "ran", "context")}
        self.assertEqual(
            figures,
            {
                "task": "n",
                "pid": 10,
                "cpu": 1,
                "since": 1000100,
                "until": 1000155,
                "slept": 100,
                "waited": 5,
                "ran": 50,
                "context": "hardirq",
            },
        )
        self.assertEqual((step["begin"]["cpu"], step["begin"]["line"], step["asleep"]["prev_state"]), (3, 1, "D"))
        # Without a chain, and with all that ran.
        why = json.loads(self.ran(trace(*THREE), "0:2", "--json", "--all")[1])["waits"][0]
        self.assertNotIn("chain", why)
        self.assertEqual([(one["begin"], one["end"]) for one in why["stretches"]], [(1000188, 1000190)])

    def test_json_is_whole(self):
        """A place without a wait ends the tool, and what it has printed can be read."""
        status, out, messages = self.ran(trace(*THREE), "0:2", "0:9", "--json")
        self.assertEqual((status, len(json.loads(out)["waits"])), (1, 1))
        self.assertEqual(messages, "why: no event of CPU 0 is at line 9: its lines are 1 to 2\n")
        status, out, messages = self.ran(trace(*THREE), "--task", "nobody", "--json")
        self.assertEqual((status, out, messages), (1, "", "why: there is no such wait\n"))

    def test_width(self):
        """Nothing is wider than 80 columns, whatever the names are; nor than the terminal."""
        name, other = "a" * 15, "b c" * 5
        text = trace(
            switch(1, 10**12, f"{other}-4194303", "D", "x-5"),
            waking(f"{name}-4194302", 100, 10**12 + 5 * 10**6, other, 4194303, 1, flags="d.h2."),
            switch(1, 10**12 + 8 * 10**6, "x-5", "R+", f"{name}-4194301"),
            switch(1, 10**12 + 9 * 10**6, f"{name}-4194301", "R+", f"{other}-4194303"),
        )
        status, out, _ = self.ran(text, "1:3", "--chain")
        self.assertEqual(status, 0)
        self.assertLessEqual(max(map(len, out.split("\n"))), 80)
        self.assertIn("  1000005.000000  100:1  interrupt  5000000 D  ", out)
        chain = chain_of(text, 1, 3).text(width=120)
        self.assertIn(f"{other}-4194303", chain)
        self.assertGreater(max(map(len, chain.split("\n"))), 80)


class ManyEvents(unittest.TestCase):
    """A recording of a million events."""

    def test_time(self):
        """Once a wait in the middle of it is explained, its chain takes little time."""
        second = ring(10_000)
        first, _, rest = second.partition(b"\n")
        text = first + b"\n" + b"".join(rest.replace(b" 1.", b" %d." % now) for now in range(1, 35))
        explainer = explain_explainer.explainer_of(text)
        self.assertGreater(explainer.waits.held.events, 1_000_000)
        whys = list(explainer.explain_each(explainer.waits[[100_000, 200_000, 300_000]]))
        # The time of this process, however busy the machine is.
        start = time.process_time()
        chains = [why.chain(beyond=True) for why in whys]
        took = time.process_time() - start
        self.assertEqual([(len(chain), chain.end) for chain in chains], [(32, "limit")] * 3)
        self.assertLess(took, 3)


if __name__ == "__main__":
    sys.exit(main())
