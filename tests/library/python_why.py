#!/usr/bin/env python3
"""Tests what the package reports about a wait; why_command.py tests tools/why, and why_slices.py slices of a recording. The
values are written by hand; for simulated machines, what ran is reckoned microsecond by microsecond.

    python_why.py [TEST]...
"""

import bisect
import doctest
import os
import pickle
import sys
import unittest
import warnings

# Nothing is written beside the sources.
sys.dont_write_bytecode = True

HERE = os.path.dirname(os.path.realpath(__file__))
PYTHON = os.path.realpath(os.path.join(HERE, "..", "..", "python"))
sys.path[:0] = [PYTHON, os.path.join(HERE, "..", "model")]

import histdesk
from histdesk import Hole, Share, Stretch
from python_runner import main
from recordings import all_known, simulated
from why_traces import BUSY, BUSY_TEXT, line, switch, trace, waking


def desk_of(text):
    desk = histdesk.Desk()
    with warnings.catch_warnings():
        warnings.simplefilter("ignore", histdesk.LossWarning)
        desk.load(text)
    return desk


def told(text, *words, **named):
    with warnings.catch_warnings():
        warnings.simplefilter("ignore", histdesk.LossWarning)
        return histdesk.why(text, *words, **named)


def lines_of(why):
    """The lines of its text, which aren't cut."""
    return why.text(width=200).split("\n")


class Told(unittest.TestCase):
    """A wait of which all is known."""

    def test_busy(self):
        why = told(trace(*BUSY), 2, 4)
        self.assertEqual((why.kind, why.task, why.pid, why.prio, why.micros), ("woken", "w", 42, 120, 400))
        self.assertEqual((why.cpu, why.queue_cpu, why.until, why.doubtful), (2, 2, 1000500, False))
        self.assertEqual(why.begin[:4], (1000100, 0, 1, "sched_waking"))
        self.assertEqual(why.end[:4], (1000500, 2, 4, "sched_switch"))
        # The kernel has kept no name of the waker at the waking; a switch has it.
        self.assertEqual((why.waker, why.context), (("bash", 7, None), "task"))
        self.assertEqual((why.queued.stamp, why.queued.cpu, why.queued.line, why.slept), (1000104, 0, 2, None))
        self.assertEqual(
            why.stretches,
            (
                Stretch(2, 1000100, 1000200, "a", 10, 120, "R+", 2, None),
                Stretch(2, 1000200, 1000300, "b", 11, 98, "S", 3, None),
                Stretch(2, 1000300, 1000500, "c", 12, 120, "X", 4, 1000260),
            ),
        )
        self.assertEqual([stretch.micros for stretch in why.stretches], [100, 100, 200])
        self.assertEqual(why.shares, [Share("c", 12, 120, 200, 1), Share("a", 10, 120, 100, 1), Share("b", 11, 98, 100, 1)])
        self.assertEqual((why.elsewhere, why.holes), ((), ()))

    def test_busy_as_text(self):
        why = told(trace(*BUSY), 2, 4)
        self.assertEqual(str(why), BUSY_TEXT)
        self.assertEqual((repr(why), why.text()), (str(why), str(why)))
        self.assertEqual(why._repr_html_(), "<pre>" + str(why).replace(">", "&gt;") + "</pre>")

    def test_example(self):
        text = histdesk.why.__doc__.replace("# doctest: +SKIP", "")
        example = doctest.DocTestParser().get_doctest(text, {"why": histdesk.why}, "why", None, None)
        self.assertEqual(doctest.DocTestRunner().run(example), (0, 2))

    def test_places(self):
        """Each event of the wait leads to it: its waking, its queueing, its end."""
        whole = told(trace(*BUSY), 2, 4)
        for place in [(0, 1), (0, 2)]:
            self.assertEqual(told(trace(*BUSY), *place), whole)
        # A desk, what was read, and an open file.
        self.assertEqual(told(desk_of(trace(*BUSY)), 0, 1), whole._replace(context=None))
        self.assertEqual(told(histdesk.read(trace(*BUSY)), 0, 1), whole)
        # Waits: the events around one are read again, which can't be done if the waits were pickled.
        waits = histdesk.waits(trace(*BUSY))
        self.assertEqual(told(waits, 0, 1), whole)
        with self.assertRaisesRegex(ValueError, "can't be read again"):
            told(pickle.loads(pickle.dumps(waits)), 0, 1)
        # A struck event is no part of a wait.
        desk = desk_of(trace(*BUSY))
        desk.strike(0, 2)
        self.assertEqual(told(desk, 0, 1).queued, None)


class Kinds(unittest.TestCase):
    """What began the wait, and where the task was then."""

    def test_preempted(self):
        text = trace(
            switch(1, 1000000, "swapper/1-0", "R", "w-42", task="<idle>-0"),
            switch(1, 1000010, "w-42", "R+", "rt-5", next_prio=19),
            switch(1, 1000035, "rt-5", "S", "w-42", prio=19),
        )
        why = told(text, 1, 3)
        self.assertEqual((why.kind, why.micros, why.waker, why.context), ("preempted", 25, ("rt", 5, 19), None))
        self.assertEqual((why.cpu, why.queue_cpu, why.queued), (1, 1, None))
        self.assertEqual(why.shares, [Share("rt", 5, 19, 25, 1)])
        self.assertEqual(
            lines_of(why)[:6],
            [
                "w-42 (prio 120) waited 25 us for CPU 1, from 1.000010 to 1.000035, after it was preempted (R+).",
                "rt-5 ran on CPU 1 all the while, and then slept (S).",
                "Tasks of real time (prio below 100) had 25 us (100 %) of it.",
                "",
                "  1.000010  1:2  it was preempted (R+), on CPU 1, where rt-5 (prio 19) ran then",
                "  1.000035  1:3  it ran on CPU 1, after rt-5, which slept (S)",
            ],
        )
        # The switch that begins it ends no other wait: rt was not woken.
        self.assertEqual(told(text, 1, 2), why)

    def test_switched_out_runnable(self):
        """The kernel has R for a task on its way back to user space, or one that gave way; it is moved to another CPU."""
        why = told(
            trace(
                waking("<idle>-0", 0, 1000000, "b", 6, 0),
                switch(0, 1000010, "w-42", "R", "b-6"),
                switch(1, 1000050, "swapper/1-0", "R", "w-42", task="<idle>-0"),
                switch(0, 1000060, "b-6", "S", "swapper/0-0"),
            ),
            1,
            1,
        )
        self.assertEqual((why.kind, why.cpu, why.queue_cpu, why.micros), ("preempted", 1, 0, 40))
        self.assertEqual(why.stretches, (Stretch(1, 1000010, 1000050, "<idle>", 0, None, "R", 1),))
        # b isn't switched out before the wait is over.
        self.assertEqual(why.elsewhere, (Stretch(0, 1000010, 1000050, "b", 6, 120),))
        self.assertEqual(
            lines_of(why)[:6],
            [
                "w-42 (prio 120) waited 40 us for CPU 1, from 1.000010 to 1.000050, "
                "after it was switched out, still runnable (R).",
                "b-6 ran on CPU 0 all the while.",
                "CPU 1 was idle all the while, until it ran the task.",
                "",
                "  1.000010  0:2  it was switched out, still runnable (R), on CPU 0, where b-6 (prio 120) ran then",
                "  1.000050  1:1  it ran on CPU 1, moved over from CPU 0, which was idle",
            ],
        )
        self.assertIn("CPU 0, where it was before:", lines_of(why))

    def test_queued_elsewhere(self):
        """It was queued on CPU 1, after a, and ran on CPU 3, which had been idle for a while."""
        text = trace(
            switch(1, 1000000, "swapper/1-0", "R", "a-10", task="<idle>-0"),
            switch(3, 1000000, "swapper/3-0", "R", "b-11", task="<idle>-0"),
            waking("x-5", 0, 1000100, "w", 42, 2),
            waking("x-5", 0, 1000101, "w", 42, 1, event="sched_wakeup"),
            switch(1, 1000140, "a-10", "S", "c-12"),
            switch(3, 1000150, "b-11", "S", "swapper/3-0"),
            switch(3, 1000200, "swapper/3-0", "R", "w-42", task="<idle>-0"),
            switch(1, 1000210, "c-12", "S", "swapper/1-0"),
        )
        why = told(text, 3, 3)
        self.assertEqual((why.cpu, why.queue_cpu, why.begin.target_cpu), (3, 1, 2))
        self.assertEqual([(stretch.pid, stretch.micros) for stretch in why.stretches], [(11, 50), (0, 50)])
        self.assertEqual([(stretch.pid, stretch.micros) for stretch in why.elsewhere], [(10, 40), (12, 60)])
        self.assertEqual(
            lines_of(why)[:8],
            [
                "w-42 (prio 120) waited 100 us for CPU 3, from 1.000100 to 1.000200, after it was woken.",
                "2 tasks ran on CPU 1 meanwhile, in 2 stretches; c-12 the longest, 60 us (60 %).",
                "b-11 ran on CPU 3 for 50 us (50 %), in 1 stretch. It was idle for 50 us (50 %).",
                "",
                "  1.000100  0:1  x-5 on CPU 0 woke it; it had last run on CPU 2",
                "  1.000101  0:2  it was queued on CPU 1, 1 us after the waking",
                "  1.000200  3:3  it ran on CPU 3, moved over from CPU 1, which was idle",
                "",
            ],
        )
        self.assertEqual(
            [text for text in lines_of(why) if text.startswith("CPU")], ["CPU 1, where it was queued:", "CPU 3, where it ran:"]
        )

    def test_new(self):
        why = told(
            trace(
                waking("make-8", 3, 1000000, "make", 43, 1, event="sched_wakeup_new"),
                switch(1, 1000009, "swapper/1-0", "R", "make-43", task="<idle>-0"),
            ),
            3,
            1,
        )
        self.assertEqual((why.kind, why.waker, why.context), ("new", ("make", 8, None), "task"))
        self.assertEqual((why.queue_cpu, why.queued, why.micros), (1, None, 9))
        self.assertIn("  1.000000  3:1  make-8 on CPU 3 forked it, and it was queued on CPU 1", lines_of(why))

    def test_woken_before_it_slept(self):
        """The waker is faster than the task, which still runs on CPU 1; it then runs on CPU 0."""
        text = trace(
            switch(0, 1000000, "swapper/0-0", "R", "a-10", task="<idle>-0"),
            switch(1, 1000000, "swapper/1-0", "R", "w-42", task="<idle>-0"),
            waking("a-10", 0, 1000010, "w", 42, 1),
            switch(1, 1000012, "w-42", "S", "swapper/1-0"),
            waking("a-10", 0, 1000013, "w", 42, 0, event="sched_wakeup"),
            switch(0, 1000030, "a-10", "S", "w-42"),
        )
        why = told(text, 0, 4)
        self.assertEqual((why.slept[:3], why.queued[:3]), ((1000012, 1, 2), (1000013, 0, 3)))
        self.assertEqual((why.cpu, why.micros, why.shares), (0, 20, [Share("a", 10, 120, 20, 1)]))
        # Its waking ended once it had left CPU 1.
        self.assertEqual((why.is_before_sleep, why.doubtful), (False, False))
        self.assertIn("  1.000012  1:2  it slept (S) on CPU 1, having been woken before that", lines_of(why))

    def test_woken_before_it_slept_there(self):
        why = told(
            trace(
                switch(1, 1000000, "swapper/1-0", "R", "w-42", task="<idle>-0"),
                waking("<idle>-0", 0, 1000010, "w", 42, 1),
                switch(1, 1000012, "w-42", "S", "b-11"),
                switch(1, 1000020, "b-11", "S", "swapper/1-0"),
                switch(1, 1000025, "swapper/1-0", "R", "w-42", task="<idle>-0"),
            ),
            1,
            4,
        )
        self.assertEqual([(stretch.pid, stretch.micros) for stretch in why.stretches], [(42, 2), (11, 8), (0, 5)])
        self.assertEqual((why.is_before_sleep, why.doubtful, why.holes), (True, True, ()))
        self.assertEqual(
            lines_of(why)[1:3],
            [
                "Doubtful: it slept (S) at 1.000012, and what woke it after that may be missing; then it waited for less time.",
                "b-11 ran on CPU 1 for 8 us (53 %), in 1 stretch. It was idle for 5 us (33 %). "
                "For 2 us (13 %) the task itself still ran.",
            ],
        )

    def test_woken_on_its_way_to_sleep(self):
        why = told(
            trace(
                switch(1, 1000000, "swapper/1-0", "R", "w-42", task="<idle>-0"),
                waking("a-10", 0, 1000010, "w", 42, 1),
                switch(1, 1000012, "w-42", "S", "b-11"),
                waking("a-10", 0, 1000013, "w", 42, 1, event="sched_wakeup"),
                switch(1, 1000020, "b-11", "S", "w-42"),
            ),
            1,
            3,
        )
        self.assertEqual((why.is_before_sleep, why.doubtful), (False, False))
        self.assertEqual(
            lines_of(why)[1],
            "b-11 ran on CPU 1 for 8 us (80 %), in 1 stretch. "
            "For 2 us (20 %) the task itself still ran: it was woken on its way to sleep.",
        )

    def idle(self, *lines, cpu=1, line=2):
        """What is told of CPUs that were idle all the while."""
        told_of = [text.split(".") for text in lines_of(told(trace(*lines), cpu, line)) if " was idle all the while" in text]
        return [f"{text.strip()}." for texts in told_of for text in texts if text]

    def test_idle_after_it_was_left(self):
        """A CPU that goes idle although it leaves a task that can run: no event says why."""
        left = switch(1, 1000010, "w-42", "R+", "swapper/1-0")
        there = switch(1, 1000090, "swapper/1-0", "R", "w-42", task="<idle>-0")
        causes = "a quota held the task back, or it was queued on another CPU."
        self.assertEqual(self.idle(left, there), [f"CPU 1 was idle all the while: {causes}"])
        elsewhere = switch(2, 1000090, "swapper/2-0", "R", "w-42", task="<idle>-0")
        before = switch(2, 1000000, "b-5", "S", "swapper/2-0")
        self.assertEqual(
            self.idle(before, left, elsewhere, cpu=2),
            [f"CPU 1 was idle all the while: {causes}", "CPU 2 was idle all the while, until it ran the task."],
        )

    def test_idle_after_a_waking(self):
        before = switch(1, 1000000, "b-5", "S", "swapper/1-0")
        woken = waking("a-10", 0, 1000010, "w", 42, 1)
        queued = waking("a-10", 0, 1000011, "w", 42, 1, event="sched_wakeup")
        there = switch(1, 1000090, "swapper/1-0", "R", "w-42", task="<idle>-0")
        causes = "the time went into waking the CPU, or a quota held the task back"
        self.assertEqual(self.idle(before, woken, queued, there), [f"CPU 1 was idle all the while: {causes}."])
        # It isn't known where it was queued.
        self.assertEqual(
            self.idle(before, woken, there), [f"CPU 1 was idle all the while: {causes}, or it was queued on another CPU."]
        )

    def test_ran_unseen(self):
        """A kernel may record no switch from the idle task."""
        why = told(
            trace(
                switch(0, 1000000, "z-3", "S", "swapper/0-0"),
                waking("<idle>-0", 0, 1000010, "a", 10, 0),
                waking("a-10", 0, 1000030, "b", 11, 1),
                switch(0, 1000040, "a-10", "S", "x-5"),
                switch(0, 1000060, "x-5", "S", "a-10"),
            ),
            0,
            5,
        )
        self.assertEqual([(stretch.pid, stretch.micros) for stretch in why.stretches], [(None, 20), (10, 10), (5, 20)])
        self.assertEqual((why.is_before_sleep, why.doubtful, why.holes), (True, True, ()))
        self.assertEqual(
            lines_of(why)[1:4],
            [
                "Doubtful: it slept (S) at 1.000040, and what woke it after that may be missing; then it waited for less time.",
                "x-5 ran on CPU 0 for 20 us (40 %), in 1 stretch. For 10 us (20 %) the task itself ran, though no switch to it "
                "was recorded: this wait is too long, or false.",
                "What ran on CPU 0 for 20 us (40 %) isn't known: a switch there was not recorded.",
            ],
        )

    def test_switch_that_ends_one_and_begins_another(self):
        text = trace(
            waking("<idle>-0", 0, 1000000, "a", 10, 1),
            switch(1, 1000005, "b-11", "R+", "a-10"),
            switch(1, 1000050, "a-10", "S", "b-11"),
        )
        self.assertEqual(told(text, 1, 1).pid, 10)
        self.assertEqual((told(text, 1, 2).pid, told(text, 1, 2).begin[:3]), (11, (1000005, 1, 1)))


class Contexts(unittest.TestCase):
    """Where a waking came from, by the kernel's flags."""

    def context_of(self, flags, *, task="bash-7", before=()):
        front = f"{task} [000] {flags} " if flags else f"{task} [000] "
        wake = f"{front}1.000100: sched_waking: comm=w pid=42 prio=120 target_cpu=001"
        text = trace(*before, wake, switch(1, 1000150, "swapper/1-0", "R", "w-42", task="<idle>-0"))
        why = told(text, 1, 1)
        return why.context, next(text for text in lines_of(why) if "woke it" in text).split("  ")[3]

    def test_contexts(self):
        self.assertEqual(self.context_of("d..2."), ("task", "bash-7 on CPU 0 woke it"))
        self.assertEqual(self.context_of("dNh4."), ("hardirq", "an interrupt on CPU 0, where bash-7 ran, woke it"))
        self.assertEqual(self.context_of("d.H4."), ("hardirq", "an interrupt on CPU 0, where bash-7 ran, woke it"))
        self.assertEqual(self.context_of("d.s4."), ("softirq", "a softirq on CPU 0, where bash-7 ran, woke it"))
        self.assertEqual(self.context_of("d.Z4."), ("nmi", "a non-maskable interrupt on CPU 0, where bash-7 ran, woke it"))
        self.assertEqual(
            self.context_of("d.h4.", task="<idle>-0"), ("hardirq", "an interrupt on CPU 0, which was idle, woke it")
        )

    def test_without_flags(self):
        """Texts of perf and trace-cmd have no flags."""
        self.assertEqual(self.context_of(""), (None, "bash-7 on CPU 0, or an interrupt there, woke it"))
        self.assertEqual(self.context_of("", task="<idle>-0"), (None, "CPU 0, which was idle, woke it"))

    def test_other_lines_of_that_moment(self):
        """The flags are those of the waking's own line: of its CPU, event and task."""
        others = (
            waking("x-3", 1, 1000100, "w", 42, 1, flags="d.s4."),
            waking("bash-7", 0, 1000100, "w", 42, 1, flags="d.s4.", event="sched_wakeup"),
            waking("bash-7", 0, 1000100, "v", 41, 1, flags="d.s4."),
            waking("bash-7", 0, 11000100, "w", 42, 1, flags="d.s4."),
        )
        self.assertEqual(self.context_of("d..2.", before=others[1:3])[0], "task")
        self.assertEqual(self.context_of("d.h2.", before=others[1:3])[0], "hardirq")


class Lost(unittest.TestCase):
    """Waits at the edges of the trace, and across events that were lost."""

    def test_hole_in_the_middle(self):
        """CPU 1 lost five events, and with them what ran for 500 us."""
        text = trace(
            switch(1, 1000000, "swapper/1-0", "R", "a-10", task="<idle>-0"),
            waking("bash-7", 0, 1000100, "w", 42, 1),
            switch(1, 1000200, "a-10", "S", "b-11"),
            "CPU:1 [LOST 5 EVENTS]",
            waking("c-12", 1, 1000700, "z", 9, 1),
            switch(1, 1000800, "c-12", "R", "w-42"),
        )
        why = told(text, 1, 4)
        self.assertEqual((why.doubtful, why.holes), (True, (Hole(1, 1000200, 1000700, 5, 4),)))
        self.assertEqual(
            why.stretches,
            (
                Stretch(1, 1000100, 1000200, "a", 10, 120, "S", 2),
                Stretch(1, 1000200, 1000700, None, None, None),
                Stretch(1, 1000700, 1000800, "c", 12, 120, "R", 4),
            ),
        )
        self.assertEqual(sum(share.micros for share in why.shares), why.micros)
        self.assertEqual(
            lines_of(why)[1:4],
            [
                "Doubtful: CPU 1 lost 5 events between 1.000200 and 1.000700 (line 4 of the text); the wait may be false.",
                "2 tasks ran on CPU 1 meanwhile, in 2 stretches; a-10 the longest, 100 us (14 %).",
                "What ran on CPU 1 for 500 us (71 %) isn't known: events of it were lost.",
            ],
        )

    def test_buffer_that_begins_late(self):
        text = trace(
            waking("bash-7", 0, 1000100, "w", 42, 1),
            "##### CPU 1 buffer started ####",
            switch(1, 1000700, "a-10", "S", "b-11"),
            switch(1, 1000800, "b-11", "S", "w-42"),
        )
        why = told(text, 1, 2)
        self.assertTrue(why.doubtful)
        self.assertEqual([(stretch.pid, stretch.micros) for stretch in why.stretches], [(None, 600), (10, 0), (11, 100)])
        self.assertIn(
            "Doubtful: CPU 1 lost events between the beginning and 1.000700 (line 2 of the text)", why.text(width=200)
        )

    def test_warning(self):
        """There is one warning about what was lost."""
        text = trace(waking("x-5", 0, 1000000, "w", 42, 1), "CPU:0 [LOST 3 EVENTS]", switch(0, 1000100, "a-1", "S", "w-42"))
        with warnings.catch_warnings(record=True) as warned:
            warnings.simplefilter("always")
            for whose in (text, histdesk.read(text), histdesk.waits(text)):
                self.assertTrue(histdesk.why(whose, 0, 1).doubtful)
        self.assertEqual([one.category for one in warned], [histdesk.LossWarning] * 3)
        self.assertEqual({one.filename for one in warned}, {__file__})

    def test_warning_of_a_text_out_of_order(self):
        """There is one, and it names the line that asked, if a desk has to hold the events."""
        last = waking("y-6", 1, 1500000, "v", 43, 1)
        text = trace(
            last, waking("x-5", 0, 1000000, "w", 42, 1), "CPU:1 [LOST 3 EVENTS]", switch(0, 1000100, "a-1", "S", "w-42")
        )
        with warnings.catch_warnings(record=True) as warned:
            warnings.simplefilter("always")
            for asks in (
                lambda part: histdesk.why(part, 0, 2),
                lambda part: histdesk.diff(part, without="sched_waking if prio == 1"),
            ):
                part = histdesk.read(text)
                part.is_reported = False
                asks(part)
        self.assertEqual([one.category for one in warned], [histdesk.LossWarning] * 4)
        self.assertEqual({one.filename for one in warned}, {__file__})

    def test_hole_elsewhere(self):
        """What ran on its own CPU is known, and the wait is doubtful all the same."""
        why = told(
            trace(
                switch(1, 1000000, "swapper/1-0", "R", "a-10", task="<idle>-0"),
                waking("bash-7", 0, 1000100, "w", 42, 1),
                "CPU:0 [LOST EVENTS]",
                waking("bash-7", 0, 1000150, "z", 9, 1),
                switch(1, 1000200, "a-10", "S", "w-42"),
            ),
            1,
            2,
        )
        self.assertEqual((why.doubtful, why.shares), (True, [Share("a", 10, 120, 100, 1)]))

    def test_hole_beside(self):
        """A hole that ends as the wait begins, and one that begins as it ends, are not within it."""
        why = told(
            trace(
                waking("x-3", 0, 1000000, "z", 9, 1),
                "CPU:0 [LOST 3 EVENTS]",
                waking("bash-7", 0, 1000100, "w", 42, 1),
                switch(1, 1000200, "a-10", "S", "w-42"),
                "CPU:1 [LOST 3 EVENTS]",
                switch(1, 1000900, "a-10", "S", "w-42"),
            ),
            1,
            1,
        )
        self.assertEqual((why.doubtful, why.stretches), (False, (Stretch(1, 1000100, 1000200, "a", 10, 120, "S", 1),)))

    def test_many_holes(self):
        """Five holes are within one wait; three are told."""
        lines = [waking("bash-7", 0, 1000000, "w", 42, 1)]
        for number in range(1, 7):
            lines += [*["CPU:1 [LOST 2 EVENTS]"] * (number > 1), waking("a-10", 1, 1000000 + 100 * number, "z", 50 + number, 1)]
        why = told(trace(*lines, switch(1, 1000700, "a-10", "S", "w-42")), 1, 7)
        self.assertEqual(len(why.holes), 5)
        self.assertEqual([text.partition(" ")[0] for text in lines_of(why)[1:4]], ["Doubtful:"] * 3)
        self.assertEqual(
            lines_of(why)[4:7],
            [
                "Events are missing in 2 places more within it.",
                "a-10 ran on CPU 1 for 200 us (29 %), in 2 stretches.",
                "What ran on CPU 1 for 500 us (71 %) isn't known: events of it were lost.",
            ],
        )

    def test_missing_switch(self):
        """CPU 1 switches to b, and a later event is by c: nothing tells when that came."""
        why = told(
            trace(
                waking("bash-7", 0, 1000100, "w", 42, 1),
                switch(1, 1000110, "a-10", "S", "b-11"),
                waking("b-11", 1, 1000120, "z", 9, 1),
                waking("c-12", 1, 1000150, "z", 9, 1),
                switch(1, 1000170, "c-12", "S", "w-42"),
            ),
            1,
            4,
        )
        self.assertEqual(
            [(stretch.pid, stretch.micros) for stretch in why.stretches], [(10, 10), (11, 10), (None, 30), (12, 20)]
        )
        self.assertIn("What ran on CPU 1 for 30 us (43 %) isn't known: a switch there was not recorded.", lines_of(why))

    def test_still_waits(self):
        """No switch to it follows: it waits to the last event, wherever that is."""
        text = trace(
            switch(1, 1000000, "swapper/1-0", "R", "a-10", task="<idle>-0"),
            waking("bash-7", 0, 1000100, "w", 42, 3),
            waking("bash-7", 0, 1000110, "w", 42, 1, event="sched_wakeup"),
            switch(1, 1000400, "a-10", "S", "b-11"),
            waking("bash-7", 0, 1000900, "z", 9, 1),
        )
        why = told(text, 0, 1)
        self.assertEqual((why.end, why.until, why.micros, why.cpu), (None, 1000900, 800, 1))
        self.assertEqual(
            why.stretches, (Stretch(1, 1000100, 1000400, "a", 10, 120, "S", 2), Stretch(1, 1000400, 1000900, "b", 11, 120))
        )
        self.assertEqual(
            lines_of(why)[0],
            "w-42 (prio 120) has waited 800 us for CPU 1, from 1.000100 to the trace's end at 1.000900, after it was woken.",
        )
        self.assertIn("CPU 1, where it waits:", lines_of(why))

    def test_still_waits_somewhere(self):
        """Where it was queued isn't known, and what ran there is not either."""
        why = told(trace(waking("bash-7", 0, 1000100, "w", 42, 3), waking("bash-7", 0, 1000150, "z", 9, 1)), 0, 1)
        self.assertEqual((why.queue_cpu, why.cpu, why.stretches), (None, 3, (Stretch(3, 1000100, 1000150, None, None, None),)))
        self.assertEqual(lines_of(why)[1], "What ran on CPU 3 for 50 us (100 %) isn't known: no event in the trace tells.")

    def test_first_event_of_its_cpu(self):
        """No event of the CPU comes before the switch that ends the wait; that switch says what ran."""
        why = told(trace(waking("bash-7", 0, 1000100, "w", 42, 1), switch(1, 1000400, "a-10", "S", "w-42")), 1, 1)
        self.assertEqual(why.stretches, (Stretch(1, 1000100, 1000400, "a", 10, 120, "S", 1),))

    def test_no_time(self):
        why = told(trace(waking("a-10", 0, 1000100, "w", 42, 0), switch(0, 1000100, "a-10", "R+", "w-42")), 0, 2)
        self.assertEqual((why.micros, [stretch.micros for stretch in why.stretches]), (0, [0]))
        self.assertIn("a-10   120   0  0     1  |" + " " * 60 + "|", why.text(width=200))


class Longest(unittest.TestCase):
    """Without an event, the longest wait is explained."""

    def test_longest(self):
        for name, known in all_known().items():
            sure = [wait for wait in known.waits if not wait.doubtful]
            if sure and not name.startswith("damaged"):
                longest = max(sure, key=lambda wait: wait.micros)
                first = min((wait for wait in sure if wait.micros == longest.micros), key=lambda wait: wait.end)
                why = told(known.text)
                self.assertEqual((why.micros, why.pid, why.begin[:3]), (first.micros, first.pid, first.begin))

    def test_of_what(self):
        """The longest wait of a desk, of waits, or of what was read of a trace; but not if only some CPUs were read."""
        text = all_known()["kinds"].text
        why = told(text)
        for source in (desk_of(text), histdesk.waits(text), histdesk.read(text)):
            self.assertEqual(told(source).begin, why.begin)
        with self.assertRaisesRegex(ValueError, "all CPUs"):
            told(histdesk.read(text, cpus=why.cpu))

    def test_wait_or_place(self):
        """A wait is named by itself, by an event of it, or by a place, of a trace, of waits, and of a desk."""
        text = trace(*BUSY)
        waits = histdesk.waits(text)
        for source in (text, waits, histdesk.read(text), desk_of(text)):
            for wait in waits:
                wanted = told(source, wait.end.cpu, wait.end.line)
                self.assertEqual((wanted.begin[:3], wanted.end[:3]), (wait.begin, wait.end))
                for event in (wait, wait.end, wanted.end):
                    self.assertEqual(told(source, event), wanted)
            self.assertEqual(told(source, histdesk.Place(1000104, 0, 2)), told(source, 2, 4))
            self.assertEqual(told(source, cpu=2, line=4), told(source, 2, 4))
            self.assertEqual(told(source, 2, line=4), told(source, 2, 4))

    def test_of_another_recording(self):
        """A place of another recording, where other events are at these lines, belongs to no wait of this one."""
        wait = next(iter(histdesk.waits(trace(*BUSY))))
        later = trace(*BUSY).replace(b" 1.000", b" 2.000")
        for event in (wait, wait.begin, histdesk.Place(1000104, 0, 2)):
            with self.assertRaisesRegex(LookupError, r"at \d:\d is at 2\.\d{6}, and not 1\.\d{6}: .* another recording$"):
                told(later, event)
        with self.assertRaisesRegex(LookupError, "no event of CPU 2 is at line 4"):
            told(trace(*BUSY[:3]), histdesk.Place(1000500, 2, 4))

    def test_neither(self):
        for words, why in (
            ((wait := next(iter(histdesk.waits(trace(*BUSY)))), 4), "stands by itself"),
            ((wait.end, 4), "stands by itself"),
            (("2:4",), "neither a Wait, nor a Place, nor the number of a CPU"),
            (((2, 4),), "neither a Wait, nor a Place, nor the number of a CPU"),
            ((2, 4.0), "line is 4.0, which is no whole number"),
        ):
            with self.assertRaisesRegex(TypeError, why):
                told(trace(*BUSY), *words)
        with self.assertRaisesRegex(TypeError, "given twice"):
            told(trace(*BUSY), 2, 4, cpu=2)

    def test_none(self):
        with self.assertRaisesRegex(LookupError, "no wait that isn't doubtful"):
            told(b"")
        for place in ((0,), (None, 1)):
            with self.assertRaisesRegex(TypeError, "both a CPU and a line"):
                told(trace(*BUSY), *place)
        for place in (("2", 4), (2, "4")):
            with self.assertRaises(TypeError):
                told(trace(*BUSY), *place)


class Nothing(unittest.TestCase):
    """Events that belong to no wait."""

    def reason(self, text, cpu, line):
        with self.assertRaises(LookupError) as raised:
            told(text, cpu, line)
        return raised.exception.args[0]

    def test_no_event(self):
        self.assertEqual(self.reason(trace(*BUSY), 2, 5), "no event of CPU 2 is at line 5: its lines are 1 to 4")
        self.assertEqual(self.reason(trace(*BUSY), 2, 0), "no event of CPU 2 is at line 0: its lines are 1 to 4")
        self.assertEqual(self.reason(trace(*BUSY), 3, 1), "no event of CPU 3 is at line 1: the trace has none of that CPU")
        self.assertEqual(self.reason(b"", 0, 1), "no event of CPU 0 is at line 1: the trace has none of that CPU")

    def test_no_begin(self):
        self.assertEqual(
            self.reason(trace(*BUSY), 2, 1),
            "nothing before the sched_switch at 2:1 shows what made a-10 runnable: "
            "it was lost or left out, or the trace begins later",
        )
        # Nothing shows what made b-11 runnable either, but its switch begins another wait.
        self.assertEqual(told(trace(*BUSY), 2, 2).pid, 10)

    def test_idle(self):
        self.assertEqual(
            self.reason(trace(*BUSY), 0, 4),
            "the sched_switch at 0:4 ends no wait and begins none: it runs no task, and bash-7 slept (D)",
        )
        text = trace(waking("a-1", 0, 1000000, "swapper/1", 0, 1))
        self.assertEqual(self.reason(text, 0, 1), "the sched_waking at 0:1 wakes the idle task, which waits for nothing")

    def test_other_event(self):
        text = trace(line("a-1", 0, 1000000, "irq_handler_entry: irq=1 name=x"))
        self.assertEqual(
            self.reason(text, 0, 1), "the event at 0:1 is none of the scheduler's four: it neither ends a wait nor begins one"
        )

    def test_waking_of_a_task_that_runs(self):
        text = trace(
            switch(1, 1000000, "swapper/1-0", "R", "w-42", task="<idle>-0"),
            waking("bash-7", 0, 1000100, "w", 42, 1),
            switch(1, 1000200, "w-42", "R", "a-10"),
            switch(1, 1000300, "a-10", "S", "w-42"),
        )
        self.assertEqual(self.reason(text, 0, 1), "the sched_waking at 0:1 begins no wait: w-42 still ran, on CPU 1")

    def test_waking_before_another(self):
        text = trace(
            waking("bash-7", 0, 1000000, "w", 42, 1),
            waking("bash-7", 0, 1000100, "w", 42, 1),
            switch(1, 1000300, "a-10", "S", "w-42"),
        )
        self.assertEqual(self.reason(text, 0, 1), "the sched_waking at 0:1 begins no wait: w-42 is woken again before it runs")

    def test_waking_within_a_wait(self):
        """If the task was preempted, it was on its way to sleep: it has waited since the waking, and not since it was left."""
        text = trace(
            switch(1, 1000000, "w-42", "R+", "a-10"),
            waking("bash-7", 0, 1000100, "w", 42, 1),
            switch(1, 1000300, "a-10", "S", "w-42"),
        )
        why = told(text, 0, 1)
        self.assertEqual((why.kind, why.begin[:3], why.micros, why.doubtful), ("woken", (1000100, 0, 1), 200, False))
        self.assertIn("what made a-10 runnable", self.reason(text, 1, 1))


class Shown(unittest.TestCase):
    """Names and long texts as they are shown."""

    def test_odd_names(self):
        name, waker = "a-1 [0] \udcff\x1b", "comm=q pid=3 ==> next_comm="
        text = trace(
            waking(f"{waker}-7", 0, 1000100, name, 42, 1), switch(1, 1000400, f"{waker}-10", "S", f"{name}-42", task="x-10")
        )
        why = told(text, 1, 1)
        self.assertEqual((why.task, why.waker.task, why.stretches[0].task), (name, waker, waker))
        self.assertIn("a-1 [0] \\xff\\x1b-42 (prio 120) waited 300 us", str(why))
        str(why).encode("utf-8")

    def test_many_stretches(self):
        """Forty stretches of 10 us, of four tasks in turn; 10 from each end are shown, or all."""
        turns = [
            switch(1, 1000010 + 10 * number, f"t-{10 + number % 4}", "R", f"t-{10 + (number + 1) % 4}") for number in range(39)
        ]
        text = trace(waking("bash-7", 0, 1000000, "w", 42, 1), *turns, switch(1, 1000400, "t-13", "S", "w-42"))
        why = told(text, 1, 40)
        self.assertEqual(why.shares, [Share("t", pid, 120, 100, 10) for pid in range(10, 14)])
        order = lines_of(why)[lines_of(why).index("What ran on CPU 1, in order:") + 2 :]
        self.assertEqual((len(order), order[10].split()), (21, [".."] * 7))
        self.assertEqual(len(why.text(all_stretches=True, width=200).split("\n")), len(lines_of(why)) + 19)
        self.assertIn("4 tasks ran on CPU 1 meanwhile, in 40 stretches; t-10 the longest, 100 us (25 %).", lines_of(why))

    def test_picture(self):
        """A column is 10 us: # from 5 us on, - for less."""
        text = trace(
            waking("bash-7", 0, 1000000, "w", 42, 1),
            switch(1, 1000100, "a-10", "R", "b-11"),
            switch(1, 1000104, "b-11", "R", "a-10"),
            switch(1, 1000595, "a-10", "S", "c-12"),
            switch(1, 1000600, "c-12", "S", "w-42"),
        )
        rows = {text.split()[0]: text[text.index("|") :] for text in lines_of(told(text, 1, 4)) if "|" in text}
        self.assertEqual(rows["a-10"], f"|{'#' * 60}|")
        self.assertEqual(rows["b-11"], f"|{' ' * 10}-{' ' * 49}|")
        self.assertEqual(rows["c-12"], f"|{' ' * 59}#|")

    def test_less_urgent(self):
        text = trace(
            waking("<idle>-0", 0, 1000000, "rt", 42, 1, prio=19),
            switch(1, 1000300, "a-10", "R+", "rt-42", next_prio=19),
        )
        self.assertIn("Tasks less urgent than it (a greater prio) had 300 us (100 %) of it.", lines_of(told(text, 1, 1)))


# ---- beside a plain reckoning


def events_of(text):
    """The events of a text as the reckoning needs them, in order of time: stamp, CPU, and a switch's two PIDs, or else None."""
    found = []
    for each in text.decode("utf-8", "surrogateescape").split("\n"):
        if " sched_" in each:
            cpu, stamp = int(each.split("[")[1][:3]), each.split(": sched_")[0].split()[-1]
            pids = [int(each.split(f" {field}=")[1].split()[0]) for field in ("prev_pid", "next_pid") if f" {field}=" in each]
            found.append((int(stamp.replace(".", "")), cpu, *(pids or (None, None))))
    return sorted(found, key=lambda event: event[:2])


def by_runners(text):
    """The text of a simulated machine, with each waking written by the task that runs on its CPU."""
    running, lines = {}, []
    for each in text.decode("utf-8", "surrogateescape").split("\n"):
        cpu = each.partition("[")[2][:3]
        if ": sched_switch:" in each:
            running[cpu] = "{}-{}".format(*each.partition(" next_comm=")[2].partition(" next_prio=")[0].split(" next_pid="))
        elif ": sched_" in each and running.get(cpu, "-0")[-2:] != "-0":
            each = each.replace("<idle>-0", running[cpu])
        lines.append(each)
    return "\n".join(lines).encode("utf-8", "surrogateescape")


def ran(events, cpu, begin, end):
    """Which task ran on a CPU in each microsecond between two stamps."""
    switches = [event for event in events if event[1] == cpu and event[2] is not None]
    stamps = [event[0] for event in switches]
    micros = {}
    for now in range(begin, end):
        after = bisect.bisect_right(stamps, now)
        pid = switches[after - 1][3] if after else switches[0][2]
        micros[pid] = micros.get(pid, 0) + 1
    return micros


class Reckoned(unittest.TestCase):
    """Simulated machines: it is known what waits they have, and what ran meanwhile."""

    def test_simulated(self):
        for seed in range(4):
            known = simulated(seed, 250)
            text = by_runners(known.text)
            events, scene = events_of(text), desk_of(text)
            for wait in known.waits:
                why = histdesk.why(scene, wait.end.cpu, wait.end.line)
                self.assertEqual(
                    (why.kind, why.pid, why.task, why.prio, why.begin[:3], why.end[:3], why.micros),
                    (wait.kind, wait.pid, wait.name, wait.prio, wait.begin, wait.end, wait.micros),
                )
                self.assertEqual(
                    {share.pid: share.micros for share in why.shares if share.micros},
                    ran(events, wait.end.cpu, wait.begin.stamp, wait.end.stamp),
                )
                self.assertEqual(
                    [(one.end, one.begin) for one in why.stretches],
                    [
                        *zip([one.begin for one in why.stretches[1:]], [one.begin for one in why.stretches[:-1]]),
                        (wait.end.stamp, why.stretches[-1].begin),
                    ],
                )
                self.assertEqual(told_at_begin(scene, wait), why)

    def test_known(self):
        """All known waits that aren't doubtful, except those of damaged traces."""
        for name, known in all_known().items():
            desk = desk_of(known.text)
            for wait in known.waits:
                if not wait.doubtful and not name.startswith("damaged"):
                    why = histdesk.why(desk, wait.end.cpu, wait.end.line)
                    self.assertEqual((why.kind, why.begin[:3], why.micros), (wait.kind, wait.begin, wait.micros), name)
                    for stretches in filter(None, (why.stretches, why.elsewhere)):
                        self.assertEqual(sum(stretch.micros for stretch in stretches), why.micros)


def told_at_begin(desk, wait):
    """The wait, by the event that begins it; a switch may end another one, which comes first."""
    why = histdesk.why(desk, wait.begin.cpu, wait.begin.line)
    return why if why.pid == wait.pid else histdesk.why(desk, wait.end.cpu, wait.end.line)


if __name__ == "__main__":
    sys.exit(main())
