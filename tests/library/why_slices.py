"""Tests what is reported about waits from slices of a recording. That depends on what ran before the wait began, which may be
long ago: each answer is compared with that over the whole recording, or is known by hand."""

import contextlib
import io
import json
import os
import random
import subprocess
import sys
import tempfile
import unittest
import warnings
from unittest import mock

import histdesk
from histdesk import Share, Stretch
from histdesk.cli import why as why_tool
from histdesk.desk import slices as desk_slices
from histdesk.explain import explainer, surroundings
from histdesk.trace import text as trace_text
from why_traces import line, switch, trace, waking

TOOL = os.path.join(os.path.dirname(os.path.realpath(__file__)), "..", "..", "tools", "why")


def noise(seed, count=120):
    """Events by chance, in the order of time: few tasks, CPUs that are seldom heard of, names that the kernel hasn't kept,
    switches that are missing, several events at one stamp, and lines of lost events."""
    chance, lines, now = random.Random(seed), [], 1000000
    for _ in range(count):
        now += chance.choice([0, 0, 1, 2, 7, chance.randrange(300)])
        cpu, pid = chance.choice([0, 0, 0, 1, 1, 2, 3, 5]), chance.randrange(6)
        task = chance.choice(["<...>", "<...>", "a", "b"]) + f"-{chance.randrange(1, 6)}"
        name = chance.choice(["a", "b c", f"n{chance.randrange(9)}"])
        what = chance.choice(
            [*["sched_waking"] * 3, *["sched_wakeup"] * 2, "sched_wakeup_new", *["switch"] * 3, "lost", "other"]
        )
        if what == "lost":
            told = [f"CPU:{cpu} [LOST {pid + 1} EVENTS]", f"##### CPU {cpu} buffer started ####"]
            lines += [chance.choice(told)] * (chance.random() < 0.3)
        elif what == "other":
            lines.append(line(task, cpu, now, "console: x"))
        elif what == "switch":
            before, state = f"{name}-{chance.randrange(6)}", chance.choice(["R", "R+", "S", "X"])
            lines.append(switch(cpu, now, before, state, f"{name}-{pid}", task=task))
        else:
            target, flags = chance.choice([0, 1, 2, 3, 5, 7]), chance.choice(["d..2.", "d.h2.", "d.s2."])
            lines.append(waking(task, cpu, now, name, pid, target, event=what, flags=flags))
    return trace(*lines)


def answer(teller, cpu, at):
    """What is told of a place, or why nothing is."""
    try:
        return teller.explain_at(cpu, at)
    except LookupError as error:
        return error.args[0]


def cut(**sizes):
    """Return what cuts recordings into small slices: so many bytes between checkpoints, events before a wait, and so on."""
    patches = [mock.patch.object(trace_text, "PIECE", sizes.pop("PIECE"))]
    return [*patches, *(mock.patch.object(surroundings, name, size) for name, size in sizes.items())]


def held_by_desk(text):
    """Return what explains the waits of a text of which a desk holds all events; what these show is missing is known too."""
    with warnings.catch_warnings():
        warnings.simplefilter("ignore", histdesk.LossWarning)
        recording = histdesk.read(text)
        recording.losses = histdesk.waits(text).source.losses
        return explainer.part_explainer(recording)


class Cut(unittest.TestCase):
    """Tests over small slices."""

    def slices(self, text, **sizes):
        """Return what explains the waits of a text that is read in slices."""
        for patch in cut(**{"PIECE": 200, "LEAD": 1, "WIDTH": 1, "GROWTH": 2, "PART": 4, **sizes}):
            patch.start()
            self.addCleanup(patch.stop)
        teller = explainer.explainer_of(text)
        self.assertIsInstance(teller, explainer.SourceExplainer)
        return teller

    def whole(self, text):
        """Return what explains the waits of a text that a desk holds."""
        return held_by_desk(text)


class Slices(Cut):
    def test_by_chance(self):
        waits = places = 0
        for seed in range(14):
            text, chance = noise(seed), random.Random(seed)
            sizes = {
                "PIECE": chance.choice([200, 1000, 1 << 22]),
                "LEAD": chance.choice([1, 3]),
                "PART": chance.choice([4, 30]),
                "GROUP": chance.choice([1, 10, 40, 1000]),
                "GAP": chance.choice([0, 10]),
            }
            slices, whole = self.slices(text, **sizes), self.whole(text)
            told = list(slices.explain_each(slices.waits))
            self.assertEqual(told, list(whole.explain_each(whole.waits)), seed)
            # All together are the same, and each comes once.
            together = sorted(slices.explain_together(slices.waits), key=lambda pair: pair[0])
            self.assertEqual(together, list(enumerate(told)), seed)
            waits += len(told)
            for _ in range(12):
                place = chance.choice([0, 0, 1, 2, 3, 4, 5]), chance.randrange(45)
                self.assertEqual(answer(slices, *place), answer(whole, *place), (seed, place))
                places += 1
        self.assertGreater(min(waits, places), 100)

    def test_read_once(self):
        """However many waits tools/why explains, it reads the text around them once, and not for each of them."""
        lines = []
        for at in range(3000):
            now, pid = 1000000 + 100 * at, 10 + at % 7
            lines.append(waking("<idle>-0", 0, now, f"t{pid}", pid, at % 2))
            before = f"t{10 + (at - 2) % 7}-{10 + (at - 2) % 7}" if at > 1 else "swapper-0"
            lines.append(switch(at % 2, now + 10 + at % 40, before, "S", f"t{pid}-{pid}"))
        text, count = trace(*lines), 2000
        with tempfile.TemporaryDirectory() as folder, mock.patch.object(trace_text, "PIECE", 1 << 14):
            path = os.path.join(folder, "my.trace")
            with open(path, "wb") as file:
                file.write(text)
            out = io.StringIO()
            with mock.patch.object(desk_slices.Source, "_read", autospec=True, side_effect=desk_slices.Source._read) as read:
                with contextlib.redirect_stdout(out):
                    self.assertEqual(why_tool.main([path, "--worst", str(count), "--json"]), 0)
        told = [wait["micros"] for wait in json.loads(out.getvalue())["waits"]]
        self.assertEqual((len(told), told), (count, sorted(told, reverse=True)))
        parts = [call.args[2:] for call in read.call_args_list]
        self.assertLessEqual(sum(last.at - first.at for first, last in parts), 2 * len(text))

    def test_what_ran_long_before(self):
        """CPU 1 switched to b long before the wait, and nothing is heard of it until it runs w; CPU 3, where w was queued, is
        heard of again long after."""
        between = [waking("x-5", 0, 1000100 + 10 * at, "z", 100 + at, 0) for at in range(100)]
        text = trace(
            switch(1, 1000000, "a-10", "S", "b-11", next_prio=7),
            *between,
            waking("y-6", 2, 1002000, "w", 42, 1),
            waking("y-6", 2, 1002001, "w", 42, 3, event="sched_wakeup"),
            switch(1, 1002050, "b-11", "R", "w-42", prio=7),
            *(waking("x-5", 0, 1002100 + 10 * at, "z", 200 + at, 0) for at in range(100)),
            waking("c-12", 3, 1004000, "z", 9, 0),
        )
        why = self.slices(text).explain_at(1, 2)
        self.assertEqual(why.stretches, (Stretch(1, 1002000, 1002050, "b", 11, 7, "R", 2),))
        self.assertEqual(why.elsewhere, (Stretch(3, 1002000, 1002050, "c", 12, None),))

    def test_name_that_is_told_later(self):
        """The kernel hasn't kept the waker's name; the next switch of its CPU comes long after, and has it."""
        text = trace(
            waking("<...>-7", 0, 1000000, "w", 42, 1),
            switch(1, 1000010, "swapper/1-0", "R", "w-42", task="<idle>-0"),
            *(waking("<idle>-0", 1, 1000100 + 10 * at, "z", 9, 0) for at in range(100)),
            switch(0, 1002000, "bash-7", "S", "swapper/0-0", task="<...>-7"),
        )
        self.assertEqual(self.slices(text).explain_at(1, 1).waker, ("bash", 7, None))

    def test_name_that_was_told_before(self):
        """The next switch of its CPU tells of another task, so that one is missing; the last one has it."""
        text = trace(
            switch(0, 1000000, "swapper/0-0", "R", "bash-7", task="<idle>-0"),
            *(waking("<idle>-0", 1, 1000100 + 10 * at, "z", 9, 0) for at in range(100)),
            waking("<...>-7", 0, 1002000, "w", 42, 1),
            switch(1, 1002010, "swapper/1-0", "R", "w-42", task="<idle>-0"),
            switch(0, 1002020, "other-8", "S", "swapper/0-0"),
        )
        self.assertEqual(self.slices(text).explain_at(1, 101).waker, ("bash", 7, None))

    def test_no_event_is_left_out_that_has_the_stamp_of_the_first(self):
        """Three switches of one microsecond: the last one of CPU 1 tells what ran there when the wait began."""
        text = trace(
            switch(1, 1000000, "a-10", "S", "b-11"),
            switch(0, 1000000, "c-12", "S", "d-13"),
            switch(2, 1000000, "e-14", "S", "f-15"),
            waking("d-13", 0, 1000100, "w", 42, 1),
            switch(1, 1000150, "b-11", "S", "w-42"),
        )
        for lead in (1, 2, 3):
            self.assertEqual(self.slices(text, LEAD=lead).explain_at(1, 2).shares, [Share("b", 11, 120, 50, 1)])

    def test_still_waits(self):
        """A task that doesn't run any more waits to the end, from its preemption on, or from a waking after that."""
        lines = (
            switch(1, 1000000, "swapper/1-0", "R", "w-42", task="<idle>-0"),
            switch(1, 1000010, "w-42", "R+", "a-10"),
            *(waking("<idle>-0", 0, 1000100 + 10 * at, "z", 100 + at, 0) for at in range(50)),
            waking("x-5", 2, 1002000, "w", 42, 1),
            *(waking("<idle>-0", 0, 1002100 + 10 * at, "z", 200 + at, 0) for at in range(50)),
        )
        # The waking is left out at first.
        why = self.slices(trace(*lines[:52], *lines[53:])).explain_at(1, 2)
        self.assertEqual((why.kind, why.begin[:3], why.end, why.until), ("preempted", (1000010, 1, 2), None, 1002590))
        self.assertEqual(why.stretches, (Stretch(1, 1000010, 1002590, "a", 10, 120),))
        why = self.slices(trace(*lines)).explain_at(2, 1)
        self.assertEqual((why.kind, why.begin[:3], why.end, why.until), ("woken", (1002000, 2, 1), None, 1002590))
        self.assertEqual(why.stretches, (Stretch(1, 1002000, 1002590, "a", 10, 120),))


class Long(Cut):
    """Waits of more events than a desk holds."""

    def text(self):
        """w is queued on CPU 1, where a and b run in turn; CPU 0 has most of the events, and CPU 2 wakes it."""
        lines = [switch(1, 1000000, "c-12", "S", "a-10"), waking("x-5", 2, 1000010, "w", 42, 3)]
        lines.append(waking("x-5", 2, 1000012, "w", 42, 1, event="sched_wakeup"))
        for at in range(200):
            now = 1000100 + 10 * at
            lines.append(waking("<idle>-0", 0, now, "z", 9, 0))
            if at % 20 == 0:
                (before, after) = ("ab", "ba")[at // 20 % 2]
                lines.append(waking("<idle>-0", 0, now + 1, after, 10 + (after == "b"), 1))
                numbers = {"a": 10, "b": 11}
                lines.append(switch(1, now + 2, f"{before}-{numbers[before]}", "S", f"{after}-{numbers[after]}"))
        return trace(*lines, switch(1, 1003000, "a-10", "R", "w-42"))

    def test_events_that_matter(self):
        """The wait is told as from the whole recording: what ran, and which tasks became runnable later."""
        whole = self.whole(self.text()).explain_at(1, 12)
        self.assertEqual((whole.micros, len(whole.stretches), whole.shares[0].task), (2990, 11, "a"))
        for limit in (20, 40, 100):
            with mock.patch.object(surroundings, "LIMIT", limit):
                slices = self.slices(self.text())
                scene = slices.scene(next(map(explainer.wait_of, slices.waits[slices.waits.array.pid == 42].array)))
                self.assertLess(len(scene.events), 60)
                self.assertEqual(slices.explain_at(1, 12), whole)

    def test_by_chance(self):
        """Any wait is told as from the whole recording, except for what ran on CPUs of which that isn't told."""
        waits = untold = 0
        for seed in range(16):
            text = noise(seed, 200)
            whole = self.whole(text)
            with mock.patch.object(surroundings, "LIMIT", 3 + 5 * (seed % 3)):
                slices = self.slices(text, PIECE=300)
                for why, same in zip(slices.explain_each(slices.waits), whole.explain_each(whole.waits)):
                    if why.unknown_cpus:
                        untold += 1
                        # The switches of those CPUs may have told names that the kernel hasn't kept.
                        names = "waker", "stretches", "elsewhere", "unknown_cpus"
                        why, same = (one._replace(**dict.fromkeys(names)) for one in (why, same))
                    self.assertEqual(why, same, seed)
                    waits += 1
        self.assertGreater(min(waits - untold, untold), 40)

    def test_too_many(self):
        """If its CPUs alone have more events than a desk holds, what ran there isn't told, and that is said."""
        with mock.patch.object(surroundings, "LIMIT", 5):
            why = self.slices(self.text()).explain_at(1, 12)
        self.assertEqual((why.micros, why.queued[:3], why.waker.task), (2990, (1000012, 2, 2), "x"))
        self.assertEqual((why.unknown_cpus, why.stretches), ((1,), (Stretch(1, 1000010, 1003000, None, None, None),)))
        told = "What ran on CPU 1 for 2990 us (100 %) isn't known: the wait has more events of it than a desk holds."
        self.assertIn(told, why.text(width=200).split("\n"))


class MoreThanADesk(unittest.TestCase):
    """A recording of 1.1 million events: the greatest wait lasts from its first second to its last one, and the next one lies
    past the first million."""

    @classmethod
    def setUpClass(cls):
        cls.folder = tempfile.TemporaryDirectory()
        cls.path = os.path.join(cls.folder.name, "long.trace")
        # A second of two CPUs on which nothing of interest happens.
        tasks = b"d-9", b"a-1"
        second = b"".join(b"%s [%d] @.%06d: x: y\n" % (tasks[at % 2], at % 2, 9 * at + 100) for at in range(100000))
        with open(cls.path, "wb") as file:
            file.write(trace(switch(3, 100, "b-2", "S", "c-3"), waking("x-5", 2, 200, "w", 42, 3, flags="d.h2.")))
            file.write(trace(waking("x-5", 2, 201, "w", 42, 3, event="sched_wakeup")))
            for now in range(1, 12):
                file.write(second.replace(b"@", b"%d" % now))
            file.write(trace(waking("x-5", 2, 11950000, "v", 41, 1, flags="d.s2."), switch(1, 11950400, "a-1", "S", "v-41")))
            file.write(trace(switch(3, 11960000, "c-3", "S", "w-42")))

    @classmethod
    def tearDownClass(cls):
        cls.folder.cleanup()

    def told(self, *words):
        words = [sys.executable, "-B", TOOL, self.path, *words]
        ran = subprocess.run(words, stdout=subprocess.PIPE, stderr=subprocess.PIPE, check=False)
        self.assertEqual((ran.returncode, ran.stderr), (0, b""))
        return [part.split("\n") for part in ran.stdout.decode().split("-" * 72 + "\n")]

    def test_worst(self):
        long, near = self.told("--worst", "2")
        self.assertEqual(
            long[:5],
            [
                "w-42 (prio 120) waited 11959800 us for CPU 3, from 0.000200 to 11.960000, after",
                "  it was woken.",
                "c-3 ran on CPU 3 all the while, and then slept (S).",
                "",
                "  0.000200  2:1  an interrupt on CPU 2, where x-5 ran, woke it",
            ],
        )
        self.assertEqual(
            near[:6],
            [
                "v-41 (prio 120) waited 400 us for CPU 1, from 11.950000 to 11.950400, after it",
                "  was woken.",
                "a-1 ran on CPU 1 all the while, and then slept (S).",
                "",
                "  11.950000  2:3       a softirq on CPU 2, where x-5 ran, woke it",
                "  11.950400  1:550001  it ran on CPU 1, after a-1, which slept (S)",
            ],
        )

    def test_places(self):
        near, long = self.told("1:550001", "2:2")
        self.assertEqual((near[0][:27], long[0][:32]), ("v-41 (prio 120) waited 400 ", "w-42 (prio 120) waited 11959800 "))
