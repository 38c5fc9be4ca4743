#!/usr/bin/env python3
"""Compares the waits of texts of which several parts are read at once with those of a plain reckoning, and of one stream.

    python_jobs.py [TEST]...

Texts are cut wherever an engine may join them, and elsewhere."""

import os
import random
import re
import subprocess
import sys
import tempfile
import unittest
import warnings
from unittest import mock

# Nothing is written beside the sources.
sys.dont_write_bytecode = True

HERE = os.path.dirname(os.path.realpath(__file__))
PYTHON = os.path.realpath(os.path.join(HERE, "..", "..", "python"))
TOOLS = os.path.realpath(os.path.join(HERE, "..", "..", "tools"))
sys.path[:0] = [PYTHON, os.path.join(HERE, "..", "model")]

import histdesk
import plain_waits
import recordings
from histdesk import LossWarning, Refused
from histdesk.trace import stream, time_range, wait_records
from histdesk.trace import text as trace_text
from histdesk.waiting import parallel, waits, waits_in_parts
from histdesk.waiting import counting as waiting_counting
from python_answers import at_micros
from python_runner import main
from python_waits import in_time, noise, told
from recordings import switch, text_of, waking


def waits_of(text, jobs, **words):
    """The waits of a text, without warnings."""
    with warnings.catch_warnings():
        warnings.simplefilter("ignore", LossWarning)
        return histdesk.waits(text, jobs=jobs, **words)


def cut_at(*bytes_of_seams):
    """Have texts cut at these bytes."""
    return mock.patch.object(time_range.Halves, "seams", lambda self, count: list(bytes_of_seams))


def starts_of(text):
    """The bytes at which lines begin, except for the first one."""
    return [at + 1 for at, byte in enumerate(text[:-1]) if byte == 10]


class Counting:
    """Counts how many parts are joined, and how many are read again."""

    def __init__(self):
        self.joined = self.again = 0

    def __enter__(self):
        join, read_again = stream.Feed.join, parallel.read_again

        def joins(feed, part, completed):
            fits = join(feed, part, completed)
            self.joined += fits
            return fits

        def reads(*words):
            self.again += 1
            return read_again(*words)

        self._patches = [mock.patch.object(stream.Feed, "join", joins), mock.patch.object(parallel, "read_again", reads)]
        for patch in self._patches:
            patch.start()
        return self

    def __exit__(self, *_):
        for patch in self._patches:
            patch.stop()


class Joined(unittest.TestCase):
    def same(self, found, alone, seed):
        """What was read in parts is what one stream has read."""
        self.assertEqual(told(found), told(alone), seed)
        self.assertEqual(found.array.tolist(), alone.array.tolist(), seed)
        self.assertEqual((found._names.tolist(), found._records.tolist()), (alone._names.tolist(), alone._records.tolist()))
        self.assertEqual((found.held, found.holes, found.remarks()), (alone.held, alone.holes, alone.remarks()), seed)
        self.assertEqual((found.missing, found.first_missing), (alone.missing, alone.first_missing), seed)

    def test_by_chance(self):
        """Texts are cut anywhere between lines, in any number of parts, with pieces and chunks of any size."""
        with Counting() as counting:
            for seed in range(60):
                chance, text = random.Random(seed), in_time(noise(seed))
                seams = sorted(chance.sample(starts_of(text), chance.randrange(1, 12)))
                with cut_at(*seams), mock.patch.object(trace_text, "PIECE", chance.choice([1 << 22, 999, 64])):
                    with mock.patch.object(stream, "CHUNK", 16), mock.patch.object(
                        wait_records, "PART", chance.choice([7, 1 << 14])
                    ):
                        found = waits_of(text, 3)
                self.assertEqual(told(found), plain_waits.waits_of(text), seed)
                self.same(found, waits_of(text, 1), seed)
        self.assertGreater(counting.joined, 50)
        self.assertGreater(counting.again, 50)

    def test_simulated(self):
        """If the simulated scheduler loses nothing, each part that begins with another microsecond is joined."""
        with Counting() as counting:
            for seed in range(20):
                known = recordings.simulated(seed)
                for jobs in (2, 3, 8):
                    found = waits_of(known.text, jobs)
                    self.assertEqual(told(found), list(known.waits), (seed, jobs))
                    self.same(found, waits_of(known.text, 1), seed)
        self.assertEqual((counting.joined, counting.again), (20 * (1 + 2 + 7), 0))

    def test_damaged(self):
        for seed in range(20):
            text = recordings.simulated(seed, holes=1 + seed % 4).text
            for jobs in (2, 5):
                self.same(waits_of(text, jobs), waits_of(text, 1), seed)

    def test_by_hand(self):
        """A waking, and a preemption, in a part before that of the switch; and a task that runs first in the second part."""
        lines = [
            waking(0, 5, 7),
            switch(1, 6, "b-8", "c-9", state="R"),
            switch(0, 20, "a-1", "w-7"),
            waking(0, 30, 1),
            switch(1, 31, "c-9", "b-8"),
            switch(0, 32, "w-7", "a-1", state="R"),
            waking(1, 33, 1),
            switch(0, 40, "a-1", "w-7"),
        ]
        text = text_of(lines)
        starts = starts_of(text)
        ends = {(7, 20): 15, (8, 31): 25, (1, 32): 2, (7, 40): 8}
        for seam in starts:
            with cut_at(seam), Counting() as counting:
                found = waits_of(text, 2)
            self.assertEqual({(wait.pid, wait.end.stamp % 1000): wait.micros for wait in told(found)}, ends)
            self.assertEqual([wait.end.line for wait in told(found)], [2, 2, 4, 5])
            self.assertEqual((counting.joined, counting.again), (1, 0), seam)

    def test_slices(self):
        """The checkpoints of all parts are those of the text, and slices are read with them."""
        for seed in range(5):
            text = recordings.simulated(seed).text
            with mock.patch.object(trace_text, "PIECE", 4096):
                found, alone = waits_of(text, 4), waits_of(text, 1)
            checkpoints = found.source.checkpoints()
            self.assertGreater(len(checkpoints), 5)
            self.assertEqual([checkpoints[0].at, checkpoints[-1].at], [0, len(text)])
            for checkpoint in checkpoints:
                self.assertEqual(checkpoint, plain_checkpoint(text, checkpoint.at))
            middle = (alone.held.first + alone.held.last) // 2
            slices = [one.source.between(at_micros(middle), at_micros(middle + 500)) for one in (found, alone)]
            self.assertEqual(*(held_by(one) for one in slices))

    def test_counted(self):
        """What tools/waits and tools/export read is the same with several jobs."""
        for seed in range(20):
            text = recordings.simulated(seed, holes=seed % 3).text
            for by in ("task", "name", "cpu", "prio", "kind"):
                choice = waiting_counting.CountBy(by, seed % 2 == 0)
                one, many = (waiting_counting.count_waits(text, choice, waits.ReadOptions(jobs=jobs)) for jobs in (1, 5))
                self.assertEqual(many.table(by, seed % 2 == 0), one.table(by, seed % 2 == 0))
                self.assertEqual((many.lines(seed % 2 == 0), len(many)), (one.lines(seed % 2 == 0), len(one)))
            one, many = (waits_in_parts.waits_in_parts(text, waits.ReadOptions(jobs=jobs)) for jobs in (1, 5))
            for _ in range(2):
                self.assertEqual(
                    *([wait for part in waits_in_parts.parts_of(each) for wait in told(part)] for each in (many, one))
                )


def held_by(recording):
    """Return the switches that a desk holds of a recording: CPU, line in the whole recording, and stamp, in order."""
    with recording.desk() as desk:
        places = [place for cpu in desk.cpus() for place in desk.matching("sched_switch", f"common_cpu == {cpu}")]
    assert places
    cpus, lines = ([int(place[field]) for place in places] for field in ("cpu", "line"))
    return sorted(zip(cpus, (int(recording.line(*place)) for place in zip(cpus, lines)), (int(p["stamp"]) for p in places)))


def plain_checkpoint(text, at):
    """What is known of the lines before a byte, by regular expressions."""
    last, events = -1, {}
    for found in filter(None, map(plain_waits.LINE.fullmatch, plain_waits.lines_of(text[:at]))):
        last = int(found["s"]) * 1000000 + int(found["us"])
        events[int(found["cpu"])] = events.get(int(found["cpu"]), 0) + 1
    return stream.Checkpoint(at, last, events)


class Refusals(unittest.TestCase):
    def test_bad_lines(self):
        """The first line that can't be read is named by its number in the whole text, whichever part has it."""
        text = recordings.simulated(3).text
        lines = text.split(b"\n")
        for at in (3, len(lines) // 2, len(lines) - 3):
            broken = b"\n".join([*lines[:at], b"a-1 [000] 1.5: sched_waking:", *lines[at:]])
            numbers = []
            for jobs in (1, 4):
                with self.assertRaises(Refused) as refused:
                    waits_of(broken, jobs)
                numbers.append(refused.exception.line)
            self.assertEqual(numbers, [at + 1, at + 1])
            one, many = (waits_of(broken, jobs, lenient=True) for jobs in (1, 4))
            self.assertEqual((told(many), many.bad_lines, many.first_bad_line), (told(one), 1, at + 1))

    def test_any_order(self):
        """A text that isn't in the order of time is read by a desk."""
        text = recordings.simulated(5).text
        lines = text.split(b"\n")
        middle = len(lines) // 2
        turned = b"\n".join([*lines[: middle - 1], lines[middle], lines[middle - 1], *lines[middle + 1 :]])
        self.assertEqual(told(waits_of(turned, 4)), plain_waits.waits_of(turned))
        self.assertEqual(told(waits_of(noise(5), 4)), plain_waits.waits_of(noise(5)))

    def test_short(self):
        for text in (b"", b"# tracer: nop\n", text_of([waking(0, 5, 7)])):
            self.assertEqual(len(waits_of(text, 8)), 0)

    def test_numbers(self):
        for jobs in (0, -1, 513):
            with self.assertRaisesRegex(ValueError, "in 1 to 512 parts at once"):
                histdesk.waits(b"", jobs=jobs)
        # Whatever the trace is.
        for jobs in ("2", 2.0, [2]):
            for call in (histdesk.waits, lambda trace, jobs: histdesk.AskWaits(jobs=jobs)):
                for trace in (b"", histdesk.read(b"")):
                    with self.assertRaisesRegex(TypeError, f"^jobs is {re.escape(repr(jobs))}, which is no whole number$"):
                        call(trace, jobs=jobs)
        with self.assertRaisesRegex(ValueError, "in 1 to 512 parts at once"):
            histdesk.AskWaits(jobs=0)
        text = trace_text.text_again(b"x" * 100)
        with mock.patch.object(parallel, "LARGE", 99), mock.patch.object(os, "sched_getaffinity", lambda _: range(30)):
            found = [parallel.jobs_for(*words) for words in ((text, None), (text, 2), (None, 2))]
        self.assertEqual(found, [16, 2, 1])
        self.assertEqual(parallel.jobs_for(text, None), 1)

    def test_failing(self):
        """If the file of a part can't be read, all ends, and what was seen is no answer."""
        text = recordings.simulated(1).text
        with tempfile.NamedTemporaryFile() as file:
            file.write(text)
            file.flush()
            pieces = trace_text.FileText.pieces

            def failing(self, at=0, end=None):
                if at:
                    raise OSError("gone")
                return pieces(self, at, end)

            with mock.patch.object(trace_text.FileText, "pieces", failing), self.assertRaisesRegex(OSError, "gone"):
                waits_of(file.name, 3)
            self.assertEqual(told(waits_of(file.name, 3)), plain_waits.waits_of(text))


class Tools(unittest.TestCase):
    def ran(self, tool, *words):
        command = [sys.executable, "-B", os.path.join(TOOLS, tool), *words]
        return subprocess.run(command, stdout=subprocess.PIPE, stderr=subprocess.PIPE, check=False)

    def test_same(self):
        with tempfile.NamedTemporaryFile() as file:
            file.write(recordings.simulated(2, holes=1).text)
            file.flush()
            for tool, *words in (("waits",), ("waits", "--csv"), ("export", "waits"), ("why",)):
                one, many = (self.ran(tool, "--jobs", jobs, file.name, *words) for jobs in ("1", "3"))
                self.assertEqual((many.stdout, many.stderr, many.returncode), (one.stdout, one.stderr, one.returncode))
                self.assertEqual(one.returncode, 0, one.stderr)
                self.assertTrue(one.stdout)

    def test_words(self):
        for word in ("0", "x", "-1", "513"):
            ran = self.ran("waits", f"--jobs={word}", os.devnull)
            self.assertEqual((ran.returncode, ran.stdout), (2, b""))
            self.assertIn(b" is not a number from 1 to 512", ran.stderr)


if __name__ == "__main__":
    sys.exit(main())
