#!/usr/bin/env python3
"""Compares what the library reports about the lines of texts, by histdesk_lines and histdesk_losses, with plain reckonings:
what each line is, with the plain model of a line (model_line.py), and where events were lost, with a fold over the lines that
is written here. The texts are random and hostile ones, with lines of every form in any order of time, cut at any byte.

    python_lines.py [TEST]...

"""

import ctypes
import os
import random
import re
import sys
import unittest

# Nothing is written beside the sources.
sys.dont_write_bytecode = True

HERE = os.path.dirname(os.path.realpath(__file__))
PYTHON = os.path.realpath(os.path.join(HERE, "..", "..", "python"))
sys.path[:0] = [PYTHON, os.path.join(HERE, "..", "model")]

import hostile_texts
from histdesk import _schema
from histdesk.native import layout
from histdesk.native.library import library
from model_line import EVENTS, LineFault, read_line
from python_runner import main

LOST = re.compile(r"CPU:([0-9]+) \[LOST (?:([0-9]+) )?EVENTS\]")
BEGUN = re.compile(r"##### CPU ([0-9]+) buffer started ####")
OVERWRITTEN = re.compile(r"# CPU ([0-9]+): ([0-9]+) events overwritten")
WRITTEN = re.compile(r"# entries-in-buffer/entries-written: ([0-9]+)/([0-9]+).*", re.DOTALL)
LAST_CPU, LAST_COUNT = 8191, 2**64 - 1
# How many texts of each kind.
TEXTS = 300


class TextLine(ctypes.Structure):
    """A line of a text."""

    _fields_ = [
        ("end", ctypes.c_uint64),
        ("stamp", ctypes.c_uint64),
        ("cpu", ctypes.c_uint32),
        ("event", ctypes.c_uint32),
        ("fault", ctypes.c_uint32),
        ("zero", ctypes.c_uint32),
    ]


class TextHole(ctypes.Structure):
    """A hole, as the library has it."""

    _fields_ = [
        *((name, ctypes.c_uint64) for name in ["line", "after", "before", "count"]),
        ("cpu", ctypes.c_uint32),
        *((name, ctypes.c_bool) for name in ["has_after", "has_before", "has_count", "has_cpu"]),
    ]


def told(one):
    """What a struct holds, as a tuple."""
    return tuple(getattr(one, name) for name, _ in one._fields_)


# ---- plain reckonings


def lines_of(text):
    """The lines of a text without their line breaks; a last piece that isn't empty is one too."""
    lines = text.split("\n")
    return lines if lines[-1] else lines[:-1]


def kind_of(line):
    """What a line is: stamp, CPU, number of its event's name, and fault."""
    try:
        event = read_line(line)
    except LineFault as fault:
        return 0, 0, layout.LINE_BAD, fault.args[0]
    if event is None:
        return 0, 0, layout.LINE_SKIPPED, 0
    return event["stamp"], event["cpu"], EVENTS.index(event["name"]) if event["name"] in EVENTS else _schema.OTHER, 0


def wanted_lines(text):
    """The lines of a text, as the library is to tell them."""
    end, wanted = 0, []
    for line in lines_of(text):
        end = min(end + len(line) + 1, len(text))
        wanted.append((end, *kind_of(line), 0))
    return wanted


def numbers_in(pattern, line, *most):
    """The numbers that a line of this form has, None for one that is left out; None if it is of another form, or if one is
    larger than it may be."""
    found = pattern.fullmatch(line)
    numbers = found and [None if part is None else int(part) for part in found.groups()]
    return numbers if found and all(number is None or number <= limit for number, limit in zip(numbers, most)) else None


class Losses:
    """Where events were lost, by the lines so far."""

    def __init__(self):
        self.last, self.lost, self.overwritten, self.holes, self.written = {}, {}, {}, [], None

    def end(self, cpu, before):
        """End the hole of a CPU, if it has one."""
        if cpu in self.lost:
            self.holes.append([*self.lost.pop(cpu), self.last.get(cpu), before, cpu])

    def report(self, number, cpu, count):
        """Take a line that reports a loss."""
        line, known = self.lost.get(cpu, (number, None))
        parts = [part for part in (known, count) if part is not None]
        self.lost[cpu] = (line, min(sum(parts), LAST_COUNT) if parts else None)

    def take(self, number, line):
        """Take a line."""
        try:
            event = read_line(line)
        except LineFault:
            return
        if event is not None:
            self.end(event["cpu"], event["stamp"])
            self.last[event["cpu"]] = event["stamp"]
            return
        if found := numbers_in(LOST, line, LAST_CPU, LAST_COUNT):
            self.report(number, *found)
        elif found := numbers_in(BEGUN, line, LAST_CPU):
            self.report(number, found[0], None)
        elif found := numbers_in(OVERWRITTEN, line, LAST_CPU, LAST_COUNT):
            self.overwritten[found[0]] = found[1]
        elif found := numbers_in(WRITTEN, line, LAST_COUNT, LAST_COUNT):
            self.written = self.written or found

    def answer(self):
        """The holes, with what later lines count of them."""
        for cpu in sorted(self.lost):
            self.end(cpu, None)
        for line, count, after, before, cpu in self.holes:
            if after is None and count is None:
                count = self.overwritten.get(cpu)
                if count == 0:
                    continue
            known = (after, before, count)
            yield (line, *(one or 0 for one in known), cpu, *(one is not None for one in known), True)


def wanted_losses(text):
    """The holes that a text reports, and what its header counts, as the library is to tell them."""
    losses = Losses()
    for number, line in enumerate(lines_of(text), 1):
        losses.take(number, line)
    return list(losses.answer()), losses.written


# ---- texts


def random_line(draw):
    """A good line on one of a few CPUs, or one that reports a loss there, or one of any form."""
    cpu, kind = draw.randrange(4), draw.randrange(10)
    if kind < 4:
        stamp = draw.randrange(3 * 10**6)
        return f"a-1 [{cpu:03}] {stamp // 10**6}.{stamp % 10**6:06}: x: y"
    count = draw.choice([0, 1, 7, 2**63, LAST_COUNT, LAST_COUNT + 1])
    if kind < 6:
        return draw.choice([f"CPU:{cpu} [LOST {count} EVENTS]", f"CPU:{cpu} [LOST EVENTS]"])
    if kind == 6:
        return f"##### CPU {draw.choice([cpu, cpu, 8192])} buffer started ####"
    if kind == 7:
        return f"# CPU {cpu}: {count} events overwritten"
    return hostile_texts.skipped_line(draw) if kind == 8 else hostile_texts.hostile_line(draw)


def random_text(draw):
    """A text of such lines, perhaps with the kernel's header, and perhaps without its last line break."""
    lines = [random_line(draw) for _ in range(draw.randrange(40))]
    if draw.randrange(2):
        lines.insert(draw.randrange(len(lines) + 1), "# entries-in-buffer/entries-written: 9/9   #P:4")
    return "\n".join(lines) + draw.choice(["", "\n", "\n\n"])


class Desk(unittest.TestCase):
    """A desk for all tests."""

    @classmethod
    def setUpClass(cls):
        cls.desk = layout.Handle()
        assert library.histdesk_new(ctypes.byref(cls.desk)) == 0

    @classmethod
    def tearDownClass(cls):
        library.histdesk_free(ctypes.byref(cls.desk))

    def lines(self, text):
        """The lines of a text, as the library tells them."""
        own, count = text.encode("latin-1"), ctypes.c_uint64(77)
        self.assertEqual(library.histdesk_lines(ctypes.byref(self.desk), own, len(own), ctypes.byref(count)), 0)
        room = (TextLine * (count.value + 1))()
        self.assertEqual(library.histdesk_lines_copy(ctypes.byref(self.desk), 0, room, len(room)), count.value)
        return [told(line) for line in room[: count.value]]

    def losses(self, text):
        """The holes that a text reports, and what its header counts, as the library tells them."""
        own, read = text.encode("latin-1"), layout.LossesRead()
        self.assertEqual(library.histdesk_losses(ctypes.byref(self.desk), own, len(own), ctypes.byref(read)), 0)
        room = (TextHole * (read.holes + 1))()
        self.assertEqual(library.histdesk_losses_copy(ctypes.byref(self.desk), 0, room, len(room)), read.holes)
        return [told(hole) for hole in room[: read.holes]], [read.held, read.written] if read.has_written else None

    def agrees(self, text):
        """Check that both answers about a text are those of the plain reckonings."""
        self.assertEqual(self.lines(text), wanted_lines(text), text)
        self.assertEqual(self.losses(text), wanted_losses(text), text)


class Texts(Desk):
    def test_known(self):
        text = "a-1 [001] 2.000100: sched_waking: comm=w pid=42 prio=120 target_cpu=000\n\nCPU:1 [LOST EVENTS]\nno line\n"
        text += "a-1 [001] 1.000100: x: y"
        lines = [(72, 2000100, 1, 0, 0, 0), (73, 0, 0, 253, 0, 0), (93, 0, 0, 253, 0, 0), (101, 0, 0, 254, 1, 0)]
        self.assertEqual(self.lines(text), [*lines, (125, 1000100, 1, 5, 0, 0)])
        self.assertEqual(self.losses(text), ([(3, 2000100, 1000100, 0, 1, True, True, False, True)], None))
        self.assertEqual(self.lines(""), [])
        self.assertEqual(self.lines("\n"), [(1, 0, 0, 253, 0, 0)])
        self.assertEqual(self.losses("# entries-in-buffer/entries-written: 7/9   #P:2\n"), ([], [7, 9]))

    def test_hostile(self):
        draw, faults = random.Random(1), set()
        for _ in range(TEXTS):
            text = "\n".join(hostile_texts.hostile_lines(draw, 30)) + draw.choice(["", "\n"])
            self.agrees(text)
            faults.update(line[4] for line in wanted_lines(text))
        self.assertEqual(faults, set(range(8)))

    def test_random(self):
        draw, holes = random.Random(2), 0
        for _ in range(TEXTS):
            text = random_text(draw)
            self.agrees(text)
            holes += len(wanted_losses(text)[0])
        self.assertGreater(holes, TEXTS)

    def test_each_beginning(self):
        draw = random.Random(3)
        for _ in range(5):
            text = random_text(draw)[:500]
            for length in range(len(text) + 1):
                self.agrees(text[:length])


if __name__ == "__main__":
    sys.exit(main())
