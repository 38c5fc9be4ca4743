#!/usr/bin/env python3
"""Tests how sure each wait is, and what is known of CPUs, with the smallest trace for each rule (sure_waits.txt): read whole,
in parts that are joined, in pieces of any size, and held by a desk.

    python_sure.py [TEST]...

The expected values stand in that file, and come from reasoning."""

import csv
import os
import re
import subprocess
import sys
import tempfile
import unittest
import warnings
from typing import Dict, List, NamedTuple, Optional, Tuple
from unittest import mock

# Nothing is written beside the sources.
sys.dont_write_bytecode = True

HERE = os.path.dirname(os.path.realpath(__file__))
TRACES = os.path.join(HERE, "..", "model", "sure_waits.txt")
REFERENCE = os.path.join(HERE, "..", "..", "docs", "REFERENCE.md")
TOOL = os.path.realpath(os.path.join(HERE, "..", "..", "tools", "waits"))
sys.path[:0] = [os.path.realpath(os.path.join(HERE, "..", "..", "python")), os.path.join(HERE, "..", "model")]

import histdesk
from histdesk import LossWarning
from histdesk.trace import text as trace_text
from python_jobs import Counting, cut_at, starts_of, waits_of
from python_runner import main
from recordings import line, stamp, switch, text_of

STAMP = re.compile(rb"\] [^ ]+ ([0-9]+\.[0-9]{6}):")
# A row of the reference with a trace and what becomes of the wait of p, and an event of such a trace.
ROW = re.compile(
    r"\| (?:.* \| )?((?:`[0-9] [^`]*`(?:, )?)+) \| (none|(woken|new|preempted), ([0-9]+)(?:, (sure|likely|doubtful))?(;.*)?) \|"
)
SHORT = re.compile(r"`([0-9]) (\w) ([0-9]+) (?:([WUN]) (\w)|(\w)(>>|>\+|>)(\w))`")
EVENTS = {"W": "sched_waking", "U": "sched_wakeup", "N": "sched_wakeup_new"}
STATES = {">": "S", ">>": "R", ">+": "R+"}


class Trace(NamedTuple):
    """A trace, and what is expected. Waits are lines: task, kind, begin, end and how sure."""

    name: str
    why: str
    text: bytes
    waits: List[str]
    # The waits of a desk that holds the events.
    held: List[str]
    # Figures of CPUs.
    cpus: Dict[int, Dict[str, int]]
    missing: Optional[int]
    # A filter, and the waits if what it selects isn't counted.
    without: Optional[Tuple[str, List[str]]]

    @property
    def seams(self) -> List[int]:
        """The bytes at which lines begin before which the stamp changes."""
        seams = []
        for at in starts_of(self.text):
            before, after = STAMP.findall(self.text[:at]), STAMP.findall(self.text[at:])
            if before and after and before[-1] != after[0]:
                seams.append(at)
        return seams

    @property
    def has_loss(self) -> bool:
        return b"[LOST" in self.text


def trace_of(block: str) -> Trace:
    """Read a block of the file."""
    heading, *lines = block.split("\n")
    why = " ".join(row[2:] for row in lines if row.startswith("; "))
    text = "".join(row + "\n" for row in lines if row and not row.startswith(("; ", "-> ")))
    waits: List[str] = []
    held, cpus, missing, without = [], {}, None, None
    for row in (row[3:] for row in lines if row.startswith("-> ")):
        first, *words = row.split()
        if first == "cpu":
            cpus[int(words[0])] = {figure: int(value) for figure, value in zip(words[1::2], words[2::2])}
        elif first == "missing":
            missing = int(words[0])
        elif first == "without":
            without = " ".join(words), []
        elif without:
            without[1].append(row)
        else:
            wait, _, other = row.partition(", held ")
            waits.append(wait)
            held.append(f"{wait.rpartition(' ')[0]} {other}" if other else wait)
    return Trace(heading, why, text.encode(), waits, held, cpus, missing, without)


def traces() -> List[Trace]:
    """Read the file."""
    with open(TRACES, encoding="ascii") as file:
        return [trace_of(block) for block in file.read().split("\n== ")[1:]]


def told(found):
    """Waits as the file has them."""
    lines = []
    for wait in found:
        grade = "sure" if not wait.doubtful else "likely" if wait.likely else "doubtful"
        lines.append(f"{wait.task}-{wait.pid} {wait.kind} {stamp(wait.begin.stamp)} {stamp(wait.end.stamp)} {grade}")
    return lines


def named(task):
    """A task of a short trace, with a number."""
    return "<idle>-0" if task == "0" else f"{task}-{ord(task)}"


def text_in_short(events):
    """The text of a trace as the reference writes it."""
    lines = []
    for cpu, by, micros, event, task, before, leaves, after in SHORT.findall(events):
        at = int(cpu), 1000000 + int(micros)
        if event:
            lines.append(line(named(by), *at, f"{EVENTS[event]}: comm={task} pid={ord(task)} prio=120 target_cpu=000"))
        else:
            lines.append(switch(*at, named(before), named(after), state=STATES[leaves], task=named(by)))
    return text_of(lines)


class Reference(unittest.TestCase):
    """docs/REFERENCE.md has a trace beside each rule, and what becomes of the wait of p."""

    def test_traces(self):
        with open(REFERENCE, encoding="utf-8") as file:
            rows = [row for row in map(ROW.fullmatch, file.read().split("\n")) if row]
        self.assertEqual(len(rows), 12)
        for events, outcome, kind, micros, grade, _ in (row.groups() for row in rows):
            with self.subTest(events):
                self.assertEqual(len(SHORT.findall(events)), len(events.split(", ")))
                found = waits_of(text_in_short(events), 1).only(tasks="p")
                expected = [] if outcome == "none" else [(kind, int(micros), grade or "sure")]
                grades = [wait.rpartition(" ")[2] for wait in told(found)]
                self.assertEqual([(wait.kind, wait.micros, grade) for wait, grade in zip(found, grades)], expected)


class Sure(unittest.TestCase):
    def setUp(self):
        self.traces = traces()

    def each(self, passes=lambda trace: True):
        """Go through the traces that pass a test, each as a test of its own. There is one at least."""
        chosen = [trace for trace in self.traces if passes(trace)]
        self.assertTrue(chosen)
        for trace in chosen:
            with self.subTest(trace.name, why=trace.why):
                yield trace

    def test_file(self):
        self.assertEqual(len({trace.name for trace in self.traces}), len(self.traces))
        for trace in self.each():
            self.assertTrue(trace.why and trace.text)
            stamps = [float(found) for found in STAMP.findall(trace.text)]
            self.assertEqual(stamps, sorted(stamps))
            counts = trace.text.count(b"events overwritten\n")
            self.assertGreaterEqual(len(stamps) + trace.has_loss + counts, trace.text.count(b"\n"))

    def test_whole(self):
        for trace in self.each():
            self.assertEqual(told(waits_of(trace.text, 1)), trace.waits)

    def test_in_two_parts(self):
        """Each trace is cut once, wherever the stamp changes."""
        for trace in self.each():
            with Counting() as counting:
                for seam in trace.seams:
                    with cut_at(seam):
                        self.assertEqual(told(waits_of(trace.text, 2)), trace.waits, seam)
            if not trace.has_loss:
                self.assertEqual((counting.joined, counting.again), (len(trace.seams), 0))

    def test_in_many_parts(self):
        """Each trace is cut wherever the stamp changes, and all parts are joined."""
        for trace in self.each():
            with Counting() as counting, cut_at(*trace.seams):
                self.assertEqual(told(waits_of(trace.text, 2)), trace.waits)
            if not trace.has_loss:
                self.assertEqual((counting.joined, counting.again), (len(trace.seams), 0))

    def test_in_pieces(self):
        for trace in self.each():
            for size in (*range(1, 33), *range(33, len(trace.text) + 29, 29)):
                with mock.patch.object(trace_text, "PIECE", size):
                    self.assertEqual(told(waits_of(trace.text, 1)), trace.waits, size)

    def test_held(self):
        for trace in self.each(lambda trace: not trace.has_loss):
            desk = histdesk.Desk()
            desk.load(trace.text)
            self.assertEqual(told(histdesk.waits(desk)), trace.held)

    def test_cpus(self):
        for trace in self.each(lambda trace: bool(trace.cpus)):
            with warnings.catch_warnings():
                warnings.simplefilter("ignore", LossWarning)
                rows = {row.cpu: row for row in histdesk.summary(trace.text).table("cpu")}
            found = {cpu: {figure: getattr(rows[cpu], figure) for figure in figures} for cpu, figures in trace.cpus.items()}
            self.assertEqual(found, trace.cpus)

    def test_missing(self):
        for trace in self.each(lambda trace: trace.missing is not None):
            self.assertEqual(waits_of(trace.text, 1).missing, trace.missing)
            with cut_at(*trace.seams):
                self.assertEqual(waits_of(trace.text, 2).missing, trace.missing)

    def test_without(self):
        for trace in self.each(lambda trace: trace.without is not None):
            filter_text, waits = trace.without
            found = histdesk.diff(trace.text, without=filter_text)
            self.assertEqual((told(found.before), told(found.after)), (trace.waits, waits))

    def test_without_in_a_table(self):
        """A wait that isn't sure after a strike is no row's greatest one."""
        (trace,) = [trace for trace in self.traces if trace.name == "struck_waking"]
        (row,) = histdesk.diff(trace.text, without=trace.without[0]).table()
        sides = [(side.count, side.max, side.doubtful) for side in (row.before, row.after)]
        self.assertEqual((row.key, sides), (("x", 31, "woken"), [(1, 10, 0), (0, None, 1)]))

    def test_tool(self):
        """tools/waits shows a wait that isn't sure only if it is asked for."""
        (trace,) = [trace for trace in self.traces if trace.name == "woken_while_it_ran"]
        with tempfile.NamedTemporaryFile() as file:
            file.write(trace.text)
            file.flush()
            for words, figures in (([], ("0", "", "1")), (["--doubtful"], ("1", "499900", "1"))):
                command = [sys.executable, "-B", TOOL, file.name, "--csv", *words]
                ran = subprocess.run(command, stdout=subprocess.PIPE, check=True, text=True)
                (row,) = csv.DictReader(ran.stdout.splitlines())
                self.assertEqual((row["count"], row["max"], row["doubtful"]), figures)


if __name__ == "__main__":
    sys.exit(main())
