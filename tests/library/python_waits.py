#!/usr/bin/env python3
"""Tests histdesk.waits and tools/waits: what waits there are, of which kind, which are doubtful, and all figures of the tables.

    python_waits.py [TEST]...

The expected values are known by hand or from a simulated scheduler (recordings.py), or come from a plain reckoning that reads
the text by itself (plain_waits.py)."""

import csv
import doctest
import gzip
import io
import json
import os
import pickle
import random
import re
import subprocess
import sys
import tempfile
import unittest
import warnings
from collections import Counter
from unittest import mock

# Nothing is written beside the sources.
sys.dont_write_bytecode = True

HERE = os.path.dirname(os.path.realpath(__file__))
PYTHON = os.path.realpath(os.path.join(HERE, "..", "..", "python"))
TOOL = os.path.realpath(os.path.join(HERE, "..", "..", "tools", "waits"))
sys.path[:0] = [PYTHON, os.path.join(HERE, "..", "model")]

import numpy

import histdesk
import plain_waits
import recordings
from histdesk import Counts, LossWarning, Refused
from histdesk.desk import selection
from histdesk.desk import recording as desk_recording
from histdesk.trace import stream
from histdesk.trace import text as trace_text
from histdesk.waiting import wait_answer
from histdesk.waiting import waits as waiting_waits
from python_answers import at_micros, with_pandas
from python_runner import main
from recordings import Known, Place, Wait, switch, text_of, waking

BYS = ("task", "name", "cpu", "prio", "kind")


def waits_of(trace):
    """The waits of a trace, without warnings."""
    with warnings.catch_warnings():
        warnings.simplefilter("ignore", LossWarning)
        return histdesk.waits(trace)


def told(found):
    """Waits as the tests have them."""
    places = {end: zip(*(found.array[f"{end}_{field}"].tolist() for field in Place._fields)) for end in ("begin", "end")}
    columns = [found.array[field].tolist() for field in ("kind", "pid", "prio", "doubtful")]
    rows = zip(*columns, found.names.tolist(), places["begin"], places["end"])
    return [Wait(kind, pid, name, prio, Place(*begin), Place(*end), doubt) for kind, pid, prio, doubt, name, begin, end in rows]


def gaps(found):
    """Where events were lost, as the tests have it."""
    return sorted((recordings.Gap(*hole[:4]) for hole in found.holes), key=str)


def noise(seed, count=300):
    """Lines by chance: few tasks and few stamps, so that events meet in every order, switches from a task to itself, any
    states, other events between, and lines of lost events."""
    chance, lines = random.Random(seed), []
    for _ in range(count):
        cpu, at, pid = chance.randrange(3), 1000 + chance.randrange(200), chance.randrange(6)
        name = chance.choice(["a", "b c", "\udcff", "x=1"])
        event = chance.choice(["sched_waking", "sched_waking", "sched_wakeup", "sched_wakeup_new", "switch", "switch", "lost"])
        if event == "lost":
            told = chance.choice([f"CPU:{cpu} [LOST {pid + 1} EVENTS]", f"CPU:{cpu} [LOST EVENTS]", "# comment", ""])
            lines.append(told if chance.random() < 0.2 else recordings.line("a-1", cpu, at, "console: x"))
        elif event == "switch":
            state = chance.choice(["R", "R+", "S", "D", "X", "R|W"])
            lines.append(switch(cpu, at, f"p-{chance.randrange(6)}", f"{name}-{pid}", state=state, prio=pid - 1))
        else:
            lines.append(waking(cpu, at, pid, name=name, event=event))
    return text_of(lines)


class Waits(unittest.TestCase):
    def test_known_by_hand(self):
        for make in (recordings.hole_at_start, recordings.lost_in_middle, recordings.odd_names, recordings.kinds):
            with self.subTest(make.__name__):
                known = make()
                found = waits_of(known.text)
                self.assertEqual(told(found), list(known.waits))
                self.assertEqual(gaps(found), sorted(known.gaps, key=str))

    def test_of_two_holes(self):
        # The greatest sure wait, and the one across the hole.
        found = waits_of(recordings.hole_at_start().text)
        self.assertEqual(found.array.micros.tolist(), [1130399, 1149800, 1159700, 60000, 320761])
        self.assertEqual((found.doubtful, found.table()[0].max, found.table(doubtful=True)[0].max), (3, 320761, 1159700))
        self.assertEqual(found.table("kind")[0][:2], ("woken", 2))
        lost = waits_of(recordings.lost_in_middle().text)
        self.assertEqual([row.max for row in lost.table()], [135938, None, None])
        self.assertEqual([row.max for row in lost.table(doubtful=True)], [644589, 299940, 135938])

    def test_simulated(self):
        for seed in range(20):
            known = recordings.simulated(seed)
            self.assertEqual(told(waits_of(known.text)), list(known.waits), seed)

    def test_damaged(self):
        """A wait that isn't doubtful is one that its task had, or the end of one across a gap; and none that spans no gap is
        missing. Lines have other numbers if events before them are lost."""
        sure = 0
        for seed in range(30):
            known = recordings.simulated(seed, holes=1 + seed % 4)
            found = [wait for wait in told(waits_of(known.text)) if not wait.doubtful]
            had = {(wait.pid, wait.end[:2]): wait for wait in known.waits}
            for wait in found:
                true = had[wait.pid, wait.end[:2]]
                is_same = (wait.kind, wait.begin[:2], true.doubtful) == (true.kind, true.begin[:2], False)
                self.assertTrue(is_same or (true.doubtful and true.begin < wait.begin), (seed, wait, true))
            ends = {(wait.pid, wait.end[:2]) for wait in found}
            self.assertEqual([wait for wait in known.waits if not wait.doubtful and (wait.pid, wait.end[:2]) not in ends], [])
            sure += len(found)
        self.assertGreater(sure, 2000)

    def test_by_chance(self):
        for seed in range(60):
            text = noise(seed)
            found = waits_of(text)
            self.assertEqual(told(found), plain_waits.waits_of(text), seed)
            self.assertEqual(found.array.micros.tolist(), [wait.micros for wait in told(found)])

    def test_nothing(self):
        for text in (b"", b"# tracer: nop\n", text_of([waking(0, 5, 7)])):
            found = waits_of(text)
            self.assertEqual((len(found), found.table(), found.names.tolist(), found.doubtful), (0, [], [], 0))
            self.assertEqual([len(found.table(by)) for by in BYS], [0] * 5)

    def test_chosen(self):
        found = waits_of(recordings.kinds().text)
        all_of_them = told(found)
        self.assertEqual(told(found.only(kinds=["new"])), [wait for wait in all_of_them if wait.kind == "new"])
        self.assertEqual(told(found.only(cpus=[2])), [wait for wait in all_of_them if wait.end.cpu == 2])
        self.assertEqual(told(found.only(kinds=["woken", "new"], cpus=[0, 3])), [all_of_them[at] for at in (0, 3, 4, 5, 7)])
        self.assertEqual(told(found[found.array.micros > 29]), [wait for wait in all_of_them if wait.micros > 29])
        self.assertEqual((told(found[2:4]), found.name(7), len(found.only(kinds=[]))), (all_of_them[2:4], "renamed", 0))
        self.assertEqual(told(found.only(kinds="woken", cpus=2)), told(found.only(kinds=["woken"], cpus=[2])))
        self.assertEqual(told(found.only(tasks=10)), [wait for wait in all_of_them if wait.pid == 10])
        self.assertEqual(told(found.only(tasks="renamed")), [wait for wait in all_of_them if wait.name == "renamed"])
        chosen = [wait for wait in all_of_them if wait.pid == 12 or wait.name == "a"]
        self.assertEqual(told(found.only(tasks=["a", 12, "nobody", 99])), chosen)
        self.assertEqual(len(found.only(tasks=[])), 0)
        for tasks in ({10, 12}, numpy.array([10, 12]), iter([numpy.int64(10), 12])):
            self.assertEqual(told(found.only(tasks=tasks)), [wait for wait in all_of_them if wait.pid in (10, 12)])
        for wrong in ([1.5], b"a", [b"a"]):
            with self.assertRaisesRegex(TypeError, "integer"):
                found.only(tasks=wrong)
        with self.assertRaisesRegex(TypeError, "integer"):
            found.only(cpus=b"2")
        # A name isn't a number, and a number isn't a name.
        lines = [waking(0, 5, 7), switch(0, 9, "a-1", "12-7"), waking(0, 20, 12), switch(0, 30, "12-7", "b-12")]
        named = waits_of(text_of(lines))
        self.assertEqual([wait.pid for wait in told(named.only(tasks="12"))], [7])
        self.assertEqual([wait.pid for wait in told(named.only(tasks=12))], [12])
        for kinds in (["old"], "old", ["woken", 7]):
            with self.assertRaisesRegex(ValueError, "is no kind of wait; the kinds are woken, new, preempted"):
                found.only(kinds=kinds)
        self.assertEqual([wait.task for wait in found], found.names.tolist())
        self.assertEqual(
            [(wait.kind, wait.pid, wait.micros, *wait.begin, *wait.end) for wait in found],
            [(wait.kind, wait.pid, wait.micros, *wait.begin, *wait.end) for wait in all_of_them],
        )
        self.assertEqual((found[3], found[-1]), (list(found)[3], list(found)[-1]))
        with self.assertRaises(IndexError):
            found.name(8)

    def test_warns_once(self):
        text = recordings.lost_in_middle().text
        with warnings.catch_warnings(record=True) as warned:
            warnings.simplefilter("always")
            found = histdesk.waits(text)
        self.assertEqual([(one.category, str(one.message)) for one in warned], [(LossWarning, found.warning)])
        self.assertEqual(warned[0].filename, __file__)
        recording = desk_recording.read
        with warnings.catch_warnings(record=True) as warned:
            warnings.simplefilter("always")
            histdesk.waits(recording(text))
        self.assertEqual(len(warned), 1)


class Parts(unittest.TestCase):
    def test_time(self):
        known = recordings.kinds()
        found = waits_of(histdesk.read(known.text, start=at_micros(1000300), until=at_micros(1000500)))
        # What began before isn't known; lines are counted from the first event on.
        places = [(wait.begin[1:], wait.end[1:]) for wait in told(found)]
        self.assertEqual(places, [((0, 1), (3, 1)), ((0, 4), (3, 3))])
        news = [wait for wait in known.waits if wait.kind == "new"]
        self.assertEqual([wait.micros for wait in told(found)], [wait.micros for wait in news])
        self.assertEqual((found.lines_from, found.remarks()[-1]), (1000300, "lines are counted from 1.000300 on"))
        self.assertEqual((found.held.events, found.held.first, found.held.last, found.held.cpus), (7, 1000300, 1000407, (0, 3)))

    def test_cpus(self):
        with self.assertRaisesRegex(ValueError, "all CPUs"):
            histdesk.waits(histdesk.read(recordings.kinds().text, cpus=[1]))

    def test_more_than_a_desk_holds(self):
        known = recordings.kinds()
        with mock.patch.object(selection, "LIMIT", 20), mock.patch.object(desk_recording, "LIMIT", 20):
            found = waits_of(known.text)
        # A trace is read as a whole, however many events it has.
        self.assertEqual((found.held.events, told(found)), (29, list(known.waits)))
        with mock.patch.object(selection, "LIMIT", 20), mock.patch.object(desk_recording, "LIMIT", 20):
            recording = histdesk.read(known.text, spare=waiting_waits.SPARE)
            found = waits_of(recording)
        # And so is a recording of which a desk holds a part.
        self.assertEqual((recording.taken.events, found.held.events), (20, 29))
        self.assertEqual(found.remarks(), plain_waits.missing_told(known.text))
        self.assertEqual(told(found), list(known.waits))
        names = ["sched_waking", "sched_wakeup_new", "sched_switch"]
        found = waits_of(histdesk.read(known.text, events=names))
        # Each sched_wakeup is left out, and its line is still counted. One of them showed that a task was woken in a race with
        # its sleep; without it, that wait begins before the sleep.
        waits = [wait._replace(doubtful=wait.begin.stamp == 1000100) for wait in known.waits]
        self.assertEqual((found.held.events, found.remarks(), told(found)), (25, [], waits))
        with mock.patch.object(selection, "LIMIT", 20), mock.patch.object(desk_recording, "LIMIT", 20):
            found = waits_of(histdesk.read(known.text, events=names))
        self.assertEqual((found.held.events, told(found)), (20, waits[:7]))
        self.assertEqual(found.remarks(), ["this is a part of the recording; the next one begins at 1.000600"])

    def test_no_wakings(self):
        lines = [line for line in recordings.kinds().text.decode().split("\n") if "sched_waking" not in line]
        text = "\n".join(lines).encode()
        found = waits_of(text)
        told_first = ["no sched_waking began a wait, so nothing is known of woken ones"]
        self.assertEqual(found.remarks(), told_first + plain_waits.missing_told(text))
        self.assertEqual({wait.kind for wait in told(found)}, {"new", "preempted"})
        found = waits_of(text_of([waking(0, 5, 7)]))
        self.assertEqual(
            found.remarks(),
            [
                "no sched_waking began a wait, so nothing is known of woken ones",
                "no sched_switch began a wait, so nothing is known of preempted ones",
            ],
        )


def in_time(text):
    """A text with its lines in the order of their stamps; those without one stay before the line that they stood before."""
    runs, front = [], []
    for line in text.split(b"\n")[:-1]:
        front.append(line)
        stamp = re.search(rb" ([0-9]+)\.([0-9]{6}): ", line)
        if stamp:
            runs.append((int(stamp[1] + stamp[2]), front))
            front = []
    return b"".join(line + b"\n" for _, run in sorted(runs, key=lambda run: run[0]) for line in run)


class Dripping(io.BytesIO):
    """A file that gives a few bytes at a time, and can't be read again."""

    def read(self, size=-1):
        return super().read(min(size, 37))


class Streams(unittest.TestCase):
    """Traces in the order of time, which are read in pieces."""

    def test_pieces(self):
        for seed in range(12):
            text = in_time(noise(seed))
            for piece in (1 << 22, 4096, 100, 31):
                with mock.patch.object(trace_text, "PIECE", piece), mock.patch.object(stream, "CHUNK", 16):
                    self.assertEqual(told(waits_of(text)), plain_waits.waits_of(text), (seed, piece))

    def test_sources(self):
        known = recordings.simulated(3, holes=2)
        packed = gzip.compress(known.text[:5000]) + gzip.compress(known.text[5000:]) + bytes(7)
        with tempfile.TemporaryDirectory() as folder:
            for name, content in (("plain", known.text), ("packed.gz", packed)):
                path = os.path.join(folder, name)
                with open(path, "wb") as file:
                    file.write(content)
                found = waits_of(path)
                self.assertEqual((told(found), found.path), (told(waits_of(known.text)), path))
        text = known.text.decode("utf-8", "surrogateescape")
        for source in (bytearray(known.text), memoryview(packed), Dripping(known.text), Dripping(packed), io.StringIO(text)):
            self.assertEqual(told(waits_of(source)), told(waits_of(known.text)))
        for torn in (packed[:-12], packed[:40], packed + b"x"):
            with self.assertRaises(gzip.BadGzipFile):
                waits_of(torn)
        for wrong in (7, None, ["a.trace"]):
            for call in (histdesk.waits, histdesk.summary, histdesk.read, histdesk.Desk().load):
                with self.assertRaisesRegex(TypeError, f"^a trace is a path, .* and not {type(wrong).__name__}"):
                    call(wrong)
        with self.assertRaisesRegex(TypeError, "histdesk.many asks about several"):
            histdesk.waits(["a.trace", "b.trace"])

    def test_order(self):
        """A text that isn't in the order of time is read too, if it can be read again, or was kept."""
        text = noise(5)
        self.assertNotEqual(text, in_time(text))
        for trace in (text, Dripping(text), gzip.compress(text), Dripping(gzip.compress(text))):
            self.assertEqual(told(waits_of(trace)), plain_waits.waits_of(text))
        with self.assertRaisesRegex(ValueError, "^line [0-9]+: its stamp is before that of the event above it"):
            waiting_waits.waits_of_text(Dripping(text), waiting_waits.ReadOptions(keeps=False))

    def test_bad_lines(self):
        known = recordings.kinds()
        lines = known.text.split(b"\n")
        text = b"\n".join([*lines[:20], b"no line", b"nor this", *lines[20:]])
        with self.assertRaises(Refused) as refused:
            waits_of(text)
        self.assertEqual((refused.exception.line, refused.exception.number), (21, 3))
        found = histdesk.waits(text, lenient=True)
        self.assertEqual((told(found), found.bad_lines, found.first_bad_line), (list(known.waits), 2, 21))
        omission = "2 lines can't be read and are left out: the first is 21"
        self.assertEqual(found.omissions(), [omission])
        self.assertIn(omission, repr(found))
        self.assertIn("left out: the first is 21", found._repr_html_())
        self.assertEqual(histdesk.waits(known.text).omissions(), [])

    def test_losses(self):
        for known in (recordings.hole_at_start(), recordings.lost_in_middle(), recordings.simulated(7, holes=3)):
            found = waits_of(known.text)
            self.assertEqual(gaps(found), sorted(known.gaps, key=str))
            self.assertEqual(found.warning, histdesk.read(known.text).warning)

    def test_overwritten(self):
        """Only the header says that events were overwritten: CPU 1 begins late, so a wait from before that may be false."""
        lines = [waking(0, 5, 7), waking(0, 6, 8), waking(1, 20, 9), switch(0, 30, "x-1", "a-7"), switch(0, 40, "a-7", "c-9")]
        text = text_of(lines, in_buffer=5, lost=4)
        for piece in (1 << 22, 64):
            with mock.patch.object(trace_text, "PIECE", piece):
                found = waits_of(text)
            self.assertEqual(found.holes, histdesk.read(text).holes)
            self.assertEqual([(wait.pid, wait.doubtful) for wait in told(found)], [(7, True), (9, False)])
        for count in (0, 4):
            told_of = text + b"# CPU 1: %d events overwritten\n" % count
            self.assertEqual(waits_of(told_of).holes, histdesk.read(told_of).holes)

    def test_missing(self):
        lines = [switch(0, 5, "<idle>-0", "a-7", state="R"), waking(0, 6, 9), switch(0, 9, "b-8", "<idle>-0")]
        found = waits_of(text_of(lines))
        # The waker of `waking` and b run though CPU 0 went to a.
        self.assertEqual((found.missing, found.first_missing), (2, Place(6, 0, 2)))

    def test_grades(self):
        """CPU 3 lost events while a task that was woken on CPU 0 and ran on CPU 1 waited."""
        found = waits_of(recordings.lost_in_middle().text)
        grades = {(wait.end_cpu, bool(wait.doubtful), bool(wait.likely)) for wait in found.array}
        self.assertEqual(grades, {(3, False, False), (3, True, False), (1, True, True)})
        self.assertEqual((found.doubtful, found.likely), (2, 1))

    def test_a_desk_after_edits(self):
        chance = random.Random(8)
        with histdesk.Desk() as desk:
            desk.load(b"\n".join(line for line in noise(8).split(b"\n") if not line.startswith(b"CPU:")))
            lines = {cpu: list(range(1, count + 1)) for cpu, count in desk.cpus().items()}
            for _ in range(60):
                cpu = chance.randrange(3)
                desk.strike(cpu, lines[cpu].pop(chance.randrange(len(lines[cpu]))))
                edit = desk.insert(switch(cpu, 1000 + chance.randrange(200), "p-1", f"q-{chance.randrange(6)}", state="R"))
                lines[cpu].append(edit.line)
            text = b"".join(desk.list(cpu).encode("utf-8", "surrogateescape") for cpu in sorted(desk.cpus()))
            waits = [wait._replace(begin=wait.begin[:2], end=wait.end[:2]) for wait in plain_waits.waits_of(text)]
            found = [wait._replace(begin=wait.begin[:2], end=wait.end[:2]) for wait in told(waits_of(desk))]
            self.assertEqual(*([wait._replace(doubtful=False) for wait in one] for one in (found, waits)))
            # A desk knows of no holes that only events show.
            self.assertTrue(all(wait.doubtful >= one.doubtful for wait, one in zip(waits, found)))
            self.assertEqual(desk.triggers(), [])


class Tables(unittest.TestCase):
    def check(self, found, waits, with_doubtful):
        """Compare each table with the plain figures."""
        for by in BYS:
            rows = found.table(by, with_doubtful)
            groups = plain_waits.keys_of(waits, by)
            self.assertEqual(len(rows), len(groups))
            for row in rows:
                key = tuple(getattr(row, field) for field in (*(["pid"] if by == "task" else [by][: by != "kind"]), "kind"))
                want = plain_waits.figures_of(groups.pop(key), with_doubtful)
                name, pid = want.pop("greatest_name", None), want.pop("greatest_pid", None)
                self.assertEqual({field: getattr(row, field) for field in want}, want)
                if row.count:
                    self.assertEqual((getattr(row, "task", name), getattr(row, "pid", pid)), (name, pid))
                else:
                    self.assertEqual((row.mean, row.p50, row.p90, row.p99, row.max, row.end_stamp), (None,) * 6)
            most = [-1 if row.max is None else row.max for row in rows]
            self.assertEqual(most, sorted(most, reverse=True))

    def test_figures(self):
        texts = [known.text for known in recordings.all_known().values()] + [noise(seed) for seed in range(100, 110)]
        for text in texts:
            found, waits = waits_of(text), plain_waits.waits_of(text)
            self.check(found, waits, False)
            self.check(found, waits, True)

    def test_percentiles_by_hand(self):
        row = waits_of(recordings.many_waits(1000).text).table()[0]
        figures = (row.task, row.pid, row.kind, row.count, row.total, row.mean, row.p50, row.p90, row.p99, row.max)
        self.assertEqual(figures, ("a", 7, "woken", 1000, 500500, 500.5, 500, 900, 990, 1000))
        row = waits_of(recordings.many_waits(7).text).table("name")[0]
        self.assertEqual((row.p50, row.p90, row.p99, row.mean), (4, 7, 7, 4.0))

    def test_a_task_is_named_as_at_its_greatest_wait(self):
        rows = {(row.pid, row.kind): row.task for row in waits_of(recordings.kinds().text).table()}
        self.assertEqual((rows[10, "woken"], rows[13, "new"]), ("a", "d"))
        # A task whose waits are all doubtful has the name that it had last.
        rows = waits_of(recordings.hole_at_start().text).table()
        self.assertEqual([row.task for row in rows], ["true", "edge", "victim", "child", "thrown"])

    def test_sorted(self):
        for name in ("kinds", "hole_at_start", "simulated_0"):
            found = waits_of(recordings.all_known()[name].text)
            for by in BYS:
                usual = found.table(by)
                for column in wait_answer.orders_of(by):
                    rows = found.table(by, sort=column)
                    values = [row.end_stamp if column == "at" else getattr(row, column) for row in rows]
                    present = [value for value in values if value is not None]
                    # Rows without a value come last, and rows of equal values stay in their usual order.
                    self.assertEqual(values, present + [None] * (len(values) - len(present)), (by, column))
                    is_up = column in ("task", "name", "cpu", "prio", "kind", "pid", "at")
                    self.assertEqual(present, sorted(present, reverse=not is_up), (by, column))
                    places = [usual.index(row) for row in rows]
                    ties = [pair for pair, same in zip(zip(places, places[1:]), zip(values, values[1:])) if same[0] == same[1]]
                    self.assertTrue(all(one < other for one, other in ties), (by, column))
            for column in ("comm", "where", "index", "end_cpu"):
                with self.assertRaises(ValueError):
                    found.table(sort=column)

    def test_all_kinds_in_one_row(self):
        for name in ("kinds", "hole_at_start", "simulated_0", "damaged_1"):
            text = recordings.all_known()[name].text
            waits = plain_waits.waits_of(text)
            groups = {"task": lambda wait: wait.pid, "cpu": lambda wait: wait.end.cpu, "kind": lambda wait: ()}
            for by, key in groups.items():
                wanted = {}
                for wait in waits:
                    wanted.setdefault(key(wait), []).append(wait)
                rows = waits_of(text).table(by, kinds_apart=False)
                found = {{"task": row[1], "cpu": row[0], "kind": ()}[by]: row for row in rows}
                self.assertEqual((set(found), {row.kind for row in rows}), (set(wanted), {"all"}))
                for one, row in found.items():
                    figures = plain_waits.figures_of(wanted[one], False)
                    known = {field: value for field, value in figures.items() if not field.startswith("greatest_")}
                    self.assertEqual({field: getattr(row, field) for field in known}, known, (name, by, one))

    def test_other_words(self):
        found = waits_of(recordings.kinds().text)
        for call in (found.table, found.counts, found.to_pandas):
            with self.assertRaisesRegex(ValueError, "'comm'"):
                call("comm")

    @with_pandas
    def test_pandas(self):
        known = recordings.hole_at_start()
        frame = waits_of(known.text).to_pandas()
        self.assertEqual(list(zip(frame.task, frame.pid, frame.micros, frame.doubtful)), [
            (wait.name, wait.pid, wait.micros, wait.doubtful) for wait in known.waits
        ])  # fmt: skip
        for by in BYS:
            found = waits_of(known.text)
            rows, frame = found.table(by), found.to_pandas(by)
            self.assertEqual((list(frame.columns), len(frame)), (list(rows[0]._fields), len(rows)))
            self.assertEqual(frame["max"].max(), 320761)
            self.assertEqual(frame["count"].tolist(), [row.count for row in rows])
        self.assertEqual(waits_of(b"").to_pandas("task").shape, (0, 14))


class Counted(unittest.TestCase):
    """Counts that are added up."""

    def counts(self, text, by="name", source=""):
        return waits_of(text).counts(by).named(source)

    def test_merged(self):
        texts = [noise(seed) for seed in range(8)]
        for by in BYS:
            parts = [self.counts(text, by) for text in texts]
            whole = Counts.merged(parts)
            groups = plain_waits.keys_of([wait for text in texts for wait in plain_waits.waits_of(text)], by)
            self.assertEqual(set(whole.keys), set(groups))
            for row in whole.rows():
                values = [wait.micros for wait in groups[row.key] if not wait.doubtful]
                self.assertEqual((row.count, row.total, row.doubtful), (
                    len(values), sum(values), len(groups[row.key]) - len(values)
                ))  # fmt: skip
                if values:
                    want = [plain_waits.percentile(values, percent) for percent in (50, 90, 99)]
                    self.assertEqual([row.p50, row.p90, row.p99, row.max], [*want, max(values)])
                self.assertEqual(whole.row(row.key), row)
            # In whatever order, and in whatever steps.
            self.assertEqual(Counts.merged(parts[::-1]), whole)
            self.assertEqual(parts[0].merge(*parts[1:5]).merge(Counts.merged(parts[5:])), whole)
            self.assertEqual(pickle.loads(pickle.dumps(whole)), whole)
            self.assertNotEqual(parts[0], whole)

    def test_whole(self):
        text = recordings.many_waits(1000).text
        counts = self.counts(text, source="one")
        whole = counts.whole()
        self.assertEqual((whole.count, whole.total, whole.p50, whole.p99, whole.max), (1001, 500505, 500, 990, 1000))
        self.assertEqual((whole.greatest.source, whole.greatest.pid, whole.greatest.name), ("one", 7, "a"))
        self.assertEqual((counts.count, counts.doubtful, len(counts)), (1001, 0, 2))
        self.assertEqual(counts.by("kind").row(("woken",)).count, 1001)
        self.assertEqual(counts.by().whole(), whole)
        self.assertIsNone(counts.row(("nobody", "woken")))
        self.assertEqual((counts.percentile(99.9), counts.percentile(0.1), counts.percentile(100)), (999, 2, 1000))
        self.assertEqual((counts.percentile(50, ("b", "woken")), counts.percentile(50, ("c", "woken"))), (5, None))
        for percent in (0, 101, -1):
            with self.assertRaises(ValueError):
                counts.percentile(percent)

    def test_equal_waits(self):
        """The first of equally long waits counts as the greatest; of several recordings, that of the first one by name does."""
        lines = [waking(0, 100, 7), switch(0, 110, "a-1", "w-7"), switch(0, 120, "w-7", "a-1")]
        lines += [waking(0, 200, 7), switch(0, 210, "a-1", "w-7")]
        one, other = self.counts(text_of(lines), source="b"), self.counts(text_of(lines[:2]), source="a")
        self.assertEqual((one.whole().greatest.stamp, one.whole().greatest.source), (110, "b"))
        self.assertEqual(one.merge(other).whole().greatest, other.merge(one).whole().greatest)
        self.assertEqual(one.merge(other).whole().greatest.source, "a")

    def test_refused(self):
        with self.assertRaises(ValueError):
            Counts.merged([])
        with self.assertRaises(ValueError):
            self.counts(b"", "name").merge(self.counts(b"", "cpu"))
        with self.assertRaises(ValueError):
            self.counts(b"").by("pid")

    def test_empty(self):
        empty = Counts.empty(("name", "kind"))
        self.assertEqual((empty.count, empty.rows(), empty.histogram(), empty.percentile(50)), (0, [], [], None))
        self.assertEqual((empty.whole().count, empty.whole().max), (0, None))
        full = self.counts(recordings.kinds().text)
        self.assertEqual((empty.merge(full), full.merge(empty)), (full, full))

    def test_long_waits(self):
        """Sums beyond 64 bits, and stamps of the greatest size."""
        most, lines = 4294967295999999, []
        for pid in range(2, 3001):
            lines += [waking(0, 0, pid), switch(0, most, "a-1", f"w-{pid}")]
        whole = self.counts(text_of(lines)).whole()
        self.assertEqual((whole.count, whole.total, whole.p50), (2999, 2999 * most, most))
        self.assertEqual(whole.mean, float(most))
        self.assertEqual(self.counts(text_of(lines)).histogram(), [(52, 2999)])

    def test_histogram(self):
        for text in (recordings.many_waits(300).text, recordings.kinds().text, noise(3)):
            counts, groups = self.counts(text), plain_waits.keys_of(plain_waits.waits_of(text), "name")
            for key, waits in groups.items():
                values = [wait.micros for wait in waits if not wait.doubtful]
                found = [(power.low, power.high, count) for power, count in counts.histogram(key)]
                self.assertEqual(found, plain_waits.histogram_of(values))
        self.assertEqual(counts.histogram(("nobody", "woken")), [])


class OnADesk(unittest.TestCase):
    """A desk of the user's is asked, and left as it was."""

    def setUp(self):
        self.desk = histdesk.Desk()
        self.desk.load(recordings.kinds().text)
        # Names that the triggers might want for themselves.
        self.desk.attach("sched_waking", "hist:keys=pid:begin0=common_timestamp.usecs")
        reader = self.desk.attach("sched_switch", "hist:keys=next_pid:begin1=common_timestamp.usecs-$begin0")
        self.desk.attach("sched_waking", "hist:keys=prio")
        self.latencies = reader.latencies().tolist()
        self.triggers = self.state()

    def state(self):
        return [(trigger.id, trigger.event, trigger.canonical, trigger.text()) for trigger in self.desk.triggers()]

    def unchanged(self):
        self.assertEqual(self.state(), self.triggers)
        self.assertEqual(self.desk.trigger(2).latencies().tolist(), self.latencies)

    def test_asked(self):
        found = histdesk.waits(self.desk)
        self.assertEqual(told(found), list(recordings.kinds().waits))
        self.assertEqual((found.path, found.held.events), (None, 29))
        self.unchanged()

    def test_struck(self):
        # The waking that begins the wait of c, and the switch that ends a preempted one.
        self.desk.strike(0, 6)
        self.assertIn(Wait("woken", 12, "c", 120, Place(1000200, 0, 5), Place(1000215, 0, 7)), told(histdesk.waits(self.desk)))
        self.desk.strike(0, 3)
        kinds = [wait.kind for wait in told(histdesk.waits(self.desk))]
        self.assertEqual(kinds.count("preempted"), 0)

    def test_holes_of_a_desk(self):
        known = recordings.lost_in_middle()
        desk = histdesk.Desk()
        with warnings.catch_warnings():
            warnings.simplefilter("ignore", LossWarning)
            desk.load(known.text)
        self.assertEqual(told(histdesk.waits(desk)), list(known.waits))

    def test_beside_many_triggers(self):
        """No trigger is attached for the question, so there may be as many as a desk takes."""
        while len(self.desk.triggers()) < 64:
            self.desk.attach("sched_waking", "hist:keys=pid")
        self.triggers = self.state()
        self.assertEqual(told(histdesk.waits(self.desk)), list(recordings.kinds().waits))
        self.unchanged()

    def test_out_of_memory(self):
        with mock.patch.object(stream.library, "histdesk_waits_held", return_value=1), self.assertRaises(MemoryError):
            histdesk.waits(self.desk)
        self.unchanged()

    def test_more_tasks_than_a_table_holds(self):
        count = wait_answer.SIZE + 3
        lines = [waking(0, at, at + 1) for at in range(count)]
        lines += [switch(0, count + pid, "a-0", f"w-{pid}") for pid in (1, count)]
        found = waits_of(text_of(lines))
        self.assertEqual(([wait.pid for wait in told(found)], found.dropped), ([1, 131075], 0))
        self.assertEqual(found.remarks(), plain_waits.missing_told(text_of(lines)))


class Shown(unittest.TestCase):
    def test_one_is_told(self):
        found = waits_of(recordings.hole_at_start().text)
        one = found[found.array.doubtful][:1]
        for is_counted, how in enumerate(("left out: it", "counted, though it")):
            lines = one.lines(doubtful=bool(is_counted))
            told = f"1 doubtful wait is {how} may be false, since events of its time may be missing"
            self.assertEqual(lines[2], f"{told}; it is likely true")
        self.assertTrue(lines[1].startswith("1 wait: "))

    def test_text(self):
        known = recordings.hole_at_start()
        text = repr(waits_of(known.text)).split("\n")
        self.assertEqual([text.pop(3)], plain_waits.missing_told(known.text))
        self.assertEqual(text[0], "histdesk.Waits of 12 events from 1.000000 to 2.620761 (1.620761 s) on CPUs 0-2")
        self.assertEqual(text[1], "2 waits: 2 woken, 0 new, 0 preempted; times in microseconds")
        self.assertEqual(text[2].split()[:2], ["3", "doubtful"])
        self.assertEqual(text[3].split(), "task pid kind count total mean p50 p90 p99 max at where doubtful".split())
        self.assertEqual(text[4].split(), "true 46 woken 1 320761 320761.0 320761 320761 320761 320761 2.620761 2:2 0".split())
        self.assertEqual(text[6].split(), "victim 42 woken 0 0 1".split())
        self.assertTrue(text[9].startswith("events were lost: "))
        self.assertEqual(len(text), 10)

    def test_odd_names(self):
        found = waits_of(recordings.odd_names().text)
        for shown in (repr(found), found._repr_html_()):
            self.assertNotIn("\x1b", shown)
            self.assertIn("\\x1b[31mred", shown)
            self.assertIn("bad\\xff\\xfe", shown)
        self.assertIn("&quot;q&quot;,", found._repr_html_())

    def test_long_table(self):
        lines = [line for pid in range(2, 32) for line in (waking(0, pid * 100, pid), switch(0, pid * 101, "a-1", f"w-{pid}"))]
        text = repr(waits_of(text_of(lines))).split("\n")
        self.assertEqual((len(text), text[-2].split()[1], text[-1].split()[0]), (3 + 1 + 20 + 1, "12", ".."))

    def test_cpus(self):
        self.assertEqual(wait_answer.ranges((0, 1, 2, 3, 6, 8, 9)), "0-3,6,8-9")
        self.assertEqual(wait_answer.ranges(()), "")

    def test_example(self):
        """The example in the documentation, which is skipped there in case numpy is missing."""
        text = histdesk.waits.__doc__.replace("# doctest: +SKIP", "")
        example = doctest.DocTestParser().get_doctest(text, {"waits": histdesk.waits}, "waits", None, None)
        tried = doctest.DocTestRunner().run(example)
        self.assertEqual((tried.failed, tried.attempted > 1), (0, True))


class Tool(unittest.TestCase):
    """tools/waits, run as users run it."""

    @classmethod
    def setUpClass(cls):
        cls.folder = tempfile.TemporaryDirectory()
        cls.known = {**recordings.all_known(), "noise": Known(noise(7), ())}
        for name, known in cls.known.items():
            with open(cls.path(name), "wb") as file:
                file.write(known.text)

    @classmethod
    def tearDownClass(cls):
        cls.folder.cleanup()

    @classmethod
    def path(cls, name):
        return os.path.join(cls.folder.name, f"{name}.trace")

    def run_tool(self, *words, status=0, **options):
        pipes = {"stdout": subprocess.PIPE, "stderr": subprocess.PIPE}
        ran = subprocess.run([sys.executable, "-B", TOOL, *words], check=False, **pipes, **options)
        self.assertEqual(ran.returncode, status, ran.stderr)
        return ran.stdout.decode(), ran.stderr.decode()

    def expected(self, name, by, with_doubtful=False):
        """The rows by key, as a plain reckoning has them; what isn't there is empty."""
        groups = plain_waits.keys_of(plain_waits.waits_of(self.known[name].text), by)
        return {tuple(map(str, key)): plain_waits.figures_of(waits, with_doubtful) for key, waits in groups.items()}

    def check_rows(self, rows, want, by, read):
        """Check rows by their names; `read` reads the text of a figure."""
        self.assertEqual(len(rows), len(want))
        for row in rows:
            fields = [*(["pid"] if by == "task" else [by][: by != "kind"]), "kind"]
            key = tuple(histdesk.unescaped(row[field]) if read is float else str(row[field]) for field in fields)
            figures = {name: value for name, value in want[key].items() if not name.startswith("greatest_")}
            self.assertEqual({name: read(row[name]) for name in figures}, figures)
            if "greatest_name" in want[key] and "task" in row:
                self.assertEqual(histdesk.unescaped(row["task"]) if read is float else row["task"], want[key]["greatest_name"])

    def test_csv(self):
        asked = {"odd_names": "task", "damaged_1": "name", "noise": "cpu", "kinds": "prio", "simulated_0": "kind"}
        for name, by in asked.items():
            text, _ = self.run_tool(self.path(name), "--by", by, "--csv")
            self.check_rows(list(csv.DictReader(io.StringIO(text))), self.expected(name, by), by, float)

    def test_json(self):
        for name, by in (("odd_names", "name"), ("damaged_2", "task"), ("noise", "prio"), ("hole_at_start", "cpu")):
            text, told_of = self.run_tool(self.path(name), "--by", by, "--json", "--doubtful")
            answer = json.loads(text)
            self.check_rows(answer["rows"], self.expected(name, by, True), by, lambda value: value)
            waits = plain_waits.waits_of(self.known[name].text)
            self.assertEqual((answer["waits"], answer["doubtful"]), (len(waits), sum(wait.doubtful for wait in waits)))
            gaps = [tuple(hole[field] for field in ("cpu", "after", "before", "lost")) for hole in answer["holes"]]
            self.assertEqual(sorted(gaps, key=str), sorted(map(tuple, plain_waits.gaps_of(self.known[name].text)), key=str))
            # It tells of what lines report, not of what only events show.
            is_reported = any(hole["line"] for hole in answer["holes"])
            self.assertEqual(told_of, f"waits: {self.path(name)}: {answer['warning']}\n" if is_reported else "")

    def test_histogram(self):
        text, _ = self.run_tool(self.path("damaged_1"), "--histogram", "--csv")
        values = [wait.micros for wait in plain_waits.waits_of(self.known["damaged_1"].text) if not wait.doubtful]
        want = plain_waits.histogram_of(values)
        self.assertEqual([tuple(map(int, row)) for row in list(csv.reader(io.StringIO(text)))[1:]], want)
        text, _ = self.run_tool(self.path("damaged_1"), "--histogram")
        bars = re.findall(r"^ *([0-9]+)(?:-([0-9]+))? us +([0-9]+)(?:  (@+))?$", text, re.MULTILINE)
        most = max(int(count) for *_, count, _ in bars)
        self.assertEqual([(int(low), int(high or low), int(count)) for low, high, count, _ in bars], want)
        for *_, count, bar in bars:
            self.assertTrue(int(count) * 40 <= len(bar) * most < int(count) * 40 + most)
        text, _ = self.run_tool(self.path("kinds"), "--histogram", "--by", "task", "--csv")
        self.assertEqual(text.split("\n")[:3], ["task,pid,kind,low,high,count", "b,11,preempted,33,64,1", "d,13,new,5,8,1"])
        text, _ = self.run_tool(self.path("kinds"), "--histogram", "--by", "kind", "--json")
        rows = json.loads(text)["rows"]
        self.assertEqual([(row["low"], row["high"], row["count"]) for row in rows if row["kind"] == "new"], [
            (5, 8, 1), (9, 16, 0), (17, 32, 0), (33, 64, 1)
        ])  # fmt: skip

    def test_text(self):
        text, told_of = self.run_tool(self.path("hole_at_start"))
        lines = text.split("\n")
        of = "12 events from 1.000000 to 2.620761 (1.620761 s) on CPUs 0-2"
        self.assertEqual(lines[0], f"{self.path('hole_at_start')}: {of}")
        self.assertTrue(lines[2].startswith("3 doubtful waits are left out"))
        self.assertEqual([lines.pop(3)], plain_waits.missing_told(self.known["hole_at_start"].text))
        self.assertEqual(lines[5].split()[:4], ["true", "46", "woken", "1"])
        self.assertEqual(told_of.count("\n"), 1)
        self.assertIn("events were lost: 474361 of 474373", told_of)
        self.assertIn("CPU 2 (at 2.250000)", told_of)
        text, _ = self.run_tool(self.path("hole_at_start"), "--doubtful")
        self.assertEqual(text.split("\n")[6].split()[:4], ["thrown", "44", "preempted", "1"])

    def test_top(self):
        everything, _ = self.run_tool(self.path("simulated_1"))
        self.assertEqual(everything.split("\n")[2:3], plain_waits.missing_told(self.known["simulated_1"].text))
        rows = everything.split("\n")[5:]
        text, _ = self.run_tool(self.path("simulated_1"), "--top", "3")
        count = len(rows) - 1
        self.assertEqual([line.split() for line in text.split("\n")[5:8]], [line.split() for line in rows[:3]])
        self.assertEqual(text.split("\n")[8:], [f"{count - 3} more are not shown; --top all shows them", ""])
        self.assertEqual(self.run_tool(self.path("simulated_1"), "--top", "all"), (everything, ""))
        text, _ = self.run_tool(self.path("simulated_1"), "--top", "2", "--csv")
        self.assertEqual(text.count("\n"), 3)

    def test_terminal(self):
        """A terminal gets the first 30 rows, and what to ask next."""
        here, there = os.openpty()
        with open(here, "rb") as screen:
            subprocess.run([sys.executable, "-B", TOOL, self.path("simulated_1")], stdout=there, check=True)
            os.close(there)
            lines = b"".join(iter(lambda: self.piece_of(screen), b"")).decode().split("\r\n")
        rows = waits_of(self.known["simulated_1"].text).table()
        self.assertEqual([line.split()[2] for line in lines[5:35]], [str(row.pid) for row in rows[:30]])
        told_of = [
            f"{len(rows) - 30} more are not shown; --top all shows them",
            f"tools/why {self.path('simulated_1')} {rows[0].end_cpu}:{rows[0].end_line} explains the longest",
        ]
        self.assertEqual(lines[35:], [*told_of, ""])

    @staticmethod
    def piece_of(screen):
        """What a terminal shows next; nothing at its end."""
        try:
            return os.read(screen.fileno(), 65536)
        except OSError:
            return b""

    def test_chosen(self):
        text, _ = self.run_tool(self.path("kinds"), "--kind", "new,woken", "--cpu", "2-3", "--csv")
        rows = [(row["pid"], row["kind"], row["count"]) for row in csv.DictReader(io.StringIO(text))]
        self.assertEqual(rows, [("13", "new", "2"), ("10", "woken", "1"), ("14", "woken", "1")])
        for task in ("10", "a", "renamed", "renamed-10", "a-10"):
            text, _ = self.run_tool(self.path("kinds"), "--task", task, "--csv")
            rows = list(csv.DictReader(io.StringIO(text)))
            names = (task, task.rpartition("-")[2])
            counts = Counter(wait.kind for wait in self.known["kinds"].waits if str(wait.pid) in names or wait.name == task)
            self.assertEqual({row["kind"]: int(row["count"]) for row in rows}, counts)
            self.assertEqual({row["pid"] for row in rows}, {"10"})
        # Several times, it selects several tasks.
        text, _ = self.run_tool(self.path("kinds"), "--task", "12", "--task", "a", "--task", "b-11", "--csv")
        self.assertEqual({row["pid"] for row in csv.DictReader(io.StringIO(text))}, {"10", "11", "12"})
        text, _ = self.run_tool(self.path("kinds"), "--task", "12", "--histogram", "--csv")
        self.assertEqual(sum(int(row["count"]) for row in csv.DictReader(io.StringIO(text))), 1)
        text, _ = self.run_tool(self.path("kinds"), "--from", "1.0003", "--until", "1.0005", "--csv")
        self.assertEqual([row["max"] for row in csv.DictReader(io.StringIO(text))], ["40"])

    def test_sorted(self):
        text, _ = self.run_tool(self.path("simulated_0"), "--sort", "total", "--kind", "all", "--csv")
        rows = list(csv.DictReader(io.StringIO(text)))
        totals = [int(row["total"]) for row in rows]
        self.assertEqual((totals, {row["kind"] for row in rows}), (sorted(totals, reverse=True), {"all"}))
        waits = plain_waits.waits_of(self.known["simulated_0"].text)
        self.assertEqual((len(rows), sum(totals)), (len({wait.pid for wait in waits}), sum(wait.micros for wait in waits)))
        text, _ = self.run_tool(self.path("kinds"), "--kind", "all", "--by", "kind")
        self.assertEqual(text.split("\n")[-2].split()[:3], ["all", "8", "150"])
        text, _ = self.run_tool(self.path("kinds"), "--kind", "all", "--by", "task", "--histogram", "--csv")
        self.assertEqual(text.split("\n")[0], "task,pid,low,high,count")

    def test_nothing_to_report(self):
        """A line says why, and the status is 1."""
        path = self.path("kinds")
        empty = os.path.join(self.folder.name, "empty.trace")
        with open(empty, "wb"):
            pass
        cases = [
            ([path, "--cpu", "9"], "no wait ended on CPU 9; its events are on CPUs 0-3"),
            ([path, "--cpu", "3", "--kind", "woken"], "no wait of kind woken ended on CPU 3"),
            ([path, "--task", "nobody", "--kind", "new"], "no wait of kind new of task nobody ended in it"),
            ([path, "--task", "no", "--task", "9"], "no wait of task no or 9 ended in it"),
            ([path, "--from", "9999"], "no event is from 9999.000000; its events are from 0.999990 to 1.000803"),
            ([path, "--until", "0.5"], "no event is before 0.500000; its events are from 0.999990 to 1.000803"),
            ([path, "--from", "1.0008", "--until", "1.000801"], "no wait ended in it"),
            ([empty], "it has no events"),
        ]
        for words, why in cases:
            for form in ([], ["--json"], ["--csv"], ["--histogram"], ["--by", "kind"]):
                shown, told_of = self.run_tool(*words, *form, status=1)
                self.assertEqual(told_of.split("\n")[-2:], [f"waits: {words[0]}: {why}", ""], (words, form))
                if form == ["--json"]:
                    self.assertEqual(json.loads(shown)["rows"], [])
        _, told_of = self.run_tool("-", input=b"", status=1)
        self.assertEqual(told_of, "waits: -: it has no events\n")

    def test_standard_input_and_lenient(self):
        text = self.known["kinds"].text + b"a torn li\n"
        _, told_of = self.run_tool("-", input=text, status=2)
        self.assertIn("line 42", told_of)
        shown, told_of = self.run_tool("-", "--lenient", input=text)
        self.assertIn("8 waits", shown)
        self.assertIn("1 line can't be read and is left out: 42", told_of)

    def test_what_goes_wrong_is_a_line(self):
        wrong = [["--by", "comm"], ["--kind", "old"], ["--top", "0"], ["--csv", "--json"], ["--no-such"], []]
        wrong += [["--sort", "where"], ["--sort", "cpu"], ["--sort", "max", "--histogram"], ["--kind", "all,woken"]]
        for words in wrong:
            path = [self.path("kinds")] if words else []
            shown, told_of = self.run_tool(*path, *words, status=2)
            self.assertEqual((shown, told_of.count("\n")), ("", 1), words)
        _, told_of = self.run_tool(self.path("nowhere"), status=2)
        self.assertEqual(told_of, f"waits: {self.path('nowhere')}: No such file or directory\n")

    def test_closed_pipe(self):
        words = [sys.executable, "-B", TOOL, self.path("many_waits"), "--json"]
        with subprocess.Popen(words, stdout=subprocess.PIPE, stderr=subprocess.PIPE) as tool:
            tool.stdout.close()
            self.assertEqual(tool.stderr.read(), b"")
        self.assertEqual(tool.returncode, -13)

    def test_without_numpy_or_library(self):
        with open(os.path.join(self.folder.name, "numpy.py"), "w", encoding="ascii") as file:
            file.write("raise ModuleNotFoundError('none here', name='numpy')\n")
        environment = {**os.environ, "PYTHONPATH": self.folder.name}
        _, told_of = self.run_tool(self.path("kinds"), status=2, env=environment)
        how = "apt-get install python3-numpy gives it to Debian's own python3, pip install numpy to any"
        # Any other Python that is here was tried too.
        self.assertTrue(told_of.startswith(("waits: neither /", f"waits: {sys.executable} has no numpy")), told_of)
        self.assertIn(sys.executable, told_of)
        self.assertTrue(told_of.endswith(f" numpy, which is needed here: {how}\n"), told_of)
        environment = {**os.environ, "HISTDESK_LIBRARY": os.path.join(self.folder.name, "none.so")}
        _, told_of = self.run_tool(self.path("kinds"), status=2, env=environment)
        self.assertTrue(told_of.startswith("waits: histdesk needs the library libhistdesk.so.0, which can't be loaded:\n"))
        self.assertLessEqual(max(map(len, told_of.split("\n"))), 100)

    def test_ascii_terminal(self):
        shown, _ = self.run_tool(self.path("odd_names"), env={**os.environ, "PYTHONIOENCODING": "ascii"})
        self.assertIn("\\xfcmlaut", shown)
        self.assertNotIn("\x1b", shown)


def tracing():
    """Whether this machine's own scheduler can be recorded here."""
    return os.geteuid() == 0 and os.path.isdir("/sys/kernel/tracing/instances")


@unittest.skipUnless(tracing(), "not root, or no tracefs at /sys/kernel/tracing")
class ThisMachine(unittest.TestCase):
    """A recording of the machine that runs the test, whose buffer is too small on purpose."""

    # Two processes that wake each other by turns, far more often than the buffer has room for.
    BUSY = """import os
a, b = os.pipe(), os.pipe()
is_first = os.fork() > 0
mine, other = (a, b) if is_first else (b, a)
if is_first:
    os.write(mine[1], b"x")
for _ in range(5000):
    os.read(other[0], 1)
    os.write(mine[1], b"x")
"""

    def test_losses_are_told(self):
        with tempfile.TemporaryDirectory() as folder:
            path = os.path.join(folder, "my.trace")
            record = os.path.join(os.path.dirname(TOOL), "record")
            words = [record, "--buffer", "16", "-o", path, "--", sys.executable, "-c", self.BUSY]
            subprocess.run(words, stdout=subprocess.DEVNULL, stderr=subprocess.PIPE, check=True)
            ran = subprocess.run(
                [sys.executable, "-B", TOOL, path, "--json"], stdout=subprocess.PIPE, stderr=subprocess.PIPE, check=True
            )
            with open(path, "rb") as file:
                text = file.read()
        answer = json.loads(ran.stdout)
        self.assertIn("events were overwritten before it begins", answer["warning"])
        self.assertIn(answer["warning"], ran.stderr.decode())
        waits = plain_waits.waits_of(text)
        if plain_waits.gaps_of(text):
            # No row counts a wait that spans a hole, and each says how many it leaves out.
            groups = plain_waits.keys_of(waits, "task")
            self.assertEqual(len(answer["rows"]), len(groups))
            for row in answer["rows"]:
                sure = [wait.micros for wait in groups[row["pid"], row["kind"]] if not wait.doubtful]
                doubtful = len(groups[row["pid"], row["kind"]]) - len(sure)
                self.assertEqual((row["max"], row["count"], row["doubtful"]), (max(sure, default=None), len(sure), doubtful))


class Selected(unittest.TestCase):
    """Waits that are selected, in whatever form that is asked for."""

    def setUp(self):
        self.waits = waits_of(recordings.kinds().text)

    def test_by_numbers_of_numpy(self):
        at = self.waits.array.micros.argmax()
        self.assertEqual(self.waits[at].micros, max(wait.micros for wait in self.waits))
        cpu = self.waits[0].end.cpu
        self.assertEqual(len(self.waits.only(cpus=numpy.int64(cpu))), sum(wait.end.cpu == cpu for wait in self.waits))

    def test_by_iterators(self):
        woken = sum(wait.kind == "woken" for wait in self.waits)
        self.assertEqual(len(self.waits.only(kinds=iter(["woken"]))), woken)
        with self.assertRaises(TypeError):
            self.waits.only(cpus="1")

    def test_array_is_read_only(self):
        with self.assertRaises(ValueError):
            self.waits.array.sort(order="micros")


class Written(unittest.TestCase):
    def test_unescaped(self):
        from histdesk.export.csv import escaped

        chance = random.Random(1)
        for _ in range(2000):
            raw = bytes(chance.choice([chance.randrange(256), *b'\\x4\n\r,"0']) for _ in range(chance.randrange(12)))
            name = raw.decode("utf-8", "surrogateescape")
            self.assertEqual(histdesk.unescaped(escaped(name)), name)
            self.assertNotRegex(escaped(name), "[\x00-\x1f\x7f-\x9f\ud800-\udfff]")
        self.assertEqual(escaped("a\tb\udcff\\"), "a\\x09b\\xff\\\\")


if __name__ == "__main__":
    sys.exit(main())
