#!/usr/bin/env python3
"""Tests slices of recordings, by histdesk.read with a stretch of time, by waits of it, and by Waits.source; and long files,
which are read in parts. The expected values come from a plain filter over the lines of the whole text, and from the
plain reckoning of plain_waits.py over the lines that it leaves."""

import csv
import gzip
import io
import os
import random
import subprocess
import sys
import tempfile
import unittest
import warnings
from typing import List, NamedTuple
from unittest import mock

# Nothing is written beside the sources.
sys.dont_write_bytecode = True

HERE = os.path.dirname(os.path.realpath(__file__))
PYTHON = os.path.realpath(os.path.join(HERE, "..", "..", "python"))
TOOL = os.path.realpath(os.path.join(HERE, "..", "..", "tools", "waits"))
sys.path[:0] = [PYTHON, os.path.join(HERE, "..", "model")]

import histdesk
import plain_waits
import recordings
from histdesk import LossWarning, Part, Refused
from histdesk.desk import selection, slices
from histdesk.desk import recording as desk_recording
from histdesk.trace import time_range
from histdesk.trace import text as trace_text
from python_answers import at_micros
from python_runner import main
from python_waits import Dripping, in_time, noise, told, tracing
from recordings import line, switch, text_of, waking


class Event(NamedTuple):
    """An event of a text: its stamp, its CPU and its line there, and the number of its line in the text, from 0."""

    stamp: int
    cpu: int
    line: int
    number: int


def events_of(text: bytes) -> List[Event]:
    """The events of a text, in the order of its lines."""
    counts, found = {}, []
    for number, content in enumerate(plain_waits.lines_of(text)):
        event = plain_waits.LINE.fullmatch(content)
        if event:
            cpu = int(event["cpu"])
            counts[cpu] = counts.get(cpu, 0) + 1
            found.append(Event(int(event["s"]) * 1000000 + int(event["us"]), cpu, counts[cpu], number))
    return found


def between(events, start, until):
    """Return the events of a stretch of time."""
    return [event for event in events if (start is None or start <= event.stamp) and (until is None or event.stamp < until)]


def counted_anew(events):
    """Return the places of events, with the lines of each CPU counted from the first of these events on."""
    first = {}
    for event in events:
        first.setdefault(event.cpu, event.line - 1)
    return sorted((event.stamp, event.cpu, event.line - first[event.cpu]) for event in events)


def places(events):
    return sorted((event.stamp, event.cpu, event.line) for event in events)


def held(recording):
    """The places of the events that a desk holds of a recording, as it tells them."""
    with recording.desk() as desk:
        return sorted((event.stamp, event.cpu, recording.line(event.cpu, event.line)) for event in desk.events())


def quiet(call, *words, **named):
    """What a call answers, without warnings of lost events."""
    with warnings.catch_warnings():
        warnings.simplefilter("ignore", LossWarning)
        return call(*words, **named)


def lines_from(text, events):
    """The lines of a text from the first of some events on, up to the line before the next event after them."""
    lines, known = text.split(b"\n"), events_of(text)
    later = [event.number for event in known if event.number > events[-1].number]
    return b"\n".join(lines[events[0].number : later[0] if later else len(lines)])


def waits_between(text, events, wanted):
    """The waits of some events of a text that are side by side. A CPU begins late, or ends early, only if the text does so."""
    part = lines_from(text, wanted)
    shown = plain_waits.gaps_of(part)[len(plain_waits.lost_in(part)) :]
    if wanted[0] != events[0]:
        shown = [gap for gap in shown if gap.after is not None]
    if wanted[-1] != events[-1]:
        shown = [gap for gap in shown if gap.before is not None]
    return plain_waits.waits_of(part, gaps=plain_waits.lost_in(text) + shown)


def texts():
    """Texts in the order of time: what machines write down, some with lost events; and lines by chance, with many of one
    stamp."""
    for seed in range(6):
        yield recordings.simulated(seed, holes=seed % 4).text
    for seed in range(6):
        yield in_time(noise(seed))


def stretches(events, chance, count):
    """Stretches of time by chance, from and until stamps of events, or just before or after them; some have only one end."""
    for _ in range(count):
        ends = sorted(chance.choice(events).stamp + chance.choice([-1, 0, 0, 1]) for _ in range(2))
        yield chance.choice([(ends[0], ends[1]), (ends[0], ends[1]), (ends[0], None), (None, ends[1])])


class Folder(unittest.TestCase):
    """Has a folder for files."""

    def setUp(self):
        folder = tempfile.TemporaryDirectory()
        self.addCleanup(folder.cleanup)
        self.folder = folder.name

    def file(self, content, name="my.trace"):
        path = os.path.join(self.folder, name)
        with open(path, "wb") as file:
            file.write(content)
        return path

    def sources(self, text):
        """A text in each form in which it may come, made anew each time."""
        path, packed = self.file(text), self.file(gzip.compress(text[:900]) + gzip.compress(text[900:]), "my.trace.gz")
        return [lambda: path, lambda: packed, lambda: text, lambda: io.BytesIO(text), lambda: Dripping(gzip.compress(text))]

    def small_parts(self):
        """Have little read at once, so that short texts have many parts."""
        for module, name, value in (
            (trace_text, "PIECE", 700),
            (time_range, "ROOM", 128),
            (trace_text, "KEPT", 1000),
            (trace_text, "RESTART", 2000),
        ):
            patch = mock.patch.object(module, name, value)
            patch.start()
            self.addCleanup(patch.stop)


class Stretches(Folder):
    """Stretches of time by `read`, and waits of them."""

    def test_events(self):
        self.small_parts()
        chance = random.Random(1)
        for text in texts():
            events, sources = events_of(text), self.sources(text)
            for start, until in stretches(events, chance, 12):
                wanted = between(events, start, until)
                recording = quiet(histdesk.read, chance.choice(sources)(), start=at_micros(start), until=at_micros(until))
                self.assertEqual(held(recording), counted_anew(wanted) if start is not None else places(wanted))
                ends = (wanted[0].stamp, wanted[-1].stamp) if wanted else (None, None)
                self.assertEqual(recording.taken, Part(len(wanted), *ends, None))
                is_first = not wanted or wanted[0] == events[0]
                self.assertEqual(recording.lines_from, None if is_first or start is None else wanted[0].stamp)

    def test_waits(self):
        """Waits are those of the lines, and doubtful if anything was lost in their time, wherever a line reports it, or if the
        lines show that something is missing."""
        self.small_parts()
        chance, doubtful = random.Random(2), 0
        for text in texts():
            events, sources = events_of(text), self.sources(text)
            for start, until in stretches(events, chance, 12):
                wanted = between(events, start, until)
                want = waits_between(text, events, wanted) if wanted else []
                found = quiet(
                    histdesk.waits,
                    quiet(histdesk.read, chance.choice(sources)(), start=at_micros(start), until=at_micros(until)),
                )
                self.assertEqual(told(found), want, (start, until))
                doubtful += sum(wait.doubtful for wait in want)
        self.assertGreater(doubtful, 50)

    def test_cpus_that_begin_late(self):
        """A CPU that begins late, by what events show, does so only if the stretch begins with the recording."""
        lines = [waking(0, 1000, 7), waking(0, 1100, 8), switch(1, 1900, "b-8", "c-9"), switch(0, 2000, "a-6", "p-7")]
        path = self.file(text_of(lines))
        hole = histdesk.Hole(1, None, 1900)
        for start, until, holes in [(None, None, [hole]), (None, 2000, [hole]), (1000, None, [hole]), (1100, None, [])]:
            recording = quiet(histdesk.read, path, start=at_micros(start), until=at_micros(until))
            for _ in range(2):
                found = quiet(histdesk.waits, recording)
                self.assertEqual((list(recording.holes), list(found.holes)), ([], holes), (start, until))
        source = quiet(histdesk.waits, path).source
        self.assertEqual(source.between(at_micros(1100), at_micros(2001)).holes, (hole,))

    def test_losses(self):
        """What was lost near a stretch is told with it, and nothing that was lost at another time."""
        lines = [waking(cpu, 1000 * at, 100 + 2 * at + cpu) for at in range(40) for cpu in (0, 1)]
        lines[40] += "\nCPU:1 [LOST 3 EVENTS]"
        path = self.file(text_of(lines))
        # CPU 1 has lost events between its event at 19 ms and that at 20 ms.
        hole = histdesk.Hole(1, 19000, 20000, 3)
        for start, until, holes in [
            (19500, 30000, [hole]),
            (10000, 19500, [hole]),
            (20000, 30000, []),
            (0, 19000, []),
            (0, 19001, [hole]),
            (19999, 20000, [hole]),
        ]:
            with warnings.catch_warnings(record=True) as warned:
                warnings.simplefilter("always")
                recording = histdesk.read(path, start=at_micros(start), until=at_micros(until))
                found = histdesk.waits(recording)
            self.assertEqual((list(recording.holes), list(found.holes)), (holes, holes), (start, until))
            self.assertEqual([str(one.message) for one in warned], [recording.warning] * len(holes))

    def test_late_cpus(self):
        """A CPU whose events begin after a stretch, and the header says that some events were overwritten."""
        lines = [waking(0, 1000 * at, 7) for at in range(4000)]
        for mark, known in [("##### CPU 3 buffer started ####\n", 2), ("", None)]:
            late = [mark + waking(3, 5000000, 9), "# CPU 3: 2 events overwritten"] if known else [waking(3, 5000000, 9)]
            path = self.file(text_of([*lines, *late], in_buffer=4001, lost=2))
            with mock.patch.object(time_range, "NEAR", 1000):
                recording = quiet(histdesk.read, path, start=at_micros(1000000), until=at_micros(2000000))
                self.assertEqual(recording.holes, (histdesk.Hole(3, None, 5000000, known),))
                self.assertIn("2 of 4003 events were overwritten", recording.warning)
                self.assertEqual(quiet(histdesk.read, path, start=at_micros(5000000)).holes, ())

    def test_other_choices(self):
        lines = [
            line("a-1", at % 2, 1000 * at, "console: x") if at % 5 == 4 else waking(at % 2, 1000 * at, at) for at in range(100)
        ]
        path = self.file(text_of(lines))
        events = between(events_of(text_of(lines)), 30000, 60000)
        others = [event for event in events if event.stamp // 1000 % 5 == 4]
        recording = histdesk.read(path, start=at_micros(30000), until=at_micros(60000), events=["other"])
        anew = counted_anew(events)
        self.assertEqual(held(recording), [place for place in anew if place[0] // 1000 % 5 == 4])
        self.assertEqual(recording.taken.events, len(others))
        recording = histdesk.read(path, start=at_micros(30000), until=at_micros(60000), cpus=[1])
        self.assertEqual(held(recording), [place for place in anew if place[1] == 1])
        with self.assertRaisesRegex(ValueError, "all CPUs"):
            histdesk.waits(recording)

    def test_bad_lines(self):
        """Bad lines are refused or left out in the stretch in which they stand, by their numbers in the whole text."""
        lines = [waking(0, 1000 * at, 7) for at in range(100)]
        lines[50] += "\ntorn\na-1 [000] 0.050000: sched_waking: comm=x"
        lines[80] += "\ntorn"
        text = text_of(lines)
        numbers = [number for number, content in enumerate(text.split(b"\n"), 1) if b"torn" in content or b"=x" in content]
        path = self.file(text)
        self.assertEqual(
            held(histdesk.read(path, start=at_micros(51000), until=at_micros(80000))),
            [(1000 * at, 0, at - 50) for at in range(51, 80)],
        )
        for source in (path, self.file(gzip.compress(text), "packed")):
            recording = histdesk.read(source, start=at_micros(40000), until=at_micros(60000))
            for call in (recording.desk, lambda: histdesk.waits(recording)):
                with self.assertRaises(Refused) as caught:
                    call()
                self.assertEqual((caught.exception.line, caught.exception.path), (numbers[0], source))
                self.assertIn(f"line {numbers[0]}", str(caught.exception))
                if hasattr(caught.exception, "__notes__"):
                    self.assertEqual(caught.exception.__notes__, ["torn"])
            recording = histdesk.read(source, start=at_micros(40000), until=at_micros(60000), lenient=True)
            self.assertEqual((recording.bad_lines, len(held(recording))), (tuple(numbers[:2]), 20))
            self.assertEqual(histdesk.waits(recording).bad_lines, 2)
        self.assertEqual(histdesk.read(text, lenient=True).bad_lines, tuple(numbers))

    def test_only_what_it_needs(self):
        """A slice costs a few reads of some kilobytes, wherever it is."""
        text = text_of([waking(at % 4, 100 * at, 7) for at in range(60000)])
        path = self.file(text)
        real, read = trace_text.FileText.pieces, []
        for start in (0, 100, 3000000, 5999000):

            def seen(self, at=0, end=None, real=real):
                for piece in real(self, at, end):
                    read.append(len(piece))
                    yield piece

            del read[:]
            with mock.patch.object(trace_text.FileText, "pieces", seen), mock.patch.object(time_range, "NEAR", 4096):
                recording = histdesk.read(path, start=at_micros(start), until=at_micros(start + 1000))
            self.assertEqual(recording.taken.events, 10)
            self.assertLess(sum(read), 200000)

    def test_any_order(self):
        """A text that isn't in the order of time is read as a whole, with the lines of the whole."""
        text = noise(5)
        events, chance = events_of(text), random.Random(3)
        for start, until in stretches(events, chance, 10):
            recording = quiet(histdesk.read, self.file(text), start=at_micros(start), until=at_micros(until))
            self.assertEqual(held(recording), places(between(events, start, until)))
            self.assertIsNone(recording.lines_from)
        # Two events out of order, where no look at the text meets them: only the stream sees that.
        lines = [waking(0, 1000 * at, 7) for at in range(3000)]
        lines[1500], lines[1501] = lines[1501], switch(0, 1500000, "a-1", "w-7")
        text = text_of(lines)
        found = histdesk.waits(histdesk.read(self.file(text), start=at_micros(1400000), until=at_micros(1600000)))
        self.assertEqual((found.lines_from, found.held.events), (None, 200))
        self.assertEqual([(wait.begin, wait.end) for wait in told(found)], [((1499000, 0, 1500), (1500000, 0, 1502))])

    def test_nothing(self):
        for text in (b"", b"# tracer: nop\n", b"\n\n", text_of([waking(0, 5, 7)])):
            for source in self.sources(text):
                for start, until in ((100, None), (100, 200), (200, 100), (None, 3)):
                    recording = histdesk.read(source(), start=at_micros(start), until=at_micros(until))
                    self.assertEqual((held(recording), recording.taken), ([], Part(0, None, None, None)))
                    self.assertEqual(len(histdesk.waits(recording)), 0)


class Sources(Folder):
    """`Waits.source`, which reads slices of what the waits are of."""

    def check(self, source, events, chance):
        """Check some slices and places."""
        for start, until in stretches(events, chance, 8):
            start, until = start or 0, 1 << 50 if until is None else until
            lead = chance.choice([0, 0, 1, 5, 50])
            recording = source.between(at_micros(start), at_micros(until), lead)
            found, before = held(recording), [event for event in events if event.stamp < start]
            first = found[0][0] if found and lead else start
            self.assertEqual(found, places(between(events, min(first, start), until)))
            self.assertGreaterEqual(len(between(before, first, start)), min(lead, len(before)))
            for stamp, cpu, number in found[:5]:
                self.assertEqual(source.stamp_of(cpu, number), stamp)
                self.assertEqual(recording.line(cpu, recording.desk_line(cpu, number)), number)
        for cpu, number in ((0, 0), (0, len(events) + 1), (8191, 1)):
            self.assertIsNone(source.stamp_of(cpu, number))

    def test_slices(self):
        self.small_parts()
        chance = random.Random(4)
        for text in texts():
            events = events_of(text)
            for make in self.sources(text):
                found = quiet(histdesk.waits, make())
                self.check(found.source, events, chance)
                self.assertEqual(found.source.between(at_micros(0), at_micros(1 << 50)).holes, found.holes)

    def test_of_a_stretch(self):
        """Waits of a stretch of time have a source, too, with the lines of the stretch."""
        self.small_parts()
        chance = random.Random(5)
        for text in texts():
            events = events_of(text)
            for start, until in stretches(events, chance, 3):
                wanted = between(events, start, until)
                if wanted:
                    found = quiet(
                        histdesk.waits, quiet(histdesk.read, self.file(text), start=at_micros(start), until=at_micros(until))
                    )
                    anew = {event.cpu: event.line - 1 for event in reversed(wanted)} if start is not None else {}
                    moved = [event._replace(line=event.line - anew.get(event.cpu, 0)) for event in wanted]
                    self.check(found.source, moved, chance)

    def test_without_bad_lines(self):
        """Lines that were left out of the waits are left out of slices."""
        self.small_parts()
        known = recordings.simulated(4)
        lines, chance = known.text.split(b"\n"), random.Random(6)
        for at in sorted(chance.sample(range(12, len(lines)), 30), reverse=True):
            lines.insert(at, chance.choice([b"torn", b"a-1 [000] 1.000000: sched_waking: comm=x\r", b"x" * 5000]))
        lines.insert(100, b"a-1 [000] 0.000001: console: y\r")
        text = in_time(b"\n".join(lines))
        bad = [number for number, content in enumerate(text.split(b"\n"), 1) if content[:4] in (b"torn", b"a-1 ", b"xxxx")]
        bad = [number for number in bad if b"console" not in text.split(b"\n")[number - 1]]
        events = [event for event in events_of(text) if event.number + 1 not in bad]
        found = histdesk.waits(self.file(text), lenient=True)
        self.assertEqual((found.bad_lines, found.held.events), (len(bad), len(events)))
        self.assertEqual(held(found.source.between(at_micros(0), at_micros(1 << 50))), places(recounted(events)))
        self.assertEqual(found.source.between(at_micros(0), at_micros(1 << 50)).bad_lines, tuple(bad))

    def test_pipe(self):
        """The path of a pipe, which can be read once; what came by it is kept, in a file if it is long."""
        text = recordings.simulated(5).text
        events = events_of(text)
        for kept in (1 << 24, 100):
            for call in (
                lambda path: histdesk.waits(path).source.between(at_micros(0), at_micros(1 << 50)),
                lambda path: histdesk.read(path, start=at_micros(0)),
                histdesk.read,
            ):
                path = os.path.join(self.folder, "pipe")
                os.mkfifo(path)
                writer = ["sh", "-c", 'cat "$1" >"$2"', "-", self.file(text), path]
                with subprocess.Popen(writer), mock.patch.object(trace_text, "KEPT", kept):
                    recording = quiet(call, path)
                os.unlink(path)
                self.assertEqual(held_quietly(recording), places(events))

    def test_changed(self):
        text = recordings.simulated(1).text
        path = self.file(text)
        found = histdesk.waits(path)
        # What comes after its end isn't read.
        self.file(text + text[-200:])
        self.assertEqual(held(found.source.between(at_micros(0), at_micros(1 << 50))), places(events_of(text)))
        for changed in (text[:-1], b"#" + text[1:]):
            self.file(changed)
            os.utime(path, (1, 1))
            with self.assertRaisesRegex(ValueError, "my.trace has changed since it was read"):
                found.source.between(at_micros(0), at_micros(1 << 50))
        os.unlink(path)
        with self.assertRaises(FileNotFoundError):
            found.source.between(at_micros(0), at_micros(1 << 50))

    def test_more_than_a_desk_holds(self):
        text = text_of([waking(0, at, 7) for at in range(100)])
        source = histdesk.waits(text).source
        with mock.patch.object(selection, "LIMIT", 10):
            recording = source.between(at_micros(20), at_micros(90), 5)
            self.assertEqual((recording.taken, recording.is_part), (Part(10, 15, 24, 25), True))
        self.assertEqual(held(recording), [(at, 0, at + 1) for at in range(15, 25)])

    def test_none(self):
        """A desk's waits have no source, and neither have pickled waits."""
        import pickle

        with histdesk.Desk() as desk:
            desk.load(recordings.kinds().text)
            self.assertIsNone(histdesk.waits(desk).source)
        found = histdesk.waits(recordings.kinds().text)
        again = pickle.loads(pickle.dumps(found))
        self.assertEqual((again.source, told(again)), (None, told(found)))
        self.assertIsNotNone(found.only(kinds=["new"]).source)


def recounted(events):
    """Events with the lines of their CPUs counted anew."""
    counts, found = {}, []
    for event in events:
        counts[event.cpu] = counts.get(event.cpu, 0) + 1
        found.append(event._replace(line=counts[event.cpu]))
    return found


class Long(Folder):
    """Files that are taken to be too long for the memory."""

    def setUp(self):
        super().setUp()
        self.small_parts()
        patch = mock.patch.object(trace_text, "LONG", 2000)
        patch.start()
        self.addCleanup(patch.stop)

    def test_waits_need_no_text(self):
        known = recordings.simulated(2, holes=2)
        for path in (self.file(known.text), self.file(gzip.compress(known.text), "packed")):
            with warnings.catch_warnings(record=True) as warned:
                warnings.simplefilter("always")
                recording = histdesk.read(path)
                self.assertEqual((warned, repr(recording)), ([], f"<histdesk.Recording of {path}; not read yet>"))
                with mock.patch.object(slices.Slice, "read_into", side_effect=AssertionError):
                    found = histdesk.waits(recording)
                histdesk.waits(recording)
            self.assertEqual([str(one.message) for one in warned], [found.warning])
            self.assertEqual(told(found), told(quiet(histdesk.waits, known.text)))
            self.assertEqual(recording.losses, quiet(histdesk.read, known.text).losses)

    def test_a_desk_holds_all(self):
        for text in texts():
            recording = quiet(histdesk.read, self.file(text))
            self.assertEqual(held_quietly(recording), places(events_of(text)))
            self.assertEqual((recording.text, recording.taken, recording.is_part), (text, None, False))
            self.assertEqual(recording.losses, quiet(histdesk.read, text).losses)

    def test_what_a_desk_holds(self):
        """As much of a file as a desk holds is read from its beginning; the same is taken of the text in memory."""
        for text in texts():
            path, spare = self.file(text), ("sched_wakeup", "other")
            for choice in ({}, {"spare": spare}, {"events": ["sched_switch", "other"]}, {"cpus": [0, 2], "spare": spare}):
                with mock.patch.object(selection, "LIMIT", 100), mock.patch.object(desk_recording, "LIMIT", 100):
                    recording, same = (quiet(histdesk.read, trace, **choice) for trace in (path, text))
                    self.assertEqual((recording.taken, recording.is_part), (same.taken, same.is_part))
                    self.assertEqual(held_quietly(recording), held_quietly(same))
                    begun = [event.stamp for event in events_of(text)]
                    if recording.taken and recording.taken.rest:
                        # The rest begins where this ends.
                        later = quiet(histdesk.read, path, **{**choice, "start": recording.taken.rest})
                        self.assertGreaterEqual(later.taken.first, recording.taken.rest)
                        self.assertIn(recording.taken.rest, begun)

    def test_lenient(self):
        lines = [waking(0, 1000 * at, 7) for at in range(100)]
        lines[30] += "\ntorn"
        lines[90] += "\ntorn"
        text = text_of(lines)
        recording, same = (histdesk.read(trace, lenient=True) for trace in (self.file(text), text))
        self.assertEqual((recording.bad_lines, recording.text), (same.bad_lines, same.text))
        recording = histdesk.read(self.file(text), start=at_micros(50000), lenient=True)
        self.assertEqual((recording.bad_lines, len(held(recording))), (same.bad_lines[1:], 50))

    def test_any_order(self):
        text = noise(8)
        self.assertEqual(told(quiet(histdesk.waits, histdesk.read(self.file(text)))), plain_waits.waits_of(text))
        late = in_time(text) + text_of([waking(0, 1001, 7)])
        for content in (text, late, gzip.compress(text)):
            with mock.patch.object(selection, "LIMIT", 100), mock.patch.object(desk_recording, "LIMIT", 100):
                recording, same = quiet(histdesk.read, self.file(content)), quiet(histdesk.read, content)
                self.assertEqual((held_quietly(recording), recording.taken), (held_quietly(same), same.taken))

    def test_what_goes_wrong(self):
        with self.assertRaises(FileNotFoundError):
            histdesk.read(os.path.join(self.folder, "none"))
        torn = histdesk.read(self.file(gzip.compress(os.urandom(3000))[:-9], "torn"))
        for call in (lambda: torn.text, lambda: histdesk.waits(torn)):
            with self.assertRaises((gzip.BadGzipFile, Refused)):
                call()


def held_quietly(recording):
    return quiet(held, recording)


class Tool(Folder):
    """tools/waits over slices, run as users run it."""

    def run_tool(self, *words, **options):
        pipes = {"stdout": subprocess.PIPE, "stderr": subprocess.PIPE}
        ran = subprocess.run([sys.executable, "-B", TOOL, *words], check=False, **pipes, **options)
        return ran.returncode, ran.stdout.decode(), ran.stderr.decode()

    def test_the_same_events(self):
        """A file, packed or not, and standard input: the same arguments name the same events."""
        text = recordings.simulated(3).text
        events = events_of(text)
        start, end = events[len(events) // 3], events[len(events) * 2 // 3]
        words = ["--from", recordings.stamp(start.stamp), "--until", recordings.stamp(end.stamp)]
        found = histdesk.waits(histdesk.read(text, start=at_micros(start.stamp), until=at_micros(end.stamp)))
        want = [(str(row.pid), str(row.end_cpu), str(row.end_line)) for row in found.table()]
        remark = f"lines are counted from {recordings.stamp(start.stamp)} on"
        for path, given in ((self.file(text), None), (self.file(gzip.compress(text), "packed"), None), ("-", text)):
            status, shown, told_of = self.run_tool(path, *words, "--top", "all", input=given)
            self.assertEqual((status, told_of), (0, ""))
            self.assertEqual((shown.split("\n")[3], shown.count("counted from")), (remark, 1))
            status, shown, told_of = self.run_tool(path, *words, "--csv", input=given)
            rows = csv.DictReader(io.StringIO(shown))
            self.assertEqual([(row["pid"], row["end_cpu"], row["end_line"]) for row in rows], want)
            self.assertEqual(told_of.split("\n")[1:], [f"waits: {path}: {remark}", ""])

    def test_any_order(self):
        text = noise(5)
        first = min(event.stamp for event in events_of(text))
        status, shown, told_of = self.run_tool(self.file(text), "--from", recordings.stamp(first + 50))
        self.assertEqual(status, 0, told_of)
        self.assertNotIn("counted from", shown)

    @unittest.skipUnless(tracing(), "not root, or no tracefs at /sys/kernel/tracing")
    def test_this_machine(self):
        path = os.path.join(self.folder, "real.trace")
        with open(path, "wb") as file:
            words = [os.path.join(os.path.dirname(TOOL), "record"), "0.5"]
            subprocess.run(words, stdout=file, stderr=subprocess.PIPE, check=True)
        with open(path, "rb") as file:
            text = file.read()
        events, chance = events_of(text), random.Random(7)
        source = quiet(histdesk.waits, path).source
        for _ in range(3):
            at = chance.randrange(len(events) * 3 // 4)
            start, until = events[at].stamp, events[at + len(events) // 5].stamp
            wanted = between(events, start, until)
            self.assertEqual(held_quietly(source.between(at_micros(start), at_micros(until))), places(wanted))
            recording = quiet(histdesk.read, path, start=at_micros(start), until=at_micros(until))
            self.assertEqual(held_quietly(recording), counted_anew(wanted))
            want = plain_waits.waits_of(lines_from(text, wanted)) if wanted else []
            found = told(quiet(histdesk.waits, recording))
            self.assertEqual([(wait.pid, wait.end) for wait in found], [(wait.pid, wait.end) for wait in want])


if __name__ == "__main__":
    sys.exit(main())
