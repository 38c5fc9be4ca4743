#!/usr/bin/env python3
"""Tests the times that the package takes and gives: seconds in any form, `timedelta`, `Stamp`, and those of DataFrames.

    python_times.py [TEST]...

The last line says how many of the tests hold."""

import datetime
import decimal
import fractions
import json
import os
import pickle
import sys
import tempfile
import unittest

# Nothing is written beside the sources.
sys.dont_write_bytecode = True

HERE = os.path.dirname(os.path.realpath(__file__))
sys.path[:0] = [os.path.realpath(os.path.join(HERE, "..", "..", "python")), os.path.join(HERE, "..", "model")]

import histdesk
import recordings
from histdesk import Stamp
from histdesk.trace import times
from python_answers import numpy, pandas, with_pandas, with_waits
from python_runner import main
from recordings import line, switch, text_of, waking

# Events at 2217.5, 2217.6 and 2218 seconds.
LINES = [
    waking(0, 2217500000, 7),
    switch(0, 2217600000, "<idle>-0", "w-7", state="R"),
    switch(0, 2218000000, "w-7", "<idle>-0"),
]
# The same time in each form.
SAME = [
    2217.6,
    "2217.6",
    "2217.600000",
    decimal.Decimal("2217.6"),
    fractions.Fraction(22176, 10),
    datetime.timedelta(seconds=2217.6),
    datetime.timedelta(microseconds=2217600000),
    Stamp(2217600000),
]
# What is no time, and what is no time of a trace.
NO_TIME = [True, b"2217.6", object(), datetime.datetime(2026, 1, 1), [1], 1j]
NO_STAMP = ["", "-1", "2217.6000001", "1e3", -1, -0.1, float("nan"), float("inf"), decimal.Decimal("NaN"), 2217600000000]


def stamps(recording):
    """The timestamps of the events that a recording has."""
    with recording.desk() as desk:
        return [event.stamp for event in desk.events()]


class Forms(unittest.TestCase):
    def test_same(self):
        for time in SAME:
            self.assertEqual(times.micros_of(time, "start"), 2217600000, repr(time))
        self.assertEqual((times.micros_of(2218, "start"), times.micros_of(None, "start")), (2218000000, None))

    def test_rounded(self):
        """Times are rounded to the nearest microsecond, since a float may not be exactly one."""
        for micros in (1, 6012001092, 4294967295999999, 123456789012345):
            self.assertEqual(times.micros_of(micros / 1e6, "start"), micros)
            self.assertEqual(times.micros_of(recordings.stamp(micros), "start"), micros)
        self.assertEqual(times.micros_of(decimal.Decimal("1.0000006"), "start"), 1000001)

    def test_of_numpy(self):
        forms = [numpy.float64(2217.6), numpy.timedelta64(2217600, "ms"), numpy.timedelta64(2217600000, "us")]
        forms.append(numpy.timedelta64(2217600000000, "ns"))
        for time in forms:
            self.assertEqual(times.micros_of(time, "start"), 2217600000, repr(time))
        self.assertEqual(times.micros_of(numpy.int64(2218), "start"), 2218000000)
        self.assertEqual(times.micros_of(numpy.timedelta64(1600, "ns"), "start"), 2)
        for time in (numpy.timedelta64("NaT"), numpy.timedelta64(5)):
            with self.assertRaises(ValueError):
                times.micros_of(time, "start")

    @with_pandas
    def test_of_pandas(self):
        self.assertEqual(times.micros_of(pandas.Timedelta("2217.6s"), "start"), 2217600000)
        self.assertEqual(times.micros_of(pandas.Timedelta(1600, "ns"), "start"), 2)
        with self.assertRaises(TypeError):
            times.micros_of(pandas.NaT, "start")

    def test_wrong(self):
        for time in NO_TIME:
            with self.assertRaisesRegex(TypeError, "until is a number of seconds"):
                times.micros_of(time, "until")
        for time in NO_STAMP:
            with self.assertRaisesRegex(ValueError, "until=.* is no timestamp"):
                times.micros_of(time, "until")


class Stamps(unittest.TestCase):
    def test_number(self):
        stamp = Stamp(6012001092)
        self.assertEqual((stamp, str(stamp), f"{stamp}", repr(stamp)), (6012001092, "6012.001092", "6012.001092", "6012001092"))
        self.assertEqual((stamp - 92, type(stamp - 92), json.dumps([stamp])), (6012001000, int, "[6012001092]"))
        again = pickle.loads(pickle.dumps(stamp))
        self.assertEqual((again, type(again)), (stamp, Stamp))

    def test_in_answers(self):
        """Each timestamp of an answer can be passed as it is."""
        text = text_of(LINES)
        waits = histdesk.waits(text)
        wait = waits[0]
        for stamp in (wait.begin.stamp, wait.end.stamp, waits.held.first, waits.held.last, waits.table()[0].end_stamp):
            self.assertIs(type(stamp), Stamp)
            self.assertEqual(stamps(histdesk.read(text, start=stamp))[0], stamp)
        part = histdesk.read(text, start=wait.end.stamp)
        self.assertEqual((type(part.lines_from), part.lines_from), (Stamp, 2217600000))
        hole = histdesk.waits(recordings.lost_in_middle().text).holes[0]
        self.assertEqual((type(hole.after), type(hole.before)), (Stamp, Stamp))


class Read(unittest.TestCase):
    def test_each_form(self):
        text = text_of(LINES)
        for time in SAME:
            self.assertEqual(stamps(histdesk.read(text, start=time)), [2217600000, 2218000000])
            self.assertEqual(stamps(histdesk.read(text, until=time)), [2217500000])
        self.assertEqual(stamps(histdesk.read(text, start=2218)), [2218000000])
        self.assertEqual(stamps(histdesk.read(text, start=0, until=2218)), [2217500000, 2217600000])
        source = histdesk.waits(text).source
        self.assertEqual(stamps(source.between(2217.55, "2218")), [2217600000])

    def test_of_many(self):
        with tempfile.TemporaryDirectory() as folder:
            path = os.path.join(folder, "my.trace")
            with open(path, "wb") as file:
                file.write(text_of(LINES))
            for ask, words in ((histdesk.AskWaits("kind"), {"until": 2218}), (histdesk.AskWaits("kind"), {"start": "2217.5"})):
                self.assertEqual(histdesk.many([path], ask, processes=0, **words).answer.count, 1)
            self.assertEqual(histdesk.many([path], histdesk.AskWaits(), processes=0, start=2217.6).answer.count, 0)

    def test_microseconds_by_mistake(self):
        """A whole number that is in the trace's time as microseconds, and after its end as seconds."""
        text = text_of(LINES)
        for words in ({"start": 2217600000}, {"until": 2217600000}, {"start": numpy.int64(2217600000)}):
            with self.assertRaisesRegex(ValueError, "ends at 2218.000000; for microseconds, pass timedelta"):
                histdesk.read(text, **words)
            with self.assertRaisesRegex(ValueError, "for microseconds"):
                histdesk.waits(text).source.between(**{"start": 0, "until": 1, **words})
        self.assertEqual(stamps(histdesk.read(text, start=4000)), [])

    def test_timedelta_of_numpy(self):
        """A timedelta of any unit is as long as it says; none is taken for seconds."""
        text = text_of([line("a-1", 0, 2000100, "x: y"), line("a-1", 0, 2500100, "x: y")])
        for count, unit in ((2100, "ms"), (2100000, "us"), (2100000000, "ns")):
            self.assertEqual(histdesk.read(text, start=numpy.timedelta64(count, unit)).taken.events, 1)
        self.assertEqual(histdesk.read(text, start=numpy.timedelta64(2, "s")).taken.events, 2)

    def test_stamp_in_a_field(self):
        stamp = histdesk.Stamp(6012001092)
        self.assertEqual((f"{stamp:>12}", f"{stamp:d}"), (" 6012.001092", "6012001092"))

    def test_wrong(self):
        for words in ({"start": "x"}, {"until": -1}):
            with self.assertRaises(ValueError):
                histdesk.read(text_of(LINES), **words)
        with self.assertRaises(TypeError):
            histdesk.read(text_of(LINES), start=b"1")


@with_pandas
class Frames(unittest.TestCase):
    def check(self, frame, plain, columns):
        """Check that these columns are times, of as many microseconds as in another frame."""
        for column in columns:
            self.assertEqual(str(frame[column].dtype), "timedelta64[ns]", column)
            wanted = [pandas.NaT if pandas.isna(value) else value for value in plain[column].astype(object)]
            found = [value if value is pandas.NaT else value / pandas.Timedelta(microseconds=1) for value in frame[column]]
            # Nothing is finer than a nanosecond.
            exact = [value if value is pandas.NaT else round(float(value), 3) for value in wanted]
            self.assertEqual(list(map(str, found)), list(map(str, exact)))
        rest = [column for column in plain.columns if column not in columns]
        pandas.testing.assert_frame_equal(frame[rest], plain[rest])

    def test_waits(self):
        waits = histdesk.waits(recordings.hole_at_start().text)
        self.check(waits.to_pandas(times="timedelta"), waits.to_pandas(), ["begin_stamp", "end_stamp", "micros"])
        columns = ["total", "mean", "p50", "p90", "p99", "max", "end_stamp"]
        self.check(waits.to_pandas("task", times="timedelta"), waits.to_pandas("task"), columns)
        with self.assertRaisesRegex(ValueError, "'micros' or 'timedelta'"):
            waits.to_pandas(times="seconds")

    def test_summary(self):
        answer = histdesk.summary(recordings.kinds().text)
        columns = ["run_time", "total", "mean", "p99", "max", "end_stamp"]
        self.check(answer.to_pandas(times="timedelta"), answer.to_pandas(), columns)
        columns = [
            "busy",
            "idle",
            "idle_with_waiters",
            "longest",
            "longest_from",
            "unknown",
            "total",
            "mean",
            "p99",
            "max",
            "end_stamp",
        ]
        self.check(answer.to_pandas("cpu", times="timedelta"), answer.to_pandas("cpu"), columns)

    def test_desk(self):
        desk, _, reader = with_waits()
        self.check(desk.to_pandas(times="timedelta"), desk.to_pandas(), ["stamp"])
        columns = ["saved_stamp", "read_stamp", "micros"]
        self.check(reader.latencies_to_pandas(times="timedelta"), reader.latencies_to_pandas(), columns)

    def test_difference(self):
        change = histdesk.diff(recordings.kinds().text, without="sched_waking if pid == 10")
        sides = [f"{figure}_{side}" for figure in ("mean", "p50", "p90", "p99", "max") for side in ("before", "after")]
        self.check(change.to_pandas(times="timedelta"), change.to_pandas(), sides)

    def test_categories(self):
        desk, _, reader = with_waits()
        events = desk.to_pandas()
        for column in ("name", "task", "comm", "prev_comm", "prev_state", "cpu", "target_cpu"):
            self.assertEqual(str(events[column].dtype), "category", column)
        self.assertEqual(events.prev_state.dropna().tolist(), ["S", "R+"])
        self.assertEqual(
            (events[events.cpu > 0].cpu.tolist(), events[events.cpu == 1].name.tolist()), ([1, 1], ["sched_waking"] * 2)
        )
        self.assertEqual({str(kind) for kind in reader.latencies_to_pandas().dtypes}, {"int64", "category"})
        waits = histdesk.waits(recordings.kinds().text).to_pandas()
        for column in ("task", "kind", "begin_cpu", "end_cpu"):
            self.assertEqual(str(waits[column].dtype), "category", column)
        self.assertEqual(waits.groupby("kind", observed=True).micros.sum().to_dict(), {"preempted": 40, "woken": 63, "new": 47})


if __name__ == "__main__":
    sys.exit(main())
