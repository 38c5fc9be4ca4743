"""Compares the Python package's edits, answers and refusals on small traces with values that were written down by hand."""

import gc
import gzip
import io
import itertools
import mmap
import os
import pathlib
import pickle
import sys
import tempfile
import threading
import unittest
import warnings

import numpy

import histdesk
from histdesk import Bucket, Changed, Event, Latency, Log2, Place, Refused, Totals

try:
    import pandas
except ImportError:
    pandas = None

with_pandas = unittest.skipUnless(pandas, "pandas is missing")

TRACE = b"""\
# tracer: nop
 sim-1 [001] d.h.. 1.000100: sched_waking: comm=w pid=42 prio=120 target_cpu=000
 sim-1 [000] d.... 1.000150: sched_switch: prev_comm=sim prev_pid=1 prev_prio=120 prev_state=S ==> next_comm=w next_pid=42 next_prio=120
CPU:1 [LOST 7 EVENTS]
 sim-1 [001] d.h.. 1.000200: sched_waking: comm=x pid=7 prio=-1 target_cpu=001
my app-9 [000] d.... 1.000050: update_curr <-task_tick_fair
 sim-1 [000] d.... 1.000230: sched_switch: prev_comm=w prev_pid=42 prev_prio=120 prev_state=R+ ==> next_comm=x next_pid=7 next_prio=-1
"""
LINE = " sim-1 [001] d.h.. 1.000220: sched_waking: comm=x pid=7 prio=5 target_cpu=001"
SAVER = "hist:keys=pid:ts0=common_timestamp.usecs"
READER = "hist:keys=next_pid:vals=$lat:lat=common_timestamp.usecs-$ts0"
MAKER = READER + ":onmatch(sched.sched_waking).wakeup_latency($lat,next_pid,next_prio)"

# The events of TRACE, by hand.
OTHER = Event(1000050, 0, 2, "other", "my app", 9)
WAKING_42 = Event(1000100, 1, 1, "sched_waking", "sim", 1, "w", 42, 120, 0)
SWITCH_42 = Event(1000150, 0, 1, "sched_switch", "sim", 1, "w", 42, 120, None, "sim", 1, 120, "S")
WAKING_7 = Event(1000200, 1, 2, "sched_waking", "sim", 1, "x", 7, -1, 1)
SWITCH_7 = Event(1000230, 0, 3, "sched_switch", "sim", 1, "x", 7, -1, None, "w", 42, 120, "R+")
MERGED = [OTHER, WAKING_42, SWITCH_42, WAKING_7, SWITCH_7]
WAITS = [Latency(1000100, 1, 1, 1000150, 0, 1, 50), Latency(1000200, 1, 2, 1000230, 0, 3, 30)]


def at_micros(micros):
    """Return a timestamp in microseconds as a time for `read` and the like; None stays None."""
    return None if micros is None else histdesk.Stamp(micros)


def desk_of(trace=TRACE):
    desk = histdesk.Desk()
    desk.load(trace)
    return desk


def with_waits(reader=READER):
    """A desk with TRACE, its saver and its reader."""
    desk = desk_of()
    return desk, desk.attach("sched_waking", SAVER), desk.attach("sched_switch", reader)


def tuples(records):
    """Records of numpy, or named tuples, as tuples of plain numbers."""
    return [tuple(int(number) for number in record) for record in records]


class Loading(unittest.TestCase):
    def setUp(self):
        self.desk = histdesk.Desk()
        folder = tempfile.TemporaryDirectory()
        self.addCleanup(folder.cleanup)
        self.path = os.path.join(folder.name, "trace")

    def put(self, content):
        with open(self.path, "wb") as file:
            file.write(content)
        return self.path

    def loads(self, trace):
        self.assertEqual(self.desk.load(trace), 5)
        self.assertEqual(list(self.desk.events()), MERGED)

    def test_paths(self):
        self.loads(self.put(TRACE))
        self.desk = histdesk.Desk()
        self.loads(pathlib.Path(self.path))

    def test_path_of_a_pipe(self):
        os.mkfifo(self.path)
        writer = threading.Thread(target=self.put, args=(TRACE,))
        writer.start()
        self.loads(self.path)
        writer.join()

    def test_buffers(self):
        for kind in [bytes, bytearray, memoryview]:
            self.desk = histdesk.Desk()
            self.loads(kind(TRACE))
        self.desk = histdesk.Desk()
        self.loads(memoryview(b"# not a line" + TRACE)[12:])

    def test_mapped_file(self):
        with open(self.put(TRACE), "rb") as file, mmap.mmap(file.fileno(), 0, access=mmap.ACCESS_READ) as mapped:
            mapped.seek(100)
            self.loads(mapped)

    def test_buffer_with_gaps(self):
        with self.assertRaises(BufferError):
            self.desk.load(memoryview(TRACE)[::2])
        self.assertEqual(self.desk.cpus(), {})

    def test_open_files(self):
        with open(self.put(TRACE), "rb") as file:
            self.loads(file)
        self.desk = histdesk.Desk()
        with open(self.path, encoding="ascii") as file:
            self.loads(file)
        self.desk = histdesk.Desk()
        self.loads(io.BytesIO(TRACE))
        self.desk = histdesk.Desk()
        self.loads(io.StringIO(TRACE.decode()))

    def test_an_open_file_from_where_it_stands(self):
        file = io.BytesIO(b"not a line\n" + TRACE)
        file.readline()
        self.loads(file)

    def test_packed(self):
        packed = gzip.compress(TRACE[:100]) + gzip.compress(TRACE[100:])
        for trace in [self.put(packed), packed, bytearray(packed), io.BytesIO(packed)]:
            self.desk = histdesk.Desk()
            self.loads(trace)
        self.desk = histdesk.Desk()
        with gzip.open(self.path) as file:
            self.loads(file)

    def test_packed_and_torn(self):
        packed = gzip.compress(TRACE)
        for torn in [packed[:-9], packed[:20], packed[:40] + b"\xff" * 40, b"\x1f\x8b\x08"]:
            with self.assertRaises(OSError):
                self.desk.load(torn)
        self.assertEqual(len(self.desk.events()), 0)

    def test_not_packed(self):
        # A task's name may begin as packed data does, except for the third byte.
        self.assertEqual(self.desk.load(b"\x1f\x8b-1 [000] 1.000000:"), 1)
        self.assertEqual(self.desk.event(0, 1).task, "\x1f\udc8b")

    def test_empty(self):
        for trace in [b"", bytearray(), memoryview(b""), io.BytesIO(), self.put(b""), b"# tracer: nop\n\n", gzip.compress(b"")]:
            self.assertEqual(self.desk.load(trace), 0)
        self.assertEqual(self.desk.cpus(), {})
        self.assertEqual(list(self.desk.events()), [])

    def test_what_is_no_trace(self):
        with self.assertRaises(FileNotFoundError):
            self.desk.load(self.path)
        with self.assertRaises(IsADirectoryError):
            self.desk.load(os.path.dirname(self.path))
        for wrong in [None, 7, ["a"], 1.5]:
            with self.assertRaises(TypeError):
                self.desk.load(wrong)

    def test_last_line_without_an_end(self):
        self.loads(TRACE.rstrip(b"\n"))


class Edits(unittest.TestCase):
    def setUp(self):
        self.desk, self.saver, self.reader = with_waits(MAKER)
        self.made = self.desk.attach("wakeup_latency", "hist:keys=lat.log2,pid")

    def test_insert(self):
        edit = self.desk.insert(LINE)
        self.assertEqual((edit.cpu, edit.line, edit.deferred), (1, 3, False))
        # The wait of task 7 begins 20 us later: it is 10 us now, and was 30.
        self.assertEqual(
            sorted(edit.changed),
            [
                Changed(1, (7,)),
                Changed(2, (7,)),
                Changed(3, (4, 7)),
                Changed(3, (5, 7)),
            ],
        )
        self.assertEqual({type(row.key[0]) for row in edit.changed if row.trigger == 3}, {Log2})
        self.assertEqual(self.desk.event(1, 3), Event(1000220, 1, 3, "sched_waking", "sim", 1, "x", 7, 5, 1))
        self.assertEqual(tuples(self.reader.latencies())[1], (1000220, 1, 3, 1000230, 0, 3, 10))

    def test_insert_of_bytes(self):
        self.assertEqual(self.desk.insert(LINE.encode())[:2], (1, 3))
        self.assertEqual(self.desk.insert(bytearray(LINE.encode()))[:2], (1, 4))

    def test_strike(self):
        edit = self.desk.strike(1, 1)
        self.assertEqual((edit.cpu, edit.line, edit.deferred), (1, 1, False))
        self.assertEqual(sorted(edit.changed), [Changed(1, (42,)), Changed(2, (42,)), Changed(3, (6, 42))])
        self.assertIsNone(self.desk.event(1, 1))
        self.assertEqual(tuples(self.reader.latencies()), [tuple(WAITS[1])])

    def test_strikes_of_events(self):
        rows = {*self.desk.strike(1, 1).changed, *self.desk.strike(1, 2).changed}
        self.setUp()
        places = self.desk.matching("sched_waking", "pid > 0")
        edits = self.desk.strike_events(places)
        self.assertEqual((edits.struck, edits.deferred), (2, False))
        # These are all rows that the strikes may have changed one by one, each named once.
        self.assertEqual(len(edits.changed), len({*edits.changed}))
        self.assertEqual({*edits.changed}, rows)
        self.assertGreaterEqual(rows, {Changed(number, (pid,)) for number in (1, 2) for pid in (7, 42)})
        self.assertGreaterEqual(rows, {Changed(3, (6, 42)), Changed(3, (5, 7))})
        self.assertEqual(list(self.desk.events()), [OTHER, SWITCH_42, SWITCH_7])
        self.assertEqual((self.saver.rows(), tuples(self.reader.latencies()), self.made.rows()), ([], [], []))

    def test_strikes_of_no_event(self):
        self.assertEqual(self.desk.strike_events(self.desk.matching("sched_waking", "pid == 6")), (0, [], False))
        self.assertEqual(self.desk.strike_events([]), (0, [], False))
        self.assertEqual(list(self.desk.events()), MERGED)

    def test_strikes_of_events_one_by_one(self):
        edits = self.desk.strike_events(event for event in MERGED if event.cpu == 0)
        self.assertEqual((edits.struck, list(self.desk.events())), (3, [WAKING_42, WAKING_7]))
        with self.assertRaises(ValueError):
            self.desk.strike_events([Place(0, 1, 1), Place(0, 1, -1)])
        with self.assertRaises(TypeError):
            self.desk.strike_events([Place(0, 1, 1), Place(0, 1, "2")])
        self.assertEqual(list(self.desk.events()), [WAKING_42, WAKING_7])

    def test_strikes_of_arrays(self):
        every_second = self.desk.matching("sched_switch", "next_pid > 0")[::2]
        self.assertEqual(self.desk.strike_events(every_second).struck, 1)
        self.assertEqual(self.desk.strike_events(self.desk.events(1).array).struck, 2)
        self.assertEqual(list(self.desk.events()), [OTHER, SWITCH_7])

    def test_edit_that_changes_no_row(self):
        self.assertEqual(self.desk.strike(0, 2).changed, [])

    def test_changed_keys_of_each_kind(self):
        desk = histdesk.Desk()
        desk.attach("sched_waking", "hist:keys=comm,pid.buckets=16,prio.hex")
        (changed,) = desk.insert(LINE).changed
        self.assertEqual(changed, Changed(1, ("x", 0, 5)))
        self.assertEqual([type(part) for part in changed.key], [str, Bucket, int])
        self.assertEqual(changed.key[1].high, 15)

    def test_unload(self):
        self.assertEqual(self.desk.unload(1), 2)
        self.assertEqual(self.desk.cpus(), {0: 3})
        self.assertEqual(self.desk.insert(LINE)[:2], (1, 1))

    def test_cpus(self):
        self.assertEqual(self.desk.cpus(), {0: 3, 1: 2})
        self.desk.strike(1, 1)
        self.desk.strike(1, 2)
        self.assertEqual(self.desk.cpus(), {0: 3, 1: 0})
        self.desk.insert(LINE.replace("[001]", "[8191]"))
        self.assertEqual(self.desk.cpus(), {0: 3, 1: 0, 8191: 1})

    def test_is_deferred(self):
        self.assertIs(self.desk.is_deferred, False)

    def test_numbers_out_of_range(self):
        for edit in [lambda: self.desk.strike(-1, 1), lambda: self.desk.strike(0, 2**32), lambda: self.desk.unload(2**64)]:
            with self.assertRaises(ValueError):
                edit()
        for edit in [lambda: self.desk.strike("0", 1), lambda: self.desk.strike(0, 1.0), lambda: self.desk.unload(None)]:
            with self.assertRaises(TypeError):
                edit()
        self.assertEqual(self.desk.cpus(), {0: 3, 1: 2})

    def test_texts_of_other_types(self):
        for edit in [lambda: self.desk.insert(None), lambda: self.desk.attach("sched_waking", 7)]:
            with self.assertRaises(TypeError):
                edit()


class Triggers(unittest.TestCase):
    def setUp(self):
        self.desk, self.saver, self.reader = with_waits()

    def test_attached(self):
        self.assertEqual((self.saver.id, self.saver.event), (1, "sched_waking"))
        self.assertEqual((self.reader.id, self.reader.event), (2, "sched_switch"))
        self.assertEqual(self.desk.triggers(), [self.saver, self.reader])
        self.assertEqual(self.desk.trigger(2), self.reader)
        self.assertEqual(self.desk.trigger(2).event, "sched_switch")
        self.assertNotEqual(self.saver, self.reader)
        self.assertEqual(len({self.saver, self.desk.trigger(1), self.reader}), 2)
        self.assertNotEqual(histdesk.Desk().triggers(), self.desk.triggers())

    def test_canonical(self):
        self.assertEqual(self.saver.canonical, "hist:keys=pid:vals=hitcount:ts0=common_timestamp.usecs:sort=hitcount:size=2048")
        trigger = self.desk.attach("sched_waking", b"hist:key=pid:sort=pid.descending:size=100 if prio<0x64&&comm~'w*'")
        self.assertEqual(
            trigger.canonical, 'hist:keys=pid:vals=hitcount:sort=pid.descending:size=128 if prio < 100 && comm ~ "w*"'
        )

    def test_text(self):
        self.assertEqual(
            self.reader.text(),
            """\
# event histogram
#
# trigger info: hist:keys=next_pid:vals=hitcount,$lat:lat=common_timestamp.usecs-$ts0:sort=hitcount:size=2048 [active]
#

{ next_pid:          7 } hitcount:          1  lat:         30
{ next_pid:         42 } hitcount:          1  lat:         50

Totals:
    Hits: 2
    Entries: 2
    Dropped: 0
""",
        )

    def test_totals(self):
        self.assertEqual(self.reader.totals(), Totals(hits=2, entries=2, dropped=0))

    def test_rows(self):
        rows = self.reader.rows()
        self.assertEqual(rows, [(7, 1, 30), (42, 1, 50)])
        self.assertEqual(rows[1]._asdict(), {"next_pid": 42, "hitcount": 1, "lat": 50})
        self.assertEqual((rows[0].next_pid, rows[0].hitcount, rows[0].lat), (7, 1, 30))
        self.assertEqual({type(number) for row in rows for number in row}, {int})
        self.assertEqual(self.reader.names, ("next_pid", "hitcount", "lat"))

    def test_rows_with_signs(self):
        trigger = self.desk.attach("sched_waking", "hist:keys=prio:vals=prio,pid:sort=prio")
        # Sums are modulo 2^64.
        self.assertEqual([tuple(row) for row in trigger.rows()], [(-1, 1, 2**64 - 1, 7), (120, 1, 120, 42)])
        self.assertEqual(trigger.names, ("prio", "hitcount", "prio_sum", "pid"))
        self.assertEqual([row.prio_sum for row in trigger.rows()], [2**64 - 1, 120])
        trigger = self.desk.attach("sched_waking", "hist:keys=prio.hex:sort=prio.descending")
        self.assertEqual([row.prio for row in trigger.rows()], [120, -1])

    def test_rows_by_powers_of_two(self):
        trigger = self.desk.attach("sched_waking", "hist:keys=prio.log2:sort=prio")
        self.assertEqual(trigger.rows(), [(7, 1), (64, 1)])
        prio = trigger.rows()[0].prio
        self.assertEqual((type(prio), prio.low, prio.high, str(prio), repr(prio)), (Log2, 65, 128, "2^7", "Log2(7)"))
        self.assertEqual(trigger.rows()[1].prio.high, 2**64 - 1)
        self.assertEqual([(Log2(n).low, Log2(n).high) for n in range(4)], [(0, 1), (2, 2), (3, 4), (5, 8)])

    def test_rows_by_buckets(self):
        trigger = self.desk.attach("sched_waking", "hist:keys=prio.buckets=50:sort=prio")
        prios = [row.prio for row in trigger.rows()]
        self.assertEqual(prios, [100, 2**64 - 1 - (2**64 - 1) % 50])
        self.assertEqual([(type(prio), prio.size, str(prio)) for prio in prios[:1]], [(Bucket, 50, "100-149")])
        self.assertEqual((prios[0].low, prios[0].high, prios[1].high), (100, 149, 2**64 - 1))
        self.assertEqual(repr(prios[0]), "Bucket(100, 50)")

    def test_rows_by_names(self):
        trigger = self.desk.attach("sched_switch", "hist:keys=prev_comm,next_comm,prev_state:sort=prev_comm")
        self.assertEqual(trigger.rows(), [("sim", "w", "S", 1), ("w", "x", "R+", 1)])

    def test_names_that_python_does_not_take(self):
        for name, attribute in [("class", "class_"), ("_x", "_2"), ("count", "count")]:
            trigger = self.desk.attach("sched_waking", f"hist:keys=pid:vals=${name}:{name}=common_timestamp.usecs if pid==42")
            self.assertEqual(trigger.names, ("pid", "hitcount", name))
            self.assertEqual(getattr(trigger.rows()[0], attribute), 1000100)

    def test_a_sum_named_as_another(self):
        trigger = self.desk.attach("sched_waking", "hist:keys=pid:vals=pid,$pid_sum:pid_sum=common_timestamp.usecs if pid==42")
        self.assertEqual(trigger.names, ("pid", "hitcount", "pid_sum", "pid_sum_"))
        self.assertEqual(trigger.rows(), [(42, 1, 42, 1000100)])

    def test_table_without_rows(self):
        trigger = self.desk.attach("sched_wakeup", "hist:keys=pid")
        self.assertEqual((trigger.rows(), trigger.totals()), ([], Totals(0, 0, 0)))

    def test_latencies(self):
        latencies = self.reader.latencies()
        self.assertEqual(tuples(latencies), [tuple(wait) for wait in WAITS])
        self.assertEqual([int(latency.micros) for latency in latencies], [50, 30])
        self.assertEqual((latencies[0].saved_cpu, latencies[0].saved_line, latencies[0].read_stamp), (1, 1, 1000150))

    def test_latencies_that_are_none(self):
        self.desk.unload(1)
        self.assertEqual(len(self.reader.latencies()), 0)

    def test_latencies_in_numpy(self):
        latencies = self.reader.latencies()
        self.assertIsInstance(latencies, numpy.recarray)
        self.assertEqual(latencies.dtype.itemsize, 40)
        self.assertEqual(latencies.dtype.names, Latency._fields)
        self.assertEqual(latencies.micros.tolist(), [50, 30])
        self.assertEqual((latencies.saved_stamp - latencies.read_stamp).tolist(), [-50, -30])
        latencies.micros[0] = 1
        self.assertEqual(self.reader.latencies().micros[0], 50)

    def test_filter(self):
        self.assertIsNone(self.reader.filter)
        self.reader.filter = "next_prio<0x64 || next_comm == 'y'"
        self.assertEqual(self.reader.filter, 'next_prio < 100 || next_comm == "y"')
        self.assertEqual(self.reader.rows(), [(7, 1, 30)])
        self.reader.filter = b"next_pid == 42"
        self.assertEqual(self.reader.rows(), [(42, 1, 50)])
        with self.assertRaises(Refused):
            self.reader.filter = "next_pid = 42"
        self.assertEqual(self.reader.filter, "next_pid == 42")
        self.reader.filter = None
        self.assertIsNone(self.reader.filter)
        self.assertEqual(len(self.reader.rows()), 2)

    def test_filter_with_if_in_it(self):
        self.reader.filter = "next_comm == ' if '"
        self.assertEqual(self.reader.filter, 'next_comm == " if "')

    def test_remove(self):
        self.reader.remove()
        self.assertEqual(self.desk.triggers(), [self.saver])
        calls = [self.reader.rows, self.reader.text, self.reader.totals, self.reader.latencies, self.reader.remove]
        for call in [*calls, lambda: self.reader.canonical, lambda: self.reader.filter, lambda: self.desk.trigger(2)]:
            with self.assertRaises(Refused) as caught:
                call()
            self.assertEqual(caught.exception.number, 10)
        self.assertEqual(self.desk.attach("sched_switch", READER).id, 3)

    def test_a_trigger_outlives_its_desk(self):
        trigger = desk_of().attach("sched_waking", "hist:keys=pid")
        gc.collect()
        self.assertEqual(trigger.totals().hits, 2)

    def test_made_events(self):
        self.reader.remove()
        reader = self.desk.attach("sched_switch", MAKER)
        made = self.desk.attach("wakeup_latency", "hist:keys=lat:vals=pid,prio:sort=lat if pid > 0")
        self.assertEqual((reader.event, made.event, made.id), ("sched_switch", "wakeup_latency", 4))
        self.assertEqual(made.rows(), [(30, 1, 7, 2**64 - 1), (50, 1, 42, 120)])
        self.assertEqual(made.filter, "pid > 0")


class Held(unittest.TestCase):
    def setUp(self):
        self.desk = desk_of()

    def test_events(self):
        events = self.desk.events()
        self.assertEqual(list(events), MERGED)
        self.assertEqual((len(events), events[0], events[-1]), (5, OTHER, SWITCH_7))
        self.assertEqual(list(events[1:3]), MERGED[1:3])
        self.assertEqual(list(events[::-2]), MERGED[::-2])
        self.assertEqual(list(events[3:3]), [])
        self.assertEqual(events[1:4][1], MERGED[2])
        self.assertIn(WAKING_7, events)
        self.assertEqual(events.index(WAKING_7), 3)
        self.assertEqual((events == self.desk.events(), events == events[:4], events == 5), (True, False, False))
        for wrong in [5, -6]:
            with self.assertRaises(IndexError):
                events[wrong]
        with self.assertRaises(TypeError):
            events[1.0]

    def test_columns(self):
        events = self.desk.events()
        self.assertEqual([int(stamp) for stamp in events["stamp"]], [event.stamp for event in MERGED])
        self.assertEqual(events["name"][:2], ["other", "sched_waking"])
        self.assertEqual(events["comm"], [None, "w", "w", "x", "x"])
        self.assertEqual(events["prev_state"], [None, None, "S", None, "R+"])
        # What a switch runs also has the kernel's own names; other events have none of these.
        self.assertEqual([event.next_pid for event in events], [None, None, 42, None, 7])
        self.assertEqual([event.next_comm for event in events], [None, None, "w", None, "x"])
        self.assertEqual([event.next_prio for event in events], [None, None, 120, None, -1])
        self.assertEqual(events["next_pid"].tolist(), [0, 0, 42, 0, 7])
        self.assertEqual(events["next_prio"].tolist(), [0, 0, 120, 0, -1])
        self.assertEqual(events["next_comm"], [None, None, "w", None, "x"])
        with self.assertRaises(KeyError):
            events["pid_next"]

    def test_events_stay_as_they_were(self):
        events = self.desk.events()
        self.desk.unload(1)
        self.desk.close()
        self.assertEqual(list(events), MERGED)

    def test_events_of_a_cpu(self):
        self.assertEqual(list(self.desk.events(0)), [SWITCH_42, OTHER, SWITCH_7])
        self.assertEqual(list(self.desk.events(cpu=0, from_line=2)), [OTHER, SWITCH_7])
        self.assertEqual(list(self.desk.events(0, 4)), [])
        with self.assertRaises(ValueError):
            self.desk.events(from_line=2)
        with self.assertRaises(ValueError):
            self.desk.events(0, -1)

    def test_event(self):
        self.assertEqual(self.desk.event(1, 2), WAKING_7)
        for place in [(1, 3), (1, 0), (2, 1), (2**32 - 1, 1)]:
            self.assertIsNone(self.desk.event(*place))

    def test_list(self):
        self.assertEqual(
            self.desk.list(1),
            "1:1 sim-1 [001] 1.000100: sched_waking: comm=w pid=42 prio=120 target_cpu=000\n"
            "1:2 sim-1 [001] 1.000200: sched_waking: comm=x pid=7 prio=-1 target_cpu=001\n",
        )

    def test_matching(self):
        places = self.desk.matching("sched_switch", "next_prio < 100 || prev_comm == 'sim'")
        self.assertEqual(tuples(places), [(1000150, 0, 1), (1000230, 0, 3)])
        self.assertEqual((places[0].stamp, places[0].cpu, places[0].line), (1000150, 0, 1))
        self.assertEqual(len(self.desk.matching("sched_wakeup", "pid > 0")), 0)
        self.assertEqual(list(self.desk.events_matching("sched_waking", b"pid < 10")), [WAKING_7])

    def test_in_numpy(self):
        places = self.desk.matching("sched_waking", "pid < 10")
        self.assertEqual((places.dtype.itemsize, places.dtype.names), (16, Place._fields))
        events = self.desk.events()
        array = events.array
        self.assertEqual((array.dtype.itemsize, len(array), array.flags.owndata), (176, 5, False))
        self.assertEqual(array[array.name == 3].pid.tolist(), [42, 7])
        self.assertEqual(array.task.tolist(), [b"my app", b"sim", b"sim", b"sim", b"sim"])
        self.assertEqual(array.task_length.tolist(), [6, 3, 3, 3, 3])
        self.assertEqual(array.prev_state.tolist(), [b"", b"", b"S", b"", b"R+"])
        self.assertEqual(array.target_cpu.tolist(), [0, 0, 0, 1, 0])
        self.assertEqual(events[3:]["prio"].tolist(), [-1, -1])
        self.assertEqual(events[1:3].array.pid.tolist(), [42, 42])
        self.assertEqual(events[::-4].array.pid.tolist(), [7, 0])


@with_pandas
class Frames(unittest.TestCase):
    def setUp(self):
        self.desk, self.saver, self.reader = with_waits()

    def test_rows(self):
        frame = self.reader.to_pandas()
        self.assertEqual(frame.to_dict("list"), {"next_pid": [7, 42], "hitcount": [1, 1], "lat": [30, 50]})
        self.assertEqual([str(kind) for kind in frame.dtypes], ["int64", "int64", "uint64"])
        self.assertEqual(self.saver.to_pandas().to_dict("list"), {"pid": [7, 42], "hitcount": [1, 1]})

    def test_rows_of_each_kind(self):
        trigger = self.desk.attach("sched_waking", "hist:keys=comm,prio.log2,prio.buckets=50".replace("prio.b", "pid.b"))
        frame = trigger.to_pandas()
        self.assertEqual(frame.to_dict("list"), {"comm": ["w", "x"], "prio": [7, 64], "pid": [0, 0], "hitcount": [1, 1]})
        self.assertEqual([str(kind) for kind in frame.dtypes], ["object", "int64", "uint64", "int64"])

    def test_latencies(self):
        frame = self.reader.latencies_to_pandas()
        self.assertEqual(list(frame.columns), list(Latency._fields))
        self.assertEqual([tuple(row) for row in frame.itertuples(index=False)], [tuple(wait) for wait in WAITS])
        self.assertEqual({str(kind) for kind in frame.dtypes}, {"int64", "category"})

    def test_nothing(self):
        self.desk.unload(0)
        self.desk.unload(1)
        self.assertEqual(self.reader.to_pandas().shape, (0, 3))
        self.assertEqual(self.reader.latencies_to_pandas().shape, (0, 7))
        self.assertEqual(self.desk.to_pandas().shape, (0, 17))
        with self.assertRaises(Refused) as caught:
            self.saver.latencies_to_pandas()
        self.assertEqual(caught.exception.number, 17)

    def test_events(self):
        frame = self.desk.to_pandas()
        self.assertEqual(list(frame.columns), [*Event._fields, "next_comm", "next_pid", "next_prio"])
        self.assertEqual(frame.name.tolist(), [event.name for event in MERGED])
        self.assertEqual(frame.task.tolist(), [event.task for event in MERGED])
        for column in ("comm", "prev_state"):
            texts = frame[column].astype(object)
            self.assertEqual(texts.where(texts.notna(), None).tolist(), [getattr(event, column) for event in MERGED])
        self.assertEqual(frame.pid.tolist()[1:], [42, 42, 7, 7])
        self.assertEqual(frame.pid.isna().tolist(), [True, False, False, False, False])
        self.assertEqual(frame.target_cpu.isna().tolist(), [True, False, True, False, True])
        self.assertEqual(self.desk.to_pandas(1).prio.tolist(), [120, -1])
        # Only switches have what they switch to.
        self.assertEqual(frame.next_pid.isna().tolist(), [True, True, False, True, False])
        self.assertEqual((frame.next_pid.tolist()[2::2], frame.next_prio.tolist()[2::2]), ([42, 7], [120, -1]))
        self.assertEqual((frame.next_comm.tolist()[2::2], frame.next_comm.isna().sum()), (["w", "x"], 3))
        self.assertEqual(frame.stamp.tolist(), [event.stamp for event in MERGED])

    def test_zero_bytes_in_names(self):
        self.desk.insert(b"a\0b\0-1 [002] 1.000000:")
        self.desk.insert(b"a\0b-1 [002] 1.000000:")
        self.assertEqual(self.desk.to_pandas(2).task.tolist(), ["a\0b\0", "a\0b"])


class Refusals(unittest.TestCase):
    """The number of each refusal, with the details that belong to it."""

    def refused(self, call, text, **details):
        with self.assertRaises(Refused) as caught:
            call()
        refused = caught.exception
        names = ["fault", "filter_fault", "place", "line", "cpu", "trigger", "struck"]
        self.assertEqual(refused.text, text)
        self.assertEqual(refused.number, int(text.split(" ")[1].rstrip(":")))
        self.assertEqual({name: getattr(refused, name) for name in names}, {**dict.fromkeys(names), **details})
        self.assertTrue(refused.words)
        self.assertEqual(histdesk.refusal_words(text), refused.words)
        return refused

    def test_named_file(self):
        """The file that can't be loaded is named, by whatever call and as it was named there."""
        with tempfile.TemporaryDirectory() as folder:
            torn, whole = (os.path.join(folder, name) for name in ("torn\n.trace", "whole.trace"))
            in_time = b"".join(line for line in TRACE.splitlines(True) if b"LOST" not in line and b"update" not in line)
            for path, end in ((torn, b"sim-1 [000] d.... 1.00\n"), (whole, b"")):
                with open(path, "wb") as file:
                    file.write(in_time + end)
            words = histdesk.refusal_words("refused 3: line 6 fault 3")
            for call in (
                lambda path: histdesk.Desk().load(path),
                lambda path: histdesk.Desk().load(pathlib.Path(path)),
                lambda path: histdesk.read(path).desk(),
                histdesk.waits,
                lambda path: histdesk.waits(histdesk.read(path)),
                lambda path: histdesk.waits(path, jobs=2),
                histdesk.why,
                histdesk.summary,
                lambda path: histdesk.diff(path, whole),
                lambda path: histdesk.diff(whole, path),
                lambda path: histdesk.diff([whole, path], [whole]),
                lambda path: histdesk.diff(path, without=["sched_waking"]),
                lambda path: histdesk.AskWaits().ask_path(path),
            ):
                with self.assertRaises(Refused) as caught:
                    call(torn)
                told = f"{folder}/torn\\n.trace: {words}"
                self.assertEqual((caught.exception.path, caught.exception.words, str(caught.exception)), (torn, words, told))
            desk = desk_of()
            refused = self.refused(lambda: desk.load(whole), "refused 4: cpu 1", cpu=1)
            self.assertEqual((refused.path, str(refused)), (whole, f"{whole}: {refused.words}"))
            # Several recordings are named beside what is wrong with them.
            with warnings.catch_warnings():
                warnings.simplefilter("ignore", histdesk.LeftOutWarning)
                for question in (histdesk.AskWaits(), histdesk.AskRows("sched_waking", "hist:keys=pid")):
                    (failed,) = histdesk.many([torn], question, processes=0).failed
                    self.assertEqual((failed.path, failed.why), (torn, words))
        # What has no name isn't named, and neither is a file that has nothing to do with it.
        for call in (lambda: desk_of().load(TRACE), lambda: desk_of().load(io.BytesIO(TRACE)), lambda: desk_of().list(9)):
            with self.assertRaises(Refused) as caught:
                call()
            self.assertEqual((caught.exception.path, str(caught.exception)), (None, caught.exception.words))

    def test_lines_and_lanes(self):
        desk = desk_of()
        torn = TRACE + b"sim-1 [000] d.... 1.00\n"
        self.refused(lambda: desk.load(torn), "refused 3: line 8 fault 3", line=8, fault=3)
        self.refused(lambda: desk.insert("hello"), "refused 3: line 1 fault 1", line=1, fault=1)
        self.refused(lambda: desk.insert(LINE + "\n"), "refused 3: line 1 fault 1", line=1, fault=1)
        self.refused(lambda: desk.insert(LINE.replace("[001]", "[8192]")), "refused 3: line 1 fault 2", line=1, fault=2)
        self.refused(lambda: desk.load(TRACE), "refused 4: cpu 1", cpu=1)
        for call in [lambda: desk.unload(2), lambda: desk.strike(2, 1), lambda: desk.list(2), lambda: desk.events(2)]:
            self.refused(call, "refused 5: cpu 2", cpu=2)
        self.refused(lambda: desk.strike(0, 9), "refused 6")
        self.refused(lambda: desk.insert("# tracer: nop"), "refused 6")
        self.assertEqual(list(desk.events()), MERGED)

    def test_strikes_of_events(self):
        desk = desk_of()
        missing = [Place(0, 1, 1), Place(0, 0, 9), Place(0, 0, 1)]
        self.refused(lambda: desk.strike_events(missing), "refused 6", struck=1)
        self.refused(lambda: desk.strike_events([Place(0, 2, 1), Place(0, 0, 1)]), "refused 5: cpu 2", cpu=2, struck=0)
        self.assertEqual(list(desk.events()), [OTHER, SWITCH_42, WAKING_7, SWITCH_7])
        self.refused(lambda: desk.strike_events([WAKING_7, WAKING_7]), "refused 6", struck=1)
        self.assertEqual(list(desk.events()), [OTHER, SWITCH_42, SWITCH_7])

    def test_strikes_of_events_in_any_order(self):
        nothing = Place(0, 0, 9)
        for places in itertools.permutations([WAKING_42, WAKING_7, SWITCH_7, WAKING_7, nothing]):
            first = next(n for n, place in enumerate(places) if place == nothing or place in places[:n])
            desk = desk_of()
            self.refused(lambda: desk.strike_events(places), "refused 6", struck=first)
            self.assertEqual(list(desk.events()), [event for event in MERGED if event not in places[:first]])

    def test_full(self):
        desk = histdesk.Desk()
        self.assertEqual(desk.load(b"a-1 [000] 1.000000:\n" * 2**20), 2**20)
        self.refused(lambda: desk.insert("a-1 [001] 1.000000:"), "refused 7")
        self.assertEqual(desk.cpus(), {0: 2**20})

    def test_texts_of_triggers(self):
        desk = desk_of()

        def attach(text, event="sched_waking"):
            return lambda: desk.attach(event, text)

        self.refused(attach("keys=pid"), "refused 8: fault 2 at 0", fault=2, place=0)
        self.refused(attach("hist:keys=nice"), "refused 8: fault 3", fault=3)
        self.refused(attach("hist:keys=pid:pause"), "refused 8: fault 10 at 14", fault=10, place=14)
        told = "refused 8: fault 11 filter 2 at 5"
        self.refused(attach("hist:keys=pid if prio = 5"), told, fault=11, filter_fault=2, place=5)
        deep = "hist:keys=pid if " + "!" * 33 + "pid==1"
        self.refused(attach(deep), "refused 8: fault 11 filter 7", fault=11, filter_fault=7)
        # Places count bytes.
        told = "refused 8: fault 11 filter 2 at 13"
        self.refused(attach("hist:keys=pid if comm == 'ä' $"), told, fault=11, filter_fault=2, place=13)
        self.refused(attach("hist:keys=pid", "sched_sleeping"), "refused 16")
        self.refused(attach("hist:keys=pid", "other"), "refused 16")
        self.assertEqual(desk.triggers(), [])

    def test_filters(self):
        desk = desk_of()
        trigger = desk.attach("sched_waking", "hist:keys=pid")

        def refilter():
            trigger.filter = "prio = 5"

        self.refused(refilter, "refused 9: filter 2 at 5", filter_fault=2, place=5)
        self.refused(lambda: desk.matching("sched_waking", "nope == 5"), "refused 9: filter 3 at 0", filter_fault=3, place=0)
        self.refused(lambda: desk.matching("sched_waking", ""), "refused 9: filter 2 at 0", filter_fault=2, place=0)
        self.refused(lambda: desk.events_matching("other", "common_pid == 1"), "refused 16")

    def test_triggers_together(self):
        desk, saver, reader = with_waits()
        self.refused(lambda: desk.trigger(3), "refused 10")
        self.refused(saver.remove, "refused 11: trigger 2", trigger=2)
        self.refused(lambda: desk.attach("sched_wakeup", SAVER), "refused 12: trigger 1", trigger=1)
        self.refused(lambda: desk.attach("sched_switch", READER.replace("ts0", "ts1")), "refused 13")
        self.refused(lambda: desk.attach("sched_switch", READER.replace("next_pid", "next_comm")), "refused 14")
        self.refused(saver.latencies, "refused 17")
        for _ in range(62):
            desk.attach("sched_waking", "hist:keys=pid")
        self.refused(lambda: desk.attach("sched_waking", "hist:keys=pid"), "refused 15")
        self.assertEqual([trigger.id for trigger in desk.triggers()], list(range(1, 65)))
        self.assertEqual(reader.totals(), Totals(2, 2, 0))

    def test_words(self):
        desk = desk_of()
        refused = self.refused(lambda: desk.strike(0, 9), "refused 6")
        self.assertEqual(str(refused), "there is no event on that line")
        self.assertIn("CPU 2", str(self.refused(lambda: desk.list(2), "refused 5: cpu 2", cpu=2)))

    def test_words_of_texts(self):
        words = {
            "refused 1": "out of memory",
            "refused 3: line 18446744073709551615 fault 6": "line 18446744073709551615: a name is longer than 31 bytes",
            "refused 4: cpu 4294967295": "events of CPU 4294967295 are already held",
            "refused 8: fault 10 at 14": "the trigger can't be read: kernel syntax that histdesk does not support",
            "refused 8: fault 11 filter 7": "the trigger can't be read: its filter: more than 32 nested ( and !",
            "refused 9: filter 3 at 0": "the filter can't be read: the event has no such field",
            "refused 11: trigger 64": "trigger 64 reads the variable that this one saves",
            "refused 17": "the trigger reads no variable, so it measures no latencies",
        }
        for text, meaning in words.items():
            self.assertEqual(histdesk.refusal_words(text), meaning)

    def test_texts_of_no_refusal(self):
        numbers = ["", "refused", "refused 0", "refused 18", "refused 06", "refused 4294967302", "refused 9: filter 2"]
        parts = ["refused 5", "refused 6: cpu 0", "refused 5: cpu 4294967296", "refused 3: line 1 fault 8"]
        places = ["refused 8: fault 3 at 0", "refused 8: fault 11", "refused 9: filter 7 at 0", "refused 9: at 0 filter 2"]
        others = ["refused 6 ", "refused 6\n", "Refused 6", "loaded 6", "there is no event on that line", "refused 6: \udcff"]
        for text in [*numbers, *parts, *places, *others]:
            with self.assertRaisesRegex(ValueError, "no refusal has the text '"):
                histdesk.refusal_words(text)

    @unittest.skipIf(sys.version_info < (3, 11), "exceptions have no notes before Python 3.11")
    def test_notes(self):
        desk = desk_of()
        refused = self.refused(
            lambda: desk.attach("sched_waking", b"hist:keys=pid:\xff"), "refused 8: fault 2 at 14", fault=2, place=14
        )
        self.assertEqual(refused.__notes__, ["hist:keys=pid:\\xff\n              ^"])
        refused = self.refused(
            lambda: desk.attach("sched_waking", "hist:keys=pid  if pid = 5"),
            "refused 8: fault 11 filter 2 at 4",
            fault=11,
            filter_fault=2,
            place=4,
        )
        self.assertEqual(refused.__notes__, ["hist:keys=pid  if pid = 5\n                      ^"])

        torn = TRACE + b"sim-1 [000] d.... 1.00\xff\nhello"
        for trace in [torn, memoryview(torn), bytearray(torn), gzip.compress(torn)]:
            refused = self.refused(lambda: desk.load(trace), "refused 3: line 8 fault 3", line=8, fault=3)
            self.assertEqual(refused.__notes__, ["sim-1 [000] d.... 1.00\\xff"])
        refused = self.refused(lambda: desk.insert("hello\nx"), "refused 3: line 1 fault 1", line=1, fault=1)
        self.assertEqual(refused.__notes__, ["hello"])
        refused = self.refused(lambda: desk.attach("sched_wakin", "hist:keys=pid"), "refused 16")
        self.assertIn("sched_waking, sched_wakeup,", refused.__notes__[0])

    def test_pickled(self):
        refused = self.refused(lambda: desk_of().list(2), "refused 5: cpu 2", cpu=2)
        again = pickle.loads(pickle.dumps(refused))
        self.assertEqual((str(again), again.number, again.cpu, again.text), (str(refused), 5, 2, "refused 5: cpu 2"))
