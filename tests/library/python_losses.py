#!/usr/bin/env python3
"""Tests what loading and reading a trace report about lost events, parts of traces, and lines that are left out. The expected
values are written by hand."""

import gzip
import io
import itertools
import os
import pickle
import random
import subprocess
import sys
import tempfile
import unittest
import warnings
from unittest import mock

# Nothing is written beside the sources.
sys.dont_write_bytecode = True

HERE = os.path.dirname(os.path.realpath(__file__))
PYTHON = os.path.realpath(os.path.join(HERE, "..", "..", "python"))
sys.path.insert(0, PYTHON)

import histdesk
from histdesk import Hole, Lane, LossWarning, Part, _schema
from histdesk.desk import recording as desk_recording
from histdesk.trace import event_lines
from histdesk.trace import lines as trace_lines
from python_answers import at_micros, numpy
from python_runner import main

if numpy:
    from histdesk.desk import selection

WAKING = "sim-1 [{cpu:03}] d.h.. {stamp}: sched_waking: comm=w pid={pid} prio=120 target_cpu=000\n"
SWITCH = (
    "sim-1 [{cpu:03}] d.... {stamp}: sched_switch: prev_comm=a prev_pid=1 prev_prio=2 prev_state=S"
    " ==> next_comm=w next_pid={pid} next_prio=3\n"
)
TOP = "# tracer: nop\n#\n# entries-in-buffer/entries-written: {}/{}   #P:4\n#\n"


def waking(cpu, stamp, pid=42):
    return WAKING.format(cpu=cpu, stamp=stamp, pid=pid)


# CPU 2 begins 1.25 s late, and CPU 1 has nothing before its only event.
LATE = TOP.format(5, 12) + waking(0, "5.000000") + "##### CPU 1 buffer started ####\n" + waking(1, "5.000001")
LATE += "##### CPU 2 buffer started ####\n" + waking(2, "6.250000") + waking(0, "6.500000") + waking(2, "7.000000")
# CPU 3 loses events between its first and its second event, though other CPUs' events stand around the line.
MIDDLE = (
    waking(3, "1.000000") + waking(0, "1.200000") + "CPU:3 [LOST 5948 EVENTS]\n" + waking(1, "1.300000") + waking(3, "1.500000")
)


def quiet(call, *words, **named):
    """What a call answers, and the warnings of losses that it gave."""
    with warnings.catch_warnings(record=True) as told:
        warnings.simplefilter("always")
        answer = call(*words, **named)
    assert all(issubclass(one.category, LossWarning) for one in told)
    return answer, [str(one.message) for one in told]


def loaded(text):
    return quiet(histdesk.Desk().load, text.encode())


class Losses(unittest.TestCase):
    def test_nothing_lost(self):
        answer, told = loaded("# tracer: nop\n\n" + waking(0, "1.000000") + waking(0, "2.000000") + waking(5, "3.000000"))
        self.assertEqual((answer, answer.events, answer.skipped, told), (3, 3, 2, []))
        self.assertEqual(answer.lanes, (Lane(0, 2, 1000000, 2000000), Lane(5, 1, 3000000, 3000000)))
        self.assertEqual((answer.holes, answer.in_buffer, answer.written, answer.warning), ((), None, None, None))

    def test_complete_header(self):
        answer, told = loaded(TOP.format(1, 1) + waking(0, "1.000000"))
        self.assertEqual((answer.skipped, answer.in_buffer, answer.written, answer.holes, told), (4, 1, 1, (), []))

    def test_late_buffers(self):
        answer, told = loaded(LATE)
        self.assertEqual(answer.holes, (Hole(1, None, 5000001, None, 6), Hole(2, None, 6250000, None, 8)))
        self.assertEqual((answer, answer.skipped, answer.in_buffer, answer.written), (5, 6, 5, 12))
        self.assertEqual(
            told,
            [
                "events were lost: 7 of 12 events were overwritten before it begins; the events begin late on CPU 1 (at "
                "5.000001), CPU 2 (at 6.250000); a wait across such a time may be false"
            ],
        )
        self.assertEqual(answer.warning, told[0])

    def test_what_the_recorder_knows(self):
        # CPU 1 was only idle.
        text = LATE + "# CPU 0: 3 events overwritten\n# CPU 1: 0 events overwritten\n# CPU 2: 4 events overwritten\n"
        answer, told = loaded(text)
        self.assertEqual(answer.holes, (Hole(2, None, 6250000, 4, 8),))
        self.assertNotIn("CPU 1", told[0])

    def test_lost_in_the_middle(self):
        answer, told = loaded(MIDDLE)
        self.assertEqual(answer.holes, (Hole(3, 1000000, 1500000, 5948, 3),))
        self.assertEqual(
            told,
            ["events were lost: CPU 3 lost 5948 between 1.000000 and 1.500000; a wait across such a time may be false"],
        )

    def test_lost_at_the_ends(self):
        text = "CPU:3 [LOST EVENTS]\n" + waking(3, "1.000000") + "CPU:3 [LOST 2 EVENTS]\n" + waking(0, "2.000000")
        answer, told = loaded(text + "CPU:3 [LOST 5 EVENTS]\nCPU:7 [LOST 1 EVENTS]\n")
        holes = (Hole(3, None, 1000000, None, 1), Hole(3, 1000000, None, 7, 3), Hole(7, None, None, 1, 6))
        self.assertEqual(answer.holes, holes)
        self.assertIn("CPU 3 lost 7 between 1.000000 and the end", told[0])
        self.assertIn("CPU 7 lost 1 between the beginning and the end", told[0])

    def test_header_alone(self):
        answer, _ = loaded(TOP.format(3, 9) + waking(1, "1.000000") + waking(0, "1.500000") + waking(1, "2.000000"))
        # The header tells of it.
        self.assertEqual(answer.holes, (Hole(0, None, 1500000, None, 3),))

    def test_many_holes_are_one_line(self):
        text = waking(3, "1.000000") + "".join(f"CPU:3 [LOST 2 EVENTS]\n{waking(3, f'{n}.500000')}" for n in range(1, 9))
        answer, told = loaded(text)
        self.assertEqual(len(answer.holes), 8)
        self.assertIn("CPU 3 lost 16 in 8 places, the first between 1.000000 and 1.500000", told[0])

    def test_far_events(self):
        # If these events were looked for from each line on, each CPU would cost a pass over the text.
        cpus = range(1, 101)
        text = "".join(f"CPU:{cpu} [LOST {cpu} EVENTS]\n" for cpu in cpus) + waking(0, "1.000000") * 20000
        answer, _ = loaded(text + "".join(waking(cpu, f"2.{cpu:06}") for cpu in cpus))
        self.assertEqual(answer.holes, tuple(Hole(cpu, None, 2000000 + cpu, cpu, cpu) for cpu in cpus))

    def test_distant_events(self):
        text = waking(3, "1.000000") + waking(0, "1.000000") * 500 + "CPU:3 [LOST 9 EVENTS]\n"
        answer, _ = loaded(text + waking(0, "1.000000") * 500 + waking(3, "2.000000"))
        self.assertEqual(answer.holes, (Hole(3, 1000000, 2000000, 9, 502),))

    def test_no_such_lines(self):
        # A task's name, a comment and a payload report no loss.
        text = "x [LOST 3 EVENTS]-1 [000] 1.000000: y\n# CPU:0 [LOST 3 EVENTS]\na-1 [000] 2.000000: CPU:0 [LOST 3 EVENTS]\n"
        answer, told = loaded(text + "a-1 [000] 3.000000: ##### CPU 0 buffer started ####")
        self.assertEqual((answer, answer.holes, told), (3, (), []))

    def test_other_buffers(self):
        for make in (bytearray, memoryview, lambda text: io.BytesIO(text)):
            answer, _ = quiet(histdesk.Desk().load, make(MIDDLE.encode()))
            self.assertEqual((answer, answer.skipped, len(answer.holes)), (4, 1, 1))

    @unittest.skipUnless(numpy, "without numpy there are no waits")
    def test_tasks_that_ran_unseen(self):
        """A task that is woken twice ran in between, on a CPU that isn't known. No line reports it, and so no warning does."""
        text = "".join(waking(0, stamp, pid) for stamp, pid in [("1.000010", 22), ("1.000020", 21), ("1.000030", 22)])
        text += SWITCH.format(cpu=0, stamp="1.000040", pid=21)
        waits, told = quiet(histdesk.waits, text.encode())
        self.assertEqual((waits.holes, len(waits), waits.doubtful, waits.likely), ((Hole(None, 1000010, 1000030),), 1, 1, 1))
        self.assertEqual((waits.warning, told), (None, []))
        recording, told = quiet(histdesk.read, text.encode())
        self.assertEqual((recording.holes, quiet(histdesk.Desk().load, text.encode())[0].holes, told), ((), (), []))
        again = text + waking(0, "1.000050", 22) + waking(0, "1.000060", 21)
        waits, _ = quiet(histdesk.waits, again.encode())
        self.assertEqual(waits.holes, (Hole(None, 1000010, 1000030), Hole(None, 1000030, 1000050)))
        # A loss that a line reports is told, and nothing else.
        waits, told = quiet(histdesk.waits, (again + "CPU:0 [LOST 3 EVENTS]\n").encode())
        holes = (Hole(None, 1000010, 1000030), Hole(None, 1000030, 1000050))
        self.assertEqual(waits.holes, (Hole(0, 1000060, None, 3, 7), *holes))
        warning = "events were lost: CPU 0 lost 3 between 1.000060 and the end; a wait across such a time may be false"
        self.assertEqual((waits.warning, told), (warning, [warning]))
        # They belong to no CPU.
        waits, _ = quiet(histdesk.waits, again.encode())
        desk = histdesk.Desk()
        whole = waits.source.between("1.000000", "2.000000")
        quiet(desk.load, whole)
        self.assertEqual((desk.holes, desk.unload(0), desk.holes), (waits.holes, 6, waits.holes))

    def test_a_desk_knows_its_holes(self):
        desk = histdesk.Desk()
        quiet(desk.load, LATE.encode())
        quiet(desk.load, MIDDLE.replace("[000]", "[004]").replace("[001]", "[005]").encode())
        self.assertEqual([hole.cpu for hole in desk.holes], [1, 2, 3])
        desk.unload(2)
        self.assertEqual([hole.cpu for hole in desk.holes], [1, 3])
        self.assertEqual(desk.cpus(), {0: 2, 1: 1, 3: 2, 4: 1, 5: 1})
        desk.strike(1, 1)
        desk.insert(waking(9, "1.000000").strip())
        self.assertEqual(desk.cpus(), {0: 2, 1: 0, 3: 2, 4: 1, 5: 1, 9: 1})

    def test_a_refused_load_tells_nothing(self):
        desk = histdesk.Desk()
        with warnings.catch_warnings():
            warnings.simplefilter("error")
            with self.assertRaises(histdesk.Refused):
                desk.load((LATE + "torn\n").encode())
        self.assertEqual((desk.holes, desk.cpus()), ((), {}))

    def test_pickled(self):
        answer, _ = loaded(MIDDLE)
        same = pickle.loads(pickle.dumps(answer))
        self.assertEqual((same, same.skipped, same.lanes, same.holes), (4, 1, answer.lanes, answer.holes))


class Parts(unittest.TestCase):
    def part(self, text, **choice):
        return quiet(histdesk.read, text.encode(), **choice)[0]

    def test_whole(self):
        recording, told = quiet(histdesk.read, MIDDLE.encode())
        self.assertEqual(
            (recording.text, recording.taken, recording.bad_lines, recording.path), (MIDDLE.encode(), None, (), None)
        )
        self.assertEqual(told, [recording.warning])
        # Loading the recording doesn't warn again.
        answer, told = quiet(histdesk.Desk().load, recording)
        self.assertEqual((answer, answer.holes, told), (4, recording.holes, []))
        self.assertEqual((recording.line(3, 2), recording.desk_line(3, 2)), (2, 2))
        self.assertIs(histdesk.read(recording), recording)

    def test_path(self):
        with tempfile.TemporaryDirectory() as folder:
            path = os.path.join(folder, "my.trace")
            with open(path, "w", encoding="ascii") as file:
                file.write(MIDDLE)
            self.assertEqual(quiet(histdesk.read, path)[0].path, path)

    def test_time(self):
        recording = self.part(LATE, start=at_micros(5000001), until=at_micros(7000000))
        self.assertEqual(recording.taken, Part(3, 5000001, 6500000, None))
        desk = recording.desk()
        self.assertEqual(
            [(event.cpu, event.line, event.stamp) for event in desk.events()],
            [(1, 1, 5000001), (2, 1, 6250000), (0, 1, 6500000)],
        )
        # Lines are counted from the first of these events on.
        self.assertEqual((recording.lines_from, recording.line(0, 1), recording.desk_line(0, 1)), (5000001, 1, 1))
        # CPU 2 begins within that time, and CPU 1 exactly when that time begins.
        self.assertEqual(recording.holes, (Hole(2, None, 6250000),))

    def test_cpus_and_events(self):
        text = (
            waking(0, "1.000000")
            + SWITCH.format(cpu=1, stamp="2.000000", pid=42)
            + "a-1 [001] 3.000000: irq_handler_entry: irq=1\n"
        )
        for choice, count in [
            ({"cpus": [1]}, 2),
            ({"events": ["sched_switch"]}, 1),
            ({"events": ["other", "sched_waking"]}, 2),
        ]:
            recording = self.part(text, **choice)
            self.assertEqual((recording.taken.events, histdesk.Desk().load(recording)), (count, count))
        self.assertEqual(self.part(text, cpus=[]).taken, Part(0, None, None, None))
        with self.assertRaisesRegex(ValueError, "a trace has no event sched_exit"):
            self.part(text, events=["sched_exit"])

    def test_lines_keep_their_numbers(self):
        text = waking(0, "1.000000") * 3 + "torn\n" + waking(0, "2.000000")
        with self.assertRaises(histdesk.Refused) as caught:
            self.part(text, start=at_micros(1000000)).desk()
        self.assertEqual((caught.exception.line, caught.exception.fault), (4, 1))
        # The bad line stands where nothing is taken.
        self.assertEqual(histdesk.Desk().load(self.part(text, start=at_micros(2000000))), 1)

    def test_more_than_a_desk_holds(self):
        # The desk's real limit is tested elsewhere; here a desk holds ten events. Each stamp has two events.
        text = "".join(waking(0, f"1.{at // 2:06}") for at in range(15))
        with mock.patch.object(selection, "LIMIT", 10), mock.patch.object(desk_recording, "LIMIT", 10):
            recording = self.part(text)
            self.assertEqual(recording.taken, Part(10, 1000000, 1000004, 1000005))
            self.assertEqual(self.part(text, start=at_micros(1000005)).taken, Part(5, 1000005, 1000007, None))
            # The last two of eleven events have one stamp, and stay together.
            part = self.part(text, start=at_micros(1000001), until=at_micros(1000007))
            self.assertEqual(part.taken, Part(10, 1000001, 1000005, 1000006))
            with self.assertRaisesRegex(ValueError, "have one stamp"):
                self.part(waking(0, "1.000000") * 11)
        self.assertEqual(histdesk.Desk().load(recording), 10)
        self.assertEqual(desk_recording.LIMIT, 1048576)

    def test_one_of_several(self):
        """One CPU or one name is taken as a list of it; a CPU is a number."""
        text = waking(0, "1.000000") + waking(2, "2.000000") + waking(2, "3.000000").replace("sched_waking", "sched_wakeup")
        self.assertEqual(self.part(text, cpus=2).taken, self.part(text, cpus=[2]).taken)
        self.assertEqual(self.part(text, cpus=2).taken.events, 2)
        self.assertEqual(self.part(text, events="sched_waking").taken, self.part(text, events=["sched_waking"]).taken)
        self.assertEqual(self.part(text, events="sched_waking").taken.events, 2)
        self.assertEqual(self.part(text, events=iter(["sched_waking"])).taken.events, 2)
        for wrong in ("2", ["2"], 2.0, b"2"):
            with self.assertRaises(TypeError):
                self.part(text, cpus=wrong)

    def test_lenient(self):
        text = (
            "torn\n" + waking(0, "1.000000") + "a-1 [000] 1.000000: sched_waking: comm=x\n\n# c\n" + waking(0, "2.000000") + "x"
        )
        with self.assertRaises(histdesk.Refused):
            self.part(text).desk()
        recording = self.part(text, lenient=True)
        self.assertEqual((recording.bad_lines, histdesk.Desk().load(recording)), ((1, 3, 7), 2))
        self.assertEqual(recording.text, b"\n" + waking(0, "1.000000").encode() + b"\n\n# c\n" + waking(0, "2.000000").encode())
        self.assertEqual(self.part(MIDDLE, lenient=True).bad_lines, ())


# Lines, and the CPU, the stamp and the name of each one's event; BAD for one that can't be read.
BAD = "can't be read"
WAKE = "comm=w pid=42 prio=120 target_cpu=000"
SWITCHED = "prev_comm=a prev_pid=1 prev_prio=2 prev_state=S ==> next_comm=w next_pid=3 next_prio=4"
LINES = {
    f"  sim-1     [003] d..2.  6012.000100: sched_waking: {WAKE}": (3, 6012000100, "sched_waking"),
    f"sim-1 [003] 6012.000100: sched_wakeup: {WAKE}": (3, 6012000100, "sched_wakeup"),
    f"my-app 2-9 [000] d.... 0.000001: sched_wakeup_new: {WAKE}": (0, 1, "sched_wakeup_new"),
    f"-1 [010] 4294967295.999999: sched_switch: {SWITCHED}": (10, 4294967295999999, "sched_switch"),
    f"a-1 [8191] 1.000000: sched_switch: {SWITCHED}": (8191, 1000000, "sched_switch"),
    f"a-1 (  12) [001] d.... 2.500000: sched_waking: {WAKE}": (1, 2500000, "sched_waking"),
    f"a] b-5 [001] 1.000000:  sched_waking: {WAKE}": (1, 1000000, "sched_waking"),
    "a-1 [001] 1.000000: sched_wakeup_newer: x": (1, 1000000, "other"),
    "a-1 [001] 1.000000:": (1, 1000000, "other"),
    "a-1 [001] d..2. 1.000000: irq_handler_entry: irq=1 name=a-2 [003] 4.000000: x": (1, 1000000, "other"),
    "a-1 [001] 1.000000: sched_waking: comm=w": BAD,
    f"a-1 [001] 1.000000: sched_waking: {WAKE}\r": BAD,
    "a-1 [8192] 1.000000: x": BAD,
    "a-1 [001] a b 1.000000: x": BAD,
    "a-1 [001] 1.00000: x": BAD,
    "a-1 [001] 12345678901.000000: x": BAD,
    "a1 [001] 1.000000: x": BAD,
    "a-1[001] 1.000000: x": BAD,
    "# a-1": None,
    "CPU:3 [LOST 4 EVENTS]": None,
    "": None,
}


class Lines(unittest.TestCase):
    """What the lines of a text are, before it is loaded."""

    def told(self, text):
        lines = trace_lines.lines_in(text.encode())
        names = [_schema.EVENT_NAMES[name] for name in lines.names]
        events = zip(lines.cpus.tolist(), lines.stamps.tolist(), names, lines.bad.tolist())
        return lines.ends.tolist(), [BAD if bad else None if event[0] < 0 else tuple(event) for *event, bad in events]

    def test_forms(self):
        for end in ("\n", ""):
            for line, event in LINES.items():
                if line + end:
                    self.assertEqual(self.told(line + end), ([len(line + end)], [event]), line)

    def test_whole_texts(self):
        lines, generator = list(LINES), random.Random(1)
        for room in (1, 100, 1 << 20):
            text = [generator.choice(lines) for _ in range(2000)]
            with mock.patch.object(trace_lines, "BYTES_AT_ONCE", room):
                ends, events = self.told("".join(line + "\n" for line in text))
            self.assertEqual(events, [LINES[line] for line in text])
            self.assertEqual(ends, list(itertools.accumulate(len(line) + 1 for line in text)))
        self.assertEqual(self.told(""), ([], []))

    def test_numbers_of_bad_lines(self):
        lines, generator = list(LINES), random.Random(2)
        for room in (1, 100, 1 << 20):
            text = [generator.choice(lines) for _ in range(300)]
            with mock.patch.object(trace_lines, "BYTES_AT_ONCE", room):
                bad = trace_lines.bad_lines("".join(line + "\n" for line in text).encode())
            self.assertEqual(bad, [number for number, line in enumerate(text, 1) if LINES[line] == BAD])
        for line, event in LINES.items():
            self.assertEqual(event_lines.holds_event(line.encode()), event not in (None, BAD))


TOOL = """
import sys
from histdesk.cli import arguments, process, traces
def work():
    parser = arguments.parser("tool", "A tool.")
    parser.add_argument("trace")
    arguments.add_choice(parser)
    chosen = parser.parse_args()
    print(traces.recording(chosen, chosen.trace, "tool").desk().load(b""), flush=True)
    for _ in range(100000 if chosen.trace.endswith("long") else 0):
        print("x" * 100)
    return 0
sys.exit(process.run("tool", work))
"""
PERF = b"            perf    42 [001]     6.012345: sched:sched_waking: comm=w pid=43 prio=120 target_cpu=001\n"


class Tools(unittest.TestCase):
    """What each tool does with its arguments and its trace, and how it ends."""

    def setUp(self):
        folder = tempfile.TemporaryDirectory()
        self.addCleanup(folder.cleanup)
        self.folder = folder.name

    def file(self, name, content):
        path = os.path.join(self.folder, name)
        with open(path, "wb") as file:
            file.write(content)
        return path

    def run_tool(self, *words, **more):
        told = subprocess.run(
            [sys.executable, "-B", "-c", TOOL, *words],
            stdout=subprocess.PIPE,
            stderr=subprocess.PIPE,
            env={**os.environ, "PYTHONPATH": PYTHON},
            check=False,
            **more,
        )
        return told.returncode, told.stdout.decode(), told.stderr.decode()

    def test_losses_are_told_once(self):
        path = self.file("my.trace", MIDDLE.encode())
        lost = "CPU 3 lost 5948 between 1.000000 and 1.500000"
        told = f"tool: {path}: events were lost: {lost}; a wait across such a time may be false\n"
        self.assertEqual(self.run_tool(path), (0, "0\n", told))
        self.assertEqual(self.run_tool("-", input=MIDDLE.encode()), (0, "0\n", told.replace(path, "-")))

    def test_lenient_says_which(self):
        path = self.file("my.trace", b"torn\n" * 7 + waking(0, "1.000000").encode())
        self.assertEqual(
            self.run_tool("--lenient", path),
            (0, "0\n", f"tool: {path}: 7 lines can't be read and are left out: 1, 2, 3, 4, 5, ..\n"),
        )
        path = self.file("one.trace", b"torn\n" + waking(0, "1.000000").encode())
        self.assertEqual(
            self.run_tool("--lenient", path), (0, "0\n", f"tool: {path}: 1 line can't be read and is left out: 1\n")
        )
        self.assertIn("; 1 line left out that can't be read", repr(histdesk.read(path, lenient=True)))

    def test_refused(self):
        words = "expected TASK-PID [CPU] and a space at the start of the line"
        for text, hint in (
            (b"torn\n" + waking(0, "1.000000").encode(), "--lenient leaves such lines out"),
            (b"torn\n", "it is no trace: none of its first lines is an event"),
        ):
            path = self.file("my.trace", text)
            status, out, message = self.run_tool(path)
            self.assertEqual((status, out), (2, ""))
            self.assertEqual(message.split("\n")[0], f"tool: {path}: line 1: {words}; {hint}")

    def test_other_files(self):
        for text, told, turner in [
            (b"PERFILE2", "a recording of perf", "from-perf"),
            (b"\x17\x08\x44tracing", "a recording of trace-cmd", "from-trace-cmd"),
            (PERF, "what perf script printed", "from-perf"),
            (b"# captured on: today\n#\n\n" + PERF, "what perf script printed", "from-perf"),
            (b"cpus=4\n" + PERF, "what trace-cmd report printed", "from-trace-cmd"),
            (b"version = 6\ncpus=4\n", "what trace-cmd report printed", "from-trace-cmd"),
        ]:
            path = self.file("other text", text + b"\0" * 100)
            for words in [], ["--lenient"]:
                # Its converter says what is wrong with it.
                status, out, error = self.run_tool(*words, path)
                self.assertEqual((status, out), (2, ""))
                self.assertTrue(error.startswith(f"{turner}: "), error)
                self.assertEqual(error.split("\n")[-2], f"tool: {path} could not be converted; the lines above say why")
            told = f"is {told}; tools/{turner}"
            told = (
                f"{told} >my.trace makes a trace of it" if "printed" in told else f"{told.split(';')[0]}; name its file instead"
            )
            self.assertEqual(self.run_tool("-", input=text), (2, "", f"tool: standard input {told}\n"))
        path = self.file("packed", gzip.compress(PERF))
        told = f"tool: {path} is what perf script printed, packed by gzip; unpack it first, by gzip -d\n"
        self.assertEqual(self.run_tool(path), (2, "", told))
        for magic, packer, unpacker in ((b"\xfd7zXZ\0", "xz", "xzcat"), (b"\x28\xb5\x2f\xfd", "zstd", "zstdcat")):
            path = self.file("packed", magic + b"\0" * 100)
            told = f"tool: {path} is packed by {packer}; {unpacker} {path} >my.trace unpacks it\n"
            self.assertEqual(self.run_tool(path), (2, "", told))
        none = os.path.join(self.folder, "none")
        self.assertEqual(self.run_tool(none), (2, "", f"tool: {none}: No such file or directory\n"))

    def test_like_other_files(self):
        """A text that a desk can read is a trace, even if a name in it looks like a line of perf."""
        text = waking(0, "1.000000").replace("comm=w ", "comm=a 4 [1] 6.0: x: ")
        self.assertRegex(text, r" 4 \[1\] 6\.0: x:")
        self.assertEqual(self.run_tool(self.file("my.trace", text.encode())), (0, "0\n", ""))

    def test_words(self):
        for words, told in [
            ([], "the following arguments are required: trace"),
            (["--from", "1.5s", "x"], "argument --from: 1.5s is not a timestamp such as 6012.000100"),
            (["--cpu", "1,x", "x"], "argument --cpu: 1,x is not a list of CPUs such as 0,2,4-7"),
            (["--events", "exit", "x"], "argument --events: there is no event exit; the events are *"),
            (["--frob", "x"], "unrecognized arguments: --frob"),
        ]:
            status, out, error = self.run_tool(*words)
            self.assertEqual((status, out), (2, ""))
            self.assertTrue(error.startswith("tool: " + told.rstrip("*")) and error.endswith("; --help says more\n"), error)

    def test_parts(self):
        path = self.file("my.trace", LATE.encode())
        status, out, told = self.run_tool("--from", "5.000001", "--until", "6.3", "--cpu", "1-2", "--events", "waking", path)
        self.assertEqual((status, out), (0, "0\n"))
        lost = (
            "events were lost: 7 of 12 events were overwritten before it begins; the events begin late on CPU 2 (at 6.250000)"
        )
        remark = f"tool: {path}: lines are counted from 5.000001 on\n"
        self.assertEqual(told, f"tool: {path}: {lost}; a wait across such a time may be false\n{remark}")
        self.assertIn("no event of it is taken", self.run_tool("--from", "9", path)[2])

    def test_closed_pipe(self):
        path = self.file("long", waking(0, "1.000000").encode())
        ran = subprocess.run(
            ["bash", "-c", '"$@" | head -n 1; exit "${PIPESTATUS[0]}"', "-", sys.executable, "-B", "-c", TOOL, path],
            stdout=subprocess.PIPE,
            stderr=subprocess.PIPE,
            env={**os.environ, "PYTHONPATH": PYTHON},
            check=False,
        )
        self.assertEqual((ran.returncode, ran.stdout, ran.stderr), (141, b"0\n", b""))

    def test_full_disk(self):
        path = self.file("long", waking(0, "1.000000").encode())
        with open("/dev/full", "wb") as full:
            ran = subprocess.run(
                [sys.executable, "-B", "-c", TOOL, path],
                stdout=full,
                stderr=subprocess.PIPE,
                env={**os.environ, "PYTHONPATH": PYTHON},
                check=False,
            )
        self.assertEqual((ran.returncode, ran.stderr), (2, b"tool: standard output: No space left on device\n"))


if __name__ == "__main__":
    sys.exit(main())
