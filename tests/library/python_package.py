#!/usr/bin/env python3
"""Tests the Python package: each public call on small traces, by values written down by hand (also in python_answers.py), how a
desk ends, threads, texts that aren't UTF-8, running out of memory, how things are shown, and where the library is looked for.

    python_package.py [TEST]...

The library is found as the package finds it. Tests that need pandas are skipped if it is missing.
"""

import copy
import ctypes.util
import doctest
import gc
import inspect
import os
import pickle
import re
import shutil
import subprocess
import sys
import tempfile
import threading
import unittest

# Nothing is written beside the sources.
sys.dont_write_bytecode = True

HERE = os.path.dirname(os.path.realpath(__file__))
PYTHON = os.path.realpath(os.path.join(HERE, "..", "..", "python"))
sys.path.insert(0, PYTHON)

import histdesk
from histdesk import _schema
from histdesk.native import arrays, layout
from histdesk.native import library as native
from python_answers import LINE, MAKER, MERGED, TRACE, WAITS, desk_of, with_pandas, with_waits
from python_runner import main

HEADER = os.path.realpath(os.path.join(HERE, "..", "..", "include", "histdesk.h"))
FIELDS = os.path.realpath(os.path.join(HERE, "..", "..", "crates", "ft_fields"))


def python(program, **environment):
    """Return what a program that another Python runs prints on both of its streams."""
    ran = subprocess.run(
        [sys.executable, "-B", "-c", program],
        stdout=subprocess.PIPE,
        stderr=subprocess.STDOUT,
        env={**os.environ, "PYTHONPATH": f"{PYTHON}:{HERE}", "PYTHONWARNINGS": "ignore", **environment},
        check=False,
    )
    return ran.stdout.decode()


def elsewhere(call):
    """What a call answers or raises in another thread."""
    told = []

    def run():
        try:
            told.append(call())
        except Exception as error:
            told.append(error)

    thread = threading.Thread(target=run)
    thread.start()
    thread.join()
    return told[0]


class Life(unittest.TestCase):
    def test_closed(self):
        desk, saver, reader = with_waits()
        self.assertIs(desk.closed, False)
        desk.close()
        self.assertIs(desk.closed, True)
        desk.close()
        calls = [
            lambda: desk.load(TRACE),
            lambda: desk.unload(1),
            lambda: desk.insert(LINE),
            lambda: desk.strike(0, 1),
            lambda: desk.strike_events([]),
            lambda: desk.attach("sched_waking", "hist:keys=pid"),
            lambda: desk.trigger(1),
            desk.triggers,
            desk.cpus,
            lambda: desk.list(0),
            desk.events,
            lambda: desk.event(0, 1),
            lambda: desk.matching("sched_waking", "pid > 0"),
            lambda: desk.events_matching("sched_waking", "pid > 0"),
            lambda: desk.is_deferred,
            desk.__enter__,
            reader.text,
            reader.rows,
            reader.totals,
            reader.latencies,
            reader.remove,
            lambda: saver.canonical,
            lambda: saver.filter,
            lambda: setattr(saver, "filter", None),
            lambda: setattr(saver, "filter", "pid > 0"),
        ]
        for call in calls:
            with self.assertRaisesRegex(ValueError, "the desk is closed"):
                call()

    def test_with(self):
        with histdesk.Desk() as desk:
            self.assertEqual(desk.load(TRACE), 5)
        self.assertIs(desk.closed, True)
        with self.assertRaises(KeyError), histdesk.Desk() as desk:
            raise KeyError
        self.assertIs(desk.closed, True)

    def test_other_threads(self):
        desk, _, reader = with_waits()
        calls = [desk.events, desk.close, desk.cpus, reader.rows, reader.remove]
        calls += [lambda: desk.load(TRACE), lambda: desk.insert(LINE)]
        for call in calls:
            self.assertIn("thread", str(elsewhere(call)))
            self.assertIsInstance(elsewhere(call), RuntimeError)
        self.assertEqual(list(desk.events()), MERGED)
        self.assertEqual(elsewhere(lambda: list(desk_of().events())), MERGED)
        self.assertIn("thread", elsewhere(lambda: repr(desk)))
        self.assertIn("thread", elsewhere(lambda: repr(reader)))

    def test_collected_in_another_thread(self):
        desks = [desk_of() for _ in range(50)]
        cycle = [desks, with_waits()]
        cycle.append(cycle)
        del desks, cycle
        elsewhere(gc.collect)
        self.assertEqual(list(desk_of().events()), MERGED)

    def test_its_thread_has_ended(self):
        desk = elsewhere(desk_of)
        with self.assertRaises(RuntimeError):
            desk.cpus()
        del desk
        gc.collect()

    def test_many_desks(self):
        for _ in range(2000):
            desk = desk_of(TRACE)
        self.assertEqual(len(desk.events()), 5)

    def test_copies(self):
        desk = desk_of()
        for call in [copy.copy, copy.deepcopy, pickle.dumps]:
            with self.assertRaises(TypeError):
                call(desk)

    def test_values_are_copied(self):
        desk, _, reader = with_waits(MAKER)
        made = desk.attach("wakeup_latency", "hist:keys=lat.log2,pid.buckets=16")
        key = tuple(made.rows()[0][:2])
        for value in [*MERGED, *WAITS, reader.totals(), desk.strike(0, 1), *key]:
            for again in [pickle.loads(pickle.dumps(value)), copy.copy(value), copy.deepcopy(value)]:
                self.assertEqual((again, type(again), str(again)), (value, type(value), str(value)))

    def test_end_of_the_program(self):
        cycle = "cycle = [desk]; cycle.append(cycle)"
        told = python(f"import histdesk; desk = histdesk.Desk(); desk.load(b'a-1 [000] 1.000000:'); {cycle}")
        self.assertEqual(told, "")


class Texts(unittest.TestCase):
    """Bytes that aren't UTF-8, which go in and out as they are."""

    NAME = b"\xff\xc3\xa4\xe2"
    TEXT = "\udcffä\udce2"

    def setUp(self):
        self.desk = histdesk.Desk()
        self.desk.insert(self.NAME + b"-1 [000] 1.000000: sched_waking: comm=" + self.NAME + b" pid=1 prio=2 target_cpu=000")

    def test_out(self):
        self.assertEqual((self.desk.event(0, 1).task, self.desk.event(0, 1).comm), (self.TEXT, self.TEXT))
        self.assertEqual(self.desk.events()["task"], [self.TEXT])
        self.assertIn(self.NAME, self.desk.list(0).encode("utf-8", "surrogateescape"))
        trigger = self.desk.attach("sched_waking", "hist:keys=comm")
        self.assertEqual(trigger.rows(), [(self.TEXT, 1)])
        self.assertIn("{ comm: " + self.TEXT, trigger.text())
        self.assertEqual([changed.key for changed in self.desk.strike(0, 1).changed], [(self.TEXT,)])

    def test_in(self):
        text = f"{self.TEXT}-1 [001] 1.000000: sched_waking: comm={self.TEXT} pid=1 prio=2 target_cpu=000"
        self.assertEqual(self.desk.insert(text)[:2], (1, 1))
        self.assertEqual(self.desk.event(1, 1).comm, self.TEXT)
        trigger = self.desk.attach("sched_waking", f"hist:keys=pid if comm == '{self.TEXT}'")
        self.assertEqual(trigger.totals().hits, 2)
        self.assertEqual(trigger.filter, f'comm == "{self.TEXT}"')
        trigger.filter = b"comm ~ '" + self.NAME[:1] + b"*'"
        self.assertEqual(trigger.totals().hits, 2)
        self.assertEqual(len(self.desk.matching("sched_waking", f"comm != '{self.TEXT}'")), 0)

    @with_pandas
    def test_in_pandas(self):
        self.assertEqual(self.desk.to_pandas().task.tolist(), [self.TEXT])
        self.assertEqual(self.desk.attach("sched_waking", "hist:keys=comm").to_pandas().comm.tolist(), [self.TEXT])

    def test_shown(self):
        trigger = self.desk.attach("sched_waking", "hist:keys=comm")
        for text in [repr(trigger), trigger._repr_html_(), repr(self.desk.events())]:
            self.assertIn("\\xffä\\xe2", text)
            text.encode()

    def test_zero_bytes(self):
        self.desk.insert(b"a\0b\0-1 [002] 1.000000: sched_waking: comm=\0 pid=1 prio=2 target_cpu=000")
        self.assertEqual((self.desk.event(2, 1).task, self.desk.event(2, 1).comm), ("a\0b\0", "\0"))
        self.assertEqual(len(self.desk.matching("sched_waking", "comm == '\0'")), 1)

    def test_text_that_is_no_bytes(self):
        with self.assertRaises(UnicodeEncodeError):
            self.desk.insert("\ud800-1 [000] 1.000000:")


class Shown(unittest.TestCase):
    def test_trigger(self):
        _, saver, reader = with_waits()
        self.assertEqual(
            repr(reader),
            """\
histdesk.Trigger 2 on sched_switch: hist:keys=next_pid:vals=hitcount,$lat:lat=common_timestamp.usecs-$ts0:sort=hitcount:size=2048
next_pid  hitcount  lat
       7         1   30
      42         1   50
hits 2, entries 2, dropped 0""",
        )
        told = reader._repr_html_()
        self.assertIn("<th>next_pid</th><th>hitcount</th><th>lat</th>", told)
        self.assertIn("<tr><td>42</td><td>1</td><td>50</td></tr>", told)
        self.assertIn("hits 2, entries 2, dropped 0", told)
        reader.remove()
        self.assertEqual(repr(reader), "<histdesk.Trigger 2 on sched_switch: no such trigger is attached>")
        self.assertIn("no such trigger is attached", reader._repr_html_())

    def test_texts_and_buckets(self):
        desk = desk_of()
        trigger = desk.attach("sched_waking", "hist:keys=comm,pid.buckets=16,prio.log2 if comm != '<b>'")
        told = ["comm    pid  prio  hitcount", "w     32-47   2^7         1", "x      0-15  2^64         1"]
        self.assertEqual(repr(trigger).split("\n")[1:4], told)
        self.assertIn("&lt;b&gt;", trigger._repr_html_())
        self.assertIn("<td>32-47</td><td>2^7</td>", trigger._repr_html_())

    def test_long_table(self):
        desk = histdesk.Desk()
        for pid in range(30):
            desk.insert(f"a-1 [000] 1.{pid:06}: sched_waking: comm=w pid={pid} prio=1 target_cpu=000")
        lines = repr(desk.attach("sched_waking", "hist:keys=pid")).split("\n")
        self.assertEqual(len(lines), 1 + 1 + 21 + 1)
        told = ["pid  hitcount", "  0         1", "  9         1", " ..        ..", " 20         1", " 29         1"]
        self.assertEqual([lines[at] for at in (1, 2, 11, 12, 13, 22)], told)
        self.assertEqual(len(repr(desk.events()).split("\n")), 1 + 1 + 21)
        self.assertIn("30 events", desk.events()._repr_html_())

    def test_desk(self):
        desk, _, _ = with_waits()
        self.assertEqual(
            repr(desk),
            """\
histdesk.Desk: 5 events
CPU  events
  0       3
  1       2
id  event         trigger
 1  sched_waking  hist:keys=pid:vals=hitcount:ts0=common_timestamp.usecs:sort=hitcount:size=2048
 2  sched_switch  hist:keys=next_pid:vals=hitcount,$lat:lat=common_timestamp.usecs-$ts0:sort=hitcount:size=2048""",
        )
        self.assertIn("<th>CPU</th><th>events</th>", desk._repr_html_())
        self.assertEqual(repr(histdesk.Desk()), "histdesk.Desk: 0 events")
        desk.close()
        self.assertEqual(repr(desk), "<histdesk.Desk: the desk is closed>")

    def test_events(self):
        self.assertEqual(
            repr(desk_of().events()[:2]),
            """\
<histdesk.Events: 2>
  stamp  cpu  line  name          task    common_pid  comm  pid  prio
1000050    0     2  other         my app           9
1000100    1     1  sched_waking  sim              1  w      42   120""",
        )


# Sets a limit of so many bytes of memory above what is used, tells what a call raises, and takes the limit away.
LIMITED = """
import resource
from python_answers import *

def limited(room, call):
    with open("/proc/self/statm") as file:
        used = int(file.read().split()[0]) * resource.getpagesize()
    resource.setrlimit(resource.RLIMIT_AS, (used + room, resource.RLIM_INFINITY))
    try:
        told = call()
    except BaseException as error:
        told = type(error).__name__
    resource.setrlimit(resource.RLIMIT_AS, (resource.RLIM_INFINITY, resource.RLIM_INFINITY))
    print(told)

def waits(count):
    for n in range(count):
        yield f"a-1 [000] {n}.000000: sched_waking: comm=w pid=42 prio=1 target_cpu=000\\n"
        yield f"a-1 [000] {n}.000007: sched_switch: prev_comm=a prev_pid=1 prev_prio=1 prev_state=S ==> next_comm=w next_pid=42 next_prio=1\\n"
"""


@unittest.skipUnless(sys.platform == "linux", "the limit is one of Linux")
class Memory(unittest.TestCase):
    def told(self, program):
        # What is freed is given back at once, so that a limit leaves the room that it says.
        return python(LIMITED + program, MALLOC_MMAP_THRESHOLD_="65536", MALLOC_TRIM_THRESHOLD_="65536")

    def test_load(self):
        program = """
trace = "".join(waits(200000)).replace("[000]", "[002]").encode()
desk, saver, reader = with_waits()
limited(1 << 20, lambda: desk.load(trace))
print(desk.cpus(), reader.totals(), desk.is_deferred)
print(desk.load(trace), reader.totals().hits)
"""
        told = self.told(program)
        self.assertEqual(told, "MemoryError\n{0: 3, 1: 2} Totals(hits=2, entries=2, dropped=0) False\n400000 200002\n")

    def test_answers(self):
        program = """
desk = desk_of("".join(waits(200000)).encode())
saver, reader = desk.attach("sched_waking", SAVER), desk.attach("sched_switch", READER)
print(reader.totals().hits)
limited(1 << 20, lambda: reader.latencies())
limited(1 << 20, lambda: desk.events())
limited(1 << 20, lambda: desk.list(0))
print(len(reader.latencies()), len(desk.events()), reader.totals())
"""
        told = self.told(program)
        self.assertEqual(told, "200000\n" + "MemoryError\n" * 3 + "200000 400000 Totals(hits=200000, entries=1, dropped=0)\n")

    def test_deferred(self):
        program = """
desk = desk_of("".join(waits(40000)).encode())
saver = desk.attach("sched_waking", SAVER)
reader = limited(1 << 20, lambda: desk.attach("sched_switch", READER).id)
print(desk.is_deferred)
limited(1 << 20, lambda: desk.trigger(2).totals())
limited(1 << 20, lambda: desk.strike(0, 1))
print(desk.is_deferred, desk.trigger(2).totals().hits, desk.is_deferred)
print(desk.strike(0, 3))
"""
        told = self.told(program)
        edit = "Edit(cpu=0, line={}, changed={}, deferred={})\n"
        changed = "[Changed(trigger=1, key=(42,)), Changed(trigger=2, key=(42,))]"
        self.assertEqual(
            told, "2\nTrue\nMemoryError\n" + edit.format(1, None, True) + "True 39999 False\n" + edit.format(3, changed, False)
        )


class Library(unittest.TestCase):
    """Where the library is looked for."""

    PROGRAM = "from histdesk.native.library import library; print(library._name)"

    def setUp(self):
        folder = tempfile.TemporaryDirectory()
        self.addCleanup(folder.cleanup)
        self.folder = os.path.realpath(folder.name)

    def put(self, package, library):
        """Put a copy of the package in a folder, and the library in another one; return the library's path."""
        shutil.copytree(os.path.join(PYTHON, "histdesk"), os.path.join(self.folder, package, "histdesk"))
        place = os.path.join(self.folder, library, native.NAME)
        os.makedirs(os.path.dirname(place), exist_ok=True)
        shutil.copy(os.path.realpath(native.library._name), place)
        return place

    def test_installed(self):
        places = [("a/lib/python3/dist-packages", "a/lib"), ("b/python", "b/lib"), ("c", "c/histdesk")]
        for package, library in [*places, ("d/python", "d/crates/ft_c/out")]:
            place = self.put(package, library)
            told = python(self.PROGRAM, PYTHONPATH=os.path.join(self.folder, package), HISTDESK_LIBRARY="")
            self.assertEqual(told, place + "\n")

    def test_loader(self):
        place = self.put("python", "elsewhere")
        packages = os.path.join(self.folder, "python")
        told = python(self.PROGRAM, PYTHONPATH=packages, HISTDESK_LIBRARY="", LD_LIBRARY_PATH=os.path.dirname(place))
        self.assertEqual(told, native.NAME + "\n")

    def test_named(self):
        place = self.put("python", "named")
        self.assertEqual(python(self.PROGRAM, HISTDESK_LIBRARY=place), place + "\n")

    def test_missing(self):
        none = os.path.join(self.folder, "none")
        self.assertEqual(python("import histdesk; print('there')", HISTDESK_LIBRARY=none), "there\n")
        told = python("import histdesk; histdesk.Desk()", HISTDESK_LIBRARY=none)
        self.assertIn("ImportError: histdesk needs the library libhistdesk.so.0, which can't be loaded", told)
        self.assertIn(self.folder, told)
        self.assertIn("build/install", told)

    def test_missing_everywhere(self):
        """The error says, in lines, where the library was looked for."""
        shutil.copytree(os.path.join(PYTHON, "histdesk"), os.path.join(self.folder, "python", "histdesk"))
        packages = os.path.join(self.folder, "python")
        told = python("import histdesk; histdesk.Desk()", PYTHONPATH=packages, HISTDESK_LIBRARY="")
        lines = told[told.index("ImportError: ") :].split("\n")
        self.assertIn("It was looked for here:", lines)
        self.assertIn(f"  {self.folder}/lib/libhistdesk.so.0", lines)
        self.assertIn("  the loader's folders", lines)
        self.assertLessEqual(max(len(line) for line in lines if self.folder not in line), 100)

    def test_of_another_version(self):
        told = python("import histdesk; histdesk.Desk()", HISTDESK_LIBRARY=ctypes.util.find_library("c"))
        self.assertIn("has no call histdesk_new: it is of another version than this package", told)


class WithoutNumpy(unittest.TestCase):
    """What a Python without numpy reports."""

    NEEDED = " numpy, which is needed here: apt-get install python3-numpy "
    REASON = f"{sys.executable} has no{NEEDED}"
    TOOLS = os.path.realpath(os.path.join(PYTHON, "..", "tools"))

    def setUp(self):
        folder = tempfile.TemporaryDirectory()
        self.addCleanup(folder.cleanup)
        with open(os.path.join(folder.name, "numpy.py"), "w", encoding="ascii") as file:
            file.write("raise ModuleNotFoundError('none here', name='numpy')\n")
        self.path = f"{folder.name}:{PYTHON}"

    def run_tool(self, name, *arguments):
        return subprocess.run(
            [sys.executable, "-B", os.path.join(self.TOOLS, name), *arguments],
            input=b"",
            capture_output=True,
            env={**os.environ, "PYTHONPATH": self.path},
            check=False,
        )

    def test_package(self):
        self.assertEqual(
            python("import histdesk; print(histdesk.__version__)", PYTHONPATH=self.path), histdesk.__version__ + "\n"
        )
        for name in ("Desk", "waits", "read", "why", "diff"):
            told = python(f"import histdesk; histdesk.{name}", PYTHONPATH=self.path)
            self.assertIn(f"\nModuleNotFoundError: {self.REASON}", told)
            told = python(f"from histdesk import {name}", PYTHONPATH=self.path)
            self.assertIn(f"\nModuleNotFoundError: {self.REASON}", told)

    @unittest.skipUnless(os.path.isdir(TOOLS), "the tools are missing")
    def test_tools_that_need_it(self):
        trace = os.path.join(self.TOOLS, "..", "examples", "wakeups.trace")
        arguments = {
            "waits": [trace],
            "why": [trace],
            "export": [trace, "waits"],
            "desk": [trace],
            "view": ["--no-browser", trace],
        }
        arguments["diff"] = [trace, "--without", "sched_waking"]
        for name, words in arguments.items():
            ran = self.run_tool(name, *words)
            self.assertEqual((ran.returncode, ran.stdout, ran.stderr.count(b"\n")), (2, b"", 1), name)
            # Any other Python that is here was tried too.
            tried = rf"{name}: (neither .* nor .* has|{re.escape(sys.executable)} has no){self.NEEDED}"
            self.assertRegex(ran.stderr.decode(), tried)
            self.assertIn(sys.executable, ran.stderr.decode())

    @unittest.skipUnless(os.path.isdir(TOOLS), "the tools are missing")
    def test_tools_that_do_not(self):
        tools = sorted(name for name in os.listdir(self.TOOLS) if name not in ("record", "words", "README.md"))
        self.assertEqual(len(tools), 11)
        for name in tools:
            ran = self.run_tool(name, "--help")
            self.assertEqual((ran.returncode, ran.stderr), (0, b""), name)
        printed = b"    w    18 [000]  3752.816376632:     sched:sched_waking: comm=perf pid=25692 prio=120 target_cpu=000\n"
        ran = subprocess.run(
            [sys.executable, "-B", os.path.join(self.TOOLS, "from-perf")],
            input=printed,
            capture_output=True,
            env={**os.environ, "PYTHONPATH": self.path},
            check=False,
        )
        self.assertEqual((ran.returncode, ran.stdout.count(b"sched_waking: comm=perf pid=25692")), (0, 1), ran.stderr)


@unittest.skipUnless(os.path.exists(HEADER), "include/histdesk.h is missing")
class Header(unittest.TestCase):
    """The package knows the library as histdesk.h has it."""

    # What the package calls each struct, and how it reads it.
    STRUCTS = {
        "line": layout.Line,
        "totals": layout.Totals,
        "report": layout.Report,
        "refusal": layout.Refusal,
        "waits_read": layout.WaitsRead,
        "hole": layout.Hole,
        "losses_read": layout.LossesRead,
        "left_out": layout.LeftOut,
        "task_sum": layout.TaskSum,
        "cpu_sum": layout.CpuSum,
        "place": layout.PLACE,
        "row": layout.ROW,
        "latency": layout.LATENCY,
        "event": layout.EVENT,
        "trigger": layout.TRIGGER,
        "changed": layout.CHANGED,
    }

    def setUp(self):
        with open(HEADER, encoding="utf-8") as file:
            self.text = file.read()

    def test_calls(self):
        declared = set(re.findall(r"^\w+ (histdesk_\w+)\(", self.text, re.MULTILINE))
        self.assertEqual(declared, set(native.CALLS))

    def test_numbers_of_arguments(self):
        for name, arguments in re.findall(r"^\w+ (histdesk_\w+)\((.*?)\);", self.text, re.MULTILINE):
            self.assertEqual(len(getattr(native.library, name).argtypes), len(arguments.split(",")), name)

    def test_sizes(self):
        sizes = dict(re.findall(r"sizeof\(histdesk_(\w+)\) == ([0-9]+)", self.text))
        for name, struct in self.STRUCTS.items():
            size = ctypes.sizeof(struct) if isinstance(struct, type) else struct.size
            self.assertEqual(size, int(sizes[name]), name)

    def test_offsets(self):
        for name, field, offset in re.findall(r"AT_\(histdesk_(\w+), (\w+), ([0-9]+)\)", self.text):
            struct = self.STRUCTS.get(name)
            if isinstance(struct, type):
                self.assertEqual(getattr(struct, field).offset, int(offset), (name, field))
            elif name == "event" and field in layout.TEXTS_AT:
                self.assertEqual(layout.TEXTS_AT[field], int(offset), field)

    def test_offsets_in_numpy(self):
        fields = arrays.EVENT_TYPE.fields
        found = re.findall(r"AT_\(histdesk_event, (\w+), ([0-9]+)\)", self.text)
        self.assertEqual([fields[field][1] for field, _ in found], [int(offset) for _, offset in found])
        self.assertEqual(arrays.EVENT_TYPE.itemsize, layout.EVENT.size)
        self.assertEqual(arrays.LATENCY_TYPE.itemsize, layout.LATENCY.size)
        self.assertEqual(arrays.PLACE_TYPE.itemsize, layout.PLACE.size)

    def test_waits_in_numpy(self):
        """A place in a wait begins with its stamp."""
        sizes = dict(re.findall(r"sizeof\(histdesk_(\w+)\) == ([0-9]+)", self.text))
        for name, kind in [("wait", arrays.WAIT_TYPE), ("text_line", arrays.LINE_TYPE)]:
            self.assertEqual(kind.itemsize, int(sizes[name]), name)
            for field, offset in re.findall(rf"AT_\(histdesk_{name}, (\w+), ([0-9]+)\)", self.text):
                told = kind.fields.get(field) or kind.fields[f"{field}_stamp"]
                self.assertEqual(told[1], int(offset), (name, field))


class Places(unittest.TestCase):
    """The library's copies of events are of the places that were asked for."""

    def setUp(self):
        self.handle, self.count = layout.Handle(), ctypes.c_uint64()
        self.assertEqual(native.library.histdesk_new(self.handle), layout.OK)
        self.addCleanup(native.library.histdesk_free, self.handle)

    def load(self, text):
        self.assertEqual(native.library.histdesk_load(self.handle, text, len(text), self.count), layout.OK)

    def copied(self):
        """The stamp, the number of the name and the PID of the first place's event."""
        room = ctypes.create_string_buffer(layout.EVENT.size)
        self.assertEqual(native.library.histdesk_events_copy(self.handle, 0, room, 1), 1)
        stamp, _, _, name, pid = layout.EVENT.unpack(room.raw)[:5]
        return stamp, name, pid

    def test_another_stamp_is_another_event(self):
        self.load(b"a-1 [000] 1.000100: x:")
        self.assertEqual(native.library.histdesk_events(self.handle, self.count), layout.OK)
        self.assertEqual(self.copied(), (1000100, _schema.OTHER, 1))
        self.assertEqual(native.library.histdesk_unload(self.handle, 0, self.count), layout.OK)
        self.assertEqual(self.copied(), (1000100, layout.NONE, 0))
        self.load(b"b-2 [000] 2.000100: x:")
        self.assertEqual(self.copied(), (1000100, layout.NONE, 0))


@unittest.skipUnless(os.path.exists(HEADER) and os.path.isdir(FIELDS), "the sources of the engine are missing")
class Schema(unittest.TestCase):
    """The table of events and fields is that of the header and of the engine's definitions."""

    def test_header(self):
        with open(HEADER, encoding="utf-8") as file:
            text = file.read()
        enum = text[text.index("HISTDESK_WAKING = 0") : text.index("HISTDESK_NONE = ")]
        numbers = re.findall(r"HISTDESK_([A-Z_]+) = ([0-9]+),", enum)
        self.assertEqual([int(number) for _, number in numbers], list(range(len(_schema.EVENTS))))
        for (constant, number), event in zip(numbers, _schema.EVENTS):
            self.assertEqual(event.name.removeprefix("sched_").upper(), constant)
            self.assertEqual(getattr(_schema, constant), int(number))

    def test_names(self):
        """The names of events, in the engine's code and in its definitions, and which of them lines of a trace have."""
        own = [event.name for event in _schema.EVENTS if event.name != "other"]
        variants = ["".join(part.title() for part in name.removeprefix("sched_").split("_")) for name in own]
        wanted = dict(zip(variants, own))
        with open(os.path.join(FIELDS, "src", "event.rt"), encoding="utf-8") as file:
            self.assertEqual(dict(re.findall(r'Name::(\w+) => Some\(b"(\w+)"\)', file.read())), wanted)
        with open(os.path.join(FIELDS, "specs", "Names.antt"), encoding="utf-8") as file:
            text = file.read()
        self.assertEqual(dict(re.findall(r'name_text names\.(\w+) = Some \(codes "(\w+)"\)', text)), wanted)
        traced = re.findall(r"is_traced names\.(\w+) = true", text)
        self.assertEqual([wanted[name] for name in traced], list(_schema.TRACED_EVENTS))

    def test_fields(self):
        """The fields of each event, and which of them hold texts."""
        with open(os.path.join(FIELDS, "specs", "Fields.antt"), encoding="utf-8") as file:
            text = file.read()
        rows = re.findall(r'row_of fields\.\w+ = (\w+) \(codes "(\w+)"\) owners\.(\w+)', text)
        owners = re.findall(r"owns names\.(\w+) owners\.(\w+) = true", text)
        self.assertEqual({name for kind, name, _ in rows if kind == "text"}, _schema.TEXT_FIELDS)
        self.assertEqual({name for _, name, owner in rows if owner == "Every"}, {one.name for one in _schema.COMMON_FIELDS})
        for event in _schema.EVENTS:
            variant = "".join(part.title() for part in event.name.removeprefix("sched_").split("_"))
            wanted = {name for _, name, owner in rows if (variant, owner) in owners}
            self.assertEqual({field.name for field in event.fields}, wanted, event.name)
            for field in event.fields:
                self.assertIn(field.column, (None, *histdesk.Event._fields))


# What the docstring of a class says if users don't call the class, since something else makes its objects.
MADE = re.compile(r"`[\w.]+` (makes|is) (it|one)\b")
# The title of a section.
SECTION = re.compile(r"^(\w+)\n-+$", re.MULTILINE)


def sections_of(thing):
    """The sections of a docstring in numpy's style, by their titles."""
    parts = SECTION.split(inspect.getdoc(thing) or "")
    return {"": parts[0], **dict(zip(parts[1::2], parts[2::2]))}


def names_in(section):
    """The names that a section describes: `begin, end` are two."""
    return {name.strip() for line in re.findall(r"^(\w[\w, ]*)$", section, re.MULTILINE) for name in line.split(",")}


def parameters_of(function):
    """The names of what a function takes, except for the object itself."""
    kinds = inspect.signature(function).parameters
    return {name for name in kinds if name not in ("self", "cls") and not name.startswith("_")}


def faults_of(name, thing):
    """What the docstring of a public function or method lacks."""
    sections, signature = sections_of(thing), inspect.signature(thing)
    faults = [] if sections[""].strip().partition("\n")[0].rstrip().endswith((".", ":")) else [f"{name}: no summary line"]
    missing = parameters_of(thing) - names_in(sections.get("Parameters", ""))
    faults += [f"{name}: parameter {one}" for one in sorted(missing)]
    returns_something = signature.return_annotation not in (None, "None", "NoReturn")
    if returns_something and not {"Returns", "Yields"} & {*sections}:
        faults.append(f"{name}: no section Returns")
    return faults


def class_faults(name, kind):
    """What the docstrings of a public class and of its public members lack."""
    sections, faults = sections_of(kind), []
    if not sections[""].strip():
        faults.append(f"{name}: no summary")
    if hasattr(kind, "_fields"):
        missing = {*kind._fields} - names_in(sections.get("Attributes", ""))
        faults += [f"{name}: attribute {one}" for one in sorted(missing)]
    elif not MADE.search(sections[""]):
        makes = next((vars(kind)[one] for one in ("__init__", "__new__") if one in vars(kind)), None)
        missing = parameters_of(makes) - names_in(sections.get("Parameters", "")) if makes else ()
        faults += [f"{name}: parameter {one}" for one in sorted(missing)]
    for member, value in vars(kind).items():
        if member.startswith("_"):
            continue
        if isinstance(value, property) and not inspect.getdoc(value):
            faults.append(f"{name}.{member}: no summary")
        function = value.__func__ if isinstance(value, (classmethod, staticmethod)) else value
        if inspect.isfunction(function):
            faults += faults_of(f"{name}.{member}", function)
    return faults


class Documents(unittest.TestCase):
    def test_examples(self):
        for name in histdesk.__all__:
            getattr(histdesk, name)
        tried = doctest.testmod(histdesk)
        self.assertEqual(tried.failed, 0)
        self.assertGreater(tried.attempted, 30)

    def test_each_name_has_its_sections(self):
        faults = []
        for name in sorted(histdesk.__all__):
            thing = getattr(histdesk, name)
            faults += class_faults(name, thing) if isinstance(thing, type) else faults_of(name, thing)
        self.assertEqual(faults, [])

    def test_typed(self):
        self.assertTrue(os.path.exists(os.path.join(PYTHON, "histdesk", "py.typed")))


if __name__ == "__main__":
    sys.exit(main())
