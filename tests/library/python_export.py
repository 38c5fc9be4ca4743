#!/usr/bin/env python3
"""Tests that what tools/export writes, read back by csv, json and pandas, is what the trace holds. The expected values are
written by hand, or are those that the trace was made of.

    python_export.py [TEST]...
"""

import csv
import gzip
import io
import json
import os
import re
import subprocess
import sys
import tempfile
import unittest
from unittest import mock

# Nothing is written beside the sources.
sys.dont_write_bytecode = True

HERE = os.path.dirname(os.path.realpath(__file__))
PYTHON = os.path.realpath(os.path.join(HERE, "..", "..", "python"))
TOOL = os.path.realpath(os.path.join(HERE, "..", "..", "tools", "export"))
sys.path[:0] = [PYTHON, os.path.join(HERE, "..", "model")]

import histdesk
import plain_waits
from histdesk.trace import stream
from histdesk.waiting import waits_in_parts
from python_answers import with_pandas
from python_runner import main
from recordings import all_known, text_of

EVENT = "stamp,cpu,line,name,task,common_pid,comm,pid,prio,target_cpu,prev_comm,prev_pid,prev_prio,prev_state"
# The task that a switch runs is also there by the kernel's own names, at the end.
EVENT += ",next_comm,next_pid,next_prio"
PLACES = "saved_stamp,saved_cpu,saved_line,read_stamp,read_cpu,read_line,micros"
SAVER = ["sched_waking", "hist:keys=pid:ts0=common_timestamp.usecs"]
READER = ["sched_switch", "hist:keys=next_pid:lat=common_timestamp.usecs-$ts0"]


def switch(front, *fields):
    """A switch, after what stands at the line's front."""
    names = "prev_comm={} prev_pid={} prev_prio={} prev_state={} ==> next_comm={} next_pid={} next_prio={}"
    return f"{front}: sched_switch: {names.format(*fields)}"


SMALL = f"""# tracer: nop
 sim-1 [000] d.h.. 1.000100: sched_waking: comm=w pid=42 prio=120 target_cpu=001
 sim-1 [001] d.... 1.000050: irq_handler_entry: irq=9 name=x
 {switch("<idle>-0 [001] d.... 1.000150", "swapper/1", 0, 120, "R", "w", 42, 98)}
 {switch("w-42 [001] d.... 1.000190", "w", 42, 98, "S", "sim", 1, -1)}
""".encode()

# Each byte that a name may hold, alone and between others, and names that mean something else to readers of CSV or JSON.
BYTES = [bytes([byte]) for byte in range(256) if byte != 10]
NAMES = [
    *BYTES,
    *(b"x" + byte + b"y" for byte in BYTES),
    *(
        name.encode()
        for name in ["", "=1+1", "@x", "+1", "-bash", '"', '"q"', "a,b", '",', "\\", "\\x41", "\\\\", "\\n", "x\\", " lead"]
    ),
    *(
        name.encode()
        for name in ["NA", "nan", "null", "None", "true", "123", "1e5", "2020-01-01", "%s", "{}", "\u00fc", "\u20ac", "\u2028"]
    ),
    *(name.encode() for name in ["\x85", "\x9b31m", "\ufeff", "\U0001f600"]),
    b"\xed\xb3\xbf",
    b"\xc3",
    b"\xff\xfe",
]


def decoded(name):
    return name.decode("utf-8", "surrogateescape")


def named(names):
    """A trace in which each of these tasks is woken, one a microsecond."""
    lines = (
        b"sim-1 [000] d.h.. 1.%06d: sched_waking: comm=%s pid=%d prio=120 target_cpu=001\n" % (at, name, at + 1)
        for at, name in enumerate(names)
    )
    return b"".join(lines)


class Tool(unittest.TestCase):
    """Tests that run the tool."""

    def setUp(self):
        folder = tempfile.TemporaryDirectory()
        self.addCleanup(folder.cleanup)
        self.folder = folder.name

    def file(self, name, content):
        path = os.path.join(self.folder, name)
        with open(path, "wb") as file:
            file.write(content)
        return path

    def ran(self, content, *words):
        """Run the tool on a trace with that content; return its status, what it writes, and its messages."""
        path = self.file("my.trace", content)
        ran = subprocess.run(
            [sys.executable, "-B", TOOL, path, *words],
            stdin=subprocess.DEVNULL,
            stdout=subprocess.PIPE,
            stderr=subprocess.PIPE,
            check=False,
        )
        return ran.returncode, ran.stdout, ran.stderr.decode().replace(path, "TRACE")

    def written(self, content, *words):
        """What the tool writes if all is well. It says at most that switches are missing."""
        status, out, told = self.ran(content, *words)
        missing = "".join(f"export: TRACE: {line}\n" for line in plain_waits.missing_told(content))
        self.assertEqual((status, told), (0, missing if words[0] == "waits" and "--events" not in words else ""))
        return out

    def rows(self, content, *words):
        """The rows that it writes as CSV, read back: the first one has the names."""
        return [*csv.reader(io.StringIO(self.written(content, *words).decode(), newline=""))]

    def objects(self, content, *words):
        """The objects that it writes as JSON lines, read back."""
        return [*map(json.loads, self.written(content, *words, "--json").splitlines())]


class Names(Tool):
    """Each name is read back as it is."""

    def test_escaped(self):
        for name in map(decoded, NAMES):
            text = histdesk.escaped(name)
            self.assertEqual(histdesk.unescaped(text), name)
            self.assertFalse(re.search("[\0-\x1f\x7f-\x9f\ud800-\udfff]", text), text)

    def test_escapes(self):
        self.assertEqual(histdesk.escaped("a\tb\\ \udcff\x85\u00fc"), "a\\x09b\\\\ \\xff\\xc2\\x85\u00fc")
        self.assertEqual(histdesk.unescaped("\\x4a\\\\x41 \\n \\"), "J\\x41 \\n \\")

    def test_csv(self):
        rows = self.rows(named(NAMES), "events")
        self.assertEqual([histdesk.unescaped(row[6]) for row in rows[1:]], [*map(decoded, NAMES)])
        # Each row is one line, without a carriage return, so that awk and cut can have them too.
        out = self.written(named(NAMES), "events")
        self.assertEqual((out.count(b"\n"), out.count(b"\r")), (len(NAMES) + 1, 0))

    def test_json(self):
        self.assertEqual([row["comm"] for row in self.objects(named(NAMES), "events")], [*map(decoded, NAMES)])
        self.assertTrue(self.written(named(NAMES), "events", "--json").isascii())

    @with_pandas
    def test_pandas(self):
        import pandas

        text = io.BytesIO(self.written(named(NAMES), "events"))
        frame = pandas.read_csv(text, keep_default_na=False, dtype={"comm": str})
        self.assertEqual([*map(histdesk.unescaped, frame.comm)], [*map(decoded, NAMES)])
        self.assertEqual((str(frame.stamp.dtype), frame.pid.tolist()), ("int64", [*range(1, len(NAMES) + 1)]))
        lines = io.BytesIO(self.written(named(NAMES), "events", "--json"))
        frame = pandas.read_json(lines, lines=True, dtype=False, convert_dates=False)
        self.assertEqual(frame.comm.tolist(), [*map(decoded, NAMES)])

    def test_key(self):
        """Names as keys of a table."""
        words = ["rows", "sched_waking", "hist:keys=comm:size=1024"]
        rows = self.rows(named(NAMES), *words)
        self.assertEqual({histdesk.unescaped(name) for name, _ in rows[1:]}, {*map(decoded, NAMES)})
        self.assertEqual({row["comm"] for row in self.objects(named(NAMES), *words)}, {*map(decoded, NAMES)})


class Events(Tool):
    def test_csv(self):
        self.assertEqual(
            self.written(SMALL, "events").decode(),
            f"""{EVENT}
1000050,1,1,other,sim,1,,,,,,,,,,,
1000100,0,1,sched_waking,sim,1,w,42,120,1,,,,,,,
1000150,1,2,sched_switch,<idle>,0,w,42,98,,swapper/1,0,120,R,w,42,98
1000190,1,3,sched_switch,w,42,sim,1,-1,,w,42,98,S,sim,1,-1
""",
        )

    def test_json(self):
        rows = self.objects(SMALL, "events")
        self.assertEqual([*rows[0]], EVENT.split(","))
        self.assertEqual([*rows[0].values()], [1000050, 1, 1, "other", "sim", 1, *[None] * 11])
        own = ["w", 42, 98, None, "swapper/1", 0, 120, "R", "w", 42, 98]
        self.assertEqual([*rows[2].values()], [1000150, 1, 2, "sched_switch", "<idle>", 0, *own])

    def test_nothing(self):
        self.assertEqual(self.written(b"", "events"), EVENT.encode() + b"\n")
        self.assertEqual(self.written(b"# tracer: nop\n", "events", "--json"), b"")

    @with_pandas
    def test_types(self):
        import pandas

        frame = pandas.read_csv(io.BytesIO(self.written(SMALL, "events")), keep_default_na=False, na_values={"pid": [""]})
        self.assertEqual(frame.stamp.tolist(), [1000050, 1000100, 1000150, 1000190])
        self.assertEqual((str(frame.line.dtype), frame.pid.tolist()[1:]), ("int64", [42.0, 42.0, 1.0]))

    def test_part(self):
        """Lines are those of the whole trace."""
        rows = self.objects(SMALL, "events", "--from", "1.00015")
        self.assertEqual([(row["cpu"], row["line"]) for row in rows], [(1, 2), (1, 3)])
        rows = self.objects(SMALL, "events", "--cpu", "1", "--events", "sched_switch", "--until", "1.00019")
        self.assertEqual([(row["cpu"], row["line"]) for row in rows], [(1, 2)])

    def test_lenient(self):
        status, out, told = self.ran(SMALL + b"torn\n", "events")
        self.assertEqual((status, out), (2, b""))
        self.assertIn("line 6: expected TASK-PID [CPU]", told)
        status, out, told = self.ran(SMALL + b"torn\n", "events", "--lenient")
        self.assertEqual((status, out.count(b"\n"), told.count("\n")), (0, 5, 1))
        self.assertIn("1 line can't be read and is left out: 6", told)

    def test_packed(self):
        self.assertEqual(self.written(gzip.compress(SMALL), "events"), self.written(SMALL, "events"))

    def test_many(self):
        """More events than are taken at once, each with its own numbers."""
        count = 70_000
        line = b"t-%d [00%d] 1.%06d: sched_waking: comm=c%d pid=%d prio=%d target_cpu=1\n"
        lines = [line % (at, at % 3, at, at % 7, at, at % 140) for at in range(count)]
        rows = self.rows(b"".join(lines), "events")
        self.assertEqual(len(rows), count + 1)
        for at in range(0, count, 997):
            expected = [
                1000000 + at,
                at % 3,
                at // 3 + 1,
                "sched_waking",
                "t",
                at,
                f"c{at % 7}",
                at,
                at % 140,
                1,
                *[""] * 7,
            ]
            self.assertEqual(rows[at + 1], [*map(str, expected)])


class Rows(Tool):
    def test_names_of_columns(self):
        words = [
            "rows",
            "sched_switch",
            "hist:keys=next_prio.log2,next_pid.buckets=32,prev_pid.hex:vals=next_prio:sort=prev_pid",
        ]
        self.assertEqual(
            self.written(SMALL, *words).decode(),
            "next_prio.log2,next_pid.buckets=32,prev_pid,hitcount,next_prio_sum\n" "7,32,0,1,98\n"
            # -1 is 2^64-1 as a sum, and under .log2.
            "64,0,42,1,18446744073709551615\n",
        )
        self.assertEqual(self.objects(SMALL, *words)[1]["next_prio_sum"], 2**64 - 1)

    def test_value_that_is_a_key(self):
        rows = self.rows(SMALL, "rows", "sched_switch", "hist:keys=next_pid,prev_state:vals=next_pid:sort=next_pid")
        self.assertEqual(
            rows, [["next_pid", "prev_state", "hitcount", "next_pid_sum"], ["1", "S", "1", "1"], ["42", "R", "1", "42"]]
        )

    def test_of_made_events(self):
        """Triggers are attached in their order, and the last one answers."""
        made = READER[1] + ":onmatch(sched.sched_waking).wakeup_latency($lat,next_pid,next_prio)"
        rows = self.rows(SMALL, "rows", *SAVER, "sched_switch", made, "wakeup_latency", "hist:keys=lat,pid:vals=prio")
        self.assertEqual(rows, [["lat", "pid", "hitcount", "prio"], ["50", "42", "1", "98"]])

    def test_dropped(self):
        """A table that was too small is reported."""
        status, out, told = self.ran(named([b"a"] * 200), "rows", "sched_waking", "hist:keys=pid:size=128")
        self.assertEqual((status, out.count(b"\n")), (0, 129))
        self.assertEqual(told, "export: 72 hits found no room in the table; a greater size= has it\n")


class Latencies(Tool):
    def test_waits(self):
        words = ["latencies", *SAVER, *READER]
        self.assertEqual(
            self.written(SMALL, *words).decode(),
            f"task,pid,prio,{PLACES},doubtful\nw,42,98,1000100,0,1,1000150,1,2,50,false\n",
        )
        self.assertEqual([*self.objects(SMALL, *words)[0].values()], ["w", 42, 98, 1000100, 0, 1, 1000150, 1, 2, 50, False])

    def test_run_times(self):
        """The first key says whose the run times are: if it is prev_pid, those of the task that leaves."""
        words = ["sched_switch", "hist:keys=next_pid:on=common_timestamp.usecs if next_pid != 0"]
        words += ["sched_switch", "hist:keys=prev_pid:ran=common_timestamp.usecs-$on"]
        self.assertEqual(
            self.rows(SMALL, "latencies", *words)[1:],
            [["w", "42", "98", "1000150", "1", "2", "1000190", "1", "3", "40", "false"]],
        )

    def test_of_the_running_task(self):
        """If the first key is common_pid, the task is the one that runs, whose prio isn't known."""
        words = ["sched_waking", "hist:keys=common_pid:ts0=common_timestamp.usecs"]
        words += ["sched_waking", "hist:keys=common_pid:since=common_timestamp.usecs-$ts0"]
        rows = self.rows(named([b"a", b"b"]), "latencies", "sched_waking", words[1], words[2], words[3])
        # A saver that acts first gives each event its own stamp.
        self.assertEqual(
            rows[1:], [["sim", "1", "", *f"100000{at},0,{at + 1},100000{at},0,{at + 1},0,false".split(",")] for at in (0, 1)]
        )

    def test_doubtful(self):
        """Events of another CPU were lost within one of two latencies."""
        lines = [
            "a-1 [000] 1.000000: sched_waking: comm=x pid=5 prio=120 target_cpu=000",
            "a-1 [002] 1.000000: some_event: x",
            switch("a-1 [000] 1.000010", "a", 1, 120, "S", "x", 5, 120),
            "x-5 [000] 1.000020: sched_waking: comm=y pid=6 prio=120 target_cpu=000",
            "a-1 [002] 1.000025: some_event: x",
            "CPU:2 [LOST 4 EVENTS]",
            "a-1 [002] 1.000030: some_event: x",
            switch("x-5 [000] 1.000040", "x", 5, 120, "S", "y", 6, 120),
        ]
        status, out, told = self.ran("\n".join(lines).encode(), "latencies", *SAVER, *READER)
        self.assertEqual((status, [line.split(b",")[-1] for line in out.splitlines()]), (0, [b"doubtful", b"false", b"true"]))
        self.assertIn("CPU 2 lost 4", told)

    def test_part(self):
        rows = self.rows(SMALL, "latencies", *SAVER, *READER, "--events", "sched_waking,sched_switch")
        self.assertEqual(rows[1][3:9], ["1000100", "0", "1", "1000150", "1", "2"])


class Waits(Tool):
    def test_known(self):
        for name, known in all_known().items():
            # What the doubtful waits are depends on which events are lost; they can be told from each other only by hand.
            if name.startswith("damaged"):
                continue
            status, out, _ = self.ran(known.text, "waits", "--json")
            self.assertEqual(status, 0)
            found = [json.loads(line) for line in out.splitlines()]
            expected = [
                [wait.name, wait.kind, wait.pid, wait.prio, *wait.begin, *wait.end, wait.micros, wait.doubtful]
                for wait in known.waits
            ]
            self.assertEqual([[*row.values()][:-1] for row in found], expected, name)
            # A wait that isn't doubtful isn't marked as likely.
            self.assertEqual([row for row in found if row["likely"] and not row["doubtful"]], [], name)

    def test_columns(self):
        places = ",".join(f"{end}_{name}" for end in ("begin", "end") for name in ("stamp", "cpu", "line"))
        self.assertEqual(
            self.written(SMALL, "waits").decode(),
            f"task,kind,pid,prio,{places},micros,doubtful,likely\nw,woken,42,98,1000100,0,1,1000150,1,2,50,false,false\n",
        )

    def test_stretch_of_time(self):
        """Lines are counted from its first event on, which is said; what began before is no wait."""
        status, out, told = self.ran(all_known()["kinds"].text, "waits", "--from", "1.0003", "--until", "1.0005", "--json")
        remarks = ["no sched_waking began a wait, so nothing is known of woken ones", "lines are counted from 1.000300 on"]
        self.assertEqual((status, told), (0, "".join(f"export: TRACE: {remark}\n" for remark in remarks)))
        rows = [[*json.loads(line).values()] for line in out.splitlines()]
        places = [[1000300, 0, 1, 1000340, 3, 1], [1000400, 0, 4, 1000407, 3, 3]]
        self.assertEqual([row[4:10] for row in rows], places)
        self.assertEqual([(row[0], row[1], row[10]) for row in rows], [("d", "new", 40), ("e", "new", 7)])

    def test_chosen_events(self):
        """Chosen events keep their lines. A wait that began with a creation is then none, or another one."""
        words = ["waits", "--events", "sched_waking,sched_switch", "--json"]
        expected = [[*wait.begin, *wait.end] for wait in all_known()["kinds"].waits if wait.kind != "new"]
        rows = [[*row.values()] for row in self.objects(all_known()["kinds"].text, *words)]
        self.assertEqual([row[4:10] for row in rows if row[1] != "new" and row[2] != 13], expected)

    def test_parts(self):
        """Waits are written in parts; how sure those of the first part are is known only at the end."""
        known = all_known()["lost_in_middle"]
        whole = histdesk.waits(known.text)
        for most in (1, 2, 3):
            with mock.patch.object(stream, "CHUNK", most):
                parts = [*waits_in_parts.parts_of(waits_in_parts.waits_in_parts(known.text))]
                self.assertEqual([len(part) for part in parts], [min(most, 4 - at) for at in range(0, 4, most)])
                rows = [row.tolist() for part in parts for row in part.array]
                self.assertEqual(rows, [row.tolist() for row in whole.array])
                self.assertEqual([name for part in parts for name in part.names], [wait.name for wait in known.waits])
        with mock.patch.object(waits_in_parts, "PART", 3):
            self.assertEqual([len(part) for part in waits_in_parts.parts_of(whole)], [3, 1])

    def test_any_order(self):
        """If a text isn't in the order of time, a desk holds its events."""
        lines = all_known()["kinds"].text.decode().splitlines(keepends=True)
        text = "".join([*lines[:11], *lines[12:], lines[11]]).encode()
        self.assertEqual(self.written(text, "waits").count(b"\n"), 1 + len(histdesk.waits(text)))

    def test_cpu(self):
        """Only the waits that ended on this CPU are written, wherever they began."""
        self.assertEqual(len(self.rows(SMALL, "waits", "--cpu", "1")), 2)
        self.assertEqual(len(self.rows(SMALL, "waits", "--cpu", "0")), 1)


class Words(Tool):
    """What the tool says of wrong arguments, and how it ends."""

    def refused(self, *words):
        status, out, told = self.ran(SMALL, *words)
        self.assertEqual((status, out), (2, b""))
        return told

    def test_words(self):
        self.assertIn("invalid choice: 'nothing'", self.refused("nothing"))
        self.assertEqual(self.refused("rows"), "export: rows needs EVENT and TRIGGER after it; --help says more\n")
        self.assertEqual(
            self.refused("rows", "sched_waking"), "export: rows needs EVENT and TRIGGER after it; --help says more\n"
        )
        self.assertEqual(self.refused("events", "a", "b"), "export: events takes nothing after it; --help says more\n")
        self.assertIn("not allowed with argument", self.refused("events", "--csv", "--json"))

    def test_triggers(self):
        self.assertIn("the trigger can't be read", self.refused("rows", "sched_waking", "hist:keys=nope"))
        self.assertIn("the trigger reads no variable", self.refused("latencies", "sched_waking", "hist:keys=pid"))
        self.assertEqual(
            self.refused("rows", "nope", "hist:keys=pid").count("\n"), self.refused("rows", "x", "hist:keys=pid").count("\n")
        )

    def test_help(self):
        ran = subprocess.run([sys.executable, "-B", TOOL, "--help"], stdout=subprocess.PIPE, check=False)
        self.assertEqual((ran.returncode, ran.stdout[:6]), (0, b"usage:"))

    def test_no_file(self):
        ran = subprocess.run([sys.executable, "-B", TOOL, "/nonexistent", "events"], stderr=subprocess.PIPE, check=False)
        self.assertEqual((ran.returncode, ran.stderr), (2, b"export: /nonexistent: No such file or directory\n"))

    def test_standard_input(self):
        ran = subprocess.run([sys.executable, "-B", TOOL, "-", "events"], input=SMALL, stdout=subprocess.PIPE, check=False)
        self.assertEqual(ran.stdout, self.written(SMALL, "events"))

    def test_closed_pipe(self):
        path = self.file("long", text_of([f"a-1 [000] 1.{at:06}: some_event: x" for at in range(50_000)]))
        ran = subprocess.run(
            ["bash", "-c", '"$@" | head -n 1; exit "${PIPESTATUS[0]}"', "-", sys.executable, "-B", TOOL, path, "events"],
            stdout=subprocess.PIPE,
            stderr=subprocess.PIPE,
            check=False,
        )
        self.assertEqual((ran.returncode, ran.stdout, ran.stderr), (141, EVENT.encode() + b"\n", b""))

    def test_full_disk(self):
        with open("/dev/full", "wb") as full:
            ran = subprocess.run(
                [sys.executable, "-B", TOOL, self.file("t", SMALL), "events"], stdout=full, stderr=subprocess.PIPE, check=False
            )
        self.assertEqual((ran.returncode, ran.stderr), (2, b"export: standard output: No space left on device\n"))


if __name__ == "__main__":
    sys.exit(main())
