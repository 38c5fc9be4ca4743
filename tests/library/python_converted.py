#!/usr/bin/env python3
"""Compares what the tools say of a recording of perf or trace-cmd with what they say of the text that its converter makes.

    python_converted.py [TEST]...

Programs that stand in for perf and trace-cmd print a known text."""

import csv
import json
import os
import re
import subprocess
import sys
import tempfile
import unittest

# Nothing is written beside the sources.
sys.dont_write_bytecode = True

HERE = os.path.dirname(os.path.realpath(__file__))
TOOLS = os.path.realpath(os.path.join(HERE, "..", "..", "tools"))
sys.path[:0] = [os.path.realpath(os.path.join(HERE, "..", "..", "python")), os.path.join(HERE, "..", "model")]

import histdesk
import plain_waits
import recordings
from python_runner import main

# How a recording begins, the program that prints its text, and how that program prints a line.
KINDS = {
    "perf.data": (b"PERFILE2 and more", "perf", "{task:>16} {pid:>7} [{cpu:03}] {stamp}000:  sched:{event}: {rest}"),
    "trace.dat": (b"\x17\x08\x44tracing6", "trace-cmd", "{task:>16}-{pid:<5} [{cpu:03}] {stamp}000: {event}: {rest}"),
}


# A timer's interrupt wakes `a` while `b` runs, and `a` wakes `c`, as the kernel prints it.
SWITCHED = "sched_switch: prev_comm={} prev_pid={} prev_prio=120 prev_state={} ==> next_comm={} next_pid={} next_prio=120"
WOKEN = "sched_waking: comm={} pid={} prio=120 target_cpu=001"
INTERRUPTED = f"""\
               c-3       [001] d..2.     1.000000: {SWITCHED.format("c", 3, "S", "b", 2)}
               b-2       [001] d.h4.     1.000100: {WOKEN.format("a", 1)}
               b-2       [001] d..2.     1.000120: {SWITCHED.format("b", 2, "R+", "a", 1)}
               a-1       [001] d..3.     1.000150: {WOKEN.format("c", 3)}
               a-1       [001] d..2.     1.000160: {SWITCHED.format("a", 1, "S", "c", 3)}
"""
# What trace-cmd prints of it, in its usual layout and in its latency layout, in which names are cut off.
FLAGS = re.compile("^(.{16})(-[0-9]+ +)\\[([0-9]+)\\] ([^ ]+) +([0-9.]+): ", re.MULTILINE)
USUAL = "cpus=2\n" + FLAGS.sub(r"\1\2[\3] \g<5>000: ", INTERRUPTED)
LATENCY = "cpus=2\n" + FLAGS.sub(lambda line: f"{line[1][-8:]}{line[2]}{int(line[3]):3}{line[4]} {line[5]}000: ", INTERRUPTED)


def printed(text, form):
    """The lines of a trace as another tool prints them."""
    lines = []
    for found in filter(None, map(plain_waits.LINE.fullmatch, plain_waits.lines_of(text))):
        words = {"task": found["task"], "pid": found["runs"], "cpu": int(found["cpu"]), "rest": found["rest"]}
        lines.append(form.format(stamp=f"{found['s']}.{found['us']}", event=found["event"], **words))
    return "\n".join(["cpus=4"] * ("trace-cmd" in form) + lines) + "\n"


class Tools(unittest.TestCase):
    def setUp(self):
        folder = tempfile.TemporaryDirectory()
        self.addCleanup(folder.cleanup)
        self.folder = folder.name
        self.text = recordings.simulated(4).text
        self.recordings, self.traces = {}, {}
        for name, (front, program, form) in KINDS.items():
            self.recordings[program] = self.put(name, front)
            self.stand_in(program, printed(self.text, form))
            converted = self.ran(f"from-{program}", self.recordings[program])
            self.traces[program] = self.put(f"{program}.trace", converted.stdout)

    def put(self, name, content):
        path = os.path.join(self.folder, name)
        with open(path, "wb") as file:
            file.write(content)
        return path

    def stand_in(self, program, text, status=0, latency=""):
        """Put a program there that knows no filters, and prints this text, or with -l another one."""
        told, other = self.put(f"{program}.told", text.encode()), self.put(f"{program}.latency", latency.encode())
        cases = f"*dlfilter*) exit 129 ;; *' -l '*) cat {other} ;; *) cat {told} ;;"
        os.chmod(self.put(program, f'#!/bin/sh\ncase "$*" in {cases} esac\nexit {status}\n'.encode()), 0o755)

    def ran(self, tool, *words, **options):
        environment = {**os.environ, "PATH": f"{self.folder}:{os.environ['PATH']}"}
        command = [sys.executable, "-B", os.path.join(TOOLS, tool), *words]
        return subprocess.run(command, stdout=subprocess.PIPE, stderr=subprocess.PIPE, env=environment, check=False, **options)

    def test_same(self):
        """Each tool says of a recording what it says of its text, except for its name."""
        events = list(plain_waits.events_of(self.text))
        start, end = (recordings.stamp(events[len(events) * part // 3].place.stamp) for part in (1, 2))
        asked = [
            ("waits",),
            ("waits", "--csv"),
            ("waits", "--jobs", "3"),
            ("waits", "--from", start, "--until", end),
            ("why", "--kind", "woken"),
            ("export", "waits"),
            ("export", "events"),
            ("diff", "--without", "sched_waking if pid == 3"),
            ("summary",),
            ("summary", "--by", "cpu", "--json"),
            ("summary", "--from", start, "--until", end, "--csv"),
        ]
        for program, path in self.recordings.items():
            for tool, *words in asked:
                # The name of the trace comes first.
                trace = self.traces[program]
                want, found = self.ran(tool, trace, *words), self.ran(tool, path, *words)
                self.assertEqual((want.returncode, found.returncode), (0, 0), (program, tool, want.stderr, found.stderr))
                self.assertEqual(found.stdout.replace(path.encode(), trace.encode()), want.stdout, (program, tool, words))
                self.assertTrue(want.stdout)

    def test_known(self):
        """The waits of a recording are those of a plain reckoning."""
        for path in self.recordings.values():
            rows = list(csv.DictReader(self.ran("export", path, "waits").stdout.decode().split("\n")))
            want = plain_waits.waits_of(self.text)
            self.assertEqual(
                [(int(row["pid"]), row["kind"], int(row["micros"])) for row in rows],
                [one[1:2] + one[:1] + (one.micros,) for one in want],
            )

    def test_any_order(self):
        """If events are not in time order, as those of a CPU that perf has read late, the waits are the same. The converter
        runs once more for that, and doesn't repeat what it says."""
        micros = [int(one.micros) for one in plain_waits.waits_of(self.text)]
        for program, path in self.recordings.items():
            lines = printed(self.text, KINDS[os.path.basename(path)][2]).splitlines(keepends=True)
            third = len(lines) // 3
            late = [line for line in lines[third : 2 * third] if "[001]" in line]
            others = [line for line in lines[third : 2 * third] if "[001]" not in line]
            self.assertTrue(late and others)
            self.stand_in(program, "".join([*lines[:third], "what is this\n", *others, *late, *lines[2 * third :]]))
            trace = self.put(f"{program}.any-order", self.ran(f"from-{program}", path).stdout)
            for tool, *words in [("waits",), ("export", "waits"), *[("diff", path)] * (program == "perf")]:
                want = self.ran(tool, trace, *(trace if word == path else word for word in words))
                found = self.ran(tool, path, *words)
                self.assertEqual((want.returncode, found.returncode), (0, 1), (program, tool, want.stderr, found.stderr))
                self.assertEqual(found.stdout.replace(path.encode(), trace.encode()), want.stdout, (program, tool))
                self.assertEqual(found.stderr.count(b"what is this"), 1 + words.count(path), (program, tool))
                if tool == "export":
                    rows = csv.DictReader(found.stdout.decode().split("\n"))
                    self.assertEqual([int(row["micros"]) for row in rows], micros)
            ran = self.ran("summary", path)
            self.assertEqual((ran.returncode, ran.stdout), (2, b""))
            self.assertIn(b"so it can't be summed up; tools/waits takes such a trace\n", ran.stderr)

    def test_flags(self):
        """The chain of a wait ends at the same interrupt as in the kernel's own text, whose flags trace-cmd has recorded."""
        self.stand_in("trace-cmd", USUAL, latency=LATENCY)
        answers = [
            json.loads(self.ran("why", path, "1:5", "--chain", "--json").stdout)["waits"][0]
            for path in (self.put("kernel.trace", INTERRUPTED.encode()), self.recordings["trace-cmd"])
        ]
        self.assertEqual(answers[0], answers[1])
        chain = answers[1]["chain"]
        self.assertEqual((len(chain["steps"]), chain["end"], answers[1]["context"]), (2, "interrupt", "task"))

    def test_failing(self):
        """A converter that makes no text ends the tool; if it leaves lines out, the tool answers and says so."""
        for program, path in self.recordings.items():
            self.stand_in(program, "", 1)
            for tool in ("waits", "why"):
                ran = self.ran(tool, path)
                self.assertEqual((ran.returncode, ran.stdout), (2, b""), (program, tool))
                last = ran.stderr.decode().rstrip("\n").split("\n")[-1]
                self.assertEqual(last, f"{tool}: {path} could not be converted; the lines above say why")
            form = KINDS[os.path.basename(path)][2]
            self.stand_in(program, printed(self.text, form) + "what is this\n")
            for tool in ("waits", "why"):
                ran = self.ran(tool, path)
                self.assertEqual(ran.returncode, 1, ran.stderr)
                self.assertIn(b"what is this", ran.stderr)
                self.assertIn(f"{tool}: only a part of {path} was converted".encode(), ran.stderr)
                self.assertTrue(ran.stdout)

    def test_standard_input(self):
        """A recording has to be a file."""
        for path in self.recordings.values():
            with open(path, "rb") as file:
                ran = self.ran("waits", "-", stdin=file)
            self.assertEqual((ran.returncode, ran.stdout), (2, b""))
            self.assertIn(b"; name its file instead\n", ran.stderr)

    def test_package(self):
        """The package names the tool that converts a recording."""
        for path in self.recordings.values():
            for call in (histdesk.waits, histdesk.read, histdesk.why):
                with self.assertRaisesRegex(ValueError, f"^{path} is a recording of .*; tools/from-.* {path} >my.trace makes"):
                    call(path, *[0, 1][: 2 * (call is histdesk.why)])
            found = histdesk.many([path], histdesk.AskWaits(), processes=0, progress=False)
            self.assertIn("makes a trace of it", found.failed[0].why)

    def test_reader_has_gone(self):
        """A tool whose output nobody reads ends quietly, and so does its converter."""
        with subprocess.Popen(
            [sys.executable, "-B", os.path.join(TOOLS, "export"), self.recordings["perf"], "events"],
            stdout=subprocess.PIPE,
            stderr=subprocess.PIPE,
            env={**os.environ, "PATH": f"{self.folder}:{os.environ['PATH']}"},
        ) as tool:
            tool.stdout.close()
            self.assertNotIn(b"Traceback", tool.stderr.read())


if __name__ == "__main__":
    sys.exit(main())
