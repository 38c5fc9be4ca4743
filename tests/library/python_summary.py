#!/usr/bin/env python3
"""Tests histdesk.summary and tools/summary: what a recording sums up to by task, by name and by CPU, with the waits of each.

    python_summary.py [TEST]...

The expected values are worked out by hand, or come from plain reckonings that read the text by themselves (plain_sums.py and
plain_waits.py). The last line says how many of the tests hold."""

import csv
import doctest
import gzip
import io
import json
import os
import pickle
import re
import subprocess
import sys
import tempfile
import unittest
import warnings
from collections import defaultdict
from unittest import mock

# Nothing is written beside the sources.
sys.dont_write_bytecode = True

HERE = os.path.dirname(os.path.realpath(__file__))
TOOL = os.path.realpath(os.path.join(HERE, "..", "..", "tools", "summary"))
sys.path[:0] = [os.path.realpath(os.path.join(HERE, "..", "..", "python")), os.path.join(HERE, "..", "model")]

import histdesk
import plain_sums
import plain_waits
import recordings
from histdesk import LossWarning, Refused
from histdesk.waiting import summary
from python_answers import at_micros, with_pandas
from python_runner import main
from recordings import line, switch, text_of, waking

# The names of tasks in the fields of an event.
NAMES = re.compile(r"(?:(?<=prev_)|(?<=next_)|(?<= ))comm=(.*?) (?:prev_|next_)?pid=([0-9]+) ")

# Two CPUs, in which everything that is summed up happens once.
LINES = [
    switch(0, 1000000, "<idle>-0", "a-10", state="R"),
    line("a-10", 0, 1000010, "sched_waking: comm=b pid=11 prio=120 target_cpu=001"),
    switch(1, 1000030, "<idle>-0", "b-11", state="R"),
    line("b-11", 1, 1000040, "sched_waking: comm=c pid=12 prio=120 target_cpu=000"),
    # a ran 60 us and is preempted; c has waited 20.
    switch(0, 1000060, "a-10", "c-12", state="R"),
    # b ran 40 us and sleeps.
    switch(1, 1000070, "b-11", "<idle>-0", state="S"),
    # c ran 40 us and is blocked. CPU 0 is idle, although a waits.
    switch(0, 1000100, "c-12", "<idle>-0", state="D"),
    # CPU 1 was idle for 60 us, in all of which a waited: 70 us together. It is moved here.
    switch(1, 1000130, "<idle>-0", "a-10", state="R"),
    # CPU 0 was idle for 50 us, and a waited for 30 of them. Nothing is known of when c was woken.
    switch(0, 1000150, "<idle>-0", "c-12", state="R"),
    # a ran 30 us more.
    switch(1, 1000160, "a-10", "<idle>-0", state="I"),
]
TASKS = [
    # Name, PID, run time, switches; waits, total, mean, p99, max and where; preempted, moved, slept, blocked, doubtful.
    ("a", 10, 90, 2, 1, 70, 70.0, 70, 70, 1000130, 1, 4, 1, 1, 1, 0, 0),
    ("b", 11, 40, 1, 1, 20, 20.0, 20, 20, 1000030, 1, 1, 0, 0, 1, 0, 0),
    ("c", 12, 40, 2, 1, 20, 20.0, 20, 20, 1000060, 0, 3, 0, 0, 0, 1, 0),
]
CPUS = [
    # Number, busy, idle, idle with waiters, the most in one run and when it began, unknown, switches; waits, total, mean, p99,
    # max and where; whose, doubtful.
    (0, 100, 50, 30, 30, 1000100, 0, 4, 1, 20, 20.0, 20, 20, 1000060, 0, 3, "c", 12, 0),
    (1, 70, 60, 60, 60, 1000070, 0, 4, 2, 90, 45.0, 70, 70, 1000130, 1, 4, "a", 10, 0),
]


def summary_of(trace, **options):
    """The summary of a trace, without warnings."""
    with warnings.catch_warnings():
        warnings.simplefilter("ignore", LossWarning)
        return histdesk.summary(trace, **options)


def texts():
    """Recordings of every kind."""
    known = {name: one.text for name, one in recordings.all_known().items()}
    return {name: text for name, text in known.items() if name != "many_waits"}


def waits_by(waits, key, doubtful=False):
    """The figures of waits by a key, as a row has them."""
    groups = defaultdict(list)
    for wait in waits:
        groups[key(wait)].append(wait)
    return defaultdict(lambda: plain_waits.figures_of([], doubtful), {
        name: plain_waits.figures_of(some, doubtful) for name, some in groups.items()
    })  # fmt: skip


def figures(row):
    """The figures of a row, as plain_waits.py has them."""
    pairs = {"count": row.waits, "total": row.total, "doubtful": row.doubtful, "mean": row.mean, "p99": row.p99, "max": row.max}
    pairs.update(end_stamp=row.end_stamp, end_cpu=row.end_cpu, end_line=row.end_line)
    return {name: value for name, value in pairs.items() if value is not None}


def without_whose(figures_wanted):
    """The same without what a row of a summary doesn't have."""
    return {
        name: value for name, value in figures_wanted.items() if name not in ("p50", "p90", "greatest_name", "greatest_pid")
    }


def last_names(text):
    """The last name of each task: that of its last wait, or else the last one in the text."""
    found = {}
    for one in plain_waits.lines_of(text):
        found.update((int(pid), name) for name, pid in NAMES.findall(one + " "))
    found.update((wait.pid, wait.name) for wait in plain_waits.waits_of(text))
    return found


class Answers(unittest.TestCase):
    def test_by_hand(self):
        answer = histdesk.summary(text_of(LINES))
        self.assertEqual([tuple(row) for row in answer.tasks], TASKS)
        self.assertEqual([tuple(row) for row in answer.cpus], CPUS)
        self.assertEqual((answer.doubtful, answer.likely, answer.remarks(), answer.holes), (0, 0, [], ()))
        self.assertEqual((answer.path, answer.held.events, answer.held.cpus), (None, 10, (0, 1)))
        self.assertEqual(answer.tasks[0].task, "a")

    def test_names(self):
        """Tasks of one name are added up."""
        lines = [one.replace("comm=c ", "comm=a ") for one in LINES]
        answer = histdesk.summary(text_of(lines))
        both, other = answer.names
        self.assertEqual(tuple(both), ("a", 2, 130, 4, 2, 90, 45.0, 70, 70, 1000130, 1, 4, 10, 1, 1, 1, 1, 0))
        self.assertEqual(tuple(other), ("b", 1, *TASKS[1][2:12], 11, 0, 0, 1, 0, 0))

    def test_a_waking_before_sleep_is_no_waiting(self):
        """A task that is woken while it runs, and then sleeps, waits only from its next waking."""
        lines = [
            switch(0, 1000000, "<idle>-0", "a-10", state="R"),
            waking(1, 1000010, 10, name="a"),
            switch(0, 1000020, "a-10", "<idle>-0", state="S"),
            waking(1, 1080020, 10, name="a"),
            switch(0, 1080023, "<idle>-0", "a-10", state="R"),
            switch(0, 1080030, "a-10", "<idle>-0", state="S"),
        ]
        answer = histdesk.summary(text_of(lines))
        (cpu,) = answer.cpus
        self.assertEqual((cpu.idle, cpu.idle_with_waiters, cpu.longest, cpu.longest_from), (80003, 3, 3, 1000020))
        self.assertEqual([(row.pid, row.waits, row.total) for row in answer.tasks], [(10, 1, 3)])

    def test_tasks_beside_plain_sums(self):
        for name, text in texts().items():
            for doubtful in (False, True):
                answer = summary_of(text, doubtful=doubtful)
                waits = plain_waits.waits_of(text)
                figures_wanted = waits_by(waits, lambda wait: wait.pid, doubtful)
                sums, _ = plain_sums.sums_of(text)
                self.assertEqual(
                    {row.pid: tuple(getattr(row, field) for field in plain_sums.Task._fields) for row in answer.tasks},
                    {one.pid: tuple(one) for one in sums},
                    name,
                )
                wanted = {one.pid: without_whose(figures_wanted[one.pid]) for one in sums}
                self.assertEqual({row.pid: figures(row) for row in answer.tasks}, wanted, name)
                if name != "odd_names":
                    known = last_names(text)
                    self.assertEqual(
                        {row.pid: row.task for row in answer.tasks}, {one.pid: known[one.pid] for one in sums}, name
                    )
                self.assertEqual(answer.doubtful, sum(wait.doubtful for wait in waits))

    def test_names_beside_plain_sums(self):
        for name, text in texts().items():
            if name == "odd_names":
                continue
            known, waits = last_names(text), plain_waits.waits_of(text)
            figures_wanted = waits_by(waits, lambda wait: known[wait.pid])
            wanted = defaultdict(lambda: [0] * 7)
            for one in plain_sums.sums_of(text)[0]:
                wanted[known[one.pid]] = [sum(pair) for pair in zip(wanted[known[one.pid]], (1, *one[:-1]))]
            found = {row.name: row for row in summary_of(text).names}
            self.assertEqual(set(found), set(wanted))
            for key, row in found.items():
                sums = [row.tasks, *(getattr(row, field) for field in plain_sums.Task._fields[:-1])]
                self.assertEqual((sums, figures(row)), (wanted[key], without_whose(figures_wanted[key])), (name, key))
                self.assertEqual(row.pid, figures_wanted[key].get("greatest_pid"))

    def test_cpus_beside_plain_sums(self):
        for name, text in texts().items():
            stamps = defaultdict(list)
            for event in plain_sums.events_of(text):
                if event.event == "sched_switch":
                    stamps[event.place.cpu].append(event.place.stamp)
            figures_wanted = waits_by(plain_waits.waits_of(text), lambda wait: wait.end.cpu)
            rows = summary_of(text).cpus
            _, sums = plain_sums.sums_of(text)
            idle = [(row.idle_with_waiters, row.longest, row.longest_from or 0, row.cpu) for row in rows]
            found = [(row.idle, row.unknown, *of_idle) for row, of_idle in zip(rows, idle)]
            self.assertEqual(found, [tuple(one) for one in sums], name)
            for row in rows:
                own = stamps[row.cpu]
                self.assertEqual((row.busy + row.idle + row.unknown, row.switches), (max(own) - min(own), len(own)), name)
                self.assertEqual(figures(row), without_whose(figures_wanted[row.cpu]), name)
                whose = figures_wanted[row.cpu]
                self.assertEqual((row.task, row.pid), (whose.get("greatest_name"), whose.get("greatest_pid")))

    def test_busy_is_run_time(self):
        """The time in which a CPU is busy is that of the runs on it."""
        text = recordings.simulated(1).text
        runs = plain_sums.runs_of(sorted(plain_sums.events_of(text)))
        for row in summary_of(text).cpus:
            self.assertEqual(row.busy, sum(run.end - run.begin for run in runs if run.cpu == row.cpu and run.pid))

    def test_nothing(self):
        for text in (b"", b"# tracer: nop\n"):
            answer = histdesk.summary(text)
            self.assertEqual((answer.tasks, answer.names, answer.cpus, answer.doubtful), ([], [], [], 0))
            self.assertIn("0 tasks ran 0 us", repr(answer))

    def test_woken_only(self):
        """A task that is woken and never runs is there, with nothing."""
        (row,) = histdesk.summary(text_of([waking(0, 5, 7, name="never")])).tasks
        self.assertEqual(tuple(row), ("never", 7, 0, 0, 0, 0, *[None] * 6, 0, 0, 0, 0, 0))

    def test_names_far_from_both_ends(self):
        """A task without waits has its name if an event near one of the ends of the text has it, and else its number."""
        middle = [
            switch(0, 3000000 + at, "x-5", "y-6") if at % 2 else switch(0, 3000000 + at, "y-6", "x-5") for at in range(40)
        ]
        lines = [
            switch(0, 1000000, "<idle>-0", "first-3", state="R"),
            *middle,
            switch(1, 5000000, "<idle>-0", "last-4", state="R"),
        ]
        text = text_of(lines)
        # Where the first line begins.
        front = text.index(b"<idle>-0") - 15
        with mock.patch.object(summary, "EDGE", front + 50):
            rows = {row.pid: row.task for row in histdesk.summary(text).tasks}
        self.assertEqual((rows[3], rows[4]), (":3", "last"))
        with mock.patch.object(summary, "EDGE", front + 500):
            rows = {row.pid: row.task for row in histdesk.summary(text).tasks}
        self.assertEqual((rows[3], rows[4], rows[5]), ("first", "last", "x"))

    def test_cut_anywhere(self):
        """The summary is the same however the text is cut into pieces."""

        class Slow(io.BytesIO):
            def read(self, size=-1):
                return super().read(min(size, 997) if size > 0 else 997)

        text = recordings.simulated(3).text
        whole, cut = summary_of(text), summary_of(Slow(text))
        packed = summary_of(gzip.compress(text))
        for by in ("task", "name", "cpu"):
            self.assertEqual(whole.table(by), cut.table(by))
            self.assertEqual(whole.table(by), packed.table(by))


class Orders(unittest.TestCase):
    def test_usual(self):
        answer = summary_of(recordings.simulated(1).text)
        totals = [row.total for row in answer.tasks]
        self.assertEqual(totals, sorted(totals, reverse=True))
        self.assertGreater(len(set(totals)), 10)
        self.assertEqual([row.cpu for row in answer.cpus], [0, 1, 2, 3])

    def test_each_column(self):
        answer = summary_of(recordings.kinds().text)
        for by in ("task", "name", "cpu"):
            for column in summary.orders_of(by):
                rows = answer.table(by, column)
                values = [row.end_stamp if column == "at" else getattr(row, column) for row in rows]
                present = [value for value in values if value is not None]
                # Rows without a value come last.
                self.assertEqual(values, present + [None] * (len(values) - len(present)), (by, column))
                is_up = column in ("task", "name", "cpu", "pid", "at")
                self.assertEqual(present, sorted(present, reverse=not is_up), (by, column))
                self.assertEqual(sorted(map(str, rows)), sorted(map(str, answer.table(by))))

    def test_wrong(self):
        answer = histdesk.summary(text_of(LINES))
        for words in (("prio",), ("task", "comm"), ("cpu", "preempted"), ("task", "index"), ("task", "where")):
            with self.assertRaises(ValueError):
                answer.table(*words)


class Parts(unittest.TestCase):
    def test_stretch(self):
        """Only the events of the stretch are summed up: a run that begins before it isn't known."""
        text = text_of(LINES)
        answer = summary_of(histdesk.read(text, start=at_micros(1000060), until=at_micros(1000131)))
        lines = [one for one in LINES if 1000060 <= round(float(one.split()[3][:-1]) * 1e6) < 1000131]
        self.assertEqual(len(lines), 4)
        part = summary_of(text_of(lines))
        self.assertEqual(answer.tasks, part.tasks)
        self.assertEqual(answer.cpus, part.cpus)
        self.assertEqual((answer.lines_from, answer.held.events), (1000060, 4))
        self.assertEqual(
            [(row.task, row.run_time, row.total) for row in answer.tasks], [("a", 0, 70), ("b", 0, 0), ("c", 40, 0)]
        )

    def test_stretch_of_damaged(self):
        text = recordings.simulated(4, holes=3).text
        stamps = [event.place.stamp for event in plain_waits.acts_of(text)]
        start, until = stamps[len(stamps) // 4], stamps[len(stamps) * 3 // 4]
        answer = summary_of(histdesk.read(text, start=at_micros(start), until=at_micros(until)))
        found = histdesk.waits(histdesk.read(text, start=at_micros(start), until=at_micros(until)))
        self.assertEqual((answer.doubtful, answer.likely, answer.holes), (found.doubtful, found.likely, found.holes))
        self.assertEqual(sum(row.total for row in answer.tasks), int(found.array.micros[~found.array.doubtful].sum()))
        self.assertTrue(answer.holes)

    def test_what_cannot_be_summed_up(self):
        text = text_of(LINES)
        with histdesk.Desk() as desk:
            desk.load(text)
            with self.assertRaisesRegex(TypeError, "pass the trace"):
                histdesk.summary(desk)
        for choice in ({"cpus": [1]}, {"events": ["sched_switch"]}):
            with self.assertRaisesRegex(ValueError, "all events"):
                histdesk.summary(histdesk.read(text, **choice))
        backwards = text_of([*LINES[5:], *LINES[:5]])
        for trace in (backwards, io.BytesIO(backwards), histdesk.read(backwards), histdesk.read(backwards, start=at_micros(1))):
            with self.assertRaisesRegex(ValueError, "time order, so it can't be summed up; tools/waits takes"):
                histdesk.summary(trace)
        with self.assertRaisesRegex(ValueError, "a recording of perf"):
            histdesk.summary(b"PERFILE2 and more")
        with self.assertRaises(FileNotFoundError):
            histdesk.summary("/nowhere/at all")

    def test_bad_lines(self):
        text = text_of(LINES) + b"a torn li\n"
        with self.assertRaises(Refused) as caught:
            histdesk.summary(text)
        self.assertEqual((caught.exception.number, caught.exception.line), (3, text.count(b"\n")))
        answer = histdesk.summary(text, lenient=True)
        self.assertEqual((answer.bad_lines, answer.first_bad_line), (1, text.count(b"\n")))
        self.assertTrue(repr(answer).endswith(f"1 line can't be read and is left out: {answer.first_bad_line}"))
        self.assertEqual([tuple(row) for row in answer.tasks], TASKS)

    def test_losses(self):
        text = recordings.lost_in_middle().text
        with warnings.catch_warnings(record=True) as warned:
            warnings.simplefilter("always")
            answer = histdesk.summary(text)
        self.assertEqual([(one.category, str(one.message)) for one in warned], [(LossWarning, answer.warning)])
        self.assertEqual(warned[0].filename, __file__)
        self.assertEqual((answer.doubtful, answer.likely), (2, 1))
        self.assertIn("may be false", answer.remarks()[-1])
        self.assertEqual(sum(row.waits for row in answer.tasks), 2)
        self.assertEqual(sum(row.waits for row in summary_of(text, doubtful=True).tasks), 4)


class Shown(unittest.TestCase):
    def test_text(self):
        answer = histdesk.summary(text_of(LINES))
        lines = repr(answer).split("\n")
        self.assertEqual(lines[0], "histdesk.Summary of 10 events from 1.000000 to 1.000160 (0.000160 s) on CPUs 0-1")
        ran = "3 tasks ran 170 us, in 5 switches; 3 waits took 110 us: 2 woken, 0 new, 1 preempted; times in microseconds"
        self.assertEqual(lines[1], ran)
        self.assertEqual(lines[3].split(), "a 10 90 2 1 70 70.0 70 70 1.000130 1:4 1 1 1 0".split())
        html = answer._repr_html_()
        self.assertEqual(html.count("<table>"), 2)
        self.assertIn("<td>1.000130</td><td>1:4</td>", html)

    def test_odd_names(self):
        answer = summary_of(recordings.odd_names().text)
        self.assertEqual({row.task for row in answer.tasks}, set(recordings.ODD_NAMES))
        for text in (repr(answer), answer._repr_html_()):
            self.assertNotIn("\x1b", text)
            self.assertIn("\\x1b[31mred", text)

    @with_pandas
    def test_pandas(self):
        answer = histdesk.summary(text_of(LINES))
        frame = answer.to_pandas()
        self.assertEqual(list(frame.columns), list(histdesk.TaskSummary._fields))
        self.assertEqual([tuple(row) for row in frame.itertuples(index=False)], TASKS)
        self.assertEqual(answer.to_pandas("cpu", "busy")["cpu"].tolist(), [0, 1])
        empty = histdesk.summary(b"").to_pandas("name")
        self.assertEqual((len(empty), list(empty.columns)), (0, list(histdesk.NameSummary._fields)))

    def test_pickled(self):
        answer = histdesk.summary(text_of(LINES))
        again = pickle.loads(pickle.dumps(answer))
        self.assertEqual((again.tasks, again.cpus, again.lines()), (answer.tasks, answer.cpus, answer.lines()))

    def test_example(self):
        """The example in the documentation, which is skipped there in case numpy is missing."""
        text = histdesk.summary.__doc__.replace("# doctest: +SKIP", "")
        example = doctest.DocTestParser().get_doctest(text, {"summary": histdesk.summary}, "summary", None, None)
        tried = doctest.DocTestRunner().run(example)
        self.assertEqual((tried.failed, tried.attempted > 1), (0, True))


class Tool(unittest.TestCase):
    """tools/summary, run as users run it."""

    @classmethod
    def setUpClass(cls):
        cls.folder = tempfile.TemporaryDirectory()
        cls.texts = {
            "hand": text_of(LINES),
            "simulated": recordings.simulated(1).text,
            "torn": recordings.lost_in_middle().text,
        }
        for name, text in cls.texts.items():
            with open(cls.path(name), "wb") as file:
                file.write(text)

    @classmethod
    def tearDownClass(cls):
        cls.folder.cleanup()

    @classmethod
    def path(cls, name):
        return os.path.join(cls.folder.name, f"{name}.trace")

    def run_tool(self, *words, status=0, **options):
        pipes = {"stdout": subprocess.PIPE, "stderr": subprocess.PIPE}
        ran = subprocess.run([sys.executable, "-B", TOOL, *words], check=False, **pipes, **options)
        self.assertEqual(ran.returncode, status, ran.stderr)
        return ran.stdout.decode(), ran.stderr.decode()

    def test_text(self):
        text, told_of = self.run_tool(self.path("hand"))
        lines = text.split("\n")
        self.assertEqual(lines[0], f"{self.path('hand')}: 10 events from 1.000000 to 1.000160 (0.000160 s) on CPUs 0-1")
        columns = "task pid run_time switches waits total mean p99 max at where preempted moved slept blocked"
        self.assertEqual(lines[3].split(), columns.split())
        self.assertEqual([row.split()[:3] for row in lines[4:7]], [["a", "10", "90"], ["b", "11", "40"], ["c", "12", "40"]])
        self.assertEqual(told_of, "")
        text, _ = self.run_tool(self.path("hand"), "--by", "cpu")
        self.assertEqual(text.split("\n")[4].split(), "0 100 50 30 30 1.000100 0 4 1 20 20.0 20 20 1.000060 0:3 c 12".split())

    def test_csv_and_json(self):
        for by, kind in (("task", histdesk.TaskSummary), ("name", histdesk.NameSummary), ("cpu", histdesk.CpuSummary)):
            rows = summary_of(self.texts["simulated"]).table(by, "max")
            text, _ = self.run_tool(self.path("simulated"), "--by", by, "--csv", "--sort", "max")
            found = list(csv.DictReader(io.StringIO(text)))
            self.assertEqual(list(found[0]), list(kind._fields))
            self.assertEqual([one["switches"] for one in found], [str(row.switches) for row in rows])
            text, _ = self.run_tool(self.path("simulated"), "--by", by, "--json", "--sort", "max")
            answer = json.loads(text)
            self.assertEqual([kind(**one) for one in answer["rows"]], rows)
            self.assertEqual((answer["events"], answer["doubtful"]), (self.texts["simulated"].count(b": sched_"), 0))

    def test_sorted_and_top(self):
        text, _ = self.run_tool(self.path("simulated"), "--sort", "run_time", "--top", "3")
        rows = summary_of(self.texts["simulated"]).table("task", "run_time")
        lines = text.split("\n")
        shown = lines[lines.index("") + 2 :]
        self.assertEqual([row.split()[2:4] for row in shown[:3]], [[str(row.pid), str(row.run_time)] for row in rows[:3]])
        self.assertEqual(shown[3:], [f"{len(rows) - 3} more are not shown; --top all shows them", ""])

    def test_chosen(self):
        text, _ = self.run_tool(self.path("hand"), "--from", "1.00006", "--until", "1.000131", "--csv")
        rows = [(row["task"], row["run_time"], row["total"]) for row in csv.DictReader(io.StringIO(text))]
        self.assertEqual(rows, [("a", "0", "70"), ("b", "0", "0"), ("c", "40", "0")])
        text, _ = self.run_tool(self.path("hand"), "--by", "cpu", "--cpu", "1", "--csv")
        self.assertEqual([row["busy"] for row in csv.DictReader(io.StringIO(text))], ["70"])

    def test_standard_input_and_lenient(self):
        text = self.texts["hand"] + b"a torn li\n"
        _, told_of = self.run_tool("-", input=text, status=2)
        self.assertIn(f"line {text.count(10)}", told_of)
        shown, told_of = self.run_tool("-", "--lenient", input=text)
        self.assertIn("3 waits took 110 us", shown)
        self.assertIn("1 line can't be read and is left out", told_of)

    def test_lost(self):
        text, told_of = self.run_tool(self.path("torn"))
        self.assertIn("2 doubtful waits are left out", text)
        self.assertIn("events were lost: CPU 3 lost 5948", told_of)
        text, told_of = self.run_tool(self.path("torn"), "--doubtful", "--csv")
        self.assertEqual(sum(int(row["waits"]) for row in csv.DictReader(io.StringIO(text))), 4)
        self.assertIn("run, busy and idle times across lost events may be false", told_of)

    def test_nothing_to_report(self):
        """A line says why, and the status is 1."""
        path = self.path("hand")
        cases = [
            ([path, "--by", "cpu", "--cpu", "5"], "no switch is on CPU 5; its events are on CPUs 0-1"),
            ([path, "--from", "2"], "no event is from 2.000000; its events are from 1.000000 to 1.000160"),
            ([path, "--until", "0.5", "--by", "name"], "no event is before 0.500000; its events are from 1.000000 to 1.000160"),
            (["-"], "it has no events"),
        ]
        for words, why in cases:
            for form in ([], ["--json"], ["--csv"]):
                shown, told_of = self.run_tool(*words, *form, status=1, input=b"")
                self.assertEqual(told_of, f"summary: {words[0]}: {why}\n")
                if form == ["--json"]:
                    self.assertEqual(json.loads(shown)["rows"], [])

    def test_what_goes_wrong_is_a_line(self):
        path = self.path("hand")
        wrong = [["--by", "prio"], ["--sort", "comm"], ["--sort", "busy"], ["--cpu", "0"], ["--events", "sched_switch"]]
        for words in [*wrong, ["--csv", "--json"], ["--top", "0"], ["--jobs", "2"]]:
            shown, told_of = self.run_tool(path, *words, status=2)
            self.assertEqual((shown, told_of.count("\n")), ("", 1), words)
        _, told_of = self.run_tool(self.path("nowhere"), status=2)
        self.assertEqual(told_of, f"summary: {self.path('nowhere')}: No such file or directory\n")
        _, told_of = self.run_tool("-", input=text_of([*LINES[5:], *LINES[:5]]), status=2)
        self.assertIn("isn't in time order, so it can't be summed up", told_of)

    def test_help(self):
        text, _ = self.run_tool("--help", env={**os.environ, "HISTDESK_LIBRARY": "/nowhere"})
        self.assertIn("--sort", text)


if __name__ == "__main__":
    sys.exit(main())
