#!/usr/bin/env python3
"""Compares the timeline of all CPUs that tools/view draws with a plain reckoning of each microsecond (plain_timeline.py), and
with recordings worked out by hand.

    python_overview.py [TEST]...

If numpy is missing, a line says that nothing was tried. The last line says how many tests hold."""

import base64
import json
import os
import random
import struct
import sys
import unittest
import unittest.mock
import warnings

# Nothing is written beside the sources.
sys.dont_write_bytecode = True

HERE = os.path.dirname(os.path.realpath(__file__))
sys.path[:0] = [os.path.join(HERE, "..", "..", "python"), os.path.join(HERE, "..", "model")]

import histdesk
import plain_timeline
import plain_waits
import recordings
from histdesk.desk import recording
from histdesk.view import model
from histdesk.waiting import waits as waiting_waits
from python_runner import main
from recordings import switch, text_of


def side_of(text):
    """What a page shows of a recording, without warnings."""
    with warnings.catch_warnings():
        warnings.simplefilter("ignore", histdesk.LossWarning)
        waits = histdesk.waits(text)
        return model.Side(waits if waits.source else recording.read(text, spare=waiting_waits.SPARE))


def waking(cpu, micros, pid, runs="<idle>-0", name="w", event="sched_waking"):
    """A waking that a task wrote; the task is given as its name, `-` and its number."""
    return recordings.line(runs, cpu, micros, f"{event}: comm={name} pid={pid} prio=120 target_cpu=000")


def simulated(seed, steps=400, holes=0):
    """A recording of a simulated scheduler. The simulator says that an idle CPU wrote each waking; here it is written by what
    runs there, as the switches say."""
    runs, lines = {}, []
    for line in recordings.simulated(seed, steps, holes=holes).text.decode().split("\n"):
        found = plain_waits.LINE.fullmatch(line)
        if found and found["event"] == "sched_switch":
            switched = plain_waits.SWITCH.fullmatch(found["rest"])
            runs[found["cpu"]] = f"{switched[3]}-{switched[4]}"
        elif found:
            line = line.replace("<idle>-0", runs.get(found["cpu"], "<idle>-0"), 1)
        lines.append(line)
    return "\n".join(lines).encode()


def crowded(chance):
    """A trace by chance, in the order of time: many events have one stamp, and here and there a switch is missing."""
    lines, at, runs = [], 1000, [0] * 3
    for _ in range(chance.randrange(1, 200)):
        at += chance.choice([0, 0, 0, 1, 5, 100])
        cpu, pid = chance.randrange(3), chance.randrange(1, 8)
        if chance.random() < 0.5:
            event = chance.choice(["sched_waking", "sched_waking", "sched_wakeup", "sched_wakeup_new"])
            runner = f"x-{runs[cpu]}" if chance.random() < 0.9 else "x-5"
            lines.append(waking(cpu, at, pid, runner, event=event))
            continue
        before = runs[cpu] if chance.random() < 0.9 else chance.randrange(8)
        runs[cpu] = chance.choice([0, 0, pid, pid, pid])
        state = "R" if before == 0 else chance.choice(["R", "R+", "S", "D"])
        lines.append(switch(cpu, at, f"x-{before}", f"x-{runs[cpu]}", state=state, prio=120))
    return text_of(lines)


def numbers(text, code):
    """The numbers of a column in base 64."""
    return [one for one, in struct.iter_unpack(f"<{code}", base64.b64decode(text))]


def decoded(answer):
    """The columns of an answer: for each CPU what is said of each part, and the runs."""
    width, count = answer["width"], len(answer["cpus"])
    rows = {}
    for name, code in (("idle", "B"), ("waited", "B"), ("unknown", "B"), ("task", "I")):
        column = numbers(answer[name], code)
        assert len(column) == width * count
        rows[name] = {cpu: column[at * width : (at + 1) * width] for at, cpu in enumerate(answer["cpus"])}
    for name, code in (("most", "I"), ("mean", "f")):
        rows[name] = numbers(answer[name], code)
        assert len(rows[name]) == width
    codes = {"lane": "H", "begin": "d", "end": "d", "task": "I", "line": "I"}
    columns = [numbers(answer["runs"][name], code) for name, code in codes.items()]
    rows["runs"] = [
        (answer["cpus"][lane], begin, end, tuple(answer["tasks"][task]), line) for lane, begin, end, task, line in zip(*columns)
    ]
    return rows


class Reckoned(unittest.TestCase):
    """Sums of any stretch of time are those of the plain reckoning."""

    # Whether a CPU that runs a task twice in a row always runs another one in between for at least a microsecond.
    is_single = True

    def hold(self, text, seed):
        """Check one recording, in some windows."""
        chance, wanted, overview = random.Random(seed), plain_timeline.timeline_of(text), side_of(text).overview
        self.assertEqual((overview.runs.first, overview.runs.length), (wanted.first, len(wanted.waiting)))
        self.lanes(overview, wanted)
        for _ in range(8):
            low = chance.randrange(-3, len(wanted.waiting))
            high = chance.randrange(low + 1, len(wanted.waiting) + 9)
            self.window(overview, wanted, (low, high, chance.choice([1, 2, 7, 40, 300])))
        return overview, wanted

    def lanes(self, overview, wanted):
        """Check that what each CPU ran is the same in each microsecond."""
        self.assertEqual([lane.cpu for lane in overview.runs.lanes], list(wanted.ran))
        for lane in overview.runs.lanes:
            bounds, ran = [*lane.begin.tolist(), overview.runs.length], []
            for begin, end, number in zip(bounds, bounds[1:], lane.task.tolist()):
                self.assertLess(begin, end)
                task = {0: (0, ""), 1: plain_timeline.UNKNOWN}.get(number) or tuple(overview.runs.task(number))
                ran += [task] * (end - begin)
            differ = next((at for at, pair in enumerate(zip(ran, wanted.ran[lane.cpu])) if pair[0] != pair[1]), None)
            self.assertIsNone(differ, (lane.cpu, differ))
            self.assertEqual(len(ran), len(wanted.ran[lane.cpu]))

    def window(self, overview, wanted, window):
        """Check the sums of a window, and what is sent of it."""
        low, high, width = window
        edges = overview.edges(wanted.first + low, wanted.first + high, width)
        cells, at = overview.cells(edges), edges.tolist()
        low, high = max(low, 0), min(high, len(wanted.waiting))
        self.assertEqual((at[0], at[-1], len(at) - 1), (low, high, min(width, high - low)))
        spans = [end - begin for begin, end in zip(at, at[1:])]
        self.assertLessEqual(max(spans) - min(spans), 1)
        for row, cpu in enumerate(wanted.ran):
            parts = [plain_timeline.part_of(wanted, cpu, *pair) for pair in zip(at, at[1:])]
            found = zip(*(part[row].tolist() for part in (cells.idle, cells.waited, cells.unknown)))
            self.assertEqual([plain_timeline.Part(*part) for part in found], parts, (cpu, window))
            busy = [span - part.idle - part.unknown for span, part in zip(spans, parts)]
            self.assertEqual(cells.busy[row].tolist(), busy)
            for begin, end, task in zip(at, at[1:], cells.task[row].tolist()):
                ran = wanted.ran[cpu][begin:end]
                self.assertIn(name_of(overview, task), longest(ran) if self.is_single else among(ran), (cpu, begin, end))
        waiting = [wanted.waiting[begin:end] for begin, end in zip(at, at[1:])]
        self.assertEqual((cells.most.tolist(), cells.area.tolist()), ([*map(max, waiting)], [*map(sum, waiting)]))
        self.worst(overview, wanted, (low, high))

    def worst(self, overview, wanted, window):
        """Check the stretches of idle time in which tasks waited longest."""
        low, high = window
        found = []
        for cpu in wanted.ran:
            for begin, end, (pid, _) in plain_timeline.runs_of(wanted, cpu):
                begin, end = max(begin, low), min(end, high)
                micros = sum(count > 0 for count in wanted.waiting[begin:end]) if pid == 0 and begin < end else 0
                if micros:
                    found.append((-micros, wanted.first + begin, cpu, wanted.first + end, max(wanted.waiting[begin:end])))
        rows = overview.worst(low, high)
        self.assertEqual([(-row.micros, row.begin, row.cpu, row.end, row.most) for row in rows], sorted(found)[:20])

    def test_simulated(self):
        idle = waited = unknown = 0
        for seed in range(12):
            text = simulated(seed, holes=seed % 4) if seed % 5 else recordings.simulated(seed, holes=3).text
            _, wanted = self.hold(text, seed)
            whole = [plain_timeline.part_of(wanted, cpu, 0, len(wanted.waiting)) for cpu in wanted.ran]
            idle, waited = idle + sum(part.idle for part in whole), waited + sum(part.waited for part in whole)
            unknown += sum(part.unknown for part in whole)
        self.assertGreater(idle, waited)
        self.assertGreater(min(waited, unknown), 1000)

    def test_crowded(self):
        self.is_single = False
        for seed in range(60):
            self.hold(crowded(random.Random(seed)), seed)

    def test_known_by_hand(self):
        for make in (recordings.lost_in_middle, recordings.odd_names, recordings.kinds):
            self.hold(make().text, 1)

    def test_in_small_pieces(self):
        """However a text is cut into pieces, the runs are the same."""
        for seed, piece in ((1, 300), (2, 1000), (3, 5000)):
            with unittest.mock.patch("histdesk.trace.text.PIECE", piece):
                self.hold(simulated(seed, holes=3), seed)

    def test_any_order(self):
        """If a recording isn't in the order of time, a desk holds its events."""
        lines = [line for line in recordings.simulated(2).text.split(b"\n") if b": sched_" in line]
        text = b"\n".join(sorted(lines, key=lambda line: line.partition(b"[")[2][:3]))
        self.hold(text, 2)
        self.assertIsNone(histdesk.waits(text).source)

    def test_more_than_71_minutes(self):
        """Times that don't fit into 32 bits are as exact."""
        hour = 3_600_000_000
        lines = [
            switch(0, 10, "<idle>-0", "a-1", state="R"),
            waking(0, 2 * hour, 2),
            switch(0, 2 * hour + 7, "a-1", "<idle>-0"),
        ]
        lines.append(switch(0, 3 * hour, "<idle>-0", "b-2", state="R"))
        overview = side_of(text_of(lines)).overview
        cells = overview.cells(overview.edges(0, 4 * hour, 2))
        middle = (3 * hour - 10) // 2
        self.assertEqual(cells.edges.tolist(), [0, middle, 3 * hour - 10])
        self.assertEqual(cells.idle.tolist(), [[0, hour - 7]])
        self.assertEqual(cells.waited.tolist(), [[0, hour - 7]])
        self.assertEqual(cells.area.tolist(), [0, hour])


def name_of(overview, number):
    """Return the PID and name of the task with this number; None if the number is no task's."""
    return tuple(overview.runs.task(number)) if number > 1 else None


def longest(ran):
    """The tasks with the longest runs among what ran in some microseconds; None if no task ran."""
    lengths, since = {None: 0}, 0
    for at in range(1, len(ran) + 1):
        if at == len(ran) or ran[at] != ran[since]:
            if ran[since][0]:
                lengths[ran[since]] = max(lengths.get(ran[since], 0), at - since)
            since = at
    if len(lengths) > 1:
        del lengths[None]
    return [task for task, length in lengths.items() if length == max(lengths.values())]


def among(ran):
    """The tasks among what ran in some microseconds; None if no task ran."""
    return {task for task in ran if task[0]} or {None}


# Two CPUs, worked out by hand: task 7 waits from 1100 to 1300, while CPU 1 idles from 1000 to 1250.
BY_HAND = [
    switch(0, 1000, "<idle>-0", "a-5", state="R"),
    switch(1, 1000, "b-6", "<idle>-0"),
    waking(0, 1100, 7, "a-5"),
    switch(1, 1250, "<idle>-0", "b-6", state="R"),
    switch(0, 1300, "a-5", "c-7"),
    switch(0, 1400, "c-7", "<idle>-0"),
]


class ByHand(unittest.TestCase):
    """Recordings whose numbers are worked out by hand."""

    def test_sums(self):
        overview = side_of(text_of(BY_HAND)).overview
        cells = overview.cells(overview.edges(1000, 1400, 4))
        self.assertEqual(cells.edges.tolist(), [0, 100, 200, 300, 400])
        self.assertEqual(cells.idle.tolist(), [[0, 0, 0, 0], [100, 100, 50, 0]])
        self.assertEqual(cells.waited.tolist(), [[0, 0, 0, 0], [0, 100, 50, 0]])
        self.assertEqual(cells.unknown.tolist(), [[0, 0, 0, 0], [0, 0, 0, 0]])
        self.assertEqual((cells.most.tolist(), cells.area.tolist()), ([0, 1, 1, 0], [0, 100, 100, 0]))
        self.assertEqual([tuple(row) for row in overview.worst(0, 400)], [(1, 1000, 1250, 150, 1)])

    def test_answer(self):
        answer = side_of(text_of(BY_HAND)).overview.window(1000, 1400, 4)
        rows = decoded(json.loads(json.dumps(answer)))
        self.assertEqual([answer[name] for name in ("from", "until", "width", "cpus")], [1000, 1400, 4, [0, 1]])
        self.assertEqual(rows["idle"], {0: [0, 0, 0, 0], 1: [255, 255, 128, 0]})
        self.assertEqual(rows["waited"], {0: [0, 0, 0, 0], 1: [0, 255, 128, 0]})
        self.assertEqual((rows["most"], rows["mean"]), ([0, 1, 1, 0], [0, 1, 1, 0]))
        self.assertEqual(
            sorted(rows["runs"]), [(0, 0, 300, (5, "a"), 1), (0, 300, 400, (7, "c"), 3), (1, 250, 400, (6, "b"), 2)]
        )
        self.assertEqual(answer["worst"], [{"cpu": 1, "begin": 1000, "end": 1250, "micros": 150, "most": 1}])

    def test_missing_switch(self):
        """CPU 0 went to task 5 at 1000, and at 1050 that still ran. At 1200 task 9 runs, though no switch to it is there: from
        1050 on nothing is known, until 1200."""
        lines = [
            switch(0, 1000, "<idle>-0", "a-5", state="R"),
            waking(0, 1050, 7, "a-5"),
            waking(0, 1200, 8, "d-9"),
            switch(0, 1300, "d-9", "<idle>-0"),
            waking(0, 1500, 8, "<idle>-0"),
        ]
        overview = side_of(text_of(lines)).overview
        cells = overview.cells(overview.edges(1000, 1500, 10))
        self.assertEqual(cells.unknown.tolist(), [[0, 50, 50, 50, 0, 0, 0, 0, 0, 0]])
        self.assertEqual(cells.idle.tolist(), [[0] * 6 + [50] * 4])
        self.assertEqual(cells.busy.tolist(), [[50, 0, 0, 0, 50, 50, 0, 0, 0, 0]])

    def test_lost_events(self):
        """What is lost is unknown, even if the same task runs before and after, or none does."""
        lines = [
            "##### CPU 1 buffer started ####",
            switch(0, 1000, "<idle>-0", "a-5", state="R"),
            waking(0, 1100, 7, "a-5"),
            "CPU:0 [LOST 3 EVENTS]",
            waking(0, 1200, 7, "a-5"),
            "##### CPU 1 buffer started ####",
            waking(1, 1250, 7, "<idle>-0"),
            "CPU:1 [LOST 3 EVENTS]",
            switch(0, 1400, "a-5", "<idle>-0"),
        ]
        overview = side_of(text_of(lines)).overview
        cells = overview.cells(overview.edges(1000, 1400, 8))
        self.assertEqual(cells.unknown.tolist(), [[0, 0, 50, 50, 0, 0, 0, 0], [50] * 8])
        self.assertEqual(cells.busy.tolist()[0], [50, 50, 0, 0, 50, 50, 50, 50])
        self.assertEqual(int(cells.idle.sum()), 0)

    def test_doubtful_waits_do_not_count(self):
        lines = [
            waking(1, 1000, 7, "<idle>-0"),
            switch(0, 1010, "a-5", "<idle>-0"),
            "CPU:0 [LOST 3 EVENTS]",
            switch(0, 1200, "<idle>-0", "c-7", state="R"),
        ]
        overview = side_of(text_of(lines)).overview
        cells = overview.cells(overview.edges(1000, 1200, 1))
        self.assertEqual((cells.most.tolist(), cells.waited.tolist()), ([0], [[0], [0]]))

    def test_nothing(self):
        for text in (b"", b"# tracer: nop\n", text_of([waking(0, 5, 7)])):
            answer = side_of(text).overview.window(0, 10, 100)
            self.assertEqual((answer["width"], answer["worst"]), (0, []))
            self.assertEqual(decoded(answer)["runs"], [])


class Windows(unittest.TestCase):
    """What may be asked for, and what is sent."""

    def test_refused(self):
        overview = side_of(text_of(BY_HAND)).overview
        for window in ((5, 5, 9), (6, 5, 9), (0, 9, 0), (0, 9, -1), (0, 9, 8193)):
            with self.assertRaises(ValueError):
                overview.edges(*window)

    def test_outside(self):
        """A window outside of the recording has no parts."""
        overview = side_of(text_of(BY_HAND)).overview
        for window in ((0, 1000, 5), (1400, 9999, 5), (2000, 3000, 5)):
            self.assertEqual(overview.window(*window)["width"], 0)

    def test_single_runs(self):
        """Zoomed in, each run is there, from its begin to its end, with the line of the switch that began it."""
        text = simulated(5, 300)
        wanted, side = plain_timeline.timeline_of(text), side_of(text)
        places = {(event.place.cpu, event.place.line): event for event in plain_waits.events_of(text)}
        answer = side.overview.window(wanted.first, wanted.first + len(wanted.waiting), 4000)
        runs = decoded(answer)["runs"]
        found = {cpu: [(int(begin), int(end), task) for of, begin, end, task, _ in runs if of == cpu] for cpu in wanted.ran}
        for cpu in wanted.ran:
            self.assertEqual(found[cpu], [run for run in plain_timeline.runs_of(wanted, cpu) if run[2][0]])
        lines = [(cpu, begin, task, line) for cpu, begin, _, task, line in runs if line]
        self.assertGreater(len(lines), 50)
        for cpu, begin, task, line in lines:
            event = places[cpu, line]
            self.assertEqual((event.event, event.place.stamp, event.pid), ("sched_switch", wanted.first + begin, task[0]))

    def test_few_runs_of_many(self):
        """Zoomed out, a run is there only if it fills a part."""
        text = simulated(5, 400)
        wanted, side = plain_timeline.timeline_of(text), side_of(text)
        width = 60
        edges = side.overview.edges(wanted.first, wanted.first + len(wanted.waiting), width).tolist()
        runs = decoded(side.overview.window(wanted.first, wanted.first + len(wanted.waiting), width))["runs"]
        for cpu in wanted.ran:
            all_runs = plain_timeline.runs_of(wanted, cpu)
            if len(all_runs) <= width:
                continue
            filled = [
                run
                for run in all_runs
                if run[2][0] and any(run[0] <= low and high <= run[1] for low, high in zip(edges, edges[1:]))
            ]
            self.assertEqual([(int(begin), int(end), task) for of, begin, end, task, _ in runs if of == cpu], filled)

    def test_shares(self):
        """Only nothing is 0, and only all is 255."""
        lines = [switch(0, 1000, "a-5", "<idle>-0"), switch(0, 1001, "<idle>-0", "a-5", state="R")]
        lines += [
            switch(0, 11000, "a-5", "<idle>-0"),
            switch(0, 20999, "<idle>-0", "a-5", state="R"),
            waking(0, 21000, 5, "a-5"),
        ]
        answer = side_of(text_of(lines)).overview.window(1000, 21000, 2)
        self.assertEqual(numbers(answer["idle"], "B"), [1, 254])

    def test_size(self):
        """A run takes at most 24 bytes, in a recording of less than 71 minutes."""
        overview = side_of(simulated(1, 2000)).overview
        for sums in overview.sums:
            columns = (sums.lane.begin, sums.lane.task, sums.lane.line, sums.idle, sums.waited, sums.micros)
            self.assertEqual(sum(column.nbytes for column in columns), 24 * len(sums.lane.begin))

    def test_chosen_events(self):
        """Lines are those of the whole recording, if only some events of it were read."""
        with warnings.catch_warnings():
            warnings.simplefilter("ignore", histdesk.LossWarning)
            chosen = recording.read(text_of(BY_HAND), spare=waiting_waits.SPARE, events=["sched_switch"])
        runs = decoded(model.Side(chosen).overview.window(1000, 1400, 400))["runs"]
        self.assertIn((0, 300, 400, (7, "c"), 3), runs)

    def test_strikes_change_nothing(self):
        side = side_of(text_of(BY_HAND))
        before = side.overview.window(1000, 1400, 4)
        view = model.View([side])
        self.assertEqual(view.strike([("sched_waking", "")])["struck"], [1])
        self.assertEqual(view.overview(0, 1000, 1400, 4), before)
        with self.assertRaisesRegex(ValueError, "there is no recording 1"):
            view.overview(1, 1000, 1400, 4)


if __name__ == "__main__":
    sys.exit(main())
