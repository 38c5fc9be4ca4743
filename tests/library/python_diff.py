#!/usr/bin/env python3
"""Compares how waits change, from one recording to another and without some events, with a plain reckoning over both texts;
and tests tools/diff.

    python_diff.py [TEST]...

The library is found as the package finds it.
"""

import csv
import io
import json
import os
import re
import subprocess
import sys
import tempfile
import unittest
import warnings

# Nothing is written beside the sources.
sys.dont_write_bytecode = True

HERE = os.path.dirname(os.path.realpath(__file__))
PYTHON = os.path.realpath(os.path.join(HERE, "..", "..", "python"))
TOOL = os.path.realpath(os.path.join(HERE, "..", "..", "tools", "diff"))
sys.path[:0] = [PYTHON, HERE, os.path.join(HERE, "..", "model")]

import copies
import histdesk
import plain_waits
import recordings
from python_runner import main

try:
    import pandas
except ImportError:
    pandas = None

# How many events a desk holds.
DESK = 1048576
FIGURES = ("count", "mean", "p50", "p90", "p99", "max", "doubtful")
# The figures for which parts of each recording are compared.
SPREADS = ("per_second", "mean", "p99", "max", "waited")
# Filters, and the lines that they mean.
FILTERS = {
    "sched_waking if pid < 110": rb"sched_waking: .* pid=10[0-9] ",
    "sched_wakeup_new": rb"sched_wakeup_new: ",
    'sched_switch if prev_state == "R+"': rb"sched_switch: .* prev_state=R\+ ",
    "sched_switch if next_pid & 1": rb"sched_switch: .* next_pid=[0-9]*[13579] ",
    "sched_waking if pid == 104 || pid > 110": rb"sched_waking: .* pid=(104|11[1-9]|1[2-9][0-9]) ",
}


def diff(*words, **named):
    """The difference, without warnings."""
    with warnings.catch_warnings():
        warnings.simplefilter("ignore", histdesk.LossWarning)
        return histdesk.diff(*words, **named)


# ---- reckoned plainly


def seconds_of(text):
    """How long a recording is."""
    stamps = [event.place.stamp for event in plain_waits.acts_of(text)]
    return (max(stamps) - min(stamps)) / 1000000


def stripped(text, filters):
    """A text without the lines that some filters mean, and how many lines each of them means."""
    patterns = [re.compile(FILTERS[name]) for name in filters]
    lines = text.split(b"\n")
    left = [line for line in lines if not any(pattern.search(line) for pattern in patterns)]
    return b"\n".join(left), [sum(bool(pattern.search(line)) for line in lines) for pattern in patterns]


def sides_of(waits, by, length, above):
    """What is counted under each key on one side, as a dictionary of figures."""
    keys = plain_waits.keys_of(waits, by) if by else {(): waits}
    return {key: figures_of(found, length, above) for key, found in keys.items()}


def figures_of(waits, length, above):
    found = {**dict.fromkeys(FIGURES), **plain_waits.figures_of(waits, False)}
    figures = {name: found[name] for name in FIGURES}
    figures.update(per_second=found["count"] / length, waited=found["total"] / length)
    sure = [wait.micros for wait in waits if not wait.doubtful]
    figures["above"] = sum(micros > above for micros in sure) / len(sure) if above is not None and sure else None
    return figures


NOTHING = {**dict.fromkeys(FIGURES), "count": 0, "doubtful": 0, "per_second": 0, "waited": 0, "above": None}


class Reckoned:
    """Two lists of waits, and what their difference is."""

    def __init__(self, waits, lengths):
        self.waits, self.lengths = waits, lengths

    def rows(self, by, above=None):
        """Return the figures of both sides for each key that changed."""
        before, after = (sides_of(waits, by, length, above) for waits, length in zip(self.waits, self.lengths))
        rows = {key: (before.get(key, NOTHING), after.get(key, NOTHING)) for key in {**before, **after}}
        return {key: sides for key, sides in rows.items() if without_doubts(sides[0]) != without_doubts(sides[1])}


def without_doubts(figures):
    return {name: figure for name, figure in figures.items() if name != "doubtful"}


class Case(unittest.TestCase):
    """A test with a folder of its own."""

    def setUp(self):
        folder = tempfile.TemporaryDirectory()
        self.addCleanup(folder.cleanup)
        self.folder = folder.name

    def put(self, name, content):
        path = os.path.join(self.folder, name)
        with open(path, "wb") as file:
            file.write(content)
        return path

    def holds(self, found, reckoned, above=None):
        """The tables, and the first row, are those of the plain reckoning."""
        for by in ("task", "name", "cpu", "prio", "kind"):
            rows = found.table(by, above=above)
            keys = [row.key[1:] if by == "task" else row.key for row in rows]
            expected = reckoned.rows(by, above)
            self.assertEqual(sorted(keys), sorted(expected))
            for key, row in zip(keys, rows):
                self.row_holds(row, expected[key])
            changes = [abs(row.after.waited - row.before.waited) for row in rows]
            self.assertEqual(changes, sorted(changes, reverse=True))
        whole = [sides_of(waits, None, length, above)[()] for waits, length in zip(reckoned.waits, reckoned.lengths)]
        self.row_holds(found.whole(above=above), whole)

    def row_holds(self, row, sides):
        self.assertEqual([side._asdict() for side in row[1:]], [dict(side) for side in sides])


class TwoRecordings(Case):
    def test_tables(self):
        for seeds, holes, above in [((0, 1), 0, None), ((2, 3), 3, 100)]:
            texts = [recordings.simulated(seed, 300, holes=holes).text for seed in seeds]
            found = diff(*texts)
            self.assertEqual((found.by, found.struck, found.fate), ("name", None, None))
            lengths = [seconds_of(text) for text in texts]
            self.holds(found, Reckoned([plain_waits.waits_of(text) for text in texts], lengths), above)

    def test_sides(self):
        text = recordings.simulated(1, 200).text
        other = recordings.simulated(2, 200).text
        expected = diff(text, other).table()
        desk = histdesk.Desk()
        desk.load(other)
        for one, another in [(histdesk.read(text), other), (text, desk), (histdesk.waits(text), self.put("b", other))]:
            self.assertEqual(diff(one, another).table(), expected)
        self.assertEqual(diff(text, text).table(), [])

    def test_sorted_by_the_greatest(self):
        found = diff(*(recordings.simulated(seed, 300).text for seed in (4, 5)))
        changes = [abs((row.after.max or 0) - (row.before.max or 0)) for row in found.table(sort="max")]
        self.assertEqual(changes, sorted(changes, reverse=True))
        self.assertGreater(changes[0], changes[-1])
        for wrong in ({"sort": "p99"}, {"by": "colour"}):
            with self.assertRaises(ValueError):
                found.table(**wrong)

    def test_some_of_the_waits(self):
        texts = [recordings.simulated(seed, 300).text for seed in (6, 7)]
        found = diff(*texts).only(kinds=["woken", "new"], cpus=[0, 2])
        some = [
            [wait for wait in plain_waits.waits_of(text) if wait.kind != "preempted" and wait.end.cpu in (0, 2)]
            for text in texts
        ]
        seconds = [seconds_of(text) for text in texts]
        self.holds(found, Reckoned(some, seconds))
        pid = some[0][0].pid
        of_one = [[wait for wait in plain_waits.waits_of(text) if wait.pid == pid] for text in texts]
        self.holds(diff(*texts).only(tasks=pid), Reckoned(of_one, seconds))
        # An iterator, which can be gone through only once, chooses from both sides.
        self.holds(diff(*texts).only(tasks=iter([pid])), Reckoned(of_one, seconds))

    @unittest.skipUnless(pandas, "pandas is missing")
    def test_to_pandas(self):
        found = diff(*(recordings.simulated(seed, 100).text for seed in (8, 9)))
        frame, rows = found.to_pandas("cpu"), found.table("cpu")
        self.assertEqual(list(frame.columns[:4]), ["cpu", "kind", "count_before", "count_after"])
        self.assertEqual(list(zip(frame.cpu, frame.kind)), [row.key for row in rows])
        self.assertEqual(
            list(frame.max_after.astype(object).where(frame.max_after.notna(), None)), [row.after.max for row in rows]
        )
        self.assertEqual(len(diff(b"", b"").to_pandas()), 0)


class Without(Case):
    def compared(self, text, filters, above=None):
        """Return the difference that some filters make, compared with the plain reckoning over the text without those lines."""
        left, counts = stripped(text, filters)
        # How sure waits are is by all events of the recording.
        gaps = plain_waits.gaps_of(text)
        waits = [plain_waits.waits_of(text, gaps=gaps), plain_waits.waits_of(left, gaps=gaps)]
        found = diff(text, without=filters)
        self.assertEqual([one.count for one in found.struck], counts)
        self.holds(found, Reckoned(waits, [seconds_of(text)] * 2), above)
        self.fate_holds(found.fate, waits)
        return found

    def fate_holds(self, fate, waits):
        """Lines are counted anew in the text that is left, so events are told apart only by stamp and CPU."""
        before, after = ({wait.end[:2]: wait.begin[:2] for wait in side} for side in waits)
        moved = sum(before[end] != after[end] for end in set(before) & set(after))
        self.assertEqual(fate, (len(set(before) - set(after)), moved, len(set(after) - set(before))))

    def test_tables(self):
        for seed, holes in [(10, 0), (11, 0), (12, 3), (13, 3)]:
            text = recordings.simulated(seed, 300, holes=holes).text
            for filters in [[name] for name in FILTERS] + [list(FILTERS)]:
                self.compared(text, filters, above=50)

    def test_what_becomes_of_waits(self):
        """What becomes of waits, worked out by hand: four of the nine wakings are of task 10."""
        found = diff(recordings.kinds().text, without="sched_waking if pid == 10")
        self.assertEqual(found.struck, (("sched_waking", "pid == 10", 4, 9),))
        self.assertEqual(
            [(row.key, row.before.count, row.after.count) for row in found.table()],
            [(("renamed", 10, "woken"), 3, 0), (("renamed", 10, "preempted"), 0, 1)],
        )
        # Its first wait now begins where it was preempted.
        self.assertEqual(found.fate, (2, 1, 0))
        found = diff(recordings.kinds().text, without=" sched_waking  if  pid == 12 && common_cpu == 0 ")
        self.assertEqual(found.fate, (1, 0, 0))

    def test_what_becomes_of_a_wait_after_two_wakings(self):
        """Without the later one of two wakings, a wait begins with the earlier one, 10 us before it."""
        lines = [
            recordings.switch(0, 1000190, "<idle>-0", "c-12", state="R"),
            # It is woken while it is about to sleep.
            recordings.waking(1, 1000200, 12, name="c"),
            recordings.switch(0, 1000201, "c-12", "<idle>-0"),
            recordings.waking(1, 1000202, 12, name="c", event="sched_wakeup"),
            recordings.waking(1, 1000210, 12, name="c"),
            recordings.switch(0, 1000215, "<idle>-0", "c-12", state="R"),
        ]
        lines[4] = lines[4].replace("prio=120", "prio=99")
        found = diff(recordings.text_of(lines), without="sched_waking if prio == 99")
        (row,) = found.table()
        self.assertEqual((row.key, row.before.max, row.after.max, found.fate), (("c", 12, "woken"), 5, 15, (0, 1, 0)))
        # Here both wakings show that it ran unseen between them, so the longer wait is doubtful, even without the later one.
        lines = recordings.kinds().text.split(b"\n")
        second = [at for at, line in enumerate(lines) if b" pid=12 " in line and b"sched_waking" in line][1]
        lines[second] = lines[second].replace(b"prio=120", b"prio=99")
        found = diff(b"\n".join(lines), without="sched_waking if prio == 99")
        (row,) = found.table()
        self.assertEqual((row.key, row.before.max, row.after.max, found.fate), (("c", 12, "woken"), 5, None, (0, 1, 0)))
        self.assertEqual((row.before.doubtful, row.after.doubtful), (0, 1))

    def test_places_in_a_stretch_of_time(self):
        known = recordings.simulated(14, 200)
        path = self.put("a", known.text)
        half = known.waits[len(known.waits) // 2].end.stamp
        found = diff(histdesk.read(path, start=histdesk.Stamp(half)), without="sched_wakeup_new")
        # Lines are counted from the first event that is taken.
        counts = {}
        for event in plain_waits.acts_of(known.text):
            counts[event.place.cpu] = counts.get(event.place.cpu, 0) + (event.place.stamp < half)
        places = {wait.end._replace(line=wait.end.line - counts[wait.end.cpu]) for wait in known.waits}
        ends = [(int(wait.end_stamp), int(wait.end_cpu), int(wait.end_line)) for wait in found.after.array]
        self.assertTrue(ends and set(ends) <= places)

    def test_refused(self):
        text = recordings.kinds().text
        for wrong in ["", "sched_wakeup if pid == 1", "wakeup_latency", "sched_waking pid == 1"]:
            with self.assertRaisesRegex(ValueError, "sched_waking, sched_wakeup_new, sched_switch"):
                diff(text, without=[wrong])
        with self.assertRaises(histdesk.Refused) as caught:
            diff(b"hello", without=["sched_waking if pids == 1"])
        self.assertEqual(caught.exception.number, 9)
        for words, named in [((text,), {}), ((text, text), {"without": "sched_waking"}), ((text,), {"without": []})]:
            with self.assertRaisesRegex(ValueError, "between two recordings"):
                diff(*words, **named)
        with self.assertRaises(TypeError):
            diff(histdesk.waits(text), without="sched_waking")
        with self.assertRaisesRegex(ValueError, "all CPUs"):
            diff(histdesk.read(text, cpus=[0]), without="sched_waking")

    def test_warning(self):
        for words in [(recordings.hole_at_start().text, b""), (recordings.hole_at_start().text,)]:
            with warnings.catch_warnings(record=True) as told:
                warnings.simplefilter("always")
                found = histdesk.diff(*words, without=["sched_switch"] * (len(words) == 1))
            self.assertEqual([one.category for one in told], [histdesk.LossWarning])
            self.assertIn("CPU 2", repr(found))
            self.assertIn("doubtful waits are left out, 3 before and 0 after", repr(found))
            self.assertIn("CPU 2", found._repr_html_())


class Long(Case):
    """Recordings of more events than a desk holds: copies of small ones, which the plain reckoning reads."""

    def long(self, name, seed):
        """The path of a long recording, its copies, and how many they are."""
        made = copies.Copies(recordings.simulated(seed, 400).text)
        count = DESK // len(made.lines) + 20
        return self.put(name, made.text(count)), made, count

    def counts(self, waits):
        """Return for each name and kind how many waits there are, how long they are together, and how long the longest is."""
        found = {}
        for wait in waits:
            count, total, most = found.get((wait.name, wait.kind), (0, 0, 0))
            found[wait.name, wait.kind] = count + 1, total + wait.micros, max(most, wait.micros)
        return found

    def told(self, waits):
        return {row[:2]: (row.count, row.total, row.max) for row in waits.table("name")}

    def test_without(self):
        path, made, count = self.long("a", 15)
        names = list(FILTERS)[-2:]
        patterns = [re.compile(FILTERS[name]) for name in names]
        found = diff(path, without=names)

        def reckoned(some):
            """The waits without what some patterns mean; how sure they are is by all events."""
            return made.waits(lambda text: plain_waits.waits_of(text, plain_waits.like(some), plain_waits.gaps_of(text)), count)

        waits, left = reckoned([]), reckoned(patterns)
        self.assertGreater(found.before.held.events, DESK)
        self.assertEqual([self.told(side) for side in (found.before, found.after)], [self.counts(waits), self.counts(left)])
        ends, other = ({wait.end: wait.begin for wait in side} for side in (waits, left))
        moved = sum(other.get(end, begin) != begin for end, begin in ends.items())
        self.assertEqual(found.fate, (len(ends.keys() - other.keys()), moved, len(other.keys() - ends.keys())))
        struck = [count * sum(bool(pattern.search(line)) for line in made.lines) for pattern in patterns]
        self.assertEqual([one.count for one in found.struck], struck)

    def test_tool(self):
        (one, *first), (other, *second) = (self.long(name, seed) for name, seed in (("a", 16), ("b", 17)))
        words = [sys.executable, "-B", TOOL, one, other, "--json"]
        whole = json.loads(subprocess.run(words, stdout=subprocess.PIPE, check=True).stdout)
        for side, (made, count) in (("before", first), ("after", second)):
            self.assertEqual(whole[side]["events"], count * len(made.lines))
            waits = self.counts(made.waits(plain_waits.waits_of, count))
            rows = {(row["name"], row["kind"]): (row[f"count_{side}"], row[f"max_{side}"]) for row in whole["rows"]}
            self.assertEqual(
                {key: rows[key] for key in waits if key in rows}, {key: waits[key][::2] for key in waits if key in rows}
            )
            self.assertEqual(whole["all"][f"count_{side}"], sum(count for count, _, _ in waits.values()))


class Tool(Case):
    def run_tool(self, *words, status=0):
        """What the tool prints, on both streams."""
        ran = subprocess.run(
            [sys.executable, "-B", TOOL, *words], stdout=subprocess.PIPE, stderr=subprocess.PIPE, check=False, cwd=self.folder
        )
        self.assertEqual(ran.returncode, status, ran.stderr)
        return ran.stdout.decode(), ran.stderr.decode()

    def test_text(self):
        self.put("k.trace", recordings.kinds().text)
        told, errors = self.run_tool("k.trace", "--without", "sched_waking if pid == 10", "--above", "20")
        self.assertEqual(errors, "")
        # By hand: in 813 us there are waits of 0, 3, 5, 7, 25, 30, 40 and 40 us, 150 together. Those of 3 and 30 are gone, and
        # 25 becomes 30: 122.
        lines = told.split("\n")
        self.assertEqual(lines[0], "k.trace: 29 events from 0.999990 to 1.000803 (0.000813 s) on CPUs 0-3")
        self.assertEqual([lines.pop(1)], plain_waits.missing_told(recordings.kinds().text))
        self.assertEqual(lines[1], "without 4 of 9 sched_waking if pid == 10")
        self.assertEqual(lines[2], "2 waits are gone, 1 begin with another event, and 0 are new")
        self.assertEqual(lines[3], "")
        self.assertEqual(lines[4].split(), "task pid kind waits mean p50 p90 p99 max above 20 change of waited/s".split())
        self.assertEqual(lines[5].split(), "all 8 -> 6 18.8 -> 20.3 7 40 40 40 50.000% -34440 (-19%)".split())
        self.assertEqual(
            lines[6].split(),
            "renamed 10 woken 3 -> 0 19.3 -> - 25 -> - 30 -> - 30 -> - 30 -> - 66.667% -> - -71341 (-100%)".split(),
        )
        self.assertEqual(
            lines[7].split(),
            "renamed 10 preempted 0 -> 1 - -> 30.0 - -> 30 - -> 30 - -> 30 - -> 30 - -> 100.000% +36900".split(),
        )
        self.assertEqual(lines[8:], [""])

    def test_stretch_of_time(self):
        self.put("k.trace", recordings.kinds().text)
        for words, stretch in ((["--from", "1.0002"], lambda s: s >= 1000200), (["--until", "1.0004"], lambda s: s < 1000400)):
            told, errors = self.run_tool("k.trace", "--without", "sched_waking if pid == 10", *words)
            self.assertEqual(errors, "")
            text = recordings.kinds().text
            wakings = [
                event for event in plain_waits.events_of(text) if event.event == "sched_waking" and stretch(event.place.stamp)
            ]
            struck = [event for event in wakings if event.pid == 10]
            self.assertIn(f"without {len(struck)} of {len(wakings)} sched_waking if pid == 10", told.split("\n"))

    def test_two_recordings(self):
        for seed in (1, 2):
            self.put(f"{seed}.trace", recordings.simulated(seed, 200).text)
        told, _ = self.run_tool("1.trace", "2.trace", "--top", "3", "--sort", "max", "--by", "cpu", "--kind", "woken")
        lines = told.rstrip("\n").split("\n")
        self.assertRegex(lines[0], "^before: 1.trace: [0-9]+ events")
        for seed, side in ((1, "before"), (2, "after")):
            [missing] = plain_waits.missing_told(recordings.simulated(seed, 200).text)
            self.assertEqual(lines.pop(seed), f"{side}: {missing}")
        self.assertRegex(lines[1], "^after: 2.trace: [0-9]+ events")
        self.assertEqual(lines[3].split()[:3], ["cpu", "kind", "waits/s"])
        self.assertEqual(lines[4].split()[0], "all")
        self.assertEqual([line.split()[1] for line in lines[5:8]], ["woken"] * 3)
        self.assertEqual(lines[8], "1 more row changed and is not shown; --top all shows it")
        told, _ = self.run_tool("1.trace", "1.trace")
        self.assertEqual(told.rstrip("\n").split("\n")[-1], "nothing changed")

    def test_csv_and_json(self):
        paths = [self.put(f"{seed}.trace", recordings.simulated(seed, 200).text) for seed in (1, 2)]
        rows = diff(*paths).table("task", above=100)
        parts = diff(*paths).parts("task")
        told = [
            [
                *row.key,
                *(figure for pair in zip(row.before, row.after) for figure in pair),
                *(side.width for name in SPREADS for side in parts[row.key].figure(name)[:2]),
            ]
            for row in rows
        ]
        names = ["task", "pid", "kind"]
        names += [f"{name}_{side}" for name in histdesk.Figures._fields for side in ("before", "after")]
        names += [f"{name}_spread_{side}" for name in SPREADS for side in ("before", "after")]
        words = (*paths, "--by", "task", "--above", "100")
        lines = list(csv.reader(io.StringIO(self.run_tool(*words, "--csv")[0])))
        self.assertEqual(lines, [names, *([str("" if cell is None else cell) for cell in row] for row in told)])
        whole = json.loads(self.run_tool(*words, "--json")[0])
        self.assertEqual(whole["rows"], [dict(zip(names, row)) for row in told])
        self.assertEqual(whole["all"]["p99_after"], diff(*paths).whole().after.p99)
        self.assertEqual([whole[side]["trace"] for side in ("before", "after")], paths)

    def test_refused(self):
        good, bad = self.put("good", recordings.kinds().text), self.put("bad", recordings.kinds().text + b"hello\n")
        for words in [(good,), (good, "--without", "sched_switch", good)]:
            self.assertIn("another TRACE or --without", self.run_tool(*words, status=2)[1])
        for words in [(good, bad), (bad, good), (bad, "--without", "sched_switch")]:
            self.assertRegex(self.run_tool(*words, status=2)[1], f"^diff: {bad}: line [0-9]+")
        self.assertRegex(
            self.run_tool(good, "--without", "sched_switch if pid > 1", status=2)[1], "^diff: the filter can't be read"
        )
        self.assertRegex(self.run_tool(good, "missing", status=2)[1], "^diff: missing: No such file or directory\n$")
        difference = histdesk.diff(*(histdesk.waits(path, lenient=True) for path in (good, bad)))
        self.assertRegex(repr(difference), "\nafter: 1 line can't be read and is left out: [0-9]+$")
        told, errors = self.run_tool(good, bad, "--lenient")
        self.assertRegex(errors, f"^diff: {bad}: 1 line can't be read and is left out: [0-9]+\n$")
        self.assertTrue(told.endswith("nothing changed\n"))

    def test_losses(self):
        path = self.put("hole", recordings.hole_at_start().text)
        told, errors = self.run_tool(path, "--without", "sched_waking if pid == 46")
        self.assertRegex(errors, f"^diff: {path}: events were lost: .*CPU 2")
        self.assertIn("doubtful waits are left out, 3 before and 3 after", told)
        self.assertIn("2 -> 1", told)


if __name__ == "__main__":
    sys.exit(main())
