#!/usr/bin/env python3
"""Tests how several recordings on each side are compared, and parts of one recording, by a plain enumeration of all splits, a
published table of the rank-sum test, and figures that a plain reckoning finds (plain_waits.py); and tests tools/diff with `--`.

    python_noise.py [TEST]...

All tests need numpy. The last line says how many of the tests hold.
"""

import csv
import io
import itertools
import json
import math
import os
import random
import subprocess
import sys
import tempfile
import unittest
import warnings
from fractions import Fraction

# Nothing is written beside the sources.
sys.dont_write_bytecode = True

HERE = os.path.dirname(os.path.realpath(__file__))
PYTHON = os.path.realpath(os.path.join(HERE, "..", "..", "python"))
TOOL = os.path.realpath(os.path.join(HERE, "..", "..", "tools", "diff"))
sys.path[:0] = [PYTHON, HERE, os.path.join(HERE, "..", "model")]

import numpy

import histdesk
import plain_waits
import recordings
from histdesk.compare import permutation
from python_runner import main
from recordings import switch, text_of, waking

try:
    import pandas
except ImportError:
    pandas = None

FIGURES = ("per_second", "mean", "p99", "max", "waited")
# Mann and Whitney, "On a test of whether one of two random variables is stochastically larger than the other" (1947), its
# first table: the chance that U is at most 0, 1, .. if both samples have five members, to three digits.
MANN_WHITNEY_5_5 = (0.004, 0.008, 0.016, 0.028, 0.048, 0.075, 0.111, 0.155, 0.210, 0.274, 0.345, 0.421, 0.500)


# ---- loads


def load(seed, slow=1.0, length=60000, names=("a", "b", "c")):
    """A recording of so many microseconds of tasks that each wait for a CPU of their own: by chance, and on average 60, 120,
    180, .. microseconds, or `slow` times as long."""
    chance, events, end = random.Random(seed), [], 1000000 + length
    for cpu, name in enumerate(names):
        at, pid = 1000000 + chance.randrange(100), 1000 * (seed + 1) + cpu
        while at < end:
            wait = round(slow * chance.expovariate(1 / (60 * (cpu + 1))))
            events.append((at, cpu, waking(cpu, at, pid, name=name, target=cpu)))
            events.append((at + wait + 1, cpu, switch(cpu, at + wait + 1, "<idle>-0", f"{name}-{pid}", state="R")))
            at += wait + chance.randrange(100, 300)
            events.append((at, cpu, switch(cpu, at, f"{name}-{pid}", "<idle>-0")))
            at += chance.randrange(100, 300)
    events.sort(key=lambda event: event[:2])
    return text_of([line for _, _, line in events])


def compare(before, after):
    """The comparison, without warnings."""
    with warnings.catch_warnings():
        warnings.simplefilter("ignore", histdesk.LossWarning)
        return histdesk.diff(before, after)


# ---- reckoned plainly


def clearness(values, before):
    """The square of the difference of two means, as a share of the sum of squares about the mean of all."""
    middle = Fraction(sum(values), len(values))
    squares = sum((value - middle) ** 2 for value in values)
    means = [Fraction(sum(side), len(side)) for side in before]
    return (means[0] - means[1]) ** 2 / squares if squares else Fraction(0)


def enumerated(columns, size):
    """Return for each column the share of splits in which some column differs as clearly; `size` values are before."""
    count, splits = len(columns[0]), []
    for members in itertools.combinations(range(count), size):
        others = [at for at in range(count) if at not in members]
        splits.append([clearness(column, [[column[at] for at in side] for side in (members, others)]) for column in columns])
    clearest = [max(split) for split in splits]
    return [Fraction(sum(other >= one for other in clearest), len(splits)) for one in splits[0]]


def p_values(columns, size):
    """The same, by the package."""
    splits = permutation.Splits(size, len(columns[0]) - size)
    return permutation.p_values(numpy.array(columns, "float64").T, splits).tolist()


def figures_of(waits, length):
    """The figures of some waits in a stretch of so many microseconds."""
    values = [wait.micros for wait in waits if not wait.doubtful]
    per_second = len(values) * 1e6 / length
    if not values:
        return dict(zip(FIGURES, (per_second, None, None, None, 0)))
    percentile = plain_waits.percentile(values, 99)
    return dict(zip(FIGURES, (per_second, sum(values) / len(values), percentile, max(values), sum(values) * 1e6 / length)))


def length_of(text):
    """How many microseconds a recording is long."""
    stamps = [event.place.stamp for event in plain_waits.acts_of(text)]
    return max(stamps) - min(stamps)


def rows_of(sides, by):
    """Return for each key and figure its values on both sides. Each side is a list of waits and lengths."""
    keyed = [[(plain_waits.keys_of(waits, by) if by else {(): waits}, length) for waits, length in side] for side in sides]
    keys = {key for side in keyed for waits, _ in side for key in waits}
    rows = {}
    for key in keys:
        found = [[figures_of(waits.get(key, []), length) for waits, length in side] for side in keyed]
        rows[key] = {name: [tuple(one[name] for one in side) for side in found] for name in FIGURES}
    return {key: row for key, row in rows.items() if any(map(any, row["per_second"]))}


class Case(unittest.TestCase):
    """A test with a folder of its own."""

    def setUp(self):
        folder = tempfile.TemporaryDirectory()
        self.addCleanup(folder.cleanup)
        self.folder = folder.name

    def put(self, name, content):
        path = os.path.join(self.folder, name)
        with open(path, "wb") as file:
            file.write(content)
        return path

    def close(self, one, other):
        """Check that both are None or about the same."""
        self.assertEqual(one is None, other is None)
        if one is not None:
            self.assertAlmostEqual(one, other, delta=1e-9 * max(1, abs(other)))

    def values_hold(self, row, expected):
        """The values of a row are those of a plain reckoning."""
        for name in FIGURES:
            for side, values in zip((row.figure(name).before, row.figure(name).after), expected[name]):
                self.assertEqual(len(side.values), len(values))
                for one, other in zip(side.values, values):
                    self.close(one, other)


class Test(Case):
    """The test by itself, on numbers."""

    def test_by_hand(self):
        # Of the 20 ways to split six numbers into three and three, the actual one and its mirror are the clearest.
        self.assertEqual(p_values([[1, 2, 3, 4, 5, 6]], 3), [2 / 20])
        # 1, 2 and 4 make 7 of 21. As far from the middle or farther: 6, 7, 14 and 15, one way each.
        self.assertEqual(p_values([[1, 2, 4, 3, 5, 6]], 3), [4 / 20])
        # Three against four: three have 12 of 28 on average; 6 is as far from it as 18, which one other way gives.
        self.assertEqual(p_values([[1, 2, 3, 4, 5, 6, 7]], 3), [2 / 35])
        self.assertEqual(p_values([[1, 2, 3, 14, 15, 16, 17]], 3), [1 / 35])
        # A figure that is the same in all recordings is in each split what it is in the actual one.
        self.assertEqual(p_values([[7] * 8], 4), [1])
        self.assertEqual(p_values([[0.1] * 8], 4), [1])
        # A figure that is constant doesn't change what is said of the other.
        self.assertEqual(p_values([[7] * 8, list(range(8))], 4), [1, 2 / 70])

    def test_beside_a_published_table(self):
        """With ranks, the means' difference orders splits as U does; half of each two-sided chance is that of one side."""
        for most, chance in enumerate(MANN_WHITNEY_5_5):
            ranks = next(one for one in itertools.combinations(range(1, 11), 5) if sum(one) == 15 + most)
            others = [rank for rank in range(1, 11) if rank not in ranks]
            [p] = p_values([[*ranks, *others]], 5)
            self.assertLess(abs(p / 2 - chance), 0.0006)

    def test_beside_all_splits(self):
        chance = random.Random(3)
        for before, after in [(4, 4), (2, 5), (5, 3), (4, 5)]:
            for width in (1, 2, 6):
                columns = [[chance.randrange(12) for _ in range(before + after)] for _ in range(width)]
                columns[0] = sorted(columns[0])
                for p, share in zip(p_values(columns, before), enumerated(columns, before)):
                    self.assertAlmostEqual(p, float(share))
        # Figures may be as different in size as a maximum and a share.
        columns = [[value * 10**power for value in columns[0]] for power in (-9, 0, 12)]
        for p, share in zip(p_values(columns, 4), enumerated([columns[1]] * 3, 4)):
            self.assertAlmostEqual(p, float(share))

    def test_drawn_splits(self):
        """Of 48,620 splits some are drawn: by chance, but always the same."""
        chance = random.Random(5)
        for shift in (0, 1, 2):
            column = [chance.gauss(0, 1) + shift * (at >= 9) for at in range(18)]
            splits = permutation.Splits(9, 9)
            self.assertEqual((splits.count, splits.is_exact, splits.trials), (48620, False, 10000))
            [p], [again] = p_values([column], 9), p_values([column], 9)
            self.assertEqual(p, again)
            actual = abs(sum(column[:9]) - sum(column) / 2)
            sums = (sum(side) for side in itertools.combinations(column, 9))
            exact = sum(abs(one - sum(column) / 2) >= actual - 1e-9 for one in sums) / 48620
            # Five standard deviations of a share of 10,000.
            self.assertLess(abs(p - exact), 5 * math.sqrt(exact * (1 - exact) / 10000) + 2e-4)
        # No p is 0, however clear the difference is.
        self.assertAlmostEqual(p_values([[*range(20), *range(1000, 1020)]], 20)[0], 1e-4)

    def test_too_few(self):
        # The least p by hand: 2 of 6, 1 of 10, 2 of 20, 1 of 21, 1 of 35, 2 of 70 and 2 of 252.
        least = {(2, 2): 2 / 6, (2, 3): 1 / 10, (3, 3): 2 / 20, (2, 5): 1 / 21, (3, 4): 1 / 35, (4, 4): 2 / 70, (5, 5): 2 / 252}
        for sizes, share in {**least, (1, 1): 1.0, (1, 19): 1 / 20, (0, 5): 1.0}.items():
            splits = permutation.Splits(*sizes)
            self.assertAlmostEqual(splits.least, share)
            self.assertEqual(splits.can_tell, share <= 0.05)
        self.assertEqual(permutation.enough_recordings(), 4)

    def test_chance_of_a_false_report(self):
        """Of 300 tables without a change, at most about one in 20 has a figure that is reported, though each has 40. A change
        of one figure of 40 is found in nearly all."""
        draw = numpy.random.default_rng(7)
        splits, false, found = permutation.Splits(5, 5), 0, 0
        for _ in range(300):
            values = draw.lognormal(0, 0.1, (10, 40))
            false += permutation.p_values(values, splits).min() <= permutation.LEVEL
            values[5:, 3] *= 1.8
            found += permutation.p_values(values, splits)[3] <= permutation.LEVEL
        # 15 are expected, with a standard deviation of 3.8.
        self.assertLessEqual(false, 30)
        self.assertGreater(found, 290)

    def test_many_rare_rows(self):
        """Hundreds of tasks that are in about half of the recordings don't hide that one of the others waits longer."""
        chance, found = random.Random(8), 0
        for _ in range(20):
            rows = [self.row(f"a{at}", [chance.gauss(1000, 40) for _ in range(10)]) for at in range(8)]
            rows.append(self.row("slow", [chance.gauss(1000 if at < 5 else 1300, 40) for at in range(10)]))
            rare = (chance.sample([0] * 5 + [10] * 5, 10) for _ in range(300))
            rows += [self.row(f"rare{at}", values) for at, values in enumerate(rare)]
            tested = permutation.test_rows(rows, permutation.Splits(5, 5))
            self.assertEqual([at for at, row in enumerate(tested) if row.waited.p is not None], list(range(9)))
            found += "waited" in tested[8].beyond()
        self.assertGreaterEqual(found, 15)

    def row(self, name, values):
        """A row in which all figures are the same."""
        figure = permutation.FigureComparison(permutation.Spread(tuple(values[:5])), permutation.Spread(tuple(values[5:])))
        return permutation.comparison_row_of((name, "woken"), [figure] * 5, sum(map(bool, values)))


class Several(Case):
    """Several recordings on each side."""

    def test_figures(self):
        texts = [recordings.simulated(seed, 200, holes=3 * (seed % 2)).text for seed in range(9)]
        sides = [[(plain_waits.waits_of(text), length_of(text)) for text in some] for some in (texts[:4], texts[4:])]
        found = compare(texts[:4], texts[4:])
        self.assertTrue(found.can_tell)
        for by in ("task", "name", "cpu", "prio", "kind"):
            rows, expected = found.table(by), rows_of(sides, by)
            self.assertEqual({row.key[by == "task" :] for row in rows}, set(expected))
            for row in rows:
                self.values_hold(row, expected[row.key[by == "task" :]])
                present = sum(map(bool, itertools.chain(*expected[row.key[by == "task" :]]["per_second"])))
                self.assertEqual(row.present, present)
            self.p_holds(rows, 4)
        self.values_hold(found.whole(), rows_of(sides, None)[()])
        self.p_holds([found.whole()], 4)

    def p_holds(self, rows, least):
        """Check that what is said of figures is what all splits say. It is said of rows that are in enough recordings and have
        a hundredth of the time, and of these rows' figures that are in all recordings."""
        waited = [sum(map(Fraction, (*row.waited.before.values, *row.waited.after.values))) for row in rows]
        pairs = [(row, share) for row, share in zip(rows, waited) if row.present >= least]
        figures = [row.figure(name) for row, share in pairs if 100 * share >= sum(waited) for name in FIGURES]
        figures = [one for one in figures if None not in (*one.before.values, *one.after.values)]
        columns = [[Fraction(value) for value in (*one.before.values, *one.after.values)] for one in figures]
        # The plain enumeration takes long for many columns.
        if len(columns) < 30:
            for one, share in zip(figures, enumerated(columns, least)):
                self.assertAlmostEqual(one.p, float(share))
                self.assertEqual(one.is_within, share > Fraction(1, 20))
        tested = sum(row.figure(name).p is not None for row in rows for name in FIGURES)
        self.assertEqual(tested, len(figures))

    def test_same_load(self):
        """Recordings of one load: whatever differs is within the spread, in nearly all of 24 comparisons."""
        whole = rows = 0
        for seed in range(24):
            texts = [load(10 * seed + at) for at in range(10)]
            found = compare(texts[:5], texts[5:])
            whole += not found.whole().beyond()
            rows += not any(row.beyond() for row in found.table())
        # Each of the two is expected to fail in about one comparison of 20.
        self.assertGreaterEqual(whole, 20)
        self.assertGreaterEqual(rows, 20)

    def test_slower_by_30_per_cent(self):
        for seed in range(8):
            texts = [load(500 + 10 * seed + at, 1.3 if at >= 5 else 1.0) for at in range(10)]
            found = compare(texts[:5], texts[5:])
            self.assertIn("mean", found.whole().beyond())
            self.assertIn("waited", found.whole().beyond())
            self.assertGreater(found.whole().mean.change, 0)
            self.assertAlmostEqual(found.whole().mean.p, 2 / 252)
            # And with two on each side nothing can be said of it.
            few = compare(texts[:2], texts[5:7])
            self.assertFalse(few.can_tell)
            self.assertEqual([few.whole().beyond(), few.whole().mean.p], [[], None])

    def test_too_few(self):
        texts = [load(seed, length=8000) for seed in range(4)]
        told = repr(compare(texts[:2], texts[2:]))
        self.assertIn("2 against 2 recordings are too few for a test: even the clearest difference", told)
        self.assertIn("by chance in 1 of 3 cases.", told)
        self.assertIn("4 recordings on each side are enough.", told)
        self.assertNotIn("(p ", told)
        # Even without a test, values that overlap are within the spread; of others it isn't known.
        figure = histdesk.FigureComparison(histdesk.Spread((1, 5)), histdesk.Spread((4, 9)))
        self.assertIs(figure.is_within, True)
        figure = histdesk.FigureComparison(histdesk.Spread((1, 3)), histdesk.Spread((4, 9)))
        self.assertIsNone(figure.is_within)

    def test_spread(self):
        spread = histdesk.Spread((3, None, 1, 5))
        self.assertEqual((spread.mean, spread.least, spread.greatest, spread.width), (3, 1, 5, 4))
        for values in [(), (None, None)]:
            spread = histdesk.Spread(values)
            self.assertEqual((spread.mean, spread.least, spread.greatest, spread.width), (None,) * 4)
        self.assertIsNone(histdesk.FigureComparison(spread, histdesk.Spread((1,))).change)

    def test_rows_on_one_side(self):
        """A task that is in all recordings of only one side is found by its count and its time. One in few isn't tested."""
        before = [load(seed) for seed in range(5)]
        after = [load(10 + seed, names=("a", "b", "c", "new", *(["rare"] * (seed == 3)))) for seed in range(5)]
        rows = {row.key[0]: row for row in compare(before, after).table()}
        self.assertEqual(rows["new"].beyond(), ["per_second", "waited"])
        self.assertEqual(rows["new"].per_second.before.values, (0,) * 5)
        self.assertEqual([rows["new"].mean.before.mean, rows["new"].mean.p, rows["new"].mean.is_within], [None] * 3)
        self.assertEqual((rows["rare"].present, rows["rare"].waited.p), (1, None))
        self.assertIn("not tested: in 1 of 10 recordings", repr(compare(before, after)))
        self.assertEqual(next(iter(rows)), "new")
        gone = {row.key[0]: row for row in compare(after, before).table()}
        self.assertEqual(gone["new"].beyond(), ["per_second", "waited"])
        self.assertLess(gone["new"].waited.change, 0)

    def test_empty_recordings(self):
        texts = [load(seed, length=12000) for seed in range(9)]
        found = compare([*texts[:4], b""], texts[4:])
        self.assertEqual(found.splits.sizes, (4, 5))
        self.assertEqual(found.whole().waited.before.values, compare(texts[:4], texts[4:]).whole().waited.before.values)
        told = "recording 5 before: it has no two timestamps, and so no waits per second; it is left out"
        self.assertIn(told, found.lines())
        for sides in [([b"", b""], texts[:3]), ([b"", b""], [b"", b""]), ([], texts[:3])]:
            found = compare(*sides)
            self.assertFalse(found.can_tell)
            self.assertIn("a side has no recording that can be compared", repr(found))
            self.assertIsNone(found.whole().waited.change)
        # A recording in which nobody waits has figures: none per second.
        idle = text_of([switch(0, 1000000 + at, "<idle>-0", "a-1", state="R") for at in (0, 1000)])
        found = compare([*texts[:3], idle], texts[4:])
        self.assertEqual((found.splits.sizes, found.whole().per_second.before.values[3]), ((4, 5), 0))
        self.assertIsNone(found.whole().mean.p)
        self.assertIsNotNone(found.whole().waited.p)
        self.assertEqual(compare([idle], [idle.replace(b"1.001000", b"1.002000")]).table(), [])

    def test_given_twice(self):
        texts = [load(seed, length=4000) for seed in range(4)]
        path = self.put("a.trace", texts[0])
        copy = self.put("b.trace", texts[0])
        for before, after in [([path, path], texts[2:]), ([path, texts[1]], [texts[2], copy]), ([texts[1]] * 2, [path])]:
            with self.assertRaisesRegex(ValueError, "the same recording is given twice"):
                compare(before, after)
        waits = histdesk.waits(texts[0])
        with self.assertRaisesRegex(ValueError, "the same recording is given twice"):
            compare([waits, waits], texts[1:])

    def test_sides(self):
        texts = [load(seed, length=4000) for seed in range(4)]
        expected = compare(texts[:2], texts[2:]).table()
        desk = histdesk.Desk()
        desk.load(texts[3])
        sides = (self.put("a", texts[0]), histdesk.read(texts[1])), [histdesk.waits(texts[2]), desk]
        self.assertEqual(compare(*sides).table(), expected)
        self.assertEqual(len(compare(texts[0], texts[1:]).after), 3)
        only = compare(texts[:2], texts[2:]).only(kinds=["woken"], cpus=[1])
        self.assertEqual([row.key for row in only.table("cpu")], [(1, "woken")])
        whole = {row.key: row for row in compare(texts[:2], texts[2:]).table("cpu")}
        self.assertEqual(only.table("cpu"), [whole[1, "woken"]])
        by_task = {row.key: row for row in compare(texts[:2], texts[2:]).table("task")}
        pid = max(by_task)[0]
        only_task = compare(texts[:2], texts[2:]).only(tasks=[pid]).table("task")
        self.assertEqual({row.key for row in only_task}, {key for key in by_task if key[0] == pid})
        for wrong in ({"by": "colour"}, {"sort": "p99"}):
            with self.assertRaises(ValueError):
                compare(texts[:2], texts[2:]).table(**wrong)
        with self.assertRaises(ValueError):
            only.only(kinds=["asleep"])
        with self.assertRaises(ValueError):
            only.whole().figure("key")
        with self.assertRaisesRegex(TypeError, "from one recording"):
            histdesk.diff(texts[:2], without="sched_waking")
        with self.assertRaisesRegex(ValueError, "between two recordings"):
            histdesk.diff(texts[:2])

    def test_order(self):
        """The rows that differ beyond the spread come first, and of each kind those first that changed most."""
        before = [load(seed) for seed in range(5)]
        after = [load(30 + seed, 1.5) for seed in range(5)]
        for sort in ("waited", "max"):
            rows = compare(before, after).table(sort=sort)
            marks = [row.figure(sort).is_within for row in rows]
            self.assertEqual(marks, sorted(marks))
            for mark in (False, True):
                changes = [abs(row.figure(sort).change) for row in rows if row.figure(sort).is_within is mark]
                self.assertEqual(changes, sorted(changes, reverse=True))

        # Rows that aren't tested come last.
        rare = [load(60 + seed, length=8000, names=("a", "b", *(["rare"] * (seed == 3)))) for seed in range(5)]
        rows = compare([load(70 + seed, length=8000, names=("a", "b")) for seed in range(5)], rare).table()
        self.assertEqual((rows[-1].key, rows[-1].waited.p), (("rare", "woken"), None))
        self.assertGreater(rows[-1].waited.change, abs(rows[-2].waited.change))

    @unittest.skipUnless(pandas, "pandas is missing")
    def test_to_pandas(self):
        texts = [load(seed, length=8000) for seed in range(8)]
        found = compare(texts[:4], texts[4:])
        frame, rows = found.to_pandas("cpu"), found.table("cpu")
        self.assertEqual(list(zip(frame.cpu, frame.kind)), [row.key for row in rows])
        self.assertEqual(list(frame.waited_before), [row.waited.before.mean for row in rows])
        self.assertEqual(list(frame.max_greatest_after), [row.max.after.greatest for row in rows])
        self.assertEqual(list(frame.mean_p), [row.mean.p for row in rows])
        self.assertEqual(list(frame.p99_within), [row.p99.is_within for row in rows])
        self.assertEqual(len(compare([b""], [b""]).to_pandas()), 0)


class Parts(Case):
    """One recording on each side, cut into eight parts."""

    def parts(self, text):
        """The waits of each of eight parts of equal time, by where they end, and the length of a part."""
        stamps = [event.place.stamp for event in plain_waits.acts_of(text)]
        first, length = min(stamps), Fraction(max(stamps) - min(stamps), 8)
        waits = plain_waits.waits_of(text)
        bounds = [(first + at * length, first + (at + 1) * length) for at in range(8)]
        parts = [[wait for wait in waits if low <= wait.end.stamp < high] for low, high in bounds]
        parts[7] += [wait for wait in waits if wait.end.stamp == max(stamps)]
        return [(part, float(length)) for part in parts]

    def test_figures(self):
        for seeds, holes in [((0, 1), 0), ((2, 3), 3)]:
            texts = [recordings.simulated(seed, 300, holes=holes).text for seed in seeds]
            found, sides = compare(*texts), [self.parts(text) for text in texts]
            for by in ("task", "name", "cpu", "prio", "kind"):
                parts, expected = found.parts(by), rows_of(sides, by)
                keys = {key: key[by == "task" and bool(key) :] for key in parts}
                self.assertEqual(set(keys.values()), {(), *expected})
                for key, row in parts.items():
                    self.values_hold(row, expected[keys[key]] if key else rows_of(sides, None)[()])
                self.assertLessEqual({row.key for row in found.table(by) if row.before.count or row.after.count}, set(parts))

    def test_by_hand(self):
        """Each part has 100 of 800 us: one wait of 10 us in all parts except the third, which has one of 50."""
        lines = [switch(1, 1000000, "<idle>-0", "x-9", state="R")]
        for at in range(8):
            begin, wait = 1000000 + 100 * at + 20, 50 if at == 2 else 10
            lines += [waking(0, begin, 7, name="a"), switch(0, begin + wait, "<idle>-0", "a-7", state="R")]
            lines.append(switch(0, begin + wait + 5, "a-7", "<idle>-0"))
        first = text_of([*lines, switch(1, 1000800, "x-9", "<idle>-0")])
        second = first.replace(b"1.000270: sched_switch", b"1.000230: sched_switch")
        found = compare(first, second)
        row = found.parts()["a", "woken"]
        self.assertEqual(row.max.before.values, (10, 10, 50, 10, 10, 10, 10, 10))
        self.assertEqual((row.max.before.width, row.max.after.width), (40, 0))
        # A wait of 10 us in 100 us is 100,000 us in a second.
        self.assertEqual((row.waited.before.width, row.per_second.before.width), (400000, 0))
        self.assertEqual(found.parts()[()].max, row.max)
        # The second recording waited 40 us less in 800 us, and the parts of the first one differ by more.
        self.assertEqual(found.whole().change("waited"), -50000)
        lines = repr(found).split("\n")
        self.assertTrue([line for line in lines if line.split()[0] == "all" and line.split()[-3:] == ["400000", "0", "within"]])

    def test_none(self):
        self.assertEqual(compare(b"", b"").parts(), {})
        text = recordings.kinds().text
        self.assertEqual(compare(b"", text).parts()[()].waited.before.values, ())
        self.assertEqual(histdesk.diff(text, without="sched_waking").parts(), {})
        with self.assertRaises(ValueError):
            compare(text, text).parts("colour")


class Tool(Case):
    def run_tool(self, *words, status=0, given=None):
        """What the tool prints, on both streams."""
        words = [sys.executable, "-B", TOOL, *words]
        streams = {"stdout": subprocess.PIPE, "stderr": subprocess.PIPE}
        ran = subprocess.run(words, input=given, check=False, cwd=self.folder, **streams)
        self.assertEqual(ran.returncode, status, ran.stderr)
        return ran.stdout.decode(), ran.stderr.decode()

    def put_loads(self, before=5, after=5, slow=1.3, seed=700):
        """The names of recordings before and after something got slower."""
        names = [f"b{at}" for at in range(before)], [f"a{at}" for at in range(after)]
        for at, name in enumerate(itertools.chain(*names)):
            self.put(name, load(seed + at, slow if name[0] == "a" else 1.0))
        return names

    def test_text(self):
        before, after = self.put_loads()
        told, errors = self.run_tool(*before, "--", *after, "--by", "name", "--top", "2")
        self.assertEqual(errors, "")
        lines = told.rstrip("\n").split("\n")
        self.assertRegex(lines[0], "^before: 5 recordings of 0.[0-9]{6} to 0.[0-9]{6} s, [0-9]+ events$")
        self.assertIn("the share of all 252 ways", told)
        start = lines.index("") + 1
        self.assertEqual(lines[start].split(), "all waits before after change difference".split())
        self.assertEqual(
            [line.split()[0] for line in lines[start + 1 : start + 6]], ["waits/s", "mean", "p99", "max", "waited/s"]
        )
        self.assertTrue(lines[start + 2].endswith("beyond the spread (p 0.008)"))
        self.assertEqual(lines[start + 7].split()[:4], ["name", "kind", "waited/s", "before"])
        self.assertEqual(len(lines), start + 11)
        self.assertEqual(lines[-1], "1 more row is not shown; --top all shows it")

    def test_same_load(self):
        # About one seed in 20 has a difference that is reported; Several.test_same_load tests how many have one.
        before, after = self.put_loads(slow=1.0, seed=1000)
        told, _ = self.run_tool(*before, "--", *after)
        self.assertNotIn("beyond", told)
        self.assertEqual(told.count("within the spread of the recordings"), 1 + 5 + 3)

    def test_csv_and_json(self):
        before, after = self.put_loads(4, 5)
        paths = [[os.path.join(self.folder, name) for name in side] for side in (before, after)]
        found = compare(*paths)
        for by in ("name", "task", "kind"):
            words = (*before, "--", *after, "--by", by)
            whole = json.loads(self.run_tool(*words, "--json")[0])
            rows = found.table(by)
            keys = found.names(by)
            self.assertEqual([tuple(row[name] for name in keys) for row in whole["rows"]], [row.key for row in rows])
            for line, row in zip([*whole["rows"], whole["all"]], [*rows, found.whole()]):
                self.row_holds(line, row)
            lines = list(csv.DictReader(io.StringIO(self.run_tool(*words, "--csv")[0])))
            self.assertEqual(list(lines[0]), list(whole["rows"][0]))
            for name in ("waited_p", "mean_within", "max_greatest_after"):
                cells = [json.dumps(row[name]).replace("null", "") for row in whole["rows"]]
                self.assertEqual([line[name] for line in lines], cells)
        self.assertEqual([one["trace"] for one in whole["before"]], before)
        # 126 ways to choose four of nine.
        test = {"splits": 126, "trials": 126, "least_p": 1 / 126, "can_tell": True, "level": 0.05}
        self.assertEqual({name: whole["test"][name] for name in test}, test)

    def row_holds(self, line, row):
        for name in FIGURES:
            figure = row.figure(name)
            for side, spread in (("before", figure.before), ("after", figure.after)):
                found = [line[f"{name}_{form}{side}"] for form in ("", "least_", "greatest_")]
                self.assertEqual(found, [spread.mean, spread.least, spread.greatest])
            self.assertEqual((line[f"{name}_p"], line[f"{name}_within"]), (figure.p, figure.is_within))

    def test_choices(self):
        before, after = self.put_loads(2, 2)
        words = (*before, "--", *after, "--json")
        whole = json.loads(self.run_tool(*words, "--cpu", "1", "--kind", "woken")[0])
        self.assertEqual([row["name"] for row in whole["rows"]], ["b"])
        self.assertEqual(whole["all"]["mean_before"], whole["rows"][0]["mean_before"])
        whole = json.loads(self.run_tool(*words, "--until", "1.02")[0])
        self.assertTrue(all(one["last"] < 1020000 for one in [*whole["before"], *whole["after"]]))
        some = json.loads(self.run_tool(*words, "--events", "sched_waking,sched_switch")[0])
        self.assertEqual(some["rows"], json.loads(self.run_tool(*words)[0])["rows"])
        given = load(700)
        self.assertEqual(json.loads(self.run_tool("-", "b1", "--", *after, "--json", given=given)[0])["rows"], some["rows"])

    def test_options_may_follow(self):
        before, after = self.put_loads(2, 2)
        first = self.run_tool("--by", "cpu", "--csv", *before, "--", *after)
        self.assertEqual(self.run_tool(*before, "--by", "cpu", "--", "--csv", *after), first)
        self.assertEqual(self.run_tool(*before, "--", *after, "--by", "cpu", "--csv"), first)
        # One recording on each side is the same with and without --.
        self.assertEqual(self.run_tool("b0", "--", "a0"), self.run_tool("b0", "a0"))

    def test_refused(self):
        before, after = self.put_loads(2, 2)
        copy = self.put("copy", load(700))
        os.link(os.path.join(self.folder, "b0"), os.path.join(self.folder, "link"))
        for words, message in [
            ((), "TRACE is missing"),
            ((*before, *after), "4 recordings need a -- between those before the change and those after it"),
            (("--", *after), "no TRACE stands before --"),
            ((*before, "--"), "no TRACE stands after --"),
            ((*before, "--", "a0", "--", "a1"), "-- stands there twice"),
            ((*before, "--", *after, "--without", "sched_switch"), "and not both"),
            ((*before, "--without", "sched_switch"), "and not both"),
            ((*before, "--", *after, "--above", "5"), "--above takes two recordings"),
            (("-", "-", "--", "a0"), "only one TRACE can be standard input"),
            (("b0", "b0", "--", "a0"), "b0 is given twice; a test would count it twice"),
            (("b0", "a0", "--", "link"), "link is given twice, also as b0"),
            (("b0", "a0", "--", copy), "b0 and .*copy|copy and b0: the same recording is given twice"),
            (("b0", "b1", "--", "missing"), "missing: No such file"),
        ]:
            self.assertRegex(self.run_tool(*words, status=2)[1], message)

    def test_hostile(self):
        before, after = self.put_loads(4, 4)
        self.put("empty", b"")
        told, _ = self.run_tool(*before, "empty", "--", *after)
        self.assertIn("empty: it has no two timestamps", told)
        self.assertIn("the share of all 70 ways", told)
        told, _ = self.run_tool("empty", "--", *after)
        self.assertIn("a side has no recording that can be compared", told)
        self.put("bad", load(700, length=8000) + b"hello\n")
        self.assertRegex(self.run_tool(*before, "--", "bad", status=2)[1], "^diff: bad: line [0-9]+")
        told, errors = self.run_tool("b1", "b2", "--", "bad", "--lenient")
        self.assertRegex(errors, "^diff: bad: 1 line can't be read and is left out: [0-9]+\n$")
        self.put("hole", recordings.hole_at_start().text)
        told, errors = self.run_tool(*before, "--", *after, "hole")
        self.assertRegex(errors, "^diff: hole: events were lost: .*CPU 2")
        self.assertIn("doubtful waits are left out, 0 before and 3 after: events were lost meanwhile", told)

    def test_one_on_each_side(self):
        for name, seed in (("one", 1), ("two", 2)):
            self.put(name, load(seed))
        told, _ = self.run_tool("one", "two")
        self.assertIn("spread before  spread after", told)
        self.assertIn("of 8 parts of equal time", told)
        self.assertIn("Parts of one recording are not independent recordings", told)
        whole = json.loads(self.run_tool("one", "two", "--json")[0])
        parts = compare(os.path.join(self.folder, "one"), os.path.join(self.folder, "two")).parts()
        self.assertEqual(whole["parts"], 8)
        self.assertEqual(whole["all"]["waited_spread_after"], parts[()].waited.after.width)
        for row in whole["rows"]:
            self.assertEqual(row["max_spread_before"], parts[row["name"], row["kind"]].max.before.width)
        told, _ = self.run_tool("one", "--without", "sched_waking if pid == 2000")
        self.assertNotIn("spread", told)
        self.assertNotIn("spread", self.run_tool("one", "--without", "sched_waking if pid == 2000", "--csv")[0])


if __name__ == "__main__":
    sys.exit(main())
