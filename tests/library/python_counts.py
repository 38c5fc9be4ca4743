#!/usr/bin/env python3
"""Tests how waits are counted: those that are kept, and those that tools/waits counts while it reads a text. The expected
figures come from a plain count of waits that a plain reckoning finds (plain_waits.py), in texts with many ties, waits that are
equally long, names that several tasks have, tasks that change theirs, and lost events.

    python_counts.py [TEST]...

"""

import collections
import contextlib
import errno
import os
import random
import sys
import tempfile
import unittest
import warnings
from unittest import mock

# Nothing is written beside the sources.
sys.dont_write_bytecode = True

HERE = os.path.dirname(os.path.realpath(__file__))
PYTHON = os.path.realpath(os.path.join(HERE, "..", "..", "python"))
sys.path[:0] = [PYTHON, os.path.join(HERE, "..", "model")]

import histdesk
import plain_waits
import recordings
from python_runner import main
from recordings import switch, text_of, waking

import numpy

from histdesk.native import numbering
from histdesk.trace import stream, wait_records
from histdesk.trace import text as trace_text
from histdesk.trace.wait_records import ChosenWaits
from histdesk.waiting import counting, tally
from histdesk.waiting import counts as waiting_counts
from histdesk.waiting import waits as waiting_waits

BYS = ("task", "name", "cpu", "prio", "kind")
SEEDS = range(12)


def crowded(seed, count=600, pids=20):
    """A text in the order of time in which a few hundred microseconds have many events: waits are short, so many are equally
    long. Some lines tell of lost events."""
    chance, lines, at = random.Random(seed), [], 1000000
    for _ in range(count):
        at += chance.random() < 0.3
        cpu, pid = chance.randrange(4), chance.randrange(1, pids)
        # Three tasks have a name in common, and each has another one at times.
        name = f"n{pid // 3}" if chance.random() < 0.9 else chance.choice(["m", "\udcff", f"n{pid}"])
        if chance.random() < 0.01:
            lines.append(f"CPU:{cpu} [LOST {pid} EVENTS]")
        elif chance.random() < 0.5:
            event = chance.choice(["sched_waking", "sched_waking", "sched_waking", "sched_wakeup_new"])
            lines.append(waking(cpu, at, pid, name=name, event=event))
        else:
            state = chance.choice(["R", "R+", "S", "D"])
            lines.append(switch(cpu, at, f"p-{chance.randrange(pids)}", f"{name}-{pid}", state=state, prio=pid % 5 - 1))
    return text_of(lines)


def plain_rows(waits, by, with_doubtful):
    """What a plain count says of each key."""
    return {key: plain_waits.figures_of(group, with_doubtful) for key, group in plain_waits.keys_of(waits, by).items()}


@contextlib.contextmanager
def cut(most):
    """Have so many waits taken, counted and put aside at once, and pairs joined after that many."""
    with contextlib.ExitStack() as stack:
        changes = [
            (stream, "CHUNK", most),
            (waiting_waits, "BATCH", most),
            (tally, "LEAST", most),
            (wait_records, "ASIDE", 48 * most),
        ]
        for module, name, value in [*changes, (trace_text, "PIECE", 40 * most)]:
            stack.enter_context(mock.patch.object(module, name, value))
        yield


def quietly_found(text):
    with warnings.catch_warnings():
        warnings.simplefilter("ignore", histdesk.LossWarning)
        return histdesk.waits(text)


class Plain(unittest.TestCase):
    """Counts, compared with the plain count."""

    def check(self, counts, waits, by, with_doubtful):
        wanted = plain_rows(waits, by, with_doubtful)
        self.assertEqual(list(counts.keys), sorted(wanted))
        for row in counts.rows():
            want = dict(wanted[row.key])
            greatest = row.greatest
            found = {"count": row.count, "total": row.total, "doubtful": row.doubtful}
            if greatest:
                found.update(mean=row.mean, max=row.max, p50=row.p50, p90=row.p90, p99=row.p99)
                found.update(end_stamp=greatest.stamp, end_cpu=greatest.cpu, end_line=greatest.line)
                found.update(greatest_name=greatest.name, greatest_pid=greatest.pid)
            self.assertEqual(found, want, row.key)

    def test_texts_have_what_is_to_be_counted(self):
        found = collections.Counter()
        for seed in SEEDS:
            waits = plain_waits.waits_of(crowded(seed))
            groups = plain_waits.keys_of(waits, "task").values()
            longest = [[wait.micros for wait in group].count(max(wait.micros for wait in group)) for group in groups]
            found["ties"] += len(waits) - len({wait.end.stamp for wait in waits})
            found["equally long"] += sum(count > 1 for count in longest)
            found["doubtful"] += sum(wait.doubtful for wait in waits)
            found["sure"] += sum(not wait.doubtful for wait in waits)
            found["one name"] += len({(wait.name, wait.pid) for wait in waits}) - len({wait.name for wait in waits})
            found["all doubtful"] += sum(all(wait.doubtful for wait in group) for group in groups)
        self.assertTrue(all(count > 10 for count in found.values()) and len(found) == 6, found)

    def test_kept(self):
        for seed in SEEDS:
            text, waits = crowded(seed), plain_waits.waits_of(crowded(seed))
            for most in (7, 64, 1 << 14):
                with cut(most):
                    found = quietly_found(text)
                    for by in BYS:
                        for with_doubtful in (False, True):
                            self.check(found.counts(by, with_doubtful), waits, by, with_doubtful)

    def test_counted(self):
        """Waits are counted as tools/waits does it: all of them, and those of some kinds, CPUs and tasks."""
        choices = [{}, {"kinds": ["woken", "preempted"]}, {"cpus": [0, 3]}, {"kinds": ["new"], "cpus": [1]}, {"kinds": []}]
        for seed in SEEDS:
            text, waits, chance = crowded(seed), plain_waits.waits_of(crowded(seed)), random.Random(seed)
            kept = quietly_found(text)
            tasks = [waits[0].pid, waits[-1].name]
            for choice in [*choices, {"tasks": tasks}, {"tasks": tasks[1:], "kinds": ["woken"]}, {"tasks": []}]:
                some = [wait for wait in waits if wait.kind in choice.get("kinds", [wait.kind])]
                some = [wait for wait in some if wait.end.cpu in choice.get("cpus", [wait.end.cpu])]
                some = [wait for wait in some if {wait.pid, wait.name} & set(choice.get("tasks", [wait.pid]))]
                for by in BYS:
                    with_doubtful = chance.random() < 0.5
                    with cut(chance.choice([7, 64, 1 << 14])):
                        found = counting.count_waits(text, counting.CountBy(by, with_doubtful, ChosenWaits(**choice)))
                    self.assertIsInstance(found, counting.CountedWaits)
                    self.check(found.counts(by, with_doubtful), some, by, with_doubtful)
                    chosen = kept.only(**choice)
                    self.assertEqual(found.table(by, with_doubtful), chosen.table(by, with_doubtful))
                    self.assertEqual(found.lines(with_doubtful), chosen.lines(with_doubtful))
                    self.assertEqual((len(found), found.doubtful, found.likely), (len(chosen), chosen.doubtful, chosen.likely))
                    self.assertEqual((found.held, found.holes, found.remarks()), (kept.held, kept.holes, kept.remarks()))

    def test_last_names(self):
        """A task whose waits are all doubtful has the name that it had last."""
        for seed in SEEDS:
            found = counting.count_waits(crowded(seed), counting.CountBy("task"))
            last = {wait.pid: wait.name for wait in plain_waits.waits_of(crowded(seed))}
            for row in found.table("task"):
                if not row.count:
                    self.assertEqual(row.task, last[row.pid])

    def test_wrong_keys(self):
        """What can't be a key is refused; a key that isn't there has nothing."""
        counts = quietly_found(crowded(1)).counts("name")
        self.assertEqual((counts.percentile(99, ("nobody", "woken")), counts.histogram(("nobody", "woken"))), (None, []))
        self.assertEqual((counts.longer(5, ("nobody", "woken")), counts.row(("nobody", "woken"))), (0, None))
        for key in ("a", ("a",), ["a", "woken"], ()):
            for ask, words in ((counts.row, ()), (counts.histogram, ()), (counts.percentile, (50,)), (counts.longer, (5,))):
                with self.assertRaisesRegex(ValueError, "a tuple of name, kind, and not"):
                    ask(*words, key)
        with self.assertRaisesRegex(ValueError, "aren't counted by 'task'; they are by name, kind"):
            counts.by("task")


class Counted(unittest.TestCase):
    """Waits that are counted while a text is read."""

    def test_other_words(self):
        with self.assertRaisesRegex(ValueError, "'comm'"):
            counting.count_waits(b"", counting.CountBy("comm"))
        found = counting.count_waits(recordings.kinds().text, counting.CountBy("task"))
        for by, with_doubtful in (("kind", False), ("task", True)):
            with self.assertRaises(ValueError):
                found.counts(by, with_doubtful)

    def test_nothing(self):
        for text in (b"", text_of([waking(0, 5, 7)])):
            for by in BYS:
                found = counting.count_waits(text, counting.CountBy(by))
                self.assertEqual((len(found), found.table(by), found.doubtful, found.likely), (0, [], 0, 0))

    def test_order(self):
        """If a text isn't in the order of time, a desk holds its events."""
        lines = [switch(0, 30, "a-1", "w-7"), waking(0, 20, 7), waking(0, 5, 8), switch(1, 9, "a-1", "v-8")]
        choice = counting.CountBy("task", chosen=ChosenWaits(cpus=[1]))
        found = counting.count_waits(text_of(lines), choice)
        self.assertEqual([(row.pid, row.max) for row in found.table("task")], [(8, 4)])

    def test_full_disk(self):
        """If waits can't be put aside, the error names the folder for temporary files."""
        aside = wait_records.Aside(16)
        aside._file = mock.Mock()
        aside._file.write.side_effect = OSError(errno.ENOSPC, "No space left on device")
        with mock.patch.object(counting, "put_aside", lambda: aside), self.assertRaises(OSError) as raised:
            counting.count_waits(crowded(1), counting.CountBy("task"))
        self.assertEqual((raised.exception.errno, raised.exception.filename), (errno.ENOSPC, tempfile.gettempdir()))

    def test_nothing_is_left(self):
        """What is put aside is in a file without a name."""
        with tempfile.TemporaryDirectory() as folder, mock.patch.object(tempfile, "tempdir", folder), cut(7):
            counting.count_waits(crowded(1), counting.CountBy("task"))
            self.assertEqual(os.listdir(folder), [])


class Pairs(unittest.TestCase):
    """Pairs of a key's number and microseconds."""

    def check(self, key, micros, count):
        wanted = collections.Counter()
        for one, other, times in zip(key, micros, count):
            wanted[one, other] += times
        arrays = [numpy.array(column, "int64") for column in (key, micros, count)]
        columns = [column.tolist() for column in waiting_counts.sum_pairs(*arrays)]
        self.assertEqual(list(zip(*columns)), [(*pair, times) for pair, times in sorted(wanted.items())])
        columns = [column.tolist() for column in waiting_counts.count_pairs(*arrays[:2])]
        plain = collections.Counter(zip(key, micros))
        self.assertEqual(list(zip(*columns)), [(*pair, times) for pair, times in sorted(plain.items())])

    def test_summed(self):
        """Pairs that fit into 32 bits, pairs that fit into 63, and pairs that don't."""
        chance = random.Random(4)
        for keys, most in ((5, 9), (70000, 65535), (1 << 20, 1 << 30), (1 << 30, (1 << 52) - 1)):
            for size in (0, 1, 2, 500):
                key = [chance.choice([0, keys, chance.randrange(keys)]) for _ in range(size)]
                micros = [chance.choice([0, most, chance.randrange(most)]) for _ in range(size)]
                self.check(key, micros, [chance.randrange(1, 9) for _ in range(size)])

    def test_a_bit_more(self):
        """The greatest pairs that 32 and 63 bits hold, and those of one bit less or more."""
        for bits in (31, 32, 33, 62, 63, 64):
            for low in (1, 20, 31):
                key, micros = (1 << (bits - low)) - 1, (1 << low) - 1
                self.check([key, 0, key, 1, key], [0, micros, micros, micros, micros], [1, 1, 2, 3, 4])


class Numbers(unittest.TestCase):
    """Numbers for rows of words."""

    def check(self, rows, words):
        numbers, known = numbering.Numbers(words), {}
        for start in range(0, len(rows), 100):
            part = rows[start : start + 100]
            wanted = [known.setdefault(tuple(row), len(known)) for row in part]
            found = numbers.of(numpy.array(part, "u8").reshape(len(part), words)).tolist()
            # It isn't said which number a new row has, but each row has one of its own.
            named = [tuple(numbers.rows[number].tolist()) for number in found]
            self.assertEqual(named, [tuple(row) for row in part])
            self.assertEqual(len(set(found)), len(set(wanted)))
        self.assertEqual(len(numbers), len(known))
        self.assertEqual(sorted(map(tuple, numbers.rows.tolist())), sorted(known))

    def test_rows(self):
        chance = random.Random(7)
        for words in (1, 4):
            for most in (3, 1 << 64):
                self.check([[chance.randrange(most) for _ in range(words)] for _ in range(700)], words)

    def test_zeros_first(self):
        for words in (1, 4):
            self.check([[0] * words] * 3, words)
            self.check([[5] * words, [0] * words, [5] * words], words)

    def test_more_than_the_table_has(self):
        with mock.patch.object(numbering, "LEAST_BITS", 4), mock.patch.object(numbering, "SPARE", 2):
            chance = random.Random(9)
            self.check([[chance.randrange(300)] for _ in range(3000)], 1)

    def test_one_hash(self):
        """Different rows that have the same hash."""
        one, other = numbering.FACTORS[:2]
        rows = [[(7 + other * step) % 2**64, (9 - one * step) % 2**64, 1, 2] for step in range(40)]
        self.assertEqual(len({sum(word * factor for word, factor in zip(row, numbering.FACTORS)) % 2**64 for row in rows}), 1)
        self.check(random.Random(3).choices(rows, k=900), 4)
        # And rows of one word that share a place of the table.
        inverse = pow(numbering.FACTORS[0], -1, 2**64)
        self.check([[inverse * step % 2**64] for step in range(50)] * 4, 1)


if __name__ == "__main__":
    sys.exit(main())
