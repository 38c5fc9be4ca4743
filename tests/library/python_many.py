#!/usr/bin/env python3
"""Tests what many recordings answer together: 200 small ones, asked one by one, by processes and by Dask, with workers that are
killed, and compared with a plain reckoning over all of them; recordings that can't be read; and questions of one's own.

    python_many.py [TEST]...

The library is found as the package finds it. Tests that need numpy or Dask are skipped if they are missing: lines at
the end say what wasn't tried, and the last line says how many tests hold.
"""

import atexit
import collections
import functools
import gzip
import importlib.util
import os
import pickle
import random
import shutil
import signal
import subprocess
import sys
import tempfile
import time
import unittest
import warnings

# Nothing is written beside the sources.
sys.dont_write_bytecode = True

HERE = os.path.dirname(os.path.realpath(__file__))
PYTHON = os.path.realpath(os.path.join(HERE, "..", "..", "python"))
sys.path[:0] = [PYTHON, HERE, os.path.join(HERE, "..", "model")]

import copies
import histdesk
import plain_waits
import recordings
from python_runner import main

# Neither is imported here, since each worker reads this file anew.
with_dask = unittest.skipUnless(importlib.util.find_spec("distributed"), "distributed is missing")

COUNT = 200
# How many events a desk holds.
DESK = 1048576
MASK = 2**64 - 1
TRIGGER = "hist:keys=comm,pid.log2:vals=prio:sort=prio.descending,pid"
# A priority of -1, with which sums modulo 2^64 have to cope.
PRIO = b"prio=-1"


# ---- the recordings, and what is true of them


class Truth:
    """Many recordings in a folder, and what a plain reckoning over all of them gives."""

    def __init__(self, folder):
        self.paths, self.lossy = [], []
        self.micros, self.doubtful = collections.defaultdict(list), collections.Counter()
        self.greatest, self.rows = {}, collections.defaultdict(lambda: [0, 0])
        for seed in range(COUNT):
            path = os.path.join(folder, f"{seed:03}.trace")
            known = recordings.simulated(seed, 120, holes=2 if seed % 10 == 0 else 0)
            text = known.text.replace(b"prio=120 target", PRIO + b" target")
            with open(path, "wb") as file:
                file.write(gzip.compress(text) if seed % 7 == 0 else text)
            self.paths.append(path)
            self.add(path, text)

    def add(self, path, text):
        """Reckon one recording. It is lossy if its lines say so, not if only its events show that some are missing."""
        if plain_waits.lost_in(text):
            self.lossy.append(path)
        for wait in plain_waits.waits_of(text):
            key = wait.name, wait.kind
            if wait.doubtful:
                self.doubtful[key] += 1
            else:
                self.micros[key].append(wait.micros)
                found = (-wait.micros, *wait.end, wait.name, path)
                self.greatest[key] = min(self.greatest.get(key, found), found)
        for event in plain_waits.events_of(text):
            if event.event == "sched_waking":
                row = self.rows[event.name, (event.pid - 1).bit_length()]
                row[0] += 1
                row[1] = (row[1] + event.prio) & MASK


class Kills:
    """A question that kills, so many times, the worker that asks it of one of the recordings."""

    def __init__(self, question, path, folder, times=1):
        self.question, self.path, self.guards = question, path, [os.path.join(folder, f"killed{at}") for at in range(times)]
        self.adds_up, self.reading = question.adds_up, getattr(question, "reading", {})

    def kill(self, path):
        if path == self.path and any(map(is_first, self.guards)):
            os.kill(os.getpid(), signal.SIGKILL)

    def ask(self, recording):
        self.kill(recording.path)
        return self.question.ask(recording)

    def merge(self, parts):
        return self.question.merge(parts)


class KillsReading(Kills):
    """The same for a question that reads recordings itself."""

    def ask_path(self, path, **choice):
        self.kill(path)
        return self.question.ask_path(path, **choice)


def is_first(guard):
    """Whether nobody has asked so before: whoever makes the file is the first one."""
    try:
        os.close(os.open(guard, os.O_CREAT | os.O_EXCL))
    except FileExistsError:
        return False
    return True


class Events:
    """A question of one's own: how many events each recording has, in the order of the paths."""

    def ask(self, recording):
        with recording.desk() as desk:
            return os.path.basename(recording.path), sum(desk.cpus().values())

    def merge(self, parts):
        return parts


def events_in(recording):
    with recording.desk() as desk:
        return sum(desk.cpus().values())


def holder(recording):
    """Return what can't be handed on."""
    return recording.desk()


def mistaken(recording):
    return recording.no_such_thing


def out_of_memory(recording):
    raise MemoryError


def slow(recording):
    """Say that it has begun, and take long."""
    with open(f"{recording.path}.begun", "w", encoding="ascii") as file:
        file.write(str(os.getpid()))
    time.sleep(60)


def many(*words, **named):
    """What `many` answers, without warnings."""
    with warnings.catch_warnings():
        warnings.simplefilter("ignore")
        return histdesk.many(*words, progress=False, **named)


class Case(unittest.TestCase):
    """A test with a folder of its own."""

    def setUp(self):
        folder = tempfile.TemporaryDirectory()
        self.addCleanup(folder.cleanup)
        self.folder = folder.name

    def put(self, name, content):
        path = os.path.join(self.folder, name)
        with open(path, "wb") as file:
            file.write(content)
        return path


# ---- the same answer, whoever asks


@functools.lru_cache(maxsize=None)
def all_recordings():
    """The recordings and what is true of them, made once."""
    folder = tempfile.mkdtemp()
    atexit.register(shutil.rmtree, folder)
    return Truth(folder)


class Alike(Case):
    """What all recordings answer."""

    @classmethod
    def setUpClass(cls):
        cls.truth = all_recordings()
        # The order in which they are named doesn't matter.
        cls.paths = random.Random(1).sample(cls.truth.paths, COUNT)

    def holds(self, found):
        """Waits by name are those of the plain reckoning."""
        truth = self.truth
        self.assertEqual([one.path for one in found.asked], truth.paths)
        self.assertEqual(found.failed, ())
        self.assertEqual([one.path for one in found.asked if one.warning], truth.lossy)
        self.assertEqual(sum(one.doubtful for one in found.asked), sum(truth.doubtful.values()))
        self.assertGreater(sum(truth.doubtful.values()), 100)
        rows = {row.key: row for row in found.answer.rows()}
        self.assertEqual(set(rows), set(truth.micros) | set(truth.doubtful))
        for key, row in rows.items():
            self.row_holds(row, truth.micros.get(key, []), truth.doubtful[key])
            micros, *place, name, source = truth.greatest[key]
            wait = row.greatest
            self.assertEqual([wait.stamp, wait.cpu, wait.line, wait.name, wait.source], [*place, name, source])
        self.row_holds(found.answer.whole(), sum(truth.micros.values(), []), sum(truth.doubtful.values()))

    def row_holds(self, row, micros, doubtful):
        self.assertEqual((row.count, row.total, row.max, row.doubtful), (len(micros), sum(micros), max(micros), doubtful))
        self.assertEqual(row.mean, sum(micros) / len(micros))
        # By nearest rank.
        ranks = [-(-len(micros) * percent // 100) for percent in (50, 90, 99)]
        self.assertEqual([row.p50, row.p90, row.p99], [sorted(micros)[rank - 1] for rank in ranks])

    def rows_hold(self, found):
        """The rows of the trigger are those of the plain reckoning, in the order that the trigger asks for."""
        self.assertEqual((len(found.asked), found.failed), (COUNT, ()))
        expected = [(*key, *sums) for key, sums in self.truth.rows.items()]
        expected.sort(key=lambda row: (-row[3], row[1], row[0]))
        self.assertEqual([tuple(row) for row in found.answer], expected)
        self.assertEqual(found.answer.hits, sum(row[2] for row in expected))


class OnThisMachine(Alike):
    """Recordings that are asked by this process, or by others."""

    def test_one_by_one(self):
        self.holds(many(self.paths, histdesk.AskWaits("name"), processes=0))

    def test_by_two_processes(self):
        self.holds(many(self.paths, histdesk.AskWaits("name"), processes=2))

    def test_by_four_processes_one_of_which_is_killed(self):
        question = KillsReading(histdesk.AskWaits("name"), self.paths[77], self.folder)
        self.holds(many(self.paths, question, processes=4))
        self.assertTrue(os.path.exists(question.guards[0]))

    def test_rows_one_by_one(self):
        self.rows_hold(many(self.paths, histdesk.AskRows("sched_waking", TRIGGER), processes=0))

    def test_rows_by_two_processes_one_of_which_is_killed(self):
        question = Kills(histdesk.AskRows("sched_waking", TRIGGER), self.paths[0], self.folder)
        self.rows_hold(many(self.paths, question, processes=2))
        self.assertTrue(os.path.exists(question.guards[0]))

    def test_what_kills_again_is_left_out(self):
        question = Kills(histdesk.AskRows("sched_waking", TRIGGER), self.paths[50], self.folder, times=2)
        found = many(self.paths, question, processes=2)
        (failed,) = found.failed
        self.assertEqual(failed.path, self.paths[50])
        self.assertRegex(failed.why, "killed.*SIGKILL")
        others = many([path for path in self.paths if path != failed.path], question.question, processes=0)
        self.assertEqual(found.answer, others.answer)
        self.assertEqual(found.asked, others.asked)


# ---- questions


class Questions(Case):
    def some(self, count=3):
        """The paths of some recordings."""
        return [self.put(f"{seed}.trace", recordings.simulated(seed, 40).text) for seed in range(count)]

    def test_question_of_ones_own(self):
        paths = self.some()
        sizes = [recordings.simulated(seed, 40).text.count(b": sched_") for seed in range(3)]
        expected = [(f"{seed}.trace", size) for seed, size in enumerate(sizes)]
        for processes in (0, 2):
            self.assertEqual(many(paths[::-1], Events(), processes=processes).answer, expected)
            self.assertEqual(many(paths[::-1], events_in, processes=processes).answer, dict(zip(paths, sizes)))

    def test_one_kind_and_one_cpu(self):
        path = self.put("kinds.trace", recordings.kinds().text)
        with warnings.catch_warnings():
            warnings.simplefilter("ignore", histdesk.LossWarning)
            waits = histdesk.waits(path)
        woken, there = (sum(holds(wait) for wait in waits if not wait.doubtful) for holds in (
            lambda wait: wait.kind == "woken", lambda wait: wait.end.cpu == 0))  # fmt: skip
        self.assertEqual(many([path], histdesk.AskWaits(kinds="woken"), processes=0).answer.count, woken)
        self.assertEqual(many([path], histdesk.AskWaits(cpus=0), processes=0).answer.count, there)
        with self.assertRaises(TypeError):
            histdesk.AskWaits(cpus="1")

    def test_function_that_cannot_be_handed_on(self):
        paths = self.some(1)
        self.assertEqual(many(paths, lambda recording: recording.path, processes=0).answer, {paths[0]: paths[0]})
        with self.assertRaisesRegex(TypeError, "can't be handed to another process.*processes=0"):
            many(paths, lambda recording: 1, processes=1)

    def test_answer_that_cannot_be_handed_on(self):
        (failed,) = many(self.some(1), holder, processes=1).failed
        self.assertRegex(failed.why, "a desk can't be copied or pickled")

    def test_no_question(self):
        with self.assertRaisesRegex(TypeError, "a question must"):
            many(self.some(1), "waits")
        with self.assertRaises(TypeError):
            many(self.some(1), Events(), beginning=3)
        with self.assertRaisesRegex(ValueError, "-1"):
            many(self.some(1), Events(), processes=-1)
        for processes in ("2", 2.0):
            with self.assertRaisesRegex(TypeError, f"^processes is {processes!r}, which is no whole number$"):
                many(self.some(1), Events(), processes=processes)

    def test_rows_that_are_refused(self):
        with self.assertRaises(histdesk.Refused) as caught:
            histdesk.AskRows("sched_waking", "hist:keys=pids")
        self.assertEqual(caught.exception.number, 8)

    def test_rows_of_what_triggers_make(self):
        known = recordings.many_waits(100)
        making = "onmatch(sched.sched_waking).wakeup_latency($lat,next_pid,next_prio)"
        needs = [
            ("sched_waking", "hist:keys=pid:ts0=common_timestamp.usecs"),
            ("sched_switch", f"hist:keys=next_pid:lat=common_timestamp.usecs-$ts0:{making}"),
        ]
        question = histdesk.AskRows("wakeup_latency", "hist:keys=lat.log2:sort=lat", needs=needs)
        paths = [self.put("a", known.text), self.put("b", known.text)]
        powers = collections.Counter((wait.micros - 1).bit_length() for wait in known.waits)
        rows = many(paths, question, processes=0).answer
        self.assertEqual([tuple(row) for row in rows], [(power, 2 * count) for power, count in sorted(powers.items())])
        self.assertEqual([type(row.lat) for row in rows], [histdesk.Log2] * len(powers))

    def test_rows_without_room(self):
        lines = [recordings.waking(0, 1000 + pid, pid) for pid in range(1, 131)]
        path = self.put("a", recordings.text_of(lines))
        found = many([path], histdesk.AskRows("sched_waking", "hist:keys=pid:size=128"), processes=0)
        self.assertEqual((len(found.answer), found.answer.hits, found.answer.dropped, found.asked[0].dropped), (128, 128, 2, 2))
        self.assertIn("2 hits of 1 recording found no room in the table", found.remarks)

    def test_rows_of_different_triggers(self):
        plain, powers = (histdesk.AskRows("sched_waking", f"hist:keys=pid{kind}").merge([]) for kind in ("", ".log2"))
        with self.assertRaises(ValueError):
            histdesk.Rows.merged([plain, powers])

    def test_rows_are_packed_and_shown(self):
        question = histdesk.AskRows("sched_waking", "hist:keys=comm,pid.buckets=4:sort=hitcount.descending")
        rows = many(self.some(), question, processes=0).answer
        again = pickle.loads(pickle.dumps(rows))
        self.assertEqual(again, rows)
        self.assertEqual(list(again), list(rows))
        self.assertEqual((rows[0], rows[-1], rows[:2]), (list(rows)[0], list(rows)[-1], list(rows)[:2]))
        self.assertEqual(repr(rows).split("\n")[2].split()[-2:], [str(rows[0].pid), str(rows[0].hitcount)])
        self.assertIn(f"<td>{rows[0].pid}</td>", rows._repr_html_())

    def test_choice_of_a_part(self):
        known = recordings.simulated(3, 200)
        path, (_, half) = self.put("a", known.text), known.waits[len(known.waits) // 2][4:6]
        found = many([path], events_in, processes=0, until=histdesk.Stamp(half.stamp), events=["sched_switch"])
        switches = [event.place.stamp for event in plain_waits.events_of(known.text) if event.event == "sched_switch"]
        self.assertEqual(found.answer, {path: sum(stamp < half.stamp for stamp in switches)})

    def test_some_waits(self):
        known = recordings.kinds()
        path = self.put("a", known.text)
        found = many([path], histdesk.AskWaits("task", kinds=["new"], cpus=[3]), processes=0)
        expected = [wait.micros for wait in known.waits if wait.kind == "new" and wait.end.cpu == 3]
        self.assertEqual((found.answer.count, found.answer.whole().total), (len(expected), sum(expected)))
        with self.assertRaises(ValueError):
            histdesk.AskWaits("colour")
        with self.assertRaises(ValueError):
            histdesk.AskWaits(kinds=["old"])


class Long(Case):
    """A recording of more events than a desk holds, beside a short one."""

    def setUp(self):
        super().setUp()
        self.copies = copies.Copies(recordings.simulated(7, 400).text)
        self.count = DESK // len(self.copies.lines) + 20
        self.long = self.put("long", self.copies.text(self.count))
        self.short = self.put("short", recordings.simulated(10, 100, holes=2).text)

    def waits(self):
        """The waits of both that aren't doubtful, by name and kind."""
        found = collections.defaultdict(list)
        short = plain_waits.waits_of(recordings.simulated(10, 100, holes=2).text)
        for wait in [*self.copies.waits(plain_waits.waits_of, self.count), *short]:
            if not wait.doubtful:
                found[wait.name, wait.kind].append(wait.micros)
        return found

    def test_waits(self):
        found = many([self.long, self.short], histdesk.AskWaits("name"), processes=1)
        wanted = self.waits()
        self.assertEqual({row.key for row in found.answer.rows() if row.count}, set(wanted))
        for row in found.answer.rows():
            micros = sorted(wanted[row.key])
            if micros:
                ranks = [-(-len(micros) * percent // 100) for percent in (50, 90, 99)]
                figures = (row.count, row.total, row.max, [row.p50, row.p90, row.p99])
                self.assertEqual(figures, (len(micros), sum(micros), micros[-1], [micros[rank - 1] for rank in ranks]))
        # Nothing was cut.
        self.assertEqual(
            [(one.path, one.taken, bool(one.warning)) for one in found.asked],
            [(self.long, None, False), (self.short, None, True)],
        )
        self.assertFalse(any("part" in remark for remark in found.remarks))

    def test_words_of_read(self):
        """A stretch of time, however long; and lines that can't be read."""
        with open(self.long, "ab") as file:
            file.write(b"this is no line of a trace\n")
        stamps, after = self.copies.stamps, self.copies.after
        start, until = min(stamps) + after, max(stamps) + (self.count - 2) * after + 1
        words = {"start": histdesk.Stamp(start), "until": histdesk.Stamp(until), "lenient": True, "processes": 0}
        counts = many([self.long], histdesk.AskWaits("kind"), **words).answer
        waits = self.copies.waits(plain_waits.waits_of, self.count - 2)
        self.assertEqual((counts.count, counts.whole().total), (len(waits), sum(wait.micros for wait in waits)))
        found = many([self.long], histdesk.AskWaits("kind"), processes=0, lenient=True)
        self.assertEqual([one.bad_lines for one in found.asked], [1])
        (failed,) = many([self.long], histdesk.AskWaits("kind"), processes=0).failed
        self.assertRegex(failed.why, f"^line {self.count * len(self.copies.lines) + 1}: ")

    def test_rows_are_those_of_a_desk(self):
        found = many([self.long], histdesk.AskRows("sched_waking", "hist:keys=common_cpu"), processes=0)
        (asked,) = found.asked
        self.assertEqual(asked.taken.events, DESK)
        self.assertTrue(any("only the first part of 1 recording was read" in remark for remark in found.remarks))


# ---- recordings that can't be asked


class LeftOut(Case):
    def test_bad_recordings(self):
        good = recordings.simulated(1, 40).text
        lines = good.split(b"\n")
        torn = b"\n".join([*lines[:15], lines[15].partition(b" prio=")[0], *lines[16:]])
        paths = {
            "good": self.put("good", good),
            "torn": self.put("torn", torn),
            "gz": self.put("gz", gzip.compress(good)[:-9]),
            "missing": os.path.join(self.folder, "missing"),
            "folder": self.folder,
        }
        expected = good.count(b": sched_")
        for processes in (0, 2):
            found = many(paths.values(), events_in, processes=processes)
            self.assertEqual(found.answer, {paths["good"]: expected})
            failed = {one.path: one.why for one in found.failed}
            self.assertEqual(set(failed), {paths[name] for name in ("torn", "gz", "missing", "folder")})
            self.assertEqual(failed[paths["missing"]], "No such file or directory")
            self.assertEqual(failed[paths["folder"]], "Is a directory")
            self.assertRegex(failed[paths["torn"]], "^line 16")
            self.assertRegex(failed[paths["gz"]], "end-of-stream|ended")
            self.assertTrue(all("\n" not in str(one) for one in found.failed))
        lenient = many([paths["torn"]], events_in, processes=0, lenient=True)
        self.assertEqual((lenient.answer, lenient.failed), ({paths["torn"]: expected - 1}, ()))
        self.assertIn("1 line of 1 recording can't be read and was left out", lenient.remarks)

    def test_mistakes_of_a_question(self):
        path = self.put("a", recordings.simulated(1, 40).text)
        for processes in (0, 1):
            (failed,) = many([path], mistaken, processes=processes).failed
            self.assertRegex(failed.why, "^AttributeError: .*no_such_thing")
            self.assertIn("in mistaken", failed.detail)
            (failed,) = many([path], out_of_memory, processes=processes).failed
            self.assertEqual(failed.why, histdesk.refusal_words("refused 1"))

    def test_warnings(self):
        lossy = self.put("lossy", recordings.hole_at_start().text)
        missing = os.path.join(self.folder, "missing")
        with warnings.catch_warnings(record=True) as told:
            warnings.simplefilter("always")
            found = histdesk.many([lossy, missing], events_in, processes=0)
        self.assertEqual([one.category for one in told], [histdesk.LossWarning, histdesk.LeftOutWarning])
        self.assertTrue(all(one.filename == __file__ for one in told))
        self.assertIn(lossy, str(told[0].message))
        self.assertIn(f"{missing}: No such file or directory", str(told[1].message))
        text = repr(found)
        self.assertIn("1 of 2 recordings were left out", text)
        self.assertIn("events were lost in 1 of 1 recordings", text)
        self.assertIn("No such file or directory", found._repr_html_())

    def test_paths(self):
        path = self.put("a", b"")
        with self.assertRaisesRegex(TypeError, "glob"):
            many(path, events_in)
        with self.assertRaisesRegex(ValueError, "named twice"):
            many([path, path.encode()], events_in)
        found = many([], histdesk.AskRows("sched_waking", "hist:keys=pid"))
        self.assertEqual((list(found.answer), found.asked), ([], ()))


# ---- processes


def program(text, **named):
    """A program that another Python runs."""
    environment = {**os.environ, "PYTHONPATH": f"{PYTHON}:{HERE}"}
    return subprocess.Popen([sys.executable, "-B", "-c", text], env=environment, stderr=subprocess.PIPE, **named)


def number_in(path):
    with open(path, encoding="ascii") as file:
        return int(file.read())


def is_alive(pid):
    """Whether a process is there, and hasn't ended."""
    try:
        with open(f"/proc/{pid}/stat", encoding="ascii") as file:
            return file.read().rpartition(")")[2].split()[0] != "Z"
    except FileNotFoundError:
        return False


def until(holds, seconds=30):
    """Wait until something holds, for at most so many seconds; return whether it does."""
    end = time.monotonic() + seconds
    while not holds() and time.monotonic() < end:
        time.sleep(0.02)
    return holds()


class Processes(Case):
    def begun(self):
        """Return a program that asks by two processes, which take long, and the numbers of these processes."""
        paths = [self.put(name, b"") for name in "ab"]
        running = program(
            f"import histdesk, python_many\nhistdesk.many({paths}, python_many.slow, processes=2)", start_new_session=True
        )
        self.addCleanup(running.stderr.close)
        self.assertTrue(until(lambda: all(os.path.exists(f"{path}.begun") for path in paths)))
        self.assertTrue(until(lambda: all(os.path.getsize(f"{path}.begun") for path in paths)))
        return running, [number_in(f"{path}.begun") for path in paths]

    def test_interrupted(self):
        running, workers = self.begun()
        os.killpg(running.pid, signal.SIGINT)
        self.assertEqual(running.wait(30), -signal.SIGINT)
        self.assertTrue(until(lambda: not any(map(is_alive, workers))))
        # The one traceback is the program's own, and none is a worker's.
        self.assertEqual(running.stderr.read().count(b"Traceback"), 1)

    def test_workers_end_with_the_program(self):
        running, workers = self.begun()
        running.kill()
        running.wait()
        self.assertTrue(until(lambda: not any(map(is_alive, workers))))

    def test_program_without_a_guard(self):
        path = self.put("a.py", b"import histdesk, python_many\nhistdesk.many(['a'], python_many.events_in, processes=2)\n")
        environment = {**os.environ, "PYTHONPATH": f"{PYTHON}:{HERE}"}
        ran = subprocess.run([sys.executable, "-B", path], env=environment, stderr=subprocess.PIPE, timeout=30, check=False)
        self.assertEqual(ran.returncode, 1)
        self.assertRegex(ran.stderr.decode().rstrip().split("\n")[-1], "^RuntimeError: no worker can begin.*__main__")

    def test_progress(self):
        paths = [self.put(str(at), b"") for at in range(4)]
        text = f"import time, histdesk\nhistdesk.many({paths}, lambda recording: time.sleep(0.4), processes=0)"
        primary, secondary = os.openpty()
        self.addCleanup(os.close, primary)
        environment = {**os.environ, "PYTHONPATH": PYTHON}
        subprocess.run([sys.executable, "-B", "-c", text], env=environment, stderr=secondary, check=True)
        os.close(secondary)
        told = os.read(primary, 4096).decode()
        self.assertRegex(told, r"\rhistdesk: 3 of 4 recordings, about [0-9]+ s left\x1b\[K")
        self.assertTrue(told.endswith("\r\x1b[K"))
        quiet = subprocess.run([sys.executable, "-B", "-c", text], env=environment, stderr=subprocess.PIPE, check=True)
        self.assertEqual(quiet.stderr, b"")


# ---- Dask


@with_dask
class ByDask(Alike):
    """Recordings that are asked by two workers of a Dask cluster on this machine."""

    @classmethod
    def setUpClass(cls):
        super().setUpClass()
        import distributed

        folder = tempfile.TemporaryDirectory()
        cls.addClassCleanup(folder.cleanup)
        words = {"host": "127.0.0.1", "dashboard_address": None, "silence_logs": 60, "local_directory": folder.name}
        cls.cluster = distributed.LocalCluster(n_workers=2, threads_per_worker=1, processes=True, **words)
        cls.addClassCleanup(cls.cluster.close)
        cls.client = distributed.Client(cls.cluster)
        cls.addClassCleanup(cls.client.close)
        # So Dask gives up at once what kills a worker.
        cls.cluster.scheduler.allowed_failures = 0

    def setUp(self):
        super().setUp()
        self.has_two()
        self.addCleanup(self.has_two)

    def has_two(self):
        """Wait for two workers. Those that were killed are begun anew; if one doesn't begin on a busy machine, all are."""
        import distributed

        try:
            self.client.wait_for_workers(2, timeout=60)
        except distributed.TimeoutError:
            self.client.restart(timeout=120)

    def test_workers_one_of_which_is_killed(self):
        question = KillsReading(histdesk.AskWaits("name"), self.paths[77], self.folder)
        self.holds(many(self.paths, question, client=self.client))
        self.assertTrue(os.path.exists(question.guards[0]))

    def test_what_kills_again_is_left_out(self):
        question = Kills(histdesk.AskRows("sched_waking", TRIGGER), self.paths[50], self.folder, times=2)
        found = many(self.paths[:100], question, client=self.client)
        self.assertEqual([one.path for one in found.failed], [self.paths[50]])
        self.assertEqual([one.path for one in found.asked], sorted(set(self.paths[:100]) - {self.paths[50]}))

    def test_words(self):
        paths = [self.put("a", b""), os.path.join(self.folder, "missing")]
        found = many(paths, lambda recording: recording.path, client=self.client)
        self.assertEqual(found.answer, {paths[0]: paths[0]})
        self.assertEqual([one.why for one in found.failed], ["No such file or directory"])
        with self.assertRaises(TypeError):
            many(paths, events_in, client=self.client, processes=2)


# ---- the test


if __name__ == "__main__":
    sys.exit(main())
