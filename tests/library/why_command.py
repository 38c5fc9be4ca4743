"""Tests tools/why: its status, what it prints, and what it reports on standard error."""

import gzip
import os
import random
import subprocess
import sys
import tempfile
import unittest

from recordings import all_known
from why_traces import BUSY, BUSY_TEXT, switch, trace, waking

TOOL = os.path.join(os.path.dirname(os.path.realpath(__file__)), "..", "..", "tools", "why")


class Command(unittest.TestCase):
    """What the tool prints."""

    def setUp(self):
        folder = tempfile.TemporaryDirectory()
        self.addCleanup(folder.cleanup)
        self.folder = folder.name

    def ran(self, text, *words):
        """Run the tool; return its status, what it prints, and its messages."""
        path = os.path.join(self.folder, "my.trace")
        with open(path, "wb") as file:
            file.write(text)
        ran = subprocess.run(
            [sys.executable, "-B", TOOL, path, *words],
            stdin=subprocess.DEVNULL,
            stdout=subprocess.PIPE,
            stderr=subprocess.PIPE,
            check=False,
        )
        return ran.returncode, ran.stdout.decode(), ran.stderr.decode().replace(path, "TRACE")

    def heads(self, text, *words):
        """Return the tasks that the tool reports, and how long they waited."""
        status, out, told = self.ran(text, *words)
        self.assertEqual((status, told), (0, ""))
        return [each.partition(" (prio")[0] + each.partition("waited")[2].partition(" us")[0] for each in heads_of(out)]


def heads_of(out):
    """The first line of each wait that is told."""
    return [part.split("\n")[0] for part in out.split("-" * 72 + "\n")]


class Places(Command):
    def test_places(self):
        text = trace(*BUSY)
        self.assertEqual(self.ran(text, "2:4"), (0, BUSY_TEXT + "\n", ""))
        self.assertEqual(self.ran(text, "0:1", "--all"), (0, BUSY_TEXT + "\n", ""))
        status, out, told = self.ran(text, "2:4", "2:2")
        self.assertEqual((status, told, heads_of(out)[0]), (0, "", BUSY_TEXT.split("\n")[0]))
        self.assertIn("a-10 (prio 120) has waited 400 us", heads_of(out)[1])

    def test_no_wait(self):
        self.assertEqual(self.ran(trace(*BUSY), "2:9"), (1, "", "why: no event of CPU 2 is at line 9: its lines are 1 to 4\n"))
        # What can be told is told.
        status, out, told = self.ran(trace(*BUSY), "2:4", "2:9")
        self.assertEqual((status, out, told.count("\n")), (1, BUSY_TEXT + "\n", 1))

    def test_words(self):
        for word in ("2", "2:", ":4", "2:x", "-2:4", "20000:1"):
            status, out, told = self.ran(trace(*BUSY), word)
            self.assertEqual((status, out, told.count("\n")), (2, "", 1), word)
        self.assertIn("2 is not a place CPU:LINE such as 2:1042", self.ran(b"", "2")[2])
        self.assertIn("there is no kind fast; the kinds are woken, new, preempted", self.ran(b"", "--kind", "fast")[2])
        self.assertIn("0 is not a number from 1 on", self.ran(b"", "--worst", "0")[2])

    def test_no_words(self):
        ran = subprocess.run([sys.executable, "-B", TOOL], stderr=subprocess.PIPE, check=False)
        self.assertEqual(ran.stderr, b"why: the following arguments are required: TRACE; --help says more\n")

    def test_help(self):
        ran = subprocess.run([sys.executable, "-B", TOOL, "--help"], stdout=subprocess.PIPE, check=False)
        self.assertEqual((ran.returncode, ran.stdout[:6]), (0, b"usage:"))

    def test_stretch_of_time(self):
        """Lines are counted from its first event on, which is said."""
        status, out, told = self.ran(trace(*BUSY), "2:3", "--from", "1.000050")
        self.assertEqual((status, told), (0, "why: TRACE: lines are counted from 1.000100 on\n"))
        self.assertIn("  1.000100  0:1  bash-7 on CPU 0 woke it", out)
        self.assertIn("2:3", out)
        status, out, told = self.ran(trace(*BUSY), "2:4", "--from", "1.000050")
        self.assertEqual((status, told.split("\n")[1]), (1, "why: no event of CPU 2 is at line 4: its lines are 1 to 3"))

    def test_chosen_events(self):
        """Events keep their numbers if others are left out, and what only these show isn't told."""
        status, out, told = self.ran(trace(*BUSY), "2:4", "--events", "waking,switch")
        self.assertEqual((status, told), (0, ""))
        self.assertNotIn("it was queued", out)
        self.assertIn("  1.000500  2:4  it ran on CPU 2", out)

    def test_any_order(self):
        """If a trace isn't in the order of time, a desk holds its events; the trace must be a file."""
        text = trace(*reversed(BUSY))
        status, out, told = self.ran(text)
        self.assertEqual((status, told, out.split("\n")[0]), (0, "", BUSY_TEXT.split("\n")[0]))
        ran = subprocess.run(
            [sys.executable, "-B", TOOL, "-"], input=text, stdout=subprocess.PIPE, stderr=subprocess.PIPE, check=False
        )
        self.assertEqual((ran.returncode, ran.stdout, ran.stderr.count(b"\n")), (2, b"", 1))
        self.assertIn(b"such a trace must be a file", ran.stderr)

    def test_standard_input(self):
        ran = subprocess.run([sys.executable, "-B", TOOL, "-"], input=trace(*BUSY), stdout=subprocess.PIPE, check=False)
        self.assertEqual((ran.returncode, ran.stdout.decode()), (0, BUSY_TEXT + "\n"))

    def test_lenient(self):
        """Lines that can't be read are left out, and no event before or after them is another one."""
        status, out, told = self.ran(trace("torn", *BUSY, "torn too"), "--lenient")
        self.assertEqual((status, out), (0, BUSY_TEXT + "\n"))
        self.assertEqual(told, "why: TRACE: 2 lines can't be read and are left out: the first is 1\n")

    def test_options_that_would_do_nothing(self):
        """Options that would do nothing are refused: a place names one wait, and some options are only for chains."""
        for words in ("--task w", "--kind woken", "--worst 2", "--cpu 2", "--doubtful", "--at 1.0003"):
            status, out, told = self.ran(trace(*BUSY), "2:4", *words.split())
            self.assertEqual((status, out), (2, ""))
            self.assertIn("a place names one wait", told)
        for words in (["--beyond"], ["--steps", "3"]):
            status, out, told = self.ran(trace(*BUSY), "2:4", *words)
            self.assertEqual((status, out), (2, ""))
            self.assertIn("go with --chain", told)

    def test_closed_pipe(self):
        path = os.path.join(self.folder, "long")
        with open(path, "wb") as file:
            file.write(trace(*BUSY))
        ran = subprocess.run(
            ["bash", "-c", '"$@" | head -n 1; exit "${PIPESTATUS[0]}"', "-", sys.executable, "-B", TOOL, path, *["2:4"] * 2000],
            stdout=subprocess.PIPE,
            stderr=subprocess.PIPE,
            check=False,
        )
        self.assertEqual((ran.returncode, ran.stdout.decode(), ran.stderr), (141, BUSY_TEXT.split("\n")[0] + "\n", b""))


class Chosen(Command):
    """Which waits are told if no place is named; their lengths are those that recordings.py writes down."""

    def test_worst(self):
        text = all_known()["kinds"].text
        self.assertEqual(self.heads(text), ["b-11 40"])
        self.assertEqual(self.heads(text, "--worst", "4"), ["b-11 40", "d-13 40", "a-10 30", "a-10 25"])
        self.assertEqual(len(self.heads(text, "--worst", "99")), 8)

    def test_choices(self):
        text = all_known()["kinds"].text
        self.assertEqual(self.heads(text, "--kind", "woken", "--worst", "3"), ["a-10 30", "a-10 25", "c-12 5"])
        self.assertEqual(self.heads(text, "--kind", "new,preempted", "--worst", "9"), ["b-11 40", "d-13 40", "e-13 7"])
        self.assertEqual(self.heads(text, "--cpu", "2-3", "--worst", "9"), ["d-13 40", "a-10 30", "e-13 7", "f-14 0"])
        self.assertEqual(self.heads(text, "--task", "10", "--worst", "9"), ["a-10 30", "a-10 25", "renamed-10 3"])
        self.assertEqual(self.heads(text, "--task", "renamed"), ["renamed-10 3"])
        several = self.heads(text, "--task", "renamed", "--task", "13", "--task", "c-12", "--worst", "9")
        self.assertEqual(several, ["d-13 40", "e-13 7", "c-12 5", "renamed-10 3"])

    def test_moment(self):
        """All waits that last at that moment: from the stamp at which they begin to that at which they end, both included."""
        text = all_known()["kinds"].text
        self.assertEqual(self.heads(text, "--at", "1.000025"), ["a-10 25"])
        self.assertEqual(self.heads(text, "--at", "1.000049"), ["a-10 25"])
        self.assertEqual(self.heads(text, "--at", "1.00005"), ["b-11 40", "a-10 25"])
        text = trace(
            waking("<idle>-0", 0, 1000000, "a", 10, 1),
            waking("<idle>-0", 0, 1000010, "b", 11, 1),
            switch(1, 1000050, "x-5", "S", "a-10"),
            switch(1, 1000090, "a-10", "S", "b-11"),
        )
        self.assertEqual(self.heads(text, "--at", "1.00003"), ["b-11 80", "a-10 50"])
        self.assertEqual(self.heads(text, "--at", "1.00003", "--worst", "1"), ["b-11 80"])

    def test_none(self):
        self.assertEqual(self.ran(trace(*BUSY), "--task", "nobody"), (1, "", "why: there is no such wait\n"))
        self.assertEqual(self.ran(b""), (1, "", "why: there is no such wait\n"))

    def test_doubtful(self):
        """The greatest waits are false, since CPU 2's events begin late."""
        text = all_known()["hole_at_start"].text
        status, out, told = self.ran(text, "--worst", "9")
        self.assertEqual((status, [head.partition(" ")[0] for head in heads_of(out)]), (0, ["true-46", "edge-45"]))
        self.assertEqual(
            told.split("\n")[1:], ["why: TRACE: 3 waits may be false and are left out; --doubtful explains them too", ""]
        )
        status, out, told = self.ran(text, "--doubtful")
        self.assertEqual((status, told.count("\n"), out.split(" ")[0]), (0, 1, "thrown-44"))
        self.assertIn("Doubtful: CPU 2 lost events between the beginning and 2.250000", out.replace("\n  ", " "))


class Unreadable(Command):
    """What is said of a trace that can't be read."""

    def hint(self, text):
        """What follows the first semicolon in the message about a trace."""
        status, out, message = self.ran(text)
        self.assertEqual((status, out), (2, ""))
        return message.split("\n")[0].partition("; ")[2]

    def test_line(self):
        self.assertEqual(self.hint(trace(*BUSY[:3], "torn", *BUSY[3:])), "--lenient leaves such lines out")

    def test_carriage_returns(self):
        text = trace(*BUSY).replace(b"\n", b"\r\n")
        hint = "its lines end with carriage returns (CR LF); {} >my.trace removes them"
        self.assertEqual(self.hint(text), hint.format("tr -d '\\r' <TRACE"))
        self.assertEqual(self.hint(gzip.compress(text)), hint.format("zcat TRACE | tr -d '\\r'"))

    def test_nothing_left(self):
        """Leaving lines out is no way if no event, or no switch, can be read: then nothing would be left."""
        text = trace(*BUSY)
        hint = "no {} in its first lines can be read: it may have another layout or clock"
        self.assertEqual(self.hint(text.replace(b"]", b"] d..2. x")), hint.format("event"))
        self.assertEqual(self.hint(text.replace(b"prev_comm=", b"from=")), hint.format("switch"))
        torn = text.replace(b"prev_comm=", b"from=", 1)
        self.assertEqual(self.hint(torn), "--lenient leaves such lines out")

    def test_no_trace(self):
        chance = random.Random(1)
        for content in (chance.randbytes(5000), chance.randbytes(100000).replace(b"\n", b""), b"a\nb\n"):
            self.assertEqual(self.hint(content), "it is no trace: none of its first lines is an event")
        self.assertEqual(
            self.hint(b"# tracer: wakeup\n# latency: 5 us\nbash-1 0d..1    1us : y\n"),
            "it has the header of a trace, but no line that can be read as an event: it may have another layout or clock",
        )
